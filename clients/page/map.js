// Starts the page. Its parts, each in a file of its own:
//
//     Page            the page as a whole: it has the parts below, shows what happens, and does gestures
//     Session         the room, over the library maproom.js: its map, gestures, what is not saved, and undos
//     Shapes          the elements on the plane of the map, which it draws and finds
//     View            the window on them, with Leaflet; Pointers reports clicks and drags, labels.js places the names
//     Tools           what clicks, drags and keys on the map do; Overlay draws that over the map
//     Panels          the lists and fields next to the map
//     Journal         the lists of changes, and who made them
//     TagForm         the fields of the tags; a TagDraft has those that are typed
//     Warnings        the faults that Checks finds, in what the mapper changed and in the whole map
//     Questions       what the mapper is asked if somebody else changed the same value
//     Copies          what the mapper copied
//     KeptDrawings    drawings of a tab that was closed
//     Background      the tiles under the map
//     LocalFiles      tracks and photos of the mapper's own; Locator shows where the mapper is
//     Shortcuts       the list of keys
//
// Tools and Panels do a gesture by Page.perform. Edits, WayEdits and Shaping make its actions from the map, and Session
// sends them as one group. What the room answers and reports comes back by Page.takeMap and Page.takeChange, which
// Shapes, View, Panels and Warnings follow. These are scripts and no modules, because a browser loads no module from a
// file.
"use strict";

/** Fills in the form, by the address of the page or else as it was last. */
function fillIn() {
  const last = memory.get("maproom last");
  $("name").value = given.get("name") ?? last.name ?? "";
  $("room").value = given.get("room") ?? (given.has("address") ? "" : last.room ?? "");
  const lastUrl = given.has("room") ? "" : last.url;
  $("address").value = withoutLogin(given.get("address") ?? (lastUrl || usualAddress($("room").value)));
  let isUsual = !given.has("address") && !lastUrl;
  $("address").oninput = () => (isUsual = false);
  $("room").oninput = () => {
    if (isUsual) $("address").value = usualAddress($("room").value);
  };
}

/** Joins the room of a link. Only the mapper can choose a server that the page does not belong to. */
function followLink() {
  const address = $("address").value;
  if (isOwnServer(address)) {
    $("connect").click();
    return;
  }
  const host = address.replace(/^\w*:?\/\//, "").split("/")[0];
  page.say(`This link joins a room at ${host}, which is not the site of this page. Press Connect if you trust it.`);
  $("connect").focus();
}

const page = new Page();
putSigns();
fillIn();
loadLeaflet().then(() => {
  page.makeMap();
  page.background = new Background(page);
  listen(page);
  page.panels.showAll();
  if (given.has("connect")) followLink();
  else if (!$("room").value) $("room").focus();
  else $("name").focus();
}, () => {
  $("connect").disabled = true;
  page.sayWrong("This page cannot draw a map: Leaflet is neither beside it (Debian's package libjs-leaflet) nor can it "
    + "be loaded from the internet.");
});
