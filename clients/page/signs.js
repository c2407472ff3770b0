// The signs on buttons: lines and areas on a square of 16 by 16.
"use strict";

const SIGNS = {
  select: "M3 2l10 5-4.3 1.4L7 13z",
  point: "M8 4a4 4 0 1 0 .01 0z",
  line: "M2 13l4-8 4 4 4-7",
  area: "M3 5l6-2 4 6-4 5-6-2z",
  undo: "M6 3L2.5 6.5 6 10M3 6.5h6.5a3.5 3.5 0 0 1 0 7H6",
  redo: "M10 3l3.5 3.5L10 10M13 6.5H6.5a3.5 3.5 0 0 0 0 7H10",
  fit: "M2 6V2h4M10 2h4v4M14 10v4h-4M6 14H2v-4",
  locate: "M8 5a3 3 0 1 0 .01 0zM8 1v3M8 12v3M1 8h3M12 8h3",
  sheet: "M2 4h12M2 8h12M2 12h12",
  help: "M5.5 6a2.5 2.5 0 1 1 3.6 2.2C8.3 8.7 8 9.2 8 10M8 13v.1",
  share: "M8 2v8M5 5l3-3 3 3M3 8v6h10V8",
  leave: "M6 2H2v12h4M6 8h8M11 5l3 3-3 3",
  finish: "M3 8l4 4 6-8",
  back: "M14 4H6L2 8l4 4h8zM8 6.5l3 3M11 6.5l-3 3",
  cancel: "M4 4l8 8M12 4l-8 8",
  remove: "M3 4h10M6 4V2h4v2M4.5 4l.7 10h5.6l.7-10",
  move: "M8 1v14M1 8h14M6 3l2-2 2 2M6 13l2 2 2-2M3 6L1 8l2 2M13 6l2 2-2 2",
  copy: "M5 5h8v9H5zM3 11V2h8",
  turn: "M13 8a5 5 0 1 1-2-4M11 1v3H8",
  relation: "M4 4a2 2 0 1 0 .01 0zM12 4a2 2 0 1 0 .01 0zM8 11a2 2 0 1 0 .01 0zM6 6h4M5 8l2 3M11 8l-2 3",
  save: "M2 2h10l2 2v10H2zM5 2v4h6V2M5 14v-4h6v4",
  go: "M8 1.5a4.5 4.5 0 0 0-4.5 4.5C3.5 9.5 8 14.5 8 14.5s4.5-5 4.5-8.5A4.5 4.5 0 0 0 8 1.5zM8 5a1 1 0 1 0 .01 0z",
  file: "M3 1.5h6l4 4v9H3zM9 1.5v4h4",
};

/** @typedef {keyof typeof SIGNS} SignName */

/**
 * A sign, which a screen reader skips.
 * @param {SignName} name
 */
function signOf(name) {
  const space = "http://www.w3.org/2000/svg";
  const sign = document.createElementNS(space, "svg");
  sign.setAttribute("class", "sign");
  sign.setAttribute("viewBox", "0 0 16 16");
  sign.setAttribute("aria-hidden", "true");
  const path = document.createElementNS(space, "path");
  path.setAttribute("d", SIGNS[name]);
  sign.append(path);
  return sign;
}

// Buttons of map.html with a sign in front of their text, which a narrow window leaves out.
/** @type {Partial<Record<ButtonId, SignName>>} */
const SIGNED = {
  select: "select", point: "point", line: "line", area: "area", undo: "undo", redo: "redo", fit: "fit", sheet: "sheet",
  locate: "locate", help: "help", share: "share", leave: "leave", finish: "finish", back: "back", cancel: "cancel",
  "open-files": "file",
};

/** Gives the buttons of map.html their signs. Their text stays their name. */
function putSigns() {
  for (const [id, sign] of Object.entries(SIGNED)) {
    const item = $(/** @type {ButtonId} */(id));
    const text = (item.textContent ?? "").trim();
    if (!item.hasAttribute("aria-label")) item.setAttribute("aria-label", text);
    item.classList.add("signed");
    item.replaceChildren(signOf(sign), make("span", { textContent: text }));
  }
}
