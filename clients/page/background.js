// The tiles under the map, and the form in which the mapper chooses them.
"use strict";

/**
 * Tiles: their address, and whom to credit for them.
 * @typedef {{ url: string, credit: string }} Tiles
 */

/**
 * The tiles that the address of the page brings: `tiles` may be there several times, each with its own `credit` and its
 * name, `layer`.
 */
function tilesOfLink() {
  const [credits, names] = [given.getAll("credit"), given.getAll("layer")];
  return given.getAll("tiles").filter(Boolean).map((url, at) => (
    { label: names[at] || `tiles of the link${at ? ` ${at + 1}` : ""}`, url, credit: credits[at] ?? "" }
  ));
}

/** Offers the tiles of the address, those that were typed last, and others. */
class Background {
  /** @param {Page} page */
  constructor(page) {
    this.page = page;
    const last = memory.get("maproom tiles");
    /** @type {(Tiles & { label: string })[]} */
    this.choices = [{ label: "nothing", url: "", credit: "" }];
    this.shift = { east: 0, north: 0 }; // metres
    this.choices.push(...tilesOfLink());
    const isOfLink = this.choices.length > 1;
    if (last.url && !this.choices.some(({ url }) => url === last.url)) {
      this.choices.push({ label: "tiles used last", url: last.url, credit: last.credit ?? "" });
    }
    const options = this.choices.map(({ label }, at) => new Option(label, String(at)));
    $("tiles-choice").replaceChildren(...options, new Option("other tiles ..", "own"));
    $("tiles-choice").onchange = () => this.choose();
    $("tiles").onsubmit = (event) => {
      event.preventDefault();
      this.useOwn();
    };
    $("areas-shown").onchange = () => this.showAreas($("areas-shown").value);
    $("tiles-fade").oninput = () => page.view.fadeTiles(Number($("tiles-fade").value) / 100);
    const steps = { west: [-1, 0], north: [0, 1], south: [0, -1], east: [1, 0] };
    for (const [name, [east, north]] of Object.entries(steps)) {
      $(/** @type {ButtonId} */(`tiles-${name}`)).onclick = () => this.shiftBy(east, north);
    }
    $("tiles-home").onclick = () => this.shiftBy(-this.shift.east, -this.shift.north);
    if (isOfLink) this.use(1);
  }

  /**
   * Shifts the tiles by metres, so that they lie under what they show.
   * @param {number} east
   * @param {number} north
   */
  shiftBy(east, north) {
    const { shift } = this;
    const { view } = this.page;
    shift.east += east;
    shift.north += north;
    const metres = metresAt(view.positionAt(view.middle()));
    view.shiftTiles(shift.east / metres, -shift.north / metres);
    $("tiles-offset").textContent = `${shift.east} m to the east, ${shift.north} m to the north`;
  }

  /**
   * Shows tiles, or none. Areas then become outlines, so that they hide nothing.
   * @param {string} url
   * @param {string} credit
   */
  show(url, credit) {
    this.page.view.setTiles(url, credit);
    $("tiles-more").hidden = !url;
    this.showAreas(url ? "0" : "1");
  }

  /** @param {string} part */
  showAreas(part) {
    $("areas-shown").value = part;
    this.page.view.fadeAreas(Number(part));
  }

  choose() {
    const { value } = $("tiles-choice");
    $("tiles-own").hidden = value !== "own";
    if (value !== "own") this.use(Number(value));
  }

  /** @param {number} at */
  use(at) {
    const choice = this.choices[at];
    $("tiles-choice").value = String(at);
    this.page.tiles = choice.url ? choice : null;
    this.show(choice.url, choice.credit);
  }

  useOwn() {
    const own = { url: $("tiles-url").value.trim(), credit: $("tiles-credit").value.trim() };
    if (!/^https?:\/\/.*\{z\}/.test(own.url) || !own.url.includes("{x}") || !/\{-?y\}/.test(own.url)) {
      sayFaultAt($("tiles-url"), "The address of tiles has {z}, {x} and {y} in it.");
      return;
    }
    memory.set("maproom tiles", own);
    this.page.tiles = own;
    this.show(own.url, own.credit);
  }
}
