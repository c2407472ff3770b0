// Drawings that are not saved, which the browser keeps for the next visit if the tab is closed.
"use strict";

/**
 * A drawing as it is kept.
 * @typedef {Pick<Draft, "places" | "isArea" | "extend" | "preset">} KeptDraft
 */

const KEEP_AFTER = 200; // milliseconds
const SAME_NODE = 1e-9; // on the plane: where a node still is that a drawing meets

class KeptDrawings {
  /** @param {Page} page */
  constructor(page) {
    this.page = page;
    // Each tab has a lock as long as it is open, so that others know whose drawings nobody has any more.
    this.tab = `maproom tab ${Date.now()} ${Math.random()}`;
    this.isKeeping = false; // whether the browser has locks, which it has on secure pages
    /** @type {number | undefined} */
    this.timer = undefined;
  }

  listen() {
    const { locks } = navigator;
    if (!locks) return;
    this.isKeeping = true;
    locks.request(this.tab, () => new Promise(() => {}));
    addEventListener("pagehide", () => this.keep());
    document.addEventListener("visibilitychange", () => this.keep());
  }

  /** Under what the browser keeps the drawings of the room, by the tabs. */
  get key() {
    return this.page.session && `maproom drawings${this.page.session.key.slice("maproom".length)}`;
  }

  keepSoon() {
    this.timer ??= setTimeout(() => this.keep(), KEEP_AFTER);
  }

  /** Keeps what is drawn now. */
  keep() {
    clearTimeout(this.timer);
    this.timer = undefined;
    const { key } = this;
    if (!this.isKeeping || !key) return;
    const { draft, unsaved } = this.page.tools;
    const drawn = draft?.places.length ? [{ ...draft, preset: $("preset").value }] : [];
    const drafts = [...drawn, ...unsaved].map(({ places, isArea, extend, preset }) => (
      { places, isArea, extend, preset }
    ));
    const kept = this.kept(key);
    if (drafts.length === 0 && !kept[this.tab]) return;
    if (drafts.length) kept[this.tab] = drafts;
    else delete kept[this.tab];
    this.write(key, kept);
  }

  /** The room is left: what is drawn is another room's or name's now, if it stays. */
  forget() {
    const { key } = this;
    if (!this.isKeeping || !key) return;
    const kept = this.kept(key);
    if (!kept[this.tab]) return;
    delete kept[this.tab];
    this.write(key, kept);
  }

  /**
   * @param {string} key
   * @returns {Record<string, KeptDraft[]>}
   */
  kept(key) {
    return /** @type {Record<string, any>} */ (memory.get(key));
  }

  /**
   * @param {string} key
   * @param {Record<string, KeptDraft[]>} kept
   */
  write(key, kept) {
    if (Object.keys(kept).length) memory.set(key, kept);
    else memory.drop(key);
  }

  /** Gives the mapper the drawings back that a closed tab had in this room. */
  async bringBack() {
    const { page, key } = this;
    const { session } = page;
    if (!this.isKeeping || !key) return;
    const { held = [] } = await navigator.locks.query();
    if (session !== page.session) return;
    const open = new Set(held.map(({ name }) => name));
    const kept = this.kept(key);
    const gone = Object.keys(kept).filter((tab) => tab !== this.tab && !open.has(tab));
    const drafts = gone.flatMap((tab) => kept[tab]);
    if (drafts.length === 0) return;
    for (const tab of gone) delete kept[tab];
    this.write(key, kept);
    page.tools.unsaved.push(...drafts.map((draft) => this.draftOf(draft)));
    page.showSaved();
    page.tools.goOnDrawing();
    page.say(`What you drew at your last visit is here again. ${page.tools.hintOf("again")}`);
  }

  /**
   * A drawing of the last visit. It meets a node only where that still is, since another map can have another node of
   * this name.
   * @param {KeptDraft} kept
   * @returns {Draft}
   */
  draftOf({ places, ...more }) {
    const { shapes } = this.page;
    const free = places.map((place) => {
      const at = place.el ? shapes.positionOf(place.el) : null;
      const isThere = at && distanceBetween(at, place) < SAME_NODE;
      return place.el && !isThere ? { x: place.x, y: place.y } : place;
    });
    return { ...more, places: free, isUnsaved: true, error: null };
  }
}
