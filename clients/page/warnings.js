// The warnings: the faults in what the mapper just changed, at once, and those of the whole map on demand. Each has a
// button that shows its place and, where it is clear, one that repairs it.
"use strict";

const SLICE = 8; // milliseconds of work at a time, so that the map goes on moving
const MOST_WARNED = 3; // warnings that are said at once
const MOST_OWN = 200; // elements of a change that are checked at once
const MOST_BEFORE = 30; // elements whose faults before a change are looked for
const SAME_PLACE = 5e-8; // on the plane: two metres at the equator

/**
 * Whether two faults are the same, though the lists of nodes may be others.
 * @param {Fault} one
 * @returns {(other: Fault) => boolean}
 */
const isSameFault = (one) => (other) => one.kind === other.kind && one.els.join() === other.els.join()
  && distanceBetween(one.at, other.at) < SAME_PLACE;

/** @param {ChangedRow} row */
const isRetagged = ({ before, after }) => before !== null && !isSameValue(before.tags, after?.tags);

class Warnings {
  /** @param {Page} page */
  constructor(page) {
    this.page = page;
    /** @type {Map<string, Fault>} */
    this.faults = new Map(); // by their keys
    /** @type {Set<string>} */
    this.hidden = new Set(); // keys of those that the mapper hid
    /** @type {Set<string>} */
    this.waiting = new Set(); // elements that are to be checked
    /** @type {Set<string>} */
    this.own = new Set(); // those of them that the mapper changed
    /** @type {Fault[]} */
    this.listed = []; // the faults in the list that the changes may have ended
    /** @type {Fault[]} */
    this.older = []; // faults that were there before the mapper's changes
    /** @type {Fault[]} */
    this.unsaid = [];
    /** @type {{ done: number, of: number } | null} */
    this.whole = null; // how far the check of the whole map is
    this.isWhole = false; // whether all faults of the map are listed
    /** @type {number[]} */
    this.slices = []; // milliseconds of each piece of the last check of the whole map
    this.mostShown = MOST_SHOWN;
    /** @type {number | undefined} */
    this.timer = undefined;
  }

  /** Another map, or another run of the server. */
  clear() {
    clearTimeout(this.timer);
    this.timer = undefined;
    this.whole = null;
    this.isWhole = false;
    this.unsaid = this.listed = this.older = [];
    for (const each of [this.faults, this.hidden, this.waiting, this.own]) each.clear();
    this.show();
  }

  // ---- What is checked

  /**
   * Notes what lines cross before a change of the mapper's own, of which Shapes does not know yet.
   * @param {ChangedRow[]} rows
   */
  takeBefore(rows) {
    const { elements, shapes } = this.page;
    const checks = new Checks(elements, shapes);
    const retagged = new Set(rows.filter(isRetagged).map(({ el }) => el));
    for (const el of [...this.touchedBy(rows)].slice(0, MOST_BEFORE)) {
      const [row, shape] = [elements.get(el), shapes.ways.get(el)];
      const isLine = row?.nodes && !retagged.has(el) && lineKindOf(row.tags);
      if (isLine && shape) this.older.push(...checks.crossings(row, shape));
    }
  }

  /**
   * Follows a change: the faults of what changed are looked at again and, if it is the mapper's own, new ones are said.
   * @param {ChangedRow[]} rows
   * @param {boolean} isOwn
   */
  take(rows, isOwn) {
    const touched = this.touchedBy(rows);
    const names = new Set([...touched, ...rows.map(({ el }) => el)]);
    for (const [key, fault] of this.faults) {
      if (!fault.els.some((el) => names.has(el))) continue;
      this.faults.delete(key);
      this.listed.push(fault);
      for (const el of fault.els) if (el[0] !== "n") this.waiting.add(el);
    }
    for (const el of isOwn && touched.size <= MOST_OWN ? touched : []) {
      this.waiting.add(el);
      this.own.add(el);
    }
    if (this.waiting.size > 0) this.soon();
  }

  /**
   * The ways and relations that a change may have given a fault, or taken one from.
   * @param {ChangedRow[]} rows
   */
  touchedBy(rows) {
    const { shapes } = this.page;
    const ways = rows.flatMap(({ el }) => (el[0] === "n" ? shapes.usersOf(el) : [el]));
    return new Set([...ways, ...ways.flatMap((el) => shapes.parentsOf(el))]);
  }

  soon() {
    if (this.whole) return; // this is checked after the whole map
    this.timer ??= setTimeout(() => {
      this.timer = undefined;
      this.work(this.checkWaiting());
    });
  }

  /**
   * Goes through steps of work, some milliseconds at a time.
   * @param {Generator<void>} steps
   */
  work(steps) {
    const began = performance.now();
    let isDone = false;
    while (!isDone && performance.now() < began + SLICE) isDone = Boolean(steps.next().done);
    if (this.whole) this.slices.push(performance.now() - began);
    if (!isDone) {
      this.showProgress();
      this.timer = setTimeout(() => {
        this.timer = undefined; // otherwise nothing would be checked after these steps
        this.work(steps);
      });
    } else if (this.waiting.size > 0) {
      this.soon();
    }
  }

  /** @returns {Generator<void>} */
  *checkWaiting() {
    const { page } = this;
    const checks = new Checks(page.elements, page.shapes);
    const { own, listed, older } = this;
    const els = [...this.waiting];
    this.waiting.clear();
    [this.own, this.listed, this.older] = [new Set(), [], []];
    for (const el of els) {
      for (const fault of checks.of(el)) {
        const wasListed = listed.some(isSameFault(fault));
        const isNew = own.has(el) && !older.some(isSameFault(fault));
        if (wasListed || isNew) this.put(fault, !wasListed);
      }
      yield;
    }
    this.show();
    this.say();
  }

  /**
   * @param {Fault} fault
   * @param {boolean} isNew
   */
  put(fault, isNew) {
    if (isNew && !this.faults.has(fault.key) && fault.kind !== "untagged") this.unsaid.push(fault);
    this.faults.set(fault.key, fault);
  }

  /** Checks the whole map. */
  checkAll() {
    const { page } = this;
    if (!page.session?.room || this.whole) return;
    clearTimeout(this.timer);
    this.timer = undefined;
    const els = [...page.shapes.ways.keys(), ...page.shapes.relations];
    this.whole = { done: 0, of: els.length };
    this.slices = [];
    this.work(this.checkEach(els));
  }

  /**
   * @param {string[]} els
   * @returns {Generator<void>}
   */
  *checkEach(els) {
    const { page } = this;
    const grid = new WayGrid(page.shapes);
    for (const way of [...page.shapes.ways.values()]) {
      const row = page.elements.get(way.el);
      if (row && lineKindOf(row.tags)) grid.put(way);
      yield;
    }
    const checks = new Checks(page.elements, page.shapes, grid);
    this.faults.clear();
    for (const el of els) {
      for (const fault of checks.of(el)) this.put(fault, false);
      if (this.whole) this.whole.done += 1;
      yield;
    }
    this.whole = null;
    this.isWhole = true;
    this.show();
  }

  // ---- What is shown and said

  /** The faults that the mapper did not hide, the latest first. */
  shown() {
    return [...this.faults.values()].filter(({ key }) => !this.hidden.has(key)).reverse();
  }

  showProgress() {
    if (!this.whole) return;
    $("warnings-count").textContent = `Checking: ${Math.floor((100 * this.whole.done) / this.whole.of)} %`;
  }

  show() {
    this.page.panels.put("warnings", () => this.putList());
  }

  putList() {
    const shown = this.shown();
    const rest = shown.length - this.mostShown;
    $("warnings").replaceChildren(...shown.slice(0, this.mostShown).map((fault) => this.item(fault)));
    if (rest > 0) {
      const more = button(`Show ${Math.min(rest, 200)} more`, () => {
        this.mostShown += 200;
        this.show();
      });
      $("warnings").append(make("li", {}, more));
    }
    const about = this.isWhole ? "in the whole map" : "in what you changed";
    const count = `${counted(shown.length, "warning")} ${about}`;
    $("warnings-count").textContent = shown.length || this.isWhole ? count : "";
    this.page.view?.paintOverSoon();
  }

  /** @param {Fault} fault */
  item(fault) {
    const { text, repair, key } = fault;
    const go = button(text, () => this.go(fault), { className: "item", title: "Shows the place" });
    const hide = button("×", () => {
      this.hidden.add(key);
      this.show();
    }, { label: `Hide: ${text}` });
    if (!repair) return make("li", {}, go, hide);
    const mend = button(repair.label, () => this.repair(repair), { label: `${repair.label}: ${text}` });
    return make("li", {}, go, mend, hide);
  }

  /** @param {Repair} repair */
  repair({ text, build }) {
    this.page.perform(text, build);
  }

  /** @param {Fault} fault */
  go({ els, at }) {
    const { page } = this;
    page.select(...els.filter((el) => el[0] !== "n").slice(0, 1));
    page.view.show(pointBox(at.x, at.y));
  }

  /** Says the new faults, once the change that made them is answered. */
  say() {
    const { page } = this;
    if (this.unsaid.length === 0 || (page.session?.unsaved ?? 0) > 0) return;
    const faults = this.unsaid.splice(0).filter(({ key }) => this.faults.has(key) && !this.hidden.has(key));
    if (faults.length === 0) return;
    const rest = faults.length - MOST_WARNED;
    const more = rest > 0 ? [`There are ${rest} more in the list of warnings.`] : [];
    page.warn([...faults.slice(0, MOST_WARNED).map(({ text }) => text), ...more].join(" "), faults[0].els[0]);
  }

  /**
   * Marks the places of the faults on the map.
   * @param {CanvasRenderingContext2D} context
   * @param {Frame} frame
   */
  paint(context, frame) {
    const { x: width, y: height } = this.page.view.size();
    context.font = "700 13px system-ui, 'DejaVu Sans', sans-serif";
    context.textAlign = "center";
    context.textBaseline = "middle";
    for (const { kind, at } of this.shown()) {
      const [x, y] = [at.x * frame.scale - frame.left, at.y * frame.scale - frame.top];
      if (kind === "untagged" || x < 0 || y < 0 || x > width || y > height) continue;
      context.beginPath();
      context.arc(x, y, 9, 0, 7);
      context.fillStyle = "rgba(179, 38, 30, .85)";
      context.fill();
      context.fillStyle = "#fff";
      context.fillText("!", x, y + 1);
    }
  }
}
