// The lists of what was done in the room: the mapper's own changes, those of others, and the people who made them.
"use strict";

const NONE_CAME = "No change came while you were connected.";
const NOBODY = "Whoever changes something appears here. The server does not say who only looks.";
const FIRST = 10; // how many lines a list has before the mapper asks for more
const MORE = 40;

class Journal {
  /** @param {Page} page */
  constructor(page) {
    this.page = page;
    this.most = { undos: FIRST, changes: FIRST, people: FIRST }; // lines of each list
  }

  /**
   * Shows the first lines of a list, with a button for more.
   * @param {"undos" | "changes" | "people"} name
   * @param {HTMLElement[]} items
   * @param {string} none what is said if there are none
   * @param {() => void} again
   */
  fill(name, items, none, again) {
    const rest = items.length - this.most[name];
    const more = button(`Show ${Math.min(rest, MORE)} more`, () => {
      this.most[name] += MORE;
      again();
    });
    $(name).replaceChildren(...items.slice(0, this.most[name]), ...(rest > 0 ? [make("li", {}, more)] : []),
      ...(items.length ? [] : [soft("li", none)]));
  }

  /** What others did, the latest first. */
  othersEntries() {
    const { session } = this.page;
    return [...session?.entries.values() ?? []].filter(({ by }) => by !== session?.name).reverse();
  }

  showAll() {
    this.showUndos();
    this.showChanges();
    this.showPeople();
  }

  showUndos() {
    this.page.panels.put("undos", () => this.putUndos());
  }

  putUndos() {
    const { session } = this.page;
    const { undos, redos } = session && this.page.isInside ? session : { undos: [], redos: [] };
    const items = [...this.runsOf(undos).reverse().map((run) => this.undoItem(run)),
    ...this.runsOf(redos).reverse().map((run, index) => this.redoItem(run, index === 0))];
    this.fill("undos", items, "Nothing yet.", () => this.putUndos());
    const [last, taken] = [undos.at(-1), redos.at(-1)];
    /**
     * @param {Gesture | undefined} seqs
     * @param {string} what
     * @param {string} keys
     */
    const title = (seqs, what, keys) => (seqs ? `${what}: ${session?.textOf(seqs[0])} (${keys})` : "");
    Object.assign($("undo"), { disabled: !last, title: title(last, "Undo", "Ctrl+Z") });
    Object.assign($("redo"), { disabled: !taken, title: title(taken, "Redo", "Ctrl+Y") });
  }

  /**
   * Gestures in lists: each of its own, but those together of which nothing is known.
   * @param {Gesture[]} gestures
   */
  runsOf(gestures) {
    /** @type {Gesture[][]} */
    const runs = [];
    let wasUnknown = false;
    for (const seqs of gestures) {
      const isUnknown = !this.page.joinedSession.isKnown(seqs[0]);
      if (wasUnknown && isUnknown) lastOf(runs).push(seqs);
      else runs.push([seqs]);
      wasUnknown = isUnknown;
    }
    return runs;
  }

  /**
   * A line for gestures of which the last can be undone.
   * @param {Gesture[]} run
   */
  undoItem(run) {
    const session = this.page.joinedSession;
    const last = lastOf(run);
    const isBlocked = session.conflict !== null && last.includes(session.conflict.seq);
    const many = `${run.length} earlier entries, made before you came`;
    const text = run.length > 1 ? many : `${last[0]}: ${session.textOf(last[0])}`;
    const what = run.length > 1 ? `Undo the last of them, entry ${last[0]}` : `Undo entry ${text}`;
    const word = run.length > 1 ? `Undo ${last[0]}` : "Undo";
    const entry = session.entries.get(last[0]);
    return make("li", { className: isBlocked ? "blocks" : "" }, make("span", { textContent: text }),
      button(word, () => this.page.undo(last), { label: what, title: what, sign: "undo" }),
      ...(run.length === 1 && entry ? this.goTo(entry) : []));
  }

  /**
   * A line for undone gestures, of which the last of all can be redone.
   * @param {Gesture[]} run
   * @param {boolean} isLast
   */
  redoItem(run, isLast) {
    const [seq] = lastOf(run);
    const many = `${run.length} undone entries, made before you came`;
    const text = run.length > 1 ? many : `${seq}, undone: ${this.page.joinedSession.textOf(seq)}`;
    const redo = isLast ? [button("Redo", () => this.page.redo(), { label: `Redo entry ${seq}`, sign: "redo" })] : [];
    return make("li", { className: "soft" }, make("span", { textContent: text }), ...redo);
  }

  /**
   * A button that shows where an entry was, if that is known.
   * @param {Entry} entry
   * @param {string} label
   */
  goTo(entry, label = `Go to entry ${entry.seq} on the map`) {
    return entry.rows.length ? [button("Go", () => this.page.showEntry(entry), { label, sign: "go" })] : [];
  }

  /** @param {Entry} entry */
  changeItem(entry) {
    const session = this.page.joinedSession;
    const author = make("b", { textContent: entry.by });
    const text = make("span", {}, author, ` ${session.deed(entry)} `, timeOf(entry.at));
    const item = make("li", {}, dotOf(entry.by), text, ...this.goTo(entry));
    item.classList.toggle("blocks", entry.seq === session.conflict?.with);
    item.dataset.seq = String(entry.seq);
    return item;
  }

  /** @param {Entry} entry */
  showChange(entry) {
    const { page } = this;
    if (entry.by === page.joinedSession.name) return;
    const list = $("changes");
    const isFull = list.children.length >= this.most.changes || !list.querySelector("[data-seq]");
    if (page.panels.isPressed || isFull || !page.joinedSession.entries.has(entry.seq - 1)) this.showChanges();
    else list.prepend(this.changeItem(entry));
  }

  showChanges() {
    this.page.panels.put("changes", () => this.putChanges());
  }

  putChanges() {
    const none = this.page.isInside ? "Changes of others appear here." : NONE_CAME;
    const entries = this.othersEntries().slice(0, this.most.changes + 1 + MORE);
    this.fill("changes", entries.map((entry) => this.changeItem(entry)), none, () => this.putChanges());
  }

  showPeople() {
    this.page.panels.put("people", () => this.putPeople());
  }

  putPeople() {
    /** @type {Map<string, Entry>} */
    const latest = new Map();
    for (const entry of this.othersEntries()) if (!latest.has(entry.by)) latest.set(entry.by, entry);
    const items = [...latest.values()].map((entry) => this.personItem(entry));
    this.fill("people", items, this.page.isInside ? NOBODY : NONE_CAME, () => this.putPeople());
  }

  /** @param {Entry} entry */
  personItem(entry) {
    const { by, at } = entry;
    const deed = this.page.joinedSession.deed(entry);
    const text = make("span", {}, make("b", { textContent: by }), ` ${deed} `, timeOf(at));
    return make("li", {}, dotOf(by), text, ...this.goTo(entry, `Go to where ${by} was last`));
  }
}
