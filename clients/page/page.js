// The page: a session in a room, with its map, its tools and its lists.
"use strict";

/**
 * A number of degrees that somebody typed, or null.
 * @param {string} text
 * @param {number} most
 */
function degreesOf(text, most) {
  const isNumber = /^-?\d{1,3}([.,]\d+)?$/.test(text.trim());
  const value = Number(text.trim().replace(",", "."));
  return isNumber && Math.abs(value) <= most ? value : null;
}

/**
 * Does something when the browser has time.
 * @param {() => void} work
 */
function whenIdle(work) {
  if ("requestIdleCallback" in window) requestIdleCallback(work, { timeout: 1000 });
  else setTimeout(work, 200);
}

/**
 * Actions without a second move of a node, which two ways can have.
 * @param {maproom.Message[]} actions
 */
function firstMoves(actions) {
  const moved = new Set();
  return actions.filter(({ do: word, els }) => {
    const key = word === "move" ? String(els) : null;
    const isFirst = key === null || !moved.has(key);
    moved.add(key);
    return isFirst;
  });
}

// How many refusals a message has at most.
const MOST_REFUSALS = 4;

// After how many milliseconds news count as seen that the browser does not paint.
const UNPAINTED = 100;

class Page {
  constructor() {
    /** @type {Session | null} */
    this.session = null;
    /** @type {string[]} */
    this.selected = [];
    this.isHint = false;
    this.isByKeys = false; // whether the map has the focus by keys
    this.inputs = 0; // how often a mapper pressed something
    /** @type {{ texts: string[], inputs: number, isConflict: boolean } | null} */
    this.refusal = null; // what is said of it, and how often something had been pressed by then
    /** @type {string | null} */
    this.shown = null; // the element that the message offers to show
    this.choices = 0; // how often a mapper selected something
    /** @type {{ text: string, reason: string, isUnsure: boolean }[]} */
    this.notDone = []; // changes that were dropped, until the mapper closes their list
    this.isTouch = matchMedia("(pointer: coarse)").matches; // whether a finger was at work last
    this.timings = { map: 0, news: 0, find: 0 }; // milliseconds of script
    /** @type {Tiles | null} */
    this.tiles = null;
    /** @type {number | undefined} */
    this.later = undefined; // the timers of what may come later
    /** @type {number | undefined} */
    this.changesLater = undefined;
    this.shapes = new Shapes();
    this.tools = new Tools(this);
    this.overlay = new Overlay(this);
    this.panels = new Panels(this);
    this.journal = new Journal(this);
    this.warnings = new Warnings(this);
    this.questions = new Questions(this);
    this.copies = new Copies();
    this.files = new LocalFiles(this);
    this.locator = new Locator(this);
    this.kept = new KeptDrawings(this);
    // These are set when Leaflet is there. Nothing can be pressed before.
    /** @type {View} */
    this.view;
    /** @type {Background} */
    this.background;
  }

  /** @returns {Elements} */
  get elements() {
    return this.session?.elements ?? new Map();
  }

  get wayEdits() {
    return new WayEdits(this.elements, this.shapes);
  }

  /** The session, where there is one. */
  get joinedSession() {
    if (!this.session) throw new Error("There is no session.");
    return this.session;
  }

  /** Whether what is done here is sent: now, or once a lost connection is back. */
  get isInside() {
    return this.session !== null && this.session.room !== null && !this.session.isOver;
  }

  /** Makes the map, once Leaflet is there. */
  makeMap() {
    this.view = new View($("map"), this.shapes, {
      paintOver: (context, frame) => this.overlay.paint(context, frame),
      labels: (box, zoom, widthOf) => labelsIn(this, box, zoom, widthOf),
      obstacles: (box, zoom) => obstaclesIn(this.shapes, box, zoom),
    });
    new Pointers(this.view, this.tools);
  }

  // ---- The session

  /**
   * @param {string} address
   * @param {string} roomName
   * @param {string} name
   */
  connect(address, roomName, name) {
    const url = withoutLogin(address);
    const session = new Session(url, roomName, name);
    if (this.isElsewhere(url, roomName)) this.forgetRoom();
    this.kept.forget();
    this.session = session;
    this.kept.keepSoon();
    this.follow(session);
    session.choose = (disputes) => this.questions.ask(disputes);
    session.open();
    return session;
  }

  /**
   * Shows what comes in a session, as long as it is the page's.
   * @param {Session} session
   */
  follow(session) {
    /**
     * @template {keyof SessionEvents} Type
     * @param {Type} type
     * @param {(about: SessionEvents[Type]) => void} show
     */
    const on = (type, show) => session.listen(type, (about) => session === this.session && show(about));
    on("state", () => this.showState());
    on("unsaved", () => {
      this.showSaved();
      setTimeout(() => this.warnings.say()); // after what is said of the change
    });
    on("map", (about) => this.takeMap(about));
    on("renamed", () => {
      $("name").value = session.name;
      this.say(`You are logged in as ${session.name}, and take part under that name.`);
    });
    on("change", ({ entry, rows }) => {
      this.takeChange(entry, rows);
      // A link may have chosen the address, so it is remembered only when the mapper has saved something there.
      const { url, roomName: room, name } = session;
      if (entry.by === name) memory.set("maproom last", { url, room, name });
    });
    on("history", () => this.showHistory());
    on("conflict", () => this.showConflict());
  }

  /**
   * Whether a room is another one than that of the last session.
   * @param {string} url
   * @param {string} roomName
   */
  isElsewhere(url, roomName) {
    return this.session !== null && (this.session.url !== url || this.session.roomName !== roomName);
  }

  /** What was typed, drawn and selected in one room is nothing for another. */
  forgetRoom() {
    this.tools.unsaved = [];
    this.tools.use("select");
    this.selected = [];
    this.panels.tags.typed.clear();
  }

  leave() {
    if (!this.mayLeave() && !confirm("Something is not saved. Leave all the same?")) return;
    this.session?.end();
  }

  mayLeave() {
    const isDrawn = this.tools.draft?.places.length || this.tools.unsaved.length;
    return !this.session?.unsaved && !isDrawn && this.panels.tags.unsaved().length === 0;
  }

  /**
   * Takes the whole map.
   * @param {{ isFirst: boolean, restarted?: boolean | null }} event
   */
  takeMap({ isFirst, restarted }) {
    const began = performance.now();
    this.shapes.reset(this.elements);
    this.panels.texts = null;
    this.selected = this.selected.filter((el) => this.elements.has(el));
    this.warnings.clear();
    this.tools.refreshDraft();
    this.view.painted = null;
    if (isFirst) this.fit();
    if (!this.view.painted) this.view.paint();
    this.timings.map = performance.now() - began;
    this.noteSeen();
    if (restarted) this.questions.drop(() => new NotDone("not_sent", { restarted }));
    else this.questions.show();
    if (isFirst) this.tools.goOnDrawing();
    if (isFirst) this.kept.bringBack();
    if (restarted) this.sayWrong("The server was restarted. This is the map that it has now.");
    setTimeout(() => this.panels.showAll(), 50); // after the map is seen
    whenIdle(() => this.prepare());
  }

  /** Makes ahead what the first change and the first search would wait for. */
  prepare() {
    this.shapes.usersOf(1);
    this.panels.searchTexts();
  }

  /**
   * Takes what an entry changed.
   * @param {Entry} entry
   * @param {ChangedRow[]} rows
   */
  takeChange(entry, rows) {
    const began = performance.now();
    const session = this.joinedSession;
    const isOther = entry.by !== session.name;
    if (!isOther) this.warnings.takeBefore(rows);
    const boxes = this.shapes.change(rows);
    entry.text = deedsOf(rows, movedWays(rows, this.shapes, this.elements));
    if (isOther) this.overlay.markFresh(rows.filter(({ after }) => after).map(({ el }) => el), entry.by);
    this.view.repaint(boxes);
    this.journal.showChange(entry);
    for (const { el, after } of rows) this.panels.learnText(el, after);
    this.tools.refreshDraft();
    this.refreshSelected(rows);
    if (rows.some(({ el }) => el[0] === "r")) this.panels.showRelations();
    this.warnings.take(rows, !isOther);
    if (isOther) this.announce(`${entry.by} ${session.deed(entry)}`);
    this.noteSeen();
    this.afterwards();
    this.timings.news = performance.now() - began;
  }

  /**
   * Notes that the mapper has seen all that has come, once it is painted. A page that is not seen paints nothing, and
   * what it gets counts a little later.
   */
  noteSeen() {
    const { joinedSession: session } = this;
    const sight = session.now();
    const note = () => {
      if (!session.seen || session.seen.mark < sight.mark) session.seen = sight;
    };
    requestAnimationFrame(note);
    setTimeout(note, UNPAINTED);
  }

  /** @param {ChangedRow[]} rows */
  refreshSelected(rows) {
    if (this.selected.length === 0) return;
    /** @param {MapElement | null | undefined} row */
    const nodesOf = (row) => (row?.nodes ?? []).map(nodeOf);
    const changed = new Set(rows.flatMap(({ el, before, after }) => [el, ...nodesOf(before), ...nodesOf(after)]));
    const there = this.selected.filter((el) => this.elements.has(el));
    const isGone = there.length < this.selected.length;
    this.selected = there;
    /** @param {string} el */
    const isChanged = (el) => changed.has(el) || nodesOf(this.elements.get(el)).some((name) => changed.has(name));
    if (isGone || there.some(isChanged)) this.panels.showSelected();
  }

  /** Shows what may come a little later than the news. */
  afterwards() {
    clearTimeout(this.later);
    this.later = setTimeout(() => {
      this.journal.showPeople();
      this.panels.showFigures();
      this.panels.refreshFound();
    }, 100);
  }

  showHistory() {
    this.journal.showUndos();
    clearTimeout(this.changesLater);
    this.changesLater = setTimeout(() => {
      this.journal.showChanges();
      this.journal.showPeople();
    }, 50);
  }

  showConflict() {
    const { conflict } = this.joinedSession;
    this.journal.showUndos();
    this.journal.showChanges();
    if (!conflict && this.refusal?.isConflict) this.say("What was in the way is gone.");
    this.view.paintOverSoon();
  }

  showState() {
    const { joinedSession: session, isInside } = this;
    const { state, text, isBad, name, roomName } = session;
    document.body.classList.toggle("inside", isInside);
    document.body.classList.toggle("mapped", Boolean(session.room));
    $("select").disabled = !session.room;
    $("point").disabled = $("line").disabled = $("area").disabled = !isInside;
    $("hello").hidden = isInside;
    $("here").hidden = !isInside;
    $("who").textContent = `${name} in ${roomName}`;
    const shown = state === "closed" ? "Not connected" : text || (state === "open" ? "Connected" : "");
    Object.assign($("state"), { textContent: shown, className: isBad ? "bad" : "" });
    $("connect").textContent = state === "closed" || isInside ? "Connect" : "Stop";
    if (state === "closed") this.showEnd(text);
    this.showSaved();
  }

  /**
   * Shows that the session has ended, perhaps for a reason.
   * @param {string} why
   */
  showEnd(why) {
    const isKept = this.tools.putAside();
    this.questions.drop(() => new NotDone("closed"));
    if (why) this.sayWrong(why);
    if (isKept) this.sayWrong("What you drew is kept: connect to the same room to go on with it.");
    this.journal.showUndos();
    this.journal.showChanges();
    this.journal.showPeople();
  }

  showSaved() {
    const { session } = this;
    this.kept.keepSoon();
    const parts = [];
    if (session?.unsaved) parts.push(`${counted(session.unsaved, "change")} not saved`);
    const drawings = this.tools.countUnsaved();
    if (drawings) parts.push(`${counted(drawings, "drawing")} not saved`);
    const typed = this.panels.tags.unsaved().length;
    if (typed) parts.push(`tags of ${typed === 1 ? "an element" : `${typed} elements`} not saved`);
    if (this.notDone.length) parts.push(this.countNotDone());
    $("saved").textContent = parts.join(", ") || (this.isInside ? "All saved" : "");
    $("saved").className = parts.length ? "not" : "";
  }

  // ---- What is said

  /**
   * Says something above the map, in the place of what is there.
   * @param {string} text
   * @param {{ isRefusal?: boolean, isConflict?: boolean, show?: string | null }} about
   */
  say(text, { isRefusal = false, isConflict = false, show = null } = {}) {
    const conflict = isConflict ? this.joinedSession.conflict : null;
    this.isHint = false;
    this.refusal = isRefusal ? { texts: [text], inputs: this.inputs, isConflict } : null;
    $("said").textContent = text;
    $("said").setAttribute("role", isRefusal ? "alert" : "status");
    $("message").className = isRefusal ? "refused" : text ? "" : "empty";
    $("hush").hidden = !isRefusal;
    this.shown = show;
    this.view?.paintOverSoon();
    $("show").hidden = show === null || !this.elements.has(show);
    $("undo-possible").hidden = !conflict || !this.joinedSession.hasOtherUndos(conflict.seq);
  }

  /**
   * Says a refusal or a warning. It stays until it is closed or the mapper does something else. If several come before
   * that, they are said together.
   * @param {string} text
   * @param {{ isConflict?: boolean, show?: string | null }} [about]
   * @returns {void}
   */
  sayWrong(text, about = {}) {
    const { refusal, inputs } = this;
    const said = refusal?.inputs === inputs ? refusal.texts : [];
    const texts = [...said.filter((each) => each !== text).slice(1 - MOST_REFUSALS), text];
    this.say(texts.join(" "), { ...about, isRefusal: true });
    this.refusal = { texts, inputs, isConflict: Boolean(about.isConflict) && texts.length === 1 };
  }

  /**
   * Says what is wrong with something that is typed: next to its field if that is shown, otherwise above the map.
   * @param {string} el
   * @param {string | null} field null for the tags
   * @param {string} text
   */
  sayFault(el, field, text) {
    if (this.panels.formOf === el) this.panels.sayFault(field, text);
    else this.sayWrong(text);
  }

  /**
   * Says warnings after what is said of the change that caused them.
   * @param {string} text
   * @param {string} show
   */
  warn(text, show) {
    const said = this.refusal ? "" : $("said").textContent ?? "";
    const before = /^(Saved|Undone|Redone): /.test(said) ? `${said} ` : "";
    this.sayWrong(`${before}Warning: ${text}`, { show });
  }

  /**
   * A function that says how something ended that begins now, unless there is a refusal that the mapper cannot have
   * seen when it began.
   * @returns {(text: string) => void}
   */
  reporter() {
    const { inputs } = this;
    return (text) => {
      if (!this.refusal || this.refusal.inputs < inputs) this.say(text);
    };
  }

  /**
   * Reports to a screen reader what others do, a few times a second at most.
   * @param {string} text
   */
  announce(text) {
    const log = $("news");
    log.append(make("p", { textContent: text }));
    while (log.children.length > 5) log.firstElementChild?.remove();
  }

  /**
   * Says why something was refused, perhaps between other sentences.
   * @param {Failure} error
   */
  refused(error, before = "", after = "") {
    const no = error.no ?? error;
    const isConflict = error.no?.why === "conflict";
    const show = (isConflict ? no.at : no.by ?? no.el) ?? null;
    this.sayWrong([before, this.reasonOf(error), after].filter(Boolean).join(" "), { isConflict, show });
  }

  /** @param {Failure} error */
  reasonOf(error) {
    return error.why === "conflict" && error.no ? this.conflictText(error.no) : sentenceOf(error);
  }

  /**
   * Who is in the way of an undo: what they did after the change, and what comes first.
   * @param {Refusal} no
   */
  conflictText(no) {
    const session = this.joinedSession;
    const { with: other = 0, at: el = "" } = no;
    const by = session.authorOf(other);
    const isOwn = by === session.name;
    const entry = session.entries.get(other);
    const row = this.elements.get(el);
    const place = entry?.rows.some((each) => each.el === el) ? "" : ` at ${row ? plainTitleOf(row) : el}`;
    const deed = entry ? session.deed(entry) : "changed something";
    const first = isOwn ? "Undo that first" : `You can undo yours after ${by ?? "they"} undid that`;
    return `Not undone: ${isOwn ? "you" : by ?? "somebody"} later ${deed}${place} (entry ${other}). ${first}, or `
      + "change the element by hand.";
  }

  /**
   * Does something of which the hints do not end a refusal, and returns its value.
   * @template T
   * @param {() => T} work
   * @returns {T}
   */
  keepRefusal(work) {
    const { refusal } = this;
    const value = work();
    this.refusal ??= refusal;
    return value;
  }

  // ---- What was not done

  /**
   * Reports that a change was refused. The list has a dropped change, unless the mapper has it back.
   * @param {Failure} error
   */
  changeRefused(error, isBack = false) {
    if (!error.isDropped || isBack) return this.refused(error);
    this.notDone.push({ text: error.text ?? "", reason: this.reasonOf(error), isUnsure: isUnsure(error) });
    return this.showNotDone();
  }

  /** How many changes were not done, and of how many nobody knows that. */
  countNotDone() {
    const unsure = this.notDone.filter((each) => each.isUnsure).length;
    const sure = this.notDone.length - unsure;
    if (sure === 0) return `${counted(unsure, "change")} perhaps not done`;
    return `${counted(sure, "change")} not done${unsure ? `, ${unsure} perhaps` : ""}`;
  }

  showNotDone() {
    this.panels.showNotDone();
    this.showSaved();
  }

  closeNotDone() {
    this.notDone = [];
    this.showNotDone();
  }

  /** @param {Point | null} point */
  showWhere(point) {
    const at = point && this.view.positionAt(point);
    $("where").textContent = at ? `${Mercator.lat(at.y).toFixed(5)}, ${Mercator.lon(at.x).toFixed(5)}` : "";
  }

  /**
   * @param {string | null} el
   * @param {Point | null} point
   */
  showUnder(el, point) {
    const row = el && this.elements.get(el);
    $("under").textContent = row && point ? titleOf(row) : "";
    if (row && point) Object.assign($("under").style, { left: `${point.x + 14}px`, top: `${point.y + 12}px` });
  }

  /** @param {string[]} els */
  titles(els) {
    const rows = this.rowsOf(els);
    return rows.length === 1 ? titleOf(rows[0]) : counted(rows.length, "element");
  }

  /**
   * @param {Point} point
   * @param {[text: string, work: () => void][]} items
   */
  openMenu(point, items) {
    const { x } = this.view.size();
    /** @param {() => void} work */
    const close = (work) => () => {
      this.closeMenu();
      work();
    };
    $("menu").replaceChildren(...items.map(([text, work]) => button(text, close(work), { role: "menuitem" })));
    $("menu").hidden = false;
    Object.assign($("menu").style, { left: `${Math.max(4, Math.min(point.x, x - 200))}px`, top: `${point.y}px` });
    const over = $("menu").offsetTop + $("menu").offsetHeight - this.view.size().y;
    if (over > 0) $("menu").style.top = `${Math.max(4, point.y - over - 4)}px`;
    $("menu").querySelector("button")?.focus();
  }

  closeMenu() {
    $("menu").hidden = true;
  }

  // ---- What is done

  /**
   * The elements of some names that are there.
   * @param {string[]} els
   */
  rowsOf(els) {
    return els.flatMap((el) => this.elements.get(el) ?? []);
  }

  /**
   * Does a gesture and says so, or says what refused it. `done` may return an element, which is selected then, unless
   * the mapper has selected something else meanwhile or is typing. `failed` returns whether the mapper has back what
   * was not saved. `grounds` has what the mapper had seen when they decided, if that is not now, and the values for
   * which they are asked if somebody else changed them, too. Returns whether it was saved.
   * @param {string} text
   * @param {Build} build
   * @param {(names: string[], report: (text: string) => void) => string | null | undefined | void} [done]
   * @param {(error: Failure) => boolean} [failed]
   * @param {Grounds} [grounds]
   * @returns {Promise<boolean>}
   */
  async perform(text, build, done = () => {}, failed = () => false, grounds = {}) {
    const { session, choices } = this;
    if (!session || !this.isInside) {
      this.sayWrong("Connect first.");
      return false;
    }
    const report = this.reporter();
    try {
      const names = await session.perform(text, build, grounds);
      if (session !== this.session) return true;
      report(`Saved: ${text}.`);
      const made = done(names, report);
      const isTyping = document.activeElement?.matches("#selected :is(input, textarea, select)");
      if (made && choices === this.choices && !isTyping) this.choose(made);
      return true;
    } catch (thrown) {
      const error = /** @type {Failure} */ (thrown);
      if (!error.why) console.error(error);
      if (error.why === "left" || error.why === "turned") {
        report(sentenceOf(error));
        failed(error);
        return false;
      }
      this.changeRefused(error, this.keepRefusal(() => failed(error)));
      return false;
    }
  }

  /**
   * Whether a key is held down, and what it did first is not answered yet.
   * @param {KeyboardEvent} event
   */
  isHeld({ repeat }) {
    return repeat && (this.session?.unsaved ?? 0) > 0;
  }

  /** @param {Gesture} [seqs] */
  async undo(seqs) {
    await this.tryThat(async (report) => report(`Undone: ${await this.joinedSession.undo(seqs)}.`));
  }

  async undoLastPossible() {
    await this.tryThat(async (report) => report(`Undone: ${await this.joinedSession.undoLastPossible()}.`));
  }

  async redo() {
    await this.tryThat(async (report) => report(`Redone: ${await this.joinedSession.redo()}.`));
  }

  /** @param {(report: (text: string) => void) => Promise<void>} work */
  async tryThat(work) {
    try {
      if (this.isInside) await work(this.reporter());
    } catch (error) {
      this.changeRefused(/** @type {Failure} */(error));
    }
  }

  deleteSelected(isEverywhere = false) {
    const els = this.selected.filter((el) => this.elements.has(el));
    if (els.length === 0) return;
    const parents = els.flatMap((el) => this.shapes.parentsOf(el)).filter((el) => !els.includes(el));
    if (parents.length && !isEverywhere) {
      const [parent] = parents;
      const rest = parents.length > 1 ? ` and ${parents.length - 1} more` : "";
      const what = `${this.titles([parent])}${rest}`;
      const text = `${what} uses this. “Delete everywhere” takes it out there too.`;
      return this.sayWrong(text, { show: parent });
    }
    const actions = Edits.delete(els, this.elements, this.shapes, isEverywhere);
    const gone = actions.filter(({ do: word }) => word !== "nodes").length;
    const rest = gone > els.length ? ` with ${counted(gone - els.length, "element")} that nothing else needs` : "";
    const text = `deleted ${this.titles(els)}${rest}`;
    const ends = this.endsLost(els);
    const claims = this.rowsOf(els).map((row) => Claims.gone(row, () => this.elements));
    this.perform(text,
      () => Edits.delete(els.filter((el) => this.elements.has(el)), this.elements, this.shapes, isEverywhere),
      (_, report) => {
        if (ends) report(`Saved: ${text}. ${ends}`);
      }, undefined, { claims });
  }

  /**
   * Says which joints a gesture lost, since others deleted or moved what was there. `what` has lost them.
   * @param {string} text
   * @param {LostJoint[]} lost
   * @param {string} what
   */
  sayLost(text, lost, what) {
    if (lost.length === 0) return;
    const sentences = lost.slice(0, 3).map((joint) => `${what} is not joined to ${this.lostText(joint)}`);
    this.sayWrong(`Saved: ${text}. ${sentences.join(" ")}`, { show: lost[0].el });
  }

  /**
   * To what something is not joined, and why.
   * @param {LostJoint} joint
   */
  lostText({ ways, node }) {
    const session = this.joinedSession;
    const rows = this.rowsOf(ways);
    const to = rows.length ? rows.map(titleOf).join(" and ") : ways.join(" and ");
    const isGone = rows.length === 0;
    /** @param {ChangedRow} row */
    const isOf = ({ el, before, after }) => {
      if (node && !isGone) return el === node && !after;
      return ways.includes(el) && (isGone ? !after : !isSameValue(before?.nodes, after?.nodes));
    };
    const by = session.lastToChange(isOf);
    const who = by === session.name ? "you" : by ?? "somebody";
    const deed = isGone ? "deleted it" : node ? "deleted the point" : "changed its line";
    return `${to} there: ${who} ${deed}.`;
  }

  /**
   * What ends or parts where nodes go at which ways meet, as sentences.
   * @param {string[]} els
   */
  endsLost(els) {
    const sentences = els.filter((el) => el[0] === "n" && this.shapes.usersOf(el).length > 1).map((el) => {
      const ways = this.shapes.usersOf(el).filter((way) => !els.includes(way));
      const ending = ways.filter((way) => Edits.endsAt(way, idOf(el), this.elements));
      const through = ways.filter((way) => !ending.includes(way));
      /**
       * @param {string[]} names
       * @param {string} deed
       */
      const part = (names, deed) => (
        names.length ? [`${this.rowsOf(names).map(titleOf).join(" and ")} ${deed}`] : []
      );
      const parts = [...part(ending, "ended there"), ...part(through, "went through")];
      return `At ${el} ${parts.join(", ")}: they do not meet there any more.`;
    });
    return sentences.slice(0, 3).join(" ");
  }

  /**
   * @param {string} one
   * @param {string} other
   */
  join(one, other) {
    const text = `joined ${one} and ${other}`;
    /** @type {string[]} */
    let notes = [];
    const build = () => {
      notes = [];
      return this.wayEdits.join(one, other, notes);
    };
    this.perform(text, build, (_, report) => {
      if (notes.length) report(`Saved: ${text}. The whole way has now ${notes.join(", ")}.`);
      return this.elements.has(one) ? one : other;
    });
  }

  /**
   * Turns a way, and says what else was turned with it.
   * @param {string} el
   */
  reverse(el) {
    const text = `reversed ${this.titles([el])}`;
    /** @type {[notes: string[], kept: string[]]} */
    let lists = [[], []];
    const seen = this.elements.get(el)?.nodes ?? [];
    const build = () => {
      lists = [[], []];
      if (isTurned(seen, wayOf(el, this.elements).nodes)) throw new NotDone("turned", { el });
      return this.wayEdits.reverse(el, ...lists);
    };
    this.perform(text, build, (_, report) => {
      const [notes, kept] = lists.map((list) => list.join(", "));
      const texts = [notes && ` Changed with it: ${notes}.`, kept && ` It runs the other way now: ${kept}.`];
      report(`Saved: ${text}.${texts.join("")}`);
    });
  }

  /**
   * The ids of the nodes of some nodes and ways.
   * @param {string[]} els
   */
  nodesOf(els) {
    return new Set(els.flatMap((el) => this.elements.get(el)?.nodes ?? [idOf(el)]));
  }

  /**
   * The middle of the nodes of some nodes and ways, which stays if they are turned round it.
   * @param {string[]} els
   */
  middleOf(els) {
    const places = [...this.nodesOf(els)].flatMap((id) => this.shapes.positionOf(id) ?? []);
    return { x: meanOf(places.map(({ x }) => x)), y: meanOf(places.map(({ y }) => y)) };
  }

  /**
   * The rows of the nodes of some nodes and ways.
   * @param {string[]} els
   */
  nodeRowsOf(els) {
    return this.rowsOf([...this.nodesOf(els)].map(nodeOf)).flatMap((row) => (row.lat === undefined ? [] : [row]));
  }

  /**
   * The claim to where nodes are, in the words of what the mapper does with an element of theirs.
   * @param {string} el
   * @param {MapNode[]} seen
   * @param {string} mine
   */
  claimPlace(el, seen, mine) {
    return Claims.place(el, seen, mine, () => this.elements);
  }

  /**
   * Turns elements round a position, by an angle on the plane. `seen` has their nodes as the mapper saw them.
   * @param {string[]} els
   * @param {number} angle
   * @param {Position} round
   * @param {{ sight?: Sight, seen?: MapNode[] }} before
   */
  rotate(els, angle, round, { sight, seen = this.nodeRowsOf(els) } = {}) {
    const claim = this.claimPlace(els[0], seen, `turned by ${((angle * 180) / Math.PI).toFixed(0)}°`);
    const build = () => [...this.nodesOf(els)].flatMap((id) => {
      const place = this.shapes.positionOf(id);
      return place ? moveNode(id, turnedBy([place], angle, round)[0], this.elements) : [];
    });
    return this.perform(`turned ${this.titles(els)}`, build, undefined, undefined, { sight, claims: [claim] });
  }

  /** Copies what is selected, but not relations. */
  copySelected() {
    const count = this.copies.take(this.rowsOf(this.selected), this.elements, this.shapes);
    if (count === 0) return this.say("Select nodes or ways to copy them.");
    this.panels.showSelected();
    return this.say(`Copied ${counted(count, "element")}. Ctrl+V pastes at the pointer, Ctrl+Shift+V only the tags.`);
  }

  /**
   * Pastes what was copied, at a position.
   * @param {Position} to
   */
  paste(to) {
    const { rows } = this.copies;
    if (rows.length === 0) return this.say("Nothing is copied.");
    const text = `pasted ${rows.length === 1 ? `a copy of ${titleOf(rows[0])}` : counted(rows.length, "element")}`;
    return this.perform(text, (newName) => this.copies.paste(to, newName), (names) => lastOf(names));
  }

  /** Gives what is selected the copied tags, and says which values that replaced. */
  pasteTags() {
    const els = this.selected;
    const tags = Object.entries(this.copies.ownTags()).map(([key, value]) => tagText(key, value)).join(", ");
    if (!tags) return this.say("Copy one element with tags first.");
    const text = `gave ${this.titles(els)} the tags ${tags}`;
    /** @type {string[]} */
    let replaced = [];
    const rows = new Map(this.rowsOf(els).map((row) => [row.el, row]));
    /** @type {(el: string, key: string) => string | null} */
    const seen = (el, key) => valueOf(rows.get(el) ?? null, key);
    const claims = Claims.tags(this.copies.pasteTags([...rows.values()], []), seen, () => this.elements);
    const build = () => {
      replaced = [];
      return Claims.withoutLeft(this.copies.pasteTags(this.rowsOf(els), replaced), claims);
    };
    return this.perform(text, build, (_, report) => {
      if (replaced.length) report(`Saved: ${text}, in place of ${replaced.join(", ")}.`);
    }, undefined, { claims });
  }

  /**
   * Gives the selected ways a shape, as one entry.
   * @param {"square" | "circle" | "straighten"} shape
   */
  shape(shape) {
    const ways = this.selected.filter((el) => this.elements.get(el)?.nodes);
    if (ways.length === 0) return this.sayWrong("Select a way first.");
    const deeds = { square: "squared", circle: "made a circle of", straighten: "straightened" };
    /** @param {NameGiver} newName */
    const build = (newName) => {
      const moves = ways.flatMap((el) => Shaping[shape](wayOf(el, this.elements), this.elements, this.shapes, newName));
      return firstMoves(moves);
    };
    return this.perform(`${deeds[shape]} ${this.titles(ways)}`, build);
  }

  /**
   * @param {string} one
   * @param {string} other
   */
  merge(one, other) {
    const build = () => [{ do: "merge", el: one, with: other }];
    this.perform(`merged ${other} into ${one}`, build, () => one);
  }

  /**
   * Splits a way at a node, or a closed way at two, wherever in its list they are by then.
   * @param {string} el
   * @param {string[]} nodes
   */
  split(el, nodes) {
    /** @param {NameGiver} newName */
    const build = (newName) => this.wayEdits.split(el, nodes, newName);
    this.perform(`split ${this.titles([el])}`, build, ([into], report) => {
      const relation = this.elements.get(into) && this.shapes.parentsOf(into).find((name) => name[1] === "-");
      const area = relation && this.elements.get(relation)?.tags.type === "multipolygon";
      if (area) report(`Saved: split ${el}. Its tags are those of ${this.titles([relation])} now.`);
      return into;
    });
  }

  /**
   * @param {string} node
   * @param {string} el
   * @param {number} was
   */
  unglue(node, el, was) {
    /** @param {NameGiver} newName */
    const build = (newName) => {
      const at = placeIn(wayOf(el, this.elements).nodes, idOf(node), was);
      return [{ do: "unglue", el, at, into: newName("n") }];
    };
    this.perform(`unglued ${el} from ${node}`, build, ([into], report) => {
      report(`${el} has ${into} now, where it had ${node}: drag it away.`);
      return into;
    });
  }

  /**
   * Moves a node to typed coordinates. `seen` has the node as the mapper saw it when they began to type.
   * @param {MapNode} row
   * @param {string} lat
   * @param {string} lon
   * @param {{ sight?: Sight, seen?: MapNode[] }} before
   */
  moveTo(row, lat, lon, { sight, seen = this.nodeRowsOf([row.el]) } = {}) {
    const [north, east] = [degreesOf(lat, 90), degreesOf(lon, 180)];
    if (north === null) {
      return this.sayFault(row.el, "Latitude", "The latitude is a number from -90 to 90, such as 47.1234567.");
    }
    if (east === null) {
      return this.sayFault(row.el, "Longitude", "The longitude is a number from -180 to 180, such as 9.5212345.");
    }
    /** @param {number} degrees */
    const steps = (degrees) => Math.round(degrees * 1e7);
    const claim = this.claimPlace(row.el, seen, `${lat}, ${lon}`);
    this.perform(`moved ${titleOf(row)}`, () => {
      const now = this.elements.get(row.el);
      if (!now?.lat) throw new NotDone("gone");
      const [dlat, dlon] = [steps(north - Number(now.lat)), steps(east - Number(now.lon))];
      return [{ do: "move", els: [row.el], dlat, dlon }];
    }, undefined, undefined, { sight, claims: [claim] });
    return undefined;
  }

  /**
   * Saves a list that was typed in place of another, unless others changed that meanwhile.
   * @param {string} el
   * @param {string} text
   * @param {string} before
   */
  saveNodes(el, text, before) {
    const nodes = text.split(/[\s,]+/).filter(Boolean).map((word) => Number(word.replace(/^n/, "")));
    const wrong = nodes.findIndex((id) => !Number.isSafeInteger(id) || id === 0);
    if (wrong >= 0) {
      return this.sayFault(el, "Nodes", "The nodes of a way are their numbers, with spaces between them.");
    }
    this.perform(`changed the line of ${this.titles([el])}`, () => {
      if (wayOf(el, this.elements).nodes.join(" ") !== before) throw new NotDone("other_nodes", { el });
      return [{ do: "nodes", el, nodes }];
    });
  }

  /**
   * Makes a relation, with roles and tags by what is selected, and says which.
   * @param {string[]} els
   */
  makeRelation(els) {
    const text = `made a relation of ${this.titles(els)}`;
    /** @param {NameGiver} newName */
    const build = (newName) => {
      const { members, tags, moved } = newRelationOf(els, this.elements, this.shapes);
      const retags = moved.map(({ el, tags: its }) => ({ do: "retag", el, tags: tagChanges(its, {}) }));
      return [{ do: "create", el: newName("r"), members, tags }, ...retags];
    };
    this.perform(text, build, ([el], report) => {
      const { tags = {} } = this.elements.get(el) ?? {};
      const list = Object.entries(tags).map(([key, value]) => tagText(key, value)).join(", ");
      if (list) report(`Saved: ${text}, with ${list}. Change its tags and roles if it is something else.`);
      return el;
    });
  }

  /**
   * @param {string} relation
   * @param {string} el
   */
  toggleMember(relation, el) {
    const row = this.elements.get(relation);
    if (!row?.members) {
      this.tools.use("select");
      return;
    }
    const wasMember = row.members.some(([name]) => name === el);
    const what = wasMember ? `removed ${el} from` : `added ${el} to`;
    this.perform(`${what} ${titleOf(row)}`, () => {
      const { members } = relationOf(relation, this.elements);
      const others = members.filter(([name]) => name !== el);
      const isMember = others.length < members.length;
      if (isMember !== wasMember) return []; // so it is already
      return [{ do: "members", el: relation, members: isMember ? others : [...members, [el, ""]] }];
    });
  }

  // ---- Selecting and showing

  /**
   * Selects for the mapper, and not after a gesture.
   * @param {...string} els
   */
  select(...els) {
    this.choices += 1;
    this.choose(...els);
  }

  /** @param {...string} els */
  choose(...els) {
    this.selected = els.filter((el) => this.elements.has(el));
    this.panels.showSelected(true);
    this.panels.tags.showTyped();
    this.view.paintOverSoon();
  }

  /**
   * Selects an element, and has it in the window.
   * @param {string | null} el
   */
  show(el) {
    const row = el !== null && this.elements.get(el);
    if (!row) return;
    this.select(row.el);
    const box = emptyBox();
    for (const [name] of row.members ?? [[row.el]]) if (name[0] !== "r") stretchBy(box, this.shapes.boxOf(name));
    this.view.show(box);
  }

  /**
   * Shows where an entry was, also if it deleted what was there.
   * @param {Entry} entry
   */
  showEntry({ rows }) {
    const box = emptyBox();
    for (const { el, before } of rows) {
      stretchBy(box, this.shapes.boxOf(el));
      if (before?.lat !== undefined) stretch(box, Mercator.x(before.lon), Mercator.y(before.lat));
    }
    if (isEmptyBox(box)) {
      this.say("What that entry changed is nowhere on the map now.");
      return;
    }
    this.view.fit(box, Math.max(17, Math.min(19, this.view.zoom)));
    const there = rows.filter(({ after }) => after && this.elements.has(after.el)).map(({ el }) => el);
    if (there.length) this.select(...there.slice(0, 50));
  }

  fit() {
    this.view.fit(this.shapes.whole());
  }

  /** A link that fills in the address and the room. */
  link() {
    const { url: address, roomName: room } = this.joinedSession;
    const fields = { address, room, ...(this.tiles && { tiles: this.tiles.url, credit: this.tiles.credit }) };
    return `${withoutLogin(location.href.split(/[?#]/)[0])}?${new URLSearchParams(fields)}`;
  }

  async share() {
    const link = this.link();
    const reasons = whyOnlyHere(this.joinedSession.url);
    const use = reasons.length ? `It works only on this computer, because ${reasons.join(" and ")}.`
      : "It fills in the address and the room; everybody gives a name of their own.";
    try {
      await navigator.clipboard.writeText(link);
      this.say(`The link is copied. ${use}`);
    } catch {
      prompt(`Copy this link. ${use}`, link);
    }
  }
}
