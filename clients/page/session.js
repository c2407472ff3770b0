// A mapper's session in a room, over the library maproom.js: gestures, of which each is one group of actions, what is
// not saved, what entries did, and what can be undone. It knows no page but the storage of the browser.
"use strict";

/**
 * An entry of the room's journal: what it changed, when it came, what it did in words, and whether it was undone. An
 * undo or a redo has the entry that it is about.
 * @typedef {{ seq: number, by: string, rows: ChangedRow[], at: Date, text: string, isUndone: boolean,
 *   undoes: number | null, redoes: number | null }} Entry
 *
 * The numbers of the entries of one gesture.
 * @typedef {number[]} Gesture
 *
 * An entry whose undo was refused: by the entry `with`, at an element.
 * @typedef {{ seq: number, with: number, at: string }} Conflict
 *
 * @typedef {"connecting" | "waiting" | "lost" | "open" | "closed"} SessionState
 *
 * What a session reports: that its state or the number of unsaved changes is another, that the whole map came (for the
 * first time or, perhaps from another run of the server, again), an entry, that the lists of undos or the conflict are
 * others, and that the mapper has another name than the wanted one.
 * @typedef {{
 *   renamed: void, state: void, unsaved: void, map: { isFirst: boolean, restarted: boolean | null },
 *   change: { entry: Entry, rows: ChangedRow[] }, history: void, conflict: void,
 * }} SessionEvents
 */

// After how many milliseconds without a byte a connection is given up. If a map needs longer, each attempt waits twice
// as long as the last, up to a limit.
const HEARTBEAT = 30_000;
const LONGEST_HEARTBEAT = 240_000;
const SLOW = 4000; // milliseconds after which the page says that no answer came
const FIRST_PAUSE = 500;
const LONGEST_PAUSE = 10_000;
const MOST_ENTRIES = 1000; // that are remembered
const MOST_KEPT = 50; // of which the last changes are shown again after a reload
const STORE_AFTER = 1000; // milliseconds
const MOST_TRIES = 20; // of a gesture, with other names or after changes of others
const MOST_ACTIONS = 10_000; // of a group
const LEAST_ID = -(2 ** 52);

// A change that ends for one of these reasons is dropped, whether or not it had to wait for a connection.
const DROPS = new Set(["not_sent", "unknown", "no_answer", "not_meant", "gone", "other_nodes"]);

// A gesture that ends for one of these reasons leaves the map as the mapper wanted it.
const AS_WANTED = new Set(["nothing", "left", "turned"]);

/**
 * Why a WebSocket cannot be opened. The browser does not say, so the page asks over HTTP at the same address. The
 * browser hides the status of another site, and even whether it answers, for example if its certificate is not trusted.
 * @type {Record<number, string>}
 */
const STATUSES = {
  401: "wants a name and a password, and those of your browser are missing or wrong. Load this page again.",
  403: "refuses this page. Open the page that it hands out itself.",
  404: "has no room at this path. Look at what stands behind the host in the address.",
  429: "has as many connections from your network as it allows. Ask whoever runs it to allow more.",
  426: "lets you in, but cannot reach its maproom server. It may be starting.",
  502: "cannot reach its maproom server. It may be starting.",
  503: "cannot reach its maproom server. It may be starting.",
  504: "cannot reach its maproom server. It may be starting.",
};

/**
 * @param {string} url
 * @returns {Promise<string>}
 */
async function whyUnreachable(url) {
  const { host, origin, href } = new URL(url.replace(/^ws/, "http"));
  const isSecure = origin.startsWith("https");
  const tooLate = new AbortController();
  const timer = setTimeout(() => tooLate.abort(), 5000);
  /** @type {RequestInit} */
  const how = { cache: "no-store", signal: tooLate.signal };
  try {
    if (origin !== location.origin) {
      await fetch(href, { ...how, mode: "no-cors" });
    } else {
      const { status } = await fetch(href, how);
      return STATUSES[status] ? `${host} ${STATUSES[status]}` : `What answers at ${host} is no maproom server.`;
    }
  } catch {
    if (origin === location.origin) return `No server answers at ${host}.`;
    const page = isSecure ? ` Perhaps ${origin}/ is that page.` : "";
    return `No room answers at ${host}: there is no server, or it lets in only its own page.${page}`;
  } finally {
    clearTimeout(timer);
  }
  const page = isSecure ? ` Open ${origin}/ instead.` : "";
  const why = location.protocol === "file:" ? "since the page was opened as a file" : "since it is from another site";
  return `${host} answers, but does not let this page in, perhaps ${why}.${page}`;
}

/**
 * What a gesture rests on: what the mapper had seen when they decided, and the values that it sets.
 * @typedef {{ sight?: Sight, claims?: Claim[] }} Grounds
 */

/** @param {number} milliseconds */
const pauseOf = (milliseconds) => new Promise((done) => setTimeout(done, milliseconds));

/**
 * The gestures of a list without those of some entries.
 * @param {Gesture[]} gestures
 * @param {number[]} seqs
 */
function without(gestures, seqs) {
  const all = new Set(seqs);
  return gestures.filter(([seq]) => !all.has(seq));
}

/**
 * Whether a text is a URL.
 * @param {string} text
 */
function isUrl(text) {
  try {
    return Boolean(new URL(text));
  } catch {
    return false;
  }
}

/** A session, which dispatches SessionEvents. */
class Session extends EventTarget {
  static heartbeat = HEARTBEAT;

  /**
   * @param {string} url
   * @param {string} roomName
   * @param {string} name
   */
  constructor(url, roomName, name) {
    super();
    this.url = url;
    this.roomName = roomName;
    this.name = name;
    /** @type {maproom.Room | null} */
    this.room = null;
    /** @type {SessionState} */
    this.state = "connecting";
    this.text = "";
    this.isBad = false;
    this.isOver = false;
    this.unsaved = 0;
    /** @type {Map<number, Entry>} */
    this.entries = new Map(); // by their numbers
    /** @type {Conflict | null} */
    this.conflict = null;
    /** @type {boolean | null} */
    this.hasGroups = null; // whether the server knows groups; null until it answered one
    /** @type {Map<number, string>} */
    this.texts = new Map(); // what the mapper's own entries did
    /** @type {Map<number, Gesture>} */
    this.gestures = new Map(); // by each of their entries
    /** @type {Gesture[]} */
    this.undos = [];
    /** @type {Gesture[]} */
    this.redos = [];
    this.asked = 0; // the entry whose undo was sent last
    this.run = 0; // how often the server was restarted
    this.doubts = 0; // how often it was perhaps restarted
    this.switches = 0; // how often the connection went or came
    /** @type {{ by: string | null, rows: ChangedRow[] }[]} */
    this.news = []; // the last changes, those of a gap together and without an author
    this.marks = 0; // how many of them came in all
    /** @type {Sight | null} */
    this.seen = null; // what was shown last
    /** @type {(disputes: Dispute[]) => Promise<void>} */
    this.choose = () => Promise.reject(new NotDone("changed")); // asks the mapper
    this.hasLeft = false; // whether the mapper left
    this.turn = Promise.resolve(true); // whether the last change was done
    /** @type {(() => void)[]} */
    this.waiting = []; // what goes on when the connection is back
    /** @type {Record<Kind, number> | null} */
    this.lowest = null;
    /** @type {number | undefined} */
    this.slowTimer = undefined;
    /** @type {number | undefined} */
    this.storeTimer = undefined;
    this.leaving = new AbortController();
  }

  /** Under what the browser keeps something of this session. */
  get key() {
    return `maproom ${this.url} ${this.roomName} ${this.name}`;
  }

  /**
   * Calls a function at each event of a type, with what the event is about.
   * @template {keyof SessionEvents} Type
   * @param {Type} type
   * @param {(about: SessionEvents[Type]) => void} listener
   */
  listen(type, listener) {
    this.addEventListener(type, (event) => listener(/** @type {CustomEvent<SessionEvents[Type]>} */(event).detail));
  }

  /**
   * @template {keyof SessionEvents} Type
   * @param {Type} type
   * @param {SessionEvents[Type]} about
   */
  report(type, about) {
    this.dispatchEvent(new CustomEvent(type, { detail: about }));
  }

  /**
   * @param {SessionState} state
   * @param {string} text
   */
  become(state, text, isBad = false) {
    this.state = state;
    this.text = text;
    this.isBad = isBad;
    this.report("state", undefined);
  }

  /** @returns {Elements} */
  get elements() {
    return this.room?.elements ?? new Map();
  }

  /** The room, when the session is in one. */
  get joinedRoom() {
    if (!this.room) throw new Error("Connect first.");
    return this.room;
  }

  /** Connects, and tries again until it is there or is refused for good. Returns whether it is there. */
  async open() {
    let pause = FIRST_PAUSE;
    let { heartbeat } = Session;
    if (!/^wss?:\/\/[^/]/.test(this.url)) return this.end("The address has to begin with ws:// or wss://.");
    if (!isUrl(this.url)) return this.end("The address is invalid. Look at its host and its port.");
    while (!this.isOver) {
      if (this.state === "connecting") this.become("connecting", "Connecting ..");
      const text = "Waiting: perhaps the map is large, or all places of the server are taken";
      const late = setTimeout(() => this.become("waiting", text), 3000);
      try {
        const { name, roomName: room, leaving: { signal } } = this;
        const times = { openTimeout: null, timeout: null, heartbeat };
        this.room = await maproom.connect(this.url, { room, name, signal, ...times });
        clearTimeout(late);
        return await this.begin();
      } catch (thrown) {
        const error = /** @type {Failure} */ (thrown);
        if (this.isOver) return false;
        if (this.takeName(error)) continue;
        if (error.why !== "connection_failed") return this.end(sentenceOf(error));
        clearTimeout(late);
        const isSilent = error.cause?.message === "the server is silent"; // on an open connection
        const time = counted(heartbeat / 1000, "second");
        const why = isSilent ? `The map did not come within ${time}.` : await whyUnreachable(this.url);
        if (this.isOver) return false;
        this.become("lost", `${why} Trying again ..`, true);
        if (isSilent) heartbeat = Math.min(2 * heartbeat, LONGEST_HEARTBEAT);
        await pauseOf(pause);
        pause = Math.min(2 * pause, LONGEST_PAUSE);
      } finally {
        clearTimeout(late);
      }
    }
    return false;
  }

  /**
   * Takes the name under which the server knows the mapper, if it refused another one. Returns whether it did.
   * @param {Failure} error
   */
  takeName({ why, no }) {
    if (why !== "wrong_name" || !no?.name || no.name === this.name) return false;
    this.name = no.name;
    this.report("renamed", undefined);
    return true;
  }

  async begin() {
    const room = this.joinedRoom;
    room.addEventListener("change", (event) => this.takeChange(event));
    room.addEventListener("reset", (event) => this.takeReset(event));
    room.addEventListener("state", () => this.takeState());
    room.addEventListener("error", ({ error }) => this.takeError(/** @type {Failure} */(error)));
    this.become("open", "");
    this.report("map", { isFirst: true, restarted: null });
    await this.askUndos(true);
    return true;
  }

  takeState() {
    const { state } = this.joinedRoom;
    this.switches += 1;
    if (state === "connecting") this.become("lost", "Connection lost, trying again ..", true);
    if (state !== "open") return;
    this.become("open", "");
    for (const done of this.waiting.splice(0)) done();
  }

  /** Waits while there is no connection, so that a gesture is made for the map that comes then. */
  async whenOpen() {
    if (this.joinedRoom.state === "connecting") await new Promise((done) => this.waiting.push(() => done(undefined)));
    if (this.isOver) throw new NotDone("closed");
  }

  /** @param {Failure} error */
  takeError(error) {
    if (this.joinedRoom.state === "closed") this.end(sentenceOf(error));
    else console.error(error);
  }

  /** Leaves the room, perhaps for a reason. */
  end(why = "") {
    if (this.isOver) return false;
    this.isOver = true;
    this.hasLeft = !why;
    for (const done of this.waiting.splice(0)) done();
    this.leaving.abort(new Error("left"));
    this.room?.close();
    this.become("closed", why, Boolean(why));
    return false;
  }

  // ---- What comes

  /** @param {maproom.ResetEvent} event */
  takeReset({ restarted, rows }) {
    this.lowest = null;
    this.note(null, rows);
    if (restarted !== false) {
      this.doubts += 1;
      this.putLists([], []);
    }
    if (restarted) {
      this.run += 1;
      this.forget();
    }
    this.setConflict(null);
    this.report("map", { isFirst: false, restarted });
    this.askUndos(restarted === null);
  }

  /** Another run of the server has other entries. */
  forget() {
    for (const each of [this.entries, this.texts, this.gestures]) each.clear();
    this.store();
  }

  /** @param {maproom.ChangeEvent} event */
  takeChange({ seq, by, rows }) {
    const entry = { seq, by, rows, at: new Date(), text: "", isUndone: false, undoes: null, redoes: null };
    this.recognize(entry);
    this.note(by, rows);
    this.entries.set(seq, entry);
    if (this.entries.size > MOST_ENTRIES) this.entries.delete(this.entries.keys().next().value);
    for (const { el } of rows) this.learnName(el);
    this.report("change", { entry, rows });
    this.storeTimer ??= setTimeout(() => this.store(), STORE_AFTER);
    this.lookAtConflict(rows);
    if (by === this.name && this.unsaved === 0) this.askUndos();
  }

  /**
   * News do not say that an entry was undone or redone: that is seen by what they put back.
   * @param {Entry} entry
   */
  recognize(entry) {
    const { by, rows } = entry;
    if (by === this.name) return;
    const older = [...this.entries.values()].filter((other) => other.by === by && other.rows.length === rows.length
      && other.rows[0]?.el === rows[0]?.el && other.undoes === null).reverse();
    const undone = older.find((other) => !other.isUndone && puts(rows, other.rows, "before"));
    const redone = older.find((other) => other.isUndone && puts(rows, other.rows, "after"));
    if (undone) {
      undone.isUndone = true;
      entry.undoes = undone.seq;
    } else if (redone) {
      entry.redoes = redone.seq;
    }
  }

  /**
   * What an entry did, in words.
   * @param {Entry} entry
   */
  deed(entry) {
    if (entry.undoes) return `undid ${this.about(entry.undoes)}`;
    if (entry.redoes) return `redid ${this.about(entry.redoes)}`;
    return this.texts.get(entry.seq) ?? (entry.text ||= deedsOf(entry.rows));
  }

  /** @param {number} seq */
  about(seq) {
    return `entry ${seq}: ${this.textOf(seq)}`;
  }

  /**
   * What an undo or a redo is about, in words. Nobody knows which entry is the last while a change is under way.
   * @param {Gesture[]} gestures
   */
  aboutLast(gestures) {
    const last = this.unsaved === 0 ? gestures.at(-1) : null;
    return last ? this.about(last[0]) : "the last change";
  }

  /**
   * Whether it is known what an entry did.
   * @param {number} seq
   */
  isKnown(seq) {
    return this.texts.has(seq) || this.entries.has(seq);
  }

  /**
   * What an entry did, also one from before a reload.
   * @param {number} seq
   */
  textOf(seq) {
    const entry = this.entries.get(seq);
    return this.texts.get(seq) ?? (entry ? (entry.text ||= deedsOf(entry.rows)) : "made before you came");
  }

  /** @param {number} seq */
  authorOf(seq) {
    return this.entries.get(seq)?.by ?? this.room?.authors.get(seq) ?? null;
  }

  /** @param {Conflict | null} conflict */
  setConflict(conflict) {
    if (this.conflict === conflict) return;
    this.conflict = conflict;
    this.report("conflict", undefined);
  }

  /** @param {ChangedRow[]} rows */
  lookAtConflict(rows) {
    const { conflict } = this;
    if (!conflict) return;
    const blocking = this.entries.get(conflict.with);
    const isGone = blocking ? blocking.isUndone : rows.some(({ el }) => el === conflict.at);
    if (isGone || this.entries.get(conflict.seq)?.isUndone) this.setConflict(null);
  }

  // ---- What the mapper has seen

  /**
   * Notes a change.
   * @param {string | null} by
   * @param {ChangedRow[]} rows
   */
  note(by, rows) {
    this.news.push({ by, rows });
    this.marks += 1;
    if (this.news.length > MOST_ENTRIES) this.news.shift();
  }

  /**
   * All that has come.
   * @returns {Sight}
   */
  now() {
    return { session: this, since: this.room?.seq ?? 0, mark: this.marks, doubts: this.doubts };
  }

  /** What the mapper has seen: what was shown, and not what has come and waits to be painted. */
  sight() {
    return this.seen ?? this.now();
  }

  /**
   * Whether the numbers of entries in a sight are those of this run of the server.
   * @param {Sight} sight
   */
  isOfThisRun({ session, doubts }) {
    return session === this && doubts === this.doubts;
  }

  /**
   * What others changed after a sight, or null if that is too long ago.
   * @param {Sight} sight
   */
  newsAfter({ session, mark }) {
    const count = this.marks - mark;
    if (session !== this || count > this.news.length) return null;
    return this.news.slice(this.news.length - count).filter(({ by }) => by !== this.name);
  }

  /**
   * The values among some that others changed after a sight, to something else than the mapper wants. If the sight is
   * too long ago, the values alone decide, and nobody knows whose they are.
   * @template {Claim} AnyClaim
   * @param {AnyClaim[]} claims
   * @param {Sight} sight
   * @returns {(Dispute & { claim: AnyClaim })[]}
   */
  disputes(claims, sight) {
    const news = this.newsAfter(sight);
    return claims.filter(({ isLeft }) => !isLeft).flatMap((claim) => {
      const changes = (news ?? []).filter(({ rows }) => rows.some(claim.isOf));
      if (news && !claim.isTouched(changes.flatMap(({ rows }) => rows.filter(claim.isOf)))) return [];
      const theirs = claim.theirs();
      return theirs === null ? [] : [{ claim, by: changes.at(-1)?.by ?? null, theirs }];
    });
  }

  /**
   * Who changed something last, of which `isOf` knows the rows: the mapper too, or null if nobody knows.
   * @param {(row: ChangedRow) => boolean} isOf
   */
  lastToChange(isOf) {
    return [...this.news].reverse().find(({ rows }) => rows.some(isOf))?.by ?? null;
  }

  // ---- Names of new elements

  /** The lowest ids are looked up when the first name is wanted. */
  learnNames() {
    const lowest = { n: 0, w: 0, r: 0 };
    this.lowest = lowest;
    for (const el of this.elements.keys()) this.learnName(el);
    return lowest;
  }

  /** @param {string} el */
  learnName(el) {
    if (!this.lowest || el[1] !== "-") return;
    const [id, kind] = [Number(el.slice(1)), /** @type {Kind} */ (el[0])];
    if (id > LEAST_ID && id < this.lowest[kind]) this.lowest[kind] = id;
  }

  /** @param {Kind} kind */
  newName(kind) {
    const lowest = this.lowest ?? this.learnNames();
    lowest[kind] -= 1;
    return `${kind}${lowest[kind]}`;
  }

  // ---- What is done

  /**
   * Does a gesture: `build` gets a function that gives names, and returns the actions. If others changed the same
   * meanwhile, it is done on the map as it is now. The mapper is asked for the values that others changed, too. Returns
   * the names that were given, or throws what refused it.
   * @param {string} text
   * @param {Build} build
   * @param {Grounds} grounds
   * @returns {Promise<string[]>}
   */
  async perform(text, build, { sight = this.sight(), claims = [] } = {}) {
    if (!this.room) throw new Error("Connect first.");
    const { run, doubts, unsaved } = this;
    const decision = { sight, claims };
    return this.count(text, async () => {
      for (; ;) {
        const { names, disputes } = await this.takeTurn({ run, doubts, unsaved, isOfEntries: false },
          () => this.attempt(text, build, decision));
        if (disputes.length === 0) return names;
        await this.choose(disputes);
        const left = claims.find(({ isLeft, isPart }) => isLeft && !isPart);
        if (left) throw new NotDone("left");
      }
    });
  }

  /**
   * Tries a gesture until the room takes it, or the mapper has to choose values.
   * @param {string} text
   * @param {Build} build
   * @param {{ sight: Sight, claims: Claim[] }} decision
   * @returns {Promise<{ names: string[], disputes: Dispute[] }>}
   */
  async attempt(text, build, decision) {
    const { claims } = decision;
    let mustReview = !this.isOfThisRun(decision.sight);
    /** @type {string[]} */
    let spare = []; // names that the room did not take
    for (let tries = 1; ; tries += 1) {
      /** @type {string[]} */
      const names = [];
      if (mustReview) {
        const disputes = this.disputes(claims, decision.sight);
        decision.sight = this.now();
        if (disputes.length) return { names, disputes };
      }
      const actions = this.build(build, names, spare, claims);
      try {
        this.remember(await this.send(actions, decision.sight.since), text);
        return { names, disputes: [] };
      } catch (thrown) {
        const error = /** @type {Failure} */ (thrown);
        mustReview = isStale(error);
        // Somebody else was quicker with a name.
        const isTaken = error.why === "present" && names.includes(error.no?.el ?? "");
        spare = isTaken ? [] : names;
        if ((!mustReview && !isTaken) || tries === MOST_TRIES) throw error;
      }
    }
  }

  /**
   * Does a change in its turn, and counts it as not saved.
   * @template T
   * @param {string} text
   * @param {(isLastDone: boolean) => Promise<T>} work
   * @returns {Promise<T>}
   */
  inTurn(text, work, isOfEntries = false) {
    const { run, doubts, unsaved } = this;
    const done = this.takeTurn({ run, doubts, unsaved, isOfEntries }, work);
    return this.count(text, () => done);
  }

  /**
   * Does a change when those before it are answered and there is a connection, so that it fits a map that has them.
   * `work` gets whether the change before it was done, or true if none was under way when this one was wanted. A change
   * is not done if the server was restarted since then; one about entries is not done if that is only possible.
   * @template T
   * @param {{ run: number, doubts: number, unsaved: number, isOfEntries: boolean }} when
   * @param {(isLastDone: boolean) => Promise<T>} work
   * @returns {Promise<T>}
   */
  takeTurn({ run, doubts, unsaved, isOfEntries }, work) {
    const done = this.turn.then(async (wasDone) => {
      await this.whenOpen();
      const restarted = run !== this.run;
      if (restarted || (isOfEntries && doubts !== this.doubts)) throw new NotDone("not_sent", { restarted });
      return work(wasDone || unsaved === 0);
    });
    this.turn = done.then(isDone, () => false);
    return done;
  }

  /**
   * The actions of a gesture for the map as it is now, and the names that it gives: first those that are `spare`.
   * @param {Build} build
   * @param {string[]} names
   * @param {string[]} spare
   * @param {Claim[]} claims
   */
  build(build, names, spare, claims) {
    const free = spare.filter((el) => !this.elements.has(el));
    /** @param {Kind} kind */
    const newName = (kind) => {
      const at = free.findIndex((el) => el[0] === kind);
      names.push(at < 0 ? this.newName(kind) : free.splice(at, 1)[0]);
      return lastOf(names);
    };
    const actions = build(newName);
    if (actions.length === 0) throw new NotDone(claims.some(({ isLeft }) => isLeft) ? "left" : "nothing");
    const nodesOf = (/** @type {maproom.Message} */ { nodes }) => /** @type {number[]} */(nodes ?? []);
    if (!actions.every((action) => areSafe(nodesOf(action)))) throw new NotDone("unsafe");
    return actions;
  }

  /**
   * Counts a change as not saved while it is under way. An error gets the text of the change, and whether the change
   * was dropped.
   * @template T
   * @param {string} text
   * @param {() => Promise<T>} work
   * @returns {Promise<T>}
   */
  async count(text, work) {
    const { switches } = this;
    this.unsaved += 1;
    this.report("unsaved", undefined);
    this.watchAnswers();
    try {
      return await work();
    } catch (thrown) {
      const error = /** @type {Failure} */ (thrown);
      const { no } = error;
      if (no?.why === "conflict") this.setConflict({ seq: this.asked, with: no.with ?? 0, at: no.at ?? "" });
      throw Object.assign(error, { text, isDropped: this.isDropped(error, switches) });
    } finally {
      this.unsaved -= 1;
      this.report("unsaved", undefined);
      this.watchAnswers();
      if (this.unsaved === 0) this.askUndos();
    }
  }

  /**
   * Whether a change that was refused was dropped, so that the mapper may have missed it. Whoever leaves agrees to
   * that, and if nothing would change, the map is as the mapper wanted it.
   * @param {Failure} error
   * @param {number} switches
   */
  isDropped({ why = "" }, switches) {
    const hasWaited = switches !== this.switches && !this.hasLeft;
    return DROPS.has(why) || (hasWaited && !AS_WANTED.has(why));
  }

  /** Says that the server does not answer, if an answer is awaited for long. */
  watchAnswers() {
    clearTimeout(this.slowTimer);
    if (this.state !== "open") return;
    if (this.text) this.become("open", "");
    if (this.unsaved === 0) return;
    this.slowTimer = setTimeout(() => {
      if (this.state === "open") this.become("open", "The server does not answer yet", true);
    }, SLOW);
  }

  /**
   * Sends the actions of a gesture as one group or, if the server knows no groups, one by one. `since` is the entry up
   * to which the mapper had seen the map. Returns the numbers of the entries.
   * @param {maproom.Message[]} actions
   * @param {number} since
   * @returns {Promise<number[]>}
   */
  async send(actions, since) {
    if (actions.length > MOST_ACTIONS) throw new Error("That is more than can be done at once. Do it in parts.");
    if (actions.length === 1) return [await this.change(actions[0], since)];
    if (this.hasGroups !== false) {
      try {
        const seq = await this.change({ do: "group", actions }, since);
        this.hasGroups = true;
        return [seq];
      } catch (thrown) {
        const error = /** @type {Failure} */ (thrown);
        if (error.why !== "unknown_do" || error.no?.action !== undefined) throw error;
        this.hasGroups = false;
      }
    }
    return this.sendEach(actions, since);
  }

  /**
   * Sends a change. Returns the number of its entry.
   * @param {maproom.Message} message
   * @param {number} since
   */
  async change(message, since) {
    return /** @type {number} */ ((await this.joinedRoom.ask({ ...message, since })).seq);
  }

  /**
   * Does one action after another. If one is refused, those before it are undone.
   * @param {maproom.Message[]} actions
   * @param {number} since
   * @returns {Promise<number[]>}
   */
  async sendEach(actions, since) {
    /** @type {number[]} */
    const seqs = [];
    try {
      for (const action of actions) seqs.push(await this.change(action, since));
      return seqs;
    } catch (thrown) {
      const error = /** @type {Failure} */ (thrown);
      if (error.no) for (const seq of seqs.reverse()) await this.joinedRoom.undo(seq);
      throw error;
    }
  }

  /**
   * Notes the entries of a gesture, which is the next to be undone. Nothing can be redone after it but what is given.
   * @param {number[]} seqs
   * @param {string} text
   * @param {Gesture[]} [redos]
   */
  remember(seqs, text, redos = []) {
    for (const seq of seqs) {
      this.texts.set(seq, text);
      this.gestures.set(seq, seqs);
    }
    this.store();
    this.putLists([...without(this.undos, seqs), seqs], redos);
  }

  // ---- What can be undone

  async askUndos(isRestored = false) {
    try {
      const { undos, redo } = await this.joinedRoom.undos();
      if (isRestored) this.restore(undos);
      this.putLists(this.inGestures(undos), this.inGestures(redo));
    } catch (error) {
      const { why = "" } = /** @type {Failure} */ (error);
      if (why !== "closed" && why !== "no_name") console.error(error); // who only watches has nothing to undo
    }
  }

  /**
   * @param {Gesture[]} undos
   * @param {Gesture[]} redos
   */
  putLists(undos, redos) {
    this.undos = undos;
    this.redos = redos;
    this.report("history", undefined);
  }

  /**
   * The numbers of entries, those of one gesture together.
   * @param {number[]} seqs
   * @returns {Gesture[]}
   */
  inGestures(seqs) {
    const all = new Set(seqs);
    /** @type {Gesture[]} */
    const items = [];
    for (const seq of seqs) {
      const gesture = (this.gestures.get(seq) ?? [seq]).filter((each) => all.has(each));
      if (gesture[0] === seq || !gesture.includes(seq)) items.push(gesture.length ? gesture : [seq]);
    }
    return items;
  }

  /**
   * Undoes the entries of a gesture or, if none is given, those of the last. If that was under way and was not done, an
   * earlier one is not meant.
   * @param {Gesture | null} [given]
   */
  undo(given = null) {
    const text = `undid ${given ? this.about(given[0]) : this.aboutLast(this.undos)}`;
    return this.inTurn(text, async (isLastDone) => {
      const seqs = given ?? this.undos.at(-1);
      if (!seqs) throw new NotDone("nothing_to_undo");
      if (!given && !isLastDone) throw new NotDone("not_meant");
      return this.undoEach(seqs);
    }, true);
  }

  /** Undoes the last gesture that can be undone: the last of those whose undo the room accepts. */
  undoLastPossible() {
    return this.inTurn("undid the last change that can be undone", async (isLastDone) => {
      if (!isLastDone) throw new NotDone("not_meant");
      for (const seqs of [...this.undos].reverse()) {
        try {
          return await this.undoEach(seqs);
        } catch (error) {
          const why = /** @type {Failure} */ (error).no?.why;
          if (why !== "conflict" && why !== "not_standing") throw error; // another client can have undone it meanwhile
        }
      }
      throw new NotDone(this.undos.length ? "all_blocked" : "nothing_to_undo");
    }, true);
  }

  /**
   * Undoes the entries of a gesture. Returns what the gesture did.
   * @param {Gesture} seqs
   */
  async undoEach(seqs) {
    const done = [];
    try {
      for (const seq of [...seqs].reverse()) {
        this.asked = seq;
        this.noteUndo(seq, (await this.joinedRoom.undo(seq)).seq);
        done.push(seq);
      }
    } catch (error) {
      if (/** @type {Failure} */ (error).no) for (const _ of done) await this.joinedRoom.redo();
      throw error;
    }
    this.putLists(without(this.undos, seqs), [...without(this.redos, seqs), seqs]);
    this.setConflict(null);
    return this.textOf(seqs[0]);
  }

  /**
   * Whether the mapper has a gesture that does not have this entry, and that could be undone in its place.
   * @param {number} seq
   */
  hasOtherUndos(seq) {
    return this.undos.some((seqs) => !seqs.includes(seq));
  }

  /**
   * Notes that an entry of the mapper's own undid another. It shows what an entry did that came before the mapper.
   * @param {number} seq
   * @param {number} by
   */
  noteUndo(seq, by) {
    const [entry, undo] = [this.entries.get(seq), this.entries.get(by)];
    if (entry) entry.isUndone = true;
    if (!undo) return;
    undo.undoes = seq;
    const turned = undo.rows.map(({ el, before, after }) => ({ el, before: after, after: before }));
    if (!this.isKnown(seq)) this.texts.set(seq, deedsOf(turned));
  }

  /** Redoes what was undone last. */
  redo() {
    return this.inTurn(`redid ${this.aboutLast(this.redos)}`, async (isLastDone) => {
      const seqs = this.redos.at(-1);
      if (!seqs) throw new NotDone("nothing_to_redo");
      if (!isLastDone) throw new NotDone("not_meant");
      const made = [];
      let text = "";
      for (const each of seqs) {
        const { seq, redid = each } = await this.joinedRoom.redo();
        made.push(seq);
        text ||= this.textOf(redid);
        const entry = this.entries.get(seq);
        if (entry) entry.redoes = redid;
      }
      this.remember(made, text, without(this.redos, seqs));
      return text;
    }, true);
  }

  // ---- What outlives a reload: what the mapper's own entries did, and the last changes of all

  store() {
    clearTimeout(this.storeTimer);
    this.storeTimer = undefined;
    const entries = [...this.texts].slice(-300).map(([seq, text]) => [seq, text, this.gestures.get(seq)]);
    const changes = [...this.entries.values()].slice(-MOST_KEPT)
      .map((entry) => [entry.seq, entry.by, this.deed(entry), entry.at.getTime()]);
    try {
      localStorage.setItem(this.key, JSON.stringify({ seq: this.joinedRoom.seq, entries, changes }));
    } catch {
      // Without storage a reload forgets what entries did.
    }
  }

  /**
   * Reads what was kept, if it fits this run of the server: entries have numbers below the last, and of those that are
   * remembered the newest that can be undone is known.
   * @param {number[]} undos
   */
  restore(undos) {
    /**
     * @type {{ seq: number, entries: [seq: number, text: string, gesture?: Gesture][],
     *   changes?: [seq: number, by: string, text: string, at: number][] } | null}
     */
    let kept = null;
    try {
      kept = JSON.parse(localStorage.getItem(this.key) ?? "null");
    } catch {
      return;
    }
    if (!kept || kept.seq > this.joinedRoom.seq) return;
    const { entries } = kept;
    if (!undos.some((seq) => entries.some(([each]) => each === seq))) return;
    for (const [seq, text, gesture] of entries) {
      this.texts.set(seq, text);
      this.gestures.set(seq, gesture ?? [seq]);
    }
    this.restoreChanges(kept.changes ?? []);
  }

  /**
   * Puts the changes of an earlier visit in front of those that came. What they changed is not known any more.
   * @param {[seq: number, by: string, text: string, at: number][]} changes
   */
  restoreChanges(changes) {
    const came = [...this.entries];
    this.entries.clear();
    for (const [seq, by, text, at] of changes) {
      const about = { isUndone: false, undoes: null, redoes: null };
      this.entries.set(seq, { seq, by, rows: [], at: new Date(at), text, ...about });
    }
    for (const [seq, entry] of came) this.entries.set(seq, entry);
  }
}

/**
 * Whether what a change rests on is not the map of the room any more: others changed it, or the number of the entry up
 * to which it was seen is that of another run of the server. A change that was not sent is not sent under that number.
 * @param {Failure} error
 */
const isStale = ({ why, restarted }) => why === "changed" || why === "no_such" || (why === "not_sent" && !restarted);

/**
 * Whether a change that ended was done, and does not wait for the mapper's choice.
 * @param {unknown} result
 */
const isDone = (result) => !(/** @type {{ disputes?: Dispute[] } | undefined} */ (result)?.disputes?.length);

/**
 * Whether rows put each part that an entry changed where it was before it (or after it), and leave the rest.
 * @param {ChangedRow[]} rows
 * @param {ChangedRow[]} changed
 * @param {"before" | "after"} when
 */
function puts(rows, changed, when) {
  const byName = new Map(changed.map((row) => [row.el, row]));
  return rows.every(({ el, before, after }) => {
    const row = byName.get(el);
    if (!row) return false;
    const [wanted, now, then] = [partsOf(row[when]), partsOf(after), partsOf(before)];
    if (!wanted || !now) return wanted === now;
    const [from, to] = [partsOf(row.before), partsOf(row.after)];
    return /** @type {const} */ (["tags", "place"]).every((part) => {
      const isChanged = !from || !to || !isSameValue(from[part], to[part]);
      return isSameValue(now[part], isChanged || !then ? wanted[part] : then[part]);
    });
  });
}
