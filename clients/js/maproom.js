// A client of maproom, a server on which several mappers edit one OpenStreetMap map at the same time.
//
//     const room = await maproom.connect("ws://127.0.0.1:9001", { room: "hamlet", name: "lina" });
//     const tree = await room.createNode(51.5, -0.1, { natural: "tree" });
//     room.addEventListener("change", ({ seq, by, rows }) => console.log(seq, by, rows));
//
// It is one file for a page (<script src="maproom.js"> sets `maproom`), for require("maproom") and for import. In Node
// it uses the global WebSocket or, if there is none, the package ws. docs/CLIENT.md of the repository describes it.
"use strict";
(() => {
  /**
   * @typedef {typeof import("./maproom")} Library
   * @typedef {import("./maproom").Room} Api
   * @typedef {import("./maproom").Element} Element
   * @typedef {import("./maproom").Row} Row
   * @typedef {import("./maproom").Message} Message
   * @typedef {import("./maproom").Answer} Answer
   * @typedef {import("./maproom").Refusal} Refusal
   * @typedef {import("./maproom").CoreEvent} CoreEvent
   * @typedef {import("./maproom").Degrees} Degrees
   * @typedef {import("./maproom").Members} Members
   * @typedef {import("./maproom").State} State
   * @typedef {import("./maproom").ChangeOptions} ChangeOptions
   * @typedef {"n" | "w" | "r"} Kind
   *
   * What the room sends: an answer under the id of its message, or the news of an entry.
   * @typedef {{ id: number, ok?: any, no?: Refusal }} Reply
   * @typedef {{ seq: number, by: string, rows: (Element | { el: string, gone: true })[] }} News
   *
   * A message that waits for its answer.
   * @typedef {{ id: number, message: Message, text: string, done: (answer: Answer) => void, timesSent: number,
   *   isGivenUp: boolean }} Asked
   *
   * The options of a room, with their defaults.
   * @typedef {{ room: string, name: string, openTimeout: number | null, timeout: number | null, heartbeat: number
   *   }} Options
   *
   * @typedef {EventListenerOrEventListenerObject} Listener
   *
   * A WebSocket of the platform or of the package ws, which has more.
   * @typedef {WebSocket & { terminate?: () => void, _socket?: { bytesRead: number } }} Socket
   */

  // ---- The core: the texts that go out, and the events, for the texts that come in. It knows no sockets and no
  // clock. The Python package has the same core, and tests/texts/clients fixes both; docs/CLIENT.md has the rules.

  const QUERIES = new Set(["get", "map", "undos"]);

  // No journal has an entry of this number, so an undo of it is never accepted.
  const NO_ENTRY = Number.MAX_SAFE_INTEGER;

  // New elements get ids below all others, but none of these, which would be rounded.
  const LEAST_ID = -(2 ** 52);

  /** The room sent a text that cannot come next: a gap in the news, for example. Only a new session helps. */
  class OutOfStep extends Error {}

  /** The room refused the hello. `no` has the reason. */
  class HelloRefused extends Error {
    /** @param {Refusal} no */
    constructor(no) {
      super(JSON.stringify(no));
      this.no = no;
    }
  }

  /**
   * Whether two rows of an element, which may be missing, are the same.
   * @param {unknown} one
   * @param {unknown} other
   * @returns {boolean}
   */
  function isSame(one, other) {
    if (one === other) return true;
    if (typeof one !== "object" || typeof other !== "object" || !one || !other) return false;
    const [first, second] = /** @type {Record<string, unknown>[]} */ ([one, other]);
    const keys = Object.keys(first);
    if (keys.length !== Object.keys(second).length) return false;
    return keys.every((key) => key in second && isSame(first[key], second[key]));
  }

  /**
   * The elements in which two maps differ: {el, before, after}, where null means that it is not in the map.
   * @param {ReadonlyMap<string, Element>} before
   * @param {ReadonlyMap<string, Element>} after
   */
  function differences(before, after) {
    /** @type {Row[]} */
    const rows = [];
    for (const [el, element] of before) {
      if (!isSame(element, after.get(el))) rows.push({ el, before: element, after: after.get(el) ?? null });
    }
    for (const [el, element] of after) if (!before.has(el)) rows.push({ el, before: null, after: element });
    return rows;
  }

  /** @param {{ message: Message }} asked */
  const isChange = ({ message }) => !QUERIES.has(message.do);

  /**
   * The entry that the mirror needs before an answer is reported, or 0. After a refusal `changed` a caller looks at the
   * mirror again, and would find it unchanged before the news of that entry.
   * @param {Asked} asked
   * @param {Answer} answer
   * @returns {number}
   */
  function entryOf(asked, { ok, no }) {
    if (no) return no.why === "changed" ? no.with : 0;
    return isChange(asked) ? ok.seq : 0;
  }

  /**
   * A client's knowledge of a room: the mirror `elements` by name, the number `seq` of its last entry (null before
   * the first welcome), and `authors`, by the number of the entry. Each method returns the texts to send. `events`
   * collects what happened, and the caller empties it. At most `window` messages are on their way at once.
   */
  class Core {
    /**
     * @param {string} room
     * @param {string} name
     */
    constructor(room, name, firstId = 2, window = 1) {
      this.room = room;
      this.name = name;
      this.nextId = firstId;
      this.window = window;
      /** @type {Map<string, Element>} */
      this.elements = new Map();
      /** @type {number | null} */
      this.seq = null;
      /** @type {Map<number, string>} */
      this.authors = new Map();
      /** @type {CoreEvent[]} */
      this.events = [];
      /** @type {((reply: Reply) => string[]) | null} */
      this.takeNext = null;
      /** @type {{ id: number, seq: number } | null} */
      this.accepted = null; // the id and the entry of the last accepted change of this run of the server
      /** @type {Set<Asked>} */
      this.sent = new Set(); // sent in this session, and not answered
      /** @type {Set<Asked>} */
      this.queued = new Set(); // not sent in this session
      /** @type {{ seq: number, asked: Asked, answer: Answer }[]} */
      this.settling = []; // answers whose entries are not in the mirror yet
      /** @type {{ elements: Map<string, Element>, seq: number, authors: Map<number, string> } | null} */
      this.gap = null; // the state before a new session, until it is known which run of the server answers
      /** @type {Record<Kind, number>} */
      this.lowest = { n: 0, w: 0, r: 0 };
    }

    /** Whether the session has begun, so that a message goes out at once. */
    isHere() {
      return this.takeNext === this.takeAnswer;
    }

    /** Begins a session. */
    begin() {
      this.end();
      this.takeNext = this.takeWelcome;
      return [JSON.stringify({ id: 1, do: "hello", room: this.room, name: this.name })];
    }

    /** Ends the session: the connection is gone. */
    end() {
      this.takeNext = null;
      this.queued = new Set([...this.sent, ...this.queued].filter((asked) => !asked.isGivenUp));
      this.sent.clear();
    }

    /**
     * Ends everything. What has no answer is answered with `no`.
     * @param {Refusal} no
     */
    close(no) {
      this.end();
      this.settle();
      const waiting = this.queued;
      this.queued = new Set();
      for (const asked of waiting) asked.done({ no: { ...no, sent: asked.timesSent > 0 && isChange(asked) } });
    }

    /** How many messages have no answer yet. */
    pending() {
      return this.sent.size + this.queued.size + this.settling.length;
    }

    /**
     * Adds a message that `sendMore` sends. `done` gets {"ok": ..} or {"no": ..}. By then the mirror has an accepted
     * change, and the entry that a refusal `changed` names. The core gives each message an id of its own, because an
     * accepted change spends it.
     * @param {Message} message
     * @param {(answer: Answer) => void} [done]
     */
    add(message, done = () => {}) {
      const id = this.nextId++;
      const text = JSON.stringify(Object.assign({ id }, message, { id }));
      const asked = { id, message, text, done, timesSent: 0, isGivenUp: false };
      this.queued.add(asked);
      return asked;
    }

    /**
     * Adds a message, and returns the texts to send.
     * @param {Message} message
     * @param {(answer: Answer) => void} [done]
     */
    ask(message, done) {
      this.add(message, done);
      return this.sendMore();
    }

    /**
     * Forgets a message: it is not sent if it was not sent yet, and never sent again.
     * @param {Asked} asked
     */
    giveUp(asked) {
      asked.isGivenUp = true;
      asked.done = () => {};
    }

    /** A small question whose answer shows that the session is alive, if no other message is on its way. */
    probe() {
      return this.isHere() && this.sent.size === 0 ? this.ask({ do: "get", el: "n1" }) : [];
    }

    /** The messages that may go out now. */
    sendMore() {
      /** @type {string[]} */
      const texts = [];
      if (!this.isHere()) return texts;
      for (const asked of this.queued) {
        if (this.sent.size >= this.window) break;
        this.queued.delete(asked);
        if (asked.isGivenUp) continue;
        asked.timesSent += 1;
        this.sent.add(asked);
        texts.push(asked.text);
      }
      return texts;
    }

    /**
     * A name for a new element of a kind, `n`, `w` or `r`, that the mirror does not have.
     * @param {Kind} kind
     */
    newName(kind) {
      do this.lowest[kind] -= 1;
      while (this.elements.has(`${kind}${this.lowest[kind]}`));
      return `${kind}${this.lowest[kind]}`;
    }

    /**
     * Takes a text of the room's. Throws OutOfStep if a new session has to begin, and HelloRefused if the hello was
     * refused.
     * @param {string} text
     * @returns {string[]}
     */
    take(text) {
      try {
        /** @type {Reply & { news: News }} */
        const received = JSON.parse(text);
        if ("news" in received) return this.takeNews(received.news);
        return this.takeNext ? this.takeNext(received) : [];
      } catch (error) {
        if (!(error instanceof TypeError || error instanceof SyntaxError)) throw error;
        throw new OutOfStep(`the room sent ${String(text).slice(0, 200)}`, { cause: error });
      }
    }

    /**
     * Takes the answer to the hello, and asks which run of the server it is from.
     * @param {Reply} reply
     * @returns {string[]}
     */
    takeWelcome({ ok, no }) {
      if (no) throw new HelloRefused(no);
      const { map, seq } = ok;
      const { seq: last, authors } = this;
      if (last !== null && !this.gap) this.gap = { elements: new Map(this.elements), seq: last, authors };
      this.seq = seq;
      this.authors = new Map();
      this.elements.clear();
      for (const element of map) this.put(element);
      if (last === null) {
        this.takeNext = this.takeAnswer;
        return this.sendMore();
      }
      if (seq < last) return this.goOn(true);
      if (!this.accepted) return this.goOn(null);
      this.takeNext = this.takeRun;
      return [JSON.stringify({ id: this.accepted.id, do: "undo", seq: NO_ENTRY })];
    }

    /**
     * Takes the answer to the restart question: the same run repeats the entry that spent the id.
     * @param {Reply} reply
     * @returns {string[]}
     */
    takeRun({ id, no }) {
      if ((id !== 0 && id !== this.accepted?.id) || no?.why === "memory") {
        throw new OutOfStep("the server did not say which run it is");
      }
      return this.goOn(no?.why !== "repeat" || no.seq !== this.accepted?.seq);
    }

    /**
     * Goes on in the same run of the server, in another one (true), or in one that may be another (null).
     * @param {boolean | null} restarted
     * @returns {string[]}
     */
    goOn(restarted) {
      const { gap } = this;
      if (!gap) throw new OutOfStep("no session was interrupted");
      this.gap = null;
      this.takeNext = this.takeAnswer;
      if (restarted === false) this.authors = new Map([...gap.authors, ...this.authors]);
      else if (restarted) this.authors = new Map();
      const rows = differences(gap.elements, this.elements);
      const seq = this.seq ?? 0;
      if (rows.length > 0 || restarted || seq !== gap.seq) this.events.push({ seq, reset: true, restarted, rows });
      this.settle();
      if (restarted !== false) {
        this.accepted = null;
        this.dropChanges(restarted === true);
      }
      return this.sendMore();
    }

    /**
     * Drops the messages that were meant for another journal, or may have been.
     * @param {boolean} restarted
     */
    dropChanges(restarted) {
      const waiting = this.queued;
      /** @type {[asked: Asked, no: Refusal][]} */
      const dropped = [];
      this.queued = new Set();
      for (const asked of waiting) {
        const isSent = asked.timesSent > 0;
        asked.timesSent = 0;
        const namesAnEntry = "seq" in asked.message || "since" in asked.message;
        if (isChange(asked) && (isSent || restarted || namesAnEntry)) {
          dropped.push([asked, { why: isSent ? "unknown" : "not_sent", restarted }]);
        } else {
          this.queued.add(asked);
        }
      }
      for (const [asked, no] of dropped) asked.done({ no });
    }

    /**
     * Takes an answer, which is to the message that was sent first. The room may not have read its id.
     * @param {Reply} reply
     * @returns {string[]}
     */
    takeAnswer({ id, ok, no }) {
      const [asked] = this.sent;
      if (!asked || (id !== 0 && id !== asked.id)) {
        throw new OutOfStep("the room answered a message that was not sent");
      }
      this.sent.delete(asked);
      // A repeat of a message that was sent before is its lost answer.
      const isLost = asked.timesSent > 1 && no?.why === "repeat";
      /** @type {Answer} */
      const answer = isLost ? { ok: { seq: no.seq } } : no ? { no } : { ok };
      const entry = entryOf(asked, answer);
      if (answer.ok && isChange(asked)) this.accepted = { id: asked.id, seq: entry };
      if (entry > (this.seq ?? 0)) this.settling.push({ seq: entry, asked, answer });
      else asked.done(answer);
      return this.sendMore();
    }

    /**
     * Takes what an entry changed.
     * @param {News} news
     * @returns {string[]}
     */
    takeNews({ seq, by, rows }) {
      if (!this.takeNext || this.takeNext === this.takeWelcome || seq !== (this.seq ?? 0) + 1) {
        throw new OutOfStep(`the news of entry ${seq} came after ${this.seq}`);
      }
      this.seq = seq;
      this.authors.set(seq, by);
      const changed = rows.map((row) => {
        const [before, after] = [this.elements.get(row.el) ?? null, "gone" in row ? null : row];
        if (after) this.put(after);
        else this.elements.delete(row.el);
        return { el: row.el, before, after };
      });
      if (!this.gap) {
        this.events.push({ seq, by, rows: changed });
        this.settle(seq);
      }
      return [];
    }

    /** Reports the answers whose entries are in the mirror up to an entry, or all. */
    settle(seq = Infinity) {
      while (this.settling.length > 0 && this.settling[0].seq <= seq) {
        const [{ asked, answer }] = this.settling.splice(0, 1);
        asked.done(answer);
      }
    }

    /**
     * Puts an element into the mirror, and keeps new names below all that it has.
     * @param {Element} element
     */
    put(element) {
      this.elements.set(element.el, element);
      if (element.el[1] !== "-") return;
      const [number, kind] = [Number(element.el.slice(1)), /** @type {Kind} */ (element.el[0])];
      if (LEAST_ID < number && number < this.lowest[kind]) this.lowest[kind] = number;
    }
  }

  // ---- The errors.

  /**
   * The reasons of docs/PROTOCOL.md in words. A name in braces is that of a member of the refusal.
   * @type {Record<string, string>}
   */
  const WORDS = {
    not_json: "the room could not read the message",
    not_object: "the room could not read the message",
    bad_id: "the room could not read the message",
    unknown_do: "the room does not know this action",
    bad_field: "{field} is missing, or not of its form",
    hello_twice: "the session has begun already",
    no_hello: "the session has not begun",
    no_room: "the server has no such room",
    wrong_name: "you are logged in as {name}, and have to use that name",
    no_name: "the server was not told who you are: log in, and ask the operator whether your login has a name",
    repeat: "entry {seq} spent the id: another client has the same name",
    full: "the journal of the room is full",
    nothing_to_undo: "there is nothing to undo",
    no_such: "no entry has this number",
    not_yours: "the entry is another author's",
    not_standing: "the entry is an undo, or was undone",
    conflict: "entry {with} of {author} also touched {at}: it has to be undone first",
    nothing_to_redo: "there is nothing to redo",
    wrong_kind: "{el} is of the wrong kind for this",
    present: "{el} is there already",
    same: "{el} is named twice",
    absent: "{el} is not there",
    bad_position: "the way has no such position",
    not_end_to_end: "the way does not end where the other begins",
    tag_conflict: "the two elements have different values of {key}",
    out_of_range: "{el} would leave the range of coordinates",
    too_few: "{el} would have fewer than 2 nodes",
    too_many: "{el} would have too many nodes, members or tags",
    in_use: "{by} refers to {el}",
    nothing: "the map would not change",
    changed: "entry {with} of {author} changed {el} since: look at it again",
    memory: "the server is out of memory",
  };

  /**
   * The members of a refusal as the command-line clients print them.
   * @param {Refusal} no
   */
  function membersOf(no) {
    const others = Object.keys(no).filter((key) => key !== "why" && key !== "action");
    return ["why", ...others.sort()].map((key) => no[key]).join(" ");
  }

  /**
   * The words in front of the reason, if an action of a group was refused.
   * @param {Refusal} no
   */
  const placeOf = ({ action }) => (action === undefined ? "" : `action ${action}: `);

  /** Anything that this file throws on purpose. `why` is a word for the reason. */
  class MaproomError extends Error {
    /**
     * @param {string} why
     * @param {string} message
     * @param {ErrorOptions} [options]
     */
    constructor(why, message, options) {
      super(message, options);
      this.name = this.constructor.name;
      this.why = why;
    }
  }

  /** The first session did not begin. `cause` has the fault. */
  class ConnectionFailed extends MaproomError {
    /**
     * @param {string} message
     * @param {ErrorOptions} [options]
     */
    constructor(message, options) {
      super("connection_failed", message, options);
    }
  }

  /** The room was closed before the answer came. `isSent` says whether a change was sent, and so may be done. */
  class Closed extends MaproomError {
    constructor(isSent = false) {
      super("closed", `the room was closed${isSent ? ": look at the map whether it was done" : ""}`);
      this.isSent = isSent;
    }
  }

  /**
   * A change was sent and not answered, and nobody can say whether it was done. It is not sent again: look at the map.
   */
  class Unknown extends MaproomError {
    constructor(restarted = false) {
      const first = restarted ? "the server was started anew" : "the connection broke";
      super("unknown", `${first} before it answered: look at the map`);
      this.restarted = restarted;
    }
  }

  /** The server was started anew, perhaps with another map, before a change was sent. It was not done. */
  class NotSent extends MaproomError {
    constructor(restarted = false) {
      const first = restarted ? "the server was started anew" : "the server may have been started anew";
      super("not_sent", `${first} before this was sent: it was not done`);
      this.restarted = restarted;
    }
  }

  /** No answer came in time. A change may be done: look at the map. */
  class NoAnswer extends MaproomError {
    /** @param {number} milliseconds */
    constructor(milliseconds) {
      super("no_answer", `no answer came within ${milliseconds / 1000} seconds: look at the map`);
    }
  }

  /**
   * The room refused a message. `why` is its word for the reason, and `no` has all that it said. `action` is the
   * position of the refused action in a group, from 0, and null if there is none.
   */
  class Refused extends MaproomError {
    /**
     * @param {Refusal} no
     * @param {string | null} [author]
     */
    constructor(no, author = null) {
      super(no.why, placeOf(no) + Refused.inWords(no, author));
      const { action = null } = no;
      this.no = no;
      this.author = author;
      /** @type {number | null} */
      this.action = action;
      /** @type {string | null} */
      this.element = no.el ?? no.at ?? null;
      /** @type {number | null} */
      this.entry = no.with ?? no.seq ?? null;
    }

    /**
     * @param {Refusal} no
     * @param {string | null} author
     */
    static inWords(no, author) {
      const words = WORDS[no.why];
      if (!words) return membersOf(no);
      const text = author ? words : words.replace(" of {author}", "");
      return text.replace(/{(\w+)}/g, (_, key) => (key === "author" ? author : no[key]));
    }
  }

  /**
   * The message would change what the later `entry` of another author, `author`, changed at `element` after what the
   * message had seen (`since`). The mirror has that entry: look at it, and decide again.
   */
  class Changed extends Refused {
    /**
     * @param {Refusal} no
     * @param {string | null} [author]
     */
    constructor(no, author) {
      super(no, author);
      /** @type {string} */
      this.element = no.el;
      /** @type {number} */
      this.entry = no.with;
    }
  }

  /** The session is another author's: that of `author`, under whose name a hello is accepted. */
  class WrongName extends Refused {
    /** @param {Refusal} no */
    constructor(no) {
      super(no);
      /** @type {string} */
      this.author = no.name;
    }
  }

  /** The server was not told who the client is, so the client may not change anything. */
  class NoName extends Refused {}

  /**
   * The error for a refusal, or for a reason of the core: `unknown`, `not_sent`, `closed`.
   * @param {Refusal} no
   * @param {string} [author]
   */
  function errorOf(no, author) {
    if (no.why === "unknown") return new Unknown(no.restarted);
    if (no.why === "not_sent") return new NotSent(no.restarted);
    if (no.why === "closed") return new Closed(no.sent);
    if (no.why === "wrong_name") return new WrongName(no);
    if (no.why === "no_name") return new NoName(no);
    return no.why === "changed" ? new Changed(no, author) : new Refused(no, author);
  }

  /**
   * A refusal as the command-line clients print it: its word, with what it is about.
   * @param {Error} error
   */
  function shortWords(error) {
    if (!(error instanceof Refused) || ["changed", "conflict", "in_use"].includes(error.why)) return error.message;
    return placeOf(error.no) + membersOf(error.no);
  }

  // ---- The messages without their ids, one function for each action and each query of docs/PROTOCOL.md.

  /**
   * A number or a text of degrees as the text of a whole number of ten-millionths.
   * @param {Degrees} value
   */
  function units(value) {
    const text = typeof value === "number" ? value.toFixed(7) : String(value).trim();
    const parts = /^(-?)(\d+)(?:\.(\d{1,7}))?$/.exec(text);
    if (!parts) throw new RangeError(`${value} is no number of degrees with at most seven decimals`);
    return Number(`${parts[1]}${parts[2]}${(parts[3] ?? "").padEnd(7, "0")}`) + 0;
  }

  /**
   * A coordinate, which is a number or a text of degrees, as the room reads it.
   * @param {Degrees} value
   */
  function degrees(value) {
    if (typeof value !== "number") return String(value);
    if (!Number.isFinite(value)) throw new RangeError(`${value} is no coordinate`);
    return value.toFixed(7);
  }

  /** @param {Iterable<number | string>} nodes */
  const nodeIds = (nodes) => Array.from(nodes, (node) => (typeof node === "string" ? Number(node.slice(1)) : node));
  /**
   * @param {Members} members
   * @returns {[string, string][]}
   */
  const pairs = (members) => Array.from(members, ([name, role]) => [name, role]);

  /** @type {Library["actions"]} */
  const actions = {
    createNode: (el, lat, lon, tags = {}) => ({ do: "create", el, lat: degrees(lat), lon: degrees(lon), tags }),
    createWay: (el, nodes, tags = {}) => ({ do: "create", el, nodes: nodeIds(nodes), tags }),
    createRelation: (el, members, tags = {}) => ({ do: "create", el, members: pairs(members), tags }),
    retag: (el, tags) => ({ do: "retag", el, tags }),
    move: (els, dlat, dlon) => ({ do: "move", els: [els].flat(), dlat: units(dlat), dlon: units(dlon) }),
    reverse: (el) => ({ do: "reverse", el }),
    setNodes: (el, nodes) => ({ do: "nodes", el, nodes: nodeIds(nodes) }),
    setMembers: (el, members) => ({ do: "members", el, members: pairs(members) }),
    delete: (el) => ({ do: "delete", el }),
    purge: (el) => ({ do: "purge", el }),
    split: (el, at, into) => ({ do: "split", el, at, into }),
    join: (el, other) => ({ do: "join", el, with: other }),
    merge: (el, other) => ({ do: "merge", el, with: other }),
    unglue: (el, at, into) => ({ do: "unglue", el, at, into }),
    group: (steps) => ({ do: "group", actions: [...steps] }),
    undo: (seq) => (seq === undefined ? { do: "undo" } : { do: "undo", seq }),
    redo: () => ({ do: "redo" }),
    get: (el) => ({ do: "get", el }),
    map: () => ({ do: "map" }),
    undos: () => ({ do: "undos" }),
  };

  // ---- A room over a WebSocket.

  // How many milliseconds pass before the next attempt to connect: at first, and at most.
  const SOON = 100;
  const LATE = 5000;

  // How many messages are on their way at once, and how many names are tried for a new element.
  const WINDOW = 256;
  const TRIES = 100;

  // How often in the time of a heartbeat it is looked whether something came.
  const TICKS = 15;

  // How many bytes may wait in the browser before the library gives it more.
  const MOST_BUFFERED = 1 << 20;

  /** The entry `seq` of the journal: who made it (`by`), and the elements that it changed (`rows`). */
  class ChangeEvent extends Event {
    /** @param {{ seq: number, by: string, rows: Row[] }} entry */
    constructor({ seq, by, rows }) {
      super("change");
      this.seq = seq;
      this.by = by;
      this.rows = rows;
    }
  }

  /**
   * Entries were missed, and the mirror was read anew as of entry `seq`. `rows` has each element that differs.
   * `restarted` is true if another run of the server answered, false if the same run did, null if it is not known.
   */
  class ResetEvent extends Event {
    /** @param {{ seq: number, restarted: boolean | null, rows: Row[] }} reset */
    constructor({ seq, restarted, rows }) {
      super("reset");
      this.seq = seq;
      this.restarted = restarted;
      this.rows = rows;
    }
  }

  /** The connection became "open", "connecting" or "closed". */
  class StateEvent extends Event {
    /** @param {State} state */
    constructor(state) {
      super("state");
      this.state = state;
    }
  }

  /** `error`: what ended the room for good, or what one of your listeners threw. */
  class RoomErrorEvent extends Event {
    /** @param {unknown} error */
    constructor(error) {
      super("error");
      this.error = error;
      this.isHeard = false;
    }
  }

  /**
   * An address without a name and a password in it.
   * @param {string} url
   */
  const withoutLogin = (url) => String(url).replace(/^(\w+:\/\/)[^/?#]*@/, "$1");

  /**
   * A WebSocket of the platform, or else of the package ws, which would refuse large maps by itself.
   * @param {string} url
   * @returns {Socket}
   */
  function socketTo(url) {
    if (globalThis.WebSocket) return new globalThis.WebSocket(url);
    let Package;
    try {
      Package = require("ws");
    } catch {
      const places = "Debian: node-ws, and for another Node also NODE_PATH=/usr/share/nodejs";
      throw new Error(`it needs the package ws (${places})`);
    }
    const { username, password } = new URL(url);
    // The package would send a name and a password as they are written in an address.
    const auth = username ? { auth: `${decodeURIComponent(username)}:${decodeURIComponent(password)}` } : {};
    return new Package(withoutLogin(url), [], { ...auth, maxPayload: 0, perMessageDeflate: false });
  }

  class Room extends EventTarget {
    /** @type {string} */
    #address; // with the login

    /** @type {Core} */
    #core;

    /** @type {Options} */
    #options;

    /** @type {Socket | null} */
    #socket = null;

    /** @type {State} */
    #state = "connecting";

    /**
     * What waits for the first session.
     * @type {{ done(room: Room): void, fail(error: unknown): void } | null}
     */
    #opened = null;

    #isThere = false;

    #pause = SOON;

    #silentTicks = 0;

    /** @type {number | undefined} */
    #bytes = 0;

    #texts = 0;

    /** @type {string[]} */
    #outbox = [];

    /** @type {Partial<Record<"open" | "watch" | "again" | "flush", ReturnType<typeof setTimeout>>>} */
    #timers = {};

    /** @type {unknown} */
    #error = null;

    /** @type {WeakMap<Listener, (event: Event) => void>} */
    #listeners = new WeakMap();

    /**
     * Use `connect`.
     * @param {string} url
     * @param {Options} options
     */
    constructor(url, options) {
      super();
      this.url = withoutLogin(url);
      this.#address = url;
      this.#options = options;
      // Ids are spent for the life of the room, so each run of a program begins above those of earlier runs.
      const firstId = Date.now() * 1000 + Math.floor(Math.random() * 1000);
      this.#core = new Core(options.room, options.name, firstId, WINDOW);
    }

    /**
     * Connects, and gives the room when the welcome has come, within `openTimeout` milliseconds. Each message then
     * waits for its answer for `timeout` milliseconds at most. null means no limit. A connection on which nothing came
     * for `heartbeat` milliseconds is given up, and made anew. An aborted `signal` closes the room.
     * @type {Library["connect"]}
     */
    static connect(url, options) {
      const { room, name, openTimeout = 10_000, timeout = 60_000, heartbeat = 15_000, signal } = options ?? {};
      return new Promise((done, fail) => {
        signal?.throwIfAborted();
        const made = new Room(url, { room, name, openTimeout, timeout, heartbeat });
        made.#opened = { done, fail };
        if (openTimeout !== null) {
          const words = `${made.url} did not answer within ${openTimeout / 1000} seconds`;
          made.#timers.open = setTimeout(() => made.#end(new ConnectionFailed(words)), openTimeout);
        }
        const abort = () => made.#end(made.#isThere ? null : signal?.reason);
        signal?.addEventListener("abort", abort, { once: true });
        made.#begin();
      });
    }

    /** The map as of now, by the elements' names. Do not change it. */
    get elements() {
      return this.#core.elements;
    }

    /** The number of the last entry in `elements`: what you see now, for `since`. */
    get seq() {
      return this.#core.seq ?? 0;
    }

    /** Who made an entry, by its number, for the entries whose news came. */
    get authors() {
      return this.#core.authors;
    }

    /** How many messages have no answer yet. */
    get pending() {
      return this.#core.pending();
    }

    /** "connecting", "open" or "closed". */
    get state() {
      return this.#state;
    }

    get room() {
      return this.#options.room;
    }

    get name() {
      return this.#options.name;
    }

    /**
     * Adds a listener. What it throws becomes an event `error` and does not end the program.
     * @param {string} type
     * @param {Listener | null} listener
     * @param {boolean | AddEventListenerOptions} [options]
     */
    addEventListener(type, listener, options) {
      if (!listener) return;
      const guarded = this.#listeners.get(listener) ?? this.#guarded(listener);
      this.#listeners.set(listener, guarded);
      super.addEventListener(type, guarded, options);
    }

    /**
     * @param {string} type
     * @param {Listener | null} listener
     * @param {boolean | EventListenerOptions} [options]
     */
    removeEventListener(type, listener, options) {
      if (listener) super.removeEventListener(type, this.#listeners.get(listener) ?? listener, options);
    }

    /**
     * @param {Listener} listener
     * @returns {(event: Event) => void}
     */
    #guarded(listener) {
      return (event) => {
        /** @param {unknown} error */
        const failed = (error) => (event.type === "error" ? console.error(error) : this.#fail(error));
        if (event instanceof RoomErrorEvent) event.isHeard = true;
        try {
          /** @type {unknown} */
          const result = typeof listener === "function" ? listener.call(this, event) : listener.handleEvent(event);
          const promise = /** @type {PromiseLike<unknown> | null | undefined} */ (result);
          if (typeof promise?.then === "function") promise.then(undefined, failed);
        } catch (error) {
          failed(error);
        }
      };
    }

    /**
     * Reports an error: to the listeners of `error` or, if there are none, to the console.
     * @param {unknown} error
     */
    #fail(error) {
      const event = new RoomErrorEvent(error);
      this.dispatchEvent(event);
      if (!event.isHeard) console.error(error);
    }

    /** Begins a session, and another one when it ends. */
    #begin() {
      /** @type {Socket} */
      let socket;
      try {
        socket = socketTo(this.#address);
      } catch (thrown) {
        const error = /** @type {Error} */ (thrown);
        this.#end(new ConnectionFailed(`no connection to ${this.url}: ${error.message}`, { cause: error }));
        return;
      }
      this.#socket = socket;
      this.#silentTicks = 0;
      this.#texts = 0;
      this.#outbox = [];
      /** @type {Error | null} */
      let fault = null;
      const isOld = () => this.#socket !== socket;
      socket.onopen = () => isOld() || this.#send(this.#core.begin());
      socket.onmessage = ({ data }) => isOld() || this.#take(data);
      socket.onerror = (event) => {
        // The package ws reports what failed, and a browser does not.
        const { error, message } = /** @type {Partial<ErrorEvent>} */ (event);
        fault = error ?? new Error(message || "the connection failed");
      };
      socket.onclose = () => isOld() || this.#again(fault);
      const { heartbeat } = this.#options;
      this.#timers.watch = setInterval(() => this.#watch(), heartbeat / TICKS);
    }

    /**
     * Ends a session, and begins another one after a pause. The first one has to begin.
     * @param {Error | null} [fault]
     */
    #again(fault = null) {
      this.#leave();
      if (!this.#isThere) {
        const why = fault?.message ?? "it ended before the map was sent";
        this.#end(new ConnectionFailed(`no connection to ${this.url}: ${why}`, fault ? { cause: fault } : undefined));
        return;
      }
      this.#become("connecting");
      if (this.#state === "closed") return; // by a listener
      this.#pause = this.#texts > 2 ? SOON : this.#pause;
      this.#timers.again = setTimeout(() => this.#begin(), this.#pause);
      this.#pause = Math.min(2 * this.#pause, LATE);
    }

    /** Drops the connection. */
    #leave() {
      clearInterval(this.#timers.watch);
      clearTimeout(this.#timers.again);
      clearTimeout(this.#timers.flush);
      const socket = this.#socket;
      this.#socket = null;
      this.#core.end();
      if (!socket) return;
      socket.onopen = socket.onmessage = socket.onclose = null;
      socket.onerror = () => {};
      socket.close();
      // A package's socket would keep the program alive until a dead server answers the close.
      if (!socket.terminate) return;
      /** @type {{ unref?: () => void }} */
      const timer = /** @type {any} */ (setTimeout(() => socket.terminate?.(), 1000)); // a number in a browser
      timer.unref?.();
    }

    /**
     * Takes what the room sends.
     * @param {string} text
     * @returns {void}
     */
    #take(text) {
      this.#silentTicks = 0;
      this.#texts += 1;
      try {
        this.#send(this.#core.take(text));
      } catch (error) {
        if (error instanceof HelloRefused) {
          if (!this.#isThere || error.no.why !== "memory") {
            this.#end(errorOf(error.no));
            return;
          }
        } else if (!(error instanceof OutOfStep)) {
          throw error;
        }
        this.#again(error);
        return;
      }
      const events = this.#core.events.splice(0);
      if (this.#core.isHere() && this.#state !== "open") {
        this.#isThere = true;
        clearTimeout(this.#timers.open);
        this.#become("open");
        this.#opened?.done(this);
      }
      for (const event of events) {
        this.dispatchEvent("reset" in event ? new ResetEvent(event) : new ChangeEvent(event));
      }
    }

    /**
     * Sends some texts, as fast as the other side reads.
     * @param {string[]} texts
     */
    #send(texts) {
      this.#outbox.push(...texts);
      clearTimeout(this.#timers.flush);
      let sent = 0;
      const isReady = () => this.#socket?.readyState === 1 && this.#socket.bufferedAmount < MOST_BUFFERED;
      while (sent < this.#outbox.length && isReady()) this.#socket?.send(this.#outbox[sent++]);
      this.#outbox.splice(0, sent);
      if (this.#outbox.length > 0) this.#timers.flush = setTimeout(() => this.#send([]), 10);
    }

    /**
     * Asks something small when nothing came for a while, and begins anew when nothing comes for long. It counts its
     * calls and not the time, because a browser calls it less often in a page that is not seen.
     */
    #watch() {
      const bytes = this.#socket?._socket?.bytesRead; // of the package ws: a long text is no silence while it comes
      this.#silentTicks = bytes === this.#bytes ? this.#silentTicks + 1 : 0;
      this.#bytes = bytes;
      if (this.#silentTicks > TICKS && (this.#isThere || this.#socket?.readyState === 1)) {
        this.#again(new Error("the server is silent"));
      } else if (this.#silentTicks > TICKS / 3) {
        this.#send(this.#core.probe());
      }
    }

    /** @param {State} state */
    #become(state) {
      if (this.#state === state) return;
      this.#state = state;
      this.dispatchEvent(new StateEvent(state));
    }

    /**
     * Ends everything, perhaps for an error that ends the room for good.
     * @param {unknown} [error]
     */
    #end(error = null) {
      if (this.#state === "closed") return;
      this.#error = error;
      clearTimeout(this.#timers.open);
      this.#leave();
      this.#core.close({ why: "closed" });
      this.#become("closed");
      if (!this.#isThere) this.#opened?.fail(error ?? new Closed());
      else if (error) this.#fail(error);
    }

    /** Leaves the room. Each message that has no answer fails with Closed. */
    close() {
      this.#end();
    }

    /**
     * Sends a message without its id, and gives what the answer has under `ok`. When the answer to a change is given,
     * `elements` has the change. When it fails with Changed, `elements` has what the other author changed. If you abort
     * it, the message is not sent any more; if it was sent, it may be done.
     * @type {Api["ask"]}
     */
    ask(message, { signal = undefined, timeout = this.#options.timeout } = {}) {
      return new Promise((done, fail) => {
        signal?.throwIfAborted();
        if (this.#state === "closed") throw this.#error ?? new Closed();
        /** @type {ReturnType<typeof setTimeout> | undefined} */
        let timer;
        const stop = () => {
          clearTimeout(timer);
          signal?.removeEventListener("abort", abort);
        };
        const asked = this.#core.add(message, (answer) => {
          stop();
          if (answer.no) fail(this.#errorOf(answer.no));
          else done(answer.ok);
        });
        const giveUp = (/** @type {unknown} */ error) => {
          stop();
          this.#core.giveUp(asked);
          fail(error);
        };
        const abort = () => giveUp(signal?.reason);
        signal?.addEventListener("abort", abort);
        if (timeout !== null) timer = setTimeout(() => giveUp(new NoAnswer(timeout)), timeout);
        this.#send(this.#core.sendMore());
      });
    }

    /** @param {Refusal} no */
    #errorOf(no) {
      return no.why === "closed" && this.#error ? this.#error : errorOf(no, this.#core.authors.get(no.with));
    }

    /**
     * Asks for a change. `since` is the entry up to which its author had seen the room.
     * @param {Message} message
     * @param {ChangeOptions} [options]
     */
    #askFor(message, options = {}) {
      const { since, ...others } = options;
      return this.ask(since === undefined ? message : { ...message, since }, others);
    }

    /**
     * @param {Message} message
     * @param {ChangeOptions} [options]
     * @returns {Promise<number>}
     */
    async #change(message, options) {
      return /** @type {number} */ ((await this.#askFor(message, options)).seq);
    }

    /**
     * Asks for a change that makes an element, under a name that is free.
     * @param {Kind} kind
     * @param {string | undefined} el
     * @param {(name: string) => Message} make
     * @param {ChangeOptions} [options]
     */
    async #create(kind, el, make, options) {
      for (let tries = 0; tries < TRIES; tries += 1) {
        const name = el ?? this.#core.newName(kind);
        try {
          await this.#askFor(make(name), options);
          return name;
        } catch (error) {
          const isTaken = error instanceof Refused && error.why === "present" && error.element === name;
          if (el || !isTaken) throw error;
        }
      }
      throw new MaproomError("names", `the names of ${TRIES} new elements were taken`);
    }

    // Each action gives the number of its entry; those that make an element give its name, which is a new one unless
    // you give it. `options` has `signal`, `timeout` and `since`: the number `seq` of the map on which you decided. If
    // another author changed since then what the action would change, the room refuses it, and it fails with Changed. A
    // server before version 2.0.0 does not read `since`.

    /** @type {Api["createNode"]} */
    createNode(lat, lon, tags = {}, { el = undefined, ...options } = {}) {
      return this.#create("n", el, (name) => actions.createNode(name, lat, lon, tags), options);
    }

    /** @type {Api["createWay"]} */
    createWay(nodes, tags = {}, { el = undefined, ...options } = {}) {
      return this.#create("w", el, (name) => actions.createWay(name, nodes, tags), options);
    }

    /** @type {Api["createRelation"]} */
    createRelation(members, tags = {}, { el = undefined, ...options } = {}) {
      return this.#create("r", el, (name) => actions.createRelation(name, members, tags), options);
    }

    /** @type {Api["retag"]} */
    retag(el, tags, options) {
      return this.#change(actions.retag(el, tags), options);
    }

    /**
     * Moves nodes, and the nodes of ways, by `dlat` degrees to the north and `dlon` to the east.
     * @type {Api["move"]}
     */
    move(els, dlat, dlon, options) {
      return this.#change(actions.move(els, dlat, dlon), options);
    }

    /** @type {Api["reverse"]} */
    reverse(el, options) {
      return this.#change(actions.reverse(el), options);
    }

    /** @type {Api["setNodes"]} */
    setNodes(el, nodes, options) {
      return this.#change(actions.setNodes(el, nodes), options);
    }

    /** @type {Api["setMembers"]} */
    setMembers(el, members, options) {
      return this.#change(actions.setMembers(el, members), options);
    }

    /** @type {Api["delete"]} */
    delete(el, options) {
      return this.#change(actions.delete(el), options);
    }

    /** @type {Api["purge"]} */
    purge(el, options) {
      return this.#change(actions.purge(el), options);
    }

    /** @type {Api["split"]} */
    split(el, at, { into = undefined, ...options } = {}) {
      return this.#create("w", into, (name) => actions.split(el, at, name), options);
    }

    /** @type {Api["join"]} */
    join(el, other, options) {
      return this.#change(actions.join(el, other), options);
    }

    /** @type {Api["merge"]} */
    merge(el, other, options) {
      return this.#change(actions.merge(el, other), options);
    }

    /** @type {Api["unglue"]} */
    unglue(el, at, { into = undefined, ...options } = {}) {
      return this.#create("n", into, (name) => actions.unglue(el, at, name), options);
    }

    /**
     * Does several actions as one entry, or none of them, and gives the entry's number. `maproom.actions` has a
     * function for each action. If the room refuses an action, it fails with a Refused that has the position `action`,
     * and nothing was done. An undo takes all of them back. A server before version 1.1.0 refuses it as `unknown_do`.
     * @type {Api["group"]}
     */
    group(steps, options) {
      return this.#change(actions.group(steps), options);
    }

    /**
     * Gives a name for a new element of a kind, "n", "w" or "r". The room gives it out once, and `elements` does not
     * have it. If somebody else is quicker, the room refuses it as `present`.
     * @type {Api["newName"]}
     */
    newName(kind) {
      if (!["n", "w", "r"].includes(kind)) throw new RangeError(`${kind} is no kind of element`);
      return this.#core.newName(kind);
    }

    /**
     * Gives {seq, undid}; `undid` is missing if the answer was lost on its way.
     * @type {Api["undo"]}
     */
    undo(seq, options) {
      return /** @type {ReturnType<Api["undo"]>} */ (this.ask(actions.undo(seq), options));
    }

    /**
     * Undoes your last active entry whose undo the room accepts: it tries each from the last on. Gives {seq, undid}, or
     * null if none can be undone. If undo fails with `conflict`, this undoes what is left.
     * @type {Api["undoLastPossible"]}
     */
    async undoLastPossible(options) {
      const { undos } = await this.undos(options);
      for (const undid of undos.reverse()) {
        try {
          const { seq } = await this.undo(undid, options);
          return { seq, undid };
        } catch (error) {
          // Another client with your name can have undone it meanwhile.
          if (!(error instanceof Refused && ["conflict", "not_standing"].includes(error.why))) throw error;
        }
      }
      return null;
    }

    /**
     * Gives {seq, redid}; `redid` is missing if the answer was lost on its way.
     * @type {Api["redo"]}
     */
    redo(options) {
      return /** @type {ReturnType<Api["redo"]>} */ (this.ask(actions.redo(), options));
    }

    /** @type {Api["get"]} */
    async get(el, options) {
      return /** @type {Element} */ ((await this.ask(actions.get(el), options)).is);
    }

    /**
     * Gives {map, seq}.
     * @type {Api["map"]}
     */
    map(options) {
      return /** @type {ReturnType<Api["map"]>} */ (this.ask(actions.map(), options));
    }

    /**
     * Gives {undos, redo}.
     * @type {Api["undos"]}
     */
    undos(options) {
      return /** @type {ReturnType<Api["undos"]>} */ (this.ask(actions.undos(), options));
    }
  }

  const { connect } = Room;

  /** @type {Library} */
  const library = {
    connect, Room, Core, OutOfStep, HelloRefused, MaproomError, ConnectionFailed, Closed, Unknown, NotSent, NoAnswer,
    Refused, Changed, WrongName, NoName, actions, errorOf, shortWords,
  };

  if (typeof module === "object" && module.exports) {
    // Node finds the names for an import in this literal.
    module.exports = {
      connect, Room, Core, OutOfStep, HelloRefused, MaproomError, ConnectionFailed, Closed, Unknown, NotSent, NoAnswer,
      Refused, Changed, WrongName, NoName, actions, errorOf, shortWords,
    };
  } else {
    Object.assign(globalThis, { maproom: library });
  }
})();
