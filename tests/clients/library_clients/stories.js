// Stories that a program tells with maproom.js: stories.js STORY URL. stories.py tells the same ones.
"use strict";
const maproom = require("../../../clients/js/maproom.js");
const { actions: make, errorOf, shortWords } = maproom;

const say = (...words) => console.log(...words);
const sleep = (milliseconds) => new Promise((done) => setTimeout(done, milliseconds));
const connect = (url, how = {}) => maproom.connect(url, { room: "paris", name: "anna", ...how });

function sayMap(room) {
  say(JSON.stringify([...room.elements.keys()].sort().map((name) => room.elements.get(name))));
}

async function sayOutcome(awaited) {
  try {
    say("done", JSON.stringify(await awaited));
  } catch (error) {
    say(error instanceof maproom.Refused ? error.why : error.name, error.message);
  }
}

const stories = {
  async lost(url) {
    const room = await connect(url);
    await sayOutcome(room.createNode(1, "2", {}, { el: "n-1" }));
    const moves = sayOutcome(room.move("n1", "0.000001", 0));
    while (room.state === "open") await sleep(1);
    await sayOutcome(room.move(["n1"], 0, 0.000001));
    await moves;
    await sayOutcome(room.retag("n1", { after: "it" }));
    sayMap(room);
    room.close();
  },

  async lost_first(url) {
    const room = await connect(url);
    await sayOutcome(room.move("n1", 0.000001, 0));
    await sayOutcome(room.retag("n1", { after: "it" }));
    sayMap(room);
    room.close();
  },

  async events(url) {
    const room = await connect(url);
    const heard = (line) => {
      say(JSON.stringify(line));
      if (!room.elements.has("n9") || room.state === "closed") return;
      sayMap(room);
      room.close();
    };
    room.addEventListener("change", ({ seq, by, rows }) => heard({ seq, by, rows }));
    room.addEventListener("reset", ({ seq, restarted, rows }) => heard({ seq, reset: true, restarted, rows }));
    say("open");
  },

  async listener(url) {
    const room = await connect(url);
    const fails = ({ seq }) => {
      throw new RangeError(`boom ${seq}`);
    };
    room.addEventListener("change", fails);
    room.addEventListener("change", ({ seq }) => say("change", seq));
    room.addEventListener("error", ({ error }) => say("error", error.message));
    await room.createNode(1, 2, {}, { el: "n-1" });
    room.removeEventListener("change", fails);
    room.addEventListener("change", async ({ seq }) => fails({ seq: `later ${seq}` }), { once: true });
    await room.createNode(1, 2, {}, { el: "n-2" });
    await sleep(10);
    room.close();
  },

  async leaving(url) {
    const room = await connect(url);
    room.addEventListener("state", ({ state }) => state === "connecting" && room.close());
    await sayOutcome(room.move("n1", 0.000001, 0));
    await sleep(500);
    say(room.state);
  },

  async opening(url) {
    const begun = Date.now();
    await connect(url, { openTimeout: 500 }).then(() => say("opened"), (error) => {
      say(error.name, error.message.replace(url, "URL"));
    });
    const controller = new AbortController();
    const attempt = connect(url, { openTimeout: null, signal: controller.signal });
    setTimeout(() => controller.abort(), 200);
    await attempt.catch((error) => say(error.name));
    say("soon", Date.now() - begun < 5000);
  },

  async names(url) {
    const room = await connect(url);
    const made = await Promise.all(Array.from({ length: 6 }, (_, number) => room.createNode(1, number)));
    say(new Set(made).size, made.every((name) => room.elements.has(name)));
    await sayOutcome(room.createNode(1, 2, {}, { el: made[0] }));
    room.close();
  },

  async many(url) {
    const room = await connect(url);
    await room.createNode(1, 2, {}, { el: "n-1" });
    const seqs = await Promise.all(Array.from({ length: 1000 }, () => room.move("n-1", "0.0000001", 0)));
    say(seqs.every((seq, at) => seq === at + 2), room.pending);
    sayMap(room);
    room.close();
  },

  async silent(url, heartbeat) {
    const room = await connect(url, heartbeat ? { heartbeat: heartbeat * 1000 } : {});
    await room.createNode(1, 2, {}, { el: "n-1" });
    const begun = Date.now();
    await sayOutcome(room.move("n-1", "0.0000001", 0));
    say(((Date.now() - begun) / 1000).toFixed(1));
    sayMap(room);
    room.close();
  },

  async limits(url) {
    const room = await connect(url, { timeout: 500 });
    const signal = AbortSignal.timeout(100);
    await room.createNode(1, 2, {}, { el: "n-1", signal }).catch(() => say("cancelled"));
    await sayOutcome(room.createNode(1, 2, {}, { el: "n-2" }));
    while (room.pending) await sleep(10);
    const waits = sayOutcome(room.createNode(1, 2, {}, { el: "n-3" }));
    await sleep(100);
    room.close();
    await waits;
    await sayOutcome(room.get("n1"));
  },

  async ends(url) {
    const room = await connect(url);
    const ended = new Promise((done) => room.addEventListener("error", ({ error }) => done(error)));
    room.addEventListener("state", ({ state }) => say(state));
    await room.createNode(1, 2, {}, { el: "n-1" });
    const error = await ended;
    say(error.why, error.message);
    await sayOutcome(room.get("n1"));
  },

  async built(url, first) {
    const room = await connect(url);
    if (first) await sayOutcome(room.retag("n1", { first: "yes" }));
    await sayOutcome(room.move("n1", "0.000001", 0));
    await sayOutcome(room.retag("n1", { after: "it" }));
    await sayOutcome(room.undo());
    sayMap(room);
    room.close();
  },

  async speed(url) {
    const room = await connect(url, { timeout: null });
    const begun = performance.now();
    await Promise.all(Array.from({ length: 10_000 }, (_, at) => room.createNode(1, 2, {}, { el: `n${at + 1}` })));
    say(room.elements.size, room.seq, ((performance.now() - begun) / 1000).toFixed(3));
    room.close();
  },

  async groups(url) {
    const room = await connect(url);
    const [first, second, way] = [..."nnw"].map((kind) => room.newName(kind));
    say(first, second, way);
    const steps = [make.createNode(first, 1, 2), make.createNode(second, 1, 3), make.createWay(way, [first, second])];
    await sayOutcome(room.group(steps.values()));
    sayMap(room);
    const more = [make.retag(first, { k: "v" }), make.delete(second)];
    await room.group(more).catch((error) => say(error.why, error.action, error.message));
    await sayOutcome(room.group([make.move(first, 1, 0)]));
    await sayOutcome(room.group(more.slice(0, 1)));
    sayMap(room);
    room.close();
  },

  async groups_built(url) {
    const room = await connect(url);
    const [first, second, way] = [..."nnw"].map((kind) => room.newName(kind));
    const steps = [make.createNode(first, 1, 2), make.createNode(second, 1, 3), make.createWay(way, [first, second])];
    const groups = [
      steps, [make.retag(first, { k: "v" }), make.delete(second)], [], [make.reverse(way), make.reverse(way)],
      [make.undo()], [make.createWay("w-9", [1, 0])],
    ];
    for (const group of groups) {
      await room.group(group).then(
        (seq) => say("done", seq),
        (error) => say(error.why, error.action ?? "None", error.message),
      );
    }
    await sayOutcome(room.undo());
    sayMap(room);
    room.close();
  },

  async possible(url) {
    const room = await connect(url);
    const bob = await connect(url, { name: "bob" });
    await room.createNode(1, 2, {}, { el: "n-1" });
    await room.createNode(1, 2, {}, { el: "n-2" });
    await room.move("n-1", 1, 0);
    await bob.move("n-1", 0, 1);
    await sayOutcome(room.undo());
    for (let tries = 0; tries < 2; tries += 1) await sayOutcome(room.undoLastPossible());
    await bob.undo();
    await sayOutcome(room.undoLastPossible());
    sayMap(room);
    bob.close();
    room.close();
  },

  async guards(url) {
    const room = await connect(url);
    const bob = await connect(url, { name: "bob" });
    await room.createNode(1, 2, {}, { el: "n-1" });
    const calls = [
      (how) => room.createNode(1, 2, {}, how), (how) => room.createWay(["n-1", "n-1"], {}, how),
      (how) => room.createRelation([], {}, how), (how) => room.retag("n-1", { a: "1" }, how),
      (how) => room.move("n-1", 1, 1, how), (how) => room.reverse("w-1", how), (how) => room.setNodes("w-1", [], how),
      (how) => room.setMembers("r-1", [], how), (how) => room.delete("n-1", how), (how) => room.purge("n-1", how),
      (how) => room.split("w-1", 1, how), (how) => room.join("w-1", "w-2", how),
      (how) => room.merge("n-1", "n-2", how), (how) => room.unglue("w-1", 1, how),
      (how) => room.group([make.delete("n-1")], how),
    ];
    for (const call of calls) await sayOutcome(call({ since: 99 }));
    await sayOutcome(room.retag("n-1", { a: "1" }, { since: room.seq }));
    for (const change of [
      (since) => bob.retag("n-1", { a: "2" }, { since }),
      (since) => bob.group([make.retag("n-1", { a: "3" })], { since }),
    ]) {
      await change(1).catch((error) => {
        if (!(error instanceof maproom.Changed)) throw error;
        say(error.element, error.entry, error.author, error.action ?? "None", error.message);
      });
      say(JSON.stringify(bob.elements.get("n-1").tags));
      await sayOutcome(change(bob.seq));
      await room.retag("n-1", { a: "1" });
    }
    bob.close();
    room.close();
  },

  async guards_lost(url) {
    const room = await connect(url);
    await sayOutcome(room.createNode(1, "2", {}, { el: "n-1" }));
    await sayOutcome(room.move("n1", "0.000001", 0, { since: room.seq }));
    room.close();
  },

  words() {
    for (const line of require("node:fs").readFileSync(0, "utf8").split("\n").slice(0, -1)) {
      const error = errorOf(JSON.parse(line), "bob");
      say([error.why, error.message, shortWords(error), error.element ?? "None", error.entry ?? "None"].join(" | "));
    }
  },

  messages() {
    const messages = [
      make.createNode("n-1", 51.5, "-0.1", { natural: "tree" }), make.createNode("n-1", -90, 1e-7),
      make.createWay("w-1", ["n-1", 2]), make.createRelation("r-1", [["n-1", "label"]]),
      make.retag("n-1", { ref: "7", note: null }), make.move("n-1", 1, "-0.0000001"),
      make.move(["n-1", "w-1"], 0.1, -180.5), make.reverse("w-1"), make.setNodes("w-1", [1, "n-2"]),
      make.setMembers("r-1", []), make.delete("n-1"), make.purge("n-1"), make.split("w-1", 1, "w-2"),
      make.join("w-1", "w-2"), make.merge("n-1", "n-2"), make.unglue("w-1", 0, "n-3"),
      make.group([make.delete("n-1"), make.reverse("w-1")]),
      make.undo(), make.undo(7), make.redo(), make.get("n-1"), make.map(), make.undos(),
    ];
    for (const message of messages) say(JSON.stringify(message));
    for (const wrong of [NaN, Infinity]) {
      try {
        make.createNode("n-1", wrong, 0);
      } catch (error) {
        if (error instanceof RangeError) say("no coordinate");
      }
    }
  },
};

stories[process.argv[2]](...process.argv.slice(3));
