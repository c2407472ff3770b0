// Replicas of a map in Yjs, for bench/undos: replicas.js MAPPERS FORM. Each mapper has a replica and an undo manager.
//
// In the form `fields` an element is a map with its coordinates or list of nodes, and with a map of its tags, so that
// changes of two tags are merged. In the form `elements` it is one value, of which the last change counts.
//
// It reads lines such as ["view", 0], ["act", 0, STEPS], ["undo", 0], ["redo", 0] and ["sync"], and writes a line of
// JSON for each. An element is {"place": [..], "tags": {..}}; its place is its coordinates, or the names of its nodes.
"use strict";
const readline = require("node:readline");
const Y = require("yjs");

const [mappers, form] = process.argv.slice(2);
const isOfFields = form === "fields";

// Where changes come from: a mapper's own are undone by the mapper's undo manager.
const OWN = "own";
const OTHERS = "others";

/** How a step changes an element that is one value. */
const VALUE_STEPS = {
  create: (was, { place, tags }) => ({ place, tags }),
  tag: (was, { key, value }) => ({ ...was, tags: { ...was.tags, [key]: value } }),
  move: (was, { place }) => ({ ...was, place }),
  insert: (was, { at, node }) => ({ ...was, place: [...was.place.slice(0, at), node, ...was.place.slice(at)] }),
  remove: (was, { node }) => ({ ...was, place: was.place.filter((each) => each !== node) }),
};

/** How a step changes an element that is a map of its fields. */
const FIELD_STEPS = {
  tag: (element, { key, value }) => {
    if (!element.has("tags")) element.set("tags", new Y.Map()); // an undo may have left it without
    element.get("tags").set(key, value);
  },
  move: (element, { place }) => element.set("place", place),
  insert: (element, { at, node }) => element.get("place").insert(at, [node]),
  remove: (element, { node }) => {
    const nodes = element.get("place");
    for (let at = nodes.length - 1; at >= 0; at -= 1) if (nodes.get(at) === node) nodes.delete(at, 1);
  },
};

class Replica {
  /** @param {number} number */
  constructor(number) {
    this.doc = new Y.Doc();
    this.doc.clientID = number + 1;
    this.elements = this.doc.getMap("elements");
    this.updates = []; // its own, since the last synchronization
    this.doc.on("update", (update, origin) => origin === OTHERS || this.updates.push(update));
    this.manager = new Y.UndoManager(this.elements, { captureTimeout: 0, trackedOrigins: new Set([OWN]) });
  }

  view() {
    return this.elements.toJSON();
  }

  act(steps) {
    this.doc.transact(() => steps.forEach((step) => this.step(step)), OWN);
    return true;
  }

  step(step) {
    const { do: word, el } = step;
    if (word === "delete") this.elements.delete(el);
    else if (!isOfFields) this.elements.set(el, VALUE_STEPS[word](this.elements.get(el), step));
    else if (word === "create") this.create(step);
    else FIELD_STEPS[word](this.elements.get(el), step);
  }

  create({ el, place, tags }) {
    const element = new Y.Map();
    this.elements.set(el, element);
    element.set("place", el[0] === "w" ? Y.Array.from(place) : place);
    element.set("tags", new Y.Map(Object.entries(tags)));
  }

  /** Undoes or redoes. `taken` is how many items it took from its list, of which only the last had an effect. */
  turn(word) {
    const stack = () => this.manager[`${word}Stack`].length;
    const before = stack();
    if (before === 0) return null;
    const item = this.manager[word]();
    return { done: item !== null, taken: before - stack() };
  }

  undo() {
    return this.turn("undo");
  }

  redo() {
    return this.turn("redo");
  }
}

const replicas = Array.from({ length: Number(mappers) }, (_, number) => new Replica(number));

/** Gives each replica the changes of all others. */
function sync() {
  const sent = replicas.map((replica) => replica.updates.splice(0));
  for (const [to, replica] of replicas.entries()) {
    for (const [from, updates] of sent.entries()) {
      if (from !== to) for (const update of updates) Y.applyUpdate(replica.doc, update, OTHERS);
    }
  }
  return true;
}

readline.createInterface({ input: process.stdin }).on("line", (line) => {
  const [word, mapper, steps] = JSON.parse(line);
  console.log(JSON.stringify(word === "sync" ? sync() : replicas[mapper][word](steps)));
});
