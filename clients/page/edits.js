// What gestures ask of a room: each function makes the actions of one gesture from the map as it is. They know neither
// the page nor Leaflet.
"use strict";

/**
 * Gives a free name for a new element.
 * @typedef {(kind: Kind) => string} NameGiver
 * @typedef {"n" | "w" | "r"} Kind
 *
 * Makes the actions of a gesture from the map as it is.
 * @typedef {(newName: NameGiver) => maproom.Message[]} Build
 */

/**
 * The text of a latitude and a longitude.
 * @param {Position} position
 * @returns {{ lat: string, lon: string }}
 */
const coordinatesOf = ({ x, y }) => ({ lat: Mercator.lat(y).toFixed(7), lon: Mercator.lon(x).toFixed(7) });

/**
 * JavaScript reads numbers beyond 2^53 rounded, so they must not be written back.
 * @param {number[]} nodes
 */
const areSafe = (nodes) => nodes.every(Number.isSafeInteger);

/**
 * A change that the page does not do, and `why`: for example, what it is about is gone.
 */
class NotDone extends Error {
  /**
   * @param {string} why
   * @param {{ el?: string, by?: string, at?: string, key?: string, restarted?: boolean }} about
   */
  constructor(why, { el, by, at, key, restarted } = {}) {
    super(why);
    this.why = why;
    this.el = el;
    this.by = by;
    this.at = at;
    this.key = key;
    this.restarted = restarted;
  }
}

/**
 * The way of a name. Throws if it is gone.
 * @param {string} el
 * @param {Elements} elements
 */
function wayOf(el, elements) {
  const row = elements.get(el);
  if (!row?.nodes) throw new NotDone("gone");
  return row;
}

/**
 * The relation of a name. Throws if it is gone.
 * @param {string} el
 * @param {Elements} elements
 */
function relationOf(el, elements) {
  const row = elements.get(el);
  if (!row?.members) throw new NotDone("gone");
  return row;
}

/**
 * Where something is in a list: at its old place, or else at its only one. Throws if it has several or none.
 * @template T
 * @param {T[]} list
 * @param {T} what
 * @param {number} at
 */
function placeIn(list, what, at) {
  if (list[at] === what) return at;
  const place = list.indexOf(what);
  if (place < 0 || place !== list.lastIndexOf(what)) throw new NotDone("gone");
  return place;
}

const Edits = {
  /**
   * Makes a node, also as a part of the ways on whose segments it lies. `lost` gets the joints that were lost.
   * @param {Place} place
   * @param {Tags} tags
   * @param {Elements} elements
   * @param {Shapes} shapes
   * @param {NameGiver} newName
   * @param {LostJoint[]} [lost]
   * @returns {maproom.Message[]}
   */
  point(place, tags, elements, shapes, newName, lost = []) {
    const el = newName("n");
    const inserts = new Inserts(elements, shapes);
    const at = inserts.add(idOf(el), place);
    lost.push(...inserts.lost);
    return [{ do: "create", el, ...coordinatesOf(at), tags }, ...inserts.actions()];
  },

  /**
   * Moves a node to a place on segments, and makes it a part of their ways. `lost` gets the joints that were lost.
   * @param {string} el
   * @param {Place} place
   * @param {Elements} elements
   * @param {Shapes} shapes
   * @param {LostJoint[]} [lost]
   * @returns {maproom.Message[]}
   */
  moveOnto(el, place, elements, shapes, lost = []) {
    if (!elements.has(el)) throw new NotDone("gone");
    const inserts = new Inserts(elements, shapes);
    const at = inserts.add(idOf(el), place);
    lost.push(...inserts.lost);
    return [...moveNode(idOf(el), at, elements), ...inserts.actions()];
  },

  /**
   * Moves nodes by a distance in steps of 1e-7 degrees from where they were, wherever others moved them since.
   * @param {MapNode[]} seen
   * @param {number} dlat
   * @param {number} dlon
   * @param {Elements} elements
   * @returns {maproom.Message[]}
   */
  moveFrom(seen, dlat, dlon, elements) {
    /**
     * @param {string} there
     * @param {string} here
     */
    const steps = (there, here) => Math.round((Number(there) - Number(here)) * 1e7);
    return seen.flatMap(({ el, lat, lon }) => {
      const row = elements.get(el);
      if (row?.lat === undefined) return [];
      const [north, east] = [steps(lat, row.lat) + dlat, steps(lon, row.lon) + dlon];
      return north || east ? [{ do: "move", els: [el], dlat: north, dlon: east }] : [];
    });
  },

  /**
   * Makes a way through places, or makes the way `extend` longer at the end where the first of them is. `lost` gets the
   * joints that were lost since the mapper clicked.
   * @param {Place[]} places
   * @param {{ isClosed?: boolean, tags?: Tags, extend?: string | null, lost?: LostJoint[] }} how
   * @param {Elements} elements
   * @param {Shapes} shapes
   * @param {NameGiver} newName
   * @returns {maproom.Message[]}
   */
  way(places, { isClosed = false, tags = {}, extend = null, lost = [] }, elements, shapes, newName) {
    const inserts = new Inserts(elements, shapes);
    /** @type {maproom.Message[]} */
    const made = [];
    const ids = places.map((place) => {
      if (place.el && elements.has(place.el)) {
        inserts.lookAt(place);
        return idOf(place.el);
      }
      const joint = inserts.jointAt(place);
      if (joint !== null) {
        inserts.add(joint, place);
        return joint;
      }
      const el = newName("n");
      made.push({ do: "create", el, ...coordinatesOf(inserts.add(idOf(el), place)), tags: {} });
      return idOf(el);
    });
    lost.push(...inserts.lost);
    if (isClosed) ids.push(ids[0]);
    const nodes = ids.filter((id, at) => at === 0 || id !== ids[at - 1]);
    const last = extend ? Edits.longer(extend, nodes, inserts) : { do: "create", el: newName("w"), nodes, tags };
    return [...made, ...inserts.actions(), last];
  },

  /**
   * Whether an open way begins or ends at a node.
   * @param {string} el
   * @param {number} id
   * @param {Elements} elements
   */
  endsAt(el, id, elements) {
    const nodes = elements.get(el)?.nodes ?? [];
    const [start, end] = [nodes[0], nodes.at(-1)];
    return areSafe(nodes) && start !== end && (start === id || end === id);
  },

  /**
   * Puts nodes at the end of a way that is the first of them. Others may have turned or split the way meanwhile.
   * @param {string} el
   * @param {number[]} ids
   * @param {Inserts} inserts
   * @returns {maproom.Message}
   */
  longer(el, [end, ...nodes], inserts) {
    if (!Edits.endsAt(el, end, inserts.elements)) throw new NotDone("not_its_end", { el });
    const had = inserts.nodesOf(el);
    return { do: "nodes", el, nodes: had[0] === end ? [...nodes.reverse(), ...had] : [...had, ...nodes] };
  },

  /**
   * Takes elements away, with the nodes of ways that nothing else needs and that have no tags. `isEverywhere` takes
   * them out of relations too.
   * @param {string[]} names
   * @param {Elements} elements
   * @param {Shapes} shapes
   * @returns {maproom.Message[]}
   */
  delete(names, elements, shapes, isEverywhere = false) {
    const relations = names.filter((el) => el[0] === "r");
    const ways = new Set(names.filter((el) => el[0] === "w"));
    /** @type {Map<string, number[]>} */
    const lists = new Map();
    const nodes = names.filter((el) => el[0] === "n");
    for (const el of nodes) Edits.takeOut(el, ways, lists, elements, shapes);
    /** @param {string} el */
    const goes = (el) => ({ do: isEverywhere && shapes.parentsOf(el).length > 0 ? "purge" : "delete", el });
    const leftover = Edits.leftover(ways, new Set(nodes), elements, shapes);
    const changed = [...lists].filter(([el]) => !ways.has(el)).map(([el, list]) => ({ do: "nodes", el, nodes: list }));
    return [...relations.map(goes), ...[...ways].map(goes), ...changed, ...[...nodes, ...leftover].map(goes)];
  },

  /**
   * Takes a node out of the lists of its ways. A way that would have fewer than two nodes goes.
   * @param {string} el
   * @param {Set<string>} ways
   * @param {Map<string, number[]>} lists
   * @param {Elements} elements
   * @param {Shapes} shapes
   */
  takeOut(el, ways, lists, elements, shapes) {
    const id = idOf(el);
    for (const way of shapes.usersOf(el)) {
      const had = lists.get(way) ?? wayOf(way, elements).nodes;
      if (!areSafe(had)) {
        lists.set(way, had); // the session refuses a list with a rounded id
        continue;
      }
      const isClosed = had.length > 3 && had[0] === lastOf(had);
      const rest = had.filter((other) => other !== id);
      if (isClosed && rest[0] !== lastOf(rest)) rest.push(rest[0]);
      const list = rest.filter((other, at) => at === 0 || other !== rest[at - 1]);
      if (list.length < 2 || (isClosed && list.length < 4)) ways.add(way);
      else lists.set(way, list);
    }
  },

  /**
   * The nodes of some ways that are left without a use.
   * @param {Set<string>} ways
   * @param {Set<string>} others
   * @param {Elements} elements
   * @param {Shapes} shapes
   */
  leftover(ways, others, elements, shapes) {
    /** @type {Set<string>} */
    const found = new Set();
    for (const el of ways) {
      for (const id of wayOf(el, elements).nodes.filter(Number.isSafeInteger)) {
        const node = nodeOf(id);
        const row = elements.get(node);
        const isFree = row && !hasTags(row.tags) && !others.has(node)
          && shapes.parentsOf(node).length === 0 && shapes.usersOf(id).every((user) => ways.has(user));
        if (isFree) found.add(node);
      }
    }
    return [...found];
  },
};
