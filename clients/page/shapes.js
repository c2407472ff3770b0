// The shapes of a map's elements on the plane of web maps (Mercator), on which the world is the square from 0 to 1. It
// knows no Leaflet and no page: it draws on the canvas that it is given, and finds what is near a position.
"use strict";

/**
 * Elements of a room's map, in which the name of a member comes with its role.
 * @typedef {maproom.Element} MapElement
 * @typedef {maproom.NodeElement} MapNode
 * @typedef {maproom.WayElement} MapWay
 * @typedef {maproom.RelationElement} MapRelation
 * @typedef {maproom.Tags} Tags
 * @typedef {[name: string, role: string]} Member
 * @typedef {ReadonlyMap<string, MapElement>} Elements
 *
 * An element before and after a change, null if it was or is not there.
 * @typedef {maproom.Row} ChangedRow
 *
 * A place on the plane of web maps, and a rectangle on it.
 * @typedef {{ x: number, y: number }} Position
 * @typedef {{ west: number, north: number, east: number, south: number }} Box
 *
 * Where the world lies on a canvas: the pixel of a position is its part of the world times `scale`, less `left` and
 * `top`.
 * @typedef {{ scale: number, left: number, top: number }} Frame
 *
 * A node near a position; and a segment near it: the way, the index of the segment's end in its list, and the nearest
 * position on the segment, which is the part `part` of it.
 * @typedef {{ el: string, x: number, y: number, distance: number }} NearNode
 * @typedef {{ el: string, index: number, part: number, x: number, y: number, distance: number }} NearSegment
 */

/** @param {number} id */
const nodeOf = (id) => `n${id}`;

const [ZERO, MINUS, POINT] = [48, 45, 46]; // codes of characters
const DECIMALS = 7;
const MOST_DIGITS = 15; // of which every number is exact

/**
 * The number that the digits of a text make from a place on, without the character at `point`. A map has hundreds of
 * thousands of such texts, and Number() takes longer.
 * @param {string} text
 * @param {number} from
 * @param {number} point
 */
function digitsOf(text, from, point) {
  let value = 0;
  for (let at = from; at < text.length; at++) if (at !== point) value = value * 10 + text.charCodeAt(at) - ZERO;
  return value;
}

/**
 * The id in the name of an element.
 * @param {string} el
 */
function idOf(el) {
  if (el.length > MOST_DIGITS) return Number(el.slice(1));
  return el.charCodeAt(1) === MINUS ? -digitsOf(el, 2, -1) : digitsOf(el, 1, -1);
}

/**
 * The number of a coordinate, which rows have as a text with seven decimals.
 * @param {string} text
 */
function numberOf(text) {
  const point = text.length - DECIMALS - 1;
  if (text.length > MOST_DIGITS || text.charCodeAt(point) !== POINT) return Number(text);
  return text.charCodeAt(0) === MINUS ? -digitsOf(text, 1, point) / 1e7 : digitsOf(text, 0, point) / 1e7;
}

const Mercator = {
  /** @param {string | number} lon */
  x: (lon) => Number(lon) / 360 + 0.5,
  /** @param {string | number} lat */
  y(lat) {
    const sine = Math.sin((Math.max(-85.0511, Math.min(85.0511, Number(lat))) * Math.PI) / 180);
    return 0.5 - Math.log((1 + sine) / (1 - sine)) / (4 * Math.PI);
  },
  /** @param {number} x */
  lon: (x) => (x - 0.5) * 360,
  /** @param {number} y */
  lat: (y) => (Math.atan(Math.exp((0.5 - y) * 2 * Math.PI)) * 2 - Math.PI / 2) * (180 / Math.PI),
};

/** @param {Tags} tags */
const hasTags = (tags) => {
  for (const key in tags) if (key !== "created_by" && key !== "source") return true;
  return false;
};

/** A box that has nothing in it yet. */
const emptyBox = () => ({ west: Infinity, north: Infinity, east: -Infinity, south: -Infinity });

/**
 * The box of a place.
 * @param {number} x
 * @param {number} y
 */
const pointBox = (x, y) => ({ west: x, north: y, east: x, south: y });

/**
 * @param {Box} box
 * @param {number} x
 * @param {number} y
 */
function stretch(box, x, y) {
  if (x < box.west) box.west = x;
  if (x > box.east) box.east = x;
  if (y < box.north) box.north = y;
  if (y > box.south) box.south = y;
}

/**
 * @param {Box} box
 * @param {Box} other
 */
function stretchBy(box, other) {
  if (other.west > other.east) return;
  stretch(box, other.west, other.north);
  stretch(box, other.east, other.south);
}

/** @param {Box} box */
const isEmptyBox = (box) => box.west > box.east;
/**
 * @param {Box} one
 * @param {Box} other
 */
const doMeet = (one, other) => one.west <= other.east && one.east >= other.west && one.north <= other.south
  && one.south >= other.north;

/**
 * The slots of nodes by their ids. A whole map comes in the order of its ids, so that a list of them can be searched,
 * where a Map would take longer to make. A Map has the nodes that come later.
 */
class SlotTable {
  /** @param {number} count */
  constructor(count) {
    this.ids = new Float64Array(count);
    this.known = 0;
    /** @type {Map<number, number>} */
    this.later = new Map();
  }

  /**
   * The slot of an id, or -1. A node that is gone may keep its slot.
   * @param {number} id
   */
  get(id) {
    const { ids, known } = this;
    let low = 0;
    let high = known;
    while (low < high) {
      const middle = (low + high) >> 1;
      if (ids[middle] < id) low = middle + 1;
      else high = middle;
    }
    return low < known && ids[low] === id ? low : this.later.get(id) ?? -1;
  }

  /**
   * Gives a slot to an id that has none.
   * @param {number} id
   * @param {number} slot
   */
  set(id, slot) {
    const { ids, known } = this;
    const isNext = slot === known && slot < ids.length && (slot === 0 || ids[slot - 1] < id);
    if (isNext) ids[this.known++] = id;
    else this.later.set(id, slot);
  }

  /**
   * Returns whether the slot is free for another id now.
   * @param {number} id
   */
  delete(id) {
    return this.later.delete(id);
  }
}

/** A way: its style, its box, and the slots of its nodes in the lists of a Shapes. */
class WayShape {
  /**
   * @param {string} el
   * @param {number[]} slots
   * @param {number} style
   * @param {boolean} isClosed
   */
  constructor(el, slots, style, isClosed) {
    this.el = el;
    this.slots = slots;
    this.style = style;
    this.isClosed = isClosed;
    this.flow = 0; // which way things go on it
    this.west = this.north = this.east = this.south = 0;
  }
}

/**
 * The area that a relation of type multipolygon makes of ways: their names with their roles, its style, its box, and
 * its rings, which are found when they are drawn. A ring in a ring is a hole (OpenStreetMap's wiki,
 * Relation:multipolygon).
 */
class AreaShape {
  /**
   * @param {string} el
   * @param {Map<string, string>} ways
   * @param {number} style
   */
  constructor(el, ways, style) {
    this.el = el;
    this.ways = ways;
    this.style = style;
    /** @type {WayShape[] | null} */
    this.rings = null;
    this.west = this.north = Infinity;
    this.east = this.south = -Infinity;
  }
}

/**
 * The closed lines that lines make, each a list of slots, joined at their ends. Lines that close none are left out.
 * @param {number[][]} lines
 * @returns {number[][]}
 */
function ringsOf(lines) {
  /** @type {Lists<number, number[]>} */
  const byEnd = new Lists();
  for (const line of lines) for (const end of new Set([line[0], lastOf(line)])) byEnd.add(end, line);
  /** @type {Set<number[]>} */
  const used = new Set();
  /** @type {number[][]} */
  const rings = [];
  /** @param {number} end */
  const nextAt = (end) => byEnd.get(end).find((line) => !used.has(line));
  for (const first of lines) {
    /** @type {number[]} */
    const ring = [];
    /** @type {number[] | undefined} */
    let next = used.has(first) ? undefined : first;
    while (next) {
      used.add(next);
      const isForward = ring.length === 0 || next[0] === lastOf(ring);
      const slots = isForward ? next : [...next].reverse();
      for (const slot of ring.length === 0 ? slots : slots.slice(1)) ring.push(slot);
      if (ring[0] === lastOf(ring)) break;
      next = nextAt(lastOf(ring));
    }
    if (ring.length > 3 && ring[0] === lastOf(ring)) rings.push(ring);
  }
  return rings;
}

// From which zoom on ways have arrows, and nodes signs.
const LEAST_ZOOM_OF_ARROWS = 16;
const LEAST_ZOOM_OF_SIGNS = 17;

// Up to how many nodes in a window all are drawn. Of more, only those with tags are drawn, or only places.
const MOST_NODES = 1500;

// How many metres a house has, and how many pixels the disc of a node has at least from its middle to its edge.
const HOUSE = 10;
const LEAST_RADIUS = 1.2;

/**
 * How many pixels a house takes on a canvas, in the middle of a box.
 * @param {Frame} frame
 * @param {Box} box
 */
const housePixels = ({ scale }, { north, south }) => (HOUSE * scale) / metresAt({ x: 0, y: (north + south) / 2 });

/** The shapes of all elements. Lists of numbers have the positions of nodes, by the slot of the node. */
class Shapes {
  slots = new SlotTable(0);

  /**
   * By slot, the name; null if the slot is free.
   * @type {(string | null)[]}
   */
  names = [];

  xs = new Float64Array(0);

  ys = new Float64Array(0);

  /** By slot, 1 if the node has tags, 2 if it is a place. */
  areTagged = new Uint8Array(0);

  /** By slot, the place of the node in SYMBOLS. */
  symbols = new Uint8Array(0);

  /** @type {number[]} */
  freeSlots = [];

  /**
   * By the id of a node, the name of its way, or a list of names; made when it is asked for.
   * @type {Map<number, string | string[]> | null}
   */
  users = null;

  /** How much of the colour of areas is drawn, from 0 to 1. */
  fillPart = 1;

  /**
   * By name, the relations that have it as a member.
   * @type {Map<string, Set<string>>}
   */
  parents = new Map();

  /** @type {Map<string, WayShape>} */
  ways = new Map();

  /**
   * By style.
   * @type {Set<WayShape>[]}
   */
  layers = STYLES.map(() => new Set());

  /** @type {Set<string>} */
  relations = new Set();

  /**
   * By the name of the relation.
   * @type {Map<string, AreaShape>}
   */
  areas = new Map();

  /**
   * Forgets all, and has room for nodes.
   * @param {number} count
   */
  clear(count) {
    const room = Math.max(64, Math.ceil(count * 1.1));
    this.slots = new SlotTable(count);
    this.names = [];
    this.xs = new Float64Array(room);
    this.ys = new Float64Array(room);
    this.areTagged = new Uint8Array(room);
    this.symbols = new Uint8Array(room);
    this.freeSlots = [];
    this.users = null;
    this.parents = new Map();
    this.ways = new Map();
    this.layers = STYLES.map(() => new Set());
    this.relations = new Set();
    this.areas = new Map();
  }

  /**
   * Takes a whole map.
   * @param {Elements} elements
   */
  reset(elements) {
    this.clear(elements.size);
    /** @type {(MapWay | MapRelation)[]} */
    const others = [];
    elements.forEach((row) => { // an iterator would make an object for each row
      if (row.lat === undefined) others.push(row);
      else this.addNode(row, idOf(row.el), this.names.length);
    });
    for (const row of others) {
      if (row.nodes) this.putWay(row);
      else this.putRelation(row);
    }
    for (const area of this.areas.values()) this.measureArea(area); // the map may have relations in front of their ways
  }

  /**
   * Takes changes. Returns the boxes of what changed, before and after.
   * @param {ChangedRow[]} rows
   * @returns {Box[]}
   */
  change(rows) {
    if (!this.users) this.indexUsers(); // in the middle, the list would have the nodes of the old ways for good
    const [old, now] = [emptyBox(), emptyBox()];
    const areas = this.areasOf(rows);
    for (const el of areas) this.stretchByArea(old, el);
    for (const { el, before, after } of rows) {
      stretchBy(old, this.boxOf(el));
      if (before?.nodes) this.removeUsers(before);
      if (before?.members) this.removeMembers(before);
      if (!after) this.remove(el);
    }
    /** @type {Lists<WayShape, number>} */
    const moved = new Lists();
    for (const { after } of rows) if (after?.lat !== undefined) this.moveNode(after, moved);
    for (const { after } of rows) {
      if (after?.nodes) this.putWay(after);
      else if (after?.members) this.putRelation(after);
    }
    for (const [way, slots] of moved) this.moveWay(way, new Set(slots), old, now);
    for (const { el } of rows) stretchBy(now, this.boxOf(el));
    for (const el of new Set([...areas, ...this.areasOf(rows)])) {
      const area = this.areas.get(el);
      if (area) this.measureArea(area);
      this.stretchByArea(now, el);
    }
    return [old, now];
  }

  /**
   * @param {Box} box
   * @param {string} el
   */
  stretchByArea(box, el) {
    const area = this.areas.get(el);
    if (area) stretchBy(box, area);
  }

  /**
   * The relations that make an area of these elements, or of ways that have them.
   * @param {{ el: string }[]} rows
   * @returns {Set<string>}
   */
  areasOf(rows) {
    /** @type {Set<string>} */
    const found = new Set();
    for (const { el } of this.areas.size > 0 ? rows : []) {
      for (const way of el[0] === "n" ? this.usersOf(el) : [el]) {
        for (const relation of [way, ...this.parentsOf(way)]) if (this.areas.has(relation)) found.add(relation);
      }
    }
    return found;
  }

  /**
   * Puts a node, and adds the ways that it moves, each with the slots of its nodes that moved.
   * @param {MapNode} row
   * @param {Lists<WayShape, number>} moved
   */
  moveNode(row, moved) {
    const was = this.positionOf(row.el);
    this.putNode(row);
    const now = this.positionOf(row.el);
    if (was && now && was.x === now.x && was.y === now.y) return;
    for (const el of this.usersOf(row.el)) {
      const way = this.ways.get(el);
      if (way) moved.add(way, this.slots.get(idOf(row.el)));
    }
  }

  /**
   * Measures a way some of whose nodes moved. What changed of a plain line are the segments at these nodes.
   * @param {WayShape} way
   * @param {Set<number>} moved
   * @param {Box} old
   * @param {Box} now
   * @returns {void}
   */
  moveWay(way, moved, old, now) {
    const isWhole = way.isClosed || way.flow !== 0 || Boolean(STYLES[way.style].dash);
    if (isWhole) stretchBy(old, way);
    this.measure(way);
    if (isWhole) {
      stretchBy(now, way);
      return;
    }
    for (let index = 0; index < way.slots.length; index++) {
      if (!moved.has(way.slots[index])) continue;
      for (const slot of [way.slots[index - 1], way.slots[index], way.slots[index + 1]]) {
        if (slot === undefined) continue;
        stretch(old, this.xs[slot], this.ys[slot]);
        stretch(now, this.xs[slot], this.ys[slot]);
      }
    }
  }

  /** @param {MapNode} row */
  putNode(row) {
    const id = idOf(row.el);
    const had = this.slots.get(id);
    const slot = had >= 0 ? had : this.freeSlots.pop() ?? this.names.length;
    if (slot >= this.xs.length) this.grow();
    if (had >= 0) this.fillSlot(row, slot);
    else this.addNode(row, id, slot);
  }

  /**
   * @param {MapNode} row
   * @param {number} id
   * @param {number} slot
   */
  addNode(row, id, slot) {
    this.slots.set(id, slot);
    this.fillSlot(row, slot);
  }

  /**
   * @param {MapNode} row
   * @param {number} slot
   */
  fillSlot(row, slot) {
    this.names[slot] = row.el;
    this.xs[slot] = Mercator.x(numberOf(row.lon));
    this.ys[slot] = Mercator.y(numberOf(row.lat));
    this.areTagged[slot] = hasTags(row.tags) ? (row.tags.place ? 2 : 1) : 0;
    this.symbols[slot] = this.areTagged[slot] ? symbolOf(row.tags) : 0;
  }

  grow() {
    const { xs, ys, areTagged, symbols } = this;
    this.xs = new Float64Array(2 * xs.length);
    this.ys = new Float64Array(2 * ys.length);
    this.areTagged = new Uint8Array(2 * areTagged.length);
    this.symbols = new Uint8Array(2 * symbols.length);
    this.xs.set(xs);
    this.ys.set(ys);
    this.areTagged.set(areTagged);
    this.symbols.set(symbols);
  }

  /** @param {MapWay} row */
  putWay(row) {
    const { nodes } = row;
    const slots = [];
    for (const id of nodes) {
      const slot = this.slots.get(id);
      if (slot < 0) continue;
      slots.push(slot);
      if (this.users) this.addUser(this.users, id, row.el);
    }
    const isClosed = nodes.length > 3 && nodes[0] === nodes[nodes.length - 1];
    const old = this.ways.get(row.el);
    if (old) this.layers[old.style].delete(old);
    const way = new WayShape(row.el, slots, styleOf(row.tags, isClosed), isClosed);
    way.flow = flowOf(row.tags);
    this.ways.set(row.el, way);
    this.layers[way.style].add(way);
    this.measure(way);
  }

  /** @param {WayShape} way */
  measure(way) {
    const { xs, ys } = this;
    let west = Infinity;
    let north = Infinity;
    let east = -Infinity;
    let south = -Infinity;
    const { slots } = way;
    for (let index = 0; index < slots.length; index++) {
      const x = xs[slots[index]];
      const y = ys[slots[index]];
      if (x < west) west = x;
      if (x > east) east = x;
      if (y < north) north = y;
      if (y > south) south = y;
    }
    way.west = west;
    way.north = north;
    way.east = east;
    way.south = south;
  }

  /** @param {MapRelation} row */
  putRelation(row) {
    this.relations.add(row.el);
    for (const [name] of row.members) {
      const parents = this.parents.get(name);
      if (parents) parents.add(row.el);
      else this.parents.set(name, new Set([row.el]));
    }
    this.putArea(row);
  }

  /** @param {MapRelation} row */
  putArea({ el, members, tags }) {
    const style = styleOf(tags, true);
    this.areas.delete(el);
    if (tags.type !== "multipolygon" || !STYLES[style].fill) return;
    const ways = new Map(members.filter(([name]) => name[0] === "w"));
    const area = new AreaShape(el, ways, style);
    this.areas.set(el, area);
    this.measureArea(area);
  }

  /**
   * Measures an area whose ways changed.
   * @param {AreaShape} area
   */
  measureArea(area) {
    Object.assign(area, emptyBox());
    area.rings = null;
    for (const name of area.ways.keys()) stretchBy(area, this.boxOf(name));
  }

  /**
   * Whether an area is drawn in the place of a way, because it has the same style. A way in a hole is drawn itself: in
   * a wood, this can be a meadow.
   * @param {WayShape} way
   */
  isOfArea(way) {
    if (this.areas.size === 0) return false;
    const areas = this.parentsOf(way.el).map((el) => this.areas.get(el));
    return areas.some((area) => area?.style === way.style && area.ways.get(way.el) !== "inner");
  }

  /** @param {string} el */
  remove(el) {
    const way = this.ways.get(el);
    if (way) this.layers[way.style].delete(way);
    this.ways.delete(el);
    this.relations.delete(el);
    this.areas.delete(el);
    if (el[0] !== "n") return;
    const id = idOf(el);
    const slot = this.slots.get(id);
    if (slot < 0) return;
    this.names[slot] = null;
    if (this.slots.delete(id)) this.freeSlots.push(slot);
  }

  /** Lists the ways of each node. */
  indexUsers() {
    /** @type {Map<number, string | string[]>} */
    const users = new Map();
    this.users = users;
    for (const { el, slots } of this.ways.values()) {
      for (const slot of slots) {
        const name = this.names[slot];
        if (name !== null) this.addUser(users, idOf(name), el);
      }
    }
    return users;
  }

  /**
   * @param {Map<number, string | string[]>} users
   * @param {number} id
   * @param {string} el
   */
  addUser(users, id, el) {
    const had = users.get(id);
    if (had === undefined) users.set(id, el);
    else if (typeof had === "string" && had !== el) users.set(id, [had, el]);
    else if (typeof had !== "string" && !had.includes(el)) had.push(el);
  }

  /** @param {MapWay} row */
  removeUsers({ el, nodes }) {
    if (!this.users) return;
    for (const id of nodes) {
      const had = this.users.get(id);
      if (had === el) this.users.delete(id);
      else if (Array.isArray(had)) this.users.set(id, had.filter((other) => other !== el));
    }
  }

  /** @param {MapRelation} row */
  removeMembers({ el, members }) {
    for (const [name] of members) {
      const parents = this.parents.get(name);
      parents?.delete(el);
      if (parents?.size === 0) this.parents.delete(name);
    }
  }

  /**
   * The ways that have a node, by its name or id.
   * @param {string | number} node
   * @returns {string[]}
   */
  usersOf(node) {
    const users = this.users ?? this.indexUsers();
    const had = users.get(typeof node === "number" ? node : idOf(node));
    return had === undefined ? [] : typeof had === "string" ? [had] : had;
  }

  /**
   * The relations that have an element as a member.
   * @param {string} el
   */
  parentsOf(el) {
    return [...(this.parents.get(el) ?? [])];
  }

  /**
   * The position of a node by its name or id, or null.
   * @param {string | number} node
   * @returns {Position | null}
   */
  positionOf(node) {
    const slot = this.slots.get(typeof node === "number" ? node : idOf(node));
    return slot < 0 || this.names[slot] === null ? null : { x: this.xs[slot], y: this.ys[slot] };
  }

  /**
   * The box of a node or a way; an empty one if it is not there.
   * @param {string} el
   * @returns {Box}
   */
  boxOf(el) {
    const way = this.ways.get(el);
    if (way) return this.boxOfWay(way);
    const box = emptyBox();
    const position = el[0] === "n" ? this.positionOf(el) : null;
    if (position) stretch(box, position.x, position.y);
    return box;
  }

  /**
   * @param {WayShape} way
   * @returns {Box}
   */
  boxOfWay(way) {
    return { west: way.west, north: way.north, east: way.east, south: way.south };
  }

  /** The box of all. */
  whole() {
    const { names, xs, ys } = this;
    let [west, north, east, south] = [Infinity, Infinity, -Infinity, -Infinity];
    for (let slot = 0; slot < names.length; slot++) {
      if (names[slot] === null) continue;
      if (xs[slot] < west) west = xs[slot];
      if (xs[slot] > east) east = xs[slot];
      if (ys[slot] < north) north = ys[slot];
      if (ys[slot] > south) south = ys[slot];
    }
    return { west, north, east, south };
  }

  // ---- Finding

  /**
   * The nodes within a distance, the nearest first; of several at one place the preferred come first.
   * @param {Position} position
   * @param {number} reach
   * @param {(el: string) => boolean} [isPreferred]
   */
  nodesAt({ x, y }, reach, isPreferred = () => false) {
    /** @type {NearNode[]} */
    const found = [];
    const { names, xs, ys } = this;
    for (let slot = 0; slot < names.length; slot++) {
      const [dx, dy] = [xs[slot] - x, ys[slot] - y];
      const el = names[slot];
      if (dx > reach || dx < -reach || dy > reach || dy < -reach || el === null) continue;
      const distance = Math.hypot(dx, dy);
      if (distance <= reach) found.push({ el, x: xs[slot], y: ys[slot], distance });
    }
    /** @param {{ el: string, distance: number }} node */
    const rank = ({ el, distance }) => distance - (isPreferred(el) ? reach : 0);
    return found.sort((one, other) => rank(one) - rank(other));
  }

  /**
   * The segments within a distance, the nearest first: the way, the place of the segment's end in its list, and the
   * nearest position on it, which is the part `part` of the segment.
   * @param {Position} at
   * @param {number} reach
   * @returns {NearSegment[]}
   */
  segmentsAt(at, reach) {
    /** @type {NearSegment[]} */
    const found = [];
    const window = { west: at.x - reach, east: at.x + reach, north: at.y - reach, south: at.y + reach };
    for (const way of this.ways.values()) if (doMeet(way, window)) this.segmentsOf(way, at, reach, found);
    return found.sort((one, other) => one.distance - other.distance);
  }

  /**
   * @param {WayShape} way
   * @param {Position} at
   * @param {number} reach
   * @param {NearSegment[]} found
   */
  segmentsOf(way, at, reach, found) {
    const { xs, ys } = this;
    for (let index = 1; index < way.slots.length; index++) {
      const [one, other] = [way.slots[index - 1], way.slots[index]];
      const [dx, dy] = [xs[other] - xs[one], ys[other] - ys[one]];
      const along = ((at.x - xs[one]) * dx + (at.y - ys[one]) * dy) / (dx * dx + dy * dy || 1);
      const part = Math.max(0, Math.min(1, along));
      const [x, y] = [xs[one] + part * dx, ys[one] + part * dy];
      const distance = Math.hypot(at.x - x, at.y - y);
      if (distance <= reach) found.push({ el: way.el, index, part, x, y, distance });
    }
  }

  /**
   * The smallest building that a position is in, or null.
   * @param {Position} position
   * @returns {string | null}
   */
  buildingAt({ x, y }) {
    /** @type {string | null} */
    let best = null;
    let least = Infinity;
    for (const way of this.layers[STYLE_AT.building]) {
      if (x < way.west || x > way.east || y < way.north || y > way.south || !this.isInside(way, x, y)) continue;
      const size = (way.east - way.west) * (way.south - way.north);
      if (size < least) {
        best = way.el;
        least = size;
      }
    }
    return best;
  }

  /**
   * The closed ways with a fill and the multipolygons that a position is in, the smallest first.
   * @param {Position} position
   */
  areasAt({ x, y }) {
    /** @param {Box} box */
    const isNear = (box) => x >= box.west && x <= box.east && y >= box.north && y <= box.south;
    /** @param {Box} box */
    const sizeOf = (box) => (box.east - box.west) * (box.south - box.north);
    const ways = [...this.ways.values()].filter((way) => (
      way.isClosed && STYLES[way.style].fill && isNear(way) && this.isInside(way, x, y)
    ));
    const areas = [...this.areas.values()].filter((area) => (
      isNear(area) && this.shapesIn(area).filter((ring) => this.isInside(ring, x, y)).length % 2 === 1
    ));
    return [...ways, ...areas].sort((one, other) => sizeOf(one) - sizeOf(other)).map(({ el }) => el);
  }

  /**
   * The multipolygon whose area a position is in, the smallest of several, or null.
   * @param {Position} position
   */
  multipolygonAt(position) {
    return this.areasAt(position).find((el) => el[0] === "r") ?? null;
  }

  /**
   * @param {WayShape} way
   * @param {number} x
   * @param {number} y
   */
  isInside(way, x, y) {
    const { xs, ys } = this;
    let isIn = false;
    for (let index = 1; index < way.slots.length; index++) {
      const [one, other] = [way.slots[index - 1], way.slots[index]];
      if (ys[one] > y === ys[other] > y) continue;
      if (x < xs[one] + ((xs[other] - xs[one]) * (y - ys[one])) / (ys[other] - ys[one])) isIn = !isIn;
    }
    return isIn;
  }

  /**
   * The nodes and ways that lie whole in a box: ways, and nodes that are no part of a way.
   * @param {Box} box
   */
  within(box) {
    /** @param {Box} shape */
    const isWithin = (shape) => shape.west >= box.west && shape.east <= box.east && shape.north >= box.north
      && shape.south <= box.south;
    const found = [];
    for (const way of this.ways.values()) if (isWithin(way)) found.push(way.el);
    for (const [slot, el] of this.names.entries()) {
      const [x, y] = [this.xs[slot], this.ys[slot]];
      if (el === null || !isWithin({ west: x, east: x, north: y, south: y })) continue;
      if (this.areTagged[slot] || this.usersOf(el).length === 0) found.push(el);
    }
    return found;
  }

  // ---- Drawing. `frame` says where the world lies on the canvas: the pixel of a position is its part of the world
  // times `scale`, less `left` and `top`.

  /**
   * Draws what meets a box. Returns how many ways and nodes were drawn.
   * @param {CanvasRenderingContext2D} context
   * @param {Frame} frame
   * @param {Box} box
   * @param {number} zoom
   */
  paint(context, frame, box, zoom) {
    let ways = 0;
    const isThin = zoom < 15; // nobody sees how thin lines end, and round ends take longer
    context.lineJoin = isThin ? "bevel" : "round";
    context.lineCap = isThin ? "butt" : "round";
    const areas = [...this.areas.values()].filter((area) => doMeet(area, box));
    let hasCasings = isThin;
    for (const [at, style] of STYLES.entries()) {
      // All edges come before the roads, so that they end at junctions.
      if (style.casing && !hasCasings) this.paintCasings(context, frame, box, zoom);
      hasCasings ||= Boolean(style.casing);
      for (const area of areas) if (area.style === at) this.paintArea(context, frame, area);
      if (this.layers[at].size > 0) ways += this.paintLayer(context, frame, box, style, this.layers[at], zoom);
    }
    context.setLineDash([]);
    if (zoom >= LEAST_ZOOM_OF_ARROWS) this.paintArrows(context, frame, box);
    return { ways, nodes: this.paintNodes(context, frame, box, zoom) };
  }

  /**
   * How wide a line is, in pixels.
   * @param {Style} style
   * @param {number} zoom
   */
  widthOf({ width }, zoom) {
    return width * (zoom < 13 ? 0.5 : zoom < 15 ? 0.7 : zoom > 17.5 ? 1.6 : 1);
  }

  /**
   * Draws the edges of roads, which the roads then cover in the middle.
   * @param {CanvasRenderingContext2D} context
   * @param {Frame} frame
   * @param {Box} box
   * @param {number} zoom
   */
  paintCasings(context, frame, box, zoom) {
    context.setLineDash([]);
    for (const [at, style] of STYLES.entries()) {
      if (!style.casing || this.layers[at].size === 0) continue;
      context.strokeStyle = style.casing;
      context.lineWidth = this.widthOf(style, zoom) + CASING;
      context.beginPath();
      for (const way of this.layers[at]) if (doMeet(way, box)) this.trace(context, frame, way);
      context.stroke();
    }
  }

  /**
   * Draws arrows on the ways on which things go one way.
   * @param {CanvasRenderingContext2D} context
   * @param {Frame} frame
   * @param {Box} box
   */
  paintArrows(context, frame, box) {
    context.fillStyle = "#3a2f26";
    context.beginPath();
    for (const way of this.ways.values()) {
      if (way.flow !== 0 && doMeet(way, box)) traceArrows(context, this.pointsOf(way, frame), way.flow);
    }
    context.fill();
  }

  /**
   * The points of a way on a canvas.
   * @param {WayShape} way
   * @param {Frame} frame
   * @returns {[x: number, y: number][]}
   */
  pointsOf({ slots }, { scale, left, top }) {
    return slots.map((slot) => [this.xs[slot] * scale - left, this.ys[slot] * scale - top]);
  }

  /**
   * @param {CanvasRenderingContext2D} context
   * @param {Frame} frame
   * @param {Box} box
   * @param {Style} style
   * @param {Set<WayShape>} layer
   * @param {number} zoom
   */
  paintLayer(context, frame, box, style, layer, zoom) {
    const isThin = zoom < 15;
    context.strokeStyle = isThin && style.casing ? style.casing : style.stroke; // without edges, white is not seen
    context.lineWidth = this.widthOf(style, zoom) * (isThin && style.casing ? 0.6 : 1);
    context.setLineDash(isThin || !style.dash ? [] : style.dash);
    context.fillStyle = style.fill ?? "transparent";
    const isEach = Boolean(style.fill) && !style.isApart;
    /** @type {WayShape[]} */
    const lines = []; // of areas
    let count = 0;
    context.beginPath();
    for (const way of layer) {
      if (!doMeet(way, box)) continue;
      count += 1;
      if (style.fill && this.isOfArea(way)) {
        lines.push(way);
        continue;
      }
      if (isEach) context.beginPath();
      this.trace(context, frame, way);
      if (isEach) {
        this.fill(context);
        context.stroke();
      }
    }
    if (!isEach) {
      if (style.fill) this.fill(context);
      context.stroke();
    }
    context.beginPath();
    for (const way of lines) this.trace(context, frame, way);
    context.stroke();
    return count;
  }

  /**
   * Fills the path of a canvas as far as areas are to be seen.
   * @param {CanvasRenderingContext2D} context
   * @param {CanvasFillRule} [rule]
   */
  fill(context, rule) {
    context.globalAlpha = this.fillPart;
    if (this.fillPart > 0) context.fill(rule);
    context.globalAlpha = 1;
  }

  /**
   * Fills an area without its holes. Its ways draw its lines.
   * @param {CanvasRenderingContext2D} context
   * @param {Frame} frame
   * @param {AreaShape} area
   */
  paintArea(context, frame, area) {
    context.fillStyle = STYLES[area.style].fill ?? "transparent";
    context.beginPath();
    for (const ring of this.shapesIn(area)) this.trace(context, frame, ring);
    this.fill(context, "evenodd");
  }

  /**
   * The rings of an area, which are found when they are asked for.
   * @param {AreaShape} area
   */
  shapesIn(area) {
    area.rings ??= ringsOf(this.linesOf(area)).map((slots) => this.ringShape(area, slots));
    return area.rings;
  }

  /** @param {AreaShape} area */
  linesOf(area) {
    return [...area.ways.keys()].map((name) => this.ways.get(name)?.slots ?? []).filter((slots) => slots.length > 1);
  }

  /**
   * @param {AreaShape} area
   * @param {number[]} slots
   */
  ringShape({ el, style }, slots) {
    const ring = new WayShape(el, slots, style, true);
    this.measure(ring);
    return ring;
  }

  /**
   * Adds a way to the path of a canvas, without the nodes that lie within a pixel of the last. A way that is smaller
   * than that becomes a dot.
   * @param {CanvasRenderingContext2D} context
   * @param {Frame} frame
   * @param {WayShape} way
   */
  trace(context, { scale, left, top }, way) {
    const { xs, ys } = this;
    const { slots } = way;
    const last = slots.length - 1;
    if (last < 0) return;
    let x = xs[slots[0]] * scale - left;
    let y = ys[slots[0]] * scale - top;
    context.moveTo(x, y);
    if ((way.east - way.west) * scale < 1.5 && (way.south - way.north) * scale < 1.5) {
      context.lineTo(x + 1.5, y);
      return;
    }
    for (let index = 1; index <= last; index++) {
      const nextX = xs[slots[index]] * scale - left;
      const nextY = ys[slots[index]] * scale - top;
      if (index < last && Math.abs(nextX - x) + Math.abs(nextY - y) < 1.5) continue;
      x = nextX;
      y = nextY;
      context.lineTo(x, y);
    }
  }

  /**
   * @param {CanvasRenderingContext2D} context
   * @param {Frame} frame
   * @param {Box} box
   * @param {number} zoom
   */
  paintNodes(context, frame, box, zoom) {
    const slots = this.slotsIn(box, zoom);
    const house = housePixels(frame, box);
    /** @param {number} slot */
    const pixelOf = (slot) => [this.xs[slot] * frame.scale - frame.left, this.ys[slot] * frame.scale - frame.top];
    const tagged = slots.filter((slot) => this.areTagged[slot]);
    context.fillStyle = "#5b6771";
    const side = Math.min(4, house / 4); // four corners leave a house to be seen
    for (const slot of slots) {
      const [x, y] = pixelOf(slot);
      if (!this.areTagged[slot]) context.fillRect(x - side / 2, y - side / 2, side, side);
    }
    /** @type {Lists<number, [x: number, y: number]>} */
    const bySymbol = new Lists();
    for (const slot of tagged) bySymbol.add(this.symbols[slot], /** @type {[number, number]} */(pixelOf(slot)));
    for (const [at, points] of bySymbol) this.paintSymbols(context, SYMBOLS[at], points, zoom, house);
    return slots.length;
  }

  /**
   * Draws the discs of nodes, with their sign where there is room for it. They are no larger than a house, except
   * where only places are drawn.
   * @param {CanvasRenderingContext2D} context
   * @param {NodeSymbol} symbol
   * @param {[x: number, y: number][]} points
   * @param {number} zoom
   * @param {number} house
   */
  paintSymbols(context, { colour, sign }, points, zoom, house) {
    const isSigned = Boolean(sign) && zoom >= LEAST_ZOOM_OF_SIGNS;
    const most = isSigned ? 7.5 : zoom < 16 ? 3 : 4;
    const radius = zoom < 12 ? most : Math.min(most, Math.max(LEAST_RADIUS, house / 2 - 1));
    context.fillStyle = colour;
    context.strokeStyle = "#fff";
    context.lineWidth = Math.min(1, radius / 3);
    context.beginPath();
    for (const [x, y] of points) {
      context.moveTo(x + radius, y);
      context.arc(x, y, radius, 0, 7);
    }
    context.fill();
    context.stroke();
    if (!sign || !isSigned) return;
    context.fillStyle = "#fff";
    context.font = "700 11px system-ui, 'DejaVu Sans', sans-serif";
    context.textAlign = "center";
    context.textBaseline = "middle";
    for (const [x, y] of points) context.fillText(sign, x, y + 0.5);
  }

  /**
   * The nodes that are drawn in a box: all if they are few, else those with tags, else places.
   * @param {Box} box
   * @param {number} zoom
   */
  slotsIn(box, zoom) {
    const { names, xs, ys, areTagged } = this;
    const least = zoom < 12 ? 2 : zoom < 16 ? 1 : 0;
    /** @type {[number[], number[], number[]]} */
    const found = [[], [], []];
    for (let slot = 0; slot < names.length; slot++) {
      const rank = areTagged[slot];
      if (rank < least || names[slot] === null) continue;
      const isIn = xs[slot] >= box.west && xs[slot] <= box.east && ys[slot] >= box.north && ys[slot] <= box.south;
      if (isIn) found[rank].push(slot);
    }
    const [plain, tagged, places] = found;
    if (tagged.length > MOST_NODES) return places;
    return plain.length > 2 * MOST_NODES ? [...tagged, ...places] : [...plain, ...tagged, ...places];
  }
}
