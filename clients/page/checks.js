// Faults of the map that the page can find: lines that cross without a node, areas that cross themselves or are open,
// ways without tags, ends a few metres from a way, and multipolygons without roles. Each has a place and, if it is
// clear, a repair. They know no page.
"use strict";

/**
 * A fault: its kind, its elements, where it is, what it is in words, and perhaps its repair. Two faults with the same
 * `key` are the same.
 * @typedef {{ key: string, kind: FaultKind, els: string[], at: Position, text: string, repair?: Repair }} Fault
 * @typedef {"crossing" | "twisted" | "open" | "untagged" | "near" | "roles"} FaultKind
 *
 * A repair: the text of its button, what it does, and its actions.
 * @typedef {{ label: string, text: string, build: Build }} Repair
 *
 * What a line is to others that it crosses: its kind, and on which level it lies.
 * @typedef {{ kind: string, level: string }} LineKind
 */

const NEAR = 5; // metres from an end to a way that it may be meant to meet
const NO_ROADS = /^(proposed|construction|razed|abandoned|services|rest_area|platform|corridor|elevator|bus_stop)$/;
const RAILS = /^(rail|light_rail|narrow_gauge)$/;

// Tags of a node at which a line may end.
const IS_END = /^(turning_circle|turning_loop|bus_stop|elevator)$/;

/**
 * What a way is to the lines that it crosses, or null if it may cross all.
 * @param {Tags} tags
 * @returns {LineKind | null}
 */
function lineKindOf(tags) {
  const { highway, railway, waterway, bridge, tunnel, layer } = tags;
  if (tags.area === "yes" || tags.indoor) return null;
  const isHigh = bridge && bridge !== "no";
  const isLow = (tunnel && tunnel !== "no") || tags.covered === "yes";
  const level = layer ?? (isHigh ? "1" : isLow ? "-1" : "0");
  if (highway) return NO_ROADS.test(highway) ? null : { kind: "highway", level };
  if (railway && RAILS.test(railway)) return { kind: "railway", level };
  return waterway && FLOWS.test(waterway) ? { kind: "waterway", level } : null;
}

/**
 * The cells of a grid on the plane in which ways lie, so that what is near a way is found without a look at all.
 */
class WayGrid {
  static SIZE = 4e-6; // about 100 metres

  /** @param {Shapes} shapes */
  constructor(shapes) {
    this.shapes = shapes;
    /** @type {Lists<number, WayShape>} */
    this.cells = new Lists();
  }

  /** @param {WayShape} way */
  put(way) {
    for (const cell of this.cellsOf(way)) this.cells.add(cell, way);
  }

  /**
   * The cells that a box meets.
   * @param {Box} box
   */
  cellsIn({ west, north, east, south }) {
    /** @param {number} at */
    const cell = (at) => Math.floor(at / WayGrid.SIZE);
    const cells = [];
    for (let x = cell(west); x <= cell(east); x++) {
      for (let y = cell(north); y <= cell(south); y++) cells.push(x * 1e6 + y);
    }
    return cells;
  }

  /** @param {WayShape} way */
  cellsOf({ slots }) {
    const { xs, ys } = this.shapes;
    /** @type {Set<number>} */
    const cells = new Set();
    for (let index = 1; index < slots.length; index++) {
      for (const cell of this.cellsIn(segmentBox(xs, ys, slots, index))) cells.add(cell);
    }
    return cells;
  }

  /**
   * The ways in the cells of a way.
   * @param {WayShape} way
   */
  waysNear(way) {
    return new Set([...this.cellsOf(way)].flatMap((cell) => this.cells.get(cell)));
  }

  /**
   * The ways in the cells of a box.
   * @param {Box} box
   */
  waysIn(box) {
    return new Set(this.cellsIn(box).flatMap((cell) => this.cells.get(cell)));
  }
}

/**
 * The box of a segment of a way, by its end in the list.
 * @param {Float64Array} xs
 * @param {Float64Array} ys
 * @param {number[]} slots
 * @param {number} index
 * @returns {Box}
 */
function segmentBox(xs, ys, slots, index) {
  const [one, other] = [slots[index - 1], slots[index]];
  return {
    west: Math.min(xs[one], xs[other]), east: Math.max(xs[one], xs[other]),
    north: Math.min(ys[one], ys[other]), south: Math.max(ys[one], ys[other]),
  };
}

/** The faults of elements, on a map as it is. */
class Checks {
  /**
   * @param {Elements} elements
   * @param {Shapes} shapes
   * @param {WayGrid | null} [grid] for many elements
   */
  constructor(elements, shapes, grid = null) {
    this.elements = elements;
    this.shapes = shapes;
    this.grid = grid;
  }

  /**
   * The faults of an element.
   * @param {string} el
   * @returns {Fault[]}
   */
  of(el) {
    const row = this.elements.get(el);
    if (row?.members) return this.ofRelation(row);
    const shape = this.shapes.ways.get(el);
    if (!row?.nodes || !shape || !areSafe(row.nodes) || shape.slots.length !== row.nodes.length) return [];
    return [
      ...this.untagged(row), ...this.open(row), ...this.twisted(row, shape),
      ...(lineKindOf(row.tags) ? [...this.crossings(row, shape), ...this.nearEnds(row)] : []),
    ];
  }

  /** @param {number} id */
  at(id) {
    return this.shapes.positionOf(id) ?? { x: 0, y: 0 };
  }

  /**
   * A fault with its key, by the place if it has one of its own.
   * @param {FaultKind} kind
   * @param {string[]} els
   * @param {Position} at
   * @param {string} text
   * @param {Repair} [repair]
   * @returns {Fault}
   */
  fault(kind, els, at, text, repair) {
    const hasPlace = kind === "crossing" || kind === "near" || kind === "twisted";
    const place = hasPlace ? ` ${Math.round(at.x * 1e8)},${Math.round(at.y * 1e8)}` : "";
    return { key: `${kind} ${els.join(" ")}${place}`, kind, els, at, text, ...(repair && { repair }) };
  }

  // ---- Ways

  /**
   * @param {MapWay} row
   * @returns {Fault[]}
   */
  untagged(row) {
    const { el, tags, nodes } = row;
    if (hasTags(tags) || this.shapes.parentsOf(el).length > 0) return [];
    return [this.fault("untagged", [el], this.at(nodes[0]), `${titleOf(row)} has no tags.`)];
  }

  /**
   * The tag of an area on a line that is not closed.
   * @param {MapWay} row
   * @returns {Fault[]}
   */
  open(row) {
    const { el, nodes, tags } = row;
    const tag = areaTag(tags);
    const isOfArea = this.shapes.parentsOf(el).some((name) => this.shapes.areas.has(name));
    if (!tag || nodes[0] === lastOf(nodes) || tags.highway || tags.barrier || isOfArea) return [];
    const build = () => {
      const list = wayOf(el, this.elements).nodes;
      return [{ do: "nodes", el, nodes: [...list, list[0]] }];
    };
    const repair = { label: "Close it", text: `closed ${titleOf(row)}`, build };
    const text = `${titleOf(row)} is ${tagText(...tag)}, but not closed.`;
    return [this.fault("open", [el], this.at(nodes[0]), text, nodes.length > 2 ? repair : undefined)];
  }

  /**
   * Where a way crosses itself without a node.
   * @param {MapWay} row
   * @param {WayShape} shape
   * @returns {Fault[]}
   */
  twisted(row, shape) {
    const { el, tags } = row;
    const kind = lineKindOf(tags);
    if (!kind && !shape.isClosed) return [];
    const found = this.ownCrossing(shape);
    if (!found) return [];
    const text = `${titleOf(row)} crosses itself.`;
    const repair = shape.isClosed && !kind ? this.untwist(row) : undefined;
    return [this.fault("twisted", [el], found.at, text, repair)];
  }

  /**
   * The first crossing of two segments of a way: their ends in its list, and the place.
   * @param {WayShape} shape
   */
  ownCrossing(shape) {
    const { slots } = shape;
    for (let index = 1; index < slots.length; index++) {
      for (let other = index + 2; other < slots.length; other++) {
        const at = this.crossingOf(slots, index, slots, other);
        if (at) return { index, other, at };
      }
    }
    return null;
  }

  /**
   * Turns what lies between the two segments that cross, which takes their crossing away.
   * @param {MapWay} row
   * @returns {Repair}
   */
  untwist(row) {
    const { el } = row;
    const build = () => {
      const shape = this.shapes.ways.get(el);
      const found = shape && this.ownCrossing(shape);
      const { nodes } = wayOf(el, this.elements);
      if (!found) throw new NotDone("gone");
      const { index, other } = found;
      const turned = nodes.slice(index, other).reverse();
      return [{ do: "nodes", el, nodes: [...nodes.slice(0, index), ...turned, ...nodes.slice(other)] }];
    };
    return { label: "Untwist", text: `untwisted ${titleOf(row)}`, build };
  }

  /**
   * Where two segments cross, each by its end in a list of slots, or null.
   * @param {number[]} slots
   * @param {number} index
   * @param {number[]} others
   * @param {number} other
   */
  crossingOf(slots, index, others, other) {
    const { xs, ys } = this.shapes;
    const [a, b, c, d] = [slots[index - 1], slots[index], others[other - 1], others[other]];
    if (a === c || a === d || b === c || b === d) return null;
    const isApart = Math.max(xs[a], xs[b]) < Math.min(xs[c], xs[d]) || Math.max(xs[c], xs[d]) < Math.min(xs[a], xs[b])
      || Math.max(ys[a], ys[b]) < Math.min(ys[c], ys[d]) || Math.max(ys[c], ys[d]) < Math.min(ys[a], ys[b]);
    if (isApart) return null;
    /** @param {number} slot */
    const at = (slot) => ({ x: xs[slot], y: ys[slot] });
    return intersectionOf([at(a), at(b)], [at(c), at(d)]);
  }

  /**
   * The ways that may cross a way.
   * @param {WayShape} shape
   * @returns {Iterable<WayShape>}
   */
  waysNear(shape) {
    if (this.grid) return this.grid.waysNear(shape);
    return [...this.shapes.ways.values()].filter((other) => doMeet(other, shape));
  }

  /**
   * Where a line crosses others on its level without a node.
   * @param {MapWay} row
   * @param {WayShape} shape
   * @returns {Fault[]}
   */
  crossings(row, shape) {
    /** @type {Fault[]} */
    const found = [];
    for (const other of this.waysNear(shape)) {
      const its = this.elements.get(other.el);
      // Somebody may have changed it since the grid was made.
      const isThere = other !== shape && this.shapes.ways.get(other.el) === other;
      if (!isThere || !its?.nodes || !doMeet(other, shape) || !doCross(row.tags, its.tags)) continue;
      // From both ways the crossing has the same place.
      const [first, second] = row.el < other.el ? [shape, other] : [other, shape];
      for (const at of this.crossingsOf(first, second)) found.push(this.crossing(first.el, second.el, at));
    }
    return found;
  }

  /**
   * @param {WayShape} one
   * @param {WayShape} other
   */
  crossingsOf(one, other) {
    const { xs, ys } = this.shapes;
    const found = [];
    for (let index = 1; index < one.slots.length; index++) {
      if (!doMeet(segmentBox(xs, ys, one.slots, index), other)) continue;
      for (let its = 1; its < other.slots.length; its++) {
        const at = this.crossingOf(one.slots, index, other.slots, its);
        if (at) found.push(at);
      }
    }
    return found;
  }

  /**
   * @param {string} one
   * @param {string} other
   * @param {Position} at
   * @returns {Fault}
   */
  crossing(one, other, at) {
    const rows = [wayOf(one, this.elements), wayOf(other, this.elements)];
    const [text, what] = rows.map(titleOf);
    const areRoads = rows.every(({ tags }) => tags.highway);
    const build = this.joinAt(one, other, at);
    const repair = { label: "Join them there", text: `joined ${one} and ${other} where they cross`, build };
    const said = `${text} crosses ${what} without a node.`;
    return this.fault("crossing", [one, other], at, said, areRoads ? repair : undefined);
  }

  /**
   * Makes a node where two ways cross, near a place.
   * @param {string} one
   * @param {string} other
   * @param {Position} at
   * @returns {Build}
   */
  joinAt(one, other, at) {
    return (newName) => {
      const { ways } = this.shapes;
      const [first, second] = [ways.get(one), ways.get(other)];
      const places = first && second ? this.crossingsOf(first, second) : [];
      const [place] = places.sort((a, b) => distanceBetween(a, at) - distanceBetween(b, at));
      if (!place) throw new NotDone("gone");
      const segments = [one, other].flatMap((el) => this.segmentAt(el, place) ?? []);
      return Edits.point({ ...place, segments }, {}, this.elements, this.shapes, newName);
    };
  }

  /**
   * The segment of a way that is nearest to a place.
   * @param {string} el
   * @param {Position} place
   * @returns {(Segment & { distance: number, on: Position }) | null}
   */
  segmentAt(el, place) {
    const { nodes } = wayOf(el, this.elements);
    let best = null;
    for (let index = 1; index < nodes.length; index++) {
      const [one, other] = [nodes[index - 1], nodes[index]];
      /** @type {Ends} */
      const ends = [this.at(one), this.at(other)];
      const on = nearestOn(place, ends);
      const distance = distanceBetween(place, on);
      if (!best || distance < best.distance) best = { el, one, other, part: partOf(place, ends), distance, on };
    }
    return best;
  }

  /**
   * The ends of a road a few metres from another one.
   * @param {MapWay} row
   * @returns {Fault[]}
   */
  nearEnds(row) {
    const { tags, nodes } = row;
    if (!tags.highway || nodes[0] === lastOf(nodes)) return [];
    return [nodes[0], lastOf(nodes)].flatMap((id) => this.nearEnd(row, id) ?? []);
  }

  /**
   * @param {MapWay} row
   * @param {number} id
   * @returns {Fault | null}
   */
  nearEnd(row, id) {
    const node = this.elements.get(nodeOf(id));
    const isMeant = node && (node.tags.noexit || node.tags.entrance || IS_END.test(node.tags.highway ?? ""));
    if (isMeant || this.shapes.usersOf(id).length > 1) return null;
    const at = this.at(id);
    const reach = NEAR / metresAt(at);
    const box = { west: at.x - reach, east: at.x + reach, north: at.y - reach, south: at.y + reach };
    const near = this.roadsIn(row, box).map(({ el }) => this.segmentAt(el, at)).filter((each) => each !== null);
    const [best] = near.sort((one, other) => (one?.distance ?? 0) - (other?.distance ?? 0));
    if (!best || best.distance > reach) return null;
    const to = wayOf(best.el, this.elements);
    const metres = (best.distance * metresAt(at)).toFixed(1);
    const build = this.joinEnd(id, to.el);
    const repair = { label: "Join it", text: `joined ${nodeOf(id)} to ${titleOf(to)}`, build };
    const text = `${titleOf(row)} ends ${metres} m from ${titleOf(to)}.`;
    return this.fault("near", [row.el, to.el, nodeOf(id)], at, text, repair);
  }

  /**
   * The other roads in a box, on the level of a road.
   * @param {MapWay} row
   * @param {Box} box
   */
  roadsIn(row, box) {
    const ways = this.grid ? this.grid.waysIn(box) : this.shapes.ways.values();
    return [...ways].filter((way) => {
      const tags = way.el !== row.el && doMeet(way, box) ? this.elements.get(way.el)?.tags : null;
      return tags?.highway && doCross(row.tags, tags);
    });
  }

  /**
   * Moves the end of a road onto another one.
   * @param {number} id
   * @param {string} to
   * @returns {Build}
   */
  joinEnd(id, to) {
    return () => {
      const segment = this.segmentAt(to, this.at(id));
      if (!segment || this.shapes.usersOf(id).includes(to)) throw new NotDone("gone");
      return Edits.moveOnto(nodeOf(id), { ...segment.on, segments: [segment] }, this.elements, this.shapes);
    };
  }

  // ---- Relations

  /**
   * A multipolygon without an outer way, or with ways without roles.
   * @param {MapRelation} row
   * @returns {Fault[]}
   */
  ofRelation(row) {
    const { el, tags, members } = row;
    if (tags.type !== "multipolygon" && tags.type !== "boundary") return [];
    const ways = members.filter(([name]) => name[0] === "w");
    const bare = ways.filter(([, role]) => role === "").length;
    const hasOuter = ways.some(([, role]) => role === "outer");
    if (hasOuter && bare === 0) return [];
    const text = bare ? `${titleOf(row)}: ${counted(bare, "member")} without a role.`
      : `${titleOf(row)} has no outer member.`;
    const [name] = ways.map(([way]) => way).filter((way) => this.shapes.ways.has(way));
    const box = this.shapes.boxOf(name ?? el);
    const at = isEmptyBox(box) ? { x: 0.5, y: 0.5 } : { x: box.west, y: box.north };
    const repair = { label: "Set roles", text: `set the roles in ${titleOf(row)}`, build: this.setRoles(el) };
    return [this.fault("roles", [el], at, text, this.rolesOf(members) ? repair : undefined)];
  }

  /** @param {Member[]} members */
  rolesOf(members) {
    const names = new Set(members.map(([name]) => name));
    const ways = [...names].flatMap((name) => {
      const row = this.elements.get(name);
      return row?.nodes ? [row] : [];
    });
    return rolesInRings(ways, this.shapes);
  }

  /**
   * @param {string} el
   * @returns {Build}
   */
  setRoles(el) {
    return () => {
      const { members } = relationOf(el, this.elements);
      const roles = this.rolesOf(members);
      if (!roles) throw new NotDone("gone");
      const changed = members.map(([name, role]) => [name, roles.get(name) ?? role]);
      return [{ do: "members", el, members: changed }];
    };
  }
}

/**
 * Whether two lines should meet where they cross. Of two that are no roads, none has to.
 * @param {Tags} one
 * @param {Tags} other
 */
function doCross(one, other) {
  const [first, second] = [lineKindOf(one), lineKindOf(other)];
  const isOfRoad = first?.kind === "highway" || second?.kind === "highway";
  return first !== null && second !== null && isOfRoad && first.level === second.level;
}
