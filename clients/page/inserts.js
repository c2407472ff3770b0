// Nodes that are put into ways: where they belong in the ways as they are now, also if others changed these since the
// mapper clicked. It knows neither the page nor Leaflet.
"use strict";

/**
 * A segment of a way between two nodes, and which part of it lies before a place. `isRoad` says what the way was.
 * @typedef {{ el: string, one: number, other: number, part: number, isRoad?: boolean }} Segment
 *
 * A place of a drawing on the plane of shapes.js. It may be at a node, which had `ways`, or on segments. A place on
 * segments follows them if they were moved, unless it `isFree`: then the ways get a corner there.
 * @typedef {{ x: number, y: number, el?: string, ways?: string[], segments?: Segment[], isFree?: boolean }} Place
 *
 * A joint that was lost: the node that is there in its place, the ways that it was to join, and the node that is gone.
 * @typedef {{ el: string, ways: string[], node: string | null }} LostJoint
 *
 * Where a node goes into a way: between two nodes that are next to each other, and which part lies before it.
 * @typedef {{ el: string, one: number, other: number, ends: Ends }} Spot
 */

// A node may lie so far from a segment of which it becomes a part, on the plane: two metres at the equator.
const MOST_APART = 5e-8;

// Joints that are nearer to each other are one: ten centimetres at the equator.
const MOST_SAME = 2.5e-9;

/** Nodes that are inserted into segments of ways. */
class Inserts {
  /**
   * @param {Elements} elements
   * @param {Shapes} shapes
   */
  constructor(elements, shapes) {
    this.elements = elements;
    this.shapes = shapes;
    /** @type {Lists<string, { id: number, one: number, other: number, part: number }>} */
    this.byWay = new Lists();
    /** @type {LostJoint[]} */
    this.lost = [];
  }

  /**
   * Puts a node at a place into the ways there. Returns where the node has to be.
   * @param {number} id
   * @param {Place} place
   * @returns {Position}
   */
  add(id, place) {
    /** @type {Map<string, Spot>} */
    const spots = new Map();
    /** @type {string[]} */
    const lost = [];
    for (const [el, found] of this.spotsOf(place)) {
      if (found.length === 0) lost.push(el);
      for (const spot of found) if (!this.nodesIn(spot.el).includes(id)) spots.set(spot.el, spot);
    }
    if (lost.length) this.lost.push({ el: nodeOf(id), ways: lost, node: place.segments ? null : place.el ?? null });
    /** @param {Spot} spot */
    const isOff = ({ ends }) => distanceTo(place, ends) > MOST_APART;
    const moved = place.isFree ? null : [...spots.values()].find(isOff);
    const at = moved ? nearestOn(place, moved.ends) : { x: place.x, y: place.y };
    for (const { el, one, other, ends } of spots.values()) {
      this.byWay.add(el, { id, one, other, part: partOf(at, ends) });
    }
    return at;
  }

  /**
   * Notes ways that do not go through a node any more to which a place was joined. In place of a way that was split or
   * joined, another way goes through it.
   * @param {Place} place
   */
  lookAt({ el = "", ways = [] }) {
    const users = this.shapes.usersOf(el);
    const missing = ways.filter((way) => !users.includes(way));
    const isReplaced = users.some((way) => !ways.includes(way));
    const lost = users.length ? missing.filter((way) => this.elements.has(way)) : missing;
    if (!isReplaced && lost.length) this.lost.push({ el, ways: lost, node: null });
  }

  /**
   * The joint that somebody else made at a place on segments, or null.
   * @param {Place} place
   */
  jointAt(place) {
    const ways = (place.segments ?? []).flatMap(({ el, one, other }) => this.candidates(el, one, other));
    const ids = place.isFree ? [] : ways.flatMap((el) => this.nodesIn(el));
    return ids.find((id) => {
      const at = this.shapes.positionOf(id);
      return at !== null && distanceBetween(at, place) < MOST_SAME;
    }) ?? null;
  }

  /**
   * Where a place is in each way that it was to join.
   * @param {Place} place
   * @returns {[el: string, spots: Spot[]][]}
   */
  spotsOf(place) {
    const { segments, ways = [] } = place;
    if (segments) return segments.map((segment) => [segment.el, this.spotsNow(segment, place)]);
    return ways.map((el) => [el, this.nearest(this.allSpots(el), place, MOST_APART)]);
  }

  /**
   * Where a segment is now: in its way, in others if the way was split or joined, between its ends if others put nodes
   * there, or near the place.
   * @param {Segment} segment
   * @param {Place} place
   * @returns {Spot[]}
   */
  spotsNow({ el, one, other, isRoad }, place) {
    /** @param {string} way */
    const isMeant = (way) => way === el || isRoad === undefined || this.isRoad(way) === isRoad;
    const ways = this.candidates(el, one, other).filter(isMeant);
    const same = ways.flatMap((way) => this.spotBetween(way, one, other) ?? []);
    const own = same.filter((spot) => spot.el === el);
    if (same.length) return own.length ? own : same;
    const between = this.nearest(this.spotsBetween(el, one, other), place, Infinity);
    return between.length ? between : this.nearest(ways.flatMap((way) => this.allSpots(way)), place, MOST_APART);
  }

  /** @param {string} el */
  isRoad(el) {
    return Boolean(this.elements.get(el)?.tags.highway);
  }

  /** @param {string} el */
  nodesIn(el) {
    return this.elements.get(el)?.nodes ?? [];
  }

  /**
   * The ways in which a segment of a way may be now.
   * @param {string} el
   * @param {number} one
   * @param {number} other
   */
  candidates(el, one, other) {
    const names = [el, ...this.shapes.usersOf(one), ...this.shapes.usersOf(other)];
    return [...new Set(names)].filter((way) => this.nodesIn(way).length > 0);
  }

  /**
   * The segments of a way, from one place of its list to another.
   * @param {string} el
   * @param {number} [from]
   * @param {number} [to]
   * @returns {Spot[]}
   */
  allSpots(el, from = 0, to = Infinity) {
    const nodes = this.nodesIn(el).slice(from, to + 1);
    return nodes.slice(1).flatMap((other, at) => {
      const [start, end] = [this.shapes.positionOf(nodes[at]), this.shapes.positionOf(other)];
      return start && end ? [{ el, one: nodes[at], other, ends: /** @type {const} */([start, end]) }] : [];
    });
  }

  /**
   * @param {string} el
   * @param {number} one
   * @param {number} other
   */
  spotBetween(el, one, other) {
    return this.allSpots(el).find((spot) => (
      (spot.one === one && spot.other === other) || (spot.one === other && spot.other === one)
    ));
  }

  /**
   * The segments between two nodes of a way that others parted.
   * @param {string} el
   * @param {number} one
   * @param {number} other
   */
  spotsBetween(el, one, other) {
    const nodes = this.nodesIn(el);
    const [from, to] = [nodes.indexOf(one), nodes.indexOf(other)];
    return from < 0 || to < 0 ? [] : this.allSpots(el, Math.min(from, to), Math.max(from, to));
  }

  /**
   * The spot that is nearest to a place, if it is within a distance.
   * @param {Spot[]} spots
   * @param {Position} place
   * @param {number} most
   */
  nearest(spots, place, most) {
    /** @type {Spot[]} */
    let best = [];
    let least = most;
    for (const spot of spots) {
      const distance = distanceTo(place, spot.ends);
      if (distance < least) [best, least] = [[spot], distance];
    }
    return best;
  }

  /**
   * The list of a way with the nodes in it.
   * @param {string} el
   */
  nodesOf(el) {
    const { nodes } = wayOf(el, this.elements);
    const waiting = new Set(this.byWay.get(el));
    const list = [nodes[0]];
    for (let index = 1; index < nodes.length; index++) {
      const [before, after] = [nodes[index - 1], nodes[index]];
      const here = [...waiting].flatMap((insert) => {
        if (insert.one === before && insert.other === after) return [{ ...insert, insert }];
        if (insert.one === after && insert.other === before) return [{ ...insert, part: 1 - insert.part, insert }];
        return [];
      });
      for (const { id, insert } of here.sort((one, other) => one.part - other.part)) {
        if (lastOf(list) !== id) list.push(id);
        waiting.delete(insert);
      }
      list.push(after);
    }
    return list;
  }

  /** @returns {maproom.Message[]} */
  actions() {
    const lists = [...this.byWay.keys()].map((el) => ({ do: "nodes", el, nodes: this.nodesOf(el) }));
    return lists.filter(({ el, nodes }) => nodes.length > wayOf(el, this.elements).nodes.length);
  }
}
