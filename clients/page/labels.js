// The names on the map: which elements have one, where it may be written, and what names should not hide.
"use strict";

/**
 * Where a label may be: at a position, pixels away from it, turned by an angle. A label that `isOver` may hide its
 * building, and one that `isOnLine` may hide the end of another line.
 * @typedef {{ x: number, y: number, dx?: number, dy?: number, angle?: number, isOver?: boolean, isOnLine?: boolean }
 * } LabelPlace
 *
 * A name, with the places where it may be, the best first.
 * @typedef {{ text: string, places: LabelPlace[] }} Label
 *
 * What a label should not hide.
 * @typedef {{ box: Box, margin: number, kind: number }} Obstacle
 *
 * A label at one of its places, with the boxes that it takes.
 * @typedef {{ text: string, at: Point, angle: number, parts: Box[] }} PlacedLabel
 */

/**
 * The name of an element on the map: a number of a house only where there is room for it.
 * @param {MapElement} row
 * @param {number} zoom
 * @returns {string | null}
 */
const labelOf = (row, zoom) => row.tags.name ?? row.tags.ref ?? (zoom >= 17.75 ? row.tags["addr:housenumber"] : null);

/**
 * Where the label of a node may be, in pixels from it: above, below, right, left.
 * @param {Position} position
 * @param {number} half
 * @returns {LabelPlace[]}
 */
const placesAround = ({ x, y }, half) => [[0, -14], [0, 14], [half + 9, 0], [-half - 9, 0]]
  .map(([dx, dy]) => ({ x, y, dx, dy }));

/**
 * What names should not hide in a box: nodes with tags, buildings, and the ends of lines.
 * @param {Shapes} shapes
 * @param {Box} box
 * @param {number} zoom
 * @returns {Generator<Obstacle>}
 */
function* obstaclesIn(shapes, box, zoom) {
  if (zoom < 16) return;
  /** @param {number} slot */
  const boxAt = (slot) => pointBox(shapes.xs[slot], shapes.ys[slot]);
  for (const slot of shapes.slotsIn(box, 15)) yield { box: boxAt(slot), margin: 5, kind: TAKEN };
  for (const way of shapes.ways.values()) {
    if (!doMeet(way, box) || way.slots.length === 0) continue;
    if (way.style === STYLE_AT.building) yield { box: shapes.boxOfWay(way), margin: 1, kind: BUILDING };
    else if (!way.isClosed) {
      for (const slot of [way.slots[0], lastOf(way.slots)]) yield { box: boxAt(slot), margin: 3, kind: END };
    }
  }
}

/**
 * The names in a box, the most important first, each with the places where it may be. `widthOf` measures a text.
 * @param {Page} page
 * @param {Box} box
 * @param {number} zoom
 * @param {(text: string) => number} widthOf
 * @returns {Generator<Label>}
 */
function* labelsIn(page, box, zoom, widthOf = (text) => text.length * 7) {
  const { shapes, elements } = page;
  let count = 0;
  /**
   * @param {number} x
   * @param {number} y
   */
  const inWindow = (x, y) => x > box.west && x < box.east && y > box.north && y < box.south;
  for (const slot of shapes.slotsIn(box, Math.min(zoom, 15))) {
    const row = elements.get(shapes.names[slot] ?? "");
    const name = row && labelOf(row, zoom);
    if (!name || (zoom < 16 && !row.tags.place)) continue;
    yield { text: name, places: placesAround({ x: shapes.xs[slot], y: shapes.ys[slot] }, widthOf(name) / 2) };
    if ((count += 1) > 150) return;
  }
  if (zoom < 15.5) return;
  for (const area of shapes.areas.values()) {
    const name = doMeet(area, box) && elements.get(area.el)?.tags.name;
    /** @param {string} el */
    const isOfWay = (el) => elements.get(el)?.tags.name === name;
    if (!name || [...area.ways.keys()].some(isOfWay)) continue;
    const half = widthOf(name) / 2 / page.view.scaleAt(zoom);
    const places = placesOfArea(area, half).filter(({ x, y }) => inWindow(x, y));
    if (places.length > 0) yield { text: name, places };
  }
  for (const way of shapes.ways.values()) {
    if (!doMeet(way, box) || way.slots.length === 0) continue;
    const row = elements.get(way.el);
    const name = row && labelOf(row, zoom);
    if (!name) continue;
    const half = widthOf(name) / 2 / page.view.scaleAt(zoom);
    const isNumber = name === row.tags["addr:housenumber"];
    const all = way.isClosed ? placesOfArea(way, isNumber ? 0 : half) : placesOfLine(shapes, way, half);
    const places = all.filter(({ x, y }) => inWindow(x, y));
    if (places.length === 0) continue;
    yield { text: name, places };
    if ((count += 1) > 400) return;
  }
}

/**
 * Where the name of an area may be: in its middle if it is not longer than the area, or else below or above it.
 * @param {Box} box
 * @param {number} half
 * @returns {LabelPlace[]}
 */
function placesOfArea({ west, east, north, south }, half) {
  const x = (west + east) / 2;
  const middle = { x, y: (north + south) / 2, isOver: true };
  return 2 * half <= east - west ? [middle] : [{ x, y: south, dy: 11 }, { x, y: north, dy: -11 }];
}

/**
 * Where the name of a line may be: on it, near its middle, and away from its ends.
 * @param {Shapes} shapes
 * @param {WayShape} way
 * @param {number} half
 * @returns {LabelPlace[]}
 */
function placesOfLine(shapes, { slots }, half) {
  const path = new Path(slots.map((slot) => ({ x: shapes.xs[slot], y: shapes.ys[slot] })));
  /** @param {number} part */
  const from = (part) => part * path.length;
  /** @param {number} at */
  const isInside = (at) => at - half * 1.15 >= 0 && at + half * 1.15 <= path.length;
  return [0.5, 0.38, 0.62, 0.26, 0.74, 0.14, 0.86].map(from).filter(isInside).map((at) => {
    const [one, other] = [path.at(at - half), path.at(at + half)];
    const angle = Math.atan2(other.y - one.y, other.x - one.x);
    return { ...path.at(at), angle: Math.abs(angle) > Math.PI / 2 ? angle + Math.PI : angle, isOnLine: true };
  });
}

/** A line through places, and how far along it each of them is. */
class Path {
  /** @param {Position[]} places */
  constructor(places) {
    this.places = places;
    this.ends = [0];
    this.length = 0;
    for (let index = 1; index < places.length; index++) {
      const [one, other] = [places[index - 1], places[index]];
      this.length += Math.hypot(other.x - one.x, other.y - one.y);
      this.ends.push(this.length);
    }
  }

  /**
   * The place at a distance from the start.
   * @param {number} distance
   * @returns {Position}
   */
  at(distance) {
    const { places, ends } = this;
    const index = Math.max(1, ends.findIndex((end) => end >= distance));
    const [one, other] = [places[index - 1], places[index] ?? places[index - 1]];
    const part = (distance - ends[index - 1]) / (ends[index] - ends[index - 1] || 1);
    return { x: one.x + part * (other.x - one.x), y: one.y + part * (other.y - one.y) };
  }
}

// ---- Where there is space for a label

// What is in a square of a Space.
const TAKEN = 1;
const BUILDING = 2;
const END = 4; // of a line
const SQUARE = 2; // pixels

/** What lies where on a canvas, in squares. */
class Space {
  /**
   * @param {number} width
   * @param {number} height
   */
  constructor(width, height) {
    this.columns = Math.ceil(width / SQUARE) + 1;
    this.rows = Math.ceil(height / SQUARE) + 1;
    this.squares = new Uint8Array(this.columns * this.rows);
  }

  /**
   * The first and the last column, and the first and the last row of a box.
   * @param {Box} box
   */
  rangeOf({ west, east, north, south }) {
    /**
     * @param {number} pixels
     * @param {number} most
     */
    const within = (pixels, most) => Math.max(0, Math.min(most - 1, Math.floor(pixels / SQUARE)));
    const { columns, rows } = this;
    return [within(west, columns), within(east, columns), within(north, rows), within(south, rows)];
  }

  /**
   * @param {Box} box
   * @param {number} kinds
   */
  isFree(box, kinds) {
    const [west, east, north, south] = this.rangeOf(box);
    for (let row = north; row <= south; row++) {
      for (let at = row * this.columns + west; at <= row * this.columns + east; at++) {
        if (this.squares[at] & kinds) return false;
      }
    }
    return true;
  }

  /**
   * @param {Box} box
   * @param {number} kind
   */
  take(box, kind) {
    const [west, east, north, south] = this.rangeOf(box);
    for (let row = north; row <= south; row++) {
      for (let at = row * this.columns + west; at <= row * this.columns + east; at++) this.squares[at] |= kind;
    }
  }
}

/**
 * A box of the plane in pixels, larger by a margin.
 * @param {Box} box
 * @param {Frame} frame
 * @param {number} margin
 * @returns {Box}
 */
const pixelsOf = ({ west, east, north, south }, { scale, left, top }, margin) => ({
  west: west * scale - left - margin, east: east * scale - left + margin,
  north: north * scale - top - margin, south: south * scale - top + margin,
});

/**
 * The boxes that a text takes: small ones along it if it is turned.
 * @param {Point} point
 * @param {number} half
 * @param {number} angle
 * @returns {Box[]}
 */
function partsOfText({ x, y }, half, angle) {
  /**
   * @param {Point} at
   * @param {number} across
   * @returns {Box}
   */
  const around = (at, across) => ({ west: at.x - across, east: at.x + across, north: at.y - 7, south: at.y + 7 });
  if (!angle) return [around({ x, y }, half)];
  const steps = Math.ceil(half / 7);
  const [across, down] = [(Math.cos(angle) * half) / steps, (Math.sin(angle) * half) / steps];
  /** @param {number} step */
  const along = (step) => ({ x: x + across * step, y: y + down * step });
  return Array.from({ length: 2 * steps + 1 }, (_, index) => around(along(index - steps), 7));
}
