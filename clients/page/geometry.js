// Geometry on the plane of shapes.js: segments, rings and distances.
"use strict";

/**
 * A segment, by the positions of its ends.
 * @typedef {readonly [Position, Position]} Ends
 */

const EQUATOR = 40_075_017; // metres

/**
 * How many metres a distance of 1 on the plane is at a position.
 * @param {Position} position
 */
const metresAt = ({ y }) => EQUATOR * Math.cos((Mercator.lat(y) * Math.PI) / 180);

/**
 * @param {Position} one
 * @param {Position} other
 */
const distanceBetween = (one, other) => Math.hypot(one.x - other.x, one.y - other.y);

/**
 * The angle of the line from one position to another.
 * @param {Position} one
 * @param {Position} other
 */
const angleTo = (one, other) => Math.atan2(other.y - one.y, other.x - one.x);

/**
 * Positions turned round the first of them, or another one.
 * @param {Position[]} places
 * @param {number} angle
 * @param {Position} [round]
 * @returns {Position[]}
 */
function turnedBy(places, angle, round = places[0]) {
  const [cosine, sine] = [Math.cos(angle), Math.sin(angle)];
  return places.map(({ x, y }) => ({
    x: round.x + (x - round.x) * cosine - (y - round.y) * sine,
    y: round.y + (x - round.x) * sine + (y - round.y) * cosine,
  }));
}

/**
 * Which part of a segment lies before a place on it.
 * @param {Position} place
 * @param {Ends} segment
 */
function partOf(place, [one, other]) {
  const [dx, dy] = [other.x - one.x, other.y - one.y];
  const along = (place.x - one.x) * dx + (place.y - one.y) * dy;
  return Math.max(0, Math.min(1, along / (dx * dx + dy * dy || 1)));
}

/**
 * The position on a segment that is nearest to a place.
 * @param {Position} place
 * @param {Ends} segment
 * @returns {Position}
 */
function nearestOn(place, [one, other]) {
  const part = partOf(place, [one, other]);
  return { x: one.x + part * (other.x - one.x), y: one.y + part * (other.y - one.y) };
}

/**
 * How far a place is from a segment.
 * @param {Position} place
 * @param {Ends} segment
 */
const distanceTo = (place, segment) => distanceBetween(place, nearestOn(place, segment));

/**
 * Where two segments cross, or null. Segments that only touch do not cross.
 * @param {Ends} first
 * @param {Ends} second
 * @returns {Position | null}
 */
function intersectionOf([start, end], [from, to]) {
  const one = { x: end.x - start.x, y: end.y - start.y };
  const other = { x: to.x - from.x, y: to.y - from.y };
  const apart = { x: from.x - start.x, y: from.y - start.y };
  const turn = one.x * other.y - one.y * other.x;
  if (turn === 0) return null;
  const along = (apart.x * other.y - apart.y * other.x) / turn;
  const across = (apart.x * one.y - apart.y * one.x) / turn;
  const isOnBoth = along > 0 && along < 1 && across > 0 && across < 1;
  return isOnBoth ? { x: start.x + along * one.x, y: start.y + along * one.y } : null;
}

/**
 * Whether a position is in a ring.
 * @param {Position} position
 * @param {Position[]} ring
 */
function isInRing({ x, y }, ring) {
  let isIn = false;
  for (let index = 1; index < ring.length; index++) {
    const [one, other] = [ring[index - 1], ring[index]];
    if (one.y > y === other.y > y) continue;
    if (x < one.x + ((other.x - one.x) * (y - one.y)) / (other.y - one.y)) isIn = !isIn;
  }
  return isIn;
}
