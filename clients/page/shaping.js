// Shapes that ways are given: square corners, circles, and straight lines. Each function makes the actions that move
// the nodes there. They know no page.
"use strict";

const MOST_OBLIQUE = 30; // degrees that a side may lie off a right angle to be squared
const WIDEST = 24; // degrees between two nodes of a circle

/**
 * The action that moves a node to a position, or none if it is there.
 * @param {number} id
 * @param {Position} to
 * @param {Elements} elements
 * @returns {maproom.Message[]}
 */
function moveNode(id, to, elements) {
  const row = elements.get(nodeOf(id));
  if (!row?.lat) return [];
  const { lat, lon } = coordinatesOf(to);
  /**
   * @param {string} there
   * @param {string} here
   */
  const steps = (there, here) => Math.round((Number(there) - Number(here)) * 1e7);
  const [dlat, dlon] = [steps(lat, row.lat), steps(lon, row.lon)];
  return dlat || dlon ? [{ do: "move", els: [row.el], dlat, dlon }] : [];
}

/**
 * The positions of the nodes of a way.
 * @param {MapWay} way
 * @param {Shapes} shapes
 * @returns {Position[]}
 */
const placesOf = ({ nodes }, shapes) => nodes.map((id) => shapes.positionOf(id) ?? { x: 0, y: 0 });

/**
 * The main direction of a line, as an angle: that of its sides, of which those at a right angle count together.
 * @param {Position[]} places
 */
function mainAngle(places) {
  let [x, y] = [0, 0];
  for (let index = 1; index < places.length; index++) {
    const [dx, dy] = [places[index].x - places[index - 1].x, places[index].y - places[index - 1].y];
    const angle = 4 * Math.atan2(dy, dx);
    const length = Math.hypot(dx, dy);
    x += length * Math.cos(angle);
    y += length * Math.sin(angle);
  }
  return Math.atan2(y, x) / 4;
}

/** @param {number[]} values */
const meanOf = (values) => values.reduce((sum, value) => sum + value, 0) / values.length;

/**
 * Where the corners of a line are if all are square. Its sides lie along two directions; those that go on in the same
 * one are one line. Throws if a side lies between the two.
 * @param {Position[]} places
 * @param {boolean} isClosed
 */
function squareCorners(places, isClosed) {
  const angle = mainAngle(places);
  const level = turnedBy(places, -angle);
  const sides = level.slice(1).map((place, at) => isLevel(level[at], place));
  const count = isClosed ? level.length - 1 : level.length;
  const moved = level.map((place) => ({ ...place }));
  for (const run of runsOf(sides, isClosed)) {
    const nodes = [...new Set(run.flatMap((side) => [side % count, (side + 1) % count]))];
    const axis = sides[run[0]] ? "y" : "x";
    const value = meanOf(nodes.map((node) => level[node][axis]));
    for (const node of nodes) moved[node][axis] = value;
  }
  if (isClosed) moved[count] = moved[0];
  return turnedBy(moved, angle, places[0]);
}

/**
 * Whether a side lies along the main direction, or else across it.
 * @param {Position} one
 * @param {Position} other
 */
function isLevel(one, other) {
  const degrees = (Math.atan2(Math.abs(other.y - one.y), Math.abs(other.x - one.x)) * 180) / Math.PI;
  if (Math.min(degrees, 90 - degrees) > MOST_OBLIQUE) throw new NotDone("not_square");
  return degrees < 45;
}

/**
 * The sides that go on in one direction, each as a list of their places.
 * @param {boolean[]} sides
 * @param {boolean} isClosed
 */
function runsOf(sides, isClosed) {
  /** @type {number[][]} */
  const runs = [];
  sides.forEach((side, at) => {
    if (at > 0 && sides[at - 1] === side) lastOf(runs).push(at);
    else runs.push([at]);
  });
  const isOne = isClosed && runs.length > 1 && sides[0] === lastOf(sides);
  return isOne ? [[...lastOf(runs), ...runs[0]], ...runs.slice(1, -1)] : runs;
}

const Shaping = {
  /**
   * Makes the corners of a way square.
   * @param {MapWay} way
   * @param {Elements} elements
   * @param {Shapes} shapes
   * @returns {maproom.Message[]}
   */
  square(way, elements, shapes) {
    const isClosed = isClosedWay(way);
    const corners = squareCorners(placesOf(way, shapes), isClosed);
    const nodes = isClosed ? way.nodes.slice(1) : way.nodes;
    return nodes.flatMap((id, at) => moveNode(id, corners[isClosed ? at + 1 : at], elements));
  },

  /**
   * Puts the nodes of a closed way on a circle, and makes nodes between those that are far apart.
   * @param {MapWay} way
   * @param {Elements} elements
   * @param {Shapes} shapes
   * @param {NameGiver} newName
   * @returns {maproom.Message[]}
   */
  circle(way, elements, shapes, newName) {
    if (!isClosedWay(way)) throw new NotDone("not_closed", { el: way.el });
    const places = placesOf(way, shapes);
    const corners = places.slice(1);
    const middle = { x: meanOf(corners.map(({ x }) => x)), y: meanOf(corners.map(({ y }) => y)) };
    const radius = meanOf(corners.map((place) => distanceBetween(place, middle)));
    /** @param {Position} place */
    const angleOf = (place) => angleTo(middle, place);
    /** @param {number} angle */
    const at = (angle) => ({ x: middle.x + radius * Math.cos(angle), y: middle.y + radius * Math.sin(angle) });
    /** @type {maproom.Message[]} */
    const actions = way.nodes.slice(1).flatMap((id, index) => moveNode(id, at(angleOf(corners[index])), elements));
    const nodes = [way.nodes[0]];
    for (let index = 1; index < way.nodes.length; index++) {
      const [one, other] = [way.nodes[index - 1], way.nodes[index]];
      const start = angleOf(places[index - 1]);
      const turn = ((((angleOf(places[index]) - start) % (2 * Math.PI)) + 3 * Math.PI) % (2 * Math.PI)) - Math.PI;
      const steps = isOfOneWay(one, other, shapes) ? Math.ceil((Math.abs(turn) * 180) / Math.PI / WIDEST) : 1;
      for (let step = 1; step < steps; step++) {
        const el = newName("n");
        actions.push({ do: "create", el, ...coordinatesOf(at(start + (turn * step) / steps)), tags: {} });
        nodes.push(idOf(el));
      }
      nodes.push(other);
    }
    return nodes.length > way.nodes.length ? [...actions, { do: "nodes", el: way.el, nodes }] : actions;
  },

  /**
   * Puts the nodes of a line between its ends.
   * @param {MapWay} way
   * @param {Elements} elements
   * @param {Shapes} shapes
   * @returns {maproom.Message[]}
   */
  straighten(way, elements, shapes) {
    const places = placesOf(way, shapes);
    if (way.nodes[0] === lastOf(way.nodes)) throw new NotDone("not_open", { el: way.el });
    /** @type {Ends} */
    const ends = [places[0], lastOf(places)];
    return way.nodes.slice(1, -1).flatMap((id, at) => moveNode(id, nearestOn(places[at + 1], ends), elements));
  },
};

/**
 * Whether only one way goes from a node to another.
 * @param {number} one
 * @param {number} other
 * @param {Shapes} shapes
 */
const isOfOneWay = (one, other, shapes) => (
  shapes.usersOf(one).filter((way) => shapes.usersOf(other).includes(way)).length < 2
);
