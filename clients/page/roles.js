// What a new relation is, by what is selected: a turn restriction of a way, a node or way, and a way; a multipolygon of
// ways that make rings; or members without roles.
"use strict";

/**
 * What a new relation begins with: its members with their roles, its tags, and the tags that its ways give to it.
 * @typedef {{ members: Member[], tags: Tags, moved: { el: string, tags: Tags }[] }} NewRelation
 */

/**
 * What a relation of elements begins with, in the order in which they were selected.
 * @param {string[]} els
 * @param {Elements} elements
 * @param {Shapes} shapes
 * @returns {NewRelation}
 */
function newRelationOf(els, elements, shapes) {
  const rows = els.flatMap((el) => elements.get(el) ?? []);
  if (rows.length < els.length) throw new NotDone("gone");
  const ways = rows.flatMap((row) => (row.nodes ? [row] : []));
  const plain = { members: rows.map(({ el }) => /** @type {Member} */([el, ""])), tags: {}, moved: [] };
  return restrictionOf(rows, shapes) ?? (ways.length === rows.length ? multipolygonOf(ways, shapes) : null) ?? plain;
}

/**
 * A turn restriction of the roads from and to, and what is between them: a node, or a road.
 * @param {MapElement[]} rows
 * @param {Shapes} shapes
 * @returns {NewRelation | null}
 */
function restrictionOf(rows, shapes) {
  const roads = rows.flatMap((row) => (row.nodes && row.tags.highway ? [row] : []));
  const nodes = rows.flatMap((row) => (row.lat === undefined ? [] : [idOf(row.el)]));
  if (rows.length !== 3 || roads.length + nodes.length !== 3 || nodes.length > 1) return null;
  const [from, to] = nodes.length ? roads : [roads[0], roads[2]];
  const vias = nodes.length ? nodes : roads[1].nodes;
  const via = rows.find((row) => row !== from && row !== to);
  const [start, end] = [endIn(from, vias), endIn(to, vias)];
  if (!via || start === null || end === null) return null;
  const turn = turnOf(start, end, shapes);
  return {
    members: [[from.el, "from"], [via.el, "via"], [to.el, "to"]],
    tags: { type: "restriction", restriction: `no_${turn}` }, moved: [],
  };
}

/**
 * The end of a way that some nodes have, and the node next to it; or null.
 * @param {MapWay} way
 * @param {number[]} ids
 * @returns {[end: number, next: number] | null}
 */
function endIn({ nodes }, ids) {
  if (ids.includes(nodes[0])) return [nodes[0], nodes[1]];
  const last = lastOf(nodes);
  return ids.includes(last) ? [last, nodes[nodes.length - 2]] : null;
}

/**
 * The turn from one way into another, by their ends and the nodes next to them.
 * @param {[end: number, next: number]} from
 * @param {[end: number, next: number]} to
 * @param {Shapes} shapes
 */
function turnOf([fromEnd, fromNext], [toEnd, toNext], shapes) {
  /** @param {number} id */
  const at = (id) => shapes.positionOf(id) ?? { x: 0, y: 0 };
  const turn = angleTo(at(toEnd), at(toNext)) - angleTo(at(fromNext), at(fromEnd));
  const degrees = ((((turn * 180) / Math.PI) % 360) + 540) % 360 - 180; // to the right, since the south is down
  if (Math.abs(degrees) < 30) return "straight_on";
  if (Math.abs(degrees) > 150) return "u_turn";
  return degrees > 0 ? "right_turn" : "left_turn";
}

/**
 * A multipolygon of ways that make rings. It takes the tags of the area that all of its outer ways have.
 * @param {MapWay[]} ways
 * @param {Shapes} shapes
 * @returns {NewRelation | null}
 */
function multipolygonOf(ways, shapes) {
  const roles = rolesInRings(ways, shapes);
  if (!roles || ways.some(({ tags }) => tags.highway && tags.area !== "yes")) return null;
  const members = ways.map(({ el }) => /** @type {Member} */([el, roles.get(el) ?? ""]));
  const outer = ways.filter(({ el }) => roles.get(el) === "outer");
  const tags = tagsOfArea(outer[0]?.tags ?? {});
  const areSame = outer.every((way) => isSameValue(tagsOfArea(way.tags), tags));
  if (!areSame || Object.keys(tags).length === 0) return { members, tags: { type: "multipolygon" }, moved: [] };
  return { members, tags: { ...tags, type: "multipolygon" }, moved: outer.map(({ el }) => ({ el, tags })) };
}
