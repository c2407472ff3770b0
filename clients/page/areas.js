// Which tags make a closed way an area (OpenStreetMap's wiki, Area), and which way of a multipolygon is a hole.
"use strict";

// Keys of areas, each with the values that are no areas or may be lines, too.
/** @type {Record<string, RegExp>} */
const AREA_KEYS = {
  building: /^no$/, "building:part": /^no$/, landuse: /^$/, shop: /^$/, office: /^$/, "area:highway": /^$/,
  leisure: /^(track|slipway|fitness_station|outdoor_seating)$/, amenity: /^(bench|bicycle_parking|weighbridge)$/,
  natural: /^(coastline|cliff|ridge|arete|valley|tree_row|tree|gorge|strait|earth_bank|peak|saddle)$/,
  tourism: /^(artwork|attraction|information)$/, craft: /^$/, place: /^(isolated_dwelling|locality)$/,
  power: /^(line|minor_line|cable|tower|pole|portal|catenary_mast)$/,
  aeroway: /^(runway|taxiway|parking_position|jet_bridge|stopway)$/,
};

/**
 * The tag that makes a closed way an area, or null.
 * @param {Tags} tags
 * @returns {[key: string, value: string] | null}
 */
function areaTag(tags) {
  if (tags.area === "no") return null;
  if (tags.area === "yes") return ["area", "yes"];
  const key = Object.keys(AREA_KEYS).find((each) => tags[each] && !AREA_KEYS[each].test(tags[each]));
  return key ? [key, tags[key]] : null;
}

/**
 * The tags of an area that belong to its multipolygon, once it has one.
 * @param {Tags} tags
 * @returns {Tags}
 */
function tagsOfArea(tags) {
  if (!areaTag(tags)) return {};
  const line = Object.entries(tags).filter(([key]) => !/^(barrier|fence_type|height|created_by|source)$/.test(key));
  return Object.fromEntries(line);
}

/**
 * The roles of ways in a multipolygon: outer, or inner for those in a ring of others. Null if they make no rings.
 * @param {MapWay[]} ways
 * @param {Shapes} shapes
 * @returns {Map<string, string> | null}
 */
function rolesInRings(ways, shapes) {
  const rings = ringsOf(ways.map(({ nodes }) => nodes));
  const sets = rings.map((ring) => new Set(ring));
  /** @param {MapWay} way */
  const ringOf = ({ nodes }) => sets.findIndex((ids) => nodes.every((id) => ids.has(id)));
  if (ways.length === 0 || ways.some((way) => ringOf(way) < 0)) return null;
  const lines = rings.map((ring) => ring.flatMap((id) => shapes.positionOf(id) ?? []));
  /** @param {number} at */
  const isHole = (at) => {
    const others = lines.filter((_, other) => other !== at && isWithin(rings[at], sets[other], lines[other], shapes));
    return others.length % 2 === 1;
  };
  const areHoles = rings.map((_, at) => isHole(at));
  return new Map(ways.map((way) => [way.el, areHoles[ringOf(way)] ? "inner" : "outer"]));
}

/**
 * Whether a ring is in another one, by one of its nodes that the other does not have.
 * @param {number[]} ring
 * @param {Set<number>} other
 * @param {Position[]} line
 * @param {Shapes} shapes
 */
function isWithin(ring, other, line, shapes) {
  const own = ring.find((id) => !other.has(id));
  const position = own === undefined ? null : shapes.positionOf(own);
  return position !== null && isInRing(position, line);
}
