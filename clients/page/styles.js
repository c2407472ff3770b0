// How elements look on the map: the styles of ways in the order in which they are drawn, the arrows of their direction,
// and the symbols of nodes.
"use strict";

/**
 * How ways look. A way that `isApart` is filled together with the others of its style. A line with a `casing` has edges
 * of this colour.
 * @typedef {{ id: string, stroke: string, width: number, fill?: string, dash?: number[], isApart?: boolean,
 *   casing?: string }} Style
 */

/**
 * A way is drawn in the first style whose test it passes.
 * @type {Style[]}
 */
const STYLES = [
  { id: "settlement", fill: "#ebe7e2", stroke: "#b9b0a6", width: 1 },
  { id: "industry", fill: "#e9dfe9", stroke: "#a894a8", width: 1 },
  { id: "farmland", fill: "#f3edd3", stroke: "#c0b27c", width: 1 },
  { id: "green", fill: "#d5e8c8", stroke: "#6c9a4d", width: 1 },
  { id: "wood", fill: "#b9d8a8", stroke: "#55823a", width: 1 },
  { id: "bare", fill: "#ece5d8", stroke: "#a59a83", width: 1 },
  { id: "public", fill: "#f6efc8", stroke: "#b3a455", width: 1 },
  { id: "sport", fill: "#b5e3cb", stroke: "#4e9a78", width: 1 },
  { id: "water-area", fill: "#c4def2", stroke: "#2f76b5", width: 1 },
  { id: "square", fill: "#e4dfea", stroke: "#8f849c", width: 1 },
  { id: "parking", fill: "#dfe6f0", stroke: "#6f87a8", width: 1 },
  { id: "outline", stroke: "#6c7780", width: 1.2 },
  { id: "building", fill: "#dcd3c8", stroke: "#8d7f70", width: 1, isApart: true },
  { id: "boundary", stroke: "#8a5b9b", width: 1.2, dash: [8, 5] },
  { id: "water", stroke: "#2f76b5", width: 1.8 },
  { id: "other", stroke: "#6c7780", width: 1.2 },
  { id: "barrier", stroke: "#5c4632", width: 1.2, dash: [2, 2] },
  { id: "rail", stroke: "#444c55", width: 1.8, dash: [7, 3] },
  { id: "footway", stroke: "#a4502a", width: 1.6, dash: [5, 4] },
  { id: "cycleway", stroke: "#2a5bb0", width: 1.6, dash: [5, 4] },
  { id: "steps", stroke: "#a4502a", width: 4, dash: [1.5, 2] },
  { id: "track", stroke: "#8a5a1c", width: 2, dash: [10, 3] },
  { id: "service", stroke: "#fff", width: 2, casing: "#97897a" },
  { id: "pedestrian", stroke: "#e4dfea", width: 3.2, casing: "#857a92" },
  { id: "street", stroke: "#fff", width: 3.6, casing: "#85776a" },
  { id: "tertiary", stroke: "#fdf5bd", width: 4.2, casing: "#8f8452" },
  { id: "secondary", stroke: "#fbdf9d", width: 4.6, casing: "#94762f" },
  { id: "primary", stroke: "#fbc49b", width: 5, casing: "#9a5f2c" },
  { id: "trunk", stroke: "#f5a38c", width: 5.4, casing: "#99412c" },
  { id: "motorway", stroke: "#e78aa2", width: 5.8, casing: "#93304c" },
];

/** @type {Record<string, number>} */
const STYLE_AT = Object.fromEntries(STYLES.map(({ id }, at) => [id, at]));

// How much wider than its line a casing is, in pixels.
const CASING = 1.6;

const FOOTWAYS = /foot|path|steps|cycle|bridleway/;

// The styles of roads by the value of `highway`, without `_link`. All others are streets.
/** @type {Record<string, string>} */
const ROADS = {
  motorway: "motorway", trunk: "trunk", primary: "primary", secondary: "secondary", tertiary: "tertiary",
  service: "service", track: "track", pedestrian: "pedestrian", cycleway: "cycleway", steps: "steps",
};

// The styles of areas by their tags, the first that fits.
/** @type {[key: string, values: RegExp, id: string][]} */
const AREAS = [
  ["amenity", /^parking$/, "parking"],
  ["leisure", /^(pitch|track|sports_centre|stadium|swimming_pool|playground|golf_course|ice_rink)$/, "sport"],
  ["natural", /^wood$/, "wood"],
  ["landuse", /^forest$/, "wood"],
  ["landuse", /^(basin|reservoir)$/, "water-area"],
  ["landuse", /^(residential|commercial|retail|garages)$/, "settlement"],
  ["landuse", /^(industrial|railway|quarry|landfill|construction|brownfield|depot|port)$/, "industry"],
  ["landuse", /^(farmland|farmyard|plant_nursery|greenhouse_horticulture)$/, "farmland"],
  ["natural", /^(sand|beach|bare_rock|scree|shingle|glacier|mud)$/, "bare"],
  ["amenity", /^(school|kindergarten|college|university|hospital|clinic|prison)$/, "public"],
  ["landuse", /./, "green"], ["leisure", /./, "green"], ["natural", /./, "green"], ["place", /^square$/, "square"],
  ["place", /./, "green"],
];

/**
 * The place in STYLES of a way.
 * @param {Tags} tags
 * @param {boolean} isClosed
 */
function styleOf(tags, isClosed) {
  const { highway } = tags;
  if (highway) return STYLE_AT[isClosed && tags.area === "yes" ? "square" : roadStyle(highway)];
  if (tags.building && isClosed) return STYLE_AT.building;
  if (tags.waterway || tags.natural === "water") return STYLE_AT[isClosed ? "water-area" : "water"];
  if (tags.railway) return STYLE_AT.rail;
  if (tags.boundary) return STYLE_AT.boundary;
  if (!isClosed) return STYLE_AT[tags.barrier ? "barrier" : "other"];
  const area = AREAS.find(([key, values]) => tags[key] && values.test(tags[key]));
  return STYLE_AT[area ? area[2] : "outline"];
}

/** @param {string} highway */
function roadStyle(highway) {
  const road = highway.replace(/_link$/, "");
  if (Object.hasOwn(ROADS, road)) return ROADS[road];
  return FOOTWAYS.test(road) ? "footway" : "street";
}

// ---- Arrows

const ARROWS_APART = 90; // pixels
const ARROW = 4.5; // pixels from the middle of an arrow to its tip

/**
 * Which way things go on a way: 1 along its nodes, -1 against them, 0 if its direction means nothing of that kind.
 * @param {Tags} tags
 * @returns {-1 | 0 | 1}
 */
function flowOf({ oneway, junction, highway, waterway }) {
  if (oneway === "-1" || oneway === "reverse") return -1;
  if (oneway && /^(yes|true|1)$/.test(oneway)) return 1;
  if (waterway && FLOWS.test(waterway)) return 1;
  const isImplied = /^(roundabout|circular)$/.test(junction ?? "") || /^motorway(_link)?$/.test(highway ?? "");
  return isImplied && oneway !== "no" ? 1 : 0;
}

/**
 * Adds arrows along a line to the path of a canvas, which may be filled then.
 * @param {CanvasRenderingContext2D} context
 * @param {[x: number, y: number][]} points
 * @param {number} flow
 */
function traceArrows(context, points, flow) {
  let next = ARROWS_APART / 2; // pixels to the next arrow
  for (let index = 1; index < points.length; index++) {
    const [[x, y], [toX, toY]] = [points[index - 1], points[index]];
    const length = Math.hypot(toX - x, toY - y);
    const [dx, dy] = [(toX - x) / (length || 1), (toY - y) / (length || 1)];
    for (; next < length; next += ARROWS_APART) {
      traceArrow(context, x + dx * next, y + dy * next, dx * flow * ARROW, dy * flow * ARROW);
    }
    next -= length;
  }
}

/**
 * @param {CanvasRenderingContext2D} context
 * @param {number} x
 * @param {number} y
 * @param {number} dx
 * @param {number} dy
 */
function traceArrow(context, x, y, dx, dy) {
  context.moveTo(x + dx, y + dy);
  context.lineTo(x - dx - dy * 0.8, y - dy + dx * 0.8);
  context.lineTo(x - dx * 0.4, y - dy * 0.4);
  context.lineTo(x - dx + dy * 0.8, y - dy - dx * 0.8);
  context.closePath();
}

// ---- Symbols

/**
 * How a node looks: the colour of its disc, and perhaps a sign on it.
 * @typedef {{ key: string, values: RegExp, colour: string, sign?: string }} NodeSymbol
 */

// The symbols of nodes by their tags, the first that fits. The first of all is for those that none fits.
/** @type {NodeSymbol[]} */
const SYMBOLS = [
  { key: "", values: /^$/, colour: "#7a2f8f" },
  { key: "natural", values: /^(tree|shrub)$/, colour: "#3f8f3a" },
  { key: "natural", values: /^(peak|volcano|saddle)$/, colour: "#7a4b1e", sign: "▲" },
  { key: "natural", values: /^spring$/, colour: "#2f76b5", sign: "~" },
  { key: "highway", values: /^bus_stop$/, colour: "#0a7d3c", sign: "H" },
  { key: "highway", values: /^crossing$/, colour: "#3c4650", sign: "=" },
  { key: "highway", values: /^traffic_signals$/, colour: "#b3261e", sign: ":" },
  { key: "highway", values: /^stop$/, colour: "#b3261e", sign: "S" },
  { key: "highway", values: /^give_way$/, colour: "#b3261e", sign: "▼" },
  { key: "highway", values: /^street_lamp$/, colour: "#a07800", sign: "*" },
  { key: "barrier", values: /gate$/, colour: "#3c4650", sign: "#" },
  { key: "barrier", values: /./, colour: "#3c4650" },
  { key: "entrance", values: /./, colour: "#8d5a2b" },
  { key: "amenity", values: /^parking/, colour: "#155fa8", sign: "P" },
  { key: "amenity", values: /^bench$/, colour: "#8d5a2b", sign: "b" },
  { key: "amenity", values: /^(pharmacy|hospital|clinic|doctors|dentist)$/, colour: "#b3261e", sign: "+" },
  { key: "amenity", values: /^(restaurant|cafe|fast_food|bar|pub|ice_cream)$/, colour: "#b35c00", sign: "R" },
  { key: "amenity", values: /^toilets$/, colour: "#155fa8", sign: "T" },
  { key: "amenity", values: /^(post_box|post_office|letter_box)$/, colour: "#a07800", sign: "@" },
  { key: "amenity", values: /^(waste_basket|recycling|waste_disposal)$/, colour: "#5b6771", sign: "u" },
  { key: "amenity", values: /^(drinking_water|fountain)$/, colour: "#2f76b5", sign: "~" },
  { key: "amenity", values: /^place_of_worship$/, colour: "#3c4650", sign: "†" },
  { key: "amenity", values: /^(school|kindergarten|university|library)$/, colour: "#7d6608", sign: "A" },
  { key: "emergency", values: /./, colour: "#b3261e", sign: "!" },
  { key: "shop", values: /./, colour: "#9a1c6b", sign: "$" },
  { key: "tourism", values: /./, colour: "#006d77", sign: "i" },
  { key: "railway", values: /./, colour: "#444c55", sign: "o" },
  { key: "power", values: /./, colour: "#5b6771", sign: "z" },
  { key: "addr:housenumber", values: /./, colour: "#8a93a0" },
];

/**
 * The place in SYMBOLS of a node.
 * @param {Tags} tags
 */
const symbolOf = (tags) => Math.max(0, SYMBOLS.findIndex(({ key, values }) => tags[key] && values.test(tags[key])));
