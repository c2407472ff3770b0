// What depends on the direction of a way: tags, the tags of its nodes, and roles of relations; and what becomes of them
// when the way is turned (OpenStreetMap's wiki, Forward & backward, left & right).
"use strict";

// Words that swap when a way is turned.
/** @type {Record<string, string>} */
const TURNED = {
  forward: "backward", backward: "forward", forwards: "backwards", backwards: "forwards", left: "right", right: "left",
};

/** @type {Record<string, string>} */
const TURNED_SLOPES = { up: "down", down: "up" };

// Keys whose values are texts, or are about the direction of travel and not that of the way.
const NOT_TURNED = /(^|[:_])(name|ref|note|description|comment|source|website|url|fixme|turn|turn_lanes)(:|$)/;
const SLOPE = /^([+-]?)(\d+([.,]\d+)?\s*(%|°)?)$/;
const FLOWS = /^(river|stream|canal|ditch|drain|brook|tidal_channel|fairway|flowline|pressurised|rapids)$/;

// What a way means by its direction alone, so that no other tag says the same of the turned way.
/** @type {Record<string, RegExp>} */
const BY_DIRECTION = {
  oneway: /^(yes|true|1|-1|reverse|reversible|alternating)$/, junction: /^(roundabout|circular)$/,
  highway: /^motorway(_link)?$/, waterway: FLOWS, natural: /^(coastline|cliff|earth_bank)$/,
  barrier: /^(retaining_wall|kerb|guard_rail|city_wall)$/, man_made: /^embankment$/,
  aerialway: /^(chair_lift|drag_lift|t-bar|j-bar|platter|rope_tow|magic_carpet|mixed_lift|zip_line)$/,
  "piste:type": /^(downhill|sled|skitour)$/,
};

/**
 * @param {Record<string, string>} words
 * @param {string} word
 */
const swapped = (words, word) => (Object.hasOwn(words, word) ? words[word] : word);

/**
 * A value of a turned way.
 * @param {string} key
 * @param {string} value
 */
function turnedValue(key, value) {
  if (key === "oneway" || key.startsWith("oneway:")) return /^(-1|reverse)$/.test(value) ? "yes" : value;
  if (key === "incline") {
    const slope = SLOPE.exec(value);
    const isLevel = !slope || Number.parseFloat(slope[2].replace(",", ".")) === 0;
    return isLevel ? swapped(TURNED_SLOPES, value) : `${slope[1] === "-" ? "" : "-"}${slope[2]}`;
  }
  return NOT_TURNED.test(key) ? value : swapped(TURNED, value);
}

/**
 * The tags with which a turned way, or a node on it, says the same as before.
 * @param {Tags} tags
 * @returns {Tags}
 */
function turnedTags(tags) {
  const turned = Object.entries(tags).map(([key, value]) => [
    key.split(":").map((word) => swapped(TURNED, word)).join(":"), turnedValue(key, value),
  ]);
  return Object.fromEntries(turned);
}

/**
 * What a retag has to say to make other tags of some: the tags that differ, and null for those that go.
 * @param {Tags} before
 * @param {Tags} after
 */
function tagChanges(before, after) {
  /** @type {Record<string, string | null>} */
  const changes = Object.create(null); // a key can be any text, such as `constructor`
  for (const key in before) if (!Object.hasOwn(after, key)) changes[key] = null;
  for (const key in after) {
    if (!Object.hasOwn(before, key) || before[key] !== after[key]) changes[key] = after[key];
  }
  return changes;
}

/**
 * The role of a turned way.
 * @param {string} role
 */
const turnedRole = (role) => (/^(forward|backward)$/.test(role) ? TURNED[role] : role);

/**
 * Whether a tag says by the direction of its way alone where something goes.
 * @param {string} key
 * @param {string} value
 */
const isByDirection = (key, value) => Object.hasOwn(BY_DIRECTION, key) && BY_DIRECTION[key].test(value);

/**
 * Whether a tag means something only with the direction of its way.
 * @param {string} key
 * @param {string} value
 */
function isDirected(key, value) {
  const [[turnedKey, turned]] = Object.entries(turnedTags({ [key]: value }));
  return isByDirection(key, value) || turnedKey !== key || turned !== value;
}

/**
 * The tags that mean something only with the direction of their way.
 * @param {Tags} tags
 * @returns {Tags}
 */
const directedTags = (tags) => (
  Object.fromEntries(Object.entries(tags).filter(([key, value]) => isDirected(key, value)))
);

/**
 * A tag as mappers write it: `oneway=yes`.
 * @param {string} key
 * @param {string | null} value
 */
const tagText = (key, value) => (value === null ? `no ${key}` : `${key}=${value}`);
