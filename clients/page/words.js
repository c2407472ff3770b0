// What the page says: titles of elements, what entries did, and refusals in sentences.
"use strict";

/**
 * A refusal of the room's, or another reason why something was not done.
 * @typedef {{ why: string, name?: string, el?: string, by?: string, at?: string, key?: string, field?: string,
 *   seq?: number, with?: number, action?: number, restarted?: boolean, isDropped?: boolean, isSent?: boolean }} Refusal
 *
 * An error of a change. `no` has the room's refusal, and `text` is what the change did.
 * @typedef {Error & Partial<Refusal> & { no?: Refusal, text?: string, cause?: Error }} Failure
 */

/** @type {Record<string, string>} */
const KINDS = { n: "node", w: "way", r: "relation" };
/** @type {Record<string, string>} */
const PLAIN_KINDS = { n: "a point", w: "a line", r: "a relation" };
const MOST_TAGS_NAMED = 2; // in what an entry did
const PLAIN_KEYS = ["amenity", "shop", "tourism", "leisure", "natural", "landuse", "railway", "waterway", "barrier",
  "man_made", "historic", "place", "boundary", "type"];

/**
 * What an element is, in a word or two.
 * @param {{ el: string, tags: Tags }} row
 */
function kindOf({ el, tags }) {
  const { highway } = tags;
  if (highway && el[0] === "w") return FOOTWAYS.test(highway) ? highway : "street";
  if (highway) return highway.replaceAll("_", " ");
  if (tags.building) return "building";
  const key = PLAIN_KEYS.find((each) => tags[each]);
  if (key) return tags[key].replaceAll("_", " ");
  return tags["addr:housenumber"] ? "address" : KINDS[el[0]];
}

/**
 * The name of an element, or an address, or nothing.
 * @param {MapElement} row
 */
function nameOf({ tags }) {
  const house = tags["addr:housenumber"];
  return tags.name ?? tags.ref ?? (house ? [tags["addr:street"], house].filter(Boolean).join(" ") : "");
}

/**
 * An element for people: “Mill Lane, street w12”.
 * @param {MapElement} row
 */
function titleOf(row) {
  const name = nameOf(row);
  return `${name ? `${name}, ` : ""}${kindOf(row)} ${row.el}`;
}

/**
 * An element in the words of a mapper, without its number: “house 22 in Mill Lane”, “the street Mill Lane”, “a tree”.
 * @param {MapElement} row
 */
function plainTitleOf(row) {
  const { tags } = row;
  const [number, street] = [tags["addr:housenumber"], tags["addr:street"] ?? tags["addr:place"]];
  if (number && !tags.name) return `house ${number}${street ? ` in ${street}` : ""}`;
  const name = nameOf(row);
  const kind = kindOf(row);
  if (!Object.values(KINDS).includes(kind)) {
    return name ? `the ${kind} ${name}` : `${/^[aeio]/.test(kind) ? "an" : "a"} ${kind}`;
  }
  return name || PLAIN_KINDS[row.el[0]];
}

/**
 * @param {number} count
 * @param {string} word
 */
const counted = (count, word) => `${count} ${word}${count === 1 ? "" : "s"}`;

/**
 * @param {unknown} one
 * @param {unknown} other
 */
const isSameValue = (one, other) => JSON.stringify(one) === JSON.stringify(other);

/**
 * The two parts of an element, each of which an entry changes or leaves.
 * @param {MapElement | null} row
 */
const partsOf = (row) => (row ? { tags: row.tags, place: row.nodes ?? row.members ?? [row.lat, row.lon] } : null);

/**
 * What was done to an element.
 * @param {ChangedRow} row
 */
function deedTo({ before, after }) {
  if (!before) return "made";
  if (!after) return "deleted";
  if (!isSameValue(before.tags, after.tags)) return "changed the tags of";
  return after.lat !== undefined ? "moved" : after.nodes ? "changed the line of" : "changed the members of";
}

/**
 * Whether an entry moved a node, and did nothing else to it.
 * @param {ChangedRow} row
 */
const isMove = (row) => row.after?.lat !== undefined && deedTo(row) === "moved";

/**
 * The ways of which an entry moved all nodes, so that mappers say that it moved the way.
 * @param {ChangedRow[]} rows
 * @param {Shapes} shapes
 * @param {Elements} elements
 */
function movedWays(rows, shapes, elements) {
  const moved = new Set(rows.filter(isMove).map(({ el }) => idOf(el)));
  const users = new Set([...moved].flatMap((id) => shapes.usersOf(id)));
  return [...users].flatMap((el) => {
    const row = elements.get(el);
    return row?.nodes?.every((id) => moved.has(id)) ? [row] : [];
  });
}

/**
 * The tags that a change gave an element or took from it, in words in front of the element.
 * @param {MapElement} before
 * @param {MapElement} after
 */
function retagDeed(before, after) {
  const keys = [...new Set([...Object.keys(before.tags), ...Object.keys(after.tags)])];
  const changed = keys.filter((key) => valueOf(before, key) !== valueOf(after, key));
  const gone = changed.filter((key) => valueOf(after, key) === null);
  if (changed.length > MOST_TAGS_NAMED) return "changed the tags of";
  if (gone.length === changed.length) return `removed ${gone.join(" and ")} from`;
  const set = changed.map((key) => tagText(key, valueOf(after, key))).join(", ");
  return `set ${set} on`;
}

/**
 * What an entry did: “made the path Mill Lane and 3 points”. It does not name the nodes of `ways`, which it moved.
 * @param {ChangedRow[]} rows
 * @param {MapWay[]} ways
 */
function deedsOf(rows, ways = []) {
  /** @type {Lists<string, MapElement>} */
  const deeds = new Lists();
  const nodes = new Set(ways.flatMap((way) => way.nodes.map(nodeOf)));
  for (const way of ways) deeds.add("moved", way);
  for (const row of rows) {
    const { before, after } = row;
    const element = after ?? before;
    if (!element || (nodes.has(row.el) && isMove(row))) continue;
    const isRetag = before && after && !isSameValue(before.tags, after.tags);
    deeds.add(isRetag ? retagDeed(before, after) : deedTo(row), element);
  }
  return [...deeds].map(([deed, elements]) => `${deed} ${listOf(elements)}`).join(", ") || "changed nothing";
}

/**
 * Some elements in plain words: those with names first, and of plain nodes only how many.
 * @param {MapElement[]} elements
 */
function listOf(elements) {
  const plain = elements.filter((row) => row.el[0] === "n" && !hasTags(row.tags));
  const rest = elements.filter((row) => !plain.includes(row)).reverse();
  if (rest.length === 0 && plain.length === 1) return plainTitleOf(plain[0]);
  const parts = rest.slice(0, 2).map(plainTitleOf);
  if (rest.length > 2) parts.push(`${rest.length - 2} more`);
  if (plain.length) parts.push(counted(plain.length, "point"));
  return parts.length > 1 ? `${parts.slice(0, -1).join(", ")} and ${parts[parts.length - 1]}` : parts[0];
}

/** @type {Record<string, (no: Partial<Refusal>) => string>} */
const REFUSALS = {
  repeat: (no) => `Another client with your name spent the number of entry ${no.seq}. Try again.`,
  full: () => "The room is full: it takes no more changes. Save its map and serve it anew.",
  nothing_to_undo: () => "You have nothing to undo.",
  nothing_to_redo: () => "You have nothing to redo.",
  all_blocked: () => "None of your changes can be undone: later changes build on each of them.",
  no_such: () => "There is no such entry.",
  not_yours: () => "This entry is another mapper's.",
  not_standing: () => "This entry is undone already.",
  wrong_kind: (no) => `${no.el} is of the wrong kind for this.`,
  present: (no) => `${no.el} is there already.`,
  same: (no) => `${no.el} cannot be used twice.`,
  absent: (no) => `${no.el} is not there, or not any more.`,
  bad_position: () => "The way cannot be split or unglued there.",
  not_end_to_end: () => "The ways do not meet at their ends.",
  tag_conflict: (no) => `The two have different values of “${no.key}”. Make them equal first.`,
  out_of_range: (no) => `${no.el} would leave the world.`,
  too_few: (no) => `${no.el} would have fewer than 2 nodes.`,
  too_many: (no) => `${no.el} would have more nodes, members or tags than it may.`,
  in_use: (no) => `${no.by} uses ${no.el}. “Delete everywhere” takes it out of ${no.by} too.`,
  nothing: () => "That would change nothing.",
  changed: (no) => `Others go on changing ${no.el ?? "the same"}. Try again when they are done.`,
  left: () => "It stays as the other mapper made it.",
  turned: ({ el }) => `${el} was turned meanwhile, so it runs as you wanted.`,
  memory: () => "The server is out of memory. Try again later.",
  no_room: () => "The server has no room of this name.",
  wrong_name: (no) => `You are logged in as ${no.name}, and have to use that name.`,
  no_name: () => "The server was not told who you are, so you cannot change the map. Load this page again, and log "
    + "in. If you are logged in, ask whoever runs the server to give your login a name.",
  bad_field: (no) => `The server does not accept this: “${no.field}” is missing, or is not of its form.`,
  unknown_do: () => "This server does not know that action.",
  unknown: () => "The connection ended before the answer came. Look at the map: the change may be there or not.",
  not_sent: ({ restarted }) => `The ${restarted ? "server was restarted" : "connection broke"} before this was sent. `
    + "It was not done.",
  no_answer: () => "No answer came. Look at the map: the change may be there or not.",
  gone: () => "What this is about is not there any more.",
  not_its_end: ({ el }) => `${el} does not end there any more. You can save the drawing as a way of its own.`,
  other_direction: ({ el, by, key }) => `Not joined: ${by} has ${key}, which means something by its direction, and `
    + `${el} has not. Make them equal first.`,
  against_direction: ({ el, by, key }) => `Not joined: ${el} and ${by} have ${key}, and run against each other there. `
    + "Reverse one of them first.",
  other_relations: ({ el, by, at }) => `Not joined: ${by} is a member of ${at}, and ${el} is not. Add it to ${at} `
    + "first.",
  other_roles: ({ el, by, at }) => `Not joined: ${el} and ${by} have different roles in ${at}.`,
  not_square: () => "Not squared: it has corners that are far from square.",
  not_closed: ({ el }) => `${el} is not closed.`,
  not_open: ({ el }) => `${el} is closed.`,
  closed_way: ({ el }) => `${el} is closed: select the two nodes at which it is to be split.`,
  other_nodes: ({ el }) => `Somebody changed the nodes of ${el} meanwhile. Select it again, and change its list.`,
  not_meant: () => "Nothing was undone or redone, because the change before was not saved.",
  unsafe: () => "The id of a node is too large: the line cannot be changed here.",
  closed: (no) => {
    if (!no.isDropped) return "You left the room before the answer came.";
    return no.isSent ? REFUSALS.unknown(no) : "The session ended before this was sent. It was not done.";
  },
};

/**
 * A refusal, or another error of a call, as a sentence.
 * @param {Failure} error
 */
function sentenceOf(error) {
  const no = error.no ?? error;
  return (no.why ? REFUSALS[no.why]?.(no) : null) ?? error.message;
}

/**
 * Whether nobody knows if a change was done.
 * @param {Failure} error
 */
const isUnsure = ({ why, isSent }) => why === "unknown" || why === "no_answer" || (why === "closed" && isSent === true);

/**
 * A colour for each author: the same in every browser.
 * @param {string} author
 */
function colourOf(author) {
  let sum = 0;
  for (const sign of author) sum = (sum * 31 + sign.charCodeAt(0)) % 360;
  return `hsl(${(sum * 47) % 360} 75% 36%)`;
}
