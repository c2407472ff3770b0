// Values that a gesture sets, and what others made of them after the mapper looked. They know no page.
"use strict";

/**
 * What a mapper had seen when they decided: in which session, the number of the last entry that was shown, how much
 * news had come by then, and how often the server was perhaps restarted.
 * @typedef {{ session: Session, since: number, mark: number, doubts: number }} Sight
 *
 * A value that a gesture sets: of which element, what it is and what it is to be, in words. `isOf` returns whether a
 * changed row changes it, and `isTouched` whether rows that do are enough to ask for it. `theirs` is what it is now in
 * words, or null if it is what the mapper saw or wants. `isLeft` says that the mapper left it to the other, and
 * `isForced` that it is to be the mapper's. A gesture can be done without a value that `isPart`.
 * @typedef {{ el: string, what: string, mine: string, isOf: (row: ChangedRow) => boolean,
 *   isTouched: (rows: ChangedRow[]) => boolean, theirs: () => string | null, isPart: boolean, isLeft: boolean,
 *   isForced: boolean }} Claim
 *
 * @typedef {Claim & { key: string, value: string | null }} TagClaim
 *
 * A value that somebody else changed meanwhile: who did it last, if that is known, and what it is now, in words.
 * @typedef {{ claim: Claim, by: string | null, theirs: string }} Dispute
 */

const Claims = {
  /**
   * A claim with what most claims have.
   * @param {Pick<Claim, "el" | "what" | "mine" | "isOf" | "theirs"> & Partial<Claim>} about
   * @returns {Claim}
   */
  of(about) {
    return { isTouched: (rows) => rows.length > 0, isPart: false, isLeft: false, isForced: false, ...about };
  },

  /**
   * A tag. `seen` is the value that the mapper saw; null stands for no such tag.
   * @param {MapElement} row
   * @param {string} key
   * @param {string | null} seen
   * @param {string | null} value
   * @param {() => Elements} elements
   * @returns {TagClaim}
   */
  tag({ el }, key, seen, value, elements) {
    const theirs = () => {
      const row = elements().get(el);
      const now = row ? valueOf(row, key) : seen;
      return now === seen || now === value ? null : now ?? `no ${key}`;
    };
    const claim = Claims.of({
      el, what: `“${key}” of`, mine: value ?? `no ${key}`, theirs, isPart: true,
      isOf: (row) => row.el === el && valueOf(row.before, key) !== valueOf(row.after, key),
    });
    return Object.assign(claim, { key, value });
  },

  /**
   * The tags that actions set on elements.
   * @param {maproom.Message[]} actions
   * @param {(el: string, key: string) => string | null} seen
   * @param {() => Elements} elements
   */
  tags(actions, seen, elements) {
    return actions.flatMap(({ do: word, el, tags }) => {
      const row = word === "retag" ? elements().get(String(el)) : null;
      const changed = /** @type {Record<string, string | null>} */ (tags ?? {});
      return row ? Object.entries(changed).map(([key, value]) => (
        Claims.tag(row, key, seen(row.el, key), value, elements)
      )) : [];
    });
  },

  /**
   * Actions without the tags that the mapper left to others.
   * @param {maproom.Message[]} actions
   * @param {TagClaim[]} claims
   */
  withoutLeft(actions, claims) {
    return actions.flatMap((action) => {
      if (action.do !== "retag") return [action];
      const left = new Set(claims.filter(({ el, isLeft }) => isLeft && el === action.el).map(({ key }) => key));
      const kept = Object.entries(/** @type {Tags} */(action.tags)).filter(([key]) => !left.has(key));
      return kept.length ? [{ ...action, tags: Object.fromEntries(kept) }] : [];
    });
  },

  /**
   * Where some nodes are. It is asked for if others moved all of them: a move of some of them goes with the mapper's.
   * `seen` has the nodes as the mapper saw them.
   * @param {string} el
   * @param {MapNode[]} seen
   * @param {string} mine
   * @param {() => Elements} elements
   */
  place(el, seen, mine, elements) {
    const names = new Set(seen.map((row) => row.el));
    const theirs = () => {
      const moves = seen.map((row) => shiftBetween(row, elements().get(row.el)));
      const first = moves.find((shift) => shift !== null);
      return first === undefined || first === null ? null : `moved by ${first}`;
    };
    return Claims.of({
      el, what: "The place of", mine, theirs,
      isOf: ({ el: name, before, after }) => names.has(name) && before?.lat !== undefined && after?.lat !== undefined
        && shiftBetween(before, after) !== null,
      isTouched: (rows) => new Set(rows.map((row) => row.el)).size === names.size,
    });
  },

  /**
   * An element that the mapper deletes. It is asked for if others changed anything of it.
   * @param {MapElement} row
   * @param {() => Elements} elements
   */
  gone(row, elements) {
    const { el } = row;
    const theirs = () => {
      const now = elements().get(el);
      return now && !isSameValue(now, row) ? `${deedTo({ el, before: row, after: now })} it` : null;
    };
    return Claims.of({ el, what: "", mine: "delete it", theirs, isOf: (changed) => changed.el === el });
  },

  /**
   * The role of a member that a relation has once.
   * @param {string} el
   * @param {string} member
   * @param {string} seen
   * @param {string} mine
   * @param {() => Elements} elements
   */
  role(el, member, seen, mine, elements) {
    /** @param {MapElement | null | undefined} row */
    const roleIn = (row) => (row?.members ?? []).find(([name]) => name === member)?.[1] ?? null;
    const theirs = () => {
      const now = roleIn(elements().get(el));
      return now === null || now === seen || now === mine ? null : now || "no role";
    };
    return Claims.of({
      el, what: `The role of ${member} in`, mine: mine || "no role", theirs,
      isOf: (row) => row.el === el && roleIn(row.before) !== roleIn(row.after),
    });
  },
};

/**
 * The value of a key, or null.
 * @param {MapElement | null} row
 * @param {string} key
 */
const valueOf = (row, key) => (row && Object.hasOwn(row.tags, key) ? row.tags[key] : null);

/**
 * How far and where a node moved from one row to another, such as `5 m to the north-east`, or null if it did not.
 * @param {MapElement | null | undefined} from
 * @param {MapElement | null | undefined} to
 */
function shiftBetween(from, to) {
  if (from?.lat === undefined || to?.lat === undefined || (from.lat === to.lat && from.lon === to.lon)) return null;
  /** @param {MapNode} row */
  const at = ({ lat, lon }) => ({ x: Mercator.x(lon), y: Mercator.y(lat) });
  return shiftText(at(from), at(to));
}

const WINDS = ["east", "south-east", "south", "south-west", "west", "north-west", "north", "north-east"];

/**
 * A way on the plane, such as `5 m to the north-east`.
 * @param {Position} from
 * @param {Position} to
 */
function shiftText(from, to) {
  const metres = distanceBetween(from, to) * metresAt(from);
  const wind = WINDS[(Math.round((angleTo(from, to) * 4) / Math.PI) + 8) % 8];
  return `${metres < 10 ? metres.toFixed(1) : metres.toFixed(0)} m to the ${wind}`;
}
