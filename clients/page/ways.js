// Gestures that turn, join and split ways. They keep what tags, nodes and relations say, or throw why they cannot.
"use strict";

const isRestriction = (/** @type {Tags} */ tags) => /^(restriction|connectivity)(:|$)/.test(tags.type ?? "");

/** @param {MapWay} way */
const isClosedWay = ({ nodes }) => nodes.length > 3 && nodes[0] === lastOf(nodes);

/**
 * Whether a list of nodes runs the other way than it did: the first and the last of its old nodes that it still has are
 * in the other order. A closed way is compared by its second and its last but one.
 * @param {number[]} before
 * @param {number[]} after
 */
function isTurned(before, after) {
  const list = after[0] === lastOf(after) ? after.slice(1, -1) : after;
  const kept = before.filter((id) => list.includes(id));
  return kept.length > 1 && list.indexOf(kept[0]) > list.indexOf(lastOf(kept));
}

/**
 * The action that gives a relation its members, or none if it has them.
 * @param {string} el
 * @param {Member[]} before
 * @param {Member[]} members
 * @returns {maproom.Message[]}
 */
const membersAction = (el, before, members) => (
  isSameValue(before, members) ? [] : [{ do: "members", el, members }]
);

/**
 * The action that changes tags, or none if there is nothing to change.
 * @param {string} el
 * @param {Tags} before
 * @param {Tags} after
 * @returns {maproom.Message[]}
 */
function retagAction(el, before, after) {
  const tags = tagChanges(before, after);
  return Object.keys(tags).length === 0 ? [] : [{ do: "retag", el, tags }];
}

/** Gestures on ways, with the relations that have them. */
class WayEdits {
  /**
   * @param {Elements} elements
   * @param {Shapes} shapes
   */
  constructor(elements, shapes) {
    this.elements = elements;
    this.shapes = shapes;
  }

  /**
   * The relations that have an element.
   * @param {string} el
   */
  parentsOf(el) {
    return this.shapes.parentsOf(el).map((name) => relationOf(name, this.elements));
  }

  // ---- Reverse

  /**
   * Turns a way, and all that depends on its direction. `notes` gets what else changes, and `kept` the tags by which
   * something goes the other way now.
   * @param {string} el
   * @param {string[]} [notes]
   * @param {string[]} [kept]
   * @returns {maproom.Message[]}
   */
  reverse(el, notes = [], kept = []) {
    const way = wayOf(el, this.elements);
    for (const [key, value] of Object.entries(way.tags)) {
      if (isByDirection(key, value) && turnedValue(key, value) === value) kept.push(tagText(key, value));
    }
    const rows = [way, ...this.nodesWithDirection(way)];
    const retags = rows.flatMap((row) => {
      const after = turnedTags(row.tags);
      for (const [key, value] of Object.entries(tagChanges(row.tags, after))) {
        notes.push(`${row === way ? "" : `${row.el} `}${tagText(key, value)}`);
      }
      return retagAction(row.el, row.tags, after);
    });
    return [{ do: "reverse", el }, ...retags, ...this.turnedRoles(el, notes)];
  }

  /**
   * The nodes of a way whose tags may be about its direction: those that no other such way has.
   * @param {MapWay} way
   */
  nodesWithDirection({ el, nodes }) {
    /** @param {string} user */
    const isRoute = (user) => {
      const tags = this.elements.get(user)?.tags ?? {};
      return Boolean(tags.highway || tags.railway || tags.waterway);
    };
    return [...new Set(nodes)].flatMap((id) => {
      const row = this.elements.get(nodeOf(id));
      if (!row || !hasTags(row.tags)) return [];
      return this.shapes.usersOf(id).some((user) => user !== el && isRoute(user)) ? [] : [row];
    });
  }

  /**
   * @param {string} el
   * @param {string[]} notes
   */
  turnedRoles(el, notes) {
    return this.parentsOf(el).flatMap((relation) => {
      /** @type {Member[]} */
      const members = relation.members.map(([name, role]) => [name, name === el ? turnedRole(role) : role]);
      const changed = members.find(([name], at) => name === el && members[at][1] !== relation.members[at][1]);
      if (changed) notes.push(`${changed[1]} in ${titleOf(relation)}`);
      return membersAction(relation.el, relation.members, members);
    });
  }

  // ---- Join

  /**
   * Joins two ways that meet at an end. The way whose direction has a meaning keeps it, and its name; of others the
   * older or longer one does.
   * `notes` gets the tags that hold for a part that did not have them.
   * @param {string} one
   * @param {string} other
   * @param {string[]} [notes]
   * @returns {maproom.Message[]}
   */
  join(one, other, notes = []) {
    const [main, added] = this.mainFirst(wayOf(one, this.elements), wayOf(other, this.elements));
    const [first, second] = [main.nodes, added.nodes];
    const isAfter = lastOf(first) === second[0] || lastOf(first) === lastOf(second);
    const isBefore = first[0] === second[0] || first[0] === lastOf(second);
    if (!isAfter && !isBefore) throw new NotDone("not_end_to_end");
    const isTurned = isAfter ? lastOf(first) !== second[0] : first[0] !== lastOf(second);
    const meeting = isAfter ? lastOf(first) : first[0];
    this.checkDirections(main, added, isTurned);
    const roles = isTurned ? this.turnedRoles(added.el, []) : [];
    this.checkRelations(main, added, meeting, isTurned);
    const turn = (/** @type {MapWay} */ { el }) => ({ do: "reverse", el });
    const join = { do: "join", el: main.el, with: added.el };
    const members = this.joinedMembers(main.el, added.el, isTurned);
    const tags = { ...added.tags, ...main.tags };
    for (const [key, value] of Object.entries(tags)) {
      if (main.tags[key] !== added.tags[key]) notes.push(tagText(key, value));
    }
    // A join puts nodes after the end only.
    if (!isAfter) return [...roles, turn(main), ...(isTurned ? [] : [turn(added)]), join, turn(main), ...members];
    return [...roles, ...(isTurned ? [turn(added)] : []), join, ...members];
  }

  /**
   * @param {MapWay} one
   * @param {MapWay} other
   */
  mainFirst(one, other) {
    /** @param {MapWay} way */
    const rank = ({ el, tags, nodes }) => [
      Object.keys(directedTags(tags)).length > 0, hasTags(tags), idOf(el) > 0,
      this.shapes.parentsOf(el).length > 0, nodes.length,
    ].map(Number);
    const [ranks, others] = [rank(one), rank(other)];
    const at = ranks.findIndex((value, index) => value !== others[index]);
    return at < 0 || ranks[at] > others[at] ? [one, other] : [other, one];
  }

  /**
   * A way without tags takes those of the other. Otherwise no part may get a direction that it had not.
   * @param {MapWay} main
   * @param {MapWay} added
   * @param {boolean} isTurned
   */
  checkDirections(main, added, isTurned) {
    if (!hasTags(added.tags)) return;
    const [one, other] = [directedTags(main.tags), directedTags(added.tags)];
    const [key] = Object.keys(tagChanges(one, other));
    if (key !== undefined) {
      const [by, el] = Object.hasOwn(one, key) ? [main, added] : [added, main];
      throw new NotDone("other_direction", { el: el.el, by: by.el, key: tagText(key, by.tags[key]) });
    }
    const [same] = Object.keys(one);
    if (isTurned && same) {
      const about = { el: main.el, by: added.el, key: tagText(same, main.tags[same]) };
      throw new NotDone("against_direction", about);
    }
  }

  /**
   * Each relation has both ways, in the same role. Of a turn restriction, one that ends at its via is enough.
   * @param {MapWay} main
   * @param {MapWay} added
   * @param {number} meeting
   * @param {boolean} isTurned
   */
  checkRelations(main, added, meeting, isTurned) {
    for (const name of new Set([main.el, added.el].flatMap((el) => this.shapes.parentsOf(el)))) {
      const { members, tags } = relationOf(name, this.elements);
      /**
       * @param {string} el
       * @param {(role: string) => string} [turn]
       */
      const rolesOf = (el, turn = (role) => role) => (
        [...new Set(members.filter(([member]) => member === el).map(([, role]) => turn(role)))].sort()
      );
      const [roles, others] = [rolesOf(main.el), rolesOf(added.el, isTurned ? turnedRole : undefined)];
      const isApart = !members.some(([member]) => member === nodeOf(meeting));
      if (isRestriction(tags) && isApart && (roles.length === 0 || others.length === 0)) continue;
      if (roles.length === 0 || others.length === 0) {
        const [by, el] = roles.length === 0 ? [added, main] : [main, added];
        throw new NotDone("other_relations", { el: el.el, by: by.el, at: name });
      }
      if (!isSameValue(roles, others)) throw new NotDone("other_roles", { el: main.el, by: added.el, at: name });
    }
  }

  /**
   * The room puts the joined way in the place of both. A relation then has it once where it had the two side by side.
   * @param {string} main
   * @param {string} added
   * @param {boolean} isTurned
   */
  joinedMembers(main, added, isTurned) {
    return this.parentsOf(added).flatMap(({ el, members, tags }) => {
      /** @type {Member[]} */
      const turned = members.map(([name, role]) => [name, name === added && isTurned ? turnedRole(role) : role]);
      /** @type {Member[]} */
      const joined = [];
      /** @type {Member[]} */
      const tidy = [];
      turned.forEach(([name, role], at) => {
        const before = turned[at - 1];
        if (name === added && before && before[0] === main && before[1] === role) return;
        joined.push([name === added ? main : name, role]);
      });
      const isOnce = tags.type === "multipolygon";
      for (const [name, role] of joined) {
        const isSame = (/** @type {Member | undefined} */ member) => member?.[0] === name && member[1] === role;
        const isThere = name === main && (isOnce ? tidy.some(isSame) : isSame(tidy[tidy.length - 1]));
        if (!isThere) tidy.push([name, role]);
      }
      return membersAction(el, joined, tidy);
    });
  }

  // ---- Split

  /**
   * Splits a way at a node, or a closed way at two. An area becomes a multipolygon of its two parts.
   * @param {string} el
   * @param {string[]} at
   * @param {NameGiver} newName
   * @returns {maproom.Message[]}
   */
  split(el, at, newName) {
    const way = wayOf(el, this.elements);
    const isClosed = isClosedWay(way);
    if (isClosed && at.length !== 2) throw new NotDone("closed_way", { el });
    const nodes = isClosed ? this.turnedTo(way.nodes, idOf(at[0])) : way.nodes;
    const place = nodes.indexOf(idOf(lastOf(at)), 1);
    if (place < 0 || place === nodes.length - 1) throw new NotDone("bad_position");
    const into = newName("w");
    const rest = isSameValue(nodes, way.nodes) ? [] : [{ do: "nodes", el, nodes }];
    const parts = [nodes.slice(0, place + 1), nodes.slice(place)];
    const actions = [...rest, { do: "split", el, at: place, into }, ...this.splitMembers(el, into, parts)];
    return isClosed && areaTag(way.tags) ? [...actions, ...this.splitArea(way, into, newName)] : actions;
  }

  /**
   * The list of a closed way from a node on.
   * @param {number[]} nodes
   * @param {number} first
   */
  turnedTo(nodes, first) {
    const at = nodes.indexOf(first);
    if (at < 0) throw new NotDone("bad_position");
    return at === 0 ? nodes : [...nodes.slice(at), ...nodes.slice(1, at + 1)];
  }

  /**
   * The tags of an area go to a multipolygon of its two parts, since no part is an area.
   * @param {MapWay} way
   * @param {string} into
   * @param {NameGiver} newName
   * @returns {maproom.Message[]}
   */
  splitArea({ el, tags }, into, newName) {
    const moved = tagsOfArea(tags);
    const rest = Object.fromEntries(Object.entries(tags).filter(([key]) => !Object.hasOwn(moved, key)));
    const members = [[el, "outer"], [into, "outer"]];
    return [
      ...retagAction(el, tags, rest), ...retagAction(into, tags, rest),
      { do: "create", el: newName("r"), members, tags: { ...moved, type: "multipolygon" } },
    ];
  }

  /**
   * The room puts the new part after the old one into each relation. What is right may be another order, or one part.
   * @param {string} el
   * @param {string} into
   * @param {number[][]} parts
   */
  splitMembers(el, into, parts) {
    return this.parentsOf(el).flatMap((relation) => {
      const usual = relation.members.flatMap(([name, role]) => (
        /** @type {Member[]} */(name === el ? [[el, role], [into, role]] : [[name, role]])
      ));
      const members = relation.members.flatMap(([name, role], at) => (
        name === el ? this.partsIn(relation, at, [[el, role], [into, role]], parts)
          : /** @type {Member[]} */([[name, role]])
      ));
      return membersAction(relation.el, usual, members);
    });
  }

  /**
   * The members in the place of a way that was split.
   * @param {MapRelation} relation
   * @param {number} at
   * @param {Member[]} both
   * @param {number[][]} parts
   * @returns {Member[]}
   */
  partsIn(relation, at, both, parts) {
    const [, role] = relation.members[at];
    if (isRestriction(relation.tags) && (role === "from" || role === "to")) {
      const ends = this.viaNodes(relation);
      const isAtVia = parts.map((nodes) => ends.has(nodes[0]) || ends.has(lastOf(nodes)));
      return isAtVia[0] === isAtVia[1] ? both : both.filter((_, part) => isAtVia[part]);
    }
    return this.isBackward(relation, at, parts) ? [...both].reverse() : both;
  }

  /**
   * The nodes at which the ways of a turn restriction meet its via.
   * @param {MapRelation} relation
   */
  viaNodes({ members }) {
    const vias = members.filter(([, role]) => role === "via" || role === "intersection");
    return new Set(vias.flatMap(([name]) => (
      name[0] === "n" ? [idOf(name)] : this.elements.get(name)?.nodes ?? []
    )));
  }

  /**
   * Whether a relation goes through a way from its end to its start, by the members before and after it.
   * @param {MapRelation} relation
   * @param {number} at
   * @param {number[][]} parts
   */
  isBackward({ members }, at, [first, second]) {
    const [start, end] = [first[0], lastOf(second)];
    /** @param {Member | undefined} member */
    const nodesOf = (member) => new Set(member ? this.elements.get(member[0])?.nodes : []);
    const [before, after] = [nodesOf(members[at - 1]), nodesOf(members[at + 1])];
    if (before.has(start) !== before.has(end)) return before.has(end);
    if (after.has(start) !== after.has(end)) return after.has(start);
    return members[at][1] === "backward";
  }
}
