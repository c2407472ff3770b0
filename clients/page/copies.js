// What the mapper copied: elements, which can be pasted at another place, and their tags, for other elements.
"use strict";

/** Copied elements, and the actions that paste them. They know no page. */
class Copies {
  constructor() {
    /** @type {(MapNode | MapWay)[]} */
    this.rows = [];
    /** @type {Map<number, Position>} */
    this.places = new Map(); // of their nodes
    /** @type {Map<number, Tags>} */
    this.tags = new Map(); // of their nodes
  }

  /**
   * Copies nodes and ways as they are. Returns how many.
   * @param {MapElement[]} rows
   * @param {Elements} elements
   * @param {Shapes} shapes
   */
  take(rows, elements, shapes) {
    const copied = rows.flatMap((row) => (row.members ? [] : [row]));
    if (copied.length === 0) return 0;
    this.rows = copied;
    this.places.clear();
    this.tags.clear();
    for (const id of copied.flatMap((row) => row.nodes ?? [idOf(row.el)])) {
      const place = shapes.positionOf(id);
      if (place) this.places.set(id, place);
      this.tags.set(id, elements.get(nodeOf(id))?.tags ?? {});
    }
    return copied.length;
  }

  /** The tags of what was copied, if it is one element. */
  ownTags() {
    return this.rows.length === 1 ? this.rows[0].tags : {};
  }

  /**
   * Makes the copied elements anew, with their middle at a position.
   * @param {Position} to
   * @param {NameGiver} newName
   * @returns {maproom.Message[]}
   */
  paste(to, newName) {
    const box = emptyBox();
    for (const { x, y } of this.places.values()) stretch(box, x, y);
    const [dx, dy] = [to.x - (box.west + box.east) / 2, to.y - (box.north + box.south) / 2];
    /** @type {Map<number, number>} */
    const ids = new Map();
    const nodes = [...this.places].map(([id, { x, y }]) => {
      const el = newName("n");
      ids.set(id, idOf(el));
      return { do: "create", el, ...coordinatesOf({ x: x + dx, y: y + dy }), tags: this.tags.get(id) ?? {} };
    });
    const ways = this.rows.flatMap(({ nodes: list, tags }) => (
      list ? [{ do: "create", el: newName("w"), nodes: list.map((id) => ids.get(id) ?? 0), tags }] : []
    ));
    return [...nodes, ...ways];
  }

  /**
   * Gives elements the copied tags, and leaves their others. `replaced` gets what that changes.
   * @param {MapElement[]} rows
   * @param {string[]} replaced
   * @returns {maproom.Message[]}
   */
  pasteTags(rows, replaced) {
    const tags = this.ownTags();
    return rows.flatMap(({ el, tags: had }) => {
      const changed = Object.entries(tags).filter(([key, value]) => had[key] !== value);
      for (const [key] of changed) if (Object.hasOwn(had, key)) replaced.push(`${tagText(key, had[key])} of ${el}`);
      return changed.length ? [{ do: "retag", el, tags: Object.fromEntries(changed) }] : [];
    });
  }
}
