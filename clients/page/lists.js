// Lists: their last items, and lists by keys.
"use strict";

/**
 * The last item of a list that is not empty.
 * @template T
 * @param {readonly T[]} list
 */
const lastOf = (list) => list[list.length - 1];

/**
 * Lists by their keys. A key that nothing was added to has an empty list.
 * @template Key, Item
 * @extends {Map<Key, Item[]>}
 */
class Lists extends Map {
  /** @param {Key} key */
  get(key) {
    return super.get(key) ?? [];
  }

  /**
   * @param {Key} key
   * @param {Item} item
   */
  add(key, item) {
    const list = super.get(key);
    if (list) list.push(item);
    else this.set(key, [item]);
  }
}
