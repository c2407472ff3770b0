// Tags that a mapper types.
"use strict";

/**
 * A line of the form: a tag as it is typed, what it was when it was saved, and whether it is to be removed. Of several
 * elements a line `isMixed` if its values differ, or some elements do not have the key; its value is empty then. A line
 * that is typed has what the mapper saw then: in the room (`sight`), and of the elements (`seen`).
 * @typedef {{ key: string, value: string, was: { key: string, value: string } | null, isRemoved: boolean,
 *   isMixed?: boolean, sight?: Sight | null, seen?: MapElement[] }} TagLine
 */

/**
 * The tags of elements in fields. Typed fields stay until they are saved, even if others change the tags. The last line
 * is empty, for a new tag.
 */
class TagDraft {
  /** @param {MapElement[]} rows */
  constructor(rows) {
    this.els = rows.map(({ el }) => el);
    /** @type {TagLine[]} */
    this.lines = [];
    this.take(rows);
  }

  /** The names of the elements, by which a draft is found. */
  get key() {
    return this.els.join(" ");
  }

  /**
   * Takes the elements as they are now: lines that nobody typed in follow them.
   * @param {MapElement[]} rows
   */
  take(rows) {
    const tags = commonTags(rows);
    const empty = this.lines.find((each) => !each.was && !this.isTyped(each));
    this.lines = this.lines.filter((each) => this.isTyped(each) || (each.was && tags.has(each.was.key)));
    for (const [key, value] of tags) {
      const was = { key, value: value ?? "" };
      const isMixed = value === null;
      // Somebody else may have given the elements the key that a new line has.
      const had = this.lines.find((each) => each.was?.key === key)
        ?? this.lines.find((each) => !each.was && each.sight && each.key.trim() === key);
      if (!had) this.lines.push({ ...was, was, isRemoved: false, isMixed });
      else if (!this.isTyped(had)) Object.assign(had, { value: was.value, was, isMixed });
      else Object.assign(had, { was, isMixed });
    }
    this.lines.push(empty ?? this.newLine());
  }

  /** @returns {TagLine} */
  newLine() {
    return { key: "", value: "", was: null, isRemoved: false };
  }

  /**
   * Notes what the mapper sees when they begin to type in a line, and forgets it when nothing typed is left.
   * @param {TagLine} line
   * @param {Sight} sight
   * @param {MapElement[]} rows
   */
  look(line, sight, rows) {
    if (!this.isTyped(line)) line.sight = null;
    else if (!line.sight) Object.assign(line, { sight, seen: rows });
  }

  /**
   * The value of a key that the mapper saw when they typed it, or null.
   * @param {string} el
   * @param {string} key
   */
  seenValue(el, key) {
    const typed = this.typed();
    const line = typed.find((each) => each.was?.key === key) ?? typed.find((each) => each.key.trim() === key);
    return valueOf(line?.seen?.find((row) => row.el === el) ?? null, key);
  }

  /** What the mapper saw when they typed the first of the lines. */
  sight() {
    const sights = this.typed().flatMap(({ sight }) => sight ?? []);
    return sights.sort((one, other) => one.mark - other.mark)[0];
  }

  /**
   * Takes lines as saved, each with what it was when it was sent. What was typed in it since then stays.
   * @param {[each: TagLine, sent: TagLine][]} sent
   */
  settle(sent) {
    for (const [each, { key, value, isRemoved }] of sent) {
      each.was = isRemoved ? null : { key: key.trim(), value };
      each.sight = null;
      if (each.key === key) each.key = key.trim();
      /** @param {TagLine} line */
      const isOther = ({ was }) => !was || was.key !== each.was?.key;
      this.lines = this.lines.filter((other) => (other === each ? each.was || !each.isRemoved : isOther(other)));
    }
  }

  /** @param {TagLine} line */
  isTyped({ key, value, was, isRemoved }) {
    return was ? isRemoved || key !== was.key || value !== was.value : key !== "" || value !== "";
  }

  typed() {
    return this.lines.filter((each) => this.isTyped(each));
  }

  /**
   * @param {string} key
   * @param {string} value
   */
  set(key, value) {
    const had = this.lines.find((each) => each.key === key && !each.isRemoved);
    if (had) had.value = value;
    else this.lines.push({ ...this.newLine(), key, value });
  }

  /**
   * Why the lines cannot be saved, as a sentence, or null.
   * @returns {string | null}
   */
  fault() {
    const nameless = this.typed().find(({ key, value, isRemoved }) => !key.trim() && value && !isRemoved);
    if (nameless) return `A tag needs a key: “${nameless.value}” has none.`;
    const mixed = this.typed().find(({ key, value, was, isMixed, isRemoved }) => (
      isMixed && !isRemoved && was && key.trim() !== was.key && value === ""
    ));
    if (mixed) return `“${mixed.was?.key}” has several values: give it one, to change its key.`;
    const keys = this.lines.filter(({ isRemoved }) => !isRemoved).map(({ key }) => key.trim()).filter(Boolean);
    const twice = keys.find((key, at) => keys.indexOf(key) !== at);
    if (twice === undefined) return null;
    return `“${twice}” is there twice. An element has each key once: change or remove one of the two.`;
  }

  /** What a retag has to say: the tags that differ, and null for those that go. */
  changes() {
    /** @type {Record<string, string | null>} */
    const changes = Object.create(null); // a key can be any text, such as `constructor`
    const typed = this.typed();
    for (const { key, was, isRemoved } of typed) {
      if (was && (isRemoved || key.trim() !== was.key)) changes[was.key] = null;
    }
    for (const { key, value, isRemoved } of typed) if (key.trim() && !isRemoved) changes[key.trim()] = value;
    return changes;
  }

  /**
   * What the retag of an element has to say: the changes that it does not have.
   * @param {MapElement} row
   */
  changesOf({ tags }) {
    /** @param {string} key */
    const before = (key) => (Object.hasOwn(tags, key) ? tags[key] : null);
    /** @param {[key: string, value: string | null]} tag */
    const isReal = ([key, value]) => value !== before(key) && (value !== "" || before(key) !== null);
    return Object.entries(this.changes()).filter(isReal);
  }
}

/**
 * The tags of some elements: null for a key of which the values differ, or that some of them do not have.
 * @param {MapElement[]} rows
 * @returns {Map<string, string | null>}
 */
function commonTags(rows) {
  /** @type {Map<string, string | null>} */
  const common = new Map();
  for (const key of rows.flatMap(({ tags }) => Object.keys(tags))) {
    const values = rows.map(({ tags }) => (Object.hasOwn(tags, key) ? tags[key] : null));
    common.set(key, values.every((value) => value === values[0]) ? values[0] : null);
  }
  return common;
}
