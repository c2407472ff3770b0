// The lists and fields next to the map. They show what others wrote as text, never as markup.
"use strict";

/**
 * A field of the form with its line of tags.
 * @typedef {(HTMLInputElement | HTMLTextAreaElement) & { tag?: TagLine }} TaggedField
 *
 * Where the focus is: the line of tags, the name or the index of the field there, and what is selected in it.
 * @typedef {{ tag?: TagLine, name?: string, at?: number, localName?: string, start?: number | null,
 *   end?: number | null }} Focus
 *
 * What Find looks through of an element: its tags, its name and its address in small letters, and what kind of place
 * it is.
 * @typedef {{ text: string, name: string, address: string, place: string | undefined }} SearchText
 */

const MOST_SHOWN = 50;
const LONGEST_PRESS = 3000; // milliseconds for which lists stay as they are while the pointer is down
const CHOOSE = "Choose something on the map, or from a list below.";
const CONNECT = "Connect to a room to see its map, and to draw on it.";

const TOWNS = ["city", "town", "village"];

/**
 * How early an element is found by a word: towns, then other places, then names and addresses, then other tags.
 * @param {string} word
 * @param {SearchText} text
 */
function rankOf(word, { name, address, place }) {
  if (!name.includes(word) && !address.includes(word)) return 5;
  if (place) return TOWNS.includes(place) ? 0 : 1;
  if (name === word || address === word) return 2;
  return name.startsWith(word) || address.startsWith(word) ? 3 : 4;
}

/**
 * The address in tags, as people write it in most countries: the street, and then the number.
 * @param {Tags} tags
 */
function addressOf(tags) {
  const number = tags["addr:housenumber"];
  const street = tags["addr:street"] ?? tags["addr:place"];
  return number && street ? `${street} ${number}` : "";
}

class Panels {
  /** @param {Page} page */
  constructor(page) {
    this.page = page;
    this.tags = new TagForm(page);
    /** @type {string | null} */
    this.formOf = null; // the names of what is shown
    this.isShowing = false;
    this.isListOpen = false;
    this.mostFound = MOST_SHOWN;
    this.mostRelations = FIRST;
    /** @type {string | null} */
    this.firstFound = null; // which Enter takes
    /** @type {Map<string, Sight>} */
    this.sights = new Map(); // what the mapper saw when they began to type in a field, by its name
    /** @type {Map<string, SearchText> | null} */
    this.texts = null; // what is looked through, by the names of the elements
    /** @type {{ of: string, name: string | null, text: string } | null} */
    this.fault = null; // what is wrong with a field of what is shown, or with its tags
    this.isPressed = false; // whether the pointer is down on a list or a field
    /** @type {number | undefined} */
    this.pressTimer = undefined;
    /** @type {Map<string, () => void>} */
    this.postponed = new Map(); // what is shown when it is up again, by the parts
  }

  // ---- Presses

  /** From now on everything stays where it is, since a button that moves or is made anew gets no click. */
  press() {
    this.isPressed = true;
    clearTimeout(this.pressTimer);
    this.pressTimer = setTimeout(() => this.release(), LONGEST_PRESS); // nobody may see where it comes up
  }

  /** The pointer is up: what came meanwhile is shown once the click is done. */
  release() {
    if (!this.isPressed) return;
    clearTimeout(this.pressTimer);
    this.isPressed = false;
    setTimeout(() => {
      const works = [...this.postponed.values()];
      this.postponed.clear();
      for (const work of works) work();
    });
  }

  /**
   * Shows a part of the panel, now or when the pointer is up.
   * @param {string} part
   * @param {() => void} work
   */
  put(part, work) {
    if (this.isPressed) this.postponed.set(part, work);
    else work();
  }

  showAll() {
    this.showSelected();
    this.showRelations();
    this.texts = null;
    this.showFound();
    this.page.journal.showAll();
    this.tags.showTyped();
    this.showFigures();
  }

  showFigures() {
    const { page } = this;
    const { session } = page;
    if (!session?.room) return $("figures").replaceChildren();
    const { ways, nodes } = page.view.drawn ?? { ways: 0, nodes: 0 };
    $("figures").textContent = `${session.elements.size.toLocaleString("en")} elements, entry ${session.room.seq}`;
    $("figures").title = `${ways} ways and ${nodes} nodes drawn in ${page.view.lastPaint.toFixed(0)} ms; the last news `
      + `took ${page.timings.news.toFixed(1)} ms`;
    return undefined;
  }

  // ---- What is selected

  /** @param {string} el */
  elementButton(el) {
    const row = this.page.elements.get(el);
    return button(row ? titleOf(row) : el, () => this.page.show(el), { className: "item" });
  }

  /** Shows what is selected. Fields in which somebody types keep their text and the focus, unless `isAnew`. */
  showSelected(isAnew = false) {
    this.put("selected", () => this.putSelected(isAnew));
  }

  /** @param {boolean} isAnew */
  putSelected(isAnew) {
    const { selected } = this.page;
    const rows = this.page.rowsOf(selected);
    const [row] = rows;
    const nothing = this.page.session?.room ? "Nothing selected" : "No map yet";
    const title = rows.length > 1 ? `${rows.length} selected` : row ? titleOf(row) : nothing;
    $("selected-title").textContent = $("chosen-title").textContent = title;
    $("chosen").hidden = rows.length === 0;
    const key = selected.join(" ");
    const box = $("selected");
    const focus = !isAnew && this.formOf === key ? this.focusIn(box) : null;
    const values = focus ? this.unsavedFields(box) : [];
    if (values.length === 0) this.sights.clear();
    this.formOf = key;
    this.isShowing = true;
    if (rows.length === 0) box.replaceChildren(soft("p", this.page.session?.room ? CHOOSE : CONNECT));
    else if (rows.length > 1) box.replaceChildren(...this.severalPart(rows));
    else box.replaceChildren(this.tags.part([row]), ...this.partsOf(row));
    if (focus) this.restoreFocus(box, focus, values);
    this.showFault();
    this.isShowing = false;
  }

  // ---- Faults

  /**
   * Says what is wrong with a field of what is selected, next to it, or with its tags if no field is named.
   * @param {string | null} name
   * @param {string} text
   */
  sayFault(name, text) {
    this.fault = { of: this.formOf ?? "", name, text };
    this.showFault();
    $("selected").querySelector(".fault")?.scrollIntoView({ block: "nearest" });
  }

  /** The fault stays until the mapper types again, or selects something else. */
  dropFault() {
    this.fault = null;
    this.showFault();
  }

  showFault() {
    const box = $("selected");
    box.querySelector(".fault")?.remove();
    box.querySelector("[aria-invalid]")?.removeAttribute("aria-invalid");
    if (this.fault?.of !== this.formOf) this.fault = null;
    if (!this.fault) return;
    const { name, text } = this.fault;
    const field = name === null ? null : box.querySelector(`[data-field="${CSS.escape(name)}"]`);
    field?.setAttribute("aria-invalid", "true");
    const place = field?.closest("label") ?? box.querySelector("form > .row");
    place?.before(make("p", { className: "fault", textContent: text, role: "alert" }));
  }

  /**
   * @param {MapElement} row
   * @returns {HTMLElement[]}
   */
  partsOf(row) {
    const own = row.nodes ? this.wayPart(row) : row.members ? this.relationPart(row) : this.nodePart(row);
    return [this.actionsPart([row]), ...own, ...this.usersPart(row)];
  }

  /**
   * What can have the focus: in a line of tags or, without one, elsewhere.
   * @param {HTMLElement} box
   * @param {TagLine | undefined} tag
   * @returns {TaggedField[]}
   */
  fieldsIn(box, tag) {
    /** @type {NodeListOf<TaggedField>} */
    const fields = box.querySelectorAll("input, textarea, select, button, summary");
    return [...fields].filter((each) => each.tag === tag);
  }

  /**
   * @param {HTMLElement} box
   * @returns {Focus}
   */
  focusIn(box) {
    const active = /** @type {TaggedField | null} */ (document.activeElement);
    if (!active || !box.contains(active)) return {};
    const { tag, localName, selectionStart: start, selectionEnd: end } = active;
    return { tag, name: active.dataset.field, at: this.fieldsIn(box, tag).indexOf(active), localName, start, end };
  }

  /**
   * What was typed into fields other than tags, and in place of what.
   * @param {HTMLElement} box
   * @returns {[name: string, value: string, before: string][]}
   */
  unsavedFields(box) {
    /** @type {NodeListOf<TaggedField>} */
    const fields = box.querySelectorAll("[data-field]");
    return [...fields].filter((each) => each.value !== each.defaultValue)
      .map((each) => [each.dataset.field ?? "", each.value, this.before(each)]);
  }

  /**
   * What a field had before somebody typed in it.
   * @param {HTMLInputElement | HTMLTextAreaElement} field
   */
  before(field) {
    return field.dataset.before ?? field.defaultValue;
  }

  /**
   * Puts back what was typed, and the focus. If its field is gone, the line for a new tag gets it, since keys would
   * otherwise do something to the map.
   * @param {HTMLElement} box
   * @param {Focus} focus
   * @param {[name: string, value: string, before: string][]} values
   */
  restoreFocus(box, { tag, name, at, localName, start, end }, values) {
    /**
     * @param {string} its
     * @returns {TaggedField | null}
     */
    const fieldOf = (its) => box.querySelector(`[data-field="${CSS.escape(its)}"]`);
    for (const [its, value, before] of values) {
      const field = fieldOf(its);
      if (!field) continue;
      Object.assign(field, { value }).dataset.before = before;
      this.markTheirs(field, its, before);
    }
    if (at === undefined) return;
    const same = name ? fieldOf(name) : this.fieldsIn(box, tag)[at];
    /** @type {TaggedField | null} */
    const field = same ?? box.querySelector(`.tag:last-child ${localName}`);
    field?.focus({ preventScroll: true });
    const isText = field instanceof HTMLInputElement || field instanceof HTMLTextAreaElement;
    if (isText && typeof start === "number") field.setSelectionRange(start, end ?? start);
  }

  /**
   * Marks a field in which the mapper types and whose value somebody else changed.
   * @param {TaggedField} field
   * @param {string} name
   * @param {string} before
   */
  markTheirs(field, name, before) {
    const { session, selected: [el] } = this.page;
    const sight = this.sights.get(name);
    if (!session || !sight || field.defaultValue === before) return;
    const changes = session.newsAfter(sight)?.filter(({ rows }) => rows.some((row) => row.el === el)) ?? [];
    if (changes.length === 0) return; // it was the mapper's own change
    field.classList.add("disputed");
    const text = `${changes.at(-1)?.by ?? "Somebody"} changed this to: ${field.defaultValue || "nothing"}`;
    field.closest("label, .member")?.append(make("p", { className: "theirs", textContent: text, role: "status" }));
  }

  /**
   * Gives a field its name, and notes what the mapper sees when they begin to type in it.
   * @template {HTMLInputElement | HTMLTextAreaElement} Field
   * @param {Field} field
   * @param {string} name
   */
  named(field, name) {
    field.dataset.field = name;
    field.oninput = () => {
      const { session } = this.page;
      if (session && !this.sights.has(name)) this.sights.set(name, session.sight());
    };
    return field;
  }

  /** @param {MapElement[]} rows */
  actionsPart(rows) {
    const { page } = this;
    const els = rows.map(({ el }) => el);
    const isUsed = els.some((el) => page.shapes.parentsOf(el).length > 0);
    const isMovable = els.some((el) => el[0] !== "r");
    const everywhere = button("Delete everywhere", () => page.deleteSelected(true), {
      title: "Also out of relations", sign: "remove",
    });
    const copy = button("Copy", () => page.copySelected(), {
      title: "To paste it elsewhere, or its tags (Ctrl+C)", sign: "copy",
    });
    const tags = Object.keys(page.copies.ownTags()).length > 0;
    const paste = button("Paste tags", () => page.pasteTags(), { title: "The tags that were copied (Ctrl+Shift+V)" });
    const move = button("Move", () => page.tools.use("move"), {
      title: "Drag it, or use the arrow keys (M)", sign: "move",
    });
    const turn = button("Rotate", () => page.tools.use("rotate"), {
      title: "Drag it, or use the arrow keys (R)", sign: "turn",
    });
    const isTurnable = isMovable && page.nodesOf(els.filter((el) => el[0] !== "r")).size > 1;
    return line(
      button("Delete", () => page.deleteSelected(), {
        title: "Also nodes that nothing else needs (Delete)", sign: "remove",
      }),
      ...(isUsed ? [everywhere] : []),
      ...(isMovable ? [move, copy] : []),
      ...(isTurnable ? [turn] : []),
      ...(tags ? [paste] : []),
      button("New relation", () => page.makeRelation(els), {
        title: "A relation with this as its member", sign: "relation",
      }),
    );
  }

  /**
   * Several elements: what can be done to all of them.
   * @param {MapElement[]} rows
   */
  severalPart(rows) {
    const { page } = this;
    const ways = rows.flatMap((row) => (row.nodes ? [row] : []));
    const nodes = rows.flatMap((row) => (row.lat !== undefined ? [row] : []));
    const buttons = [];
    if (rows.length === 2 && ways.length === 2) {
      buttons.push(button("Join", () => page.join(ways[0].el, ways[1].el), { title: "Make one way of the two" }));
    }
    if (rows.length === 2 && nodes.length === 2) {
      const [one, other] = nodes.map(({ el }) => el);
      buttons.push(button("Merge", () => page.merge(one, other)));
    }
    if (ways.length === 1 && nodes.length === 1) buttons.push(...this.splitButtons(nodes[0], ways));
    if (nodes.length === 2 && ways.length < 2) buttons.push(...this.closedSplitButtons(nodes, ways));
    if (ways.length > 1) buttons.push(button("Square", () => page.shape("square"), { title: "Make all square (Q)" }));
    const items = rows.slice(0, 100).map(({ el }) => make("li", {}, this.elementButton(el)));
    return [
      make("ul", { className: "list" }, ...items), this.tags.part(rows), this.actionsPart(rows), line(...buttons),
    ];
  }

  /** @param {MapElement} row */
  usersPart(row) {
    const { page } = this;
    const users = [...(row.lat !== undefined ? page.shapes.usersOf(row.el) : []), ...page.shapes.parentsOf(row.el)];
    const items = users.slice(0, 20).map((el) => make("li", {}, this.elementButton(el)));
    return users.length ? [soft("p", "Used by"), make("ul", { className: "list" }, ...items)] : [];
  }

  /**
   * @param {string} label
   * @param {string} value
   * @param {Partial<HTMLInputElement>} [properties]
   * @returns {[HTMLInputElement, HTMLLabelElement]}
   */
  field(label, value, properties = {}) {
    const input = this.named(make("input", { defaultValue: value, size: 13, ...properties }), label);
    return [input, make("label", {}, label, input)];
  }

  /** @param {MapNode} row */
  nodePart(row) {
    const { page } = this;
    const [lat, latLabel] = this.field("Latitude", row.lat, { inputMode: "decimal" });
    const [lon, lonLabel] = this.field("Longitude", row.lon, { inputMode: "decimal" });
    const ways = page.rowsOf(page.shapes.usersOf(row.el)).flatMap((way) => (way.nodes ? [way] : []));
    const move = () => {
      const sight = this.sights.get("Latitude") ?? this.sights.get("Longitude");
      const seen = [{ ...row, lat: this.before(lat), lon: this.before(lon) }];
      page.moveTo(row, lat.value, lon.value, { sight, seen });
    };
    return [
      line(latLabel, lonLabel, button("Move to", move)),
      line(...this.splitButtons(row, ways), ...this.unglueButtons(row, ways), ...this.mergeButtons(row)),
    ];
  }

  /**
   * @param {MapElement} row
   * @param {MapWay[]} ways
   */
  splitButtons(row, ways) {
    const id = idOf(row.el);
    const inner = ways.filter((way) => !isClosedWay(way) && way.nodes.slice(1, -1).includes(id));
    return inner.map(({ el }) => button(`Split ${el} here`, () => this.page.split(el, [row.el])));
  }

  /**
   * Two nodes split a closed way that has both, and is selected, or no other way is.
   * @param {MapNode[]} nodes
   * @param {MapWay[]} selected
   */
  closedSplitButtons(nodes, selected) {
    const { page } = this;
    const names = nodes.map(({ el }) => el);
    const ways = selected.length ? selected : page.rowsOf(page.shapes.usersOf(names[0]));
    const closed = ways.filter((way) => way.nodes && isClosedWay(way)
      && names.every((el) => page.shapes.usersOf(el).includes(way.el)));
    return closed.map(({ el }) => button(`Split ${el} at both`, () => page.split(el, names)));
  }

  /**
   * Where ways are held by a node that is used elsewhere too.
   * @param {MapElement} row
   * @param {MapWay[]} ways
   */
  unglueButtons(row, ways) {
    const id = idOf(row.el);
    const places = ways.flatMap(({ el, nodes }) => nodes.flatMap((node, at) => (node === id ? { el, at } : [])));
    const isShared = places.length > 1 || this.page.shapes.parentsOf(row.el).length > 0;
    /** @param {string} way */
    const areMany = (way) => places.filter(({ el }) => el === way).length > 1;
    const title = "The way gets a node of its own here, so that each can be moved alone";
    /**
     * @param {string} el
     * @param {number} at
     */
    const text = (el, at) => `Unglue ${el}${areMany(el) ? ` at ${at}` : ""}`;
    return (isShared ? places : []).slice(0, 20)
      .map(({ el, at }) => button(text(el, at), () => this.page.unglue(row.el, el, at), { title }));
  }

  /**
   * Nodes so near that they may be meant to be the same.
   * @param {MapElement} row
   */
  mergeButtons(row) {
    const { page } = this;
    const at = page.shapes.positionOf(row.el);
    if (!at) return [];
    const near = page.shapes.nodesAt(at, 15 / page.view.scale).filter(({ el }) => el !== row.el).slice(0, 2);
    return near.map(({ el }) => button(`Merge with ${el}`, () => page.merge(row.el, el)));
  }

  /** @param {MapWay} row */
  wayPart(row) {
    const { page } = this;
    const { nodes } = row;
    if (!areSafe(nodes)) return [soft("p", REFUSALS.unsafe({}))];
    const isClosed = nodes[0] === lastOf(nodes);
    const buttons = [button("Reverse", () => page.reverse(row.el), { title: "Also what depends on its direction" })];
    if (!isClosed) {
      buttons.push(button("Continue", () => page.tools.goOn(row.el, false), { title: "Draw on from its last node" }),
        button("Continue at the start", () => page.tools.goOn(row.el, true), { title: "Draw on from its first node" }));
      const next = [nodes[0], lastOf(nodes)].flatMap((id) => (
        page.shapes.usersOf(id).filter((el) => Edits.endsAt(el, id, page.elements))
      ));
      const joined = [...new Set(next)].filter((el) => el !== row.el);
      buttons.push(...joined.slice(0, 4).map((el) => button(`Join ${el}`, () => page.join(row.el, el))));
    }
    const list = this.named(make("textarea", { defaultValue: nodes.join(" "), rows: 2 }), "Nodes");
    const save = button("Save nodes", () => page.saveNodes(row.el, list.value, this.before(list)));
    const details = make("details", {}, make("summary", { textContent: counted(nodes.length, "node") }),
      make("label", {}, "Their numbers in order", list), save);
    details.open = this.isListOpen;
    details.ontoggle = () => (this.isListOpen = details.open);
    const shapes = isClosed ? [button("Circle", () => page.shape("circle"), { title: "Put its nodes on a circle (O)" })]
      : [button("Straighten", () => page.shape("straighten"), { title: "Put its nodes on a straight line (S)" })];
    const square = button("Square", () => page.shape("square"), { title: "Make its corners square (Q)" });
    const hint = isClosed ? [soft("p", "To split it, select two of its nodes.")] : [];
    return [line(...buttons, square, ...shapes), ...hint, details];
  }

  /** @param {MapRelation} row */
  relationPart(row) {
    const { page } = this;
    /** @type {Map<string, number>} */
    const times = new Map(); // how often each member is there
    const members = row.members.slice(0, 300).map(([el, role], at) => {
      times.set(el, (times.get(el) ?? 0) + 1);
      return this.memberLine(row, el, role, at, times.get(el));
    });
    const pick = button("Pick members on the map", () => page.tools.use("members", { relation: row.el }));
    const list = make("div", { className: "list" }, ...members);
    return [soft("p", counted(row.members.length, "member")), list, line(pick)];
  }

  /**
   * @param {MapRelation} row
   * @param {string} el
   * @param {string} role
   * @param {number} at
   * @param {number | undefined} time
   */
  memberLine(row, el, role, at, time) {
    const { page } = this;
    const key = `role ${el} ${time}`;
    const isOnce = row.members.filter(([name]) => name === el).length === 1;
    /**
     * @param {string} what
     * @param {Member[]} changed
     * @param {Grounds} [grounds]
     */
    const change = (what, changed, grounds) => page.perform(`${what} in ${titleOf(row)}`, () => {
      const { members } = relationOf(row.el, page.elements);
      const place = placeIn(members.map(([name]) => name), el, at);
      const others = [...members.slice(0, place), ...changed, ...members.slice(place + 1)];
      return [{ do: "members", el: row.el, members: others }];
    }, undefined, undefined, grounds);
    const about = { label: `Role of ${el}`, placeholder: "role", maxLength: 255 };
    const field = this.named(make("input", { defaultValue: role, ...about }), key);
    let saved = role;
    const save = () => {
      if (this.isShowing || field.value === saved) return;
      const claims = isOnce ? [Claims.role(row.el, el, this.before(field), field.value, () => page.elements)] : [];
      saved = field.value;
      change("set a role", [[el, saved]], { sight: this.sights.get(key), claims });
    };
    // A field in which the text was put back does not change when it loses the focus.
    field.onchange = field.onblur = save;
    const remove = button("×", () => change(`removed ${el}`, []), { label: `Remove ${el}` });
    return make("div", { className: "member" }, this.elementButton(el), field, remove);
  }

  // ---- Lists

  showRelations() {
    this.put("relations", () => this.putRelations());
  }

  putRelations() {
    const { page } = this;
    const names = [...page.shapes.relations].sort((one, other) => idOf(one) - idOf(other));
    const rest = names.length - this.mostRelations;
    const more = button(`Show ${Math.min(rest, 200)} more`, () => {
      this.mostRelations += 200;
      this.putRelations();
    });
    const items = names.slice(0, this.mostRelations).map((el) => make("li", {}, this.elementButton(el)));
    $("relations").replaceChildren(...items, ...(rest > 0 ? [make("li", {}, more)] : []),
      ...(names.length ? [] : [soft("li", "None.")]));
  }

  /** Lists the changes that were not done, those together that have the same reason. */
  showNotDone() {
    const { page } = this;
    /** @type {Lists<string, string>} */
    const byReason = new Lists();
    for (const { reason, text } of page.notDone) byReason.add(reason, text);
    const parts = [...byReason].flatMap(([reason, texts]) => [
      make("p", { textContent: reason }),
      make("ul", {}, ...texts.map((text) => make("li", { textContent: text }))),
    ]);
    $("not-done").hidden = page.notDone.length === 0;
    $("not-done-title").textContent = page.countNotDone();
    $("not-done-changes").replaceChildren(...parts);
  }

  // ---- Find

  /** The texts that are looked through, by name: made once, and then as news come. */
  searchTexts() {
    if (this.texts) return this.texts;
    /** @type {Map<string, SearchText>} */
    const texts = new Map();
    this.texts = texts;
    for (const row of this.page.elements.values()) this.learnText(row.el, row);
    return texts;
  }

  /**
   * @param {string} el
   * @param {MapElement | null} row
   */
  learnText(el, row) {
    if (!this.texts) return;
    this.texts.delete(el);
    let text = "";
    if (row) for (const key in row.tags) text += `\n${key}=${row.tags[key]}`;
    if (!row || !text) return;
    const { name = "", place } = row.tags;
    const address = addressOf(row.tags);
    if (address) text += `\n${address}`;
    const [whole, small, smallAddress] = [text, name, address].map((each) => each.toLowerCase());
    this.texts.set(el, { text: whole, name: small, address: smallAddress, place });
  }

  /**
   * The names of what fits, towns first, then other names, then other tags.
   * @param {string} word
   */
  foundFor(word) {
    const { elements } = this.page;
    /** @type {string[][]} */
    const groups = Array.from({ length: 6 }, () => []);
    for (const [el, text] of this.searchTexts()) if (text.text.includes(word)) groups[rankOf(word, text)].push(el);
    /** @param {string} el */
    const size = (el) => TOWNS.indexOf(elements.get(el)?.tags.place ?? "");
    groups[0].sort((one, other) => size(one) - size(other));
    return [...(elements.has(word) ? [word] : []), ...groups.flat()];
  }

  showFound() {
    const began = performance.now();
    const word = $("find").value.trim().toLowerCase();
    const found = word && this.page.session?.room ? this.foundFor(word) : [];
    const shown = found.slice(0, this.mostFound);
    this.firstFound = found[0] ?? null;
    $("found").replaceChildren(...shown.map((el) => make("li", {}, this.elementButton(el))));
    const rest = found.length - shown.length;
    const count = rest ? `${shown.length} of ${found.length} found` : `${found.length} found`;
    $("found-count").textContent = word ? count : "";
    if (rest) $("found").append(make("li", {}, button(`Show ${Math.min(rest, 200)} more`, () => this.showMoreFound())));
    this.page.timings.find = performance.now() - began;
  }

  /** Searches again after news, unless somebody uses the list at the moment. */
  refreshFound() {
    if (!$("find").value.trim() || $("found").contains(document.activeElement)) return;
    this.put("found", () => this.showFound());
  }

  showMoreFound() {
    this.mostFound += 200;
    this.showFound();
  }
}
