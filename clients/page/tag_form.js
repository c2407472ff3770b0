// The form of the tags of what is selected: lines of keys and values, a search over presets, and what is not saved.
"use strict";

/** The tags of one element or of several. What is typed stays when something else is selected, until it is saved. */
class TagForm {
  /** @param {Page} page */
  constructor(page) {
    this.page = page;
    /** @type {Map<string, TagDraft>} */
    this.typed = new Map(); // by their keys
  }

  /** @param {MapElement[]} rows */
  draftOf(rows) {
    const fresh = new TagDraft(rows);
    const draft = this.typed.get(fresh.key) ?? fresh;
    draft.take(rows);
    this.typed.set(draft.key, draft);
    return draft;
  }

  /**
   * The form for the tags of elements.
   * @param {MapElement[]} rows
   */
  part(rows) {
    const draft = this.draftOf(rows);
    const lines = make("div", { className: "list" }, ...draft.lines.map((each) => this.lineOf(draft, each)));
    /** @param {Event} event */
    const submit = (event) => {
      event.preventDefault();
      this.save(draft);
    };
    const kinds = [...new Set(rows.map(presetKinds))];
    const search = kinds.length === 1 ? [presetSearch(kinds[0], (preset) => this.usePreset(draft, preset))] : [];
    const discard = button("Discard", () => this.discard(draft), { hidden: draft.typed().length === 0 });
    return make("form", { onsubmit: submit, label: "Tags" }, lines, ...search,
      line(make("button", { className: "main signed" }, signOf("save"), "Save tags"), discard));
  }

  /**
   * @param {TagDraft} draft
   * @param {TagLine} each
   */
  lineOf(draft, each) {
    /**
     * @param {string} about
     * @param {string} value
     * @param {"keys" | "values"} list
     * @param {(text: string) => void} set
     */
    const field = (about, value, list, set) => {
      const usual = list === "keys" ? "key" : each.isMixed ? "several values" : "value";
      const input = make("input", {
        tag: each, value, label: about, placeholder: usual, maxLength: 255, autocomplete: "off",
        autocapitalize: "off", spellcheck: false,
      });
      input.oninput = () => {
        set(input.value);
        this.mark(made, draft, each);
        this.addLine(made, draft, each);
      };
      input.onfocus = () => this.complete(input, list, each);
      return input;
    };
    const key = field("Key", each.key, "keys", (text) => (each.key = text));
    const value = field(`Value of ${each.key || "the new key"}`, each.value, "values", (text) => (each.value = text));
    const remove = button("×", () => {
      each.isRemoved = !each.isRemoved;
      if (!each.was) draft.lines = draft.lines.filter((other) => other !== each);
      this.show();
    }, { tag: each, label: `${each.isRemoved ? "Keep" : "Remove"} ${each.key || "this tag"}` });
    const made = make("div", { className: "tag" }, key, value, remove);
    this.mark(made, draft, each);
    return made;
  }

  /**
   * @param {HTMLElement} made
   * @param {TagDraft} draft
   * @param {TagLine} each
   */
  mark(made, draft, each) {
    const { page } = this;
    if (page.session) draft.look(each, page.session.sight(), page.rowsOf(draft.els));
    made.classList.toggle("typed", draft.isTyped(each));
    made.classList.toggle("removed", each.isRemoved);
    this.markTheirs(made, draft, each);
    this.showTyped();
  }

  /**
   * Marks a line in which the mapper types and that somebody else changed.
   * @param {HTMLElement} made
   * @param {TagDraft} draft
   * @param {TagLine} each
   */
  markTheirs(made, draft, each) {
    const { session } = this.page;
    made.querySelector(".theirs")?.remove();
    if (!session || !each.sight) return;
    const keys = [each.was?.key, each.key.trim()];
    const claims = this.claimsOf(draft).filter(({ key }) => keys.includes(key));
    const [dispute] = session.disputes(claims, each.sight);
    made.classList.toggle("disputed", Boolean(dispute));
    if (!dispute) return;
    const text = `${dispute.by ?? "Somebody"} changed this to: ${dispute.theirs}`;
    made.append(make("p", { className: "theirs", textContent: text, role: "status" }));
  }

  /** @param {TagDraft} draft */
  claimsOf(draft) {
    const { page } = this;
    /** @type {(el: string, key: string) => string | null} */
    const seen = (el, key) => draft.seenValue(el, key);
    return Claims.tags(this.retags([draft]), seen, () => page.elements);
  }

  /**
   * The actions that save drafts.
   * @param {TagDraft[]} drafts
   */
  retags(drafts) {
    return this.changesOf(drafts).map(({ row: { el }, changes }) => (
      { do: "retag", el, tags: Object.fromEntries(changes) }
    ));
  }

  /**
   * Adds an empty line when the last one has a key and a value.
   * @param {HTMLElement} made
   * @param {TagDraft} draft
   * @param {TagLine} each
   */
  addLine(made, draft, each) {
    if (each !== lastOf(draft.lines) || !each.key || !each.value) return;
    const empty = draft.newLine();
    draft.lines.push(empty);
    made.after(this.lineOf(draft, empty));
  }

  /**
   * Offers keys and values that the map has, and usual ones.
   * @param {HTMLInputElement} field
   * @param {"keys" | "values"} list
   * @param {{ key: string }} about
   */
  complete(field, list, { key }) {
    /** @type {Map<string, number>} */
    const counts = new Map();
    for (const text of list === "keys" ? Object.keys(USUAL_VALUES) : usualValues(key)) counts.set(text, 0);
    for (const { tags } of this.page.elements.values()) {
      if (list === "values") {
        if (Object.hasOwn(tags, key) && tags[key]) counts.set(tags[key], (counts.get(tags[key]) ?? 0) + 1);
      } else {
        for (const each in tags) counts.set(each, (counts.get(each) ?? 0) + 1);
      }
    }
    const best = [...counts].sort((one, other) => other[1] - one[1]).slice(0, 100);
    $(list).replaceChildren(...best.map(([text]) => new Option(text, text)));
    field.setAttribute("list", list);
  }

  /**
   * Fills in the tags of a usual thing, and empty lines for what it asks. The first of these gets the focus.
   * @param {TagDraft} draft
   * @param {Preset} preset
   */
  usePreset(draft, preset) {
    for (const [key, value] of Object.entries(preset.tags)) draft.set(key, value);
    for (const key of preset.asks) if (!draft.lines.some((each) => each.key === key)) draft.set(key, "");
    this.show();
    const [asked] = preset.asks;
    const at = draft.lines.findIndex(({ key }) => key === asked);
    const lines = $("selected").querySelectorAll(".tag");
    const field = (at < 0 ? lastOf([...lines]) : lines[at]).querySelectorAll("input")[at < 0 ? 0 : 1];
    field.focus();
    field.select();
  }

  show() {
    this.page.panels.showSelected();
    this.showTyped();
  }

  // ---- Saving

  /**
   * What the retags of drafts are about: their elements that are there, each with what changes.
   * @param {TagDraft[]} drafts
   */
  changesOf(drafts) {
    return drafts.flatMap((draft) => this.page.rowsOf(draft.els).flatMap((row) => {
      const changes = draft.changesOf(row);
      return changes.length ? [{ row, changes }] : [];
    }));
  }

  /**
   * Saves what was typed in some drafts, as one entry.
   * @param {...TagDraft} drafts
   */
  save(...drafts) {
    const { page } = this;
    for (const draft of drafts) {
      const fault = draft.fault();
      if (!fault) continue;
      page.sayFault(draft.key, null, fault);
      return;
    }
    const changed = this.changesOf(drafts);
    if (changed.length === 0) {
      page.say("There is no tag to save.");
      return;
    }
    const words = [...new Set(changed.flatMap(({ changes }) => changes.map((tag) => tagText(...tag))))];
    const text = `tagged ${page.titles(changed.map(({ row }) => row.el))} with ${words.slice(0, 2).join(", ")}`;
    const actions = this.retags(drafts);
    const claims = drafts.flatMap((draft) => this.claimsOf(draft));
    const sights = drafts.flatMap((draft) => draft.sight() ?? []);
    const [sight] = sights.sort((one, other) => one.mark - other.mark);
    /** @type {[draft: TagDraft, sent: [each: TagLine, sent: TagLine][]][]} */
    const sent = drafts.map((draft) => [draft, draft.typed().map((each) => [each, { ...each }])]);
    const settle = () => {
      for (const [draft, lines] of sent) draft.settle(lines);
      this.show(); // lines whose values the mapper left to others follow the map
    };
    /** @param {Failure} error */
    const failed = ({ why }) => {
      if (why === "left") settle();
      return drafts.every((draft) => this.unsaved().includes(draft));
    };
    page.perform(text, () => Claims.withoutLeft(actions, claims), settle, failed, { sight, claims });
  }

  /** @param {TagDraft} draft */
  discard(draft) {
    this.typed.delete(draft.key);
    this.show();
  }

  /** What was typed and not saved, of elements that are there. */
  unsaved() {
    /** @param {TagDraft} draft */
    const isThere = ({ els }) => els.some((el) => this.page.elements.has(el));
    return [...this.typed.values()].filter((draft) => draft.typed().length > 0 && isThere(draft));
  }

  /** Lists what is not saved of elements that are not selected. */
  showTyped() {
    const { page } = this;
    const shown = page.selected.join(" ");
    const drafts = this.unsaved();
    const hidden = drafts.filter(({ key }) => key !== shown);
    for (const [key, draft] of this.typed) if (draft.typed().length === 0 && key !== shown) this.typed.delete(key);
    /** @type {HTMLButtonElement | null} */
    const discard = $("selected").querySelector("form > .row > button:last-child");
    if (discard) discard.hidden = drafts.length === hidden.length;
    const all = button("Save all", () => this.save(...this.unsaved()), { title: "All typed tags, as one change" });
    page.panels.put("typed", () => {
      $("unsaved-tags").hidden = hidden.length === 0;
      $("typed").replaceChildren(...hidden.map((draft) => this.unsavedItem(draft)),
        ...(drafts.length > 1 ? [make("li", {}, all)] : []));
    });
    page.showSaved();
  }

  /** @param {TagDraft} draft */
  unsavedItem(draft) {
    const { page } = this;
    const { els } = draft;
    const what = els.length === 1 ? els[0] : counted(els.length, "element");
    const show = els.length === 1 ? page.panels.elementButton(els[0])
      : button(what, () => page.select(...els), { className: "item" });
    return make("li", {}, show, button("Save", () => this.save(draft), { label: `Save the tags of ${what}` }),
      button("Discard", () => this.discard(draft), { label: `Discard the tags of ${what}` }));
  }
}

/**
 * The usual values of a key.
 * @param {string} key
 */
const usualValues = (key) => (Object.hasOwn(USUAL_VALUES, key) ? USUAL_VALUES[key].split(" ") : []);
