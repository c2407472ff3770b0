// A search over presets by their labels, words and tags, by pointer or by keys alone.
"use strict";

const MOST_PRESETS = 8; // that are listed

/**
 * The letters of PRESETS that an element has.
 * @param {MapElement} row
 */
const presetKinds = (row) => (row.nodes ? (isClosedWay(row) ? "aw" : "w") : row.el[0]);

/**
 * The presets for some kinds of elements.
 * @param {string} kinds
 */
const presetsFor = (kinds) => PRESETS.filter(({ on }) => [...kinds].some((kind) => on.includes(kind)));

/**
 * How early a preset is found by a word, or Infinity if it is not.
 * @param {Preset} preset
 * @param {string} word
 */
function presetRank({ label, tags, words = "" }, word) {
  const name = label.toLowerCase();
  if (name.startsWith(word)) return 0;
  if (name.includes(` ${word}`)) return 1;
  if (` ${words}`.includes(` ${word}`)) return 2;
  if (name.includes(word)) return 3;
  return Object.entries(tags).some((tag) => tag.join("=").includes(word)) ? 4 : Infinity;
}

/**
 * The presets that a text finds, the best first.
 * @param {string} text
 * @param {string} kinds
 */
function findPresets(text, kinds) {
  const word = text.trim().toLowerCase();
  if (!word) return [];
  const ranked = presetsFor(kinds).map((preset) => ({ preset, rank: presetRank(preset, word) }));
  return ranked.filter(({ rank }) => rank < Infinity).sort((one, other) => one.rank - other.rank)
    .slice(0, MOST_PRESETS).map(({ preset }) => preset);
}

/**
 * A field with the list of what it finds. Arrow keys choose in the list, and Enter takes what is chosen.
 * @param {string} kinds
 * @param {(preset: Preset) => void} take
 */
function presetSearch(kinds, take) {
  const field = make("input", {
    type: "search", label: "What it is", placeholder: "what it is, such as bakery", role: "combobox",
    autocomplete: "off",
  });
  field.dataset.field = "Preset";
  const list = make("ul", { className: "list", role: "listbox", label: "Presets", id: "presets", hidden: true });
  /** @type {Preset[]} */
  let found = [];
  let chosen = 0;
  const show = () => {
    const items = found.map((preset, at) => {
      const tags = Object.entries(preset.tags).map(([key, value]) => tagText(key, value)).join(", ");
      const about = { role: "option", id: `preset-${at}`, className: "option" };
      const item = make("li", about, preset.label, soft("p", tags));
      item.setAttribute("aria-selected", String(at === chosen));
      item.onpointerdown = (event) => event.preventDefault(); // the field keeps the focus
      item.onclick = () => take(preset);
      return item;
    });
    list.replaceChildren(...items);
    list.hidden = found.length === 0;
    field.setAttribute("aria-expanded", String(found.length > 0));
    field.setAttribute("aria-activedescendant", found.length ? `preset-${chosen}` : "");
  };
  field.setAttribute("aria-controls", "presets");
  field.oninput = () => {
    [found, chosen] = [findPresets(field.value, kinds), 0];
    show();
  };
  field.onblur = () => {
    found = [];
    show();
  };
  field.onkeydown = (event) => {
    const step = { ArrowDown: 1, ArrowUp: found.length - 1 }[event.key];
    if (step !== undefined && found.length) chosen = (chosen + step) % found.length;
    else if (event.key === "Enter" && found.length) take(found[chosen]);
    else if (event.key !== "Enter") return;
    event.preventDefault();
    if (step !== undefined) show();
  };
  return make("div", { className: "presets" }, field, list);
}
