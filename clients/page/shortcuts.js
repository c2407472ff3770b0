// The list of keys, which the key `?` shows.
"use strict";

/** @type {[title: string, keys: [keys: string, what: string][]][]} */
const SHORTCUTS = [
  ["Tools", [
    ["V or Esc", "select"], ["P", "point"], ["L", "line"], ["A", "area"], ["M", "move what is selected"],
    ["R", "rotate it"], ["?", "this list"],
  ]],
  ["Drawing", [
    ["Enter", "finish"], ["Backspace", "remove the last point"], ["Esc", "give up"], ["Alt", "do not join"],
  ]],
  ["What is selected", [
    ["Delete", "delete it"], ["Q", "make it square"], ["O", "make it round"], ["S", "make it straight"],
    ["Ctrl+C", "copy it"], ["Ctrl+V", "paste at the pointer"], ["Ctrl+Shift+V", "paste the tags"],
    ["Shift+click", "select one more"], ["Shift+drag", "select what is in a box"], ["Alt+click", "the next one there"],
  ]],
  ["Your changes", [["Ctrl+Z", "undo"], ["Ctrl+Y", "redo"]]],
  ["Map", [["Arrows", "move"], ["+ and −", "zoom"], ["0", "show all"], ["F", "find"]]],
];

/** Shows or hides the list of keys. Whoever had the focus gets it back. */
const Shortcuts = {
  /** @type {Element | null} */
  before: null,

  toggle() {
    if ($("shortcuts").hidden) this.show();
    else this.close();
  },

  show() {
    this.before = document.activeElement;
    const groups = SHORTCUTS.map(([title, keys]) => make("section", {}, make("h3", { textContent: title }),
      make("dl", {}, ...keys.map(([key, what]) => make("div", {}, make("dt", {}, make("kbd", { textContent: key })),
        make("dd", { textContent: what }))))));
    $("shortcuts-list").replaceChildren(...groups);
    $("shortcuts").hidden = false;
    $("close-shortcuts").focus();
  },

  close() {
    $("shortcuts").hidden = true;
    if (this.before instanceof HTMLElement) this.before.focus();
  },
};
