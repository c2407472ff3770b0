// Elements of the document: finding them, and making them.
"use strict";

/**
 * The elements of map.html by their ids.
 * @typedef {Record<"address" | "room" | "name" | "joining" | "find" | "file", HTMLInputElement>
 *   & Record<"tiles-url" | "tiles-credit" | "tiles-fade", HTMLInputElement>
 *   & Record<"preset" | "tiles-choice" | "areas-shown", HTMLSelectElement>
 *   & Record<"hello" | "tiles", HTMLFormElement>
 *   & Record<ButtonId, HTMLButtonElement>
 *   & Record<"here" | "who" | "state" | "saved" | "place" | "frame" | "map" | "map-keys" | "above", HTMLElement>
 *   & Record<"drawing" | "message" | "said" | "chosen" | "chosen-title" | "under" | "where" | "menu", HTMLElement>
 *   & Record<"question" | "question-title" | "question-values", HTMLElement>
 *   & Record<"not-done" | "not-done-title" | "not-done-changes" | "news" | "side" | "grip", HTMLElement>
 *   & Record<"selected" | "selected-title" | "unsaved-tags" | "unsaved-title" | "typed", HTMLElement>
 *   & Record<"find-title" | "found-count" | "found" | "undos-title" | "undos", HTMLElement>
 *   & Record<"changes-title" | "changes" | "people-title" | "people" | "figures" | "keys" | "values", HTMLElement>
 *   & Record<"warnings-title" | "warnings-count" | "warnings", HTMLElement>
 *   & Record<"relations-title" | "relations" | "tiles-title" | "tiles-own" | "tiles-more", HTMLElement>
 *   & Record<"tiles-offset" | "shortcuts" | "shortcuts-title" | "shortcuts-list", HTMLElement>
 *   & Record<"files-title" | "files" | "photo" | "photo-title", HTMLElement>
 *   & Record<"photo-canvas", HTMLCanvasElement>} PageElements
 *
 * @typedef {"connect" | "share" | "leave" | ToolId | "undo" | "redo" | "closer" | "farther" | "fit" | "sheet"
 *   | "tools" | "finish" | "back" | "cancel" | "show" | "undo-possible" | "hush" | "close-not-done" | "open-sheet"
 *   | "close-sheet" | "check-map" | "tiles-west" | "tiles-north" | "tiles-south" | "tiles-east" | "tiles-home"
 *   | "locate" | "help" | "close-shortcuts" | "open-files" | "close-photo"
 * } ButtonId
 *
 * @typedef {"select" | "point" | "line" | "area"} ToolId
 */

/**
 * The element of map.html with an id.
 * @template {keyof PageElements} Id
 * @param {Id} id
 */
const $ = (id) => /** @type {PageElements[Id]} */(document.getElementById(id));

/**
 * Makes an element with some properties and children. ARIA's attributes are no properties in all browsers.
 * @template {keyof HTMLElementTagNameMap} Tag
 * @param {Tag} tag
 * @param {Properties<Tag>} properties
 * @param {...(Node | string)} children
 * @returns {HTMLElementTagNameMap[Tag]}
 */
function make(tag, { label, role, ...properties } = {}, ...children) {
  const made = Object.assign(document.createElement(tag), properties);
  if (label) made.setAttribute("aria-label", label);
  if (role) made.setAttribute("role", role);
  made.append(...children);
  return made;
}

/**
 * What an element is made with: properties, what a screen reader says (`label`), its role, and its line of tags.
 * @template {keyof HTMLElementTagNameMap} Tag
 * @typedef {Partial<Omit<HTMLElementTagNameMap[Tag], "ariaLabel" | "role">>
 *   & { label?: string, role?: string, tag?: TagLine }} Properties
 */

/**
 * Whether an event is of an element that a selector finds, or of an element in it.
 * @param {Event} event
 * @param {string} selector
 */
const isIn = ({ target }, selector) => target instanceof Element && target.closest(selector) !== null;

/**
 * A button, perhaps with a sign in front of its text.
 * @param {string} text
 * @param {() => void} onclick
 * @param {Properties<"button"> & { sign?: SignName }} about
 */
function button(text, onclick, { sign, ...properties } = {}) {
  const made = make("button", { type: "button", textContent: text, onclick, ...properties });
  if (!sign) return made;
  made.classList.add("signed");
  made.prepend(signOf(sign));
  return made;
}

/**
 * Says next to a field what is wrong with it, until somebody types there.
 * @param {HTMLInputElement} field
 * @param {string} text
 */
function sayFaultAt(field, text) {
  const said = make("p", { className: "fault", textContent: text, role: "alert" });
  const drop = () => {
    said.remove();
    field.removeAttribute("aria-invalid");
  };
  if (field.hasAttribute("aria-invalid")) field.closest("label")?.nextElementSibling?.remove();
  field.setAttribute("aria-invalid", "true");
  field.closest("label")?.after(said);
  field.addEventListener("input", drop, { once: true });
  field.focus();
}

/**
 * @param {"p" | "li" | "time"} tag
 * @param {string} text
 */
const soft = (tag, text) => make(tag, { className: "soft", textContent: text });

/** @param {...(Node | string)} children */
const line = (...children) => make("div", { className: "row" }, ...children);

/** @param {Date} date */
const timeOf = (date) => soft("time", date.toTimeString().slice(0, 5));

/**
 * A dot in the colour of an author.
 * @param {string} author
 */
function dotOf(author) {
  const dot = make("span", { className: "dot" });
  dot.style.background = colourOf(author);
  return dot;
}
