// What the browser keeps for the page.
"use strict";

// The browser may refuse to keep something, and then the page works without it.
const memory = {
  /**
   * What was kept under a key.
   * @param {string} key
   * @returns {Partial<Record<"url" | "room" | "name" | "credit", string>>}
   */
  get(key) {
    try {
      return JSON.parse(localStorage.getItem(key) ?? "null") ?? {};
    } catch {
      return {};
    }
  },
  /**
   * @param {string} key
   * @param {unknown} value
   */
  set(key, value) {
    try {
      localStorage.setItem(key, JSON.stringify(value));
    } catch {
      // Nothing is kept.
    }
  },
  /** @param {string} key */
  drop(key) {
    try {
      localStorage.removeItem(key);
    } catch {
      // Nothing was kept.
    }
  },
};
