// Loads Leaflet.
"use strict";

// Where Leaflet is: near the page, where Debian's libjs-leaflet puts it, or otherwise at a public site. The browser
// takes that site's files only if they have these checksums.
const LEAFLET_NEAR = location.protocol === "file:" ? "/usr/share/javascript/leaflet/" : "/javascript/leaflet/";
const LEAFLET_FAR = "https://unpkg.com/leaflet@1.9.4/dist/";
/** @type {Record<string, string>} */
const LEAFLET_SUMS = {
  "leaflet.js": "sha256-20nQCchB9co0qIjJZRGuk2/Z9VM+kNiyxNV1lvTlZBo=",
  "leaflet.css": "sha256-p4NxAoJBhIIN+hmNHrzRCf9tD/miZyoHS5obTRR9BMY=",
};

/**
 * Loads a file of a place, and with a checksum one from elsewhere.
 * @param {string} place
 * @param {string} file
 * @param {string} [sum]
 * @returns {Promise<Event>}
 */
function loadFile(place, file, sum) {
  return new Promise((done, fail) => {
    const isScript = file.endsWith(".js");
    const tag = document.createElement(isScript ? "script" : "link");
    if (sum) Object.assign(tag, { integrity: sum, crossOrigin: "anonymous" });
    Object.assign(tag, { onload: done, onerror: () => fail(new Error(`${place}${file} cannot be loaded`)) });
    Object.assign(tag, isScript ? { src: place + file } : { rel: "stylesheet", href: place + file });
    document.head.append(tag);
  });
}

/** Loads Leaflet from the first place that has it. */
async function loadLeaflet() {
  const files = Object.keys(LEAFLET_SUMS);
  try {
    await Promise.all(files.map((file) => loadFile(LEAFLET_NEAR, file)));
  } catch {
    await Promise.all(files.map((file) => loadFile(LEAFLET_FAR, file, LEAFLET_SUMS[file])));
  }
}
