// All that uses Leaflet: the map in its window, the canvases on it, the tiles under it, and pointers. A point is a
// place in the window in pixels, {x, y}. A position is a place on the plane of shapes.js.
"use strict";

/**
 * A place in the window, in pixels.
 * @typedef {{ x: number, y: number }} Point
 *
 * What is drawn over the map, such as the selection; the names in a box, and what they should not hide.
 * @typedef {{
 *   paintOver: (context: CanvasRenderingContext2D, frame: Frame) => void,
 *   labels: (box: Box, zoom: number, widthOf: (text: string) => number) => Iterable<Label>,
 *   obstacles: (box: Box, zoom: number) => Iterable<Obstacle>,
 * }} Painters
 */

const CREDIT = '© <a href="https://www.openstreetmap.org/copyright" target="_blank" rel="noopener">OpenStreetMap</a>'
  + " contributors";
const TILE = 256;
const PADDING = 0.3; // how much of the window is drawn beyond each of its edges
const MOST_PIXELS = 2; // of a canvas for one pixel of the page
const MOST_STALE = 12; // boxes that are drawn anew one by one

/** @param {string} text */
const escaped = (text) => text.replace(/[&<>"]/g, (sign) => `&#${sign.charCodeAt(0)};`);

class View {
  /**
   * `shapes` is drawn; `paintOver` draws what changes often, such as the selection, on a canvas of its own; `labels`
   * gives the texts of a box, each with the places where it may be, and `obstacles` what texts should not hide.
   * @param {HTMLElement} container
   * @param {Shapes} shapes
   * @param {Painters} painters
   */
  constructor(container, shapes, { paintOver, labels, obstacles }) {
    this.container = container;
    this.shapes = shapes;
    this.paintOver = paintOver;
    this.labels = labels;
    this.obstacles = obstacles;
    /**
     * What is on the canvases, which are larger than the window by `across` pixels at its left and its right.
     * @type {{ zoom: number, box: Box, frame: Frame, across: number, width: number, height: number } | null}
     */
    this.painted = null;
    this.drawn = { ways: 0, nodes: 0 };
    /** @type {Record<string, number>} */
    this.timers = {};
    /** @type {Box[]} */
    this.stale = [];
    this.lastPaint = 0;
    this.lastRepaint = 0;
    /** @type {PlacedLabel[]} */
    this.written = [];
    /** @type {number | undefined} */
    this.textTimer = undefined;
    /** @type {L.Layer | null} */
    this.tiles = null;
    this.tileCredit = "";
    this.tileShift = { x: 0, y: 0 }; // on the plane
    this.map = L.map(container, {
      zoomControl: false, attributionControl: false, doubleClickZoom: false, boxZoom: false, tap: false, zoomSnap: 0.25,
      wheelPxPerZoomLevel: 100, minZoom: 1, maxZoom: 22, keyboard: false,
    });
    this.credit = L.control.attribution({ prefix: false }).addAttribution(CREDIT).addTo(this.map);
    L.control.scale({ imperial: false }).addTo(this.map);
    this.base = this.addCanvas("base leaflet-zoom-animated");
    this.over = this.addCanvas("over");
    this.texts = this.addCanvas("texts leaflet-zoom-animated"); // above the selection
    this.map.setView([0, 0], 2);
    this.map.on("moveend viewreset resize zoomend", () => this.settle());
    this.map.on("move", () => this.follow());
    this.map.on("zoomanim", (event) => this.animate(event));
    this.map.on("zoom", () => this.animate({ center: this.map.getCenter(), zoom: this.map.getZoom() }));
    new ResizeObserver(() => this.map.invalidateSize({ animate: false })).observe(container);
    this.settle();
  }

  /**
   * A canvas above those that were added before it.
   * @param {string} className
   */
  addCanvas(className) {
    const canvas = document.createElement("canvas");
    canvas.className = className;
    canvas.setAttribute("aria-hidden", "true");
    this.map.getPane("overlayPane").append(canvas);
    return canvas;
  }

  // ---- Places

  get zoom() {
    return this.map.getZoom();
  }

  get scale() {
    return this.scaleAt(this.zoom);
  }

  /** @param {number} zoom */
  scaleAt(zoom) {
    return TILE * 2 ** zoom;
  }

  /** Where the world lies in the window. */
  frame() {
    const { min } = this.map.getPixelBounds();
    return { scale: this.scale, left: min.x, top: min.y };
  }

  /**
   * @param {Point} point
   * @returns {Position}
   */
  positionAt({ x, y }) {
    const { scale, left, top } = this.frame();
    return { x: (x + left) / scale, y: (y + top) / scale };
  }

  /**
   * @param {Position} position
   * @returns {Point}
   */
  pointOf({ x, y }) {
    const { scale, left, top } = this.frame();
    return { x: x * scale - left, y: y * scale - top };
  }

  size() {
    return this.map.getSize();
  }

  middle() {
    const { x, y } = this.size();
    return { x: x / 2, y: y / 2 };
  }

  /** The box of the window, or of one that is larger by some pixels at each edge. */
  box(across = 0, down = across) {
    const { x, y } = this.size();
    const [one, other] = [this.positionAt({ x: -across, y: -down }), this.positionAt({ x: x + across, y: y + down })];
    return { west: one.x, north: one.y, east: other.x, south: other.y };
  }

  /**
   * Shows a box, no closer than `most`.
   * @param {Box} box
   */
  fit(box, most = 19, isAnimated = false) {
    if (isEmptyBox(box)) return;
    const { west, north, east, south } = box;
    /** @type {L.LatLngPair[]} */
    const corners = [[Mercator.lat(north), Mercator.lon(west)], [Mercator.lat(south), Mercator.lon(east)]];
    const above = Math.min(64, this.size().y / 4); // a bar may lie over the map there
    this.map.fitBounds(corners, {
      maxZoom: most, paddingTopLeft: [24, above], paddingBottomRight: [24, 24], animate: isAnimated,
    });
  }

  /**
   * Moves the window so that a box is in it, if it is not.
   * @param {Box} box
   */
  show(box) {
    if (isEmptyBox(box)) return;
    const window = this.box(-60);
    const isIn = box.west >= window.west && box.east <= window.east && box.north >= window.north
      && box.south <= window.south;
    if (isIn && (box.east - box.west) * this.scale + (box.south - box.north) * this.scale > 3) return;
    if (isIn && this.zoom >= 16) return;
    this.fit(box, Math.max(18, this.zoom));
  }

  /**
   * Shows a position in the middle, from near enough to map there.
   * @param {Position} position
   */
  goTo({ x, y }) {
    this.map.setView([Mercator.lat(y), Mercator.lon(x)], Math.max(17, this.zoom));
  }

  /**
   * Moves the window so that a box is not under what covers some pixels at the right edge and at the bottom.
   * @param {Box} box
   * @param {number} right
   * @param {number} bottom
   */
  uncover(box, right, bottom) {
    if (isEmptyBox(box)) return;
    const { x: width, y: height } = this.size();
    const { x, y } = this.pointOf({ x: (box.west + box.east) / 2, y: (box.north + box.south) / 2 });
    const [across, down] = [width - right, height - bottom];
    this.pan(right && x > across - 20 ? x - across / 2 : 0, bottom && y > down - 20 ? y - down / 2 : 0);
  }

  /**
   * @param {number} x
   * @param {number} y
   */
  pan(x, y) {
    this.map.panBy([x, y], { animate: false });
  }

  /**
   * @param {number} steps
   * @param {Point} [point]
   */
  zoomBy(steps, point) {
    if (point) this.map.setZoomAround(L.point(point.x, point.y), this.zoom + steps);
    else this.map.setZoom(this.zoom + steps);
  }

  // ---- Canvases

  /** Draws again if the window shows what is not drawn, or the zoom is another. */
  settle() {
    this.paintOverSoon();
    this.placeTiles();
    if (this.painted?.zoom === this.zoom && this.isCovered(this.box())) return;
    this.paint();
  }

  /** While the map is moved: draws again where the canvas ends. */
  follow() {
    this.paintOverSoon();
    if (!this.painted || this.painted.zoom !== this.zoom || this.isCovered(this.box())) return;
    this.soon("paint", () => this.paint());
  }

  /** @param {Box} box */
  isCovered(box) {
    const { painted } = this;
    if (!painted) return false;
    return painted.box.west <= box.west && painted.box.east >= box.east && painted.box.north <= box.north
      && painted.box.south >= box.south && painted.across === Math.round(this.size().x * PADDING);
  }

  /**
   * Does something in the next frame, once.
   * @param {string} name
   * @param {() => void} work
   */
  soon(name, work) {
    if (this.timers[name]) return;
    this.timers[name] = requestAnimationFrame(() => {
      this.timers[name] = 0;
      work();
    });
  }

  /** Draws all anew. */
  paint() {
    const began = performance.now();
    const { x, y } = this.size();
    const [across, down] = [Math.round(x * PADDING), Math.round(y * PADDING)];
    const { scale, left, top } = this.frame();
    const frame = { scale, left: left - across, top: top - down };
    const corner = this.map.containerPointToLayerPoint([-across, -down]);
    const [width, height] = [x + 2 * across, y + 2 * down];
    this.painted = { zoom: this.zoom, box: this.box(across, down), frame, across, width, height };
    for (const canvas of [this.base, this.texts]) L.DomUtil.setPosition(canvas, corner);
    this.texts.hidden = true; // until they are drawn
    this.fitCanvas(this.base, width, height);
    this.drawn = this.shapes.paint(this.contextOf(this.base), frame, this.painted.box, this.zoom);
    this.paintTextsSoon(60);
    this.paintOverSoon();
    this.lastPaint = performance.now() - began;
  }

  /**
   * Draws boxes anew in the next frame, since something in them changed.
   * @param {Box[]} boxes
   */
  repaint(boxes) {
    this.stale.push(...boxes.filter((box) => !isEmptyBox(box)));
    this.soon("stale", () => this.paintStale());
    this.paintOverSoon();
  }

  paintStale() {
    const began = performance.now();
    const { painted } = this;
    const stale = this.stale.splice(0).filter((box) => painted && doMeet(box, painted.box));
    if (stale.length > MOST_STALE) this.paint();
    else for (const box of stale) this.paintBox(box);
    if (stale.length) this.paintTextsSoon(200);
    this.lastRepaint = performance.now() - began;
  }

  /**
   * Draws what is in a box anew, as far as it is on the canvas.
   * @param {Box} box
   */
  paintBox(box) {
    if (!this.painted) return;
    const { frame, box: all } = this.painted;
    const margin = 8 / frame.scale;
    const part = {
      west: Math.max(box.west - margin, all.west), east: Math.min(box.east + margin, all.east),
      north: Math.max(box.north - margin, all.north), south: Math.min(box.south + margin, all.south),
    };
    const context = this.contextOf(this.base);
    const [left, top] = [part.west * frame.scale - frame.left, part.north * frame.scale - frame.top];
    const [width, height] = [(part.east - part.west) * frame.scale, (part.south - part.north) * frame.scale];
    context.save();
    context.beginPath();
    context.rect(left, top, width, height);
    context.clip();
    context.clearRect(left, top, width, height);
    this.shapes.paint(context, frame, part, this.painted.zoom);
    context.restore();
  }

  /** @param {number} milliseconds */
  paintTextsSoon(milliseconds) {
    clearTimeout(this.textTimer);
    this.textTimer = setTimeout(() => this.paintTexts(), milliseconds);
  }

  /**
   * @param {HTMLCanvasElement} canvas
   * @returns {CanvasRenderingContext2D}
   */
  contextOf(canvas) {
    const context = canvas.getContext("2d");
    if (!context) throw new Error("The browser has no memory for a canvas.");
    const pixels = canvas.width / parseFloat(canvas.style.width);
    context.setTransform(pixels, 0, 0, pixels, 0, 0);
    return context;
  }

  /**
   * Gives a canvas its size, and empties it.
   * @param {HTMLCanvasElement} canvas
   * @param {number} width
   * @param {number} height
   */
  fitCanvas(canvas, width, height) {
    const pixels = Math.min(MOST_PIXELS, devicePixelRatio || 1);
    const [across, down] = [Math.max(1, Math.round(width * pixels)), Math.max(1, Math.round(height * pixels))];
    canvas.style.width = `${Math.max(1, width)}px`;
    canvas.style.height = `${Math.max(1, height)}px`;
    if (canvas.width !== across) canvas.width = across;
    if (canvas.height !== down) canvas.height = down;
    const context = this.contextOf(canvas);
    context.setTransform(1, 0, 0, 1, 0, 0);
    context.clearRect(0, 0, across, down);
  }

  /** Draws the names, none over another or over what it should not hide. */
  paintTexts() {
    if (!this.painted) return;
    const { frame, width, height, box, zoom } = this.painted;
    this.fitCanvas(this.texts, width, height);
    this.texts.hidden = false;
    const context = this.contextOf(this.texts);
    context.font = "600 12px system-ui, 'DejaVu Sans', sans-serif";
    context.textAlign = "center";
    context.textBaseline = "middle";
    context.lineWidth = 3;
    context.lineJoin = "round";
    const space = new Space(width, height);
    for (const { kind, margin, box: place } of this.obstacles(box, zoom)) {
      space.take(pixelsOf(place, frame, margin), kind);
    }
    /** @param {string} text */
    const widthOf = (text) => context.measureText(text).width;
    this.written = [];
    for (const { text, places } of this.labels(box, zoom, widthOf)) {
      const label = this.labelFor(text, widthOf(text), places, frame, space);
      if (!label) continue;
      for (const part of label.parts) space.take(part, TAKEN);
      this.written.push(label);
      this.paintText(context, label);
    }
  }

  /**
   * A text at the first of its places that is free, with the boxes that it takes, or null. The name of a line hides the
   * end of another line if it has no other place, because a long street has many side streets.
   * @param {string} text
   * @param {number} width
   * @param {LabelPlace[]} places
   * @param {Frame} frame
   * @param {Space} space
   * @returns {PlacedLabel | null}
   */
  labelFor(text, width, places, frame, space) {
    const labels = places.map(({ x, y, dx = 0, dy = 0, angle = 0, isOver = false, isOnLine = false }) => {
      const at = { x: x * frame.scale - frame.left + dx, y: y * frame.scale - frame.top + dy };
      const parts = partsOfText(at, width / 2, angle);
      /** @param {number} kinds */
      const isFree = (kinds) => parts.every((part) => space.isFree(part, isOver ? kinds & ~BUILDING : kinds));
      return { text, at, angle, parts, isOnLine, isFree };
    });
    const best = labels.find(({ isFree }) => isFree(TAKEN | BUILDING | END));
    return best ?? labels.find(({ isOnLine, isFree }) => isOnLine && isFree(TAKEN | BUILDING)) ?? null;
  }

  /**
   * @param {CanvasRenderingContext2D} context
   * @param {PlacedLabel} label
   */
  paintText(context, { text, at, angle }) {
    context.save();
    context.translate(at.x, at.y);
    if (angle) context.rotate(angle);
    context.strokeStyle = "rgba(255, 255, 255, .9)";
    context.fillStyle = "#1c2733";
    context.strokeText(text, 0, 0);
    context.fillText(text, 0, 0);
    context.restore();
  }

  paintOverSoon() {
    this.soon("over", () => {
      const { x, y } = this.size();
      L.DomUtil.setPosition(this.over, this.map.containerPointToLayerPoint([0, 0]));
      this.fitCanvas(this.over, x, y);
      this.paintOver(this.contextOf(this.over), this.frame());
    });
  }

  /**
   * Puts the canvases where they belong while the zoom changes.
   * @param {{ center: L.LatLng, zoom: number }} event
   */
  animate({ center, zoom }) {
    if (!this.painted) return;
    const { frame } = this.painted;
    const pane = L.DomUtil.getPosition(this.map.getPane("mapPane"));
    const origin = this.map.project(center, zoom).subtract(this.size().divideBy(2)).add(pane).round();
    const grown = (TILE * 2 ** zoom) / frame.scale;
    const corner = L.point(frame.left * grown, frame.top * grown).subtract(origin);
    for (const canvas of [this.base, this.texts]) L.DomUtil.setTransform(canvas, corner, grown);
    this.paintOverSoon();
  }

  // ---- Tiles

  /**
   * Shows tiles under the map. The address has {z}, {x} and {y}; an empty address shows none.
   * @param {string} url
   * @param {string} credit
   */
  setTiles(url, credit) {
    this.tiles?.remove();
    this.tiles = null;
    if (this.tileCredit) this.credit.removeAttribution(this.tileCredit);
    this.tileCredit = escaped(credit);
    this.container.classList.toggle("tiled", Boolean(url));
    if (!url) return;
    this.tiles = L.tileLayer(url, { maxNativeZoom: 19, maxZoom: 22 }).addTo(this.map);
    if (credit) this.credit.addAttribution(this.tileCredit);
  }

  /**
   * Shifts the tiles by a distance on the plane.
   * @param {number} x
   * @param {number} y
   */
  shiftTiles(x, y) {
    this.tileShift = { x, y };
    this.placeTiles();
  }

  placeTiles() {
    const { style } = this.map.getPane("tilePane");
    style.left = `${this.tileShift.x * this.scale}px`;
    style.top = `${this.tileShift.y * this.scale}px`;
  }

  /**
   * Shows a part of the tiles' colours, from 0 to 1.
   * @param {number} part
   */
  fadeTiles(part) {
    this.map.getPane("tilePane").style.opacity = String(part);
  }

  /**
   * Shows a part of the areas' colours, from 0 to 1.
   * @param {number} part
   */
  fadeAreas(part) {
    if (this.shapes.fillPart === part) return;
    this.shapes.fillPart = part;
    this.paint();
  }
}
