// Files of the mapper's own on the map: tracks, and photos at their places. They are only shown here, and never sent.
"use strict";

/**
 * A photo: its file, where it was taken, and a small picture of it.
 * @typedef {{ name: string, file: File, at: Position, small: HTMLCanvasElement }} Photo
 *
 * A file that is shown or hidden: a track or a photo.
 * @typedef {{ name: string, box: Box, isShown: boolean, track?: Track, photo?: Photo }} LocalFile
 */

const SMALL = 44; // pixels of a small picture, along its longer side
const LARGE = 1024; // the same of one that is opened
const TRACK_COLOURS = ["#7a1fa2", "#00796b", "#c2410c", "#1d4ed8"];

class LocalFiles {
  /** @param {Page} page */
  constructor(page) {
    this.page = page;
    /** @type {LocalFile[]} */
    this.all = [];
  }

  /** Opens files that are chosen, and files that are dropped on the map. */
  listen() {
    $("open-files").onclick = () => $("file").click();
    $("file").onchange = () => {
      this.open([...$("file").files ?? []]);
      $("file").value = ""; // so that the same file can be chosen again
    };
    $("close-photo").onclick = () => this.closePhoto();
    const frame = $("frame");
    frame.ondragover = (event) => event.preventDefault();
    frame.ondrop = (event) => {
      event.preventDefault();
      this.open([...event.dataTransfer?.files ?? []]);
    };
  }

  /**
   * Shows files on the map, and says which of them cannot be shown.
   * @param {File[]} files
   */
  async open(files) {
    const { page } = this;
    /** @type {string[]} */
    const faults = [];
    const opened = [];
    for (const file of files) {
      const made = await this.read(file);
      if (typeof made === "string") faults.push(made);
      else opened.push(made);
    }
    this.all.push(...opened);
    const box = emptyBox();
    for (const each of opened) stretchBy(box, each.box);
    page.view.fit(box, Math.max(18, page.view.zoom));
    this.show();
    const what = opened.length === 1 ? opened[0].name : `these ${opened.length} files`;
    if (opened.length) page.say(`Only you see ${what}.`);
    for (const fault of faults) page.sayWrong(fault);
  }

  /**
   * A file for the map, or a sentence that says why it is none.
   * @param {File} file
   * @returns {Promise<LocalFile | string>}
   */
  async read(file) {
    const { name } = file;
    if (/\.gpx$/i.test(name)) {
      const track = trackOf(name, await file.text());
      return track ? { name, box: boxOf([...track.lines.flat(), ...track.points]), isShown: true, track }
        : `${name} is no GPX file, or has no points.`;
    }
    const place = placeOfPhoto(await file.arrayBuffer());
    if (!place) return `${name} is no GPX file, and no JPEG photo that says where it was taken.`;
    const at = { x: Mercator.x(place.lon), y: Mercator.y(place.lat) };
    try {
      const small = await pictureOf(file, SMALL, document.createElement("canvas"));
      return { name, box: pointBox(at.x, at.y), isShown: true, photo: { name, file, at, small } };
    } catch {
      return `Your browser cannot show ${name}.`;
    }
  }

  /** Lists the files. */
  show() {
    $("files").replaceChildren(...this.all.map((each) => this.item(each)));
    this.page.view.paintOverSoon();
  }

  /** @param {LocalFile} each */
  item(each) {
    const { page } = this;
    const shown = make("input", { type: "checkbox", checked: each.isShown, label: `Show ${each.name}` });
    shown.onchange = () => {
      each.isShown = shown.checked;
      page.view.paintOverSoon();
    };
    const go = button(each.name, () => this.go(each), { className: "item", title: "Shows the place" });
    const close = button("×", () => {
      this.all = this.all.filter((other) => other !== each);
      this.show();
    }, { label: `Close ${each.name}` });
    return make("li", {}, shown, go, close);
  }

  /** @param {LocalFile} each */
  go(each) {
    this.page.view.fit(each.box, Math.max(18, this.page.view.zoom));
    if (each.photo) this.openPhoto(each.photo);
  }

  // ---- Photos

  /**
   * Opens the photo that is drawn at a point. Returns whether there is one.
   * @param {Point} point
   */
  click(point) {
    const found = [...this.all].reverse().find(({ photo, isShown }) => {
      if (!photo || !isShown) return false;
      const { x, y } = this.page.view.pointOf(photo.at);
      const { width, height } = photo.small;
      return Math.abs(point.x - x) <= width / 2 && Math.abs(point.y - y) <= height / 2;
    });
    if (found?.photo) this.openPhoto(found.photo);
    return Boolean(found);
  }

  /** @param {Photo} photo */
  async openPhoto({ name, file }) {
    $("photo-title").textContent = name;
    $("photo-canvas").setAttribute("aria-label", name);
    await pictureOf(file, LARGE, $("photo-canvas"));
    $("photo").hidden = false;
  }

  closePhoto() {
    $("photo").hidden = true;
  }

  // ---- Drawing

  /**
   * @param {CanvasRenderingContext2D} context
   * @param {Frame} frame
   */
  paint(context, frame) {
    for (const [index, { track, isShown }] of this.all.entries()) {
      if (track && isShown) this.paintTrack(context, frame, track, TRACK_COLOURS[index % TRACK_COLOURS.length]);
    }
    for (const { photo, isShown } of this.all) if (photo && isShown) this.paintPhoto(context, frame, photo);
  }

  /**
   * @param {CanvasRenderingContext2D} context
   * @param {Frame} frame
   * @param {Track} track
   * @param {string} colour
   */
  paintTrack(context, frame, { lines, points }, colour) {
    context.strokeStyle = context.fillStyle = colour;
    context.lineWidth = 3;
    context.lineJoin = "round";
    context.globalAlpha = 0.75;
    context.beginPath();
    for (const line of lines) tracePositions(context, frame, line);
    context.stroke();
    for (const { x, y } of points) {
      context.fillRect(x * frame.scale - frame.left - 4, y * frame.scale - frame.top - 4, 8, 8);
    }
    context.globalAlpha = 1;
  }

  /**
   * @param {CanvasRenderingContext2D} context
   * @param {Frame} frame
   * @param {Photo} photo
   */
  paintPhoto(context, frame, { at, small }) {
    const [x, y] = [at.x * frame.scale - frame.left, at.y * frame.scale - frame.top];
    const [left, top] = [Math.round(x - small.width / 2), Math.round(y - small.height / 2)];
    context.fillStyle = "#fff";
    context.fillRect(left - 3, top - 3, small.width + 6, small.height + 6);
    context.strokeStyle = "#1c2733";
    context.lineWidth = 1;
    context.strokeRect(left - 3, top - 3, small.width + 6, small.height + 6);
    context.drawImage(small, left, top);
  }
}

/**
 * Adds a line to the path of a canvas, without the positions that lie within a pixel of the last.
 * @param {CanvasRenderingContext2D} context
 * @param {Frame} frame
 * @param {Position[]} line
 */
function tracePositions(context, { scale, left, top }, line) {
  let [x, y] = [Infinity, Infinity];
  for (const [index, each] of line.entries()) {
    const [right, down] = [each.x * scale - left, each.y * scale - top];
    const isNear = Math.abs(right - x) < 1 && Math.abs(down - y) < 1;
    if (index > 0 && isNear && index < line.length - 1) continue;
    context[index ? "lineTo" : "moveTo"](right, down);
    [x, y] = [right, down];
  }
}

/**
 * The box of positions.
 * @param {Position[]} positions
 */
function boxOf(positions) {
  const box = emptyBox();
  for (const { x, y } of positions) stretch(box, x, y);
  return box;
}

/**
 * Draws the picture in a file on a canvas, which gets its size. Neither side is longer than `most` pixels.
 * @param {File} file
 * @param {number} most
 * @param {HTMLCanvasElement} canvas
 */
async function pictureOf(file, most, canvas) {
  const image = await createImageBitmap(file);
  const part = Math.min(1, most / Math.max(image.width, image.height));
  canvas.width = Math.max(1, Math.round(image.width * part));
  canvas.height = Math.max(1, Math.round(image.height * part));
  canvas.getContext("2d")?.drawImage(image, 0, 0, canvas.width, canvas.height);
  image.close();
  return canvas;
}
