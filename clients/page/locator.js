// Where the mapper is, as their device says. The page sends it nowhere.
"use strict";

/**
 * Where the mapper is on the plane, and how many metres that may be wrong.
 * @typedef {Position & { accuracy: number }} Fix
 */

const NO_PLACE = "Your device does not know where it is.";
const NOT_ALLOWED = "Your browser does not tell this page where you are. Allow it in the settings of the site.";
const NOT_SECURE = "Browsers say where you are only to pages with https. Ask whoever runs the server for that.";

class Locator {
  /** @param {Page} page */
  constructor(page) {
    this.page = page;
    /** @type {Fix | null} */
    this.fix = null;
    /** @type {number | null} */
    this.watch = null; // while the device is asked
  }

  /** Begins or ends to show where the mapper is. */
  toggle() {
    if (this.watch !== null) this.stop();
    else if (!isSecureContext || !navigator.geolocation) this.page.sayWrong(NOT_SECURE);
    else this.start();
  }

  start() {
    const options = { enableHighAccuracy: true, maximumAge: 5000 };
    this.watch = navigator.geolocation.watchPosition((found) => this.take(found), (fault) => this.fail(fault), options);
    this.showButton();
  }

  stop() {
    if (this.watch !== null) navigator.geolocation.clearWatch(this.watch);
    this.watch = this.fix = null;
    this.showButton();
    this.page.view.paintOverSoon();
  }

  showButton() {
    $("locate").setAttribute("aria-pressed", String(this.watch !== null));
  }

  /**
   * Shows a place. The map goes there when it is the first.
   * @param {GeolocationPosition} found
   */
  take({ coords: { latitude, longitude, accuracy } }) {
    const isFirst = this.fix === null;
    this.fix = { x: Mercator.x(longitude), y: Mercator.y(latitude), accuracy };
    if (isFirst) this.page.view.goTo(this.fix);
    this.page.view.paintOverSoon();
  }

  /** @param {GeolocationPositionError} fault */
  fail({ code }) {
    const isDenied = code === 1;
    if (!isDenied && this.fix) return; // it may come again
    this.stop();
    this.page.sayWrong(isDenied ? NOT_ALLOWED : NO_PLACE);
  }

  /**
   * Draws a dot, and round it a disc in which the mapper is.
   * @param {CanvasRenderingContext2D} context
   * @param {Frame} frame
   */
  paint(context, frame) {
    const { fix } = this;
    if (!fix) return;
    const [x, y] = [fix.x * frame.scale - frame.left, fix.y * frame.scale - frame.top];
    context.fillStyle = "rgba(21, 95, 168, .15)";
    context.beginPath();
    context.arc(x, y, (fix.accuracy / metresAt(fix)) * frame.scale, 0, 7);
    context.fill();
    context.fillStyle = "#155fa8";
    context.strokeStyle = "#fff";
    context.lineWidth = 2.5;
    context.beginPath();
    context.arc(x, y, 7, 0, 7);
    context.fill();
    context.stroke();
  }
}
