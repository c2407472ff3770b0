// Pointers on the map: mice, fingers and pens.
"use strict";

/**
 * What pointers on the map do. `grab` returns whether something at a point is dragged in the place of the map. Then
 * come `drag` and `drop`, or `letGo`. Otherwise `click` or `doubleClick` comes, `menu` after a long press or the right
 * button, and `hover`.
 * @typedef {{
 *   grab(point: Point, event: PointerEvent): boolean,
 *   drag(point: Point): void,
 *   drop(): void,
 *   letGo(): void,
 *   click(point: Point, how: { isTouch?: boolean, isMore?: boolean, isNext?: boolean }): void,
 *   doubleClick(point: Point, event: PointerEvent): void,
 *   menu(point: Point): void,
 *   hover(point: Point | null, event?: PointerEvent): void,
 * }} PointerHandlers
 */

const LONG_PRESS = 550; // milliseconds
const DOUBLE_CLICK = 350;

/**
 * A pointer that is pressed, with the timer of a long press.
 * @typedef {{ id: number, point: Point, isTouch: boolean, isMoved: boolean, isGrabbed: boolean, timer?: number }} Press
 */

class Pointers {
  /**
   * @param {View} view
   * @param {PointerHandlers} handlers
   */
  constructor(view, handlers) {
    this.view = view;
    this.handlers = handlers;
    /** @type {Set<number>} */
    this.pressed = new Set(); // their ids
    /** @type {Press | null} */
    this.down = null;
    /** @type {{ time: number, point: Point } | null} */
    this.last = null;
    const { container } = view;
    container.addEventListener("pointerdown", (event) => this.press(event), true);
    container.addEventListener("pointermove", (event) => this.move(event), true);
    container.addEventListener("pointerup", (event) => this.release(event), true);
    container.addEventListener("pointercancel", (event) => this.cancel(event), true);
    container.addEventListener("contextmenu", (event) => this.menu(event), true);
    container.addEventListener("pointerleave", () => handlers.hover(null));
    addEventListener("pointerup", (event) => this.pressed.delete(event.pointerId));
  }

  /**
   * @param {MouseEvent} event
   * @returns {Point}
   */
  pointOf(event) {
    const box = this.view.container.getBoundingClientRect();
    return { x: event.clientX - box.left, y: event.clientY - box.top };
  }

  /** @param {PointerEvent} event */
  press(event) {
    if (isIn(event, ".leaflet-control")) return;
    this.pressed.add(event.pointerId);
    if (this.pressed.size > 1) return this.giveUp();
    if (event.button !== 0) return;
    const point = this.pointOf(event);
    const isTouch = event.pointerType !== "mouse";
    this.down = { id: event.pointerId, point, isTouch, isMoved: false, isGrabbed: false };
    if (this.handlers.grab(point, event)) {
      this.down.isGrabbed = true;
      this.view.map.dragging.disable();
      this.view.container.setPointerCapture(event.pointerId);
    }
    if (isTouch) this.down.timer = setTimeout(() => this.pressLong(), LONG_PRESS);
  }

  pressLong() {
    if (!this.down || this.down.isMoved) return;
    const { point } = this.down;
    this.giveUp();
    this.handlers.menu(point);
  }

  /** @param {PointerEvent} event */
  move(event) {
    const { down } = this;
    const point = this.pointOf(event);
    if (!down || down.id !== event.pointerId) {
      if (event.pointerType === "mouse" && !event.buttons) this.handlers.hover(point, event);
      return;
    }
    if (!down.isMoved && Math.hypot(point.x - down.point.x, point.y - down.point.y) < (down.isTouch ? 10 : 4)) return;
    down.isMoved = true;
    clearTimeout(down.timer);
    if (down.isGrabbed) this.handlers.drag(point);
  }

  /** @param {PointerEvent} event */
  release(event) {
    this.pressed.delete(event.pointerId);
    const { down } = this;
    if (!down || down.id !== event.pointerId) return;
    const point = this.pointOf(event);
    this.end();
    if (down.isMoved) {
      if (down.isGrabbed) this.handlers.drop();
      return;
    }
    if (down.isGrabbed) this.handlers.letGo();
    const { last } = this;
    const isDouble = last && event.timeStamp - last.time < DOUBLE_CLICK
      && Math.hypot(point.x - last.point.x, point.y - last.point.y) < (down.isTouch ? 30 : 8);
    this.last = isDouble ? null : { time: event.timeStamp, point };
    if (isDouble) {
      this.handlers.doubleClick(point, event);
    } else {
      const isMore = event.shiftKey || event.ctrlKey || event.metaKey;
      this.handlers.click(point, { isTouch: down.isTouch, isMore, isNext: event.altKey });
    }
  }

  /** @param {PointerEvent} event */
  cancel(event) {
    this.pressed.delete(event.pointerId);
    this.giveUp();
  }

  /** Ends what one pointer began, without its effect. */
  giveUp() {
    const { down } = this;
    this.end();
    if (down?.isGrabbed) this.handlers.letGo();
  }

  end() {
    clearTimeout(this.down?.timer);
    if (this.down?.isGrabbed) this.view.map.dragging.enable();
    this.down = null;
  }

  /** @param {MouseEvent} event */
  menu(event) {
    event.preventDefault();
    const isTouch = event instanceof PointerEvent && event.pointerType === "touch";
    if (isTouch || isIn(event, ".leaflet-control")) return;
    this.handlers.menu(this.pointOf(event));
  }
}
