// What is drawn over the map: what is selected, dragged and drawn, and what others changed a moment ago.
"use strict";

const FRESH_FOR = 4000; // milliseconds for which what others changed is marked

class Overlay {
  /** @param {Page} page */
  constructor(page) {
    this.page = page;
    this.tools = page.tools;
    /** @type {{ els: string[], by: string, until: number }[]} */
    this.fresh = []; // what others changed a moment ago
  }

  /**
   * @param {CanvasRenderingContext2D} context
   * @param {Frame} frame
   */
  paint(context, frame) {
    const { page } = this;
    page.files.paint(context, frame);
    page.locator.paint(context, frame);
    this.paintFresh(context, frame);
    if (this.tools.hovered) this.paintElement(context, frame, this.tools.hovered, "rgba(21, 95, 168, .55)", 5);
    for (const el of page.selected) this.paintElement(context, frame, el, "#d6006c", 3, true);
    const blocked = page.session?.conflict?.at ?? (page.refusal && page.shown);
    if (blocked) this.paintElement(context, frame, blocked, "#b3261e", 6);
    for (const dragged of this.tools.dragged ? [...this.tools.moving, this.tools.dragged] : this.tools.moving) {
      this.paintDragged(context, frame, dragged);
    }
    for (const draft of [...this.tools.sent, ...this.tools.unsaved]) this.paintDraft(context, frame, draft, null);
    const isDrawing = this.tools.draft || this.tools.tool === "point";
    const next = isDrawing && this.tools.cursor ? this.tools.snap(this.tools.cursor) : null;
    if (this.tools.draft) this.paintDraft(context, frame, this.tools.draft, next);
    if (next) this.paintSnap(context, frame, next);
    if (!this.tools.dragged) this.paintMiddles(context, frame);
    page.warnings.paint(context, frame);
    if (page.isByKeys) this.paintCross(context);
  }

  /**
   * @param {Position} position
   * @param {Frame} frame
   * @returns {[number, number]}
   */
  place({ x, y }, frame) {
    return [x * frame.scale - frame.left, y * frame.scale - frame.top];
  }

  /**
   * @param {CanvasRenderingContext2D} context
   * @param {Frame} frame
   * @param {string} el
   * @param {string} colour
   * @param {number} width
   * @param {boolean} [hasNodes]
   * @returns {void}
   */
  paintElement(context, frame, el, colour, width, hasNodes = false) {
    const { shapes, elements } = this.page;
    const row = elements.get(el);
    if (!row) return undefined;
    if (row.members) {
      const members = row.members.filter(([name]) => name[0] !== "r");
      return members.forEach(([name]) => this.paintElement(context, frame, name, colour, width));
    }
    context.strokeStyle = context.fillStyle = colour;
    context.lineWidth = width;
    context.lineJoin = context.lineCap = "round";
    context.beginPath();
    const way = shapes.ways.get(el);
    if (way) {
      shapes.trace(context, frame, way);
      context.stroke();
      if (hasNodes && frame.scale >= 2 ** 24) this.paintDirection(context, frame, way);
      if (!hasNodes || frame.scale < 2 ** 24) return undefined;
    }
    for (const id of way ? new Set(row.nodes) : [idOf(el)]) {
      const at = shapes.positionOf(id);
      if (!at) continue;
      const house = housePixels(frame, pointBox(at.x, at.y));
      this.paintDot(context, this.place(at, frame), way ? Math.min(3, house / 6) : Math.max(3, Math.min(6, house / 3)),
        colour);
    }
    return undefined;
  }

  /**
   * The arrows of a selected way show its direction, whether or not that means something.
   * @param {CanvasRenderingContext2D} context
   * @param {Frame} frame
   * @param {WayShape} way
   */
  paintDirection(context, frame, way) {
    context.beginPath();
    traceArrows(context, this.page.shapes.pointsOf(way, frame), 1);
    context.fill();
  }

  /**
   * @param {CanvasRenderingContext2D} context
   * @param {readonly [number, number]} point
   * @param {number} radius
   * @param {string} colour
   */
  paintDot(context, [x, y], radius, colour) {
    context.beginPath();
    context.arc(x, y, radius, 0, 7);
    context.fillStyle = "#fff";
    context.fill();
    context.strokeStyle = colour;
    context.lineWidth = Math.min(2.5, radius);
    context.stroke();
  }

  /**
   * What others changed fades out in their colours.
   * @param {CanvasRenderingContext2D} context
   * @param {Frame} frame
   */
  paintFresh(context, frame) {
    const now = performance.now();
    this.fresh = this.fresh.filter(({ until }) => until > now);
    for (const { els, by } of this.fresh) {
      for (const el of els.slice(0, 200)) this.paintElement(context, frame, el, colourOf(by), 4);
    }
  }

  /**
   * @param {string[]} els
   * @param {string} by
   */
  markFresh(els, by) {
    this.fresh.push({ els, by, until: performance.now() + FRESH_FOR });
    if (this.fresh.length > 20) this.fresh.shift();
    setTimeout(() => this.page.view.paintOverSoon(), FRESH_FOR + 50);
  }

  /**
   * @param {CanvasRenderingContext2D} context
   * @param {Frame} frame
   * @param {Dragged | BoxDrag} dragged
   */
  paintDragged(context, frame, dragged) {
    const { page } = this;
    context.strokeStyle = "#d6006c";
    context.lineWidth = 2;
    context.setLineDash([4, 4]);
    if (dragged.box) {
      const { box, to } = dragged;
      context.strokeRect(box.x, box.y, to.x - box.x, to.y - box.y);
      context.setLineDash([]);
      return;
    }
    if (dragged.middle) {
      const { ends: [one, other], x, y } = dragged.middle;
      const to = { x: x + dragged.dx, y: y + dragged.dy };
      this.paintLine(context, frame, [one, to, other]);
      context.setLineDash([]);
      this.paintDot(context, this.place(to, frame), 5, "#d6006c");
      return;
    }
    /** @param {number} id */
    const moved = (id) => {
      const at = page.shapes.positionOf(id);
      if (!at || !dragged.nodes.has(id)) return at;
      const [row] = dragged.single ? dragged.seen : []; // also if somebody else moves it meanwhile
      if (row) return { x: Mercator.x(row.lon) + dragged.dx, y: Mercator.y(row.lat) + dragged.dy };
      const { turn, dx, dy } = dragged;
      return turn ? turnedBy([at], turn.angle, turn.round)[0] : { x: at.x + dx, y: at.y + dy };
    };
    const ways = new Set([...dragged.nodes].flatMap((id) => page.shapes.usersOf(id)));
    for (const el of [...ways].slice(0, 50)) {
      this.paintLine(context, frame, (page.elements.get(el)?.nodes ?? []).flatMap((id) => moved(id) ?? []));
    }
    context.setLineDash([]);
    for (const id of dragged.nodes) {
      const at = moved(id);
      if (at) this.paintDot(context, this.place(at, frame), dragged.onto || dragged.joins ? 8 : 5, "#d6006c");
    }
  }

  /**
   * @param {CanvasRenderingContext2D} context
   * @param {Frame} frame
   * @param {Position[]} places
   */
  paintLine(context, frame, places) {
    context.beginPath();
    for (const [index, place] of places.entries()) context[index ? "lineTo" : "moveTo"](...this.place(place, frame));
    context.stroke();
  }

  /**
   * @param {CanvasRenderingContext2D} context
   * @param {Frame} frame
   * @param {Draft} draft
   * @param {Place | null} next
   */
  paintDraft(context, frame, { places, isArea, extend }, next) {
    context.strokeStyle = "#d6006c";
    context.lineWidth = 3;
    context.setLineDash([2, 5]);
    context.lineCap = "round";
    const line = next ? [...places, next] : [...places];
    if (isArea && line.length > 2) line.push(line[0]);
    this.paintLine(context, frame, line);
    context.setLineDash([]);
    for (const place of places) {
      this.paintDot(context, this.place(place, frame), this.tools.isJoined(place) ? 5 : 3.5, "#d6006c");
    }
    if (extend) this.paintElement(context, frame, extend, "rgba(214, 0, 108, .4)", 4);
  }

  /**
   * Small handles in the middle of the segments of the selected way.
   * @param {CanvasRenderingContext2D} context
   * @param {Frame} frame
   */
  paintMiddles(context, frame) {
    context.fillStyle = "#fff";
    context.strokeStyle = "#d6006c";
    context.lineWidth = 1.5;
    context.beginPath();
    for (const middle of this.tools.middles()) {
      const [x, y] = this.place(middle, frame);
      context.rect(x - 3, y - 3, 6, 6);
    }
    context.fill();
    context.stroke();
  }

  /**
   * A ring where a click joins a node, a square where it joins a line.
   * @param {CanvasRenderingContext2D} context
   * @param {Frame} frame
   * @param {Place} place
   */
  paintSnap(context, frame, place) {
    if (!place.el && !place.segments) return;
    const [x, y] = this.place(place, frame);
    context.strokeStyle = "#155fa8";
    context.lineWidth = 2.5;
    context.beginPath();
    if (place.el) context.arc(x, y, 9, 0, 7);
    else context.rect(x - 7, y - 7, 14, 14);
    context.stroke();
  }

  /**
   * The middle, where the space bar clicks.
   * @param {CanvasRenderingContext2D} context
   */
  paintCross(context) {
    const { x, y } = this.page.view.middle();
    context.strokeStyle = "#155fa8";
    context.lineWidth = 1.5;
    context.beginPath();
    context.moveTo(x - 12, y);
    context.lineTo(x + 12, y);
    context.moveTo(x, y - 12);
    context.lineTo(x, y + 12);
    context.stroke();
  }
}
