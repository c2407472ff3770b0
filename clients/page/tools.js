// The tools of the page: what clicks, drags and keys on the map do, and what a drawing snaps to. A drawing is not sent
// before it is finished.
"use strict";

/**
 * @typedef {ToolId | "move" | "rotate" | "members"} Tool
 *
 * What a tool begins with: the relation whose members are picked, or a drawing.
 * @typedef {Partial<Draft> & { relation?: string }} ToolOptions
 *
 * A drawing: its places, the way that it makes longer, whether it came back unsaved and for which error, its preset.
 * @typedef {{ places: Place[], isArea: boolean, extend: string | null, isUnsaved: boolean, error: Failure | null,
 *   preset?: string }} Draft
 *
 * Elements that are dragged: which, their nodes, from where, how far, what the mapper saw when the drag began, and the
 * one node with the node or the segments that it meets.
 * @typedef {{ els: string[], nodes: Set<number>, from: Position, dx: number, dy: number, sight: Sight,
 *   seen: MapNode[], single: string | null, onto?: string | null, joins?: Place | null, middle?: EndedSegment,
 *   turn?: Turn, box?: undefined }} Dragged
 *
 * With `middle`, a new node is dragged out of that segment. With `turn`, the elements are turned and not moved.
 *
 * A turn on the plane, round a position by an angle.
 * @typedef {{ round: Position, angle: number }} Turn
 *
 * A box that is drawn by a drag, between two points.
 * @typedef {{ box: Point, to: Point }} BoxDrag
 *
 * A segment with its two nodes and their positions.
 * @typedef {NearSegment & { one: number, other: number, ends: [Position, Position] }} EndedSegment
 */

const HIT = 6; // how many pixels away a node that is not selected, or a handle, is dragged
const MOST_STACKED = 6; // elements at one point that can be chosen
const LEAST_SEGMENT = 36; // pixels of a segment that has a handle in its middle
const REACH = { mouse: 10, touch: 20 }; // how many pixels away something is hit
/** @type {Record<string, [right: number, down: number]>} */
const MOVE_KEYS = { ArrowLeft: [-1, 0], ArrowRight: [1, 0], ArrowUp: [0, -1], ArrowDown: [0, 1] };
/** @type {Record<string, Tool>} */
const TOOL_KEYS = { v: "select", p: "point", l: "line", a: "area", m: "move", r: "rotate" };
/** @type {Record<string, "square" | "circle" | "straighten">} */
const SHAPE_KEYS = { q: "square", o: "circle", s: "straighten" };

/** @type {Record<"mouse" | "touch", Partial<Record<Tool | "again", string>>>} */
const HINTS = {
  mouse: {
    point: "Click where the node is to be. On a line it becomes a part of the line.",
    line: "Click where the line goes. A double click or Enter finishes it, Backspace removes its last point.",
    area: "Click the corners. A double click, Enter or a click on the first corner finishes.",
    move: "Drag what is selected, or move it with the arrow keys. Escape ends that.",
    rotate: "Drag beside the middle of what is selected, or turn it with the arrow keys. Escape ends that.",
    members: "Click what is to be a member, or to be none any more. Escape ends that.",
    again: "Press Enter to save it, or Escape to drop it.",
  },
  touch: {
    point: "Tap where the node is to be. On a line it becomes a part of the line.",
    line: "Tap where the line goes. “Finish” finishes it, “Remove last” removes its last point.",
    area: "Tap the corners. “Finish” or a tap on the first corner finishes.",
    move: "Drag what is selected. “Select” ends that.",
    rotate: "Drag beside the middle of what is selected. “Select” ends that.",
    members: "Tap what is to be a member, or to be none any more. “Select” ends that.",
    again: "“Finish” saves it, “Cancel” drops it.",
  },
};

/** @type {ToolId[]} */
const TOOL_IDS = ["select", "point", "line", "area"];

class Tools {
  /** @param {Page} page */
  constructor(page) {
    this.page = page;
    /** @type {Tool} */
    this.tool = "select";
    /** @type {Tool} */
    this.clickedWith = "select"; // the tool at the last click
    /** @type {Draft | null} */
    this.draft = null;
    /** @type {Point | null} */
    this.cursor = null;
    /** @type {Dragged | BoxDrag | null} */
    this.dragged = null;
    /** @type {string | null} */
    this.hovered = null;
    /** @type {string | null} */
    this.relation = null; // whose members are picked
    /** @type {Set<Draft>} */
    this.sent = new Set(); // drawings that are finished and not saved yet
    /** @type {Draft[]} */
    this.unsaved = []; // drawings that could not be saved, and come back after the one that is being drawn
    /** @type {Set<Dragged>} */
    this.moving = new Set(); // drags that ended and are not saved yet
    this.isSnapping = true;
  }

  // ---- The tool

  /**
   * @param {Tool} tool
   * @param {ToolOptions} [about]
   */
  use(tool, about = {}) {
    const { page } = this;
    if (tool !== "select" && !page.isInside) {
      page.sayWrong("Connect first.");
      return;
    }
    this.tool = tool;
    this.relation = about.relation ?? null;
    this.dragged = null;
    const isDrawing = ["point", "line", "area"].includes(tool);
    const isWay = tool === "line" || tool === "area";
    const { places = [], extend = null, isUnsaved = false, error = null } = about;
    this.draft = isWay ? { places, isArea: tool === "area", extend, isUnsaved, error } : null; // `extend`: a way
    for (const each of TOOL_IDS) $(each).setAttribute("aria-pressed", String(each === tool));
    $("drawing").hidden = !isDrawing;
    $("finish").hidden = $("back").hidden = !isWay;
    $("map").classList.toggle("drawing", tool !== "select");
    if (isDrawing) this.offerPresets(tool === "point" ? "n" : tool === "area" ? "a" : "w", about.preset);
    const hint = this.hintOf(tool);
    if (hint) page.say(hint);
    else if (page.isHint) page.say("");
    page.isHint = Boolean(hint);
    page.view?.paintOverSoon();
    page.showSaved();
    if (tool === "select") this.goOnDrawing("");
  }

  /**
   * @param {Tool | "again"} tool
   * @returns {string | undefined}
   */
  hintOf(tool) {
    return HINTS[this.page.isTouch ? "touch" : "mouse"][tool];
  }

  /** @param {"n" | "w" | "a"} kind */
  offerPresets(kind, chosen = "") {
    const fitting = presetsFor(kind).filter(({ tags }) => hasTags(tags));
    const options = [new Option("nothing yet", ""), ...fitting.map(({ label }) => new Option(label, label))];
    $("preset").replaceChildren(...options);
    $("preset").value = chosen;
    this.showPreset();
  }

  /** A drawing that goes on with a way has no preset, because the way has its tags. */
  showPreset() {
    const label = $("preset").parentElement;
    if (label) label.hidden = Boolean(this.draft?.extend);
  }

  /** @returns {Tags} */
  presetTags() {
    return { ...PRESETS.find(({ label }) => label === $("preset").value)?.tags };
  }

  /** Gives up what is being done, or what is selected. */
  escape() {
    if (this.dragged) {
      this.letGo();
      return;
    }
    const { draft } = this;
    const sent = draft?.isUnsaved ? "" : " Nothing of it was sent.";
    if (draft?.places.length) this.page.say(`The drawing is given up.${sent}`);
    if (this.tool !== "select") this.use("select");
    else this.page.select();
  }

  // ---- What is at a point

  /** @param {boolean} isTouch */
  reach(isTouch) {
    return REACH[isTouch ? "touch" : "mouse"] / this.page.view.scale;
  }

  /**
   * What a click means: the node, way or building there, or null. What is selected comes first.
   * @param {Point} point
   */
  find(point, isTouch = false) {
    const { page } = this;
    const at = page.view.positionAt(point);
    const reach = this.reach(isTouch);
    /** @param {string} el */
    const isOfSelected = (el) => page.selected.includes(el)
      || page.shapes.usersOf(el).some((way) => page.selected.includes(way));
    const nodes = page.shapes.nodesAt(at, reach, (el) => page.selected.includes(el));
    /** @param {string} el */
    const isSeen = (el) => page.view.zoom >= 17 || hasTags(page.elements.get(el)?.tags ?? {}) || isOfSelected(el)
      || page.shapes.usersOf(el).length === 0;
    const node = nodes.find(({ el }) => page.elements.has(el) && isSeen(el));
    if (node) return node.el;
    return page.shapes.segmentsAt(at, reach)[0]?.el ?? page.shapes.buildingAt(at);
  }

  /**
   * All that lies at a point: nodes, lines, and areas from the smallest on.
   * @param {Point} point
   */
  allAt(point, isTouch = false) {
    const { page } = this;
    const at = page.view.positionAt(point);
    const reach = this.reach(isTouch);
    const first = this.find(point, isTouch);
    const nodes = page.shapes.nodesAt(at, reach).filter(({ el }) => hasTags(page.elements.get(el)?.tags ?? {}));
    const ways = page.shapes.segmentsAt(at, reach);
    const els = [...(first ? [first] : []), ...[...nodes, ...ways].map(({ el }) => el), ...page.shapes.areasAt(at)];
    return [...new Set(els)].filter((el) => page.elements.has(el)).slice(0, MOST_STACKED);
  }

  /**
   * What comes after what is selected, of all that lies at a point.
   * @param {Point} point
   * @param {boolean} isTouch
   */
  nextAt(point, isTouch) {
    const els = this.allAt(point, isTouch);
    return els[(els.indexOf(this.page.selected[0]) + 1) % els.length] ?? null;
  }

  /**
   * The place that a click means while something is drawn: at a node, on segments, or free.
   * @param {Point} point
   * @param {boolean} [isTouch]
   * @returns {Place}
   */
  snap(point, isTouch = false) {
    const { page } = this;
    const at = page.view.positionAt(point);
    if (!this.isSnapping || !$("joining").checked) return at;
    const reach = this.reach(isTouch) * 1.2;
    const own = this.ownPlace(at, reach);
    if (own) return own;
    const node = page.shapes.nodesAt(at, reach).find(({ el }) => this.isJoint(el));
    if (node && Number.isSafeInteger(idOf(node.el))) return { x: node.x, y: node.y, el: node.el };
    return this.snapToSegments(at, reach) ?? at;
  }

  /**
   * Whether lines may meet at a node: a tree or a stop that is no part of a line is none of theirs.
   * @param {string} el
   */
  isJoint(el) {
    const { shapes, elements } = this.page;
    return shapes.usersOf(el).length > 0 || !hasTags(elements.get(el)?.tags ?? {});
  }

  /**
   * A place of the drawing itself that is near.
   * @param {Position} at
   * @param {number} reach
   */
  ownPlace(at, reach) {
    const places = this.draft?.places ?? [];
    return places.find((place) => Math.hypot(place.x - at.x, place.y - at.y) <= reach) ?? null;
  }

  /**
   * @param {Position} at
   * @param {number} reach
   * @param {number} [without] a node whose own segments do not count
   * @returns {Place | null}
   */
  snapToSegments(at, reach, without) {
    const near = this.segmentsNear(at, reach).filter(({ one, other }) => one !== without && other !== without);
    if (near.length === 0) return null;
    const [first] = near;
    const crossing = this.crossingOf(near, at, reach);
    const place = crossing ?? { x: first.x, y: first.y };
    const chosen = near.filter((each) => this.isSameSegment(each, first) || (crossing && each === crossing.with)
      || (crossing && this.isSameSegment(each, crossing.with)));
    return this.placeOn(chosen, place);
  }

  /**
   * The segments within a distance that can be changed, the nearest first.
   * @param {Position} at
   * @param {number} reach
   */
  segmentsNear(at, reach) {
    const { page } = this;
    /** @param {NearSegment} segment */
    const isUsable = ({ el }) => areSafe(page.elements.get(el)?.nodes ?? [NaN]);
    return page.shapes.segmentsAt(at, reach).filter(isUsable).flatMap((segment) => this.withEnds(segment) ?? []);
  }

  /**
   * @param {EndedSegment[]} segments
   * @param {Position} position
   * @returns {Place}
   */
  placeOn(segments, { x, y }) {
    return {
      x, y, segments: segments.map(({ el, one, other, ends }) => (
        { el, one, other, part: partOf({ x, y }, ends), isRoad: Boolean(this.page.elements.get(el)?.tags.highway) }
      )),
    };
  }

  /**
   * @param {NearSegment} segment
   * @returns {EndedSegment | null}
   */
  withEnds(segment) {
    const { nodes } = wayOf(segment.el, this.page.elements);
    const [one, other] = [nodes[segment.index - 1], nodes[segment.index]];
    const [start, end] = [this.page.shapes.positionOf(one), this.page.shapes.positionOf(other)];
    return start && end ? { ...segment, one, other, ends: [start, end] } : null;
  }

  /**
   * @param {EndedSegment} one
   * @param {EndedSegment} other
   */
  isSameSegment(one, other) {
    return (one.one === other.one && one.other === other.other) || (one.one === other.other && one.other === other.one);
  }

  /**
   * Where the nearest segment crosses another one that is near, if that place is near too.
   * @param {EndedSegment[]} segments
   * @param {Position} at
   * @param {number} reach
   * @returns {(Position & { with: EndedSegment }) | null}
   */
  crossingOf([first, ...others], at, reach) {
    for (const other of others) {
      if ([other.one, other.other].some((id) => id === first.one || id === first.other)) continue;
      const place = intersectionOf(first.ends, other.ends);
      if (place && Math.hypot(place.x - at.x, place.y - at.y) <= reach) return { ...place, with: other };
    }
    return null;
  }

  // ---- Clicks

  /**
   * @param {Point} point
   * @param {{ isTouch?: boolean, isMore?: boolean, isNext?: boolean }} how
   * @returns {void}
   */
  click(point, { isTouch = false, isMore = false, isNext = false } = {}) {
    const { page } = this;
    page.closeMenu();
    this.clickedWith = this.tool;
    if (this.tool === "select" && page.files.click(point)) return;
    if (!page.session?.room) return;
    if (this.tool === "point") {
      this.makePoint(this.snap(point, isTouch));
    } else if (this.draft) {
      this.addPlace(this.snap(point, isTouch));
    } else {
      const el = isNext ? this.nextAt(point, isTouch) : this.find(point, isTouch);
      const area = this.tool === "select" ? page.shapes.multipolygonAt(page.view.positionAt(point)) : null;
      this.clickElement(el ?? area, isMore);
    }
  }

  /**
   * @param {string | null} el
   * @param {boolean} isMore
   */
  clickElement(el, isMore) {
    const { page, relation } = this;
    if (this.tool === "members") {
      if (el && relation) page.toggleMember(relation, el);
    } else if (this.tool === "move" || this.tool === "rotate") {
      this.use("select");
    } else if (!isMore) {
      page.select(...(el ? [el] : []));
    } else if (el) {
      const others = page.selected.filter((each) => each !== el);
      page.select(...others, ...(others.length < page.selected.length ? [] : [el]));
    }
  }

  /**
   * @param {Point} point
   * @param {PointerEvent} event
   * @returns {void}
   */
  doubleClick(point, event) {
    // The first of the two clicks has made the last point.
    if (this.draft) this.finish();
    else if (this.tool !== "select") this.click(point);
    else if (this.clickedWith === "select") this.doubleClickElement(point, event);
  }

  /**
   * Adds a node to the line at a point. Where there is nothing, the map comes nearer.
   * @param {Point} point
   * @param {PointerEvent} event
   */
  doubleClickElement(point, { pointerType, shiftKey }) {
    const { page } = this;
    const isTouch = pointerType !== "mouse";
    const el = this.find(point, isTouch);
    if (!el) return page.view.zoomBy(shiftKey ? -1 : 1, point);
    const near = this.segmentsNear(page.view.positionAt(point), this.reach(isTouch));
    const segment = near.find((each) => each.el === el);
    if (!segment || !page.isInside) return page.select(el);
    const place = this.placeOn(near.filter((each) => this.isSameSegment(each, segment)), segment);
    this.savePoint(`added a node to ${page.titles([el])}`, place, {});
    return undefined;
  }

  /**
   * @param {Place} place
   * @returns {void}
   */
  makePoint(place) {
    const { page } = this;
    const there = place.el ?? page.shapes.nodesAt(place, 0)[0]?.el;
    if (there) {
      page.sayWrong("There is a node at this place already.");
      return page.select(there);
    }
    const tags = this.presetTags();
    this.use("select");
    this.savePoint(`made a ${kindOf({ el: "n", tags })}`, place, tags);
  }

  /**
   * Makes a node at a place, and selects it or another element.
   * @param {string} text
   * @param {Place} place
   * @param {Tags} tags
   * @param {string} [chosen]
   * @param {Sight} [sight]
   */
  savePoint(text, place, tags, chosen, sight) {
    const { page } = this;
    /** @type {LostJoint[]} */
    let lost = [];
    /** @param {NameGiver} newName */
    const build = (newName) => Edits.point(place, tags, page.elements, page.shapes, newName, (lost = []));
    return page.perform(text, build, ([el]) => {
      page.sayLost(text, lost, "This node");
      return chosen ?? el;
    }, undefined, { sight });
  }

  /**
   * @param {Place} place
   * @returns {void}
   */
  addPlace(place) {
    const { draft, page: { shapes } } = this;
    if (!draft) return;
    const { places, isArea, extend } = draft;
    /**
     * @param {Place | undefined} one
     * @param {Place} other
     */
    const isSame = (one, other) => one === other || (one?.el !== undefined && one.el === other.el);
    if (places.length && isSame(lastOf(places), place)) return this.finish();
    const isFirst = places.length > 2 && isSame(places[0], place);
    if (isFirst && !extend) return this.finish(true);
    if (places.length === 0 && !isArea && !extend && place.el) draft.extend = this.endOfSelected(place.el);
    places.push(place.el ? { ...place, ways: [...shapes.usersOf(place.el)] } : { ...place });
    this.showDraft(draft);
  }

  /**
   * The selected way if it begins or ends at a node, or null. A drawing that begins there goes on with it.
   * @param {string} node
   */
  endOfSelected(node) {
    const { selected, elements } = this.page;
    return selected.length === 1 && Edits.endsAt(selected[0], idOf(node), elements) ? selected[0] : null;
  }

  /**
   * Says how long the drawing is, and how it goes on.
   * @param {Draft} draft
   */
  showDraft({ places, isArea, extend }) {
    const text = `${counted(places.length, "point")}${extend ? `, going on with ${extend}` : ""}.`;
    this.page.say(`${text} ${this.hintOf(isArea ? "area" : "line")}`);
    this.page.isHint = true;
    this.page.kept.keepSoon();
    this.showPreset();
    $("finish").disabled = places.length < (isArea ? 3 : 2);
    this.page.view.paintOverSoon();
  }

  removeLast() {
    const { draft } = this;
    if (!draft?.places.length) return;
    draft.places.pop();
    if (draft.places.length === 0) draft.extend = null;
    this.showDraft(draft);
  }

  /**
   * Sends the drawing as one gesture. It is kept until it is saved, and comes back if it is refused. The next one that
   * came back waits for the answer, so that what is said of it does not hide what became of this one.
   */
  finish(isClosed = this.draft?.isArea) {
    const { page, draft } = this;
    if (!draft) return;
    const least = isClosed ? 3 : 2;
    if (draft.places.length < least) return page.sayWrong(`That needs ${least} points at least.`);
    const { places, extend } = draft;
    const tags = this.presetTags();
    draft.preset = $("preset").value;
    this.sent.add(draft);
    this.use("select");
    const what = kindOf({ el: "w", tags });
    const text = extend ? `made ${extend} longer` : `drew a ${what} with ${counted(places.length, "point")}`;
    /** @type {LostJoint[]} */
    let lost = [];
    /** @param {NameGiver} newName */
    const build = (newName) => {
      lost = [];
      return Edits.way(places, { isClosed, tags, extend, lost }, page.elements, page.shapes, newName);
    };
    /** @param {string[]} names */
    const done = (names) => {
      page.sayLost(text, lost, "This line");
      return extend ?? lastOf(names);
    };
    page.perform(text, build, done, (error) => this.bringBack({ ...draft, error })).then((isSaved) => {
      this.sent.delete(draft);
      page.view.paintOverSoon();
      this.goOnDrawing(isSaved ? `Saved: ${text}.` : "");
    });
  }

  /**
   * Goes on with a drawing that could not be saved, after the one that is being drawn. Returns true, since the mapper
   * has it back.
   * @param {Draft} draft
   */
  bringBack(draft) {
    if (this.draft?.places.length || !this.page.isInside) {
      this.unsaved.push(draft);
      this.page.showSaved();
      this.page.view.paintOverSoon();
    } else {
      this.use(draft.isArea ? "area" : "line", { ...draft, isUnsaved: true });
      this.refreshDraft();
      if (this.draft) this.showDraft(this.draft);
    }
    return true;
  }

  /**
   * Goes on with the first drawing that waits, unless the mapper does something else or another one is under way. Says
   * again why it was not saved, after what became of the drawing before it. `before` is null if there was none.
   * @param {string | null} [before]
   */
  goOnDrawing(before = null) {
    const isBusy = this.tool !== "select" || this.sent.size > 0;
    const [draft] = this.unsaved;
    if (!draft || !this.page.isInside || isBusy) return;
    this.unsaved.shift();
    this.page.keepRefusal(() => this.bringBack(draft));
    const next = [`${before} The next drawing was not saved either.`.trim(), this.hintOf("again")];
    if (draft.error) this.page.refused(draft.error, ...(before === null ? [] : next));
  }

  /** Puts the drawing aside, since the session has ended. Returns whether drawings wait. */
  putAside() {
    if (this.draft?.places.length) this.unsaved.unshift({ ...this.draft, preset: $("preset").value });
    this.use("select");
    return this.unsaved.length > 0;
  }

  /** How many drawings could not be saved so far. */
  countUnsaved() {
    return this.unsaved.length + (this.draft?.isUnsaved && this.draft.places.length ? 1 : 0);
  }

  /**
   * Goes on with a way at its end or its start.
   * @param {string} el
   * @param {boolean} atStart
   */
  goOn(el, atStart) {
    const { nodes } = wayOf(el, this.page.elements);
    const node = nodeOf(atStart ? nodes[0] : lastOf(nodes));
    const position = this.page.shapes.positionOf(node);
    const ways = [...this.page.shapes.usersOf(node)];
    if (position) this.use("line", { places: [{ ...position, el: node, ways }], extend: el });
    this.page.view.show(this.page.shapes.boxOf(node));
  }

  /**
   * Whether a place is at a node or on a line that is there.
   * @param {Place} place
   */
  isJoined({ el = "", segments = [] }) {
    const { elements } = this.page;
    return elements.has(el) || segments.some((segment) => elements.has(segment.el));
  }

  /** A drawing goes on with a way only as long as the way begins or ends at its first place. */
  refreshDraft() {
    const { elements } = this.page;
    const { draft } = this;
    if (!draft) return;
    const { places, extend } = draft;
    if (!extend || (places[0].el && Edits.endsAt(extend, idOf(places[0].el), elements))) return;
    draft.extend = null;
    this.showDraft(draft);
  }

  // ---- Drags

  /**
   * Whether a press drags something in the place of the map.
   * @param {Point} point
   * @param {PointerEvent} event
   * @returns {boolean}
   */
  grab(point, event) {
    const { page } = this;
    if (this.tool === "move" && page.session?.room) return this.grabAll(point);
    if (this.tool === "rotate" && page.session?.room) return this.grabTurn(point);
    if (this.tool !== "select") return false;
    if (event.shiftKey) return this.beginBox(point);
    if (!page.session?.room) return false;
    const at = page.view.positionAt(point);
    const isTouch = event.pointerType !== "mouse";
    return this.grabNode(at, isTouch) || (!isTouch && (this.grabMiddle(at) || this.grabWay(point, at)));
  }

  /**
   * Notes what is dragged, and what the mapper sees as the drag begins.
   * @param {Omit<Dragged, "dx" | "dy" | "sight" | "seen">} dragged
   */
  beginDrag(dragged) {
    const { page } = this;
    const seen = page.nodeRowsOf(dragged.els);
    this.dragged = { dx: 0, dy: 0, sight: page.joinedSession.sight(), seen, ...dragged };
    return true;
  }

  /**
   * Begins to drag a node: one that is selected or, with a mouse, one of a selected way, or one that is seen exactly
   * there.
   * @param {Position} at
   * @param {boolean} isTouch
   */
  grabNode(at, isTouch) {
    const { page } = this;
    const [node] = page.shapes.nodesAt(at, this.reach(isTouch), (el) => page.selected.includes(el));
    if (!node) return false;
    const isOfWay = page.shapes.usersOf(node.el).some((way) => page.selected.includes(way));
    const isHit = page.view.zoom >= 17 && node.distance * page.view.scale <= HIT && page.isInside;
    if (!page.selected.includes(node.el) && (isTouch || !(isOfWay || isHit))) return false;
    return this.beginDrag({ els: [node.el], nodes: new Set([idOf(node.el)]), from: at, single: node.el });
  }

  /**
   * The segments of the selected way that have a handle in their middle.
   * @returns {EndedSegment[]}
   */
  middles() {
    const { page } = this;
    const [el, ...others] = page.selected;
    const way = others.length === 0 && page.view.zoom >= 17 ? page.elements.get(el ?? "") : null;
    if (!way?.nodes || !areSafe(way.nodes) || this.tool !== "select" || !page.isInside) return [];
    const segments = way.nodes.slice(1).flatMap((_, at) => (
      this.withEnds({ el, index: at + 1, part: 0.5, x: 0, y: 0, distance: 0 }) ?? []
    ));
    return segments.filter(({ ends: [one, other] }) => distanceBetween(one, other) * page.view.scale > LEAST_SEGMENT)
      .map((each) => ({ ...each, x: (each.ends[0].x + each.ends[1].x) / 2, y: (each.ends[0].y + each.ends[1].y) / 2 }));
  }

  /**
   * Begins to drag a new node out of the middle of a segment.
   * @param {Position} at
   */
  grabMiddle(at) {
    const { page } = this;
    const middle = this.middles().find((each) => distanceBetween(each, at) * page.view.scale <= HIT);
    if (!middle) return false;
    return this.beginDrag({ els: [middle.el], nodes: new Set(), from: at, single: null, middle });
  }

  /**
   * Begins to move what is selected, if a selected way is there.
   * @param {Point} point
   * @param {Position} at
   */
  grabWay(point, at) {
    const { page } = this;
    const el = this.find(point);
    if (!el || el[0] !== "w" || !page.selected.includes(el)) return false;
    const els = page.selected.filter((each) => each[0] !== "r");
    return this.beginDrag({ els, nodes: page.nodesOf(els), from: at, single: null });
  }

  /** @param {Point} point */
  grabAll(point) {
    const { page } = this;
    const at = page.view.positionAt(point);
    const box = emptyBox();
    const els = page.selected.filter((el) => el[0] !== "r");
    for (const el of els) stretchBy(box, page.shapes.boxOf(el));
    const margin = 20 / page.view.scale;
    const isIn = at.x > box.west - margin && at.x < box.east + margin && at.y > box.north - margin
      && at.y < box.south + margin;
    if (els.length === 0 || !isIn) return false;
    return this.beginDrag({ els, nodes: page.nodesOf(els), from: at, single: null });
  }

  /**
   * Begins to turn what is selected round its middle, wherever the map is pressed.
   * @param {Point} point
   */
  grabTurn(point) {
    const { page } = this;
    const els = page.selected.filter((el) => el[0] !== "r");
    const nodes = page.nodesOf(els);
    if (nodes.size < 2) return false;
    const round = page.middleOf(els);
    const from = page.view.positionAt(point);
    return this.beginDrag({ els, nodes, from, single: null, turn: { round, angle: 0 } });
  }

  /** @param {Point} point */
  beginBox(point) {
    this.dragged = { box: point, to: point };
    return true;
  }

  /** @param {Point} point */
  drag(point) {
    const { page, dragged } = this;
    if (!dragged) return;
    if (dragged.box) {
      dragged.to = point;
    } else {
      const at = page.view.positionAt(point);
      const { turn, from } = dragged;
      if (turn) turn.angle = angleTo(turn.round, at) - angleTo(turn.round, from);
      dragged.dx = at.x - dragged.from.x;
      dragged.dy = at.y - dragged.from.y;
      dragged.onto = dragged.joins = null;
      if (dragged.single) this.snapDragged(dragged, dragged.single, at);
    }
    page.view.paintOverSoon();
  }

  /**
   * A node that is dragged onto another is joined to it, and the end of a line to the segments that it is dragged onto.
   * @param {Dragged} dragged
   * @param {string} node
   * @param {Position} at
   */
  snapDragged(dragged, node, at) {
    const { page } = this;
    const start = page.shapes.positionOf(node);
    if (!start || !this.isJoint(node) || !this.isSnapping || !$("joining").checked) return;
    const near = page.shapes.nodesAt(at, 8 / page.view.scale);
    const onto = near.find(({ el }) => el !== node && this.isJoint(el));
    const joins = !onto && this.isEnd(node) ? this.snapToSegments(at, 8 / page.view.scale, idOf(node)) : null;
    const place = onto ?? joins;
    if (!place || distanceBetween(place, start) * page.view.scale < 8) return;
    Object.assign(dragged, { onto: onto?.el ?? null, joins, dx: place.x - start.x, dy: place.y - start.y });
  }

  /**
   * Whether a line begins or ends at a node.
   * @param {string} node
   */
  isEnd(node) {
    const { shapes, elements } = this.page;
    return shapes.usersOf(node).some((way) => Edits.endsAt(way, idOf(node), elements));
  }

  drop() {
    const { page, dragged } = this;
    this.dragged = null;
    if (!dragged) return;
    page.view.paintOverSoon();
    if (dragged.box) {
      this.selectBox(dragged);
      return;
    }
    const gone = dragged.els.find((el) => !page.elements.has(el));
    if (gone) {
      const by = page.joinedSession.lastToChange(({ el, after }) => el === gone && !after);
      page.sayWrong(`Not done: ${by ?? "somebody"} deleted ${gone} while you dragged it.`);
      return;
    }
    this.moving.add(dragged);
    this.saveDrag(dragged).finally(() => {
      this.moving.delete(dragged);
      page.view.paintOverSoon();
    });
  }

  /**
   * @param {Dragged} dragged
   * @returns {Promise<unknown>}
   */
  async saveDrag({ single, onto, joins, middle, turn, els, dx, dy, sight, seen }) {
    const { page } = this;
    if (turn) return page.rotate(els, turn.angle, turn.round, { sight, seen });
    if (middle) return this.saveMiddle(middle, dx, dy, sight);
    if (single && joins?.segments) return this.saveJoin(single, joins, sight, seen);
    if (!onto) return this.moveBy(els, dx, dy, { sight, seen });
    const build = () => [{ do: "merge", el: onto, with: single }];
    return page.perform(`joined ${single} to ${onto}`, build, () => onto, undefined, { sight });
  }

  /**
   * Joins the end of a line that was dragged onto segments.
   * @param {string} node
   * @param {Place} place
   * @param {Sight} sight
   * @param {MapNode[]} seen
   */
  saveJoin(node, place, sight, seen) {
    const { page } = this;
    const ways = page.titles([...new Set((place.segments ?? []).map(({ el }) => el))]);
    const text = `joined ${node} to ${ways}`;
    /** @type {LostJoint[]} */
    let lost = [];
    const build = () => Edits.moveOnto(node, place, page.elements, page.shapes, (lost = []));
    const claims = [page.claimPlace(node, seen, `join it to ${ways}`)];
    return page.perform(text, build, () => {
      page.sayLost(text, lost, "This line");
      return node;
    }, undefined, { sight, claims });
  }

  /**
   * Makes a node of a way that was dragged out of the middle of a segment.
   * @param {EndedSegment} middle
   * @param {number} dx
   * @param {number} dy
   * @param {Sight} sight
   */
  saveMiddle({ el, one, other, x, y }, dx, dy, sight) {
    const { page } = this;
    const ways = page.shapes.usersOf(one).filter((way) => page.shapes.usersOf(other).includes(way));
    const segments = ways.map((way) => ({ el: way, one, other, part: 0.5 }));
    return this.savePoint(`added a node to ${page.titles([el])}`, { x: x + dx, y: y + dy, segments, isFree: true }, {},
      el, sight);
  }

  /**
   * Moves elements by a distance on the plane.
   * @param {string[]} els
   * @param {number} dx
   * @param {number} dy
   * @param {{ sight?: Sight, seen?: MapNode[] }} before
   * @returns {Promise<boolean> | undefined}
   */
  moveBy(els, dx, dy, { sight, seen = this.page.nodeRowsOf(els) } = {}) {
    const { page } = this;
    const start = page.shapes.positionOf(page.elements.get(els[0])?.nodes?.[0] ?? els[0]);
    if (!start) return undefined;
    /** @param {number} degrees */
    const steps = (degrees) => Math.round(degrees * 1e7);
    const dlat = steps(Mercator.lat(start.y + dy) - Mercator.lat(start.y));
    const dlon = steps(dx * 360);
    if (!dlat && !dlon) return undefined;
    const mine = `moved by ${shiftText(start, { x: start.x + dx, y: start.y + dy })}`;
    const claim = page.claimPlace(els[0], seen, mine);
    const build = () => (
      claim.isForced ? Edits.moveFrom(seen, dlat, dlon, page.elements) : [{ do: "move", els, dlat, dlon }]
    );
    return page.perform(`moved ${page.titles(els)}`, build, undefined, undefined, { sight, claims: [claim] });
  }

  /** @param {BoxDrag} dragged */
  selectBox({ box, to }) {
    const { page } = this;
    const one = page.view.positionAt({ x: Math.min(box.x, to.x), y: Math.min(box.y, to.y) });
    const other = page.view.positionAt({ x: Math.max(box.x, to.x), y: Math.max(box.y, to.y) });
    page.select(...page.shapes.within({ west: one.x, north: one.y, east: other.x, south: other.y }).slice(0, 500));
  }

  letGo() {
    this.dragged = null;
    this.page.view.paintOverSoon();
  }

  // ---- The pointer over the map

  /**
   * @param {Point | null} point
   * @param {PointerEvent} [event]
   */
  hover(point, event) {
    const { page } = this;
    this.cursor = point;
    page.showWhere(point);
    if (event) this.isSnapping = !event.altKey;
    page.view.soon("hover", () => {
      const isSelecting = this.tool === "select" || this.tool === "members";
      this.hovered = this.cursor && isSelecting && page.session?.room ? this.find(this.cursor) : null;
      page.showUnder(this.hovered, this.cursor);
      page.view.paintOverSoon();
    });
  }

  /** @param {Point} point */
  menu(point) {
    const { page } = this;
    if (!page.session?.room) return;
    if (this.draft?.places.length) {
      page.openMenu(point, [["Finish here", () => {
        this.addPlace(this.snap(point, true));
        if (this.draft) this.finish();
      }], ["Remove the last point", () => this.removeLast()], ["Give up the drawing", () => this.escape()]]);
      return;
    }
    const el = this.find(point, true);
    /** @param {"point" | "line" | "area"} tool */
    const begin = (tool) => () => {
      this.use(tool);
      this.click(point, { isTouch: true });
    };
    /** @type {[text: string, work: () => void][]} */
    const items = [
      ["Point here", begin("point")], ["Line from here", begin("line")], ["Area from here", begin("area")],
    ];
    const row = el ? page.elements.get(el) : null;
    const isMore = row && page.selected.length > 0 && !page.selected.includes(row.el);
    const others = page.rowsOf(this.allAt(point, true)).filter((each) => each !== row);
    for (const each of others.reverse()) items.unshift([`Select ${titleOf(each)}`, () => page.select(each.el)]);
    if (isMore) items.unshift([`Select ${titleOf(row)} too`, () => page.select(...page.selected, row.el)]);
    else if (row) items.unshift([`Select ${titleOf(row)}`, () => page.select(row.el)]);
    page.openMenu(point, items);
  }

  // ---- Keys

  /**
   * A key that was pressed on the map, or anywhere but in a field.
   * @param {KeyboardEvent} event
   * @returns {void}
   */
  key(event) {
    const { page } = this;
    const isOnMap = event.target === $("map");
    const key = event.key.length === 1 ? event.key.toLowerCase() : event.key;
    const steps = isOnMap && this.tool === "move" ? MOVE_KEYS[key] : null;
    const tool = TOOL_KEYS[key];
    if (key === "Escape") this.escape();
    else if (key === "Backspace" && this.draft) this.removeLast();
    else if (key === "Delete" || key === "Backspace") this.draft || page.isHeld(event) || page.deleteSelected();
    else if (key === "Enter" && this.draft && !isIn(event, "button, a")) this.finish();
    else if (steps) page.isHeld(event) || this.nudge(steps, event.shiftKey ? 10 : 1);
    else if (isOnMap && this.tool === "rotate" && MOVE_KEYS[key]) page.isHeld(event) || this.turn(key, event.shiftKey);
    else if (SHAPE_KEYS[key] && this.tool === "select") page.isHeld(event) || page.shape(SHAPE_KEYS[key]);
    else if (tool === "move" || tool === "rotate") page.selected.length && this.use(tool);
    else if (tool) this.use(tool);
    else if (isOnMap && MOVE_KEYS[key]) page.view.pan(MOVE_KEYS[key][0] * 60, MOVE_KEYS[key][1] * 60);
    else if (isOnMap && (key === " " || key === "Enter")) this.click(page.view.middle());
    else if (key === "+" || key === "=") page.view.zoomBy(0.5);
    else if (key === "-") page.view.zoomBy(-0.5);
    else if (key === "0") page.fit();
    else if (key === "?") Shortcuts.toggle();
    else if (key === "f") focusFind();
    else return;
    event.preventDefault();
  }

  /**
   * @param {readonly [number, number]} direction
   * @param {number} pixels
   */
  nudge([right, down], pixels) {
    const { page } = this;
    const els = page.selected.filter((el) => el[0] !== "r");
    if (els.length) this.moveBy(els, (right * pixels) / page.view.scale, (down * pixels) / page.view.scale);
  }

  /**
   * Turns what is selected by a key: by a degree, or ten.
   * @param {string} key
   * @param {boolean} isFar
   */
  turn(key, isFar) {
    const [right, down] = MOVE_KEYS[key];
    const { page } = this;
    const els = page.selected.filter((el) => el[0] !== "r");
    if (els.length) page.rotate(els, ((right + down) * (isFar ? 10 : 1) * Math.PI) / 180, page.middleOf(els));
  }
}
