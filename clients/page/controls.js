// Buttons, fields and keys: what each of them does.
"use strict";

/** @param {Page} page */
function listen(page) {
  const { tools, panels } = page;
  $("hello").onsubmit = (event) => {
    event.preventDefault();
    if (page.session && !page.session.isOver) return page.session.end();
    const [url, roomName] = [$("address").value.trim(), $("room").value];
    const question = "What you drew or typed in the last room is not saved. Connect to another room and drop it?";
    if (page.isElsewhere(url, roomName) && !page.mayLeave() && !confirm(question)) return undefined;
    return page.connect(url, roomName, $("name").value);
  };
  /** @type {Partial<Record<ButtonId, () => void>>} */
  const clicks = {
    leave: () => page.leave(), share: () => page.share(), undo: () => page.undo(), redo: () => page.redo(),
    select: () => tools.use("select"), point: () => tools.use("point"), line: () => tools.use("line"),
    area: () => tools.use("area"), finish: () => tools.finish(), back: () => tools.removeLast(),
    cancel: () => tools.escape(), closer: () => page.view.zoomBy(1), farther: () => page.view.zoomBy(-1),
    fit: () => page.fit(),
    show: () => page.show(page.shown), hush: () => page.say(""), sheet: () => openSheet(),
    "undo-possible": () => page.undoLastPossible(),
    "close-not-done": () => page.closeNotDone(), "check-map": () => page.warnings.checkAll(),
    "open-sheet": () => openSheet(true), "close-sheet": () => openSheet(false),
    locate: () => page.locator.toggle(), help: () => Shortcuts.toggle(), "close-shortcuts": () => Shortcuts.close(),
  };
  for (const [id, work] of Object.entries(clicks)) $(/** @type {ButtonId} */(id)).onclick = work;
  $("find").oninput = () => {
    panels.mostFound = MOST_SHOWN;
    panels.showFound();
  };
  $("find").onkeydown = (event) => {
    if (event.key === "Enter" && panels.firstFound) page.show(panels.firstFound);
  };
  $("selected").addEventListener("input", () => panels.fault && panels.dropFault());
  page.files.listen();
  page.kept.listen();
  listenToInputs(page);
  listenToKeys(page);
  addEventListener("beforeunload", (event) => {
    if (page.mayLeave()) return;
    event.preventDefault();
    event.returnValue = true; // for Chrome before 119
  });
  document.addEventListener("pointerdown", (event) => isIn(event, "#menu") || page.closeMenu(), true);
}

/** Lets the mapper type what is to be found, on a small screen in the sheet of details. */
function focusFind() {
  if (getComputedStyle($("side")).visibility === "hidden") openSheet(true);
  $("find").focus();
  $("find").select();
}

/** On a small screen: opens or closes the sheet of details. What is selected stays in sight. */
function openSheet(isOpen = !document.body.classList.contains("open")) {
  document.body.classList.toggle("open", isOpen);
  $("sheet").setAttribute("aria-expanded", String(isOpen));
  if (isOpen) $("side").scrollTop = 0;
  const box = emptyBox();
  for (const el of isOpen ? page.selected : []) stretchBy(box, page.shapes.boxOf(el));
  const { offsetWidth: width, offsetHeight: height } = $("side");
  const isBeside = width < innerWidth; // on a phone that lies on its side
  page.view.uncover(box, isBeside ? width : 0, isBeside ? 0 : $("frame").getBoundingClientRect().bottom - innerHeight
    + height);
}

/**
 * Counts what a mapper presses. A click without a pointer comes from a key or from a screen reader.
 * @param {Page} page
 */
function listenToInputs(page) {
  const count = () => {
    page.inputs += 1;
  };
  document.addEventListener("pointerdown", (event) => {
    count();
    if (event.pointerType) page.isTouch = event.pointerType !== "mouse";
    if (event.button === 0 && isIn(event, "#side, #above")) page.panels.press();
  }, true);
  for (const kind of ["pointerup", "pointercancel"]) document.addEventListener(kind, () => page.panels.release(), true);
  document.addEventListener("keydown", count, true);
  document.addEventListener("click", (event) => event.detail || count(), true);
}

/** @param {Page} page */
function listenToKeys(page) {
  document.addEventListener("keydown", (event) => {
    const { target } = event;
    const isTyping = isIn(event, "input:not([type=checkbox]), textarea, select");
    if (event.key === "Escape" && !$("menu").hidden) {
      page.closeMenu();
    } else if (event.key === "Escape" && !$("shortcuts").hidden) {
      Shortcuts.close();
    } else if (event.key === "Escape" && !$("photo").hidden) {
      page.files.closePhoto();
    } else if (event.ctrlKey || event.metaKey) {
      if (!isTyping) undoKeys(page, event);
    } else if (isTyping && event.key === "Escape") {
      if (target instanceof HTMLElement) target.blur();
    } else if (!isTyping && !event.altKey) {
      page.tools.key(event);
    }
  });
  const showCross = () => {
    page.isByKeys = $("map").matches(":focus-visible");
    page.view.paintOverSoon();
  };
  for (const kind of ["focus", "blur"]) $("map").addEventListener(kind, showCross);
}

/**
 * Caps lock makes letters large, so it is the shift key that counts.
 * @param {Page} page
 * @param {KeyboardEvent} event
 */
function undoKeys(page, event) {
  const key = event.key.toLowerCase();
  if (key === "z" && page.tools.draft?.places.length) page.tools.removeLast();
  else if (key === "z" && !event.shiftKey) page.isHeld(event) || page.undo();
  else if (key === "y" || key === "z") page.isHeld(event) || page.redo();
  else if (key === "c" && !getSelection()?.toString()) page.copySelected();
  else if (key === "v" && event.shiftKey) page.isHeld(event) || page.pasteTags();
  else if (key === "v") page.isHeld(event) || page.paste(page.view.positionAt(page.tools.cursor ?? page.view.middle()));
  else return;
  event.preventDefault();
}
