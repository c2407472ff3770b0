"""Cases: fingers, phones, keys alone, and a screen reader."""
from __future__ import annotations

from lib.browser import Page
from lib.cases import want
from lib.map_pages import at_node, at_rest, opened, pause, settled, url_of
from lib.talk import serving
from page_cases.looking import at, comes, new_names, small_targets
from page_cases.opening import base_of, browsing, page_case, pages, village


@page_case
def fingers() -> None:
    """Two fingers zoom; a tap of two fingers and the right button make nothing; a long press opens a menu, and a tap
    draws and selects."""
    with pages("anna") as (_, _, anna):
        anna.resize(390, 800, is_phone=True)
        anna.wait("innerWidth === 390 && page.view.size().x === 390")
        anna.get("page.fit()")
        zoom = anna.get("page.view.zoom")
        anna.fingers("touchStart", (150, 400), (240, 400))
        for step in range(1, 7):
            anna.fingers("touchMove", (150 - 15 * step, 400), (240 + 15 * step, 400))
        anna.fingers("touchEnd")
        anna.wait(f"page.view.zoom > {zoom + 0.4}")
        at_rest(anna).get("page.fit()")
        at_rest(anna)
        anna.click("#point")
        anna.fingers("touchStart", (150, 500))
        anna.fingers("touchStart", (150, 500), (200, 500))
        anna.fingers("touchEnd")
        x, y = at(anna, 47.6006, 8.2002)
        anna.mouse("mousePressed", x, y, button="right")
        anna.mouse("mouseReleased", x, y, button="right")
        anna.get("page.closeMenu()")
        want(new_names(settled(anna)), [])
        anna.tap(x, y)
        anna.wait("page.elements.has('n-1')")
        settled(anna)
        anna.wait_text("#chosen-title", "node n-1")
        x, y = at_node(anna, "n4")
        anna.tap(x, y)
        anna.wait("page.selected[0] === 'n4'")
        anna.wait_text("#chosen-title", "tree n4")
        pause(anna)
        anna.fingers("touchStart", at_node(anna, "n3"))
        anna.wait("!$('menu').hidden")
        anna.fingers("touchEnd")
        anna.wait_text("#menu", "Select node n3 too")
        anna.click("#menu button", "Line from here")
        want(anna.get("page.tools.draft.places.map(({ el }) => el)"), ["n3"])
        for tool in ("point", "line", "area", "move", "members"):
            anna.get("page.isTouch = true, page.tools.use('%s', { relation: 'r1' })" % tool)
            want([word for word in ("lick", "Enter", "Escape", "key") if word in anna.get("$('said').textContent")], [])
        anna.get("page.tools.use('line')")
        anna.tap(x, y)
        anna.wait_text("#said", "1 point. Tap where the line goes. “Finish” finishes it")


@page_case
def a_phone() -> None:
    """On a phone the map has the room, details are a sheet that is opened and closed, targets are large, and a refusal
    is in sight, also while the sheet is open. A bar with what is selected opens the sheet, which leaves it in sight."""
    with pages("anna") as (_, _, anna):
        for width, height in ((320, 640), (390, 800)):
            anna.resize(width, height, is_phone=True)
            anna.wait(f"innerWidth === {width} && page.view.size().x === {width}")
            want((width, anna.get("document.documentElement.scrollWidth <= innerWidth")), (width, True))
            want(anna.get("$('frame').clientHeight > innerHeight * 0.6"), True)
            anna.get("page.select('w3'); page.fit()")
            anna.wait_text("#chosen-title", "Mill Lane, street w3")
            anna.get("page.view.pan(0, -page.view.size().y / 3)")
            anna.click("#chosen button")
            anna.wait("$('side').getBoundingClientRect().bottom <= innerHeight + 1")
            want(small_targets(anna), [])
            want((width, anna.get("$('side').offsetHeight < innerHeight * 0.5")), (width, True))
            want(at_node(anna, "n9")[1] < anna.get("$('side').getBoundingClientRect().top"), True)
            want(anna.get("$('chosen').checkVisibility()"), False)
            anna.click("#selected button", "Delete")
            anna.wait_text("#message.refused", "route r1 uses this")
            said, side = ("$('said').getBoundingClientRect()", "$('side').getBoundingClientRect()")
            want(anna.get(f"{said}.top >= 0 && {said}.bottom <= {side}.top && {said}.height > 10"), True)
            anna.click("#hush")
            anna.get("$('side').scrollTop = 300, 0")
            anna.click("#close-sheet")
            anna.wait("$('side').checkVisibility({ visibilityProperty: true }) === false")
            # A browser scrolls to a field that gets the focus, also while the sheet goes.
            anna.click("#sheet")
            anna.wait("$('side').getBoundingClientRect().bottom <= innerHeight + 1")
            anna.get(
                """new Promise((done) => {
                $('close-sheet').click();
                const field = document.querySelector('#selected input');
                setTimeout(() => done(field.focus()), 100);
            })"""
            )
            anna.wait("$('side').checkVisibility({ visibilityProperty: true }) === false")
            tops = "[...document.querySelectorAll('body, main, #frame')].map((each) => each.scrollTop)"
            want(anna.get(tops), [0, 0, 0])


@page_case
def a_phone_on_its_side() -> None:
    """On a phone that lies on its side there is one bar above the map. The details are beside the map, which moves what
    is selected out from under them."""
    with pages("anna") as (_, _, anna):
        for width, height in ((640, 320), (844, 390)):
            anna.resize(width, height, is_phone=True)
            anna.wait(f"innerWidth === {width} && page.view.size().x === {width}")
            want((width, anna.get("document.documentElement.scrollWidth <= innerWidth")), (width, True))
            want((width, anna.get("$('frame').clientHeight > innerHeight * 0.8")), (width, True))
            anna.get("page.select('w3'), page.fit()")
            at_rest(anna).get("page.view.pan(-page.view.size().x / 3, 0)")
            anna.click("#sheet")
            anna.wait("$('side').getBoundingClientRect().right <= innerWidth + 1")
            want(
                anna.get("$('side').getBoundingClientRect().top < 2 && $('side').offsetHeight > innerHeight - 60"), True
            )
            want(at_node(at_rest(anna), "n9")[0] < anna.get("$('side').getBoundingClientRect().left"), True)
            want(small_targets(anna), [])
            anna.click("#close-sheet")
            anna.wait("$('side').checkVisibility({ visibilityProperty: true }) === false")
            shown = "[...document.querySelectorAll('#tools button')].filter((each) => each.checkVisibility())"
            tops = anna.get(f"{shown}.map((each) => each.getBoundingClientRect().top)")
            want((len(tops) > 7, len(set(tops))), (True, 1))
            ends = anna.get(f"{shown}.map((each) => each.getBoundingClientRect().right)")
            want(max(ends) <= anna.get("$('leave').getBoundingClientRect().left"), True)


@page_case
def the_list_of_keys() -> None:
    """The key ? shows the keys, and Escape closes the list: the focus is where it was. Each key of a tool is in it."""
    with pages("anna") as (_, _, anna):
        anna.get("$('map').focus()")
        anna.press("?")
        anna.wait("!$('shortcuts').hidden && document.activeElement === $('close-shortcuts')")
        keys = anna.get("[...document.querySelectorAll('#shortcuts kbd')].map((each) => each.textContent)")
        tools = anna.get("[...Object.keys(TOOL_KEYS), ...Object.keys(SHAPE_KEYS)].map((each) => each.toUpperCase())")
        want([key for key in tools if key not in " ".join(keys).split()], [])
        anna.press("Escape")
        want(anna.get("[$('shortcuts').hidden, document.activeElement.id]"), [True, "map"])
        anna.click("#help")
        anna.wait("!$('shortcuts').hidden")
        anna.click("#close-shortcuts")
        want(anna.get("$('shortcuts').hidden"), True)
        anna.press("f")
        want(anna.get("document.activeElement.id"), "find")
        anna.press("?")
        want(anna.get("$('shortcuts').hidden"), True)


@page_case
def narrow_and_wide() -> None:
    """At each width nothing is wider than the window, each button can be hit, and each field has a name."""
    with pages("anna") as (_, _, anna):
        for width, height in ((700, 500), (821, 600), (1920, 1080)):
            anna.resize(width, height)
            anna.wait(f"innerWidth === {width} && page.view.size().x <= {width}")
            for name in ("w1", "n2", "r1"):
                anna.get(f"page.select('{name}')")
                want((width, anna.get("document.documentElement.scrollWidth <= innerWidth")), (width, True))
                shown = "[...document.querySelectorAll('button')].filter((each) => each.checkVisibility())"
                small = f"{shown}.filter((each) => Math.min(each.offsetWidth, each.offsetHeight) < 24)"
                want((width, anna.get(f"{small}.map((each) => each.textContent)")), (width, []))
            want(anna.get("$('frame').clientHeight > 200"), True)
        fields = "[...document.querySelectorAll('input, textarea, select')]"
        want(anna.get(f"{fields}.filter((each) => !each.labels.length && !each.ariaLabel).length"), 0)


@page_case
def by_keys_alone() -> None:
    """With keys alone a page is filled in, a node is made, tagged and untagged, and a way is drawn; the focus is
    seen, and the middle of the map is marked."""
    with serving(workers=1, sessions=9, base=base_of(village())) as server, browsing() as (files, chrome):
        page = opened(chrome, url_of(files, server.port, "", ""))
        page.ask("Page.bringToFront")
        page.get("$('room').focus()")
        for text in ("paris", "anna"):
            page.ask("Input.insertText", text=text)
            page.press("Tab")
        page.press("Enter")
        page.wait("page.session?.state === 'open' && page.elements.size > 0")
        tabs_to(page, "point")
        want(page.get("getComputedStyle(document.activeElement).outlineStyle"), "solid")
        page.press("Enter")
        tabs_to(page, "map")
        want(page.get("page.isByKeys"), True)
        for key in ("ArrowRight", "+", "ArrowUp", "ArrowUp"):
            page.press(key)
        page.press(" ")
        page.wait("page.selected[0] === 'n-1'")
        tagged_by_keys(settled(page))
        page.get("$('map').focus()")
        for key in ("l", " ", "ArrowLeft", " ", "Enter"):
            page.press(key)
        page.wait("page.elements.has('w-1')")
        page.end()


def tagged_by_keys(page: Page) -> None:
    """Gives the node that was made a tag, undoes it, and redoes it."""
    page.get("$('selected').querySelector('input').focus()")
    page.ask("Input.insertText", text="natural")
    page.press("Tab")
    page.ask("Input.insertText", text="tree")
    page.press("Enter")
    comes(page, "n-1", "tags", {"natural": "tree"})
    settled(page).get("$('map').focus()")
    page.wait("page.session.undos.length === 2")
    page.press("z", modifiers=2)
    comes(page, "n-1", "tags", {})
    settled(page).wait("page.session.redos.length === 1")
    page.press("y", modifiers=2)
    comes(page, "n-1", "tags", {"natural": "tree"})
    settled(page)


def tabs_to(page: Page, name: str) -> None:
    """Presses Tab until an element has the focus."""
    for _ in range(60):
        if page.get("document.activeElement.id") == name:
            return
        page.press("Tab")
    raise AssertionError(f"no Tab comes to {name}")


@page_case
def for_a_screen_reader() -> None:
    """Each tool and field has a name in the tree of a screen reader, and what others change is said politely."""
    with pages("anna") as (_, zoe, anna):
        for name in ("w1", "n2", "r1"):
            anna.get(f"page.select('{name}')")
            tree = anna.tree()
            roles = ("button", "textbox", "combobox", "searchbox", "checkbox")
            want([one for one in tree if one[0] in roles and not one[1]], [])
        tools = {"Select", "Point", "Line", "Area", "Undo", "Redo", "Zoom in", "Zoom out", "Find", "My place", "Keys"}
        want(tools - {name for _, name in tree}, set())
        want(("application", "The map") in tree, True)
        zoe.ask({"id": 4, "do": "retag", "el": "n4", "tags": {"ref": "1"}})
        anna.wait_text("#news", "zoe set ref=1 on the tree 1")
        want(anna.get("[$('news').ariaLive, $('said').ariaLive]"), ["polite", "polite"])
