"""Cases: each tool, the window, names on the map, and areas."""
from __future__ import annotations

import math

from lib.browser import Page
from lib.cases import TOP, want
from lib.map_pages import at_node, at_rest, connect, opened, settled, url_of
from lib.programs import run
from lib.talk import serving
from page_cases.looking import at, comes, row
from page_cases.opening import Row, a_node, browsing, page_case, pages


def tags_and_nodes(anna: Page) -> None:
    """Tags by fields, by a preset, and the nodes of a way."""
    anna.fill("#find", "path")
    anna.click("#found button", "w1")
    anna.wait_text("#selected-title", "<img src=x onerror=alert(1)>, path w1")
    anna.fill("#selected .tag:last-child input", "surface")
    anna.fill("#selected .tag:last-child input:nth-child(2)", "gravel")
    anna.click("#selected button", "Save tags")
    comes(anna, "w1", "tags.surface", "gravel")
    anna.click("#selected .tag button[aria-label='Remove surface']")
    anna.click("#selected button", "Save tags")
    anna.wait("!('surface' in page.elements.get('w1').tags)")
    anna.fill("#selected [data-field='Preset']", "street")
    anna.press("Enter")
    anna.click("#selected button", "Save tags")
    comes(anna, "w1", "tags.highway", "residential")
    anna.click("#selected summary")
    anna.fill("#selected textarea", "1 2 3 4")
    anna.click("#selected button", "Save nodes")
    comes(anna, "w1", "nodes", [1, 2, 3, 4])
    anna.click("#selected button", "Reverse")
    comes(anna, "w1", "nodes", [4, 3, 2, 1])


@page_case
def a_list_of_nodes_that_others_change() -> None:
    """A typed list of nodes is not saved over what somebody else put into the way meanwhile. It stays in its field
    until the way is selected again."""
    with pages("anna") as (_, zoe, anna):
        anna.get("page.select('w1')")
        anna.click("#selected summary")
        nodes = row(anna, "w1")["nodes"]
        typed = " ".join(map(str, nodes[::-1]))
        anna.fill("#selected textarea", typed)
        zoe.ask({"id": 2, "do": "nodes", "el": "w1", "nodes": [*nodes, 4]})
        comes(anna, "w1", "nodes", [*nodes, 4])
        want(anna.get("document.querySelector('#selected textarea').value"), typed)
        anna.click("#selected button", "Save nodes")
        anna.wait_text("#not-done", "Somebody changed the nodes of w1 meanwhile.")
        want(row(anna, "w1")["nodes"], [*nodes, 4])
        anna.get("page.select('w1')")
        anna.fill("#selected textarea", f"{typed} 4")
        anna.click("#selected button", "Save nodes")
        comes(anna, "w1", "nodes", [*nodes[::-1], 4])
        anna.end()


def parts_and_members(anna: Page) -> None:
    """A split, a join of the parts, and members that are picked on the map."""
    anna.get("page.select('n2')")
    anna.click("#selected button", "Split w1 here")
    comes(anna, "w-1", "nodes", [2, 1])
    anna.get("page.select('w-1', 'w1')")
    anna.click("#selected button", "Join")
    comes(anna, "w1", "nodes", [4, 3, 2, 1])
    settled(anna).click("#relations button", "r1")
    anna.click("#selected button", "Pick members on the map")
    anna.click_at(*at_node(anna, "n4"))
    comes(anna, "r1", "members", [["w3", "part"], ["n4", ""]])
    settled(anna).press("Escape")
    anna.fill("#selected input[aria-label='Role of n4']", "stop")
    anna.get("$('selected').querySelector(\"input[aria-label='Role of n4']\").blur()")
    comes(anna, "r1", "members", [["w3", "part"], ["n4", "stop"]])
    anna.click("#selected button[aria-label='Remove n4']")
    comes(anna, "r1", "members", [["w3", "part"]])


def nodes_of_a_way(anna: Page) -> None:
    """A merge by a drag, a purge, a move by numbers, and numbers that are none."""
    drag_onto(anna, "n3", "n2")
    comes(anna, "w1", "nodes", [4, 2, 1])
    anna.get("page.select('n2')")
    fill_in(anna, "Latitude", "47,6001")
    anna.click("#selected button", "Move to")
    comes(anna, "n2", "lat", "47.6001000")
    fill_in(settled(anna), "Latitude", "a lot")
    anna.click("#selected button", "Move to")
    anna.wait_text("#selected .fault", "The latitude is a number from -90 to 90")
    field = "document.querySelector('[aria-invalid]')"
    want(anna.get(f"[{field}.dataset.field, $('said').textContent.includes('latitude')]"), ["Latitude", False])
    fill_in(anna, "Latitude", "47.6")
    want(anna.get(f"[{field}, document.querySelector('.fault')]"), [None, None])
    anna.get("page.select('w3')")
    anna.click("#selected button", "Delete")
    anna.wait_text("#message.refused", "route r1 uses this")
    anna.click("#selected button", "Delete everywhere")
    comes(anna, "r1", "members", [])


def drag_onto(page: Page, name: str, other: str) -> None:
    """Drags a node onto another one."""
    page.get(f"page.fit(), page.select('{name}')")
    page.drag(at_node(page, name), at_node(page, other))


def fill_in(page: Page, label: str, text: str) -> None:
    """Fills in a field of what is selected, by its label."""
    page.fill(f"#selected [data-field='{label}']", text)


@page_case
def each_tool() -> None:
    """Each tool of the page changes the map as it should, and the page follows."""
    with pages("anna") as (_, zoe, anna):
        for use in (tags_and_nodes, parts_and_members, nodes_of_a_way):
            use(anna)
            settled(anna)
        zoe.follow(anna.get("page.session.room.seq"))
        want(anna.get("Object.fromEntries(page.elements)"), zoe.rows)


@page_case
def several_and_moves() -> None:
    """Several are selected by shift and by a box; a building is moved by a drag and by keys, and is deleted."""
    with pages("anna") as (_, _, anna):
        anna.click_at(*at(anna, 47.60072, 8.20115))
        want(anna.get("page.selected"), ["w2"])
        was = row(anna, "n5")
        anna.click("#selected button", "Move")
        x, y = at(anna, 47.60072, 8.20115)
        anna.drag((x, y), (x + 30, y - 30))
        anna.wait(f"page.elements.get('n5').lat > '{was['lat']}'")
        moved = settled(anna) and row(anna, "n5")
        want((moved["lon"] > was["lon"], row(anna, "n7")["lat"] > "47.6006500"), (True, True))
        anna.get("$('map').focus()")
        anna.press("ArrowDown")
        anna.wait(f"page.elements.get('n5').lat < '{moved['lat']}'")
        settled(anna).press("Escape")
        anna.get("page.select()")
        anna.click_at(*at_node(anna, "n4"))
        anna.mouse("mousePressed", *at_node(anna, "n10"), modifiers=8)
        anna.mouse("mouseReleased", *at_node(anna, "n10"), modifiers=8)
        want(anna.get("page.selected.length"), 2)
        anna.get("page.select()")
        (x1, y1), (x2, y2) = at_node(anna, "n5"), at_node(anna, "n7")
        anna.mouse("mousePressed", x1 - 15, y1 - 15, modifiers=8)
        anna.mouse("mouseMoved", x2 + 15, y2 + 15, modifiers=8, buttons=1)
        anna.mouse("mouseReleased", x2 + 15, y2 + 15, modifiers=8)
        want(anna.get("page.selected"), ["w2"])
        anna.get("page.select('n4', 'w2')")
        anna.press("Delete")
        anna.wait("!page.elements.has('n4') && !page.elements.has('w2')")


@page_case
def the_window() -> None:
    """The wheel and a double click zoom round the pointer, a drag moves the map, and a click selects what was clicked,
    also inside a building; names and what lies under the pointer are shown."""
    with pages("anna") as (_, _, anna):
        x, y = at_node(anna, "n2")
        zoom = anna.get("page.view.zoom")
        anna.mouse("mouseWheel", x, y, deltaX=0, deltaY=-240, button="none")
        anna.wait(f"page.view.zoom > {zoom}")
        want(math.dist(at_node(at_rest(anna), "n2"), (x, y)) < 3, True)
        x, y = at_node(anna, "n2")
        anna.drag((x + 30, y + 60), (x + 80, y + 40))
        anna.click_at(*at_node(at_rest(anna), "n2"))
        anna.wait_text("#selected-title", "n2")
        anna.click("#fit")
        anna.wait(f"page.view.zoom === {zoom}")
        x, y = at_node(at_rest(anna), "n2")
        anna.double_click_at(x + 30, y + 60)
        anna.wait(f"page.view.zoom > {zoom}")
        want(math.dist(at_node(at_rest(anna), "n2"), (x - 30, y - 60)) < 3, True)
        anna.click("#fit")
        anna.wait(f"page.view.zoom === {zoom}")
        at_rest(anna).click_at(*at(anna, 47.60072, 8.20115))
        anna.wait_text("#selected-title", "building w2")
        anna.mouse("mouseMoved", *at_node(anna, "n4"), button="none")
        anna.wait_text("#under", "tree n4")
        anna.wait_text("#where", "47.6006")
        want(anna.get("$('figures').textContent"), "14 elements, entry 0")
        labels = anna.get("[...labelsIn(page, page.view.box(), page.view.zoom)].map(({ text }) => text)")
        want("Mill Lane" in labels, True)


# The names on the map that hide a node with tags, or the end of a line.
HIDING = """(() => {
    const { frame } = page.view.painted;
    const ends = [...page.shapes.ways.values()].filter(({ isClosed }) => !isClosed)
        .flatMap(({ slots }) => [slots[0], slots.at(-1)]);
    const tagged = [...page.shapes.names.keys()].filter((slot) => page.shapes.areTagged[slot]);
    const boxAt = (slot) => pixelsOf(pointBox(page.shapes.xs[slot], page.shapes.ys[slot]), frame, 2);
    const boxes = [...ends, ...tagged].map(boxAt);
    return page.view.written.filter(({ parts }) => parts.some((part) => boxes.some((box) => doMeet(part, box))))
        .map(({ text }) => text);
})()"""


@page_case
def where_names_are_written() -> None:
    """The names on the map hide no node with tags and no end of a line; that of a small building is next to it."""
    base = run("python3", f"{TOP}/clients/osm_to_base", f"{TOP}/docs/hamlet.osm").output.decode()
    with serving("hamlet", workers=4, sessions=20, base=base) as server, browsing() as (files, chrome):
        page = connect(opened(chrome, url_of(files, server.port, "anna", "hamlet")))
        written = "page.view.written.map(({ text }) => text)"
        streets = ["Altes Rathaus", "Am Weiher", "Hofgasse", "Lindenstraße", "Lindenstraße", "Mühlweiher"]
        for zoom, names in ((17.25, streets), (18.5, ["Rathaus", "19", *streets[:4]]), (19.25, ["8"])):
            page.get(f"page.view.map.setZoom({zoom}, {{ animate: false }}), page.view.paintTexts()")
            there = page.get(written)
            want((zoom, [name for name in names if name not in there]), (zoom, []))
            want((zoom, page.get(HIDING)), (zoom, []))
        house = "pixelsOf(page.shapes.boxOf('w37'), page.view.painted.frame, 0)"
        name = "page.view.written.find(({ text }) => text === 'Altes Rathaus')"
        page.get("page.show('w37')")
        for zoom, is_in_it in ((18, False), (20, True)):
            page.get(f"page.view.map.setZoom({zoom}, {{ animate: false }}), page.view.paintTexts()")
            want(page.get(f"{name}.parts.some((part) => doMeet(part, {house}))"), is_in_it)
        page.end()


# The colour of the map at a position, as numbers of red, green, blue and opacity.
COLOUR = """(({ x, y }) => {
    const { base, painted: { frame } } = page.view;
    const pixels = base.width / parseFloat(base.style.width);
    const at = [x * frame.scale - frame.left, y * frame.scale - frame.top].map((place) => Math.round(place * pixels));
    return [...base.getContext('2d').getImageData(...at, 1, 1).data].join();
})"""

WATER, GREEN, WOOD, NOTHING = "196,222,242,255", "213,232,200,255", "185,216,168,255", "0,0,0,0"


def lake() -> list[Row]:
    """A lake of two open ways, which have no tags, with an island, and its relation."""
    corners = [
        (47.6, 8.2),
        (47.6, 8.204),
        (47.603, 8.204),
        (47.603, 8.2),
        (47.601, 8.2015),
        (47.601, 8.2025),
        (47.602, 8.2025),
        (47.602, 8.2015),
    ]
    tags = {"type": "multipolygon", "natural": "water", "name": "Weiher"}
    return [a_node(number, *place) for number, place in enumerate(corners, 1)] + [
        {"el": "w1", "nodes": [1, 2, 3], "tags": {}},
        {"el": "w2", "nodes": [1, 4, 3], "tags": {}},
        {"el": "w3", "nodes": [5, 6, 7, 8, 5], "tags": {}},
        {"el": "r1", "members": [["w1", "outer"], ["w2", "outer"], ["w3", "inner"]], "tags": tags},
    ]


@page_case
def multipolygons() -> None:
    """The area of a multipolygon has the colour of its relation's tags, and its name. Holes have none. This follows
    changes of its nodes, ways, members and tags. A hole shows an area that is in it."""
    with pages("anna", rows=lake()) as (_, zoe, anna):

        def colour(lat: float, lon: float) -> str:
            return f"{COLOUR}({{ x: Mercator.x({lon}), y: Mercator.y({lat}) }})"

        water, island, shore = colour(47.6005, 8.2005), colour(47.6015, 8.202), colour(47.6015, 8.2045)
        want([anna.get(place) for place in (water, island, shore)], [WATER, NOTHING, NOTHING])
        want(anna.get("[...labelsIn(page, page.view.box(), 17)].map(({ text }) => text)"), ["Weiher"])
        zoe.ask({"id": 2, "do": "move", "els": ["n2", "n3"], "dlat": 0, "dlon": 10000})
        anna.wait(f"{shore} === '{WATER}'")
        zoe.ask({"id": 3, "do": "members", "el": "r1", "members": [["w1", "outer"], ["w2", "outer"]]})
        anna.wait(f"{island} === '{WATER}'")
        zoe.ask({"id": 4, "do": "undo"})
        anna.wait(f"{island} === '{NOTHING}'")
        zoe.ask({"id": 5, "do": "nodes", "el": "w2", "nodes": [1, 4]})
        anna.wait(f"{water} === '{NOTHING}'")
        zoe.ask({"id": 6, "do": "undo"})
        anna.wait(f"{water} === '{WATER}'")
        zoe.ask({"id": 7, "do": "retag", "el": "r1", "tags": {"natural": "wood"}})
        anna.wait(f"{water} === '{WOOD}'")
        want(anna.get(island), NOTHING)
        zoe.ask({"id": 8, "do": "retag", "el": "w3", "tags": {"landuse": "meadow"}})
        anna.wait(f"{island} === '{GREEN}'")
        zoe.ask({"id": 9, "do": "delete", "el": "r1"})
        anna.wait(f"{water} === '{NOTHING}'")
    base = run("python3", f"{TOP}/clients/osm_to_base", f"{TOP}/docs/hamlet.osm").output.decode()
    with serving("hamlet", workers=4, sessions=20, base=base) as server, browsing() as (files, chrome):
        page = connect(opened(chrome, url_of(files, server.port, "anna", "hamlet")))
        page.get("page.show('w39')")
        middle = "(({ west, east, north, south }) => ({ x: (west + east) / 2, y: (north + south) / 2 }))"
        page.wait(f"{COLOUR}({middle}(page.shapes.boxOf('w39'))) === '{GREEN}'")
        page.end()
