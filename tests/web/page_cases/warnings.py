"""Cases: warnings about what was just drawn and about the whole map, with their places and repairs, and the roles of new
relations."""
from __future__ import annotations

from lib.browser import Page
from lib.cases import want
from lib.map_pages import pause, settled
from page_cases.looking import at, comes, new_names, row
from page_cases.opening import a_node, page_case, pages
from page_cases.ways import a_relation, a_way, press_for, rows_of


def listed(page: Page) -> list[str]:
    """The warnings in the list."""
    texts: list[str] = page.get("[...document.querySelectorAll('#warnings .item')].map((each) => each.textContent)")
    return texts


def wait_listed(page: Page, *parts: str) -> None:
    """Waits until the list has as many warnings as there are texts, with one of them in each."""
    each = [f"!!texts.find((text) => text.includes({part!r}))" for part in parts]
    page.wait(
        f"((texts) => texts.length === {len(parts)} && {' && '.join(each or ['true'])})"
        "([...document.querySelectorAll('#warnings .item')].map((each) => each.textContent))"
    )


def draw_as(page: Page, preset: str, *places: tuple[float, float], tool: str = "#line") -> str:
    """Draws something between places, and returns the name of its way."""
    before = new_names(page, "w")
    page.get("page.select()")
    page.click(tool)
    page.get(f"$('preset').value = '{preset}'")
    for place in places:
        page.click_at(*at(page, *place))
        pause(page)
    page.press("Enter")
    page.wait("page.tools.tool === 'select'")
    [way] = [name for name in new_names(settled(page), "w") if name not in before]
    return way


def tag(page: Page, name: str, key: str, value: str) -> None:
    """Gives an element without tags a tag, by the form."""
    page.get(f"page.select('{name}')")
    page.fill("#selected .tag:last-child input", key)
    page.fill("#selected .tag:last-child input:nth-child(2)", value)
    page.click("#selected button", "Save tags")
    comes(page, name, "tags", {key: value})
    settled(page)


@page_case
def a_footpath_across_a_street() -> None:
    """The page says at once that a new footpath crosses a street without a node, shows where, and joins them in one
    entry. Then the warning goes."""
    with pages("anna") as (_, _, anna):
        path = draw_as(anna, "Footpath", (47.5998, 8.2002), (47.5998, 8.2008))
        anna.wait_text("#message.refused", f"Warning: footway {path} crosses Mill Lane, street w3 without a node.")
        wait_listed(anna, f"footway {path} crosses Mill Lane, street w3 without a node.")
        anna.get("page.view.pan(3000, 3000)")
        anna.click("#warnings .item", "crosses Mill Lane")
        want(anna.get("page.selected"), [path])
        x, y = at(anna, 47.5998, 8.2005)
        want(anna.get("(([x, y]) => x > 0 && y > 0 && x < innerWidth && y < innerHeight)([%f, %f])" % (x, y)), True)
        before = rows_of(anna)
        anna.click("#warnings button", "Join them there")
        anna.wait("page.elements.get('w3').nodes.length === 3")
        joint = row(settled(anna), "w3")["nodes"][1]
        want((row(anna, path)["nodes"][1], anna.get("page.session.room.seq")), (joint, 2))
        want((row(anna, f"n{joint}")["lat"], row(anna, f"n{joint}")["lon"]), ("47.5998000", "8.2005000"))
        wait_listed(anna)
        anna.click("#undo")
        anna.wait("page.elements.get('w3').nodes.length === 2")
        want(rows_of(settled(anna)), before)
        wait_listed(anna, f"footway {path} crosses Mill Lane")


@page_case
def bridges_and_others() -> None:
    """A line on a bridge crosses without a warning, and what others draw makes none until the map is checked. What
    somebody repairs leaves the list."""
    with pages("anna") as (_, zoe, anna):
        anna.click("#check-map")
        wait_listed(anna, "path w1 crosses Mill Lane, street w3 without a node.")
        anna.wait_text("#warnings-count", "1 warning in the whole map")
        actions = [
            {"do": "create", **a_node(21, 47.6001, 8.2003)},
            {"do": "create", **a_node(22, 47.6001, 8.2007)},
            {"do": "create", **a_way(21, 21, 22, highway="footway")},
            {"do": "nodes", "el": "w1", "nodes": [2, 3]},
        ]
        zoe.ask({"id": 2, "do": "group", "actions": actions})
        wait_listed(anna)
        anna.click("#check-map")
        wait_listed(anna, "Mill Lane, street w3 without a node.")
        zoe.ask({"id": 3, "do": "retag", "el": "w21", "tags": {"bridge": "yes"}})
        wait_listed(anna)
        anna.click("#check-map")
        anna.wait_text("#warnings-count", "0 warnings in the whole map")
        anna.get("page.select('w21')")
        anna.click("#selected button[aria-label='Remove bridge']")
        anna.click("#selected button", "Save tags")
        anna.wait_text("#message.refused", "footway w21 crosses Mill Lane")
        anna.click("#warnings button[aria-label^='Hide']")
        wait_listed(anna)


# Has the check of each element take longer than the page works at a time, as on a slow machine.
SLOWLY = """(() => {
    const { of } = Checks.prototype;
    Checks.prototype.of = function (el) {
        const end = performance.now() + SLICE + 1;
        while (performance.now() < end);
        return of.call(this, el);
    };
})()"""


@page_case
def checks_that_take_long() -> None:
    """After a check that took several pieces of work, and during one, what others repair still leaves the list."""
    with pages("anna") as (_, zoe, anna):
        anna.get(SLOWLY)
        anna.click("#check-map")
        wait_listed(anna, "path w1 crosses Mill Lane, street w3 without a node.")
        want(anna.get("page.warnings.slices.length > 3"), True)
        for number, tags in ((2, {"bridge": "yes"}), (3, {"bridge": None})):
            zoe.ask({"id": number, "do": "retag", "el": "w1", "tags": tags})
            anna.wait(f"page.session.room.seq === {number - 1}")
            wait_listed(anna)
        anna.click("#check-map")
        zoe.ask({"id": 4, "do": "retag", "el": "w3", "tags": {"tunnel": "yes"}})
        anna.wait("page.session.room.seq === 3 && !page.warnings.whole")
        wait_listed(anna)


@page_case
def an_end_near_a_street() -> None:
    """An end four metres from a street is a warning, and its repair joins it. A dead end with `noexit` is none."""
    with pages("anna") as (_, _, anna):
        path = draw_as(anna, "Track", (47.5998, 8.2001), (47.5998, 8.20045))
        anna.wait_text("#message.refused", f"street {path} ends 3.8 m from Mill Lane, street w3.")
        anna.click("#warnings button", "Join it")
        anna.wait("page.elements.get('w3').nodes.length === 3")
        want(row(settled(anna), "w3")["nodes"], [9, row(anna, path)["nodes"][1], 10])
        want(anna.get("page.session.room.seq"), 2)
        wait_listed(anna)
        other = draw_as(anna, "Track", (47.5997, 8.2001), (47.5997, 8.20045))
        wait_listed(anna, f"street {other} ends 3.8 m")
        end = f"n{row(anna, other)['nodes'][1]}"
        tags = "{ noexit: 'yes' }"
        anna.get(f"page.perform('tagged it', () => [{{ do: 'retag', el: '{end}', tags: {tags} }}])")
        wait_listed(settled(anna))


@page_case
def a_bow_tie() -> None:
    """A building that crosses itself is untwisted: its four corners stay."""
    with pages("anna") as (_, _, anna):
        corners = ((47.6004, 8.2000), (47.6004, 8.2003), (47.6006, 8.2000), (47.6006, 8.2003))
        house = draw_as(anna, "House", *corners, tool="#area")
        anna.wait_text("#message.refused", f"building {house} crosses itself.")
        was = row(anna, house)["nodes"]
        anna.click("#warnings button", "Untwist")
        anna.wait(f"page.elements.get('{house}').nodes.join() !== '{','.join(map(str, was))}'")
        now = row(settled(anna), house)["nodes"]
        want((sorted(set(now)), now[0] == now[-1], len(now)), (sorted(set(was)), True, 5))
        wait_listed(anna)


@page_case
def an_open_building_and_an_untagged_line() -> None:
    """A building that is not closed is closed by its repair. A line without tags is in the list and is not said, and it
    leaves the list when it gets a tag."""
    with pages("anna") as (_, _, anna):
        house = draw_as(anna, "", (47.6004, 8.2), (47.6004, 8.2003), (47.6006, 8.2003))
        tag(anna, house, "building", "house")
        anna.wait_text("#message.refused", f"building {house} is building=house, but not closed.")
        nodes = row(anna, house)["nodes"]
        anna.click("#warnings button", "Close it")
        comes(anna, house, "nodes", [*nodes, nodes[0]])
        wait_listed(settled(anna))
        way = draw_as(anna, "", (47.6004, 8.1997), (47.6006, 8.1998))
        wait_listed(anna, f"way {way} has no tags.")
        want("Warning" in anna.get("$('said').textContent"), False)
        tag(anna, way, "barrier", "hedge")
        wait_listed(anna)


def rings() -> list[dict[str, object]]:
    """Nodes of two squares, one in the other, and of a third beside them."""
    squares = {1: (47.6, 8.2, 0.002), 5: (47.6005, 8.2005, 0.0005), 9: (47.6, 8.203, 0.001)}
    rows = []
    for first, (lat, lon, size) in squares.items():
        for step, (up, right) in enumerate(((0, 0), (0, 1), (1, 1), (1, 0))):
            rows.append(a_node(first + step, lat + up * size, lon + right * size))
    return rows


@page_case
def roles_of_a_multipolygon() -> None:
    """A new relation of two rings is a multipolygon with an outer and an inner way, and takes the tags of the area.
    Without an outer way, or with a way without a role, there is a warning, whose repair sets the roles."""
    rows = [
        *rings(),
        a_way(1, 1, 2, 3, 4, 1, natural="wood", name="Stadtwald"),
        a_way(2, 5, 6, 7, 8, 5),
        a_way(3, 9, 10, 11),
        a_way(4, 11, 12, 9),
        a_relation(1, ("w3", "inner"), ("w4", ""), type="multipolygon", landuse="forest"),
    ]
    with pages("anna", rows=rows) as (_, _, anna):
        press_for(anna, "New relation", "w2", "w1")
        anna.wait("page.elements.has('r-1')")
        want(row(anna, "r-1")["members"], [["w2", "inner"], ["w1", "outer"]])
        want(row(anna, "r-1")["tags"], {"name": "Stadtwald", "natural": "wood", "type": "multipolygon"})
        want((row(anna, "w1")["tags"], anna.get("page.session.room.seq")), ({}, 1))
        anna.wait_text("#said", "with name=Stadtwald, natural=wood, type=multipolygon")
        anna.get("page.select('r-1')")
        anna.fill("#selected input[aria-label='Role of w1']", "")
        anna.get("document.activeElement.blur()")
        anna.wait_text("#message.refused", "Stadtwald, wood r-1: 1 member without a role.")
        anna.click("#warnings button", "Set roles")
        comes(settled(anna), "r-1", "members", [["w2", "inner"], ["w1", "outer"]])
        wait_listed(anna)
        anna.click("#check-map")
        wait_listed(anna, "forest r1: 1 member without a role.")
        anna.click("#warnings button", "Set roles")
        comes(settled(anna), "r1", "members", [["w3", "outer"], ["w4", "outer"]])
        wait_listed(anna)


@page_case
def roles_of_a_restriction() -> None:
    """A new relation of a road, a node and a road is a turn restriction of that turn, in the order of the selection.
    Elements that make neither are members without roles."""
    street = {"highway": "residential"}
    rows = [
        a_node(1, 47.6, 8.2),
        a_node(2, 47.6, 8.201),
        a_node(3, 47.601, 8.201),
        a_node(4, 47.599, 8.201),
        a_node(5, 47.6, 8.202),
        a_way(1, 1, 2, **street),
        a_way(2, 2, 3, **street),
        a_way(3, 4, 2, **street),
        a_way(4, 2, 5, **street),
    ]
    with pages("anna", rows=rows) as (_, _, anna):
        turns = (("w1", "w2", "no_left_turn"), ("w1", "w3", "no_right_turn"), ("w4", "w1", "no_straight_on"))
        for number, (one, other, turn) in enumerate((*turns, ("w2", "w1", "no_right_turn")), 1):
            press_for(anna, "New relation", one, "n2", other)
            comes(anna, f"r-{number}", "members", [[one, "from"], ["n2", "via"], [other, "to"]])
            want(row(anna, f"r-{number}")["tags"], {"restriction": turn, "type": "restriction"})
        press_for(anna, "New relation", "w1", "w4")
        comes(anna, "r-5", "members", [["w1", ""], ["w4", ""]])
        want(row(anna, "r-5")["tags"], {})
