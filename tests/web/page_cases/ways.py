"""Cases: ways that are turned, joined, split and dragged keep what their tags and relations say."""
from __future__ import annotations

import math
from typing import Any

from lib.browser import Page
from lib.cases import want
from lib.map_pages import at_node, pause, settled
from page_cases.looking import at, comes, draw, new_names, row
from page_cases.opening import Row, a_node, page_case, pages


def nodes_in_a_row(count: int) -> list[Row]:
    """Nodes 1, 2 and so on, from west to east, a little up and down."""
    return [a_node(number, 47.6 + number % 2 * 0.0002, 8.2 + number * 0.0005) for number in range(1, count + 1)]


def a_way(number: int, *nodes: int, **tags: str) -> Row:
    """The row of a way. In keys, `__` is a colon."""
    return {"el": f"w{number}", "nodes": list(nodes), "tags": {key.replace("__", ":"): tags[key] for key in tags}}


def a_relation(number: int, *members: tuple[str, str], **tags: str) -> Row:
    """The row of a relation."""
    return {"el": f"r{number}", "members": [list(member) for member in members], "tags": tags}


def press_for(page: Page, text: str, *names: str) -> None:
    """Selects elements, and presses a button for them."""
    page.get(f"page.select({', '.join(repr(name) for name in names)})")
    page.click("#selected button", text)
    settled(page)


def rows_of(page: Page) -> dict[str, Any]:
    """All rows of a page's mirror."""
    rows: dict[str, Any] = page.get("Object.fromEntries(page.elements)")
    return rows


# ---- Join


@page_case
def a_join_of_opposite_oneways() -> None:
    """Two oneways that begin at one node, and two streams that end at one, are not joined: the page says why."""
    oneway = {"highway": "residential", "oneway": "yes"}
    rows = nodes_in_a_row(6) + [
        a_way(1, 2, 1, **oneway),
        a_way(2, 2, 3, **oneway),
        a_way(3, 4, 5, waterway="stream"),
        a_way(4, 6, 5, waterway="stream"),
    ]
    with pages("anna", rows=rows) as (_, _, anna):
        before = rows_of(anna)
        press_for(anna, "Join", "w1", "w2")
        anna.wait_text("#message.refused", "w1 and w2 have oneway=yes, and run against each other there")
        press_for(anna, "Join", "w3", "w4")
        anna.wait_text("#message.refused", "w3 and w4 have waterway=stream, and run against each other there")
        want((anna.get("page.session.room.seq"), rows_of(anna)), (0, before))


@page_case
def a_join_that_would_make_a_oneway() -> None:
    """A street without `oneway` does not become one by a join, nor does an incline spread. Equal ones are joined, and
    a way without tags takes those of the other, in its direction."""
    rows = nodes_in_a_row(6) + [
        a_way(1, 1, 2, highway="residential", oneway="yes"),
        a_way(2, 2, 3, highway="residential"),
        a_way(3, 3, 4, highway="residential", incline="up"),
        a_way(4, 5, 4),
        a_way(5, 6, 5, highway="residential", surface="gravel"),
    ]
    with pages("anna", rows=rows) as (_, _, anna):
        press_for(anna, "Join", "w1", "w2")
        anna.wait_text("#message.refused", "w1 has oneway=yes, which means something by its direction, and w2 has not")
        press_for(anna, "Join", "w2", "w3")
        anna.wait_text("#message.refused", "w3 has incline=up, which means something by its direction, and w2 has not")
        want(anna.get("page.session.room.seq"), 0)
        press_for(anna, "Join", "w4", "w3")
        comes(anna, "w3", "nodes", [3, 4, 5])
        want(row(anna, "w3")["tags"], {"highway": "residential", "incline": "up"})
        press_for(anna, "Join", "w5", "w3")
        anna.wait_text("#message.refused", "w3 has incline=up")
        anna.get("page.perform('made it level', () => [{ do: 'retag', el: 'w3', tags: { incline: null } }])")
        press_for(anna, "Join", "w5", "w3")
        comes(anna, "w3", "nodes", [3, 4, 5, 6])
        anna.wait_text("#said", "The whole way has now surface=gravel.")


@page_case
def a_join_at_the_free_end() -> None:
    """A new line that is joined to a street at either of its ends leaves the street its direction and its name, from
    whichever of them it is joined. The undo gives both back."""
    rows = nodes_in_a_row(4) + [a_way(1, 1, 2, 3, 4, highway="residential", name="Long Street")]
    with pages("anna", rows=rows) as (_, _, anna):
        for end, wanted in (("n1", [0, 1, 2, 3, 4]), ("n4", [1, 2, 3, 4, 0])):
            before = rows_of(anna)
            x, y = at_node(anna, end)
            anna.get("page.select()")
            draw(anna, (x, y), (x + 20, y + 60))
            [line] = new_names(anna, "w")
            press_for(anna, "Join w1", line)
            comes(anna, "w1", "nodes", [int(line[1:]) if id == 0 else id for id in wanted])
            want(new_names(anna, "w"), [])
            anna.click("#undo")
            anna.wait(f"page.elements.has('{line}')")
            settled(anna).click("#undo")
            anna.wait(f"!page.elements.has('{line}')")
            want(rows_of(settled(anna)), before)


@page_case
def a_join_with_relations() -> None:
    """Ways of different relations, or in different roles there, are not joined. A route has the joined way once, also
    if it goes the other way."""
    street = {"highway": "residential"}
    rows = nodes_in_a_row(5) + [
        a_way(1, 1, 2, **street),
        a_way(2, 2, 3, **street),
        a_way(3, 3, 4, **street),
        a_way(4, 4, 5, **street),
        a_relation(1, ("w3", ""), ("w2", ""), ("w1", "")),
        a_relation(2, ("w1", "forward"), ("w2", "backward"), ("w3", "backward")),
    ]
    with pages("anna", rows=rows) as (_, _, anna):
        press_for(anna, "Join", "w3", "w4")
        anna.wait_text("#message.refused", "w3 is a member of r1, and w4 is not. Add it to r1 first.")
        press_for(anna, "Join", "w1", "w2")
        anna.wait_text("#message.refused", "w1 and w2 have different roles in r2")
        want(anna.get("page.session.room.seq"), 0)
        press_for(anna, "Join", "w2", "w3")
        comes(anna, "w2", "nodes", [2, 3, 4])
        want(row(anna, "r1")["members"], [["w2", ""], ["w1", ""]])
        want(row(anna, "r2")["members"], [["w1", "forward"], ["w2", "backward"]])


# ---- Reverse


@page_case
def a_reverse_turns_what_depends_on_it() -> None:
    """A reverse swaps tags, roles, and the directions of nodes as one entry, and lists them. The undo gives all back."""
    tags = {
        "highway": "residential",
        "oneway": "-1",
        "maxspeed__forward": "30",
        "maxspeed__backward": "50",
        "sidewalk": "left",
        "cycleway__right": "lane",
        "turn__lanes__forward": "left|right",
        "incline": "8%",
        "name": "left",
    }
    rows = [each for each in nodes_in_a_row(3) if each["el"] != "n2"]
    rows.insert(1, a_node(2, 47.6003, 8.201, highway="stop", direction="forward"))
    rows += [a_way(1, 1, 2, 3, **tags), a_relation(1, ("w1", "forward"), type="route")]
    with pages("anna", rows=rows) as (_, _, anna):
        before = rows_of(anna)
        press_for(anna, "Reverse", "w1")
        comes(anna, "w1", "nodes", [3, 2, 1])
        want(
            row(anna, "w1")["tags"],
            {
                "cycleway:left": "lane",
                "highway": "residential",
                "incline": "-8%",
                "maxspeed:backward": "30",
                "maxspeed:forward": "50",
                "name": "left",
                "oneway": "yes",
                "sidewalk": "right",
                "turn:lanes:backward": "left|right",
            },
        )
        want(row(anna, "n2")["tags"], {"direction": "backward", "highway": "stop"})
        want(row(anna, "r1")["members"], [["w1", "backward"]])
        said = anna.get("$('said').textContent")
        listed = ("oneway=yes", "sidewalk=right", "incline=-8%", "n2 direction=backward", "backward in route r1")
        want([text for text in listed if text not in said], [])
        want((anna.get("page.session.room.seq"), "runs the other way" in said), (1, False))
        anna.click("#undo")
        comes(anna, "w1", "nodes", [1, 2, 3])
        want(rows_of(settled(anna)), before)


@page_case
def a_reverse_of_a_stream() -> None:
    """A stream or a oneway that is reversed runs the other way, and the page says so."""
    rows = nodes_in_a_row(2) + [a_way(1, 1, 2, waterway="stream")]
    with pages("anna", rows=rows) as (_, _, anna):
        press_for(anna, "Reverse", "w1")
        comes(anna, "w1", "nodes", [2, 1])
        anna.wait_text("#said", "It runs the other way now: waterway=stream.")


# ---- Split


@page_case
def a_split_of_a_restriction() -> None:
    """The part at the via stays the member of a turn restriction, in each role and at each end."""
    street = {"highway": "residential"}
    rows = nodes_in_a_row(7) + [
        a_way(1, 1, 2, 3, **street),
        a_way(2, 3, 4, 5, **street),
        a_way(3, 3, 6, **street),
        a_relation(1, ("w1", "from"), ("n3", "via"), ("w2", "to"), type="restriction", restriction="no_u_turn"),
        a_relation(2, ("w2", "from"), ("n3", "via"), ("w1", "to"), type="restriction", restriction="no_u_turn"),
        a_relation(3, ("w1", "from"), ("w3", "via"), ("w2", "to"), type="restriction", restriction="no_u_turn"),
    ]
    with pages("anna", rows=rows) as (_, _, anna):
        press_for(anna, "Split w1 here", "n2")
        comes(anna, "w-1", "nodes", [2, 3])
        want(row(anna, "r1")["members"], [["w-1", "from"], ["n3", "via"], ["w2", "to"]])
        want(row(anna, "r2")["members"], [["w2", "from"], ["n3", "via"], ["w-1", "to"]])
        want(row(anna, "r3")["members"], [["w-1", "from"], ["w3", "via"], ["w2", "to"]])
        press_for(anna, "Split w2 here", "n4")
        comes(anna, "w-2", "nodes", [4, 5])
        want(row(anna, "r1")["members"], [["w-1", "from"], ["n3", "via"], ["w2", "to"]])
        want(anna.get("page.session.room.seq"), 2)


@page_case
def a_split_of_a_route() -> None:
    """A route keeps its order if a way is split that it goes through from end to start, by its neighbours or by its
    role."""
    street = {"highway": "residential"}
    rows = nodes_in_a_row(5) + [
        a_way(1, 1, 2, **street),
        a_way(2, 4, 3, 2, **street),
        a_way(3, 4, 5, **street),
        a_relation(1, ("w1", ""), ("w2", ""), ("w3", ""), type="route"),
        a_relation(2, ("w3", ""), ("w2", ""), ("w1", ""), type="route"),
        a_relation(3, ("w2", "backward"), type="route"),
        a_relation(4, ("w2", "")),
    ]
    with pages("anna", rows=rows) as (_, _, anna):
        press_for(anna, "Split w2 here", "n3")
        comes(anna, "w-1", "nodes", [3, 2])
        want([name for name, _ in row(anna, "r1")["members"]], ["w1", "w-1", "w2", "w3"])
        want([name for name, _ in row(anna, "r2")["members"]], ["w3", "w2", "w-1", "w1"])
        want(row(anna, "r3")["members"], [["w-1", "backward"], ["w2", "backward"]])
        want([name for name, _ in row(anna, "r4")["members"]], ["w2", "w-1"])


@page_case
def a_split_of_a_closed_way() -> None:
    """A closed way is split at two nodes. Of a roundabout both parts keep its direction and its tags. An area becomes a
    multipolygon with its tags. All is one entry."""
    rows = [
        *(a_node(number, 47.6 + 0.0004 * math.sin(number), 8.2 + 0.0006 * math.cos(number)) for number in range(1, 7)),
        *(
            a_node(number, 47.6 + 0.0004 * math.sin(number), 8.202 + 0.0006 * math.cos(number))
            for number in range(7, 13)
        ),
        a_way(1, 1, 2, 3, 4, 5, 6, 1, highway="primary", junction="roundabout"),
        a_way(2, 7, 8, 9, 10, 11, 12, 7, leisure="park", name="Stadtpark", barrier="fence"),
    ]
    with pages("anna", rows=rows) as (_, _, anna):
        before = rows_of(anna)
        anna.click_at(*at_node(anna, "n2"))
        anna.mouse("mousePressed", *at_node(anna, "n5"), modifiers=8)
        anna.mouse("mouseReleased", *at_node(anna, "n5"), modifiers=8)
        want(anna.get("page.selected"), ["n2", "n5"])
        anna.click("#selected button", "Split w1 at both")
        comes(anna, "w1", "nodes", [2, 3, 4, 5])
        comes(anna, "w-1", "nodes", [5, 6, 1, 2])
        want(row(anna, "w-1")["tags"], {"highway": "primary", "junction": "roundabout"})
        settled(anna).click("#undo")
        comes(anna, "w1", "nodes", [1, 2, 3, 4, 5, 6, 1])
        want(rows_of(settled(anna)), before)
        press_for(anna, "Split w2 at both", "w2", "n9", "n12")
        comes(anna, "w2", "nodes", [9, 10, 11, 12])
        [part] = new_names(anna, "w")
        want((row(anna, part)["nodes"], row(anna, part)["tags"]), ([12, 7, 8, 9], {"barrier": "fence"}))
        [area] = new_names(anna, "r")
        want(row(anna, area)["members"], [["w2", "outer"], [part, "outer"]])
        want(row(anna, area)["tags"], {"leisure": "park", "name": "Stadtpark", "type": "multipolygon"})
        want(anna.get("page.session.room.seq"), 3)
        anna.wait_text("#said", f"Its tags are those of Stadtpark, park {area} now.")


# ---- Nodes on lines


@page_case
def a_double_click_adds_a_node() -> None:
    """A double click or a double tap on a line adds a node to it there, selects the node, and leaves the window where
    it is. On a node and in a building it selects, and nothing moves."""
    with pages("anna") as (_, _, anna):
        window = "[page.view.zoom, page.view.map.getCenter()]"
        before = anna.get(window)
        anna.double_click_at(*at(anna, 47.6, 8.2005))
        comes(anna, "w1", "nodes", [1, -1, 2, 3])
        settled(anna).wait("page.selected[0] === 'n-1'")
        want(abs(float(row(anna, "n-1")["lat"]) - 47.6) < 2e-7, True)
        pause(anna)
        anna.double_click_at(*at_node(anna, "n3"))
        want(anna.get("page.selected"), ["n3"])
        pause(anna)
        anna.double_click_at(*at(anna, 47.60072, 8.20115))
        want(anna.get("page.selected"), ["w2"])
        want((anna.get("page.session.room.seq"), anna.get(window)), (1, before))
        anna.resize(1280, 800, is_phone=True)
        anna.wait("page.view.size().y === $('map').clientHeight")
        before = anna.get(window)
        x, y = at(anna, 47.5998, 8.2005)
        anna.tap(x, y, count=2)
        comes(anna, "w3", "nodes", [9, -2, 10])
        want(anna.get(window), before)


@page_case
def a_dragged_end_joins_a_line() -> None:
    """The end of a line that is dragged onto another line becomes a node of it, by one entry. An end that is dragged
    beside it does not, nor does a tree."""
    with pages("anna") as (_, _, anna):
        before = rows_of(anna)
        anna.get("page.select('w3')")
        anna.drag(at_node(anna, "n10"), at(anna, 47.60001, 8.2008))
        comes(anna, "w1", "nodes", [1, 10, 2, 3])
        want((row(settled(anna), "w3")["nodes"], anna.get("page.session.room.seq")), ([9, 10], 1))
        want(abs(float(row(anna, "n10")["lat"]) - 47.6) < 2e-7, True)
        anna.click("#undo")
        comes(anna, "w1", "nodes", [1, 2, 3])
        want(rows_of(settled(anna)), before)
        anna.get("page.select('w3')")
        anna.drag(at_node(anna, "n10"), at(anna, 47.60025, 8.2008))
        anna.wait("page.elements.get('n10').lon > '8.2006'")
        anna.get("page.select('n4')")
        pause(settled(anna))
        anna.drag(at_node(anna, "n4"), at(anna, 47.6, 8.2005))
        anna.wait("page.elements.get('n4').lon > '8.2'")
        want(row(settled(anna), "w1")["nodes"], [1, 2, 3])


@page_case
def a_line_past_a_tree() -> None:
    """A line does not snap to a tree, nor does an end that is dragged onto it, but to a node of a line beside it."""
    with pages("anna") as (_, _, anna):
        draw(anna, at(anna, 47.6004, 8.1997), at_node(anna, "n4"), at_node(anna, "n3"))
        [way] = new_names(anna, "w")
        want(row(anna, way)["nodes"], [-1, -2, 3])
        anna.click("#undo")
        anna.wait(f"!page.elements.has('{way}')")
        settled(anna).get("page.select('w3')")
        anna.drag(at_node(anna, "n9"), at_node(anna, "n4"))
        anna.wait("page.elements.get('n9').lat > '47.6005'")
        want((row(settled(anna), "w3")["nodes"], row(anna, "n4")["tags"]), ([9, 10], {"natural": "tree"}))


@page_case
def a_deleted_junction() -> None:
    """The page says what ended at a deleted node at which lines met."""
    with pages("anna") as (_, _, anna):
        draw(anna, at_node(anna, "n2"), at(anna, 47.6004, 8.2007), at(anna, 47.6006, 8.2007))
        anna.get("page.select('n2')")
        anna.press("Delete")
        comes(anna, "w1", "nodes", [1, 3])
        want(row(settled(anna), "w-1")["nodes"], [-1, -2])
        anna.wait_text("#said", "At n2 way w-1 ended there, <img src=x onerror=alert(1)>, path w1 went through")
