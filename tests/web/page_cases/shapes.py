"""Cases: ways that are made square, round and straight, and what is dragged on the map."""
from __future__ import annotations

import math

from lib.browser import Page
from lib.cases import want
from lib.map_pages import at_node, at_rest, pause, settled, window_point
from page_cases.looking import at, comes, new_names, row
from page_cases.opening import Row, a_node, page_case, pages
from page_cases.ways import a_way, press_for, rows_of

# Degrees of longitude that are as long as a degree of latitude.
WIDE = 1 / math.cos(math.radians(47.6))


def points(page: Page, way: str) -> list[tuple[float, float]]:
    """Where the nodes of a way are in the window."""
    return [at_node(page, f"n{number}") for number in row(page, way)["nodes"]]


def angles(page: Page, way: str) -> list[float]:
    """The angles at the corners of a closed way, in degrees."""
    corners = points(page, way)[:-1]
    found = []
    for at_corner, (x, y) in enumerate(corners):
        (x1, y1), (x2, y2) = corners[at_corner - 1], corners[(at_corner + 1) % len(corners)]
        turn = math.atan2(y1 - y, x1 - x) - math.atan2(y2 - y, x2 - x)
        found.append(round(math.degrees(turn) % 180, 0))
    return found


def crooked() -> list[Row]:
    """A crooked house of six corners, a crooked line, and a house that is far from square."""
    places = [(0, 0), (0.3, 8), (5.2, 7.8), (5, 4), (8.2, 4.3), (8, 0.2)]
    rows = [a_node(at + 1, 47.6 + y * 2e-5, 8.2 + x * 2e-5 * WIDE) for at, (x, y) in enumerate(places)]
    rows += [a_node(7 + step, 47.6005 + step % 2 * 2e-5, 8.2 + step * 2e-4) for step in range(5)]
    rows += [a_node(12, 47.6, 8.2008), a_node(13, 47.6002, 8.2011), a_node(14, 47.6, 8.2011)]
    return [
        *rows,
        a_way(1, 1, 2, 3, 4, 5, 6, 1, building="yes"),
        a_way(2, 7, 8, 9, 10, 11, highway="path"),
        a_way(3, 12, 13, 14, 12, building="yes"),
    ]


@page_case
def a_square_house() -> None:
    """Q makes the corners of a house square, in one entry, and leaves it where it is. A house with other corners is
    left as it is, and the page says why."""
    with pages("anna", rows=crooked()) as (_, _, anna):
        before = rows_of(anna)
        was = points(anna, "w1")
        anna.click_at(*at(anna, 47.60005, 8.20005))
        want(anna.get("page.selected"), ["w1"])
        anna.press("q")
        anna.wait("page.session.room.seq === 1")
        settled(anna)
        want((angles(anna, "w1"), row(anna, "w1")["nodes"]), ([90] * 6, [1, 2, 3, 4, 5, 6, 1]))
        metre = math.dist(was[0], was[1]) / 17.8
        want([math.dist(*ends) < 1.5 * metre for ends in zip(was, points(anna, "w1"))], [True] * 7)
        anna.press("z", modifiers=2)
        anna.wait("page.session.room.seq === 2")
        want(rows_of(settled(anna)), before)
        press_for(anna, "Square", "w3")
        anna.wait_text("#message.refused", "Not squared: it has corners that are far from square.")


@page_case
def a_round_pond() -> None:
    """O puts the nodes of a closed way on a circle, and makes nodes between them, in one entry."""
    with pages("anna", rows=crooked()) as (_, _, anna):
        before = rows_of(anna)
        anna.get("page.select('w1')")
        anna.press("o")
        anna.wait("page.elements.get('w1').nodes.length > 15")
        ring = points(settled(anna), "w1")
        middle = (sum(x for x, _ in ring[1:]) / (len(ring) - 1), sum(y for _, y in ring[1:]) / (len(ring) - 1))
        far = [math.dist(point, middle) for point in ring]
        want((max(far) - min(far) < 0.2 * max(far), ring[0] == ring[-1]), (True, True))
        want(set(range(1, 7)) <= set(row(anna, "w1")["nodes"]), True)
        anna.press("z", modifiers=2)
        anna.wait("page.session.room.seq === 2")
        want(rows_of(settled(anna)), before)


@page_case
def a_straight_line() -> None:
    """S puts the nodes of a line between its ends, which stay."""
    with pages("anna", rows=crooked()) as (_, _, anna):
        was = [row(anna, name) for name in ("n7", "n11")]
        anna.get("page.select('w2')")
        anna.press("s")
        anna.wait("page.session.room.seq === 1")
        lats = [float(row(settled(anna), f"n{number}")["lat"]) for number in range(7, 12)]
        want(max(lats) - min(lats) < 3e-7, True)
        want([row(anna, name) for name in ("n7", "n11")], was)


@page_case
def a_dragged_house() -> None:
    """A house that is selected moves with the pointer, in one entry. One that is not selected stays, and the map
    moves."""
    with pages("anna", rows=crooked()) as (_, _, anna):
        before = rows_of(anna)
        x, y = at(anna, 47.60005, 8.20005)
        anna.drag((x, y), (x + 40, y))
        want((rows_of(at_rest(anna)), anna.get("page.session.room.seq")), (before, 0))
        x, y = at(anna, 47.60005, 8.20005)
        anna.click_at(x, y)
        want(anna.get("page.selected"), ["w1"])
        pause(anna)
        centre = anna.get("page.view.map.getCenter()")
        anna.drag((x, y), (x + 40, y - 30))
        anna.wait("page.session.room.seq === 1")
        moved = [row(settled(anna), f"n{number}") for number in range(1, 7)]
        want(
            [one["lon"] > before[one["el"]]["lon"] and one["lat"] > before[one["el"]]["lat"] for one in moved],
            [True] * 6,
        )
        want(anna.get("page.view.map.getCenter()"), centre)


@page_case
def a_handle_in_the_middle() -> None:
    """A selected line has handles in the middle of its segments: one that is dragged becomes a node there, of all lines
    that share the segment."""
    rows = [*crooked(), a_way(4, 8, 7, boundary="administrative")]
    with pages("anna", rows=rows) as (_, _, anna):
        anna.get("page.select('w2')")
        middle = "(([one, other]) => ({ x: (one.x + other.x) / 2, y: (one.y + other.y) / 2 }))"
        x, y = window_point(anna, f"{middle}(['n7', 'n8'].map((el) => page.shapes.positionOf(el)))")
        anna.drag((x, y), (x, y + 50))
        comes(anna, "w2", "nodes", [7, -1, 8, 9, 10, 11])
        want((row(settled(anna), "w4")["nodes"], anna.get("page.selected")), ([8, -1, 7], ["w2"]))
        want(math.dist(at_node(anna, "n-1"), (x, y + 50)) < 1, True)
        want(anna.get("page.session.room.seq"), 1)


@page_case
def a_node_that_is_not_selected() -> None:
    """A node is dragged without being selected first, if the pointer hits it."""
    with pages("anna") as (_, _, anna):
        x, y = at_node(anna, "n4")
        anna.drag((x, y), (x + 20, y + 60))
        anna.wait("page.session.room.seq === 1")
        want(math.dist(at_node(settled(anna), "n4"), (x + 20, y + 60)) < 1, True)
        want((new_names(anna), row(anna, "n4")["tags"]), ([], {"natural": "tree"}))


@page_case
def a_turned_house() -> None:
    """R and a drag turn a house round its middle as one entry, and keep its shape; the arrow keys turn it by degrees."""
    with pages("anna", rows=crooked()) as (_, _, anna):
        anna.get("page.select('w1')")
        anna.press("r")
        was = points(anna, "w1")
        sides = [math.dist(*ends) for ends in zip(was, was[1:])]
        x, y = (sum(place[axis] for place in was[1:]) / 6 for axis in (0, 1))
        anna.drag((x + 100, y), (x, y + 100))
        anna.wait("page.session.room.seq === 1")
        now = points(settled(anna), "w1")
        turned = [(x - (b - y), y + (a - x)) for a, b in was]
        want([math.dist(*ends) < 1 for ends in zip(now, turned)], [True] * 7)
        anna.get("$('map').focus()")
        anna.press("ArrowLeft", modifiers=8)
        anna.wait("page.session.room.seq === 2")
        after = points(settled(anna), "w1")
        want([abs(math.dist(*ends) - side) < 1 for ends, side in zip(zip(after, after[1:]), sides)], [True] * 6)
        want(math.dist(after[0], now[0]) > 3, True)
