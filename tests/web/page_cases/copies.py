"""Cases: copies of elements and of tags, and choosing among what lies at one place."""
from __future__ import annotations

import math

from lib.browser import Page
from lib.cases import want
from lib.map_pages import at_node, pause, settled
from page_cases.looking import at, comes, new_names, row
from page_cases.opening import page_case, pages
from page_cases.tools import lake
from page_cases.ways import rows_of

CONTROL, SHIFT, ALT = 2, 8, 1


def alt_click(page: Page, x: float, y: float) -> None:
    """Clicks at a point of the window with the Alt key."""
    page.mouse("mousePressed", x, y, modifiers=ALT)
    page.mouse("mouseReleased", x, y, modifiers=ALT)


@page_case
def copied_tags() -> None:
    """The tags of an element are pasted to several others as one entry. Their other tags stay, and the page says which
    values it replaced."""
    with pages("anna") as (_, _, anna):
        anna.click_at(*at(anna, 47.5998, 8.2005))
        want(anna.get("page.selected"), ["w3"])
        anna.press("c", modifiers=CONTROL)
        anna.wait_text("#said", "Copied 1 element.")
        anna.get("page.select('w1', 'n4')")
        anna.press("v", modifiers=CONTROL | SHIFT)
        comes(anna, "w1", "tags", {"highway": "residential", "name": "Mill Lane"})
        want(row(settled(anna), "n4")["tags"], {"highway": "residential", "name": "Mill Lane", "natural": "tree"})
        want(anna.get("page.session.room.seq"), 1)
        said = "in place of highway=path of w1, name=<img src=x onerror=alert(1)> of w1."
        anna.wait_text("#said", said)
        anna.get("page.select('w2')")
        anna.click("#selected button", "Paste tags")
        comes(anna, "w2", "tags", {"building": "yes", "highway": "residential", "name": "Mill Lane"})


@page_case
def copied_elements() -> None:
    """A house and a tree are pasted at the pointer, with their tags and their shape, as one entry."""
    with pages("anna") as (_, _, anna):
        before = rows_of(anna)
        anna.get("page.select('w2')")
        anna.press("c", modifiers=CONTROL)
        x, y = at(anna, 47.6003, 8.2001)
        anna.mouse("mouseMoved", x, y, button="none")
        anna.press("v", modifiers=CONTROL)
        anna.wait("page.elements.has('w-1')")
        nodes = row(settled(anna), "w-1")["nodes"]
        want((nodes[0] == nodes[-1], len(set(nodes)), row(anna, "w-1")["tags"]), (True, 4, {"building": "yes"}))
        was, now = ([at_node(anna, f"n{number}") for number in list_] for list_ in (row(anna, "w2")["nodes"], nodes))
        shifts = {(round(b[0] - a[0]), round(b[1] - a[1])) for a, b in zip(was, now)}
        want(len(shifts), 1)
        middle = [sum(place[axis] for place in now[1:]) / 4 for axis in (0, 1)]
        want(math.dist(middle, (x, y)) < 1, True)
        want((anna.get("page.selected"), anna.get("page.session.room.seq")), (["w-1"], 1))
        anna.press("z", modifiers=CONTROL)
        anna.wait("!page.elements.has('w-1')")
        want(rows_of(settled(anna)), before)
        anna.get("page.select('n4')")
        anna.press("c", modifiers=CONTROL)
        anna.press("v", modifiers=CONTROL)
        anna.wait("[...page.elements.keys()].filter((el) => el.startsWith('n-')).length === 1")
        want(row(settled(anna), new_names(anna, "n")[0])["tags"], {"natural": "tree"})


@page_case
def stacked_elements() -> None:
    """Alt and a click step through what lies at one place, and the menu lists it."""
    with pages("anna") as (_, zoe, anna):
        actions = [
            {"do": "create", "el": "w21", "nodes": [1, 2], "tags": {"boundary": "administrative"}},
            {"do": "create", "el": "w22", "nodes": [5, 6, 7, 8, 5], "tags": {"landuse": "residential"}},
        ]
        zoe.ask({"id": 2, "do": "group", "actions": actions})
        comes(anna, "w22", "tags.landuse", "residential")
        x, y = at(anna, 47.6, 8.2008)
        seen = []
        for _ in range(3):
            alt_click(anna, x, y)
            seen += anna.get("page.selected")
            pause(anna)
        want((sorted(set(seen)), seen[0] == seen[2]), (["w1", "w21"], True))
        x, y = at(anna, 47.60072, 8.20115)
        anna.mouse("mousePressed", x, y, button="right")
        anna.mouse("mouseReleased", x, y, button="right")
        items = anna.get("[...$('menu').querySelectorAll('button')].map((each) => each.textContent)")
        want([text for text in items if "w2" in text], ["Select building w2 too", "Select residential w22"])
        anna.click("#menu button", "Select residential w22")
        want(anna.get("page.selected"), ["w22"])


@page_case
def the_fill_of_a_multipolygon() -> None:
    """A click in the fill of a multipolygon selects its relation, one in its hole does not."""
    with pages("anna", rows=lake()) as (_, _, anna):
        anna.click_at(*at(anna, 47.6005, 8.2005))
        want(anna.get("page.selected"), ["r1"])
        pause(anna)
        anna.click_at(*at(anna, 47.6015, 8.202))
        want(anna.get("page.selected"), [])
