"""Cases: presets, suggestions, and tags of one element or of several that are saved at once."""
from __future__ import annotations

from lib.browser import Page
from lib.cases import want
from lib.map_pages import settled
from page_cases.looking import comes, row
from page_cases.opening import page_case, pages

SEARCH = "#selected [data-field='Preset']"


def offered(page: Page) -> list[str]:
    """The presets that the search lists."""
    texts: list[str] = page.get("[...document.querySelectorAll('.option')].map((each) => each.firstChild.textContent)")
    return texts


def type_into(page: Page, text: str) -> None:
    """Types into the field that has the focus, in place of its text."""
    page.get("document.activeElement.select()")
    page.ask("Input.insertText", text=text)


def fill_line(page: Page, key: str, value: str) -> None:
    """Fills in the empty line for a new tag."""
    page.fill("#selected .tag:last-child input", key)
    page.fill("#selected .tag:last-child input:nth-child(2)", value)


@page_case
def presets_by_keys() -> None:
    """A preset is found by its label or another word, chosen by keys, and filled in: what it asks gets the focus. The
    search has those for the kind of element, 80 at least in all."""
    with pages("anna") as (_, _, anna):
        want(anna.get("PRESETS.length") >= 80, True)
        anna.get("page.select('n4')")
        anna.fill(SEARCH, "bread")
        want(offered(anna), ["Bakery"])
        anna.fill(SEARCH, "ba")
        names = offered(anna)
        want("Bakery" in names and "Bank" in names, True)
        for _ in range(names.index("Bakery")):
            anna.press("ArrowDown")
        want(anna.get("document.querySelector('.option[aria-selected=true]').firstChild.textContent"), "Bakery")
        anna.press("Enter")
        want(offered(anna), [])
        type_into(anna, "Krume")
        anna.press("Enter")
        comes(anna, "n4", "tags", {"name": "Krume", "natural": "tree", "shop": "bakery"})
        want(anna.get("page.session.room.seq"), 1)
        kinds = {"n4": (True, False, False), "w1": (False, True, False), "w2": (False, True, True)}
        for name, wanted in kinds.items():
            settled(anna).get(f"page.select('{name}')")
            found = []
            for word, label in (("tree", "Tree"), ("river", "River"), ("meadow", "Meadow")):
                anna.fill(SEARCH, word)
                found.append(label in offered(anna))
            want((name, tuple(found)), (name, wanted))


@page_case
def a_shop_asks_what_it_sells() -> None:
    """The preset of a shop asks what it sells, with usual values, and those of the map first."""
    with pages("anna") as (_, zoe, anna):
        zoe.ask({"id": 2, "do": "retag", "el": "n1", "tags": {"shop": "cheese"}})
        comes(anna, "n1", "tags.shop", "cheese")
        anna.get("page.select('n4')")
        anna.fill(SEARCH, "shop")
        want(offered(anna)[0], "Shop")
        anna.press("Enter")
        want(anna.get("[document.activeElement.ariaLabel, document.activeElement.value]"), ["Value of shop", "yes"])
        values = anna.get("[...$('values').options].map((each) => each.value)")
        want((values[0], "bakery" in values), ("cheese", True))
        type_into(anna, "books")
        anna.click("#selected button", "Save tags")
        comes(anna, "n4", "tags.shop", "books")
        anna.get("$('selected').querySelector('.tag:last-child input').focus()")
        keys = anna.get("[...$('keys').options].map((each) => each.value)")
        want(("surface" in keys, keys[0] in ("highway", "name", "natural", "shop")), (True, True))


@page_case
def several_tags_at_once() -> None:
    """A new line comes as soon as the last one is filled in, and one save takes all, as one entry. The same key twice
    is refused, and nothing that was typed is lost."""
    with pages("anna") as (_, _, anna):
        anna.get("page.select('w3')")
        for key, value in (("surface", "asphalt"), ("lit", "yes"), ("maxspeed", "30")):
            fill_line(anna, key, value)
        fill_line(anna, "lit", "no")
        anna.click("#selected button", "Save tags")
        anna.wait_text("#selected form .fault", "“lit” is there twice.")
        want((anna.get("page.session.room.seq"), "lit" in row(anna, "w3")["tags"]), (0, False))
        anna.click("#selected .tag:nth-last-child(2) button")
        anna.click("#selected button", "Save tags")
        wanted = {"highway": "residential", "lit": "yes", "maxspeed": "30", "name": "Mill Lane", "surface": "asphalt"}
        comes(anna, "w3", "tags", wanted)
        want(anna.get("page.session.room.seq"), 1)
        fill_line(settled(anna), "name", "Other Lane")
        anna.click("#selected button", "Save tags")
        anna.wait_text("#selected form .fault", "“name” is there twice.")
        want(row(anna, "w3")["tags"], wanted)


@page_case
def one_save_for_all() -> None:
    """What was typed for several elements is saved as one entry, and undone at once."""
    with pages("anna") as (_, _, anna):
        for name in ("w1", "w3", "n4"):
            anna.get(f"page.select('{name}')")
            fill_line(anna, "note", f"of {name}")
        anna.wait_text("#saved", "tags of 3 elements not saved")
        anna.click("#typed button", "Save all")
        comes(anna, "w1", "tags.note", "of w1")
        want([row(settled(anna), name)["tags"]["note"] for name in ("w3", "n4")], ["of w3", "of n4"])
        want((anna.get("page.session.room.seq"), anna.get("$('saved').textContent")), (1, "All saved"))
        anna.click("#undo")
        anna.wait("!page.elements.get('w1').tags.note")
        want([row(settled(anna), name)["tags"].get("note") for name in ("w1", "w3", "n4")], [None] * 3)


@page_case
def tags_of_several() -> None:
    """The tags of several elements are edited together: a value that differs is shown as such, stays if nobody types
    there, and is replaced or removed everywhere otherwise. It is one entry."""
    with pages("anna") as (_, zoe, anna):
        zoe.ask({"id": 2, "do": "retag", "el": "w1", "tags": {"surface": "asphalt"}})
        zoe.ask({"id": 3, "do": "retag", "el": "w3", "tags": {"surface": "asphalt"}})
        comes(anna, "w3", "tags.surface", "asphalt")
        anna.get("page.select('w1', 'w3')")
        lines = anna.get(
            """Object.fromEntries([...document.querySelectorAll('#selected .tag')].map((each) =>
            [...each.querySelectorAll('input')]).map(([key, value]) => [key.value, [value.value, value.placeholder]]))"""
        )
        mixed = ["", "several values"]
        want(lines, {"highway": mixed, "name": mixed, "surface": ["asphalt", "value"], "": ["", "value"]})
        fill_line(anna, "lit", "yes")
        anna.fill("#selected [aria-label='Value of highway']", "track")
        anna.click("#selected .tag button[aria-label='Remove surface']")
        anna.click("#selected button", "Save tags")
        comes(anna, "w3", "tags", {"highway": "track", "lit": "yes", "name": "Mill Lane"})
        want(
            row(settled(anna), "w1")["tags"], {"highway": "track", "lit": "yes", "name": "<img src=x onerror=alert(1)>"}
        )
        want((anna.get("page.session.room.seq"), anna.get("$('saved').textContent")), (3, "All saved"))
        anna.click("#undo")
        comes(anna, "w3", "tags", {"highway": "residential", "name": "Mill Lane", "surface": "asphalt"})
