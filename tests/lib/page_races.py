"""Races of two pages that end a road on the same street at almost the same time.

Each race has a street of its own, of two segments. Two mappers, each with a page of their own, draw a road that ends on
it. Then both press Enter. The roads end on one segment, on different segments, or at the same place.
"""
from __future__ import annotations

import contextlib
import json
import time
from collections.abc import Iterator
from typing import Any, NamedTuple

from .browser import Browser, Page, browser, key_events
from .cases import TOP
from .map_pages import connect, opened, pause, settled, url_of, window_point
from .others import chromium
from .page_files import PageFiles
from .proxy import Proxy
from .serving import Session
from .talk import serving

# How many milliseconds lie between the two presses of Enter, and how late what a link carries is.
GAPS, DELAYS = (0, 20, 100), (0, 100)

# Where the roads of the two pages end on a street, in degrees to the east of its middle: on one segment, on one segment
# in the other order, on two segments, and at one place.
ENDS = ((-0.0008, -0.0004), (0.0009, 0.0003), (-0.0006, 0.0006), (0.0005, 0.0005))

# Where the first street is, how far its ends lie from its middle, how far the next street is, and how long a road is.
LAT, LON, HALF, NEXT, LENGTH = 47.0, 8.2, 0.0012, 0.005, 0.0005

NAMES = ("anna", "bob")


class Race(NamedTuple):
    """A race on the street of a number, with its gap and its delay in milliseconds."""

    number: int
    gap: int
    delay: int

    @property
    def lat(self) -> float:
        """Where the street is."""
        return LAT + self.number * NEXT

    @property
    def street(self) -> str:
        """The name of the street."""
        return f"w{self.number + 1}"


class Result(NamedTuple):
    """The roads of a race that are not connected to the street, in a page or in the room, and what the pages asked."""

    lost: int
    questions: int


def races(count: int) -> list[Race]:
    """Races of all gaps and delays, and of all places in turn."""
    kinds = [(gap, delay) for delay in DELAYS for gap in GAPS]
    return [Race(number, *kinds[number % len(kinds)]) for number in range(count)]


def streets(count: int) -> str:
    """The base of a map with a street for each race."""
    nodes, ways = [], []
    for number in range(count):
        first = 3 * number + 1
        for at in range(3):
            lat, lon = LAT + number * NEXT, LON + (at - 1) * HALF
            nodes.append({"el": f"n{first + at}", "lat": f"{lat:.7f}", "lon": f"{lon:.7f}", "tags": {}})
        tags = {"highway": "residential", "name": f"Street {number + 1}"}
        ways.append({"el": f"w{number + 1}", "nodes": [first, first + 1, first + 2], "tags": tags})
    return json.dumps({"id": 1, "ok": {"map": nodes + ways, "seq": 0}}, separators=(",", ":")) + "\n"


class Track:
    """Two pages in a room with a street for each race, and a session that reads the room's map."""

    def __init__(self, chrome: Browser, reader: Session, pages: list[Page], links: list[Proxy]) -> None:
        self.chrome, self.reader, self.pages, self.links = chrome, reader, pages, links
        self.asked = 1

    def run(self, race: Race) -> Result:
        """Runs a race."""
        for link in self.links:
            link.delay = race.delay / 1000
        self.draw(race)
        before = [set(self.ways(page)) for page in self.pages]
        one, other = self.pages
        for page, wait in ((one, race.gap), (other, 0)):
            for about in key_events("Enter"):
                self.chrome.tell("Input.dispatchKeyEvent", session=page.session, **about)
            time.sleep(wait / 1000)
        for page in self.pages:
            page.wait("page.tools.draft === null")  # nobody waited until the page took the key
            settled(page).wait("page.tools.sent.size === 0")
        count = max(page.get("page.session.room.seq") for page in self.pages)
        for page in self.pages:
            page.wait(f"page.session.room.seq >= {count}")
        made = [set(self.ways(page)) - known for page, known in zip(self.pages, before)]
        questions = [page.get("Number($('question')?.hidden === false)") for page in self.pages]
        return Result(self.lost(race, made), sum(questions))

    def draw(self, race: Race) -> None:
        """Has both pages draw a road that ends on the street, and not finish it."""
        ends = ENDS[race.number // len(GAPS) // len(DELAYS) % len(ENDS)]
        for page in self.pages:
            page.get(f"void page.view.map.setView([{race.lat}, {LON}], 18, {{ animate: false }})")
            page.press("Escape")
            page.get("void page.tools.use('line')")
        for step in (1, 0):
            for page, end, up in zip(self.pages, ends, (LENGTH, -LENGTH)):
                lat, lon = race.lat + step * up, LON + end
                page.click_at(*window_point(page, f"{{ x: Mercator.x({lon}), y: Mercator.y({lat}) }}"))
            pause(self.pages[0])
        for page in self.pages:
            page.wait("page.tools.draft?.places.length === 2 && page.tools.draft.places[1].segments?.length === 1")

    @staticmethod
    def ways(page: Page) -> list[str]:
        """The names of the new ways that a page has."""
        names: list[str] = page.get("[...page.elements.keys()].filter((el) => el.startsWith('w-'))")
        return names

    def lost(self, race: Race, made: list[set[str]]) -> int:
        """How many of two roads are missing, or not connected to the street, in a page or in the room."""
        roads = made[0] | made[1]
        maps = [page.get("Object.fromEntries(page.elements)") for page in self.pages]
        self.asked += 1
        reply = self.reader.ask({"id": self.asked, "do": "map"})
        maps.append({row["el"]: row for row in reply["ok"]["map"]})
        return max(2 - sum(is_joined(rows, road, race.street) for road in roads) for rows in maps)


def is_joined(rows: dict[str, Any], road: str, street: str) -> bool:
    """Whether a road ends on a street in a map."""
    return road in rows and rows[road]["nodes"][-1] in rows[street]["nodes"]


@contextlib.contextmanager
def track(count: int, folder: str | None = None) -> Iterator[Track]:
    """A room with a street for each of some races, and two pages, perhaps of another folder than clients/page."""
    program = chromium()
    assert program is not None
    with contextlib.ExitStack() as kept:
        server = kept.enter_context(serving(workers=6, sessions=20, base=streets(count)))
        files = kept.enter_context(PageFiles(folder=folder or f"{TOP}/clients/page"))
        chrome = kept.enter_context(browser(program))
        links = [kept.enter_context(Proxy(server.port)) for _ in NAMES]
        pages = [
            connect(opened(chrome, url_of(files, link.url, name), 1000, 700, is_apart=True))
            for name, link in zip(NAMES, links)
        ]
        yield Track(chrome, server.session("zoe"), pages, links)
        for page in pages:
            page.end()
