"""Opens the page with rooms of the program, perhaps over a connection that a test holds up or breaks."""
from __future__ import annotations

import contextlib
import functools
import json
import threading
from collections.abc import Iterator, Sequence
from typing import Any, Dict

from lib.browser import Browser, Page, browser
from lib.cases import case_if
from lib.map_pages import connect, opened, settled, url_of
from lib.others import chromium
from lib.page_files import PageFiles, is_leaflet_there
from lib.proxy import Proxy
from lib.serving import Server, Session
from lib.talk import serving
from page_cases.looking import tagged


@functools.lru_cache(maxsize=None)
def is_ready() -> bool:
    """Whether Chromium and Leaflet are there; a line says what is missing."""
    missing = [name for name, there in (("chromium", chromium()), ("libjs-leaflet", is_leaflet_there())) if not there]
    if missing:
        print(f"the page is not tried, because Debian's {' and '.join(missing)} is not installed")
    return not missing


page_case = case_if(is_ready)

# The row of an element.
Row = Dict[str, Any]


# ---- Opening pages


def base_of(rows: Sequence[Row]) -> str:
    """A map to begin with."""
    return json.dumps({"id": 1, "ok": {"map": rows, "seq": 0}}, separators=(",", ":")) + "\n"


def a_node(number: int, lat: float, lon: float, **tags: str) -> Row:
    """The row of a node."""
    return {"el": f"n{number}", "lat": f"{lat:.7f}", "lon": f"{lon:.7f}", "tags": tags}


def village() -> list[Row]:
    """A small map: a path, a street that crosses it without a node, a building, a tree, and a route."""
    places = {
        1: (47.6, 8.2),
        2: (47.6, 8.201),
        3: (47.6004, 8.202),
        5: (47.6008, 8.201),
        6: (47.6008, 8.2013),
        7: (47.60065, 8.2013),
        8: (47.60065, 8.201),
        9: (47.5996, 8.2005),
        10: (47.6003, 8.2005),
    }
    nodes = [a_node(number, *place) for number, place in places.items()] + [a_node(4, 47.6006, 8.1995, natural="tree")]
    return sorted(nodes, key=lambda row: int(row["el"][1:])) + [
        {"el": "w1", "nodes": [1, 2, 3], "tags": {"highway": "path", "name": "<img src=x onerror=alert(1)>"}},
        {"el": "w2", "nodes": [5, 6, 7, 8, 5], "tags": {"building": "yes"}},
        {"el": "w3", "nodes": [9, 10], "tags": {"highway": "residential", "name": "Mill Lane"}},
        {"el": "r1", "members": [["w3", "part"]], "tags": {"type": "route"}},
    ]


@contextlib.contextmanager
def browsing(*words: str) -> Iterator[tuple[PageFiles, Browser]]:
    """A browser and the files of the page."""
    program = chromium()
    assert program is not None
    with PageFiles() as files, browser(program, *words) as chrome:
        yield files, chrome


@contextlib.contextmanager
def pages(
    *names: str, rows: Sequence[Row] | None = None, width: int = 1280, height: int = 800, **more: str
) -> Iterator[tuple[Any, ...]]:
    """A server with a small map, a session of it, and connected pages in which nothing may go wrong."""
    with serving(workers=len(names) + 4, sessions=90, base=base_of(rows or village())) as server, browsing() as (
        files,
        chrome,
    ):
        other = server.session("zoe")
        shown = [connect(opened(chrome, url_of(files, server.port, name, **more), width, height)) for name in names]
        yield server, other, *shown
        for page in shown:
            page.end()


class Link:
    """The connection of a page to a server, which a test holds up or breaks."""

    def __init__(self, server: Server) -> None:
        self.server, self.other, self.breaks = server, server.session("zoe"), 0
        self.may_pass, self.is_cut = threading.Event(), False
        self.may_pass.set()
        self.proxy = Proxy(server.port, self.hold)

    def hold(self, data: bytes) -> bytes | None:
        """Passes on what the server sends, once it may."""
        self.may_pass.wait()
        return None if self.is_cut else data

    def hold_up(self) -> None:
        """Has nothing of the server's come to the page for a while."""
        self.may_pass.clear()

    def go_on(self, page: Page) -> None:
        """Has all come that was held up, and waits until what the page did is answered."""
        self.may_pass.set()
        settled(page)

    def cut(self, page: Page) -> None:
        """Breaks the connection, by an entry of the other client's, and refuses another one."""
        self.is_cut, self.proxy.port, self.breaks = True, 9, self.breaks + 1
        self.other.ask({"id": 1000 + self.breaks, "do": "retag", "el": "w3", "tags": {"lit": str(self.breaks)}})
        page.wait_text("#state", "Connection lost")

    def mend(self, page: Page) -> None:
        """Lets the page connect again, and waits until what it did is answered."""
        self.is_cut, self.proxy.port = False, self.server.port
        page.wait("page.session.state === 'open'")
        settled(page)


@contextlib.contextmanager
def linked() -> Iterator[tuple[Session, Page, Link]]:
    """A server with a small map, a session of it, a connected page, and its link. The page has saved a change, so that
    it can ask which run of the server answers."""
    with serving(workers=6, sessions=50, base=base_of(village())) as server, browsing() as (files, chrome):
        link = Link(server)
        with link.proxy:
            page = connect(opened(chrome, url_of(files, link.proxy.url, "anna")))
            page.get(tagged("7"))
            yield link.other, settled(page), link
            link.may_pass.set()
            page.end()
