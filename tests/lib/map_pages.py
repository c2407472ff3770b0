"""Opens the page clients/page/map.html in a browser, and finds places in its window."""
from __future__ import annotations

import json
import urllib.parse
from typing import Protocol, TypeVar

from .browser import Page
from .page_files import PageFiles

AnyPage = TypeVar("AnyPage", bound=Page)
APage = TypeVar("APage", bound=Page, covariant=True)


class Opener(Protocol[APage]):
    """A browser."""

    def open(self, url: str, width: int, height: int, is_apart: bool) -> APage:
        """A page of a width and a height, once it is loaded, perhaps in a window of its own."""


def url_of(files: PageFiles, address: str | int, name: str, room: str = "paris", **more: str) -> str:
    """The address of the page with its fields filled in."""
    address = address if isinstance(address, str) else f"ws://127.0.0.1:{address}"
    return f"{files.url}/?{urllib.parse.urlencode({'address': address, 'room': room, 'name': name, **more})}"


def opened(chrome: Opener[AnyPage], url: str, width: int = 1280, height: int = 800, is_apart: bool = False) -> AnyPage:
    """A page whose scripts are at work, perhaps in a window of its own."""
    page = chrome.open(url, width, height, is_apart)
    page.wait("typeof page !== 'undefined' && page.background")
    return page


def connect(page: AnyPage) -> AnyPage:
    """Connects a page, and waits for its map. It is at rest when all that was done is answered."""
    page.rest = "!page.session?.unsaved"
    page.click("#connect", "Connect")
    page.wait("page.session?.state === 'open' && $('figures').textContent !== ''")
    return page


def settled(page: AnyPage) -> AnyPage:
    """Waits until all that a page did is answered."""
    page.wait("page.session.unsaved === 0")
    return page


# Waits until the window of the map is where it was for ten frames.
AT_REST = """new Promise((done) => {
    const { map } = page.view;
    let [before, frames] = ['', 0];
    const look = () => {
        const now = JSON.stringify([map.getZoom(), map.getCenter(), page.view.size()]);
        const isMoved = map._animatingZoom || map._panAnim?._inProgress || now !== before;
        [before, frames] = [now, isMoved ? 0 : frames + 1];
        if (frames === 10) done();
        else requestAnimationFrame(look);
    };
    look();
})"""


def at_rest(page: AnyPage) -> AnyPage:
    """Waits until the window of the map does not move any more."""
    page.get(AT_REST)
    return page


def pause(page: Page) -> None:
    """Waits longer than the two clicks of a double click lie apart."""
    page.get("new Promise((done) => setTimeout(done, DOUBLE_CLICK + 30))")


def window_point(page: Page, expression: str) -> tuple[float, float]:
    """Where a position of the map is in the window of a page."""
    x, y = page.get(
        f"""(() => {{
        const box = $('map').getBoundingClientRect();
        const {{ x, y }} = page.view.pointOf({expression});
        return [box.x + x, box.y + y];
    }})()"""
    )
    return x, y


def middle_of(page: Page, selector: str) -> tuple[float, float]:
    """Where the middle of an element of the document is."""
    box = page.get(f"document.querySelector({json.dumps(selector)}).getBoundingClientRect().toJSON()")
    return box["x"] + box["width"] / 2, box["y"] + box["height"] / 2


def at_node(page: Page, name: str) -> tuple[float, float]:
    """Where a node is."""
    return window_point(page, f"page.shapes.positionOf('{name}')")
