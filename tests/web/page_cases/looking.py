"""Finds places on pages and elements in their mirrors, and draws."""
from __future__ import annotations

import json
from typing import Any

from lib.browser import Page
from lib.cases import want
from lib.map_pages import pause, settled, window_point


def at(page: Page, lat: float, lon: float) -> tuple[float, float]:
    """Where a latitude and a longitude are."""
    return window_point(page, f"{{ x: Mercator.x({lon}), y: Mercator.y({lat}) }}")


def row(page: Page, name: str) -> Any:
    """The row that a page's mirror has of an element, or None."""
    return page.get(f"page.elements.get('{name}') ?? null")


def comes(page: Page, name: str, key: str, value: object) -> None:
    """Waits until a page's mirror has an element with a value."""
    wanted = json.dumps(json.dumps(value, separators=(",", ":")))
    page.wait(f"JSON.stringify(page.elements.get('{name}')?.{key}) === {wanted}")


def names_of(page: Page, kind: str = "") -> list[str]:
    """The names of the elements, perhaps of a kind."""
    return sorted(page.get(f"[...page.elements.keys()].filter((el) => el.startsWith('{kind}'))"))


def new_names(page: Page, kind: str = "") -> list[str]:
    """The names of the elements that were made since the beginning, perhaps of a kind."""
    return [name for name in names_of(page, kind) if name[1] == "-"]


def draw(page: Page, *points: tuple[float, float], finish: str | None = "Enter", tool: str = "#line") -> None:
    """Draws a way through points of the window."""
    page.click(tool)
    for point in points:
        page.click_at(*point)
        pause(page)
    if finish:
        page.press(finish)
        settled(page)


def tagged(text: str) -> str:
    """An expression for a gesture that gives the tree a number."""
    return f"page.perform('tagged {text}', () => [{{ do: 'retag', el: 'n4', tags: {{ ref: '{text}' }} }}])"


def press_button(text: str, within: str = "#selected") -> str:
    """An expression that presses a button at once, whether or not the page is at rest."""
    return f"""[...document.querySelectorAll('{within} button')].find((each) =>
        each.textContent.includes('{text}') || each.ariaLabel?.includes('{text}')).click()"""


def at_once(page: Page, *expressions: str) -> None:
    """Does several things before anything can be answered."""
    page.get(f"{', '.join(expressions)}, 0")


def overlay_pixels(page: Page) -> int:
    """How many pixels are drawn over the map."""
    page.get("new Promise((done) => requestAnimationFrame(() => requestAnimationFrame(done)))")
    count: int = page.get(
        """(() => {
        const { over } = page.view;
        const { data } = over.getContext('2d').getImageData(0, 0, over.width, over.height);
        let count = 0;
        for (let at = 3; at < data.length; at += 4) if (data[at]) count += 1;
        return count;
    })()"""
    )
    return count


def not_done(page: Page) -> list[Any]:
    """The list of changes that were not done: each reason with its changes."""
    changes: list[Any] = page.get(
        """$('not-done').hidden ? [] : [...$('not-done-changes').querySelectorAll('p')].map((each) =>
        [each.textContent, [...each.nextSibling.children].map((item) => item.textContent)])"""
    )
    return changes


def close_not_done(page: Page) -> None:
    """Closes the list of changes that were not done, by its button."""
    page.click("#close-not-done")
    want(not_done(page), [])


def draw_unanswered(page: Page, lat: float, preset: str) -> None:
    """Draws a line at a latitude, and does not wait until it is saved."""
    page.get("page.tools.use('line')")
    for lon in (8.2002, 8.2004):
        page.click_at(*at(page, lat, lon))
        pause(page)
    page.get(f"$('preset').value = '{preset}'")
    page.press("Enter")


# How many pixels a target needs for a finger.
TARGET = 44


def small_targets(page: Page) -> list[str]:
    """The buttons and fields that a finger can hardly hit."""
    small: list[str] = page.get(
        f"""[...document.querySelectorAll('button, input, select')].filter((each) => each.checkVisibility())
        .filter((each) => each.type !== 'checkbox' && Math.min(each.offsetWidth, each.offsetHeight) < {TARGET})
        .map((each) => each.id || each.textContent)"""
    )
    return small
