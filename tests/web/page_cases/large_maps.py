"""Cases: a large map, and how soon it is seen."""
from __future__ import annotations

import functools
import json
import statistics
from collections.abc import Iterator
from argparse import ArgumentParser

from lib.browser import Page, browser
from lib.cases import TOP, given, want
from lib.map_pages import connect, opened, url_of
from lib.others import chromium
from lib.page_files import PageFiles
from lib.serving import Server, Session
from lib.talk import serving
from page_cases.opening import Row, a_node, base_of, browsing, page_case


# How many elements the large map has, and how many milliseconds its parts may take on a machine that others use, too.
# On an idle machine they took a fourth of that or less.
LARGE = 72_000
MOST = {"welcome": 2500, "news": 60, "find": 80, "paint": 250, "frame": 80, "warnings": 3000, "slice": 50}
MOST_PAINTED = 4000
MOST_HEAP = 70_000_000


def large_map() -> Iterator[Row]:
    """The rows of a large map: for each nine nodes a way of them, in parallel lines."""
    ways = LARGE // 10

    def place(number: int) -> tuple[float, float]:
        return 47 + number % 90 * 0.002, 8 + number // 90 * 0.002

    for number in range(ways):
        lat, lon = place(number)
        for step in range(9):
            tags = {"natural": "tree", "name": f"Tree {number}"} if step == 4 and number % 10 == 0 else {}
            yield a_node(number * 9 + step + 1, lat + step % 3 * 0.0004, lon + step // 3 * 0.0004, **tags)
    for number in range(ways):
        nodes = list(range(number * 9 + 1, number * 9 + 10))
        yield {"el": f"w{number + 1}", "nodes": nodes, "tags": {"highway": "track"}}


# Drags the map to and fro, and gives the median of the milliseconds between frames.
FRAMES = """(async () => {
    const frame = () => new Promise((done) => requestAnimationFrame(done));
    const box = $('map').getBoundingClientRect();
    const at = { clientX: box.x + box.width / 2, clientY: box.y + box.height / 2 };
    const target = document.elementFromPoint(at.clientX, at.clientY);
    const tell = (kind, buttons) => {
        const how = { bubbles: true, cancelable: true, button: 0, buttons, pointerId: 1, pointerType: 'mouse', ...at };
        target.dispatchEvent(new PointerEvent(`pointer${kind}`, how));
        target.dispatchEvent(new MouseEvent(`mouse${kind}`, how));
    };
    const took = [];
    tell('down', 1);
    let last = await frame();
    for (let step = 0; step < 40; step += 1) {
        at.clientX += step % 20 < 11 ? 6 : -6;
        tell('move', 1);
        const now = await frame();
        took.push(now - last);
        last = now;
    }
    tell('up', 0);
    return took.sort((one, other) => one - other)[20];
})()"""


# Has the page look for all warnings, and gives the milliseconds until they are listed.
CHECK = """(async () => {
    const began = performance.now();
    $('check-map').click();
    while (page.warnings.whole) await new Promise((done) => setTimeout(done, 5));
    return performance.now() - began;
})()"""


@functools.lru_cache(maxsize=None)
def a_large_base() -> str:
    """A large map to begin with: that of `--base`, or one that is made."""
    if not given.base:
        return base_of(list(large_map()))
    with open(given.base, encoding="utf-8") as file:
        line: str = file.readline()
    return line


@page_case
def a_large_map() -> None:
    """A map of 72,000 elements: how long it takes to show it, to draw it, to take news, to find and to look for warnings,
    and how much memory it needs; all ways are drawn at every zoom."""
    rows = json.loads(a_large_base())["ok"]["map"]
    with serving(workers=4, sessions=9, base=a_large_base()) as server, browsing() as (files, chrome):
        page = connect(opened(chrome, url_of(files, server.port, "anna")))
        bob = server.session("bob")
        page.wait("page.view.drawn")
        ways = sum("nodes" in each for each in rows)
        want(page.get("page.view.drawn.ways"), ways)
        took = {"welcome": page.get("page.timings.map"), "news": 0, "find": 0}
        took["paint"] = page.get("(page.view.paint(), page.view.lastPaint)")
        centre = page.get("page.view.map.getCenter().lng")
        took["frame"] = page.get(FRAMES)
        want(page.get("page.view.map.getCenter().lng") != centre, True)
        page.get("new Promise((done) => setTimeout(done, 1500))")
        for seq, zoom in enumerate((0, -4, 8, 4), 1):
            page.get(f"page.view.zoomBy({zoom}), new Promise((done) => setTimeout(done, 500))")
            want(page.get(f"page.view.painted.zoom === page.view.zoom && {DRAWN_WAYS}"), True)
            took["news"] = max(took["news"], time_of_news(page, bob, rows[32_404]["el"], seq))
        for word in ("t", "tr", "tree 71"):
            page.fill("#find", word)
            took["find"] = max(took["find"], page.get("page.timings.find"))
        took["warnings"] = page.get(CHECK)
        slices = sorted(page.get("page.warnings.slices"))
        took["slice"] = slices[len(slices) * 9 // 10]  # others use the machine, too
        page.ask("HeapProfiler.collectGarbage")
        heap = page.ask("Runtime.getHeapUsage")["usedSize"]
        told = ", ".join(f"{word} {milliseconds:.1f} ms" for word, milliseconds in took.items())
        print(f"{told}, heap {heap / 1e6:.0f} MB")
        want([word for word, milliseconds in took.items() if milliseconds > MOST[word] * given.slow], [])
        want(heap < MOST_HEAP, True)
        page.end()


# Whether each way was drawn that reaches into what is drawn of the plane.
DRAWN_WAYS = """page.view.drawn.ways
    === [...page.shapes.ways.values()].filter((way) => doMeet(way, page.view.painted.box)).length"""


def time_of_news(page: Page, bob: Session, node: str, seq: int) -> float:
    """How many milliseconds of script a page needs for the news that a node was moved and tagged."""
    move = {"do": "move", "els": [node], "dlat": 100, "dlon": 0}
    tag = {"do": "retag", "el": node, "tags": {"natural": "shrub", "ref": str(seq)}}
    bob.ask({"id": seq + 1, "do": "group", "actions": [move, tag]})
    page.wait(f"page.session.room.seq === {seq} && page.view.stale.length === 0")
    took: float = page.get("page.timings.news + page.view.lastRepaint")
    return took


# Notes when Connect is clicked, and when the frame was on the screen that took longest.
PAINTED = """(() => {
    let clicked = 0, longest = 0;
    addEventListener('click', (event) => (clicked ||= event.timeStamp), true);
    new PerformanceObserver((list) => {
        for (const frame of list.getEntries()) {
            if (!clicked || frame.duration < longest) continue;
            longest = frame.duration;
            window.painted = (frame.presentationTime || frame.startTime + frame.duration) - clicked;
        }
    }).observe({ type: 'long-animation-frame' });
})()"""


def time_to_see(server: Server, folder: str) -> float:
    """How many milliseconds after the click on Connect the page of a folder shows its map."""
    with PageFiles(folder=folder) as files, browser(chromium()) as chrome:
        page = chrome.open(url_of(files, server.port, "anna"))
        page.get("new Promise((done) => setTimeout(done, 700))")
        page.get(PAINTED)
        page.click("#connect", "Connect")
        page.wait("window.painted && document.getElementById('figures').textContent !== ''")
        page.get("new Promise((done) => setTimeout(done, 300))")
        painted: float = page.get("window.painted")
        return painted


@page_case
def how_soon_a_map_is_seen() -> None:
    """How long it takes from the click on Connect to the frame with a map of 72,000 elements: the median of `--rounds`,
    and with `--beside` that of another page, opened in turn."""
    folders = [folder for folder in (given.beside, f"{TOP}/clients/page") if folder]
    with serving(workers=4, sessions=9 + 2 * given.rounds, base=a_large_base()) as server:
        rounds = [[time_to_see(server, folder) for folder in folders] for _ in range(given.rounds)]
    *beside, took = [statistics.median(each) for each in zip(*rounds)]
    share = f", {took / beside[0]:.2f} of the {beside[0]:.0f} ms of the other page" if beside else ""
    print(f"painted after {took:.0f} ms{share}")
    want(took < MOST_PAINTED * given.slow, True)


def options(words: ArgumentParser) -> None:
    """The words for large maps."""
    words.add_argument("--base", metavar="FILE", help="the large map, as bench/serve takes it, else one that is made")
    words.add_argument("--beside", metavar="FOLDER", help="a folder with another map.html to measure, alternating")
    words.add_argument("--rounds", type=int, default=1, help="how often it is measured how soon a map is seen, else 1")
