"""Cases: how ways and nodes look: classes of roads with edges, arrows, signs, and areas over tiles."""
from __future__ import annotations

import urllib.parse

from lib.browser import Page
from lib.cases import want
from lib.map_pages import at_node, connect, opened, url_of
from lib.talk import serving
from page_cases.opening import a_node, base_of, browsing, page_case, pages, village
from page_cases.tools import COLOUR, GREEN, NOTHING
from page_cases.ways import a_way, press_for

WHITE = "255,255,255,255"


def colours(page: Page, name: str, along: float, *down: float, canvas: str = "base") -> list[str]:
    """The colours of the map some pixels along and some pixels below a node."""
    x, y = at_node(page, name)

    found: list[str] = page.get(
        f"""(() => {{
        const {{ {canvas}: canvas }} = page.view;
        const corner = canvas.getBoundingClientRect();
        const pixels = canvas.width / parseFloat(canvas.style.width);
        const colourAt = (x, y) => [...canvas.getContext('2d').getImageData(Math.round((x - corner.x) * pixels),
            Math.round((y - corner.y) * pixels), 1, 1).data].join();
        return {list(down)}.map((each) => colourAt({x + along}, {y} + each));
    }})()"""
    )
    return found


def arrow_height(page: Page, name: str, along: float) -> int:
    """How many dark pixels a column of the map has round a line to the east of a node."""
    dark = colours(page, name, along, *range(-6, 7))
    return sum(all(int(part) < 110 for part in each.split(",")[:3]) and each.split(",")[3] != "0" for each in dark)


@page_case
def roads_and_their_arrows() -> None:
    """A street is white with edges, and a primary road has its own colour. A oneway has arrows in its direction, which
    turn if it is reversed, and `oneway=-1` has them the other way. A street without has none, unless it is selected."""
    rows = [
        *(a_node(number, 47.6 + (number - 1) // 2 * 0.0004, 8.2 + (number - 1) % 2 * 0.003) for number in range(1, 9)),
        a_way(1, 1, 2, highway="residential", oneway="yes"),
        a_way(2, 3, 4, highway="residential"),
        a_way(3, 5, 6, highway="primary"),
        a_way(4, 7, 8, highway="residential", oneway="-1"),
    ]
    with pages("anna", rows=rows) as (_, _, anna):
        anna.get("void page.view.map.setZoom(17.75, { animate: false })")
        street, primary = colours(anna, "n3", 80, 0, 3), colours(anna, "n5", 80, 0)
        want((street[0], street[1] != WHITE and street[1] != NOTHING), (WHITE, True))
        want(primary, ["251,196,155,255"])
        middle = 45  # pixels from the start of a line to its first arrow
        tail, tip = arrow_height(anna, "n1", middle - 2), arrow_height(anna, "n1", middle + 2)
        want((tail > tip, tip > 0), (True, True))
        want(arrow_height(anna, "n7", middle - 2) < arrow_height(anna, "n7", middle + 2), True)
        want(arrow_height(anna, "n3", middle), 0)
        press_for(anna, "Reverse", "w1")
        anna.wait("page.view.timers.stale === 0")
        start = anna.get("page.shapes.positionOf('n2').x - page.shapes.positionOf('n1').x") * anna.get(
            "page.view.scale"
        )
        want(arrow_height(anna, "n1", start - middle - 2) < arrow_height(anna, "n1", start - middle + 2), True)
        anna.get("page.select('w2'), new Promise((done) => requestAnimationFrame(() => requestAnimationFrame(done)))")
        arrow, line = (colours(anna, "n3", middle + along, -3, 3, canvas="over") for along in (-2, 20))
        want((NOTHING in arrow, line), (False, [NOTHING, NOTHING]))


@page_case
def signs_of_nodes() -> None:
    """A tree is green and a bus stop has a white sign, where there is room for it."""
    rows = [a_node(1, 47.6, 8.2, natural="tree"), a_node(2, 47.6, 8.201, highway="bus_stop"), a_node(3, 47.601, 8.201)]
    with pages("anna", rows=rows) as (_, _, anna):
        anna.get("void page.view.map.setZoom(18, { animate: false })")
        want(colours(anna, "n1", 0, 0), ["63,143,58,255"])
        want(colours(anna, "n2", -6, 0), ["10,125,60,255"])
        want(WHITE in colours(anna, "n2", -3, *range(-4, 5)), True)
        anna.get("void page.view.map.setZoom(16, { animate: false })")
        want(WHITE in colours(anna, "n2", 0, *range(-2, 3)), False)


@page_case
def nodes_no_larger_than_houses() -> None:
    """Zoomed out, a tree is no larger than a house of ten metres, and the corners of a house do not hide it. A town
    stays large."""
    rows = [
        *(
            a_node(number, 47.6 + lat / 1e5, 8.2 + lon / 1e5)
            for number, lat, lon in ((1, 0, 0), (2, 0, 13), (3, 9, 13))
        ),
        a_node(4, 47.60009, 8.2),
        a_node(5, 47.6, 8.201, natural="tree"),
        a_node(6, 47.602, 8.201, place="town"),
        a_way(1, 1, 2, 3, 4, 1, building="yes"),
    ]
    inside = "({ x: (Mercator.x(8.2) + Mercator.x(8.20013)) / 2, y: (Mercator.y(47.6) + Mercator.y(47.60009)) / 2 })"
    with pages("anna", rows=rows) as (_, _, anna):
        for zoom in (15, 16, 17):
            anna.get(f"void page.view.map.setView([47.601, 8.2005], {zoom}, {{ animate: false }})")
            house = anna.get("housePixels(page.view.painted.frame, page.view.painted.box)")
            tree = colours(anna, "n5", 0, *range(-8, 9))
            want((zoom, sum(each != NOTHING for each in tree) <= max(4, house + 1)), (zoom, True))
            want((zoom, anna.get(f"{COLOUR}({inside})")), (zoom, "220,211,200,255"))
        anna.get("void page.view.map.setView([47.601, 8.2005], 11, { animate: false })")
        want(sum(each != NOTHING for each in colours(anna, "n6", 0, *range(-8, 9))) > 5, True)


@page_case
def areas_over_tiles() -> None:
    """Over tiles areas are outlines, until the mapper chooses how much of them is seen. Tiles can be faded."""
    rows = [
        *(a_node(number, 47.6 + number // 3 * 0.002, 8.2 + number % 3 // 2 * 0.002) for number in (1, 2, 5, 4)),
        a_way(1, 1, 2, 5, 4, 1, landuse="meadow"),
    ]
    rows.sort(key=lambda row: str(row["el"]))
    with serving(workers=4, sessions=20, base=base_of(rows)) as server, browsing() as (files, chrome):
        meadow = f"{COLOUR}({{ x: Mercator.x(8.201), y: Mercator.y(47.6005) }})"
        page = connect(opened(chrome, url_of(files, server.port, "anna")))
        want(page.get(meadow), GREEN)
        tiles = f"{files.url}/tiles/{{z}}/{{x}}/{{y}}.png"
        page = connect(opened(chrome, url_of(files, server.port, "bob", tiles=tiles)))
        want(page.get(meadow), NOTHING)
        page.get("(() => { $('areas-shown').value = '0.3'; $('areas-shown').onchange(); })()")
        want(page.get(f"{meadow}.split(',')[3]"), "77")
        page.get("(() => { $('tiles-fade').value = '40'; $('tiles-fade').oninput(); })()")
        want(page.get("getComputedStyle(document.querySelector('.leaflet-tile-pane')).opacity"), "0.4")
        page.get("(() => { $('tiles-choice').value = '0'; $('tiles-choice').onchange(); })()")
        want((page.get(meadow), page.get("$('tiles-more').checkVisibility()")), (GREEN, False))
        page.end()


@page_case
def layers_of_a_link() -> None:
    """A link brings several layers with their names and credits, of which the first is shown. Tiles are shifted by
    metres, at every zoom."""
    with serving(workers=4, sessions=20, base=base_of(village())) as server, browsing() as (files, chrome):
        tiles = [f"{files.url}/tiles/{name}/{{z}}/{{x}}/{{y}}.png" for name in ("a", "b")]
        more = urllib.parse.urlencode([("tiles", tiles[0]), ("credit", "Me"), ("layer", "Air"), ("tiles", tiles[1])])
        page = connect(opened(chrome, f"{url_of(files, server.port, 'anna')}&{more}"))
        labels = "[...$('tiles-choice').options].map((each) => each.textContent)"
        want(page.get(labels), ["nothing", "Air", "tiles of the link 2", "other tiles .."])
        page.wait("document.querySelectorAll('.leaflet-tile-loaded').length > 0")
        want({path.split("/")[2] for path in files.asked}, {"a"})
        page.get("(() => { $('tiles-choice').value = '2'; $('tiles-choice').onchange(); })()")
        page.wait("[...document.querySelectorAll('.leaflet-tile')].every(({ src }) => src.includes('/b/'))")
        for _ in range(3):
            page.click("#tiles-east")
        page.click("#tiles-north")
        page.wait_text("#tiles-offset", "3 m to the east, 1 m to the north")
        place = "(({ left, top }) => [left, top].map(parseFloat))(document.querySelector('.leaflet-tile-pane').style)"
        metre = page.get("page.view.scale / metresAt(page.view.positionAt(page.view.middle()))")
        want([round(each / metre, 2) for each in page.get(place)], [3, -1])
        page.get("void page.view.map.setZoom(page.view.zoom - 1, { animate: false })")
        want([round(each / metre, 2) for each in page.get(place)], [1.5, -0.5])
        page.click("#tiles-home")
        want(page.get(place), [0, 0])
        page.end()
