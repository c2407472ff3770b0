"""Case: two mappers map a village."""
from __future__ import annotations

import json
import math
import tempfile
from collections.abc import Mapping
from typing import Any

from lib.browser import Page
from lib.cases import TOP, want
from lib.map_pages import connect, opened, pause, settled, url_of
from lib.programs import run
from lib.serving import Session
from lib.talk import serving
from page_cases.looking import at, comes, new_names, row
from page_cases.opening import browsing, page_case


def faults_of(rows: Mapping[str, Any]) -> dict[str, object]:
    """What a validator would say of a map: two nodes at one place, ends of roads that lie within a metre of a road and
    are not joined to it, and nodes without a tag and a use."""
    nodes = {int(name[1:]): (float(each["lat"]), float(each["lon"])) for name, each in rows.items() if name[0] == "n"}
    ways = [each for each in rows.values() if "nodes" in each]
    roads = [way["nodes"] for way in ways if "highway" in way["tags"]]
    used = {number for way in ways for number in way["nodes"]}
    used |= {int(name[1:]) for each in rows.values() for name, _ in each.get("members", ()) if name[0] == "n"}
    loose = [number for number in nodes if number not in used and not rows[f"n{number}"]["tags"]]
    doubles = len(nodes) - len(set(nodes.values()))

    def metre(place: tuple[float, float]) -> tuple[float, float]:
        return place[0] * 111_320, place[1] * 111_320 * math.cos(math.radians(place[0]))

    ends = [(number, road) for road in roads for number in (road[0], road[-1])]
    apart = [
        number
        for number, road in ends
        for other in roads
        if other is not road
        and number not in other
        and any(
            distance(metre(nodes[number]), metre(nodes[one]), metre(nodes[two])) < 1
            for one, two in zip(other, other[1:])
        )
    ]
    return {"doubles": doubles, "loose": loose, "apart": apart}


def distance(at_place: tuple[float, float], one: tuple[float, float], other: tuple[float, float]) -> float:
    """How far a place is from a segment."""
    across, up = other[0] - one[0], other[1] - one[1]
    part = ((at_place[0] - one[0]) * across + (at_place[1] - one[1]) * up) / ((across**2 + up**2) or 1)
    part = max(0, min(1, part))
    return math.dist(at_place, (one[0] + part * across, one[1] + part * up))


@page_case
def a_mapping_evening() -> None:
    """A street with two crossings and three buildings with addresses is drawn onto the hamlet while another mapper is
    at work; one crossing is undone; the export is free of what a validator looks for."""
    base = run("python3", f"{TOP}/clients/osm_to_base", f"{TOP}/docs/hamlet.osm").output.decode()
    with serving("hamlet", workers=4, sessions=20, base=base) as server, browsing() as (files, chrome):
        bob = server.session("bob")
        lina = connect(opened(chrome, url_of(files, server.port, "lina", "hamlet")))
        lina.get("$('joining').checked = true")
        street_with_buildings(lina, bob)
        rows = settled(lina).get("Object.fromEntries(page.elements)")
        want(faults_of(rows), {"doubles": 0, "loose": [], "apart": []})
        reply = bob.ask({"id": 99, "do": "map"})
        with tempfile.NamedTemporaryFile("w", suffix=".map") as file:
            file.write(json.dumps(reply, separators=(",", ":")) + "\n")
            file.flush()
            ran = run("python3", f"{TOP}/clients/map_to_osm", "--extract", f"{TOP}/docs/hamlet.osm", file.name)
        want(ran.status, 0)
        exported = ran.output.decode()
        want([f'v="{text}"' in exported for text in ("Neue Gasse", "31", "33", "35")], [True] * 4)
        lina.end()


def street_with_buildings(lina: Page, bob: Session) -> None:
    """The evening's work."""
    lina.click("#line")
    lina.get("$('preset').value = 'Street'")
    for lat, lon in ((39.9999289, -30.0014072), (39.9990, -30.0012), (39.9985, -30.0002), (39.9990119, -29.9992964)):
        lina.click_at(*at(lina, lat, lon))
        pause(lina)
    bob.ask({"id": 2, "do": "retag", "el": "n107", "tags": {"note": "seen"}})
    lina.press("Enter")
    settled(lina).wait("page.selected[0]?.startsWith('w-')")
    [street] = new_names(lina, "w")
    lina.get(f"page.select('{street}')")
    lina.fill("#selected .tag:last-child input", "name")
    lina.fill("#selected .tag:last-child input:nth-child(2)", "Neue Gasse")
    lina.click("#selected button", "Save tags")
    comes(lina, street, "tags.name", "Neue Gasse")
    for lat, lon in ((39.99875, -30.0007), (39.99875, -29.99975)):
        settled(lina).click("#point")
        lina.get("$('preset').value = 'Crossing'")
        lina.click_at(*at(lina, lat, lon))
        lina.wait("page.session.unsaved === 0 && page.selected[0]?.startsWith('n-')")
    want(len(row(lina, street)["nodes"]), 6)
    for number in range(3):
        a_house(lina, 39.9992 - number * 0.0002, -30.0008 + number * 0.0003, str(31 + 2 * number))
    undo = "[...$('undos').querySelectorAll('li')].find((each) => each.textContent.includes('made a crossing'))"
    lina.get(f"{undo}.querySelector('button').click()")
    lina.wait(f"page.elements.get('{street}').nodes.length === 5")


def a_house(page: Page, lat: float, lon: float, number: str) -> None:
    """A building with an address."""
    settled(page).click("#area")
    page.get("$('preset').value = 'House'")
    for up, right in ((0, 0), (0, 0.00012), (-0.00008, 0.00012), (-0.00008, 0)):
        page.click_at(*at(page, lat + up, lon + right))
        pause(page)
    page.press("Enter")
    settled(page).wait("page.elements.get(page.selected[0])?.tags.building === 'house'")
    page.fill("#selected .tag:last-child input", "addr:housenumber")
    page.fill("#selected .tag:last-child input:nth-child(2)", number)
    page.click("#selected button", "Save tags")
    page.wait(f"page.elements.get(page.selected[0]).tags['addr:housenumber'] === '{number}'")
