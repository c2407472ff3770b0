"""Cases: tracks and photos of the mapper's own on the map, and where the mapper is."""
from __future__ import annotations

import base64
import os
import struct
import tempfile
from typing import Any

from lib.browser import Page
from lib.cases import want
from lib.map_pages import at_rest
from page_cases.looking import at, overlay_pixels
from page_cases.opening import page_case, pages

# A GPX file with a track of two segments, a route, a waypoint, and a point that is nowhere.
TRACK = """<?xml version="1.0"?>
<gpx version="1.1" xmlns="http://www.topografix.com/GPX/1/1">
<wpt lat="47.6004" lon="8.2001"><name>gate</name></wpt>
<rte><rtept lat="47.6001" lon="8.2"/><rtept lat="47.6002" lon="8.2005"/></rte>
<trk><trkseg><trkpt lat="47.5998" lon="8.1999"/><trkpt lat="47.6006" lon="8.2018"/></trkseg>
<trkseg><trkpt lat="47.6" lon="8.2"/><trkpt lat="947" lon="8.2"/></trkseg></trk>
</gpx>
"""


def exif(lat: float, lon: float, order: str) -> bytes:
    """A segment of a JPEG file that says where it was taken, with numbers of an order of bytes (`<` or `>`)."""

    def degrees(value: float) -> bytes:
        """Degrees, minutes and seconds, as fractions."""
        minutes = abs(value) % 1 * 60
        parts = (int(abs(value)), 1), (int(minutes), 1), (round(minutes % 1 * 60 * 10000), 10000)
        return b"".join(struct.pack(f"{order}II", *part) for part in parts)

    def entry(tag: int, kind: int, count: int, value: bytes) -> bytes:
        return struct.pack(f"{order}HHI", tag, kind, count) + value.ljust(4, b"\0")

    def place(value: int) -> bytes:
        return struct.pack(f"{order}I", value)

    first = 8 + 2 + 2 * 12 + 4  # behind the list of the image, which has an orientation, too
    values = first + 2 + 4 * 12 + 4
    image = struct.pack(f"{order}H", 2) + entry(0x0112, 3, 1, struct.pack(f"{order}H", 1))
    image += entry(0x8825, 4, 1, place(first)) + place(0)
    sides = "NS"[lat < 0], "EW"[lon < 0]
    gps = struct.pack(f"{order}H", 4)
    for tag, side, value in ((1, sides[0], values), (3, sides[1], values + 24)):
        gps += entry(tag, 2, 2, side.encode()) + entry(tag + 1, 5, 3, place(value))
    mark = b"II" if order == "<" else b"MM"
    tiff = mark + struct.pack(f"{order}HI", 42, 8) + image + gps + place(0) + degrees(lat) + degrees(lon)
    data = b"Exif\0\0" + tiff
    return b"\xff\xe1" + struct.pack(">H", len(data) + 2) + data


def jpeg(page: Page, *segments: bytes) -> bytes:
    """A red JPEG of 80 by 40 pixels, made by the browser, with segments at its start."""
    url: str = page.get(
        """(() => {
        const canvas = Object.assign(document.createElement('canvas'), { width: 80, height: 40 });
        const context = canvas.getContext('2d');
        context.fillStyle = '#f00';
        context.fillRect(0, 0, 80, 40);
        return canvas.toDataURL('image/jpeg');
    })()"""
    )
    data = base64.b64decode(url.split(",")[1])
    return data[:2] + b"".join(segments) + data[2:]


def drop(page: Page, x: float, y: float, *paths: str) -> None:
    """Drops files on a point of the window."""
    about: dict[str, Any] = {"items": [], "files": list(paths), "dragOperationsMask": 1}
    for kind in ("dragEnter", "dragOver", "drop"):
        page.ask("Input.dispatchDragEvent", type=kind, x=x, y=y, data=about)


def choose_files(page: Page, *paths: str) -> None:
    """Chooses files as in the window that the button opens."""
    node = page.ask("Runtime.evaluate", expression="$('file')")["result"]["objectId"]
    page.ask("DOM.setFileInputFiles", files=list(paths), objectId=node)


def written(folder: str, name: str, data: bytes) -> str:
    """The path of a new file."""
    path = os.path.join(folder, name)
    with open(path, "wb") as file:
        file.write(data)
    return path


@page_case
def a_track() -> None:
    """A GPX file that is opened is drawn over the map, can be hidden and closed, and is not sent. A file that is none
    is refused with a sentence."""
    with tempfile.TemporaryDirectory() as folder, pages("anna") as (_, zoe, anna):
        before = overlay_pixels(anna)
        choose_files(anna, written(folder, "walk.gpx", TRACK.encode()), written(folder, "bad.gpx", b"<html/>"))
        anna.wait_text("#files", "walk.gpx")
        anna.wait_text("#message.refused", "bad.gpx is no GPX file, or has no points.")
        counts = "page.files.all[0].track"
        want(anna.get(f"[{counts}.lines.map((each) => each.length), {counts}.points.length]"), [[2, 1, 2], 1])
        drawn = overlay_pixels(at_rest(anna))
        want(drawn > before + 500, True)
        anna.click("#files input")
        want(overlay_pixels(anna) < drawn - 500, True)
        anna.click("#files input")
        want(overlay_pixels(anna), drawn)
        anna.click("#files button[aria-label='Close walk.gpx']")
        want((anna.get("$('files').children.length"), overlay_pixels(anna)), (0, before))
        want((anna.get("page.session.room.seq"), anna.get("$('saved').textContent")), (0, "All saved"))


@page_case
def photos() -> None:
    """Photos that are dropped on the map are shown where they were taken, also in the south and the west. A click opens
    one, and Escape closes it. A photo that does not say where it was taken is refused."""
    with tempfile.TemporaryDirectory() as folder, pages("anna") as (_, _, anna):
        x, y = at(anna, 47.6, 8.2)
        here = written(folder, "here.jpg", jpeg(anna, b"\xff\xe0\0\4ab", exif(47.6003, 8.2012, "<")))
        nowhere = written(folder, "nowhere.jpg", jpeg(anna))
        broken = written(folder, "broken.jpg", jpeg(anna, exif(1, 1, ">"))[:60])
        drop(anna, x, y, here, nowhere, broken)
        anna.wait_text("#files", "here.jpg")
        why = "is no GPX file, and no JPEG photo that says where it was taken."
        anna.wait_text("#message.refused", f"nowhere.jpg {why} broken.jpg {why}")
        want(anna.get("$('files').children.length"), 1)
        place = anna.get("page.files.all[0].photo.at")
        want(
            [round(anna.get(f"Mercator.lat({place['y']})"), 5), round(anna.get(f"Mercator.lon({place['x']})"), 5)],
            [47.6003, 8.2012],
        )
        red = """(() => {
            const { x, y } = page.view.pointOf(page.files.all[0].photo.at);
            return [...page.view.over.getContext('2d').getImageData(x, y, 1, 1).data];
        })()"""
        overlay_pixels(at_rest(anna))
        want([anna.get(red)[0] > 200, anna.get(red)[1] < 60], [True, True])
        anna.click_at(*at(anna, 47.6003, 8.2012))
        anna.wait("!$('photo').hidden && $('photo-canvas').width === 80")
        want((anna.get("$('photo-title').textContent"), anna.get("page.selected")), ("here.jpg", []))
        anna.press("Escape")
        anna.wait("$('photo').hidden")
        for number, (lat, lon, order) in enumerate(((-33.5, 151.25, ">"), (40.25, -3.75, "<"))):
            choose_files(anna, written(folder, f"{number}.jpg", jpeg(anna, exif(lat, lon, order))))
            anna.wait(f"page.files.all.length === {number + 2}")
            place = anna.get(f"page.files.all[{number + 1}].photo.at")
            got = (anna.get(f"Mercator.lat({place['y']})"), anna.get(f"Mercator.lon({place['x']})"))
            want([round(each, 5) for each in got], [lat, lon])


@page_case
def where_the_mapper_is() -> None:
    """The place that the device says is shown and followed, until the button is pressed again. If the browser may not
    say it, a sentence does."""
    with pages("anna") as (_, _, anna):
        origin = anna.get("location.origin")
        owner: Any = anna.owner
        anna.ask("Emulation.setGeolocationOverride", latitude=47.61, longitude=8.21, accuracy=20)
        owner.ask("Browser.grantPermissions", origin=origin, permissions=["geolocation"])
        anna.click("#locate")
        anna.wait("page.locator.fix && Math.abs(page.view.map.getCenter().lat - 47.61) < 1e-5")
        want(anna.get("$('locate').getAttribute('aria-pressed')"), "true")
        want(overlay_pixels(at_rest(anna)) > 150, True)
        anna.ask("Emulation.setGeolocationOverride", latitude=47.6101, longitude=8.21, accuracy=20)
        anna.wait("Mercator.lat(page.locator.fix.y) > 47.61005")
        want(anna.get("Math.abs(page.view.map.getCenter().lat - 47.61) < 1e-5"), True)
        anna.click("#locate")
        want((anna.get("page.locator.fix"), overlay_pixels(anna)), (None, 0))
        owner.ask("Browser.setPermission", origin=origin, permission={"name": "geolocation"}, setting="denied")
        anna.click("#locate")
        anna.wait_text("#message.refused", "Your browser does not tell this page where you are.")
        want(anna.get("$('locate').getAttribute('aria-pressed')"), "false")
