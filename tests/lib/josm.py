"""Runs a story with JOSM's own classes, without its windows, over a room."""
from __future__ import annotations

import os
from pathlib import Path
from typing import Any

from . import others, texts
from .cases import given, want
from .programs import run

JAR = "/usr/share/josm/josm.jar"


def node(number: int) -> dict[str, Any]:
    """A node of the map with which the story begins."""
    return {"el": f"n{number}", "lat": f"{40 + number % 10 / 1e4:.7f}", "lon": "-30.0000000", "tags": {}}


# The map with which the story begins, what it prints, and what is left of it in the end.
ROWS = [
    *(node(number) for number in range(101, 107)),
    {"el": "w11", "nodes": [101, 102, 103], "tags": {"building": "hall"}},
    {"el": "w12", "nodes": [102, 103], "tags": {}},
    {"el": "r1", "members": [["w11", "outer"]], "tags": {}},
]
SAYS = f"""\
downloaded 9 elements
uploaded way {10**15 + 3} of version 1
mika has 0 conflicts, and the way: true
a way that mika changed: 409 understood
lina has 1 conflict
the deletion of a node that mika used: 412 understood
a way on a node that lina deleted: 412 understood
the deletion of a node that lina deleted: node 106 is gone
after an update it has 0 conflicts
one by one a node was made, changed and deleted: true
the map has 11 elements
"""
LEFT = ("40.0002100", {"building": "hall", "opening_hours": "24/7"})


def is_there() -> bool:
    """Whether JOSM and a compiler of Java are there."""
    return os.path.exists(JAR) and others.is_there("javac", "-version")


def has_its_story(url: str, home: Path | str) -> None:
    """JOSM's classes download, upload, update, meet conflicts and understand refusals, at a URL of the API."""
    ran = run(
        "java",
        "-Djava.awt.headless=true",
        f"-Djosm.home={home}",
        "-cp",
        JAR,
        f"{texts.TEXTS}/editors/josm/UseJosm.java",
        url,
        cwd=str(home),
        timeout=120 * given.slow,
    )
    want((ran.output.decode(), ran.status), (SAYS, 0))


def left(rows: dict[str, Any]) -> tuple[str, dict[str, str]]:
    """The values that the story changes, at its end."""
    return rows["n102"]["lat"], rows["w11"]["tags"]
