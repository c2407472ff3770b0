"""What operators watch: figures for Prometheus, and whether the room can be reached."""
from __future__ import annotations

import importlib
import importlib.util
import os
import sys
import time
from unittest import mock
from typing import Any

from lib.cases import case_if, want
from editor_cases.shared import CREATE, HAS_ALL, NOW, Served, folder, needed, node

HAS_LIBRARY = HAS_ALL and importlib.util.find_spec("prometheus_client") is not None


def figures(served: Served) -> dict[str, dict[tuple[str, ...], float]]:
    """The figures of this program by their names and their labels, read by Prometheus' library."""
    parser: Any = importlib.import_module("prometheus_client.parser")
    status, text, headers = served.ask("GET", "/metrics")
    want((status, headers["Content-Type"]), (200, "text/plain; version=0.0.4; charset=utf-8"))
    found: dict[str, dict[tuple[str, ...], float]] = {}
    for family in parser.text_string_to_metric_families(text):
        for sample in family.samples:
            if sample.name.startswith("maproom_"):
                want((sample.name, sample.labels.pop("room")), (sample.name, "hamlet"))
                found.setdefault(sample.name, {})[tuple(sample.labels.values())] = sample.value
    want("process_resident_memory_bytes" in text, True)
    return found


@case_if(lambda: HAS_LIBRARY)
def figures_for_prometheus() -> None:
    """The figures say what happened: entries, elements, refusals by reason, responses, and the time since a change."""
    with Served([node("n1"), node("n2")]) as served:
        wanted = {"maproom_up": 1, "maproom_elements": 2, "maproom_sessions": 1, "maproom_entries_total": 0}
        want(figures(served), {name: {(): value} for name, value in wanted.items()})
        changeset = served.ask("PUT", "/api/0.6/changeset/create", "<osm><changeset/></osm>")[1]
        path = f"/api/0.6/changeset/{changeset}/upload"
        want(served.ask("POST", path, f"<osmChange>{CREATE}</osmChange>")[0], 200)

        async def bob_changes_it() -> None:
            served.room.group("bob", [{"do": "retag", "el": "n-1", "tags": {"name": "Tor"}}])

        served.bridge.clock = NOW + 30
        served.run(bob_changes_it())
        want([served.ask("POST", "/undo")[0], served.ask("GET", "/api/0.6/node/9")[0]], [409, 404])
        served.bridge.clock = NOW + 100
        found = figures(served)
        want(found["maproom_refusals_total"], {("conflict",): 1})
        want(found["maproom_responses_total"], {("200",): 3, ("404",): 1, ("409",): 1})
        want((found["maproom_entries_total"], found["maproom_elements"]), ({(): 2}, {(): 3}))
        want(found["maproom_seconds_since_change"], {(): 70})
        want("maproom_seconds_since_save" in found, False)
        served.room.is_open = False
        began = time.monotonic()
        want((figures(served)["maproom_up"], time.monotonic() - began < 2), ({(): 0}, True))


@case_if(lambda: HAS_LIBRARY)
def the_keepers_last_save() -> None:
    """With the keeper's folder, the figures say when it last wrote."""
    with folder() as path, Served([node("n1")]) as served:
        served.bridge.calls.measures._kept = path
        want("maproom_seconds_since_save" in figures(served), False)
        for name, at in (("snapshot-00000001.map", 100), ("journal-00000001.jsonl", 40), ("lock", 0)):
            (path / name).touch()
            os.utime(path / name, (NOW - at, NOW - at))
        want(figures(served)["maproom_seconds_since_save"], {(): 40})
        served.bridge.calls.measures._kept = path / "nowhere"
        want("maproom_seconds_since_save" in figures(served), False)


@needed
def figures_without_the_library() -> None:
    """Without Prometheus' library, a line says which package has it."""
    with Served([node("n1")]) as served, mock.patch.dict(sys.modules, {"prometheus_client": None}):
        status, text, _ = served.ask("GET", "/metrics")
        want((status, text.split(", which")[0]), (501, "/metrics needs Debian's python3-prometheus-client"))
        want(text.count("\n"), 0)


@needed
def health() -> None:
    """A load balancer learns at once whether the room can be reached, also if it names no host, and leaves no lines in
    the log. The figures are for known hosts only."""
    with Served([node("n1")]) as served:
        for method, text in (("GET", "ok\n"), ("HEAD", "")):
            named: list[dict[str, str]] = [{}, {"Host": "lb.example"}]
            for headers in named:
                want((method, headers, *served.ask(method, "/health", None, headers)[:2]), (method, headers, 200, text))
        want(served.say(b"GET /health HTTP/1.0\r\n\r\n").split(b"\r\n")[0], b"HTTP/1.0 200 OK")
        want(served.notes, [])
        want(served.ask("GET", "/metrics", None, {"Host": "lb.example"})[0], 403)
        served.room.is_open = False
        began = time.monotonic()
        status, text, _ = served.ask("GET", "/health")
        away = "The room cannot be reached at the moment. Nothing was done.\n"
        want((status, text, time.monotonic() - began < 2), (503, away, True))
        want([note.split(" ")[0] for note in served.notes], ["403", "503"])
        want(served.ask("POST", "/health")[0], 404)
