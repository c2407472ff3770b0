"""Figures for operators, in the text form of Prometheus. They come from what the program knows anyhow."""
import collections
import time
from collections.abc import Callable, Iterator
from pathlib import Path
from typing import Any

from ..missing import imported
from .connection import RoomConnection
from .room_map import RoomMap

# The type of the text form.
EXPOSITION = "text/plain; version=0.0.4"

CLIENT, PACKAGE = "prometheus_client", "python3-prometheus-client"


class Measures:
    """What Prometheus reads. `kept` is the folder of the room's keeper, if it is known."""

    def __init__(
        self, room: RoomConnection, room_map: RoomMap, kept: Path | None, clock: Callable[[], float] = time.time
    ) -> None:
        self._room, self._map, self._kept, self._clock = room, room_map, kept, clock
        self._responses: collections.Counter[int] = collections.Counter()
        self._registry: Any = None
        self._families: Any = None

    def count_response(self, status: int) -> None:
        """Counts a response to an editor, or to another program."""
        self._responses[status] += 1

    def text(self) -> str:
        """Returns all figures. Raises MissingPackage without the library that writes them."""
        client = imported(CLIENT, PACKAGE, "/metrics")
        if self._registry is None:
            self._families = imported(f"{CLIENT}.core", PACKAGE, "/metrics")
            self._registry = client.CollectorRegistry()
            self._registry.register(self)
            client.ProcessCollector(registry=self._registry)
        text: bytes = client.generate_latest(self._registry)
        return text.decode()

    def collect(self) -> Iterator[Any]:
        """Yields each figure for the library."""
        yield self._gauge("maproom_up", "Whether the room can be reached", int(self._room.is_open))
        yield self._gauge("maproom_elements", "Elements in the map", len(self._room.elements))
        yield self._gauge("maproom_sessions", "Sessions of this program with the server", self._room.sessions)
        yield self._counter("maproom_entries", "Entries of the room since its server began", self._room.seq)
        for name, at, what in (
            ("maproom_seconds_since_change", self._map.changed_at, "Seconds since the last entry that came"),
            ("maproom_seconds_since_save", self._saved_at(), "Seconds since the keeper wrote"),
        ):
            if at is not None:
                yield self._gauge(name, what, max(0.0, self._clock() - at))
        refusals = dict(sorted(self._room.refusals.items()))
        yield self._counters("maproom_refusals", "Messages of this program that the room refused", "reason", refusals)
        responses = {str(status): count for status, count in sorted(self._responses.items())}
        yield self._counters("maproom_responses", "Responses of this program", "status", responses)

    def _gauge(self, name: str, what: str, value: float) -> Any:
        """Returns a figure that rises and falls."""
        family = self._families.GaugeMetricFamily(name, what, labels=["room"])
        family.add_metric([self._room.room], value)
        return family

    def _counter(self, name: str, what: str, value: float) -> Any:
        """Returns a figure that only rises, or begins again at 0."""
        family = self._families.CounterMetricFamily(name, what, labels=["room"])
        family.add_metric([self._room.room], value)
        return family

    def _counters(self, name: str, what: str, label: str, values: dict[str, int]) -> Any:
        """Returns figures that only rise, one for each value of a label."""
        family = self._families.CounterMetricFamily(name, what, labels=["room", label])
        for key, value in values.items():
            family.add_metric([self._room.room, key], value)
        return family

    def _saved_at(self) -> float | None:
        """Returns when the keeper last wrote to its folder, or None if that is not known."""
        if self._kept is None:
            return None
        try:
            files = [path for path in self._kept.iterdir() if path.suffix in (".map", ".jsonl")]
            return max((path.lstat().st_mtime for path in files), default=None)
        except OSError:
            return None
