"""Snapshots: whole maps.

The first line of a snapshot is a base for `maproom serve --base`. The second line has its position, its time and a
checksum of the first line, so that a snapshot that is not whole is recognized.
"""
from __future__ import annotations

import hashlib
import itertools
import json
from dataclasses import dataclass
from typing import Dict, Iterable, Iterator, List, Tuple

from ..core import Element, compact
from .files import is_no_file, opened_to_read, replace_durably
from .journal import Damaged, Position

# How many elements become text at once. Other threads wait meanwhile.
PART = 500


@dataclass(frozen=True)
class Snapshot:
    """A map, by the names of its elements, and when it was saved."""

    position: Position
    time: float
    elements: Dict[str, Element]


def place_in_map(element: Element) -> Tuple[int, int]:
    """Where an element is in a map: nodes come first, then ways, then relations, each in the order of their ids."""
    name: str = element["el"]
    return "nwr".index(name[0]), int(name[1:])


def base_line(elements: Iterable[Element], seq: int) -> Iterator[bytes]:
    """The parts of the line on which a room begins with a map."""
    ordered = iter(sorted(elements, key=place_in_map))
    yield b'{"id":1,"ok":{"map":['
    comma = ""
    for part in iter(lambda: list(itertools.islice(ordered, PART)), []):
        yield (comma + ",".join(map(compact, part))).encode("utf-8", "surrogatepass")
        comma = ","
    yield b'],"seq":%d}}\n' % seq


def parts_of(snapshot: Snapshot) -> Iterator[bytes]:
    """The parts of a snapshot's file."""
    digest = hashlib.sha256()
    for part in base_line(snapshot.elements.values(), snapshot.position.seq):
        digest.update(part)
        yield part
    facts = {
        "run": snapshot.position.run,
        "seq": snapshot.position.seq,
        "time": round(snapshot.time, 3),
        "sha256": digest.hexdigest(),
    }
    yield f"{compact(facts)}\n".encode()


def write_snapshot(path: str, snapshot: Snapshot) -> None:
    """Saves a snapshot. Raises OSError if that fails, and then no file has this name."""
    replace_durably(path, parts_of(snapshot))


def read_snapshot(path: str) -> Snapshot:
    """Reads a snapshot. Raises Damaged if it is not whole or no regular file, and OSError if it cannot be read."""
    try:
        with opened_to_read(path) as file:
            line, more = file.readline(), file.read()
    except OSError as fault:
        if is_no_file(fault):
            raise Damaged(f"{path} is damaged: it is no regular file") from fault
        raise
    try:
        facts = json.loads(more)
        if not more.endswith(b"\n") or facts["sha256"] != hashlib.sha256(line).hexdigest():
            raise ValueError("its checksum is wrong")
        elements: List[Element] = json.loads(line)["ok"]["map"]
        position = Position(facts["run"], facts["seq"])
        return Snapshot(position, facts["time"], {element["el"]: element for element in elements})
    except (KeyError, TypeError, ValueError) as fault:
        raise Damaged(f"{path} is damaged: {fault}") from fault
