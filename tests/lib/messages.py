"""Makes messages, replies and rows of maps as values, and their compact texts as a room writes them."""
from __future__ import annotations

import json
from collections.abc import Mapping, Sequence
from typing import Any

# The greatest and the least id of an element, and the greatest number of a message or an entry.
GREATEST_ID, LEAST_ID = 9223372036854775807, -9223372036854775808
GREATEST_NUMBER = 9007199254740991


def compact(value: object) -> str:
    """The compact text of a value, its keys in the order of their bytes."""
    return json.dumps(value, separators=(",", ":"), sort_keys=True, ensure_ascii=False)


def line(message: Mapping[str, object], author: str = "anna") -> str:
    """The line of a message."""
    return f"{author} {compact(message)}\n"


def ok(number: int, what: object) -> str:
    """The line of a reply that accepts a message."""
    return compact({"id": number, "ok": what}) + "\n"


def no(number: int, what: object) -> str:
    """The line of a reply that refuses a message."""
    return compact({"id": number, "no": what}) + "\n"


def node(
    number: int, lat: str = "51.5000000", lon: str = "-0.1000000", tags: Mapping[str, str] | None = None
) -> dict[str, Any]:
    """The row of a node."""
    return {"el": f"n{number}", "lat": lat, "lon": lon, "tags": tags or {}}


def way(number: int, nodes: Sequence[int], tags: Mapping[str, str] | None = None) -> dict[str, Any]:
    """The row of a way."""
    return {"el": f"w{number}", "nodes": nodes, "tags": tags or {}}


def relation(number: int, members: Sequence[Sequence[str]], tags: Mapping[str, str] | None = None) -> dict[str, Any]:
    """The row of a relation."""
    return {"el": f"r{number}", "members": members, "tags": tags or {}}


def map_of(rows: Sequence[Mapping[str, Any]], seq: int = 0, number: int = 1) -> str:
    """The reply to `map`, with these rows."""
    return compact({"id": number, "ok": {"map": rows, "seq": seq}})
