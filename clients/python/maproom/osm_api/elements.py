"""Elements in the form of the room's protocol, which are called rows, and coordinates."""
import hashlib
import json
import re
from collections.abc import Mapping
from decimal import ROUND_HALF_EVEN, Decimal, InvalidOperation
from typing import Any

from ..core import Element
from ..xml_elements import DECIMALS, MOST_LATITUDE, MOST_LONGITUDE, replaced

# Coordinates are whole numbers of ten-millionths of a degree.
DEGREE: int = 10**DECIMALS
NUMBER = re.compile(r"[+-]?(?:[0-9]+\.?[0-9]*|\.[0-9]+)(?:[eE][+-]?[0-9]{1,3})?")

# How many characters a coordinate has at most. OpenStreetMap's have 12.
MOST_DIGITS = 40

GONE_DIGEST = "gone"

# The parts of an element, of which the room compares each alone, and their sets.
TAGS, REST = "tags", "rest"
ALL_PARTS = frozenset({TAGS, REST})
TAGS_ALONE, REST_ALONE = frozenset({TAGS}), frozenset({REST})
NO_PARTS: frozenset[str] = frozenset()

# Made once, because `json.dumps` would make an encoder for each element of a map.
ENCODER = json.JSONEncoder(ensure_ascii=False, separators=(",", ":"))


# The content of an element. An entry of the API has none if the element is deleted.
Row = Element
Rows = Mapping[str, Row | None]


def references(row: Row | None) -> list[str]:
    """Returns the names that a row refers to, in its order."""
    if row is None or "lat" in row:
        return []
    return [f"n{number}" for number in row.get("nodes", ())] + [name for name, _ in row.get("members", ())]


def units_of(text: str | None) -> int | None:
    """Returns the coordinate of a text in degrees, rounded to seven decimals, or None if it is not a number."""
    if text is None or len(text) > MOST_DIGITS or not NUMBER.fullmatch(text):
        return None
    try:
        return int(Decimal(text).scaleb(DECIMALS).to_integral_value(ROUND_HALF_EVEN))
    except InvalidOperation:
        return None


def coordinate_text(units: int) -> str:
    """Returns a coordinate in degrees with seven decimals."""
    degrees, decimals = divmod(abs(units), DEGREE)
    return f"{'-' if units < 0 else ''}{degrees}.{decimals:0{DECIMALS}}"


def text_units(text: str) -> int:
    """Returns the coordinate of a text with exactly seven decimals, as rows have it."""
    return int(text.replace(".", ""))


def is_in_world(latitude: int, longitude: int) -> bool:
    """Returns whether a position lies in the range of latitudes and longitudes."""
    return abs(latitude) <= MOST_LATITUDE * DEGREE and abs(longitude) <= MOST_LONGITUDE * DEGREE


def compact(value: object) -> str:
    """Returns a value as compact JSON."""
    return ENCODER.encode(value)


def digest(row: Row | None) -> str:
    """Returns a short text that differs between two contents of an element."""
    if row is None:
        return GONE_DIGEST
    content: list[Any] = [row.get("lat"), row.get("lon"), row.get("nodes"), row.get("members")]
    content.append(sorted(row["tags"].items()))
    return hashlib.blake2b(compact(content).encode("utf-8", "surrogatepass"), digest_size=8).hexdigest()


def is_same(row: Row | None, other: Row | None) -> bool:
    """Returns whether two rows have the same content."""
    return digest(row) == digest(other)


def changed_parts(before: Row | None, after: Row | None) -> frozenset[str]:
    """Returns the parts in which two rows of an element differ."""
    if before is None or after is None:
        return NO_PARTS if before is after else ALL_PARTS
    has_new_tags, has_new_rest = before["tags"] != after["tags"], rest_of(before) != rest_of(after)
    if has_new_tags:
        return ALL_PARTS if has_new_rest else TAGS_ALONE
    return REST_ALONE if has_new_rest else NO_PARTS


def rest_of(row: Row) -> tuple[object, ...]:
    """Returns the position or the list of a row."""
    return row.get("lat"), row.get("lon"), row.get("nodes"), row.get("members")


def sayable(text: str) -> str:
    """Returns a text as XML can hold it: editors see U+FFFD in the place of other characters."""
    return replaced(text)[0]
