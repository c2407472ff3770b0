"""The elements of OpenStreetMap's XML as it spells them, and the limits of a room.

extract.py reads files with it, and osm_api/osm_reading.py what editors send. Each has its own parser: a file of
gigabytes is read element by element, by the standard library alone. A body of a request comes from the network, so
defusedxml parses it, and its size is limited. They also check by rules of their own: an extract loses what a room
cannot hold, and an upload is refused with the texts of the API.
"""
from __future__ import annotations

import re
from typing import List, NamedTuple, Optional, Tuple
from xml.etree.ElementTree import Element

# The letter with which names of messages begin, by the kind of the element.
LETTERS = {"node": "n", "way": "w", "relation": "r"}
KINDS = {letter: kind for kind, letter in LETTERS.items()}

# What a room holds at most, as docs/PROTOCOL.md says.
LEAST_NODES, MOST_NODES, MOST_MEMBERS, MOST_TAGS, MOST_CHARACTERS = 2, 2_000, 32_000, 1_000, 255
DECIMALS, MOST_LATITUDE, MOST_LONGITUDE = 7, 90, 180

# XML has no form for these characters.
NOT_IN_XML = re.compile("[^\t\n\r\u0020-\ud7ff\ue000-\ufffd\U00010000-\U0010ffff]")


class XmlMember(NamedTuple):
    """A member of a relation: the attributes `type`, `ref` and `role`."""

    kind: Optional[str]
    ref: Optional[str]
    role: str


def nodes_of(element: Element) -> List[Optional[str]]:
    """The `ref` of each node of a way."""
    return [child.get("ref") for child in element.iterfind("nd")]


def members_of(element: Element) -> List[XmlMember]:
    """The members of a relation."""
    return [
        XmlMember(child.get("type"), child.get("ref"), child.get("role", "")) for child in element.iterfind("member")
    ]


def tags_of(element: Element) -> List[Tuple[str, str]]:
    """The key and the value of each tag, in order. A key can be there twice."""
    return [(child.get("k", ""), child.get("v", "")) for child in element.iterfind("tag")]


def replaced(text: str) -> Tuple[str, int]:
    """A text with U+FFFD in the place of what XML has no form for, and how many characters were replaced."""
    return NOT_IN_XML.subn("\ufffd", text)
