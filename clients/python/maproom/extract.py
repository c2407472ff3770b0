"""An extract: the elements of a file of OpenStreetMap, and what a room can hold of them.

The commands osm_to_base and map_to_osm share this module. map_to_osm has to know what osm_to_base made of an extract.
Only then can it distinguish what mappers changed from what the room could not hold.

The elements have the form of OpenStreetMap's XML, whatever the format of the file (`sources.py`). XML is read here by
the standard library: pyosmium does not know JOSM's `action`, and stops at what a room can leave out.
"""
from __future__ import annotations

import functools
import json
import re
from array import array
from bisect import bisect_left
from decimal import Decimal
from typing import IO, Callable, Dict, Iterable, Iterator, List, Optional, Protocol, Sequence, Set, Tuple, Union
from xml.etree import ElementTree

from .core import Element, compact
from .xml_elements import (
    DECIMALS,
    LEAST_NODES,
    LETTERS,
    MOST_CHARACTERS,
    MOST_LATITUDE,
    MOST_LONGITUDE,
    MOST_MEMBERS,
    MOST_NODES,
    MOST_TAGS,
    XmlMember,
    members_of,
    nodes_of,
    tags_of,
)

MOST_DEGREES = {"lat": MOST_LATITUDE, "lon": MOST_LONGITUDE}
SMALLEST = Decimal(1).scaleb(-DECIMALS)
ID = re.compile(r"-?[1-9][0-9]{0,18}")

# A coordinate. Python would also take digits of other scripts, and `1_0` for ten.
COORDINATE = re.compile(r"[+-]?(?:[0-9]+\.?[0-9]*|\.[0-9]+)(?:[eE][+-]?[0-9]{1,3})?")

# How many characters a coordinate has at most, and how many bytes of a file are read at first.
MOST_DIGITS, PART = 100, 1 << 16

# A member of a relation as a row has it: its name and its role.
Member = Tuple[str, str]

# Called with what was done to an element, such as "cut", and to which part of it.
Note = Callable[[str, str], None]

# The same, with the name of the element first.
Report = Callable[[str, str, str], None]


# Called with the root of an extract, without its content, and then with each element right below it.
Take = Callable[[ElementTree.Element], None]


class BadFile(Exception):
    """A file that is no extract, or no map of a room."""


class LeftOut(Exception):
    """Why a room cannot hold an element."""


class Source(Protocol):
    """An extract that can be read, as often as needed unless it is standard input."""

    def read(self, take: Take) -> None:
        """Calls `take` with the root, without its content, and then with each element. Raises BadFile or OSError."""


class XmlSource:
    """An extract in an XML file that is open. It can be read once."""

    def __init__(self, file: IO[bytes]) -> None:
        self.file = file

    def read(self, take: Take) -> None:
        """Reads the rest of the file. Raises BadFile or OSError."""
        for element in top_elements(self.file):
            take(element)


def no_note(how: str, what: str) -> None:
    """Ignores what was done to an element."""


def no_report(name: str, how: str, what: str) -> None:
    """Ignores what was done to an element."""


def top_elements(file: IO[bytes]) -> Iterator[ElementTree.Element]:
    """Gives the root of an extract, without its content, and then each element right below it. Each is forgotten when
    the next is asked for, so that a large file takes little memory. Raises BadFile."""
    root, depth = None, 0
    try:
        for event, element in events_in(file):
            depth += 1 if event == "start" else -1
            if root is None:
                root = element
                if root.tag != "osm":
                    raise BadFile(f"is no extract: its root is <{root.tag}>, and not <osm>")
                yield root
            elif event == "end" and depth == 1:
                if element.tag == "remark":  # so Overpass says that it gave up; what is there is well-formed
                    raise BadFile(f"is not whole: {element.text}")
                yield element
                root.clear()
    except ElementTree.ParseError as fault:
        raise BadFile(f"is no XML: {fault}") from fault


def events_in(file: IO[bytes]) -> Iterator[Tuple[str, ElementTree.Element]]:
    """Gives "start" and "end" with the element of each. Raises ElementTree.ParseError.

    The parser reads a tag again with each part of the file until it is whole. So parts grow until there is an event."""
    parser = ElementTree.XMLPullParser(("start", "end"))
    length = PART
    while data := file.read(length):
        parser.feed(data)
        length *= 2
        for event, element in parser.read_events():
            length = PART
            yield str(event), element
    parser.close()


def text_of(row: Element) -> str:
    """The text of a row, as the room's replies have it."""
    return compact(dict(row, tags=dict(sorted(row["tags"].items()))))


def row_in_text(text: bytes) -> Element:
    """The row of a text of `text_of`."""
    row: Element = json.loads(text)
    return row


def id_of(text: Optional[str]) -> Optional[int]:
    """The number of a text that is an id in its only spelling, or None."""
    number = int(text) if text and ID.fullmatch(text) else 0
    return number if number and -(2**63) <= number < 2**63 else None


def name_of(element: ElementTree.Element) -> str:
    """How messages name an element of an extract: by its name or, if its id is invalid, by its kind and that id."""
    number = element.get("id")
    return f"{LETTERS[element.tag]}{number}" if id_of(number) else f"{element.tag} with the id {number!r}"


def is_deleted(element: ElementTree.Element) -> bool:
    """Whether an element of an extract is there only to say that it is deleted."""
    return element.get("action") == "delete" or element.get("visible") == "false"


def degrees(element: ElementTree.Element, key: str, note: Note) -> str:
    """The latitude or longitude of a node, with seven decimals, rounded to even where it is half way.

    A rounded coordinate is noted, but `--strict` accepts it: an unmoved node is written back with the digits that it
    had. Raises LeftOut."""
    text = element.get(key)
    if text is None:
        raise LeftOut(f"it has no {key}")
    if len(text) > MOST_DIGITS or not COORDINATE.fullmatch(text):
        raise LeftOut(f"its {key} is {shortened(text)}")
    exact = Decimal(text)
    if not abs(exact) <= MOST_DEGREES[key]:
        raise LeftOut(f"its {key} is {text}")
    value = exact.quantize(SMALLEST) + 0  # + 0 takes the sign of -0 away
    if value != exact:
        note("rounded", f"{key} {text} to {value:f}")
    return f"{value:f}"


def member_of(member: XmlMember) -> Member:
    """The name and the role of a member of a relation. Raises BadFile if its kind is unknown."""
    if member.kind not in LETTERS:
        raise BadFile(f"has a member of the type {member.kind!r}")
    return f"{LETTERS[member.kind]}{member.ref}", member.role


def all_members_of(element: ElementTree.Element) -> List[Member]:
    """The members of a relation, also those that a room cannot hold. Raises BadFile if the kind of one is unknown."""
    return [member_of(member) for member in members_of(element)]


def held_tags(element: ElementTree.Element, note: Note = no_note) -> Dict[str, str]:
    """The tags of an element that a room can hold."""
    tags: Dict[str, str] = {}
    for key, value in tags_of(element):
        if not 1 <= len(key) <= MOST_CHARACTERS:
            note("cut", f"the tag with a key of {len(key)} characters, {shortened(key)!r}")
        elif len(value) > MOST_CHARACTERS:
            note("cut", f"the tag {shortened(key)!r}, whose value has {len(value)} characters")
        elif key in tags:
            note("cut", f"the tag {shortened(key)!r} where it stands again, with the value {shortened(value)!r}")
        elif len(tags) == MOST_TAGS:
            note("cut", f"the tag {shortened(key)!r}, since {MOST_TAGS} others come before it")
        else:
            tags[key] = value
    return tags


def shortened(text: str) -> str:
    """A text, or its beginning if it is long."""
    return text if len(text) <= 60 else f"{text[:60]}.."


def row_of(element: ElementTree.Element, note: Note = no_note) -> Element:
    """The row that a room can hold of an element of an extract, without a look at other elements. It calls
    `note(how, what)` for what is cut or rounded. Raises LeftOut if a room can hold nothing of the element."""
    if is_deleted(element):
        raise LeftOut("it is deleted")
    if id_of(element.get("id")) is None:
        raise LeftOut("this is no id")
    name = name_of(element)
    if element.tag == "node":
        lat, lon = degrees(element, "lat", note), degrees(element, "lon", note)
        return {"el": name, "lat": lat, "lon": lon, "tags": held_tags(element, note)}
    if element.tag == "way":
        ids = [id_of(ref) for ref in nodes_of(element)]
        if not LEAST_NODES <= len(ids) <= MOST_NODES:
            raise LeftOut(f"{len(ids):,} in its list of nodes, and a way has 2 to {MOST_NODES:,}")
        nodes = [number for number in ids if number is not None]
        if len(nodes) < len(ids):
            raise LeftOut("a node of it has no id")
        return {"el": name, "nodes": nodes, "tags": held_tags(element, note)}
    members = [list(member) for member in all_members_of(element)]
    if len(members) > MOST_MEMBERS:
        raise LeftOut(f"{len(members):,} in its list of members, and a relation has {MOST_MEMBERS:,} at most")
    return {"el": name, "members": members, "tags": held_tags(element, note)}


def names_in(row: Element) -> List[str]:
    """The names that a row refers to."""
    return [f"n{number}" for number in row.get("nodes", ())] + [name for name, _ in row.get("members", ())]


class Rows:
    """Rows of one kind by their ids, kept as texts in one array of bytes and found by halves: millions take little more
    memory than these, while map_to_osm reads the extract a second time."""

    def __init__(self) -> None:
        self.ids, self.ends, self.texts = array("q"), array("Q"), bytearray()

    def __len__(self) -> int:
        return len(self.ids)

    def add(self, number: int, text: Union[bytes, str]) -> None:
        """Adds a row after all others. `text` finds rows if their ids rise."""
        self.ids.append(number)
        self.texts += text if isinstance(text, bytes) else text.encode()
        self.ends.append(len(self.texts))

    def text_at(self, place: int) -> bytes:
        """The text at a place in the order in which rows were added."""
        return bytes(self.texts[self.ends[place - 1] if place else 0 : self.ends[place]])

    def place(self, number: int) -> Optional[int]:
        """The place of an id, or None. Ids have to rise."""
        place = bisect_left(self.ids, number)
        return place if place < len(self.ids) and self.ids[place] == number else None

    def text(self, number: int) -> Optional[bytes]:
        """The text of the row of an id, or None. Ids have to rise."""
        place = self.place(number)
        return None if place is None else self.text_at(place)

    def risen(self, report_second: Callable[[int], None]) -> Rows:
        """These rows with ids that rise. Of several of one id the first is kept, since Overpass prints nodes that it
        found before those that ways need, which lack their tags. The other rows are reported, by their id."""
        if all(one < other for one, other in zip(self.ids, self.ids[1:])):
            return self
        before: Optional[int] = None
        rows = Rows()
        for place in sorted(range(len(self.ids)), key=self.ids.__getitem__):
            if self.ids[place] == before:
                report_second(self.ids[place])
            else:
                before = self.ids[place]
                rows.add(before, self.text_at(place))
        return rows


class Base:
    """What a room can hold of an extract.

    `report(name, how, what)` is called for each element of which something was "left out", "cut" or "rounded".
    Afterwards

    - `rows` has the rows of each kind, by its letter;
    - `left_out` has the names of what the extract has and the base has not;
    - `needed` has the names that the extract refers to where the room does not see it.
    """

    def __init__(self, source: Source, report: Report = no_report) -> None:
        """Reads an extract. Raises BadFile or OSError."""
        self.rows = {letter: Rows() for letter in LETTERS.values()}
        self.left_out: Set[str] = set()
        self.needed: Set[str] = set()
        self.report = report
        source.read(self.take)
        for letter, rows in self.rows.items():
            self.rows[letter] = rows.risen(functools.partial(self.report_second, letter))
        self.leave_out_ways()
        self.cut_relations()

    def report_second(self, letter: str, number: int) -> None:
        """Reports an element that the extract has a second time."""
        self.report(f"{letter}{number}", "left out", "where it stands again, and the first is kept")

    def take(self, element: ElementTree.Element) -> None:
        """Takes the row of an element, without a look at other elements."""
        if element.tag not in LETTERS:
            return
        name = name_of(element)
        try:
            row = row_of(element, functools.partial(self.report, name))
            self.rows[name[0]].add(int(name[1:]), text_of(row))
        except LeftOut as why:
            self.leave_out(name, str(why), () if is_deleted(element) else refs_of(element))

    def leave_out(self, name: str, why: str, refs: Iterable[str]) -> None:
        """Leaves an element out, which refers to others."""
        self.report(name, "left out", why)
        self.left_out.add(name)
        self.needed.update(refs)

    def has(self, name: str) -> bool:
        """Whether the base has an element of this name."""
        rows, number = self.rows.get(name[0]), id_of(name[1:])
        return rows is not None and number is not None and rows.place(number) is not None

    def leave_out_ways(self) -> None:
        """Leaves out the ways that have a node which is not there. To cut them would be no help: who splits such a way,
        or gives it other nodes, cannot say where those belong that the room has not."""
        every, self.rows["w"] = self.rows["w"], Rows()
        for place, number in enumerate(every.ids):
            text = every.text_at(place)
            refs = names_in(row_in_text(text))
            missing = [ref for ref in refs if not self.has(ref)]
            if missing:
                self.leave_out(f"w{number}", f"{listed(missing)} not there", refs)
            else:
                self.rows["w"].add(number, text)

    def cut_relations(self) -> None:
        """Cuts relations to the members that a room can hold."""
        every = self.rows["r"]
        cut = Rows()
        for place, number in enumerate(every.ids):
            row = row_in_text(every.text_at(place))
            members = [(name, role) for name, role in row["members"]]
            dropped = [member for member in members if not self.is_held(member)]
            row["members"] = [list(member) for member in members if self.is_held(member)]
            for why, names in (
                ("not there", [name for name, _ in dropped if not self.has(name)]),
                ("in a role that is too long", [name for name, _ in dropped if self.has(name)]),
            ):
                if names:
                    self.report(f"r{number}", "cut", f"{listed(names)} {why}")
            self.needed.update(name for name, _ in dropped)
            cut.add(number, text_of(row))
        self.rows["r"] = cut

    def is_held(self, member: Member) -> bool:
        """Whether a relation can have a member in the room."""
        name, role = member
        return self.has(name) and len(role) <= MOST_CHARACTERS

    def texts(self) -> Iterator[bytes]:
        """The text of each row in the order of names."""
        for rows in self.rows.values():
            for place in range(len(rows)):
                yield rows.text_at(place)


def refs_of(element: ElementTree.Element) -> List[str]:
    """The names that an element of an extract refers to."""
    return [f"n{ref}" for ref in nodes_of(element)] + [name for name, _ in all_members_of(element)]


def listed(names: Sequence[str]) -> str:
    """Some names, the first three of them spelled out."""
    more = f" and {len(names) - 3} more" if len(names) > 3 else ""
    return f"{', '.join(names[:3])}{more} {'are' if len(names) > 1 else 'is'}"
