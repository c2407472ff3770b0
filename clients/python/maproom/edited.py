"""A room's map as a file of OpenStreetMap, alone or compared with the extract that the room was opened on.

A sink writes the file: `JosmSink` the XML that JOSM opens, and those of `plain.py` what other tools take."""
from __future__ import annotations

import difflib
import json
import re
from typing import IO, Callable, Dict, Iterable, Iterator, List, Mapping, Protocol, Sequence, Set, TextIO, Tuple
from xml.etree import ElementTree

from .core import Element
from .extract import (
    BadFile,
    Base,
    LeftOut,
    Member,
    Rows,
    Source,
    all_members_of,
    held_tags,
    name_of,
    names_in,
    row_in_text,
    row_of,
    text_of,
)
from .xml_elements import KINDS, LETTERS, replaced, tags_of

WELCOME = re.compile(r'\s*\{"id":[0-9]+,"ok":\{"map":\[')
NAME = re.compile(r"[nwr]-?[0-9]{1,19}")

# How many characters of a map are read at once.
PART = 1 << 20


def rows_of_map(file: TextIO) -> Iterator[Element]:
    """Yields each row of a room's map, in order."""
    text = file.read(PART)
    head = WELCOME.match(text)
    if not head:
        raise BadFile("is no reply to a map")
    decode, place = json.JSONDecoder().raw_decode, head.end()
    while not text.startswith("]", place):
        try:
            row, place = decode(text, place + text.startswith(",", place))
            yield row
        except ValueError:
            more = file.read(PART)
            if not more:
                raise BadFile("ends within the map") from None
            text, place = text[place:] + more, 0


def read_map(file: TextIO) -> Dict[str, Rows]:
    """The rows of a room's map, of each kind by its letter. Raises BadFile or OSError."""
    rows = {letter: Rows() for letter in KINDS}
    try:
        for row in rows_of_map(file):
            if not is_row(row):
                raise BadFile("is no reply to a map: it has what is no element")
            each, number = rows[row["el"][0]], int(row["el"][1:])
            if each.ids and each.ids[-1] >= number:
                raise BadFile(f"is no reply to a map: {row['el']} comes too late")
            each.add(number, text_of(row))
    except UnicodeDecodeError as fault:
        raise BadFile(f"is no text: {fault.reason}") from fault
    except (OverflowError, RecursionError, ValueError) as fault:
        raise BadFile("is no reply to a map: it has what is no element") from fault
    return rows


def is_row(value: object) -> bool:
    """Whether a value of JSON has the form of an element."""
    if not isinstance(value, dict) or not NAME.fullmatch(str(value.get("el"))):
        return False
    kind, tags = value["el"][0], value.get("tags")
    if not isinstance(tags, dict) or not all(isinstance(text, str) for text in tags.values()):
        return False
    if kind == "n":
        return isinstance(value.get("lat"), str) and isinstance(value.get("lon"), str)
    parts = value.get("nodes" if kind == "w" else "members")
    return isinstance(parts, list) and all(map(is_id if kind == "w" else is_member, parts))


def is_id(value: object) -> bool:
    """Whether a value of JSON is a whole number."""
    return isinstance(value, int) and not isinstance(value, bool)


def is_member(value: object) -> bool:
    """Whether a value of JSON has the form of a member of a relation."""
    return (
        isinstance(value, list)
        and len(value) == 2
        and all(isinstance(text, str) for text in value)
        and bool(NAME.fullmatch(value[0]))
    )


def row_in(rows: Mapping[str, Rows], name: str) -> Element:
    """The row of a name that is there."""
    text = rows[name[0]].text(int(name[1:]))
    assert text is not None
    return row_in_text(text)


class Sink(Protocol):
    """What writes the elements of a map, first those of the extract in its order, and then the new ones."""

    def begin(self, attributes: Mapping[str, str]) -> None:
        """Begins a file, with the attributes of the extract's root."""

    def other(self, element: ElementTree.Element) -> None:
        """Takes what an extract has besides nodes, ways and relations."""

    def unchanged(self, element: ElementTree.Element) -> None:
        """Takes an element as the extract has it."""

    def changed(self, element: ElementTree.Element, row: Element, more_tags: Iterable[Tuple[str, str]]) -> None:
        """Takes an element of the extract that mappers changed: as it is now, and with tags that the room did not see.
        A node has its new place already."""

    def deleted(self, element: ElementTree.Element) -> None:
        """Takes an element of the extract that mappers deleted."""

    def created(self, name: str, row: Element) -> None:
        """Takes a new element, which `row` has under `name`."""

    def known(self, name: str, row: Element) -> None:
        """Takes an element of a map without an extract whose id is positive, so that OpenStreetMap may have it."""

    def end(self) -> int:
        """Writes the rest. Returns how many characters XML cannot hold, and were replaced."""


class JosmSink:
    """Writes XML for JOSM: elements in the order in which they come, with what was done to them."""

    def __init__(self, output: IO[bytes]) -> None:
        self.output, self.replaced = output, 0

    def begin(self, attributes: Mapping[str, str]) -> None:
        """Writes the beginning of a file, with the attributes of its root."""
        root = ElementTree.Element("osm", {"version": "0.6", **attributes, "generator": "maproom map_to_osm"})
        root.text = "\n"
        opening = ElementTree.tostring(root, "unicode").rpartition("</")[0]
        self.put(f"<?xml version='1.0' encoding='UTF-8'?>\n{opening}")

    def put(self, text: str) -> None:
        """Writes some text."""
        self.output.write(text.encode())

    def unchanged(self, element: ElementTree.Element) -> None:
        """Writes an element."""
        self.put(f"  {ElementTree.tostring(element, 'unicode').strip()}\n")

    def other(self, element: ElementTree.Element) -> None:
        """Writes, for example, the bounds."""
        self.unchanged(element)

    def changed(self, element: ElementTree.Element, row: Element, more_tags: Iterable[Tuple[str, str]]) -> None:
        """Writes a changed element."""
        element.set("action", "modify")
        self.write_row(row, element, more_tags)

    def deleted(self, element: ElementTree.Element) -> None:
        """Writes a deleted element."""
        element.set("action", "delete")
        self.unchanged(element)

    def created(self, name: str, row: Element) -> None:
        """Writes a new element."""
        self.write_row(row, new_element(name, row, action="modify"))

    def known(self, name: str, row: Element) -> None:
        """Writes an element of unknown version. JOSM needs a version."""
        self.write_row(row, new_element(name, row, version="1"))

    def write_row(self, row: Element, element: ElementTree.Element, more_tags: Iterable[Tuple[str, str]] = ()) -> None:
        """Writes an element whose attributes are there, with the content of a row, and perhaps with more tags."""
        self.replaced += fill(element, row, more_tags)
        ElementTree.indent(element, level=1)
        self.unchanged(element)

    def end(self) -> int:
        """Writes the end."""
        self.put("</osm>\n")
        self.output.flush()
        return self.replaced


def fill(element: ElementTree.Element, row: Element, more_tags: Iterable[Tuple[str, str]] = ()) -> int:
    """Gives an element the content of a row, and perhaps more tags. Returns how many characters were replaced."""
    for child in [child for child in element if child.tag in ("nd", "member", "tag")]:
        element.remove(child)
    count = 0

    def sayable(text: str) -> str:
        nonlocal count
        text, characters = replaced(text)
        count += characters
        return text

    for number in row.get("nodes", ()):
        ElementTree.SubElement(element, "nd", ref=str(number))
    for name, role in row.get("members", ()):
        ElementTree.SubElement(element, "member", type=KINDS[name[0]], ref=name[1:], role=sayable(role))
    for key, value in (*row["tags"].items(), *more_tags):
        ElementTree.SubElement(element, "tag", k=sayable(key), v=sayable(value))
    return count


def new_element(name: str, row: Element, **attributes: str) -> ElementTree.Element:
    """An element that the server of OpenStreetMap has not, or of which nothing is known, without its content."""
    element = ElementTree.Element(KINDS[name[0]], {"id": name[1:], "visible": "true", **attributes})
    if "lat" in row:
        set_position(element, row)
    return element


def set_position(element: ElementTree.Element, row: Element) -> None:
    """Gives the element of a node the position of a row."""
    element.set("lat", row["lat"])
    element.set("lon", row["lon"])


def write_alone(rows: Mapping[str, Rows], sink: Sink) -> Tuple[Dict[str, int], int]:
    """Writes a map of which no extract is there. Returns the counts that the program prints, and the number of
    characters that XML cannot hold."""
    is_known = any(number > 0 for each in rows.values() for number in each.ids)
    sink.begin({"upload": "never"} if is_known else {})
    for letter, each in rows.items():
        for place, number in enumerate(each.ids):
            take = sink.known if number > 0 else sink.created
            take(f"{letter}{number}", row_in_text(each.text_at(place)))
    return {"elements": sum(map(len, rows.values()))}, sink.end()


def put_back(whole: Sequence[Member], is_held: Callable[[Member], bool], members: Sequence[Member]) -> List[Member]:
    """The members of a relation that mappers changed, with those put back that the room could not hold. Each goes in
    front of the member that it preceded or, if none of these is there any more, to the end.

    `whole` are the members in the extract, and `is_held` says of each whether the room had it.
    """
    held = [member for member in whole if is_held(member)]
    stays: Dict[int, int] = {}  # where a member of the base is in the changed list
    for one, other, length in difflib.SequenceMatcher(None, held, members, False).get_matching_blocks():
        stays.update((one + step, other + step) for step in range(length))
    before: List[List[Member]] = [[] for _ in range(len(members) + 1)]
    place = 0
    waiting: List[Member] = []
    for member in whole:
        if not is_held(member):
            waiting.append(member)
            continue
        if place in stays:
            before[stays[place]] += waiting
            waiting = []
        place += 1
    before[-1] += waiting
    return [each for dropped, member in zip(before, members) for each in (*dropped, member)] + before[-1]


class Edited:
    """A room's map, compared with the extract that the room was opened on.

    If the mapper deleted an element, the parts that were cut from it are deleted with it, and a message names it. A
    deleted element that was never uploaded is not written.
    """

    def __init__(
        self, rows: Mapping[str, Rows], source: Source, report: Callable[[str], None], many_gone: bool = False
    ) -> None:
        """Compares the rows of a map with an extract. `report` is called with each thing that a mapper should know.

        Raises BadFile or OSError. If more than half of the extract is gone from the map, that is a BadFile, unless
        `many_gone` is true."""
        self.rows, self.base, self.report = rows, Base(source), report
        self.counts = dict.fromkeys(("new", "changed", "deleted", "as they were", "kept"), 0)
        count = sum(map(len, self.base.rows.values()))
        gone = count - sum(self.base.has(name) for name in self.names())
        # It may also be that of a server that was started anew, or the extract a larger one. All that is not in the map
        # would be deleted.
        if 2 * gone > count and not many_gone:
            lost = f"has {count} elements, of which {gone} are gone from the map"
            raise BadFile(f"{lost}: perhaps it is another room's; if not, take --many-gone")
        self.kept = self.needed_and_gone()
        self.new_names = self.names_of_new()

    def names(self) -> Iterator[str]:
        """The names in the map."""
        return (f"{letter}{number}" for letter, rows in self.rows.items() for number in rows.ids)

    def is_gone(self, name: str) -> bool:
        """Whether the base has an element, and the map has not."""
        return self.base.has(name) and self.rows[name[0]].place(int(name[1:])) is None

    def needed_and_gone(self) -> Set[str]:
        """The names of what is gone, while something refers to it that the room did not see or that stays for that
        reason."""
        kept: Set[str] = set()
        waiting = [name for name in self.base.needed if self.is_gone(name)]
        while waiting:
            name = waiting.pop()
            if name not in kept:
                kept.add(name)
                waiting += [ref for ref in names_in(row_in(self.base.rows, name)) if self.is_gone(ref)]
        return kept

    def names_of_new(self) -> Dict[str, str]:
        """The name of each new element whose own would be taken for one of OpenStreetMap's, or for one that was
        left out: a negative id that nobody has. What has a free negative id keeps it, so that a second look finds it
        again."""
        names: Dict[str, str] = {}
        for letter in KINDS:
            taken = {number for rows in (self.rows, self.base.rows) for number in rows[letter].ids if number < 0}
            free = -1
            for number in self.rows[letter].ids:
                name = f"{letter}{number}"
                if self.base.has(name) or (number < 0 and name not in self.base.left_out):
                    continue
                while free in taken or f"{letter}{free}" in self.base.left_out:
                    free -= 1
                names[name] = f"{letter}{free}"
                taken.add(free)
                self.report(f"{name} is new, and written as {names[name]}")
        return names

    def renamed(self, row: Element) -> Element:
        """A row of the map with the names that are written."""
        if "nodes" in row:
            row["nodes"] = [int(self.new_names.get(f"n{number}", f"n{number}")[1:]) for number in row["nodes"]]
        if "members" in row:
            row["members"] = [[self.new_names.get(name, name), role] for name, role in row["members"]]
        return row

    def write(self, source: Source, sink: Sink) -> Tuple[Dict[str, int], int]:
        """Writes the extract, which is read again, as the map has it, and then what is new. Returns the counts that the
        program prints, and the number of characters that XML cannot hold."""
        written: Set[str] = set()
        is_root = True

        def take(element: ElementTree.Element) -> None:
            nonlocal is_root
            if is_root:
                is_root = False
                sink.begin(element.attrib)
            elif element.tag in LETTERS:
                self.write_edited(element, sink, written)
            else:
                sink.other(element)

        source.read(take)
        for name in self.names():
            if not self.base.has(name):
                sink.created(self.new_names.get(name, name), self.renamed(row_in(self.rows, name)))
                self.counts["new"] += 1
        return self.counts, sink.end()

    def write_edited(self, element: ElementTree.Element, sink: Sink, written: Set[str]) -> None:
        """Writes an element of the extract as it is now."""
        name = name_of(element)
        is_held = self.base.has(name) and (name not in self.base.left_out or is_fine(element))
        if is_held and name in written:
            self.report(f"{name} is not written where it stands again")
            return
        if is_held:
            written.add(name)
        row = self.rows[name[0]].text(int(name[1:])) if is_held else None
        if not is_held or row == self.base.rows[name[0]].text(int(name[1:])):
            self.counts["as they were"] += 1
            sink.unchanged(element)
        elif row is not None:
            self.counts["changed"] += 1
            self.write_changed(element, row_in_text(row), sink)
        elif name in self.kept:
            self.report(f"{name} is gone from the map, and kept: something refers to it that the room did not see")
            self.counts["kept"] += 1
            sink.unchanged(element)
        elif int(name[1:]) > 0:  # of what is gone and was never uploaded nothing is to be said
            self.counts["deleted"] += 1
            is_seen = is_whole(element, row_in(self.base.rows, name))
            sink.deleted(element)
            if not is_seen:
                self.report(f"{name} is deleted, with tags or members that the room did not see")

    def write_changed(self, element: ElementTree.Element, row: Element, sink: Sink) -> None:
        """Writes an element of the extract that mappers changed. A tag that was cut is put back. If a mapper gave its key
        another value, that is reported instead."""
        before, seen = row_in(self.base.rows, row["el"]), held_tags(element)
        if row.get("lat") != before.get("lat"):
            element.set("lat", row["lat"])
        if row.get("lon") != before.get("lon"):
            element.set("lon", row["lon"])
        unseen = []
        for key, value in tags_of(element):
            if key in seen:
                continue
            if key in row["tags"]:
                self.report(f"{row['el']} has another value of {key!r} than the one that the room did not see")
            else:
                unseen.append((key, value))
        row = self.renamed(row)
        if "members" in row:
            members = [(name, role) for name, role in row["members"]]
            row["members"] = [list(each) for each in put_back(all_members_of(element), self.base.is_held, members)]
        sink.changed(element, row, unseen)


def is_fine(element: ElementTree.Element) -> bool:
    """Whether a room can hold an element, without a look at other elements."""
    try:
        return bool(row_of(element))
    except LeftOut:
        return False


def is_whole(element: ElementTree.Element, row: Element) -> bool:
    """Whether a room saw all tags and members of an element."""
    seen = len(row["tags"]), len(row.get("members", ()))
    return (len(element.findall("tag")), len(element.findall("member"))) == seen
