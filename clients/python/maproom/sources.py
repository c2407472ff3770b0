"""Where the elements of an extract come from: a file of OpenStreetMap in any format, and a part of it.

The name of a file says its format, as for `osmium`: `.osm.pbf`; `.osc`, a file of changes; otherwise XML. `.gz` and
`.bz2` at its end say its compression. pyosmium reads what is not XML. A file of changes or of a history (`.osh.pbf`)
has several versions of an element, of which the last counts.
"""
from __future__ import annotations

import bz2
import contextlib
import ctypes
import enum
import gzip
import sys
import zlib
from dataclasses import dataclass
from decimal import Decimal
from typing import IO, Any, Callable, Dict, Iterator, List, Optional, Protocol, Tuple, cast
from xml.etree import ElementTree

from .areas import UNITS, Area, Selection
from .extract import BadFile, LeftOut, Source, Take, XmlSource, degrees, id_of, is_deleted, no_note
from .missing import imported
from .xml_elements import DECIMALS, KINDS, LETTERS, members_of, nodes_of, replaced

PYOSMIUM = "python3-pyosmium"


class Format(enum.Enum):
    """The format of a file of OpenStreetMap."""

    XML = "osm"
    PBF = "pbf"
    CHANGES = "osc"


class Compression(enum.Enum):
    """How a file is compressed, by the end of its name."""

    NONE = ""
    GZIP = ".gz"
    BZIP2 = ".bz2"


@dataclass(frozen=True)
class FileKind:
    """What the name of a file says: also whether there may be several versions of an element."""

    format: Format
    compression: Compression
    has_versions: bool = False


def kind_of_file(path: str) -> FileKind:
    """The format and the compression that the name of a file says."""
    name = path.lower()
    compression = Compression.NONE
    for each in (Compression.GZIP, Compression.BZIP2):
        if name.endswith(each.value):
            compression, name = each, name[: -len(each.value)]
    for form in (Format.PBF, Format.CHANGES):
        if name.endswith(f".{form.value}"):
            return FileKind(form, compression, form is Format.CHANGES or ".osh." in name)
    return FileKind(Format.XML, compression)


def source_of(path: str, area: Optional[Area] = None) -> Source:
    """The extract in a file, or the part of it that is in an area. `-` is standard input, in XML.

    Raises BadFile for a part of standard input, which cannot be read twice."""
    if path == "-":
        if area:
            raise BadFile("is read twice for a box or a polygon, so it has to be a file")
        return XmlSource(sys.stdin.buffer)
    whole: Whole = XmlFile(path)
    if kind_of_file(path).format is not Format.XML:
        whole = OsmiumFile(path)
    if area:
        return PartOf(whole, area)
    return whole


@contextlib.contextmanager
def writing(path: str, writer: Optional[Any] = None) -> Iterator[None]:
    """Raises OSError in the place of the faults that pyosmium raises when a writer cannot write.

    pyosmium 3.6 aborts the program when a writer is dropped that failed. So it is never dropped."""
    try:
        yield
    except RuntimeError as fault:
        if writer is not None:
            ctypes.pythonapi.Py_IncRef(ctypes.py_object(writer))
        raise OSError(None, str(fault), path) from fault


class Whole(Protocol):
    """A file that can be read several times, as a whole or in part."""

    def read(self, take: Take) -> None:
        """Reads the file. Raises BadFile or OSError."""

    def select(self, selection: Selection) -> None:
        """Takes each element into a selection. Raises BadFile or OSError."""

    def read_part(self, take: Take, wanted: Wanted) -> None:
        """Reads the root, and the wanted elements. Raises BadFile or OSError."""


class Wanted:
    """Says of each element of a file whether it is read, by its kind's letter and its id."""

    def __init__(self, selection: Selection) -> None:
        self.ids = selection.ids

    def __call__(self, letter: str, number: int) -> bool:
        return number in self.ids[letter]


class XmlFile:
    """A file in XML, perhaps compressed, that can be read several times."""

    def __init__(self, path: str) -> None:
        self.path = path

    def opened(self) -> IO[bytes]:
        """The file as it is decompressed."""
        compression = kind_of_file(self.path).compression
        if compression is Compression.GZIP:
            return cast(IO[bytes], gzip.GzipFile(self.path))
        if compression is Compression.BZIP2:
            return cast(IO[bytes], bz2.BZ2File(self.path))
        return open(self.path, "rb")

    def read(self, take: Take) -> None:
        """Reads the file. Raises BadFile or OSError."""
        with self.opened() as file:
            try:
                XmlSource(file).read(take)
            except (EOFError, zlib.error) as fault:
                raise BadFile(f"is not whole: {fault}") from fault
            except OSError as fault:
                if fault.errno is None:  # so the standard library says that the compression is wrong
                    raise BadFile(f"is not compressed as its name says: {fault}") from fault
                raise

    def select(self, selection: Selection) -> None:
        """Takes each element into a selection. Raises BadFile or OSError."""
        self.read(lambda element: select_element(element, selection))

    def read_part(self, take: Take, wanted: Wanted) -> None:
        """Reads the root, and the wanted elements. Raises BadFile or OSError."""

        def take_wanted(element: ElementTree.Element) -> None:
            letter, number = LETTERS.get(element.tag), id_of(element.get("id"))
            if not letter or (number is not None and wanted(letter, number)):
                take(element)

        self.read(take_wanted)


def select_element(element: ElementTree.Element, selection: Selection) -> None:
    """Takes an element of XML into a selection. What has no id or no place is in no area."""
    number = id_of(element.get("id"))
    if number is None or is_deleted(element):
        return
    if element.tag == "node":
        try:
            lat, lon = degrees(element, "lat", no_note), degrees(element, "lon", no_note)
        except LeftOut:
            return
        selection.take_node(number, int(Decimal(lon) * UNITS), int(Decimal(lat) * UNITS))
    elif element.tag == "way":
        selection.take_way(number, [ref for ref in map(id_of, nodes_of(element)) if ref is not None])
    elif element.tag == "relation":
        refs = [(LETTERS.get(member.kind or ""), id_of(member.ref)) for member in members_of(element)]
        selection.take_relation(number, [(letter, ref) for letter, ref in refs if letter and ref is not None])


class OsmiumFile:
    """A file that pyosmium reads, several times. Of several versions of an element it has the last."""

    def __init__(self, path: str) -> None:
        """Raises MissingPackage."""
        self.path = path
        self.osmium = imported("osmium", PYOSMIUM, f"reading {path}")
        self._last: Optional[Dict[Tuple[str, int], int]] = None

    def each(self, **callbacks: Callable[[Any], None]) -> None:
        """Calls `node`, `way` and `relation` with each element of its kind. Raises BadFile or OSError."""
        with open(self.path, "rb"):  # its faults have the words of the system
            pass
        try:
            self.osmium.make_simple_handler(**callbacks).apply_file(self.path)
        except UnicodeDecodeError as fault:
            raise BadFile(f"has a text that is not UTF-8: {fault.reason}") from fault
        except RuntimeError as fault:
            raise BadFile(f"cannot be read: {fault}") from fault

    def read(self, take: Take) -> None:
        """Reads the file. Raises BadFile or OSError."""
        self.read_part(take, None)

    def read_part(self, take: Take, wanted: Optional[Wanted]) -> None:
        """Reads the root, and the wanted elements or all. Raises BadFile or OSError."""
        last = self.last_versions()
        take(ElementTree.Element("osm", {"version": "0.6"}))

        def taking(letter: str) -> Callable[[Any], None]:
            ids = wanted.ids[letter] if wanted else None  # found once, because this is called for millions

            def take_item(item: Any) -> None:
                if ids is None or item.id in ids:
                    if last is None or last.get((letter, item.id)) == item.version:
                        take(element_of(letter, item))

            return take_item

        self.each(node=taking("n"), way=taking("w"), relation=taking("r"))

    def last_versions(self) -> Optional[Dict[Tuple[str, int], int]]:
        """The last version of each element, if there may be several, and otherwise None."""
        if kind_of_file(self.path).has_versions and self._last is None:
            last: Dict[Tuple[str, int], int] = {}

            def noting(letter: str) -> Callable[[Any], None]:
                def note_item(item: Any) -> None:
                    last[letter, item.id] = max(item.version, last.get((letter, item.id), 0))

                return note_item

            self.each(node=noting("n"), way=noting("w"), relation=noting("r"))
            self._last = last
        return self._last

    def select(self, selection: Selection) -> None:
        """Takes each element into a selection. Raises BadFile or OSError."""
        last = self.last_versions()

        def is_there(letter: str, item: Any) -> bool:
            return not item.deleted and (last is None or last.get((letter, item.id)) == item.version)

        contains = selection.area.contains

        def take_node(item: Any) -> None:
            place = item.location
            if contains(place.x, place.y) and place.valid() and is_there("n", item):
                selection.take_node(item.id, place.x, place.y)

        def take_way(item: Any) -> None:
            if is_there("w", item):
                selection.take_way(item.id, [node.ref for node in item.nodes])

        def take_relation(item: Any) -> None:
            if is_there("r", item):
                selection.take_relation(item.id, [(member.type, member.ref) for member in item.members])

        self.each(node=take_node, way=take_way, relation=take_relation)


class PartOf:
    """The part of a file that is in an area. It is read twice: first only the ids of the part are kept."""

    def __init__(self, whole: Whole, area: Area) -> None:
        self.whole, self.area = whole, area
        self._wanted: Optional[Wanted] = None

    def read(self, take: Take) -> None:
        """Reads the part. Raises BadFile or OSError."""
        if self._wanted is None:
            selection = Selection(self.area)
            self.whole.select(selection)
            selection.end()
            self._wanted = Wanted(selection)
        self.whole.read_part(take, self._wanted)


def element_of(letter: str, item: Any) -> ElementTree.Element:
    """An element of pyosmium as XML has it. What is not known is left out, and what XML has no form for is replaced."""
    attributes: List[Tuple[str, str]] = [("id", str(item.id))]
    if item.version:
        attributes.append(("version", str(item.version)))
    if item.changeset:
        attributes.append(("changeset", str(item.changeset)))
    if item.timestamp.timestamp() > 0:
        attributes.append(("timestamp", item.timestamp.strftime("%Y-%m-%dT%H:%M:%SZ")))
    if item.user:
        attributes += [("user", replaced(item.user)[0]), ("uid", str(item.uid))]
    if item.deleted:
        attributes.append(("visible", "false"))
    element = ElementTree.Element(KINDS[letter], dict(attributes))
    if letter == "n" and item.location.valid():
        element.set("lat", degrees_of(item.location.y))
        element.set("lon", degrees_of(item.location.x))
    elif letter == "w":
        for node in item.nodes:
            ElementTree.SubElement(element, "nd", {"ref": str(node.ref)})
    elif letter == "r":
        for member in item.members:
            attribute = {"type": KINDS[member.type], "ref": str(member.ref), "role": replaced(member.role)[0]}
            ElementTree.SubElement(element, "member", attribute)
    for tag in item.tags:
        ElementTree.SubElement(element, "tag", {"k": replaced(tag.k)[0], "v": replaced(tag.v)[0]})
    return element


def degrees_of(units: int) -> str:
    """A coordinate in units of 10^-7 degrees as degrees."""
    return f"{Decimal(units).scaleb(-DECIMALS):f}"
