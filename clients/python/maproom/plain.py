"""A room's map as the tools of OpenStreetMap take it, written by pyosmium.

Elements are sorted, new ones have positive ids (`tool_ids.py`), and each has a version: a new one 1, and a changed or
deleted one the next after that of the extract. There is no `action`: what is deleted is not in a map, and a file of
changes has it as deleted.
"""
from __future__ import annotations

import contextlib
import errno
import os
import re
import tempfile
import time
from typing import Any, Callable, Iterable, Iterator, Mapping, Optional, Tuple
from xml.etree import ElementTree

from .core import Element
from .edited import fill, new_element
from .extract import BadFile, LeftOut, all_members_of, degrees, held_tags, id_of, is_deleted, name_of, no_note
from .keeper.files import sync_folder
from .missing import imported
from .sources import PYOSMIUM, Format, kind_of_file, writing
from .tool_ids import ToolIds
from .xml_elements import MOST_CHARACTERS, nodes_of

# How many bytes pyosmium collects before it writes.
BUFFER = 1 << 20

# A time as pyosmium takes it.
TIME = re.compile(r"[0-9]{4}-[0-9]{2}-[0-9]{2}T[0-9]{2}:[0-9]{2}:[0-9]{2}Z")

# The greatest version and changeset that the tools can hold.
MOST = 2**31 - 1


@contextlib.contextmanager
def written(path: str) -> Iterator[str]:
    """A new file of the same format, which replaces the file at a path if the block ends well. Raises OSError, which
    names the path."""
    folder, name = os.path.split(os.path.abspath(path))
    if not os.path.isdir(folder):
        raise FileNotFoundError(errno.ENOENT, os.strerror(errno.ENOENT), path)
    with tempfile.TemporaryDirectory(prefix=".map_to_osm-", dir=folder) as scratch:
        new = os.path.join(scratch, name)
        try:
            yield new
        except OSError as fault:
            if fault.filename is None or os.path.dirname(fault.filename) == scratch:
                fault.filename = path
            raise
        with open(new, "rb") as file:
            os.fsync(file.fileno())
        os.chmod(new, 0o666 & ~current_umask())
        os.replace(new, path)
    sync_folder(folder)


def current_umask() -> int:
    """The mask of the modes of new files."""
    mask = os.umask(0o022)
    os.umask(mask)
    return mask


class ToolSink:
    """Writes a map, or if the name of its file ends with `.osc` the changes since the extract.

    Elements are first written in the order in which they come, to a file next to the new one. pyosmium then sorts them
    in memory."""

    def __init__(self, path: str, report: Callable[[str], None]) -> None:
        """`path` is that of a new file, whose name says its format. Raises MissingPackage or OSError."""
        self.osmium = imported("osmium", PYOSMIUM, f"writing {os.path.basename(path)}")
        self.mutable = imported("osmium.osm.mutable", PYOSMIUM, f"writing {os.path.basename(path)}")
        self.path, self.report = path, report
        self.is_changes = kind_of_file(path).format is Format.CHANGES
        self.ids, self.replaced = ToolIds({}), 0
        self.now = time.strftime("%Y-%m-%dT%H:%M:%SZ", time.gmtime())
        self._unsorted = os.path.join(os.path.dirname(path), "unsorted.osh.pbf")
        with writing(path):
            self._writer = self.osmium.SimpleWriter(self._unsorted, BUFFER)

    def begin(self, attributes: Mapping[str, str]) -> None:
        """Takes the attributes of the extract's root, which these formats have not."""

    def other(self, element: ElementTree.Element) -> None:
        """Takes, for example, the bounds, which are not written."""

    def unchanged(self, element: ElementTree.Element) -> None:
        """Writes an element of the extract to a map."""
        if not self.is_changes and not is_deleted(element):
            self._add(element, max(1, version_of(element)))

    def changed(self, element: ElementTree.Element, row: Element, more_tags: Iterable[Tuple[str, str]]) -> None:
        """Writes an element that mappers changed."""
        version = max(1, version_of(element)) + 1
        self._add_row(element, row, version, more_tags)

    def deleted(self, element: ElementTree.Element) -> None:
        """Writes a deleted element to a file of changes."""
        if self.is_changes:
            about = self._about(name_of(element), max(1, version_of(element)) + 1, self.now, None)
            kind = element.tag.capitalize()
            self._write(element.tag, getattr(self.mutable, kind)(**{**about, "visible": False, "tags": {}}))

    def created(self, name: str, row: Element) -> None:
        """Writes a new element."""
        self._add_row(new_element(name, row), row, 1)

    def known(self, name: str, row: Element) -> None:
        """Writes an element of unknown version."""
        self._add_row(new_element(name, row), row, 1)

    def _add_row(
        self, element: ElementTree.Element, row: Element, version: int, more_tags: Iterable[Tuple[str, str]] = ()
    ) -> None:
        """Writes an element with the content of a row, which is of now and of nobody."""
        self.replaced += fill(element, row, more_tags)
        for key in ("user", "uid", "changeset"):
            element.attrib.pop(key, None)
        element.set("timestamp", self.now)
        self._add(element, version)

    def _about(self, name: str, version: int, when: Optional[str], element: Optional[ElementTree.Element]) -> Any:
        """What elements of all kinds have."""
        get = element.get if element is not None else lambda key, default="": default
        about = {
            "id": self.ids.of(name),
            "version": min(version, MOST),
            "visible": True,
            "changeset": count_of(get("changeset", "")),
            "uid": count_of(get("uid", "")),
            "user": (get("user", "") or "")[:MOST_CHARACTERS],
        }
        return {**about, "timestamp": when} if when and TIME.fullmatch(when) else about

    def _add(self, element: ElementTree.Element, version: int) -> None:
        """Writes an element of XML, or reports why it cannot be written."""
        name = name_of(element)
        if id_of(element.get("id")) is None:
            self.report(f"{name} is not written: this is no id")
            return
        try:
            about = self._about(name, version, element.get("timestamp"), element)
            about["tags"] = held_tags(element, lambda how, what: self.report(f"{name} {how}: {what}"))
            self._write(element.tag, getattr(self, f"_{element.tag}")(name, element, about))
        except (BadFile, LeftOut, ValueError) as why:
            self.report(f"{name} is not written: {why}")

    def _node(self, name: str, element: ElementTree.Element, about: Mapping[str, Any]) -> Any:
        """A node of pyosmium. Raises LeftOut if it has no place."""
        place = float(degrees(element, "lon", no_note)), float(degrees(element, "lat", no_note))
        return self.mutable.Node(location=place, **about)

    def _way(self, name: str, element: ElementTree.Element, about: Mapping[str, Any]) -> Any:
        """A way of pyosmium. Raises LeftOut if a node has no id."""
        refs = [id_of(ref) for ref in nodes_of(element)]
        if None in refs:
            raise LeftOut("a node of it has no id")
        return self.mutable.Way(nodes=[self.ids.of(f"n{ref}") for ref in refs], **about)

    def _relation(self, name: str, element: ElementTree.Element, about: Mapping[str, Any]) -> Any:
        """A relation of pyosmium. A member without an id, or in a role that is too long, is reported and cut."""
        members = []
        for ref, role in all_members_of(element):
            if id_of(ref[1:]) is None or len(role) > MOST_CHARACTERS:
                self.report(f"{name} cut: its member {ref}")
            else:
                members.append((ref[0], self.ids.of(ref), role))
        return self.mutable.Relation(members=members, **about)

    def _write(self, kind: str, item: Any) -> None:
        """Writes an item of pyosmium. Raises OSError."""
        with writing(self.path, self._writer):
            getattr(self._writer, f"add_{kind}")(item)

    def end(self) -> int:
        """Writes all in order. Returns how many characters XML cannot hold, and were replaced. Raises OSError."""
        with writing(self.path, self._writer):
            self._writer.close()
        with writing(self.path):
            merging = self.osmium.MergeInputReader()
            merging.add_file(self._unsorted)
            output = self.osmium.WriteHandler(self.path)
        with writing(self.path, output):
            merging.apply(output, simplify=False)
            output.close()
        os.unlink(self._unsorted)
        return self.replaced


def version_of(element: ElementTree.Element) -> int:
    """The version of an element of an extract, or 0 if it has none."""
    return count_of(element.get("version", ""))


def count_of(text: Optional[str]) -> int:
    """The number of an attribute, or 0 if it is none that tools can hold."""
    return int(text) if text and text.isascii() and text.isdigit() and len(text) < 11 and int(text) <= MOST else 0


def is_for_tools(path: str, plain: bool) -> bool:
    """Whether a file with this name is one for the tools of OpenStreetMap, and not for JOSM."""
    return plain or kind_of_file(path).format is not Format.XML
