"""The files that followers read. Each is whole before the next names it."""
from __future__ import annotations

import os
import tempfile
import time
from typing import Any, Dict, Iterable, Iterator, Optional

from ..authors import user_id
from ..core import Element
from ..keeper.files import replace_durably, sync_folder
from ..missing import imported
from ..sources import PYOSMIUM, writing
from ..tool_ids import ToolIds
from ..xml_elements import replaced
from .ledger import Diff, Version

# How many bytes pyosmium collects before it writes, and how many are copied at once.
BUFFER, PART = 1 << 18, 1 << 20

KINDS = {"n": "node", "w": "way", "r": "relation"}


def clock(seconds: int) -> str:
    """A time in seconds since 1970 as OpenStreetMap's files have it."""
    return time.strftime("%Y-%m-%dT%H:%M:%SZ", time.gmtime(seconds))


class Items:
    """Makes the items of pyosmium, with the ids that followers see."""

    def __init__(self, ids: ToolIds) -> None:
        """Raises MissingPackage."""
        self.mutable = imported("osmium.osm.mutable", PYOSMIUM, "replication")
        self.ids = ids

    def item(self, version: Version) -> Any:
        """The item of a version. A deleted one has no content."""
        about: Dict[str, Any] = {
            "id": version.id,
            "version": version.version,
            "timestamp": clock(version.time),
            "changeset": version.change,
            "user": version.author,
            "uid": user_id(version.author) if version.author else 0,
            "visible": version.row is not None,
        }
        row: Element = version.row or {"el": version.name, "tags": {}}
        about["tags"] = {replaced(key)[0]: replaced(value)[0] for key, value in row["tags"].items()}
        kind = version.name[0]
        if kind == "n":
            place = (float(row["lon"]), float(row["lat"])) if "lat" in row else None
            return self.mutable.Node(location=place, **about)
        if kind == "w":
            return self.mutable.Way(nodes=[self.ids.of(f"n{number}") for number in row.get("nodes", ())], **about)
        members = [(el[0], self.ids.of(el), replaced(role)[0]) for el, role in row.get("members", ())]
        return self.mutable.Relation(members=members, **about)


class Files:
    """The folder that is served."""

    def __init__(self, folder: str, ids: ToolIds, public_url: str = "") -> None:
        """`public_url` is where followers find the folder, if the base shall say it. Raises MissingPackage."""
        self.osmium = imported("osmium", PYOSMIUM, "replication")
        self.folder, self.public_url, self.items = folder, public_url, Items(ids)

    def path(self, sequence: int, end: str) -> str:
        """The file of a sequence number, for example 000/000/001.osc.gz."""
        digits = f"{sequence:09}"
        return os.path.join(self.folder, digits[:3], digits[3:6], digits[6:] + end)

    def content(self, versions: Iterable[Version]) -> bytes:
        """The file of a diff with some versions. Raises OSError."""
        with tempfile.TemporaryDirectory(prefix="diff-", dir=self.folder) as scratch:
            path = os.path.join(scratch, "diff.osc.gz")
            self._write(path, versions, None)
            with open(path, "rb") as file:
                return file.read()

    def _write(self, path: str, versions: Iterable[Version], header: Optional[Any]) -> None:
        """Writes a new file with some versions. Raises OSError."""
        with writing(path):
            writer = self.osmium.SimpleWriter(path, BUFFER, header or self.osmium.io.Header())
        with writing(path, writer):
            for version in versions:
                getattr(writer, f"add_{KINDS[version.name[0]]}")(self.items.item(version))
            writer.close()

    def publish(self, diff: Diff) -> None:
        """Writes the files of a diff, durably: first its changes, and last the state that names it. Raises OSError."""
        self._make_folders(diff.sequence)
        if diff.content:
            replace_durably(self.path(diff.sequence, ".osc.gz"), [diff.content])
        state = state_text(diff)
        replace_durably(self.path(diff.sequence, ".state.txt"), [state])
        replace_durably(os.path.join(self.folder, "state.txt"), [state])

    def _make_folders(self, sequence: int) -> None:
        """Makes the folders of a sequence number, durably."""
        inner = os.path.dirname(self.path(sequence, ""))
        for folder in (os.path.dirname(inner), inner):
            if not os.path.isdir(folder):
                os.mkdir(folder)
                sync_folder(os.path.dirname(folder))

    def write_base(self, versions: Iterable[Version], diff: Diff) -> None:
        """Replaces the base by the map as of a diff, durably. Raises OSError."""
        header = self.osmium.io.Header()
        header.set("generator", "maproom replicate")
        header.set("osmosis_replication_timestamp", clock(diff.time))
        header.set("osmosis_replication_sequence_number", str(diff.sequence))
        if self.public_url:
            header.set("osmosis_replication_base_url", self.public_url)
        with tempfile.TemporaryDirectory(prefix="base-", dir=self.folder) as scratch:
            path = os.path.join(scratch, "base.osm.pbf")
            self._write(path, versions, header)
            replace_durably(os.path.join(self.folder, "base.osm.pbf"), parts_of(path))

    def remove_unfinished(self) -> None:
        """Removes what a replicator left that was killed while it wrote. Raises OSError."""
        for name in os.listdir(self.folder):
            path = os.path.join(self.folder, name)
            if name.startswith(("diff-", "base-")) and os.path.isdir(path):
                for inner in os.listdir(path):
                    os.unlink(os.path.join(path, inner))
                os.rmdir(path)


def parts_of(path: str) -> Iterator[bytes]:
    """The content of a file, in parts."""
    with open(path, "rb") as file:
        while part := file.read(PART):
            yield part


def state_text(diff: Diff) -> bytes:
    """What state.txt says of a diff. Java, which reads it as properties, needs the backslashes."""
    when = clock(diff.time).replace(":", "\\:")
    return f"sequenceNumber={diff.sequence}\ntimestamp={when}\n".encode()
