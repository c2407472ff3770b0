"""The ledger of a replicator: what was published, in a database of SQLite.

A diff is decided when the ledger has it. Its files are written afterwards, and again after a crash. So no number is
left out, and none is published twice with different content.
"""
from __future__ import annotations

import contextlib
import json
import os
import sqlite3
from dataclasses import dataclass
from typing import Any, Dict, Iterable, Iterator, List, Mapping, Optional, Tuple

from ..core import Element, Row, compact
from ..tool_ids import FIRST_ODD, ToolIds

KINDS = "nwr"

SCHEMA = """
CREATE TABLE elements (
    kind INTEGER NOT NULL,      -- 0 is a node, 1 a way, 2 a relation
    id INTEGER NOT NULL,        -- as followers see it
    name TEXT NOT NULL UNIQUE,  -- as the room has it, for example n-7
    version INTEGER NOT NULL,
    time INTEGER NOT NULL,      -- in seconds since 1970
    author TEXT NOT NULL,       -- empty if it is not known
    change INTEGER NOT NULL,    -- followers see it as the changeset
    row TEXT,                   -- the element as the room sends it, or NULL if it is deleted
    PRIMARY KEY (kind, id)
) WITHOUT ROWID;
CREATE TABLE diffs (sequence INTEGER PRIMARY KEY, time INTEGER NOT NULL, content BLOB NOT NULL);
CREATE TABLE room (name TEXT NOT NULL, change INTEGER NOT NULL);
"""


class BadLedger(Exception):
    """The ledger cannot be read or written. The text says why."""


class OtherRoom(Exception):
    """The ledger is that of another room."""


@dataclass(frozen=True)
class Version:
    """A state of an element, as followers see it. `row` is None if the element is deleted. `time` is in seconds since
    1970, and `author` is empty if nobody knows who made the change."""

    name: str
    id: int
    version: int
    time: int
    author: str
    change: int
    row: Optional[Element]

    @property
    def place(self) -> Tuple[int, int, int]:
        """Where it is in a file: nodes come first, then ways, then relations, each by id and version."""
        return KINDS.index(self.name[0]), self.id, self.version


@dataclass(frozen=True)
class Happening:
    """What changed in the room at once: the author (empty if it is not known), the time, and the rows."""

    author: str
    time: int
    rows: List[Row]


@dataclass(frozen=True)
class Diff:
    """A diff: its sequence number, its time in seconds since 1970, and its file."""

    sequence: int
    time: int
    content: bytes


@contextlib.contextmanager
def reported(path: str) -> Iterator[None]:
    """Raises BadLedger for a fault of the database."""
    try:
        yield
    except sqlite3.Error as fault:
        raise BadLedger(f"{path}: {fault}") from fault


class Ledger:
    """What a replicator published. One process may have it at a time."""

    def __init__(self, path: str, room: str) -> None:
        """Opens the ledger of a room, or makes it. Raises BadLedger, OtherRoom, or OSError."""
        self.path, self.room = path, room
        os.close(os.open(path, os.O_RDWR | os.O_CREAT | os.O_NOFOLLOW | os.O_CLOEXEC, 0o600))
        with reported(path):
            # Threads use it, but never two at a time.
            self._base = sqlite3.connect(path, isolation_level=None, check_same_thread=False)
            self._base.execute("PRAGMA synchronous = EXTRA")
            self._make()
            ((name, self.change),) = self._base.execute("SELECT name, change FROM room")
            if name != room:
                raise OtherRoom(f"{path} is that of the room {name}, and not of {room}")
            self.ids = ToolIds(self._odd_ids())

    def _make(self) -> None:
        """Makes the tables, if the ledger is new."""
        with self._writing():
            if not self._base.execute("SELECT 1 FROM sqlite_master").fetchone():
                for statement in SCHEMA.split(";"):
                    self._base.execute(statement)
                self._base.execute("INSERT INTO room VALUES (?, 0)", [self.room])

    @contextlib.contextmanager
    def _writing(self) -> Iterator[None]:
        """A transaction, which is durable at the end of its block."""
        self._base.execute("BEGIN IMMEDIATE")
        try:
            yield
            self._base.execute("COMMIT")
        except BaseException:
            if self._base.in_transaction:  # after some faults SQLite has taken it back already
                self._base.execute("ROLLBACK")
            raise

    def _odd_ids(self) -> Dict[str, int]:
        """The ids that do not follow from the names."""
        found = self._base.execute("SELECT name, id FROM elements WHERE id >= ?", [FIRST_ODD])
        return dict(found.fetchall())

    def close(self) -> None:
        """Closes the ledger."""
        self._base.close()

    # ---- What was published

    def last(self) -> Optional[Diff]:
        """The last diff, or None before the first one. That of sequence 0 has no content."""
        with reported(self.path):
            found = self._base.execute("SELECT sequence, time, content FROM diffs ORDER BY sequence DESC").fetchone()
            return Diff(*found) if found else None

    def versions(self) -> Iterator[Version]:
        """The published map: each element that is not deleted, in the order of a file."""
        columns = "name, id, version, time, author, change, row"
        with reported(self.path):
            found = self._base.execute(f"SELECT {columns} FROM elements WHERE row IS NOT NULL ORDER BY kind, id")
            for name, number, version, when, author, change, row in found:
                yield Version(name, number, version, when, author, change, json.loads(row))

    def differences(self, elements: Mapping[str, Element]) -> List[Row]:
        """The elements in which a map differs from the published one."""
        rows: List[Row] = []
        seen = set()
        for version in self.versions():
            seen.add(version.name)
            after = elements.get(version.name)
            if after != version.row:
                rows.append(Row(version.name, version.row, after))
        return rows + [Row(name, None, element) for name, element in elements.items() if name not in seen]

    # ---- What is published next

    def next_versions(self, happenings: Iterable[Happening]) -> Tuple[List[Version], int]:
        """The versions of what happened, in the order of a file, and the number of the last change."""
        change = self.change
        newest: Dict[str, int] = {}
        versions: List[Version] = []
        for happening in happenings:
            change += 1
            for name, _, after in happening.rows:
                version = 1 + (newest[name] if name in newest else self._version(name))
                if after is None and version == 1:  # it came and went unseen
                    continue
                newest[name] = version
                number = self.ids.of(name)
                versions.append(Version(name, number, version, happening.time, happening.author, change, after))
        return sorted(versions, key=lambda version: version.place), change

    def _version(self, name: str) -> int:
        """The version of an element that was published last, or 0."""
        with reported(self.path):
            found = self._base.execute("SELECT version FROM elements WHERE name = ?", [name]).fetchone()
            return int(found[0]) if found else 0

    def commit(self, diff: Diff, versions: Iterable[Version], change: int) -> None:
        """Decides a diff. It is durable when this returns. Raises BadLedger, and then nothing is decided."""
        with reported(self.path), self._writing():
            self._base.execute("DELETE FROM diffs")
            self._base.execute("INSERT INTO diffs VALUES (?, ?, ?)", [diff.sequence, diff.time, diff.content])
            self._base.execute("UPDATE room SET change = ?", [change])
            self._base.executemany(
                "INSERT OR REPLACE INTO elements VALUES (?, ?, ?, ?, ?, ?, ?, ?)", map(columns_of, versions)
            )
        self.change = change


def columns_of(version: Version) -> List[Any]:
    """A version as the table has it."""
    return [
        KINDS.index(version.name[0]),
        version.id,
        version.name,
        version.version,
        version.time,
        version.author,
        version.change,
        None if version.row is None else compact(version.row),
    ]
