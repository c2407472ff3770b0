"""The journal: what changed in a room, one line of JSON for each entry, each with a checksum."""
from __future__ import annotations

import json
import os
import zlib
from dataclasses import dataclass
from typing import Any, Dict, Iterator, List, Optional, Union

from ..core import Row, compact
from .files import is_no_file, opened_to_read, remove, sync_folder, write_all

# How a line begins. The checksum covers what comes after this head.
HEAD = b'{"sum":"%08x",'
HEAD_LENGTH = len(HEAD % 0)


class Damaged(Exception):
    """A file of the keeper's folder is damaged. The text names the file and the place."""


@dataclass(frozen=True)
class Position:
    """An entry of the room's journal. The keeper counts the runs of the server, and each run counts its entries."""

    run: int
    seq: int

    def __str__(self) -> str:
        return f"entry {self.seq} of run {self.run}"


@dataclass(frozen=True)
class Entry:
    """What changed, and when the keeper received it, in seconds since 1970.

    `by` is the author. It is None after a gap: then `rows` has each element that differs, from entries that the keeper
    did not receive. `left_out` counts the rows that are not kept in memory.
    """

    time: float
    position: Position
    by: Optional[str]
    rows: List[Row]
    left_out: int = 0


@dataclass(frozen=True)
class Torn:
    """The end of a journal whose last line was not written completely. The whole lines have `length` bytes."""

    length: int


def encoded(entry: Entry) -> bytes:
    """An entry as a line."""
    rows = [row._asdict() for row in entry.rows]
    value = {
        "time": round(entry.time, 3),
        "run": entry.position.run,
        "seq": entry.position.seq,
        "by": entry.by,
        "rows": rows,
    }
    body = compact(value)[1:].encode("utf-8", "surrogatepass") + b"\n"
    return HEAD % zlib.crc32(body) + body


def decoded(line: bytes) -> Entry:
    """The entry of a line. Raises ValueError if the line is damaged."""
    body = line[HEAD_LENGTH:]
    if line[:HEAD_LENGTH] != HEAD % zlib.crc32(body):
        raise ValueError("its checksum is wrong")
    try:
        value: Dict[str, Any] = json.loads(b"{" + body)
        rows = [Row(row["el"], row["before"], row["after"]) for row in value["rows"]]
        return Entry(value["time"], Position(value["run"], value["seq"]), value["by"], rows)
    except (KeyError, TypeError) as fault:
        raise ValueError("it has not the members of an entry") from fault


def entries_in(path: str) -> Iterator[Union[Entry, Torn, Damaged]]:
    """The entries of a journal file, in order. A damaged line gives a Damaged, and so does a path that is no regular
    file. A torn last line gives a Torn. Raises OSError."""
    length = 0
    try:
        opened = opened_to_read(path)
    except OSError as fault:
        if not is_no_file(fault):
            raise
        yield Damaged(f"{path} is damaged: it is no regular file")
        return
    with opened as file:
        for number, line in enumerate(file, 1):
            if not line.endswith(b"\n"):
                yield Torn(length)
                return
            length += len(line)
            try:
                yield decoded(line)
            except ValueError as fault:
                yield Damaged(f"{path}:{number} is damaged: {fault}")


class Journal:
    """A journal file that is written. Each call of `append` is durable when it returns."""

    def __init__(self, path: str) -> None:
        """Creates the file. Raises OSError if that fails, and then the file is not there."""
        self.path, self.length, self.is_unclear = path, 0, False
        self._file = os.open(path, os.O_WRONLY | os.O_CREAT | os.O_EXCL | os.O_APPEND | os.O_CLOEXEC, 0o644)
        try:
            sync_folder(os.path.dirname(path))
        except BaseException:
            self.close()
            remove(path)
            raise

    def append(self, lines: bytes) -> None:
        """Appends lines and makes them durable. Raises OSError otherwise; call it again with the same lines then.

        After a failure, part of the lines may be in the file. So the next call first cuts the file to what is durable.
        """
        if self.is_unclear:
            os.ftruncate(self._file, self.length)
        self.is_unclear = True
        write_all(self._file, lines)
        os.fdatasync(self._file)
        self.length, self.is_unclear = self.length + len(lines), False

    def close(self) -> None:
        """Closes the file."""
        os.close(self._file)
