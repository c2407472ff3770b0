"""The ledger: the version of each element, kept in a file.

A room has no versions, and the API needs them. The version of an element is the second since 2020 in which its state
was first seen, and always greater than its last version. So versions never fall and never come again, even if the
ledger is lost: JOSM ignores an element whose version fell, and would overwrite an element whose version came again.
An element that an editor creates has version 1, since editors that create a single element assume so.

The file is only appended to. Each line ends with LF and begins with a checksum of the rest, so a line that was cut
is recognized and dropped. A line is written before anybody sees the version in it. When most lines are outdated, the
ledger writes a new file and puts it in the place of the old one.
"""
import contextlib
import fcntl
import json
import os
import zlib
from collections.abc import Iterable, Iterator, Mapping
from dataclasses import dataclass, replace
from datetime import datetime, timezone
from pathlib import Path

from ..core import LEAST_ID
from .elements import GONE_DIGEST, Row, Rows, compact, digest

EPOCH = int(datetime(2020, 1, 1, tzinfo=timezone.utc).timestamp())
FIRST_VERSION = 1

# A file is written anew if it has this number of lines more than twice the known elements.
SPARE_LINES = 10_000

ELEMENT, UPLOAD, SETTLED = "e", "u", "s"
NOBODY = "-"


class LedgerInUse(Exception):
    """Another program has the ledger open."""


@dataclass(frozen=True, slots=True)
class Known:
    """What is known of an element: its version, when it got it (seconds since 1970), the entry that made it so and its
    author (0 and empty if the state came with a welcome), and a digest of its content."""

    version: int
    time: int
    entry: int
    author: str
    digest: str


@dataclass(frozen=True)
class PendingUpload:
    """An upload that was sent to the room and not answered: what the editor has to be answered if the room accepted
    it. `request` identifies the editor's request, `message` is the id that the room spends for it, and each result has
    the kind's word, the old id, the room's name or None, and the digest of the content. `seen` is the last entry that
    its plan knew, until it is sure that no other entry overtook the upload."""

    request: str
    author: str
    changeset: int
    message: int
    results: tuple[tuple[str, int, str | None, str], ...]
    seen: int | None = None

    def may_be_overtaken(self, seq: int) -> bool:
        """Returns whether the upload, if it is this entry, may be overtaken by another."""
        return self.seen is not None and seq > self.seen + 1


def line_of(payload: str) -> bytes:
    """Returns a line of the file."""
    data = payload.encode("utf-8", "surrogatepass")
    return b"%08x %b\n" % (zlib.crc32(data), data)


def payloads_in(data: bytes) -> Iterator[str]:
    """Yields what the whole lines of a file say. Damaged lines are passed over."""
    for line in data.split(b"\n")[:-1]:
        checksum, _, payload = line.partition(b" ")
        with contextlib.suppress(ValueError):
            if len(checksum) == 8 and int(checksum, 16) == zlib.crc32(payload):
                yield payload.decode("utf-8", "surrogatepass")


def element_line(name: str, known: Known) -> str:
    """Returns the line of an element."""
    author = known.author or NOBODY
    return f"{ELEMENT} {name} {known.version} {known.time} {known.entry} {author} {known.digest}"


def element_in(rest: str) -> tuple[str, Known]:
    """Returns the element of a line."""
    name, version, time, entry, author, state = rest.split(" ")
    return name, Known(int(version), int(time), int(entry), "" if author == NOBODY else author, state)


def upload_line(upload: PendingUpload) -> str:
    """Returns the line of an upload."""
    values = [upload.request, upload.author, upload.changeset, upload.message, upload.results, upload.seen]
    return f"{UPLOAD} {compact(values)}"


def upload_in(rest: str) -> PendingUpload:
    """Returns the upload of a line."""
    request, author, changeset, message, results, seen = json.loads(rest)
    return PendingUpload(
        request, author, changeset, message, tuple((word, old, name, state) for word, old, name, state in results), seen
    )


class LedgerFile:
    """The file of a ledger, which one program holds at a time."""

    def __init__(self, path: Path) -> None:
        self.path = path
        self._descriptor = self._opened(path)
        self.data = path.read_bytes()
        whole = self.data.rfind(b"\n") + 1
        if whole < len(self.data):  # the program was killed while it wrote this line
            os.ftruncate(self._descriptor, whole)
        self._size = whole

    @staticmethod
    def _opened(path: Path) -> int:
        """Opens a file to append to it, and locks it."""
        descriptor = os.open(path, os.O_RDWR | os.O_CREAT | os.O_APPEND | os.O_CLOEXEC, 0o600)
        try:
            fcntl.flock(descriptor, fcntl.LOCK_EX | fcntl.LOCK_NB)
        except OSError as fault:
            os.close(descriptor)
            raise LedgerInUse(f"another program uses the ledger {path}") from fault
        return descriptor

    def append(self, data: bytes) -> bool:
        """Appends lines, and returns whether all of it was written. If not, the file is unchanged."""
        try:
            written = 0
            while written < len(data):
                written += os.write(self._descriptor, data[written:])
        except OSError:
            with contextlib.suppress(OSError):
                os.ftruncate(self._descriptor, self._size)
            return False
        self._size += written
        return True

    def replace(self, data: bytes) -> bool:
        """Puts other lines in the place of all, and returns whether that was done. A kill leaves the old or the
        new file."""
        fresh = self.path.with_name(f"{self.path.name}.new")
        try:
            with contextlib.suppress(FileNotFoundError):
                fresh.unlink()
            descriptor = self._opened(fresh)
        except (OSError, LedgerInUse):
            return False
        try:
            with open(descriptor, "wb", closefd=False) as file:
                file.write(data)
            os.fsync(descriptor)
            fresh.replace(self.path)
        except OSError:
            os.close(descriptor)
            return False
        os.close(self._descriptor)
        self._descriptor, self._size = descriptor, len(data)
        return True

    def close(self) -> None:
        """Closes the file, which another program can open then."""
        os.close(self._descriptor)


class Ledger:
    """Versions of elements, and uploads that were sent and not answered. Without a path nothing is kept."""

    def __init__(self, path: Path | None = None) -> None:
        self.known: dict[str, Known] = {}
        self.pending: dict[str, PendingUpload] = {}
        self.least_number = 0
        self._lines, self._unwritten = 0, b""
        self._file = LedgerFile(path) if path else None
        if self._file:
            for payload in payloads_in(self._file.data):
                self._read(payload)
            self._file.data = b""
            self._compact_if_due()

    def close(self) -> None:
        """Ends the use of the file."""
        if self._file:
            self._file.close()
            self._file = None

    # what the room says

    def welcome(self, elements: Mapping[str, Row], now: float, created: frozenset[str] = frozenset()) -> None:
        """Compares the whole map of a room with what is known. An element that differs gets a higher version. Names in
        `created` that were never known get version 1."""
        changed = {}
        for name, row in elements.items():
            state, known = digest(row), self.known.get(name)
            if known is None or known.digest != state:
                changed[name] = self._changed(name, state, 0, "", now, created)
        for name, known in self.known.items():
            if known.digest != GONE_DIGEST and name not in elements:
                changed[name] = self._changed(name, GONE_DIGEST, 0, "", now, created)
        self.set(changed)

    def news(self, rows: Rows, entry: int, author: str, now: float, created: frozenset[str] = frozenset()) -> None:
        """Gives a new version to each element that an entry changed. Names in `created` that were never known get
        version 1."""
        self.set({name: self._changed(name, digest(row), entry, author, now, created) for name, row in rows.items()})

    def set(self, states: Mapping[str, Known]) -> None:
        """Notes elements, in one write."""
        if states:
            for name, known in states.items():
                self._note(name, known)
            self._write([element_line(name, known) for name, known in states.items()])

    def _note(self, name: str, known: Known) -> None:
        """Notes an element. `least_number` passes over very low numbers, since a mapper may take the lowest of all."""
        if (number := int(name[1:])) > LEAST_ID:
            self.least_number = min(self.least_number, number)
        self.known[name] = known

    def raise_first(self, name: str, now: float) -> None:
        """Gives a higher version to an element that has the first one."""
        version = max(FIRST_VERSION + 1, self.unseen_version(now))
        self.set({name: replace(self.known[name], version=version)})

    def version(self, name: str) -> int | None:
        """Returns the version of an element, also of a deleted element; None if it was never known."""
        known = self.known.get(name)
        return known.version if known else None

    @staticmethod
    def unseen_version(now: float) -> int:
        """Returns a version for an element that was never known. If it becomes known, its version is not lower."""
        return max(FIRST_VERSION, int(now) - EPOCH)

    def _changed(self, name: str, state: str, entry: int, author: str, now: float, created: frozenset[str]) -> Known:
        """Returns a new state of an element, with a version that it never had."""
        if name in created and name not in self.known:
            return Known(FIRST_VERSION, int(now), entry, author, state)
        last = self.known[name].version if name in self.known else 0
        return Known(max(last + 1, self.unseen_version(now)), int(now), entry, author, state)

    # uploads

    def begin(self, upload: PendingUpload) -> None:
        """Notes that an upload is about to be sent, or what is known of it since."""
        self.pending[upload.request] = upload
        self._write([upload_line(upload)])

    def settle(self, request: str) -> None:
        """Notes that an upload was answered."""
        if self.pending.pop(request, None):
            self._write([f"{SETTLED} {request}"])

    # the file

    def _read(self, payload: str) -> None:
        """Takes a line of the file."""
        word, _, rest = payload.partition(" ")
        with contextlib.suppress(ValueError):
            if word == ELEMENT:
                self._note(*element_in(rest))
            elif word == UPLOAD:
                upload = upload_in(rest)
                self.pending[upload.request] = upload
            elif word == SETTLED:
                self.pending.pop(rest, None)
        self._lines += 1

    def _write(self, payloads: Iterable[str]) -> None:
        """Appends lines. If the file cannot be written now, for example since the disk is full, they are written with
        the next ones."""
        if self._file is None:
            return
        lines = [line_of(payload) for payload in payloads]
        self._lines += len(lines)
        self._unwritten += b"".join(lines)
        if self._file.append(self._unwritten):
            self._unwritten = b""
        self._compact_if_due()

    def _compact_if_due(self) -> None:
        """Writes the file anew if most lines are outdated."""
        if self._lines > 2 * (len(self.known) + len(self.pending)) + SPARE_LINES:
            self.compact()

    def compact(self) -> None:
        """Writes a file with one line for each element and each pending upload."""
        payloads = [element_line(name, known) for name, known in self.known.items()]
        payloads += map(upload_line, self.pending.values())
        if self._file and self._file.replace(b"".join(map(line_of, payloads))):
            self._lines, self._unwritten = len(payloads), b""
