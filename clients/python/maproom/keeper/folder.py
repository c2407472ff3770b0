"""The keeper's folder: its files, its locks, and what was saved in it."""
from __future__ import annotations

import collections
import fcntl
import os
import re
import time
from dataclasses import dataclass, replace
from typing import Callable, Deque, Dict, List, Optional, Tuple

from ..core import Element
from .files import opened_to_read, remove, replace_durably, sync_folder
from .journal import Damaged, Entry, Journal, Position, Torn, entries_in
from .snapshots import Snapshot, read_snapshot, write_snapshot

SNAPSHOT, JOURNAL = re.compile(r"snapshot-([0-9]{8})\.map"), re.compile(r"journal-([0-9]{8})\.jsonl")

# The file with the position of the map that --restore printed last.
RESTORED = "restored"

# How many of the last entries are kept in memory, and of how many elements for each.
RECENT, RECENT_ROWS = 200, 50

# How often a folder is read again because the keeper removed an old snapshot meanwhile.
TRIES = 5

Note = Callable[[str], None]
Recent = Deque[Entry]


class Locked(Exception):
    """Another keeper writes to the folder."""


class NothingSaved(Exception):
    """The folder has no save yet."""


@dataclass
class Saved:
    """What was saved last: the map, its position and time, and the last entries before it."""

    position: Position
    time: float
    elements: Dict[str, Element]
    recent: Recent

    def take(self, entry: Entry) -> None:
        """Brings the map up to an entry."""
        for el, _, after in entry.rows:
            if after is None:
                self.elements.pop(el, None)
            else:
                self.elements[el] = after
        self.position, self.time = entry.position, entry.time
        left_out = max(0, len(entry.rows) - RECENT_ROWS)
        self.recent.append(replace(entry, rows=entry.rows[:RECENT_ROWS], left_out=left_out))

    def follows(self, entry: Entry) -> bool:
        """Whether an entry is the next one for this map."""
        run, seq = self.position.run, self.position.seq
        is_next = entry.by is None or entry.position == Position(run, seq + 1)
        return is_next and all(self.elements.get(el) == before for el, before, _ in entry.rows)


def snapshot_path(path: str, number: int) -> str:
    """The file of a snapshot."""
    return os.path.join(path, f"snapshot-{number:08}.map")


def journal_path(path: str, number: int) -> str:
    """The file of a journal."""
    return os.path.join(path, f"journal-{number:08}.jsonl")


def note_restored(path: str, position: Position) -> None:
    """Notes that --restore prints the map at a position, since a server may begin with it. Raises OSError."""
    replace_durably(os.path.join(path, RESTORED), [restored_text(position)])


def is_restored(path: str, position: Position) -> bool:
    """Whether the map that --restore printed last is the one at a position."""
    try:
        with opened_to_read(os.path.join(path, RESTORED)) as file:
            return file.read(len(restored_text(position)) + 1) == restored_text(position)
    except OSError:
        return False


def restored_text(position: Position) -> bytes:
    """What the file says of a position."""
    return f"{position.run} {position.seq}\n".encode()


def numbers_in(path: str, pattern: re.Pattern[str]) -> List[int]:
    """The numbers of the files whose names have a form, in rising order."""
    return sorted(int(found[1]) for found in map(pattern.fullmatch, os.listdir(path)) if found)


def load(path: str, note: Note) -> Saved:
    """Reads what was saved last: the newest whole snapshot, and the journal after it.

    A torn last line is ignored. `note` reports a damaged snapshot that is not needed. Raises NothingSaved, Damaged, or
    OSError.
    """
    for tries_left in reversed(range(TRIES)):
        try:
            return load_once(path, note)
        except FileNotFoundError:
            if not tries_left:
                raise
    raise AssertionError("the loop above returns or raises")


def load_once(path: str, note: Note) -> Saved:
    """The same, for a folder from which nobody removes a file."""
    journals = numbers_in(path, JOURNAL)
    number, snapshot = newest_whole(path, note)
    if snapshot is None:
        if any(os.lstat(journal_path(path, each)).st_size for each in journals):
            raise Damaged(f"{path} has a journal, and no whole snapshot before it")
        raise NothingSaved(f"{path} has no save yet")
    saved = Saved(snapshot.position, snapshot.time, snapshot.elements, collections.deque(maxlen=RECENT))
    for each in range(number, max([number, *journals]) + 1):  # a journal is there before its snapshot
        if each not in journals:
            raise Damaged(f"{journal_path(path, each)} is missing")
        replay(journal_path(path, each), saved, [journal_path(path, later) for later in journals if later > each])
    return saved


def newest_whole(path: str, note: Note) -> Tuple[int, Optional[Snapshot]]:
    """The newest whole snapshot and its number."""
    for number in reversed(numbers_in(path, SNAPSHOT)):
        try:
            return number, read_snapshot(snapshot_path(path, number))
        except Damaged as fault:
            note(f"{fault}; an older snapshot and its journal are taken")
    return 0, None


def replay(path: str, saved: Saved, later: List[str]) -> None:
    """Brings a map up to the end of a journal. Only the newest journal can be torn."""
    for number, entry in enumerate(entries_in(path), 1):
        if isinstance(entry, Damaged):
            raise entry
        if isinstance(entry, Torn):
            if any(os.lstat(each).st_size for each in later):
                raise Damaged(f"{path}:{number} is damaged: it ends within the line")
            return
        if not saved.follows(entry):
            raise Damaged(f"{path}:{number} is damaged: it does not follow {saved.position}")
        saved.take(entry)


class Lock:
    """A file that a process can hold. Who can read the file can wait for it."""

    def __init__(self, path: str, is_there: bool = False) -> None:
        flags = os.O_RDONLY if is_there else os.O_RDWR | os.O_CREAT
        self._file = os.open(path, flags | os.O_NOFOLLOW | os.O_NONBLOCK | os.O_CLOEXEC, 0o644)

    def take(self, shared: bool = False) -> bool:
        """Takes the lock, if nobody else holds it. Returns whether it did."""
        try:
            fcntl.flock(self._file, (fcntl.LOCK_SH if shared else fcntl.LOCK_EX) | fcntl.LOCK_NB)
            return True
        except BlockingIOError:
            return False

    def release(self) -> None:
        """Releases the lock."""
        fcntl.flock(self._file, fcntl.LOCK_UN)

    def close(self) -> None:
        """Releases the lock for good."""
        os.close(self._file)


def wait_for_keeper(path: str, seconds: float) -> bool:
    """Waits until no keeper is connected or has unsaved news. Returns whether that came in time."""
    if not os.path.exists(os.path.join(path, "session")):
        return True
    lock, deadline = Lock(os.path.join(path, "session"), is_there=True), time.monotonic() + seconds
    try:
        while not lock.take(shared=True):
            if time.monotonic() >= deadline:
                return False
            time.sleep(0.02)
        return True
    finally:
        lock.close()


class Folder:
    """The folder, for the keeper that writes to it."""

    def __init__(self, path: str) -> None:
        """Makes the folder if it is missing, and locks it. Raises Locked, or OSError."""
        self.path = path
        os.makedirs(path, exist_ok=True)
        self._lock = Lock(os.path.join(path, "lock"))
        if not self._lock.take():
            raise Locked(f"another keeper writes to {path}")
        self.session = Lock(os.path.join(path, "session"))
        self.journal: Optional[Journal] = None
        self._number = max([0, *numbers_in(path, SNAPSHOT), *numbers_in(path, JOURNAL)])
        self._remove_unfinished()
        self._cut_torn_line()

    def _remove_unfinished(self) -> None:
        """Removes the snapshot that an earlier keeper did not finish."""
        for name in os.listdir(self.path):
            if name.endswith(".map.new") and SNAPSHOT.fullmatch(name[: -len(".new")]):
                remove(os.path.join(self.path, name))

    def _cut_torn_line(self) -> None:
        """Cuts the torn last line from the newest journal that has lines, since a new journal follows."""
        for number in reversed(numbers_in(self.path, JOURNAL)):
            path = journal_path(self.path, number)
            if os.lstat(path).st_size:
                for entry in entries_in(path):
                    if isinstance(entry, Torn):
                        with opened_to_read(path, os.O_RDWR) as file:
                            file.truncate(entry.length)
                with opened_to_read(path) as file:
                    os.fsync(file.fileno())
                return

    def begin_journal(self) -> int:
        """Begins a new journal, and returns its number. Raises OSError, and then the old journal stays."""
        journal = Journal(journal_path(self.path, self._number + 1))
        self._number += 1  # only now, because `load` needs the journal of each number
        if self.journal:
            self.journal.close()
        self.journal = journal
        return self._number

    def save(self, number: int, snapshot: Snapshot, count: int) -> None:
        """Saves the snapshot that a journal begins with, and keeps the latest `count` snapshots. Raises OSError."""
        write_snapshot(snapshot_path(self.path, number), snapshot)
        for old in numbers_in(self.path, SNAPSHOT)[:-count]:
            remove(snapshot_path(self.path, old))
        sync_folder(self.path)

    def close(self) -> None:
        """Releases the folder."""
        if self.journal:
            self.journal.close()
        self.session.close()
        self._lock.close()
