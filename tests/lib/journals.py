"""Keeps the entries of a room over several runs of its server, as the news report them.

Several clients report the same entries. Each report is compared with the first one.
"""
from __future__ import annotations

import collections
import contextlib
import math
import threading
import time
from typing import Any, NamedTuple
from collections.abc import Callable, Mapping, Sequence

from .serving import Session
from .websocket import Broken, Client, Gone, Late

# Of how many last entries the rows are kept, and after how many more the older ones are dropped.
RECENT, MORE = 2_000, 500

# For how many seconds after a restart a client may still report replies of the earlier run.
SOON = 2


# Rows by their names. None means that an element is gone.
Rows = Mapping[str, Any]

# A part of an element: its name, and `tags` or `rest`.
Part = tuple[str, str]


class Entry(NamedTuple):
    """An entry: its number, its author, the changed elements (None if an element is gone), those that are new, and the
    elements in front of it."""

    seq: int
    by: str
    rows: Rows
    made: frozenset[str]
    before: Rows


class Run:
    """The entries of one run of a server, and the map after them. `number` counts the runs from 1. `kept` has all
    entries of the authors for whom it has a list. If the server was killed, `saved` is the last saved entry."""

    def __init__(self, number: int, rows: Any, authors: Sequence[str] = ()) -> None:
        self.number, self.rows = number, dict(rows)
        # When the server was started, when it was still there, and when it was gone, in seconds since 1970.
        self.began, self.ended, self.gone = time.time(), math.inf, math.inf
        self.saved: int | None = None
        self.is_checked = False
        self.kept: dict[str, list[Entry]] = {author: [] for author in authors}
        self.authors: list[str] = []
        # The parts that each entry changed, and the entries that changed each part.
        self.parts: list[list[Part]] = []
        self.changers: collections.defaultdict[Part, list[int]] = collections.defaultdict(list)
        # The last entries, the map in front of them, and the news that wait for earlier news.
        self.recent: collections.deque[Entry] = collections.deque()
        self.before = dict(rows)
        self.waiting: dict[int, Entry] = {}
        self.lock = threading.Lock()

    @property
    def entry_count(self) -> int:
        """How many entries there are: the number of the last entry."""
        return len(self.authors)

    def take(self, who: str, seq: int, by: str, rows: Rows) -> None:
        """Takes the news of an entry, which have to be the same for each client. `who` reports them."""
        with self.lock:
            known = self.waiting.get(seq) or self.entry(seq)
            if known and (known.by, known.rows) != (by, rows):
                raise Broken(f"{who} got the news of entry {seq} of {by} {rows}, and another client {known}")
            if seq > self.entry_count:
                self.waiting[seq] = Entry(seq, by, rows, frozenset(), {})
            while self.entry_count + 1 in self.waiting:
                self.add(self.waiting.pop(self.entry_count + 1))

    def add(self, entry: Entry) -> None:
        """Adds the next entry."""
        made = frozenset(name for name, row in entry.rows.items() if row and name not in self.rows)
        entry = entry._replace(made=made, before={name: self.rows.get(name) for name in entry.rows})
        bring_up(self.rows, entry)
        self.authors.append(entry.by)
        self.parts.append(parts_of(entry))
        for part in self.parts[-1]:
            self.changers[part].append(entry.seq)
        self.recent.append(entry)
        if entry.by in self.kept:
            self.kept[entry.by].append(entry)
        if len(self.recent) > RECENT + MORE:
            for _ in range(MORE):
                bring_up(self.before, self.recent.popleft())

    def entry(self, seq: int) -> Entry | None:
        """An entry, if its rows are kept."""
        at = seq - self.entry_count + len(self.recent) - 1
        return self.recent[at] if 0 <= at < len(self.recent) else None

    def rows_at(self, seq: int) -> dict[str, dict[str, Any]]:
        """The map after an entry. Only the last entries are known."""
        with self.lock:
            if not self.entry_count - len(self.recent) <= seq <= self.entry_count:
                raise Broken(f"the map after entry {seq} is not known, and {self.entry_count} is the last entry")
            rows = dict(self.before)
            for entry in self.recent:
                if entry.seq <= seq:
                    bring_up(rows, entry)
            return rows

    def overwritten(self, seq: int, since: int) -> list[tuple[Part, int]]:
        """The parts that an entry changed although another author had changed them after `since`, each with that entry.
        Entries of its own author count as seen."""
        with self.lock:
            return [
                (part, other)
                for part in self.parts[seq - 1]
                for other in self.changers[part]
                if since < other < seq and self.authors[other - 1] != self.authors[seq - 1]
            ]

    def entries_of(self, author: str) -> set[int]:
        """The numbers of an author's entries."""
        return {seq for seq, by in enumerate(list(self.authors), 1) if by == author}


def part_of(row: Mapping[str, Any] | None, word: str) -> object:
    """A part of an element: its tags, or the rest. None if the element is not there."""
    if row is None:
        return None
    return row["tags"] if word == "tags" else {key: value for key, value in row.items() if key != "tags"}


def parts_of(entry: Entry) -> list[Part]:
    """The parts that an entry changed: those that differ in front of it and after it."""
    return [
        (name, word)
        for name, row in entry.rows.items()
        for word in ("tags", "rest")
        if part_of(row, word) != part_of(entry.before[name], word)
    ]


def bring_up(rows: dict[str, dict[str, Any]], entry: Entry) -> None:
    """Brings a map up to an entry."""
    for name, row in entry.rows.items():
        if row is None:
            rows.pop(name, None)
        else:
            rows[name] = row


class Journal:
    """The runs of a room's server. `authors` are those whose entries are all kept."""

    def __init__(self, rows: dict[str, dict[str, Any]], authors: Sequence[str] = ()) -> None:
        self.authors = authors
        self.runs: list[Run] = []
        self.begin_run(rows)

    @property
    def last(self) -> Run:
        """The present run, or the last one."""
        return self.runs[-1]

    def begin_run(self, rows: dict[str, dict[str, Any]]) -> None:
        """Begins another run, with this map."""
        self.runs.append(Run(len(self.runs) + 1, rows, self.authors))

    def run_of(self, asked: float, answered: float) -> Run | None:
        """The run of a change that was sent and answered at these times, in seconds since 1970. None if it may be of
        one run or of another."""
        for run in self.runs:
            soon = run.began + (SOON if run.number > 1 else 0)
            if soon <= asked and answered <= run.ended:
                return run
        return None


class Watch(Session):
    """A session that reports all news to a run, from its first entry on."""

    def __init__(self, client: Client, room: str, run: Run) -> None:
        self.run = run
        super().__init__(client, "watch", room)
        if self.seq or self.rows != run.rows:
            raise Broken(f"the room begins with entry {self.seq} and {len(self.rows)} elements, and not with its base")

    def take(self, news: Mapping[str, Any]) -> None:
        """Applies news, and reports them."""
        super().take(news)
        rows = {row["el"]: None if row.get("gone") else row for row in news["rows"]}
        self.run.take("a session without a library", news["seq"], news["by"], rows)


class Watcher:
    """Watches a room in a thread. It is the first client of each run. `fail` gets what goes wrong."""

    def __init__(self, room: str, port: int, journal: Journal, fail: Callable[[Exception], object]) -> None:
        self.room, self.port, self.journal, self.fail = room, port, journal, fail
        self.watch: Watch | None = None
        self.is_over = threading.Event()
        self.thread = threading.Thread(target=self.live, daemon=True)

    def start(self) -> None:
        """Starts the thread."""
        self.thread.start()

    def is_watching(self) -> bool:
        """Whether it watches the present run."""
        return self.watch is not None and self.watch.run is self.journal.last

    def live(self) -> None:
        """Watches one run after another."""
        try:
            while not self.is_over.is_set():
                with contextlib.suppress(Gone, OSError):
                    self.watch = Watch(Client(self.port).shake_hands(), self.room, self.journal.last)
                    self.follow(self.watch)
                self.is_over.wait(0.02)
        except Exception as fault:  # whatever goes wrong fails the run
            self.fail(fault)

    def follow(self, watch: Watch) -> None:
        """Follows a run until its server ends or all is over."""
        while not self.is_over.is_set():
            with contextlib.suppress(Late):
                if (reply := watch.hear(0.2)) is not None:
                    raise Broken(f"a session that asked for nothing got {reply}")
        watch.leave()

    def end(self) -> None:
        """Leaves."""
        self.is_over.set()
        self.thread.join()


def visit(port: int, room: str, name: str = "guest") -> tuple[dict[str, Any], int, dict[str, list[int]]]:
    """The map of a room and its last entry, as a new session receives them, and what `name` can undo and redo."""
    session = Session(Client(port).shake_hands(), name, room)
    undos = session.ask({"id": 2, "do": "undos"})["ok"]
    found = dict(session.rows), session.seq, undos
    session.leave()
    return found


def differing(got: Mapping[str, object], wanted: Mapping[str, object]) -> dict[str, Any]:
    """The elements in which two maps differ, some of them, with both rows."""
    names = [name for name in {**wanted, **got} if got.get(name) != wanted.get(name)]
    return {name: (got.get(name), wanted.get(name)) for name in names[:5]}
