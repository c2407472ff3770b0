"""Authors of rooms who act at random with some client, and rest while a script looks at the rooms.

A kind of authors has a module of its own: library_authors.py, editor_authors.py and page_authors.py.
"""
from __future__ import annotations

import collections
import random
import threading
import time
import traceback
from collections.abc import Mapping, Sequence
from typing import Any, Protocol

from .cases import check, given, place_in, report
from .journals import SOON, Journal, Run
from .mappers import Mapper
from .programs import wait_for

# How long an author sleeps at a time, in seconds, so that it soon sees that it has to rest.
NAP = 0.1

# How many entries a failure names.
MOST_NAMED = 10


class Villager(Mapper):
    """A mapper of docs/hamlet.osm."""

    def degrees(self, most: int) -> str:
        """A coordinate in the hamlet."""
        middle, wide = (40, 50_000) if most == 90 else (-30, 60_000)
        return f"{middle + self.chance.randint(-wide, wide) / 10 ** 7:.7f}"


class Stage:
    """Where authors act, or rest. The first failure ends all."""

    def __init__(self) -> None:
        self.lock, self.is_paused, self.is_over = threading.Lock(), True, threading.Event()

    def may_act(self, author: Author) -> bool:
        """Whether an author may begin another step. Otherwise the author rests."""
        with self.lock:
            author.rests = self.is_paused or self.is_over.is_set()
            return not author.rests

    def pause(self, authors: Sequence[Author]) -> None:
        """Waits until all of some authors rest."""
        with self.lock:
            self.is_paused = True

        def are_at_rest() -> bool:
            return all(author.rests for author in authors) or self.is_over.is_set()

        def awake() -> str:
            return f"no rest of {[f'{author.title}, after {author.last}' for author in authors if not author.rests]}"[
                :2000
            ]

        wait_for(awake, are_at_rest)

    def go_on(self) -> None:
        """Lets all authors act."""
        with self.lock:
            self.is_paused = False

    def end(self) -> None:
        """Has all authors rest for good."""
        self.is_over.set()

    def fail(self, title: str, last: object, fault: BaseException) -> None:
        """Reports the fault of an author, of which the first ends all."""
        with self.lock:
            if not self.is_over.is_set():
                self.is_over.set()
                place, text = place_in(traceback.extract_tb(fault.__traceback__)), str(fault)[:3000]
                report.fail(title, place, f"after {last}", f"{type(fault).__name__}: {text}")


class Record:
    """What the client of an author reported of the author's changes: the entry of each accepted change, and the changes
    of which nobody knows, each with the times at which it was sent and answered. `since` has the number that a change
    gave, by its entry and these times."""

    def __init__(self) -> None:
        self.accepted: list[tuple[int, float, float]] = []
        self.unknown: list[tuple[float, float]] = []
        self.since: dict[tuple[int, float, float], int] = {}

    def accept(self, seq: int, asked: float, answered: float | None = None, since: int | None = None) -> None:
        """Notes an accepted change."""
        self.accepted.append((seq, asked, answered or time.time()))
        if since is not None:
            self.since[self.accepted[-1]] = since

    def lose(self, asked: float, answered: float | None = None) -> None:
        """Notes a change of which nobody knows."""
        self.unknown.append((asked, answered or time.time()))

    def entries(self, run: Run, journal: Journal) -> dict[int, float]:
        """The entries that are of this run for sure, with the times of their answers."""
        return {seq: answered for seq, asked, answered in self.accepted if journal.run_of(asked, answered) is run}

    def guarded(self, run: Run, journal: Journal) -> dict[int, int]:
        """The numbers that changes gave whose entries are of this run for sure, by their entries."""
        return {
            seq: since
            for (seq, asked, answered), since in self.since.items()
            if journal.run_of(asked, answered) is run and seq <= run.entry_count
        }

    def unsure(self, run: Run, journal: Journal) -> int:
        """How many changes may be of this run."""
        times = [(asked, answered) for _, asked, answered in self.accepted if journal.run_of(asked, answered) is None]
        times += self.unknown
        return sum(asked <= run.gone and answered >= run.began - SOON for asked, answered in times)


class AuthorsRoom(Protocol):
    """The room of some authors, as the script has it."""

    name: str
    journal: Journal


class Author:
    """An author of a room. A kind of authors adds the steps."""

    kind = ""

    def __init__(self, stage: Stage, room: AuthorsRoom, place: int, count: int) -> None:
        """One of `count` authors, with a place among them."""
        self.stage, self.room, self.name = stage, room, self.name_of(place)
        self.title = f"{room.name}: {self.kind} {self.name}"
        self.chance = random.Random(f"{given.seed} {room.name} {place}")
        self.mapper, self.record = Villager(self.chance, place, count), Record()
        # Whether the author rests, what was done last, and how often each kind of step was made.
        self.rests = False
        self.last: object = "nothing"
        self.steps: collections.Counter[str] = collections.Counter()
        # The run and the number of each entry that was compared with what the author had seen.
        self.compared: set[tuple[int, int]] = set()
        # The time of the next step.
        self.next = 0.0

    @classmethod
    def name_of(cls, place: int) -> str:
        """The name of the author of this kind at a place."""
        return f"{cls.kind}_{place}"

    def is_time(self) -> bool:
        """Whether it is time for the next step. Then it chooses the time of the step after it."""
        if time.monotonic() < self.next:
            return False
        self.next = time.monotonic() + self.chance.expovariate(given.pace)
        return True

    def check(self, what: str, got: object, wanted: object) -> bool:
        """Checks something of this author."""
        return check(f"{self.title}: {what}", got, wanted)

    def fail(self, fault: BaseException) -> None:
        """Reports a fault of this author."""
        self.stage.fail(self.title, self.last, fault)

    def accepted(self, run: Run) -> dict[int, float]:
        """The entries of a run that the client acknowledged, with the times of the replies."""
        return self.record.entries(run, self.room.journal)

    def check_record(self, run: Run, _: Mapping[str, Any] | None) -> None:
        """Checks that the entries of this author are those that the client reported, each once."""
        known, unsure = self.accepted(run), self.record.unsure(run, self.room.journal)
        own = run.entries_of(self.name)
        missing = [seq for seq in known if seq not in own and seq <= run.entry_count]
        self.check(f"accepted entries of run {run.number} that are not in the room", sorted(missing)[:MOST_NAMED], [])
        more = sorted(own - set(known))
        what = f"entries of run {run.number} that the client did not report, besides {unsure} of which it does not know"
        self.check(what, more[:MOST_NAMED] if len(more) > unsure else [], [])
        self.check_guarded(run)

    def check_guarded(self, run: Run) -> None:
        """Checks that no accepted change overwrote what its author had not seen."""
        guarded = self.record.guarded(run, self.room.journal)
        found = [(seq, since, run.overwritten(seq, since)) for seq, since in guarded.items()]
        overwritten = [each for each in found if each[2]]
        self.check(f"parts in run {run.number} that were overwritten unseen", overwritten[:MOST_NAMED], [])
        self.compared |= {(run.number, seq) for seq in guarded}

    def lost(self, run: Run) -> dict[int, float]:
        """The entries of a killed run that were acknowledged and not saved, each with the seconds from the reply to the
        kill."""
        return {seq: run.ended - answered for seq, answered in self.accepted(run).items() if seq > (run.saved or 0)}


class ThreadedAuthor(Author):
    """An author with a thread."""

    def __init__(self, stage: Stage, room: AuthorsRoom, place: int, count: int) -> None:
        super().__init__(stage, room, place, count)
        self.thread = threading.Thread(target=self.live, daemon=True)

    def live(self) -> None:
        """Acts until all is over."""
        try:
            while not self.stage.is_over.is_set():
                if self.stage.may_act(self) and self.is_time():
                    self.step()
                else:
                    time.sleep(NAP / 2)
        except Exception as fault:  # whatever goes wrong fails the run
            self.fail(fault)
        finally:
            self.rests = True

    def step(self) -> None:
        """Makes a step."""
        raise NotImplementedError
