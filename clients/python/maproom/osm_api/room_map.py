"""The map of a room with all that the API asks of it: versions, users of an element, and bounding boxes."""
import asyncio
import contextlib
import itertools
import time
from collections import deque
from collections.abc import Callable, Collection, Iterable, Iterator, Mapping, Set
from dataclasses import dataclass
from typing import NamedTuple

from .connection import News, Welcome
from .documents import Bounds, ElementState
from .elements import Row, Rows, changed_parts, is_same, references, text_units
from .grid import Grid
from .ids import Kind, has_api_id, room_name
from .ledger import FIRST_VERSION, Known, Ledger

# Up to how many elements in all entries are remembered, for the page and to see which may be taken back.
MOST_RECENT = 200_000

# How many rows a watch keeps. An upload has at most half of this number, and others add their rows.
MOST_WATCHED = 20_000

# Within how many seconds a bridge takes an upload back, if it has to.
SETTLING_SECONDS = 2.0

# How many of its own entries the bridge knows, more than it makes in that time.
MOST_OWN = 1_000

# A name that an editor asks for and that nothing has is not given to a new element, unless its number is absurd.
MOST_AVOIDED = 10**12


@dataclass(frozen=True)
class Entry:
    """An entry, the versions that it gave to the elements that it changed, and which parts of them it changed. `moment`
    is when it came, on a clock that never goes back."""

    seq: int
    author: str
    versions: Mapping[str, int]
    parts: Mapping[str, frozenset[str]]
    time: float
    moment: float

    def may_overtake(self, other: "Entry", on_any_part: bool) -> bool:
        """Returns whether this entry, which came first, changed elements of another one whose author may not have seen
        that. If both changed the same part, the author had seen it: otherwise the room would have refused the other
        one. With `on_any_part`, that does not count."""
        both = self.parts.keys() & other.parts.keys()
        return bool(both) and (on_any_part or all(self.parts[name].isdisjoint(other.parts[name]) for name in both))


@dataclass(frozen=True)
class Step:
    """What an entry did to watched elements: their rows before it and after it."""

    entry: Entry
    before: Rows
    after: Rows


class Held(NamedTuple):
    """An element as the map has it, and what the ledger knows of it."""

    name: str
    row: Row | None
    known: Known


class Watch:
    """What entries do to some elements since an entry. `known` is the last entry up to which none was missed, and
    `shown` has the versions of these elements that editors saw meanwhile."""

    def __init__(self, names: Iterable[str], since: int) -> None:
        self.names, self.since, self.known = frozenset(names), since, since
        self.steps: list[Step] = []
        self.shown: dict[str, int] = {}
        self._count = 0

    def note_shown(self, name: str, version: int) -> None:
        """Notes that an editor sees an element."""
        if name in self.names:
            self.shown[name] = max(version, self.shown.get(name, 0))

    def begin_again(self, seq: int) -> None:
        """Forgets all, since another run of the server begins, whose entries are others."""
        self.since = self.known = seq
        self.steps.clear()
        self._count = 0

    def add(self, entry: Entry, before: Rows, after: Rows) -> None:
        """Takes an entry, with the rows of the watched elements that it changed."""
        self.known += self.known == entry.seq - 1
        if after:
            self.steps.append(Step(entry, before, after))
            self._count += len(after)
        while self._count > MOST_WATCHED and len(self.steps) > 1:
            self._count -= len(self.steps.pop(0).after)
            self.known = self.since

    def step(self, seq: int) -> Step | None:
        """Returns what an entry did, or None if it did nothing or was missed."""
        return next((step for step in self.steps if step.entry.seq == seq), None)

    def between(self, seq: int, other: int) -> list[Step] | None:
        """Returns what the entries between two others did, or None if some of them may have been missed."""
        if other <= seq + 1:
            return []
        if self.known < other - 1:
            return None
        return [step for step in self.steps if seq < step.entry.seq < other]


class RoomMap:
    """Listens to a room, and has its map as the API shows it (see `shown`)."""

    def __init__(self, ledger: Ledger, clock: Callable[[], float] = time.time) -> None:
        self.ledger, self.clock = ledger, clock
        self.elements: dict[str, Row] = {}
        self.grid = Grid()
        self.seq, self.run = -1, -1
        self.changes = 0  # how often the map changed
        self.changed_at: float | None = None  # when the last entry came, if one did
        self.recent: deque[Entry] = deque()
        self._recent_count = 0
        self._own: dict[int, bool] = {}
        self._watch: Watch | None = None
        self._users: dict[str, set[str]] = {}
        # if a killed bridge had sent an upload, its new elements come with the first welcome
        self._created = frozenset(
            name for pending in ledger.pending.values() for _, old, name, _ in pending.results if name and old < 0
        )
        self._least_avoided = 0
        self._reserved: list[range] = []
        self._waiting: list[tuple[int, asyncio.Future[None]]] = []

    # what the room says

    def on_welcome(self, welcome: Welcome) -> None:
        """Takes the whole map. Elements that differ from what the ledger knows get a new version."""
        is_other_run = welcome.run != self.run
        self.changes += 1
        if not is_other_run and welcome.seq != self.seq:
            self.changed_at = self.clock()
        if is_other_run:
            self.recent.clear()
            self._own.clear()
            self._recent_count = 0
            if self._watch:
                self._watch.begin_again(welcome.seq)
        self.elements, self._users, self.grid = {}, {}, Grid()
        for name, row in shown(welcome.elements).items():
            self._put(name, row)
        self.ledger.welcome(self.elements, self.clock(), self._created)
        self.seq, self.run = welcome.seq, welcome.run
        self._wake(is_other_run)

    def on_news(self, news: News) -> None:
        """Takes what an entry changed."""
        self.changes += 1
        rows = shown(news.rows)
        watched = {name: row for name, row in rows.items() if self._watch and name in self._watch.names}
        before = {name: self.row(name) for name in watched}
        parts = {name: changed_parts(self.row(name), row) for name, row in rows.items()}
        for name, row in rows.items():
            self._put(name, row)
        now = self.changed_at = self.clock()
        self.ledger.news(rows, news.seq, news.author, now, self._created)
        versions = {name: self.ledger.known[name].version for name in rows}
        entry = Entry(news.seq, news.author, versions, parts, now, time.monotonic())
        self._remember(entry)
        if self._watch:
            self._watch.add(entry, before, watched)
        self.seq = news.seq
        self._wake()

    def _remember(self, entry: Entry) -> None:
        """Remembers an entry, and forgets old ones."""
        self.recent.append(entry)
        self._recent_count += 1 + len(entry.versions)
        while self._recent_count > MOST_RECENT and len(self.recent) > 1:
            self._recent_count -= 1 + len(self.recent.popleft().versions)

    def expect(self, created: Iterable[str]) -> None:
        """Names the elements that an upload creates, which get version 1."""
        self._created = frozenset(created)

    def watch(self, names: Iterable[str]) -> Watch:
        """Keeps what entries do to some elements from now on, and no longer what they do to others."""
        self._watch = Watch(names, self.seq)
        return self._watch

    def unwatch(self) -> None:
        """Ends the last watch."""
        self._watch = None

    async def reached(self, seq: int) -> None:
        """Waits until an entry is in the map."""
        if self.seq < seq:
            reached: asyncio.Future[None] = asyncio.get_running_loop().create_future()
            self._waiting.append((seq, reached))
            await reached

    def _wake(self, all_of_them: bool = False) -> None:
        """Wakes those who wait for an entry that the map has now, or for any entry of a run that ended."""
        for seq, reached in self._waiting:
            if (all_of_them or seq <= self.seq) and not reached.done():
                reached.set_result(None)
        self._waiting = [(seq, reached) for seq, reached in self._waiting if not reached.done()]

    def _put(self, name: str, row: Row | None) -> None:
        """Replaces an element, in one step, because an upload may be planned meanwhile."""
        before = self.elements.get(name)
        for used in set(references(before)):
            self._users[used].discard(name)
            if not self._users[used]:
                del self._users[used]
        if row is None:
            self.elements.pop(name, None)
            self.grid.remove(name)
            return
        self.elements[name] = row
        for used in set(references(row)):
            self._users.setdefault(used, set()).add(name)
        if "lat" in row:
            self.grid.put(name, text_units(row["lat"]), text_units(row["lon"]))

    # what is asked

    def row(self, name: str) -> Row | None:
        """Returns an element, or None if it is not there."""
        return self.elements.get(name)

    def users(self, name: str) -> Collection[str]:
        """Returns the names of the elements that refer to an element."""
        return self._users.get(name, ())

    def version(self, name: str) -> int | None:
        """Returns the version of an element, also of a deleted element; None if it was never known."""
        return self.ledger.version(name)

    @property
    def first_new_number(self) -> int:
        """A number such that it and all lower numbers above -2^52 were never in a name."""
        return min(self.ledger.least_number, self._least_avoided) - 1

    @contextlib.contextmanager
    def reserved(self, count: int) -> Iterator[int]:
        """Reserves numbers of new elements for a block, since several uploads are planned at a time. Gives the first of
        them; the others are below it."""
        first = min([self.first_new_number, *(numbers.stop for numbers in self._reserved)])
        numbers = range(first, first - count, -1)
        self._reserved.append(numbers)
        try:
            yield first
        finally:
            self._reserved.remove(numbers)

    def is_same_since(self, names: Set[str], seq: int, run: int) -> bool:
        """Returns whether no entry after one of a run changed any of some elements. It is false as well if some of
        these entries may have been missed, or are forgotten."""
        later = list(itertools.takewhile(lambda entry: entry.seq > seq, reversed(self.recent)))
        is_complete = self.run == run and len(later) == self.seq - seq
        return is_complete and all(names.isdisjoint(entry.versions) for entry in later)

    def states_before(self, names: Iterable[str]) -> dict[str, Known]:
        """Returns what the ledger knows of elements, for `restore`."""
        return {name: self.ledger.known[name] for name in names if name in self.ledger.known}

    def restore(self, before: dict[str, Known], watch: Watch) -> None:
        """Gives elements the versions back that they had, if their content is the same as then, and no editor saw a
        later version while they were watched. Such an editor could otherwise overwrite what it did not see."""
        known, shown_versions = self.ledger.known, watch.shown
        self.ledger.set(
            {
                name: state
                for name, state in before.items()
                if known[name].digest == state.digest
                and known[name] != state
                and shown_versions.get(name, 0) <= state.version
            }
        )

    def state(self, name: str) -> ElementState:
        """Returns an element as editors see it.

        An element that the room never had is shown as deleted. An editor may have it from an earlier day, and would
        keep it otherwise."""
        known = self.ledger.known.get(name)
        if known is None:
            if -MOST_AVOIDED < int(name[1:]) < 0:
                self._least_avoided = min(self._least_avoided, int(name[1:]))
            now = int(self.clock())
            known = Known(self.ledger.unseen_version(now), now, 0, "", "")
        held = Held(name, self.row(name), known)
        self.note_shown([held])
        return state_of(held)

    def held(self, names: Iterable[str]) -> list[Held]:
        """Returns elements that are known, of which `state_of` makes what editors see. They are those of one moment only
        if the map does not change meanwhile."""
        elements, known = self.elements, self.ledger.known
        return [Held(name, elements.get(name), known[name]) for name in names]

    def held_within(self, bounds: Bounds) -> list[Held]:
        """Returns the elements that the API's map has for a bounding box, as `held` does."""
        return self.held(self.within(bounds))

    def note_shown(self, found: Iterable[Held]) -> None:
        """Notes that an editor sees elements."""
        if self._watch:
            for held in found:
                self._watch.note_shown(held.name, held.known.version)

    def named(self, kind: Kind, number: int) -> str | None:
        """Returns the name of an element that the API shows under an id, or None if the room never had it."""
        name = room_name(kind, number)
        return name if self.version(name) is not None else None

    def within(self, bounds: Bounds) -> set[str]:
        """Returns the elements that the API's map has for a bounding box.

        These are the box's nodes, the ways of these nodes with all their nodes, the relations that refer to any of
        these, and the relations that refer to such relations."""
        names = set(self.grid.within(bounds))
        ways = {user for name in names for user in self.users(name) if user[0] == "w"}
        names |= ways
        for way in ways:
            names.update(references(self.elements[way]))
        found = {user for name in names for user in self.users(name) if user[0] == "r"}
        found |= {user for name in found for user in self.users(name) if user[0] == "r"}
        return names | found

    def whole(self, name: str) -> set[str]:
        """Returns an element with its nodes, or its members and the nodes of those that are ways."""
        names = {name, *references(self.elements[name])}
        ways = [used for used in names if used[0] == "w"]
        return names.union(*(references(self.elements[way]) for way in ways))

    def note_own(self, seq: int, is_kept: bool = False) -> None:
        """Notes that the bridge made an entry itself, and whether nobody overtook it, so that it is not taken back."""
        self._own[seq] = is_kept
        while len(self._own) > MOST_OWN:
            del self._own[next(iter(self._own))]

    def unsettled(self, moment: float, on_any_part: bool = False) -> dict[str, Entry]:
        """Returns the entries before a moment that another bridge may still take back, by the elements that they
        changed. Of several on an element it is the last.

        Another author's entry on other parts of the same elements came shortly before such an entry, and nothing of its
        author came after it: a bridge takes an upload back before it sends the next. The bridge's own entries are
        settled, and so is what those built on that it kept. With `on_any_part`, the other author's entry may have
        changed the same part, too."""
        found: dict[str, Entry] = {}
        settled: set[str] = set()
        since, later = time.monotonic() - SETTLING_SECONDS, set()
        for entry in itertools.takewhile(lambda entry: entry.moment >= since, reversed(self.recent)):
            if entry.seq in self._own:
                settled.update(entry.versions if self._own[entry.seq] else ())
                continue
            if entry.moment < moment and entry.author not in later and self._may_be_overtaken(entry, on_any_part):
                for name in entry.versions.keys() - settled:
                    found.setdefault(name, entry)
            later.add(entry.author)
        return found

    def _may_be_overtaken(self, entry: Entry, on_any_part: bool) -> bool:
        """Returns whether another author's entry that it may not have seen came shortly before an entry."""
        since = entry.moment - SETTLING_SECONDS
        return any(
            other.seq < entry.seq and other.author != entry.author and other.may_overtake(entry, on_any_part)
            for other in itertools.takewhile(lambda other: other.moment >= since, reversed(self.recent))
        )

    async def settled(self, entry: Entry) -> None:
        """Waits until an entry cannot be taken back any more, or until its author made another one."""
        while (left := entry.moment + SETTLING_SECONDS - time.monotonic()) > 0:
            later = itertools.takewhile(lambda other: other.seq > entry.seq, reversed(self.recent))
            if any(other.author == entry.author and other.seq not in self._own for other in later):
                return
            with contextlib.suppress(asyncio.TimeoutError):
                await asyncio.wait_for(self.reached(self.seq + 1), left)

    def versions_of(self, rows: Rows) -> dict[str, int]:
        """Returns the versions of elements for an editor that has these contents."""
        return {name: self.version_for(name, is_same(self.row(name), row)) for name, row in rows.items()}

    def version_for(self, name: str, is_present: bool) -> int:
        """Returns the version of an element for an editor that has its present content, or another.

        That of another content is lower than the present version. So the editor cannot overwrite what it did not see.
        No version is lower than the first one: if it is the present one, the present one rises."""
        version = self.version(name)
        if version is None or is_present:
            return version or FIRST_VERSION
        if version == FIRST_VERSION:
            self.ledger.raise_first(name, self.clock())
            return FIRST_VERSION
        return version - 1


def state_of(held: Held) -> ElementState:
    """Returns an element as editors see it."""
    known = held.known
    return ElementState(held.name, held.row, known.version, max(known.entry, 1), known.time, known.author)


def shown(rows: Rows) -> dict[str, Row | None]:
    """Returns elements as the API shows them: without those that have no id there, and without references to these. In
    the room such a reference stays, unless an editor changes the list that has it."""
    return {name: shown_row(row) for name, row in rows.items() if has_api_id(name)}


def shown_row(row: Row | None) -> Row | None:
    """Returns an element without the references that the API cannot show."""
    if row is None or all(map(has_api_id, references(row))):
        return row
    row = row.copy()
    if "nodes" in row:
        row["nodes"] = [number for number in row["nodes"] if has_api_id(f"n{number}")]
    else:
        row["members"] = [member for member in row["members"] if has_api_id(member[0])]
    return row


def rows_are(elements: RoomMap, rows: Rows) -> bool:
    """Returns whether the elements of a map are these."""
    return all(is_same(elements.row(name), row) for name, row in rows.items())


def last_of(entries: Mapping[str, Entry], names: Iterable[str]) -> Entry | None:
    """Returns the last of the entries on some elements."""
    found = {entries[name].seq: entries[name] for name in names if name in entries}
    return found[max(found)] if found else None
