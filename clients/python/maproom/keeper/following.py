"""Following a room, and saving each of its changes."""
from __future__ import annotations

import asyncio
import collections
import contextlib
import enum
import time
from dataclasses import dataclass
from typing import Any, Callable, Dict, List, Optional, Set, TypeVar

from .. import ConnectionFailed, Error, NoRoom, connect
from ..addresses import address_of
from ..core import Change, Element, Event, Reset, differences
from ..room import Changes, Room
from .folder import RECENT, Folder, NothingSaved, Saved, Note, is_restored, load
from .journal import Damaged, Entry, Position, encoded
from .lineage import Lineage, lineage
from .snapshots import Snapshot
from .status import Status

Result = TypeVar("Result")

# How many seconds news are collected before they are written and synchronized together.
GROUPING = 0.02

# How many seconds pass before the next attempt to connect, or to write after a failure.
PAUSE = 1.0

# Why the keeper waits if the server took its connection, and does not answer it.
NO_WORKER = "no worker is free"

# How often the keeper looks whether it is still connected, in seconds.
LOOK = 0.05


class Ending(enum.IntEnum):
    """How a keeper ended, which is also the status of its program."""

    ALL_SAVED = 0
    FAILED = 1
    OTHER_MAP = 3


class OtherMap(Exception):
    """The room does not go on with the map that was saved."""


class NotSaved(Exception):
    """The journal could not be written for too long."""


@dataclass(frozen=True)
class Plan:
    """What a keeper does: which room it follows under which name, how many seconds pass between snapshots, how many
    snapshots it keeps, and for how many seconds it tries to write. `print_saved` reports each save, and `name_header`
    is the header in which the server wants the name."""

    url: str
    room: str
    name: str = "keeper"
    every: float = 300
    snapshots: int = 12
    patience: float = 60
    print_saved: bool = False
    name_header: Optional[str] = None


class Keeper:
    """Follows a room until `stop` is called or something ends it."""

    def __init__(self, plan: Plan, folder: Folder, note: Note, report: Note) -> None:
        """`note` gets what an operator should know, and `report` each save if the plan says so."""
        self.plan, self.folder, self.note, self.report = plan, folder, note, report
        self._saved: Optional[Saved] = None
        self._pending: List[bytes] = []
        self._writing = asyncio.Lock()
        self._has_news, self._ends = asyncio.Event(), asyncio.Event()
        self._status = Status(note)
        self._entries_since_snapshot = 0
        self._failing_since: Optional[float] = None
        self._failure = ""
        self._is_busy = False

    def stop(self) -> None:
        """Has the keeper save everything and end."""
        self._ends.set()

    async def keep(self) -> Ending:
        """Follows the room. Returns how that ended."""
        try:
            with contextlib.suppress(NothingSaved):
                self._saved = load(self.folder.path, self.note)
            room = await self._connected()
            if room:
                try:
                    await self._follow(room)
                finally:
                    await room.close()
            return Ending.ALL_SAVED
        except OtherMap as fault:
            self.note(str(fault))
            return Ending.OTHER_MAP
        except (Damaged, Error, NotSaved, OSError) as fault:
            self.note(str(fault))
            return Ending.FAILED

    # ---- The session

    async def _connected(self) -> Optional[Room]:
        """The room, as soon as there is a session. None if the keeper is to end first."""
        self._status.waits(f"connecting to {address_of(self.plan.url).url}", is_noted=False)
        while not self._ends.is_set():
            room = connect(self.plan.url, room=self.plan.room, name=self.plan.name, name_header=self.plan.name_header)
            try:
                await self._opened(room)
                if room.state == "open":
                    return room
            except NoRoom:
                self._status.waits(f"{room.url} has no room {self.plan.room}")
            except ConnectionFailed as fault:
                self._status.waits(NO_WORKER if room.is_queued else str(fault))
            await self._sleep(PAUSE)
        return None

    async def _opened(self, room: Room) -> None:
        """Waits until the room is open, or the keeper is to end. Raises what `Room.open` raises."""
        opening = asyncio.ensure_future(room.open())
        try:
            while not opening.done() and not self._ends.is_set():
                await self._until_end(opening, seconds=PAUSE)
                if room.is_queued:
                    self._status.waits(NO_WORKER)
            if opening.done():
                opening.result()
        finally:
            if not opening.done():
                opening.cancel()
                await asyncio.gather(opening, return_exceptions=True)
                await room.close()

    async def _until_end(self, *tasks: asyncio.Future[None], seconds: Optional[float] = None) -> None:
        """Waits until a task is done, or the keeper is to end, or for some seconds at most."""
        ending = asyncio.ensure_future(self._ends.wait())
        waited: Set[asyncio.Future[Any]] = {*tasks, ending}
        try:
            await asyncio.wait(waited, timeout=seconds, return_when=asyncio.FIRST_COMPLETED)
        finally:
            ending.cancel()

    async def _sleep(self, seconds: float) -> None:
        """Waits for some seconds, or until the keeper is to end."""
        with contextlib.suppress(asyncio.TimeoutError):
            await asyncio.wait_for(self._ends.wait(), seconds)

    async def _follow(self, room: Room) -> None:
        """Follows the room until the keeper is to end, and saves all that came until then."""
        self.folder.session.take()
        changes = room.changes()
        self._begin(dict(room.elements), room.seq)
        await self._snapshot_at_start()
        reading = asyncio.ensure_future(self._read(room, changes))
        looking = asyncio.ensure_future(self._look(room))
        writing = asyncio.ensure_future(self._write())
        saving = asyncio.ensure_future(self._save_snapshots())
        tasks = [reading, looking, writing, saving]
        try:
            await self._until_end(*tasks)
        finally:
            self._ends.set()
            self._has_news.set()
            for task in (reading, looking):
                task.cancel()
            await asyncio.gather(*tasks, return_exceptions=True)
        for task in tasks:
            if not task.cancelled():
                task.result()
        if self._pending:
            raise NotSaved("not everything was saved")
        self.note(f"saved to {self._position()}")

    def _begin(self, elements: Dict[str, Element], seq: int) -> None:
        """Begins with the room's map. Raises OtherMap if it does not go on with what was saved."""
        if self._saved is None:
            self._saved = Saved(Position(1, seq), time.time(), elements, collections.deque(maxlen=RECENT))
            return
        last = self._saved
        rows = differences(last.elements, elements)
        if rows or seq != last.position.seq:
            self._take(Reset(seq, rows, True if seq < last.position.seq else None))
        last.elements = elements

    def _position(self) -> Position:
        """The last entry in the keeper's map."""
        assert self._saved is not None
        return self._saved.position

    async def _read(self, room: Room, changes: Changes) -> None:
        """Takes what changes."""
        async for event in changes:
            self._take(event)
            if isinstance(event, Reset):
                self._share(room)
        await room.wait_closed()
        raise ConnectionFailed("the room was closed")

    def _share(self, room: Room) -> None:
        """Drops the copies of elements that the room's mirror has too."""
        assert self._saved is not None
        for el, element in self._saved.elements.items():
            other = room.elements.get(el)
            if other == element:
                self._saved.elements[el] = other

    def _take(self, event: Event) -> None:
        """Takes an event. Raises OtherMap if the room does not go on with what was saved."""
        assert self._saved is not None
        position = Position(self._position().run, event.seq)
        if isinstance(event, Reset):
            position = self._after_gap(event)
        entry = Entry(time.time(), position, event.by if isinstance(event, Change) else None, event.rows)
        self._saved.take(entry)
        self._pending.append(encoded(entry))
        self._entries_since_snapshot += 1
        self._has_news.set()

    def _after_gap(self, event: Reset) -> Position:
        """The position of a map that was read anew. Raises OtherMap if it does not go on with what was saved."""
        assert self._saved is not None
        saved = self._saved
        is_worthless = not saved.elements and saved.position == Position(1, 0)
        found = lineage(saved, event.rows, event.seq, event.restarted, is_restored(self.folder.path, saved.position))
        if found is Lineage.OTHER_MAP and not is_worthless:
            raise OtherMap(self._refusal(event))
        if found is not Lineage.SAME_RUN:
            self.note(f"the server was started anew: {len(event.rows)} elements differ")
            return Position(saved.position.run + 1, event.seq)
        self.note(f"entries after {saved.position} were missed: {len(event.rows)} elements differ")
        return Position(saved.position.run, event.seq)

    def _refusal(self, event: Reset) -> str:
        """What an operator should know of a room that does not go on with what was saved."""
        assert self._saved is not None
        saved, path = self._saved, self.folder.path
        words = (
            f"the room is at entry {event.seq}, and does not go on with the map that was saved at "
            f"{saved.position}: {len(event.rows)} elements differ. Nothing more is saved. "
            "Start the server on the map that keep --restore prints, or keep this room in a new folder"
        )
        if lineage(saved, event.rows, event.seq, event.restarted, True) is not Lineage.OTHER_MAP:
            words += (
                ". If the server did start on that map, --restore could not note it: run keep --restore again, "
                f"as a user who can write to {path}, and start the keeper"
            )
        return words

    async def _look(self, room: Room) -> None:
        """Holds the session's lock while the keeper is connected or has unsaved news."""
        idle = 0
        while True:
            await asyncio.sleep(LOOK)
            if self._failure:
                self._status.waits(self._failure, len(self._pending))
            elif room.state != "open":
                self._status.waits(NO_WORKER if room.is_queued else f"the connection to {room.url} broke")
            elif not self._pending and not self._is_busy:
                self._status.saved(str(self._position()))
            else:
                self._status.goes_on()
            is_idle = room.state != "open" and not self._pending and not self._is_busy
            idle = idle + 1 if is_idle else 0
            if idle == 0:
                self.folder.session.take()
            elif idle == 2:  # by the second look, the reader has taken all that came before the connection ended
                self.folder.session.release()

    # ---- Saving

    async def _write(self) -> None:
        """Writes the news, until the keeper is to end and all are written."""
        while self._pending or not self._ends.is_set():
            await self._has_news.wait()
            self._has_news.clear()
            await asyncio.sleep(GROUPING)
            async with self._writing:
                is_written = await self._write_pending()
            if not is_written:
                if self._ends.is_set():
                    return
                await self._sleep(PAUSE)
                self._has_news.set()

    async def _write_pending(self) -> bool:
        """Writes the news that wait. Returns whether it could. Raises NotSaved if it could not for too long."""
        lines, self._pending = self._pending, []
        position, journal = self._position(), self.folder.journal
        if not lines:
            return True
        assert journal is not None
        self._is_busy = True
        try:
            await asyncio.to_thread(journal.append, b"".join(lines))
        except OSError as fault:
            self._pending = lines + self._pending
            self._fail(f"{journal.path}: {fault.strerror}")
            return False
        finally:
            self._is_busy = False
        self._is_written()
        if self.plan.print_saved:
            self.report(f"saved {position.run} {position.seq}")
        return True

    def _fail(self, what: str) -> None:
        """Reports that something could not be saved. Raises NotSaved if that lasts for too long."""
        now = time.monotonic()
        if self._failing_since is None:
            self._failing_since = now
        self._failure = what
        self._status.waits(what, len(self._pending))
        if now - self._failing_since > self.plan.patience:
            raise NotSaved(f"news were not saved for {self.plan.patience:g} seconds: {what}")

    def _is_written(self) -> None:
        """Notes that something was saved."""
        self._failing_since, self._failure = None, ""

    async def _snapshot_at_start(self) -> None:
        """Saves a snapshot of the map with which the keeper begins. Raises OSError or NotSaved if that fails."""
        gap, folder = b"".join(self._pending), self.folder
        if gap:
            # The gap is an entry after what was saved before, so it goes into the journal before the new snapshot.
            await self._retried(folder.begin_journal)
            assert folder.journal is not None
            await self._retried(folder.journal.append, gap)
        self._pending = []
        number = await self._retried(folder.begin_journal)
        self._entries_since_snapshot = 0
        snapshot = self._captured()
        await self._retried(folder.save, number, snapshot, self.plan.snapshots)
        self._report_snapshot(number, snapshot)
        self._status.saved(str(self._position()))
        self.note(f"keeping {self.plan.room} from {self._position()}")

    async def _retried(self, write: Callable[..., Result], *arguments: object) -> Result:
        """Writes by a call, also to a disk that is full for a while. Raises OSError if the keeper is to end first, and
        NotSaved if that lasts for too long."""
        while True:
            try:
                result = await asyncio.to_thread(write, *arguments)
                self._is_written()
                return result
            except OSError as fault:
                self._fail(f"{fault.filename or self.folder.path}: {fault.strerror}")
                await self._sleep(PAUSE)
                if self._ends.is_set():
                    raise

    async def _save_snapshots(self) -> None:
        """Saves a snapshot from time to time, if something changed."""
        while not self._ends.is_set():
            await self._sleep(self.plan.every)
            if self._entries_since_snapshot and not self._ends.is_set():
                try:
                    await self._snapshot()
                except OSError as fault:
                    self.note(f"no snapshot was saved: {fault.strerror}")

    def _captured(self) -> Snapshot:
        """The map as of now."""
        assert self._saved is not None
        return Snapshot(self._saved.position, time.time(), dict(self._saved.elements))

    async def _snapshot(self) -> None:
        """Saves a snapshot, with a new journal after it. Raises OSError."""
        async with self._writing:
            snapshot, count = self._captured(), self._entries_since_snapshot
            if not await self._write_pending():
                return
            number = self.folder.begin_journal()
            self._entries_since_snapshot -= count
        try:
            await self._save(number, snapshot)
        except OSError:
            self._entries_since_snapshot += count
            raise

    async def _save(self, number: int, snapshot: Snapshot) -> None:
        """Saves a snapshot whose journal has begun. Raises OSError."""
        await asyncio.to_thread(self.folder.save, number, snapshot, self.plan.snapshots)
        self._report_snapshot(number, snapshot)

    def _report_snapshot(self, number: int, snapshot: Snapshot) -> None:
        """Reports a saved snapshot, if the plan says so."""
        if self.plan.print_saved:
            self.report(f"snapshot {number} {snapshot.position.run} {snapshot.position.seq}")
