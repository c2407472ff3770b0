"""Following a room, and publishing its changes."""
from __future__ import annotations

import asyncio
import contextlib
import enum
import os
import time
from dataclasses import dataclass
from typing import Any, Callable, List, Optional, Set

from .. import ConnectionFailed, Error, connect
from ..core import Change, Event, Reset, Row
from ..keeper.folder import Lock, Locked
from ..room import Changes, Room
from .files import Files
from .ledger import BadLedger, Diff, Happening, Ledger

Note = Callable[[str], None]

# How many seconds pass before the next attempt to connect, or to write after a failure.
PAUSE = 1.0

# For how many seconds at most the replicator waits at its end for each of two answers of the room.
CATCH_UP = 2.0

# How often the replicator looks whether it is still connected, in seconds.
LOOK = 0.5


class Ending(enum.IntEnum):
    """How a replicator ended, which is also the status of its program."""

    ALL_PUBLISHED = 0
    FAILED = 1
    OTHER_MAP = 3


class OtherMap(Exception):
    """More than half of what was published is gone from the room."""


class NotPublished(Exception):
    """The files could not be written for too long."""


@dataclass(frozen=True)
class Plan:
    """What a replicator does: which room it follows under which name, and in which folder it publishes. A diff has what
    came within `every` seconds, or within one second if that is less. `public_url` is where followers find the folder.
    With `many_gone` it goes on if most of the map is gone. For `patience` seconds it tries to write. `name_header` is
    the header in which the server wants the name."""

    folder: str
    url: str
    room: str
    name: str = "replicator"
    every: float = 60
    public_url: str = ""
    many_gone: bool = False
    patience: float = 60
    name_header: Optional[str] = None


class Replicator:
    """Follows a room until `stop` is called or something ends it."""

    def __init__(self, plan: Plan, note: Note) -> None:
        """Opens the folder, which is made if it is missing, and completes the diff that a killed replicator had begun.

        `note` gets what an operator should know. Raises BadLedger, Locked, MissingPackage, OSError or OtherRoom."""
        self.plan, self.note = plan, note
        os.makedirs(plan.folder, exist_ok=True)
        self._lock = Lock(os.path.join(plan.folder, "lock"))
        if not self._lock.take():
            raise Locked(f"another replicator writes to {plan.folder}")
        self._ledger = Ledger(os.path.join(plan.folder, "ledger.sqlite"), plan.room)
        self._files = Files(plan.folder, self._ledger.ids, plan.public_url)
        self._files.remove_unfinished()
        self._last = self._ledger.last()
        if self._last:
            self._files.publish(self._last)
        self._unwritten: Optional[Diff] = None
        self._waiting: List[Happening] = []
        self._has_news, self._ends = asyncio.Event(), asyncio.Event()
        self._failing_since: Optional[float] = None

    def close(self) -> None:
        """Releases the folder."""
        self._ledger.close()
        self._lock.close()

    def stop(self) -> None:
        """Has the replicator publish everything and end."""
        self._ends.set()
        self._has_news.set()

    async def replicate(self) -> Ending:
        """Follows the room. Returns how that ended."""
        try:
            room = await self._connected()
            if room:
                try:
                    await self._follow(room)
                finally:
                    await room.close()
            return Ending.ALL_PUBLISHED
        except OtherMap as fault:
            self.note(str(fault))
            return Ending.OTHER_MAP
        except (BadLedger, Error, NotPublished) as fault:
            self.note(str(fault))
        except OSError as fault:
            self.note(self._words(fault))
        return Ending.FAILED

    def _words(self, fault: OSError) -> str:
        """What an operator should know of a fault of the system."""
        return f"{fault.filename or self.plan.folder}: {fault.strerror}"

    # ---- The session

    async def _connected(self) -> Optional[Room]:
        """The room, as soon as there is a session. None if the replicator is to end first."""
        is_noted = False
        while not self._ends.is_set():
            room = connect(self.plan.url, room=self.plan.room, name=self.plan.name, name_header=self.plan.name_header)
            opening = asyncio.ensure_future(room.open())
            await self._until_end(opening)
            if not opening.done():
                opening.cancel()
                await asyncio.gather(opening, return_exceptions=True)
                await room.close()
                break
            try:
                opening.result()
                return room
            except ConnectionFailed as fault:
                if not is_noted:
                    self.note(f"{fault}; trying again")
                is_noted = True
                await self._sleep(PAUSE)
        return None

    async def _until_end(self, *tasks: asyncio.Future[None]) -> None:
        """Waits until a task is done, or the replicator is to end."""
        ending = asyncio.ensure_future(self._ends.wait())
        waited: Set[asyncio.Future[Any]] = {*tasks, ending}
        try:
            await asyncio.wait(waited, return_when=asyncio.FIRST_COMPLETED)
        finally:
            ending.cancel()

    async def _sleep(self, seconds: float) -> None:
        """Waits for some seconds, or until the replicator is to end."""
        with contextlib.suppress(asyncio.TimeoutError):
            await asyncio.wait_for(self._ends.wait(), seconds)

    async def _follow(self, room: Room) -> None:
        """Follows the room until the replicator is to end, and publishes all that came until then."""
        changes = room.changes()
        await self._begin(room)
        reading = asyncio.ensure_future(self._read(room, changes))
        looking = asyncio.ensure_future(self._look(room))
        publishing = asyncio.ensure_future(self._publish_from_time_to_time())
        tasks = [reading, looking, publishing]
        try:
            await self._until_end(*tasks)
            if self._ends.is_set():
                await self._catch_up(room)
        finally:
            self.stop()
            reading.cancel()
            looking.cancel()
            await asyncio.gather(*tasks, return_exceptions=True)
        for task in tasks:
            if not task.cancelled():
                task.result()
        await self._publish_waiting()  # an event can have come after the last look
        self.note(f"published to sequence {self._published()}")

    @staticmethod
    async def _catch_up(room: Room) -> None:
        """Waits until all came that the room had when this was called. A server sends news after its answers, so those
        of the first answer are there when the second comes. Without a connection it gives up."""
        for _ in range(2):
            with contextlib.suppress(Error, asyncio.TimeoutError):
                await asyncio.wait_for(room.get("n1"), CATCH_UP)

    async def _begin(self, room: Room) -> None:
        """Publishes what differs from what was published before, and the base. Raises OtherMap."""
        elements = dict(room.elements)
        rows = await asyncio.to_thread(self._ledger.differences, elements)
        if self._last is None:
            await asyncio.to_thread(self._publish_first, rows)
        elif rows:
            self._check(rows, len(elements))
            self.note(f"{len(rows)} elements differ from sequence {self._published()}")
            self._take_rows("", rows)
            await self._publish_waiting()
        assert self._last is not None
        await asyncio.to_thread(self._files.write_base, self._ledger.versions(), self._last)
        self.note(f"replicating {self.plan.room} from sequence {self._published()}")

    def _publish_first(self, rows: List[Row]) -> None:
        """Publishes the map at the very beginning, as sequence 0."""
        now = int(time.time())
        versions, change = self._ledger.next_versions([Happening("", now, rows)] if rows else [])
        diff = Diff(0, now, b"")
        self._ledger.commit(diff, versions, change)
        self._last = diff
        self._files.publish(diff)

    def _published(self) -> int:
        """The sequence number of the last diff."""
        return self._last.sequence if self._last else 0

    async def _read(self, room: Room, changes: Changes) -> None:
        """Takes what changes. Raises OtherMap if most of what was published is gone."""
        async for event in changes:
            if isinstance(event, Reset) and event.restarted is not False:
                self._check(event.rows, len(room.elements))
            self._take(event)
        raise ConnectionFailed("the room was closed")

    def _take(self, event: Event) -> None:
        """Takes an event."""
        if isinstance(event, Change):
            self._take_rows(event.by, event.rows)
        elif event.rows:
            self._note_gap(event)
            self._take_rows("", event.rows)

    def _note_gap(self, event: Reset) -> None:
        """Notes that entries were missed, so that their authors are not known."""
        what = "the server was started anew" if event.restarted else "entries were missed"
        self.note(f"{what}: {len(event.rows)} elements differ")

    def _take_rows(self, author: str, rows: List[Row]) -> None:
        """Takes what changed at once. Times never fall, even if the clock does."""
        before = self._waiting[-1].time if self._waiting else self._last.time if self._last else 0
        self._waiting.append(Happening(author, max(before, int(time.time())), rows))
        self._has_news.set()

    def _check(self, rows: List[Row], count: int) -> None:
        """Raises OtherMap if more than half of the elements are gone. `rows` are those that differ from before, and
        `count` is how many there are now."""
        gone = sum(row.after is None for row in rows)
        before = count + gone - sum(row.before is None for row in rows)
        if 2 * gone > before and not self.plan.many_gone:
            raise OtherMap(
                f"{gone} of {before} published elements are gone from the room, which perhaps began on another map. "
                "Nothing is published. Start the server on the saved map, or take --many-gone"
            )

    async def _look(self, room: Room) -> None:
        """Notes when the connection breaks, and when it is back."""
        was_open = True
        while True:
            await asyncio.sleep(LOOK)
            is_open = room.state == "open"
            if is_open != was_open:
                self.note("connected again" if is_open else f"the connection to {room.url} broke; trying again")
            was_open = is_open

    # ---- Publishing

    async def _publish_from_time_to_time(self) -> None:
        """Publishes what came, until the replicator is to end and all is published."""
        while not self._ends.is_set():
            await self._has_news.wait()
            await self._sleep(self.plan.every)
            await self._sleep(self._seconds_to_next())
            self._has_news.clear()
            await self._publish_waiting()

    def _seconds_to_next(self) -> float:
        """How many seconds are left of the second of the last diff, but one at most, since a clock can be set back."""
        return min(1.0, max(0.0, (self._last.time if self._last else 0) + 1 - time.time()))

    def _next_time(self) -> int:
        """The time of the next diff. osmosis stops at the first of two diffs with the same time, so times rise."""
        return max(int(time.time()), (self._last.time if self._last else 0) + 1)

    async def _publish_waiting(self) -> None:
        """Publishes all that waits. Raises NotPublished if it could not for too long."""
        while self._waiting or self._unwritten:
            try:
                if self._unwritten is None:
                    await self._decide()
                if self._unwritten:
                    await asyncio.to_thread(self._files.publish, self._unwritten)
                    self._unwritten = None
            except (BadLedger, OSError) as fault:
                self._fail(str(fault) if isinstance(fault, BadLedger) else self._words(fault))
                await asyncio.sleep(PAUSE)
                continue
            if self._failing_since is not None:
                self._failing_since = None
                self.note("diffs are published again")

    async def _decide(self) -> None:
        """Decides the diff of what waits, which is written next. Raises BadLedger or OSError, and then all still waits."""
        happenings = list(self._waiting)
        diff = await asyncio.to_thread(self._decided, happenings, self._published() + 1, self._next_time())
        del self._waiting[: len(happenings)]
        if diff:
            self._last = self._unwritten = diff

    def _decided(self, happenings: List[Happening], sequence: int, when: int) -> Optional[Diff]:
        """Decides a diff, and returns it. It is None if followers would see no difference."""
        versions, change = self._ledger.next_versions(happenings)
        if not versions:
            return None
        diff = Diff(sequence, when, self._files.content(versions))
        self._ledger.commit(diff, versions, change)
        return diff

    def _fail(self, what: str) -> None:
        """Reports that nothing could be published. Raises NotPublished if that lasts for too long."""
        now = time.monotonic()
        if self._failing_since is None:
            self._failing_since = now
            self.note(f"diffs are not published: {what}")
        if now - self._failing_since > self.plan.patience:
            raise NotPublished(f"diffs were not published for {self.plan.patience:g} seconds: {what}")
