"""Takes groups back that were overtaken: another entry changed their elements after they were planned, and before the
room accepted them.

Such a group is undone. If the room refuses that, a later entry changed the same part of an element. That entry may be
a group of another bridge, which is about to be taken back itself, so the undo is tried again for a moment. If it stays
refused, the group is repaired: see `repair`."""
import asyncio
import time
from collections.abc import Callable, Iterable, Sequence
from dataclasses import dataclass

from .connection import TOO_LARGE, UNKNOWN, Accepted, Refusal, RoomConnection
from .elements import compact
from .ids import api_order
from .planner import MOST_ACTIONS, MOST_BYTES
from .repair import Repair, details, meet, plan_repair
from .room_map import RoomMap, Step, Watch, last_of

# For how many seconds a refused undo is tried again: in all, and without any news.
UNDO_SECONDS, QUIET_SECONDS = 1.0, 0.3

# How many repairs of a group are sent, counting those of repairs that were overtaken themselves.
MOST_REPAIRS = 6


@dataclass(frozen=True)
class Group:
    """A group that the room accepted: the author, the entry, the run of the server, and a watch of its elements from
    before it was sent."""

    author: str
    seq: int
    run: int
    watch: Watch


@dataclass(frozen=True)
class Left:
    """What is left of a group that was to be taken back: the elements that keep something of it, and what the room
    refused. If `is_whole`, nothing was taken back, so the group can still be undone later."""

    names: Sequence[str] = ()
    refusal: Refusal | None = None
    is_whole: bool = False


class TakingBack:
    """Takes groups back. Nothing here has a time limit of its own but the waits for news."""

    def __init__(self, room: RoomConnection, room_map: RoomMap, note: Callable[[str], None]) -> None:
        self._room, self._map, self._note = room, room_map, note

    async def seen(self, seq: int, run: int) -> None:
        """Waits until the map has an entry of a run of the server, which another session than the map's may have made.
        Ends as well if the server was restarted since."""
        while self._map.run == run and self._map.seq < seq:
            await self._room.catch_up()
            if self._map.run == run:  # another run may never have an entry of this number
                await self._map.reached(seq)

    async def take_back(self, group: Group) -> Left:
        """Takes a group back, and returns what is left of it."""
        return await self._taken_back(group, MOST_REPAIRS)

    async def _taken_back(self, group: Group, tries: int) -> Left:
        """Takes a group back with at most `tries` repairs."""
        step = group.watch.step(group.seq)
        refusal = await self._undone(group)
        if refusal is None:
            return Left()
        await self.seen(group.seq, group.run)
        if step is None and self._map.run == group.run:
            step = group.watch.step(group.seq)
        if step is None:  # its news were missed
            return Left(in_order(group.watch.names), refusal, True)
        return await self._repaired(group, step, refusal, tries)

    # undo

    async def _undone(self, group: Group) -> Refusal | None:
        """Undoes a group, or returns why the room refuses that."""
        clock, tries = asyncio.get_running_loop(), 0
        deadline = clock.time() + UNDO_SECONDS
        while self._map.run == group.run:
            answer = await self._room.undo(group.author, group.seq)
            if isinstance(answer, Accepted):
                self._map.note_own(answer.seq)
                await self.seen(answer.seq, group.run)
                return None
            if answer.why == "not_standing":  # an undo whose answer was lost, or the author's other client was quicker
                await self._room.catch_up()
                return None
            if not tries:
                why = answer.in_words(self._room.authors)
                self._note(f"the room refuses to undo entry {group.seq} of {group.author}: {why}")
            tries += 1
            if answer.why not in ("conflict", "memory") or not await self._news_come(deadline - clock.time()):
                return answer
        return Refusal(UNKNOWN)

    async def _news_come(self, seconds: float) -> bool:
        """Waits for the next news, and returns whether they came in time."""
        try:
            await asyncio.wait_for(self._map.reached(self._map.seq + 1), min(seconds, QUIET_SECONDS))
        except asyncio.TimeoutError:
            return False
        return True

    # repair

    async def _repaired(self, group: Group, step: Step, refusal: Refusal, tries: int) -> Left:
        """Repairs a group that cannot be undone. A repair that was overtaken itself is taken back, and made anew.

        A later entry on the same elements may be taken back as well, also by its mapper, and then what it covered is as
        the group left it. So the map is looked at once more when the later entries are settled."""
        is_whole, last, began = True, refusal, time.monotonic()
        while tries:
            await self._room.catch_up()
            repair, seen, run = plan_repair(step.before, step.after, self._map), self._map.seq, self._map.run
            if not repair.actions:
                later = last_of(self._map.unsettled(began, on_any_part=True), step.after)
                if later is None:
                    return Left(repair.stays, refusal, is_whole)
                await self._map.settled(later)
                continue
            tries -= 1
            sent = await self._sent(group, repair, seen)
            if isinstance(sent, Refusal):
                last = sent
                if sent.why in ("full", TOO_LARGE):
                    break
            elif sent.run != run or self._is_overtaken(sent, seen):
                left = await self._taken_back(sent, tries)
                is_whole = is_whole and left.refusal is None
            else:
                self._note(f"entry {sent.seq} repairs entry {group.seq} of {group.author}")
                is_whole = False
        repair = plan_repair(step.before, step.after, self._map)
        return Left(in_order({*repair.rows, *repair.stays}), last, is_whole)

    async def _sent(self, group: Group, repair: Repair, seen: int) -> Group | Refusal:
        """Sends a repair that was planned on the map of an entry. Returns its group, or the room's refusal."""
        if len(repair.actions) > MOST_ACTIONS or sum(len(compact(action)) for action in repair.actions) > MOST_BYTES:
            return Refusal(TOO_LARGE)
        run = self._map.run
        answer = await self._room.send_group(group.author, repair.actions, lambda message: None, seen)
        if isinstance(answer, Refusal):
            return answer
        run = run if answer.run is None else answer.run
        self._map.note_own(answer.seq)
        await self.seen(answer.seq, run)
        return Group(group.author, answer.seq, run, group.watch)

    @staticmethod
    def _is_overtaken(group: Group, seen: int) -> bool:
        """Returns whether another entry may have changed a detail of a group between the entry `seen` and the group."""
        between, own = group.watch.between(seen, group.seq), group.watch.step(group.seq)
        if between is None or own is None:
            return True
        return any(
            meet(details(step.before[name], step.after[name]), details(own.before[name], own.after[name]))
            for step in between
            for name in step.after.keys() & own.after.keys()
        )


def in_order(names: Iterable[str]) -> list[str]:
    """Returns names in the API's order."""
    return sorted(names, key=api_order)
