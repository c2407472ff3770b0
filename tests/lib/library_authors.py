"""Authors who use the library clients/python/maproom, all in one thread."""
from __future__ import annotations

import asyncio
import concurrent.futures
import threading
import time
from collections.abc import Awaitable, Callable, Collection, Coroutine, Mapping, Sequence
from decimal import Decimal
from typing import Any, Protocol, TypeVar, cast

import maproom
from maproom.core import QUERIES, Change, Message, Reset
from maproom.room import Changes

from .answers import ACTIONS, Undos
from .authors import NAP, Author, AuthorsRoom, Stage
from .cases import given
from .editor_rooms import Way
from .journals import Run, differing
from .mappers import one_of
from .programs import PATIENCE
from .websocket import Broken

Result = TypeVar("Result")

# The weight of each kind of step.
STEPS = {
    "edit": 600,
    "group": 120,
    "burst": 60,
    "undo": 80,
    "undo_one": 40,
    "redo": 60,
    "get": 30,
    "look_at_undos": 20,
    "look_at_map": 10,
    "go_away": 6,
}

# How many of the last entries an author chooses from for an undo.
RECENT = 20

# How many seconds an author is away at most, and how long the room may still do changes of which nobody knows.
AWAY, LATER = 3, 3

# The reasons for which a redo or an undo may be refused.
OF_REDO = {"nothing_to_redo"}.union(*ACTIONS.values())
OF_UNDO = {"conflict", "no_such", "not_yours", "not_standing", "nothing_to_undo"}

# How often an edit says what its author had seen, and how many entries ago that was at most.
GUARDED, OLD = 0.8, 200

# How a change ends of which nobody knows whether it was done.
UNKNOWN = (maproom.Unknown, maproom.NoAnswer, maproom.Closed)


class RecordedRoom(maproom.Room):
    """A room whose author records each change."""

    def __init__(self, author: LibraryAuthor, url: str) -> None:
        super().__init__(url, author.room.name, author.name)
        self.author = author
        self.on_event(author.take_event)

    async def ask(
        self, message: Message, *, number: int | None = None, announce: Callable[[int], None] = lambda number: None
    ) -> dict[str, Any]:
        """Sends a message, and records the outcome of a change."""
        if message["do"] in QUERIES:
            return await super().ask(message, number=number, announce=announce)
        asked, run = time.time(), self.author.run
        try:
            answer = await super().ask(message, number=number, announce=announce)
        except UNKNOWN:
            self.author.lose(asked)
            raise
        self.author.accept(message, answer, asked, run)
        return answer


class WayToRoom(AuthorsRoom, Protocol):
    """The room of these authors, with the way to its server."""

    way: Way


class LibraryAuthor(Author):
    """An author who uses the library."""

    kind = "library"
    client: RecordedRoom
    copying: asyncio.Task[None]

    def __init__(self, stage: Stage, room: WayToRoom, place: int, count: int) -> None:
        super().__init__(stage, room, place, count)
        self.address = room.way
        self.run = room.journal.last
        self.fault: Exception | None = None
        # What the author can undo and redo, or None after a change of which nobody knows, until a time.
        self.undos: Undos | None = Undos()
        self.unknown_until = 0.0
        # The run of the server that accepted the last changes, and the greatest number of their entries.
        self.last_reported: tuple[Run | None, int] = None, 0
        # A copy of the map that follows the changes, the task that keeps it, and the number of its last entry.
        self.copy: dict[str, Any] = {}
        self.copied = 0
        self.resets = 0

    # Coming, acting and leaving.

    async def live(self) -> None:
        """Acts until all is over."""
        try:
            await self.come()
            while not self.stage.is_over.is_set():
                if self.fault:
                    raise self.fault
                if self.stage.may_act(self) and self.is_time():
                    await self.step()
                else:
                    await asyncio.sleep(NAP / 2)
        except Exception as fault:  # whatever goes wrong fails the run
            self.fail(fault)
        finally:
            self.rests = True

    async def come(self) -> None:
        """Opens the room, and tries again while its server is not there."""
        deadline, before = time.monotonic() + PATIENCE * given.slow, self.run
        while True:
            self.run, client = self.room.journal.last, RecordedRoom(self, self.address.url)
            try:
                await client.open()
                if self.run is self.room.journal.last:
                    break
                await client.close()
            except maproom.ConnectionFailed:
                if time.monotonic() > deadline:
                    raise
            await asyncio.sleep(NAP)
        if self.run is not before:
            self.undos = Undos()
        self.client, self.copy, self.copied = client, dict(client.elements), client.seq
        self.copying = asyncio.create_task(self.keep_copy(client.changes()))

    async def leave(self) -> None:
        """Leaves the room."""
        await self.client.close()
        await self.copying

    async def go_away(self) -> None:
        """Leaves, and comes back."""
        await self.leave()
        await asyncio.sleep(self.chance.random() * AWAY)
        await self.come()

    # What the library reports.

    def accept(self, message: Message, answer: dict[str, int], asked: float, run: Run) -> None:
        """Notes a change that was sent in a run and accepted."""
        self.record.accept(answer["seq"], asked, since=message.get("since"))
        if run is not self.run or self.is_late(answer["seq"], run):
            self.forget_undos()
        if self.undos is None:
            return
        wanted = self.undos.outcome(message, answer["seq"])
        if wanted is None or answer not in (wanted, {"seq": answer["seq"]}):
            raise Broken(f"{message} is answered {answer}, and can be answered {wanted}")
        self.undos.take(message, wanted)

    def is_late(self, seq: int, run: Run) -> bool:
        """Whether a later entry of the same run was reported before this one. If the replies to two changes are lost,
        and the first was refused, it may be accepted when it is sent again, after the second."""
        last, greatest = self.last_reported
        self.last_reported = run, max(seq, greatest if run is last else 0)
        return run is last and seq < greatest

    def lose(self, asked: float) -> None:
        """Notes a change of which nobody knows."""
        self.record.lose(asked)
        self.forget_undos()

    def forget_undos(self) -> None:
        """Notes that nobody knows what can be undone, until the lost messages are done."""
        self.undos, self.unknown_until = None, time.monotonic() + LATER

    def take_event(self, event: Change | Reset) -> None:
        """Takes an event of the library."""
        try:
            if isinstance(event, maproom.Change):
                rows = {row.el: row.after for row in event.rows}
                self.run.take(f"{self.title}, by its library,", event.seq, event.by, rows)
                return
            self.resets += 1
            if event.restarted is not False and self.run is not self.room.journal.last:
                self.run, self.undos = self.room.journal.last, Undos()
        except Exception as fault:  # whatever goes wrong fails the run
            self.fault = fault

    async def keep_copy(self, changes: Changes) -> None:
        """Keeps a copy of the map, as docs/CLIENT.md does it."""
        try:
            async for event in changes:
                for el, before, after in event.rows:
                    if self.copy.get(el) != before:
                        raise Broken(f"{event} comes to {self.copy.get(el)}")
                    self.copy.pop(el, None)
                    if after:
                        self.copy[el] = after
                self.copied = event.seq
        except Exception as fault:  # whatever goes wrong fails the run
            self.fault = fault

    # Steps.

    async def step(self) -> None:
        """Makes a random step."""
        if self.undos is None and time.monotonic() > self.unknown_until:
            await self.learn_undos()
        word = one_of(self.chance, STEPS)
        self.last = word
        self.steps[word] += 1
        try:
            await getattr(self, word)()
        except (*UNKNOWN, maproom.NotSent):
            self.steps["unknown or not sent"] += 1

    async def learn_undos(self) -> None:
        """Asks what can be undone and redone."""
        found = await self.client.undos()
        self.undos = Undos()
        self.undos.active = dict.fromkeys(found.undos, "group")
        self.undos.undone = dict.fromkeys(found.redo, "group")

    async def may_refuse(self, whys: Collection[str], asked: Awaitable[object], since: int | None = None) -> None:
        """Waits for a reply, which may be a refusal for some reasons. After a number `since` it may also be that another
        author changed the same after that entry."""
        try:
            await asked
        except maproom.Changed as refusal:
            self.steps["refused as changed"] += 1
            if since is None or refusal.entry <= since or refusal.author == self.name:
                raise
        except maproom.Refused as refusal:
            self.steps["refused"] += 1
            if refusal.why not in whys:
                raise

    def seen(self) -> int | None:
        """The number of the map that the author sees now, or of an earlier one, as if the author had thought it over.
        Sometimes the author does not say."""
        age = self.chance.choice((0, 0, self.chance.randint(1, OLD)))
        return max(0, self.client.seq - age) if self.chance.random() < GUARDED else None

    async def edit(self) -> None:
        """Makes an edit of any kind."""
        message, since = self.mapper.edit(dict(self.client.elements)), self.seen()
        self.last = message, since
        await self.may_refuse(ACTIONS[message["do"]], self.called(message, since), since)

    async def burst(self) -> None:
        """Makes several edits at once."""
        messages = [self.mapper.edit(dict(self.client.elements)) for _ in range(self.chance.randint(2, 5))]
        since = self.seen()
        self.last = messages, since
        edits = (self.may_refuse(ACTIONS[each["do"]], self.called(each, since), since) for each in messages)
        outcomes = await asyncio.gather(*edits, return_exceptions=True)
        for outcome in outcomes:
            if isinstance(outcome, BaseException):
                raise outcome

    async def group(self) -> None:
        """Makes several edits as one entry: a way with its nodes, or any others."""
        if self.chance.random() < 0.5:
            messages = [self.mapper.edit(dict(self.client.elements)) for _ in range(self.chance.randint(1, 5))]
        else:
            messages = self.path()
        since = self.seen()
        self.last = messages, since
        whys = {"nothing"}.union(*(ACTIONS[message["do"]] for message in messages))
        await self.may_refuse(whys, self.client.group(messages, since=since), since)

    def path(self) -> list[dict[str, Any]]:
        """Actions that draw a way with its nodes."""
        client, make = self.client, maproom.actions
        nodes = [client.new_name("n") for _ in range(self.chance.randint(2, 5))]
        made = [make.create_node(name, self.mapper.degrees(90), self.mapper.degrees(180)) for name in nodes]
        return [*made, make.create_way(client.new_name("w"), nodes, cast("dict[str, str]", self.mapper.tags()))]

    async def undo(self) -> None:
        """Undoes the last entry."""
        await self.may_refuse(OF_UNDO, self.client.undo())

    async def undo_one(self) -> None:
        """Undoes a chosen entry, mostly an own one."""
        own = [*self.undos.active][-RECENT:] + [*self.undos.undone] if self.undos else []
        seq = self.chance.choice([*own, self.chance.randint(1, self.client.seq + 1)])
        self.last = f"undo of {seq}"
        await self.may_refuse(OF_UNDO, self.client.undo(seq))

    async def redo(self) -> None:
        """Redoes what was undone last."""
        await self.may_refuse(OF_REDO, self.client.redo())

    async def get(self) -> None:
        """Asks for an element. The mirror has the same, or more news come."""
        el, seq, run = self.chance.choice([*self.client.elements, "n9000000000"]), self.client.seq, self.run
        try:
            found = await self.client.get(el)
        except maproom.Absent:
            found = None
        deadline = time.monotonic() + PATIENCE * given.slow
        while (seq, run) == (self.client.seq, self.run) and found != self.client.elements.get(el):
            if time.monotonic() > deadline:
                raise Broken(f"{el} is {found}, and the mirror has {self.client.elements.get(el)} at entry {seq}")
            await asyncio.sleep(NAP)

    async def look_at_undos(self) -> None:
        """Asks what can be undone and redone, which has to be what the replies say."""
        found, undos = await self.client.undos(), self.undos
        if undos and undos.lists() != found._asdict():
            raise Broken(f"the lists of undos are {found}, and {undos.lists()} by the replies")

    async def look_at_map(self) -> None:
        """Asks for the map."""
        run = self.run
        rows, seq = await self.client.map()
        if (seq, run) == (self.client.seq, self.run) and {row["el"]: row for row in rows} != self.client.elements:
            raise Broken(f"the map at entry {seq} is not that of the mirror")

    async def called(self, message: Mapping[str, Any], since: int | None) -> None:
        """Makes an edit by the method that the library has for it. It mostly chooses the names of new elements."""
        client, word, rest = self.client, message["do"], {key: message[key] for key in message if key != "do"}
        el: str = rest.get("el", "")
        chosen: dict[str, Any] = {} if self.chance.random() < 0.8 else {"el": el}
        into: dict[str, Any] = {} if self.chance.random() < 0.8 else {"into": rest.get("into", "")}
        degrees: Callable[[str], Decimal] = lambda key: Decimal(rest[key]).scaleb(-7)
        create: dict[str, Callable[[], Awaitable[object]]] = {
            "n": lambda: client.create_node(rest["lat"], rest["lon"], rest["tags"], since=since, **chosen),
            "w": lambda: client.create_way(rest["nodes"], rest["tags"], since=since, **chosen),
            "r": lambda: client.create_relation(rest["members"], rest["tags"], since=since, **chosen),
        }
        calls: dict[str, Callable[[], Awaitable[object]]] = {
            "create": lambda: create[el[0]](),
            "retag": lambda: client.retag(el, rest["tags"], since=since),
            "move": lambda: client.move(rest["els"], degrees("dlat"), degrees("dlon"), since=since),
            "reverse": lambda: client.reverse(el, since=since),
            "nodes": lambda: client.set_nodes(el, rest["nodes"], since=since),
            "members": lambda: client.set_members(el, rest["members"], since=since),
            "delete": lambda: client.delete(el, since=since),
            "purge": lambda: client.purge(el, since=since),
            "split": lambda: client.split(el, rest["at"], since=since, **into),
            "join": lambda: client.join(el, rest["with"], since=since),
            "merge": lambda: client.merge(el, rest["with"], since=since),
            "unglue": lambda: client.unglue(el, rest["at"], since=since, **into),
        }
        await calls[word]()

    # Looks.

    async def look(self, rows: dict[str, Any], seq: int, undos: dict[str, list[int]]) -> None:
        """Checks, while all authors rest, that the library knows the room's map at an entry, and what this author can
        undo and redo. `undos` are these lists as another session receives them. The library may just be asking
        whether the server is there."""
        deadline, wanted = time.monotonic() + PATIENCE * given.slow, ("open", seq, seq, 0)

        def found() -> tuple[str, int, int, int]:
            return self.client.state, self.client.seq, self.copied, self.client.pending

        while found() != wanted and not self.fault and time.monotonic() < deadline:
            await asyncio.sleep(0.01)
        if self.fault:
            raise self.fault
        self.check("the library's state, last entry, that of a copy, and messages", found(), wanted)
        self.check("the library's map, and the wanted one", differing(self.client.elements, rows), {})
        self.check("a copy by the library's events, and the wanted one", differing(self.copy, rows), {})
        if self.undos is not None:
            self.check("what can be undone and redone", self.undos.lists(), undos)


class Loop:
    """A thread in which coroutines run."""

    def __init__(self) -> None:
        self.loop = asyncio.new_event_loop()
        self.thread = threading.Thread(target=self.loop.run_forever, daemon=True)
        self.lives: list[concurrent.futures.Future[None]] = []

    def __enter__(self) -> Loop:
        self.thread.start()
        return self

    def __exit__(self, *_: object) -> None:
        self.loop.set_exception_handler(lambda *_: None)  # what is cancelled may leave connections open
        self.do(self.cancel_all())
        self.loop.call_soon_threadsafe(self.loop.stop)
        self.thread.join()

    @staticmethod
    async def cancel_all() -> None:
        """Cancels all coroutines."""
        tasks = asyncio.all_tasks() - {asyncio.current_task()}
        for task in tasks:
            task.cancel()
        await asyncio.gather(*tasks, return_exceptions=True)

    def start(self, authors: Sequence[LibraryAuthor]) -> None:
        """Has authors live."""
        self.lives = [asyncio.run_coroutine_threadsafe(author.live(), self.loop) for author in authors]

    def do(self, coroutine: Coroutine[Any, Any, Result]) -> Result:
        """The result of a coroutine."""
        return asyncio.run_coroutine_threadsafe(coroutine, self.loop).result(PATIENCE * 2 * given.slow)

    def wait(self) -> None:
        """Waits until all lives are over."""
        for life in self.lives:
            life.result(PATIENCE * 2 * given.slow)
