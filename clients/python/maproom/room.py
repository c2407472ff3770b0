"""A room over a WebSocket: `connect` and the class `Room`."""
from __future__ import annotations

import asyncio
import collections
import sys
import time
import types
import weakref
from typing import Any, AsyncIterator, Callable, ClassVar, Deque, Dict, Iterable, List, Mapping, NamedTuple, Optional
from typing import TYPE_CHECKING, Tuple, Type, Union

from . import actions
from .actions import Degrees, Members, Tags
from .addresses import address_of
from .core import Answer, Core, Element, Event, HelloRefused, Message, OutOfStep, folded
from .errors import Closed, Conflict, ConnectionFailed, Error, NoAnswer, NotStanding, Present, error_of

if TYPE_CHECKING:
    from .sockets import Socket

# How many seconds pass before the next attempt to connect: at first, and at most.
SOON, LATE = 0.1, 5.0

# How many messages are on their way at once, and how many events wait for a reader before they become one Reset.
WINDOW, MOST_EVENTS = 256, 10_000

# How many names are tried for a new element.
TRIES = 100


class Undone(NamedTuple):
    """An undo: its own entry, and the entry that it undid. That is None if the answer was lost on its way."""

    seq: int
    undid: Optional[int]


class Redone(NamedTuple):
    """A redo: its own entry, and the entry that it did again. That is None if the answer was lost on its way."""

    seq: int
    redid: Optional[int]


class Undos(NamedTuple):
    """The entries that the author can undo, in rising order, and those that can be redone, the next one last."""

    undos: List[int]
    redo: List[int]


def connect(
    url: str,
    *,
    room: str,
    name: str,
    open_timeout: Optional[float] = 10,
    timeout: Optional[float] = 60,
    heartbeat: float = 15,
    name_header: Optional[str] = None,
) -> Room:
    """A room, for `async with`. `url` is the server's address, such as "ws://127.0.0.1:9001".

    The block begins when the welcome has come, within `open_timeout` seconds. Each message then waits for its answer
    for `timeout` seconds at most. None means no limit. A connection on which nothing came for `heartbeat` seconds is
    given up, and made anew.

    A program that reaches the server without a proxy gives its name by `name_header`, if the server has this option.
    A proxy sets the header itself, and refuses a handshake that has it.
    """
    return Room(
        url,
        room,
        name,
        open_timeout=open_timeout,
        timeout=timeout,
        heartbeat=heartbeat,
        name_header=name_header,
    )


class Room:
    """A room on a server. Its mirror `elements` follows the news; docs/CLIENT.md has a program that uses it."""

    core_class: ClassVar[Type[Core]] = Core

    def __init__(
        self,
        url: str,
        room: str,
        name: str,
        *,
        open_timeout: Optional[float] = 10,
        timeout: Optional[float] = 60,
        heartbeat: float = 15,
        name_header: Optional[str] = None,
    ) -> None:
        self.url, self.room, self.name = address_of(url).url, room, name
        self._address, self._headers = url, {name_header: name} if name_header else None
        self.open_timeout, self.timeout, self.heartbeat = open_timeout, timeout, heartbeat
        self.state = "closed"
        self._is_queued = False
        # Ids are spent for the life of the room, so each run of a program begins above those of earlier runs.
        self._core = self.core_class(room, name, first_id=time.time_ns() // 1000, window=WINDOW)
        self._elements = types.MappingProxyType(self._core.elements)
        self._outbox: Deque[str] = collections.deque()
        self._has_texts = asyncio.Event()
        self._feeds: weakref.WeakSet[Changes] = weakref.WeakSet()
        self._callbacks: List[Callable[[Event], None]] = []
        self._talking: Optional[asyncio.Task[None]] = None
        self._is_there: Optional[asyncio.Future[None]] = None
        self._error: Optional[BaseException] = None
        self._heard, self._texts = 0.0, 0

    # ---- The session

    async def __aenter__(self) -> Room:
        await self.open()
        return self

    async def __aexit__(
        self, kind: Optional[Type[BaseException]], fault: Optional[BaseException], trace: Optional[types.TracebackType]
    ) -> None:
        await self.close()

    async def open(self) -> None:
        """Connects, and returns when the welcome has come.

        Raises ConnectionFailed if no session began in time, and a Refused, such as NoRoom, if the room refused the
        hello.
        """
        if self._talking:
            raise Error("a room is opened once")
        self._is_there = asyncio.get_running_loop().create_future()
        self.state, self._talking = "connecting", asyncio.create_task(self._talk())
        try:
            await asyncio.wait_for(asyncio.shield(self._is_there), self.open_timeout)
        except asyncio.TimeoutError as fault:
            await self.close()
            raise ConnectionFailed(f"{self.url} did not answer within {self.open_timeout:g} seconds") from fault
        except BaseException:
            await self.close()
            raise

    async def close(self) -> None:
        """Leaves the room. Each message that has no answer raises Closed."""
        is_first = self.state != "closed"
        self._end(None)
        if self._talking and not self._talking.done():
            if is_first:  # a second cancellation would end the task before its connection is closed
                self._talking.cancel()
            await asyncio.wait({self._talking})

    async def wait_closed(self) -> None:
        """Returns when the room is closed. Raises the error that ended it, if one did, such as NoRoom."""
        if self._talking:
            await asyncio.wait({self._talking})
        if self._error:
            raise self._error

    def _end(self, error: Optional[BaseException]) -> None:
        """Ends everything, perhaps for an error that ends the room for good."""
        if self.state == "closed":
            return
        self.state, self._error = "closed", error
        if self._is_there and not self._is_there.done():
            if error:
                self._is_there.set_exception(error)
            else:
                self._is_there.cancel()
        self._core.close({"why": "closed"})
        for feed in set(self._feeds):
            feed.wake()

    async def _talk(self) -> None:
        """Holds one session after another, until an error ends the room for good."""
        pause = SOON
        try:
            # Until Python 3.12, `asyncio.wait_for` loses a cancellation that comes when its result does. So the end
            # of the room shows in its state, too.
            while self.state != "closed":
                if await self._hold_session():
                    pause = SOON
                if self.state != "closed":
                    self.state = "connecting"
                    await asyncio.sleep(pause)
                    pause = min(2 * pause, LATE)
        except asyncio.CancelledError:
            raise
        except BaseException as error:  # pylint: disable=broad-except
            self._end(error)

    async def _hold_session(self) -> bool:
        """Holds a session until it ends. Returns whether it did more than begin. The first one has to begin."""
        assert self._is_there is not None
        sockets = socket_module()
        try:
            limit = None if not self._is_there.done() else self.open_timeout or 60
            self._is_queued = False
            socket = await asyncio.wait_for(sockets.Socket.open(self._address, self._headers, self._queued), limit)
            self._is_queued = False
        except (ValueError, *sockets.FAULTS) as fault:
            self._is_queued = self._is_queued and isinstance(fault, asyncio.TimeoutError)
            if not self._is_there.done():
                raise ConnectionFailed(f"no connection to {self.url}: {str(fault) or type(fault).__name__}") from fault
            return False
        if self.state == "closed":
            await socket.close()
            return False
        self._heard, self._texts = time.monotonic(), 0
        self._outbox.clear()
        self._send(self._core.begin())
        tasks = [asyncio.ensure_future(part(socket)) for part in (self._read, self._write, self._watch)]
        try:
            await asyncio.wait(tasks, return_when=asyncio.FIRST_COMPLETED)
            for task in tasks:
                if task.done():
                    task.result()
        except (OutOfStep, *sockets.FAULTS):
            pass
        except HelloRefused as refusal:
            if not self._is_there.done() or refusal.no["why"] != "memory":
                raise error_of(refusal.no) from None
        finally:
            self._core.end()
            for task in tasks:
                task.cancel()
            await asyncio.gather(*tasks, return_exceptions=True)
            await socket.close()
        if not self._is_there.done():
            raise ConnectionFailed(f"{self.url} ended the connection before it sent the map")
        return self._texts > 2

    def _queued(self) -> None:
        """Notes that the server took the connection, and has not answered it."""
        self._is_queued = True

    async def _read(self, socket: Socket) -> None:
        """Takes what comes."""
        async for text in socket.texts():
            self._heard = time.monotonic()
            self._texts += 1
            self._send(self._core.take(text))
            self._report()
            if self.state == "connecting" and self._core.is_here():
                self.state = "open"
                if self._is_there and not self._is_there.done():
                    self._is_there.set_result(None)

    async def _write(self, socket: Socket) -> None:
        """Sends what goes out, as fast as the other side reads."""
        while True:
            await self._has_texts.wait()
            self._has_texts.clear()
            while self._outbox:
                await socket.send(self._outbox.popleft())

    async def _watch(self, socket: Socket) -> None:
        """Asks something small when nothing came for a while, and ends when nothing comes for long."""
        while True:
            await asyncio.sleep(min(1.0, self.heartbeat / 10))
            silence = time.monotonic() - self._heard
            by_system = socket.silence() if silence > self.heartbeat else None
            if silence > self.heartbeat and (by_system is None or by_system > self.heartbeat):
                return
            if silence > self.heartbeat / 3:
                self._send(self._core.probe())

    def _send(self, texts: List[str]) -> None:
        """Has some texts go out."""
        if texts:
            self._outbox.extend(texts)
            self._has_texts.set()

    def _report(self) -> None:
        """Hands the events to those who read them."""
        if self._core.events:
            events, self._core.events = self._core.events, []
            for event in events:
                for callback in self._callbacks:
                    callback(event)
            for feed in set(self._feeds):
                feed.add(events)

    # ---- The map and its changes

    @property
    def elements(self) -> Mapping[str, Element]:
        """The map as of now, by the elements' names: for example {"n-1": {"el": "n-1", "lat": "51.5000000", ..}}."""
        return self._elements

    @property
    def seq(self) -> int:
        """The number of the last entry in `elements`: what you see now, for `since`."""
        return self._core.seq or 0

    @property
    def is_queued(self) -> bool:
        """Whether the server took the connection and does not answer it: all of its workers are busy.

        If it did not answer in time, this stays True until the next attempt.
        """
        return self._is_queued

    @property
    def pending(self) -> int:
        """How many messages have no answer yet."""
        return self._core.pending()

    @property
    def authors(self) -> Mapping[int, str]:
        """Who made an entry, by its number, for the entries whose news came."""
        return self._core.authors

    def changes(self) -> Changes:
        """The changes from now on, your own too, for `async for`: each a Change, or a Reset after a gap.

        The loop ends when the room is closed. A reader that is 10,000 changes late gets one Reset instead of them.
        """
        return Changes(self)

    def on_event(self, callback: Callable[[Event], None]) -> None:
        """Calls `callback` with each Change and Reset as soon as `elements` has it. It must not raise."""
        self._callbacks.append(callback)

    # ---- Messages

    async def ask(
        self, message: Message, *, number: Optional[int] = None, announce: Callable[[int], None] = lambda number: None
    ) -> Dict[str, Any]:
        """Sends a message without its id, and returns what the answer has under `ok`.

        When the answer to a change is returned, `elements` has the change. Raises a Refused, Unknown, NotSent, Closed
        or NoAnswer. When it raises Changed, `elements` has what the other author changed. If you cancel it, the message
        is not sent any more; if it was sent, it may be done.

        `number` is the message's id, if the room should not choose one. `announce` gets the id before the message is
        sent. If it raises, the message is not sent.
        """
        if self.state == "closed":
            raise self._error or Closed()
        loop = asyncio.get_running_loop()
        future: asyncio.Future[Answer] = loop.create_future()
        asked = self._core.add(message, lambda reply: None if future.done() else future.set_result(reply), number)
        try:
            announce(asked.id)
        except BaseException:
            self._core.give_up(asked)
            raise
        timer = loop.call_later(self.timeout, self._expire, future) if self.timeout is not None else None
        self._send(self._core.send_more())
        try:
            reply = await future
        except BaseException:
            self._core.give_up(asked)
            raise
        finally:
            if timer:
                timer.cancel()
        if "no" in reply:
            raise self._error_of(reply["no"])
        answer: Dict[str, Any] = reply["ok"]
        return answer

    def _expire(self, future: asyncio.Future[Answer]) -> None:
        """Ends a message for which no answer came in time."""
        if not future.done():
            future.set_exception(NoAnswer(self.timeout or 0))

    def _error_of(self, no: Mapping[str, Any]) -> BaseException:
        """The exception for a refusal."""
        if no["why"] == "closed" and self._error:
            return self._error
        return error_of(no, self._core.authors.get(no.get("with", 0)))

    # Each action may have `since`: the number `seq` of the map on which you decided. If another author changed since
    # then what the action would change, the room refuses it, and Changed is raised. A server before version 2.0.0 does
    # not read `since`.

    async def _change(self, message: Message, since: Optional[int]) -> int:
        """Asks for a change. Returns the number of its entry."""
        return int((await self.ask(guarded(message, since)))["seq"])

    async def _create(
        self, kind: str, el: Optional[str], make: Callable[[str], Message], since: Optional[int] = None
    ) -> str:
        """Asks for a change that makes an element, under a name that is free."""
        for _ in range(TRIES):
            name = el or self._core.new_name(kind)
            try:
                await self.ask(guarded(make(name), since))
                return name
            except Present as refusal:
                if el or refusal.element != name:
                    raise
        raise Error(f"the names of {TRIES} new elements were taken")

    async def create_node(
        self,
        lat: Degrees,
        lon: Degrees,
        tags: Optional[Tags] = None,
        *,
        el: Optional[str] = None,
        since: Optional[int] = None,
    ) -> str:
        """Creates a node. Returns its name: a new one, unless you give `el`."""
        return await self._create("n", el, lambda name: actions.create_node(name, lat, lon, tags), since)

    async def create_way(
        self,
        nodes: Iterable[Union[int, str]],
        tags: Optional[Tags] = None,
        *,
        el: Optional[str] = None,
        since: Optional[int] = None,
    ) -> str:
        """Creates a way of nodes, by their names or ids. Returns its name: a new one, unless you give `el`."""
        ids = actions.node_ids(nodes)
        return await self._create("w", el, lambda name: actions.create_way(name, ids, tags), since)

    async def create_relation(
        self,
        members: Members,
        tags: Optional[Tags] = None,
        *,
        el: Optional[str] = None,
        since: Optional[int] = None,
    ) -> str:
        """Creates a relation of members: pairs of a name and a role. Returns its name: a new one, unless you give
        `el`."""
        pairs: List[Tuple[str, str]] = [(name, role) for name, role in members]
        return await self._create("r", el, lambda name: actions.create_relation(name, pairs, tags), since)

    async def retag(self, el: str, tags: Mapping[str, Optional[str]], *, since: Optional[int] = None) -> int:
        """Gives each key its value, and removes those whose value is None. Returns the entry's number."""
        return await self._change(actions.retag(el, tags), since)

    async def move(
        self, els: Union[str, Iterable[str]], dlat: Degrees, dlon: Degrees, *, since: Optional[int] = None
    ) -> int:
        """Moves nodes, and the nodes of ways, by `dlat` degrees to the north and `dlon` to the east."""
        return await self._change(actions.move(els, dlat, dlon), since)

    async def reverse(self, el: str, *, since: Optional[int] = None) -> int:
        """Turns the list of a way round."""
        return await self._change(actions.reverse(el), since)

    async def set_nodes(self, el: str, nodes: Iterable[Union[int, str]], *, since: Optional[int] = None) -> int:
        """Gives a way this list of nodes."""
        return await self._change(actions.set_nodes(el, actions.node_ids(nodes)), since)

    async def set_members(self, el: str, members: Members, *, since: Optional[int] = None) -> int:
        """Gives a relation these members: pairs of a name and a role."""
        return await self._change(actions.set_members(el, members), since)

    async def delete(self, el: str, *, since: Optional[int] = None) -> int:
        """Deletes an element. Raises InUse if another refers to it."""
        return await self._change(actions.delete(el), since)

    async def purge(self, el: str, *, since: Optional[int] = None) -> int:
        """Deletes an element with every reference to it."""
        return await self._change(actions.purge(el), since)

    async def split(self, el: str, at: int, *, into: Optional[str] = None, since: Optional[int] = None) -> str:
        """Splits a way at a position of its list. Returns the name of the new way: a new one, unless you give
        `into`."""
        return await self._create("w", into, lambda name: actions.split(el, at, name), since)

    async def join(self, el: str, other: str, *, since: Optional[int] = None) -> int:
        """Joins a way with another, which begins where it ends and then goes."""
        return await self._change(actions.join(el, other), since)

    async def merge(self, el: str, other: str, *, since: Optional[int] = None) -> int:
        """Merges a node with another, which then goes."""
        return await self._change(actions.merge(el, other), since)

    async def unglue(self, el: str, at: int, *, into: Optional[str] = None, since: Optional[int] = None) -> str:
        """Gives a way a new node at a position of its list. Returns the node's name: a new one, unless you give
        `into`."""
        return await self._create("n", into, lambda name: actions.unglue(el, at, name), since)

    async def group(self, steps: Iterable[Message], *, since: Optional[int] = None) -> int:
        """Does several actions as one entry, or none of them. Returns the entry's number.

        `maproom.actions` has a function for each action, and `new_name` gives names for new elements. If the room
        refuses an action, a Refused with its position `action` is raised, and nothing was done. An undo takes all of
        them back. A server before version 1.1.0 raises UnknownDo.
        """
        return await self._change(actions.group(steps), since)

    def new_name(self, kind: str) -> str:
        """A name for a new element of a kind, "n", "w" or "r". The room gives it out once, and `elements` does not
        have it. If somebody else is quicker, the room refuses it with Present."""
        if kind not in ("n", "w", "r"):
            raise ValueError(f"{kind!r} is no kind of element")
        return self._core.new_name(kind)

    async def undo(self, seq: Optional[int] = None) -> Undone:
        """Undoes your entry of this number, or your last one that is active. Raises Conflict if a later entry touched
        the same part of an element."""
        reply = await self.ask(actions.undo(seq))
        return Undone(reply["seq"], reply.get("undid"))

    async def undo_last_possible(self) -> Optional[Undone]:
        """Undoes your last active entry whose undo the room accepts: it tries each from the last on. Returns None if
        none can be undone. If `undo` raises Conflict, this undoes what is left."""
        for seq in reversed((await self.undos()).undos):
            try:
                return Undone((await self.undo(seq)).seq, seq)
            except (Conflict, NotStanding):  # another client with your name can have undone it meanwhile
                pass
        return None

    async def redo(self) -> Redone:
        """Does the entry again that you undid last."""
        reply = await self.ask(actions.redo())
        return Redone(reply["seq"], reply.get("redid"))

    async def get(self, el: str) -> Element:
        """An element as the server has it. Raises Absent if it is not there."""
        element: Element = (await self.ask(actions.get(el)))["is"]
        return element

    async def map(self) -> Tuple[List[Element], int]:
        """The whole map as the server has it, and the number of its last entry."""
        reply = await self.ask(actions.map_of_room())
        return reply["map"], reply["seq"]

    async def undos(self) -> Undos:
        """The entries that you can undo and redo."""
        reply = await self.ask(actions.undos())
        return Undos(reply["undos"], reply["redo"])


def guarded(message: Message, since: Optional[int]) -> Message:
    """A message whose author had seen the room up to an entry."""
    return message if since is None else {**message, "since": since}


class Changes(AsyncIterator[Event]):
    """The changes of a room, from when it was made on."""

    def __init__(self, room: Room) -> None:
        self._room, self._is_awake = room, asyncio.Event()
        self._events: Deque[Event] = collections.deque()
        if room.state != "closed":
            room._feeds.add(self)

    def add(self, events: List[Event]) -> None:
        """Adds events. If the reader is too late, all become one."""
        self._events.extend(events)
        if len(self._events) > MOST_EVENTS:
            self._events = collections.deque([folded(self._events)])
        self._is_awake.set()

    def wake(self) -> None:
        """Wakes the reader, because the room is closed."""
        self._is_awake.set()

    def __aiter__(self) -> Changes:
        return self

    async def __anext__(self) -> Event:
        while not self._events:
            if self._room.state == "closed":
                if self._room._error:
                    raise self._room._error
                raise StopAsyncIteration
            self._is_awake.clear()
            await self._is_awake.wait()
        return self._events.popleft()


def socket_module() -> Any:
    """The module with the WebSocket. Raises ModuleNotFoundError, which names this Python, if aiohttp is missing."""
    try:
        from . import sockets  # pylint: disable=import-outside-toplevel
    except ModuleNotFoundError as fault:
        if fault.name != "aiohttp":
            raise
        raise ModuleNotFoundError(
            f"{sys.executable} has no package aiohttp, which maproom needs (Debian has it as "
            "python3-aiohttp, for /usr/bin/python3 only)",
            name="aiohttp",
        ) from fault
    return sockets
