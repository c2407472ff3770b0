"""A connection to a room on a server: one session that follows the map, and one for each author who writes.

A change is sent only to the run of the server whose map the reader had when the change was planned."""
import asyncio
import collections
import contextlib
import re
from collections.abc import AsyncIterator, Callable, Coroutine, Mapping, Sequence
from dataclasses import dataclass
from types import TracebackType
from typing import Any, cast

from .. import actions as messages
from ..core import NO_ENTRY, Core, Event, Reset
from ..errors import (
    Absent,
    BadField,
    ConnectionFailed,
    Error,
    Full,
    NoSuch,
    NotSent,
    OutOfMemory,
    Refused,
    Repeat,
    Unknown,
    UnknownDo,
)
from ..room import Room, guarded
from .connection import UNKNOWN, Accepted, Action, Answer, Listener, News, Refusal, Welcome
from .elements import Row

# The end of the answer to a hello.
WELCOME_END = re.compile(r'\],"seq":([0-9]+)\}\}$')

# After how many seconds the bridge asks the server again, if it could not be reached or did not know.
PAUSE = 0.5

# How often the bridge looks whether a broken session is back, in seconds.
LOOK = 0.02

# For how many seconds the bridge asks which run of the server answers. After that it counts as another run.
RUN_SECONDS = 20


class TooOld(Error):
    """The server does not know groups, or does not read what their author had seen."""


class PlannedCore(Core):
    """A core for changes that were planned on the map of a run of the server. No other run gets them."""

    def drop_changes(self, restarted: bool) -> None:
        """Drops all changes. A core keeps those that it did not send, if nobody knows which run answers."""
        super().drop_changes(restarted)
        dropped = [asked for asked in self.queued if asked.is_change()]
        self.queued = collections.deque(asked for asked in self.queued if not asked.is_change())
        for asked in dropped:
            asked.done({"no": {"why": "not_sent", "restarted": restarted}})


class WriterCore(PlannedCore):
    """A core without a map. It keeps the numbers of entries, and drops their rows."""

    sessions = 0

    def begin(self) -> list[str]:
        """Begins a session, and counts it."""
        self.sessions += 1
        return super().begin()

    def take(self, text: str) -> list[str]:
        """Takes a text of the room's. Of a welcome, which can be large, only the number at its end is read."""
        if self.take_next == self.take_welcome and (end := WELCOME_END.search(text, max(0, len(text) - 64))):
            text = f'{{"id":1,"ok":{{"map":[],"seq":{end[1]}}}}}'
        return super().take(text)

    def take_news(self, news: Any) -> list[str]:
        """Takes the number of an entry."""
        return super().take_news({**news, "rows": []})


class Reader(Room):
    """The room that follows the map, and that also writes for the author of its name."""

    core_class = PlannedCore


class Writer(Room):
    """A room for an author who only writes. Many authors need no more memory than one map: the reader has it.

    `known_session` is the last session that began before the reader caught up, so that its run is no news to the
    reader."""

    core_class = WriterCore
    known_session = 0

    @property
    def session(self) -> int:
        """The number of the present session, or of the last one."""
        return cast(WriterCore, self._core).sessions


class AuthorSession:
    """The session of an author: its room while it is open, and how many calls use it."""

    def __init__(self) -> None:
        self.room: Writer | None = None
        self.users = 0
        self.opening = asyncio.Lock()
        self.closing: asyncio.TimerHandle | None = None


@dataclass(frozen=True)
class Written:
    """A message that a room accepted: its id, which the room has spent for its author, and its entry."""

    author: str
    message: int
    seq: int


class ServerRoom:
    """A room on a server, for `async with`.

    The session of `reader` follows the map, and also writes what an author of that name writes. Any other author gets
    a session at its first write, which is closed after `idle_seconds` without another. `name_header` is the header in
    which the server wants the name of each."""

    def __init__(
        self, url: str, room: str, reader: str, idle_seconds: float = 60, name_header: str | None = None
    ) -> None:
        self.url, self.room, self.idle_seconds = url, room, idle_seconds
        self._name_header = name_header
        self._reader = Reader(url, room, reader, timeout=None, name_header=name_header)
        self._reader.on_event(self._on_event)
        self._listeners: list[Listener] = []
        self._sessions: dict[str, AuthorSession] = {}
        self._closings: set[asyncio.Task[None]] = set()
        self._run = 1
        # messages that were accepted, until the reader has the news of their entries; and the last that it has
        self._unseen: list[Written] = []
        self._last_seen: Written | None = None
        self._asking_run: asyncio.Task[None] | None = None
        self.refusals: collections.Counter[str] = collections.Counter()

    async def __aenter__(self) -> "ServerRoom":
        """Connects. Raises what `Room.open` raises, and TooOld."""
        await self._reader.open()
        try:
            await self._check_version()
        except BaseException:
            await self._reader.close()
            raise
        return self

    async def _check_version(self) -> None:
        """Raises TooOld unless the server reads `since` of a group. It refuses a bad one before it reads the list."""
        try:
            await self._reader.ask(guarded(messages.group([]), -1))
        except (BadField, UnknownDo) as refusal:
            if refusal.no.get("field") != "since":
                raise TooOld(
                    f"the server at {self._reader.url} is older than version 2.0.0, which uploads need"
                ) from refusal

    async def __aexit__(
        self, kind: type[BaseException] | None, fault: BaseException | None, trace: TracebackType | None
    ) -> None:
        if self._asking_run:
            self._asking_run.cancel()
        for author in list(self._sessions):
            self._close_soon(author)
        await asyncio.gather(*self._closings, return_exceptions=True)
        await self._reader.close()

    async def ended(self) -> None:
        """Raises the error that ends the reader's session for good, for example if the server has no such room."""
        await self._reader.wait_closed()

    # what the room says

    @property
    def is_open(self) -> bool:
        """Whether the room can be reached now."""
        return self._reader.state == "open"

    @property
    def elements(self) -> Mapping[str, Row]:
        """The map as of `seq`."""
        return cast(Mapping[str, Row], self._reader.elements)

    @property
    def seq(self) -> int:
        """The last entry of which the connection knows."""
        return self._reader.seq

    @property
    def authors(self) -> Mapping[int, str]:
        """The authors of the entries of this run that the connection has seen."""
        return self._reader.authors

    @property
    def sessions(self) -> int:
        """How many sessions the connection has: that of the reader, and those of authors."""
        rooms = [self._reader, *(session.room for session in self._sessions.values())]
        return sum(room is not None and room.state == "open" for room in rooms)

    def subscribe(self, listener: Listener) -> None:
        """Sends a listener the map, and then the news."""
        self._listeners.append(listener)
        listener.on_welcome(self._welcome())

    def _welcome(self) -> Welcome:
        """Returns the whole map."""
        return Welcome(dict(self.elements), self._reader.seq, self._run)

    def _greet(self) -> None:
        """Sends all listeners the whole map."""
        for listener in self._listeners:
            listener.on_welcome(self._welcome())

    def _on_event(self, event: Event) -> None:
        """Hands an event of the reader to the listeners."""
        if isinstance(event, Reset):
            self._on_reset(event)
        elif self._asking_run is None:  # otherwise a welcome follows, which has it
            self._note_seen()
            news = News(event.seq, event.by, {row.el: cast(Row | None, row.after) for row in event.rows})
            for listener in self._listeners:
                listener.on_news(news)

    def _on_reset(self, event: Reset) -> None:
        """Takes it that the reader missed entries.

        A reader that never wrote cannot ask which run of the server answers. Then an author's session asks. If no
        message was accepted yet, it counts as another run: there is nothing to undo. If the answer to a message comes
        later, `_write` asks."""
        last = self._unseen[-1] if self._unseen else self._last_seen
        if event.restarted is None and last:
            if self._asking_run is None:
                self._asking_run = asyncio.get_running_loop().create_task(self._ask_run(last))
            return
        if event.restarted is not False:
            self._begin_run()
        if self._asking_run is None:
            self._greet()

    async def _ask_run(self, last: Written) -> None:
        """Finds out whether the server is still in the run in which it accepted a message, and greets the listeners."""
        entry = None
        try:
            with contextlib.suppress(Error, asyncio.TimeoutError):
                entry = await asyncio.wait_for(self.entry_of(last.author, last.message), RUN_SECONDS)
        finally:
            self._asking_run = None
        if entry != last.seq:
            self._begin_run()
        self._greet()

    def _begin_run(self) -> None:
        """Notes that another run of the server may have begun."""
        self._run += 1
        self._unseen, self._last_seen = [], None

    def _note_seen(self) -> None:
        """Notes which accepted messages the reader has the news of."""
        for written in self._unseen:
            if written.seq <= self._reader.seq:
                self._last_seen = written
        self._unseen = [written for written in self._unseen if written.seq > self._reader.seq]

    async def catch_up(self) -> None:
        """Waits until all listeners know of all entries that the room had when this was called.

        News follow a reply, so those of the first query are here when the second one is answered. If the reader still
        lacks an entry that was accepted before, another run answered it, in which nothing looks different."""
        accepted = list(self._unseen)
        await asyncio.gather(self._ask_reader(), self._ask_reader())
        await self._run_is_known()
        self._note_seen()
        if any(written in self._unseen for written in accepted):
            self._begin_run()
            self._greet()

    async def _run_is_known(self) -> None:
        """Waits while an author's session asks which run of the server the reader is in."""
        while self._asking_run:
            await asyncio.wait({self._asking_run})

    async def _ask_reader(self) -> None:
        """Asks something small."""
        with contextlib.suppress(Absent, OutOfMemory):
            await self._reader.ask(messages.get("n1"))

    # what authors write

    async def join(self, author: str) -> None:
        """Waits until an author has a session, which then stays open for a while. A new session needs a worker."""
        async with self._session(author) as room:
            while room.state == "connecting":
                await asyncio.sleep(LOOK)

    # These take the run when they are called, since a task that awaits them may begin in a later run.

    def send_group(
        self, author: str, actions: Sequence[Action], announce: Callable[[int], None], since: int | None = None
    ) -> Coroutine[Any, Any, Answer]:
        """Sends actions as one message, after it called `announce` with the message's id. They were planned on the map
        of the entry `since`."""
        message = dict(guarded(messages.group(actions), since))
        return self._counted(self._write(self._run, author, message, announce=announce))

    def undo(self, author: str, seq: int) -> Coroutine[Any, Any, Answer]:
        """Undoes an entry of an author."""
        return self._counted(self._write(self._run, author, messages.undo(seq), "undid", seq))

    def redo(self, author: str) -> Coroutine[Any, Any, Answer]:
        """Does again what an author undid last."""
        return self._counted(self._write(self._run, author, messages.redo(), "redid"))

    async def _counted(self, writing: Coroutine[Any, Any, Answer]) -> Answer:
        """Waits for an answer, and counts it if it is a refusal."""
        answer = await writing
        if isinstance(answer, Refusal):
            self.refusals[answer.why] += 1
        return answer

    async def _write(
        self,
        run: int,
        author: str,
        message: Action,
        key: str = "",
        other: int | None = None,
        announce: Callable[[int], None] = lambda number: None,
    ) -> Answer:
        """Asks for a change in an author's session, if that session is in the run. `key` has the entry that was undone
        or redone, or else it is `other`."""
        numbers, found = [], None

        def note_number(number: int) -> None:
            announce(number)
            numbers.append(number)

        try:
            async with self._session(author) as room:
                if not await self._is_in_run(room, run):
                    return Refusal("not_sent")
                answer = await room.ask(message, announce=note_number)
        except Refused as refused:
            return Refusal(refused.why, {name: value for name, value in refused.no.items() if name != "why"})
        except NotSent:
            return Refusal("not_sent")
        except Unknown as unknown:
            found = None if unknown.restarted else await self._found_after_loss(author, numbers[0])
            if found is None:
                return Refusal(UNKNOWN)
            answer, run = {"seq": found[0]}, found[1]
        else:
            if self._run != run:  # perhaps it is the same one, but nothing was there to ask with
                found = await self._found(author, numbers[0])
                run = found[1] if found else run
        seq = int(answer["seq"])
        if self._run == run:  # otherwise the reader's entry of this number is another
            self._unseen.append(Written(author, numbers[0], seq))
            self._note_seen()
        return Accepted(seq, answer.get(key, other), found[1] if found else None)

    async def _is_in_run(self, room: Reader | Writer, run: int) -> bool:
        """Returns whether an author's session and the reader are in a run of the server.

        A new session may be in a run that the reader has not noticed yet. What the reader asks then is answered by
        that run or a later one. So the reader catches up once for each session. If a session is asking for the reader,
        this waits for the answer."""
        await self._run_is_known()
        while isinstance(room, Writer) and room.known_session != room.session:
            session = room.session
            await self.catch_up()
            room.known_session = session
        return self._run == run

    async def _found_after_loss(self, author: str, message: int) -> tuple[int, int] | None:
        """Returns what `_found` returns, for a message whose answer was lost with the connection.

        The pause lets the server read the rest of the broken connection."""
        await asyncio.sleep(PAUSE)
        return await self._found(author, message)

    async def _found(self, author: str, message: int) -> tuple[int, int] | None:
        """Returns the entry of a message, and the reader's run, if that run of the server has it.

        The reader catches up first: if it was still in an earlier run, the entry would be taken for one of that run.
        If the run counts as another one meanwhile, the room is asked again."""
        while True:
            await self.catch_up()
            run, entry = self._run, await self.entry_of(author, message)
            if entry is None or self._run == run:
                return None if entry is None else (entry, run)

    async def entry_of(self, author: str, message: int) -> int | None:
        """Returns the entry of this run of the server that spent a message's id, or None.

        It asks again as long as the server does not know, or cannot be reached."""
        while True:
            try:
                async with self._session(author) as room:
                    return int((await room.ask(messages.undo(NO_ENTRY), number=message))["seq"])
            except Repeat as repeat:
                return repeat.entry
            except (NoSuch, Full):
                return None
            except (OutOfMemory, Unknown, NotSent):
                await asyncio.sleep(PAUSE)

    # sessions

    @contextlib.asynccontextmanager
    async def _session(self, author: str) -> AsyncIterator[Reader | Writer]:
        """Gives an author's session, which stays open for a while."""
        if author == self._reader.name:
            yield self._reader
            return
        session = self._sessions.setdefault(author, AuthorSession())
        session.users += 1
        if session.closing:
            session.closing.cancel()
            session.closing = None
        try:
            async with session.opening:
                while session.room is None or session.room.state == "closed":
                    session.room = await self._opened(author)
            yield session.room
        finally:
            session.users -= 1
            if not session.users:
                loop = asyncio.get_running_loop()
                session.closing = loop.call_later(self.idle_seconds, self._close_soon, author)

    async def _opened(self, author: str) -> Writer:
        """Opens a session, as soon as there is a connection."""
        while True:
            room = Writer(self.url, self.room, author, timeout=None, name_header=self._name_header)
            try:
                await room.open()
                return room
            except ConnectionFailed:
                await asyncio.sleep(PAUSE)

    def _close_soon(self, author: str) -> None:
        """Closes a session that nobody uses."""
        session = self._sessions.pop(author)
        if session.closing:
            session.closing.cancel()
        if session.room:
            task = asyncio.get_running_loop().create_task(session.room.close())
            self._closings.add(task)
            task.add_done_callback(self._closings.discard)
