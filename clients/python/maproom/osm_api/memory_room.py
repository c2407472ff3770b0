"""A room in memory, for tests and trials without a server.

It does what the API needs: groups of creates, retags, moves, nodes, members and deletes, undo and redo. As in a room,
an undo is blocked by a later change of the same part of an element: its tags or the rest. Here a group has changed what
differs in the end, while a room also counts what a group changes and changes back, when it undoes. A group is refused
as `changed` if another author changed one of its parts since an entry."""
import asyncio
import collections
import copy
from collections.abc import Awaitable, Callable, Mapping, Sequence
from dataclasses import dataclass

from .connection import Accepted, Action, Answer, Listener, News, Refusal, RoomConnection, Welcome
from .elements import (
    REST,
    TAGS,
    Row,
    Rows,
    changed_parts,
    coordinate_text,
    is_in_world,
    is_same,
    references,
    text_units,
)
from .ids import KIND_ORDER

# A part of an element: its name, and which part.
Part = tuple[str, str]


class Refused(Exception):
    """An action is refused."""

    def __init__(self, why: str, **fields: object) -> None:
        super().__init__(why)
        self.refusal = Refusal(why, fields)


@dataclass
class JournalEntry:
    """An entry: what it changed, and whether it can be undone. An undo cannot."""

    seq: int
    author: str
    before: Rows
    after: Rows
    is_active: bool

    @property
    def parts(self) -> set[Part]:
        """The parts that the entry changed, with those of elements that others begin or cease to refer to."""
        found: set[Part] = set()
        for name, row in self.after.items():
            before = self.before[name]
            found |= {(name, part) for part in changed_parts(before, row)}
            found |= {(used, REST) for used in set(references(before)) ^ set(references(row))}
        return found


class MemoryRoom:
    """A room. Tests can hold news back, act before a group or an undo is applied, and lose answers."""

    def __init__(self, rows: Sequence[Row] = (), room: str = "hamlet", limit: int = 1_000_000) -> None:
        self.room, self.limit, self.is_open = room, limit, True
        self.elements: dict[str, Row] = {row["el"]: row for row in rows}
        self.authors: dict[int, str] = {}
        self.journal: list[JournalEntry] = []
        self.groups: list[list[Action]] = []
        self.sessions, self.refusals = 1, collections.Counter[str]()
        self.holds_news = False
        # awaited before an author is let in
        self.before_join: Callable[[str], Awaitable[None]] | None = None
        # awaited before a group is applied, and after it, before its answer
        self.before_group: Callable[[], Awaitable[object]] | None = None
        self.after_group: Callable[[], Awaitable[object]] | None = None
        # awaited before an undo is applied
        self.before_undo: Callable[[], Awaitable[object]] | None = None
        self._redo: dict[str, list[JournalEntry]] = {}
        self._listeners: list[Listener] = []
        self._held: list[News] = []
        self._spent: dict[tuple[str, int], int] = {}
        self._run, self._last_message = 1, 0

    @property
    def seq(self) -> int:
        """The last entry."""
        return len(self.journal)

    # the connection

    def subscribe(self, listener: Listener) -> None:
        """Passes the map to a listener, and then the news."""
        self._listeners.append(listener)
        listener.on_welcome(Welcome(dict(self.elements), self.seq, self._run))

    def forget_listeners(self) -> None:
        """Has nobody listen any more, as if their programs were killed."""
        self._listeners, self._held = [], []

    async def catch_up(self) -> None:
        """Delivers the news that were held back."""
        await asyncio.sleep(0)
        held, self._held = self._held, []
        for news in held:
            self._send(news)

    async def join(self, author: str) -> None:
        """Lets an author in."""
        if self.before_join:
            await self.before_join(author)

    async def send_group(
        self,
        author: str,
        actions: Sequence[Action],
        announce: Callable[[int], None] = lambda message: None,
        since: int | None = None,
    ) -> Answer:
        """Does all actions or none."""
        self._last_message += 1
        message = self._last_message
        announce(message)
        self.groups.append(copy.deepcopy(list(actions)))
        if self.before_group:
            await self.before_group()
        answer = self.group(author, actions, since)
        if isinstance(answer, Accepted):
            self._spent[author, message] = answer.seq
        if self.after_group:
            await self.after_group()
        return self._counted(answer)

    def _counted(self, answer: Answer) -> Answer:
        """Counts an answer if it is a refusal, and returns it."""
        if isinstance(answer, Refusal):
            self.refusals[answer.why] += 1
        return answer

    async def undo(self, author: str, seq: int) -> Answer:
        """Undoes an entry."""
        await asyncio.sleep(0)
        if self.before_undo:
            await self.before_undo()
        return self._counted(self.take_back(author, seq))

    async def redo(self, author: str) -> Answer:
        """Redoes what the author undid last."""
        await asyncio.sleep(0)
        return self._counted(self.redo_now(author))

    def redo_now(self, author: str) -> Answer:
        """Redoes what an author undid last."""
        if len(self.journal) >= self.limit:
            return Refusal("full")
        undone = self._redo.get(author)
        if not undone:
            return Refusal("nothing_to_redo")
        entry = undone[-1]
        for name, row in entry.before.items():
            if not is_same(self.elements.get(name), row):
                return Refusal("absent", {"el": name})
        undone.pop()
        return Accepted(self._enter(author, entry.after, True), entry.seq)

    async def entry_of(self, author: str, message: int) -> int | None:
        """Returns the entry that spent a message's id."""
        return self._spent.get((author, message))

    def restart(self, elements: Mapping[str, Row] | None = None) -> None:
        """Has the server start again on its saved map or another one, with an empty journal."""
        self.elements = dict(self.elements if elements is None else elements)
        self.authors, self.journal, self._redo, self._spent, self._held = {}, [], {}, {}, []
        self._run += 1
        self.greet()

    def greet(self) -> None:
        """Welcomes all listeners again, as after a reconnection."""
        self._held = []
        for listener in self._listeners:
            listener.on_welcome(Welcome(dict(self.elements), self.seq, self._run))

    # entries

    def group(self, author: str, actions: Sequence[Action], since: int | None = None) -> Answer:
        """Does all actions at once, or none."""
        if len(self.journal) >= self.limit:
            return Refusal("full")
        if since is not None and since > self.seq:
            return Refusal("no_such")
        draft: dict[str, Row | None] = {}
        for at, action in enumerate(actions):
            try:
                self._do(draft, action)
            except Refused as fault:
                return Refusal(fault.refusal.why, {"action": at, **fault.refusal.fields})
        if all(is_same(row, self.elements.get(name)) for name, row in draft.items()):
            return Refusal("nothing")
        changed_since = None if since is None else self._changed_since(author, draft, since)
        if changed_since:
            return changed_since
        self._redo.pop(author, None)
        return Accepted(self._enter(author, draft, True))

    def _changed_since(self, author: str, draft: Rows, since: int) -> Refusal | None:
        """Returns the refusal if another author changed a part of a draft after an entry."""
        parts = {(name, part) for name, row in draft.items() for part in changed_parts(self.elements.get(name), row)}
        for entry in reversed(self.journal[since:]):
            changes = (
                (name, part) for name in entry.after for part in changed_parts(entry.before[name], entry.after[name])
            )
            both = parts.intersection(changes)
            if both and entry.author != author:
                return Refusal("changed", {"el": min((name for name, _ in both), key=place_of), "with": entry.seq})
        return None

    def take_back(self, author: str, seq: int) -> Answer:
        """Undoes an entry, unless a later active entry changed a part of an element that it changed."""
        if len(self.journal) >= self.limit:
            return Refusal("full")
        if seq > len(self.journal):
            return Refusal("no_such")
        entry = self.journal[seq - 1]
        if entry.author != author:
            return Refusal("not_yours")
        if not entry.is_active:
            return Refusal("not_standing")
        parts = entry.parts
        for later in self.journal[seq:]:
            both = parts & later.parts if later.is_active else None
            if both:
                return Refusal("conflict", {"with": later.seq, "at": min((name for name, _ in both), key=place_of)})
        entry.is_active = False
        self._redo.setdefault(author, []).append(entry)
        rows = {name: self._without(name, before, entry.after[name]) for name, before in entry.before.items()}
        return Accepted(self._enter(author, rows, False), seq)

    def _without(self, name: str, before: Row | None, after: Row | None) -> Row | None:
        """Returns an element with the parts that it had before it was changed, and with the others as they are now."""
        now = self.elements.get(name)
        if before is None or after is None or now is None:
            return before
        parts = changed_parts(before, after)
        row = before.copy() if REST in parts else now.copy()
        row["tags"] = before["tags"] if TAGS in parts else now["tags"]
        return row

    def _enter(self, author: str, after: Rows, is_active: bool) -> int:
        """Makes an entry, and passes its news to all listeners."""
        after = {name: row for name, row in after.items() if not is_same(row, self.elements.get(name))}
        before = {name: self.elements.get(name) for name in after}
        self.journal.append(JournalEntry(self.seq + 1, author, before, dict(after), is_active))
        self.authors[self.seq] = author
        for name, row in after.items():
            if row is None:
                self.elements.pop(name, None)
            else:
                self.elements[name] = row
        news = News(self.seq, author, dict(after))
        if self.holds_news:
            self._held.append(news)
        else:
            self._send(news)
        return self.seq

    def _send(self, news: News) -> None:
        """Passes news to all listeners."""
        for listener in self._listeners:
            listener.on_news(news)

    # actions

    def _do(self, draft: dict[str, Row | None], action: Action) -> None:
        """Does an action on a draft. Raises Refused."""
        if action["do"] == "move":
            self._move(draft, action)
            return
        name = action["el"]
        before = self._row(draft, name)
        if action["do"] == "create":
            if before:
                raise Refused("present", el=name)
            row: Row = copy.deepcopy({key: value for key, value in action.items() if key != "do"})  # type: ignore
        elif before is None:
            raise Refused("absent", el=name)
        elif action["do"] == "delete":
            self._check_unused(draft, name)
            draft[name] = None
            return
        else:
            row = changed(before, action)
            if is_same(before, row):
                raise Refused("nothing")
        self._check_references(draft, row)
        draft[name] = row

    def _move(self, draft: dict[str, Row | None], action: Action) -> None:
        """Moves nodes."""
        for name in action["els"]:
            row = self._row(draft, name)
            if row is None:
                raise Refused("absent", el=name)
            latitude, longitude = text_units(row["lat"]) + action["dlat"], text_units(row["lon"]) + action["dlon"]
            if not is_in_world(latitude, longitude):
                raise Refused("out_of_range", el=name)
            moved = copy.copy(row)
            moved["lat"], moved["lon"] = coordinate_text(latitude), coordinate_text(longitude)
            draft[name] = moved

    def _row(self, draft: dict[str, Row | None], name: str) -> Row | None:
        """Returns an element of a draft."""
        return draft[name] if name in draft else self.elements.get(name)

    def _check_references(self, draft: dict[str, Row | None], row: Row) -> None:
        """Refuses a row that refers to what is not there, and a way that is too short."""
        if len(row.get("nodes", (1, 2))) < 2:
            raise Refused("too_few", el=row["el"])
        for used in references(row):
            if used != row["el"] and self._row(draft, used) is None:
                raise Refused("absent", el=used)

    def _check_unused(self, draft: dict[str, Row | None], name: str) -> None:
        """Refuses to delete what is referred to."""
        for user in {*self.elements, *draft}:
            if user != name and name in references(self._row(draft, user)):
                raise Refused("in_use", el=name, by=user)


def place_of(name: str) -> tuple[int, int]:
    """Sorts names as a room does."""
    return KIND_ORDER[name[0]], int(name[1:])


def changed(before: Row, action: Action) -> Row:
    """Returns a row after a retag, or with other nodes or members."""
    row = copy.deepcopy(before)
    if action["do"] == "retag":
        tags = {**row["tags"], **action["tags"]}
        row["tags"] = {key: value for key, value in tags.items() if value is not None}
    elif action["do"] == "nodes":
        row["nodes"] = list(action["nodes"])
    else:
        row["members"] = [list(member) for member in action["members"]]
    return row


IS_CONNECTION: type[RoomConnection] = MemoryRoom
