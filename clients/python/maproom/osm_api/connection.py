"""What the API needs of a room. A connection over WebSocket has this form, and so has a room in memory."""
from collections.abc import Callable, Mapping, Sequence
from dataclasses import dataclass, field
from typing import Any, Protocol

from .elements import Row, Rows

# An action in the form of the room's protocol: an object with `do` and that word's members.
Action = dict[str, Any]

# The reason of a refusal that a connection gives itself: the server was restarted before it answered, so that only the
# map can show whether it accepted.
UNKNOWN = "unknown"

# The reasons of refusals that the bridge gives itself: another entry changed an element that a group had planned on;
# entries were missed, so that this may be; and what has to be sent is too large for a group.
OVERTAKEN, MISSED, TOO_LARGE = "overtaken", "missed", "too_large"

# What refusals say, by their reasons. The fields in braces are those of the refusal.
WORDS = {
    "full": "the journal is full",
    "absent": "{el} is not in the room",
    "present": "{el} is in the room already",
    "in_use": "{by} refers to {el}",
    "no_such": "the server was restarted before the message was sent",
    "out_of_range": "{el} would leave the range of latitudes or longitudes",
    "nothing_to_redo": "there is nothing to redo",
    "memory": "the server is out of memory",
    "not_sent": "the server was restarted before the message was sent",
    UNKNOWN: "the server was restarted before it answered",
    MISSED: "others may have changed its elements just before it",
    TOO_LARGE: "what would take it back is too large for a group",
}


@dataclass(frozen=True)
class Welcome:
    """The whole map. `run` differs between two runs of the server, whose entries have nothing in common."""

    elements: Mapping[str, Row]
    seq: int
    run: int


@dataclass(frozen=True)
class News:
    """What an entry changed: each element as it is since, or None if it is gone."""

    seq: int
    author: str
    rows: Rows


@dataclass(frozen=True)
class Accepted:
    """The room accepted a message. `other` is the entry that an undo took back or a redo did again. `run` is the run of
    the server that has the entry, if it may count as another one than when the message was sent."""

    seq: int
    other: int | None = None
    run: int | None = None


@dataclass(frozen=True)
class Refusal:
    """The room refused a message, or the connection does not know what became of it."""

    why: str
    fields: Mapping[str, Any] = field(default_factory=dict)

    def in_words(self, authors: Mapping[int, str]) -> str:
        """Returns what the refusal says, with the name of the author that is in the way."""
        if self.why in ("conflict", "changed", OVERTAKEN):
            entry, author = self.fields.get("with", 0), authors.get(self.fields.get("with", 0))
            whose = f"entry {entry} of {author}" if author else f"entry {entry}"
            when = "since, and has to be undone first" if self.why == "conflict" else "just before it"
            return f"{whose} changed {self.fields.get('at') or self.fields.get('el')} {when}"
        fields = {key: value for key, value in self.fields.items() if key != "action"}
        try:
            return WORDS[self.why].format_map(fields)
        except KeyError:
            return " ".join([self.why, *(str(fields[key]) for key in sorted(fields))])


Answer = Accepted | Refusal


class Listener(Protocol):
    """An object that gets what happens in a room."""

    def on_welcome(self, welcome: Welcome) -> None:
        """A session began: the map may be any other."""

    def on_news(self, news: News) -> None:
        """An entry changed the map. Entries come in order, and none is left out between two welcomes."""


class RoomConnection(Protocol):
    """A room. Authors are named at each call: a connection may have a session for each of them.

    A call waits while there is no connection, and sends a message again after a reconnection unless the room accepted
    it. It sends a change only to the run of the server that the listeners know when it is called, and otherwise returns
    the refusal `not_sent`. A cancelled call may still take effect."""

    @property
    def room(self) -> str:
        """The name of the room."""

    @property
    def is_open(self) -> bool:
        """Whether the room can be reached now."""

    @property
    def elements(self) -> Mapping[str, Row]:
        """The map as of `seq`."""

    @property
    def seq(self) -> int:
        """The last entry of which the connection knows."""

    @property
    def authors(self) -> Mapping[int, str]:
        """The authors of the entries of this run that the connection has seen."""

    @property
    def sessions(self) -> int:
        """How many sessions with the server the connection has now."""

    @property
    def refusals(self) -> Mapping[str, int]:
        """How many messages were refused, by the reason."""

    def subscribe(self, listener: Listener) -> None:
        """Passes all that comes to a listener, beginning with a welcome if there was one."""

    async def catch_up(self) -> None:
        """Waits until all listeners know of all entries that the room had when this was called."""

    async def join(self, author: str) -> None:
        """Waits until an author has a session, which then stays open for a while."""

    async def send_group(
        self, author: str, actions: Sequence[Action], announce: Callable[[int], None], since: int | None = None
    ) -> Answer:
        """Sends actions as one message, which the room accepts or refuses as a whole. Calls `announce` with the
        message's id before it is sent. If another author changed after the entry `since` what the actions would change,
        the room refuses them as `changed`."""

    async def undo(self, author: str, seq: int) -> Answer:
        """Undoes an entry of an author."""

    async def redo(self, author: str) -> Answer:
        """Does again what an author undid last."""

    async def entry_of(self, author: str, message: int) -> int | None:
        """Returns the entry of this run of the server that spent a message's id, or None."""
