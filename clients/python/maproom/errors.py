"""The exceptions of this package: one class for each reason of docs/PROTOCOL.md, and those of the client itself."""
from __future__ import annotations

from typing import Any, Dict, Mapping, Optional, Type


class Error(Exception):
    """Anything that this package raises on purpose."""


class ConnectionFailed(Error):
    """The first session did not begin. `__cause__` has the fault."""


class Closed(Error):
    """The room was closed before the answer came. `is_sent` says whether a change was sent, and so may be done."""

    def __init__(self, is_sent: bool = False) -> None:
        more = ": look at the map whether it was done" if is_sent else ""
        super().__init__(f"the room was closed{more}")
        self.is_sent = is_sent


class Unknown(Error):
    """A change was sent and not answered, and nobody can say whether it was done. It is not sent again: look at the
    map. `restarted` says whether the server was started anew for sure."""

    def __init__(self, restarted: bool = False) -> None:
        first = "the server was started anew" if restarted else "the connection broke"
        super().__init__(f"{first} before it answered: look at the map")
        self.restarted = restarted


class NotSent(Error):
    """The server was started anew, perhaps with another map, before a change was sent. It was not done."""

    def __init__(self, restarted: bool = False) -> None:
        super().__init__(
            "the server was started anew before this was sent: it was not done"
            if restarted
            else "the server may have been started anew before this was sent: it was not done"
        )
        self.restarted = restarted


class NoAnswer(Error, TimeoutError):
    """No answer came in time. A change may be done: look at the map."""

    def __init__(self, seconds: float) -> None:
        super().__init__(f"no answer came within {seconds:g} seconds: look at the map")


class Refused(Error):
    """The room refused a message. `why` is its word for the reason, and `no` has all that it said."""

    words = ""

    def __init__(self, no: Mapping[str, Any], author: Optional[str] = None) -> None:
        self.no, self.author = dict(no), author
        self.why: str = no["why"]
        super().__init__(self.place() + self.in_words())

    def in_words(self) -> str:
        """The refusal as a sentence, if this package knows the reason."""
        words = self.words if self.author else self.words.replace(" of {author}", "")
        try:
            return words.format(**{"author": self.author, **self.no}) or self.members()
        except KeyError:
            return self.members()

    def members(self) -> str:
        """The reason with what it is about, as the command-line clients print it."""
        others = sorted(set(self.no) - {"why", "action"})
        return " ".join(str(value) for value in (self.why, *(self.no[key] for key in others)))

    def place(self) -> str:
        """The words in front of the reason, if an action of a group was refused."""
        return "" if self.action is None else f"action {self.action}: "

    @property
    def action(self) -> Optional[int]:
        """The position of the refused action in a group, from 0. None if the message was no group, or is refused as a
        whole."""
        position: Optional[int] = self.no.get("action")
        return position

    @property
    def element(self) -> Optional[str]:
        """The name of the element that the refusal is about."""
        name: Optional[str] = self.no.get("el", self.no.get("at"))
        return name

    @property
    def entry(self) -> Optional[int]:
        """The number of the entry that the refusal is about."""
        number: Optional[int] = self.no.get("with", self.no.get("seq"))
        return number


class NotJson(Refused):
    words = "the room could not read the message"


class NotObject(NotJson):
    pass


class BadId(NotJson):
    pass


class UnknownDo(Refused):
    words = "the room does not know this action"


class BadField(Refused):
    words = "{field} is missing, or not of its form"


class HelloTwice(Refused):
    words = "the session has begun already"


class NoHello(Refused):
    words = "the session has not begun"


class NoRoom(Refused):
    words = "the server has no such room"


class WrongName(Refused):
    """The session is another author's: `name` says whose, and a hello under that name is accepted."""

    words = "you are logged in as {name}, and have to use that name"

    @property
    def name(self) -> str:
        """The name under which the server lets the client in."""
        return str(self.no["name"])


class NoName(Refused):
    words = "the server was not told who you are: log in, and ask the operator whether your login has a name"


class Repeat(Refused):
    words = "entry {seq} spent the id: another client has the same name"


class Full(Refused):
    words = "the journal of the room is full"


class NothingToUndo(Refused):
    words = "there is nothing to undo"


class NoSuch(Refused):
    words = "no entry has this number"


class NotYours(Refused):
    words = "the entry is another author's"


class NotStanding(Refused):
    words = "the entry is an undo, or was undone"


class Conflict(Refused):
    """A later `entry`, which is `author`'s if that is known, touched `element` too."""

    words = "entry {with} of {author} also touched {at}: it has to be undone first"


class NothingToRedo(Refused):
    words = "there is nothing to redo"


class WrongKind(Refused):
    words = "{el} is of the wrong kind for this"


class Present(Refused):
    words = "{el} is there already"


class Same(Refused):
    words = "{el} is named twice"


class Absent(Refused):
    words = "{el} is not there"


class BadPosition(Refused):
    words = "the way has no such position"


class NotEndToEnd(Refused):
    words = "the way does not end where the other begins"


class TagConflict(Refused):
    words = "the two elements have different values of {key}"


class OutOfRange(Refused):
    words = "{el} would leave the range of coordinates"


class TooFew(Refused):
    words = "{el} would have fewer than 2 nodes"


class TooMany(Refused):
    words = "{el} would have too many nodes, members or tags"


class InUse(Refused):
    """`element` is referred to by `user`."""

    words = "{by} refers to {el}"

    @property
    def user(self) -> str:
        """The name of the element that refers to it."""
        return str(self.no["by"])


class Nothing(Refused):
    words = "the map would not change"


class Changed(Refused):
    """The message would change what the later `entry` of another author, `author`, changed at `element` after what the
    message had seen (`since`). The mirror has that entry: look at it, and decide again."""

    words = "entry {with} of {author} changed {el} since: look at it again"

    @property
    def element(self) -> str:
        """The name of the least element of which both change the same part: its tags, or the rest."""
        return str(self.no["el"])

    @property
    def entry(self) -> int:
        """The number of the last such entry."""
        return int(self.no["with"])


class OutOfMemory(Refused):
    words = "the server is out of memory"


REASONS: Dict[str, Type[Refused]] = {
    "not_json": NotJson,
    "not_object": NotObject,
    "bad_id": BadId,
    "unknown_do": UnknownDo,
    "bad_field": BadField,
    "hello_twice": HelloTwice,
    "no_hello": NoHello,
    "no_room": NoRoom,
    "wrong_name": WrongName,
    "no_name": NoName,
    "repeat": Repeat,
    "full": Full,
    "nothing_to_undo": NothingToUndo,
    "no_such": NoSuch,
    "not_yours": NotYours,
    "not_standing": NotStanding,
    "conflict": Conflict,
    "nothing_to_redo": NothingToRedo,
    "wrong_kind": WrongKind,
    "present": Present,
    "same": Same,
    "absent": Absent,
    "bad_position": BadPosition,
    "not_end_to_end": NotEndToEnd,
    "tag_conflict": TagConflict,
    "out_of_range": OutOfRange,
    "too_few": TooFew,
    "too_many": TooMany,
    "in_use": InUse,
    "nothing": Nothing,
    "changed": Changed,
    "memory": OutOfMemory,
}


def error_of(no: Mapping[str, Any], author: Optional[str] = None) -> Error:
    """The exception for a refusal, or for a reason of the core: `unknown`, `not_sent`, `closed`."""
    why = no["why"]
    if why == "unknown":
        return Unknown(no["restarted"])
    if why == "not_sent":
        return NotSent(no["restarted"])
    if why == "closed":
        return Closed(no.get("sent", False))
    return REASONS.get(why, Refused)(no, author)


def short_words(error: Error) -> str:
    """A refusal as the command-line clients print it: its word, with what it is about."""
    if not isinstance(error, Refused) or isinstance(error, (Changed, Conflict, InUse)):
        return str(error)
    return error.place() + error.members()
