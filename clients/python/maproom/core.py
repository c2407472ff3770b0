"""The core of a client: the texts that it sends, and the events that it reports, for the texts that a room sends.

The core knows no sockets and no clock. `clients/js/maproom.js` has the same core, and `tests/texts/clients` fixes
both. docs/CLIENT.md explains the rules.
"""
from __future__ import annotations

import collections
import json
from typing import Any, Callable, Deque, Dict, Iterable, List, Mapping, NamedTuple, Optional, TypedDict, Union


class Named(TypedDict):
    """What every element has: its name and its tags."""

    el: str
    tags: Dict[str, str]


class Element(Named, total=False):
    """An element as a room sends it, for example {"el": "n-1", "lat": "51.5000000", "lon": "-0.1000000", "tags": {}}.

    A node has `lat` and `lon`, a way the ids `nodes`, and a relation `members`: lists of a name and a role.
    """

    lat: str
    lon: str
    nodes: List[int]
    members: List[List[str]]


# A message without its id, and an answer: {"ok": ..} or {"no": ..}.
Message = Mapping[str, Any]
Answer = Dict[str, Any]

QUERIES = frozenset({"get", "map", "undos"})

# No journal has an entry of this number, so an undo of it is never accepted.
NO_ENTRY = 9007199254740991

# New elements get ids below all others, but none of these, which JavaScript would round.
LEAST_ID = -(2**52)


class OutOfStep(Exception):
    """The room sent a text that cannot come next: a gap in the news, for example. Only a new session helps."""


class HelloRefused(Exception):
    """The room refused the hello. `no` has the reason."""

    def __init__(self, no: Message) -> None:
        super().__init__(compact(no))
        self.no = no


class Row(NamedTuple):
    """An element that differs: its content `before` and `after`. None means that it is not in the map."""

    el: str
    before: Optional[Element]
    after: Optional[Element]


class Change(NamedTuple):
    """The entry `seq` of the journal: who made it (`by`), and the elements that it changed."""

    seq: int
    by: str
    rows: List[Row]


class Reset(NamedTuple):
    """Entries were missed, and the mirror was read anew as of entry `seq`. `rows` has each element that differs.

    `restarted` is True if another run of the server answered, False if the same run did, and None if the core could
    not ask.
    """

    seq: int
    rows: List[Row]
    restarted: Optional[bool]


Event = Union[Change, Reset]


def compact(value: object) -> str:
    """A value as JSON, in the form in which a room writes it."""
    return json.dumps(value, ensure_ascii=False, separators=(",", ":"))


class Asked:
    """A message that waits for its answer."""

    __slots__ = ("id", "message", "text", "done", "times_sent", "is_given_up")

    def __init__(self, number: int, message: Message, done: Callable[[Answer], None]) -> None:
        self.id, self.message, self.done = number, message, done
        self.text = compact({"id": number, **message, "id": number})
        self.times_sent, self.is_given_up = 0, False

    def is_change(self) -> bool:
        """Whether the room might do something."""
        return self.message.get("do") not in QUERIES

    def names_an_entry(self) -> bool:
        """Whether the message has the number of an entry, which means nothing in another journal."""
        return "seq" in self.message or "since" in self.message


class Gap(NamedTuple):
    """The state before a new session, until it is known which run of the server answers."""

    elements: Dict[str, Element]
    seq: int
    authors: Dict[int, str]


class Settling(NamedTuple):
    """An answer whose entry is not in the mirror yet: to an accepted change, or to one that is refused as `changed`."""

    seq: int
    asked: Asked
    answer: Answer


class Core:
    """A client's knowledge of a room: the mirror `elements` by name, the number `seq` of its last entry (None before
    the first welcome), and `authors`, by the number of the entry.

    Each method returns the texts to send. `events` collects what happened, and the caller empties it. At most `window`
    messages are on their way at once.
    """

    def __init__(self, room: str, name: str, first_id: int = 2, window: int = 1) -> None:
        self.room, self.name, self.next_id, self.window = room, name, first_id, window
        self.elements: Dict[str, Element] = {}
        self.seq: Optional[int] = None
        self.authors: Dict[int, str] = {}
        self.events: List[Event] = []
        self.take_next: Optional[Callable[[Any], List[str]]] = None
        self.accepted: Optional[List[int]] = None  # the id and the entry of the last accepted change of this run
        self.sent: Deque[Asked] = collections.deque()  # sent in this session, and not answered
        self.queued: Deque[Asked] = collections.deque()  # not sent in this session
        self.settling: Deque[Settling] = collections.deque()
        self.gap: Optional[Gap] = None
        self.lowest = dict.fromkeys("nwr", 0)

    # ---- Sessions

    def is_here(self) -> bool:
        """Whether the session has begun, so that a message goes out at once."""
        return self.take_next == self.take_answer

    def begin(self) -> List[str]:
        """Begins a session."""
        self.end()
        self.take_next = self.take_welcome
        return [compact({"id": 1, "do": "hello", "room": self.room, "name": self.name})]

    def end(self) -> None:
        """Ends the session: the connection is gone."""
        self.take_next = None
        self.sent.extend(self.queued)
        self.queued = collections.deque(asked for asked in self.sent if not asked.is_given_up)
        self.sent.clear()

    def close(self, no: Message) -> None:
        """Ends everything. What has no answer is answered with `no`."""
        self.end()
        self.settle()
        waiting, self.queued = self.queued, collections.deque()
        for asked in waiting:
            asked.done({"no": {**no, "sent": asked.times_sent > 0 and asked.is_change()}})

    def pending(self) -> int:
        """How many messages have no answer yet."""
        return len(self.sent) + len(self.queued) + len(self.settling)

    # ---- Messages

    def add(
        self, message: Message, done: Callable[[Answer], None] = lambda answer: None, number: Optional[int] = None
    ) -> Asked:
        """Adds a message that `send_more` sends. `done` gets {"ok": ..} or {"no": ..}. By then the mirror has an
        accepted change, and the entry that a refusal `changed` names.

        The core gives each message an id of its own, because an accepted change spends it. `number` is another id.
        """
        asked = Asked(self.next_id if number is None else number, message, done)
        self.next_id += number is None
        self.queued.append(asked)
        return asked

    def ask(self, message: Message, done: Callable[[Answer], None] = lambda answer: None) -> List[str]:
        """Adds a message, and returns the texts to send."""
        self.add(message, done)
        return self.send_more()

    @staticmethod
    def give_up(asked: Asked) -> None:
        """Forgets a message: it is not sent if it was not sent yet, and never sent again."""
        asked.is_given_up, asked.done = True, lambda answer: None

    def probe(self) -> List[str]:
        """A small question whose answer shows that the session is alive, if no other message is on its way."""
        return self.ask({"do": "get", "el": "n1"}) if self.is_here() and not self.sent else []

    def send_more(self) -> List[str]:
        """The messages that may go out now."""
        texts: List[str] = []
        while self.is_here() and self.queued and len(self.sent) < self.window:
            asked = self.queued.popleft()
            if not asked.is_given_up:
                asked.times_sent += 1
                self.sent.append(asked)
                texts.append(asked.text)
        return texts

    def new_name(self, kind: str) -> str:
        """A name for a new element of a kind, `n`, `w` or `r`, that the mirror does not have."""
        self.lowest[kind] -= 1
        while f"{kind}{self.lowest[kind]}" in self.elements:
            self.lowest[kind] -= 1
        return f"{kind}{self.lowest[kind]}"

    # ---- What the room sends

    def take(self, text: str) -> List[str]:
        """Takes a text of the room's.

        Raises OutOfStep if a new session has to begin, and HelloRefused if the hello was refused.
        """
        try:
            reply = json.loads(text)
            if "news" in reply:
                return self.take_news(reply["news"])
            return self.take_next(reply) if self.take_next else []
        except (ValueError, KeyError, TypeError, AttributeError) as fault:
            raise OutOfStep(f"the room sent {text[:200]}") from fault

    def take_welcome(self, reply: Any) -> List[str]:
        """Takes the answer to the hello, and asks which run of the server it is from."""
        if "no" in reply:
            raise HelloRefused(reply["no"])
        elements, seq = {element["el"]: element for element in reply["ok"]["map"]}, int(reply["ok"]["seq"])
        last, self.seq = self.seq, seq
        if last is not None and self.gap is None:
            self.gap = Gap(dict(self.elements), last, self.authors)
        self.authors = {}
        self.elements.clear()
        self.elements.update(elements)
        for name in elements:
            self.note_name(name)
        if last is None:
            self.take_next = self.take_answer
            return self.send_more()
        if seq < last:
            return self.go_on(True)
        if self.accepted is None:
            return self.go_on(None)
        self.take_next = self.take_run
        return [compact({"id": self.accepted[0], "do": "undo", "seq": NO_ENTRY})]

    def take_run(self, reply: Any) -> List[str]:
        """Takes the answer to the restart question: the same run repeats the entry that spent the id."""
        assert self.accepted is not None
        no = reply.get("no", {})
        if reply["id"] not in (0, self.accepted[0]) or no.get("why") == "memory":
            raise OutOfStep("the server did not say which run it is")
        return self.go_on((no.get("why"), no.get("seq")) != ("repeat", self.accepted[1]))

    def go_on(self, restarted: Optional[bool]) -> List[str]:
        """Goes on in the same run of the server, in another one, or in one that may be another (None)."""
        assert self.gap is not None and self.seq is not None
        gap, self.gap = self.gap, None
        self.take_next = self.take_answer
        if restarted is False:
            self.authors = {**gap.authors, **self.authors}
        elif restarted:
            self.authors = {}
        rows = differences(gap.elements, self.elements)
        if rows or restarted or self.seq != gap.seq:
            self.events.append(Reset(self.seq, rows, restarted))
        self.settle()
        if restarted is not False:
            self.accepted = None
            self.drop_changes(restarted is True)
        return self.send_more()

    def drop_changes(self, restarted: bool) -> None:
        """Drops the messages that were meant for another journal, or may have been."""
        waiting, self.queued = self.queued, collections.deque()
        dropped = []
        for asked in waiting:
            is_sent = asked.times_sent > 0
            asked.times_sent = 0
            if asked.is_change() and (is_sent or restarted or asked.names_an_entry()):
                dropped.append((asked, {"why": "unknown" if is_sent else "not_sent", "restarted": restarted}))
            else:
                self.queued.append(asked)
        for asked, no in dropped:
            asked.done({"no": no})

    def take_answer(self, reply: Any) -> List[str]:
        """Takes an answer, which is to the message that was sent first. The room may not have read its id."""
        if not self.sent or reply["id"] not in (0, self.sent[0].id):
            raise OutOfStep("the room answered a message that was not sent")
        assert self.seq is not None
        asked = self.sent.popleft()
        # A repeat of a message that was sent before is its lost answer.
        if asked.times_sent > 1 and "no" in reply and reply["no"]["why"] == "repeat":
            reply = {"ok": {"seq": reply["no"]["seq"]}}
        answer = {key: reply[key] for key in ("ok", "no") if key in reply}
        seq = entry_of(asked, answer)
        if "ok" in answer and asked.is_change():
            self.accepted = [asked.id, seq]
        if seq > self.seq:
            self.settling.append(Settling(seq, asked, answer))
        else:
            asked.done(answer)
        return self.send_more()

    def take_news(self, news: Any) -> List[str]:
        """Takes what an entry changed."""
        if self.take_next in (None, self.take_welcome) or self.seq is None or news["seq"] != self.seq + 1:
            raise OutOfStep(f"the news of entry {news['seq']} came after {self.seq}")
        self.seq = int(news["seq"])
        self.authors[self.seq] = news["by"]
        rows = []
        for row in news["rows"]:
            name = row["el"]
            before, after = self.elements.get(name), None if row.get("gone") else row
            rows.append(Row(name, before, after))
            if after is None:
                self.elements.pop(name, None)
            else:
                self.elements[name] = after
                self.note_name(name)
        if self.gap is None:
            self.events.append(Change(self.seq, news["by"], rows))
            self.settle(self.seq)
        return []

    def settle(self, seq: Optional[int] = None) -> None:
        """Reports the answers whose entries are in the mirror up to an entry, or all."""
        while self.settling and (seq is None or self.settling[0].seq <= seq):
            settled = self.settling.popleft()
            settled.asked.done(settled.answer)

    def note_name(self, name: str) -> None:
        """Keeps new names below all that the mirror has."""
        if name[1] == "-":
            number = int(name[1:])
            if LEAST_ID < number < self.lowest[name[0]]:
                self.lowest[name[0]] = number


def entry_of(asked: Asked, answer: Answer) -> int:
    """The entry that the mirror needs before an answer is reported, or 0. After a refusal `changed` a caller looks at
    the mirror again, and would find it unchanged before the news of that entry."""
    if "no" in answer:
        return int(answer["no"]["with"]) if answer["no"]["why"] == "changed" else 0
    return int(answer["ok"]["seq"]) if asked.is_change() else 0


def differences(before: Mapping[str, Element], after: Mapping[str, Element]) -> List[Row]:
    """The elements in which two maps differ."""
    rows = [Row(name, element, after.get(name)) for name, element in before.items() if element != after.get(name)]
    return rows + [Row(name, None, element) for name, element in after.items() if name not in before]


def folded(events: Iterable[Event]) -> Reset:
    """The events of a row as one reset."""
    first: Dict[str, Row] = {}
    seq, restarted = 0, False
    unknown = False
    for event in events:
        seq = event.seq
        if isinstance(event, Reset):
            restarted, unknown = restarted or event.restarted is True, unknown or event.restarted is None
        for row in event.rows:
            before = first[row.el].before if row.el in first else row.before
            first[row.el] = Row(row.el, before, row.after)
    rows = [row for row in first.values() if row.before != row.after]
    return Reset(seq, rows, restarted or (None if unknown else False))


def event_as_json(event: Event) -> Dict[str, Any]:
    """A change or a reset as one object, for a line of JSON."""
    rows = [row._asdict() for row in event.rows]
    if isinstance(event, Change):
        return {"seq": event.seq, "by": event.by, "rows": rows}
    return {"seq": event.seq, "reset": True, "restarted": event.restarted, "rows": rows}
