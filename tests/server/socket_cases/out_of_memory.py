"""Tests the server if an allocation fails: each allocation of a run, from the first to the last."""
from __future__ import annotations

import collections
import itertools
from collections.abc import Sequence
from typing import NamedTuple, Optional

from lib.cases import each_case, want
from lib.failed_allocations import refusing
from lib.faulty import Faulty, logged
from lib.talk import GONE, create, hello, news, node, ok, refused, welcome
from lib.websocket import CLOSE, TEXT, Broken, Client, Gone, close_payload

# What the program prints if it ends because an allocation failed. The system also allocates for a thread.
NO_MEMORY, NO_WORKER = "maproom: no memory\n", "maproom: cannot start a worker\n"

MEMORY = '"why":"memory"'

# The outcomes of a refused allocation, besides a session's end by `memory` or `fault`.
BEGINNING, ANSWERED, DONE, END = "before all sessions", "answered", "done without", "after all sessions"

# The messages of each session, with the same ids each time, so nothing is done twice. The rows by the number of
# entries, in front of those of the map that the room began with.
MESSAGES = {1: hello("anna"), 2: create(2), 3: '{"id":3,"do":"map"}', 4: '{"id":4,"do":"undo"}'}
ROWS: dict[int, tuple[str, ...]] = {0: (), 1: (node(),), 2: ()}


class Run(NamedTuple):
    """A run: the number of sessions, the rooms, the first of which is used, and the rows of their map, if any."""

    sessions: int
    rooms: tuple[str, ...] = ("paris",)
    rows: Optional[tuple[str, ...]] = None


# A map with an element of each kind.
BASE_ROWS = (
    node(el="n1", tags='{"name":"Café"}'),
    '{"el":"w1","nodes":[1,1],"tags":{}}',
    '{"el":"r1","members":[["w1","outer"],["r1",""]],"tags":{}}',
)


def answer(run: Run, number: int, seq: int) -> tuple[list[str], int]:
    """The texts with which a room that has `seq` entries answers a message, and its number of entries afterwards."""
    if number in (1, 3):
        return [welcome(seq, *ROWS[seq], *(run.rows or ()), number=number)], seq
    if number == 2 and seq == 0:
        return [ok(2, '"seq":1'), news("anna", 1, node())], 1
    if number == 4 and seq == 1:
        return [ok(4, '"seq":2,"undid":1'), news("anna", 2, GONE)], 2
    return [refused(number, f'"seq":{number // 2},"why":"repeat"')], seq


class Closed(Exception):
    """The server has closed the session because an allocation failed."""


def next_text(client: Client) -> str:
    """The next text."""
    opcode, payload = client.read()
    if opcode == CLOSE:
        want(payload, close_payload(1011))
        raise Closed
    want(opcode, TEXT)
    return payload.decode()


class Received:
    """What a room sent so far in the sessions of a run: the numbers of entries that it may have, how often it answered
    `memory`, and the message that it answered `repeat` although only a close had answered it before."""

    def __init__(self, run: Run) -> None:
        self.run, self.seqs = run, {0}
        self.memory = self.asked = self.closed = 0
        self.repeated: Optional[int] = None

    def ask(self, client: Client, number: int) -> None:
        """Sends a message, and once more if the answer is `memory`. Expects the texts of a room with a possible number
        of entries."""
        before, text = self.seqs, self.first_text(client, number)
        if text in (refused(number, MEMORY), refused(0, MEMORY)):
            self.memory, self.seqs = self.memory + 1, before
            want(self.memory, 1)
            text = self.first_text(client, number)
        possible = [answer(self.run, number, seq) for seq in before]
        found = [each for each in possible if each[0][0] == text]
        if len(found) != 1:
            raise Broken(f"the message {number} is answered {text!r} by a room with {before} entries")
        texts, after = found[0]
        self.seqs = {after}
        if number == self.closed and '"why":"repeat"' in text:
            self.repeated = number
        for other in texts[1:]:
            want(next_text(client), other)

    def first_text(self, client: Client, number: int) -> str:
        """Sends a message, and returns the first text that comes. If the session ends before, the server may have done
        the message. If the server closes the session, it has done it: only the allocation for the text failed."""
        self.asked, afterwards = number, {answer(self.run, number, seq)[1] for seq in self.seqs}
        self.seqs = self.seqs | afterwards
        client.say(MESSAGES[number])
        try:
            return next_text(client)
        except Closed:
            self.seqs, self.closed = afterwards, number
            raise

    def play(self, server: Faulty) -> str:
        """Plays a session to its end. Returns how it ended."""
        try:
            client = server.client()
        except (Gone, ConnectionError):
            return "fault"
        try:
            for number in MESSAGES:
                self.ask(client, number)
            client.close()
            want((client.closed(), client.rest()), (1000, b""))
            return "left"
        except Gone:
            want(client.rest(), b"")
            return "fault"
        except Closed:
            client.close(1011)
            want(client.rest(), b"")
            return "memory"


def outcome(server: Faulty, received: Received, seen: Sequence[str]) -> str:
    """Checks that the program ended as it may if an allocation was refused. Returns what came of it."""
    found = server.end()
    served = {number: logged(end) for number, end in enumerate(seen, 1)}
    first, *others = received.run.rooms
    idle = "".join(f"{room} 0\n" for room in others)
    if found in [(0, f"listening\n{first} {seq}\n{idle}", served, []) for seq in received.seqs]:
        came = [end for end in seen if end != "left"] + [ANSWERED] * received.memory
        want(len(came) <= 1, True)
        return came[0] if came else DONE
    if received.asked == 0:
        lines = [NO_MEMORY, NO_WORKER] if found[1] else [NO_MEMORY]
        want(found, (1, "listening\n" if seen else "", {}, [line for line in lines if [line] == found[3]]))
        return BEGINNING
    want((found, set(seen)), ((1, "listening\n", served, [NO_MEMORY]), {"left"}))
    return END


def refuse(growth: int, received: Received) -> Optional[str]:
    """Refuses an allocation in a run. Returns what came of it, or None if the run has no such allocation."""
    sessions, rooms, rows = received.run
    base = None if rows is None else welcome(7, *rows) + "\n"
    with Faulty(refusing(growth), rooms, sessions=sessions, base=base) as server:
        has_begun = server.content(server.output) == "listening\n"
        seen = [received.play(server) for _ in range(sessions)] if has_begun else []
        what = outcome(server, received, seen)
        return what if server.has_failed() else None


def each_growth(run: Run) -> None:
    """Refuses each allocation of a run, each in a run of its own. Each possible outcome comes at least once. With a
    second client, each change is answered `repeat` in at least one run."""
    outcomes: collections.Counter[str] = collections.Counter()
    repeated: set[Optional[int]] = set()
    for growth in itertools.count(1):
        received = Received(run)
        what = refuse(growth, received)
        if what is None:
            break
        outcomes[what] += 1
        repeated.add(received.repeated)
    print(f"{growth - 1} allocations were refused: {', '.join(f'{count} {what}' for what, count in outcomes.items())}")
    want(set(outcomes) - {DONE}, {BEGINNING, ANSWERED, "memory", "fault", END})
    wanted: set[Optional[int]] = {None} if run.sessions == 1 else {None, 2, 4}
    want(repeated, wanted)


each_case(
    each_growth,
    {
        "each growth, one session": Run(1),
        "each growth, two sessions": Run(2),
        "each growth, two rooms on a base": Run(1, ("paris", "rome"), BASE_ROWS),
    },
)
