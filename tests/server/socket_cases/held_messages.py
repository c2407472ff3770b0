"""Tests the server of part_lines, which controls two things that `maproom serve` leaves to chance or to its limit: a
message that waits, and sessions that read few messages."""
from __future__ import annotations

from lib.cases import case_if, each_case, given, want
from lib.talk import (
    SILENCE,
    be_closed,
    create,
    finish,
    hear,
    hello,
    leave,
    news,
    node,
    ok,
    refused,
    serving_parts,
    talk,
    welcome,
)
from lib.websocket import text_frame

# How many messages a session reads at most.
FEW = 20


def has_parts() -> bool:
    """Whether part_lines is there."""
    return given.parts is not None


@case_if(has_parts)
def a_held_message() -> None:
    """An undo is held back until a change of another session was answered: both are served at the same time. So the
    undo meets that change, and the news of the change follow its reply."""
    with serving_parts(10_000, sessions=2, is_held=True) as server:
        anna = server.client()
        talk(anna, hello("anna"), welcome(0))
        talk(anna, create(2), ok(2, '"seq":1'), news("anna", 1, node()))
        bob = server.client()
        talk(bob, hello("bob"), welcome(1, node()))
        anna.say('{"id":3,"do":"undo"}')
        want(anna.is_quiet(SILENCE), True)
        moved = news("bob", 2, node("51.5000001"))
        talk(bob, '{"id":2,"do":"move","els":["n-1"],"dlat":1,"dlon":0}', ok(2, '"seq":2'), moved)
        hear(anna, refused(3, '"at":"n-1","why":"conflict","with":2'), moved)
        leave(bob)
        leave(anna)
        finish(server, ["paris 2"], "left", "left")


def as_many_messages_as_may_be(most: int) -> None:
    """A client that says one message more than a session reads gets a close with 1000 in the place of the last reply.
    A wait in which nothing came counts as a message, so a client may be answered less; but one of several is not."""
    clients, numbers = range(5), range(2, most + 2)
    answers = [welcome(0), *(ok(number, '"redo":[],"undos":[]') for number in numbers[:-1])]
    with serving_parts(most, workers=1, sessions=len(clients)) as server:
        answered = []
        for _ in clients:
            anna = server.client()
            asked = [hello("anna"), *(f'{{"id":{number},"do":"undos"}}' for number in numbers)]
            anna.send_bytes(b"".join(map(text_frame, asked)))
            texts = []
            while not anna.is_close_next():
                texts.append(anna.text())
            want(texts, answers[: len(texts)])
            answered.append(len(texts))
            be_closed(anna, 1000)
        want(max(answered), most)
        finish(server, ["paris 0"], *["bound"] * len(clients))


each_case(as_many_messages_as_may_be, {"a_hello_alone": 1, "as_many_messages_as_may_be": FEW}, has_parts)


@case_if(has_parts)
def as_many_waits_as_may_be() -> None:
    """The server closes a silent client with 1000 after as many waits as it may read messages. A client that never
    shakes hands gets nothing."""
    with serving_parts(FEW, workers=1, sessions=3) as server:
        anna = server.client()
        be_closed(anna, 1000)
        bob = server.client()
        talk(bob, hello("bob"), welcome(0))
        be_closed(bob, 1000)
        want(server.connect().rest(), b"")
        finish(server, ["paris 0"], "bound", "bound", "fault")
