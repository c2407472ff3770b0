"""Tests the server if a system call fails: each read and write of a session, writes to a client that reads nothing,
and the calls by which the program listens, accepts and starts its workers."""
from __future__ import annotations

import contextlib
import errno
import functools
import itertools
import time
from typing import NamedTuple
from collections.abc import Sequence

from lib.cases import case, each_case, want
from lib.faulty import WHOLE, failing, finish, impatient
from lib.talk import GONE, create, hello, leave, news, node, ok, refused, serve_next, serving, talk, welcome
from lib.websocket import (
    BINARY,
    CLOSE,
    MOST_OF_CONTROL,
    PING,
    PONG,
    TEXT,
    Gone,
    close_payload,
    frame,
    head_of_request,
    make_key,
    text_frame,
)
from lib.serving import Server
from lib.websocket import Client

# What a client sends, what it gets, and how many entries the room has afterwards.


class Step(NamedTuple):
    """A step of a session: what the client sends, what the server has to answer, and its number of entries then."""

    sent: bytes
    wanted: bytes
    seq: int


KEY = make_key()


def said(*texts: str) -> bytes:
    """The bytes of texts, as a server sends them."""
    return b"".join(frame(TEXT, text.encode(), is_masked=False) for text in texts)


def closing(code: int | None, is_masked: bool) -> bytes:
    """The bytes of a close."""
    return frame(CLOSE, close_payload(code), is_masked=is_masked)


# The steps of a session, after the handshake and before its end. Its rows by the number of entries.
STORY = [
    Step(text_frame(hello("anna")), said(welcome(0)), 0),
    Step(frame(PING, b"ping"), frame(PONG, b"ping", is_masked=False), 0),
    Step(text_frame(create(2)), said(ok(2, '"seq":1'), news("anna", 1, node())), 1),
    Step(text_frame('{"id":3,"do":"undo"}'), said(ok(3, '"seq":2,"undid":1'), news("anna", 2, GONE)), 2),
]
ROWS: dict[int, tuple[str, ...]] = {0: (), 1: (node(),), 2: ()}

# The ways in which a session ends: what the client sends last and, if the server closes, the client's answer.
ENDINGS = {
    "left": [Step(closing(1000, True), closing(1000, False), 2)],
    "binary": [Step(frame(BINARY, b"\x00"), closing(1003, False), 2), Step(closing(1003, True), b"", 2)],
}


@functools.lru_cache(maxsize=None)
def handshake() -> Step:
    """The first step: the head of a request, and the answer of a server without faults."""
    with serving(workers=1, sessions=1) as server:
        client = server.connect()
        client.send_bytes(head_of_request(KEY))
        while not client.came.endswith(b"\r\n\r\n"):
            client.wait(client.deadline())
        return Step(head_of_request(KEY), bytes(client.came), 0)


def play(client: Client, story: Sequence[Step]) -> tuple[int, bytes]:
    """Plays a story as far as possible. Returns how many steps were answered, and what else came before the end."""
    for place, step in enumerate(story):
        try:
            client.send_bytes(step.sent)
            client.wait_for(len(step.wanted), client.deadline())
        except Gone:
            return place, client.rest()
        want(client.take(len(step.wanted)), step.wanted)
    return len(story), client.rest()


class Fault(NamedTuple):
    """A kind of calls that fail: the call, the error, how many bytes move at once, and the usual end of the session."""

    call: str
    why: int
    piece: int
    ending: str


def is_passed_over(fault: Fault) -> bool:
    """Whether the program repeats a call that fails so. These are reads in which nothing comes, and reads and writes
    that a signal interrupts."""
    return fault.why == errno.EINTR or (fault.call == "read" and fault.why == errno.EAGAIN)


def end_of(fault: Fault, place: int) -> str:
    """How a session ends if the fault comes after this number of answered steps: as usual if the failed write was that
    of the close, or the failed read that of its answer."""
    close = 1 + len(STORY)
    is_closing = place == close if fault.call == "write" else place > close and fault.ending == "binary"
    return fault.ending if is_closing or is_passed_over(fault) else "fault"


def serve_after(server: Server, seq: int) -> int:
    """The next client finds the accepted changes, and gets `repeat` if it sends a change again. Returns the number of
    entries then."""
    client = server.client()
    talk(client, hello("anna"), welcome(seq, *ROWS[seq]))
    if seq:
        talk(client, create(2), refused(2, '"seq":1,"why":"repeat"'))
    else:
        talk(client, create(2), ok(2, '"seq":1'), news("anna", 1, node()))
    leave(client)
    return max(seq, 1)


def fail_in_session(fault: Fault, number: int) -> bool:
    """Fails a call. If it belongs to the first client's connection, this session ends, and the same worker serves the
    second client. Otherwise it is the first call of the second connection, in which nothing comes. Returns whether it
    belongs to the first."""
    story = [handshake(), *STORY, *ENDINGS[fault.ending]]
    with failing(fault.call, number, fault.why, fault.piece, sessions=2) as server:
        place, rest = play(server.connect(), story)
        is_first = server.has_failed()
        if not is_first or is_passed_over(fault):
            want((place > 1 + len(STORY), rest), (True, b""))
        want(place == len(story) or story[place].wanted.startswith(rest), True)
        if is_first or is_passed_over(fault):
            heard = story[: place + (fault.call == "write")]
            entry_count = serve_after(server, heard[-1].seq if heard else 0)
            finish(server, entry_count, end_of(fault, place), "left")
        else:
            want(play(server.connect(), story), (0, b""))
            finish(server, 2, fault.ending, "fault")
        return is_first


def each_call(fault: Fault) -> None:
    """Fails each call of a session, each in a run of its own."""
    for number in itertools.count(1):
        if not fail_in_session(fault, number):
            want(number > len(STORY), True)
            break


ERRORS = {"read": (errno.ECONNRESET, errno.EINTR, errno.EAGAIN), "write": (errno.EPIPE, errno.EAGAIN, errno.EINTR)}
# So few bytes that most reads and writes are cut.
PIECE = 15
FAULTS = [
    Fault(call, why, piece, ending)
    for call, errors in ERRORS.items()
    for why, piece, ending in itertools.product(errors, (WHOLE, PIECE), ENDINGS)
]


def name_of(fault: Fault) -> str:
    """What a fault is called."""
    pieces = "" if fault.piece == WHOLE else " in pieces"
    return f"each {fault.call}{pieces} fails by {errno.errorcode[fault.why]}, {fault.ending}"


each_case(each_call, {name_of(fault): fault for fault in FAULTS})


@case
def news_that_cannot_be_sent() -> None:
    """If the server cannot send news to a silent client, this session ends. The other session goes on."""
    with failing("write", 3, errno.EPIPE, session=1, workers=2, sessions=3) as server:
        anna, bob = server.client(), server.client()
        for client, name in ((anna, "anna"), (bob, "bob")):
            talk(client, hello(name), welcome(0))
        talk(bob, create(2), ok(2, '"seq":1'), news("bob", 1, node()))
        want(anna.rest(), b"")
        talk(bob, '{"id":3,"do":"map"}', welcome(1, node(), number=3))
        leave(bob)
        serve_next(server, "zoe", 1, node())
        finish(server, 1, "fault", "left", "left")


# For how many seconds a client may read nothing (docs/SERVER.md), and by what a test divides them.
MOST_SECONDS, DIVISOR = 30, 60


def nothing_read(data: bytes) -> None:
    """A client sends these frames again and again, and reads no answer. When a write has reached its time limit, the
    session ends as a fault, and the same worker serves the next client."""
    with impatient(DIVISOR, sessions=2) as server:
        client = server.client(buffer=4096)
        talk(client, hello("anna"), welcome(0))
        begun = time.monotonic()
        with contextlib.suppress(Gone):
            while True:
                client.send_bytes(data * 1000)
        want(time.monotonic() - begun >= MOST_SECONDS / DIVISOR, True)
        finish(server, serve_after(server, 0), "fault", "left")


each_case(
    nothing_read,
    {
        "a client that reads no replies": text_frame('{"id":2,"do":"map"}'),
        "a client that reads no pongs": frame(PING, b"x" * MOST_OF_CONTROL),
    },
)


@case
def handshakes_that_fail() -> None:
    """Three in a row, by their heads and by the answer that cannot be sent. Then the same worker serves, and stops."""
    with failing("write", 1, sessions=4) as server:
        for head in (b"hello\r\n\r\n", b"GET / HTTP/1.1\r\n\r\n", head_of_request(KEY)):
            client = server.connect()
            client.send_bytes(head)
            want(client.rest(), b"")
        finish(server, serve_after(server, 0), "fault", "fault", "fault", "left")


@case
def accepts_that_fail() -> None:
    """An accept that fails is a session that ends as a fault, and the connection is left for the next one."""
    for number, why in itertools.product((1, 2, 3), (errno.ECONNABORTED, errno.EMFILE)):
        with failing("accept", number, why, sessions=3) as server:
            for _ in range(2):
                serve_next(server)
            finish(server, 0, *[None if session == number else "left" for session in (1, 2, 3)])


@case
def an_accept_that_is_interrupted() -> None:
    """It is made again, and is no session."""
    with failing("accept", 1, errno.EINTR, sessions=2) as server:
        serve_next(server)
        want(server.has_failed(), True)
        serve_next(server)
        finish(server, 0, "left", "left")


@case
def all_accepts_that_fail() -> None:
    """If no accept succeeds, the program ends with the last one."""
    with failing("accept", 1, sessions=1) as server:
        finish(server, 0, None)


def time_limit(option: str) -> None:
    """A connection whose reads or writes would not end is not accepted, and ends. The others are served."""
    for number in (1, 2, 3):
        with failing(option, number, errno.ENOPROTOOPT, sessions=3) as server:
            for session in (1, 2, 3):
                if session == number:
                    want(server.connect().rest(), b"")
                else:
                    serve_next(server)
            finish(server, 0, *[None if session == number else "left" for session in (1, 2, 3)])


each_case(time_limit, {f"a connection without its {option}": option for option in ("read_time", "write_time")})


@case
def no_delay_that_fails() -> None:
    """TCP_NODELAY is best effort: the server serves the client without it."""
    with failing("no_delay", 1, sessions=1) as server:
        entry_count = serve_after(server, 0)
        want(server.has_failed(), True)
        finish(server, entry_count, "left")


@case
def workers_that_do_not_start() -> None:
    """If the thread of a worker does not start, the server serves nobody. The other workers stop, and the program
    ends."""
    for number in (1, 2, 3):
        with failing("thread", number, errno.EAGAIN, workers=3) as server:
            want(server.end(), (1, "listening\n", {}, ["maproom: cannot start a worker\n"]))
    with failing("thread", 4, workers=3) as server:
        finish(server, serve_after(server, 0), "left")


@case
def addresses_that_are_refused() -> None:
    """A program that cannot listen reports it, before it prints anything."""
    for call, why in (
        ("bind", errno.EACCES),
        ("bind", errno.EADDRINUSE),
        ("listen", errno.EADDRINUSE),
        ("reuse", errno.ENOMEM),
    ):
        with failing(call, 1, why) as server:
            want(server.end(), (1, "", {}, ["maproom: cannot listen\n"]))
