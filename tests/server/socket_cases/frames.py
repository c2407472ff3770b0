"""Tests the server against RFC 6455: forbidden frames, slow and broken streams, and messages in pieces."""
from __future__ import annotations

import contextlib
import itertools
from collections.abc import Callable, Iterator
from typing import Any

from lib.cases import case, each_case, want
from lib.talk import (
    SILENCE,
    be_closed,
    create,
    finish,
    hear,
    hello,
    leave,
    news,
    node,
    ok,
    refused,
    serve_next,
    serving,
    talk,
    welcome,
)
from lib.websocket import (
    BINARY,
    CLOSE,
    CONTINUATION,
    PING,
    PONG,
    TEXT,
    Client,
    Gone,
    close_payload,
    frame,
    head_of_frame,
    head_of_request,
    make_key,
    masked,
    text_frame,
)
from lib.serving import Server

# The most that a frame may hold, and a message in several frames.
MOST, MOST_OF_MESSAGE = 16 << 20, 64 << 20


def too_long(opcode: int, length: int = MOST + 1) -> bytes:
    """The head of a frame that holds too much."""
    return head_of_frame(opcode, length, mask=b"mask")


def begun(payload: bytes = b"{") -> bytes:
    """The first fragment of a text."""
    return frame(TEXT, payload, last=False)


# What a client must not send.
BAD_FRAMES = {
    "a frame without a mask": frame(TEXT, b"{}", is_masked=False),
    "an empty frame without a mask": frame(TEXT, b"", is_masked=False),
    "a close without a mask": frame(CLOSE, close_payload(1000), is_masked=False),
    **{f"the reserved bits {bits:03b}": frame(TEXT, b"{}", reserved=bits) for bits in (4, 2, 1, 7)},
    "a ping with a reserved bit": frame(PING, b"", reserved=4),
    **{f"the reserved opcode {opcode}": frame(opcode, b"{}") for opcode in (3, 4, 5, 6, 7, 11, 12, 13, 14, 15)},
    "a fragment that nothing began": frame(CONTINUATION, b"{}"),
    "a fragment that nothing began, to be continued": frame(CONTINUATION, b"{", last=False),
    "a text inside a text": begun() + frame(TEXT, b"}"),
    "a binary inside a text": begun() + frame(BINARY, b"}"),
    "a ping of 126 bytes": frame(PING, b"x" * 126),
    "a pong of 126 bytes": frame(PONG, b"x" * 126),
    "a close of 126 bytes": frame(CLOSE, close_payload(1000, b"x" * 124)),
    "a ping in fragments": frame(PING, b"x", last=False),
    "a pong in fragments": frame(PONG, b"x", last=False),
    "a close in fragments": frame(CLOSE, close_payload(1000), last=False),
    "a close with half a code": frame(CLOSE, b"\x03"),
    "a close whose reason is no UTF-8": frame(CLOSE, close_payload(1000, b"\xff")),
    "a text with a byte that is never UTF-8": frame(TEXT, b'{"id":2,"do":"map","x":"\xff"}'),
    "a text that ends within a character": frame(TEXT, b'{"id":2,"do":"map","x":"\xc3'),
    "a text with too long a form of a character": frame(TEXT, b"\xc0\xaf"),
    "a text with half of a pair of UTF-16": frame(TEXT, b"\xed\xa0\x80"),
    "a text with more than Unicode has": frame(TEXT, b"\xf4\x90\x80\x80"),
    "a text that is no UTF-8 in its second fragment": begun() + frame(CONTINUATION, b"\xff"),
    "a text over the most": too_long(TEXT),
    "a binary over the most": too_long(BINARY),
    "a second fragment over the most": begun() + too_long(CONTINUATION),
    "a length in two bytes that fits in seven bits": b"\x81\xfe\x00\x02mask" + masked(b"{}", b"mask"),
    "a length in eight bytes that fits in two": b"\x81\xff" + bytes(6) + b"\x00\x7emask" + masked(b"x" * 126, b"mask"),
    "a length of 2^62": too_long(TEXT, 1 << 62),
    "a length with its first bit set": too_long(TEXT, 1 << 63),
    "the greatest length": too_long(TEXT, (1 << 64) - 1),
}


def bad_frame(data: bytes) -> None:
    """These bytes end a session as a fault, after its hello and before it."""
    with serving(workers=1, sessions=4) as server:
        for phase in (after_the_hello, before_the_hello):
            client = phase(server)
            client.send_bytes(data)
            want(client.rest(), b"")
            serve_next(server)
        finish(server, ["paris 0"], "fault", "left", "fault", "left")


@case
def a_fragment_too_many() -> None:
    """A fragment comes after the last fragment of a message. The server answers the message, and the session ends as a
    fault."""
    with serving(workers=1, sessions=2) as server:
        anna = after_the_hello(server)
        anna.send_bytes(begun() + frame(CONTINUATION, b"}") + frame(CONTINUATION, b"}"))
        hear(anna, refused(0, '"why":"bad_id"'))
        want(anna.rest(), b"")
        serve_next(server)
        finish(server, ["paris 0"], "fault", "left")


@case
def codes_that_are_none() -> None:
    """A close with a code that must not be sent ends the session, and it is left open how."""
    codes = (0, 999, 1004, 1005, 1006, 1015, 5000, 65535)
    with serving(workers=1, sessions=2 * len(codes)) as server:
        for code in codes:
            anna = after_the_hello(server)
            anna.close(code)
            anna.rest()
            serve_next(server)
        status, printed, ends = server.finish()
        want((status, printed, set(ends.values()) <= {"left", "fault"}), (0, "listening\nparis 0\n", True))


# Heads that are none, or ask for no WebSocket, and a client that does not wait for the answer (RFC 6455, section 4.1).
BAD_HEADS = {
    "no request": b"hello\r\n\r\n",
    "bytes of any kind": bytes(range(256)) + b"\r\n\r\n",
    "a request by another method": head_of_request(make_key(), first="POST / HTTP/1.1"),
    "a request of an older HTTP": head_of_request(make_key(), first="GET / HTTP/1.0"),
    "a request without an upgrade": head_of_request(make_key(), upgrade=None),
    "a request with another upgrade": head_of_request(make_key(), upgrade="h2c"),
    "a request without its connection line": head_of_request(make_key(), connection=None),
    "a request with another connection line": head_of_request(make_key(), connection="close"),
    "a request without a key": head_of_request("", sec_websocket_key=None),
    "a request without a version": head_of_request(make_key(), sec_websocket_version=None),
    "a request with another version": head_of_request(make_key(), sec_websocket_version="12"),
    "a request with a frame after it": head_of_request(make_key()) + text_frame(hello("anna")),
}


def bad_head(data: bytes) -> None:
    """These bytes, in the place of a request, end a session as a fault."""
    with serving(workers=1, sessions=2) as server:
        anna = server.connect()
        anna.send_bytes(data)
        want(anna.rest(), b"")
        serve_next(server)
        finish(server, ["paris 0"], "fault", "left")


@case
def other_heads() -> None:
    """The server serves each path, also if the head has more lines than needed. It takes no offered extension or
    protocol."""
    heads: tuple[dict[str, Any], ...] = (
        {"first": "GET /any/path?room=paris HTTP/1.1"},
        {"connection": "keep-alive, Upgrade", "upgrade": "WebSocket"},
        {"origin": "http://localhost:8000", "user_agent": "x" * 1000, "cookie": "a=b"},
        {"sec_websocket_extensions": "permessage-deflate; client_max_window_bits", "sec_websocket_protocol": "chat"},
    )
    with serving(workers=1, sessions=len(heads)) as server:
        for head in heads:
            client = server.connect().shake_hands(**head)
            talk(client, hello("anna"), welcome(0))
            leave(client)
        finish(server, ["paris 0"], *["left"] * len(heads))


# The phases of a session. Each function returns a client in this phase.


def before_the_head(server: Server) -> Client:
    """Connected, and nothing sent."""
    return server.connect()


def in_the_head(server: Server) -> Client:
    """With half of the request sent."""
    client = server.connect()
    head = head_of_request(make_key())
    return half_sent(client, head[: len(head) // 2])


def before_the_hello(server: Server) -> Client:
    """With hands shaken."""
    return server.client()


def after_the_hello(server: Server) -> Client:
    """With its welcome."""
    client = server.client()
    talk(client, hello("anna"), welcome(0))
    return client


def in_a_frame(server: Server) -> Client:
    """With half of a message sent."""
    message = text_frame(create(2))
    return half_sent(after_the_hello(server), message[: len(message) // 2])


def in_the_head_of_a_frame(server: Server) -> Client:
    """With a part of a length sent."""
    return half_sent(after_the_hello(server), head_of_frame(TEXT, 1000, mask=b"mask")[:3])


def in_a_message(server: Server) -> Client:
    """With one fragment of a message sent."""
    return half_sent(after_the_hello(server), begun(create(2)[:20].encode()))


def in_a_frame_of_the_most(server: Server) -> Client:
    """With a part of the longest frame sent, which is waited for."""
    return half_sent(after_the_hello(server), head_of_frame(TEXT, MOST, mask=b"mask") + b"x" * 1000)


def half_sent(client: Client, data: bytes) -> Client:
    """Sends what is not the whole, and nothing comes for it."""
    client.send_bytes(data)
    want(client.is_quiet(SILENCE), True)
    return client


PHASES = [before_the_head, in_the_head, before_the_hello, after_the_hello, in_the_head_of_a_frame, in_a_frame]
PHASES += [in_a_message, in_a_frame_of_the_most]


def reset(phase: Callable[..., Any]) -> None:
    """The connection is reset."""
    with serving(workers=1, sessions=2) as server:
        phase(server).reset()
        serve_next(server)
        finish(server, ["paris 0"], "fault", "left")


def end(phase: Callable[..., Any]) -> None:
    """The stream ends without a close, and nothing more comes back."""
    with serving(workers=1, sessions=2) as server:
        client = phase(server)
        client.end()
        want(client.rest(), b"")
        serve_next(server)
        finish(server, ["paris 0"], "fault", "left")


def silence(phase: Callable[..., Any]) -> None:
    """The client sends nothing more. Another worker serves the clients after it."""
    with serving(workers=2, sessions=4) as server:
        client = phase(server)
        for _ in range(3):
            serve_next(server)
        want(client.is_quiet(0), True)
        client.drop()
        finish(server, ["paris 0"], "fault", "left", "left", "left")


each_case(bad_frame, BAD_FRAMES)
each_case(bad_head, BAD_HEADS)
for how in (reset, end, silence):
    each_case(how, {f"{how.__name__} {phase.__name__}": phase for phase in PHASES})


@case
def a_head_in_pieces() -> None:
    """Heads in single bytes, and in larger pieces whose pauses are longer than a server waits for more."""
    ways = ((1, 0.04), (8, 0.08), (100, 2 * SILENCE))
    with serving(workers=1, sessions=len(ways)) as server:
        for size, pause in ways:
            client = server.connect().shake_hands(size, pause)
            talk(client, hello("anna"), welcome(0))
            leave(client)
        finish(server, ["paris 0"], *["left"] * len(ways))


@case
def a_frame_in_pieces() -> None:
    """A message whose frame comes in single bytes is answered, and between them come news of the other client's."""
    with serving(sessions=2) as server:
        anna, bob = server.client(), server.client()
        talk(bob, hello("bob"), welcome(0))
        anna.send_pieces(text_frame(hello("anna")), 1, 0.06)
        hear(anna, welcome(0))
        message = text_frame('{"id":3,"do":"undos"}')
        anna.send_pieces(message[:10], 1, 0.06)
        talk(bob, create(2), ok(2, '"seq":1'), news("bob", 1, node()))
        hear(anna, news("bob", 1, node()))
        anna.send_pieces(message[10:], 1, 0.06)
        hear(anna, ok(3, '"redo":[],"undos":[]'))
        leave(anna)
        leave(bob)
        finish(server, ["paris 1"], "left", "left")


@case
def many_in_one_piece() -> None:
    """Messages that come together are answered in their order, each with its news right after the reply."""
    numbers = range(2, 52)
    with serving() as server:
        anna = server.client()
        texts = [hello("anna"), *(create(number, f"n{number}") for number in numbers)]
        anna.send_bytes(b"".join(map(text_frame, texts)))
        hear(anna, welcome(0))
        for number in numbers:
            hear(anna, ok(number, f'"seq":{number - 1}'), news("anna", number - 1, node(el=f"n{number}")))
        leave(anna)
        finish(server, [f"paris {len(numbers)}"], "left")


@case
def pings() -> None:
    """A ping is answered by a pong with what it held, before the hello and after it, and counts as nothing else."""
    with serving() as server:
        anna = server.client()
        for payload in (b"", b"before the hello"):
            anna.send(PING, payload)
            want(anna.read_kind(PONG), payload)
        talk(anna, hello("anna"), welcome(0))
        for payload in (b"", b"\x00\xff", b"x" * 125):
            anna.send(PING, payload)
            want(anna.read_kind(PONG), payload)
        anna.send(PONG, b"which nobody asked for")
        want(anna.is_quiet(SILENCE), True)
        talk(anna, create(2), ok(2, '"seq":1'), news("anna", 1, node()))
        leave(anna)
        finish(server, ["paris 1"], "left")


@case
def fragments() -> None:
    """A text in fragments, one of them empty and one ending within a character, is one message."""
    tags = '{"name":"Café 東京"}'
    text = f'{{"id":2,"do":"retag","el":"n-1","tags":{tags}}}'.encode()
    within = text.index("é".encode()) + 1
    with serving() as server:
        anna = server.client()
        anna.send_bytes(begun(hello("anna").encode()[:9]) + frame(CONTINUATION, hello("anna").encode()[9:]))
        hear(anna, welcome(0))
        talk(anna, create(1), ok(1, '"seq":1'), news("anna", 1, node()))
        anna.send_bytes(begun(text[:3]))
        for piece in (b"", text[3:within], text[within:-1]):
            anna.send(CONTINUATION, piece, last=False)
            want(anna.is_quiet(SILENCE / 3), True)
        anna.send(CONTINUATION, text[-1:])
        hear(anna, ok(2, '"seq":2'), news("anna", 2, node(tags=tags)))
        leave(anna)
        finish(server, ["paris 2"], "left")


@case
def a_ping_between_fragments() -> None:
    """The server answers the ping as well as the text. A binary message may come in fragments, too."""
    with serving() as server:
        anna = after_the_hello(server)
        anna.send_bytes(begun(b'{"id":3,"do"') + frame(PING, b"between") + frame(CONTINUATION, b':"map"}'))
        came = sorted(anna.read() for _ in range(2))
        want(came, [(TEXT, welcome(0, number=3).encode()), (PONG, b"between")])
        anna.send(BINARY, b"\x00", last=False)
        anna.send(CONTINUATION, b"\x00")
        be_closed(anna, 1003)
        finish(server, ["paris 0"], "binary")


def in_frames_of_the_most(text: bytes) -> Iterator[bytes]:
    """The bytes of a text in frames of which all but the last are the longest. The mask changes nothing."""
    for start in range(0, len(text), MOST):
        part, is_last = text[start : start + MOST], start + MOST >= len(text)
        yield head_of_frame(CONTINUATION if start else TEXT, len(part), is_last, mask=bytes(4)) + part


@case
def a_message_over_the_most() -> None:
    """A message of 64 MiB is read. With one more byte it ends the session as a fault."""
    with serving(workers=1, sessions=3) as server:
        for length in (MOST_OF_MESSAGE, MOST_OF_MESSAGE + 1):
            anna = after_the_hello(server)
            head, end = b'{"id":2,"do":"map","x":"', b'"}'
            with contextlib.suppress(Gone):
                for data in in_frames_of_the_most(head + b"x" * (length - len(head) - len(end)) + end):
                    anna.send_bytes(data)
            if length == MOST_OF_MESSAGE:
                hear(anna, welcome(0, number=2))
                leave(anna)
            else:
                want(anna.rest(), b"")
        serve_next(server)
        finish(server, ["paris 0"], "left", "fault", "left")


@case
def a_long_text() -> None:
    """A text of a megabyte is read."""
    with serving() as server:
        anna = after_the_hello(server)
        talk(anna, '{"id":2,"do":"map","x":"%s"}' % ("x" * (1 << 20)), welcome(0, number=2))
        leave(anna)
        finish(server, ["paris 0"], "left")


@case
def closes() -> None:
    """A close is answered with its code, or without one, after the hello and before it."""
    cases = list(itertools.product((1000, 1001, 1003, 1011, 3000, 4999, None), (after_the_hello, before_the_hello)))
    with serving(workers=1, sessions=len(cases)) as server:
        for code, phase in cases:
            leave(phase(server), code)
        finish(server, ["paris 0"], *["left"] * len(cases))


@case
def closes_with_more() -> None:
    """A close may give a reason. The server does not read what comes after it."""
    with serving(workers=1, sessions=2) as server:
        for more in ({"reason": "Tschüß".encode()}, {"reason": b""}):
            anna = after_the_hello(server)
            anna.send_bytes(frame(CLOSE, close_payload(1000, **more)) + text_frame(create(2)))
            want(anna.closed(), 1000)
            want(anna.rest(), b"")
        finish(server, ["paris 0"], "left", "left")


@case
def binaries() -> None:
    """A binary message closes the session with 1003, before the hello and after it, also if the client does not answer
    the close. The server does not read what comes after it."""
    cases = list(itertools.product((after_the_hello, before_the_hello), (b"", b"\x01\x02"), (True, False)))
    with serving(workers=1, sessions=len(cases)) as server:
        for phase, payload, answers in cases:
            anna = phase(server)
            anna.send_bytes(frame(BINARY, payload) + text_frame(create(2)))
            want(anna.closed(), 1003)
            if answers:
                anna.close(1003)
            want(anna.rest(), b"")
        finish(server, ["paris 0"], *["binary"] * len(cases))
