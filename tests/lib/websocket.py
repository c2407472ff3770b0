"""Speaks WebSockets (RFC 6455) as a client, for tests. It sends any frames, also those that a client must not send, and
refuses those that a server must not send.

`Client(port)` connects, `shake_hands` sends the head of the request and checks the answer, `send` sends a frame, and
`read` returns the next frame. They raise `Late` if nothing comes in time, `Broken` if the server breaks the protocol,
and `Gone` after the end of the connection.
"""
from __future__ import annotations

import base64
import hashlib
import os
import socket
import struct
import time
from typing import Any

CONTINUATION, TEXT, BINARY, CLOSE, PING, PONG = 0, 1, 2, 8, 9, 10
NAMES = {CONTINUATION: "continuation", TEXT: "text", BINARY: "binary", CLOSE: "close", PING: "ping", PONG: "pong"}

# The longest payload of a control frame.
MOST_OF_CONTROL = 125

# A server adds this to the key of a request, and answers with the hash of both.
SALT = b"258EAFA5-E914-47DA-95CA-C5AB0DC85B11"


class Late(Exception):
    """Nothing came in time."""


class Broken(Exception):
    """The other side broke the protocol, or sent something unexpected."""


class Gone(Exception):
    """The connection is at its end, or was reset."""


def make_key() -> str:
    """A key for a request: sixteen random bytes."""
    return base64.b64encode(os.urandom(16)).decode()


def answer_to(key: str) -> str:
    """The server's answer to a key."""
    return base64.b64encode(hashlib.sha1(key.encode() + SALT).digest()).decode()


def head_of_request(key: str, first: str = "GET / HTTP/1.1", **others: str | None) -> bytes:
    """The head of a request. `others` changes its lines by name, and None leaves a line out."""
    fields: dict[str, str | None] = {"host": "maproom.test", "upgrade": "websocket", "connection": "Upgrade"}
    fields.update({"sec_websocket_key": key, "sec_websocket_version": "13"}, **others)
    lines = [f"{name.replace('_', '-')}: {value}" for name, value in fields.items() if value is not None]
    return "\r\n".join([first, *lines, "", ""]).encode()


def check_answer(head: bytes, key: str) -> None:
    """Refuses the head of an answer if it does not open a WebSocket, or chooses something that was not offered."""
    first, *lines = head.decode("latin-1").split("\r\n")
    fields = {}
    for line in lines:
        name, _, value = line.partition(":")
        if name.lower() in fields:
            raise Broken(f"the answer has two lines {name}")
        fields[name.lower()] = value.strip()
    if first.split(" ")[:2] != ["HTTP/1.1", "101"]:
        raise Broken(f"the answer begins {first!r}")
    wanted = {"upgrade": "websocket", "connection": "upgrade"}
    found = {name: fields.get(name, "").lower() for name in wanted}
    if found != wanted or fields.get("sec-websocket-accept") != answer_to(key):
        raise Broken(f"the answer has the lines {lines}")
    chosen = {"sec-websocket-extensions", "sec-websocket-protocol"} & set(fields)
    if chosen:
        raise Broken(f"the answer chooses {chosen}, which was not offered")


def masked(payload: bytes, mask: bytes) -> bytes:
    """A payload under a mask. The mask of a masked payload gives the payload back."""
    stream = (mask * (len(payload) // len(mask) + 1))[: len(payload)]
    return (int.from_bytes(payload, "big") ^ int.from_bytes(stream, "big")).to_bytes(len(payload), "big")


def head_of_frame(opcode: int, length: int, last: bool = True, reserved: int = 0, mask: bytes | None = None) -> bytes:
    """The bytes of a frame before its payload of this length."""
    first, bit = last << 7 | reserved << 4 | opcode, (mask is not None) << 7
    if length <= MOST_OF_CONTROL:
        head = struct.pack("!BB", first, bit | length)
    elif length < 1 << 16:
        head = struct.pack("!BBH", first, bit | 126, length)
    else:
        head = struct.pack("!BBQ", first, bit | 127, length)
    return head + (mask or b"")


def frame(opcode: int, payload: bytes = b"", last: bool = True, reserved: int = 0, is_masked: bool = True) -> bytes:
    """The bytes of a frame, by default as a client sends it."""
    mask = os.urandom(4) if is_masked else None
    head = head_of_frame(opcode, len(payload), last, reserved, mask)
    return head + (masked(payload, mask) if mask else payload)


def text_frame(text: str) -> bytes:
    """The bytes of a text message in one frame."""
    return frame(TEXT, text.encode())


def close_payload(code: int | None, reason: bytes = b"") -> bytes:
    """The payload of a close frame, which is empty without a code."""
    return b"" if code is None else struct.pack("!H", code) + reason


def code_of(payload: bytes) -> int | None:
    """The code in the payload of a close frame, or None."""
    return struct.unpack("!H", payload[:2])[0] if payload else None


class Client:
    """A connection to a server on this machine, with the bytes that came and are not read yet."""

    def __init__(self, port: int, patience: float = 20, buffer: int | None = None, host: str = "127.0.0.1") -> None:
        """Connects. Each wait may take `patience` seconds. `buffer` limits the unread bytes that the system keeps.
        `host` is a name or an address; one of IPv6 may be in brackets."""
        self.patience = patience
        self.came = bytearray()
        self.was_reset = False
        family, kind, _, _, address = socket.getaddrinfo(host.strip("[]"), port, type=socket.SOCK_STREAM)[0]
        self.socket = socket.socket(family, kind)
        try:
            if buffer is not None:
                self.socket.setsockopt(socket.SOL_SOCKET, socket.SO_RCVBUF, buffer)
            self.socket.setsockopt(socket.IPPROTO_TCP, socket.TCP_NODELAY, 1)
            self.socket.settimeout(patience)
            self.socket.connect(address)
        except socket.timeout as error:
            self.drop()
            raise Late("the connection was not made in time") from error
        except OSError:
            self.drop()
            raise

    def __enter__(self) -> Client:
        return self

    def __exit__(self, *_: object) -> None:
        self.drop()

    def drop(self) -> None:
        """Closes the connection without a close frame."""
        self.socket.close()

    def reset(self) -> None:
        """Makes the system reset the connection, as if the program were killed with unread bytes."""
        self.socket.setsockopt(socket.SOL_SOCKET, socket.SO_LINGER, struct.pack("ii", 1, 0))
        self.socket.close()

    def end(self) -> None:
        """Sends the end of the stream. The client can still read."""
        self.socket.shutdown(socket.SHUT_WR)

    def send_bytes(self, data: bytes) -> None:
        """Sends bytes unchanged."""
        self.socket.settimeout(self.patience)
        try:
            self.socket.sendall(data)
        except socket.timeout as error:
            raise Late("what was sent was not taken in time") from error
        except ConnectionError as error:
            raise Gone(f"the connection was lost in sending: {error}") from error

    def send_pieces(self, data: bytes, size: int, pause: float) -> None:
        """Sends bytes in pieces of this size, with a pause of `pause` seconds after each."""
        for start in range(0, len(data), size):
            self.send_bytes(data[start : start + size])
            time.sleep(pause)

    def send(self, opcode: int, payload: bytes = b"", **how: bool) -> None:
        """Sends a frame."""
        self.send_bytes(frame(opcode, payload, **how))

    def say(self, text: str) -> None:
        """Sends a text message."""
        self.send_bytes(text_frame(text))

    def close(self, code: int | None = 1000, reason: bytes = b"") -> None:
        """Sends a close frame, without a code if it is None."""
        self.send(CLOSE, close_payload(code, reason))

    def deadline(self, seconds: float | None = None) -> float:
        """The time after which a wait is late."""
        return time.monotonic() + (self.patience if seconds is None else seconds)

    def wait(self, deadline: float) -> None:
        """Waits for more bytes, and keeps them. Bytes that are there already are never late."""
        self.socket.settimeout(max(0.001, deadline - time.monotonic()))
        try:
            more = self.socket.recv(1 << 18)
        except socket.timeout as error:
            raise Late(f"nothing more came in time behind {bytes(self.came[:100])!r}") from error
        except ConnectionError as error:
            self.was_reset = True
            raise Gone(f"the connection was lost behind {bytes(self.came[:100])!r}: {error}") from error
        if not more:
            raise Gone(f"the connection ended behind {bytes(self.came[:100])!r}")
        self.came += more

    def wait_for(self, count: int, deadline: float) -> None:
        """Waits until `count` bytes are there."""
        while len(self.came) < count:
            self.wait(deadline)

    def take(self, count: int) -> bytes:
        """Takes `count` bytes of those that came."""
        taken = bytes(self.came[:count])
        del self.came[:count]
        return taken

    def read_answer(self, key: str, seconds: None = None) -> None:
        """Reads the head of the answer to a request with this key, and checks it."""
        deadline = self.deadline(seconds)
        while b"\r\n\r\n" not in self.came:
            self.wait(deadline)
        check_answer(self.take(self.came.index(b"\r\n\r\n") + 4)[:-4], key)

    def shake_hands(self, size: Any = None, pause: float = 0.0, **others: str) -> Client:
        """Sends the head of a request, in pieces if a size is given, and reads the answer. Returns the client."""
        key = make_key()
        head = head_of_request(key, **others)
        self.send_pieces(head, size or len(head), pause)
        self.read_answer(key)
        return self

    def read(self, seconds: float | None = None) -> tuple[int, bytes]:
        """Reads the next frame. Returns its opcode and its payload. If the frame is not complete in time, nothing is
        read."""
        deadline = self.deadline(seconds)
        self.wait_for(2, deadline)
        first, length, start = self.came[0], self.came[1], 2
        opcode = first & 15
        if first & 0xF0 != 0x80 or length & 0x80 or opcode not in NAMES or opcode == CONTINUATION:
            raise Broken(f"a frame begins {bytes(self.came[:2])!r}: it is no whole message without a mask")
        if length > MOST_OF_CONTROL:
            start = {126: 4, 127: 10}[length]
            self.wait_for(start, deadline)
            length = int.from_bytes(self.came[2:start], "big")
            if opcode >= CLOSE or len(head_of_frame(opcode, length)) != start:
                raise Broken(f"a frame has the head {bytes(self.came[:start])!r}: too long a length for it")
        self.wait_for(start + length, deadline)
        return opcode, self.take(start + length)[start:]

    def read_kind(self, wanted: int, seconds: float | None = None) -> bytes:
        """The payload of the next frame, which has to have this opcode."""
        opcode, payload = self.read(seconds)
        if opcode != wanted:
            raise Broken(f"a {NAMES[opcode]} came in the place of a {NAMES[wanted]}: {payload[:200]!r}")
        return payload

    def text(self, seconds: float | None = None) -> str:
        """The text of the next frame."""
        return self.read_kind(TEXT, seconds).decode()

    def closed(self, seconds: None = None) -> int | None:
        """The code of the next frame, which has to be a close, or None if it has no code."""
        payload = self.read_kind(CLOSE, seconds)
        if len(payload) == 1:
            raise Broken("a close has half a code")
        payload[2:].decode()
        return code_of(payload)

    def is_close_next(self, seconds: None = None) -> bool:
        """Whether the next frame is a close. It is not read yet."""
        self.wait_for(1, self.deadline(seconds))
        return self.came[0] & 15 == CLOSE

    def rest(self, seconds: None = None) -> bytes:
        """All bytes before the end of the connection or its reset."""
        deadline = self.deadline(seconds)
        try:
            while time.monotonic() < deadline:
                self.wait(deadline)
        except Gone:
            return self.take(len(self.came))
        raise Late("the connection does not end")

    def is_quiet(self, seconds: float) -> bool:
        """Whether nothing comes for this many seconds, and all earlier bytes have been read."""
        try:
            self.wait_for(1, self.deadline(seconds))
        except Late:
            return True
        return False
