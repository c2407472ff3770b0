"""Passes connections between clients and a server on. It can lose replies, and pass later connections to another
server."""
from __future__ import annotations

import contextlib
import queue
import socket
import threading
import time
from collections.abc import Callable
from typing import Optional, TypeVar


ProxyType = TypeVar("ProxyType", bound="Proxy")

# Takes a piece of data, and returns what goes on.
Hold = Callable[[bytes], Optional[bytes]]


class Proxy:
    """A way to a server. It calls `hold` with each piece that the server sends. `hold` returns what goes on to the
    client, or None to break the connection. `port` is the server of the next connection, so it can change when a server
    ends. Each piece is `delay` seconds late, in both directions."""

    def __init__(self, port: int, hold: Hold = bytes, delay: float = 0) -> None:
        self.port, self.hold, self.delay = port, hold, delay
        self.listening = socket.create_server(("127.0.0.1", 0))
        self.url = f"ws://127.0.0.1:{self.listening.getsockname()[1]}"

    def __enter__(self: ProxyType) -> ProxyType:
        threading.Thread(target=self.accept, daemon=True).start()
        return self

    def __exit__(self, *_: object) -> None:
        self.listening.close()

    def accept(self) -> None:
        """Accepts connections."""
        with contextlib.suppress(OSError):
            while True:
                client, _ = self.listening.accept()
                try:
                    server = socket.create_connection(("127.0.0.1", self.port))
                except ConnectionError:
                    client.close()
                    continue
                directions: list[tuple[socket.socket, socket.socket, Hold]] = [(client, server, bytes)]
                directions.append((server, client, self.hold))
                for one, other, hold in directions:
                    threading.Thread(target=self.pass_on, args=(one, other, hold), daemon=True).start()

    def pass_on(self, one: socket.socket, other: socket.socket, hold: Hold) -> None:
        """Passes the data of one socket on to the other."""
        late: queue.SimpleQueue[tuple[float, bytes | None]] = queue.SimpleQueue()
        threading.Thread(target=self.send_late, args=(late, one, other), daemon=True).start()
        kept: bytes | None = b""
        while kept is not None:
            data = b""
            with contextlib.suppress(OSError):
                data = one.recv(1 << 16)
            kept = hold(data) if data else None
            late.put((time.monotonic() + self.delay, kept))

    @staticmethod
    def send_late(
        late: queue.SimpleQueue[tuple[float, bytes | None]], one: socket.socket, other: socket.socket
    ) -> None:
        """Sends each piece of a queue when its time has come. None ends both connections."""
        while True:
            when, data = late.get()
            time.sleep(max(0, when - time.monotonic()))
            try:
                if data is not None:
                    other.sendall(data)
                    continue
            except OSError:
                pass
            for each in (one, other):
                with contextlib.suppress(OSError):
                    each.shutdown(socket.SHUT_RDWR)
            return


def once(wanted: bytes, then: bytes | None) -> Hold:
    """A function for `hold`: if a piece has these bytes for the first time, it returns `then`. All other pieces
    pass."""
    left = [wanted]

    def hold(data: bytes) -> bytes | None:
        if left and left[0] in data:
            left.clear()
            return then
        return data

    return hold
