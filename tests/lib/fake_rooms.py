"""Plays a room over WebSockets that follows docs/PROTOCOL.md, and fails if a test wants it to.

It can lose replies, fall silent, leave out news, and start anew with another journal. It does groups, and some actions.
It runs in threads of the script.
"""
from __future__ import annotations

import contextlib
import json
import re
import socket
import threading
import time
from collections.abc import Callable, Iterable
from typing import Any, TypeVar

from .messages import compact
from .websocket import CLOSE, PING, PONG, TEXT, answer_to, frame

RoomType = TypeVar("RoomType", bound="FakeRoom")

# What a test does with a message. It returns a fault, or something else.
Fault = Callable[["dict[str, Any]"], object]

# How long a session waits for a message before it looks for news.
QUIET = 0.02


class FakeRoom:
    """A room on a free port. It calls `before` with each message before doing it, and `after` afterwards. They return
    None or a fault: `break` ends the connection, and `stall` makes the session read and send nothing more."""

    def __init__(self, elements: Iterable[dict[str, Any]] = (), name: str = "paris") -> None:
        self.name = name
        self.elements: dict[str, Any] = {element["el"]: element for element in elements}
        self.journal: list[dict[str, Any]] = []
        self.spent: dict[tuple[str, int], int] = {}
        self.heard: list[dict[str, Any]] = []
        self.before: Fault = lambda message: None
        self.after: Fault = lambda message: None
        self.is_news: Callable[[int], object] = lambda seq: True
        self.is_silent = False
        self.lock = threading.RLock()
        self.connections: list[socket.socket] = []
        self.listening = socket.create_server(("127.0.0.1", 0), backlog=64)
        self.port = self.listening.getsockname()[1]
        self.url = f"ws://127.0.0.1:{self.port}"
        self.opened = 0

    def __enter__(self: RoomType) -> RoomType:
        threading.Thread(target=self.accept, daemon=True).start()
        return self

    def __exit__(self, *_: object) -> None:
        with contextlib.suppress(OSError):
            self.listening.shutdown(socket.SHUT_RDWR)
        self.listening.close()
        self.drop_all()

    def accept(self) -> None:
        """Accepts connections."""
        with contextlib.suppress(OSError):
            while True:
                connection, _ = self.listening.accept()
                self.connections.append(connection)
                threading.Thread(target=self.talk, args=(connection,), daemon=True).start()

    def drop_all(self) -> None:
        """Ends all connections."""
        for connection in self.connections:
            with contextlib.suppress(OSError):
                connection.shutdown(socket.SHUT_RDWR)
            connection.close()
        self.connections.clear()

    def start_anew(self, elements: Any = None) -> None:
        """Starts the server anew, with its map or with another map, and with an empty journal."""
        with self.lock:
            if elements is not None:
                self.elements = {element["el"]: element for element in elements}
            self.journal, self.spent = [], {}
            self.drop_all()

    def enter(self, author: str, rows: list[dict[str, Any]]) -> int:
        """Makes an entry of rows, and returns its number."""
        with self.lock:
            for row in rows:
                if row.get("gone"):
                    self.elements.pop(row["el"], None)
                else:
                    self.elements[row["el"]] = row
            self.journal.append({"by": author, "rows": rows, "seq": len(self.journal) + 1})
            return len(self.journal)

    # ---- A session

    def talk(self, connection: socket.socket) -> None:
        """Holds a session."""
        with contextlib.suppress(OSError, StopIteration):
            Session(self, connection).hold()

    def answer(self, author: str, message: dict[str, Any]) -> dict[str, dict[str, Any]]:
        """Does a message. Returns the reply without its id."""
        word = message["do"]
        if word == "get":
            element = self.elements.get(message["el"])
            return {"ok": {"is": element}} if element else {"no": {"el": message["el"], "why": "absent"}}
        if word == "map":
            return {"ok": {"map": list(self.elements.values()), "seq": len(self.journal)}}
        if word == "undos":
            return {"ok": {"redo": [], "undos": []}}
        if (author, message["id"]) in self.spent:
            return {"no": {"seq": self.spent[author, message["id"]], "why": "repeat"}}
        if word == "undo":
            return {"no": {"why": "no_such"}}
        rows = self.rows_of(message)
        if isinstance(rows, dict):
            return {"no": rows}
        seq = self.spent[author, message["id"]] = self.enter(author, rows)
        return {"ok": {"seq": seq}}

    def rows_of(self, message: dict[str, Any]) -> dict[str, Any] | list[dict[str, Any]]:
        """The rows that a change makes, or a refusal."""
        if message["do"] == "group":
            return self.rows_of_group(message["actions"])
        word, names = message["do"], message.get("els", [message.get("el")])
        if word == "create":
            if message["el"] in self.elements:
                return {"el": message["el"], "why": "present"}
            if "nodes" in message:
                place: dict[str, Any] = {"nodes": message["nodes"]}
            else:
                place = {key: f"{float(message[key]):.7f}" for key in ("lat", "lon")}
            return [{"el": message["el"], **place, "tags": message.get("tags", {})}]
        for name in names:
            if name not in self.elements:
                return {"el": name, "why": "absent"}
        if word == "move":
            return [
                {
                    **self.elements[name],
                    "lat": moved(self.elements[name]["lat"], message["dlat"]),
                    "lon": moved(self.elements[name]["lon"], message["dlon"]),
                }
                for name in names
            ]
        if word == "retag":
            tags = {**self.elements[message["el"]]["tags"], **message["tags"]}
            tags = {key: value for key, value in tags.items() if value is not None}
            return [{**self.elements[message["el"]], "tags": tags}]
        return [{"el": message["el"], "gone": True}]

    def rows_of_group(self, actions: Iterable[dict[str, Any]]) -> dict[str, Any] | list[dict[str, Any]]:
        """The rows that a group makes, or a refusal that has the position of its action."""
        before = self.elements
        changed: dict[str, Any] = {}
        self.elements = dict(before)
        try:
            for at, action in enumerate(actions):
                rows = self.rows_of(action)
                if isinstance(rows, dict):
                    return {"action": at, **rows}
                changed.update((row["el"], row) for row in rows)
                self.elements.update((row["el"], row) for row in rows if not row.get("gone"))
                for row in rows:
                    if row.get("gone"):
                        del self.elements[row["el"]]
            return list(changed.values())
        finally:
            self.elements = before


def moved(degrees: str, by: int) -> str:
    """A coordinate that is moved by ten-millionths of a degree."""
    return f"{float(degrees) + by / 1e7:.7f}"


class Session:
    """A session of a fake room."""

    def __init__(self, room: FakeRoom, connection: socket.socket) -> None:
        self.room, self.connection, self.data = room, connection, b""
        connection.setsockopt(socket.IPPROTO_TCP, socket.TCP_NODELAY, 1)
        self.author, self.seq = "", 0

    def hold(self) -> None:
        """Shakes hands, and answers what comes."""
        while b"\r\n\r\n" not in self.data:
            self.read()
        head, _, self.data = self.data.partition(b"\r\n\r\n")
        key = re.findall(rb"(?i)sec-websocket-key: *(\S+)", head)[0]
        if self.room.is_silent:
            time.sleep(60)
        self.connection.sendall(
            b"HTTP/1.1 101 Switching Protocols\r\nUpgrade: websocket\r\nConnection: Upgrade\r\n"
            b"Sec-WebSocket-Accept: " + answer_to(key.decode()).encode() + b"\r\n\r\n"
        )
        self.room.opened += 1
        self.connection.settimeout(QUIET)
        while True:
            try:
                opcode, payload = self.take_frame()
            except socket.timeout:
                self.send_news()
                continue
            if opcode == TEXT:
                self.take_message(json.loads(payload))
            elif opcode == PING:
                self.connection.sendall(frame(PONG, payload, is_masked=False))
            elif opcode == CLOSE:
                self.connection.sendall(frame(CLOSE, payload, is_masked=False))
                self.connection.shutdown(socket.SHUT_RDWR)

    def read(self) -> None:
        """Reads more."""
        data = self.connection.recv(1 << 16)
        if not data:
            raise StopIteration
        self.data += data

    def take_frame(self) -> tuple[int, bytes]:
        """Takes a client's frame. Returns its opcode and its payload."""
        while True:
            if len(self.data) >= 6:
                length, at = self.data[1] & 127, 2
                if length == 126:
                    length, at = int.from_bytes(self.data[2:4], "big"), 4
                elif length == 127:
                    length, at = int.from_bytes(self.data[2:10], "big"), 10
                if len(self.data) >= at + 4 + length:
                    mask, payload = self.data[at : at + 4], self.data[at + 4 : at + 4 + length]
                    opcode, self.data = self.data[0] & 15, self.data[at + 4 + length :]
                    return opcode, bytes(byte ^ mask[place % 4] for place, byte in enumerate(payload))
            self.read()

    def say(self, value: dict[str, Any]) -> None:
        """Sends a value."""
        self.connection.sendall(frame(TEXT, compact(value).encode(), is_masked=False))

    def take_message(self, message: dict[str, Any]) -> None:
        """Does a message, answers it, and sends the news."""
        room = self.room
        room.heard.append(message)
        if self.fails(room.before(message)):
            return
        with room.lock:
            if message["do"] == "hello":
                if message["room"] != room.name:
                    self.say({"id": message["id"], "no": {"why": "no_room"}})
                    return
                self.author, self.seq = message["name"], len(room.journal)
                answer = room.answer(self.author, {"do": "map"})
            else:
                answer = room.answer(self.author, message)
        if self.fails(room.after(message)):
            return
        self.say({"id": message["id"], **answer})
        self.send_news()

    def send_news(self) -> None:
        """Sends the news that the client does not have yet."""
        if not self.author:
            return
        with self.room.lock:
            news, self.seq = self.room.journal[self.seq :], len(self.room.journal)
        for each in news:
            if self.room.is_news(each["seq"]):
                self.say({"news": each})

    def fails(self, how: object) -> bool:
        """Fails as the test wants. Returns whether it did."""
        if how == "break":
            with contextlib.suppress(ValueError):
                self.room.connections.remove(self.connection)
            # A close while there is something to read would have the client lose the answers that came before.
            self.connection.shutdown(socket.SHUT_WR)
            self.connection.settimeout(5)
            while self.connection.recv(1 << 16):
                pass
            self.connection.close()
            raise StopIteration
        if how == "stall":
            time.sleep(600)
        return bool(how)
