"""Starts a server on a free port with its clients, and keeps a client's map of its room by its session
(docs/PROTOCOL.md)."""
from __future__ import annotations

import contextlib
import json
import os
import re
import socket
import subprocess
import tempfile
import time
from collections.abc import Mapping, Sequence
from typing import IO, Any, Optional, TypeVar

from .websocket import Broken, Client, Late

ServerType = TypeVar("ServerType", bound="Server")

# A line of the log. Only the part after the logger's prefix is compared.
LOG_LINE = re.compile(r"(?:.*\] )?session (\d+) (open|end (\w+))")

# How many ports are tried, because another program may take a free port.
TRIES = 10


def free_port() -> int:
    """A port on which nobody listens."""
    with socket.socket() as probe:
        probe.bind(("127.0.0.1", 0))
        port: int = probe.getsockname()[1]
        return port


def ends_of(log: str) -> dict[int, str]:
    """How each session ended, by its number. The log has the begin of each session and then its end, and nothing
    else."""
    ends: dict[int, str] = {}
    opened: set[int] = set()
    for line in log.splitlines():
        found = LOG_LINE.fullmatch(line)
        number = int(found[1]) if found else 0
        if not found or number in ends or (found[3] is None) == (number in opened):
            raise Broken(f"the log has the line {line!r}")
        if found[3] is None:
            opened.add(number)
        else:
            ends[number] = found[3]
    if opened != set(ends):
        raise Broken(f"the sessions {sorted(opened - set(ends))} have no end in the log")
    return ends


class Server:
    """A server of some rooms, for a number of sessions or without end. With `base` the rooms begin with its map. `host`
    is where it listens, as `--addr` has it, and `options` are further options. The end of its block closes its clients,
    and ends it."""

    output: IO[bytes]
    errors: IO[bytes]
    input: IO[bytes]
    process: subprocess.Popen[bytes]

    def __init__(
        self,
        program: str,
        *rooms: str,
        workers: int = 2,
        sessions: Optional[int] = 1,
        limit: Optional[int] = None,
        base: Optional[str] = None,
        patience: float = 20,
        host: str = "127.0.0.1",
        options: Sequence[str] = (),
    ) -> None:
        self.options = options
        self.program, self.rooms = program, rooms or ("paris",)
        self.workers, self.sessions, self.limit, self.base = workers, sessions, limit, base
        self.patience, self.host = patience, host
        self.port, self.is_started = 0, False
        self.kept = contextlib.ExitStack()

    def command(self, addr: str) -> list[str]:
        """The command that serves at an address."""
        arguments = ["serve", "--addr", addr, "--workers", str(self.workers), *self.options]
        arguments += [] if self.sessions is None else ["--sessions", str(self.sessions)]
        arguments += [] if self.limit is None else ["--limit", str(self.limit)]
        arguments += [] if self.base is None else ["--base"]
        return [self.program, *arguments, *self.rooms]

    def __enter__(self: ServerType) -> ServerType:
        try:
            self.output = self.kept.enter_context(tempfile.TemporaryFile())
            self.errors = self.kept.enter_context(tempfile.TemporaryFile())
            self.input = self.kept.enter_context(tempfile.TemporaryFile())
            self.input.write((self.base or "").encode())
            self.input.flush()
            for _ in range(TRIES):
                if self.start():
                    return self
            raise Broken(f"no server was started: {self.content(self.errors)!r}")
        except BaseException:
            self.stop()
            raise

    def __exit__(self, *_: object) -> None:
        self.stop()

    def start(self) -> bool:
        """Starts the server on a free port and waits until it listens. Returns False if another program took the
        port."""
        for file in (self.output, self.errors):
            os.ftruncate(file.fileno(), 0)
            os.lseek(file.fileno(), 0, os.SEEK_SET)
        os.lseek(self.input.fileno(), 0, os.SEEK_SET)
        self.port = free_port()
        command = self.command(f"{self.host}:{self.port}")
        self.process = subprocess.Popen(command, stdin=self.input, stdout=self.output, stderr=self.errors)
        self.is_started = True
        deadline = time.monotonic() + self.patience
        while "listening\n" not in self.content(self.output):
            if self.process.poll() is not None:
                return False
            if time.monotonic() > deadline:
                raise Late("the server does not listen")
            time.sleep(0.002)
        return True

    def stop(self) -> None:
        """Ends the server and its clients."""
        if self.is_started:
            self.process.kill()
            self.process.wait()
        self.kept.close()

    @staticmethod
    def content(file: IO[bytes]) -> str:
        """The present content of a file."""
        return os.pread(file.fileno(), 1 << 24, 0).decode()

    def connect(self, **how: Any) -> Client:
        """A client that is connected and has sent nothing yet."""
        settings: dict[str, Any] = {"patience": self.patience, "host": self.host, **how}
        return self.kept.enter_context(Client(self.port, **settings))

    def client(self, **how: Any) -> Client:
        """A client after its handshake."""
        return self.connect(**how).shake_hands()

    def session(self, name: str, room: Optional[str] = None, **how: Any) -> Session:
        """A session of a client that has sent its hello."""
        return Session(self.client(**how), name, room or self.rooms[0])

    def finish(self, seconds: Optional[float] = None) -> tuple[int, str, dict[int, str]]:
        """Waits for the program's end. Returns its status, its output, and how each session ended, by its number."""
        try:
            status = self.process.wait(self.patience if seconds is None else seconds)
        except subprocess.TimeoutExpired as error:
            raise Late(f"the program does not end, and reported {self.content(self.errors)[-300:]!r}") from error
        return status, self.content(self.output), ends_of(self.content(self.errors))


class ServerAt(Server):
    """A server at a port of its own, so that a later one can be started there."""

    def __init__(self, port: int, program: str, *rooms: str, **how: Any) -> None:
        super().__init__(program, *rooms, **how)
        self.at = port

    def command(self, addr: str) -> list[str]:
        self.port = self.at
        return super().command(f"127.0.0.1:{self.at}")


class PartServer(Server):
    """The same server, run by part_lines: with one room, and with a limit on the messages that a session reads. With
    `is_held` the third message of session 1 waits until the second message of session 2 is answered."""

    def __init__(self, program: str, turns: int, is_held: bool = False, **how: Any) -> None:
        super().__init__(program, **how)
        self.turns, self.is_held = turns, is_held

    def command(self, addr: str) -> list[str]:
        numbers = [str(number) for number in (self.workers, self.sessions, self.turns)]
        return [self.program, "serve", addr, *numbers, *(["held"] if self.is_held else [])]


def place_of(name: str) -> tuple[int, int]:
    """The place of an element's name in the order of names: its kind, and then its number."""
    return "nwr".index(name[0]), int(name[1:])


class Session:
    """A client's session with a room: the map that it knows by its welcome and its news."""

    def __init__(self, client: Client, name: str, room: str) -> None:
        """Sends hello under the id 1, and reads the welcome."""
        self.client, self.name = client, name
        self.authors: dict[int, str] = {}
        reply = self.send({"id": 1, "do": "hello", "room": room, "name": name}).reply()
        if list(reply) != ["id", "ok"] or reply["id"] != 1:
            raise Broken(f"a hello is answered {reply}")
        self.rows = self.rows_of(reply["ok"])
        self.seq: int = reply["ok"]["seq"]

    @staticmethod
    def rows_of(reply: Mapping[str, Any]) -> dict[str, Any]:
        """The rows of a map, by their names, which have to be sorted."""
        names = [element["el"] for element in reply["map"]]
        if any(place_of(one) >= place_of(other) for one, other in zip(names, names[1:])):
            raise Broken(f"the names of a map do not rise: {names}")
        return {element["el"]: element for element in reply["map"]}

    def send(self, message: Mapping[str, Any]) -> Session:
        """Sends a message without waiting. Returns the session."""
        self.client.say(json.dumps(message, separators=(",", ":")))
        return self

    def hear(self, seconds: Optional[float] = None) -> Optional[dict[str, Any]]:
        """Reads a text. Returns a reply; if the text is news, it applies them and returns None."""
        text = self.client.text(seconds)
        received: dict[str, Any] = json.loads(text)
        if "news" not in received:
            return received
        self.take(received["news"])
        return None

    def take(self, news: Mapping[str, Any]) -> None:
        """Applies news, which have to be the next."""
        if news["seq"] != self.seq + 1:
            raise Broken(f"{self.name} received the news {news['seq']} after {self.seq}")
        for row in news["rows"]:
            if row.get("gone"):
                del self.rows[row["el"]]
            else:
                self.rows[row["el"]] = row
        self.seq, self.authors[news["seq"]] = news["seq"], news["by"]

    def reply(self, seconds: Optional[float] = None) -> dict[str, Any]:
        """Reads until the next reply, and applies the news before it."""
        while True:
            reply = self.hear(seconds)
            if reply is not None:
                return reply

    def ask(self, message: Mapping[str, Any], seconds: Optional[float] = None) -> dict[str, Any]:
        """Sends a message and returns its reply, which has to have its id."""
        reply = self.send(message).reply(seconds)
        if reply["id"] != message["id"]:
            raise Broken(f"{message} is answered {reply}")
        return reply

    def follow(self, seq: int, seconds: Optional[float] = None) -> None:
        """Applies news up to this entry. No reply may come before."""
        while self.seq < seq:
            reply = self.hear(seconds)
            if reply is not None:
                raise Broken(f"{self.name} received {reply} in the place of news")

    def leave(self) -> None:
        """Closes, and reads the answer and the end. News may come before them."""
        self.client.close()
        while not self.client.is_close_next():
            self.take(json.loads(self.client.text())["news"])
        code, rest = self.client.closed(), self.client.rest()
        if (code, rest) != (1000, b""):
            raise Broken(f"a close with 1000 is answered with {code}, and then comes {rest!r}")
        self.client.drop()
