"""Starts rooms and the program clients/osm_api for the tests of editors.

A room is a server with groups in threads of the script, or the built program. The way to it can lose or delay replies.
"""
from __future__ import annotations

import base64
import contextlib
import functools
import http.client
import json
import os
import queue
import socket
import subprocess
import threading
import time
from collections.abc import Callable, Iterable, Sequence
from typing import TYPE_CHECKING, Any, NamedTuple, cast

from .cases import TOP, given, want
from .fake_rooms import FakeRoom
from .measuring import Stopwatch
from .messages import compact
from .programs import PATIENCE
from .proxy import Hold, Proxy
from .serving import Server, Session, place_of
from .talk import serving
from .websocket import Client

if TYPE_CHECKING:
    from random import Random

    from maproom.core import Element
    from maproom.osm_api.connection import Accepted, Refusal

PYTHON = "/usr/bin/python3"
ROOM = "hamlet"

# For how many seconds a call delays a small one of somebody else. Tests let it take five times as long, because the
# machine may be busy.
MOST_DELAY, FACTOR = 0.1, 5


class GroupRoom(FakeRoom):
    """A server of a room in memory (maproom.osm_api.memory_room), which knows groups, undo and redo."""

    def __init__(self, rows: Sequence[dict[str, Any]] = (), limit: int = 1_000_000) -> None:
        from maproom.osm_api.memory_room import MemoryRoom  # pylint: disable=import-outside-toplevel

        self.memory = MemoryRoom(cast("Sequence[Element]", rows), ROOM, limit)
        super().__init__(rows, ROOM)

    @property
    def elements(self) -> dict[str, Any]:
        """The map, which is that of the room in memory."""
        return cast("dict[str, Any]", self.memory.elements)

    @elements.setter
    def elements(self, elements: dict[str, Any]) -> None:
        self.memory.elements = dict(elements)

    def answer(self, author: str, message: dict[str, Any]) -> dict[str, dict[str, Any]]:
        """Does a message. Returns the reply without its id."""
        from maproom.osm_api.connection import Refusal  # pylint: disable=import-outside-toplevel

        word = message["do"]
        if word == "map":
            rows = sorted(self.elements.values(), key=lambda row: place_of(row["el"]))
            return {"ok": {"map": rows, "seq": len(self.journal)}}
        if word in ("get", "undos"):
            return super().answer(author, message)
        if (author, message["id"]) in self.spent:
            return {"no": {"seq": self.spent[author, message["id"]], "why": "repeat"}}
        answer, key = self.done(author, message)
        if isinstance(answer, Refusal):
            return {"no": {**answer.fields, "why": answer.why}}
        self.spent[author, message["id"]] = answer.seq
        for entry in self.memory.journal[len(self.journal) :]:
            rows = [row or {"el": name, "gone": True} for name, row in entry.after.items()]
            self.journal.append({"by": entry.author, "rows": rows, "seq": entry.seq})
        return {"ok": {"seq": answer.seq, **({key: answer.other} if key else {})}}

    def done(self, author: str, message: dict[str, Any]) -> tuple[Accepted | Refusal, str | None]:
        """Does a change. Returns the reply, and the key under which it has another entry."""
        from maproom.osm_api.connection import Refusal  # pylint: disable=import-outside-toplevel

        if message["do"] == "redo":
            return self.memory.redo_now(author), "redid"
        if message["do"] == "undo":
            return self.memory.take_back(author, message["seq"]), "undid"
        since = message.get("since")
        if since is not None and since < 0:
            return Refusal("bad_field", {"field": "since"}), None
        if message.get("actions") == []:
            return Refusal("bad_field", {"field": "actions"}), None
        alone = {key: value for key, value in message.items() if key not in ("id", "since")}
        return self.memory.group(author, message.get("actions") or [alone], since), None

    def start_anew(self, elements: Iterable[dict[str, Any]] | None = None) -> None:
        """Starts the server anew, with its map or with another map, and with an empty journal."""
        with self.lock:
            rows = None if elements is None else {row["el"]: cast("Element", row) for row in elements}
            self.memory.restart(rows)
            self.journal, self.spent = [], {}
            self.drop_all()


class Way(Proxy):
    """A way to a server, which takes `seconds` in each direction. A script can break its connections. They also break
    if `is_lost` is true of what the server sends."""

    def __init__(self, port: int, seconds: float = 0) -> None:
        super().__init__(port, lambda data: None if self.is_lost(data) else data)
        self.seconds = seconds
        self.is_lost: Callable[[bytes], bool] = lambda data: False
        self.connections: list[socket.socket] = []

    def drop_all(self) -> None:
        """Breaks all connections."""
        for connection in list(self.connections):
            with contextlib.suppress(OSError):
                connection.shutdown(socket.SHUT_RDWR)
        self.connections.clear()

    def drop_one(self, chance: Random) -> None:
        """Breaks a random connection, if there is one."""
        connections = list(self.connections)
        for connection in chance.sample(connections, min(1, len(connections))):
            with contextlib.suppress(OSError):
                connection.shutdown(socket.SHUT_RDWR)

    def lose_answers(self, count: int = 1, then: Callable[[], object] = lambda: None) -> None:
        """Breaks the connections that have the replies to the next accepted changes, after calling `then`."""
        left = [None] * count

        def is_lost(data: bytes) -> bool:
            if b'"ok":{"seq":' not in data:
                return False
            try:
                left.pop()
            except IndexError:
                return False
            then()
            return True

        self.is_lost = is_lost

    def pass_on(self, one: socket.socket, other: socket.socket, hold: Hold) -> None:
        """Passes on what comes from one to the other."""
        other.setsockopt(socket.IPPROTO_TCP, socket.TCP_NODELAY, 1)
        self.connections.append(other)
        waiting: queue.SimpleQueue[tuple[float, bytes | None]] = queue.SimpleQueue()
        threading.Thread(target=self.send_late, args=(waiting, one, other), daemon=True).start()
        data: bytes | None = b"some"
        while data:
            try:
                data = one.recv(1 << 16)
            except OSError:
                data = b""
            data = hold(data)
            waiting.put((time.monotonic() + self.seconds, data))
        with contextlib.suppress(ValueError):  # all were broken
            self.connections.remove(other)

    @staticmethod
    def send_late(
        waiting: queue.SimpleQueue[tuple[float, bytes | None]], one: socket.socket, other: socket.socket
    ) -> None:
        """Sends the waiting pieces, each when its time has come."""
        with contextlib.suppress(OSError):
            while True:
                when, data = waiting.get()
                time.sleep(max(0, when - time.monotonic()))
                if not data:
                    break
                other.sendall(data)
        for each in (one, other):
            with contextlib.suppress(OSError):
                each.shutdown(socket.SHUT_RDWR)


class Place:
    """A room at the end of a way. `url` stays the same if the server starts anew."""

    def __init__(
        self,
        is_built: bool,
        rows: Sequence[dict[str, Any]] = (),
        limit: int | None = None,
        seconds: float = 0,
        workers: int = 24,
    ) -> None:
        self.is_built, self.rows, self.limit, self.seconds, self.workers = is_built, rows, limit, seconds, workers
        self.kept = contextlib.ExitStack()

    def __enter__(self) -> Place:
        self.server = self.start(self.rows)
        self.way = self.kept.enter_context(Way(self.server.port, self.seconds))
        self.url = self.way.url
        return self

    def __exit__(self, *_: object) -> None:
        self.kept.close()

    def start(self, rows: Sequence[dict[str, Any]]) -> GroupRoom | Server:
        """Starts a server on a map."""
        if not self.is_built:
            return self.kept.enter_context(GroupRoom(rows) if self.limit is None else GroupRoom(rows, self.limit))
        ordered = sorted(rows, key=lambda row: place_of(row["el"]))
        base = compact({"id": 1, "ok": {"map": ordered, "seq": 0}}) + "\n"
        return self.kept.enter_context(
            serving(ROOM, workers=self.workers, sessions=10_000, limit=self.limit, base=base)
        )

    def processes(self) -> list[int]:
        """The process of the server, if it is the built program. Otherwise it is this process."""
        return [self.server.process.pid] if isinstance(self.server, Server) else []

    def session(self, name: str) -> Session:
        """A session of a mapper that does not use the way."""
        client = self.kept.enter_context(Client(self.server.port, patience=PATIENCE * given.slow))
        return Session(client.shake_hands(), name, ROOM)

    def map(self) -> dict[str, Any]:
        """The present map, by names."""
        session = self.session("keeper")
        session.leave()
        return session.rows

    def lose_answers(self, count: int = 1, then: Callable[[], object] = lambda: None) -> None:
        """Breaks the connections that have the replies to the next accepted changes, after calling `then`."""
        self.way.lose_answers(count, then)

    def restart(self, rows: list[dict[str, Any]] | None = None) -> None:
        """Ends the server, and starts another one on the same map or on another map."""
        rows = list(self.map().values()) if rows is None else rows
        if isinstance(self.server, Server):
            self.server.stop()
            self.server = self.start(rows)
            self.way.port = self.server.port
        else:
            self.server.start_anew(rows)

    def end_the_room(self) -> None:
        """Ends the server, and starts one of another room."""
        if isinstance(self.server, Server):
            self.server.stop()
            self.server = self.kept.enter_context(serving("cellar", workers=4, sessions=100))
            self.way.port = self.server.port
        else:
            self.server.name = "cellar"
            self.server.drop_all()


@functools.lru_cache(maxsize=None)
def program_has_groups() -> bool:
    """Whether the program is built, and knows groups and `since`. If it does not know them, this prints a line."""
    if not given.program:
        return False
    with serving(ROOM, workers=1, sessions=1) as server:
        reply = server.session("keeper").ask({"id": 2, "do": "group", "since": -1, "actions": []})
    if reply["no"].get("field") != "since":
        print(f"the program answers {reply['no']} to a group: cases of uploads to it are skipped", flush=True)
        return False
    return True


class Answer(NamedTuple):
    """A response of the program."""

    status: int
    text: str
    headers: dict[str, str]


class OsmApi:
    """The program clients/osm_api, as a process."""

    def __init__(self, url: str, *more: str, name: str | None = None, room: str = ROOM) -> None:
        command = [PYTHON, f"{TOP}/clients/osm_api", url, "--room", room, "--listen", "127.0.0.1:0"]
        command += ["--name", name] if name else []
        self.command, self.name = [*command, *map(str, more)], name
        self.lines: list[str] = []

    def __enter__(self) -> OsmApi:
        self.process = subprocess.Popen(self.command, stdout=subprocess.PIPE, stderr=subprocess.PIPE, text=True)
        self.reading = threading.Thread(target=self.read, daemon=True)
        self.reading.start()
        late = threading.Timer(PATIENCE * given.slow, self.process.kill)
        late.start()
        assert self.process.stdout is not None
        self.root = self.process.stdout.readline().strip()
        late.cancel()
        self.port = int(self.root.rpartition(":")[2] or 0)
        return self

    def read(self) -> None:
        """Keeps what the program reports."""
        assert self.process.stderr is not None
        for line in self.process.stderr:
            self.lines.append(line.rstrip("\n"))

    def __exit__(self, *_: object) -> None:
        self.end()

    def end(self, kill: bool = False) -> int:
        """Ends the program. Returns its status."""
        if self.process.poll() is None:
            (self.process.kill if kill else self.process.terminate)()
        return self.status()

    def status(self) -> int:
        """Waits for the end of the program. Returns its status."""
        try:
            status = self.process.wait(PATIENCE * given.slow)
        except subprocess.TimeoutExpired:
            self.process.kill()
            raise
        self.reading.join()
        return status

    def ask(self, method: str, path: str, body: str = "", author: str | None = None, **headers: str) -> Answer:
        """Makes a request."""
        connection = http.client.HTTPConnection("127.0.0.1", self.port, timeout=PATIENCE * 4 * given.slow)
        if author:
            headers["Authorization"] = "Basic " + base64.b64encode(f"{author}:x".encode()).decode()
        try:
            connection.request(method, path, body.encode() or None, headers)
            response = connection.getresponse()
            return Answer(response.status, response.read().decode(), dict(response.headers))
        finally:
            connection.close()

    def elements(self, path: str, **how: str) -> Any:
        """The elements that a call returns in JSON, or its answer if it is refused."""
        answer = self.ask("GET", f"/api/0.6/{path}", Accept="application/json", **how)
        return json.loads(answer.text)["elements"] if answer.status == 200 else answer

    def changeset(self, author: str | None = None) -> int:
        """Opens a changeset."""
        return int(self.ask("PUT", "/api/0.6/changeset/create", "<osm><changeset/></osm>", author).text)

    def upload(self, changeset: int, document: str, author: str | None = None) -> Answer:
        """Uploads an osmChange."""
        body = f"<osmChange>{document}</osmChange>"
        return self.ask("POST", f"/api/0.6/changeset/{changeset}/upload", body, author)


class Watcher:
    """A mapper who makes small calls again and again while somebody else keeps the program busy, for a block.

    `longest` has the time of the slowest call of each kind, as a Stopwatch of the test and of `processes` takes it. The
    map needs a node n3 at 7 degrees north and 8 degrees east."""

    PATHS = ("/api/capabilities", "/api/0.6/node/3", "/api/0.6/map?bbox=7,6,9,8", "/")

    def __init__(self, port: int, *processes: int) -> None:
        self.port, self.count, self.faults = port, 0, ""
        self.processes = (os.getpid(), *processes)
        self.longest = dict.fromkeys((*self.PATHS, "upload", "undo"), 0.0)
        self._ends = threading.Event()
        self._thread = threading.Thread(target=self._watch)
        self._headers = {"Authorization": "Basic " + base64.b64encode(b"bob:x").decode()}

    def __enter__(self) -> Watcher:
        self._thread.start()
        return self

    def __exit__(self, *_: object) -> None:
        self._ends.set()
        self._thread.join()
        want(self.faults, "")

    @property
    def slowest(self) -> tuple[str, float]:
        """The kind and the time of the slowest call."""
        return max(self.longest.items(), key=lambda item: item[1])

    def __str__(self) -> str:
        return f"of {self.count} other calls, {self.slowest[0]} took {1000 * self.slowest[1]:.0f} ms"

    def _watch(self) -> None:
        """Makes calls until the end."""
        connection = http.client.HTTPConnection("127.0.0.1", self.port, timeout=60)
        with contextlib.closing(connection):
            changeset = self._call(connection, "PUT", "/api/0.6/changeset/create", "<osm/>", "upload")
            while not self._ends.is_set():
                for path in self.PATHS:
                    self._call(connection, "GET", path, None, path)
                upload = '<osmChange><create><node id="-1" lat="5" lon="5"/></create></osmChange>'
                self._call(connection, "POST", f"/api/0.6/changeset/{changeset}/upload", upload, "upload")
                self._call(connection, "POST", "/undo", None, "undo")
                time.sleep(0.01)

    def _call(self, connection: http.client.HTTPConnection, method: str, path: str, body: str | None, name: str) -> str:
        """Makes a call, and notes its time."""
        watch = Stopwatch(*self.processes)
        connection.request(method, path, body, self._headers)
        answer = connection.getresponse()
        text = answer.read().decode()
        self.longest[name] = max(self.longest[name], watch.seconds)
        self.count += 1
        if answer.status != 200:
            self.faults += f"{method} {path}: {answer.status} {text[:200]}\n"
        return text
