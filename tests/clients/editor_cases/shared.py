"""What the cases of the editors' API share: elements, a room in memory with the API over it, and its HTTP server."""
from __future__ import annotations

import asyncio
import contextlib
import http.client
import importlib.util
import json
import logging
import socket
import tempfile
import threading
from pathlib import Path
from collections.abc import AsyncIterator, Callable, Coroutine, Iterator
from typing import Any

from lib import josm, system_python
from lib.cases import case, case_if, given, want

HAS_ALL = system_python.has_packages("aiohttp", "defusedxml")

if HAS_ALL:
    from aiohttp import web
    from maproom.osm_api import http as server, ids, osm_reading, room_map as maps, taking_back, uploads
    from maproom.osm_api.calls import Calls, Request
    from maproom.osm_api.connection import Accepted
    from maproom.osm_api.errors import ApiError
    from maproom.osm_api.ledger import Ledger
    from maproom.osm_api.memory_room import MemoryRoom
    from maproom.osm_api.room_map import RoomMap

MARK = "= "  # before an element of the map of a text, with its version
NOW = 1_704_067_200  # the time of all tests: 2024 begins
NOW_VERSION = 126_230_400  # in seconds since 2020


def has_packages() -> Any:
    """Whether the packages are there without which no case can run."""
    return HAS_ALL


def has_josm() -> Any:
    """Whether JOSM and a compiler of Java are there, too."""
    return HAS_ALL and josm.is_there()


def has_osmapi() -> Any:
    """Whether the library osmapi is there."""
    return HAS_ALL and importlib.util.find_spec("osmapi") is not None


needed = case_if(has_packages)


# Tests do not wait long until an upload counts as answered, for another undo, or until an entry counts as settled.
if HAS_ALL:
    uploads.ANSWERED_SECONDS = 0.1
    taking_back.UNDO_SECONDS, taking_back.QUIET_SECONDS, maps.SETTLING_SECONDS = 0.2, 0.05, 0.05


# aiohttp reports requests that are not HTTP, and osmapi each refusal.
logging.disable(logging.CRITICAL)


def node(name: str, /, lat: float = 1, lon: float = 2, **tags: str) -> Any:
    """A node."""
    return {"el": name, "lat": f"{lat:.7f}", "lon": f"{lon:.7f}", "tags": tags}


def way(name: str, /, *nodes: int, **tags: str) -> Any:
    """A way."""
    return {"el": name, "nodes": list(nodes), "tags": tags}


def relation(name: str, /, *members: tuple[str, str], **tags: str) -> Any:
    """A relation."""
    return {"el": name, "members": [list(member) for member in members], "tags": tags}


def by_name(rows: Any) -> dict[str, Any]:
    """Rows by their names."""
    return {row["el"]: row for row in rows}


@contextlib.contextmanager
def folder() -> Iterator[Any]:
    """A folder of its own, which goes afterwards."""
    with tempfile.TemporaryDirectory() as path:
        yield Path(path)


@contextlib.contextmanager
def opened(path: Path) -> Iterator[Ledger]:
    """A ledger, which is closed afterwards."""
    ledger = Ledger(path)
    try:
        yield ledger
    finally:
        ledger.close()


def put_in(room: object, **functions: object) -> None:
    """Puts functions in the place of methods of a room, by their names."""
    for name, function in functions.items():
        setattr(room, name, function)


def refusal_of(document: Any, data: bytes) -> tuple[int, str] | None:
    """How a document is refused, or None."""
    try:
        osm_reading.read_whole(document, data)
    except ApiError as refusal:
        return refusal.status, refusal.text
    return None


async def one_piece(data: bytes) -> AsyncIterator[bytes]:
    """The body of a request that comes as a whole."""
    yield data


class Bridge:
    """The calls over a room in memory, without HTTP."""

    def __init__(
        self,
        room: Any,
        path: Path | None = None,
        seconds: float = 5.0,
        author: str = "lina",
        clock: int = NOW,
    ) -> None:
        self.room, self.author = room, author
        self.notes: list[Any] = []
        self.clock = clock
        self.ledger = Ledger(path)
        self.map = RoomMap(self.ledger, lambda: self.clock)
        room.subscribe(self.map)
        self.calls = Calls(room, self.map, seconds, lambda: self.clock, self.notes.append)

    async def ask(self, method: str, path: str, body: str = "", **how: Any) -> tuple[int, str]:
        """A request. Gives its status and its text."""
        request = Request(method, f"/api/{path}", {}, one_piece(body.encode()), how.get("author", self.author))
        try:
            response = await self.calls.answer(request)
        except ApiError as refusal:
            return refusal.status, refusal.text
        if how.get("is_lost"):
            self.calls.lost(response)
        return response.status, response.text

    async def open(self, **how: Any) -> int:
        """The number of a new changeset."""
        return int((await self.ask("PUT", "0.6/changeset/create", "<osm><changeset/></osm>", **how))[1])

    async def upload(self, changeset: int | str, document: str, **how: Any) -> tuple[int, Any]:
        """Uploads an osmChange. Gives the status, and the rows of the result or the refusal."""
        body = f"<osmChange>{document}</osmChange>"
        status, text = await self.ask("POST", f"0.6/changeset/{changeset}/upload", body, **how)
        return status, text.splitlines()[2:-1] if status == 200 else text


def in_a_loop(function: Callable[..., Any]) -> Callable[..., Any]:
    """Has a function with an asynchronous body be a case."""

    def run_it() -> None:
        asyncio.run(asyncio.wait_for(function(), 60 * given.slow))

    run_it.__name__, run_it.__doc__ = function.__name__, function.__doc__
    return case(run_it, needs=has_packages)


def modified(name: str, lat: float, version: int | None = NOW_VERSION, text: str = "modify") -> str:
    """The step that moves a node."""
    return f'<{text}><node id="{ids.api_id(name)}" version="{version}" lat="{lat}" lon="2"/></{text}>'


CREATE = '<create><node id="-1" lat="5" lon="5"/></create>'
CREATED = [f'<node old_id="-1" new_id="{10**15 + 1}" new_version="1"/>']


def version_of(bridge: Bridge, name: str) -> int:
    """The version of an element, which is on the map."""
    version = bridge.map.version(name)
    assert version is not None
    return version


def step(word: str, row: dict[str, Any], version: int = NOW_VERSION) -> str:
    """A step of a document that creates, modifies or deletes the element of a row. A negative id is a placeholder."""
    number, kind = int(row["el"][1:]), ids.kind_of(row["el"]).value
    position = f' lat="{row["lat"]}" lon="{row["lon"]}"' if "lat" in row else ""
    parts = [f'<nd ref="{ref}"/>' for ref in row.get("nodes", ())]
    parts += [
        f'<member type="{ids.kind_of(name).value}" ref="{name[1:]}" role="{role}"/>'
        for name, role in row.get("members", ())
    ]
    parts += [f'<tag k="{key}" v="{value}"/>' for key, value in row["tags"].items()]
    return f'<{word}><{kind} id="{number}" version="{version}"{position}>{"".join(parts)}</{kind}></{word}>'


def moves(name: str, units: int = 1) -> dict[str, Any]:
    """The action that moves a node a little to the north."""
    return {"do": "move", "els": [name], "dlat": units, "dlon": 0}


def retags(name: str, /, **tags: Any) -> Any:
    """The action that gives an element tags."""
    return {"do": "retag", "el": name, "tags": tags}


def taken(answer: Any) -> int:
    """The entry of an answer of the room, which has to be one."""
    want(isinstance(answer, Accepted) or answer, True)
    seq: int = answer.seq
    return seq


async def overtaken(bridge: Bridge, document: str, first: Any, *then: Any) -> Any:
    """Uploads a document. Right before its group bob does some actions, whose news are late, and right after it some
    more, each an entry. Gives the answer."""
    room = bridge.room

    async def bob_is_quicker() -> None:
        room.before_group, room.holds_news = None, True
        taken(room.group("bob", first))

    async def bob_goes_on() -> None:
        room.after_group = None
        for actions in then:
            taken(room.group("bob", actions))

    room.before_group, room.after_group = bob_is_quicker, bob_goes_on
    return await bridge.upload(await bridge.open(), document)


async def left_nothing(bridge: Bridge) -> None:
    """Wants an upload to have left nothing that waits, that is watched, or that an undo would bring back."""
    rows = dict(bridge.room.elements)
    want(await bridge.ask("POST", "undo"), (409, "There is no upload to undo"))
    want(await bridge.ask("POST", "redo"), (409, "There is no upload to redo"))
    want((bridge.room.elements, bridge.map.elements, bridge.map._watch, bridge.ledger.pending), (rows, rows, None, {}))


TOR = [retags("n1", name="Tor")]
NOT_UNDONE = "the room refuses to undo entry {} of {}: {} since, and has to be undone first"
MISMATCH = "Version mismatch: Provided {}, server had: {} of Node 1"
MOVES = step("modify", node("n1", 3)) + step("modify", node("n2", 3))


class Served:
    """The application over a room in memory, which listens on a port of its own."""

    def __init__(self, rows: Any = (), name: str | None = "lina", seconds: float = 5.0, **settings: Any) -> None:
        self.loop = asyncio.new_event_loop()
        self.notes: list[Any] = []
        self.thread = threading.Thread(target=self.loop.run_forever, daemon=True)
        self.thread.start()
        self.socket = socket.create_server(("127.0.0.1", 0))
        self.port = self.socket.getsockname()[1]
        self.run(self._start(rows, name, seconds, settings))

    async def _start(self, rows: Any, name: str | None, seconds: float, more: dict[str, Any]) -> None:
        self.bridge = Bridge(MemoryRoom(rows), None, seconds)
        self.bridge.calls.uploads._note = self.notes.append
        self.room = self.bridge.room
        settings = server.Settings(server.loopback_hosts(self.port), name, **more)
        self.runner = server.runner(self.bridge.calls, settings, self.notes.append)
        await self.runner.setup()
        await web.SockSite(self.runner, self.socket).start()

    def run(self, awaited: Coroutine[Any, Any, Any]) -> Any:
        """Runs something in the loop of the application."""
        return asyncio.run_coroutine_threadsafe(awaited, self.loop).result(30)

    def __enter__(self) -> Served:
        return self

    def __exit__(self, *_: object) -> None:
        self.run(self.runner.cleanup())
        self.loop.call_soon_threadsafe(self.loop.stop)
        self.thread.join()
        self.loop.close()

    def ask(
        self, method: str, path: str, body: bytes | str | None = None, headers: dict[str, str] | None = None
    ) -> tuple[int, str, http.client.HTTPMessage]:
        """A request on a connection of its own. Gives the status, the text and the headers."""
        connection = http.client.HTTPConnection("127.0.0.1", self.port, timeout=120)
        with contextlib.closing(connection):
            connection.request(method, path, body.encode() if isinstance(body, str) else body, headers or {})
            answer = connection.getresponse()
            return answer.status, answer.read().decode(), answer.headers

    def say(self, data: bytes) -> bytes:
        """Sends bytes, and gives all that comes until the connection is closed."""
        with socket.create_connection(("127.0.0.1", self.port), 30) as stream:
            stream.sendall(data)
            parts = []
            with contextlib.suppress(OSError):
                while part := stream.recv(65536):
                    parts.append(part)
            return b"".join(parts)


def answered(served: Served, line: str) -> list[str]:
    """What a line of a text of calls comes to: `METHOD PATH BODY`, or `NAME ACTIONS` of somebody else in the room."""
    word, rest = line.split(" ", 1)
    if word.islower():

        async def act() -> Any:
            return served.room.group(word, json.loads(f"[{rest}]"))

        answer = served.run(act())
        return [f"entry {answer.seq}" if isinstance(answer, Accepted) else f"refused: {answer.in_words({})}"]
    path, _, body = rest.partition(" ")
    headers = {}
    if path.startswith("json:"):
        path, headers = path[5:], {"Accept": "application/json"}
    status, text, reported = served.ask(word, path, body or None, headers)
    want(reported["Error"], text if status >= 400 else None)
    return [f"{status} {reported['Content-Type'].removesuffix('; charset=utf-8')}", *text.splitlines()]
