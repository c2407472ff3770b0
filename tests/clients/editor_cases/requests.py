"""Requests over HTTP: calls and responses as texts, guards, limits and failures."""
from __future__ import annotations

import asyncio
import base64
import contextlib
import dataclasses
import http.client
import inspect
import json
import random
import socket
import sys
import time
import urllib.parse
from unittest import mock
from xml.etree import ElementTree

from lib import texts
from lib.cases import each_case, given, want
from editor_cases.shared import (
    answered,
    CREATE,
    CREATED,
    folder,
    HAS_ALL,
    has_packages,
    in_a_loop,
    MARK,
    modified,
    needed,
    node,
    relation,
    Served,
    way,
)
from collections.abc import Coroutine
from typing import Any

if HAS_ALL:
    from maproom.commands import osm_api as osm_api_command
    from maproom.osm_api import calls, changesets, uploads
    from maproom.osm_api.bridge import NotLoopback, Options, bridge
    from maproom.osm_api.ledger import LedgerInUse
    from maproom.osm_api.memory_room import MemoryRoom
    from maproom.osm_api.room_connection import ServerRoom


def text_rows(path: str) -> list[Any]:
    """The rows of the map of a text of calls, whose lines have no version."""
    with open(path, encoding="utf-8") as file:
        return [json.loads(line[len(MARK) :]) for line in file if line.startswith(MARK)]


def goes_as_called(path: str) -> None:
    """Each call of a text gets the response of the text."""
    text = texts.read(path)
    with Served(text_rows(path)) as served:
        for at, line in enumerate(text.lines):
            want(answered(served, line), text.blocks[at], text.place(at))


CALLS = texts.files_in("editors/calls")


each_case(goes_as_called, {f"calls {name}": path for name, path in CALLS.items()}, has_packages)


PATHS = ("/", "/undo", "/api/capabilities", "/api/0.6/map?bbox=1,1,2,2", "/api/0.6/changeset/1/upload")


@needed
def other_sites_are_not_let_in() -> None:
    """A page of another site in the mapper's browser is refused: it comes by another host's name, or names itself."""
    with Served([node("n1")]) as served:
        host = f"127.0.0.1:{served.port}"
        foreign: list[dict[str, str]] = [
            {"Host": "evil.example"},
            {"Host": f"evil.example:{served.port}"},
            {"Host": "127.0.0.1"},
            {"Origin": "http://evil.example"},
            {"Origin": "null"},
            {"Origin": "http://127.0.0.1:1"},
            {"Origin": f"http://{host}.evil.example"},
            {"Sec-Fetch-Site": "cross-site"},
        ]
        for headers in foreign:
            for method, path in (("GET", PATHS[0]), ("POST", PATHS[1]), ("GET", PATHS[3]), ("POST", PATHS[4])):
                status, _, reported = served.ask(method, path, "" if method == "POST" else None, headers)
                want((headers, status, reported["Connection"]), (headers, 403, "close"))
        want(b" 403 Forbidden" in served.say(b"GET / HTTP/1.0\r\n\r\n").split(b"\r\n")[0], True)
        own: list[dict[str, str]] = [
            {},
            {"Host": f"localhost:{served.port}"},
            {"Origin": f"http://{host}"},
            {"Sec-Fetch-Site": "same-origin"},
        ]
        for headers in own:
            want(served.ask("GET", PATHS[2], None, headers)[0], 200)


@needed
def bodies_have_limits() -> None:
    """A body that is too large or too slow is refused, and the connection is closed."""
    with mock.patch.object(calls, "MOST_UPLOAD", 2**20), Served(body_seconds=0.3) as served:
        changeset = served.ask("PUT", "/api/0.6/changeset/create", "<osm><changeset/></osm>")[1]
        path = f"/api/0.6/changeset/{changeset}/upload"
        status, text, reported = served.ask("POST", path, b" " * (2**20 + 1))
        want(
            (status, text, reported["Connection"]),
            (413, "The body of the request is larger than 1 MiB. Nothing was uploaded.", "close"),
        )
        want(served.ask("POST", path, b" " * 2**20)[0], 400)
        head = f"POST {path} HTTP/1.1\r\nHost: 127.0.0.1:{served.port}\r\nContent-Length: 100\r\n\r\n<osm".encode()
        with socket.create_connection(("127.0.0.1", served.port), 30) as stream:
            stream.sendall(head)
            want(stream.recv(4096).split(b"\r\n")[0], b"HTTP/1.1 408 Request Timeout")
        for method in ("PUT", "POST"):
            body = f'<!DOCTYPE a [<!ENTITY b "{"c" * 1000}">]><osmChange>&b;</osmChange>'
            want(
                served.ask(method, path if method == "POST" else "/api/0.6/changeset/create", body)[:2],
                (400, "Document types and entities are not accepted"),
            )
        chunked = served.say(
            f"POST {path} HTTP/1.1\r\nHost: 127.0.0.1:{served.port}\r\nConnection: close\r\n"
            "Transfer-Encoding: chunked\r\n\r\nc\r\n<osmChange/>\r\n0\r\n\r\n".encode()
        )
        want((chunked.split(b"\r\n")[0], b"<diffResult" in chunked), (b"HTTP/1.1 200 OK", True))


@needed
def what_is_not_known_says_so() -> None:
    """A call that the API does not have is answered 404 with a text. JOSM asks for notes, and gets none."""
    with Served([node("n1")]) as served:
        status, text, _ = served.ask("GET", "/api/0.6/notes?bbox=1,2,3,4")
        want((status, list(ElementTree.fromstring(text))), (200, []))
        for method, path in (
            ("GET", "/api/0.6/trackpoints"),
            ("DELETE", "/api/0.6/map"),
            ("GET", "/api/0.7/map"),
            ("OPTIONS", "/api/capabilities"),
            ("POST", "/api/0.6/node/1"),
            ("GET", "/x/../y"),
            ("POST", "/api/0.6/notes"),
            ("GET", "/api/0.6/notes/1"),
            ("GET", "/api/0.6/gpx/1"),
            ("GET", "/api/0.6/user/messages/inbox"),
            ("PUT", "/"),
            ("GET", "/api/0.6/node/x"),
            ("GET", "/api/0.6/node/-1"),
            ("GET", "/undo"),
        ):
            want(served.ask(method, path)[:2], (404, f"{method} {path} is not a call that this API has"))
        status, text, reported = served.ask("GET", "/api/0.6/%C3%A4%0A")
        want(
            (status, text, reported["Error"]),
            (
                404,
                "GET /api/0.6/ä\n is not a call that this API has",
                "GET /api/0.6/? is not a call that this API has".replace("? ", "?  "),
            ),
        )
        want((served.ask("GET", "/api")[0], served.ask("GET", "/api")[2]["Location"]), (301, "api/"))


@needed
def names_come_by_basic() -> None:
    """Without a fixed name, a request names its author by HTTP Basic. A read needs no name, and a write does."""

    def basic(text: str) -> dict[str, str]:
        return {"Authorization": "Basic " + base64.b64encode(text.encode()).decode()}

    with Served([node("n1")], name=None) as served:
        opening = ("PUT", "/api/0.6/changeset/create", "<osm><changeset/></osm>")
        details = ("GET", "/api/0.6/user/details", None)
        for method, path, body in (opening, details, ("GET", "/", None), ("POST", "/undo", "")):
            status, text, reported = served.ask(method, path, body)
            want((status, reported["WWW-Authenticate"]), (401, 'Basic realm="maproom"'))
            want(text.startswith("Give your name"), True)
        want(served.ask("GET", "/api/0.6/node/1")[0], 200)
        for headers in (
            basic("Lina:x"),
            basic(":x"),
            basic("a b:x"),
            basic("é:x"),
            basic("a" * 33 + ":x"),
            {"Authorization": "Basic ****"},
            {"Authorization": "Bearer x"},
            {"Authorization": "x"},
        ):
            want((headers, served.ask("GET", "/api/0.6/node/1", None, headers)[0]), (headers, 401))
        lina, bob = (served.ask(*opening, basic(f"{name}:x"))[1] for name in ("lina", "bob"))
        step = f"<osmChange>{modified('n1', 3)}</osmChange>"
        want(
            served.ask("POST", f"/api/0.6/changeset/{bob}/upload", step, basic("lina:x"))[:2],
            (409, "The user doesn't own that changeset"),
        )
        want(served.ask("POST", f"/api/0.6/changeset/{lina}/upload", step, basic("lina:x"))[0], 200)
        want('display_name="bob"' in served.ask("GET", "/api/0.6/user/details", None, basic("bob:x"))[1], True)
        want('user="lina"' in served.ask("GET", "/api/0.6/node/1", None, basic("bob:x"))[1], True)
        want(served.ask("POST", "/undo", "", basic("bob:x"))[:2], (409, "There is no upload to undo"))
        page = served.ask("GET", "/", None, basic("bob:x"))[1]
        want(("<td>lina</td>" in page, "There is no upload to undo." in page), (True, True))
        want(served.room.authors, {1: "lina"})


@needed
def the_page_undoes_and_redoes() -> None:
    """The page shows uploads and others' changes, and its buttons undo and redo; refusals are shown on it."""
    with Served([node("n1")]) as served:
        page = {"Accept": "text/html,application/xhtml+xml"}
        want("The others have changed nothing." in served.ask("GET", "/", None, page)[1], True)
        want(served.ask("POST", "/undo", "", page)[:1], (409,))
        comment = '<osm><changeset><tag k="comment" v="a &lt;b>"/></changeset></osm>'
        changeset = served.ask("PUT", "/api/0.6/changeset/create", comment)[1]
        served.ask("POST", f"/api/0.6/changeset/{changeset}/upload", f"<osmChange>{modified('n1', 3)}</osmChange>")
        status, text, reported = served.ask("GET", "/api/", None, page)
        want(
            (
                status,
                reported["Content-Type"],
                f"<td>{changeset}</td><td>a &lt;b&gt;</td><td>1</td>" in text,
                f"http://127.0.0.1:{served.port}/api" in text,
            ),
            (200, "text/html; charset=utf-8", True, True),
        )
        want(reported["Content-Security-Policy"].startswith("default-src 'none'"), True)
        for path, said, lat in (("/undo", "Undone", "1.0000000"), ("/api/redo", "Redone", "3.0000000")):
            status, text, _ = served.ask("POST", path, "", page)
            want((status, f"<strong>{said}: changeset {changeset}, 1 change</strong>" in text), (200, True))
            want(served.room.elements["n1"]["lat"], lat)
        answered(served, 'bob {"do":"move","els":["n1"],"dlat":1,"dlon":0}')
        status, text, _ = served.ask("POST", "/undo", "", page)
        want((status, "cannot be undone: entry 4 of bob changed n1" in text), (409, True))
        want(
            served.ask("POST", "/undo", "")[:2],
            (409, "The upload cannot be undone: entry 4 of bob changed n1 since, and has to be undone first"),
        )


@needed
def nothing_ends_the_program() -> None:
    """The program answers each request without a failure, and goes on."""
    chance = random.Random(5)
    arguments = [
        "<osmChange>",
        "<create>",
        "<modify>",
        "<delete if-unused='x'>",
        "<node id='-1' lat='1' lon='1' version='1'/>",
        "<way id='1'>",
        "<nd ref='1'/>",
        "<nd ref='-1'/>",
        "<relation id='-1'>",
        "<member type='node' ref='x'/>",
        "<tag k='a' v='b'/>",
        "</way>",
        "</relation>",
        "</modify>",
        "</create>",
        "</osmChange>",
        "\0",
        "é",
        "<!--",
        "]]>",
        "<node id='9999999999999999999' version='99999999999999999999'/>",
        "<osm>",
        "<changeset/>",
        "</osm>",
    ]
    parts = [
        "api",
        "0.6",
        "node",
        "way",
        "relation",
        "nodes",
        "map",
        "changeset",
        "create",
        "upload",
        "1",
        "-1",
        "full",
        "history",
        "close",
        "changesets",
        "9" * 19,
        "%00",
        "%ff",
        "..",
        "capabilities.json",
        "nodes.json",
        "1.json",
    ]
    queries = [
        "",
        "?bbox=1,2,3",
        "?bbox=a,b,c,d",
        "?bbox=0,0,9e9,1",
        "?bbox=1,1,1,1",
        "?nodes=1,2,3v4,",
        "?nodes=" + "9" * 19,
        "?changesets=1,x",
        "?user=%00",
        "?open=true&closed=1",
        "?%ff=%fe",
    ]
    with Served([node("n1"), way("w1", 1, 1), relation("r1", ("w1", ""))]) as served:
        changeset = served.ask("PUT", "/api/0.6/changeset/create", "<osm><changeset/></osm>")[1]
        parts.append(changeset)
        for _ in range(1_500):
            path = "/" + "/".join(chance.choices(parts, k=chance.randint(0, 5))) + chance.choice(queries)
            path = chance.choice([path, f"/api/0.6/changeset/{changeset}/upload", "/api/0.6/" + path.split("/")[-1]])
            body = "".join(chance.choices(arguments, k=chance.randint(0, 9)))
            if chance.random() < 0.5:
                body = (
                    f"<osmChange><{'create'}>{''.join(chance.choices(arguments[4:13], k=3))}</{'create'}></osmChange>"
                )
            status = served.ask(chance.choice(["GET", "PUT", "POST", "DELETE"]), path, body)[0]
            want((path, body, status < 500), (path, body, True))
        for data in (
            b"\0\0\0",
            b"GET\r\n\r\n",
            b"GET / HTTP/9.9\r\n\r\n",
            b"POST / HTTP/1.1\r\nContent-Length: -1\r\n\r\n",
            b"GET / HTTP/1.1\r\nHost: a\r\nHost: b\r\n\r\n",
            b"A" * 100_000,
        ):
            served.say(data)
        want(served.ask("GET", "/api/capabilities")[0], 200)
        want([note for note in served.notes if "Traceback" in note], [])


@needed
def a_failure_is_answered() -> None:
    """If the program itself fails, the editor is told, the log has more, and the program goes on."""
    with Served([node("n1")]) as served:

        async def fail() -> None:
            raise ZeroDivisionError("on purpose")

        served.room.catch_up, kept = fail, served.room.catch_up
        status, text, reported = served.ask("GET", "/api/0.6/node/1")
        want((status, text, reported["Connection"]), (500, "The program failed. Its log has more.", "close"))
        want(any("on purpose" in note for note in served.notes), True)
        served.room.catch_up = kept
        want(served.ask("GET", "/api/0.6/node/1")[0], 200)


@needed
def a_client_that_leaves_does_not_stop_its_upload() -> None:
    """An upload goes on if its client leaves, and its answer is kept for the client's next try."""
    with Served([node("n1")]) as served:
        changeset = served.ask("PUT", "/api/0.6/changeset/create", "<osm><changeset/></osm>")[1]
        path, body = f"/api/0.6/changeset/{changeset}/upload", f"<osmChange>{CREATE}</osmChange>"
        is_back = asyncio.Event()
        served.room.before_group = is_back.wait
        with socket.create_connection(("127.0.0.1", served.port), 30) as stream:
            stream.sendall(
                f"POST {path} HTTP/1.1\r\nHost: 127.0.0.1:{served.port}\r\n"
                f"Content-Length: {len(body)}\r\n\r\n{body}".encode()
            )
            time.sleep(0.2)
        time.sleep(0.2)
        served.loop.call_soon_threadsafe(is_back.set)
        deadline = time.monotonic() + 10
        while not served.room.seq and time.monotonic() < deadline:
            time.sleep(0.01)
        served.room.before_group = None
        status, text, _ = served.ask("POST", path, body)
        want((status, text.splitlines()[2:-1], served.room.seq), (200, CREATED, 1))


@needed
def a_thousand_elements_are_fast() -> None:
    """An upload of 1,000 new elements takes less than 1 s."""
    with Served() as served:
        changeset = served.ask("PUT", "/api/0.6/changeset/create", "<osm><changeset/></osm>")[1]
        steps = "".join(
            f'<node id="-{number}" lat="47.{number}" lon="9.5"><tag k="natural" v="tree"/></node>'
            for number in range(1, 1001)
        )
        started = time.monotonic()
        document = f"<osmChange><create>{steps}</create></osmChange>"
        status, text, _ = served.ask("POST", f"/api/0.6/changeset/{changeset}/upload", document)
        took = time.monotonic() - started
        print(f"an upload of 1,000 elements took {took:.2f} s")
        want((status, text.count("new_version"), took < given.slow), (200, 1000, True))


def asked(url: str, method: str, path: str, body: bytes | str | None = None) -> tuple[int, str]:
    """A request to a bridge. Gives the status and the text."""
    place = urllib.parse.urlsplit(url)
    connection = http.client.HTTPConnection(place.hostname or "", place.port, timeout=30)
    with contextlib.closing(connection):
        connection.request(method, path, body)
        answer = connection.getresponse()
        return answer.status, answer.read().decode()


@in_a_loop
async def a_bridge_starts_again() -> None:
    """A whole bridge keeps its versions in its ledger, and has it for itself; it listens on this machine alone, unless
    it is told the names of its hosts."""
    with folder() as place:
        room, versions_told = MemoryRoom([node("n1")]), []
        options = Options("lina", port=0, ledger=place / "l")
        for _ in range(2):
            async with bridge(room, options) as url:
                status, text = await asyncio.to_thread(asked, url, "GET", "/api/0.6/node/1.json")
                versions_told.append((status, json.loads(text)["elements"][0]["version"]))
                with contextlib.suppress(LedgerInUse):
                    async with bridge(room, options):
                        raise AssertionError("two bridges have one ledger")
            await asyncio.sleep(1.1)
        want((versions_told[0][0], versions_told[0] == versions_told[1]), (200, True))
        with contextlib.suppress(NotLoopback):
            async with bridge(room, dataclasses.replace(options, host="0.0.0.0")):
                raise AssertionError("it listens to others")
        named = dataclasses.replace(options, host="0.0.0.0", hosts=frozenset(["map.example"]))
        async with bridge(room, named) as url:
            want((await asyncio.to_thread(asked, url, "GET", "/api/capabilities"))[0], 403)


@in_a_loop
async def defaults() -> None:
    """Without options, a request has at most 64 MiB, and waits for the room for a minute, and for a session for ten
    seconds. The session of an author is closed after a silent minute."""
    room, most = MemoryRoom([node("n1")]), 64 * 2**20
    async with bridge(room, Options("lina", port=0)) as url:
        changeset = (await asyncio.to_thread(asked, url, "PUT", "/api/0.6/changeset/create", "<osm/>"))[1]
        path, waits = f"/api/0.6/changeset/{changeset}/upload", []
        for size, wanted in ((most, 400), (most + 1, 413)):
            want((size, (await asyncio.to_thread(asked, url, "POST", path, b" " * size))[0]), (size, wanted))

    def note_wait(serving: Coroutine[Any, Any, Any]) -> None:
        waits.append(serving.cr_frame.f_locals["options"].patience)
        serving.close()

    arguments = ["osm_api", "ws://127.0.0.1:1", "--room", "hamlet"]
    with mock.patch.object(sys, "argv", arguments), mock.patch.object(asyncio, "run", note_wait):
        with contextlib.suppress(SystemExit):
            osm_api_command.main()
    want((uploads.SESSION_SECONDS, changesets.MOST_CHANGESETS, changesets.MOST_CHARACTERS), (10, 1_000, 1_000_000))
    want((waits, inspect.signature(ServerRoom).parameters["idle_seconds"].default), ([60], 60))
