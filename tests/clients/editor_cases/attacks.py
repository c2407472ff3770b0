"""Requests that take much of the program: large, deep and slow documents, and steps that cost much and change nothing."""
from __future__ import annotations

import asyncio
import base64
import functools
import gzip
import itertools
import random
import resource
import socket
import time
from unittest import mock

from lib.cases import each_case, given, want
from lib.editor_rooms import FACTOR, MOST_DELAY, Watcher
from editor_cases.shared import (
    Bridge,
    CREATE,
    HAS_ALL,
    has_packages,
    in_a_loop,
    needed,
    node,
    NOW_VERSION,
    refusal_of,
    relation,
    Served,
    way,
)
from collections.abc import AsyncIterator, Callable, Iterable
from typing import Any

if HAS_ALL:
    from maproom.osm_api import changesets, ids, osm_reading
    from maproom.osm_api.calls import Request
    from maproom.osm_api.errors import ApiError
    from maproom.osm_api.memory_room import MemoryRoom

MEBIBYTE = 2**20

# How many MiB of memory a document takes at most.
MOST_MEMORY = 300

LARGE = "The document has more than 250,000 elements. Nothing was uploaded."
LONG_TAG = "A tag of the document has more than 64 KiB"
MANY_NAMES = "The document has more than 1,000 names of elements and attributes"
MANY_STEPS = "This upload has more than 10,000 changes. Nothing was uploaded. Upload in smaller parts."


def filled(head: str, part: str, size: int = 64 * MEBIBYTE) -> bytes:
    """A document of one part again and again."""
    return f"<osmChange>{head}".encode() + part.encode() * ((size - len(head) - 100) // len(part))


def numbered(head: str, part: str, count: int) -> bytes:
    """A document of parts, each with another number."""
    return f"<osmChange>{head}".encode() + "".join(part.format(number) for number in range(count)).encode()


# Documents, and the refusal of each. None has an end, so reading ends before they do.
REFUSED = {
    "empty elements": (lambda: filled("<create><node>", '<a b=""/>'), (413, LARGE)),
    "tags": (lambda: numbered("<create><node>", '<tag k="{0}" v="{0}"/>', 300_000), (413, LARGE)),
    "comments": (lambda: filled("", "<!---->"), (413, LARGE)),
    "instructions": (lambda: filled("", "<?a?>"), (413, LARGE)),
    "steps": (lambda: filled("<delete if-unused=''>", '<node id="1" version="1"/>', 8 * MEBIBYTE), (413, MANY_STEPS)),
    "a long attribute": (lambda: filled("<a b='", "c"), (400, LONG_TAG)),
    "a long comment": (lambda: filled("<!-- ", "c"), (400, LONG_TAG)),
    "a long name": (lambda: filled("<a", "c"), (400, LONG_TAG)),
    "levels": (
        lambda: filled("<create><node>", "<a>", MEBIBYTE),
        (400, "The document has more than 10 levels"),
    ),
    "names of attributes": (lambda: numbered("", '<create a{}=""/>', 300_000), (400, MANY_NAMES)),
    "names of elements": (lambda: numbered("<create><node>", "<a{}/>", 300_000), (400, MANY_NAMES)),
    "namespaces": (lambda: numbered("", '<create xmlns:a{}="b"/>', 300_000), (400, MANY_NAMES)),
}


def is_refused(attack: Any) -> None:
    """A document is refused as soon as it is too much, and has taken little memory until then."""
    make, wanted = attack
    document = make()
    before = resource.getrusage(resource.RUSAGE_SELF).ru_maxrss
    want(refusal_of(osm_reading.Changes(), document), wanted)
    grown = (resource.getrusage(resource.RUSAGE_SELF).ru_maxrss - before) / 1024
    want((grown < MOST_MEMORY, grown), (True, grown))


each_case(is_refused, {f"refused {name}": attack for name, attack in REFUSED.items()}, has_packages)


# Parts of random documents.
PARTS = (
    *("<osmChange>", "<create>", "<modify>", "<delete if-unused='x'>", "<osm>", "<changeset>", "<a:b xmlns:a='c'>"),
    *("<node id='-1' lat='1' lon='1' version='1'/>", "<way id='1'>", "<nd ref='1'/>", "<relation id='-1'>"),
    *("<member type='node' ref='x'/>", "<member type='Way' ref='1' role='&#10;'/>", "<tag k='a' v='b'/>", "</way>"),
    *(
        "</relation>",
        "</modify>",
        "</create>",
        "</osmChange>",
        "\0",
        "é",
        "<!-- -->",
        "<![CDATA[ ]]>",
        "<?a b?>",
        "&amp;",
    ),
    *(
        "<node id='9999999999999999999'/>",
        "<!DOCTYPE a>",
        "<tag k='a' k='b'/>",
        "<node>",
        "</node>",
        "<",
        "]]>",
        "\ufeff",
    ),
)


def outcome_of(document: Any, pieces: Iterable[bytes]) -> Any:
    """What a document says that comes in some pieces, or None if it is refused."""
    reader = osm_reading.Reader(document)
    try:
        for piece in pieces:
            reader.feed(piece)
        return reader.end()
    except ApiError:
        return None


@needed
def chance_documents() -> None:
    """Random documents are read or refused, and nothing else happens. Those that are read say the same, whatever the
    pieces in which they come."""
    chance, is_read = random.Random(98), 0
    way_alone = functools.partial(osm_reading.SingleElement, ids.Kind.WAY)
    kinds: list[Callable[[], Any]] = [osm_reading.Changes, osm_reading.ChangesetTags, way_alone]
    for _ in range(3_000):
        inner = "".join(chance.choices(PARTS, k=chance.randint(0, 8)))
        text = chance.choice((inner, f"<osmChange><create>{inner}</create></osmChange>", f"<osm>{inner}</osm>"))
        data = bytearray(text.encode(chance.choice(("utf-8", "utf-8", "utf-8", "utf-16"))))
        for _ in range(chance.choice((0, 0, 1, 3)) if data else 0):
            data[chance.randrange(len(data))] = chance.randrange(256)
        document, cut = chance.choice(kinds), chance.randint(1, 40)
        whole = outcome_of(document(), [bytes(data)])
        parts = outcome_of(document(), [bytes(data[at : at + cut]) for at in range(0, len(data), cut)])
        want((bytes(data), parts), (bytes(data), whole))
        is_read += whole is not None
    want((is_read > 50, is_read), (True, is_read))


@needed
def tags_of_changesets_have_limits() -> None:
    """A changeset has 200 tags at most, each of 255 characters; an author's oldest changesets are forgotten, and never
    those of others."""
    tag = '<tag k="{}" v="b"/>'
    for count, wanted in ((200, None), (201, (400, "A changeset has at most 200 tags"))):
        document = f"<osm><changeset>{''.join(map(tag.format, range(count)))}</changeset></osm>".encode()
        want(refusal_of(osm_reading.ChangesetTags(), document), wanted)
    for key, value in (("a" * 256, "b"), ("a", "b" * 256)):
        document = f'<osm><changeset><tag k="{key}" v="{value}"/></changeset></osm>'.encode()
        too_long = (400, "A key and a value of a changeset have at most 255 characters")
        want(refusal_of(osm_reading.ChangesetTags(), document), too_long)
    with mock.patch.multiple(changesets, MOST_CHANGESETS=3, MOST_CHARACTERS=20, MOST_AUTHORS=2):
        kept = changesets.Changesets(itertools.count(2e9).__next__)
        first = kept.open("bob", {})
        opened = [kept.open("lina", {}) for _ in range(5)]
        want([each.number for each in kept.latest_first()], [each.number for each in (*opened[:1:-1], first)])
        kept.tag(opened[3], {"a": "b" * 18})
        want(opened[2].number in [each.number for each in kept.latest_first()], True)
        last = kept.open("lina", {"a": "b"})
        want([each.number for each in kept.latest_first()], [last.number, opened[4].number, first.number])
        kept.open("mika", {})
        want(first.number in [each.number for each in kept.latest_first()], False)


@needed
def a_name_comes_before_a_body() -> None:
    """A request that names nobody, or that no call takes, is answered before its body has come. So is one that
    announces too many bytes."""
    with Served([node("n1")], name=None) as served:
        lina = base64.b64encode(b"lina:x").decode()
        for method, path, name, length, status in (
            ("POST", "/api/0.6/changeset/1/upload", "", 1000, b"401"),
            ("PUT", "/api/0.6/changeset/create", "", 1000, b"401"),
            ("PUT", "/api/0.6/changeset/create", "TGluYTp4", 1000, b"401"),
            ("PUT", "/api/0.6/nothing", lina, 1000, b"404"),
            ("POST", "/api/0.6/changeset/1/upload", lina, 1000, b"409"),
            ("PUT", "/api/0.6/changeset/create", lina, 300 * 1024, b"413"),
            ("PUT", "/api/0.6/node/create", lina, 5 * MEBIBYTE, b"413"),
            ("PUT", "/api/0.6/user/preferences/a", lina, 5000, b"413"),
        ):
            head = f"{method} {path} HTTP/1.1\r\nHost: 127.0.0.1:{served.port}\r\nContent-Length: {length}\r\n"
            head += f"Authorization: Basic {name}\r\n" if name else ""
            with socket.create_connection(("127.0.0.1", served.port), 10) as stream:
                stream.sendall(f"{head}\r\n".encode())
                want((method, path, name, stream.recv(4096).split()[1]), (method, path, name, status))


@in_a_loop
async def one_body_of_an_author() -> None:
    """A body of an author is read when the one before is answered. Those of others are read meanwhile."""
    bridge, is_there = Bridge(MemoryRoom([node("n1")])), asyncio.Event()
    begun: list[str] = []

    async def body(author: str) -> AsyncIterator[bytes]:
        begun.append(author)
        yield b"<osm>"
        await is_there.wait()
        yield b"<changeset/></osm>"

    def opens(author: str) -> asyncio.Task[Any]:
        path = "/api/0.6/changeset/create"
        return asyncio.create_task(bridge.calls.answer(Request("PUT", path, {}, body(author), author)))

    asked = [opens(author) for author in ("lina", "lina", "lina", "bob")]
    await asyncio.sleep(0.1)
    want(begun, ["lina", "bob"])
    is_there.set()
    want([(await each).status for each in asked], [200] * 4)
    want((begun, len(bridge.calls._turns)), (["lina", "bob", "lina", "lina"], 0))


@needed
def compressed_bodies() -> None:
    """A body may be compressed, also to several parts. If it becomes too large, breaks off, or is compressed in another
    way, it is refused."""
    with Served([node("n1")]) as served:
        changeset = served.ask("PUT", "/api/0.6/changeset/create", "<osm><changeset/></osm>")[1]
        path, document = f"/api/0.6/changeset/{changeset}/upload", f"<osmChange>{CREATE}{' ' * 100_000}</osmChange>"
        packed = gzip.compress(document.encode())
        bomb = gzip.compress(b"<osmChange>" + b" " * (70 * MEBIBYTE))
        too_large = "The body of the request is larger than 64 MiB. Nothing was uploaded."
        no_end = "The body of the request cannot be read: its compression has no end"
        for data, encoding, wanted in (
            (packed, "gzip", (200, None)),
            (bomb, "gzip", (413, too_large)),
            (packed[:-9], "gzip", (400, no_end)),
            (b"<osmChange/>", "gzip", (400, None)),
            (b"<osmChange/>", "br", (415, "The program does not know the encoding br")),
        ):
            status, text, _ = served.ask("POST", path, data, {"Content-Encoding": encoding})
            want((status, wanted[1] in (None, text) or text), (wanted[0], True))
        want([note for note in served.notes if "Traceback" in note], [])


@needed
def values_that_are_no_values() -> None:
    """An Origin that is no address, and coordinates of many digits, are refused, and no program fails for them."""
    with Served([node("n1")]) as served:
        for origin in ("http://[", "http://]:1", "[", "//"):
            want(served.ask("GET", "/api/capabilities", None, {"Origin": origin})[0], 403)
        changeset = served.ask("PUT", "/api/0.6/changeset/create", "<osm><changeset/></osm>")[1]
        path = f"/api/0.6/changeset/{changeset}/upload"
        for latitude in ("1" * 41, "1" * 60_000, "1e999", "-" + "0" * 60_000, "1." + "0" * 60_000):
            step = f'<osmChange><create><node id="-1" lat="{latitude}" lon="1"/></create></osmChange>'
            want((latitude[:9], served.ask("POST", path, step)[0]), (latitude[:9], 400))
        step = '<osmChange><create><way id="-1">{}</way></create></osmChange>'
        status, _, headers = served.ask("POST", path, step.format("".join(f'<nd ref="{n}"/>' for n in range(7, 2000))))
        want((status, len(headers["Error"])), (412, 1000))
        want([note for note in served.notes if "Traceback" in note], [])


def hostile_rows() -> list[Any]:
    """A map on which a step costs much: a node with many users, some of which have many members."""
    members = [("n1", "")] * 30_000
    return [
        node("n1"),
        node("n2"),
        node("n3", 7, 8),
        *(way(f"w{n}", 1, 2) for n in range(1, 3000)),
        relation("r1", *members),
    ]


@needed
def no_mapper_delays_another() -> None:
    """While somebody uploads what takes long, small calls of others take a tenth of a second at most."""
    steps = "".join(f'<node id="-{n}" lat="5" lon="5"/>' for n in range(1, 3_001))
    unused = '<node id="1" version="{v}"/>'.format(v=NOW_VERSION)
    attacks = {
        "16 MiB of elements": filled("<create><node>", '<a b=""/>', 16 * MEBIBYTE),
        "300,000 steps that do nothing": filled("<delete if-unused=''>", unused, 16 * MEBIBYTE),
        "10,000 steps that do nothing": f"<osmChange><delete if-unused=''>{unused * 10_000}</delete></osmChange>".encode(),
        "3,000 new nodes": f"<osmChange><create>{steps}</create></osmChange>".encode(),
        "64 MiB of spaces": b"<osmChange>" + b" " * (64 * MEBIBYTE - 100) + b"</osmChange>",
    }
    with Served(hostile_rows(), name=None, seconds=30) as served:
        lina = {"Authorization": "Basic " + base64.b64encode(b"lina:x").decode()}
        changeset = served.ask("PUT", "/api/0.6/changeset/create", "<osm><changeset/></osm>", lina)[1]
        for name, document in attacks.items():
            with Watcher(served.port) as watcher:
                began = time.monotonic()
                status = served.ask("POST", f"/api/0.6/changeset/{changeset}/upload", document, lina)[0]
                took = time.monotonic() - began
            print(f"{name}: {status} after {took:.2f} s; {watcher}")
            want((name, watcher.slowest[1] < MOST_DELAY * FACTOR * given.slow or watcher.longest), (name, True))
