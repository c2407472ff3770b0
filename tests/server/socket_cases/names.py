"""Tests whose name a session has, what watchers can do, and which pages of browsers are let in."""
from __future__ import annotations

import time
from typing import Optional

from lib.cases import case, each_case, want
from lib.serving import Server
from lib.talk import create, finish, hear, hello, leave, news, node, ok, refused, serving, talk, welcome
from lib.websocket import Client, Gone, check_answer, head_of_request, make_key

HEADER = "X-Maproom-Name"
NAMED = ("--name-header", HEADER)
WATCHED = (*NAMED, "--watchers")
WRONG, NOBODY = refused(1, '"name":"lina","why":"wrong_name"'), refused(1, '"why":"no_name"')

# How many seconds the head of a handshake has.
HEAD_SECONDS = 10


def answered(server: Server, *lines: str) -> tuple[Client, str]:
    """A client whose request also has these lines, and the first line of the answer."""
    key, client = make_key(), server.connect()
    head = head_of_request(key).decode()[:-2]
    client.send_bytes("\r\n".join([head[:-2], *lines, "", ""]).encode())
    deadline = client.deadline()
    while b"\r\n\r\n" not in client.came:
        client.wait(deadline)
    text = client.take(client.came.index(b"\r\n\r\n") + 4)[:-4]
    if b" 101 " in text:
        check_answer(text, key)
    return client, text.split(b"\r\n")[0].decode()


def greeted(server: Server, *lines: str) -> Client:
    """A client that has shaken hands, with these lines in its request."""
    client, first = answered(server, *lines)
    want((lines, first), (lines, "HTTP/1.1 101 Switching Protocols"))
    return client


# The lines of a request, and the author whom they name.
HEADS: dict[str, tuple[list[str], Optional[str]]] = {
    "no_header": ([], None),
    "a_name": ([f"{HEADER}: lina"], "lina"),
    "the_header_in_another_case": (["x-mAPROOM-nAME: lina"], "lina"),
    "spaces_around_the_name": ([f"{HEADER}:  \t lina \t"], "lina"),
    "the_longest_name": ([f"{HEADER}: {'a' * 32}"], "a" * 32),
    "a_name_that_is_too_long": ([f"{HEADER}: {'a' * 33}"], None),
    "an_empty_value": ([f"{HEADER}:"], None),
    "a_name_in_another_case": ([f"{HEADER}: Lina"], None),
    "a_list": ([f"{HEADER}: lina, mika"], None),
    "a_list_without_spaces": ([f"{HEADER}: lina,lina"], None),
    "twice_the_same": ([f"{HEADER}: lina"] * 2, None),
    "twice_in_other_cases": ([f"{HEADER}: lina", f"{HEADER.lower()}: lina"], None),
    "two_names": ([f"{HEADER}: lina", f"{HEADER}: mika"], None),
    "an_empty_one_and_a_name": ([f"{HEADER}:", f"{HEADER}: lina"], None),
    "no_ascii": ([f"{HEADER}: lin\u00e4"], None),
    "a_space_in_the_name": ([f"{HEADER}: li na"], None),
    "a_header_with_underscores": (["X_Maproom_Name: lina"], None),
    "a_longer_header": ([f"{HEADER}s: lina"], None),
}


def who_speaks(head: tuple[list[str], Optional[str]]) -> None:
    """One header with an author's name is a session of this author. Otherwise it is nobody's."""
    lines, name = head
    with serving(sessions=1, options=NAMED) as server:
        client = greeted(server, *lines)
        if name is None:
            for each in ("lina", "mika", "a" * 32):
                talk(client, hello(each), NOBODY)
            talk(client, create(2), refused(2, '"why":"no_hello"'))
        else:
            talk(client, hello("mika"), refused(1, f'"name":"{name}","why":"wrong_name"'))
            talk(client, hello(name), welcome(0))
            talk(client, create(2), ok(2, '"seq":1'), news(name, 1, node()))
        leave(client)
        finish(server, [f"paris {0 if name is None else 1}"], "left")


each_case(who_speaks, {f"who_speaks_by_{name}": head for name, head in HEADS.items()})


@case
def a_hello_under_another_name() -> None:
    """A hello under another name is refused, whatever its room is. Then nothing works but a hello under the right one,
    and after it no further hello."""
    with serving(sessions=1, options=NAMED) as server:
        lina = greeted(server, f"{HEADER}: lina")
        talk(lina, hello("mika"), WRONG)
        talk(lina, hello("mika", "rome"), WRONG)
        talk(lina, hello("lina", "rome"), refused(1, '"why":"no_room"'))
        talk(lina, create(2), refused(2, '"why":"no_hello"'))
        talk(lina, '{"id":3,"do":"undos"}', refused(3, '"why":"no_hello"'))
        talk(lina, hello("lina"), welcome(0))
        talk(lina, hello("mika"), refused(1, '"why":"hello_twice"'))
        talk(lina, create(2), ok(2, '"seq":1'), news("lina", 1, node()))
        leave(lina)
        finish(server, ["paris 1"], "left")


@case
def an_author_in_a_change_is_nothing() -> None:
    """Members of a message that look like an author change no author, and nobody undoes what somebody else did."""
    with serving(sessions=2, options=NAMED) as server:
        lina, mika = (greeted(server, f"{HEADER}: {name}") for name in ("lina", "mika"))
        talk(lina, hello("lina"), welcome(0))
        talk(mika, hello("mika"), welcome(0))
        spoofed = create(2)[:-1] + ',"name":"mika","by":"mika","author":"mika"}'
        talk(lina, spoofed, ok(2, '"seq":1'), news("lina", 1, node()))
        hear(mika, news("lina", 1, node()))
        talk(mika, '{"id":3,"do":"undo"}', refused(3, '"why":"nothing_to_undo"'))
        talk(mika, '{"id":3,"do":"undo","seq":1,"name":"lina"}', refused(3, '"why":"not_yours"'))
        for client in (lina, mika):
            leave(client)
        finish(server, ["paris 1"], "left", "left")


@case
def without_the_option_a_header_is_nothing() -> None:
    """Without the option, a client has the name of its hello."""
    with serving(sessions=1) as server:
        client = greeted(server, f"{HEADER}: lina")
        talk(client, hello("mika"), welcome(0))
        talk(client, create(2), ok(2, '"seq":1'), news("mika", 1, node()))
        leave(client)


@case
def watchers() -> None:
    """A watcher sees the map and its news. Each change, undo, redo and list of undos is refused, and nothing is spent."""
    with serving(sessions=2, options=WATCHED) as server:
        lina, watcher = greeted(server, f"{HEADER}: lina"), greeted(server)
        talk(lina, hello("lina"), welcome(0))
        talk(watcher, hello("lina"), welcome(0))
        talk(lina, create(2), ok(2, '"seq":1'), news("lina", 1, node()))
        hear(watcher, news("lina", 1, node()))
        talk(watcher, '{"id":7,"do":"get","el":"n-1"}', ok(7, f'"is":{node()}'))
        talk(watcher, '{"id":7,"do":"map"}', ok(7, f'"map":[{node()}],"seq":1'))
        for message in (
            create(2, "n-2"),
            '{"id":2,"do":"group","actions":[{"do":"delete","el":"n-1"}]}',
            '{"id":2,"do":"undo"}',
            '{"id":2,"do":"undo","seq":1}',
            '{"id":2,"do":"redo"}',
            '{"id":2,"do":"undos"}',
        ):
            talk(watcher, message, refused(2, '"why":"no_name"'))
        talk(watcher, hello("mika"), refused(1, '"why":"hello_twice"'))
        talk(lina, '{"id":3,"do":"undos"}', ok(3, '"redo":[],"undos":[1]'))
        for client in (lina, watcher):
            leave(client)
        finish(server, ["paris 1"], "left", "left")


@case
def a_name_among_watchers() -> None:
    """With watchers, too, a client whom the header names has only this name."""
    with serving(sessions=1, options=WATCHED) as server:
        lina = greeted(server, f"{HEADER}: lina")
        talk(lina, hello("mika"), WRONG)
        talk(lina, hello("lina"), welcome(0))
        leave(lina)


# The origins of pages, and whether a server lets them in that has --origin https://maps.example.org.
ORIGINS = {
    "file://": False,
    "http://localhost:80.evil.example": False,
    "http://localhost:": True,
    "http://localhost": True,
    "http://localhost:8000": True,
    "https://localhost:8443": True,
    "http://127.0.0.1:1": True,
    "https://127.0.0.1": True,
    "http://[::1]:8000": True,
    "https://maps.example.org": True,
    "https://maps.example.org:443": False,
    "http://maps.example.org": False,
    "https://maps.example.org.evil.example": False,
    "https://evil.example": False,
    "null": False,
    "": False,
    "http://localhost.evil.example": False,
    "http://127.0.0.1.evil.example": False,
    "http://127.0.0.2": False,
    "http://[::2]": False,
    "ftp://localhost": False,
    "file:///home": False,
    "http://localhost, https://evil.example": False,
}


@case
def origins() -> None:
    """Pages from this machine are let in, and those of the given origins. A page of
    another origin gets nothing but a refusal, and the log says so. So does each that has such an origin among several.
    """
    refusals = [origin for origin, is_let_in in ORIGINS.items() if not is_let_in]
    with serving(sessions=len(ORIGINS) + 2, options=("--origin", "https://maps.example.org")) as server:
        ends = []
        for origin, is_let_in in ORIGINS.items():
            client, first = answered(server, f"Origin: {origin}")
            want((origin, first.split(" ")[1]), (origin, "101" if is_let_in else "403"))
            if is_let_in:
                talk(client, hello("lina"), welcome(0))
                leave(client)
            else:
                want((origin, client.rest()), (origin, b""))
                client.drop()
            ends.append("left" if is_let_in else "origin")
        both = ["Origin: http://localhost", "origin: https://evil.example"]
        for twice in (both, both[::-1]):
            client, first = answered(server, *twice)
            want((twice, first.split(" ")[1]), (twice, "403"))
            client.drop()
        want(len(refusals) > 10, True)
        finish(server, ["paris 0"], *ends, "origin", "origin")


@case
def pages_without_an_origin() -> None:
    """Pages in sandboxed frames, which have the origin null, are let in only if an operator says so."""
    with serving(sessions=1, options=("--origin", "null")) as server:
        client = greeted(server, "Origin: null")
        talk(client, hello("lina"), welcome(0))
        leave(client)


@case
def a_head_that_comes_slowly() -> None:
    """A client whose head does not come within ten seconds is dropped, though it sends a byte now and then. Then its
    worker serves the next client."""
    with serving(workers=1, sessions=2, patience=60) as server:
        slow, begin = server.connect(), time.monotonic()
        head = head_of_request(make_key())
        for byte in head[: 3 * HEAD_SECONDS]:
            try:
                slow.send_bytes(bytes([byte]))
            except (Gone, OSError):
                break
            time.sleep(0.5)
            if time.monotonic() - begin > HEAD_SECONDS + 1:
                break
        next_client = server.client()
        talk(next_client, hello("zoe"), welcome(0))
        took = time.monotonic() - begin
        want(HEAD_SECONDS - 1 < took < HEAD_SECONDS + 8, True)
        slow.drop()
        leave(next_client)
        finish(server, ["paris 0"], "fault", "left")


@case
def a_server_without_an_end() -> None:
    """Without --sessions the server goes on after any number of sessions, until it is stopped."""
    with serving(workers=1, sessions=None) as server:
        for _ in range(20):
            client = server.client()
            talk(client, hello("zoe"), welcome(0))
            leave(client)
        want(server.process.poll(), None)
        server.process.terminate()
        want(server.process.wait(), -15)
