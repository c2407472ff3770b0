"""Tests the server with many clients, slow clients, and clients that edit at random and keep mirrors of the map."""
from __future__ import annotations

import concurrent.futures
import json
import random
import time
from collections.abc import Callable
from typing import Any, TypeVar

from lib.cases import case, each_case, given, want
from lib.talk import PATIENCE, SILENCE, create, finish, serving
from lib.serving import Server, Session

# The tags of an element whose text has a quarter of a megabyte.
BIG_TAGS = {f"key{number}": "v" * 250 for number in range(1000)}

# The ids of requests for a map of two such elements. The replies are more than the system keeps for a client.
ASKED = range(10, 22)

Result = TypeVar("Result")


def at_the_same_time(count: int, work: Callable[[int], Result]) -> list[Result]:
    """Calls a function concurrently for each number below a count. Returns the results."""
    with concurrent.futures.ThreadPoolExecutor(count) as pool:
        return list(pool.map(work, range(count)))


@case
def two_hundred_at_once() -> None:
    """If two hundred clients connect at once, four workers serve all of them, and drop none."""
    count = 200
    with serving(workers=4, sessions=count, patience=10 * PATIENCE * given.slow) as server:

        def visit(number: int) -> None:
            """Creates an element, deletes it again and leaves."""
            session, name = server.session(f"client_{number}"), f"n{number + 1}"
            for change in (json.loads(create(2, name)), {"id": 3, "do": "delete", "el": name}):
                seq = session.ask(change)["ok"]["seq"]
                session.follow(seq)
                want(session.authors[seq], session.name)
            session.leave()

        at_the_same_time(count, visit)
        finish(server, [f"paris {2 * count}"], *["left"] * count)


def deaf_client(server: Server) -> Session:
    """A session that makes a big map, asks for it again and again, and reads nothing."""
    session = server.session("anna", buffer=4096)
    for number in (2, 3):
        message = {"id": number, "do": "create", "el": f"n{number}", "lat": "0", "lon": "0", "tags": BIG_TAGS}
        session.follow(session.ask(message)["ok"]["seq"])
    for number in ASKED:
        session.send({"id": number, "do": "map"})
    time.sleep(SILENCE)
    return session


@case
def a_slow_reader() -> None:
    """A client that does not read what it asked for holds up no other. When it reads, all is there."""
    with serving(workers=3, sessions=3) as server:
        anna, bob, carl = deaf_client(server), server.session("bob"), server.session("carl")
        for number in range(2, 22):
            reply = bob.ask(json.loads(create(number, f"n{100 + number}")))
            want(reply, {"id": number, "ok": {"seq": number + 1}})
            carl.follow(number + 1)
        for number in ASKED:
            reply = anna.reply()
            want((reply["id"], len(reply["ok"]["map"])), (number, reply["ok"]["seq"]))
        anna.follow(22)
        for session in (anna, bob, carl):
            session.leave()
        finish(server, ["paris 22"], "left", "left", "left")


@case
def a_reader_that_goes() -> None:
    """A client that does not read what it asked for, and then resets its connection, leaves its worker to the next."""
    with serving(workers=1, sessions=2) as server:
        deaf_client(server).client.reset()
        bob = server.session("bob")
        want((bob.seq, list(bob.rows)), (2, ["n2", "n3"]))
        bob.leave()
        finish(server, ["paris 2"], "fault", "left")


NODES = [f"n{number}" for number in (-3, -2, -1, 1, 2, 3, 4, 5)]
WAYS = [f"w{number}" for number in range(1, 6)]
RELATIONS = ["r1", "r2", "r3"]


def random_edit(chance: random.Random) -> dict[str, Any]:
    """A message of any kind, without its id, about one of few elements: so authors meet, and many are refused."""

    def some(names: list[str], least: int = 0) -> list[str]:
        """Some of the names, in any order and perhaps doubled."""
        return [chance.choice(names) for _ in range(chance.randint(least, 4))]

    def numbers() -> list[int]:
        """The list of a way."""
        return [int(name[1:]) for name in some(NODES, 2)]

    def members() -> list[list[str]]:
        """The members of a relation."""
        return [[name, chance.choice(["", "outer"])] for name in some(NODES + WAYS + RELATIONS)]

    node, way, relation = (chance.choice(names) for names in (NODES, WAYS, RELATIONS))
    any_name, degrees = chance.choice(NODES + WAYS + RELATIONS), f"{chance.randint(-89, 89)}.5"
    return chance.choice(
        [
            {"do": "create", "el": node, "lat": degrees, "lon": degrees},
            {"do": "create", "el": node, "lat": degrees, "lon": degrees, "tags": {"name": "Café"}},
            {"do": "create", "el": way, "nodes": numbers()},
            {"do": "create", "el": relation, "members": members()},
            {"do": "retag", "el": any_name, "tags": {chance.choice("ab"): chance.choice(["", "v", None])}},
            {"do": "move", "els": some(NODES + WAYS, 1), "dlat": chance.randint(-9, 9), "dlon": chance.randint(-9, 9)},
            {"do": "reverse", "el": way},
            {"do": "nodes", "el": way, "nodes": numbers()},
            {"do": "members", "el": relation, "members": members()},
            {"do": "delete", "el": any_name},
            {"do": "purge", "el": any_name},
            {"do": "split", "el": way, "at": chance.randint(0, 3), "into": chance.choice(WAYS)},
            {"do": "join", "el": way, "with": chance.choice(WAYS)},
            {"do": "merge", "el": node, "with": chance.choice(NODES)},
            {"do": "undo"},
            {"do": "undo", "seq": chance.randint(1, 200)},
            {"do": "redo"},
            {"do": "get", "el": any_name},
            {"do": "undos"},
            {"do": "map"},
        ]
    )


def edit(session: Session, chance: random.Random, count: int = 60) -> list[int]:
    """Edits at random, applies the news, and returns the numbers of the accepted changes. If it asks for the map, the
    reply is the mirror's map after the same entry."""
    accepted = []
    for number in range(2, count + 2):
        answer = session.ask({"id": number, **random_edit(chance)}).get("ok", {})
        if "seq" in answer:
            session.follow(answer["seq"])
        if "map" in answer:
            want((session.seq, session.rows), (answer["seq"], session.rows_of(answer)))
        elif "seq" in answer:
            accepted.append(answer["seq"])
        if chance.random() < 0.1:
            time.sleep(chance.random() * 0.1)
    return accepted


def mirrors(seed: str) -> None:
    """Eight clients edit at random concurrently, and begin at different times. From its welcome on each gets each entry
    once, in order and with its author. At the end all have the room's map."""
    with serving(workers=8, sessions=8) as server:

        def begin_and_edit(at: int) -> tuple[Session, int, list[int]]:
            """A session, how far the room was at its welcome, and what was accepted of it."""
            chance = random.Random(f"{seed} {at}")
            time.sleep(chance.random() * 0.5)
            session = server.session(f"author_{at}")
            return session, session.seq, edit(session, chance)

        done = at_the_same_time(8, begin_and_edit)
        authors = {seq: session.name for session, _, accepted in done for seq in accepted}
        entry_count = len(authors)
        want(sorted(seq for _, _, accepted in done for seq in accepted), list(range(1, entry_count + 1)))
        for session, welcomed, _ in done:
            session.follow(entry_count)
            reported = session.ask({"id": 1, "do": "map"})["ok"]
            want((session.seq, reported["seq"], session.rows), (entry_count, entry_count, session.rows_of(reported)))
            want(session.authors, {seq: author for seq, author in authors.items() if seq > welcomed})
        for session, _, _ in done:
            session.leave()
        finish(server, [f"paris {entry_count}"], *["left"] * 8)


each_case(mirrors, {f"mirrors, the {seed} time": seed for seed in ("first", "second", "third")})
