"""Tests the server with rooms that begin with a map: the welcomes of clients, and when the program reads the map."""
from __future__ import annotations

import contextlib
import json
import os
import random
import socket
import subprocess
import tempfile
import time

from lib.cases import case, each_case, given, want
from lib.serving import Session, free_port
from lib.talk import (
    PATIENCE,
    SILENCE,
    be_closed,
    create,
    finish,
    hear,
    hello,
    leave,
    news,
    node,
    ok,
    refused,
    serve_next,
    serving,
    talk,
    welcome,
)
from lib.websocket import BINARY
from lib.programs import Piped

from .many_clients import at_the_same_time, edit
from .one_room import BAD_NAME, CANNOT_LISTEN, TOO_MANY, TWICE, connected

# The map of the worked example on_a_base: as its line has it, and as a room sends it.
BASE = (
    '{"id":1,"ok":{"map":[{"el":"n1","lat":"0","lon":"0","tags":{}},{"el":"n2","lat":"1","lon":"1","tags":{}},'
    '{"el":"w1","nodes":[1,2],"tags":{}}],"seq":7}}\n'
)
N1 = '{"el":"n1","lat":"0.0000000","lon":"0.0000000","tags":{}}'
N2 = '{"el":"n2","lat":"1.0000000","lon":"1.0000000","tags":{}}'
W1 = '{"el":"w1","nodes":[1,2],"tags":{}}'
UNSOUND = BASE.replace("[1,2]", "[1,3]")

BAD_BASE = (1, "", "maproom: bad base\n")
UNSOUND_BASE = (1, "", "maproom: unsound base w1\n")
READ_FAILED = (1, "", "maproom: read failed\n")


@case
def two_sessions_on_a_base() -> None:
    """Both welcomes have the base. Both clients get each change, and nobody can undo anything of the base."""
    with serving(sessions=2, base=BASE) as server:
        anna = server.client()
        talk(anna, hello("anna"), welcome(0, N1, N2, W1))
        talk(anna, '{"id":2,"do":"undo"}', refused(2, '"why":"nothing_to_undo"'))
        talk(anna, create(2), ok(2, '"seq":1'), news("anna", 1, node()))
        bob = server.client()
        talk(bob, hello("bob"), welcome(1, node(), N1, N2, W1))
        moved = node("51.5000001")
        message = '{"id":2,"do":"move","els":["n-1"],"dlat":1,"dlon":0}'
        talk(bob, message, ok(2, '"seq":2'), news("bob", 2, moved))
        hear(anna, news("bob", 2, moved))
        talk(anna, '{"id":3,"do":"undo"}', refused(3, '"at":"n-1","why":"conflict","with":2'))
        talk(bob, '{"id":3,"do":"map"}', welcome(2, moved, N1, N2, W1, number=3))
        talk(bob, '{"id":3,"do":"delete","el":"n1"}', refused(3, '"by":"w1","el":"n1","why":"in_use"'))
        gone = ['{"el":"n1","gone":true}', '{"el":"w1","gone":true}']
        talk(bob, '{"id":3,"do":"purge","el":"n1"}', ok(3, '"seq":3'), news("bob", 3, *gone))
        hear(anna, news("bob", 3, *gone))
        talk(bob, '{"id":4,"do":"undo"}', ok(4, '"seq":4,"undid":3'), news("bob", 4, N1, W1))
        hear(anna, news("bob", 4, N1, W1))
        bob.send(BINARY, b"\x00")
        be_closed(bob, 1003)
        leave(anna)
        finish(server, ["paris 4"], "left", "binary")


@case
def rooms_apart_on_one_base() -> None:
    """Each room begins with the map, and what is done in one is not done in the others."""
    with serving("rome", "paris", "oslo", sessions=4, base=BASE) as server:
        anna, other = server.client(), server.client()
        talk(anna, hello("anna", "paris"), welcome(0, N1, N2, W1))
        talk(other, hello("anna", "rome"), welcome(0, N1, N2, W1))
        gone = ['{"el":"n2","gone":true}', '{"el":"w1","gone":true}']
        talk(anna, '{"id":2,"do":"purge","el":"n2"}', ok(2, '"seq":1'), news("anna", 1, *gone))
        want(other.is_quiet(SILENCE), True)
        talk(other, '{"id":3,"do":"map"}', welcome(0, N1, N2, W1, number=3))
        reversed_way = W1.replace("[1,2]", "[2,1]")
        talk(other, '{"id":3,"do":"reverse","el":"w1"}', ok(3, '"seq":1'), news("anna", 1, reversed_way))
        talk(anna, '{"id":3,"do":"map"}', welcome(1, N1, number=3))
        leave(anna)
        leave(other)
        for name, rows in (("oslo", [N1, N2, W1]), ("rome", [N1, N2, reversed_way])):
            client = server.client()
            talk(client, hello("zoe", name), welcome(int(name == "rome"), *rows))
            leave(client)
        finish(server, ["rome 1", "paris 1", "oslo 0"], *["left"] * 4)


@case
def a_full_room_on_a_base() -> None:
    """A base uses up no entries of a room."""
    with serving(limit=1, base=BASE) as server:
        anna = server.client()
        talk(anna, hello("anna"), welcome(0, N1, N2, W1))
        talk(anna, create(2), ok(2, '"seq":1'), news("anna", 1, node()))
        talk(anna, '{"id":3,"do":"undo"}', refused(3, '"why":"full"'))
        leave(anna)
        finish(server, ["paris 1"], "left")


@case
def what_stands_behind_a_base() -> None:
    """The server does not read text after the base as messages. A base may lack its line feed, and its map may be
    empty."""
    for base in (
        BASE + f"anna {create(1)}\n" + BASE,
        BASE + "x" * 200_000,
        BASE.removesuffix("\n"),
        BASE.replace("\n", "\r\n"),
    ):
        with serving(base=base) as server:
            serve_next(server, "zoe", 0, N1, N2, W1)
            finish(server, ["paris 0"], "left")
    with serving(base='{"id":9,"ok":{"map":[],"seq":3}}\n') as server:
        serve_next(server)
        finish(server, ["paris 0"], "left")


@case
def what_is_not_a_base() -> None:
    """Without --base the server reads nothing from standard input."""
    with serving() as server:
        server.input.write(b"anna\n")
        serve_next(server)
        finish(server, ["paris 0"], "left")


class Begun:
    """A program that has to serve, with a pipe as its standard input, which stays open. The end of its block ends
    it."""

    def __init__(self, *rooms: str, addr: str = "127.0.0.1:0", base: bool = True) -> None:
        options = ["serve", "--addr", addr, "--workers", "1", "--sessions", "1", *(["--base"] if base else []), *rooms]
        self.kept = contextlib.ExitStack()
        self.output, self.errors = (self.kept.enter_context(tempfile.TemporaryFile()) for _ in range(2))
        pipe, command = subprocess.PIPE, [given.program, *options]
        self.process = Piped(command, stdin=pipe, stdout=self.output, stderr=self.errors, bufsize=0)

    def __enter__(self) -> Begun:
        return self

    def __exit__(self, *_: object) -> None:
        self.process.kill()
        self.process.wait()
        self.process.stdin.close()
        self.kept.close()

    def say(self, text: str) -> Begun:
        """Writes to its standard input, if the program has not ended. Returns itself."""
        with contextlib.suppress(BrokenPipeError):
            self.process.stdin.write(text.encode())
        return self

    def printed(self) -> tuple[str, str]:
        """What the program has printed so far, to standard output and to standard error."""
        output, errors = (os.pread(file.fileno(), 1 << 20, 0).decode() for file in (self.output, self.errors))
        return output, errors

    def ended(self) -> tuple[int, str, str]:
        """Waits for the program's end while standard input stays open. Returns the status and the output."""
        return self.process.wait(PATIENCE * given.slow), *self.printed()


@case
def an_input_that_stays_open() -> None:
    """The program opens the rooms when the line is there, even if the input goes on. It serves nobody before that."""
    addr = f"127.0.0.1:{free_port()}"
    with Begun("paris", addr=addr) as program:
        for part in (BASE[:40], BASE[40:-1]):
            program.say(part)
            time.sleep(SILENCE)
            want((program.process.poll(), program.printed()), (None, ("", "")))
            with socket.socket() as probe:
                want(probe.connect_ex(("127.0.0.1", int(addr.rpartition(":")[2]))) != 0, True)
        program.say(BASE[-1:])
        with connected(int(addr.rpartition(":")[2]), time.monotonic() + PATIENCE * given.slow) as client:
            talk(client.shake_hands(), hello("anna"), welcome(0, N1, N2, W1))
            leave(client)
        status, printed, _ = program.ended()
        want((status, printed), (0, "listening\nparis 0\n"))


def run(text: str, *rooms: str, addr: str = "127.0.0.1:0") -> tuple[int, str, str]:
    """The result of a program that has to serve these rooms on the base of a text."""
    with Begun(*rooms, addr=addr).say(text) as program:
        program.process.stdin.close()
        return program.ended()


@case
def bad_bases() -> None:
    """If the first line is no welcome, or its map is not sound, the server does not listen and prints nothing."""
    others = ("{}\n", f"anna {create(1)}\n", refused(1, '"why":"full"') + "\n")
    for text in ("", "\n", "\n" + BASE, BASE[:-2], BASE[:-3] + "\n" + BASE, BASE[:-1] + BASE, *others):
        want((text, run(text, "paris", "rome")), (text, BAD_BASE))
    want(run(BASE.replace('"n2"', '"n1"'), "paris"), BAD_BASE)
    for rooms in (["paris"], ["paris", "rome"], [f"room_{number}" for number in range(64)]):
        want(run(UNSOUND, *rooms), UNSOUND_BASE)
    want(run(UNSOUND.replace('"nodes":[1,3]', '"nodes":[1]'), "paris"), UNSOUND_BASE)
    want(run(UNSOUND.removesuffix("\n"), "paris"), UNSOUND_BASE)


@case
def faults_in_their_order() -> None:
    """The program checks the names before it reads anything, so it does not wait for the input. Then it checks the
    base, and then the address."""
    for rooms, wanted in [
        (["Paris"], BAD_NAME),
        (["paris", "paris"], TWICE),
        (["paris", "Paris", "paris"], BAD_NAME),
        ([f"room{number}" for number in range(65)], TOO_MANY),
        (["Paris"] * 65, TOO_MANY),
    ]:
        with Begun(*rooms) as program:
            want(program.ended(), wanted)
        for text in ("", UNSOUND, BASE):
            want(run(text, *rooms, addr="nowhere"), wanted)
    with socket.socket() as other:
        other.bind(("127.0.0.1", 0))
        other.listen()
        for addr in (f"127.0.0.1:{other.getsockname()[1]}", "nowhere"):
            want(run("", "paris", addr=addr), BAD_BASE)
            want(run(UNSOUND, "paris", addr=addr), UNSOUND_BASE)
            want(run(BASE, "paris", addr=addr), CANNOT_LISTEN)
    # The program reports a bad base as soon as its line is there, also if the input goes on.
    for text, wanted in (("{}\n", BAD_BASE), (UNSOUND, UNSOUND_BASE)):
        with Begun("paris").say(text) as program:
            want(program.ended(), wanted)


@case
def an_input_that_cannot_be_read() -> None:
    """A folder or nothing as standard input, if a base is asked for. Without --base the server reads neither."""
    command = [given.program, "serve", "--addr", "nowhere", "--workers", "1", "--sessions", "1"]

    def run_on(stdin: int | None, *more: str, shell: list[str] | tuple[()] = ()) -> tuple[int, str, str]:
        how = {"capture_output": True, "timeout": PATIENCE * given.slow}
        ran = subprocess.run([*shell, *command, *more], stdin=stdin, check=False, **how)
        return ran.returncode, ran.stdout.decode(), ran.stderr.decode()

    folder = os.open(tempfile.gettempdir(), os.O_RDONLY)
    try:
        want(run_on(folder, "--base", "paris"), READ_FAILED)
        want(run_on(folder, "--base", "Paris"), BAD_NAME)
        want(run_on(folder, "paris"), CANNOT_LISTEN)
    finally:
        os.close(folder)
    want(run_on(None, "--base", "paris", shell=["bash", "-c", '"$@" <&-', "-"]), READ_FAILED)


@case
def many_rooms_on_a_large_base() -> None:
    """Each of sixteen rooms begins with five hundred elements, the first as the last."""
    rows = []
    for number in range(1, 451):
        rows.append(f'{{"el":"n{number}","lat":"51.5000000","lon":"-0.1000000","tags":{{"name":"Café {number}"}}}}')
    for number in range(1, 51):
        nodes = f"{number},{number + 1},{number + 2}"
        rows.append(f'{{"el":"w{number}","nodes":[{nodes}],"tags":{{"highway":"path"}}}}')
    rooms = [f"room_{number}" for number in range(16)]
    with serving(*rooms, sessions=16, workers=2, base=welcome(5, *rows) + "\n") as server:
        for room in rooms:
            client = server.client()
            talk(client, hello("anna", room), welcome(0, *rows))
            leave(client)
        finish(server, [f"{room} 0" for room in rooms], *["left"] * 16)


# A map of some of the elements that random edits are about.
MIRRORED = [
    *(
        {"el": f"n{number}", "lat": "1.0000000", "lon": "2.0000000", "tags": {"name": "Café"}}
        for number in (-3, -2, -1, 1, 2)
    ),
    *({"el": f"w{number}", "nodes": [-3, 1, number], "tags": {"a": "v"}} for number in (1, 2)),
    {"el": "r1", "members": [["r1", ""], ["w1", "outer"], ["n-1", ""]], "tags": {}},
]


def mirrors_on_a_base(seed: str) -> None:
    """Four edit at random at the same time, from different moments on. From their welcomes on all follow the room's
    map."""
    base = json.dumps({"id": 1, "ok": {"map": MIRRORED, "seq": 3}}) + "\n"
    with serving(workers=4, sessions=5, base=base) as server:
        first = server.session("zoe")
        want((first.seq, list(first.rows.values())), (0, MIRRORED))

        def begin_and_edit(at: int) -> tuple[Session, list[int]]:
            """A session that edits."""
            chance = random.Random(f"{seed} {at}")
            time.sleep(chance.random() * 0.2)
            session = server.session(f"author_{at}")
            return session, edit(session, chance)

        done = at_the_same_time(3, begin_and_edit)
        entry_count = sum(len(accepted) for _, accepted in done)
        want(sorted(seq for _, accepted in done for seq in accepted), list(range(1, entry_count + 1)))
        sessions = [first, *(session for session, _ in done)]
        for session in sessions:
            session.follow(entry_count)
            reported = session.ask({"id": 1, "do": "map"})["ok"]
            want((session.seq, reported["seq"], session.rows), (entry_count, entry_count, session.rows_of(reported)))
        for session in sessions:
            session.leave()
        last = server.session("last")
        want((last.seq, last.rows), (entry_count, first.rows))
        last.leave()
        finish(server, [f"paris {entry_count}"], *["left"] * 5)


each_case(mirrors_on_a_base, {f"mirrors on a base, the {seed} time": seed for seed in ("first", "second")})
