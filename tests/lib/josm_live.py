"""Runs JOSM's own classes with the plugin clients/josm, without windows, in rooms of the built program.

Two JOSMs and a client of the Python library do random commands on the same few elements. When they rest, each data set
has to be the room's map, and JOSM's lists of commands have to be those of the room.
"""
from __future__ import annotations

import asyncio
import atexit
import contextlib
import functools
import glob
import json
import os
import queue
import shutil
import socket
import tempfile
import threading
import time
from collections.abc import Callable, Iterator, Sequence
from random import Random
from typing import Any

import maproom

from . import josm
from .cases import TOP, given, want
from .editor_rooms import Way
from .programs import PATIENCE, Piped, run_soon, wait_for
from .serving import Server, Session, free_port
from .talk import serving
from .websocket import Broken, Client, Late

ROOM = "hamlet"
PACKAGE = "org.openstreetmap.josm.plugins.maproom"
SOURCES = f"{TOP}/clients/josm/src/{PACKAGE.replace('.', '/')}"
PROGRAMS = f"{TOP}/tests/clients/josm_programs"

# How many elements of each kind the authors work on, so that they often meet.
HOT = 25

# How many times the JOSMs are asked to rest until all know the same last entry.
RESTS = 100


def is_there() -> bool:
    """Whether JOSM and a compiler of Java are there."""
    return josm.is_there()


@functools.lru_cache(maxsize=None)
def classes() -> str:
    """The folder of the compiled plugin and of the programs of the tests. The compiler has to find nothing to say."""
    folder = tempfile.mkdtemp(prefix="maproom-josm-")
    atexit.register(shutil.rmtree, folder, ignore_errors=True)
    sources = sorted(glob.glob(f"{SOURCES}/*.java")) + sorted(glob.glob(f"{PROGRAMS}/*.java"))
    options = ["--release", "11", "-encoding", "UTF-8", "-Xlint:all,-options,-path,-serial"]
    ran = run_soon("javac", *options, "-cp", josm.JAR, "-d", folder, *sources)
    want(ran.texts(), (0, "", ""))
    return folder


def command(program: str, *arguments: str, home: str, options: Sequence[str] = ()) -> list[str]:
    """The command of a program of the tests, which JOSM's classes and the plugin's are there for."""
    machine = ["java", "-Xmx700m", "-XX:+UseSerialGC", "-XX:TieredStopAtLevel=1", "-Djava.awt.headless=true"]
    path = f"{josm.JAR}:{classes()}"
    return [*machine, f"-Djosm.home={home}", *options, "-cp", path, f"{PACKAGE}.{program}", *arguments]


class Lines:
    """The lines that a program prints, each as soon as it comes."""

    def __init__(self, program: Piped) -> None:
        self.program = program
        self.queue: queue.SimpleQueue[str | None] = queue.SimpleQueue()
        threading.Thread(target=self.read, daemon=True).start()

    def read(self) -> None:
        """Reads the lines until the end."""
        for line in self.program.stdout:
            self.queue.put(line.decode().rstrip("\n"))
        self.queue.put(None)

    def next(self, seconds: float = PATIENCE) -> str:
        """The next line."""
        try:
            line = self.queue.get(timeout=seconds * given.slow)
        except queue.Empty:
            raise Late("a JOSM prints no line") from None
        if line is None:
            raise Broken(f"a JOSM ended with status {self.program.wait()}")
        return line


class Josm:
    """A program of the tests that runs with JOSM's classes: its name, what it prints, and what it is told."""

    def __init__(self, name: str, folder: str, program: str, *arguments: str, options: Sequence[str] = ()) -> None:
        self.name = name
        words = command(program, *arguments, home=f"{folder}/home_{name}", options=options)
        self.errors = open(f"{folder}/errors_{name}", "w+b")  # pylint: disable=consider-using-with
        self.process = Piped(words, stdin=-1, stdout=-1, stderr=self.errors)
        self.lines = Lines(self.process)

    def say(self, text: str) -> None:
        """Gives it a line."""
        self.process.stdin.write(f"{text}\n".encode())
        self.process.stdin.flush()

    def end(self) -> None:
        """Ends it, if it runs, and waits for its end."""
        self.process.kill()
        self.process.wait()
        self.errors.close()


@functools.lru_cache(maxsize=None)
def hamlet() -> str:
    """The base of the invented hamlet."""
    ran = run_soon(f"{TOP}/clients/osm_to_base", f"{TOP}/docs/hamlet.osm")
    want(ran.status, 0)  # it reports what the extract does not have
    return ran.output.decode()


class Rooms:
    """A server of the hamlet, which can be started anew on its last map, at the end of a way."""

    def __init__(self, seconds: float = 0) -> None:
        self.kept = contextlib.ExitStack()
        self.seconds = seconds

    def __enter__(self) -> Rooms:
        self.server = self.start(hamlet())
        self.way = self.kept.enter_context(Way(self.server.port, self.seconds))
        return self

    def __exit__(self, *_: object) -> None:
        self.kept.close()

    def start(self, base: str) -> Server:
        """Starts a server on a map."""
        return self.kept.enter_context(serving(ROOM, workers=24, sessions=100_000, base=base))

    def restart(self, seconds: float) -> None:
        """Ends the server, and starts another one on the map that it had just before, after some seconds."""
        rows, seq = self.now()
        base = json.dumps({"id": 1, "ok": {"map": list(rows.values()), "seq": seq}}) + "\n"
        self.server.stop()
        time.sleep(seconds)
        self.server = self.start(base)
        self.way.port = self.server.port

    def session(self, name: str) -> Session:
        """A session of an author, until the server ends."""
        return self.server.session(name)

    def now(self) -> tuple[dict[str, Any], int]:
        """The map, and the number of the last entry."""
        with Client(self.server.port, PATIENCE * given.slow) as client:
            session = Session(client.shake_hands(), "reader", ROOM)
            session.leave()
            return session.rows, session.seq


def place_of(element: str) -> tuple[int, int]:
    """The place of an element in the order of names."""
    return "nwr".index(element[0]), int(element[1:])


async def one_step(room: maproom.Room, chance: Random) -> None:
    """A random change of the few elements on which all authors work, as the author sees them now."""
    seen = room.seq
    names = sorted(room.elements, key=place_of)
    hot = {kind: [each for each in names if each[0] == kind][:HOT] for kind in "nwr"}
    every = [each for part in hot.values() for each in part]
    kind = chance.choice(["create", "move", "retag", "way", "nodes", "purge", "split", "undo", "redo"])
    if kind == "undo":
        await room.undo()
    elif kind == "redo":
        await room.redo()
    elif kind == "create" or len(hot["n"]) < 3 or not hot["w"]:
        await room.create_node(40 + chance.random() / 100, -30 + chance.random() / 100)
    elif kind == "move":
        await room.move([chance.choice(hot["n"])], 0.0000100, 0.0000050, since=seen)
    elif kind == "retag":
        await room.retag(chance.choice(every), {f"k{chance.randrange(3)}": f"c{chance.randrange(3)}"}, since=seen)
    elif kind == "way":
        await room.create_way(chance.sample(hot["n"], 3), {"highway": "path"})
    elif kind == "nodes":
        way = chance.choice(hot["w"])
        nodes = [*room.elements[way]["nodes"]]
        nodes.insert(1, int(chance.choice(hot["n"])[1:]))
        await room.set_nodes(way, nodes, since=seen)
    elif kind == "purge":
        await room.purge(chance.choice(every), since=seen)
    else:
        await room.split(chance.choice(hot["w"]), 1, since=seen)


async def library_author(url: str, seed: int, steps: int) -> None:
    """A client of the Python library that works on the same few elements."""
    chance = Random(seed)
    async with maproom.connect(url, room=ROOM, name="carl", open_timeout=120) as room:
        for _ in range(steps):
            with contextlib.suppress(maproom.Refused, maproom.Unknown, maproom.NotSent):
                await one_step(room, chance)
            await asyncio.sleep(chance.random() * 0.03)


@contextlib.contextmanager
def in_thread(action: Callable[..., object], *arguments: object) -> Iterator[None]:
    """Does something beside the block, which ends when both have ended. A fault of it is one of the block."""
    faults: list[BaseException] = []

    def act() -> None:
        try:
            action(*arguments)
        except BaseException as fault:  # pylint: disable=broad-except
            faults.append(fault)

    thread = threading.Thread(target=act, daemon=True)
    thread.start()
    yield
    thread.join()
    if faults:
        raise faults[0]


class RandomWork:
    """Two JOSMs and a client of the library in a room. `disturb` is done again and again while they work."""

    def __init__(
        self, rooms: Rooms, seed: int, steps: int, url: str | None = None, options: Sequence[str] = ()
    ) -> None:
        self.rooms, self.seed, self.steps = rooms, seed, steps
        self.url, self.options = url or rooms.way.url, options
        self.is_over, self.disturbed = threading.Event(), 0
        self.counts: dict[str, dict[str, int]] = {}
        self.entries: dict[str, list[int]] = {}

    def work(self, disturb: Callable[[], object] | None = None, pause: float = 2) -> None:
        """Lets all work, and compares what they have at rest."""
        with tempfile.TemporaryDirectory(prefix="maproom-josm-") as folder, contextlib.ExitStack() as kept:
            josms = [self.start(name, index, folder) for index, name in enumerate(("anna", "bob"))]
            for each in josms:
                kept.callback(each.end)
            for each in josms:
                want(each.lines.next(), "there")
            for each in josms:
                each.say("begin")
            with in_thread(self.disturb, disturb, pause), in_thread(self.library):
                for each in josms:
                    want(each.lines.next(PATIENCE + self.steps), "done")
                self.is_over.set()
            self.rest(josms)
            for each in josms:
                each.say("end")
                want((each.name, each.process.wait(PATIENCE * given.slow)), (each.name, 0))
                self.compare(each.name, f"{folder}/{each.name}")

    def start(self, name: str, index: int, folder: str) -> Josm:
        """Starts a JOSM."""
        arguments = (self.url, ROOM, name, str(self.seed * 10 + index), str(self.steps), f"{folder}/{name}")
        return Josm(name, folder, "RandomMapper", *arguments, options=self.options)

    def library(self) -> None:
        """The client of the library."""
        asyncio.run(library_author(self.rooms.way.url, self.seed + 7, self.steps))

    def disturb(self, disturb: Callable[[], object] | None, pause: float) -> None:
        """Disturbs the work until it is over."""
        chance = Random(self.seed)
        while disturb and not self.is_over.wait(chance.uniform(0.2, 1) * pause):
            disturb()
            self.disturbed += 1

    def rest(self, josms: Sequence[Josm]) -> None:
        """Waits until all know the room's last entry, and nothing is under way."""
        last: set[str] = set()
        for turn in range(RESTS):
            for each in josms:
                each.say("rest")
            last = {each.lines.next() for each in josms}
            last.add(str(self.rooms.now()[1]))
            if len(last) == 1 and turn:
                return
            time.sleep(0.1)
        raise Broken(f"the JOSMs do not rest: their last entries are {last}")

    def compare(self, name: str, path: str) -> None:
        """Compares what a JOSM wrote with the room."""
        with open(path, encoding="utf-8") as file:
            found = json.load(file)
        self.counts[name], self.entries[name] = found["counts"], found["undos"]
        session = self.rooms.session(name)
        room = session.rows
        shown = {row["el"]: row for row in found["shown"] if row}
        lists = session.ask({"id": 1, "do": "undos"})["ok"]
        want((name, found["faults"]), (name, []))
        want((name, found["rest"], found["seq"]), (name, True, session.seq))
        want((name, {el: row for el, row in shown.items() if room.get(el) != row}), (name, {}))
        want((name, sorted(room.keys() - shown.keys()), len(found["shown"])), (name, [], len(room)))
        want((name, {row["el"]: row for row in found["mirror"]} == room), (name, True))
        want((name, found["modified"]), (name, []))
        undos, redos = lists["undos"], lists["redo"][::-1]
        want((name, found["undos"]), (name, undos[len(undos) - len(found["undos"]) :]))
        want((name, found["redos"]), (name, redos[: len(found["redos"])]))
        want((name, len(found["undos"]) >= min(500, len(undos))), (name, True))
        want((name, len(found["redos"]) >= min(500, len(redos))), (name, True))


class HttpsProxy:
    """nginx with TLS and one user in front of a server. Its certificate is its own."""

    def __init__(self, port: int, user: str, password: str) -> None:
        self.upstream, self.user, self.password, self.port = port, user, password, free_port()
        self.kept = contextlib.ExitStack()

    @property
    def url(self) -> str:
        """Its address."""
        return f"wss://localhost:{self.port}"

    def __enter__(self) -> HttpsProxy:
        self.folder = self.kept.enter_context(tempfile.TemporaryDirectory(prefix="maproom-nginx-"))
        key = ["-keyout", f"{self.folder}/key.pem", "-out", f"{self.folder}/certificate.pem", "-days", "2"]
        names = ["-subj", "/CN=localhost", "-addext", "subjectAltName=DNS:localhost"]
        want(run_soon("openssl", "req", "-x509", "-newkey", "rsa:2048", "-nodes", *key, *names).status, 0)
        hashed = run_soon("openssl", "passwd", "-apr1", self.password).output.decode().strip()
        with open(f"{self.folder}/users", "w", encoding="utf-8") as file:
            file.write(f"{self.user}:{hashed}\n")
        with open(f"{self.folder}/nginx.conf", "w", encoding="utf-8") as file:
            file.write(self.configuration())
        store = ["-keystore", f"{self.folder}/trusted", "-storepass", "maproom"]
        certificate = ["-file", f"{self.folder}/certificate.pem", "-alias", "maproom"]
        want(run_soon("keytool", "-importcert", "-noprompt", *store, *certificate).status, 0)
        process = Piped(["nginx", "-p", self.folder, "-c", f"{self.folder}/nginx.conf"], stdout=-1, stderr=-1)
        self.kept.callback(process.wait)
        self.kept.callback(process.terminate)
        wait_for("nginx does not listen", self.is_listening)
        return self

    def __exit__(self, *_: object) -> None:
        self.kept.close()

    def configuration(self) -> str:
        """The configuration of nginx."""
        paths = " ".join(
            f"{kind}_temp_path {self.folder};" for kind in ("client_body", "proxy", "fastcgi", "uwsgi", "scgi")
        )
        return f"""\
daemon off;
{'user root;' if os.geteuid() == 0 else ''}
pid {self.folder}/pid;
error_log {self.folder}/error.log;
events {{ }}
http {{
    access_log off;
    {paths}
    server {{
        listen 127.0.0.1:{self.port} ssl;
        ssl_certificate {self.folder}/certificate.pem;
        ssl_certificate_key {self.folder}/key.pem;
        auth_basic maproom;
        auth_basic_user_file {self.folder}/users;
        location / {{
            proxy_pass http://127.0.0.1:{self.upstream};
            proxy_http_version 1.1;
            proxy_set_header Upgrade $http_upgrade;
            proxy_set_header Connection upgrade;
            proxy_read_timeout 120s;
        }}
    }}
}}
"""

    def is_listening(self) -> bool:
        """Whether nginx takes connections."""
        with socket.socket() as probe:
            return probe.connect_ex(("127.0.0.1", self.port)) == 0

    def java_options(self) -> list[str]:
        """The options by which Java trusts the certificate."""
        return [f"-Djavax.net.ssl.trustStore={self.folder}/trusted", "-Djavax.net.ssl.trustStorePassword=maproom"]


def why_not(url: str, room: str, options: Sequence[str] = ()) -> str:
    """What the plugin reports if it cannot join a room."""
    with tempfile.TemporaryDirectory(prefix="maproom-josm-") as folder:
        josm_without_windows = Josm("anna", folder, "Measure", url, room, "anna", options=options)
        try:
            return josm_without_windows.lines.next()
        finally:
            josm_without_windows.end()


def core_output(program: Sequence[str], lines: str) -> list[str]:
    """What a core prints for each line of a text: blocks of lines, each with an empty line after it."""
    ran = run_soon(*program, lines=lines.encode())
    want((ran.status, ran.errors.decode()), (0, ""))
    blocks: list[list[str]] = [[]]
    for line in ran.lines():
        if line:
            blocks[-1].append(line)
        else:
            blocks.append([])
    return ["\n".join(block) for block in blocks[:-1]]
