"""Tests the server under clients that try to use up its memory or its descriptors, and with a standard error that is
closed, that is full, or that nobody reads."""
from __future__ import annotations

import contextlib
import functools
import os
import tempfile
import threading
import time
from collections.abc import Iterator
from typing import Any

from lib.cases import case, case_if, each_case, given, want
from lib.others import is_there
from lib.serving import Server, Session, ends_of
from lib.talk import PATIENCE, SILENCE, create, hello, leave, news, node, ok, serve_next, talk, welcome
from lib.websocket import CLOSE, TEXT, Broken, Client, Gone, Late, head_of_request, make_key, text_frame

# The address space that the server gets, in KiB, and what of it the C library may spread over threads.
LIMIT = 550_000
LIMITED = ["sh", "-c", f'ulimit -v {LIMIT}; exec env MALLOC_ARENA_MAX=2 "$@"', "sh"]

# A message that takes 71 times its own size to read, near the most of 75 (docs/SERVER.md), and its size in bytes.
PART, SIZE = "[" * 100 + "]" * 100, 8_000_000
HOSTILE = f'{{"id":1,"do":"get","el":"n1","x":[{",".join([PART] * (SIZE // (len(PART) + 1)))}]}}'

# How many clients send it, and for how many seconds.
ATTACKERS, SECONDS = 3, 3

# The beginning of a handshake.
KEY = make_key()
HEAD = head_of_request(KEY)

# How the server's answer to such a message ends, if it has no memory for it.
MEMORY = b'"no":{"why":"memory"}}'


class StartedBy(Server):
    """A server that another command starts."""

    def __init__(self, before: list[str], **how: int) -> None:
        super().__init__(given.program, **{"patience": PATIENCE * given.slow, **how})
        self.before = before

    def command(self, addr: str) -> list[str]:
        return [*self.before, *super().command(addr)]


@functools.lru_cache(maxsize=None)
def can_be_limited() -> bool:
    """Whether the program runs in so little address space. One that is made with address checks does not."""
    return is_there(*LIMITED, given.program, "--version")


class Attacker:
    """A client that sends hostile messages until it has to end. `counts` has the numbers of replies and ends."""

    def __init__(self, server: StartedBy, ends: threading.Event) -> None:
        self.server, self.ends = server, ends
        self.frame = text_frame(HOSTILE)
        self.counts = {"memory": 0, "ended": 0}
        self.fault: Exception | None = None

    def run(self) -> None:
        """Attacks; a session that ends is begun again."""
        while not self.ends.is_set() and not self.fault:
            try:
                with Client(self.server.port, self.server.patience) as client:
                    client.shake_hands().say(hello("mallory"))
                    if client.read()[0] == CLOSE:
                        raise Gone("it was closed")
                    while not self.ends.is_set():
                        client.send_bytes(self.frame)
                        self.take(client)
            except (Gone, ConnectionError):
                self.counts["ended"] += 1
            except (Broken, Late, AssertionError) as fault:
                self.fault = fault

    def take(self, client: Client) -> None:
        """Takes news, up to an answer or the end."""
        while True:
            opcode, payload = client.read()
            if opcode == CLOSE:
                raise Gone("it was closed")
            if opcode != TEXT or not payload.startswith(b'{"news"'):
                break
        if opcode != TEXT or not payload.endswith(MEMORY):
            raise Broken(f"a hostile message is answered {payload[:100]!r}")
        self.counts["memory"] += 1


class Mapper:
    """A mapper who creates one node after another. A change without an answer, or that is answered `memory`, is sent
    again under its id, after a new hello if the session ended. `again` counts how often."""

    def __init__(self, server: StartedBy) -> None:
        self.server, self.again = server, 0
        self.client, self.session = self.begin()

    def create(self, number: int) -> None:
        """Creates the node of a number, which makes the entry before this number."""
        message, seq = {"id": number, "do": "create", "el": f"n{number}", "lat": "1", "lon": "2"}, number - 1
        while True:
            reply: dict[str, Any] | None
            try:
                reply = self.session.ask(message)
            except (Broken, Gone, ConnectionError):
                reply = None
                self.client.drop()
                self.client, self.session = self.begin()
            if reply in ({"id": number, "ok": {"seq": seq}}, {"id": number, "no": {"seq": seq, "why": "repeat"}}):
                return
            if reply is not None:
                want(reply, {"id": reply["id"], "no": {"why": "memory"}})
            self.again += 1

    def begin(self) -> tuple[Client, Session]:
        """Begins a session, and tries again as often as that takes."""
        deadline = time.monotonic() + self.server.patience
        while True:
            client = None
            try:
                client = Client(self.server.port, self.server.patience)
                return client, Session(client.shake_hands(), "anna", "paris")
            except (Broken, Gone, ConnectionError):
                if client:
                    client.drop()
                if time.monotonic() > deadline:
                    raise
                time.sleep(0.05)


@case_if(can_be_limited)
def messages_that_want_all_memory() -> None:
    """Three clients send messages of 8 MB that would take 570 MB each, and the server has 560 MB of addresses. It
    answers `memory`, or ends the session, and never ends itself. Meanwhile it accepts each change of a mapper once."""
    with StartedBy(LIMITED, workers=ATTACKERS + 1, sessions=1_000_000) as server:
        mapper, ends = Mapper(server), threading.Event()
        attackers = [Attacker(server, ends) for _ in range(ATTACKERS)]
        threads = [threading.Thread(target=attacker.run, daemon=True) for attacker in attackers]
        for thread in threads:
            thread.start()
        number, deadline = 1, time.monotonic() + SECONDS * given.slow
        try:
            while time.monotonic() < deadline:
                number += 1
                mapper.create(number)
        finally:
            ends.set()
        for thread in threads:
            thread.join(server.patience)
        reported = [attacker.counts for attacker in attackers]
        print(
            f"messages that want all memory: {number - 1} changes accepted, {mapper.again} sent again, beside {reported}"
        )
        want([attacker.fault for attacker in attackers], [None] * ATTACKERS)
        want((server.process.poll(), all(sum(each.values()) for each in reported), number > 10), (None, True, True))
        mapper.session.follow(number - 1)
        want(len(mapper.session.rows), number - 1)
        mapper.session.leave()


# How many descriptors the server may have, fewer than the clients that come, and how many accepts may fail in a second.
FEW, MANY, MOST_FAILED = 10, 12, 25


@case
def few_descriptors() -> None:
    """A server with too few descriptors waits after each accept that fails, so it uses up few sessions. When clients
    leave, it serves the next one."""
    with StartedBy(["sh", "-c", f'ulimit -n {FEW}; exec "$@"', "sh"], workers=MANY, sessions=1_000_000) as server:
        clients = [server.connect() for _ in range(MANY)]
        time.sleep(1)
        failed = server.content(server.errors).count(" end fault")
        want(1 <= failed <= MOST_FAILED, True, f"{failed} accepts failed in a second")
        for client in clients:
            client.drop()
        serve_next(server)


def two_sessions(server: StartedBy) -> None:
    """Two clients share a room, and leave; then a third one comes."""
    anna, bob = server.client(), server.client()
    talk(anna, hello("anna"), welcome(0))
    talk(anna, create(2), ok(2, '"seq":1'), news("anna", 1, node()))
    talk(bob, hello("bob"), welcome(1, node()))
    leave(anna)
    leave(bob)
    serve_next(server, "zoe", 1, node())
    want(server.process.wait(server.patience), 0)
    want(server.content(server.output), "listening\nparis 1\n")


def without_a_log(redirection: str) -> None:
    """A server that cannot write to standard error serves its clients, and sends them nothing about its log."""
    with StartedBy(["sh", "-c", f'exec "$@" {redirection}', "sh"], sessions=3) as server:
        two_sessions(server)
        want(server.content(server.errors), "")


each_case(without_a_log, {"a_closed_standard_error": "2>&-", "a_full_standard_error": "2>/dev/full"})


@contextlib.contextmanager
def full_pipe() -> Iterator[tuple[str, int]]:
    """A pipe that has as much as it takes: its path, and a descriptor to read from it."""
    with tempfile.TemporaryDirectory(prefix="maproom-pipe-") as folder:
        path = f"{folder}/log"
        os.mkfifo(path)
        pipe = os.open(path, os.O_RDWR | os.O_NONBLOCK)
        try:
            for size in (1 << 16, 1):
                with contextlib.suppress(BlockingIOError):
                    while True:
                        os.write(pipe, b" " * size)
            yield path, pipe
        finally:
            os.close(pipe)


def read_lines(pipe: int, seconds: float, count: int) -> str:
    """Reads a pipe until `count` lines came, or for `seconds` seconds. Returns them."""
    text, deadline = b"", time.monotonic() + seconds
    while text.count(b"\n") < count and time.monotonic() < deadline:
        try:
            text += os.read(pipe, 1 << 16)
        except BlockingIOError:
            time.sleep(0.01)
    return text.decode().strip(" ")


@case
def a_standard_error_that_nobody_reads() -> None:
    """If the pipe of the log is full, the server waits until somebody reads it. Then it serves the waiting clients, and
    the log has each line."""
    with full_pipe() as (path, pipe), StartedBy(["sh", "-c", 'exec "$@" 2>"$0"', path], sessions=3) as server:
        with server.connect(patience=server.patience) as client:
            client.send_bytes(HEAD)
            want(client.is_quiet(SILENCE), True)
            log = read_lines(pipe, server.patience, 1)
            client.read_answer(KEY)
            talk(client, hello("anna"), welcome(0))
            leave(client)
        serve_next(server)
        serve_next(server)
        want(server.process.wait(server.patience), 0)
        log += read_lines(pipe, server.patience, 6 - log.count("\n"))
        want(ends_of(log), {1: "left", 2: "left", 3: "left"})
