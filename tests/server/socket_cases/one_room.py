"""Tests the sessions of the server, text by text, and what the program prints, logs and refuses."""
from __future__ import annotations

import functools
import json
import signal
import socket
import subprocess
import time
from collections.abc import Callable
from typing import Any

from lib import texts
from lib.cases import TOP, case, case_if, each_case, given, want
from lib.messages import GREATEST_NUMBER
from lib.programs import run_soon
from lib.serving import Server, free_port
from lib.talk import (
    GONE,
    PATIENCE,
    SILENCE,
    be_closed,
    create,
    finish,
    hear,
    hello,
    leave,
    news,
    node,
    ok,
    refused,
    serve_next,
    serving,
    talk,
    welcome,
)
from lib.websocket import BINARY, Client, head_of_request, make_key
from lib.texts import Text

# The page that has the sessions of two clients.
PAGE = f"{TOP}/docs/CLIENT.md"


@case
def two_sessions() -> None:
    """Both clients get each change, and an undo conflicts with later changes of the other client."""
    with serving(sessions=2) as server:
        anna = server.client()
        talk(anna, hello("anna"), welcome(0))
        talk(anna, create(2), ok(2, '"seq":1'), news("anna", 1, node()))
        bob = server.client()
        talk(bob, hello("bob"), welcome(1, node()))
        moved = node("51.5000001")
        message = '{"id":2,"do":"move","els":["n-1"],"dlat":1,"dlon":0}'
        talk(bob, message, ok(2, '"seq":2'), news("bob", 2, moved))
        hear(anna, news("bob", 2, moved))
        talk(anna, '{"id":3,"do":"undo"}', refused(3, '"at":"n-1","why":"conflict","with":2'))
        talk(bob, '{"id":3,"do":"map"}', welcome(2, moved, number=3))
        bob.send(BINARY, b"\x00")
        be_closed(bob, 1003)
        leave(anna)
        finish(server, ["paris 2"], "left", "binary")


@case
def an_undo_is_told() -> None:
    """The news of an undo have what was put back, those of a redo what was done again."""
    with serving(sessions=2) as server:
        anna, bob = server.client(), server.client()
        talk(anna, hello("anna"), welcome(0))
        talk(bob, hello("bob"), welcome(0))
        talk(anna, create(2), ok(2, '"seq":1'), news("anna", 1, node()))
        hear(bob, news("anna", 1, node()))
        talk(anna, '{"id":3,"do":"undo"}', ok(3, '"seq":2,"undid":1'), news("anna", 2, GONE))
        hear(bob, news("anna", 2, GONE))
        talk(anna, '{"id":4,"do":"redo"}', ok(4, '"redid":1,"seq":3'), news("anna", 3, node()))
        hear(bob, news("anna", 3, node()))
        leave(bob)
        leave(anna)
        finish(server, ["paris 3"], "left", "left")


@case
def before_and_after_a_hello() -> None:
    """Before a hello that names an existing room, the server does and sends nothing. It refuses a second hello."""
    with serving(sessions=2) as server:
        anna, bob = server.client(), server.client()
        talk(bob, hello("bob"), welcome(0))
        talk(anna, create(1), refused(1, '"why":"no_hello"'))
        talk(anna, hello("anna", "rome"), refused(1, '"why":"no_room"'))
        talk(anna, hello("Anna"), refused(1, '"field":"name","why":"bad_field"'))
        talk(anna, "hello", refused(0, '"why":"not_json"'))
        talk(bob, create(1), ok(1, '"seq":1'), news("bob", 1, node()))
        want(anna.is_quiet(SILENCE), True)
        talk(anna, hello("anna"), welcome(1, node()))
        talk(anna, hello("anna"), refused(1, '"why":"hello_twice"'))
        talk(anna, create(1, "n7"), ok(1, '"seq":2'), news("anna", 2, node(el="n7")))
        hear(bob, news("anna", 2, node(el="n7")))
        leave(anna)
        leave(bob)
        finish(server, ["paris 2"], "left", "left")


@case
def two_at_once() -> None:
    """A second session is served while the first is silent. Then the first gets the news of the second."""
    with serving(sessions=2) as server:
        anna = server.client()
        talk(anna, hello("anna"), welcome(0))
        bob = server.client()
        talk(bob, hello("bob"), welcome(0))
        talk(bob, create(2), ok(2, '"seq":1'), news("bob", 1, node()))
        hear(anna, news("bob", 1, node()))
        leave(anna)
        leave(bob)
        finish(server, ["paris 1"], "left", "left")


@case
def a_session_waits_for_a_worker() -> None:
    """If each worker has a session, the next session waits, and is served when a session has ended."""
    with serving(workers=1, sessions=2) as server:
        anna = server.client()
        talk(anna, hello("anna"), welcome(0))
        bob, key = server.connect(), make_key()
        bob.send_bytes(head_of_request(key))
        want(bob.is_quiet(SILENCE), True)
        talk(anna, create(2), ok(2, '"seq":1'), news("anna", 1, node()))
        leave(anna)
        bob.read_answer(key)
        talk(bob, hello("bob"), welcome(1, node()))
        leave(bob)
        finish(server, ["paris 1"], "left", "left")


@case
def rooms_apart() -> None:
    """Clients of two rooms know nothing of each other, not even under one name and one id."""
    with serving("rome", "paris", sessions=2) as server:
        anna, other = server.client(), server.client()
        talk(anna, hello("anna", "paris"), welcome(0))
        talk(other, hello("anna", "rome"), welcome(0))
        talk(anna, create(2), ok(2, '"seq":1'), news("anna", 1, node()))
        want(other.is_quiet(SILENCE), True)
        talk(other, '{"id":3,"do":"map"}', welcome(0, number=3))
        talk(other, create(2, "n7"), ok(2, '"seq":1'), news("anna", 1, node(el="n7")))
        want(anna.is_quiet(SILENCE), True)
        talk(anna, create(3, "n8"), ok(3, '"seq":2'), news("anna", 2, node(el="n8")))
        talk(other, '{"id":3,"do":"map"}', welcome(1, node(el="n7"), number=3))
        leave(anna)
        leave(other)
        finish(server, ["rome 1", "paris 2"], "left", "left")


@case
def one_name_twice() -> None:
    """Two clients under one author's name share what can be undone and redone, and the ids that are spent."""
    with serving(sessions=2) as server:
        one, other = server.client(), server.client()
        talk(one, hello("anna"), welcome(0))
        talk(other, hello("anna"), welcome(0))
        talk(one, create(2), ok(2, '"seq":1'), news("anna", 1, node()))
        hear(other, news("anna", 1, node()))
        talk(other, create(2, "n5"), refused(2, '"seq":1,"why":"repeat"'))
        talk(other, '{"id":3,"do":"undos"}', ok(3, '"redo":[],"undos":[1]'))
        talk(other, '{"id":3,"do":"undo"}', ok(3, '"seq":2,"undid":1'), news("anna", 2, GONE))
        hear(one, news("anna", 2, GONE))
        talk(one, '{"id":3,"do":"redo"}', refused(3, '"seq":2,"why":"repeat"'))
        talk(one, '{"id":4,"do":"redo"}', ok(4, '"redid":1,"seq":3'), news("anna", 3, node()))
        hear(other, news("anna", 3, node()))
        leave(one)
        leave(other)
        finish(server, ["paris 3"], "left", "left")


@case
def sent_again() -> None:
    """A change whose connection was reset is sent again in a new session under its id, and was done once."""
    with serving(sessions=3) as server:
        anna = server.client()
        talk(anna, hello("anna"), welcome(0))
        talk(anna, create(2), ok(2, '"seq":1'), news("anna", 1, node()))
        anna.reset()
        anna = server.client()
        talk(anna, hello("anna"), welcome(1, node()))
        talk(anna, create(2), refused(2, '"seq":1,"why":"repeat"'))
        anna.reset()
        serve_next(server, "anna", 1, node())
        finish(server, ["paris 1"], "fault", "fault", "left")


@case
def sent_again_unanswered() -> None:
    """The same if the reset comes at any moment after the change was sent: the change is never done twice."""
    count = 24
    with serving(sessions=2 * count + 1) as server:
        for number in range(2, count + 2):
            change, seq = json.loads(create(number, f"n{number}")), number - 1
            anna = server.session("anna").send(change)
            time.sleep(number % 8 * 0.002)
            anna.client.reset()
            anna = server.session("anna")
            reply = anna.ask(change)
            if "no" in reply:
                want(reply, {"id": number, "no": {"seq": seq, "why": "repeat"}})
            else:
                want(reply, {"id": number, "ok": {"seq": seq}})
            anna.follow(seq)
            anna.leave()
        last = server.session("anna")
        want((last.seq, len(last.rows)), (count, count))
        last.leave()
        finish(server, [f"paris {count}"], *["fault", "left"] * count, "left")


@case
def late_in_a_lost_session() -> None:
    """A change that the next session was refused can still come late in a lost session. Its id shows that it was done,
    and no session does it twice."""
    question = '{"id":5,"do":"undo","seq":%d}' % GREATEST_NUMBER
    retag, tagged = '{"id":5,"do":"retag","el":"n-1","tags":{"ref":"7"}}', node(tags='{"ref":"7"}')
    with serving(workers=3, sessions=3) as server:
        lost, anna, bob = clients = server.client(), server.client(), server.client()
        for client, name in zip(clients, ("anna", "anna", "bob")):
            talk(client, hello(name), welcome(0))
        talk(anna, question, refused(5, '"why":"no_such"'))
        talk(anna, retag, refused(5, '"el":"n-1","why":"absent"'))
        talk(bob, create(2), ok(2, '"seq":1'), news("bob", 1, node()))
        for client in (lost, anna):
            hear(client, news("bob", 1, node()))
        talk(lost, retag, ok(5, '"seq":2'), news("anna", 2, tagged))
        hear(anna, news("anna", 2, tagged))
        for message in (question, retag):
            talk(anna, message, refused(5, '"seq":2,"why":"repeat"'))
        hear(bob, news("anna", 2, tagged))
        for client in clients:
            leave(client)
        finish(server, ["paris 2"], "left", "left", "left")


@case
def a_full_room() -> None:
    """A room whose journal is full refuses each change, and still answers queries."""
    with serving(limit=1) as server:
        anna = server.client()
        talk(anna, hello("anna"), welcome(0))
        talk(anna, create(2), ok(2, '"seq":1'), news("anna", 1, node()))
        talk(anna, create(3, "n7"), refused(3, '"why":"full"'))
        talk(anna, '{"id":3,"do":"undo"}', refused(3, '"why":"full"'))
        talk(anna, create(2, "n7"), refused(2, '"seq":1,"why":"repeat"'))
        talk(anna, '{"id":3,"do":"map"}', welcome(1, node(), number=3))
        talk(anna, '{"id":3,"do":"undos"}', ok(3, '"redo":[],"undos":[1]'))
        talk(anna, '{"id":3,"do":"get","el":"n-1"}', ok(3, f'"is":{node()}'))
        leave(anna)
        finish(server, ["paris 1"], "left")


@case
def a_room_that_takes_nothing() -> None:
    """If a room may have no entries, it refuses the first change."""
    with serving(limit=0) as server:
        anna = server.client()
        talk(anna, hello("anna"), welcome(0))
        talk(anna, create(2), refused(2, '"why":"full"'))
        talk(anna, '{"id":2,"do":"undo"}', refused(2, '"why":"full"'))
        talk(anna, '{"id":2,"do":"map"}', welcome(0, number=2))
        leave(anna)
        finish(server, ["paris 0"], "left")


class Told:
    """A client's connection in a session of a file: the texts that it got, and those that it should get. The time at
    which news come to a silent client is open. So replies are compared in their order, and news in theirs."""

    def __init__(self, server: Server) -> None:
        self.client = server.client()
        self.is_open = True
        self.found: tuple[list[Any], list[Any]] = ([], [])
        self.wanted: tuple[list[Any], list[Any]] = ([], [])

    def hear(self, reported: list[str], place: str) -> None:
        """Expects these texts, by a line at this place."""
        for text in reported:
            self.wanted[is_news(text)].append(text)
        while any(len(found) < len(wanted) for found, wanted in zip(self.found, self.wanted)):
            text = self.client.text()
            self.found[is_news(text)].append(text)
        want(self.found, self.wanted, place)

    def comes_to(self, event: str, reported: list[str], place: str) -> None:
        """An event of the client, and what goes out to it, by a line at this place."""
        if reported == ["the session is closed"]:
            want(self.is_open, False, place)
        elif event == "close":
            self.end()
        elif event == "binary":
            want(reported, ["close 1003"], place)
            self.client.send(BINARY, b"\x00\xff")
            be_closed(self.client, 1003)
            self.is_open = False
        else:
            if event != "quiet":
                self.client.say(event)
            self.hear(reported, place)

    def end(self) -> None:
        """Closes, if it has not closed yet. News that the file does not have may come before the answer."""
        if self.is_open:
            self.client.close()
            while not self.client.is_close_next():
                want(is_news(self.client.text()), True)
            want((self.client.closed(), self.client.rest()), (1000, b""))
        self.is_open = False


def is_news(text: str) -> bool:
    """Whether a text is news, and no reply."""
    return text.startswith('{"news"')


def sessions_of_page() -> Text:
    """The sessions of the page, from all its blocks of texts together. All other text there is a remark."""
    lines, is_told = [], False
    with open(PAGE, encoding="utf-8") as page:
        for line in page:
            is_told = line == "```text\n" or is_told and line != "```\n"
            lines.append("#\n" if line.startswith("```") or not is_told else line)
    return texts.Text("".join(lines), PAGE)


def told_sessions(read: Callable[..., Any]) -> None:
    """The sessions of a text, over sockets. The first event of a client connects it."""
    text = read()
    events = [line.split(" ", 1) for line in text.lines]
    first = {name: event for name, event in reversed(events)}
    count = sum(event == "connect" for _, event in events) + sum(event != "connect" for event in first.values())
    with serving(sessions=count, limit=text.limit) as server:
        clients: dict[str, Any] = {}
        for place, ((name, event), block) in enumerate(zip(events, text.blocks)):
            if event == "connect" and name in clients:
                clients.pop(name).end()
            if name not in clients:
                clients[name] = Told(server)
            if event != "connect":
                clients[name].comes_to(event, block, text.place(place))
        for client in clients.values():
            client.end()
        status, _, ends = server.finish()
        want((status, len(ends)), (0, count))


@case
def end_of_the_program() -> None:
    """After its last session the program prints the number of entries of each room, in the order of the arguments, and
    ends."""
    with serving("rome", "paris", "a_b_9", workers=1, sessions=4) as server:
        anna = server.client()
        talk(anna, hello("anna", "paris"), welcome(0))
        talk(anna, create(2), ok(2, '"seq":1'), news("anna", 1, node()))
        leave(anna)
        bob = server.client()
        bob.send(BINARY)
        be_closed(bob, 1003)
        carl = server.client()
        talk(carl, hello("carl", "paris"), welcome(1, node()))
        talk(carl, '{"id":2,"do":"delete","el":"n-1"}', ok(2, '"seq":2'), news("carl", 2, GONE))
        carl.reset()
        dora = server.client()
        talk(dora, hello("dora", "a_b_9"), welcome(0))
        time.sleep(SILENCE)
        want((server.process.poll(), server.content(server.output)), (None, "listening\n"))
        leave(dora)
        finish(server, ["rome 0", "paris 2", "a_b_9 0"], "left", "binary", "fault", "left")


@case
def stopped_by_ctrl_c() -> None:
    """An interrupt ends the program, and so does SIGTERM, also during a session, without the lines of the rooms."""
    # The program inherits how the script takes an interrupt, unless the script has a handler of its own.
    before = signal.signal(signal.SIGINT, signal.default_int_handler)
    try:
        for number in (signal.SIGINT, signal.SIGTERM):
            with serving() as server:
                anna = server.client()
                talk(anna, hello("anna"), welcome(0))
                server.process.send_signal(number)
                want((server.process.wait(PATIENCE * given.slow), anna.rest()), (-number, b""))
                want(server.content(server.output), "listening\n")
    finally:
        signal.signal(signal.SIGINT, before)


@case
def a_full_disk() -> None:
    """If the disk is full, so that the program cannot print, it still serves its clients."""
    port, patience = free_port(), PATIENCE * given.slow
    command = [given.program, "serve", "--addr", f"127.0.0.1:{port}", "--workers", "1", "--sessions", "1", "paris"]
    with open("/dev/full", "wb") as full:
        program = subprocess.Popen(command, stdin=subprocess.DEVNULL, stdout=full, stderr=subprocess.DEVNULL)
    try:
        with connected(port, time.monotonic() + patience) as client:
            talk(client.shake_hands(), hello("anna"), welcome(0))
            leave(client)
        want(program.wait(patience), 0)
    finally:
        program.kill()
        program.wait()


def connected(port: int, deadline: float) -> Client:
    """A client of a server that may not listen yet."""
    while True:
        try:
            return Client(port)
        except ConnectionRefusedError:
            if time.monotonic() > deadline:
                raise
            time.sleep(0.01)


@case
def as_many_as_there_may_be() -> None:
    """As many rooms and workers as there may be, and the longest name of a room."""
    rooms = [*(f"room_{number}" for number in range(63)), "a" * 32]
    with serving(*rooms, workers=1024, sessions=2) as server:
        for room in rooms[62:]:
            anna = server.client()
            talk(anna, hello("anna", room), welcome(0))
            talk(anna, create(2), ok(2, '"seq":1'), news("anna", 1, node()))
            leave(anna)
        finish(server, [f"{room} {int(room in rooms[62:])}" for room in rooms], "left", "left")


def run(*options: str) -> tuple[int, str, str]:
    """The result of a program with arguments with which it does not serve."""
    return run_soon(given.program, *options).texts()


def serve(*rooms: str, addr: str = "127.0.0.1:0") -> tuple[int, str, str]:
    """The result of a program that has to serve these rooms at an address."""
    return run("serve", "--addr", addr, "--workers", "1", "--sessions", "1", *rooms)


BAD_NAME = (2, "", "maproom: bad room name\n")
TWICE = (2, "", "maproom: room twice\n")
TOO_MANY = (2, "", "maproom: too many rooms\n")
CANNOT_LISTEN = (1, "", "maproom: cannot listen\n")


@case
def bad_rooms() -> None:
    """The program checks the number of rooms, then their names in order, and then the address."""
    want(serve("Paris"), BAD_NAME)
    want(serve("paris", "paris"), TWICE)
    want(serve(*(f"room{number}" for number in range(65))), TOO_MANY)
    want(serve(*["Paris"] * 65), TOO_MANY)
    for name in ("", "par is", "par-is", "pàris", "a" * 33):
        want(serve("rome", name), BAD_NAME)
    want(serve("paris", "Paris", "paris"), BAD_NAME)
    want(serve("paris", "paris", "Paris"), TWICE)
    want(serve("Paris", "Paris"), BAD_NAME)
    want(serve("paris", "rome", "oslo", "rome"), TWICE)
    want(serve("Paris", addr="nowhere"), BAD_NAME)
    want(serve("paris", "paris", addr="nowhere"), TWICE)


@case
def bad_addresses() -> None:
    """At what is no address, has no port or is no address of this machine (RFC 5737), nothing listens."""
    hosts = ["nowhere", "127.0.0.1", "127.0.0.1:", "127.0.0.1:65536", "127.0.0.1:port", "127.0.0.256:47316", ":", ""]
    hosts += ["192.0.2.1:0"]
    want({addr: serve("paris", addr=addr) for addr in hosts}, {addr: CANNOT_LISTEN for addr in hosts})


@case
def one_address_alone() -> None:
    """The server listens at its address, and at no other address of this machine."""
    for host, other in (("127.0.0.1", "127.0.0.2"), ("127.0.0.2", "127.0.0.1")):
        with serving(host=host) as server:
            with socket.socket() as probe:
                want((host, probe.connect_ex((other, server.port)) != 0), (host, True))
            serve_next(server)
            finish(server, ["paris 0"], "left")


def has_ipv6() -> bool:
    """Whether this machine has the address ::1."""
    try:
        with socket.socket(socket.AF_INET6) as probe:
            probe.bind(("::1", 0))
    except OSError:
        return False
    return True


@case_if(has_ipv6)
def an_address_of_ipv6() -> None:
    """The server listens at an address of IPv6, which is in brackets, and at none of IPv4."""
    with serving(host="[::1]") as server:
        with socket.socket() as probe:
            want(probe.connect_ex(("127.0.0.1", server.port)) != 0, True)
        serve_next(server)
        finish(server, ["paris 0"], "left")


@case
def a_host() -> None:
    """The server listens at an address of the host that `--addr` names."""
    with serving(host="localhost", sessions=2) as server:
        with socket.create_connection(("localhost", server.port)) as probe:
            server.host = probe.getpeername()[0]
        serve_next(server)
        finish(server, ["paris 0"], "fault", "left")


@case
def a_taken_port() -> None:
    """If another program listens at the address, the program ends. It checks the names of rooms before that."""
    with socket.socket() as other:
        other.bind(("127.0.0.1", 0))
        other.listen()
        taken = f"127.0.0.1:{other.getsockname()[1]}"
        want(serve("paris", addr=taken), CANNOT_LISTEN)
        want(serve("paris", "paris", addr=taken), TWICE)


@case
def refused_words() -> None:
    """The program refuses numbers out of range, and options that are unknown, repeated or missing."""
    options = ["serve", "--addr", "127.0.0.1:0", "--workers", "1", "--sessions", "1", "paris"]
    lines = [
        ["serve"],
        options[:-1],
        [options[0], *options[3:]],
        [*options[:3], *options[5:]],
    ]
    lines += [[*options, "--limit"], [*options, "--port", "1"], [*options, "--workers", "2"]]
    for option, values in {
        "--workers": ("0", "1025", "-1", "x", "1.0", "", "4294967297"),
        "--sessions": ("0", "1000001", "-1", "1e3", "", "18446744073709551617"),
    }.items():
        at = options.index(option) + 1
        lines += [[*options[:at], value, *options[at + 1 :]] for value in values]
    lines += [[*options, "--limit", value] for value in ("1000001", "-1", "many", "4294967296")]
    for line in lines:
        status, printed, why = run(*line)
        want((line, status, printed, bool(why)), (line, 2, "", True))


@case
def help_for_words() -> None:
    """The help is printed, and names each option."""
    status, printed, why = run("serve", "--help")
    missing = [word for word in ("--addr", "--workers", "--sessions", "--limit", "ROOM") if word not in printed]
    want((status, missing, why), (0, [], ""))


each_case(
    told_sessions,
    {
        "the page docs/CLIENT.md": sessions_of_page,
        **{
            f"sessions/{name}": functools.partial(texts.read, path) for name, path in texts.files_in("sessions").items()
        },
    },
)
