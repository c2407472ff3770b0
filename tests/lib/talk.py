"""Sends and expects the messages of sessions in short forms, for tests of the server."""
from __future__ import annotations

from collections.abc import Sequence
from typing import Any

from .cases import given, want
from .serving import PartServer, Server
from .websocket import Client

# How many seconds each wait may take. Only a failing check takes that long.
PATIENCE = 20
# How many seconds a check of silence takes: several of the 50 milliseconds after which a server looks for news.
SILENCE = 0.3


def serving(*rooms: str, **how: Any) -> Server:
    """A server of some rooms, or of `paris`."""
    return Server(given.program, *rooms, **{"patience": PATIENCE * given.slow, **how})


def serving_parts(turns: int, **how: Any) -> PartServer:
    """The server that part_lines runs, whose sessions read at most this number of messages."""
    return PartServer(given.parts, turns, **{"patience": PATIENCE * given.slow, **how})


def talk(client: Client, message: str, *texts: str) -> None:
    """Sends a message, and expects these texts."""
    client.say(message)
    hear(client, *texts)


def hear(client: Client, *texts: str) -> None:
    """Expects these texts."""
    for text in texts:
        want(client.text(), text)


def hello(name: str, room: str = "paris") -> str:
    """A message that begins a session."""
    return f'{{"id":1,"do":"hello","room":"{room}","name":"{name}"}}'


def create(number: int, el: str = "n-1") -> str:
    """A message that creates a node."""
    return f'{{"id":{number},"do":"create","el":"{el}","lat":"51.5","lon":"-0.1","tags":{{}}}}'


def node(lat: str = "51.5000000", el: str = "n-1", tags: str = "{}") -> str:
    """The row of such a node."""
    return f'{{"el":"{el}","lat":"{lat}","lon":"-0.1000000","tags":{tags}}}'


# The row of a deleted node.
GONE = '{"el":"n-1","gone":true}'


def welcome(seq: int, *rows: str, number: int = 1) -> str:
    """The reply to a hello, or to `map`."""
    return f'{{"id":{number},"ok":{{"map":[{",".join(rows)}],"seq":{seq}}}}}'


def news(author: str, seq: int, *rows: str) -> str:
    """The news of an entry."""
    return f'{{"news":{{"by":"{author}","rows":[{",".join(rows)}],"seq":{seq}}}}}'


def ok(number: int, what: str) -> str:
    """The reply to a message that was accepted."""
    return f'{{"id":{number},"ok":{{{what}}}}}'


def refused(number: int, what: str) -> str:
    """The reply to a message that was refused."""
    return f'{{"id":{number},"no":{{{what}}}}}'


def leave(client: Client, code: int | None = 1000) -> None:
    """Closes with a code. The server answers it and ends the connection without a reset."""
    client.close(code)
    want(client.closed(), code)
    want((client.rest(), client.was_reset), (b"", False))
    client.drop()


def be_closed(client: Client, code: int) -> None:
    """Expects a close with this code, and answers it. Then the connection ends."""
    want(client.closed(), code)
    client.close(code)
    want(client.rest(), b"")
    client.drop()


def serve_next(server: Server, name: str = "zoe", seq: int = 0, *rows: str) -> None:
    """A client comes, gets its welcome, and leaves."""
    client = server.client()
    talk(client, hello(name), welcome(seq, *rows))
    leave(client)


def finish(server: Server, entry_counts: Sequence[str], *ends: str) -> None:
    """The program ends, and prints the number of entries of each room. Its log has these ends of sessions, in order."""
    printed = "".join(f"{line}\n" for line in ("listening", *entry_counts))
    want(server.finish(), (0, printed, dict(enumerate(ends, 1))))
