"""The whole bridge over a connection to a room: the ledger, the map, the calls, and the application that listens."""
import contextlib
import ipaddress
import socket
from collections.abc import AsyncIterator, Callable
from dataclasses import dataclass
from pathlib import Path

from aiohttp import web

from .calls import Calls
from .connection import RoomConnection
from .http import Settings, loopback_hosts, runner
from .ledger import Ledger
from .room_map import RoomMap

# How many seconds the bridge waits for requests that are under way when it ends.
SHUTDOWN_SECONDS = 10.0


@dataclass(frozen=True)
class Options:
    """How a bridge is run. Without `name` each request names its author by HTTP Basic or, if it is given, by the header
    `author_header`, which a proxy sets. Other hosts than those of this machine's loopback are listened on, and answered
    to, only if they are given. `kept` is the folder of the keeper."""

    name: str | None = None
    host: str = "127.0.0.1"
    port: int = 8110
    ledger: Path | None = None
    hosts: frozenset[str] = frozenset()
    public_url: str = ""
    seconds: float = 60
    kept: Path | None = None
    author_header: str | None = None


class NotLoopback(Exception):
    """An address that others can reach needs the host names by which they do."""


@contextlib.asynccontextmanager
async def bridge(
    room: RoomConnection, options: Options, note: Callable[[str], None] = lambda line: None
) -> AsyncIterator[str]:
    """Runs a bridge, and gives the URL of its root. Its port may be 0, for any free one.

    Raises NotLoopback, LedgerInUse if another program has the ledger, and OSError if the port is in use."""
    if not options.hosts and not is_loopback(options.host):
        raise NotLoopback(f"{options.host} is reached from elsewhere: give the host names under which it is")
    ledger = Ledger(options.ledger)
    try:
        room_map = RoomMap(ledger)
        room.subscribe(room_map)
        calls = Calls(room, room_map, options.seconds, note=note, kept=options.kept)
        await calls.start()
        async with listening(calls, options, note) as port:
            yield f"http://{f'[{options.host}]' if ':' in options.host else options.host}:{port}"
    finally:
        ledger.close()


@contextlib.asynccontextmanager
async def listening(calls: Calls, options: Options, note: Callable[[str], None]) -> AsyncIterator[int]:
    """Listens, and gives the port."""
    family = socket.AF_INET6 if ":" in options.host else socket.AF_INET
    listener = socket.create_server((options.host, options.port), family=family)
    try:
        port: int = listener.getsockname()[1]
        settings = Settings(
            loopback_hosts(port) | options.hosts, options.name, options.public_url, author_header=options.author_header
        )
        running = runner(calls, settings, note)
        await running.setup()
        try:
            await web.SockSite(running, listener, shutdown_timeout=SHUTDOWN_SECONDS).start()
            yield port
        finally:
            await running.cleanup()
    finally:
        listener.close()


def is_loopback(host: str) -> bool:
    """Returns whether only programs of this machine reach a host."""
    if host == "localhost":
        return True
    try:
        return ipaddress.ip_address(host).is_loopback
    except ValueError:
        return False
