"""Lets JOSM, Merkaartor and osmapi join a room, through the OpenStreetMap API 0.6.

    %(prog)s ws://127.0.0.1:9001 --room hamlet --name lina --ledger lina.ledger
    %(prog)s ws://127.0.0.1:9001 --room hamlet --ledger hamlet.ledger --host maps.example.org

The program prints its URL. Give that URL with /api after it to JOSM, as its OSM server. In a browser, the URL shows
what others changed, and undoes uploads. docs/EDITORS.md describes the editors, and how to run the program for a group.

The first command is for one mapper, on the mapper's own machine: every upload is by the author lina. The second
command is for a group: each request names its author by HTTP Basic, and nginx in front of the program checks the
password. The program itself checks no passwords, so without --host it answers programs on this machine only. With
--trust-header it takes the author from the header of --name-header, which nginx has to set.

The ledger keeps the version of each element. Without a ledger, edits that a mapper has not uploaded become conflicts
when the program starts again. Each program needs its own ledger.

/metrics has figures for Prometheus (Debian: python3-prometheus-client), and /health is answered with 200 while the room
can be reached, and otherwise with 503.

If the connection to the room breaks, the program connects again. SIGTERM or Ctrl-C ends it when it has answered the
requests under way.

Statuses:
  0  a signal ended it
  1  it could not start, or the room has ended
  2  the arguments are wrong

It needs Python 3.11, aiohttp and defusedxml (Debian: python3-aiohttp and python3-defusedxml), and a server of version
2.0.0 or later.
"""
import argparse
import asyncio
import re
import signal
from pathlib import Path

from ..commands.login import add_login, take_password
from ..commands.osm_api import note
from ..errors import Error
from .bridge import NotLoopback, Options, bridge
from .ledger import LedgerInUse
from .room_connection import ServerRoom
from .working import keep_what_is_there, share_fairly

# The author whose session follows the room for a group. It writes nothing.
READER = "osm_api"


def name_of(text: str) -> str:
    """Returns the name of a room or an author."""
    if not re.fullmatch(r"[a-z0-9_]{1,32}", text):
        raise argparse.ArgumentTypeError("a name has 1 to 32 characters of a-z, 0-9 and _")
    return text


def address_of(text: str) -> tuple[str, int]:
    """Returns the host and the port of an address."""
    host, _, port = text.rpartition(":")
    if not host or not re.fullmatch(r"[0-9]{1,5}", port) or int(port) > 65535:
        raise argparse.ArgumentTypeError("an address is HOST:PORT")
    return host.strip("[]"), int(port)


def seconds_of(text: str) -> float:
    """Returns a time."""
    if not re.fullmatch(r"[0-9]{1,4}(\.[0-9]{1,3})?", text) or float(text) == 0:
        raise argparse.ArgumentTypeError("a time is a number of seconds, and not 0")
    return float(text)


def arguments() -> argparse.Namespace:
    """Reads the arguments."""
    parser = argparse.ArgumentParser(description=__doc__, formatter_class=argparse.RawDescriptionHelpFormatter)
    parser.add_argument("url", metavar="URL", help="the server, for example ws://127.0.0.1:9001")
    parser.add_argument("--room", required=True, type=name_of, help="the room to join")
    parser.add_argument(
        "--name", type=name_of, help="the author of all uploads; otherwise each request names its author"
    )
    add_login(parser)
    parser.add_argument(
        "--trust-header",
        action="store_true",
        help="take the author of a request from the header of --name-header, which the proxy sets, and not from "
        "HTTP Basic",
    )
    parser.add_argument("--ledger", type=Path, metavar="FILE", help="the file that keeps the versions of elements")
    parser.add_argument(
        "--listen",
        type=address_of,
        default=("127.0.0.1", 8110),
        metavar="HOST:PORT",
        help="where to listen (127.0.0.1:8110; port 0 is any free port)",
    )
    parser.add_argument(
        "--host",
        action="append",
        default=[],
        metavar="HOST",
        help="a host name under which a proxy reaches the program; you can repeat it",
    )
    parser.add_argument(
        "--public-url",
        default="",
        metavar="URL",
        help="the URL that the program's page shows to mappers, if a proxy is in front of it",
    )
    parser.add_argument(
        "--patience", type=seconds_of, default=60, metavar="SECONDS", help="how long a request waits for the room (60)"
    )
    parser.add_argument(
        "--kept", type=Path, metavar="FOLDER", help="the folder of the room's keeper, for the time of its last save"
    )
    options = parser.parse_args()
    if options.trust_header and (options.name or not options.name_header):
        parser.error("--trust-header goes with --name-header, and without --name")
    return options


async def serve(options: argparse.Namespace) -> None:
    """Runs until a signal comes, or until the room ends for good."""
    share_fairly()
    take_password(options)
    ending, loop = asyncio.Event(), asyncio.get_running_loop()
    for number in (signal.SIGTERM, signal.SIGINT):
        loop.add_signal_handler(number, ending.set)
    host, port = options.listen
    settings = Options(
        options.name,
        host,
        port,
        options.ledger,
        frozenset(options.host),
        options.public_url,
        options.patience,
        options.kept,
        options.name_header if options.trust_header else None,
    )
    reader, header = options.name or READER, options.name_header
    async with ServerRoom(options.url, options.room, reader, name_header=header) as room:
        async with bridge(room, settings, note) as url:
            keep_what_is_there()
            print(url, flush=True)
            ended = asyncio.create_task(room.ended())
            await asyncio.wait({ended, asyncio.create_task(ending.wait())}, return_when=asyncio.FIRST_COMPLETED)
            if ended.done():
                note("the room has ended")
                ended.result()


def main() -> int:
    """Runs the program. Returns its status."""
    options = arguments()
    try:
        asyncio.run(serve(options))
    except (Error, NotLoopback, LedgerInUse, OSError) as fault:
        note(str(fault))
        return 1
    return 0
