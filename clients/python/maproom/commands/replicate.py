"""Publishes a room as OpenStreetMap's replication diffs: follows it as a client, and writes what changes. It needs the
packages aiohttp and pyosmium (Debian: python3-aiohttp and python3-pyosmium).

    %(prog)s /srv/hamlet ws://127.0.0.1:9001 hamlet --public-url https://maps.example.org/replication

Any web server can serve the folder. It has the map at the start of the program, `base.osm.pbf`, and from then on the
changes of each minute: `state.txt` and `000/000/001.osc.gz`, `000/000/002.osc.gz` and so on. osm2pgsql-replication,
pyosmium-up-to-date, osmosis and others follow them.

- The elements with which the folder begins have the version 1. Each entry, also an undo, gives what it changes the next
  version, with its author and its time. What changed while the program did not run has no author.
- osm2pgsql refuses negative ids. So the room's n-7 is node 1000000000007. The ledger has the id of each name.
- There is at most one diff each second, because followers go by the time.
- Sequence numbers go on after a restart of the room or of the program.

SIGTERM ends the program, with everything published. If more than half of the map is gone when it connects, perhaps
because the server was started without the saved map, it ends with status 3, and publishes nothing.

Statuses:
  0  everything is published
  1  it failed
  2  the arguments are wrong
  3  the room has another map
"""
from __future__ import annotations

import argparse
import asyncio
import signal
import sys

from ..keeper.folder import Locked
from ..missing import MissingPackage
from ..replication import BadLedger, OtherRoom, Plan, Replicator
from .login import add_login, take_password

FAILED = 1


def note(what: str) -> None:
    """Reports something on standard error."""
    print(f"replicate: {what}", file=sys.stderr, flush=True)


def seconds(text: str) -> float:
    """A number of seconds that is not negative."""
    number = float(text)
    if not 0 <= number < 1e9:
        raise ValueError
    return number


def arguments() -> argparse.Namespace:
    """Reads the command line."""
    parser = argparse.ArgumentParser(description=__doc__, formatter_class=argparse.RawDescriptionHelpFormatter)
    parser.add_argument("folder", metavar="FOLDER", help="the folder in which it publishes; the program makes it")
    parser.add_argument("url", metavar="URL", help="the server's address, such as ws://127.0.0.1:9001")
    parser.add_argument("room", metavar="ROOM", help="the room to follow")
    parser.add_argument("--name", default="replicator", help="the name under which it follows; default: replicator")
    add_login(parser)
    parser.add_argument(
        "--every",
        type=seconds,
        default=60,
        metavar="SECONDS",
        help="how many seconds a diff collects what changes; 0 is as soon as possible; default: 60",
    )
    parser.add_argument(
        "--public-url", default="", metavar="URL", help="where followers find the folder; base.osm.pbf says it"
    )
    parser.add_argument("--many-gone", action="store_true", help="go on although more than half of the map is gone")
    parser.add_argument(
        "--patience",
        type=seconds,
        default=60,
        metavar="SECONDS",
        help="how long it tries to write, for example to a full disk, before it ends; default: 60",
    )
    return parser.parse_args()


async def follow(options: argparse.Namespace) -> int:
    """Follows the room until a signal comes, or something else ends it."""
    take_password(options)
    plan = Plan(
        options.folder,
        options.url,
        options.room,
        options.name,
        options.every,
        options.public_url,
        options.many_gone,
        options.patience,
        options.name_header,
    )
    replicator = Replicator(plan, note)
    try:
        for which in (signal.SIGTERM, signal.SIGINT):
            asyncio.get_running_loop().add_signal_handler(which, replicator.stop)
        return int(await replicator.replicate())
    finally:
        replicator.close()


def main() -> int:
    """Does what the command line says. Returns the status."""
    options = arguments()
    try:
        return asyncio.run(follow(options))
    except (BadLedger, Locked, MissingPackage, ModuleNotFoundError, OtherRoom) as fault:
        note(str(fault))
    except OSError as fault:
        note(f"{fault.filename or options.folder}: {fault.strerror or fault}")
    return FAILED
