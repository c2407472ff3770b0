"""Keeps a room safe: follows it as a client, and saves each change. It needs the package aiohttp.

    %(prog)s /var/lib/maproom/hamlet ws://127.0.0.1:9001 hamlet
    %(prog)s --restore /var/lib/maproom/hamlet >hamlet.map
    %(prog)s --who w37 /var/lib/maproom/hamlet
    %(prog)s --since 2h /var/lib/maproom/hamlet

The keeper appends each change to a journal in the folder, within 100 ms. It also saves snapshots of the map. SIGTERM
ends it, with everything saved. While it waits, it says why each minute.

--restore prints the map that was saved last, for `maproom serve --base`. It also works if the keeper was killed. If a
keeper is connected, --restore first waits until the server has ended and the keeper has saved everything, but 5 seconds
at most. Then it prints what is saved. The undo lists of the new server begin empty.

If the server was started without the saved map, the keeper ends with status 3, and the saved map stays. Start the
server on what --restore prints, and the keeper goes on. Use a new folder for a room with another map.

Statuses:
  0  everything is saved or printed
  1  it failed
  2  the arguments are wrong
  3  the room has another or an older map
  4  nothing is saved yet
"""
from __future__ import annotations

import argparse
import asyncio
import signal
import sys
import time
from typing import List

from .. import keeper
from ..keeper.files import replace_durably
from ..keeper.folder import note_restored, wait_for_keeper
from ..keeper.snapshots import base_line
from ..keeper.who import iso, time_of
from .login import add_login, take_password

FAILED, NOTHING_SAVED = 1, 4


def note(what: str) -> None:
    """Reports something on standard error."""
    print(f"keep: {what}", file=sys.stderr, flush=True)


def report(what: str) -> None:
    """Reports a save on standard output."""
    print(what, flush=True)


def restore(options: argparse.Namespace) -> int:
    """Prints the base for what was saved last."""
    if not wait_for_keeper(options.folder, options.wait):
        note("a keeper is still connected: the room may have newer changes")
    saved = keeper.load(options.folder, note)
    parts = base_line(saved.elements.values(), saved.position.seq)
    try:
        note_restored(options.folder, saved.position)
    except OSError as fault:  # it also prints from a folder that it cannot write to
        note(
            f"{fault.filename or options.folder}: {fault.strerror}. The folder does not note that this map was printed, "
            "so the keeper may take a room that begins with it for another map, and end with status 3"
        )
    if options.to:
        replace_durably(options.to, parts)
    else:
        sys.stdout.buffer.writelines(parts)
        sys.stdout.buffer.flush()
    note(f"{len(saved.elements)} elements at {saved.position}, saved {iso(saved.time)}")
    return 0


def answer(options: argparse.Namespace) -> int:
    """Prints who changed what, and when."""
    faults: List[str] = []
    for found in keeper.answers(options.folder, keeper.Question(options.who, options.since), faults.append):
        print(found.as_json() if options.json else found)
    for fault in faults:
        note(fault)
    return FAILED if faults else 0


async def follow(options: argparse.Namespace) -> int:
    """Follows the room until a signal comes, or something else ends it."""
    take_password(options)
    folder = keeper.Folder(options.folder)
    try:
        plan = keeper.Plan(
            options.url,
            options.room,
            options.name,
            options.every,
            options.snapshots,
            options.patience,
            options.print_saved,
            options.name_header,
        )
        following = keeper.Keeper(plan, folder, note, report)
        for which in (signal.SIGTERM, signal.SIGINT):
            asyncio.get_running_loop().add_signal_handler(which, following.stop)
        return int(await following.keep())
    finally:
        folder.close()


def since(text: str) -> float:
    """The time of an argument."""
    return time_of(text, time.time())


def count(text: str) -> int:
    """A count of at least 1."""
    number = int(text)
    if number < 1:
        raise ValueError
    return number


def arguments() -> argparse.Namespace:
    """Reads the command line."""
    parser = argparse.ArgumentParser(description=__doc__, formatter_class=argparse.RawDescriptionHelpFormatter)
    parser.add_argument("folder", metavar="FOLDER", help="the folder in which the room is saved; the keeper makes it")
    parser.add_argument("url", metavar="URL", nargs="?", help="the server's address, such as ws://127.0.0.1:9001")
    parser.add_argument("room", metavar="ROOM", nargs="?", help="the room to follow")
    parser.add_argument("--name", default="keeper", help="the name under which it follows; default: keeper")
    add_login(parser)
    parser.add_argument(
        "--every",
        type=float,
        default=300,
        metavar="SECONDS",
        help="how many seconds pass between snapshots; default: 300",
    )
    parser.add_argument(
        "--snapshots",
        type=count,
        default=12,
        metavar="COUNT",
        help="how many snapshots stay in the folder; default: 12",
    )
    parser.add_argument(
        "--patience",
        type=float,
        default=60,
        metavar="SECONDS",
        help="how long it tries to write, for example to a full disk, before it ends; default: 60",
    )
    parser.add_argument(
        "--print-saved",
        action="store_true",
        help="print `saved RUN ENTRY` after each save, and `snapshot NUMBER RUN ENTRY`",
    )
    parser.add_argument("--restore", action="store_true", help="print the map that was saved last, as a base")
    parser.add_argument("--to", metavar="FILE", help="with --restore: replace FILE, in one step, instead of printing")
    parser.add_argument(
        "--wait",
        type=float,
        default=5,
        metavar="SECONDS",
        help="with --restore: how long to wait for a connected keeper before printing; default: 5",
    )
    parser.add_argument("--who", metavar="ELEMENT", help="print who changed an element, such as w37")
    parser.add_argument(
        "--since",
        type=since,
        metavar="TIME",
        help="print who changed what since a time, such as 2h, 1d or 2026-11-28T18:30",
    )
    parser.add_argument("--json", action="store_true", help="with --who or --since: print lines of JSON")
    options = parser.parse_args()
    options.asks = options.who is not None or options.since is not None
    if (options.restore or options.asks) and options.url:
        parser.error("with --restore, --who or --since, give the folder only")
    if options.restore and options.asks:
        parser.error("--restore goes without --who and --since")
    if not (options.restore or options.asks or options.room):
        parser.error("URL and ROOM are missing")
    return options


def main() -> int:
    """Does what the command line says. Returns the status."""
    options = arguments()
    try:
        if options.restore:
            return restore(options)
        return answer(options) if options.asks else asyncio.run(follow(options))
    except keeper.NothingSaved as fault:
        note(str(fault))
        return NOTHING_SAVED
    except (keeper.Damaged, keeper.Locked, ModuleNotFoundError) as fault:
        note(str(fault))
    except OSError as fault:
        note(f"{fault.filename or options.to or options.folder}: {fault.strerror}")
    return FAILED
