"""A client of a room over WebSockets, for the command line. It needs the package aiohttp (Debian: python3-aiohttp).

    %(prog)s ws://127.0.0.1:9001 village anna '{"do":"create","el":"n-1","lat":"47.6","lon":"8.2"}'
    %(prog)s ws://127.0.0.1:9001 village anna '{"do":"undo"}' '{"do":"undos"}'
    %(prog)s --map ws://127.0.0.1:9001 village keeper >village.map
    %(prog)s --follow ws://127.0.0.1:9001 village anna

It prints the answer to each message. With --follow it stays, and prints each change as one line of JSON, with each
element before and after. After a gap it prints one line with "reset", and all elements that differ. If the room refuses
a message, it prints the reason on standard error, and its status is 1.

The package maproom in clients/python does the work, and programs can use it, too. docs/CLIENT.md describes it.
"""
from __future__ import annotations

import argparse
import asyncio
import json
import sys

from ..addresses import address_of
from ..core import Message, compact, event_as_json
from ..errors import Error, NotSent, Refused, Unknown, short_words
from ..room import Changes, connect
from .login import add_login, take_password


def message_of(text: str) -> Message:
    """A message that is an argument of the command line. Raises ArgumentTypeError if the argument is no message."""
    try:
        message = json.loads(text)
    except ValueError:
        message = None
    if not isinstance(message, dict):
        raise argparse.ArgumentTypeError(f"no message, which is an object of JSON: {text}")
    return message


def print_refusal(error: Error) -> None:
    """Reports a refusal."""
    print(f"refused: {short_words(error)}", file=sys.stderr, flush=True)


async def follow(changes: Changes) -> None:
    """Prints each change."""
    async for change in changes:
        print(compact(event_as_json(change)), flush=True)


async def talk(options: argparse.Namespace) -> int:
    """Does what the command line says. Returns the status."""
    status = 0
    async with connect(options.url, room=options.room, name=options.name, name_header=options.name_header) as room:
        following = asyncio.create_task(follow(room.changes())) if options.follow else None
        for message in options.message:
            try:
                print(compact(await room.ask(message)), flush=True)
            except (Refused, Unknown, NotSent) as error:
                status = 1
                print_refusal(error)
        if options.map:
            print(compact({"id": 1, "ok": await room.ask({"do": "map"})}), flush=True)
        if following:
            await following
    return status


def arguments() -> argparse.Namespace:
    """Reads the command line."""
    usage = "%(prog)s [--map] [--follow] URL ROOM NAME [MESSAGE..]"
    layout = argparse.RawDescriptionHelpFormatter
    parser = argparse.ArgumentParser(usage=usage, description=__doc__, formatter_class=layout)
    parser.add_argument("--map", action="store_true", help="print the map at the end, as map_to_osm and --base read it")
    parser.add_argument("--follow", action="store_true", help="stay, and print each change as a line of JSON")
    add_login(parser)
    parser.add_argument("url", metavar="URL", help="the server's address, such as ws://127.0.0.1:9001")
    parser.add_argument("room", metavar="ROOM", help="the room to join")
    parser.add_argument("name", metavar="NAME", help="the author of the messages")
    parser.add_argument("message", metavar="MESSAGE", nargs="*", type=message_of, help="a message without its id")
    return parser.parse_args()


def main() -> int:
    """Does what the command line says. Returns the status."""
    options = arguments()
    try:
        take_password(options)
        return asyncio.run(talk(options))
    except KeyboardInterrupt:
        return 130
    except Refused as refusal:
        print_refusal(refusal)
    except (Error, ModuleNotFoundError) as fault:
        url = address_of(options.url).url
        print(f"socket_client: {fault}\nsocket_client: no session at {url}", file=sys.stderr)
    except OSError as fault:
        print(f"socket_client: {fault.filename}: {fault.strerror}", file=sys.stderr)
    return 1
