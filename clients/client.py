#!/usr/bin/env python3
"""An example of a client that keeps a mirror of a room's map, over the texts alone.

    %(prog)s [--follow] ROOM NAME [CHANGE..]      each CHANGE is a message without its id, such as {"do":"undo"}

It reads what the room sends from standard input: one text a line, and an empty line if the session was closed. It
prints what it sends, and an empty line when it leaves a session. At the end of input it prints the elements of its
mirror. With --follow it also prints each change, with each element before and after. If the room refuses a change, it
prints the reason on standard error, and its status is 1.

The package maproom in clients/python does the work. socket_client.py uses it over WebSockets.
"""
import argparse
import sys

from maproom.commands.client import message_of, print_refusal
from maproom.core import Answer, Core, HelloRefused, OutOfStep, compact, event_as_json
from maproom.errors import error_of


def arguments() -> argparse.Namespace:
    """The arguments of the command line. If they are wrong, the program ends."""
    usage, layout = "%(prog)s [--follow] ROOM NAME [CHANGE..]", argparse.RawDescriptionHelpFormatter
    parser = argparse.ArgumentParser(usage=usage, description=__doc__, formatter_class=layout)
    parser.add_argument("--follow", action="store_true", help="print each change as a line of JSON")
    parser.add_argument("room", metavar="ROOM", help="the room to join")
    parser.add_argument("name", metavar="NAME", help="the author of the changes")
    parser.add_argument("changes", metavar="CHANGE", nargs="*", type=message_of, help="a message without its id")
    return parser.parse_args()


def main() -> int:
    """Follows the room until the end of input. Returns the status."""
    options = arguments()
    core, status = Core(options.room, options.name), 0

    def answered(answer: Answer) -> None:
        nonlocal status
        if "no" in answer:
            status = 1
            print_refusal(error_of(answer["no"], core.authors.get(answer["no"].get("with"))))

    for change in options.changes:
        core.ask(change, answered)
    print(*core.begin(), sep="\n")
    for line in sys.stdin:
        try:
            texts = core.take(line) if line.strip() else core.begin()
        except OutOfStep:
            texts = ["", *core.begin()]
        except HelloRefused as refusal:
            print_refusal(error_of(refusal.no))
            return 1
        events, core.events = core.events, []
        for text in [*(compact(event_as_json(event)) for event in events if options.follow), *texts]:
            print(text)
    for element in core.elements.values():
        print(compact(element))
    return status


if __name__ == "__main__":
    sys.exit(main())
