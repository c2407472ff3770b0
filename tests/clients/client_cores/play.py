"""Plays a text of tests/texts/clients over the core of the Python package.

Each line of standard input is a word with its argument, or a text that the room sends. For each line it prints the
texts that go out, the answers and the events, and an empty line.
"""
from __future__ import annotations

import json
import sys
from collections.abc import Callable

from maproom.core import Asked, Core, HelloRefused, OutOfStep, compact, event_as_json


def main() -> None:
    """Plays the lines of standard input."""
    core = Core("paris", "anna", window=3)
    asked: dict[int, Asked] = {}

    def ask(word: str) -> list[str]:
        number = core.next_id
        asked[number] = core.add(json.loads(word), lambda answer: print("answer", number, compact(answer)))
        return core.send_more()

    def mirror(_: str) -> list[str]:
        texts = [f"element {compact(element)}" for element in core.elements.values()]
        return [f"entry {core.seq}", *texts, f"authors {compact([[*pair] for pair in core.authors.items()])}"]

    def lost(_: str) -> list[str]:
        core.end()
        return []

    def give_up(number: str) -> list[str]:
        core.give_up(asked[int(number)])
        return []

    def close(_: str) -> list[str]:
        core.close({"why": "closed"})
        return []

    actions: dict[str, Callable[[str], list[str]]] = {
        "connect": lambda _: core.begin(),
        "lost": lost,
        "ask": ask,
        "mirror": mirror,
        "give_up": give_up,
        "close": close,
        "probe": lambda _: core.probe(),
        "name": lambda kind: [core.new_name(kind)],
        "pending": lambda _: [str(core.pending())],
    }
    for line in sys.stdin:
        line = line.rstrip("\n")
        word, _, argument = line.partition(" ")
        try:
            texts = actions[word](argument) if word in actions else core.take(line)
        except OutOfStep:
            texts = ["out of step"]
        except HelloRefused as refusal:
            texts = [f"refused {compact(refusal.no)}"]
        events, core.events = core.events, []
        print(*(compact(event_as_json(event)) for event in events), *texts, "", sep="\n")


main()
