"""Runs a program once for each of its allocations, and lets this allocation fail. A library that is loaded before the
program refuses it (tests/preload/refusing.c)."""
from __future__ import annotations

import itertools
from collections.abc import Callable, Iterator, Sequence
from typing import Any, Generic, TypeVar

from .cases import check
from .preloaded import library
from .programs import Ran
from .texts import Script

# A result of the runs that refused an allocation of a line.
Came = TypeVar("Came")

# What the library prints to standard error when it has refused an allocation.
REFUSED = b"a growth was refused\n"

# The results of a refused allocation in a line: the program ended there, or it answered the line `memory`.
ENDED, ANSWERED = "ended", "answered"
# The wanted result of all allocations of a line.
AS_IT_MAY = "each growth comes to what it may, and enough of them are told"


def refusing(growth: int) -> dict[str, str]:
    """The environment of a run in which the allocation with this number fails, counted from 1."""
    return {"LD_PRELOAD": library("refusing"), "REFUSED_GROWTH": str(growth)}


def refused_runs(run: Callable[[dict[str, str]], Ran]) -> Iterator[tuple[int, Ran]]:
    """Runs with the first allocation refused, then with the second, and so on. Yields each run with the number of the
    allocation, and at last the run that ends before the refusal, with 0."""
    for growth in itertools.count(1):
        ran = run(refusing(growth))
        if not ran.errors.startswith(REFUSED):
            yield 0, ran
            return
        yield growth, ran


def place_of(blocks: Sequence[object], wanted: Sequence[object]) -> int:
    """The place of the first block that differs from the wanted block, or is missing."""
    return next((at for at, (block, other) in enumerate(zip(blocks, wanted)) if block != other), len(blocks))


class Line(Generic[Came]):
    """A line of a script: the results of the runs that refused one of its allocations, and the first fault."""

    def __init__(self) -> None:
        self.came: list[Came] = []
        self.fault: str | None = None


def refuse_each(
    script: Any,
    run: Callable[[dict[str, str]], Ran],
    comes_of: Callable[..., Any],
    is_enough: Callable[[int, list[Came]], bool],
) -> None:
    """Refuses each allocation of a script, each in its own run. Checks the run without a refusal and, for each line,
    the runs that refused one of its allocations. `comes_of(ran, place, growth)` returns the results that such a run may
    be, and nothing for a fault. `is_enough(place, came)` says whether the results of all these runs are enough. A run
    may also print the whole output, because the program asked for more memory than it needed."""
    lines: list[Line[Came]] = [Line() for _ in script.blocks]
    without = 0
    for growth, ran in refused_runs(run):
        if growth == 0:
            print(f"growths of {script.name}: {sum(len(line.came) for line in lines)} told, {without} done without")
            check(f"{script.name} with memory", ran, (0, script.output, b""), script.place(0))
        elif ran == (0, script.output, REFUSED):
            without += 1
        else:
            place = min(place_of(script.blocks_of(ran.output), script.blocks), len(script.blocks) - 1)
            came, line = comes_of(ran, place, growth), lines[place]
            line.came += [came] if came else []
            line.fault = line.fault or (None if came else f"growth {growth}: {printed_at(script, ran, place)}")
    for place, line in enumerate(lines):
        fault = line.fault or (AS_IT_MAY if is_enough(place, line.came) else f"of its growths came only {line.came}")
        check(f"line {place + 1} of {script.name}", fault, AS_IT_MAY, script.place(place))


def printed_at(script: Script, ran: Ran, place: int) -> str:
    """The output of a run for the line at a place, for the report of a fault."""
    blocks = script.blocks_of(ran.output)[place : place + 2]
    return f"status {ran.status}, {ran.errors[len(REFUSED):]!r}, {blocks}"
