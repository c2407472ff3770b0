"""The cases of a script, its options, and the report at its end.

A case is a function with a name. It fails if it raises an exception, for example by `want`. A case counts as one
check, or as the number of its calls of `check`. If a `check` fails, the script prints it and the case goes on. The
last line of a script is `N passed, M failed`, after `K skipped` if cases were skipped because software is missing.
"""
from __future__ import annotations

import argparse
import functools
import os
import signal
import sys
import traceback
from collections.abc import Callable, Mapping, Sequence
from typing import Any, NoReturn, Optional, TypeVar


LIBRARY = os.path.dirname(os.path.abspath(__file__))
TESTS = os.path.dirname(LIBRARY)
TOP = os.path.dirname(TESTS)

# The programs that a script can test: by their options, the path of each, and the command that builds it.
PROGRAMS = {
    "program": ("crates/maproom/out/maproom", "cd crates/maproom && rt run -- replay <stdin"),
    "parts": ("crates/part_lines/out/part_lines", "cd crates/part_lines && rt run -- edits </dev/null"),
}

# The script's options: the programs, and the factor of its time limits.
given = argparse.Namespace(slow=1.0)

# A case, which takes no arguments, and whether its software is there. Only whether that is true or false counts.
Case = Callable[[], object]
Needs = Callable[[], object]
CaseFunction = TypeVar("CaseFunction", bound=Case)
Argument = TypeVar("Argument")

# Each case by its name.
CASES: dict[str, tuple[Case, Optional[Needs]]] = {}

# How many characters of a value are printed if a check fails, with the first that differs.
MOST_CHARACTERS = 600


class Differs(Exception):
    """A value differs from the wanted value, perhaps at a place in a text, such as `tests/texts/plans/x.txt:3`."""

    def __init__(self, got: object, wanted: object, place: str | None = None) -> None:
        super().__init__(got, wanted)
        self.got, self.wanted, self.place = got, wanted, place


class Report:
    """The numbers of checks that passed and failed, and of cases that were skipped."""

    def __init__(self) -> None:
        self.passed = self.failed = self.skipped = 0

    def fail(self, what: str, place: str, *lines: str) -> None:
        """Counts a check that failed, and prints its name, its place and the reason."""
        self.failed += 1
        print(f"{what} FAILED at {place}", *(f"  {line}" for line in lines), sep="\n", flush=True)

    def end(self) -> int:
        """Prints the counts. Returns the exit status of the script."""
        if self.skipped:
            print(f"{self.skipped} skipped")
        print(f"{self.passed} passed, {self.failed} failed", flush=True)
        return 1 if self.failed or not self.passed + self.skipped else 0


report = Report()


def case(function: CaseFunction, name: str | None = None, needs: Needs | None = None) -> CaseFunction:
    """Makes a function a case, under its own or another name. `needs` returns whether its software is there."""
    CASES[name or getattr(function, "__name__")] = (function, needs)
    return function


def case_if(needs: Needs) -> Callable[[CaseFunction], CaseFunction]:
    """Makes a function a case that needs software."""
    return lambda function: case(function, needs=needs)


def each_case(function: Callable[..., Any], arguments: Mapping[str, Argument], needs: Needs | None = None) -> None:
    """Makes a function a case for each argument, by the arguments' names."""
    for name, argument in arguments.items():
        case(functools.partial(function, argument), name, needs)


def check(what: str, got: object, wanted: object, place: str | None = None) -> bool:
    """Counts a check of the case, and prints it if it fails. Returns whether it passed."""
    if got == wanted:
        report.passed += 1
        return True
    report.fail(what, place or place_in(traceback.extract_stack()), *both(got, wanted))
    return False


def want(got: object, wanted: object, place: str | None = None) -> None:
    """Fails the case if a value differs from the wanted value."""
    if got != wanted:
        raise Differs(got, wanted, place)


def both(got: object, wanted: object) -> list[str]:
    """The lines with the wanted value and the value, from a little before the first character that differs."""
    texts = [repr(wanted), repr(got)]
    same = len(os.path.commonprefix(texts))
    start = max(0, same - MOST_CHARACTERS // 3)
    return [f"{word:<7} {cut(text, start)}" for word, text in zip(("wanted", "got"), texts)]


def cut(text: str, start: int) -> str:
    """The part of a text that is printed."""
    end = start + MOST_CHARACTERS
    return f"{'..' if start else ''}{text[start:end]}{'..' if end < len(text) else ''}"


def place_in(frames: Sequence[traceback.FrameSummary]) -> str:
    """The place of a case with these frames: its lines in scripts, the outermost first."""
    begins = [at for at, frame in enumerate(frames) if (frame.filename, frame.name) == (__file__, run.__name__)]
    frames = frames[begins[-1] + 1 :] if begins else frames
    scripts = [frame for frame in frames if frame.filename.startswith(f"{TOP}/")]
    own = [frame for frame in scripts if not frame.filename.startswith(f"{LIBRARY}/")]
    return ", ".join(f"{os.path.relpath(frame.filename, TOP)}:{frame.lineno}" for frame in own or frames[-1:])


def run(name: str, function: Case) -> None:
    """Runs a case, and prints its result."""
    passed, failed = report.passed, report.failed
    try:
        function()
    except Differs as fault:
        place = fault.place or place_in(traceback.extract_tb(fault.__traceback__))
        report.fail(name, place, *both(fault.got, fault.wanted))
    except Exception as fault:  # whatever goes wrong is this case's
        place = place_in(traceback.extract_tb(fault.__traceback__))
        report.fail(name, place, f"{type(fault).__name__}: {str(fault)[:2000]}")
    passed, failed = report.passed - passed, report.failed - failed
    if not passed and not failed:
        report.passed += 1
        print(name, "ok", flush=True)
    elif failed:
        print(f"{name}: {passed} ok, {failed} FAILED", flush=True)
    else:
        print(f"{name}: {passed} ok", flush=True)


def chosen(names: Sequence[str], parser: argparse.ArgumentParser) -> list[str]:
    """The cases with these names or, if no case has a name, those whose names contain it; without names all cases."""
    found = []
    for name in names:
        some = [name] if name in CASES else [other for other in CASES if name in other]
        if not some:
            parser.error(f"no case is called {name}: --list prints their names")
        found += some
    return list(dict.fromkeys(found)) if names else list(CASES)


def built(parser: argparse.ArgumentParser, needs: Sequence[str], may_need: Sequence[str] = ()) -> None:
    """Finds the programs that the options name, or that are built."""
    for option in (*needs, *may_need):
        path = os.path.abspath(getattr(given, option))
        setattr(given, option, path if os.path.isfile(path) else None)
        if option in needs and not os.path.isfile(path):
            parser.error(f"no program is at {path}; this builds the one of the tests: ({PROGRAMS[option][1]})")


def end_on_sigterm() -> None:
    """Makes SIGTERM raise an exception, so that the script ends what it started."""
    signal.signal(signal.SIGTERM, lambda *_: sys.exit("stopped"))


def add_programs(parser: argparse.ArgumentParser, needs: Sequence[str], may_need: Sequence[str] = ()) -> None:
    """Adds the options for programs, with the paths of the built programs."""
    for option in (*needs, *may_need):
        path = f"{TOP}/{PROGRAMS[option][0]}"
        text = f"the program to test (otherwise {PROGRAMS[option][0]})"
        parser.add_argument(f"--{option}", metavar="PATH", default=path, help=text)


def main(
    page: str | None,
    needs: Sequence[str] = ("program",),
    may_need: Sequence[str] = (),
    options: Callable[[argparse.ArgumentParser], object] | None = None,
) -> NoReturn:
    """Reads the options of a script, runs its cases or the named cases, reports, and ends. --help prints `page` first;
    `options` adds options of the script."""
    parser = argparse.ArgumentParser(description=page, formatter_class=argparse.RawDescriptionHelpFormatter)
    names = "a case to run, or a word in the names of cases; without any, all"
    parser.add_argument("names", nargs="*", metavar="CASE", help=names)
    parser.add_argument("--list", action="store_true", help="print the names of the cases")
    parser.add_argument("--slow", type=float, default=1, metavar="FACTOR", help="multiply all time limits")
    add_programs(parser, needs, may_need)
    if options:
        options(parser)
    parser.parse_args(namespace=given)
    chosen_names = chosen(given.names, parser)
    if given.list:
        print(*chosen_names, sep="\n")
        sys.exit()
    built(parser, needs, may_need)
    end_on_sigterm()
    for name in chosen_names:
        function, is_there = CASES[name]
        if is_there and not is_there():
            report.skipped += 1
            print(f"{name} skipped: what it needs is not there", flush=True)
        else:
            run(name, function)
    sys.exit(report.end())
