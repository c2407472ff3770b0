"""Runs commands and returns their results."""
from __future__ import annotations

import os
import subprocess
import time
from collections.abc import Callable, Iterable, Mapping, Sequence
from typing import IO, Any, NamedTuple, TypeVar, Union

from . import PACKAGE
from .cases import given
from .websocket import Late

# An argument of a command.
Word = Union[str, bytes, "os.PathLike[str]"]

Found = TypeVar("Found")

# The time limit of a program in seconds, with its start.
PATIENCE = 90


class Ran(NamedTuple):
    """The result of a command: its status, its standard output and its standard error."""

    status: int
    output: bytes
    errors: bytes

    def texts(self) -> tuple[int, str, str]:
        """The same, with texts in the place of bytes."""
        return self.status, self.output.decode(), self.errors.decode()

    def lines(self) -> list[str]:
        """The lines of standard output."""
        return lines_of(self.output.decode())


class Piped(subprocess.Popen[bytes]):
    """A program that runs, of whose streams a script uses those that are pipes."""

    stdin: IO[bytes]
    stdout: IO[bytes]
    stderr: IO[bytes]

    def __init__(self, command: Sequence[Word], **how: Any) -> None:
        super().__init__(command, **how)


def lines_of(text: str) -> list[str]:
    """The lines of a text that ends with a line feed. Only a line feed ends a line."""
    return text.split("\n")[:-1]


def text_of(lines: Iterable[str]) -> str:
    """The text of lines."""
    return "".join(f"{line}\n" for line in lines)


def run(*arguments: Word, lines: bytes = b"", **how: Any) -> Ran:
    """The result of a command over an input, or over a stream that is given as `stdin`."""
    streams: dict[str, Any] = {"stdout": subprocess.PIPE, "stderr": subprocess.PIPE}
    if "stdin" not in how:
        streams["input"] = lines
    ran = subprocess.run(arguments, check=False, **streams, **how)
    return Ran(ran.returncode, ran.stdout, ran.stderr)


def run_soon(*arguments: Word, **how: Any) -> Ran:
    """The result of a command with a time limit."""
    return run(*arguments, timeout=PATIENCE * given.slow, **how)


def wait_for(what: str | Callable[[], str], value: Callable[[], Found]) -> Found:
    """Waits until `value` returns a true value, and returns it."""
    deadline = time.monotonic() + PATIENCE * given.slow
    while True:
        found = value()
        if found:
            return found
        if time.monotonic() > deadline:
            raise Late(what() if callable(what) else what)
        time.sleep(0.01)


def with_package(environment: Mapping[str, str] | None = None) -> dict[str, str]:
    """An environment in which Python imports the package maproom of this clone."""
    return {**(environment or os.environ), "PYTHONPATH": PACKAGE}
