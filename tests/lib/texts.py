"""Reads files of runs: a line with the mark `> ` is input, and the lines after it are the output that it has to cause.

    # A remark.
    limit 1
    > anna {"id":1,"do":"undo"}
    {"id":1,"no":{"why":"nothing_to_undo"}}

A line `limit N` in front of the input is the limit of the room's journal.
"""
from __future__ import annotations

import functools
import glob
import os
from collections.abc import Callable, Sequence
from typing import Any, Optional

from .cases import TESTS, TOP, Differs
from .programs import Ran, lines_of, text_of

# The output of each input line, as the lines of its block.
Blocks = Sequence[Sequence[str]]

TEXTS = f"{TESTS}/texts"
MARK = "> "


class Text:
    """A run: the limit of the room or None, the input lines, their numbers in the file, and their output, in blocks."""

    def __init__(self, text: str, path: str) -> None:
        self.path = path
        self.limit: Optional[str] = None
        self.lines: list[str] = []
        self.numbers: list[int] = []
        self.blocks: list[list[str]] = []
        for number, line in enumerate(lines_of(text), 1):
            if line.startswith(MARK):
                self.lines.append(line[len(MARK) :])
                self.numbers.append(number)
                self.blocks.append([])
            elif self.blocks and not line.startswith("#"):
                self.blocks[-1].append(line)
            elif line.startswith("limit "):
                self.limit = line.split()[1]

    def place(self, at: int) -> str:
        """The file and line number of the input line at this index."""
        return f"{os.path.relpath(self.path, TOP)}:{self.numbers[at]}"

    def goes_as_told(self, run: Callable[[Text], Ran], blocks_of: Callable[[bytes], Blocks]) -> None:
        """Fails if a run over the input does not print exactly the blocks, or fails. The place of the failure is the
        first input line whose block differs or is missing, otherwise the last input line."""
        ran = run(self)
        found = blocks_of(ran.output)
        at = next((at for at, (one, other) in enumerate(zip(found, self.blocks)) if one != other), None)
        if at is not None:
            raise Differs(found[at], self.blocks[at], f"{self.place(at)} {self.lines[at][:200]}")
        if (ran.status, ran.errors, len(found)) != (0, b"", len(self.blocks)):
            at = min(len(found), len(self.blocks) - 1)
            place = f"{self.place(at)} {self.lines[at][:200]}" if self.lines else os.path.relpath(self.path, TOP)
            raise Differs((ran.status, ran.errors, len(found)), (0, b"", len(self.blocks)), place)


def read(path: str) -> Text:
    """The run in a file."""
    with open(path, encoding="utf-8", newline="\n") as file:
        return Text(file.read(), path)


def files_in(folder: str) -> dict[str, str]:
    """The files of a folder of tests/texts that have runs: their paths by their names, in the order of the names."""
    return {os.path.basename(path)[: -len(".txt")]: path for path in sorted(glob.glob(f"{TEXTS}/{folder}/*.txt"))}


def lines_of_output(output: bytes) -> list[list[str]]:
    """The blocks of an output with one line for each input line."""
    return [[line] for line in lines_of(output.decode())]


def blocks_of_output(output: bytes) -> list[list[str]]:
    """The blocks of an output in which an empty line ends the block of each input line."""
    blocks: list[list[str]] = [[]]
    for line in lines_of(output.decode()):
        if line:
            blocks[-1].append(line)
        else:
            blocks.append([])
    return blocks[:-1]


class Script:
    """A script of tests/texts/scripts, or of another folder there, in which tests refuse each allocation. It has
    arguments, lines, an output, and the output's blocks, one for each line. A base has no block."""

    def __init__(self, name: str, blocks_of: Callable[[bytes], Blocks], folder: str = "scripts") -> None:
        self.name, self.blocks_of, self.path = name, blocks_of, f"{folder}/{name}"
        self.words = content(f"{self.path}.args", b"").decode().split()
        self.output = content(f"{self.path}.out")
        self.blocks = blocks_of(self.output)
        lines = tuple(content(f"{self.path}.in").decode().removesuffix("\n").split("\n"))
        self.base, self.lines = lines[: -len(self.blocks)], lines[-len(self.blocks) :]

    def place(self, at: int) -> str:
        """The file and line number of the line at this index."""
        return f"tests/texts/{self.path}.in:{len(self.base) + at + 1}"

    def without(self, place: int) -> tuple[str, ...]:
        """The lines without the one at this index."""
        return self.lines[:place] + self.lines[place + 1 :]


@functools.lru_cache(maxsize=None)
def content(name: str, otherwise: Optional[bytes] = None) -> bytes:
    """The bytes of a file of tests/texts. If there is no such file, these are those that are given, if any."""
    path = f"{TEXTS}/{name}"
    if otherwise is not None and not os.path.exists(path):
        return otherwise
    with open(path, "rb") as file:
        return file.read()


def bytes_of(lines: Any) -> bytes:
    """Lines as the standard input of a program."""
    return text_of(lines).encode()
