"""Reads the pages of the repository in blocks: prose, which can be wrapped, tables, headings, and code."""
from __future__ import annotations

import glob
import os
import re
from collections.abc import Iterator, Sequence
from typing import Any

from .cases import TOP

# How wide a line of prose may be, and how long the text of a table's cell.
WIDTH = 100

FENCE = "```"
ITEM = re.compile(r"( *)([-*]|\d+\.) +")
# Words, which stay in one line, with the code in them.
WORD = re.compile(r"(?:`[^`]*`|[^\s`])+")
# Marks that have a meaning at the beginning of a line.
MARKS = re.compile(r"([-+*>|#]|\d+[.)])")


def paths() -> list[str]:
    """The pages, README.md first."""
    top = [f"{TOP}/{name}.md" for name in ("README", "CONTRIBUTING", "CHANGELOG", "SECURITY")]
    return [*top, *sorted(glob.glob(f"{TOP}/docs/*.md")), f"{TOP}/tests/README.md", f"{TOP}/bench/README.md"]


class Block:
    """Lines of a page that belong together, their kind, and the number of the first."""

    def __init__(self, kind: str, number: int, lines: list[str]) -> None:
        self.kind, self.number, self.lines = kind, number, lines


def kind_of(line: str, is_fenced: bool, depth: int) -> str:
    """The kind of block that a line begins: code (fenced or indented), a table, a heading, or prose. `depth` is the
    indentation of a list item's text."""
    if is_fenced or line.startswith(FENCE):
        return "fence"
    if not line.strip():
        return "blank"
    if line.startswith("|"):
        return "table"
    if line.startswith("#"):
        return "heading"
    return "code" if len(line) - len(line.lstrip(" ")) >= depth + 4 and not ITEM.match(line) else "prose"


def blocks_of(text: str) -> list[Block]:
    """The blocks of a page."""
    blocks: list[Any] = []
    is_fenced, depth = False, 0
    for number, line in enumerate(text.split("\n"), 1):
        last = blocks[-1].kind if blocks else "blank"
        item = None if is_fenced else ITEM.match(line)
        goes_on = last == "prose" and not item and line.strip() and not line.startswith((FENCE, "|", "#"))
        kind = "prose" if goes_on else kind_of(line, is_fenced, depth)
        if kind == "prose" and not goes_on:
            depth = item.end() if item else 0 if not line.startswith(" ") else depth
        if goes_on or (kind == last and kind in ("fence", "table", "code") and (kind != "fence" or is_fenced)):
            blocks[-1].lines.append(line)
        else:
            blocks.append(Block(kind, number, [line]))
        if line.startswith(FENCE):
            is_fenced = not is_fenced
    return blocks


def wrapped(lines: Sequence[str]) -> list[str]:
    """Lines of prose, or of one item of a list, wrapped."""
    item = ITEM.match(lines[0])
    first = item[0] if item else lines[0][: len(lines[0]) - len(lines[0].lstrip(" "))]
    rest = " " * len(first)
    words = WORD.findall(" ".join([lines[0][len(first) :], *lines[1:]]))
    made: list[str] = []
    line = ""
    for word in words:
        is_mark = MARKS.fullmatch(word) or word.startswith("#")
        if line and len(rest) + len(line) + 1 + len(word) > WIDTH and not is_mark:
            made.append(line)
            line = word
        else:
            line = f"{line} {word}" if line else word
    made.append(line)
    return [f"{first if at == 0 else rest}{line}" for at, line in enumerate(made)]


def wrap(text: str) -> str:
    """A page with its prose wrapped."""
    blocks = (wrapped(block.lines) if block.kind == "prose" else block.lines for block in blocks_of(text))
    return "\n".join(line for lines in blocks for line in lines)


def spans_of(block: Block) -> Iterator[tuple[int, str]]:
    """The spans of code in prose, a heading or a table, each with the number of its line."""
    for number, line in enumerate(block.lines, block.number):
        for span in re.findall(r"`([^`]+)`", line):
            yield number, span


def commands_of(block: Block) -> list[tuple[int, str]]:
    """The lines of a block of code, each with its number. A fenced block has its language in the first line."""
    return list(enumerate(block.lines, block.number))[1 if block.kind == "fence" else 0 :]


def anchors_of(text: str) -> set[str]:
    """The anchors of a page: its headings in the form of links."""
    headings = [block.lines[0].lstrip("#").strip() for block in blocks_of(text) if block.kind == "heading"]
    return {re.sub(r"[^\w\- ]", "", heading.lower()).replace(" ", "-") for heading in headings}


def read(path: str) -> str:
    """The text of a page."""
    with open(path, encoding="utf-8") as file:
        return file.read()


def name_of(path: str) -> str:
    """The name of a page: its path from the top."""
    return os.path.relpath(path, TOP)
