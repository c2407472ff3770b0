"""Who changed what, and when, by the journals of a keeper's folder."""
from __future__ import annotations

import datetime
import re
from dataclasses import dataclass
from typing import Any, Dict, Iterator, List, Optional

from ..core import Element, Row, compact
from .folder import JOURNAL, Note, journal_path, numbers_in
from .journal import Damaged, Entry, Torn, entries_in

AGO = re.compile(r"([0-9]+)([smhd])")
SECONDS = {"s": 1, "m": 60, "h": 3600, "d": 86400}


@dataclass(frozen=True)
class Question:
    """Which changes are asked for: those of an element, those since a time in seconds since 1970, or both."""

    el: Optional[str] = None
    since: Optional[float] = None

    def rows(self, entry: Entry) -> List[Row]:
        """The rows of an entry that are asked for."""
        if self.since is not None and entry.time < self.since:
            return []
        return [row for row in entry.rows if self.el in (None, row.el)]


@dataclass(frozen=True)
class Answer:
    """A change of one element. `by` is None if the keeper missed the entry, and so does not know the author."""

    time: float
    run: int
    seq: int
    by: Optional[str]
    row: Row

    def as_json(self) -> str:
        """The answer as a line of JSON."""
        return compact({"time": iso(self.time), "run": self.run, "seq": self.seq, "by": self.by, **self.row._asdict()})

    def __str__(self) -> str:
        author = self.by or "(missed by the keeper)"
        return f"{iso(self.time)} {author} run {self.run} entry {self.seq}: {what_changed(self.row)}"


def iso(seconds: float) -> str:
    """A time as text, in UTC."""
    return datetime.datetime.fromtimestamp(int(seconds), datetime.timezone.utc).strftime("%Y-%m-%dT%H:%M:%SZ")


def time_of(text: str, now: float) -> float:
    """The time of a text such as `2h` (two hours ago) or `2026-11-28T06:30Z`. A time without a zone is local.

    Raises ValueError.
    """
    ago = AGO.fullmatch(text)
    if ago:
        return now - int(ago[1]) * SECONDS[ago[2]]
    return datetime.datetime.fromisoformat(re.sub("Z$", "+00:00", text)).timestamp()


def what_changed(row: Row) -> str:
    """What an entry changed in an element, in words."""
    if row.after is None or row.before is None:
        there = row.after or row.before
        return f"{row.el} {'created' if row.after else 'deleted'} {compact(contents(there)) if there else ''}".rstrip()
    before, after = contents(row.before), contents(row.after)
    old_tags, new_tags = before.pop("tags", {}), after.pop("tags", {})
    parts = [
        f"{key}: {compact(before.get(key))} -> {compact(after.get(key))}"
        for key in after
        if before.get(key) != after.get(key)
    ]
    parts += [
        f"{key}={old_tags.get(key, '')!r} -> {new_tags.get(key, '')!r}"
        for key in sorted({*old_tags, *new_tags})
        if old_tags.get(key) != new_tags.get(key)
    ]
    return f"{row.el} {', '.join(parts)}"


def contents(element: Element) -> Dict[str, Any]:
    """An element without its name."""
    return {key: value for key, value in element.items() if key != "el"}


def answers(path: str, question: Question, note: Note) -> Iterator[Answer]:
    """The changes that are asked for, in order. `note` reports each damaged line, which is left out."""
    for number in numbers_in(path, JOURNAL):
        for entry in entries_in(journal_path(path, number)):
            if isinstance(entry, Damaged):
                note(str(entry))
            elif not isinstance(entry, Torn):
                for row in question.rows(entry):
                    yield Answer(entry.time, entry.position.run, entry.position.seq, entry.by, row)
