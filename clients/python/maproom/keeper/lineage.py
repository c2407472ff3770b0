"""Whether a room goes on with the map that was saved, after entries were missed or the server was started anew.

A room does not say on which map it began. So the keeper compares the map that it saved with the room's map. If the
room lacks the last saved entries, it began on an older map, or mappers who were quicker than the keeper took them back.
The map that --restore printed last decides which of the two is so.
"""
from __future__ import annotations

import enum
from typing import Dict, Iterable, List, Optional, Set, Tuple

from ..core import Element, Row
from .folder import Saved
from .journal import Entry


class Lineage(enum.Enum):
    """How the room's map continues the saved map."""

    SAME_RUN = enum.auto()
    NEW_RUN = enum.auto()
    OTHER_MAP = enum.auto()


def lineage(saved: Saved, rows: List[Row], seq: int, restarted: Optional[bool], is_restored: bool = False) -> Lineage:
    """How a room at entry `seq`, whose map differs by `rows`, continues the saved map.

    `restarted` is None if it is not known whether the run of the server is the same. `is_restored` says whether
    --restore printed the saved map, so that the server may have begun with it.
    """
    if restarted is False:
        return Lineage.SAME_RUN
    is_new = restarted is True or seq < saved.position.seq or (is_restored and seq == saved.position.seq and bool(rows))
    made = seq if is_new or is_restored else seq - saved.position.seq
    fine = Lineage.NEW_RUN if is_new else Lineage.SAME_RUN
    if not rows:
        return fine
    if made == 0 or is_mostly_gone(saved.elements, rows, made):
        return Lineage.OTHER_MAP
    taken_back, elements = entries_taken_back(saved.recent, {row.el: row.after for row in rows})
    is_all = len(rows) <= elements
    # If nothing else differs, a group can have taken back all. On an older map the room's own entries would differ too.
    needed = min(taken_back, 1) if is_all else taken_back
    if not is_new:
        return Lineage.OTHER_MAP if needed > made else fine
    needed += not is_all  # another entry changed the other elements
    return fine if taken_back == 0 or is_restored and needed <= made else Lineage.OTHER_MAP


def is_mostly_gone(elements: Iterable[str], rows: List[Row], made: int) -> bool:
    """Whether the room lost more than half of the saved elements, and more than it made entries.

    A group can delete many elements in one entry, so a loss of fewer elements proves nothing. Ways are not counted,
    because a purge of one node can delete many.
    """
    gone = sum(row.after is None and not row.el.startswith("w") for row in rows)
    return gone > made and 2 * gone > sum(not el.startswith("w") for el in elements)


def entries_taken_back(recent: Iterable[Entry], now: Dict[str, Optional[Element]]) -> Tuple[int, int]:
    """Counts the last entries that the room has not, back to the first that it has, and the elements that can differ
    because of them."""
    entries = list(recent)
    earlier: Dict[str, List[Optional[Element]]] = {}
    for entry in entries:
        for row in entry.rows:
            if row.el in now:
                earlier.setdefault(row.el, []).append(row.before)
    seen: Set[str] = set()
    count = elements = 0
    for entry in reversed(entries):
        last = [row.el for row in entry.rows if row.el not in seen and row.before != row.after]
        if any(el not in now for el in last):
            break  # an element is as this entry made it, so the room has the entry
        if last and all(now[el] in earlier[el] for el in last):
            count += 1
            elements += len(last) + entry.left_out
        seen.update(row.el for row in entry.rows)
    return count, elements
