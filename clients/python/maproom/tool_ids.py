"""The ids that new elements have in files for the tools of OpenStreetMap.

A room's new elements have negative ids. osm2pgsql refuses these, so `n-7` becomes node 1000000000007. OpenStreetMap has
no ids this large. Larger ones would cost memory: for each file with ids near 10^15, `osmium extract` takes 700 MB.
"""
from __future__ import annotations

from typing import Dict, Mapping

# The id of an element with a negative id is this one more than its number without the sign, if that is below it.
FIRST_NEW = 10**12

# Elements with other ids get those from here on, in the order in which they come.
FIRST_ODD = 2 * FIRST_NEW


def is_odd(number: int) -> bool:
    """Whether the id of an element in a room does not say which id it has for tools."""
    return not -FIRST_NEW < number < FIRST_NEW


class ToolIds:
    """The ids of elements for tools. `given` are those that odd elements have already, by their names."""

    def __init__(self, given: Mapping[str, int]) -> None:
        self.given: Dict[str, int] = dict(given)
        self._next = max([FIRST_ODD - 1, *given.values()]) + 1

    def of(self, name: str) -> int:
        """The id of an element by its name in the room. An odd one gets an id when it first comes."""
        number = int(name[1:])
        if not is_odd(number):
            return number if number > 0 else FIRST_NEW - number
        if name not in self.given:
            self.given[name] = self._next
            self._next += 1
        return self.given[name]
