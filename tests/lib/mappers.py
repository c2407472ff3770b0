"""Edits a map at random as a mapper would. Most edits are possible on the map that the mapper knows, and some are
mistakes. The map keeps its size, some hundred elements."""
from __future__ import annotations

import collections
import itertools
from collections.abc import Mapping
from random import Random
from typing import Any, TypeVar

Key = TypeVar("Key")

# How often a name is a mistake.
MISTAKES = 0.02

# A map that has fewer elements grows, and one that has more shrinks.
FEW, MANY = 150, 400

# The most nodes of a way that is made by a join.
LONG = 40

# The weight of each edit, and the weights if the map has to grow or to shrink.
EDITS = {
    "create": 150,
    "retag": 150,
    "move": 150,
    "nodes": 70,
    "members": 50,
    "reverse": 70,
    "delete": 100,
    "purge": 20,
    "split": 70,
    "join": 60,
    "merge": 50,
    "unglue": 60,
}
GROWING = {**EDITS, "create": 900}
SHRINKING = {**EDITS, "delete": 400, "purge": 100}

KEYS = ("highway", "name", "ref", "surface", "note", "Größe", "addr:street", "\U0001f6b2")
VALUES = ("path", 'Main "Street"', "Straße", "", "yes", "47", "\\", "東京")
ROLES = ("", "outer", "inner", "stop", "südlich")

# Names that no mapper creates.
NOBODYS = ("n9000000000", "w9000000000", "r9000000000")


def one_of(chance: Random, weights: Mapping[Key, float]) -> Key:
    """A random key of `weights`, which has the weight of each."""
    return chance.choices(list(weights), list(weights.values()))[0]


def names_in(row: dict[str, Any]) -> list[str]:
    """The names of the elements to which a row refers."""
    return [f"n{number}" for number in row.get("nodes", ())] + [name for name, _ in row.get("members", ())]


class Mapper:
    """A mapper, with the rows of the map by their names, and the names of each kind."""

    def __init__(self, chance: Random, place: int, mappers: int) -> None:
        """One of several mappers of a map, with this place among them. No two mappers create the same name."""
        self.chance, self.ids = chance, itertools.count(place + 1, mappers)
        self.rows: dict[str, Any] = {}
        self.names: dict[str, list[str]] = {}

    def edit(self, rows: dict[str, Any]) -> dict[str, Any]:
        """A message without its id that asks for an edit of a map."""
        self.rows, self.names = rows, {"n": [], "w": [], "r": []}
        for name in rows:
            self.names[name[0]].append(name)
        word = one_of(self.chance, GROWING if len(rows) < FEW else SHRINKING if len(rows) > MANY else EDITS)
        return {"do": word, **getattr(self, word)()}

    def errs(self) -> bool:
        """Whether the mapper makes a mistake."""
        return self.chance.random() < MISTAKES

    def one(self, kinds: str) -> str:
        """The name of an element of one of these kinds. By mistake it is any name, also a missing one."""
        names = self.names[self.chance.choice(kinds)]
        return self.chance.choice([*self.rows, *NOBODYS] if self.errs() or not names else names)

    def new(self, kind: str) -> str:
        """A new name. By mistake it may be a used name."""
        if self.errs():
            return self.one(kind)
        number = next(self.ids)
        return f"{kind}{self.chance.choice((number, -number))}"

    def degrees(self, most: int) -> str:
        """A coordinate."""
        return f"{self.chance.randint(1 - most, most - 1)}.{self.chance.randrange(10 ** 7):07}"

    def distance(self) -> int:
        """A distance of a move. By mistake it is very long."""
        return self.chance.randint(-1000, 1000) * (10**6 if self.errs() else 1)

    def tags(self, least: int = 0, values: tuple[str | None, ...] = VALUES) -> dict[str, str | None]:
        """Some tags, at least `least`, with some of these values."""
        return {self.chance.choice(KEYS): self.chance.choice(values) for _ in range(self.chance.randint(least, 3))}

    def list_of_nodes(self) -> list[int]:
        """The nodes of a way. By mistake there may be too few."""
        return [int(self.one("n")[1:]) for _ in range(self.chance.randint(2 - self.errs(), 8))]

    def list_of_members(self) -> list[list[str]]:
        """The members of a relation."""
        return [[self.one("nnnwwr"), self.chance.choice(ROLES)] for _ in range(self.chance.randint(0, 5))]

    def length(self, way: str) -> int:
        """How many nodes a way has, if it is one."""
        return len(self.rows.get(way, {}).get("nodes", ()))

    # What each edit is of.

    def create(self) -> dict[str, Any]:
        """A new element."""
        el = self.new(self.chance.choice("nnnnnnwwwr"))
        if el[0] == "n":
            return {"el": el, "lat": self.degrees(90), "lon": self.degrees(180), "tags": self.tags()}
        rest: dict[str, Any] = {"nodes": self.list_of_nodes()} if el[0] == "w" else {"members": self.list_of_members()}
        return {"el": el, **rest, "tags": self.tags()}

    def retag(self) -> dict[str, Any]:
        """Other tags, and some removed."""
        return {"el": self.one("nwr"), "tags": self.tags(1, (*VALUES, None))}

    def move(self) -> dict[str, Any]:
        """Other places."""
        els = [self.one("nnw") for _ in range(self.chance.randint(1, 3))]
        return {"els": els, "dlat": self.distance(), "dlon": self.distance()}

    def reverse(self) -> dict[str, str]:
        """A way the other way round."""
        return {"el": self.one("w")}

    def nodes(self) -> dict[str, Any]:
        """Another list of a way."""
        return {"el": self.one("w"), "nodes": self.list_of_nodes()}

    def members(self) -> dict[str, Any]:
        """Other members of a relation."""
        return {"el": self.one("r"), "members": self.list_of_members()}

    def delete(self) -> dict[str, str]:
        """A delete of an element to which nothing refers. By mistake it is any element."""
        used = set(itertools.chain.from_iterable(map(names_in, self.rows.values())))
        free = [name for name in self.rows if name not in used]
        return {"el": self.chance.choice(free) if free and not self.errs() else self.one("nwr")}

    def purge(self) -> dict[str, str]:
        """A purge of any element."""
        return {"el": self.one("nwr")}

    def split(self) -> dict[str, Any]:
        """A split of a way, the longer of two."""
        way = max(self.one("w"), self.one("w"), key=self.length)
        return {"el": way, "at": self.chance.randint(1, max(1, self.length(way) - 2)), "into": self.new("w")}

    def join(self) -> dict[str, str]:
        """A join of a way with another way that begins at its end. By mistake these are any ways."""
        begins = collections.defaultdict(list)
        for way in self.names["w"]:
            begins[self.rows[way]["nodes"][0]].append(way)
        pairs = [
            (way, other)
            for way in self.names["w"]
            for other in begins[self.rows[way]["nodes"][-1]]
            if way != other and self.length(way) + self.length(other) <= LONG
        ]
        way, other = self.chance.choice(pairs) if pairs and not self.errs() else (self.one("w"), self.one("w"))
        return {"el": way, "with": other}

    def merge(self) -> dict[str, str]:
        """A merge of a node with another node."""
        return {"el": self.one("n"), "with": self.one("n")}

    def unglue(self) -> dict[str, Any]:
        """An unglue of a way from one of its nodes. By mistake the position may be after its end."""
        way = self.one("w")
        return {"el": way, "at": self.chance.randrange(self.length(way) + self.errs() or 1), "into": self.new("n")}
