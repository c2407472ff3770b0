"""The grid, and the map of a room."""
from __future__ import annotations

import random
import time

from lib.cases import given, want
from editor_cases.shared import HAS_ALL, NOW, by_name, needed, node, relation, way
from typing import Any
from collections.abc import Mapping

if HAS_ALL:
    from maproom.osm_api import elements
    from maproom.osm_api.connection import Welcome
    from maproom.osm_api.documents import Bounds
    from maproom.osm_api.grid import Grid
    from maproom.osm_api.ledger import Ledger
    from maproom.osm_api.memory_room import MemoryRoom
    from maproom.osm_api.room_map import RoomMap


@needed
def a_grid_finds_what_a_walk_finds() -> None:
    """The nodes in boxes are those that a walk over all nodes finds, also after they moved and went."""
    chance, grid = random.Random(1), Grid()
    places: dict[str, Any] = {}
    for turn in range(3_000):
        name = f"n{chance.randrange(800)}"
        if chance.random() < 0.2:
            grid.remove(name)
            places.pop(name, None)
        else:
            spread = chance.choice([1000, 200_000, 900_000_000])
            places[name] = chance.randint(-spread, spread), chance.randint(-spread, spread)
            grid.put(name, *places[name])
        if turn % 20 == 0:
            south, west = chance.choice(list(places.values()) or [(0, 0)])
            size = chance.choice([0, 70_000, 2_000_000_000])
            box = Bounds(south, west, south + size, west + size)
            want(set(grid.within(box)), {each for each, place in places.items() if box.holds(*place)})
    want(len(grid), len(places))


def walked(rows: Mapping[str, Any], bounds: Bounds) -> set[str]:
    """What the API's map has for a box, by its own rules over all rows."""
    names = {
        name
        for name, row in rows.items()
        if "lat" in row and bounds.holds(elements.text_units(row["lat"]), elements.text_units(row["lon"]))
    }
    ways = {name for name, row in rows.items() if "nodes" in row and names & set(elements.references(row))}
    names |= ways.union(*(elements.references(rows[name]) for name in ways))
    for _ in range(2):
        names |= {name for name, row in rows.items() if "members" in row and names & set(elements.references(row))}
    return names


@needed
def a_map_is_that_of_its_rows() -> None:
    """After chance news the users of each element and each box are those that a walk over all rows finds."""
    chance = random.Random(2)
    room = MemoryRoom([node(f"n{number}", number % 7, number % 5) for number in range(1, 40)])
    room_map = RoomMap(Ledger(), lambda: NOW)
    room.subscribe(room_map)
    for turn in range(600):
        numbers = [int(name[1:]) for name in room.elements if name[0] == "n"]
        name, members = f"{chance.choice('wr')}{chance.randint(1, 15)}", chance.sample(sorted(room.elements), 3)
        actions: list[dict[str, Any]] = [
            {"do": "create", **way(name, *chance.choices(numbers, k=4))}
            if name[0] == "w"
            else {"do": "create", **relation(name, *((member, "") for member in members))},
            {"do": "delete", "el": chance.choice(sorted(room.elements))},
            {
                "do": "move",
                "els": [f"n{chance.choice(numbers)}"],
                "dlat": chance.randint(-(10**7), 10**7),
                "dlon": 1,
            },
            {"do": "nodes", "el": name, "nodes": chance.choices(numbers, k=3)}
            if name[0] == "w"
            else {"do": "members", "el": name, "members": [[member, "x"] for member in members]},
        ]
        room.group("bob", [chance.choice(actions)])
        if turn % 30 == 0:
            want(room_map.elements, room.elements)
            for used in room.elements:
                users = {user for user, row in room.elements.items() if used in elements.references(row)}
                want(set(room_map.users(used)), users)
            south, west = (chance.randint(0, 3) * 10**7 for _ in range(2))
            box = Bounds(south, west, 4 * 10**7, 4 * 10**7)
            want(room_map.within(box), walked(room.elements, box))


@needed
def a_country_is_fast() -> None:
    """73,000 elements are taken within 3 s, and a village of them is found within 0.1 s."""
    chance = random.Random(3)
    rows = [node(f"n{number}", chance.uniform(47.05, 47.27), chance.uniform(9.47, 9.63)) for number in range(1, 64_001)]
    rows += [way(f"w{number}", *range(number * 7 - 6, number * 7 + 2), highway="path") for number in range(1, 9_001)]
    room_map, started = RoomMap(Ledger(), lambda: NOW), time.monotonic()
    room_map.on_welcome(Welcome(by_name(rows), 0, 1))
    took = time.monotonic() - started
    started = time.monotonic()
    names = room_map.within(Bounds(*(round(degrees * 10**7) for degrees in (47.13, 9.51, 47.15, 9.53))))
    print(f"{len(rows)} elements took {took:.2f} s, {len(names)} of them {(time.monotonic() - started) * 1000:.0f} ms")
    want((took < 3 * given.slow, time.monotonic() - started < 0.1 * given.slow, len(names) > 300), (True, True, True))
