"""The messages of a room, without their ids, as plain functions: one for each action and each query of
docs/PROTOCOL.md.

    tree, bench = room.new_name("n"), room.new_name("n")
    await room.group([actions.create_node(tree, 51.5, -0.1), actions.create_node(bench, 51.5, -0.2)])

A coordinate is a number or a text of degrees, with up to seven decimals. So is the distance of a move. A node of a way
is an id or a name.
"""
from __future__ import annotations

from decimal import ROUND_HALF_EVEN, Decimal
from typing import Any, Dict, Iterable, List, Mapping, Optional, Tuple, Union

Degrees = Union[int, float, str, Decimal]
Tags = Mapping[str, str]
Members = Iterable[Tuple[str, str]]
Nodes = Iterable[Union[int, str]]

# A distance is sent in these units: ten-millionths of a degree.
UNIT = Decimal("1e-7")


def degrees(value: Degrees) -> str:
    """A coordinate as the room reads it. Raises ValueError if it is no finite number."""
    if isinstance(value, str):
        return value
    number = Decimal(repr(value)) if isinstance(value, float) else Decimal(value)
    if not number.is_finite():
        raise ValueError(f"{value} is no coordinate")
    return f"{number.quantize(UNIT, ROUND_HALF_EVEN):f}"


def distance(value: Degrees) -> int:
    """A distance in ten-millionths of a degree, of a number or a text of degrees. Raises ValueError for others."""
    try:
        return int(Decimal(degrees(value)).quantize(UNIT, ROUND_HALF_EVEN).scaleb(7))
    except ArithmeticError as fault:
        raise ValueError(f"{value} is no distance") from fault


def create_node(el: str, lat: Degrees, lon: Degrees, tags: Optional[Tags] = None) -> Dict[str, Any]:
    """Creates a node."""
    return {"do": "create", "el": el, "lat": degrees(lat), "lon": degrees(lon), "tags": dict(tags or {})}


def create_way(el: str, nodes: Nodes, tags: Optional[Tags] = None) -> Dict[str, Any]:
    """Creates a way."""
    return {"do": "create", "el": el, "nodes": node_ids(nodes), "tags": dict(tags or {})}


def create_relation(el: str, members: Members, tags: Optional[Tags] = None) -> Dict[str, Any]:
    """Creates a relation."""
    return {"do": "create", "el": el, "members": [list(member) for member in members], "tags": dict(tags or {})}


def retag(el: str, tags: Mapping[str, Optional[str]]) -> Dict[str, Any]:
    """Gives each key its value, and removes those whose value is None. The other keys stay."""
    return {"do": "retag", "el": el, "tags": dict(tags)}


def move(els: Union[str, Iterable[str]], dlat: Degrees, dlon: Degrees) -> Dict[str, Any]:
    """Moves nodes, and the nodes of ways, by `dlat` degrees to the north and `dlon` to the east."""
    names = [els] if isinstance(els, str) else list(els)
    return {"do": "move", "els": names, "dlat": distance(dlat), "dlon": distance(dlon)}


def reverse(el: str) -> Dict[str, Any]:
    """Turns a way round."""
    return {"do": "reverse", "el": el}


def set_nodes(el: str, nodes: Nodes) -> Dict[str, Any]:
    """Gives a way this list of nodes."""
    return {"do": "nodes", "el": el, "nodes": node_ids(nodes)}


def set_members(el: str, members: Members) -> Dict[str, Any]:
    """Gives a relation these members."""
    return {"do": "members", "el": el, "members": [list(member) for member in members]}


def delete(el: str) -> Dict[str, Any]:
    """Deletes an element to which no other refers."""
    return {"do": "delete", "el": el}


def purge(el: str) -> Dict[str, Any]:
    """Deletes an element with every reference to it."""
    return {"do": "purge", "el": el}


def split(el: str, at: int, into: str) -> Dict[str, Any]:
    """Splits a way at a position. The new way has the nodes from there on."""
    return {"do": "split", "el": el, "at": at, "into": into}


def join(el: str, other: str) -> Dict[str, Any]:
    """Joins a way with another, which begins where it ends and then goes."""
    return {"do": "join", "el": el, "with": other}


def merge(el: str, other: str) -> Dict[str, Any]:
    """Merges a node with another, which then goes."""
    return {"do": "merge", "el": el, "with": other}


def unglue(el: str, at: int, into: str) -> Dict[str, Any]:
    """Gives a way a new node of its own at a position."""
    return {"do": "unglue", "el": el, "at": at, "into": into}


def group(steps: Iterable[Mapping[str, Any]]) -> Dict[str, Any]:
    """Does several actions as one entry, or none of them. They are values of the functions above."""
    return {"do": "group", "actions": [dict(step) for step in steps]}


def undo(seq: Optional[int] = None) -> Dict[str, Any]:
    """Undoes the author's entry of this number, or the last one that is active."""
    return {"do": "undo"} if seq is None else {"do": "undo", "seq": seq}


def redo() -> Dict[str, Any]:
    """Does the entry again that the author undid last."""
    return {"do": "redo"}


def get(el: str) -> Dict[str, Any]:
    """Asks for an element."""
    return {"do": "get", "el": el}


def map_of_room() -> Dict[str, Any]:
    """Asks for the whole map."""
    return {"do": "map"}


def undos() -> Dict[str, Any]:
    """Asks which entries the author can undo and redo."""
    return {"do": "undos"}


def node_ids(nodes: Nodes) -> List[int]:
    """The ids of nodes, which may be given by their names."""
    return [int(node[1:]) if isinstance(node, str) else node for node in nodes]
