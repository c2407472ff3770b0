"""A part of an extract: what lies in a bounding box or a polygon, with complete ways.

The part has what `osmium extract -s complete_ways` takes: each node inside, each way with a node inside, all nodes of
these ways, each relation with a member among these elements, and the relations that have these as members.
"""
from __future__ import annotations

import json
import re
from array import array
from dataclasses import dataclass, field
from decimal import Decimal
from typing import Any, Dict, Iterable, List, Protocol, Sequence, Set, Tuple

from .extract import BadFile
from .missing import imported
from .xml_elements import DECIMALS, MOST_LATITUDE, MOST_LONGITUDE

# How many units of a coordinate are a degree.
UNITS = 10**DECIMALS

# A number of degrees as a box or a polygon file spells it.
DEGREES = re.compile(r"[+-]?[0-9]{1,3}(?:\.[0-9]+)?(?:[eE][+-]?[0-9]{1,3})?")


class Area(Protocol):
    """A part of the earth."""

    def contains(self, x: int, y: int) -> bool:
        """Whether a place is in the area or on its border: its longitude and latitude, in units of 10^-7 degrees."""


@dataclass(frozen=True)
class Box:
    """A bounding box, in units of 10^-7 degrees. Its border belongs to it."""

    west: int
    south: int
    east: int
    north: int

    def contains(self, x: int, y: int) -> bool:
        """Whether a place is in the box."""
        return self.west <= x <= self.east and self.south <= y <= self.north


class Polygon:
    """A polygon, perhaps of several parts and with holes, by the library shapely."""

    def __init__(self, shape: Any) -> None:
        """`shape` is a Polygon or a MultiPolygon of shapely, in degrees. Raises ValueError if it has no inside."""
        prepared, geometry = shapely("prepared"), shapely("geometry")
        why = shapely("validation").explain_validity(shape)
        if why != "Valid Geometry":
            raise ValueError(f"its border crosses itself ({why})")
        if shape.is_empty or shape.geom_type not in ("Polygon", "MultiPolygon"):
            raise ValueError("it has no area")
        self._covers, self._point = prepared.prep(shape).covers, geometry.Point
        west, south, east, north = (Decimal(bound) * UNITS for bound in shape.bounds)
        self._box = Box(int(west) - 1, int(south) - 1, int(east) + 1, int(north) + 1)

    def contains(self, x: int, y: int) -> bool:
        """Whether a place is in the polygon."""
        return self._box.contains(x, y) and bool(self._covers(self._point(x / UNITS, y / UNITS)))


def box_of(text: str) -> Box:
    """The box of an argument WEST,SOUTH,EAST,NORTH in degrees. Raises ValueError."""
    parts = text.split(",")
    if len(parts) != 4 or not all(map(DEGREES.fullmatch, parts)):
        raise ValueError("a box is WEST,SOUTH,EAST,NORTH in degrees")
    west, south, east, north = (int((Decimal(part) * UNITS).to_integral_value()) for part in parts)
    is_in_world = max(abs(west), abs(east)) <= MOST_LONGITUDE * UNITS and max(abs(south), abs(north)) <= (
        MOST_LATITUDE * UNITS
    )
    if not is_in_world or west > east or south > north:
        raise ValueError("a box goes from west to east, and from south to north")
    return Box(west, south, east, north)


def polygon_in(path: str) -> Polygon:
    """The polygon of a file: GeoJSON, or the format .poly of Osmosis. Raises BadFile, OSError, or MissingPackage."""
    with open(path, encoding="utf-8") as file:
        try:
            text = file.read()
            return Polygon(geojson_shape(json.loads(text)) if text.lstrip().startswith("{") else poly_shape(text))
        except (AttributeError, IndexError, KeyError, TypeError) as fault:
            raise BadFile("is no polygon: it is neither GeoJSON nor a .poly file") from fault
        except (ValueError, shapely("errors").ShapelyError) as fault:
            raise BadFile(f"is no polygon: {fault}".splitlines()[0]) from fault


def shapely(module: str) -> Any:
    """A module of shapely. Raises MissingPackage."""
    return imported(f"shapely.{module}", "python3-shapely", "a polygon")


def geojson_shape(value: Dict[str, Any]) -> Any:
    """The shape of GeoJSON: a geometry, a feature, or all features of a collection."""
    if value["type"] == "FeatureCollection":
        return united([geojson_shape(feature) for feature in value["features"]])
    geometry = value["geometry"] if value["type"] == "Feature" else value
    return shapely("geometry").shape(geometry)


def poly_shape(text: str) -> Any:
    """The shape of a .poly file: a name, and then rings, each with a name (`!` begins that of a hole) and an END."""
    make = shapely("geometry").Polygon
    lines = [line.strip() for line in text.splitlines() if line.strip()]
    parts: List[Any] = []
    holes: List[Any] = []
    place = 1
    while lines[place] != "END":
        try:
            end = lines.index("END", place)
        except ValueError:
            raise ValueError("a ring has no END") from None
        ring = make([tuple(map(float, line.split())) for line in lines[place + 1 : end]])
        (holes if lines[place].startswith("!") else parts).append(ring)
        place = end + 1
    return united(parts).difference(united(holes)) if holes else united(parts)


def united(shapes: Sequence[Any]) -> Any:
    """The union of shapes."""
    return shapely("ops").unary_union(list(shapes))


@dataclass
class Selection:
    """The ids of the elements of a part, by the letter of their kind.

    First call `take_node`, `take_way` and `take_relation` with each element of the extract, in this order of kinds, and
    then `end`. Memory grows with the part, and with the relations in relations of the extract. The rest is not kept."""

    area: Area
    ids: Dict[str, Set[int]] = field(default_factory=lambda: {letter: set() for letter in "nwr"})
    _of_ways: Set[int] = field(default_factory=set)
    _inner: "array[int]" = field(default_factory=lambda: array("q"))
    _outer: "array[int]" = field(default_factory=lambda: array("q"))
    _kind: str = "n"

    def _goes_on(self, kind: str) -> None:
        """Raises BadFile if the kinds are out of order."""
        if kind != self._kind:
            if "nwr".index(kind) < "nwr".index(self._kind):
                raise BadFile("is not sorted: `osmium sort` puts nodes before ways, and ways before relations")
            self._kind = kind

    def take_node(self, number: int, x: int, y: int) -> None:
        """Takes a node at a longitude and a latitude, in units of 10^-7 degrees."""
        self._goes_on("n")
        if self.area.contains(x, y):
            self.ids["n"].add(number)

    def take_way(self, number: int, nodes: Iterable[int]) -> None:
        """Takes a way of nodes."""
        self._goes_on("w")
        nodes = list(nodes)
        if not self.ids["n"].isdisjoint(nodes):
            self.ids["w"].add(number)
            self._of_ways.update(nodes)

    def take_relation(self, number: int, members: Iterable[Tuple[str, int]]) -> None:
        """Takes a relation of members, each with the letter of its kind."""
        self._goes_on("r")
        for kind, ref in members:
            if kind == "r":
                self._inner.append(ref)
                self._outer.append(number)
            elif ref in self.ids[kind]:
                self.ids["r"].add(number)

    def end(self) -> None:
        """Adds the nodes of the ways, and the relations that have a relation of the part as a member."""
        self.ids["n"] |= self._of_ways
        parents: Dict[int, List[int]] = {}
        for inner, outer in zip(self._inner, self._outer):
            parents.setdefault(inner, []).append(outer)
        waiting = list(self.ids["r"])
        while waiting:
            for outer in parents.get(waiting.pop(), ()):
                if outer not in self.ids["r"]:
                    self.ids["r"].add(outer)
                    waiting.append(outer)
