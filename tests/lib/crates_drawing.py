"""Draws the crates, docs/crates.svg, from the text of crates.txt: a band for each layer, the first at the bottom.

An arrow leads from a crate to each library of the repository that it uses, except to those that it also reaches by
other arrows. The same text always gives the same drawing.
"""
from __future__ import annotations

import re
import textwrap
from typing import NamedTuple

# Sizes in pixels: a box, what lies between two columns, lanes and bands, the titles on the left, and the border.
WIDTH, HEIGHT, GUTTER, LANE, GAP, TITLES, BORDER = 128, 32, 44, 14, 32, 150, 14
# How far apart arrows lie that share a gutter, a gap or a side of a box, and the space above and below a band's boxes.
TRACK, PADDING = 10, 11
# The tint of each band, and the colour of its title and its boxes.
COLOURS = [
    ("#e3eefa", "#155fa8"),
    ("#e5f3ea", "#0b6b3a"),
    ("#fdf1d3", "#855400"),
    ("#f2e7fa", "#6d2aa3"),
    ("#fde9e6", "#b3261e"),
    ("#dff2f4", "#00626f"),
    ("#e9edf0", "#4a5a66"),
]
TITLE = "The crates in layers, from the data at the bottom to the programs at the top. Arrows lead to libraries."

Arrows = dict[str, list[str]]
Arrow = tuple[str, str]


class Layer(NamedTuple):
    """A layer: its title, and its crates with the libraries that each uses."""

    title: str
    crates: Arrows


class Place(NamedTuple):
    """Where a crate's box is: its band and its lane, counted from below, and its column, from the left."""

    band: int
    column: int
    lane: int


class Point(NamedTuple):
    """A point of the drawing."""

    x: float
    y: float


def layers_of(text: str) -> list[Layer]:
    """The layers: a comment right in front of a crate begins one, and its first words are the title."""
    layers: list[Layer] = []
    comment = ""
    for line in text.splitlines():
        head, _, libraries = line.partition("#")[0].partition(":")
        if head.strip():
            if comment:
                layers.append(Layer(re.split("[:.,]", comment)[0], {}))
            comment = ""
            layers[-1].crates[head.split()[0]] = libraries.split()
        else:
            comment = line.lstrip("# ")
    return layers


def arrows_of(layers: list[Layer]) -> Arrows:
    """For each crate its libraries of ours that it does not reach by another one."""
    all_of = {name: libraries for layer in layers for name, libraries in layer.crates.items()}
    direct = {name: [each for each in libraries if each in all_of] for name, libraries in all_of.items()}
    below: dict[str, set[str]] = {}
    for name, libraries in direct.items():
        below[name] = set(libraries).union(*(below[each] for each in libraries))
    return {
        name: [each for each in libraries if not any(each in below[other] for other in libraries)]
        for name, libraries in direct.items()
    }


def ranks_of(crates: list[str], arrows: Arrows) -> dict[str, int]:
    """The order of a band's crates: each is after its libraries, and right in front of the first that uses it."""
    ranks: dict[str, int] = {}
    for name in crates:
        ranks[name] = max((ranks[each] + 1 for each in arrows[name] if each in ranks), default=0)
    for name in reversed(crates):
        ranks[name] = min((ranks[user] - 1 for user in crates if name in arrows[user]), default=ranks[name])
    alone = [name for name in crates if not any(name in arrows[each] or each in arrows[name] for each in crates)]
    end = max((ranks[name] + 1 for name in crates if name not in alone), default=0)
    return ranks | {name: end + at for at, name in enumerate(alone)}


def lanes_of(crates: list[str], ranks: dict[str, int], arrows: Arrows) -> dict[str, int]:
    """The lanes of a band's crates: chains in one lane, above them what other bands use, and below them the rest."""
    used = {each for name, libraries in arrows.items() if name not in crates for each in libraries}
    chained = {name for name in crates if any(each in crates for each in arrows[name])}
    columns: list[tuple[int, list[str]]] = []
    for rank in sorted(set(ranks.values())):
        names = [name for name in crates if ranks[name] == rank]
        names.sort(key=lambda it: 1 if it in chained else 2 if it in used else 0)
        columns.append((sum(it not in chained | used for it in names) if chained & set(names) else 0, names))
    main = max(first for first, _ in columns)
    return {name: main - first + at for first, names in columns for at, name in enumerate(names)}


def places_of(layers: list[Layer], arrows: Arrows) -> dict[str, Place]:
    """The places of all crates: each band has the direction and the first column that keep its arrows down short."""
    places: dict[str, Place] = {}
    columns = 1 + max(max(ranks_of(list(layer.crates), arrows).values()) for layer in layers)

    def length(way: dict[str, Place]) -> int:
        """How far to the side the arrows down go."""
        return sum(
            abs(place.column - places[each].column)
            for name, place in way.items()
            for each in arrows[name]
            if each in places
        )

    for band, layer in enumerate(layers):
        ranks = ranks_of(list(layer.crates), arrows)
        lanes = lanes_of(list(layer.crates), ranks, arrows)
        last = max(ranks.values())
        ways = [
            {name: Place(band, first + abs(turned - rank), lanes[name]) for name, rank in ranks.items()}
            for turned in (0, last)
            for first in range(columns - last)
        ]
        shortest = min(ways, key=length)
        places.update(shortest)
    return places


def spread(at: int, count: int) -> float:
    """How far this one of several lies from their middle."""
    return (at - (count - 1) / 2) * TRACK


class Drawing:
    """A drawing of layers."""

    def __init__(self, layers: list[Layer]) -> None:
        self.layers = layers
        arrows = arrows_of(layers)
        self.arrows = [(name, each) for name, libraries in arrows.items() for each in libraries]
        self.places = places_of(layers, arrows)
        self.columns = 1 + max(place.column for place in self.places.values())
        self.tops, self.end = [0] * len(layers), BORDER
        for band in reversed(range(len(layers))):
            self.tops[band] = self.end
            self.end += self.height(band) + GAP
        self.end += BORDER - GAP

    def height(self, band: int) -> int:
        """The height of a band."""
        lanes = 1 + max(place.lane for place in self.places.values() if place.band == band)
        return 2 * PADDING + lanes * HEIGHT + (lanes - 1) * LANE

    def corner(self, name: str) -> Point:
        """The upper left corner of a crate's box."""
        band, column, lane = self.places[name]
        bottom = self.tops[band] + self.height(band) - PADDING
        return Point(self.gutter(column) + GUTTER / 2, bottom - (lane + 1) * HEIGHT - lane * LANE)

    def middle(self, name: str) -> float:
        """The middle of a crate's box, from the left."""
        return self.corner(name).x + WIDTH / 2

    @staticmethod
    def gutter(at: int) -> int:
        """The middle of a gutter, which lies to the left of the column of the same number."""
        return BORDER + TITLES + at * (WIDTH + GUTTER)

    def bands_passed(self, name: str, library: str) -> range:
        """The bands that lie between those of two crates."""
        return range(self.places[library].band + 1, self.places[name].band)

    def is_straight(self, name: str, library: str) -> bool:
        """Whether an arrow to another band goes straight down."""
        return not self.bands_passed(name, library) and self.places[name].column == self.places[library].column

    def gutter_of(self, name: str, library: str) -> int:
        """The gutter by which an arrow goes down: the next one, if it crosses no more arrows there than elsewhere."""
        bands = self.bands_passed(name, library)
        ends = [(self.places[one], self.places[other]) for one, other in self.arrows]
        rows = [sorted((one.column, other.column)) for one, other in ends if one.band == other.band in bands]

        def cost(gutter: int) -> float:
            """How far aside the gutter is, and more for each arrow that it crosses."""
            crossed = sum(left < gutter <= right for left, right in rows)
            return GUTTER * crossed + sum(abs(self.gutter(gutter) - self.middle(it)) for it in (name, library))

        return min(range(self.columns + 1), key=cost)

    def paths(self) -> list[list[Point]]:
        """The paths of all arrows."""
        inside = [pair for pair in self.arrows if self.places[pair[0]].band == self.places[pair[1]].band]
        straight = [pair for pair in self.arrows if pair not in inside and self.is_straight(*pair)]
        around = [pair for pair in self.arrows if pair not in inside + straight]
        sides = [self.from_side_to_side(*pair) for pair in inside]
        return sides + [self.down(*pair) for pair in straight] + self.by_gutters(around)

    def from_side_to_side(self, name: str, library: str) -> list[Point]:
        """The path of an arrow in a band."""
        one, other = self.corner(name), self.corner(library)
        is_right = other.x > one.x
        start = Point(one.x + (WIDTH if is_right else 0), one.y + HEIGHT / 2)
        end = Point(other.x + (0 if is_right else WIDTH), other.y + HEIGHT / 2)
        middle = (start.x + end.x) / 2
        return [start, Point(middle, start.y), Point(middle, end.y), end]

    def down(self, name: str, library: str) -> list[Point]:
        """The path of an arrow that goes straight down."""
        start = Point(self.middle(name), self.corner(name).y + HEIGHT)
        return [start, Point(self.middle(library), self.corner(library).y)]

    def by_gutters(self, around: list[Arrow]) -> list[list[Point]]:
        """The paths of arrows that go down by gutters, side by side where they share something."""
        gutters = {pair: self.gutter_of(*pair) for pair in around}
        aside = {}
        for pair in around:
            same = sorted(
                (it for it in around if gutters[it] == gutters[pair]),
                key=lambda it: self.places[it[0]].column + self.places[it[1]].column,
            )
            aside[pair] = self.gutter(gutters[pair]) + spread(same.index(pair), len(same))
        ends = {pair: (self.port(pair, 0, around, aside), self.port(pair, 1, around, aside)) for pair in around}
        # An arrow to the left is the higher in its gap the further it begins on the left, and the same to the right.
        leaving = sorted(around, key=lambda it: ends[it][0] * (1 if aside[it] < ends[it][0] else -1))
        paths = []
        for pair in around:
            (one, other), (first, last) = pair, ends[pair]
            source, target = self.places[one].band, self.places[other].band
            same = [it for it in leaving if self.places[it[0]].band == source]
            high = self.tops[source] + self.height(source) + GAP / 2 + spread(same.index(pair), len(same))
            low = self.tops[target] - GAP / 2 if self.bands_passed(*pair) else high
            paths.append(
                [
                    Point(first, self.corner(one).y + HEIGHT),
                    Point(first, high),
                    Point(aside[pair], high),
                    Point(aside[pair], low),
                    Point(last, low),
                    Point(last, self.corner(other).y),
                ]
            )
        return paths

    def port(self, pair: Arrow, end: int, around: list[Arrow], aside: dict[Arrow, float]) -> float:
        """Where an arrow leaves its crate's box (end 0) or meets its library's (end 1): on the side of its gutter if an
        arrow goes straight down there."""
        middle = self.middle(pair[end])
        same = sorted((it for it in around if it[end] == pair[end]), key=lambda it: aside[it])
        at = spread(same.index(pair), len(same))
        if any(it[end] == pair[end] and self.is_straight(*it) for it in self.arrows if it not in around):
            at += (2 + len(same)) * TRACK / 2 * (1 if aside[pair] > middle else -1)
        return middle + at

    def text(self) -> str:
        """The text of the drawing."""
        width = self.gutter(self.columns) + BORDER
        size = f'viewBox="0 0 {width} {self.end}" width="{width}" height="{self.end}"'
        font = 'font-family="system-ui, DejaVu Sans, sans-serif" font-size="13"'
        return "\n".join(
            [
                f'<svg xmlns="http://www.w3.org/2000/svg" {size} {font} role="img" aria-labelledby="title">',
                f'  <title id="title">{TITLE}</title>',
                '  <marker id="head" viewBox="0 0 8 8" refX="7.5" refY="4" markerWidth="7" markerHeight="7" orient="auto">'
                '<path d="M0 0.5L8 4L0 7.5z" fill="#44525e"/></marker>',
                f'  <rect width="{width}" height="{self.end}" rx="8" fill="#fff"/>',
                *(line for band in range(len(self.layers)) for line in self.band(band, width)),
                '  <g fill="none" stroke="#44525e" stroke-width="1.4" stroke-linejoin="round" marker-end="url(#head)">',
                *(f'    <path d="{path_of(points)}"/>' for points in self.paths()),
                "  </g>",
                *(line for name in self.places for line in self.box(name)),
                "</svg>\n",
            ]
        )

    def band(self, band: int, width: int) -> list[str]:
        """The lines of a band and its title."""
        tint, colour = COLOURS[band % len(COLOURS)]
        words = textwrap.wrap(self.layers[band].title, 20)
        top, height = self.tops[band], self.height(band)
        first = top + height / 2 + 4.5 - 8 * (len(words) - 1)
        return [
            f'  <rect x="{BORDER}" y="{top}" width="{width - 2 * BORDER}" height="{height}" rx="6" fill="{tint}"/>',
            *(
                f'  <text x="{BORDER + 12}" y="{first + 16 * at:g}" fill="{colour}" font-weight="bold">{line}</text>'
                for at, line in enumerate(words)
            ),
        ]

    def box(self, name: str) -> list[str]:
        """The lines of a crate's box."""
        corner, colour = self.corner(name), COLOURS[self.places[name].band % len(COLOURS)][1]
        return [
            f'  <rect x="{corner.x:g}" y="{corner.y:g}" width="{WIDTH}" height="{HEIGHT}" rx="5" fill="#fff" '
            f'stroke="{colour}" stroke-width="1.6"/>',
            f'  <text x="{corner.x + WIDTH / 2:g}" y="{corner.y + HEIGHT / 2 + 4.5:g}" text-anchor="middle" '
            f'fill="#1c2733">{name}</text>',
        ]


def path_of(points: list[Point]) -> str:
    """The text of a path, without the points in which it does not turn."""
    turns = points[:1]
    for point, after in zip(points[1:], [*points[2:], None]):
        if after is None or not (turns[-1].x == point.x == after.x or turns[-1].y == point.y == after.y):
            turns.append(point)
    return "M" + "L".join(f"{point.x:g} {point.y:g}" for point in turns)


def drawing_of(text: str) -> str:
    """The drawing of the crates that a text of crates.txt has."""
    return Drawing(layers_of(text)).text()
