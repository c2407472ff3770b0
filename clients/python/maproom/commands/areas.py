"""The options of the converters that choose a part of an extract."""
from __future__ import annotations

import argparse
from typing import Optional

from ..areas import Area, Box, box_of, polygon_in
from ..extract import BadFile


class BadPolygon(Exception):
    """The file of a polygon cannot be read. The text names it."""


def box_argument(text: str) -> Box:
    """The box of an argument."""
    try:
        return box_of(text)
    except ValueError as fault:
        raise argparse.ArgumentTypeError(str(fault)) from fault


def add_area(parser: argparse.ArgumentParser) -> None:
    """Adds the options."""
    area = parser.add_mutually_exclusive_group()
    area.add_argument(
        "--bbox",
        type=box_argument,
        metavar="W,S,E,N",
        help="take what lies in a bounding box, in degrees; --bbox=W,S,E,N if it begins with a minus",
    )
    area.add_argument("--polygon", metavar="FILE", help="take what lies in the polygon of a file")


def has_area(options: argparse.Namespace) -> bool:
    """Whether the options choose a part."""
    return bool(options.bbox or options.polygon)


def area_of(options: argparse.Namespace) -> Optional[Area]:
    """The area that the options choose. Raises BadPolygon or MissingPackage."""
    if not options.polygon:
        box: Optional[Box] = options.bbox
        return box
    try:
        return polygon_in(options.polygon)
    except BadFile as fault:
        raise BadPolygon(f"{options.polygon} {fault}") from fault
    except UnicodeDecodeError as fault:
        raise BadPolygon(f"{options.polygon} is no polygon: {fault.reason}") from fault
