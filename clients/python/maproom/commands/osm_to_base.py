"""Makes the base of a room, for `maproom serve --base`, from a file of OpenStreetMap.

    %(prog)s village.osm >village.base
    %(prog)s --bbox 11.35,48.10,11.45,48.16 bayern.osm.pbf >village.base
    maproom serve --base --addr 127.0.0.1:9001 --workers 8 village <village.base

JOSM, Overpass or the API writes such a file in XML, which can be compressed (`.osm.gz`, `.osm.bz2`). pyosmium (Debian:
python3-pyosmium) reads `.osm.pbf`, and `.osc` or `.osc.gz`, of which the base has the elements that the changes leave.

--bbox or --polygon takes the part that `osmium extract -s complete_ways` takes: each node inside, each way with a node
inside and all its nodes, and each relation with a member among these. The file has to be sorted, and is read twice.
Memory grows with the part, not with the file. A polygon (Debian: python3-shapely) is GeoJSON or the format .poly.

The program leaves out or cuts what a room cannot hold, and reports it on standard error:

- an element that is deleted or has no id; of several elements with the same id, all but the first
- a node without coordinates, or with coordinates out of range
- a way with fewer than 2 nodes, with more than 2,000 nodes, or with a node that is missing
- a relation with more than 32,000 members
- a member of a relation that is missing, or whose role has more than 255 characters
- a tag with an empty key, with a key or a value of more than 255 characters, or after the first 1,000 of its element

The program rounds coordinates to 7 decimals, as OpenStreetMap does. The last line on standard error counts all that.
Keep the file: map_to_osm needs it, and writes back what was left out or cut. The program ignores what Overpass adds to
elements: `center`, `bounds`, and the coordinates in a way.
"""
from __future__ import annotations

import argparse
import collections
import sys
from typing import IO, DefaultDict, Set

from ..extract import BadFile, Base
from ..missing import MissingPackage
from ..sources import source_of
from .areas import BadPolygon, add_area, area_of


def write(base: Base, output: IO[bytes]) -> None:
    """Writes a base as the reply to a `map`."""
    output.write(b'{"id":1,"ok":{"map":[')
    for place, text in enumerate(base.texts()):
        output.write(b"," + text if place else text)
    output.write(b'],"seq":0}}\n')
    output.flush()


def note(line: str) -> None:
    """Reports something on standard error."""
    print(f"osm_to_base: {line}", file=sys.stderr)


def arguments() -> argparse.Namespace:
    """Reads the command line."""
    parser = argparse.ArgumentParser(description=__doc__, formatter_class=argparse.RawDescriptionHelpFormatter)
    parser.add_argument(
        "--strict",
        action="store_true",
        help="write nothing, and end with status 1, if something would be left out or cut",
    )
    add_area(parser)
    parser.add_argument("file", metavar="FILE", help="the file; - is standard input, in XML")
    return parser.parse_args()


def main() -> int:
    """Does what the command line says. Returns the status."""
    options = arguments()
    reported: DefaultDict[str, Set[str]] = collections.defaultdict(set)

    def report(name: str, how: str, what: str) -> None:
        reported[how].add(name)
        note(f"{name} {how}: {what}")

    try:
        base = Base(source_of(options.file, area_of(options)), report)
    except BadFile as fault:
        note(f"{options.file} {fault}")
        return 1
    except (BadPolygon, MissingPackage) as fault:
        note(str(fault))
        return 1
    except OSError as fault:
        note(f"{fault.filename or options.file}: {fault.strerror}")
        return 1
    counts = [f"{len(rows)} {kind}" for kind, rows in zip(("nodes", "ways", "relations"), base.rows.values())]
    counts += [f"{len(reported[how])} {how}" for how in ("left out", "cut", "rounded")]
    note(", ".join(counts))
    if options.strict and (reported["left out"] or reported["cut"]):
        note("nothing was written, since --strict was given")
        return 1
    write(base, sys.stdout.buffer)
    return 0
