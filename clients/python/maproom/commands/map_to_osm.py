"""Writes the map of a room as a file of OpenStreetMap: XML that JOSM opens, or what other tools take.

    %(prog)s --extract village.osm village.map >edited.osm
    %(prog)s --extract village.osm.pbf --output edited.osm.pbf village.map
    %(prog)s --extract village.osm.pbf --output edited.osc.gz village.map

The map is a line of text: what the keeper prints with --restore, or the reply to a `map`. The extract is the file from
which osm_to_base made the base of the room, with the same --bbox or --polygon. With the extract, JOSM can upload the
file:

- An element that mappers did not change is written unchanged, with its `version`, `changeset` and `user`.
- An element that mappers changed is marked `action="modify"`, and a deleted element `action="delete"`.
- A new element gets a negative id, also in the elements that refer to it.

The extract has to be the same file. With a newer file, JOSM would take back what others did in OpenStreetMap since.
What the room could not hold is not lost:

- An element that was left out is written unchanged.
- If an element was cut and then changed, the tags and the members that the room did not see are put back. Each member
  goes in front of the member that it preceded.
- A deleted element stays, and is reported, if something refers to it that the room did not see. Mappers could not know
  of that.

If more than half of the extract is gone from the map, the program writes nothing, because the map may be another
room's. --many-gone writes it.

Without the extract, the program knows no versions. Then ids stay, and elements with positive ids get the version 1,
which JOSM needs. A file with such elements is marked `upload="never"`.

The tools of OpenStreetMap do not know `action`, and osm2pgsql refuses negative ids. So --output with a name such as
`.osm.pbf` or `.osc`, and --plain for XML, write a plain file by pyosmium (Debian: python3-pyosmium). It is sorted,
deleted elements are not in it, changed ones have the next version, and n-7 is node 1000000000007. A file of changes
(`.osc`) has only what was created, changed and deleted since the extract. Tags with more than 255 characters are cut,
and reported.
"""
from __future__ import annotations

import argparse
import sys
from typing import Dict, Mapping, Optional, TextIO, Tuple

from ..areas import Area
from ..edited import Edited, JosmSink, Sink, read_map, write_alone
from ..extract import BadFile, Rows
from ..missing import MissingPackage
from ..plain import ToolSink, is_for_tools, written
from ..sources import Compression, kind_of_file, source_of
from .areas import BadPolygon, add_area, area_of, has_area


def opened(path: str) -> TextIO:
    """A map to be read as text; `-` is standard input."""
    return open(sys.stdin.fileno() if path == "-" else path, encoding="utf-8", newline="")


def report(what: str) -> None:
    """Reports something on standard error."""
    print(f"map_to_osm: {what}", file=sys.stderr)


def write(
    options: argparse.Namespace, rows: Mapping[str, Rows], area: Optional[Area], sink: Sink
) -> Tuple[Dict[str, int], int]:
    """Writes a map, with the parts of its extract if there is one. Returns the counts that the program prints, and the
    number of characters that XML cannot hold."""
    if not options.extract:
        return write_alone(rows, sink)
    source = source_of(options.extract, area)
    return Edited(rows, source, report, options.many_gone).write(source, sink)


def write_to_output(
    options: argparse.Namespace, rows: Mapping[str, Rows], area: Optional[Area]
) -> Tuple[Dict[str, int], int]:
    """The same, to where the options say."""
    path = options.output
    if path is None:
        return write(options, rows, area, JosmSink(sys.stdout.buffer))
    with written(path) as new:
        if is_for_tools(path, options.plain):
            return write(options, rows, area, ToolSink(new, report))
        with open(new, "wb") as file:
            return write(options, rows, area, JosmSink(file))


def arguments() -> argparse.Namespace:
    """Reads the command line."""
    parser = argparse.ArgumentParser(description=__doc__, formatter_class=argparse.RawDescriptionHelpFormatter)
    parser.add_argument("--extract", metavar="FILE", help="the file from which osm_to_base made the base of the room")
    add_area(parser)
    parser.add_argument(
        "--many-gone",
        action="store_true",
        help="write the file although more than half of the extract is gone from the map",
    )
    parser.add_argument(
        "--output", metavar="FILE", help="write to a file, such as edited.osm, edited.osm.pbf or edited.osc.gz"
    )
    parser.add_argument("--plain", action="store_true", help="with --output: write XML for other tools than JOSM")
    parser.add_argument("map", metavar="MAP", help="the file of the map; - is standard input")
    options = parser.parse_args()
    if options.plain and not options.output:
        parser.error("--plain goes with --output")
    if options.extract == "-":
        parser.error("--extract takes a file, because the extract is read twice")
    if has_area(options) and not options.extract:
        parser.error("--bbox and --polygon go with --extract")
    if options.output and not is_for_tools(options.output, options.plain):
        if kind_of_file(options.output).compression is not Compression.NONE:
            parser.error("a compressed file in XML goes with --plain")
    return options


def main() -> int:
    """Does what the command line says. Returns the status."""
    options = arguments()
    path = options.map
    try:
        with opened(path) as file:
            rows = read_map(file)
        path = options.extract
        counts, characters = write_to_output(options, rows, area_of(options))
    except BadFile as fault:
        report(f"{path} {fault}")
        return 1
    except (BadPolygon, MissingPackage) as fault:
        report(str(fault))
        return 1
    except OSError as fault:
        report(f"{fault.filename or path or options.output}: {fault.strerror}")
        return 1
    if characters:
        report(f"characters replaced, since XML has no form for them: {characters}")
    report(", ".join(f"{count} {what}" for what, count in counts.items()))
    return 0
