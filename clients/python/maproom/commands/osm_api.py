"""The editors' API as a command. Its module osm_api/program.py needs Python 3.11, and packages that may be missing."""
from __future__ import annotations

import sys


def note(line: str) -> None:
    """Reports something on standard error."""
    print(f"osm_api: {line}", file=sys.stderr, flush=True)


def main() -> int:
    """Runs the program. Returns its status, also if it cannot run."""
    if sys.version_info >= (3, 11):
        try:
            from ..osm_api import program
        except ModuleNotFoundError as missing:
            where = f"Debian: python3-{missing.name}, for /usr/bin/python3"
            note(f"{sys.executable} has no package {missing.name} ({where})")
            return 1
        return program.main()
    note(f"it needs Python 3.11, and {sys.executable} is older")
    return 1
