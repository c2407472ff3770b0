"""Packages that a command needs only for a part of its work."""
from __future__ import annotations

import importlib
import sys
from typing import Any


class MissingPackage(Exception):
    """A package is not there. The text says, in one line, which Debian package has it."""


def imported(module: str, package: str, what: str) -> Any:
    """A module of another project, which has no types here. Raises MissingPackage, which says that `what` needs it and
    that the Debian package `package` has it."""
    try:
        return importlib.import_module(module)
    except ModuleNotFoundError as fault:
        if not f"{module}.".startswith(f"{fault.name}."):
            raise
        raise MissingPackage(
            f"{what} needs Debian's {package}, which {sys.executable} has not: sudo apt install {package}, "
            "for /usr/bin/python3"
        ) from fault
