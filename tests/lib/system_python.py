"""Runs a script with Debian's own Python if only that one has the packages that the script imports."""
from __future__ import annotations

import importlib.util
import os
import sys

SYSTEM_PYTHON = "/usr/bin/python3"


def has_packages(*names: str) -> bool:
    """Whether these packages are there. If the Python of the script lacks one, the script begins again with that of
    the system, because another Python in front of it on the path may not have Debian's packages."""
    if all(map(importlib.util.find_spec, names)):
        return True
    if os.path.realpath(sys.executable) != os.path.realpath(SYSTEM_PYTHON) and os.path.exists(SYSTEM_PYTHON):
        os.execv(SYSTEM_PYTHON, [SYSTEM_PYTHON, *sys.argv])
    return False
