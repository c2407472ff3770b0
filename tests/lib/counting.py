"""Counts the processor instructions of runs of the built program."""
from __future__ import annotations

import os
import re
import shutil
import subprocess
from collections.abc import Callable, Sequence

# Counts the instructions of a command over a script, with a folder for its files. None means that it cannot.
Counter = Callable[[str, Sequence[str], str], "int | None"]


def by_perf(folder: str, command: Sequence[str], script: str) -> int | None:
    """The instructions of a run of a script, counted by perf. Returns None if perf cannot count them."""
    report = f"{folder}/report"
    with open(script, "rb") as lines, open(f"{folder}/replies", "wb") as replies:
        perf = ["perf", "stat", "-x", ";", "-e", "instructions:u", "-o", report, "--", *command]
        ran = subprocess.run(perf, stdin=lines, stdout=replies, stderr=subprocess.DEVNULL, check=False)
    if ran.returncode or not os.path.exists(report):
        return None
    with open(report, encoding="utf-8") as file:
        found = re.search(r"^(\d+);[^;]*;instructions:u", file.read(), re.M)
    return int(found[1]) if found else None


def by_callgrind(folder: str, command: Sequence[str], script: str) -> int | None:
    """The instructions of a run of a script, counted by callgrind. Returns None if it cannot count them."""
    with open(script, "rb") as lines, open(f"{folder}/replies", "wb") as replies:
        valgrind = ["valgrind", "--tool=callgrind", "--trace-children=yes", f"--callgrind-out-file={folder}/callgrind"]
        ran = subprocess.run([*valgrind, *command], stdin=lines, stdout=replies, stderr=subprocess.PIPE, check=False)
    found = re.findall(rb"^==\d+== Collected : (\d+)", ran.stderr, re.M)
    return int(found[-1]) if found and not ran.returncode else None


# The tools that count, the first choice first.
COUNTERS: dict[str, Counter] = {"perf": by_perf, "valgrind": by_callgrind}


def first_counter(folder: str, command: Sequence[str], script: str) -> str | None:
    """The name of the first tool that can count the instructions of a run of a script, or None."""
    names = [name for name in COUNTERS if shutil.which(name)]
    return next((name for name in names if COUNTERS[name](folder, command, script)), None)
