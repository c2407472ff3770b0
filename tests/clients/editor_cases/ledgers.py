"""The ledger: versions over welcomes, news and restarts, and files that are cut at each byte."""
from __future__ import annotations

import resource

from lib.cases import want
from editor_cases.shared import HAS_ALL, NOW, NOW_VERSION, by_name, folder, needed, node, opened
from pathlib import Path
from typing import Any

if HAS_ALL:
    from maproom.osm_api import ledger as ledgers
    from maproom.osm_api.ledger import Known, Ledger, LedgerInUse, PendingUpload


def versions(ledger: Ledger) -> Any:
    """The versions that a ledger knows."""
    return {name: known.version for name, known in ledger.known.items()}


@needed
def versions_rise_with_news() -> None:
    """The version is the time of a change, and rises by at least 1; what is created has 1; what is deleted keeps
    its own."""
    ledger = Ledger()
    ledger.welcome(by_name([node("n1"), node("n2")]), NOW)
    want(versions(ledger), {"n1": NOW_VERSION, "n2": NOW_VERSION})
    ledger.news({"n1": node("n1", 2)}, 1, "bob", NOW)
    ledger.news({"n1": node("n1", 3)}, 2, "bob", NOW - 1_000_000)
    ledger.news({"n2": None, "n-1": node("n-1")}, 3, "lina", NOW + 10, frozenset(["n-1"]))
    want(versions(ledger), {"n1": NOW_VERSION + 2, "n2": NOW_VERSION + 10, "n-1": 1})
    want(ledger.known["n2"], Known(NOW_VERSION + 10, NOW + 10, 3, "lina", "gone"))
    ledger.news({"n-1": node("n-1", 5), "n2": node("n2")}, 4, "bob", NOW + 10, frozenset(["n-1"]))
    want(versions(ledger), {"n1": NOW_VERSION + 2, "n2": NOW_VERSION + 11, "n-1": NOW_VERSION + 10})
    want(ledger.least_number, -1)


@needed
def versions_stay_over_restarts() -> None:
    """A bridge that starts again gives the same versions to what is the same, and higher ones to what differs, also
    where the room was served anew from its saved map."""
    with folder() as place:
        rows = by_name([node("n1"), node("n2"), node("n3")])
        with opened(place / "l") as ledger:
            ledger.welcome(rows, NOW)
            ledger.news({"n1": node("n1", 9), "n-1": node("n-1")}, 1, "bob", NOW + 5, frozenset(["n-1"]))
            known = dict(ledger.known)
        with opened(place / "l") as ledger:
            want(ledger.known, known)
            ledger.welcome(rows | by_name([node("n1", 9), node("n-1")]), NOW + 50)
            want(ledger.known, known)
            ledger.welcome(by_name([node("n1", 9), node("n2", 7), node("n-1"), node("n4")]), NOW - 50)
            want(
                versions(ledger),
                {"n1": NOW_VERSION + 5, "n-1": 1, "n2": NOW_VERSION + 1, "n3": NOW_VERSION + 1, "n4": NOW_VERSION - 50},
            )
            want(ledger.known["n3"].digest, "gone")
        with opened(place / "l") as ledger:  # what is gone comes back as it was: a new version all the same
            ledger.welcome(rows, NOW)
            want(ledger.known["n3"].version, NOW_VERSION + 2)


def a_ledgers_life(path: Path) -> list[Any]:
    """Writes a ledger of some elements and uploads, and gives what it knew after each line of its file."""
    states: list[Any] = [({}, {})]

    def note(ledger: Ledger) -> None:
        states.append((dict(ledger.known), dict(ledger.pending)))

    with opened(path) as ledger:
        for name in ("n1", "w2", "r-3"):
            ledger.news({name: node(name)}, 0, "", NOW)
            note(ledger)
        for seq in range(1, 6):
            ledger.news({f"n{seq % 3}": node("n", seq) if seq % 2 else None}, seq, "zoe_1", NOW + seq)
            note(ledger)
        ledger.begin(PendingUpload("ab12", "lina", 5, 77, (("node", -1, "n-9", "00ff"), ("way", 3, None, "gone"))))
        note(ledger)
        ledger.begin(PendingUpload("cd34", "bob", 6, 78, ()))
        note(ledger)
        ledger.settle("ab12")
        note(ledger)
        ledger.news(
            {
                "n1": node("n1", 8),
            },
            6,
            "bob",
            NOW,
        )
        note(ledger)
    return states


@needed
def a_ledger_is_cut_at_each_byte() -> None:
    """A ledger whose program was killed at any byte has all whole lines, and goes on from there."""
    with folder() as place:
        states = a_ledgers_life(place / "whole")
        data = (place / "whole").read_bytes()
        want(data.count(b"\n"), len(states) - 1)
        last = by_name([node("n0"), node("n1", 8), node("w2"), node("n7")])
        for end in range(len(data) + 1):
            (place / "cut").write_bytes(data[:end])
            known, pending = states[data[:end].count(b"\n")]
            with opened(place / "cut") as ledger:
                want((end, ledger.known, ledger.pending), (end, known, pending))
                ledger.welcome(last, NOW + 1)
                for name, before in known.items():
                    is_same = before.digest == ledger.known[name].digest
                    want((end, name, ledger.known[name].version > before.version), (end, name, not is_same))
                after = dict(ledger.known)
            with opened(place / "cut") as ledger:
                want((end, ledger.known), (end, after))


@needed
def a_ledger_is_written_anew() -> None:
    """A ledger of many outdated lines is written anew with what it knows, and a kill while that is done leaves the old
    one, at whichever byte."""
    with folder() as place:
        path = place / "l"
        with opened(path) as ledger:
            ledger.welcome(by_name([node("n1"), node("n2")]), NOW)
            ledger.begin(PendingUpload("ab12", "lina", 5, 77, (("node", -1, "n-9", "00ff"),)))
            for number in range(ledgers.SPARE_LINES + 20):
                ledger.news({"n1": node("n1", number % 80)}, number, "bob", NOW)
            want(path.stat().st_size < 2_000, True)
            want(ledger.known["n1"].version, NOW_VERSION + ledgers.SPARE_LINES + 20)
            known, pending = dict(ledger.known), dict(ledger.pending)
        data = path.read_bytes()
        for end in range(0, len(data), 7):
            (place / "l.new").write_bytes(data[:end])
            with opened(path) as ledger:
                want((ledger.known, ledger.pending), (known, pending))
                if end % 5 == 0:
                    ledger.compact()
        with opened(path) as ledger:
            want((ledger.known, ledger.pending), (known, pending))


@needed
def damaged_lines_are_passed_over() -> None:
    """A line that does not fit its checksum is as if it were not there; the others are read."""
    with folder() as place:
        a_ledgers_life(place / "l")
        lines = (place / "l").read_bytes().splitlines(keepends=True)
        lines[1] = lines[1].replace(b"w2", b"w3")
        lines[2] = b"\0" * 20 + b"\n"
        (place / "l").write_bytes(b"".join(lines))
        with opened(place / "l") as ledger:
            want(set(ledger.known), {"n1", "n0", "n2"})


@needed
def a_ledger_without_room() -> None:
    """What cannot be written, for example since the disk is full, is written later; nothing is half written."""
    with folder() as place, opened(place / "l") as ledger:
        ledger.news({"n1": node("n1")}, 1, "bob", NOW)
        size = (place / "l").stat().st_size
        soft, hard = resource.getrlimit(resource.RLIMIT_FSIZE)
        resource.setrlimit(resource.RLIMIT_FSIZE, (size + 10, hard))
        try:
            ledger.news({"n2": node("n2")}, 2, "bob", NOW)
            want((place / "l").stat().st_size, size)
        finally:
            resource.setrlimit(resource.RLIMIT_FSIZE, (soft, hard))
        ledger.news({"n3": node("n3")}, 3, "bob", NOW)
        known = dict(ledger.known)
        ledger.close()
        with opened(place / "l") as again:
            want(again.known, known)


@needed
def a_ledger_has_one_program() -> None:
    """A ledger that is open cannot be opened again, also after it was written anew."""
    with folder() as place, opened(place / "l") as ledger:
        ledger.welcome(by_name([node("n1")]), NOW)
        for _ in range(2):
            try:
                Ledger(place / "l")
                raise AssertionError("it was opened twice")
            except LedgerInUse:
                ledger.compact()
