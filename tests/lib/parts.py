"""Lists the parts of tests/run, each with its subject. The part `rt ci` proves the crates and runs their tests."""
import re
from collections.abc import Collection, Sequence
from typing import Optional

# The subjects: the folders of tests/ and options of `tests/run --only`, each with its heading in tests/README.md and
# bench/README.md.
SUBJECTS = {
    "documents": "Documents",
    "proofs": "Proofs",
    "program": "Program",
    "server": "Server",
    "clients": "Clients",
    "web": "Pages of the web",
    "packages": "Packages",
}

# The command that runs the gate.
GATE = ["rt", "ci"]

# The end of a part's output. `rt ci CRATE` adds in its last line that it is not the gate.
END = re.compile(r"(?:(\d+) skipped\n)?(\d+) passed, (\d+) failed(?: \(.*\))?")


def scripts(subject: str, *commands: str) -> list[tuple[str, list[str]]]:
    """The parts that run scripts of a subject, from its folder in tests/."""
    return [(subject, f"tests/{subject}/{command}".split()) for command in commands]


def benchmarks(subject: str, *commands: str) -> list[tuple[str, list[str]]]:
    """The parts that run scripts of bench/, which measure a subject."""
    return [(subject, f"bench/{command}".split()) for command in commands]


# The parts that need no built program and no prover.
TEXTS = [
    *scripts("documents", "pages", "promises"),
    *scripts("proofs", "wrong_bodies --check", "borders", "statement --check"),
    *scripts("documents", "lib_functions", "python"),
    *scripts("web", "types"),
]

# The parts that run the built programs, in the order of tests/run.
SCRIPTS = [
    *scripts("program", "examples", "order_of_checks", "streams", "halts", "line_by_line", "command_line"),
    *scripts("program", "replies", "large", "bases", "growths", "memory"),
    *scripts("documents", "protocol"),
    *scripts("program", "plans"),
    *scripts("server", "sessions"),
    *scripts("program", "mirrors", "calls"),
    *scripts("clients", "converters", "osm_files", "example_clients", "libraries"),
    *scripts("program", "groups"),
    *scripts("clients", "editors", "editors_rooms", "josm_live", "josm_window", "keeper", "replication"),
    *scripts("packages", "debian", "rooms", "names"),
    *scripts("documents", "running"),
    *scripts("web", "map_page", "firefox"),
    *scripts("server", "sockets", "faults", "foreign"),
    *benchmarks("program", "lines --sizes 50,100 --rounds 1", "held --elements 100 --entries 100"),
    *benchmarks("program", "group_costs --quick", "instructions", "undos --seeds 2 --rounds 30"),
    *benchmarks("server", "serve --quick", "many_rooms --elements 100 --rooms 1,3"),
    *benchmarks("server", "joins --elements 100 --clients 1,3", "collisions --keys 100"),
    *benchmarks("program", "turns --turns 1000"),
    *benchmarks("clients", "josm --changes 20 --elements 700 --rounds 1"),
    *benchmarks("web", "page_races --races 6"),
    *scripts("server", "soak --seconds 5 --pace 20", "evening --seconds 5 --rooms 2 --pace 3"),
    *scripts("server", "attacks --seconds 3"),
]

# All parts, in the order of tests/run.
PARTS = [*TEXTS, ("proofs", GATE), *SCRIPTS]


def subjects_of_scripts() -> dict[str, str]:
    """The subject of each script that tests/run runs."""
    return {command[0]: subject for subject, command in TEXTS + SCRIPTS}


def path_of(name: str) -> str:
    """The script that a name means: for example `sockets`, `server/sockets` and `tests/server/sockets` mean the same.
    If no part runs such a script, it is the name itself."""
    wanted = f"/{name}"
    return next((path for path in subjects_of_scripts() if f"/{path}".endswith(wanted)), name)


def chosen(subjects: Collection[str], paths: Collection[str]) -> list[tuple[str, list[str]]]:
    """The parts of these subjects, and those that run these scripts, each once."""
    return [(subject, command) for subject, command in PARTS if subject in subjects or command[0] in paths]


def proofs_of(crates: Collection[str]) -> list[tuple[str, list[str]]]:
    """The part that proves crates and those below them, and runs their tests."""
    return [("proofs", [*GATE, *crates])]


def counts_of(lines: Sequence[str]) -> Optional[tuple[int, int, int]]:
    """The numbers of skipped, passed and failed checks at the end of a part's output, or None if it ends otherwise.
    `lines` are its last two lines or more."""
    found = END.fullmatch("\n".join(lines[-2:])) or END.fullmatch("".join(lines[-1:]))
    return (int(found[1] or 0), int(found[2]), int(found[3])) if found else None
