"""Starts a server in which a system call or an allocation fails, by a library that is loaded before it."""
from __future__ import annotations

import errno
from collections.abc import Mapping
from typing import Any, Optional

from .cases import given, want
from .failed_allocations import REFUSED
from .preloaded import library
from .serving import LOG_LINE, Server
from .talk import PATIENCE

# What the libraries print to standard error (tests/preload/failing.c and refusing.c).
LINES = ("a call was failed\n", REFUSED.decode())

# More bytes than any read or write moves.
WHOLE = 1 << 30


class Faulty(Server):
    """A server in an environment in which a call fails. It may end before it listens."""

    def __init__(self, environment: Mapping[str, object], rooms: tuple[str, ...] = (), **how: Any) -> None:
        super().__init__(given.program, *rooms, **{"patience": PATIENCE * given.slow, "workers": 1, **how})
        self.environment = environment

    def command(self, addr: str) -> list[str]:
        """The command that serves at an address, in the environment."""
        return ["env", *(f"{name}={value}" for name, value in self.environment.items()), *super().command(addr)]

    def start(self) -> bool:
        """Starts the server, and waits until it listens or has ended because of the fault."""
        return super().start() or self.has_failed()

    def has_failed(self) -> bool:
        """Whether the library reported a failed call."""
        printed = self.content(self.errors)
        return any(line in printed for line in LINES)

    def end(self) -> tuple[int, str, dict[int, list[str]], list[str]]:
        """Waits for the program's end. Returns its status, its output, the lines of the log by the number of their
        session, and the other lines on standard error."""
        status = self.process.wait(self.patience)
        sessions: dict[int, list[str]] = {}
        others: list[str] = []
        for line in self.content(self.errors).splitlines(keepends=True):
            found = LOG_LINE.fullmatch(line.rstrip("\n"))
            if found:
                sessions.setdefault(int(found[1]), []).append(found[2])
            elif line not in LINES:
                others.append(line)
        return status, self.content(self.output), sessions, others


def failing(
    call: str, number: int, why: int = errno.ECONNRESET, piece: int = WHOLE, session: int = 0, **how: Any
) -> Faulty:
    """A server in which the call with this number of its kind fails with an error, in any session or in one. Reads and
    writes move at most `piece` bytes."""
    settings = {"FAILED_CALL": call, "FAILED_NUMBER": number, "FAILED_WHY": why, "PIECE": piece, "SESSION": session}
    return Faulty({"LD_PRELOAD": library("failing"), **settings}, **how)


def impatient(divisor: int, **how: Any) -> Faulty:
    """A server in which the time limit of each write is divided by a number, and no call is made to fail."""
    return Faulty({"LD_PRELOAD": library("failing"), "DIVISOR": divisor}, **how)


def logged(end: Optional[str]) -> list[str]:
    """The lines of the log of a session with this end. None means that its connection could not be accepted."""
    return ["end fault"] if end is None else ["open", f"end {end}"]


def finish(server: Faulty, entry_count: int, *ends: Optional[str]) -> None:
    """The program ends, and prints the number of entries of its room. Its log has these ends of sessions, in order."""
    sessions = {number: logged(end) for number, end in enumerate(ends, 1)}
    want(server.end(), (0, f"listening\nparis {entry_count}\n", sessions, []))
