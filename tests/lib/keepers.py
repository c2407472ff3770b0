"""Runs the keeper, clients/keep, and reads what it saved."""
from __future__ import annotations

import json
import resource
import signal
import subprocess
import threading
from typing import IO, Any

from .cases import TOP, given, want
from .others import python_with_aiohttp
from .programs import PATIENCE, Ran, run_soon, wait_for

KEEP = f"{TOP}/clients/keep"


class Kept:
    """A keeper that runs. Whoever leaves its block kills it."""

    def __init__(self, path: str, url: str, *options: str, room: str = "paris", limit: int | None = None) -> None:
        command = [python_with_aiohttp(), KEEP, path, url, room, "--print-saved", *options]
        most = (limit or resource.RLIM_INFINITY, resource.RLIM_INFINITY)
        before = lambda: resource.setrlimit(resource.RLIMIT_FSIZE, most)
        self.lines: list[str] = []
        self.notes: list[str] = []
        self.process = subprocess.Popen(
            command, stdout=subprocess.PIPE, stderr=subprocess.PIPE, text=True, preexec_fn=before if limit else None
        )
        assert self.process.stdout and self.process.stderr
        self.streams = self.process.stdout, self.process.stderr
        readings = zip(self.streams, (self.lines, self.notes))
        self.readers = [threading.Thread(target=self.read, args=each, daemon=True) for each in readings]
        for reader in self.readers:
            reader.start()

    @staticmethod
    def read(stream: IO[str], lines: list[str]) -> None:
        """Collects the lines of a stream."""
        for line in stream:
            lines.append(line.rstrip("\n"))

    def __enter__(self) -> Kept:
        wait_for(
            lambda: f"the keeper does not begin: {self.notes}", lambda: self.has_noted("keeping") or self.is_over()
        )
        return self

    def __exit__(self, *_: object) -> None:
        self.process.kill()
        self.process.wait()
        for reader in self.readers:
            reader.join()
        for stream in self.streams:
            stream.close()

    def is_over(self) -> bool:
        """Whether it ended."""
        return self.process.poll() is not None

    def has_noted(self, what: str) -> bool:
        """Whether a line of standard error has this in it."""
        return any(what in line for line in self.notes)

    def saved(self, line: str = "saved") -> tuple[int, ...] | None:
        """The last entry that it acknowledged, by its run and its number."""
        found = (each for each in reversed(list(self.lines)) if each.startswith(f"{line} "))
        return next((tuple(map(int, each.split()[1:])) for each in found), None)

    def wait_saved(self, run: int, seq: int) -> None:
        """Waits until it acknowledges an entry."""
        wait_for(lambda: f"not saved: {self.lines} {self.notes}", lambda: (self.saved() or (0, 0)) >= (run, seq))

    def end(self, which: signal.Signals = signal.SIGTERM) -> int:
        """Sends it a signal, and gives its status."""
        self.process.send_signal(which)
        return self.status()

    def status(self) -> int:
        """Its status at its end, when all that it printed was read."""
        status = self.process.wait(PATIENCE * given.slow)
        for reader in self.readers:
            reader.join()
        return status


def keep(*options: str) -> Ran:
    """What comes of the program, run to its end."""
    return run_soon(python_with_aiohttp(), KEEP, *options)


def restored(path: str, *options: str) -> dict[str, dict[str, Any]]:
    """The elements that --restore prints, by their names."""
    ran = keep("--restore", "--wait", "0", *options, path)
    want((ran.status, ran.errors.decode() if ran.status else ""), (0, ""))
    return {row["el"]: row for row in json.loads(ran.output)["ok"]["map"]}
