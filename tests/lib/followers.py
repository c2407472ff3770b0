"""Programs that follow the diffs of clients/replicate, and a web server for them."""
from __future__ import annotations

import functools
import http.server
import os
import resource
import signal
import subprocess
import threading
from typing import Any

from .cases import TOP, given
from .others import is_there, python_with
from .programs import PATIENCE, Ran, run_soon, wait_for
from .serving import free_port

REPLICATE = f"{TOP}/clients/replicate"


@functools.lru_cache(maxsize=None)
def python_for_replication() -> str:
    """A Python that has the packages of clients/replicate, or an empty text."""
    python = python_with("aiohttp, osmium")
    return python if is_there("osmium", "--version") else ""


class QuietHandler(http.server.SimpleHTTPRequestHandler):
    """Serves files without a log."""

    def log_message(self, format: str, *arguments: Any) -> None:
        """Reports nothing."""


class Web:
    """A web server of a folder. It can be stopped and started again at its port."""

    def __init__(self, folder: str) -> None:
        self.folder, self.port = folder, free_port()
        self.server: http.server.ThreadingHTTPServer | None = None
        self.url = f"http://127.0.0.1:{self.port}"

    def start(self) -> None:
        """Starts it."""
        handler = functools.partial(QuietHandler, directory=self.folder)
        self.server = http.server.ThreadingHTTPServer(("127.0.0.1", self.port), handler)
        threading.Thread(target=self.server.serve_forever, daemon=True).start()

    def stop(self) -> None:
        """Stops it."""
        if self.server:
            self.server.shutdown()
            self.server.server_close()
            self.server = None

    def __enter__(self) -> Web:
        self.start()
        return self

    def __exit__(self, *_: object) -> None:
        self.stop()


class Replicating:
    """A replicator that runs. Whoever leaves its block kills it."""

    def __init__(self, folder: str, url: str, *options: str, room: str = "paris", limit: int | None = None) -> None:
        """`limit` is how many bytes a file can have."""
        command = [python_for_replication(), REPLICATE, folder, url, room, *options]
        before = lambda: resource.setrlimit(resource.RLIMIT_FSIZE, (limit or 0, limit or 0))
        self.folder = folder
        self.notes: list[str] = []
        self.process = subprocess.Popen(
            command,
            stdout=subprocess.DEVNULL,
            stderr=subprocess.PIPE,
            text=True,
            preexec_fn=before if limit else None,
        )
        assert self.process.stderr
        self.stream = self.process.stderr
        self.reader = threading.Thread(target=self.read, daemon=True)
        self.reader.start()

    def read(self) -> None:
        """Collects the lines of standard error."""
        for line in self.stream:
            self.notes.append(line.rstrip("\n"))

    def wait_begun(self) -> Replicating:
        """Waits until it follows the room."""
        begun = "replicate: replicating"
        wait_for(
            lambda: f"the replicator does not begin: {self.notes}",
            lambda: any(line.startswith(begun) for line in self.notes) or self.process.poll() is not None,
        )
        return self

    def __enter__(self) -> Replicating:
        return self.wait_begun()

    def __exit__(self, *_: object) -> None:
        self.kill()
        self.stream.close()

    def kill(self) -> None:
        """Kills it."""
        self.process.kill()
        self.status()

    def end(self) -> int:
        """Has it publish everything and end. Returns its status."""
        self.process.send_signal(signal.SIGTERM)
        return self.status()

    def status(self) -> int:
        """Its status at its end, when all that it printed was read."""
        status = self.process.wait(PATIENCE * given.slow)
        self.reader.join()
        return status


def sequence_in(path: str) -> int:
    """The sequence number in a state file, or -1 if the file is not there."""
    if not os.path.exists(path):
        return -1
    with open(path, encoding="utf-8") as file:
        return int(file.read().split("sequenceNumber=")[1].split()[0])


def replicate(*options: str) -> Ran:
    """What comes of the replicator, run to its end."""
    return run_soon(python_for_replication(), REPLICATE, *options)
