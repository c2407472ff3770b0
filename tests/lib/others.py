"""Finds and starts software of other projects: the packages aiohttp and websockets of Python, the package ws of Node,
and Chromium without a window."""
from __future__ import annotations

import contextlib
import functools
import os
import shutil
import signal
import subprocess
import sys
import tempfile
from collections.abc import Iterator
from typing import Any

from .programs import run_soon

# Where Debian has the packages of Node.
PACKAGES = "/usr/share/nodejs:/usr/lib/nodejs"


def is_there(*command: str, **how: Any) -> bool:
    """Whether a command is there and succeeds."""
    try:
        return run_soon(*command, **how).status == 0
    except OSError:
        return False


@functools.lru_cache(maxsize=None)
def python_with(package: str) -> str:
    """A Python that has a package, or an empty text."""
    pythons = (sys.executable, "python3", "/usr/bin/python3")
    return next((python for python in pythons if is_there(python, "-c", f"import {package}")), "")


def python_with_aiohttp() -> str:
    """A Python that has the package aiohttp, or an empty text."""
    return python_with("aiohttp")


def python_with_websockets() -> str:
    """A Python that has the package websockets, or an empty text."""
    return python_with("websockets")


@functools.lru_cache(maxsize=None)
def environment_with_ws() -> dict[str, str]:
    """An environment in which Node finds the package ws, or an empty one."""
    environment = {**os.environ, "NODE_PATH": f"{os.environ.get('NODE_PATH', '')}:{PACKAGES}"}
    return environment if is_there("node", "-e", 'require("ws")', env=environment) else {}


@functools.lru_cache(maxsize=None)
def chromium() -> str:
    """The path of Chromium, or an empty text."""
    names = ("chromium", "chromium-browser", "chromium-headless-shell")
    return next((program for program in (shutil.which(name) for name in names) if program), "")


@contextlib.contextmanager
def browsing(program: str, *options: str) -> Iterator[str]:
    """Starts a browser with these arguments, and ends it with the block. Yields its folder."""
    folder = tempfile.mkdtemp(prefix="maproom-browser-")
    command = [program, "--headless", "--no-sandbox", "--disable-gpu", "--disable-dev-shm-usage", "--no-first-run"]
    command += ["--disable-background-networking", "--disable-component-update", f"--user-data-dir={folder}", *options]
    nothing, environment = subprocess.DEVNULL, {**os.environ, "TMPDIR": folder}  # it leaves files behind
    browser = subprocess.Popen(
        command, start_new_session=True, env=environment, stdin=nothing, stdout=nothing, stderr=nothing
    )
    try:
        yield folder
    finally:
        browser.terminate()
        with contextlib.suppress(subprocess.TimeoutExpired):
            browser.wait(10)
        with contextlib.suppress(ProcessLookupError):
            os.killpg(browser.pid, signal.SIGKILL)
        browser.wait()
        shutil.rmtree(folder, ignore_errors=True)


def can_be_interrupted() -> None:
    """Makes a program that is started end on an interrupt. A shell lets programs in the background ignore it."""
    signal.signal(signal.SIGINT, signal.SIG_DFL)
