"""Starts JOSM with its window and the plugin clients/josm on a screen of its own (Xvfb), and drives it by lines."""
from __future__ import annotations

import atexit
import contextlib
import functools
import os
import shutil
import tempfile
import time
from collections.abc import Callable
from typing import Any

from . import josm
from .cases import TESTS, TOP, given, want
from .josm_live import Lines
from .programs import PATIENCE, Piped, run_soon, wait_for
from .websocket import Broken, Late

DRIVER = f"{TESTS}/clients/josm_window_driver/DriveWindow.java"
SCREEN = "1280x860x24"

# How long the window may take for an answer, in seconds, and how often it is asked again.
SOON, PAUSE = 30, 0.1


def is_there() -> bool:
    """Whether JOSM, a compiler of Java and a screen are there."""
    return josm.is_there() and bool(shutil.which("Xvfb"))


@functools.lru_cache(maxsize=None)
def built() -> tuple[str, str]:
    """The plugin's jar, and the folder with the class that drives the window."""
    folder = tempfile.mkdtemp(prefix="maproom-window-")
    atexit.register(shutil.rmtree, folder, ignore_errors=True)
    jar = f"{folder}/maproom.jar"
    want(run_soon(f"{TOP}/clients/josm/make_jar", "--out", jar).status, 0)
    want(run_soon("javac", "-encoding", "UTF-8", "-cp", josm.JAR, "-d", folder, DRIVER).texts(), (0, "", ""))
    return jar, folder


class Screen:
    """A screen without a monitor."""

    def __init__(self) -> None:
        self.kept = contextlib.ExitStack()
        self.display = ""

    def __enter__(self) -> Screen:
        process = Piped(["Xvfb", "-displayfd", "1", "-screen", "0", SCREEN, "-nolisten", "tcp"], stdout=-1, stderr=-3)
        self.kept.callback(process.wait)
        self.kept.callback(process.terminate)
        self.display = f":{Lines(process).next()}"
        return self

    def __exit__(self, *_: object) -> None:
        self.kept.close()


class Window:
    """JOSM with its window and the plugin. `home` is the folder of its settings."""

    def __init__(self, screen: Screen, home: str, *arguments: str, memory: int = 700) -> None:
        jar, classes = built()
        self.home = home
        os.makedirs(f"{home}/plugins", exist_ok=True)
        if not os.path.lexists(f"{home}/plugins/maproom.jar"):
            os.symlink(jar, f"{home}/plugins/maproom.jar")
        options = [f"-Xmx{memory}m", "-XX:+UseSerialGC", f"-Djosm.home={home}", "-Djosm.plugins=maproom"]
        words = ["java", *options, "-cp", f"{josm.JAR}:{classes}", "DriveWindow", "--offline=all", "--language=en"]
        self.log = open(f"{home}/log", "w+b")  # pylint: disable=consider-using-with
        environment = {**os.environ, "DISPLAY": screen.display, "HOME": home}
        command = [*words, "--geometry=1280x860+0+0", *arguments]
        self.process = Piped(command, stdin=-1, stdout=-1, stderr=self.log, env=environment)
        self.lines = Lines(self.process)

    def __enter__(self) -> Window:
        try:
            want(self.answer(), ["ready"])
        except (Broken, Late) as fault:
            raise Broken(f"JOSM does not start: {self.logged()[-1000:]}") from fault
        return self

    def __exit__(self, *_: object) -> None:
        self.process.kill()
        self.process.wait()
        self.log.close()

    def logged(self) -> str:
        """What JOSM wrote to its log."""
        with open(f"{self.home}/log", encoding="utf-8", errors="replace") as file:
            return file.read()

    def answer(self) -> list[str]:
        """The lines of the next answer."""
        found = []
        while line := self.lines.next():
            found.append(line)
        return found

    def ask(self, *words: object) -> list[str]:
        """Does something in the window. Returns the lines of the answer."""
        self.process.stdin.write(("\t".join(map(str, words)) + "\n").encode())
        self.process.stdin.flush()
        answer = self.answer()
        if answer and answer[0].startswith("fault "):
            raise Broken(f"{words}: {answer[0]}")
        return answer

    def wait(self, is_right: Callable[[list[str]], Any], *words: object) -> list[str]:
        """Waits until an answer is right."""
        deadline = time.monotonic() + SOON * given.slow
        while not is_right(answer := self.ask(*words)):
            if time.monotonic() > deadline:
                raise Late(f"{words} is still answered {answer}")
            time.sleep(PAUSE)
        return answer

    def wait_for_text(self, text: str, *words: object) -> None:
        """Waits until an answer has a text."""
        self.wait(lambda answer: text in "\n".join(answer), *words)

    def join(self, address: str, room: str, name: str) -> None:
        """Joins a room by the menu and its dialog."""
        self.ask("menu", "Join room...")
        self.ask("fill", "Join room", address, room, name)
        self.ask("press", "Join room", "Join")
        self.wait(lambda layers: room in layers, "layers")
        self.wait(lambda elements: elements != ["0"], "elements")

    def picture(self, path: str) -> None:
        """Writes a picture of the screen."""
        self.ask("picture", path)
        want(os.path.getsize(path) > 0, True)

    def ended(self) -> int:
        """Waits for the end of JOSM. Returns its status."""
        wait_for("JOSM does not end", lambda: self.process.poll() is not None)
        return self.process.wait(PATIENCE)
