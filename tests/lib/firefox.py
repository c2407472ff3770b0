"""Opens pages in Firefox without a window over WebDriver BiDi (https://w3c.github.io/webdriver-bidi/), clicks and types
in them, and reads them."""
from __future__ import annotations

import base64
import contextlib
import functools
import json
import os
import shutil
import signal
import subprocess
import tempfile
from collections.abc import Iterator, Sequence
from typing import Any, Dict

from .browser import Page
from .cases import given
from .programs import PATIENCE, wait_for
from .websocket import TEXT, Broken, Client

# The characters of keys that write none, by the WebDriver standard.
KEYS = {"Enter": "\ue007", "Control": "\ue009", "Escape": "\ue00c", "Backspace": "\ue003", "Delete": "\ue017"}

# An action of the mouse or the keyboard, or what does it.
Action = Dict[str, Any]

# The mouse of a page and its keyboard.
MOUSE: Action = {"type": "pointer", "id": "mouse"}
KEYBOARD: Action = {"type": "key", "id": "keyboard"}


@functools.lru_cache(maxsize=None)
def firefox() -> str | None:
    """The path of Firefox, or None."""
    return next(filter(None, map(shutil.which, ("firefox-esr", "firefox"))), None)


@contextlib.contextmanager
def running(program: str) -> Iterator[str]:
    """Starts Firefox with a new profile, and ends it with the block. Yields the folder of the profile."""
    folder = tempfile.mkdtemp(prefix="maproom-firefox-")
    words = [program, "--headless", "--no-remote", "--profile", folder, "--remote-debugging-port", "0", "about:blank"]
    streams: dict[str, Any] = {name: subprocess.DEVNULL for name in ("stdin", "stdout", "stderr")}
    environment = {**os.environ, "HOME": folder, "TMPDIR": folder}  # it leaves files behind
    process = subprocess.Popen(words, start_new_session=True, env=environment, **streams)
    try:
        yield folder
    finally:
        with contextlib.suppress(ProcessLookupError):
            os.killpg(process.pid, signal.SIGKILL)
        process.wait()
        shutil.rmtree(folder, ignore_errors=True)


@contextlib.contextmanager
def browser(program: str) -> Iterator[Firefox]:
    """Starts Firefox, and ends it with the block."""
    with running(program) as folder:

        def port() -> int | None:
            with contextlib.suppress(FileNotFoundError, ValueError, KeyError):
                with open(f"{folder}/WebDriverBiDiServer.json", encoding="utf-8") as file:
                    number: int = json.load(file)["ws_port"]
                    return number
            return None

        number = wait_for("Firefox does not listen", port)
        assert number is not None
        with Client(number, PATIENCE * given.slow) as client:
            client.shake_hands(first="GET /session HTTP/1.1", host=f"127.0.0.1:{number}")
            yield Firefox(client)


class Firefox:
    """A Firefox at the other end of a socket, and its pages."""

    def __init__(self, client: Client) -> None:
        self.client, self.number = client, 0
        self.pages: dict[str, FirefoxPage] = {}
        self.ask("session.new", capabilities={})
        self.ask("session.subscribe", events=["log.entryAdded"])

    def tell(self, method: str, **how: Any) -> None:
        """Sends a request, and does not wait for the answer."""
        self.number += 1
        self.client.say(json.dumps({"id": self.number, "method": method, "params": how}))

    def ask(self, method: str, **how: Any) -> dict[str, Any]:
        """Sends a request, and returns the answer."""
        self.tell(method, **how)
        while True:
            told = json.loads(self.client.read_kind(TEXT))
            if told.get("id") == self.number:
                if told["type"] == "error":
                    raise Broken(f"{method} is answered {told['error']}: {told['message']}")
                result: dict[str, Any] = told["result"]
                return result
            if told.get("method") == "log.entryAdded" and told["params"]["level"] == "error":
                self.pages[told["params"]["source"]["context"]].faults.append(told["params"]["text"])

    def open(self, url: str, width: int = 1280, height: int = 800, is_apart: bool = False) -> FirefoxPage:
        """A page of a width and a height, once it is loaded, perhaps in a window of its own."""
        context = self.ask("browsingContext.create", type="window" if is_apart else "tab")["context"]
        page = self.pages[context] = FirefoxPage(self, context)
        page.resize(width, height)
        page.ask("browsingContext.navigate", url=url, wait="complete")
        return page


class FirefoxPage(Page):
    """A page in Firefox, with the calls of a page in Chromium that the tests use."""

    def ask(self, method: str, **how: Any) -> dict[str, Any]:
        """Sends a request for this page."""
        return self.owner.ask(method, context=self.session, **how)

    def resize(self, width: int, height: int, is_phone: bool = False) -> None:
        """Gives the page another size. Firefox has no touch screen here."""
        self.ask("browsingContext.setViewport", viewport={"width": width, "height": height})

    def get(self, expression: str) -> Any:
        """The value of an expression in the page."""
        told = self.owner.ask(
            "script.evaluate",
            expression=f"(async () => JSON.stringify(await ({expression})))()",
            target={"context": self.session},
            awaitPromise=True,
        )
        if told["type"] == "exception":
            raise Broken(f"{expression} fails: {told['exceptionDetails']['text']}")
        return json.loads(told["result"].get("value", "null"))

    def act(self, source: Action, *actions: Action) -> None:
        """Does actions of the mouse or the keyboard."""
        self.ask("input.performActions", actions=[{**source, "actions": actions}])

    def click_at(self, x: float, y: float, count: int = 1) -> None:
        """Clicks at a point of the window, perhaps several times."""
        press, release = ({"type": f"pointer{word}", "button": 0} for word in ("Down", "Up"))
        self.act(MOUSE, moved(x, y), *(press, release) * count)

    def drag(self, one: Sequence[float], other: Sequence[float]) -> None:
        """Drags from one point of the window to another."""
        middle = ((a + b) / 2 for a, b in zip(one, other))
        self.act(
            MOUSE,
            moved(*one),
            {"type": "pointerDown", "button": 0},
            moved(*middle),
            moved(*other),
            {"type": "pointerUp", "button": 0},
        )

    def press(self, key: str, modifiers: Any = ()) -> None:
        """Presses a key, perhaps with others that are held."""
        values = [KEYS.get(each, each) for each in (*modifiers, key)]
        down, up = ([{"type": f"key{word}", "value": value} for value in values] for word in ("Down", "Up"))
        self.act(KEYBOARD, *down, *reversed(up))

    def fill(self, selector: str, text: str) -> None:
        """Replaces the text of a field by typing."""
        field = f"document.querySelector({json.dumps(selector)})"
        self.get(f"void ({field}.focus(), {field}.select())")
        self.act(KEYBOARD, *({"type": f"key{word}", "value": sign} for sign in text for word in ("Down", "Up")))

    def picture(self, path: str) -> None:
        """Writes a picture of the page to a file."""
        with open(path, "wb") as file:
            file.write(base64.b64decode(self.ask("browsingContext.captureScreenshot")["data"]))


def moved(x: float, y: float) -> Action:
    """The action that moves the mouse to a point of the window."""
    return {"type": "pointerMove", "x": round(x), "y": round(y)}
