"""Opens pages in Chromium without a window over the DevTools protocol, clicks and types in them, and reads them."""
from __future__ import annotations

import base64
import contextlib
import json
from collections.abc import Iterator, Sequence
from typing import Any, Protocol

from .cases import given
from .others import browsing
from .programs import PATIENCE, wait_for
from .websocket import TEXT, Broken, Client

# The codes of keys that are no letters.
KEYS = {"Enter": 13, "Escape": 27, "Tab": 9, "ArrowLeft": 37, "ArrowUp": 38, "ArrowRight": 39, "ArrowDown": 40}
KEYS |= {"Backspace": 8, "Delete": 46, " ": 32, "+": 187}


def key_events(key: str, modifiers: int = 0) -> list[dict[str, Any]]:
    """What the browser is asked to press a key, and to let it go."""
    more = {"text": "\r"} if key == "Enter" else {"text": key} if len(key) == 1 and not modifiers else {}
    code = KEYS.get(key, ord(key[0].upper()))
    about = {"key": key, "windowsVirtualKeyCode": code, "modifiers": modifiers}
    return [{"type": "keyDown", **about, **more}, {"type": "keyUp", **about}]


@contextlib.contextmanager
def browser(program: str, *options: str) -> Iterator[Browser]:
    """Starts a browser with these arguments, and ends it with the block."""
    with browsing(program, "--remote-debugging-port=0", "--hide-scrollbars", *options, "about:blank") as folder:
        path = f"{folder}/DevToolsActivePort"

        def port_and_path() -> list[str] | None:
            with contextlib.suppress(FileNotFoundError), open(path, encoding="utf-8") as file:
                lines = file.read().split("\n")
                return lines if len(lines) == 2 and lines[1] else None
            return None

        found = wait_for("the browser does not listen", port_and_path)
        assert found is not None
        port, socket_path = found
        with Client(int(port), PATIENCE * given.slow) as client:
            client.shake_hands(first=f"GET {socket_path} HTTP/1.1", host=f"127.0.0.1:{port}")
            yield Browser(client)


class Browser:
    """A browser at the other end of a socket, and its pages."""

    def __init__(self, client: Client) -> None:
        self.client, self.number = client, 0
        self.pages: dict[str, Page] = {}

    def tell(self, method: str, session: str | None = None, **how: Any) -> None:
        """Sends a request to the browser, or to a page by its session, and does not wait for the answer."""
        self.number += 1
        about = {"sessionId": session} if session else {}
        self.client.say(json.dumps({"id": self.number, "method": method, "params": how, **about}))

    def ask(self, method: str, session: str | None = None, **how: Any) -> dict[str, Any]:
        """Sends a request to the browser, or to a page by its session, and returns the answer."""
        self.tell(method, session, **how)
        while True:
            received = json.loads(self.client.read_kind(TEXT))
            if received.get("id") == self.number:
                if "error" in received:
                    raise Broken(f"{method} is answered {received['error']}")
                result: dict[str, Any] = received["result"]
                return result
            if received.get("method") == "Runtime.exceptionThrown":
                self.pages[received["sessionId"]].faults.append(received["params"]["exceptionDetails"])

    def open(self, url: str, width: int = 1280, height: int = 800, is_apart: bool = False) -> Page:
        """A page of a width and a height, once it is loaded. In a window of its own (`is_apart`) it is always shown."""
        target = self.ask("Target.createTarget", url="about:blank", newWindow=is_apart)["targetId"]
        session = self.ask("Target.attachToTarget", targetId=target, flatten=True)["sessionId"]
        page = self.pages[session] = Page(self, session)
        page.ask("Runtime.enable")
        page.ask("Page.enable")
        page.resize(width, height)
        page.ask("Page.navigate", url=url)
        page.wait("location.href !== 'about:blank' && document.readyState === 'complete'")
        return page


class Owner(Protocol):
    """What a page asks: the browser that has it."""

    def tell(self, method: str, **how: Any) -> None:
        """Sends a request, and does not wait for the answer."""

    def ask(self, method: str, **how: Any) -> dict[str, Any]:
        """Sends a request, and returns the answer."""


class Page:
    """A page in a browser. `rest` is an expression that is true when the page is at rest, so that nothing moves during
    a click."""

    def __init__(self, owner: Owner, session: str) -> None:
        self.owner, self.session = owner, session
        self.faults: list[Any] = []
        self.rest = "true"

    def ask(self, method: str, **how: Any) -> dict[str, Any]:
        """Sends a request to the browser for this page."""
        return self.owner.ask(method, session=self.session, **how)

    def ask_together(self, method: str, *each: dict[str, Any]) -> None:
        """Sends several requests for this page without a pause between them, and waits for the last answer."""
        *before, last = each
        for how in before:
            self.owner.tell(method, session=self.session, **how)
        self.ask(method, **last)

    def resize(self, width: int, height: int, is_phone: bool = False) -> None:
        """Gives the window another size, and a touch screen if it is a phone."""
        self.ask("Emulation.setDeviceMetricsOverride", width=width, height=height, deviceScaleFactor=1, mobile=is_phone)
        self.ask("Emulation.setTouchEmulationEnabled", enabled=is_phone, maxTouchPoints=5)

    def get(self, expression: str) -> Any:
        """The value of an expression in the page."""
        answer = self.ask("Runtime.evaluate", expression=expression, returnByValue=True, awaitPromise=True)
        if "exceptionDetails" in answer:
            raise Broken(f"{expression} fails: {answer['exceptionDetails']['exception'].get('description')}")
        value: Any = answer["result"].get("value")
        return value

    def wait(self, expression: str) -> None:
        """Waits until an expression in the page is true."""
        wait_for(
            lambda: f"{expression} does not come; the page has {self.get('document.body.innerText')!r}"[:1500],
            lambda: bool(self.get(f"!!({expression})")),
        )

    def reload(self) -> None:
        """Loads the page anew."""
        self.get("void (window.isOld = true)")
        self.ask("Page.reload")

        def is_new() -> Any:
            with contextlib.suppress(Broken):
                return self.get("!window.isOld && document.readyState === 'complete'")
            return False

        wait_for("the page does not come again", is_new)

    def wait_text(self, selector: str, text: str) -> None:
        """Waits until an element has a text somewhere in it."""
        self.wait(f"document.querySelector({json.dumps(selector)})?.textContent.includes({json.dumps(text)})")

    def mouse(self, kind: str, x: float, y: float, **how: int) -> None:
        """Sends an event of the pointer to the page."""
        self.ask("Input.dispatchMouseEvent", type=kind, x=x, y=y, **{"button": "left", "clickCount": 1, **how})

    def click_at(self, x: float, y: float, count: int = 1) -> None:
        """Clicks at a point of the window, perhaps several times. However slow the browser is, there is no pause
        between the clicks."""
        kinds = ("mousePressed", "mouseReleased")
        events = [(kind, number) for number in range(1, count + 1) for kind in kinds]
        about = {"x": x, "y": y, "button": "left"}
        self.ask_together(
            "Input.dispatchMouseEvent", *({"type": kind, "clickCount": number, **about} for kind, number in events)
        )

    def double_click_at(self, x: float, y: float) -> None:
        """Clicks twice at a point of the window."""
        self.click_at(x, y, count=2)

    def fingers(self, kind: str, *points: tuple[float, float]) -> None:
        """Sends the places of fingers to the page: `touchStart`, `touchMove` or `touchEnd`."""
        places = [{"x": x, "y": y, "id": number} for number, (x, y) in enumerate(points)]
        self.ask("Input.dispatchTouchEvent", type=kind, touchPoints=places)

    def tap(self, x: float, y: float, count: int = 1) -> None:
        """Taps with a finger, perhaps several times. However slow the browser is, no tap becomes a long press."""
        places = [{"x": x, "y": y, "id": 0}]
        down: dict[str, Any] = {"type": "touchStart", "touchPoints": places}
        up: dict[str, Any] = {"type": "touchEnd", "touchPoints": []}
        self.ask_together("Input.dispatchTouchEvent", *[down, up] * count)

    def tree(self) -> list[tuple[str, str]]:
        """The role and the name of each element that a screen reader reads."""
        nodes = self.ask("Accessibility.getFullAXTree")["nodes"]
        empty = {"value": ""}
        read = [node for node in nodes if not node.get("ignored")]
        return [(node.get("role", empty).get("value", ""), node.get("name", empty).get("value", "")) for node in read]

    def drag(self, one: Sequence[float], other: Sequence[float]) -> None:
        """Drags from one point of the window to another."""
        self.mouse("mousePressed", *one)
        self.mouse("mouseMoved", *((a + b) / 2 for a, b in zip(one, other)), buttons=1)
        self.mouse("mouseMoved", *other, buttons=1)
        self.mouse("mouseReleased", *other)

    def click(self, selector: str, text: str = "") -> None:
        """Clicks the first element that a selector finds and that has the text."""
        found = (
            f"[...document.querySelectorAll({json.dumps(selector)})]"
            f".find((each) => each.textContent.includes({json.dumps(text)}) && each.checkVisibility())"
        )
        self.wait(f"{found} && !{found}.disabled && ({self.rest})")
        middle = f"""(() => {{
            const each = {found};
            each?.scrollIntoView({{ block: 'nearest' }});
            const box = each?.getBoundingClientRect();
            return box ? [box.x + box.width / 2, box.y + box.height / 2] : null;
        }})()"""
        places: list[Any] = [None]

        def is_at_rest() -> bool:
            """Whether the element is where it was. What comes above it can move it."""
            places.append(self.get(middle))
            return places[-1] is not None and places[-1] == places[-2]

        wait_for(f"{selector} does not come to rest", is_at_rest)
        self.click_at(*places[-1])

    def press(self, key: str, modifiers: int = 0) -> None:
        """Presses a key."""
        for about in key_events(key, modifiers):
            self.ask("Input.dispatchKeyEvent", **about)

    def fill(self, selector: str, text: str) -> None:
        """Replaces the text of a field by typing."""
        field = f"document.querySelector({json.dumps(selector)})"
        self.get(f"{field}.focus(), {field}.select()")
        self.ask("Input.insertText", text=text)

    def picture(self, path: str) -> None:
        """Writes a picture of the page to a file."""
        with open(path, "wb") as file:
            file.write(base64.b64decode(self.ask("Page.captureScreenshot", format="png")["data"]))

    def end(self) -> None:
        """Fails if the page had a fault that no case noticed."""
        self.get("0")
        if self.faults:
            raise Broken(f"the page had the faults {json.dumps(self.faults)[:1000]}")
