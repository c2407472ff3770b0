"""What an operator sees of a keeper: lines in the log while it waits, and the status of its unit (sd_notify(3))."""
from __future__ import annotations

import contextlib
import os
import socket
import time
from typing import Callable, Optional

# How many seconds pass between two lines of the log while the keeper waits.
REMINDER = 60.0


def notify(*assignments: str) -> None:
    """Sends assignments such as `READY=1` to systemd, if it started the keeper."""
    address = os.environ.get("NOTIFY_SOCKET", "")
    if address:
        with contextlib.suppress(OSError), socket.socket(socket.AF_UNIX, socket.SOCK_DGRAM) as stream:
            stream.sendto("\n".join(assignments).encode(), socket.MSG_DONTWAIT, address.replace("@", "\0", 1))


class Status:
    """Whether the keeper saves or waits, and since when and why it waits."""

    def __init__(self, note: Callable[[str], None]) -> None:
        """`note` gets the lines of the log."""
        self._note = note
        self._since: Optional[float] = None
        self._noted: Optional[float] = None
        self._began = self._shown = ""
        self._is_ready = False

    def waits(self, why: str, unsaved: int = 0, is_noted: bool = True) -> None:
        """Says that the keeper waits. Call it at least each minute.

        `unsaved` counts the entries that came and are not saved. With `is_noted`, the log has a line at the first call,
        and then each minute.
        """
        now = time.monotonic()
        if self._since is None:
            self._since, self._began = now, time.strftime("%F %T")
        text = f"waits since {self._began}: {why} ({not_saved(unsaved)})"
        self._show(text)
        if is_noted and (self._noted is None or now - self._noted >= REMINDER):
            self._noted = now
            self._note(text)

    def goes_on(self) -> None:
        """Says that the keeper does not wait any more, if it said that it waits."""
        if self._since is not None and self._noted is not None:
            self._note(f"goes on after {time.monotonic() - self._since:.0f} seconds")
        self._since = self._noted = None

    def saved(self, what: str) -> None:
        """Says what was saved last, such as `entry 7 of run 1`. The first call reports that the keeper is ready."""
        self.goes_on()
        self._show(f"saved {what}")

    def _show(self, text: str) -> None:
        """Shows a text as the status of the unit, if it is another one."""
        if text != self._shown:
            self._shown = text
            is_first = not self._is_ready and text.startswith("saved ")
            self._is_ready = self._is_ready or is_first
            notify(*(["READY=1"] if is_first else []), f"STATUS={text}")


def not_saved(entries: int) -> str:
    """What is not saved while the keeper waits: a number of entries, if it knows them."""
    if not entries:
        return "nothing is saved"
    return f"{entries} entries are not saved" if entries > 1 else "1 entry is not saved"
