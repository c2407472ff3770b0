"""Measures runs of the built program over messages (workloads.py): their time, their memory and their allocations."""
from __future__ import annotations

import argparse
import contextlib
import glob
import os
import re
import subprocess
import sys
import threading
import time
from collections.abc import Callable, Sequence
from typing import IO, NamedTuple, Union

from .cases import given
from .preloaded import library
from .programs import run

# A message without its id: a text of anna's, or an author and a text.
Message = Union[str, "tuple[str, str]"]


def number_from(least: int) -> Callable[[str], int]:
    """A reader of an option that is a whole number, at least this one."""

    def read(word: str) -> int:
        if not word.isdecimal() or int(word) < least:
            raise argparse.ArgumentTypeError(f"no whole number from {least} on: {word}")
        return int(word)

    return read


def messages_in(path: str) -> list[Message]:
    """The messages of a file of lines, each with its author, without their ids."""
    with open(path, encoding="utf-8") as file:
        found = (re.fullmatch(r'(\S+) \{"id":\d+,(.*)\}\n?', line) for line in file)
        return [(each[1], each[2]) for each in found if each]


def write_script(path: str, messages: Sequence[Message], base: str) -> None:
    """Writes a base, if any, and messages as lines, numbered from 1. A message is a pair of an author and a text, or a
    text of anna's."""
    with open(path, "w", encoding="utf-8") as file:
        file.write(base)
        for number, message in enumerate(messages, 1):
            author, text = ("anna", message) if isinstance(message, str) else message
            file.write(f'{author} {{"id":{number},{text}}}\n')


def refused(replies: str) -> str | None:
    """The first reply in a file that is a refusal, or None."""
    with open(replies, encoding="utf-8") as lines:
        return next((line for line in lines if re.match(r'\{"id":\d+,"no":', line)), None)


def map_line(program: str, scratch: str, messages: Sequence[Message]) -> str:
    """The line with which a room sends the map that messages make. It can be the base of another room."""
    write_script(f"{scratch}/script", (*messages, '"do":"map"'), "")
    measure(program, f"{scratch}/script", f"{scratch}/replies")
    with open(f"{scratch}/replies", encoding="utf-8") as replies:
        return next(line for line in replies if '"ok":{"map":' in line)


def watch(process: int, peaks: list[float]) -> None:
    """Samples the peak memory of a process, in MiB, until it ends."""
    while True:
        try:
            with open(f"/proc/{process}/status", encoding="utf-8") as lines:
                found = [line for line in lines if line.startswith("VmHWM")]
        except OSError:
            return
        if not found:
            return
        peaks.append(int(found[0].split()[1]) / 1024)
        time.sleep(0.002)


def measure(program: str, script: str, replies: str, *options: str) -> tuple[float, float]:
    """The time of a run in seconds and its peak memory in MiB. The run has to end with status 0."""
    peaks = [0.0]
    with open(script, "rb") as lines, open(replies, "wb") as written:
        began = time.perf_counter()
        with subprocess.Popen([program, "replay", *options], stdin=lines, stdout=written) as ran:
            watching = threading.Thread(target=watch, args=(ran.pid, peaks))
            watching.start()
            status = ran.wait()
        taken = time.perf_counter() - began
        watching.join()
    if status:
        sys.exit(f"{program} ended with status {status}")
    return taken, max(peaks)


class Times(NamedTuple):
    """For how many nanoseconds a thread ran, and for how many it was ready to run and did not run."""

    ran: int = 0
    waited: int = 0


class Stopwatch:
    """Takes time from its start on, and leaves out what other programs took of the machine.

    That is the time for which threads of these processes were ready to run, and no processor was free. Several threads
    can wait at the same time, so at least the processor time of the process that computed most counts. A kernel that
    does not measure this counts all time."""

    def __init__(self, *processes: int) -> None:
        self._processes = [*processes]
        self._before = self._times()
        self._began = time.monotonic()

    def add(self, process: int) -> None:
        """Adds a process that was started after the stopwatch."""
        self._processes.append(process)

    @property
    def seconds(self) -> float:
        """The time since the start."""
        taken, waited = time.monotonic() - self._began, 0
        ran = dict.fromkeys(self._processes, 0)
        for (process, thread), times in self._times().items():
            before = self._before.get((process, thread), Times())
            ran[process] += times.ran - before.ran
            waited += times.waited - before.waited
        return min(taken, max(taken - waited / 1e9, max(ran.values()) / 1e9))

    def _times(self) -> dict[tuple[int, str], Times]:
        """The times of each thread, by its process and its file."""
        found = {}
        for process in self._processes:
            for path in glob.glob(f"/proc/{process}/task/*/schedstat"):
                with contextlib.suppress(OSError):  # the thread has ended
                    with open(path, encoding="ascii") as file:
                        ran, waited, _ = file.read().split()
                        found[process, path] = Times(int(ran), int(waited))
        return found


def memory_of(process: int, values: Sequence[str] = ("VmRSS", "VmHWM")) -> tuple[float, ...]:
    """These values that the kernel has of a process, in MiB: its memory and the peak of it, if none are given."""
    with open(f"/proc/{process}/status", encoding="utf-8") as lines:
        found = dict(line.split(":", 1) for line in lines)
    return tuple(int(found[value].split()[0]) / 1024 for value in values)


def held(script: str, *options: str) -> tuple[int, int]:
    """The bytes that the program holds at the end of a script, and the number of its allocations until then."""
    with open(script, "rb") as lines:
        ran = run(given.program, "replay", *options, stdin=lines, env={"LD_PRELOAD": library("held")})
    found = re.fullmatch(rb"(\d+) bytes held, memory asked for (\d+) times\n", ran.errors)
    if ran.status or not found:
        sys.exit(f"{given.program} ended with status {ran.status} and printed {ran.errors[:200]!r}")
    return int(found[1]), int(found[2])


def each_held(scratch: str, before: Sequence[Message], measured: Sequence[Message]) -> tuple[float, ...]:
    """The bytes that each of some messages adds to those held before, and its number of allocations."""
    counts = []
    for messages in (before, [*before, *measured]):
        write_script(f"{scratch}/script", messages, "")
        counts.append(held(f"{scratch}/script", "--limit", "1000000"))
    return tuple((after - first) / len(measured) for first, after in zip(*counts))


def most_given(scratch: str, messages: Sequence[Message], base: str, *options: str) -> tuple[int, int]:
    """The peak memory in bytes that the system gave the program until the last reply, and the length of that reply."""
    write_script(f"{scratch}/script", messages, base)
    with open(f"{scratch}/script", "rb") as script:
        lines = script.read()
    with open(f"{scratch}/replies", "w+b") as replies:
        with subprocess.Popen([given.program, "replay", *options], stdin=subprocess.PIPE, stdout=replies) as program:
            assert program.stdin is not None
            program.stdin.write(lines)
            program.stdin.flush()
            while len(found := written(replies)) < len(messages) and program.poll() is None:
                time.sleep(0.01)
            with open(f"/proc/{program.pid}/status", encoding="utf-8") as status:
                most = next(int(line.split()[1]) * 1024 for line in status if line.startswith("VmHWM"))
            program.stdin.close()
            ended = program.wait()
    if ended or len(found) < len(messages):
        sys.exit(f"{given.program} ended with status {ended} after {len(found)} replies")
    return most, len(found[-1])


def written(replies: IO[bytes]) -> list[bytes]:
    """The complete replies in a file, each with its line feed."""
    text = os.pread(replies.fileno(), os.fstat(replies.fileno()).st_size, 0)
    return [line for line in text.splitlines(True) if line.endswith(b"\n")]
