"""The files of the repository, and their texts."""
from __future__ import annotations

import functools
import subprocess

from .cases import TOP


@functools.lru_cache(maxsize=None)
def files() -> list[str]:
    """All files of the repository, as git has or would have them."""
    words = ["git", "ls-files", "--cached", "--others", "--exclude-standard"]
    return subprocess.run(words, cwd=TOP, stdout=subprocess.PIPE, check=True).stdout.decode().splitlines()


@functools.lru_cache(maxsize=None)
def text_of(path: str) -> str:
    """The text of a file of the repository."""
    with open(f"{TOP}/{path}", encoding="utf-8", errors="replace") as file:
        return file.read()
