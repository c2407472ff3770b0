"""Compiles the libraries of tests/preload, which are loaded before a program, with the kit's compiler."""
from __future__ import annotations

import functools
import os
import subprocess
import tempfile

from .cases import TESTS


@functools.lru_cache(maxsize=None)
def folder() -> tempfile.TemporaryDirectory[str]:
    """A folder for the libraries, which the script removes at its end."""
    return tempfile.TemporaryDirectory(prefix="maproom-preload-")


@functools.lru_cache(maxsize=None)
def library(name: str) -> str:
    """The path of the library with this name. The first call compiles it."""
    page = subprocess.run(["rt", "doc"], stdout=subprocess.PIPE, check=True).stdout.decode().split()[0]
    tools, path = f"{os.path.dirname(page)}/toolchain/bin", f"{folder().name}/{name}.so"
    command = [
        f"{tools}/clang",
        "--target=x86_64-unknown-linux-gnu",
        "--no-default-config",
        f"--ld-path={tools}/ld.lld",
    ]
    command += ["-O1", "-ffreestanding", "-nostdlib", "-shared", "-fPIC", "-o", path]
    subprocess.run([*command, f"{TESTS}/preload/{name}.c"], check=True)
    return path
