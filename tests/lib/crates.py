"""Reads crates.txt, which lists the crates of the repository with their libraries."""
from __future__ import annotations

from .cases import TOP


def libraries_of_crates() -> dict[str, list[str]]:
    """The crates in their order, each with the libraries that it uses."""
    with open(f"{TOP}/crates.txt", encoding="utf-8") as lines:
        heads = [line.partition("#")[0].partition(":") for line in lines]
    return {name.split()[0]: libraries.split() for name, colon, libraries in heads if colon}
