"""The options of commands with which a client says who it is: --name-header and --password-file."""
from __future__ import annotations

import argparse
import os

from ..addresses import PASSWORD, with_password


def add_login(parser: argparse.ArgumentParser) -> None:
    """Adds the options."""
    parser.add_argument(
        "--name-header",
        default=os.environ.get("NAME_HEADER") or None,
        metavar="HEADER",
        help="the header in which the server wants the name, if no proxy is in front of it; "
        "default: NAME_HEADER of the environment",
    )
    parser.add_argument(
        "--password-file",
        metavar="FILE",
        help="the file with the password of an address such as wss://lina@maps.example.org/hamlet; "
        f"default: {PASSWORD} of the environment",
    )


def take_password(options: argparse.Namespace) -> None:
    """Puts the password into the address of the options. Raises OSError for its file."""
    options.url = with_password(options.url, options.password_file)
