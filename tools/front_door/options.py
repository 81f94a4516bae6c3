"""The script's options in whatever form `argparse` takes them, and what it says of those that are wrong."""
from __future__ import annotations

import argparse
from typing import NoReturn

from .base import Status, Stop, printable
from .words import PORTS, Options


class Parser(argparse.ArgumentParser):
    """A parser that ends the script as everything else does."""

    def error(self, message: str) -> NoReturn:
        raise Stop(Status.WRONG_WORDS, f"{printable(message)} (./compaan help)")


def options_of(arguments: list[str]) -> Options:
    """The options among these words, and the other words."""
    parser = Parser(prog="./compaan", add_help=False, allow_abbrev=False)
    parser.add_argument("--data", action="append", default=[])
    parser.add_argument("--certificate", action="append", default=[])
    parser.add_argument("--isl", action="store_true")
    parser.add_argument("--unproved", action="store_true")
    parser.add_argument("--help", "-h", action="store_true")
    parser.add_argument("--policy", action="append", nargs="?", default=[])
    parser.add_argument(PORTS, action="append", nargs="?", default=[])
    options = Options()
    _, options.rest = parser.parse_known_args(arguments, options)
    return options
