"""What the subcommands of `ccactl` share: a record of each, how they end, and how they show what they found."""
import argparse
import json
import sys
from collections.abc import Callable, Iterable, Mapping
from enum import IntEnum
from typing import NamedTuple

SETTINGS = "/etc/cca/front.conf"


class Exit(IntEnum):
    """How `ccactl` ends."""

    WELL = 0
    WRONG = 1  # something isn't as it should be; the page of each subcommand says what
    USAGE = 2
    LOOK = 3  # someone must look: damaged cells, an empty module, a changed trail
    UNREACHED = 4  # the front can't be reached


class Failed(Exception):
    """A subcommand can't go on. What it tells never has a key, a part, a text or a token."""

    def __init__(self, why: str, status: Exit = Exit.WRONG):
        super().__init__(why)
        self.status = status


class Command(NamedTuple):
    """A subcommand: its name, a line of help, what adds its arguments, and what runs it and gives the exit status."""

    name: str
    help: str
    add: Callable[[argparse.ArgumentParser], None]
    run: Callable[[argparse.Namespace], int]


def add_json(words: argparse.ArgumentParser) -> None:
    words.add_argument("--json", action="store_true", help="one JSON object, for a machine")


def printable(line: str) -> str:
    """A line without what a terminal would obey: names and paths in it come from files and from the front."""
    return "".join(it if it.isprintable() else "?" for it in line)


def show(is_json: bool, found: Mapping[str, object], lines: Iterable[str]) -> None:
    """Prints what was found: as one JSON object, or in lines."""
    if is_json:
        print(json.dumps(found))
        return
    for line in lines:
        print(printable(line))


def tell(line: str) -> None:
    """A line on standard error, which stands beside what is printed."""
    print(printable(line), file=sys.stderr, flush=True)
