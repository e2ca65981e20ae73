"""`ccactl inventory` and `compare`: class, control vector and check value of each key, through a socket; and two such lists.

A list has no key, no token and no verification pattern, and of a check value six digits: so those of two sites are compared,
whose master keys are other ones. What the role may not ask is missing in the list, and told.
"""
import argparse
import json
import os
import re
import stat
import sys
from collections.abc import Iterator
from typing import NamedTuple

from cca import Label, Refused, Verbs, tokens

from cca_service.ctl.command import Command, Exit, Failed, add_json, show, tell
from cca_service.ctl.doors import NO_POINT, add_socket, asked, told

NO_LABEL, NO_KEY, KEY_PART, OTHER_CLASS = 7, 8, 17, 19  # rules that say something of one label, and nothing of the role
SHOWN = 3  # bytes of a check value
NONE = "-"
LABEL = re.compile(r"[A-Z#$@][A-Z0-9#$@.]{0,63}")
FORM = re.compile(rf"({LABEL.pattern}) ([a-z-]+) ([A-Z]+|-) (8|16|-) ([0-9a-f]{{16}}|[0-9a-f]{{32}}|-) ([0-9a-f]{{6}}|-)")
STATES = {NO_KEY: "empty", KEY_PART: "part", OTHER_CLASS: "other"}


class Entry(NamedTuple):
    """A label: whether it has a key, and what of it is known. A field that isn't known is `-`."""

    label: str
    state: str  # key, part, empty, or other: a key of a class that no verb uses
    key_class: str
    length: str
    vector: str
    value: str

    def line(self) -> str:
        return " ".join(self)


class Inventory(NamedTuple):
    """The entries of a list, and the points without which some of it is missing."""

    entries: list[Entry]
    missing: list[str]


class Asking:
    """The requests of an inventory. A point that the role lacks is asked for once."""

    def __init__(self, front: Verbs):
        self.front = front
        self.missing: list[str] = []

    def value(self, label: str) -> tuple[str, str] | None:
        """The state of a label, and its check value. None where the label has gone meanwhile."""
        if "KYT" in self.missing:
            return "key", NONE
        try:
            return "key", self.front.key_test(Label(label))[:SHOWN].hex()
        except Refused as refused:
            if refused.rule == NO_LABEL:
                return None
            if refused.rule in STATES:
                return STATES[refused.rule], NONE
            self.lacks("KYT", refused)
            return "key", NONE

    def token(self, label: str) -> bytes | None:
        """The token of a label, where it has one and the role may read it."""
        if "KRR" in self.missing:
            return None
        try:
            return self.front.record_read(label)
        except Refused as refused:
            if refused.rule not in (NO_LABEL, NO_KEY):
                self.lacks("KRR", refused)
            return None

    def lacks(self, point: str, refused: Refused) -> None:
        """A refusal by a rule that isn't of one label makes a list worthless, but where the role alone lacks a point."""
        if refused.rule != NO_POINT:
            raise Failed(f"the labels can't be looked at: {refused}", Exit.LOOK)
        self.missing.append(point)

    def entry(self, label: str) -> Entry | None:
        """What is known of a label."""
        found = self.value(label)
        if found is None:
            return None
        state, value = found
        token = None if state == "empty" else self.token(label)
        if token is None:
            return Entry(label, state, NONE, NONE, NONE, value)
        left, right = token[32:40], token[40:48]
        kind = tokens.CLASSES.get(left[1], "OTHER")
        vector = left if tokens.form_of(left) == tokens.SINGLE else left + right
        state = "part" if tokens.bit(left, tokens.PART) else state
        return Entry(label, state, kind, str(len(vector)), vector.hex(), value)


def listed(front: Verbs, prefix: str) -> list[str]:
    """The labels that a front lists, each of which is one."""
    labels = [str(it) for it in front.record_list(prefix)]
    if not all(LABEL.fullmatch(it) for it in labels):
        raise Failed("what answers isn't a front of cca: it lists what is no label", Exit.UNREACHED)
    return labels


def taken(front: Verbs, prefix: str, labels: list[str] | None = None) -> Inventory:
    """The inventory of all labels that begin with a prefix, or of those that are named."""
    asking = Asking(front)
    try:
        named = labels if labels is not None else listed(front, prefix)
    except Refused as refused:
        more = ", or name the labels by --labels" if refused.rule == NO_POINT else ""
        raise Failed(f"the labels can't be listed: {told(refused)}{more}") from None
    found = [asking.entry(label) for label in named]
    return Inventory([it for it in found if it], asking.missing)


# ---- lists in files


def as_object(inventory: Inventory) -> dict[str, object]:
    return {"entries": [it._asdict() for it in inventory.entries], "missing": inventory.missing}


def entry_of(line: str, where: str) -> Entry:
    found = FORM.fullmatch(line)
    if not found:
        raise Failed(f"{where}: not a line of an inventory", Exit.USAGE)
    return Entry(*found.groups())


def read(path: str) -> list[Entry]:
    """The list of a file, as `inventory` prints it, with --json or without."""
    try:
        with open(path, encoding="ascii") as file:
            text = file.read()
    except UnicodeDecodeError:
        raise Failed(f"{path}: not an inventory", Exit.USAGE) from None
    lines = text.splitlines()
    if text.startswith("{"):
        try:
            lines = [" ".join(it[name] for name in Entry._fields) for it in json.loads(text)["entries"]]
        except (ValueError, KeyError, TypeError):
            raise Failed(f"{path}: not an inventory", Exit.USAGE) from None
    entries = [entry_of(line, f"{path}, {number}") for number, line in enumerate(lines, 1)]
    if len({it.label for it in entries}) != len(entries):
        raise Failed(f"{path}: a label stands there twice", Exit.USAGE)
    return entries


# ---- two lists


class Difference(NamedTuple):
    """How two lists differ at a label. A field of which one of them knows nothing is no difference."""

    label: str
    what: str
    one: str
    other: str
    key_of: str = ""  # the label that had this key in the first list

    def line(self) -> str:
        if self.what == "label":
            return f"{self.label}: only in the {'first' if self.one == THERE else 'second'} list"
        moved = f", the key of {self.key_of} in the first" if self.key_of else ""
        return f"{self.label}: {self.what} {self.one} in the first list, {self.other} in the second{moved}"


THERE, MISSING = "there", "missing"
NAMES = {"state": "state", "key_class": "class", "length": "length", "vector": "control vector", "value": "check value"}


def differences(one: list[Entry], other: list[Entry]) -> Iterator[Difference]:
    """What differs, label by label."""
    first, second = ({it.label: it for it in entries} for entries in (one, other))
    had = {it.value: it.label for it in reversed(one) if it.value != NONE}
    for label in sorted(first.keys() | second.keys()):
        if label not in second:
            yield Difference(label, "label", THERE, MISSING)
        elif label not in first:
            yield Difference(label, "label", MISSING, THERE)
        else:
            yield from of_label(first[label], second[label], had)


def of_label(one: Entry, other: Entry, had: dict[str, str]) -> Iterator[Difference]:
    """What differs at a label that both lists have."""
    for name, told_as in NAMES.items():
        before, after = getattr(one, name), getattr(other, name)
        if before != after and NONE not in (before, after):
            moved = had.get(after, "") if name == "value" else ""
            yield Difference(one.label, told_as, before, after, moved)


def compared_values(one: list[Entry], other: list[Entry]) -> int:
    """How many check values both lists have: where there is none, nothing is known of any key."""
    first, second = ({it.label for it in entries if it.value != NONE} for entries in (one, other))
    return len(first & second)


# ---- the subcommands


def add_inventory(words: argparse.ArgumentParser) -> None:
    add_socket(words)
    words.add_argument("--prefix", default="", help="only the labels that begin with this")
    words.add_argument("--labels", metavar="FILE", help="the labels, where the role may not list them; - is standard input")
    add_json(words)


def add_compare(words: argparse.ArgumentParser) -> None:
    words.add_argument("one", metavar="LIST", help="a file of `inventory`")
    words.add_argument("other", metavar="LIST|SOCKET", help="another one, or a socket, whose list is made now")
    words.add_argument("--timeout", type=float, default=60.0, metavar="SECONDS", help="for a reply, else 60")
    words.set_defaults(config=None)
    add_json(words)


def named_labels(path: str | None) -> list[str] | None:
    if path is None:
        return None
    if path == "-":
        return sys.stdin.read().split()
    with open(path, encoding="ascii", errors="replace") as file:
        return file.read().split()


def run_inventory(given: argparse.Namespace) -> int:
    labels = named_labels(given.labels)
    with asked(given) as front:
        try:
            inventory = taken(front, given.prefix, labels)
        except ValueError as error:
            raise Failed(str(error), Exit.USAGE) from None
    show(given.json, as_object(inventory), [it.line() for it in inventory.entries])
    for point in inventory.missing:
        tell(f"the role lacks {point}: {'the check values' if point == 'KYT' else 'class and control vector'} are missing")
    return Exit.WRONG if inventory.missing else Exit.WELL


def run_compare(given: argparse.Namespace) -> int:
    one = read(given.one)
    if stat.S_ISSOCK(os.stat(given.other).st_mode):
        given.socket = given.other
        with asked(given) as front:
            other = taken(front, "").entries
    else:
        other = read(given.other)
    found, count = list(differences(one, other)), compared_values(one, other)
    lines = [it.line() for it in found] + [f"{count} check values compared, {len(found)} differences"]
    show(given.json, {"differences": [it._asdict() for it in found], "compared": count}, lines)
    if not count:
        tell("no label has a check value in both lists: nothing is known of any key")
    return Exit.WELL if count and not found else Exit.WRONG


COMMANDS = (
    Command("inventory", "class, control vector and check value of each key, through a socket", add_inventory, run_inventory),
    Command("compare", "two inventories: keys that were lost, exchanged or replaced", add_compare, run_compare),
)
