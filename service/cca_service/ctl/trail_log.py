"""Reads the logs of a trail, the oldest first, line by line: the chain, the numbers of the records, and what the front told.

docs/FORMATS.md has the lines. What is found is told in words that name no file, so that it is known again once a log was
renamed.
"""
import hashlib
import json
import re
from collections.abc import Iterator
from dataclasses import dataclass, field
from typing import NamedTuple

from cca_service.ctl.files import TRAIL, Entry

LONGEST = 1 << 16  # bytes of a line that may be one of a log
SUM = re.compile(r"[0-9a-f]{64}")
RULE = re.compile(r"[0-9]{2}")
TIME = re.compile(r"\d{4}-\d\d-\d\dT\d\d:\d\d:\d\d\.\d{6}Z")
NAMES = {
    "role": re.compile(r"-|[A-Z][A-Z0-9]{0,7}"),
    "verb": re.compile(r"-|[A-Z]{1,10}"),
    "label": re.compile(r"-|[A-Z#$@][A-Z0-9#$@.]{0,63}"),
}
DONE = 0  # the rule of a record whose request was carried out


class Finding(NamedTuple):
    """What isn't as it should be, and where. The words are the same wherever the line stands."""

    place: str
    text: str


class Record(NamedTuple):
    """A record of the log: what the trail has, and who sent it when, where that is known."""

    entry: Entry
    time: str | None
    uid: int | None
    request: int | None


def sum_of(line: bytes) -> str:
    return hashlib.sha256(line).hexdigest()


def object_of(line: bytes) -> dict[str, object] | None:
    """The object of a line; none where it is half a line, or another thing."""
    try:
        found = json.loads(line)
    except (ValueError, RecursionError):
        return None
    return found if isinstance(found, dict) else None


def number_of(it: object, least: int = 0) -> int:
    """A number; ValueError where it is none."""
    if not isinstance(it, int) or isinstance(it, bool) or not least <= it < 1 << 63:
        raise ValueError
    return it


def number_or_none(it: object) -> int | None:
    return None if it is None else number_of(it)


def text_of(it: object, form: re.Pattern[str]) -> str:
    """A text of a form; ValueError where it is none."""
    if not isinstance(it, str) or not form.fullmatch(it):
        raise ValueError
    return it


def record_of(found: dict[str, object]) -> Record | None:
    """The record of a line; none where a member isn't of its form."""
    try:
        role, verb, label = (text_of(found.get(name), form) for name, form in NAMES.items())
        entry = Entry(number_of(found.get("number")), int(text_of(found.get("rule"), RULE)), role, verb, label)
        time = None if found.get("time") is None else text_of(found["time"], TIME)
        return Record(entry, time, number_or_none(found.get("uid")), number_or_none(found.get("request")))
    except ValueError:
        return None


def lines_of(paths: list[str]) -> Iterator[tuple[str, int, bytes]]:
    """The lines of logs in their order, each with its file and its number there. One without an end is a line too."""
    for path in paths:
        with open(path, "rb") as log:
            number = 0
            while line := log.readline(LONGEST):
                number += 1
                yield path, number, line.removesuffix(b"\n")


@dataclass
class Since:
    """From where on changes of the module are to be explained: the sum of a line, or none for the beginning, and the number of
    the last record that was counted. `is_reached` once that line was read."""

    sum: str | None
    number: int
    is_reached: bool


@dataclass
class Reader:
    """What logs say, as far as they have been read."""

    since: Since | None = None
    findings: list[Finding] = field(default_factory=list)
    told: list[Finding] = field(default_factory=list)
    kept: dict[int, Entry] = field(default_factory=dict)  # the newest records of the trail, as many as it keeps
    changes: list[Entry] = field(default_factory=list)  # those since then that were carried out
    told_since: int = 0
    sum: str | None = None
    last: int | None = None  # the number of the last record
    request: int | None = None
    records: int = 0
    unchained: int = 0
    untimed: int = 0
    is_chained: bool = False
    path: str = ""

    def read(self, paths: list[str]) -> None:
        for path, number, line in lines_of(paths):
            is_first, self.path = path != self.path, path
            self.take(f"{path}, line {number}", line, is_first)
            self.sum = sum_of(line)
            if self.since and self.since.sum == self.sum:
                self.since.is_reached = True

    def tell(self, it: Finding) -> None:
        self.told.append(it)
        self.told_since += self.since is None or self.since.is_reached

    def find(self, place: str, text: str) -> None:
        self.findings.append(Finding(place, text))

    def take(self, place: str, line: bytes, is_first: bool) -> None:
        """A line."""
        found = object_of(line)
        if found is None:
            self.tell(Finding(place, "half a line, or none of a log: a machine that stopped, or a change"))
            return
        self.take_chain(place, found)
        if "told" in found:
            self.take_told(place, found)
        elif "follows" in found:
            self.take_beginning(place, found, is_first)
        else:
            self.take_record(place, record_of(found))

    # ---- the chain

    def take_chain(self, place: str, found: dict[str, object]) -> None:
        """The sum of the line before, which each line has but those of an earlier version, and the first one of all."""
        if "chain" not in found:
            self.unchained += 1
            if self.is_chained:
                self.find(place, f"a line without a chain, behind one of the sum {self.sum}")
            return
        chain = found["chain"]
        self.is_chained = True
        if chain is not None and not (isinstance(chain, str) and SUM.fullmatch(chain)):
            self.find(place, f"a line whose chain is no sum, behind one of the sum {self.sum}")
        elif self.sum is not None and chain != self.sum:
            self.find(place, f"the chain is broken: the line before has the sum {self.sum}, and had {chain}")

    # ---- lines of the front's own

    def take_told(self, place: str, found: dict[str, object]) -> None:
        """What the front told. Where the trail began anew its numbers do too."""
        self.tell(Finding(place, f"{printable(found.get('time'))}: {printable(found['told'])}"))
        if "follows" in found:
            self.find(place, f"the trail began anew behind record {self.last}")
            self.last, self.kept = -1, {}
            if self.since and self.since.is_reached:
                self.since.number = -1

    def take_beginning(self, place: str, found: dict[str, object], is_first: bool) -> None:
        """The first line of a log that goes on from another one."""
        try:
            follows = number_of(found["follows"], -1)
        except ValueError:
            self.find(place, f"a line that follows no number, behind record {self.last}")
            return
        if not is_first:
            self.find(place, f"a line that begins a log, in the midst of one, behind record {self.last}")
        elif self.last is not None and follows != self.last:
            self.find(place, f"a log that follows record {follows} stands behind one that ends with record {self.last}")
        self.last = follows

    # ---- records

    def take_record(self, place: str, record: Record | None) -> None:
        if record is None:
            self.find(place, f"a line that is no record, behind record {self.last}")
            return
        entry = record.entry
        self.take_number(place, entry.number)
        self.take_sender(place, record)
        self.records, self.last = self.records + 1, entry.number
        self.kept[entry.number] = entry
        self.kept.pop(entry.number - TRAIL.cells, None)
        if self.since and self.since.is_reached and entry.number > self.since.number and entry.rule == DONE:
            self.changes.append(entry)

    def take_number(self, place: str, number: int) -> None:
        """Numbers rise by one."""
        if self.last is None or number == self.last + 1:
            return
        if number > self.last:
            self.find(place, f"records {self.last + 1} to {number - 1} are missing")
        else:
            self.find(place, f"record {number} stands behind record {self.last}")

    def take_sender(self, place: str, record: Record) -> None:
        """Time, user and request are known all or none, and the numbers of requests rise."""
        known = [it is not None for it in (record.time, record.uid, record.request)]
        if not any(known):
            self.untimed += 1
        elif not all(known) and self.is_chained:
            self.find(place, f"record {record.entry.number} has a time without a user and a request, or these without a time")
        if record.request is None:
            return
        if self.request is not None and record.request <= self.request:
            self.find(place, f"record {record.entry.number} has request {record.request}, which isn't behind {self.request}")
        self.request = record.request


def printable(it: object) -> str:
    """What a log says, as it may be shown at a terminal."""
    return "".join(one if one.isprintable() else "?" for one in str(it))[:300]
