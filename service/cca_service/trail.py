"""Fetches the audit trail of a folder into a log, for the front. The trail keeps its newest 4,096 records alone, and no times.

The log has one JSON object a line: a record, with the time, the user and the number of its request where these are known and
the time at which it was fetched; or what is to be told of the trail. Each line has the SHA-256 of the line before, so that a
changed, removed or inserted line is found. Lines are only ever added, and are on the drive before the next request is served.
The log is opened by its name each time, so that it may be renamed while the front runs. docs/FORMATS.md has the form of the
lines.
"""
import hashlib
import json
import os
import subprocess
import time
from collections.abc import Iterator
from datetime import datetime, timezone
from typing import NamedTuple

from cca.client import IN_USE, IN_USE_PAUSE, IN_USE_SECONDS
from cca_service.program import Program

HELD = 4096  # records that a trail keeps
TAIL = 1 << 22  # bytes at the end of a log: as many records as a trail keeps need less
CHUNK = 1 << 16
PATIENCE = 60.0  # seconds for `cca trail`


class TrailLost(Exception):
    """The trail couldn't be fetched or kept. Known is the exit status of `cca trail` where that failed."""

    def __init__(self, why: str, status: int | None = None):
        super().__init__(why)
        self.status = status


class Sent(NamedTuple):
    """A request that the front sent: when, whose it was, and its number."""

    time: str
    uid: int
    request: int


OTHERWISE = "the last line of the log isn't the one that was written: lines were removed, or changed"
UNKNOWN = {"time": None, "uid": None, "request": None}


class Record(NamedTuple):
    """A line of `cca trail`."""

    number: int
    rule: str
    role: str
    verb: str
    label: str


def now() -> str:
    """The time, in the form of the logs."""
    return datetime.now(timezone.utc).isoformat(timespec="microseconds").replace("+00:00", "Z")


def shown(folder: str, program: Program) -> str:
    """What `cca trail` prints. Where another program has the files it is asked again for some seconds."""
    until = time.monotonic() + IN_USE_SECONDS
    while True:
        try:
            it = subprocess.run(
                [program.path, "trail"],
                executable=program.way(),
                pass_fds=(program.file,),
                cwd=folder,
                capture_output=True,
                text=True,
                timeout=PATIENCE,
            )
        except (OSError, subprocess.TimeoutExpired) as error:
            raise TrailLost(f"cca trail: {error}") from None
        if it.returncode == 0:
            return it.stdout
        if it.returncode != IN_USE or time.monotonic() > until:
            raise TrailLost(f"cca trail ended with status {it.returncode}: {it.stderr.strip()}", it.returncode)
        time.sleep(IN_USE_PAUSE)


def listed(folder: str, program: Program) -> list[Record]:
    """The records that the trail of a folder holds, the oldest first. No run may use the folder."""
    rows = [line.split(" ") for line in shown(folder, program).splitlines()]
    return [Record(int(number), rule, role, verb, label) for number, rule, role, verb, label in rows]


class Kept(NamedTuple):
    """What a log has of one trail: its last records, by their numbers, the number of the last one, and the number that they
    follow, behind which none should be missing. Both numbers are -1 where the log is empty."""

    records: dict[int, Record]
    last: int
    follows: int


def last_lines(path: str) -> tuple[list[bytes], bool]:
    """The last lines of a log, of which the first one may be cut; none where there is no log. And whether these are all."""
    try:
        with open(path, "rb") as log:
            size = os.fstat(log.fileno()).st_size
            log.seek(max(0, size - TAIL))
            return log.read(TAIL).split(b"\n"), size <= TAIL
    except FileNotFoundError:
        return [], True


def last_kept(path: str) -> Kept:
    """What a log has of its last trail."""
    kept: dict[int, Record] = {}
    lines, are_all = last_lines(path)
    lowest = None
    for line in reversed(lines):
        try:
            it = json.loads(line)
            if "follows" in it:
                return Kept(kept, max([it["follows"], *kept]), it["follows"])
            record = Record(*(it[name] for name in Record._fields))
        except (ValueError, KeyError, TypeError):
            continue  # what is told, or half a line of a machine that stopped, or zeros in the place of lines
        if lowest is not None and record.number >= lowest:
            are_all = False  # lines of another trail are above these
            break
        kept[record.number], lowest = record, record.number
    return Kept(kept, max(kept, default=-1), -1 if are_all or lowest is None else lowest - 1)


def sum_of(line: bytes) -> str:
    """The sum of a line, which the next one has."""
    return hashlib.sha256(line).hexdigest()


def last_sum(log: int) -> str | None:
    """The sum of the last line of a log, which may be half a line; None where it has none."""
    end = os.fstat(log).st_size
    if end and os.pread(log, 1, end - 1) == b"\n":
        end -= 1
    elif not end:
        return None
    line, place = b"", end
    while place and b"\n" not in line:
        place = max(0, place - CHUNK)
        line = os.pread(log, min(CHUNK, end - place - len(line)), place) + line
    return sum_of(line.rpartition(b"\n")[2])


def sum_at(path: str) -> str | None:
    """The same of a log that may not be there."""
    try:
        log = os.open(path, os.O_RDONLY | os.O_CLOEXEC)
    except FileNotFoundError:
        return None
    try:
        return last_sum(log)
    finally:
        os.close(log)


class TrailLog:
    """The log of the trail of one folder. `sum` is that of its last line, from which the chain goes on."""

    def __init__(self, path: str, folder: str, program: Program):
        self.path, self.folder, self.program = os.path.abspath(path), folder, program
        self.kept, self.sum = last_kept(self.path), sum_at(self.path)
        self.last = self.kept.last  # the number of the last record of the log, whatever trail it is of

    def fetch(self, sent: list[Sent], doubts: int = 0) -> list[str]:
        """Appends the new records. Known are the requests that were sent since the last fetch, of which so many of the last
        ones may have left no record. What is to be told of the trail is given back."""
        held, fetched = listed(self.folder, self.program), now()
        self.last = self.kept.last
        lines: list[dict[str, object]] = []
        if self.is_otherwise():
            lines.append({"time": fetched, "told": OTHERWISE})
        why = self.why_another(held)
        if why:
            self.kept = Kept({}, -1, -1)
            lines.append({"time": fetched, "told": why, "follows": self.kept.last})
        new = [record for record in held if record.number > self.kept.last]
        is_complete = len(sent) - doubts <= len(new) <= len(sent)
        lines += [{"time": fetched, "told": what} for what in self.to_tell(new, len(sent), is_complete)]
        told = [str(it["told"]) for it in lines]
        for place, record in enumerate(new):
            of = sent[place]._asdict() if is_complete else UNKNOWN
            known = {"time": of["time"], "fetched": fetched, "uid": of["uid"], "request": of["request"]}
            lines.append({**record._asdict(), **known})
        self.append(lines)
        records = {record.number: record for record in held}
        self.kept = Kept(records, max(records, default=-1), min(records, default=0) - 1)
        return told

    def why_another(self, held: list[Record]) -> str | None:
        """Why this isn't the trail whose records the log has, if it isn't: then all its records are new."""
        kept, follows, last = self.kept.records, self.kept.follows, self.kept.last
        if last >= 0 and (not held or held[-1].number < last):
            return f"the trail begins anew: it ended with number {last}"
        for record in held:
            if kept.get(record.number, record) != record:
                return f"record {record.number} isn't as it was: the trail was altered, or begins anew"
        lost = [record.number for record in held if follows < record.number <= last and record.number not in kept]
        if lost:
            return f"the log has lost {len(lost)} records, the first of them number {lost[0]}: all that the trail holds follow"
        return None

    def to_tell(self, new: list[Record], sent: int, is_complete: bool) -> Iterator[str]:
        """What is to be told of new records: that some are missing, or whose they may be."""
        last = self.kept.last
        if new and new[0].number > last + 1:
            yield f"records {last + 1} to {new[0].number - 1} are missing"
        if not is_complete:
            came = f"{sent} requests were served, and {len(new)} new records came: their times aren't known"
            others = "; others sent requests, or a front ended before it fetched the records"
            yield came + (others if len(new) > sent else "")

    def is_otherwise(self) -> bool:
        """Whether the log, where it is there, doesn't end as it did."""
        found = sum_at(self.path)
        return found is not None and found != self.sum

    def append(self, lines: list[dict[str, object]]) -> None:
        """Adds lines to the log, and syncs it."""
        if not lines:
            return
        try:
            log = os.open(self.path, os.O_RDWR | os.O_CREAT | os.O_APPEND | os.O_CLOEXEC, 0o600)
            try:
                data = self.beginning(log) + self.chained(lines)
                while data:
                    data = data[os.write(log, data) :]
                os.fsync(log)
            finally:
                os.close(log)
        except OSError as error:
            raise TrailLost(f"the log of the trail: {error}") from None

    def chained(self, lines: list[dict[str, object]]) -> bytes:
        """Lines as they are written, each with the sum of the line before."""
        written = []
        for it in lines:
            line = json.dumps({**it, "chain": self.sum}).encode()
            written.append(line + b"\n")
            self.sum = sum_of(line)
        return b"".join(written)

    def beginning(self, log: int) -> bytes:
        """What comes before new lines: in an empty log, what it follows; behind half a line, its end."""
        size = os.fstat(log).st_size
        if size:
            return b"" if os.pread(log, 1, size - 1) == b"\n" else b"\n"
        folder = os.open(os.path.dirname(self.path), os.O_RDONLY | os.O_DIRECTORY | os.O_CLOEXEC)
        try:
            os.fsync(folder)  # so that the log's name is on the drive too
        finally:
            os.close(folder)
        return b"" if self.sum is None else self.chained([{"follows": self.last}])
