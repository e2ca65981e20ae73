"""`ccactl audit-log LOG ..`: checks the log of the trail: the chain over its lines, the numbers of its records, and each record
that the trail still holds; and with an account, whether records explain the registers and roles of the module.

It finds a line that was changed, removed, put in or moved, records that are missing, and a log whose end was cut as long as the
trail holds the records. A log that was written anew as a whole is found by an account, or by a copy of the log elsewhere.
"""
import argparse
from collections.abc import Iterator

from cca_service.ctl import account as accounts
from cca_service.ctl.command import Command, Exit, Failed, add_json, show, tell
from cca_service.ctl.files import MODULE, TRAIL, Entry, Image, Trail, read_module, read_trail
from cca_service.ctl.place import Snapshot, add_place, place_of, snapshot
from cca_service.ctl.trail_log import DONE, Finding, Reader, Since, printable

IN_TRAIL, ACCOUNT = "the trail", "the account"


def add(words: argparse.ArgumentParser) -> None:
    words.add_argument("logs", nargs="*", metavar="LOG", help="the logs of a trail, the oldest first; else that of the settings")
    words.add_argument("--account", metavar="FILE", help="what was so at an earlier check; made where there is none")
    words.add_argument("--renew", action="store_true", help="with --account: what was found was looked into: account for it")
    words.add_argument("--log-only", action="store_true", help="neither the trail nor the module, as on another machine")
    add_place(words)
    add_json(words)


# ---- the trail beside the log


def in_trail(reader: Reader, image: Image, trail: Trail) -> Iterator[str]:
    """How the records that the trail still holds differ from those of the log."""
    last = last_of(reader)
    if not image.is_whole:
        yield f"{len(image.data)} bytes, where a trail has {TRAIL.size}"
    yield from map(str, trail.damaged)
    for first, final in trail.gaps:
        yield f"records {first} to {final} are missing there"
    if trail.last < last:
        yield f"it ends with record {trail.last}, and the log with {last}: it isn't that of the log, or the log isn't its own"
    for entry in trail.entries:
        kept = reader.kept.get(entry.number)
        if kept is not None and kept != entry:
            yield f"record {entry.number} is {printable(entry)} there, and {printable(kept)} in the log"
    unfetched = [it.number for it in trail.entries if it.number > last]
    if unfetched and unfetched[0] > last + 1 and reader.last is not None:
        yield f"records {last + 1} to {unfetched[0] - 1} are in neither of them"


# ---- the check


class Check:
    """One check: the logs first, since the front may add to them meanwhile, and then the files at one moment."""

    def __init__(self, given: argparse.Namespace):
        self.before = accounts.read(given.account) if given.account else None
        self.after: accounts.Account | None = None
        self.unfetched: list[Entry] = []
        self.reader = Reader(since=since_of(self.before))
        self.reader.read(logs_of(given))
        self.findings = list(self.reader.findings)
        if self.reader.since and not self.reader.since.is_reached:
            told = f"the line of the sum {self.reader.since.sum} isn't in the logs: they were changed, or aren't all"
            self.find(ACCOUNT, told)
        if not given.log_only:
            self.look(snapshot(place_of(given), (MODULE, TRAIL)))

    def find(self, place: str, text: str) -> None:
        self.findings.append(Finding(place, text))

    def look(self, files: Snapshot) -> None:
        """The trail and the module."""
        image = files.image(TRAIL)
        trail = read_trail(image)
        for text in in_trail(self.reader, image, trail):
            self.find(IN_TRAIL, text)
        self.unfetched = [it for it in trail.entries if it.number > last_of(self.reader)]
        last = max(trail.last, last_of(self.reader))
        self.after = accounts.of_module(read_module(files.whole(MODULE)), self.reader.sum, last)
        if self.before and self.reader.since and self.reader.since.is_reached:
            changes = [*self.reader.changes, *self.late(self.reader.since.number)]
            for text in accounts.unexplained(self.before, self.after, changes):
                self.find(ACCOUNT, text)

    def late(self, number: int) -> list[Entry]:
        """The records of requests that were carried out since the account, and that the log doesn't have yet."""
        return [it for it in self.unfetched if it.rule == DONE and it.number > number]

    def new(self) -> list[Finding]:
        """The findings that the account doesn't have, as often as they are there now."""
        known = list(self.before.findings) if self.before else []
        found = []
        for it in self.findings:
            if it.text in known:
                known.remove(it.text)
            else:
                found.append(it)
        return found

    def renewed(self) -> accounts.Account | None:
        """What is accounted for from now on."""
        return self.after._replace(findings=[it.text for it in self.findings]) if self.after else None


def since_of(before: accounts.Account | None) -> Since | None:
    return Since(before.chain, before.number, before.chain is None) if before else None


def last_of(reader: Reader) -> int:
    """The number of the last record of the log; -1 where it has none."""
    return -1 if reader.last is None else reader.last


def logs_of(given: argparse.Namespace) -> list[str]:
    if given.logs:
        return list(given.logs)
    audit = place_of(given).audit
    if audit is None:
        raise Failed("no log is named, and the settings have none", Exit.USAGE)
    return [audit]


# ---- what is shown


def as_object(check: Check, new: list[Finding]) -> dict[str, object]:
    reader = check.reader
    return {
        "records": reader.records,
        "last": reader.last,
        "chain": reader.sum,
        "unchained": reader.unchained,
        "untimed": reader.untimed,
        "unfetched": len(check.unfetched),
        "told": [it._asdict() for it in reader.told],
        "findings": [{**it._asdict(), "is_new": it in new} for it in check.findings],
    }


def as_lines(check: Check, new: list[Finding]) -> Iterator[str]:
    """What was found, and how much was looked at."""
    reader = check.reader
    for it in reader.told:
        yield f"told: {it.place}: {it.text}"
    for it in check.findings:
        yield f"{'found' if it in new else 'known'}: {it.place}: {it.text}"
    if reader.unchained:
        yield f"lines without a chain: {reader.unchained}"
    if reader.untimed:
        yield f"records of which nobody knows who sent the request, and when: {reader.untimed}"
    if check.unfetched:
        yield f"records of the trail that the log doesn't have yet: {len(check.unfetched)}"
    yield f"records: {reader.records}" + ("" if reader.last is None else f", the last one has the number {reader.last}")
    yield f"findings: {len(new)}"


def keep(given: argparse.Namespace, check: Check) -> None:
    """Makes the account where there is none, and renews it where that is asked for."""
    account = check.renewed()
    if given.account and account and (check.before is None or given.renew):
        accounts.write(given.account, account)


def run(given: argparse.Namespace) -> int:
    """3 where something new was found, and 1 where the front told something since the account."""
    if given.renew and (given.log_only or not given.account):
        raise Failed("--renew is given with --account, and without --log-only", Exit.USAGE)
    check = Check(given)
    new = check.new()
    show(given.json, as_object(check, new), as_lines(check, new))
    keep(given, check)
    if given.account and check.before is None and not given.log_only:
        tell(f"{given.account}: the account begins")
    if new:
        return Exit.LOOK
    return Exit.WRONG if check.reader.told_since else Exit.WELL


COMMANDS = (Command("audit-log", "the log of the trail: its chain, its numbers, and what no record explains", add, run),)
