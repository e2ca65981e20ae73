"""The subcommand `status`: a running service, by the front's own socket, and what its files hold, read in a hold of
milliseconds.

Nothing is asked of cca, and no key is shown. Where the front isn't running the files are read under their locks.
"""
import argparse
from collections import Counter
from collections.abc import Iterator
from typing import NamedTuple

from cca_service.ctl.asking import Answer, Control, Unreached
from cca_service.ctl.command import Command, Exit, Failed, add_json, show, tell
from cca_service.ctl.files import MODULE, STORE, Damage, Kind, Module, Store, read_module, read_store
from cca_service.ctl.metrics import written
from cca_service.ctl.place import Place, Snapshot, add_place, held_snapshot, locked_snapshot, place_of
from cca_service.ctl.shown import listed, registers_listed

ROLES = MODULE.cells - 1  # that a module has room for


class Contents(NamedTuple):
    """What module and store hold at one moment."""

    module: Module
    store: Store

    @property
    def states(self) -> Counter[str]:
        return Counter(it.state for it in self.store.records)

    @property
    def damaged(self) -> Iterator[tuple[Kind, Damage]]:
        """The damaged cells of both files."""
        for kind, found in ((MODULE, self.module.damaged), (STORE, self.store.damaged)):
            for it in found:
                yield kind, it

    @property
    def is_empty(self) -> bool:
        """Whether there is no master key, as in a new module."""
        return self.module.registers is not None and self.module.registers.current.pattern is None


class Report(NamedTuple):
    """What was found. The front's part is missing where it can't be reached, and that of the files where another has them."""

    front: Answer | None
    contents: Contents | None
    why_no_front: str | None

    def to_look_at(self) -> Iterator[str]:
        """What someone must look at."""
        if self.contents:
            for kind, damage in self.contents.damaged:
                yield f"{kind.name}: {damage}"
            if self.contents.is_empty:
                yield "there is no current master key: this is an empty module"

    def to_see_to(self) -> Iterator[str]:
        """What isn't as it should be."""
        if self.front:
            yield from front_to_see_to(self.front)
        if self.contents:
            yield from contents_to_see_to(self.contents)

    @property
    def status(self) -> Exit:
        if any(self.to_look_at()):
            return Exit.LOOK
        if self.why_no_front:
            return Exit.UNREACHED
        return Exit.WRONG if any(self.to_see_to()) else Exit.WELL


# ---- what is found


def contents_of(found: Snapshot) -> Contents:
    module = read_module(found.whole(MODULE))
    return Contents(module, read_store(found.whole(STORE), module.registers))


def asked(place: Place) -> Report:
    """The front's numbers, and the files in a hold. Without a front the files alone, where nobody else has them."""
    if not place.control:
        raise Failed("the settings name no own socket of the front: give --control SOCKET, or --files-only", Exit.USAGE)
    try:
        with Control(place.control) as control:
            front = control.ask("status").inner("status")
            return Report(front, contents_of(held_snapshot(place, control, (MODULE, STORE))), None)
    except Unreached as unreached:
        why = str(unreached)
    try:
        return Report(None, contents_of(locked_snapshot(place.folder, (MODULE, STORE))), why)
    except Failed as failed:
        return Report(None, None, f"{why}; {failed}")


def front_to_see_to(front: Answer) -> Iterator[str]:
    if front.inner("program").truth("is_replaced"):
        what_to_do = "reload the front, which takes it, or put the old one back"
        yield f"the file of the program is another one than the program that runs: {what_to_do}"
    if front.inner("journal").number("left_out"):
        yield f"{front.inner('journal').number('left_out')} lines of the front's log were left out: its reader is stuck"
    for door in front.each("doors"):
        if door.number("connections") >= door.number("limit"):
            yield f"the socket of {door.text('role')} has as many connections as it may: {door.number('limit')}"


def contents_to_see_to(contents: Contents) -> Iterator[str]:
    if contents.states["old"]:
        yield f"{contents.states['old']} labels are under the old master key: REENCIPHER brings them over"
    if len(contents.store.records) == STORE.cells:
        yield "the store is full: it takes no further label"
    if len(contents.module.roles) == ROLES:
        yield "the module is full: it takes no further role"


# ---- how it is shown


def share(latency: Answer, part: float) -> str:
    """Below how many microseconds this part of the replies came."""
    counts, bounds = latency.numbers("counts"), latency.numbers("le_us")
    wanted, so_far = part * sum(counts), 0
    for count, bound in zip(counts, bounds):
        so_far += count
        if so_far >= wanted:
            return f"within {bound} us"
    return f"above {bounds[-1]} us" if bounds else "-"


def front_lines(front: Answer) -> Iterator[str]:
    program, cca, requests, latency = (front.inner(it) for it in ("program", "cca", "requests", "latency"))
    yield f"front: version {front.text('version')}, process {front.number('pid')}, since {front.text('started')}"
    yield f"folder: {front.text('folder')}"
    version, sha256 = (program.text_or_none(it) or "-" for it in ("version", "sha256"))
    yield f"program: {program.text('path')}, version {version}, SHA-256 {sha256}"
    pid, started = cca.found.get("pid") or "-", cca.text_or_none("started") or "-"
    yield f"cca: process {pid}, since {started}, started {cca.number('starts')} times"
    for door in front.each("doors"):
        used = f"{door.number('connections')} connections of {door.number('limit')}, {door.number('ready')} lines wait"
        yield f"socket {door.text('socket')}: role {door.text('role')}, group {door.text_or_none('group') or '-'}, {used}"
    refused = {rule: count for rule, count in requests.counts("by_rule").items() if rule not in ("00", "-")}
    by_rule = "".join(f", {count} by rule {rule}" for rule, count in sorted(refused.items()))
    told = f"refused {sum(refused.values())}{by_rule}, without a reply {requests.number('no_reply')}"
    yield f"requests: {requests.number('total')}, {told}"
    if sum(latency.numbers("counts")):
        yield f"replies: half of them {share(latency, 0.5)}, 99 of 100 {share(latency, 0.99)}"
    trail = front.inner_or_none("trail")
    if trail:
        yield f"trail: {trail.number('unfetched')} records to fetch into {front.text_or_none('audit') or '-'}"
    yield f"turned away: {front.number('turned_away')}"


def contents_lines(contents: Contents) -> Iterator[str]:
    yield from map(str, contents.module.registers or ())
    states = "".join(f", {contents.states[it]} {it}" for it in ("current", "staged", "old", "null"))
    yield f"labels: {len(contents.store.records)} of {STORE.cells}{states}"
    yield f"roles: {len(contents.module.roles)} of {ROLES}"


def contents_found(contents: Contents) -> dict[str, object]:
    return {
        "registers": registers_listed(contents.module.registers),
        "labels": {"count": len(contents.store.records), "limit": STORE.cells, "states": dict(contents.states)},
        "roles": {"count": len(contents.module.roles), "limit": ROLES, "names": [it.name for it in contents.module.roles]},
        "damaged": {MODULE.name: listed(contents.module.damaged), STORE.name: listed(contents.store.damaged)},
    }


def report_lines(report: Report) -> Iterator[str]:
    if report.front:
        yield from front_lines(report.front)
    if report.contents:
        yield from contents_lines(report.contents)
    for line in report.to_see_to():
        yield f"see to: {line}"
    for line in report.to_look_at():
        yield f"look: {line}"


# ---- the command


def add(words: argparse.ArgumentParser) -> None:
    add_place(words)
    add_json(words)
    words.add_argument("--files-only", action="store_true", help="by the files alone, under their locks, where no front runs")
    words.add_argument("--metrics", metavar="FILE", help="write a text file for node_exporter, in place of what is printed")


def run(given: argparse.Namespace) -> int:
    place = place_of(given)
    if given.files_only:
        report = Report(None, contents_of(locked_snapshot(place.folder, (MODULE, STORE))), None)
    else:
        report = asked(place)
    found = {
        "front": report.front.found if report.front else None,
        "files": contents_found(report.contents) if report.contents else None,
        "see_to": list(report.to_see_to()),
        "look": list(report.to_look_at()),
    }
    if given.metrics:
        written(given.metrics, report.front, found)
    else:
        show(given.json, found, report_lines(report))
    if report.why_no_front:
        tell(f"ccactl status: {report.why_no_front}")
    return report.status


COMMANDS = (Command("status", "show the state of a running service, its registers, labels and roles", add, run),)
