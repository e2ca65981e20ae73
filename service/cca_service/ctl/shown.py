"""The subcommands `module`, `store` and `trail`: what the files hold, each cell by its number, damaged ones with why; never a
key.

No key is opened. So whether both tokens of a staged label hold the same key is for cca to say, which it does at its start.
"""
import argparse
import os
from collections import Counter
from collections.abc import Iterator, Sequence
from typing import NamedTuple

from cca.lines import ALL_POINTS
from cca.version import VERSION

from cca_service.ctl.command import Command, Exit, Failed, add_json, show, tell
from cca_service.ctl.files import (
    DEFAULT,
    MODULE,
    STORE,
    TRAIL,
    Damage,
    Image,
    Kind,
    Module,
    Registers,
    Role,
    Store,
    point_names,
    read_file,
    read_module,
    read_store,
    read_trail,
    role_points,
    size_told,
)
from cca_service.ctl.place import add_place, place_of, snapshot

# The access control points that a version knows. One of a later version makes the cell of its role damaged for it.
KNOWN_POINTS = {"1.0": 0x1FFF_FFFF, "1.1": 0x1FFF_FFFF, VERSION: ALL_POINTS}


def add_file(words: argparse.ArgumentParser, kind: Kind) -> None:
    words.add_argument("file", metavar="FILE", nargs="?", help=f"a copy of {kind.name}, in place of the service's")
    add_place(words)
    add_json(words)


def image_of(given: argparse.Namespace, kind: Kind) -> Image:
    """The file that is named, or that of the service at one moment."""
    if given.file:
        return read_file(given.file, kind)
    return snapshot(place_of(given), [kind]).image(kind)


def tell_damage(told: Sequence[str], damaged: Sequence[Damage]) -> int:
    """Tells what is damaged on standard error. The exit status."""
    for line in (*told, *map(str, damaged)):
        tell(line)
    return Exit.LOOK if told or damaged else Exit.WELL


def listed(damaged: Sequence[Damage]) -> list[dict[str, object]]:
    return [it._asdict() for it in damaged]


# ---- module


def module_lines(module: Module) -> Iterator[str]:
    for register in module.registers or ():
        yield f"cell 0: {register}"
    for role in module.roles:
        yield f"cell {role.cell}: role {role.name}: {point_names(role.points)}"


def definitions(roles: Sequence[Role]) -> Iterator[str]:
    """The requests that define these roles on another module. DEFAULT comes last: until then it may still define roles."""
    for role in sorted(roles, key=lambda role: role.name == DEFAULT):
        yield role.definition


def registers_listed(registers: Registers | None) -> dict[str, object] | None:
    return {it.name: {"state": it.state, "pattern": it.pattern} for it in registers} if registers else None


class Later(NamedTuple):
    """A role that a version can't read, since it has points that the version doesn't know."""

    cell: int
    name: str
    points: str


def later_roles(image: Image, version: str) -> list[Later]:
    """The roles that a version can't read."""
    if version not in KNOWN_POINTS:
        raise Failed(f"nothing is known here of version {version}: known are {', '.join(KNOWN_POINTS)}", Exit.USAGE)
    unknown = ((cell, name, points & ~KNOWN_POINTS[version]) for cell, name, points in role_points(image))
    return [Later(cell, name, point_names(points)) for cell, name, points in unknown if points]


def add_module(words: argparse.ArgumentParser) -> None:
    add_file(words, MODULE)
    words.add_argument("--definitions", action="store_true", help="only the requests that define the roles on another module")
    words.add_argument("--for", dest="version", metavar="VERSION", help="tell whether a cca of this version can read the roles")


def run_module(given: argparse.Namespace) -> int:
    image = image_of(given, MODULE)
    if given.version:
        return run_for_version(given, image)
    module = read_module(image)
    found = {
        "registers": registers_listed(module.registers),
        "roles": [{**it._asdict(), "points": f"{it.points:08x}", "names": point_names(it.points)} for it in module.roles],
        "damaged": listed(module.damaged),
        "sha256": image.sha256,
    }
    show(given.json, found, definitions(module.roles) if given.definitions else module_lines(module))
    return tell_damage(size_told(image), module.damaged)


def run_for_version(given: argparse.Namespace, image: Image) -> int:
    """Whether an older program can read the module, which is asked before a rollback."""
    version, later = given.version, later_roles(image, given.version)
    damaged = [it for it in read_module(image).damaged if it.cell not in {one.cell for one in later}]
    told = "cell {} is damaged for cca {}: role {} has points that it doesn't know: {}"
    lines = [told.format(it.cell, version, it.name, it.points) for it in later]
    found = {"version": version, "is_readable": not later and not damaged, "later": [it._asdict() for it in later]}
    well = [] if damaged else [f"cca {version} can read this module: it knows each point of each role"]
    show(given.json, {**found, "damaged": listed(damaged)}, lines or well)
    status = tell_damage(size_told(image), damaged)
    return Exit.WRONG if later and status == Exit.WELL else status


# ---- store


def totals(store: Store) -> dict[str, object]:
    states = Counter(it.state for it in store.records)
    return {"labels": len(store.records), "free": STORE.cells - len(store.records) - len(store.damaged), "states": dict(states)}


def store_lines(store: Store) -> Iterator[str]:
    yield from map(str, store.records)
    states = Counter(it.state for it in store.records)
    told = "".join(f", {count} {state}" for state, count in sorted(states.items()))
    yield f"{len(store.records)} labels of {STORE.cells}{told}"


def add_store(words: argparse.ArgumentParser) -> None:
    add_file(words, STORE)
    words.add_argument("--module", metavar="FILE", help="the module of the copy FILE, if it isn't cca.module beside it")


def images_of_store(given: argparse.Namespace) -> tuple[Image, Image | None]:
    """The store, and its module, if there is one."""
    if not given.file:
        found = snapshot(place_of(given), [MODULE, STORE])
        return found.image(STORE), found.images.get(MODULE)
    beside = os.path.join(os.path.dirname(given.file), MODULE.name)
    path = given.module or (beside if os.path.exists(beside) else None)
    return read_file(given.file, STORE), read_file(path, MODULE) if path else None


def run_store(given: argparse.Namespace) -> int:
    image, beside = images_of_store(given)
    registers = read_module(beside).registers if beside else None
    store = read_store(image, registers)
    records = [it._asdict() for it in store.records]
    show(given.json, {**totals(store), "records": records, "damaged": listed(store.damaged)}, store_lines(store))
    if registers is None:
        tell("no registers are known: it isn't checked under which master key the tokens are")
    return tell_damage(size_told(image), store.damaged)


# ---- trail


def add_trail(words: argparse.ArgumentParser) -> None:
    add_file(words, TRAIL)


def run_trail(given: argparse.Namespace) -> int:
    image = image_of(given, TRAIL)
    trail = read_trail(image)
    records = [it._asdict() for it in trail.entries]
    show(given.json, {"records": records, "damaged": listed(trail.damaged), "missing": trail.gaps}, map(str, trail.entries))
    gaps = [f"records {one} to {other} are missing" for one, other in trail.gaps]
    return tell_damage([*size_told(image), *gaps], trail.damaged)


COMMANDS = (
    Command("module", "show the registers' states and patterns, and the roles, of cca.module", add_module, run_module),
    Command("store", "show each label's cell, state and control vector, of cca.store", add_store, run_store),
    Command("trail", "show each record of cca.trail, also of a damaged one", add_trail, run_trail),
)
