"""The subcommands `backup` and `verify`: copies of module and store, taken while the service runs, which cca opens before they
count.

A store fits every copy of the module that has the same registers. So the daily copy is the store alone, which has no master
key, and the module is copied after ceremonies and changes of roles. A backup is a folder, which has its name only once it was
verified.
"""
import argparse
import fcntl
import os
from collections.abc import Iterator
from contextlib import contextmanager

from cca_service.ctl.command import Command, Exit, Failed, add_json, show, tell
from cca_service.ctl.comparing import differences, service_values
from cca_service.ctl.durable import sync_folder, write_new
from cca_service.ctl.files import MODULE, STORE, TRAIL, Image, Kind, Registers, read_module, read_trail
from cca_service.ctl.manifest import KINDS, NAME, Backup, Manifest, manifest_of, read_backup
from cca_service.ctl.opening import NoTester, Values, proved
from cca_service.ctl.place import Place, Snapshot, add_place, place_of, snapshot
from cca_service.ctl.scratch import removed_if_unused
from cca_service.trail import now

TRIES = 3  # copies that are taken where the service's keys change meanwhile


# ---- backup


@contextmanager
def new_folder(path: str) -> Iterator[str]:
    """A folder beside the one that is to be made, whose name it gets once all is done. Anything else that comes leaves
    nothing."""
    path = os.path.abspath(path)
    if os.path.lexists(path):
        raise Failed(f"{path} is there already: a backup gets a folder of its own", Exit.USAGE)
    part = f"{path}.part"
    if os.path.lexists(part) and not removed_if_unused(part):
        raise Failed(f"another backup is under way, into {part}")
    os.mkdir(part, 0o700)
    lock = os.open(part, os.O_RDONLY | os.O_DIRECTORY | os.O_CLOEXEC)
    try:
        fcntl.flock(lock, fcntl.LOCK_EX)
        yield part
        sync_folder(part)
        os.rename(part, path)
        sync_folder(os.path.dirname(path))
    finally:
        os.close(lock)
        if os.path.lexists(part):
            removed_if_unused(part)


def kinds_of(given: argparse.Namespace) -> list[Kind]:
    """The files that the words name: both, if they name none."""
    named = [kind for kind, is_named in ((MODULE, given.module), (STORE, given.store)) if is_named]
    return named or [MODULE, STORE]


def values_or_none(place: Place, found: Snapshot, base: str | None) -> Values | None:
    """The check values of a copy, as cca gives them. None where no role may test keys, which is told."""
    try:
        return proved(place.program, found.whole(MODULE), found.whole(STORE), base)
    except NoTester as no_tester:
        tell(f"ccactl: every cell of the copy is valid; {no_tester}")
        return None


def last_record(found: Snapshot) -> int:
    """The number of the last record of the trail, or -1."""
    return read_trail(found.images[TRAIL]).last if TRAIL in found.images else -1


def taken(given: argparse.Namespace, place: Place) -> tuple[Snapshot, Values | None]:
    """A copy that was opened by cca; with a socket its check values are the service's too."""
    for _ in range(TRIES):
        found = snapshot(place, (MODULE, STORE, TRAIL))
        values = values_or_none(place, found, given.scratch)
        is_compared = given.socket and values is not None
        told = list(differences(values, service_values(given.socket, given.config, values))) if is_compared and values else []
        if not told:
            return found, values
    for line in told:
        tell(line)
    raise Failed(f"in {TRIES} copies keys differed from those of the service: no backup was made", Exit.LOOK)


def add_backup(words: argparse.ArgumentParser) -> None:
    words.add_argument("backup", metavar="DIR", help="the folder of the backup, which isn't there yet")
    words.add_argument("--store", action="store_true", help="the store alone, which has no master key: the daily backup")
    words.add_argument("--module", action="store_true", help="the module alone, with the master keys in clear")
    helps = "compare the check values with those of the running service, at this socket"
    words.add_argument("--socket", metavar="PATH|ROLE", help=helps)
    add_scratch(words)
    add_place(words)
    add_json(words)


def add_scratch(words: argparse.ArgumentParser) -> None:
    words.add_argument("--scratch", metavar="FOLDER", help="where cca opens the copy: else in memory, if there is /dev/shm")


def run_backup(given: argparse.Namespace) -> int:
    place = place_of(given)
    with new_folder(given.backup) as part:
        found, values = taken(given, place)
        saved = [found.whole(kind) for kind in kinds_of(given)]
        image = found.whole(MODULE)
        manifest = manifest_of(now(), saved, image, read_module(image), values, last_record(found))
        for it in saved:
            write_new(os.path.join(part, it.kind.name), it.data)
        write_new(os.path.join(part, NAME), manifest.written())
        check_written(part, saved)
    names = " and ".join(it.kind.name for it in saved)
    return told(given, f"{names} copied", manifest, values)


def check_written(part: str, saved: list[Image]) -> None:
    """What the copy reads as must be what was opened."""
    images = read_backup(part).images
    if any(images[it.kind].data != it.data for it in saved):
        raise Failed("the copy reads otherwise than it was written", Exit.LOOK)


def told(given: argparse.Namespace, what: str, manifest: Manifest, values: Values | None) -> int:
    """Shows what a backup is. The exit status."""
    keys = sum(it is not None for it in values.values()) if values is not None else None
    compared = "no check value was compared" if keys is None else f"{keys} keys with their check values"
    pattern = manifest.registers.current.pattern
    line = f"{what}: {compared}, current master key {pattern or 'empty'}"
    files = sorted(kind.name for kind in manifest.sums)
    show(given.json, {"files": files, "time": manifest.time, "keys": keys, "current": pattern}, [line])
    return Exit.WELL if keys is not None else Exit.WRONG


# ---- verify


def add_verify(words: argparse.ArgumentParser) -> None:
    words.add_argument("backup", metavar="DIR", help="the folder of the backup")
    helps = "a backup that has the other file, in place of the service's"
    words.add_argument("--with", dest="beside", metavar="DIR", help=helps)
    add_scratch(words)
    add_place(words)
    add_json(words)


def same_registers(one: Registers, other: Registers | None) -> bool:
    """Whether a store fits: it depends on the registers that are full."""
    return other is not None and [it.pattern for it in one] == [it.pattern for it in other]


def beside(given: argparse.Namespace) -> tuple[Registers | None, dict[Kind, Image]]:
    """What completes a backup of one file: another backup, or the service. Its registers, and its files."""
    if given.beside:
        other = read_backup(given.beside)
        return other.manifest.registers, other.images
    found = snapshot(place_of(given))
    return read_module(found.whole(MODULE)).registers, found.images


def completed(backup: Backup, given: argparse.Namespace) -> dict[Kind, Image]:
    """The files of a backup, with the one that it hasn't. A store fits a module with the same registers alone; a module whose
    store isn't there any more is opened without a label."""
    if len(backup.images) == len(KINDS):
        return backup.images
    registers, others = beside(given)
    is_same = same_registers(backup.manifest.registers, registers)
    if STORE in backup.images and not (is_same and MODULE in others):
        raise Failed("the service's module, or that of --with, isn't one of that time: name a backup that has it by --with")
    if MODULE in backup.images and not (is_same and STORE in others):
        tell("no store under these master keys is there: only the cells of the module are checked")
        others = {STORE: Image(STORE, STORE.name, bytes(STORE.size))}
    return {**others, **backup.images}


def verified(backup: Backup, given: argparse.Namespace, program: str) -> Values | None:
    """The check values of a backup, as cca gives them now: none may differ from those that it had."""
    images = completed(backup, given)
    wanted = backup.manifest.values
    try:
        values = proved(program, images[MODULE], images[STORE], given.scratch)
    except NoTester as no_tester:
        tell(f"ccactl: every cell of the copy is valid; {no_tester}")
        return None
    if STORE not in backup.images or wanted is None:
        return values
    lines = list(differences(wanted, values))
    for line in lines:
        tell(line)
    if lines:
        raise Failed("the keys of the backup aren't those that it had", Exit.LOOK)
    return values


def run_verify(given: argparse.Namespace) -> int:
    backup = read_backup(given.backup)
    values = verified(backup, given, place_program(given))
    names = " and ".join(kind.name for kind in backup.images)
    return told(given, f"{names} verified", backup.manifest, values)


def place_program(given: argparse.Namespace) -> str:
    """The program that opens a copy. Settings aren't needed where words say all."""
    return str(given.program) if given.program else os.environ.get("CCA") or place_of(given).program


COMMANDS = (
    Command("backup", "copy module and store while the service runs, and let cca open the copy", add_backup, run_backup),
    Command("verify", "check a backup: its checksums, and its keys as cca opens them", add_verify, run_verify),
)
