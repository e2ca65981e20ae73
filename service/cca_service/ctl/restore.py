"""The subcommand `restore`: puts the files of a backup in their place, while no front and no cca has them.

What they replace is kept under another name. cca opens the result in a scratch folder before anything is replaced. At each
moment both files are there; after a kill between the two the same command is given again.
"""
import argparse
import fcntl
import os
import signal
from collections.abc import Iterator
from contextlib import contextmanager

from cca_service.ctl import later
from cca_service.ctl.backup import add_scratch, kinds_of, same_registers
from cca_service.ctl.command import Command, Exit, Failed, add_json, show, tell
from cca_service.ctl.comparing import differences
from cca_service.ctl.durable import PRIVATE, sync_folder, write_all
from cca_service.ctl.files import MODULE, STORE, Image, Kind, Module, read_module, read_open
from cca_service.ctl.manifest import Backup, read_backup
from cca_service.ctl.opening import NoTester, proved
from cca_service.ctl.place import Place, add_place, locked, path_in, place_of, without_front

KEPT, RESTORING = "before-restore", "restoring"  # endings of names
ENDING = {signal.SIGTERM, signal.SIGINT, signal.SIGHUP}


@contextmanager
def unbroken() -> Iterator[None]:
    """Signals that end the program wait until this is done."""
    before = signal.pthread_sigmask(signal.SIG_BLOCK, ENDING)
    try:
        yield
    finally:
        signal.pthread_sigmask(signal.SIG_SETMASK, before)


def kept_name(path: str) -> str:
    """A name beside a file that nothing has."""
    number, name = 1, f"{path}.{KEPT}"
    while os.path.lexists(name):
        number += 1
        name = f"{path}.{KEPT}-{number}"
    return name


class Replacement:
    """A file that is on the drive beside the one that it is to replace, with its lock, so that no cca takes it before all is
    done."""

    def __init__(self, folder: str, image: Image):
        self.path, self.beside = path_in(folder, image.kind), os.path.join(folder, f".{image.kind.name}.{RESTORING}")
        if os.path.lexists(self.beside):  # what a kill has left
            os.unlink(self.beside)
        self.file = os.open(self.beside, os.O_RDWR | os.O_CREAT | os.O_EXCL | os.O_NOFOLLOW | os.O_CLOEXEC, PRIVATE)
        fcntl.flock(self.file, fcntl.LOCK_EX)
        self.give_to_owner(folder)
        write_all(self.file, image.data)
        os.fsync(self.file)

    def give_to_owner(self, folder: str) -> None:
        """The file of root belongs to the user of the service, whose folder it is in."""
        owner = os.stat(self.path if os.path.exists(self.path) else folder)
        if os.geteuid() == 0:
            os.fchown(self.file, owner.st_uid, owner.st_gid)

    def put_in_place(self) -> str | None:
        """Replaces the file. The name under which that is kept, if there was one."""
        kept = None
        if os.path.lexists(self.path):
            kept = kept_name(self.path)
            os.link(self.path, kept, follow_symlinks=False)
        os.rename(self.beside, self.path)
        return kept

    def end(self) -> None:
        """Lets go of it. One that wasn't put in place goes."""
        if os.path.lexists(self.beside):
            os.unlink(self.beside)
        os.close(self.file)


@contextmanager
def replacements(folder: str, images: list[Image]) -> Iterator[list[Replacement]]:
    made: list[Replacement] = []
    try:
        for image in images:
            made.append(Replacement(folder, image))
        yield made
    finally:
        for it in made:
            it.end()


def check(place: Place, backup: Backup, restored: list[Kind], present: dict[Kind, Image], base: str | None) -> None:
    """What the folder will have must be what cca opens, with the keys that the backup had."""
    images = {**present, **{kind: backup.images[kind] for kind in restored}}
    for kind in (MODULE, STORE):
        if kind not in images:
            raise Failed(f"{place.folder} would have no {kind.name}: restore a backup that has it first", Exit.LOOK)
    if MODULE not in restored and not same_registers(backup.manifest.registers, read_module(images[MODULE]).registers):
        raise Failed("the store is of a module with other master keys: restore that module too, or enter these keys first")
    try:
        values = proved(place.program, images[MODULE], images[STORE], base)
    except NoTester as no_tester:
        return tell(f"ccactl: every cell is valid; {no_tester}")
    wanted = backup.manifest.values
    lines = list(differences(wanted, values)) if STORE in restored and wanted is not None else []
    for line in lines:
        tell(line)
    if lines:
        raise Failed("the keys of the backup aren't those that it had: nothing was restored", Exit.LOOK)


def put_in_place(folder: str, images: list[Image]) -> list[str]:
    """Replaces the files, the module first. The names under which those that were there are kept."""
    with replacements(folder, images) as made, unbroken():
        kept = [it.put_in_place() for it in made]
        sync_folder(folder)
    return [name for name in kept if name]


def to_follow(given: argparse.Namespace, place: Place, backup: Backup, replaced: Module | None) -> list[str]:
    """What is to be done after the module was restored."""
    manifest = backup.manifest
    logs = given.log or ([place.audit] if place.audit else [])
    if replaced is None:
        keys = ["there was no module: which master keys are later the trail's log alone tells"]
    else:
        keys = list(later.keys_to_enter(manifest.registers, replaced.registers))
    roles = {**manifest.roles, **({it.name: it.points for it in replaced.roles} if replaced else {})}
    steps = [f"later, by the trail's log: {line}" for line in later.told(logs, manifest.last_record, manifest.time, roles)]
    no_logs = [] if logs else ["no trail's log was named: --log"]
    return [*steps, *no_logs, *(keys or ["no master key was set after the backup"])]


def add(words: argparse.ArgumentParser) -> None:
    words.add_argument("backup", metavar="DIR", help="the folder of the backup")
    words.add_argument("--store", action="store_true", help="the store alone, beside the module that is there")
    words.add_argument("--module", action="store_true", help="the module alone, beside the store that is there")
    words.add_argument("--log", metavar="FILE", action="append", help="the trail's log, or its files, the oldest first")
    add_scratch(words)
    add_place(words)
    add_json(words)


def chosen(given: argparse.Namespace, backup: Backup) -> list[Kind]:
    """The files to restore: those that the words name, or else all that the backup has."""
    kinds = kinds_of(given) if given.store or given.module else [kind for kind in (MODULE, STORE) if kind in backup.images]
    for kind in kinds:
        if kind not in backup.images:
            raise Failed(f"{given.backup} has no {kind.name}", Exit.USAGE)
    return kinds


def run(given: argparse.Namespace) -> int:
    place, backup = place_of(given), read_backup(given.backup)
    kinds = chosen(given, backup)
    with without_front(place.folder), locked(place.folder, (MODULE, STORE), fcntl.LOCK_EX, patience=0.0) as files:
        present = {kind: read_open(file, kind, path_in(place.folder, kind)) for kind, file in files.items()}
        check(place, backup, kinds, present, given.scratch)
        replaced = read_module(present[MODULE]) if MODULE in present else None
        follow = to_follow(given, place, backup, replaced) if MODULE in kinds else []
        kept = put_in_place(place.folder, [backup.images[kind] for kind in kinds])
    names = [kind.name for kind in kinds]
    kept = [os.path.basename(name) for name in kept]
    lines = [f"{' and '.join(names)} restored", *(f"kept: {name}" for name in kept), *follow]
    show(given.json, {"restored": names, "kept": kept, "follow": follow}, lines)
    return Exit.WELL


COMMANDS = (Command("restore", "put the files of a backup in their place, where no front runs", add, run),)
