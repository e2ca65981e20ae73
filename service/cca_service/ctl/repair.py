"""The subcommand `repair-cell`: one cell of the store out of a backup with the same registers; the other labels stay as they
are today.

It shows what the cell has and what it would get, and changes nothing without --yes. The cell is written as cca writes one: the
copy that isn't active, a sync, the selector, a sync. So a kill at any moment leaves the cell as it was, or repaired.
"""
import argparse
import fcntl
import os
from collections.abc import Iterator
from contextlib import contextmanager
from typing import NamedTuple

from cca_service.ctl.asking import Control, Unreached, held
from cca_service.ctl.backup import add_scratch, same_registers
from cca_service.ctl.command import Command, Exit, Failed, add_json, show, tell
from cca_service.ctl.durable import write_all
from cca_service.ctl.files import (
    BODY,
    CELL,
    MODULE,
    SECTOR,
    STORE,
    Damage,
    Image,
    Record,
    opened,
    read_module,
    read_open,
    read_store,
    size_told,
)
from cca_service.ctl.manifest import Backup, read_backup
from cca_service.ctl.opening import NoTester, Values, proved
from cca_service.ctl.place import InUse, Place, add_place, check_folder, locked, path_in, place_of, without_front
from cca_service.ctl.restore import unbroken

HOLD_SECONDS = 30.0
LABEL_FIELD = slice(1, 66)  # the length of the label, and the label
PATTERN_FIELDS = (slice(0, 1), slice(74, 82), slice(130, 138))  # the kind of the record, and the patterns of its tokens


class Files(NamedTuple):
    """The files while nobody else writes them: the store's descriptor, both images, and whether a cca runs that has read the
    store."""

    store_file: int
    module: Image
    store: Image
    is_running: bool


class Repair(NamedTuple):
    """A cell, what is wrong with it, and what it gets."""

    cell: int
    damage: Damage | None
    before: Record | None
    after: Record | None
    body: bytes

    def lines(self) -> Iterator[str]:
        yield str(self.damage or self.before or f"cell {self.cell}: no record")
        yield f"from the backup: {self.after or f'cell {self.cell}: no record'}"


# ---- the files, while nobody writes them


@contextmanager
def files_held(place: Place, control: Control) -> Iterator[Files]:
    """The files while the front holds requests. It is told where the hold ended before the work was done."""
    with held(control, HOLD_SECONDS) as hold:
        check_folder(place, hold.folder)
        store_path, module_path = path_in(hold.folder, STORE), path_in(hold.folder, MODULE)
        file, other = opened(store_path, os.O_RDWR), opened(module_path)
        try:
            yield Files(file, read_open(other, MODULE, module_path), read_open(file, STORE, store_path), True)
        finally:
            os.close(file)
            os.close(other)
        if not hold.release():
            raise Failed("the front went on before the cell was written: look at the store again", Exit.LOOK)


@contextmanager
def files_locked(place: Place) -> Iterator[Files]:
    """The files under their locks, where no front runs."""
    kinds = (MODULE, STORE)
    with without_front(place.folder), locked(place.folder, kinds, fcntl.LOCK_EX, os.O_RDWR) as files:
        for kind in kinds:
            if kind not in files:
                raise Failed(f"{place.folder} has no {kind.name}", Exit.LOOK)
        images = [read_open(files[kind], kind, path_in(place.folder, kind)) for kind in kinds]
        yield Files(files[STORE], images[0], images[1], False)


@contextmanager
def files_of(place: Place) -> Iterator[Files]:
    """The files, by a hold where a front runs that has its own socket."""
    control: Control | None = None
    unreached: Unreached | None = None
    if place.control:
        try:
            control = Control(place.control)
        except Unreached as error:
            unreached = error
    if control:
        with control, files_held(place, control) as files:
            yield files
        return
    try:
        with files_locked(place) as files:
            yield files
    except InUse as in_use:
        raise unreached or in_use from None


# ---- what is to be done


def repair_of(files: Files, backup: Backup | None, cell: int) -> Repair:
    """What a cell has and would get. Failed is raised where the backup doesn't fit."""
    for told in (*size_told(files.module), *size_told(files.store)):
        raise Failed(told, Exit.LOOK)
    module = read_module(files.module)
    if module.registers is None:
        raise Failed("the registers of the module are damaged: restore the module first", Exit.LOOK)
    if backup and not same_registers(backup.manifest.registers, module.registers):
        raise Failed("the backup is of other master keys than the module: take one of now")
    store = read_store(files.store, module.registers)
    damage = next((it for it in store.damaged if it.cell == cell), None)
    before = next((it for it in store.records if it.cell == cell), None)
    body = backup.images[STORE].body(cell) if backup else bytes(BODY)
    after = record_of(backup, cell) if backup else None
    elsewhere = next((it for it in store.records if after and it.label == after.label and it.cell != cell), None)
    if elsewhere:
        why = f"the label that the backup has in cell {cell} is in cell {elsewhere.cell} today"
        raise Failed(f"{why}: the cell had another one, and can only be made empty, by --empty")
    return Repair(cell, damage, before, after, body)


def record_of(backup: Backup, cell: int) -> Record | None:
    """The record that a cell has in a backup."""
    if STORE not in backup.images:
        raise Failed(f"{backup.folder} has no {STORE.name}", Exit.USAGE)
    store = read_store(backup.images[STORE], backup.manifest.registers)
    for damage in store.damaged:
        if damage.cell == cell:
            raise Failed(f"in the backup {damage}", Exit.LOOK)
    return next((it for it in store.records if it.cell == cell), None)


def check_running(files: Files, repair: Repair) -> None:
    """A cca that runs has in memory which label and which pattern each cell has: it must find these there."""
    found = files.store.body(repair.cell)
    fields = (LABEL_FIELD, *PATTERN_FIELDS)
    if files.is_running and any(found[it] != repair.body[it] for it in fields):
        raise Failed("the running cca may have another label in this cell than the backup: stop the front first")


def image_after(files: Files, repair: Repair) -> Image:
    """The store as it will be."""
    data, at = bytearray(files.store.data), CELL * repair.cell
    active = files.store.selector(repair.cell) % 2
    other = at + SECTOR * (2 - active)
    data[other : other + BODY] = repair.body
    data[at] = 1 - active
    return Image(STORE, files.store.path, bytes(data))


def check_after(place: Place, files: Files, repair: Repair, wanted: Values | None, base: str | None) -> None:
    """cca must open the store as it will be, and the label must have the check value that it had in the backup."""
    after = image_after(files, repair)
    others = read_store(after, read_module(files.module).registers).damaged
    if any(it.cell == repair.cell for it in others):
        raise Failed(f"the cell would be damaged still: {next(it.why for it in others if it.cell == repair.cell)}", Exit.LOOK)
    if others:
        first = f"cell {others[0].cell} is the first"
        return tell(f"{len(others)} other cells are damaged, so that cca can't open the store yet: {first}")
    try:
        values = proved(place.program, files.module, after, base)
    except NoTester as no_tester:
        return tell(f"ccactl: {no_tester}")
    label = repair.after.label if repair.after else None
    if label and wanted is not None and values[label] != wanted.get(label):
        raise Failed(f"{label}: the check value isn't the one that it had in the backup", Exit.LOOK)


# ---- doing it


def write_at(file: int, place: int, data: bytes) -> None:
    """Writes bytes at a place, and waits until they are on the drive."""
    os.lseek(file, place, os.SEEK_SET)
    write_all(file, data)
    os.fsync(file)


def written(files: Files, repair: Repair) -> None:
    """Writes the copy that isn't active, and makes it the active one."""
    begin, active = CELL * repair.cell, files.store.selector(repair.cell) % 2
    with unbroken():
        write_at(files.store_file, begin + SECTOR * (2 - active), repair.body)
        write_at(files.store_file, begin, bytes([1 - active]))


def add(words: argparse.ArgumentParser) -> None:
    words.add_argument("cell", metavar="N", type=int, help="the number of the cell, as `ccactl store` tells it")
    source = words.add_mutually_exclusive_group(required=True)
    source.add_argument("--from", dest="backup", metavar="DIR", help="a backup with the same registers, which has the store")
    source.add_argument("--empty", action="store_true", help="make the cell empty: the label that it had is lost")
    words.add_argument("--yes", action="store_true", help="do it; else it is only shown")
    words.add_argument("--valid-too", action="store_true", help="also where the cell isn't damaged")
    add_scratch(words)
    add_place(words)
    add_json(words)


def run(given: argparse.Namespace) -> int:
    if not 0 <= given.cell < STORE.cells:
        raise Failed(f"a store has the cells 0 to {STORE.cells - 1}", Exit.USAGE)
    place, backup = place_of(given), read_backup(given.backup) if given.backup else None
    with files_of(place) as files:
        repair = repair_of(files, backup, given.cell)
        if repair.damage is None and not given.valid_too:
            raise Failed(f"cell {given.cell} isn't damaged: {repair.before or 'it has no record'}", Exit.USAGE)
        check_running(files, repair)
        check_after(place, files, repair, backup.manifest.values if backup else None, given.scratch)
        if given.yes:
            written(files, repair)
    lines = [*repair.lines(), "repaired" if given.yes else "nothing was changed yet: --yes does it"]
    show(given.json, {"cell": repair.cell, "is_repaired": given.yes, "lines": lines}, lines)
    return Exit.WELL if given.yes else Exit.WRONG


COMMANDS = (Command("repair-cell", "put one damaged cell of the store right, out of a backup", add, run),)
