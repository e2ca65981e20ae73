"""Where the files of a service are, and how they are read at one moment: while the front holds requests, or under the files'
locks."""
import argparse
import fcntl
import os
import time
from collections.abc import Iterator, Sequence
from contextlib import contextmanager
from typing import NamedTuple

from cca_service.ctl.asking import Control, Unreached, held
from cca_service.ctl.command import SETTINGS, Exit, Failed
from cca_service.ctl.files import MODULE, STORE, Image, Kind, opened, read_file, read_open, size_told
from cca_service.settings import SettingsError, read_settings

TRIES = 3  # holds that may end by time before a copy is of one moment
PATIENCE = 3.0  # seconds until the files' locks are free
PAUSE = 0.05
NAMED = "CCA_FRONT"  # the variable that names the settings


class InUse(Failed):
    """Another program has the files, or a front has the folder."""


class Place(NamedTuple):
    """What the settings or the words say of a service."""

    folder: str
    control: str | None
    program: str
    audit: str | None


class Snapshot(NamedTuple):
    """The files of a folder at one moment. A file that isn't there has no image."""

    folder: str
    images: dict[Kind, Image]

    def image(self, kind: Kind) -> Image:
        if kind not in self.images:
            raise Failed(f"{self.folder} has no {kind.name}", Exit.LOOK)
        return self.images[kind]

    def whole(self, kind: Kind) -> Image:
        """The image of a file that has its size."""
        image = self.image(kind)
        for told in size_told(image):
            raise Failed(told, Exit.LOOK)
        return image


def add_place(words: argparse.ArgumentParser) -> None:
    words.add_argument("--config", metavar="FILE", help=f"the front's settings: else what {NAMED} names, else {SETTINGS}")
    words.add_argument("--folder", help="the folder of the files, in place of that of the settings")
    words.add_argument("--control", metavar="SOCKET", help="the front's own socket, in place of that of the settings")
    words.add_argument("--program", help="the program cca, in place of that of the settings")


def place_of(given: argparse.Namespace) -> Place:
    """The place that the words name. Where they name a folder alone the settings aren't read."""
    settings = None
    if given.config or not given.folder:
        try:
            settings = read_settings(os.path.abspath(given.config or os.environ.get(NAMED) or SETTINGS))
        except SettingsError as error:
            raise Failed(str(error), Exit.USAGE) from None
    return Place(
        folder=given.folder or (settings.folder if settings else "."),
        control=given.control or getattr(settings, "control", None),
        program=given.program or os.environ.get("CCA") or (settings.program if settings else "cca"),
        audit=settings.audit if settings else None,
    )


def path_in(folder: str, kind: Kind) -> str:
    return os.path.join(folder, kind.name)


# ---- reading them


def read_folder(folder: str, kinds: Sequence[Kind]) -> Snapshot:
    """The files that are there, while nobody writes them."""
    images: dict[Kind, Image] = {}
    for kind in kinds:
        try:
            images[kind] = read_file(path_in(folder, kind), kind)
        except FileNotFoundError:
            pass
    return Snapshot(folder, images)


def check_folder(place: Place, folder: str) -> None:
    """The front must have the folder that was named."""
    if os.path.realpath(folder) != os.path.realpath(place.folder):
        raise Failed(f"the front at {place.control} has the folder {folder}, and not {place.folder}", Exit.USAGE)


def held_snapshot(place: Place, control: Control, kinds: Sequence[Kind]) -> Snapshot:
    """The files while the front holds requests, for some milliseconds. A hold that ended by time is asked for again."""
    for _ in range(TRIES):
        with held(control) as hold:
            check_folder(place, hold.folder)
            found = read_folder(hold.folder, kinds)
            if hold.release():
                return found
    raise Failed(f"the front went on {TRIES} times before the files were read: the drive is slow, or the machine")


def locked_snapshot(folder: str, kinds: Sequence[Kind]) -> Snapshot:
    """The files under their own locks, where no front and no cca has them."""
    with locked(folder, kinds, fcntl.LOCK_SH) as files:
        return Snapshot(folder, {kind: read_open(file, kind, path_in(folder, kind)) for kind, file in files.items()})


def snapshot(place: Place, kinds: Sequence[Kind] = (MODULE, STORE)) -> Snapshot:
    """The files at one moment: by a hold where the front has its own socket, and else by their locks."""
    unreached: Unreached | None = None
    if place.control:
        try:
            with Control(place.control) as control:
                return held_snapshot(place, control, kinds)
        except Unreached as error:
            unreached = error
    try:
        return locked_snapshot(place.folder, kinds)
    except InUse as in_use:
        raise unreached or in_use from None


# ---- their locks


def try_lock(file: int, operation: int) -> bool:
    try:
        fcntl.flock(file, operation | fcntl.LOCK_NB)
        return True
    except BlockingIOError:
        return False


def is_still(file: int, path: str) -> bool:
    """Whether a path still has the file that was opened."""
    try:
        return os.path.samestat(os.fstat(file), os.stat(path))
    except FileNotFoundError:
        return False


def lock_file(path: str, flags: int, operation: int, until: float) -> int:
    """The descriptor of a file with a lock, which is held until it is closed."""
    while True:
        file = opened(path, flags)
        try:
            if try_lock(file, operation) and is_still(file, path):
                locked, file = file, -1
                return locked
        finally:
            if file >= 0:
                os.close(file)
        if time.monotonic() > until:
            raise InUse(f"{path} is in use: by a front whose own socket wasn't named, or by a cca")
        time.sleep(PAUSE)


@contextmanager
def locked(
    folder: str, kinds: Sequence[Kind], operation: int, flags: int = os.O_RDONLY, patience: float = PATIENCE
) -> Iterator[dict[Kind, int]]:
    """The files that are there, each with its lock, which keeps every cca out."""
    until = time.monotonic() + patience
    files: dict[Kind, int] = {}
    try:
        for kind in kinds:
            try:
                files[kind] = lock_file(path_in(folder, kind), flags, operation, until)
            except FileNotFoundError:
                pass
        yield files
    finally:
        for file in files.values():
            os.close(file)


@contextmanager
def without_front(folder: str) -> Iterator[int]:
    """The folder, with the lock that a front takes: none can begin, and InUse is raised where one runs."""
    file = os.open(folder, os.O_RDONLY | os.O_DIRECTORY | os.O_CLOEXEC)
    try:
        if not try_lock(file, fcntl.LOCK_EX):
            raise InUse(f"a front has {folder}: stop it first")
        yield file
    finally:
        os.close(file)
