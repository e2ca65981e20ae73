"""The program that the front starts: the file that it found when it was told so, and no other one that has its name later.

The file is kept open, and started by its descriptor. Whoever may run it may not read it where it is installed (mode 0711),
and then the front can't know its checksum: root writes that, before the front starts, into a file that root alone may write.
"""
import hashlib
import json
import os
import shutil
import stat
from pathlib import Path
from typing import NamedTuple

from cca_service.connections import Stop

CHUNK = 1 << 20
NAMED = Path(__file__).resolve().parents[1] / "programs"  # of the package: the checksum and the version of its program
WRITTEN_BY_OTHERS = stat.S_IWGRP | stat.S_IWOTH


class Look(Stop):
    """The front can't go on, and someone must look first."""


class Identity(NamedTuple):
    """Which file it is, and whether it is as it was."""

    device: int
    inode: int
    size: int
    modified: int  # nanoseconds


def identity(found: os.stat_result) -> Identity:
    return Identity(found.st_dev, found.st_ino, found.st_size, found.st_mtime_ns)


def path_of(program: str) -> str:
    """The path of a program, which may be one on PATH."""
    path = os.path.abspath(program) if "/" in program else shutil.which(program)
    if path is None:
        raise Stop(f"there is no program {program} on the path")
    return os.path.realpath(path)


def checksum(file: int) -> str:
    """The SHA-256 of an open file."""
    total, place = hashlib.sha256(), 0
    while chunk := os.pread(file, CHUNK, place):
        total.update(chunk)
        place += len(chunk)
    return total.hexdigest()


def opened(path: str) -> tuple[int, bool]:
    """The descriptor of a program, and whether it can be read."""
    try:
        return os.open(path, os.O_RDONLY | os.O_CLOEXEC), True
    except PermissionError:
        return os.open(path, os.O_PATH | os.O_CLOEXEC), False


def versions() -> dict[str, str]:
    """The versions of programs that the package knows, by their checksums."""
    try:
        return dict(line.split() for line in NAMED.read_text().splitlines())
    except (OSError, ValueError):
        return {}


class Program:
    """The file of a program, as it was found."""

    def __init__(self, name: str, sums: str | None):
        self.name, self.sums = name, sums
        self.path = path_of(name)
        self.file, self.is_readable = opened(self.path)
        try:
            found = os.fstat(self.file)
            if not stat.S_ISREG(found.st_mode):
                raise Stop(f"{self.path} is no program")
            self.identity = identity(found)
            self.sum = checksum(self.file) if self.is_readable else self.told_sum(self.identity)
        except BaseException:
            self.close()
            raise
        self.other: tuple[Identity, bool] | None = None  # what was found by its name last, and whether that is another program
        self.is_told = False  # whether it was told that another one has its name

    def told_sum(self, wanted: Identity) -> str | None:
        """The checksum that root wrote for this file, if it did."""
        if self.sums is None:
            return None
        try:
            file = os.open(self.sums, os.O_RDONLY | os.O_NOFOLLOW | os.O_CLOEXEC)
        except OSError:
            return None
        with open(file, encoding="utf-8") as told:
            found = os.fstat(file)
            if found.st_uid != 0 or found.st_mode & WRITTEN_BY_OTHERS:
                return None
            return read_sum(told.read(CHUNK), wanted)

    def close(self) -> None:
        os.close(self.file)

    def way(self) -> str:
        """The path by which this very file is started, by whoever has its descriptor. A script too is read by it."""
        now = identity(os.fstat(self.file))
        if now != self.identity and not (self.is_readable and checksum(self.file) == self.sum):
            raise Look(f"{self.path} was changed in its place, and what was started isn't there any more")
        way = f"/proc/self/fd/{self.file}"
        if os.path.exists(way):
            return way
        if self.is_replaced():
            raise Look(f"{self.path} was replaced, and what was started can't be reached without /proc")
        return self.path

    def is_replaced(self) -> bool:
        """Whether another program has its name by now."""
        try:
            now = identity(os.stat(self.path))
        except OSError:
            return True
        if now == self.identity:
            return False
        if self.other is None or self.other[0] != now:
            self.other = now, not self.is_same()
        return self.other[1]

    def is_same(self) -> bool:
        """Whether another file with its name has the same bytes, as far as it can be read."""
        try:
            file, is_readable = opened(self.path)
        except OSError:
            return False
        try:
            found = checksum(file) if is_readable else self.told_sum(identity(os.fstat(file)))
        finally:
            os.close(file)
        return found is not None and found == self.sum

    def shown(self) -> dict[str, object]:
        """What it is, for a log."""
        return {"path": self.path, "sha256": self.sum, "version": versions().get(self.sum or "")}


def read_sum(text: str, wanted: Identity) -> str | None:
    """The checksum of a file that root wrote, if it is that of this file."""
    try:
        told = json.loads(text)
        return str(told["sha256"]) if Identity(*(told[name] for name in Identity._fields)) == wanted else None
    except (ValueError, KeyError, TypeError):
        return None


def sum_text(path: str) -> str:
    """What root writes of a program."""
    file = os.open(path, os.O_RDONLY | os.O_CLOEXEC)
    try:
        found = identity(os.fstat(file))
        return json.dumps({"path": path, **found._asdict(), "sha256": checksum(file)}) + "\n"
    finally:
        os.close(file)
