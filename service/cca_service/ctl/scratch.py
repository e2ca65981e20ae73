"""A folder for files that hold keys in clear, as the copy of a module that cca opens: private, in memory where it can be, wiped
after.

What a program that was killed has left is wiped by the next one: each folder is locked as long as it is used.
"""
import fcntl
import os
import stat
import tempfile
import time
from collections.abc import Iterator
from contextlib import contextmanager
from pathlib import Path

IN_MEMORY = "/dev/shm"
PREFIX = "ccactl-"
CHUNK = 1 << 20
YOUNG = 60.0  # seconds in which the program that makes a folder locks it


def base_folder() -> str:
    """Where scratch folders are: a file system in memory, if there is one that may be written."""
    return IN_MEMORY if os.path.isdir(IN_MEMORY) and os.access(IN_MEMORY, os.W_OK) else tempfile.gettempdir()


def wiped(path: Path) -> None:
    """Overwrites a file with zeros, and removes it."""
    file = os.open(path, os.O_WRONLY | os.O_NOFOLLOW | os.O_CLOEXEC)
    try:
        left = os.fstat(file).st_size
        while left > 0:
            left -= os.write(file, bytes(min(left, CHUNK)))
        os.fsync(file)
    finally:
        os.close(file)
    path.unlink()


def removed(folder: Path) -> None:
    """Wipes the files of a folder, and removes it."""
    for path in list(folder.iterdir()):
        if path.is_symlink() or not path.is_file():
            path.unlink()
        else:
            wiped(path)
    folder.rmdir()


def lock_of(folder: Path) -> int | None:
    """The lock of a folder, unless a program has it."""
    file = os.open(folder, os.O_RDONLY | os.O_DIRECTORY | os.O_NOFOLLOW | os.O_CLOEXEC)
    try:
        fcntl.flock(file, fcntl.LOCK_EX | fcntl.LOCK_NB)
        return file
    except BlockingIOError:
        os.close(file)
        return None


def removed_if_unused(path: str) -> bool:
    """Wipes a folder that no program uses. Whether that was so."""
    lock = lock_of(Path(path))
    if lock is None:
        return False
    try:
        removed(Path(path))
    finally:
        os.close(lock)
    return True


def sweep(base: Path) -> None:
    """Wipes what programs of this user have left that were killed."""
    for folder in base.glob(f"{PREFIX}*"):
        try:
            found = folder.lstat()
            is_left = found.st_uid == os.getuid() and stat.S_ISDIR(found.st_mode) and found.st_mtime < time.time() - YOUNG
            lock = lock_of(folder) if is_left else None
        except OSError:
            continue  # another one has just wiped it
        if lock is None:
            continue
        try:
            removed(folder)
        except OSError:
            pass
        finally:
            os.close(lock)


@contextmanager
def scratch(base: str | None = None) -> Iterator[Path]:
    """A folder of this program's own."""
    where = Path(base or base_folder())
    sweep(where)
    folder = Path(tempfile.mkdtemp(prefix=PREFIX, dir=where))
    lock = lock_of(folder)
    try:
        yield folder
    finally:
        removed(folder)
        if lock is not None:
            os.close(lock)
