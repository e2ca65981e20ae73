"""Files that are written whole or not at all: they are on the drive before their name is, and the name before anyone is
told."""
import os
import tempfile

PRIVATE = 0o600


def sync_folder(folder: str) -> None:
    """Waits until the names in a folder are on the drive."""
    file = os.open(folder or ".", os.O_RDONLY | os.O_DIRECTORY | os.O_CLOEXEC)
    try:
        os.fsync(file)
    finally:
        os.close(file)


def write_all(file: int, data: bytes) -> None:
    left = memoryview(data)
    while left:
        left = left[os.write(file, left) :]


def write_new(path: str, data: bytes, mode: int = PRIVATE) -> None:
    """A new file with these bytes, which are on the drive then. Nothing may have its name."""
    file = os.open(path, os.O_WRONLY | os.O_CREAT | os.O_EXCL | os.O_NOFOLLOW | os.O_CLOEXEC, PRIVATE)
    try:
        os.fchmod(file, mode)
        write_all(file, data)
        os.fsync(file)
    finally:
        os.close(file)


def replace(path: str, data: bytes, mode: int = PRIVATE) -> None:
    """Puts a file with these bytes in the place of one, or of none."""
    folder = os.path.dirname(path) or "."
    file, beside = tempfile.mkstemp(prefix=f".{os.path.basename(path)}.", dir=folder)
    try:
        os.fchmod(file, mode)
        write_all(file, data)
        os.fsync(file)
        os.rename(beside, path)
    except BaseException:
        os.unlink(beside)
        raise
    finally:
        os.close(file)
    sync_folder(folder)
