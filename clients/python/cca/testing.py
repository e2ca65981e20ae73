"""A module for tests: a scratch folder with a master key, roles and known keys under labels.

    from cca.testing import module

    with module() as it:
        it.cca.encipher(Label("TEST.DATA"), bytes(8), iv=bytes(8))

Its keys are in this file, and are secret to nobody: never use them elsewhere.
"""
import errno
import os
import shutil
import tempfile
from collections.abc import Iterator
from contextlib import contextmanager
from dataclasses import dataclass, field
from pathlib import Path

from .coprocessor import Coprocessor
from .values import Token

MASTER_KEY = bytes.fromhex("8e4a6f7120cb9d13f5b80e62a7d43c59e1906bd8351f7c42")
SINGLE, DOUBLE = "c12f7a5e9b3d4086", "3ba47c1501ef98d65e926dfb20c84a37"
TRANSPORT = "4f61a2b3c4d5e6f7081a2b3c4d5e6f70"


@dataclass(frozen=True)
class KnownKey:
    """A key of the module: its type and its clear bytes."""

    type: str
    clear: bytes


KEYS: dict[str, KnownKey] = {
    f"TEST.{name}": KnownKey(kind, bytes.fromhex(clear))
    for name, kind, clear in (
        ("DATA", "DATA", SINGLE),
        ("DATA.16", "DATA", DOUBLE),
        ("CIPHER", "CIPHER", SINGLE),
        ("MAC", "MAC", SINGLE),
        ("MACVER", "MACVER", SINGLE),
        ("MAC.16", "MAC", DOUBLE),
        ("MACVER.16", "MACVER", DOUBLE),
        ("EXPORTER", "EXPORTER", TRANSPORT),
        ("IMPORTER", "IMPORTER", TRANSPORT),
        ("OKEYXLAT", "OKEYXLAT", TRANSPORT),
        ("IKEYXLAT", "IKEYXLAT", TRANSPORT),
    )
}
# DEFAULT keeps every access control point.
ROLES: dict[str, tuple[str, ...]] = {
    "TELLER": ("ENC", "DEC", "MGN", "MVR", "KYT"),
    "OFFICER": ("KYT", "CKI", "KGN_OP", "KIM", "KEX", "PEX", "KRC", "KRW", "KRD", "KRL"),
    "NOTHING": (),
}


@dataclass
class Module:
    """A module for tests: its folder, the coprocessor over it, and what it holds."""

    folder: Path
    cca: Coprocessor
    master_key: bytes = MASTER_KEY
    keys: dict[str, KnownKey] = field(default_factory=lambda: dict(KEYS))
    roles: dict[str, tuple[str, ...]] = field(default_factory=lambda: dict(ROLES))


def fill(cca: Coprocessor) -> None:
    """Sets the master key of a new module, defines its roles, and stores its keys."""
    cca.master_key_process("FIRST", MASTER_KEY)
    cca.master_key_process("LAST", bytes(len(MASTER_KEY)))
    cca.master_key_process("SET")
    for name, points in ROLES.items():
        cca.role_define(name, points)
    for label, key in KEYS.items():
        cca.record_create(label)
        part = cca.key_part_import("FIRST", key.clear, type=key.type)
        assert isinstance(part, Token)
        cca.key_part_import("LAST", bytes(len(key.clear)), key=part, to=label)


def must_be_new(folder: str | os.PathLike[str]) -> None:
    """A module for tests takes the place of no other one: FileExistsError is raised where one is there."""
    for name in ("cca.module", "cca.store", "cca.trail"):
        if os.path.lexists(Path(folder) / name):
            raise FileExistsError(errno.EEXIST, "a module for tests needs an empty folder", str(Path(folder) / name))


def make_template(folder: str | os.PathLike[str], program: str | os.PathLike[str] | None = None) -> None:
    """Makes the files of such a module in an empty folder, to be copied."""
    must_be_new(folder)
    with Coprocessor(folder, program=program) as cca:
        fill(cca)


@contextmanager
def module(
    folder: str | os.PathLike[str] | None = None,
    *,
    template: str | os.PathLike[str] | None = None,
    program: str | os.PathLike[str] | None = None,
    audit: bool = False,
) -> Iterator[Module]:
    """A module for tests, in an empty folder or in a scratch folder that goes at the end; with a template a copy of its files."""
    if folder is None:
        with tempfile.TemporaryDirectory(prefix="cca-module-") as scratch, module(
            scratch, template=template, program=program, audit=audit
        ) as it:
            yield it
        return
    must_be_new(folder)
    with Coprocessor(folder, audit, program=program) as cca:
        if template is None:
            fill(cca)
        else:
            for name in ("cca.module", "cca.store"):
                shutil.copyfile(Path(template) / name, Path(folder) / name)
        yield Module(Path(folder), cca)
