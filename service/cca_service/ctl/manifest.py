"""What a backup says of itself, in a file beside the copies: checksums, the registers and roles of that moment, and check
values.

It holds no key. Its checksums find damage; whoever can write to a backup can change both.
"""
import json
import os
import re
from dataclasses import dataclass

from cca.version import VERSION

from cca_service.ctl.asking import Answer, Unreached
from cca_service.ctl.command import Exit, Failed
from cca_service.ctl.files import LABEL, MODULE, ROLE, STORE, Image, Kind, Module, Register, Registers, read_file, size_told
from cca_service.ctl.opening import DIGITS, Values
from cca_service.ctl.shown import registers_listed

NAME = "backup.json"
FORMAT = "cca backup 1"
LONGEST = 1 << 20  # bytes
SUM = re.compile(r"[0-9a-f]{64}")
VALUE = re.compile(rf"[0-9a-f]{{{DIGITS}}}")
PATTERN = re.compile(r"[0-9a-f]{16}")
KINDS = {kind.name: kind for kind in (MODULE, STORE)}


@dataclass(frozen=True)
class Manifest:
    """A backup: when it was made, the checksums of its files, and what module and store were at that moment.

    values: of each label six digits of the check value, or none; no values where no role may test keys. last_record: the number
    of the last record that the trail had, or -1.
    """

    time: str
    sums: dict[Kind, str]
    module_sum: str
    registers: Registers
    roles: dict[str, int]
    values: Values | None
    last_record: int

    def written(self) -> bytes:
        found = {
            "format": FORMAT,
            "time": self.time,
            "made_by": VERSION,
            "files": {kind.name: self.sums[kind] for kind in self.sums},
            "module": self.module_sum,
            "registers": registers_listed(self.registers),
            "roles": self.roles,
            "values": self.values,
            "last_record": self.last_record,
        }
        return (json.dumps(found, indent=1) + "\n").encode()


def parsed(data: bytes, path: str) -> Manifest:
    """A manifest from its bytes. Failed is raised where it isn't one."""
    try:
        found = Answer(json.loads(data), path)
        if found.text("format") != FORMAT:
            raise ValueError
        return read(found)
    except (ValueError, RecursionError, KeyError, TypeError, AttributeError, Unreached):
        raise Failed(f"{path} isn't what a backup says of itself", Exit.LOOK) from None


def need(text: str, form: re.Pattern[str]) -> str:
    if not form.fullmatch(text):
        raise ValueError
    return text


def read(found: Answer) -> Manifest:
    files, registers = found.inner("files"), found.inner("registers")
    roles = found.counts("roles")
    if not all(ROLE.fullmatch(name.encode()) for name in roles) or not roles or not files.found:
        raise ValueError
    return Manifest(
        time=found.text("time"),
        sums={KINDS[name]: need(files.text(name), SUM) for name in files.found},
        module_sum=need(found.text("module"), SUM),
        registers=Registers(*(read_register(name, registers.inner(name)) for name in Registers._fields)),
        roles=roles,
        values=read_values(found.inner_or_none("values")),
        last_record=int(found.real("last_record")) if found.found.get("last_record") != -1 else -1,
    )


def read_register(name: str, found: Answer) -> Register:
    pattern = found.text_or_none("pattern")
    return Register(name, found.text("state"), need(pattern, PATTERN) if pattern is not None else None)


def read_values(found: Answer | None) -> Values | None:
    if found is None:
        return None
    values: Values = {}
    for label in found.found:
        value = found.text_or_none(label)
        if not LABEL.fullmatch(label.encode()):
            raise ValueError
        values[label] = need(value, VALUE) if value is not None else None
    return values


@dataclass(frozen=True)
class Backup:
    """A backup as it is read: what it says of itself, and the files that it has."""

    folder: str
    manifest: Manifest
    images: dict[Kind, Image]


def read_backup(folder: str) -> Backup:
    """A backup, whose files have their checksums."""
    path = os.path.join(folder, NAME)
    with open(path, "rb") as file:
        data = file.read(LONGEST + 1)
    manifest = parsed(data, path)
    images: dict[Kind, Image] = {}
    for kind, wanted in manifest.sums.items():
        image = read_file(os.path.join(folder, kind.name), kind)
        for told in size_told(image):
            raise Failed(told, Exit.LOOK)
        if image.sha256 != wanted:
            raise Failed(f"{image.path} was changed, or is damaged: its SHA-256 isn't that of {path}", Exit.LOOK)
        images[kind] = image
    return Backup(folder, manifest, images)


def manifest_of(
    time: str, saved: list[Image], image: Image, module: Module, values: Values | None, last_record: int
) -> Manifest:
    """What a backup of some files says of itself."""
    if module.registers is None:
        raise Failed("the registers of the module are damaged", Exit.LOOK)
    return Manifest(
        time=time,
        sums={it.kind: it.sha256 for it in saved},
        module_sum=image.sha256,
        registers=module.registers,
        roles={it.name: it.points for it in module.roles},
        values=values,
        last_record=last_record,
    )
