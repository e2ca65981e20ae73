"""Reads the files of cca by docs/FORMATS.md: each cell by its number, with why it is damaged where it is, and never a key.

A file is read as a whole into an image. What an image holds is no part of anything that is printed, told or raised.
"""
import hashlib
import os
import re
import stat
from collections.abc import Callable, Iterator
from dataclasses import dataclass, field
from itertools import pairwise
from typing import NamedTuple, TypeVar

from cca.lines import ALL_POINTS
from cca.rows import POINTS
from cca.tokens import CLASSES, EXPORT, INTERNAL, PART, UNIQUE, bit, broken_rule, form_of

from cca_service.ctl.command import Exit, Failed

T = TypeVar("T")
CELL, BODY, SECTOR = 1536, 192, 512
ROLE = re.compile(rb"[A-Z][A-Z0-9]{0,7}")
VERB = re.compile(rb"[A-Z]{1,10}")
LABEL = re.compile(rb"[A-Z#$@][A-Z0-9#$@.]{0,63}")
DEFAULT = "DEFAULT"
NUMBERS = 1 << 63
NULL, SINGLE, DOUBLE = 1, 2, 3  # the kinds of a record: no key, one token, two tokens
FLAG = 0xC0


class Kind(NamedTuple):
    """A file of cca: its name, and the number of its cells."""

    name: str
    cells: int

    @property
    def size(self) -> int:
        return CELL * self.cells


MODULE, STORE, TRAIL = Kind("cca.module", 33), Kind("cca.store", 1024), Kind("cca.trail", 4096)


@dataclass(frozen=True)
class Image:
    """The bytes of a file at one moment. They are never shown."""

    kind: Kind
    path: str
    data: bytes = field(repr=False)

    @property
    def sha256(self) -> str:
        return hashlib.sha256(self.data).hexdigest()

    @property
    def is_whole(self) -> bool:
        return len(self.data) == self.kind.size

    def body(self, cell: int) -> bytes:
        """The active copy of a cell: the selector byte says which of two it is. What a cut file lacks is zero."""
        return self.copy(cell, self.selector(cell) % 2)

    def copy(self, cell: int, which: int) -> bytes:
        at = CELL * cell + SECTOR * (1 + which)
        return self.data[at : at + BODY].ljust(BODY, b"\0")

    def selector(self, cell: int) -> int:
        at = CELL * cell
        return self.data[at] if at < len(self.data) else 0


class Damage(NamedTuple):
    """A cell that isn't valid, and why."""

    cell: int
    why: str

    def __str__(self) -> str:
        return f"cell {self.cell} is damaged: {self.why}"


class Invalid(Exception):
    """Why the bytes of a cell aren't valid."""


def read_open(file: int, kind: Kind, path: str) -> Image:
    """The image of an open file. Of one that is too long only a byte too many is read."""
    if not stat.S_ISREG(os.fstat(file).st_mode):
        raise Failed(f"{path} is no regular file", Exit.LOOK)
    data, wanted = bytearray(), kind.size + 1
    while len(data) < wanted and (chunk := os.pread(file, wanted - len(data), len(data))):
        data += chunk
    return Image(kind, path, bytes(data))


def opened(path: str, flags: int = os.O_RDONLY) -> int:
    """The descriptor of a file; a pipe in its place holds up nobody."""
    return os.open(path, flags | os.O_CLOEXEC | os.O_NONBLOCK | os.O_NOCTTY)


def read_file(path: str, kind: Kind) -> Image:
    """The image of a file that nobody writes."""
    file = opened(path)
    try:
        return read_open(file, kind, path)
    finally:
        os.close(file)


def size_told(image: Image) -> list[str]:
    """What is to be told of the size of a file."""
    if image.is_whole:
        return []
    found = f"{len(image.data)} bytes" if len(image.data) <= image.kind.size else f"more than {image.kind.size} bytes"
    return [f"{image.path} has {found}: a file of this name has {image.kind.size}"]


def need(is_kept: bool, why: str) -> None:
    """Raises why a cell isn't valid, unless a rule is kept."""
    if not is_kept:
        raise Invalid(why)


def named(held: bytes, length: int, form: re.Pattern[bytes], what: str) -> str:
    """A text that is filled with zeros, of a length that a byte names."""
    need(1 <= length <= len(held), f"the length of the {what} is {length}")
    need(form.fullmatch(held[:length]) is not None, f"the {what} has characters that none has")
    need(not any(held[length:]), f"there are bytes behind the {what}")
    return held[:length].decode("ascii")


# ---- the module


class Register(NamedTuple):
    """A master key register: its state, and the verification pattern of a full one."""

    name: str
    state: str
    pattern: str | None

    def __str__(self) -> str:
        return f"{self.name} master key: {self.state}" + (f", pattern {self.pattern}" if self.pattern else "")


class Registers(NamedTuple):
    """The three master key registers."""

    new: Register
    current: Register
    old: Register


class Role(NamedTuple):
    """A role, in its cell, with its access control points."""

    cell: int
    name: str
    points: int

    @property
    def definition(self) -> str:
        return f"CSUAACI role={DEFAULT} action=DEFINE name={self.name} points={self.points:08x}"


class Module(NamedTuple):
    """What a module file holds. There are no registers where their cell is damaged."""

    registers: Registers | None
    roles: tuple[Role, ...]
    damaged: tuple[Damage, ...]


EMPTY = Registers(*(Register(name, "empty", None) for name in Registers._fields))
STATES = {"new": ("empty", "partial", "full"), "current": ("empty", "full"), "old": ("empty", "full")}


def pattern(key: bytes) -> str:
    """The verification pattern of a master key, which isn't secret."""
    return hashlib.sha1(b"\x01" + key).digest()[:8].hex()


def point_names(points: int) -> str:
    """The names of access control points; those of a later version by their number."""
    if points == ALL_POINTS:
        return "every point"
    later = points & ~ALL_POINTS
    names = [name for name, value in POINTS.items() if points & value] + ([f"{later:08x}"] if later else [])
    return " ".join(names) or "no point"


def read_register(body: bytes, number: int) -> Register:
    name = Registers._fields[number]
    state, key = body[1 + number], body[8 + 24 * number : 32 + 24 * number]
    need(state < len(STATES[name]), f"the {name} register has the state {state}")
    need(state != 0 or not any(key), f"the {name} register is empty, and its bytes aren't zero")
    told = STATES[name][state]
    return Register(name, told, pattern(key) if told == "full" else None)


def read_registers(body: bytes) -> Registers:
    """The registers of cell 0. Zeros are three empty ones."""
    if not any(body):
        return EMPTY
    need(body[0] == 1, f"byte 0 is {body[0]:02x}")
    need(not any(body[4:8]) and not any(body[80:]), "bytes aren't zero that nothing is in")
    it = Registers(*(read_register(body, number) for number in range(3)))
    is_another = it.current.pattern not in (None, it.old.pattern)
    why = "the old register is full, and the current one is empty or has the same pattern"
    need(it.old.state == "empty" or is_another, why)
    return it


def role_name(body: bytes) -> str:
    need(body[0] == 1, f"byte 0 is {body[0]:02x}")
    return named(body[2:10], body[1], ROLE, "role's name")


def read_role(body: bytes, cell: int) -> Role | None:
    """The role of a cell, or none. A blank first cell is DEFAULT with every point."""
    if not any(body):
        return Role(cell, DEFAULT, ALL_POINTS) if cell == 1 else None
    name, points = role_name(body), int.from_bytes(body[10:14], "big")
    need((name == DEFAULT) == (cell == 1), f"{name} can't be in this cell")
    need(not points & ~ALL_POINTS, f"the role {name} has points that this version doesn't know: {points & ~ALL_POINTS:08x}")
    need(not any(body[14:]), "bytes aren't zero that nothing is in")
    return Role(cell, name, points)


def role_points(image: Image) -> Iterator[tuple[int, str, int]]:
    """The cell, the name and the points of each role, whatever points these are."""
    for cell in range(1, MODULE.cells):
        body = image.body(cell)
        try:
            it = (role_name(body), int.from_bytes(body[10:14], "big")) if any(body) else None
        except Invalid:
            continue
        if it:
            yield cell, *it


def found_in(cells: range, read: Callable[[int], T | None]) -> tuple[list[T], list[Damage]]:
    """What some cells hold, and those that are damaged."""
    found: list[T] = []
    damaged: list[Damage] = []
    for cell in cells:
        try:
            it = read(cell)
        except Invalid as invalid:
            damaged.append(Damage(cell, str(invalid)))
        else:
            found += [] if it is None else [it]
    return found, damaged


class Names:
    """The names that were seen, each with its first cell: in a higher cell it is damage."""

    def __init__(self) -> None:
        self.cells: dict[str, int] = {}

    def see(self, name: str, cell: int) -> None:
        first = self.cells.setdefault(name, cell)
        need(first == cell, f"cell {first} has the name {name} too")


def read_module(image: Image) -> Module:
    """What the cells of a module hold."""
    names = Names()

    def role(cell: int) -> Role | None:
        it = read_role(image.body(cell), cell)
        if it:
            names.see(it.name, cell)
        return it

    registers, damaged = found_in(range(1), lambda cell: read_registers(image.body(cell)))
    roles, others = found_in(range(1, MODULE.cells), role)
    return Module(registers[0] if registers else None, tuple(roles), (*damaged, *others))


# ---- the store


class Record(NamedTuple):
    """The record of a label, in its cell. Its state is null, current, old or staged; or held, where no registers are known."""

    cell: int
    label: str
    state: str
    key_class: str = "-"
    length: str = "-"
    vector: str = "-"
    is_part: bool = False
    may_be_exported: bool = False

    def __str__(self) -> str:
        if self.state == "null":
            return f"cell {self.cell}: {self.label} null"
        words = ("key-part",) if self.is_part else ()
        words += () if self.may_be_exported else ("no-export",)
        return " ".join([f"cell {self.cell}: {self.label} {self.state} {self.key_class} {self.length} {self.vector}", *words])


class Store(NamedTuple):
    """What a store file holds."""

    records: tuple[Record, ...]
    damaged: tuple[Damage, ...]


def check_token(token: bytes) -> None:
    """The first token of a record keeps the rules 09 to 16, and has the flag that internal tokens have."""
    need(token[0] == INTERNAL, "its token breaks rule 09")
    rule = broken_rule(token)
    need(rule is None, f"its token breaks rule {rule or 0:02}")
    need(token[6] == FLAG, f"its token has the flag {token[6]:02x}")


def check_second(body: bytes, vector: bytes) -> None:
    """The second token has the vector of the first, and so the right half of a single-length key is zero."""
    need(any(vector[8:]) or not any(body[146:154]), "the second token of a single-length key has a right half")
    need(not any(body[154:]), "bytes aren't zero that nothing is in")


def key_state(body: bytes, registers: Registers | None) -> str:
    """Under which master key a record has its key."""
    if registers is None:
        return "held"
    of = {it.pattern: it.name for it in (registers.old, registers.current) if it.pattern}
    first, second = body[74:82].hex(), body[130:138].hex()
    if body[0] == DOUBLE and second in of:
        return of[second]
    if body[0] == DOUBLE:
        need(second == registers.new.pattern, f"its second token is under no register: pattern {second}")
        need(first == registers.current.pattern, f"it is staged, and not under the current master key: pattern {first}")
        return "staged"
    need(first in of, f"its token is under neither the current nor the old master key: pattern {first}")
    return of[first]


def read_record(body: bytes, cell: int, registers: Registers | None) -> Record | None:
    """The record of a cell, or none."""
    if not any(body):
        return None
    kind, token = body[0], body[66:130]
    need(kind in (NULL, SINGLE, DOUBLE), f"byte 0 is {kind:02x}")
    label = named(body[2:66], body[1], LABEL, "label")
    if kind == NULL:
        need(not any(body[66:]), "it has no key, and bytes aren't zero behind the label")
        return Record(cell, label, "null")
    check_token(token)
    vector = token[32:48]
    if kind == DOUBLE:
        check_second(body, vector)
    else:
        need(not any(body[130:]), "bytes aren't zero behind its token")
    return Record(cell, label, key_state(body, registers), *described(vector))


def described(vector: bytes) -> tuple[str, str, str, bool, bool]:
    """What a control vector says of its key: the class, the length, the vector, whether it is a part and may be exported."""
    left = vector[:8]
    length = "8" if not any(vector[8:]) else "DOUBLE-O" if form_of(left) == UNIQUE else "16"
    may_be_exported = not any(vector) or bool(bit(left, EXPORT))
    return CLASSES.get(left[1], "OTHER"), length, vector.hex(), bool(bit(left, PART)), may_be_exported


def read_store(image: Image, registers: Registers | None) -> Store:
    """What the cells of a store hold. Without registers it isn't asked which master key a token is under."""
    names = Names()

    def record(cell: int) -> Record | None:
        it = read_record(image.body(cell), cell, registers)
        if it:
            names.see(it.label, cell)
        return it

    records, damaged = found_in(range(STORE.cells), record)
    return Store(tuple(records), tuple(damaged))


# ---- the trail


class Entry(NamedTuple):
    """A record of the trail, as `cca trail` prints it."""

    number: int
    rule: int
    role: str
    verb: str
    label: str

    def __str__(self) -> str:
        return f"{self.number} {self.rule:02} {self.role} {self.verb} {self.label}"


class Trail(NamedTuple):
    """What a trail file holds: the whole records in ascending order, the damaged cells, and the first and last numbers of each
    gap."""

    entries: tuple[Entry, ...]
    damaged: tuple[Damage, ...]
    gaps: tuple[tuple[int, int], ...]

    @property
    def last(self) -> int:
        """The greatest number, or -1 where there is no record."""
        return self.entries[-1].number if self.entries else -1


def text_or_none(held: bytes, form: re.Pattern[bytes], what: str) -> str:
    """A text that is filled with zeros, or `-` where there is none."""
    found = held.rstrip(b"\0")
    return named(held, len(found), form, what) if found else "-"


def read_entry(body: bytes, cell: int) -> Entry | None:
    """The record of a cell, or none."""
    if not any(body):
        return None
    number, rule, length = int.from_bytes(body[2:10], "big"), body[1], body[28]
    need(body[0] == 1, f"byte 0 is {body[0]:02x}")
    need(rule < 100, f"the rule is {rule}")
    need(number < NUMBERS and number % TRAIL.cells == cell, f"the number {number} belongs to another cell")
    role, verb = text_or_none(body[10:18], ROLE, "role's name"), text_or_none(body[18:28], VERB, "verb")
    label = text_or_none(body[29:93], LABEL, "label")
    need(length == (0 if label == "-" else len(label)), f"the length of the label is {length}")
    need(not any(body[93:]), "bytes aren't zero that nothing is in")
    return Entry(number, rule, role, verb, label)


def read_trail(image: Image) -> Trail:
    """What the cells of a trail hold. The newest 4,096 numbers should be there; others are older than they should be, which is
    told where each cell is valid by itself, as the greatest number is only known then."""
    entries, damaged = found_in(range(TRAIL.cells), lambda cell: read_entry(image.body(cell), cell))
    entries.sort()
    first = max(0, entries[-1].number - TRAIL.cells + 1) if entries else 0
    old = [it for it in entries if it.number < first]
    gaps = tuple(missing([first - 1, *(it.number for it in entries[len(old) :])]))
    if not damaged:
        told = "it has record {}, which is older than it should be"
        damaged = [Damage(it.number % TRAIL.cells, told.format(it.number)) for it in old]
    return Trail(tuple(entries), tuple(sorted(damaged)), gaps)


def missing(numbers: list[int]) -> Iterator[tuple[int, int]]:
    """The gaps between ascending numbers, each as its first and its last one."""
    for one, other in pairwise(numbers):
        if other > one + 1:
            yield one + 1, other - 1
