"""Opens a copy of module and store by cca itself, in a scratch folder, and asks it for the check value of each label.

What cca does there leaves no record in a trail, and changes nothing of the copy that is kept.
"""
import os
import subprocess
from pathlib import Path

from cca import Coprocessor, Ended
from cca.client import PATIENCE
from cca.rows import POINTS

from cca_service.ctl.command import Exit, Failed
from cca_service.ctl.durable import write_new
from cca_service.ctl.files import MODULE, STORE, Image, Module, Record, Role, Store, read_module, read_store
from cca_service.ctl.scratch import scratch

DIGITS = 6  # of a check value that are kept
NO_KEY, KEY_PART = "NO 08 key", "NO 17 key"
KYT, ROLES = POINTS["KYT"], POINTS["ROLES"]
OK = "OK value="

Values = dict[str, str | None]  # of each label six digits; none of one without a key, or with a key part


class NoTester(Failed):
    """No role of the module may test keys."""


def opened(program: str, folder: Path) -> None:
    """Lets cca open the files of a folder, and check every cell."""
    words = [os.path.abspath(program) if "/" in program else program, "run"]
    try:
        it = subprocess.run(words, cwd=folder, stdin=subprocess.DEVNULL, capture_output=True, timeout=PATIENCE)
    except subprocess.TimeoutExpired:
        raise Failed("cca didn't open the copy in time") from None
    if it.returncode:
        why = it.stderr.decode("latin-1").strip() or "no text"
        raise Failed(f"cca doesn't open the copy: exit status {it.returncode}, {why}", Exit.LOOK)


def tester(module: Module) -> Role:
    """A role that may test keys, or may define one that may."""
    for points in (KYT, ROLES):
        for role in module.roles:
            if role.points & points:
                return role
    raise NoTester("no role of the module may test keys, so no check value was compared")


def requests_for(role: Role, records: tuple[Record, ...]) -> list[str]:
    """The requests for the check values, by a role that may ask them."""
    defines = f"CSUAACI role={role.name} action=DEFINE name={role.name} points={ROLES | KYT:08x}"
    first = [] if role.points & KYT else [defines]
    return [*first, *(f"CSNBKYT role={role.name} key=L:{it.label}" for it in records)]


def value_of(record: Record, reply: str) -> str | None:
    """Six digits of a check value, and none where the record has no whole key."""
    if record.state == "null" and reply == NO_KEY or record.is_part and reply == KEY_PART:
        return None
    if not reply.startswith(OK) or record.state == "null" or record.is_part:
        where = f"cell {record.cell}, label {record.label}"
        raise Failed(f"{where}: in the copy the reply for its check value was {reply[:9]}", Exit.LOOK)
    return reply.removeprefix(OK)[:DIGITS]


def values(program: str, folder: Path, module: Module, store: Store) -> Values:
    """The check values of all labels, as cca gives them in a folder."""
    requests = requests_for(tester(module), store.records)
    try:
        with Coprocessor(folder, program=program) as cca:
            replies = cca.ask_all(requests)
    except Ended as ended:
        raise Failed(f"cca ended in the copy: {ended}", Exit.LOOK) from None
    return {record.label: value_of(record, reply) for record, reply in zip(store.records, replies[-len(store.records) :])}


def proved(program: str, module: Image, store: Image, base: str | None = None) -> Values:
    """Opens a copy by cca, and gives the check value of each label. Failed is raised where anything isn't as it should be."""
    found = read_module(module)
    held = read_store(store, found.registers)
    with scratch(base) as folder:
        for kind, image in ((MODULE, module), (STORE, store)):
            write_new(str(folder / kind.name), image.data)
        opened(program, folder)
        damaged = [*found.damaged, *held.damaged]
        if damaged:  # cca would have told it
            raise Failed(f"ccactl reads the copy otherwise than cca: {damaged[0]}", Exit.LOOK)
        return values(program, folder, found, held) if held.records else {}
