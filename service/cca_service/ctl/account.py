"""An account of a module, and whether the records since then explain what its registers and roles are now.

A record says that a request changed the registers or a role (CSNBMKP, CSUAACI), and not how. So the fewest requests are counted
that lead from what was to what is. Where fewer have records, some were sent beside the front, as by `cca run`. A change that was
undone isn't seen, nor one that as many records of other requests could explain, nor a part that was XORed into a register that
isn't full. An account has no key. Kept where those who write the folder can't, it also shows that a log was written anew.
"""
import json
import os
from collections.abc import Iterable, Iterator
from typing import Any, NamedTuple

from cca_service.ctl.command import Exit, Failed
from cca_service.ctl.files import Entry, Module

VERSION = 1
MASTER_KEY, ROLES = "CSNBMKP", "CSUAACI"
# The fewest requests from a state of the new register to another one of the same master keys.
STEPS = {
    ("empty", "partial"): 1,  # FIRST
    ("empty", "full"): 2,  # FIRST, LAST
    ("partial", "empty"): 1,  # CLEAR
    ("partial", "full"): 1,  # LAST
    ("full", "empty"): 1,  # CLEAR
    ("full", "partial"): 2,  # CLEAR, FIRST
}
ANEW = 3  # CLEAR, FIRST and LAST: a full register with another pattern
TO_FULL = {"empty": 2, "partial": 1, "full": 0}


class Account(NamedTuple):
    """What was so at the end of a check."""

    chain: str | None  # the sum of the last line of the log
    number: int  # of the last record of the trail, in the log or not yet
    registers: dict[str, list[str | None]]  # the state and the pattern of each
    roles: dict[str, int]
    findings: list[str]  # what was told then, and isn't told as new again


def of_module(module: Module, chain: str | None, number: int) -> Account:
    """The account of a module whose cells are valid, without findings."""
    if module.registers is None or module.damaged:
        raise Failed("the module is damaged: ccactl module shows its cells", Exit.LOOK)
    registers = {it.name: [it.state, it.pattern] for it in module.registers}
    return Account(chain, number, registers, {it.name: it.points for it in module.roles}, [])


# ---- its file


def as_text(account: Account) -> str:
    return json.dumps({"account": VERSION, **account._asdict()}, indent=1) + "\n"


def read(path: str) -> Account | None:
    """The account of a file; none where there is no file."""
    try:
        with open(path, encoding="utf-8") as file:
            found = json.load(file)
    except FileNotFoundError:
        return None
    except ValueError:
        found = None
    if not is_account(found):
        raise Failed(f"{path}: not an account of ccactl audit-log", Exit.USAGE)
    return Account(**{name: found[name] for name in Account._fields})


def is_account(found: Any) -> bool:
    """Whether each part is there, and of its kind."""
    if not isinstance(found, dict) or found.get("account") != VERSION or not found.keys() >= set(Account._fields):
        return False
    registers, roles = found["registers"], found["roles"]
    kinds = isinstance(registers, dict) and isinstance(roles, dict) and isinstance(found["findings"], list)
    if not kinds or not isinstance(found["number"], int) or set(registers) != {"new", "current", "old"}:
        return False
    states = (it[0] for it in registers.values() if isinstance(it, list) and len(it) == 2)
    return sum(state in TO_FULL for state in states) == 3 and all(isinstance(it, int) for it in roles.values())


def write(path: str, account: Account) -> None:
    """Puts an account in the place of the one before, so that the file is whole whenever this is broken off."""
    beside, folder = f"{path}.new", os.path.dirname(os.path.abspath(path))
    try:
        with open(os.open(beside, os.O_WRONLY | os.O_CREAT | os.O_TRUNC | os.O_NOFOLLOW, 0o600), "w", encoding="utf-8") as file:
            file.write(as_text(account))
            file.flush()
            os.fsync(file.fileno())
        os.rename(beside, path)
    except BaseException:
        if os.path.lexists(beside):
            os.unlink(beside)
        raise
    opened = os.open(folder, os.O_RDONLY | os.O_DIRECTORY)
    try:
        os.fsync(opened)
    finally:
        os.close(opened)


# ---- what is explained


def register_steps(before: Account, after: Account) -> int:
    """The fewest requests that lead from the registers of one account to those of another."""
    (state, pattern), (state_now, pattern_now) = before.registers["new"], after.registers["new"]
    if any(before.registers[name] != after.registers[name] for name in ("current", "old")):
        return set_steps(before, after) + STEPS.get(("empty", str(state_now)), 0)
    if state == state_now == "full" and pattern != pattern_now:
        return ANEW
    return STEPS.get((str(state), str(state_now)), 0)


def set_steps(before: Account, after: Account) -> int:
    """The fewest requests up to the last SET, at which the new register is empty."""
    state, pattern = before.registers["new"]
    if after.registers["old"] != before.registers["current"]:  # two of them, or more
        return TO_FULL[str(state)] + 1 + TO_FULL["empty"] + 1
    if state == "full" and pattern != after.registers["current"][1]:
        return ANEW + 1
    return TO_FULL[str(state)] + 1


def changed_roles(before: Account, after: Account) -> list[str]:
    """The roles that were defined, removed, or given other points."""
    return sorted(it for it in before.roles.keys() | after.roles.keys() if before.roles.get(it) != after.roles.get(it))


def unexplained(before: Account, after: Account, changes: Iterable[Entry]) -> Iterator[str]:
    """What no records since the account before explain."""
    verbs = [it.verb for it in changes]
    steps, roles = register_steps(before, after), changed_roles(before, after)
    if steps > verbs.count(MASTER_KEY):
        yield f"the master key registers changed by {steps} requests or more, and {verbs.count(MASTER_KEY)} have a record"
    if len(roles) > verbs.count(ROLES):
        yield f"the roles {', '.join(roles)} changed, and {verbs.count(ROLES)} requests have a record"
