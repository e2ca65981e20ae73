"""What a restore has to be followed by: master keys that were set after the backup, and roles that were changed, by the trail's
log.

A record of the trail has the role and the verb, and not the action; what a role with its points can have done is told.
"""
import json
from collections.abc import Iterator, Mapping
from typing import NamedTuple

from cca.rows import POINTS

from cca_service.ctl.command import Failed
from cca_service.ctl.files import Registers

MASTER_KEYS, ROLES = "CSNBMKP", "CSUAACI"
DONE = "00"
ACTIONS = {"MK_FIRST": "FIRST", "MK_COMBINE": "MIDDLE or LAST", "MK_CLEAR": "CLEAR", "MK_SET": "SET"}
ANEW = -1  # what a line says that a trail follows which begins anew
LONGEST = 1 << 16  # bytes of a line


class Step(NamedTuple):
    """A request that was carried out after a backup."""

    number: int
    time: str
    role: str
    verb: str

    def told(self, roles: Mapping[str, int]) -> str:
        done = f" {actions(roles.get(self.role, 0))}" if self.verb == MASTER_KEYS else ""
        return f"{self.number} {self.time} {self.role} {self.verb}{done}"


def actions(points: int) -> str:
    """What a role with these points may do with master keys."""
    return " or ".join(text for name, text in ACTIONS.items() if points & POINTS[name]) or "by a role that isn't there any more"


def lines_of(path: str) -> Iterator[dict[str, object]]:
    """The objects of a log. Half a line, of a machine that stopped, and zeros are passed over."""
    with open(path, "rb") as log:
        while line := log.readline(LONGEST):
            try:
                found = json.loads(line)
            except (ValueError, RecursionError):
                continue
            if isinstance(found, dict):
                yield found


def steps_after(paths: list[str], last_record: int, time: str) -> list[Step]:
    """The requests on master keys and roles that logs have from after a backup: by their numbers, or where the trail has begun
    anew since then by their place."""
    found: list[Step] = []
    has_begun_anew = False
    for path in paths:
        for line in lines_of(path):
            if line.get("follows") == ANEW and str(line.get("time", "")) > time:
                has_begun_anew = True
            step = step_of(line)
            if step and (has_begun_anew or step.number > last_record):
                found.append(step)
    return found


def step_of(line: Mapping[str, object]) -> Step | None:
    """The request of a line, if it is one on master keys or roles that was carried out."""
    number, role, verb = line.get("number"), line.get("role"), line.get("verb")
    if verb not in (MASTER_KEYS, ROLES) or line.get("rule") != DONE or not isinstance(number, int):
        return None
    return Step(number, str(line.get("time") or line.get("fetched") or "-"), str(role), str(verb))


def keys_to_enter(backup: Registers, replaced: Registers | None) -> Iterator[str]:
    """The master keys of the module that is replaced and that the backup hasn't, in the order in which they were set."""
    if replaced is None:
        yield "the replaced module's registers can't be read: which master keys are later the trail's log alone tells"
        return
    held = {it.pattern for it in backup if it.name != "new"}
    for it in (replaced.old, replaced.current):
        if it.pattern and it.pattern not in held:
            yield f"enter and set the master key with pattern {it.pattern}, which was the {it.name} one"
    if replaced.new.state != "empty" and replaced.new.pattern != backup.new.pattern:
        yield f"the new register was {replaced.new.state}: its parts are to be entered again"


def told(paths: list[str], last_record: int, time: str, roles: Mapping[str, int]) -> Iterator[str]:
    """The requests of the log from after a backup, in their order."""
    try:
        steps = steps_after(paths, last_record, time)
    except OSError as error:
        raise Failed(f"the trail's log can't be read: {error}") from None
    for step in steps:
        yield step.told(roles)
