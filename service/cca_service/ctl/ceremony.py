"""`ccactl ceremony STEP`: a step of a ceremony of the master key, under the role of a socket.

A part is typed twice and isn't shown, and its check value is: six digits of SHA-1 over X'01' and the part, as the verification
pattern of a master key is made. It goes to the front over the socket alone, and into no list of processes and no log.
"""
import argparse
import hashlib
from collections.abc import Callable, Iterator
from typing import Any, NamedTuple, cast

from cca import Ended, Refused, Verbs

from cca_service.ctl.ceremony_log import CeremonyLog
from cca_service.ctl.command import Command, Exit, Failed, tell
from cca_service.ctl.doors import LONG, add_whom, asked, told, whom
from cca_service.ctl.terminal import Typed, part_of, typed

PART_DIGITS = (48,)
SHOWN = 6  # digits of a check value
NO_KEY_SET, WRONG_STATE = 5, 25  # rules
NEW_PARTS = "CLEAR, and new parts from all custodians"
STATES = {"empty": "empty", "partial": "partly full", "full": "full"}
PATTERN_AT = slice(8, 16)  # of a token


class Step(NamedTuple):
    """A step: what it needs of the new register, what comes next, and what to do where no reply came."""

    needs: str
    next: str
    in_doubt: str


AGAIN = "do the step again: a refusal by rule 25 then means that it was done"
GOES_ON = "do the step again: it goes on where it was broken off"
NEVER_TWICE = f"never enter it again: {NEW_PARTS}"
PARTS = {
    "FIRST": Step("empty, and CLEAR empties it", "MIDDLE by a further custodian, or LAST by the last one", AGAIN),
    "MIDDLE": Step("partly full", "MIDDLE by a further custodian, or LAST by the last one", NEVER_TWICE),
    "LAST": Step("partly full", "CHECK by an officer, then AHEAD, then SET", AGAIN),
}
STEPS = {
    **PARTS,
    "CLEAR": Step("", "FIRST, with new parts from all custodians", "do the step again: nothing is lost by it"),
    "SET": Step("full", "CHECK and REENCIPHER by an officer", AGAIN),
    "REENCIPHER": Step("", "the tokens that applications keep: ccactl catch-up", GOES_ON),
    "AHEAD": Step("full", "SET by the administrator", GOES_ON),
    "DROP": Step("", "CLEAR, where the new master key is given up", GOES_ON),
}
LOOKS = ("CHECK", "PATTERN")  # verification patterns: of the current and the new master key, and of parts that are typed


def pattern_of(key: bytes) -> str:
    """The verification pattern of a master key, or of a part in its place."""
    return hashlib.sha1(b"\x01" + key).hexdigest()[:16]


# ---- the steps that are sent


def is_front(front: Verbs) -> None:
    """Looks whether a front of cca answers, before a part is typed."""
    if front.role is None and front.ask("") != "NO 01 -":
        raise Failed("what answers isn't a front of cca: nothing was sent", Exit.UNREACHED)


def sent(log: CeremonyLog, in_doubt: str, check_value: str, send: Callable[[], dict[str, str]]) -> dict[str, str]:
    """What a step that is sent replies. It stands in the log, whatever comes of it."""
    words = {"check_value": check_value} if check_value else {}
    try:
        found = send()
    except Refused as refused:
        log.add(**words, result=f"{refused.rule:02}")
        raise
    except Ended as end:
        log.add(**words, result="-")
        raise Failed(f"{end}. {in_doubt if end.in_doubt else 'Do the step again'}", Exit.UNREACHED) from None
    except BaseException:  # as a signal, or a reply that none is
        log.add(**words, result="-")
        tell(f"no reply was taken: the step may have been carried out all the same. {in_doubt}")
        raise
    log.add(**words, result="00", **found)
    return found


def enter(front: Verbs, step: str, source: Typed, log: CeremonyLog) -> dict[str, str]:
    """A step with a part."""
    is_front(front)
    part = part_of(source, PART_DIGITS)
    value = pattern_of(part)[:SHOWN]
    print(f"check value of the part: {value}", flush=True)
    if not source.agrees("Is it that of your sheet? The part is sent then"):
        raise Failed("nothing was sent")
    return sent(log, STEPS[step].in_doubt, value, lambda: {"new": front.master_key_process(cast(Any, step), part)})


def change(front: Verbs, step: str, log: CeremonyLog) -> dict[str, str]:
    """A step without a part."""
    if step in ("SET", "CLEAR"):
        return sent(log, STEPS[step].in_doubt, "", lambda: {"new": front.master_key_process(cast(Any, step))})
    action = None if step == "REENCIPHER" else step
    return sent(log, STEPS[step].in_doubt, "", lambda: {"changed": str(front.reencipher(cast(Any, action)))})


def outcome(step: str, found: dict[str, str]) -> Iterator[str]:
    """What a step has done, and what comes next."""
    if "new" in found:
        yield f"new register: {STATES[found['new']]}"
    if "changed" in found:
        yield f"labels changed: {found['changed']}"
    yield f"next: {STEPS[step].next}"


def why(step: str, refused: Refused) -> str:
    """A refusal, with what it means for the step."""
    needs = STEPS[step].needs
    state = f"; {step} needs a new register that is {needs}" if refused.rule == WRONG_STATE and needs else ""
    return f"nothing was changed: {told(refused)}{state}"


# ---- the steps that only look


def patterns(front: Verbs) -> dict[str, str | None]:
    """The patterns of the current and of the new master key, by a token of a public key; none of one that isn't there."""
    try:
        token = front.clear_key_import(bytes(8))
    except Refused as refused:
        if refused.rule != NO_KEY_SET:
            raise
        return {"current": None, "new": None}
    try:
        new = front.token_change(token, "RTNMK")[PATTERN_AT].hex()
    except Refused as refused:
        if refused.rule != WRONG_STATE:
            raise
        return {"current": token[PATTERN_AT].hex(), "new": None}
    return {"current": token[PATTERN_AT].hex(), "new": new}


def check(front: Verbs, wanted: dict[str, str | None]) -> int:
    """Shows both patterns, and compares those that are given."""
    found, status = patterns(front), Exit.WELL
    for name, pattern in found.items():
        print(f"{name} master key: {pattern or 'none is full'}")
    for name, pattern in wanted.items():
        if pattern is not None and pattern.lower() != found[name]:
            tell(f"the {name} master key hasn't the pattern {pattern}: {NEW_PARTS}")
            status = Exit.WRONG
    return status


def show_pattern(source: Typed, count: int) -> int:
    """The pattern of parts that are typed, which nobody is sent."""
    key = 0
    for number in range(1, count + 1):
        part = part_of(source, PART_DIGITS, f"Part {number} of {count}")
        key ^= int.from_bytes(part, "big")
        print(f"check value of part {number}: {pattern_of(part)[:SHOWN]}", flush=True)
    print(f"pattern of the master key: {pattern_of(key.to_bytes(24, 'big'))}")
    return Exit.WELL


# ---- the subcommand


def add(words: argparse.ArgumentParser) -> None:
    words.add_argument("step", type=str.upper, choices=[*STEPS, *LOOKS], metavar="STEP", help=f"{', '.join([*STEPS, *LOOKS])}")
    add_whom(words)
    words.add_argument("--log", metavar="FILE", help="a line for each step that is sent, without its part")
    words.add_argument("--from-pipe", action="store_true", help="the part comes on standard input, twice, from a program")
    words.add_argument("--new", metavar="MKVP", help="with CHECK: the verification pattern that the new master key must have")
    words.add_argument("--current", metavar="MKVP", help="with CHECK: that of the current one")
    words.add_argument("--parts", type=int, default=2, metavar="COUNT", help="with PATTERN: how many there are, else 2")


def run(given: argparse.Namespace) -> int:
    step = given.step
    if step == "PATTERN":
        if given.parts < 2:
            raise Failed("a master key has two parts or more", Exit.USAGE)
        return show_pattern(typed(given.from_pipe), given.parts)
    patience = LONG if step in ("REENCIPHER", "AHEAD", "DROP") else None
    with asked(given, patience) as front:
        try:
            if step == "CHECK":
                return check(front, {"new": given.new, "current": given.current})
            log = CeremonyLog(given.log, whom(given), step)
            found = enter(front, step, typed(given.from_pipe), log) if step in PARTS else change(front, step, log)
        except Refused as refused:
            raise Failed(why(step, refused) if step in STEPS else told(refused)) from None
    for line in outcome(step, found):
        print(line)
    return Exit.WELL


COMMANDS = (Command("ceremony", "a step of a ceremony of the master key, whose part is typed without echo", add, run),)
