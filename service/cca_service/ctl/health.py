"""The subcommand `health`: the check value of a canary, a label that is made for this, through a socket, the front and cca.

It answers within five seconds, and each state has a word of its own. It succeeds where the module has the right keys alone: not
on an empty module or store, nor where the label has another key than the one whose check value is named.
"""
import argparse
import re
import signal
import time
from collections.abc import Iterator
from contextlib import contextmanager
from types import FrameType
from typing import NamedTuple

from cca import Ended, Label, Refused, Socket, Unexpected

from cca_service.ctl.command import SETTINGS, Command, Exit, Failed, add_json, show
from cca_service.ctl.doors import NAMED, path_of

HEALTHY = 5.0  # seconds until a service that is well has answered
PAUSE = 0.05
DIGITS = 6  # of a check value that are shown and compared
KCV = re.compile(rf"[0-9a-fA-F]{{{DIGITS}}}")
PATTERN = re.compile(r"[0-9a-fA-F]{16}")


class State(NamedTuple):
    """What a service is found to be: a word, the exit status, and a sentence."""

    word: str
    status: Exit
    text: str


WELL = State("well", Exit.WELL, "the key is there")
OLD = State("old-master-key", Exit.WRONG, "the key is under the old master key: REENCIPHER brings it over")
OTHER_KEY = State("another-key", Exit.LOOK, "the label has a key with another check value")
OTHER_MASTER_KEY = State("another-master-key", Exit.LOOK, "the key is under a master key with another pattern")
NO_FRONT = State("no-front", Exit.UNREACHED, "no front takes a connection")
NO_REPLY = State("no-reply", Exit.UNREACHED, "no reply came in time")
NOT_A_FRONT = State("not-a-front", Exit.UNREACHED, "what answers isn't a front of cca")
# What a refusal says of the service, by its rule.
REFUSALS = {
    3: State("no-role", Exit.LOOK, "the role isn't defined: this is an empty module, or the role was removed"),
    4: State("no-point", Exit.WRONG, "the role of this socket may not ask this"),
    5: State("empty-module", Exit.LOOK, "the module has no master key"),
    7: State("no-label", Exit.LOOK, "the store has no such label: it is another store, or the label was deleted"),
    8: State("no-key", Exit.LOOK, "the label has no key"),
    17: State("key-part", Exit.WRONG, "the label has a key part"),
}


class Late(BaseException):
    """The time is over."""


def late(_: int, __: FrameType | None) -> None:
    raise Late


@contextmanager
def within(seconds: float) -> Iterator[None]:
    """Raises Late where what is under way takes longer, wherever it is."""
    before = signal.signal(signal.SIGALRM, late)
    signal.setitimer(signal.ITIMER_REAL, seconds)
    try:
        yield
    finally:
        signal.setitimer(signal.ITIMER_REAL, 0.0)
        signal.signal(signal.SIGALRM, before)


class Found(NamedTuple):
    """The state, and the six digits that came."""

    state: State
    digits: str | None = None


def refusal(refused: Refused) -> State:
    return REFUSALS.get(refused.rule) or State("refused", Exit.WRONG, str(refused))


def asked(socket: Socket, given: argparse.Namespace) -> Found:
    """Asks for the check value, and for the pattern where one is named."""
    value = socket.key_test(Label(given.label))
    digits = value.hex()[:DIGITS]
    if given.kcv and digits != given.kcv.lower():
        return Found(OTHER_KEY, digits)
    if given.mkvp and socket.record_read(given.label)[8:16].hex() != given.mkvp.lower():
        return Found(OTHER_MASTER_KEY, digits)
    return Found(OLD if value.used_old_key else WELL, digits)


def tried(socket: Socket, given: argparse.Namespace) -> Found | None:
    """What is found; none where no front takes a connection yet."""
    try:
        return asked(socket, given)
    except Refused as refused:
        return Found(refusal(refused))
    except Unexpected:
        return Found(NOT_A_FRONT)
    except Ended as ended:
        return Found(State("no-reply", Exit.UNREACHED, str(ended)))
    except (FileNotFoundError, ConnectionRefusedError):
        return None
    except OSError as error:
        return Found(State("no-front", Exit.UNREACHED, f"no front takes a connection: {error.strerror or error}"))


def found(path: str, given: argparse.Namespace) -> Found:
    """What is found within the time. A front that has just been started is waited for."""
    under_way = NO_REPLY
    try:
        with within(min(HEALTHY, given.timeout)), Socket(path, HEALTHY) as socket:
            while not (it := tried(socket, given)):
                under_way = NO_FRONT
                time.sleep(PAUSE)
            return it
    except Late:
        return Found(under_way)


def check_words(given: argparse.Namespace) -> None:
    for name, form, wanted in (("kcv", KCV, "six digits of a check value"), ("mkvp", PATTERN, "the 16 digits of a pattern")):
        value = getattr(given, name)
        if value is not None and not form.fullmatch(value):
            raise Failed(f"--{name} takes {wanted}", Exit.USAGE)
    if not 0 < given.timeout:
        raise Failed("--timeout takes a number of seconds above 0", Exit.USAGE)


def add(words: argparse.ArgumentParser) -> None:
    words.add_argument("label", metavar="LABEL", help="the canary: a label whose key nothing else uses")
    helps = "a socket of the front, or its role in the settings"
    words.add_argument("--socket", required=True, metavar="PATH|ROLE", help=helps)
    words.add_argument("--config", metavar="FILE", help=f"the front's settings: else what {NAMED} names, else {SETTINGS}")
    helps = "at most these, where they are fewer than five"
    words.add_argument("--timeout", type=float, default=HEALTHY, metavar="SECONDS", help=helps)
    words.add_argument("--kcv", metavar="DIGITS", help="the first six digits of its key check value, which are compared")
    words.add_argument("--mkvp", metavar="DIGITS", help="the master key's pattern, which is compared: the role needs KRR too")
    add_json(words)


def run(given: argparse.Namespace) -> int:
    check_words(given)
    it = found(path_of(given.socket, given.config), given)
    state = it.state
    line = f"{state.word}: {given.label}{f' {it.digits}' if it.digits else ''}: {state.text}"
    show(given.json, {"state": state.word, "label": given.label, "kcv": it.digits, "text": state.text}, [line])
    return state.status


COMMANDS = (Command("health", "ask for the check value of a canary, in five seconds at most", add, run),)
