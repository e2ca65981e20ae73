"""`ccactl key-part STEP LABEL`: a part of a key under a label, as of a transport key, under the role of a socket.

The part is typed as in `ceremony`; its check value is that of a key, as other systems show it on the sheet of a part. Class and
control vector of what is under the label are compared before MIDDLE and LAST: who entered FIRST chose them. FIRST replaces no
key unless that is asked for. A role that may not read the token (KRR) needs another socket for that, by --look.
"""
import argparse
from typing import Any, cast

from cca import Label, Refused, Socket, Token, Verbs, tokens
from cca.rows import VECTORS

from cca_service.ctl.ceremony import AGAIN, NEW_PARTS, is_front, sent
from cca_service.ctl.ceremony_log import CeremonyLog
from cca_service.ctl.command import Command, Exit, Failed
from cca_service.ctl.des import check_value
from cca_service.ctl.doors import NO_POINT, PATIENCE, add_whom, asked, path_of, told, whom
from cca_service.ctl.terminal import Typed, part_of, typed

STEPS = ("FIRST", "MIDDLE", "LAST", "SHOW")
DIGITS = (16, 32)
NO_LABEL, NO_KEY, WRONG_LENGTH, COMPLETE = 7, 8, 32, 35  # rules
VECTOR_AT = slice(32, 48)  # of a token
SHOWN = 3  # bytes of a check value
IN_DOUBT = {
    "FIRST": "Do the step again: the same part comes under the label either way",
    "MIDDLE": f"Never enter it again: begin with FIRST, and {NEW_PARTS.partition('and ')[2]}",
    "LAST": AGAIN.replace("rule 25", f"rule {COMPLETE}"),
}
NEXT = {
    "FIRST": "SHOW by an officer, then MIDDLE or LAST by the next custodian",
    "MIDDLE": "MIDDLE or LAST by the next custodian",
    "LAST": "SHOW by an officer, to compare the check value with the other party; then the custodians' roles are removed",
}


UNREAD = "the role may not read the token (KRR)"


class Unseen(Exception):
    """The role may not read the token."""


def token_under(front: Verbs, label: str) -> Token | None:
    """The token under a label; none where it has no key."""
    try:
        return front.record_read(label)
    except Refused as refused:
        if refused.rule == NO_KEY:
            return None
        if refused.rule == NO_POINT:
            raise Unseen from None
        raise


def vectors_of(kind: str) -> list[str]:
    """The control vectors that a key part of a type may have, one for each length."""
    return [tokens.vector_of(kind, str(size), tokens.KEY_PART).hex() for size in VECTORS[kind]]


def vector_words(token: bytes) -> str:
    """A control vector, and the words that it is made of."""
    vector = token[VECTOR_AT]
    size = 8 if tokens.form_of(vector[:8]) == tokens.SINGLE else 16
    return f"{vector[:size].hex()}: {tokens.words_of(vector) or 'not that of a generated key'}"


def is_part(token: bytes) -> bool:
    return bool(tokens.bit(token[VECTOR_AT][:8], tokens.PART))


def class_of(token: bytes) -> str:
    return tokens.CLASSES.get(token[VECTOR_AT][1], "OTHER")


def described(token: bytes) -> str:
    return f"{class_of(token)} {vector_words(token)}"


# ---- what is under the label, before a part is typed


def compare(token: Token | None, step: str, kind: str, is_replaced: bool) -> None:
    """Ends the step where what is under the label isn't what it must be."""
    if step == "FIRST":
        if token is not None and not is_replaced:
            raise Failed(f"the label has a key already, {described(token)}; --replace enters another in its place")
        return
    if token is None:
        raise Failed("the label has no key: FIRST comes first")
    if not is_part(token):
        raise Failed(f"the key under the label is complete, {described(token)}: nothing was sent", Exit.LOOK)
    if token[VECTOR_AT].hex() not in vectors_of(kind):
        why = f"the key under the label isn't of the type {kind}, but {described(token)}"
        raise Failed(f"{why}. Who entered FIRST chose it: nothing was sent", Exit.LOOK)


def digits_wanted(token: Token | None, step: str, kind: str) -> tuple[int, ...]:
    """How many digits the part may have: of a type's lengths, or the length of the key."""
    if step == "FIRST" or token is None:
        return tuple(2 * size for size in VECTORS[kind])
    return (16,) if tokens.form_of(token[VECTOR_AT][:8]) == tokens.SINGLE else (32,)


def looked_at(front: Verbs, given: argparse.Namespace) -> Token | None:
    """The token under the label, by the socket of --look where one is given."""
    if given.look is None:
        return token_under(front, given.label)
    other = Socket(path_of(given.look, given.config), PATIENCE)
    try:
        return token_under(other, given.label)
    finally:
        other.close()


# ---- the steps


def enter(front: Verbs, given: argparse.Namespace, source: Typed, log: CeremonyLog) -> None:
    """A step with a part."""
    is_front(front)
    token = None
    try:
        token = looked_at(front, given)
        compare(token, given.step, given.type, given.replace)
        print(f"under {given.label}: {'no key' if token is None else described(token)}", flush=True)
    except Unseen:
        if not given.unseen:
            raise Failed(f"{UNREAD}: --look names a socket that may, and --unseen says that an officer compared it") from None
    part = part_of(source, digits_wanted(token, given.step, given.type))
    value = check_value(part)
    print(f"check value of the part: {value}", flush=True)
    if not source.agrees("Is it that of your sheet? The part is sent then"):
        raise Failed("nothing was sent")
    sent(log, IN_DOUBT[given.step], value, lambda: put(front, given, part))


def put(front: Verbs, given: argparse.Namespace, part: bytes) -> dict[str, str]:
    """Sends a part: where it is."""
    first: dict[str, Any] = {"type": given.type} if given.step == "FIRST" else {"key": Label(given.label)}
    cast(Any, front.key_part_import)(given.step, part, to=given.label, **first)
    return {"label": given.label}


def show(front: Verbs, given: argparse.Namespace) -> int:
    """Class and control vector of what is under a label, and the check value of a complete key."""
    try:
        token = looked_at(front, given)
    except Unseen:
        raise Failed(f"{UNREAD}: ask by another socket") from None
    if token is None:
        raise Failed("the label has no key")
    print(f"class: {class_of(token)}")
    print(f"control vector: {vector_words(token)}")
    if not is_part(token):
        print(f"check value: {front.key_test(Label(given.label))[:SHOWN].hex()}")
    whole = tokens.words_of(token[VECTOR_AT]) or ""
    if given.type is not None and whole.split(" ")[:1] != [given.type]:
        raise Failed(f"the key under the label isn't of the type {given.type}", Exit.LOOK)
    return Exit.WELL


# ---- the subcommand


def add(words: argparse.ArgumentParser) -> None:
    words.add_argument("step", type=str.upper, choices=STEPS, metavar="STEP", help=", ".join(STEPS))
    words.add_argument("label", metavar="LABEL", help="the label of the key, which exists")
    words.add_argument("--type", choices=tuple(VECTORS), metavar="TYPE", help="the type that the key has or gets, as EXPORTER")
    add_whom(words)
    words.add_argument("--look", metavar="PATH|ROLE", help="by which the token is read, where the role may not")
    words.add_argument("--unseen", action="store_true", help="where it can't be read: an officer compared it")
    words.add_argument("--replace", action="store_true", help="with FIRST: in place of a key that the label has")
    words.add_argument("--log", metavar="FILE", help="a line for each step that is sent, without its part")
    words.add_argument("--from-pipe", action="store_true", help="the part comes on standard input, twice, from a program")


def run(given: argparse.Namespace) -> int:
    if given.step != "SHOW" and given.type is None:
        raise Failed("--type is wanted: it is compared with that of the key under the label", Exit.USAGE)
    with asked(given) as front:
        try:
            if given.step == "SHOW":
                return show(front, given)
            log = CeremonyLog(given.log, whom(given), f"key-part {given.step} {given.label}")
            enter(front, given, typed(given.from_pipe), log)
        except Refused as refused:
            raise Failed(f"nothing was changed: {told(refused)}") from None
    print(f"stored under: {given.label}")
    print(f"next: {NEXT[given.step]}")
    return Exit.WELL


COMMANDS = (Command("key-part", "a part of a key under a label, whose class and vector are compared first", add, run),)
