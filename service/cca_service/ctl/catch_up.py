"""The subcommand `catch-up`: key tokens that applications kept, brought under the current master key by CSNBKTC.

The file has a token a line. The new file has as many lines: each the token under the current master key, or where that was
refused the line as it was. It has its name only once it is whole and on the drive; after a stop the same command begins anew,
and nothing is lost by that. No token is printed.
"""
import argparse
import os
import tempfile
from collections import Counter
from collections.abc import Iterator
from typing import NamedTuple

from cca import Refused, Token, Verbs
from cca.lines import digits_fault
from cca.values import TOKEN_SIZE
from cca_service.ctl.command import Command, Exit, Failed, add_json, show, tell
from cca_service.ctl.doors import add_socket, asked
from cca_service.ctl.durable import sync_folder, write_all

MOST = 1 << 28  # bytes of a file of tokens
FLUSH = 256  # lines between two writes
OF_THE_REQUEST = 5  # rules up to this one are of the role and of the module, and refuse each token


class Changed(NamedTuple):
    """A line of the new file: its number, what became of its token, and the line."""

    number: int
    word: str  # changed, current, refused, or empty
    why: str | None
    line: bytes


def changed(verbs: Verbs, number: int, line: bytes) -> Changed:
    """What becomes of a line. One that is no token isn't asked."""
    text = line.decode("latin-1").strip()
    if not text:
        return Changed(number, "empty", None, line)
    fault = digits_fault(text, (2 * TOKEN_SIZE,))
    if fault:
        return Changed(number, "refused", f"it is no token: {fault.reason}", line)
    try:
        token = verbs.token_change(Token(bytes.fromhex(text)))
    except Refused as refused:
        if refused.rule <= OF_THE_REQUEST:
            raise Failed(str(refused)) from None
        return Changed(number, "refused", str(refused), line)
    return Changed(number, "changed" if token.used_old_key else "current", None, token.hex().encode() + b"\n")


def lines_of(path: str) -> list[bytes]:
    """The lines of a file. A last one without its newline is one too: half a token has too few digits."""
    with open(path, "rb") as file:
        data = file.read(MOST + 1)
    if len(data) > MOST:
        raise Failed(f"{path} has more than {MOST} bytes", Exit.USAGE)
    return data.splitlines(keepends=True)


def brought_over(verbs: Verbs, lines: list[bytes], file: int) -> Iterator[Changed]:
    """Writes the new lines, and tells of each."""
    written: list[bytes] = []
    for number, line in enumerate(lines, 1):
        it = changed(verbs, number, line)
        written.append(it.line)
        if len(written) >= FLUSH:
            write_all(file, b"".join(written))
            written.clear()
        yield it
    write_all(file, b"".join(written))


def put_in_place(file: int, beside: str, path: str) -> None:
    """Gives the file its name, where nothing has it."""
    os.fsync(file)
    os.link(beside, path)
    sync_folder(os.path.dirname(path))


def all_brought_over(given: argparse.Namespace, lines: list[bytes]) -> list[Changed]:
    """Writes the new file, which no other user may read. What a stop leaves of it goes."""
    file, beside = tempfile.mkstemp(prefix=f".{os.path.basename(given.new)}.", dir=os.path.dirname(given.new) or ".")
    try:
        with asked(given) as verbs:
            told = list(brought_over(verbs, lines, file))
        put_in_place(file, beside, given.new)
        return told
    finally:
        os.close(file)
        os.unlink(beside)


def add(words: argparse.ArgumentParser) -> None:
    words.add_argument("file", metavar="FILE", help="the tokens, 128 hexadecimal digits a line")
    words.add_argument("new", metavar="NEW", help="the new file, which isn't there yet")
    add_socket(words)
    add_json(words)


def run(given: argparse.Namespace) -> int:
    if os.path.lexists(given.new):
        raise Failed(f"{given.new} is there already: it isn't written over", Exit.USAGE)
    told = all_brought_over(given, lines_of(given.file))
    counts = Counter(it.word for it in told)
    refused = [it for it in told if it.word == "refused"]
    found = {"lines": len(told), **{word: counts[word] for word in ("changed", "current", "refused")}}
    each = [{"line": it.number, "state": it.word, "why": it.why} for it in told]
    show(given.json, {**found, "each": each}, told_lines(told))
    for it in refused:
        tell(f"line {it.number}: refused: {it.why}")
    return Exit.WRONG if refused else Exit.WELL


def told_lines(told: list[Changed]) -> Iterator[str]:
    for it in told:
        if it.word in ("changed", "current"):
            yield f"line {it.number}: {'was old, and is changed' if it.word == 'changed' else 'is current'}"
    counts = Counter(it.word for it in told)
    yield f"{counts['changed']} changed, {counts['current']} current already, {counts['refused']} refused"


COMMANDS = (Command("catch-up", "bring tokens that applications kept under the current master key", add, run),)
