"""The log of the front: a line for each request, as a JSON object; never a key, a text or a token."""
import json
import os
import re
import select
from collections.abc import Iterator

from cca_service.batches import Line
from cca_service.counts import NO_REPLY, Counts
from cca_service.trail import now

ERRORS = 2  # the descriptor of standard error
FIRST_LABEL = re.compile(rb" (?:label=|[a-z0-9]+=L:)([A-Z#$@][A-Z0-9#$@.]{0,63})(?= |$)")
RULE = re.compile("NO ([0-9]{2}) ")
VERBS = frozenset(
    "CSNBCKI CSNBDEC CSNBENC CSNBKEX CSNBKGN CSNBKIM CSNBKPI CSNBKRC CSNBKRD CSNBKRL CSNBKRR CSNBKRW CSNBKTC CSNBKTP CSNBKTR"
    " CSNBKYT CSNBMGN CSNBMKP CSNBMVR CSNBPEX CSNBRNG CSUAACI REENCIPHER".split()
)
KNOWN = {verb.encode(): verb for verb in VERBS}


class Journal:
    """The log, in a file or on standard error. A reader that is stuck holds up no request: lines are left out, and counted."""

    def __init__(self, path: str | None = None) -> None:
        self.path = os.path.abspath(path) if path else None
        self.file, self.left_out, self.all_left_out = ERRORS, 0, 0
        self.counts = Counts()
        self.waiting: list[str] = []  # lines of requests that aren't written yet
        self.poll = select.poll()
        self.open()

    def open(self) -> None:
        """Opens the file by its name, also where it is open: it may have been renamed."""
        before, self.file = self.file, self.opened()
        if before not in (ERRORS, self.file):
            os.close(before)
        self.poll = select.poll()
        self.poll.register(self.file, select.POLLOUT)

    def opened(self) -> int:
        if self.path is None:
            return ERRORS
        return os.open(self.path, os.O_WRONLY | os.O_APPEND | os.O_CREAT | os.O_CLOEXEC | os.O_NONBLOCK | os.O_NOCTTY, 0o600)

    def open_anew(self) -> None:
        """The same, while the front runs. Where it fails, lines still go where they went."""
        try:
            self.open()
        except OSError as error:
            self.tell(event="log", text=str(error))

    def tell(self, **words: object) -> None:
        """Writes a line, behind those that wait, where there is room for it."""
        self.waiting.append(json.dumps({"time": now(), **words}) + "\n")
        self.write()

    def write(self) -> None:
        """Writes the lines that wait, where there is room for them."""
        lines, self.waiting = self.waiting, []
        for piece in filter(None, pieces(lines)):
            self.write_piece(piece)

    def write_piece(self, lines: list[str]) -> None:
        """Writes lines, at once."""
        data = "".join(lines).encode()
        if self.left_out:
            first = json.dumps({**json.loads(lines[0]), "left_out": self.left_out})
            data = "\n".join([first, *(it[:-1] for it in lines[1:]), ""]).encode()
        try:
            is_whole = bool(self.poll.poll(0)) and os.write(self.file, data) == len(data)
        except OSError:
            is_whole = False
        self.left_out = 0 if is_whole else self.left_out + len(lines)
        self.all_left_out += 0 if is_whole else len(lines)

    def request(self, line: Line, number: int, reply: str | None, time: str, microseconds: int) -> None:
        """A request: who asked, for what, and what came of it, which is `00`, a rule, or `-` without a reply. It is written
        with the others of its turn."""
        verb, label = named(line.text, reply)
        rule = NO_REPLY if reply is None else rule_of(reply)
        role, uid = line.connection.door.role, line.connection.uid
        self.counts.note(role, verb, rule, microseconds)
        # All of these are numbers, or words of letters, digits and few other signs: they stand in JSON as they are.
        self.waiting.append(
            f'{{"time": "{time}", "request": {number}, "uid": {uid}, "role": "{role}", "verb": "{verb}", "label": "{label}",'
            f' "rule": "{rule}", "microseconds": {microseconds}}}\n'
        )


def pieces(lines: list[str]) -> Iterator[list[str]]:
    """Lines in pieces that a pipe takes as a whole, where it takes anything."""
    first = size = 0
    for place, line in enumerate(lines):
        size += len(line)
        if size > select.PIPE_BUF:
            yield lines[first:place]
            first, size = place, len(line)
    yield lines[first:]


def rule_of(reply: str) -> str:
    """The rule of a refusal; `00` of any other reply."""
    refused = RULE.match(reply)
    return refused[1] if refused else "00"


def named(line: bytes, reply: str | None) -> tuple[str, str]:
    """The verb and the first label of a request, as the trail has them. Where cca didn't say that the line is a request
    nothing is taken out of it but a verb, since a key may stand anywhere."""
    verb = KNOWN.get(line.partition(b" ")[0])
    if verb is None or (reply or "").startswith(("NO 01", "NO 02")):
        return "-", "-"
    label = FIRST_LABEL.search(line) if reply else None
    return verb, label[1].decode() if label else "-"
