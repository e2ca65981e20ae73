"""The client's side of the front's own socket: one JSON object a line each way.

The socket is for the user of the service and for root. Nothing that it answers has a key, a text or a token.
"""
import json
import select
import socket
import time
from collections.abc import Iterator
from contextlib import contextmanager
from typing import Self

from cca_service.ctl.command import Exit, Failed

LONGEST = 1 << 16  # bytes of a line
PATIENCE = 5.0  # seconds for an answer
HOLD_PATIENCE = 60.0  # seconds until a hold begins: the request under way has its reply first, which may be an AHEAD
HOLD_SECONDS = 10.0  # after which the front goes on by itself
PAUSE = 0.05


class Refused(Failed):
    """The front won't do what it is asked."""


class Unreached(Failed):
    """The front can't be reached, or doesn't answer as one."""

    def __init__(self, why: str):
        super().__init__(why, Exit.UNREACHED)


class Answer:
    """What the front answers, whose values are taken by their kind."""

    def __init__(self, found: dict[str, object], place: str = "the front's answer"):
        self.found, self.place = found, place

    def wrong(self, name: str) -> Unreached:
        return Unreached(f"{self.place} has no {name} as it should: is this another version?")

    def text(self, name: str) -> str:
        it = self.found.get(name)
        if not isinstance(it, str):
            raise self.wrong(name)
        return it

    def text_or_none(self, name: str) -> str | None:
        return None if self.found.get(name) is None else self.text(name)

    def number(self, name: str) -> int:
        it = self.found.get(name)
        if not isinstance(it, int) or isinstance(it, bool) or it < 0:
            raise self.wrong(name)
        return it

    def real(self, name: str) -> float:
        it = self.found.get(name)
        if not isinstance(it, int | float) or isinstance(it, bool) or not 0 <= it < 1e18:
            raise self.wrong(name)
        return float(it)

    def truth(self, name: str) -> bool:
        it = self.found.get(name)
        if not isinstance(it, bool):
            raise self.wrong(name)
        return it

    def inner(self, name: str) -> "Answer":
        it = self.found.get(name)
        if not isinstance(it, dict):
            raise self.wrong(name)
        return Answer(it, f"{self.place}, {name},")

    def inner_or_none(self, name: str) -> "Answer | None":
        return None if self.found.get(name) is None else self.inner(name)

    def each(self, name: str) -> list["Answer"]:
        it = self.found.get(name)
        if not isinstance(it, list) or not all(isinstance(one, dict) for one in it):
            raise self.wrong(name)
        return [Answer(one, f"{self.place}, {name},") for one in it]

    def numbers(self, name: str) -> list[int]:
        it = self.found.get(name)
        if not isinstance(it, list) or not all(isinstance(one, int) and not isinstance(one, bool) and one >= 0 for one in it):
            raise self.wrong(name)
        return it

    def texts(self, name: str) -> list[str]:
        it = self.found.get(name)
        if not isinstance(it, list) or not all(isinstance(one, str) for one in it):
            raise self.wrong(name)
        return it

    def counts(self, name: str) -> dict[str, int]:
        inner = self.inner(name)
        return {it: inner.number(it) for it in inner.found}


class Control:
    """A connection to the front's own socket."""

    def __init__(self, path: str):
        self.path, self.come = path, b""
        self.socket = socket.socket(socket.AF_UNIX)
        self.socket.settimeout(PATIENCE)
        try:
            self.socket.connect(path)
        except OSError as error:
            self.socket.close()
            raise Unreached(f"the front can't be reached at {path}: {error.strerror or error}") from None
        self.socket.setblocking(False)

    def ask(self, what: str, patience: float = PATIENCE, **words: object) -> Answer:
        """What the front answers. Refused is raised where it won't, and Unreached where it doesn't answer."""
        until = time.monotonic() + patience
        self.send(json.dumps({"ask": what, **words}).encode() + b"\n", until)
        answer = self.parsed(self.line(until))
        if not answer.truth("ok"):
            raise Refused(f"the front refused to {what}: {answer.text('why')}")
        return answer

    def parsed(self, line: bytes) -> Answer:
        try:
            found = json.loads(line)
        except (ValueError, RecursionError):
            found = None
        if not isinstance(found, dict):
            raise Unreached(f"what answers at {self.path} is no front")
        return Answer(found)

    def send(self, line: bytes, until: float) -> None:
        while line:
            self.wait(select.POLLOUT, until)
            try:
                line = line[self.socket.send(line, socket.MSG_NOSIGNAL) :]
            except OSError as error:
                why = f"the front ended the connection: {error.strerror}: its socket is for its own user and root"
                raise Unreached(why) from None

    def line(self, until: float) -> bytes:
        """A whole line, without its newline."""
        while b"\n" not in self.come:
            if len(self.come) > LONGEST:
                raise Unreached(f"what answers at {self.path} is no front")
            self.wait(select.POLLIN, until)
            try:
                chunk = self.socket.recv(LONGEST)
            except OSError:
                chunk = b""
            if not chunk:
                raise Unreached("the front ended the connection: its own socket is for its user and root")
            self.come += chunk
        line, _, self.come = self.come.partition(b"\n")
        return line

    def wait(self, event: int, until: float) -> None:
        poll = select.poll()
        poll.register(self.socket, event)
        if not poll.poll(max(0.0, until - time.monotonic()) * 1000):
            raise Unreached("the front didn't answer in time")

    def close(self) -> None:
        self.socket.close()

    def __enter__(self) -> Self:
        return self

    def __exit__(self, *_: object) -> None:
        self.close()


class Held:
    """A hold: until it is released the front asks cca nothing, and nobody writes the files."""

    def __init__(self, control: Control, folder: str):
        self.control, self.folder, self.is_released = control, folder, False

    def release(self) -> bool:
        """Lets the front go on. Whether the hold lasted until now, so that what was read is of one moment."""
        self.is_released = True
        return self.control.ask("release").truth("whole")


@contextmanager
def held(control: Control, seconds: float = HOLD_SECONDS, patience: float = HOLD_PATIENCE) -> Iterator[Held]:
    """A hold. While another one is under way it is asked again. Where the body doesn't release it, this does."""
    until = time.monotonic() + patience
    while True:
        try:
            answer = control.ask("hold", max(PATIENCE, until - time.monotonic()), seconds=seconds)
            break
        except Refused:
            if time.monotonic() > until:
                raise
        time.sleep(PAUSE)
    hold = Held(control, answer.text("folder"))
    try:
        yield hold
    finally:
        if not hold.is_released:
            control.close()  # at which the front goes on, whatever broke this off
