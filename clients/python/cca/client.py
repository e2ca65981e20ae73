#!/usr/bin/env python3
"""A client of `cca run`: starts it in a folder as a coprocess, and asks it line by line.

    client.py [--audit] FOLDER [PROGRAM] < requests

prints the reply to each request; with --audit it starts `cca audit`. The class Coprocessor is asked by lines; that of the
package `cca`, which stands on it, has a method for each verb. This file needs Python's own library alone, and can be copied.

A reply must never be taken for that to another request. So requests take turns, whatever threads they come from; and where a
request gets no whole reply, whatever the reason, cca is killed and started again for the next one.
"""
import argparse
import math
import os
import select
import signal
import subprocess
import sys
import tempfile
import threading
import time
import weakref
from collections.abc import Callable, Iterable, Sequence
from enum import IntEnum
from typing import Any, Protocol, TypeVar

T = TypeVar("T")


class Status(IntEnum):
    """How cca ended: its exit statuses, and UNKNOWN. Where a signal ended it, a status is the signal's number, less than zero."""

    DONE = 0
    USAGE = 2
    CELL_DAMAGED = 3
    INPUT_FAILED = 4
    OUTPUT_FAILED = 5
    MODULE_FAILED = 6
    STORE_FAILED = 7
    RANDOM_FAILED = 8
    INPUT_TOO_LONG = 9
    OUT_OF_MEMORY = 10
    IN_USE = 11  # a file couldn't be opened: most often since another run uses it
    REFUSED = 12
    TRAIL_FAILED = 13
    TRAIL_CELL_DAMAGED = 14
    TRAIL_FULL = 15
    REPORT_FAILED = 16
    WRONG_SIZE = 17
    UNKNOWN = 128  # nobody can tell: this program ignores SIGCHLD, or waits for cca elsewhere


UNKNOWN = Status.UNKNOWN
IN_USE = Status.IN_USE
IN_USE_SECONDS = 10.0  # until the other run must have ended, as a backup, or that of a program that was started before
IN_USE_PAUSE = 0.1
# After these ends someone should look at the files before cca is started again: docs/operating says how.
LOOK_FIRST: frozenset[int] = frozenset(
    {
        Status.USAGE,
        Status.CELL_DAMAGED,
        Status.MODULE_FAILED,
        Status.STORE_FAILED,
        Status.IN_USE,
        Status.TRAIL_FAILED,
        Status.TRAIL_CELL_DAMAGED,
        Status.TRAIL_FULL,
        Status.WRONG_SIZE,
        Status.UNKNOWN,
    }
)
# At these ends no request was taken. At CELL_DAMAGED one may have been: a record is damaged when it is read again.
NONE_TAKEN: frozenset[int] = frozenset(
    {Status.USAGE, Status.OUT_OF_MEMORY, Status.IN_USE, Status.TRAIL_CELL_DAMAGED, Status.WRONG_SIZE}
)
LONGEST_REPLY = 66_581  # bytes, with the newline
PATIENCE = 300.0  # seconds for a reply; REENCIPHER of a full store syncs the drive some 2,000 times
ENDING = 10.0  # seconds for a process that has closed its output
GLANCE = 0.01  # seconds until it is asked again whether a process has ended
CHUNK = 1 << 16  # bytes; a read of more would map and unmap memory each time
HALF = "the last line has no newline: it may be half a request, and isn't asked"
BROKEN_OFF = "cca was asked, and killed before its reply came"


def remade(kind: type["Error"], words: tuple[Any, ...], values: dict[str, Any]) -> "Error":
    """An exception from its parts."""
    it = kind.__new__(kind, *words)
    it.__dict__.update(values)
    return it


class Error(Exception):
    """What the library raises, other than Python's own exceptions."""

    def __reduce__(self) -> tuple[Callable[..., "Error"], tuple[object, ...]]:
        """Its parts, so that it can be pickled, whatever its __init__ takes: a worker of multiprocessing gives it to its parent."""
        return remade, (type(self), self.args, self.__dict__)


class Ended(Error):
    """A request got no reply, and cca isn't running any more.

    status: how cca ended, as Status has it. None where a front has it.
    in_doubt: whether what got no reply may have been carried out all the same. docs/operating tells how to find out.
    replies: those that came before, where several requests were asked at once.
    """

    def __init__(self, why: str, status: int | None, in_doubt: bool, replies: Sequence[str] = ()):
        doubt = "may have been carried out all the same" if in_doubt else "wasn't carried out"
        super().__init__(f"{why}; what got no reply {doubt}")
        self.why, self.status, self.in_doubt, self.replies = why, status, in_doubt, list(replies)


class Broken(Exception):
    """What a process did in place of replying. Nothing is said where it ended by itself."""


def line_of(request: str) -> bytes:
    """A request as a line. One with a newline would be two, and get two replies."""
    if "\n" in request:
        raise ValueError("a request is one line")
    return request.encode("latin-1") + b"\n"


def text_of(reply: bytes) -> str:
    """A reply as a text. Nothing is told of one that can't be: it may hold what was deciphered."""
    if not reply.isascii():
        raise Broken("a byte came that no reply has")
    return reply.decode("ascii")


class Process:
    """A process of cca, and its two pipes. Its errors go to a file without a name, so that no third pipe fills.

    is_waiting: whether it has answered all that it was asked. An exception may break off anything at any place, as one of a signal
    handler does; so it is set last, and a process that isn't waiting is ended by whoever comes next.
    """

    def __init__(self, words: list[str], folder: str, executable: str | None = None, passed: tuple[int, ...] = ()):
        self.words, self.folder, self.executable, self.passed = words, folder, executable, passed
        self.owner, self.is_waiting = os.getpid(), False
        self.child: subprocess.Popen[bytes] | None = None
        self.errors = tempfile.TemporaryFile()
        self.for_reply, self.for_room_or_reply = select.poll(), select.poll()
        HELD.add(self)

    def start(self) -> None:
        """Starts it, in a session of its own, so that Ctrl-C at the terminal stops us, and we let cca end its request."""
        pipe = subprocess.PIPE
        self.child = subprocess.Popen(
            self.words,
            executable=self.executable,
            pass_fds=self.passed,
            cwd=self.folder,
            stdin=pipe,
            stdout=pipe,
            stderr=self.errors,
            bufsize=0,
            start_new_session=True,
        )
        for file in (self.input(), self.output()):
            os.set_blocking(file, False)
        self.for_reply.register(self.output(), select.POLLIN)
        self.for_room_or_reply.register(self.output(), select.POLLIN)
        self.for_room_or_reply.register(self.input(), select.POLLOUT)
        self.is_waiting = True

    def input(self) -> int:
        """The descriptor of the pipe to it."""
        assert self.child and self.child.stdin
        return self.child.stdin.fileno()

    def output(self) -> int:
        """The descriptor of the pipe from it."""
        assert self.child and self.child.stdout
        return self.child.stdout.fileno()

    def unasked(self) -> str | None:
        """What a process did that nobody asked: nothing is said where it ended by itself. None where it waits."""
        if not self.for_reply.poll(0):
            return None
        self.is_waiting = False
        return "cca said what it wasn't asked" if os.read(self.output(), 1) else ""

    def converse(self, lines: list[bytes], patience: float, replies: list[str]) -> None:
        """Writes lines and reads the reply to each, both at a time: a pipe has room for 64 KiB, so that who writes all
        first waits for ever."""
        self.is_waiting = False
        left, half, has_room = memoryview(b"".join(lines)), b"", True
        until = time.monotonic() + patience
        while len(replies) < len(lines):
            if left and has_room:
                left = left[self.write(left) :]
            has_room, has_reply = self.wait(len(left) > 0, until)
            if has_reply:
                half, until = self.read(half, replies), time.monotonic() + patience
        if half or left or len(replies) > len(lines):
            raise Broken("cca said more than it was asked")
        self.is_waiting = True

    def wait(self, is_writing: bool, until: float) -> tuple[bool, bool]:
        """Waits for room in the one pipe, or bytes in the other."""
        poll = self.for_room_or_reply if is_writing else self.for_reply
        found = dict(poll.poll(max(0.0, until - time.monotonic()) * 1000))
        if not found:
            raise Broken("cca sent no reply in time")
        return self.input() in found, self.output() in found

    def write(self, left: memoryview) -> int:
        """How many bytes were written. A process that reads no more has ended, which its output tells."""
        try:
            return os.write(self.input(), left[:CHUNK])
        except BlockingIOError:
            return 0
        except BrokenPipeError:
            return len(left)

    def read(self, half: bytes, replies: list[str]) -> bytes:
        """Takes the whole replies that have come. The beginning of another one is given back."""
        chunk = os.read(self.output(), CHUNK)
        if not chunk:
            raise Broken()
        *whole, half = (half + chunk).split(b"\n")
        replies += [text_of(line) for line in whole]
        if len(half) >= LONGEST_REPLY:
            raise Broken("cca sent a reply without an end")
        return half

    def finish(self, patience: float) -> tuple[int, str]:
        """Ends the input, at which cca ends by itself. Its status, and what it says of its end."""
        self.is_waiting = False
        if self.child and self.child.stdin:
            self.child.stdin.close()
        return self.end(patience)

    def end(self, patience: float) -> tuple[int, str]:
        """Waits for the end, and kills the process where that doesn't come in time, or where the wait is broken off. The input
        stays open until then: cca would carry out half a request at its end. It may be called again."""
        self.is_waiting = False
        try:
            self.wait_for_end(patience)
        finally:
            status = self.kill()
            self.leave()
        return status, os.pread(self.errors.fileno(), 4096, 0).decode("latin-1").strip() or "no text"

    def kill(self) -> int:
        """Kills it, and what it has started where it is a script, unless it has ended. Its status."""
        if self.child and self.status() is None:
            try:
                os.killpg(self.child.pid, signal.SIGKILL)
            except ProcessLookupError:
                pass
        status = self.wait_for_end(math.inf)
        assert status is not None
        return status

    def wait_for_end(self, patience: float) -> int | None:
        """The status, or None where the end doesn't come in time."""
        until = time.monotonic() + patience
        while (status := self.status()) is None and time.monotonic() < until:
            time.sleep(GLANCE)
        return status

    def status(self) -> int | None:
        """The status, or None while it runs. Popen itself would say 0 where somebody else has taken it. It is kept before it is
        taken from the system, where it is once. A process that wasn't started whole has lost its pipes, at which it ends."""
        if self.child is None:
            return -signal.SIGKILL
        if self.child.returncode is None:
            try:
                found = os.waitid(os.P_PID, self.child.pid, os.WEXITED | os.WNOHANG | os.WNOWAIT)
                if found is None:
                    return None
                self.child.returncode = found.si_status if found.si_code == os.CLD_EXITED else -found.si_status
                os.waitpid(self.child.pid, os.WNOHANG)
            except ChildProcessError:
                if self.child.returncode is None:
                    self.child.returncode = UNKNOWN
        return self.child.returncode

    def leave(self) -> None:
        """Closes both pipes."""
        for pipe in (self.child.stdin, self.child.stdout) if self.child else ():
            if pipe:
                pipe.close()


class Held(Protocol):
    """What is this process's alone: the pipes of a process, or a connection."""

    def leave(self) -> None:
        """Closes what is held."""


HELD: weakref.WeakSet[Held] = weakref.WeakSet()


def leave_all() -> None:
    """In a child of fork, which would keep cca from the end of its input, or could ask by its parent's connection to a front."""
    for it in list(HELD):
        it.leave()


os.register_at_fork(after_in_child=leave_all)


class Turns:
    """Requests take turns, whatever threads they come from."""

    def __init__(self) -> None:
        # Two locks, each of which its `with` gives back whatever breaks a request off; what is kept in a variable wouldn't be.
        self.turn, self.asking = threading.RLock(), threading.Lock()

    def owner(self) -> int | None:
        """The process that has started what is asked, where anything is started."""
        raise NotImplementedError

    def in_turn(self, call: Callable[[], T]) -> T:
        """What a call gives while nobody else asks."""
        if self.owner() not in (None, os.getpid()):
            raise RuntimeError("this process was forked from the one that asked before: make an object of its own")
        with self.turn:
            if self.asking.locked():
                raise RuntimeError("a request in the midst of another one, as by a signal handler")
            with self.asking:
                return call()


class Coprocessor(Turns):
    """One `cca run` or `cca audit` in a folder. It is started when it is asked, and started again after it has ended; but
    not after an end after which someone should look at the files first. Threads may share it."""

    def __init__(self, folder: str, program: str = "cca", command: str = "run", patience: float = PATIENCE):
        super().__init__()
        self.folder, self.patience = folder, patience
        self.words = [os.path.abspath(program) if "/" in program else program, command]
        self.executable: str | None = None  # the file that is started, where its name is another one
        self.passed: tuple[int, ...] = ()  # descriptors that it gets besides
        self.process: Process | None = None
        self.last: Ended | None = None

    def owner(self) -> int | None:
        process = self.process
        return process.owner if process else None

    def ask(self, request: str) -> str:
        """The reply to one request. Ended is raised where there is none."""
        return self.ask_all([request])[0]

    def ask_all(self, requests: Iterable[str]) -> list[str]:
        """The replies to many requests. Nothing is sent where one of them isn't one line."""
        if isinstance(requests, str):
            raise TypeError("ask_all takes a list of requests")
        lines = [line_of(request) for request in requests]
        return self.in_turn(lambda: self.replies(lines))

    def replies(self, lines: list[bytes]) -> list[str]:
        """The replies to lines. Where another run has the files, cca is started again for some seconds: it took no request."""
        until = time.monotonic() + IN_USE_SECONDS
        while True:
            try:
                return self.exchange(self.started(), lines)
            except Ended as end:
                if end.status != IN_USE or time.monotonic() > until:
                    raise
            time.sleep(IN_USE_PAUSE)

    def exchange(self, process: Process, lines: list[bytes]) -> list[str]:
        """Whole replies to all lines; on any other way out the process has ended."""
        replies: list[str] = []
        try:
            process.converse(lines, self.patience, replies)
            return replies
        except Broken as broken:
            raise self.ended(str(broken), True, replies) from None
        except BaseException as error:  # as KeyboardInterrupt, or what a signal handler raises
            error.add_note(str(self.ended(BROKEN_OFF, True, replies)))
            raise

    def started(self) -> Process:
        """A process that waits for a request."""
        if self.process and not self.process.is_waiting:
            self.ended(BROKEN_OFF, True)
        if self.last and self.last.status in LOOK_FIRST and self.last.status != IN_USE:
            raise Ended(f"look at the files first: {self.last.why}", self.last.status, False)
        unasked = self.process.unasked() if self.process else None
        if unasked is not None:
            raise self.ended(unasked)
        return self.process or self.start()

    def start(self) -> Process:
        """Starts a process. It is ours before it runs, so that it isn't lost where this is broken off."""
        process = self.process = Process(self.words, self.folder, self.executable, self.passed)
        try:
            process.start()
        except BaseException:
            if process.child is None:
                self.forget(process)
            raise
        return process

    def ended(self, why: str = "", was_sent: bool = False, replies: Sequence[str] = ()) -> Ended:
        """Ends the process that is out of step, and tells how."""
        process = self.process
        assert process
        status, text = process.end(0.0 if why else ENDING)
        told = f"{why}; it ended with status {status}: {text}" if why else f"cca ended with status {status}: {text}"
        self.last = Ended(told, status, was_sent and status not in NONE_TAKEN, replies)
        self.forget(process)
        return self.last

    def forget(self, process: Process) -> None:
        """Lets go of a process that has ended."""
        self.process = None
        process.errors.close()

    def close(self) -> int:
        """Ends the input; cca ends with status 0 once it has answered. The next request starts it again."""
        return self.in_turn(self.closed)

    def closed(self) -> int:
        """The status of the process, which has ended."""
        process = self.process
        if process is None:
            return 0
        is_whole = process.is_waiting  # half a request may be in the pipe of one that isn't
        status = process.finish(self.patience)[0] if is_whole else process.end(0.0)[0]
        self.forget(process)
        return status


def main() -> int:
    words = argparse.ArgumentParser(description="Asks cca each line of standard input, and prints the replies.")
    words.add_argument("folder")
    words.add_argument("program", nargs="?", default="cca")
    words.add_argument("--audit", action="store_true", help="start `cca audit`")
    given = words.parse_args()
    coprocessor = Coprocessor(given.folder, given.program, "audit" if given.audit else "run")
    for line in sys.stdin.buffer:
        if not line.endswith(b"\n"):
            print(HALF, file=sys.stderr)
            break
        try:
            reply = coprocessor.ask(line.removesuffix(b"\n").decode("latin-1"))
        except Ended as end:
            reply = f"-- no reply: {end}"
            if end.status in LOOK_FIRST:
                sys.exit(reply)
        print(reply, flush=True)
    return coprocessor.close()


if __name__ == "__main__":
    sys.exit(main())
