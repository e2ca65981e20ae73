"""What a custodian types: at the terminal without echo, or from a pipe where that is asked for.

The terminal is as before however the typing ends, by Ctrl-C or another signal too. Ctrl-Z and Ctrl-\\ do nothing meanwhile: a
program that is stopped would leave the terminal to a shell that shows what is typed next.
"""
import os
import signal
import sys
import termios
from collections.abc import Iterator
from contextlib import contextmanager
from typing import Protocol

from cca.lines import digits_fault

from cca_service.ctl.command import Exit, Failed

CHUNK = 4096
OFF = b"\0"  # a character of the terminal that does nothing
LOCAL, CHARACTERS = 3, 6  # places in what termios tells
YES = "yes"


class Typed(Protocol):
    """Where lines come from that are typed."""

    def hidden(self, prompt: str) -> str:
        """A line that isn't shown."""

    def agrees(self, question: str) -> bool:
        """Whether whoever types says yes."""


class Terminal:
    """The terminal of this process, whatever its standard input is."""

    def __init__(self) -> None:
        try:
            self.file = os.open("/dev/tty", os.O_RDWR | os.O_NOCTTY | os.O_CLOEXEC)
        except OSError:
            raise Failed("there is no terminal: give --from-pipe where a program enters the part", Exit.USAGE) from None

    def hidden(self, prompt: str) -> str:
        with self.without_echo():
            self.write(prompt)
            try:
                return self.line()
            finally:
                self.write("\n")

    def agrees(self, question: str) -> bool:
        self.write(f"{question} ({YES} or no): ")
        return self.line().strip().lower() == YES

    def write(self, text: str) -> None:
        os.write(self.file, text.encode())

    def line(self) -> str:
        """A line, without its newline. Nothing is taken of one that is left by Ctrl-D."""
        come = b""
        while not come.endswith(b"\n"):
            chunk = os.read(self.file, CHUNK)
            if not chunk:
                raise Failed("the line wasn't ended: nothing was sent")
            come += chunk
        return come[:-1].decode("latin-1")

    @contextmanager
    def without_echo(self) -> Iterator[None]:
        """What is typed isn't shown meanwhile, and whoever types can't leave the program but by ending it."""
        before = termios.tcgetattr(self.file)
        silent = [*before[:LOCAL], before[LOCAL] & ~termios.ECHO, *before[LOCAL + 1 : CHARACTERS], list(before[CHARACTERS])]
        for name in (termios.VSUSP, termios.VQUIT):
            silent[CHARACTERS][name] = OFF
        stops = signal.signal(signal.SIGTSTP, signal.SIG_IGN)
        quits = signal.signal(signal.SIGQUIT, signal.getsignal(signal.SIGTERM))
        try:
            termios.tcsetattr(self.file, termios.TCSAFLUSH, silent)
            yield
        finally:
            try:
                termios.tcsetattr(self.file, termios.TCSAFLUSH, before)
            finally:  # once more, where a second signal came in between
                termios.tcsetattr(self.file, termios.TCSAFLUSH, before)
                signal.signal(signal.SIGTSTP, stops)
                signal.signal(signal.SIGQUIT, quits)


class Pipe:
    """Standard input, of a program. It answers no question."""

    def __init__(self) -> None:
        if sys.stdin.isatty():
            raise Failed("--from-pipe: standard input is a terminal, which would show the part", Exit.USAGE)

    def hidden(self, prompt: str) -> str:
        line = sys.stdin.readline(CHUNK)
        if not line:
            raise Failed("standard input ended before a part was entered: nothing was sent")
        return line.removesuffix("\n")

    def agrees(self, question: str) -> bool:
        return True


def typed(is_from_pipe: bool) -> Typed:
    if is_from_pipe:
        return Pipe()
    return Terminal()


def digits_of(text: str, counts: tuple[int, ...]) -> str:
    """A part that was typed, whose digits may stand in groups."""
    digits = "".join(text.split())
    fault = digits_fault(digits, counts)
    if fault:
        raise Failed(f"the part: digit {fault.at + 1}: {fault.reason}; nothing was sent")
    return digits.lower()


def part_of(source: Typed, counts: tuple[int, ...], name: str = "The part") -> bytes:
    """A part that is typed twice, since what isn't shown is easily mistyped."""
    wanted = " or ".join(map(str, counts))
    first = digits_of(source.hidden(f"{name}, {wanted} hexadecimal digits, which aren't shown: "), counts)
    again = digits_of(source.hidden("The same once more: "), counts)
    if first != again:
        raise Failed("the two aren't the same: nothing was sent. Begin this step again")
    return bytes.fromhex(first)
