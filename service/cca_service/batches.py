"""Lines that are asked at once, one of each connection, and what came of them.

cca carries out lines in their order, and writes the reply to one before it carries out the next. So where it ends, those that
have their replies were carried out; the first one without a reply may have been; those behind it weren't, and are asked
again.

A request that writes a disk is asked by itself, so that the replies to others don't wait for the drive. With an audit trail
each request waits for it, and fewer lines go at once: a role that has one line shouldn't wait long for many of another role.
"""
from dataclasses import dataclass, field
from typing import NamedTuple

from cca.client import Ended
from cca_service.connections import Connection, Door

MOST = 64  # lines at once
MOST_AUDITED = 16
WRITERS = (b"CSNBKRC ", b"CSNBKRD ", b"CSNBKRW ", b"CSNBMKP ", b"CSUAACI ", b"REENCIPHER")
TO_LABEL = b" to=L:"  # of requests that put a key under a label


class Line(NamedTuple):
    """A line whose turn it is, without its newline."""

    connection: Connection
    text: bytes

    def request(self) -> bytes:
        """What cca is asked: the line with the role of its socket, whatever it is."""
        verb, space, fields = self.text.partition(b" ")
        return b"%b role=%b%b%b\n" % (verb, self.connection.door.name, space, fields)


@dataclass
class Answers:
    """What came of lines: replies to the first ones, and how many behind these may have been carried out all the same. Those
    behind them weren't. `end` tells how cca ended, where it did."""

    first: int  # the number of the first request
    replies: list[str]
    doubts: int = 0
    end: Ended | None = None
    took: float = field(default=0.0)  # seconds


def writes(line: bytes) -> bool:
    """Whether a line, if it is a request, may write a disk."""
    return line.startswith(WRITERS) or TO_LABEL in line


class Turns:
    """Whose turn it is: roles one after another, and within a role its connections."""

    def __init__(self, doors: list[Door], is_audited: bool):
        self.doors, self.most, self.at = doors, MOST_AUDITED if is_audited else MOST, 0

    def next(self) -> list[Line]:
        """The lines that are asked next, which wait no more."""
        lines: list[Line] = []
        idle = 0  # roles in a row without a line
        while len(lines) < self.most and idle < len(self.doors):
            door = self.doors[self.at]
            idle = 0 if door.ready else idle + 1
            if door.ready:
                connection = door.ready.popleft()
                line = Line(connection, connection.line())
                if writes(line.text):
                    return self.alone(line, lines)
                lines.append(line)
            self.at = (self.at + 1) % len(self.doors)
        return lines

    def alone(self, line: Line, before: list[Line]) -> list[Line]:
        """A line that writes: it is asked by itself, and so waits for those before it, if there are any."""
        if before:
            self.put_back([line])
            return before
        self.at = (self.at + 1) % len(self.doors)
        return [line]

    def put_back(self, lines: list[Line]) -> None:
        """Lines that weren't begun are the next ones again."""
        if lines:
            self.at = self.doors.index(lines[0].connection.door)
        for line in reversed(lines):
            line.connection.put_back(line.text)
            line.connection.door.ready.appendleft(line.connection)
