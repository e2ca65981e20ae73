"""The verbs over `cca run` or `cca audit`, and over the socket of a front."""
import os
import select
import socket
import time
from types import TracebackType
from typing import Self

from . import client
from .client import CHUNK, GLANCE, HELD, LONGEST_REPLY, PATIENCE, Broken, Ended, Turns, line_of, text_of
from .verbs import Verbs

NOT_CARRIED_OUT = b"-- "  # what a front's own line begins with, where it asks cca no more


class Coprocessor(client.Coprocessor, Verbs):
    """`cca run` in a folder, or with audit `cca audit`. It is started by the first request, and again after it has ended; but not
    after an end after which someone should look at the files first. Threads may share it.

    role: under which requests are asked; as_role(..) asks under another one.
    program: the program, or else what the variable CCA names, or else `cca`.
    patience: the seconds that a reply may take. Where one takes longer cca is killed, and Ended is raised.
    """

    def __init__(
        self,
        folder: str | os.PathLike[str],
        audit: bool = False,
        *,
        role: str = "DEFAULT",
        program: str | os.PathLike[str] | None = None,
        patience: float = PATIENCE,
    ):
        name = os.fspath(program) if program else os.environ.get("CCA", "cca")
        super().__init__(os.fspath(folder), name, "audit" if audit else "run", patience)
        self.role = role

    def _drop(self) -> None:
        self.in_turn(self._dropped)

    def _dropped(self) -> None:
        if self.process:
            self.ended("cca sent a reply that no such request gets", True)

    def __enter__(self) -> Self:
        return self

    def __exit__(self, kind: type[BaseException] | None, error: BaseException | None, trace: TracebackType | None) -> None:
        self.close()


class Connection:
    """A connection to a front. It is closed in a child of fork, which has its own role, and not its parent's.

    is_waiting: as that of a process: whether all that was asked has its reply.
    """

    def __init__(self) -> None:
        self.owner, self.is_waiting = os.getpid(), False
        self.socket = socket.socket(socket.AF_UNIX)
        HELD.add(self)

    def connect(self, path: str, patience: float) -> None:
        """Connects, also where the front has so many connections that it takes no more for some time."""
        until = time.monotonic() + patience
        self.socket.setblocking(False)
        while True:
            try:
                self.socket.connect(path)
                break
            except BlockingIOError:
                if time.monotonic() >= until:
                    raise Ended("the front took no connection in time", None, False) from None
                time.sleep(GLANCE)
        self.is_waiting = True

    def unasked(self) -> str | None:
        """What the front did that nobody asked: nothing is said where it ended the connection. None where it waits."""
        if not self.is_ready(select.POLLIN, 0.0):
            return None
        self.is_waiting = False
        try:
            return "the front said what it wasn't asked" if self.socket.recv(1) else ""
        except OSError:
            return ""

    def reply(self, line: bytes, patience: float) -> str:
        """Sends a line and reads its reply."""
        self.is_waiting = False
        until = time.monotonic() + patience
        self.send(line, until)
        reply = self.receive(until)
        if reply.startswith(NOT_CARRIED_OUT):
            raise Ended("the front ends", None, False)
        text = text_of(reply)
        self.is_waiting = True
        return text

    def send(self, line: bytes, until: float) -> None:
        """Sends a line."""
        while line:
            try:
                line = line[self.socket.send(line, socket.MSG_NOSIGNAL) :]
            except BlockingIOError:
                if not self.is_ready(select.POLLOUT, until - time.monotonic()):
                    raise Broken("the front took no request in time") from None

    def receive(self, until: float) -> bytes:
        """One whole line, and nothing behind it, without its newline."""
        reply = b""
        while b"\n" not in reply:
            if len(reply) >= LONGEST_REPLY:
                raise Broken("the front sent a reply without an end")
            if not self.is_ready(select.POLLIN, until - time.monotonic()):
                raise Broken("the front sent no reply in time")
            chunk = self.socket.recv(CHUNK)
            if not chunk:
                raise Broken("the front ended the connection")
            reply += chunk
        if not reply.endswith(b"\n") or reply.count(b"\n") > 1:
            raise Broken("the front said more than it was asked")
        return reply[:-1]

    def is_ready(self, event: int, seconds: float) -> bool:
        """Whether an event comes within some seconds."""
        poll = select.poll()
        poll.register(self.socket, event)
        return seconds >= 0 and bool(poll.poll(seconds * 1000))

    def leave(self) -> None:
        """Closes the connection."""
        self.socket.close()


class Socket(Turns, Verbs):
    """The socket of a front, which names the role. It is connected by the first request, and again after the connection has
    ended. Threads may share it; but each request waits for the one before.

    patience: the seconds that a connection may take, and a reply. Where one takes longer the connection is closed, and Ended is
    raised.
    """

    role = None

    def __init__(self, path: str | os.PathLike[str], patience: float = PATIENCE):
        super().__init__()
        self.path, self.patience = os.fspath(path), patience
        self.connection: Connection | None = None

    def owner(self) -> int | None:
        connection = self.connection
        return connection.owner if connection else None

    def ask(self, request: str) -> str:
        """The reply to one request. Ended is raised where there is none."""
        line = line_of(request)
        return self.in_turn(lambda: self._reply(line))

    def close(self) -> None:
        """Ends the connection. The next request connects again."""
        self.in_turn(self._close)

    def _reply(self, line: bytes) -> str:
        """The reply to a line; on any other way out the connection has ended."""
        connection = self._connected()
        try:
            return connection.reply(line, self.patience)
        except Ended:
            self._close()
            raise
        except (Broken, ConnectionError) as error:
            self._close()
            raise Ended(str(error) or "the front ended the connection", None, True) from None
        except BaseException as error:  # as KeyboardInterrupt, or what a signal handler raises
            self._close()
            error.add_note("the front was asked; what got no reply may have been carried out all the same")
            raise

    def _connected(self) -> Connection:
        """A connection on which nothing is under way. One that the front has ended, since it was silent, is made anew."""
        unasked = self.connection.unasked() if self.connection and self.connection.is_waiting else ""
        if unasked is not None:
            self._close()
            if unasked:
                raise Ended(unasked, None, False)
        return self.connection or self._connect()

    def _connect(self) -> Connection:
        """A new connection. It is ours before it is one, so that it isn't lost where this is broken off."""
        connection = self.connection = Connection()
        try:
            connection.connect(self.path, self.patience)
        except BaseException:
            self._close()
            raise
        return connection

    def _close(self) -> None:
        if self.connection:
            self.connection.leave()
        self.connection = None

    _drop = close

    def __enter__(self) -> Self:
        return self

    def __exit__(self, kind: type[BaseException] | None, error: BaseException | None, trace: TracebackType | None) -> None:
        self.close()
