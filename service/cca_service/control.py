"""The front's own socket, for its user and root: its state, a hold while its files are copied, another program, the trail
fetched.

One JSON object a line each way. {"ask": "status"}, {"ask": "hold", "seconds": S}, {"ask": "release"}, {"ask": "reload"} and
{"ask": "fetch"} get {"ok": true, ..}, or {"ok": false, "why": ".."}. Whoever sends a line that is no such object is told so,
and the connection ends. Another user's connection ends without an answer.
"""
import json
import os
import socket
import time
from collections.abc import Callable
from dataclasses import dataclass

from cca_service.connections import listening, locked, uid_of
from cca_service.watching import NOTHING, READ, WRITE, Watch

LONGEST = 1 << 16  # bytes of a line, with its newline
CALLERS = 4
SILENT = 60.0  # seconds after which a connection without a hold is closed
HOLD = 10.0  # seconds of a hold for which no other number is asked
LONGEST_HOLD = 30.0
ROOT = 0

Answer = dict[str, object]
Call = Callable[[], Answer]


class Refused(Exception):
    """Why something that was asked isn't done."""


class NoRequest(Exception):
    """A line that is no request at all."""


class Caller:
    """A connection: what came and isn't a line yet, and what wasn't sent yet."""

    def __init__(self, peer: socket.socket):
        peer.setblocking(False)
        self.socket, self.number, self.used = peer, peer.fileno(), time.monotonic()
        self.taken, self.unsent, self.is_last = b"", b"", False

    def receive(self) -> bool:
        """Takes what has come. False where nothing more comes, or a line is too long."""
        try:
            chunk = self.socket.recv(LONGEST)
        except BlockingIOError:
            return True
        except OSError:
            return False
        self.taken += chunk
        return bool(chunk)

    def end_input(self) -> None:
        """Lets the client send no more. Nothing is left unread, since he could get an error in the place of his answer."""
        self.is_last = True
        self.socket.shutdown(socket.SHUT_RD)
        while self.receive():
            self.taken = b""

    def line(self) -> bytes | None:
        """The next line, if there is a whole one."""
        line, newline, rest = self.taken.partition(b"\n")
        if len(line) >= LONGEST:
            raise NoRequest(f"a line has at most {LONGEST} bytes")
        if not newline:
            return None
        self.taken, self.used = rest, time.monotonic()
        return line

    def send(self) -> bool:
        """Sends as much as there is room for. False where the client has left."""
        try:
            self.unsent = self.unsent[self.socket.send(self.unsent, socket.MSG_NOSIGNAL) :]
        except BlockingIOError:
            return True
        except OSError:
            return False
        return True


@dataclass
class Hold:
    """While one lasts no request goes to cca."""

    caller: Caller
    began: float
    until: float


def request_of(line: bytes) -> Answer:
    """What a line asks."""
    try:
        asked = json.loads(line.decode())
    except (ValueError, RecursionError):
        raise NoRequest("this is no JSON object") from None
    if not isinstance(asked, dict):
        raise NoRequest("this is no JSON object")
    return asked


def seconds_of(asked: Answer) -> float:
    """How long a hold may last."""
    given = asked.get("seconds", HOLD)
    if isinstance(given, bool) or not isinstance(given, int | float) or not 0 < given:
        raise Refused("seconds is a number above 0")
    if given > LONGEST_HOLD:
        raise Refused(f"a hold lasts {LONGEST_HOLD:.0f} seconds at most")
    return float(given)


class Control:
    """The socket, its connections, and the hold, if there is one. What else is asked the calls answer that it was made with;
    `files` are those that are held."""

    def __init__(self, path: str, watch: Watch, calls: dict[str, Call], files: Call, tell: Callable[..., None]):
        self.path, self.watch, self.calls, self.files, self.tell = path, watch, calls, files, tell
        self.lock = locked(path + ".lock", os.O_RDWR | os.O_CREAT, path)
        self.listener = listening(path)
        self.callers: list[Caller] = []
        self.hold: Hold | None = None
        self.lost: set[Caller] = set()  # those whose hold ended before they released it
        self.watch.set(self.listener.fileno(), READ, self)

    def admit(self) -> None:
        """Takes a connection of the front's own user or root; no further one while there are as many as may be."""
        try:
            peer = self.listener.accept()[0]
        except OSError:
            return
        if uid_of(peer) not in (ROOT, os.geteuid()) or len(self.callers) >= CALLERS:
            return peer.close()
        caller = Caller(peer)
        self.callers.append(caller)
        self.watch.set(caller.number, READ, caller)

    def take_up(self, caller: Caller) -> None:
        """Sends what wasn't sent, or takes what has come and answers it."""
        if caller not in self.callers:
            return
        if not (caller.send() if caller.unsent else caller.receive()):
            return self.leave(caller)
        self.answer_lines(caller)

    def answer_lines(self, caller: Caller) -> None:
        """Answers whole lines, as long as the answers are taken."""
        try:
            while not caller.unsent and not caller.is_last and (line := caller.line()) is not None:
                self.give(caller, self.answer(caller, line))
        except NoRequest as why:
            caller.end_input()
            self.give(caller, {"ok": False, "why": str(why)})
        if caller not in self.callers:
            return
        if caller.is_last and not caller.unsent:
            return self.leave(caller)
        self.watch.set(caller.number, WRITE if caller.unsent else READ, caller)

    def give(self, caller: Caller, answer: Answer) -> None:
        caller.unsent = json.dumps(answer).encode() + b"\n"
        if not caller.send():
            self.leave(caller)

    def answer(self, caller: Caller, line: bytes) -> Answer:
        """What comes of a line."""
        asked = request_of(line)
        name = asked.get("ask")
        try:
            if name == "hold":
                return self.begin_hold(caller, seconds_of(asked))
            if name == "release":
                return self.release(caller)
            if not isinstance(name, str) or name not in self.calls:
                raise Refused(f"nothing of this name can be asked: there are hold, release, {', '.join(self.calls)}")
            if self.hold and name != "status":
                raise Refused("held by another")
            return {"ok": True, **self.calls[name]()}
        except Refused as why:
            return {"ok": False, "why": str(why)}

    def leave(self, caller: Caller) -> None:
        """Ends a connection, and its hold."""
        if self.hold and self.hold.caller is caller:
            self.hold = None
        self.lost.discard(caller)
        self.callers.remove(caller)
        self.watch.set(caller.number, NOTHING, caller)
        caller.socket.close()

    # ---- holds

    def begin_hold(self, caller: Caller, seconds: float) -> Answer:
        """No request is under way while the socket is heeded: so the hold begins at once."""
        if self.hold:
            raise Refused("held by another")
        found = self.files()
        began = time.monotonic()
        self.hold = Hold(caller, began, began + seconds)
        self.lost.discard(caller)
        return {"ok": True, "held": True, **found}

    def release(self, caller: Caller) -> Answer:
        """Ends a hold: whether it has lasted until now."""
        if self.hold and self.hold.caller is caller:
            self.hold = None
            return {"ok": True, "held": False, "whole": True}
        if caller in self.lost:
            self.lost.discard(caller)
            return {"ok": True, "held": False, "whole": False}
        raise Refused("nothing is held by this connection")

    def lose_hold(self, why: str) -> None:
        """Ends the hold, though its holder hasn't released it."""
        if self.hold:
            self.tell(event="hold", text=f"it ended before it was released: {why}", seconds=round(self.held_for(), 3))
            self.lost.add(self.hold.caller)
            self.hold = None

    def held_for(self) -> float:
        """For how many seconds there is a hold."""
        return time.monotonic() - self.hold.began if self.hold else 0.0

    def heed_time(self) -> None:
        """Ends a hold that has lasted as long as it may, and connections that are silent."""
        now = time.monotonic()
        if self.hold and now >= self.hold.until:
            self.lose_hold("it lasted too long")
        holder = self.hold.caller if self.hold else None
        for caller in [it for it in self.callers if it is not holder and it.used + SILENT < now]:
            self.leave(caller)

    def close(self) -> None:
        """Ends all of it."""
        for caller in list(self.callers):
            self.leave(caller)
        try:
            os.unlink(self.path)
        except FileNotFoundError:
            pass
        self.watch.set(self.listener.fileno(), NOTHING, self)
        self.listener.close()
        os.close(self.lock)
