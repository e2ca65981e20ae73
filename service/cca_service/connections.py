"""The sockets of the front: a door for each role, and the connections of its clients."""
import fcntl
import itertools
import os
import re
import resource
import select
import socket
import stat
import struct
import time
from collections import Counter, deque
from pathlib import Path

LONGEST = 9_216  # bytes of a line, before its newline
BACKLOG = 128  # connections that wait to be taken
OTHER_FILES = 64  # descriptors beside those of connections
CHUNK = 1 << 16
ROLE = re.compile(r"[A-Z][A-Z0-9]{0,7}")
# A line of the front alone, since no reply of cca begins so. It is the last one of its connection: neither the line that it
# answers was carried out, nor one behind that.
NOT_CARRIED_OUT = b"-- not carried out"


class Stop(Exception):
    """The front can't go on. Someone should read what is told."""


def locked(path: str, flags: int, what: str) -> int:
    """A lock that is held until this process ends."""
    file = os.open(path, flags | os.O_CLOEXEC, 0o600)
    try:
        fcntl.flock(file, fcntl.LOCK_EX | fcntl.LOCK_NB)
    except BlockingIOError:
        raise Stop(f"another front has {what}") from None
    return file


def listening(path: str) -> socket.socket:
    """A socket at this path. One that a front left behind is replaced; anything else is left alone."""
    if os.path.lexists(path):
        if not stat.S_ISSOCK(os.lstat(path).st_mode):
            raise Stop(f"{path} is there, and is no socket")
        os.unlink(path)
    it = socket.socket(socket.AF_UNIX)
    it.bind(path)
    it.listen(BACKLOG)
    it.setblocking(False)
    return it


def uid_of(peer: socket.socket) -> int:
    """The user at the other end of a connection."""
    uid: int = struct.unpack("3i", peer.getsockopt(socket.SOL_SOCKET, socket.SO_PEERCRED, struct.calcsize("3i")))[1]
    return uid


class Connection:
    """A client's connection: what came of it and wasn't served yet, and what wasn't sent yet."""

    def __init__(self, peer: socket.socket, door: "Door"):
        peer.setblocking(False)
        self.number = peer.fileno()
        self.socket, self.door, self.used = peer, door, time.monotonic()
        self.uid = uid_of(peer)
        self.taken, self.unsent = bytearray(), b""

    def has_line(self) -> bool:
        return b"\n" in self.taken

    def waits_for_turn(self) -> bool:
        """Whether it has a line, which can be served."""
        return not self.unsent and bool(self.taken) and self.has_line()

    def receive(self) -> bool:
        """Takes what has come; of a line that is too long its beginning alone. False where nothing more can come."""
        try:
            chunk = self.socket.recv(CHUNK)
        except BlockingIOError:
            return True
        except OSError:
            return False
        self.taken += chunk
        if len(self.taken) > LONGEST and not self.has_line():
            del self.taken[LONGEST + 1 :]
        return bool(chunk)

    def receive_last(self) -> bool:
        """Lets the client send no more, and takes what it has sent, up to a first line. Whether there is one. So a client
        sends a line that is taken, or can't send it."""
        self.socket.shutdown(socket.SHUT_RD)
        while not self.has_line() and self.receive():
            pass
        return self.has_line()

    def line(self) -> bytes:
        """The next line; of one that is too long as much as cca needs to refuse it."""
        end = self.taken.index(b"\n")
        line = bytes(self.taken[: min(end, LONGEST + 1)])
        del self.taken[: end + 1]
        return line

    def put_back(self, line: bytes) -> None:
        """Makes a line that wasn't begun the next one again."""
        self.taken[:0] = line + b"\n"

    def send(self) -> bool:
        """Sends as much as there is room for. False where the client has left."""
        try:
            sent = self.socket.send(self.unsent, socket.MSG_NOSIGNAL)
        except BlockingIOError:
            return True
        except OSError:
            return False
        self.unsent = self.unsent[sent:]
        return True

    def tell_last(self, why: str) -> None:
        """Tells the client that what it waits for, and whatever else it sends, isn't carried out. Nothing of that is left
        unread, since the client could get an error in the place of this line."""
        self.unsent += NOT_CARRIED_OUT + f": {why}\n".encode()
        self.send()
        self.socket.shutdown(socket.SHUT_RD)
        while self.receive():
            self.taken.clear()


class Door:
    """The socket of one role, its connections, the longest unused one first, and those of them that have a whole line."""

    def __init__(self, path: str, role: str, group: str = ""):
        if not ROLE.fullmatch(role):
            raise Stop(f"{role or 'nothing'} is no role's name: a socket is named as PATH=ROLE")
        self.path, self.role, self.name, self.group = path, role, role.encode(), group
        self.lock = locked(path + ".lock", os.O_RDWR | os.O_CREAT, path)
        self.listener = listening(path)
        self.connections: dict[Connection, None] = {}
        self.users: Counter[int] = Counter()  # the number of connections of each user
        self.turned_away: set[int] = set()  # users of whom that was told
        self.ready: deque[Connection] = deque()

    def accept(self) -> Connection | None:
        """A further connection, which isn't among the door's yet. None where there is none, or no descriptor for it."""
        try:
            return Connection(self.listener.accept()[0], self)
        except OSError:
            return None

    def add(self, connection: Connection) -> None:
        self.users[connection.uid] += 1
        self.connections[connection] = None

    def remove(self, connection: Connection) -> None:
        del self.connections[connection]
        self.turned_away.discard(connection.uid)
        self.users[connection.uid] -= 1
        if not self.users[connection.uid]:
            del self.users[connection.uid]

    def used(self, connection: Connection, when: float) -> None:
        """Puts a connection behind those that were used before."""
        connection.used = when
        del self.connections[connection]
        self.connections[connection] = None

    def unused_since(self, when: float) -> list[Connection]:
        """The connections that weren't used since then, the longest unused one first."""
        return list(itertools.takewhile(lambda it: it.used < when, self.connections))

    def is_waited_for(self) -> bool:
        """Whether someone waits to be connected."""
        poll = select.poll()
        poll.register(self.listener, select.POLLIN)
        return bool(poll.poll(0))

    def close(self) -> None:
        """Lets nobody connect any more. Those who have, and weren't accepted yet, still can be."""
        Path(self.path).unlink(missing_ok=True)
        self.listener.shutdown(socket.SHUT_RD)


def limit_that_fits(limit: int, doors: int) -> int:
    """The limit of a socket's connections, or what this process's limit of descriptors leaves for each."""
    soft, hard = resource.getrlimit(resource.RLIMIT_NOFILE)
    wanted = limit * doors + OTHER_FILES
    if soft < wanted and (hard == resource.RLIM_INFINITY or hard > soft):
        soft = wanted if hard == resource.RLIM_INFINITY else min(wanted, hard)
        resource.setrlimit(resource.RLIMIT_NOFILE, (soft, hard))
    return max(1, min(limit, (soft - OTHER_FILES) // doors))
