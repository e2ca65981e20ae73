#!/usr/bin/env python3
"""Asks the front. The requests name no role.

    ask.py [--timeout SECONDS] SOCKET < requests
    ask.py [--timeout SECONDS] --health LABEL SOCKET

The first form prints the reply to each request. It waits a minute for a front that begins, and for a reply as long as that
takes; or SECONDS at most for each. The second form asks for the key check value of a label, and succeeds only where that
comes within five seconds, or within SECONDS where they are fewer: it checks the front, cca, the module and the store.
"""
import argparse
import select
import socket
import sys
import time

BEGINNING = 60.0  # seconds for a front that has just been started
HEALTHY = 5.0  # seconds for a check of its health
PAUSE = 0.1
CHUNK = 1 << 16
FRONTS_OWN = b"-- "  # what a line begins with that is no reply, but tells that the request wasn't carried out


class Unanswered(Exception):
    """A request got no reply."""


class Asked:
    """A connection to the socket of a front."""

    def __init__(self, path: str, until: float):
        self.path, self.come = path, b""
        self.socket = self.connected(until)

    def connected(self, until: float) -> socket.socket:
        while True:
            it = socket.socket(socket.AF_UNIX)
            it.setblocking(False)
            try:
                it.connect(self.path)
                return it
            except (FileNotFoundError, ConnectionRefusedError, BlockingIOError):  # not there yet, or as many wait as may
                it.close()
                if time.monotonic() > until:
                    raise Unanswered(f"no front takes a connection at {self.path}") from None
            except OSError as error:
                it.close()
                raise Unanswered(f"{self.path}: {error.strerror}") from None
            time.sleep(PAUSE)

    def ask(self, line: bytes, until: float | None) -> bytes:
        """The reply to a line. Where its end couldn't be sent it wasn't carried out."""
        was_sent = self.is_sent(line, until)
        doubt = "the request may have been carried out all the same" if was_sent else "the request wasn't carried out"
        while b"\n" not in self.come:
            if not self.is_ready(select.POLLIN, until):
                raise Unanswered(f"the front sent no reply in time: {doubt}")
            chunk = self.received()
            if not chunk:
                raise Unanswered(f"the front sent no reply: {doubt}")
            self.come += chunk
        reply, _, self.come = self.come.partition(b"\n")
        if reply.startswith(FRONTS_OWN):
            raise Unanswered(reply.removeprefix(FRONTS_OWN).decode())
        return reply

    def is_sent(self, line: bytes, until: float | None) -> bool:
        """Whether the front could be sent a whole line."""
        try:
            while line and self.is_ready(select.POLLOUT, until):
                line = line[self.socket.send(line, socket.MSG_NOSIGNAL) :]
        except ConnectionError:
            pass
        return not line

    def received(self) -> bytes:
        try:
            return self.socket.recv(CHUNK)
        except ConnectionError:
            return b""

    def is_ready(self, event: int, until: float | None) -> bool:
        """Whether an event comes in time."""
        poll = select.poll()
        poll.register(self.socket, event)
        return bool(poll.poll(None if until is None else max(0.0, until - time.monotonic()) * 1000))


def ask_each(path: str, timeout: float | None) -> None:
    """Asks the lines of standard input, and prints the reply to each."""
    front = Asked(path, time.monotonic() + (BEGINNING if timeout is None else timeout))
    with front.socket:
        for request in sys.stdin.buffer:
            if not request.endswith(b"\n"):
                print("the last line has no newline: it may be half a request, and isn't asked", file=sys.stderr)
                break
            reply = front.ask(request, None if timeout is None else time.monotonic() + timeout)
            print(reply.decode(), flush=True)


def is_healthy(path: str, label: str, timeout: float | None) -> bool:
    """Whether the front, cca and the store give the key check value of a label. What came is printed."""
    until = time.monotonic() + min(HEALTHY, HEALTHY if timeout is None else timeout)
    reply = Asked(path, until).ask(f"CSNBKYT key=L:{label}\n".encode(), until).decode()
    print(reply)
    return reply.startswith("OK ")


def main() -> int:
    words = argparse.ArgumentParser(description="Asks the front each line of standard input, and prints the replies.")
    words.add_argument("socket")
    words.add_argument("--timeout", type=float, metavar="SECONDS", help="for connecting, and for each reply")
    words.add_argument("--health", metavar="LABEL", help="ask for the key check value of this label, and for nothing else")
    given = words.parse_args()
    try:
        if given.health is not None:
            return 0 if is_healthy(given.socket, given.health, given.timeout) else 1
        ask_each(given.socket, given.timeout)
    except Unanswered as error:
        sys.exit(str(error))
    return 0


if __name__ == "__main__":
    sys.exit(main())
