"""A front over keys of its own, with sockets of roles, and `ccactl` beside it; a terminal at which it is typed; and what answers at a
socket in the place of a front."""
import contextlib
import fcntl
import io
import json
import os
import pty
import select
import signal
import socket
import subprocess
import sys
import termios
import threading
import time
import unittest.mock

from tests.edits import FRONT, PATHS, SERVICE
from tests.harness import Case, limited

sys.path[:0] = PATHS
from cca_service.ctl import main as ccactl  # noqa: E402

CCACTL = SERVICE / "ccactl"
ENDING = (signal.SIGTERM, signal.SIGINT, signal.SIGHUP, signal.SIGCHLD)  # for which ccactl sets what is done
SECONDS = 60.0
ECHO_PLACE = 3  # of the local flags in what termios tells


class Served(Case):
    """Keys in the folder `keys`, and a front over them where one is begun."""

    def setUp(self):
        super().setUp()
        limited(self, 200)
        self.keys = self.folder / "keys"
        self.keys.mkdir()
        self.environment = {**os.environ, "CCA": self.program.path, "PYTHONDONTWRITEBYTECODE": "1"}

    def front(self, *doors, options=()):
        """Begins a front with a socket for each role, which is called as the role in small letters, and serves until the test ends."""
        log = self.folder / "front.log"
        named = [f"{self.path(role)}={role}" for role in doors]
        words = [sys.executable, "-B", FRONT, self.keys, *named, "--log", log, *options]
        it = subprocess.Popen(words, env=self.environment, stderr=subprocess.DEVNULL)
        self.addCleanup(it.wait)
        self.addCleanup(it.terminate)
        until = time.monotonic() + SECONDS
        while not (log.exists() and '"ready"' in log.read_text()):
            self.assertIsNone(it.poll(), "the front ended")
            self.assertLess(time.monotonic(), until)
            time.sleep(0.05)
        return it

    def path(self, role):
        """The socket of a role."""
        return self.folder / f"{role.lower()}.socket"

    def ctl(self, *words, given=""):
        """Runs ccactl, in this process: its exit status, what it prints, and what it tells."""
        out, err, before = io.StringIO(), io.StringIO(), [signal.getsignal(it) for it in ENDING]
        variables = {**self.environment, "COLUMNS": "128"}
        with (
            contextlib.redirect_stdout(out), contextlib.redirect_stderr(err), contextlib.chdir(self.folder),
            unittest.mock.patch("sys.stdin", io.TextIOWrapper(io.BytesIO(given.encode()))), unittest.mock.patch.dict(os.environ, variables),
        ):  # fmt: skip
            try:
                status = ccactl.main([str(it) for it in words])
            except SystemExit as end:
                status = end.code
            finally:
                for number, handler in zip(ENDING, before):
                    signal.signal(number, handler)
        return int(status), out.getvalue(), err.getvalue()

    def ends_so(self, came, status, lines=(), tells=None):
        """How ccactl must end: its exit status, the lines that it prints, and a pattern of what it tells, or that it tells nothing."""
        self.assertEqual((came[0], came[1].splitlines()), (status, list(lines)), came[2])
        if tells is None:
            self.assertEqual(came[2], "")
        else:
            self.assertRegex(came[2], tells)
            self.assertNotIn("Traceback", came[2])


def answering(test, replies):
    """The path of a socket at which a function of each line answers, in bytes that may be none of a front. Empty bytes end the
    connection. What came is given too."""
    path, came = test.folder / "stand-in.socket", []
    path.unlink(missing_ok=True)
    listener = socket.socket(socket.AF_UNIX)
    listener.bind(str(path))
    listener.listen()
    test.addCleanup(listener.close)

    def serve(connection):
        with connection, connection.makefile("rb") as lines, contextlib.suppress(OSError):
            for line in lines:
                came.append(line)
                reply = replies(line)
                if not reply:
                    return
                connection.sendall(reply)

    def accept():
        with contextlib.suppress(OSError):
            while True:
                threading.Thread(target=serve, args=(listener.accept()[0],), daemon=True).start()

    threading.Thread(target=accept, daemon=True).start()
    return path, came


class AtTerminal:
    """A program with a terminal of its own, at which is typed."""

    def __init__(self, test, *words):
        self.test, self.shown = test, ""
        self.ours, self.its = pty.openpty()
        test.addCleanup(os.close, self.ours)
        test.addCleanup(os.close, self.its)

        def own_terminal():
            os.setsid()
            fcntl.ioctl(self.its, termios.TIOCSCTTY, 0)

        options = {"stdin": self.its, "stdout": self.its, "stderr": self.its, "env": test.environment, "cwd": test.folder}
        self.process = subprocess.Popen([sys.executable, "-I", "-B", CCACTL, *words], preexec_fn=own_terminal, **options)
        test.addCleanup(self.process.wait)
        test.addCleanup(self.process.kill)

    def waits_for(self, text):
        """Reads what is shown until a text comes."""
        until, seen = time.monotonic() + SECONDS, len(self.shown)
        while text not in self.shown[seen:]:
            ready = select.select([self.ours], [], [], max(0.0, until - time.monotonic()))[0]
            self.test.assertTrue(ready, f"{text!r} doesn't come: {self.shown}")
            self.shown += os.read(self.ours, 4096).decode(errors="replace")

    def types(self, text):
        os.write(self.ours, text.encode())

    def signals(self, number):
        os.kill(self.process.pid, number)

    def has_echo(self):
        return bool(termios.tcgetattr(self.its)[ECHO_PLACE] & termios.ECHO)

    def ends(self):
        """Its exit status, once it has ended; all that it showed is in `shown` then."""
        status = self.process.wait(SECONDS)
        while select.select([self.ours], [], [], 0.1)[0]:
            self.shown += os.read(self.ours, 4096).decode(errors="replace")
        return status


def log_lines(path):
    """The objects of a log."""
    return [json.loads(line) for line in path.read_text().splitlines()] if path.exists() else []


SIGNALS = (signal.SIGINT, signal.SIGTERM, signal.SIGHUP, signal.SIGQUIT)
