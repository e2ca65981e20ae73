"""An exception breaks a request off at each place at which Python runs signal handlers: the request after it gets its own reply, from
the same object. The places are found by tracing the library instruction by instruction; there the exception is left to be raised by
Python itself, at the first moment at which it would run a handler. Then handlers of real signals raise at random moments.

What stands for cca here is a script of the shell, which answers each line with its last word.
"""
import contextlib
import ctypes
import dis
import os
import random
import signal
import socket
import sys
import tempfile
import threading
import unittest
import warnings
from pathlib import Path

from tests.edits import LIBRARIES, Edit, each_is_found
from tests.harness import limited

sys.path.insert(0, str(LIBRARIES / "python"))
from cca import Coprocessor, Ended, Socket, client, coprocessor  # noqa: E402

FAULTS = []  # its faults are those of EDITS
EDITS = [
    Edit("clients/python/cca/client.py", "        if self.process and not self.process.is_waiting:\n            self.ended(BROKEN_OFF, True)\n", "", "Places.test_ended"),
    Edit("clients/python/cca/client.py", "process = self.process = Process(", "process = Process(", "Places.test_started"),
    Edit("clients/python/cca/client.py", "            with self.asking:\n                return call()", "            self.asking.acquire()\n            came = call()\n            self.asking.release()\n            return came", "Places.test_asked"),
    Edit("clients/python/cca/client.py", "os.WEXITED | os.WNOHANG | os.WNOWAIT", "os.WEXITED | os.WNOHANG", "Places.test_ended"),
]  # fmt: skip
SCRIPT = """#!/bin/sh
while read -r line; do
    case $line in *ends*) exit 8 ;; esac
    echo "OK value=${line##* }"
done
"""
LIBRARY = {client.__file__, coprocessor.__file__}
set_exception = ctypes.pythonapi.PyThreadState_SetAsyncExc
set_exception.argtypes = [ctypes.c_ulong, ctypes.py_object]


# Instructions at which Python runs handlers.
PLACES = {code for name, code in dis.opmap.items() if name.startswith(("CALL", "JUMP_BACKWARD", "POP_JUMP_BACKWARD", "RESUME"))}


class BrokenOff(Exception):
    """What a handler raises."""


def broken_off_at(place, call):
    """Makes a call, and has an exception raised at the place of this number: whether there are so many."""
    mine, passed = [threading.get_ident()], 0

    def traced(frame, event, _):
        nonlocal passed
        if frame.f_code.co_filename not in LIBRARY:
            return None
        frame.f_trace_opcodes = True
        if event == "opcode" and frame.f_code.co_code[frame.f_lasti] in PLACES:
            passed += 1
            if passed == place:
                sys.settrace(None)
                [*map(set_exception, mine, [BrokenOff])]  # no call of Python's own, behind which it would be raised at once
        return traced

    sys.settrace(traced)
    try:
        call()
    finally:
        sys.settrace(None)
    return passed >= place


class Places(unittest.TestCase):
    """Each place of the library."""

    def setUp(self):
        limited(self, 280)
        warnings.simplefilter("ignore", ResourceWarning)  # what is broken off is closed when it is thrown away
        folder = tempfile.TemporaryDirectory()
        self.addCleanup(folder.cleanup)
        self.folder = Path(folder.name)
        self.program = self.folder / "program"
        self.program.write_text(SCRIPT)
        self.program.chmod(0o755)
        self.asked = 0

    def coprocessor(self):
        it = Coprocessor(self.folder, program=self.program)
        self.addCleanup(it.close)
        return it

    def is_in_step(self, it):
        """The next request gets its own reply; the one before it may be told of an end that nobody has been told of."""
        for _ in range(2):
            self.asked += 1
            try:
                self.assertEqual(it.ask(f"A K{self.asked}"), f"OK value=K{self.asked}")
                return
            except Ended as end:
                self.assertFalse(end.in_doubt)
        self.fail("two requests got no reply")

    def each(self, made, prepare, call, least):
        """At each place of a call of one object after another: while the exception is held, and its frames with it."""
        places = 0
        while True:
            it = made()
            prepare(it)
            try:
                if not broken_off_at(places + 1, lambda: call(it)):
                    break
            except BrokenOff as error:
                with self.subTest(place=places + 1):
                    self.is_in_step(it)
                del error
            places += 1
            it.close()
        self.assertGreater(places, least)

    def test_started(self):
        self.each(self.coprocessor, lambda it: None, lambda it: it.ask("A X"), 60)

    def test_asked(self):
        self.each(self.coprocessor, self.is_in_step, lambda it: it.ask("A X"), 40)

    def test_ended(self):
        def ends(it):
            with contextlib.suppress(Ended):
                it.ask("A ends")

        self.each(self.coprocessor, self.is_in_step, ends, 60)

    def test_closed(self):
        self.each(self.coprocessor, self.is_in_step, lambda it: it.close(), 30)

    def test_connection(self):
        path = self.folder / "front"
        peer = socket.socket(socket.AF_UNIX)
        self.addCleanup(peer.close)
        peer.bind(str(path))
        peer.listen(64)
        threading.Thread(target=answer_all, args=(peer,), daemon=True).start()
        self.each(lambda: Socket(path), lambda it: None, lambda it: it.ask("A X"), 40)
        self.each(lambda: Socket(path), self.is_in_step, lambda it: it.ask("A X"), 30)


def answer_all(peer):
    """What stands for a front: it answers each line with its last word."""
    while True:
        try:
            connection = peer.accept()[0]
        except OSError:
            return
        threading.Thread(target=answer, args=(connection,), daemon=True).start()


def answer(connection):
    with connection, connection.makefile("rwb", 0) as lines:
        try:
            for line in lines:
                lines.write(b"OK value=" + line.split()[-1] + b"\n")
        except OSError:
            return


class Signals(Places):
    """Handlers of signals at random moments."""

    test_started = test_asked = test_ended = test_closed = test_connection = None

    def test_storm(self):
        def raises(*_):
            raise BrokenOff

        self.addCleanup(signal.signal, signal.SIGUSR1, signal.signal(signal.SIGUSR1, raises))
        drawn, it, broken_off = random.Random(1), self.coprocessor(), 0
        for _ in range(200):
            sender = threading.Timer(drawn.uniform(0, 0.004), os.kill, (os.getpid(), signal.SIGUSR1))
            try:
                sender.start()
                for _ in range(100_000):
                    self.asked += 1
                    self.assertEqual(it.ask(f"A K{self.asked}"), f"OK value=K{self.asked}")
            except BrokenOff:
                broken_off += 1
            sender.join()
            self.is_in_step(it)
        self.assertEqual(broken_off, 200)


class Planted(unittest.TestCase):
    """Each fault of EDITS is found by its case."""

    def test_edits(self):
        each_is_found(self, "python_broken_off", EDITS)


if __name__ == "__main__":
    unittest.main()
