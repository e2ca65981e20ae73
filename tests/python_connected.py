"""The package `cca` for Python where others ask too: asyncio; and the socket of a front, of one that stands for it and of a real one."""
import asyncio
import contextlib
import os
import select
import signal
import socket
import subprocess
import sys
import threading
import time
import unittest
from pathlib import Path

from tests.edits import FRONT, Edit, each_is_found
from tests.formats import chained, value
from tests.harness import Case, Fault, limited
from tests.python_library import DATA, DATA_16, DOUBLE, IV, SINGLE, STUB, Library
from cca import AsyncCoprocessor, AsyncSocket, Ended, Label, Refused, Socket

FAULTS = [Fault('"$CCA" "$@" | sed -u "s/^NO 04/NO 03/"', case="Fronted.test_roles", tells="3, '-'")]
EDITS = [
    Edit("clients/python/cca/coprocessor.py", 'or reply.count(b"\\n") > 1', "", "Connected.test_out_of_step"),
    Edit("clients/python/cca/coprocessor.py", "if len(reply) >= LONGEST_REPLY:", "if False:", "Connected.test_out_of_step"),
    Edit("clients/python/cca/coprocessor.py", "self.connection.unasked() if self.connection and self.connection.is_waiting else \"\"", "None if self.connection else \"\"", "Connected.test_ended_while_silent"),
    Edit("clients/python/cca/coprocessor.py", "return self.in_turn(lambda: self._reply(line))", "return self._reply(line)", "Connected.test_threads"),
    Edit("clients/python/cca/coprocessor.py", "error.add_note(", "(", "Connected.test_exception_in_the_midst"),
    Edit("clients/python/cca/coprocessor.py", "        HELD.add(self)\n", "", "Connected.test_child"),
    Edit("clients/python/cca/coprocessor.py", "if reply.startswith(NOT_CARRIED_OUT):", "if False:", "Connected.test_not_carried_out"),
    Edit("clients/python/cca/asynchronous.py", "run_in_executor(self.worker, ", "run_in_executor(None, ", "Waiting.test_order"),
]  # fmt: skip


class Waiting(Library):
    """The verbs for asyncio."""

    def test_verbs(self):
        async def asks():
            async with AsyncCoprocessor(self.folder, program=self.program.path) as it:
                data = bytes(5000)
                came = await asyncio.gather(
                    it.encipher(DATA, data, IV), it.key_test(DATA_16), it.as_role("TELLER").key_test(DATA), it.random(form="ODD")
                )
                self.assertEqual(came[:3], [chained(SINGLE, IV, data), bytes.fromhex(value(DOUBLE)), bytes.fromhex(value(SINGLE))])
                with self.assertRaises(Refused):
                    await it.as_role("NOTHING").random()
                return await it.ask("x")

        self.cca.close()
        self.assertEqual(asyncio.run(asks()), "NO 01 -")

    def test_order(self):
        """A task that stops waiting: the request goes on to its reply, and the next one gets its own."""
        async def asks():
            async with AsyncCoprocessor(self.folder, program=STUB) as it:
                self.assertEqual(await it.ask("A role=B K0"), "OK value=role=B,K0")
                task = asyncio.create_task(it.ask("A role=B stub=waits3000 K1"))
                while "K1\n" not in (self.folder / "carried").read_text():
                    await asyncio.sleep(0.01)
                task.cancel()
                with self.assertRaises(asyncio.CancelledError):
                    await task
                replies = await asyncio.gather(*[it.ask(f"A role=B K{number}") for number in range(2, 50)])
                self.assertEqual(replies, [f"OK value=role=B,K{number}" for number in range(2, 50)])
                # Requests were asked by one thread, in their order.
                self.assertEqual(len(it.worker._threads), 1)
                carried = (self.folder / "carried").read_text().split()
                self.assertEqual([it for it in carried if it[0] == "K"], [f"K{number}" for number in range(50)])

        asyncio.run(asks())


class Peer:
    """What stands for a front: it answers each line with a value of its own, and does what the line says besides."""

    def __init__(self, path):
        self.listener = socket.socket(socket.AF_UNIX)
        self.listener.bind(str(path))
        self.listener.listen(8)
        self.connections, self.lines = 0, []
        threading.Thread(target=self.serve, daemon=True).start()

    def serve(self):
        while True:
            try:
                connection = self.listener.accept()[0]
            except OSError:
                return
            self.connections += 1
            threading.Thread(target=self.answer, args=(connection,), daemon=True).start()

    def answer(self, connection):
        with connection, connection.makefile("rb") as lines:
            for line in lines:
                self.lines.append(line)
                words = line.split()
                reply = b"OK value=" + words[-1] + b"\n"
                try:
                    if not self.sent(connection, reply, words[1].decode()):
                        return
                except OSError:
                    return

    def sent(self, connection, reply, how):
        """Answers; whether the connection goes on."""
        if how.startswith("waits"):
            time.sleep(int(how[5:]) / 1000)
        if how == "endless":
            while True:
                connection.sendall(b"OK" * 9000)
        replies = {"half": reply[:4], "twice": reply * 2, "none": b"", "refused": b"-- not carried out\n", "other": "OK \u20ac\n".encode()}
        connection.sendall(replies.get(how, reply))
        return how not in ("ends", "none", "half")


class Connected(Case):
    """The socket of a front."""

    def setUp(self):
        super().setUp()
        limited(self, 200)
        self.path = self.folder / "front"
        self.peer = Peer(self.path)
        self.addCleanup(self.peer.listener.close)
        self.socket = Socket(self.path, patience=60.0)
        self.addCleanup(self.socket.close)

    def is_in_step(self):
        for number in range(3):
            self.assertEqual(self.socket.ask(f"A - K{number}"), f"OK value=K{number}")

    def test_asked(self):
        self.is_in_step()
        self.assertEqual(self.peer.connections, 1)
        with self.assertRaises(ValueError):
            self.socket.ask("A - K\nA - L")
        self.is_in_step()

    def test_out_of_step(self):
        ended, more = "the front ended the connection", "what it wasn't asked|more than it was asked"
        for how, tells in (("half", ended), ("none", ended), ("twice", more), ("endless", "a reply without an end")):
            with self.subTest(how):
                self.is_in_step()
                self.socket.patience = 20.0
                with self.assertRaisesRegex(Ended, tells) as raised:
                    self.socket.ask(f"A {how} X")
                    self.socket.connection.is_ready(select.POLLIN, 60.0)  # where both replies didn't come at once
                    self.socket.ask("A - Y")
                self.assertIsNone(raised.exception.status)
                self.socket.patience = 60.0
                self.is_in_step()

    def test_not_carried_out(self):
        """A line of the front's own, which says that it won't ask: nothing is in doubt."""
        self.is_in_step()
        with self.assertRaises(Ended) as raised:
            self.socket.ask("A refused X")
        self.assertEqual((raised.exception.status, raised.exception.in_doubt), (None, False))
        self.is_in_step()

    def test_no_text(self):
        """A reply that is no text: nothing of it is told."""
        with self.assertRaisesRegex(Ended, "a byte came that no reply has") as raised:
            self.socket.ask("A other X")
        self.assertNotIn("e2", str(raised.exception))
        self.is_in_step()

    def test_child(self):
        """A child of fork, which may have another user's rights, has no connection of its parent's."""
        self.is_in_step()
        held = os.fstat(self.socket.connection.socket.fileno()).st_ino
        child = os.fork()
        if child == 0:
            inodes = {os.stat(it).st_ino for it in Path("/proc/self/fd").iterdir() if it.exists()}
            os._exit(1 if held in inodes else 0)
        self.assertEqual(os.waitstatus_to_exitcode(os.waitpid(child, 0)[1]), 0)
        self.is_in_step()
        self.assertEqual(self.peer.connections, 1)

    def test_no_reply_in_time(self):
        self.is_in_step()
        self.socket.patience = 2.0
        with self.assertRaises(Ended) as raised:
            self.socket.ask("A waits20000 X")
        self.assertTrue(raised.exception.in_doubt)
        self.socket.patience = 60.0
        self.is_in_step()

    def test_ended_while_silent(self):
        """A front ends connections that are silent: the next request connects again, and isn't in doubt."""
        self.assertEqual(self.socket.ask("A ends X"), "OK value=X")
        self.assertTrue(self.socket.connection.is_ready(select.POLLIN, 60.0))
        self.is_in_step()
        self.assertEqual(self.peer.connections, 2)

    def signals_once_asked(self, before, number):
        """Sends a signal to this process once the peer has a further line."""
        until = time.monotonic() + 60
        while len(self.peer.lines) == before and time.monotonic() < until:
            time.sleep(0.01)
        os.kill(os.getpid(), number)

    def test_exception_in_the_midst(self):
        def late(*_):
            raise TimeoutError("the caller's own")

        signal.signal(signal.SIGUSR1, late)
        signal.signal(signal.SIGINT, signal.default_int_handler)
        for kind, number in ((TimeoutError, signal.SIGUSR1), (KeyboardInterrupt, signal.SIGINT)):
            self.is_in_step()
            threading.Thread(target=self.signals_once_asked, args=(len(self.peer.lines), number), daemon=True).start()
            with self.assertRaises(kind) as raised:
                self.socket.ask("A waits20000 X")
            self.assertIn("may have been carried out", " ".join(raised.exception.__notes__))
            self.is_in_step()

    def test_threads(self):
        self.socket.patience, wrong = 20.0, []

        def asks(thread):
            for turn in range(50):
                if wrong:
                    return
                try:
                    reply = self.socket.ask(f"A - {thread}.{turn}")
                except Exception as error:  # noqa: BLE001: a thread's error would be unseen
                    reply = repr(error)
                if reply != f"OK value={thread}.{turn}":
                    wrong.append(reply)

        threads = [threading.Thread(target=asks, args=(it,)) for it in range(8)]
        for it in threads:
            it.start()
        for it in threads:
            it.join()
        self.assertEqual(wrong[:3], [])

    def test_no_front(self):
        """Nothing listens: an error of the connection, since nothing was sent."""
        with self.assertRaises(FileNotFoundError):
            Socket(self.folder / "none").ask("A - K")
        with self.assertRaises(ValueError):
            self.socket.as_role("TELLER")

    def test_no_place(self):
        """A front that takes no connection in time: nothing was sent."""
        path = self.folder / "full"
        with socket.socket(socket.AF_UNIX) as listener, contextlib.ExitStack() as others:
            listener.bind(str(path))
            listener.listen(0)
            with self.assertRaises(BlockingIOError):
                while True:
                    other = others.enter_context(socket.socket(socket.AF_UNIX))
                    other.setblocking(False)
                    other.connect(str(path))
            with self.assertRaisesRegex(Ended, "no connection in time") as raised:
                Socket(path, patience=0.5).ask("A - K")
            self.assertEqual((raised.exception.status, raised.exception.in_doubt), (None, False))

    def test_asyncio(self):
        async def asks():
            async with AsyncSocket(self.path, patience=60.0) as it:
                return await asyncio.gather(*[it.ask(f"A - K{number}") for number in range(20)])

        self.assertEqual(asyncio.run(asks()), [f"OK value=K{number}" for number in range(20)])


class Fronted(Library):
    """The verbs by a real front."""

    def waits_for(self, path):
        """Waits until the front listens at a socket."""
        until = time.monotonic() + 100
        while True:
            try:
                with Socket(path) as it:
                    return self.assertEqual(it.ask(""), "NO 01 -")
            except (FileNotFoundError, ConnectionRefusedError):
                self.assertLess(time.monotonic(), until)
                time.sleep(0.1)

    def test_roles(self):
        self.cca.close()
        paths = {role: self.folder / role for role in ("TELLER", "OFFICER")}
        words = [sys.executable, "-B", FRONT, self.folder, *[f"{path}={role}" for role, path in paths.items()]]
        front = subprocess.Popen(words, env={**os.environ, "CCA": self.program.path}, stderr=subprocess.DEVNULL)
        self.addCleanup(front.wait)
        self.addCleanup(front.kill)
        for path in paths.values():
            self.waits_for(path)
        with Socket(paths["TELLER"]) as teller, Socket(paths["OFFICER"]) as officer:
            data = bytes(9000)
            self.assertEqual(teller.encipher(DATA, data, IV), chained(SINGLE, IV, data))
            self.refused(4, "-", officer.encipher, DATA, data, IV)
            officer.record_create("NEW")
            self.assertEqual(officer.clear_key_import(SINGLE, to="NEW"), Label("NEW"))
            self.assertEqual(teller.key_test(Label("NEW")).hex(), value(SINGLE))


class Planted(unittest.TestCase):
    """Each fault of EDITS is found by its case."""

    def test_edits(self):
        each_is_found(self, "python_connected", EDITS)


if __name__ == "__main__":
    unittest.main()
