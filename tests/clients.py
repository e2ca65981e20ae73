"""The clients of examples/clients and clients/python, and the front. Each client is given the lines of a day at a bank and must print its
replies, also where the program is killed in between. Many long replies must come while requests are still being written. The front is asked by clients of two roles
at once, by one that names a role itself and by one that dies in the midst of a line; and after the program was killed."""
import os
import shutil
import signal
import socket
import subprocess
import sys
import time
import unittest
from concurrent.futures import ThreadPoolExecutor
from pathlib import Path

from tests.harness import EXAMPLES, TOP, Case, Fault, example

CLIENTS = EXAMPLES / "clients"
LIBRARY = TOP / "clients" / "c"
PYTHON = TOP / "clients" / "python" / "cca"
sys.path.insert(0, str(PYTHON))
from client import Coprocessor, Ended  # noqa: E402

FAULTS = [Fault('exec sed -u "s/.*/OK/"', case="test_python", tells="'OK' != 'NO 04 -'")]

CODE = "CSNBMVR key=L:PAY.MAC rule=X9.9-1 mac={} text=506179203132352e30302045555220746f206163636f756e742034373131"
RIGHT, TESTED = CODE.format("e70d9b4f"), ("CSNBKYT key=L:PAY.MAC", "OK value=59ce068a")
# What clients ask at once: the role of their socket, a request and its reply.
AT_ONCE = [
    ("TELLER", RIGHT, "OK match=yes"),
    ("OFFICER", RIGHT, "NO 04 -"),
    ("TELLER", CODE.format("00000000"), "OK match=no"),
    ("OFFICER", *TESTED),
]


def kill_child_of(pid):
    """Kills the process that a client has started."""
    for stat in Path("/proc").glob("[0-9]*/stat"):
        try:
            # Behind the name, which may have spaces in it, stand the state and the parent.
            if stat.read_text().rpartition(")")[2].split()[1] == str(pid):
                os.kill(int(stat.parent.name), signal.SIGKILL)
        except (FileNotFoundError, ProcessLookupError):
            pass


class Printing(Case):
    """Clients in a shell's pipe."""

    def converse(self, *words):
        """A day at a bank, and the program is killed in its midst."""
        pairs, pipe = list(example("bank")), subprocess.PIPE
        with subprocess.Popen([*words, self.folder, self.program.path], stdin=pipe, stdout=pipe, text=True) as client:

            def asked(request):
                client.stdin.write(f"{request}\n")
                client.stdin.flush()
                return client.stdout.readline().rstrip("\n")

            for number, (request, wanted) in enumerate(pairs):
                if number == len(pairs) // 2:
                    # The program has answered and waits; once it is dead the request that finds it so gets no reply.
                    kill_child_of(client.pid)
                    self.assertRegex(asked(request), "^-- no reply: cca ended")
                self.assertEqual(asked(request), wanted, request)
            client.stdin.close()
            self.assertEqual(client.wait(), 0)

    def test_python(self):
        self.converse(sys.executable, "-B", PYTHON / "client.py")

    @unittest.skipUnless(shutil.which("cc"), "cc isn't installed")
    def test_c(self):
        client = self.shared / "client"
        sources = [CLIENTS / "client.c", LIBRARY / "cca_client.c"]
        subprocess.run(["cc", "-Wall", "-Wextra", "-Werror", "-O", "-I", LIBRARY, "-o", client, *sources], check=True)
        self.converse(client)


class Taken(Case):
    """The class of the client in Python, as a program of one's own has it."""

    def test_many(self):
        """Replies of 18 KB each, read while the requests are written: both pipes overflow."""
        cca, labels = Coprocessor(str(self.folder), self.program.path), [f"KEY.{number:060d}" for number in range(280)]
        self.assertEqual(list(cca.ask_all([f"CSNBKRC role=DEFAULT label={it}" for it in labels])), ["OK"] * len(labels))
        replies = list(cca.ask_all(["CSNBKRL role=DEFAULT prefix="] * 4000))
        self.assertEqual((len(replies), set(replies)), (4000, {f"OK count={len(labels)} labels={','.join(labels)}"}))
        self.assertEqual(cca.close(), 0)

    def test_damaged(self):
        """A module that is damaged: the client must stop, and say why."""
        (self.folder / "cca.module").write_bytes(b"x")
        with self.assertRaisesRegex(Ended, "cca: a file has a wrong size") as raised:
            Coprocessor(str(self.folder), self.program.path).ask("CSNBRNG role=DEFAULT form=ODD")
        self.assertEqual(raised.exception.status, 17)


class Front(Case):
    """The front with a socket for each of two roles, over the files of the bank's day."""

    def setUp(self):
        super().setUp()
        self.replies(example("bank"))
        sockets = [f"{self.folder / role}={role}" for role in ("TELLER", "OFFICER")]
        words = [sys.executable, "-B", TOP / "service" / "cca-front", self.folder, *sockets]
        self.front = subprocess.Popen(words, env={**os.environ, "CCA": self.program.path}, stderr=subprocess.DEVNULL)
        self.addCleanup(self.front.wait)
        self.addCleanup(self.front.kill)

    def connected(self, role):
        """A connection to the socket of a role, once it is there."""
        it = socket.socket(socket.AF_UNIX)
        self.addCleanup(it.close)
        for _ in range(100):
            try:
                it.connect(str(self.folder / role))
                return it
            except (FileNotFoundError, ConnectionRefusedError):
                time.sleep(0.1)
        raise TimeoutError(role)

    def asked(self, role, *requests):
        """The replies to some requests, one after another over one connection: lines, or nothing where it ends."""
        with self.connected(role) as it, it.makefile("rw") as lines:
            replies = []
            for request in requests:
                lines.write(f"{request}\n")
                lines.flush()
                replies.append(lines.readline())
        return replies

    def test_at_once(self):
        """Four clients of two roles at once, 100 requests each."""
        with ThreadPoolExecutor(len(AT_ONCE)) as clients:
            found = [(clients.submit(self.asked, role, *[request] * 100), wanted) for role, request, wanted in AT_ONCE]
            for replies, wanted in found:
                self.assertEqual(replies.result(), [f"{wanted}\n"] * 100)

    def test_role(self):
        """A client that names a role itself."""
        self.assertEqual(self.asked("TELLER", "CSNBKYT role=OFFICER key=L:PAY.MAC"), ["NO 01 -\n"])

    def test_half_a_line(self):
        """A client that dies in the midst of a line."""
        with self.connected("OFFICER") as it:
            it.sendall(b"CSNBKRD label=PAY.MAC")  # and no newline
        self.assertEqual(self.asked("OFFICER", "CSNBKRL prefix=PAY."), ["OK count=2 labels=PAY.DATA,PAY.MAC\n"])

    def test_half_a_line_asked(self):
        """The client of the front: a last line without its newline may be half a request, and isn't asked."""
        with self.connected("OFFICER"):
            words = [sys.executable, "-B", TOP / "service" / "cca_service" / "ask.py", self.folder / "OFFICER"]
            it = subprocess.run(words, input=b"CSNBKRL prefix=PAY.\nCSNBKRD label=PAY.MAC", capture_output=True)
        self.assertEqual((it.returncode, it.stdout), (0, b"OK count=2 labels=PAY.DATA,PAY.MAC\n"))
        self.assertEqual(self.asked("OFFICER", "CSNBKRL prefix=PAY."), ["OK count=2 labels=PAY.DATA,PAY.MAC\n"])

    def test_killed(self):
        """A program that is killed: a request that it may have taken gets no reply and the connection ends; others are answered."""
        request, wanted = TESTED
        self.assertEqual(self.asked("OFFICER", request), [f"{wanted}\n"])
        kill_child_of(self.front.pid)
        self.assertIn(self.asked("OFFICER", request), ([f"{wanted}\n"], [""]))
        self.assertEqual(self.asked("OFFICER", request), [f"{wanted}\n"])
