"""The front's own socket: who may ask it, what it tells, holds that are released, that last too long and that a client leaves behind; bytes
that are no request. Nothing is asked of cca while a hold lasts."""
import fcntl
import json
import os
import signal
import socket
import stat
import threading
import time
import unittest
from pathlib import Path

from tests.edits import Edit, each_is_found
from tests.front import ROLES, Fronted, asked, children_of, connected
from tests.front_clients import as_user
from tests.harness import Fault

from cca.version import VERSION  # noqa: E402
from cca_service.counts import BOUNDS, Counts  # noqa: E402

FAULTS = [Fault('"$CCA" "$@" | sed -u "s/^NO 03/NO 07/"', case="State.test_of_the_program", tells="'03'")]
EDITS = [
    Edit("control.py", "uid_of(peer) not in (ROOT, os.geteuid())", "False", "Asking.test_another_user"),
    Edit("control.py", "len(self.callers) >= CALLERS", "False", "Asking.test_many"),
    Edit("control.py", "except (ValueError, RecursionError):", "except json.JSONDecodeError:", "Asking.test_no_request"),
    Edit("control.py", "if len(line) >= LONGEST:", "if False:", "Asking.test_no_request"),
    Edit("control.py", "    if not isinstance(asked, dict):\n        raise NoRequest", "    if False:\n        raise NoRequest", "Asking.test_no_request"),
    Edit("control.py", "if isinstance(given, bool) or not", "if not", "Holds.test_seconds"),
    Edit("control.py", "or not 0 < given:", "or False:", "Holds.test_seconds"),
    Edit("control.py", "if given > LONGEST_HOLD:", "if False:", "Holds.test_seconds"),
    Edit("control.py", "    def begin_hold(self, caller: Caller, seconds: float) -> Answer:\n        \"\"\"No request is under way while the socket is heeded: so the hold begins at once.\"\"\"\n        if self.hold:", "    def begin_hold(self, caller: Caller, seconds: float) -> Answer:\n        if False:", "Holds.test_two"),
    Edit("control.py", "if self.hold and now >= self.hold.until:", "if False:", "Holds.test_too_long"),
    Edit("control.py", "            self.lost.add(self.hold.caller)\n", "", "Holds.test_too_long"),
    Edit("control.py", "        if self.hold and self.hold.caller is caller:\n            self.hold = None\n        self.lost", "        self.lost", "Holds.test_left"),
    Edit("control.py", 'if self.hold and name != "status":', "if False:", "Holds.test_what_waits"),
    Edit("front.py", "if not self.is_ending and not self.is_held():", "if not self.is_ending:", "Holds.test_nothing_is_asked"),
    Edit("front.py", '            self.control.lose_hold("cca ended")\n', "            pass\n", "Holds.test_cca_ends"),
    Edit("front.py", "        if not self.is_held():\n            self.service.fetch_if_due()", "        if True:\n            self.service.fetch_if_due()", "Holds.test_no_fetch"),
    Edit("control.py", "it is not holder and it.used + SILENT < now", "it.used + SILENT < now", "Asking.test_silent"),
    Edit("state.py", '"is_held": front.is_held()', '"is_held": False', "Holds.test_nothing_is_asked"),
    Edit("counts.py", "bisect.bisect_left", "bisect.bisect_right", "State.test_bounds"),
]
SILENT = "import sys; from cca_service import control, front; control.SILENT = 0.5; sys.exit(front.main())"
FETCHES_SOON = "import sys; from cca_service import front, service; service.FETCH_SECONDS = 0.3; sys.exit(front.main())"


class Own:
    """A connection to the front's own socket."""

    def __init__(self, case):
        self.socket = connected(case.folder / "own")
        self.lines = self.socket.makefile("rb")
        case.addCleanup(self.close)

    def close(self):
        self.lines.close()
        self.socket.close()

    def send(self, data):
        self.socket.sendall(data)

    def answer(self):
        """The next answer, or None where the connection has ended."""
        line = self.lines.readline()
        return json.loads(line) if line else None

    def ask(self, name, **words):
        self.send(json.dumps({"ask": name, **words}).encode() + b"\n")
        return self.answer()


class Owned(Fronted):
    def begin(self, *options, **named):
        return super().begin("--control", str(self.folder / "own"), *options, **named)

    def own(self):
        return Own(self)

    def ask_own(self, name, **words):
        """What is answered over a connection that ends then."""
        own = self.own()
        came = own.ask(name, **words)
        own.close()
        return came

    def status(self):
        return self.ask_own("status")["status"]


class Asking(Owned):
    """Who may ask, and what isn't heeded."""

    def test_socket(self):
        """The socket goes when the front ends, and one that a front left behind is replaced."""
        front = self.begin()
        front.kill()
        front.wait()
        self.assertTrue((self.folder / "own").exists())
        front = self.begin()
        self.assertTrue(self.ask_own("status")["ok"])
        self.assertFalse(stat.S_IMODE((self.folder / "own").stat().st_mode) & 0o007)
        self.ends_well(front)

    @unittest.skipUnless(os.getuid() == 0, "another user is tried by root")
    def test_another_user(self):
        """He gets no answer, though the socket's mode lets him connect."""
        for it in (*self.folder.parents, self.folder):
            if it.name.startswith(("cca-tests-", "tmp")) and it != Path("/tmp"):
                it.chmod(0o711)
        self.begin()
        (self.folder / "own").chmod(0o666)

        def ask():
            with connected(self.folder / "own") as it:
                it.sendall(b'{"ask": "status"}\n')
                if it.recv(100):
                    raise OSError(1, "an answer")

        def ask_or_reset():
            try:
                ask()
            except (ConnectionResetError, BrokenPipeError):
                pass

        came = os.waitpid(as_user(54020, 54020, ask_or_reset), 0)[1]
        self.assertEqual(os.waitstatus_to_exitcode(came), 0)
        self.assertTrue(self.ask_own("status")["ok"])

    def test_many(self):
        """Four connections are served, and a fifth one ends, until one of the four has."""
        self.begin()
        held = [self.own() for _ in range(4)]
        self.assertEqual([it.ask("status")["ok"] for it in held], [True] * 4)
        with connected(self.folder / "own") as it:
            self.assertEqual(it.recv(100), b"")
        held[0].close()
        self.comes(self.is_served)
        self.assertEqual([it.ask("status")["ok"] for it in held[1:]], [True] * 3)

    def is_served(self):
        try:
            return bool(self.ask_own("status"))
        except OSError:
            return False

    def test_no_request(self):
        """Each is told that it is none, its connection ends, and the front serves."""
        front = self.begin()
        deep = b"[" * 60_000
        for line in (b"", b"status", b"\xff\xfe", b"[]", b"1", b"null", b'"status"', deep, b'{"ask": "status"', b"9" * 5000, b"{" * 65_536, b"\0"):
            with self.subTest(line[:20]):
                it = self.own()
                it.send(line + b"\n")
                came = it.answer()
                self.assertEqual((came["ok"], type(came["why"])), (False, str))
                self.assertIsNone(it.answer())
        it = self.own()
        for line in (b'{"ask": "nothing"}', b"{}", b'{"ask": 1}', b'{"ask": ["status"]}', b'{"ask": null}', b'{"ask": "files"}'):
            with self.subTest(line):
                it.send(line + b"\n" + b'{"ask": "status"}\n')
                self.assertEqual([it.answer()["ok"], it.answer()["ok"]], [False, True])
        it.close()
        endless = self.own()
        with self.assertRaises((BrokenPipeError, ConnectionResetError)):
            for _ in range(100):
                endless.send(b"A" * 65_536)
                time.sleep(0.01)
        self.is_serving()
        self.ends_well(front)

    def test_unread(self):
        """One who reads no answer holds up nobody."""
        front = self.begin()
        it = self.own()
        it.socket.setblocking(False)
        try:
            for _ in range(2000):
                it.socket.send(b'{"ask": "status"}\n' * 100)
        except BlockingIOError:
            pass
        self.is_serving()
        self.assertTrue(self.ask_own("status")["ok"])
        self.ends_well(front)

    def test_silent(self):
        """A silent connection is closed; one that holds isn't."""
        self.begin(code=SILENT)
        silent, holds = self.own(), self.own()
        self.assertTrue(holds.ask("hold", seconds=3)["held"])
        self.assertIsNone(silent.answer())
        self.assertEqual(holds.ask("release"), {"ok": True, "held": False, "whole": True})


class State(Owned):
    """What the status tells."""

    def test_numbers(self):
        front = self.begin("--audit", str(self.folder / "trail.jsonl"))
        asked(self.folder / "TELLER", "A K", "", "CSNBKYT key=L:K K", "A stub=ends8 K")
        asked(self.folder / "OFFICER", "A K")
        with connected(self.folder / "CUSTODY") as it:
            it.sendall(b"A K\n")
            it.recv(100)
            came = self.status()
        self.assertEqual((came["pid"], came["version"], came["folder"]), (front.pid, VERSION, str(self.folder / "keys")))
        self.assertEqual(came["audit"], str(self.folder / "trail.jsonl"))
        self.assertEqual(came["requests"], {
            "total": 6, "no_reply": 1, "by_rule": {"00": 4, "01": 1}, "by_verb": {"-": 5, "CSNBKYT": 1}, "by_role": {"CUSTODY": 1, "OFFICER": 1, "TELLER": 4},
        })
        self.assertEqual((sum(came["latency"]["counts"]), len(came["latency"]["counts"]), len(came["latency"]["le_us"])), (6, len(BOUNDS) + 1, len(BOUNDS)))
        self.assertEqual((came["cca"]["pid"], came["cca"]["starts"]), (next(children_of(front.pid)), 2))
        self.assertEqual([(it["role"], it["socket"], it["connections"], it["limit"]) for it in came["doors"]],
                         [(role, str(self.folder / role), int(role == "CUSTODY"), 256) for role in ROLES])
        self.assertEqual((came["connections"], came["turned_away"], came["is_held"], came["journal"]), (1, 0, False, {"left_out": 0}))
        self.assertEqual((came["trail"]["unfetched"], type(came["trail"]["first_seconds"])), (2, float))
        self.assertEqual(came["program"]["is_replaced"], False)
        own = self.own()
        self.assertEqual(own.ask("fetch")["trail"]["unfetched"], 0)
        self.assertEqual(len([it for it in (self.folder / "trail.jsonl").read_text().splitlines() if '"number"' in it]), 6)
        self.is_serving()
        self.ends_well(front)

    def test_of_the_program(self):
        """The same over the program: a request is refused by rule 03 while the role isn't defined."""
        self.stands = self.program.path
        front = self.begin()
        asked(self.folder / "TELLER", "CSNBKYT key=L:K")
        self.assertEqual(self.status()["requests"]["by_rule"], {"03": 1})
        self.ends_well(front)

    def test_no_trail(self):
        self.begin()
        came = self.ask_own("fetch")
        self.assertEqual((came["ok"], self.status()["trail"]), (False, None))

    def test_bounds(self):
        """A time that is just a bound counts below it."""
        counts = Counts()
        for took in (BOUNDS[0], BOUNDS[0] + 1, BOUNDS[-1] + 1):
            counts.note("TELLER", "CSNBKYT", "00", took)
        self.assertEqual((counts.times[0], counts.times[1], counts.times[-1]), (1, 1, 1))


class Holds(Owned):
    def released(self, own):
        return own.ask("release")

    def ask_slowly(self, role="TELLER"):
        """A request beside a hold: its reply comes into the list."""
        came = []
        asking = threading.Thread(target=lambda: came.extend(asked(self.folder / role, "A K")))
        asking.start()
        self.addCleanup(asking.join)
        return came

    def test_nothing_is_asked(self):
        """While a hold lasts no request goes to cca, whose locks keep others out; then all that waited are served, and none is lost."""
        front = self.begin()
        own = self.own()
        came = own.ask("hold", seconds=20)
        self.assertEqual((came["ok"], came["held"], came["folder"], came["files"]), (True, True, str(self.folder / "keys"), []))
        replies = [self.ask_slowly(role) for role in ROLES]
        time.sleep(1)
        self.assertEqual(replies, [[], [], []])
        self.assertNotIn(b"K", (self.folder / "keys" / "carried").read_bytes())
        status = self.status()
        self.assertTrue(status["is_held"])
        self.assertGreater(status["hold_seconds"], 0.9)
        self.assertEqual(self.released(own), {"ok": True, "held": False, "whole": True})
        self.comes(lambda: all(replies))
        self.assertEqual(replies, [[f"OK value=role={role},K"] for role in ROLES])
        self.ends_well(front)

    def test_files(self):
        """The files of the program, which it has locked: what they have doesn't change in a hold."""
        self.stands = self.program.path
        self.begin("--audit", str(self.folder / "trail.jsonl"))
        own, keys = self.own(), self.folder / "keys"
        came = own.ask("hold")
        sizes = [(name, (keys / name).stat().st_size) for name in ("cca.module", "cca.store", "cca.trail")]
        self.assertEqual([(it["name"], it["size"]) for it in came["files"]], sizes)
        before = [(keys / name).read_bytes() for name, _ in sizes]
        reply = self.ask_slowly()
        time.sleep(0.5)
        self.assertEqual([(keys / name).read_bytes() for name, _ in sizes], before)
        with open(keys / "cca.module", "rb") as file, self.assertRaises(BlockingIOError):
            fcntl.flock(file, fcntl.LOCK_EX | fcntl.LOCK_NB)
        self.assertTrue(self.released(own)["whole"])
        self.comes(lambda: reply)

    def test_under_way(self):
        """A hold that is asked for while a request is under way begins behind its reply."""
        self.begin()
        slow = self.ask_slowly()
        with connected(self.folder / "OFFICER") as it:
            it.sendall(b"A stub=waits1500 SLOW\n")
            self.carries(b"SLOW")
            self.assertTrue(self.own().ask("hold")["held"])
            it.setblocking(False)
            self.assertEqual(it.recv(100), b"OK value=role=OFFICER,SLOW\n")
        self.comes(lambda: slow)

    def test_too_long(self):
        """A hold ends by time: the front goes on, tells it, and the holder learns that the copy isn't of one moment."""
        self.begin()
        own = self.own()
        began = time.monotonic()
        self.assertTrue(own.ask("hold", seconds=1)["held"])
        reply = self.ask_slowly()
        self.comes(lambda: reply)
        self.assertGreater(time.monotonic() - began, 0.99)
        self.assertEqual(self.released(own), {"ok": True, "held": False, "whole": False})
        told = [it for it in self.told() if it.get("event") == "hold"]
        self.assertEqual([it["text"] for it in told], ["it ended before it was released: it lasted too long"])
        self.assertEqual(self.released(own)["ok"], False)

    def test_two(self):
        """One at a time; and another's can't be released."""
        self.begin()
        one, two = self.own(), self.own()
        self.assertTrue(one.ask("hold")["held"])
        self.assertEqual(two.ask("hold"), {"ok": False, "why": "held by another"})
        self.assertEqual(self.released(two)["ok"], False)
        self.assertEqual(self.released(one)["whole"], True)
        self.assertTrue(two.ask("hold")["held"])

    def test_left(self):
        """A holder who leaves ends his hold."""
        self.begin()
        own = self.own()
        self.assertTrue(own.ask("hold", seconds=30)["held"])
        reply = self.ask_slowly()
        own.close()
        began = time.monotonic()
        self.comes(lambda: reply)
        self.assertLess(time.monotonic() - began, 20)

    def test_seconds(self):
        self.begin()
        own = self.own()
        for seconds in (0, -1, 30.1, 1e400, "5", True, None, [], 10**400):
            with self.subTest(seconds):
                self.assertEqual(own.ask("hold", seconds=seconds)["ok"], False)
        self.assertFalse(self.status()["is_held"])
        self.assertTrue(own.ask("hold", seconds=0.5)["held"])

    def test_what_waits(self):
        """Nothing else is done to cca while it is held."""
        self.begin("--audit", str(self.folder / "trail.jsonl"))
        own = self.own()
        self.assertTrue(own.ask("hold")["held"])
        for name in ("fetch", "reload"):
            self.assertEqual(self.ask_own(name), {"ok": False, "why": "held by another"})
            self.assertEqual(own.ask(name)["ok"], False)

    def test_no_fetch(self):
        """The trail isn't fetched in a hold, also where it is due: cca would end, and let others have its files."""
        front = self.begin("--audit", str(self.folder / "trail.jsonl"), code=FETCHES_SOON)
        asked(self.folder / "TELLER", "A K")
        own = self.own()
        self.assertTrue(own.ask("hold")["held"])
        children = list(children_of(front.pid))
        time.sleep(1.5)
        self.assertEqual(list(children_of(front.pid)), children)
        self.assertTrue(self.released(own)["whole"])

    def test_cca_ends(self):
        """cca that ends in a hold lets others have its files: the hold is over, and the copy isn't of one moment."""
        front = self.begin()
        own = self.own()
        self.assertTrue(own.ask("hold", seconds=20)["held"])
        child = next(children_of(front.pid))
        os.kill(child, signal.SIGKILL)
        self.comes(lambda: set(children_of(front.pid)) - {child})
        self.assertEqual(self.released(own), {"ok": True, "held": False, "whole": False})
        self.is_serving()

    def test_under_load(self):
        """Holds beside clients: each request has its reply, and what is carried out doesn't grow in a hold that was whole."""
        front = self.begin()
        is_over = threading.Event()
        came = []

        def keep_asking(role):
            while not is_over.is_set():
                came.append(asked(self.folder / role, *["A K"] * 5) == [f"OK value=role={role},K"] * 5)

        clients = [threading.Thread(target=keep_asking, args=(role,)) for role in ROLES * 4]
        for it in clients:
            it.start()
        own, carried = self.own(), self.folder / "keys" / "carried"
        try:
            for _ in range(8):
                self.assertTrue(own.ask("hold", seconds=5)["held"])
                size = carried.stat().st_size
                time.sleep(0.1)
                self.assertEqual(carried.stat().st_size, size)
                self.assertTrue(self.released(own)["whole"])
                time.sleep(0.1)
        finally:
            is_over.set()
            for it in clients:
                it.join()
        self.assertEqual((set(came), len(came) > len(clients)), ({True}, True))
        self.ends_well(front)

    def test_end(self):
        """A front that ends in a hold tells those that wait."""
        front = self.begin()
        own = self.own()
        self.assertTrue(own.ask("hold", seconds=20)["held"])
        with connected(self.folder / "TELLER") as it:
            it.sendall(b"A K\n")
            time.sleep(0.3)
            self.ends_well(front)
            self.assertEqual(it.recv(200), b"-- not carried out: the front has ended\n")
        self.assertIsNone(own.answer())


class Planted(unittest.TestCase):
    """Each fault of EDITS is found by its case."""

    def test_edits(self):
        each_is_found(self, "front_control", EDITS)


if __name__ == "__main__":
    unittest.main()
