"""The front of service/, and clients who keep its places, or are in doubt: slow ones, many of one user, those who ask while it
ends; cca that ends while nobody asks; signals; the check of its health; its settings and its unit."""
import errno
import json
import os
import re
import shutil
import signal
import socket
import stat
import subprocess
import sys
import tempfile
import threading
import time
import unittest
from concurrent.futures import ThreadPoolExecutor
from pathlib import Path

from tests.edits import ASK, FRONT, SERVICE, Edit, each_is_found
from tests.front import ROLES, Fronted, asked, children_of, connected, files_of, front_program
from tests.harness import Case, Fault, limited
from tests.keys import ONE_KEY

from cca_service.connections import NOT_CARRIED_OUT, Connection, Door  # noqa: E402
from cca_service.journal import Journal  # noqa: E402
from cca_service.prepare import MODE  # noqa: E402
from cca_service.service import Service  # noqa: E402
from cca_service.settings import DoorSettings, Settings  # noqa: E402

FAULTS = [Fault('"$CCA" "$@" | sed -u "s/^OK value=/OK other=/"', case="Health.test_key", tells="OK other=")]
TOLD = NOT_CARRIED_OUT.decode()
UNIT = SERVICE / "cca-front.service"
QUICKLY = "import sys; from cca_service import front; front.CROWDED = 0.5; sys.exit(front.main())"

EDITS = [
    Edit("front.py", "if not connection.unsent and (was_sending or connection.has_line()):", "if True:", "Slow.test_bytes"),
    Edit("front.py", "if door.users[connection.uid] >= self.user_limit and", "if False and", "Users.test_turned_away"),
    Edit("front.py", "and not self.makes_room(door, connection.uid):", "and True:", "Users.test_silent"),
    Edit("front.py", "door.unused_since(until) if it.uid == uid)", "door.unused_since(until))", "Users.test_others"),
    Edit("front.py", "min(settings.user_limit, self.limit)", "settings.user_limit + 99", "Users.test_turned_away"),
    Edit("connections.py", "self.turned_away.discard(connection.uid)", "pass", "Users.test_turned_away"),
    Edit("connections.py", "        self.socket.shutdown(socket.SHUT_RD)\n        while not", "        while not", "Last.test_line"),
    Edit("connections.py", "while not self.has_line() and self.receive():", "while False:", "Last.test_line"),
    Edit("front.py", "self.watch.set(self.watched[1], READ, self.service)", "pass", "Ends.test_killed"),
    Edit("service.py", "if end.in_doubt or end.replies or end.status in LOOK_FIRST:", "if True:", "Ends.test_asked_again"),
    Edit("service.py", "raise Stop(str(end)) if end.status == IN_USE else Look(str(end))", "raise Stop(str(end))", "Ends.test_look"),
    Edit("service.py", "self.cca.began + LIVED - time.monotonic()", "0.0", "Ends.test_again_and_again"),
    Edit("service.py", "if end.status == IN_USE and self.is_patient():", "if False:", "Ends.test_files_in_use"),
    Edit("service.py", "return time.monotonic() < self.in_use_until", "return True", "Ends.test_files_in_use_for_long"),
    Edit("front.py", "signal.SIGINT, signal.SIGHUP):", "signal.SIGINT):", "Signals.test_log"),
    Edit("front.py", "            self.journal.open_anew()\n            self.is_reload", "            self.is_reload", "Signals.test_log"),
    Edit("journal.py", "os.O_CLOEXEC | os.O_NONBLOCK | os.O_NOCTTY, 0o600", "os.O_CLOEXEC, 0o644", "Signals.test_log"),
    Edit("journal.py", "        except OSError as error:\n            self.tell(event", "        except ValueError as error:\n            self.tell(event", "Signals.test_no_log"),
    Edit("front.py", "if not self.is_ending and not self.is_held():", "if not self.is_held():", "Signals.test_end"),
    Edit("front.py", 'it.tell_last("the front has ended")', "pass", "Signals.test_end"),
    Edit("connections.py", "        self.listener.shutdown(socket.SHUT_RD)\n", "", "Last.test_door"),
    Edit("front.py", "            if reply is None:\n                self.leave(connection)\n", "            if reply is None:\n", "Signals.test_look_in_the_midst"),
    Edit("front.py", "            front.end()\n", "            pass\n", "Signals.test_look_in_the_midst"),
    Edit("service.py", "if not self.is_new and not os.path.exists", "if False and not os.path.exists", "Begins.test_no_files"),
    Edit("front.py", "if value is not None})", "if value is not None and not given.config})", "Begins.test_settings"),
    Edit("ask.py", "return reply.startswith(\"OK \")", "return reply.startswith(\"\")", "Health.test_key"),
    Edit("ask.py", "min(HEALTHY, HEALTHY if timeout is None else timeout)", "60.0", "Health.test_no_front"),
    Edit("ask.py", "self.is_ready(select.POLLIN, until)", "self.is_ready(select.POLLIN, None)", "Health.test_stuck"),
]


class Slow(Fronted):
    """Clients who have all places of a socket, and do a little now and then."""

    def keep(self, connections, call):
        """Makes a call for each connection, again and again, until the test ends."""
        is_over = threading.Event()

        def keep_all():
            while not is_over.wait(0.05):
                for it in connections:
                    try:
                        call(it)
                    except OSError:
                        pass

        keeper = threading.Thread(target=keep_all)
        self.addCleanup(keeper.join)
        self.addCleanup(is_over.set)
        keeper.start()

    def held(self, count):
        """So many connections, of which each was served."""
        connections = [connected(self.folder / "TELLER") for _ in range(count)]
        for it in connections:
            self.addCleanup(it.close)
            it.sendall(b"A K\n")
            self.assertEqual(it.recv(100), b"OK value=role=TELLER,K\n")
        return connections

    def test_bytes(self):
        """Each sends a byte of a line now and then: one who has a line gets a place."""
        self.begin("--limit", "8", code=QUICKLY)
        self.keep(self.held(8), lambda it: it.send(b"A"))
        self.assertEqual(asked(self.folder / "TELLER", "A K1"), ["OK value=role=TELLER,K1"])

    def test_stream(self):
        """Each sends bytes without an end, as fast as the front takes them."""
        self.begin("--limit", "2", code=QUICKLY)
        is_over = threading.Event()

        def pour(it):
            while not is_over.is_set():
                try:
                    it.sendall(b"A" * 4096)
                except OSError:
                    return

        with ThreadPoolExecutor(2) as clients:
            try:
                for it in self.held(2):
                    clients.submit(pour, it)
                self.assertEqual(asked(self.folder / "TELLER", "A K1"), ["OK value=role=TELLER,K1"])
            finally:
                is_over.set()

    def test_reply(self):
        """Each takes a byte of its replies now and then."""
        self.begin("--limit", "2", code=QUICKLY)
        held = self.held(2)
        for it in held:
            it.settimeout(0)
        long = b"A " + b"K" * 9000 + b"\n"
        self.keep(held, lambda it: (it.recv(1), it.send(long * 4)))
        self.assertEqual(asked(self.folder / "TELLER", "A K1"), ["OK value=role=TELLER,K1"])


class Users(Fronted):
    """How many connections a user has."""

    def one(self, role="TELLER"):
        it = connected(self.folder / role)
        self.addCleanup(it.close)
        return it

    def served(self, it):
        """Whether a connection is served; else its user has too many."""
        try:
            it.sendall(b"A K\n")
        except BrokenPipeError:
            pass
        with it.makefile("rb") as lines:
            came = lines.readline().decode()
        if came != "OK value=role=TELLER,K\n":
            self.assertEqual(came, f"{TOLD}: too many connections of this user\n")
            self.assertEqual(it.recv(1), b"")
        return came.startswith("OK")

    def test_turned_away(self):
        """A further one is told that it won't be served; one is once there is a place, and at another socket at once. The log tells it
        once, until there is a place."""
        self.begin("--limit", "9", "--user-limit", "3")
        held = [self.one() for _ in range(3)]
        self.assertEqual([self.served(it) for it in held], [True] * 3)
        self.assertEqual([self.served(self.one()) for _ in range(20)], [False] * 20)
        self.assertEqual(asked(self.folder / "OFFICER", "A K"), ["OK value=role=OFFICER,K"])
        for _ in range(2):
            held.pop().close()
            self.comes(lambda: self.served(self.one()))
        self.assertEqual([self.served(it) for it in held], [True])
        self.assertFalse(self.served(self.one()))
        told = [it for it in self.told() if it.get("event") == "turned away"]
        self.assertTrue(2 <= len(told) <= 3, told)
        self.assertEqual({(it["uid"], it["role"]) for it in told}, {(os.getuid(), "TELLER")})

    def test_silent(self):
        """His own connections that are silent for some seconds make room for his further ones."""
        self.begin("--limit", "9", "--user-limit", "3", code=QUICKLY)
        held = [self.one() for _ in range(3)]
        self.comes(lambda: self.served(self.one()))
        self.assertEqual(held[0].recv(1), b"")

    @unittest.skipUnless(os.getuid() == 0, "another user is tried by root")
    def test_others(self):
        """Another user gets a place, and keeps it."""
        for it in (*self.folder.parents, self.folder):
            if it.name.startswith(("cca-tests-", "tmp")) and it != Path("/tmp"):
                it.chmod(0o711)
        self.begin("--limit", "9", "--user-limit", "3", code=QUICKLY)
        (self.folder / "TELLER").chmod(0o666)
        ours, theirs = socket.socketpair()
        self.addCleanup(ours.close)

        def ask_twice():
            with connected(self.folder / "TELLER") as it:
                for _ in range(2):
                    it.sendall(b"A K\n")
                    theirs.send(it.recv(100) or b"nothing")
                    theirs.recv(1)

        held = [self.one() for _ in range(3)]
        self.assertEqual([self.served(it) for it in held], [True] * 3)
        child = as_user(54020, 54020, ask_twice)
        self.addCleanup(os.waitpid, child, 0)
        self.assertEqual(ours.recv(100), b"OK value=role=TELLER,K\n")
        self.assertEqual([self.served(it) for it in held], [True] * 3)  # so that his is the one that was silent longest
        self.comes(lambda: self.served(self.one()))
        ours.send(b"1")
        self.assertEqual(ours.recv(100), b"OK value=role=TELLER,K\n")
        ours.send(b"1")


class Last(Case):
    """What a client sends while the front ends its connection."""

    def setUp(self):
        super().setUp()
        limited(self, 10)

    def test_line(self):
        """It is taken, or can't be sent; nothing is lost."""
        for sent in (b"", b"A half", b"A K\n", b"A" * 5000 + b"\nA half", b"\n\n"):
            with self.subTest(sent):
                client, peer = socket.socketpair()
                self.addCleanup(client.close)
                self.addCleanup(peer.close)
                client.sendall(sent)
                connection = Connection(peer, None)
                self.assertEqual(connection.receive_last(), b"\n" in sent)
                self.assertEqual(connection.taken, sent)
                with self.assertRaises(BrokenPipeError):
                    client.send(b"A K2\n")
                self.assertFalse(connection.receive())


    def test_door(self):
        """Nobody connects to a door that is closed, and who has connected before is still accepted."""
        path, other = str(self.folder / "socket"), str(self.folder / "other")
        door = Door(path, "TELLER")
        self.addCleanup(door.listener.close)
        os.link(path, other)
        with socket.socket(socket.AF_UNIX) as early, socket.socket(socket.AF_UNIX) as late:
            early.connect(path)
            door.close()
            with self.assertRaises(ConnectionRefusedError):
                late.connect(other)
            connection = door.accept()
            self.addCleanup(connection.socket.close)
            self.assertIsNone(door.accept())
        self.assertFalse(os.path.exists(path))


class Ends(Fronted):
    """cca that ends while nobody asks it."""

    def stand(self, script):
        """Lets a script stand for cca, which has what stood for it before as $STUB, and the number of its start as $n."""
        program, starts = self.folder / "program", self.folder / "starts"
        program.write_text(f"#!/bin/sh\nSTUB='{self.stands}'\necho >> '{starts}'\nn=$(wc -l < '{starts}')\n{script}\n")
        program.chmod(0o755)
        self.stands = str(program)

    def starts(self):
        return (self.folder / "starts").read_text().count("\n")

    def kill(self, front):
        """Kills cca, and waits for another one."""
        child = next(children_of(front.pid))
        os.kill(child, signal.SIGKILL)
        self.comes(lambda: set(children_of(front.pid)) - {child})

    def test_killed(self):
        """It is started again at once, and told; no request is lost by that."""
        front = self.begin()
        self.kill(front)
        self.comes(lambda: any(it.get("event") == "cca ended" for it in self.told()))
        self.assertEqual([it["status"] for it in self.told() if it.get("event") == "cca ended"], [-signal.SIGKILL])
        self.is_serving()
        self.ends_well(front)

    def test_files_are_held(self):
        """The same with the program: no other one gets its files."""
        self.stands = self.program.path
        front = self.begin()
        self.kill(front)
        self.comes(lambda: any("/keys/cca.module" in " ".join(files_of(child)) for child in children_of(front.pid)))
        self.ends(self.cca("run", folder=self.folder / "keys"), 11, err="cca: a file could not be opened")
        self.ends_well(front)

    def test_asked_again(self):
        """Where it has ended before it is asked, and the front hasn't seen that yet: it is asked again."""
        doors = (DoorSettings("TELLER", str(self.folder / "TELLER"), ""),)
        settings = Settings(str(self.folder / "keys"), None, None, self.stands, 9, 9, 9.0, doors)
        service = Service(settings, True, Journal(str(self.log)))
        self.addCleanup(service.cca.close)
        service.begin()
        for turn in range(3):
            child = next(children_of(os.getpid()))
            os.kill(child, signal.SIGKILL)
            os.waitid(os.P_PID, child, os.WEXITED | os.WNOWAIT)
            answers = service.ask_all([b"A role=TELLER K%d\n" % turn], [0])
            self.assertEqual((answers.replies, answers.end), ([f"OK value=role=TELLER,K{turn}"], None))

    def test_look(self):
        """After an end that asks for a look nothing is started, and the front ends so that nothing starts it again."""
        self.stand('read -r line; echo "NO 01 -"; echo "stub: the store failed" >&2; exit 7')
        front = subprocess.Popen(self.words("--log", str(self.log)), env={**os.environ, "CCA": self.stands})
        self.addCleanup(front.kill)
        self.assertEqual(front.wait(60), front_program.Status.LOOK)
        self.assertEqual(self.starts(), 1)
        self.assertIn("cca ended with status 7: stub: the store failed", self.told()[-1]["text"])
        self.assertFalse((self.folder / "TELLER").exists())

    def test_again_and_again(self):
        """One that ends as soon as it is started keeps nobody busy, and is asked once it doesn't."""
        self.stand(f"test $n -gt 1 -a -e '{self.folder}/bad' && exit 1\nexec \"$STUB\" \"$@\"")
        (self.folder / "bad").touch()
        front = self.begin()
        os.kill(next(children_of(front.pid)), signal.SIGKILL)
        self.comes(lambda: self.starts() > 1)
        began, starts = time.monotonic(), self.starts()
        self.comes(lambda: self.starts() > starts + 2)
        self.assertGreater(time.monotonic() - began, 2 * front_program.SOON)
        self.assertLess((self.starts() - starts - 1) / (time.monotonic() - began), 2)
        (self.folder / "bad").unlink()
        self.is_serving()
        self.ends_well(front)

    def test_files_in_use(self):
        """Another program gets the files first, and ends in time."""
        self.stand('test $n -ge 2 -a $n -le 5 && exit 11\nexec "$STUB" "$@"')
        front = self.begin()
        os.kill(next(children_of(front.pid)), signal.SIGKILL)
        self.comes(lambda: self.starts() == 6)
        self.is_serving()
        self.ends_well(front)

    def test_files_in_use_for_long(self):
        """It doesn't: the front ends as it does where it begins so, and may be started again."""
        self.stand('test $n -ge 2 && exit 11\nexec "$STUB" "$@"')
        front = self.begin(code="import sys; from cca_service import front, service; service.IN_USE_SECONDS = 0.5; sys.exit(front.main())")
        os.kill(next(children_of(front.pid)), signal.SIGKILL)
        self.assertEqual(front.wait(60), front_program.Status.FAILED)
        self.assertIn("status 11", self.told()[-1]["text"])


class Signals(Fronted):
    """SIGHUP, and what comes of requests when the front ends."""

    def test_log(self):
        """A log in a file is the front's user's alone. It is opened anew at SIGHUP, so that it may be renamed, and nobody notices."""
        kept = self.folder / "kept.log"
        front = self.begin("--log", str(kept), log=kept)
        self.assertEqual(stat.S_IMODE(kept.stat().st_mode), 0o600)
        with ThreadPoolExecutor(3) as clients:
            replies = [clients.submit(asked, self.folder / role, *[f"A K{number}" for number in range(200)]) for role in ROLES]
            for turn in range(5):
                kept.rename(self.folder / f"kept.{turn}")
                front.send_signal(signal.SIGHUP)
                self.comes(kept.exists)
                asked(self.folder / "TELLER", "A K")
            for role, it in zip(ROLES, replies):
                self.assertEqual(it.result(), [f"OK value=role={role},K{number}" for number in range(200)])
        self.ends_well(front)
        lines = [json.loads(line) for it in self.folder.glob("kept.*") for line in it.read_text().splitlines()]
        self.assertEqual(sum("verb" in it for it in lines), 605)
        self.assertEqual(json.loads(kept.read_text().splitlines()[-1])["event"], "ended")
        self.assertEqual(stat.S_IMODE(kept.stat().st_mode), 0o600)

    def test_no_log(self):
        """A log that can't be opened anew goes on; one that can't be opened is told, and nothing begins."""
        (self.folder / "logs").mkdir()
        kept = self.folder / "logs" / "kept.log"
        front = self.begin("--log", str(kept), log=kept)
        (self.folder / "logs").rename(self.folder / "old")
        front.send_signal(signal.SIGHUP)
        self.log = self.folder / "old" / "kept.log"
        self.comes(lambda: any(it.get("event") == "log" for it in self.told()))
        self.is_serving()
        self.ends_well(front)
        self.refuses("No such file", "--log", str(kept))

    def test_early(self):
        """Signals that come while the front begins: SIGHUP does nothing, and SIGTERM ends it well once it has begun."""
        gate = self.folder / "gate"
        os.mkfifo(gate)
        program = self.folder / "program"
        program.write_text(f"#!/bin/sh\ncat '{gate}'\nexec '{self.stands}' \"$@\"\n")
        program.chmod(0o755)
        for numbers in ([signal.SIGHUP], [signal.SIGHUP, signal.SIGTERM], [signal.SIGINT]):
            with self.subTest(numbers):
                kept = self.folder / f"log{len(numbers)}{numbers[0]}"
                front = subprocess.Popen(self.words("--log", str(kept)), env={**os.environ, "CCA": str(program)})
                self.addCleanup(front.kill)
                opened = os.open(gate, os.O_WRONLY)  # once cca is started
                for number in numbers:
                    front.send_signal(number)
                os.close(opened)
                if numbers == [signal.SIGHUP]:
                    self.is_serving()
                    front.terminate()
                self.assertEqual(front.wait(60), 0)
                self.assertFalse((self.folder / "TELLER").exists())

    def test_end(self):
        """The request that is under way is answered. Lines that wait, also of a client whose connection wasn't taken yet, are told that
        they weren't carried out; half a line can't be finished, and a silent client is told nothing."""
        front = self.begin()
        slow, waits, half, silent, many = [connected(self.folder / "TELLER") for _ in range(5)]
        first, early = connected(self.folder / "CUSTODY"), connected(self.folder / "OFFICER")
        for it in (slow, half, silent, early):
            it.sendall(b"\n")
            self.assertEqual(it.recv(100), b"NO 01 -\n")
        first.sendall(b"A stub=waits1000 FIRST\n")
        self.carries(b"FIRST")
        slow.sendall(b"A stub=waits2000 SLOW\n")
        self.carries(b"SLOW")
        early.sendall(b"A KNOTDONE\n")
        late = connected(self.folder / "OFFICER")
        for it in (waits, late):
            it.sendall(b"A KNOTDONE\n")
        many.sendall(b"A KNOTDONE\n" * 3000)
        half.sendall(b"A KNOT")
        front.terminate()
        self.assertEqual(front.wait(60), 0)
        self.assertEqual(first.recv(100), b"OK value=role=CUSTODY,FIRST\n")
        self.assertEqual(slow.recv(100), b"OK value=role=TELLER,SLOW\n")
        for it in (early, waits, late, many):
            self.assertEqual(it.makefile("rb").read(), f"{TOLD}: the front has ended\n".encode())
        with self.assertRaises(BrokenPipeError):
            half.sendall(b"DONE\n")
        for it in (half, silent):
            self.assertEqual(it.recv(100), b"")
        self.assertNotIn(b"NOT", (self.folder / "keys" / "carried").read_bytes())
        for it in (first, early, slow, waits, half, silent, many, late):
            it.close()

    def outcomes(self, number):
        """Asks until the front has ended: the requests that were answered, and those of which it is known that they weren't carried
        out; and those that are in doubt."""
        answered, refused, doubted, turn = [], [], [], 0
        while True:
            try:
                it = connected(self.folder / ROLES[number % 3], seconds=0)
            except OSError:
                return answered, refused, doubted
            with it:
                for turn in range(turn + 1, turn + 20):
                    request = f"K{number}.{turn}."
                    try:
                        it.settimeout(60)
                        it.sendall(f"A {request}\n".encode())
                    except BrokenPipeError:
                        refused.append(request)
                        break
                    reply = it.recv(200).decode()
                    if not reply.startswith("OK "):
                        (refused if reply.startswith(TOLD) else doubted).append(request)
                        break
                    answered.append(request)

    def test_end_of_many(self):
        """Many clients, who connect and ask all the time while the front ends: each request is answered, or it is known that it wasn't
        carried out."""
        for _ in range(5):
            front = self.begin("--user-limit", "256")
            with ThreadPoolExecutor(30) as clients:
                came = [clients.submit(self.outcomes, number) for number in range(30)]
                self.carries(b"K7.40.")
                front.terminate()
                self.assertEqual(front.wait(60), 0)
                answered, refused, doubted = (sum(lists, []) for lists in zip(*(it.result() for it in came)))
            self.assertEqual(doubted, [])
            carried = {line.split()[-1].decode() for line in (self.folder / "keys" / "carried").read_bytes().splitlines() if b"K" in line}
            self.assertEqual(carried, set(answered))
            self.assertEqual(carried & set(refused), set())
            (self.folder / "keys" / "carried").unlink()

    def test_look_in_the_midst(self):
        """The front ends since cca did: the request that got no reply is in doubt, and what stands behind it on its connection. Those
        that waited weren't carried out."""
        front = self.begin()
        ends, waits = connected(self.folder / "TELLER"), connected(self.folder / "OFFICER")
        ends.sendall(b"A stub=waits1000 SLOW\n")
        self.carries(b"SLOW")
        ends.sendall(b"A stub=ends7 K\nA K2\n")
        waits.sendall(b"A K3\n" * 3)
        self.assertEqual(front.wait(60), front_program.Status.LOOK)
        self.assertEqual(ends.recv(100), b"OK value=role=TELLER,SLOW\n")
        self.assertEqual(ends.recv(100), b"")
        came = waits.makefile("rb").read().decode().splitlines()
        self.assertEqual(came[-1], f"{TOLD}: the front has ended")
        self.assertEqual(set(came[:-1]) | {"OK value=role=OFFICER,K3"}, {"OK value=role=OFFICER,K3"})
        self.assertEqual(len(came[:-1]), (self.folder / "keys" / "carried").read_bytes().count(b"K3"))
        ends.close()
        waits.close()


class Begins(Fronted):
    """What a front begins with."""

    def test_no_files(self):
        """A folder without the files, and one that has lost one of them, is refused where it isn't said to be new; also once the front
        runs, in the place of files without keys."""
        self.stands = self.program.path
        keys = self.folder / "keys"
        for name in ("cca.module", "cca.store"):
            self.refuses(f"has no {name}", is_new=False)
            self.assertEqual(list(keys.glob("cca.*")) == [], name == "cca.module")
            self.ends(self.cca("run", folder=keys), 0)
            (keys / "cca.store").unlink()
        self.ends(self.cca("run", folder=keys), 0)
        front = self.begin(is_new=False)
        (keys / "cca.store").unlink()
        os.kill(next(children_of(front.pid)), signal.SIGKILL)
        self.assertEqual(front.wait(60), front_program.Status.FAILED)
        self.assertIn("has no cca.store", self.told()[-1]["text"])
        self.assertFalse((keys / "cca.store").exists())

    def test_settings(self):
        """The front reads its settings from a file; words win over it."""
        path, kept = self.folder / "front.conf", self.folder / "kept.log"
        text = f"[front]\nfolder = {self.folder}/keys\nlog = {kept}\nprogram = {self.stands}\nlimit = 7\nuser-limit = 2\n"
        path.write_text(text + "".join(f"[role {role}]\ngroup = tellers\nsocket = {self.folder}/{role}\n" for role in ROLES))
        words = [sys.executable, "-B", str(FRONT), "--config", str(path), "--new"]
        environment = {name: value for name, value in os.environ.items() if name != "CCA"}
        for more, held in ((), 2), (("--user-limit", "3"), 3):
            with self.subTest(more):
                front = subprocess.Popen([*words, *more], env=environment)
                self.addCleanup(front.wait)
                self.addCleanup(front.kill)
                self.is_serving()
                connections = [connected(self.folder / "TELLER") for _ in range(held + 1)]
                for it in connections[:held]:
                    it.sendall(b"A K\n")
                    self.assertEqual(it.recv(100), b"OK value=role=TELLER,K\n")
                self.assertRegex(connections[-1].recv(100).decode(), f"^{TOLD}")
                for it in connections:
                    it.close()
                self.log = kept
                self.ends_well(front)
        self.assertIn('"ended"', kept.read_text())
        path.write_text(text + "[role teller]\n")
        it = subprocess.run(words, env=environment, capture_output=True, text=True)
        self.assertEqual(it.returncode, front_program.Status.USAGE)
        self.assertIn("role teller", it.stderr)
        it = subprocess.run([sys.executable, "-B", str(FRONT), "keys"], capture_output=True, text=True)
        self.assertEqual(it.returncode, front_program.Status.USAGE)


class Health(Fronted):
    """ask.py --health, and its limits of time."""

    def setUp(self):
        super().setUp()
        self.stands = self.program.path
        self.ask([*ONE_KEY, "CSUAACI role=DEFAULT action=DEFINE name=TELLER points=00000010"], folder=self.folder / "keys")

    def health(self, *words, role="TELLER"):
        """What the check comes to: its exit status, what it printed, and how long it took."""
        began = time.monotonic()
        words = [sys.executable, "-B", str(ASK), *words, str(self.folder / role)]
        it = subprocess.run(words, capture_output=True, text=True, stdin=subprocess.DEVNULL, timeout=60)
        return it.returncode, it.stdout + it.stderr, time.monotonic() - began

    def test_key(self):
        """The check value of X'0123456789ABCDEF', as `openssl enc -des-ecb` gives it for a block of zeros."""
        front = self.begin()
        self.assertEqual(self.health("--health", "A")[:2], (0, "OK value=d5d44ff7\n"))
        self.assertEqual(self.health("--health", "B")[:2], (1, "NO 07 key\n"))
        self.assertEqual(self.health("--health", "a b")[:2], (1, "NO 01 -\n"))
        self.ends_well(front)

    def test_empty(self):
        """Files without keys and roles."""
        for it in (self.folder / "keys").iterdir():
            it.unlink()
        front = self.begin()
        self.assertEqual(self.health("--health", "A")[:2], (1, "NO 03 -\n"))
        self.ends_well(front)

    def test_no_front(self):
        """It fails soon where the front is down: a socket isn't there, or nobody listens to it, or takes the connection."""
        path = self.folder / "TELLER"
        status, told, took = self.health("--health", "A")
        self.assertEqual((status, told), (1, f"no front takes a connection at {path}\n"))
        self.assertLess(took, 30)
        with socket.socket(socket.AF_UNIX) as it:
            it.bind(str(path))
            self.assertEqual(self.health("--timeout", "1", "--health", "A")[:2], (1, f"no front takes a connection at {path}\n"))
            it.listen(0)
            with socket.socket(socket.AF_UNIX) as other:
                other.connect(str(path))
                self.assertEqual(self.health("--timeout", "1", "--health", "A")[:2], (1, f"no front takes a connection at {path}\n"))

    def test_stuck(self):
        """It fails soon where the front does nothing; and so do requests with a limit of time."""
        front = self.begin()
        front.send_signal(signal.SIGSTOP)
        doubt = "the front sent no reply in time: the request may have been carried out all the same\n"
        status, told, took = self.health("--health", "A")
        self.assertEqual((status, told), (1, doubt))
        self.assertLess(took, 30)
        words = [sys.executable, "-B", str(ASK), "--timeout", "0.5", str(self.folder / "TELLER")]
        it = subprocess.run(words, input="\n", capture_output=True, text=True)
        self.assertEqual((it.returncode, it.stderr), (1, doubt))
        front.send_signal(signal.SIGCONT)
        self.ends_well(front)

    def test_turned_away(self):
        """A request that wasn't carried out, and what the front says of that."""
        self.begin("--user-limit", "1")
        with connected(self.folder / "TELLER"):
            it = subprocess.run([sys.executable, "-B", str(ASK), str(self.folder / "TELLER")], input="\n", capture_output=True, text=True)
            self.assertEqual((it.returncode, it.stdout, it.stderr), (1, "", "not carried out: too many connections of this user\n"))


class Unit(Case):
    """The unit of systemd: who may be a teller is no officer."""

    def words(self, name):
        """What the unit says by this word."""
        return re.findall(rf"(?m)^{name}=(.*)$", UNIT.read_text())

    def test_folders(self):
        """The service has no folder in which it could put a link where root changes a folder: root alone makes them, by
        `cca-front --prepare`, and the front serves the roles of the same file."""
        self.assertEqual(self.words("RuntimeDirectory"), [])
        prepare, front = self.words("ExecStartPre") + self.words("ExecStart")
        self.assertRegex(prepare, r"^\+.*/cca-front --prepare /etc/cca/front\.conf$")
        self.assertRegex(front, r"/cca-front --config /etc/cca/front\.conf$")
        self.assertEqual(self.words("ReadWritePaths"), ["/run/cca"])

    def test_ends(self):
        """A front that asks for a look isn't started again, and SIGHUP comes to it when it is reloaded."""
        self.assertEqual(self.words("Restart"), ["on-abnormal"])
        self.assertEqual(self.words("RestartPreventExitStatus"), [str(int(front_program.Status.LOOK))])
        self.assertEqual(self.words("ExecReload"), [*self.words("ExecStartPre"), "/bin/kill -HUP $MAINPID"])

    def test_installed(self):
        """What the unit's first lines install is all that its commands need."""
        steps = re.findall(r"(?m)^#   ((?:install|mkdir|cp) .*)$", UNIT.read_text())
        script = "\n".join(steps).replace("/usr/local/", f"{self.folder}/local/").replace("/etc/cca", f"{self.folder}/etc")
        subprocess.run(["sh", "-e", "-c", script], cwd=SERVICE, check=True)
        self.assertTrue((self.folder / "etc" / "front.conf").exists())
        for words in (["--help"], ["--prepare", "--help"]):
            program = [sys.executable, "-I", "-B", self.folder / "local" / "sbin" / "cca-front", *words]
            it = subprocess.run(program, cwd=self.folder, capture_output=True, text=True)
            self.assertEqual((it.returncode, it.stderr), (0, ""))

    @unittest.skipUnless(os.getuid() == 0, "who may connect is tried by root")
    def test_who_may_connect(self):
        """Folders as root makes them, with users and groups by number: the front's user is in neither group."""
        for folder in (*self.folder.parents, self.folder):
            if folder.is_relative_to(tempfile.gettempdir()) and folder != Path(tempfile.gettempdir()):
                folder.chmod(0o711)
        keys, stub, sockets = self.folder / "keys", self.folder / "stub", []
        stub.write_text('#!/bin/sh\nwhile read -r line; do test "$line" && echo OK || echo "NO 01 -"; done\n')
        stub.chmod(0o755)
        keys.mkdir(mode=0o700)
        os.chown(keys, 54001, 54001)
        for number, role in enumerate(("teller", "officer")):
            path = self.folder / role
            path.mkdir()
            os.chown(path, 54001, 54010 + number)
            path.chmod(MODE)
            sockets.append(path / "socket")
        front = as_user(54001, 54001, lambda: served(stub, keys, sockets))
        self.addCleanup(os.waitpid, front, 0)
        self.addCleanup(os.kill, front, signal.SIGKILL)
        self.assertEqual(asked(sockets[-1], "A K"), ["OK"])
        for client in range(len(sockets)):
            for number, path in enumerate(sockets):
                came = os.waitpid(as_user(54020, 54010 + client, lambda path=path: connected(path, 0).close()), 0)[1]
                self.assertEqual(os.waitstatus_to_exitcode(came), 0 if client == number else errno.EACCES)

    @unittest.skipUnless(shutil.which("systemd-analyze"), "systemd isn't installed")
    def test_by_systemd(self):
        it = subprocess.run(["systemd-analyze", "verify", "--man=no", UNIT], stderr=subprocess.PIPE, text=True)
        self.assertEqual([line for line in it.stderr.splitlines() if UNIT.name in line], [])
        words = ["systemd-analyze", "security", "--offline=true", "--no-pager", "--threshold=15", UNIT]
        it = subprocess.run(words, stdout=subprocess.PIPE, stderr=subprocess.STDOUT, text=True)
        self.assertEqual(it.returncode, 0, it.stdout[-3000:])


def as_user(user, group, call):
    """A process of this user, and of this group alone, that makes a call: it ends with 0, or the number of an error."""
    process = os.fork()
    if process == 0:
        status = 1
        try:
            os.setgroups([])
            os.setgid(group)
            os.setuid(user)
            call()
            status = 0
        except OSError as error:
            status = error.errno
        finally:
            os._exit(status)
    return process


def served(program, keys, sockets):
    """Runs the front in this process."""
    os.dup2(os.open(os.devnull, os.O_WRONLY), 2)
    os.environ["CCA"] = str(program)
    sys.argv = ["cca-front", "--new", str(keys), *[f"{it}=TELLER" for it in sockets]]
    front_program.main()


class Planted(unittest.TestCase):
    """Each fault of EDITS is found by its case."""

    def test_edits(self):
        each_is_found(self, "front_clients", EDITS)


if __name__ == "__main__":
    unittest.main()
