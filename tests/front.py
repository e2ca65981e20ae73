"""The front of service/: many clients at once, with bad ones among them, who mix no reply and starve no role; what it refuses
to begin with; its log, and the trail that it fetches. What stands for cca where replies may be mixed up is tests/stub/cca."""
import hashlib
import json
import os
import re
import resource
import signal
import socket
import stat
import subprocess
import sys
import tempfile
import threading
import time
import unittest
from concurrent.futures import ThreadPoolExecutor
from pathlib import Path

from tests.edits import FRONT, PATHS, Edit, each_is_found
from tests.harness import TOP, Case, Fault, limited

STUB = TOP / "tests" / "stub" / "cca"
sys.path[:0] = PATHS
from cca_service import front as front_program  # noqa: E402
from cca_service import trail  # noqa: E402
from cca_service.journal import VERBS  # noqa: E402
from cca_service.service import FETCH_AFTER  # noqa: E402
from cca_service.program import Program  # noqa: E402
from cca_service.trail import HELD, Sent, TrailLog, TrailLost  # noqa: E402

FAULTS = [Fault('"$CCA" "$@" | sed -u "s/^NO 01/NO 02/"', case="Begin.test_the_program_itself", tells="no refusal")]
ROLES = ("TELLER", "OFFICER", "CUSTODY")
FETCHES_AT_ONCE = "import sys; from cca_service import front, service; service.FETCH_SECONDS = 0.0; sys.exit(front.main())"


EDITS = [
    Edit("connections.py", "it.listen(BACKLOG)", "it.listen(5)", "Crowd.test_backlog"),
    Edit("front.py", "if len(door.connections) >= self.limit:\n                return", "if False:\n                return", "Crowd.test_idle"),
    Edit("front.py", "return self.watch.set(door.listener.fileno(), NOTHING, door)", "return None", "Crowd.test_idle"),
    Edit("front.py", "min(CROWDED, self.idle) if is_crowded", "self.idle if is_crowded", "Crowd.test_idle"),
    Edit("front.py", "connection.unsent = reply", "next(iter(connection.door.connections)).unsent = reply", "Crowd.test_two_hundred"),
    Edit("connections.py", "fcntl.LOCK_EX | fcntl.LOCK_NB", "fcntl.LOCK_SH | fcntl.LOCK_NB", "Begin.test_second_front"),
    Edit("connections.py", "if not stat.S_ISSOCK(", "if False and stat.S_ISSOCK(", "Begin.test_another_file"),
    Edit("service.py", 'if answers.replies != ["NO 01 -"]:', "if False:", "Begin.test_another_program"),
    Edit("front.py", "        service.begin()\n", "", "Begin.test_another_program"),
    Edit("connections.py", "            del self.taken[LONGEST + 1 :]", "            return len(self.taken) <= LONGEST", "Lines.test_too_long"),
    Edit("batches.py", 'b"%b role=%b%b%b\\n" % (verb, self.connection.door.name, space, fields)', 'self.text + b"\\n"', "Lines.test_role"),
    Edit("journal.py", 'KNOWN.get(line.partition(b" ")[0])', 'line.partition(b" ")[0].decode("latin-1")', "Log.test_no_secrets"),
    Edit("journal.py", " CSNBPEX CSNBRNG", " CSNBPEX", "Known.test_verbs"),
    Edit("journal.py", '(reply or "").startswith(("NO 01", "NO 02"))', "False", "Log.test_no_secrets"),
    Edit("service.py", "if self.sent and len(self.sent) + count > FETCH_AFTER:", "if False:", "Trail.test_fetched_in_time"),
    Edit("front.py", "is_silent = not connection.receive_last()", "is_silent = True", "Crowd.test_busy"),
    Edit("front.py", "is_silent = not connection.send() or bool(connection.unsent)", "is_silent = False", "Crowd.test_unread"),
    Edit("service.py", "            self.fetch()\n            self.hold_files()", "            self.fetch()", "TrailOfTheProgram.test_files_are_held"),
    Edit("service.py", "        self.fetch(doubts)\n        self.hold_files()", "        self.fetch(doubts)", "Crowd.test_no_reply"),
    Edit("clients/python/cca/client.py", "if end.status != IN_USE or time.monotonic() > until:", "if True:", "Trail.test_files_in_use"),
    Edit("service.py", "if status in LOOK_FIRST and status != IN_USE:", "if status in LOOK_FIRST:", "Trail.test_files_in_use_at_the_end"),
    Edit("clients/python/cca/client.py", "if end.status != IN_USE or time.monotonic() > until:", "if end.status != IN_USE:", "Trail.test_files_in_use_for_long"),
    Edit("front.py", "signal.signal(signal.SIGCHLD, signal.SIG_DFL)", "pass", "Begin.test_ignored_signal"),
    Edit("connections.py", "Path(self.path).unlink(missing_ok=True)", "os.unlink(self.path)", "Begin.test_removed_socket"),
    Edit("front.py", "if os.path.realpath(door.path) in seen:", "if False:", "Begin.test_twice"),
    Edit("trail.py", "if it.returncode != IN_USE or", "if True or", "Trail.test_files_in_use"),
    Edit("trail.py", "if new and new[0].number > last + 1:", "if False:", "Told.test_gap"),
    Edit("trail.py", "if kept.get(record.number, record) != record:", "if False:", "Told.test_altered"),
    Edit("trail.py", "if last >= 0 and (not held", "if False and (not held", "Told.test_begins_anew"),
    Edit("trail.py", "            self.kept = Kept({}, -1, -1)\n", "", "Told.test_begins_anew"),
    Edit("trail.py", '"told": why, "follows": self.kept.last}', '"told": why}', "Told.test_begins_anew"),
    Edit("trail.py", "        if not is_complete:", "        if sent and not is_complete:", "Told.test_others"),
    Edit("trail.py", "os.fsync(log)", "pass", "Told.test_synced"),
    Edit("trail.py", "        if lost:\n", "        if False:\n", "Told.test_hole"),
    Edit("trail.py", "-1 if are_all or lowest is None else lowest - 1)", "(lowest or 0) - 1)", "Told.test_hole"),
]


def asked(path, *requests):
    """The replies to some requests, one after another over one connection; an empty one where it ends."""
    replies = []
    with connected(path) as it, it.makefile("rwb") as lines:
        for request in requests:
            lines.write(request.encode() + b"\n")
            lines.flush()
            replies.append(lines.readline().decode().removesuffix("\n"))
    return replies


def connected(path, seconds=60.0):
    """A connection, whose front may still be beginning."""
    until = time.monotonic() + seconds
    while True:
        it = socket.socket(socket.AF_UNIX)
        it.settimeout(seconds)
        try:
            it.connect(str(path))
            return it
        except (FileNotFoundError, ConnectionRefusedError, BlockingIOError):  # not yet there, or as many wait as may
            it.close()
            if time.monotonic() > until:
                raise
            time.sleep(0.05)


class Fronted(Case):
    """A front over a folder of its own, with a socket for each of three roles."""

    def setUp(self):
        super().setUp()
        limited(self, 150)
        self.stands = str(STUB)
        (self.folder / "keys").mkdir()
        self.log = self.folder / "front.log"

    def words(self, *options, keys="keys", sockets=ROLES, code=None, is_new=True):
        named = [f"{self.folder / name}={name}" for name in sockets] + ["--new"] * is_new
        front = ["-c", code] if code else [str(FRONT)]
        return [sys.executable, "-B", *front, str(self.folder / keys), *named, *options]

    def begin(self, *options, log=None, **named):
        """Starts a front, and waits until its log, which may be another than standard error, says that it is ready."""
        self.log = log or self.folder / "front.log"
        self.log.unlink(missing_ok=True)
        with open(self.folder / "front.log", "ab") as errors:
            environment = {**os.environ, "CCA": self.stands, "PYTHONPATH": ":".join(PATHS)}
            it = subprocess.Popen(self.words(*options, **named), env=environment, stderr=errors)
        self.addCleanup(it.wait)
        self.addCleanup(it.kill)
        until = time.monotonic() + 60
        while not (self.log.exists() and '"ready"' in self.log.read_text()) and it.poll() is None and time.monotonic() < until:
            time.sleep(0.02)
        self.assertIsNone(it.poll(), self.log.read_text())
        return it

    def refuses(self, tells, *options, program=None, **named):
        """A front that must not begin, and say why."""
        environment = {**os.environ, "CCA": str(program or self.stands), "PYTHONPATH": ":".join(PATHS)}
        it = subprocess.run(self.words(*options, **named), env=environment, stderr=subprocess.PIPE, text=True, timeout=60)
        self.assertEqual(it.returncode, 1, it.stderr)
        self.assertIn(tells, json.loads(it.stderr.splitlines()[-1])["text"])

    def carries(self, what):
        """Waits until what stands for cca has taken a request with these bytes."""
        self.comes(lambda: what in (self.folder / "keys" / "carried").read_bytes())

    def comes(self, call):
        """Waits until a call says that something is so."""
        until = time.monotonic() + 30
        while not call():
            self.assertLess(time.monotonic(), until)
            time.sleep(0.02)

    def told(self):
        """The lines of the log, each of which is a JSON object."""
        return [json.loads(line) for line in self.log.read_text().splitlines()]

    def is_serving(self, roles=ROLES):
        """Each role gets its own reply."""
        for role in roles:
            self.assertEqual(asked(self.folder / role, "A K"), [f"OK value=role={role},K"])

    def ends_well(self, front):
        """A front ends on a signal with status 0, and leaves no socket."""
        front.terminate()
        self.assertEqual(front.wait(60), 0, self.log.read_text())
        self.assertEqual([it.name for it in self.folder.iterdir() if stat.S_ISSOCK(it.stat().st_mode)], [])


class Crowd(Fronted):
    """Many clients."""

    def good(self, number):
        """Asks ten requests of its own, one after another, and looks at each reply."""
        role = ROLES[number % 3]
        wanted = [f"OK value=role={role},K{number}.{turn}" for turn in range(10)]
        return asked(self.folder / role, *[f"A K{number}.{turn}" for turn in range(10)]) == wanted

    def bad(self, number):
        """A client that does what it shouldn't."""
        kinds = [b"", b"A half", b"A K\nA K\nA K\n", b"A" * 50000, b"\xff\0\n" * 9, b"A role=OFFICER K\n", b"A K\n" * 2000, b"\n"]
        it = connected(self.folder / ROLES[number % 3])
        try:
            it.settimeout(0.3)
            it.sendall(kinds[number % len(kinds)])
        except OSError:
            pass
        if number % 2:  # it leaves at once, and else it stays and reads nothing
            it.close()
        return it

    def test_two_hundred(self):
        front = self.begin("--user-limit", "200")
        with ThreadPoolExecutor(200) as clients:
            bad = [clients.submit(self.bad, number) for number in range(60)]
            good = [clients.submit(self.good, number) for number in range(140)]
            self.assertEqual([number for number, it in enumerate(good) if not it.result(100)], [])
            stay = [it.result(100) for it in bad]
        self.is_serving()
        for it in stay:
            it.close()
        self.is_serving()
        self.assertNotIn("Traceback", self.log.read_text())
        served = [it for it in self.told() if it.get("role") in ROLES]
        self.assertGreaterEqual(len(served), 1400)
        self.ends_well(front)

    def test_idle(self):
        """Silent connections, more than a socket may have: no other role waits, this one isn't shut out, and nothing spins."""
        soft, hard = resource.getrlimit(resource.RLIMIT_NOFILE)
        resource.setrlimit(resource.RLIMIT_NOFILE, (min(4096, hard), hard))
        self.addCleanup(resource.setrlimit, resource.RLIMIT_NOFILE, (soft, hard))
        front = self.begin("--limit", "100", "--user-limit", "100")
        silent, until = [], time.monotonic() + 3
        while len(silent) < 1014 and time.monotonic() < until:
            it = socket.socket(socket.AF_UNIX)
            it.setblocking(False)
            try:
                it.connect(str(self.folder / "TELLER"))
                self.addCleanup(it.close)
                silent.append(it)
            except BlockingIOError:  # as many wait as may: the front takes no more of them than its limit
                it.close()
                time.sleep(0.02)
        self.assertGreaterEqual(len(silent), 200)
        began = time.monotonic()
        self.is_serving(ROLES[1:])
        self.assertLess(time.monotonic() - began, 10)
        self.assertLess(len(os.listdir(f"/proc/{front.pid}/fd")), 130)
        before, began = processor_time(front.pid), time.monotonic()
        time.sleep(2)
        self.assertLess(processor_time(front.pid) - before, (time.monotonic() - began) / 2)
        for it in silent[100:]:
            it.close()
        began = time.monotonic()
        self.is_serving()
        self.assertLess(time.monotonic() - began, 30)
        self.ends_well(front)

    def test_backlog(self):
        """A hundred connections at once, while the front waits for a reply: none is refused."""
        front = self.begin("--user-limit", "100")
        slow = threading.Thread(target=asked, args=(self.folder / "OFFICER", "A stub=waits1500 K"))
        slow.start()
        time.sleep(0.5)
        waiting = []
        for _ in range(100):
            it = socket.socket(socket.AF_UNIX)
            self.addCleanup(it.close)
            it.setblocking(False)
            it.connect(str(self.folder / "TELLER"))
            waiting.append(it)
        slow.join()
        for number, it in enumerate(waiting):
            it.settimeout(30)
            it.sendall(f"A K{number}\n".encode())
            self.assertEqual(it.recv(100), f"OK value=role=TELLER,K{number}\n".encode())
        self.ends_well(front)

    def test_unread(self):
        """A client that reads no reply loses its place to one that waits for it."""
        front = self.begin("--limit", "1", "--idle", "1")
        with connected(self.folder / "TELLER") as unread:
            unread.sendall(b"A K\n" * 4000)
            with connected(self.folder / "TELLER") as it:
                it.sendall(b"A K\n")
                self.assertEqual(it.recv(100), b"OK value=role=TELLER,K\n")
        self.ends_well(front)

    def test_busy(self):
        """A request that comes while the front serves another role's is served, also where others wait for its place."""
        self.begin("--limit", "2", "--idle", "2")
        with connected(self.folder / "TELLER") as first, connected(self.folder / "TELLER") as second, ThreadPoolExecutor(2) as others:
            for it in (first, second):
                it.sendall(b"A K\n")
                self.assertEqual(it.recv(100), b"OK value=role=TELLER,K\n")
            slow = others.submit(asked, self.folder / "OFFICER", "A stub=waits3000 K")
            self.carries(b"waits3000")
            third = others.submit(asked, self.folder / "TELLER", "A K3")
            first.sendall(b"A K1\n")
            self.assertEqual(first.recv(100), b"OK value=role=TELLER,K1\n")
            self.assertEqual((slow.result(), third.result()), (["OK value=role=OFFICER,K"], ["OK value=role=TELLER,K3"]))

    def test_no_reply(self):
        """A program that ends: the connection ends without a reply. All others get theirs from the next one, which is started at once."""
        front = self.begin()
        self.assertEqual(asked(self.folder / "TELLER", "A K", "A stub=ends8 K"), ["OK value=role=TELLER,K", ""])
        self.comes(lambda: any(children_of(front.pid)))
        self.is_serving()
        self.assertEqual(asked(self.folder / "TELLER", "A stub=ends7 K"), [""])
        self.assertEqual(front.wait(30), front_program.Status.LOOK)
        self.assertIn("status 7", self.told()[-1]["text"])


def processor_time(process):
    """The seconds for which the processor worked for a process."""
    fields = Path(f"/proc/{process}/stat").read_text().rpartition(")")[2].split()
    return (int(fields[11]) + int(fields[12])) / os.sysconf("SC_CLK_TCK")


class Begin(Fronted):
    """What a front refuses to begin with."""

    def test_second_front(self):
        front = self.begin()
        (self.folder / "other").mkdir()
        self.refuses("another front has this folder", sockets=("SPARE",))
        self.refuses("another front has", keys="other")
        self.is_serving()
        self.ends_well(front)

    def test_left_behind(self):
        """A socket that a front left which was killed is replaced."""
        front = self.begin()
        front.kill()
        front.wait()
        self.begin()
        self.is_serving()

    def test_another_file(self):
        (self.folder / "TELLER").write_text("keys")
        self.refuses("is no socket")
        self.assertEqual((self.folder / "TELLER").read_text(), "keys")

    def test_no_program(self):
        self.refuses("No such file", program="/nowhere/cca")

    def test_another_program(self):
        talks = self.folder / "talks"
        talks.write_text("#!/bin/sh\nexec cat\n")
        talks.chmod(0o755)
        self.refuses("is this cca?", program=talks)

    def test_role(self):
        self.refuses("no role's name", sockets=("teller",))

    def test_twice(self):
        self.refuses("TELLER is given twice", sockets=("TELLER", "TELLER"))

    def test_removed_socket(self):
        """A socket that someone removed: the front ends as always."""
        front = self.begin()
        (self.folder / ROLES[0]).unlink()
        self.ends_well(front)

    def test_ignored_signal(self):
        """Whoever starts the front may ignore the ends of its children: it sees the exit status of cca all the same."""
        ignored = "import signal, sys; from cca_service import front; signal.signal(signal.SIGCHLD, signal.SIG_IGN); sys.exit(front.main())"
        front = self.begin(code=ignored)
        self.assertEqual(asked(self.folder / "TELLER", "A stub=ends7 K"), [""])
        self.assertEqual(front.wait(30), front_program.Status.LOOK)
        self.assertIn("status 7", self.told()[-1]["text"])

    def test_the_program_itself(self):
        self.stands = self.program.path
        front = self.begin()
        self.assertEqual(asked(self.folder / "TELLER", "", "CSNBKYT key=L:K"), ["NO 01 -", "NO 03 -"])
        self.ends_well(front)


class Lines(Fronted):
    """What becomes of lines."""

    def test_role(self):
        self.begin()
        self.assertEqual(asked(self.folder / "TELLER", "A role=OFFICER K", "", "A K"), ["NO 01 -", "NO 01 -", "OK value=role=TELLER,K"])

    def test_too_long(self):
        """Each is refused as cca itself does, and the next one served."""
        self.begin()
        for size in (9217, 70000, 300000):
            self.assertEqual(asked(self.folder / "TELLER", f"A {'B' * size}", "A K"), ["NO 02 -", "OK value=role=TELLER,K"])
        carried = max((self.folder / "keys" / "carried").read_bytes().splitlines(), key=len)
        self.assertLess(len(carried), 9300)

    def test_half_a_line(self):
        self.begin()
        with connected(self.folder / "TELLER") as it:
            it.sendall(b"A KHALF")
        self.is_serving()
        self.assertNotIn("KHALF", (self.folder / "keys" / "carried").read_text())

    def test_end_of_input(self):
        """Who says all and ends its side gets every reply."""
        self.begin()
        with connected(self.folder / "TELLER") as it:
            it.sendall(b"A K1\nA K2\nA K3\n")
            it.shutdown(socket.SHUT_WR)
            with it.makefile("rb") as lines:
                self.assertEqual(lines.read(), b"".join(b"OK value=role=TELLER,K%d\n" % turn for turn in (1, 2, 3)))


class Log(Fronted):
    """The front's log: a line for each request, and no secret."""

    def test_fields(self):
        self.begin()
        asked(self.folder / "TELLER", "CSNBKYT key=L:PAY.DATA", "CSNBENC key=T:00 text=00", "", "CSNBKYT key=L:PAY stub=ends8")
        self.comes(lambda: sum("verb" in it for it in self.told()) == 4)  # the log is written after the replies
        lines = [it for it in self.told() if "verb" in it]
        wanted = [("CSNBKYT", "PAY.DATA", "00"), ("CSNBENC", "-", "00"), ("-", "-", "01"), ("CSNBKYT", "-", "-")]
        self.assertEqual([(it["verb"], it["label"], it["rule"]) for it in lines], wanted)
        for it in lines:
            self.assertEqual(set(it), {"time", "request", "uid", "role", "verb", "label", "rule", "microseconds"})
            self.assertEqual((it["uid"], it["role"]), (os.getuid(), "TELLER"))
            self.assertRegex(it["time"], r"^\d{4}-\d\d-\d\dT\d\d:\d\d:\d\d\.\d{6}Z$")

    def test_no_secrets(self):
        """A secret in every place of a line, also of one that is no request."""
        secret, token = "0123456789ABCDEF" * 3, "01" * 64
        lines = [f"CSNBMKP action=FIRST part={secret}", f"CSNBENC key=T:{token} text={secret}", f"{secret} A", f"ABCDEF{secret} K"]
        lines += [f"CSNBKRC role=X label=ABCDEF{secret}", f"CSNBKRD label=ABCDEF{secret}  role=X", f"CSNBKYT key=L:ABCDEF{secret} stub=ends8"]
        self.begin()
        for line in lines:
            asked(self.folder / "TELLER", line)
        self.assertEqual(re.findall("(?i)456789abcdef|010101", self.log.read_text()), [])

    def test_stuck_reader(self):
        """A log that nobody reads holds up no request."""
        pipe = dict(stderr=subprocess.PIPE, env={**os.environ, "CCA": self.stands})
        with subprocess.Popen(self.words(), **pipe) as front:
            self.addCleanup(front.kill)
            replies = asked(self.folder / "TELLER", *["A K"] * 1200)
            self.assertEqual(set(replies), {"OK value=role=TELLER,K"})
            front.terminate()
            self.assertEqual(front.wait(30), 0)
            front.stderr.read()


class Known(unittest.TestCase):
    def test_verbs(self):
        """The verbs that the front knows are those of the table."""
        rows = json.loads((TOP / "clients" / "verbs.json").read_text())["rows"]
        self.assertEqual(VERBS, {it["verb"] for it in rows})


def requests(times):
    """Requests that the front sent at these times, by users and with numbers of their own."""
    return [Sent(time, 1000 + place, 7000 + place) for place, time in enumerate(times)]


class Logged(unittest.TestCase):
    """The log of a trail; a script prints what `cca trail` would."""

    def setUp(self):
        folder = tempfile.TemporaryDirectory()
        self.addCleanup(folder.cleanup)
        self.folder = Path(folder.name)
        self.log, self.program = self.folder / "log", self.folder / "cca"
        self.program.write_text("#!/bin/sh\ncat held\n")
        self.program.chmod(0o755)

    def logged(self):
        """The log, as a front that begins has it."""
        program = Program(str(self.program), None)
        self.addCleanup(program.close)
        return TrailLog(str(self.log), str(self.folder), program)

    def hold(self, first, last, label="PAY"):
        """Makes a trail of these records."""
        held = [f"{number} 00 TELLER CSNBKYT {label}" for number in range(first, last)]
        (self.folder / "held").write_text("".join(f"{line}\n" for line in held))

    def fetch(self, first, last, times=(), label="PAY", **options):
        """Fetches a trail of these records, as by a front that has just begun."""
        self.hold(first, last, label)
        return self.logged().fetch(requests(times), **options)

    def lines(self):
        return [json.loads(line) for line in self.log.read_text().splitlines()]

    def numbers(self):
        return [it["number"] for it in self.lines() if "number" in it]


class Told(Logged):
    """What the trail's log tells of a trail."""

    def test_overlap(self):
        self.assertEqual([self.fetch(0, 3, "ABC"), self.fetch(0, 5, "DE"), self.fetch(4, 9, "FGHI")], [[], [], []])
        self.assertEqual(self.numbers(), list(range(9)))
        self.assertEqual(stat.S_IMODE(self.log.stat().st_mode), 0o600)
        self.fetch(4, 9)
        self.assertEqual(self.numbers(), list(range(9)))

    def test_gap(self):
        self.fetch(0, 3, "ABC")
        self.assertEqual(self.fetch(7, 9, "DE"), ["records 3 to 6 are missing"])
        self.assertEqual([it["told"] for it in self.lines() if "told" in it], ["records 3 to 6 are missing"])
        self.assertEqual(self.numbers(), [0, 1, 2, 7, 8])

    def test_hole(self):
        """Zeros in the place of a block of the last lines, which a machine that lost its power leaves: no record is missing in the
        end, and it is told. So too where the log was renamed before, and begins with the number that it follows."""
        for follows, first in ((False, 0), (False, 150), (True, 150)):
            for at in (0.0, 0.3, 0.6):
                with self.subTest(follows=follows, first=first, at=at):
                    self.log.unlink(missing_ok=True)
                    self.fetch(0, first, "A" * first)
                    if follows:
                        self.log.unlink()
                        self.log.write_text(json.dumps({"follows": first - 1}) + "\n")
                    begins = self.log.stat().st_size if self.log.exists() else 0
                    self.fetch(0, 300, "A" * (300 - first))
                    hole = begins + int(at * (self.log.stat().st_size - begins))
                    with open(self.log, "r+b") as log:
                        log.seek(hole)
                        log.write(bytes(512))
                    self.assertRegex(self.fetch(0, 310, "A" * 10)[0], r"the log has lost \d+ records, the first of them number \d+")
                    lines = [json.loads(line) for line in self.log.read_text().splitlines() if "\0" not in line]
                    logged = {it["number"] for it in lines if "number" in it}
                    self.assertEqual(logged, set(range(310)))
                    self.assertEqual(self.fetch(0, 312, "AA"), [])

    def test_long_log(self):
        """Of a log of which the end alone is read no record is taken for lost."""
        self.fetch(0, 3, "ABC")
        self.addCleanup(setattr, trail, "TAIL", trail.TAIL)
        trail.TAIL = self.log.stat().st_size - 20
        self.assertEqual(self.fetch(0, 5, "DE"), [])
        self.assertEqual(self.numbers(), list(range(5)))

    def test_late(self):
        self.assertEqual(self.fetch(5, 9, "ABCD"), ["records 0 to 4 are missing"])

    def test_altered(self):
        """Records that differ from those of the log, where the last one of the log doesn't: all of the trail are logged."""
        self.fetch(0, 3, "ABC")
        self.program.write_text("#!/bin/sh\nsed '2s/PAY/OTHER/' held\n")
        self.assertEqual(self.fetch(0, 5, "ABCDE"), ["record 1 isn't as it was: the trail was altered, or begins anew"])
        self.assertEqual(self.fetch(0, 6, "F"), [])
        self.assertEqual(self.numbers(), [*range(3), *range(6)])

    def test_begins_anew(self):
        """A trail that was put aside, whose place another one takes: it has fewer records first, none or some, and then more."""
        anew = "the trail begins anew: it ended with number"
        for began in (0, 3):
            with self.subTest(began=began):
                self.log.unlink(missing_ok=True)
                self.fetch(0, 5, "ABCDE")
                self.assertEqual(self.fetch(0, began, "FGH"[:began]), [f"{anew} 4"])
                self.assertEqual(self.fetch(0, began), [])
                self.assertEqual(self.fetch(0, 7, "IJKLMNO"[began:]), [])
                self.assertEqual(self.numbers(), [*range(5), *range(7)])
                self.assertEqual(self.fetch(0, 2, "PQ"), [f"{anew} 6"])

    def test_begins_anew_in_a_run(self):
        """The same for one front, whose log is renamed meanwhile."""
        self.hold(0, 5)
        log = self.logged()
        self.assertEqual(log.fetch(requests("ABCDE")), [])
        self.log.rename(self.folder / "log.1")
        self.hold(0, 0)
        self.assertEqual(log.fetch([]), ["the trail begins anew: it ended with number 4"])
        self.hold(0, 7)
        self.assertEqual(log.fetch(requests("ABCDEFG")), [])
        self.assertEqual(self.numbers(), [*range(7)])

    def test_others(self):
        """Records of requests that this front didn't send: they have no times, and that is told."""
        others = "; others sent requests, or a front ended before it fetched the records"
        wanted = f"0 requests were served, and 3 new records came: their times aren't known{others}"
        self.assertEqual(self.fetch(0, 3), [wanted])
        wanted = f"1 requests were served, and 2 new records came: their times aren't known{others}"
        self.assertEqual(self.fetch(0, 5, "A"), [wanted])
        self.assertEqual([it["time"] for it in self.lines() if "number" in it], [None] * 5)

    def test_times(self):
        self.fetch(0, 2, ["A", "B"])
        self.assertEqual([it["time"] for it in self.lines()], ["A", "B"])
        self.assertEqual(self.fetch(0, 4, ["C", "D", "E"], doubts=1), [])
        self.assertRegex(" ".join(self.fetch(0, 5, ["F", "G"])), "2 requests were served, and 1 new records came")
        self.assertEqual([it["time"] for it in self.lines() if "number" in it], ["A", "B", "C", "D", None])

    def test_renamed(self):
        """A log that is renamed is followed by one that says so."""
        self.fetch(0, 3)
        log = self.logged()
        self.log.rename(self.folder / "log.1")
        self.hold(0, 4)
        self.assertEqual(log.fetch(requests("A")), [])
        before = (self.folder / "log.1").read_bytes().splitlines()[-1]
        self.assertEqual(self.lines()[0], {"follows": 2, "chain": hashlib.sha256(before).hexdigest()})
        self.assertEqual(self.numbers(), [3])

    def test_half_a_line(self):
        """Behind half a line of a machine that stopped the record is written whole."""
        self.fetch(0, 3, "ABC")
        self.log.write_text(self.log.read_text()[:-20])
        self.assertEqual(self.fetch(0, 4, "AB"), [])
        whole = [line for line in self.log.read_text().splitlines() if line.endswith("}")]
        self.assertEqual([json.loads(it)["number"] for it in whole], [0, 1, 2, 3])

    def test_synced(self):
        """The log is synced behind its last write."""
        synced, real = [], os.fsync

        def noted(file):
            synced.append((os.fstat(file).st_ino, os.fstat(file).st_size))
            real(file)

        os.fsync = noted
        self.addCleanup(setattr, os, "fsync", real)
        self.fetch(0, 3)
        self.assertEqual(synced[-1:], [(self.log.stat().st_ino, self.log.stat().st_size)])

    def test_no_room(self):
        self.log.symlink_to("/dev/full")
        with self.assertRaises(TrailLost):
            self.fetch(0, 3)

    def test_refused(self):
        self.program.write_text("#!/bin/sh\necho 'cca: trail cell 3 is damaged' >&2\nexit 14\n")
        with self.assertRaisesRegex(TrailLost, "status 14: cca: trail cell 3 is damaged"):
            self.fetch(0, 3)


class Trail(Fronted):
    """The trail that the front fetches."""

    def setUp(self):
        super().setUp()
        self.kept = self.folder / "trail.jsonl"

    def records(self):
        return [it for it in map(json.loads, self.kept.read_text().splitlines()) if "number" in it]

    def beside(self, count):
        """So many requests beside the front."""
        words = [self.stands, "audit"]
        subprocess.run(words, cwd=self.folder / "keys", input=b"A\n" * count, stdout=subprocess.DEVNULL, check=True)

    def ask_many(self, count, role):
        """So many requests over one connection, written while replies are read."""
        with connected(self.folder / role) as it, it.makefile("rb") as lines:
            writing = threading.Thread(target=it.sendall, args=(b"CSNBKTP K\n" * count,))
            writing.start()
            came = {lines.readline() for _ in range(count)}
            writing.join()
        return came

    def test_fetched_in_time(self):
        """The trail is fetched after so many requests, here 50 in place of half of what it holds: each has its record, with its time."""
        self.assertLess(FETCH_AFTER, HELD)
        it = self.begin("--audit", str(self.kept), code="import sys; from cca_service import front, service; service.FETCH_AFTER = 50; sys.exit(front.main())")
        with ThreadPoolExecutor(2) as clients:
            came = list(clients.map(self.ask_many, (120, 90), ("TELLER", "OFFICER")))
        self.assertEqual([len(replies) for replies in came], [1, 1])
        self.ends_well(it)
        records = self.records()
        self.assertEqual([it["number"] for it in records], list(range(211)))
        times = [it["time"] for it in records]
        self.assertNotIn(None, times)
        self.assertEqual(times, sorted(times))
        fetches = [it["fetched"] for it in records]
        self.assertLessEqual(max(map(fetches.count, set(fetches))), 50)
        self.assertEqual([it for it in self.told() if it.get("event") == "trail"], [])

    def test_gap(self):
        """Requests beside the front are seen, and that more of them came than a trail keeps is told."""
        self.ends_well(self.begin("--audit", str(self.kept)))
        self.beside(5000)
        self.ends_well(self.begin("--audit", str(self.kept)))
        came = "0 requests were served, and 4096 new records came: their times aren't known"
        self.assertEqual([it["text"].partition(";")[0] for it in self.told() if it.get("event") == "trail"], ["records 1 to 904 are missing", came])
        self.assertEqual([it["number"] for it in self.records()], [0, *range(905, 5002)])

    def test_killed(self):
        """Programs that are killed: what was answered has its record and its time."""
        it = self.begin("--audit", str(self.kept))
        for _ in range(3):
            asked(self.folder / "TELLER", "A", "B", "C")
            for child in children_of(it.pid):
                os.kill(child, signal.SIGKILL)
            time.sleep(0.1)
            self.assertIn(asked(self.folder / "TELLER", "D"), (["NO 01 -"], [""]))
        self.ends_well(it)
        records = self.records()
        self.assertEqual([it["number"] for it in records], list(range(len(records))))
        self.assertNotIn(None, [it["time"] for it in records])
        self.assertGreaterEqual(len(records), 10)

    def test_put_aside(self):
        """The trail is put aside, as after some exit statuses: a front that begins then logs all records of the new one."""
        for requests in (4, 6):
            front = self.begin("--audit", str(self.kept))
            asked(self.folder / "TELLER", *["A"] * requests)
            self.ends_well(front)
            for it in ("records", "cca.trail"):
                (self.folder / "keys" / it).unlink(missing_ok=True)
        self.assertEqual([it["text"] for it in self.told() if it.get("event") == "trail"], ["the trail begins anew: it ended with number 4"])
        self.assertEqual([it["number"] for it in self.records()], [*range(5), *range(7)])

    def in_use(self, which):
        """From now on these starts of cca end as where another program has the files: a condition on $n, the number of the start."""
        script, stands = self.folder / "in-use", self.stands
        number = f"echo >> '{self.folder}'/$1; n=$(wc -l < '{self.folder}'/$1)"
        script.write_text(f"#!/bin/sh\n{number}; test {which} && exit 11\nexec '{stands}' \"$@\"\n")
        script.chmod(0o755)
        self.stands = str(script)

    def starts(self, word):
        """How often `cca audit` or `cca trail` was started."""
        return len((self.folder / word).read_text())

    def test_files_in_use(self):
        """Another program has the files for a while: what is started in vain is started again."""
        self.in_use("$n -le 3")
        front = self.begin("--audit", str(self.kept))
        self.assertEqual(asked(self.folder / "TELLER", "A"), ["NO 01 -"])
        self.ends_well(front)
        self.assertEqual((self.starts("audit"), self.starts("trail")), (4, 5))
        self.assertEqual([it["number"] for it in self.records()], [0, 1])

    def test_files_in_use_at_the_end(self):
        """The same just when the front has fetched the trail, and ends then: no request was lost."""
        self.in_use("$1 = audit -a $n -gt 1")
        front = self.begin("--audit", str(self.kept), code=FETCHES_AT_ONCE)
        self.comes(lambda: self.starts("audit") > 1)
        self.ends_well(front)

    def test_files_in_use_for_long(self):
        """The same for longer than the front tries."""
        self.in_use("$1 = run")
        self.refuses("status 11", code="import sys; from cca import client; from cca_service import front; client.IN_USE_SECONDS = 0.3; sys.exit(front.main())")

    def test_front_killed(self):
        """What a front that is killed hasn't fetched the next one does, without the times, and tells so."""
        front = self.begin("--audit", str(self.kept))
        asked(self.folder / "TELLER", "A", "A")
        front.kill()
        front.wait()
        self.ends_well(self.begin("--audit", str(self.kept)))
        self.assertEqual([it["time"] is None for it in self.records()], [True, True, True, False])
        texts = [it["text"] for it in self.told() if it.get("event") == "trail"]
        self.assertRegex(" ".join(texts), "^0 requests were served, and 3 new records came: .* a front ended before it fetched the records$")

    def test_log_without_room(self):
        """Where records can't be kept, the front doesn't begin."""
        self.beside(1)
        self.kept.symlink_to("/dev/full")
        words, environment = self.words("--audit", str(self.kept)), {**os.environ, "CCA": self.stands}
        it = subprocess.run(words, env=environment, stderr=subprocess.PIPE, text=True, timeout=120)
        self.assertEqual((it.returncode, "the log of the trail" in it.stderr), (1, True), it.stderr)


class TrailOfTheProgram(Trail):
    """The same over the program."""

    def setUp(self):
        super().setUp()
        self.stands = self.program.path

    def test_files_are_held(self):
        """A front that has fetched the trail, and that nobody asks, lets no other program have the files."""
        front = self.begin("--audit", str(self.kept), code=FETCHES_AT_ONCE)
        self.comes(lambda: self.kept.exists() and self.records())
        self.comes(lambda: any("/keys/cca.trail" in " ".join(files_of(child)) for child in children_of(front.pid)))
        self.ends(self.cca("run", folder=self.folder / "keys"), 11, err="cca: a file could not be opened")
        self.assertEqual(subprocess.run(["flock", "-n", self.folder / "keys" / "cca.module", "true"]).returncode, 1)
        self.assertEqual(asked(self.folder / "TELLER", ""), ["NO 01 -"])
        self.ends_well(front)


def files_of(process):
    """The files that a process has opened."""
    for it in Path(f"/proc/{process}/fd").glob("*"):
        try:
            yield os.readlink(it)
        except FileNotFoundError:
            pass


def children_of(process):
    """The processes that a process has started."""
    for it in Path("/proc").glob("[0-9]*/stat"):
        try:
            if it.read_text().rpartition(")")[2].split()[1] == str(process):
                yield int(it.parent.name)
        except (FileNotFoundError, ProcessLookupError):
            pass


class Planted(unittest.TestCase):
    """Each fault of EDITS is found by its case."""

    def test_edits(self):
        each_is_found(self, "front", EDITS)


if __name__ == "__main__":
    unittest.main()
