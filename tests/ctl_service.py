"""`ccactl` beside a running front: its state and its metrics, the check of a canary, backups and repairs while clients are
served, and tokens that are brought over; and what stands in the place of a front and answers nonsense. Check values are
OpenSSL's."""
import json
import re
import shutil
import socket
import threading
import time
import unittest

from tests.edits import Edit, each_is_found
from tests.formats import BODIES, CELL, internals, made, pattern, types, value
from tests.harness import Fault
from tests.keys import QUICK, ceremony, stored
from tests.served import Served, answering

FAULTS = [Fault('"$CCA" "$@" | sed -u "s/value=./value=0/"', case="Health.test_states", tells="another-key")]
CTL = "service/cca_service/ctl/"
EDITS = [
    Edit(CTL + "status.py", 'if front.inner("program").truth("is_replaced"):', "if False:", "Status.test_replaced_program"),
    Edit(CTL + "status.py", "if self.contents.is_empty:", "if False:", "Status.test_empty_module"),
    Edit(CTL + "status.py", "        if self.why_no_front:\n            return Exit.UNREACHED\n", "", "Status.test_no_front"),
    Edit(CTL + "metrics.py", "sum(counts[: place + 1])", "counts[place]", "Status.test_metrics"),
    Edit(CTL + "asking.py", "if len(self.come) > LONGEST:", "if False:", "Nonsense.test_line_without_an_end"),
    Edit(CTL + "asking.py", "if not isinstance(found, dict):", "if False:", "Nonsense.test_answers"),
    Edit(CTL + "place.py", "            if hold.release():\n", "            hold.release()\n            if True:\n", "Nonsense.test_holds_that_end"),
    Edit(CTL + "place.py", "            check_folder(place, hold.folder)\n", "", "Running.test_another_folder"),
    Edit(CTL + "health.py", "if given.kcv and digits != given.kcv.lower():", "if False:", "Health.test_states"),
    Edit(CTL + "health.py", "signal.setitimer(signal.ITIMER_REAL, seconds)", "pass", "Health.test_no_answer"),
    Edit(CTL + "health.py", "OLD if value.used_old_key else WELL", "WELL", "Health.test_states"),
    Edit(CTL + "repair.py", "if files.is_running and any(", "if False and any(", "Running.test_repair_of_another_label"),
    Edit(CTL + "catch_up.py", "if refused.rule <= OF_THE_REQUEST:", "if False:", "CatchUp.test_role_without_the_point"),
    Edit(CTL + "catch_up.py", '"changed" if token.used_old_key else "current"', '"changed"', "CatchUp.test_lines"),
    Edit(CTL + "catch_up.py", "        os.unlink(beside)\n", "", "CatchUp.test_front_that_leaves"),
]  # fmt: skip
MASTER, NEXT = made("master", 24), made("next master", 24)
MAC, CIPHER = types()["MAC"][16], types()["CIPHER"][8]
CANARY, OTHER = made("canary", 16), made("other", 8)
KEYS = {"CANARY": (CANARY, MAC), "OTHER": (OTHER, CIPHER), "EMPTY": None}
KCV, MKVP = value(CANARY)[:6], pattern(MASTER).hex()
METRIC = re.compile(r'([a-z_]+)(?:\{((?:[a-z]+="[^"\\]*",?)+)\})? (-?[0-9.e+-]+)')


class Keyed(Served):
    def setUp(self):
        super().setUp()
        self.replies([*ceremony(MASTER), *stored(MASTER, KEYS)], self.keys, calls=QUICK)
        self.control, self.scratch = self.folder / "control", self.folder / "scratch"
        self.scratch.mkdir()

    def begin(self, *doors, options=()):
        return self.front(*(doors or ("DEFAULT",)), options=("--control", self.control, *options))

    def at(self, command, *words):
        return self.ctl(command, *words, "--folder", self.keys, "--control", self.control)

    def asked(self, *lines):
        """The replies to some lines, by the socket of DEFAULT."""
        with socket.socket(socket.AF_UNIX) as it:
            it.connect(str(self.path("DEFAULT")))
            replies = it.makefile("rb")
            for line in lines:
                it.sendall(f"{line}\n".encode())
                yield replies.readline().decode().rstrip("\n")

    def damage(self, cell, place=70):
        """A byte of the active copy of a cell becomes another one, while cca has the store."""
        with open(self.keys / "cca.store", "r+b") as file:
            data = file.read()
            at = CELL * cell + BODIES[data[CELL * cell] % 2] + place
            file.seek(at)
            file.write(bytes([data[at] ^ 0xFF]))


class Status(Keyed):
    def test_running(self):
        """What the front says of itself, and what module and store hold."""
        self.begin("DEFAULT", "TELLER", options=("--audit", self.folder / "trail.log"))
        self.assertEqual(list(self.asked("CSNBKYT key=L:CANARY", "CSNBKYT key=L:NONE", "A"))[0], f"OK value={value(CANARY)}")
        status, out, err = self.at("status")
        self.assertEqual((status, err), (0, ""))
        for line in (
            r"front: version [0-9.]+, process \d+, since \S+Z",
            f"folder: {self.keys}",
            rf"socket {self.path('TELLER')}: role TELLER, group -, 0 connections of \d+, 0 lines wait",
            "requests: 3, refused 2, 1 by rule 01, 1 by rule 07, without a reply 0",
            f"current master key: full, pattern {MKVP}",
            "labels: 3 of 1024, 2 current, 0 staged, 0 old, 1 null",
            "roles: 1 of 32",
        ):
            self.assertRegex(out, f"(?m)^{line}$")
        found = json.loads(self.at("status", "--json")[1])
        self.assertEqual((found["files"]["labels"]["states"], found["front"]["is_held"]), ({"current": 2, "null": 1}, False))
        self.assertEqual((found["look"], found["see_to"]), ([], []))

    def test_metrics(self):
        """Each line is one of the text format, the buckets of the histogram rise to its count, and the file is there at
        once."""
        self.begin()
        list(self.asked(*["CSNBKYT key=L:CANARY"] * 9, "A"))
        file = self.folder / "cca.prom"
        file.write_text("before")
        self.assertEqual(self.at("status", "--metrics", file), (0, "", ""))
        values = {}
        for line in file.read_text().splitlines():
            if not line.startswith("#"):
                it = METRIC.fullmatch(line)
                self.assertTrue(it, line)
                values[it[1], it[2]] = float(it[3])
        self.assertEqual(values["cca_up", None], 1)
        self.assertEqual((values["cca_requests_total", None], values["cca_requests_by_rule_total", 'rule="01"']), (10, 1))
        self.assertEqual((values["cca_labels", None], values["cca_labels_by_state", 'state="current"']), (3, 2))
        self.assertEqual(values["cca_master_key_register", f'register="current",state="full",pattern="{MKVP}"'], 1)
        buckets = [count for (name, _), count in values.items() if name == "cca_reply_seconds_bucket"]
        self.assertEqual((buckets, buckets[-1]), (sorted(buckets), values["cca_reply_seconds_count", None]))
        self.assertEqual((values["cca_reply_seconds_count", None], f"{file.stat().st_mode & 0o777:o}"), (10, "644"))
        self.assertEqual([it.name for it in self.folder.glob(".cca.prom*")], [])

    def test_replaced_program(self):
        """The program's file is another one than the one that runs."""
        program = self.folder / "program"
        shutil.copy2(self.program.path, program)
        self.environment["CCA"] = str(program)
        self.begin()
        self.assertEqual(self.at("status")[0], 0)
        program.unlink()
        program.write_text("#!/bin/sh\n")
        program.chmod(0o755)
        status, out, _ = self.at("status")
        self.assertEqual((status, "see to: the file of the program is another one" in out), (1, True))

    def test_empty_module(self):
        for name in ("cca.module", "cca.store"):
            (self.keys / name).unlink()
        self.begin(options=("--new",))
        status, out, _ = self.at("status")
        self.assertEqual((status, "look: there is no current master key" in out), (3, True))

    def test_damaged_cell(self):
        self.begin()
        self.damage(1)
        status, out, _ = self.at("status")
        self.assertEqual((status, "look: cca.store: cell 1 is damaged: its token breaks rule 10" in out), (3, True))

    def test_no_front(self):
        """The files are read, and that the front isn't there is told."""
        status, out, err = self.at("status")
        self.assertEqual((status, "labels: 3 of 1024" in out), (4, True))
        self.assertIn("the front can't be reached", err)
        self.assertEqual(self.ctl("status", "--folder", self.keys, "--files-only")[0], 0)
        self.assertEqual(self.ctl("status", "--folder", self.keys)[0], 2)
        file = self.folder / "cca.prom"
        self.assertEqual(self.at("status", "--metrics", file)[0], 4)
        self.assertIn("cca_up 0\n", file.read_text())


class Health(Keyed):
    def state(self, label="CANARY", *words, role="DEFAULT"):
        status, out, err = self.ctl("health", label, "--socket", self.path(role), *words)
        self.assertEqual(err, "")
        return status, out.partition(":")[0]

    def test_states(self):
        """Each state has its word and its exit status."""
        self.ask(["CSUAACI role=DEFAULT action=DEFINE name=TELLER points=00000001"], self.keys)
        self.begin("DEFAULT", "TELLER", "NOBODY")
        for label, words, role, wanted in (
            ("CANARY", ("--kcv", KCV.upper(), "--mkvp", MKVP), "DEFAULT", (0, "well")),
            ("CANARY", ("--kcv", "000000"), "DEFAULT", (3, "another-key")),
            ("CANARY", ("--mkvp", pattern(NEXT).hex()), "DEFAULT", (3, "another-master-key")),
            ("NONE", (), "DEFAULT", (3, "no-label")),
            ("EMPTY", (), "DEFAULT", (3, "no-key")),
            ("CANARY", (), "TELLER", (1, "no-point")),
            ("CANARY", (), "NOBODY", (3, "no-role")),
            ("a", (), "DEFAULT", (1, "refused")),
        ):
            with self.subTest(wanted):
                self.assertEqual(self.state(label, *words, role=role), wanted)
        for line, _ in ceremony(NEXT):
            list(self.asked(line.replace(" role=DEFAULT", "")))
        self.assertEqual(self.state(), (1, "old-master-key"))
        found = json.loads(self.ctl("health", "CANARY", "--socket", self.path("DEFAULT"), "--json")[1])
        self.assertEqual(found["kcv"], KCV)
        for words in (("--kcv", "12345"), ("--mkvp", "x"), ("--timeout", "0")):
            self.assertEqual(self.ctl("health", "CANARY", "--socket", self.path("DEFAULT"), *words)[0], 2)

    def test_empty_module(self):
        """No master key, which a socket of DEFAULT shows; at another one's the role is missing."""
        for name in ("cca.module", "cca.store"):
            (self.keys / name).unlink()
        self.begin("DEFAULT", "TELLER", options=("--new",))
        self.assertEqual(self.state(), (3, "empty-module"))
        self.assertEqual(self.state(role="TELLER"), (3, "no-role"))

    def test_no_answer(self):
        """A front that isn't there, one that doesn't answer, and one that answers slowly and without an end: told in time."""
        begun = time.monotonic()
        self.assertEqual(self.state("CANARY", "--timeout", "0.5"), (4, "no-front"))
        for answer in (lambda _: b"", lambda _: time.sleep(20) or b"x", lambda _: b"x" * 100_000, lambda _: b"NO 99 \n", lambda _: b"\xff\n"):
            path, _ = answering(self, answer)
            status, out, _ = self.ctl("health", "CANARY", "--socket", path, "--timeout", "1.5")
            self.assertEqual((status, out.partition(":")[0] in ("no-reply", "not-a-front")), (4, True), out)
        self.assertLess(time.monotonic() - begun, 30)


class Running(Keyed):
    def test_backup_under_load(self):
        """Copies while a client writes all the time: each is whole, and no request fails."""
        self.begin()
        replies, has_ended = [], threading.Event()

        def write():
            with socket.socket(socket.AF_UNIX) as it:
                it.connect(str(self.path("DEFAULT")))
                answers = it.makefile("rb")
                while not has_ended.is_set():
                    it.sendall(b"CSNBKGN form=OP length=16 type1=MAC to=L:OTHER\n")
                    replies.append(answers.readline())

        writer = threading.Thread(target=write)
        writer.start()
        try:
            for number in range(5):
                target = self.folder / f"b{number}"
                came = self.at("backup", target, "--scratch", self.scratch)
                self.assertEqual(came[0], 0, came[2])
                self.assertEqual(json.loads((target / "backup.json").read_text())["values"]["CANARY"], KCV)
                self.assertEqual(self.ctl("verify", target, "--folder", self.keys, "--scratch", self.scratch)[0], 0)
        finally:
            has_ended.set()
            writer.join()
        self.assertEqual(set(replies), {b"OK stored=OTHER\n"})
        self.assertEqual(list(self.scratch.iterdir()), [])

    def test_backup_compared_with_the_service(self):
        """The check values of the copy and of the service are the same; a socket that may not test keys is told."""
        self.ask(["CSUAACI role=DEFAULT action=DEFINE name=TELLER points=00000001"], self.keys)
        self.begin("DEFAULT", "TELLER")
        came = self.at("backup", self.folder / "b", "--store", "--socket", self.path("DEFAULT"))
        self.ends_so(came, 0, [f"cca.store copied: 2 keys with their check values, current master key {MKVP}"])
        self.ends_so(self.at("backup", self.folder / "c", "--socket", self.path("TELLER")), 1, tells="no check value: rule 04")
        self.assertFalse((self.folder / "c").exists())

    def test_restore_is_refused(self):
        self.assertEqual(self.at("backup", self.folder / "b")[0], 0)
        self.begin()
        self.ends_so(self.at("restore", self.folder / "b"), 1, tells="a front has .*: stop it first")

    def test_another_folder(self):
        """The front at the own socket has another folder than the one that is named."""
        self.begin()
        other = self.folder / "other"
        other.mkdir()
        self.ends_so(self.ctl("backup", self.folder / "b", "--folder", other, "--control", self.control), 2, tells="and not")

    def test_repair(self):
        """A cell is repaired while the front runs: clients wait for it, and the label's key is as it was."""
        self.assertEqual(self.at("backup", self.folder / "b", "--store")[0], 0)
        self.begin()
        self.damage(0)
        self.assertEqual(self.at("repair-cell", 0, "--from", self.folder / "b")[0], 1)
        self.assertEqual(self.at("repair-cell", 0, "--from", self.folder / "b", "--yes")[0], 0)
        self.assertEqual(list(self.asked("CSNBKYT key=L:CANARY", "CSNBKYT key=L:OTHER")), [f"OK value={value(it)}" for it in (CANARY, OTHER)])

    def test_repair_of_another_label(self):
        """The running cca may know another label in this cell: the front has to be stopped first."""
        self.assertEqual(self.at("backup", self.folder / "b", "--store")[0], 0)
        self.begin()
        list(self.asked("CSNBKRD label=OTHER", "CSNBKRC label=ANOTHER"))
        self.damage(1, 0)
        before = (self.keys / "cca.store").read_bytes()
        self.ends_so(self.at("repair-cell", 1, "--from", self.folder / "b", "--yes"), 1, tells="stop the front first")
        self.assertEqual((self.keys / "cca.store").read_bytes(), before)


class Nonsense(Keyed):
    """What stands at the own socket's path and isn't a front."""

    def test_answers(self):
        for answer in (
            b"", b"\n", b"{}\n", b"[]\n", b"null\n", b"\xff\xfe\n", b"[" * 60_000 + b"\n", b"x" * 200_000, b'{"ok": 1}\n', b'{"ok": true}\n',
            b'{"ok": false}\n', b'{"ok": true, "status": []}\n', b'{"ok": true, "status": {"program": 7}}\n', b"HTTP/1.1 400 Bad Request\n",
        ):  # fmt: skip
            with self.subTest(answer[:50]):
                self.control, _ = answering(self, lambda _, answer=answer: answer)
                status, _, err = self.at("status")
                self.assertEqual((status, err.count("\n"), "Traceback" in err), (4, 1, False), err)

    def test_line_without_an_end(self):
        """It isn't waited for."""
        self.control, _ = answering(self, lambda _: b"x" * 200_000)
        self.assertIn("is no front", self.at("status")[2])

    def test_holds_that_end(self):
        """A hold that ended by time is asked for again, and where it ends each time nothing is copied."""
        for whole, wanted in ((["false", "true"], 0), (["false"] * 3, 1)):
            answers = iter(whole)

            def answer(line):
                if b"hold" in line:
                    return json.dumps({"ok": True, "held": True, "folder": str(self.keys), "files": []}).encode() + b"\n"
                return b'{"ok": true, "held": false, "whole": %s}\n' % next(answers).encode()

            self.control, came = answering(self, answer)
            target = self.folder / f"b{wanted}"
            self.assertEqual((self.at("backup", target)[0], len(came), target.exists()), (wanted, 2 * len(whole), not wanted))

    def test_hold_of_another(self):
        """It is waited for."""
        answers = iter([b'{"ok": false, "why": "held by another"}\n'] * 2 + [b'{"ok": true, "folder": "%s"}\n' % str(self.keys).encode()])
        self.control, came = answering(self, lambda line: b'{"ok": true, "whole": true}\n' if b"release" in line else next(answers))
        self.assertEqual((self.at("backup", self.folder / "b")[0], len(came)), (0, 4))


class CatchUp(Keyed):
    def setUp(self):
        super().setUp()
        self.file, self.new = self.folder / "tokens", self.folder / "new"
        self.replies(ceremony(NEXT), self.keys)
        self.old = internals(MASTER, [(CANARY, MAC), (OTHER, CIPHER)])
        self.current = internals(NEXT, [(CANARY, MAC), (OTHER, CIPHER)])
        self.gone = internals(made("gone", 24), [(OTHER, CIPHER)])[0]

    def catch_up(self, *words, socket=None):
        return self.ctl("catch-up", self.file, self.new, "--socket", socket or self.path("DEFAULT"), *words)

    def test_lines(self):
        """Old tokens are those that OpenSSL makes under the current master key; refused lines stay as they are. No token is
        told."""
        self.begin()
        lines = [self.old[0], self.current[1], "", self.gone, self.old[1].upper(), "zz", self.old[0][:-1]]
        self.file.write_text("\n".join(lines))
        status, out, err = self.catch_up()
        self.assertEqual(self.new.read_text().splitlines(), [self.current[0], self.current[1], "", self.gone, self.current[1], "zz", lines[-1]])
        self.assertEqual((status, f"{self.new.stat().st_mode & 0o777:o}"), (1, "600"))
        self.assertEqual(out.splitlines(), ["line 1: was old, and is changed", "line 2: is current", "line 5: was old, and is changed",
                                            "2 changed, 1 current already, 3 refused"])  # fmt: skip
        self.assertEqual([it.partition(": refused")[0] for it in err.splitlines()], ["line 4", "line 6", "line 7"])
        for token in lines:
            self.assertFalse(token and token[:16] in out + err and len(token) > 16)
        self.assertEqual(self.file.read_text(), "\n".join(lines))
        self.ends_so(self.catch_up(), 2, tells="is there already")

    def test_role_without_the_point(self):
        """Nothing is written where each token would be refused."""
        self.ask(["CSUAACI role=DEFAULT action=DEFINE name=TELLER points=00000001"], self.keys)
        self.begin("TELLER")
        self.file.write_text(f"{self.old[0]}\n")
        self.ends_so(self.catch_up(socket=self.path("TELLER")), 1, tells="rule 04")
        self.assertEqual(sorted(it.name for it in self.folder.glob("*new*")), [])

    def test_front_that_leaves(self):
        """The front ends in the midst: no file is there, and nothing is left; then the same command does it."""
        self.file.write_text(f"{self.old[0]}\n" * 5)
        answers = iter([f"OK token={self.current[0]} warn=old\n".encode()] * 3)
        path, _ = answering(self, lambda _: next(answers, b""))
        self.assertEqual(self.catch_up(socket=path)[0], 4)
        self.assertEqual(sorted(it.name for it in self.folder.glob("*new*")), [])
        self.begin()
        self.assertEqual((self.catch_up()[0], self.new.read_text()), (0, f"{self.current[0]}\n" * 5))


class Edits(unittest.TestCase):
    def test_each_is_found(self):
        each_is_found(self, "ctl_service", EDITS)
