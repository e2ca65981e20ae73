"""A year of a service in a few minutes: the package is installed in a root, and its service runs as its unit has it. Applications ask
without a pause through a change of the master key, while backups are taken; a cell is damaged and repaired, a key is exchanged, a
module is empty, the program is replaced, and the audit log is falsified. What is right comes from OpenSSL.
"""
import json
import os
import signal
import subprocess
import unittest

from tests.edits import Edit, each_is_found
from tests.formats import chained, code, joined, made, pattern, value
from tests.harness import limited
from tests.serviced import PACKAGE, Serviced, package

FAULTS = []  # its faults are changes of the service
CTL = "service/cca_service/ctl"
EDITS = [
    Edit(f"{CTL}/catch_up.py", "token.hex().encode()", "text.encode()", "Year.test_change_of_the_master_key"),
    Edit(f"{CTL}/repair.py", "bytes([1 - active])", "bytes([active])", "Year.test_damaged_cell"),
    Edit(f"{CTL}/inventory.py", "found, count = list(differences(one, other))", "found, count = list(differences(one, one))", "Year.test_drift"),
    Edit(f"{CTL}/health.py", 'State("no-role", Exit.LOOK', 'State("no-role", Exit.WELL', "Year.test_empty_module"),
    Edit("program.py", "        return self.other[1]", "        return False", "Year.test_replaced_program"),
    Edit(f"{CTL}/trail_log.py", "elif self.sum is not None and chain != self.sum:", "elif False:", "Year.test_audit_log"),
]

# The keys of examples/practice, and new parts of a master key.
DATA = bytes.fromhex("133457799bbcdff1")
CODES = joined(bytes.fromhex("112233445566778899aabbccddeeff00"), bytes.fromhex("1032547698badcfeefcdab8967452301"))
CANARY = joined(bytes.fromhex("00112233445566778899aabbccddeeff"), bytes.fromhex("0123456789abcdeffedcba9876543210"))
MASTER = joined(
    bytes.fromhex("0123456789abcdeffedcba9876543210a1b2c3d4e5f60718"), bytes.fromhex("8f7e6d5c4b3a29180716253443526170f0e1d2c3b4a59687")
)
PARTS = [made(f"part {number}", 24) for number in range(3)]
OTHERS = 60  # labels that the officer makes besides
START, TEXT = bytes(range(8)), made("text", 32)
LONG = TEXT * 300  # in segments


class Year(Serviced):
    def setUp(self):
        super().setUp()
        limited(self, 600)

    # ---- applications, and what is right

    def deciphering(self, front):
        enciphered = bytes(front.encipher(self.cca.Label("PAY.DATA"), LONG, START))
        return (enciphered, bytes(front.decipher(self.cca.Label("PAY.DATA"), enciphered, START))), self.right["text"]

    def coding(self, front):
        label = self.cca.Label("PAY.MAC")
        came = bytes(front.mac_generate(label, TEXT, "X9.19OPT", 8))
        return (came, bool(front.mac_verify(label, TEXT, came, "X9.19OPT"))), self.right["code"]

    def checking(self, front):
        return bytes(front.key_test(self.cca.Label("CANARY"))).hex(), value(CANARY)

    def with_token(self, front):
        return bytes(front.key_test(self.token)).hex(), value(DATA)

    def applications(self):
        """Four applications at work."""
        self.right = {"text": (chained(DATA, START, LONG), LONG), "code": (code(CODES, TEXT)[1], True)}
        works = (self.deciphering, self.coding, self.checking, self.with_token)
        begun = [self.application("TELLER", work) for work in works]
        return begun

    def all_well(self, applications, answers=20):
        """Each application has asked meanwhile, and each answer was right."""
        for it in applications:
            it.stop()
            self.assertEqual(it.failures[:3], [])
            self.assertGreater(it.answers, answers)

    def kept_tokens(self):
        """A file with tokens that an application keeps, one of which it uses."""
        digits = [self.asked("OFFICER", f"CSNBKRR label={it}")[0].removeprefix("OK token=") for it in ("PAY.DATA", "PAY.MAC")]
        self.token = self.cca.Token(bytes.fromhex(digits[0]))
        return self.write("tokens", "".join(f"{it}\n" for it in digits))

    # ---- what people do

    def make_keys(self):
        names = [f"KEY.{number}" for number in range(OTHERS)]
        requests = [it for name in names for it in (f"CSNBKRC label={name}", f"CSNBKGN form=OP length=16 type1=DATAC to=L:{name}")]
        self.assertEqual({it[:2] for it in self.asked("OFFICER", *requests)}, {"OK"})

    def enter(self, step, role, part):
        """A custodian enters a part."""
        self.ctl("ceremony", step, "--socket", role, "--from-pipe", given=f"{part.hex()}\n{part.hex()}\n")

    def inventory(self, name):
        """The list of all keys, in a file."""
        return self.write(name, self.ctl("inventory", "--socket", "AUDITOR"))

    # ---- the year

    def test_change_of_the_master_key(self):
        """No application notices more than a wait, and a backup is taken and verified meanwhile."""
        self.start()
        self.make_keys()
        tokens, before = self.kept_tokens(), self.inventory("before")
        applications = self.applications()
        for step, role, part in zip(("FIRST", "MIDDLE", "LAST"), ("CUSTOD1", "CUSTOD2", "CUSTOD3"), PARTS):
            self.enter(step, role, part)
        wanted = pattern(joined(*PARTS)).hex()
        self.ctl("ceremony", "CHECK", "--socket", "OFFICER", "--new", wanted, "--current", pattern(MASTER).hex())
        self.ctl("backup", "backup", "--socket", "AUDITOR")
        self.ctl("verify", "backup")
        self.ctl("ceremony", "AHEAD", "--socket", "OFFICER")
        self.ctl("ceremony", "SET", "--socket", "SECADMIN")
        self.ctl("ceremony", "REENCIPHER", "--socket", "OFFICER")
        self.ctl("ceremony", "CHECK", "--socket", "OFFICER", "--current", wanted)
        self.ctl("catch-up", tokens, "new-tokens", "--socket", "TELLER")
        self.ctl("compare", before, self.inventory("after"))
        self.all_well(applications)
        self.stop()
        self.caught_up(tokens)
        self.no_secrets(*PARTS)

    def caught_up(self, tokens):
        """The tokens that were kept are under the new master key, by their patterns."""
        lines = (self.work / "new-tokens").read_text().splitlines()
        self.assertEqual([it[16:32] for it in lines], [pattern(joined(*PARTS)).hex()] * 2)

    def no_secrets(self, *parts):
        """No part stands in a log."""
        logs = [self.log, *self.logs.iterdir()]
        for it in logs:
            self.assertEqual([part for part in parts if part.hex() in it.read_text().lower()], [])

    def test_damaged_cell(self):
        """The service ends rather than to serve a damaged cell; that cell comes back out of a backup, and the others stay."""
        self.start()
        self.ctl("backup", "--store", "daily")
        self.assertEqual(self.asked("OFFICER", "CSNBKRC label=TODAY"), ["OK"])
        self.stop()
        self.damage("cca.store", 1)
        self.assertEqual(self.begin().wait(60), 3)
        self.assertIn("cell 1", self.ctl("store", status=3, has_errors=True))
        self.ctl("repair-cell", "1", "--from", "daily", "--yes")
        self.start()
        self.ctl("health", "PAY.DATA", "--socket", "AUDITOR", "--kcv", value(DATA)[:6])
        self.assertEqual(self.asked("OFFICER", "CSNBKRL prefix="), ["OK count=4 labels=CANARY,PAY.DATA,PAY.MAC,TODAY"])
        self.stop()

    def test_drift(self):
        """A key that was exchanged, one that is lost and one that came show between two days."""
        self.start()
        self.make_keys()
        yesterday = self.inventory("yesterday")
        self.ctl("compare", yesterday, self.inventory("today"))
        self.asked("OFFICER", "CSNBKGN form=OP length=16 type1=DATAC to=L:KEY.7", "CSNBKRD label=KEY.8", "CSNBKRC label=NEW")
        told = self.ctl("compare", yesterday, self.inventory("today"), status=1)
        self.assertEqual([name for name in ("KEY.7", "KEY.8", "NEW", "KEY.9") if f"{name}: " in told], ["KEY.7", "KEY.8", "NEW"], told)
        self.stop()

    def test_empty_module(self):
        """It isn't served where there is no file, and is told from the right one where there is."""
        for path in self.keys.iterdir():
            path.rename(self.work / path.name)
        self.assertEqual(self.begin().wait(60), 1)
        self.ask([], self.keys)
        self.owned(self.keys)
        self.start()
        self.ctl("health", "CANARY", "--socket", "AUDITOR", status=3)
        self.stop()
        self.ctl("health", "CANARY", "--socket", "AUDITOR", status=4)

    def test_replaced_program(self):
        """The program that was started goes on, which is told, until the service is told to take the new one."""
        self.start()
        before = self.status()
        self.replace_program()
        os.kill(before["cca"]["pid"], signal.SIGKILL)  # so that the front starts it again
        self.assertEqual(self.asked("AUDITOR", "CSNBKYT key=L:CANARY"), [f"OK value={value(CANARY)}"])
        self.assertEqual(self.status(1)["program"], {**before["program"], "is_replaced": True})
        self.assertEqual(len(self.told("program replaced")), 1)
        self.reload()
        self.assertEqual(self.asked("AUDITOR", "CSNBKYT key=L:CANARY"), [f"OK value={value(CANARY)}"])
        after = self.status()["program"]
        self.assertNotEqual(after["sha256"], before["program"]["sha256"])
        self.assertFalse(after["is_replaced"])
        self.stop()

    def test_audit_log(self):
        """Its lines, uids and numbers are whole; a record that is taken out, one that is changed, and a hole are found."""
        self.start()
        self.asked("OFFICER", "CSNBKRC label=ONE", "CSNBKRC label=TWO", "CSNBKRC label=THREE", "CSNBKRC label=FOUR")
        self.stop()
        log = self.logs / "trail.jsonl"
        lines = log.read_text().splitlines(True)
        records = [json.loads(it) for it in lines]
        self.assertEqual([it["label"] for it in records[-4:]], ["ONE", "TWO", "THREE", "FOUR"])
        self.assertEqual({it["uid"] for it in records[-4:]}, {self.user})
        self.assertEqual(self.audited(lines), 0)
        two = next(at for at, it in enumerate(lines) if '"TWO"' in it)
        for what, changed in (
            ("a record that is taken out", lines[:two] + lines[two + 1 :]),
            ("one that is changed", [it.replace("TWO", "TEN") for it in lines]),
            ("another client in its place", [it.replace(f'"uid": {self.user}', '"uid": 1') if '"TWO"' in it else it for it in lines]),
            ("a hole", lines[:two] + ["\0" * 40 + "\n"] + lines[two + 2 :]),
        ):
            with self.subTest(what):
                self.assertEqual(self.audited(changed), 3)

    def audited(self, lines):
        """The exit status of a check of these lines."""
        (self.logs / "trail.jsonl").write_text("".join(lines))
        words = [self.root / "usr/bin/ccactl", "audit-log"]
        return subprocess.run(words, env=self.environment, cwd=self.work, stdout=subprocess.DEVNULL, stderr=subprocess.DEVNULL, **self.whose()).returncode


class Faults(unittest.TestCase):
    def test_each_is_found(self):
        os.environ[PACKAGE] = str(package())  # is made once
        self.addCleanup(os.environ.pop, PACKAGE)
        each_is_found(self, "year", EDITS)


if __name__ == "__main__":
    unittest.main()
