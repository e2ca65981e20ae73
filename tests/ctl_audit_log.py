"""`ccactl audit-log`: logs whose lines are made here by docs/FORMATS.md, chained by hashlib, beside files of cells that are made here or by
the program. A line that is changed, removed, put in or moved, records that are missing, logs that were cut, renamed or written anew, what
differs from the trail, and registers and roles that no record explains are found; and nothing is where all is well."""
import hashlib
import json
import os
import sys
import unittest

from tests.edits import PATHS, Edit, each_is_found
from tests.formats import image, made, trail_record
from tests.harness import Calls, Fault
from tests.keys import ceremony
from tests.served import Served

sys.path[:0] = PATHS
from cca_service.ctl.account import Account, register_steps  # noqa: E402

CTL = "service/cca_service/ctl"
FAULTS = [Fault('"$CCA" "${@/audit/run}"', case="Program.test_well", tells="TypeError")]
EDITS = [
    Edit(f"{CTL}/trail_log.py", "elif self.sum is not None and chain != self.sum:", "elif False:", "Chain.test_changed"),
    Edit(f"{CTL}/trail_log.py", "            if self.is_chained:\n                self.find", "            if False:\n                self.find", "Chain.test_without_chain"),
    Edit(f"{CTL}/trail_log.py", "if self.last is None or number == self.last + 1:", "if True:", "Chain.test_removed"),
    Edit(f"{CTL}/trail_log.py", "elif self.last is not None and follows != self.last:", "elif False:", "Chain.test_rotated"),
    Edit(f"{CTL}/trail_log.py", "if self.request is not None and record.request <= self.request:", "if False:", "Chain.test_senders"),
    Edit(f"{CTL}/trail_log.py", "one if one.isprintable() else", "one if True else", "Chain.test_told"),
    Edit(f"{CTL}/audit_log.py", "if kept is not None and kept != entry:", "if False:", "Beside.test_trail_altered"),
    Edit(f"{CTL}/audit_log.py", "if trail.last < last:", "if False:", "Beside.test_trail_altered"),
    Edit(f"{CTL}/audit_log.py", "if unfetched and unfetched[0] > last + 1", "if False", "Beside.test_trail_altered"),
    Edit(f"{CTL}/audit_log.py", "if self.reader.since and not self.reader.since.is_reached:", "if False:", "Accounts.test_written_anew"),
    Edit(f"{CTL}/audit_log.py", "check.before is None or given.renew", "True", "Accounts.test_known_findings"),
    Edit(f"{CTL}/account.py", "if steps > verbs.count(MASTER_KEY):", "if False:", "Accounts.test_registers_beside_the_front"),
    Edit(f"{CTL}/account.py", "if after.registers[\"old\"] != before.registers[\"current\"]:", "if False:", "Steps.test_fewest"),
    Edit(f"{CTL}/account.py", "if len(roles) > verbs.count(ROLES):", "if False:", "Accounts.test_roles_beside_the_front"),
]  # fmt: skip
TIME = "2026-12-01T08:00:00.{:06}Z"


def record(number, rule="00", role="OFFICER", verb="CSNBKYT", label="PAY", **other):
    """A record of the log, whose request has the number 1000 and that of the record."""
    known = {"time": TIME.format(number), "fetched": TIME.format(999), "uid": 7, "request": 1000 + number}
    return {"number": number, "rule": rule, "role": role, "verb": verb, "label": label, **known, **other}


def chained(objects, before=None):
    """Lines with their chain."""
    lines = []
    for it in objects:
        lines.append(json.dumps({**it, "chain": before}))
        before = hashlib.sha256(lines[-1].encode()).hexdigest()
    return lines


def sum_of(line):
    return hashlib.sha256(line.encode()).hexdigest()


class Logged(Served):
    def write(self, lines, name="log"):
        path = self.folder / name
        path.write_text("".join(f"{it}\n" for it in lines))
        return path

    def checked(self, *lists, words=("--log-only",)):
        """What the tool finds in logs: its exit status, and its JSON object."""
        logs = [self.write(lines, f"log.{number}") for number, lines in enumerate(lists)]
        status, out, err = self.ctl("audit-log", *logs, "--json", *words)
        self.assertNotIn("Traceback", err)
        return status, json.loads(out) if out else err

    def finds(self, *texts, lists, words=("--log-only",), status=3):
        """What must be found, as the beginnings of texts in their order."""
        came, found = self.checked(*lists, words=words)
        shown = [it["text"] for it in found["findings"] if it["is_new"]]
        self.assertEqual((came, len(shown)), (status, len(texts)), shown)
        for it, wanted in zip(shown, texts):
            self.assertRegex(it, wanted)
        return found


class Chain(Logged):
    """The log alone."""

    RECORDS = [record(number) for number in range(8)]

    def test_well(self):
        lines = chained(self.RECORDS)
        status, found = self.checked(lines)
        self.assertEqual((status, found["records"], found["last"], found["findings"], found["told"]), (0, 8, 7, [], []))
        self.assertEqual(found["chain"], sum_of(lines[-1]))
        self.ends_so(self.ctl("audit-log", "log.0", "--log-only"), 0, ["records: 8, the last one has the number 7", "findings: 0"])
        self.assertEqual(self.checked([])[0], 0)
        self.ends_so(self.ctl("audit-log", "none", "--log-only"), 1, tells="none: No such file")

    def test_changed(self):
        """A line that says another thing, whose own chain is as it was."""
        lines = chained(self.RECORDS)
        for at in range(7):
            changed = [*lines]
            changed[at] = lines[at].replace('"uid": 7', '"uid": 8')
            found = self.finds("the chain is broken", lists=[changed])
            self.assertIn(f"line {at + 2}", found["findings"][0]["place"])

    def test_removed(self):
        """A line that is taken out, put in twice, or moved."""
        lines = chained(self.RECORDS)
        self.finds("the chain is broken", "records 3 to 3 are missing", lists=[lines[:3] + lines[4:]])
        self.finds("the chain is broken", "record 3 stands behind record 3", "record 3 has request", lists=[lines[:4] + lines[3:]])
        moved = lines[:2] + [lines[3], lines[2]] + lines[4:]
        self.assertEqual(self.checked(moved)[0], 3)
        # written anew behind it: the numbers tell
        self.finds("records 3 to 3 are missing", lists=[chained([*self.RECORDS[:3], *self.RECORDS[4:]])])

    def test_without_chain(self):
        """Lines of an earlier version come first, and never behind others."""
        old = [json.dumps(it) for it in self.RECORDS[:3]]
        old = [it.replace(', "uid": 7', "").replace(f', "request": {1000 + at}', "") for at, it in enumerate(old)]
        new = chained(self.RECORDS[3:], sum_of(old[-1]))
        status, found = self.checked(old + new)
        self.assertEqual((status, found["unchained"], found["findings"]), (0, 3, []))
        self.finds("a line without a chain", "the chain is broken", lists=[chained(self.RECORDS[:3]) + [json.dumps(self.RECORDS[3])] + chained(self.RECORDS[4:], "0" * 64)])
        self.finds("the chain is broken", lists=[[*chained(self.RECORDS[:3]), *chained(self.RECORDS[3:])]])

    def test_rotated(self):
        """Logs that were renamed, in their order, in another one, and with one left out."""
        one = chained(self.RECORDS[:3])
        two = chained([{"follows": 2}, *self.RECORDS[3:5]], sum_of(one[-1]))
        three = chained([{"follows": 4}, *self.RECORDS[5:]], sum_of(two[-1]))
        self.assertEqual(self.checked(one, two, three)[0], 0)
        self.assertEqual(self.checked(two, three)[0], 0)
        self.finds("the chain is broken", "a log that follows record 4 stands behind one that ends with record 2", lists=[one, three])
        self.assertEqual(self.checked(two, one)[0], 3)
        self.finds("the chain is broken", "records 4 to 4 are missing|a log that follows", lists=[one, two[:-1], three])
        self.finds("a line that begins a log, in the midst of one", lists=[chained([*self.RECORDS[:3], {"follows": 2}])])

    def test_senders(self):
        unknown = {"time": None, "uid": None, "request": None}
        status, found = self.checked(chained([record(0), record(1, **unknown), record(2)]))
        self.assertEqual((status, found["untimed"]), (0, 1))
        self.finds("record 1 has a time without", lists=[chained([record(0), record(1, uid=None)])])
        self.finds("record 1 has request 1000, which isn't behind 1000", lists=[chained([record(0), record(1, request=1000)])])

    def test_no_records(self):
        """Objects that are no record, whatever a member is."""
        for wrong in ({"number": -1}, {"number": True}, {"number": "1"}, {"rule": "0"}, {"rule": 0}, {"role": "a"}, {"role": None}, {"verb": "\x1b"},
                      {"label": "a b"}, {"time": "now"}, {"uid": "7"}, {"request": 1.5}, {"number": 1 << 63}):  # fmt: skip
            with self.subTest(wrong):
                self.finds("a line that is no record", lists=[chained([{**record(0), **wrong}])])

    def test_told(self):
        """What the front told is shown, and is looked into; the numbers of a trail that began anew too."""
        status, found = self.checked(chained([record(0), {"time": TIME.format(1), "told": "3 requests were \x1b[2J"}, record(1)]))
        self.assertEqual((status, found["findings"]), (1, []))
        self.assertEqual(found["told"][0]["text"], f"{TIME.format(1)}: 3 requests were ?[2J")
        self.finds("the trail began anew behind record 1", lists=[chained([record(0), record(1), {"time": "", "told": "anew", "follows": -1}, record(0, request=2000)])])
        lines = chained([record(0), record(1)])
        half = lines[0][:20]
        status, found = self.checked([half, *chained([record(0)], sum_of(half))])
        self.assertEqual((status, found["told"][0]["text"][:11]), (1, "half a line"))
        self.assertEqual(self.checked(["\0" * 40, *chained([record(0)], sum_of("\0" * 40))])[0], 1)


class Beside(Logged):
    """The trail beside its log, whose cells are made here."""

    def setUp(self):
        super().setUp()
        (self.keys / "cca.module").write_bytes(image("module", []))

    def trail(self, bodies):
        (self.keys / "cca.trail").write_bytes(image("trail", bodies))

    def body(self, number, **other):
        it = record(number, **other)
        return trail_record(number, int(it["rule"]), it["role"], it["verb"], it["label"])

    def found_beside(self, *texts, lines=None, status=3):
        words = ("--folder", str(self.keys))
        return self.finds(*texts, lists=[chained([record(it) for it in range(4)]) if lines is None else lines], words=words, status=status)

    def test_well(self):
        self.trail([self.body(number) for number in range(4)])
        self.found_beside(status=0)
        self.trail([self.body(number) for number in range(6)])
        self.assertEqual(self.found_beside(status=0)["unfetched"], 2)

    def test_trail_altered(self):
        """A record that the log has otherwise, fewer records than the log has, and records that nobody fetched."""
        self.trail([self.body(0), self.body(1, label="OTHER"), self.body(2), self.body(3)])
        self.found_beside("record 1 is 1 00 OFFICER CSNBKYT OTHER there, and 1 00 OFFICER CSNBKYT PAY in the log")
        self.trail([self.body(0), self.body(1, rule="19"), self.body(2), self.body(3)])
        self.found_beside("record 1 is 1 19 ")
        self.trail([self.body(number) for number in range(3)])
        self.found_beside("it ends with record 2, and the log with 3")
        self.trail([])
        self.found_beside("it ends with record -1, and the log with 3")
        numbers = range(4100, 4100 + 4096)
        self.trail([self.body(number) for number in sorted(numbers, key=lambda it: it % 4096)])
        self.found_beside("records 4 to 4099 are in neither of them")

    def test_damaged_trail(self):
        self.trail([self.body(0), b"\2".ljust(192, b"\0"), self.body(2), self.body(3)])
        self.found_beside("cell 1 is damaged", "records 1 to 1 are missing there")

    def test_end_that_was_cut(self):
        """Lines that were taken from the end are in the trail still, and are told as not fetched."""
        self.trail([self.body(number) for number in range(4)])
        found = self.found_beside(lines=chained([record(it) for it in range(2)]), status=0)
        self.assertEqual(found["unfetched"], 2)


class Program(Logged):
    """The trail of the program."""

    def test_well(self):
        """Records that the program wrote, under the locks of its files."""
        self.ask(["CSNBKRC role=DEFAULT label=A", "CSNBKYT role=DEFAULT key=L:A", "A"], self.keys, command="audit")
        lines = [record(0, role="DEFAULT", verb="CSNBKRC", label="A"), record(1, "05", "DEFAULT", "CSNBKYT", "A"), record(2, "01", "-", "-", "-")]
        self.finds(lists=[chained(lines)], words=("--folder", str(self.keys)), status=0)
        lines[1]["rule"] = "00"
        self.finds("record 1 is 1 05 DEFAULT CSNBKYT A there", lists=[chained(lines)], words=("--folder", str(self.keys)))


class Accounts(Logged):
    """What no record explains: an account of the module as the program left it."""

    ONE, TWO = made("one", 24), made("two", 24)

    def setUp(self):
        super().setUp()
        self.objects = []
        self.account = self.folder / "account"
        self.asked(["CSNBKRC role=DEFAULT label=A"])

    def asked(self, lines, command="audit"):
        """Requests to the program, with the records of the log as the front would add them."""
        self.ask(lines, self.keys, command=command, calls=Calls(skipped="sync cca.trail"))
        if command != "audit":
            return
        for line in self.cca("trail", folder=self.keys).lines[len(self.objects) :]:
            number, rule, role, verb, label = line.split(" ")
            self.objects.append(record(int(number), rule, role, verb, label))

    def accounted(self, *texts, status=3, words=()):
        """What is found beside the account."""
        words = ("--folder", str(self.keys), "--account", str(self.account), *words)
        return self.finds(*texts, lists=[chained(self.objects)], words=words, status=status)

    def test_explained(self):
        """Ceremonies and roles by requests that have their records."""
        self.accounted(status=0)
        self.assertEqual(os.stat(self.account).st_mode & 0o777, 0o600)
        self.asked([line for line, _ in ceremony(self.ONE)])
        self.accounted(status=0)
        self.asked(["CSUAACI role=DEFAULT action=DEFINE name=A points=00000001", *(line for line, _ in ceremony(self.TWO))])
        self.accounted(status=0, words=["--renew"])
        self.accounted(status=0)
        self.asked(["CSUAACI role=DEFAULT action=REMOVE name=A"])
        self.accounted(status=0)
        for master in (self.ONE, self.TWO):
            self.assertNotIn(master.hex()[:8], self.account.read_text())

    def test_registers_beside_the_front(self):
        """Each change of the registers by `cca run`, also behind requests that have a record."""
        first, last, setting = (line for line, _ in ceremony(self.ONE))
        self.accounted(status=0)
        for lines, count in (([first], 1), ([last], 2), ([setting], 3), ([line for line, _ in ceremony(self.TWO)], 6)):
            self.asked(lines, "run")
            self.accounted(f"the master key registers changed by {count} requests or more, and 0 have a record")
        self.asked(["CSNBMKP role=DEFAULT action=CLEAR"])
        self.accounted("the master key registers changed by 6 requests or more, and 1 have a record")
        self.accounted("the master key registers changed by 6", words=["--renew"])
        self.accounted(status=0)

    def test_roles_beside_the_front(self):
        self.accounted(status=0)
        self.asked([f"CSUAACI role=DEFAULT action=DEFINE name={name} points=00000001" for name in "AB"], "run")
        self.accounted("the roles A, B changed, and 0 requests have a record")
        self.asked(["CSUAACI role=DEFAULT action=DEFINE name=B points=00000003"])
        self.accounted("the roles A, B changed, and 1 requests have a record")

    def test_refused_requests_explain_nothing(self):
        self.accounted(status=0)
        self.asked(["CSNBMKP role=DEFAULT action=SET"])
        self.asked([line for line, _ in ceremony(self.ONE)][:1], "run")
        self.accounted("the master key registers changed by 1 requests or more, and 0 have a record")

    def test_written_anew(self):
        """A log that was written anew as a whole, with a chain of its own: the account's line isn't in it."""
        self.asked(["CSNBKRD role=DEFAULT label=A"])
        self.accounted(status=0)
        self.objects[1]["uid"] = 8
        self.accounted("the line of the sum [0-9a-f]{64} isn't in the logs")

    def test_known_findings(self):
        """A finding that was looked into isn't told as new, until there is another one."""
        self.accounted(status=0)
        self.asked([f"CSNBKRC role=DEFAULT label=K{number}" for number in range(3)])
        del self.objects[2]
        for words in ([], [], ["--renew"]):
            self.accounted("records 2 to 2 are missing", words=words)
        self.accounted(status=0)

    def test_no_account(self):
        for text in ("", "{}", "[]", '{"account": 1}', '{"account": 1, "chain": null, "number": 0, "registers": {}, "roles": {}, "findings": []}'):
            self.account.write_text(text)
            with self.subTest(text):
                status, told = self.checked(chained(self.objects), words=("--folder", str(self.keys), "--account", str(self.account)))
                self.assertEqual(status, 2)
                self.assertIn("not an account", told)
                self.assertEqual(self.account.read_text(), text)
        self.assertEqual(self.checked([], words=("--log-only", "--renew"))[0], 2)


class Steps(unittest.TestCase):
    """The fewest requests between registers, counted by hand: each as its new, its current and its old one."""

    def test_fewest(self):
        for before, after, fewest in (
            ("---", "---", 0), ("---", "p--", 1), ("---", "a--", 2), ("---", "-a-", 3), ("---", "-ba", 6), ("-a-", "-ba", 3), ("ba-", "-ba", 1),
            ("xa-", "-ba", 4), ("pa-", "cba", 4), ("a--", "b--", 3), ("a--", "p--", 2), ("p--", "---", 1), ("-az", "-ab", 6),
        ):  # fmt: skip
            with self.subTest(before=before, after=after):
                self.assertEqual(register_steps(*(self.account(it) for it in (before, after))), fewest)

    def account(self, registers):
        states = ([{"-": "empty", "p": "partial"}.get(it, "full"), None if it in "-p" else it] for it in registers)
        return Account(None, 0, dict(zip(("new", "current", "old"), states)), {}, [])


class Planted(unittest.TestCase):
    """Each fault of EDITS is found by its case."""

    def test_edits(self):
        each_is_found(self, "ctl_audit_log", EDITS)


if __name__ == "__main__":
    unittest.main()
