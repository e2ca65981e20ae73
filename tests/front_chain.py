"""The chain over the lines of the trail's log: each line has the SHA-256 of the line before, whatever that is, also over half a line, over a
renamed log and over one that an earlier version began; and what the front tells where the log doesn't end as it did."""
import hashlib
import json
import unittest

from tests.edits import Edit, each_is_found
from tests.front import Logged, requests

from cca_service import trail  # noqa: E402

FAULTS = []  # its faults are edits of trail.py
EDITS = [
    Edit("trail.py", "            self.sum = sum_of(line)\n", "", "Chain.test_lines"),
    Edit("trail.py", "return hashlib.sha256(line).hexdigest()", 'return hashlib.sha256(line + b"\\n").hexdigest()', "Chain.test_lines"),
    Edit("trail.py", "self.kept, self.sum = last_kept(self.path), sum_at(self.path)", "self.kept, self.sum = last_kept(self.path), None", "Chain.test_again"),
    Edit("trail.py", 'self.chained([{"follows": self.last}])', 'json.dumps({"follows": self.last}).encode() + b"\\n"', "Chain.test_renamed"),
    Edit("trail.py", "        if self.is_otherwise():", "        if False:", "Chain.test_cut"),
    Edit("trail.py", "    while place and b\"\\n\" not in line:", "    if True:", "Chain.test_long_line"),
    Edit("trail.py", '"uid": of["uid"], "request": of["request"]', '"uid": 0, "request": 0', "Chain.test_members"),
]


class Chain(Logged):
    """Logs of trails."""

    def chained(self, *logs):
        """The lines of logs, of which each must have the sum of the line before; the first one none."""
        before, found = None, []
        for log in logs or (self.log,):
            for line in log.read_bytes().split(b"\n")[:-1]:
                try:
                    it = json.loads(line)
                except ValueError:
                    it = {}
                if "chain" in it:
                    self.assertEqual(it["chain"], before and hashlib.sha256(before).hexdigest(), line)
                found.append(it)
                before = line
        return found

    def test_lines(self):
        self.fetch(0, 3, "ABC")
        self.fetch(7, 9, "DE")
        lines = self.chained()
        self.assertEqual([("number" in it, "told" in it) for it in lines], [(True, False)] * 3 + [(False, True)] + [(True, False)] * 2)
        self.assertTrue(all("chain" in it for it in lines))
        self.assertIsNone(lines[0]["chain"])

    def test_members(self):
        """The members of the lines, in the order of docs/FORMATS.md."""
        self.fetch(0, 1, "A")
        self.fetch(5, 6, "AB")
        record, told, unknown = self.chained()[0], self.chained()[1], self.chained()[-1]
        self.assertEqual(list(record), ["number", "rule", "role", "verb", "label", "time", "fetched", "uid", "request", "chain"])
        self.assertEqual((record["time"], record["uid"], record["request"]), ("A", 1000, 7000))
        self.assertEqual(list(told), ["time", "told", "chain"])
        self.assertEqual((unknown["time"], unknown["uid"], unknown["request"]), (None, None, None))

    def test_again(self):
        """A front that begins goes on with the chain."""
        for last in range(1, 5):
            self.fetch(0, last, "A")
        self.assertEqual([it["number"] for it in self.chained()], [0, 1, 2, 3])

    def test_renamed(self):
        """A log that is renamed, or emptied, while the front runs goes on in the next one."""
        self.hold(0, 3)
        log = self.logged()
        log.fetch(requests("ABC"))
        self.log.rename(self.folder / "log.1")
        self.hold(0, 5)
        self.assertEqual(log.fetch(requests("DE")), [])
        lines = self.chained(self.folder / "log.1", self.log)
        self.assertEqual((lines[3]["follows"], [it.get("number") for it in lines]), (2, [0, 1, 2, None, 3, 4]))
        before = self.log.read_bytes()
        self.log.write_bytes(b"")
        self.hold(0, 6)
        self.assertEqual(log.fetch(requests("F")), [])
        (self.folder / "log.2").write_bytes(before)
        self.chained(self.folder / "log.1", self.folder / "log.2", self.log)

    def test_half_a_line_before(self):
        """The chain goes over half a line, which is ended."""
        self.fetch(0, 3, "ABC")
        self.log.write_bytes(self.log.read_bytes()[:-20])
        self.fetch(0, 4, "AB")
        lines = self.chained()
        self.assertEqual([it.get("number") for it in lines], [0, 1, None, 2, 3])

    def test_of_an_earlier_version(self):
        """Lines without a chain, up to one that begins it."""
        old = [{"number": it, "rule": "00", "role": "TELLER", "verb": "CSNBKYT", "label": "PAY", "time": "A", "fetched": "B"} for it in range(3)]
        self.log.write_text("".join(json.dumps(it) + "\n" for it in old))
        self.assertEqual(self.fetch(0, 5, "DE"), [])
        lines = self.chained()
        self.assertEqual(["chain" in it for it in lines], [False] * 3 + [True] * 2)

    def test_cut(self):
        """Lines that were cut off, or changed, at the end while the front runs: it is told, and the chain shows it."""
        for change in (lambda text: text[: text.rindex(b"{")], lambda text: text.replace(b'"number": 2', b'"number": 9'), lambda text: text + b"{}\n"):
            self.log.unlink(missing_ok=True)
            self.hold(0, 3)
            log = self.logged()
            log.fetch(requests("ABC"))
            self.log.write_bytes(change(self.log.read_bytes()))
            self.hold(0, 4)
            self.assertEqual(log.fetch(requests("D")), [trail.OTHERWISE])
            with self.assertRaises(AssertionError):
                self.chained()

    def test_long_line(self):
        """A last line that is longer than what is read at once."""
        self.fetch(0, 1, "A")
        with open(self.log, "ab") as log:
            log.write(b"A" * 200_000 + b"\n")
        self.fetch(0, 2, "B")
        self.chained()


class Planted(unittest.TestCase):
    """Each fault of EDITS is found by its case."""

    def test_edits(self):
        each_is_found(self, "front_chain", EDITS)


if __name__ == "__main__":
    unittest.main()
