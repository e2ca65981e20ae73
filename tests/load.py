"""The program where there is much of something: a store that is full of labels, demos of up to 1,000 labels, 200,000 lines, which must
take less than two seconds of the processor, and the measurer of tools/bench, of whose rows each must tell a cost.
"""
import os
import re
import subprocess

from tests.harness import EXAMPLES, TOP, Case, Fault, processor_seconds

FAULTS = [Fault("sed 's/.*/OK/'", case="Load.test_full_store", tells="label=ONE.MORE\n  came:   OK")]

CREATE = "CSNBKRC role=DEFAULT label="
TENS = ",".join(f"KEY.051{digit}" for digit in "013456789")
FULL = [
    (f"{CREATE}ONE.MORE", "NO 28 label"),
    (f"{CREATE}KEY.0512", "NO 28 label"),
    ("CSNBKRD role=DEFAULT label=KEY.0512", "OK"),
    (f"{CREATE}ONE.MORE", "OK"),
    (f"{CREATE}KEY.0512", "NO 28 label"),
    (f"{CREATE}KEY.0513", "NO 28 label"),
    ("CSNBKRL role=DEFAULT prefix=KEY.051", f"OK count=9 labels={TENS}"),
]
DEMOS = [(1, 15, 14), (3, 24, 23), (1000, 4510, 4509)]  # the number of a demo, its lines, and how many are answered OK

ROWS = """
key schedule
triple DES of a block, chained
eight key schedules and three blocks
CBC of 4,096 bytes, enciphering
CBC of 4,096 bytes, deciphering
X9.9-1 over 4,096 bytes
CSNBENC of 8 bytes
CSNBKYT
opening a full store and a module
CSNBENC of 8 bytes, a stored key
CSNBKYT, a stored key
CSNBENC of 4,096 bytes
CSNBENC of 1 MiB in segments
CSNBENC in segments
CSNBDEC of 4,096 bytes
CSNBDEC of 1 MiB in segments
CSNBDEC in segments
CSNBKYT, a stored key, audited
opening them and a trail
opening 1,024 keys
opening 1,024 staged keys
CSNBKYT, a staged key
""".strip().split("\n")


class Load(Case):
    def test_full_store(self):
        self.replies([(f"{CREATE}KEY.{number:04}", "OK") for number in range(1024)])
        self.replies(FULL)

    def test_demos_over_the_files_of_the_one_before(self):
        for number, lines, good in DEMOS:
            self.ends(self.cca("demo", str(number)), 0, [f"demo {number}: lines={lines} ok={good} refused=1 old=1"])

    def test_many_lines_take_less_than_two_seconds_of_the_processor(self):
        line = (EXAMPLES / "first.txt").read_text().split("\n")[0]
        given = f"{line}\n" * 200000
        came, took = processor_seconds(lambda: self.cca("run", given=given))
        self.assertEqual((came.status, len(came.whole)), (0, 200000))
        self.assertLess(took, 2)


class Rates(Case):
    def test_measurer_of_the_front(self):
        """It tells a rate for each number of clients, with an audit trail and without. What they come to isn't judged."""
        words = [TOP / "tools/bench/front", "--seconds", "0.1", "--rounds", "1"]
        environment = {**os.environ, "CCA_PROGRAM": str(self.program.path)}
        it = subprocess.run(words, capture_output=True, text=True, env=environment)
        self.assertEqual(it.returncode, 0, it.stderr)
        for audited in ("no", "yes"):
            for clients in (1, 4, 16, 64):
                with self.subTest(audited=audited, clients=clients):
                    self.assertRegex(it.stdout, rf"(?m)^\|[^|]*\| {audited} \| {clients} \| [1-9][0-9,]* \|")


class Costs(Case):
    def test_measurer_tells_a_cost_in_each_row(self):
        """What they come to isn't judged."""
        it = subprocess.run([TOP / "tools/bench/run", "1"], capture_output=True, text=True)
        self.assertEqual(it.returncode, 0, it.stderr)
        for row in ROWS:
            with self.subTest(row):
                self.assertRegex(it.stdout, rf"(?m)^{re.escape(row)} +[0-9.e-]*[1-9]", f"no cost of: {row}")
