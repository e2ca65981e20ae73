"""The changed definitions of tools/machines: each names a law that is there, and lines that stand once in their files. That a law refuses
them the tool itself tries, by the prover, apart from these checks.
"""
import subprocess

from tests.harness import TOP, Case

FAULTS = []  # its fault is planted in a definition, by tests/planted.py


class Machines(Case):
    def test_each(self):
        it = subprocess.run([TOP / "tools/machines/run", "--look"], capture_output=True, text=True)
        self.assertEqual((it.returncode, it.stderr), (0, ""))
        self.assertRegex(it.stdout, r"\Amachines: \d+ changes of \d+ files, against \d+ laws\n\Z")
