"""The program where memory ends: one allocation after another is refused. Each run ends with exit status 10 and nothing written, or
as with ample memory, where it doesn't ask for so many.
"""
from tests.harness import EXAMPLES, Calls, Case, Fault

FAULTS = [Fault('[ "$ALLOCATION" = 2 ] && echo OK; exec "$CCA" "$@"', case="Memory.test_key_tokens", tells="allocation 2")]

NO_MEMORY = "cca: out of memory\n"


class Memory(Case):
    def swept(self, *words, given=b""):
        """Refuses one allocation after another, until three in a row aren't asked for any more."""
        ample, refused, number, unmet = self.cca(*words, given=given), 0, 0, 0
        self.assertEqual(ample.status, 0, ample.err)
        while unmet < 3:
            number += 1
            for file in self.folder.iterdir():
                file.unlink()
            came = self.cca(*words, given=given, calls=Calls(allocation=number, skipped="sync cca.store"))
            if (came.status, came.out, came.err) == (10, "", NO_MEMORY):
                refused, unmet = refused + 1, 0
            else:
                self.assertEqual((came.status, came.out), (0, ample.out), f"allocation {number}: {came.err}")
                unmet += 1
        self.assertGreater(refused, 0)

    def test_empty_input(self):
        self.swept("run")

    def test_key_tokens(self):
        self.swept("run", given=(EXAMPLES / "first.txt").read_bytes())

    def test_keys_under_labels(self):
        self.swept("run", given=(EXAMPLES / "labels" / "1-labels.txt").read_bytes())

    def test_demo(self):
        self.swept("demo", "3")

    def test_audited_input(self):
        self.swept("audit", given=(EXAMPLES / "audit" / "1-first.txt").read_bytes())

    def test_trail(self):
        self.swept("trail")
