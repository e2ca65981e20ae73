"""The examples: each file of requests gets the replies that stand beside it; those of a folder are run one after another in one folder.
Where NAME.trail stands there, the requests are served with an audit trail, which then has these records; and where NAME.unload
does, the store is unloaded then with its words, and what is written is NAME.file and NAME.report. What one folder takes in is what
another one gave out.
"""
import re

from tests.harness import EXAMPLES, Case, Fault, example

FAULTS = [Fault("""\"$CCA" "$@" | sed 's/^OK value=\\(.*\\)[0-9a-f]$/OK value=\\10/'""", case="Examples.test_bank", tells="OK value=")]

NAMES = sorted({it.parent.name if it.parent != EXAMPLES else it.stem for it in EXAMPLES.rglob("*.txt")})


class Examples(Case):
    def wrote(self, came, out, err=None):
        """A run ended well, and wrote what stands in these files."""
        self.assertEqual(came.status, 0, came.err)
        self.assertEqual(came.out, out.read_text())
        self.assertEqual(came.err, err.read_text() if err else "")

    def tried(self, name):
        """Runs the files of an example."""
        for file in sorted((EXAMPLES / name).glob("*.txt")) or [EXAMPLES / f"{name}.txt"]:
            beside = {kind: file.with_suffix(f".{kind}") for kind in ("replies", "trail", "unload", "file", "report")}
            is_audited = beside["trail"].exists()
            self.wrote(self.cca("audit" if is_audited else "run", given=file.read_bytes()), beside["replies"])
            if is_audited:
                self.wrote(self.cca("trail"), beside["trail"])
            if beside["unload"].exists():
                self.wrote(self.cca("unload", *beside["unload"].read_text().split()), beside["file"], beside["report"])


for _name in NAMES:
    setattr(Examples, f"test_{_name.replace('-', '_')}", lambda self, name=_name: self.tried(name))


class Pairs(Case):
    def test_key_that_is_sent_is_received(self):
        for sender, receiver in (("sender", "receiver"), ("bank", "partner"), ("parts", "parts-partner")):
            with self.subTest(sender):
                sent = [reply[9:] for _, reply in example(sender) if reply.startswith("OK token=")][-1]
                taken = [re.search(r" token=(\w+) ", request) for request, _ in example(receiver) if request.startswith("CSNBKIM ")]
                self.assertIn(sent, [it[1] for it in taken if it])

    def test_store_that_is_unloaded_is_taken_in(self):
        unloaded = (EXAMPLES / "move" / "1-keys.file").read_text()
        stopped = (EXAMPLES / "moved" / "2-stopped.txt").read_text()
        self.assertEqual((EXAMPLES / "moved" / "3-again.txt").read_text(), unloaded)
        self.assertTrue(stopped.endswith("\n") and unloaded.startswith(stopped))
