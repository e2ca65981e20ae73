"""`ccactl token`, `vector`, `explain` and `ask`, which tell what the library for Python tells; the help of each subcommand; and what bash
offers behind `ccactl`."""
import shutil
import subprocess
import sys
import unittest

from tests.edits import LIBRARIES, PATHS, Edit, each_is_found
from tests.formats import internal, made, pattern, types
from tests.harness import Fault
from tests.served import Served, answering

sys.path[:0] = PATHS
from cca_service.ctl.main import COMMANDS  # noqa: E402

CTL = "service/cca_service/ctl"
FAULTS = [Fault('"$CCA" "$@" | sed -u "s/count=0/count=1/"', case="Asked.test_front", tells="OK count=1")]
EDITS = [
    Edit(f"{CTL}/library.py", "if given.token != STANDARD_INPUT", "if True", "Told.test_token_of_standard_input"),
    Edit(f"{CTL}/library.py", "path_of(given.socket, given.config)", "given.socket", "Asked.test_front"),
    Edit(f"{CTL}/library.py", "raise Failed(str(error), Exit.UNREACHED)", "raise Failed(str(error))", "Asked.test_no_front"),
]
MASTER, KEY = made("master", 24), made("key", 16)
TOKEN = internal(MASTER, KEY, types()["MAC"][16])


class Told(Served):
    def test_token_of_standard_input(self):
        """A token by standard input, or as a word: what the library tells of it."""
        for words, given in (([TOKEN], ""), (["-"], f"{TOKEN}\n")):
            status, out, err = self.ctl("token", *words, given=given)
            lines = out.splitlines()
            self.assertEqual((status, err, lines[1], lines[-1]), (0, "", f"MKVP: {pattern(MASTER).hex()}", "no rule is broken"))
            self.assertNotIn(TOKEN[32:48], out)
        broken = TOKEN[:-1] + ("0" if TOKEN[-1] != "0" else "1")
        self.assertEqual(self.ctl("token", "-", given=broken)[0], 1)
        self.ends_so(self.ctl("token", "-", given="00"), 2, tells="128 are wanted")

    def test_vector_and_explain(self):
        self.ends_so(self.ctl("vector", "EXPORTER", "16"), 0, [types()["EXPORTER"][16].hex()])
        self.ends_so(self.ctl("vector", "EXPORTER", "8"), 2, tells="doesn't have the length")
        self.ends_so(self.ctl("explain", "NO", "07", "key"), 0, ["rule 07, field key: the label doesn't exist"])
        self.ends_so(self.ctl("explain", given="CSNBKYT role=A key=L:K\r\n"), 0,
                     ["1: byte 23, field key: a carriage return at the end: lines end with X'0A' alone, and not with X'0D0A'"])  # fmt: skip


class Asked(Served):
    def test_front(self):
        """Requests to a socket, by its path and by its role."""
        self.ask([], self.keys)
        self.front("DEFAULT")
        self.ends_so(self.ctl("ask", self.path("DEFAULT"), given="CSNBKRL prefix=\nA\n"), 0, ["OK count=0 labels=", "NO 01 -"])
        file = self.folder / "front.conf"
        file.write_text(f"[front]\nfolder = {self.keys}\n[role DEFAULT]\ngroup = a\nsocket = {self.path('DEFAULT')}\n")
        self.ends_so(self.ctl("ask", "DEFAULT", "--config", file, given="A\n"), 0, ["NO 01 -"])
        self.ends_so(self.ctl("ask", "DEFAULT", "--config", file, given="CSNBKRC label=A"), 0, tells="may be half a request")

    def test_no_front(self):
        self.ends_so(self.ctl("ask", "none", "--timeout", "0.1", given="A\n"), 4, tells="no front takes a connection")
        path, _ = answering(self, lambda line: b"-- not carried out: the front ends\n")
        self.ends_so(self.ctl("ask", path, given="A\n"), 4, tells="not carried out: the front ends")


class Words(Served):
    def test_help(self):
        """Each subcommand tells its words, and wrong ones are refused."""
        for it in COMMANDS:
            status, out, err = self.ctl(it.name, "--help")
            self.assertEqual((status, err), (0, ""))
            self.assertTrue(out.startswith(f"usage: ccactl {it.name}"))
            self.assertEqual(self.ctl(it.name, "--no-such-word")[0], 2)
        self.assertEqual(self.ctl("no-such-command")[0], 2)

    @unittest.skipUnless(shutil.which("bash"), "bash isn't installed")
    def test_completion(self):
        """What bash offers behind some words."""
        shell = 'source "$0"; COMP_WORDS=(ccactl "$@"); COMP_CWORD=$#; _ccactl; echo "${COMPREPLY[@]}"'
        for words, wanted in (
            (["in"], "inventory"),
            (["ceremony", "M"], "MIDDLE"),
            (["key-part", ""], "FIRST MIDDLE LAST SHOW"),
            (["key-part", "FIRST", "A", "--type", "EX"], "EXPORTER"),
            (["audit-log", "--acc"], "--account"),
            (["audit-log", "log", "--acc"], "--account"),
            (["inventory", "x"], ""),
            (["none", "--"], ""),
        ):
            words = ["bash", "-c", shell, LIBRARIES / "completion" / "ccactl", *words]
            self.assertEqual(subprocess.run(words, stdout=subprocess.PIPE, text=True, check=True).stdout.strip(), wanted)


class Planted(unittest.TestCase):
    """Each fault of EDITS is found by its case."""

    def test_edits(self):
        each_is_found(self, "ctl_library", EDITS)


if __name__ == "__main__":
    unittest.main()
