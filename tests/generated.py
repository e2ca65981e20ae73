"""Each file that is made by a script is what the script makes: the table of requests with what is made from it, the circuits of the
S-boxes, and the test vectors. And the completion for bash, in bash."""
import shutil
import subprocess
import sys
import unittest

from tests.edits import LIBRARIES
from tests.harness import TOP

FAULTS = []  # a fault is planted in a copy of the files, by tests/planted.py


class Generated(unittest.TestCase):
    def checked(self, script):
        it = subprocess.run([sys.executable, "-B", TOP / script, "--check"], stdout=subprocess.PIPE, stderr=subprocess.STDOUT, text=True)
        self.assertEqual(it.returncode, 0, it.stdout)

    def test_table(self):
        self.checked("clients/make_verbs.py")

    def test_circuits(self):
        self.checked("tools/circuits/write")

    @unittest.skipUnless(shutil.which("openssl"), "openssl isn't installed")
    def test_vectors(self):
        self.checked("clients/vectors/make.py")

    @unittest.skipUnless(shutil.which("bash"), "bash isn't installed")
    def test_completion(self):
        """What bash offers behind `cca` and some letters."""
        shell = 'source "$0"; COMP_WORDS=(cca "$1"); COMP_CWORD=1; _cca; echo "${COMPREPLY[@]}"'
        for begun, wanted in (("", "run demo audit trail unload"), ("a", "audit"), ("x", "")):
            it = subprocess.run(["bash", "-c", shell, LIBRARIES / "completion" / "cca", begun], stdout=subprocess.PIPE, text=True, check=True)
            self.assertEqual(it.stdout.strip(), wanted)


if __name__ == "__main__":
    unittest.main()
