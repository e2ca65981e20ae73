"""The installation, under a prefix in a scratch folder: what it says and writes, and that the installed program answers."""
import os
import shutil
import subprocess
import unittest
from pathlib import Path

from tests.harness import EXAMPLES, TOP, Case, Program

FAULTS = []  # its fault is planted in the installer, by tests/planted.py
INSTALLER = TOP / "tools/install/run"
ANOTHER = 65534  # a user who isn't root


def is_built():
    """Whether the program is built from these sources, so that the installer builds nothing."""
    return subprocess.run([TOP / "tools/build/run", "--ask"], stderr=subprocess.DEVNULL).returncode == 0


def owner_of_memory(test, program):
    """Who may read the memory of a program that a user runs who isn't root: the owner of what /proc shows of it. The kernel says root
    where it also writes no core dump."""
    if Path("/proc/sys/fs/suid_dumpable").read_text() == "1\n":
        test.skipTest("this machine dumps what its users may not read")
    for folder in (test.folder, *test.folder.parents[:2]):
        folder.chmod(0o755)
    keys = test.folder / "keys of another user"
    keys.mkdir(exist_ok=True)
    shutil.chown(keys, ANOTHER, ANOTHER)
    whose = {"user": ANOTHER, "group": ANOTHER, "extra_groups": []}
    streams = {"stdin": subprocess.PIPE, "stdout": subprocess.PIPE}
    with subprocess.Popen([program, "run"], cwd=keys, **streams, **whose) as it:
        it.stdin.write(b"\n")
        it.stdin.flush()
        test.assertEqual(it.stdout.readline(), b"NO 01 -\n")
        memory = f"/proc/{it.pid}/mem"
        owner = os.stat(memory).st_uid
        if owner != ANOTHER:
            reads = subprocess.run(["head", "-c", "1", memory], env={"LC_ALL": "C"}, stderr=subprocess.PIPE, text=True, **whose)
            test.assertIn("Permission denied", reads.stderr)
    return owner


class Installation(Case):
    def setUp(self):
        super().setUp()
        if not is_built():
            self.skipTest("the program of this checkout isn't built")
        self.prefix = self.folder / "a prefix"
        self.said = subprocess.run([INSTALLER, self.prefix], umask=0o077, capture_output=True, text=True)

    def test_program_and_its_page_alone(self):
        files = {"bin/cca": 0o711, "share/man/man1/cca.1": 0o644}
        self.assertEqual(self.said.stdout, "".join(f"install: {self.prefix / name}\n" for name in files))
        found = {str(it.relative_to(self.prefix)): it.stat().st_mode & 0o777 for it in self.prefix.rglob("*") if it.is_file()}
        self.assertEqual(found, files)
        folders = {it.stat().st_mode & 0o777 for it in (self.prefix, *self.prefix.rglob("*")) if it.is_dir()}
        self.assertEqual(folders, {0o755})
        self.assertEqual((self.prefix / "share/man/man1/cca.1").read_bytes(), (TOP / "docs" / "cca.1").read_bytes())

    def test_program_answers(self):
        came = Program(self.prefix / "bin" / "cca").run(self.folder, "run", given=(EXAMPLES / "first.txt").read_bytes())
        self.ends(came, 0, (EXAMPLES / "first.replies").read_text())

    @unittest.skipUnless(os.geteuid() == 0, "only root can run it as another user")
    def test_memory(self):
        """Another process of the user who runs the program doesn't read its memory, as it does where the user may read the program."""
        program = self.prefix / "bin" / "cca"
        self.assertEqual(owner_of_memory(self, program), 0)
        program.chmod(0o755)
        self.assertEqual(owner_of_memory(self, program), ANOTHER)

    def test_words(self):
        """Words that are no prefix, as of a variable that isn't set. No folder could be made, whatever the word is taken for."""
        (self.folder / "mkdir").symlink_to("/bin/false")
        environment = {**os.environ, "PATH": f"{self.folder}:{os.environ['PATH']}"}
        for words in ([""], ["a", "b"], ["--help"]):
            with self.subTest(words):
                it = subprocess.run([INSTALLER, *words], env=environment, capture_output=True, text=True)
                self.assertEqual((it.returncode, it.stderr), (2, "install: usage: tools/install/run [PREFIX]\n"))

    def test_prefix_that_cant_be_written(self):
        prefix = self.prefix / "bin" / "cca"
        it = subprocess.run([INSTALLER, prefix], stdout=subprocess.PIPE, stderr=subprocess.STDOUT, text=True)
        wanted = f"install: {prefix}/bin can't be written: name a prefix of your own, as ~/.local\n"
        self.assertEqual((it.returncode, it.stdout), (1, wanted))
