"""What root prepares for the front's sockets: groups and folders, and that no link and no other folder is changed in their place."""
import grp
import hashlib
import json
import os
import shutil
import stat
import subprocess
import sys
import tempfile
import unittest
from pathlib import Path

from tests.edits import FRONT, Edit, each_is_found

FAULTS = []  # its faults are edits of prepare.py
EDITS = [
    Edit("prepare.py", "os.O_DIRECTORY | os.O_NOFOLLOW", "os.O_DIRECTORY", "Refusals.test_link"),
    Edit("prepare.py", "        if not is_roots(folder):\n            break", "", "Refusals.test_folder_above"),
    Edit("prepare.py", "    if not is_roots(folder):\n        raise", "    if False:\n        raise", "Refusals.test_parent"),
    Edit("prepare.py", "return found.st_uid == 0 and", "return", "Refusals.test_parent"),
    Edit("prepare.py", "WRITTEN_BY_OTHERS = stat.S_IWGRP | stat.S_IWOTH", "WRITTEN_BY_OTHERS = stat.S_IWOTH", "Refusals.test_parent"),
    Edit("prepare.py", "    if os.fstat(folder).st_uid != user and (", "    if False and (", "Refusals.test_folder_in_use"),
    Edit("prepare.py", "found.st_uid != 0 or found.st_mode", "found.st_mode", "Refusals.test_settings_of_another"),
    Edit("prepare.py", "follow_symlinks=False", "follow_symlinks=True", "Refusals.test_settings_of_another"),
    Edit("prepare.py", "& kept:", "& set():", "Refusals.test_folder_of_keys"),
    Edit("prepare.py", "os.fchmod(folder, mode)", "pass", "Prepared.test_folders"),
    Edit("prepare.py", "owner.pw_gid, OWN_MODE)", "owner.pw_gid, MODE)", "Prepared.test_own_socket"),
    Edit("prepare.py", "    os.umask(0o022)\n", "", "Prepared.test_folders"),
]
PREPARE = (sys.executable, "-I", "-B", FRONT, "--prepare")
USER = "nobody"  # who stands for the user of the service
GROUPS = ("daemon", "nogroup")  # those of roles, which are there
OTHER = 12345


class Rooted(unittest.TestCase):
    """A folder, in which the folder run/cca is for sockets."""

    def setUp(self):
        folder = tempfile.TemporaryDirectory()
        self.addCleanup(folder.cleanup)
        self.folder = Path(folder.name)
        self.folder.chmod(0o755)
        self.above = self.folder / "run"
        self.sockets = self.above / "cca"
        self.settings = self.folder / "front.conf"
        self.write(self.sockets / "teller" / "socket", self.sockets / "officer" / "socket")

    def write(self, *sockets, folder="/var/lib/cca"):
        """Settings with these sockets, of the groups that are there in turn."""
        text = f"[front]\nfolder = {folder}\n"
        for number, path in enumerate(sockets):
            text += f"[role A{number}]\ngroup = {GROUPS[number % 2]}\nsocket = {path}\n"
        self.settings.write_text(text)
        self.settings.chmod(0o644)

    def prepare(self, *words, umask=0o077):
        return subprocess.run([*PREPARE, self.settings, "--user", USER, *words], capture_output=True, text=True, umask=umask)

    def shown(self, path):
        """Whose a folder is, and its mode."""
        found = path.lstat()
        return path.owner(), path.group(), oct(stat.S_IMODE(found.st_mode))

    def succeeds(self):
        it = self.prepare()
        self.assertEqual((it.returncode, it.stdout, it.stderr), (0, "", ""))

    def refuses(self, told):
        it = self.prepare()
        self.assertEqual((it.returncode, it.stdout), (1, ""), it.stderr)
        self.assertRegex(it.stderr, rf"\Aprepare: {told}.*\n\Z")


class AnyUser(Rooted):
    def test_folder_of_settings(self):
        """Settings in a folder of another user, who could put others there."""
        if os.geteuid() == 0:
            os.chown(self.folder, OTHER, OTHER)
        self.refuses(f"{self.folder} can be written by others than root")
        self.assertFalse(self.sockets.exists())


@unittest.skipUnless(os.geteuid() == 0, "root alone prepares")
class Prepared(Rooted):
    def test_folders(self):
        """They are made with those above them, and once more where they are there; what is in them stays."""
        for _ in range(2):
            self.succeeds()
            self.assertEqual(self.shown(self.sockets), ("root", "root", "0o755"))
            self.assertEqual(self.shown(self.sockets / "teller"), (USER, GROUPS[0], "0o2750"))
            self.assertEqual(self.shown(self.sockets / "officer"), (USER, GROUPS[1], "0o2750"))
            (self.sockets / "teller" / "socket").touch()
        self.assertTrue((self.sockets / "teller" / "socket").exists())

    def test_own_socket(self):
        """The folder of the front's own socket is for its user alone; and the checksum of the program stands where root alone writes."""
        program, sums = self.folder / "program", self.sockets / "program.json"
        for text in ("one", "another"):
            program.write_text(text)
            more = f"control = {self.sockets}/control/socket\nprogram = {program}\nprogram-sum = {sums}\n[role A0]"
            self.write(self.sockets / "teller" / "socket", self.sockets / "officer" / "socket")
            self.settings.write_text(self.settings.read_text().replace("[role A0]", more))
            self.succeeds()
            self.assertEqual(self.shown(self.sockets / "control")[::2], (USER, "0o700"))
            self.assertEqual(self.shown(sums), ("root", "root", "0o644"))
            self.assertEqual(json.loads(sums.read_text())["sha256"], hashlib.sha256(text.encode()).hexdigest())

    def test_another_group(self):
        """A role whose group was changed: its folder is the new group's."""
        self.succeeds()
        self.write(self.sockets / "officer" / "socket", self.sockets / "teller" / "socket")
        self.succeeds()
        self.assertEqual(self.shown(self.sockets / "teller"), (USER, GROUPS[1], "0o2750"))

    def test_folder_that_was_left_half_made(self):
        (self.sockets / "teller").mkdir(mode=0o700, parents=True)
        self.succeeds()
        self.assertEqual(self.shown(self.sockets / "teller"), (USER, GROUPS[0], "0o2750"))

    def test_group(self):
        """A group that is missing is made, as one of the system's; in a copy of /etc."""
        if not (shutil.which("unshare") and shutil.which("groupadd", path="/usr/sbin")):
            self.skipTest("unshare or groupadd isn't installed")
        shutil.copytree("/etc", self.folder / "etc", symlinks=True)
        self.settings.write_text(self.settings.read_text().replace("daemon", "cca-of-a-test"))
        script = 'mount --make-rprivate / && mount --bind "$1" /etc && shift && "$@" && getent group cca-of-a-test'
        words = ["unshare", "--mount", "sh", "-c", script, "sh", self.folder / "etc", *PREPARE, self.settings, "--user", USER]
        if subprocess.run(["unshare", "--mount", "mount", "--make-rprivate", "/"], capture_output=True).returncode:
            self.skipTest("this container mounts nothing")
        it = subprocess.run(words, capture_output=True, text=True)
        self.assertEqual((it.returncode, it.stderr), (0, ""))
        number = int(it.stdout.split(":")[2])
        self.assertEqual((self.sockets / "teller").stat().st_gid, number)
        self.assertLess(number, 1000)
        self.assertNotIn("cca-of-a-test", [it.gr_name for it in grp.getgrall()])


@unittest.skipUnless(os.geteuid() == 0, "root alone prepares")
class Refusals(Rooted):
    def stays(self, path):
        """Notes a folder, which must be as it is when the test ends."""
        before = self.shown(path), sorted(path.iterdir())
        self.addCleanup(lambda: self.assertEqual((self.shown(path), sorted(path.iterdir())), before))

    def test_link(self):
        """A link in the place of a folder, or above it, isn't followed, even where root made it."""
        victim = self.folder / "victim"
        victim.mkdir(mode=0o700)
        self.stays(victim)
        self.sockets.mkdir(parents=True)
        (self.sockets / "teller").symlink_to(victim)
        self.refuses(f"{self.sockets}/teller isn't a folder, or is a link")
        shutil.rmtree(self.sockets)
        self.sockets.symlink_to(victim)
        self.refuses(f"{self.sockets} isn't a folder, or is a link")

    def test_file(self):
        self.sockets.mkdir(parents=True)
        (self.sockets / "teller").touch()
        self.refuses(f"{self.sockets}/teller isn't a folder")

    def test_parent(self):
        """A folder that anyone but root may write, in which the folders of sockets stand."""
        self.sockets.mkdir(parents=True)
        for owner, group, mode in ((USER, "root", 0o755), ("root", GROUPS[1], 0o775), ("root", "root", 0o757)):
            with self.subTest(owner=owner, mode=oct(mode)):
                shutil.chown(self.sockets, owner, group)
                self.sockets.chmod(mode)
                self.refuses(f"{self.sockets} can be written by others than root")
                self.assertEqual(list(self.sockets.iterdir()), [])

    def test_folder_above(self):
        self.sockets.mkdir(parents=True)
        shutil.chown(self.above, USER)
        self.refuses(f"{self.above} can be written by others than root")
        self.assertEqual(list(self.sockets.iterdir()), [])

    def test_folder_in_use(self):
        """A folder that has something in it and isn't the service's, as /run would be for the socket /run/socket."""
        self.above.mkdir()
        (self.above / "lock").touch()
        self.stays(self.above)
        self.write(self.above / "socket")
        self.refuses(f"{self.above} is there, and is no folder of the service")

    def test_folder_of_another(self):
        """One that a user made there before, though nothing is in it."""
        self.sockets.mkdir(parents=True)
        (self.sockets / "teller").mkdir()
        os.chown(self.sockets / "teller", OTHER, OTHER)
        self.refuses(f"{self.sockets}/teller is there, and is no folder of the service")
        self.assertEqual((self.sockets / "teller").stat().st_uid, OTHER)

    def test_folder_of_keys(self):
        self.sockets.mkdir(parents=True)
        self.write(self.sockets / "socket", folder=self.sockets)
        self.refuses(f"{self.sockets} has keys or logs")

    def test_settings_of_another(self):
        """Settings that anyone but root may write."""
        it = self.settings
        os.chown(it, OTHER, OTHER)
        self.refuses(f"{it} is no file that root alone may write")
        os.chown(it, 0, 0)
        it.chmod(0o664)
        self.refuses(f"{it} is no file that root alone may write")
        it.chmod(0o644)
        it.rename(self.folder / "elsewhere")
        it.symlink_to("elsewhere")
        self.refuses(f"{it} is no file that root alone may write")
        it.unlink()
        self.refuses(".*No such file")

    def test_wrong_settings(self):
        self.settings.write_text(self.settings.read_text().replace("folder =", "folders ="))
        self.refuses(f"{self.settings}, \\[front\\]: folders is no setting")

    def test_user(self):
        it = self.prepare("--user", "cca-of-no-machine")
        self.assertEqual((it.returncode, it.stderr), (1, "prepare: the user cca-of-no-machine isn't there\n"))
        self.assertFalse(self.above.exists())


class Faults(unittest.TestCase):
    @unittest.skipUnless(os.geteuid() == 0, "root alone prepares")
    def test_each_is_found(self):
        each_is_found(self, "prepare", EDITS)
