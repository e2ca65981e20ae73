"""The front's file of settings: what it says, what is meant where it says nothing, and that what is wrong is refused and its place told."""
import sys
import tempfile
import unittest
from pathlib import Path

from tests.edits import PATHS, Edit, each_is_found

sys.path[:0] = PATHS
from cca_service.settings import DoorSettings, Settings, SettingsError, read_settings  # noqa: E402

FAULTS = []  # its faults are edits of settings.py
EDITS = [
    Edit("settings.py", 'interpolation=None', 'interpolation=configparser.BasicInterpolation()', "Said.test_percent"),
    Edit("settings.py", 'default_section=""', 'default_section="DEFAULT"', "Wrong.test_sections"),
    Edit("settings.py", 'setattr(file, "optionxform", str)', "pass", "Wrong.test_words"),
    Edit("settings.py", "if word not in known:", "if False:", "Wrong.test_words"),
    Edit("settings.py", "if not value.isprintable() or not value:", "if not value:", "Wrong.test_values"),
    Edit("settings.py", "(/(?!\\.\\.?(/|$))[^/\\s]+)+", "(/[^/\\s]+)+", "Wrong.test_paths"),
    Edit("settings.py", "if user_limit > limit:", "if False:", "Wrong.test_numbers"),
    Edit("settings.py", "[1-9][0-9]{0,6}", "[0-9]{1,7}", "Wrong.test_numbers"),
    Edit("settings.py", "min(USER_LIMIT, limit)", "USER_LIMIT", "Said.test_little"),
    Edit("settings.py", "if door.path in paths:", "if False:", "Wrong.test_sockets"),
    Edit("settings.py", "!= door.group:", "== None:", "Wrong.test_sockets"),
    Edit("settings.py", "if len(os.fsencode(self.path(word))) > PATH_SIZE:", "if not self.path(word):", "Wrong.test_sockets"),
    Edit("settings.py", "if control and os.path.dirname(door.path) == os.path.dirname(control):", "if False:", "Said.test_own_socket"),
]
ALL = """# a comment
[front]
folder = /var/lib/cca
audit = /var/log/cca/trail.jsonl
log = /var/log/cca/front.log
program = /usr/bin/cca
program-sum = /run/cca/program.json
control = /run/cca/control/socket
limit = 100
user-limit = 7
idle = 0.5

[role TELLER]
group = cca-teller
socket = /run/cca/teller/socket

# another one
[role OFFICER]
group=cca-officer
socket=/run/cca/officer/socket
"""
LITTLE = "[front]\nfolder = /keys\n[role A]\ngroup = a\nsocket = /run/a/s\n"


class Read(unittest.TestCase):
    """Files of settings in a folder of each test."""

    def setUp(self):
        folder = tempfile.TemporaryDirectory()
        self.addCleanup(folder.cleanup)
        self.file = Path(folder.name) / "front.conf"

    def read(self, text):
        self.file.write_text(text)
        return read_settings(str(self.file))

    def refused(self, text, place):
        """A text is refused, and its place is told: a line, or a section with the word in it."""
        with self.subTest(text), self.assertRaises(SettingsError) as told:
            self.read(text)
        self.assertTrue(str(told.exception).startswith(f"{self.file}{place}"), told.exception)

    def each_refused(self, place, *changes):
        """The file is refused with each change of one line of it."""
        for before, after in changes:
            self.assertEqual(ALL.count(f"{before}\n"), 1, before)
            self.refused(ALL.replace(f"{before}\n", f"{after}\n"), place)


class Said(Read):
    def test_all(self):
        doors = (DoorSettings("TELLER", "/run/cca/teller/socket", "cca-teller"), DoorSettings("OFFICER", "/run/cca/officer/socket", "cca-officer"))
        wanted = Settings("/var/lib/cca", "/var/log/cca/trail.jsonl", "/var/log/cca/front.log", "/usr/bin/cca", 100, 7, 0.5, doors, "/run/cca/program.json", "/run/cca/control/socket")
        self.assertEqual(self.read(ALL), wanted)

    def test_little(self):
        """What is left out is as the front has it without a file; a user has no more connections than there are."""
        wanted = Settings("/keys", None, None, "cca", 256, 64, 600.0, (DoorSettings("A", "/run/a/s", "a"),))
        self.assertEqual(self.read(LITTLE), wanted)
        self.assertEqual(self.read(LITTLE.replace("[role", "limit = 9\n[role")).user_limit, 9)

    def test_own_socket(self):
        """Its folder is no role's, since others than the front's user may enter that."""
        self.refused(ALL.replace("/run/cca/control/socket", "/run/cca/teller/own"), ", [role TELLER]: the folder of its socket is that of the front's own one")
        self.refused(ALL.replace("/run/cca/control/socket", f"/run/{'a' * 103}"), ", [front]: control = ")
        self.refused(ALL.replace("/run/cca/control/socket", "control/socket"), ", [front]: control = ")

    def test_percent(self):
        self.assertEqual(self.read(LITTLE.replace("/keys", "/k%(limit)s")).folder, "/k%(limit)s")

    def test_two_sockets_of_one_group(self):
        both = LITTLE + "[role B]\ngroup = a\nsocket = /run/a/t\n"
        self.assertEqual([it.path for it in self.read(both).doors], ["/run/a/s", "/run/a/t"])


class Wrong(Read):
    def test_words(self):
        self.each_refused(", [front]: lmit is", ("limit = 100", "lmit = 100"))
        self.each_refused(", [front]: Limit is", ("limit = 100", "Limit = 100"))
        self.each_refused(", [front]: group is", ("limit = 100", "group = cca"))
        self.each_refused(", [role OFFICER]: limit is", ("group=cca-officer", "group=cca-officer\nlimit=1"))
        self.each_refused(", [front]: folder is missing", ("folder = /var/lib/cca", ""))
        self.each_refused(", [role OFFICER]: group is missing", ("group=cca-officer", ""))
        self.each_refused(", [role OFFICER]: socket is missing", ("socket=/run/cca/officer/socket", ""))

    def test_lines(self):
        self.each_refused(", line 9: ", ("limit = 100", "limit 100"), ("limit = 100", "limit: 100"))
        self.each_refused(", line 10: ", ("user-limit = 7", "limit = 7"))
        self.each_refused(", line 18: ", ("[role OFFICER]", "[role TELLER]"))
        self.each_refused(", line 2: ", ("[front]", "folder = /keys"))

    def test_sections(self):
        for name in ("DEFAULT", "front", "", "teller", "role", "role  A", "role a", "role ABCDEFGHI", "role 1", "role A B", "Role A", "role A\tB"):
            self.refused(f"{ALL}[{name}]\ngroup = a\nsocket = /run/a/s\n", ", ")
        self.each_refused(", [DEFAULT]", ("# a comment", "[DEFAULT]\nlimit = 5"))
        self.refused(ALL[: ALL.index("[role TELLER]")], ": no role")
        self.refused(ALL[ALL.index("[role TELLER]") :], ": the section [front]")

    def test_values(self):
        for value in ("", "100\n  200", "\x07"):
            self.each_refused(", [front]: limit", ("limit = 100", f"limit = {value}"))
        self.each_refused(", [front]: folder", ("folder = /var/lib/cca", "folder = /var/lib/\x07"))

    def test_numbers(self):
        for value in ("0", "-1", "1.5", "x", "1000001", "10000000", "0x10", "1_0", "٣", "100 # many"):
            self.each_refused(", [front]: limit", ("limit = 100", f"limit = {value}"))
        for value in ("0", "101", "-1"):
            self.each_refused(", [front]: user-limit", ("user-limit = 7", f"user-limit = {value}"))
        for value in ("0", "0.0", "-1", "nan", "inf", "1e3", "", "٣"):
            self.each_refused(", [front]: idle", ("idle = 0.5", f"idle = {value}"))

    def test_paths(self):
        for value in ("keys", "./keys", "/", "//keys", "/keys/", "/a/../b", "/a/./b", "/..", "/a b", "/keys # here", '"/keys"'):
            self.each_refused(", [front]: folder", ("folder = /var/lib/cca", f"folder = {value}"))
        for name in ("audit = /var/log/cca/trail.jsonl", "log = /var/log/cca/front.log"):
            word = name.partition(" ")[0]
            self.each_refused(f", [front]: {word}", (name, f"{word} = trail"))
        self.each_refused(", [front]: program", ("program = /usr/bin/cca", "program = bin/cca"))

    def test_sockets(self):
        of_officer = "socket=/run/cca/officer/socket"
        self.each_refused(", [role OFFICER]: another", (of_officer, "socket=/run/cca/teller/socket"))
        self.each_refused(", [role OFFICER]: the folder", (of_officer, "socket=/run/cca/teller/another"))
        self.each_refused(", [role OFFICER]: socket", (of_officer, "socket=socket"), (of_officer, f"socket=/{'a' * 107}"))
        self.assertEqual(len(self.read(ALL.replace(of_officer, f"socket=/{'a' * 106}")).doors[1].path), 107)
        for name in ("0", "-x", "a b", "Cca", "a" * 33, "a:b"):
            self.each_refused(", [role OFFICER]: group", ("group=cca-officer", f"group={name}"))

    def test_file(self):
        with self.assertRaisesRegex(SettingsError, "front.conf: .*No such file"):
            read_settings(str(self.file))
        self.file.write_bytes(b"[front]\nfolder = /\xff\n")
        with self.assertRaisesRegex(SettingsError, "front.conf: .*utf-8"):
            read_settings(str(self.file))


class Faults(unittest.TestCase):
    def test_each_is_found(self):
        each_is_found(self, "settings", EDITS)
