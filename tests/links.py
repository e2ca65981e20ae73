"""What may stand under the name of a file in place of one: a pipe, a device, a link, a second name of a file that another folder's
run has open; and a file that is cut while a run uses it. No file may be made or emptied through a link, no run may wait for a pipe,
and no request may be answered from a file that was cut.
"""
import os
import socket

from tests.harness import Calls, Case, Coprocess, Fault
from tests.keys import ONE_KEY

FAULTS = [
    # each run works on a file of its own, so that no run's lock is seen by another
    Fault(
        'for it in cca.*; do cp -p "$it" own && mv own "$it"; done 2>/dev/null; exec "$CCA" "$@"',
        case="Names.test_second_name_of_locked_file",
        tells="0 != 11",
    ),
    # a file is made through a link
    Fault(
        'for it in cca.*; do [ -e "$it" ] || : >"$(readlink "$it")"; done 2>/dev/null; exec "$CCA" "$@"',
        case="Names.test_link_to_missing_file",
        tells="was made through a link",
    ),
]

UNOPENED = "cca: a file could not be opened"
TEST, VALUE = "CSNBKYT role=DEFAULT key=L:A", "OK value=d5d44ff7"
DRAW = "CSNBRNG role=DEFAULT form=RANDOM"
# The files of each command, and its words.
COMMANDS = [
    (["run"], ["cca.module", "cca.store"]),
    (["audit"], ["cca.module", "cca.store", "cca.trail"]),
    (["trail"], ["cca.trail"]),
    (["unload", "DEFAULT", "TO", "DEFAULT", "FROM"], ["cca.module", "cca.store"]),
    (["demo", "1"], ["demo.module", "demo.store"]),
]


class Names(Case):
    def setUp(self):
        super().setUp()
        self.other = self.folder / "other"
        self.other.mkdir()
        self.here = self.folder / "here"
        self.here.mkdir()

    def keep(self, folder):
        """Makes a master key and a key in this folder."""
        self.assertTrue(all(reply.startswith("OK") for reply in self.ask(ONE_KEY, folder)))

    def refused(self, words, status=11, err=UNOPENED, **options):
        """The command must end at once, and take no request."""
        came = self.cca(*words, folder=self.here, given=[TEST], kill_after=60, **options)
        self.assertEqual(came.status, status, words)
        self.assertEqual([came.out, came.err], ["", f"{err}\n"], words)

    def each_file(self, put):
        """Puts something in the place of each file of each command, which must be refused and leave it there."""
        for words, names in COMMANDS:
            for name in names:
                place = self.here / name
                put(place)
                before = os.lstat(place)
                self.refused(words)
                after = os.lstat(place)
                self.assertEqual((before.st_ino, before.st_mode), (after.st_ino, after.st_mode), name)
                for it in self.here.iterdir():
                    it.unlink()

    def test_pipe(self):
        self.each_file(os.mkfifo)

    def test_socket(self):
        def bound(place):
            with socket.socket(socket.AF_UNIX) as it:
                it.bind(os.path.relpath(place))

        self.each_file(bound)

    def test_device(self):
        self.each_file(lambda place: place.symlink_to("/dev/zero"))

    # ---- links

    def test_link_to_missing_file(self):
        self.each_file(lambda place: place.symlink_to(self.other / "made"))
        self.assertEqual(list(self.other.iterdir()), [], "a file was made through a link")

    def test_link_to_empty_file(self):
        empty = self.other / "empty"
        empty.touch()
        self.each_file(lambda place: place.symlink_to(empty))
        self.assertEqual(empty.stat().st_size, 0)

    def test_link_to_whole_file(self):
        self.keep(self.other)
        for name in ("cca.module", "cca.store"):
            (self.here / name).symlink_to(self.other / name)
        self.replies([(TEST, VALUE), ("CSNBKRC role=DEFAULT label=B", "OK")], self.here)
        self.replies([("CSNBKRL role=DEFAULT prefix=", "OK count=2 labels=A,B")], self.other)

    def test_demo_empties_no_other_file(self):
        self.keep(self.here)
        before = (self.here / "cca.module").read_bytes()
        for make in (os.symlink, os.link):
            for name in ("demo.module", "demo.store"):
                make(self.here / "cca.module", self.here / name)
                self.refused(["demo", "1"])
                self.assertEqual((self.here / "cca.module").read_bytes(), before)
                for it in self.here.glob("demo.*"):
                    it.unlink()

    # ---- locks

    def test_second_name_of_locked_file(self):
        self.keep(self.other)
        with Coprocess(self.program, self.other) as first:
            self.assertEqual(first.ask(TEST), VALUE)
            for make in (os.symlink, os.link):
                for name in ("cca.module", "cca.store"):
                    make(self.other / name, self.here / name)
                self.refused(["run"])
                for name in ("cca.module", "cca.store"):
                    (self.here / name).unlink()
            self.assertEqual(first.ask(TEST), VALUE)

    def test_one_file_under_two_names(self):
        self.keep(self.here)
        before = (self.here / "cca.module").read_bytes()
        for make in (os.symlink, os.link):
            (self.here / "cca.store").unlink()
            make(self.here / "cca.module", self.here / "cca.store")
            self.refused(["run"])
            self.assertEqual((self.here / "cca.module").read_bytes(), before)

    # ---- files that are cut, and the random source

    def test_file_cut_during_a_run(self):
        for command, name, status in [("run", "cca.module", 6), ("run", "cca.store", 7), ("audit", "cca.trail", 13)]:
            for it in self.here.iterdir():
                it.unlink()
            self.keep(self.here)
            with Coprocess(self.program, self.here, command) as run:
                self.assertEqual(run.ask(TEST), VALUE)
                os.truncate(self.here / name, 0)
                run.write(f"{TEST}\n")
                self.assertEqual(run.process.stdout.read(), b"", name)
                self.assertEqual(run.close(), status, name)
            self.assertEqual((self.here / name).stat().st_size, 0)

    def test_random_source_in_another_place(self):
        self.keep(self.here)
        came = self.cca("run", folder=self.here, given=[TEST, DRAW, TEST], calls=Calls(instead=f"/dev/urandom={self.other}"))
        self.ends(came, 8, [VALUE], "cca: the random source failed")
