"""The program that the front runs: what the log and the state tell of it; that no other one comes into service since it has the name; a
reload, by SIGHUP and by the front's own socket; one that can't be read."""
import hashlib
import json
import os
import shutil
import signal
import stat
import subprocess
import sys
import unittest
from pathlib import Path

from tests.edits import PATHS, Edit, each_is_found
from tests.front import STUB, asked, children_of
from tests.front_control import Owned
from tests.harness import Fault

from cca_service.front import Status  # noqa: E402
from cca_service.prepare import sum_written  # noqa: E402
from cca_service.program import sum_text  # noqa: E402

FAULTS = [Fault('exec cat', case="Reloaded.test_of_the_program", tells="is this cca")]
EDITS = [
    Edit("program.py", 'way = f"/proc/self/fd/{self.file}"', "way = self.path", "Replaced.test_replaced"),
    Edit("program.py", "if now != self.identity and not", "if False and not", "Replaced.test_changed"),
    Edit("service.py", "and not self.program.is_told:", ":", "Replaced.test_replaced"),
    Edit("service.py", "        if new.identity == self.program.identity and new.sum == self.program.sum:", "        if False:", "Reloaded.test_same"),
    Edit("service.py", "            self.take(before)\n", "", "Reloaded.test_unfit"),
    Edit("front.py", "            self.is_reload_due, self.looked = True, 0.0", "            self.looked = 0.0", "Reloaded.test_signal"),
    Edit("program.py", "self.other = now, not self.is_same()", "self.other = now, True", "Replaced.test_same_bytes"),
    Edit("program.py", "if found.st_uid != 0 or found.st_mode & WRITTEN_BY_OTHERS:", "if False:", "Sums.test_told_by_another"),
    Edit("program.py", "for name in Identity._fields)) == wanted else None", 'for name in Identity._fields)) and "sha256" in told else None', "Sums.test_of_another_file"),
    Edit("trail.py", "                executable=program.way(),\n", "", "Replaced.test_trail"),
]


def sum_of(path):
    return hashlib.sha256(Path(path).read_bytes()).hexdigest()


class Programs(Owned):
    """A front over a program of its own, which can be replaced."""

    def setUp(self):
        super().setUp()
        self.own_program = self.folder / "program"
        self.put("one")
        self.stands = str(self.own_program)

    def text(self, name):
        """A script that notes its name when it is started, and goes on as the stand-in does."""
        return f"#!/bin/sh\necho {name} >>'{self.folder}/started'\nexec '{STUB}' \"$@\"\n"

    def put(self, name, text=None):
        """Puts a program in the place of the one before, as a package does: another file gets its name."""
        new = self.folder / "new"
        new.write_text(self.text(name) if text is None else text)
        new.chmod(0o755)
        new.rename(self.own_program)

    def started(self):
        return (self.folder / "started").read_text().split()

    def kill(self, front):
        """Kills cca, and waits for the next one."""
        child = next(children_of(front.pid))
        os.kill(child, signal.SIGKILL)
        self.comes(lambda: set(children_of(front.pid)) - {child})

    def events(self, name):
        return [it for it in self.told() if it.get("event") == name]


class Replaced(Programs):
    def test_replaced(self):
        """A program that was replaced doesn't come into service, however often cca ends: it is told once, and shown."""
        front = self.begin()
        first = sum_of(self.own_program)
        self.assertEqual([(it["path"], it["sha256"], it["version"]) for it in self.events("program")], [(str(self.own_program), first, None)])
        self.assertFalse(self.status()["program"]["is_replaced"])
        self.put("two")
        for _ in range(3):
            self.kill(front)
        self.is_serving()
        self.assertEqual(set(self.started()), {"one"})
        self.assertEqual([it["sha256"] for it in self.events("program replaced")], [first])
        self.assertEqual(self.status()["program"], {"path": str(self.own_program), "sha256": first, "version": None, "is_replaced": True})
        self.own_program.unlink()
        self.kill(front)
        self.is_serving()
        self.ends_well(front)

    def test_trail(self):
        """The trail too is fetched by the program that was started."""
        front = self.begin("--audit", str(self.folder / "trail.jsonl"))
        self.put("two")
        asked(self.folder / "TELLER", "A K")
        self.assertTrue(self.ask_own("fetch")["ok"])
        self.is_serving()
        self.ends_well(front)
        self.assertEqual(set(self.started()), {"one"})

    def test_same_bytes(self):
        """Another file with the same bytes is no other program."""
        front = self.begin()
        self.put("one")
        self.assertFalse(self.status()["program"]["is_replaced"])
        self.assertEqual(self.events("program replaced"), [])
        self.ends_well(front)

    def test_changed(self):
        """A file that was changed in its place: the bytes that were started are gone, and someone must look."""
        front = self.begin()
        with open(self.own_program, "a") as file:
            file.write("# more\n")
        os.kill(next(children_of(front.pid)), signal.SIGKILL)
        self.assertEqual(front.wait(60), Status.LOOK)
        self.assertIn("was changed in its place", self.told()[-1]["text"])


class Reloaded(Programs):
    def test_socket(self):
        """The new one is started between two requests, and told with its checksum."""
        front = self.begin()
        self.put("two")
        came = self.ask_own("reload")
        self.assertEqual(came, {"ok": True, "program": {"path": str(self.own_program), "sha256": sum_of(self.own_program), "version": None, "is_replaced": False}})
        self.is_serving()
        self.assertEqual(self.started(), ["one", "two"])
        self.assertEqual(self.events("program")[-1]["sha256"], sum_of(self.own_program))
        self.ends_well(front)

    def test_signal(self):
        """SIGHUP does the same; the trail is fetched by the one before, and no record loses its time."""
        front = self.begin("--audit", str(self.folder / "trail.jsonl"))
        asked(self.folder / "TELLER", "A K")
        self.put("two")
        front.send_signal(signal.SIGHUP)
        self.comes(lambda: len(self.events("program")) == 2)
        self.is_serving()
        self.ends_well(front)
        records = [json.loads(line) for line in (self.folder / "trail.jsonl").read_text().splitlines()]
        self.assertNotIn(None, [it["time"] for it in records])
        self.assertEqual(len(records), 6)

    def test_same(self):
        """Where it is the same one nothing is started anew."""
        front = self.begin()
        child = next(children_of(front.pid))
        self.assertTrue(self.ask_own("reload")["ok"])
        self.assertEqual((next(children_of(front.pid)), self.started()), (child, ["one"]))
        self.ends_well(front)

    def test_unfit(self):
        """One that isn't cca, that ends, that asks for a look, or isn't there: the one before goes on, and why is told."""
        front = self.begin()
        for text in ("#!/bin/sh\nexec cat\n", "#!/bin/sh\nexit 3\n", "#!/bin/sh\nexit 1\n", "no program"):
            with self.subTest(text):
                self.put("", text)
                came = self.ask_own("reload")
                self.assertEqual((came["ok"], type(came["why"])), (False, str))
                self.is_serving()
                self.assertTrue(self.status()["program"]["is_replaced"])
        self.own_program.unlink()
        self.assertEqual(self.ask_own("reload")["ok"], False)
        self.is_serving()
        self.assertEqual(set(self.started()), {"one"})
        self.put("two")
        self.assertTrue(self.ask_own("reload")["ok"])
        self.is_serving()
        self.ends_well(front)

    def test_of_the_program(self):
        """The same over the program itself, audited: a copy of it with some more bytes is another one, and serves the same files."""
        shutil.copy(self.program.path, self.own_program)
        front = self.begin("--audit", str(self.folder / "trail.jsonl"))
        self.assertEqual(asked(self.folder / "TELLER", "", "CSNBKYT key=L:K"), ["NO 01 -", "NO 03 -"])
        shutil.copy(self.own_program, self.folder / "new")
        with open(self.folder / "new", "ab") as file:
            file.write(b"\n")
        (self.folder / "new").rename(self.own_program)
        self.assertTrue(self.ask_own("reload")["ok"])
        self.assertEqual(self.status()["program"]["sha256"], sum_of(self.own_program))
        self.assertEqual(asked(self.folder / "TELLER", "CSNBKYT key=L:K"), ["NO 03 -"])
        self.ends_well(front)


class Sums(Programs):
    """A program that the front may run and not read, as where the package is installed: root wrote its checksum down."""

    def setUp(self):
        super().setUp()
        self.sums = self.folder / "program.json"

    def found(self, code="print(it.sum)"):
        """What another user than root finds."""
        folders = [it for it in (*self.folder.parents, self.folder) if it.name.startswith(("cca-tests-", "tmp")) and it != Path("/tmp")]
        for it in folders:
            it.chmod(0o711)
        self.own_program.chmod(0o711)
        start = f"import os, subprocess, sys; sys.path[:0] = {PATHS!r}; from cca_service.program import Program; os.setgid(54001); os.setuid(54001)"
        words = [sys.executable, "-B", "-c", f"{start}; it = Program({str(self.own_program)!r}, {str(self.sums)!r}); {code}"]
        it = subprocess.run(words, capture_output=True, text=True, cwd="/")
        self.assertEqual(it.returncode, 0, it.stderr)
        return it.stdout.strip()

    @unittest.skipUnless(os.getuid() == 0, "another user is tried by root")
    def test_told_by_root(self):
        self.assertEqual(self.found(), "None")
        self.sums.write_text(sum_text(str(self.own_program)))
        self.assertEqual(self.found(), sum_of(self.own_program))

    @unittest.skipUnless(os.getuid() == 0, "another user is tried by root")
    def test_told_by_another(self):
        """What others than root could have written isn't believed."""
        self.sums.write_text(sum_text(str(self.own_program)))
        self.sums.chmod(0o666)
        self.assertEqual(self.found(), "None")
        self.sums.chmod(0o644)
        os.chown(self.sums, 54001, 54001)
        self.assertEqual(self.found(), "None")

    @unittest.skipUnless(os.getuid() == 0, "another user is tried by root")
    def test_of_another_file(self):
        """A checksum that was written for the file before."""
        self.sums.write_text(sum_text(str(self.own_program)))
        self.put("two")
        self.assertEqual(self.found(), "None")
        for text in ("", "[]", "{}", '{"sha256": 5}', "\0"):
            self.sums.write_text(text)
            self.assertEqual(self.found(), "None")

    @unittest.skipUnless(os.getuid() == 0, "another user is tried by root")
    def test_started(self):
        """It is started by its descriptor all the same, and its memory stays closed to others of the same user."""
        shutil.copy(self.program.path, self.own_program)
        code = "print(subprocess.run(['cca'], executable=it.way(), pass_fds=(it.file,), capture_output=True, text=True).stderr.strip())"
        self.assertRegex(self.found(code), "^cca: usage: cca run")

    @unittest.skipUnless(os.getuid() == 0, "root writes it")
    def test_written(self):
        """What root writes when it prepares the service, again and again."""
        for name in ("one", "two"):
            self.put(name)
            path = Path("/run") / f"cca-of-a-test-{os.getpid()}.json"
            self.addCleanup(path.unlink, missing_ok=True)
            sum_written(str(path), str(self.own_program))
            self.assertEqual(json.loads(path.read_text())["sha256"], sum_of(self.own_program))
            self.assertEqual(stat.S_IMODE(path.stat().st_mode) & 0o022, 0)


class Planted(unittest.TestCase):
    """Each fault of EDITS is found by its case."""

    def test_edits(self):
        each_is_found(self, "front_program", EDITS)


if __name__ == "__main__":
    unittest.main()
