"""`ccactl backup`, `verify`, `restore` and `repair-cell` where no front runs: keys whose check values OpenSSL computes come
back as they were; what doesn't fit, was damaged or changed is refused; and a kill at any write, sync or rename leaves nothing
half done."""
import json
import os
import re
import shutil
import signal
import subprocess
import sys
import time
import unittest

from tests.edits import Edit, each_is_found
from tests.formats import BODIES, BODY, CELL, as_part, entered, made, pattern, selected, types, value
from tests.harness import Coprocess, Fault
from tests.keys import QUICK, ceremony, stored
from tests.served import CCACTL, Served, ccactl

FAULTS = [Fault('"$CCA" "$@" | sed -u "s/value=./value=0/"', case="Backups.test_both", tells="0[0-9a-f]{5}")]
CTL = "service/cca_service/ctl/"
EDITS = [
    Edit(CTL + "manifest.py", "if image.sha256 != wanted:", "if False:", "Verified.test_changed_files"),
    Edit(CTL + "manifest.py", 'if found.text("format") != FORMAT:', "if False:", "Verified.test_what_is_no_backup"),
    Edit(CTL + "opening.py", "        opened(program, folder)\n", "", "Backups.test_damaged_cell"),
    Edit(CTL + "opening.py", "if damaged:", "if False:", "Backups.test_another_program"),
    Edit(CTL + "opening.py", "first = [] if role.points & KYT else", "first = [] if True else", "Backups.test_roles_that_may_not_test"),
    Edit(CTL + "backup.py", "    lines = list(differences(wanted, values))\n", "    lines = []\n", "Verified.test_exchanged_key"),
    Edit(CTL + "backup.py", "is_same = same_registers(backup.manifest.registers, registers)", "is_same = True", "Verified.test_store_under_others"),
    Edit(CTL + "backup.py", "os.rename(part, path)", "os.mkdir(path)", "Backups.test_both"),
    Edit(CTL + "restore.py", "os.link(self.path, kept, follow_symlinks=False)", "pass", "Restored.test_both"),
    Edit(CTL + "restore.py", "    for line in lines:\n        tell(line)\n    if lines:", "    if False:", "Restored.test_exchanged_key"),
    Edit(CTL + "restore.py", "with without_front(place.folder), locked", "with locked", "Restored.test_in_use"),
    Edit(CTL + "later.py", "step.number > last_record", "True", "Restored.test_later_keys"),
    Edit(CTL + "later.py", "if it.pattern and it.pattern not in held:", "if it.pattern:", "Restored.test_one_later_key"),
    Edit(CTL + "repair.py", "if backup and not same_registers", "if False and not same_registers", "Repaired.test_other_registers"),
    Edit(CTL + "repair.py", "if repair.damage is None and", "if False and", "Repaired.test_what_isnt_damaged"),
    Edit(CTL + "repair.py", "    if elsewhere:\n", "    if False:\n", "Repaired.test_label_that_moved"),
    Edit(CTL + "repair.py", "write_at(files.store_file, begin + SECTOR * (2 - active)", "write_at(files.store_file, begin + SECTOR * (1 + active)",
         "Killed.test_repair"),
    Edit(CTL + "scratch.py", "    finally:\n        removed(folder)", "    finally:\n        pass", "Backups.test_both"),
    Edit(CTL + "scratch.py", "    sweep(where)\n", "", "Killed.test_scratch_folder"),
    Edit(CTL + "main.py", "        signal.signal(it, signal.SIG_IGN)\n    raise Ending(number)", "        pass", "Signals.test_backup"),
]  # fmt: skip
MASTER, NEXT = made("master", 24), made("next master", 24)
SINGLE, DOUBLE, THIRD = made("single", 8), made("double", 16), made("third", 16)
KEYS = {
    "A": (SINGLE, types()["CIPHER"][8]),
    "B": (DOUBLE, types()["MAC"][16]),
    "C": (THIRD, as_part(types()["EXPORTER"][16])),
    "D": None,
}
VALUES = {"A": value(SINGLE)[:6], "B": value(DOUBLE)[:6], "C": None, "D": None}
MKVP = pattern(MASTER).hex()
DONE = f"2 keys with their check values, current master key {MKVP}"
BOTH = ("cca.module", "cca.store")


class Keyed(Served):
    def setUp(self):
        super().setUp()
        self.scratch = self.folder / "scratch"
        self.scratch.mkdir()
        self.replies([*ceremony(MASTER), *stored(MASTER, KEYS)], self.keys, calls=QUICK)

    def at(self, command, *words):
        """A subcommand over the folder of the keys; nothing stays in the scratch folder."""
        scratch = ("--scratch", self.scratch)
        came = self.ctl(command, *words, "--folder", self.keys, *scratch)
        self.assertEqual(list(self.scratch.iterdir()), [])
        return came

    def backup(self, name, *words):
        """A backup, which must be made."""
        came = self.at("backup", self.folder / name, *words)
        self.assertEqual(came[0], 0, came[2])
        return self.folder / name

    def kept(self):
        return {name: (self.keys / name).read_bytes() for name in BOTH}

    def damage(self, cell, place=70, file="cca.store"):
        """A byte of the active copy of a cell becomes another one."""
        path = self.keys / file
        data = bytearray(path.read_bytes())
        data[CELL * cell + BODIES[data[CELL * cell] % 2] + place] ^= 0xFF
        path.write_bytes(data)

    def told(self, folder):
        return json.loads((folder / "backup.json").read_text())


class Backups(Keyed):
    def test_both(self):
        """Both files, byte by byte, with the check values that OpenSSL computes, in a private folder."""
        before = self.kept()
        came = self.at("backup", self.folder / "b")
        self.ends_so(came, 0, [f"cca.module and cca.store copied: {DONE}"])
        folder = self.folder / "b"
        self.assertEqual(sorted(it.name for it in folder.iterdir()), ["backup.json", *BOTH])
        self.assertEqual([f"{it.stat().st_mode & 0o777:o}" for it in (folder, *sorted(folder.iterdir()))], ["700", "600", "600", "600"])
        self.assertEqual({name: (folder / name).read_bytes() for name in BOTH}, before)
        told = self.told(folder)
        self.assertEqual(told["values"], VALUES)
        self.assertEqual(told["registers"]["current"], {"state": "full", "pattern": MKVP})
        sums = subprocess.run(["sha256sum", *BOTH], cwd=folder, capture_output=True, text=True, check=True).stdout.split()[::2]
        self.assertEqual(told["files"], dict(zip(BOTH, sums)))
        self.assertEqual(self.kept(), before)

    def test_one_file(self):
        """The store has no master key, nor has what is told beside it."""
        store, module = self.backup("s", "--store"), self.backup("m", "--module")
        self.assertEqual(sorted(it.name for it in store.iterdir()), ["backup.json", "cca.store"])
        self.assertEqual(sorted(it.name for it in module.iterdir()), ["backup.json", "cca.module"])
        for path in (store / "cca.store", store / "backup.json", module / "backup.json"):
            data = path.read_bytes()
            for key in (MASTER, SINGLE, DOUBLE, THIRD):
                self.assertFalse(key[:8] in data or key[:8].hex().encode() in data, path)
        self.ends_so(self.at("verify", store), 0, [f"cca.store verified: {DONE}"])
        self.ends_so(self.at("verify", module), 0, [f"cca.module verified: {DONE}"])
        self.ends_so(self.at("verify", store, "--with", module), 0, [f"cca.store verified: {DONE}"])

    def test_folder_that_is_there(self):
        """Nothing is written over."""
        self.backup("b")
        before = (self.folder / "b" / "backup.json").read_bytes()
        self.ends_so(self.at("backup", self.folder / "b"), 2, tells="is there already")
        (self.folder / "link").symlink_to(self.folder / "nowhere")
        self.ends_so(self.at("backup", self.folder / "link"), 2, tells="is there already")
        self.assertEqual((self.folder / "b" / "backup.json").read_bytes(), before)

    def test_damaged_cell(self):
        """No backup is made of it, and which cell it is is told as cca tells it."""
        self.damage(1)
        self.ends_so(self.at("backup", self.folder / "b"), 3, tells="exit status 3, cca: store cell 1 is damaged")
        self.assertEqual([it.name for it in self.folder.glob("b*")], [])

    def test_missing_files(self):
        """Nothing is made in their place."""
        for name in BOTH:
            (self.keys / name).rename(self.folder / name)
            self.ends_so(self.at("backup", self.folder / "b"), 3, tells=f"has no {name}")
            self.assertFalse((self.keys / name).exists() or (self.folder / "b").exists())
            (self.folder / name).rename(self.keys / name)

    def test_run_has_the_files(self):
        with Coprocess(self.program, self.keys) as other:
            other.ask("A")
            self.ends_so(self.at("backup", self.folder / "b"), 1, tells="cca.module is in use")
        self.assertFalse((self.folder / "b").exists())

    def test_another_program(self):
        """A program that opens anything isn't believed: what it opens is read here too."""
        stand_in = self.folder / "cca"
        stand_in.write_text("#!/bin/sh\nwhile read -r line; do echo 'OK value=00000000'; done\n")
        stand_in.chmod(0o755)
        self.damage(1)
        self.ends_so(self.at("backup", self.folder / "b", "--program", stand_in), 3, tells="otherwise than cca: cell 1 is damaged")
        self.damage(1)
        self.ends_so(self.at("backup", self.folder / "b", "--program", stand_in), 3, tells="cell 2, label C: .* was OK value=")
        self.ends_so(self.at("backup", self.folder / "b", "--program", "/bin/false"), 3, tells="exit status 1, no text")
        self.ends_so(self.at("backup", self.folder / "b", "--program", self.folder / "none"), 1, tells="none: No such file")
        self.assertFalse((self.folder / "b").exists())

    def test_roles_that_may_not_test(self):
        """A role that may define roles is enough; without one the cells alone are checked, which is told."""
        self.ask(["CSUAACI role=DEFAULT action=DEFINE name=DEFAULT points=01000000"], self.keys)
        before = self.kept()
        self.assertEqual(self.told(self.backup("b"))["values"], VALUES)
        self.assertEqual(self.kept(), before)
        self.ask(["CSUAACI role=DEFAULT action=DEFINE name=DEFAULT points=00000001"], self.keys)
        came = self.at("backup", self.folder / "c")
        self.ends_so(came, 1, [f"cca.module and cca.store copied: no check value was compared, current master key {MKVP}"], "no role")
        self.assertIsNone(self.told(self.folder / "c")["values"])


class Verified(Keyed):
    def setUp(self):
        super().setUp()
        self.both = self.backup("both")

    def write(self, name, data):
        (self.both / name).write_bytes(data)

    def test_changed_files(self):
        """A byte of any file."""
        for name in BOTH:
            whole = (self.both / name).read_bytes()
            for at in (0, 700, len(whole) - 1):
                with self.subTest(name=name, at=at):
                    self.write(name, whole[:at] + bytes([whole[at] ^ 1]) + whole[at + 1 :])
                    self.ends_so(self.at("verify", self.both), 3, tells=f"{name} was changed, or is damaged")
            self.write(name, whole[:-1])
            self.ends_so(self.at("verify", self.both), 3, tells=f"{name} has {len(whole) - 1} bytes")
            (self.both / name).unlink()
            self.ends_so(self.at("verify", self.both), 1, tells=f"{name}: No such file")
            self.write(name, whole)
        self.ends_so(self.at("verify", self.both), 0, [f"cca.module and cca.store verified: {DONE}"])

    def test_what_is_no_backup(self):
        """Whatever stands in its file of words, it is told in a line."""
        good = self.told(self.both)
        bad = [b"", b"{", b"[]", b"\xff\xfe", b"[" * 100_000, b"null", b"{}", b"9" * 5000]
        for name in good:
            for other in (None, 7, -5, "x", [], {}, {"x": "y"}, {"x\x1b[2J": 1}, True):
                if name not in ("time", "made_by", "values", "last_record") or other in (7, [], "x") and name not in ("made_by", "last_record"):
                    bad.append(json.dumps({**good, name: other}).encode())
        bad.append(json.dumps({**good, "files": {"../../etc/passwd": good["module"]}}).encode())
        bad.append(json.dumps({**good, "format": "cca backup 2"}).encode())
        bad.append(json.dumps({**good, "values": {"a b": "123456"}}).encode())
        for data in bad:
            if data == json.dumps({**good, "time": "x"}).encode():
                continue
            with self.subTest(data[:200]):
                self.write("backup.json", data)
                self.ends_so(self.at("verify", self.both), 3, tells="^ccactl verify: [^\n]*backup.json isn't what a backup says of itself\n$")

    def test_exchanged_key(self):
        """Another key under a label, with the checksums made to fit: its check value is another one than the one that is
        told."""
        self.ask(["CSNBKGN role=DEFAULT form=OP length=16 type1=MAC to=L:B"], self.keys)
        other = self.backup("other")
        told = {**self.told(other), "values": VALUES}
        (other / "backup.json").write_text(json.dumps(told))
        self.ends_so(self.at("verify", other), 3, tells=rf"(?s)B: the check value is [0-9a-f]{{6}}, and was {VALUES['B']}.*aren't those")

    def test_store_under_others(self):
        """A store alone, beside a service with another master key: a module of that time is needed."""
        store, module = self.backup("s", "--store"), self.backup("m", "--module")
        self.replies([*ceremony(NEXT), ("REENCIPHER role=DEFAULT", "OK changed=3")], self.keys)
        self.ends_so(self.at("verify", store), 1, tells="name a backup that has it by --with")
        self.ends_so(self.at("verify", store, "--with", module), 0, [f"cca.store verified: {DONE}"])
        came = self.at("verify", module)
        self.ends_so(came, 0, [f"cca.module verified: 0 keys with their check values, current master key {MKVP}"], "only the cells")


class Restored(Keyed):
    def restore(self, *words):
        return self.at("restore", *words)

    def test_both(self):
        """The state of the backup, byte by byte; what is replaced is kept under another name, each time under another one."""
        folder, before = self.backup("b"), self.kept()
        self.ask(["CSNBKRD role=DEFAULT label=A", "CSUAACI role=DEFAULT action=DEFINE name=X points=00000001"], self.keys)
        changed = self.kept()
        kept = [f"kept: {name}.before-restore" for name in BOTH]
        end = ["no trail's log was named: --log", "no master key was set after the backup"]
        self.ends_so(self.restore(folder), 0, ["cca.module and cca.store restored", *kept, *end])
        self.assertEqual(self.kept(), before)
        self.assertEqual({name: (self.keys / f"{name}.before-restore").read_bytes() for name in BOTH}, changed)
        self.assertEqual({f"{it.stat().st_mode & 0o777:o}" for it in self.keys.iterdir()}, {"600"})
        self.assertIn("kept: cca.store.before-restore-2", self.restore(folder, "--store")[1])
        self.replies([("CSNBKYT role=DEFAULT key=L:A", f"OK value={value(SINGLE)}")], self.keys)

    def test_into_an_empty_folder(self):
        """As a drill, or after a lost drive; the store alone needs its module."""
        both, store = self.backup("b"), self.backup("s", "--store")
        for name in BOTH:
            (self.keys / name).unlink()
        self.ends_so(self.restore(store), 3, tells="would have no cca.module")
        self.assertEqual(list(self.keys.iterdir()), [])
        came = self.restore(both)
        self.assertEqual((came[0], "there was no module" in came[1]), (0, True))
        self.replies([("CSNBKYT role=DEFAULT key=L:B", f"OK value={value(DOUBLE)}")], self.keys)

    def test_store_of_another_module(self):
        store = self.backup("s", "--store")
        self.replies([*ceremony(NEXT), ("REENCIPHER role=DEFAULT", "OK changed=3")], self.keys)
        before = self.kept()
        self.ends_so(self.restore(store), 1, tells="of a module with other master keys")
        self.ends_so(self.restore(store, "--module"), 2, tells="has no cca.module")
        self.assertEqual((self.kept(), sorted(it.name for it in self.keys.iterdir())), (before, [*BOTH]))

    def test_exchanged_key(self):
        """Nothing is restored where the keys aren't those that the backup had."""
        folder = self.backup("b")
        (folder / "backup.json").write_text(json.dumps({**self.told(folder), "values": {**VALUES, "A": "000000"}}))
        before = self.kept()
        self.ends_so(self.restore(folder), 3, tells="(?s)A: the check value is .*nothing was restored")
        self.assertEqual(self.kept(), before)

    def test_in_use(self):
        """A front has the folder, or a run has the files."""
        folder, before = self.backup("b"), self.kept()
        with Coprocess(self.program, self.keys) as other:
            other.ask("A")
            self.ends_so(self.restore(folder), 1, tells="is in use")
        script = "import fcntl, os, sys, time; fcntl.flock(os.open('.', os.O_RDONLY), fcntl.LOCK_EX); print(flush=True); time.sleep(60)"
        with subprocess.Popen([sys.executable, "-c", script], cwd=self.keys, stdout=subprocess.PIPE) as front:
            front.stdout.readline()
            self.ends_so(self.restore(folder), 1, tells="a front has .*: stop it first")
            front.kill()
        self.assertEqual(self.kept(), before)

    def test_one_later_key(self):
        """The master key of the backup isn't told, which the module that is replaced has as the old one."""
        folder = self.backup("b")
        self.replies([*ceremony(NEXT), ("REENCIPHER role=DEFAULT", "OK changed=3")], self.keys)
        later = [it for it in self.restore(folder)[1].splitlines() if it.startswith("enter and set")]
        self.assertEqual(later, [f"enter and set the master key with pattern {pattern(NEXT).hex()}, which was the current one"])

    def test_later_keys(self):
        """Master keys that were set after the backup, in their order, and who did what by the trail's log."""
        roles = [("CUSTOD1", "00100000"), ("CUSTOD2", "00200000"), ("SECADMIN", "00c00000")]
        self.ask([f"CSUAACI role=DEFAULT action=DEFINE name={name} points={points}" for name, points in roles], self.keys, command="audit")
        folder = self.backup("b")
        self.assertEqual(self.told(folder)["last_record"], 2)
        for master in (NEXT, made("third master", 24)):
            first, last, set_ = entered(master, "SET")
            lines = [first.replace("DEFAULT", "CUSTOD1"), last.replace("DEFAULT", "CUSTOD2"), set_.replace("DEFAULT", "SECADMIN")]
            self.ask([*lines, "REENCIPHER role=DEFAULT"], self.keys, command="audit")
        log, fields = self.folder / "log", ("number", "rule", "role", "verb", "label")
        rows = [dict(zip(fields, line.split(" "))) for line in self.cca("trail", folder=self.keys).lines]
        log.write_text("".join(json.dumps({**row, "number": int(row["number"]), "time": "T", "fetched": "F"}) + "\n" for row in rows) + "\0\0{")
        came = self.restore(folder, "--log", log)
        steps = [f"later, by the trail's log: {at + 3} T {who}" for at, who in (
            (0, "CUSTOD1 CSNBMKP FIRST"), (1, "CUSTOD2 CSNBMKP MIDDLE or LAST"), (2, "SECADMIN CSNBMKP CLEAR or SET"),
            (4, "CUSTOD1 CSNBMKP FIRST"), (5, "CUSTOD2 CSNBMKP MIDDLE or LAST"), (6, "SECADMIN CSNBMKP CLEAR or SET"),
        )]  # fmt: skip
        keys = [
            f"enter and set the master key with pattern {pattern(NEXT).hex()}, which was the old one",
            f"enter and set the master key with pattern {pattern(made('third master', 24)).hex()}, which was the current one",
        ]
        self.assertEqual((came[0], came[1].splitlines()[3:]), (0, [*steps, *keys]))


class Repaired(Keyed):
    def setUp(self):
        super().setUp()
        self.store = self.backup("store", "--store")

    def repair(self, cell, *words):
        return self.at("repair-cell", cell, *words)

    def test_shown_and_done(self):
        """It is shown first; then this cell is as it was, and the others as they are today."""
        self.ask(["CSNBKRC role=DEFAULT label=TODAY", "CSNBKRD role=DEFAULT label=A"], self.keys)
        self.damage(1)
        before = self.kept()
        lines = ["cell 1 is damaged: its token breaks rule 10", f"from the backup: cell 1: B current MAC 16 {types()['MAC'][16].hex()}"]
        self.ends_so(self.repair(1, "--from", self.store), 1, [*lines, "nothing was changed yet: --yes does it"])
        self.assertEqual(self.kept(), before)
        self.ends_so(self.repair(1, "--from", self.store, "--yes"), 0, [*lines, "repaired"])
        self.replies([("CSNBKYT role=DEFAULT key=L:B", f"OK value={value(DOUBLE)}"), ("CSNBKRL role=DEFAULT prefix=", "OK count=4 labels=B,C,D,TODAY")],
                     self.keys)  # fmt: skip
        after = selected((self.keys / "cca.store").read_bytes())
        self.assertEqual([at for at, (one, other) in enumerate(zip(selected(before["cca.store"]), after)) if one != other], [1])

    def test_what_isnt_damaged(self):
        """A valid cell is only replaced where that is said. No cell of another number is there."""
        self.ends_so(self.repair(1, "--from", self.store, "--yes"), 2, tells="cell 1 isn't damaged: cell 1: B current")
        for cell in (-1, 1024, 10**30):
            self.ends_so(self.repair(f"{cell}", "--from", self.store), 2, tells="the cells 0 to 1023|expected one argument|unrecognized")
        self.assertEqual(self.repair(1, "--from", self.store, "--yes", "--valid-too")[0], 0)
        self.ends(self.cca("run", folder=self.keys), 0)

    def test_other_registers(self):
        """A backup from before a SET."""
        self.replies([*ceremony(NEXT), ("REENCIPHER role=DEFAULT", "OK changed=3")], self.keys)
        self.damage(1)
        before = self.kept()
        self.ends_so(self.repair(1, "--from", self.store, "--yes"), 1, tells="other master keys than the module")
        self.assertEqual(self.kept(), before)

    def test_label_that_moved(self):
        """The label that the backup has in this cell is in another one today: then this cell can only be made empty."""
        self.ask(["CSNBKRD role=DEFAULT label=B", "CSNBKRD role=DEFAULT label=A", "CSNBKRC role=DEFAULT label=B", "CSNBKRC role=DEFAULT label=X"],
                 self.keys)  # fmt: skip
        self.damage(1, 1)
        self.ends_so(self.repair(1, "--from", self.store, "--yes"), 1, tells="is in cell 0 today.*--empty")
        self.ends_so(self.repair(1, "--empty", "--yes"), 0, ["cell 1 is damaged: the length of the label is 254", "from the backup: cell 1: no record",
                                                              "repaired"])  # fmt: skip
        self.replies([("CSNBKRL role=DEFAULT prefix=", "OK count=3 labels=B,C,D")], self.keys)

    def test_two_cells(self):
        """One after the other."""
        self.damage(0)
        self.damage(1)
        came = self.repair(0, "--from", self.store, "--yes")
        self.assertEqual((came[0], "1 other cells are damaged" in came[2]), (0, True))
        self.assertEqual(self.repair(1, "--from", self.store, "--yes")[0], 0)
        self.assertEqual(self.kept()["cca.module"], self.kept()["cca.module"])
        self.replies([("CSNBKYT role=DEFAULT key=L:A", f"OK value={value(SINGLE)}")], self.keys)

    def test_changed_master_key(self):
        """A bit of the master key: every cell is told as damaged, and nothing is repaired."""
        self.damage(0, 40, "cca.module")
        self.ends_so(self.repair(0, "--from", self.store, "--yes"), 1, tells="other master keys than the module")


class Killed(Keyed):
    """A kill before each write, sync, link, rename or removal."""

    calls = ("write", "fsync", "link", "rename", "unlink", "mkdir", "rmdir")

    def killed(self, number, *words):
        """Runs ccactl in a child that is killed before its call of this number. Whether it was."""
        child = os.fork()
        if child:
            return os.WIFSIGNALED(os.waitpid(child, 0)[1])
        left = [number]

        def counted(call):
            def counts(*given, **named):
                left[0] -= 1
                if not left[0]:
                    os.kill(os.getpid(), signal.SIGKILL)
                return call(*given, **named)

            return counts

        try:
            os.environ["CCA"] = self.program.path
            for name in self.calls:
                setattr(os, name, counted(getattr(os, name)))
            for stream in (1, 2):
                os.dup2(os.open(os.devnull, os.O_WRONLY), stream)
            ccactl.main([str(it) for it in (*words, "--folder", self.keys, "--scratch", self.scratch)])
        finally:
            os._exit(0)

    def each(self, words, check, again):
        """Kills it at each call, checks what is left, and lets `again` put the state back."""
        number = 1
        while self.killed(number, *words()):
            with self.subTest(number):
                check()
                again()
            number += 1
        self.assertGreater(number, 8)
        check()

    def wipe_scratch(self):
        shutil.rmtree(self.scratch)
        self.scratch.mkdir()

    def test_backup(self):
        """The folder has its name only where all of it is there; what a kill leaves is in nobody's way."""
        target = self.folder / "b"

        def check():
            self.wipe_scratch()
            if target.exists():
                self.ends_so(self.at("verify", target), 0, [f"cca.module and cca.store verified: {DONE}"])

        self.each(lambda: ("backup", target), check, lambda: shutil.rmtree(target, ignore_errors=True))
        self.assertTrue(target.exists())
        self.assertEqual(list(self.folder.glob("b.part")), [])

    def test_restore(self):
        """Each file is that of the backup or the one before; the same command puts all right."""
        folder, new = self.backup("b"), self.kept()
        self.ask(["CSNBKRD role=DEFAULT label=A", "CSUAACI role=DEFAULT action=DEFINE name=X points=00000001"], self.keys)
        old = self.kept()

        def check():
            self.wipe_scratch()
            for name, data in self.kept().items():
                self.assertIn(data, (old[name], new[name]))

        def again():
            self.assertEqual(self.at("restore", folder)[0], 0)
            self.assertEqual(self.kept(), new)
            self.assertTrue(any(it.read_bytes() == old["cca.store"] for it in self.keys.glob("cca.store.before-restore*")))
            self.assertEqual([it.name for it in self.keys.glob(".*")], [])
            for it in self.keys.iterdir():
                it.unlink()
            for name, data in old.items():
                (self.keys / name).write_bytes(data)

        self.each(lambda: ("restore", folder), check, again)
        self.assertEqual(self.kept(), new)

    def test_repair(self):
        """The cell is as it was, or repaired, and no other one changes."""
        store = self.backup("s", "--store")
        good = selected((self.keys / "cca.store").read_bytes())
        self.damage(1)
        bad = self.kept()["cca.store"]

        def check():
            self.wipe_scratch()
            bodies = selected((self.keys / "cca.store").read_bytes())
            self.assertIn(bodies, (good, selected(bad)))

        self.each(lambda: ("repair-cell", 1, "--from", store, "--yes"), check, lambda: (self.keys / "cca.store").write_bytes(bad))
        self.assertEqual(selected((self.keys / "cca.store").read_bytes()), good)

    def test_scratch_folder(self):
        """What a program that was killed has left in the scratch folder is wiped by the next one, and what one uses isn't."""
        left, used = self.scratch / "ccactl-left", self.scratch / "ccactl-used"
        for folder in (left, used):
            folder.mkdir(mode=0o700)
            (folder / "cca.module").write_bytes(MASTER)
            os.utime(folder, (time.time() - 1000,) * 2)
        script = "import fcntl, os, time; fcntl.flock(os.open('.', os.O_RDONLY), fcntl.LOCK_EX); print(flush=True); time.sleep(60)"
        with subprocess.Popen([sys.executable, "-c", script], cwd=used, stdout=subprocess.PIPE) as other:
            other.stdout.readline()
            self.ctl("backup", self.folder / "b", "--folder", self.keys, "--scratch", self.scratch)
            other.kill()
        self.assertEqual([it.name for it in self.scratch.iterdir()], ["ccactl-used"])


class Signals(Keyed):
    def test_backup(self):
        """A signal while cca opens the copy: no copy of a master key stays anywhere, and the program ends by that signal."""
        stand_in = self.folder / "stand-in"
        stand_in.write_text(f"#!/bin/sh\ntouch '{self.folder}/opened'\nexec sleep 60\n")
        stand_in.chmod(0o755)
        for number in (signal.SIGTERM, signal.SIGINT, signal.SIGHUP):
            with self.subTest(number):
                words = [sys.executable, "-I", "-B", CCACTL, "backup", self.folder / "b", "--folder", self.keys, "--scratch", self.scratch]
                with subprocess.Popen([*words, "--program", stand_in], stdout=subprocess.PIPE, stderr=subprocess.PIPE, text=True) as it:
                    while not (self.folder / "opened").exists():
                        time.sleep(0.02)
                        self.assertIsNone(it.poll())
                    it.send_signal(number)
                    out, err = it.communicate()
                self.assertEqual((it.returncode, out, err), (-number, "", ""))
                self.assertEqual((list(self.scratch.iterdir()), list(self.folder.glob("b*"))), ([], []))
                (self.folder / "opened").unlink()


class Edits(unittest.TestCase):
    def test_each_is_found(self):
        each_is_found(self, "ctl_backup", EDITS)
