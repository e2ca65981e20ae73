"""The audit trail: `cca audit`, which writes it, and `cca trail`, which shows it.

Records are spelled here too, by the table of docs/FORMATS.md, and what a trail with such cells must come to is judged here by
the two steps that stand there. So what `cca trail` shows, and which cell it names as damaged, is compared with another program."""
import itertools
import os
import random
import re
import shutil
import subprocess
import time
import unittest

from tests.formats import BODIES, BODY, CELL, SIZES, image, trail_record
from tests.harness import Calls, Case, Coprocess, Fault

FAULTS = [Fault('"$CCA" "$@" | sed -u "s/ 00 DEFAULT / 05 DEFAULT /"', case="test_refused_calls", tells="'0 00 DEFAULT CSNBKRL -'")]

CELLS, SIZE = 4096, SIZES["trail"]
NUMBERS = 2**63
FAILED, FULL = "cca: the trail file failed", "cca: the trail is full"
LABEL = re.compile(r"[A-Z#$@][A-Z0-9#$@.]{0,63}")


# ---- records


def text_in(field, form):
    """The text of a field that is filled with zeros; None where there isn't one of this form."""
    text = field.rstrip(b"\0").decode("latin1")
    return text if not text or re.fullmatch(form, text) else None


def read(body):
    """The record that a body spells: its number and what is shown of it; None where it spells none."""
    number, length = int.from_bytes(body[2:10], "big"), body[28]
    role, verb = text_in(body[10:18], "[A-Z][A-Z0-9]{0,7}"), text_in(body[18:28], "[A-Z]{1,10}")
    label = text_in(body[29:93], LABEL)
    if body[0] != 1 or body[1] > 99 or number >= NUMBERS or any(body[93:]):
        return None
    if role is None or verb is None or label is None or len(label) != length:
        return None
    return number, f"{number} {body[1]:02} {role or '-'} {verb or '-'} {label or '-'}"


def judged(bodies):
    """The first damaged cell, or the lines of the records that are held, in ascending order."""
    held = {}
    for cell, body in enumerate(bodies):
        if any(body):
            record = read(body)
            if record is None or record[0] % CELLS != cell:
                return cell
            held[cell] = record
    if not held:
        return []
    newest = max(number for number, _ in held.values())
    for cell in range(CELLS):
        wanted = newest - (newest - cell) % CELLS if cell <= newest else None
        if (held[cell][0] if cell in held else None) != wanted:
            return cell
    return [line for _, line in sorted(held.values())]


def bodies_of(first, last):
    """The cells of a trail whose records have the numbers from first up to last, where these are all that are held."""
    bodies = [bytes(BODY)] * CELLS
    for number in range(first, last):
        words = [("", "", ""), ("OFFICER", "CSNBKRL"), ("DEFAULT", "REENCIPHER"), ("TELLER12", "CSNBENC", "A" * (number % 64 + 1))]
        bodies[number % CELLS] = trail_record(number, number % 100, *words[number % 4])
    return bodies


def requests(count):
    """Lines, and what a trail must show of each, without the number; each is judged by its form alone."""
    forms = [
        ("CSNBRNG role=DEFAULT form=ODD", "00 DEFAULT CSNBRNG -"),
        ("CSNBKYT role=DEFAULT key=L:PAY", "05 DEFAULT CSNBKYT PAY"),
        ("CSNBKRL role=TELLER prefix=PAY", "03 TELLER CSNBKRL -"),
        ("CSNBKRD role=DEFAULT label=1PAY", "06 DEFAULT CSNBKRD -"),
        ("CSNBKEX role=DEFAULT key=L:.A transport=L:B", "05 DEFAULT CSNBKEX B"),
        ("CSNBKRD role=DEFAULT label=NOBODYS", "07 DEFAULT CSNBKRD NOBODYS"),
        ("", "01 - - -"),
        ("A" * 9217, "02 - - -"),
    ]
    return random.Random(count).choices(forms, k=count)


class Trail(Case):
    """Trails that are written here, and what is shown of them."""

    def write(self, bodies):
        """Makes a trail of these bodies."""
        self.file().write_bytes(image("trail", bodies))

    def file(self):
        return self.folder / "cca.trail"

    def shown(self):
        """The lines that `cca trail` shows."""
        came = self.cca("trail")
        self.assertEqual((came.status, came.err), (0, ""))
        return came.lines

    def shows(self, bodies, is_damaged):
        """What `cca trail` says of the trail, which has these bodies, must be what is judged here."""
        wanted = judged(bodies)
        self.assertEqual(isinstance(wanted, int), is_damaged)
        if is_damaged:
            self.ends(self.cca("trail"), 14, err=f"cca: trail cell {wanted} is damaged")
        else:
            self.ends(self.cca("trail"), 0, wanted)


class Shown(Trail):
    def test_lengths(self):
        """Trails of any length, and the last numbers."""
        for first, last in ((0, 0), (0, 1), (0, 4095), (0, 4096), (1, 4097), (4904, 9000), (NUMBERS - CELLS, NUMBERS)):
            with self.subTest(first=first, last=last):
                self.write(bodies_of(first, last))
                self.shows(bodies_of(first, last), False)

    def test_full(self):
        """A trail without a number left is full, and unchanged; one with one number left gives that, and then none."""
        self.write(bodies_of(NUMBERS - CELLS, NUMBERS))
        before = self.file().read_bytes()
        self.ends(self.cca("audit", given=["CSNBKRL role=DEFAULT prefix="]), 15, err=FULL)
        self.assertEqual(self.file().read_bytes(), before)
        self.write(bodies_of(NUMBERS - CELLS - 1, NUMBERS - 1))
        self.ends(self.cca("audit", given="A\nB\n"), 15, ["NO 01 -"], err=FULL)
        self.assertEqual(self.shown()[-1], f"{NUMBERS - 1} 01 - - -")

    def test_each_byte_changed(self):
        """Each byte of a record changed, in two ways."""
        for (cell, other), at in itertools.product(((0, 0x80), (2, 0x01)), range(BODY)):
            bodies, changed = bodies_of(0, 3), bytearray(trail_record(cell, 3, "TELLER", "CSNBENC", "PAY"))
            changed[at] ^= other
            bodies[cell] = bytes(changed)
            self.write(bodies[:3])
            with self.subTest(cell=cell, at=at):
                self.shows(bodies, isinstance(judged(bodies), int))

    def test_damage(self):
        """Records in other cells, older ones, missing ones, and overwritten ones that are there again."""
        cases = {
            "a record in another cell": {2: trail_record(1, 0)},
            "a number as great in its own cell": {7: trail_record(7, 0)},
            "a record that is missing": {1: bytes(BODY)},
            "an older record than it should be": {1: trail_record(1, 0), 5: trail_record(CELLS + 5, 0)},
            "a greater number that stands alone": {0: trail_record(2 * CELLS, 0)},
        }
        for what, cells in cases.items():
            with self.subTest(what):
                bodies = [cells.get(cell, body) for cell, body in enumerate(bodies_of(0, 3))]
                self.write(bodies)
                self.shows(bodies, True)
        bodies = bodies_of(CELLS + 10, 2 * CELLS + 10)
        bodies[300] = trail_record(300, 0)
        self.write(bodies)
        self.shows(bodies, True)
        self.ends(self.cca("audit", given="A\n"), 14, err="cca: trail cell 300 is damaged")


class Written(Trail):
    def test_long_runs(self):
        """As many records as are held, one more, and more than twice as many, in two runs."""
        for count in (CELLS, CELLS + 1, 9000):
            self.file().unlink(missing_ok=True)
            lines = requests(count)
            for part in (lines[: count // 3], lines[count // 3 :]):
                self.ask([line for line, _ in part], command="audit", calls=Calls(skipped="sync cca.trail"))
            wanted = [f"{number} {record}" for number, (_, record) in enumerate(lines)]
            with self.subTest(count=count):
                self.same(self.shown(), wanted[-CELLS:])

    def test_calls(self):
        """An audited line asks for two writes and two syncs of the trail, before its reply, and a refused one too."""
        lines = ["CSNBRNG role=DEFAULT form=ODD", "A", "CSNBKRC role=DEFAULT label=PAY"]
        for first, made in ((0, ["open .", "sync .", f"resize cca.trail {SIZE}", "sync cca.trail"]), (3, [])):
            calls = self.cca("audit", given=lines, calls=Calls()).calls
            mine = [it for it in calls if "cca.trail" in it or it.startswith("write output") or it in ("open .", "sync .")]
            mine = mine[mine.index("open cca.trail") :]
            self.assertLessEqual(sum(it.startswith("read cca.trail") for it in mine), 2 * 2 * CELLS + 3)
            wanted = ["open cca.trail", *made, "sync cca.trail"]
            for at in range(first * CELL, (first + 3) * CELL, CELL):
                wanted += [f"write cca.trail {at + BODIES[1]} {BODY}", "sync cca.trail"]
                wanted += [f"write cca.trail {at} 1", "sync cca.trail", "write output"]
            self.assertEqual([re.sub("(write output).*", r"\1", it) for it in mine if not it.startswith("read ")], wanted)
        self.assertNotIn("cca.trail", "".join(self.cca("run", given=lines, calls=Calls()).calls))

    def test_refused_calls(self):
        """Each kind of call of the trail's file refused: no reply, and the request's record or none."""
        line = ["CSNBKRL role=DEFAULT prefix="]
        self.cca("trail")
        for call in ("read", "write", "sync"):
            refused = Calls(refused=f"{call} cca.trail")
            with self.subTest(call):
                self.ends(self.cca("audit", given=line, calls=refused), 13, err=FAILED)
                self.assertEqual(self.shown(), [])
                if call != "write":
                    self.ends(self.cca("trail", calls=refused), 13, err=FAILED)
        self.ask(line, command="audit")
        self.assertEqual(self.shown(), ["0 00 DEFAULT CSNBKRL -"])
        with open("/dev/full", "wb") as full:
            self.ends(self.cca("trail", stdout=full), 5, err="cca: the output could not be written")
            self.ends(self.cca("audit", given=line, stdout=full), 5, err="cca: the output could not be written")
        self.assertEqual(len(self.shown()), 2)

    def test_kills(self):
        """An audited run that is killed: no reply is without its record, and no number is missing."""
        drawn, began = random.Random(1), time.monotonic()
        self.cca("audit")
        opening, kinds = time.monotonic() - began, ("write cca.trail", "sync cca.trail", "write output", "write cca.store")
        lines = [f"CSNBKR{verb} role=DEFAULT label=KEY.{number:04}" for number in range(2000) for verb in "CD"]
        for turn in range(40):
            for name in ("cca.trail", "cca.store"):
                (self.folder / name).unlink(missing_ok=True)
            # By turns at any moment, and before a call.
            at = {"calls": Calls(killed=f"{kinds[turn // 2 % 4]} {drawn.randint(5, 500)}")}
            at = {"kill_after": opening * drawn.uniform(0.5, 4.5)} if turn % 2 else at
            replied, records = len(self.cca("audit", given=lines, **at).whole), self.shown()
            made = [f"{at} 00 DEFAULT CSNBKR{'CD'[at % 2]} KEY.{at // 2:04}" for at in range(len(lines))]
            with self.subTest(at, replied=replied):
                self.assertIn(len(records), range(min(replied, CELLS), replied + 2))
                self.same(records, made[: len(records)][-CELLS:])
                self.assertTrue(turn % 2 or 0 < replied < len(lines))


class Files(Trail):
    def test_file(self):
        """The trail's file is private, and has its size."""
        self.cca("audit", umask=0o022)
        state = self.file().stat()
        self.assertEqual((state.st_mode & 0o777, state.st_size), (0o600, SIZE))
        before = self.file().read_bytes()
        self.assertEqual(self.shown(), [])
        self.assertEqual(self.file().read_bytes(), before)

    @unittest.skipUnless(os.geteuid() == 0, "only root can run it as another user")
    def test_file_that_may_only_be_read(self):
        """`cca trail` changes nothing, and yet opens no file that it may only read."""
        self.ask(["A"], command="audit")
        self.file().chmod(0o444)
        for folder in (self.folder, *self.folder.parents[:2]):
            folder.chmod(0o755)
        program = shutil.copy(self.program.path, self.folder / "cca")
        it = subprocess.run([program, "trail"], cwd=self.folder, user=65534, capture_output=True, text=True)
        self.assertEqual((it.returncode, it.stdout, it.stderr), (11, "", "cca: a file could not be opened\n"))

    def test_second_run(self):
        with Coprocess(self.program, self.folder, "audit") as first:
            self.assertEqual(first.ask("A"), "NO 01 -")
            for word in ("trail", "audit"):
                self.ends(self.cca(word), 11, err="cca: a file could not be opened")

    def test_wrong_size(self):
        self.file().write_bytes(b"x")
        for word in ("trail", "audit"):
            self.ends(self.cca(word), 17, err="cca: a file has a wrong size")
