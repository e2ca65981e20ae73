"""`ccactl module`, `store` and `trail`: what they show of files that are made here by docs/FORMATS.md, with tokens of
OpenSSL's, and which cells they tell as damaged. Which these are `cca` itself says: each file with some bytes changed is opened
by it too. No key is shown.
"""
import contextlib
import json
import os
import random
import re
import subprocess
import sys
import unittest

from tests.edits import Edit, each_is_found
from tests.formats import BODIES, BODY, CELL, CELLS, SIZES, as_part, closed, image, internals, made, pattern, record, registers, role
from tests.formats import trail_record, types, unique, validation
from tests.harness import TOP, Calls, Coprocess, Fault
from tests.keys import OTHER, ZEROS
from tests.served import CCACTL, Served

FAULTS = [Fault('"$CCA" "$@" 2>/dev/null; exit 0', case="Damage.test_module", tells="AssertionError")]
FILES = "service/cca_service/ctl/files.py"
SHOWN = "service/cca_service/ctl/shown.py"
EDITS = [
    Edit(FILES, "SECTOR * (1 + which)", "SECTOR * (2 - which)", "Shown.test_module"),
    Edit(FILES, "if len(image.data) <= image.kind.size else", "if True else", "Shown.test_wrong_sizes"),
    Edit(FILES, "need(state < len(STATES[name])", "need(state < 3", "Damage.test_module"),
    Edit(FILES, "need(it.old.state == \"empty\" or is_another", "need(True", "Damage.test_module"),
    Edit(FILES, "need(first == cell", "need(True", "Damage.test_store"),
    Edit(FILES, "need(not points & ~ALL_POINTS", "need(True", "Damage.test_module"),
    Edit(FILES, "need(token[6] == FLAG", "need(True", "Damage.test_store"),
    Edit(FILES, "need(any(vector[8:]) or not any(body[146:154])", "need(True", "Damage.test_store"),
    Edit(FILES, "need(second == registers.new.pattern", "need(True", "Damage.test_store"),
    Edit(FILES, "if body[0] == DOUBLE and second in of:", "if False:", "Shown.test_store"),
    Edit(FILES, "number % TRAIL.cells == cell", "True", "Damage.test_trail"),
    Edit(FILES, "missing([first - 1, ", "missing([first, ", "Damage.test_trail"),
    Edit(FILES, "if it.number < first]", "if False]", "Damage.test_older_record"),
    Edit(FILES, "| os.O_NONBLOCK", "", "Shown.test_what_is_no_file"),
    Edit(SHOWN, "points & ~KNOWN_POINTS[version])", "0)", "Versions.test_later_points"),
    Edit(SHOWN, "key=lambda role: role.name == DEFAULT", "key=lambda role: role.name", "Shown.test_definitions"),
    Edit("service/cca_service/ctl/command.py", "it if it.isprintable() else", "it if True else", "Shown.test_what_a_terminal_obeys"),
    Edit("service/cca_service/ctl/place.py", "fcntl.flock(file, operation | fcntl.LOCK_NB)", "pass", "Locked.test_run_has_the_files"),
]  # fmt: skip
CURRENT, OLD, NEW = made("current", 24), made("old", 24), made("new", 24)
REGISTERS = registers(NEW, CURRENT, OLD)
MAC, DATA, EXPORTER = types()["MAC"][16], types()["DATA"][8], types()["EXPORTER"][16]
# The keys of a store, in its first cells: the label, the master key of the first token, that of the second one, key, vector, and what
# is shown of it.
KEYS = [
    ("PAY.MAC", CURRENT, None, made("a", 16), MAC, f"current MAC 16 {MAC.hex()}"),
    ("OLDER", OLD, None, made("b", 8), DATA, f"old DATA 8 {DATA.hex()}"),
    ("STAGED", CURRENT, NEW, made("c", 16), closed(EXPORTER), f"staged EXPORTER 16 {closed(EXPORTER).hex()} no-export"),
    ("SET", OLD, CURRENT, made("d", 16), unique(MAC), f"current MAC DOUBLE-O {unique(MAC).hex()}"),
    ("$PART#1", CURRENT, None, made("e", 16), as_part(EXPORTER), f"current EXPORTER 16 {as_part(EXPORTER).hex()} key-part"),
    ("OTHER@", CURRENT, None, made("f", 8), OTHER, f"current OTHER 8 {OTHER.hex()}"),
    ("ZEROS", CURRENT, None, made("g", 8), ZEROS, f"current DATA 8 {ZEROS.hex()}"),
]
SECRETS = [CURRENT, OLD, NEW, *(key for _, _, _, key, _, _ in KEYS)]


def bodies_of_keys():
    """The bodies of the records, and of a null one."""
    found = []
    for label, first, second, key, vector, _ in KEYS:
        token = bytes.fromhex(internals(first, [(key, vector)])[0])
        other = bytes.fromhex(internals(second, [(key, vector)])[0]) if second else b""
        found.append(record(label, token, other[8:32]))
    return [*found, record("EMPTY")]


def points(*names):
    return sum(1 << POINTS.index(name) for name in names)


POINTS = (
    "ENC DEC MGN MVR KYT CKI RNG KGN_OP KGN_PAIR KGN_OUT KIM KEX PEX KTC_CURRENT KTC_NEW KRC KRW KRR KRD KRL "
    "MK_FIRST MK_COMBINE MK_CLEAR MK_SET ROLES REENC KPI_FIRST KPI_COMBINE KTR"
).split()
ROLES = [role("DEFAULT", points("ROLES")), role("TELLER", points("ENC", "MGN")), b"", role("NOTHING", 0)]


class Files(Served):
    def write(self, kind, bodies, name=None):
        """A file with these bodies in its first cells."""
        path = self.keys / (name or f"cca.{kind}")
        path.write_bytes(image(kind, bodies))
        return path

    def both(self):
        self.write("module", [REGISTERS, *ROLES])
        self.write("store", bodies_of_keys())

    def shown(self, command, *words):
        return self.ctl(command, "--folder", self.keys, *words)


class Shown(Files):
    def test_module(self):
        """Registers with their patterns, and roles, each in its cell; the second copy of a cell, where that is selected."""
        self.both()
        data = bytearray((self.keys / "cca.module").read_bytes())
        data[0], data[1024 : 1024 + BODY], data[512:1024] = 1, data[512 : 512 + BODY], b"\xff" * 512
        (self.keys / "cca.module").write_bytes(data)
        self.ends_so(self.shown("module"), 0, [
            f"cell 0: new master key: full, pattern {pattern(NEW).hex()}",
            f"cell 0: current master key: full, pattern {pattern(CURRENT).hex()}",
            f"cell 0: old master key: full, pattern {pattern(OLD).hex()}",
            "cell 1: role DEFAULT: ROLES",
            "cell 2: role TELLER: ENC MGN",
            "cell 4: role NOTHING: no point",
        ])  # fmt: skip

    def test_blank_module(self):
        self.ask([], self.keys)
        empty = [f"cell 0: {name} master key: empty" for name in ("new", "current", "old")]
        self.ends_so(self.shown("module"), 0, [*empty, "cell 1: role DEFAULT: every point"])

    def test_definitions(self):
        """The requests that define the roles define them at another module; DEFAULT comes last."""
        self.both()
        status, out, _ = self.shown("module", "--definitions")
        other = self.folder / "other"
        other.mkdir()
        self.assertEqual((status, self.ask(out.splitlines(), other)), (0, ["OK"] * 3))
        self.assertEqual(self.ctl("module", "--folder", other, "--definitions")[1], out)
        self.assertIn(" name=DEFAULT ", out.splitlines()[-1])

    def test_store(self):
        """Each label in its cell, with the state of its key; the states are those that `cca` replies by."""
        self.both()
        lines = [f"cell {at}: {label} {shown}" for at, (label, *_, shown) in enumerate(KEYS)]
        end = "8 labels of 1024, 5 current, 1 null, 1 old, 1 staged"
        self.ends_so(self.shown("store"), 0, [*lines, "cell 7: EMPTY null", end])
        self.ask(["CSUAACI role=DEFAULT action=DEFINE name=DEFAULT points=02000010"], self.keys)
        for label, *_, shown in KEYS:
            reply = self.ask([f"CSNBKYT role=DEFAULT key=L:{label}"], self.keys)[0]
            self.assertEqual(reply.endswith("warn=old"), shown.startswith("old"), label)
        self.assertEqual(self.ask(["REENCIPHER role=DEFAULT action=DROP"], self.keys), ["OK changed=1"])

    def test_store_without_a_module(self):
        """A copy alone: the states aren't known; with its module they are."""
        self.both()
        copy, module = self.write("store", bodies_of_keys(), "copy"), self.write("module", [REGISTERS], "other")
        (self.keys / "cca.module").unlink()
        came = self.ctl("store", copy)
        self.assertEqual((came[0], came[1].splitlines()[0]), (0, f"cell 0: PAY.MAC held MAC 16 {MAC.hex()}"))
        self.assertIn("no registers are known", came[2])
        self.assertEqual(self.ctl("store", copy, "--module", module)[1].splitlines()[0], f"cell 0: PAY.MAC current MAC 16 {MAC.hex()}")

    def test_trail(self):
        """As `cca trail` prints it."""
        self.ask(["CSNBRNG role=DEFAULT form=ODD", "A", "CSNBKRC role=DEFAULT label=A#1"], self.keys, command="audit")
        lines = self.cca("trail", folder=self.keys).lines
        self.assertEqual(len(lines), 3)
        self.ends_so(self.shown("trail"), 0, lines)

    def test_json(self):
        """The same for a machine, and no key, part or token in anything."""
        self.both()
        self.write("trail", [trail_record(0, 0, "TELLER", "CSNBKYT", "PAY.MAC")])
        module, store, trail = (json.loads(self.shown(it, "--json")[1]) for it in ("module", "store", "trail"))
        self.assertEqual(module["registers"]["current"], {"state": "full", "pattern": pattern(CURRENT).hex()})
        self.assertEqual(module["roles"][1], {"cell": 2, "name": "TELLER", "points": "00000005", "names": "ENC MGN"})
        self.assertEqual([it["state"] for it in store["records"]], "current old staged current current current current null".split())
        self.assertEqual((store["labels"], store["free"]), (8, 1016))
        self.assertEqual(trail["records"], [{"number": 0, "rule": 0, "role": "TELLER", "verb": "CSNBKYT", "label": "PAY.MAC"}])
        text = "".join(self.shown(it, *words)[1] for it in ("module", "store") for words in ((), ("--json",)))
        for secret in SECRETS + [it[82:98] for it in bodies_of_keys()[:-1]]:
            self.assertNotIn(secret[:8].hex(), text)

    def test_wrong_sizes(self):
        """A file that was cut, one that is too long, and none: told, and what there is is shown."""
        self.both()
        path = self.keys / "cca.store"
        whole = path.read_bytes()
        for data, told in ((whole[:5000], "has 5000 bytes"), (whole + b"\0" * 9000, "has more than 1572864 bytes"), (b"", "has 0 bytes")):
            path.write_bytes(data)
            with self.subTest(told):
                came = self.shown("store")
                self.assertEqual((came[0], came[2].strip()), (3, f"{path} {told}: a file of this name has 1572864"))
                self.assertEqual("PAY.MAC" in came[1], bool(data))
        path.unlink()
        self.ends_so(self.shown("store"), 3, tells=f"^ccactl store: {self.keys} has no cca.store$")

    def test_what_is_no_file(self):
        """A pipe holds up nobody; a folder and a device aren't read."""
        self.both()
        os.mkfifo(self.keys / "pipe")
        for path, told in ((self.keys / "pipe", "is no regular file"), (self.keys, "is no regular file"), ("/dev/zero", "is no regular file")):
            for command in ("module", "store", "trail"):
                with self.subTest(path=path, command=command):
                    self.ends_so(self.ctl(command, path), 3, tells=told)

    def test_what_a_terminal_obeys(self):
        """Names in paths can't make a terminal do anything."""
        path = self.folder / "\x1b[2Jname"
        path.write_bytes(b"")
        came = self.ctl("module", path)
        self.assertEqual((came[0], "\x1b" in came[1] + came[2], "?[2Jname has 0 bytes" in came[2]), (3, False, True))


class Versions(Files):
    def test_known(self):
        """Each version of docs/CHANGES.md is known, and no other one."""
        self.both()
        for version in re.findall(r"(?m)^## ([0-9.]+)$", (TOP / "docs" / "CHANGES.md").read_text()):
            self.ends_so(self.shown("module", "--for", version), 0, [f"cca {version} can read this module: it knows each point of each role"])
        self.ends_so(self.shown("module", "--for", "9.9"), 2, tells="nothing is known here of version 9.9: known are 1.0, 1.1")

    def test_later_points(self):
        """A role with a point of a later version: `cca`, to which it is a later one too, says that its cell is damaged."""
        self.write("module", [b"", b"", role("LATER", 1 << 29 | 1)])
        told = "cell 2 is damaged for cca 1.0: role LATER has points that it doesn't know: 20000000"
        self.ends_so(self.shown("module", "--for", "1.0"), 1, [told])
        self.ends(self.cca("run", folder=self.keys), 3, err="cca: module cell 2 is damaged")
        self.assertIn("cell 2 is damaged: the role LATER has points that this version doesn't know: 20000000", self.shown("module")[2])

    def test_damaged_module(self):
        """A cell that no version can read is told besides."""
        self.write("module", [b"\1\7", b"", role("LATER", 1 << 29)])
        came = self.shown("module", "--for", "1.0", "--json")
        found = json.loads(came[1])
        self.assertEqual((came[0], found["is_readable"], [it["cell"] for it in found["damaged"]]), (3, False, [0]))


class Locked(Files):
    def test_run_has_the_files(self):
        """Files that a run has aren't read, since it may be writing."""
        self.both()
        with Coprocess(self.program, self.keys) as other:
            other.ask("A")
            self.ends_so(self.shown("store"), 1, tells="cca.module is in use")
        self.assertEqual(self.shown("store")[0], 0)


class Damage(Files):
    """Files in which some bytes are changed: damaged cells are those that `cca` names, one after the other."""

    seed = 20261202

    def compare(self, kind, folder, words, told):
        """The first damaged cell that `cca` names is the first that is shown; none where it names none."""
        came = self.cca(*words, folder=folder, calls=Calls(skipped=f"sync cca.{kind}"))
        named = re.search(rf"{kind} cell (\d+) is damaged", came.err)
        shown = self.ctl(kind, "--folder", folder)
        cells = [int(it) for it in re.findall(r"(?m)^cell (\d+) is damaged", shown[2])]
        self.assertEqual((came.status not in (0,), shown[0]), (bool(cells) or "missing" in shown[2], 3 if came.status else 0), came.err + shown[2])
        if named and cells:
            self.assertEqual(int(named[1]), min(cells), f"{told}: {came.err} {shown[2]}")
        return bool(cells)

    def changed(self, data, drawn, cells):
        """Some bytes of active copies changed, of tokens at times with their validation value made right again."""
        data, told = bytearray(data), []
        for _ in range(drawn.randrange(1, 3)):
            cell = drawn.randrange(cells)
            at = CELL * cell + BODIES[data[CELL * cell] % 2]
            place = drawn.choice([0, 1, 2, 3, 4, 8, 10, 13, 66, 70, 74, 82, 98, 103, 130, 137, 138, 145, 146, 153, 160, drawn.randrange(BODY)])
            if cell == 2 and 138 <= place < 154:
                continue  # the second token of a staged label, which no key opens here
            data[at + place] = drawn.choice([data[at + place] ^ 1 << drawn.randrange(8), drawn.randrange(256), 0])
            if drawn.randrange(2):
                data[at + 126 : at + 130] = validation(bytes(data[at + 66 : at + 130]))
            told.append((cell, place))
        return bytes(data), told

    def judged(self, kind, words, cells, times, more=()):
        """Many files with changes, of which some are damaged and some aren't."""
        drawn, whole = random.Random(self.seed), (self.keys / f"cca.{kind}").read_bytes()
        found = []
        for number in range(times + len(more)):
            data, told = more[number] if number < len(more) else self.changed(whole, drawn, cells)
            (self.keys / f"cca.{kind}").write_bytes(data)
            with self.subTest(number=number, told=told):
                found.append(self.compare(kind, self.keys, words, told))
        self.assertTrue(any(found) and not all(found))

    def test_module(self):
        self.both()
        (self.keys / "cca.store").unlink()
        twice = image("module", [REGISTERS, *ROLES, role("TELLER", 1)])
        others = [
            registers(current=CURRENT, old=CURRENT), b"\1\0\0\1".ljust(56, b"\0") + OLD + bytes(112), registers(CURRENT, is_partial=True),
            b"\1\1\2".ljust(BODY, b"\0"), bytes(8) + CURRENT + bytes(160),
        ]  # fmt: skip
        more = [(twice, "twice"), *((image("module", [it, *ROLES]), "registers") for it in others)]
        more += [(image("module", [REGISTERS, role("TELLER", 1)]), "no DEFAULT"), (image("module", [REGISTERS, b"", role("DEFAULT", 1)]), "2")]
        self.judged("module", ["run"], 6, 60, more)

    def test_store(self):
        self.both()
        bodies = bodies_of_keys()
        flag = bytearray(bodies[6])
        flag[66 + 6] = 0x80
        flag[126:130] = validation(bytes(flag[66:130]))
        second = bytearray(bodies[1])
        second[0], second[130:138], second[138:154] = 3, pattern(CURRENT), b"\1" * 16
        other = bytearray(bodies[2])
        other[130:138] = made("no pattern", 8)
        more = [(image("store", [*bodies, bodies[0]]), "twice"), (image("store", [flag]), "flag")]
        more += [(image("store", [second]), "right half"), (image("store", [other]), "second pattern")]
        self.judged("store", ["run"], len(bodies), 80, more)

    def test_staged_label_with_another_key(self):
        """What `ccactl` doesn't see: two tokens of a staged label with different keys. It says that the label is staged, and
        `cca` that its cell is damaged."""
        self.both()
        bodies = bodies_of_keys()
        other = bytes.fromhex(internals(NEW, [(made("another", 16), closed(EXPORTER))])[0])
        bodies[2] = bodies[2][:138] + other[16:32] + bodies[2][154:]
        self.write("store", bodies)
        self.ends(self.cca("run", folder=self.keys), 3, err="cca: store cell 2 is damaged")
        self.assertEqual(self.shown("store")[0], 0)

    def test_trail(self):
        entries = [trail_record(number, 4, "TELLER", "CSNBKYT", f"PAY.{number}") for number in range(6)]
        self.write("trail", entries)
        late = [trail_record(number, 0, "A", "B") for number in range(4096, 4096 + CELLS["trail"])]
        lost = late[:7] + [b""] + late[8:]
        older = late[:7] + [trail_record(7, 0, "A", "B")] + late[8:]
        more = [(image("trail", entries[:3] + [b""] + entries[4:]), "gap"), (image("trail", late), "full"), (image("trail", lost), "lost")]
        more += [(image("trail", older), "older"), (image("trail", [b"", entries[0]]), "another cell"), (image("trail", [b"", entries[1]]), "first")]
        self.judged("trail", ["trail"], 6, 30, more)

    def test_older_record(self):
        """A record whose cell should have one of the newest 4,096 numbers."""
        records = [trail_record(number, 0, "A", "B") for number in range(4096, 4096 + CELLS["trail"])]
        self.write("trail", [*records[:7], trail_record(7, 0, "A", "B"), *records[8:]])
        told = self.shown("trail")[2].splitlines()
        self.assertEqual(told[-1], "cell 7 is damaged: it has record 7, which is older than it should be")

    def test_damaged_trail_is_shown(self):
        """What is whole of it, and which records are missing."""
        entries = [trail_record(number, 4, "TELLER", "CSNBKYT") for number in range(6)]
        self.write("trail", [*entries[:2], b"\7", b"", *entries[4:]])
        came = self.shown("trail")
        self.assertEqual([it.split()[0] for it in came[1].splitlines()], ["0", "1", "4", "5"])
        self.assertEqual(came[2].splitlines(), ["records 2 to 3 are missing", "cell 2 is damaged: byte 0 is 07"])


class Words(Served):
    """How `ccactl` itself ends."""

    def test_usage(self):
        for words in ((), ("nothing",), ("module", "--fold", "."), ("repair-cell", "x"), ("health",)):
            with self.subTest(words):
                self.assertEqual(self.ctl(*words)[0], 2)

    def test_no_settings(self):
        self.ends_so(self.ctl("store", "--config", self.folder / "none"), 2, tells="none: .*No such file")
        self.environment["CCA_FRONT"] = "none.conf"
        self.ends_so(self.ctl("store"), 2, tells="none.conf")

    def test_output_that_nobody_reads(self):
        """As `ccactl store | head -n 0`."""
        (self.keys / "cca.store").write_bytes(bytes(SIZES["store"]))
        (self.keys / "cca.module").write_bytes(bytes(SIZES["module"]))
        reader, writer = os.pipe()
        os.close(reader)
        with contextlib.closing(os.fdopen(writer, "wb")) as output:
            words = [sys.executable, "-I", "-B", CCACTL, "store", "--folder", self.keys]
            came = subprocess.run(words, stdout=output, stderr=subprocess.PIPE, text=True)
        self.assertEqual((came.returncode, came.stderr), (1, ""))


class Edits(unittest.TestCase):
    def test_each_is_found(self):
        each_is_found(self, "ctl_files", EDITS)
