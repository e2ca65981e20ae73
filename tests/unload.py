"""The move of a store: `cca unload`, which writes a request file and a report, and `cca run` at another module, which carries the
file out.

The keys are put in as tokens that OpenSSL makes, and what the file and the report must be is made of the same keys by the tables of
docs/FORMATS.md: so they are compared with another program, byte for byte. Then the file is carried out by runs that are killed
and begun again, and each key must be at the other module with its token and its key check value."""
import os
import random
import shutil

from tests.formats import BODIES, CELL, externals, internals, made, types
from tests.harness import Calls, Case, Coprocess, Fault, as_bytes
from tests.keys import EXPORTER, IMPORTER, QUICK, by_label, ceremony, drawn_key, stored

FAULTS = [Fault('"$CCA" "$@" | sed -u "/^CSNBKIM role=MOVER .* to=L:Z/d"', case="test_current", tells="wanted: CSNBKIM role=MOVER .* to=L:Z")]

CELLS = 1024
FILES = ("cca.module", "cca.store")
HERE, THERE = "TO.NEW", "FROM.OLD"  # the labels of the transport key
MOVE = ["unload", "DEFAULT", HERE, "MOVER", THERE]
DEFINE = "CSUAACI role=DEFAULT action=DEFINE name={} points={}"
TRANSPORT = made("transport key", 16)
LETTERS, OTHERS = "ABCDEFGHIJKLMNOPQRSTUVWXYZ#$@", "0123456789."
OUTPUT = "cca: the output could not be written\n"
KINDS = ("cca.store", "output")  # before a write of these a run is killed
LONGEST_RUN = 0.1  # seconds within which a run is killed, unless it has ended


# ---- stores


def labels(drawn, count):
    """Labels of each length, also of which one is the beginning of another."""
    found = {"A", "A.B", "A#", "A0", "Z" * 64}
    while len(found) < count:
        size = drawn.choice([1, 2, 3, 8, 20, 63, 64])
        begun = drawn.choice(sorted(found))[: size - 1] if drawn.random() < 0.5 else ""
        begun = begun or drawn.choice(LETTERS)
        found.add(begun + "".join(drawn.choice(LETTERS + OTHERS) for _ in range(size - len(begun))))
    return drawn.sample(sorted(found - {HERE, THERE}), count)


def lines_for(keys, transport=THERE):
    """The lines of a file that brings keys under their labels."""
    for label, token in by_label(externals, TRANSPORT, keys).items():
        yield f"CSNBKRC role=MOVER label={label}"
        yield f"CSNBKIM role=MOVER token={token} transport=L:{transport} to=L:{label}"


def why(label, key):
    """Why a label is kept back; None where it is moved."""
    if label == THERE:
        return "target"
    if key is None:
        return "08"
    if key[1][5] & 0x08:
        return "17"
    return None if key[1][2] & 0x40 or not any(key[1]) else "21"


def replying(held, lines):
    """What replies lines of a file get, where these labels are held, which get more by them."""
    for line in lines:
        label = line.rpartition("=")[2].removeprefix("L:")
        if line.startswith("CSNBKIM"):
            yield f"OK stored={label}" if label in held else "NO 07 to"
        elif len(held) == CELLS:
            yield "NO 28 label"
        elif label in held:
            yield "NO 29 label"
        else:
            held.add(label)
            yield "OK"


def bytes_in(folder):
    return [(folder / name).read_bytes() for name in FILES]


class Module:
    """A module in a folder: its master key, and the keys under its labels."""

    def __init__(self, program, folder, master):
        folder.mkdir()
        self.program, self.folder, self.keys = program, folder, {}
        self.set_master(master)

    def ask(self, lines):
        return self.program.ask(self.folder, lines, calls=QUICK)

    def well(self, pairs):
        """Requests that must get their replies."""
        pairs = list(pairs)
        assert self.ask([line for line, _ in pairs]) == [reply for _, reply in pairs]

    def set_master(self, name):
        self.master = made(name, 24)
        self.well(ceremony(self.master))

    def put(self, keys):
        """Puts keys under new labels."""
        self.well(stored(self.master, keys))
        self.keys.update(keys)

    def held(self, keys):
        """Requests whose replies say that these labels, and no others, hold these keys, each under the current master key."""
        tokens, names = by_label(internals, self.master, keys), sorted(keys)
        yield "CSNBKRL role=DEFAULT prefix=", f"OK count={len(names)} labels={','.join(names)}"
        for label in names:
            yield f"CSNBKRR role=DEFAULT label={label}", f"OK token={tokens[label]}" if label in tokens else "NO 08 label"

    def values(self, keys):
        """The replies that test each key, without the warning."""
        return [it.removesuffix(" warn=old") for it in self.ask(f"CSNBKYT role=DEFAULT key=L:{label}" for label in keys)]

    def bytes(self):
        return bytes_in(self.folder)

    def copied(self, folder):
        """The same in another folder."""
        shutil.copytree(self.folder, folder)
        return folder

    @property
    def moved(self):
        return {label: self.keys[label] for label in sorted(self.keys) if why(label, self.keys[label]) is None}

    @property
    def kept(self):
        """The lines of the report."""
        return [f"kept {label} {why(label, self.keys[label])}" for label in sorted(self.keys) if why(label, self.keys[label])]


def a_store(program, folder, count):
    """A store with so many labels, of which half are under the old master key."""
    drawn, module = random.Random(count), Module(program, folder, "master key")
    keys = {label: drawn_key(drawn) for label in labels(drawn, count - 2)} if count > 2 else {}
    module.put(dict(list(keys.items())[: count // 2]))
    module.set_master("next master key")
    transports = {THERE: (TRANSPORT, IMPORTER), HERE: (TRANSPORT, EXPORTER)}
    module.put(dict([*list(keys.items())[count // 2 :], *list(transports.items())[-count:]]))
    return module


class Unload(Case):
    @classmethod
    def setUpClass(cls):
        super().setUpClass()
        cls.store = a_store(cls.program, cls.shared / "store", CELLS)

    def setUp(self):
        super().setUp()
        self.before = self.store.bytes()

    def tearDown(self):
        self.assertTrue(self.store.bytes() == self.before, "a byte of the store has changed")

    def move(self, folder=None, **options):
        return self.cca(*MOVE, folder=folder or self.store.folder, **options)

    def other(self, name="other"):
        """Another module, which has the transport key and a role for the move."""
        module = Module(self.program, self.folder / name, "another master key")
        module.put({THERE: (TRANSPORT, IMPORTER)})
        module.well([(DEFINE.format("MOVER", "00018400"), "OK")])
        return module


class Written(Unload):
    """What is written, and how it ends."""

    def test_files(self):
        """The file and the report of a full store and of smaller ones."""
        for count in (CELLS, 1, 2, 3, 40):
            store = self.store if count == CELLS else a_store(self.program, self.folder / str(count), count)
            with self.subTest(labels=count):
                before = store.bytes()
                self.ends(self.move(store.folder), 0, lines_for(store.moved), "\n".join(store.kept))
                self.assertTrue(store.bytes() == before)

    def test_current(self):
        """The same once all keys are under the current master key; and the mode of the files stays."""
        folder = self.store.copied(self.folder / "current")
        before = (folder / "cca.module").stat().st_mode
        self.assertRegex(self.ask(["REENCIPHER role=DEFAULT"], folder, calls=QUICK)[0], "^OK changed=")
        self.ends(self.move(folder), 0, lines_for(self.store.moved), "\n".join(self.store.kept))
        self.assertEqual((folder / "cca.module").stat().st_mode, before)

    def test_refused(self):
        """The rules that are asked before the first label, of keys that are no transport keys, for one; and a folder in use."""
        folder = self.store.copied(self.folder / "refused")
        names = [label for label in self.store.keys if label not in (HERE, THERE)][:4]
        single = made("single", 8), EXPORTER[:5] + bytes(11)
        self.replies([
            *((f"CSNBKRD role=DEFAULT label={label}", "OK") for label in names),
            *stored(self.store.master, {"NO.KEY": None, "NO.USE": None, "PART": None, "SINGLE": single}),
            ("CSNBKGN role=DEFAULT form=OP length=16 type1=OKEYXLAT to=L:NO.USE", "OK stored=NO.USE"),
            (f"CSNBKPI role=DEFAULT rule=FIRST type=EXPORTER part={'01' * 16} to=L:PART", "OK stored=PART"),
            (DEFINE.format("LISTS", "1ffff7ff"), "OK"),
            (DEFINE.format("EXPORTS", "1ff7ffff"), "OK"),
        ], folder, calls=QUICK)  # fmt: skip
        for role, label, rule in (
            ("NOBODY", HERE, 3), ("LISTS", HERE, 4), ("EXPORTS", HERE, 4), ("DEFAULT", "NOT.THERE", 7), ("DEFAULT", "NO.KEY", 8),
            ("DEFAULT", "PART", 17), ("DEFAULT", THERE, 19), ("DEFAULT", "NO.USE", 20), ("DEFAULT", "SINGLE", 22),
        ):  # fmt: skip
            with self.subTest(role, label=label):
                before = bytes_in(folder)
                self.ends(self.cca("unload", role, label, "MOVER", THERE, folder=folder), 12, err=f"cca: refused by rule {rule:02}")
                self.assertTrue(bytes_in(folder) == before)
        with Coprocess(self.program, folder) as first:
            self.assertEqual(first.ask("A"), "NO 01 -")
            self.ends(self.move(folder), 11, err="cca: a file could not be opened")

    def test_streams(self):
        """Standard output and standard error that fail: a full drive, and a reader that has gone."""
        file, report = (as_bytes(it).decode() for it in (lines_for(self.store.moved), self.store.kept))
        with open("/dev/full", "wb") as full:
            came = self.move(stdout=full)
            self.assertEqual((came.status, came.err[-len(OUTPUT) :]), (5, OUTPUT))
            self.assertTrue(report.startswith(came.err[: -len(OUTPUT)]))
            came = self.move(stderr=full)
            self.assertEqual(came.status, 16)
            self.assertTrue(file.startswith(came.out) and came.out != file)
            self.assertIn(self.move(stdout=full, stderr=full).status, (5, 16))
            # No report is written where nothing is kept back.
            whole = Module(self.program, self.folder / "whole", "master key")
            whole.put({HERE: (TRANSPORT, EXPORTER)})
            self.ends(self.move(whole.folder, stderr=full), 0, lines_for(whole.moved))
        for name, status in (("stdout", 5), ("stderr", 16)):
            with self.subTest(name):
                reading, writing = os.pipe()
                os.close(reading)
                self.assertEqual(self.move(**{name: writing}).status, status)
                os.close(writing)

    def test_calls(self):
        """The files are read and not written, and each kind of call that fails ends the command."""
        calls = self.move(calls=Calls()).calls
        self.assertEqual([it for it in calls if it.split()[0] in ("write", "resize", "map") and it.split()[1] in FILES], [])
        # Each record is read once more at most, and each line of the file is one write.
        self.assertIn(sum(it.startswith("read cca.store") for it in calls), range(2 * CELLS, 2 * (2 * CELLS + 1) + 1))
        self.assertEqual(sum(it.startswith("write output") for it in calls), 2 * len(self.store.moved))
        for name, status in (("module", 6), ("store", 7)):
            self.ends(self.move(calls=Calls(refused=f"read cca.{name}")), status, err=f"cca: the {name} file failed")

    def test_damaged(self):
        folder = self.store.copied(self.folder / "damaged")
        whole = bytearray((folder / "cca.store").read_bytes())
        for side in BODIES:
            whole[1000 * CELL + side] = 9
        (folder / "cca.store").write_bytes(whole)
        self.ends(self.move(folder), 3, err="cca: store cell 1000 is damaged")

    def test_killed(self):
        """A command that is killed, by turns at any moment and before a call: its file is cut off, and no byte has changed."""
        drawn, file = random.Random(1), as_bytes(lines_for(self.store.moved)).decode()
        for turn in range(10):
            at = {"calls": Calls(killed=f"write output {drawn.randint(1, 2 * len(self.store.moved))}")}
            came = self.move(**({"kill_after": drawn.uniform(0, LONGEST_RUN)} if turn % 2 else at))
            self.assertTrue(file.startswith(came.out))


class CarriedOut(Unload):
    """What the other module makes of the file."""

    def takes(self, module, file, held, keys):
        """The module must reply to the file as one that has these labels, and hold these keys then."""
        wanted = list(replying(held, file))
        self.replies(zip(file, wanted), module.folder, calls=QUICK)
        self.replies(module.held(keys), module.folder)

    def test_killed(self):
        """The file is carried out by runs that are killed, by turns at any moment and before a call, and begun again."""
        moved, drawn = self.store.moved, random.Random(1)
        file, names, values = list(lines_for(moved)), list(moved), self.store.values(moved)
        for chain in range(4):
            other, held = self.other(f"chain {chain}"), {THERE}
            for turn in range(5):
                at = {"calls": QUICK._replace(killed=f"write {drawn.choice(KINDS)} {drawn.randint(3, len(moved))}")}
                at = {"calls": QUICK, "kill_after": drawn.uniform(0, LONGEST_RUN)} if turn % 2 else at
                came = self.cca("run", folder=other.folder, given=file, **at)
                with self.subTest(at, chain=chain, replies=len(came.whole)):
                    wanted = list(replying(set(held), file[: len(came.whole)]))
                    self.assertEqual(came.whole, wanted)
                    # Of the labels those of the lines with a reply are there, and at most the next one.
                    listed = other.ask(["CSNBKRL role=DEFAULT prefix="])[0].split("labels=")[1].split(",")
                    count = max(len(held) - 1, (len(came.whole) + 1) // 2)
                    self.assertIn(listed, [sorted([THERE, *names[:it]]) for it in (count, count + 1)])
                    done = names[: len(came.whole) // 2]
                    self.assertEqual(other.values(done), values[: len(done)])
                    self.assertTrue(turn % 2 or 0 < len(came.whole) < len(file))
                    held = set(listed)
            self.takes(other, file, held, {**other.keys, **moved})
            self.assertEqual(other.values(moved), values)

    def test_back(self):
        """The other module unloads what it took in: the same file; and the first one takes it back."""
        moved, other = self.store.moved, self.other()
        file = list(lines_for(moved))
        self.takes(other, file, {THERE}, {**other.keys, **moved})
        self.assertEqual(other.values(moved), self.store.values(moved))
        self.ends(self.move(other.folder), 0, file, f"kept {THERE} target")
        first = self.store.copied(self.folder / "first")
        self.replies([(DEFINE.format("MOVER", "00018400"), "OK"), *zip(file, replying(set(self.store.keys), file))], first, calls=QUICK)
        tested = [f"CSNBKYT role=DEFAULT key=L:{label}" for label in moved]
        self.assertEqual(self.ask(tested, first), self.store.values(moved))

    def test_full(self):
        """A store that is full at the other module, and has some of the labels: it loses nothing, and takes what it has room for."""
        moved, other, drawn = self.store.moved, self.other(), random.Random(2)
        file, shared = list(lines_for(moved)), list(moved)[::50]
        foreign = shared + [f"FOREIGN.{number}" for number in range(CELLS - 1 - len(shared))]
        other.put({label: (drawn.randbytes(8), types()["DATA"][8]) for label in foreign})
        now = {**other.keys, **{label: moved[label] for label in shared}}
        self.takes(other, file, set(now), now)
        gone = foreign[-100:]
        other.well((f"CSNBKRD role=DEFAULT label={label}", "OK") for label in gone)
        held = set(now) - set(gone)
        wanted = list(replying(held, file))
        self.assertEqual(len(held), CELLS)
        self.takes(other, file, set(now) - set(gone), {label: moved.get(label, now.get(label)) for label in held})
