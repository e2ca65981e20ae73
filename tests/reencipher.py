"""Keys under a new master key, over a store of 200 labels, by runs that are killed: REENCIPHER behind SET, and AHEAD before it, with
which no key answers with a warning. And labels that are taken in, by runs that are killed before each change of a file.

The keys are put in as tokens that OpenSSL makes, and what each cell of the store file must hold is made of the same keys by the
table of records of docs/FORMATS.md: so both tokens of a label are compared with another program, byte for byte. What the system
had taken from the program stays, so this tries a program that is killed, and no failing power."""
import functools
import itertools
import random
import shutil
import subprocess

from tests.formats import BODIES, CELL, internals, made, pattern, record, sealed, selected, value
from tests.harness import LIMIT, Calls, Case, Fault
from tests.keys import OTHER, QUICK, by_label, ceremony, drawn_key, stored

FORGETFUL = 'SKIPPED="write cca.store" CCA_PRELOAD=$CALLS exec "$CCA" "$@"'
FAULTS = [
    Fault(FORGETFUL, case="Ahead.test_kills", tells="Lists differ: .'KEY.000'"),
    Fault(FORGETFUL, case="Labels", tells="OK count=0"),
    Fault('"$CCA" "$@" | sed "s/ warn=old$//"', case="Renewal", tells="wanted: OK value=.* warn=old$"),
    Fault('"$CCA" "$@" || echo "OK changed=0"', case="Damage", tells="Tuples differ: .*OK changed=0"),
]

LABELS = 200
CHAINS = 4  # chains of runs of each action, each killed until one comes to its end
TAKEN = 12  # labels that are taken in by runs that are killed
MIDWAY = 200  # kills while the keys are brought under the next master key
RENEW = "REENCIPHER role=DEFAULT"
AHEAD, DROP = f"{RENEW} action=AHEAD", f"{RENEW} action=DROP"
FIRST, NEXT, LAST = (made(f"master key {number}", 24) for number in range(3))
MKP = "CSNBMKP role=DEFAULT"
LONGEST_RUN = 0.2  # seconds within which a run is killed, unless it has ended
drawn = random.Random(1)
KEYS = {f"KEY.{number:03}": drawn_key(drawn) for number in range(LABELS)}
HELD = [label for label in KEYS if KEYS[label]]
CHANGED = f"OK changed={len(HELD)}"


@functools.cache
def bodies(first, second=None):
    """What the cells select: of each key its token under a master key, and beside it the second one, where there is one: the
    pattern of that master key, and the two halves under it."""
    tokens = {label: bytes.fromhex(it) for label, it in by_label(internals, first, KEYS).items()}
    halves = by_label(lambda under, keys: sealed(keys, under), second, KEYS) if second else {}
    return [record(it, tokens.get(it, b""), pattern(second) + halves[it] if it in halves else b"") for it in KEYS]


def came_to(now, old, new):
    """How many of the lowest labels with a key the cells hold as they are after the action, if each other cell is as before."""
    changed = [number for number in range(LABELS) if old[number] != new[number]]
    count = sum(now[number] == new[number] for number in changed)
    wanted = list(old)
    for number in changed[:count]:
        wanted[number] = new[number]
    return count if now == wanted else None


def tested(old=()):
    """Each request for a key check value, and its reply: a label without a key has none, nor has a key part, nor a key of another class;
    those that are under the old master key warn."""
    for label, key in KEYS.items():
        if key is None:
            reply = "NO 08 key"
        elif key[1][5] & 0x08:
            reply = "NO 17 key"
        elif key[1][1] == OTHER[1]:
            reply = "NO 19 key"
        else:
            reply = f"OK value={value(key[0])}" + " warn=old" * (label in old)
        yield f"CSNBKYT role=DEFAULT key=L:{label}", reply


class Store(Case):
    @classmethod
    def setUpClass(cls):
        """A module with keys under labels, and the next master key in the new register."""
        super().setUpClass()
        pairs = [*ceremony(FIRST), *stored(FIRST, KEYS), *ceremony(NEXT)][:-1]
        replies = cls.program.ask(cls.shared, [line for line, _ in pairs], calls=QUICK)
        assert replies == [reply for _, reply in pairs], "the keys weren't put in"

    def setUp(self):
        super().setUp()
        for name in ("cca.module", "cca.store"):
            shutil.copy(self.shared / name, self.folder)

    def selected(self):
        return selected((self.folder / "cca.store").read_bytes())[:LABELS]

    def holds(self, wanted):
        """The cells of the store must select these bodies."""
        self.assertEqual([label for label, now, body in zip(KEYS, self.selected(), wanted) if now != body], [])

    def chain(self, line, old, new, look=lambda count: None):
        """Runs of one action, killed until the labels are changed or one isn't killed: how many were killed midway. What `look` does
        comes behind each kill, with the number of labels that are changed."""
        count, whole, midway = 0, came_to(new, old, new), 0
        while count < whole and drawn.random() < 0.9:
            at_call = {"calls": QUICK._replace(killed=f"write cca.store {drawn.randint(1, 2 * (whole - count))}")}
            self.cca("run", given=[line], **drawn.choice([at_call, {"kill_after": drawn.uniform(0, LONGEST_RUN)}]))
            before, count = count, came_to(self.selected(), old, new)
            self.assertIsNotNone(count, f"{line}, killed behind {before} changed labels: other cells than the lowest are changed")
            self.assertLessEqual(before, count)
            midway += before < count < whole
            look(count)
        self.replies([(line, f"OK changed={whole - count}"), (line, "OK changed=0")], calls=QUICK)
        self.holds(new)
        return midway


class Renewal(Store):
    def test_kills(self):
        """Each key is there with its key check value after each kill, under one master key after another."""
        old, new, midway, following = FIRST, NEXT, 0, itertools.cycle((LAST, FIRST, NEXT))
        for _ in range(10 * MIDWAY):  # 60 to 200 are enough, by how fast the machine is
            if midway >= MIDWAY:
                break
            self.replies([(f"{MKP} action=SET", "OK new=empty")])
            look = lambda count: self.replies(tested(HELD[count:]), calls=QUICK)
            midway += self.chain(RENEW, bodies(old), bodies(new), look)
            self.replies(tested())
            old, new = new, next(following)
            self.replies([*ceremony(new)][:-1])
        self.assertGreaterEqual(midway, MIDWAY)


class Ahead(Store):
    def test_kills(self):
        """Both actions, stopped in chains: the cells of the store are as another program makes them."""
        one, both = bodies(FIRST), bodies(FIRST, NEXT)
        self.holds(one)
        for line, reply, wanted in ((AHEAD, CHANGED, both), (AHEAD, "OK changed=0", both), (DROP, CHANGED, one)):
            self.replies([(line, reply)], calls=QUICK)
            self.holds(wanted)
        midway = sum(self.chain(AHEAD, one, both) + self.chain(DROP, both, one) for _ in range(CHAINS))
        self.assertGreaterEqual(midway, CHAINS)

    def test_set(self):
        """AHEAD, killed and run again, then SET at once, which writes no record: no key answers with a warning."""
        self.chain(AHEAD, bodies(FIRST), bodies(FIRST, NEXT))
        self.replies(tested())
        self.replies([(f"{MKP} action=CLEAR", "NO 33 -"), (f"{MKP} action=SET", "OK new=empty"), (RENEW, "OK changed=0")])
        self.holds(bodies(FIRST, NEXT))
        self.replies(tested())
        tokens = by_label(internals, NEXT, KEYS)
        self.replies((f"CSNBKRR role=DEFAULT label={label}", f"OK token={token}") for label, token in tokens.items())

    def test_third_master_key(self):
        """From labels that are under their second tokens: AHEAD of a third master key, DROP, and a SET without AHEAD."""
        self.replies([(AHEAD, CHANGED), (f"{MKP} action=SET", "OK new=empty"), *[*ceremony(LAST)][:-1]], calls=QUICK)
        self.chain(AHEAD, bodies(FIRST, NEXT), bodies(NEXT, LAST))
        self.chain(DROP, bodies(NEXT, LAST), bodies(NEXT))
        pairs = [(f"{MKP} action=SET", "OK new=empty"), *tested(HELD), (RENEW, CHANGED), *tested()]
        self.replies(pairs, calls=QUICK)
        self.holds(bodies(LAST))


class Damage(Store):
    def test_cell_that_rots_once_the_store_is_open(self):
        """REENCIPHER comes upon it: no reply, but the cell is told, and the keys in the cells below it are brought under the master key."""
        self.replies([(f"{MKP} action=SET", "OK new=empty")])
        number = list(KEYS).index(HELD[LABELS // 4])
        place, wanted = BODIES[(self.folder / "cca.store").read_bytes()[CELL * number] % 2], bodies(FIRST)
        wanted = [*bodies(NEXT)[:number], b"\x07" + wanted[number][1:], *wanted[number + 1 :]]
        streams = dict.fromkeys(("stdin", "stdout", "stderr"), subprocess.PIPE)
        with subprocess.Popen([self.program.path, "run"], cwd=self.folder, **streams) as it:
            it.stdin.write(b"CSNBKRL role=DEFAULT prefix=X\n")
            it.stdin.flush()
            self.assertEqual(it.stdout.readline(), b"OK count=0 labels=\n")
            with open(self.folder / "cca.store", "r+b") as store:
                store.seek(CELL * number + place)
                store.write(b"\x07")
            out, err = it.communicate(f"{RENEW}\n".encode(), LIMIT)
        self.assertEqual((it.returncode, out, err), (3, b"", f"cca: store cell {number} is damaged\n".encode()))
        self.holds(wanted)


class Labels(Case):
    def test_killed_before_each_change_of_a_file_and_each_reply(self):
        """The store is opened, and holds the labels of all requests that had a reply, and of at most one more, in their order."""
        labels, replied = list(KEYS)[:TAKEN], set()
        lines = [f"CSNBKRC role=DEFAULT label={label}" for label in labels]
        calls = [call for call in self.cca("run", given=lines, calls=Calls()).calls if not call.startswith(("open ", "map "))]
        for number, call in enumerate(calls, 1):
            if call.startswith(("read cca.", "read urandom")):
                continue
            for file in self.folder.iterdir():
                file.unlink()
            came = self.cca("run", given=lines, calls=QUICK._replace(killed=f"any {number}"))
            self.assertEqual((came.status, set(came.lines) - {"OK"}), (-9, set()), f"killed before {call}")
            count = len(came.whole)
            replied.add(count)
            wanted = [f"OK count={it} labels={','.join(labels[:it])}" for it in (count, count + 1)]
            self.assertIn(self.ask(["CSNBKRL role=DEFAULT prefix="])[0], wanted, f"after {count} replies, killed before {call}")
        self.assertEqual(replied, set(range(TAKEN + 1)))
