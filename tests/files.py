"""The program's files: how they are made, their modes and locks, and what is asked of them, call by call, over all examples.

At the start each file is synced once, and each cell of it read once, upwards, the module's first. A request reads cell 0 of the
module, and one cell of the store for each label of a key. A refusal, and a request that changes nothing, ask for no more: they
write and sync neither file. A change reads a selector, writes and syncs a body, and then the selector, in one cell of one file;
REENCIPHER does so for each label that it changes. Random bytes are read by one call, and only where a request that draws them is
answered OK. (Of a key of DOUBLE-O each right half that is repeated is read by one more, which random bytes as good as never come
to: tests/generate.py chooses such bytes.)
"""
import re
import shutil
import subprocess
import unittest

from tests.formats import BODIES, BODY, CELL, CELLS, SIZES, entered, made, registers, role, selected
from tests.harness import EXAMPLES, Calls, Case, Coprocess, Fault, example

FAULTS = [
    Fault('CCA_PRELOAD=$CALLS SKIPPED="sync cca.store" exec "$CCA" "$@"', case="Requests.test_refusals", tells="but wanted sync cca.store"),
    Fault('CCA_PRELOAD=$CALLS SKIPPED="sync ." exec "$CCA" "$@"', case="Made.test_missing", tells=r"^'sync \.'$"),
    Fault('"$CCA" "$@" && chmod -f 644 cca.store', case="Modes.test_made", tells="644"),
]

MODULE, STORE, RANDOM = "cca.module", "cca.store", "urandom"
FILES = {MODULE: "module", STORE: "store"}
# The verbs that change a file wherever they are answered OK, and the file.
CHANGES = {"CSNBMKP": MODULE, "CSUAACI": MODULE, "CSNBKRC": STORE, "CSNBKRW": STORE, "CSNBKRD": STORE}
DRAWS = ("CSNBRNG", "CSNBKGN")  # the verbs that draw random bytes


class Modes(Case):
    def are(self, mode, name):
        """Both files have a mode, and their sizes."""
        for kind in ("module", "store"):
            state = (self.folder / f"{name}.{kind}").stat()
            self.assertEqual((f"{state.st_mode & 0o777:o}", state.st_size), (mode, SIZES[kind]))

    def test_made(self):
        self.ends(self.cca("run", umask=0o022), 0)
        self.are("600", "cca")

    def test_made_by_a_demo(self):
        self.assertEqual(self.cca("demo", "1", umask=0o022).status, 0)
        self.are("600", "demo")

    def test_kept(self):
        for whole in (0, 1):
            for name, kind in FILES.items():
                (self.folder / name).write_bytes(bytes(whole * SIZES[kind]))
                (self.folder / name).chmod(0o640)
            self.ends(self.cca("run"), 0)
            self.are("640", "cca")


class Locks(Case):
    def test_second_run_is_refused_and_takes_nothing(self):
        pairs = [*example("ceremony/1-first-custodian"), *example("ceremony/2-second-custodian")]
        with Coprocess(self.program, self.folder) as first:
            replies = [first.ask(pairs[0][0])]
            second = self.cca("run", given=["CSNBMKP role=DEFAULT action=CLEAR"])
            self.ends(second, 11, err="cca: a file could not be opened")
            replies += [first.ask(request) for request, _ in pairs[1:]]
            self.assertEqual(first.close(), 0)
        self.assertEqual(replies, [reply for _, reply in pairs])

    @unittest.skipUnless(shutil.which("flock"), "flock isn't installed")
    def test_backup_under_flock_is_refused(self):
        with Coprocess(self.program, self.folder) as first:
            first.ask("A")
            for name in FILES:
                self.assertEqual(subprocess.run(["flock", "-n", self.folder / name, "true"]).returncode, 1)


class Module(Case):
    def test_registers_and_roles_as_the_formats_have_them(self):
        one, two = made("master key", 24), made("next master key", 24)
        first, last, is_set = entered(one, "SET")
        steps = [
            (first, "OK new=partial", registers(one, is_partial=True)),
            (last, "OK new=full", registers(one)),
            (is_set, "OK new=empty", registers(current=one)),
            (entered(two)[0], "OK new=partial", registers(two, one, is_partial=True)),
            (last, "OK new=full", registers(two, one)),
            (is_set, "OK new=empty", registers(current=two, old=one)),
        ]
        for request, reply, body in steps:
            self.replies([(request, reply)])
            self.assertEqual(selected((self.folder / MODULE).read_bytes())[:3], [body, bytes(BODY), bytes(BODY)])
        self.replies([("CSUAACI role=DEFAULT action=DEFINE name=TELLER points=00018400", "OK")])
        self.assertEqual(selected((self.folder / MODULE).read_bytes())[2:4], [role("TELLER", 0x00018400), bytes(BODY)])


class Made(Case):
    """A file that is missing or empty is on the drive, with its name, before a line is read, so that no reply outlives its file where
    the power fails: the folder is synced while the file is empty, then the file gets its size, and then it is synced."""

    settled = [f"sync {MODULE}", f"sync {STORE}"]

    def made(self, file):
        return ["sync .", f"resize {file} {SIZES[file.split('.')[1]]}", f"sync {file}"]

    def begins(self, wanted, *words):
        """A run does this to its files and their folder, but for reads, before it takes input or writes to its output."""
        came = self.cca(*(words or ["run"]), given=["CSNBRNG role=DEFAULT form=RANDOM"], calls=Calls())
        self.assertEqual(came.status, 0)
        end = next(at for at, call in enumerate(came.calls) if re.match(r"read input |write output ", call))
        found = [call for call in came.calls[:end] if re.match(r"(sync|resize|write) (\.$|cca\.|demo\.)", call)]
        if words:
            found = [call for call in found if not call.startswith("write ")][: len(wanted)]
        self.assertEqual(found, wanted)

    def test_missing(self):
        self.begins([*self.made(MODULE), *self.made(STORE), *self.settled])
        self.begins(self.settled)

    def test_empty_module(self):
        self.cca("run")
        (self.folder / MODULE).write_bytes(b"")
        self.begins([*self.made(MODULE), *self.settled])

    def test_missing_store(self):
        self.cca("run")
        (self.folder / STORE).unlink()
        self.begins([*self.made(STORE), *self.settled])

    def test_demo(self):
        files = ("demo.module", "demo.store")
        self.begins([it for file in files for it in (f"resize {file} 0", *self.made(file))], "demo", "1")


class Wrong(Exception):
    """What is wrong with some calls."""


class Noted:
    """The calls of a request, of which each judgement takes some from the front."""

    def __init__(self, calls):
        self.calls = [call for call in calls if not call.startswith("read input ")]

    def next(self):
        return self.calls[0] if self.calls else "the end"

    def take(self, *wanted):
        """Takes the next call, which must be one of these."""
        if self.next() not in wanted:
            raise Wrong(f"{self.next()}, but wanted {' or '.join(wanted)}")
        self.calls.pop(0)

    def end(self):
        if self.calls:
            raise Wrong(f"{self.next()}, but wanted no more")

    def take_body(self, word, file, cell):
        self.take(*(f"{word} {file} {cell * CELL + at} {BODY}" for at in BODIES))

    def take_cell(self, file, cell):
        """Takes the two reads of a cell."""
        self.take(f"read {file} {cell * CELL} 1")
        self.take_body("read", file, cell)

    def next_cell(self, file):
        """The cell whose selector is read next."""
        found = re.fullmatch(rf"read {file} (\d+) 1", self.next())
        if not found or int(found[1]) % CELL:
            raise Wrong(f"{self.next()}, but wanted a selector of {file}")
        return int(found[1]) // CELL

    def take_change(self, file):
        """Takes the calls of a cell's change."""
        cell = self.next_cell(file)
        self.take(f"read {file} {cell * CELL} 1")
        self.take_body("write", file, cell)
        self.take(f"sync {file}")
        self.take(f"write {file} {cell * CELL} 1")
        self.take(f"sync {file}")

    def take_opening(self, is_made):
        """Takes the calls before the first line, of which the first ones take the numbers of the standard streams."""
        for _ in range(3):
            self.take("open null")
        for file, kind in FILES.items():
            made = ("open .", "sync .", f"resize {file} {SIZES[kind]}", f"sync {file}")
            for call in (f"open {file}", *(made if is_made else ())):
                self.take(call)
        self.take(f"open {RANDOM}")
        for file, kind in FILES.items():
            self.take(f"sync {file}")
            for cell in range(CELLS[kind]):
                self.take_cell(file, cell)

    def take_request(self, request, reply):
        """Takes the calls of a request."""
        refused = re.match(r"NO (\d\d) (\S+)", reply)
        if refused and refused[1] in ("01", "02"):
            return
        verb, *words = request.split()
        fields = [word.split("=", 1) for word in words]
        if verb == "CSNBKRR":
            fields = [(name, f"L:{value}" if name == "label" else value) for name, value in fields]
        self.take_cell(MODULE, 0)
        for _ in range(cells_read(fields, refused)):
            self.take_cell(STORE, self.next_cell(STORE))
        if not refused and verb in DRAWS:
            self.take(f"read {RANDOM} - 8", f"read {RANDOM} - 16")
        changed = re.match(r"OK changed=(\d+)", reply)
        if changed:
            self.take_renewal(int(changed[1]))
        elif not refused and (verb in CHANGES or " stored=" in reply):
            self.take_change(CHANGES.get(verb, STORE))

    def take_renewal(self, wanted):
        """Takes the calls of REENCIPHER: each cell at most once, upwards, with so many changes."""
        count, last = 0, -1
        while self.calls:
            cell = self.next_cell(STORE)
            if cell <= last:
                raise Wrong(f"cell {cell} of the store after cell {last}")
            last = cell
            self.take_cell(STORE, cell)
            if self.calls and self.next_cell(STORE) == cell:
                self.take_change(STORE)
                count += 1
        if count != wanted:
            raise Wrong(f"{count} cells changed, but wanted {wanted}")


def cells_read(fields, refused):
    """How many cells of labels a request reads: those of its keys, up to the operand that is refused."""
    if refused and int(refused[1]) <= 5:
        return 0
    count = 0
    for name, value in fields:
        here = bool(refused) and int(refused[1]) <= 22 and refused[2] == name
        if here and refused[1] in ("06", "07"):
            return count
        count += value.startswith("L:") and name != "to"
        if here:
            return count
    return count


def judge(given, replies, calls, is_made):
    """Judges the calls of a whole run: they are those before the first line, then those of each request up to its reply."""
    parts = [[]]
    for call in calls:
        if call.startswith("write output "):
            parts.append([])
        else:
            parts[-1].append(call)
    if len(parts) != len(replies) + 1:
        raise Wrong(f"{len(replies)} replies by {len(parts) - 1} writes")
    begun = next(at for at, call in enumerate(parts[0]) if call.startswith("read input "))
    opening, parts[0] = Noted(parts[0][:begun]), parts[0][begun:]
    opening.take_opening(is_made)
    opening.end()
    for request, reply, part in zip([*given, ""], [*replies, "NO 01 -"], map(Noted, parts), strict=True):
        try:
            part.take_request(request, reply)
            part.end()
        except Wrong as wrong:
            raise Wrong(f"{request[:70]} ({reply[:40]}): {wrong}") from None


class Requests(Case):
    def judged(self, given):
        """Judges a run over lines: its replies."""
        files = [self.folder / name for name in FILES]
        before = [file.exists() and file.read_bytes() for file in files]
        came = self.cca("run", given=given, calls=Calls())
        self.assertEqual(came.status, 0, came.err)
        judge(given, came.lines, came.calls, is_made=not before[0])
        if not any(call.startswith("write cca.") for call in came.calls) and before[0]:
            self.assertEqual(before, [file.read_bytes() for file in files], "a file has changed, but no write was noted")
        return came.lines

    def judged_examples(self, names):
        """Judges the examples of some folders, or of single files: the rules that refuse a request there."""
        rules = set()
        for name in names:
            self.setUp()
            with self.subTest(name):
                for file in sorted((EXAMPLES / name).glob("*.txt")) or [EXAMPLES / f"{name}.txt"]:
                    given = file.read_text(errors="replace").removesuffix("\n").split("\n")
                    rules |= {reply[:5] for reply in self.judged(given) if reply.startswith("NO ")}
        return rules

    def test_refusals(self):
        self.assertGreaterEqual(len(self.judged_examples(["refusals"])), 30)

    def test_all_examples(self):
        self.judged_examples(sorted({it.parent.name if it.parent != EXAMPLES else it.stem for it in EXAMPLES.rglob("*.txt")}))

    def test_full_store(self):
        self.judged([f"CSNBKRC role=DEFAULT label=KEY.{number:04}" for number in range(1024)])
        more = self.judged(["CSNBKRC role=DEFAULT label=ONE.MORE", "CSNBKRC role=DEFAULT label=KEY.0512"])
        self.assertEqual(more, ["NO 28 label"] * 2)
