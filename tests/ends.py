"""The program where it can't end well: words that are no command, files that are none or damaged or whose calls fail, and streams and
a random source that fail. The exit status and the text are those of docs/VERBS.md.
"""
import os

from tests.formats import image, record
from tests.harness import EXAMPLES, USAGE, Calls, Case, Fault

FAULTS = [Fault('"$CCA" "$@" || true', case="Words", tells=r"\[0, ")]

RANDOM = "CSNBRNG role=DEFAULT form=RANDOM"
NOT_OPENED, RANDOM_FAILED = "cca: a file could not be opened", "cca: the random source failed"
WRONG_SIZE = "cca: a file has a wrong size"

LONGEST = "ABCDEFGHIJKLMNOPQRSTUVWXYZ.0123456789#$@ABCDEFGHIJKLMNOPQRSTUVWXY"  # one character too long for a label
NO_COMMANDS = [
    (),
    ("walk",),
    ("",),
    ("run", "run"),
    ("run", ""),
    ("", "run"),
    ("run", "1"),
    ("RUN",),
    ("demo",),
    ("demo", ""),
    ("demo", "1", "2"),
    ("demo", "1", ""),
    ("demo", "0"),
    ("demo", "1001"),
    ("demo", "03"),
    ("demo", "+3"),
    ("demo", "-1"),
    ("demo", "x"),
    (b"\xff",),
    ("run", b"\xff"),
    ("demo", "1", b"\xc3"),
    ("audit", "1"),
    ("trail", ""),
    ("AUDIT",),
    ("trails",),
    ("", "audit"),
    ("run", "audit"),
    ("unload",),
    ("unload", "R", "L", "R"),
    ("unload", "R", "L", "R", "L", ""),
    ("unload", "R", "L", "R", "L", "L"),
    ("", "R", "L", "R", "L"),
    ("Unload", "R", "L", "R", "L"),
    ("trail", "R", "L", "R", "L"),
    ("unload", "", "L", "R", "L"),
    ("unload", "R", "", "R", "L"),
    ("unload", "R", "L", "", "L"),
    ("unload", "R", "L", "R", ""),
    ("unload", "r", "L", "R", "L"),
    ("unload", "R", "L", "ABCDEFGHI", "L"),
    ("unload", "1R", "L", "R", "L"),
    ("unload", "R#", "L", "R", "L"),
    ("unload", "R", "1L", "R", "L"),
    ("unload", "R", "L", "R", ".L"),
    ("unload", "R", "L:L", "R", "L"),
    ("unload", "R", "L", "R", LONGEST),
    ("unload", "R", "L", "R", b"\xff"),
]

# A file of these bytes, or a folder in its place: the exit status and the text.
BAD_FILES = [
    ("cca.module", b"x", 17, WRONG_SIZE),
    ("cca.store", b"x", 17, WRONG_SIZE),
    ("cca.module", image("module", [b"\x07"]), 3, "cca: module cell 0 is damaged"),
    ("cca.store", image("store", [b""] * 5 + [b"\x07"]), 3, "cca: store cell 5 is damaged"),
    ("cca.module", None, 11, NOT_OPENED),
    ("cca.store", None, 11, NOT_OPENED),
]

# A call that fails. Each file is synced once where it is opened: a file that is being made is synced there for the first time.
BAD_CALLS = [
    ("read cca.module", True, 6, "cca: the module file failed"),
    ("write cca.module", True, 6, "cca: the module file failed"),
    ("sync cca.module", True, 6, "cca: the module file failed"),
    ("read cca.store", True, 7, "cca: the store file failed"),
    ("write cca.store", True, 7, "cca: the store file failed"),
    ("sync cca.store", True, 7, "cca: the store file failed"),
    ("sync cca.module", False, 11, NOT_OPENED),
    ("sync cca.store", False, 11, NOT_OPENED),
]


class Words(Case):
    def test_words_that_are_no_command_make_no_file(self):
        for words in NO_COMMANDS:
            with self.subTest(words=words):
                self.ends(self.cca(*words), 2, err=USAGE)
        self.assertEqual(list(self.folder.iterdir()), [])

    def test_longest_names(self):
        """The longest role and label, which are names."""
        self.ends(self.cca("unload", "ABCDEFG8", LONGEST[:64], "A", LONGEST[:64]), 12, err="cca: refused by rule 03")


class Files(Case):
    def test_files_that_are_none_or_damaged(self):
        for number, (name, whole, status, text) in enumerate(BAD_FILES):
            with self.subTest(name, text=text):
                folder = self.folder / str(number)
                folder.mkdir()
                (folder / name).mkdir() if whole is None else (folder / name).write_bytes(whole)
                self.ends(self.cca("run", folder=folder), status, err=text)

    def test_calls_that_fail(self):
        requests = (EXAMPLES / "labels" / "1-labels.txt").read_bytes()
        for number, (call, is_there, status, text) in enumerate(BAD_CALLS):
            with self.subTest(call, is_there=is_there):
                folder = self.folder / str(number)
                folder.mkdir()
                if is_there:
                    self.ends(self.cca("run", folder=folder), 0)
                came = self.cca("run", folder=folder, given=requests, calls=Calls(refused=call))
                self.assertEqual((came.status, came.err), (status, f"{text}\n"))


class Streams(Case):
    def test_input_that_cant_be_read(self):
        folder = os.open(self.folder, os.O_RDONLY)
        self.addCleanup(os.close, folder)
        self.ends(self.cca("run", stdin=folder), 4, err="cca: the input could not be read")

    def test_output_that_cant_be_written(self):
        with open("/dev/full", "wb") as full:
            came = self.cca("run", given=(EXAMPLES / "first.txt").read_bytes(), stdout=full)
        self.ends(came, 5, err="cca: the output could not be written")

    def test_input_that_doesnt_block(self):
        """It isn't ready: the run ends at once, once all whole lines were answered."""
        reading, writing = self.pipe()
        os.write(writing, b"A\nCSNBRNG role=DEFAULT form=ODD")
        os.set_blocking(reading, False)
        self.ends(self.cca("run", stdin=reading), 4, ["NO 01 -"], "cca: the input could not be read")

    def test_output_that_doesnt_block(self):
        """A reply has more bytes than a pipe has room for: it is cut, and the run ends at once."""
        labels = [f"A{number:063}" for number in range(1024)]
        (self.folder / "cca.store").write_bytes(image("store", map(record, labels)))
        reading, writing = self.pipe()
        os.set_blocking(writing, False)
        came = self.cca("run", given=["CSNBKRL role=DEFAULT prefix="], stdout=writing)
        self.ends(came, 5, err="cca: the output could not be written")
        written = os.read(reading, 2**17).decode()
        self.assertTrue(f"OK count=1024 labels={','.join(labels)}".startswith(written) and written)

    def pipe(self):
        """The two ends of a pipe."""
        ends = os.pipe()
        for end in ends:
            self.addCleanup(os.close, end)
        return ends


class Random(Case):
    def test_bytes_in_their_order_until_they_end(self):
        (self.folder / "bytes").write_bytes(b"0123456789abcdefghi")
        came = self.cca("run", given=[RANDOM] * 3, calls=Calls(instead=f"/dev/urandom={self.folder / 'bytes'}"))
        self.ends(came, 8, ["OK random=3031323334353637", "OK random=3839616263646566"], RANDOM_FAILED)

    def test_no_source(self):
        came = self.cca("run", given=[RANDOM] * 3, calls=Calls(instead=f"/dev/urandom={self.folder / 'none'}"))
        self.ends(came, 11, err=NOT_OPENED)

    def test_draws_differ(self):
        self.assertEqual([it[:10] for it in set(self.ask([RANDOM] * 3))], ["OK random="] * 3)
