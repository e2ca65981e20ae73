"""Standard streams that are closed where the program starts: no file may get the number of one.

The system gives a file that is opened the lowest number that is free. So where 0, 1 or 2 is closed, a program that opens files
at once reads its requests from one, or writes its replies into one. Each command is run with each stream closed and with all
three, in a folder with files and in an empty one: each byte of the files must be as it is where the streams are open, or as it
was, and the run must end as one whose input has ended, or whose output can't be written.
"""
import os
import shutil

from tests.harness import USAGE, Calls, Case, Fault
from tests.keys import ONE_KEY

# A library that gives the number of standard output back at once where /dev/null has got it.
RELEASED = r"""
library="${CALLS%/*}/released.so"
[ -e "$library" ] || cc -shared -fPIC -o "$library" -x c - -ldl <<'C' >/dev/null 2>&1
#define _GNU_SOURCE
#include <dlfcn.h>
#include <string.h>
#include <unistd.h>
#define OPEN(name) \
    int name(const char *path, int flags, int mode) { \
        int file = ((int (*)(const char *, int, int))dlsym(RTLD_NEXT, #name))(path, flags, mode); \
        if (file == 1 && strcmp(path, "/dev/null") == 0) close(file); \
        return file; \
    }
OPEN(open)
OPEN(open64)
C
CCA_PRELOAD="$library" exec "$CCA" "$@"
"""
FAULTS = [
    Fault(RELEASED, case="Closed.test_output_with_files", tells="cca.module differs at 0"),
    Fault('[ -e /proc/self/fd/0 ] || exec <>cca.module; exec "$CCA" "$@"', case="Closed.test_input_with_files", tells="NO 0"),
]

INPUT, OUTPUT, ERRORS = 0, 1, 2
ALL = (INPUT, OUTPUT, ERRORS)
UNWRITTEN, UNREPORTED = "cca: the output could not be written", "cca: the report could not be written"
UNOPENED, REFUSED = "cca: a file could not be opened", "cca: refused by rule 05"

TEST = "CSNBKYT role=DEFAULT key=L:A"
LIST = "CSNBKRL role=DEFAULT prefix="
MOVE = ("unload", "DEFAULT", "TO", "DEFAULT", "FROM")
SIZES = {"cca.module": 50_688, "cca.store": 1_572_864, "cca.trail": 6_291_456}

# A master key, a key, the transport key of a move, and 200 labels without a key, which a move keeps back. The list of all labels
# has more bytes than there are before the master keys in the file of the module, and so has the report of the move.
LABELS = [f"KEPT.{number:03}.{'X' * 54}" for number in range(200)]
MADE = [
    *ONE_KEY,
    "CSNBKRC role=DEFAULT label=TO",
    "CSNBKGN role=DEFAULT form=OP length=16 type1=EXPORTER to=L:TO",
    *(f"CSNBKRC role=DEFAULT label={label}" for label in LABELS),
]


def files_in(folder):
    """The bytes of each file of a folder."""
    return {it.name: it.read_bytes() for it in sorted(folder.iterdir())}


def blank(*names):
    """Files as the program makes them."""
    return {name: bytes(SIZES[name]) for name in names}


class Closed(Case):
    @classmethod
    def setUpClass(cls):
        super().setUpClass()
        cls.held = cls.shared / "held"
        cls.held.mkdir()
        if any(not reply.startswith("OK") for reply in cls.program.ask(cls.held, MADE)):
            raise AssertionError("the keys weren't made")
        cls.program.ask(cls.held, [TEST, "A"], "audit")

    def closed(self, numbers, *words, given=(), folder=None, calls=None):
        """How the program ends in a folder where these numbers are closed, and the files that it leaves there."""
        folder = folder or self.folder

        def close():
            for number in numbers:
                os.close(number)

        came = self.program.run(folder, *words, given=given, calls=calls, preexec_fn=close)
        return came, files_in(folder)

    def ends_so(self, numbers, words, status, out, err, files, given=(), empty=False):
        """Runs it over a copy of the files, or in an empty folder. A stream that is closed gets nothing."""
        folder = self.folder / f"{'-'.join(words)}{len(list(self.folder.iterdir()))}"
        if empty:
            folder.mkdir()
        else:
            shutil.copytree(self.held, folder)
        came, left = self.closed(numbers, *words, given=given, folder=folder)
        self.assertEqual(sorted(left), sorted(files), words)
        for name, wanted in files.items():
            if left[name] != wanted:
                at = next(place for place, (one, other) in enumerate(zip(left[name], wanted)) if one != other)
                self.fail(f"{' '.join(words)}: {name} differs at {at}: {left[name][at:at + 60]}")
        self.assertEqual([came.status, came.lines, came.err], [status, list(out), f"{err}\n" if err else ""], words)

    def open_streams(self, *words, given=()):
        """What a run gives where the streams are open, and the files that it leaves."""
        folder = self.folder / f"open-{'-'.join(words)}"
        shutil.copytree(self.held, folder)
        return self.cca(*words, folder=folder, given=given), files_in(folder)

    # ---- each stream, over files

    def test_input_with_files(self):
        as_before = files_in(self.held)
        demo, demo_left = self.open_streams("demo", "1")
        trail, move = self.open_streams("trail")[0], self.open_streams(*MOVE)[0]
        self.ends_so([INPUT], ["run"], 0, [], "", as_before)
        self.ends_so([INPUT], ["audit"], 0, [], "", as_before)
        self.ends_so([INPUT], ["trail"], 0, trail.lines, "", as_before)
        self.ends_so([INPUT], ["demo", "1"], 0, demo.lines, "", demo_left)
        self.ends_so([INPUT], MOVE, 0, move.lines, move.err.removesuffix("\n"), as_before)

    def test_output_with_files(self):
        as_before = files_in(self.held)
        self.ends_so([OUTPUT], ["run"], 5, [], UNWRITTEN, as_before, given=["CSNBKYT role=NOBODY key=L:A"])
        self.ends_so([OUTPUT], ["run"], 5, [], UNWRITTEN, as_before, given=[LIST])
        self.ends_so([OUTPUT], ["run"], 0, [], "", as_before)
        recorded = self.open_streams("audit", given=[TEST])[1]
        self.ends_so([OUTPUT], ["audit"], 5, [], UNWRITTEN, recorded, given=[TEST, LIST])
        self.ends_so([OUTPUT], ["trail"], 5, [], UNWRITTEN, as_before)
        self.ends_so([OUTPUT], ["demo", "1"], 5, [], UNWRITTEN, self.open_streams("demo", "1")[1])
        self.ends_so([OUTPUT], MOVE, 5, [], UNWRITTEN, as_before)

    def test_errors_with_files(self):
        as_before = files_in(self.held)
        value, demo = self.open_streams("run", given=[TEST, LIST])[0], self.open_streams("demo", "1")
        self.ends_so([ERRORS], ["run"], 0, value.lines, "", as_before, given=[TEST, LIST])
        audited, recorded = self.open_streams("audit", given=[TEST, LIST])
        self.ends_so([ERRORS], ["audit"], 0, audited.lines, "", recorded, given=[TEST, LIST])
        self.ends_so([ERRORS], ["trail"], 0, self.open_streams("trail")[0].lines, "", as_before)
        self.ends_so([ERRORS], ["demo", "1"], 0, demo[0].lines, "", demo[1])
        moved = self.open_streams(*MOVE)[0].lines
        self.ends_so([ERRORS], MOVE, 16, moved[:2], "", as_before)

    def test_all_with_files(self):
        as_before = files_in(self.held)
        self.ends_so(ALL, ["run"], 0, [], "", as_before, given=[TEST])
        self.ends_so(ALL, ["audit"], 0, [], "", as_before, given=[TEST])
        self.ends_so(ALL, ["trail"], 5, [], "", as_before)
        self.ends_so(ALL, ["demo", "1"], 5, [], "", self.open_streams("demo", "1")[1])
        self.ends_so(ALL, MOVE, 5, [], "", as_before)

    # ---- an empty folder

    def test_empty_folder(self):
        two, three = blank("cca.module", "cca.store"), blank(*SIZES)
        told = {INPUT: REFUSED, OUTPUT: REFUSED, ERRORS: ""}
        for number in ALL:
            self.ends_so([number], ["run"], 0, [], "", two, empty=True)
            self.ends_so([number], ["audit"], 0, [], "", three, empty=True)
            self.ends_so([number], ["trail"], 0, [], "", blank("cca.trail"), empty=True)
            self.ends_so([number], MOVE, 12, [], told[number], two, empty=True)
        self.ends_so(ALL, ["run"], 0, [], "", two, empty=True)
        self.ends_so(ALL, ["audit"], 0, [], "", three, empty=True)
        self.ends_so(ALL, ["trail"], 0, [], "", blank("cca.trail"), empty=True)
        self.ends_so(ALL, MOVE, 12, [], "", two, empty=True)
        self.ends_so([OUTPUT], ["run"], 5, [], UNWRITTEN, two, empty=True, given=[TEST])

    def test_demo_in_empty_folder(self):
        whole = self.folder / "whole"
        whole.mkdir()
        summary = self.cca("demo", "1", folder=whole).lines
        for numbers, status, out, err in [
            ([INPUT], 0, summary, ""),
            ([OUTPUT], 5, [], UNWRITTEN),
            ([ERRORS], 0, summary, ""),
            (ALL, 5, [], ""),
        ]:
            self.ends_so(numbers, ["demo", "1"], status, out, err, files_in(whole), empty=True)

    # ---- words, and numbers that can't be taken

    def test_words_that_are_no_command(self):
        for numbers, err in [([INPUT], USAGE), ([OUTPUT], USAGE), ([ERRORS], ""), (ALL, "")]:
            self.ends_so(numbers, ["walk"], 2, [], err, {}, empty=True)
            self.ends_so(numbers, ["run", "1"], 2, [], err, {}, empty=True)

    def test_null_device_missing(self):
        instead = Calls(instead=f"/dev/null={self.shared}/none")
        for words in (["run"], ["demo", "1"], ["audit"], ["trail"], MOVE):
            came, left = self.closed([], *words, calls=instead)
            self.assertEqual([came.status, came.err, left], [11, f"{UNOPENED}\n", {}], words)
        came, left = self.closed([], "walk", calls=instead)
        self.assertEqual([came.status, came.err, left], [2, f"{USAGE}\n", {}])
