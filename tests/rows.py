"""Replies that are known from outside: tables of requests with the reply to each, which the program must give.

Each file of tests/rows is a table, which begins with a comment on what it is and where its values come from. A line there is

    > REQUEST        a request, and on the next line
    < REPLY          the reply to it
    $ WORDS          another command, behind it its output by lines with `<` and its standard error by lines with `!`
    = STATUS         the exit status of that command, where it isn't 0
    random: HEX      random bytes that the requests below draw, or `random: HEX x 3` for three times these
    after: NAME      it goes on with the files that another table leaves
    command: audit   its requests are served by `cca audit`, and not by `cca run`

or a comment or blank. The requests of a table are served by one run, or by one behind each other command. All its random bytes
are drawn, and no others. A table without random bytes is tried once more with a run for each request: the files are opened again
after each one. Then come rows that are too many to be written out: a token with each of its bytes changed, an input cut after
each of its bytes, the longest lines and texts, and a full store.
"""
import os
import shutil
import threading
from dataclasses import dataclass, field

from tests.harness import TOP, Case, Fault
from tests.keys import QUICK, ceremony

FAULTS = [
    Fault('"$CCA" "$@" | sed -u "s/^NO 34 length/NO 32 length/"', case="Rows.test_unique", tells="wanted: NO 34 length"),
    Fault('[ -s cca.store ] && rm cca.store; exec "$CCA" "$@"', case="Lines.test_labels_used", tells="wanted: OK text=e5c7"),
]

FOLDER = TOP / "tests" / "rows"
NAMES = sorted(it.stem for it in FOLDER.glob("*.txt"))
MASTER = bytes(range(1, 25))


# ---- tables


@dataclass
class Run:
    """A run of the program: its words, the requests that it gets, and what it must give for them."""

    words: list
    requests: list = field(default_factory=list)
    lines: list = field(default_factory=list)
    errors: list = field(default_factory=list)
    status: int = 0
    random: bytes = b""


@dataclass
class Table:
    """The runs of a table, and the table whose files it goes on with, if there is one."""

    after: str = ""
    runs: list = field(default_factory=list)

    @property
    def rows(self):
        """The requests with their replies; none where a run draws random bytes or is another command."""
        runs = self.runs if all(it.requests and not it.random for it in self.runs) else []
        return [row for it in runs for row in zip(it.requests, it.lines, strict=True)]


def random_bytes(text):
    """The bytes of a line."""
    digits, _, times = text.partition(" x ")
    return bytes.fromhex(digits) * int(times or 1)


def table(name):
    """The table of this name."""
    read, command = Table(), "run"
    for line in (FOLDER / f"{name}.txt").read_text().splitlines():
        tag, _, text = line.partition(" ")
        run = read.runs[-1] if read.runs else None
        if tag in (">", "random:") and (run is None or run.words != [command]):
            run = Run([command])
            read.runs.append(run)
        if tag == "after:":
            read.after = text
        elif tag == "command:":
            command = text
        elif tag == "random:":
            run.random += random_bytes(text)
        elif tag == "$":
            read.runs.append(Run(text.split()))
        elif tag == "=":
            run.status = int(text)
        elif tag in (">", "<", "!"):
            {">": run.requests, "<": run.lines, "!": run.errors}[tag].append(text)
            assert run.words != [command] or len(run.requests) - len(run.lines) in (0, 1), f"{name}: {line}"
        else:
            assert tag in ("", "#"), f"{name}: {line}"
    return read


class Tables(Case):
    def serve(self, run):
        """A run, over the random bytes that it draws."""
        (self.folder / "random").write_bytes(run.random)
        calls = QUICK._replace(instead=f"/dev/urandom={self.folder / 'random'}")
        came = self.cca(*run.words, given=run.requests, calls=calls)
        self.same(came.lines, run.lines, run.requests)
        self.ends(came, run.status, run.lines, "\n".join(run.errors))
        drawn = sum(int(it.split()[-1]) for it in came.calls if it.startswith("read urandom - "))
        self.assertEqual(drawn, len(run.random), "random bytes that were drawn")

    def begun(self, name):
        """A table, with the files that are there before it."""
        it = table(name)
        for run in self.begun(it.after).runs if it.after else []:
            self.serve(run)
        return it


class Rows(Tables):
    """Each table."""

    def tried(self, name):
        for run in self.begun(name).runs:
            self.serve(run)


class Lines(Tables):
    """Each table without random bytes, with a run for each request."""

    def tried(self, name):
        for request, reply in self.begun(name).rows:
            self.serve(Run(["run"], [request], [reply]))


for _name in NAMES:
    setattr(Rows, f"test_{_name.replace('-', '_')}", lambda self, name=_name: self.tried(name))
    if table(_name).rows:
        setattr(Lines, f"test_{_name.replace('-', '_')}", lambda self, name=_name: self.tried(name))


# ---- lines and inputs

TOKEN = "020000000000c00000000000000000008ca64de9c1b123a7" + "00" * 36 + "50583190"
PARSE = f"CSNBKTP role=DEFAULT token={TOKEN}"
PARSED = "OK kind=external class=DATA length=8 vector=0000000000000000 pattern=0000000000000000"
NO_REQUESTS = [b"\n", b"x", b"\n\nx\n", b"CSNBKYT role=DEFAULT key=L:\n", b"CSNBKTP role=DEFAULT\n", b"CSNBKTP role=DEFAULT token=\r\n"]
# The key of zeros, under which a block of zeros is enciphered to the first half of ZEROS, and that one back to zeros.
ZEROS_UNDER_ZERO = f"key=T:010000000000c000083bf1025be34c44639aac267ee1137e{'00' * 8}00007d0003{'00' * 23}4a9c39ea iv={'00' * 8} pad=NONE"
ZEROS = "8ca64de9c1b123a7" + "00" * 8
# A key under a label, and the text of FIPS 81 enciphered and deciphered under it.
FIPS = [
    *ceremony(MASTER),
    ("CSNBKRC role=DEFAULT label=K", "OK"),
    ("CSNBCKI role=DEFAULT clear=0123456789abcdef to=L:K", "OK stored=K"),
    (
        "CSNBENC role=DEFAULT key=L:K iv=1234567890abcdef pad=NONE text=4e6f77206973207468652074696d6520666f7220616c6c20",
        "OK text=e5c7cdde872bf27c43e934008c389c0f683788499a7c05f6",
    ),
    (
        "CSNBDEC role=DEFAULT key=L:K iv=1234567890abcdef pad=NONE text=e5c7cdde872bf27c43e934008c389c0f683788499a7c05f6",
        "OK text=4e6f77206973207468652074696d6520666f7220616c6c20",
    ),
]


def cut_reply(line, reply, kept):
    """The reply to the first bytes of a line: of a text whole blocks come to as much of the whole reply."""
    digits = kept - len(line.partition("text=")[0] + "text=")
    if kept == len(line):
        return reply
    if digits < 0 or digits % 2:
        return "NO 01 -"
    return reply[: len("OK text=") + digits] if digits and digits % 16 == 0 else "NO 23 text"


class Inputs(Case):
    def test_no_requests(self):
        self.ends(self.cca("run"), 0)
        for given in NO_REQUESTS:
            with self.subTest(given):
                self.ends(self.cca("run", given=given), 0, ["NO 01 -"] * (given.count(b"\n") or 1))

    def test_longest_line(self):
        """A line of 9,216 bytes, and one that is longer; the last line has no newline."""
        given = "\n".join(["A" * 9217, "A" * 9216, "", PARSE])
        self.ends(self.cca("run", given=given), 0, ["NO 02 -", "NO 01 -", "NO 01 -", PARSED])

    def test_longest_text(self):
        """A text of 4,096 bytes, one of a block more, and one that makes a line too long."""
        line = f"CSNBENC role=DEFAULT {ZEROS_UNDER_ZERO} text="
        sizes = ((4096, f"OK text={ZEROS * 256}"), (4104, "NO 23 text"), (4600, "NO 02 -"))
        self.replies([*ceremony(MASTER), *((line + "00" * size, reply) for size, reply in sizes)])

    def test_byte_by_byte(self):
        """An input that comes byte by byte, and ends without a newline."""
        run = table("published").runs[0]
        reading, writing = os.pipe()

        def write():
            for byte in "\n".join(run.requests).encode():
                os.write(writing, bytes([byte]))
            os.close(writing)

        writer = threading.Thread(target=write)
        writer.start()
        came = self.cca("run", stdin=reading)
        os.close(reading)
        writer.join()
        self.ends(came, 0, run.lines)

    def test_cut(self):
        """An input may end after any byte."""
        for number, (line, reply) in enumerate(FIPS):
            given, replies = ("".join(f"{row[it]}\n" for row in FIPS[:number]) for it in (0, 1))
            for kept in range(1, len(line) + 1):
                folder = self.folder / f"{number} {kept}"
                folder.mkdir()
                came = self.cca("run", given=given + line[:kept], folder=folder, calls=QUICK)
                self.ends(came, 0, f"{replies}{cut_reply(line, reply, kept)}\n")
                shutil.rmtree(folder)


# ---- a token with its bytes changed

# An external EXPORTER key of double length, without its validation value, and what is shown of it by its control vector.
EXPORTER = bytes.fromhex("020000000000c0000000000000000000" + "11" * 8 + "22" * 8 + "00417d000341000000417d0003210000" + "00" * 12)
SHOWN = "OK kind=external class=EXPORTER length=16 vector=00417d000341000000417d0003210000 pattern=0000000000000000"
UNIQUE = "OK kind=external class=EXPORTER length=16 vector=00417d0003c0000000417d0003a00000 pattern=0000000000000000"


def changed(token, at, value):
    """A token with another byte."""
    return token[:at] + bytes([value]) + token[at + 1 :]


def with_forms(left, right):
    """The token with other key forms in its two control vectors, each with bit 47 as the parity of its byte asks."""
    left, right = (form * 32 + bin(form).count("1") % 2 for form in (left, right))
    return changed(changed(EXPORTER, 37, left), 45, right)


def validated(token):
    """A token with its validation value: the sum of the fifteen words before it."""
    return token + (sum(int.from_bytes(token[at : at + 4], "big") for at in range(0, 60, 4)) % 2**32).to_bytes(4, "big")


def parse(token):
    return f"CSNBKTP role=DEFAULT token={token.hex()}"


def rule_of(at, shown):
    """What a token is answered whose byte of this number is complemented."""
    rules = {0: "09", 4: "11", 6: "12", **dict.fromkeys([*range(1, 4), 5, *range(7, 16), *range(48, 60)], "13")}
    rules.update(dict.fromkeys((35, 36, 43, 44), "15"))
    return shown if at in range(16, 32) else f"NO {rules.get(at, '16')} token"


class Bytes(Case):
    def test_rules(self):
        """Each byte has its rule, of a double-length key and of one whose halves are guaranteed unique."""
        for token, shown in ((EXPORTER, SHOWN), (with_forms(6, 5), UNIQUE)):
            rows = [(parse(validated(changed(token, at, token[at] ^ 0xFF))), rule_of(at, shown)) for at in range(60)]
            self.replies([(parse(validated(token)), shown), *rows])

    def test_forms(self):
        """Each form of a left half beside each of a right one: they belong together."""
        shown = {(2, 1): SHOWN, (6, 5): UNIQUE}
        forms = [(left, right) for left in range(8) for right in range(8)]
        self.replies([(parse(validated(with_forms(*it))), shown.get(it, "NO 16 token")) for it in forms])

    def test_validation_value(self):
        """Each byte that is changed breaks the validation value."""
        token = validated(EXPORTER)
        self.replies([(parse(changed(token, at, token[at] ^ 0xFF)), "NO 10 token" if at else "NO 09 token") for at in range(64)])

    def test_parity(self):
        """Each bit that is changed breaks the parity of the control vector."""
        bits = [(at, 1 << bit) for at in range(32, 48) for bit in range(8)]
        self.replies([(parse(validated(changed(EXPORTER, at, EXPORTER[at] ^ bit))), "NO 14 token") for at, bit in bits])


# ---- a full store

UNDER_MASTER = f"010000000000c000083bf1025be34c448292d66fa813459c{'00' * 8}00007d0003{'00' * 23}92c69651"


class Full(Case):
    def test_full_store(self):
        """A full store is current at once: its keys are put ahead of SET. Each run opens it again."""
        labels = [f"K{number}" for number in range(1024)]
        ahead = [("REENCIPHER role=DEFAULT action=AHEAD", "OK changed=1024")]
        begun = list(ceremony(bytes([255] * 24)))
        for rows in (
            ceremony(MASTER),
            [(f"CSNBKRC role=DEFAULT label={it}", "OK") for it in labels],
            [(f"CSNBKRW role=DEFAULT label={it} token={UNDER_MASTER}", "OK") for it in labels],
            [("CSNBKRC role=DEFAULT label=MORE", "NO 28 label"), *begun[:2], *ahead],
            begun[2:],
            [(f"CSNBKYT role=DEFAULT key=L:{it}", "OK value=d5d44ff7") for it in labels],
            [("REENCIPHER role=DEFAULT", "OK changed=0")],
        ):
            self.replies(rows, calls=QUICK)
