"""`python3 -m cca explain`: forty lines that are no request, each with the field, the byte and the reason; the program must refuse each
by rule 01. Then many lines that are made and altered at random: the program must take for a request just what has no reason."""
import os
import random
import subprocess
import sys
import unittest

from tests.edits import LIBRARIES, Edit, each_is_found
from tests.harness import Case, Fault

sys.path.insert(0, str(LIBRARIES / "python"))
from cca import explain  # noqa: E402
from cca.rows import ROWS  # noqa: E402

FAULTS = [Fault('"$CCA" "$@" | sed -u "s/^NO 01 -/NO 03 -/"', case="Lines.test_broken", tells="wanted: NO 01 -")]
EDITS = [
    Edit("clients/python/cca/lines.py", "if len(text) in counts:", "if True:", "Lines.test_reasons"),
    Edit("clients/python/cca/lines.py", "others = int(text, 16) & ~ALL_POINTS", "others = 0", "Lines.test_altered"),
    Edit("clients/python/cca/lines.py", 'if text == "DEFAULT" else None', "if False else None", "Lines.test_altered"),
    Edit("clients/python/cca/explain.py", "word.at + len(field.name) + 2 + fault.at", "word.at + fault.at", "Lines.test_reasons"),
    Edit("clients/python/cca/explain.py", "return name if name in FIELDS else", "return name if name else", "Lines.test_no_secrets"),
]  # fmt: skip

KEY = "key=L:PAY"
IV = "iv=1234567890abcdef"
# Lines, with the field, the byte and a part of the reason.
BROKEN = [
    ("", "-", 1, "empty"),
    (f"CSNBKYT role=DEFAULT {KEY}\r", "key", 31, "carriage return at the end"),
    (f"CSNBKYT role=DEFAULT\r{KEY}", "role", 21, "carriage return within"),
    (f"\xef\xbb\xbfCSNBKYT role=DEFAULT {KEY}", "-", 1, "byte order mark"),
    (f" CSNBKYT role=DEFAULT {KEY}", "-", 1, "blank before the verb"),
    (f"CSNBKYT role=DEFAULT {KEY} ", "-", 31, "blank at the end"),
    (f"CSNBKYT  role=DEFAULT {KEY}", "-", 9, "a blank too many"),
    (f"CSNBKYT\trole=DEFAULT {KEY}", "-", 8, "a tab"),
    (f"CSNBKYT role=DEFAULT {KEY}\0", "key", 31, "a zero byte"),
    (f"CSNBKYT role=DEFAULT {KEY}\xe9", "key", 31, "X'E9'"),
    (f"csnbkyt role=DEFAULT {KEY}", "-", 1, "a verb is in upper case"),
    (f"CSNBKYx role=DEFAULT {KEY}", "-", 7, "no verb begins so"),
    ("OK value=d5d44ff7", "-", 1, "a reply"),
    ("CSNBKYT", "role", 8, "role is missing"),
    (f"CSNBKYT {KEY}", "role", 9, "role is missing"),
    (f"CSNBKYT ROLE=DEFAULT {KEY}", "role", 9, "lower case"),
    (f"CSNBKYT role=teller {KEY}", "role", 14, "lower case"),
    (f"CSNBKYT role=1TELLER {KEY}", "role", 14, "a letter"),
    (f"CSNBKYT role=VERYLONGNAME {KEY}", "role", 22, "1 to 8"),
    (f"CSNBKYT role= {KEY}", "role", 14, "1 to 8"),
    ("CSNBKYT role=DEFAULT", "key", 21, "the line ends, and the field key is missing"),
    ("CSNBKYT role=DEFAULT key=PAY", "key", 26, "L: and a label or T: and a key token"),
    ("CSNBKYT role=DEFAULT key=l:PAY", "key", 26, "lower case: L: or T:"),
    ("CSNBKYT role=DEFAULT key=L:", "key", 28, "no label"),
    (f"CSNBKYT role=DEFAULT key=T:{'0' * 127}", "key", 155, "127 digits, and 128 are wanted"),
    (f"CSNBKYT role=DEFAULT {KEY} {KEY}", "key", 32, "twice"),
    (f"CSNBKYT role=DEFAULT key {KEY}", "key", 25, "without an equals sign"),
    (f"CSNBKYT role=DEFAULT {KEY} text=00", "text", 32, "no further field"),
    (f"CSNBENC role=DEFAULT {KEY} iv=1234567890abcde pad=NONE text=00", "iv", 50, "15 digits, and 16 are wanted"),
    (f"CSNBENC role=DEFAULT {KEY} iv=1234567890abcdeg pad=NONE text=00", "iv", 50, "'g' is no hexadecimal digit"),
    (f"CSNBENC role=DEFAULT {KEY} pad=NONE {IV} text=00", "pad", 32, "iv comes first"),
    (f"CSNBENC role=DEFAULT {KEY} {IV} pad=none text=00", "pad", 56, "lower case"),
    (f"CSNBENC role=DEFAULT {KEY} {IV} pad=X9.24 text=00", "pad", 60, "NONE or X9.23 is wanted"),
    (f"CSNBENC role=DEFAULT {KEY} {IV} pad=NONE text=000", "text", 69, "an even number"),
    (f"CSNBENC role=DEFAULT {KEY} text=00", "text", 32, "missing"),
    (f"CSNBENC role=DEFAULT {KEY} segment=first {IV} text=00", "segment", 40, "lower case"),
    (f"CSNBENC role=DEFAULT {KEY} segment=MIDDLE {IV} text=00", "iv", 47, "chain is wanted"),
    ("CSNBMKP role=DEFAULT action=set", "action", 29, "lower case"),
    ("CSNBMKP role=DEFAULT action=FIRST", "part", 34, "part is missing"),
    (f"CSNBMKP role=DEFAULT action=FIRST part={'0' * 50}", "part", 88, "50 digits, and 48 are wanted"),
    ("CSNBMKP role=DEFAULT action=ERASE", "action", 29, "FIRST or MIDDLE or LAST or CLEAR or SET"),
    ("CSUAACI role=DEFAULT action=REMOVE name=DEFAULT", "name", 41, "can't be removed"),
    ("CSUAACI role=DEFAULT action=DEFINE name=A points=20000000", "points", 50, "no access control point has: 20000000"),
    ("CSNBKGN role=DEFAULT form=OP length=24 type1=DATA to=-", "length", 37, "8 or 16 or DOUBLE-O is wanted"),
    ("CSNBKGN role=DEFAULT form=OP length=8 type1=Data to=-", "type1", 46, "lower case"),
    ("CSNBCKI role=DEFAULT clear=0123456789abcdef to=PAY", "to", 48, "`-`, the reply, or to L: and a label"),
    ("CSNBKRL role=DEFAULT prefix=pay", "prefix", 29, "lower case"),
    (f"CSNBMVR role=DEFAULT {KEY} rule=X9.9-1 mac=00000000000 text=00", "mac", 59, "11 digits, and 8, 12 or 16 are wanted"),
    (f"CSNBKYT role=DEFAULT role=DEFAULT {KEY}", "role", 22, "out of order"),
]  # fmt: skip

VALUES = {
    "role_name": ["DEFAULT", "A", "TELLER12"],
    "other_role": ["A", "TELLER12"],
    "points": ["1fffffff", "00000000", "1FFFFFFF"],
    "key_text": ["L:PAY", f"T:{'0' * 128}", "L:~", "L:a=b"],
    "hex_text": ["", "00", "0aF1" * 8],
    "mac_text": ["00000000", "0" * 12, "f" * 16],
    "part_text": ["0" * 16, "F" * 32],
    "label_text": ["PAY", "!", "L" * 70],
    "to_text": ["-", "L:PAY"],
    "prefix_text": ["", "9.A", "A" * 64],
    "type_text": ["DATA", "IKEYXLAT", "MACVER"],
}
INSERTED = [" ", "=", "\r", "\t", "\0", "\x7f", "\xff", "a", "A", "0", "g", "-", ":", ".", "L:", "\xef\xbb\xbf"]


def value_of(field, drawn):
    """A value of a field."""
    if field.kind == "hex_digits":
        return "".join(drawn.choice("0123456789abcdefABCDEF") for _ in range(field.digits))
    return drawn.choice(field.words or VALUES[field.kind])


def line_of(drawn):
    """A request."""
    row = drawn.choice(list(ROWS.values()))
    return row.verb + "".join(f" {field.name}={value_of(field, drawn)}" for field in row.fields)


def altered(line, drawn):
    """A line that was altered in one place."""
    at, words = drawn.randrange(len(line) + 1), line.split(" ")
    how = drawn.randrange(8)
    if how == 0:
        return line[:at] + line[at + 1 :]
    if how == 1:
        return line[:at] + drawn.choice(INSERTED) + line[at:]
    if how == 2:
        return line[:at] + drawn.choice(INSERTED) + line[at + 1 :]
    if how == 3:
        drawn.shuffle(words)
    elif how == 4:
        words.pop(drawn.randrange(len(words)))
    elif how == 5:
        words.insert(drawn.randrange(len(words) + 1), drawn.choice(line_of(drawn).split(" ")))
    elif how == 6:
        number = drawn.randrange(len(words))
        words[number] = drawn.choice([str.upper, str.lower, str.swapcase])(words[number])
    else:
        return line[:at]
    return " ".join(words)


class Lines(Case):
    def test_broken(self):
        """The program refuses each of the forty lines, and more, by rule 01."""
        self.assertGreaterEqual(len(BROKEN), 40)
        lines = [line for line, *_ in BROKEN]
        given = b"".join(line.encode("latin-1") + b"\n" for line in lines)
        self.same(self.cca("run", given=given).whole, ["NO 01 -"] * len(lines), lines)

    def test_reasons(self):
        """Of each line the field, the byte and the reason."""
        for line, *wanted, tells in BROKEN:
            with self.subTest(line):
                came = explain.reason(line.encode("latin-1"))
                self.assertEqual([came.field, came.byte], wanted, came)
                self.assertIn(tells, came.text)

    def test_altered(self):
        """Requests and lines that were altered: just those without a reason are requests to the program."""
        drawn = random.Random(1)
        lines = ["CSUAACI role=A action=REMOVE name=DEFAULT", "CSUAACI role=A action=DEFINE name=B points=ffffffff"]
        lines += [altered(line_of(drawn), drawn) if drawn.random() < 0.8 else line_of(drawn) for _ in range(6000)]
        lines += [f"CSNBRNG role=A form=ODD{' ' * count}" for count in (9193, 9194)]  # 9,216 bytes, and one more
        given = [line.encode("latin-1") for line in lines]
        replies = self.cca("run", given=b"".join(line + b"\n" for line in given)).whole
        came = [bool(reply.startswith(("NO 01 ", "NO 02 "))) for reply in replies]
        wanted = [explain.reason(line) is not None for line in given]
        self.same(map(str, came), map(str, wanted), lines)
        self.assertEqual((replies[-1], explain.reason(given[-1]).byte), ("NO 02 -", 9217))
        self.assertGreater(came.count(True), 2000)
        self.assertGreater(came.count(False), 1000)

    def test_no_secrets(self):
        """What is told of a line repeats no part of it but one character: a key may stand anywhere."""
        secret = "0123456789abcdef"
        for line in (f"CSNBCKI role=A {secret}=clear to=-", f"CSNBCKI {secret}", f"{secret} role=A", f"CSNBCKI role=A clear={secret}0 to=-",
                     f"CSNBCKI role=A clear={secret} to={secret}", f"CSNBCKI role=A clear={secret} to=- {secret}", f"CSNBCKI role=A {secret}=\r"):  # fmt: skip
            told = str(explain.reason(line.encode()))
            self.assertNotIn(secret[:4], told)


class Command(Case):
    """The command, as it is typed."""

    def explained(self, *words, given=b""):
        environment = {**os.environ, "PYTHONPATH": str(LIBRARIES / "python")}
        words = [sys.executable, "-B", "-m", "cca", "explain", *words]
        it = subprocess.run(words, input=given, env=environment, stdout=subprocess.PIPE, stderr=subprocess.PIPE, check=False)
        return it.returncode, it.stdout.decode().splitlines()

    def test_replies(self):
        wanted = "CSNBKPI FIRST, and the type doesn't have the part's length; MIDDLE or LAST, and the part hasn't the key's length"
        self.assertEqual(self.explained("NO", "32", "part"), (0, [f"rule 32, field part: {wanted}"]))
        self.assertEqual(self.explained("NO 03 -")[0], 0)
        self.assertEqual(self.explained("CSNBKYT")[0], 2)
        self.assertEqual(self.explained(given=b"NO 07 key\nOK\n")[1], ["1: rule 07, field key: the label doesn't exist", "2: carried out"])

    def test_requests(self):
        """Requests with their replies, as the program gives them."""
        lines = [f"CSNBKYT role=DEFAULT {KEY}", f"CSNBKYT role=DEFAULT {KEY}\r", "CSNBRNG role=DEFAULT form=ODD"]
        replies = self.cca("run", given=lines).whole
        given = "".join(f"{line}\n{reply}\n" for line, reply in zip(lines, replies)).encode()
        status, told = self.explained(given=given)
        self.assertEqual(status, 0)
        empty = "the request needs a current master key, and the current register is empty"
        wanted = [f"1: rule 05, the line or the request as a whole: {empty}", "3: byte 31, field key: a carriage return at the end"]
        self.assertEqual([told[0], told[1][: len(wanted[1])], told[2]], [*wanted, "5: carried out"])
        self.assertEqual(self.explained(), (0, []))
        self.assertEqual(self.explained(given=f"CSNBKYT role=DEFAULT {KEY}\nNO 01 -\n".encode())[1][0].partition("; ")[2], "but this is a request: were other bytes sent?")


class Planted(unittest.TestCase):
    """Each fault of EDITS is found by its case."""

    def test_edits(self):
        each_is_found(self, "explain", EDITS)


if __name__ == "__main__":
    unittest.main()
