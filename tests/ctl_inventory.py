"""`ccactl inventory` and `compare`: lists of keys whose check values OpenSSL computes, by roles that may ask for all of it or for less,
and at sockets where no front answers; keys that were lost, exchanged, replaced or changed between two lists; and what is no list."""
import json
import unittest

from tests.edits import Edit, each_is_found
from tests.formats import as_part, closed, made, types, value
from tests.harness import Fault
from tests.keys import OTHER, QUICK, ceremony, stored
from tests.served import Served, answering

CTL = "service/cca_service/ctl"
FAULTS = [Fault('"$CCA" "$@" | sed -u "s/value=./value=0/"', case="Lists.test_all", tells="CIPHER 8 0003710003000000 04d79d")]
EDITS = [
    Edit(f"{CTL}/inventory.py", "[:SHOWN].hex()", ".hex()", "Lists.test_all"),
    Edit(f"{CTL}/inventory.py", 'state = "part" if tokens.bit(left, tokens.PART) else state', "", "Roles.test_no_check_values"),
    Edit(f"{CTL}/inventory.py", "if refused.rule != NO_POINT:\n            raise", "if False:\n            raise", "Roles.test_empty_module"),
    Edit(f"{CTL}/inventory.py", "if before != after and NONE not in", "if before != after and None not in", "Compared.test_less_known"),
    Edit(f"{CTL}/inventory.py", 'moved = had.get(after, "")', 'moved = ""', "Compared.test_drift"),
    Edit(f"{CTL}/inventory.py", "if len({it.label for it in entries}) != len(entries):", "if False:", "Compared.test_no_lists"),
    Edit(f"{CTL}/inventory.py", "return Exit.WELL if count and not found", "return Exit.WELL if not found", "Compared.test_nothing_known"),
    Edit(f"{CTL}/doors.py", "if error.filename:", "if True:", "Lists.test_no_front"),
    Edit(f"{CTL}/doors.py", "if not ROLE.fullmatch(socket) or os.path.exists(socket):", "if True:", "Lists.test_role_of_settings"),
]  # fmt: skip
MASTER = made("master", 24)
MAC, EXPORTER = types()["MAC"][16], types()["EXPORTER"][16]
SINGLE, DOUBLE, SECOND = made("single", 8), made("double", 16), made("second", 16)
KEYS = {
    "A": (SINGLE, types()["CIPHER"][8]),
    "B": (DOUBLE, closed(MAC)),
    "C": (SECOND, EXPORTER),
    "D": (DOUBLE, as_part(EXPORTER)),
    "E": None,
    "F": (SINGLE, OTHER),
}
ROLES = {"AUDITOR": "000a0010", "LISTER": "00080000", "TESTER": "00080010", "READER": "000a0000", "USER": "00020010", "NOTHING": "00000000"}


def line(label, state, kind="-", vector=b"", key=b""):
    """A line of an inventory."""
    length = str(len(vector)) if vector else "-"
    return f"{label} {state} {kind} {length} {vector.hex() or '-'} {value(key)[:6] if key else '-'}"


ALL = [
    line("A", "key", "CIPHER", KEYS["A"][1][:8], SINGLE),
    line("B", "key", "MAC", closed(MAC), DOUBLE),
    line("C", "key", "EXPORTER", EXPORTER, SECOND),
    line("D", "part", "EXPORTER", as_part(EXPORTER)),
    line("E", "empty"),
    line("F", "other", "OTHER", OTHER[:8]),
]


class Keyed(Served):
    """Keys that are under labels by tokens of OpenSSL's."""

    def setUp(self):
        super().setUp()
        self.replies([*ceremony(MASTER), *stored(MASTER, KEYS)], self.keys, calls=QUICK)
        self.ask([f"CSUAACI role=DEFAULT action=DEFINE name={name} points={points}" for name, points in ROLES.items()], self.keys)

    def listed(self, role, *words, given=""):
        return self.ctl("inventory", "--socket", self.path(role), *words, given=given)


class Lists(Keyed):
    """What is listed, and by whom."""

    def test_all(self):
        self.front("AUDITOR")
        self.ends_so(self.listed("AUDITOR"), 0, ALL)
        self.ends_so(self.listed("AUDITOR", "--prefix", "B"), 0, ALL[1:2])
        found = json.loads(self.listed("AUDITOR", "--json")[1])
        self.assertEqual([" ".join(it.values()) for it in found["entries"]], ALL)
        self.assertEqual(found["missing"], [])

    def test_old_master_key(self):
        """Keys under the old master key are listed as they were."""
        self.replies(ceremony(made("another", 24)), self.keys)
        self.front("AUDITOR")
        self.ends_so(self.listed("AUDITOR"), 0, ALL)

    def test_no_secrets(self):
        """Neither eight digits of a check value nor a token nor a verification pattern is in a list."""
        self.front("AUDITOR")
        text = self.listed("AUDITOR", "--json")[1] + self.listed("AUDITOR")[1]
        for token in self.ask([f"CSNBKRR role=AUDITOR label={label}" for label in "ABCDF"], self.keys_copy()):
            self.assertNotIn(token[len("OK token=") :][16:32], text)
        for key in (SINGLE, DOUBLE, SECOND):
            self.assertIn(value(key)[:6], text)
            self.assertNotIn(value(key)[:7], text)

    def keys_copy(self):
        """A copy of the keys, since a front has the files."""
        copy = self.folder / "copy"
        copy.mkdir()
        for name in ("cca.module", "cca.store"):
            (copy / name).write_bytes((self.keys / name).read_bytes())
        return copy

    def test_no_front(self):
        """Exit status 4 where nothing answers, or something else than a front does."""
        self.ends_so(self.listed("AUDITOR"), 4, tells="no front takes a connection at .*auditor.socket: No such file")
        self.path("AUDITOR").write_text("")
        self.ends_so(self.listed("AUDITOR"), 4, tells="no front takes a connection at .*Connection refused")
        for reply in (b"", b"\xff\xff\n", b"OK count=1\n", b"OK labels=A count=1\n", b"OK count=1 labels=A\nOK\n", b"A" * 70_000,
                      b"OK count=2 labels=A\n", b"OK count=1 labels=\x1b[2J\n", b"-- not carried out: the front ends\n"):  # fmt: skip
            path, _ = answering(self, lambda line, reply=reply: reply)
            with self.subTest(reply[:40]):
                came = self.ctl("inventory", "--socket", path, "--timeout", "5")
                self.ends_so(came, 4, tells=r"\Accactl inventory: ")
                self.assertNotIn("\x1b", came[2])

    def test_nonsense_of_a_key(self):
        """A front that lists a label, and says of it what no cca says."""
        for reply in (b"OK value=0123456\n", b"OK value=\x1b[2J0000\n", b"OK value=01234567 value=00\n", b"NO 07\n"):
            path, _ = answering(self, lambda line, reply=reply: b"OK count=1 labels=A\n" if b"KRL" in line else reply)
            with self.subTest(reply):
                self.ends_so(self.ctl("inventory", "--socket", path, "--timeout", "5"), 4, tells="what answers isn't a front of cca")

    def test_role_of_settings(self):
        """A socket by its role, in the front's settings, which the variable CCA_FRONT may name."""
        self.front("AUDITOR")
        file = self.folder / "front.conf"
        file.write_text(f"[front]\nfolder = {self.keys}\n[role AUDITOR]\ngroup = a\nsocket = {self.path('AUDITOR')}\n")
        self.ends_so(self.ctl("inventory", "--socket", "AUDITOR", "--config", file), 0, ALL)
        self.environment["CCA_FRONT"] = "front.conf"
        self.ends_so(self.ctl("inventory", "--socket", "AUDITOR"), 0, ALL)
        self.ends_so(self.ctl("inventory", "--socket", "TELLER"), 2, tells="front.conf: no socket of the role TELLER")
        file.write_text("folder")
        self.ends_so(self.ctl("inventory", "--socket", "AUDITOR"), 2, tells="front.conf")


class Roles(Keyed):
    """What roles may ask that lack a point."""

    def test_no_tokens(self):
        self.front("TESTER")
        known = {"A": SINGLE, "B": DOUBLE, "C": SECOND}
        states = {"D": "part", "E": "empty", "F": "other"}
        wanted = [line(label, states.get(label, "key"), key=known.get(label)) for label in KEYS]
        self.ends_so(self.listed("TESTER"), 1, wanted, r"the role lacks KRR: class and control vector are missing\n\Z")

    def test_no_check_values(self):
        self.front("READER")
        wanted = [f"{it.rsplit(' ', 1)[0]} -" for it in ALL]
        wanted[4], wanted[5] = "E key - - - -", wanted[5].replace(" other ", " key ")
        self.ends_so(self.listed("READER"), 1, wanted, r"the role lacks KYT: the check values are missing\n\Z")
        self.assertEqual(json.loads(self.listed("READER", "--json")[1])["missing"], ["KYT"])

    def test_no_list(self):
        """Labels that are named where the role may not list them."""
        self.front("USER", "NOBODY")
        self.ends_so(self.listed("USER"), 1, tells="the labels can't be listed: rule 04.*, or name the labels by --labels")
        self.ends_so(self.listed("NOBODY"), 1, tells="the labels can't be listed: rule 03: the role isn't defined$")
        (self.folder / "labels").write_text("C\nA\nGONE\n")
        self.ends_so(self.listed("USER", "--labels", "labels"), 0, [ALL[2], ALL[0]])
        self.ends_so(self.listed("USER", "--labels", "-", given="B"), 0, ALL[1:2])
        self.ends_so(self.listed("USER", "--labels", "-", given="B\x1b"), 2, tells="can't be in a label")
        self.ends_so(self.listed("USER", "--prefix", "a"), 2, tells="lower case")

    def test_empty_module(self):
        """A module without a master key: the list is none."""
        (self.keys / "cca.module").unlink()
        (self.keys / "cca.store").unlink()
        self.ask(["CSNBKRC role=DEFAULT label=A"], self.keys)
        self.front("DEFAULT")
        self.ends_so(self.listed("DEFAULT"), 3, tells="the labels can't be looked at: rule 05")


class Compared(Served):
    """Two lists."""

    def lists(self, one, other, *words):
        for name, lines in (("one", one), ("other", other)):
            (self.folder / name).write_text("".join(f"{it}\n" for it in lines))
        return self.ctl("compare", "one", "other", *words)

    def test_same(self):
        self.ends_so(self.lists(ALL, reversed(ALL)), 0, ["3 check values compared, 0 differences"])

    def test_drift(self):
        """Keys that were lost, that came, that were exchanged with each other, that have another vector, or were completed."""
        other = [
            ALL[0].replace(value(SINGLE)[:6], value(DOUBLE)[:6]),
            ALL[1].replace(value(DOUBLE)[:6], value(SINGLE)[:6]),
            ALL[2].replace(EXPORTER.hex(), closed(EXPORTER).hex()).replace(value(SECOND)[:6], "000000"),
            line("D", "key", "EXPORTER", EXPORTER, DOUBLE),
            line("G", "empty"),
            ALL[5],
        ]
        single, double, second = (value(it)[:6] for it in (SINGLE, DOUBLE, SECOND))
        wanted = [
            f"A: check value {single} in the first list, {double} in the second, the key of B in the first",
            f"B: check value {double} in the first list, {single} in the second, the key of A in the first",
            f"C: control vector {EXPORTER.hex()} in the first list, {closed(EXPORTER).hex()} in the second",
            f"C: check value {second} in the first list, 000000 in the second",
            "D: state part in the first list, key in the second",
            f"D: control vector {as_part(EXPORTER).hex()} in the first list, {EXPORTER.hex()} in the second",
            "E: only in the first list",
            "G: only in the second list",
        ]
        self.ends_so(self.lists(ALL, other), 1, [*wanted, "3 check values compared, 8 differences"])
        found = json.loads(self.lists(ALL, other, "--json")[1])
        self.assertEqual([(it["label"], it["key_of"]) for it in found["differences"][:3]], [("A", "B"), ("B", "A"), ("C", "")])
        self.assertEqual(found["compared"], 3)

    def test_less_known(self):
        """What one of the lists doesn't know is no difference."""
        less = [line("A", "key", key=SINGLE), *ALL[1:]]
        self.ends_so(self.lists(ALL, less), 0, ["3 check values compared, 0 differences"])

    def test_nothing_known(self):
        """Two lists without a check value in common are no proof of anything."""
        for one, other in (([], []), ([ALL[3]], [ALL[3]]), ([ALL[0]], [line("A", "key")])):
            with self.subTest(one):
                self.ends_so(self.lists(one, other), 1, ["0 check values compared, 0 differences"], "nothing is known of any key")

    def test_no_lists(self):
        for text in ("A\n", "A key DATA 8 00 -\n", "{}", '{"entries": [1]}', '{"entries": [{"label": "A"}]}', "{", "\xff", f"{ALL[0]}\n{ALL[0]}\n",
                     '{"entries": [{"label": 1, "state": "key", "key_class": "-", "length": "-", "vector": "-", "value": "-"}]}'):  # fmt: skip
            with self.subTest(text):
                (self.folder / "one").write_text(text, encoding="latin-1")
                self.ends_so(self.ctl("compare", "one", "one"), 2, tells=r"\Accactl compare: one")
        self.ends_so(self.ctl("compare", "no", "one"), 1, tells="no: No such file or directory")

    def test_at_a_socket(self):
        """A list of before with what is there now: a key was replaced."""
        self.replies([*ceremony(MASTER), *stored(MASTER, {"A": KEYS["A"], "C": KEYS["C"]})], self.keys, calls=QUICK)
        self.front("DEFAULT")
        (self.folder / "one").write_text(f"{ALL[0]}\n{ALL[2]}\n")
        self.ends_so(self.ctl("compare", "one", self.path("DEFAULT")), 0, ["2 check values compared, 0 differences"])
        asked = self.ctl("ask", self.path("DEFAULT"), given=f"CSNBCKI clear={DOUBLE[:8].hex()} to=L:A\n")
        self.ends_so(asked, 0, ["OK stored=A"])
        came = self.ctl("compare", "one", self.path("DEFAULT"))
        self.assertEqual((came[0], came[1].splitlines()[-1]), (1, "2 check values compared, 3 differences"))
        self.assertIn(f"A: check value {value(SINGLE)[:6]} in the first list, {value(DOUBLE[:8])[:6]} in the second", came[1])


class Planted(unittest.TestCase):
    """Each fault of EDITS is found by its case."""

    def test_edits(self):
        each_is_found(self, "ctl_inventory", EDITS)


if __name__ == "__main__":
    unittest.main()
