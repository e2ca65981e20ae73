"""`ccactl ceremony` and `key-part`: ceremonies at the sockets of their roles, typed at a terminal and sent by a pipe. Patterns and check
values are those of OpenSSL; a part is shown nowhere; nothing is sent where it is mistyped, broken off, or nobody says yes; the terminal
has its echo again after each end; and what answers in the place of a front is noticed, and learns no part before it has answered."""
import os
import shutil
import signal
import stat
import subprocess
import sys
import termios
import unittest

from tests.edits import Edit, PATHS, each_is_found
from tests.formats import joined, made, pattern, types, value
from tests.harness import Fault
from tests.served import AtTerminal, Served, answering, log_lines

sys.path[:0] = PATHS
from cca_service.ctl import des  # noqa: E402

CTL = "service/cca_service/ctl"
FAULTS = [Fault('"$CCA" "$@" | sed -u "s/new=full/new=partial/"', case="ByPipe.test_master_key", tells="new register: partly full")]
EDITS = [
    Edit(f"{CTL}/des.py", "0f74e2d1a6cb9538", "0f74e2d1a6cb9358", "Values.test_check_values"),
    Edit(f"{CTL}/terminal.py", "before[LOCAL] & ~termios.ECHO", "before[LOCAL]", "Typed.test_first"),
    Edit(f"{CTL}/terminal.py", "termios.tcsetattr(self.file, termios.TCSAFLUSH, before)", "pass", "Typed.test_broken_off"),
    Edit(f"{CTL}/terminal.py", "signal.signal(signal.SIGQUIT, signal.getsignal(signal.SIGTERM))", "signal.getsignal(signal.SIGQUIT)", "Typed.test_broken_off"),
    Edit(f"{CTL}/terminal.py", "silent[CHARACTERS][name] = OFF", "pass", "Typed.test_keys_that_stop"),
    Edit(f"{CTL}/terminal.py", "if first != again:", "if False:", "ByPipe.test_mistyped"),
    Edit(f"{CTL}/terminal.py", "if sys.stdin.isatty():", "if False:", "Typed.test_pipe_that_is_a_terminal"),
    Edit(f"{CTL}/terminal.py", "return self.line().strip().lower() == YES", "return True", "Typed.test_no"),
    Edit(f"{CTL}/ceremony.py", 'if front.role is None and front.ask("") != "NO 01 -":', "if False:", "StandIns.test_no_part_before_an_answer"),
    Edit(f"{CTL}/ceremony.py", "        log.add(**words, result=\"-\")\n        raise Failed", "        raise Failed", "StandIns.test_no_reply"),
    Edit(f"{CTL}/ceremony.py", "if refused.rule != WRONG_STATE:", "if True:", "ByPipe.test_master_key"),
    Edit(f"{CTL}/ceremony.py", "pattern.lower() != found[name]", "False", "ByPipe.test_master_key"),
    Edit(f"{CTL}/ceremony.py", "key ^= int", "key |= int", "ByPipe.test_pattern"),
    Edit(f"{CTL}/ceremony_log.py", "os.close(self.opened(path))", "pass", "ByPipe.test_log_that_cant_be_written"),
    Edit(f"{CTL}/key_part.py", "if token is not None and not is_replaced:", "if False:", "KeyParts.test_replaced"),
    Edit(f"{CTL}/key_part.py", "not in vectors_of(kind):", "is None:", "KeyParts.test_other_type"),
    Edit(f"{CTL}/key_part.py", "if not given.unseen:", "if False:", "KeyParts.test_unseen"),
    Edit(f"{CTL}/key_part.py", "whole.split(\" \")[:1] != [given.type]", "False", "KeyParts.test_transport_key"),
]  # fmt: skip
ONE, TWO, THREE = made("one part", 24), made("two parts", 24), made("three parts", 24)
MASTER = joined(ONE, TWO, THREE)
ROLES = {"CUSTOD1": "00100000", "CUSTOD2": "00200000", "SECADMIN": "00c00000", "OFFICER": "020ffcb0", "KEY1": "04010000", "KEY2": "08010000"}
NEXT = {
    "FIRST": "next: MIDDLE by a further custodian, or LAST by the last one",
    "LAST": "next: CHECK by an officer, then AHEAD, then SET",
    "SET": "next: CHECK and REENCIPHER by an officer",
    "AHEAD": "next: SET by the administrator",
    "CLEAR": "next: FIRST, with new parts from all custodians",
    "DROP": "next: CLEAR, where the new master key is given up",
    "REENCIPHER": "next: the tokens that applications keep: ccactl catch-up",
}


def short(part):
    """Six digits of the check value of a part of a master key."""
    return pattern(part).hex()[:6]


def twice(*parts):
    """Parts as they are typed, each twice."""
    return "".join(f"{part.hex()}\n" * 2 for part in parts)


class Ceremony(Served):
    def setUp(self):
        super().setUp()
        self.ask([f"CSUAACI role=DEFAULT action=DEFINE name={name} points={points}" for name, points in ROLES.items()], self.keys)
        self.log = self.folder / "ceremony.log"

    def step(self, step, role, *words, given=""):
        return self.ctl("ceremony", step, "--socket", self.path(role), "--log", self.log, "--from-pipe", *words, given=given)

    def key_step(self, step, role, *words, given=""):
        return self.ctl("key-part", step, *words, "--socket", self.path(role), "--log", self.log, "--from-pipe", given=given)

    def logged(self):
        """What the log has of each step, without times; no part stands in it."""
        for part in (ONE, TWO, THREE):
            self.assertNotIn(part.hex()[:8], self.log.read_text() if self.log.exists() else "")
        return [tuple(it.get(name) for name in ("step", "check_value", "result", "new")) for it in log_lines(self.log)]


class Values(unittest.TestCase):
    @unittest.skipUnless(shutil.which("openssl"), "openssl isn't installed")
    def test_check_values(self):
        """DES of this tool as OpenSSL has it: keys of both lengths, among them weak ones and those of single bits."""
        keys = [made(f"key {number}", size) for number in range(30) for size in (8, 16)]
        keys += [bytes(8), b"\xff" * 8, b"\x01" * 16, *((1 << bit).to_bytes(8, "big") for bit in range(0, 64, 5))]
        for key in keys:
            self.assertEqual(des.check_value(key), value(key)[:6])


class ByPipe(Ceremony):
    def test_master_key(self):
        """A ceremony of three custodians, and a change of the master key beside the front."""
        self.front(*ROLES)
        for step, role, part, state in (
            ("FIRST", "CUSTOD1", ONE, "partly full"),
            ("MIDDLE", "CUSTOD2", TWO, "partly full"),
            ("last", "CUSTOD2", THREE, "full"),
        ):
            wanted = [f"check value of the part: {short(part)}", f"new register: {state}", NEXT["LAST" if state == "full" else "FIRST"]]
            self.ends_so(self.step(step, role, given=twice(part)), 0, wanted)
        self.ends_so(self.step("CHECK", "OFFICER"), 0, ["current master key: none is full", "new master key: none is full"])
        self.ends_so(self.step("SET", "SECADMIN"), 0, ["new register: empty", NEXT["SET"]])
        wanted = [f"current master key: {pattern(MASTER).hex()}", "new master key: none is full"]
        self.ends_so(self.step("CHECK", "OFFICER", "--current", pattern(MASTER).hex().upper()), 0, wanted)
        self.ends_so(self.step("CHECK", "OFFICER", "--current", "0" * 16), 1, wanted, "new parts from all custodians")
        self.ctl("ask", self.path("OFFICER"), given="CSNBKRC label=A\nCSNBCKI clear=0123456789abcdef to=L:A\n")
        self.step("FIRST", "CUSTOD1", given=twice(TWO))
        self.step("LAST", "CUSTOD2", given=twice(THREE))
        new = pattern(joined(TWO, THREE)).hex()
        self.ends_so(self.step("CHECK", "OFFICER", "--new", new), 0, [wanted[0], f"new master key: {new}"])
        self.ends_so(self.step("AHEAD", "OFFICER"), 0, ["labels changed: 1", NEXT["AHEAD"]])
        self.ends_so(self.step("CLEAR", "SECADMIN"), 1, tells="nothing was changed: rule 33")
        self.ends_so(self.step("DROP", "OFFICER"), 0, ["labels changed: 1", NEXT["DROP"]])
        self.ends_so(self.step("SET", "SECADMIN"), 0, ["new register: empty", NEXT["SET"]])
        self.ends_so(self.step("CLEAR", "SECADMIN"), 0, ["new register: empty", NEXT["CLEAR"]])
        self.ends_so(self.step("REENCIPHER", "OFFICER"), 0, ["labels changed: 1", NEXT["REENCIPHER"]])
        self.assertEqual(self.logged()[:4], [
            ("FIRST", short(ONE), "00", "partial"), ("MIDDLE", short(TWO), "00", "partial"), ("LAST", short(THREE), "00", "full"),
            ("SET", None, "00", "empty")])  # fmt: skip
        self.assertEqual([it[::2] for it in self.logged()[6:]], [
            ("AHEAD", "00"), ("CLEAR", "33"), ("DROP", "00"), ("SET", "00"), ("CLEAR", "00"), ("REENCIPHER", "00")])  # fmt: skip
        self.assertEqual(stat.S_IMODE(self.log.stat().st_mode), 0o600)

    def test_refused(self):
        """A role without the point, and a register in another state: told, and logged."""
        self.front(*ROLES)
        self.ends_so(self.step("LAST", "CUSTOD1", given=twice(ONE)), 1, [f"check value of the part: {short(ONE)}"], "rule 04.*another role")
        self.ends_so(self.step("LAST", "CUSTOD2", given=twice(ONE)), 1, [f"check value of the part: {short(ONE)}"],
                     "rule 25: .*; LAST needs a new register that is partly full")  # fmt: skip
        self.assertEqual([it[2] for it in self.logged()], ["04", "25"])

    def test_mistyped(self):
        """Parts that aren't the same twice, or are none: nothing is sent, and nothing of them is told or logged."""
        self.front("CUSTOD1")
        good = ONE.hex()
        for given in (f"{good}\n{TWO.hex()}\n", f"{good}\n{good[:-1]}\n", f"{good[:-2]}\n" * 2, f"{good}0\n" * 2, f"{good[:-1]}g\n" * 2,
                      "\n\n", "", f"{good}\n", f"{good} {good}\n" * 2, "\xff\n\xff\n"):  # fmt: skip
            with self.subTest(given):
                status, out, err = self.step("FIRST", "CUSTOD1", given=given)
                self.assertEqual((status, out), (1, ""))
                self.assertIn("nothing was sent", err)
                self.assertNotIn(good[:6], err)
        self.assertEqual(self.logged(), [])
        grouped = " ".join(good[at : at + 8] for at in range(0, 48, 8)).upper()
        self.ends_so(self.step("FIRST", "CUSTOD1", given=f"{grouped}\n{good}\n"), 0, [f"check value of the part: {short(ONE)}", "new register: partly full", NEXT["FIRST"]])

    def test_pattern(self):
        """The pattern of parts that nobody is sent."""
        lines = [f"check value of part {number}: {short(part)}" for number, part in enumerate((ONE, TWO, THREE), 1)]
        wanted = [*lines, f"pattern of the master key: {pattern(MASTER).hex()}"]
        self.ends_so(self.ctl("ceremony", "PATTERN", "--from-pipe", "--parts", "3", given=twice(ONE, TWO, THREE)), 0, wanted)
        wanted = [*lines[:2], f"pattern of the master key: {pattern(joined(ONE, TWO)).hex()}"]
        self.ends_so(self.ctl("ceremony", "PATTERN", "--from-pipe", given=twice(ONE, TWO)), 0, wanted)
        self.ends_so(self.ctl("ceremony", "PATTERN", "--from-pipe", given=twice(ONE)), 1, lines[:1], "ended before a part was entered")
        self.ends_so(self.ctl("ceremony", "PATTERN", "--from-pipe", "--parts", "1"), 2, tells="two parts or more")

    def test_first_ceremony(self):
        """By cca itself, in a folder that no front uses, with a record where that is asked for."""
        words = ["--folder", self.keys, "--program", self.program.path, "--from-pipe"]
        came = self.ctl("ceremony", "FIRST", *words, "--role", "CUSTOD1", "--audit", given=twice(ONE))
        self.ends_so(came, 0, [f"check value of the part: {short(ONE)}", "new register: partly full", NEXT["FIRST"]])
        self.assertEqual(self.cca("trail", folder=self.keys).lines, ["0 00 CUSTOD1 CSNBMKP -"])
        came = self.ctl("ceremony", "LAST", *words, "--role", "CUSTOD2", given=twice(TWO))
        self.ends_so(came, 0, [f"check value of the part: {short(TWO)}", "new register: full", NEXT["LAST"]])
        self.assertEqual(len(self.cca("trail", folder=self.keys).lines), 1)
        for wrong in (["--folder", self.keys], ["--role", "A"], [], ["--folder", self.keys, "--role", "A", "--socket", "x"]):
            self.ends_so(self.ctl("ceremony", "SET", *wrong), 2, tells="--socket is wanted|--folder is given with --role")

    def test_log_that_cant_be_written(self):
        """Told before a part is typed."""
        self.front("CUSTOD1")
        self.log.mkdir()
        self.ends_so(self.step("FIRST", "CUSTOD1", given=twice(ONE)), 1, tells="ceremony.log: Is a directory")


class StandIns(Ceremony):
    """What answers in the place of a front."""

    def sent_to(self, replies, part=ONE, step="FIRST"):
        path, came = answering(self, replies)
        words = ["--socket", path, "--log", self.log, "--from-pipe", "--timeout", "5"]
        return self.ctl("ceremony", step, *words, given=twice(part)), came

    def test_no_part_before_an_answer(self):
        for reply in (b"", b"OK\n", b"\xff\n", b"NO 01 -\nNO 01 -\n", b"NO 02 -\n", b"A" * 70_000, b"-- not carried out: the front ends\n"):
            with self.subTest(reply[:30]):
                came, lines = self.sent_to(lambda line, reply=reply: reply)
                self.ends_so(came, 4, tells=r"\Accactl ceremony: ")
                self.assertEqual(set(lines), {b"\n"})
        self.assertEqual(self.logged(), [])

    def test_nonsense(self):
        """Replies that none is, among them one with the part: not shown, not logged, and told as a step that may have been carried out."""
        for reply in (f"OK new={ONE.hex()}\n".encode(), b"OK new=\x1b[2J\n", b"OK\n", b"OK new=partial new=partial\n", b"OK new=partial\nOK\n", b"\xff\n"):
            with self.subTest(reply):
                came, _ = self.sent_to(lambda line, reply=reply: reply if b"MKP" in line else b"NO 01 -\n")
                self.ends_so(came, 4, [f"check value of the part: {short(ONE)}"], "may have been carried out all the same")
                self.assertNotIn("\x1b", came[2])
                self.assertNotIn(ONE.hex()[:8], came[1] + came[2])
        self.assertEqual({it[2:] for it in self.logged()}, {("-", None)})

    def test_no_reply(self):
        """A connection that ends: what to do is told, by the step."""
        for step, tells in (("FIRST", "do the step again: a refusal by rule 25"), ("MIDDLE", "never enter it again: CLEAR, and new parts")):
            came, _ = self.sent_to(lambda line: b"" if b"MKP" in line else b"NO 01 -\n", step=step)
            self.ends_so(came, 4, [f"check value of the part: {short(ONE)}"], tells)
        self.assertEqual([it[:3] for it in self.logged()], [("FIRST", short(ONE), "-"), ("MIDDLE", short(ONE), "-")])


class Typed(Ceremony):
    """At a terminal."""

    def at(self, step="FIRST", role="CUSTOD1"):
        return AtTerminal(self, "ceremony", step, "--socket", self.path(role), "--log", self.log)

    def types_twice(self, it, part):
        for prompt in ("aren't shown: ", "once more: "):
            it.waits_for(prompt)
            it.types(f"{part.hex()}\n")

    def test_first(self):
        self.front("CUSTOD1")
        it = self.at()
        self.types_twice(it, ONE)
        it.waits_for("(yes or no): ")
        self.assertTrue(it.has_echo())
        it.types("yes\n")
        self.assertEqual(it.ends(), 0)
        self.assertIn(f"check value of the part: {short(ONE)}", it.shown)
        self.assertIn("new register: partly full", it.shown)
        self.assertNotIn(ONE.hex()[:8], it.shown)
        self.assertEqual(self.logged(), [("FIRST", short(ONE), "00", "partial")])

    def test_no(self):
        """A check value that isn't that of the sheet: nothing is sent."""
        self.front("CUSTOD1")
        for answer in ("no", "", "y"):
            it = self.at()
            self.types_twice(it, ONE)
            it.waits_for("(yes or no): ")
            it.types(f"{answer}\n")
            self.assertEqual(it.ends(), 1)
            self.assertIn("nothing was sent", it.shown)
        self.assertEqual(self.logged(), [])

    def test_broken_off(self):
        """Ctrl-C and signals in the midst of a part: the echo is back, nothing is sent and nothing logged."""
        self.front("CUSTOD1")
        for number in (None, signal.SIGTERM, signal.SIGHUP, signal.SIGQUIT):
            with self.subTest(number):
                it = self.at()
                it.waits_for("aren't shown: ")
                it.types(f"{ONE.hex()}\n")
                it.waits_for("once more: ")
                self.assertFalse(it.has_echo())
                it.types(ONE.hex()[:20])
                if number is None:
                    it.types("\x03")
                else:
                    it.signals(number)
                self.assertEqual(it.ends(), -(number or signal.SIGINT) if number != signal.SIGQUIT else -signal.SIGQUIT)
                self.assertTrue(it.has_echo())
                self.assertNotIn(ONE.hex()[:8], it.shown)
                self.assertNotIn("Traceback", it.shown)
        self.assertEqual(self.logged(), [])

    def test_keys_that_stop(self):
        """Ctrl-Z and Ctrl-\\ in the midst of a part are nothing but wrong digits, and the terminal has them again afterwards."""
        self.front("CUSTOD1")
        it = self.at()
        before = termios.tcgetattr(it.its)[6]
        it.waits_for("aren't shown: ")
        it.types("\x1a\x1c\n")
        self.assertEqual(it.ends(), 1)
        self.assertIn("no hexadecimal digit", it.shown)
        self.assertEqual(termios.tcgetattr(it.its)[6], before)

    def test_end_of_input(self):
        self.front("CUSTOD1")
        it = self.at()
        it.waits_for("aren't shown: ")
        it.types("\x04")
        self.assertEqual(it.ends(), 1)
        self.assertIn("nothing was sent", it.shown)
        self.assertTrue(it.has_echo())

    def test_pipe_that_is_a_terminal(self):
        self.front("CUSTOD1")
        it = AtTerminal(self, "ceremony", "FIRST", "--socket", self.path("CUSTOD1"), "--from-pipe")
        self.assertEqual(it.ends(), 2)
        self.assertIn("which would show the part", it.shown)

    def test_no_terminal(self):
        """Neither a terminal nor --from-pipe."""
        self.front("CUSTOD1")
        words = [sys.executable, "-I", "-B", os.path.join(PATHS[0], "ccactl"), "ceremony", "FIRST", "--socket", self.path("CUSTOD1")]
        it = subprocess.run(words, input=twice(ONE), text=True, capture_output=True, start_new_session=True)
        self.assertEqual((it.returncode, it.stdout), (2, ""))
        self.assertIn("--from-pipe", it.stderr)


class KeyParts(Ceremony):
    """Parts of keys under labels."""

    LEFT, RIGHT = made("left part", 16), made("right part", 16)

    def setUp(self):
        super().setUp()
        lines = [f"FIRST part={ONE.hex()}", f"LAST part={TWO.hex()}", "SET"]
        self.ask([*(f"CSNBMKP role=DEFAULT action={it}" for it in lines), "CSNBKRC role=DEFAULT label=TO.B", "CSNBKRC role=DEFAULT label=M"], self.keys)
        self.front("OFFICER", "KEY1", "KEY2", "DEFAULT")

    def under(self, kind, words, part=None):
        """What is told of the token under TO.B, and of a part."""
        vector = types()[kind][16]
        part_vector = bytes(a ^ b for a, b in zip(vector, bytes([0, 0, 0, 0, 0, 9, 0, 0]) * 2))
        lines = [f"under TO.B: {kind} {part_vector.hex()}: {kind} 16 {words}"]
        return lines + ([f"check value of the part: {value(part)[:6]}"] if part else [])

    def first(self, *words):
        return self.key_step("FIRST", "KEY1", "TO.B", "--type", "EXPORTER", "--look", self.path("OFFICER"), *words, given=twice(self.LEFT))

    def test_transport_key(self):
        """Two custodians whose roles may not read tokens, and an officer who may."""
        check_value = f"check value of the part: {value(self.LEFT)[:6]}"
        nexts = ["stored under: TO.B", "next: SHOW by an officer, then MIDDLE or LAST by the next custodian"]
        self.ends_so(self.first(), 0, ["under TO.B: no key", check_value, *nexts])
        shown = self.key_step("SHOW", "OFFICER", "TO.B", "--type", "EXPORTER")
        self.ends_so(shown, 0, ["class: EXPORTER", self.under("EXPORTER", "key-part")[0].replace("under TO.B: EXPORTER", "control vector:")])
        came = self.key_step("LAST", "KEY2", "TO.B", "--type", "EXPORTER", "--look", self.path("OFFICER"), given=twice(self.RIGHT))
        self.assertEqual(came[0], 0, came[2])
        self.assertEqual(came[1].splitlines()[:2], self.under("EXPORTER", "key-part", self.RIGHT))
        key = joined(self.LEFT, self.RIGHT)
        vector = types()["EXPORTER"][16].hex()
        wanted = ["class: EXPORTER", f"control vector: {vector}: EXPORTER 16", f"check value: {value(key)[:6]}"]
        self.ends_so(self.key_step("SHOW", "OFFICER", "TO.B"), 0, wanted)
        self.ends_so(self.key_step("SHOW", "OFFICER", "TO.B", "--type", "IMPORTER"), 3, wanted, "isn't of the type IMPORTER")
        self.ends_so(self.key_step("LAST", "DEFAULT", "TO.B", "--type", "EXPORTER", given=twice(self.RIGHT)), 3, tells="is complete.*nothing was sent")
        self.assertEqual([it[:3] for it in self.logged()], [
            ("key-part FIRST TO.B", value(self.LEFT)[:6], "00"), ("key-part LAST TO.B", value(self.RIGHT)[:6], "00")])  # fmt: skip
        for part in (self.LEFT, self.RIGHT, key):
            self.assertNotIn(part.hex()[:8], self.log.read_text())

    def test_other_type(self):
        """Another type than the custodian expects, or another length: nothing is sent."""
        self.first()
        for kind in ("IMPORTER", "OKEYXLAT", "MAC"):
            came = self.key_step("LAST", "DEFAULT", "TO.B", "--type", kind, given=twice(self.RIGHT))
            self.ends_so(came, 3, tells=f"isn't of the type {kind}, but EXPORTER .* EXPORTER 16 key-part")
        short_part = self.key_step("LAST", "DEFAULT", "TO.B", "--type", "EXPORTER", given=twice(self.RIGHT[:8]))
        self.ends_so(short_part, 1, self.under("EXPORTER", "key-part"), "16 digits, and 32 are wanted")
        self.ends_so(self.key_step("LAST", "DEFAULT", "M", "--type", "MAC", given=twice(self.RIGHT)), 1, tells="the label has no key: FIRST comes first")
        self.ends_so(self.key_step("LAST", "DEFAULT", "X", "--type", "MAC", given=twice(self.RIGHT)), 1, tells="rule 07")
        self.ends_so(self.key_step("LAST", "DEFAULT", "TO.B", given=""), 2, tells="--type is wanted")
        self.assertEqual(len(self.logged()), 1)

    def test_replaced(self):
        """FIRST over a key that is there."""
        self.first()
        self.ends_so(self.first(), 1, tells="has a key already, EXPORTER .*; --replace enters another")
        self.assertEqual(self.first("--replace")[0], 0)

    def test_unseen(self):
        """A role that may not read the token."""
        words = ["FIRST", "KEY1", "M", "--type", "MAC"]
        self.ends_so(self.key_step(*words, given=twice(self.LEFT)), 1, tells=r"may not read the token \(KRR\): --look names a socket")
        self.ends_so(self.key_step(*words, "--unseen", given=twice(self.LEFT[:8])), 0, [
            f"check value of the part: {value(self.LEFT[:8])[:6]}", "stored under: M",
            "next: SHOW by an officer, then MIDDLE or LAST by the next custodian"])  # fmt: skip
        self.ends_so(self.key_step("SHOW", "KEY1", "M"), 1, tells="ask by another socket")


class Planted(unittest.TestCase):
    """Each fault of EDITS is found by its case."""

    def test_edits(self):
        each_is_found(self, "ctl_ceremony", EDITS)


if __name__ == "__main__":
    unittest.main()
