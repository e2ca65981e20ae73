"""The library for Java in clients/java, over the socket of a front: each form of a request as a line, compared with the library for
Python; verbs over a real front, in our shape and in IBM's, compared with OpenSSL; replies that no such request gets, connections that end,
threads and interrupts."""
import functools
import os
import re
import shlex
import shutil
import socket
import subprocess
import sys
import tempfile
import time
import unittest
import unittest.mock
from pathlib import Path

from tests.edits import FRONT, LIBRARIES, Edit, each_is_found
from tests.formats import as_part, chained, code, external, internal, joined, types, validation, value
from tests.harness import EXAMPLES, TOP, Case, Fault, limited, scratch
from tests.python_connected import Peer
from tests.python_library import DOUBLE, IV, SINGLE, TRANSPORT, Library, padded
from cca import Socket, testing
from cca.lines import request_line
from cca.rows import ROWS, RULES

FAULTS = [Fault('"$CCA" "$@" | sed -u "s/^NO 04/NO 03/"', case="Fronted.test_verbs", tells="Refused 3")]
JAVA = "clients/java/src/cca/"
EDITS = [
    Edit(JAVA + "Connection.java", "if (searched + 1 < reply.position())", "if (searched < 0)", "Connected.test_out_of_step"),
    Edit(JAVA + "Coprocessor.java", "if (state == Connection.State.SPOKE)", "if (state == null)", "Connected.test_unasked"),
    Edit(JAVA + "Coprocessor.java", "turn.lock();\n        try {\n            return answered", "turn.tryLock();\n        try {\n            return answered", "Connected.test_threads"),
    Edit(JAVA + "Coprocessor.java", "e.getMessage(), true);", "e.getMessage(), false);", "Connected.test_out_of_step"),
    Edit(JAVA + "Coprocessor.java", 'throw new Ended("the front ends", false);', 'throw new Ended("the front ends", true);', "Connected.test_not_carried_out"),
    Edit(JAVA + "Coprocessor.java", "? LONGEST_TEXT - 1 : LONGEST_TEXT", "? LONGEST_TEXT : LONGEST_TEXT", "Fronted.test_long"),
    Edit(JAVA + "Coprocessor.java", "isOld[0] |= reply.usedOldKey();", "isOld[0] = reply.usedOldKey();", "Connected.test_old_in_segments"),
    Edit(JAVA + "Reply.java", "0[1-9]|[1-2][0-9]|3[0-6]", "[0-9]{2}", "Connected.test_unfitting"),
    Edit(JAVA + "Reply.java", "|| (span.end - span.start) % 2 != 0", "", "Connected.test_unfitting"),
    Edit(JAVA + "RequestLine.java", "if (request.indexOf('\\n') >= 0)", "if (request == null)", "Connected.test_arguments"),
    Edit(JAVA + "Hikm.java", "        if (!matches) {", "        if (matches) {", "Fronted.test_hikm_data"),
    Edit(JAVA + "HikmCall.java", "if (!used[at])", "if (used[at] && at < 0)", "Fronted.test_hikm_refusals"),
]  # fmt: skip
TOKEN = bytes(range(64)).hex()
# A value of each kind of a field: as the driver takes it, and as the line has it.
VALUES = {
    "key_text": ("L:PAY.1", "L:PAY.1"),
    "hex_text": ("00ff10", "00ff10"),
    "mac_text": ("0123456789ab", "0123456789ab"),
    "part_text": ("0123456789abcdef", "0123456789abcdef"),
    "label_text": ("PAY.2", "PAY.2"),
    "to_text": ("PAY.3", "L:PAY.3"),
    "prefix_text": (".", ""),
    "type_text": ("DATA", "DATA"),
    "role_name": ("TELLER", "TELLER"),
    "other_role": ("TELLER", "TELLER"),
    "points": ("31", "0000001f"),
}


@functools.cache
def built():
    """The folder with the jar and the driver."""
    folder = Path(scratch().name) / "java"
    subprocess.run([LIBRARIES / "java" / "build", folder], check=True, stdout=subprocess.DEVNULL)
    sources = sorted((TOP / "tests" / "java").glob("*.java"))
    subprocess.run(["javac", "-Xlint:all", "-Werror", "-cp", folder / "cca.jar", "-d", folder, *sources], check=True)
    return folder


def asked(path, calls, patience=60_000):
    """What comes of some calls of Coprocessor, a line each."""
    return driven("Asks", calls, path, str(patience))


def driver(name, *words):
    """The words that start a driver."""
    folder = built()
    return ["java", "-XX:TieredStopAtLevel=1", "-XX:+UseSerialGC", "-cp", f"{folder}:{folder}/cca.jar", name, *words]


def driven(name, calls, *words):
    """What a driver says of some calls, a line each."""
    came = subprocess.run(driver(name, *words), input="".join(f"{it}\n" for it in calls), capture_output=True, text=True, timeout=200)
    if came.returncode or came.stderr:
        raise AssertionError(came.stderr[-2000:])
    return came.stdout.splitlines()


def form(row):
    """The call of a row's method, and the line that it must send."""
    first, *rest = row.split("_")
    words, values = [first + "".join(it.capitalize() for it in rest)], {}
    for field in ROWS[row].fields:
        if field.name == "role" or (field.kind == "one_of" and len(field.words) == 1):
            continue
        if field.kind == "one_of":
            word = text = field.words[-1]
        elif field.kind == "hex_digits":
            word = text = TOKEN[: field.digits]
        else:
            word, text = VALUES[field.kind]
        words.append(word)
        values[field.name] = text
    return " ".join(words), request_line(row, None, values)


class Java(unittest.TestCase):
    """What is made of the table."""

    def test_made(self):
        came = subprocess.run([LIBRARIES / "java" / "make_requests.py", "--check"], capture_output=True, text=True)
        self.assertEqual((came.returncode, came.stdout), (0, ""))


class Answers(Peer):
    """What gives one reply after the other, over all its connections."""

    def __init__(self, path, replies):
        self.left = list(replies)
        super().__init__(path)

    def answer(self, connection):
        self.connection = connection
        with connection, connection.makefile("rb") as lines:
            for line in lines:
                self.lines.append(line)
                connection.sendall(self.left.pop(0))


@unittest.skipUnless(shutil.which("javac") and shutil.which("jar"), "no JDK is installed")
class Connected(Case):
    """What stands for a front."""

    def setUp(self):
        super().setUp()
        limited(self, 200)
        self.path = self.folder / "front"
        self.peer = Peer(self.path)
        self.addCleanup(self.peer.listener.close)

    def answering(self, *replies):
        """Where one stands that gives these replies, whatever is asked."""
        peer = Answers(self.folder / "answers", replies)
        self.addCleanup(peer.listener.close)
        return self.folder / "answers", peer

    def test_forms(self):
        """Each form of a request, as the library for Python has it."""
        calls, lines = zip(*map(form, ROWS))
        path, peer = self.answering(*[b"NO 01 -\n"] * len(calls))
        self.assertEqual(asked(path, calls), [f"Refused 1 - {RULES['01', '-']}"] * len(calls))
        self.assertEqual(peer.lines, [f"{line}\n".encode() for line in lines])

    def test_arguments(self):
        """What can't be sent isn't."""
        calls = [f"keyTest T:{TOKEN[:-2]}", "csnbenc L:PAY 00 NONE 00", "csnbenc L:PAY 0011223344556677 X 00", "csnbkrc .", "csnbrng null"]
        calls += [f"csnbenc L:PAY 0011223344556677 NONE {'00' * 4600}", "csnbkrc A\tB", "newline A - K"]
        for call, line in zip(calls, asked(self.path, calls), strict=True):
            self.assertEqual(line.split()[0], "IllegalArgumentException", call)
        self.assertEqual(self.peer.lines, [])

    def test_asked(self):
        self.assertEqual(asked(self.path, ["ask A - K1", "ask A - K2"]), ["OK value=K1", "OK value=K2"])
        self.assertEqual(self.peer.connections, 1)

    def test_out_of_step(self):
        """Where no whole reply comes, or more than one, the request is in doubt, and the next one gets its own."""
        for how in ("half", "twice", "none", "endless"):
            first, second = asked(self.path, [f"ask A {how} K1", "ask A - K2"])
            self.assertTrue(first.startswith("Ended true"), first)
            self.assertEqual(second, "OK value=K2")

    def test_no_reply_in_time(self):
        first, second = asked(self.path, ["ask A waits1500 K1", "ask A - K2"], patience=1000)
        self.assertEqual(first, "Ended true the front sent no reply in time; the request may have been carried out all the same")
        self.assertEqual(second, "OK value=K2")

    def test_ended_while_silent(self):
        """A front ends a connection that is silent: the next request makes another one."""
        self.assertEqual(asked(self.path, ["ask A ends K1", "ask A - K2"]), ["OK value=K1", "OK value=K2"])

    def test_unasked(self):
        """What comes before it is asked for is no reply."""
        path, peer = self.answering(b"OK value=K1\n", b"OK value=K3\n")
        with subprocess.Popen(driver("Asks", path, "60000"), stdin=subprocess.PIPE, stdout=subprocess.PIPE, text=True, bufsize=1) as it:

            def ask(request):
                it.stdin.write(f"ask {request}\n")
                return it.stdout.readline().rstrip("\n")

            self.assertEqual(ask("A - K1"), "OK value=K1")
            peer.connection.sendall(b"OK value=K2\n")
            self.assertEqual(ask("A - K2"), "Ended false the front said what it wasn't asked; the request wasn't carried out")
            self.assertEqual(ask("A - K3"), "OK value=K3")

    def test_not_carried_out(self):
        """The front's own word at its end."""
        path, _ = self.answering(b"-- not carried out\n", b"OK value=K2\n")
        first, second = asked(path, ["ask A - K1", "ask A - K2"])
        self.assertEqual((first, second), ("Ended false the front ends; the request wasn't carried out", "OK value=K2"))

    def test_nowhere(self):
        line = asked(self.folder / "nothing", ["ask A - K"])[0]
        self.assertTrue(line.startswith("Ended false no connection"), line)

    def test_threads(self):
        self.assertEqual(asked(self.path, ["threads 8 A -"]), ["own 8"])

    def test_interrupted(self):
        first, second = asked(self.path, ["interrupted A waits3000 K1", "ask A - K2"])
        self.assertEqual(first, "Ended true the thread was interrupted; the request may have been carried out all the same true")
        self.assertEqual(second, "OK value=K2")

    def test_unfitting(self):
        """Replies that no such request gets: the connection ends."""
        call = "keyTest L:PAY"
        fitting = {b"OK value=0a1b2c3d": "Data 0a1b2c3d", b"OK value=0a1b2c3d warn=old": "Data 0a1b2c3d old"}
        fitting |= {f"NO {rule} -".encode(): f"Refused {int(rule)} -" for rule in ("01", "18", "36")}
        unfitting = b"|OK|NO|NO 00 -|NO 37 -|NO 7 -|NO -7 -|NO 07|NO 07 - |OK value=0a1b2c3|OK value=0a1b2c3d4|OK value=0A1B2C3D|OK value=0a1b2c|OK text=00"
        unfitting += b"|OK value=0a1b2c3d x=|OK warn=old value=0a1b2c3d|OK value=0a1b2c3d warn=old warn=old|OKvalue=0a1b2c3d|OK  value=0a1b2c3d|OK value=0a1b2c3d "
        replies = [*fitting, *unfitting.split(b"|")]
        path, _ = self.answering(*(it + b"\n" for it in replies))
        lines = asked(path, [call] * len(replies))
        for reply, line in zip(replies, lines, strict=True):
            self.assertTrue(line.startswith(fitting.get(reply, "Unexpected ")), (reply, line))
            self.assertNotIn("0a1b", line if line.startswith("Unexpected") else "")

    def test_old_in_segments(self):
        """A key under the old master key in one segment of several."""
        texts = ["00" * 4088, "00" * 4088]
        replies = [f"OK text={texts[0]} chain={'00' * 16} warn=old\n", f"OK text={texts[1]}\n"]
        path, _ = self.answering(*(it.encode() for it in replies))
        self.assertEqual(asked(path, [f"encipher L:PAY {'00' * 8176} {'00' * 8} NONE"]), [f"Data {'00' * 8176} old"])


@unittest.skipUnless(shutil.which("javac") and shutil.which("jar"), "no JDK is installed")
class Fronted(Library):
    """A real front."""

    def setUp(self):
        super().setUp()
        self.cca.close()
        paths = {role: self.folder / role for role in ("TELLER", "OFFICER", "DEFAULT")}
        words = [sys.executable, "-B", FRONT, self.folder, *[f"{path}={role}" for role, path in paths.items()]]
        front = subprocess.Popen(words, env={**os.environ, "CCA": self.program.path}, stderr=subprocess.DEVNULL)
        self.addCleanup(front.wait)
        self.addCleanup(front.kill)
        self.teller, self.officer, self.default = paths.values()
        until = time.monotonic() + 100
        while not all(self.listens(it) for it in paths.values()):
            self.assertLess(time.monotonic(), until)
            time.sleep(0.1)

    def listens(self, path):
        with socket.socket(socket.AF_UNIX) as it:
            return it.connect_ex(os.fspath(path)) == 0

    def test_verbs(self):
        calls = {
            "keyTest L:TEST.DATA": f"Data {value(SINGLE)}",
            f"encipher L:TEST.DATA {bytes(24).hex()} {IV.hex()} NONE": f"Data {chained(SINGLE, IV, bytes(24)).hex()}",
            "csnbkrc NEW": f"Refused 4 - {RULES['04', '-']}",
            "keyTest L:NEW": "Refused 7 key",
        }
        for call, came in zip(calls, asked(self.teller, calls), strict=True):
            self.assertTrue(came.startswith(calls[call]), (call, came))
        calls = {"csnbkrc NEW": "Reply", f"csnbcki {SINGLE.hex()} NEW": "Reply stored=NEW", "recordList NE": "[NEW]"}
        self.assertEqual(asked(self.officer, calls), list(calls.values()))
        self.assertEqual(asked(self.teller, ["keyTest L:NEW"]), [f"Data {value(SINGLE)}"])

    def test_long(self):
        """Data in one request and in segments, by OpenSSL."""
        for size in (4088, 4095, 4096, 8176, 20_001):
            data = bytes(at % 251 for at in range(size))
            whole = chained(DOUBLE, IV, padded(data))
            mac = code(DOUBLE, data)[1]
            calls = [f"encipher L:TEST.DATA.16 {data.hex()} {IV.hex()} X9.23", f"decipher L:TEST.DATA.16 {whole.hex()} {IV.hex()} X9.23"]
            calls += [f"macGenerate L:TEST.DATA.16 {data.hex()} X9.19OPT 6"]
            calls += [f"macVerify L:TEST.DATA.16 {data.hex()} {it.hex()} X9.19OPT" for it in (mac, bytes(8))]
            wanted = [f"Data {whole.hex()}", f"Data {data.hex()}", f"Data {mac[:6].hex()}", "true", "false"]
            self.assertEqual(asked(self.teller, calls), wanted)


    def hikm(self, path, calls):
        """Calls of IBM's shape, each with its return code, reason and outputs."""
        for (call, wanted), came in zip(calls.items(), driven("Hikms", calls, path), strict=True):
            self.assertEqual(came, wanted, call)

    def test_hikm_data(self):
        data, mac = bytes(range(24)), code(DOUBLE, bytes(range(24)))[1]
        whole, first = chained(SINGLE, IV, data), chained(SINGLE, IV, data[:8])
        closed, key, iv = chained(SINGLE, IV, padded(data)), "@TEST.DATA", f"={IV.hex()}"
        chain = code(DOUBLE, data[:8])[0][-8:].hex()
        self.hikm(
            self.teller,
            {
                f"CSNBENCJ {key} #24 ={data.hex()} {iv} #0 null null null _24": f"0 0 24 0 {whole.hex()}",
                f"CSNBENCJ {key} #8 ={data[:8].hex()} {iv} #2 CBC,INITIAL null _18 _8": f"0 0 8 2 {first.hex()}{'00' * 10} {first.hex()}",
                f"CSNBENCJ {key} #16 ={data[8:].hex()} null #1 CONTINUE null ={first.hex()}{'00' * 10} _16": f"0 0 16 1 {whole[8:].hex()}",
                f"CSNBENCJ {key} #24 ={data.hex()} {iv} #1 X9.23 #0 null _32": f"0 0 32 1 0 {closed.hex()}",
                f"CSNBDECJ {key} #32 ={closed.hex()} {iv} #1 X9.23 null _31": f"0 0 24 1 {data.hex()}{'00' * 7}",
                f"CSNBMGNJ {key}.16 #24 ={data.hex()} #2 X9.19OPT,MACLEN8 null _8": f"0 0 24 2 {mac.hex()}",
                f"CSNBMGNJ {key}.16 #8 ={data[:8].hex()} #2 X9.19OPT,FIRST _18 null": f"0 0 8 2 {chain}{'00' * 10}",
                f"CSNBMGNJ {key}.16 #16 ={data[8:].hex()} #3 X9.19OPT,LAST,MACLEN8 ={chain}{'00' * 10} _8": f"0 0 16 3 {mac.hex()}",
                f"CSNBMVRJ {key}.16 #24 ={data.hex()} #2 X9.19OPT,MACLEN8 null ={mac.hex()}": "0 0 24 2",
                f"CSNBMVRJ {key}.16 #24 ={data.hex()} #1 X9.19OPT null =00000000": "4 1 24 1",
                f"CSNBKYTJ #3 KEY-ENC,GENERATE,ENC-ZERO {key} null _8": f"0 0 3 {value(SINGLE)}00000000",
                f"CSNBKYTJ #3 KEY-ENC,VERIFY,ENC-ZERO {key} null ={'00' * 8}": "4 1 3",
            }
        )

    def test_hikm_refusals(self):
        key, iv = "@TEST.DATA", f"={IV.hex()}"
        self.hikm(
            self.teller,
            {
                "CSNBKRCJ @NEW": "8 4",
                f"CSNBENCJ @NONE #8 ={'00' * 8} {iv} #0 null null null _8": "8 7 8 0 0000000000000000",
                f"CSNBENCJ {key} #7 ={'00' * 7} {iv} #0 null null null _7": "8 23 7 0 00000000000000",
                f"CSNBENCJ {key} #8 ={'00' * 8} {iv} #1 CFB null null _8": "8 103 8 1 0000000000000000",
                f"CSNBENCJ {key} #8 ={'00' * 8} {iv} #2 CBC,X9.23 null null _16": f"8 104 8 2 {'00' * 16}",
                f"CSNBENCJ {key} #-1 ={'00' * 8} {iv} #0 null null null _8": "8 107 -1 0 0000000000000000",
                f"CSNBENCJ {key} #8 ={'00' * 8} {iv} #0 null null null _7": "8 107 8 0 00000000000000",
                f"CSNBENCJ {key} #8 ={'00' * 8} {iv} #1 X9.23 #1 null _16": f"8 108 8 1 1 {'00' * 16}",
                f"CSNBENCJ ={'00' * 64} #8 ={'00' * 8} {iv} #0 null null null _8": "8 105 8 0 0000000000000000",
                "CSNBKRCJ null": "8 101",
                "CSNBKRCJ =00": "8 106",
                "CSNBRNGJ ODDS _8": "8 103 0000000000000000",
            },
        )

    def test_hikm_keys(self):
        token = self.module_token("TEST.DATA")
        self.hikm(
            self.default,
            {
                "CSNBKRCJ @NEW": "0 0",
                f"CSNBCKIJ ={SINGLE.hex()} @NEW": "0 0",
                "CSNBKRRJ @TEST.DATA _64": f"0 0 {token}",
                f"CSNBKRWJ ={token} @NEW": "0 0",
                "CSNBKRDJ #1 LABEL-DL @NEW": "0 0 1",
            },
        )

    def test_hikm_roles(self):
        self.hikm(
            self.default,
            {
                "CSUAACIJ #1 DEFINE #8 NEWROLE #4 =0000001f": "0 0 1 8 4",
                "CSUAACIJ #1 REMOVE #8 NEWROLE #0 null": "0 0 1 8 0",
                "CSUAACIJ #1 REMOVE #8 NEWROLE #0 null ": "8 30 1 8 0",
                "CSUAACIJ #1 DEFINE #8 NEWROLE #3 =00001f": "8 107 1 8 3",
                "CSUAACIJ #1 CHANGE #8 NEWROLE #4 =0000001f": "8 103 1 8 4",
            },
        )

    def test_hikm_tokens(self):
        """Tokens and their parts, by docs/FORMATS.md."""
        single, mac = types()["DATA"][8], types()["MAC"][16]
        token, other = internal(testing.MASTER_KEY, SINGLE, single), external(TRANSPORT, SINGLE, single)
        one, two = bytes(range(1, 17)), bytes(range(101, 117))
        part, whole = internal(testing.MASTER_KEY, one, as_part(mac)), internal(testing.MASTER_KEY, joined(one, two), mac)
        empty = bytes([1, 0, 0, 0, 0, 0, 0x40]) + bytes(25) + mac + bytes(12)
        empty += validation(empty)
        words = ("DATA", "INTERNAL", "KEY", "CV")
        told = [f"{it:8}".encode().hex() for it in words]
        self.hikm(
            self.default,
            {
                f"CSNBKTPJ ={token} _8 #3 _24 _16 null null null _16 null null null _8": f"0 0 {told[0]} 3 {''.join(told[1:])} "
                f"{token[32:64]} {single.hex()} {token[16:32]}",
                "CSNBKEXJ DATA @TEST.DATA @TEST.EXPORTER _64": f"0 0 {other}",
                "CSNBKEXJ MAC @TEST.DATA @TEST.EXPORTER _64": f"8 109 {'00' * 64}",
                f"CSNBKIMJ MAC ={other} @TEST.IMPORTER _64": f"8 109 {'00' * 64}",
                f"CSNBKIMJ DATA ={other} @TEST.IMPORTER _64": f"0 0 {token}",
                f"CSNBKPIJ #1 FIRST ={one.hex()} +{empty.hex()}": f"0 0 1 {part}",
                f"CSNBKPIJ #1 LAST ={two.hex()} +{part}": f"0 0 1 {whole}",
                f"CSNBKPIJ #1 FIRST ={one.hex()} +{token}": f"8 105 1 {token}",
            },
        )

    def test_hikm_list(self):
        """The labels of a prefix in a file, as the socket itself lists them."""
        lists = Path(tempfile.mkdtemp())  # a path that fits into 64 characters, as IBM's does
        self.addCleanup(shutil.rmtree, lists)
        with Socket(self.default) as it:
            labels = [f"{label}\n" for label in it.record_list("TEST.D")]
        with unittest.mock.patch.dict(os.environ, CSUDESLD=str(lists)):
            came = driven("Hikms", ["CSNBKRLJ @TEST.D* #0 _64 null", "CSNBKRLJ @TEST.DATA #0 _64 null"], self.default)
        code, reason, size, path = came[0].split()
        self.assertEqual((code, reason, came[1]), ("0", "0", f"8 106 0 {'00' * 64}"))
        path = Path(bytes.fromhex(path)[: int(size)].decode())
        self.assertEqual((path.parent, path.stat().st_mode & 0o777), (lists, 0o600))
        self.assertEqual(path.read_text(), "".join(labels))
        self.hikm(self.default, {"CSNBKRLJ @TEST.D* #0 _64 null": f"8 110 0 {'00' * 64}"})

    def module_token(self, label):
        """The token of a label, by the front's other client."""
        with Socket(self.default) as it:
            return it.record_read(label).hex()

    def test_page(self):
        """The commands of docs/LIBRARIES.md, and the example, over a real front."""
        build, run = re.findall(r"(?m)^((?:clients/java/build|java -cp) .*)$", (TOP / "docs" / "LIBRARIES.md").read_text())
        self.assertEqual(build, "clients/java/build java")
        subprocess.run([LIBRARIES / "java" / "build", self.folder / "java"], check=True, stdout=subprocess.DEVNULL)
        words = shlex.split(run)
        self.assertEqual(words[:4] + words[5:6], ["java", "-cp", "java/cca.jar", "examples/java/Mac.java", "PAY.MAC"])
        words[3:6] = [EXAMPLES / "java" / "Mac.java", self.teller, "TEST.DATA"]
        wanted = {"TEST.DATA": f"MAC {code(SINGLE, words[6].encode())[0][-8:].hex()}", "NONE": f"refused by rule 07, field key: {RULES['07', None]}"}
        for words[5], told in wanted.items():
            came = subprocess.run(words, cwd=self.folder, capture_output=True, text=True)
            self.assertEqual((came.stdout.strip(), came.stderr), (told, ""))


class Planted(unittest.TestCase):
    """Each fault of EDITS is found by its case."""

    @unittest.skipUnless(shutil.which("javac") and shutil.which("jar"), "no JDK is installed")
    def test_edits(self):
        each_is_found(self, "java", EDITS)


if __name__ == "__main__":
    unittest.main()
