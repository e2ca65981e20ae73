"""The PKCS#11 module of clients/pkcs11: what the standard says of each call, by a program in C; data, MACs, key types and external tokens,
beside OpenSSL and docs/FORMATS.md; its table of codes; a front with several roles; replies that are none; other programs, where they
are installed; and once more under the sanitizers of addresses and of undefined behaviour.
"""
import contextlib
import ctypes
import os
import random
import re
import shutil
import signal
import socket
import subprocess
import sys
import tempfile
import threading
import time
import unittest
from pathlib import Path

from tests.c_library import LOADING, RUNTIME, chained, code, data, sanitized
from tests.edits import FRONT, LIBRARIES, Edit, each_is_found
from tests.formats import blocks, closed, external, made, types, value
from tests.harness import TOP, Case, Fault, limited
from tests.pkcs11_module import CALLS, HEADER, SOURCES, Failed, Session, as_bytes, built, caller, children, codes, mechanism, numbers
from tests.pkcs11_module import template

sys.path.insert(0, str(LIBRARIES / "python"))
from cca.testing import KEYS, module  # noqa: E402

PAGE = TOP / "docs" / "PKCS11.md"
IV = made("iv", 8)
SINGLE, DOUBLE, TRANSPORT = (KEYS[f"TEST.{name}"].clear for name in ("DATA", "DATA.16", "EXPORTER"))
# Bytes of data, and of the parts in which it comes.
SIZES = {0: (None,), 8: (None, 1, 5, 8), 40: (None, 7, 9), 4096: (None, 4095), 4104: (None, 4096), 9000: (None, 4097)}

FAULTS = [Fault('"$CCA" "$@" | sed -u "s/match=no/match=yes/"', case="Values.test_macs", tells="CKR_OK")]
# Each takes away what one of these cases asks for.
EDITS = [
    Edit("clients/pkcs11/ciphers.c", "(it->total - 1) / BLOCK * BLOCK", "it->total / BLOCK * BLOCK", "Values.test_padding"),
    Edit("clients/pkcs11/ciphers.c", "is_one = it->bytes[it->whole - at] == count;", "is_one = 1;", "Values.test_padding_that_isnt_one"),
    Edit("clients/pkcs11/ciphers.c", "is_encrypting(it->operation) ? it->bytes + it->whole - BLOCK : last", "it->bytes + it->whole - BLOCK", "Values.test_chains"),
    Edit("clients/pkcs11/ciphers.c", "if (rv != CKR_BUFFER_TOO_SMALL && (rv", "if ((rv", "Calls.test_ciphers"),
    Edit("clients/pkcs11/macs.c", "(total - 1) / BLOCK * BLOCK", "total / BLOCK * BLOCK", "Values.test_macs"),
    Edit("clients/pkcs11/macs.c", "rv == CKR_OK && !is_same(mac", "rv == CKR_OK && 0 && !is_same(mac", "Values.test_macs"),
    Edit("clients/pkcs11/keys.c", " || (unwanted & key.uses))", ")", "Values.test_types"),
    Edit("clients/pkcs11/making.c", "if (order->is_never_exported)", "if (0)", "Values.test_never_exported"),
    Edit("clients/pkcs11/making.c", "!session_may_write(session)", "!session", "Calls.test_keys"),
    Edit("clients/pkcs11/making.c", "cca_record_delete(cca, label); /* as", "/* as", "Values.test_nothing_left"),
    Edit("clients/pkcs11/objects.c", "!strstr(text, name))", "!*labels)", "Front.test_destroyed_by_another"),
    Edit("clients/pkcs11/objects.c", "if (is_refused(came, 4))\n        return 0;", "if (is_refused(came, 4))\n        return -1;", "Front.test_roles"),
    Edit("clients/pkcs11/sessions.c", "objects_end_session(it->slot, it->handle);", "", "Calls.test_keys"),
    Edit("clients/pkcs11/slots.c", "return owner == getpid();", "return owner != 0;", "Calls.test_forks"),
    Edit("clients/pkcs11/slots.c", "pthread_mutex_lock(&(*slot)->turn);", "", "Calls.test_locks"),
    Edit("clients/pkcs11/attributes.c", "to->ulValueLen < value.length", "0", "Calls.test_attributes"),
    Edit("clients/pkcs11/configuration.c", "length >= 1 && length <= 8 &&", "", "Places.test_wrong"),
    Edit("clients/pkcs11/errors.c", "[21] = CKR_KEY_UNEXTRACTABLE,", "[21] = CKR_KEY_SIZE_RANGE,", "Codes.test_table"),
]


class Token(Case):
    """The module over a folder with the keys of cca.testing."""

    @classmethod
    def setUpClass(cls):
        if not shutil.which("cc"):
            raise unittest.SkipTest("cc isn't installed")
        if not HEADER.exists():
            raise unittest.SkipTest("the header of p11-kit isn't installed (libp11-kit-dev)")
        super().setUpClass()
        cls.filled = cls.shared / "filled"
        cls.filled.mkdir()
        with module(cls.filled, program=cls.program.path):
            pass
        built()

    def setUp(self):
        super().setUp()
        limited(self, 280)
        shutil.copytree(self.filled, self.folder / "keys")
        self.environment = {"CCA": self.program.path, "CCA_PKCS11": f"{self.folder / 'keys'}=DEFAULT"}

    def fails(self, wanted, call, *words, **named):
        with self.assertRaises(Failed) as raised:
            call(*words, **named)
            raise Failed("CKR_OK")
        self.assertEqual(str(raised.exception), wanted)

    def tool(self, *words, **options):
        """What another program says of the module."""
        environment = {**os.environ, **self.environment, **(self.loading() if RUNTIME else {})}
        options = {"cwd": self.folder, **options}
        it = subprocess.run(words, env=environment, capture_output=True, text=True, timeout=200, **options)
        self.assertEqual(it.returncode, 0, it.stdout[-2000:] + it.stderr[-2000:])
        return it.stdout


    def loading(self):
        """What a program needs that loads the module with the sanitizers. cca itself is started without them."""
        folder = Path(tempfile.mkdtemp())
        self.addCleanup(shutil.rmtree, folder)
        folder.chmod(0o755)  # other users start it too
        it = folder / "cca"
        it.write_text(f'#!/bin/sh\nunset LD_PRELOAD\nexec {self.environment.get("CCA", self.program.path)} "$@"\n')
        it.chmod(0o755)
        return {**LOADING, "CCA": it}


class Loaded(Token):
    """The module in this process."""

    def setUp(self):
        super().setUp()
        self.begin(self.environment["CCA_PKCS11"])
        self.addCleanup(self.end)

    def begin(self, places):
        os.environ.update(self.environment, CCA_PKCS11=places)
        self.library = ctypes.CDLL(str(built()))
        Session.check(self.library.C_Initialize(None))
        self.session = Session()

    def end(self):
        self.library.C_Finalize(None)

    def vector(self, label):
        """The control vector of a key under a label, as cca itself shows its token."""
        self.end()
        reply = self.ask([f"CSNBKRR role=DEFAULT label={label}"], self.folder / "keys")[0]
        Session.check(self.library.C_Initialize(None))
        self.session = Session()
        return bytes.fromhex(reply.partition("token=")[2])[32:48]


class Calls(Token):
    """What the standard says of each call."""

    def runs(self, what):
        self.environment["ASAN_OPTIONS"] = "detect_leaks=1"
        self.assertEqual(self.tool(caller(), what, built()), "")

    def test_before(self):
        self.runs("before")

    def test_initialize(self):
        self.runs("initialize")

    def test_slots(self):
        self.runs("slots")

    def test_sessions(self):
        self.runs("sessions")

    def test_unsupported(self):
        self.runs("unsupported")

    def test_searches(self):
        self.runs("searches")

    def test_attributes(self):
        self.runs("attributes")

    def test_keys(self):
        self.runs("keys")

    def test_ciphers(self):
        self.runs("ciphers")

    def test_macs(self):
        self.runs("macs")

    def test_threads(self):
        self.runs("threads")

    def test_forks(self):
        self.runs("forks")

    def test_reloaded(self):
        self.runs("reloaded")

    def test_signals(self):
        self.runs("signals")

    def test_locks(self):
        """No two calls of one slot at once, as the sanitizer of threads sees it."""
        if os.environ.get("SANITIZED") or not shutil.which("gcc"):
            self.skipTest("this is built with another sanitizer")
        runtime = subprocess.run(["gcc", "-print-file-name=libtsan.so"], capture_output=True, text=True, check=True).stdout.strip()
        if not os.path.isabs(runtime):
            self.skipTest("the runtime of the sanitizer of threads isn't installed")
        self.environment["CFLAGS"] = "-fsanitize=thread -g"
        self.tool(SOURCES / "build", self.folder / "threads")
        words = ["-std=c11", "-fsanitize=thread", "-I", HEADER.parents[1], "-pthread", "-o", self.folder / "calls"]
        self.tool("gcc", *words, CALLS, "-ldl")
        self.environment["TSAN_OPTIONS"] = "halt_on_error=1"
        self.assertEqual(self.tool(self.folder / "calls", "threads", self.folder / "threads" / "libcca-pkcs11.so"), "")


class Values(Loaded):
    """Data, MACs and keys, beside what OpenSSL and docs/FORMATS.md make of them."""

    def test_chains(self):
        for label, key, how in (("TEST.DATA", SINGLE, "DES_CBC"), ("TEST.CIPHER", SINGLE, "DES_CBC"), ("TEST.DATA.16", DOUBLE, "DES3_CBC")):
            it = self.session.key(label)
            for size, cuts in SIZES.items():
                text = data(size)
                wanted = chained(key, IV, text) if size else b""
                for parts in cuts:
                    with self.subTest(how, size=size, parts=parts):
                        self.assertEqual(self.session.cipher("Encrypt", it, mechanism(how, IV), text, parts), wanted)
                        self.assertEqual(self.session.cipher("Decrypt", it, mechanism(how, IV), wanted, parts), text)

    def test_padding(self):
        for label, key, how in (("TEST.DATA", SINGLE, "DES_CBC_PAD"), ("TEST.DATA.16", DOUBLE, "DES3_CBC_PAD")):
            it = self.session.key(label)
            for size, cuts in {**SIZES, 7: (None, 3), 9: (None, 1, 8), 4095: (None,)}.items():
                fill = 8 - size % 8
                text, wanted = data(size), chained(key, IV, data(size) + bytes([fill]) * fill)
                for parts in cuts:
                    with self.subTest(how, size=size, parts=parts):
                        self.assertEqual(self.session.cipher("Encrypt", it, mechanism(how, IV), text, parts), wanted)
                        self.assertEqual(self.session.cipher("Decrypt", it, mechanism(how, IV), wanted, parts), text)

    def test_padding_that_isnt_one(self):
        it = self.session.key("TEST.DATA")
        for end in (bytes(8), b"\0" * 7 + b"\x09", b"\0\0\0\0\0\1\3\3", b"\7\7\7\7\7\7\7\xff"):
            given = chained(SINGLE, IV, data(8) + end)
            self.fails("CKR_ENCRYPTED_DATA_INVALID", self.session.cipher, "Decrypt", it, mechanism("DES_CBC_PAD", IV), given)

    def test_blocks(self):
        for label, key, how in (("TEST.DATA", SINGLE, "DES_ECB"), ("TEST.DATA.16", DOUBLE, "DES3_ECB")):
            it, text = self.session.key(label), data(160)
            wanted = blocks(key, text)
            for parts in (None, 5, 8, 33):
                self.assertEqual(self.session.cipher("Encrypt", it, mechanism(how), text, parts), wanted)
                self.assertEqual(self.session.cipher("Decrypt", it, mechanism(how), wanted, parts), text)

    def test_in_place(self):
        """One buffer for what goes in and what comes out."""
        it, text = self.session.key("TEST.DATA"), data(64)
        room, length = ctypes.create_string_buffer(text, 72), ctypes.c_ulong(72)
        self.session.call("EncryptInit", ctypes.byref(mechanism("DES_CBC_PAD", IV)), it)
        self.session.call("Encrypt", room, 64, room, ctypes.byref(length))
        self.assertEqual(room.raw, chained(SINGLE, IV, text + b"\x08" * 8))

    def macs(self, size):
        """The MACs of some data: the label, the mechanism, its parameter, and what comes."""
        text = data(size)
        end = chained(DOUBLE, bytes(8), text + bytes(-size % 8))[-8:]
        yield "TEST.MAC", "DES_MAC", b"", code(SINGLE, text)[1][:4]
        yield "TEST.DATA.16", "DES3_MAC", b"", end[:4]
        yield "TEST.MAC.16", "CCA_X919_MAC", b"", code(DOUBLE, text)[1][:4]
        for length in (4, 6, 8):
            yield "TEST.MAC", "DES_MAC_GENERAL", length, code(SINGLE, text)[1][:length]
            yield "TEST.DATA.16", "DES3_MAC_GENERAL", length, end[:length]
            yield "TEST.MAC.16", "CCA_X919_MAC_GENERAL", length, code(DOUBLE, text)[1][:length]

    def test_macs(self):
        keys = {label: self.session.key(label) for label in ("TEST.MAC", "TEST.DATA.16", "TEST.MAC.16")}
        for size, cuts in {1: (None,), 8: (None, 3), 9: (None, 8), 24: (8, 1), 4097: (None, 4096)}.items():
            for label, how, parameter, wanted in self.macs(size):
                it, text, name = keys[label], data(size), mechanism(how, parameter)
                for parts in cuts:
                    with self.subTest(how, size=size, parameter=parameter, parts=parts):
                        self.assertEqual(self.session.sign(it, name, text, parts), wanted)
                        self.session.verify(it, name, text, wanted, parts)
                        altered = wanted[:-1] + bytes([wanted[-1] ^ 1])
                        self.fails("CKR_SIGNATURE_INVALID", self.session.verify, it, name, text, altered, parts)

    def test_classes(self):
        """What each key type may do."""
        uses = ("ENCRYPT", "DECRYPT", "SIGN", "VERIFY", "WRAP", "UNWRAP")
        wanted = {"DATA": "1111", "CIPHER": "11", "MAC": "0011", "MACVER": "0001", "EXPORTER": "000010", "IMPORTER": "000001"}
        wanted |= {"OKEYXLAT": "", "IKEYXLAT": ""}
        for label, known in KEYS.items():
            it = self.session.key(label)
            found = "".join(str(self.session.read(it, name)[0]) for name in uses)
            self.assertEqual(found, wanted[known.type].ljust(6, "0"), label)
            kind = {8: "CKK_DES", 16: "CKK_DES2"}[len(known.clear)]
            self.assertEqual(self.session.read(it, "KEY_TYPE"), as_bytes(numbers()[kind]))
            self.assertEqual(self.session.read(it, "CHECK_VALUE").hex(), value(known.clear)[:6])

    def test_types(self):
        """Which key type a template makes."""
        asked = [
            ("DES_KEY_GEN", {}, "DATA"),
            ("DES_KEY_GEN", {"ENCRYPT": True, "DECRYPT": True}, "CIPHER"),
            ("DES_KEY_GEN", {"ENCRYPT": True}, "ENCIPHER"),
            ("DES_KEY_GEN", {"DECRYPT": True}, "DECIPHER"),
            ("DES_KEY_GEN", {"SIGN": True}, "MAC"),
            ("DES_KEY_GEN", {"VERIFY": True}, "MACVER"),
            ("DES_KEY_GEN", {"SIGN": True, "ENCRYPT": True}, "DATA"),
            ("DES2_KEY_GEN", {}, "DATA"),
            ("DES2_KEY_GEN", {"SIGN": False, "VERIFY": False}, "DATAC"),
            ("DES2_KEY_GEN", {"ENCRYPT": True, "SIGN": False}, "DATAC"),
            ("DES2_KEY_GEN", {"SIGN": True, "VERIFY": True, "KEY_TYPE": numbers()["CKK_DES3"]}, "MAC"),
            ("DES2_KEY_GEN", {"VERIFY": True, "SIGN": False}, "MACVER"),
            ("DES2_KEY_GEN", {"WRAP": True}, "EXPORTER"),
            ("DES2_KEY_GEN", {"UNWRAP": True}, "IMPORTER"),
        ]
        for number, (how, attributes, _) in enumerate(asked):
            self.session.generate(how, TOKEN=True, LABEL=f"NEW.{number}".encode(), **attributes)
        for number, (how, _, kind) in enumerate(asked):
            self.assertEqual(self.vector(f"NEW.{number}"), types()[kind][8 if how == "DES_KEY_GEN" else 16].ljust(16, b"\0"), kind)
        for how, attributes in (("DES_KEY_GEN", {"WRAP": True}), ("DES2_KEY_GEN", {"WRAP": True, "UNWRAP": True}), ("DES2_KEY_GEN", {"ENCRYPT": True, "DECRYPT": False})):
            self.fails("CKR_TEMPLATE_INCONSISTENT", self.session.generate, how, **attributes)

    def test_created(self):
        three = DOUBLE + DOUBLE[:8]
        for number, (kind, clear, given, uses) in enumerate(
            [("DATA", SINGLE, SINGLE, {}), ("MAC", SINGLE, SINGLE, {"SIGN": True}), ("DATA", DOUBLE, DOUBLE, {}), ("DATA", DOUBLE, three, {})]
        ):
            name = {8: "CKK_DES", 16: "CKK_DES2", 24: "CKK_DES3"}[len(given)]
            words = {"CLASS": 4, "KEY_TYPE": numbers()[name], "VALUE": given, "TOKEN": True, "LABEL": f"C.{number}".encode()}
            it = self.session.made("CreateObject", *template({**words, **uses}))
            self.assertEqual(self.session.read(it, "CHECK_VALUE").hex(), value(clear)[:6])
            self.assertEqual(self.vector(f"C.{number}"), types()[kind][len(clear)].ljust(16, b"\0"))
        words = {"CLASS": 4, "KEY_TYPE": numbers()["CKK_DES3"], "VALUE": made("three", 24)}
        self.fails("CKR_ATTRIBUTE_VALUE_INVALID", self.session.made, "CreateObject", *template(words))

    def test_external_tokens(self):
        how, out, back = mechanism("CCA_EXTERNAL_TOKEN"), self.session.key("TEST.EXPORTER"), self.session.key("TEST.IMPORTER")
        for label in ("TEST.DATA", "TEST.MAC.16"):
            known = KEYS[label]
            wanted = bytes.fromhex(external(TRANSPORT, known.clear, types()[known.type][len(known.clear)].ljust(16, b"\0")))
            came = self.session.output("WrapKey", ctypes.byref(how), out, self.session.key(label), size=64)
            self.assertEqual(came, wanted)
            it = self.session.made("UnwrapKey", ctypes.byref(how), back, came, 64, *template({"TOKEN": False}))
            self.assertEqual(self.session.read(it, "CHECK_VALUE").hex(), value(known.clear)[:6])
        words = (ctypes.byref(how), back, came, 64)
        self.fails("CKR_TEMPLATE_INCONSISTENT", self.session.made, "UnwrapKey", *words, *template({"ENCRYPT": True}))
        altered = bytes([2, *came[1:59], came[59] ^ 1, *came[60:]])
        self.fails("CKR_WRAPPED_KEY_INVALID", self.session.made, "UnwrapKey", ctypes.byref(how), back, altered, 64, None, 0)
        self.fails("CKR_WRAPPED_KEY_LEN_RANGE", self.session.made, "UnwrapKey", ctypes.byref(how), back, came, 63, None, 0)
        self.fails("CKR_KEY_FUNCTION_NOT_PERMITTED", self.session.output, "WrapKey", ctypes.byref(how), back, it, size=64)
        self.fails("CKR_BUFFER_TOO_SMALL", self.session.output, "WrapKey", ctypes.byref(how), out, it, size=63)

    def test_never_exported(self):
        """A key whose template forbids export is stored as one that forbids it."""
        it = self.session.generate("DES_KEY_GEN", TOKEN=True, LABEL=b"KEPT", EXTRACTABLE=False, SIGN=True)
        self.assertEqual(self.session.read(it, "EXTRACTABLE"), b"\0")
        how, out = mechanism("CCA_EXTERNAL_TOKEN"), self.session.key("TEST.EXPORTER")
        self.fails("CKR_KEY_UNEXTRACTABLE", self.session.output, "WrapKey", ctypes.byref(how), out, it, size=64)
        self.assertEqual(self.vector("KEPT"), closed(types()["MAC"][8].ljust(16, b"\0")))

    def test_copied(self):
        it = self.session.generate("DES2_KEY_GEN", SIGN=True)
        copy = self.session.made("CopyObject", it, *template({"TOKEN": True, "LABEL": b"COPY"}))
        self.assertEqual(self.session.read(copy, "CHECK_VALUE"), self.session.read(it, "CHECK_VALUE"))
        self.assertEqual(self.vector("COPY"), types()["MAC"][16])

    def without(self, point):
        """Begins anew under a role that has all points but one."""
        self.end()
        request = f"CSUAACI role=DEFAULT action=DEFINE name=MAKER points={0x1FFFFFFF & ~point:08x}"
        self.assertEqual(self.ask([request], self.folder / "keys"), ["OK"])
        self.begin(f"{self.folder / 'keys'}=MAKER")

    def test_nothing_left(self):
        """A key that can't be stored leaves no label."""
        self.without(0x10000)  # KRW
        self.fails("CKR_USER_NOT_LOGGED_IN", self.session.generate, "DES_KEY_GEN", TOKEN=True, LABEL=b"NEW")
        self.end()
        self.assertEqual(self.ask(["CSNBKRL role=DEFAULT prefix=NEW"], self.folder / "keys"), ["OK count=0 labels="])

    def test_entered_in_parts(self):
        """A clear key comes in without the point CKI too, where the role may enter key parts."""
        self.without(0x20)
        words = {"CLASS": 4, "KEY_TYPE": numbers()["CKK_DES"], "VALUE": SINGLE}
        it = self.session.made("CreateObject", *template(words))
        self.assertEqual(self.session.read(it, "CHECK_VALUE").hex(), value(SINGLE)[:6])

    def test_session_objects(self):
        """What was made without CKA_TOKEN is seen by all sessions, and gone with its own."""
        one, two = Session(), Session()
        held = one.generate("DES_KEY_GEN", LABEL=b"held", ID=b"7")
        self.assertEqual([two.search(LABEL=b"held"), two.search(ID=b"7"), two.search(TOKEN=False)], [[held]] * 3)
        self.assertEqual([two.read(held, name) for name in ("TOKEN", "LOCAL", "LABEL", "ID")], [b"\0", b"\1", b"held", b"7"])
        one.close()
        self.assertEqual(two.search(LABEL=b"held"), [])
        self.fails("CKR_OBJECT_HANDLE_INVALID", two.read, held, "LABEL")

    def test_killed(self):
        """Where cca was killed, a call says so, and the next one starts it again."""
        it, how = self.session.key("TEST.DATA"), mechanism("DES_CBC", IV)
        (pid,) = children(Path(self.program.path).name)
        os.kill(pid, signal.SIGKILL)
        with self.assertRaisesRegex(Failed, "CKR_DEVICE_(REMOVED|ERROR)"):
            self.session.cipher("Encrypt", it, how, data(8))
        self.assertEqual(self.session.cipher("Encrypt", it, how, data(8)), chained(SINGLE, IV, data(8)))

    def test_random(self):
        came = []
        for size in (0, 1, 8, 15, 64):
            room = ctypes.create_string_buffer(size + 1)
            self.session.call("GenerateRandom", room, size)
            came.append(room.raw[:size])
        self.assertNotIn(bytes(15), came)
        self.assertNotEqual(came[4][:32], came[4][32:])


class Places(Token):
    """Which slots there are."""

    def begun(self, places):
        """What C_Initialize comes to over these places, and how many slots there are then."""
        os.environ.update(self.environment, CCA_PKCS11=places)
        it, count = ctypes.CDLL(str(built())), ctypes.c_ulong()
        came = it.C_Initialize(None), it.C_GetSlotList(0, None, ctypes.byref(count)), count.value
        it.C_Finalize(None)
        return came

    def test_right(self):
        for places, count in (("", 0), ("/a=TELLER", 1), ("/a=A:/b=B,DES3:/a=C,AUDIT,DES3", 3), (":/a=A:", 1), ("/a=b=A", 1)):
            self.assertEqual(self.begun(places), (0, 0, count), places)

    def test_wrong(self):
        off = numbers()["CKR_CRYPTOKI_NOT_INITIALIZED"]
        for places in ("/a", "=A", "/a=", "/a=a", "/a=A,des3", "/a=TOOLONGROLE", "/a=1A", "/a=" + "A" * 3000, "/a" * 600 + "=A", ":".join(["/a=A"] * 33)):
            self.assertEqual(self.begun(places), (numbers()["CKR_GENERAL_ERROR"], off, 0), places[:40])


    def test_absent(self):
        """Where there is no socket, there is no token, until it is there; a program may be named from the folder of the caller."""
        os.environ.update(self.environment, CCA_PKCS11=f"{self.folder / 'absent'}=A:{self.folder / 'keys'}=DEFAULT", CCA="./named")
        (self.folder / "named").symlink_to(self.program.path)
        it, found, count = ctypes.CDLL(str(built())), (ctypes.c_ulong * 2)(), ctypes.c_ulong(2)
        with contextlib.chdir(self.folder):
            Session.check(it.C_Initialize(None))
        self.addCleanup(it.C_Finalize, None)
        os.environ["CCA"] = "another"  # what was named once is kept
        Session.check(it.C_GetSlotList(1, found, ctypes.byref(count)))
        self.assertEqual((count.value, found[0]), (1, 1))
        self.fails("CKR_TOKEN_NOT_PRESENT", Session)
        self.assertEqual(len(Session(1).search()), len(KEYS))


class Answering:
    """What stands for a front: it answers each line as it is told, over a socket."""

    def __init__(self, path, reply):
        self.reply, self.lines = reply, []
        self.listener = socket.socket(socket.AF_UNIX)
        self.listener.bind(str(path))
        self.listener.listen(20)
        threading.Thread(target=self.run, daemon=True).start()

    def run(self):
        while True:
            try:
                peer = self.listener.accept()[0]
            except OSError:
                return
            threading.Thread(target=self.serve, args=(peer,), daemon=True).start()

    def serve(self, peer):
        with peer, peer.makefile("rb") as lines, contextlib.suppress(OSError):
            for line in lines:
                peer.sendall(self.reply(line.decode()) if callable(self.reply) else self.reply)

    def close(self):
        with contextlib.suppress(OSError):
            self.listener.shutdown(socket.SHUT_RDWR)
        self.listener.close()


class Answered(Token):
    """The module over a socket whose replies are made up."""

    def setUp(self):
        super().setUp()
        self.front = Answering(self.folder / "socket", b"NO 01 -\n")
        self.addCleanup(self.front.close)
        os.environ.update(self.environment, CCA_PKCS11=f"{self.folder / 'socket'}=TELLER")
        self.library = ctypes.CDLL(str(built()))
        Session.check(self.library.C_Initialize(None))
        self.addCleanup(self.library.C_Finalize, None)
        self.session = Session()

    def random(self):
        self.session.call("GenerateRandom", ctypes.create_string_buffer(8), 8)


class Codes(Answered):
    """The table of the page is what the module does."""

    def test_table(self):
        table = PAGE.read_text().partition("\n## Errors\n")[2].partition("\n## ")[0]
        seen = []
        for rules, wanted in re.findall(r"^\| ([0-9, to]+) \| `(CKR_\w+)`", table, re.MULTILINE):
            for first, last in re.findall(r"(\d\d)(?: to (\d\d))?", rules):
                for rule in range(int(first), int(last or first) + 1):
                    self.front.reply = f"NO {rule:02} -\n".encode()
                    self.fails(wanted, self.random)
                    seen.append(rule)
        self.assertEqual(sorted(seen), list(range(1, 37)))

    def test_device_error(self):
        """The rule is told as the error of the device, until a request isn't refused."""
        info = (ctypes.c_ulong * 4)()
        for reply, wanted in ((b"NO 04 -\n", 4), (b"OK random=0011223344556677\n", 0)):
            self.front.reply = reply
            try:
                self.random()
            except Failed:
                pass
            self.session.call("GetSessionInfo", info)
            self.assertEqual(info[3], wanted)


class Replies(Answered):
    """Replies that no request can have harm nothing, and are no success."""

    def label(self, reply):
        """Replies to a list of labels, of which each token is this."""
        return lambda line: b"OK count=1 labels=A\n" if line.startswith("CSNBKRL") else reply

    def test_lists(self):
        many = ",".join(f"L{number}" for number in range(3000))
        for labels, count in (("A,B", 3), ("a", 1), ("A" * 65, 1), (",", 2), ("A,", 2), (many, 3000), ("=", 1), ("A" * 40000, 1)):
            token = b"OK token=" + b"00" * 64 + b"\n"
            self.front.reply = lambda line: f"OK count={count} labels={labels}\n".encode() if "KRL" in line else token
            with self.assertRaises(Failed) as raised:
                self.session.search()
            self.assertIn(str(raised.exception), ("CKR_DEVICE_ERROR", "CKR_HOST_MEMORY"), labels[:70])

    def test_tokens(self):
        for number in range(64):
            token = bytes(32) + made(f"token {number}", 32)
            self.front.reply = self.label(b"OK token=" + token.hex().encode() + b"\n")
            self.assertLessEqual(len(self.session.search()), 1)

    def test_data(self):
        token = bytes(32) + types()["DATA"][8].ljust(32, b"\0")
        self.front.reply = self.label(b"OK token=" + token.hex().encode() + b"\n")
        it = self.session.search()[0]
        for reply in (b"OK\n", b"OK text=\n", b"OK text=00\n", b"OK text=" + b"00" * 17 + b"\n", b"OK text=" + b"00" * 4000 + b"\n", b"\n", b"OK text=" + b"zz" * 16 + b"\n", b"OK mac=\n", b"\0" * 100 + b"\n", b"OK" * 50000):
            for name in ("Encrypt", "Decrypt"):
                self.front.reply = reply
                self.fails("CKR_DEVICE_ERROR", self.session.cipher, name, it, mechanism("DES_CBC", IV), data(16))
            self.front.reply = reply
            self.fails("CKR_DEVICE_ERROR", self.session.sign, it, mechanism("DES_MAC"), data(16))

    def test_keys(self):
        for reply in (b"OK\n", b"OK token1=00\n", b"OK stored=A\n", b"OK token=" + b"00" * 65 + b"\n"):
            self.front.reply = reply
            self.fails("CKR_DEVICE_ERROR", self.session.generate, "DES_KEY_GEN")
            self.front.reply = reply
            words = {"CLASS": 4, "KEY_TYPE": numbers()["CKK_DES"], "VALUE": SINGLE}
            self.fails("CKR_DEVICE_ERROR", self.session.made, "CreateObject", *template(words))

    def any_reply(self, line):
        """A reply that may be one to this line, or to another one, or to none."""
        token, text = self.chance.randbytes(32) + self.chance.choice(self.vectors), self.chance.randbytes(8 * self.chance.randrange(4))
        labels = [f"L{self.chance.randrange(30)}" for _ in range(self.chance.randrange(4))]
        fields = [f"token={token.hex()}", f"token1={token.hex()}", f"text={text.hex()}", f"mac={text[:4].hex()}", "match=yes", "value=00112233"]
        fields += [f"count={len(labels)} labels={','.join(labels)}", f"text= chain={text[:16].hex()}", "stored=NEW", f"random={text[:8].hex()}", ""]
        wanted = {"CSNBKRL": 6, "CSNBKRR": 0, "CSNBKGN": 1, "CSNBENC": 2, "CSNBDEC": 2, "CSNBKEX": 0, "CSNBKIM": 0, "CSNBKYT": 5, "CSNBRNG": 9}
        number = wanted.get(line.split()[0], 10) if self.chance.random() < 0.8 else self.chance.randrange(len(fields))
        refusal = f"NO {self.chance.randrange(1, 37):02} -\n"
        return (f"OK {fields[number]}".strip() + "\n" if self.chance.random() < 0.8 else refusal).encode()

    def any_call(self):
        """A call with what comes: its name, and its words behind the session."""
        chance = self.chance
        room, length = ctypes.create_string_buffer(80), ctypes.byref(ctypes.c_ulong(chance.choice((0, 3, 8, 64, 80))))
        names = chance.sample(sorted(self.attributes), chance.randrange(4))
        attributes = {name: self.attributes[name] for name in names}
        how = ctypes.byref(mechanism(chance.choice(self.mechanisms), chance.choice((b"", IV, 4, 9, bytes(7)))))
        key, text = chance.randrange(20), chance.randbytes(chance.randrange(30))
        made, out = ctypes.byref(ctypes.c_ulong()), chance.choice((None, room))
        init = chance.choice(("EncryptInit", "DecryptInit", "SignInit", "VerifyInit"))
        return chance.choice(
            (
                (init, how, key),
                (init, how, key),
                (chance.choice(("Encrypt", "EncryptUpdate", "Decrypt", "DecryptUpdate", "Sign")), text, len(text), out, length),
                (chance.choice(("EncryptFinal", "DecryptFinal", "SignFinal")), out, length),
                (chance.choice(("SignUpdate", "VerifyUpdate")), text, len(text)),
                ("Verify", text, len(text), room, chance.choice((0, 4, 8))),
                ("GenerateKey", how, *template(attributes), made),
                ("CreateObject", *template({"CLASS": 4, **attributes}), made),
                ("CopyObject", key, *template(attributes), made),
                ("UnwrapKey", how, key, room, chance.choice((63, 64)), *template(attributes), made),
                ("WrapKey", how, key, chance.randrange(20), out, length),
                ("DestroyObject", key),
                ("FindObjectsInit", *template(attributes)),
                ("FindObjectsInit", None, 0),
                ("FindObjects", room, 10, made),
                ("FindObjectsFinal",),
                ("GetAttributeValue", key, *template(attributes)),
                ("GenerateRandom", room, chance.randrange(20)),
            )
        )

    def test_any(self):
        """Whatever is called and replied, each call comes to a code of the standard."""
        self.chance = random.Random(11)
        self.vectors = [it.ljust(16, b"\0") + bytes(16) for kind in types().values() for it in kind.values()] + [bytes(32), b"\xff" * 32]
        self.mechanisms = [name.removeprefix("CKM_") for name in numbers() if re.match("CKM_(DES|CCA)", name)]
        self.attributes = {"LABEL": b"NEW", "ID": b"L1", "TOKEN": True, "EXTRACTABLE": False, "ENCRYPT": True, "SIGN": True, "WRAP": True}
        self.attributes |= {"KEY_TYPE": numbers()["CKK_DES"], "VALUE": SINGLE, "VALUE_LEN": 8, "CHECK_VALUE": b"", "MODULUS": b"1", "CLASS": 4}
        self.front.reply = self.any_reply
        sessions = [Session() for _ in range(3)]
        for turn in range(3000):
            try:
                self.chance.choice(sessions).call(*self.any_call())
            except Failed as failed:
                self.assertIn(str(failed), codes().values(), turn)

    def test_no_front(self):
        self.front.close()
        (self.folder / "socket").unlink()
        self.fails("CKR_DEVICE_REMOVED", self.random)


class Front(Token):
    """Roles over the sockets of a front."""

    def setUp(self):
        super().setUp()
        self.places = {role: f"{self.folder / role}.socket={role}" for role in ("TELLER", "OFFICER", "DEFAULT")}
        self.front = self.started()

    def started(self):
        """A front that is ready."""
        log = self.folder / "front.log"
        words = [sys.executable, "-B", FRONT, self.folder / "keys", *self.places.values()]
        with open(log, "wb") as errors:
            it = subprocess.Popen(words, env={**os.environ, "CCA": self.program.path}, stderr=errors)
        self.addCleanup(it.wait)
        self.addCleanup(it.terminate)
        while '"ready"' not in log.read_text():
            self.assertIsNone(it.poll(), log.read_text())
            time.sleep(0.05)
        return it

    def begin(self, *roles):
        os.environ.update(CCA_PKCS11=":".join(self.places[role] for role in roles))
        self.library = ctypes.CDLL(str(built()))
        Session.check(self.library.C_Initialize(None))
        self.addCleanup(self.library.C_Finalize, None)
        return [Session(slot) for slot in range(len(roles))]

    def test_roles(self):
        teller, officer, default = self.begin("TELLER", "OFFICER", "DEFAULT")
        self.assertEqual(len(default.search()), len(KEYS))
        self.assertEqual(teller.search(), [])  # it may not list labels, but finds a key by its label
        it = teller.key("TEST.DATA")
        self.assertEqual(teller.cipher("Encrypt", it, mechanism("DES_CBC", IV), data(24)), chained(SINGLE, IV, data(24)))
        self.assertEqual(teller.read(it, "KEY_TYPE"), as_bytes(numbers()["CKK_DES"]))
        self.assertEqual(teller.read(teller.key("TEST.MAC.16"), "KEY_TYPE"), as_bytes(numbers()["CKK_DES2"]))
        self.assertEqual(teller.sign(teller.key("TEST.MAC"), mechanism("DES_MAC"), data(9)), code(SINGLE, data(9))[1][:4])
        self.assertEqual([teller.read(teller.key("TEST.MACVER"), name) for name in ("SIGN", "VERIFY", "ENCRYPT")], [b"\0", b"\1", b"\0"])
        self.assertEqual(teller.search(LABEL=b"NONE"), [])
        self.fails("CKR_USER_NOT_LOGGED_IN", teller.generate, "DES_KEY_GEN")
        how = mechanism("CCA_EXTERNAL_TOKEN")
        wrapped = officer.output("WrapKey", ctypes.byref(how), officer.key("TEST.EXPORTER"), officer.key("TEST.DATA"), size=64)
        self.assertEqual(wrapped.hex(), external(TRANSPORT, SINGLE, types()["DATA"][8].ljust(16, b"\0")))
        self.fails("CKR_USER_NOT_LOGGED_IN", teller.made, "UnwrapKey", ctypes.byref(how), teller.key("TEST.IMPORTER"), wrapped, 64, None, 0)

    def test_destroyed_by_another(self):
        """What has gone from the store is no object any more."""
        officer, default = self.begin("OFFICER", "DEFAULT")
        it = default.key("TEST.CIPHER")
        officer.call("DestroyObject", officer.key("TEST.CIPHER"))
        self.fails("CKR_KEY_HANDLE_INVALID", default.cipher, "Encrypt", it, mechanism("DES_CBC", IV), data(8))
        self.fails("CKR_OBJECT_HANDLE_INVALID", default.call, "DestroyObject", it)
        it = default.key("TEST.MACVER")
        officer.call("DestroyObject", officer.key("TEST.MACVER"))
        self.assertEqual(len(default.search()), len(KEYS) - 2)
        self.fails("CKR_OBJECT_HANDLE_INVALID", default.read, it, "LABEL")

    def test_threads_and_forks(self):
        for what in ("threads", "shared_forks"):
            self.environment["CCA_PKCS11"] = self.places["DEFAULT"]
            self.assertEqual(self.tool(caller(), what, built()), "")

    def test_front_that_begins_again(self):
        """A call says that the front has gone; the next one reaches a new front, with the same session and key."""
        (teller,) = self.begin("TELLER")
        it, how = teller.key("TEST.DATA"), mechanism("DES_CBC", IV)
        self.front.terminate()
        self.assertEqual(self.front.wait(60), 0)
        self.fails("CKR_DEVICE_REMOVED", teller.cipher, "Encrypt", it, how, data(8))
        self.front = self.started()
        self.assertEqual(teller.cipher("Encrypt", it, how, data(8)), chained(SINGLE, IV, data(8)))


class Programs(Token):
    """Programs that others wrote."""

    def needs(self, *names):
        for name in names:
            if not shutil.which(name):
                self.skipTest(f"{name} isn't installed")

    def pkcs11_tool(self, *words):
        return self.tool("pkcs11-tool", "--module", built(), *words)

    def test_pkcs11_tool(self):
        self.needs("pkcs11-tool")
        self.assertRegex(self.pkcs11_tool("-L"), r"(?s)token label +: DEFAULT\n.*token model +: CCA DES\n")
        self.assertEqual(set(re.findall(r"label: +(\S+)", self.pkcs11_tool("-O"))), set(KEYS))
        self.assertIn("DES-KEY-GEN, keySize={8,8}, generate\n", self.pkcs11_tool("-M"))
        self.assertIn("Key generated:\n", self.pkcs11_tool("--keygen", "--key-type", "DES:8", "--label", "NEW"))
        self.assertRegex(self.pkcs11_tool("-O", "--type", "secrkey", "--label", "NEW"), r"(?s)DES length 8\n.*sensitive")
        self.pkcs11_tool("--delete-object", "--type", "secrkey", "--label", "NEW")
        self.assertNotIn("NEW", self.pkcs11_tool("-O"))
        self.assertEqual(len(self.tool("pkcs11-tool", "--module", built(), "--generate-random", "32", "--output-file", "random")), 0)
        self.assertEqual((self.folder / "random").stat().st_size, 32)

    def test_pkcs11_tool_tests(self):
        """Its own tests, as far as they go without key pairs."""
        self.needs("pkcs11-tool")
        told = self.pkcs11_tool("--test", "--login", "--pin", "1")
        self.assertIn("No errors\n", told)
        self.assertRegex(told, r"C_GenerateRandom\(\):\n.*\n +seems to be OK\n")

    def test_p11tool(self):
        self.needs("p11tool")
        told = self.tool("p11tool", "--provider", built(), "--list-tokens")
        url = re.search(r"URL: (\S+)", told)[1]
        self.assertIn("token=DEFAULT", url)
        told = self.tool("p11tool", "--provider", built(), "--list-all", url)
        self.assertEqual(set(re.findall(r"Label: (\S+)", told)), set(KEYS))
        self.assertIn("CKM_DES_CBC_PAD", self.tool("p11tool", "--provider", built(), "--list-mechanisms", url))

    def test_p11_kit(self):
        """The file beside the module is one of p11-kit's, which takes such files from the folder of a user who isn't root."""
        self.needs("p11-kit")
        home = Path(tempfile.mkdtemp())
        self.addCleanup(shutil.rmtree, home)
        home.chmod(0o755)
        modules = home / ".config" / "pkcs11" / "modules"
        modules.mkdir(parents=True)
        shutil.copy(built(), home)
        self.environment["MODULE"] = str(home / built().name)
        self.tool(SOURCES / "build", self.folder / "made")
        shutil.copy(self.folder / "made" / "cca-pkcs11.module", modules)
        self.environment = {"HOME": str(home), "XDG_CONFIG_HOME": str(home / ".config"), "CCA_PKCS11": f"{home}=TELLER"}
        other = {"user": 65534, "group": 65534, "extra_groups": []} if os.geteuid() == 0 else {}
        told = self.tool("p11-kit", "list-modules", **other, cwd=home)
        self.assertRegex(told, rf"(?s)cca-pkcs11: {home / built().name}\n.*    token: TELLER\n")

    def test_java(self):
        """Java's own provider: its key store, ciphers, generation, and a clear key."""
        self.needs("java", "javac")
        if "crypto.cryptoki" not in self.tool("java", "--list-modules"):
            self.skipTest("this Java has no PKCS#11")
        self.environment["CCA_PKCS11"] += ",DES3"
        (self.folder / "cca.cfg").write_text(f"name = cca\nlibrary = {built()}\nslotListIndex = 0\n")
        text, words = data(23), ["java", TOP / "tests" / "pkcs11" / "Keys.java", "cca.cfg"]
        told = self.tool(*words, text.hex(), IV.hex(), DOUBLE.hex()).splitlines()
        single = chained(SINGLE, IV, text + b"\1").hex()
        double = chained(DOUBLE, IV, text + b"\1").hex()
        wanted = [f"aliases {' '.join(sorted(KEYS))}", f"DES {single}", f"DESede {double}", f"clear {double}", f"ECB {blocks(DOUBLE, text[:16]).hex()}"]
        self.assertEqual(told, [*wanted, "generated as before", "stored DESede", "deleted", "random 16"])


class Planted(Case):
    def test_each_is_found(self):
        each_is_found(self, "pkcs11", EDITS)


class Sanitized(Case):
    def test_whole_suite(self):
        """All but p11-kit's own list, which waits for ever under the sanitizers, while it loads another module."""
        sanitized(self, "pkcs11", [Calls, Values, Places, Codes, Replies, Front, Programs], ["test_p11_kit"])


del Token, Loaded, Answered
