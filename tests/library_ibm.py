"""The verbs by IBM's signatures, clients/c/csnb.h: each verb against the program, with what OpenSSL makes of keys and data; each return code
and each reason; the programs of examples/c; and once more under the sanitizers of addresses and of undefined behaviour.
"""
import ctypes
import os
import re
import shutil
import subprocess
import unittest

from tests.c_library import DOUBLE, EVERY, IV, MASTER, NEXT, SANITIZERS, SINGLE, SOURCES, TRANSPORT, Library, called, chained, code, compiled, csnb
from tests.c_library import data, declared, identifier, key_token, library, padded, room, sanitized, vector, words_of
from tests.edits import Edit, each_is_found
from tests.formats import as_part, closed, external, internal, joined, made, pattern, types, unique, validation, value
from tests.harness import EXAMPLES, TOP, Case, Fault

FAULTS = [Fault('"$CCA" "$@" | sed -u "s/^NO 07/NO 08/"', case="Ibm.test_storage", tells=r"\(8, 8\) != \(8, 7\)")]
# Each takes away what one of these cases asks for.
EDITS = [
    Edit("clients/c/csnb_call.c", "it->used |= 1u << at;", "it->used = (1u << it->count) - 1;", "Ibm.test_reasons"),
    Edit("clients/c/csnb_call.c", "came.is_old ? CSNB_OLD_KEY : 0", "0", "Ibm.test_old"),
    Edit("clients/c/csnb_call.c", "        it->code = 0;\n", "        it->code = came.is_old ? 4 : 0;\n", "Ibm.test_old"),
    Edit("clients/c/csnb_call.c", "came.is_in_doubt ? CSNB_IN_DOUBT", "0 ? CSNB_IN_DOUBT", "Ibm.test_ended"),
    Edit("clients/c/csnb.c", "        it.reason = 0; /*", "        (void)it; /*", "Ibm.test_old"),
    Edit("clients/c/csnb_call.c", "path[0] == '/' ||", "path[0] ||", "Programs.test_paths"),
    Edit("clients/c/csnb.c", "put_chain(chaining_vector, last);", "put_chain(chaining_vector, clear_text);", "Ibm.test_chaining"),
    Edit("clients/c/csnb.c", "memcmp(verification_pattern, value, 4) != 0", "0", "Ibm.test_check_values"),
    Edit("clients/c/csnb.c", "memset(random_number, 0, length);", "(void)length;", "Ibm.test_random_of_any_length"),
    Edit("clients/c/csnb.c", "cca_record_write(it->cca, label, changed)", "cca_record_write(it->cca, label, token)", "Ibm.test_changed_under_labels"),
    Edit("clients/c/csnb_reason.c", "found = nearest[*reason];", "found = nearest[1];", "Reasons.test_ibms"),
    Edit("clients/c/csnb_facility.c", "came.rule == 5)", "came.rule == 7)", "Ibm.test_facility"),
    Edit("clients/c/csnb_tokens.c", "change_halves(whole + 32, 5, PART);", "(void)0;", "Ibm.test_tokens_without_a_key"),
]


def mutable(number):
    return ctypes.c_long(number)


def not_here():
    """The verbs that docs/FROM-IBM.md names as those that aren't here."""
    section = (TOP / "docs" / "FROM-IBM.md").read_text().partition("\n## Verbs that aren't here\n")[2].partition("\n## ")[0]
    return {name for row in re.findall(r"(?m)^\| (CS[^|]*) \|", section) for name in row.split(", ")}


class Ibm(Library):
    """Each verb by IBM's signature."""

    def setUp(self):
        super().setUp()
        library().csnb_use(ctypes.byref(self.cca.it))
        self.addCleanup(library().csnb_use, None)

    def is_done(self, came):
        self.assertEqual(came, (0, 0), library().csnb_reason(*came))

    def begun(self):
        for words, part in ((("FIRST",), MASTER), (("SYM-MK", "LAST"), bytes(24)), (("SET",), None)):
            self.is_done(csnb("CSNBMKP", *words_of(*words), part))

    def held(self, name, key, kind):
        self.is_done(csnb("CSNBKRC", identifier(name)))
        self.is_done(csnb("CSNBKRW", key_token(key, kind), identifier(name)))
        return identifier(name)

    def test_master_keys_and_roles(self):
        self.is_done(csnb("CSNBMKP", *words_of("FIRST"), MASTER))
        self.is_done(csnb("CSNBMKP", *words_of("CLEAR"), None))
        self.begun()
        self.assertEqual(csnb("CSNBMKP", *words_of("SET"), None), (8, 25))
        define = [ctypes.byref(mutable(8)), b"TELLER  ", ctypes.byref(mutable(4)), b"\0\0\0\x0f"]
        self.is_done(csnb("CSUAACI", *words_of("DEFINE"), *define))
        self.is_done(csnb("CSUAACI", *words_of("REMOVE"), *define[:2], None, None))
        self.assertEqual(csnb("CSUAACI", *words_of("REMOVE"), *define[:2], None, None), (8, 30))
        self.assertEqual(csnb("CSUAACI", *words_of("INIT-AC"), *define), (8, 103))

    def test_storage(self):
        self.begun()
        held = room(64)
        self.held("PAY.A", SINGLE, "DATA")
        self.is_done(csnb("CSNBKRR", identifier("PAY.A"), held))
        self.assertEqual(held.raw, key_token(SINGLE, "DATA"))
        self.assertEqual(csnb("CSNBKRC", identifier("PAY.A")), (8, 29))
        os.environ["CSUDESLD"] = str(self.folder)
        self.addCleanup(os.environ.pop, "CSUDESLD", None)
        length, path = mutable(0), room(64)
        if len(str(self.folder)) < 50:
            self.is_done(csnb("CSNBKRL", identifier("PAY.*"), ctypes.byref(length), path, room(8)))
            with open(path.raw[: length.value]) as lines:
                self.assertEqual(lines.read(), "PAY.A\n")
        self.assertEqual(csnb("CSNBKRL", identifier("PAY.A"), ctypes.byref(length), path, room(8)), (8, 106))
        self.is_done(csnb("CSNBKRD", *words_of("LABEL-DL"), identifier("PAY.A")))
        self.assertEqual(csnb("CSNBKRD", *words_of("LABEL-DL"), identifier("PAY.A")), (8, 7))
        self.assertEqual(csnb("CSNBKRR", identifier("PAY.A"), held), (8, 7))

    def test_clear_keys_and_parts(self):
        self.begun()
        target = identifier()
        self.is_done(csnb("CSNBCKI", SINGLE, target))
        self.assertEqual(target.raw, key_token(SINGLE, "DATA"))
        self.held("A", DOUBLE, "MAC")
        self.is_done(csnb("CSNBCKI", SINGLE, identifier("A")))
        for words, size, came in (((), 8, (0, 0)), (("DES",), 8, (0, 0)), (("DES",), 16, (8, 107)), (("AES",), 8, (8, 103))):
            target = identifier()
            self.assertEqual(csnb("CSNBCKM", *words_of(*words), ctypes.byref(mutable(size)), DOUBLE, target), came)
            self.assertEqual(target.raw, key_token(DOUBLE[:8], "DATA") if came == (0, 0) else bytes(64))
        self.is_done(csnb("CSNBCKM", *words_of(), ctypes.byref(mutable(8)), SINGLE, identifier("A")))
        for kind, size in (("EXPORTER", 16), ("CIPHER", 8)):
            parts = [made(f"part {it}", size) for it in range(3)]
            key = identifier()
            self.assertEqual(library().csnb_skeleton(kind.encode(), size, key), 0)
            for rule, part in zip(("FIRST", "MIDDLE", "LAST"), parts):
                if rule == "LAST":  # by a label
                    self.is_done(csnb("CSNBKRC", identifier(kind)))
                    self.is_done(csnb("CSNBKRW", key, identifier(kind)))
                    key = identifier(kind)
                self.is_done(csnb("CSNBKPI", *words_of(rule), part + bytes(16 - size), key))
            held = room(64)
            self.is_done(csnb("CSNBKRR", identifier(kind), held))
            self.assertEqual(held.raw, key_token(joined(*parts), kind))
        self.assertEqual(library().csnb_skeleton(b"CIPHER", 16, key), -1)
        self.assertEqual(csnb("CSNBKPI", *words_of("FIRST"), bytes(16), identifier("EXPORTER")), (8, 105))

    def test_generated(self):
        self.begun()
        exporter = self.held("OUT", TRANSPORT, "EXPORTER")
        one, two = identifier(), identifier()
        nothing = identifier()
        self.is_done(csnb("CSNBKGN", b"OP  ", b"KEYLN16 ", b"MAC     ", None, nothing, nothing, one, None))
        self.assertEqual(one.raw[32:48], vector("MAC", 16))
        self.is_done(csnb("CSNBKRC", identifier("MADE")))
        self.is_done(csnb("CSNBKGN", b"OPEX", b"DOUBLE-O", b"DATA    ", b"DATA    ", nothing, exporter, identifier("MADE"), two))
        self.assertEqual(two.raw[32:48], unique(vector("DATA", 16)))
        self.is_done(csnb("CSNBKGN", b"EXEX", b"SINGLE  ", b"MAC     ", b"MACVER  ", exporter, exporter, one, two))
        self.assertEqual((one.raw[32:48], two.raw[32:48]), (vector("MAC", 8), vector("MACVER", 8)))
        for words, reason in (
            ((b"OPOP", b"KEYLN8  ", b"DATA    "), 109),
            ((b"OP  ", b"KEYLN24 ", b"DATA    "), 109),
            ((b"OP  ", b"KEYLN8  ", b"PINGEN  "), 109),
            ((b"OP  ", b"KEYLN8  ", b"EXPORTER"), 32),
        ):
            self.assertEqual(csnb("CSNBKGN", *words, None, nothing, nothing, one, None), (8, reason))
        self.assertEqual(csnb("CSNBKGN", b"OPEX", b"KEYLN8  ", b"DATA    ", b"MAC     ", nothing, exporter, one, two), (8, 24))

    def test_moved(self):
        self.begun()
        exporter, importer = self.held("OUT", TRANSPORT, "EXPORTER"), self.held("IN", TRANSPORT, "IMPORTER")
        out, back, source = identifier(), identifier(), identifier(key_token(DOUBLE, "MAC"))
        self.is_done(csnb("CSNBKEX", b"MAC     ", source, exporter, out))
        self.assertEqual(out.raw.hex(), external(TRANSPORT, DOUBLE, vector("MAC", 16)))
        self.assertEqual(csnb("CSNBKEX", b"DATA    ", source, exporter, back), (8, 109))
        self.assertEqual(back.raw, bytes(64))
        self.is_done(csnb("CSNBKEX", b"TOKEN   ", source, exporter, out))
        self.is_done(csnb("CSNBKIM", b"TOKEN   ", out, importer, back))
        self.assertEqual(back.raw, source.raw)
        self.assertEqual(csnb("CSNBKIM", b"CIPHER  ", out, importer, back), (8, 109))
        first, second = self.held("FROM", TRANSPORT, "IKEYXLAT"), self.held("TO", TRANSPORT[::-1], "OKEYXLAT")
        self.is_done(csnb("CSNBKTR", out, first, second, back))
        self.assertEqual(back.raw.hex(), external(TRANSPORT[::-1], DOUBLE, vector("MAC", 16)))
        self.is_done(csnb("CSNBPEX", source))
        self.assertEqual(source.raw.hex(), internal(MASTER, DOUBLE, closed(vector("MAC", 16))))
        self.assertEqual(csnb("CSNBKEX", b"TOKEN   ", source, exporter, out), (8, 21))
        self.is_done(csnb("CSNBPEX", exporter))

    def test_check_values(self):
        self.begun()
        key, found = self.held("A", DOUBLE, "MAC"), room(8)
        self.is_done(csnb("CSNBKYT", *words_of("KEY-ENCD", "GENERATE", "ENC-ZERO"), key, room(8), found))
        self.assertEqual(found.raw.hex(), value(DOUBLE) + "00000000")
        verify = words_of("KEY-ENC", "VERIFY", "ENC-ZERO")
        self.is_done(csnb("CSNBKYT", *verify, key, room(8), found))
        self.assertEqual(csnb("CSNBKYT", *verify, key, room(8), bytes(8)), (4, 1))

    def test_parsed(self):
        self.begun()
        kind, count, words, halves, vectors, verification = room(8), mutable(5), room(40), room(16), room(16), room(8)
        unused = [None] * 3
        given = key_token(DOUBLE, "MACVER")
        read = [kind, ctypes.byref(count), words, halves, *unused, vectors, *unused, verification]
        self.is_done(csnb("CSNBKTP", given, *read))
        self.assertEqual((kind.raw, count.value, words.raw[:24]), (b"MAC     ", 3, b"INTERNALKEY     CV      "))
        self.assertEqual((halves.raw, vectors.raw, verification.raw), (given[16:32], vector("MACVER", 16), pattern(MASTER)))
        self.assertEqual(csnb("CSNBKTP", bytes(64), *read), (8, 9))

    def test_random(self):
        drawn = room(8)
        self.is_done(csnb("CSNBRNG", b"ODD     ", drawn))
        self.assertEqual({it.bit_count() % 2 for it in drawn.raw}, {1})
        self.assertEqual(csnb("CSNBRNG", b"NONE    ", drawn), (8, 103))

    def test_random_of_any_length(self):
        def drawn(size, *words):
            out = room(size + 1)
            came = csnb("CSNBRNGL", *words_of(*words), ctypes.byref(mutable(0)), None, ctypes.byref(mutable(size)), out)
            self.assertEqual(out.raw[size:], b"\0")
            return came, out.raw[:size]

        for size in (1, 8, 13, 8192):
            came, found = drawn(size, "ODD")
            self.is_done(came)
            self.assertEqual({it.bit_count() % 2 for it in found}, {1})
        self.assertEqual(len({found[at : at + 8] for at in range(0, 8192, 8)}), 1024)
        self.assertEqual({it.bit_count() % 2 for it in drawn(64, "EVEN")[1]}, {0})
        self.assertEqual({it.bit_count() % 2 for it in drawn(256)[1]}, {0, 1})
        for size, words, reason in ((0, [], 107), (8193, [], 107), (8, ["NONE"], 103)):
            self.assertEqual(drawn(size, *words), ((8, reason), bytes(size)))
        fake = self.folder / "fails"  # the second request isn't answered
        fake.write_text("#!/usr/bin/env bash\nread -r line; echo OK random=0123456789abcdef; read -r line; exit 8\n")
        fake.chmod(0o755)
        it = self.opened(fake)
        library().csnb_use(ctypes.byref(it.it))
        (code_, reason), found = drawn(24)
        self.assertEqual((code_, found), (12, bytes(24)), reason)

    def enciphered(self, verb, key, given, size, words, chain=None, iv=IV):
        """A call of CSNBENC or CSNBDEC: its codes, and what came."""
        length, out = mutable(size), room(size + 8)
        pad = [ctypes.byref(mutable(0))] if verb == "CSNBENC" else []
        came = csnb(verb, key, ctypes.byref(length), given, iv, *words_of(*words), *pad, chain, out)
        return came, out.raw[: length.value]

    def test_chaining(self):
        """Data in calls that continue each other, each longer than a request may be."""
        self.begun()
        key, text = self.held("A", DOUBLE, "DATA"), data(30000)
        for verb, given, wanted in (("CSNBENC", text, chained(DOUBLE, IV, text)), ("CSNBDEC", chained(DOUBLE, IV, text), text)):
            chain, found = room(18), b""
            for at in range(0, 30000, 10000):
                words = ["CBC", "CONTINUE" if at else "INITIAL"]
                came, out = self.enciphered(verb, key, given[at : at + 10000], 10000, words, chain, None if at else IV)
                self.is_done(came)
                found += out
            self.assertEqual(found, wanted)

    def test_padded(self):
        self.begun()
        key = self.held("A", SINGLE, "DATA")
        for size in (0, 1, 8, 5000):
            came, out = self.enciphered("CSNBENC", key, data(size), size, ["X9.23"])
            self.assertEqual((came, out), ((0, 0), chained(SINGLE, IV, padded(data(size)))))
            came, back = self.enciphered("CSNBDEC", key, out, len(out), ["X9.23", "INITIAL"])
            self.assertEqual((came, back), ((0, 0), data(size)))
        self.assertEqual(self.enciphered("CSNBENC", key, data(9), 9, [])[0], (8, 23))
        wrong = chained(SINGLE, IV, b"A" * 7 + b"\x09")
        self.assertEqual(self.enciphered("CSNBDEC", key, wrong, 8, ["X9.23"])[0], (8, 31))

    def test_macs(self):
        self.begun()
        for name, key, rule in (("A", SINGLE, []), ("B", DOUBLE, ["X9.19OPT"])):
            held = self.held(name, key, "MAC")
            for words, length in (([], 4), (["MACLEN6"], 6), (["ONLY", "MACLEN8"], 8)):
                mac = room(8)
                self.is_done(self.mac("CSNBMGN", held, data(5000), [*rule, *words], None, mac))
                self.assertEqual(mac.raw, code(key, data(5000))[1][:length] + bytes(8 - length))
                self.is_done(self.mac("CSNBMVR", held, data(5000), [*rule, *words], None, mac))
                self.assertEqual(self.mac("CSNBMVR", held, data(4999), [*rule, *words], None, mac), (4, 1))
            chains, mac = (room(18), room(18)), room(8)
            for segment, text in (("FIRST", data(9000)[:5]), ("MIDDLE", data(9000)[5:8999]), ("LAST", data(9000)[8999:])):
                self.is_done(self.mac("CSNBMGN", held, text, [*rule, segment, "MACLEN8"], chains[0], mac))
                given = code(key, data(9000))[1]
                self.is_done(self.mac("CSNBMVR", held, text, [*rule, segment, "MACLEN8"], chains[1], given))
            self.assertEqual(mac.raw, code(key, data(9000))[1])

    def mac(self, verb, key, text, words, chain, mac):
        return csnb(verb, key, ctypes.byref(mutable(len(text))), text, *words_of(*words), chain, mac)

    def test_old(self):
        """A key under the old master key is used, with a reason beside return code 0; CSNBKTC brings its token over."""
        self.begun()
        key, test = identifier(key_token(SINGLE, "DATA")), room(8)
        for words, part in ((("FIRST",), NEXT), (("LAST",), bytes(24)), (("SET",), None)):
            self.is_done(csnb("CSNBMKP", *words_of(*words), part))
        words = words_of("KEY-ENC", "GENERATE", "ENC-ZERO")
        self.assertEqual(csnb("CSNBKYT", *words, key, room(8), test), (0, 10001))
        self.assertEqual(library().csnb_reason(0, 10001), b"done, with a key under the old master key")
        self.assertEqual(test.raw[:4].hex(), value(SINGLE))
        verifier = identifier(key_token(SINGLE, "MACVER"))
        for given, came in ((code(SINGLE, b"1")[1], (0, 10001)), (bytes(8), (4, 1))):
            self.assertEqual(self.mac("CSNBMVR", verifier, b"1", ["MACLEN8"], None, given), came)
        self.is_done(csnb("CSNBKTC", *words_of("RTCMK"), key))
        self.assertEqual(key.raw.hex(), internal(NEXT, SINGLE, vector("DATA", 8)))
        self.is_done(csnb("CSNBKYT", *words, key, room(8), test))
        self.assertEqual(csnb("CSNBKTC", *words_of("RTCMK"), identifier()), (8, 105))

    def changed_to(self, master):
        for words, part in ((("FIRST",), master), (("LAST",), bytes(24)), (("SET",), None)):
            self.is_done(csnb("CSNBMKP", *words_of(*words), part))

    def test_changed_under_labels(self):
        """The master key is changed twice, and the keys of labels are brought over by IBM's verbs alone."""
        self.begun()
        names = [self.held("A", SINGLE, "DATA"), self.held("B", DOUBLE, "MAC")]
        self.changed_to(NEXT)
        for change in (words_of("SET"), words_of("FIRST")):
            csnb("CSNBMKP", *change, made("third", 24))
        self.is_done(csnb("CSNBMKP", *words_of("LAST"), bytes(24)))
        self.assertEqual(csnb("CSNBMKP", *words_of("SET"), None), (8, 27))
        self.assertEqual(csnb("CSNBKTC", *words_of("RTNMK"), names[0]), (8, 18))
        for _ in range(2):  # what is under the current master key stays
            for name, key, kind in zip(names, (SINGLE, DOUBLE), ("DATA", "MAC")):
                self.is_done(csnb("CSNBKTC", *words_of("RTCMK"), name))
                held = room(64)
                self.is_done(csnb("CSNBKRR", name, held))
                self.assertEqual(held.raw.hex(), internal(NEXT, key, vector(kind, len(key))))
        self.is_done(csnb("CSNBMKP", *words_of("SET"), None))
        self.assertEqual(csnb("CSNBKTC", *words_of("RTCMK"), identifier("NONE")), (8, 7))
        self.done(self.cca.role_define("DEFAULT", EVERY & ~0x10000))  # without KRW
        self.assertEqual(csnb("CSNBKTC", *words_of("RTCMK"), names[0]), (8, 4))

    def test_changed_without_a_reply(self):
        """Where a label's key is changed and one of the requests gets no reply, that is told of it."""
        before, after = key_token(SINGLE, "DATA").hex(), internal(NEXT, SINGLE, vector("DATA", 8))
        fake = self.folder / "fake"
        for replies, status, came in (
            ([], 10, (12, 1010)),
            ([before], 10, (12, 1010)),
            ([before, after], 10, (12, 1010)),
            ([before, after], 8, (12, 2008)),
            ([before, before], 8, (0, 0)),  # nothing is written back
        ):
            says = "".join(f"read -r line; echo OK token={it}\n" for it in replies)
            fake.write_text(f"#!/usr/bin/env bash\n{says}read -r line || exit 0\nexit {status}\n")
            fake.chmod(0o755)
            it = self.opened(fake)
            library().csnb_use(ctypes.byref(it.it))
            self.assertEqual(csnb("CSNBKTC", *words_of("RTCMK"), identifier("A")), came, (replies, status))
            it.close()

    def test_tokens_without_a_key(self):
        """CSNBKTB: the token of each type and length, which CSNBKPI takes as it takes that of csnb_skeleton."""
        unused = [None] * 9
        for kind, lengths in types().items():
            for size, wanted in lengths.items():
                for words, given in (([], wanted), (["KEY-PART"], as_part(wanted)), (["NO-XPORT", "CV"], closed(wanted))):
                    token = room(64)
                    self.is_done(csnb("CSNBKTB", token, f"{kind:8}".encode(), *words_of("INTERNAL", f"KEYLN{size}", "NO-KEY", *words), *unused))
                    body = b"\1\0\0\0\0\0\x40\0" + bytes(24) + given + bytes(12)
                    self.assertEqual(token.raw.hex(), (body + validation(body)).hex(), (kind, size, words))
            self.is_done(csnb("CSNBKTB", token, f"{kind:8}".encode(), *words_of("INTERNAL"), *unused))  # the shorter length
            self.assertEqual(token.raw[32:48], lengths[min(lengths)])
        self.begun()
        for words in (["DOUBLE"], ["DOUBLE", "KEY-PART"]):
            self.is_done(csnb("CSNBKTB", token, b"EXPORTER", *words_of("INTERNAL", *words), *unused))
            parts = made("part 1", 16), made("part 2", 16)
            for rule, part in zip(("FIRST", "LAST"), parts):
                self.is_done(csnb("CSNBKPI", *words_of(rule), part, token))
            self.assertEqual(token.raw, key_token(joined(*parts), "EXPORTER"))
        for kind, words, reason in (
            (b"PINGEN  ", ["INTERNAL"], 109),
            (b"CIPHER  ", ["INTERNAL", "DOUBLE"], 109),
            (b"EXPORTER", ["INTERNAL", "SINGLE"], 109),
            (b"DATA    ", ["INTERNAL", "KEYLN24"], 103),
            (b"DATA    ", ["INTERNAL", "KEY"], 103),
            (b"DATA    ", ["EXTERNAL"], 103),
            (b"DATA    ", ["INTERNAL", "SINGLE", "DOUBLE"], 104),
            (b"DATA    ", [], 104),
            (None, ["INTERNAL"], 101),
        ):
            token = room(64)
            self.assertEqual(csnb("CSNBKTB", token, kind, *words_of(*words), *unused), (8, reason), words)
            self.assertEqual(token.raw, bytes(64))

    def test_control_vectors(self):
        """CSNBCVG, without a cca too: each type's vector, and what its keywords change."""
        library().csnb_use(None)
        found = room(16)
        for kind, lengths in types().items():
            for size, wanted in lengths.items():
                for words, given in (([], wanted), (["NO-XPORT"], closed(wanted)), (["KEY-PART", "XPORT-OK"], as_part(wanted))):
                    self.is_done(csnb("CSNBCVG", f"{kind:8}".encode(), *words_of(f"KEYLN{size}", *words), None, found))
                    self.assertEqual(found.raw.hex(), given.hex(), (kind, size, words))
            if 16 in lengths:
                self.is_done(csnb("CSNBCVG", f"{kind:8}".encode(), *words_of("DOUBLE-O"), None, found))
                self.assertEqual(found.raw, unique(lengths[16]))
        self.assertEqual(csnb("CSNBCVG", b"CIPHER  ", *words_of("DOUBLE-O"), None, found), (8, 109))

    def test_facility(self):
        """What a program asks first: whether there is a master key, under which role it speaks, and that there is one coprocessor."""
        unknown, no = b" " * 8, b"1       "

        def status(question="STATCCAE"):
            count, array, length = mutable(1), ctypes.create_string_buffer(f"{question:8}".encode(), 120), mutable(7)
            self.is_done(csnb("CSUACFQ", ctypes.byref(count), array, ctypes.byref(length), None))
            self.assertEqual((length.value, array.raw[8 * count.value :]), (0, bytes(120 - 8 * count.value)))
            return [array.raw[at : at + 8] for at in range(0, 8 * count.value, 8)]

        def wanted(current, role=b"DEFAULT "):
            return [unknown, current, unknown, b"1.0.0   ", unknown, role, no, no, no]

        self.assertEqual(status(), wanted(no))
        self.begun()
        self.assertEqual(status(), wanted(b"2       "))
        self.assertEqual(status("STATCCA"), wanted(b"2       ")[:6])
        self.assertEqual(status("STATCARD"), [no] + [unknown] * 14)
        for points, current in ((0, unknown), (0x10, b"2       "), (1, b"2       "), (4, b"2       "), (0x2000, b"2       ")):
            self.done(self.cca.role_define("ASKS", points))
            it = self.opened(role="ASKS")
            self.cca.close()
            library().csnb_use(ctypes.byref(it.it))
            self.assertEqual(status(), wanted(current, b"ASKS    "), points)
            it.close()
            library().csnb_use(ctypes.byref(self.cca.it))
        self.assertEqual(self.ask(["CSNBKRL role=DEFAULT prefix="]), ["OK count=0 labels="])
        self.assertEqual(csnb("CSUACFQ", *words_of("STATEID"), None, None), (8, 103))
        version, length = room(60), mutable(60)
        self.is_done(csnb("CSUACFV", ctypes.byref(length), version))
        self.assertEqual((length.value, version.value), (5, b"1.0.0"))
        length.value = 5  # too short for its end
        self.assertEqual(csnb("CSUACFV", ctypes.byref(length), version), (8, 107))
        for verb in ("CSUACRA", "CSUACRD"):
            self.is_done(csnb(verb, *words_of("DEVICE"), ctypes.byref(mutable(8)), b"CRP01   "))
            self.assertEqual(csnb(verb, *words_of("DEVICE"), ctypes.byref(mutable(8)), b"CRP02   "), (8, 111))
            self.assertEqual(csnb(verb, *words_of("DEVICE"), ctypes.byref(mutable(65)), b"CRP01" + b" " * 60), (8, 107))

    def test_facility_ended(self):
        """Where cca doesn't reply, its state isn't guessed."""
        it = self.opened(self.standing())
        library().csnb_use(ctypes.byref(it.it))
        array = ctypes.create_string_buffer(b"STATCCAE", 120)
        for reply, came in (("ends 8", (12, 2008)), ("ends 10", (12, 1010)), ("NO 05 -", (0, 0))):
            (self.folder / "reply").write_text(reply)
            self.assertEqual(csnb("CSUACFQ", ctypes.byref(mutable(1)), array, None, None), came)
            self.assertEqual(array.raw[:8], b"STATCCAE" if came[0] else b" " * 8)
        library().csnb_use(None)
        self.assertEqual(csnb("CSUACFQ", *words_of("STATCARD"), None, None), (12, 1))

    def test_reasons(self):
        """What a parameter can't say: nothing is sent, and each has its own reason."""
        key, test = identifier("A"), room(8)
        generate = ["KEY-ENC", "GENERATE", "ENC-ZERO"]
        for words, operand, reason in (
            (generate[:2], key, 104),
            (generate[1:], key, 104),
            ([*generate, "VERIFY"], key, 104),
            ([*generate, "KEY-KM"], key, 103),
            (["key-enc", "GENERATE", "ENC-ZERO"], key, 103),
            (generate, identifier(), 105),
            (generate, identifier("A B"), 106),
            (generate, identifier(""), 106),
            (generate, identifier("A\n"), 106),
            (generate, None, 101),
            (generate * 6, key, 104),
        ):
            self.assertEqual(csnb("CSNBKYT", *words_of(*words), operand, room(8), test), (8, reason), words)
        self.assertEqual(csnb("CSNBKYT", *words_of(*generate), key, room(8), None), (8, 101))
        length, out = mutable(8), room(16)
        call = [identifier("A"), ctypes.byref(length), data(8), IV]
        self.assertEqual(csnb("CSNBENC", *call, *words_of("X9.23"), ctypes.byref(mutable(1)), None, out), (8, 108))
        self.assertEqual(csnb("CSNBENC", *call, *words_of("CONTINUE"), None, None, out), (8, 101))
        self.assertEqual(csnb("CSNBENC", *call, *words_of("IPS"), None, None, out), (8, 103))
        length.value = -1
        self.assertEqual(csnb("CSNBENC", *call, *words_of("CBC"), None, None, out), (8, 107))
        code_, reason, exit_length = mutable(0), mutable(0), mutable(4)
        library().CSNBRNG(ctypes.byref(code_), ctypes.byref(reason), ctypes.byref(exit_length), b"exit", b"ODD     ", out)
        self.assertEqual((code_.value, reason.value), (8, 102))
        self.assertEqual(library().csnb_reason(8, 102), b"exit_data_length isn't 0")
        self.assertEqual(self.ask(["CSNBKRL role=DEFAULT prefix="]), ["OK count=0 labels="])

    def test_ended(self):
        """No reply: return code 12, and whether the request is in doubt."""
        it = self.opened(self.standing())
        library().csnb_use(ctypes.byref(it.it))
        for reply, came in (("ends 8", (12, 2008)), ("ends 10", (12, 1010)), ("NO 29 label", (8, 29)), ("ends 7", (12, 2007)), ("OK", (12, 1007))):
            (self.folder / "reply").write_text(reply)
            self.assertEqual(csnb("CSNBKRC", identifier("A")), came)
        library().csnb_use(None)
        self.assertEqual(csnb("CSNBKRC", identifier("A")), (12, 1))
        self.assertIn(b"CCA_SOCKET", library().csnb_reason(12, 1))

    def test_verbs_are_all_called(self):
        """The other cases call each verb of csnb.h."""
        called.clear()
        for name in dir(self):
            if name.startswith("test_") and name != self._testMethodName:
                Ibm(name).run(unittest.TestResult())
        verbs = {name for name, *_ in declared("csnb.h") if name.startswith("CS")}
        self.assertEqual(verbs - called, set())
        self.assertEqual(len(verbs), 30)


class Programs(Library):
    """The programs of examples/c, by the coprocess and by the socket that the environment names."""

    def built(self, name):
        sources = [EXAMPLES / "c" / f"{name}.c", *sorted(SOURCES.glob("*.c"))]
        return compiled(name, sources, "-O1", *(SANITIZERS if shutil.which("gcc") else []))

    def run_in(self, *words, given=b"", at=None, **named):
        environment = {**os.environ, "CCA": self.program.path, **named}
        return subprocess.run(words, cwd=at or self.folder, env=environment, input=given, capture_output=True, timeout=200)

    def setUp(self):
        super().setUp()
        self.with_master_key()
        self.stored("PAY", DOUBLE, "DATA")
        self.assertEqual(self.cca.close(), 0)

    def test_mac(self):
        program, here = self.built("mac"), {"CCA_FOLDER": str(self.folder), "CCA_ROLE": "DEFAULT"}
        done = "CSNBKGN: return code 0, reason 0: done\nCSNBMGN: return code 0, reason 0: done\nCSNBMVR: return code 0, reason 0: done\n"
        for _ in range(3):  # each finds the folder free
            came = self.run_in(program, **here)
            self.assertEqual(came.stdout.decode(), f"{done}CSNBMVR: return code 4, reason 1: the MAC or the check value doesn't match\n")
            self.assertEqual((came.returncode, came.stderr), (0, b""))
        self.assertEqual(self.run_in(program, **here, CCA_COMMAND="audit").returncode, 0)
        self.assertEqual(len(self.program.run(self.folder, "trail").lines), 4)
        came = self.run_in(program, CCA_FOLDER=str(self.folder), CCA_ROLE="NOBODY")
        self.assertEqual(came.stdout, b"CSNBKGN: return code 8, reason 3: the role isn't defined\n")
        came = self.run_in(program)
        self.assertIn(b"return code 12, reason 1", came.stdout)

    def test_paths(self):
        """A program and a folder that the environment names from where the first verb is called."""
        program, other = self.built("mac"), self.folder / "other"
        other.mkdir()
        (other / "cca").symlink_to(self.program.path)
        came = self.run_in(program, at=other, CCA="./cca", CCA_FOLDER="..", CCA_ROLE="DEFAULT")
        self.assertIn(b"CSNBKGN: return code 0, reason 0: done\n", came.stdout)

    def test_file(self):
        program = self.built("file")
        for size in (0, 1, 8, 65536, 150001):
            text = data(size)
            out = self.run_in(program, "encipher", self.folder, "DEFAULT", "PAY", IV.hex(), given=text)
            self.assertEqual((out.returncode, out.stderr, out.stdout == chained(DOUBLE, IV, padded(text))), (0, b"", True))
            back = self.run_in(program, "decipher", self.folder, "DEFAULT", "PAY", IV.hex(), given=out.stdout)
            self.assertEqual((back.returncode, back.stderr, back.stdout == text), (0, b"", True))
        came = self.run_in(program, "encipher", self.folder, "DEFAULT", "NONE", IV.hex(), given=b"A")
        self.assertEqual((came.returncode, came.stderr), (1, b"file: refused by rule 07, field key: the label doesn't exist\n"))


REASONS = """
#include "csnb.h"
#include <stdio.h>
#include <string.h>

static void told(unsigned char *label)
{
    long code, reason;
    CSNBKRC(&code, &reason, NULL, NULL, label);
    printf("%ld, %ld, %s\\n", code, reason, csnb_reason(code, reason));
}

int main(void)
{
    unsigned char label[64];
    int rule;
    memset(label, ' ', sizeof label);
    told(label);
    told(NULL);
    label[0] = 'A';
    for (rule = 1; rule <= 37; rule++)
        told(label);
    return 0;
}
"""
REFUSES = """#!/usr/bin/env bash
for rule in {01..36}; do
    read -r line
    echo "NO $rule label"
done
"""


def nearest():
    """IBM's nearest pair for each rule, as docs/FROM-IBM.md has it; none where none is near."""
    section = (TOP / "docs" / "FROM-IBM.md").read_text().partition("\n## The rules, and IBM's nearest codes\n")[2]
    return {int(rule): pair for rule, pair in re.findall(r"\| (\d\d) \| (\d+, \d+|-)", section)}


class Reasons(Library):
    def told(self, **named):
        """What a program is told of each rule, of a blank label and of a null pointer; and where cca ended."""
        source, refuses = self.folder / "reasons.c", self.folder / "refuses"
        source.write_text(REASONS)
        refuses.write_text(REFUSES)
        refuses.chmod(0o755)
        program = compiled("reasons", [source, *sorted(SOURCES.glob("*.c"))], *(SANITIZERS if shutil.which("gcc") else []))
        environment = {**os.environ, "CCA": str(refuses), "CCA_FOLDER": str(self.folder), "CCA_ROLE": "DEFAULT", **named}
        came = subprocess.run([program], env=environment, capture_output=True, text=True, check=True)
        return [line.split(", ", 2) for line in came.stdout.splitlines()]

    def test_ours(self):
        told = self.told()
        self.assertEqual([it[:2] for it in told[:2]], [["8", "106"], ["8", "101"]])
        self.assertEqual([it[:2] for it in told[2:38]], [["8", str(rule)] for rule in range(1, 37)])

    def test_ibms(self):
        """Refusals by IBM's nearest numbers, as the page has them, and what isn't near by numbers that aren't IBM's."""
        wanted = nearest()
        self.assertEqual(sorted(wanted), list(range(1, 37)))
        label, null, *rules, ended = self.told(CCA_REASONS="ibm")
        self.assertEqual((", ".join(label[:2]), null[:2]), (wanted[6], ["8", "9101"]))
        self.assertEqual([", ".join(it[:2]) for it in rules], [f"8, {9000 + rule}" if it == "-" else it for rule, it in sorted(wanted.items())])
        self.assertIn(ended[0], "12")
        self.assertIn(int(ended[1]) // 1000, (1, 2))
        sentences = [it[2] for it in rules]
        self.assertEqual((sentences[6], label[2]), ("the label doesn't exist", "the text isn't a label"))
        self.assertTrue(sentences[13].startswith("refused: several rules"), sentences[13])
        self.assertEqual(sentences[26], "SET or AHEAD, and a label is under the old master key")
        self.assertEqual(null[2], "a parameter is a null pointer")


class Built(Library):
    """What clients/c/build makes: a static library, a shared one, and one with the name of IBM's."""

    @classmethod
    def setUpClass(cls):
        super().setUpClass()
        cls.libraries = cls.shared / "libraries"
        subprocess.run([SOURCES / "build", cls.libraries, "1.2.3"], check=True)

    def exported(self, name):
        """The functions that a library has for others, without the name of its version."""
        it = subprocess.run(["nm", "-D", "--defined-only", self.libraries / name], capture_output=True, text=True, check=True)
        return {line.split()[2].split("@")[0] for line in it.stdout.splitlines() if line.split()[1] == "T"}

    def test_names(self):
        """The shared libraries export what the headers declare, and nothing else."""
        verbs = {name for name, *_ in declared("csnb.h")}
        self.assertEqual(self.exported("libcca.so"), verbs | {name for header in ("cca.h", "cca_client.h") for name, *_ in declared(header)})
        self.assertEqual(self.exported("libcsulcca.so"), verbs | not_here())
        self.assertEqual(verbs & not_here(), set())
        for name, soname in (("libcca.so", "libcca.so.1"), ("libcsulcca.so", "libcsulcca.so")):
            it = subprocess.run(["readelf", "-d", self.libraries / name], capture_output=True, text=True, check=True)
            self.assertRegex(it.stdout, rf"SONAME.*\[{soname}\]")
        self.assertEqual((self.libraries / "libcca.so.1").resolve().name, "libcca.so.1.2.3")

    def test_not_here(self):
        """Each name of IBM's that isn't in this profile answers so, whatever its parameters are."""
        it = ctypes.CDLL(str(self.libraries / "libcsulcca.so"))
        it.csnb_reason.restype = ctypes.c_char_p
        self.assertEqual(len(not_here()), 66)
        for name in not_here():
            code_, reason = mutable(-1), mutable(-1)
            getattr(it, name)(ctypes.byref(code_), ctypes.byref(reason), *[None] * 15)
            self.assertEqual((code_.value, reason.value), (12, 2), name)
            getattr(it, name)(None, None)
        self.assertEqual(it.csnb_reason(12, 2), b"the verb isn't in this profile")

    def test_linked(self):
        """A program that is linked to each of them computes its MAC, and the static one can be a part of another shared library."""
        self.with_master_key()
        self.assertEqual(self.cca.close(), 0)
        environment = {**os.environ, "CCA": self.program.path, "CCA_FOLDER": str(self.folder), "CCA_ROLE": "DEFAULT"}
        environment["LD_LIBRARY_PATH"] = str(self.libraries)
        whole = ["-Wl,--whole-archive", self.libraries / "libcca.a", "-Wl,--no-whole-archive"]
        subprocess.run(["cc", "-shared", "-o", self.libraries / "libother.so", *whole, "-pthread"], check=True)
        for linked in ("-lcca", "-lcsulcca", "-lother", self.libraries / "libcca.a"):
            program = compiled("mac", [EXAMPLES / "c" / "mac.c", linked], "-L", self.libraries)
            came = subprocess.run([program], env=environment, capture_output=True, text=True)
            self.assertEqual((came.returncode, came.stderr), (0, ""), linked)
            self.assertIn("CSNBMVR: return code 0, reason 0: done\n", came.stdout)

    def test_cplusplus(self):
        """A program in C++ finds each name of csnb.h."""
        if not shutil.which("g++"):
            self.skipTest("g++ isn't installed")
        names = [name for name, *_ in declared("csnb.h")]
        held = ", ".join(f"reinterpret_cast<function>({name})" for name in names)
        (self.folder / "names.cpp").write_text(f'#include "csnb.h"\ntypedef void (*function)();\nfunction names[] = {{{held}}};\nint main() {{}}\n')
        words = ["g++", "-Wall", "-Wextra", "-Werror", "-I", SOURCES, "-o", self.folder / "names", self.folder / "names.cpp"]
        subprocess.run([*words, self.libraries / "libcca.a", "-pthread"], check=True)
        self.assertEqual(subprocess.run([self.folder / "names"]).returncode, 0)

    def test_usage(self):
        for words in ([], ["--help"], ["a", "b", "c"]):
            came = subprocess.run([SOURCES / "build", *words], cwd=self.folder, capture_output=True, text=True)
            self.assertEqual((came.returncode, came.stderr), (2, "build: usage: clients/c/build FOLDER [VERSION]\n"))
        self.assertEqual(list(self.folder.iterdir()), [])


class Sanitized(Case):
    def test_sanitized(self):
        sanitized(self, "library_ibm", [Ibm], ["test_verbs_are_all_called"])


class Planted(unittest.TestCase):
    """Each fault of EDITS is found by its case."""

    def test_edits(self):
        each_is_found(self, "library_ibm", EDITS)


if __name__ == "__main__":
    unittest.main()
