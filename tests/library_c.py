"""The library of clients/c: each verb by its function, against the program, with what OpenSSL makes of keys and data; each way to fail, by
value; threads, timeouts and restarts; a socket of the front; the table that is made; and once more under the sanitizers of addresses
and of undefined behaviour. tests/library_ibm.py has IBM's signatures.
"""
import ctypes
import json
import os
import re
import select
import shutil
import signal
import socket
import stat
import subprocess
import sys
import tempfile
import threading
import time
import unittest
from concurrent.futures import ThreadPoolExecutor
from pathlib import Path

from tests.c_library import DONE, DOUBLE, ENDED, FIRST, IV, LAST, MASTER, MIDDLE, NEXT, SINGLE, SIZES, TRANSPORT, UNSAYABLE
from tests.c_library import Cca, Generation, Library, Parsed, called, chained, code, data, declared, key_token, label, library, padded
from tests.c_library import room, sanitized, told, token, vector
from tests.edits import FRONT, LIBRARIES, Edit, each_is_found
from tests.formats import as_part, closed, external, internal, joined, made, pattern, types, unique, value
from tests.harness import TOP, Case, Fault, scratch

FAULTS = [Fault('"$CCA" "$@" | sed -u "s/match=no/match=yes/"', case="Verbs.test_macs", tells="1 != 0")]
# Each takes away what one of these cases asks for.
EDITS = [
    Edit("clients/c/cca_client.c", 'it->socket && strncmp(reply, "-- ", 3) == 0', '!reply && it->socket', "Sockets.test_fronts_own_line"),
    Edit("clients/c/exchange.c", "if (*byte < 0x21 || *byte > 0x7E)", "if (*byte == 0x7F)", "Errors.test_unsayable"),
    Edit("clients/c/exchange.c", "it->result.is_old = 1;", "it->result.is_old = 0;", "Verbs.test_old"),
    Edit("clients/c/exchange.c", "length / 2 > room", "length / 2 > room + 60", "Errors.test_no_reply_of_cca"),
    Edit("clients/c/exchange.c", "it->result.is_in_doubt = 1; /* fall through */", "/* fall through */", "Errors.test_ended"),
    Edit("clients/c/exchange.c", "it->result.status = cca_drop(&it->cca->client);", "", "Errors.test_no_reply_of_cca"),
    Edit("clients/c/exchange.c", "if (it->left != 0)", "if (it->left < 0)", "Errors.test_replies_to_other_requests"),
    Edit("clients/c/exchange.c", "strcmp(label, to) != 0", "!*label", "Errors.test_replies_to_other_requests"),
    Edit("clients/c/data.c", "it->out_length < it->least ||", "", "Errors.test_replies_to_other_requests"),
    Edit("clients/c/data.c", "#define LONGEST_SEGMENT 4088", "#define LONGEST_SEGMENT 4096", "Verbs.test_data"),
    Edit("clients/c/data.c", "is_old |= came.is_old;", "is_old = came.is_old & 0;", "Verbs.test_old"),
    Edit("clients/c/data.c", "exchange_wipe(it->out, it->out_length);", "", "Verbs.test_padding_that_isnt_one"),
    Edit("clients/c/exchange.c", "            exchange_wipe(bytes, at / 2);\n", "", "Errors.test_bad_digit"),
    Edit("clients/c/exchange.c", "    exchange_wipe(bytes, came);\n", "", "Errors.test_bad_digit"),
    Edit("clients/c/exchange.c", "!cca_rule(rule) ||", "", "Errors.test_refusals_that_are_none"),
    Edit("clients/c/exchange.c", "at = it->begun;", "at = 0;", "Errors.test_refusals_that_are_none"),
    Edit("clients/c/cca_client.c", "nap(IN_USE_PAUSE);", "break;", "Errors.test_predecessor"),
    Edit("clients/c/cca_client.c", "it->status == CCA_EXIT_IN_USE || !cca", "!cca", "Errors.test_in_use"),
    Edit("clients/c/cca_client.c", "it->socket) { /* a front closes", "0) { /* a front closes", "Sockets.test_silent"),
]


class Verbs(Library):
    """Each function of cca.h."""

    def test_beginning(self):
        self.refused(self.cca.key_test(label("A"), room(4)), 5, "-")
        self.done(self.cca.master_key_part("FIRST", made("one", 24)))
        self.done(self.cca.master_key_clear())
        parts = [made("one", 24), made("two", 24), joined(MASTER, made("one", 24), made("two", 24))]
        for action, part in zip(("FIRST", "MIDDLE", "LAST"), parts):
            self.done(self.cca.master_key_part(action, part))
        self.done(self.cca.master_key_set())
        made_token = room(64)
        self.done(self.cca.clear_key_import(SINGLE, None, made_token))
        self.assertEqual(made_token.raw, key_token(SINGLE, "DATA"))
        self.done(self.cca.role_define("TELLER", 0xF))
        teller = self.opened(folder=self.folder / "other", role="TELLER")
        (self.folder / "other").mkdir()
        self.refused(teller.master_key_set(), 3, "-")
        self.done(self.cca.role_remove("TELLER"))
        self.refused(self.cca.role_remove("TELLER"), 30, "name")
        self.assertEqual(self.cca.close(), 0)

    def test_storage(self):
        self.with_master_key()
        self.stored("PAY.A", SINGLE, "DATA")
        self.done(self.cca.record_create("PAY.B"))
        self.refused(self.cca.record_create("PAY.B"), 29, "label")
        held, labels, count = room(64), room(66581), ctypes.c_int()
        self.done(self.cca.record_read("PAY.A", held))
        self.assertEqual(held.raw, key_token(SINGLE, "DATA"))
        self.refused(self.cca.record_read("PAY.B", held), 8, "label")
        for prefix, wanted in (("", "PAY.A,PAY.B"), ("PAY.B", "PAY.B"), ("Z", "")):
            self.done(self.cca.record_list(prefix, labels, ctypes.byref(count)))
            self.assertEqual((labels.value.decode(), count.value), (wanted, len(wanted.split(",")) if wanted else 0))
        self.done(self.cca.record_delete("PAY.B"))
        self.refused(self.cca.record_delete("PAY.B"), 7, "label")
        changed = ctypes.c_int(-1)
        self.done(self.cca.reencipher(None, ctypes.byref(changed)))
        self.assertEqual(changed.value, 0)

    def test_keys(self):
        self.with_master_key()
        test = room(4)
        for key, kind in ((SINGLE, "CIPHER"), (DOUBLE, "MAC"), (DOUBLE, "EXPORTER")):
            self.done(self.cca.key_test(token(key_token(key, kind)), test))
            self.assertEqual(test.raw.hex(), value(key))
        self.done(self.cca.record_create("A"))
        self.done(self.cca.clear_key_import(SINGLE, "A", None))
        self.done(self.cca.key_test(label("A"), test))
        self.assertEqual(test.raw.hex(), value(SINGLE))
        parsed = Parsed()
        self.done(self.cca.token_parse(key_token(DOUBLE, "MACVER"), ctypes.byref(parsed)))
        found = (parsed.kind, parsed.key_class, parsed.length, bytes(parsed.vector), bytes(parsed.pattern))
        self.assertEqual(found, (b"internal", b"MAC", 16, vector("MACVER", 16), pattern(MASTER)))
        self.done(self.cca.token_parse(bytes.fromhex(external(TRANSPORT, SINGLE, vector("DATA", 8))), ctypes.byref(parsed)))
        self.assertEqual((parsed.kind, parsed.length, bytes(parsed.pattern)), (b"external", 8, bytes(8)))

    def test_generated(self):
        """What is made for another party is the same key."""
        self.with_master_key()
        exporter, importer = self.stored("OUT", TRANSPORT, "EXPORTER"), self.stored("IN", TRANSPORT, "IMPORTER")
        one, two, back, tests = room(64), room(64), room(64), [room(4), room(4)]
        self.done(self.cca.key_generate(ctypes.byref(Generation(b"OP", b"DOUBLE-O", b"DATA")), None, one, None))
        self.assertEqual(one.raw[32:48], unique(vector("DATA", 16)))
        self.done(self.cca.record_create("MADE"))
        what = Generation(b"OPEX", b"16", b"MAC", b"MACVER", transport2=exporter)
        self.done(self.cca.key_generate(ctypes.byref(what), "MADE", None, two))
        self.done(self.cca.key_import(two, importer, None, back))
        self.done(self.cca.key_test(label("MADE"), tests[0]))
        self.done(self.cca.key_test(token(back.raw), tests[1]))
        self.assertEqual(tests[0].raw, tests[1].raw)
        what = Generation(b"EXEX", b"8", b"DATA", b"DATA", exporter, exporter)
        self.done(self.cca.key_generate(ctypes.byref(what), None, one, two))
        self.assertEqual((one.raw, one.raw[:1]), (two.raw, b"\2"))
        what = Generation(b"OP", b"8", b"EXPORTER")
        self.refused(self.cca.key_generate(ctypes.byref(what), None, one, None), 32, "length")

    def test_parts(self):
        self.with_master_key()
        part, parts = room(64), [made("a", 16), made("b", 16), joined(DOUBLE, made("a", 16), made("b", 16))]
        self.done(self.cca.key_part_first("EXPORTER", parts[0], 16, None, part))
        self.assertEqual(part.raw.hex(), internal(MASTER, parts[0], as_part(vector("EXPORTER", 16))))
        self.done(self.cca.key_part_next("MIDDLE", token(part.raw), parts[1], 16, None, part))
        self.done(self.cca.record_create("A"))
        self.done(self.cca.key_part_next("LAST", token(part.raw), parts[2], 16, "A", None))
        held = room(64)
        self.done(self.cca.record_read("A", held))
        self.assertEqual(held.raw, key_token(DOUBLE, "EXPORTER"))

    def test_moved(self):
        self.with_master_key()
        exporter, importer = self.stored("OUT", TRANSPORT, "EXPORTER"), self.stored("IN", TRANSPORT, "IMPORTER")
        out, back = room(64), room(64)
        self.done(self.cca.key_export(token(key_token(DOUBLE, "MAC")), exporter, out))
        self.assertEqual(out.raw.hex(), external(TRANSPORT, DOUBLE, vector("MAC", 16)))
        self.done(self.cca.key_import(out, importer, None, back))
        self.assertEqual(back.raw, key_token(DOUBLE, "MAC"))
        first, second = (self.stored(kind, TRANSPORT[::step], kind) for kind, step in (("IKEYXLAT", 1), ("OKEYXLAT", -1)))
        self.done(self.cca.key_translate(out, first, second, back))
        self.assertEqual(back.raw.hex(), external(TRANSPORT[::-1], DOUBLE, vector("MAC", 16)))
        self.done(self.cca.prohibit_export(token(key_token(DOUBLE, "MAC")), None, back))
        self.assertEqual(back.raw.hex(), internal(MASTER, DOUBLE, closed(vector("MAC", 16))))
        self.refused(self.cca.key_export(token(back.raw), exporter, out), 21, "key")

    def test_old(self):
        """A change of the master key, with keys that are staged, and with one under the old one."""
        self.with_master_key()
        data_key = self.stored("A", SINGLE, "DATA")
        changed, out = ctypes.c_int(), room(64)
        self.done(self.cca.master_key_part("FIRST", NEXT))
        self.done(self.cca.master_key_part("LAST", bytes(24)))
        self.done(self.cca.token_change("RTNMK", key_token(SINGLE, "DATA"), out))
        self.assertEqual(out.raw.hex(), internal(NEXT, SINGLE, vector("DATA", 8)))
        for action in ("AHEAD", "DROP"):
            self.done(self.cca.reencipher(action, ctypes.byref(changed)))
            self.assertEqual(changed.value, 1)
        self.done(self.cca.master_key_set())
        text, length = room(9000), ctypes.c_size_t()
        for size in (8, 8000):
            came = self.cca.encipher(data_key, IV, "NONE", data(size), size, text, ctypes.byref(length))
            self.assertEqual((told(came), came.is_old), ("done; a key is under the old master key", 1))
        came = self.cca.token_change("RTCMK", key_token(SINGLE, "DATA"), out)
        self.assertEqual((came.outcome, out.raw.hex()), (DONE, internal(NEXT, SINGLE, vector("DATA", 8))))

    def test_data(self):
        """Data of many sizes, as OpenSSL has it; the output in the place of the input too."""
        self.with_master_key()
        for key, kind in ((SINGLE, "DATA"), (DOUBLE, "DATA")):
            name = token(key_token(key, kind))
            for size in (0, *SIZES):
                text = data(size)
                self.enciphered_and_back(name, key, "X9.23", text, padded(text))
                if size % 8 == 0 and size > 0:
                    self.enciphered_and_back(name, key, "NONE", text, text)

    def enciphered_and_back(self, name, key, pad, text, whole):
        size, wanted = len(text), chained(key, IV, whole)
        out, back, both, length = room(size + 8), room(len(whole)), room(size + 8), ctypes.c_size_t()
        self.done(self.cca.encipher(name, IV, pad, text, size, out, ctypes.byref(length)))
        self.assertEqual(out.raw[: length.value], wanted)
        self.done(self.cca.decipher(name, IV, pad, out, length.value, back, ctypes.byref(length)))
        self.assertEqual(back.raw[: length.value], text)
        both.raw = text + bytes(8)
        self.done(self.cca.encipher(name, IV, pad, both, size, both, ctypes.byref(length)))
        self.assertEqual(both.raw[: length.value], wanted)

    def test_segments(self):
        """Data piece by piece, cut anywhere."""
        self.with_master_key()
        name = token(key_token(DOUBLE, "DATA"))
        for cuts in ((0, 0, 5), (3, 4, 1), (8, 0, 8), (5000, 1, 9999), (7, 12345, 0), (4095, 4095, 4095)):
            text = data(sum(cuts))
            enciphered = self.in_pieces("encipher", name, text, cuts)
            self.assertEqual(enciphered, chained(DOUBLE, IV, padded(text)))
            self.assertEqual(self.in_pieces("decipher", name, enciphered, (*cuts[:2], len(enciphered) - cuts[0] - cuts[1])), text)

    def in_pieces(self, verb, name, text, cuts):
        chain, found, at = room(16), b"", 0
        for segment, size in zip((FIRST, MIDDLE, LAST), cuts):
            out, length, piece = room(size + 16), ctypes.c_size_t(), text[at : at + size]
            call = getattr(self.cca, f"{verb}_segment")
            self.done(call(name, segment, IV, "X9.23", chain, piece, size, out, ctypes.byref(length)))
            found, at = found + out.raw[: length.value], at + size
        return found

    def test_padding_that_isnt_one(self):
        """The last byte is none: nothing of the data is left, also where segments of it came before."""
        self.with_master_key()
        name = token(key_token(SINGLE, "DATA"))
        for size in (8, 20000):
            out, length = room(size), ctypes.c_size_t(9)
            wrong = chained(SINGLE, IV, b"A" * (size - 1) + b"\x09")
            self.refused(self.cca.decipher(name, IV, "X9.23", wrong, size, out, ctypes.byref(length)), 31, "text")
            self.assertEqual((length.value, out.raw.strip(b"\0")), (0, b""))

    def test_macs(self):
        self.with_master_key()
        for key, rule in ((SINGLE, "X9.9-1"), (DOUBLE, "X9.19OPT")):
            name = token(key_token(key, "MAC"))
            for size in SIZES:
                wanted, mac, matches = code(key, data(size))[1], room(8), ctypes.c_int()
                for length in (4, 6, 8) if size < 10 else (8,):
                    self.done(self.cca.mac_generate(name, rule, length, data(size), size, mac))
                    self.assertEqual(mac.raw[:length], wanted[:length])
                for given, is_it in ((wanted, 1), (bytes(8), 0)):
                    self.done(self.cca.mac_verify(name, rule, given, 8, data(size), size, ctypes.byref(matches)))
                    self.assertEqual(matches.value, is_it)
            self.in_mac_pieces(key, rule, name)

    def in_mac_pieces(self, key, rule, name):
        text, cuts, matches = data(9014), (5, 9000, 9), ctypes.c_int()
        for verb, given in (("generate", room(8)), ("verify", code(key, text)[1])):
            chain, at = room(16), 0
            for segment, size in zip((FIRST, MIDDLE, LAST), cuts):
                piece, at = text[at : at + size], at + size
                if verb == "generate":
                    came = self.cca.mac_generate_segment(name, rule, segment, 8, chain, piece, size, given)
                else:
                    came = self.cca.mac_verify_segment(name, rule, segment, given, 8, chain, piece, size, ctypes.byref(matches))
                self.done(came)
            self.assertEqual(bytes(given)[:8], code(key, text)[1])
        self.assertEqual(matches.value, 1)

    def test_random(self):
        drawn = room(8)
        for form, parities in (("ODD", {1}), ("EVEN", {0}), ("RANDOM", {0, 1})):
            found = set()
            for _ in range(20):
                self.done(self.cca.random(form, drawn))
                found |= {it.bit_count() % 2 for it in drawn.raw}
            self.assertEqual(found, parities)

    def test_verbs_of_the_table(self):
        """The other cases ask for each row of the table of verbs, field by field in its order, and call each function."""
        table = json.loads((LIBRARIES / "verbs.json").read_text())
        program, asked = self.folder / "recorded", self.folder / "asked"
        program.write_text(f"#!/bin/sh\ntee -a '{asked}' | '{self.program.path}' \"$@\"\n")
        program.chmod(0o755)
        names = [it for it in dir(self) if it.startswith("test_") and it not in ("test_verbs_of_the_table", "test_data")]
        for name in names:
            folder = self.folder / name
            folder.mkdir()
            self.cca = Cca(program, folder)
            with self.subTest(name):
                self.folder, before = folder, self.folder
                getattr(self, name)()
                self.folder = before
            self.cca.close()
        # A row: its verb and the names of its fields, with the words of those that have one alone.
        found = {re.sub(r"=(?!(FIRST|MIDDLE|LAST|CLEAR|SET|DEFINE|REMOVE|AHEAD|DROP)( |$))\S*", "", it) for it in asked.read_text().splitlines()}
        for row in table["rows"]:
            fields = [self.named(it) for it in row["fields"]]
            self.assertTrue(any(re.fullmatch(f"{row['verb']} {' '.join(fields)}", it) for it in found), row["row"])
        functions = {name for name, result, _ in declared("cca.h") if result == "struct cca_result"}
        self.assertEqual(functions - called, set())

    def named(self, field):
        words = [it for it in field.get("words", []) if it in ("FIRST", "MIDDLE", "LAST", "CLEAR", "SET", "DEFINE", "REMOVE", "AHEAD", "DROP")]
        return f"{field['name']}=({'|'.join(words)})" if words else field["name"]


VECTORS = TOP / "clients" / "vectors"


def vectors(name):
    return json.loads((VECTORS / f"{name}.json").read_text())["vectors"]


@unittest.skipUnless(VECTORS.is_dir(), "there are no vectors")
class Vectors(Library):
    """The test vectors of clients/vectors, which OpenSSL made."""

    def setUp(self):
        super().setUp()
        self.with_master_key(bytes.fromhex(vectors("tokens")[0]["master_key"]))
        self.tokens = {}

    def of(self, clear, kind):
        """The key of a clear key and a type, by its token."""
        key, kind = bytes.fromhex(clear), types()[kind]
        return token(internal(bytes.fromhex(vectors("tokens")[0]["master_key"]), key, kind[len(key)]))

    def test_tokens_and_exports(self):
        """A key goes out under the first transport key, is translated to the second one, and comes in again."""
        test = room(4)
        for it in vectors("check_values"):
            self.done(self.cca.key_test(self.of(it["clear"], "DATA"), test))
            self.assertEqual(test.raw.hex(), it["value"])
        inside = {(it["clear"], it["vector"]): it["token"] for it in vectors("tokens")}
        for it in vectors("exports"):
            held, out, bits = inside[it["clear"], it["vector"]], room(64), bytes.fromhex(it["vector"])
            came = self.cca.key_export(token(held), self.of(it["transport1"], "EXPORTER"), out)
            if bits[5] & 8:  # a key part
                self.refused(came, 17, "key")
                continue
            if any(bits) and not bits[2] & 0x40:  # not for export
                self.refused(came, 21, "key")
                out.raw = bytes.fromhex(it["token1"])
            else:
                self.done(came)
                self.assertEqual(out.raw.hex(), it["token1"])
            self.done(self.cca.key_translate(out, self.of(it["transport1"], "IKEYXLAT"), self.of(it["transport2"], "OKEYXLAT"), out))
            self.assertEqual(out.raw.hex(), it["token2"])
            self.done(self.cca.key_import(out, self.of(it["transport2"], "IMPORTER"), None, out))
            self.assertEqual(out.raw.hex(), held)

    def test_data_and_macs(self):
        for it in vectors("data"):
            key, iv, out, length = self.of(it["clear"], "DATA"), bytes.fromhex(it["iv"]), room(5000), ctypes.c_size_t()
            for verb, given, wanted in (("encipher", "plaintext", "ciphertext"), ("decipher", "ciphertext", "plaintext")):
                text = bytes.fromhex(it[given])
                self.done(getattr(self.cca, verb)(key, iv, it["pad"], text, len(text), out, ctypes.byref(length)))
                self.assertEqual(out.raw[: length.value].hex(), it[wanted])
        for it in vectors("macs"):
            mac, text = room(8), bytes.fromhex(it["data"])
            self.done(self.cca.mac_generate(self.of(it["clear"], "DATA"), it["rule"], 8, text, len(text), mac))
            self.assertEqual(mac.raw.hex(), it["mac"])

    def test_parts(self):
        for it in vectors("parts"):
            parts, out = [bytes.fromhex(part) for part in it["parts"]], room(64)
            self.done(self.cca.key_part_first(it["type"], parts[0], len(parts[0]), None, out))
            for number, part in enumerate(parts[1:], 1):
                self.assertEqual(out.raw.hex(), it["part_tokens"][number - 1])
                rule = "LAST" if number == len(parts) - 1 else "MIDDLE"
                self.done(self.cca.key_part_next(rule, token(out.raw), part, len(part), None, out))
            self.assertEqual(out.raw.hex(), it["token"])

    def test_segments(self):
        names = {"CSNBENC": "encipher", "CSNBDEC": "decipher", "CSNBMGN": "mac_generate"}
        for it in vectors("segments"):
            key, chain, last = self.of(it["clear"], "DATA"), room(16), len(it["segments"]) - 1
            for number, piece in enumerate(it["segments"]):
                segment = FIRST if number == 0 else LAST if number == last else MIDDLE
                text, out, length = bytes.fromhex(piece["text"]), room(5000), ctypes.c_size_t()
                call = getattr(self.cca, f"{names[it['verb']]}_segment")
                if it["verb"] == "CSNBMGN":
                    self.done(call(key, it["rule"], segment, 8, chain, text, len(text), out))
                else:
                    self.done(call(key, segment, bytes.fromhex(it["iv"]), it["pad"], chain, text, len(text), out, ctypes.byref(length)))
                    self.assertEqual(out.raw[: length.value].hex(), piece["output"])
                if segment != LAST:
                    self.assertEqual(chain.raw.hex(), piece["chain"])
            if it["verb"] == "CSNBMGN":
                self.assertEqual(out.raw[:8].hex(), it["mac"])


class Errors(Library):
    """Each way to fail, by value. What stands for cca replies as it is told."""

    def setUp(self):
        super().setUp()
        self.fake = self.opened(self.standing())

    def replied(self, reply, call=None):
        (self.folder / "reply").write_text(reply)
        return call() if call else self.fake.record_create("A")

    def asked(self):
        it = self.folder / "requests"
        return it.read_text().splitlines() if it.exists() else []

    def test_refused(self):
        """Each rule with its sentence."""
        table = json.loads((LIBRARIES / "verbs.json").read_text())
        for number in range(1, 37):
            came = self.replied(f"NO {number:02} label")
            self.refused(came, number, "label")
            sentence = "; or ".join(it["sentence"] for it in table["rules"] if int(it["rule"]) == number)
            self.assertEqual(library().cca_rule(number).decode(), sentence)
            self.assertEqual(told(came), f"refused by rule {number:02}, field label: {sentence}")
        self.assertIsNone(library().cca_rule(37))
        self.refused(self.replied("NO 03 -"), 3, "-")

    def test_refusals_that_are_none(self):
        """A refusal has the two digits of a rule, and a field of the request or a hyphen."""
        rules = ("-7", "+7", "7", " 7", "00", "37", "99", "077", "0x", "7 ")
        fields = ("token", "lab", "labels", "label=", "label label", "role", "A", "", " label", "--")
        for reply in [f"NO {rule} label" for rule in rules] + [f"NO 07 {field}" for field in fields] + ["NO 07", "no 07 label", "NO  07 label"]:
            came = self.replied(reply)
            self.assertEqual((came.outcome, came.is_in_doubt, came.status, came.rule), (ENDED, 1, 128 + signal.SIGKILL, 0), reply)

    def test_bad_digit(self):
        """One digit of an output is none, or some are missing: nothing of it is left where it was to go."""
        key, length, out = label("A"), ctypes.c_size_t(), room(64)
        for digits in ("41" * 7 + "4g", "41" * 7 + "4", "4141", "41" * 7 + "A1"):
            for call, field, *words in (
                ("decipher", "text", key, IV, "NONE", bytes(8), 8, out, ctypes.byref(length)),
                ("mac_generate", "mac", key, "X9.9-1", 8, b"1", 1, out),
                ("random", "random", "ODD", out),
            ):
                came = self.replied(f"OK {field}={digits}", lambda: getattr(self.fake, call)(*words))
                self.assertEqual((came.outcome, out.raw), (ENDED, bytes(64)), (call, digits))

    def test_in_use(self):
        """Another program has the files: cca is started again for ten seconds, and again by the next request."""
        begun = time.monotonic()
        came = self.replied("ends 11")
        self.assertEqual((came.outcome, came.status, came.is_in_doubt), (ENDED, 11, 0))
        self.assertGreaterEqual(time.monotonic() - begun, 10)
        self.assertGreater(len(self.asked()), 2)
        self.assertEqual(self.replied("OK").outcome, DONE)

    def test_predecessor(self):
        """A program that is started while the cca of the one before it still has the files: it gets its reply once that has ended."""
        self.done(self.cca.record_create("A"))
        program, begun = self.folder / "counted", self.folder / "begun"
        program.write_text(f"#!/bin/sh\necho >>'{begun}'\nexec '{self.program.path}' \"$@\"\n")
        program.chmod(0o755)
        successor = self.opened(program)
        with ThreadPoolExecutor(1) as thread:
            asked = thread.submit(successor.record_create, "B")
            while not asked.done() and (not begun.exists() or len(begun.read_text()) < 2):
                time.sleep(0.01)
            self.assertFalse(asked.done(), "it wasn't started again")
            self.assertEqual(self.cca.close(), 0)
            came = asked.result()
        while (came.outcome, came.status) == (ENDED, 11):  # on a machine so busy that ten seconds weren't enough
            came = successor.record_create("B")
        self.done(came)

    def test_unsayable(self):
        """Nothing is sent."""
        calls = [
            ("record_create", None),
            ("key_test", token(None), room(4)),
            ("clear_key_import", SINGLE, None, None),
            ("clear_key_import", None, "A", None),
            ("mac_generate", label("A"), None, 4, b"A", 1, room(8)),
            ("key_part_first", "DATA", bytes(16), 100000, "A", None),
        ]
        calls += [("record_create", name) for name in ("A B", "A\nCSNBKRD role=DEFAULT label=B", b"A\x80", "A\t", "A" * 9300)]
        calls += [("mac_generate", label("A"), "X9.9-1", length, b"A", 1, room(9)) for length in (-1, 0, 5, 9)]
        for verb, *words in calls:
            came = self.replied("OK", lambda: getattr(self.fake, verb)(*words))
            self.assertEqual(came.outcome, UNSAYABLE, (verb, words))
            self.assertRegex(told(came), "^not sent: .+")
        self.assertEqual(self.asked(), [])

    def test_no_reply_of_cca(self):
        """Replies that cca doesn't give: it isn't known what was done, and no more is written than there is room for."""
        for reply in ("", "OKAY", "NO", "NO rule", "yes", "NO 7", "OK stored=A"):
            came = self.replied(reply, lambda: self.fake.key_test(label("A"), room(4)))
            self.assertEqual((came.outcome, came.is_in_doubt), (ENDED, 1), reply)
            self.assertEqual((self.fake.it.pid, came.status), (0, 128 + signal.SIGKILL), reply)
        for reply in ("OK value=", "OK value=zz", "OK value=0", "OK value=0011223344", "OK value=" + "00" * 4000, "OK value=0011223"):
            test = ctypes.create_string_buffer(b"behind.." * 8, 64)
            came = self.replied(reply, lambda: self.fake.key_test(label("A"), test))
            self.assertEqual((came.outcome, test.raw[4:]), (ENDED, (b"behind.." * 8)[4:]), reply)
        out, length = room(100), ctypes.c_size_t()
        came = self.replied("OK text=" + "41" * 50, lambda: self.fake.encipher(label("A"), IV, "NONE", bytes(8), 8, out, ctypes.byref(length)))
        self.assertEqual((came.outcome, out.raw), (ENDED, bytes(100)))

    def test_replies_to_other_requests(self):
        """Replies that cca gives, and not to this request."""
        test, held, length, count, matches = room(64), room(66581), ctypes.c_size_t(), ctypes.c_int(), ctypes.c_int(1)
        fake, key, parsed = self.fake, label("A"), Parsed()
        calls = [
            ("OK value=00112233", fake.record_create, "A"),
            ("OK", fake.master_key_set),
            ("OK new=half", fake.master_key_clear),
            ("OK stored=B", fake.clear_key_import, SINGLE, "A", None),
            ("OK token=" + "00" * 64, fake.clear_key_import, SINGLE, "A", None),
            ("OK stored=A", fake.clear_key_import, SINGLE, None, test),
            ("OK token=00", fake.key_export, key, key, test),
            ("OK mac=00", fake.mac_generate, key, "X9.9-1", 8, b"1", 1, test),
            ("OK match=maybe", fake.mac_verify, key, "X9.9-1", bytes(8), 8, b"1", 1, ctypes.byref(matches)),
            ("OK match=yes chain=00", fake.mac_verify, key, "X9.9-1", bytes(8), 8, b"1", 1, ctypes.byref(matches)),
            ("OK text=", fake.encipher, key, IV, "NONE", bytes(8), 8, test, ctypes.byref(length)),
            ("OK text=" + "00" * 8, fake.encipher, key, IV, "X9.23", bytes(8), 8, test, ctypes.byref(length)),
            ("OK text=" + "00" * 8, fake.decipher, key, IV, "X9.23", bytes(8), 8, test, ctypes.byref(length)),
            ("OK count=2 labels=A", fake.record_list, "", held, ctypes.byref(count)),
            ("OK changed=", fake.reencipher, None, ctypes.byref(count)),
            ("OK kind=internal class=DATA length=16 vector=" + "00" * 8 + " pattern=" + "00" * 8, fake.token_parse, bytes(64), ctypes.byref(parsed)),
            ("NO 07 key more", fake.key_test, key, test),
        ]
        for reply, call, *words in calls:
            came = self.replied(reply, lambda: call(*words))
            self.assertEqual((came.outcome, came.is_in_doubt, came.status), (ENDED, 1, 128 + signal.SIGKILL), reply)
        self.assertEqual((matches.value, length.value, count.value), (0, 0, 0))

    def test_ended(self):
        """An exit status; whether the request is in doubt; and after some nothing is asked any more."""
        came = self.replied("ends 8")
        self.assertEqual((came.outcome, came.status, came.is_in_doubt), (ENDED, 8, 1))
        self.assertEqual(told(came), "no reply: cca ended with status 8; the request may have been carried out all the same")
        self.assertEqual(self.replied("OK").outcome, DONE)
        came = self.replied("ends 10")
        self.assertEqual((came.outcome, came.status, came.is_in_doubt), (ENDED, 10, 0))
        came = self.replied("ends 3")
        self.assertEqual((came.outcome, came.status, came.is_in_doubt), (ENDED, 3, 1))
        asked = self.asked()
        came = self.replied("OK")
        self.assertEqual((came.outcome, came.status, came.is_in_doubt, self.asked()), (ENDED, 3, 0, asked))
        absent = self.opened("/nowhere/cca")
        came = absent.record_create("A")
        self.assertEqual((came.outcome, came.status, came.is_in_doubt), (ENDED, 127, 0))
        self.assertEqual(told(came), "no reply: cca ended with status 127; the request wasn't carried out")

    def test_timeout(self):
        """A reply that doesn't come in time: cca is killed, and the next request gets its own."""
        self.fake.it.patience = 1
        came = self.replied("waits")
        self.assertEqual((came.outcome, came.status, came.is_in_doubt), (ENDED, 128 + signal.SIGKILL, 1))
        self.fake.it.patience = 60
        self.assertEqual(self.replied("OK").outcome, DONE)

    def test_killed(self):
        """cca is killed between two requests: the first one behind it isn't carried out, and the next one is."""
        self.with_master_key()
        os.kill(self.cca.it.pid, signal.SIGKILL)
        os.waitid(os.P_PID, self.cca.it.pid, os.WEXITED | os.WNOWAIT)
        came = self.cca.record_create("A")
        self.assertEqual((came.outcome, came.status, came.is_in_doubt), (ENDED, 128 + signal.SIGKILL, 0))
        self.done(self.cca.record_create("A"))
        self.stored("B", SINGLE, "DATA")

    def test_forked(self):
        self.with_master_key()
        child = os.fork()
        if child == 0:
            os._exit(self.cca.record_create("A").outcome)
        self.assertEqual(os.waitstatus_to_exitcode(os.waitpid(child, 0)[1]), UNSAYABLE)
        self.done(self.cca.record_create("A"))

    def test_audited(self):
        audited = self.opened(opened="open_audited")
        self.done(audited.record_create("A"))
        audited.close()
        self.assertEqual(self.cca_lines("trail"), ["0 00 DEFAULT CSNBKRC A"])

    def cca_lines(self, *words):
        return self.program.run(self.folder, *words).lines


class Threads(Library):
    def test_threads(self):
        """Threads over one struct cca, each with data of its own, in segments too."""
        self.with_master_key()
        name = token(key_token(SINGLE, "DATA"))
        texts = {(thread, turn): made(f"{thread}.{turn}", 8) * (1 if turn % 10 else 1200) for thread in range(6) for turn in range(40)}
        wanted = {it: chained(SINGLE, IV, text) for it, text in texts.items()}

        def asks(thread):
            wrong = 0
            for turn in range(40):
                text = texts[thread, turn]
                out, length = room(len(text) + 8), ctypes.c_size_t()
                came = self.cca.encipher(name, IV, "NONE", text, len(text), out, ctypes.byref(length))
                wrong += came.outcome != DONE or out.raw[: length.value] != wanted[thread, turn]
            return wrong

        with ThreadPoolExecutor(6) as threads:
            self.assertEqual(list(threads.map(asks, range(6))), [0] * 6)


class Sockets(Library):
    """The library over a socket of the front."""

    def setUp(self):
        super().setUp()
        self.with_master_key()
        self.done(self.cca.role_define("TELLER", 0x1F))
        self.stored("A", SINGLE, "DATA")
        self.assertEqual(self.cca.close(), 0)
        self.path = self.folder / "teller"
        self.front = None
        self.begin()

    def begin(self, *options):
        words = [sys.executable, "-B", FRONT, self.folder, f"{self.path}=TELLER", *options]
        self.front = subprocess.Popen(words, env={**os.environ, "CCA": self.program.path}, stderr=subprocess.DEVNULL)
        self.addCleanup(self.front.wait)
        self.addCleanup(self.front.kill)
        until = time.monotonic() + 120
        while time.monotonic() < until and self.front.poll() is None:
            with socket.socket(socket.AF_UNIX) as it:
                if it.connect_ex(str(self.path)) == 0:
                    return
            time.sleep(0.05)
        self.fail("the front hasn't begun")

    def connected(self):
        it = Cca("", self.path, opened="open_socket")
        self.addCleanup(it.close)
        return it

    def is_served(self, cca):
        test = room(4)
        self.done(cca.key_test(label("A"), test))
        self.assertEqual(test.raw.hex(), value(SINGLE))

    def test_verbs(self):
        """The role is that of the socket."""
        cca = self.connected()
        self.is_served(cca)
        out, length = room(9008), ctypes.c_size_t()
        self.done(cca.encipher(label("A"), IV, "NONE", data(9000), 9000, out, ctypes.byref(length)))
        self.assertEqual(out.raw[:9000], chained(SINGLE, IV, data(9000)))
        self.refused(cca.record_delete("A"), 4, "-")
        self.assertEqual(cca.close(), 0)
        self.is_served(cca)

    def test_silent(self):
        """A connection that the front closes since it is silent: nothing was sent on it, and the next request has another one."""
        self.front.terminate()
        self.front.wait()
        self.begin("--idle", "1")
        cca, before = self.connected(), set(os.listdir("/proc/self/fd"))
        self.is_served(cca)
        closes = select.poll()
        for file in set(os.listdir("/proc/self/fd")) - before:
            if stat.S_ISSOCK(os.stat(f"/proc/self/fd/{file}").st_mode):
                closes.register(int(file), select.POLLRDHUP)
        self.assertEqual(len(closes.poll(120_000)), 1)
        self.is_served(cca)

    def test_fronts_own_line(self):
        """A front that ends says so in place of a reply: nothing was carried out, and the next request has another connection."""
        with socket.socket(socket.AF_UNIX) as listener:
            listener.bind(str(self.folder / "ending"))
            listener.listen()

            def ends():
                for _ in range(2):
                    with listener.accept()[0] as connection:
                        connection.recv(1 << 16)
                        connection.sendall(b"-- not carried out: the front ends\n")

            front = threading.Thread(target=ends, daemon=True)
            front.start()
            cca = Cca("", self.folder / "ending", opened="open_socket")
            for _ in range(2):
                came = cca.key_test(label("A"), room(4))
                self.assertEqual((came.outcome, came.is_in_doubt), (ENDED, 0))
            front.join()

    def test_no_front(self):
        cca = self.connected()
        self.is_served(cca)
        self.front.kill()
        self.front.wait()
        for _ in range(2):
            came = cca.key_test(label("A"), room(4))
            self.assertEqual((came.outcome, came.is_in_doubt), (ENDED, 0))
        self.begin()
        self.is_served(cca)
        nowhere = Cca("", self.folder / ("x" * 200), opened="open_socket")
        self.assertEqual(nowhere.key_test(label("A"), room(4)).outcome, ENDED)

    def test_no_reply(self):
        """A front that takes a request and gives no reply: the connection is closed, the request in doubt."""
        with socket.socket(socket.AF_UNIX) as listener:
            listener.bind(str(self.folder / "silent"))
            listener.listen()
            cca = Cca("", self.folder / "silent", opened="open_socket", patience=1)
            came = cca.key_test(label("A"), room(4))
            self.assertEqual((came.outcome, came.is_in_doubt), (ENDED, 1))


class Table(unittest.TestCase):
    def test_made(self):
        """The table is what its maker makes of the table of verbs."""
        it = subprocess.run([sys.executable, "-B", LIBRARIES / "c" / "make_table.py", "--check"], capture_output=True, text=True)
        self.assertEqual((it.returncode, it.stderr), (0, ""))


# Calls something of each header, and needs neither program nor folder for it.
CPLUSPLUS = """
#include "csnb.h"
#include "cca_client.h"

#include <cstdio>

int main()
{
    struct cca cca;
    unsigned char token[CCA_TOKEN_SIZE], random[8];
    cca_open(&cca, "", "TELLER");
    std::printf("%d %d", cca_look_first(CCA_EXIT_STORE_FAILED), csnb_skeleton("MAC", 8, token));
    std::printf(" %d\\n", cca_random(&cca, nullptr, random).outcome == CCA_UNSAYABLE);
    return cca_close(&cca);
}
"""


class Headers(unittest.TestCase):
    @unittest.skipUnless(shutil.which("g++") and shutil.which("cc"), "g++ isn't installed")
    def test_cplusplus(self):
        """A program in C++ compiles with the headers, and links the library."""
        folder = Path(tempfile.mkdtemp(dir=scratch().name))
        (folder / "program.cpp").write_text(CPLUSPLUS)
        sources = sorted((LIBRARIES / "c").glob("*.c"))
        subprocess.run(["cc", "-std=c99", "-c", "-pthread", *sources], cwd=folder, check=True)
        words = ["g++", "-Wall", "-Wextra", "-Werror", "-pedantic", "-I", LIBRARIES / "c", "-pthread", "-o", "program", "program.cpp"]
        subprocess.run([*words, *sorted(folder.glob("*.o"))], cwd=folder, check=True)
        self.assertEqual(subprocess.run([folder / "program"], capture_output=True, text=True).stdout, "1 0 1\n")


class Sanitized(Case):
    def test_sanitized(self):
        sanitized(self, "library_c", [Verbs, Errors, Threads], ["test_verbs_of_the_table"])


class Planted(unittest.TestCase):
    """Each fault of EDITS is found by its case."""

    def test_edits(self):
        each_is_found(self, "library_c", EDITS)


if __name__ == "__main__":
    unittest.main()
