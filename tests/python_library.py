"""The package `cca` for Python: each verb by its name, compared with OpenSSL's answers; each rule's exception; data in segments; roles;
threads; restarts, replies that don't come and those that no request gets; and the module for tests. tests/python_connected.py has
asyncio and the socket of a front."""
import importlib.util
import os
import pickle
import re
import subprocess
import sys
import tempfile
import tomllib
import types as kinds
import unittest
from concurrent.futures import ThreadPoolExecutor
from pathlib import Path

from tests.edits import LIBRARIES, Edit, each_is_found
from tests.formats import (
    as_part,
    blocks,
    chained,
    closed,
    code,
    external,
    image,
    internal,
    pattern,
    record,
    types,
    unique,
    validation,
    value,
)
from tests.harness import TOP, Case, Fault, limited
from tests.keys import OTHER

sys.path.insert(0, str(LIBRARIES / "python"))
import cca as package  # noqa: E402
from cca import Coprocessor, Ended, Label, Refused, Token, Unexpected, testing  # noqa: E402
from cca.lines import fields_of, request_line  # noqa: E402
from cca.rows import POINTS, ROWS, RULES  # noqa: E402

FAULTS = [
    Fault('"$CCA" "$@" | sed -u "s/^OK match=no/OK match=yes/"', case="Using.test_mac", tells="matches=True"),
    Fault('"$CCA" "$@" | sed -u "s/^NO 21 key/NO 20 key/"', case="Moving.test_prohibited", tells="20, 'key'"),
]
EDITS = [
    Edit("clients/python/cca/verbs.py", 'found["match"] == "yes", used_old_key', 'found["match"] != "", used_old_key', "Using.test_mac"),
    Edit("clients/python/cca/values.py", "return self.matches", "return True", "Using.test_mac"),
    Edit("clients/python/cca/verbs.py", '- (row == "csnbenc" and pad == "X9.23")', "", "Using.test_padded"),
    Edit("clients/python/cca/verbs.py", "any_used_old_key or used_old_key", "used_old_key", "Masters.test_old_in_segments"),
    Edit("clients/python/cca/verbs.py", "        self._drop()\n        return Unexpected", "        return Unexpected", "Steps.test_unfitting"),
    Edit("clients/python/cca/verbs.py", "            self._drop()\n            raise", "            raise", "Steps.test_unfitting"),
    Edit("clients/python/cca/lines.py", "        if fault:\n            raise ValueError", "        if False:\n            raise ValueError", "Steps.test_values"),
    Edit("clients/python/cca/lines.py", "len(pairs) != len(wanted)", "False", "Steps.test_unfitting"),
    Edit("clients/python/cca/lines.py", "if not values.keys() <= wanted", "if False and not values.keys() <= wanted", "Steps.test_arguments"),
    Edit("clients/python/cca/verbs.py", "or len(digits) // 2 not in sizes", "", "Steps.test_unfitting"),
    Edit("clients/python/cca/verbs.py", 'found.get("stored") == to', '"stored" in found', "Steps.test_unfitting"),
    Edit("clients/python/cca/testing.py", "    must_be_new(folder)\n    with Coprocessor(folder, audit", "    with Coprocessor(folder, audit", "Tests.test_folder_in_use"),
]  # fmt: skip
STUB = TOP / "tests" / "stub" / "cca"
IV = bytes.fromhex("1234567890abcdef")
SINGLE, DOUBLE, TRANSPORT = (testing.KEYS[f"TEST.{name}"].clear for name in ("DATA", "DATA.16", "EXPORTER"))
DATA, DATA_16 = Label("TEST.DATA"), Label("TEST.DATA.16")
EXPORTER, IMPORTER = Label("TEST.EXPORTER"), Label("TEST.IMPORTER")
NEXT = bytes(range(24))  # another master key


def padded(data):
    """Data with the padding of X9.23."""
    count = 8 - len(data) % 8
    return data + bytes(count - 1) + bytes([count])


class Library(Case):
    """A module for tests, which each test has a copy of."""

    def setUp(self):
        super().setUp()
        limited(self, 200)
        template = self.shared / "template"
        if not template.exists():
            template.mkdir()
            testing.make_template(template, self.program.path)
        it = testing.module(self.folder, template=template, program=self.program.path)
        self.module = it.__enter__()
        self.addCleanup(it.__exit__, None, None, None)
        self.cca = self.module.cca

    def refused(self, rule, field, call, *given, **named):
        """A call must be refused by a rule."""
        with self.assertRaises(Refused) as raised:
            call(*given, **named)
        it = raised.exception
        self.assertEqual((it.rule, it.field), (rule, field))
        self.assertTrue(it.text)
        self.assertIn(it.text, str(it))

    def master_key(self, key):
        """Enters a master key."""
        self.assertEqual(self.cca.master_key_process("FIRST", key), "partial")
        self.assertEqual(self.cca.master_key_process("MIDDLE", bytes(24)), "partial")
        self.assertEqual(self.cca.master_key_process("LAST", bytes(24)), "full")


class Using(Library):
    """Verbs that use keys."""

    def test_ciphered(self):
        for key, clear in ((DATA, SINGLE), (DATA_16, DOUBLE)):
            for size in (8, 4096, 4104, 12_304):
                data = bytes(it % 251 for it in range(size))
                wanted = chained(clear, IV, data)
                self.assertEqual(self.cca.encipher(key, data, IV), wanted)
                self.assertEqual(self.cca.decipher(key, wanted, IV), data)

    def test_padded(self):
        for size in (0, 1, 8, 4095, 4096, 8_177):
            data = bytes(it % 251 for it in range(size))
            wanted = chained(SINGLE, IV, padded(data))
            self.assertEqual(self.cca.encipher(DATA, data, IV, "X9.23"), wanted)
            self.assertEqual(self.cca.decipher(DATA, wanted, IV, "X9.23"), data)

    def test_by_token(self):
        token = self.cca.record_read("TEST.CIPHER")
        self.assertEqual(self.cca.encipher(token, bytearray(16), IV), chained(SINGLE, IV, bytes(16)))

    def test_mac(self):
        for name, rule, clear in (("", "X9.9-1", SINGLE), (".16", "X9.19OPT", DOUBLE)):
            key, verifier = Label(f"TEST.MAC{name}"), Label(f"TEST.MACVER{name}")
            for size in (1, 8, 4096, 4097, 8_177):
                data = bytes(it % 251 for it in range(size))
                wanted = code(clear, data)[1]
                for length in (4, 6, 8) if size == 1 else (8,):
                    self.assertEqual(self.cca.mac_generate(key, data, rule, length), wanted[:length])
                    self.assertTrue(self.cca.mac_verify(verifier, data, wanted[:length], rule))
                wrong = bytes([wanted[0] ^ 1]) + wanted[1:]
                self.assertFalse(self.cca.mac_verify(verifier, data, wrong, rule))

    def test_key_test(self):
        for label, key in self.module.keys.items():
            self.assertEqual(self.cca.key_test(Label(label)).hex(), value(key.clear), label)

    def test_request(self):
        """A request by its row: the fields of the reply as they stand in it."""
        found = self.cca.request("csnbkyt", key="L:TEST.DATA")
        self.assertEqual(found, {"value": value(SINGLE)})
        self.assertFalse(found.used_old_key)
        for fields in ({}, {"key": "L:TEST.DATA", "text": "00"}, {"key": "L:TEST.DATA", "role": "DEFAULT"}):
            with self.assertRaises(TypeError):
                self.cca.request("csnbkyt", **fields)
        with self.assertRaises(Refused) as refused:
            self.cca.request("csnbkrr", label="NO.SUCH")
        self.assertEqual((refused.exception.rule, refused.exception.field), (7, "label"))

    def test_random(self):
        self.assertNotEqual(self.cca.random(), self.cca.random())
        for form, odd in (("ODD", 1), ("EVEN", 0)):
            self.assertEqual({it.bit_count() % 2 for it in self.cca.random(form)}, {odd})


class Making(Library):
    """Verbs that make keys."""

    def test_clear_key_import(self):
        vector = types()["DATA"][8]
        token = self.cca.clear_key_import(SINGLE)
        self.assertIsInstance(token, Token)
        self.assertEqual(token.hex(), internal(testing.MASTER_KEY, SINGLE, vector))
        self.cca.record_create("PAY")
        self.assertEqual(self.cca.clear_key_import(SINGLE, to="PAY"), Label("PAY"))
        self.assertEqual(self.cca.record_read("PAY"), token)

    def test_key_generate(self):
        made = self.cca.key_generate("OP", 16, "EXPORTER")
        self.assertEqual((self.cca.token_parse(made.first).key_class, made.second), ("EXPORTER", None))
        self.cca.record_create("NEW")
        made = self.cca.key_generate("OPEX", "DOUBLE-O", "MAC", "MACVER", transport2=EXPORTER, to="NEW")
        self.assertEqual(made.first, Label("NEW"))
        there = self.cca.key_import(made.second, IMPORTER)
        self.assertEqual(self.cca.key_test(there), self.cca.key_test(made.first))
        self.assertEqual(self.cca.token_parse(there).vector, unique(types()["MACVER"][16]))

    def test_key_generate_for_others(self):
        for form, first, second in (("OPIM", None, IMPORTER), ("IMEX", IMPORTER, EXPORTER), ("EXEX", EXPORTER, EXPORTER), ("IMIM", IMPORTER, IMPORTER)):
            made = self.cca.key_generate(form, 8, "DATA", "DATA", first, second)
            here = made.first if first is None else self.cca.key_import(made.first, IMPORTER)
            self.assertEqual(self.cca.key_test(self.cca.key_import(made.second, IMPORTER)), self.cca.key_test(here))

    def test_key_part_import(self):
        vector = types()["EXPORTER"][16]
        parts = [bytes([number] * 16) for number in (1, 2, 4)]
        part = self.cca.key_part_import("FIRST", parts[0], type="EXPORTER")
        self.assertEqual(part.hex(), internal(testing.MASTER_KEY, parts[0], as_part(vector)))
        part = self.cca.key_part_import("MIDDLE", parts[1], key=part)
        self.cca.record_create("TO.B")
        self.assertEqual(self.cca.key_part_import("LAST", parts[2], key=part, to="TO.B"), Label("TO.B"))
        self.assertEqual(self.cca.record_read("TO.B").hex(), internal(testing.MASTER_KEY, bytes([7] * 16), vector))


class Moving(Library):
    """Verbs that move keys."""

    def test_export_import(self):
        vector = types()["DATA"][16]
        token = self.cca.key_export(DATA_16, EXPORTER)
        self.assertEqual(token.hex(), external(TRANSPORT, DOUBLE, vector))
        self.cca.record_create("BACK")
        self.assertEqual(self.cca.key_import(token, IMPORTER, to="BACK"), Label("BACK"))
        self.assertEqual(self.cca.record_read("BACK"), self.cca.record_read("TEST.DATA.16"))

    def test_translate(self):
        token = Token.fromhex(external(TRANSPORT, SINGLE, types()["MAC"][8]))
        self.assertEqual(self.cca.key_translate(token, Label("TEST.IKEYXLAT"), Label("TEST.OKEYXLAT")), token)

    def test_prohibited(self):
        token = self.cca.prohibit_export(DATA)
        self.assertEqual(token.hex(), internal(testing.MASTER_KEY, SINGLE, closed(types()["DATA"][8])))
        self.refused(21, "key", self.cca.key_export, token, EXPORTER)
        self.assertEqual(self.cca.prohibit_export(DATA, to="TEST.DATA"), DATA)
        self.refused(21, "key", self.cca.key_export, DATA, EXPORTER)

    def test_token_change(self):
        token = self.cca.record_read("TEST.MAC")
        vector = types()["MAC"][8]
        self.master_key(NEXT)
        self.assertEqual(self.cca.token_change(token, "RTNMK").hex(), internal(NEXT, SINGLE, vector))
        self.assertEqual(self.cca.master_key_process("SET"), "empty")
        changed = self.cca.token_change(token)
        self.assertEqual(changed.hex(), internal(NEXT, SINGLE, vector))
        # The request used a key under the old master key; what it gave is current.
        self.assertEqual((changed.used_old_key, self.cca.key_test(changed).used_old_key), (True, False))

    def test_token_parse(self):
        it = self.cca.token_parse(self.cca.record_read("TEST.MAC.16"))
        self.assertEqual((it.kind, it.key_class, it.length), ("internal", "MAC", 16))
        self.assertEqual((it.vector, it.pattern), (types()["MAC"][16], pattern(testing.MASTER_KEY)))
        it = self.cca.token_parse(self.cca.key_export(DATA, EXPORTER))
        self.assertEqual((it.kind, it.length, it.vector, it.pattern), ("external", 8, types()["DATA"][8][:8], bytes(8)))


class Masters(Library):
    """Labels, master keys and roles."""

    def test_labels(self):
        self.cca.record_create("A.1")
        self.cca.record_create("A.2")
        self.cca.record_write("A.1", self.cca.record_read("TEST.MAC"))
        self.assertEqual(self.cca.record_list("A."), [Label("A.1"), Label("A.2")])
        self.assertEqual(self.cca.record_list("NONE"), [])
        self.assertEqual(self.cca.record_list(), sorted([*self.module.keys, "A.1", "A.2"]))
        self.cca.record_delete("A.1")
        self.assertEqual(self.cca.record_list("A."), [Label("A.2")])
        self.refused(8, "label", self.cca.record_read, "A.2")

    def test_master_keys(self):
        """A change of the master key: which results say that a key is under the old one."""
        self.master_key(NEXT)
        self.assertEqual(self.cca.master_key_process("CLEAR"), "empty")
        self.master_key(NEXT)
        token = self.cca.record_read("TEST.DATA")
        self.assertFalse(self.cca.encipher(DATA, bytes(8), IV).used_old_key)
        self.cca.master_key_process("SET")
        self.assertTrue(self.cca.encipher(DATA, bytes(8), IV).used_old_key)
        self.assertTrue(self.cca.mac_verify(Label("TEST.MACVER"), b"1", code(SINGLE, b"1")[1]).used_old_key)
        self.assertTrue(self.cca.key_test(token).used_old_key)
        self.assertTrue(self.cca.record_write("TEST.DATA", token).used_old_key)
        self.assertTrue(self.cca.prohibit_export(DATA, to="TEST.DATA").used_old_key)
        self.assertTrue(self.cca.key_generate("OPEX", 8, "DATA", "DATA", transport2=EXPORTER).used_old_key)
        self.assertEqual(self.cca.reencipher(), len(self.module.keys) - 1)  # the one that was stored is current
        self.assertFalse(self.cca.encipher(DATA, bytes(8), IV).used_old_key)

    def test_old_in_segments(self):
        self.master_key(NEXT)
        self.cca.master_key_process("SET")
        asked = self.cca.ask
        replies = []

        def ask(request):
            """Re-enciphers the store before the last segment."""
            if "segment=LAST" in request:
                asked("REENCIPHER role=DEFAULT")
            replies.append(asked(request))
            return replies[-1]

        self.cca.ask = ask
        data = bytes(5000)
        came = self.cca.encipher(DATA, data, IV)
        self.assertEqual((came, came.used_old_key), (chained(SINGLE, IV, data), True))
        self.assertEqual([it.endswith(" warn=old") for it in replies], [True, False])

    def test_staged(self):
        self.master_key(NEXT)
        self.assertEqual(self.cca.reencipher("AHEAD"), len(self.module.keys))
        self.refused(33, "-", self.cca.master_key_process, "CLEAR")
        self.assertEqual(self.cca.reencipher("DROP"), len(self.module.keys))
        self.assertEqual(self.cca.master_key_process("CLEAR"), "empty")

    def test_roles(self):
        teller, officer = self.cca.as_role("TELLER"), self.cca.as_role("OFFICER")
        self.assertEqual(teller.key_test(DATA), officer.key_test(DATA))
        self.refused(4, "-", officer.encipher, DATA, bytes(8), IV)
        self.cca.role_define("OFFICER", POINTS["ENC"])
        self.assertEqual(officer.encipher(DATA, bytes(8), IV), chained(SINGLE, IV, bytes(8)))
        self.cca.role_define("OFFICER", ["DEC", "KRL"])
        self.refused(4, "-", officer.encipher, DATA, bytes(8), IV)
        self.assertEqual(len(officer.record_list()), len(self.module.keys))
        self.cca.role_remove("OFFICER")
        self.refused(3, "-", officer.record_list)

    def test_audited(self):
        """With audit the requests are in the trail."""
        folder = self.folder / "audited"
        folder.mkdir()
        with Coprocessor(folder, audit=True, program=self.program.path, role="DEFAULT") as it:
            it.record_create("A")
            self.refused(29, "label", it.record_create, "A")
        records = ["0 00 DEFAULT CSNBKRC A", "1 29 DEFAULT CSNBKRC A"]
        self.ends(self.program.run(folder, "trail"), 0, records)


def altered(token, at, byte):
    """A token with another byte, whose validation value is right."""
    body = token[:at] + bytes([byte]) + token[at + 1 : 60]
    return Token(body + validation(body))


class Rules(Library):
    """Each rule as an exception."""

    def test_rules(self):
        cca, token = self.cca, self.cca.record_read("TEST.DATA")
        outside = self.cca.key_export(DATA, EXPORTER)
        part = cca.key_part_import("FIRST", SINGLE, type="DATA")
        other = Token.fromhex(internal(testing.MASTER_KEY, SINGLE, OTHER))
        decipherer = Token.fromhex(internal(testing.MASTER_KEY, SINGLE, types()["DECIPHER"][8]))
        short = Token.fromhex(internal(testing.MASTER_KEY, SINGLE, types()["EXPORTER"][16][:5] + bytes(11)))
        cca.record_create("NULL")
        rows = [
            (3, "-", cca.as_role("NOBODY").random),
            (4, "-", cca.as_role("NOTHING").random),
            (6, "key", cca.key_test, Label("pay")),
            (6, "to", cca.clear_key_import, SINGLE, "pay"),
            (7, "key", cca.key_test, Label("NONE")),
            (8, "key", cca.key_test, Label("NULL")),
            (9, "key", cca.key_test, outside),
            (10, "key", cca.key_test, Token(token[:-1] + bytes([token[-1] ^ 1]))),
            (11, "key", cca.key_test, altered(token, 4, 1)),
            (12, "key", cca.key_test, altered(token, 6, 0x40)),
            (13, "key", cca.key_test, altered(token, 5, 1)),
            (14, "token", cca.token_parse, altered(token, 34, 0x01)),
            (15, "key", cca.key_test, altered(token, 35, 0x03)),
            (16, "key", cca.key_test, altered(token, 37, 0x81)),
            (17, "key", cca.key_test, part),
            (18, "key", cca.key_test, altered(token, 8, token[8] ^ 1)),
            (19, "key", cca.key_test, other),
            (19, "key", cca.encipher, Label("TEST.MAC"), bytes(8), IV),
            (20, "key", cca.encipher, decipherer, bytes(8), IV),
            (21, "key", cca.key_export, cca.prohibit_export(DATA), EXPORTER),
            (22, "transport", cca.key_export, DATA, short),
            (23, "text", cca.encipher, DATA, bytes(7), IV),
            (23, "text", cca.encipher, DATA, bytes(5001), IV),
            (23, "text", cca.mac_generate, DATA, b""),
            (24, "type2", cca.key_generate, "OPEX", 8, "DATA", "MAC", None, EXPORTER),
            (25, "-", cca.master_key_process, "SET"),
            (29, "label", cca.record_create, "NULL"),
            (30, "name", cca.role_remove, "NOBODY"),
            (31, "text", cca.decipher, DATA, chained(SINGLE, IV, bytes(8)), IV, "X9.23"),
            (32, "key", cca.mac_generate, DATA_16, b"1"),
            (32, "length", cca.key_generate, "OP", 16, "CIPHER"),
            (32, "part", cca.key_part_import, "FIRST", SINGLE, "EXPORTER"),
            (35, "key", cca.key_part_import, "LAST", SINGLE, None, DATA),
        ]
        for rule, field, call, *given in rows:
            with self.subTest(rule=rule, call=call.__name__):
                self.refused(rule, field, call, *given)

    def test_rules_of_masters(self):
        folder = self.folder / "blank"
        folder.mkdir()
        with Coprocessor(folder, program=self.program.path) as blank:
            self.refused(5, "-", blank.clear_key_import, SINGLE)
        self.master_key(testing.MASTER_KEY)
        self.refused(26, "-", self.cca.master_key_process, "SET")
        self.cca.master_key_process("CLEAR")
        self.master_key(NEXT)
        self.cca.master_key_process("SET")
        self.master_key(testing.MASTER_KEY)
        self.refused(27, "-", self.cca.master_key_process, "SET")

    def test_full(self):
        """A store with 1,024 labels."""
        folder = self.folder / "full"
        folder.mkdir()
        (folder / "cca.store").write_bytes(image("store", [record(f"L{number}") for number in range(1024)]))
        with Coprocessor(folder, program=self.program.path) as full:
            self.assertEqual(len(full.record_list()), 1024)
            self.refused(28, "label", full.record_create, "MORE")

    def test_every_rule(self):
        """What the methods can't bring about: lines, and a random source that repeats itself."""
        for row, reply in (("csnbkyt", "NO 01 -"), ("csnbkyt", "NO 02 -"), ("csnbkgn_op", "NO 34 length"), ("csnbenc_last", "NO 36 chain")):
            self.refused(int(reply[3:5]), reply[6:], fields_of, row, reply)
        self.assertEqual({int(rule) for rule, _ in RULES}, set(range(1, 37)))
        it = pickle.loads(pickle.dumps(Refused(32, "part")))
        self.assertIn("the part hasn't the key's length", it.text)
        self.assertEqual(it.rule, 32)

    def test_chains(self):
        """Chaining values that are altered: rule 36, by the line."""
        line = f"CSNBENC role=DEFAULT key=L:TEST.DATA segment=LAST chain={'00' * 8}{'08'}{'00' * 7} pad=NONE text={'00' * 8}"
        self.assertEqual(self.cca.ask(line), "NO 36 chain")


class Steps(Library):
    """No request but those that are meant, and no reply but that to a request."""

    def test_values(self):
        """What can't be sent: nothing is."""
        asked = []
        self.cca.ask = asked.append
        calls = [
            (ValueError, "iv: 14 digits", self.cca.encipher, DATA, bytes(8), bytes(7)),
            (ValueError, "a blank can't be in a label", self.cca.key_test, Label("PAY iv=00")),
            (ValueError, "a newline can't be in a label", self.cca.key_test, Label("PAY\nCSNBKRD role=DEFAULT label=PAY")),
            (ValueError, "no label", self.cca.record_read, ""),
            (ValueError, "64 bytes", self.cca.token_parse, bytes(63)),
            (ValueError, "NONE or X9.23", self.cca.encipher, DATA, bytes(8), IV, "PKCS"),
            (ValueError, "is wanted", self.cca.key_generate, "OP", 24, "DATA"),
            (ValueError, "can't be removed", self.cca.role_remove, "DEFAULT"),
            (ValueError, "no access control point", self.cca.role_define, "A", 1 << 30),
            (ValueError, "no access control point is called NONE", self.cca.role_define, "A", ["NONE", "ENC"]),
            (ValueError, "no row is called csnbpin", self.cca.request, "csnbpin"),
            (ValueError, "48 are wanted", self.cca.master_key_process, "FIRST", bytes(23)),
            (ValueError, "name of a role", self.cca.as_role("a role").random),
            (TypeError, "Label", self.cca.key_test, "TEST.DATA"),
            (TypeError, "bytes are wanted", self.cca.encipher, DATA, "data", IV),
            (TypeError, "label", self.cca.clear_key_import, SINGLE, 7),
        ]
        for kind, tells, call, *given in calls:
            with self.subTest(tells), self.assertRaisesRegex(kind, tells):
                call(*given)
        self.assertEqual(asked, [])

    def test_arguments(self):
        """An argument that a form doesn't have, or lacks: nothing is sent."""
        asked = []
        self.cca.ask = asked.append
        calls = [
            ("to isn't taken", self.cca.key_generate, "EXEX", 8, "MAC", "MACVER", EXPORTER, EXPORTER, "NEW"),
            ("transport2 isn't taken, type2 isn't taken", self.cca.key_generate, "OP", 8, "MAC", "MACVER", None, EXPORTER),
            ("transport2 is missing, type2 is missing", self.cca.key_generate, "OPEX", 8, "DATA"),
            ("part isn't taken", self.cca.master_key_process, "CLEAR", bytes(24)),
            ("part is missing", self.cca.master_key_process, "FIRST"),
            ("key isn't taken", self.cca.key_part_import, "FIRST", SINGLE, "DATA", DATA),
            ("type isn't taken", self.cca.key_part_import, "LAST", SINGLE, "DATA", DATA),
            ("type is missing", self.cca.key_part_import, "FIRST", SINGLE),
            ("action isn't taken", self.cca.reencipher, "ALL"),
        ]
        for tells, call, *given in calls:
            with self.subTest(tells), self.assertRaisesRegex(TypeError, tells):
                call(*given)
        self.assertEqual(asked, [])

    def test_unfitting(self):
        """A reply that no such request gets: the program is ended, and started again."""
        asked = self.cca.ask
        digits = internal(testing.MASTER_KEY, SINGLE, types()["DATA"][8])
        calls = [
            ("OK mac=00000000", self.cca.encipher, DATA, bytes(8), IV),
            ("OK text=zz", self.cca.encipher, DATA, bytes(8), IV),
            ("OK text=", self.cca.encipher, DATA, bytes(8), IV),
            (f"OK text={'00' * 8}", self.cca.encipher, DATA, bytes(8), IV, "X9.23"),
            (f"OK text={'00' * 8}", self.cca.decipher, DATA, bytes(8), IV, "X9.23"),
            ("OK text=00 chain=00", self.cca.encipher, DATA, bytes(8), IV),
            ("OK chain=00", self.cca.mac_generate, Label("TEST.MAC"), bytes(5000)),
            ("OK mac=00", self.cca.mac_generate, Label("TEST.MAC"), b"1", "X9.9-1", 8),
            ("OK value=zz", self.cca.key_test, DATA),
            ("OK value=00", self.cca.key_test, DATA),
            ("OK random=00", self.cca.random),
            ("OK random=00 00 00 00", self.cca.random),
            ("OK token=00", self.cca.key_export, DATA, EXPORTER),
            (f"OK token={digits} stored=A", self.cca.key_export, DATA, EXPORTER),
            ("OK stored=OTHER", self.cca.clear_key_import, SINGLE, "PAY"),
            ("OK stored=OTHER", self.cca.clear_key_import, SINGLE),
            (f"OK token={digits}", self.cca.clear_key_import, SINGLE, "PAY"),
            (f"OK token1={digits} token2=00", self.cca.key_generate, "OPEX", 8, "DATA", "DATA", None, EXPORTER),
            (f"OK kind=internal class=DATA length=8 vector=00 pattern={'00' * 8}", self.cca.token_parse, bytes.fromhex(digits)),
            (f"OK kind=inner class=DATA length=8 vector={'00' * 8} pattern={'00' * 8}", self.cca.token_parse, bytes.fromhex(digits)),
            ("OK", self.cca.random),
            ("OK match=maybe", self.cca.mac_verify, DATA, b"1", bytes(4)),
            ("OK new=half", self.cca.master_key_process, "CLEAR"),
            ("OK count=2 labels=A", self.cca.record_list),
            ("no reply at all", self.cca.record_create, "A"),
            ("OK text=4711 key=0123456789abcdef", self.cca.decipher, DATA, bytes(8), IV),
        ]
        for reply, call, *given in calls:
            with self.subTest(reply):
                before = self.cca.ask("CSNBKYT role=DEFAULT key=L:TEST.DATA") and self.cca.process.child.pid
                self.cca.ask = lambda request: reply
                with self.assertRaises(Unexpected) as raised:
                    call(*given)
                for value_of_reply in re.findall("=([^ ]{4,})", reply):  # it may have been deciphered
                    self.assertNotIn(value_of_reply, str(raised.exception))
                self.cca.ask = asked
                self.assertEqual(self.cca.key_test(DATA).hex(), value(SINGLE))
                self.assertNotEqual(self.cca.process.child.pid, before)

    def test_killed(self):
        self.cca.key_test(DATA)
        self.cca.process.child.kill()
        self.cca.process.child.wait()
        with self.assertRaises(Ended) as raised:
            self.cca.key_test(DATA)
        self.assertEqual((raised.exception.status, raised.exception.in_doubt), (-9, False))
        self.assertEqual(self.cca.key_test(DATA).hex(), value(SINGLE))

    def test_no_program(self):
        with self.assertRaises(FileNotFoundError):
            Coprocessor(self.folder, program="/nowhere/cca").random()

    def test_damaged(self):
        self.cca.close()
        (self.folder / "cca.store").write_bytes(b"x")
        for _ in range(2):
            with self.assertRaises(Ended) as raised:
                self.cca.key_test(DATA)
            self.assertEqual((raised.exception.status, raised.exception.in_doubt), (17, False))

    def test_patience(self):
        """A reply that doesn't come in time isn't taken for that to the next request."""
        with Coprocessor(self.folder, program=STUB) as it:
            self.assertEqual(it.ask("A role=B K1"), "OK value=role=B,K1")
            it.patience = 3.0
            with self.assertRaises(Ended) as raised:
                it.ask("A role=B stub=waits60000 K2")
            self.assertTrue(raised.exception.in_doubt)
            it.patience = 60.0
            self.assertEqual(it.ask("A role=B K3"), "OK value=role=B,K3")

    def test_threads(self):
        """Eight threads, each of which gets what belongs to its own request."""
        def asks(number):
            for turn in range(20):
                data = f"{number} {turn}".encode()
                self.assertEqual(self.cca.mac_generate(Label("TEST.MAC"), data), wanted[data])
                self.assertEqual(self.cca.as_role("TELLER").key_test(Label("TEST.DATA.16")).hex(), value(DOUBLE))

        messages = [f"{number} {turn}".encode() for number in range(8) for turn in range(20)]
        # The MAC of a message of one block is that block enciphered.
        macs = blocks(SINGLE, b"".join(it.ljust(8, b"\0") for it in messages))
        wanted = {data: macs[8 * at : 8 * at + 4] for at, data in enumerate(messages)}
        with ThreadPoolExecutor(8) as threads:
            for it in [threads.submit(asks, number) for number in range(8)]:
                it.result()

    def test_lines(self):
        """The row of every request is reached by a method, and its line is in the grammar's order."""
        line = request_line("csnbmgn_first", "A", {"key": "L:B", "rule": "X9.9-1", "text": "00"})
        self.assertEqual(line, "CSNBMGN role=A key=L:B rule=X9.9-1 segment=FIRST text=00")
        self.assertEqual(request_line("csnbkyt", None, {"key": "L:B"}), "CSNBKYT key=L:B")
        verbs = (LIBRARIES / "python" / "cca" / "verbs.py").read_text()
        for row in ROWS:
            self.assertTrue(f'"{row}"' in verbs or row.rpartition("_")[0] in ("csnbenc", "csnbdec", "csnbmgn", "csnbmvr"), row)


class Tests(Library):
    """The module for tests, and its fixture."""

    def test_scratch(self):
        with testing.module(program=self.program.path) as it:
            folder = it.folder
            self.assertEqual(it.cca.key_test(DATA).hex(), value(SINGLE))
            self.assertEqual(it.cca.record_list(), sorted(it.keys))
        self.assertFalse(folder.exists())

    def test_folder_in_use(self):
        """A folder that holds another module, or a part of one: nothing is changed."""
        for name in ("cca.module", "cca.store", "cca.trail"):
            folder = self.folder / f"has {name}"
            folder.mkdir()
            (folder / name).write_bytes(b"held")
            for template in (None, self.shared / "template"):
                with self.assertRaises(FileExistsError), testing.module(folder, template=template, program=self.program.path):
                    pass
            with self.assertRaises(FileExistsError):
                testing.make_template(folder, self.program.path)
            self.assertEqual([(it.name, it.read_bytes()) for it in folder.iterdir()], [(name, b"held")])

    def test_fixture(self):
        """The functions of the fixture, by what stands for pytest."""
        stands = kinds.ModuleType("pytest")
        stands.fixture = lambda *given, **_: given[0] if given else lambda it: it
        for name in ("Parser", "Config", "TempPathFactory"):
            setattr(stands, name, object)
        folders = kinds.SimpleNamespace(mktemp=lambda name: Path(tempfile.mkdtemp(name, dir=self.folder)))
        before, sys.modules["pytest"] = sys.modules.get("pytest"), stands
        try:
            from cca import pytest_plugin
        finally:
            sys.modules.pop("cca.pytest_plugin", None)
            sys.modules.pop("pytest") if before is None else sys.modules.update(pytest=before)
        config = kinds.SimpleNamespace(getini=lambda name: self.program.path)
        program = pytest_plugin.cca_program(config)
        template = pytest_plugin.cca_template(program, folders)
        for it in pytest_plugin.cca_module(program, template, folders):
            self.assertEqual(it.cca.mac_generate(Label("TEST.MAC"), b"1", length=8), code(SINGLE, b"1")[1])

    @unittest.skipUnless(importlib.util.find_spec("pytest"), "pytest isn't installed")
    def test_pytest(self):
        """The fixture under pytest itself."""
        (self.folder / "test_payment.py").write_text(
            "from cca import Label\n\n\n"
            "def test_payment(cca_module):\n"
            f"    assert cca_module.cca.key_test(Label('TEST.DATA')).hex() == {value(SINGLE)!r}\n"
            "    cca_module.cca.record_delete('TEST.DATA')\n\n\n"
            "def test_other(cca_module):\n"
            "    assert 'TEST.DATA' in cca_module.cca.record_list()\n"
        )
        words = [sys.executable, "-B", "-m", "pytest", "-q", "-p", "cca.pytest_plugin", "-p", "no:cacheprovider", "test_payment.py"]
        environment = {**os.environ, "PYTHONPATH": str(LIBRARIES / "python"), "CCA": self.program.path}
        it = subprocess.run(words, cwd=self.folder, env=environment, stdout=subprocess.PIPE, stderr=subprocess.STDOUT, text=True)
        self.assertEqual(it.returncode, 0, it.stdout)
        self.assertIn("2 passed", it.stdout)

    def test_package(self):
        """What pyproject.toml names is there; and nothing is needed but Python."""
        named = tomllib.loads((LIBRARIES / "python" / "pyproject.toml").read_text())["project"]
        newest = re.search(r"(?m)^## ([0-9.]+)$", (TOP / "docs" / "CHANGES.md").read_text())[1]
        self.assertEqual((named["name"], named["dependencies"], named["dynamic"], package.__version__), ("cca", [], ["version"], newest))
        for entry in named["entry-points"]["pytest11"].values():
            self.assertTrue((LIBRARIES / "python" / f"{entry.replace('.', '/')}.py").exists())
        for name in package.__all__:
            self.assertTrue(hasattr(package, name))


class Planted(unittest.TestCase):
    """Each fault of EDITS is found by its case."""

    def test_edits(self):
        each_is_found(self, "python_library", EDITS)


if __name__ == "__main__":
    unittest.main()
