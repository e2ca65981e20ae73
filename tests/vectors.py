"""The test vectors of clients/vectors, which OpenSSL's answers made: the program must give each of them, asked by the package for Python."""
import json
import shutil
import sys
import unittest

from tests.edits import LIBRARIES
from tests.harness import Case, Fault

sys.path.insert(0, str(LIBRARIES / "python"))
from cca import Coprocessor, Label, Token  # noqa: E402

FAULTS = [
    Fault('"$CCA" "$@" | sed -u "s/^OK value=./OK value=x/"', case="test_check_values", tells="OK value=x|hexadecimal"),
    Fault('"$CCA" "$@" | sed -u -E "s/chain=(.)./chain=\\10/"', case="test_segments", tells="!="),
]


def vectors(name):
    """The vectors of a file."""
    return json.loads((LIBRARIES / "vectors" / f"{name}.json").read_text())["vectors"]


def given(vector, *names):
    """Bytes of a vector."""
    return [bytes.fromhex(vector[name]) for name in names]


@unittest.skipUnless(shutil.which("openssl"), "openssl isn't installed")
class Vectors(Case):
    def setUp(self):
        super().setUp()
        self.cca = Coprocessor(self.folder, program=self.program.path)
        self.addCleanup(self.cca.close)

    def master_key(self, *parts):
        """Enters a master key in parts, and sets it."""
        for number, part in enumerate(parts):
            last = "LAST" if number == len(parts) - 1 else "MIDDLE"
            self.cca.master_key_process("FIRST" if number == 0 else last, part)
        self.cca.master_key_process("SET")

    def begin(self):
        """The master key of the vectors."""
        self.master_key(bytes.fromhex(vectors("tokens")[0]["master_key"]), bytes(24))

    def made(self, clear, kind="DATA"):
        """A key of a type."""
        part = self.cca.key_part_import("FIRST", clear, type=kind)
        return self.cca.key_part_import("LAST", bytes(len(clear)), key=part)

    def test_master_keys(self):
        for vector in vectors("master_keys"):
            self.master_key(*(bytes.fromhex(it) for it in vector["parts"]))
            self.assertEqual(self.cca.token_parse(self.cca.clear_key_import(bytes(8))).pattern.hex(), vector["pattern"])

    def test_tokens(self):
        """Each external token comes in as the internal one, and goes out as it came, where the control vector permits that."""
        self.begin()
        inside, outside = vectors("tokens"), vectors("exports")
        transports = given(outside[0], "transport1", "transport2")
        keys = {kind: self.made(transports[kind == "OKEYXLAT"], kind) for kind in ("EXPORTER", "IMPORTER", "IKEYXLAT", "OKEYXLAT")}
        self.assertEqual(len(inside), len(outside))
        for mine, other in zip(inside, outside):
            self.assertEqual((mine["type"], mine["clear"]), (other["type"], other["clear"]))
            internal, first, second = (Token.fromhex(it) for it in (mine["token"], other["token1"], other["token2"]))
            self.assertEqual(self.cca.token_parse(internal).vector, bytes.fromhex(mine["vector"])[: len(mine["clear"]) // 2])
            if "a key part" in mine["type"]:
                continue
            self.assertEqual(self.cca.key_import(first, keys["IMPORTER"]), internal)
            self.assertEqual(self.cca.key_translate(first, keys["IKEYXLAT"], keys["OKEYXLAT"]), second)
            if "not for export" not in mine["type"]:
                self.assertEqual(self.cca.key_export(internal, keys["EXPORTER"]), first)

    def test_check_values(self):
        self.begin()
        for vector in vectors("check_values"):
            self.assertEqual(self.cca.key_test(self.made(*given(vector, "clear"))).hex(), vector["value"])

    def test_data(self):
        self.begin()
        for vector in vectors("data"):
            clear, iv, plaintext, ciphertext = given(vector, "clear", "iv", "plaintext", "ciphertext")
            key = self.made(clear)
            self.assertEqual(self.cca.encipher(key, plaintext, iv, vector["pad"]), ciphertext)
            self.assertEqual(self.cca.decipher(key, ciphertext, iv, vector["pad"]), plaintext)

    def test_macs(self):
        self.begin()
        for vector in vectors("macs"):
            clear, data, mac = given(vector, "clear", "data", "mac")
            key = self.made(clear, "MAC")
            for length in (4, 6, 8):
                self.assertEqual(self.cca.mac_generate(key, data, vector["rule"], length), mac[:length])
                self.assertTrue(self.cca.mac_verify(key, data, mac[:length], vector["rule"]))

    def test_parts(self):
        self.begin()
        for vector in vectors("parts"):
            first, *middle, last = (bytes.fromhex(it) for it in vector["parts"])
            found = [self.cca.key_part_import("FIRST", first, type=vector["type"])]
            for part in middle:
                found.append(self.cca.key_part_import("MIDDLE", part, key=found[-1]))
            self.assertEqual([it.hex() for it in found], vector["part_tokens"])
            self.assertEqual(self.cca.key_part_import("LAST", last, key=found[-1]).hex(), vector["token"])

    def test_segments(self):
        """The requests themselves, and the chaining values of their replies."""
        self.begin()
        self.cca.record_create("K")
        for vector in vectors("segments"):
            token = self.made(bytes.fromhex(vector["clear"]), "MAC" if vector["verb"] == "CSNBMGN" else "DATA")
            self.cca.record_write(Label("K"), token)
            self.in_segments(vector)

    def in_segments(self, vector):
        rule = f" rule={vector['rule']}" if "rule" in vector else ""
        chain, segments = "", vector["segments"]
        for number, segment in enumerate(segments):
            name = "FIRST" if number == 0 else "LAST" if number == len(segments) - 1 else "MIDDLE"
            line = f"{vector['verb']} role=DEFAULT key=L:K{rule} segment={name}"
            if name == "LAST":
                line += " length=8" if rule else ""
            if name == "FIRST":
                line += "" if rule else f" iv={vector['iv']}"
            else:
                line += f" chain={chain}"
            line += f" pad={vector['pad']}" if name == "LAST" and not rule else ""
            reply = "OK" + (f" text={segment['output']}" if "output" in segment else "")
            reply += f" chain={segment['chain']}" if "chain" in segment else f" mac={vector['mac']}" if rule else ""
            self.assertEqual(self.cca.ask(f"{line} text={segment['text']}"), reply)
            chain = segment.get("chain", "")


if __name__ == "__main__":
    unittest.main()
