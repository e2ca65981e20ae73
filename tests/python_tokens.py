"""`python3 -m cca token` and `vector`: the default control vectors of IBM's manual; tokens that OpenSSL enciphered; tokens that were altered
in each bit, of which the program must refuse just those that break a rule here, by that rule; and each use, which the program must
allow where the words say so.
"""
import contextlib
import io
import json
import re
import sys
import unittest

from tests.edits import LIBRARIES, Edit, each_is_found
from tests.formats import as_part, closed, external, internal, types, unique, validation
from tests.harness import Fault
from tests.python_library import DOUBLE, SINGLE, TRANSPORT, Library

sys.path.insert(0, str(LIBRARIES / "python"))
from cca import __main__, testing, tokens  # noqa: E402

FAULTS = [Fault('"$CCA" "$@" | sed -u "s/^NO 14/NO 15/"', case="Altered.test_rules", tells="came: +NO 15 token")]
EDITS = [
    Edit("clients/python/cca/tokens.py", "11: token[4] == 0,", "11: True,", "Altered.test_rules"),
    Edit("clients/python/cca/tokens.py", "token[48:60]", "token[48:59]", "Altered.test_rules"),
    Edit("clients/python/cca/tokens.py", "ENCIPHERS, DECIPHERS = (18,", "ENCIPHERS, DECIPHERS = (19,", "Altered.test_uses"),
    Edit("clients/python/cca/tokens.py", '(22, "takes keys', '(20, "takes keys', "Altered.test_uses"),
    Edit("clients/python/cca/tokens.py", "(is_zero and 18 <= number <= 21)", "False", "Altered.test_zero"),
    Edit("clients/python/cca/tokens.py", "left = with_bit(left, PART, 1)", "left = with_bit(left, EXPORT, 1)", "Words.test_parts"),
]  # fmt: skip
# The default control vectors of IBM's manual (CCA Basic Services Reference and Guide, appendix C): of the left and of the right half.
IBM = {
    ("DATA", "8"): "00007D0003000000",
    ("CIPHER", "8"): "0003710003000000",
    ("ENCIPHER", "8"): "0003600003000000",
    ("DECIPHER", "8"): "0003500003000000",
    ("MAC", "8"): "00054D0003000000",
    ("MACVER", "8"): "0005440003000000",
    ("DATA", "16"): "00007D0003410000 00007D0003210000",
    ("DATAC", "16"): "0000710003410000 0000710003210000",
    ("DATAM", "16"): "00004D0003410000 00004D0003210000",
    ("DATAMV", "16"): "0000440003410000 0000440003210000",
    ("MAC", "16"): "00054D0003410000 00054D0003210000",
    ("MACVER", "16"): "0005440003410000 0005440003210000",
    ("EXPORTER", "16"): "00417D0003410000 00417D0003210000",
    ("IMPORTER", "16"): "00427D0003410000 00427D0003210000",
    ("OKEYXLAT", "16"): "0041420003410000 0041420003210000",
    ("IKEYXLAT", "16"): "0042420003410000 0042420003210000",
}
MORE = {"": "", "a key part": " key-part", "not for export": " no-export"}  # what the vectors call it, and the command


def vectors(name):
    """Test vectors of clients/vectors, which OpenSSL made."""
    return json.loads((LIBRARIES / "vectors" / f"{name}.json").read_text())["vectors"]


def said(*words):
    """What the command prints, and its exit status."""
    out, err = io.StringIO(), io.StringIO()
    with contextlib.redirect_stdout(out), contextlib.redirect_stderr(err):
        status = __main__.main([*words])
    return status, out.getvalue().splitlines(), err.getvalue()


class Words(unittest.TestCase):
    """Words to vectors, and back."""

    def test_defaults(self):
        for (kind, length), halves in IBM.items():
            wanted = halves.replace(" ", "").ljust(32, "0").lower()
            self.assertEqual(said("vector", kind, length), (0, [wanted], ""))
            self.assertEqual(tokens.words_of(bytes.fromhex(wanted)), f"{kind} {length}")

    def test_parts(self):
        """Vectors of key parts, of keys that can't be exported, and of unique halves, as the formats have them."""
        for kind, lengths in types().items():
            for length, vector in lengths.items():
                self.assertEqual(tokens.vector_of(kind, str(length), "key-part"), as_part(vector))
                self.assertEqual(tokens.vector_of(kind, str(length), "no-export"), closed(vector))
                self.assertEqual(tokens.words_of(as_part(closed(vector))), f"{kind} {length} no-export key-part")
            if 16 in lengths:
                self.assertEqual(tokens.vector_of(kind, "DOUBLE-O"), unique(lengths[16]))

    def test_wrong_words(self):
        for words in ((), ("MAC",), ("mac", "16"), ("MAC", "24"), ("CIPHER", "16"), ("MAC", "16", "export"), ("MAC", "16", "key-part", "key-part")):
            status, out, err = said("vector", *words)
            self.assertEqual((status, out), (2, []), words)
            self.assertTrue(err)


class Whole(unittest.TestCase):
    """Tokens that OpenSSL enciphered."""

    def test_tokens(self):
        rows = [(it["token"], it, "", "internal") for it in vectors("tokens")]
        rows += [(it[name], it, "", "external") for it in vectors("exports") for name in ("token1", "token2")]
        rows += [(token, {**it, "length": str(len(it["clear"]) // 2)}, " key-part", "internal") for it in vectors("parts") for token in it["part_tokens"]]
        for token, it, more, kind in rows:
            status, lines, err = said("token", token)
            self.assertEqual((status, err, lines[-2:]), (0, "", ["TVV: right", "no rule is broken"]))
            self.assertTrue(lines[0].startswith(f"kind: {kind}"))
            self.assertEqual([line for line in lines if line.startswith("MKVP")], [f"MKVP: {token[16:32]}"] * (kind == "internal"))
            left, right = token[64:80], token[80:96]
            name, _, how = it["type"].partition(", ")
            told = f"{name} {it['length']}{MORE[how] or more}" if how != "vector of zeros" else "zero, which is DATA with every use"
            self.assertIn(f"control vector: {left} {right}: {told}", lines)
            # The enciphered halves stand nowhere.
            self.assertNotIn(token[32:48], "\n".join(lines))

    def test_no_token(self):
        for word, tells in (("0" * 127, "digit 128: 127 digits, and 128 are wanted"), ("0" * 127 + "g", "digit 128: 'g' is no hexadecimal digit")):
            self.assertEqual(said("token", word), (2, [], f"{tells}\n"))
        self.assertEqual(said("token")[0], 2)


class Altered(Library):
    """Tokens that were altered, and what the program says of them."""

    def test_rules(self):
        """Each bit of the head and the vector, with a right TVV and with one that was right before."""
        given = []
        inside = [internal(testing.MASTER_KEY, *it) for it in ((DOUBLE, types()["MAC"][16]), (SINGLE, bytes(16)))]
        for token in [*inside, external(TRANSPORT, SINGLE, types()["DATA"][8])]:
            given.append(bytes.fromhex(token))
            for place in range(512):
                for bits in (1 << place % 8, 1 << place % 8 | 1):  # by itself, and so that the byte keeps its parity
                    altered = bytearray.fromhex(token)
                    altered[place // 8] ^= bits
                    given += [bytes(altered), bytes(altered[:60]) + validation(altered)]
        replies = self.cca.ask_all([f"CSNBKTP role=DEFAULT token={it.hex()}" for it in given])
        wanted = [f"NO {rule:02} token" if (rule := tokens.broken_rule(it)) else "OK" for it in given]
        self.same([it[: len("NO 10 token")] if it.startswith("NO") else "OK" for it in replies], wanted, [it.hex() for it in given])
        self.assertEqual({it[3:5] for it in wanted if it != "OK"}, {"09", "10", "11", "12", "13", "14", "15", "16"})

    def test_fields(self):
        """Class, length and vector are those of CSNBKTP."""
        for label in self.module.keys:
            token = self.cca.record_read(label)
            parsed = self.cca.token_parse(token)
            _, lines, _ = said("token", token.hex())
            found = dict(line.split(": ", 1) for line in lines if ": " in line)
            self.assertEqual((found["class"], found["length"].split()[0], found["MKVP"]), (parsed.key_class, str(parsed.length), parsed.pattern.hex()))

    def requests(self, kind, key):
        """The request of each use of a key of a class, by its bit."""
        text, double = "text=0000000000000000", "length=8 type1=DATA type2=DATA"
        data = self.cca.record_read("TEST.DATA").hex()
        outside = external(TRANSPORT, SINGLE, types()["DATA"][8])
        if kind == "EXPORTER":
            return {
                18: f"CSNBKGN role=DEFAULT form=OPEX {double} transport2=T:{key} to=-",
                19: f"CSNBKGN role=DEFAULT form=IMEX {double} transport1=L:TEST.IMPORTER transport2=T:{key}",
                20: f"CSNBKGN role=DEFAULT form=EXEX {double} transport1=T:{key} transport2=T:{key}",
                21: f"CSNBKEX role=DEFAULT key=T:{data} transport=T:{key}",
                22: f"CSNBKTR role=DEFAULT token={outside} transport1=L:TEST.IKEYXLAT transport2=T:{key}",
            }
        if kind == "IMPORTER":
            return {
                18: f"CSNBKGN role=DEFAULT form=OPIM {double} transport2=T:{key} to=-",
                19: f"CSNBKGN role=DEFAULT form=IMEX {double} transport1=T:{key} transport2=L:TEST.EXPORTER",
                20: f"CSNBKGN role=DEFAULT form=IMIM {double} transport1=T:{key} transport2=T:{key}",
                21: f"CSNBKIM role=DEFAULT token={outside} transport=T:{key} to=-",
                22: f"CSNBKTR role=DEFAULT token={outside} transport1=T:{key} transport2=L:TEST.OKEYXLAT",
            }
        ciphers = {
            number: f"{verb} role=DEFAULT key=T:{key} iv=0000000000000000 pad=NONE {text}"
            for number, verb in ((18, "CSNBENC"), (19, "CSNBDEC"))
        }
        codes = {20: f"CSNBMGN role=DEFAULT key=T:{key} rule=X9.9-1 length=8 {text}", 21: f"CSNBMVR role=DEFAULT key=T:{key} rule=X9.9-1 mac=00000000 {text}"}
        return {"DATA": ciphers | codes, "CIPHER": ciphers, "MAC": codes}[kind]

    def each_use(self, kind, vector):
        """Each use that the words name is one that the program allows, and no other."""
        size = 16 if any(vector[8:]) else 8
        token = internal(testing.MASTER_KEY, DOUBLE[:size], vector)
        uses = {int(it[1]): it[2] == "yes" for it in re.finditer(r"bit (\d+), [^:]*: (yes|no)\b", "\n".join(said("token", token)[1]))}
        requests = self.requests(kind, token)
        self.assertEqual(set(uses) - {17, 44}, set(requests))
        replies = dict(zip(requests, self.cca.ask_all(requests.values())))
        for number, reply in replies.items():
            self.assertRegex(reply, "^OK" if uses[number] else "^NO 20 ", (kind, number, vector.hex()))

    def test_uses(self):
        """Of each class a key with each use alone, and with each but one."""
        for kind, length in (("DATA", 8), ("CIPHER", 8), ("MAC", 8), ("EXPORTER", 16), ("IMPORTER", 16)):
            for number in range(18, 23):
                for others in (0, 1):
                    left = types()[kind][length][:8]
                    for it in range(18, 23):
                        left = changed(left, it, others if it != number else 1 - others)
                    self.each_use(kind, left + (left[:5] + b"\x21" + left[6:] if length == 16 else bytes(8)))

    def test_zero(self):
        """The vector of zeros: a DATA key with every use."""
        self.each_use("DATA", bytes(16))
        self.assertIn("bit 17, may be exported: yes", said("token", internal(testing.MASTER_KEY, SINGLE, bytes(16)))[1])


def changed(half, number, value):
    """A half with a bit of this value, and an even number of ones in its byte."""
    digits = f"{int.from_bytes(half, 'big'):064b}"
    digits = digits[:number] + str(value) + digits[number + 1 :]
    at = number // 8 * 8
    digits = digits[: at + 7] + str(digits[at : at + 7].count("1") % 2) + digits[at + 8 :]
    return int(digits, 2).to_bytes(8, "big")


class Planted(unittest.TestCase):
    """Each fault of EDITS is found by its case."""

    def test_edits(self):
        each_is_found(self, "python_tokens", EDITS)


if __name__ == "__main__":
    unittest.main()
