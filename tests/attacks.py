"""The attacks of docs/ATTACKS.md, as examples/attacks shows them: what each gives is what OpenSSL makes of the keys, which the attacker
doesn't have. (`tools/commands/run` compares all that is printed with the page.)
"""
import os
import re
import shutil
import subprocess
import unittest

from tests.formats import blocks, chained, code, joined, value
from tests.harness import EXAMPLES, TOP, Case, Fault

FAULTS = [Fault("\"$CCA\" \"$@\" | sed -u 's/^OK match=yes/OK match=no/'", case="Attacks.test_macs", tells="OK match=no")]

PAGE = (TOP / "docs" / "ATTACKS.md").read_text()
KEY = joined(bytes.fromhex("0f1e2d3c4b5a69788796a5b4c3d2e1f0"), b"\x5a" * 16)  # the key that is attacked
MASTER = joined(bytes.fromhex("0123456789abcdeffedcba9876543210"), bytes.fromhex("8f7e6d5c4b3a29180716253443526170"))
CLEAR = bytes.fromhex("133457799bbcdff1")
IV = bytes.fromhex("1234567890abcdef")


@unittest.skipUnless(shutil.which("openssl"), "openssl isn't installed")
class Attacks(Case):
    def shown(self, *names):
        """The lines that the program shows of an attack."""
        words, environment = [EXAMPLES / "attacks" / "attacks.py", *names], {**os.environ, "CCA": self.program.path}
        it = subprocess.run(words, env=environment, stdout=subprocess.PIPE, text=True)
        self.assertEqual(it.returncode, 0 if names else 2, it.stdout)
        return it.stdout.splitlines()

    def test_page(self):
        """The page shows each attack once."""
        names = [it.strip() for it in self.shown()[1:]]
        self.assertEqual(sorted(re.findall(r"attacks\.py ([a-z-]+)\n", PAGE)), sorted(names))

    def test_a_mac_key_deciphers(self):
        """The last three requests: the check value is that of the MAC key, and it deciphers."""
        wanted = [f"OK value={value(KEY)}", f"OK text={blocks(KEY, bytes(8), '-d').hex()}"]
        for name in ("related-transport-keys", "exchanged-transport-key", "related-master-keys", "related-new-registers"):
            with self.subTest(name):
                self.assertEqual(self.shown(name)[-3::2], wanted)

    def test_keys_in_clear(self):
        """The last line has the key, its check value, or the key that came in."""
        for name, wanted in (
            ("exported-keys-in-clear", f"key is {KEY.hex()}."),
            ("exporter-sent-as-a-key", f"it is {KEY.hex()}."),
            ("known-new-master-key", f"it is {KEY.hex()}."),
            ("known-transport-key", f"check value is {value(KEY)}."),
            ("equal-parts", f"the key {CLEAR.hex()}."),
        ):
            with self.subTest(name):
                self.assertIn(wanted, self.shown(name)[-1])

    def test_searches(self):
        """The last line has the keys that were searched for, but for the bits that DES doesn't use."""
        for name, *wanted in (
            ("third-of-master-key", MASTER[:8]),
            ("many-keys-from-one-part", bytes.fromhex("a1b2c3d4e5f60708")),
            ("halves-by-verifying", KEY[:8], KEY[8:]),
        ):
            with self.subTest(name):
                found = re.findall(r"\b[0-9a-f]{16}\b", self.shown(name)[-1])
                self.assertEqual([[it & 254 for it in bytes.fromhex(key)] for key in found], [[it & 254 for it in key] for key in wanted])

    def test_macs(self):
        """The last MAC that is verified is the right one of its text."""
        for name, key in (
            ("verifying-makes-macs", KEY[:8]),
            ("extended-message", KEY[:8]),
            ("zeros-at-the-end", KEY),
            ("check-value-as-a-mac", KEY),
            ("macs-by-encipherment", CLEAR),
            ("macs-by-decipherment", CLEAR),
        ):
            with self.subTest(name):
                request, reply = self.shown(name)[-2:]
                mac, text = re.search(r" mac=(\w+) text=(\w+)$", request).groups()
                self.assertEqual((mac, reply), (code(key, bytes.fromhex(text))[1].hex()[: len(mac)], "OK match=yes"))

    def test_ciphertexts_read(self):
        """The ciphertext is OpenSSL's; the last line says how many requests it took and what was read."""
        for name, text, told in (
            ("verifying-reads", b"PIN=0815", r"Request 816 .* PIN=0815\."),
            ("padding-oracle", b"PIN=4711", r"8 of 256 .* '1'\."),
        ):
            with self.subTest(name):
                *_, asked, _, last = self.shown(name)
                self.assertRegex(last, told)
                self.assertIn(f"={chained(KEY, IV, text).hex()}", asked)

    def test_check_values(self):
        """The check values that are shown, in their order."""
        key, mixtures = value(KEY), [MASTER[:16], KEY, MASTER[:8] + KEY[8:], KEY[:8] + MASTER[8:16]]
        for name, wanted in (("kept-token", [key]), ("old-files", [key]), ("replaced-key", [value(CLEAR)]), ("mixed-halves", map(value, mixtures))):
            with self.subTest(name):
                found = re.findall(r"(?m)^OK value=(\w+)$", "\n".join(self.shown(name)))
                self.assertEqual(found, list(wanted))

    def test_other_keys(self):
        """An altered vector gives another key; made-up tokens are keys, each another one."""
        before, after = re.findall(r"OK value=(\w+)", "\n".join(self.shown("altered-vector")))
        self.assertEqual((before, after == before), (value(KEY), False))
        self.assertIn("64 are accepted, with 64 check values", self.shown("made-up-tokens")[-1])
