"""openCryptoki's token for IBM's CCA, as Debian packages it, over libcsulcca.so: a program of IBM's that nobody changed. Its slot daemon and
its token have fixed paths, so that they run in namespaces of their own, with files of their own: nothing of them is left, and an
openCryptoki that this machine uses isn't disturbed.
"""
import glob
import json
import os
import re
import shutil
import subprocess
import sys
import unittest
from pathlib import Path

from tests.c_library import SOURCES, declared
from tests.formats import chained, entered, made
from tests.harness import TOP, Case, Fault, limited
from tests.library_ibm import not_here

FAULTS = [Fault('"$CCA" "$@" | sed -u "/^OK/s/text=./text=0/"', case="Token.test_ciphers", tells="AssertionError")]
MODULE = next(iter(glob.glob("/usr/lib/*/opencryptoki/libopencryptoki.so.0")), "")
TOKEN = next(iter(glob.glob("/usr/lib/*/opencryptoki/stdll/libpkcs11_cca.so")), "")
HIDDEN = ("/run", "/etc/opencryptoki", "/var/lib/opencryptoki", "/dev/shm")
FIRST_SO_PIN, SO_PIN, PIN = "87654321", "76543210", "12348765"  # the first one is openCryptoki's own
CBC, CBC_PAD = 0x122, 0x125
KEY, IV = made("opencryptoki", 8), made("iv", 8)

# Debian's build of the token lacks this function, which only a token that narrows its list of mechanisms needs.
LACKING = """
void mechanism_list_transformations(void *list, unsigned long *count);
void mechanism_list_transformations(void *list, unsigned long *count)
{
    (void)list, (void)count;
}
"""

# The first process of the namespaces: it writes the number that it has outside of them, and all ends with its input.
MACHINE = f"""
set -e
read -r number rest </proc/self/stat
mount -t proc none /proc
for folder in {" ".join(HIDDEN)}; do
    mount -t tmpfs none "$folder"
done
mkdir -p /run/lock/opencryptoki/ccatok /var/lib/opencryptoki/ccatok/TOK_OBJ
chgrp -R pkcs11 /run/lock/opencryptoki /var/lib/opencryptoki
chmod -R 770 /run/lock/opencryptoki /var/lib/opencryptoki
printf 'version opencryptoki-3.1\\nslot 0\\n{{\\nstdll = libpkcs11_cca.so\\n}}\\n' >/etc/opencryptoki/opencryptoki.conf
pkcsslotd
until [ -S /run/pkcsslotd.socket ]; do
    sleep 0.1
done
echo "$number"
exec cat
"""
# The token is loaded in a way that sanitizers don't allow, so that its programs run under valgrind, where that is asked for.
VALGRIND = ["valgrind", "--quiet", "--vgdb=no", "--error-exitcode=99", "--leak-check=no", f"--suppressions={TOP / 'tests' / 'python.supp'}"]
CHECKER = VALGRIND if os.environ.get("CHECKED") else []
NAMESPACES = ["--mount", "--ipc", "--pid"]


def lacking():
    """What this check lacks here, if anything."""
    if not all(map(shutil.which, ("cc", "openssl", "pkcs11-tool", "pkcsslotd", "unshare", "nsenter"))) or not MODULE or not TOKEN:
        return "opencryptoki, opensc, cc or openssl isn't installed"
    version = subprocess.run(["dpkg-query", "-W", "-f", "${Version}", "opencryptoki"], capture_output=True, text=True).stdout
    if not version.startswith("3.8."):
        return f"openCryptoki is of another version: {version}"
    if os.geteuid() != 0 or subprocess.run(["unshare", *NAMESPACES, "--fork", "true"], capture_output=True).returncode != 0:
        return "namespaces need root"
    return ""


class Token(Case):
    """A token of openCryptoki's over cca."""

    @classmethod
    def setUpClass(cls):
        if reason := lacking():
            raise unittest.SkipTest(reason)
        super().setUpClass()
        if str(cls.shared).startswith(HIDDEN):
            raise unittest.SkipTest("the folder for files of checks can't be seen from the namespaces")
        subprocess.run([SOURCES / "build", cls.shared], check=True)
        (cls.shared / "lacking.c").write_text(LACKING)
        subprocess.run(["cc", "-shared", "-fPIC", "-o", cls.shared / "lacking.so", cls.shared / "lacking.c"], check=True)
        cls.module = cls.shared / "module"
        cls.module.mkdir()
        cls.program.ask(cls.module, entered(made("master", 24), "SET"))
        cls.number = cls.begun()
        cls.prepared()

    @classmethod
    def begun(cls):
        """Begins the namespaces: the number of their first process."""
        words = ["unshare", *NAMESPACES, "--fork", "--kill-child", "bash", "-c", MACHINE]
        machine = subprocess.Popen(words, stdin=subprocess.PIPE, stdout=subprocess.PIPE, text=True)

        def ended():
            machine.communicate("", 60)

        cls.addClassCleanup(ended)
        return machine.stdout.readline().strip()

    @classmethod
    def inside(cls, *words, **named):
        """Runs a program in the namespaces, with the library in IBM's place."""
        settings = {"LD_LIBRARY_PATH": cls.shared, "LD_PRELOAD": cls.shared / "lacking.so", "PYTHONPATH": TOP}
        settings |= {"CCA": cls.program.path, "CCA_FOLDER": cls.module, "CCA_ROLE": "DEFAULT", "CCA_COMMAND": "audit", **named}
        enter = ["nsenter", f"--target={cls.number}", *NAMESPACES, "env", *(f"{name}={value}" for name, value in settings.items())]
        return subprocess.run([*enter, *CHECKER, *words], capture_output=True, text=True, timeout=200)

    @classmethod
    def tool(cls, *words, **named):
        return cls.inside("pkcs11-tool", "--module", MODULE, "--slot", "0", *words, **named)

    @classmethod
    def prepared(cls):
        """Makes the token, with the PINs of its officer and of its user."""
        officer = ["--login", "--login-type", "so", "--so-pin"]
        for words in (
            ["--init-token", "--label", "cca", "--so-pin", FIRST_SO_PIN],
            [*officer, FIRST_SO_PIN, "--change-pin", "--new-pin", SO_PIN],
            [*officer, SO_PIN, "--init-pin", "--pin", PIN],
        ):
            came = cls.tool(*words)
            if came.returncode != 0:
                raise AssertionError(f"{words[-1]}: {came.stdout}{came.stderr}")

    def setUp(self):
        super().setUp()
        limited(self, 280)

    def carried_out(self, *orders, pin=PIN):
        """What comes of orders, by a process of its own."""
        came = self.inside(sys.executable, "-B", "-m", "tests.cryptoki", MODULE, pin, json.dumps(orders))
        self.assertEqual((came.returncode, came.stderr), (0, ""))
        return json.loads(came.stdout)

    def order(self, cipher, mechanism, label, *pieces):
        return {"cipher": cipher, "mechanism": mechanism, "iv": IV.hex(), "label": label, "pieces": [it.hex() for it in pieces]}

    def verbs_of_trail(self):
        """The verbs that were carried out."""
        return {it[1] for it in re.finditer(r"\b(CS[NU]\w+|REENCIPHER)\b", self.program.run(self.module, "trail").out)}

    def test_names(self):
        """The library has each name that the token looks up."""
        names = {it.decode() for it in re.findall(rb"(?<=\0)CS[NU][A-Z0-9]{4,}(?=\0)", Path(TOKEN).read_bytes())}
        self.assertEqual(len(names), 93)
        self.assertEqual(names - {name for name, *_ in declared("csnb.h")} - not_here(), set())

    def test_told(self):
        came = self.tool("--list-token-slots")
        self.assertEqual(came.returncode, 0, came.stderr)
        self.assertRegex(came.stdout, r"token label +: cca\n(?s:.*)token model +: IBM CCA Token\n(?s:.*)token initialized, PIN initialized")

    def test_random(self):
        for it in "ab":
            came = self.tool("--generate-random", "24", "-o", str(self.folder / it))
            self.assertEqual(came.returncode, 0, came.stderr)
        drawn = {(self.folder / it).read_bytes() for it in "ab"}
        self.assertEqual([len(it) for it in drawn], [24, 24])

    def test_ciphers(self):
        """A clear key that was brought in enciphers as OpenSSL does: at once, with padding, and in pieces."""
        text = (made("text", 32) * 600)[:16000]
        whole, odd = text[:9000], text[:9001]
        padded = odd + bytes([7]) * 7
        orders = [{"create": KEY.hex(), "label": "CLEAR"}]
        orders += [self.order("Encrypt", CBC, "CLEAR", whole), self.order("Encrypt", CBC_PAD, "CLEAR", odd)]
        orders += [self.order("Encrypt", CBC, "CLEAR", whole[:11], whole[11:4999], whole[4999:])]
        orders += [self.order("Decrypt", CBC, "CLEAR", chained(KEY, IV, whole)), self.order("Decrypt", CBC_PAD, "CLEAR", chained(KEY, IV, padded))]
        came = self.carried_out(*orders)
        wanted = [b"", chained(KEY, IV, whole), chained(KEY, IV, padded), chained(KEY, IV, whole), whole, odd]
        self.assertEqual([it[:200] for it in came], [it.hex()[:200] for it in wanted])
        self.assertEqual(came, [it.hex() for it in wanted])
        self.assertLessEqual({"CSNBCKI", "CSNBENC", "CSNBDEC"}, self.verbs_of_trail())

    def test_generated(self):
        """A key that was generated is found by another process, which deciphers what the first one enciphered."""
        came = self.tool("--login", "--pin", PIN, "--keygen", "--key-type", "DES:8", "--label", "MADE")
        self.assertEqual(came.returncode, 0, came.stderr)
        self.assertIn("Secret Key Object; DES length 8", came.stdout)
        self.assertIn("CSNBKGN", self.verbs_of_trail())
        (enciphered,) = self.carried_out(self.order("Encrypt", CBC, "MADE", b"A" * 24))
        self.assertNotEqual(enciphered, (b"A" * 24).hex())
        self.assertEqual(self.carried_out(self.order("Decrypt", CBC, "MADE", bytes.fromhex(enciphered))), [(b"A" * 24).hex()])

    def test_login(self):
        """The token's own PIN is asked for."""
        came = self.tool("--login", "--pin", "00000000", "--list-objects")
        self.assertNotEqual(came.returncode, 0)
        self.assertIn("CKR_PIN_INCORRECT", came.stderr)

    def test_not_here(self):
        """A key of triple length isn't in this profile: the token says so, and goes on."""
        came = self.tool("--login", "--pin", PIN, "--keygen", "--key-type", "DES3:24", "--label", "TRIPLE")
        self.assertNotEqual(came.returncode, 0)
        self.assertIn("CKR_FUNCTION_FAILED", came.stderr)


class Checked(Case):
    def test_whole_suite(self):
        """The same under valgrind, which finds no use of memory that wasn't written, or isn't there."""
        if os.environ.get("CHECKED") or os.environ.get("PLANTED"):
            self.skipTest("this is run by itself")
        if reason := lacking() or ("" if shutil.which("valgrind") else "valgrind isn't installed"):
            self.skipTest(reason)
        words = [sys.executable, "-B", "-m", "unittest", "tests.opencryptoki.Token"]
        environment = {**os.environ, "CHECKED": "1", "PYTHONMALLOC": "malloc"}
        it = subprocess.run(words, cwd=TOP, env=environment, capture_output=True, text=True)
        self.assertEqual(it.returncode, 0, it.stderr[-3000:])


if __name__ == "__main__":
    unittest.main()
