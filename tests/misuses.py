"""Misuses of secrets, by the crate key_cells, that must not compile: each is refused by the one error code that stands beside it, and
without its lines that end in `// misuse` each is proved.
"""
import re
import shutil
import subprocess

from tests.harness import TOP, Case, Fault

FAULTS = [Fault("echo proved", case="Misuses.test_refused", tells="borrow-e0506", stands_for="rt")]

MISUSES = {
    "array_used_while_guarded": (
        "borrow-e0506",
        """\
//! The lent array is written while its secret lives.

use key_cells::Secret;

pub fn first_byte() -> u8 {
    let mut bytes = [1; 8];
    let secret = Secret::guard(&mut bytes);
    bytes[0] = 2; // misuse
    secret.byte(0)
}
""",
    ),
    "copied_secret": (
        "borrow-e0382",
        """\
//! A secret that was moved is used again.

use key_cells::Secret;

pub fn first_byte(bytes: &mut [u8; 8]) -> u8 {
    let secret = Secret::guard(bytes);
    let moved = secret;
    let _copied = secret.byte(0); // misuse
    moved.byte(0)
}
""",
    ),
    "place_used_past_its_lease": (
        "borrow-e0505",
        """\
//! A place of the bench is read after its lease was dropped.

use key_cells::{KeyPlace, Lease, Workbench};

pub fn first_byte(bench: &mut Workbench) -> u8 {
    let lease = Lease::open(bench);
    let key = lease.key(KeyPlace::Key);
    let first = key[0];
    drop(lease);
    let _late = key[0]; // misuse
    first
}
""",
    ),
}


class Misuses(Case):
    @classmethod
    def setUpClass(cls):
        super().setUpClass()
        shutil.copy(TOP / "HANDLES", cls.shared)
        (cls.shared / "crates.txt").write_text("key_cells:\nmisuse: key_cells\n")
        for part in ("src", "specs", "proofs"):
            shutil.copytree(TOP / "crates" / "key_cells" / part, cls.shared / "crates" / "key_cells" / part)
        cls.crate = cls.shared / "crates" / "misuse"
        (cls.crate / "specs").mkdir(parents=True)
        (cls.crate / "specs" / "Lib.antt").write_text("")

    def check(self, **modules):
        """What rt check says of a crate of these modules, and whether it is proved."""
        shutil.rmtree(self.crate / "src", ignore_errors=True)
        (self.crate / "src").mkdir()
        (self.crate / "src" / "lib.rt").write_text("#![tactic(auto)]\n\n" + "".join(f"pub mod {name};\n" for name in modules))
        for name, text in modules.items():
            (self.crate / "src" / f"{name}.rt").write_text(text)
        it = subprocess.run(["rt", "check"], cwd=self.crate, stdout=subprocess.PIPE, stderr=subprocess.STDOUT, text=True)
        return it.stdout, it.returncode == 0

    def test_refused(self):
        for name, (code, text) in MISUSES.items():
            with self.subTest(name):
                said, is_proved = self.check(**{name: text})
                codes = set(re.findall(r"\[([a-z]+-[a-z0-9-]+)\]", said))
                self.assertEqual((codes, is_proved), ({code}, False), said)

    def test_proved_without_them(self):
        kept = {name: re.sub(r"(?m)^.*// misuse\n", "", text) for name, (_, text) in MISUSES.items()}
        said, is_proved = self.check(**kept)
        self.assertTrue(is_proved, said)
