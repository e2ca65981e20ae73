"""Each check finds a fault that is planted before it: one that always succeeds would go unseen. A file of checks names its faults, which
a script in the place of the program brings in. For the checks of documents and of the tools it is planted in a copy of this checkout,
in which the program is as it is built here.
"""
import importlib
import os
import re
import shutil
import subprocess
import sys
from typing import NamedTuple

from tests.__main__ import files
from tests.harness import TOP, Case, program_path


class Edit(NamedTuple):
    """A change of a file: what a pattern matches there becomes something else."""

    file: str
    pattern: str
    text: str


BASH = "#!/usr/bin/env bash\n"
WHOLE = r"(?s)\A.*\Z"
# What is run in a copy, the changes there, and a pattern of what is told then.
EDITED = {
    "model": (["tools/model/run"], [Edit("docs/MODEL.md", "`blank_bench`", "`blank`")], "key_cells: `blank_bench` of .* is in no table"),
    "pictures": (["tools/pictures/run"], [Edit("docs/HOW-IT-FITS.md", r"(?m)^ *cca --> cca_tool\n", "")], "cca --> cca_tool is missing"),
    "laws": (
        ["tools/laws/run"],
        [Edit("docs/SECURITY.md", r"(?m)^(`cca_laws::no_key_is_lost`: .*?)`kept`, ", r"\1")],
        r"laws: the page \(>\) and the sources \(<\) differ",
    ),
    "requests": (
        ["tools/requests/run"],
        [Edit("docs/VERBS.md", r"(?m)^( *CSNBRNG role=ROLE form=RANDOM)\|ODD", r"\1")],
        "has this line 0 times: CSNBRNG",
    ),
    "table": (
        [sys.executable, "-m", "unittest", "tests.generated"],
        [Edit("clients/verbs.json", r'"digits": 48', '"digits": 50')],
        r"clients/verbs\.json isn't what",
    ),
    "table_of_the_page": (
        [sys.executable, "-m", "unittest", "tests.generated"],
        [Edit("docs/VERBS.md", r"(Point: REENC\. Rules: 01 to) 05", r"\1 06")],
        r"REENCIPHER: docs/VERBS\.md has other rules: 06",
    ),
    "rules_of_the_page": (
        [sys.executable, "-m", "unittest", "tests.generated"],
        [Edit("docs/VERBS.md", r"(Point: RNG\. No master key is needed\. Rules: 01 to) 04", r"\1 05")],
        r"clients/verbs\.json isn't what",
    ),
    "circuits": (
        [sys.executable, "-m", "unittest", "tests.generated"],
        [Edit("tools/circuits/boxes.txt", r"(?m)^7 and ", "7 or ")],
        r"src/lanes/boxes\.rt isn't what",
    ),
    "vectors": (
        [sys.executable, "-m", "unittest", "tests.generated"],
        [Edit("clients/vectors/macs.json", '"mac": "f1d30f', '"mac": "f1d30e')],
        r"macs\.json isn't what",
    ),
    "manual": (
        ["tools/manual/run"],
        [Edit("docs/cca.1", "a file has a wrong size", "a file has another size")],
        "the exit statuses of the page",
    ),
    "pages": (
        ["tools/pages/run"],
        [Edit("docs/CRATES.md", "device_cells/the_selected_body_is_overwritten", "device_cells/the_selected_body")],
        "device_cells/the_selected_body is missing",
    ),
    "links": (
        ["tools/pages/run"],
        [Edit("docs/operating/REFERENCE.md", r"#a-failing-drive\)", "#a-failed-drive)")],
        "REFERENCE.md: the link RUNBOOKS.md#a-failed-drive leads nowhere",
    ),
    "surface": (
        ["tools/surface/run"],
        [Edit("tools/surface/items", r"(?m)^(fn tvv\(.*\)) -> u32$", r"\1 -> u64")],
        "expected `u64`, found `u32`",
    ),
    "commands": (
        ["tools/commands/run", "README.md"],
        [Edit("README.md", WHOLE, "    $ ./cca demo 1\n    demo 1: lines=15 ok=15 refused=1 old=1\n")],
        "README.md:1: ./cca demo 1: not as it is shown",
    ),
    "install": (
        [sys.executable, "-m", "unittest", "tests.install"],
        [Edit("tools/install/run", "share/man/man1 644", "share/man/man1 600")],
        r"'share/man/man1/cca.1': 384",
    ),
    "machines": (
        [sys.executable, "-m", "unittest", "tests.machines"],
        [Edit("crates/cca_machine/specs/Act.antt", r"effect s drawn Csnbkyt r = Show ", "effect s drawn Csnbkyt r =  Show ")],
        "stands 0 times",
    ),
    "package": (
        [sys.executable, "-m", "unittest", "tests.package", "-k", "test_files"],
        [Edit("tools/package/run", "put 711 usr/bin", "put 755 usr/bin")],
        r"'usr/bin/cca': 493",
    ),
    "package_libraries": (
        [sys.executable, "-m", "unittest", "tests.package_libraries", "-k", "Places.test_of_programs"],
        [Edit("tools/package/run", "put 644 usr/lib/cca/ibm", 'put 644 "$libraries"')],
        r"^FAIL: test_of_programs",
    ),
    "settings": (
        [sys.executable, "-m", "unittest", "tests.settings", "-k", "Wrong.test_words"],
        [Edit("service/cca_service/settings.py", "if word not in known:", "if False:")],
        "FAIL: test_words",
    ),
    "prepare": (
        [sys.executable, "-m", "unittest", "tests.prepare", "-k", "AnyUser"],
        [Edit("service/cca_service/prepare.py", r"(?m)^    if not is_roots\(folder\):$", "    if False:")],
        "FAIL: test_folder_of_settings",
    ),
    "build": (["tools/build/run"], [Edit("bin/rt", WHOLE, BASH + "echo built")], "the program could not be built"),
    "ccactl_page": (
        ["tools/manual/run"],
        [Edit("service/cca_service/ctl/ceremony.py", '"--from-pipe"', '"--by-pipe"')],
        r"service/ccactl\.8 isn't what tools/manual/ccactl makes",
    ),
    "front_page": (
        ["tools/manual/run"],
        [Edit("service/cca-front.8", r"\.B \\-\\-idle IDLE", r".B \\-\\-idles IDLE")],
        "the page of cca-front lacks --idle",
    ),
    "schedule": (
        [sys.executable, "-m", "unittest", "tests.build_schedule"],
        [Edit("tools/build/scheduling.py", r"idle = most - busy - len\(ready\)", "idle = most - busy")],
        "FAIL: test_starts",
    ),
    "build_again": (
        [sys.executable, "-m", "unittest", "tests.build"],
        [Edit("tools/build/prove", r" and self\.mark\(\)\.read_text\(\) == self\.sum", "")],
        "FAIL: test_what_changed_and_what_stands_on_it",
    ),
    "bench": (
        [sys.executable, "-m", "unittest", "tests.load", "-k", "Costs"],
        [
            Edit("crates/des_speed/out/des_speed", WHOLE, BASH + "echo\necho schedule 1000 9000"),
            Edit("crates/cca/out/cca", WHOLE, BASH + "sed 's/.*/OK/'"),
        ],
        "no cost of: triple DES of a block",
    ),
}


class Planted(Case):
    def finds(self, words, tells, folder=TOP, **named):
        """A check fails with its fault, and tells it."""
        options = {"cwd": folder, "env": {**os.environ, **named}, "stdin": subprocess.DEVNULL}
        it = subprocess.run(words, stdout=subprocess.PIPE, stderr=subprocess.STDOUT, text=True, **options)
        if it.returncode == 0 and re.search(r"^Ran 0 tests .*\n\nOK \(skipped=", it.stdout, re.MULTILINE):
            self.skipTest("what the check needs isn't installed")
        if it.returncode == 0 or not re.search(tells, it.stdout, re.MULTILINE):
            self.fail(f"exit status {it.returncode}, and nothing like {tells}:\n{it.stdout[-1000:]}")

    def finds_its_own(self, name):
        """A file of checks finds each of its faults; one that has none is among the changes, or has changes of its own, which it tries."""
        checks = importlib.import_module(f"tests.{name}")
        faults = checks.FAULTS
        if not faults and not getattr(checks, "EDITS", ()):
            named = [word for words, *_ in EDITED.values() for word in words]
            self.assertIn(f"tests.{name}", named, f"no fault is planted before tests/{name}.py")
        for number, fault in enumerate(faults, 1):
            with self.subTest(fault.case):
                words = [sys.executable, "-B", "-m", "unittest", f"tests.{name}", "-k", fault.case]
                self.finds(words, fault.tells, PLANTED=str(number))

    def finds_in_copy(self, words, edits, tells):
        """A check finds the changes of a copy."""
        copy = self.folder / "copy"
        skipped = shutil.ignore_patterns(".git", "out", "__pycache__", "*.module", "*.store", "*.trail")
        shutil.copytree(TOP, copy, symlinks=True, ignore=skipped)
        for name in ("cca", "built-from"):
            built = program_path().with_name(name)
            if built.exists():
                (copy / "crates" / "cca" / "out").mkdir(exist_ok=True)
                shutil.copy2(built, copy / "crates" / "cca" / "out" / name)
        for file, pattern, text in edits:
            (copy / file).parent.mkdir(exist_ok=True)
            before = (copy / file).read_text(errors="replace") if (copy / file).exists() else ""
            (copy / file).write_text(re.sub(pattern, text, before))
            if text.startswith(BASH):
                (copy / file).chmod(0o755)
            self.assertNotEqual((copy / file).read_text(), before)
        self.finds(words, tells, copy, PATH=f"{copy / 'bin'}:{os.environ['PATH']}", CCA_PROGRAM=str(copy / "crates/cca/out/cca"))


for _name in files():
    if _name != "planted":
        setattr(Planted, f"test_{_name}", lambda self, name=_name: self.finds_its_own(name))
for _name, _row in EDITED.items():
    setattr(Planted, f"test_{_name}_edited", lambda self, row=_row: self.finds_in_copy(*row))
