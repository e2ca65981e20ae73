"""The package `cca` for Python as a package: its exceptions through pickle and a pool of processes; its types, by Python and by mypy; the
names of exit statuses; its command; and its wheel, installed by pip without a network and used by pytest.
"""
import contextlib
import functools
import hashlib
import importlib
import inspect
import io
import json
import multiprocessing
import os
import pickle
import pkgutil
import re
import shutil
import subprocess
import sys
import tempfile
import tracemalloc
import typing
import unittest
import zipfile
from pathlib import Path

from tests.edits import LIBRARIES, Edit, each_is_found
from tests.formats import value
from tests.harness import TOP, Case
from tests.python_broken_off import SCRIPT

sys.path.insert(0, str(LIBRARIES / "python"))
import cca  # noqa: E402
from cca import AsyncCoprocessor, AsyncSocket, Coprocessor, Ended, Error, Label, Refused, Socket, Status, Token, Unexpected, __main__, testing  # noqa: E402
from cca.async_verbs import AsyncVerbs  # noqa: E402
from cca.client import Broken  # noqa: E402
from cca.verbs import Verbs  # noqa: E402

FAULTS = []  # its faults are those of EDITS
EDITS = [
    Edit("clients/python/cca/client.py", "return remade, (type(self), self.args, self.__dict__)", "return type(self), self.args", "Exceptions.test_pickled"),
    Edit("clients/python/cca/client.py", "CHUNK = 1 << 16", "CHUNK = 1 << 18", "Exceptions.test_memory"),
    Edit("clients/python/make_wheel.py", "ZipInfo(path, EARLIEST)", "ZipInfo(path, __import__('time').localtime()[:6])", "Wheel.test_same_bytes"),
    Edit("clients/python/make_wheel.py", '"entry_points.txt": entry_points()', '"top_level.txt": "cca"', "Wheel.test_installed"),
]  # fmt: skip
PYTHON = LIBRARIES / "python"
MAKE = PYTHON / "make_wheel.py"
# Of each exception the words that it is made of.
RAISED = {
    Error: ("a text",),
    Ended: ("cca ended with status 7: no text", 7, True, ["OK value=1"]),
    Refused: (32, "part"),
    Unexpected: ("a text",),
    Broken: ("a text",),
}


def modules():
    """The modules of the package, but that of pytest's fixture, which needs pytest."""
    names = (it.name for it in pkgutil.iter_modules(cca.__path__))
    return [importlib.import_module(f"cca.{it}") for it in names if it != "pytest_plugin"]


def raises_ended(_):
    """What a worker does: a request of its is in doubt."""
    raise Ended("cca ended with status -9: no text", -9, True, ["OK"])


@functools.cache
def python_with(module):
    """An interpreter that has a module, if there is one."""
    for it in dict.fromkeys([sys.executable, "/usr/bin/python3"]):
        if shutil.which(it) and subprocess.run([it, "-c", f"import sys, {module}; sys.exit(sys.version_info < (3, 11))"], capture_output=True).returncode == 0:
            return it
    return None


class Exceptions(unittest.TestCase):
    def test_pickled(self):
        """Each exception that the package defines is as it was."""
        kinds = {it for module in modules() for it in vars(module).values() if isinstance(it, type) and issubclass(it, Exception)}
        defined = {it for it in kinds if it.__module__.startswith("cca.")}
        self.assertEqual(defined, set(RAISED))
        for kind, words in RAISED.items():
            it = kind(*words)
            it.add_note("a note")
            came = pickle.loads(pickle.dumps(it))
            self.assertEqual((type(came), str(came), came.args, vars(came)), (kind, str(it), it.args, vars(it)))

    def test_one_base(self):
        """What programs may catch has one base class."""
        self.assertEqual({it for it in RAISED if issubclass(it, Error)}, set(RAISED) - {Broken})

    def test_pool(self):
        """A worker whose request is in doubt gives its exception to its parent, and the pool goes on."""
        with multiprocessing.get_context("fork").Pool(1) as pool:
            for _ in range(2):
                with self.assertRaises(Ended) as raised:
                    pool.apply_async(raises_ended, (0,)).get(100)
                self.assertEqual((raised.exception.status, raised.exception.in_doubt, raised.exception.replies), (-9, True, ["OK"]))

    def test_statuses(self):
        """The names are those of the exit statuses of docs/VERBS.md, and one for what nobody can tell."""
        listed = {it["status"] for it in json.loads((LIBRARIES / "verbs.json").read_text())["statuses"]}
        self.assertEqual({int(it) for it in Status}, listed | {Status.UNKNOWN})
        self.assertNotIn(Status.UNKNOWN, listed)

    def test_memory(self):
        """A reply is read into memory that the C library has already: from 128 KiB on it would map some for each."""
        with tempfile.TemporaryDirectory() as folder:
            program = Path(folder) / "program"
            program.write_text(SCRIPT)
            program.chmod(0o755)
            with Coprocessor(folder, program=program) as it:
                it.ask("A K1")
                tracemalloc.start()
                self.addCleanup(tracemalloc.stop)
                it.ask("A K2")
                self.assertLess(tracemalloc.get_traced_memory()[1], 1 << 17)


class Types(unittest.TestCase):
    def test_same_arguments(self):
        """What is for asyncio takes the arguments that it passes on."""
        for ours, waited_for in ((Coprocessor, AsyncCoprocessor), (Socket, AsyncSocket)):
            self.assertEqual(inspect.signature(waited_for), inspect.signature(ours))

    def test_overloads(self):
        """A key that goes to a label is given back as the label, and one that doesn't as its token."""
        for kind in (Verbs, AsyncVerbs):
            for name in ("key_import", "key_part_import", "clear_key_import", "prohibit_export"):
                given = [typing.get_type_hints(it) for it in typing.get_overloads(getattr(kind, name))]
                found = {it["to"]: it["return"] for it in given}
                self.assertEqual((found[type(None)], found[str]), (Token, Label), name)

    @unittest.skipUnless(shutil.which("mypy"), "mypy isn't installed")
    def test_mypy(self):
        """The package is clean, and what is wrong in a program of its user is told."""
        with tempfile.TemporaryDirectory() as name:
            wrong = Path(name) / "wrong.py"
            wrong.write_text(
                "from cca import AsyncCoprocessor, Coprocessor, Label, Token\n"
                'AsyncCoprocessor("keys", progam="cca")\n'
                'cca = Coprocessor("keys")\n'
                'token: Token = cca.key_part_import("FIRST", bytes(8), "DATA")\n'
                'label: Label = cca.key_import(token, Label("A"), to="B")\n'
                'other: Label = cca.key_import(token, Label("A"))\n'
            )
            words = ["mypy", "--strict", "--python-version", "3.11", "--cache-dir", name]
            environment = {**os.environ, "MYPYPATH": str(PYTHON)}
            found = subprocess.run([*words, wrong, PYTHON / "cca", MAKE], env=environment, capture_output=True, text=True)
        self.assertEqual(re.findall(r"(?m)^(\S+?\.py):(\d+): error", found.stdout), [(str(wrong), "2"), (str(wrong), "6")], found.stdout)


class Command(unittest.TestCase):
    """python3 -m cca."""

    def said(self, *words):
        out, err = io.StringIO(), io.StringIO()
        with contextlib.redirect_stdout(out), contextlib.redirect_stderr(err):
            status = __main__.main(list(words))
        return status, out.getvalue(), err.getvalue()

    def test_help(self):
        usage = __main__.USAGE + "\n"
        for words in (["--help"], ["-h"], ["help"]):
            self.assertEqual(self.said(*words), (0, usage, ""))
        for words in ([], ["explian"], ["--help", "explain"]):
            self.assertEqual(self.said(*words), (2, "", usage))


class Wheel(unittest.TestCase):
    """The wheel, which a script makes."""

    @classmethod
    def setUpClass(cls):
        folder = tempfile.TemporaryDirectory()
        cls.addClassCleanup(folder.cleanup)
        cls.folder = Path(folder.name)
        cls.wheel, cls.dist_info = cls.made(cls.folder / "one")
        cls.version = re.search(r"(?m)^## ([0-9.]+)$", (TOP / "docs" / "CHANGES.md").read_text())[1]

    @staticmethod
    def made(folder):
        """The wheel, and the folder beside the package of a system."""
        words = [sys.executable, "-B", MAKE, folder, "--dist-info", folder / "site"]
        said = subprocess.run(words, check=True, capture_output=True, text=True).stdout
        return [Path(it) for it in said.splitlines()]

    def pip(self, what, into):
        words = [python_with("pip"), "-m", "pip", "install", "--no-index", "--no-deps", "--no-compile", "--target", into, what]
        it = subprocess.run(words, capture_output=True, text=True, env={**os.environ, "PIP_DISABLE_PIP_VERSION_CHECK": "1"})
        self.assertEqual(it.returncode, 0, it.stdout + it.stderr)

    def test_same_bytes(self):
        """The version is the newest of docs/CHANGES.md; made twice it is the same."""
        self.assertEqual(self.wheel.name, f"cca-{self.version}-py3-none-any.whl")
        os.utime(PYTHON / "pyproject.toml")
        self.assertEqual(self.made(self.folder / "two")[0].read_bytes(), self.wheel.read_bytes())
        with zipfile.ZipFile(self.wheel) as it:
            self.assertEqual({entry.date_time for entry in it.infolist()}, {(1980, 1, 1, 0, 0, 0)})
            held = {f"cca/{file.name}" for file in (PYTHON / "cca").iterdir() if file.is_file()}
            self.assertEqual({name for name in it.namelist() if name.startswith("cca/")}, held)

    def test_record(self):
        """RECORD names each file with its digest, as others compute it."""
        with zipfile.ZipFile(self.wheel) as it:
            names = it.namelist()
            lines = [line.split(",") for line in it.read(f"cca-{self.version}.dist-info/RECORD").decode().splitlines()]
            self.assertEqual([line[0] for line in lines], names)
            for name, digest, size in lines[:-1]:
                data = it.read(name)
                self.assertEqual(int(size), len(data))
                given = digest[7:].translate(str.maketrans("-_", "+/")).encode() + b"="
                it_is = subprocess.run(["base64", "-d"], input=given, capture_output=True, check=True).stdout
                self.assertEqual((digest[:7], it_is), ("sha256=", hashlib.sha256(data).digest()))
            self.assertEqual(lines[-1][1:], ["", ""])

    def test_dist_info(self):
        """What the package of a system has: the version, and the fixture."""
        code = (
            "import importlib.metadata as it; print(it.version('cca'));"
            "print([point.value for point in it.entry_points(group='pytest11', name='cca')])"
        )
        environment = {**os.environ, "PYTHONPATH": str(self.dist_info.parent)}
        said = subprocess.run([sys.executable, "-B", "-c", code], env=environment, cwd=self.folder, capture_output=True, text=True, check=True).stdout
        self.assertEqual(said.splitlines(), [self.version, "['cca.pytest_plugin']"])

    @unittest.skipUnless(python_with("pip"), "pip isn't installed")
    def test_installed(self):
        """pip installs the wheel, and the folder itself, without a network."""
        for number, what in enumerate((self.wheel, PYTHON)):
            into = self.folder / f"installed {number}"
            self.pip(what, into)
            code = (
                "import cca, importlib.metadata as it; print(cca.__file__, cca.__version__, it.version('cca'),"
                " *(point.value for point in it.entry_points(group='pytest11', name='cca')))"
            )
            environment = {**os.environ, "PYTHONPATH": str(into)}
            said = subprocess.run([python_with("pip"), "-B", "-c", code], env=environment, cwd=self.folder, capture_output=True, text=True, check=True).stdout
            self.assertEqual(said, f"{into / 'cca' / '__init__.py'} {self.version} {self.version} cca.pytest_plugin\n")


@unittest.skipUnless(python_with("pytest"), "pytest isn't installed")
class Installed(Case):
    """The fixture, where the package is installed."""

    def test_pytest(self):
        """pytest finds it by itself, and gives each test a module of its own."""
        wheel, _ = Wheel.made(self.folder / "made")
        with zipfile.ZipFile(wheel) as it:  # what pip does with a wheel of Python alone
            it.extractall(self.folder / "site")
        (self.folder / "test_payment.py").write_text(
            "from cca import Label\n\n\n"
            "def test_payment(cca_module):\n"
            f"    assert cca_module.cca.key_test(Label('TEST.DATA')).hex() == {value(testing.KEYS['TEST.DATA'].clear)!r}\n"
        )
        words = [python_with("pytest"), "-B", "-m", "pytest", "-q", "-p", "no:cacheprovider", "test_payment.py"]
        environment = {**os.environ, "PYTHONPATH": str(self.folder / "site"), "CCA": self.program.path}
        it = subprocess.run(words, cwd=self.folder, env=environment, stdout=subprocess.PIPE, stderr=subprocess.STDOUT, text=True)
        self.assertIn("1 passed", it.stdout)
        self.assertEqual(it.returncode, 0, it.stdout)


class Planted(unittest.TestCase):
    """Each fault of EDITS is found by its case."""

    def test_edits(self):
        each_is_found(self, "python_package", EDITS)


if __name__ == "__main__":
    unittest.main()
