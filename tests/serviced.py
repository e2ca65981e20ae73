"""The package in a root of its own, and its service as the unit has it, but that no systemd is there: its words, its environment, and
READY=1 awaited, over the files of examples/practice. What a fault of tests/edits.py changes stands in the installed files.
"""
import contextlib
import functools
import json
import os
import re
import shutil
import signal
import socket
import subprocess
import sys
import tempfile
import threading
import time
import unittest
from pathlib import Path

from tests.edits import LIBRARIES, SERVICE
from tests.harness import EXAMPLES, Case, program_path, scratch
from tests.install import is_built
from tests.package import SETTINGS, TOOL, UNIT, installed

USER = 65534  # who stands for the user of the service, where root runs this
GROUP = "nogroup"  # and for the groups of the roles
PACKAGE = "CCA_PACKAGE"  # the variable that names a package that is made
STARTING = 120.0  # seconds until a front is ready
PAUSE = 0.002  # seconds between two requests of an application


@functools.cache
def package():
    """The package of the service alone: where no compiler is found, the libraries for C and Java are left out. It may be made already."""
    if PACKAGE in os.environ:
        return Path(os.environ[PACKAGE])
    folder = Path(tempfile.mkdtemp(dir=scratch().name))
    for name in ("cc", "javac"):
        (folder / name).write_text("#!/bin/sh\nexit 127\n")
        (folder / name).chmod(0o755)
    environment = {**os.environ, "PATH": f"{folder}:{os.environ['PATH']}"}
    it = subprocess.run([TOOL, folder / "made"], env=environment, capture_output=True, text=True)
    if it.returncode:
        raise AssertionError(it.stderr)
    return next((folder / "made").glob("cca_*.deb"))


def library():
    """The library for Python, as applications use it."""
    sys.path.insert(0, str(LIBRARIES / "python"))
    try:
        import cca

        return cca
    finally:
        sys.path.pop(0)


class Unit:
    """What the unit of a root says."""

    def __init__(self, root):
        self.root, self.text = root, (root / UNIT).read_text()

    def said(self, name):
        return re.search(rf"(?m)^{name}=(.*)$", self.text)[1]

    def words(self, name):
        """The words of a command, by the paths of the root."""
        return [re.sub("^/(?=usr/sbin/|etc/)", f"{self.root}/", it) for it in self.said(name).removeprefix("+").split()]

    def environment(self):
        name, _, value = self.said("Environment").partition("=")
        return {name: ":".join([*(f"{self.root}{it}" for it in value.split(":")), value])}


class Application(threading.Thread):
    """A program that asks again and again, and notes each answer that isn't the right one. Its work is a function over a connection that
    gives what came and what is right."""

    def __init__(self, connect, work):
        super().__init__(daemon=True)
        self.connect, self.work = connect, work
        self.answers, self.longest = 0, 0.0
        self.failures, self.stopped = [], threading.Event()

    def run(self):
        with self.connect() as front:
            while not self.stopped.wait(PAUSE):
                begun = time.monotonic()
                try:
                    came, wanted = self.work(front)
                except Exception as error:
                    self.failures.append(f"{type(error).__name__}: {error}")
                else:
                    self.answers += 1
                    if came != wanted:
                        self.failures.append(f"{came!r} in place of {wanted!r}")
                self.longest = max(self.longest, time.monotonic() - begun)

    def stop(self):
        self.stopped.set()
        self.join()


class Serviced(Case):
    """A root with the package for each test, and the keys of examples/practice."""

    @classmethod
    def setUpClass(cls):
        super().setUpClass()
        if not all(shutil.which(name) for name in ("dpkg-deb", "objdump", "openssl")):
            raise unittest.SkipTest("dpkg, binutils or openssl isn't installed")
        if not is_built():
            raise unittest.SkipTest("the program of this checkout isn't built")

    def setUp(self):
        super().setUp()
        self.user = USER if os.geteuid() == 0 else os.geteuid()
        for folder in (self.folder, *self.folder.parents[:2]):
            folder.chmod(0o755)
        self.root = Path(shutil.copytree(installed(package()), self.folder / "root", symlinks=True))
        for name in ("cca_service", "cca"):
            source = SERVICE / name if name == "cca_service" else LIBRARIES / "python" / name
            shutil.copytree(source, self.root / "usr/lib/cca" / name, dirs_exist_ok=True, ignore=shutil.ignore_patterns("__pycache__"))
        self.unit, self.settings = Unit(self.root), self.root / SETTINGS
        self.keys, self.logs = self.root / "var/lib/cca", self.root / "var/log/cca"
        self.process, self.log, self.work = None, self.folder / "journal", self.folder / "work"
        self.cca = library()
        self.environment = {**os.environ, **self.unit.environment(), "CCA_FRONT": str(self.settings)}
        self.place()

    def place(self):
        """The files and folders as the package and the first ceremony leave them; the program is the one that a fault may stand for."""
        if self.program.path != str(program_path()):
            shutil.copy(self.program.path, self.root / "usr/bin/cca")
        text = re.sub(r"(?m)^([\w-]+) = (/(?:var|run)/.*)$", rf"\1 = {self.root}\2", self.settings.read_text())
        self.settings.write_text(re.sub("(?m)^group = .*$", f"group = {GROUP}", text))
        for folder in (self.keys, self.logs, self.work):
            folder.mkdir(mode=0o700, parents=True, exist_ok=True)
            self.owned(folder)
        self.ask((EXAMPLES / "practice/1-service.txt").read_text().splitlines(), self.keys)
        self.owned(self.keys)

    def owned(self, path):
        """Gives a folder with its files, or a file, to the user of the service."""
        for it in [path, *path.rglob("*")] if os.geteuid() == 0 else []:
            os.chown(it, USER, USER)

    def write(self, name, text):
        """A file of the operator's: its name."""
        (self.work / name).write_text(text)
        self.owned(self.work / name)
        return name

    def socket(self, role):
        """The path of a role's socket, by the settings."""
        return re.search(rf"(?m)^\[role {role}\]\n(?:.*\n)*?socket = (.*)$", self.settings.read_text())[1]

    # ---- the service

    def whose(self):
        """Who runs what the user of the service runs."""
        return {"user": USER, "group": USER, "extra_groups": []} if os.geteuid() == 0 else {}

    def prepare(self):
        """What the unit has root do before each start; or else the same folders, for one user alone."""
        if os.geteuid() == 0:
            subprocess.run([*self.unit.words("ExecStartPre"), "--user", "nobody"], env=self.environment, check=True)
            return
        for path in re.findall(r"(?m)^(?:socket|control|program-sum) = (.*)$", self.settings.read_text()):
            Path(path).parent.mkdir(mode=0o700, parents=True, exist_ok=True)

    def begin(self, address=""):
        """Starts the service, as the unit does: the process."""
        self.prepare()
        with open(self.log, "a") as log:
            environment = {**self.environment, "NOTIFY_SOCKET": str(address)}
            self.process = subprocess.Popen(self.unit.words("ExecStart"), env=environment, stderr=log, umask=0o077, **self.whose())
        self.addCleanup(self.end, self.process)
        return self.process

    def start(self):
        """Starts the service, and waits until it is ready, as Type=notify has it."""
        address = self.work / "notify"
        with socket.socket(socket.AF_UNIX, socket.SOCK_DGRAM) as told:
            told.bind(str(address))
            self.owned(address)
            told.settimeout(STARTING)
            self.begin(address)
            self.assertEqual(told.recv(100), b"READY=1")
        address.unlink()

    def end(self, process):
        """Ends a service that a test has left."""
        if process.poll() is None:
            process.kill()
        process.wait()

    def stop(self):
        """Stops the service as systemd does."""
        self.process.send_signal(signal.SIGTERM)
        self.assertEqual(self.process.wait(STARTING), 0, self.log.read_text()[-500:])

    def reload(self):
        """Has the service take a new program and new logs, by the signal of the unit."""
        self.assertIn("\nExecReload=/bin/kill -HUP $MAINPID\n", self.unit.text)
        self.prepare()
        before = len(self.told("program"))
        self.process.send_signal(signal.SIGHUP)
        until = time.monotonic() + STARTING
        while len(self.told("program")) == before:
            self.assertLess(time.monotonic(), until)
            time.sleep(0.05)

    def status(self, status=0):
        """What the front says of itself, where `ccactl status` ends so."""
        return json.loads(self.ctl("status", "--json", status=status))["front"]

    def replace_program(self):
        """Another program comes in the place of the one that runs, as at an upgrade."""
        path = self.root / "usr/bin/cca"
        shutil.copy(path, path.with_name("next"))
        with open(path.with_name("next"), "ab") as file:
            file.write(b"next")
        path.with_name("next").rename(path)

    def damage(self, name, cell):
        """Writes over a cell of a file."""
        with open(self.keys / name, "r+b") as file:
            file.seek(1536 * cell)
            file.write(b"\xff" * 1536)

    def told(self, event):
        """The lines of the front's log about an event of its own."""
        return [it for it in self.log.read_text().splitlines() if f'"event": "{event}"' in it]

    # ---- who asks

    def application(self, role, work):
        """An application that has begun to ask by the socket of a role."""
        it = Application(lambda: contextlib.closing(self.cca.Socket(self.socket(role))), work)
        it.start()
        self.addCleanup(it.stop)
        return it

    def ctl(self, *words, given="", status=0, has_errors=False):
        """What `ccactl` prints, and where that is asked on standard error too. It must end so."""
        options = {"cwd": self.work, "env": self.environment, "input": given, "stdout": subprocess.PIPE, "text": True}
        options["stderr"] = subprocess.STDOUT if has_errors else subprocess.PIPE
        it = subprocess.run([self.root / "usr/bin/ccactl", *words], **options, **self.whose())
        self.assertEqual(it.returncode, status, f"{words}\n{it.stdout[-1000:]}{(it.stderr or '')[-2000:]}")
        return it.stdout

    def asked(self, role, *requests):
        """The replies to some requests at the socket of a role."""
        return self.ctl("ask", self.socket(role), given="".join(f"{it}\n" for it in requests)).splitlines()
