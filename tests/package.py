"""The package that tools/package/run makes: what is in it, installed into a root of its own; that its program answers its first example,
and that its front serves; the folder for an image. Then its scripts: what each does at each step of dpkg's, what an upgrade keeps, and
what a removal leaves. tests/package_libraries.py has the libraries.
"""
import functools
import hashlib
import os
import platform
import re
import shutil
import socket
import subprocess
import sys
import tempfile
import time
import unittest
from pathlib import Path

from tests.harness import EXAMPLES, TOP, Case, Program, scratch
from tests.install import is_built, owner_of_memory

FAULTS = []  # its faults are planted in the tool, by tests/planted.py
TOOL = TOP / "tools/package/run"
CLIENTS = TOP / "clients"
SERVICE = TOP / "service"
UNIT = "usr/lib/systemd/system/cca-front.service"
SETTINGS = "etc/cca/front.conf"
# The settings of an earlier version.
OLDER_SETTINGS = """[front]
folder = /var/lib/cca
audit = /var/log/cca/trail.jsonl
limit = 256
user-limit = 64
idle = 600

[role TELLER]
group = cca-teller
socket = /run/cca/teller/socket

[role OFFICER]
group = cca-officer
socket = /run/cca/officer/socket
"""


@functools.cache
def made():
    """The folder that the tool writes to, and how it ended."""
    folder = Path(tempfile.mkdtemp(dir=scratch().name)) / "made"
    return folder, subprocess.run([TOOL, folder], capture_output=True, text=True)


@functools.cache
def version():
    """The version of the packages: the first one of the page on changes."""
    return re.search(r"(?m)^## ([0-9.]+)$", (TOP / "docs" / "CHANGES.md").read_text())[1]


def dpkg(root, *words):
    """What dpkg does in a root. Scripts run without chroot, which they are told; what the package depends on isn't there."""
    force = ["--force-not-root", "--force-script-chrootless", "--force-depends", "--force-unsafe-io"]
    environment = {**os.environ, "PATH": f"{os.environ['PATH']}:/usr/sbin:/sbin"}
    return subprocess.run(["dpkg", f"--root={root}", *force, *words], env=environment, capture_output=True, text=True)


@functools.cache
def installed(*packages):
    """A root into which packages are installed."""
    root = Path(tempfile.mkdtemp(dir=scratch().name)) / "root"
    held = root / "var/lib/dpkg"
    for name in ("info", "updates", "triggers"):
        (held / name).mkdir(parents=True)
    for name in ("status", "available"):
        (held / name).touch()
    (held / "info" / "format").write_text("1\n")
    it = dpkg(root, "--install", *packages)
    if it.returncode:
        raise AssertionError(it.stderr)
    return root


class Packaged(Case):
    @classmethod
    def setUpClass(cls):
        super().setUpClass()
        if not (shutil.which("dpkg-deb") and shutil.which("cc") and shutil.which("objdump")):
            raise unittest.SkipTest("dpkg or cc isn't installed")
        if not is_built():
            raise unittest.SkipTest("the program of this checkout isn't built")
        cls.made, cls.said = made()
        cls.package, cls.development = (next(cls.made.glob(f"{name}_*.deb"), None) for name in ("cca", "libcca-dev"))

    def root(self, *others):
        """A root of its own, into which the package is installed, with others."""
        return Path(shutil.copytree(installed(self.package, *others), self.folder / "root", symlinks=True))

    def dpkg(self, root, *words):
        it = dpkg(root, *words)
        self.assertEqual(it.returncode, 0, it.stderr)
        return it.stdout

    def left(self, root):
        """The files of a root, but for those of dpkg itself."""
        return sorted(str(it.relative_to(root)) for it in root.rglob("*") if it.is_file() and "var/lib/dpkg" not in str(it))

    def fronted(self, root):
        """The socket of a front of the package, which serves the keys of an example under the role DEFAULT."""
        path, settings = self.folder / "socket", self.folder / "front.conf"
        (self.folder / "keys").mkdir()
        self.ask((EXAMPLES / "start.txt").read_text().splitlines(), self.folder / "keys")
        lines = f"[front]\nfolder = {self.folder}/keys\nprogram = {root}/usr/bin/cca\n"
        settings.write_text(f"{lines}[role DEFAULT]\nsocket = {path}\ngroup = a\n")
        words = [sys.executable, "-B", root / "usr/sbin/cca-front", "--config", settings]
        front = subprocess.Popen(words, stderr=subprocess.DEVNULL)
        self.addCleanup(front.wait)
        self.addCleanup(front.kill)
        until = time.monotonic() + 120
        with socket.socket(socket.AF_UNIX) as it:
            while it.connect_ex(str(path)) != 0:
                self.assertTrue(front.poll() is None and time.monotonic() < until, "the front hasn't begun")
                time.sleep(0.05)
        return path

    def next_version(self):
        """The same package with another version number and another program."""
        folder, package = self.folder / "next", self.folder / "next.deb"
        subprocess.run(["dpkg-deb", "--raw-extract", self.package, folder], check=True)
        control = folder / "DEBIAN" / "control"
        control.write_text(re.sub(r"(?m)^(Version: .*)$", r"\1+next", control.read_text()))
        with open(folder / "usr/bin/cca", "ab") as program:
            program.write(b"next")
        subprocess.run(["dpkg-deb", "--root-owner-group", "-Znone", "--build", folder, package], check=True, stdout=subprocess.DEVNULL)
        return package


class Package(Packaged):
    def test_what_is_made(self):
        self.assertEqual((self.said.returncode, re.sub("(?m)^package: left out: .*\n", "", self.said.stderr)), (0, ""))
        wheels = list(self.made.glob("*.whl"))
        written = (self.package, self.development, self.made / "container", *wheels)
        self.assertEqual(self.said.stdout, "".join(f"package: {it}\n" for it in written))
        control = subprocess.run(["dpkg-deb", "--field", self.package], capture_output=True, text=True, check=True).stdout
        self.assertIn(f"Package: cca\nVersion: {version()}\n", control)
        self.assertRegex(control, r"(?m)^Depends: libc6 \(>= 2\.[0-9]+\)(, libgcc-s1)?, passwd$")

    def test_files(self):
        """Each file stands where Debian looks for it, with its mode and bytes."""
        root = self.root()
        found = {str(it.relative_to(root)): it.stat().st_mode & 0o777 for it in root.rglob("*") if it.is_file()}
        wanted = {"usr/bin/cca": 0o711, SETTINGS: 0o644}
        wanted |= {name: 0o755 for name in ("usr/bin/ccactl", "usr/sbin/cca-front", "usr/lib/cca/cca_service/ask.py")}
        wanted |= {f"usr/lib/{name}.d/cca.conf": 0o644 for name in ("sysusers", "tmpfiles")}
        wanted |= {f"usr/share/doc/cca/{it.relative_to(TOP)}": 0o644 for it in (TOP / "docs").rglob("*.md")}
        wanted |= {"usr/share/doc/cca/examples/practice/practice": 0o755, "usr/share/doc/cca/examples/front.conf": 0o644}
        wanted |= {f"usr/share/man/man8/{name}.8.gz": 0o644 for name in ("ccactl", "cca-front")}
        wanted |= {f"usr/share/bash-completion/completions/{name}": 0o644 for name in ("cca", "ccactl")}
        others = ["usr/share/man/man1/cca.1.gz", "usr/share/doc/cca/VERSION", "usr/share/doc/cca/examples/first.txt"]
        others += [f"usr/lib/cca/{it.relative_to(SERVICE)}" for it in SERVICE.glob("cca_service/**/*.py") if it.name != "ask.py"]
        others += ["usr/lib/cca/programs"]
        others += [f"usr/lib/cca/cca/{name}.py" for name in ("__init__", "coprocessor")]
        others += [f"usr/share/doc/cca/{name}" for name in ("copyright", "changelog.gz")]
        wanted |= dict.fromkeys([*others, UNIT], 0o644)
        if (CLIENTS / "python").is_dir():
            wanted |= {"usr/lib/python3/dist-packages/cca/__init__.py": 0o644}
        self.assertEqual({name: found.get(name) for name in wanted}, wanted)
        self.assertEqual([name for name in found if "__pycache__" in name or "/." in name], [])
        total = hashlib.sha256((root / "usr/bin/cca").read_bytes()).hexdigest()
        self.assertEqual((root / "usr/lib/cca/programs").read_text(), f"{total} {version()}\n")
        self.assertEqual((root / "usr/bin/cca").read_bytes(), (TOP / "crates/cca/out/cca").read_bytes())
        self.assertRegex((root / "usr/share/doc/cca/VERSION").read_text(), r"\Acca [0-9.]+\ncommit ([0-9a-f]{40}(, with changes)?|unknown)\nproved and built with .+\n\Z")

    def test_first_example(self):
        root = self.root()
        requests = (root / "usr/share/doc/cca/examples/first.txt").read_bytes()
        came = Program(root / "usr/bin/cca").run(self.folder, "run", given=requests)
        self.ends(came, 0, (EXAMPLES / "first.replies").read_text())

    @unittest.skipUnless(os.geteuid() == 0, "only root can run it as another user")
    def test_memory(self):
        self.assertEqual(owner_of_memory(self, self.root() / "usr/bin/cca"), 0)

    def test_manual(self):
        """The pages of the repository; man finds no fault in them, where it is installed."""
        root = self.root()
        for name, source in (("man1/cca.1", "docs/cca.1"), ("man8/ccactl.8", "service/ccactl.8"), ("man8/cca-front.8", "service/cca-front.8")):
            page = root / "usr/share/man" / f"{name}.gz"
            self.assertEqual(subprocess.run(["gzip", "-dc", page], capture_output=True, check=True).stdout, (TOP / source).read_bytes())
            if shutil.which("man"):
                it = subprocess.run(["man", "--warnings", "-l", page], env={**os.environ, "MANWIDTH": "80"}, capture_output=True, text=True)
                self.assertEqual((it.returncode, it.stderr), (0, ""), name)

    def test_ccactl(self):
        """It stands on what the package has, and on nothing of the folder in which it is called."""
        root = self.root()
        (self.folder / "cca_service.py").write_text("raise SystemExit('the wrong one')")
        it = subprocess.run([root / "usr/bin/ccactl", "module", "--folder", "."], cwd=self.folder, capture_output=True, text=True)
        self.assertEqual((it.returncode, it.stderr), (3, "ccactl module: . has no cca.module\n"))

    def test_python(self):
        """Python knows the version of its library, by the package and by the wheel beside it."""
        if not (CLIENTS / "python" / "make_wheel.py").exists():
            self.skipTest("this checkout has no wheel")
        self.assertEqual([it.name for it in self.made.glob("*.whl")], [f"cca-{version()}-py3-none-any.whl"])
        packages = self.root() / "usr/lib/python3/dist-packages"
        script = "import cca, importlib.metadata as it; print(it.version('cca'), [e.name for e in it.distribution('cca').entry_points])"
        for path in (packages, next(self.made.glob("*.whl"))):
            shown = subprocess.run([sys.executable, "-B", "-c", script], cwd=self.folder, env={"PYTHONPATH": path}, capture_output=True, text=True)
            self.assertEqual(shown.stdout, f"{version()} ['cca']\n", shown.stderr)

    def test_front(self):
        """The front of the package serves, by a file of settings."""
        with socket.socket(socket.AF_UNIX) as it:
            it.connect(str(self.fronted(self.root())))
            it.settimeout(60)
            it.sendall(b"CSNBKRC label=A\n")
            self.assertEqual(it.recv(100), b"OK\n")

    def test_image(self):
        """The folder for an image has all that its file copies, and the program."""
        folder = self.made / "container"
        text = (folder / "Dockerfile").read_text()
        self.assertEqual(sorted(it.name for it in folder.iterdir()), ["Dockerfile", "VERSION", "cca"])
        self.assertEqual(re.findall(r"(?m)^COPY (\S+) ", text), ["cca", "VERSION"])
        self.assertRegex(text, r"(?m)^FROM debian:stable-slim$")
        self.assertRegex(text, r"(?m)^# +docker run .* --init ")
        self.assertEqual((folder / "cca").read_bytes(), (TOP / "crates/cca/out/cca").read_bytes())
        self.assertEqual((folder / "cca").stat().st_mode & 0o777, 0o711)

    def test_words(self):
        for words in ([], ["a", "b"], ["--help"]):
            it = subprocess.run([TOOL, *words], capture_output=True, text=True)
            self.assertEqual((it.returncode, it.stderr), (2, "package: usage: tools/package/run FOLDER\n"))


class Unit(Packaged):
    """The unit of the package, with its settings, user and folders."""

    def test_settings(self):
        """What root prepares and the front reads is the operator's file, whose roles each have a group and a folder below /run/cca."""
        root = self.root()
        unit = (root / UNIT).read_text()
        self.assertRegex(unit, r"(?m)^ExecStartPre=\+/usr/bin/env python3 -I -B /usr/sbin/cca-front --prepare /etc/cca/front.conf$")
        self.assertRegex(unit, r"(?m)^ExecStart=/usr/bin/env python3 -I -B /usr/sbin/cca-front --config /etc/cca/front.conf$")
        self.assertIn("\nReadWritePaths=/run/cca\n", unit)
        self.assertNotRegex(unit, r"(?m)/usr/local/|^RuntimeDirectory=|useradd|\binstall\b")
        words = [sys.executable, "-B", "-c", "from cca_service import settings; print(settings.read_settings('etc/cca/front.conf'))"]
        it = subprocess.run(words, cwd=root, env={"PYTHONPATH": "usr/lib/cca"}, capture_output=True, text=True)
        self.assertIn("Settings(folder='/var/lib/cca', audit='/var/log/cca/trail.jsonl', log=None, program='cca',", it.stdout, it.stderr)
        doors = re.findall(r"role='(\w+)', path='/run/cca/(\w+)/socket', group='cca-(\w+)'", it.stdout)
        people = ["TELLER", "OFFICER", "AUDITOR", "CUSTOD1", "CUSTOD2", "CUSTOD3", "SECADMIN", "KEYPART1", "KEYPART2"]
        self.assertEqual(doors, [*((it, it.lower(), it.lower()) for it in people), ("DEFAULT", "roles", "roles")])
        self.assertIn("control='/run/cca/control/socket'", it.stdout)

    def test_as_in_the_checkout(self):
        """It is the unit of service/, by the paths of the package, and names the page on it."""
        root = self.root()
        unit, ours = (it.read_text().partition("[Unit]\n")[2] for it in (root / UNIT, SERVICE / "cca-front.service"))
        shown = re.search(r"(?m)^Documentation=man:cca\(1\) file:/(\S+)\n", unit)
        self.assertTrue((root / shown[1]).is_file())
        self.assertEqual(unit.replace(shown[0], ""), ours.replace("/usr/local/sbin/", "/usr/sbin/").replace("/usr/local/bin:", ""))

    def test_folder_of_sockets(self):
        """It is root's: the service can't put a link in the place of a folder that root changes."""
        text = (self.root() / "usr/lib/tmpfiles.d/cca.conf").read_text()
        self.assertEqual(re.findall("(?m)^[^#].*$", text), ["d /run/cca 0755 root root"])
        if os.geteuid() == 0 and shutil.which("systemd-tmpfiles"):
            sockets = self.folder / "root/run/cca"
            sockets.mkdir(mode=0o711, parents=True)
            os.chown(sockets, 12345, 12345)  # as an earlier version of the package made it
            (self.folder / "root/etc").mkdir(exist_ok=True)
            subprocess.run(["systemd-tmpfiles", f"--root={self.folder / 'root'}", "--create", "cca.conf"], capture_output=True, check=True)
            found = sockets.stat()
            self.assertEqual((found.st_uid, found.st_gid, found.st_mode & 0o7777), (0, 0, 0o755))

    def test_user(self):
        """The user is the same, whether postinst makes it or the system at its start."""
        root = self.root()
        name, home = re.search('(?m)^u (\\w+) - ".*" (\\S+)$', (root / "usr/lib/sysusers.d/cca.conf").read_text()).groups()
        self.assertNotRegex((root / "usr/lib/sysusers.d/cca.conf").read_text(), "(?m)^[gm] ")
        self.assertEqual((name, home), ("cca", "/nonexistent"))
        self.assertIn(f"\nUser={name}\n", (root / UNIT).read_text())

    def test_verified(self):
        if not shutil.which("systemd-analyze"):
            self.skipTest("systemd isn't installed")
        words = ["systemd-analyze", "verify", "--man=no", self.root() / UNIT]
        it = subprocess.run(words, capture_output=True, text=True)
        self.assertEqual([line for line in it.stderr.splitlines() if "cca-front.service" in line and "not executable" not in line], [])

    def test_exposure(self):
        """What the unit may do beside its work, by systemd's own measure: 0 is nothing, and 10 all."""
        if not shutil.which("systemd-analyze"):
            self.skipTest("systemd isn't installed")
        words = ["systemd-analyze", "security", "--offline=yes", "--threshold=5", self.root() / UNIT]
        it = subprocess.run(words, capture_output=True, text=True)
        self.assertEqual(it.returncode, 0, it.stdout)


class Scripts(Packaged):
    """The scripts, at each step that Debian's policy has them called for, beside programs that only note how they are called."""

    HELPERS = ("systemctl", "deb-systemd-invoke", "deb-systemd-helper", "systemd-tmpfiles", "getent", "groupadd", "useradd", "install")
    RESTARTED = ["systemd-tmpfiles --create cca.conf", "systemctl --system daemon-reload", "deb-systemd-invoke try-restart cca-front.service"]

    def setUp(self):
        super().setUp()
        self.system, self.programs, self.log = self.folder / "system", self.folder / "programs", self.folder / "called"
        self.programs.mkdir()
        self.path = f"{self.programs}:/usr/bin:/bin"
        for name in self.HELPERS:
            self.stands_in(name, 1)  # each fails: so nothing is told of a user, and no service ends a script
        subprocess.run(["dpkg-deb", "--control", self.package, self.folder / "control"], check=True)

    def stands_in(self, name, status):
        (self.programs / name).write_text(f'#!/bin/sh\necho "{name} $*" >>{self.log}\nexit {status}\n')
        (self.programs / name).chmod(0o755)

    def called(self, script, *words, systemd=True, root=""):
        """What a script calls, and what it says; its folders are those of this test."""
        text = (self.folder / "control" / script).read_text().replace("/run/systemd/system", str(self.folder if systemd else self.folder / "none"))
        for name in ("/var/lib/cca", "/var/log/cca", "/run/cca"):
            text = text.replace(name, f"{self.system}{name}")
        self.log.write_text("")
        environment = {"PATH": self.path, "DPKG_ROOT": root, "DPKG_MAINTSCRIPT_PACKAGE": "cca"}
        it = subprocess.run(["/bin/sh", "-c", text, script, *words], env=environment, capture_output=True, text=True)
        self.assertEqual((it.returncode, it.stderr), (0, ""))
        return self.log.read_text().splitlines(), it.stdout

    def service(self, *words, **options):
        """Of that, what is done with the service itself."""
        return [it for it in self.called(*words, **options)[0] if it.startswith(("systemctl", "deb-systemd-invoke", "systemd-tmpfiles"))]

    def test_service(self):
        """It is restarted after an upgrade where it runs, stopped before a removal, and not touched at another step."""
        for name in ("groupadd", "useradd", "install"):
            self.stands_in(name, 0)
        reload = "systemctl --system daemon-reload"
        steps = [
            (["postinst", "configure", ""], self.RESTARTED[:2]),
            (["postinst", "configure", "1.0"], self.RESTARTED),
            (["postinst", "abort-upgrade", "2.0"], []),
            (["postinst", "abort-remove"], [reload, "deb-systemd-invoke start cca-front.service"]),
            (["postinst", "abort-deconfigure", "in-favour", "other", "1.0"], []),
            (["prerm", "remove"], ["deb-systemd-invoke stop cca-front.service"]),
            (["prerm", "remove", "in-favour", "other", "1.0"], ["deb-systemd-invoke stop cca-front.service"]),
            (["prerm", "upgrade", "2.0"], []),
            (["prerm", "failed-upgrade", "1.0"], []),
            (["prerm", "deconfigure", "in-favour", "other", "1.0"], []),
            (["postrm", "remove"], [reload]),
            (["postrm", "purge"], []),
            (["postrm", "upgrade", "2.0"], []),
            (["postrm", "failed-upgrade", "1.0"], []),
            (["postrm", "abort-install"], []),
            (["postrm", "abort-install", "1.0", "2.0"], []),
            (["postrm", "abort-upgrade", "1.0", "2.0"], []),
            (["postrm", "disappear", "other", "1.0"], []),
        ]
        for words, wanted in steps:
            with self.subTest(words):
                self.assertEqual(self.service(*words), wanted)
                self.assertEqual(self.service(*words, systemd=False), [])
                self.assertEqual(self.service(*words, root=str(self.folder / "root")), [])

    def test_no_helpers(self):
        """Where none of the programs of systemd is there."""
        for name in self.HELPERS[:4]:
            (self.programs / name).unlink()
        for name in ("getent", "install"):
            self.stands_in(name, 0)
        for name in ("rm", "rmdir"):
            (self.programs / name).symlink_to(shutil.which(name))
        self.path = str(self.programs)
        for words in (["postinst", "configure", ""], ["postinst", "configure", "1.0"], ["prerm", "remove"], ["postrm", "remove"], ["postrm", "purge"]):
            with self.subTest(words):
                self.called(*words, systemd=False)

    def test_user(self):
        """The user, its group and the folder of keys are made where they are missing, and else left as they are."""
        for name in ("groupadd", "useradd", "install"):
            self.stands_in(name, 0)
        made = [it for it in self.called("postinst", "configure", "")[0] if it.startswith(("groupadd", "useradd", "install"))]
        user = "useradd --system --gid cca --no-create-home --home-dir /nonexistent --shell /usr/sbin/nologin --comment CCA coprocessor in software cca"
        self.assertEqual(made, ["groupadd --system cca", user, f"install -d -m 700 -o cca -g cca {self.system}/var/lib/cca"])
        self.stands_in("getent", 0)
        (self.system / "var/lib").mkdir(parents=True)
        (self.system / "var/lib/cca").symlink_to("elsewhere")
        self.assertEqual([it for it in self.called("postinst", "configure", "")[0] if it.startswith(("groupadd", "useradd", "install"))], [])

    def test_unknown_step(self):
        for script in ("postinst", "prerm", "postrm"):
            it = subprocess.run(["sh", self.folder / "control" / script, "frobnicate"], capture_output=True, text=True)
            self.assertEqual((it.returncode, it.stderr), (1, f"cca: {script} doesn't know frobnicate\n"))

    def test_what_a_purge_leaves(self):
        """Keys and logs, which are told; but no empty folder."""
        for name in ("var/lib/cca", "var/log/cca", "run/cca/teller"):
            (self.system / name).mkdir(parents=True)
        (self.system / "var/lib/cca/cca.module").touch()
        self.assertEqual(self.called("postrm", "remove")[1], "")
        self.assertTrue((self.system / "var/log/cca").exists())
        self.assertEqual(self.called("postrm", "purge")[1], f"cca: {self.system}/var/lib/cca is left, since it has keys\n")
        left = sorted(str(it.relative_to(self.system)) for it in self.system.rglob("cca*"))
        self.assertEqual(left, ["var/lib/cca", "var/lib/cca/cca.module"])


class Upgrade(Packaged):
    """The package over time, in a root of its own."""

    ENABLED = "etc/systemd/system/multi-user.target.wants/cca-front.service"

    def test_roles_are_kept(self):
        root = self.root()
        roles = (root / SETTINGS).read_text().replace("[role OFFICER]", "[role TREASURY]").replace("cca-officer", "cca-treasury")
        (root / SETTINGS).write_text(roles)
        self.dpkg(root, "--install", self.next_version())
        self.assertEqual((root / SETTINGS).read_text(), roles)
        self.assertTrue((root / "usr/bin/cca").read_bytes().endswith(b"next"))
        self.dpkg(root, "--remove", "cca")
        self.assertEqual((root / SETTINGS).read_text(), roles)
        self.assertFalse((root / "usr/bin/cca").exists())
        self.dpkg(root, "--install", self.package)
        self.assertEqual((root / SETTINGS).read_text(), roles)

    def older(self):
        """A package as an earlier version was, whose front was single files, and which had two roles and no socket of its own."""
        folder, package = self.folder / "older", self.folder / "older.deb"
        subprocess.run(["dpkg-deb", "--raw-extract", self.package, folder], check=True)
        for name in ("usr/lib/cca/cca_service", "usr/lib/cca/cca"):
            shutil.rmtree(folder / name)
        for name in ("usr/bin/ccactl", "usr/sbin/cca-front"):
            (folder / name).unlink()
        for name in ("front", "prepare", "settings"):
            (folder / f"usr/lib/cca/{name}.py").write_text("older")
        (folder / SETTINGS).write_text(OLDER_SETTINGS)
        control = folder / "DEBIAN/control"
        control.write_text(re.sub("(?m)^Version: .*$", "Version: 1.0", control.read_text()))
        subprocess.run(["dpkg-deb", "--root-owner-group", "-Znone", "--build", folder, package], check=True, stdout=subprocess.DEVNULL)
        return package

    def test_from_single_files(self):
        """The front of an earlier version goes. Its settings stay where the operator changed them, and the new front reads them."""
        for changes in ({}, {"[role OFFICER]": "[role TREASURY]"}):
            with self.subTest(changes):
                root = self.folder / f"root{len(changes)}"
                shutil.copytree(installed(self.package), root, symlinks=True)
                self.dpkg(root, "--install", "--force-downgrade", "--force-confnew", self.older())
                shutil.rmtree(self.folder / "older")
                self.assertEqual((root / SETTINGS).read_text(), OLDER_SETTINGS)
                for before, after in changes.items():
                    (root / SETTINGS).write_text(OLDER_SETTINGS.replace(before, after))
                self.dpkg(root, "--install", "--force-confold" if changes else "--force-confdef", self.package)
                self.assertEqual([it.name for it in (root / "usr/lib/cca").glob("*.py")], [])
                self.assertTrue((root / "usr/sbin/cca-front").exists() and (root / "usr/bin/ccactl").exists())
                self.assertEqual(self.roles_read(root), ["TELLER", "TREASURY"] if changes else ["TELLER", "OFFICER"] + self.roles_read(root)[2:])
                self.assertEqual(len(self.roles_read(root)), 2 if changes else 10)

    def roles_read(self, root):
        """The roles that the front of a root has by its settings."""
        script = "from cca_service import settings; print(*(it.role for it in settings.read_settings('etc/cca/front.conf').doors))"
        it = subprocess.run([sys.executable, "-B", "-c", script], cwd=root, env={"PYTHONPATH": "usr/lib/cca"}, capture_output=True, text=True)
        return it.stdout.split()

    def test_enabled_unit(self):
        """An administrator enables the unit, and it stays so until a purge."""
        if not shutil.which("deb-systemd-helper"):
            self.skipTest("deb-systemd-helper isn't installed")
        root = self.root()
        link = root / self.ENABLED
        self.assertFalse(link.is_symlink())
        link.parent.mkdir(parents=True)
        link.symlink_to(f"/{UNIT}")
        for words in (["--install", self.next_version()], ["--remove", "cca"], ["--install", self.package]):
            self.dpkg(root, *words)
            self.assertTrue(link.is_symlink(), words)
        self.dpkg(root, "--purge", "cca")
        self.assertFalse(link.is_symlink())

    def test_removed(self):
        """A removal leaves the settings alone, and a purge nothing but what dpkg itself writes."""
        root = self.root()
        self.dpkg(root, "--remove", "cca")
        self.assertEqual([name for name in self.left(root) if "deb-systemd-helper" not in name], [SETTINGS])
        self.dpkg(root, "--purge", "cca")
        self.assertEqual(self.left(root), [])

    def test_keys_are_left(self):
        root = self.root()
        (root / "var/lib/cca").mkdir()
        (root / "var/lib/cca/cca.module").write_text("keys")
        self.assertIn("cca: /var/lib/cca is left, since it has keys\n", self.dpkg(root, "--purge", "cca"))
        self.assertEqual(self.left(root), ["var/lib/cca/cca.module"])


class Policy(Packaged):
    """What Debian's policy asks of a package."""

    def test_no_errors(self):
        if not shutil.which("lintian"):
            self.skipTest("lintian isn't installed")
        it = subprocess.run(["lintian", "--fail-on", "error", self.package, self.development], capture_output=True, text=True)
        self.assertEqual(it.returncode, 0, it.stdout)

    def test_checksums(self):
        root = self.root()
        info = root / "var/lib/dpkg/info"
        self.assertEqual((info / "cca.conffiles").read_text(), f"/{SETTINGS}\n")
        sums = (info / "cca.md5sums").read_text()
        files = [name for name in self.left(root) if name.startswith("usr/") and not (root / name).is_symlink()]
        self.assertEqual(sorted(re.findall(r"(?m)^[0-9a-f]{32}  (.*)$", sums)), files)
        self.assertEqual(self.dpkg(root, "--verify", "cca"), "")
        (root / "usr/lib/cca/cca_service/front.py").write_text("")
        self.assertRegex(self.dpkg(root, "--verify", "cca"), r"\A..5\S*\s+/usr/lib/cca/cca_service/front.py\n\Z")

    def test_changelog(self):
        """Its versions are those of the page on changes."""
        file = self.root() / "usr/share/doc/cca/changelog.gz"
        text = subprocess.run(["gzip", "-dc", file], capture_output=True, text=True, check=True).stdout
        versions = re.findall(r"(?m)^## ([0-9.]+)$", (TOP / "docs/CHANGES.md").read_text())
        self.assertEqual(re.findall(r"(?m)^cca \((.*)\) unstable; urgency=medium$", text), versions)
        if shutil.which("dpkg-parsechangelog"):
            it = subprocess.run(["dpkg-parsechangelog", "--all", "-l", "-"], input=text, capture_output=True, text=True)
            self.assertEqual((it.returncode, it.stderr), (0, ""))

    def test_copyright(self):
        self.assertIn("no licence yet", (self.root() / "usr/share/doc/cca/copyright").read_text())


@unittest.skipUnless("CCA_DEBOOTSTRAP" in os.environ, "CCA_DEBOOTSTRAP names no folder, where a fresh Debian is fetched to and kept")
class System(Packaged):
    """The package in a fresh Debian, as dpkg runs its scripts there: without /proc, and without systemd first. Then what systemd is asked
    is noted."""

    def setUp(self):
        super().setUp()
        kept = Path(os.environ["CCA_DEBOOTSTRAP"]).absolute() / "debian.tar"
        self.system, self.asked = self.folder / "debian", self.folder / "debian" / "asked"
        self.system.mkdir()
        if not kept.exists():
            fetched = self.folder / "fetched"
            suite = platform.freedesktop_os_release()["VERSION_CODENAME"]
            subprocess.run(["debootstrap", "--variant=minbase", "--include=python3", suite, fetched], check=True, stdout=subprocess.DEVNULL)
            subprocess.run(["tar", "-C", fetched, "-cf", kept, "."], check=True)
        subprocess.run(["tar", "-C", self.system, "-xpf", kept], check=True)
        for name in ("systemctl", "systemd-tmpfiles"):
            program = self.system / "usr/local/bin" / name
            program.write_text('#!/bin/sh\necho "$*" >>/asked\n')
            program.chmod(0o755)
        shutil.copy(self.package, self.system / "first.deb")
        shutil.copy(self.next_version(), self.system / "next.deb")

    def run_inside(self, *words, user="root", **options):
        """Runs a command in the system."""
        environment = {"PATH": "/usr/local/bin:/usr/sbin:/usr/bin:/sbin:/bin", "DEBIAN_FRONTEND": "noninteractive"}
        words = ["chroot", f"--userspec={user}", self.system, *words]
        return subprocess.run(words, env=environment, capture_output=True, text=True, **options)

    def inside(self, *words, **options):
        """What a command says that succeeds there."""
        it = self.run_inside(*words, **options)
        self.assertEqual((it.returncode, it.stderr), (0, ""), it.stdout)
        return it.stdout

    def service(self, *words):
        """What dpkg says, and what it asks of the service."""
        self.asked.write_text("")
        said = self.inside("dpkg", *words)
        return said, [line for line in self.asked.read_text().splitlines() if "cca-front" in line]

    def shown(self, path):
        return self.inside("stat", "--format=%U:%G %a", path).strip()

    def test_years(self):
        """Installed, with roles of the operator's, in service, upgraded, removed, and purged."""
        self.assertEqual(self.service("--install", "/first.deb")[1], [])
        (self.system / "run/systemd/system").mkdir(parents=True)
        self.assertEqual(self.shown("/var/lib/cca"), "cca:cca 700")
        self.assertEqual(self.shown("/usr/bin/cca"), "root:root 711")
        self.inside("sh", "-c", "cd /var/lib/cca && cca run >/dev/null 2>&1", user="cca", input=(EXAMPLES / "start.txt").read_text())
        roles = (self.system / SETTINGS).read_text().replace("[role OFFICER]", "[role DEFAULT]").replace("officer", "default")
        (self.system / SETTINGS).write_text(roles)
        self.inside("/usr/bin/env", "python3", "-I", "-B", "/usr/sbin/cca-front", "--prepare", "/etc/cca/front.conf")
        self.assertEqual(self.shown("/run/cca"), "root:root 755")
        self.assertEqual(self.shown("/run/cca/default"), "cca:cca-default 2750")
        self.serves()
        libraries = self.inside("ldconfig", "-p")
        self.assertIn("libcca.so.1 ", libraries)
        self.assertNotIn("libcsulcca", libraries)
        self.assertEqual(self.service("--install", "/next.deb")[1], ["try-restart cca-front.service"])
        self.assertEqual((self.system / SETTINGS).read_text(), roles)
        self.assertEqual(self.service("--remove", "cca")[1], ["stop cca-front.service"])
        self.assertEqual((self.system / SETTINGS).read_text(), roles)
        said, asked = self.service("--purge", "cca")
        self.assertIn("cca: /var/lib/cca is left, since it has keys\ncca: /var/log/cca is left, since it has the log", said)
        self.assertEqual(asked, [])
        self.assertEqual(self.shown("/var/lib/cca/cca.module"), "cca:cca 600")
        names = ("etc/cca", "run/cca", "usr/lib/cca", "usr/share/doc/cca", "var/log/cca/trail.jsonl")
        self.assertEqual([name for name in names if (self.system / name).exists()], ["var/log/cca/trail.jsonl"])

    def serves(self):
        """The front serves whoever is in the group of a role, and nobody else."""
        owner = (self.system / "var/lib/cca").stat()
        (self.system / "var/log/cca").mkdir(mode=0o700)
        os.chown(self.system / "var/log/cca", owner.st_uid, owner.st_gid)
        words = ["chroot", "--userspec=cca:cca", self.system, "python3", "-I", "-B", "/usr/sbin/cca-front", "--config", "/etc/cca/front.conf"]
        front = subprocess.Popen(words, stderr=subprocess.DEVNULL)
        self.addCleanup(front.wait)
        self.addCleanup(front.kill)
        ask = ["python3", "-B", "/usr/lib/cca/cca_service/ask.py", "/run/cca/default/socket"]
        self.assertEqual(self.inside(*ask, user="nobody:cca-default", input="CSNBKRC label=A\n"), "OK\n")
        it = self.run_inside(*ask, "--timeout", "5", user="nobody:nogroup", input="CSNBKRC label=B\n")
        self.assertEqual((it.returncode, it.stdout), (1, ""))
        self.assertIn("Permission denied", it.stderr)
        front.terminate()
        self.assertEqual(front.wait(120), 0)


if __name__ == "__main__":
    unittest.main()
