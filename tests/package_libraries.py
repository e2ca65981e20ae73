"""The libraries in the packages that tools/package/run makes: where each stands, that programs in C and Java and those of PKCS#11 find it
there and are served, what dpkg knows of them, an upgrade from a version whose one package had the headers, and what is left out where
a compiler isn't installed.
"""
import functools
import os
import re
import shutil
import subprocess
import tempfile
import unittest
from pathlib import Path

from tests.harness import EXAMPLES, limited, scratch
from tests.package import TOOL, Packaged, version
from tests.pkcs11_module import HEADER

FAULTS = []  # its fault is planted in the tool, by tests/planted.py
HEADERS = [f"usr/include/{name}.h" for name in ("cca", "cca-pkcs11", "cca_client", "csnb")]
# FIPS 113 has this message with its MAC by the key 0123456789ABCDEF, which is that of examples/start.txt.
MESSAGE, MAC = "7654321 Now is the time for ", "f1d30f6849312ca4"


@functools.cache
def has_jdk():
    return bool(shutil.which("javac")) and subprocess.run(["javac", "--release", "17", "-version"], capture_output=True).returncode == 0


def contents(package):
    """The files of a package, each with its mode, and its links, each with what it names."""
    lines = subprocess.run(["dpkg-deb", "--contents", package], capture_output=True, text=True, check=True).stdout.splitlines()
    rows = [re.fullmatch(r"([-l]\S+) \S+ +\d+ \S+ \S+ \./(\S+)(?: -> (\S+))?", line) for line in lines if not line.startswith("d")]
    return {row[2]: row[3] or row[1] for row in rows}


def field(package, name):
    return subprocess.run(["dpkg-deb", "--field", package, name], capture_output=True, text=True, check=True).stdout.strip()


class Libraries(Packaged):
    @classmethod
    def setUpClass(cls):
        super().setUpClass()
        multiarch = subprocess.run(["cc", "-print-multiarch"], capture_output=True, text=True, check=True).stdout.strip()
        cls.libraries = f"usr/lib/{multiarch}"

    def setUp(self):
        super().setUp()
        limited(self, 500)

    def both(self):
        return self.root(self.development)

    def unpacked(self, package):
        """A package in a folder, with what dpkg wants to know."""
        folder = self.folder / "unpacked"
        subprocess.run(["dpkg-deb", "--raw-extract", package, folder], check=True)
        return folder

    def compiled(self, root, *words):
        """A program of an example, which is compiled with some words."""
        program = self.folder / "mac"
        subprocess.run(["cc", "-std=c99", "-o", program, root / "usr/share/doc/cca/examples/c/mac.c", *words], check=True)
        return program

    def needed(self, program):
        """The libraries that a program looks for."""
        shown = subprocess.run(["objdump", "-p", program], capture_output=True, text=True, check=True).stdout
        return [it for it in re.findall(r"NEEDED +(\S+)", shown) if not it.startswith(("libc.", "ld-linux"))]

    def makes_macs(self, program, **environment):
        """The program finds its library, and is served by the front of the package."""
        environment = {**os.environ, "CCA_SOCKET": str(self.fronted(self.folder / "root")), **environment}
        came = subprocess.run([program], env=environment, capture_output=True, text=True)
        self.assertEqual((came.returncode, came.stdout.count("return code 0"), came.stderr), (0, 3, ""), came.stdout)


class Places(Libraries):
    """Where each file of a library stands."""

    def test_of_programs(self):
        """None but libcca.so.1 stands where programs look by themselves."""
        library = f"{self.libraries}/libcca.so.{version()}"
        wanted = {library: "-rw-r--r--", f"{self.libraries}/libcca.so.1": f"libcca.so.{version()}", "usr/lib/cca/ibm/libcsulcca.so": "-rw-r--r--"}
        if HEADER.exists():
            wanted |= dict.fromkeys((f"{self.libraries}/pkcs11/libcca-pkcs11.so", "usr/share/p11-kit/modules/cca-pkcs11.module"), "-rw-r--r--")
        if has_jdk():
            wanted |= {f"usr/share/java/cca-{version()}.jar": "-rw-r--r--", "usr/share/java/cca.jar": f"cca-{version()}.jar"}
        found = contents(self.package)
        self.assertEqual({name: found[name] for name in found if re.search(r"\.(so[.0-9]*|a|pc|h|jar|module)$", name)}, wanted)

    def test_of_development(self):
        wanted = dict.fromkeys([*HEADERS, f"{self.libraries}/libcca.a", f"{self.libraries}/pkgconfig/cca.pc"], "-rw-r--r--")
        wanted |= {f"{self.libraries}/libcca.so": "libcca.so.1", "usr/share/doc/libcca-dev": "cca"}
        self.assertEqual(contents(self.development), wanted)

    def test_same_bytes(self):
        """The same sources make the same bytes, in other folders, at another time and for another user's settings."""
        folder = self.folder / "again"
        (self.folder / "scratch").mkdir()
        environment = {**os.environ, "TMPDIR": str(self.folder / "scratch"), "TZ": "Asia/Tokyo", "LC_ALL": "C"}
        subprocess.run([TOOL, folder], env=environment, umask=0o077, capture_output=True, check=True)
        for package in (self.package, self.development):
            self.assertEqual((folder / package.name).read_bytes() == package.read_bytes(), True, package.name)


class Compiled(Libraries):
    """Programs that are compiled with nothing but what the packages have."""

    def test_pkg_config(self):
        """pkg-config tells how, and the program finds the shared library of the other package."""
        if not shutil.which("pkg-config"):
            self.skipTest("pkg-config isn't installed")
        root = self.both()
        environment = {**os.environ, "PKG_CONFIG_SYSROOT_DIR": str(root), "PKG_CONFIG_LIBDIR": str(root / self.libraries / "pkgconfig")}
        asked = functools.partial(subprocess.run, env=environment, capture_output=True, text=True, check=True)
        self.assertEqual(asked(["pkg-config", "--modversion", "cca"]).stdout, f"{version()}\n")
        program = self.compiled(root, *asked(["pkg-config", "--cflags", "--libs", "cca"]).stdout.split())
        self.assertEqual(self.needed(program), ["libcca.so.1"])
        self.makes_macs(program, LD_LIBRARY_PATH=str(root / self.libraries))

    def test_static(self):
        root = self.both()
        program = self.compiled(root, "-I", root / "usr/include", root / self.libraries / "libcca.a", "-pthread")
        self.assertEqual(self.needed(program), [])
        self.makes_macs(program)

    def test_ibm(self):
        """A program that looks for IBM's library finds the one of the package where it is told to look for it."""
        root = self.both()
        folder = root / "usr/lib/cca/ibm"
        program = self.compiled(root, "-I", root / "usr/include", "-L", folder, "-lcsulcca")
        self.assertEqual(self.needed(program), ["libcsulcca.so"])
        self.makes_macs(program, LD_LIBRARY_PATH=str(folder))


class Found(Libraries):
    """Programs of others that find the module and the jar."""

    def test_module(self):
        """The file for p11-kit names the module by the path at which the package puts it, and a program uses keys with it."""
        if not HEADER.exists():
            self.skipTest("the header of p11-kit isn't installed (libp11-kit-dev)")
        root = self.root()
        name = re.fullmatch(r"module: /(\S+)\n", (root / "usr/share/p11-kit/modules/cca-pkcs11.module").read_text())[1]
        self.assertTrue((root / name).is_file(), name)
        if not shutil.which("pkcs11-tool"):
            self.skipTest("opensc isn't installed")
        words = ["pkcs11-tool", "--module", root / name, "--token-label", "DEFAULT", "--list-objects"]
        environment = {**os.environ, "CCA_PKCS11": f"{self.fronted(root)}=DEFAULT"}
        it = subprocess.run(words, env=environment, capture_output=True, text=True)
        self.assertRegex(it.stdout, r"(?m)^Secret Key Object; DES length 8\n +label: +PAY$", it.stderr)

    def test_jar(self):
        if not has_jdk():
            self.skipTest("no JDK of version 17 or later is installed")
        root = self.root()
        words = ["java", "-cp", root / "usr/share/java/cca.jar", root / "usr/share/doc/cca/examples/java/Mac.java"]
        it = subprocess.run([*words, self.fronted(root), "PAY", MESSAGE], capture_output=True, text=True)
        self.assertEqual((it.stdout, it.stderr), (f"MAC {MAC}\n", ""))

    def over_this_system(self, root, script):
        """What a script says that sees the files of the packages over those of this system, as if they were installed."""
        mounts = "".join(f"mount -t overlay overlay -o lowerdir={root}/{name}:/{name} /{name} && " for name in ("usr", "etc"))
        tried = subprocess.run(["unshare", "--mount", "sh", "-c", f"{mounts}true"], capture_output=True)
        if tried.returncode:
            self.skipTest("files can't be shown over those of this system")
        it = subprocess.run(["unshare", "--mount", "sh", "-c", f"{mounts}cd {self.folder} && {script}"], capture_output=True, text=True)
        self.assertEqual(it.returncode, 0, it.stderr)
        return it.stdout

    @unittest.skipUnless(os.geteuid() == 0 and shutil.which("unshare"), "only root can show files over those of this system")
    def test_by_default(self):
        """Nobody is told where: the linker, programs in C, p11-kit with the settings of the page, and Java."""
        root = self.both()
        socket = self.fronted(root)
        (root / "etc/cca/pkcs11.conf").write_text(f"# The sockets of roles.\n{socket}=DEFAULT\n")
        script = f"cc -std=c99 -o mac {root}/usr/share/doc/cca/examples/c/mac.c -lcca && CCA_SOCKET={socket} ./mac\n"
        self.assertEqual(self.over_this_system(root, script).count("return code 0"), 3)
        if HEADER.exists() and shutil.which("p11-kit"):
            told = self.over_this_system(root, "env -u CCA_PKCS11 p11-kit list-modules")
            self.assertRegex(told, rf"(?m)^cca-pkcs11: (/{self.libraries}/pkcs11/)?libcca-pkcs11\.so\n(    .*\n)*    token: DEFAULT$")
        if has_jdk():
            script = f"java -cp /usr/share/java/cca.jar {EXAMPLES}/java/Mac.java {socket} PAY '{MESSAGE}'"
            self.assertEqual(self.over_this_system(root, script), f"MAC {MAC}\n")


class Dependencies(Libraries):
    """What the packages need, and who needs them, by the tools of dpkg."""

    def shlibdeps(self, *words):
        """What dpkg-shlibdeps finds: the packages, and the least version of each that has one."""
        if not shutil.which("dpkg-shlibdeps"):
            self.skipTest("dpkg-dev isn't installed")
        (self.folder / "debian").mkdir()
        (self.folder / "debian/control").write_text("Source: a\n\nPackage: a\nArchitecture: any\n")
        it = subprocess.run(["dpkg-shlibdeps", "-O", *words], cwd=self.folder, capture_output=True, text=True)
        self.assertEqual(it.returncode, 0, it.stderr)
        return self.packages(it.stdout.partition("=")[2])

    def packages(self, text):
        rows = [re.fullmatch(r"(\S+)(?: \((?:>=|=) (\S+)\))?", it) for it in text.strip().split(", ")]
        return {row[1]: row[2] for row in rows}

    def test_needed(self):
        """The package needs what dpkg-shlibdeps finds that its programs and libraries need, and no earlier one."""
        root = self.root()
        files = [root / name for name in contents(self.package) if re.search(r"^usr/bin/|\.so[.0-9]*$", name)]
        found, said = self.shlibdeps(*(f"-e{it}" for it in files if not it.is_symlink())), self.packages(field(self.package, "Depends"))
        self.assertEqual(said.keys() - {"passwd"}, found.keys())
        subprocess.run(["dpkg", "--compare-versions", said["libc6"], "ge", found["libc6"]], check=True)

    def test_who_needs_it(self):
        """dpkg-shlibdeps finds that a program with libcca.so.1 needs the package, of this version or a later one."""
        root, folder = self.both(), self.unpacked(self.package)
        program = self.compiled(root, "-I", root / "usr/include", "-L", root / self.libraries, "-lcca")
        found = self.shlibdeps(f"-S{folder}", f"-l{folder / self.libraries}", f"-e{program}")
        self.assertEqual(found["cca"], version())

    def test_linker_is_told(self):
        """The system's linker is told of the library once it is there, and once it has gone."""
        self.assertEqual((self.unpacked(self.package) / "DEBIAN/triggers").read_text(), "activate-noawait ldconfig\n")

    def test_development(self):
        said = self.packages(field(self.development, "Depends").replace("libc6-dev | libc-dev", "libc6-dev"))
        self.assertEqual(said, {"cca": version(), "libc6-dev": None})
        self.assertEqual(field(self.development, "Source"), "cca")


class Upgrade(Libraries):
    """From a version whose one package had the headers and the static library."""

    def older(self):
        folder, package = self.unpacked(self.package), self.folder / "older.deb"
        subprocess.run(["dpkg-deb", "--extract", self.development, folder], check=True)
        (folder / "usr/share/doc/libcca-dev").unlink()
        for name in (*HEADERS, f"{self.libraries}/libcca.a"):
            (folder / name).write_text("older")
        for file in (folder / self.libraries).glob("libcca.so*"):
            file.unlink()
        control = folder / "DEBIAN/control"
        control.write_text(re.sub("(?m)^Version: .*$", "Version: 0.9", control.read_text()))
        subprocess.run(["dpkg-deb", "--root-owner-group", "-Znone", "--build", folder, package], check=True, stdout=subprocess.DEVNULL)
        return package

    def owners(self, root, name):
        return [it.name for it in (root / "var/lib/dpkg/info").glob("*.list") if f"/{name}\n" in it.read_text()]

    def upgraded(self, *words):
        """A root in which the older version was, and then something else is installed."""
        root = self.root()
        self.dpkg(root, "--install", "--force-downgrade", self.older())
        self.assertEqual((root / HEADERS[0]).read_text(), "older")
        self.dpkg(root, *words)
        return root

    def test_alone(self):
        """The package has no headers any more."""
        root = self.upgraded("--install", self.package)
        self.assertEqual([it for it in (*HEADERS, f"{self.libraries}/libcca.a") if (root / it).exists()], [])
        self.assertEqual(self.dpkg(root, "--verify"), "")

    def test_both(self):
        """The other package takes them over, also where it comes first; and they go with it."""
        root = self.upgraded("--auto-deconfigure", "--install", self.development, self.package)
        for name in HEADERS:
            self.assertEqual(self.owners(root, name), ["libcca-dev.list"])
        self.assertEqual(self.dpkg(root, "--verify"), "")
        self.dpkg(root, "--remove", "libcca-dev")
        self.assertEqual([it for it in (*HEADERS, f"{self.libraries}/libcca.a") if (root / it).exists()], [])
        self.assertTrue((root / self.libraries / "libcca.so.1").exists())

    def test_development_alone(self):
        """It doesn't come beside the older version, whose files it would take."""
        root = self.upgraded("--version")
        it = subprocess.run(["dpkg", f"--root={root}", "--force-not-root", "--no-act", "--install", self.development], capture_output=True, text=True)
        self.assertNotEqual(it.returncode, 0)
        self.assertIn("breaks cca (<< ", it.stderr)


class LeftOut(Packaged):
    """What isn't made where a compiler or a header isn't installed; the tool says so."""

    def without(self, **stands_in):
        """The files of the package, and what is said, with other programs in the place of some."""
        programs, folder = self.folder / "programs", Path(tempfile.mkdtemp(dir=scratch().name))
        programs.mkdir()
        for name, script in stands_in.items():
            (programs / name.replace("_", "-")).write_text(f"#!/bin/sh\n{script}\n")
            (programs / name.replace("_", "-")).chmod(0o755)
        environment = {**os.environ, "PATH": f"{programs}:{os.environ['PATH']}"}
        it = subprocess.run([TOOL, folder], env=environment, capture_output=True, text=True)
        self.assertEqual(it.returncode, 0, it.stderr)
        package, *others = sorted(folder.glob("*.deb"))
        names = [name for name in contents(package) if re.search(r"\.(so[.0-9]*|jar|module)$", name)]
        return [Path(name).name for name in names], [it.name.partition("_")[0] for it in others], it.stderr.splitlines()

    def test_compilers(self):
        names, others, said = self.without(cc="exit 127", javac="exit 127")
        self.assertEqual((names, others), ([], []))
        wanted = ["the libraries for C and PKCS#11, and the package libcca-dev, since cc isn't installed"]
        wanted.append("the library for Java, since a JDK of version 17 or later isn't installed")
        self.assertEqual(said, [f"package: left out: {it}" for it in wanted])

    def test_header(self):
        names, others, said = self.without(pkg_config="echo -I/nowhere", javac="exit 127")
        self.assertEqual(sorted(names), ["libcca.so.1", f"libcca.so.{version()}", "libcsulcca.so"])
        self.assertEqual((others, said[0]), (["libcca-dev"], "package: left out: the PKCS#11 module, since libp11-kit-dev isn't installed"))


if __name__ == "__main__":
    unittest.main()
