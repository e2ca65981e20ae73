"""The library of clients/c, as Python calls it: built once for a process, with the types of each parameter read from its headers. Where
SANITIZED is set, it is built with the sanitizers of addresses and of undefined behaviour. And what its files of checks share.
"""
import ctypes
import functools
import os
import re
import shutil
import subprocess
import sys
import tempfile
import unittest
from pathlib import Path

from tests.edits import LIBRARIES
from tests.formats import chained as by_openssl
from tests.formats import code as code_by_openssl
from tests.formats import internal, made, types
from tests.harness import TOP, Case, limited, scratch

SOURCES = LIBRARIES / "c"
WARNINGS = ["-std=c99", "-Wall", "-Wextra", "-Werror", "-pedantic", "-pthread"]
SANITIZERS = ["-fsanitize=address,undefined", "-fno-sanitize-recover=all", "-g"]
DONE, REFUSED, ENDED, UNSAYABLE = range(4)
FIRST, MIDDLE, LAST = range(3)
called = set()  # the functions that were called


class Result(ctypes.Structure):
    """struct cca_result"""

    _fields_ = [
        ("outcome", ctypes.c_int),
        ("is_old", ctypes.c_int),
        ("rule", ctypes.c_int),
        ("field", ctypes.c_char * 12),
        ("is_in_doubt", ctypes.c_int),
        ("status", ctypes.c_int),
        ("why", ctypes.c_char_p),
    ]


class Key(ctypes.Structure):
    """struct cca_key"""

    _fields_ = [("label", ctypes.c_char_p), ("token", ctypes.c_char_p)]


class Generation(ctypes.Structure):
    """struct cca_generation"""

    _fields_ = [(name, ctypes.c_char_p) for name in ("form", "length", "type1", "type2")] + [("transport1", Key), ("transport2", Key)]


class Parsed(ctypes.Structure):
    """struct cca_parsed"""

    _fields_ = [
        ("kind", ctypes.c_char * 9),
        ("key_class", ctypes.c_char * 9),
        ("length", ctypes.c_int),
        ("vector", ctypes.c_ubyte * 16),
        ("pattern", ctypes.c_ubyte * 8),
    ]


class Client(ctypes.Structure):
    """The beginning of struct cca, and more room than the rest of it takes."""

    _fields_ = [(name, ctypes.c_char_p) for name in ("folder", "program", "command", "socket")]
    _fields_ += [(name, ctypes.c_int) for name in ("patience", "status", "owner", "pid")] + [("rest", ctypes.c_char * 512)]


def compiled(name, sources, *words):
    """Compiles sources, without a warning."""
    out = Path(tempfile.mkdtemp(dir=scratch().name)) / name
    subprocess.run(["cc", *WARNINGS, "-I", SOURCES, "-o", out, *words, *sources], check=True)
    return out


def parameter_type(text):
    """The type of a parameter of a declaration."""
    text = text.strip()
    if "*" in text or text.endswith("]"):
        return ctypes.c_void_p
    if text.startswith("struct cca_key "):
        return Key
    return {"size_t": ctypes.c_size_t, "uint32_t": ctypes.c_uint32}.get(text.split()[0], ctypes.c_int)


def declared(header):
    """The functions that a header declares: the name, the type of the result, and the parameters."""
    text = re.sub(r"(?s)/\*.*?\*/", "", (SOURCES / header).read_text())
    first_four = re.search(r"#define CSNB_FIRST_FOUR (.*)", text)
    text = re.sub(r"(?m)^#.*$", "", text).replace("CSNB_FIRST_FOUR", first_four[1] if first_four else "")
    for result, name, parameters in re.findall(r"(?ms)^((?:struct \w+|enum \w+|const char|void|int)[\w ]*?)\s+\*?(\w+)\(([^;]*)\);", text):
        yield name, result.split(" SECURITYAPI")[0], parameters.split(",")


@functools.cache
def library():
    """The library, with the types of its functions."""
    words = ["-O1", "-fPIC", "-shared", *(SANITIZERS if os.environ.get("SANITIZED") else [])]
    it = ctypes.CDLL(str(compiled("libcca.so", sorted(SOURCES.glob("*.c")), *words)))
    results = {"struct cca_result": Result, "struct cca_key": Key, "const char": ctypes.c_char_p, "void": None, "int": ctypes.c_int}
    for header in ("cca.h", "csnb.h"):
        for name, result, parameters in declared(header):
            call = getattr(it, name)
            call.restype, call.argtypes = results[result], [parameter_type(each) for each in parameters]
    return it


class Cca:
    """A struct cca: its methods are the functions of cca.h without their prefix."""

    def __init__(self, program, folder="", role="DEFAULT", opened="open", patience=120):
        self.it = Client()
        self.kept = [str(folder).encode(), role.encode(), str(program).encode()]  # which the library only points to
        self.opened(opened)
        self.it.patience = patience
        if opened != "open_socket":
            self.it.program = self.kept[2]

    def opened(self, how):
        words = self.kept[:1] if how == "open_socket" else self.kept[:2]
        getattr(self, how)(*words)

    def __getattr__(self, name):
        function = getattr(library(), f"cca_{name}")

        def call(*words):
            called.add(f"cca_{name}")
            return function(ctypes.byref(self.it), *(it.encode() if isinstance(it, str) else it for it in words))

        return call


def label(text):
    return Key(text.encode(), None)


def token(given):
    """The key of a token, which is bytes or digits."""
    return Key(None, bytes.fromhex(given) if isinstance(given, str) else given)


def room(size):
    return ctypes.create_string_buffer(size)


def told(result):
    """A result as text."""
    text = room(600)
    library().cca_tell(ctypes.byref(result), text, len(text))
    return text.value.decode()


# ---- IBM's signatures


def words_of(*words):
    """A rule array: its count and its keywords."""
    return ctypes.byref(ctypes.c_long(len(words))), "".join(f"{it:8}" for it in words).encode() or None


def identifier(given=b"\0"):
    """A key identifier: a label, a token, or no key."""
    return ctypes.create_string_buffer(f"{given:64}".encode() if isinstance(given, str) else given, 64)


def csnb(verb, *words):
    """Calls a verb: the return code and its reason. Words of bytes are what it reads; what it writes are buffers."""
    called.add(verb)
    code, reason, nothing = ctypes.c_long(-1), ctypes.c_long(-1), ctypes.c_long(0)
    getattr(library(), verb)(ctypes.byref(code), ctypes.byref(reason), ctypes.byref(nothing), None, *words)
    return code.value, reason.value


# ---- what the files of checks share

MASTER, NEXT = made("master", 24), made("next", 24)
SINGLE, DOUBLE, TRANSPORT = made("single", 8), made("double", 16), made("transport", 16)
IV = made("iv", 8)
EVERY = 0x1FFFFFFF
SIZES = (1, 8, 4089, 8177) if os.environ.get("SANITIZED") else (1, 8, 9, 4088, 4089, 4095, 4096, 4097, 8176, 8177, 30001)


@functools.cache
def chained(key, start, text):
    return by_openssl(key, start, text)


@functools.cache
def code(key, text):
    return code_by_openssl(key, text)


def vector(kind, size):
    return types()[kind][size]


def key_token(key, kind):
    """An internal token of a key of a type, as bytes."""
    return bytes.fromhex(internal(MASTER, key, vector(kind, len(key))))


def data(size):
    return (made("data", 32) * (size // 32 + 1))[:size]


def padded(text):
    fill = 8 - len(text) % 8
    return text + bytes(fill - 1) + bytes([fill])


FAKE = """#!/usr/bin/env bash
# Answers each request with what stands in the file `reply`, or ends, or waits.
while IFS= read -r line; do
    echo "$line" >>requests
    reply="$(cat reply)"
    case "$reply" in
    "ends "*) exit "${reply#ends }" ;;
    waits) exec sleep 100 ;;
    *) printf '%s\\n' "$reply" ;;
    esac
done
"""


class Library(Case):
    """A library over the program, in the folder of the test."""

    @classmethod
    def setUpClass(cls):
        if not shutil.which("cc"):
            raise unittest.SkipTest("cc isn't installed")
        super().setUpClass()
        library()

    def setUp(self):
        super().setUp()
        limited(self, 280)
        self.cca = self.opened()

    def opened(self, program=None, folder=None, **named):
        it = Cca(program or self.program.path, folder or self.folder, **named)
        self.addCleanup(it.close)
        return it

    def done(self, result):
        self.assertEqual(told(result), "done")

    def refused(self, result, rule, field):
        self.assertEqual((result.outcome, result.rule, result.field.decode()), (REFUSED, rule, field), told(result))

    def with_master_key(self, master=MASTER):
        self.done(self.cca.master_key_part("FIRST", master))
        self.done(self.cca.master_key_part("LAST", bytes(24)))
        self.done(self.cca.master_key_set())

    def stored(self, name, key, kind):
        """Puts a key of a type under a new label."""
        self.done(self.cca.record_create(name))
        self.done(self.cca.record_write(name, key_token(key, kind)))
        return label(name)

    def standing(self):
        """What stands for cca: it replies as the file `reply` says."""
        fake = self.folder / "fake"
        fake.write_text(FAKE)
        fake.chmod(0o755)
        return fake


def sanitized(test, subject, kinds, without=()):
    """The cases of some classes once more, with the sanitizers: a fault that they find ends the process."""
    if os.environ.get("SANITIZED") or "CLIENTS" in os.environ or os.environ.get("PLANTED"):
        test.skipTest("this is run by itself")
    if not shutil.which("gcc"):
        test.skipTest("gcc isn't installed")
    runtime = subprocess.run(["gcc", "-print-file-name=libasan.so"], capture_output=True, text=True, check=True).stdout.strip()
    if not os.path.isabs(runtime):
        test.skipTest("the runtime of the sanitizer isn't installed")
    names = [f"tests.{subject}.{kind.__name__}.{name}" for kind in kinds for name in dir(kind) if name.startswith("test_")]
    names = [name for name in names if not name.endswith(tuple(without))] if without else names
    options = {"PYTHONMALLOC": "malloc", "ASAN_OPTIONS": "detect_leaks=0", "SANITIZED": "1"}
    words = ["env", f"LD_PRELOAD={runtime}", sys.executable, "-B", "-m", "unittest", *names]
    it = subprocess.run(words, cwd=TOP, env={**os.environ, **options}, capture_output=True, text=True)
    test.assertEqual(it.returncode, 0, it.stderr[-3000:])


# The runtime of the sanitizers is for this process, and for programs that load the library, but not for others that it starts.
RUNTIME = os.environ.pop("LD_PRELOAD", "") if os.environ.get("SANITIZED") else ""
# Java has a handler of its own for addresses that it may not read.
LOADING = {"LD_PRELOAD": RUNTIME, "ASAN_OPTIONS": "detect_leaks=0:handle_segv=0"} if RUNTIME else {}
