"""The PKCS#11 module of clients/pkcs11, as Python calls it: built once for a process, with the numbers of its headers. Where SANITIZED is
set, it is built with the sanitizers of addresses and of undefined behaviour.
"""
import contextlib
import ctypes
import functools
import os
import re
import subprocess
import sys
import tempfile
from pathlib import Path

from tests.c_library import SANITIZERS
from tests.edits import LIBRARIES
from tests.harness import TOP, scratch

SOURCES = LIBRARIES / "pkcs11"
HEADER = Path("/usr/include/p11-kit-1/p11-kit/pkcs11.h")
CALLS = TOP / "tests" / "pkcs11" / "calls.c"


@functools.cache
def numbers():
    """The numbers of PKCS#11 and those of this module, as the headers have them."""
    text = HEADER.read_text() + (SOURCES / "cca-pkcs11.h").read_text()
    found = re.findall(r"(?m)^#define\s+(CK\w+)\s+\((CKM_VENDOR_DEFINED \| )?(0x[0-9a-fA-F]+|[0-9]+)UL(?: << (\d+))?\)", text)
    return {name: int(number, 0) << int(shift or 0) | (1 << 31 if vendor else 0) for name, vendor, number, shift in found}


@functools.cache
def codes():
    return {number: name for name, number in numbers().items() if name.startswith("CKR_")}


@functools.cache
def built():
    """The module; where SANITIZED is set, with the sanitizers."""
    folder = Path(tempfile.mkdtemp(dir=scratch().name))
    flags = "-Werror " + (" ".join(SANITIZERS) if os.environ.get("SANITIZED") else "")
    subprocess.run([SOURCES / "build", folder], env={**os.environ, "CFLAGS": flags}, check=True)
    return folder / "libcca-pkcs11.so"


@functools.cache
def caller():
    """The program that asks the module in C."""
    it = Path(tempfile.mkdtemp(dir=scratch().name)) / "calls"
    words = ["-std=c11", "-Wall", "-Wextra", "-Wpedantic", "-Werror", "-I", HEADER.parents[1], "-pthread", "-o", it]
    further = SANITIZERS if os.environ.get("SANITIZED") else []
    subprocess.run(["cc", *words, *further, CALLS, "-ldl"], check=True)
    return it


class Attribute(ctypes.Structure):
    _fields_ = [("type", ctypes.c_ulong), ("value", ctypes.c_void_p), ("length", ctypes.c_ulong)]


class Mechanism(ctypes.Structure):
    _fields_ = [("type", ctypes.c_ulong), ("parameter", ctypes.c_void_p), ("length", ctypes.c_ulong)]


def as_bytes(it):
    """The value of an attribute or a parameter: a flag, a number or bytes."""
    if isinstance(it, bool):
        return bytes([it])
    return it.to_bytes(ctypes.sizeof(ctypes.c_ulong), sys.byteorder) if isinstance(it, int) else it


def template(attributes):
    """A template, of attributes by their names without CKA_, and how many they are."""
    values = [as_bytes(it) for it in attributes.values()]
    held = [ctypes.create_string_buffer(it, len(it) + 1) for it in values]
    rows = [(numbers()[f"CKA_{name}"], ctypes.addressof(room), len(it)) for name, room, it in zip(attributes, held, values)]
    found = (Attribute * len(rows))(*rows)
    found.held = held  # as long as the template is there
    return found, len(rows)


def mechanism(name, parameter=b""):
    it = as_bytes(parameter)
    room = ctypes.create_string_buffer(it, len(it) + 1)
    found = Mechanism(numbers()[f"CKM_{name}"], ctypes.addressof(room), len(it))
    found.held = room  # as long as the mechanism is there
    return found


def cut(text, size):
    return [text[at : at + size] for at in range(0, len(text), size)]


def children(name):
    """The processes of a name that this one has started."""
    for it in Path("/proc").glob("[0-9]*/stat"):
        with contextlib.suppress(OSError):
            of, _, rest = it.read_text().rpartition(")")
            if of.endswith(f"({name}") and int(rest.split()[1]) == os.getpid():
                yield int(it.parent.name)


class Failed(Exception):
    """A call that came to another code than CKR_OK."""


class Session:
    """A session over a slot: calls by their names without C_, and what is made of several."""

    def __init__(self, slot=0):
        self.library = ctypes.CDLL(str(built()))
        handle = ctypes.c_ulong()
        self.check(self.library.C_OpenSession(ctypes.c_ulong(slot), ctypes.c_ulong(6), None, None, ctypes.byref(handle)))
        self.handle = handle

    @staticmethod
    def check(came):
        if came:
            raise Failed(codes().get(came, hex(came)))

    def call(self, name, *words):
        given = [ctypes.c_ulong(it) if isinstance(it, int) else it for it in words]
        self.check(getattr(self.library, f"C_{name}")(self.handle, *given))

    def close(self):
        self.library.C_CloseSession(self.handle)

    def search(self, **attributes):
        """The handles of keys."""
        found, count = (ctypes.c_ulong * 2000)(), ctypes.c_ulong()
        self.call("FindObjectsInit", *template(attributes))
        self.call("FindObjects", found, 2000, ctypes.byref(count))
        self.call("FindObjectsFinal")
        return list(found[: count.value])

    def key(self, label):
        found = self.search(LABEL=label.encode())
        if len(found) != 1:
            raise Failed(f"{len(found)} keys")
        return found[0]

    def read(self, key, name):
        """An attribute, as bytes."""
        room = ctypes.create_string_buffer(100)
        it = Attribute(numbers()[f"CKA_{name}"], ctypes.cast(room, ctypes.c_void_p), 100)
        self.call("GetAttributeValue", key, ctypes.byref(it), 1)
        return room.raw[: it.length]

    def output(self, name, *words, size):
        """What a call writes into a buffer of so many bytes."""
        room, length = ctypes.create_string_buffer(size + 1), ctypes.c_ulong(size)
        self.call(name, *words, room, ctypes.byref(length))
        return room.raw[: length.value]

    def cipher(self, name, key, how, text, parts=None):
        """Encrypts or decrypts, whole or in parts of a size."""
        self.call(f"{name}Init", ctypes.byref(how), key)
        if parts is None:
            return self.output(name, text, len(text), size=len(text) + 8)
        came = [self.output(f"{name}Update", it, len(it), size=len(it) + 8) for it in cut(text, parts)]
        return b"".join(came) + self.output(f"{name}Final", size=8)

    def sign(self, key, how, text, parts=None):
        self.call("SignInit", ctypes.byref(how), key)
        if parts is None:
            return self.output("Sign", text, len(text), size=8)
        for it in cut(text, parts):
            self.call("SignUpdate", it, len(it))
        return self.output("SignFinal", size=8)

    def verify(self, key, how, text, mac, parts=None):
        self.call("VerifyInit", ctypes.byref(how), key)
        if parts is None:
            return self.call("Verify", text, len(text), mac, len(mac))
        for it in cut(text, parts):
            self.call("VerifyUpdate", it, len(it))
        return self.call("VerifyFinal", mac, len(mac))

    def made(self, name, *words):
        """The handle of the key that a call makes."""
        key = ctypes.c_ulong()
        self.call(name, *words, ctypes.byref(key))
        return key.value

    def generate(self, how, **attributes):
        return self.made("GenerateKey", ctypes.byref(mechanism(how)), *template(attributes))
