"""What docs/FORMATS.md and docs/VERBS.md say, made without the program: key tokens, control vectors, key check values and MACs, which
OpenSSL enciphers, and the cells of the files with their bodies. Checks compare it with what the program replies and writes.
"""
import functools
import hashlib
import re
import subprocess

from tests.harness import TOP

# ---- OpenSSL's answers, by its triple DES; a key of 8 bytes stands three times, of one of 16 the left half twice


def openssl(cipher, key, given, *words):
    """What a cipher of OpenSSL makes of whole blocks."""
    three = (key * 3)[:24].hex()
    return subprocess.run(["openssl", "enc", *words, cipher, "-nopad", "-K", three], input=given, stdout=subprocess.PIPE, check=True).stdout


def blocks(key, given, direction="-e"):
    """Blocks, each by itself."""
    return openssl("-des-ede3", key, given, direction)


def chained(key, start, given, direction="-e"):
    """Blocks in a chain, from an initial value on."""
    return openssl("-des-ede3-cbc", key, given, direction, "-iv", start.hex())


def code(key, text):
    """The chain of a text, and its code of 8 bytes: X9.9-1 by a key of 8 bytes, X9.19OPT by one of 16."""
    chain = chained(key[:8], bytes(8), text + bytes(-len(text) % 8))
    end = chain[-8:]
    return chain, blocks(key[:8], blocks(key[8:], end, "-d")) if key[8:] and end else end


@functools.cache
def value(key):
    """The key check value of a key: the first bytes of a block of zeros under it."""
    return blocks(key, bytes(8))[:4].hex()


# ---- keys, control vectors and key tokens, by docs/FORMATS.md and docs/VERBS.md


def joined(*lists):
    """The XOR of lists of bytes."""
    return functools.reduce(lambda one, two: bytes(a ^ b for a, b in zip(one, two)), lists)


def made(name, size):
    """Some bytes, other ones for each name."""
    return hashlib.sha256(name.encode()).digest()[:size]


def entered(master, *actions):
    """The requests that bring a master key into the new register, and further actions."""
    words = [f"FIRST part={master.hex()}", f"LAST part={'00' * 24}", *actions]
    return [f"CSNBMKP role=DEFAULT action={it}" for it in words]


def pattern(master):
    """The verification pattern of a master key."""
    return hashlib.sha1(b"\x01" + master).digest()[:8]


def sealed(pairs, three):
    """The halves of keys, each enciphered under three keys, which are XORed with the control vector of that half: of each key
    with its vector 16 bytes. Halves under one vector are enciphered together."""
    places = {}
    for number, (key, vector) in enumerate(pairs):
        for at in range(0, len(key), 8):
            places.setdefault(vector[at : at + 8], []).append((number, at, key[at : at + 8]))
    found = [bytearray(16) for _ in pairs]
    for half, them in places.items():
        enciphered = blocks(joined(three, half * 3), b"".join(it[2] for it in them))
        for index, (number, at, _) in enumerate(them):
            found[number][at : at + 8] = enciphered[8 * index : 8 * index + 8]
    return [bytes(it) for it in found]


def validation(body):
    """The token validation value of the first 60 bytes of a token."""
    return (sum(int.from_bytes(body[at : at + 4], "big") for at in range(0, 60, 4)) % 2**32).to_bytes(4, "big")


def tokens(kind, verification, three, pairs):
    """The key tokens of keys with their vectors, in hexadecimal digits."""
    found = []
    for halves, (_, vector) in zip(sealed(pairs, three), pairs):
        body = bytes([kind, 0, 0, 0, 0, 0, 0xC0, 0]) + verification + halves + vector + bytes(12)
        found.append((body + validation(body)).hex())
    return found


def internals(master, pairs):
    """The tokens of keys under a master key."""
    return tokens(1, pattern(master), master, pairs)


def externals(transport, pairs):
    """The tokens of keys under a transport key."""
    return tokens(2, bytes(8), transport + transport[:8], pairs)


def internal(master, key, vector):
    """The token of a key under a master key."""
    return internals(master, [(key, vector)])[0]


def external(transport, key, vector):
    """The token of a key under a transport key."""
    return externals(transport, [(key, vector)])[0]


def changed(vector, bits):
    """The vector with bits changed in each half that isn't all zero."""
    return b"".join(joined(it, bits) if any(it) else it for it in (vector[:8], vector[8:]))


def as_part(vector):
    """The vector of a key part: bits 44 and 47 changed."""
    return changed(vector, bytes([0, 0, 0, 0, 0, 9, 0, 0]))


def closed(vector):
    """The vector of a type made one that forbids export: bits 17 and 23 changed."""
    return changed(vector, bytes([0, 0, 0x41, 0, 0, 0, 0, 0]))


def unique(vector):
    """The vector of a double-length key made that of one whose halves are guaranteed unique: key forms 110 and 101."""
    return vector[:5] + b"\xc0" + vector[6:13] + b"\xa0" + vector[14:]


@functools.cache
def types():
    """The key types of docs/VERBS.md, each with its vector for each length that it has."""
    page = (TOP / "docs" / "VERBS.md").read_text()
    table = page.partition("\n## Key types\n")[2].partition("\n## ")[0]
    found = {}
    for name, single, left in re.findall(r"^\| ([A-Z]+) \| (\w*) ?\| (\w*) ?\|$", table, re.MULTILINE):
        lengths = {8: single + "00" * 8 if single else "", 16: left and left + left[:10] + "21" + left[12:]}
        found[name] = {length: bytes.fromhex(it) for length, it in lengths.items() if it}
    assert len(found) == 13, f"docs/VERBS.md has {len(found)} key types"
    return found


# ---- cells and their bodies, by docs/FORMATS.md

CELL, BODY, BODIES = 1536, 192, (512, 1024)
CELLS = {"module": 33, "store": 1024, "trail": 4096}
SIZES = {kind: count * CELL for kind, count in CELLS.items()}


def image(kind, bodies):
    """A file with these bodies in its first cells, each on the first side of its cell."""
    cells = b"".join(bytes(BODIES[0]) + body.ljust(CELL - BODIES[0], b"\0") for body in bodies)
    return cells.ljust(SIZES[kind], b"\0")


def selected(whole):
    """The bodies that the cells of a file select."""
    places = (cell + BODIES[whole[cell] % 2] for cell in range(0, len(whole), CELL))
    return [whole[at : at + BODY] for at in places]


def registers(new=b"", current=b"", old=b"", is_partial=False):
    """The body of the master key registers."""
    states = bytes([1, 2 - is_partial if new else 0, bool(current), bool(old)])
    return (states.ljust(8, b"\0") + b"".join(it.ljust(24, b"\0") for it in (new, current, old))).ljust(BODY, b"\0")


def role(name, points):
    """The body of a role."""
    return (bytes([1, len(name)]) + name.encode().ljust(8, b"\0") + points.to_bytes(4, "big")).ljust(BODY, b"\0")


def record(label, token=b"", second=b""):
    """The body of a label, with nothing, a key or a key with a second token."""
    kind = 3 if second else 2 if token else 1
    return (bytes([kind, len(label)]) + label.encode().ljust(64, b"\0") + token.ljust(64, b"\0") + second).ljust(BODY, b"\0")


def trail_record(number, rule, by="", verb="", label=""):
    """The body of a record of the trail."""
    fields = bytes([1, rule]) + number.to_bytes(8, "big") + by.encode().ljust(8, b"\0") + verb.encode().ljust(10, b"\0")
    return (fields + bytes([len(label)]) + label.encode()).ljust(BODY, b"\0")
