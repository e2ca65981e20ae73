#!/usr/bin/env python3
"""Makes the test vectors beside it, by OpenSSL's answers: make.py [--check]

Every enciphered byte is the openssl command's, in its triple DES; SHA-1 is Python's own. The program cca has no part in them. Each
file has a line for each vector; all bytes are in hexadecimal digits. With --check no file is written: it tells those that aren't
what would be made.
"""
import json
import sys
from pathlib import Path

HERE = Path(__file__).resolve().parent
sys.dont_write_bytecode = True
sys.path.insert(0, str(HERE.parents[1]))
from tests.formats import (  # noqa: E402
    as_part,
    chained,
    closed,
    code,
    external,
    internal,
    joined,
    made,
    pattern,
    types,
    unique,
    value,
)

MASTER = made("a master key for vectors", 24)
IV = bytes.fromhex("1234567890abcdef")
PUBLISHED = bytes.fromhex("0123456789abcdef")  # the key of the examples in FIPS 81 and FIPS 113
SINGLE, DOUBLE = made("a single-length key", 8), made("a double-length key", 16)
TRANSPORTS = [made("a transport key", 16), made("another transport key", 16)]
MESSAGE = b"Pay 125.00 EUR to account 4711, reference "


def padded(data, pad):
    """Data as it is enciphered."""
    count = 8 - len(data) % 8
    return data + bytes(count - 1) + bytes([count]) if pad == "X9.23" else data


# ---- the files, each with its vectors


def master_keys():
    """Master keys in parts, and their verification patterns (MKVP)."""
    for count in (2, 3, 5):
        parts = [made(f"part {number} of {count}", 24) for number in range(count)]
        master = joined(*parts)
        yield {"parts": [it.hex() for it in parts], "master_key": master.hex(), "pattern": pattern(master).hex()}


def vectors_of_types():
    """Each key type with a length, and its control vector; then some that types don't have."""
    for kind, lengths in types().items():
        for length, vector in lengths.items():
            yield kind, str(length), vector
            if length == 16:
                yield kind, "DOUBLE-O", unique(vector)
    for kind, length in (("DATA", 8), ("EXPORTER", 16)):
        vector = types()[kind][length]
        yield f"{kind}, a key part", str(length), as_part(vector)
        yield f"{kind}, not for export", str(length), closed(vector)
    yield "DATA, vector of zeros", "8", bytes(16)


def tokens():
    """Keys with control vectors, and their internal tokens under a master key."""
    for kind, length, vector in vectors_of_types():
        clear = made(f"{kind} {length}", 8 if length == "8" else 16)
        token = internal(MASTER, clear, vector)
        yield {"master_key": MASTER.hex(), "type": kind, "length": length, "clear": clear.hex(), "vector": vector.hex(), "token": token}


def exports():
    """Keys with control vectors, and their external tokens under two transport keys, of which the second is for Key_Translate."""
    for kind, length, vector in vectors_of_types():
        clear = made(f"{kind} {length}", 8 if length == "8" else 16)
        found = {"type": kind, "length": length, "clear": clear.hex(), "vector": vector.hex()}
        for number, transport in enumerate(TRANSPORTS, 1):
            found |= {f"transport{number}": transport.hex(), f"token{number}": external(transport, clear, vector)}
        yield found


def check_values():
    """Keys and their check values (KCV): 4 bytes of a block of zeros under the key."""
    for clear in (PUBLISHED, bytes(8), SINGLE, DOUBLE, *TRANSPORTS):
        yield {"clear": clear.hex(), "value": value(clear)}


def data():
    """Plaintext and ciphertext in CBC mode, with padding X9.23 and without. The first one is of FIPS 81."""
    given = [(PUBLISHED, b"Now is the time for all ", "NONE")]
    for clear in (SINGLE, DOUBLE):
        given += [(clear, made("some data", 24) * 4, "NONE"), (clear, made("a block", 8), "NONE")]
        given += [(clear, (MESSAGE * 2)[:size], "X9.23") for size in (0, 1, 7, 8, 9, 63)]
    for clear, plaintext, pad in given:
        ciphertext = chained(clear, IV, padded(plaintext, pad))
        found = {"clear": clear.hex(), "iv": IV.hex(), "pad": pad, "plaintext": plaintext.hex()}
        yield {**found, "ciphertext": ciphertext.hex()}


def macs():
    """Messages and their whole MACs, of which the leftmost 4 or 6 bytes are those of shorter ones. The first one is of FIPS 113."""
    given = [(PUBLISHED, b"7654321 Now is the time for ")]
    given += [(clear, (MESSAGE * 3)[:size]) for clear in (SINGLE, DOUBLE) for size in (1, 7, 8, 9, 64, 100)]
    for clear, message in given:
        rule = "X9.9-1" if len(clear) == 8 else "X9.19OPT"
        yield {"clear": clear.hex(), "rule": rule, "data": message.hex(), "mac": code(clear, message)[1].hex()}


def parts():
    """Keys in parts: the token of the key part behind each part but the last, and that of the key."""
    for kind, length, count in (("DATA", 8, 2), ("MAC", 16, 2), ("EXPORTER", 16, 3), ("IMPORTER", 16, 2)):
        given = [made(f"{kind} part {number}", length) for number in range(count)]
        vector = types()[kind][length]
        steps = [internal(MASTER, joined(*given[: number + 1]), as_part(vector)) for number in range(count - 1)]
        found = {"master_key": MASTER.hex(), "type": kind, "parts": [it.hex() for it in given]}
        yield {**found, "part_tokens": steps, "clear": joined(*given).hex(), "token": internal(MASTER, joined(*given), vector)}


def chain(start, output, given):
    """The chaining value behind a beginning of the data, of which the whole blocks are enciphered."""
    carried = given[len(given) // 8 * 8 :]
    return (output[-8:] or start) + bytes([len(carried)]) + carried.ljust(7, b"\0")


def cut(given, sizes):
    """Data in pieces of these sizes, and a last one."""
    for size in sizes:
        yield given[:size]
        given = given[size:]
    yield given


def enciphered(clear, pieces, pad):
    """Segments of Encipher, with what comes out of each and the chaining value behind it."""
    before, length = b"", 0
    for number, piece in enumerate(pieces, 1):
        before += piece
        whole = padded(before, pad) if number == len(pieces) else before[: len(before) // 8 * 8]
        output = chained(clear, IV, whole)
        found = {"text": piece.hex(), "output": output[length:].hex()}
        yield found if number == len(pieces) else {**found, "chain": chain(IV, output, before).hex()}
        length = len(output)


def deciphered(clear, pieces):
    """Segments of Decipher without padding: the chaining value has the last block of ciphertext."""
    before, length = b"", 0
    for number, piece in enumerate(pieces, 1):
        before += piece
        whole = before[: len(before) // 8 * 8]
        output = chained(clear, IV, whole, "-d")
        found = {"text": piece.hex(), "output": output[length:].hex()}
        yield found if number == len(pieces) else {**found, "chain": chain(IV, whole, before).hex()}
        length = len(output)


def authenticated(clear, pieces):
    """Segments of MAC_Generate, with the chaining value behind each but the last."""
    before = b""
    for piece in pieces[:-1]:
        before += piece
        output = chained(clear[:8], bytes(8), before[: len(before) // 8 * 8])
        yield {"text": piece.hex(), "chain": chain(bytes(8), output, before).hex()}
    yield {"text": pieces[-1].hex()}


def segments():
    """Data in segments, with the chaining values between them."""
    given = MESSAGE * 2
    for clear in (SINGLE, DOUBLE):
        for sizes in ((8, 16), (3, 3), (0, 7, 1), (20, 21)):
            begun = {"clear": clear.hex(), "iv": IV.hex()}
            yield {"verb": "CSNBENC", **begun, "pad": "X9.23", "segments": list(enciphered(clear, list(cut(given, sizes)), "X9.23"))}
            whole = chained(clear, IV, given[:80])
            yield {"verb": "CSNBDEC", **begun, "pad": "NONE", "segments": list(deciphered(clear, list(cut(whole, sizes))))}
            rule = "X9.9-1" if len(clear) == 8 else "X9.19OPT"
            found = list(authenticated(clear, list(cut(given, sizes))))
            yield {"verb": "CSNBMGN", "clear": clear.hex(), "rule": rule, "segments": found, "mac": code(clear, given)[1].hex()}


FILES = {it.__name__: it for it in (master_keys, tokens, exports, check_values, data, macs, parts, segments)}


def text_of(make):
    """A file: what it has, and a line for each vector."""
    lines = ",\n  ".join(json.dumps(it) for it in make())
    return f'{{\n "about": {json.dumps(make.__doc__)},\n "vectors": [\n  {lines}\n ]\n}}\n'


def main():
    wrong = 0
    for name, make in FILES.items():
        path, text = HERE / f"{name}.json", text_of(make)
        if "--check" not in sys.argv[1:]:
            path.write_text(text)
        elif not path.exists() or path.read_text() != text:
            print(f"vectors: {path.name} isn't what make.py makes")
            wrong += 1
    print(f"vectors: {len(FILES)} files")
    return 1 if wrong else 0


if __name__ == "__main__":
    sys.exit(main())
