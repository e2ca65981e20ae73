"""What a key token says of its key, in words; and the control vector of a key, from words.

    python3 -m cca token 0100000000..
    python3 -m cca vector MAC 16 no-export

Neither a key nor the program is needed: docs/FORMATS.md says what stands where. The enciphered key isn't shown.
"""
import sys
from collections.abc import Iterator

from .lines import digits_fault
from .rows import VECTORS
from .values import TOKEN_SIZE, sentence

INTERNAL, EXTERNAL = 1, 2
KINDS = {INTERNAL: "internal: under a master key", EXTERNAL: "external: under a transport key"}
CLASSES = {0x00: "DATA", 0x03: "CIPHER", 0x05: "MAC", 0x41: "EXPORTER", 0x42: "IMPORTER"}  # by byte 1 of the vector
EXPORT, PART = 17, 44  # bits of the vector
FIXED = {EXPORT, PART, 30, 38, *range(8, 16), *range(40, 43), *range(7, 64, 8)}  # those that aren't of one use alone
ENCIPHERS, DECIPHERS = (18, "enciphers data, CSNBENC"), (19, "deciphers data, CSNBDEC")
GENERATES, VERIFIES = (20, "generates MACs, CSNBMGN"), (21, "verifies MACs, CSNBMVR")
# What a key of a class may be used for, by the bit that permits it.
USES: dict[str, tuple[tuple[int, str], ...]] = {
    "DATA": (ENCIPHERS, DECIPHERS, GENERATES, VERIFIES),
    "CIPHER": (ENCIPHERS, DECIPHERS),
    "MAC": (GENERATES, VERIFIES),
    "EXPORTER": (
        (18, "takes the second key of CSNBKGN with OPEX"),
        (19, "takes the second key of CSNBKGN with IMEX"),
        (20, "takes a key of CSNBKGN with EXEX"),
        (21, "exports keys, CSNBKEX"),
        (22, "takes keys that are translated, CSNBKTR"),
    ),
    "IMPORTER": (
        (18, "takes the second key of CSNBKGN with OPIM"),
        (19, "takes the first key of CSNBKGN with IMEX"),
        (20, "takes a key of CSNBKGN with IMIM"),
        (21, "imports keys, CSNBKIM"),
        (22, "gives keys that are translated, CSNBKTR"),
    ),
    "OTHER": (),
}
# The key forms, in bits 40 to 42 of the left half: what the key is, and the form of the right half.
SINGLE, DOUBLE, UNIQUE = 0b000, 0b010, 0b110
FORMS = {
    SINGLE: ("8 bytes: a single-length key", 0b000),
    DOUBLE: ("16 bytes: a double-length key", 0b001),
    UNIQUE: ("16 bytes: a double-length key with guaranteed unique halves", 0b101),
}
LENGTHS = {"8": (8, SINGLE), "16": (16, DOUBLE), "DOUBLE-O": (16, UNIQUE)}
NO_EXPORT, KEY_PART = "no-export", "key-part"


# ---- bits of a half of a control vector, counted from the most significant one of byte 0


def bit(half: bytes, number: int) -> int:
    return half[number // 8] >> (7 - number % 8) & 1


def with_bit(half: bytes, number: int, value: int) -> bytes:
    """The half with a bit of this value, and with the last bit of its byte such that the number of ones there is even."""
    at, mask = number // 8, 1 << (7 - number % 8)
    return half[:at] + bytes([even(half[at] & ~mask | mask * value)]) + half[at + 1 :]


def even(byte: int) -> int:
    """A byte with its last bit such that its number of ones is even."""
    return byte & 0xFE | (byte >> 1).bit_count() % 2


def form_of(left: bytes) -> int:
    return left[5] >> 5


def with_form(left: bytes, form: int) -> bytes:
    """A half with another key form."""
    return left[:5] + bytes([even(form << 5 | left[5] & 0x1F)]) + left[6:]


def right_of(left: bytes) -> bytes:
    """The right half that belongs to a left half, of which the key form is one."""
    form = form_of(left)
    return bytes(8) if form == SINGLE else with_form(left, FORMS[form][1])


# ---- words to a vector


def vector_of(kind: str, length: str, *words: str) -> bytes:
    """The control vector of a key: its type, its length as 8, 16 or DOUBLE-O, and no-export and key-part where it is so."""
    others = [it for it in words if it not in (NO_EXPORT, KEY_PART)]
    if others or len(set(words)) < len(words):
        raise ValueError(f"behind the length only {NO_EXPORT} and {KEY_PART} may stand, each once")
    if kind not in VECTORS:
        raise ValueError(f"the type is one of {', '.join(VECTORS)}")
    if length not in LENGTHS:
        raise ValueError(f"the length is one of {', '.join(LENGTHS)}")
    size, form = LENGTHS[length]
    if size not in VECTORS[kind]:
        raise ValueError(f"the type {kind} doesn't have the length {length}")
    left = with_form(bytes.fromhex(VECTORS[kind][size]), form)
    left = with_bit(left, EXPORT, 0) if NO_EXPORT in words else left
    left = with_bit(left, PART, 1) if KEY_PART in words else left
    return left + right_of(left)


def words_of(vector: bytes) -> str | None:
    """The words that a control vector is made of, if there are any."""
    for kind in VECTORS:
        for length, (size, _) in LENGTHS.items():
            for words in ((), (NO_EXPORT,), (KEY_PART,), (NO_EXPORT, KEY_PART)):
                if size in VECTORS[kind] and vector_of(kind, length, *words) == vector:
                    return " ".join([kind, length, *words])
    return None


# ---- the rules


def validation(token: bytes) -> bytes:
    """The token validation value of a token, as it should be."""
    return (sum(int.from_bytes(token[at : at + 4], "big") for at in range(0, 60, 4)) % 2**32).to_bytes(4, "big")


def is_anti_variant(half: bytes) -> bool:
    return not any(half) or (bit(half, 30), bit(half, 38)) == (0, 1)


def has_form(left: bytes, right: bytes) -> bool:
    """Whether the right half belongs to the left one."""
    return form_of(left) in FORMS and right == right_of(left)


def broken_rule(token: bytes) -> int | None:
    """The first of the rules 09 to 16 that a token breaks, whatever its kind should be."""
    vector, reserved = token[32:48], token[1:4] + token[5:6] + token[7:8] + token[48:60]
    left, right = vector[:8], vector[8:]
    checks = {
        9: token[0] in KINDS,
        10: token[60:] == validation(token),
        11: token[4] == 0,
        12: token[6] == 0xC0 or (token[6] == 0x80 and not any(vector)),
        13: not any(reserved) and not (token[0] == EXTERNAL and any(token[8:16])),
        14: all(byte.bit_count() % 2 == 0 for byte in vector),
        15: is_anti_variant(left) and is_anti_variant(right),
        16: has_form(left, right) and not (form_of(left) == SINGLE and any(token[24:32])),
    }
    return next((rule for rule, is_kept in checks.items() if not is_kept), None)


# ---- a token and its vector in words


def told_of_vector(vector: bytes) -> Iterator[str]:
    """What a control vector says of its key."""
    left = vector[:8]
    is_zero, kind = not any(vector), CLASSES.get(left[1], "OTHER")
    yield f"class: {kind}" + (", which no verb uses" if kind == "OTHER" else "")
    yield f"length: {FORMS[form_of(left)][0] if form_of(left) in FORMS else 'no valid key form'}"
    words = "zero, which is DATA with every use" if is_zero else words_of(vector) or "not that of a generated key"
    yield f"control vector: {left.hex()} {vector[8:].hex()}: {words}"
    yield f"bit {EXPORT}, may be exported: {'yes' if is_zero or bit(left, EXPORT) else 'no'}"
    for number, use in USES[kind]:
        is_permitted = bit(left, number) or (is_zero and 18 <= number <= 21)
        yield f"bit {number}, {use}: {'yes' if is_permitted else 'no'}"
    yield f"bit {PART}, is a key part: {'yes, which CSNBKPI alone takes' if bit(left, PART) else 'no'}"
    others = [str(it) for it in range(64) if bit(left, it) and it not in FIXED and it not in dict(USES[kind])]
    if others:
        yield f"bits {', '.join(others)} are on, without a meaning for this class"


def told(token: bytes) -> Iterator[str]:
    """What a token says of its key."""
    yield f"kind: {KINDS.get(token[0], 'none')}"
    if token[0] == INTERNAL:
        yield f"MKVP: {token[8:16].hex()}"
    yield from told_of_vector(token[32:48])
    yield f"version: {token[4]:02X}, flag: {token[6]:02X}"
    yield f"TVV: {'right' if token[60:] == validation(token) else f'wrong, {validation(token).hex()} would be right'}"
    rule = broken_rule(token)
    yield "no rule is broken" if rule is None else f"rule {rule:02} is broken: {sentence(rule, '-')}"


def main(words: list[str]) -> int:
    """`token HEX`: 0 where it breaks no rule, 1 where it does, 2 where it is no token."""
    if len(words) != 1:
        print("one token is wanted", file=sys.stderr)
        return 2
    fault = digits_fault(words[0], (2 * TOKEN_SIZE,))
    if fault:
        print(f"digit {fault.at + 1}: {fault.reason}", file=sys.stderr)
        return 2
    token = bytes.fromhex(words[0])
    print(*told(token), sep="\n")
    return 0 if broken_rule(token) is None else 1


def main_of_vector(words: list[str]) -> int:
    """`vector MAC 16 no-export`: the 16 bytes of the control vector."""
    try:
        kind, length, *others = words
        print(vector_of(kind, length, *others).hex())
        return 0
    except ValueError as error:
        print(error if len(words) > 1 else "a type and a length are wanted", file=sys.stderr)
        return 2
