"""Texts in segments: they are cut at every place, and each reply is compared with what OpenSSL makes of the whole text.

A text of 24 bytes, and for codes one of 28 bytes, is cut in two and in three wherever it can be cut, under keys of 8 and of 16
bytes. Then come segments of 0 to 4,089 bytes, whole texts of up to 4,096, chains with each byte wrong, and the rules that a segment is judged by. Each
chain is given as OpenSSL has it, so each whole text costs one call of OpenSSL."""
import functools
import itertools
from dataclasses import dataclass, replace
from typing import Callable, NamedTuple, Optional

from tests.formats import chained, code, internal, made, types
from tests.harness import Case, Fault
from tests.keys import ceremony

FAULTS = [
    Fault(r'"$CCA" "$@" | sed -u "s/^\(OK.* chain=.*\)00\$/\101/"', case="test_padding", tells="wanted: OK text=.* chain=.*00$"),
    Fault(r'"$CCA" "$@" | sed -u "s/^\(OK text=.*\).\$/\1x/"', case="test_keys_whose_halves_are_alike", tells="wanted: OK text=.*$"),
]

LONGEST = 4088  # bytes of a segment
LANES = [36, 37, 127, 128, 129]  # blocks: the last that are deciphered pair by pair, the first in lanes, and about a part of these
SIZES = [0, 1, 7, 8, *(8 * count for count in LANES), 4081, LONGEST, LONGEST + 1]
BEGUN = [0, 7, 16]  # how many bytes came before a segment
START = bytes.fromhex("1234567890abcdef")
TEXT = b"Now is the time for all "
CODED = b"7654321 Now is the time for "
LONG = bytes(number * 7 % 251 for number in range(BEGUN[-1] + LONGEST + 8))
TOO_LONG = LONG[: LONGEST + 1]
MASTER = made("master key", 24)
KINDS = ("FIRST", "MIDDLE", "LAST")


class Key(NamedTuple):
    """A key as the program gets it, and its bytes."""

    token: str
    clear: bytes


def key_of(kind, digits):
    """A key of a type."""
    clear = bytes.fromhex(digits)
    return Key(f"T:{internal(MASTER, clear, types()[kind][len(clear)])}", clear)


SINGLE, DOUBLE = key_of("DATA", "0123456789abcdef"), key_of("DATA", "2b7e151628aed2a6abf7158809cf4f3c")
CODING = key_of("MAC", "2b7e151628aed2a6abf7158809cf4f3c")
RULES = [("X9.9-1", SINGLE), ("X9.19OPT", CODING)]


@dataclass
class Whole:
    """A whole text on its way through a verb, and what OpenSSL makes of it."""

    words: str  # of each request: the verb, the key and the rule
    begin: str  # of FIRST, behind the segment
    end: str  # of LAST, with the place of the chain
    given: bytes  # the text
    replied: Optional[bytes]  # the text that comes of its whole blocks; none for a code
    kept: int  # how many bytes of that stay
    blocks: bytes  # the chaining blocks: the initial value, and the blocks of enciphered text
    fits: Callable[[int], bool]  # whether LAST takes so many bytes, with those that are carried
    ending: Optional[str] = None  # the reply to LAST, where it isn't the rest of the text

    def chain(self, place):
        """The chain after so many bytes of the text."""
        whole = place // 8 * 8
        return chain_of(self.blocks[whole : whole + 8], self.given[whole:place])

    def request(self, kind, chain, text):
        """A request with a segment."""
        fields = {"FIRST": self.begin, "MIDDLE": "chain={chain} ", "LAST": self.end}[kind]
        return f"{self.words} segment={kind} {fields.format(chain=chain)}text={text.hex()}"

    def segment(self, kind, begin, end):
        """The request with the text between two places, and its reply."""
        request = self.request(kind, self.chain(begin), self.given[begin:end])
        first, last = begin // 8 * 8, end // 8 * 8
        if end - begin > LONGEST or kind == "LAST" and not self.fits(end - first):
            return request, "NO 23 text"
        if kind == "LAST":
            return request, self.ending or f"OK text={self.replied[first : self.kept].hex()}"
        text = "" if self.replied is None else f" text={self.replied[first:last].hex()}"
        return request, f"OK{text} chain={self.chain(end)}"

    def cut(self, *places):
        """The requests with the text cut at some places, and their replies."""
        ends = [0, *places, len(self.given)]
        return [self.segment(*it) for it in zip(["FIRST", *["MIDDLE"] * (len(places) - 1), "LAST"], ends, ends[1:])]


def chain_of(block, carried, count=None):
    """A chain of a block and carried bytes, and of their number, or another one."""
    return (block + bytes([len(carried) if count is None else count]) + carried.ljust(7, b"\0")).hex()


# Each text is asked of OpenSSL once.
chained, code = functools.cache(chained), functools.cache(code)


def filled(text, pad):
    """A text as it is enciphered: of no padding its whole blocks."""
    count = 8 - len(text) % 8
    return text + bytes(count - 1) + bytes([count]) if pad == "X9.23" else text[: len(text) // 8 * 8]


def whole_blocks(count):
    """Whether so many bytes are whole blocks, and at least one."""
    return count % 8 == 0 and count > 0


def enciphering(pad, key, text):
    """A text through CSNBENC."""
    enciphered = chained(key.clear, START, filled(text, pad))
    fits = whole_blocks if pad == "NONE" else lambda count: True
    words, end = f"CSNBENC role=DEFAULT key={key.token}", f"chain={{chain}} pad={pad} "
    return Whole(words, f"iv={START.hex()} ", end, text, enciphered, len(enciphered), START + enciphered, fits)


def deciphering(pad, key, text):
    """The text through CSNBDEC of which this text comes."""
    clear = filled(text, pad)
    given = chained(key.clear, START, clear)
    words, end = f"CSNBDEC role=DEFAULT key={key.token}", f"chain={{chain}} pad={pad} "
    return Whole(words, f"iv={START.hex()} ", end, given, clear, len(text), START + given, whole_blocks)


def coding(verb, rule, key, text, end, ending):
    """A text through CSNBMGN or CSNBMVR."""
    words, blocks = f"{verb} role=DEFAULT key={key.token} rule={rule}", bytes(8) + code(key.clear, text)[0]
    return Whole(words, "", end + " chain={chain} ", text, None, 0, blocks, lambda count: count > 0, ending)


def generating(rule, key, length, text):
    """A text through CSNBMGN."""
    mac = code(key.clear, text)[1][:length]
    return coding("CSNBMGN", rule, key, text, f"length={length}", f"OK mac={mac.hex()}")


def verifying(rule, key, length, text, is_right=True):
    """A text through CSNBMVR, with the code or one that differs in its last bit."""
    mac = bytearray(code(key.clear, text)[1][:length].ljust(length, b"\0"))
    mac[-1] ^= not is_right
    return coding("CSNBMVR", rule, key, text, f"mac={mac.hex()}", f"OK match={'yes' if is_right else 'no'}")


# ---- requests with their replies


def cuttings(whole):
    """A text cut in two and in three everywhere; what the rules don't allow is refused."""
    places = range(len(whole.given) + 1)
    for them in [*((it,) for it in places), *itertools.combinations_with_replacement(places, 2)]:
        yield from whole.cut(*them)


def sized(of_text, whole):
    """Segments of each size, behind nothing, behind whole blocks and behind carried bytes; `of_text` makes a shorter text."""
    for begin, size in itertools.product(BEGUN, SIZES):
        end = begin + size
        if begin == 0:
            yield whole.segment("FIRST", 0, end)
        yield whole.segment("MIDDLE", begin, end)
        is_taken = size <= LONGEST and whole.fits(begin % 8 + size)
        ended = of_text(LONG[:end]) if is_taken else replace(whole, given=whole.given[:end])
        yield ended.segment("LAST", begin, end)


def wholes(make, key):
    """Texts that aren't cut: of whole blocks, about the counts from which on they are deciphered in lanes, and of the most bytes."""
    for count in (1, 2, *LANES, 165, 256, 512):
        whole = make("NONE", key, LONG[: 8 * count])
        yield f"{whole.words} {whole.begin}pad=NONE text={whole.given.hex()}", f"OK text={whole.replied.hex()}"


def halves_alike():
    """Double-length keys whose halves agree in their first byte, in all but one, or wholly: by their length they are no single ones."""
    left = SINGLE.clear.hex()
    yield from (key_of("DATA", left + right) for right in (f"01{'7c' * 7}", f"{left[:14]}ec", f"7c{left[2:]}", left))


def wrong_chains():
    """Each chain with one byte wrong: the number of carried bytes, or one of those that fill it up."""
    yield from (chain_of(START, b"", count) for count in range(8, 256))
    for count, value in itertools.product(range(8), (0x01, 0x80, 0xFF)):
        for place in range(count, 7):
            filling = bytes(value if it == place else 0 for it in range(count, 7))
            yield chain_of(START, b"\x41" * count + filling, count)


def with_chains(whole):
    """Wrong chains: they are refused, and so is each ninth of them with a text that is too long. And chains with any carried
    bytes: a MIDDLE of no byte gives them back."""
    for step, text in ((1, LONG[:8]), (9, TOO_LONG)):
        for chain in itertools.islice(wrong_chains(), 0, None, step):
            yield from ((whole.request(kind, chain, text), "NO 36 chain") for kind in ("MIDDLE", "LAST"))
    for count in range(8):
        chain = chain_of(START, b"\xff" * count)
        yield whole.request("MIDDLE", chain, b""), f"OK{'' if whole.replied is None else ' text='} chain={chain}"


def badly_padded(key):
    """A text whose last clear byte is a number of bytes to take off, or none, cut in two."""
    for last in [*range(10), 16, 0x20, 0x80, 0xFF]:
        whole = deciphering("NONE", key, TEXT[:-1] + bytes([last]))
        ending = None if 1 <= last <= 8 else "NO 31 text"
        whole = replace(whole, end="chain={chain} pad=X9.23 ", kept=len(TEXT) - last, ending=ending)
        for place in range(len(TEXT) + 1):
            yield from whole.cut(place)


def in_order():
    """What is asked of a segment, in its order: the key, the chain, the length of the text, and which key a rule wants."""
    wrong, right = chain_of(bytes(8), b"", 8), chain_of(bytes(8), b"\x41")
    whole = enciphering("NONE", CODING, TEXT)
    yield from ((whole.request(kind, wrong, TOO_LONG), "NO 19 key") for kind in KINDS)
    for rule, key in (("X9.9-1", CODING), ("X9.19OPT", SINGLE)):
        for whole, kind in itertools.product((generating(rule, key, 8, CODED), verifying(rule, key, 4, CODED)), KINDS):
            yield whole.request(kind, right, b"abc"), "NO 32 key"
            yield whole.request(kind, right, TOO_LONG), "NO 23 text"
            if kind != "FIRST":
                yield whole.request(kind, wrong, TOO_LONG), "NO 36 chain"


class Segments(Case):
    """Each verb whose text may come in segments."""

    def setUp(self):
        super().setUp()
        self.replies(ceremony(MASTER))

    def test_texts(self):
        """CSNBENC and CSNBDEC, with each padding and under each key."""
        for make, pad, key in itertools.product((enciphering, deciphering), ("NONE", "X9.23"), (SINGLE, DOUBLE)):
            # What is deciphered with padding is whole blocks: here one byte of the last one is padding.
            shown = slice(0, -1) if make is deciphering and pad == "X9.23" else slice(None)

            def of_text(text):
                return make(pad, key, text[shown])

            with self.subTest(make.__name__, pad=pad, size=len(key.clear)):
                self.replies(cuttings(make(pad, key, TEXT)))
                self.replies(sized(of_text, of_text(LONG)))

    def test_whole_texts(self):
        for make, key in itertools.product((enciphering, deciphering), (SINGLE, DOUBLE)):
            with self.subTest(make.__name__, size=len(key.clear)):
                self.replies(wholes(make, key))

    def test_keys_whose_halves_are_alike(self):
        for make, key in itertools.product((enciphering, deciphering), halves_alike()):
            with self.subTest(make.__name__, key=key.clear.hex()):
                self.replies(wholes(make, key))

    def test_padding(self):
        for key in (SINGLE, DOUBLE):
            with self.subTest(size=len(key.clear)):
                self.replies(badly_padded(key))

    def test_codes(self):
        """CSNBMGN and CSNBMVR, with each rule and each length of a code."""
        for (rule, key), length in itertools.product(RULES, (4, 6, 8)):
            with self.subTest(rule, length=length):
                self.replies(cuttings(generating(rule, key, length, CODED)))
                self.replies(cuttings(verifying(rule, key, length, CODED)))
                self.replies(cuttings(verifying(rule, key, length, CODED, False)))
        for (rule, key), make in itertools.product(RULES, (generating, verifying)):
            with self.subTest(make.__name__, rule=rule):
                self.replies(sized(functools.partial(make, rule, key, 8), make(rule, key, 8, LONG)))

    def test_chains(self):
        wholes = [make(pad, DOUBLE, TEXT) for make in (enciphering, deciphering) for pad in ("NONE", "X9.23")]
        wholes += [make(*it, 4, CODED) for it in RULES for make in (generating, verifying)]
        for whole in wholes:
            with self.subTest(whole.words):
                self.replies(with_chains(whole))

    def test_order(self):
        self.replies(in_order())
