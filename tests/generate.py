"""Keys that are generated over random bytes which are chosen: each reply is compared with another program.

What a request must come to is made here by the tables of docs/VERBS.md: the first rule that it breaks, the random bytes that it
takes, and its tokens, which OpenSSL enciphers. Of the keys of DOUBLE-O some right halves are repeated, up to eight times. Then
the random bytes end at each place within a key, and refusals are recorded on an audit trail."""
import random

from tests.formats import as_part, externals, internals, made, types, unique
from tests.harness import Calls, Case, Fault
from tests.keys import EXPORTER, IMPORTER, by_label, ceremony, stored

FAULTS = [Fault('"$CCA" "$@" | sed -u "s/^NO 34 length/NO 32 length/"', case="test_audited", tells=r"!= \[0, 'NO 34 length")]

LENGTHS = {"8": 8, "16": 16, "DOUBLE-O": 16}
SAME = {"DATA", "DATAC", "DATAM", "CIPHER", "MAC"}  # types that are a pair with themselves
PAIRS = {
    frozenset(pair.split())
    for pair in (
        "DATAM DATAMV", "MAC MACVER", "ENCIPHER DECIPHER", "CIPHER ENCIPHER", "CIPHER DECIPHER", "EXPORTER IMPORTER",
        "OKEYXLAT IKEYXLAT", "EXPORTER IKEYXLAT", "IMPORTER OKEYXLAT",
    )
}  # fmt: skip
OUT, IN = EXPORTER[1], IMPORTER[1]  # the classes of transport keys
# Of each form its access control point, the classes of its transport keys, and the bit of byte 2 that these need.
FORMS = {
    "OP": (0x80, {}, 0),
    "OPEX": (0x100, {"transport2": OUT}, 0x20),
    "OPIM": (0x100, {"transport2": IN}, 0x20),
    "IMEX": (0x200, {"transport1": IN, "transport2": OUT}, 0x10),
    "EXEX": (0x200, {"transport1": OUT, "transport2": OUT}, 0x08),
    "IMIM": (0x200, {"transport1": IN, "transport2": IN}, 0x08),
}
KRW = 0x10000
ROLES = {"DEFAULT": 0x1FFFFFFF, "MAKER": 0x380, "PAIRER": KRW | 0x100}
MASTER = made("master key", 24)
NEXT = bytes(8)  # bytes behind those of a request, which CSNBRNG shows
RANDOM_FAILED = "cca: the random source failed"
RNG = "CSNBRNG role=DEFAULT form=RANDOM"
# The control vectors of the keys under labels; none under a null record.
VECTORS = {
    "EXP": EXPORTER, "IMP": IMPORTER, "EXP.UNIQUE": unique(EXPORTER), "IMP.UNIQUE": unique(IMPORTER), "PART": as_part(EXPORTER),
    "WORK": types()["DATA"][16], "NO.USE": bytes(it & ~0x30 if at % 8 == 2 else it for at, it in enumerate(EXPORTER)),
    "SINGLE": EXPORTER[:5] + bytes(11), "NULL": None,
}  # fmt: skip
KEYS = {label: vector and (made(label, 16 if any(vector[8:]) else 8), vector) for label, vector in VECTORS.items()}


# ---- what a request comes to


def vector_of(kind, length):
    """The control vector of a type with a length, if it has one."""
    vector = types()[kind].get(LENGTHS[length])
    return unique(vector) if vector and length == "DOUBLE-O" else vector


def broken_by(label, wanted, bit):
    """The rule that the key of a label breaks as a transport key of a class, with a bit of byte 2; none where it breaks none."""
    if label not in KEYS:
        return "07"
    if KEYS[label] is None:
        return "08"
    vector = KEYS[label][1]
    if vector[5] & 0x08:
        return "17"
    if vector[1] != wanted:
        return "19"
    if not vector[2] & bit:
        return "20"
    return None if vector[5] & 0xE0 else "22"


def refused(asked):
    """The first rule that a request breaks before a random byte is drawn, with its field; none where it breaks none."""
    point, transports, bit = FORMS[asked["form"]]
    if asked["role"] not in ROLES:
        return "03 -"
    if (point | (KRW if asked.get("to", "-") != "-" else 0)) & ~ROLES[asked["role"]]:
        return "04 -"
    for field, wanted in transports.items():
        rule = broken_by(asked[field], wanted, bit)
        if rule:
            return f"{rule} {field}"
    if asked.get("to", "-") not in ("-", "TO"):
        return "07 to"
    kinds = [asked[it] for it in ("type1", "type2") if it in asked]
    if len(kinds) == 2 and frozenset(kinds) not in PAIRS and not (kinds[0] == kinds[1] and kinds[0] in SAME):
        return "24 type2"
    return None if all(vector_of(kind, asked["length"]) for kind in kinds) else "32 length"


def odd(clear):
    """Bytes with odd parity."""
    return bytes(byte & 0xFE | bin(byte >> 1).count("1") % 2 ^ 1 for byte in clear)


def bytes_for(drawn, length, repeated):
    """Random bytes of a key: of DOUBLE-O so many right halves that are the same but for low-order bits, and one that differs."""
    if length != "DOUBLE-O":
        return drawn.randbytes(LENGTHS[length])
    left = drawn.randbytes(8)
    found = left + b"".join(bytes(byte ^ drawn.randrange(2) for byte in left) for _ in range(repeated))
    other = bytearray(left)
    other[drawn.randrange(8)] ^= drawn.choice([2, 4, 128, 254])
    return found if repeated == 8 else found + bytes(other)


def drawn_request(drawn):
    """A request; most of them break no rule."""
    form, kind = drawn.choice(list(FORMS)), drawn.choice(list(types()))
    partners = [it for it in types() if frozenset((kind, it)) in PAIRS or kind == it and it in SAME]
    asked = {"role": "DEFAULT", "form": form, "length": drawn.choice([*LENGTHS, "DOUBLE-O", "DOUBLE-O"]), "type1": kind}
    if form != "OP":
        asked["type2"] = drawn.choice(partners if drawn.random() < 0.95 else list(types()))
    for field, wanted in FORMS[form][1].items():
        fitting = ("EXP", "EXP.UNIQUE") if wanted == OUT else ("IMP", "IMP.UNIQUE")
        asked[field] = drawn.choice(fitting if drawn.random() < 0.9 else [*KEYS, "NONE"])
    if "transport1" not in asked:
        asked["to"] = drawn.choice(["-", "TO"]) if drawn.random() < 0.95 else "NONE"
    if drawn.random() < 0.05:
        asked["role"] = drawn.choice([*ROLES, "NOBODY"])
    return asked


class Expected:
    """Requests, the replies that they must get, and the random bytes that they take."""

    def __init__(self, drawn, tokens):
        self.drawn, self.tokens = drawn, tokens
        self.lines, self.replies, self.fills, self.random = [], [], [], b""
        self.wanted = {}  # the keys whose tokens OpenSSL makes, by the transport key that they are under
        self.met = set()
        self.held = None  # the token of the label TO, as its place in these

    def add(self, line, reply, taken=b"", fills=()):
        self.lines.append(line)
        self.replies.append(reply)
        self.fills.append(list(fills))
        self.random += taken

    def line_of(self, asked):
        """The request line; a transport key is named by its label, or at times given by its token."""
        words, by_token = [f"CSNBKGN role={asked['role']}"], self.drawn.random() < 0.3
        for field in ("form", "length", "type1", "type2", "transport1", "transport2", "to"):
            text = asked.get(field)
            if field.startswith("transport") and by_token and text in self.tokens:
                text = f"T:{self.tokens[text]}"
            elif text and (field.startswith("transport") or field == "to" and text != "-"):
                text = f"L:{text}"
            words += [f"{field}={text}"] if text else []
        return " ".join(words)

    def token(self, under, key):
        """The place of a token, which is made later, with all others under the same key."""
        places = self.wanted.setdefault(under, [])
        places.append(key)
        return under, len(places) - 1

    def ask(self, asked):
        """A request for a key, then what its label has, and at times the random bytes that come next."""
        rule = refused(asked)
        if rule:
            self.add(self.line_of(asked), [f"NO {rule}"])
            self.met.add(rule[:2])
        else:
            self.permitted(asked)
        if asked.get("to") == "TO":
            self.add("CSNBKRR role=DEFAULT label=TO", ["OK token=", self.held] if self.held else ["NO 08 label"])
        if self.drawn.random() < 0.2:
            self.add(RNG, [f"OK random={NEXT.hex()}"], NEXT, [8])

    def permitted(self, asked):
        """One that breaks no rule, unless it is rule 34."""
        length = asked["length"]
        repeated = self.drawn.choice([0, 0, 0, 1, 2, 3, 4, 5, 6, 7, 8, 8]) if length == "DOUBLE-O" else 0
        given = bytes_for(self.drawn, length, repeated)
        fills = [LENGTHS[length], *[8] * min(repeated, 7)]
        self.met.add((asked["form"], length, repeated))
        if repeated == 8:
            self.add(self.line_of(asked), ["NO 34 length"], given, fills)
            return
        clear, reply = odd(given[:8] + given[-8:] if length == "DOUBLE-O" else given), ["OK"]
        for number in ("1", "2"):
            if f"type{number}" not in asked:
                continue
            token = self.token(asked.get(f"transport{number}"), (clear, vector_of(asked[f"type{number}"], length)))
            if number == "1" and asked.get("to") == "TO":
                self.held = token
                reply.append(" stored=TO")
            else:
                reply += [f" token{number}=", token]
        self.add(self.line_of(asked), reply, given, fills)

    def all_replies(self):
        """The replies, with the tokens that OpenSSL makes."""
        made_by = {under: externals(KEYS[under][0], keys) if under else internals(MASTER, keys) for under, keys in self.wanted.items()}
        return ["".join(it if isinstance(it, str) else made_by[it[0]][it[1]] for it in reply) for reply in self.replies]


# ---- runs


class Generated(Case):
    def setUp(self):
        super().setUp()
        self.tokens = by_label(internals, MASTER, KEYS)
        define = "CSUAACI role=DEFAULT action=DEFINE name={} points={:08x}"
        roles = [(define.format(*it), "OK") for it in ROLES.items()]
        self.replies([*ceremony(MASTER), *roles, *stored(MASTER, {**KEYS, "TO": None})])

    def over(self, given, lines, command="run"):
        """A run over random bytes."""
        (self.folder / "random").write_bytes(given)
        return self.cca(command, given=lines, calls=Calls(instead=f"/dev/urandom={self.folder / 'random'}"))

    def test_requests(self):
        """Many requests, over bytes that end with the last of them."""
        expected = Expected(random.Random(1), self.tokens)
        for _ in range(2500):
            expected.ask(drawn_request(expected.drawn))
        came = self.over(expected.random, [*expected.lines, RNG])
        self.same(came.lines, expected.all_replies(), expected.lines)
        self.assertEqual((came.status, came.err), (8, f"{RANDOM_FAILED}\n"))
        # How many random bytes each request asks for, call by call.
        fills = [[]]
        for call in came.calls:
            if call.startswith("write output "):
                fills.append([])
            elif call.startswith("read urandom - "):
                fills[-1].append(int(call.split()[-1]))
        self.assertEqual(fills[:-1], expected.fills)
        rules = {"03", "04", "07", "08", "17", "19", "20", "22", "24", "32"}
        self.assertLessEqual(rules | {(form, "DOUBLE-O", repeated) for form in FORMS for repeated in range(9)}, expected.met)

    def test_ends(self):
        """Random bytes that end before a key is decided: no reply, and no byte of the files has changed."""
        line = "CSNBKGN role=DEFAULT form=OP length=DOUBLE-O type1=DATA to=L:TO"
        files = [self.folder / name for name in ("cca.module", "cca.store")]
        before = [it.read_bytes() for it in files]
        given = bytes_for(random.Random(2), "DOUBLE-O", 8)
        for count in range(len(given)):
            with self.subTest(count=count):
                self.ends(self.over(given[:count], [line]), 8, err=RANDOM_FAILED)
        self.assertTrue(before == [it.read_bytes() for it in files])
        self.ends(self.over(given, [line]), 0, ["NO 34 length"])

    def test_audited(self):
        """What an audit trail has of keys that are made and refused."""
        given = b"".join(bytes_for(random.Random(3), "DOUBLE-O", repeated) for repeated in (8, 7))
        lines = [f"CSNBKGN role=DEFAULT form=OP length=DOUBLE-O type1={kind} to=L:TO" for kind in ("DATA", "CIPHER", "MAC")]
        self.ends(self.over(given, lines, "audit"), 0, ["NO 34 length", "NO 32 length", "OK stored=TO"])
        records = [f"{number} {rule} DEFAULT CSNBKGN TO" for number, rule in enumerate(("34", "32", "00"))]
        self.ends(self.cca("trail"), 0, records)
