"""Keys that are brought in by parts: their key check values and tokens are compared with what OpenSSL makes of the XOR of the parts.

Keys of 8 and of 16 bytes come in two, three and ten parts, by two roles, under a new master key in between. Each type is tried
with each length, each rule that a part breaks is met, and a key that may not be exported is translated between transport
keys. Then the program is killed between the parts, in the midst of a line, and while it takes parts: when it is run again the
key must be the XOR of the parts that were answered, and at most of the next one."""
import itertools
import random
import shutil

from tests.formats import as_part, external, internal, joined, made, types, value
from tests.harness import Calls, Case, Coprocess, Fault
from tests.keys import QUICK, ceremony

FAULTS = [Fault('"$CCA" "$@" | sed -u "s/^NO 35 key/NO 32 part/"', case="test_types", tells="wanted: NO 35 key")]

LONGEST_RUN = 0.2  # seconds within which a run is killed, unless it has ended
FURTHER = 150  # parts that are sent while the program is killed
NOT_EXPORTED = bytes.fromhex("00003c0003000000") + bytes(8)  # the vector of a DATA key that may not be exported
DATA = types()["DATA"][8]
RENEW = "REENCIPHER role=DEFAULT"
TRANSLATE = "CSNBKTR role=DEFAULT token={} transport1=L:{} transport2=L:{}"
MASTER = made("master key", 24)


def part(rule, what, given, to, role="DEFAULT"):
    """A CSNBKPI; what stands for the type or for the key."""
    return f"CSNBKPI role={role} rule={rule} {'type' if rule == 'FIRST' else 'key'}={what} part={given.hex()} to={to}"


def tested(key):
    return f"CSNBKYT role=DEFAULT key={key}"


def in_parts(label, kind, *parts):
    """The requests that bring a key in under a new label, with their replies."""
    yield f"CSNBKRC role=DEFAULT label={label}", "OK"
    for number, given in enumerate(parts):
        rule = "FIRST" if number == 0 else "MIDDLE" if number < len(parts) - 1 else "LAST"
        yield part(rule, f"L:{label}" if number else kind, given, f"L:{label}"), f"OK stored={label}"


def by_two_roles():
    """Keys in two, three and ten parts, the first by one role and each other one by another, and no part is a key yet; with a new
    master key before the middle part and behind the last one."""
    masters = (made(f"master key {number}", 24) for number in itertools.count())
    yield from ceremony(next(masters))
    yield "CSUAACI role=DEFAULT action=DEFINE name=CUSTA points=04018000", "OK"
    yield "CSUAACI role=DEFAULT action=DEFINE name=CUSTB points=08010000", "OK"
    for labels, (size, count) in enumerate(itertools.product((8, 16), (2, 3, 10)), 1):
        label, kind = f"KEY.{size}.{count}", "DATA" if size == 8 else "EXPORTER"
        parts, to, stored = [made(f"{label} part {number}", size) for number in range(count)], f"L:{label}", f"OK stored={label}"
        yield f"CSNBKRC role=CUSTA label={label}", "OK"
        yield part("FIRST", kind, parts[0], to, "CUSTB"), "NO 04 -"
        yield part("FIRST", kind, parts[0], to, "CUSTA"), stored
        yield part("LAST", to, parts[1], to, "CUSTA"), "NO 04 -"
        for number in range(1, count):
            yield tested(to), "NO 17 key"
            # This key is brought under the new master key before its middle part comes, or by that part.
            is_new, is_old = number == count // 2, number == count // 2 and size == 16
            if is_new:
                yield from ceremony(next(masters))
            if is_new and not is_old:
                yield RENEW, f"OK changed={labels}"
            yield part("LAST" if number == count - 1 else "MIDDLE", to, parts[number], to, "CUSTB"), stored + " warn=old" * is_old
            if is_old:
                yield RENEW, f"OK changed={labels - 1}"
        wanted = f"OK value={value(joined(*parts))}"
        yield tested(to), wanted
        yield from ceremony(next(masters))
        yield from ((tested(to), f"{wanted} warn=old"), (RENEW, f"OK changed={labels}"), (tested(to), wanted))


def of_type(kind, size, vector):
    """A key of a type in three parts: the tokens on the way, and what is refused of a part and of a whole key."""
    one, two, three = (made(f"{size} bytes, part {number}", size) for number in range(3))
    if not vector:
        yield part("FIRST", kind, one, "-"), "NO 32 part"
        return
    other = made("another size", 24 - size)
    first, middle = (internal(MASTER, it, as_part(vector)) for it in (one, joined(one, two)))
    last = internal(MASTER, joined(one, two, three), vector)
    yield part("FIRST", kind, one, "-"), f"OK token={first}"
    for rule, token, given, after in (("MIDDLE", first, two, middle), ("LAST", middle, three, last)):
        yield tested(f"T:{token}"), "NO 17 key"
        yield part(rule, f"T:{token}", other, "-"), "NO 32 part"
        yield part(rule, f"T:{token}", given, "-"), f"OK token={after}"
    yield tested(f"T:{last}"), f"OK value={value(joined(one, two, three))}"
    for rule in ("MIDDLE", "LAST"):
        yield part(rule, f"T:{last}", two, "-"), "NO 35 key"
        yield part(rule, f"T:{last}", other, "-"), "NO 32 part"


def known():
    """Keys by parts and a translation whose replies are known from outside, over random bytes that are all zero."""
    yield from ceremony(bytes(range(1, 25)))
    yield "CSNBKRC role=DEFAULT label=P", "OK"
    yield part("FIRST", "DATA", bytes.fromhex("ffffffffffffffff"), "L:P"), "OK stored=P"
    yield tested("L:P"), "NO 17 key"
    yield part("LAST", "L:P", bytes.fromhex("fedcba9876543210"), "L:P"), "OK stored=P"
    yield tested("L:P"), "OK value=d5d44ff7"
    yield part("LAST", "L:P", bytes.fromhex("fedcba9876543210"), "L:P"), "NO 35 key"
    yield part("FIRST", "CIPHER", bytes(16), "L:P"), "NO 32 part"
    for label, kind in (("IX", "IKEYXLAT"), ("OX", "OKEYXLAT"), ("IMP", "IMPORTER")):
        yield f"CSNBKRC role=DEFAULT label={label}", "OK"
        yield f"CSNBKGN role=DEFAULT form=OP length=16 type1={kind} to=L:{label}", f"OK stored={label}"
    token = "020000000000c00000000000000000008ca64de9c1b123a7" + "00" * 36 + "50583190"
    yield TRANSLATE.format(token, "IX", "OX"), f"OK token={token}"
    yield TRANSLATE.format(token, "IMP", "OX"), "NO 20 transport1"


class Parts(Case):
    def transports(self):
        """Makes the four transport keys, under labels: each key."""
        keys = {}
        for label, kind in (("IN", "IKEYXLAT"), ("OUT", "OKEYXLAT"), ("IMP", "IMPORTER"), ("EXP", "EXPORTER")):
            given = [made(f"{kind} part {number}", 16) for number in range(2)]
            keys[label] = joined(*given)
            self.replies(in_parts(label, kind, *given))
        return keys

    def test_by_two_roles(self):
        self.replies(by_two_roles())

    def test_known(self):
        (self.folder / "zeros").write_bytes(bytes(48))
        self.replies(known(), calls=Calls(instead=f"/dev/urandom={self.folder / 'zeros'}"))

    def test_types(self):
        self.replies(ceremony(MASTER))
        for (kind, vectors), size in itertools.product(types().items(), (8, 16)):
            with self.subTest(kind, size=size):
                self.replies(of_type(kind, size, vectors.get(size)))

    def test_translated(self):
        """A key that may not be exported, from one transport key to another one."""
        self.replies(ceremony(MASTER))
        keys, clear = self.transports(), bytes.fromhex("0123456789abcdef")
        within = internal(MASTER, clear, NOT_EXPORTED)
        came = {label: external(key, clear, NOT_EXPORTED) for label, key in keys.items()}
        self.replies([
            (f"CSNBKIM role=DEFAULT token={came['IMP']} transport=L:IMP to=-", f"OK token={within}"),
            (f"CSNBKEX role=DEFAULT key=T:{within} transport=L:EXP", "NO 21 key"),
            (TRANSLATE.format(came["IN"], "IN", "OUT"), f"OK token={came['OUT']}"),
            (TRANSLATE.format(came["IN"], "IMP", "OUT"), "NO 20 transport1"),
            (TRANSLATE.format(came["IN"], "IN", "EXP"), "NO 20 transport2"),
            (TRANSLATE.format(came["IN"], "OUT", "OUT"), "NO 19 transport1"),
            (TRANSLATE.format(came["IN"], "IN", "IN"), "NO 19 transport2"),
        ])  # fmt: skip

    def test_part_is_no_key(self):
        """A part of a key is no key yet, wherever rule 17 is asked."""
        self.replies(ceremony(MASTER))
        self.transports()
        self.replies(in_parts("KEY", "DATA", made("one", 8), made("two", 8)))
        for label, kind in (("PART", "DATA"), ("PART.IN", "IKEYXLAT"), ("PART.IMP", "IMPORTER"), ("PART.EXP", "EXPORTER")):
            self.replies(in_parts(label, kind, made(label, 16)))
        token, of_part = (external(bytes(16), bytes(8), it) for it in (DATA, as_part(DATA)))
        for words, field in (
            ("KYT key=L:PART", "key"),
            ("ENC key=L:PART iv=0000000000000000 pad=NONE text=0000000000000000", "key"),
            ("DEC key=L:PART iv=0000000000000000 pad=NONE text=0000000000000000", "key"),
            ("ENC key=L:PART segment=FIRST iv=0000000000000000 text=", "key"),
            ("MGN key=L:PART rule=X9.9-1 length=4 text=00", "key"),
            ("MVR key=L:PART rule=X9.9-1 mac=00000000 text=00", "key"),
            ("PEX key=L:PART to=-", "key"),
            ("KEX key=L:PART transport=L:EXP", "key"),
            ("KEX key=L:KEY transport=L:PART.EXP", "transport"),
            (f"KIM token={token} transport=L:PART.IMP to=-", "transport"),
            (f"KTR token={token} transport1=L:PART.IN transport2=L:OUT", "transport1"),
            ("KGN form=OPEX length=8 type1=DATA type2=DATA transport2=L:PART.EXP to=-", "transport2"),
            (f"KIM token={of_part} transport=L:IMP to=-", "token"),
            (f"KTR token={of_part} transport1=L:IN transport2=L:OUT", "token"),
        ):
            with self.subTest(words[:40]):
                self.replies([(f"CSNB{words.replace(' ', ' role=DEFAULT ', 1)}", f"NO 17 {field}")])


class Killed(Case):
    def setUp(self):
        super().setUp()
        self.replies(ceremony(MASTER))

    def test_between(self):
        """A key in ten parts, with a kill behind each reply and in the midst of each line."""
        parts = [made(f"killed part {number}", 16) for number in range(10)]
        with Coprocess(self.program, self.folder) as cca:
            for number, (line, reply) in enumerate(in_parts("KILLED", "MAC", *parts)):
                if number:
                    cca.write(line[: len(line) // 2])
                    cca.kill()
                self.assertEqual(cca.ask(line), reply)
                cca.kill()
        self.replies([(tested("L:KILLED"), f"OK value={value(joined(*parts))}")])

    def test_anywhere(self):
        """The program is killed while it takes parts, by turns at any moment and before a call, and run again."""
        drawn, parts = random.Random(1), [made(f"part {number}", 16) for number in range(FURTHER + 1)]
        self.replies([("CSNBKRC role=DEFAULT label=P", "OK"), (part("FIRST", "DATA", parts[0], "L:P"), "OK stored=P")])
        lines = [part("MIDDLE", "L:P", it, "L:P") for it in parts[1:]]
        kinds = ("write cca.store", "sync cca.store", "write output")
        for turn in range(25):
            folder = shutil.copytree(self.folder, self.shared / f"turn {turn}")
            at = {"calls": QUICK._replace(killed=f"{kinds[turn // 2 % 3]} {drawn.randint(4, FURTHER)}")}
            at = {"kill_after": drawn.uniform(0, LONGEST_RUN)} if turn % 2 else at if turn else {}
            replies = self.cca("run", folder=folder, given=lines, **at).whole
            with self.subTest(at, replies=len(replies)):
                self.assertLessEqual(set(replies), {"OK stored=P"})
                self.assertTrue(turn % 2 or 0 < len(replies) < FURTHER or turn == 0 and len(replies) == FURTHER)
                last, tested_value = self.ask([part("LAST", "L:P", bytes(16), "L:P"), tested("L:P")], folder)
                self.assertEqual(last, "OK stored=P")
                self.assertIn(tested_value, [f"OK value={value(joined(*parts[:count]))}" for count in (len(replies) + 1, len(replies) + 2)])
