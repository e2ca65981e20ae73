"""Which crate the build proves next, and in how many processes, by crates and times that are made up: no processor is idle while a crate
is ready, no more jobs go on than there are processors, each crate waits for those below it, and the build takes no longer than with one
job each. The times are worked out by hand, or are those of the longest chain."""
import random
import sys
import unittest
from dataclasses import dataclass, field

from tests.harness import TOP

sys.path.insert(0, str(TOP / "tools" / "build"))
import scheduling  # noqa: E402

FAULTS = []  # a fault is planted in a copy of the tool, by tests/planted.py


@dataclass(eq=False)
class Made:
    """A crate that is made up."""

    name: str
    below: list["Made"] = field(default_factory=list)
    seconds: float = 0.0
    chain: float = 0.0
    is_last: bool = False


def crates_of(table, times):
    """Crates by their names with those below them, the last one on top of all, with their chains."""
    made = {}
    for name, below in table.items():
        made[name] = Made(name, [made[it] for it in below], times[name])
    crates = list(made.values())
    crates[-1].is_last = True
    for it in reversed(crates):
        it.chain += it.seconds
        for lower in it.below:
            lower.chain = max(lower.chain, it.chain)
    return crates


def drawn_crates(drawn):
    """Some crates, each on some of those before it; the last one on all."""
    count = drawn.randrange(2, 30)
    table = {str(at): [str(it) for it in range(at) if drawn.random() < 0.25] for at in range(count)}
    table["last"] = [str(it) for it in range(count)]
    return crates_of(table, {name: drawn.uniform(1, 60) for name in table})


def taken(crates, most, choice=scheduling.next_start):
    return scheduling.simulated(crates, {it: it.seconds for it in crates}, most, choice)


def longest(crates):
    """The longest chain, as it takes in one process each."""
    return max(it.chain for it in crates)


class Chosen(unittest.TestCase):
    def start(self, crates, proved, busy, most):
        start = scheduling.next_start(crates, set(proved), busy, most)
        return start and (crates[start.place].name, start.jobs)

    def test_starts(self):
        """A chain of two beside a crate: who begins, and in how many processes."""
        low, other, high, last = crates = crates_of(
            {"low": [], "other": [], "high": ["low"], "last": ["high", "other"]}, {"low": 5, "other": 3, "high": 5, "last": 1}
        )
        for waiting, proved, busy, most, wanted in (
            (crates, [], 0, 1, ("low", 1)),
            (crates, [], 0, 2, ("low", 1)),  # the other one is ready too
            (crates, [], 0, 4, ("low", 2)),  # of four, two are for low, and one for the other
            (crates, [], 0, 8, ("low", 4)),  # no more than half
            ([other, high, last], [], 4, 8, ("other", 4)),  # nothing else is ready
            ([other, high, last], [], 3, 4, ("other", 1)),
            ([high, last], [low], 1, 4, ("high", 2)),
            ([high, last], [low], 4, 4, None),
            ([high, last], [], 0, 4, None),
            ([last], [low, other, high], 0, 4, ("last", 4)),
        ):
            with self.subTest(wanted=wanted, busy=busy, most=most):
                self.assertEqual(self.start(waiting, proved, busy, most), wanted)

    def test_by_hand(self):
        """A chain of three crates of 24 seconds each, on four processors: two jobs are 1 2/3 times as fast as one, and four 2.5 times."""
        crates = crates_of({"a": [], "b": ["a"], "c": ["b"]}, {"a": 24, "b": 24, "c": 24})
        self.assertAlmostEqual(taken(crates, 4, scheduling.one_each), 24 + 24 + 24 / 2.5)
        self.assertAlmostEqual(taken(crates, 4), 2 * 24 / (5 / 3) + 24 / 2.5)
        self.assertAlmostEqual(taken(crates, 1), 72)

    def test_any(self):
        """Crates at random, on any number of processors: the rules hold at each start."""
        drawn = random.Random(1)
        for _ in range(150):
            crates, most = drawn_crates(drawn), drawn.randrange(1, 17)
            noted = []

            def choice(waiting, proved, busy, most, noted=noted):
                start = scheduling.next_start(waiting, proved, busy, most)
                ready = [it for it in waiting if proved.issuperset(it.below)]
                if start is None:
                    self.assertTrue(not ready or busy == most)
                    return None
                self.assertIs(waiting[start.place], max(ready, key=lambda it: it.chain))
                self.assertTrue(1 <= start.jobs <= most - busy)
                if not waiting[start.place].is_last:
                    self.assertTrue(start.jobs == 1 or start.jobs <= most - busy - (len(ready) - 1))
                noted.append(waiting[start.place])
                return start

            seconds = taken(crates, most, choice)
            self.assertEqual(len(noted), len(crates))
            self.assertGreaterEqual(seconds, longest(crates) / scheduling.gain(most) - 1e-6)

    def test_of_this_checkout(self):
        """The crates of this checkout, whose times go with their lines: a tenth less on four processors."""
        lines = [line.partition(":") for line in (TOP / "crates.txt").read_text().splitlines() if line[:1].isalpha()]
        uses = {name.split()[0]: words.split() for name, _, words in lines}
        table = {}

        def visit(name):
            if name in uses and name not in table:
                for use in uses[name]:
                    visit(use)
                table[name] = [use for use in uses[name] if use in uses]

        visit("cca")
        sizes = {name: 150 + sum(it.read_bytes().count(b"\n") for it in (TOP / "crates" / name / "src").rglob("*.rt")) for name in table}
        crates = crates_of(table, sizes)
        before = {most: taken(crates, most, scheduling.one_each) for most in (1, 2, 4, 8)}
        after = {most: taken(crates, most) for most in before}
        self.assertEqual(before[1], after[1])
        self.assertLess(after[4], 0.92 * before[4])
        self.assertLess(after[8], 0.8 * before[8])


if __name__ == "__main__":
    unittest.main()
