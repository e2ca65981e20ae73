"""What the front counts of requests, at next to no cost each: it is shown where the front is asked for its state."""
import bisect
from collections import Counter

BOUNDS = (50, 100, 200, 500, 1_000, 2_000, 5_000, 10_000, 20_000, 50_000, 100_000, 200_000, 500_000, 1_000_000, 5_000_000)
NO_REPLY = "-"


class Counts:
    """Requests by their roles, verbs and rules, and by the microseconds until the reply; and clients that were turned away."""

    def __init__(self) -> None:
        self.kinds: Counter[tuple[str, str, str]] = Counter()
        self.times = [0] * (len(BOUNDS) + 1)
        self.sum = self.turned_away = 0

    def note(self, role: str, verb: str, rule: str, microseconds: int) -> None:
        """A request."""
        self.kinds[role, verb, rule] += 1
        self.times[bisect.bisect_left(BOUNDS, microseconds)] += 1
        self.sum += microseconds

    def by(self, place: int) -> dict[str, int]:
        """The numbers of requests by role, verb or rule."""
        found: Counter[str] = Counter()
        for kind, count in self.kinds.items():
            found[kind[place]] += count
        return dict(sorted(found.items()))

    def requests(self) -> dict[str, object]:
        rules = self.by(2)
        no_reply = rules.pop(NO_REPLY, 0)
        kinds = {"by_rule": rules, "by_verb": self.by(1), "by_role": self.by(0)}
        return {"total": self.kinds.total(), "no_reply": no_reply, **kinds}

    def latency(self) -> dict[str, object]:
        """How many requests took at most so many microseconds, and more than the bound before; the last number is of those
        above all."""
        return {"le_us": list(BOUNDS), "counts": self.times, "sum_us": self.sum}
