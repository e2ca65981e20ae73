"""Which crate is proved next, and in how many processes: the one with the longest chain of crates above it, since all wait for it.

A prover is told when it is started how many processes it may have. So processors that would be idle then, since no other crate
is ready, go to it as further jobs, up to half of all: more of them would be missing for the crates that come to be ready
meanwhile. The program itself, beside which nothing is left to prove, has all of them.
"""
from collections.abc import Callable, Collection, Iterable, Mapping, Sequence
from typing import NamedTuple, Protocol, TypeVar


class Provable(Protocol):
    """A crate, as far as its turn goes: `chain` has what is above it, and `is_last` says that nothing is."""

    below: Sequence["Provable"]
    chain: int
    is_last: bool


C = TypeVar("C", bound=Provable)


class Start(NamedTuple):
    """What is started: the place of a crate among those that wait, and its jobs."""

    place: int
    jobs: int


def most_jobs(most: int) -> int:
    """How many jobs a crate has at most."""
    return max(2, most // 2)


def next_start(waiting: Sequence[C], proved: Collection[object], busy: int, most: int) -> Start | None:
    """What is started beside so many jobs that go on; nothing where no processor is free, or no crate is ready."""
    ready = [place for place, it in enumerate(waiting) if all(lower in proved for lower in it.below)]
    if not ready or busy >= most:
        return None
    place = max(ready, key=lambda it: waiting[it].chain)
    if waiting[place].is_last:
        return Start(place, most - busy)
    idle = most - busy - len(ready)
    return Start(place, min(max(1, 1 + idle), most_jobs(most)))


def one_each(waiting: Sequence[C], proved: Collection[object], busy: int, most: int) -> Start | None:
    """The same with one job for each crate but the last: what the others are compared with."""
    start = next_start(waiting, proved, busy, most)
    return start and (start if waiting[start.place].is_last else Start(start.place, 1))


# ---- what a build takes, by the times of its crates


def gain(jobs: int) -> float:
    """How many times as fast a crate is proved in so many processes: two of them take a fifth more in all than one."""
    return jobs / (1 + 0.2 * (jobs - 1))


Choice = Callable[[Sequence[C], Collection[object], int, int], Start | None]


def simulated(crates: Iterable[C], seconds: Mapping[C, float], most: int, choice: Choice[C]) -> float:
    """How long a build takes, of crates that take so many seconds in one process each."""
    waiting, proved, now = list(crates), set[C](), 0.0
    running: dict[C, tuple[float, int]] = {}  # when it ends, and its jobs
    while waiting or running:
        start = choice(waiting, proved, sum(jobs for _, jobs in running.values()), most)
        if start:
            it = waiting.pop(start.place)
            running[it] = now + seconds[it] / gain(start.jobs), start.jobs
        else:
            ended = min(running, key=lambda it: running[it][0])
            now = running.pop(ended)[0]
            proved.add(ended)
    return now
