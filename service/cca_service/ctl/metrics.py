"""The numbers of `status` as a text file for node_exporter's textfile collector, put into its place by a rename."""
import re
import time
from collections.abc import Iterator, Mapping
from typing import NamedTuple

from cca_service.ctl.asking import Answer
from cca_service.ctl.durable import replace

READABLE = 0o644  # node_exporter is another user; nothing here is secret
MICRO = 1_000_000
STATES = ("current", "staged", "old", "null")


class Value(NamedTuple):
    """A value of a metric, with its labels; that of a histogram has an ending of its name."""

    labels: Mapping[str, str]
    number: float
    ending: str = ""


class Metric(NamedTuple):
    """A metric: its name, kind and help, and its values."""

    name: str
    kind: str
    help: str
    values: list[Value]

    def lines(self) -> Iterator[str]:
        yield f"# HELP {self.name} {self.help}"
        yield f"# TYPE {self.name} {self.kind}"
        for it in self.values:
            yield f"{self.name}{it.ending}{told(it.labels)} {it.number:.15g}"


def told(labels: Mapping[str, str]) -> str:
    """Labels in the form of the text format, which escapes backslash, quotes and newline."""
    escaped = {name: re.sub(r'([\\"])', r"\\\1", it).replace("\n", r"\n") for name, it in labels.items()}
    return "{" + ",".join(f'{name}="{it}"' for name, it in escaped.items()) + "}" if labels else ""


def gauge(name: str, text: str, number: float) -> Metric:
    return gauges(name, text, [Value({}, number)])


def gauges(name: str, text: str, values: list[Value]) -> Metric:
    return Metric(f"cca_{name}", "gauge", text, values)


def counter(name: str, text: str, number: float) -> Metric:
    return Metric(f"cca_{name}_total", "counter", text, [Value({}, number)])


def counters(name: str, text: str, label: str, counts: Mapping[str, int]) -> Metric:
    return Metric(f"cca_{name}_total", "counter", text, [Value({label: it}, count) for it, count in sorted(counts.items())])


# ---- what there is


def of_front(front: Answer) -> Iterator[Metric]:
    """The front's numbers."""
    is_replaced = front.inner("program").truth("is_replaced")
    yield gauge("program_is_replaced", "Whether the program's file isn't the one that runs.", is_replaced)
    yield gauge("requests_are_held", "Whether requests are held, as for a backup.", front.truth("is_held"))
    yield counter("starts", "How often the front has started cca.", front.inner("cca").number("starts"))
    yield from of_doors(front.each("doors"))
    yield from of_requests(front.inner("requests"))
    yield from of_latency(front.inner("latency"))
    trail = front.inner_or_none("trail")
    if trail:
        yield gauge("trail_unfetched_records", "Records of the trail that aren't in its log yet.", trail.number("unfetched"))
    left_out = front.inner("journal").number("left_out")
    yield counter("log_lines_left_out", "Lines of the front's log that were left out.", left_out)
    yield counter("turned_away", "Connections that were turned away.", front.number("turned_away"))


def of_doors(doors: list[Answer]) -> Iterator[Metric]:
    for name, text in (("connections", "Connections of a socket."), ("limit", "Connections that a socket may have.")):
        yield gauges(f"socket_{name}", text, [Value({"role": it.text("role")}, it.number(name)) for it in doors])


def of_requests(requests: Answer) -> Iterator[Metric]:
    yield counter("requests", "Requests.", requests.number("total"))
    yield counter("requests_without_reply", "Requests without a reply.", requests.number("no_reply"))
    for name in ("rule", "verb", "role"):
        yield counters(f"requests_by_{name}", f"Requests by their {name}.", name, requests.counts(f"by_{name}"))


def of_latency(latency: Answer) -> Iterator[Metric]:
    """The times until replies, as a histogram, whose buckets count all replies that came within their time."""
    counts, bounds = latency.numbers("counts"), [f"{bound / MICRO:g}" for bound in latency.numbers("le_us")]
    within = [sum(counts[: place + 1]) for place in range(len(bounds))]
    buckets = [Value({"le": bound}, count, "_bucket") for bound, count in [*zip(bounds, within), ("+Inf", sum(counts))]]
    ends = [Value({}, latency.number("sum_us") / MICRO, "_sum"), Value({}, sum(counts), "_count")]
    yield Metric("cca_reply_seconds", "histogram", "Seconds until the reply of cca.", buckets + ends)


def of_files(files: Answer) -> Iterator[Metric]:
    """What module and store hold."""
    labels, roles, damaged = files.inner("labels"), files.inner("roles"), files.inner("damaged")
    yield gauge("labels", "Labels of the store.", labels.number("count"))
    yield gauge("labels_limit", "Labels that a store has room for.", labels.number("limit"))
    states = dict.fromkeys(STATES, 0) | labels.counts("states")
    by_state = [Value({"state": it}, states[it]) for it in states]
    yield gauges("labels_by_state", "Labels by the master key of their key.", by_state)
    yield gauge("roles", "Roles of the module.", roles.number("count"))
    yield gauge("roles_limit", "Roles that a module has room for.", roles.number("limit"))
    cells = [Value({"file": it}, len(damaged.each(it))) for it in damaged.found]
    yield gauges("damaged_cells", "Damaged cells of a file.", cells)
    registers = files.inner_or_none("registers")
    if registers:
        values = [register_value(name, registers.inner(name)) for name in registers.found]
        yield gauges("master_key_register", "A register, its state, and the pattern of a full one.", values)


def register_value(name: str, found: Answer) -> Value:
    return Value({"register": name, "state": found.text("state"), "pattern": found.text_or_none("pattern") or ""}, 1)


def metrics(front: Answer | None, found: Mapping[str, object]) -> Iterator[Metric]:
    """All metrics. Those of what can't be reached are left out."""
    yield gauge("up", "Whether the front answers at its own socket.", front is not None)
    yield gauge("status_time_seconds", "When these numbers were taken.", time.time())
    report = Answer(dict(found), "the report")
    yield gauge("to_see_to", "Things that aren't as they should be.", len(report.texts("see_to")))
    yield gauge("to_look_at", "Things that someone must look at.", len(report.texts("look")))
    if front:
        yield from of_front(front)
    files = report.inner_or_none("files")
    if files:
        yield from of_files(files)


def written(path: str, front: Answer | None, found: Mapping[str, object]) -> None:
    """Writes the file. Whoever reads it meanwhile has the one before."""
    lines = [line for it in metrics(front, found) for line in it.lines()]
    replace(path, "".join(f"{line}\n" for line in lines).encode(), READABLE)
