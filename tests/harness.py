"""What the checks of the program share. A file of checks uses it so:

    from tests.harness import Calls, Case, Fault, USAGE

    FAULTS = [Fault('"$CCA" "$@" | sed -u "s/^NO 01/NO 02/"', case="Lines.test_forms", tells="NO 02 -")]

    class Lines(Case):  # each test has a folder of its own, self.folder; those of a class share another one, cls.shared
        def test_forms(self):
            self.replies([("A", "NO 01 -"), ("CSNBRNG role=TELLER form=ODD", "NO 03 -")])
            self.ends(self.cca("walk"), 2, err=USAGE)
            self.ends(self.cca("run", calls=Calls(refused="sync cca.store")), 11, err="cca: a file could not be opened")

`python3 -m unittest tests.lines -k forms` at the top runs one case, `python3 -m tests` all files side by side. The program is the
one that CCA_PROGRAM names, or else that of this checkout, which is built first where it must be. PLANTED=1 plants the first
fault of each file, PLANTED=2 the second one, and the file must fail with it.
"""
import faulthandler
import functools
import itertools
import os
import resource
import shutil
import signal
import subprocess
import sys
import tempfile
import unittest
from dataclasses import dataclass
from pathlib import Path
from typing import NamedTuple

TOP = Path(__file__).resolve().parents[1]
EXAMPLES = TOP / "examples"
LIMIT = 300  # seconds that a run may take
resource.setrlimit(resource.RLIMIT_FSIZE, (2**28, resource.getrlimit(resource.RLIMIT_FSIZE)[1]))  # a run that goes wild fills no disk
USAGE = "cca: usage: cca run, cca demo N with N from 1 to 1000, cca audit, cca trail, or cca unload ROLE LABEL ROLE LABEL"


# ---- the program and its calls


@functools.cache
def program_path():
    """The program, which is built first where no other one is named."""
    if "CCA_PROGRAM" in os.environ:
        return Path(os.environ["CCA_PROGRAM"]).resolve()
    subprocess.run([TOP / "tools/build/run"], check=True)
    return TOP / "crates" / "cca" / "out" / "cca"


@functools.cache
def scratch():
    """A folder that goes when this process ends."""
    return tempfile.TemporaryDirectory(prefix="cca-tests-")


@functools.cache
def calls_library():
    """The library that notes and changes calls, built from tests/calls.c, which explains it."""
    library = Path(scratch().name) / "calls.so"
    source = TOP / "tests" / "calls.c"
    subprocess.run(["cc", "-O1", "-shared", "-fPIC", "-o", library, source, "-ldl"], check=True)
    return library


class Calls(NamedTuple):
    """A run whose calls are noted. A kind of call, as "sync cca.store", may be refused or skipped, or the run is killed before a call:
    before the third one of its kind by "write cca.store 3", before the tenth one of any kind by "any 10"."""

    refused: str = ""
    skipped: str = ""
    killed: str = ""
    instead: str = ""  # two paths with = between: the second file is opened in place of the first
    allocation: int = 0  # which allocation of memory fails

    def environment(self, log):
        return {"CALLS_LOG": str(log), **{name.upper(): str(value) for name, value in self._asdict().items() if value}}


class Came(NamedTuple):
    """How a run ended, what it wrote, and its calls, where they are noted."""

    status: int
    out: str
    err: str
    calls: tuple = ()

    @property
    def lines(self):
        """The lines of standard output; a last one without its newline too."""
        return self.out.removesuffix("\n").split("\n") if self.out else []

    @property
    def whole(self):
        """The lines that have their newline."""
        return self.out.split("\n")[:-1]


def as_bytes(given):
    """Input: bytes, a text, or lines."""
    if isinstance(given, bytes):
        return given
    return (given if isinstance(given, str) else "".join(f"{line}\n" for line in given)).encode()


class Program:
    """The program, or a script with a planted fault that stands for it."""

    def __init__(self, path, is_planted=False):
        self.path = str(path)
        self.preload = "CCA_PRELOAD" if is_planted else "LD_PRELOAD"  # the library isn't meant for the script

    def run(self, folder, *words, given=(), calls=None, kill_after=None, **options):
        """Runs it in a folder, and kills it after so many seconds, if any are named; further options are those of Popen."""
        log = Path(folder) / ".calls"
        log.unlink(missing_ok=True)
        environment = {**os.environ, **({**calls.environment(log), self.preload: str(calls_library())} if calls else {})}
        streams = {"stdout": subprocess.PIPE, "stderr": subprocess.PIPE, "stdin": subprocess.PIPE, **options}
        with subprocess.Popen([self.path, *words], cwd=folder, env=environment, **streams) as it:
            try:
                given = as_bytes(given) if streams["stdin"] == subprocess.PIPE else None
                out, err = it.communicate(given, LIMIT if kill_after is None else kill_after)
            except subprocess.TimeoutExpired:
                it.kill()
                out, err = it.communicate()
                if kill_after is None:
                    raise
        noted = tuple(log.read_text().splitlines()) if log.exists() else ()
        log.unlink(missing_ok=True)
        return Came(it.returncode, (out or b"").decode(errors="replace"), (err or b"").decode(errors="replace"), noted)

    def ask(self, folder, lines, command="run", **options):
        """The replies to some requests, a reply to each."""
        lines = list(lines)
        came = self.run(folder, command, given=lines, **options)
        if came.status or len(came.whole) != len(lines):
            raise AssertionError(f"{len(came.whole)} replies to {len(lines)} requests, and exit status {came.status}: {came.err}")
        return came.whole


class Coprocess:
    """A run that is asked line by line; it is started by the first request, and again by the next one after a kill."""

    def __init__(self, program, folder, *words):
        self.words, self.folder, self.process = [program.path, *(words or ["run"])], folder, None

    def write(self, text):
        """Writes text, which may be half of a line."""
        if self.process is None:
            streams = {"stdin": subprocess.PIPE, "stdout": subprocess.PIPE, "stderr": subprocess.DEVNULL}
            self.process = subprocess.Popen(self.words, cwd=self.folder, **streams)
        self.process.stdin.write(text.encode())
        self.process.stdin.flush()

    def ask(self, line):
        """The reply to a request."""
        self.write(f"{line}\n")
        reply = self.process.stdout.readline().decode()
        if not reply.endswith("\n"):
            raise AssertionError(f"no reply to {line[:200]}, and exit status {self.process.wait()}")
        return reply[:-1]

    def kill(self):
        if self.process:
            self.process.kill()
        return self.close()

    def close(self):
        """Ends the input: the exit status."""
        if self.process is None:
            return 0
        ended, self.process = self.process, None
        try:
            ended.stdin.close()
        except BrokenPipeError:
            pass
        ended.stdout.close()
        return ended.wait()

    def __enter__(self):
        return self

    def __exit__(self, *_):
        self.close()


def processor_seconds(call):
    """What a call gives, and how long the processor worked for the processes that it ran."""
    before, given, after = resource.getrusage(resource.RUSAGE_CHILDREN), call(), resource.getrusage(resource.RUSAGE_CHILDREN)
    return given, after.ru_utime - before.ru_utime + after.ru_stime - before.ru_stime


def limited(test, seconds):
    """Fails a test that takes longer: its cleanups end what it started. Where that isn't heard, as in a call of C that doesn't come
    back, the process ends a minute later."""

    def late(*_):
        test.fail(f"longer than {seconds} s")

    test.addCleanup(signal.signal, signal.SIGALRM, signal.signal(signal.SIGALRM, late))
    test.addCleanup(signal.alarm, 0)
    signal.alarm(seconds)
    test.addCleanup(faulthandler.cancel_dump_traceback_later)
    faulthandler.dump_traceback_later(seconds + 60, exit=True)


# ---- faults and cases


@dataclass(frozen=True)
class Fault:
    """A script that stands for the program, or for rt; the case that finds it, and a pattern of what it tells then. The script is called
    with the program's words, and has the real program as $CCA, which skips or refuses calls as the words before it say."""

    script: str
    case: str
    tells: str
    stands_for: str = "cca"

    def planted(self):
        """The script, and beside it the real program, which takes the library of calls."""
        folder = Path(tempfile.mkdtemp(dir=scratch().name))
        real = "#!/usr/bin/env bash\nexport LD_PRELOAD=${CCA_PRELOAD-$LD_PRELOAD}\n" + f"exec '{program_path()}' \"$@\"\n"
        words = f"#!/usr/bin/env bash\nexport CCA='{folder}/real' CALLS='{calls_library()}'\n"
        for name, script in (("real", real), (self.stands_for, words + self.script + "\n")):
            (folder / name).write_text(script)
            (folder / name).chmod(0o755)
        return folder / self.stands_for


class Case(unittest.TestCase):
    """Checks of the program, or of the script of the fault that is planted."""

    maxDiff = 2000
    program: Program
    shared: Path

    @classmethod
    def setUpClass(cls):
        cls.shared = Path(tempfile.mkdtemp(dir=scratch().name))
        cls.addClassCleanup(shutil.rmtree, cls.shared, ignore_errors=True)
        number = int(os.environ.get("PLANTED") or 0)
        fault = sys.modules[cls.__module__].FAULTS[number - 1] if number else None
        cls.program = Program(program_path())
        if fault and fault.stands_for == "cca":
            cls.program = Program(fault.planted(), is_planted=True)
        elif fault:
            cls.addClassCleanup(os.environ.update, PATH=os.environ["PATH"])
            os.environ["PATH"] = f"{fault.planted().parent}:{os.environ['PATH']}"

    def setUp(self):
        self.folder = Path(tempfile.mkdtemp(dir=self.shared))

    def cca(self, *words, folder=None, **options):
        """Runs the program in the folder of this test."""
        return self.program.run(folder or self.folder, *words, **options)

    def ask(self, lines, folder=None, **options):
        """The replies to some requests, in one run."""
        return self.program.ask(folder or self.folder, lines, **options)

    def same(self, came, wanted, asked=()):
        """Lines must be these: the first one that isn't is told, and what was asked there."""
        for line, it, other in itertools.zip_longest(asked, came, wanted, fillvalue="-"):
            if it != other:
                self.fail(f"{line[:400]}\n  came:   {it[:400]}\n  wanted: {other[:400]}")

    def replies(self, pairs, folder=None, **options):
        """Each request must get its reply, in one run."""
        requests, wanted = zip(*pairs)
        self.same(self.ask(requests, folder, **options), wanted, requests)

    def ends(self, came, status, lines=(), err=""):
        """A run must end so: the exit status, the lines of standard output, and those of standard error."""
        out, err = as_bytes(lines).decode(), f"{err}\n" if err else ""
        self.assertEqual([came.status, came.out[:400], came.err[:400]], [status, out[:400], err[:400]])
        self.same(came.out.splitlines(True), out.splitlines(True))
        self.same(came.err.splitlines(True), err.splitlines(True))


def example(name):
    """The requests of an example with their replies; those of a folder of examples are in their order."""
    files = sorted((EXAMPLES / name).glob("*.txt")) or [EXAMPLES / f"{name}.txt"]
    for file in files:
        requests, replies = (it.read_text().splitlines() for it in (file, file.with_suffix(".replies")))
        yield from zip(requests, replies, strict=True)
