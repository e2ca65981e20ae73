"""The build, in a small checkout of three crates, under a kit whose prover only notes what it is asked to prove: what is proved, and
when, in how many processes; and what is kept where a proof fails, the text changes, or the build is stopped."""
import os
import shutil
import signal
import subprocess
import tempfile
import time
import unittest
from pathlib import Path

from tests.harness import TOP

FAULTS = []  # its faults are planted in the tools, by tests/planted.py
# Writes what its -o names, once the file `hold` is gone that is named after the crate; and does before what the file `do` says.
PROVER = """#!/usr/bin/env bash
kit=$(cd "$(dirname "$0")/.." && pwd)
while [ $# -gt 1 ]; do
    case $1 in
        --crate-name) name=$2 ;;
        --jobs) jobs=$2 ;;
        -o) made=$2 ;;
    esac
    shift
done
echo "$name" >>"$kit/proved"
echo "$jobs" >>"$kit/jobs"
while [ -e "$kit/hold.$name" ]; do sleep 0.05; done
if [ -e "$kit/do.$name" ]; then . "$kit/do.$name"; fi
case $made in
    *.rlib) mkdir "$made" ;;
    *) echo made >"$made" ;;
esac
"""
LINKER = """#!/usr/bin/env bash
while [ "$1" != -o ]; do shift; done
printf '#!/bin/sh\\necho ran "$@"\\n' >"$2"
chmod 755 "$2"
"""
CRATES = "lists:\nkeys: lists\ncca: keys thiserror\n"


def children_of(process):
    return [int(it) for it in subprocess.run(["pgrep", "-P", str(process)], stdout=subprocess.PIPE, text=True).stdout.split()]


def state_of(process):
    """A letter, as `ps` shows it: Z has ended, and nobody has waited for it."""
    return Path(f"/proc/{process}/stat").read_text().rpartition(")")[2].split()[0]


class Building(unittest.TestCase):
    def setUp(self):
        folder = tempfile.TemporaryDirectory()
        self.addCleanup(folder.cleanup)
        self.kit, self.checkout = Path(folder.name) / "kit", Path(folder.name) / "checkout"
        (self.kit / "bin").mkdir(parents=True)
        for name, text in {"rt": LINKER, "rattle": PROVER, "rattle-link": LINKER}.items():
            (self.kit / "bin" / name).write_text(text)
            (self.kit / "bin" / name).chmod(0o755)
        (self.kit / "KIT-ID").write_text("a kit\n")
        for name in ("lists", "keys", "cca"):
            for part in ("src", "specs", "proofs"):
                (self.checkout / "crates" / name / part).mkdir(parents=True)
            self.write(name, "as it was")
        (self.checkout / "crates.txt").write_text(CRATES)
        (self.checkout / "HANDLES").write_text("")
        shutil.copytree(TOP / "tools/build", self.checkout / "tools/build")
        shutil.copy2(TOP / "cca", self.checkout / "cca")
        # a stub needs no memory, so that the processors alone say how many crates are proved at once
        prove = self.checkout / "tools/build/prove"
        prove.write_text(prove.read_text().replace("MEMORY_EACH = 5_000_000_000", "MEMORY_EACH = 1"))

    def write(self, name, text):
        root = "main.rt" if name == "cca" else "lib.rt"
        (self.checkout / "crates" / name / "src" / root).write_text(f"// {text}\n")

    def started(self, *words):
        """The command cca of the small checkout, as it runs."""
        path = f"{self.kit / 'bin'}:{os.environ['PATH']}"
        streams = {"stdin": subprocess.DEVNULL, "stdout": subprocess.PIPE, "stderr": subprocess.STDOUT, "text": True}
        return subprocess.Popen([self.checkout / "cca", *words], env={**os.environ, "PATH": path}, **streams)

    def called(self, *words):
        """Its exit status, and what it says."""
        it = self.started(*words)
        said = it.communicate(timeout=60)[0]
        return it.returncode, said

    def prove_of(self, it):
        """The process that starts the provers, of a command that builds."""
        return next(child for builder in children_of(it.pid) for child in children_of(builder))

    def proved(self):
        """The crates that the prover was called for since this was last asked."""
        noted = self.kit / "proved"
        names = noted.read_text().split() if noted.exists() else []
        noted.unlink(missing_ok=True)
        return names

    def waits(self, whether):
        for _ in range(400):
            if whether():
                return
            time.sleep(0.05)
        self.fail("it doesn't happen")

    def is_proving(self, name):
        noted = self.kit / "proved"
        return noted.exists() and name in noted.read_text().split()

    def test_each_crate_once(self):
        status, said = self.called("demo", "3")
        self.assertEqual((status, said.splitlines()[-1]), (0, "ran demo 3"))
        self.assertEqual(self.proved(), ["lists", "keys", "cca"])
        self.assertEqual(self.called("run"), (0, "ran run\n"))
        self.assertEqual(self.proved(), [])

    @unittest.skipIf(len(os.sched_getaffinity(0)) < 2, "one processor: no two proofs at once")
    def test_two_that_end_at_once(self):
        """Both are told, also where the build was stopped meanwhile."""
        (self.checkout / "crates.txt").write_text(f"{CRATES.replace('cca: keys', 'cca: keys more')}more:\n")
        shutil.copytree(self.checkout / "crates/lists", self.checkout / "crates/more")
        holds = [self.kit / f"hold.{name}" for name in ("lists", "more")]
        for hold in holds:
            hold.write_text("")
        first = self.started("run")
        self.waits(lambda: self.is_proving("lists") and self.is_proving("more"))
        prove = self.prove_of(first)
        os.kill(prove, signal.SIGSTOP)
        for hold in holds:
            hold.unlink()
        self.waits(lambda: all(state_of(it) == "Z" for it in children_of(prove)))
        os.kill(prove, signal.SIGCONT)
        self.assertEqual((first.communicate(timeout=60)[0].splitlines()[-1], first.returncode), ("ran run", 0))

    def test_processors(self):
        """The program itself has all the processors, and a crate beside which no other one is ready has two where there are two."""
        processors = sorted(os.sched_getaffinity(0))
        self.addCleanup(os.sched_setaffinity, 0, processors)
        for count in range(1, min(len(processors), 3) + 1):
            with self.subTest(count):
                self.write("lists", f"for {count}")
                os.sched_setaffinity(0, processors[:count])
                self.assertEqual(self.called("run")[0], 0)
                wanted = str(min(count, 2))
                self.assertEqual((self.kit / "jobs").read_text().split(), [wanted, wanted, str(count)])
                (self.kit / "jobs").unlink()

    def test_kept_times(self):
        """The seconds of each proof are kept with its jobs, and what a build takes by them is told."""
        (self.kit / "do.keys").write_text("sleep 1")
        processors = sorted(os.sched_getaffinity(0))
        self.addCleanup(os.sched_setaffinity, 0, processors)
        os.sched_setaffinity(0, processors[:1])
        self.assertEqual(self.called("run")[0], 0)
        kept = {name: (self.checkout / f"crates/cca/out/statements/{name}.seconds").read_text().split() for name in ("lists", "keys", "cca")}
        self.assertEqual({jobs for _, jobs in kept.values()}, {"1"})
        self.assertGreaterEqual(float(kept["keys"][0]), 1.0)
        environment = {**os.environ, "PATH": f"{self.kit / 'bin'}:{os.environ['PATH']}"}
        words = [self.checkout / "tools/build/simulate", "1", "4"]
        for name in kept:
            (self.checkout / f"crates/cca/out/statements/{name}.seconds").write_text("24.0 1\n")
        said = subprocess.run(words, env=environment, stdout=subprocess.PIPE, text=True, check=True).stdout.splitlines()
        # two jobs are 5/3 times as fast as one, and four of the program itself 2.5 times
        self.assertEqual([it.split() for it in said[1:]], [["1", "72", "72", "72"], ["4", "58", "38", "72"]])
        (self.checkout / "crates/cca/out/statements/keys.seconds").unlink()
        self.assertEqual(subprocess.run(words, env=environment, stderr=subprocess.PIPE, text=True).returncode, 1)

    def test_what_changed_and_what_stands_on_it(self):
        self.called()
        self.proved()
        self.write("keys", "changed")
        self.assertEqual(self.called("run")[0], 0)
        self.assertEqual(self.proved(), ["keys", "cca"])
        (self.kit / "KIT-ID").write_text("another kit\n")
        self.assertEqual(self.called("run")[0], 0)
        self.assertEqual(self.proved(), ["lists", "keys", "cca"])

    def test_not_proved(self):
        reason = self.kit / "do.keys"
        for what, tells in {"echo a goal is open; exit 1": "a goal is open\ncca: keys isn't proved", "kill -9 $$": "killed by signal 9"}.items():
            with self.subTest(what):
                reason.write_text(what)
                status, said = self.called("run")
                self.assertIn(tells, said)
                self.assertEqual((status, said.splitlines()[-1]), (1, "cca: the program could not be built"))
        reason.unlink()
        self.proved()
        self.assertEqual(self.called("run")[0], 0)
        self.assertEqual(self.proved(), ["keys", "cca"])

    def test_text_that_changes_meanwhile(self):
        (self.kit / "do.keys").write_text(f"echo '// changed' >>{self.checkout}/crates/keys/src/lib.rt")
        status, said = self.called("run")
        self.assertEqual(status, 1)
        self.assertIn("cca: the text of keys was changed meanwhile: run this again", said)
        (self.kit / "do.keys").unlink()
        self.proved()
        (self.kit / "do.cca").write_text(f"echo '// changed' >>{self.checkout}/crates/lists/src/lib.rt")
        self.assertIn("cca: the sources were changed meanwhile: run this again", self.called("run")[1])
        (self.kit / "do.cca").unlink()
        self.assertEqual(self.called("run")[0], 0)
        self.assertEqual(self.proved(), ["keys", "cca", "lists", "keys", "cca"])

    def test_one_at_a_time(self):
        """A second build waits; the first one is stopped, and so are its provers."""
        (self.kit / "hold.keys").write_text("")
        first = self.started("run")
        self.waits(lambda: self.is_proving("keys"))
        second = self.started("run")
        self.assertRegex(second.stdout.readline(), "^cca: building")
        self.assertEqual(second.stdout.readline(), "cca: waiting for another build in this checkout\n")
        os.kill(self.prove_of(first), signal.SIGTERM)
        self.assertIn("cca: the program could not be built", first.communicate(timeout=60)[0])
        self.waits(lambda: (self.kit / "proved").read_text().split().count("keys") == 2)
        (self.kit / "hold.keys").unlink()
        self.assertEqual(second.communicate(timeout=60)[0].splitlines()[-1], "ran run")
        self.assertEqual(second.returncode, 0)
        self.assertEqual(self.proved(), ["lists", "keys", "keys", "cca"])
