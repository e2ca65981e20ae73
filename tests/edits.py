"""Faults of the service in service/, of the client in examples/ and of the libraries in clients/: what stands in a file, what it becomes, and the case of a file of
checks that finds it. The case runs in a process of its own, over a copy of the folders in which the fault stands."""
import os
import re
import shutil
import subprocess
import sys
import tempfile
from concurrent.futures import ThreadPoolExecutor
from pathlib import Path
from typing import NamedTuple

from tests.harness import EXAMPLES, TOP

CLIENTS = Path(os.environ.get("CLIENTS", EXAMPLES / "clients"))
LIBRARIES = CLIENTS.parents[1] / "clients"  # the folder clients/, or its copy
SERVICE = CLIENTS.parents[1] / "service"  # the folder service/, or its copy
FRONT = SERVICE / "cca-front"
ASK = SERVICE / "cca_service" / "ask.py"
PATHS = [str(SERVICE), str(LIBRARIES / "python")]  # where Python finds cca_service, and the library on which it stands


class Edit(NamedTuple):
    """A fault: the file, what stands in it, what that becomes, and the case that finds it. The file is one of service/cca_service, or
    named from the top of the checkout, as `clients/..`."""

    file: str
    before: str
    after: str
    case: str


def each_is_found(test, subject, edits):
    """Each fault is found by its case of tests/SUBJECT.py, and not since there is no such case, or the copy can't be read or compiled."""
    if "CLIENTS" in os.environ:
        test.skipTest("a fault is planted")
    edits = [edit for edit in edits if edit.file.endswith((".py", ".service")) or shutil.which("cc")]
    with ThreadPoolExecutor(os.cpu_count()) as workers:
        for edit, came in zip(edits, workers.map(lambda edit: tried(subject, edit), edits)):
            with test.subTest(edit.before):
                test.assertNotEqual(came.returncode, 0)
                unread = "SyntaxError|IndentationError|NameError" if edit.file.endswith(".py") else "error: "
                test.assertFalse(re.search(f"_FailedTest|{unread}", came.stderr), came.stderr[-500:])


def tried(subject, edit):
    """The case of a fault, six times at most: some show only where a program ends soon enough."""
    for _ in range(6):
        came = planted(subject, edit)
        if came.returncode != 0:
            break
    return came


def planted(subject, edit):
    """Runs the case of a fault, over a copy of the clients and the libraries that has it."""
    with tempfile.TemporaryDirectory() as name:
        clients = Path(name) / "examples" / "clients"
        for folder in (EXAMPLES / "clients", TOP / "clients", TOP / "service"):
            shutil.copytree(folder, Path(name) / folder.relative_to(TOP), ignore=shutil.ignore_patterns("__pycache__"))
        file = (Path(name) if "/" in edit.file else Path(name) / "service" / "cca_service") / edit.file
        text = file.read_text()
        if edit.before not in text:
            raise AssertionError(f"{edit.file} hasn't {edit.before}")
        file.write_text(text.replace(edit.before, edit.after))
        words = [sys.executable, "-B", "-m", "unittest", f"tests.{subject}.{edit.case}"]
        environment = {**os.environ, "CLIENTS": str(clients)}
        return subprocess.run(words, cwd=TOP, env=environment, stdout=subprocess.DEVNULL, stderr=subprocess.PIPE, text=True)
