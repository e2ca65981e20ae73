"""Runs the files of checks, and the commands of the documents, side by side, one a processor, the longest first: `python3 -m tests`. Of
one that fails all is shown that it says, once it has ended. Words name those that are run, as `segments`, or else all are. The exit
status is 0 where all succeed.
"""
import os
import re
import subprocess
import sys
import time
from concurrent.futures import ThreadPoolExecutor

from tests.harness import TOP, program_path

# what files of checks share
SHARED = {"__init__", "__main__", "c_library", "cryptoki", "edits", "harness", "formats", "keys", "pkcs11_module", "served", "serviced"}
# those that take longest, the first one longest
LONGEST = ["year", "ctl_backup", "ctl_files", "ctl_audit_log", "front", "pkcs11", "ctl_service", "client_replies", "planted", "tools/commands/run"]
LONGEST += ["library_c", "python_library", "reencipher"]


def files():
    """The files of checks."""
    return sorted(it.stem for it in (TOP / "tests").glob("*.py") if it.stem not in SHARED)


def checked(name):
    """Runs a file or a program, and tells what it says: whether it succeeds."""
    begun = time.monotonic()
    words = [TOP / name] if "/" in name else [sys.executable, "-B", "-m", "unittest", "-v", f"tests.{name}"]
    it = subprocess.run(words, cwd=TOP, stdin=subprocess.DEVNULL, stdout=subprocess.PIPE, stderr=subprocess.STDOUT, text=True)
    told = re.sub(r"(?m)^.* \.\.\. ok\n", "", it.stdout)
    if it.returncode == 0:
        told = "".join(re.findall(r"(?m)^.*\bskipped\b.*\n", told))
    verdict = "failed" if it.returncode else "as expected"
    print(f"{name}: {verdict}, after {time.monotonic() - begun:.0f} s\n{told}", end="", flush=True)
    return it.returncode == 0


def main():
    os.environ["CCA_PROGRAM"] = str(program_path())
    names = sys.argv[1:] or ["tools/commands/run", *files()]
    names.sort(key=lambda name: LONGEST.index(name) if name in LONGEST else len(LONGEST))
    with ThreadPoolExecutor(os.cpu_count()) as workers:
        return 0 if all(list(workers.map(checked, names))) else 1


if __name__ == "__main__":
    sys.exit(main())
