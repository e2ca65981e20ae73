#!/usr/bin/env python3
"""Shows an attack of docs/ATTACKS.md on a new module, in a folder that is removed afterwards: attacks.py NAME, or attacks.py for the
names. It prints each request and its reply; a key token is shown by a name in brackets. `cca` is taken from the path, or from the
variable CCA."""
import sys

sys.dont_write_bytecode = True
import messages  # noqa: E402
import related_keys  # noqa: E402
import tokens  # noqa: E402

ATTACKS = [*related_keys.ATTACKS, *tokens.ATTACKS, *messages.ATTACKS]


def main() -> int:
    known = {it.__name__.replace("_", "-"): it for it in ATTACKS}
    if len(sys.argv) != 2 or sys.argv[1] not in known:
        print("usage: attacks.py NAME, of:", *known, sep="\n  ")
        return 2
    known[sys.argv[1]]({})
    return 0


if __name__ == "__main__":
    sys.exit(main())
