#!/usr/bin/env python3
"""Makes table.c from clients/verbs.json: the sentences of the rules, and the control vectors of the key types. With the word --check
nothing is written: the exit status is 1 where table.c is another one."""
import json
import sys
from pathlib import Path

HERE = Path(__file__).resolve().parent
HEAD = """/* Made by make_table.py from clients/verbs.json. */
#include "table.h"

#include <stddef.h>

"""


def sentences(rules):
    """The sentences of each number; where a rule has several they stand one after another."""
    found = {}
    for it in rules:
        found.setdefault(int(it["rule"]), []).append(it["sentence"])
    return {number: "; or ".join(texts) for number, texts in sorted(found.items())}


def vector(digits):
    """A vector, or zeros where the type doesn't have this length."""
    return "{" + ", ".join(f"0x{it:02x}" for it in bytes.fromhex(digits or "0" * 16)) + "}"


def table(verbs):
    rules = "".join(f"    case {number}:\n        return {json.dumps(text)};\n" for number, text in sentences(verbs["rules"]).items())
    types = "".join(f'    {{"{it["name"]}", {vector(it.get("8"))}, {vector(it.get("16"))}}},\n' for it in verbs["types"])
    calls = f"const char *cca_rule(int rule)\n{{\n    switch (rule) {{\n{rules}    }}\n    return NULL;\n}}\n"
    return f"{HEAD}{calls}\nconst struct cca_type cca_types[] = {{\n{types}    {{NULL, {vector('')}, {vector('')}}},\n}};\n"


def main():
    made, file = table(json.loads((HERE.parent / "verbs.json").read_text())), HERE / "table.c"
    if sys.argv[1:] == ["--check"]:
        return 0 if file.read_text() == made else f"{file.name} isn't what make_table.py makes"
    file.write_text(made)
    return 0


if __name__ == "__main__":
    sys.exit(main())
