#!/usr/bin/env python3
"""Makes clients/verbs.json, the table of requests that the libraries use, and what is made from it.

    make_verbs.py [--check]

Verbs, fields and their values come from the grammar of crates/verb_script; rules, replies, access control points, key types and
exit statuses from docs/VERBS.md; the version of the package for Python from docs/CHANGES.md. With --check no file is written: it tells those that aren't what would be made.
"""
import ast
import json
import re
import sys
from pathlib import Path

TOP = Path(__file__).resolve().parents[1]
sys.dont_write_bytecode = True
sys.path.insert(0, str(TOP / "tools" / "requests"))
from grammar import named_rows  # noqa: E402

PAGE = (TOP / "docs" / "VERBS.md").read_text()

# What the values of each kind are.
KINDS = {
    "role_name": "the name of a role: 1 to 8 of A to Z and 0 to 9, of which the first is a letter",
    "other_role": "the name of a role other than DEFAULT: 1 to 8 of A to Z and 0 to 9, of which the first is a letter",
    "points": "8 hexadecimal digits, with no bit on that no access control point has",
    "hex_digits": "exactly as many hexadecimal digits as `digits` says",
    "one_of": "one of `words`",
    "key_text": "`T:` and 128 hexadecimal digits, or `L:` and one or more characters from X'21' to X'7E'",
    "hex_text": "an even number of hexadecimal digits, or none",
    "mac_text": "8, 12 or 16 hexadecimal digits",
    "part_text": "16 or 32 hexadecimal digits",
    "label_text": "one or more characters from X'21' to X'7E'",
    "to_text": "`-`, or `L:` and one or more characters from X'21' to X'7E'",
    "prefix_text": "0 to 64 of A to Z, 0 to 9, #, $, @ and period",
    "type_text": "the name of a key type",
}

STORED = "token|stored"  # of a reply one of two fields, by the request's `to`
# Of the rows that share a section of the page its reply's fields, and its rules: those of the line, then those of each field in
# the order of the checks. Of a row that has a section of its own the page says them.
ROWS = {
    "csnbenc": ("text", "01-05; key 06-20; text 23"),
    "csnbenc_first": ("text chain", "01-05; key 06-20; text 23"),
    "csnbenc_middle": ("text chain", "01-05; key 06-20; chain 36; text 23"),
    "csnbenc_last": ("text", "01-05; key 06-20; chain 36; text 23"),
    "csnbdec": ("text", "01-05; key 06-20; text 23 31"),
    "csnbdec_first": ("text chain", "01-05; key 06-20; text 23"),
    "csnbdec_middle": ("text chain", "01-05; key 06-20; chain 36; text 23"),
    "csnbdec_last": ("text", "01-05; key 06-20; chain 36; text 23 31"),
    "csnbmgn": ("mac", "01-05; key 06-20; text 23; key 32"),
    "csnbmgn_first": ("chain", "01-05; key 06-20; text 23; key 32"),
    "csnbmgn_middle": ("chain", "01-05; key 06-20; chain 36; text 23; key 32"),
    "csnbmgn_last": ("mac", "01-05; key 06-20; chain 36; text 23; key 32"),
    "csnbmvr": ("match", "01-05; key 06-20; text 23; key 32"),
    "csnbmvr_first": ("chain", "01-05; key 06-20; text 23; key 32"),
    "csnbmvr_middle": ("chain", "01-05; key 06-20; chain 36; text 23; key 32"),
    "csnbmvr_last": ("match", "01-05; key 06-20; chain 36; text 23; key 32"),
    "csnbkgn_op": ("token1|stored", "01-05; to 06 07; length 32 34"),
    "csnbkgn_pair": ("token1|stored token2", "01-05; transport2 06-20 22; to 06 07; type2 24; length 32 34"),
    "csnbkgn_out": ("token1 token2", "01-05; transport1 06-20 22; transport2 06-20 22; type2 24; length 32 34"),
    "csnbkpi_first": (STORED, "01-05; to 06 07; part 32"),
    "csnbkpi_middle": (STORED, "01-05; key 06-16 18 19; to 06 07; part 32; key 35"),
    "csnbmkp_part": ("new", "01-04; - 25"),
    "csnbmkp_clear": ("new", "01-04; - 33"),
    "csnbmkp_set": ("new", "01-04; - 25 26 27"),
    "csuaaci_define": ("", "01-04; name 30"),
    "csuaaci_remove": ("", "01-04; name 30"),
    "reencipher": ("changed", "01-05"),
    "reencipher_ahead": ("changed", "01-05; - 25-27"),
    "reencipher_drop": ("changed", "01-05"),
}
SAME_REPLY = "The reply is that of CSNBCKI."


def section(verb):
    """The text of docs/VERBS.md under the headings that name a verb."""
    parts = re.split(r"(?m)^(?=## )", PAGE)
    return "".join(it for it in parts if re.match(rf"## .*\b{verb}\b", it))


def cells(heading, wanted):
    """The rows of the table under a heading, with so many columns, as texts."""
    text = re.split(r"(?m)^## ", PAGE.partition(f"\n## {heading}\n")[2])[0]
    rows = [[it.strip() for it in re.split(r"(?<!\\)\|", line)[1:-1]] for line in text.splitlines() if line.startswith("|")]
    return [row for row in rows if len(row) == wanted][2:]


# ---- the parts of the table


def numbers(words):
    """Numbers of rules in two digits, and ranges as 06-20."""
    for word in words:
        first, _, last = word.partition("-")
        yield from (f"{it:02}" for it in range(int(first), int(last or first) + 1))


def rules_of(text):
    """The rules of a row, by the field that they name."""
    found = []
    for part in text.split("; "):
        words = part.split()
        named = "-" if words[0][0].isdigit() else words.pop(0)
        found.append({"field": named, "rules": list(numbers(words))})
    return found


def rules_told(text):
    """The rules of a section that has one row, as it tells them: `Rules: 01 to 05, then 06 and 07 on \`to\`.`"""
    told = re.search(r"\bRules: (.*?)(?=\.\s)", text, re.S)[1]
    found, ranges, last = [], [], []
    for first, end, field, word in re.findall(r"(\d\d)(?: to (\d\d))?|on\s+`(\w+)`|(, then|for)|$", told):
        if first:
            ranges.append(f"{first}-{end or first}")
        elif field or ranges:
            last, ranges = ranges or last, []
            found.append({"field": field or "-", "rules": list(numbers(last))})
    return found


def reply_of(text):
    """The fields of the reply of a section that has one row: of `token` and `stored` one, where a key goes where `to` says."""
    return " ".join(replied(text)).replace("token stored", STORED)


def field_of(name, values):
    kind, *arguments = values
    more = {"hex_digits": "digits", "one_of": "words"}.get(kind)
    return {"name": name, "kind": kind, **({more: arguments[0]} if more else {})}


def rows():
    """The rows of the grammar, each with its reply and its rules."""
    found = []
    for row, verb, fields in named_rows():
        reply, rules = ROWS[row] if row in ROWS else (reply_of(section(verb)), rules_told(section(verb)))
        name = re.search(rf"\b{verb} \((\w+)\)|\b{verb}-(\w+)", section(verb))
        found.append(
            {
                "row": row,
                "verb": verb,
                "name": name[1] if name and name[1] else "",
                "fields": [field_of(*it) for it in fields],
                "reply": [it.split("|") for it in reply.split()],
                "rules": rules_of(rules) if isinstance(rules, str) else rules,
            }
        )
    return found


def plain(text):
    return text.replace("`", "").replace("\\|", "|")


def rules():
    """The rules with their sentences. One without a field names the field that breaks it."""
    for rule, sentence, field in cells("The rules", 3):
        yield {"rule": rule, "sentence": plain(sentence), "field": None if field == "the field" else plain(field)}


def statuses():
    """The exit statuses, with what the program says on standard error."""
    for status, text, when in cells("Exit statuses", 3):
        said = re.findall(r"`(cca: [^`]*)`", text)
        yield {"status": int(status), "texts": said, "when": plain(when)}


def table():
    """The whole table."""
    usage = next(it["texts"][0] for it in statuses() if it["status"] == 2)
    return {
        "about": "Made by clients/make_verbs.py from the grammar of crates/verb_script and from docs/VERBS.md.",
        "longest_line": 9216,
        "longest_reply": 66580,
        "longest_text": 4096,
        "longest_segment": 4088,
        "warning": "warn=old",
        "commands": re.findall(r"\bcca ((?!usage)[a-z]+(?: [A-Z]+)*)", usage),
        "kinds": KINDS,
        "rows": rows(),
        "rules": list(rules()),
        "points": [{"name": name, "value": value, "needed_by": plain(by)} for _, value, name, by in cells("Roles and access control points", 4)],
        "types": [{"name": name, "8": short, "16": double} for name, short, double in cells("Key types", 3)],
        "statuses": list(statuses()),
    }


# ---- what the page says besides


def page_numbers(text):
    """The rules that the page names behind `Rules`, of a section."""
    found = set()
    for said in re.findall(r"Rules(?: of [A-Z ]+(?:and [A-Z]+)?)?: (.*?)(?=\.\s|\.$|\n\n)", text, re.S):
        said = re.sub(r"X9\.\d+\w*|\b[A-Z]\w+\b", "", said)
        for first, last in re.findall(r"\b(\d\d)\b(?: to (\d\d)\b)?", said):
            found.update(numbers([f"{first}-{last or first}"]))
    return found


def replied(text):
    """The fields of replies that a section has in a table."""
    if SAME_REPLY in text:
        text += section("CSNBCKI")
    found = []
    for lines in re.findall(r"(?m)^\| Field of the reply \| Value \|\n\|---\|---\|\n((?:\|.*\n)*)", text):
        for line in lines.splitlines():
            found += re.findall(r"`(\w+)`", line.split("|")[1])
    return found


def page_replies(text):
    return {*replied(text), *(["stored"] if "`stored` with the label instead" in text else [])}


def group_of(verb):
    """The first of the verbs that share a section with a verb."""
    headings = [it for it in re.findall(r"(?m)^## (.*)$", PAGE) if re.search(rf"\b{verb}\b", it)]
    return min(re.findall(r"\bCS[A-Z]{5}\b|\bREENCIPHER\b", " ".join(headings)))


def differences(made):
    """Where the rows have other rules or other fields of replies than the page. Verbs that share a section are taken together."""
    groups = {}
    for row in made["rows"]:
        groups.setdefault(group_of(row["verb"]), []).append(row)
    for rows in groups.values():
        verbs = sorted({row["verb"] for row in rows})
        text = "".join(section(verb) for verb in verbs)
        rules = {number for row in rows for it in row["rules"] for number in it["rules"]}
        replies = {name for row in rows for names in row["reply"] for name in names}
        for what, ours, page in (("rules", rules, page_numbers(text)), ("fields of replies", replies, page_replies(text))):
            if ours != page:
                yield f"{' '.join(verbs)}: docs/VERBS.md has other {what}: {' '.join(sorted(ours ^ page))}"


def lined(value, depth=0):
    """JSON with a line for each item of the table and of its lists."""
    if depth == 2 or not isinstance(value, (dict, list)):
        return json.dumps(value, ensure_ascii=False)
    if isinstance(value, dict) and depth == 0:
        parts, ends = [f"{json.dumps(name)}: {lined(it, 1)}" for name, it in value.items()], "{}"
    elif isinstance(value, dict):
        parts, ends = [f"{json.dumps(name)}: {json.dumps(it, ensure_ascii=False)}" for name, it in value.items()], "{}"
    else:
        parts, ends = [lined(it, 2) for it in value], "[]"
    margin = "\n" + " " * depth
    return ends[0] + f"{margin} " + f",{margin} ".join(parts) + margin + ends[1]


# ---- what is made of the table


def python_rows(made):
    """The table as a module of the package for Python."""
    yield '"""The table of requests. Made by clients/make_verbs.py: a change belongs there."""'
    yield "from typing import NamedTuple"
    yield from ["", "", "class Field(NamedTuple):", '    """A field of a request: its name, and which values it has."""', ""]
    yield from ["    name: str", "    kind: str", "    digits: int = 0", "    words: tuple[str, ...] = ()"]
    yield from ["", "", "class Row(NamedTuple):", '    """A form of a request. Each field of its reply has one or several names."""', ""]
    yield from ["    verb: str", "    fields: tuple[Field, ...]", "    reply: tuple[tuple[str, ...], ...]", "", ""]
    for name in ("longest_line", "longest_text", "longest_segment", "warning"):
        yield f"{name.upper()} = {made[name]!r}"
    yield "ROWS: dict[str, Row] = {"
    for row in made["rows"]:
        yield f"    {row['row']!r}: Row("
        yield f"        {row['verb']!r},"
        yield "        ("
        for field in row["fields"]:
            more = [f"digits={field['digits']}"] if "digits" in field else []
            more += [f"words={tuple(field['words'])!r}"] if "words" in field else []
            yield f"            Field({', '.join([repr(field['name']), repr(field['kind']), *more])}),"
        yield "        ),"
        yield f"        {tuple(tuple(names) for names in row['reply'])!r},"
        yield "    ),"
    yield from ["}", "# By the rule and its field; none where the reply names the field.", "RULES: dict[tuple[str, str | None], str] = {"]
    yield from (f"    ({it['rule']!r}, {it['field']!r}): {it['sentence']!r}," for it in made["rules"])
    yield from ["}", "POINTS: dict[str, int] = {"]
    yield from (f"    {it['name']!r}: 0x{it['value']}," for it in made["points"])
    yield from ["}", "# Of a type the left half of the vector of length 8 and of length 16; none where it hasn't the length."]
    yield "VECTORS: dict[str, dict[int, str]] = {"
    yield from (f"    {it['name']!r}: {({size: it[str(size)] for size in (8, 16) if it[str(size)]})!r}," for it in made["types"])
    yield from ["}", "TYPES = tuple(VECTORS)"]


def python_version():
    """The version as a module of the package for Python: the first one of docs/CHANGES.md, as the package of the system has it."""
    newest = re.search(r"(?m)^## ([0-9][0-9.]*)", (TOP / "docs" / "CHANGES.md").read_text())[1]
    yield '"""The version. Made by clients/make_verbs.py from docs/CHANGES.md."""'
    yield f"VERSION = {newest!r}"


def completion(made):
    """The completion of the words of the program, for bash."""
    words = [it.split() for it in made["commands"]]
    yield "# Completion for bash: the words of cca. Made by clients/make_verbs.py: a change belongs there."
    yield from ["_cca()", "{", "    local word=${COMP_WORDS[COMP_CWORD]}", "    COMPREPLY=()", "    case $COMP_CWORD in"]
    yield f"    1) mapfile -t COMPREPLY < <(compgen -W '{' '.join(it[0] for it in words)}' -- \"$word\") ;;"
    yield from ["    esac", "}", "complete -F _cca cca"]


def async_methods(verbs):
    """The methods of the verbs once more, for asyncio, each of which waits for the one of the same name."""
    tree = next(it for it in ast.parse(verbs).body if isinstance(it, ast.ClassDef) and it.name == "Verbs")
    for method in tree.body:
        if not isinstance(method, ast.FunctionDef) or method.name.startswith("_") or method.name in ("ask", "as_role"):
            continue
        signature = f"async def {method.name}({ast.unparse(method.args)}) -> {ast.unparse(method.returns)}:"
        if method.decorator_list:  # a form of the method, by what its arguments are
            yield from ["", "    @overload", f"    {signature} ..."]
            continue
        given = [it.arg for it in method.args.args[1:]] + [f"{it.arg}={it.arg}" for it in method.args.kwonlyargs]
        given += [f"**{method.args.kwarg.arg}"] if method.args.kwarg else []
        told = (ast.get_docstring(method) or "").split("\n")[0]
        yield ""
        yield f"    {signature}"
        yield f'        """{told}"""'
        yield f"        return await self.run({', '.join([f'self.verbs.{method.name}', *given])})"


def python_async(verbs):
    """The module of the package for asyncio: the verbs."""
    yield '"""A method for each verb, for asyncio. Made by clients/make_verbs.py from verbs.py: a change belongs there."""'
    methods = [*async_methods(verbs)]
    yield from ["from collections.abc import Callable, Iterable", "from typing import Any, Literal, TypeVar, overload", ""]
    for it in ast.parse(verbs).body:
        if isinstance(it, ast.ImportFrom) and it.module == "values":
            it.names = [name for name in it.names if re.search(rf"\b{name.name}\b", "\n".join(methods))]
            yield ast.unparse(it)
    yield "from .verbs import MacRule, Pad, PartRule, Verbs"
    yield from ["", 'T = TypeVar("T")', "", "", "class AsyncVerbs:"]
    yield from ['    """What waits for a verb: each method is that of Verbs of the same name."""', "", "    verbs: Verbs", ""]
    yield from ["    async def run(self, call: Callable[..., T], *given: Any, **named: Any) -> T:"]
    yield from ['        """Waits for a call, which is made in a thread of its own."""', "        raise NotImplementedError"]
    yield from methods


def files(made):
    """Each file that is made, with its text."""
    package = TOP / "clients" / "python" / "cca"
    verbs = (package / "verbs.py").read_text()
    yield TOP / "clients" / "verbs.json", lined(made) + "\n"
    for path, lines in (
        (package / "rows.py", python_rows(made)),
        (package / "async_verbs.py", python_async(verbs)),
        (package / "version.py", python_version()),
        (TOP / "clients" / "completion" / "cca", completion(made)),
    ):
        yield path, "".join(f"{line}\n" for line in lines)


def main():
    made = table()
    wrong = [f"clients: {it}" for it in differences(made)]
    for path, text in files(made):
        if path.exists() and path.read_text() == text:
            continue
        if "--check" in sys.argv[1:]:
            wrong.append(f"clients: {path.relative_to(TOP)} isn't what clients/make_verbs.py makes")
        else:
            path.parent.mkdir(parents=True, exist_ok=True)
            path.write_text(text)
    print("".join(f"{it}\n" for it in wrong), end="")
    print(f"clients: {len(made['rows'])} rows, {len(made['rules'])} rules")
    return 1 if wrong else 0


if __name__ == "__main__":
    sys.exit(main())
