#!/usr/bin/env python3
"""Makes Requests.java, a method for each form of a request, Rules.java and Types.java from clients/verbs.json.

    make_requests.py [--check]

With --check no file is written: it tells those that aren't what would be made.
"""
import json
import sys
from collections.abc import Iterator
from pathlib import Path
from typing import Any

HERE = Path(__file__).resolve().parent
MADE = "/* Made by clients/java/make_requests.py from clients/verbs.json: a change belongs there. */"
KEYWORDS = {"class", "for", "new"}
# How a field of each kind is taken, and put into the line. A field of one word isn't taken.
KINDS = {
    "key_text": ("Key", '.key("{name}", {it})'),
    "hex_text": ("byte[]", '.bytes("{name}", {it})'),
    "mac_text": ("byte[]", '.bytes("{name}", {it}, 4, 6, 8)'),
    "part_text": ("byte[]", '.bytes("{name}", {it}, 8, 16)'),
    "label_text": ("String", '.label("{name}", {it})'),
    "to_text": ("String", '.to("{name}", {it})'),
    "prefix_text": ("String", '.text("{name}", {it})'),
    "type_text": ("String", '.text("{name}", {it})'),
    "role_name": ("String", '.text("{name}", {it})'),
    "other_role": ("String", '.text("{name}", {it})'),
    "points": ("int", '.points("{name}", {it})'),
}


def camel(row: str) -> str:
    first, *rest = row.split("_")
    return first + "".join(it.capitalize() for it in rest)


def taken(field: dict[str, Any]) -> tuple[str, str]:
    """The type of a field's parameter, and the call that puts it into the line."""
    name = it = field["name"]
    if field["kind"] == "one_of":
        words = ", ".join(f'"{word}"' for word in field["words"])
        return "String", f'.word("{name}", {it}, {words})'
    if field["kind"] == "hex_digits" and field["digits"] == 128:
        return "Token", f'.token("{name}", {it})'
    if field["kind"] == "hex_digits":
        return "byte[]", f'.bytes("{name}", {it}, {field["digits"] // 2})'
    kind, call = KINDS[field["kind"]]
    return kind, call.format(name=name, it=it)


def method(row: dict[str, Any]) -> Iterator[str]:
    """The method of a row."""
    fields = [it for it in row["fields"] if it["name"] != "role"]
    fixed = {it["name"]: it["words"][0] for it in fields if it["kind"] == "one_of" and len(it["words"]) == 1}
    parameters = ", ".join(f"{taken(it)[0]} {it['name']}" for it in fields if it["name"] not in fixed)
    reply = ["|".join(names) for names in row["reply"]]
    title = row["verb"] + "".join(f" {word}" for word in fixed.values()) + (f" ({row['name']})" if row["name"] else "")
    told = f"The reply has {', '.join(reply).replace('|', ' or ')}." if reply else "The reply has no field."
    yield ""
    yield f"    /** {title}. {told} */"
    yield f"    public final Reply {camel(row['row'])}({parameters}) {{"
    yield f'        return ask(new RequestLine("{row["verb"]}")'
    for field in fields:
        if field["name"] in fixed:
            yield f'                .word("{field["name"]}", "{fixed[field["name"]]}", "{fixed[field["name"]]}")'
        else:
            yield f"                {taken(field)[1]}"
    yield "".join(["                ", *[f', "{it}"' for it in reply], ");"])


def requests(table: dict[str, Any]) -> Iterator[str]:
    yield from ["package cca;", "", MADE, ""]
    yield "/**"
    yield " * Each form of a request, by the name of its row in clients/verbs.json. A key that is made goes under the label {@code to}, or with"
    yield " * null into the reply. {@link Refused} is thrown where cca refuses a request, {@link Ended} where it gets no reply, and"
    yield " * IllegalArgumentException where the arguments can't be sent."
    yield " */"
    yield "public abstract class Requests {"
    yield "    Requests() {"
    yield "    }"
    yield ""
    yield "    /** Asks a request whose reply has these fields. */"
    yield "    abstract Reply ask(RequestLine request, String... wanted);"
    for row in table["rows"]:
        lines = list(method(row))
        # The reply's fields stand behind the last field of the request.
        yield from lines[:-2]
        yield lines[-2] + lines[-1].strip()
        yield "    }"
    yield "}"


def rules(table: dict[str, Any]) -> Iterator[str]:
    yield from ["package cca;", "", MADE, "", "/** The rules as sentences. */", "final class Rules {", "    private Rules() {", "    }", ""]
    yield "    /** The sentence of a rule, which may be another one for another field. */"
    yield "    static String sentence(int rule, String field) {"
    yield '        return switch ("%02d ".formatted(rule) + field) {'
    named = [it for it in table["rules"] if it["field"] is not None]
    for it in named:
        yield f'            case "{it["rule"]} {it["field"]}" -> {json.dumps(it["sentence"])};'
    yield "            default -> sentence(rule);"
    yield from ["        };", "    }", "", "    private static String sentence(int rule) {", "        return switch (rule) {"]
    for it in table["rules"]:
        if it["field"] is None:
            yield f"            case {int(it['rule'])} -> {json.dumps(it['sentence'])};"
    yield '            default -> "a rule that this version doesn\'t know";'
    yield from ["        };", "    }", "}"]


def types(table: dict[str, Any]) -> Iterator[str]:
    yield from ["package cca;", "", MADE, "", "import java.util.List;", ""]
    yield "/** The key types, each with its control vector for a key of 8 bytes, and the left half of that for 16, in hexadecimal digits; or none. */"
    yield from ["final class Types {", "    private Types() {", "    }", "", "    record Type(String name, String single, String left) {", "    }", ""]
    rows = [f'            new Type("{it["name"]}", "{it["8"]}", "{it["16"]}")' for it in table["types"]]
    yield from ["    static final List<Type> ALL = List.of(", ",\n".join(rows) + ");", "}"]


def main() -> int:
    table = json.loads((HERE.parent / "verbs.json").read_text())
    wrong = []
    for name, lines in (("Requests", requests(table)), ("Rules", rules(table)), ("Types", types(table))):
        path, text = HERE / "src" / "cca" / f"{name}.java", "".join(f"{it}\n" for it in lines)
        if path.exists() and path.read_text() == text:
            continue
        if "--check" in sys.argv[1:]:
            wrong.append(f"java: {path.name} isn't what clients/java/make_requests.py makes")
        else:
            path.write_text(text)
    print("".join(f"{it}\n" for it in wrong), end="")
    return 1 if wrong else 0


if __name__ == "__main__":
    sys.exit(main())
