"""Reads the grammar's table of requests, specs/ of crates/verb_script: its rows, each a verb with the names and values of its fields."""
import re
from pathlib import Path

TOP = Path(__file__).resolve().parents[2]
SPECS = TOP / "crates" / "verb_script" / "specs"
TOKEN = re.compile(r'"[^"]*"|[{}()\[\];=∷]|[^\s{}()\[\];=∷"]+')


class Reader:
    """Reads an expression: applications, lists, records, texts and numbers."""

    def __init__(self, text):
        self.tokens = TOKEN.findall(text)
        self.at = 0

    def next(self):
        return self.tokens[self.at] if self.at < len(self.tokens) else None

    def take(self, wanted=None):
        token = self.next()
        if token is None or (wanted and token != wanted):
            raise ValueError(f"{wanted or 'more'} is wanted, and not {token}")
        self.at += 1
        return token

    def expression(self):
        parts = []
        while self.next() not in (None, ")", "}", ";", "∷", "++"):
            parts.append(self.atom())
        head = ("apply", parts) if len(parts) > 1 else parts[0]
        if self.next() == "∷":
            self.take()
            return ("cons", head, self.expression())
        if self.next() == "++":
            self.take()
            return ("append", head, self.expression())
        return head

    def atom(self):
        token = self.take()
        if token == "(":
            inside = self.expression()
            self.take(")")
            return inside
        if token == "[":
            self.take("]")
            return ("empty",)
        if token == "record":
            self.take("{")
            members = {}
            while self.next() != "}":
                name = self.take()
                self.take("=")
                members[name] = self.expression()
                if self.next() == ";":
                    self.take()
            self.take("}")
            return ("record", members)
        if token.startswith('"'):
            return ("text", token[1:-1])
        return ("number", int(token)) if token.isdigit() else ("name", token)


def definitions():
    """The clauses of the specs: of each name its patterns and the text behind the equals sign."""
    found = {}
    for path in sorted(SPECS.glob("*.antt")):
        text = re.sub(r"(?m)(^|\s)--.*$", "", path.read_text())
        for item in re.split(r"\n(?=[^\s}])", text):
            clause = re.match(r"(\w+)((?: \w+)*) =\s+(.*)", item, re.S)
            if clause:
                found.setdefault(clause[1], []).append((clause[2].split(), clause[3]))
    return found


def value(term, known, bound):
    """What a term says: a text, a number, a list, a dict of members, or a constructor's name with its arguments."""
    kind = term[0]
    if kind in ("text", "number"):
        return term[1]
    if kind == "empty":
        return []
    if kind == "cons":
        return [value(term[1], known, bound), *value(term[2], known, bound)]
    if kind == "append":
        return [*value(term[1], known, bound), *value(term[2], known, bound)]
    if kind == "record":
        return {name: value(inside, known, bound) for name, inside in term[1].items()}
    head, given = (term, []) if kind == "name" else (term[1][0], term[1][1:])
    arguments = [value(it, known, bound) for it in given]
    name = head[1]
    if name in bound and not arguments:
        return bound[name]
    if name == "codes":
        return arguments[0]
    if name in known and len(known[name]) == 1:
        patterns, text = known[name][0]
        return value(Reader(text).expression(), known, dict(zip(patterns, arguments)))
    return (name, *arguments)


def in_words(name):
    """A name as the tables of the clients have it: CsnbencFirst is csnbenc_first."""
    return re.sub(r"(?<!^)(?=[A-Z])", "_", name).lower()


def named_rows():
    """The rows of the grammar: each name with its verb and its fields, a name and values each."""
    known = definitions()
    clauses = {patterns[0]: text for patterns, text in known["row_of"]}
    for name, *_ in value(("name", "all_requests"), known, {}):
        row = value(Reader(clauses[name]).expression(), known, {})
        yield in_words(name), row["verb"], [(it["name"], it["values"]) for it in row["fields"]]
