"""Why a request was refused: for a line that is no request the field, the byte and the reason, and else the sentence of the rule.

    python3 -m cca explain < FILE
    python3 -m cca explain NO 19 key

The file has requests, each with its reply below it or without one, or replies alone. No part of a line is repeated but one
character, so that no key gets into what is printed. The program isn't asked: this is the same grammar, read by another reader.
"""
import sys
from collections.abc import Iterable, Iterator
from typing import NamedTuple

from .lines import REFUSAL, common_length, fault_of, named
from .rows import LONGEST_LINE, ROWS, Field, Row
from .values import sentence

VERBS = dict.fromkeys(row.verb for row in ROWS.values())
FIELDS = {field.name for row in ROWS.values() for field in row.fields}
BYTE_ORDER_MARK = "\u00ef\u00bb\u00bf"


class Reason(NamedTuple):
    """Why a line is no request: the field, or `-`, the byte, counted from 1, and the reason."""

    field: str
    byte: int
    text: str

    def __str__(self) -> str:
        return f"byte {self.byte}{'' if self.field == '-' else f', field {self.field}'}: {self.text}"


class Word(NamedTuple):
    """A word of a line: where it begins, counted from 0, and its text."""

    at: int
    text: str

    @property
    def name(self) -> str:
        return self.text.partition("=")[0]

    @property
    def value(self) -> str:
        return self.text.partition("=")[2]


def reason(line: bytes) -> Reason | None:
    """Why a line without its newline is no request; none where it is one."""
    text = line.decode("latin-1")
    return of_the_line(text) or of_the_verb(text) or of_the_fields(text)


# ---- the line as a whole


def of_the_line(text: str) -> Reason | None:
    """What is wrong with a line, whatever its words are."""
    if len(text) > LONGEST_LINE:
        return Reason("-", LONGEST_LINE + 1, "the line has more than 9,216 bytes, which is rule 02")
    if not text:
        return Reason("-", 1, "the line is empty")
    if text.startswith(BYTE_ORDER_MARK):
        return Reason("-", 1, "a byte order mark, which an editor puts before the first line")
    return of_blanks(text) or of_characters(text)


def of_blanks(text: str) -> Reason | None:
    """What is wrong with the blanks between words."""
    if text.startswith(" "):
        return Reason("-", 1, "a blank before the verb")
    double = text.find("  ")
    if double >= 0 and text[double:].strip(" "):
        return Reason("-", double + 2, "a blank too many: one stands between words")
    if text.endswith(" "):
        return Reason("-", len(text.rstrip(" ")) + 1, "a blank at the end of the line")
    return None


def of_characters(text: str) -> Reason | None:
    """Characters that no request has."""
    at = next((at for at, it in enumerate(text) if not " " <= it <= "~"), None)
    if at is None:
        return None
    if text[at] == "\r":
        ends = "at the end: lines end with X'0A' alone, and not with X'0D0A'"
        return Reason(field_at(text, at), at + 1, f"a carriage return {ends if at == len(text) - 1 else 'within the line'}")
    return Reason(field_at(text, at), at + 1, f"{named(text[at])}, which no request has")


def field_at(text: str, at: int) -> str:
    """The field in whose value a place is."""
    word = text[:at].rpartition(" ")[2]
    return known(word.partition("=")[0]) if "=" in word else "-"


# ---- the verb


def of_the_verb(text: str) -> Reason | None:
    verb = text.partition(" ")[0]
    if verb in VERBS:
        return None
    if verb.upper() in VERBS:
        return Reason("-", next(at for at, it in enumerate(verb, 1) if it.islower()), "lower case: a verb is in upper case")
    if verb.startswith(("OK", "NO")) and len(verb) == 2:
        return Reason("-", 1, "this is a reply")
    return Reason("-", max(common_length(verb, it) for it in VERBS) + 1, "no verb begins so")


# ---- the fields


def of_the_fields(text: str) -> Reason | None:
    """What is wrong with the fields: by the form of the verb that the line fits furthest."""
    words, at = [], 0
    for word in text.split(" "):
        words.append(Word(at, word))
        at += len(word) + 1
    rows = [row for row in ROWS.values() if row.verb == words[0].text]
    found = [in_row(row, words[1:], len(text)) for row in rows]
    if None in found:
        return None
    furthest = max(it[0] for it in found if it)
    ties = [(row, it[1]) for row, it in zip(rows, found) if it and it[0] == furthest]
    return joined(ties, words[1:], furthest, len(text))


def in_row(row: Row, words: list[Word], end: int) -> tuple[int, Reason] | None:
    """How many fields of a row fit, and what is wrong with the next one; none where all fit."""
    for count, field in enumerate(row.fields):
        if count == len(words):
            return count, Reason(field.name, end + 1, f"the line ends, and the field {field.name} is missing")
        word = words[count]
        if word.name != field.name or "=" not in word.text:
            return count, of_name(field, row, word, words)
        fault = fault_of(field, word.value)
        if fault:
            return count, Reason(field.name, word.at + len(field.name) + 2 + fault.at, fault.reason)
    if len(words) > len(row.fields):
        return len(row.fields), too_many(row, words[len(row.fields)], words)
    return None


def of_name(field: Field, row: Row, word: Word, words: list[Word]) -> Reason:
    """What is wrong where a field's name is wanted."""
    at, name = word.at + 1, word.name
    if "=" not in word.text:
        return Reason(field.name, at + len(word.text), f"a word without an equals sign, and {field.name}= is wanted")
    if name.lower() == field.name:
        return Reason(field.name, at, "upper case: the names of fields are in lower case")
    if name == "role":
        return Reason("role", at, "the field role is out of order: it stands behind the verb, once")
    if field.name == "role":
        return Reason("role", at, "the field role is missing: it stands behind the verb")
    if name in [it.name for it in row.fields]:
        is_later = field.name in [it.name for it in words]
        how = "comes first: these fields are out of order" if is_later else "comes first, and is missing"
        return Reason(name, at, f"{field.name} {how}")
    return Reason(known(name), at, f"no field of this name stands here, and {field.name} is wanted")


def too_many(row: Row, word: Word, words: list[Word]) -> Reason:
    """What is wrong with a word behind the last field."""
    if word.name in [it.name for it in row.fields] and "=" in word.text:
        return Reason(word.name, word.at + 1, "the field stands twice, or out of order")
    return Reason(known(word.name) if "=" in word.text else "-", word.at + 1, f"{row.verb} has no further field here")


def known(name: str) -> str:
    """A name, where it is one of a field: anything else may be a key that was typed at the wrong place."""
    return name if name in FIELDS else "-"


def joined(ties: list[tuple[Row, Reason]], words: list[Word], count: int, end: int) -> Reason:
    """One reason of the forms of a verb that a line fits equally far."""
    if len(ties) == 1:
        return ties[0][1]
    wanted = list(dict.fromkeys(row.fields[count].name for row, _ in ties if count < len(row.fields)))
    if count == len(words):
        return Reason(wanted[0] if len(wanted) == 1 else "-", end + 1, f"the line ends, and the field {' or '.join(wanted)} is missing")
    word = words[count]
    fields = [row.fields[count] for row, _ in ties if count < len(row.fields) and row.fields[count].name == word.name]
    if fields and all(it.kind == "one_of" for it in fields):
        choices = tuple(dict.fromkeys(choice for it in fields for choice in it.words))
        fault = fault_of(Field(word.name, "one_of", words=choices), word.value)
        if fault:
            return Reason(word.name, word.at + len(word.name) + 2 + fault.at, fault.reason)
    return max((it for _, it in ties), key=lambda it: likelihood(it, word))


def likelihood(it: Reason, word: Word) -> tuple[bool, bool, int]:
    """Of reasons that could be told for a word the best: about its own value, then about a field that the form has."""
    return it.field == word.name and it.byte > word.at + 1, it.field == word.name, it.byte


# ---- what is printed


def of_reply(reply: str) -> str | None:
    """The rule of a refusal; none where a line isn't one."""
    found = REFUSAL.fullmatch(reply)
    if not found:
        return None
    where = "the line or the request as a whole" if found[2] == "-" else f"field {found[2]}"
    return f"rule {found[1]}, {where}: {sentence(int(found[1]), found[2])}"


def of_request(line: bytes, reply: str | None) -> str:
    """What is told of a request, with or without its reply."""
    found = reason(line)
    if reply and not reply.startswith(("NO 01 ", "NO 02 ")):
        told = of_reply(reply) or "carried out"
        return f"{told}; but this is no request: {found}" if found else told
    if found:
        return str(found)
    return "a request" if not reply else f"{of_reply(reply)}; but this is a request: were other bytes sent?"


def told(lines: Iterable[bytes]) -> Iterator[str]:
    """What is told of each request, or of each reply that has no request above it."""
    request: bytes | None = None
    for number, line in enumerate(lines, 1):
        reply = line.decode("latin-1")
        is_reply = reply == "OK" or reply.startswith(("OK ", "NO "))
        if request is not None:
            yield f"{number - 1}: {of_request(request, reply if is_reply else None)}"
        elif is_reply:
            yield f"{number}: {of_reply(reply) or 'carried out'}"
        last, request = number, None if is_reply else line
    if request is not None:
        yield f"{last}: {of_request(request, None)}"


def main(words: list[str]) -> int:
    """`explain NO 19 key`, or lines on standard input."""
    if words:
        rule = of_reply(" ".join(words))
        print(rule or "this is no refusal: a request is read from standard input, since a key may stand in it")
        return 0 if rule else 2
    given = sys.stdin.buffer.read()
    for it in told(given.removesuffix(b"\n").split(b"\n") if given else []):
        print(it)
    return 0
