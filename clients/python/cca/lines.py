"""Request lines from values, and values from reply lines, by the table of requests."""
import re
from collections.abc import Callable, Iterator
from typing import NamedTuple

from .client import Error
from .rows import POINTS, ROWS, TYPES, WARNING, Field, Row
from .values import Refused

DIGITS = frozenset("0123456789abcdefABCDEF")
LABEL_CHARACTERS = frozenset("ABCDEFGHIJKLMNOPQRSTUVWXYZ0123456789#$@.")
NAME_CHARACTERS = frozenset("ABCDEFGHIJKLMNOPQRSTUVWXYZ0123456789")
ALL_POINTS = sum(POINTS.values())
REFUSAL = re.compile(r"NO ([0-9]{2}) (-|[a-z0-9]+)")


class Fault(NamedTuple):
    """What is wrong with a text: where, counted from 0, and why."""

    at: int
    reason: str


class Unexpected(Error):
    """A reply that no such request gets. What sent it is out of step, and isn't asked any more. Nothing of the reply is told: it may
    hold what was deciphered."""


# ---- the values of fields


def first_other(text: str, characters: frozenset[str]) -> int | None:
    """Where a text has the first character that isn't one of these."""
    return next((at for at, it in enumerate(text) if it not in characters), None)


def named(character: str) -> str:
    """A character, as it is told."""
    special = {"\r": "a carriage return", "\t": "a tab", " ": "a blank", "\0": "a zero byte", "\n": "a newline"}
    if character in special:
        return special[character]
    return repr(character) if " " < character <= "~" else f"the byte X'{ord(character) & 0xFF:02X}'"


def digits_fault(text: str, counts: tuple[int, ...]) -> Fault | None:
    """What is wrong with hexadecimal digits, as many as one of these numbers says."""
    at = first_other(text, DIGITS)
    if at is not None:
        return Fault(at, f"{named(text[at])} is no hexadecimal digit")
    if len(text) in counts:
        return None
    wanted = " or ".join(filter(None, [", ".join(map(str, counts[:-1])), str(counts[-1])]))
    has = f"{len(text)} digit{'' if len(text) == 1 else 's'}" if text else "no digit"
    return Fault(min(len(text), max(counts)), f"{has}, and {wanted} are wanted")


def even_fault(text: str) -> Fault | None:
    fault = digits_fault(text, (len(text),))
    if fault or len(text) % 2 == 0:
        return fault
    return Fault(len(text), f"{len(text)} digits, and an even number is wanted: two make a byte")


def points_fault(text: str) -> Fault | None:
    fault = digits_fault(text, (8,))
    if fault:
        return fault
    others = int(text, 16) & ~ALL_POINTS
    return Fault(0, f"bits are on that no access control point has: {others:08x}") if others else None


def role_fault(text: str) -> Fault | None:
    at = first_other(text, NAME_CHARACTERS)
    if not text:
        return Fault(0, "the name of a role has 1 to 8 characters")
    if at is not None:
        return Fault(at, upper_case(text) or f"{named(text[at])} can't be in the name of a role: A to Z and 0 to 9")
    if text[0].isdigit():
        return Fault(0, "the first character of a role's name is a letter")
    return Fault(8, "the name of a role has 1 to 8 characters") if len(text) > 8 else None


def other_role_fault(text: str) -> Fault | None:
    return role_fault(text) or (Fault(0, "the role DEFAULT can't be removed") if text == "DEFAULT" else None)


def upper_case(text: str) -> str:
    """A reason where nothing but the case is wrong."""
    return "lower case, and upper case is wanted" if text.isascii() and text.upper() != text and text.upper().isalnum() else ""


def words_fault(text: str, words: tuple[str, ...]) -> Fault | None:
    if text in words:
        return None
    if text.upper() in words:
        return Fault(next(at for at, it in enumerate(text) if it.islower()), "lower case, and upper case is wanted")
    common = max(common_length(text, it) for it in words)
    return Fault(common, f"{' or '.join(words)} is wanted")


def common_length(one: str, two: str) -> int:
    """How many characters two texts have in common at their beginning."""
    return next((at for at, (it, other) in enumerate(zip(one, two)) if it != other), min(len(one), len(two)))


def label_fault(text: str) -> Fault | None:
    """What is wrong with what may stand for a label in a line: rule 06 says more about it."""
    at = next((at for at, it in enumerate(text) if not "!" <= it <= "~"), None)
    if at is not None:
        return Fault(at, f"{named(text[at])} can't be in a label")
    return None if text else Fault(0, "no label")


def key_fault(text: str) -> Fault | None:
    if text.startswith("L:"):
        return behind(2, label_fault(text[2:]))
    if text.startswith("T:"):
        return behind(2, digits_fault(text[2:], (128,)))
    if text[:2] in ("l:", "t:"):
        return Fault(0, "lower case: L: or T: is wanted")
    return Fault(0, "L: and a label or T: and a key token are wanted")


def to_fault(text: str) -> Fault | None:
    if text == "-":
        return None
    if text.startswith("L:"):
        return behind(2, label_fault(text[2:]))
    if text.startswith("l:"):
        return Fault(0, "lower case: L: is wanted")
    return Fault(0, "a key goes to `-`, the reply, or to L: and a label")


def behind(count: int, fault: Fault | None) -> Fault | None:
    """A fault that was found so many characters behind the beginning."""
    return fault and Fault(fault.at + count, fault.reason)


def prefix_fault(text: str) -> Fault | None:
    at = first_other(text, LABEL_CHARACTERS)
    if at is not None:
        return Fault(at, upper_case(text[at]) or f"{named(text[at])} can't be in a label")
    return Fault(64, "a label has 64 characters at most") if len(text) > 64 else None


FAULTS: dict[str, Callable[[str], Fault | None]] = {
    "role_name": role_fault,
    "other_role": other_role_fault,
    "points": points_fault,
    "key_text": key_fault,
    "hex_text": even_fault,
    "mac_text": lambda text: digits_fault(text, (8, 12, 16)),
    "part_text": lambda text: digits_fault(text, (16, 32)),
    "label_text": label_fault,
    "to_text": to_fault,
    "prefix_text": prefix_fault,
    "type_text": lambda text: words_fault(text, TYPES),
}


def fault_of(field: Field, text: str) -> Fault | None:
    """What is wrong with a value of a field, if anything."""
    if field.kind == "hex_digits":
        return digits_fault(text, (field.digits,))
    if field.kind == "one_of":
        return words_fault(text, field.words)
    return FAULTS[field.kind](text)


# ---- lines


def request_line(name: str, role: str | None, values: dict[str, str]) -> str:
    """The request of a row of the table. Behind a front's socket no role is named."""
    row = ROWS[name]
    return row.verb + "".join(f" {field}={text}" for field, text in words_of(row, role, values))


def words_of(row: Row, role: str | None, values: dict[str, str]) -> Iterator[tuple[str, str]]:
    """The fields of a row with their values. TypeError is raised where there are too many or too few, ValueError where one can't
    be sent."""
    fixed = {field.name: field.words[0] for field in row.fields if len(field.words) == 1}
    wanted = {field.name for field in row.fields} - {"role"}
    if not values.keys() <= wanted <= values.keys() | fixed.keys():
        missing, others = sorted(wanted - values.keys() - fixed.keys()), sorted(values.keys() - wanted)
        told = [f"{it} is missing" for it in missing] + [f"{it} isn't taken" for it in others]
        raise TypeError(f"{row.verb} in this form: {', '.join(told)}")
    texts = fixed | values | ({} if role is None else {"role": role})
    for field in row.fields:
        if field.name not in texts:
            continue  # the role, which the front adds
        text = texts[field.name]
        fault = fault_of(field, text)
        if fault:
            raise ValueError(f"{field.name}: {fault.reason}")
        yield field.name, text


def fields_of(name: str, reply: str) -> tuple[dict[str, str], bool]:
    """The fields of a reply to a request of a row, and whether it warns. Refused is raised where it was refused."""
    refusal = REFUSAL.fullmatch(reply)
    if refusal:
        raise Refused(int(refusal[1]), refusal[2])
    ok, *words = reply.split(" ")
    used_old_key = words[-1:] == [WARNING]
    pairs = [word.partition("=")[::2] for word in (words[:-1] if used_old_key else words)]
    wanted = ROWS[name].reply
    if ok != "OK" or len(pairs) != len(wanted) or not all(it[0] in names for it, names in zip(pairs, wanted)):
        told = " ".join(["OK", *("|".join(names) for names in wanted)])
        raise Unexpected(f"{len(reply)} characters that are no reply to {ROWS[name].verb}: {told} is wanted")
    return dict(pairs), used_old_key
