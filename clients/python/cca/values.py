"""What verbs take and give: keys, results and refusals."""
from dataclasses import dataclass
from typing import Literal, TypeAlias

from .client import Error
from .rows import RULES

TOKEN_SIZE = 64


class Label(str):
    """A key under a label: Label("PAY"). Whether the text is a label is for cca to say, by rule 06.

    used_old_key: as that of Data, where the label is of a reply.
    """

    used_old_key: bool

    def __new__(cls, text: str, used_old_key: bool = False) -> "Label":
        it = super().__new__(cls, text)
        it.used_old_key = used_old_key
        return it


class Data(bytes):
    """Bytes of a reply.

    used_old_key: whether a key of the request is under the old master key. It still works, until the next SET. It says nothing of
    a key that the reply has: what token_change made of such a token is under the current master key.
    """

    used_old_key: bool

    def __new__(cls, data: bytes, used_old_key: bool = False) -> "Data":
        it = super().__new__(cls, data)
        it.used_old_key = used_old_key
        return it


class Fields(dict[str, str]):
    """The fields of a reply by their names, as the reply has them.

    used_old_key: as that of Data.
    """

    used_old_key: bool

    def __init__(self, fields: dict[str, str], used_old_key: bool = False):
        super().__init__(fields)
        self.used_old_key = used_old_key


class Token(Data):
    """A key token: 64 bytes, an enciphered key with its control vector."""

    def __new__(cls, data: bytes, used_old_key: bool = False) -> "Token":
        if len(data) != TOKEN_SIZE:
            raise ValueError(f"a key token has {TOKEN_SIZE} bytes, and not {len(data)}")
        it = super().__new__(cls, data, used_old_key)
        assert isinstance(it, Token)
        return it


Key: TypeAlias = Label | Token
State: TypeAlias = Literal["empty", "partial", "full"]


@dataclass(frozen=True)
class Done:
    """The request was carried out, and its reply has nothing else."""

    used_old_key: bool = False


@dataclass(frozen=True)
class Verified:
    """Whether a MAC matches: `if cca.mac_verify(..)` asks just that."""

    matches: bool
    used_old_key: bool = False

    def __bool__(self) -> bool:
        return self.matches


@dataclass(frozen=True)
class Generated:
    """Keys that were generated: the first one, under its label or as its token, and the second one, where the form makes two."""

    first: Key
    second: Token | None = None
    used_old_key: bool = False


@dataclass(frozen=True)
class Parsed:
    """The fields of a token."""

    kind: str
    key_class: str
    length: int
    vector: bytes
    pattern: bytes


class Refused(Error):
    """The request was refused, and nothing was changed.

    rule: the number of the first rule that the request breaks. field: the field that breaks it, or `-`. text: the rule.
    """

    def __init__(self, rule: int, field: str):
        self.rule, self.field, self.text = rule, field, sentence(rule, field)
        named = "" if field == "-" else f", field {field}"
        super().__init__(f"rule {rule:02}{named}: {self.text}")


def sentence(rule: int, field: str) -> str:
    """The sentence of a rule, which may be another one for another field."""
    number = f"{rule:02}"
    return RULES.get((number, field)) or RULES.get((number, None)) or "a rule that this version doesn't know"
