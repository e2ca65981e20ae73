"""A method for each verb, whatever carries the lines."""
import re
from collections.abc import Iterable, Iterator
from typing import Literal, TypeAlias, overload

from .lines import Unexpected, fields_of, request_line
from .rows import LONGEST_SEGMENT, LONGEST_TEXT, POINTS, ROWS
from .values import TOKEN_SIZE, Data, Done, Fields, Generated, Key, Label, Parsed, State, Token, Verified

Pad: TypeAlias = Literal["NONE", "X9.23"]
MacRule: TypeAlias = Literal["X9.9-1", "X9.19OPT"]
PartRule: TypeAlias = Literal["FIRST", "MIDDLE", "LAST"]
STATES: tuple[State, ...] = ("empty", "partial", "full")
CHAIN_SIZE = 16
BYTES = re.compile("(?:[0-9a-f]{2})*")


class Verbs:
    """The verbs: bytes in and bytes out. Refused is raised where cca refuses a request, Ended where a request gets no reply, and
    ValueError or TypeError where the arguments can't be sent. A key is Label("PAY") or Token(bytes). A key that is made goes under
    the label `to`, or else it is given back as a token. Data of any length is sent in segments."""

    role: str | None = None

    def ask(self, request: str) -> str:
        """The reply to a request line."""
        raise NotImplementedError

    def _drop(self) -> None:
        """Ends what is out of step."""
        raise NotImplementedError

    def as_role(self, role: str) -> "Verbs":
        """The same coprocessor, asked under another role."""
        if self.role is None:
            raise ValueError("the front names the role: connect to the socket of the other one")
        return InRole(self, role)

    def request(self, row: str, **values: str) -> Fields:
        """Any request, by the name of its row in verbs.json and the texts of its fields: request("csnbkyt", key="L:PAY")."""
        if row not in ROWS:
            raise ValueError(f"no row is called {row}")
        wanted = {field.name for field in ROWS[row].fields if len(field.words) != 1} - {"role"}
        if set(values) != wanted:
            raise TypeError(f"{row} has the fields {', '.join(sorted(wanted)) or 'none'}, and not {', '.join(sorted(values)) or 'none'}")
        return Fields(*self._do(row, **values))

    # ---- using keys

    def encipher(self, key: Key, data: bytes, iv: bytes, pad: Pad = "NONE") -> Data:
        """Encipher: the ciphertext, in CBC mode."""
        return self._ciphered("csnbenc", key, data, iv, pad)

    def decipher(self, key: Key, data: bytes, iv: bytes, pad: Pad = "NONE") -> Data:
        """Decipher: the plaintext, in CBC mode."""
        return self._ciphered("csnbdec", key, data, iv, pad)

    def mac_generate(self, key: Key, data: bytes, rule: MacRule = "X9.9-1", length: Literal[4, 6, 8] = 4) -> Data:
        """MAC_Generate: the leftmost bytes of the MAC."""
        found, used_old_key = self._segmented("csnbmgn", data, LONGEST_TEXT, {}, {"length": str(length)}, key=key_text(key), rule=rule)
        return Data(self._bytes(found["mac"], length), used_old_key)

    def mac_verify(self, key: Key, data: bytes, mac: bytes, rule: MacRule = "X9.9-1") -> Verified:
        """MAC_Verify: whether the bytes are the leftmost ones of the MAC."""
        found, used_old_key = self._segmented("csnbmvr", data, LONGEST_TEXT, {}, {"mac": hexed(mac)}, key=key_text(key), rule=rule)
        if found["match"] not in ("yes", "no"):
            raise self._unexpected("neither yes nor no")
        return Verified(found["match"] == "yes", used_old_key)

    def key_test(self, key: Key) -> Data:
        """Key_Test: the key check value (KCV), 4 bytes, of which most systems show the first 3."""
        found, used_old_key = self._do("csnbkyt", key=key_text(key))
        return Data(self._bytes(found["value"], 4), used_old_key)

    def random(self, form: Literal["RANDOM", "ODD", "EVEN"] = "RANDOM") -> Data:
        """Random_Number_Generate: 8 random bytes."""
        return Data(self._bytes(self._do("csnbrng", form=form)[0]["random"], 8))

    # ---- making keys

    @overload
    def clear_key_import(self, clear: bytes, to: None = None) -> Token: ...
    @overload
    def clear_key_import(self, clear: bytes, to: str) -> Label: ...
    @overload
    def clear_key_import(self, clear: bytes, to: str | None = None) -> Key: ...

    def clear_key_import(self, clear: bytes, to: str | None = None) -> Key:
        """Clear_Key_Import: a DATA key of 8 clear bytes."""
        return self._made("csnbcki", to, clear=hexed(clear))

    def key_generate(
        self,
        form: Literal["OP", "OPEX", "OPIM", "IMEX", "EXEX", "IMIM"],
        length: Literal[8, 16, "DOUBLE-O"],
        type1: str,
        type2: str | None = None,
        transport1: Key | None = None,
        transport2: Key | None = None,
        to: str | None = None,
    ) -> Generated:
        """Key_Generate: a random key, in one or two tokens."""
        row = {"OP": "csnbkgn_op", "OPEX": "csnbkgn_pair", "OPIM": "csnbkgn_pair"}.get(form, "csnbkgn_out")
        given = {"form": form, "length": str(length), "type1": type1, "type2": type2}
        given |= {"transport1": key_text(transport1), "transport2": key_text(transport2)}
        if to is not None or row != "csnbkgn_out":
            given["to"] = to_text(to)
        found, used_old_key = self._do(row, **given)
        second = self._token_of(found["token2"], used_old_key) if "token2" in found else None
        return Generated(self._key(found, used_old_key, to, "token1"), second, used_old_key)

    @overload
    def key_part_import(
        self, rule: PartRule, part: bytes, type: str | None = None, key: Key | None = None, to: None = None
    ) -> Token: ...
    @overload
    def key_part_import(
        self, rule: PartRule, part: bytes, type: str | None = None, key: Key | None = None, *, to: str
    ) -> Label: ...
    @overload
    def key_part_import(
        self, rule: PartRule, part: bytes, type: str | None = None, key: Key | None = None, to: str | None = None
    ) -> Key: ...

    def key_part_import(
        self, rule: PartRule, part: bytes, type: str | None = None, key: Key | None = None, to: str | None = None
    ) -> Key:
        """Key_Part_Import: the first part of a key with its type, or a further part of a key."""
        row = "csnbkpi_first" if rule == "FIRST" else "csnbkpi_middle"
        return self._made(row, to, rule=rule, part=hexed(part), type=type, key=key_text(key))

    # ---- moving keys

    def key_export(self, key: Key, transport: Key) -> Token:
        """Key_Export: the external token of a key under a transport key."""
        return self._token("csnbkex", key=key_text(key), transport=key_text(transport))

    @overload
    def key_import(self, token: Token, transport: Key, to: None = None) -> Token: ...
    @overload
    def key_import(self, token: Token, transport: Key, to: str) -> Label: ...
    @overload
    def key_import(self, token: Token, transport: Key, to: str | None = None) -> Key: ...

    def key_import(self, token: Token, transport: Key, to: str | None = None) -> Key:
        """Key_Import: a key from its external token under a transport key."""
        return self._made("csnbkim", to, token=token_text(token), transport=key_text(transport))

    def key_translate(self, token: Token, transport1: Key, transport2: Key) -> Token:
        """Key_Translate: an external token under another transport key."""
        transports = {"transport1": key_text(transport1), "transport2": key_text(transport2)}
        return self._token("csnbktr", token=token_text(token), **transports)

    @overload
    def prohibit_export(self, key: Key, to: None = None) -> Token: ...
    @overload
    def prohibit_export(self, key: Key, to: str) -> Label: ...
    @overload
    def prohibit_export(self, key: Key, to: str | None = None) -> Key: ...

    def prohibit_export(self, key: Key, to: str | None = None) -> Key:
        """Prohibit_Export: the same key, which can't be exported."""
        return self._made("csnbpex", to, key=key_text(key))

    def token_change(self, token: Token, rule: Literal["RTCMK", "RTNMK"] = "RTCMK") -> Token:
        """Key_Token_Change: the token under the current master key, or with RTNMK under the new one."""
        return self._token("csnbktc", token=token_text(token), rule=rule)

    def token_parse(self, token: Token) -> Parsed:
        """Key_Token_Parse: the fields of a token."""
        found, _ = self._do("csnbktp", token=token_text(token))
        size = {"8": 8, "16": 16}.get(found["length"])
        if size is None or found["kind"] not in ("internal", "external"):
            raise self._unexpected("a kind or a length that no key has")
        vector, pattern = self._bytes(found["vector"], size), self._bytes(found["pattern"], 8)
        return Parsed(found["kind"], found["class"], size, vector, pattern)

    # ---- labels

    def record_create(self, label: str) -> Done:
        """Key_Record_Create: a label without a key."""
        return self._done("csnbkrc", label=label)

    def record_write(self, label: str, token: Token) -> Done:
        """Key_Record_Write: puts the key of a token under a label."""
        return self._done("csnbkrw", label=label, token=token_text(token))

    def record_read(self, label: str) -> Token:
        """Key_Record_Read: the token under a label."""
        return self._token("csnbkrr", label=label)

    def record_delete(self, label: str) -> Done:
        """Key_Record_Delete: deletes a label with its key."""
        return self._done("csnbkrd", label=label)

    def record_list(self, prefix: str = "") -> list[Label]:
        """Key_Record_List: the labels that begin with a prefix."""
        found, _ = self._do("csnbkrl", prefix=prefix)
        labels = [Label(it) for it in found["labels"].split(",") if it]
        if found["count"] != str(len(labels)):
            raise self._unexpected("not as many labels as it says")
        return labels

    # ---- master keys and roles

    def master_key_process(
        self, action: Literal["FIRST", "MIDDLE", "LAST", "CLEAR", "SET"], part: bytes | None = None
    ) -> State:
        """Master_Key_Process: enters a part, clears the new register, or sets the master key. The state of the new register."""
        row = {"CLEAR": "csnbmkp_clear", "SET": "csnbmkp_set"}.get(action, "csnbmkp_part")
        new = self._do(row, action=action, part=None if part is None else hexed(part))[0]["new"]
        for state in STATES:
            if state == new:
                return state
        raise self._unexpected("no state of a register")

    def role_define(self, name: str, points: int | Iterable[str]) -> Done:
        """Access_Control_Initialization: defines a role with access control points, by their sum or by their names."""
        if not isinstance(points, int):
            points = sum_of_points(points)
        return self._done("csuaaci_define", action="DEFINE", name=name, points=f"{points:08x}")

    def role_remove(self, name: str) -> Done:
        """Access_Control_Initialization: removes a role."""
        return self._done("csuaaci_remove", action="REMOVE", name=name)

    def reencipher(self, action: Literal["AHEAD", "DROP"] | None = None) -> int:
        """REENCIPHER: re-encrypts the keys under labels, or stages them ahead of SET, or drops what was staged. How many changed."""
        row = {"AHEAD": "reencipher_ahead", "DROP": "reencipher_drop"}.get(action or "", "reencipher")
        changed = self._do(row, action=action)[0]["changed"]
        if not changed.isdecimal():
            raise self._unexpected("no number")
        return int(changed)

    # ---- what they share

    def _do(self, row: str, **values: str | None) -> tuple[dict[str, str], bool]:
        """Asks a request of a row of the table: the fields of its reply, and whether it warns of the old master key."""
        request = request_line(row, self.role, {name: text for name, text in values.items() if text is not None})
        try:
            return fields_of(row, self.ask(request))
        except Unexpected:
            self._drop()
            raise

    def _unexpected(self, why: str) -> Unexpected:
        """Ends what is out of step."""
        self._drop()
        return Unexpected(why)

    def _done(self, row: str, **values: str | None) -> Done:
        return Done(self._do(row, **values)[1])

    def _bytes(self, digits: str, *sizes: int) -> bytes:
        """The bytes of a reply, as many as one of these numbers says."""
        if not BYTES.fullmatch(digits) or len(digits) // 2 not in sizes:
            raise self._unexpected(f"a value that isn't {' or '.join(map(str, sizes))} bytes in hexadecimal digits")
        return bytes.fromhex(digits)

    def _token_of(self, digits: str, used_old_key: bool) -> Token:
        return Token(self._bytes(digits, TOKEN_SIZE), used_old_key)

    def _token(self, row: str, **values: str | None) -> Token:
        found, used_old_key = self._do(row, **values)
        return self._token_of(found["token"], used_old_key)

    def _made(self, row: str, to: str | None, **values: str | None) -> Key:
        return self._key(*self._do(row, to=to_text(to), **values), to, "token")

    def _key(self, found: dict[str, str], used_old_key: bool, to: str | None, name: str) -> Key:
        """A key that was made: under its label, or else as its token."""
        if to is None and name in found:
            return self._token_of(found[name], used_old_key)
        if to is not None and found.get("stored") == to:
            return Label(to, used_old_key)
        raise self._unexpected("a key that didn't go where it should")

    def _ciphered(self, row: str, key: Key, data: bytes, iv: bytes, pad: Pad) -> Data:
        data = as_bytes(data)
        longest = LONGEST_TEXT - (row == "csnbenc" and pad == "X9.23")  # padding must have room
        found, used_old_key = self._segmented(row, data, longest, {"iv": hexed(iv)}, {"pad": pad}, key=key_text(key))
        return Data(self._bytes(found["text"], *sizes_of_output(row, pad, len(data))), used_old_key)

    def _segmented(
        self, row: str, data: bytes, longest: int, first: dict[str, str], last: dict[str, str], **values: str | None
    ) -> tuple[dict[str, str], bool]:
        """Data in one request, or in segments where it is too long: the fields of the last reply, with the whole of the output."""
        data = as_bytes(data)
        if len(data) <= longest:
            return self._do(row, text=hexed(data), **values, **first, **last)
        more, outputs, any_used_old_key, found = first, list[str](), False, dict[str, str]()
        for name, segment in segments(data):
            values |= {"text": hexed(segment)}
            found, used_old_key = self._do(f"{row}_{name}", **values, **more, **(last if name == "last" else {}))
            more = {} if name == "last" else {"chain": self._bytes(found["chain"], CHAIN_SIZE).hex()}
            any_used_old_key = any_used_old_key or used_old_key
            outputs.append(found.get("text", ""))
        return {**found, "text": "".join(outputs)}, any_used_old_key


class InRole(Verbs):
    """A coprocessor that is asked under another role."""

    def __init__(self, verbs: Verbs, role: str):
        self.verbs, self.role = verbs, role

    def ask(self, request: str) -> str:
        return self.verbs.ask(request)

    def _drop(self) -> None:
        self.verbs._drop()


def segments(data: bytes) -> Iterator[tuple[str, bytes]]:
    """Data of at least two segments, each with its place: first, middle or last."""
    starts = range(0, len(data), LONGEST_SEGMENT)
    for at in starts:
        name = "first" if at == 0 else "last" if at == starts[-1] else "middle"
        yield name, data[at : at + LONGEST_SEGMENT]


def as_bytes(data: bytes) -> bytes:
    """Bytes of any kind."""
    if not isinstance(data, (bytes, bytearray, memoryview)):
        raise TypeError(f"bytes are wanted, and not {type(data).__name__}")
    return bytes(data)


def hexed(data: bytes) -> str:
    """Bytes as hexadecimal digits."""
    return as_bytes(data).hex()


def sizes_of_output(row: str, pad: Pad, size: int) -> Iterable[int]:
    """How many bytes the output to so many bytes of data may have."""
    if pad == "NONE":
        return [size]
    return [size - size % 8 + 8] if row == "csnbenc" else range(size - 8, size)


def sum_of_points(names: Iterable[str]) -> int:
    """The sum of access control points."""
    chosen = set(names)
    if not chosen <= POINTS.keys():
        raise ValueError(f"no access control point is called {' or '.join(sorted(chosen - POINTS.keys()))}")
    return sum(POINTS[it] for it in chosen)


def key_text(key: Key | None) -> str | None:
    """A key as the value of a field."""
    if key is None:
        return None
    if isinstance(key, Label):
        return f"L:{key}"
    if isinstance(key, Token):
        return f"T:{key.hex()}"
    raise TypeError('a key is Label("NAME") or Token(bytes)')


def token_text(token: bytes) -> str:
    """A token as the value of a field."""
    return Token(token).hex()


def to_text(to: str | None) -> str:
    """Where a key goes: a label, or `-`, the reply."""
    if to is not None and not isinstance(to, str):
        raise TypeError("a key goes to a label, or to None, the result")
    return "-" if to is None else f"L:{to}"
