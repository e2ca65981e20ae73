"""A method for each verb, for asyncio. Made by clients/make_verbs.py from verbs.py: a change belongs there."""
from collections.abc import Callable, Iterable
from typing import Any, Literal, TypeVar, overload

from .values import Data, Done, Fields, Generated, Key, Label, Parsed, State, Token, Verified
from .verbs import MacRule, Pad, PartRule, Verbs

T = TypeVar("T")


class AsyncVerbs:
    """What waits for a verb: each method is that of Verbs of the same name."""

    verbs: Verbs

    async def run(self, call: Callable[..., T], *given: Any, **named: Any) -> T:
        """Waits for a call, which is made in a thread of its own."""
        raise NotImplementedError

    async def request(self, row: str, **values: str) -> Fields:
        """Any request, by the name of its row in verbs.json and the texts of its fields: request("csnbkyt", key="L:PAY")."""
        return await self.run(self.verbs.request, row, **values)

    async def encipher(self, key: Key, data: bytes, iv: bytes, pad: Pad='NONE') -> Data:
        """Encipher: the ciphertext, in CBC mode."""
        return await self.run(self.verbs.encipher, key, data, iv, pad)

    async def decipher(self, key: Key, data: bytes, iv: bytes, pad: Pad='NONE') -> Data:
        """Decipher: the plaintext, in CBC mode."""
        return await self.run(self.verbs.decipher, key, data, iv, pad)

    async def mac_generate(self, key: Key, data: bytes, rule: MacRule='X9.9-1', length: Literal[4, 6, 8]=4) -> Data:
        """MAC_Generate: the leftmost bytes of the MAC."""
        return await self.run(self.verbs.mac_generate, key, data, rule, length)

    async def mac_verify(self, key: Key, data: bytes, mac: bytes, rule: MacRule='X9.9-1') -> Verified:
        """MAC_Verify: whether the bytes are the leftmost ones of the MAC."""
        return await self.run(self.verbs.mac_verify, key, data, mac, rule)

    async def key_test(self, key: Key) -> Data:
        """Key_Test: the key check value (KCV), 4 bytes, of which most systems show the first 3."""
        return await self.run(self.verbs.key_test, key)

    async def random(self, form: Literal['RANDOM', 'ODD', 'EVEN']='RANDOM') -> Data:
        """Random_Number_Generate: 8 random bytes."""
        return await self.run(self.verbs.random, form)

    @overload
    async def clear_key_import(self, clear: bytes, to: None=None) -> Token: ...

    @overload
    async def clear_key_import(self, clear: bytes, to: str) -> Label: ...

    @overload
    async def clear_key_import(self, clear: bytes, to: str | None=None) -> Key: ...

    async def clear_key_import(self, clear: bytes, to: str | None=None) -> Key:
        """Clear_Key_Import: a DATA key of 8 clear bytes."""
        return await self.run(self.verbs.clear_key_import, clear, to)

    async def key_generate(self, form: Literal['OP', 'OPEX', 'OPIM', 'IMEX', 'EXEX', 'IMIM'], length: Literal[8, 16, 'DOUBLE-O'], type1: str, type2: str | None=None, transport1: Key | None=None, transport2: Key | None=None, to: str | None=None) -> Generated:
        """Key_Generate: a random key, in one or two tokens."""
        return await self.run(self.verbs.key_generate, form, length, type1, type2, transport1, transport2, to)

    @overload
    async def key_part_import(self, rule: PartRule, part: bytes, type: str | None=None, key: Key | None=None, to: None=None) -> Token: ...

    @overload
    async def key_part_import(self, rule: PartRule, part: bytes, type: str | None=None, key: Key | None=None, *, to: str) -> Label: ...

    @overload
    async def key_part_import(self, rule: PartRule, part: bytes, type: str | None=None, key: Key | None=None, to: str | None=None) -> Key: ...

    async def key_part_import(self, rule: PartRule, part: bytes, type: str | None=None, key: Key | None=None, to: str | None=None) -> Key:
        """Key_Part_Import: the first part of a key with its type, or a further part of a key."""
        return await self.run(self.verbs.key_part_import, rule, part, type, key, to)

    async def key_export(self, key: Key, transport: Key) -> Token:
        """Key_Export: the external token of a key under a transport key."""
        return await self.run(self.verbs.key_export, key, transport)

    @overload
    async def key_import(self, token: Token, transport: Key, to: None=None) -> Token: ...

    @overload
    async def key_import(self, token: Token, transport: Key, to: str) -> Label: ...

    @overload
    async def key_import(self, token: Token, transport: Key, to: str | None=None) -> Key: ...

    async def key_import(self, token: Token, transport: Key, to: str | None=None) -> Key:
        """Key_Import: a key from its external token under a transport key."""
        return await self.run(self.verbs.key_import, token, transport, to)

    async def key_translate(self, token: Token, transport1: Key, transport2: Key) -> Token:
        """Key_Translate: an external token under another transport key."""
        return await self.run(self.verbs.key_translate, token, transport1, transport2)

    @overload
    async def prohibit_export(self, key: Key, to: None=None) -> Token: ...

    @overload
    async def prohibit_export(self, key: Key, to: str) -> Label: ...

    @overload
    async def prohibit_export(self, key: Key, to: str | None=None) -> Key: ...

    async def prohibit_export(self, key: Key, to: str | None=None) -> Key:
        """Prohibit_Export: the same key, which can't be exported."""
        return await self.run(self.verbs.prohibit_export, key, to)

    async def token_change(self, token: Token, rule: Literal['RTCMK', 'RTNMK']='RTCMK') -> Token:
        """Key_Token_Change: the token under the current master key, or with RTNMK under the new one."""
        return await self.run(self.verbs.token_change, token, rule)

    async def token_parse(self, token: Token) -> Parsed:
        """Key_Token_Parse: the fields of a token."""
        return await self.run(self.verbs.token_parse, token)

    async def record_create(self, label: str) -> Done:
        """Key_Record_Create: a label without a key."""
        return await self.run(self.verbs.record_create, label)

    async def record_write(self, label: str, token: Token) -> Done:
        """Key_Record_Write: puts the key of a token under a label."""
        return await self.run(self.verbs.record_write, label, token)

    async def record_read(self, label: str) -> Token:
        """Key_Record_Read: the token under a label."""
        return await self.run(self.verbs.record_read, label)

    async def record_delete(self, label: str) -> Done:
        """Key_Record_Delete: deletes a label with its key."""
        return await self.run(self.verbs.record_delete, label)

    async def record_list(self, prefix: str='') -> list[Label]:
        """Key_Record_List: the labels that begin with a prefix."""
        return await self.run(self.verbs.record_list, prefix)

    async def master_key_process(self, action: Literal['FIRST', 'MIDDLE', 'LAST', 'CLEAR', 'SET'], part: bytes | None=None) -> State:
        """Master_Key_Process: enters a part, clears the new register, or sets the master key. The state of the new register."""
        return await self.run(self.verbs.master_key_process, action, part)

    async def role_define(self, name: str, points: int | Iterable[str]) -> Done:
        """Access_Control_Initialization: defines a role with access control points, by their sum or by their names."""
        return await self.run(self.verbs.role_define, name, points)

    async def role_remove(self, name: str) -> Done:
        """Access_Control_Initialization: removes a role."""
        return await self.run(self.verbs.role_remove, name)

    async def reencipher(self, action: Literal['AHEAD', 'DROP'] | None=None) -> int:
        """REENCIPHER: re-encrypts the keys under labels, or stages them ahead of SET, or drops what was staged. How many changed."""
        return await self.run(self.verbs.reencipher, action)
