"""The table of requests. Made by clients/make_verbs.py: a change belongs there."""
from typing import NamedTuple


class Field(NamedTuple):
    """A field of a request: its name, and which values it has."""

    name: str
    kind: str
    digits: int = 0
    words: tuple[str, ...] = ()


class Row(NamedTuple):
    """A form of a request. Each field of its reply has one or several names."""

    verb: str
    fields: tuple[Field, ...]
    reply: tuple[tuple[str, ...], ...]


LONGEST_LINE = 9216
LONGEST_TEXT = 4096
LONGEST_SEGMENT = 4088
WARNING = 'warn=old'
ROWS: dict[str, Row] = {
    'csnbenc': Row(
        'CSNBENC',
        (
            Field('role', 'role_name'),
            Field('key', 'key_text'),
            Field('iv', 'hex_digits', digits=16),
            Field('pad', 'one_of', words=('NONE', 'X9.23')),
            Field('text', 'hex_text'),
        ),
        (('text',),),
    ),
    'csnbenc_first': Row(
        'CSNBENC',
        (
            Field('role', 'role_name'),
            Field('key', 'key_text'),
            Field('segment', 'one_of', words=('FIRST',)),
            Field('iv', 'hex_digits', digits=16),
            Field('text', 'hex_text'),
        ),
        (('text',), ('chain',)),
    ),
    'csnbenc_middle': Row(
        'CSNBENC',
        (
            Field('role', 'role_name'),
            Field('key', 'key_text'),
            Field('segment', 'one_of', words=('MIDDLE',)),
            Field('chain', 'hex_digits', digits=32),
            Field('text', 'hex_text'),
        ),
        (('text',), ('chain',)),
    ),
    'csnbenc_last': Row(
        'CSNBENC',
        (
            Field('role', 'role_name'),
            Field('key', 'key_text'),
            Field('segment', 'one_of', words=('LAST',)),
            Field('chain', 'hex_digits', digits=32),
            Field('pad', 'one_of', words=('NONE', 'X9.23')),
            Field('text', 'hex_text'),
        ),
        (('text',),),
    ),
    'csnbdec': Row(
        'CSNBDEC',
        (
            Field('role', 'role_name'),
            Field('key', 'key_text'),
            Field('iv', 'hex_digits', digits=16),
            Field('pad', 'one_of', words=('NONE', 'X9.23')),
            Field('text', 'hex_text'),
        ),
        (('text',),),
    ),
    'csnbdec_first': Row(
        'CSNBDEC',
        (
            Field('role', 'role_name'),
            Field('key', 'key_text'),
            Field('segment', 'one_of', words=('FIRST',)),
            Field('iv', 'hex_digits', digits=16),
            Field('text', 'hex_text'),
        ),
        (('text',), ('chain',)),
    ),
    'csnbdec_middle': Row(
        'CSNBDEC',
        (
            Field('role', 'role_name'),
            Field('key', 'key_text'),
            Field('segment', 'one_of', words=('MIDDLE',)),
            Field('chain', 'hex_digits', digits=32),
            Field('text', 'hex_text'),
        ),
        (('text',), ('chain',)),
    ),
    'csnbdec_last': Row(
        'CSNBDEC',
        (
            Field('role', 'role_name'),
            Field('key', 'key_text'),
            Field('segment', 'one_of', words=('LAST',)),
            Field('chain', 'hex_digits', digits=32),
            Field('pad', 'one_of', words=('NONE', 'X9.23')),
            Field('text', 'hex_text'),
        ),
        (('text',),),
    ),
    'csnbmgn': Row(
        'CSNBMGN',
        (
            Field('role', 'role_name'),
            Field('key', 'key_text'),
            Field('rule', 'one_of', words=('X9.9-1', 'X9.19OPT')),
            Field('length', 'one_of', words=('4', '6', '8')),
            Field('text', 'hex_text'),
        ),
        (('mac',),),
    ),
    'csnbmgn_first': Row(
        'CSNBMGN',
        (
            Field('role', 'role_name'),
            Field('key', 'key_text'),
            Field('rule', 'one_of', words=('X9.9-1', 'X9.19OPT')),
            Field('segment', 'one_of', words=('FIRST',)),
            Field('text', 'hex_text'),
        ),
        (('chain',),),
    ),
    'csnbmgn_middle': Row(
        'CSNBMGN',
        (
            Field('role', 'role_name'),
            Field('key', 'key_text'),
            Field('rule', 'one_of', words=('X9.9-1', 'X9.19OPT')),
            Field('segment', 'one_of', words=('MIDDLE',)),
            Field('chain', 'hex_digits', digits=32),
            Field('text', 'hex_text'),
        ),
        (('chain',),),
    ),
    'csnbmgn_last': Row(
        'CSNBMGN',
        (
            Field('role', 'role_name'),
            Field('key', 'key_text'),
            Field('rule', 'one_of', words=('X9.9-1', 'X9.19OPT')),
            Field('segment', 'one_of', words=('LAST',)),
            Field('length', 'one_of', words=('4', '6', '8')),
            Field('chain', 'hex_digits', digits=32),
            Field('text', 'hex_text'),
        ),
        (('mac',),),
    ),
    'csnbmvr': Row(
        'CSNBMVR',
        (
            Field('role', 'role_name'),
            Field('key', 'key_text'),
            Field('rule', 'one_of', words=('X9.9-1', 'X9.19OPT')),
            Field('mac', 'mac_text'),
            Field('text', 'hex_text'),
        ),
        (('match',),),
    ),
    'csnbmvr_first': Row(
        'CSNBMVR',
        (
            Field('role', 'role_name'),
            Field('key', 'key_text'),
            Field('rule', 'one_of', words=('X9.9-1', 'X9.19OPT')),
            Field('segment', 'one_of', words=('FIRST',)),
            Field('text', 'hex_text'),
        ),
        (('chain',),),
    ),
    'csnbmvr_middle': Row(
        'CSNBMVR',
        (
            Field('role', 'role_name'),
            Field('key', 'key_text'),
            Field('rule', 'one_of', words=('X9.9-1', 'X9.19OPT')),
            Field('segment', 'one_of', words=('MIDDLE',)),
            Field('chain', 'hex_digits', digits=32),
            Field('text', 'hex_text'),
        ),
        (('chain',),),
    ),
    'csnbmvr_last': Row(
        'CSNBMVR',
        (
            Field('role', 'role_name'),
            Field('key', 'key_text'),
            Field('rule', 'one_of', words=('X9.9-1', 'X9.19OPT')),
            Field('segment', 'one_of', words=('LAST',)),
            Field('mac', 'mac_text'),
            Field('chain', 'hex_digits', digits=32),
            Field('text', 'hex_text'),
        ),
        (('match',),),
    ),
    'csnbktp': Row(
        'CSNBKTP',
        (
            Field('role', 'role_name'),
            Field('token', 'hex_digits', digits=128),
        ),
        (('kind',), ('class',), ('length',), ('vector',), ('pattern',)),
    ),
    'csnbkyt': Row(
        'CSNBKYT',
        (
            Field('role', 'role_name'),
            Field('key', 'key_text'),
        ),
        (('value',),),
    ),
    'csnbcki': Row(
        'CSNBCKI',
        (
            Field('role', 'role_name'),
            Field('clear', 'hex_digits', digits=16),
            Field('to', 'to_text'),
        ),
        (('token', 'stored'),),
    ),
    'csnbrng': Row(
        'CSNBRNG',
        (
            Field('role', 'role_name'),
            Field('form', 'one_of', words=('RANDOM', 'ODD', 'EVEN')),
        ),
        (('random',),),
    ),
    'csnbkgn_op': Row(
        'CSNBKGN',
        (
            Field('role', 'role_name'),
            Field('form', 'one_of', words=('OP',)),
            Field('length', 'one_of', words=('8', '16', 'DOUBLE-O')),
            Field('type1', 'type_text'),
            Field('to', 'to_text'),
        ),
        (('token1', 'stored'),),
    ),
    'csnbkgn_pair': Row(
        'CSNBKGN',
        (
            Field('role', 'role_name'),
            Field('form', 'one_of', words=('OPEX', 'OPIM')),
            Field('length', 'one_of', words=('8', '16', 'DOUBLE-O')),
            Field('type1', 'type_text'),
            Field('type2', 'type_text'),
            Field('transport2', 'key_text'),
            Field('to', 'to_text'),
        ),
        (('token1', 'stored'), ('token2',)),
    ),
    'csnbkgn_out': Row(
        'CSNBKGN',
        (
            Field('role', 'role_name'),
            Field('form', 'one_of', words=('IMEX', 'EXEX', 'IMIM')),
            Field('length', 'one_of', words=('8', '16', 'DOUBLE-O')),
            Field('type1', 'type_text'),
            Field('type2', 'type_text'),
            Field('transport1', 'key_text'),
            Field('transport2', 'key_text'),
        ),
        (('token1',), ('token2',)),
    ),
    'csnbkim': Row(
        'CSNBKIM',
        (
            Field('role', 'role_name'),
            Field('token', 'hex_digits', digits=128),
            Field('transport', 'key_text'),
            Field('to', 'to_text'),
        ),
        (('token', 'stored'),),
    ),
    'csnbkex': Row(
        'CSNBKEX',
        (
            Field('role', 'role_name'),
            Field('key', 'key_text'),
            Field('transport', 'key_text'),
        ),
        (('token',),),
    ),
    'csnbpex': Row(
        'CSNBPEX',
        (
            Field('role', 'role_name'),
            Field('key', 'key_text'),
            Field('to', 'to_text'),
        ),
        (('token', 'stored'),),
    ),
    'csnbktc': Row(
        'CSNBKTC',
        (
            Field('role', 'role_name'),
            Field('rule', 'one_of', words=('RTCMK', 'RTNMK')),
            Field('token', 'hex_digits', digits=128),
        ),
        (('token',),),
    ),
    'csnbkpi_first': Row(
        'CSNBKPI',
        (
            Field('role', 'role_name'),
            Field('rule', 'one_of', words=('FIRST',)),
            Field('type', 'type_text'),
            Field('part', 'part_text'),
            Field('to', 'to_text'),
        ),
        (('token', 'stored'),),
    ),
    'csnbkpi_middle': Row(
        'CSNBKPI',
        (
            Field('role', 'role_name'),
            Field('rule', 'one_of', words=('MIDDLE', 'LAST')),
            Field('key', 'key_text'),
            Field('part', 'part_text'),
            Field('to', 'to_text'),
        ),
        (('token', 'stored'),),
    ),
    'csnbktr': Row(
        'CSNBKTR',
        (
            Field('role', 'role_name'),
            Field('token', 'hex_digits', digits=128),
            Field('transport1', 'key_text'),
            Field('transport2', 'key_text'),
        ),
        (('token',),),
    ),
    'csnbkrc': Row(
        'CSNBKRC',
        (
            Field('role', 'role_name'),
            Field('label', 'label_text'),
        ),
        (),
    ),
    'csnbkrw': Row(
        'CSNBKRW',
        (
            Field('role', 'role_name'),
            Field('label', 'label_text'),
            Field('token', 'hex_digits', digits=128),
        ),
        (),
    ),
    'csnbkrr': Row(
        'CSNBKRR',
        (
            Field('role', 'role_name'),
            Field('label', 'label_text'),
        ),
        (('token',),),
    ),
    'csnbkrd': Row(
        'CSNBKRD',
        (
            Field('role', 'role_name'),
            Field('label', 'label_text'),
        ),
        (),
    ),
    'csnbkrl': Row(
        'CSNBKRL',
        (
            Field('role', 'role_name'),
            Field('prefix', 'prefix_text'),
        ),
        (('count',), ('labels',)),
    ),
    'csnbmkp_part': Row(
        'CSNBMKP',
        (
            Field('role', 'role_name'),
            Field('action', 'one_of', words=('FIRST', 'MIDDLE', 'LAST')),
            Field('part', 'hex_digits', digits=48),
        ),
        (('new',),),
    ),
    'csnbmkp_clear': Row(
        'CSNBMKP',
        (
            Field('role', 'role_name'),
            Field('action', 'one_of', words=('CLEAR',)),
        ),
        (('new',),),
    ),
    'csnbmkp_set': Row(
        'CSNBMKP',
        (
            Field('role', 'role_name'),
            Field('action', 'one_of', words=('SET',)),
        ),
        (('new',),),
    ),
    'csuaaci_define': Row(
        'CSUAACI',
        (
            Field('role', 'role_name'),
            Field('action', 'one_of', words=('DEFINE',)),
            Field('name', 'role_name'),
            Field('points', 'points'),
        ),
        (),
    ),
    'csuaaci_remove': Row(
        'CSUAACI',
        (
            Field('role', 'role_name'),
            Field('action', 'one_of', words=('REMOVE',)),
            Field('name', 'other_role'),
        ),
        (),
    ),
    'reencipher': Row(
        'REENCIPHER',
        (
            Field('role', 'role_name'),
        ),
        (('changed',),),
    ),
    'reencipher_ahead': Row(
        'REENCIPHER',
        (
            Field('role', 'role_name'),
            Field('action', 'one_of', words=('AHEAD',)),
        ),
        (('changed',),),
    ),
    'reencipher_drop': Row(
        'REENCIPHER',
        (
            Field('role', 'role_name'),
            Field('action', 'one_of', words=('DROP',)),
        ),
        (('changed',),),
    ),
}
# By the rule and its field; none where the reply names the field.
RULES: dict[tuple[str, str | None], str] = {
    ('01', '-'): 'the line has at most 9,216 bytes and is no request',
    ('02', '-'): 'the line has more than 9,216 bytes',
    ('03', '-'): "the role isn't defined",
    ('04', '-'): 'the role lacks an access control point that the request needs',
    ('05', '-'): 'the request needs a current master key, and the current register is empty',
    ('06', None): "the text isn't a label",
    ('07', None): "the label doesn't exist",
    ('08', None): "the label's record is null: it has no key",
    ('09', None): "byte 0 of the token isn't the kind that is asked for",
    ('10', None): "bytes 60 to 63 aren't the token validation value",
    ('11', None): "byte 4 isn't 00",
    ('12', None): "byte 6 isn't C0, nor 80 with a control vector of zeros",
    ('13', None): "one of bytes 1 to 3, 5, 7, 48 to 59 isn't zero, or in an external token one of bytes 8 to 15",
    ('14', None): 'a byte of the control vector has an odd number of ones',
    ('15', None): "a half of the control vector that isn't all zero has bit 30 on or bit 38 off",
    ('16', None): "the key form isn't that of a single-length key, of a double-length key or of a key with guaranteed unique halves; or the vector of the right half doesn't belong to that of the left half; or the right half of a single-length key isn't zero",
    ('17', None): 'the control vector says that the key is a key part',
    ('18', None): "the internal token's master key verification pattern (MKVP) is neither that of the current nor that of the old master key",
    ('19', None): "the key's class isn't one that the verb takes",
    ('20', None): "the control vector doesn't permit the use",
    ('21', 'key'): "CSNBKEX, and the control vector isn't all zero and forbids export",
    ('22', None): 'a transport key is of single length',
    ('23', 'text'): "the data has a length that the verb doesn't take",
    ('24', 'type2'): "the two key types aren't a pair",
    ('25', '-'): "the new register isn't in the required state: empty for FIRST; partly full for MIDDLE and LAST; full for SET, RTNMK and AHEAD",
    ('26', '-'): 'SET, and the current register is full and has the same verification pattern as the new one; AHEAD, and the new register has the verification pattern of the current one or of a full old one',
    ('27', '-'): 'SET or AHEAD, and a label is under the old master key',
    ('28', 'label'): 'CSNBKRC, and there are 1,024 labels',
    ('29', 'label'): 'CSNBKRC, and the label exists',
    ('30', 'name'): "DEFINE of a new name, and there are 32 roles; REMOVE of a role that isn't defined",
    ('31', 'text'): "CSNBDEC with X9.23, and the last clear byte isn't 1 to 8",
    ('32', 'key'): 'X9.9-1 with a double-length key, or X9.19OPT with a single-length one',
    ('32', 'length'): "CSNBKGN, and one of its types doesn't have the length: 8, 16 or DOUBLE-O",
    ('32', 'part'): "CSNBKPI FIRST, and the type doesn't have the part's length; MIDDLE or LAST, and the part hasn't the key's length",
    ('33', '-'): 'CLEAR, and a label is staged',
    ('34', 'length'): 'CSNBKGN with DOUBLE-O, and each of eight right halves equals the left half, apart from low-order bits',
    ('35', 'key'): 'CSNBKPI MIDDLE or LAST, and the key is complete',
    ('36', 'chain'): "MIDDLE or LAST segment, and byte 8 of the chaining value is above 7, or a byte after the carried ones isn't zero",
}
POINTS: dict[str, int] = {
    'ENC': 0x00000001,
    'DEC': 0x00000002,
    'MGN': 0x00000004,
    'MVR': 0x00000008,
    'KYT': 0x00000010,
    'CKI': 0x00000020,
    'RNG': 0x00000040,
    'KGN_OP': 0x00000080,
    'KGN_PAIR': 0x00000100,
    'KGN_OUT': 0x00000200,
    'KIM': 0x00000400,
    'KEX': 0x00000800,
    'PEX': 0x00001000,
    'KTC_CURRENT': 0x00002000,
    'KTC_NEW': 0x00004000,
    'KRC': 0x00008000,
    'KRW': 0x00010000,
    'KRR': 0x00020000,
    'KRD': 0x00040000,
    'KRL': 0x00080000,
    'MK_FIRST': 0x00100000,
    'MK_COMBINE': 0x00200000,
    'MK_CLEAR': 0x00400000,
    'MK_SET': 0x00800000,
    'ROLES': 0x01000000,
    'REENC': 0x02000000,
    'KPI_FIRST': 0x04000000,
    'KPI_COMBINE': 0x08000000,
    'KTR': 0x10000000,
}
# Of a type the left half of the vector of length 8 and of length 16; none where it hasn't the length.
VECTORS: dict[str, dict[int, str]] = {
    'DATA': {8: '00007d0003000000', 16: '00007d0003410000'},
    'DATAC': {16: '0000710003410000'},
    'DATAM': {16: '00004d0003410000'},
    'DATAMV': {16: '0000440003410000'},
    'CIPHER': {8: '0003710003000000'},
    'ENCIPHER': {8: '0003600003000000'},
    'DECIPHER': {8: '0003500003000000'},
    'MAC': {8: '00054d0003000000', 16: '00054d0003410000'},
    'MACVER': {8: '0005440003000000', 16: '0005440003410000'},
    'EXPORTER': {16: '00417d0003410000'},
    'IMPORTER': {16: '00427d0003410000'},
    'OKEYXLAT': {16: '0041420003410000'},
    'IKEYXLAT': {16: '0042420003410000'},
}
TYPES = tuple(VECTORS)
