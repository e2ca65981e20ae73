"""DES for key check values alone: those of parts that a custodian types, which no request shows. Python's own library has none.

A check value is the beginning of a block of zeros that is enciphered. Nothing else is enciphered here, nor deciphered.
"""
from collections.abc import Iterable, Iterator

BITS = 64
SHOWN = 6  # digits of a check value that are shown
# The tables of FIPS 46-3: for each bit of what comes out the number of the bit that goes in, counted from 1.
INITIAL = [place for row in (58, 60, 62, 64, 57, 59, 61, 63) for place in range(row, 0, -8)]
FINAL = [place for column in range(8) for place in (40 - column, 8 - column, 48 - column, 16 - column, 56 - column, 24 - column,
                                                    64 - column, 32 - column)]  # fmt: skip
EXPANSION = [(at - 1) % 32 + 1 for row in range(8) for at in range(4 * row, 4 * row + 6)]
PERMUTATION = [16, 7, 20, 21, 29, 12, 28, 17, 1, 15, 23, 26, 5, 18, 31, 10,
               2, 8, 24, 14, 32, 27, 3, 9, 19, 13, 30, 6, 22, 11, 4, 25]  # fmt: skip
CHOICE_1 = [57, 49, 41, 33, 25, 17, 9, 1, 58, 50, 42, 34, 26, 18, 10, 2, 59, 51, 43, 35, 27, 19, 11, 3, 60, 52, 44, 36,
            63, 55, 47, 39, 31, 23, 15, 7, 62, 54, 46, 38, 30, 22, 14, 6, 61, 53, 45, 37, 29, 21, 13, 5,
            28, 20, 12, 4]  # fmt: skip
CHOICE_2 = [14, 17, 11, 24, 1, 5, 3, 28, 15, 6, 21, 10, 23, 19, 12, 4, 26, 8, 16, 7, 27, 20, 13, 2,
            41, 52, 31, 37, 47, 55, 30, 40, 51, 45, 33, 48, 44, 49, 39, 56, 34, 53, 46, 42, 50, 36, 29, 32]  # fmt: skip
ROTATIONS = (1, 1, 2, 2, 2, 2, 2, 2, 1, 2, 2, 2, 2, 2, 2, 1)
# Each box as 64 hexadecimal digits: its four rows of sixteen.
BOXES = (
    "e4d12fb83a6c5907" "0f74e2d1a6cb9538" "41e8d62bfc973a50" "fc8249175b3ea06d",
    "f18e6b34972dc05a" "3d47f28ec01a69b5" "0e7ba4d158c6932f" "d8a13f42b67c05e9",
    "a09e63f51dc7b428" "d709346a285ecbf1" "d6498f30b12c5ae7" "1ad069874fe3b52c",
    "7de3069a1285bc4f" "d8b56f03472c1ae9" "a690cb7df13e5284" "3f06a1d8945bc72e",
    "2c417ab6853fd0e9" "eb2c47d150fa3986" "421bad78f9c5630e" "b8c71e2d6f09a453",
    "c1af92680d34e75b" "af427c9561de0b38" "9ef528c3704a1db6" "432c95fabe17608d",
    "4b2ef08d3c975a61" "d0b7491ae35c2f86" "14bdc37eaf680592" "6bd814a7950fe23c",
    "d2846fb1a93e50c7" "1fd8a374c56b0e92" "7b419ce206adf358" "21e74a8dfc90356b",
)  # fmt: skip


def taken(value: int, size: int, places: list[int]) -> int:
    """The bits of a value of so many bits that stand at some places, in their order."""
    made = 0
    for place in places:
        made = made << 1 | value >> (size - place) & 1
    return made


def rotated(half: int, count: int) -> int:
    """The half of a key schedule, of 28 bits, turned to the left."""
    return (half << count | half >> (28 - count)) & 0xFFFFFFF


def round_keys(key: bytes) -> Iterator[int]:
    """The sixteen round keys of 8 bytes, of 48 bits each."""
    chosen = taken(int.from_bytes(key, "big"), BITS, CHOICE_1)
    left, right = chosen >> 28, chosen & 0xFFFFFFF
    for count in ROTATIONS:
        left, right = rotated(left, count), rotated(right, count)
        yield taken(left << 28 | right, 56, CHOICE_2)


def mixed(half: int, round_key: int) -> int:
    """What a round makes of the right half of a block."""
    given, made = taken(half, 32, EXPANSION) ^ round_key, 0
    for number, box in enumerate(BOXES):
        six = given >> (42 - 6 * number) & 0x3F
        row, column = six >> 4 & 2 | six & 1, six >> 1 & 15
        made = made << 4 | int(box[16 * row + column], 16)
    return taken(made, 32, PERMUTATION)


def through(block: int, keys: Iterable[int]) -> int:
    """A block, taken through the rounds of these round keys in their order."""
    block = taken(block, BITS, INITIAL)
    left, right = block >> 32, block & 0xFFFFFFFF
    for round_key in keys:
        left, right = right, left ^ mixed(right, round_key)
    return taken(right << 32 | left, BITS, FINAL)


def check_value(key: bytes) -> str:
    """Six digits of the check value of a key of 8 or 16 bytes: of zeros under DES, or under triple DES by two keys."""
    first = list(round_keys(key[:8]))
    block = through(0, first)
    if len(key) == 16:
        block = through(through(block, reversed(list(round_keys(key[8:])))), first)
    return f"{block:016x}"[:SHOWN]
