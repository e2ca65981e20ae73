"""Keys under labels: of any kind that a record may have, put in by the tokens that OpenSSL makes of them."""
from tests.formats import as_part, closed, entered, internals, types, unique
from tests.harness import Calls

QUICK = Calls(skipped="sync cca.store")  # what makes and looks at stores doesn't wait for the drive
OTHER = bytes.fromhex("00227e0003000000") + bytes(8)  # a vector of a class that is carried and not used
ZEROS = bytes(16)  # that of a DATA key as other systems make it
EXPORTER, IMPORTER = types()["EXPORTER"][16], types()["IMPORTER"][16]
# A master key in two parts, and the key of the examples under the label A.
ONE_KEY = [
    "CSNBMKP role=DEFAULT action=FIRST part=0123456789abcdeffedcba9876543210a1b2c3d4e5f60718",
    "CSNBMKP role=DEFAULT action=LAST part=8f7e6d5c4b3a29180716253443526170f0e1d2c3b4a59687",
    "CSNBMKP role=DEFAULT action=SET",
    "CSNBKRC role=DEFAULT label=A",
    "CSNBCKI role=DEFAULT clear=0123456789abcdef to=L:A",
]


def drawn_key(drawn):
    """A key with a vector of any kind that a record may have; at times none, for a null record."""
    vectors = [(size, vector) for sizes in types().values() for size, vector in sizes.items()]
    vectors += [(size, unique(vector)) for size, vector in vectors if size == 16]
    size, vector = drawn.choice([*vectors, (8, OTHER), (8, ZEROS)])
    kind = drawn.randrange(20)
    vector = as_part(vector) if kind in (1, 2) else vector
    return (drawn.randbytes(size), closed(vector) if kind in (2, 3, 4) else vector) if kind else None


def by_label(make, under, keys):
    """The token of each label's key under another key, which `make` makes; none of a null record."""
    held = [label for label in keys if keys[label]]
    return dict(zip(held, make(under, [keys[label] for label in held])))


def ceremony(master):
    """The requests that bring a master key in and set it, with their replies."""
    return zip(entered(master, "SET"), ("OK new=partial", "OK new=full", "OK new=empty"), strict=True)


def stored(master, keys):
    """The requests that put keys under new labels by their tokens, with their replies."""
    tokens = by_label(internals, master, keys)
    for label in keys:
        yield f"CSNBKRC role=DEFAULT label={label}", "OK"
        if label in tokens:
            yield f"CSNBKRW role=DEFAULT label={label} token={tokens[label]}", "OK"
