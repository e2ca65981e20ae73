#!/usr/bin/env python3
"""A text of 1,000,000 bytes, or of as many whole blocks as the first word says, through cca in segments; beside it OpenSSL,
with its des-ede-cbc over the whole text, and with the steps of a message authentication code of ANSI X9.19. It works in a
folder of its own, and needs `openssl` and a `cca` on the path, or one that the variable CCA names.
"""
import os
import subprocess
import sys
import tempfile
from pathlib import Path

TOP = Path(__file__).resolve().parents[2]
sys.path.insert(0, str(TOP / "clients" / "python"))
sys.dont_write_bytecode = True
from cca.client import Coprocessor  # noqa: E402

LONGEST = 4088  # bytes of a segment
KEY = "2b7e151628aed2a6abf7158809cf4f3c"
LEFT, RIGHT = KEY[:16], KEY[16:]
START = "1234567890abcdef"
MASTER_KEY = [
    "CSNBMKP role=DEFAULT action=FIRST part=0102030405060708090a0b0c0d0e0f101112131415161718",
    "CSNBMKP role=DEFAULT action=LAST part=000000000000000000000000000000000000000000000000",
    "CSNBMKP role=DEFAULT action=SET",
]
# The key as a token under this master key, as a DATA key and as a MAC key.
DATA = "T:010000000000c000083bf1025be34c44684527a256464bfee061ea3b9e98047a00007d000341000000007d0003210000000000000000000000000000a908599b"
MAC = "T:010000000000c000083bf1025be34c44c971c9df6a16f4cb3a28f5aeac91046200054d000341000000054d000321000000000000000000000000000085cf5000"


def openssl(*words, given):
    """What a cipher of OpenSSL makes of some bytes."""
    it = subprocess.run(["openssl", "enc", *words], input=given, stdout=subprocess.PIPE, check=True)
    return it.stdout


def block(direction, key, given):
    """One block through DES, as triple DES under one key."""
    return openssl(direction, "-des-ede3", "-nopad", "-K", key * 3, given=given)


def fields(reply):
    """The fields of a reply."""
    words = reply.split(" ")
    if words[0] != "OK":
        sys.exit(f"cca replied: {reply[:80]}")
    return dict(it.split("=", 1) for it in words[1:])


def in_segments(cca, verb, begin, end, text):
    """Sends a text in segments, with what stands behind the segment in the first and in the last request: the replies' fields."""
    pieces = [text[at : at + LONGEST] for at in range(0, len(text), LONGEST)]
    replies, chain = [], ""
    for number, piece in enumerate(pieces):
        if number == 0:
            words = f"segment=FIRST {begin}"
        elif number < len(pieces) - 1:
            words = f"segment=MIDDLE chain={chain}"
        else:
            words = "segment=LAST " + end.format(chain=chain)
        replies.append(fields(cca.ask(f"{verb} {words.strip()} text={piece.hex()}")))
        chain = replies[-1].get("chain")
    return replies


def said(what, is_same):
    """Says whether cca and OpenSSL agree."""
    print(f"{what}: {'as OpenSSL has it' if is_same else 'OTHER than OpenSSL has it'}")
    return is_same


def main():
    size = int(sys.argv[1]) if len(sys.argv) > 1 else 1000000
    text = openssl("-aes-128-ctr", "-K", "00" * 16, "-iv", "00" * 16, given=bytes(size))
    with tempfile.TemporaryDirectory() as folder:
        cca = Coprocessor(folder, os.environ.get("CCA", "cca"))
        for line in MASTER_KEY:
            fields(cca.ask(line))
        end = "chain={chain} pad=NONE"
        cipher = "role=DEFAULT key=" + DATA
        replies = in_segments(cca, f"CSNBENC {cipher}", f"iv={START}", end, text)
        enciphered = bytes.fromhex("".join(it["text"] for it in replies))
        whole = openssl("-des-ede-cbc", "-nopad", "-K", KEY, "-iv", START, given=text)
        good = said(f"{size:,} bytes enciphered in {len(replies)} segments", enciphered == whole)
        replies = in_segments(cca, f"CSNBDEC {cipher}", f"iv={START}", end, whole)
        good &= said("deciphered again", bytes.fromhex("".join(it["text"] for it in replies)) == text)
        code = f"CSNBMGN role=DEFAULT key={MAC} rule=X9.19OPT"
        # One byte fewer, so that the last block is filled with a zero.
        replies = in_segments(cca, code, "", "length=8 chain={chain}", text[:-1])
        chained = openssl("-des-ede3-cbc", "-nopad", "-K", LEFT * 3, "-iv", "00" * 8, given=text[:-1] + bytes(1))
        wanted = block("-e", LEFT, block("-d", RIGHT, chained[-8:]))
        good &= said(f"the MAC of {size - 1:,} bytes", bytes.fromhex(replies[-1]["mac"]) == wanted)
        cca.close()
    return 0 if good else 1


if __name__ == "__main__":
    sys.exit(main())
