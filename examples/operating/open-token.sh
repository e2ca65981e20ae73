#!/usr/bin/env bash
# Opens an internal key token by hand, with OpenSSL's triple DES and sha1sum: open-token.sh TOKEN MASTERKEY, of 128 and 48
# hexadecimal digits. It shows each step. For test keys alone: the keys come into the list of processes.
set -euo pipefail
token="${1,,}"
master="${2,,}"

bytes() { # hexadecimal digits: the bytes that they are
    local at out=""
    for ((at = 0; at < ${#1}; at += 2)); do out+="\\x${1:at:2}"; done
    printf '%b' "$out"
}

digits() { od -An -v -tx1 | tr -d ' \n'; }

xor() { printf '%016x' $((0x$1 ^ 0x$2)); } # of 16 digits each

same() { [ "$1" = "$2" ] && echo "as in the token" || echo "but the token has $2"; }

sum=0
for ((word = 0; word < 15; word++)); do sum=$(((sum + 0x${token:8 * word:8}) & 0xffffffff)); done
printf -v sum '%08x' "$sum"
echo "validation value, the sum of fifteen words: $sum, $(same "$sum" "${token:120:8}")"
pattern="$(bytes "01$master" | sha1sum | cut -c 1-16)"
echo "pattern of the master key: $pattern, $(same "$pattern" "${token:16:16}")"

clear=""
for half in left right; do
    at=0
    [ "$half" = left ] || at=16
    sealed="${token:32 + at:16}"
    vector="${token:64 + at:16}"
    [ "$half" = left ] || [ "$vector" != 0000000000000000 ] || continue # the right half of a single-length key
    key="$(xor "${master:0:16}" "$vector")$(xor "${master:16:16}" "$vector")$(xor "${master:32:16}" "$vector")"
    part="$(bytes "$sealed" | openssl enc -d -des-ede3 -nopad -K "$key" | digits)"
    echo "$half half: control vector $vector"
    echo "  the thirds of the master key, each XORed with it: ${key:0:16} ${key:16:16} ${key:32:16}"
    echo "  triple DES takes $sealed to $part"
    clear+="$part"
done
[ "${#clear}" = 16 ] && key="$clear$clear$clear" || key="$clear${clear:0:16}"
echo "key check value, of eight zero bytes: $(bytes 0000000000000000 | openssl enc -des-ede3 -nopad -K "$key" | head -c 4 | digits)"
