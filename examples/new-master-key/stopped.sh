#!/usr/bin/env bash
# A change of the master key in which re-enciphering is stopped by `kill -9`, and run again. It works in a folder of its own,
# with 200 keys under labels, and says after each step how many of them are as before, and how many are still under the old
# master key.
set -euo pipefail
top="$(cd "$(dirname "$0")/../.." && pwd)"
"$top/tools/build/run"
cca="$top/crates/cca/out/cca" # the program itself, so that it is what is killed, and not the script of that name
scratch="$(mktemp -d)"
trap 'rm -rf "$scratch"' EXIT
cd "$scratch"

# Enters a master key in two parts, the second of them zero, and sets it.
set_master_key() { # the first part
    printf 'CSNBMKP role=DEFAULT action=%s\n' "FIRST part=$1" "LAST part=$(printf '%048d' 0)" SET | "$cca" run >replies
    [ "$(tail -n 1 replies)" = "OK new=empty" ]
}

# Looks what became of the keys: each has its key check value, with a warning while it is under the old master key.
look() {
    "$cca" run <tests >now
    sed 's/ warn=old$//' now | cmp -s - values || { echo "a key was lost"; exit 1; }
    old="$(grep -c ' warn=old$' now || true)"
}

say() { # what happened
    look
    echo "$1: 200 keys as before, $old of them under the old master key"
}

for key in $(seq -w 200); do
    echo "CSNBKRC role=DEFAULT label=KEY.$key"
    echo "CSNBCKI role=DEFAULT clear=0123456789abc$key to=L:KEY.$key"
done >keys
seq -w 200 | sed 's/.*/CSNBKYT role=DEFAULT key=L:KEY.&/' >tests
echo "REENCIPHER role=DEFAULT" >renewal

set_master_key 0102030405060708090a0b0c0d0e0f101112131415161718
"$cca" run <keys >made
"$cca" run <tests >values
[ "$(grep -c '^OK value=' values)" = 200 ]
set_master_key ffffffffffffffffffffffffffffffffffffffffffffffff
say "a new master key"

# A whole run over copies of the files tells how long it takes here; the real one is killed after half of that.
mkdir copies
cp cca.module cca.store copies/
begun="$(date +%s%N)"
(cd copies && "$cca" run <../renewal >reply)
half="$((($(date +%s%N) - begun) / 2000))"
"$cca" run <renewal >reply &
sleep "$((half / 1000000)).$(printf '%06d' $((half % 1000000)))"
kill -9 $! 2>/dev/null || true
wait $! 2>/dev/null || true
say "REENCIPHER, killed"
say "REENCIPHER again, $("$cca" run <renewal)"
say "REENCIPHER once more, $("$cca" run <renewal)"
