#!/bin/sh
# Counts the instructions of CRC-32 by pt_sum, by the same loop in C by gcc, and by zlib, in one run; prints one table. Ends with status 1
# where pt_sum takes more than 1.05 times gcc's. Needs rt, and what `tests/install.sh bench` installs. The programs are built in a folder of
# their own that goes at the end.
set -eu
here=$(cd "$(dirname "$0")" && pwd)
work=$(mktemp -d)
trap 'rm -rf "$work"' EXIT INT TERM

mkdir -p "$work/crates/bench_crc/src" "$work/crates/pt_sum"
for part in src specs proofs; do
    cp -r "$here/../crates/pt_sum/$part" "$work/crates/pt_sum/"
done
cp "$here/crc/main.rt.in" "$work/crates/bench_crc/src/main.rt"
printf 'pt_sum:\nbench_crc: pt_sum\n' > "$work/crates.txt"
printf 'Handles allowed: none.\n' > "$work/HANDLES"

cd "$work/crates/bench_crc"
rt run > "$work/build.log" 2>&1 || { cat "$work/build.log"; exit 1; }
gcc -O2 -o "$work/loop" "$here/crc/loop.c" -lz
python3 "$here/crc/compare.py" "$work/crates/bench_crc/out/bench_crc" "$work/loop" "$work"
