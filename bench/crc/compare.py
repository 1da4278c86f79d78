"""Counts the instructions of summing some bytes once, by pt_sum, by the same loop in C and by zlib; prints one table.

usage: bench/crc/compare.py PT_SUM LOOP FOLDER     the two programs, and a folder for what is written

A count is that of many rounds less that of one, so that nothing counts but the sums. Each sum must be that of python's zlib. It ends with
status 1 where pt_sum takes more than MOST times what gcc's loop does.
"""
import os
import random
import sys
import zlib

sys.path.insert(0, os.path.join(os.path.dirname(os.path.abspath(__file__)), ".."))
from measure import instructions, run  # noqa: E402

MOST = 1.05
ROUNDS = 11
SIZES = {92: "a header", 16384: "an array of 128 entries", 1 << 20: "1 MiB"}


def of_one_round(words, folder, content):
    """The instructions that one round of a program takes on these bytes."""
    path = f"{folder}/bytes"
    with open(path, "wb") as it:
        it.write(content)
    counts = []
    for rounds in (1, ROUNDS):
        called = [words[0], path, str(rounds), *words[1:]]
        found, expected = run(called).stdout.strip(), "%08x" % zlib.crc32(content * rounds)
        if found != expected:
            sys.exit(f"{called} prints {found}, and the sum is {expected}")
        counts.append(instructions(called, folder))
    return (counts[1] - counts[0]) / (ROUNDS - 1)


def main():
    ours, loop, folder = sys.argv[1:]
    held = True
    print(f"{'bytes':>8} {'pt_sum':>9} {'gcc -O2':>9} {'zlib':>9} {'pt_sum/gcc':>11}  instructions (zlib {zlib.ZLIB_RUNTIME_VERSION})")
    for size, what in SIZES.items():
        content = random.Random(size).randbytes(size)
        counts = [of_one_round(words, folder, content) for words in ([ours], [loop], [loop, "zlib"])]
        times = counts[0] / counts[1]
        held = held and times <= MOST
        print(f"{size:8} {counts[0]:9.0f} {counts[1]:9.0f} {counts[2]:9.0f} {times:11.3f}  {what}", flush=True)
    print(f"pt_sum takes {'at most' if held else 'more than'} {MOST} times the instructions of the same loop in C")
    sys.exit(0 if held else 1)


main()
