#!/usr/bin/env python3
"""Lists a chain of 124 logical partitions by the library for callers in C and by libfdisk, which lists the first of them, in one program
(bench/lists.c); prints one table.

usage: bench/lists.py ARCHIVE     ARCHIVE is crates/pt_c/out/libpt_c.a, by packaging/build.py pt_c

Times are those of the fastest of many runs, in microseconds, from the opening of the image to its closing. In memory they are those of
the programs. From a drive they are mostly the drive's: each extended boot record is a read of its own, and since the library drops what is
cached, libfdisk too reads from the drive there. It ends with status 1 where the bound below doesn't hold.
"""
import os
import subprocess
import sys
import tempfile

from disks import MIB, chain

ROOT = os.path.join(os.path.dirname(os.path.abspath(__file__)), "..")
LOGICALS, ROUNDS = 124, 200
# In memory: at most so much of libfdisk's time.
OF_LIBFDISK = 0.3


def built(archive, folder):
    """The program that lists by both."""
    subprocess.run([f"{ROOT}/bindings/c/build.sh", archive, folder], check=True)
    program = f"{folder}/lists"
    subprocess.run(["gcc", "-O2", "-Wall", "-Wextra", "-Werror", f"-I{ROOT}/include", f"{ROOT}/bench/lists.c", f"{folder}/libptab.a",
                    "-lfdisk", "-o", program], check=True)
    return program


def row(program, where, folder):
    """What both list, and in which time: the library's by libfdisk's."""
    image = f"{folder}/chain.img"
    chain(image, 256 * MIB, LOGICALS)
    os.sync()
    told = subprocess.run([program, image, str(ROUNDS)], capture_output=True, text=True, check=True).stdout
    (ours, took), (theirs, they_took) = (map(int, line.split()) for line in told.splitlines())
    if ours != LOGICALS + 1:
        sys.exit(f"{ours} partitions are listed")
    print(f"{where:16} {ours:10} {took / 1000:9.0f} {theirs:10} {they_took / 1000:9.0f} {took / they_took:6.2f}", flush=True)
    return took / they_took


def main():
    memory = "/dev/shm"
    with tempfile.TemporaryDirectory() as folder, tempfile.TemporaryDirectory(dir=memory) as in_memory:
        program = built(os.path.abspath(sys.argv[1]), folder)
        print(f"{'image':16} {'ptab lists':>10} {'us':>9} {'libfdisk':>10} {'us':>9} {'times':>6}")
        times = row(program, "in memory", in_memory)
        row(program, "on a drive", folder)
    held = times <= OF_LIBFDISK
    print(f"a list of {LOGICALS} logicals takes {times:.2f} of libfdisk's time, {'at most' if held else 'more than'} {OF_LIBFDISK}")
    sys.exit(0 if held else 1)


main()
