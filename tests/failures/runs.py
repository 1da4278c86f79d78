#!/usr/bin/env python3
"""What follows a plan of which a call failed: a repair, or another name, of which each call fails in turn too; and sessions of three
names. The program test_faults tries them on disks in memory, in parts on all processors.

usage: tests/failures/runs.py FAULTS
"""
import os
import re
import subprocess
import sys
from concurrent.futures import ThreadPoolExecutor

# the calls of each plan
CALLS = {"name": 71, "logical": 5, "label": 2, "conversion": 69}
TOGETHER = 4


def parts():
    for what in ("repair", "rename"):
        for kind, calls in CALLS.items():
            for first in range(1, calls + 1, TOGETHER):
                yield what, kind, str(first), str(min(first + TOGETHER - 1, calls))
    for first in range(1, 9):
        yield "session", str(first), "8"


def tried(program, words):
    """How many stops a part has; all disks were as they may be."""
    done = subprocess.run([program, *words], capture_output=True, text=True)
    found = re.fullmatch(rf"{words[0]}: ([0-9]+) stops\n", done.stdout)
    if done.returncode != 0 or not found:
        sys.exit(f"runs {' '.join(words)}: status {done.returncode}, {done.stdout}{done.stderr}")
    return int(found[1])


def main():
    program = os.path.abspath(sys.argv[1])
    with ThreadPoolExecutor(os.cpu_count()) as pool:
        counts = list(pool.map(lambda words: tried(program, words), parts()))
    print(f"runs with two faults: {sum(counts)} passed, 0 failed")


main()
