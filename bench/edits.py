#!/usr/bin/env python3
"""Makes GPTs with ptab, sgdisk and sfdisk, each in one call on an empty image of 256 MiB: an empty one, and ones of 10 to 120
partitions. Prints instructions (callgrind), in millions, and what one word more costs, in thousands.

usage: bench/edits.py PTAB
"""
import os
import sys
import tempfile
import uuid

from measure import instructions

SIZE = 256 << 20
COUNTS = (0, 10, 20, 40, 80, 120)


def jobs(ptab, image, count):
    """(tool, words, standard input)"""
    fresh = "".join(uuid.UUID(int=k + 1, version=4).hex for k in range(count + 1))
    ours = [f"n:{k}:{2048 * k}:+2000" for k in range(1, count + 1)]
    theirs = [word for k in range(1, count + 1) for word in ("-n", f"{k}:{2048 * k}:{2048 * k + 1999}")]
    script = "label: gpt\n" + "".join(f"start={2048 * k}, size=2000\n" for k in range(1, count + 1))
    return [
        ("ptab", [ptab, "edit", image, "--fresh", fresh, "o", *ours], ""),
        ("sgdisk", ["sgdisk", "-o", *theirs, image], ""),
        ("sfdisk", ["sfdisk", "-q", image], script),
    ]


def blank(image):
    with open(image, "wb") as it:
        it.truncate(SIZE)


def main():
    ptab = os.path.abspath(sys.argv[1])
    print(f"{'partitions':>10} {'tool':7} {'M instr':>8} {'K instr a word':>15}")
    empty = {}
    with tempfile.TemporaryDirectory() as folder:
        image, script = f"{folder}/image.img", f"{folder}/script"
        for count in COUNTS:
            for tool, words, given in jobs(ptab, image, count):
                blank(image)
                with open(script, "w", encoding="ascii") as it:
                    it.write(given)
                many = instructions(words, folder, script)
                empty.setdefault(tool, many)
                each = f"{(many - empty[tool]) / count / 1e3:15.1f}" if count else ""
                print(f"{count:10} {tool:7} {many / 1e6:8.2f} {each}", flush=True)


main()
