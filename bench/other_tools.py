#!/usr/bin/env python3
"""Renames a partition by sgdisk, alone and through tools/ptab-run; prints one table.

usage: bench/other_tools.py PTAB

Instructions are callgrind's, in millions, of all processes: of ptab-run these are Python's, sgdisk's and those of the calls of ptab. It
ends with status 1 where the bound below doesn't hold.
"""
import glob
import os
import re
import subprocess
import sys
import tempfile

from disks import FULL, MAKE, ONE
from measure import reset

ROOT = os.path.join(os.path.dirname(os.path.abspath(__file__)), "..")
# At most so many million instructions through ptab-run.
MILLIONS = 199.8


def of_all(words, folder, ptab):
    """The instructions of a program and of all that it runs: {the program: instructions}."""
    for path in glob.glob(f"{folder}/counts.*"):
        os.remove(path)
    env = {"PATH": os.environ["PATH"], "LC_ALL": "C", "PTAB": ptab}
    # (what valgrind says would stand among what the programs say)
    valgrind = ["valgrind", "--tool=callgrind", "--trace-children=yes", f"--callgrind-out-file={folder}/counts.%p", "--log-file=/dev/null"]
    done = subprocess.run([*valgrind, *words], stdin=subprocess.DEVNULL, capture_output=True, text=True, env=env)
    found = {}
    for path in glob.glob(f"{folder}/counts.*"):
        with open(path, encoding="utf-8", errors="replace") as it:
            text = it.read()
        name = os.path.basename(re.search(r"^cmd: +(\S+)", text, re.MULTILINE).group(1))
        found[name] = found.get(name, 0) + int(re.search(r"^(?:summary|totals): (\d+)", text, re.MULTILINE).group(1))
    if done.returncode != 0 or not found:
        sys.exit(f"{words}: status {done.returncode}\n{done.stderr}")
    return found


def main():
    ptab, over = os.path.abspath(sys.argv[1]), []
    print(f"{'image':31} {'by':9} {'M instr':>8}  of these")
    with tempfile.TemporaryDirectory() as folder:
        kept, image = f"{folder}/kept.img", f"{folder}/image.img"
        rename = ["sgdisk", "-c", "1:renamed"]
        for title in (ONE, FULL):
            MAKE[title](ptab, kept)
            for name, words in (("sgdisk", [*rename, image]), ("ptab-run", [f"{ROOT}/tools/ptab-run", image, *rename, "@"])):
                reset(image, kept)
                found = of_all(words, folder, ptab)
                if b"r\0e\0n\0a\0m\0e\0d\0" not in open(image, "rb").read(2048):
                    sys.exit(f"{title}: {words} renamed nothing")
                many = sum(found.values())
                parts = ", ".join(f"{it} {count / 1e6:.2f}" for it, count in sorted(found.items(), key=lambda it: -it[1]))
                print(f"{title:31} {name:9} {many / 1e6:8.2f}  {parts}", flush=True)
                if name == "ptab-run" and many > MILLIONS * 1e6:
                    over.append(f"{title}: a rename through ptab-run takes {many / 1e6:.1f} million instructions, more than {MILLIONS}")
    print("\n".join(over) if over else "the bound of ptab-run holds")
    sys.exit(1 if over else 0)


main()
