#!/usr/bin/env python3
"""Verifies and renames healthy GPTs of 1 and of 128 partitions with ptab and with a program in C that does nothing but what the job needs
(bench/floor.c: it reads the same 67 sectors, sums by zlib, compares both copies, and writes the same 67); prints one table.

usage: bench/floor.py PTAB

Both programs answer alike, and leave images with the same entries. Instructions are callgrind's, in millions. It ends with status 1 where
a bound below doesn't hold.
"""
import os
import subprocess
import sys
import tempfile

from disks import FULL, MAKE, ONE
from measure import measure

HERE = os.path.dirname(os.path.abspath(__file__))
NAME = "renamed"
# At most so many times the instructions of the program in C.
TIMES = {(ONE, "verify"): 1.0, (FULL, "verify"): 1.0, (FULL, "rename"): 2.2}
ANSWERS = {"verify": "yes\n", "rename": "done\n"}


def built(folder):
    """The program in C, linked as such programs are."""
    path = f"{folder}/floor"
    subprocess.run(["gcc", "-O2", "-Wall", "-Wextra", "-Werror", f"{HERE}/floor.c", "-lz", "-o", path], check=True)
    return path


def sectors_of(path):
    """The array of the primary copy, and that of the backup."""
    with open(path, "rb") as it:
        image = it.read()
    return image[1024:1024 + 16384], image[-33 * 512:-512]


def jobs(ptab, floor, image):
    """Each job, with the calls of both programs."""
    return {"verify": ([ptab, "verify", image], [floor, "verify", image]),
            "rename": ([ptab, "edit", image, f"c:1:{NAME}"], [floor, "rename", image, NAME])}


def compared(title, job, words, image, kept, folder):
    """What each of both programs takes; both answer what is to be answered, and leave the same entries."""
    costs, left = [], []
    for line in words:
        costs.append(measure(line, image, kept, folder))
        subprocess.run(["cp", "--sparse=always", kept, image], check=True)
        said = subprocess.run(line, capture_output=True, text=True).stdout
        if said != ANSWERS[job]:
            sys.exit(f"{title}: {line} says {said!r}")
        left.append(sectors_of(image))
    if left[0] != left[1] or left[0][0] != left[0][1] or (NAME.encode("utf-16-le") in left[0][0]) != (job == "rename"):
        sys.exit(f"{title}: {job} leaves other entries than the program in C")
    return costs


def main():
    ptab, over = os.path.abspath(sys.argv[1]), []
    print(f"{'image':31} {'job':7} {'ptab':>8} {'in C':>8} {'times':>6} {'at most':>8}")
    with tempfile.TemporaryDirectory() as folder:
        kept, image, floor = f"{folder}/kept.img", f"{folder}/image.img", built(folder)
        for title in (ONE, FULL):
            MAKE[title](ptab, kept)
            for job, words in jobs(ptab, floor, image).items():
                ours, theirs = compared(title, job, words, image, kept, folder)
                times, most = ours["instructions"] / theirs["instructions"], TIMES.get((title, job))
                print(f"{title:31} {job:7} {ours['instructions'] / 1e6:8.3f} {theirs['instructions'] / 1e6:8.3f} {times:6.2f} "
                      f"{most or '':>8}", flush=True)
                if any(ours[it] != theirs[it] for it in ("sectors", "writes", "syncs")):
                    over.append(f"{title}: {job} has other calls on the image than the program in C")
                if most and times > most:
                    over.append(f"{title}: {job} takes {times:.2f} times the program in C, more than {most}")
    print("\n".join(over) if over else "each bound beside the program in C holds")
    sys.exit(1 if over else 0)


main()
