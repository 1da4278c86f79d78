#!/usr/bin/env python3
"""Shows, verifies, renames and repairs the same images with ptab and with sgdisk, sfdisk, parted and cgpt, in one run; prints one table.

usage: bench/tools.py PTAB

Instructions are callgrind's, in millions. Sectors read, writes and syncs are those of system calls on the image, as strace sees
them: sectors are bytes read by 512, a write of any length is one. It ends with status 1 where a bound below doesn't hold.
"""
import os
import subprocess
import sys
import tempfile

from disks import CHAIN, FULL, LARGE, LOGICALS, MAKE, ONE, TIGHT, damage
from measure import measure

# At most so many times the instructions of the other tool.
TIMES = [
    (ONE, "rename", "cgpt", 0.7), (FULL, "rename", "cgpt", 0.55), (TIGHT, "rename", "sfdisk", 0.4),
    (ONE, "repair", "cgpt", 1.4), (FULL, "repair", "cgpt", 0.7),
    *((image, job, "sfdisk", 1) for image in (ONE, FULL, TIGHT, CHAIN, LARGE) for job in ("show", "verify")),
]
# At most so many million instructions.
MILLIONS = [(FULL, "verify", 0.48), (TIGHT, "verify", 0.48)]
# What a GPT on a disk of 1 TiB may cost, by what it costs on one of 64 MiB.
LARGE_BY_ONE = 1.05
# The sectors that decide the answer: sector 0, a header and its array, and for all but show the other side too.
SECTORS = {"show": 34, "verify": 67, "rename": 67}
SYNCS = 5
# What a rename with the primary copy kept may cost, by what it costs without; it has as many syncs.
KEPT, KEPT_BY_TABLE = "ptab -k", 1.03


def jobs(ptab, image, title):
    """The calls of each job, by tool."""
    shows = {
        "ptab": [ptab, "show", image],
        "sgdisk": ["sgdisk", "-p", image],
        "sfdisk": ["sfdisk", "-d", image],
        "parted": ["parted", "-s", "-m", image, "unit", "s", "print"],
        "cgpt": ["cgpt", "show", "-q", image],
    }
    verifies = {
        "ptab": [ptab, "verify", image],
        "sgdisk": ["sgdisk", "-v", image],
        "sfdisk": ["sfdisk", "-V", image],
    }
    renames = {
        "ptab": [ptab, "edit", image, "c:1:renamed"],
        KEPT: [ptab, "edit", "--keep-primary", image, "c:1:renamed"],
        "sgdisk": ["sgdisk", "-c", "1:renamed", image],
        "sfdisk": ["sfdisk", "-q", "--part-label", image, "1", "renamed"],
        "parted": ["parted", "-s", image, "name", "1", "renamed"],
        "cgpt": ["cgpt", "add", "-i", "1", "-l", "renamed", image],
    }
    if title == CHAIN:
        return {"show": {it: shows[it] for it in ("ptab", "sfdisk", "parted")}, "verify": {it: verifies[it] for it in ("ptab", "sfdisk")}}
    repairs = {"ptab": [ptab, "repair", image], "cgpt": ["cgpt", "repair", image]}
    return {"show": shows, "verify": verifies, "rename": renames, "repair": repairs}


def table(ptab, folder):
    """What each job cost each tool, printed as it comes."""
    print(f"{'image':31} {'job':7} {'tool':7} {'M instr':>8} {'sectors':>8} {'writes':>7} {'syncs':>6}")
    found = {}
    kept, image = f"{folder}/kept.img", f"{folder}/image.img"
    for title, make in MAKE.items():
        make(ptab, kept)
        if subprocess.run([ptab, "verify", kept], capture_output=True).returncode != 0:
            sys.exit(f"{title}: not healthy")
        for job, tools in jobs(ptab, image, title).items():
            if job == "repair":
                damage(kept)
            for tool, words in tools.items():
                cost = found[(title, job, tool)] = measure(words, image, kept, folder)
                print(f"{title:31} {job:7} {tool:7} {cost['instructions'] / 1e6:8.2f} {cost['sectors']:8} {cost['writes']:7} "
                      f"{cost['syncs']:6}", flush=True)
        os.remove(kept)
    return found


def faults(found):
    """The bounds that don't hold."""
    many = {at: cost["instructions"] for at, cost in found.items()}
    for title, job, tool, times in TIMES:
        by = many[(title, job, "ptab")] / many[(title, job, tool)]
        if by > times:
            yield f"{title}: {job} takes {by:.2f} of {tool}'s instructions, more than {times}"
    for title, job, most in MILLIONS:
        if many[(title, job, "ptab")] > most * 1e6:
            yield f"{title}: {job} takes {many[(title, job, 'ptab')] / 1e6:.3f} million instructions, more than {most}"
    for (title, job, tool), cost in found.items():
        if tool == KEPT:
            other = found[(title, job, "ptab")]
            if cost["instructions"] > KEPT_BY_TABLE * other["instructions"] or cost["syncs"] != other["syncs"]:
                yield f"{title}: {job} with the primary kept costs more than {KEPT_BY_TABLE} of the other, or syncs otherwise"
        if tool not in ("ptab", KEPT):
            continue
        most = 1 + LOGICALS if title == CHAIN else SECTORS.get(job)
        if most and cost["sectors"] > most:
            yield f"{title}: {job} reads {cost['sectors']} sectors, more than {most}"
        if cost["syncs"] > SYNCS:
            yield f"{title}: {job} syncs {cost['syncs']} times, more than {SYNCS}"
        if title == LARGE and many[(title, job, tool)] > LARGE_BY_ONE * many[(ONE, job, tool)]:
            yield f"{title}: {job} costs more than on 64 MiB"


def main():
    with tempfile.TemporaryDirectory() as folder:
        wrong = list(faults(table(os.path.abspath(sys.argv[1]), folder)))
    print("\n".join(wrong) if wrong else "each bound beside the other tools holds")
    sys.exit(1 if wrong else 0)


main()
