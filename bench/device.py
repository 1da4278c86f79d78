#!/usr/bin/env python3
"""Verifies, renames and repairs GPTs on block devices of sectors of 4096 bytes with ptab and cgpt, in one run; prints one table.

usage: bench/device.py PTAB

The devices are loop devices, which root may make; where there are none it says so and measures nothing. Instructions are callgrind's, in
millions. It ends with status 1 where a bound below doesn't hold.
"""
import os
import subprocess
import sys
import tempfile

from measure import instructions

sys.path.insert(0, os.path.join(os.path.dirname(os.path.abspath(__file__)), "..", "tests", "shared"))
from images import LARGE, entry, guid  # noqa: E402
from loops import Loop, has_loops  # noqa: E402

SECTORS = 16384
# At most so many times cgpt's instructions.
TIMES = {(1, "rename"): 1.0, (128, "rename"): 1.0}


def gpt(count):
    """A healthy GPT of so many partitions of 400 kB."""
    return LARGE.gpt(SECTORS, {k: entry(100 * k, 100 * k + 99, unique=guid(k), name=f"part {k}") for k in range(1, count + 1)})


def without_primary(image):
    damaged = bytearray(image)
    LARGE.put(damaged, 1, bytes(LARGE.size))
    return bytes(damaged)


def jobs(ptab, device):
    """The calls of each job, by tool."""
    rename = ["cgpt", "add", "-i", "1", "-l", "renamed", device]
    return {"verify": {"ptab": [ptab, "verify", "--device", device]},
            "rename": {"ptab": [ptab, "edit", "--device", device, "c:1:renamed"], "cgpt": rename},
            "repair": {"ptab": [ptab, "repair", "--device", device], "cgpt": ["cgpt", "repair", device]}}


def names_of(device):
    """The names that sfdisk lists."""
    told = subprocess.run(["sfdisk", "-d", device], capture_output=True, text=True).stdout
    return [line.rpartition("name=")[2] for line in told.splitlines() if "name=" in line]


def costs(loop, image, job, lines, folder):
    """The instructions of a job by each tool, each on the same device, and that it is done."""
    found = {}
    for tool, words in lines.items():
        loop.put(bytes(image))
        before = names_of(loop.path)
        if job == "repair":
            loop.put(without_primary(image))
        found[tool] = instructions(words, folder)
        wanted = ['"renamed"', *before[1:]] if job == "rename" else before
        if names_of(loop.path) != wanted:
            sys.exit(f"{words}: {names_of(loop.path)}")
    return found


def main():
    ptab, over = os.path.abspath(sys.argv[1]), []
    with tempfile.TemporaryDirectory() as folder:
        if not has_loops(folder):
            print("no loop devices here, so nothing is measured on a device")
            return
        print(f"{'partitions':>10} {'job':7} {'ptab':>8} {'cgpt':>8} {'times':>6} {'at most':>8}")
        for count in (1, 128):
            image, path = gpt(count), f"{folder}/device{count}"
            with open(path, "wb") as it:
                it.write(image)
            with Loop(path, LARGE.size) as loop:
                for job, lines in jobs(ptab, loop.path).items():
                    found = costs(loop, image, job, lines, folder)
                    times, most = (found["ptab"] / found["cgpt"] if "cgpt" in found else None), TIMES.get((count, job))
                    print(f"{count:10} {job:7} {found['ptab'] / 1e6:8.3f} {found.get('cgpt', 0) / 1e6:8.3f} "
                          f"{'' if times is None else f'{times:.2f}':>6} {most or '':>8}", flush=True)
                    if most and times > most:
                        over.append(f"{count} partitions on a device: {job} takes {times:.2f} of cgpt's instructions, more than {most}")
    print("\n".join(over) if over else "each bound on devices of 4096-byte sectors holds")
    sys.exit(1 if over else 0)


main()
