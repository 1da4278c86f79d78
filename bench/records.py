#!/usr/bin/env python3
"""Edits MBR disks with ptab, sfdisk and parted: the same change of the same image; prints one table.

usage: bench/records.py PTAB

Instructions are callgrind's, in millions; sectors read, writes and syncs are those of system calls on the image. parted takes a
call for each change, as it writes after each.
"""
import os
import re
import subprocess
import sys
import tempfile

from measure import measure

sys.path.insert(0, os.path.join(os.path.dirname(os.path.abspath(__file__)), "..", "tests", "shared"))
from images import SMALL, ebr, record  # noqa: E402

MIB = 1 << 20
SECTORS = 256 * MIB // 512
COUNTS = (0, 10, 40)


def blank():
    return SMALL.mbr(SECTORS, [])


def chain(count):
    """An extended partition of 200 MiB with logicals of 2 MiB less a sector, each after its boot record."""
    image = SMALL.mbr(SECTORS, [record(0x83, 2048, 2048), record(0x0F, 4096, 400000)])
    for k in range(count):
        link = record(0x05, 8192 * (k + 1), 4096) if k + 1 < count else bytes(16)
        SMALL.put(image, 4096 + 8192 * k, ebr(record(0x83, 2048, 2048), link))
    return image


def jobs(ptab, image):
    """(title, the image at first, [(tool, words, standard input)])"""
    for count in COUNTS:
        words = ["n:1:4096:+400000:0F", *(f"n:5:{8192 * (k + 1)}:+2048" for k in range(count))]
        script = "".join(["label: dos\nstart=4096,size=400000,type=f\n",
                          *(f"start={8192 * (k + 1)},size=2048,type=83\n" for k in range(count))])
        parts = [word for k in range(count) for word in ("mkpart", "logical", f"{8192 * (k + 1)}s", f"{8192 * (k + 1) + 2047}s")]
        yield f"extended with {count} logicals", blank(), [
            ("ptab", [ptab, "edit", image, *words], ""), ("sfdisk", ["sfdisk", "-q", image], script),
            ("parted", ["parted", "-s", image, "mklabel", "msdos", "mkpart", "extended", "4096s", "404095s", *parts], "")]
    for count in (1, 40):
        at = 8192 * count + 8192
        yield f"one more logical after {count}", chain(count), [
            ("ptab", [ptab, "edit", image, f"n:5:{at}:+2048"], ""),
            ("sfdisk", ["sfdisk", "-q", "--append", image], f"start={at},size=2048,type=83\n"),
            ("parted", ["parted", "-s", image, "mkpart", "logical", f"{at}s", f"{at + 2047}s"], "")]
    yield "the last of 40 logicals deleted", chain(40), [
        ("ptab", [ptab, "edit", image, "d:44"], ""), ("sfdisk", ["sfdisk", "-q", "--delete", image, "44"], ""),
        ("parted", ["parted", "-s", image, "rm", "44"], "")]
    yield "the first of 40 logicals deleted", chain(40), [
        ("ptab", [ptab, "edit", image, "d:5"], ""), ("sfdisk", ["sfdisk", "-q", "--delete", image, "5"], ""),
        ("parted", ["parted", "-s", image, "rm", "5"], "")]
    yield "a logical's type", chain(40), [
        ("ptab", [ptab, "edit", image, "t:20:82"], ""), ("sfdisk", ["sfdisk", "-q", "--part-type", image, "20", "82"], ""),
        ("parted", ["parted", "-s", image, "set", "20", "swap", "on"], "")]
    yield "a primary", SMALL.mbr(SECTORS, [record(0x83, 2048, 2048)]), [
        ("ptab", [ptab, "edit", image, "n:2:4096:+2048"], ""),
        ("sfdisk", ["sfdisk", "-q", "--append", image], "start=4096,size=2048,type=83\n"),
        ("parted", ["parted", "-s", image, "mkpart", "primary", "4096s", "6143s"], "")]
    fresh = "".join(f"{number:032x}" for number in range(1, 5))
    yield "an MBR to a GPT", SMALL.mbr(SECTORS, [record(0x83, 2048, 2048), record(0x82, 4096, 2048)]), [
        ("ptab", [ptab, "edit", image, "--fresh", fresh, "g"], ""), ("sgdisk", ["sgdisk", "-g", image], "")]


def partitions(path):
    """How many partitions sfdisk lists."""
    told = subprocess.run(["sfdisk", "-d", path], capture_output=True, text=True).stdout
    return len(re.findall(r"start= *\d+, size= *[1-9]", told))


def main():
    ptab = os.path.abspath(sys.argv[1])
    print(f"{'edit':34} {'tool':7} {'M instr':>8} {'sectors':>8} {'writes':>7} {'syncs':>6}")
    with tempfile.TemporaryDirectory() as folder:
        kept, image, script = (f"{folder}/{name}" for name in ("kept.img", "image.img", "script"))
        for title, content, tools in jobs(ptab, image):
            with open(kept, "wb") as it:
                it.write(content)
            ends = {}
            for tool, words, given in tools:
                with open(script, "w", encoding="ascii") as it:
                    it.write(given)
                cost = measure(words, image, kept, folder, script if given else None)
                ends[tool] = partitions(image)
                print(f"{title:34} {tool:7} {cost['instructions'] / 1e6:8.2f} {cost['sectors']:8} {cost['writes']:7} "
                      f"{cost['syncs']:6}", flush=True)
            if len(set(ends.values())) != 1:
                sys.exit(f"{title}: {ends}")


main()
