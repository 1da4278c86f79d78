#!/usr/bin/env python3
"""`ptab adopt`: an image takes the table of another one, as a healthy table, or stays as it is and the reason is told. What is taken is
compared by `show`, what stays byte by byte.

usage: tests/rows/adopt.py PTAB
"""
import os
import sys
import zlib

sys.path.insert(0, os.path.join(os.path.dirname(os.path.abspath(__file__)), "..", "shared"))
import compared
import images
from command import Command
from compared import same
from images import FREEBSD, LARGE, SMALL, array_of, ebr, entry, guid, label, record
from plans import phases_of, sectors_of, spelled

COUNT = 300


class Pair:
    """An image, and another one whose table is to be taken."""

    def __init__(self, ptab, folder, sectors, image, other):
        self.image = Command(ptab, os.path.join(folder, "image"), sectors).on(image)
        self.other = Command(ptab, os.path.join(folder, "other"), sectors).on(other)

    def adopt(self, *words):
        return self.image.run("adopt", self.other.path, *words)


def kinds(sectors):
    """(what it is, an image of it) of tables that are healthy."""
    first = sectors.array + 2
    two = {1: entry(first, first + 9, name="data"), 3: entry(first + 20, first + 120, "21686148-6449-6E6F-744E-656564454649", guid(3), 4)}
    yield "a GPT", sectors.gpt(COUNT, two)
    yield "another GPT", sectors.gpt(COUNT, {2: entry(first + 5, first + 60, unique=guid(2))}, disk=guid(9))
    if sectors is SMALL:
        sliced = sectors.gpt(COUNT, {1: entry(100, 200, FREEBSD)})
        sectors.put(sliced, 101, label(101, {0: (30, 16, 7)}))
        yield "a GPT with a label", sliced


def takes(make):
    """A healthy image of each kind takes the table of each other kind, and so does a blank one."""
    for sectors in (SMALL, LARGE):
        tables = list(kinds(sectors))
        for what, image in (*tables, ("a blank image", sectors.zeros(COUNT))):
            for other_is, other in tables:
                told = f"{what} takes {other_is}"
                pair = make(sectors, image, other)
                plan = pair.adopt("--plan")
                same(f"{told}: nothing is written by --plan", pair.image.image(), bytes(image))
                if plan[2]:
                    same(f"{told}: refused alike", pair.adopt(), plan)
                    same(f"{told}: nothing is written", pair.image.image(), bytes(image))
                    same(f"{told}: why", plan[1] in ("refused: plan 1\n", "refused: plan 2\n"), True)
                    continue
                same(told, pair.adopt(), ("done\n", "", 0))
                same(f"{told}: as it is shown", pair.image.run("show"), pair.other.run("show"))
                same(f"{told}: healthy", pair.image.run("verify"), ("yes\n", "", 0))
                same(f"{told}: the other is only read", pair.other.image(), bytes(other))
                left, taken = pair.image.image(), make(sectors, image, other)
                same(f"{told}: by its plan", applied(taken, plan[0]), left)
                same(f"{told}: once more", (pair.adopt(), pair.image.image()), (("done\n", "", 0), left))
                by_table = make(sectors, image, other)
                same(f"{told} by the table", by_table.adopt("--by-table"), ("done\n", "", 0))
                same(f"{told} by the table: the same table", by_table.image.image(), left)


def applied(pair, plan):
    """The image once this plan's text was applied to it."""
    path = f"{pair.image.path}.plan"
    with open(path, "w", encoding="ascii") as it:
        it.write(plan)
    same("the plan is applied", pair.image.run("apply", path), ("done\n", "", 0))
    return pair.image.image()


def either_way(make):
    """The primary copy is kept, but for --by-table: the sectors of each phase, and what stands in sector 1 meanwhile."""
    for sectors in (SMALL, LARGE):
        array, first = sectors.array, sectors.array + 2
        entries = {1: entry(first, first + 9, name="other")}
        other = sectors.gpt(COUNT, entries)
        pair = make(sectors, sectors.gpt(COUNT, {1: entry(first, first + 9)}), other)
        last = f"{COUNT - array - 1}-{COUNT - 1}"
        wanted = sectors.header(my=1, alternate=COUNT - 1, first=first, last=COUNT - first, array=COUNT - array - 1,
                                array_crc=zlib.crc32(array_of(entries)))
        for words, meanwhile in (((), wanted), (("--by-table",), bytes(sectors.size))):
            phases = phases_of(pair.adopt("--plan", *words)[0], sectors.size)
            same(f"the phases {words}", spelled(sectors_of(phases)), f"{last} | 1 | 2-{array + 1} | 1")
            same(f"sector 1 meanwhile {words}", phases[1][0][1], meanwhile)
        blank = make(sectors, sectors.zeros(COUNT), other)
        for words, first_phase in (((), ""), (("--by-table",), "1 | ")):
            phases = phases_of(blank.adopt("--plan", *words)[0], sectors.size)
            same(f"the phases on a blank image {words}", spelled(sectors_of(phases)), f"{first_phase}2-{array + 1} | 1 | {last} | 0")


def refuses(make):
    """What isn't taken, and what is told then; the image stays byte for byte."""
    gpt = SMALL.gpt(COUNT, {1: entry(40, 200)})
    broken = bytearray(gpt)
    for lba in (1, COUNT - 1):
        SMALL.put(broken, lba, bytes(512))
    overlapping = SMALL.gpt(COUNT, {1: entry(40, 200), 2: entry(100, 250, unique=guid(2))})
    for what, image, other, answer in (
            ("a longer one", gpt, SMALL.gpt(COUNT + 1, {}), ("", "refused: other size\n", 3)),
            ("no table", gpt, broken, ("", "other: no table: copies 1 1\n", 4)),
            ("an MBR whose chain begins in an old partition", gpt, chained(SMALL, 60), ("", "refused: plan 2\n", 3)),
            ("an MBR whose chain begins in an old copy", gpt, chained(SMALL, 10), ("", "refused: plan 1\n", 3)),
            ("a table that isn't sound", gpt, overlapping, ("", "refused: plan 4\n", 3))):
        pair = make(SMALL, image, other)
        for words in ((), ("--plan",), ("--no-lock",)):
            same(f"{what} isn't taken", pair.adopt(*words), answer)
            same(f"the image after {what}", pair.image.image(), bytes(image))
    pair = make(SMALL, gpt, gpt)
    os.remove(pair.other.path)
    same("no other image", pair.adopt(), ("", "other: device\n", 5))
    same("a folder", pair.image.run("adopt", os.path.dirname(pair.other.path)), ("", "other: device\n", 5))
    same("one image alone", pair.image.run("adopt")[2], 2)
    same("itself", (pair.image.run("adopt", pair.image.path), pair.image.image()), (("done\n", "", 0), bytes(gpt)))
    missing = make(SMALL, gpt, gpt)
    os.remove(missing.image.path)
    same("no image", missing.adopt(), ("", "device\n", 5))


def mbrs(make):
    """An MBR takes what one write of sector 0 makes of it."""
    old = SMALL.mbr(COUNT, [record(0x83, 40, 100)])
    new = SMALL.mbr(COUNT, [record(0x83, 40, 100), record(0x07, 150, 50, 0x80)])
    pair = make(SMALL, old, new)
    same("an MBR", pair.adopt(), ("done\n", "", 0))
    same("the MBR", pair.image.run("show"), (f"mbr {COUNT}\n1 40 139 83 00\n2 150 199 07 80\n", "", 0))


def chained(sectors, first):
    """An MBR with an extended partition from this sector on, and a logical one in it."""
    image = sectors.mbr(COUNT, [record(0x83, first + 100, 20), record(0x05, first, 50)])
    sectors.put(image, first, ebr(record(0x83, 4, 20)))
    return image


def new_mbrs(make):
    """An MBR where the image has a GPT, or no table: its chain first, then sector 0, then zeros where headers of the GPT stood."""
    for sectors in (SMALL, LARGE):
        gpt = sectors.gpt(COUNT, {1: entry(250, 260)})
        blank, boot = sectors.zeros(COUNT), bytearray(gpt)
        boot[:446] = bytes(range(1, 224)) * 2
        plain, chain = sectors.mbr(COUNT, [record(0x83, 100, 20)]), chained(sectors, 80)
        last = sectors.mbr(COUNT, [record(0x83, 100, COUNT - 100)])
        first = sectors.mbr(COUNT, [record(0x83, 1, 20)])
        for what, image, other, phases in (
                ("on a blank image", blank, plain, "0"), ("with a chain on a blank image", blank, chain, "80 | 0"),
                ("without partitions on a blank image", blank, sectors.mbr(COUNT, []), "0"),
                ("in place of a GPT", gpt, plain, f"0 | 1 | {COUNT - 1}"),
                ("with a chain in place of a GPT", gpt, chain, f"80 | 0 | 1 | {COUNT - 1}"),
                ("with boot code in place of a GPT", boot, plain, f"0 | 1 | {COUNT - 1}"),
                ("up to the last sector", sectors.gpt(COUNT, {}), last, "0 | 1"), ("from sector 1 on", gpt, first, f"0 | {COUNT - 1}")):
            told = f"an MBR {what}, {sectors.size}"
            pair = make(sectors, image, other)
            plan = pair.adopt("--plan")
            same(f"{told}: the phases", spelled(sectors_of(phases_of(plan[0], sectors.size))), phases)
            same(f"{told}: by the table", pair.adopt("--by-table"), ("", "refused: plan 1\n", 3))
            same(f"{told}: nothing is written", pair.image.image(), bytes(image))
            same(told, pair.adopt(), ("done\n", "", 0))
            same(f"{told}: as it is shown", pair.image.run("show"), pair.other.run("show"))
            same(f"{told}: healthy", pair.image.run("verify"), ("yes\n", "", 0))
            left = pair.image.image()
            same(f"{told}: the boot code", left[:446], bytes(image[:446]))
            for lba in (1, COUNT - 1):
                if f" {lba} " in f" {phases} ":
                    same(f"{told}: sector {lba}", left[lba * sectors.size:(lba + 1) * sectors.size], bytes(sectors.size))
            same(f"{told}: once more", (pair.adopt(), pair.image.image()), (("done\n", "", 0), left))
            same(f"{told}: by its plan", applied(make(sectors, image, other), plan[0]), left)


def main():
    if len(sys.argv) != 2:
        sys.exit("usage: tests/rows/adopt.py PTAB")
    with images.room() as folder:
        def make(*words):
            return Pair(os.path.abspath(sys.argv[1]), folder, *words)
        takes(make)
        refuses(make)
        mbrs(make)
        new_mbrs(make)
        either_way(make)
    print(f"adopt: {compared.count} passed, 0 failed")


main()
