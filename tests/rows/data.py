#!/usr/bin/env python3
"""`ptab adopt --data`: sectors of the other image come with its table; or nothing is written, and the reason is told. What comes is
compared byte by byte. The writes and syncs are taken down by strace: the sectors stand before the first write of the table, and each image
that a stop leaves has the old table, or the new one and all of the data.

usage: tests/rows/data.py PTAB
"""
import os
import random
import subprocess
import sys

sys.path.insert(0, os.path.join(os.path.dirname(os.path.abspath(__file__)), "..", "shared"))
import compared
import images
from command import LONG_AGO, Command
from compared import same
from images import LARGE, SMALL, ebr, entry, guid, record
from writes import choices, recorded, written

COUNT, MOST = 300, 8 * 1024 * 1024


class Pair:
    """An image, another one whose table and data are to be taken, and the file of the data's runs."""

    def __init__(self, ptab, folder, sectors, image, other):
        self.image = Command(ptab, os.path.join(folder, "image"), sectors).on(image)
        self.other = Command(ptab, os.path.join(folder, "other"), sectors).on(other)
        self.runs, self.before = os.path.join(folder, "runs"), bytes(image)

    def file(self, text):
        with open(self.runs, "wb") as it:
            it.write(text if isinstance(text, bytes) else text.encode("utf-8"))
        return self.runs

    def adopt(self, text, *words):
        return self.image.run("adopt", self.other.path, "--data", self.file(text), *words)

    def refuses(self, what, text, answer, *words):
        """The answer, and the image isn't written to: not even with the bytes that are there."""
        os.utime(self.image.path, ns=(LONG_AGO, LONG_AGO))
        found = self.adopt(text, *words)
        same(what, (found, self.image.image() == self.before, os.stat(self.image.path).st_mtime_ns), (answer, True, LONG_AGO))


def lines(*runs):
    return "".join(f"{first} {last}\n" for first, last in runs)


def filled(sectors, image, *runs):
    """The image with other bytes in each sector of these runs."""
    image = bytearray(image)
    for first, last in runs:
        for lba in range(first, last + 1):
            sectors.put(image, lba, lba.to_bytes(2, "little") * (sectors.size // 2))
    return image


def sector(image, sectors, lba):
    return bytes(image[lba * sectors.size:(lba + 1) * sectors.size])


def tables(sectors):
    """(what it is, the old image, one with a partition from 150 to 199 besides) of each kind of table."""
    old, new = {1: entry(50, 99)}, {1: entry(50, 99), 2: entry(150, 199, unique=guid(2))}
    yield "a GPT", sectors.gpt(COUNT, old), sectors.gpt(COUNT, new)
    yield "an MBR", sectors.mbr(COUNT, [record(0x83, 50, 50)]), sectors.mbr(COUNT, [record(0x83, 50, 50), record(0x83, 150, 50)])
    yield "a GPT on a blank image", sectors.zeros(COUNT), sectors.gpt(COUNT, new)
    yield "an MBR on a blank image", sectors.zeros(COUNT), sectors.mbr(COUNT, [record(0x83, 150, 50)])
    yield "an MBR in place of a GPT", sectors.gpt(COUNT, old), sectors.mbr(COUNT, [record(0x83, 150, 50)])
    yield "a GPT in place of an MBR", sectors.mbr(COUNT, [record(0x83, 50, 50)]), sectors.gpt(COUNT, new)


def comes(make):
    """The table comes with the sectors of the runs, and with no others; without a run, with none."""
    runs = ((150, 160), (199, 199), (120, 121), (155, 158))
    for sectors in (SMALL, LARGE):
        for what, image, other in tables(sectors):
            other = filled(sectors, other, (100, 249))
            for options in ((), ("--by-table",)):
                told = f"{what}, sectors of {sectors.size} {' '.join(options)}"
                pair = make(sectors, image, other)
                alone = pair.image.run("adopt", pair.other.path, *options)
                left = bytearray(pair.image.image())
                pair = make(sectors, image, other)
                if alone[2]:
                    pair.refuses(f"{told}: refused as without data", lines(*runs), alone, *options)
                    continue
                same(told, pair.adopt(lines(*runs), *options), ("done\n", "", 0))
                same(f"{told}: healthy", pair.image.run("verify"), ("yes\n", "", 0))
                same(f"{told}: as it is shown", pair.image.run("show"), pair.other.run("show"))
                for first, last in runs:
                    for lba in range(first, last + 1):
                        sectors.put(left, lba, sector(other, sectors, lba))
                same(f"{told}: these sectors and the table alone", pair.image.image(), bytes(left))
                same(f"{told}: the other is only read", pair.other.image(), bytes(other))
                same(f"{told}: once more, its sectors are owned", pair.adopt(lines(*runs))[1], "refused: data owned 150\n")
                same(f"{told}: without a run", pair.adopt(""), ("done\n", "", 0))
                same(f"{told}: the same image", pair.image.image(), bytes(left))


def from_standard_input(make):
    pair = make(SMALL, SMALL.zeros(COUNT), filled(SMALL, SMALL.gpt(COUNT, {1: entry(50, 99)}), (50, 99)))
    line = [pair.image.ptab, "adopt", "--data", "-", pair.image.path, pair.other.path]
    done = subprocess.run(line, input=b"50 50\n", capture_output=True)
    same("runs from standard input", (done.stdout, done.stderr, done.returncode), (b"done\n", b"", 0))
    same("the sector", sector(pair.image.image(), SMALL, 50), sector(pair.other.image(), SMALL, 50))
    same("the next one", sector(pair.image.image(), SMALL, 51), bytes(512))


def refuses(make):
    """Each reason why a sector isn't carried: of the first of the runs that isn't, and the first reason that holds."""
    gpt, other = SMALL.gpt(COUNT, {1: entry(50, 99)}), SMALL.gpt(COUNT, {1: entry(50, 99), 2: entry(150, 199, unique=guid(2))})
    blank, mbr = SMALL.zeros(COUNT), SMALL.mbr(COUNT, [record(0x83, 150, 20)])
    chained = SMALL.mbr(COUNT, [record(0x05, 200, 50)])
    SMALL.put(chained, 200, ebr(record(0x83, 4, 20)))
    for image, taken, runs, why in (
            (gpt, other, ((150, COUNT),), f"table {COUNT - 33}"), (gpt, other, ((150, 199), (COUNT, COUNT + 9)), f"outside {COUNT}"),
            (gpt, other, ((2 ** 63 - 1, 2 ** 63 - 1),), f"outside {2 ** 63 - 1}"),
            (gpt, other, ((49, 60),), "owned 50"), (gpt, other, ((150, 199), (99, 100)), "owned 99"),
            (gpt, other, ((99, 99), (400, 400)), "owned 99"), (gpt, other, ((400, 400), (99, 99)), "outside 400"),
            (gpt, other, ((0, 0),), "table 0"), (gpt, other, ((33, 40),), "table 33"), (gpt, other, ((1, 1),), "table 1"),
            (gpt, other, ((260, COUNT - 1),), f"table {COUNT - 33}"), (blank, other, ((34, 40), (20, 21)), "new-table 20"),
            (blank, mbr, ((0, 1),), "new-table 0"), (blank, mbr, ((1, 2),), "read 1"),
            (blank, mbr, ((150, COUNT - 1),), f"read {COUNT - 1}"), (blank, chained, ((199, 204),), "new-table 200"),
            (chained, blank, ((199, 204),), None)):
        pair = make(SMALL, image, taken)
        for words in ((), ("--by-table",), ("--no-lock",)):
            answer = ("", f"refused: data {why}\n", 3) if why else ("", "other: no table: copies 1 1\n", 4)
            if why and pair.image.run("adopt", pair.other.path, "--plan", *words[:1] * (words[:1] == ("--by-table",)))[2]:
                continue
            pair.refuses(f"data {runs} {why} {words}", lines(*runs), answer, *words)
    pair = make(SMALL, gpt, SMALL.gpt(COUNT + 1, {}))
    pair.refuses("another size", lines((150, 160)), ("", "refused: other size\n", 3))


BAD = (("1\n", 1), ("\n", 1), ("1 2", 1), ("1 2\n3 4", 2), ("1 2\n\n", 2), ("a b\n", 1), ("2 1\n", 1), ("+1 2\n", 1), ("1 +2\n", 1),
       ("01 2\n", 1), ("1 02\n", 1), ("1  2\n", 1), (" 1 2\n", 1), ("1 2 \n", 1), ("1 2 3\n", 1), ("1\t2\n", 1), ("1 2\r\n", 1),
       ("-1 2\n", 1), ("1 0x2\n", 1), (f"1 {2 ** 64}\n", 1), (f"1 {2 ** 63}\n", 1),
       ("120 121\n" * 5 + "x\n" + "y\n", 6), ("120 121\n1 2\u00b2\n", 2))


def bad_files(make):
    """Files that aren't runs, which are read before an image is opened."""
    gpt = SMALL.gpt(COUNT, {1: entry(50, 99)})
    pair = make(SMALL, gpt, SMALL.gpt(COUNT, {1: entry(50, 99), 2: entry(150, 199, unique=guid(2))}))
    for text, number in BAD:
        pair.refuses(f"bad data {text!r}", text, ("", f"bad data {number}\n", 2))
    pair.refuses("no text", b"1 2\n\xff\n", ("", "data: not text\n", 2))
    pair.refuses("too long", b"120 121\n" * (MOST // 8) + b"1", ("", "data: too long\n", 2))
    same("8 MiB", pair.adopt(b"120 121\n" * 1000), ("done\n", "", 0))
    pair = make(SMALL, gpt, gpt)
    for path in (f"{pair.runs}.missing", os.path.dirname(pair.runs), ""):
        found = pair.image.run("adopt", pair.other.path, "--data", path)
        same(f"runs in {path or 'nothing'}", (found, pair.image.image()), (("", "data: device\n", 5), bytes(gpt)))
    os.remove(pair.other.path)
    same("before the images are opened", pair.adopt("x\n"), ("", "bad data 1\n", 2))
    same("then the other one", pair.adopt("120 121\n"), ("", "other: device\n", 5))
    usage = "error: the argument '--data' cannot be used with '--plan'\n\nFor more information, try '--help'.\n"
    same("with --plan", (pair.adopt("120 121\n", "--plan"), pair.image.image()), (("", usage, 2), bytes(gpt)))
    same("without a file", pair.image.run("adopt", pair.other.path, "--data")[2], 2)
    same("twice", pair.adopt("", "--data", pair.runs)[2], 2)
    same("of another command", pair.image.run("repair", "--data", pair.runs)[2], 2)


def stops(make):
    """The data is written and synced before the table's first write; a stop leaves the old table, or the new one and all of the data."""
    runs, own = ((150, 152), (199, 199)), [150, 151, 152, 199]
    for sectors in (SMALL, LARGE):
        for what, image, other in tables(sectors):
            other = filled(sectors, other, (100, 249))
            pair = make(sectors, image, other)
            old, new = pair.image.run("show"), pair.other.run("show")
            phases = recorded(pair.image.ptab, pair.image.path, "adopt", [pair.other.path, "--data", pair.file(lines(*runs))], sectors)
            after = pair.image.image()
            same(f"{what}: a sync, the data, a sync, the commit's sync", [[lba for lba, _ in phase] for phase in phases[:3]], [[], own, []])
            same(f"{what}: no data in the table's writes", [lba for phase in phases[3:] for lba, _ in phase if lba in own], [])
            rng, before = random.Random(1), bytes(image)
            for number, phase in enumerate(phases):
                for writes in choices(rng, phase):
                    left = bytes(written(before, writes, sectors))
                    pair.image.on(left)
                    found = pair.image.run("show")
                    has = all(sector(left, sectors, lba) == sector(other, sectors, lba) for lba in own)
                    told = f"{what}: stopped in phase {number} by {[lba for lba, _ in writes]}"
                    same(f"{told}: the old table or the new one", found in ((old,) if number < 3 else (old, new)), True)
                    same(f"{told}: the data", has or found == old and number < 2, True)
                before = bytes(written(before, phase, sectors))
            same(f"{what}: all writes", before, after)


def main():
    if len(sys.argv) != 2:
        sys.exit("usage: tests/rows/data.py PTAB")
    with images.room() as folder:
        def make(*words):
            return Pair(os.path.abspath(sys.argv[1]), folder, *words)
        comes(make)
        from_standard_input(make)
        refuses(make)
        bad_files(make)
        stops(make)
    print(f"data: {compared.count} passed, 0 failed")


main()
