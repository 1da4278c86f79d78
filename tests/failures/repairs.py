#!/usr/bin/env python3
"""Damages GPTs in all ways that `verify` names and `repair` mends, with both sector sizes, and repairs them: the finding is told, the
partitions stay, the image is healthy and has the bytes that docs/format.md gives it, no sector but the tables' is changed, and a second
repair writes nothing. sgdisk, sfdisk, fdisk and parted find no fault in each repaired image. What a repair leaves to a choice is refused,
and then nothing is written.

usage: tests/failures/repairs.py PTAB
"""
import hashlib
import os
import subprocess
import sys
from concurrent.futures import ProcessPoolExecutor
from itertools import islice

sys.path.insert(0, os.path.join(os.path.dirname(os.path.abspath(__file__)), "..", "shared"))
import compared
import images
from compared import same
from damages import damages, large_tables, small_tables
from images import FREEBSD, LARGE, SMALL, chained, ebr, entry, guid, label, record, room
from tools import by_fdisk, by_parted, by_sfdisk, must, run

LONG_AGO = 1_000_000_000
WORKERS = os.cpu_count() or 1


class Image:
    """An image file, and the command on it."""

    def __init__(self, ptab, path, sectors):
        self.ptab, self.path, self.sectors = ptab, path, sectors

    def put(self, image):
        with open(self.path, "wb") as it:
            it.write(image)

    def bytes(self):
        with open(self.path, "rb") as it:
            return it.read()

    def run(self, command):
        done = subprocess.run([self.ptab, command, self.path, "--sector-size", str(self.sectors.size)], capture_output=True, text=True)
        return done.stdout, done.stderr, done.returncode

    def gives(self, what, command, out, err="", status=0):
        same(f"{what}: {command}", self.run(command), (out, err, status))

    def writes_nothing(self, what, out, err="", status=0):
        """A repair without one write: the time of the file's last one stays."""
        os.utime(self.path, ns=(LONG_AGO, LONG_AGO))
        before = self.bytes()
        self.gives(what, "repair", out, err, status)
        same(f"{what}: a repair that writes nothing", (os.stat(self.path).st_mtime_ns, self.bytes() == before), (LONG_AGO, True))


def accepted(it, what, lines, seen):
    """The other tools find no fault in the image, and tell its partitions; each image is asked about once. sgdisk and sfdisk take no
    file with sectors of 4096 bytes, and parted knows no table with one usable sector."""
    digest = hashlib.sha256(it.bytes()).digest()
    if digest in seen:
        return
    seen.add(digest)
    lines = [line for line in lines if "." not in line.split(" ")[0]]
    parts = [line.split(" ", 6) for line in lines[1:]]
    _, _, first, last, _ = lines[0].split(" ")
    if first != last:
        same(f"parted, {what}", [part[:3] for part in by_parted(it.path, it.sectors.size)], [tuple(words[:3]) for words in parts])
    same(f"fdisk, {what}", by_fdisk(it.path, it.sectors.size), [lines[0], *(" ".join(words[:4] + words[5:6]) for words in parts)])
    if it.sectors is SMALL:
        same(f"sgdisk -v, {what}", "No problems found" in must("sgdisk", "-v", it.path), True)
        same(f"sfdisk --verify, {what}", run("sfdisk", "--verify", it.path).returncode, 0)
        same(f"sfdisk, {what}", by_sfdisk(it.path), lines)


def mended(ptab, number, part):
    """Every damage of a table whose number is `part`, modulo the workers'. How many answers were compared."""
    gpt = [*small_tables(), *large_tables()][number]
    seen = set()
    with room() as folder:
        it = Image(ptab, f"{folder}/image", gpt.sectors)
        it.put(gpt.image())
        it.gives(gpt.name, "verify", "yes\n")
        it.writes_nothing(gpt.name, "done\n")
        shown = it.run("show")
        accepted(it, gpt.name, shown[0].splitlines(), seen)
        for damage in islice(damages(gpt), part, None, WORKERS):
            lines = shown[0].replace(f"gpt {gpt.count} ", f"gpt {gpt.sectors.count(damage.image)} ")
            it.put(damage.image)
            it.gives(damage.name, "verify", f"no {damage.finding}\n", status=1)
            it.gives(damage.name, "show", lines)
            it.gives(damage.name, "repair", "done\n")
            same(f"{damage.name}: the image repaired", it.bytes() == damage.mended, True)
            it.gives(damage.name, "verify", "yes\n")
            it.gives(damage.name, "show", lines)
            it.writes_nothing(damage.name, "done\n")
            accepted(it, damage.name, lines.splitlines(), seen)
    return compared.count


def in_turn(ptab, number):
    """One copy is lost and mended, then the other: in both orders, and the image is as it was. Where both are lost, there is no table."""
    gpt = [*small_tables()][number]
    size, copy = gpt.sectors.size, (gpt.sectors.array + 1) * gpt.sectors.size
    with room() as folder:
        it = Image(ptab, f"{folder}/image", gpt.sectors)
        for order in (("primary", "backup", "primary"), ("backup", "primary", "backup")):
            image = gpt.image()
            for side in order:
                at = size if side == "primary" else len(image) - copy
                image[at:at + copy] = bytes(copy)
                it.put(image)
                it.gives(gpt.name, "verify", f"no {'2 primary' if side == 'primary' else '3 backup'} copy 1\n", status=1)
                it.gives(gpt.name, "repair", "done\n")
                image = bytearray(it.bytes())
                same(f"{gpt.name}: copies lost in turn", image == gpt.image(), True)
        for at in (size, len(image) - copy):
            image[at:at + copy] = bytes(copy)
        it.put(image)
        it.writes_nothing(gpt.name, "", "no table: copies 1 1\n", 4)
    return compared.count


def unsound_gpts(sectors):
    """(a finding from 7 on, an image) of GPTs whose copies are whole."""
    first, last = sectors.array + 2, 200 - sectors.array - 2
    for name, entries in (
            ("7 outside 1", {1: entry(first - 1, first + 9)}), ("7 outside 1", {1: entry(100, 99)}),
            ("7 outside 2", {2: entry(100, last + 1)}),
            ("7 outside 1", {1: entry(100, 2 ** 63)}), ("7 outside 3", {1: entry(100, 110), 3: entry(1, 2 ** 64 - 1, unique=guid(3))}),
            ("8 overlap 1 2", {1: entry(100, 120), 2: entry(120, 130, unique=guid(2))}),
            ("8 overlap 2 1", {1: entry(110, 120), 2: entry(100, 130, unique=guid(2))}),
            ("10 same guid 1 2", {1: entry(100, 110), 2: entry(111, 120)})):
        yield name, sectors.gpt(200, entries)
    if sectors is SMALL:
        slices = {1: entry(100, 139, FREEBSD), 2: entry(140, 150, unique=guid(2))}
        for name, it in (("7 outside 1.a", label(40, {0: (10, 15, 7)})), ("7 outside 1.b", label(40, {1: (30, 16, 7)})),
                         ("8 overlap 1.a 1.b", label(40, {0: (10, 16, 7), 1: (10, 20, 7)})), ("11 foreign label 1", label(39, {})),
                         ("11 foreign label 1", label(40, {}, checksum=1)), ("11 foreign label 1", label(40, {}, magic2=1))):
            image = sectors.gpt(200, slices)
            sectors.put(image, 101, it)
            yield name, image


def unsound_mbrs(sectors):
    chain = {4096: ebr(link=record(0x05, 2047, 1001)), 6143: ebr(record(0x83, 1, 1000), record(0x05, 2904, 1)), 7000: ebr()}
    yield "9 on table 5 7000", chained(chain, sectors)
    yield "7 outside 1", sectors.mbr(200, [record(0x83, 100, 101)])
    yield "7 outside 1", sectors.mbr(200, [record(0x83, 2 ** 32 - 1, 2 ** 32 - 1)])
    yield "7 outside 1", sectors.mbr(200, [record(0x83, 0, 10)])
    yield "8 overlap 1 3", sectors.mbr(200, [record(0x83, 100, 20), bytes(16), record(0x07, 119, 20)])
    if sectors is SMALL:
        for name, it in (("7 outside 1.a", label(40, {0: (10, 0, 7)})), ("11 foreign label 1", label(40, {}, checksum=0x2209))):
            image = sectors.mbr(200, [record(0xA5, 100, 40)])
            sectors.put(image, 101, it)
            yield name, image


def whole_mbrs(sectors):
    yield sectors.mbr(1, [])
    yield sectors.mbr(200, [])
    yield sectors.mbr(200, [record(0x83, 100, 50, 0x80), record(0x05, 150, 50)][:1])
    yield chained({4096: ebr(link=record(0x05, 2047, 1001)), 6143: ebr(record(0x83, 1, 1000))}, sectors)
    image = sectors.mbr(200, [record(0xA5, 100, 40)])
    sectors.put(image, 101, label(40, {0: (10, 16, 7)}))
    yield image
    # the copies of a GPT under an MBR count for nothing
    image = sectors.gpt(200, {1: entry(100, 120)})
    image[446:462] = record(0x83, 50, 20)
    sectors.put(image, 199, bytes(sectors.size))
    yield image


def refused(ptab, size):
    """Findings 7 to 11, alone and beside a damage that a repair mends; disks without a table; and MBR disks, on which
    nothing is to mend."""
    sectors = SMALL if size == 512 else LARGE
    with room() as folder:
        it = Image(ptab, f"{folder}/image", sectors)
        for name, image in [*unsound_gpts(sectors), *unsound_mbrs(sectors)]:
            it.put(image)
            it.gives("", "verify", f"no {name}\n", status=1)
            it.writes_nothing(name, "", "refused: repair 2\n", 3)
        for name, image in unsound_gpts(sectors):
            for at, byte, finding in ((1, 0, "2 primary copy 1"), (199, 0, "3 backup copy 1"), (199, 33, "3 backup copy 4"), (0, 450, "")):
                damaged = bytearray(image)
                damaged[at * size + byte] ^= 1 if at else 0x11
                it.put(damaged)
                if at:
                    it.gives(name, "verify", f"no {finding}\n", status=1)
                    it.writes_nothing(f"{name} and {finding}", "", "refused: repair 2\n", 3)
                else:
                    it.writes_nothing(f"{name} without a record EE", "done\n")
        for image in whole_mbrs(sectors):
            it.put(image)
            it.gives("an MBR", "verify", "yes\n")
            it.writes_nothing("an MBR", "done\n")
        for image, why in ((b"", "too small"), (bytes(size), "too small"), (sectors.zeros(2 * sectors.array + 3), "too small"),
                           (sectors.zeros(2 * sectors.array + 4), "copies 1 1"), (sectors.zeros(200), "copies 1 1"),
                           (sectors.gpt(200, {})[:-size], "copies 8 1"),
                           (sectors.mbr(200, [record(0x05, 10, 20), record(0x0F, 40, 20)]), "two extended"),
                           (sectors.mbr(200, [record(0x05, 10, 20)]), "chain 1 10"),
                           (chained({4096: ebr(link=record(0x83, 2047, 1))}, sectors), "chain 2 4096"),
                           (chained({4096: ebr(link=record(0x05, 0, 1))}, sectors), "chain 3 4096"),
                           (chained({4096: ebr(link=record(0x05, 8192, 1))}, sectors), "chain 4 12288"),
                           (images.long_chain(129, sectors), "chain 5")):
            it.put(image)
            it.writes_nothing(why, "", f"no table: {why}\n", 4)
    return compared.count


def counted(call, *words):
    """How many answers a call compared."""
    before = compared.count
    return call(*words) - before


def main():
    ptab = os.path.abspath(sys.argv[1])
    few, all_of_them = len(list(small_tables())), len(list(small_tables())) + len(list(large_tables()))
    jobs = [(mended, ptab, number, part) for number in range(all_of_them) for part in range(WORKERS)]
    jobs += [(in_turn, ptab, number) for number in range(few)] + [(refused, ptab, size) for size in (512, 4096)]
    with ProcessPoolExecutor(WORKERS) as pool:
        done = [pool.submit(counted, *job) for job in jobs]
        print(f"repairs: {sum(it.result() for it in done)} passed, 0 failed")


main()
