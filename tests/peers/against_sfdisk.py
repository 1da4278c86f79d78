#!/usr/bin/env python3
"""MBR disks by ptab and by sfdisk, with primaries and logicals: sfdisk, fdisk and parted read what ptab made, added, deleted and
changed, partition by partition, and sfdisk finds no fault in it; what sfdisk made ptab shows alike and edits.

usage: tests/peers/against_sfdisk.py PTAB [TABLES]
"""
import os
import random
import re
import struct
import sys
import tempfile
from dataclasses import dataclass

sys.path.insert(0, os.path.join(os.path.dirname(os.path.abspath(__file__)), "..", "shared"))
import compared
from compared import same
from tools import by_fdisk, by_parted, by_sfdisk, must, over_seeds, run

KINDS = (0x83, 0x82, 0x07, 0x0B, 0x0C, 0xEF, 0x8E, 0xFD)
NO_FAULT = re.compile(r"No errors detected|omitting empty partition|Remaining \d+ unallocated|table entries are not in disk order")


@dataclass
class Part:
    first: int
    last: int
    kind: int
    boot: bool = False
    record: int = 0  # where a logical's boot record stands, which gives it its place in the chain

    def line(self, number):
        return f"{number} {self.first} {self.last} {self.kind:02X} {'80' if self.boot else '00'}"


class Table:
    """What an MBR is to hold: primaries {number: part}, the number of the extended one, and logicals in their order."""

    def __init__(self, sectors):
        self.sectors = sectors
        self.primaries = {}
        self.extended = None
        self.logicals = []

    def lines(self):
        lines = [f"mbr {self.sectors}"] + [part.line(number) for number, part in sorted(self.primaries.items())]
        return lines + [part.line(number) for number, part in enumerate(self.logicals, 5)]


def any_table(rng, apart):
    """Some primaries, and mostly an extended partition with some logicals, with that many sectors between them at least."""
    sectors = rng.choice((20000, 131072, 1 << 20) if apart < 64 else (131072, 1 << 20))
    table = Table(sectors)
    count = rng.randrange(1, 5)
    bounds = sorted(rng.sample(range(64, sectors, 64), 2 * count))
    numbers = sorted(rng.sample(range(1, 5), count))
    widest = max(range(count), key=lambda k: bounds[2 * k + 1] - bounds[2 * k])
    for k, number in enumerate(numbers):
        first, last = bounds[2 * k], bounds[2 * k + 1] - 1
        if k == widest and rng.randrange(5):
            table.extended = number
            table.primaries[number] = Part(first, last, rng.choice((0x05, 0x0F)))
            room = list(range(first + apart, last - apart, apart))
            many = min(rng.choice((0, 1, 2, 3, 12)), len(room) // 2)
            ends = sorted(rng.sample(room, 2 * many))
            table.logicals = [Part(ends[2 * j], ends[2 * j + 1] - (2 if apart < 64 else 2049), rng.choice(KINDS)) for j in range(many)]
        else:
            table.primaries[number] = Part(first, last, rng.choice(KINDS))
    return table


def blank(path, sectors):
    with open(path, "wb") as it:
        it.truncate(sectors * 512)
        it.seek(510)
        it.write(b"\x55\xaa")
    return path


def accepted(ptab, path, lines):
    """Every tool gives the lines of the image, and finds no fault in it."""
    same(f"show {path}", must(ptab, "show", path).splitlines(), lines)
    same(f"verify {path}", run(ptab, "verify", path).stdout, "yes\n")
    same(f"sfdisk on {path}", by_sfdisk(path), lines)
    same(f"fdisk on {path}", by_fdisk(path, 512), lines)
    same(f"parted on {path}", [part[:3] for part in by_parted(path, 512)], [tuple(line.split(" ")[:3]) for line in lines[1:]])
    done = run("sfdisk", "--verify", path)
    faults = [line for line in (done.stdout + done.stderr).splitlines() if line not in ("", f"{path}:") and not NO_FAULT.search(line)]
    same(f"sfdisk --verify {path}", (done.returncode, faults), (0, []))


def edited(ptab, path, *words):
    same(f"edit {' '.join(words)}", run(ptab, "edit", path, *words).stdout, "done\n")


def number_of(rng, part):
    """END as a sector or as a length."""
    return rng.choice((str(part.last), f"+{part.last - part.first + 1}"))


def words_of(table, rng):
    words = [f"n:{number}:{part.first}:{number_of(rng, part)}:{part.kind:02X}" for number, part in table.primaries.items()]
    logicals = [f"n:5:{part.first}:{number_of(rng, part)}:{part.kind:02x}" for part in table.logicals]
    rng.shuffle(logicals)
    return words, logicals


def made_by_ptab(ptab, folder, table, rng):
    """The table in one call, in two, or a call for each partition."""
    path = blank(f"{folder}/ptab.img", table.sectors)
    words, logicals = words_of(table, rng)
    way = rng.randrange(3)
    if way == 0:
        edited(ptab, path, "a:1", *words, *logicals)
    else:
        edited(ptab, path, "a:1", *words)
        for word in logicals:
            edited(ptab, path, "a:1", word)
    for part in table.logicals:
        part.record = part.first - 1
    accepted(ptab, path, table.lines())
    return path


def script_of(table):
    """sfdisk's script of the table."""
    lines = ["label: dos", "unit: sectors"]
    for number, part in [*sorted(table.primaries.items()), *enumerate(table.logicals, 5)]:
        boot = ", bootable" if part.boot else ""
        lines.append(f"{number} : start={part.first}, size={part.last - part.first + 1}, type={part.kind:x}{boot}")
    return "\n".join(lines) + "\n"


def made_by_sfdisk(ptab, folder, table, rng):
    """sfdisk puts a boot record 2048 sectors before its logical."""
    path = blank(f"{folder}/sfdisk.img", table.sectors)
    if table.primaries and rng.randrange(2):
        table.primaries[min(table.primaries)].boot = True
    must("sfdisk", "-q", "--force", path, input=script_of(table))
    for part, at in zip(table.logicals, boot_records(path, table.primaries[table.extended]) if table.extended else ()):
        part.record = at
    accepted(ptab, path, table.lines())
    return path


def boot_records(path, outer):
    """Where the chain's boot records stand, empty ones too."""
    places, at = [], outer.first
    with open(path, "rb") as it:
        while True:
            places.append(at)
            it.seek(at * 512 + 462)
            link = it.read(16)
            if link[4] == 0:
                return places
            at = outer.first + struct.unpack_from("<I", link, 8)[0]


def gap(path, table, rng):
    """A free run of at least three sectors inside the extended partition, if there is one: (first, last). None between a logical and
    its boot record, where parted stops by an assertion."""
    outer = table.primaries[table.extended]
    taken = [(at, at) for at in boot_records(path, outer)] + [(part.record, part.last) for part in table.logicals]
    found, at = [], outer.first
    for first, last in [*sorted(taken), (outer.last + 1, outer.last + 1)]:
        if first - at >= 3:
            found.append((at, first - 1))
        at = max(at, last + 1)
    return rng.choice(found) if found else None


def changed(ptab, path, table, rng):
    """Additions, deletions and types, one call each; every tool reads each."""
    for _ in range(5):
        kind = rng.choice(KINDS)
        what = rng.randrange(4)
        leaves = [number for number in table.primaries if number != table.extended]
        run_of_free = gap(path, table, rng) if what == 0 and table.extended else None
        if run_of_free:
            first, last = run_of_free
            start = rng.randrange(first + 1, last)
            part = Part(start, last, kind, record=start - 1)
            edited(ptab, path, "a:1", f"n:5:{part.first}:{number_of(rng, part)}:{kind:02X}")
            table.logicals = sorted([*table.logicals, part], key=lambda it: it.record)
        elif what == 1 and table.logicals:
            number = rng.randrange(len(table.logicals))
            edited(ptab, path, f"d:{5 + number}")
            del table.logicals[number]
        elif what == 2 and table.logicals:
            number = rng.randrange(len(table.logicals))
            edited(ptab, path, f"t:{5 + number}:{kind:02X}")
            table.logicals[number].kind = kind
        elif leaves:
            number = rng.choice(leaves)
            if rng.randrange(2):
                edited(ptab, path, f"t:{number}:{kind:02X}")
                table.primaries[number].kind = kind
            else:
                edited(ptab, path, f"d:{number}")
                del table.primaries[number]
        else:
            continue
        accepted(ptab, path, table.lines())


def edited_by_sfdisk(ptab, path, table, rng):
    """sfdisk changes a type of what ptab made, or deletes the last logical, and ptab shows that and goes on."""
    if table.logicals:
        must("sfdisk", "-q", "--part-type", path, str(5), "7")
        table.logicals[0].kind = 0x07
        accepted(ptab, path, table.lines())
        must("sfdisk", "-q", "--delete", path, str(4 + len(table.logicals)))
        del table.logicals[-1]
        accepted(ptab, path, table.lines())
    if table.extended:
        edited(ptab, path, f"d:{table.extended}")
        del table.primaries[table.extended]
        table.extended, table.logicals = None, []
        accepted(ptab, path, table.lines())


def to_gpt(ptab, path, rng):
    """Types that a GPT has, then the conversion: sgdisk finds no fault in it."""
    lines = must(ptab, "show", path).splitlines()[1:]
    sectors = os.path.getsize(path) // 512
    for line in lines:
        number, first, last, kind = line.split(" ")[:4]
        if kind not in ("05", "0F", "EF", "83", "82", "07"):
            edited(ptab, path, f"t:{number}:83")
        if int(last) > sectors - 34 and kind not in ("05", "0F"):
            return
    fresh = "".join(f"{rng.getrandbits(128):032x}" for _ in range(len(lines) + 1))
    edited(ptab, path, "--fresh", fresh, "g")
    leaves = [line.split(" ")[:3] for line in lines if line.split(" ")[3] not in ("05", "0F")]
    same("a table that was converted", [line.split(" ")[:3] for line in must(ptab, "show", path).splitlines()[1:]], leaves)
    same("sgdisk -v", "No problems found" in must("sgdisk", "-v", path), True)


def disk_made_and_edited(ptab, seed):
    """How many answers were compared."""
    before = compared.count
    rng = random.Random(seed)
    with tempfile.TemporaryDirectory() as folder:
        table = any_table(rng, 8)
        path = made_by_ptab(ptab, folder, table, rng)
        changed(ptab, path, table, rng)
        edited_by_sfdisk(ptab, path, table, rng)
        table = any_table(rng, 4096)
        path = made_by_sfdisk(ptab, folder, table, rng)
        changed(ptab, path, table, rng)
        if all(part.first >= 34 for part in table.primaries.values()):
            to_gpt(ptab, path, rng)
    return compared.count - before


if __name__ == "__main__":
    over_seeds("against sfdisk", disk_made_and_edited)
