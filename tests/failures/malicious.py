#!/usr/bin/env python3
"""Images and plan files that mean harm, by all eight commands: headers with right sums and wrong numbers, entries past all ends, plans
of sectors past all numbers, files of odd sizes. Each answer is a named one, and what is refused changes no byte.

usage: tests/failures/malicious.py PTAB [DOUBLES]
"""
import os
import struct
import sys

sys.path.insert(0, os.path.join(os.path.dirname(os.path.abspath(__file__)), "..", "shared"))
import images
from eight import not_repaired, nothing, repaired, run_all, stands
from images import LARGE, SMALL, entry, guid, record
from plans import both_copies, checks, converted, lay, plan_of, primary_first, refused, same, turns

FRESH = "--fresh 000102030405060708090a0b0c0d0e0f" + "0" * 32
MOST = 8 * 1024 * 1024


class Table:
    """A GPT with one partition, on an image with sectors of one size."""

    def __init__(self, command, sectors, count, first):
        self.command = command if sectors is SMALL else command.large()
        self.sectors, self.count, self.first, self.last = sectors, count, first, count - sectors.array - 2
        self.entries = {1: entry(first, self.last)}
        self.head = f"gpt {count} {sectors.array + 2} {self.last} {images.DISK}"
        self.line = f"1 {first} {self.last} 8300 0000000000000000 {images.FIRST}"

    def whole(self):
        return self.of(self.entries)

    def of(self, entries):
        """The same table with other entries, in both copies."""
        return self.sectors.gpt(self.count, entries)

    def with_fault(self, sides, fields, bare):
        """The image whose copies of those sides have a header of these fields, its sum right; or with bytes changed after the sum."""
        image = self.whole()
        for side in sides:
            self.sectors.put_side(image, side, self.entries, **fields)
            at = (1 if side == "primary" else self.count - 1) * self.sectors.size
            for offset, content in bare:
                image[at + offset:at + offset + len(content)] = content
        return image


def tables(command):
    return Table(command, SMALL, 4096, 2048), Table(command, LARGE, 256, 100)


def faults(table):
    """(fields of a header whose sum is right, changes after the sum, the fault)"""
    size, array = table.sectors.size, table.sectors.array
    yield {}, ((12, b"\xff" * 4),), 3
    for fields, number in (({"size": 91}, 3), ({"size": size + 1}, 3), ({"my": 2}, 5), ({"array": 3}, 6), ({"array": 2 ** 64 - 1}, 6),
                           ({"count": 0}, 7), ({"count": 129}, 7), ({"count": 2 ** 32 - 1}, 7), ({"entry_size": 256}, 7),
                           ({"first": array + 1}, 8), ({"last": table.last + 1}, 8)):
        yield fields, (), number


def in_the_primary(command):
    for table in tables(command):
        lines, it = [table.head, table.line], table.command
        from_whole = plan_of(lay(it, table.whole()), "c:1:data")
        for fields, bare, number in faults(table):
            image = table.with_fault(["primary"], fields, bare)
            stands(it, image, lines, f"2 primary copy {number}", table.first)
            checks(it, from_whole, f"no 4 1 {table.count - table.sectors.array - 1}")
            order = primary_first(table.sectors, table.count)
            turns(it, image, "c:1:data", order, 3, [table.head, f"{table.line} data"])
            turns(it, image, "a:1", order, 0, lines)
            repaired(it, image, table.whole())


def in_the_backup(command):
    for table in tables(command):
        lines, it = [table.head, table.line], table.command
        for fields, bare, number in faults(table):
            image = table.with_fault(["backup"], fields, bare)
            stands(it, image, lines, f"3 backup copy {number}", table.first)
            order = both_copies(table.sectors, table.count)
            turns(it, image, "c:1:data", order, 2, [table.head, f"{table.line} data"])
            repaired(it, image, table.whole())


def in_both(command):
    for table in tables(command):
        for fields, bare, number in faults(table):
            image = table.with_fault(["primary", "backup"], fields, bare)
            nothing(table.command, image, f"copies {number} {number}")
            turns(table.command, image, f"{FRESH} o", primary_first(table.sectors, table.count), 3, [table.head])


def past_all_ends(command):
    """Entries whose extents don't exist, in both copies."""
    for table in tables(command):
        for first, last in ((table.last, table.last - 1), (table.first, 2 ** 63), (0, 2 ** 64 - 1), (2 ** 64 - 1, 0)):
            image, it = table.of({1: entry(first, last)}), table.command
            stands(it, image, [table.head, f"1 {first} {last} 8300 0000000000000000 {images.FIRST}"], "7 outside 1")
            for words in ("c:1:x", "a:1", "t:1:8200", f"{FRESH} a:1 n:2:0:0"):
                refused(it, "plan 4", words)
            not_repaired(it, image)
            turns(it, image, "d:1", both_copies(table.sectors, table.count), 2, [table.head])


def one_guid_twice(command):
    for table in tables(command):
        low, it = table.sectors.array + 2, table.command
        image = table.of({**table.entries, 2: entry(low, low + 4)})
        second = f"2 {low} {low + 4} 8300 0000000000000000 "
        stands(it, image, [table.head, table.line, second + images.FIRST], "10 same guid 1 2", table.first)
        for words in ("c:1:x", "a:1", f"U:{guid(1)}"):
            refused(it, "plan 4", words)
        not_repaired(it, image)
        turns(it, image, f"u:2:{guid(2)}", both_copies(table.sectors, table.count), 2, [table.head, table.line, second + guid(2)])


def past_an_mbr(command):
    """A record whose start and size are the greatest there are."""
    for table in tables(command):
        it, count = table.command, table.count
        image = table.sectors.mbr(count, [record(0x83, 0xFFFFFFFF, 0xFFFFFFFF)])
        stands(it, image, [f"mbr {count}", "1 4294967295 8589934589 83 00"], "7 outside 1", 4294967295)
        it.located("1", 2 ** 32 - 2, 8589934589).nowhere("1", 2 ** 32 - 1)
        for words in ("t:1:07", "a:1", "a:1 n:2:0:0"):
            refused(it, "plan 4", words)
        refused(it, "edit 12", f"{FRESH} g")
        not_repaired(it, image)
        turns(it, image, "d:1", "0", 1, [f"mbr {count}"])
        turns(it, image, f"{FRESH} o", converted(table.sectors, count), 2, [table.head])


def write_of(lba, sectors):
    return f"W {lba} {'0' * (2 * sectors.size)}\nF\n".encode()


def plan_texts(command):
    """Plans of sectors past all numbers, too long and not UTF-8, on images of every kind: told before the image is looked at."""
    for table in tables(command):
        it, file = table.command, f"{command.path}.plan"
        damaged = table.whole()
        damaged[table.sectors.size] ^= 0xFF
        texts = [(write_of(2 ** 64 - 1, table.sectors), "no 2 1\n", "", 1),
                 (write_of(2 ** 64, table.sectors), "", "refused: plan text 1\n", 3)]
        for text in (b"\n" * (MOST + 1), b"\0" * (MOST + 1), b"\xff\n", write_of(1, table.sectors) + b"\xc0\x80"):
            texts.append((text, "", "refused: plan text 0\n", 3))
        for image in (table.whole(), damaged, bytes(511), table.sectors.zeros(table.count), table.sectors.mbr(table.count, [])):
            it.on(bytes(image))
            for text, out, err, status in texts:
                with open(file, "wb") as plan:
                    plan.write(text)
                for word in ("check", "apply"):
                    it.gives([word, file], out, err, status)


def odd_sizes(command):
    for it, sectors in ((command, SMALL), (command.large(), LARGE)):
        for size in (0, 1, 511, 512, sectors.size - 1, sectors.size, (2 * sectors.array + 4) * sectors.size - 1):
            nothing(it, bytes(size), "too small")
            refused(it, "edit 12", f"{FRESH} o")
        marked = bytes(510) + b"\x55\xaa"
        for size in (sectors.size, 2 * sectors.size - 1):
            image = marked + bytes(size - 512)
            stands(it, image, ["mbr 1"])
            repaired(it, image, image)
            refused(it, "edit 3", "a:1 n:1:0:0")
            refused(it, "edit 4", "a:1 n:1:1:1")
            for words in (f"{FRESH} g", f"{FRESH} o"):
                refused(it, "edit 12", words)
            turns(it, image, "a:1", "", 0, ["mbr 1"])
    nothing(command.large(), bytes(510) + b"\x55\xaa", "too small")


def past_a_slice(command):
    """A label whose numbers pass all ends, on a slice that is the whole disk."""
    image = SMALL.mbr(4096, [record(0xA5, 1, 4095)])
    SMALL.put(image, 2, images.label(4095, {0: (2 ** 32 - 1, 2 ** 32 - 1, 7), 7: (2 ** 32 - 1, 0, 7)}))
    lines = ["mbr 4096", "1 1 4095 A5 00", "1.a 4294967296 8589934590 07", "1.h 1 4294967295 07"]
    stands(command, image, lines, "7 outside 1.a")
    command.located("1.a", 2 ** 32 - 2, 8589934590).nowhere("1.a", 2 ** 32 - 1)
    not_repaired(command, image)
    refused(command, "plan 4", "d:1.h")
    refused(command, "plan 4", "d:1.a")
    turns(command, image, "d:1", "0", 1, ["mbr 4096"])
    same("a label's sector that stays", struct.unpack_from("<I", SMALL.sector(command.image(), 2))[0], images.MAGIC)


ROWS = (in_the_primary, in_the_backup, in_both, past_all_ends, one_guid_twice, past_an_mbr, plan_texts, odd_sizes, past_a_slice)


def main():
    run_all("malicious images and plans", ROWS, *sys.argv[1:3])


main()
