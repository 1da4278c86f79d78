#!/usr/bin/env python3
"""Looks for plans of 4,096 phases whose check costs most, among kinds of writes that change bytes and no table: on GPTs and MBRs, with
partitions, slices and labels. Prints what each kind costs, by what the same number of phases costs that write what stands there.

usage: bench/worst_plans.py PTAB

First each kind is tried with FEW phases, then the worst ones in turn with one another, phase by phase; then the worst of all with 4,096.
A plan counts where `check` says yes to it. Instructions are callgrind's, in millions. It ends with status 1 where the bound below doesn't
hold.
"""
import itertools
import os
import subprocess
import sys
import tempfile
import zlib

from disks import full_gpt, labelled_chain, labelled_gpt
from measure import instructions

sys.path.insert(0, os.path.join(os.path.dirname(os.path.abspath(__file__)), "..", "tests", "shared"))
from images import SMALL, entry, long_chain, record  # noqa: E402
from plans import text_of  # noqa: E402

FEW, MOST = 256, 4096
# At most so many times the plan of as many phases that writes what stands there.
WORST = 3
# So many kinds are also tried in turn with one another.
MIXED = 4
SECTORS = 65536


# kinds of phases: of each number its writes, sectors and their bytes. What stands there before is written by the plan's end


def scribbled(image, places, at, length=4):
    """Bytes in these sectors that are none of the table's."""
    def write(number):
        place = places[number % len(places)]
        found = bytearray(SMALL.sector(image, place))
        found[at:at + length] = (number + 1).to_bytes(length, "little")
        return [(place, bytes(found))]
    return write


def lost_and_found(image, places):
    """Sectors that are zeroed and come back, one after the other."""
    def write(number):
        place = places[number // 2 % len(places)]
        return [(place, bytes(512) if number % 2 == 0 else SMALL.sector(image, place))]
    return write


def sealed(sector, at, content):
    """A header with other bytes, and with its CRC."""
    found = bytearray(sector)
    found[at:at + len(content)] = content
    found[16:20] = bytes(4)
    found[16:20] = zlib.crc32(found[:int.from_bytes(found[12:16], "little")]).to_bytes(4, "little")
    return bytes(found)


def with_other_alternate(image, place=1):
    """Headers that differ in AlternateLBA, which no reading asks for."""
    return lambda number: [(place, sealed(SMALL.sector(image, place), 32, (number + 1).to_bytes(8, "little")))]


def with_other_sum(image):
    """Bytes of the last entry, which is unused, and then the header with the array's CRC."""
    array = b"".join(SMALL.sector(image, place) for place in range(2, 34))

    def write(number):
        now = array[:-64] + (number // 2 + 1).to_bytes(64, "little")
        return [(33, now[-512:])] if number % 2 == 0 else [(1, sealed(SMALL.sector(image, 1), 88, zlib.crc32(now).to_bytes(4, "little")))]
    return write


def number_of_entries(image):
    return int.from_bytes(SMALL.sector(image, 1)[80:84], "little")


def with_other_number(image, numbers):
    """Primary headers that tell of other numbers of entries, one after the other, and have the CRC of none of these arrays."""
    others = [it for it in numbers if it != number_of_entries(image)]
    return lambda number: [(1, sealed(SMALL.sector(image, 1), 80, others[number % len(others)].to_bytes(4, "little")))]


def in_turn_with_good(image, write):
    """Each of these in turn with the primary header as it was."""
    return lambda number: write(number // 2) if number % 2 == 0 else [(1, SMALL.sector(image, 1))]


def first_one(first, write):
    """These, behind the first of others."""
    return lambda number: first(0) if number == 0 else write(number - 1)


def two_elsewhere(image, places, write):
    """A phase of two writes of these sectors, as they stand, before each two of these."""
    same = [(place, SMALL.sector(image, place)) for place in places[:2]]
    return lambda number: same if number % 3 == 0 else write(2 * (number // 3) + number % 3 - 1)


def kinds_of_gpt(image, labels):
    end, sectors = SMALL.count(image), -(-number_of_entries(image) // 4)
    primary, backup = range(2, 2 + sectors), range(end - 33, end - 33 + sectors)
    yield "the disk signature of sector 0", scribbled(image, [0], 440)
    yield "unused bytes of the primary header", scribbled(image, [1], 92)
    yield "unused bytes of the backup header", scribbled(image, [end - 1], 92)
    yield "the last bytes of both headers", scribbled(image, [1, end - 1], 508)
    yield "the primary header, lost and found", lost_and_found(image, [1])
    yield "the backup header, lost and found", lost_and_found(image, [end - 1])
    yield "the primary array, lost and found", lost_and_found(image, primary)
    yield "the backup array, lost and found", lost_and_found(image, backup)
    yield "sector 0, lost and found", lost_and_found(image, [0])
    yield "AlternateLBA of the primary header", with_other_alternate(image)
    yield "names in the primary array", scribbled(image, primary, 56)
    yield "both writes in the backup / the primary array", two_elsewhere(image, backup, lost_and_found(image, primary))
    alternate = with_other_alternate(image, end - 1)
    yield "AlternateLBA of the backup header, the primary one zeroed", first_one(lost_and_found(image, [1]), alternate)
    few, all_numbers = [128, 127, 5, 1], list(range(1, 129))
    yield "headers of 128, 127, 5 and 1 entries", with_other_number(image, few)
    yield "headers of more and more entries", with_other_number(image, all_numbers)
    yield "headers of fewer and fewer entries", with_other_number(image, all_numbers[::-1])
    yield "such headers and the good one", in_turn_with_good(image, with_other_number(image, all_numbers))
    yield "such a header, and AlternateLBA of the backup header", first_one(with_other_number(image, few), alternate)
    names = scribbled(image, range(2, 34), 56)
    yield "such a header, and names in the sectors of 128 entries", first_one(with_other_number(image, few), names)
    if number_of_entries(image) == 128 and SMALL.sector(image, 33)[-128:] == bytes(128):
        yield "an unused entry and the sum of the array", with_other_sum(image)
    yield "names in the backup array", scribbled(image, backup, 56)
    yield "attributes in the backup array", scribbled(image, backup, 48)
    if labels:
        yield "unused bytes of a label", scribbled(image, labels[:1], 400)
        yield "unused bytes of all labels", scribbled(image, labels, 400)


def kinds_of_mbr(image, heads, labels):
    yield "the disk signature of sector 0", scribbled(image, [0], 440)
    if heads:
        yield "unused bytes of the first extended boot record", scribbled(image, heads[:1], 0)
        yield "unused bytes of the last extended boot record", scribbled(image, heads[-1:], 0)
        yield "unused bytes of all extended boot records", scribbled(image, heads, 440)
        yield "the last record's unused link", scribbled(image, heads[-1:], 471)
    if labels:
        yield "unused bytes of a label", scribbled(image, labels[:1], 400)
        yield "unused bytes of all labels", scribbled(image, labels, 400)


def disks():
    """(title, image, its sectors of the table, kinds)"""
    one = SMALL.gpt(SECTORS, {1: entry(2048, 4095)})
    for title, (image, labels) in (("GPT, 1 partition", (one, [])), ("GPT, 128 partitions", (full_gpt(), [])),
                                   ("GPT, 128 labelled slices", labelled_gpt()), ("GPT, 3 labelled slices", labelled_gpt(3)),
                                   ("GPT, 100 labelled, 100 entries", labelled_gpt(100, 100)),
                                   ("GPT, 127 labelled, 127 entries", labelled_gpt(127, 127)),
                                   ("GPT, 4 labelled, 4 entries", labelled_gpt(4, 4))):
        yield title, image, [1, SECTORS - 1, *labels], kinds_of_gpt(image, labels)
    mbr, chain, (logicals, heads) = SMALL.mbr(SECTORS, [record(0x83, 2048, 2048)]), long_chain(128), labelled_chain()
    of_chain = [10 + 2 * k for k in range(128)]
    yield "MBR, 1 partition", mbr, [0], kinds_of_mbr(mbr, [], [])
    yield "MBR, 128 logicals", chain, of_chain, kinds_of_mbr(chain, of_chain, [])
    yield "MBR, 128 labelled logicals", logicals, heads, kinds_of_mbr(logicals, heads, [at + 2 for at in heads])


# plans


def plan_of(image, writes, count):
    """So many writes in phases; what they change comes back in the last ones, of one write each."""
    phases, now = [], {}
    for number in range(count):
        phases.append(writes(number))
        now.update(phases[-1])
        left = [[(at, SMALL.sector(image, at))] for at, found in now.items() if found != SMALL.sector(image, at)]
        if sum(map(len, phases)) + len(left) >= count - 1:
            return phases + left
    return phases


def harmless_of(writes):
    return lambda number: [writes[number % len(writes)]]


def in_turn(one, other):
    return lambda number: (one, other)[number % 2](number // 2)


class Search:
    """The built command, and what each kind of plan costs it."""

    def __init__(self, ptab, folder):
        self.ptab, self.folder, self.image, self.plan = ptab, folder, f"{folder}/image", f"{folder}/plan"

    def cost(self, image, writes, count):
        """The instructions of a check, which says yes; None where it says no."""
        for path, content in ((self.image, bytes(image)), (self.plan, text_of(plan_of(image, writes, count)).encode())):
            with open(path, "wb") as it:
                it.write(content)
        words = [self.ptab, "check", self.image, self.plan]
        said = subprocess.run(words, capture_output=True, text=True).stdout
        return instructions(words, self.folder) if said == "yes 0\n" else None

    def tried(self, title, image, name, writes, harmless):
        many = self.cost(image, writes, FEW)
        if many is None:
            # as in turn, where the one writes what the other has recovery read
            print(f"{title:31} {name:60.60} refused", flush=True)
            return 0, title, image, name, writes
        print(f"{title:31} {name:60.60} {many / 1e6:8.2f} {many / harmless:6.2f}", flush=True)
        return many / harmless, title, image, name, writes

    def worst_of(self, title, image, places, kinds):
        """The worst kind on a disk."""
        same = [(place, SMALL.sector(image, place)) for place in places]
        harmless = self.cost(image, harmless_of(same), FEW)
        print(f"{title:31} {'what stands there':60} {harmless / 1e6:8.2f} {1:6.2f}", flush=True)
        found = sorted((self.tried(title, image, *kind, harmless) for kind in kinds), key=lambda it: -it[0])
        for (_, _, _, one, first), (_, _, _, other, second) in itertools.combinations(found[:MIXED], 2):
            found.append(self.tried(title, image, f"{one} / {other}", in_turn(first, second), harmless))
        return max(found, key=lambda it: it[0]), harmless_of(same)


def main():
    with tempfile.TemporaryDirectory() as folder:
        search = Search(os.path.abspath(sys.argv[1]), folder)
        print(f"{f'{FEW} phases':27} {'each writes':60} {'M instr':>8} {'times':>6}")
        worst, same = max((search.worst_of(*disk) for disk in disks()), key=lambda it: it[0][0])
        _, title, image, name, writes = worst
        many, harmless = search.cost(image, writes, MOST), search.cost(image, same, MOST)
    if many is None:
        sys.exit(f"{title}: {name}: check doesn't say yes to {MOST} phases")
    print(f"the worst plan of {MOST:,} phases: {title}, {name}: {many / 1e6:.1f} million instructions, "
          f"{many / harmless:.2f} times the harmless one, of which at most {WORST} are allowed")
    sys.exit(0 if many <= WORST * harmless else 1)


main()
