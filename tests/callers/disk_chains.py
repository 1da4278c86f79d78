"""How often calls on an open disk ask the library, and what they read: on an MBR once, whatever its chain is, and those sectors that the
library wants of it one after the other, each once. Chains by hand, sound, broken and hostile, with the sectors that docs/format.md has
read of them; and disks that are drawn, beside the library's own calls on sectors (shared/replay.py). disk_library.py runs it."""
import ctypes
import os
import random

import ptab as lib
import replay
from compared import put, same
from disk_calls import must
from images import FREEBSD, LARGE, SMALL, chained, ebr, entry, guid, label, long_chain, record
from other_test import of_test

HERE = os.path.dirname(os.path.abspath(__file__))
ROOT = os.path.dirname(os.path.dirname(HERE))
WRAPPED = ("pread", *(f"ptab_{name}" for name in (
    "wanted", "members", "verify", "locate", "free", "table_text", "plan", "set_plan", "repair", "adopt_plan", "check")))
# the calls that a GPT of slices takes: one that wants a label, one that lists the others, one that answers; and one more where there is
# one other, since an extended boot record would come alone too
CALLS_OF_SLICES = 3
NOTHING = bytes(16)


class Place(ctypes.Structure):
    _fields_ = [("at", ctypes.c_uint64), ("length", ctypes.c_uint64)]


def counted_library(folder):
    """The library of that folder as a shared object that counts, loaded."""
    path = f"{folder}/counted.so"
    must("cc", "-std=c11", "-O2", "-fPIC", "-shared", f"-I{ROOT}/include", f"{HERE}/disk_counted.c", "-Wl,--whole-archive",
         f"{folder}/libptab.a", "-Wl,--no-whole-archive", *(f"-Wl,--wrap={name}" for name in WRAPPED), "-o", path)
    library = lib.load(path)
    library.test_calls.restype = library.test_reads.restype = ctypes.c_uint64
    library.test_reads.argtypes = [ctypes.c_void_p, ctypes.c_uint64]
    return library


def ends_of(count, sectors):
    head, tail = (34, 33) if sectors.size == 512 else (6, 5)
    return {*range(min(head, count)), *range(max(0, count - tail), count)}


def asked(disk, sectors, call):
    """(the answer, how often the library was asked, the sectors that were read beside both ends, in order)"""
    library, places = disk._library, (Place * 4096)()
    library.test_begin()
    try:
        answer = call(disk)
    except lib.Error as error:
        answer = (error.status, error.about, error.number)
    reads = places[:library.test_reads(places, len(places))]
    of_place = [range(it.at // sectors.size, (it.at + it.length) // sectors.size) for it in reads]
    ends = ends_of(disk.size()[0], sectors)
    return answer, library.test_calls(), [number for numbers in of_place for number in numbers if number not in ends]


# chains by hand


def linked(*steps, sectors=SMALL, primaries=(), count=16384, **more):
    """16384 sectors with an extended partition in 4096 to 12287, and extended boot records {sector: (logical, link)} as they are given."""
    image = chained({at: ebr(logical, link) for at, logical, link in steps}, sectors, **more)
    for k, one in enumerate(primaries):
        sectors.put(image, 0, image[:446 + 32 + 16 * k] + one + image[446 + 48 + 16 * k:sectors.size])
    return image[:count * sectors.size]


def to(at, size=1, kind=0x05):
    """A link to that sector."""
    return record(kind, at - 4096, size)


PLAIN = record(0x83, 1, 100)
SLICE = record(0xA5, 1, 100)
# (name, image, the sectors that are read of it beside both ends)
BY_HAND = (
    ("one logical", linked((4096, PLAIN, NOTHING)), [4096]),
    ("two logicals", linked((4096, PLAIN, to(6000)), (6000, PLAIN, NOTHING)), [4096, 6000]),
    ("a link of type 0F", linked((4096, PLAIN, to(6000, kind=0x0F)), (6000, PLAIN, NOTHING)), [4096, 6000]),
    ("an empty record", linked((4096, NOTHING, to(6000)), (6000, PLAIN, NOTHING)), [4096, 6000]),
    ("a link of size 0", linked((4096, PLAIN, to(6000, 0)), (6000, PLAIN, NOTHING)), [4096]),
    ("slices", linked((4096, SLICE, to(6000)), (6000, SLICE, NOTHING)), [4096, 6000, 4098, 6002]),
    ("a slice of one sector", linked((4096, record(0xA5, 1, 1), NOTHING)), [4096]),
    ("a slice past the disk", linked((4096, record(0xA5, 20000, 9), NOTHING)), [4096]),
    ("a slice whose label would be past the disk", linked((4096, record(0xA5, 12287, 9), NOTHING)), [4096]),
    ("two slices with one label", linked((4096, record(0xA5, 3000, 9), to(6000)), (6000, record(0xA5, 1096, 9), NOTHING)),
     [4096, 6000, 7097]),
    ("a record that is a slice's label too", linked((4096, record(0xA5, 1903, 9), to(6000)), (6000, PLAIN, NOTHING)), [4096, 6000]),
    ("a primary slice", linked((4096, PLAIN, NOTHING), primaries=[record(0xA5, 100, 50)]), [4096, 101]),
    ("slices and no chain", SMALL.mbr(4096, [record(0xA5, 100, 50), record(0x83, 200, 9), record(0xA5, 300, 50)]), [101, 301]),
    ("an empty table", SMALL.mbr(4096, []), []),
    ("a GPT", SMALL.gpt(4096, {1: entry(2048, 4062)}), []),
    ("no table", SMALL.zeros(4096), []),
    # broken chains: what is behind the fault isn't read, and no label is
    ("a link to itself", linked((4096, SLICE, to(6000)), (6000, SLICE, to(6000))), [4096, 6000]),
    ("a link back", linked((4096, SLICE, to(6000)), (6000, PLAIN, to(4096))), [4096, 6000]),
    ("a link behind the extended partition", linked((4096, SLICE, to(12288)), (12288, PLAIN, NOTHING)), [4096]),
    ("a link past the disk", linked((4096, SLICE, to(12000)), count=8000), [4096]),
    ("an extended partition past the disk", linked((4096, SLICE, NOTHING), count=4096), []),
    ("no signature", linked((4096, SLICE, to(6000))), [4096, 6000]),
    ("a logical of type EE", linked((4096, SLICE, to(6000)), (6000, record(0xEE, 1, 9), to(7000))), [4096, 6000]),
    ("a logical of type 05", linked((4096, SLICE, to(6000)), (6000, record(0x05, 1, 9), to(7000))), [4096, 6000]),
    ("a link of type 83", linked((4096, SLICE, to(6000, kind=0x83)), (6000, PLAIN, NOTHING)), [4096]),
    ("a link of type 85", linked((4096, SLICE, to(6000, kind=0x85)), (6000, PLAIN, NOTHING)), [4096]),
    ("a boot indicator of 01", linked((4096, SLICE, record(0x05, 1904, 1, 0x01)), (6000, PLAIN, NOTHING)), [4096]),
    ("two extended partitions", linked((4096, SLICE, NOTHING), primaries=[record(0x0F, 200, 50)]), []),
    ("a third record", chained({4096: ebr(SLICE, to(6000), record(0x83, 1, 1) + NOTHING), 6000: ebr()}), [4096]),
)


def by_hand(folder):
    path = f"{folder}/chain"
    for name, image, wanted in BY_HAND:
        with lib.Disk(put(path, image)) as disk:
            for call in (lib.Disk.table, lib.Disk.verify, lib.Disk.free, lib.Disk.text, lambda it: it.locate(5, 0)):
                _, calls, reads = asked(disk, SMALL, call)
                same(f"{name}: how often the library is asked, and what is read", (calls, reads), (1, wanted))


def large_sectors(folder):
    """With sectors of 4096 bytes there are no slices, and so no labels."""
    image = LARGE.mbr(200, [record(0xA5, 40, 50), record(0x05, 100, 50)])
    LARGE.put(image, 100, ebr(SLICE, record(0x05, 20, 1)))
    LARGE.put(image, 120, ebr(SLICE))
    with lib.Disk(put(f"{folder}/large", image), sector_size=LARGE.size) as disk:
        _, calls, reads = asked(disk, LARGE, lib.Disk.table)
        same("a chain of sectors of 4096 bytes", (calls, reads), (1, [100, 120]))


def long_ones(folder):
    """Up to 128 records, and one more; those in both ends aren't read again. Edits ask once too."""
    path = f"{folder}/long"
    for count in (1, 17, 124, 128, 129, 300):
        for sectors in (SMALL, LARGE):
            image = long_chain(count, sectors)
            ends = ends_of(sectors.count(image), sectors)
            wanted = [10 + 2 * k for k in range(min(count, 128)) if 10 + 2 * k not in ends]
            with lib.Disk(put(path, image), write=True, sector_size=sectors.size) as disk:
                answer, calls, reads = asked(disk, sectors, lib.Disk.table)
                same(f"a chain of {count}", (calls, reads), (1, wanted))
                if count > 128:
                    same("a chain that is too long", answer, (lib.NO_TABLE, 3, 2))
                    continue
                same("its partitions", [it.number for it in answer.partitions], [1, *range(5, 5 + count)])
                written, calls, reads = asked(disk, sectors, lambda it: it.edit("t:5:07"))
                same(f"an edit of a chain of {count}", (written, calls, reads), (1, 1, wanted))
    many = SMALL.mbr(60000, [record(0xA5, 100 + 100 * k, 100) for k in range(3)] + [record(0x05, 1000, 51200)])
    for k in range(128):
        SMALL.put(many, 1000 + 400 * k, ebr(record(0xA5, 1, 300), record(0x05, 400 * k + 400, 301) if k < 127 else NOTHING))
        SMALL.put(many, 1002 + 400 * k, label(300, {0: (30, 16, 7)}))
    heads = [1000 + 400 * k for k in range(128)]
    with lib.Disk(put(path, many)) as disk:
        answer, calls, reads = asked(disk, SMALL, lib.Disk.table)
        same("a chain of slices", (calls, reads), (1, [*heads, 101, 201, 301, *(head + 2 for head in heads)]))
        same("its partitions", len(answer.partitions), 4 + 2 * 128)
    slices = SMALL.gpt(4096, {k: entry(40 * k, 40 * k + 20, FREEBSD, guid(k)) for k in range(1, 65)})
    with lib.Disk(put(path, slices)) as disk:
        _, calls, reads = asked(disk, SMALL, lib.Disk.table)
        same("a GPT of slices", (calls, reads), (CALLS_OF_SLICES, [40 * k + 1 for k in range(1, 65)]))


# disks that are drawn


class Wanting(replay.Disk):
    """A disk that keeps what the library wants of it, one sector after the other."""

    def read_ends(self):
        super().read_ends()
        self.wanted = []

    def _add(self, sector):
        super()._add(sector)
        self.wanted.append(sector)


def drawn_chain(rng):
    """A chain of up to eight records, one or two bytes of which, or of sector 0, are changed."""
    count = rng.randrange(1, 9)
    image = SMALL.mbr(400, [record(0xA5, 40, 50), record(rng.choice((0x05, 0x0F)), 100, 250)])
    for k in range(count):
        link = record(rng.choice((0x05, 0x0F)), 25 * (k + 1), 25) if k + 1 < count else NOTHING
        SMALL.put(image, 100 + 25 * k, ebr(record(rng.choice((0x83, 0xA5, 0)), 1, 24), link))
    for _ in range(rng.choice((0, 1, 1, 2))):
        place = rng.choice((0, 1, 4, 8, 9, 12)) + 16 * rng.choice((0, 0, 1, 1, 1, 2, 3))
        at = 512 * rng.choice((0, *(100 + 25 * k for k in range(count)))) + 446 + place
        image[at] = rng.choice((0, 1, 5, 15, 25, 50, 0x80, 0x83, 0xA5, 0xEE, 0xFF, rng.randrange(256)))
    return SMALL, image


def outcome(disk):
    """The library's answer to the call for the partitions, one sector after the other."""
    try:
        return [(it.number, it.first, it.last) for it in disk.members()[1]]
    except replay.Failed as failed:
        return failed.status, failed.reply.about, failed.reply.number


def drawn(folder, count):
    rng, path, library = random.Random(3), f"{folder}/drawn_chain", replay.Ptab(f"{folder}/libptab.so.2")
    hostile = of_test("hostile")["hostile"]
    for number in range(count):
        sectors, image = drawn_chain(rng) if number % 3 else hostile(rng)
        slow = Wanting(library, lambda k: bytes(image[k * sectors.size:(k + 1) * sectors.size]), sectors.count(image), sectors.size)
        wanted = outcome(slow)
        with lib.Disk(put(path, image), sector_size=sectors.size) as disk:
            answer, calls, reads = asked(disk, sectors, lib.Disk.table)
        found = [(it.number, it.first, it.last) for it in answer.partitions] if isinstance(answer, lib.Table) else answer
        same(f"drawn disk {number}: its partitions, and what is read", (found, sorted(reads)), (wanted, sorted(slow.wanted)))
        is_mbr = image[510:512] == b"\x55\xaa" and 0xEE not in image[450:511:16]
        most = 1 if is_mbr else CALLS_OF_SLICES + 1
        same(f"drawn disk {number}: the library is asked {calls} times, at most {most}", calls <= most, True)


def tried(folder, count):
    counted_library(folder)
    by_hand(folder)
    large_sectors(folder)
    long_ones(folder)
    drawn(folder, count)
    lib.load(f"{folder}/libptab.so.2")
