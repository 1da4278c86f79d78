"""What edit makes of new partitions and of an MBR that becomes a GPT, and what it refuses."""
import images
from images import FREEBSD, LARGE, SMALL, chained, ebr, entry, guid, label, long_chain, one_partition, record

HEAD = f"gpt 4096 34 4062 {images.DISK}"
ONE = f"1 2048 4062 8300 0000000000000000 {images.FIRST}"
BOTH = ("--fresh", "000102030405060708090a0b0c0d0e0f" + "0" * 32)
NEXT = ("--fresh", "101112131415161718191a1b1c1d1e1f")
NEXT_GUID = "10111213-1415-4617-9819-1a1b1c1d1e1f"


def new_line(number, first, last, code="8300"):
    return f"{number} {first} {last} {code} 0000000000000000 {NEXT_GUID}"


def beside_one(command):
    """A partition beside one that takes 2048 to 4062."""
    command.on(one_partition())
    refused = (("n:2:0:0", 3), ("n:2:100:200", 5), ("a:1 n:2:4063:0", 4), ("a:1 n:2:100:99", 3), ("a:1 n:2:100:4063", 4),
               ("a:1 n:2:100:2048", 5), ("a:1 n:129:0:0", 1), ("a:1 n:1:0:0", 2), ("a:1 n:2:0:0 n:3:0:0", 3), ("a:1 n:2:33:0", 4),
               ("a:1 n:2:18446744073709551615:0", 4), ("n:2:18446744073709551615:0", 4), ("a:1 n:2:100:+18446744073709551615", 4),
               ("n:1:0:0:05", 2), ("n:0:0:0:05", 6), ("n:2:0:0:1234", 6), ("n:2:0:0:83", 6), ("a:1 n:2:100:100:A500", 8),
               ("a:1 n:2:2048:2048:A500", 5), ("g", 9))
    for words, number in refused:
        command.refused(f"edit {number}", *NEXT, *words.split(" "))
    command.refused("edit 10", "a:1", "n:2:0:0").refused("edit 10", *NEXT, "a:1", "n:2:0:+1", "n:3:0:+1")
    command.refused("edit 11", "--fresh", "0" * 32, "a:1", "n:2:0:0").refused("edit 3", "a:1", "n:2:100:99")
    for words, first, last in (("a:8 n:2:0:0", 40, 2047), ("a:1 n:2:0:+100", 34, 133), ("a:1 n:2:34:34", 34, 34),
                               ("a:1 n:2:0:2047", 34, 2047), ("a:64 n:2:65:200", 128, 200), ("a:1 n:2:2047:0", 2047, 2047),
                               ("a:8 n:0:0:+1", 40, 40)):
        command.on(one_partition()).edited(*NEXT, *words.split(" ")).shows(HEAD, ONE, new_line(2, first, last)).healthy()
        wanted = SMALL.gpt(4096, {1: entry(2048, 4062), 2: entry(first, last, unique=NEXT_GUID)})
        if command.image() != bytes(wanted):
            raise SystemExit(f"{words}: the image has other bytes")
    for code in ("EF00", "ef00", "8200", "0700", "A503"):
        command.on(one_partition()).edited(*NEXT, "a:1", f"n:128:100:200:{code}").healthy()
        command.shows(HEAD, ONE, new_line(128, 100, 200, code.upper()))
    command.on(one_partition()).edited(*NEXT, "d:1", "n:1:2048:4062:8200").shows(HEAD, new_line(1, 2048, 4062, "8200")).healthy()
    command.on(one_partition()).edited(*NEXT, "a:1", "n:2:100:200", "c:2:new", "A:2:0:1", "d:1").healthy()
    command.shows(HEAD, f"2 100 200 8300 0000000000000001 {NEXT_GUID} new")


def from_nothing(command):
    command.on(SMALL.zeros(4096)).edited(*BOTH, "o", "n:1:0:0").shows(HEAD, ONE).healthy()
    if command.image() != bytes(one_partition()):
        raise SystemExit("a table made from nothing has other bytes")
    command.on(SMALL.zeros(2048)).refused("edit 3", *BOTH, "o", "n:0:0:0")
    command.refused("edit 10", *NEXT, "o", "a:1", "n:0:0:0").refused("edit 11", "--fresh", "0" * 96, "o", "a:1", "n:0:0:+1", "n:0:0:+1")
    command.edited(*BOTH, "o").edited("--fresh", "0" * 32, "a:1", "n:0:0:0").healthy()
    command.shows(f"gpt 2048 34 2014 {images.DISK}", f"1 34 2014 8300 0000000000000000 {images.FIRST}")
    command.on(SMALL.zeros(0)).gives(["edit", *BOTH, "n:1:0:0"], "", "no table: too small\n", 4)
    large = command.large()
    large.on(LARGE.zeros(256)).refused("edit 3", *BOTH, "o", "n:1:0:0")
    large.edited(*BOTH, "o", "a:1", "n:1:0:0").healthy()
    large.shows(f"gpt 256 6 250 {images.DISK}", f"1 6 250 8300 0000000000000000 {images.FIRST}")
    large.on(LARGE.zeros(1024)).edited(*BOTH, "o", "n:3:0:0:A500").healthy()
    large.shows(f"gpt 1024 6 1018 {images.DISK}", f"3 256 1018 A500 0000000000000000 {images.FIRST}")


def blocks(command):
    """Where a partition goes that leaves its place to the command: the block with the most sectors from its start on."""
    image = SMALL.gpt(8192, {1: entry(2000, 2999), 2: entry(5000, 5999, unique=guid(2))})
    for words, first, last in (("a:1 n:3:0:0", 6000, 8158), ("a:1000 n:3:0:0", 6000, 8158), ("a:1024 n:3:0:0", 6144, 8158),
                               ("a:1 n:3:34:0", 34, 1999), ("a:1000 n:3:3000:0", 3000, 4999), ("a:1000 n:3:2001:3000", 3000, 3000),
                               ("a:1 n:0:3500:+500", 3500, 3999)):
        command.on(image).edited(*NEXT, *words.split(" ")).healthy()
        shown = command.run("show")[0].split("\n")[3]
        if shown != new_line(3, first, last):
            raise SystemExit(f"{words}: {shown}")
    equal = SMALL.gpt(4096, {1: entry(1034, 3062)})
    command.on(equal).edited(*NEXT, "a:1", "n:2:0:0").shows(
        HEAD, f"1 1034 3062 8300 0000000000000000 {images.FIRST}", new_line(2, 34, 1033))
    full = SMALL.gpt(4096, {k: entry(100 + k, 100 + k, unique=guid(k)) for k in range(1, 129)})
    command.on(full).refused("edit 3", *NEXT, "n:0:0:0").refused("edit 3", *NEXT, "n:0:0:0:05").refused("edit 2", *NEXT, "n:128:0:0")
    command.on(SMALL.gpt(4096, {}, count=4)).refused("edit 1", *NEXT, "n:5:0:0").edited(*NEXT, "n:4:0:0").healthy()


def on_mbr(command):
    """Refusals on MBR disks."""
    command.on(SMALL.mbr(16384, []))
    for words, number in (("n:5:0:0", 1), ("n:1.a:0:0", 1), ("n:6:0:0", 1), ("n:1:0:0:8300", 6), ("n:1:0:0:EE", 6), ("n:1:0:0:00", 6),
                          ("n:1:16384:0", 4), ("a:1 n:1:100:99", 3), ("a:1 n:1:100:16384", 4), ("a:1 n:1:100:100:A5", 8), ("d:1", 1),
                          ("t:1:83", 1), ("t:1:8300", 1)):
        command.refused(f"edit {number}", *words.split(" "))
    image = chained({4096: ebr(link=record(0x05, 2047, 1001)), 6143: ebr(record(0x83, 1, 1000))})
    command.on(image)
    for words, number in (("n:6:0:+1000", 1), ("n:2:0:0", 2), ("n:5:0:+10:05", 8), ("n:5:0:+10:0F", 8), ("n:3:0:+10:05", 8),
                          ("n:3:0:+10:0F", 8), ("n:5:4096:+10", 5), ("a:1 n:5:6143:+10", 5), ("n:5:12288:+10", 4),
                          ("n:5:2048:+10", 4), ("n:3:4096:+10", 5), ("d:6", 1), ("t:6:83", 1), ("t:5:05", 8), ("t:2:83", 8),
                          ("t:5:EE", 6), ("t:5:8300", 6), ("n:5.a:0:0", 1), ("n:2.a:0:0", 1), ("d:5.a", 1), ("t:5.a:07", 1)):
        command.refused(f"edit {number}", *words.split(" "))
    four = SMALL.mbr(16384, [record(0x83, 100 * k, 100) for k in range(1, 5)])
    command.on(four).refused("edit 3", "n:0:0:0").refused("edit 3", "n:0:0:0:EE").refused("edit 2", "n:4:0:0")


def to_gpt(command):
    command.on(SMALL.mbr(4096, [record(0x83, 2048, 2016)])).refused("edit 12", *BOTH, "g")
    image = SMALL.mbr(4096, [record(0x83, 2048, 2015)])
    command.on(image).refused("edit 10", "g").refused("edit 10", *NEXT, "g")
    command.on(SMALL.mbr(4096, [record(0x0C, 2048, 2015)])).refused("edit 6", "g")
    command.on(SMALL.mbr(4096, [record(0x83, 33, 100)])).refused("edit 12", "g")
    command.on(SMALL.mbr(67, [record(0x83, 34, 1)])).refused("edit 12", "g")
    two = SMALL.mbr(4096, [record(0x83, 2048, 100), record(0x07, 3000, 100)])
    command.on(two).refused("edit 11", "--fresh", "0" * 96, "g").refused("edit 10", "--fresh", "0" * 64, "g")
    command.on(chained({4096: ebr(link=record(0x05, 2047, 1001)), 6143: ebr(record(0x0C, 1, 1000))})).refused("edit 6", "g")
    command.on(SMALL.mbr(16384, [record(0x05, 20, 8192)])).gives(["edit", "g"], "", "no table: chain 1 20\n", 4)
    low = SMALL.mbr(16384, [record(0x05, 20, 8192)])
    SMALL.put(low, 20, ebr())
    command.on(low).refused("edit 12", "g")
    command.on(long_chain(125, first=40)).refused("edit 12", "g")
    command.on(long_chain(124, first=40)).refused("edit 10", "g")


def no_slices(command):
    """A letter under what is no slice."""
    command.on(one_partition())
    for number in (1, 2, 128, 129, 2 ** 64 - 1):
        command.refused("edit 1", "a:1", f"n:{number}.a:0:0").refused("edit 1", f"d:{number}.a").refused("edit 1", f"t:{number}.a:07")
    command.large().on(LARGE.gpt(1024, {1: entry(6, 1018, FREEBSD)})).refused("edit 1", "n:1.a:0:0")


def in_labels(command):
    """Refusals of letters."""
    image = SMALL.mbr(8192, [record(0xA5, 2048, 4096), record(0xA5, 7000, 10), record(0xA5, 8000, 1), record(0x83, 100, 100)])
    command.on(image).refused("edit 13", "n:1.a:0:0").refused("edit 13", "n:1.c:0:0").refused("edit 13", "d:1.a")
    command.refused("edit 13", "n:3.a:0:0").refused("edit 1", "n:4.a:0:0").refused("edit 13", "t:1.a:07").refused("edit 8", "t:1:83")
    SMALL.put(image, 2049, label(4096, {0: (2000, 16, 7)}, count=4))
    SMALL.put(image, 7001, label(10, {}))
    command.on(image)
    for words, number in (("n:1.c:0:0", 8), ("n:1.a:0:0", 2), ("n:1.e:0:0", 1), ("n:1.b:0:0:8300", 6), ("n:1.b:0:0:00", 6),
                          ("a:1 n:1.b:2063:0", 4), ("a:1 n:1.b:2064:0", 5), ("a:1 n:1.b:4064:6144", 4), ("a:1 n:1.b:4064:4063", 3),
                          ("a:1 n:2.a:0:0", 3), ("a:1 n:2.a:7009:0", 4), ("d:1.b", 1), ("d:1.c", 8), ("t:1.c:07", 8), ("t:1.b:07", 1),
                          ("t:1.a:8300", 6), ("t:1.a:00", 6), ("d:1.h", 1)):
        command.refused(f"edit {number}", *words.split(" "))
    slice_of_gpt = SMALL.gpt(8192, {1: entry(2048, 6143, FREEBSD)})
    command.on(slice_of_gpt).refused("edit 13", "n:1.a:0:0").refused("edit 8", "t:1:8300").refused("edit 6", "t:1:05")


def far_labels(command):
    """An absolute label has no offset past 32 bits."""
    sectors = 2 ** 32 + 5000
    pieces = SMALL.gpt_pieces(sectors, {1: entry(4294967200, 4294968199, FREEBSD)})
    pieces[4294967201] = label(1000, {}, raw_offset=4294967200)
    lines = (f"gpt {sectors} 34 {sectors - 34} {images.DISK}", f"1 4294967200 4294968199 A500 0000000000000000 {images.FIRST}")
    command.on_sparse(sectors, pieces).refused("edit 15", "a:1", "n:1.a:4294967300:+10").edited("a:1", "n:1.a:4294967290:+10")
    command.shows(*lines, "1.a 4294967290 4294967299 07").healthy()
    pieces[4294967201] = label(1000, {})
    command.on_sparse(sectors, pieces).edited("a:1", "n:1.a:4294967300:+10").shows(*lines, "1.a 4294967300 4294967309 07").healthy()


ROWS = (beside_one, from_nothing, blocks, on_mbr, to_gpt, no_slices, in_labels, far_labels)
