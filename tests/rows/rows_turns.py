"""Which sectors an edit writes in which phases where a GPT is made, changed or mended, or made of an MBR, and what check says of it."""
import images
from images import FREEBSD, LARGE, LINUX, SMALL, chained, ebr, entry, guid, label, one_partition, record
from plans import at, both_copies, converted, primary_first, record_at, refused, same, turns

HEAD = f"gpt 4096 34 4062 {images.DISK}"
ONE = f"1 2048 4062 8300 0000000000000000 {images.FIRST}"
WIDE = f"gpt 8192 34 8158 {images.DISK}"
BOTH = "--fresh 000102030405060708090a0b0c0d0e0f" + "0" * 32
NEXT = "--fresh 101112131415161718191a1b1c1d1e1f"
NEXT_GUID = "10111213-1415-4617-9819-1a1b1c1d1e1f"
A = (16, 2000)


def is_now(command, image, what):
    same(what, command.image() == bytes(image), True)


def slice_line(number, first, last, unique=images.FIRST):
    return f"{number} {first} {last} A500 0000000000000000 {unique}"


def labelled(entries, content, place=2049, sectors=8192, **fields):
    image = SMALL.gpt(sectors, entries, **fields)
    SMALL.put(image, place, content)
    return image


def part(offset, size, kind=7):
    """An entry of a label."""
    return size, offset, kind


def from_nothing(command):
    turns(command, SMALL.zeros(2048), f"{BOTH} o", primary_first(SMALL, 2048, protects=True), 3, [f"gpt 2048 34 2014 {images.DISK}"])
    is_now(command, SMALL.gpt(2048, {}), "a new table")
    same("the protective record", record_at(command.image(), 0, 1), "00 00 02 00 ee ff ff ff 01 00 00 00 ff 07 00 00")
    same("the sum of the array", (at(command.image(), 1, 88, 91), at(command.image(), 2047, 88, 91)), ("86 d2 54 ab", "86 d2 54 ab"))
    refused(command.on(SMALL.zeros(2048)), "edit 10", "o")
    turns(command, SMALL.zeros(68), f"{BOTH} o", primary_first(SMALL, 68, protects=True), 3, [f"gpt 68 34 34 {images.DISK}"])
    turns(command, SMALL.zeros(4096), f"{BOTH} o n:1:0:0", primary_first(SMALL, 4096, protects=True), 3, [HEAD, ONE])
    is_now(command, one_partition(), "a new table with a partition")
    turns(command, SMALL.zeros(4096), f"{BOTH} o n:1:2048:2147:A500", primary_first(SMALL, 4096, "2049", True), 3,
          [HEAD, slice_line(1, 2048, 2147)])
    is_now(command, labelled({1: entry(2048, 2147, FREEBSD)}, label(100, {}), sectors=4096), "a new table with a slice")
    protected = SMALL.zeros(4096)
    SMALL.put(protected, 0, bytes([0xEB]) * 446 + images.protective(4096)[446:])
    turns(command, protected, f"{BOTH} o", primary_first(SMALL, 4096), 3, [HEAD])
    junk = SMALL.zeros(4096)
    junk[:] = bytes(range(256)) * 8192
    turns(command, junk, f"{BOTH} o a:1 n:7:0:+1", primary_first(SMALL, 4096, protects=True), 3, [HEAD, "7" + ONE[1:].replace(
        "2048 4062", "34 34")])
    same("boot code", at(command.image(), 0, 0, 445), bytes(junk[:446]).hex(" "))
    sloppy = SMALL.mbr(4096, [record(0xEE, 1, 0)])
    turns(command, sloppy, f"{BOTH} o", primary_first(SMALL, 4096, protects=True), 3, [HEAD])


def primary_stands(command):
    turns(command, one_partition(), "c:1:data", both_copies(SMALL, 4096), 2, [HEAD, f"{ONE} data"])
    is_now(command, SMALL.gpt(4096, {1: entry(2048, 4062, name="data")}), "a name")
    turns(command, one_partition(), f"{NEXT} a:1 n:2:0:+100", both_copies(SMALL, 4096), 2,
          [HEAD, ONE, f"2 34 133 8300 0000000000000000 {NEXT_GUID}"])
    turns(command, None, "d:1 t:2:8200", both_copies(SMALL, 4096), 2, [HEAD, f"2 34 133 8200 0000000000000000 {NEXT_GUID}"])
    turns(command, None, f"U:{guid(7)}", both_copies(SMALL, 4096), 2)
    turns(command, None, f"{BOTH} o", both_copies(SMALL, 4096), 2, [HEAD])
    sloppy = one_partition()
    sloppy[446 + 5] = 0xFE
    turns(command, sloppy, "c:1:data", both_copies(SMALL, 4096, protects=True), 2, [HEAD, f"{ONE} data"])
    second = one_partition()
    second[446 + 16 + 8] = 1
    turns(command, second, "c:1:data", both_copies(SMALL, 4096, protects=True), 2, [HEAD, f"{ONE} data"])
    boot = one_partition()
    boot[:446] = bytes([0xEB]) * 446
    turns(command, boot, "c:1:data", both_copies(SMALL, 4096), 2)
    grown = one_partition() + SMALL.zeros(1000)
    turns(command, grown, "e", both_copies(SMALL, 5096, protects=True), 2, [HEAD.replace("4096", "5096").replace("4062", "5062"), ONE])
    turns(command, grown, "a:1", both_copies(SMALL, 5096, protects=True), 0, [HEAD.replace("4096", "5096"), ONE])
    differing = one_partition()
    SMALL.put_side(differing, "backup", {1: entry(2048, 4061)})
    turns(command, differing, "c:1:x", both_copies(SMALL, 4096), 2, [HEAD, f"{ONE} x"])


def primary_gone(command):
    for lba, byte in ((1, 0), (1, 40), (2, 200)):
        broken = one_partition()
        broken[lba * 512 + byte] ^= 0xFF
        turns(command, broken, "c:1:data", primary_first(SMALL, 4096), 3, [HEAD, f"{ONE} data"])
        is_now(command, SMALL.gpt(4096, {1: entry(2048, 4062, name="data")}), "a name from the backup")
        turns(command, broken, "a:1", primary_first(SMALL, 4096), 0, [HEAD, ONE])
        is_now(command, one_partition(), "a mended table")
    broken = one_partition()
    broken[510:512 + 9] = bytes(11)
    turns(command, broken, "a:7", primary_first(SMALL, 4096, protects=True), 0, [HEAD, ONE])
    turns(command, broken, f"{NEXT} a:1 n:2:0:+100:A500", primary_first(SMALL, 4096, "35", True), 3,
          [HEAD, ONE, slice_line(2, 34, 133, NEXT_GUID)])


def nothing_to_do(command):
    """A healthy table that stays: no phase; else it is mended."""
    whole = labelled({1: entry(2048, 6143, FREEBSD)}, label(4096, {0: part(*A)}))
    for words in ("a:1", "a:2048", "c:1:", f"u:1:{images.FIRST}", "e", "A:1:0:0", f"U:{images.DISK}", "c:1:x c:1:"):
        turns(command, whole, words, "", 0)
        is_now(command, whole, "a table that stays")
    command.on(whole).gives(["plan", "a:1"], "")
    mbr = SMALL.mbr(8192, [record(0x83, 2048, 100)])
    turns(command, mbr, "a:9", "", 0, ["mbr 8192", "1 2048 2147 83 00"])
    turns(command, mbr, "t:1:83", "", 0)
    turns(command, mbr, "d:1 n:1:2048:2147", "", 0)
    unhealthy = bytearray(whole)
    unhealthy[8191 * 512] ^= 1
    turns(command, unhealthy, "a:1", both_copies(SMALL, 8192), 0, [WIDE, slice_line(1, 2048, 6143), "1.a 2064 4063 07"])
    is_now(command, whole, "a mended table with a label")
    unhealthy[512] ^= 1
    command.on(unhealthy).gives(["plan", "a:1"], "", "no table: copies 1 1\n", 4)


def new_labels(command):
    """New slices: their labels go before the switch, in order of sectors."""
    empty = SMALL.gpt(8192, {})
    fresh = "--fresh " + "".join(guid(k).replace("-", "") for k in (1, 2))
    words = f"{fresh} n:1:6144:8158:A500 n:2:2048:6143:A500 a:1 n:2.a:2064:4063"
    turns(command, empty, words, both_copies(SMALL, 8192, "2049 6145"), 2,
          [WIDE, slice_line(1, 6144, 8158, guid(1)), slice_line(2, 2048, 6143, guid(2)), "2.a 2064 4063 07"])
    wanted = labelled({1: entry(6144, 8158, FREEBSD, guid(1)), 2: entry(2048, 6143, FREEBSD, guid(2))}, label(4096, {0: part(*A)}))
    SMALL.put(wanted, 6145, label(2015, {}))
    is_now(command, wanted, "two slices")
    blank = SMALL.zeros(8192)
    fresh = "--fresh " + "".join(guid(k).replace("-", "") for k in (9, 1, 2))
    turns(command, blank, f"{fresh} o {words.split(' ', 2)[2]}", primary_first(SMALL, 8192, "2049 6145", True), 3)
    noise = SMALL.gpt(8192, {})
    SMALL.put(noise, 2049, bytes(range(256)) * 2)
    turns(command, noise, f"{NEXT} n:1:2048:6143:A500", both_copies(SMALL, 8192, "2049"), 2)
    same("a new label stands over zeros", at(command.image(), 2049, 276, 511), bytes(236).hex(" "))


def made_again(command):
    """A slice deleted and made again where it was. Its label is new, and is written though its bytes stand there: the old table
    has no slice there, and recovery didn't read the sector."""
    command.on(SMALL.zeros(4096)).edited(*f"{BOTH} o n:1:2048:3000:A500".split(" "))
    before = command.image()
    turns(command, None, "d:1", both_copies(SMALL, 4096), 2, [HEAD])
    turns(command, None, "--fresh " + "0" * 32 + " n:1:2048:3000:A500", both_copies(SMALL, 4096, "2049"), 2,
          [HEAD, slice_line(1, 2048, 3000)])
    is_now(command, before, "a slice made again")


def takes_the_place(command):
    """A slice where a leaf was: not in one call, since the old table owns its label's place."""
    command.on(one_partition())
    refused(command, "plan 2", f"{NEXT} d:1 n:1:2048:4062:A500")
    refused(command, "plan 2", f"{NEXT} d:1 a:1 n:2:2047:4062:A500")
    turns(command, None, "d:1", both_copies(SMALL, 4096), 2, [HEAD])
    turns(command, None, f"{NEXT} n:1:2048:4062:A500", both_copies(SMALL, 4096, "2049"), 2, [HEAD, slice_line(1, 2048, 4062, NEXT_GUID)])
    turns(command, one_partition(), f"{NEXT} d:1 a:1 n:1:2000:4062:A500", both_copies(SMALL, 4096, "2001"), 2,
          [HEAD, slice_line(1, 2000, 4062, NEXT_GUID)])


def label_beside_table(command):
    """A label that changes and a table that changes don't go in one call; a new label does."""
    entries = {1: entry(100, 200, unique=guid(5)), 2: entry(2048, 6143, FREEBSD)}
    image = labelled(entries, label(4096, {0: part(*A)}))
    command.on(image)
    for words in ("c:1:x n:2.b:4064:0", "a:1 n:2.b:4064:4163 d:1", "d:2.a A:1:2:1", "t:2.a:01 c:2:bsd"):
        refused(command, "plan 1", words)
    low = labelled({1: entry(100, 200, unique=guid(5)), 2: entry(2048, 6143, FREEBSD)}, label(4096, {}, count=3))
    refused(command.on(low), "plan 1", "c:1:x a:1 n:2.b:2064:2100")
    refused(command, "edit 1", "c:1:x a:1 n:2.d:2064:2100")
    turns(command, image, "a:1 n:2.b:4064:4163", "2049", 1,
          [WIDE, f"1 100 200 8300 0000000000000000 {guid(5)}", slice_line(2, 2048, 6143), "2.a 2064 4063 07", "2.b 4064 4163 07"])
    turns(command, image, f"c:1:x {NEXT} n:3:6144:0:A500", both_copies(SMALL, 8192, "6145"), 2)
    covered = labelled({1: entry(2049, 2049, unique=guid(5)), 2: entry(2048, 6143, FREEBSD)}, label(4096, {}))
    refused(command.on(covered), "plan 2", "d:1 a:1 n:2.a:2064:2100")
    refused(command, "plan 4", "a:1 n:2.a:2064:2100")
    turns(command, covered, "d:1", both_copies(SMALL, 8192), 2, [WIDE, slice_line(2, 2048, 6143)])


def taken_by_sector(command):
    """Labels are compared by their sectors, not by the numbers of their slices: one whose slice gets another number stays."""
    content = label(4096, {0: part(*A)}) + bytes(range(100))
    image = labelled({1: entry(2048, 6143, FREEBSD)}, content)
    turns(command, image, f"{NEXT} d:1 n:2:2048:6143:A500 a:1 n:2.a:2064:4063", both_copies(SMALL, 8192), 2,
          [WIDE, slice_line(2, 2048, 6143, NEXT_GUID), "2.a 2064 4063 07"])
    same("the label's sector", SMALL.sector(command.image(), 2049), content + bytes(136))
    refused(command.on(image), "plan 1", f"{NEXT} d:1 n:2:2048:6143:A500")
    refused(command, "plan 1", f"{NEXT} d:1 n:1:2048:6143:A500")
    refused(command, "plan 1", f"{NEXT} d:1 n:1:2048:6000:A500")


def over_foreign_labels(command):
    """What has the magic and is no label of its slice: it may not stay; a new slice's label that has these very bytes isn't
    written, since recovery read them, and another can't be."""
    foreign = labelled({1: entry(2048, 5047, FREEBSD)}, label(4096, {}))
    command.on(foreign)
    for words in ("c:1:x", "a:1", "e", f"{NEXT} n:2:6144:0"):
        refused(command, "plan 4", words)
    turns(command, foreign, "d:1", both_copies(SMALL, 8192), 2, [WIDE])
    turns(command, foreign, f"{NEXT} a:1 d:1 n:1:2048:6143:A500", both_copies(SMALL, 8192), 2, [WIDE, slice_line(1, 2048, 6143, NEXT_GUID)])
    refused(command.on(foreign), "plan 1", f"{NEXT} a:1 d:1 n:1:2048:5000:A500")
    foreign[512] ^= 1
    turns(command, foreign, f"{NEXT} a:1 d:1 n:1:2048:6143:A500", primary_first(SMALL, 8192), 3,
          [WIDE, slice_line(1, 2048, 6143, NEXT_GUID)])
    refused(command.on(foreign), "plan 1", f"{NEXT} a:1 d:1 n:1:2048:5000:A500")
    bare = SMALL.gpt(8192, {1: entry(2048, 5047, FREEBSD)})
    turns(command, bare, "c:1:x", both_copies(SMALL, 8192), 2, [WIDE, slice_line(1, 2048, 5047) + " x"])
    turns(command, bare, f"--fresh {'0' * 32} d:1 n:1:2048:5047:A500", "2049", 1, [WIDE, slice_line(1, 2048, 5047)])
    refused(command.on(bare), "plan 1", f"{NEXT} d:1 n:1:2048:5047:A500")
    refused(command, "plan 1", f"{NEXT} d:1 n:1:2048:6143:A500")
    later = labelled({1: entry(2048, 6143, FREEBSD)}, label(4000, {}))
    refused(command.on(later), "plan 4", f"{NEXT} n:2:6144:0")
    under = SMALL.gpt(8192, {})
    SMALL.put(under, 2049, label(4000, {}))
    turns(command, under, f"{NEXT} n:1:2048:6143:A500", both_copies(SMALL, 8192, "2049"), 2, [WIDE, slice_line(1, 2048, 6143, NEXT_GUID)])


def low_slices(command):
    """A slice from sector 0, whose label's place is the primary header: no hindrance where that sector is the switch, but one
    where it is written before."""
    image = SMALL.gpt(4096, {1: entry(0, 99, FREEBSD)})
    turns(command, image, "d:1", both_copies(SMALL, 4096), 2, [HEAD])
    image = SMALL.zeros(4096)
    SMALL.put(image, 0, images.protective(4096))
    SMALL.put_side(image, "backup", {1: entry(0, 99, FREEBSD)})
    SMALL.put(image, 1, label(100, {}))
    refused(command.on(image), "plan 1", "d:1")
    refused(command, "plan 4", "c:1:x")
    image = SMALL.gpt(4096, {1: entry(0, 99, LINUX)})
    refused(command.on(image), "plan 2", "d:1")
    image = SMALL.gpt(4096, {1: entry(4062, 4095, FREEBSD), 2: entry(100, 200, unique=guid(2))})
    refused(command.on(image), "plan 1", "d:1")


def unsound(command):
    for entries in ({1: entry(100, 300), 2: entry(200, 400, unique=guid(2))}, {1: entry(33, 40)}, {1: entry(3000, 2999)},
                    {1: entry(100, 200), 2: entry(300, 400)}):
        command.on(SMALL.gpt(4096, entries))
        for words in ("c:1:x", "a:1", f"U:{guid(1)}"):
            refused(command, "plan 4", words)
    turns(command, SMALL.gpt(4096, {1: entry(100, 300), 2: entry(200, 400, unique=guid(2))}), "d:2", both_copies(SMALL, 4096), 2,
          [HEAD, ONE.replace("2048 4062", "100 300")])
    refused(command.on(SMALL.gpt(4096, {1: entry(33, 40)})), "plan 2", "d:1")
    refused(command.on(SMALL.gpt(4096, {1: entry(4000, 4063)})), "plan 2", "d:1")
    turns(command, SMALL.gpt(4096, {1: entry(3000, 2999)}), "d:1", both_copies(SMALL, 4096), 2, [HEAD])


def short_tables(command):
    """A table keeps its number of entries; whole arrays are written, with zeros past the last entry."""
    image = SMALL.gpt(4096, {4: entry(2048, 4062)}, count=4)
    SMALL.put(image, 3, b"past the last entry" * 20)
    SMALL.put(image, 4070, b"past the last entry" * 20)
    turns(command, image, "c:4:x", both_copies(SMALL, 4096), 2, [HEAD, f"4{ONE[1:]} x"])
    is_now(command, SMALL.gpt(4096, {4: entry(2048, 4062, name="x")}, count=4), "a short table")
    refused(command, "edit 1", f"{NEXT} n:5:0:0")
    image = SMALL.gpt(4096, {3: entry(2048, 4062)}, count=3)
    image[2 * 512 + 3 * 128] = 0xFF
    turns(command, image, f"{NEXT} a:1 n:0:0:+1", both_copies(SMALL, 4096), 2)
    is_now(command, SMALL.gpt(4096, {3: entry(2048, 4062), 1: entry(34, 34, unique=NEXT_GUID)}, count=3), "a table of three")
    image = SMALL.gpt(4096, {1: entry(100, 200)}, first=100, last=200)
    turns(command, image, "c:1:x", both_copies(SMALL, 4096), 2)
    is_now(command, SMALL.gpt(4096, {1: entry(100, 200, name="x")}, first=100, last=200), "a table of few sectors")


def of_mbr(command):
    """An MBR that becomes a GPT, by `g` or `o`."""
    refused(command.on(SMALL.mbr(4096, [record(0x83, 2048, 2016)])), "edit 12", f"{BOTH} g")
    image = SMALL.mbr(4096, [record(0x83, 2048, 2015)])
    turns(command, image, f"{BOTH} g", converted(SMALL, 4096), 2, [HEAD, ONE])
    is_now(command, one_partition(), "an MBR that became a GPT")
    turns(command, image, f"{BOTH} o", converted(SMALL, 4096), 2, [HEAD])
    boot = SMALL.mbr(4096, [record(0x07, 100, 50, 0x80)])
    boot[:446] = bytes([0xEB]) * 446
    turns(command, boot, f"{BOTH} g c:1:old", converted(SMALL, 4096), 2, [HEAD, f"1 100 149 0700 0000000000000000 {images.FIRST} old"])
    same("boot code", at(command.image(), 0, 0, 445), bytes([0xEB] * 446).hex(" "))
    sliced = SMALL.mbr(8192, [bytes(16), record(0xA5, 2048, 4096)])
    SMALL.put(sliced, 2049, label(4096, {0: part(*A)}))
    turns(command, sliced, f"{BOTH} g", converted(SMALL, 8192), 2, [WIDE, slice_line(2, 2048, 6143), "2.a 2064 4063 07"])
    refused(command.on(sliced), "plan 1", f"{BOTH} g a:1 n:2.b:4064:0")
    turns(command, SMALL.mbr(8192, [record(0xEF, 2048, 100)]), "--fresh " + "".join(guid(k).replace("-", "") for k in range(1, 4))
          + " g n:0:4096:0:A500", converted(SMALL, 8192, "4097"), 2,
          [WIDE.replace(images.DISK, guid(1)), f"1 2048 2147 EF00 0000000000000000 {guid(2)}", slice_line(2, 4096, 8158, guid(3))])
    logicals = chained({4096: ebr(record(0x82, 1, 10), record(0x05, 2047, 1001)), 6143: ebr(record(0x83, 1, 1000))})
    turns(command, logicals, "--fresh " + "".join(guid(k).replace("-", "") for k in range(1, 4)) + " g", converted(SMALL, 16384), 2,
          [f"gpt 16384 34 16350 {guid(1)}", f"5 4097 4106 8200 0000000000000000 {guid(2)}", f"6 6144 7143 8300 0000000000000000 {guid(3)}"])


def over_mbr(command):
    """`o` over an MBR: not where a leaf stands in a place of the tables, nor where recovery reads one."""
    for records in ([record(0x83, 2048, 2048)], [record(0x83, 33, 10)], [record(0x83, 0, 10)], [record(0x83, 4063, 1)]):
        refused(command.on(SMALL.mbr(4096, records)), "plan 2", f"{BOTH} o")
    for records in ([record(0x83, 2048, 2015)], [record(0x83, 34, 10)], [record(0x05, 40, 100)], []):
        image = SMALL.mbr(4096, records)
        SMALL.put(image, 40, ebr())
        turns(command, image, f"{BOTH} o", converted(SMALL, 4096), 2, [HEAD])
    for place in (20, 33, 4063):
        image = SMALL.mbr(4096, [record(0x05, place, 33)])
        SMALL.put(image, place, ebr())
        refused(command.on(image), "plan 1", f"{BOTH} o")
    for first, why in ((20, "plan 1"), (32, "plan 1"), (4070, "plan 1"), (0, "plan 1")):
        refused(command.on(SMALL.mbr(4096, [record(0xA5, first, 20)])), why, f"{BOTH} o")
    turns(command, SMALL.mbr(4096, [record(0xA5, 33, 4063)]), f"{BOTH} o", converted(SMALL, 4096), 2, [HEAD])
    broken = SMALL.mbr(4096, [record(0x05, 20, 100)])
    command.on(broken).no_table("chain 1 20")
    refused(command, "plan 1", f"{BOTH} o")
    broken = SMALL.mbr(4096, [record(0x05, 100, 100)])
    turns(command, broken, f"{BOTH} o", converted(SMALL, 4096), 2, [HEAD])
    downward = SMALL.mbr(4096, [record(0x05, 100, 4000)])
    SMALL.put(downward, 100, ebr(link=record(0x05, 3970, 1)))
    SMALL.put(downward, 4070, ebr(link=record(0x05, 1, 1)))
    command.on(downward).no_table("chain 3 4070")
    refused(command, "plan 1", f"{BOTH} o")
    two = SMALL.mbr(4096, [record(0x05, 20, 5), record(0x0F, 30, 5)])
    turns(command, two, f"{BOTH} o n:1:0:0", converted(SMALL, 4096), 2, [HEAD, ONE])
    refused(command.on(SMALL.mbr(67, [])), "edit 12", f"{BOTH} o")
    turns(command, SMALL.mbr(68, []), f"{BOTH} o", converted(SMALL, 68), 2, [f"gpt 68 34 34 {images.DISK}"])
    turns(command, SMALL.mbr(4096, []), f"{BOTH} o n:1:2048:2147:A500", converted(SMALL, 4096, "2049"), 2,
          [HEAD, slice_line(1, 2048, 2147)])
    owned = SMALL.mbr(4096, [record(0x83, 2048, 100)])
    refused(command.on(owned), "plan 2", f"{BOTH} o n:1:2048:2147:A500")


def large(command):
    """Sectors of 4096 bytes: arrays of four, no slices."""
    it = command.large()
    head, one = f"gpt 256 6 250 {images.DISK}", f"1 6 250 8300 0000000000000000 {images.FIRST}"
    turns(it, LARGE.zeros(256), f"{BOTH} o", "1 | 2-5 | 1 | 251-255 | 0", 3, [head])
    is_now(it, LARGE.gpt(256, {}), "a new table of large sectors")
    same("the protective record", record_at(it.image(), 0, 1, LARGE), "00 00 02 00 ee ff ff ff 01 00 00 00 ff 00 00 00")
    same("the sum of the array", at(it.image(), 1, 88, 91, LARGE), "86 d2 54 ab")
    refused(it.on(LARGE.zeros(256)), "edit 3", f"{BOTH} o n:1:0:0")
    turns(it, LARGE.zeros(256), f"{BOTH} o a:1 n:1:0:0", primary_first(LARGE, 256, protects=True), 3, [head, one])
    refused(it.on(LARGE.zeros(11)), "edit 12", f"{BOTH} o")
    turns(it, LARGE.zeros(12), f"{BOTH} o", "1 | 2-5 | 1 | 7-11 | 0", 3, [f"gpt 12 6 6 {images.DISK}"])
    whole = LARGE.gpt(256, {1: entry(6, 250)})
    turns(it, whole, "c:1:data", "251-255 | 1 | 2-5 | 1", 2, [head, f"{one} data"])
    is_now(it, LARGE.gpt(256, {1: entry(6, 250, name="data")}), "a name")
    turns(it, whole, "t:1:A500", "251-255 | 1 | 2-5 | 1", 2, [head, one.replace("8300", "A500")])
    turns(it, None, "t:1:8200", "251-255 | 1 | 2-5 | 1", 2, [head, one.replace("8300", "8200")])
    broken = bytearray(whole)
    broken[4096] ^= 1
    turns(it, broken, "c:1:data", "1 | 2-5 | 1 | 251-255", 3, [head, f"{one} data"])
    turns(it, broken, "a:1", "1 | 2-5 | 1 | 251-255", 0, [head, one])
    turns(it, whole + LARGE.zeros(10), "e", "261-265 | 1 | 2-5 | 1 | 0", 2, [f"gpt 266 6 260 {images.DISK}", one])
    mbr = LARGE.mbr(256, [record(0xA5, 6, 245)])
    mbr[512:4096] = bytes([7]) * 3584
    turns(it, mbr, f"{BOTH} g", "1-5 251-255 | 0", 2, [head, one.replace("8300", "A500")])
    same("bytes of sector 0 past the record", at(it.image(), 0, 512, 4095, LARGE), (bytes([7]) * 3584).hex(" "))
    refused(it.on(LARGE.mbr(256, [record(0x83, 6, 246)])), "edit 12", f"{BOTH} g")
    refused(it.on(LARGE.mbr(256, [record(0x83, 6, 246)])), "plan 2", f"{BOTH} o")
    turns(it, LARGE.mbr(256, [record(0x83, 6, 245)]), f"{BOTH} o", converted(LARGE, 256), 2, [head])
    chain = LARGE.mbr(256, [record(0x05, 4, 100)])
    LARGE.put(chain, 4, ebr())
    refused(it.on(chain), "plan 1", f"{BOTH} o")


ROWS = (from_nothing, primary_stands, primary_gone, nothing_to_do, new_labels, made_again, takes_the_place, label_beside_table,
        taken_by_sector, over_foreign_labels, low_slices, unsound, short_tables, of_mbr, over_mbr, large)
