"""Plans that keep the primary copy of a GPT: their phases, their switches, what stands in sector 1 meanwhile, and where they are the
plans without it."""
import zlib

import images
from images import FREEBSD, LARGE, SMALL, array_of, entry, guid, label, one_partition, record
from plans import both_copies, plan_of, primary_first, same, turns

KEEP = "--keep-primary"
FRESH = f"--fresh 000102030405060708090a0b0c0d0e0f{'0' * 32}"
HEAD = f"gpt 4096 34 4062 {images.DISK}"
ONE = f"1 2048 4062 8300 0000000000000000 {images.FIRST}"


def bridge(sectors, count, entries, **fields):
    """A header for sector 1 that has the backup's array."""
    words = dict(my=1, alternate=count - 1, first=sectors.array + 2, last=count - sectors.array - 2, array=count - sectors.array - 1,
                 array_crc=zlib.crc32(array_of(entries)))
    words.update(fields)
    return sectors.header(**words)


def after(command, image, phases):
    """The image with these phases written."""
    now = bytearray(image)
    for phase in phases:
        for lba, content in phase:
            command.sectors.put(now, lba, content)
    return now


def lost(sectors, image, first=1, count=1):
    now = bytearray(image)
    sectors.put(now, first, bytes(count * sectors.size))
    return now


def renamed(command):
    """A rename: the bridge of the new table, and what a stop behind it is."""
    for it, sectors, count in ((command, SMALL, 4096), (command.large(), LARGE, 512)):
        usable = sectors.array + 2
        old, new = {1: entry(usable, 100)}, {1: entry(usable, 100, name="data")}
        image = sectors.gpt(count, old)
        turns(it, image, f"{KEEP} c:1:data", both_copies(sectors, count), 2)
        same("a rename, the primary kept", it.image() == bytes(sectors.gpt(count, new)), True)
        phases = plan_of(it.on(image), KEEP, "c:1:data")
        same("the bridge of the new table", phases[1], [(1, bridge(sectors, count, new))])
        head = f"gpt {count} {usable} {count - usable} {images.DISK}"
        line = f"1 {usable} 100 8300 0000000000000000 {images.FIRST}"
        stopped = after(it, image, phases[:2])
        it.on(stopped).shows(head, f"{line} data").unhealthy("2 primary copy 6")
        it.gives(["repair", KEEP], "done\n").healthy()
        same("a bridge that was mended", it.image() == bytes(sectors.gpt(count, new)), True)
        it.on(stopped).repaired().shows(head, f"{line} data")
        turns(it, stopped, f"{KEEP} c:1:more", f"2-{sectors.array + 1} | 1 | {count - sectors.array - 1}-{count - 1}", 2)
        same("the rename without it", [lba for lba, _ in plan_of(it.on(image), "c:1:data")[1]], [1])
        same("the rename without it", plan_of(it, "c:1:data")[1][0][1], bytes(sectors.size))


def headers(command):
    """Where no entry changes there is no bridge, and a backup copy that stands isn't written."""
    image = one_partition()
    turns(command, image, f"{KEEP} U:{images.FIRST}", "4063-4095 | 1", 2)
    turns(command, image + SMALL.zeros(1000), f"{KEEP} e", "5063-5095 | 1 | 0", 2)
    other = bytearray(image)
    SMALL.put_side(other, "backup", {1: entry(2048, 4062, name="other")})
    turns(command, other, f"{KEEP} c:1:other", "1 | 2-33 | 1", 1, [HEAD, f"{ONE} other"])
    turns(command, other, f"{KEEP} c:1:data", both_copies(SMALL, 4096), 2, [HEAD, f"{ONE} data"])
    same("nothing to do", plan_of(command.on(image), KEEP, "c:1:"), [])


def from_the_backup(command):
    """Without a primary copy the old table comes first."""
    image, old, new = one_partition(), {1: entry(2048, 4062)}, {1: entry(2048, 4062, name="data")}
    moved = lost(SMALL, image, 2, 32)
    SMALL.put(moved, 100, array_of(old))
    SMALL.put(moved, 1, SMALL.header(my=1, alternate=4095, first=34, last=4062, array=100, array_crc=zlib.crc32(array_of(old))))
    for it in (lost(SMALL, image), lost(SMALL, image, 2, 1), lost(SMALL, image, 1, 33), moved):
        turns(command, it, f"{KEEP} c:1:data", primary_first(SMALL, 4096), 3, [HEAD, f"{ONE} data"])
        phases = plan_of(command.on(it), KEEP, "c:1:data")
        same("the bridge of the old table", phases[0], [(1, bridge(SMALL, 4096, old))])
        same("the primary header", phases[2], [(1, SMALL.side(4096, "primary", new)[1])])
    turns(command, lost(SMALL, image), f"{KEEP} U:{images.FIRST}", "1 | 4063-4095", 1)
    sliced = SMALL.gpt(2048, {1: entry(100, 1099, FREEBSD)})
    SMALL.put(sliced, 101, label(1000, {0: (100, 16, 7)}))
    turns(command, lost(SMALL, sliced), f"{KEEP} {FRESH} a:1 n:2:1100:1199:A500", primary_first(SMALL, 2048, "1101"), 3)


def nothing_there(command):
    """A disk that denotes nothing has no table to keep: zeros stand in sector 1."""
    turns(command, SMALL.zeros(2048), f"{KEEP} {FRESH} o", "1 | 2015-2047 | 0", 1)
    turns(command, SMALL.zeros(2048), f"{KEEP} {FRESH} o a:1 n:1:0:0", "2-33 | 1 | 2015-2047 | 0", 2)
    junk = SMALL.zeros(2048)
    SMALL.put(junk, 1, b"something")
    turns(command, junk, f"{KEEP} {FRESH} o a:1 n:1:0:0", "1 | 2-33 | 1 | 2015-2047 | 0", 3)
    same("zeros", plan_of(command.on(junk), *f"{KEEP} {FRESH} o a:1 n:1:0:0".split(" "))[0], [(1, bytes(512))])


def unchanged(command):
    """An MBR, one that becomes a GPT, and a label have the same plan."""
    sliced = SMALL.gpt(2048, {1: entry(100, 1099, FREEBSD)})
    SMALL.put(sliced, 101, label(1000, {0: (100, 16, 7)}))
    mbr = SMALL.mbr(1024, [record(0x83, 100, 100)])
    for image, words in ((sliced, "t:1.a:01"), (mbr, "a:1 n:2:200:299 t:1:07"), (mbr, f"{FRESH} g"), (mbr, f"{FRESH} o")):
        same(words, plan_of(command.on(image), KEEP, *words.split(" ")), plan_of(command, *words.split(" ")))
    command.gives(["plan", KEEP, "d:2"], "", "refused: edit 1\n", 3).gives(["edit", KEEP, "d:2"], "", "refused: edit 1\n", 3)


def repairs(command):
    """A repair that keeps the primary copy writes what isn't as it should be, and on a healthy image nothing."""
    image = SMALL.gpt(100, {1: entry(34, 50), 2: entry(51, 60, unique=guid(2))})
    for broken in (lost(SMALL, image), lost(SMALL, image, 1, 33), lost(SMALL, image, 99), lost(SMALL, image, 67, 33),
                   lost(SMALL, image, 0)):
        command.on(broken).gives(["repair", KEEP], "done\n").healthy()
        same("a repair", command.image() == bytes(image), True)
        command.writes_nothing(["repair", KEEP], "done\n")
    command.on(SMALL.gpt(100, {1: entry(34, 50), 2: entry(50, 60, unique=guid(2))}))
    command.writes_nothing(["repair", KEEP], "", "refused: repair 2\n", 3)
    command.on(SMALL.zeros(100)).writes_nothing(["repair", KEEP], "", "no table: copies 1 1\n", 4)


ROWS = [renamed, headers, from_the_backup, nothing_there, unchanged, repairs]
