"""What edit makes of images, and what it refuses."""
import sys

import images
from images import FREEBSD, LARGE, SMALL, chained, ebr, entry, guid, label, one_partition, record

HEAD = f"gpt 4096 34 4062 {images.DISK}"
ONE = f"1 2048 4062 8300 0000000000000000 {images.FIRST}"
FRESH = ("--fresh", "000102030405060708090a0b0c0d0e0f" + "0" * 32)


def is_now(command, image, what):
    if command.image() != bytes(image):
        sys.exit(f"{what}: the image has other bytes")


def names(command):
    for name in ("data", "x" * 36, "\U0001F4BE" * 18, "a:b::c", "ü字", " ", "-"):
        command.on(one_partition()).edited(f"c:1:{name}").shows(HEAD, f"{ONE} {name}").healthy()
        is_now(command, SMALL.gpt(4096, {1: entry(2048, 4062, name=name)}), "a name")
    command.edited("c:1:").shows(HEAD, ONE)
    command.refused("edit 7", "c:1:" + "x" * 37).refused("edit 7", "c:1:" + "\U0001F4BE" * 18 + "x")
    command.refused("edit 1", "c:9:x").refused("edit 1", "c:129:x").refused("edit 1", "c:1:fine", "c:2:x")
    command.edited("a:1", "c:1:one", "c:1:two").shows(HEAD, f"{ONE} two")
    image = one_partition()
    SMALL.put_side(image, "primary", {1: entry(2048, 4062)}, size=512)
    command.on(image).edited("c:1:x")
    is_now(command, SMALL.gpt(4096, {1: entry(2048, 4062, name="x")}), "a header of 512 bytes")


def renamed_from_backup(command):
    wanted = SMALL.gpt(4096, {1: entry(2048, 4062, name="data")})
    for at in (512, 2 * 512 + 200, 4095 * 512, 446 + 5):
        broken = one_partition()
        broken[at] ^= 0xFF
        command.on(broken).edited("c:1:data").shows(HEAD, f"{ONE} data").healthy()
        is_now(command, wanted, "a rename of a damaged table")
    command.on(one_partition()).edited("c:1:data")
    is_now(command, wanted, "a rename")
    both = one_partition()
    both[512] ^= 0xFF
    both[4095 * 512] ^= 0xFF
    command.on(both).gives(["edit", "c:1:x"], "", "no table: copies 1 1\n", 4)
    command.on(both).gives(["edit", "a:1"], "", "no table: copies 1 1\n", 4)


def mended(command):
    """A word that changes nothing mends what is wrong with the copies and sector 0, and writes nothing where nothing is."""
    whole = one_partition()
    for at in (512, 2 * 512 + 200, 4095 * 512, 4063 * 512, 446 + 5, 510):
        broken = one_partition()
        broken[at] ^= 0xFF
        command.on(broken).edited("a:2048").healthy()
        is_now(command, whole, f"byte {at} mended")
    differing = one_partition()
    SMALL.put_side(differing, "backup", {1: entry(2048, 4061)})
    command.on(differing).unhealthy("4 copies differ").edited("a:2048").healthy()
    is_now(command, whole, "copies that differ, mended")
    named = one_partition()
    SMALL.put_side(named, "primary", {1: entry(2048, 4062)}, alternate=4094)
    command.on(named).unhealthy("5 alternate primary").edited("a:2048").healthy()
    is_now(command, whole, "an alternate place, mended")
    command.on(whole).edited("a:2048").edited("c:1:").edited("t:1:8300").edited("A:1:0:0").edited(f"u:1:{images.FIRST}", "e")
    is_now(command, whole, "nothing to change")


def new_tables(command):
    command.on(SMALL.zeros(2048)).refused("edit 10", "o").edited(*FRESH, "o").healthy()
    is_now(command, SMALL.gpt(2048, {}), "a new table")
    if SMALL.sector(SMALL.gpt(2048, {}), 1)[88:92] != bytes.fromhex("86d254ab"):
        sys.exit("the array of an empty table has another sum")
    command.on(SMALL.zeros(67)).refused("edit 12", *FRESH, "o")
    command.on(SMALL.zeros(68)).edited(*FRESH, "o").shows(f"gpt 68 34 34 {images.DISK}").healthy()
    command.on(SMALL.zeros(0)).refused("edit 12", "o").gives(["edit", "c:1:x"], "", "no table: too small\n", 4)
    command.on(one_partition()).edited(*FRESH, "o")
    is_now(command, SMALL.gpt(4096, {}), "a new table over one")
    boot = SMALL.zeros(4096)
    boot[:446] = bytes([0xEB]) * 446
    command.on(boot).edited(*FRESH, "a:8", "o").healthy()
    kept = SMALL.gpt(4096, {})
    kept[:446] = bytes([0xEB]) * 446
    is_now(command, kept, "boot code under a new table")


def large_tables(command):
    large = command.large()
    large.on(LARGE.zeros(11)).refused("edit 12", *FRESH, "o")
    for sectors, last in ((12, 6), (256, 250)):
        large.on(LARGE.zeros(sectors)).edited(*FRESH, "o").healthy().shows(f"gpt {sectors} 6 {last} {images.DISK}")
        is_now(large, LARGE.gpt(sectors, {}), "a new table of large sectors")
    first = SMALL.sector(large.image(), 0)[446:462]
    if first != bytes.fromhex("00000200eeffffff01000000ff000000"):
        sys.exit(f"the protective record of 256 large sectors is {first.hex()}")
    large.on(LARGE.gpt(256, {1: entry(6, 250)})).edited("c:1:x", "A:1:63:1")
    is_now(large, LARGE.gpt(256, {1: entry(6, 250, attributes=1 << 63, name="x")}), "a name on large sectors")
    large.on(LARGE.gpt(256, {1: entry(6, 250)}) + LARGE.zeros(10)).unhealthy("3 backup copy 1").edited("e").healthy()
    large.shows(f"gpt 266 6 260 {images.DISK}", f"1 6 250 8300 0000000000000000 {images.FIRST}")
    large.refused("edit 1", "d:1.a").refused("edit 1", "t:1.a:07").edited("t:1:A500").edited("t:1:8200")


def grown(command):
    command.on(one_partition() + SMALL.zeros(1000)).unhealthy("3 backup copy 1").edited("e").healthy()
    command.shows(f"gpt 5096 34 5062 {images.DISK}", ONE)
    command.on(one_partition() + SMALL.zeros(1000)).edited("c:1:x").shows(HEAD.replace("4096", "5096"), ONE + " x").healthy()


def fields(command):
    command.on(one_partition()).edited("t:1:ef00", "A:1:2:1", f"u:1:{images.DISK}").healthy()
    command.shows(HEAD, f"1 2048 4062 EF00 0000000000000004 {images.DISK}")
    command.edited("A:1:2:0", "A:1:63:1", "A:1:0:1").shows(HEAD, f"1 2048 4062 EF00 8000000000000001 {images.DISK}")
    command.edited(f"U:{images.FIRST}", "d:1").healthy().shows(f"gpt 4096 34 4062 {images.FIRST}")
    command.refused("edit 1", "d:1").refused("edit 1", "d:9").refused("edit 1", "t:1:8300").refused("edit 1", "A:2:1:1")
    two = SMALL.gpt(4096, {1: entry(2048, 3000), 2: entry(3001, 4000, unique=guid(2))})
    command.on(two).refused("edit 11", f"u:1:{guid(2)}").edited(f"u:1:{images.FIRST}")
    command.edited(f"u:2:{guid(3).upper()}", "t:2:A503").shows(
        HEAD, f"1 2048 3000 8300 0000000000000000 {images.FIRST}", f"2 3001 4000 A503 0000000000000000 {guid(3)}")
    command.refused("edit 8", "t:1:A500").refused("edit 6", "t:1:83").refused("edit 6", "t:1:1234")


def unsound(command):
    for first, last in ((3000, 2999), (2048, 2 ** 63), (33, 40), (4000, 4063)):
        command.on(SMALL.gpt(4096, {1: entry(first, last)})).refused("plan 4", "c:1:x")
    command.on(SMALL.gpt(4096, {1: entry(100, 300), 2: entry(200, 400, unique=guid(2))})).refused("plan 4", "c:1:x")
    command.on(SMALL.gpt(4096, {1: entry(100, 200), 2: entry(300, 400)})).refused("plan 4", "c:1:x")
    command.edited(f"u:2:{guid(2)}").healthy()
    command.on(SMALL.gpt(4096, {1: entry(100, 300), 2: entry(200, 400, unique=guid(2))})).edited("d:1").healthy()
    command.on(SMALL.gpt(4096, {1: entry(3000, 2999)})).edited("d:1").healthy().shows(HEAD)


def slices(command):
    image = SMALL.gpt(8192, {1: entry(2048, 6143, FREEBSD)})
    SMALL.put(image, 2049, label(4096, {3: (100, 16, 1)}))
    line = f"1 2048 6143 A500 0000000000000000 {images.FIRST}"
    command.on(image).edited("c:1:bsd").shows(f"gpt 8192 34 8158 {images.DISK}", line + " bsd", "1.d 2064 2163 01").healthy()
    command.refused("edit 8", "t:1:8300").refused("edit 8", "d:1.c").refused("edit 1", "d:1.a").refused("edit 6", "t:1.d:8300")
    command.edited("t:1.d:07").shows(f"gpt 8192 34 8158 {images.DISK}", line + " bsd", "1.d 2064 2163 07").healthy()
    command.edited("d:1.d").shows(f"gpt 8192 34 8158 {images.DISK}", line + " bsd").healthy()
    command.edited("d:1").healthy().shows(f"gpt 8192 34 8158 {images.DISK}")
    foreign = SMALL.gpt(8192, {1: entry(2048, 6143, FREEBSD)})
    SMALL.put(foreign, 2049, label(4000, {}))
    command.on(foreign).unhealthy("11 foreign label 1").refused("plan 4", "c:1:x").edited("d:1").healthy()


def not_for_mbr(command):
    """Words that are for a GPT alone, on an MBR disk."""
    command.on(chained({4096: ebr(link=record(0x05, 2047, 1001)), 6143: ebr(record(0x83, 1, 1000))}))
    for word in ("c:5:x", f"u:5:{guid(1)}", f"U:{guid(1)}", "A:5:1:1", "e"):
        command.refused("edit 9", word)
    broken = chained({4096: ebr(link=record(0x05, 0, 1))})
    command.on(broken).gives(["edit", "d:2"], "", "no table: chain 3 4096\n", 4)


ROWS = (names, renamed_from_backup, mended, new_tables, large_tables, grown, fields, unsound, slices, not_for_mbr)
