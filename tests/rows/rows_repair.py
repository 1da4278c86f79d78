"""repair by the command: what it mends and keeps, what it leaves alone, its refusals and its faults."""
import os
import random

import images
from command import Command
from images import FREEBSD, LARGE, SMALL, chained, ebr, entry, guid, label, one_partition, protective, record
from plans import same

HEAD = f"gpt 4096 34 4062 {images.DISK}"
ONE = f"1 2048 4062 8300 0000000000000000 {images.FIRST}"


def is_now(command, wanted, what):
    same(what, command.image() == bytes(wanted), True)


def grown(command):
    """A repair keeps the usable sectors of a disk that has grown, where `e` would move their end."""
    old = one_partition() + SMALL.zeros(1000)
    command.on(old).unhealthy("3 backup copy 1").shows(HEAD.replace("4096", "5096"), ONE).repaired()
    command.shows(HEAD.replace("4096", "5096"), ONE)
    wanted = bytearray(old)
    for lba, content in SMALL.gpt_pieces(5096, {1: entry(2048, 4062)}, last=4062).items():
        SMALL.put(wanted, lba, content)
    is_now(command, wanted, "a grown disk")
    command.edited("e").shows(f"gpt 5096 34 5062 {images.DISK}", ONE).repaired()


def stopped(command):
    """A rename whose second phase was written and no more: the new table by its backup, which a repair or another edit makes whole."""
    new = SMALL.gpt(4096, {1: entry(2048, 4062, name="data")})
    half = one_partition()
    half[4063 * 512:] = new[4063 * 512:]
    SMALL.put(half, 1, bytes(512))
    command.on(half).shows(HEAD, f"{ONE} data").unhealthy("2 primary copy 1").repaired().shows(HEAD, f"{ONE} data")
    is_now(command, new, "a rename that was stopped")
    command.on(half).edited("c:1:other").healthy().shows(HEAD, f"{ONE} other").writes_nothing(["repair"], "done\n")


def whole(command):
    """What verify takes is left as it is: odd bytes that no rule reads, both forms of a label, a tail, a table without partitions."""
    image = one_partition()
    command.on(image).writes_nothing(["repair"], "done\n")
    command.on(image + b"a tail").writes_nothing(["repair"], "done\n")
    for at, fields in ((1, {"size": 512}), (1, {"size": 100}), (4095, {"size": 93})):
        other = bytearray(image)
        SMALL.put_side(other, "primary" if at == 1 else "backup", {1: entry(2048, 4062)}, **fields)
        other[at * 512 + 500] = 7 if fields["size"] < 500 else 0
        command.on(other).healthy().writes_nothing(["repair"], "done\n")
    unused = SMALL.gpt(4096, {1: entry(2048, 4062)})
    SMALL.put_side(unused, "backup", {1: entry(2048, 4062), 9: bytes(16) + b"\x55" * 112})
    command.on(unused).healthy().writes_nothing(["repair"], "done\n")
    boot = bytearray(image)
    boot[:446] = random.Random(1).randbytes(446)
    command.on(boot).healthy().writes_nothing(["repair"], "done\n")


def tail(command):
    """A tail shorter than a sector, boot code and the disk signature stay."""
    for sectors, it in ((SMALL, command), (LARGE, command.large())):
        image = sectors.gpt(256, {1: entry(100, 200)})
        image[:446] = random.Random(2).randbytes(446)
        image[512:sectors.size] = b"\x5a" * (sectors.size - 512)
        wanted = bytes(image) + b"a tail"
        for broken in (1, 255):
            damaged = bytearray(wanted)
            damaged[446:512] = bytes(66)
            sectors.put(damaged, broken, bytes(sectors.size))
            it.on(damaged).repaired()
            is_now(it, wanted, "what a repair keeps")


def sparse(command):
    """A disk whose protective record can't tell its size."""
    count = 2 ** 32 + 10
    pieces = SMALL.gpt_pieces(count, {1: entry(2048, 4_000_000_000)})
    for lost in (1, count - 1):
        command.on_sparse(count, {**pieces, lost: bytes(512)})
        command.unhealthy("2 primary copy 1" if lost == 1 else "3 backup copy 1").repaired()
        same("a large disk", [command.sector_at(lba) for lba in pieces], [content[:512] for content in pieces.values()])
    command.on_sparse(count, {**pieces, 0: protective(count - 2 ** 32)}).unhealthy("6 protective record").repaired()
    same("the record of a large disk", command.sector_at(0), protective(count))


def nothing_to_mend(command):
    """MBR disks: nothing is written on them, whether there are copies of a GPT or not."""
    for it, sectors in ((command, SMALL), (command.large(), LARGE)):
        it.on(sectors.mbr(200, [record(0x83, 100, 50, 0x80)])).writes_nothing(["repair"], "done\n")
        chain = {4096: ebr(link=record(0x05, 2047, 1001)), 6143: ebr(record(0x83, 1, 1000))}
        it.on(chained(chain, sectors)).writes_nothing(["repair"], "done\n")
        it.on(sectors.mbr(1, [])).writes_nothing(["repair"], "done\n")
        it.on(sectors.mbr(200, [record(0x83, 100, 101)])).unhealthy("7 outside 1").not_repaired()
        it.on(sectors.mbr(200, [record(0x83, 100, 20), record(0x07, 119, 5)])).unhealthy("8 overlap 1 2").not_repaired()
        under = sectors.gpt(200, {1: entry(100, 120)})
        under[446:462] = record(0x83, 50, 20)
        sectors.put(under, 1, bytes(sectors.size))
        it.on(under).healthy().writes_nothing(["repair"], "done\n")


def left_to_a_choice(command):
    """Findings 7 to 11, which a repair doesn't mend: also where a copy is lost, when verify tells that first."""
    for it, sectors in ((command, SMALL), (command.large(), LARGE)):
        for finding, entries in (("7 outside 1", {1: entry(120, 119)}),
                                 ("8 overlap 1 2", {1: entry(100, 110), 2: entry(110, 120, unique=guid(2))}),
                                 ("10 same guid 1 2", {1: entry(100, 110), 2: entry(111, 120)})):
            image = sectors.gpt(200, entries)
            it.on(image).unhealthy(finding).not_repaired()
            for broken, told in ((1, "2 primary copy 1"), (199, "3 backup copy 1")):
                damaged = bytearray(image)
                sectors.put(damaged, broken, bytes(sectors.size))
                it.on(damaged).unhealthy(told).not_repaired()
            damaged = bytearray(image)
            damaged[510] = 0
            it.on(damaged).unhealthy("6 protective record").not_repaired()
            it.edited("d:1").healthy().writes_nothing(["repair"], "done\n")
    foreign = SMALL.gpt(8192, {1: entry(2048, 6143, FREEBSD)})
    SMALL.put(foreign, 2049, label(4000, {}))
    command.on(foreign).unhealthy("11 foreign label 1").not_repaired().edited("d:1").writes_nothing(["repair"], "done\n")
    on_table = chained({4096: ebr(link=record(0x05, 2047, 1001)), 6143: ebr(record(0x83, 1, 1000), record(0x05, 2904, 1)), 7000: ebr()})
    command.on(on_table).unhealthy("9 on table 5 7000").not_repaired()


def no_tables(command):
    def told(it, image, why):
        it.on(image).writes_nothing(["repair"], "", f"no table: {why}\n", 4)
    for it, sectors in ((command, SMALL), (command.large(), LARGE)):
        told(it, b"", "too small")
        told(it, bytes(sectors.size - 1), "too small")
        told(it, sectors.zeros(2 * sectors.array + 3), "too small")
        told(it, sectors.zeros(2 * sectors.array + 4), "copies 1 1")
        told(it, sectors.gpt(200, {})[:-sectors.size], "copies 8 1")
        told(it, chained({4096: ebr(link=record(0x05, 0, 1))}, sectors), "chain 3 4096")
        told(it, images.long_chain(129, sectors), "chain 5")
        told(it, sectors.mbr(200, [record(0x05, 10, 20), record(0x0F, 40, 20)]), "two extended")
    both = one_partition()
    both[512] ^= 0xFF
    both[4095 * 512] ^= 0xFF
    told(command, both, "copies 1 1")
    told(command.large(), one_partition(), "copies 1 1")


def faults(command):
    """Usage, and images that can't be opened."""
    command.on(one_partition())
    for words in (["repair", "c:1:x"], ["repair", "--fresh", ""], ["repair", "--sector-size", "1024"]):
        out, err, status = command.run(*words)
        same(f"{words}", (out, err != "", status), ("", True, 2))
    here = os.path.dirname(command.path)
    for path in (f"{here}/missing", here, "/dev/null"):
        same(f"repair {path}", Command(command.ptab, path).run("repair"), ("", "device\n", 5))


ROWS = (grown, stopped, whole, tail, sparse, nothing_to_mend, left_to_a_choice, no_tables, faults)
