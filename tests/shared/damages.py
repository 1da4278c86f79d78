"""Whole GPTs, and all that `verify` finds wrong with their copies and their sector 0 and `repair` mends, by docs/format.md and with
none of the product's code: each damage with its finding, and the image that a repair has to leave."""
import random
import struct
import zlib
from dataclasses import dataclass, field

import images
from images import FREEBSD, LARGE, SMALL, Sectors, entry, guid, label, protective, record

OTHER = "11111111-2222-4333-8444-555555555555"


@dataclass
class Gpt:
    """A GPT of `count` sectors, with noise in each sector that is no table's; `fields` replace those of both headers, and `labels` are
    {lba: bytes}."""
    name: str
    sectors: Sectors
    count: int
    entries: dict
    fields: dict = field(default_factory=dict)
    labels: dict = field(default_factory=dict)
    made: bytearray = None

    def image(self):
        """Healthy, with boot code."""
        if self.made is None:
            self.made = self.whole()
        return bytearray(self.made)

    def whole(self):
        size, tables = self.sectors.size, self.sectors.array + 2
        image = self.sectors.gpt(self.count, self.entries, **self.fields)
        rng = random.Random(self.count)
        image[:440] = rng.randbytes(440)
        image[512:size] = rng.randbytes(size - 512)
        image[tables * size:(self.count - tables + 1) * size] = rng.randbytes((self.count - 2 * tables + 1) * size)
        for lba, content in self.labels.items():
            self.sectors.put(image, lba, content)
        return image

    def mended(self, image):
        """What a repair makes of an image, which may have grown, with this table."""
        it, count = bytearray(image), self.sectors.count(image)
        it[446:512] = protective(count)[446:]
        fields = {"last": self.count - self.sectors.array - 2, **self.fields}
        array = self.sectors.array * self.sectors.size
        for lba, content in self.sectors.gpt_pieces(count, self.entries, **fields).items():
            if lba:
                self.sectors.put(it, lba, content if len(content) == self.sectors.size else content + bytes(array - len(content)))
        return it


@dataclass
class Damage:
    """A damaged image: what `verify` tells after its `no`, whether the primary copy exists, and what a repair makes of it."""
    name: str
    finding: str
    image: bytearray
    primary: bool
    mended: bytearray

    def phases(self, sectors):
        """The number of writes in each phase of its repair."""
        arrays = [sectors.array + 1, 1, sectors.array, 1] if self.primary else [1, sectors.array, 1, sectors.array + 1]
        return arrays + ([] if self.image[446:512] == self.mended[446:512] else [1])


def place(gpt, image, side):
    return 1 if side == "primary" else gpt.sectors.count(image) - 1


def with_header(gpt, side, *changes, right=True):
    """The image with changes (offset, form, value) of a header, its CRC right or left as it was."""
    image = gpt.image()
    at = place(gpt, image, side) * gpt.sectors.size
    for offset, form, value in changes:
        struct.pack_into(form, image, at + offset, value)
    size = struct.unpack_from("<I", image, at + 12)[0]
    if right:
        struct.pack_into("<I", image, at + 16, 0)
        struct.pack_into("<I", image, at + 16, zlib.crc32(image[at:at + size]))
    return image


def headers(gpt, side):
    """(the copy's first fault, a name, the image), for a header that makes no copy."""
    sectors, array, last = gpt.sectors, gpt.sectors.array, gpt.count - gpt.sectors.array - 2
    beside = 3 if side == "primary" else gpt.count - array - 2
    for fault, name, changes in (
            (1, "signature", [(0, "<B", 0x65)]), (2, "revision", [(8, "<I", 0x20000)]), (2, "revision 0.1", [(8, "<I", 1)]),
            (3, "header of 91 bytes", [(12, "<I", 91)]), (5, "MyLBA 2", [(24, "<Q", 2)]),
            (5, "the other's MyLBA", [(24, "<Q", gpt.count - 1 if side == "primary" else 1)]),
            (5, "MyLBA past all", [(24, "<Q", 2 ** 64 - 1)]),
            (6, "array beside its place", [(72, "<Q", beside)]), (6, "array past all", [(72, "<Q", 2 ** 64 - 1)]),
            (7, "no entries", [(80, "<I", 0)]), (7, "129 entries", [(80, "<I", 129)]), (7, "all the entries", [(80, "<I", 2 ** 32 - 1)]),
            (7, "entries of 256 bytes", [(84, "<I", 256)]), (7, "entries of no bytes", [(84, "<I", 0)]),
            (8, "usable from the array on", [(40, "<Q", array + 1)]), (8, "usable into the backup", [(48, "<Q", last + 1)]),
            (8, "usable to the end of all", [(48, "<Q", 2 ** 64 - 1)]), (8, "none usable", [(40, "<Q", last), (48, "<Q", last - 1)]),
            (9, "array CRC", [(88, "<I", 0x12345678)])):
        yield fault, name, with_header(gpt, side, *changes)
    for fault, name, change in (
            (3, "header longer than a sector", (12, "<I", sectors.size + 1)), (3, "header of all bytes", (12, "<I", 2 ** 32 - 1)),
            (3, "header of no bytes", (12, "<I", 0)), (4, "header CRC", (16, "<I", 0x12345678)),
            (4, "disk GUID without its CRC", (56, "<B", 0x5A)), (4, "alternate without its CRC", (32, "<Q", 77))):
        yield fault, name, with_header(gpt, side, change, right=False)


def lost(gpt, side):
    """(the copy's first fault, a name, the image), for a copy that is written over in other ways."""
    sectors, size = gpt.sectors, gpt.sectors.size
    whole = gpt.image()
    at, array = place(gpt, whole, side), 2 if side == "primary" else gpt.count - gpt.sectors.array - 1
    other = place(gpt, whole, "backup" if side == "primary" else "primary")
    for fault, name, pieces in (
            (1, "header zeroed", {at: bytes(size)}), (1, "all zeroed", {at: bytes(size), array: bytes(size * sectors.array)}),
            (1, "header of FF", {at: b"\xff" * size}),
            (1, "noise", {at: random.Random(7).randbytes(size), array: b"\xa5" * size * sectors.array}),
            (5, "the other's header", {at: sectors.sector(whole, other)}), (9, "a byte of the array", {array: b"\x77"}),
            (9, "the array zeroed but one byte", {array: bytes(size * sectors.array - 1) + b"\1"})):
        image = bytearray(whole)
        for lba, content in pieces.items():
            sectors.put(image, lba, content)
        yield fault, name, image


def differing(gpt):
    """Two whole copies of two tables: the primary's counts."""
    first, last = gpt.fields.get("first", gpt.sectors.array + 2), gpt.fields.get("last", gpt.count - gpt.sectors.array - 2)
    for name, entries, fields in (
            ("disk GUID", gpt.entries, {"disk": OTHER}), ("an entry more", {**gpt.entries, 128: entry(first, last, unique=OTHER)}, {}),
            ("no entries", {}, {}), ("a name", {**gpt.entries, 1: entry(first, first, name="other")}, {}),
            ("127 entries", gpt.entries, {"count": 127}), ("one usable sector", gpt.entries, {"first": last}),
            ("an unsound backup", {1: entry(first, last), 2: entry(first, last)}, {})):
        fields = {**gpt.fields, **fields}
        if gpt.fields.get("count", 128) < 128 and name in ("an entry more", "127 entries") or last == first and name == "one usable sector":
            continue
        if entries == gpt.entries and fields == gpt.fields:
            continue
        image = gpt.image()
        gpt.sectors.put_side(image, "backup", entries, **fields)
        yield name, image


def sectors_0(gpt):
    """(a name, bytes 440 to 511 of sector 0) where that isn't protective and the disk is no MBR disk."""
    size, right = gpt.count - 1, protective(gpt.count)[440:]

    def of(first, rest=bytes(48), mark=b"\x55\xaa"):
        return bytes(6) + first + rest + mark
    chs, end = b"\x00\x02\x00", b"\xff\xff\xff"
    yield "zeros", bytes(72)
    yield "no mark", right[:70] + bytes(2)
    yield "mark turned", right[:70] + b"\xaa\x55"
    yield "FF", b"\xff" * 72
    for name, one in (("a sector more", record(0xEE, 1, size + 1, 0, chs, end)), ("a sector less", record(0xEE, 1, size - 1, 0, chs, end)),
                      ("no size", record(0xEE, 1, 0, 0, chs, end)), ("all of 32 bits", record(0xEE, 1, 2 ** 32 - 1, 0, chs, end)),
                      ("from 0", record(0xEE, 0, size, 0, chs, end)), ("from 2", record(0xEE, 2, size - 1, 0, chs, end)),
                      ("bootable", record(0xEE, 1, size, 0x80, chs, end)), ("another indicator", record(0xEE, 1, size, 1, chs, end)),
                      ("another first CHS", record(0xEE, 1, size, 0, b"\x00\x01\x00", end)),
                      ("another last CHS", record(0xEE, 1, size, 0, chs, b"\x41\x41\x00"))):
        yield name, of(one)
    both = record(0xEE, 1, size, 0, chs, end)
    yield "a hybrid", of(both, record(0x83, 10, 20) + bytes(32))
    yield "a hybrid with the record behind", of(record(0x0C, 10, 20), both + bytes(32))
    yield "the record last", of(bytes(16), bytes(32) + both)
    yield "a byte of an unused record", of(both, bytes(47) + b"\1")
    yield "an indicator of another record", of(both, b"\x80" + bytes(47))


def damages(gpt):
    """Each damage of a table."""
    sectors, whole = gpt.sectors, gpt.image()

    def one(name, finding, image, primary=True):
        return Damage(f"{gpt.name}, {name}", finding, image, primary, gpt.mended(image))
    for side, number in (("primary", 2), ("backup", 3)):
        for fault, name, image in [*headers(gpt, side), *lost(gpt, side)]:
            yield one(f"{side} {name}", f"{number} {side} copy {fault}", image, side == "backup")
    for name, image in differing(gpt):
        yield one(f"copies differ: {name}", "4 copies differ", image)
    for side, place_of in (("primary", gpt.count - 2), ("primary", 2 ** 64 - 1), ("backup", 0), ("backup", gpt.count - 1)):
        yield one(f"{side} names {place_of}", f"5 alternate {side}", with_header(gpt, side, (32, "<Q", place_of)))
    both = with_header(gpt, "primary", (32, "<Q", 1))
    sectors.put(both, gpt.count - 1, sectors.sector(with_header(gpt, "backup", (32, "<Q", 2)), gpt.count - 1))
    yield one("both name another", "5 alternate primary", both)
    for name, found in sectors_0(gpt):
        image = bytearray(whole)
        image[440:512] = found
        yield one(f"protective record {name}", "6 protective record", image)
    for more in (1, sectors.array, sectors.array + 1, 2 * sectors.array + 5, 1000):
        grown = whole + random.Random(more).randbytes(more * sectors.size)
        yield one(f"grown by {more}", "3 backup copy 1", grown)
    yield from together(gpt, one)


def together(gpt, one):
    """Several at once."""
    sectors, whole = gpt.sectors, gpt.image()
    for side in ("primary", "backup"):
        image = bytearray(whole)
        sectors.put(image, place(gpt, whole, side), bytes(sectors.size))
        image[440:512] = bytes(72)
        finding = "2 primary copy 1" if side == "primary" else "3 backup copy 1"
        yield one(f"{side} and sector 0 zeroed", finding, image, side == "backup")
    image = with_header(gpt, "backup", (32, "<Q", 77))
    sectors.put(image, 1, bytes(sectors.size))
    yield one("primary zeroed, backup names another", "2 primary copy 1", image, False)
    grown = whole + sectors.zeros(sectors.array + 9)
    grown[440:512] = bytes(72)
    yield one("grown, and sector 0 zeroed", "3 backup copy 1", grown)


def sliced():
    """Slices with a label of either form, one without a label and one that is too short for it."""
    base = 100
    return Gpt("slices", SMALL, 600,
               {1: entry(base, 199, FREEBSD, guid(1), name="bsd"), 3: entry(200, 299, FREEBSD, guid(3), 2 ** 63 + 4),
                4: entry(300, 349, FREEBSD, guid(4)),
                5: entry(350, 350, FREEBSD, guid(5)), 128: entry(500, 566, unique=guid(6), name="x" * 36)},
               labels={base + 1: label(100, {0: (30, base + 16, 7), 3: (20, base + 50, 1)}, raw_offset=base),
                       201: label(100, {0: (40, 16, 7), 1: (44, 56, 1)})})


def full(sectors, count):
    """All 128 entries, of all types and of one without a code."""
    kinds = (images.LINUX, "C12A7328-F81F-11D2-BA4B-00A0C93EC93B", "0657FD6D-A4AB-43C4-84E5-0933C84B4F4F", OTHER)
    first = sectors.array + 2
    step = (count - sectors.array - 1 - first) // 128
    return Gpt(f"128 entries, {sectors.size}", sectors, count,
               {k: entry(first + (k - 1) * step, first + k * step - 1, kinds[k % 4], guid(k), k % 8 + (k % 5 << 60), f"part {k}")
                for k in range(1, 129)})


def small_tables():
    """Tables of few sectors, with both sizes."""
    for sectors, least in ((SMALL, 68), (LARGE, 12)):
        first = sectors.array + 2
        yield Gpt(f"empty, {sectors.size}", sectors, least, {})
        yield Gpt(f"two, {sectors.size}", sectors, 200, {1: entry(first, 60, name="data"), 2: entry(61, 120, FREEBSD, guid(2), 1)})
        yield Gpt(f"three entries, {sectors.size}", sectors, 150, {1: entry(first + 6, 60), 3: entry(70, 100, unique=guid(3))},
                  {"count": 3, "first": first + 6, "last": 110})
    yield sliced()


def large_tables():
    yield Gpt("one of 4096 sectors", SMALL, 4096, {1: entry(2048, 4062)})
    yield full(SMALL, 3000)
    yield full(LARGE, 1000)
