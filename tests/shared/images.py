"""Disk images by docs/format.md, made byte by byte and with none of the product's code, for both sector sizes."""
import os
import struct
import tempfile
import uuid
import zlib

LINUX = "0FC63DAF-8483-4772-8E79-3D69D8477DE4"
FREEBSD = "516E7CB4-6ECF-11D6-8FF8-00022D09712B"
DISK = "00010203-0405-4607-8809-0a0b0c0d0e0f"
FIRST = "00000000-0000-4000-8000-000000000000"
MAGIC = 0x82564557


def guid(number):
    """A GUID of its own for each number."""
    return f"00000000-0000-4000-8000-{number:012x}"


def entry(first, last, kind=LINUX, unique=FIRST, attributes=0, name=""):
    units = name.encode("utf-16-le")
    return (uuid.UUID(kind).bytes_le + uuid.UUID(unique).bytes_le
            + struct.pack("<QQQ", first, last, attributes) + units + bytes(72 - len(units)))


def record(kind, first, size, boot=0, start_chs=b"\xfe\xff\xff", end_chs=b"\xfe\xff\xff"):
    return bytes([boot]) + start_chs + bytes([kind]) + end_chs + struct.pack("<II", first, size)


def protective(sectors):
    one = record(0xEE, 1, min(sectors - 1, 0xFFFFFFFF), 0, b"\x00\x02\x00", b"\xff\xff\xff")
    return bytes(446) + one + bytes(48) + b"\x55\xaa"


def array_of(entries, count=128):
    """The array of entries {number: bytes}, numbers from 1."""
    return b"".join(entries.get(number, bytes(128)) for number in range(1, count + 1))


def ebr(logical=bytes(16), link=bytes(16), rest=bytes(32), mark=b"\x55\xaa"):
    return bytes(446) + logical + link + rest + mark


def as_layout(image, chain):
    """An image without what no layout has of sector 0 and of these extended boot records, which is what stands before the records. CHS
    numbers, which one has but each tool counts in its own way, are left out too."""
    found = bytearray(image)
    for at in (lba * 512 for lba in (0, *chain)):
        found[at:at + 446] = bytes(446)
        for record_at in range(at + 446, at + 510, 16):
            found[record_at + 1:record_at + 4] = found[record_at + 5:record_at + 8] = bytes(3)
    return bytes(found)


def label(length, entries, raw_offset=0, count=8, checksum=None, sector_size=512, magic=MAGIC, magic2=MAGIC):
    """The 276 bytes of a label; entries {index: (size, offset, fstype)} beside the raw one."""
    all_entries = {2: (length, raw_offset, 0), **entries}
    table = b"".join(
        struct.pack("<IIIBBH", all_entries.get(k, (0, 0, 0))[0], all_entries.get(k, (0, 0, 0))[1], 0,
                    all_entries.get(k, (0, 0, 0))[2], 0, 0)
        for k in range(8))

    def bytes_with(total):
        return (struct.pack("<IHH32sI16sI68sIHHII", magic, 0, 0, bytes(32), sector_size, bytes(16), length, bytes(68),
                            magic2, total, count, 8192, 0) + table)
    counted = bytes_with(0)[:148 + 16 * count]
    total = 0
    for (word,) in struct.iter_unpack("<H", counted):
        total ^= word
    return bytes_with(total if checksum is None else checksum)


def checksum_of(label_bytes):
    return struct.unpack_from("<H", label_bytes, 136)[0]


def room():
    """A folder for images that goes with the block that it is for, in memory where that can be."""
    return tempfile.TemporaryDirectory(dir="/dev/shm" if os.access("/dev/shm", os.W_OK) else None)


class Sectors:
    """Images with sectors of `size` bytes, whose arrays of 128 entries take `array` of them."""

    def __init__(self, size):
        self.size = size
        self.array = 16384 // size

    def zeros(self, sectors):
        return bytearray(sectors * self.size)

    def put(self, image, lba, content):
        image[lba * self.size:lba * self.size + len(content)] = content

    def sector(self, image, lba):
        return bytes(image[lba * self.size:(lba + 1) * self.size])

    def count(self, image):
        return len(image) // self.size

    def header(self, my, alternate, first, last, array, array_crc, count=128, size=92, entry_size=128, disk=DISK,
               signature=b"EFI PART", revision=0x10000, crc=None):
        def bytes_with(crc):
            return struct.pack("<8sIIIIQQQQ16sQIII", signature, revision, size, crc, 0, my, alternate, first, last,
                               uuid.UUID(disk).bytes_le, array, count, entry_size, array_crc)
        rest = bytes(self.size - 92)
        return bytes_with(zlib.crc32((bytes_with(0) + rest)[:min(size, self.size)]) if crc is None else crc) + rest

    def side(self, sectors, side, entries, **fields):
        """The pieces {lba: bytes} of the primary or the backup copy; fields replace those of the header."""
        array = array_of(entries, min(fields.get("count", 128), 128))
        place = 2 if side == "primary" else sectors - self.array - 1
        my, alternate = (1, sectors - 1) if side == "primary" else (sectors - 1, 1)
        words = dict(my=my, alternate=alternate, first=self.array + 2, last=sectors - self.array - 2, array=place,
                     array_crc=zlib.crc32(array))
        words.update(fields)
        return {place: array, my: self.header(**words)}

    def put_side(self, image, side, entries, **fields):
        for lba, content in self.side(self.count(image), side, entries, **fields).items():
            self.put(image, lba, content)

    def gpt_pieces(self, sectors, entries, **fields):
        """The pieces of a healthy GPT image, where the fields, which replace those of both headers, leave it so."""
        return {0: protective(sectors), **self.side(sectors, "primary", entries, **fields),
                **self.side(sectors, "backup", entries, **fields)}

    def gpt(self, sectors, entries, **fields):
        """A whole GPT image."""
        image = self.zeros(sectors)
        for lba, content in self.gpt_pieces(sectors, entries, **fields).items():
            self.put(image, lba, content)
        return image

    def mbr(self, sectors, records):
        """An image of an MBR with up to four records."""
        image = self.zeros(sectors)
        table = b"".join(records)
        self.put(image, 0, bytes(446) + table + bytes(64 - len(table)) + b"\x55\xaa")
        return image


SMALL = Sectors(512)
LARGE = Sectors(4096)


def one_partition():
    """4096 sectors of 512 bytes with one partition that takes all that an alignment of 2048 leaves."""
    return SMALL.gpt(4096, {1: entry(2048, 4062)})


def chained(ebrs, sectors=SMALL, kind=0x05):
    """16384 sectors with an extended partition in 4096 to 12287, as record 2, and the sectors {lba: bytes}."""
    image = sectors.mbr(16384, [bytes(16), record(kind, 4096, 8192)])
    for lba, content in ebrs.items():
        sectors.put(image, lba, content)
    return image


def long_chain(count, sectors=SMALL, first=10):
    """1024 sectors with an extended partition of 900 and that many extended boot records, each with a logical of one sector."""
    image = sectors.mbr(1024, [record(0x05, first, 900)])
    for k in range(count):
        link = record(0x05, 2 * k + 2, 1) if k + 1 < count else bytes(16)
        sectors.put(image, first + 2 * k, ebr(record(0x83, 1, 1), link))
    return image
