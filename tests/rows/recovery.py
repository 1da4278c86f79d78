"""Which sectors docs/model.md says that recovery, a verdict, a plan and a check read of a disk, worked out with none of the product's code.

It knows disks whose sector 0, chain and headers have the form of docs/format.md or are zero, as images.py makes them.
"""
import struct
import uuid
import zlib

from images import FREEBSD

EXTENDED, SLICE, PROTECTIVE = (0x05, 0x0F), 0xA5, 0xEE
FREEBSD_BYTES = uuid.UUID(FREEBSD).bytes_le


class Disk:
    """The sectors of an image, and what recovery of them comes to: `reads` are the sectors that decide it, `ebrs` the extended boot
    records among them, `places` the label places."""

    def __init__(self, sectors, image):
        self.sectors, self.count = sectors, len(image) // sectors.size
        self.image = bytes(image)
        self.reads, self.ebrs, self.places = {0} if self.count else set(), set(), set()
        self.is_mbr = self.count > 0 and self._is_mbr()
        if self.is_mbr:
            self._read_records()
        elif self.count >= 2 * sectors.array + 4:
            self._read_copies()
        self.reads |= self.places

    def at(self, lba):
        return self.sectors.sector(self.image, lba)

    def _is_mbr(self):
        head = self.at(0)
        return head[510:512] == b"\x55\xaa" and all(head[at] in (0, 0x80) and head[at + 4] != PROTECTIVE for at in range(446, 510, 16))

    def _records(self, lba):
        """(type, start, size) of the used records of a sector"""
        head = self.at(lba)
        for at in range(446, 510, 16):
            start, size = struct.unpack_from("<II", head, at + 8)
            if head[at + 4] and size:
                yield head[at + 4], start, size

    def _place_of(self, first, size):
        """The label place of a slice, if it has one."""
        return {first + 1} if self.sectors.size == 512 and size >= 2 and first + 1 < self.count else set()

    def _read_records(self):
        used = list(self._records(0))
        extended = [(start, size) for kind, start, size in used if kind in EXTENDED]
        if len(extended) > 1:
            return
        for kind, start, size in used:
            if kind == SLICE:
                self.places |= self._place_of(start, size)
        for first, size in extended:
            self._read_chain(first, size)

    def _read_chain(self, first, size):
        lba = first
        while lba is not None:
            if not first <= lba < min(first + size, self.count) or lba in self.ebrs:
                raise ValueError("a chain that isn't one")
            self.ebrs.add(lba)
            link = None
            for kind, start, length in self._records(lba):
                if kind in EXTENDED:
                    link = first + start
                elif kind == SLICE:
                    self.places |= self._place_of(lba + start, length)
            lba = link
        self.reads |= self.ebrs

    def side(self, is_primary):
        """The sectors that decide whether a copy exists, and its array, or None where it doesn't."""
        lba = 1 if is_primary else self.count - 1
        place = 2 if is_primary else self.count - self.sectors.array - 1
        head = self.at(lba)
        (signature, revision, size, crc, _, my, _, first, last, _, array, count, entry_size, array_crc) = struct.unpack_from(
            "<8sIIIIQQQQ16sQIII", head)
        is_head = (signature == b"EFI PART" and revision == 0x10000 and 92 <= size <= self.sectors.size
                   and zlib.crc32(head[:16] + bytes(4) + head[20:size]) == crc and my == lba and array == place
                   and 1 <= count <= 128 and entry_size == 128
                   and self.sectors.array + 2 <= first <= last <= self.count - self.sectors.array - 2)
        if not is_head:
            return {lba}, None
        counted = -(-count * 128 // self.sectors.size)
        entries = self.image[place * self.sectors.size:][:count * 128]
        return {lba, *range(place, place + counted)}, entries if zlib.crc32(entries) == array_crc else None

    def _read_copies(self):
        reads, entries = self.side(True)
        if entries is None:
            more, entries = self.side(False)
            reads |= more
        self.reads |= reads
        self.places |= self._places_in(entries)

    def _places_in(self, entries):
        """The label places of the slices in an array, of none where there is no array."""
        found = set()
        for at in range(0, len(entries or b""), 128):
            first, last = struct.unpack_from("<QQ", entries, at + 32)
            if entries[at:at + 16] == FREEBSD_BYTES and first <= last < 2 ** 63:
                found |= self._place_of(first, last - first + 1)
        return found

    def side_reads(self, is_primary):
        """The sectors that decide what a copy gives alone: those that decide the copy, and the label places of its slices."""
        reads, entries = self.side(is_primary)
        return reads | self._places_in(entries)

    def verdict_reads(self):
        """The sectors that decide a verdict: those that recovery reads, and the backup side of a GPT."""
        has_backup = not self.is_mbr and self.count >= 2 * self.sectors.array + 4
        return self.reads | (self.side(False)[0] if has_backup else set())

    def after(self, phases):
        """The disk after these phases of (sector, bytes)."""
        image = bytearray(self.image)
        for phase in phases:
            for lba, content in phase:
                self.sectors.put(image, lba, content)
        return Disk(self.sectors, image)


def plan_reads(wanted):
    """What a plan may read, once it is known what the disk denotes, for the layout that this disk denotes."""
    return {0} | wanted.ebrs | wanted.places


def check_reads(disk, phases):
    """What a check of a plan asks the disk for: sector 0 where it is written; what recovery reads after each phase, and what decides the
    verdict after all; but for the sectors that were written by then, which the check has."""
    asked = {0} if any(lba == 0 for phase in phases for lba, _ in phase) else set()
    for i in range(len(phases) + 1):
        written = {lba for phase in phases[:i] for lba, _ in phase}
        asked |= disk.after(phases[:i]).reads - written
    return asked | (disk.after(phases).verdict_reads() - {lba for phase in phases for lba, _ in phase})
