#!/usr/bin/env python3
"""Long plans that harm and mend the copies of a GPT again and again, drawn by a fixed seed. `check` answers each as a plain version does,
which recovers the whole disk after each phase. After some recoveries `check` follows the copies write by write, so the two are held
together: with headers and arrays that are lost and found, that change with their sums right, and with other bytes of the same sum; with
headers that tell of another number of entries than the table has; on both sides, in sectors of 512 and 4096 bytes, with tables of 128
entries and of fewer, and with labels.

usage: tests/failures/long_plans.py PTAB DOUBLES [COUNT]     COUNT plans of each disk, else 60
"""
import os
import random
import subprocess
import sys
import zlib

sys.path.insert(0, os.path.join(os.path.dirname(os.path.abspath(__file__)), "..", "shared"))
from doubles import KEEPS_MEMORY  # noqa: E402
from images import FREEBSD, LARGE, SMALL, entry, guid, label, room  # noqa: E402
from plans import text_of  # noqa: E402

COUNT, PHASES = 60, 60
# one draw in so many may end what the disk denotes
WILD = 300


class Copy:
    """One side of a table on an image: where it is, and what stands there."""

    def __init__(self, sectors, count, entries, side):
        self.sectors, self.entries = sectors, entries
        self.header = 1 if side == "primary" else count - 1
        first = 2 if side == "primary" else count - sectors.array - 1
        self.array = range(first, first + -(-entries * 128 // sectors.size))
        # the sectors of the most entries that a header may tell of
        self.all = range(first, first + sectors.array)

    def array_of(self, image):
        return b"".join(self.sectors.sector(image, at) for at in self.array)[:self.entries * 128]

    def table(self, image):
        """The header's fields that make the table, and the entries, a zero for each unused one; None where the copy doesn't stand."""
        head = self.sectors.sector(image, self.header)
        size, crc = (int.from_bytes(head[at:at + 4], "little") for at in (12, 16))
        if head[:12] != b"EFI PART\0\0\1\0" or not 92 <= size <= len(head) or zlib.crc32(head[:16] + bytes(4) + head[20:size]) != crc:
            return None
        count, array = int.from_bytes(head[80:84], "little"), self.array_of(image)
        if count != self.entries or zlib.crc32(array) != int.from_bytes(head[88:92], "little"):
            # a table of another number of entries is another one; whether it stands doesn't matter here
            return None
        entries = [array[at:at + 128] for at in range(0, len(array), 128)]
        return head[40:72], [bytes(1) if it[:16] == bytes(16) else it for it in entries]


def sealed(sector, at, content):
    """A header with other bytes, and with its CRC."""
    found = bytearray(sector)
    found[at:at + len(content)] = content
    found[16:20] = bytes(4)
    size = int.from_bytes(found[12:16], "little")
    found[16:20] = zlib.crc32(found[:size if size <= len(found) else 92]).to_bytes(4, "little")
    return bytes(found)


def with_sum(content, at, wanted):
    """The bytes with four others from a place on, so that their CRC-32 is this one."""
    found = bytearray(content)
    found[at:at + 4] = bytes(4)
    base, rows = zlib.crc32(found), []
    for bit in range(32):
        found[at:at + 4] = (1 << bit).to_bytes(4, "little")
        rows.append((zlib.crc32(found) ^ base, 1 << bit))
    left, chosen = base ^ wanted, 0
    for bit in range(31, -1, -1):
        pivot = next(it for it in rows if it[0] >> bit & 1)
        rows = [(it[0] ^ pivot[0], it[1] ^ pivot[1]) if it[0] >> bit & 1 else it for it in rows if it is not pivot]
        if left >> bit & 1:
            left, chosen = left ^ pivot[0], chosen ^ pivot[1]
    found[at:at + 4] = chosen.to_bytes(4, "little")
    return bytes(found)


class Disk:
    """A disk, and plans for it that mostly leave what it denotes."""

    def __init__(self, title, sectors, image, entries=128, labels=()):
        self.title, self.sectors, self.image, self.labels = title, sectors, bytes(image), labels
        self.copies = [Copy(sectors, sectors.count(image), entries, side) for side in ("primary", "backup")]
        self.wanted = self.copies[0].table(image)

    def is_kept(self, image):
        """Whether it still denotes its table, as far as the copies tell."""
        primary, backup = (it.table(image) for it in self.copies)
        return primary == self.wanted or (primary is None and backup == self.wanted)

    def other_number(self, draw, image, copy):
        """A header that tells of another number of entries, mostly with the CRC of none."""
        number = draw.choice([copy.entries - 1, copy.entries + 1, 1, 5, 127, 128, 129, draw.randrange(1, 129)])
        head = sealed(self.sectors.sector(image, copy.header), 80, number.to_bytes(4, "little"))
        return head if draw.randrange(6) else sealed(head, 88, draw.randbytes(4))

    def header_write(self, draw, image, copy):
        now = self.sectors.sector(image, copy.header)
        return draw.choice([
            lambda: bytes(self.sectors.size),
            lambda: self.sectors.sector(self.image, copy.header),
            lambda: sealed(now, 32, draw.randbytes(8)),
            lambda: sealed(now, 12, draw.choice([92, 96, 512, 91]).to_bytes(4, "little")),
            lambda: self.other_number(draw, image, copy),
            lambda: sealed(now, 88, zlib.crc32(copy.array_of(image)).to_bytes(4, "little")),
            lambda: now[:92 + draw.randrange(8)] + draw.randbytes(1) + now[100:] + bytes(7),
        ])()[:self.sectors.size].ljust(self.sectors.size, b"\0")

    def array_write(self, draw, image, copy):
        at = draw.choice(copy.array if draw.randrange(4) else copy.all)
        now, first = self.sectors.sector(image, at), self.sectors.sector(self.image, at)
        place = draw.randrange(0, self.sectors.size - 64, 8)
        junk = now[:place] + draw.randbytes(8) + now[place + 8:]
        return at, draw.choice([
            lambda: first, lambda: bytes(self.sectors.size), lambda: junk,
            lambda: first[:place] + junk[place:place + 8] + first[place + 8:],
            lambda: with_sum(junk, self.sectors.size - 8, zlib.crc32(now)),
        ])()

    def writes(self, draw, image):
        """The writes of a phase."""
        copy = draw.choice(self.copies)
        kind = draw.randrange(12)
        if kind < 3:
            return [(copy.header, self.header_write(draw, image, copy))]
        if kind == 3 and self.labels:
            at = draw.choice(self.labels)
            now = self.sectors.sector(image, at)
            return [(at, now[:400] + draw.randbytes(4) + now[404:])]
        if kind == 4:
            now = self.sectors.sector(image, 0)
            return [(0, now[:440] + draw.randbytes(4) + now[444:])]
        if kind == 5 and self.copies[0].table(image) == self.wanted:
            # nobody reads the backup now
            return [self.array_write(draw, image, self.copies[1]) for _ in range(2)]
        return [self.array_write(draw, image, copy)]

    def numbers(self, draw, image):
        """One write of a primary header of some number of entries, of the good one, or of the array."""
        copy = self.copies[0]
        kind = draw.randrange(4)
        if kind == 0:
            return [self.array_write(draw, image, copy)]
        return [(copy.header, self.sectors.sector(self.image, copy.header) if kind == 1 else self.other_number(draw, image, copy))]

    def plan(self, draw):
        image, phases = bytearray(self.image), []
        # each third plan is about numbers of entries; each sixth begins with a header of another one
        kind = draw.randrange(6)
        while len(phases) < PHASES:
            if kind == 0 and not phases:
                writes = [(self.copies[0].header, self.other_number(draw, image, self.copies[0]))]
            else:
                writes = (self.numbers if kind < 2 else self.writes)(draw, image)
            after = bytearray(image)
            for at, content in writes:
                self.sectors.put(after, at, content)
            if draw.randrange(WILD) == 0 or self.is_kept(after):
                image = after
                phases.append(writes)
        changed = [at for at in range(self.sectors.count(image)) if self.sectors.sector(image, at) != self.sectors.sector(self.image, at)]
        # the backup's sectors come back first where the primary copy stands, else the primary's
        changed.sort(key=lambda at: (at < self.sectors.count(image) // 2) == (self.copies[0].table(image) == self.wanted))
        return phases + [[(at, self.sectors.sector(self.image, at))] for at in changed]


def disks():
    one = {1: entry(60, 99, unique=guid(1)), 3: entry(100, 129, unique=guid(3))}
    yield Disk("GPT", SMALL, SMALL.gpt(220, one))
    full = {k + 1: entry(60 + k, 60 + k, unique=guid(k + 1)) for k in range(126)}
    yield Disk("GPT, 126 entries", SMALL, SMALL.gpt(240, full, count=126), 126)
    yield Disk("GPT, 5 entries", SMALL, SMALL.gpt(220, one, count=5), 5)
    yield Disk("GPT, 100 entries", SMALL, SMALL.gpt(220, one, count=100), 100)
    yield Disk("GPT, 4 entries", SMALL, SMALL.gpt(220, one, count=4), 4)
    slices = {k + 1: entry(60 + 20 * k, 79 + 20 * k, FREEBSD, guid(k + 1)) for k in range(4)}
    image = SMALL.gpt(220, slices)
    for k in range(4):
        SMALL.put(image, 61 + 20 * k, label(20, {0: (16, 4, 7)}))
    yield Disk("GPT, labelled slices", SMALL, image, labels=[61 + 20 * k for k in range(4)])
    yield Disk("GPT, sectors of 4096 bytes", LARGE, LARGE.gpt(64, {2: entry(10, 19, unique=guid(2))}))
    yield Disk("GPT, sectors of 4096 bytes, 33 entries", LARGE, LARGE.gpt(64, {33: entry(10, 19, unique=guid(2))}, count=33), 33)


def main():
    if len(sys.argv) not in (3, 4):
        sys.exit("usage: tests/failures/long_plans.py PTAB DOUBLES [COUNT]")
    ptab, doubles = map(os.path.abspath, sys.argv[1:3])
    draw, count = random.Random(61), int(sys.argv[3]) if len(sys.argv) > 3 else COUNT
    passed = accepted = 0
    with room() as folder:
        for disk in disks():
            with open(f"{folder}/image", "wb") as it:
                it.write(disk.image)
            plans = [f"{folder}/plan{k}" for k in range(count)]
            for plan in plans:
                with open(plan, "w", encoding="ascii") as it:
                    it.write(text_of(disk.plan(draw)))
                size = [] if disk.sectors is SMALL else ["--sector-size", "4096"]
                said = subprocess.run([ptab, "check", *size, f"{folder}/image", plan], capture_output=True, text=True)
                if said.returncode not in (0, 1):
                    sys.exit(f"{disk.title}: check: {said.stdout}{said.stderr}, status {said.returncode}")
                accepted += said.returncode == 0
            words = [doubles, str(disk.sectors.size), f"{folder}/image", *plans]
            done = subprocess.run(words, capture_output=True, text=True, env={**os.environ, **KEEPS_MEMORY})
            if (done.stdout, done.returncode) != ("same\n", 0):
                sys.exit(f"{disk.title}: beside a plain version: {done.stdout}{done.stderr}, status {done.returncode}")
            passed += count
    if accepted * 5 < passed:
        sys.exit(f"only {accepted} of {passed} plans are accepted, so most end before the copies are followed")
    print(f"long plans: {passed} answered as a plain version does, 0 failed; {accepted} of them are accepted")


main()
