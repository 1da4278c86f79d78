"""The disks that jobs are measured on: healthy GPTs and a chain, by title, and full tables of 65,536 sectors."""
import os
import subprocess
import sys

sys.path.insert(0, os.path.join(os.path.dirname(os.path.abspath(__file__)), "..", "tests", "shared"))
from images import FREEBSD, SMALL, ebr, entry, guid, label, record  # noqa: E402

MIB = 1 << 20
LOGICALS = 120
ONE, FULL = "1 partition, 64 MiB", "128 partitions, gaps, 256 MiB"
TIGHT, CHAIN = "128 partitions, no gaps, 2 MiB", f"{LOGICALS} logicals, gaps, 256 MiB"
LARGE = "1 partition, sparse 1 TiB"
# the sectors from one slice to the next
APART = 400


def gpt_by_sgdisk(ptab, path, size, places):
    """A healthy table with these partitions: on small disks sgdisk's protective record is mended."""
    with open(path, "wb") as it:
        it.truncate(size)
    words = ["sgdisk", "-a", "1"]
    for number, (first, last) in enumerate(places, 1):
        words += ["-n", f"{number}:{first}:{last}", "-c", f"{number}:part {number}"]
    subprocess.run([*words, path], check=True, capture_output=True)
    subprocess.run([ptab, "repair", path], check=True, capture_output=True)


def chain(path, size, count):
    """An extended partition with that many logicals of 1 MiB less a sector."""
    image = SMALL.mbr(size // 512, [record(0x0F, 2048, 2048 * (count + 1))])
    for k in range(count):
        link = record(0x05, 2048 * (k + 1), 2048) if k + 1 < count else bytes(16)
        SMALL.put(image, 2048 * (k + 1), ebr(record(0x83, 1, 2047), link))
    with open(path, "wb") as it:
        it.write(image)


def apart(count):
    return [(2048 * k, 2048 * k + 1999) for k in range(1, count + 1)]


MAKE = {
    ONE: lambda ptab, path: gpt_by_sgdisk(ptab, path, 64 * MIB, apart(1)),
    FULL: lambda ptab, path: gpt_by_sgdisk(ptab, path, 256 * MIB, apart(128)),
    TIGHT: lambda ptab, path: gpt_by_sgdisk(ptab, path, 2 * MIB, [(34 + 31 * k, 64 + 31 * k) for k in range(128)]),
    CHAIN: lambda ptab, path: chain(path, 256 * MIB, LOGICALS),
    LARGE: lambda ptab, path: gpt_by_sgdisk(ptab, path, 1 << 40, apart(1)),
}


def damage(path):
    """Zeros over the primary header."""
    with open(path, "r+b") as it:
        it.seek(512)
        it.write(bytes(512))


# full tables


def full_gpt():
    """A GPT of 128 partitions."""
    return SMALL.gpt(65536, {k: entry(100 * k, 100 * k + 99, unique=guid(k), name=f"part {k}") for k in range(1, 129)})


def slice_label():
    """A label of a slice of 300 sectors, with seven partitions."""
    return label(300, {letter: (30, 16 + 30 * k, 7) for k, letter in enumerate((0, 1, 3, 4, 5, 6, 7))})


def labelled_gpt(slices=128, entries=128):
    """A GPT of so many slices, each with a label, and of so many entries; and the label places."""
    firsts = [1000 + APART * k for k in range(slices)]
    image = SMALL.gpt(65536, {k + 1: entry(first, first + 299, FREEBSD, guid(k + 1), name=f"part {k + 1}")
                              for k, first in enumerate(firsts)}, count=entries)
    for first in firsts:
        SMALL.put(image, first + 1, slice_label())
    return image, [first + 1 for first in firsts]


def labelled_chain():
    """An MBR of 3 slices and 128 logical ones, each with a label, and the extended boot records."""
    heads = [1000 + APART * k for k in range(128)]
    image = SMALL.mbr(65536, [*(record(0xA5, 100 + 100 * k, 100) for k in range(3)), record(0x05, 1000, 64000)])
    for k in range(3):
        SMALL.put(image, 101 + 100 * k, label(100, {0: (30, 16, 7)}))
    for k, head in enumerate(heads):
        link = record(0x05, APART * (k + 1), 301) if k < 127 else bytes(16)
        SMALL.put(image, head, ebr(record(0xA5, 1, 300), link))
        SMALL.put(image, head + 2, slice_label())
    return image, heads
