"""What readers of partition tables that Debian has find on an image. Each takes a path and the size of a sector, and gives the table as a
tuple of (number, first, last, name), in sectors of that size and by number, where a name that the reader doesn't tell is None; or None
where it finds no table. `blkid` tells the table's kind and GUID alone.

All of these take a GPT's array from where PartitionEntryLBA says. So do Linux, EDK2 and U-Boot (machines.py), mmls, disktype and 7-Zip.
Two that Debian has aren't asked:

- nbdkit's partition filter reads the entries from sector 2, whatever the header says. Where a bridge stands it shows what is in the
  primary array: the old table, and while that array is written a mixture (at 23 of 109 stops of an edit that makes 40 partitions).
- pyparted raises an exception wherever libparted has a question, so also while the backup copy is written, whatever is in sector 1.
"""
import json
import os
import re
import shutil
import struct
import sys
import zlib
from dataclasses import dataclass

from compared import put
from loops import Loop
from tools import ENVIRONMENT, run


def whole(rows):
    return tuple(sorted(rows)) or None


def by_primary(path, size):
    """A reader of the primary copy alone with all of UEFI's checks of a header and of an array, wherever that stands, under a protective
    record: as Linux without `gpt`, which machines.py asks itself."""
    with open(path, "rb") as it:
        image = it.read()
    header, sectors = image[size:2 * size], len(image) // size
    (signature, revision, length, crc, _, my, alternate, first, last, _, array, count, entry, array_crc) = struct.unpack_from(
        "<8sIIIIQQQQ16sQIII", header)
    entries = image[array * size:array * size + count * entry]
    if not (signature == b"EFI PART" and revision == 0x10000 and 92 <= length <= size and my == 1 and entry == 128 and 1 <= count <= 128
            and crc == zlib.crc32(header[:16] + bytes(4) + header[20:length]) and array_crc == zlib.crc32(entries)
            and len(entries) == count * entry and first <= last < sectors and alternate < sectors and 0xEE in image[450:510:16]):
        return None
    parts = [(number, entries[128 * number - 128:128 * number]) for number in range(1, count + 1)]
    return whole((number, *struct.unpack_from("<QQ", part, 32), part[56:].decode("utf-16-le").split("\0")[0]) for number, part in parts
                 if any(part[:16]))


def by_grub(path, size):
    """It tries each size of a sector itself, and tells no names."""
    told = run("grub-fstest", path, "ls", "--", "-l").stdout
    found = re.findall(r"Partition loop0,([^:]*): .* - Partition start at ([\d.]+)KiB - Total size ([\d.]+)KiB", told)
    places = [(number, round(float(first) * 1024) // size, round(float(length) * 1024) // size) for number, first, length in found]
    return whole((int(re.sub(r".*[a-z]", "", number)), first, first + length - 1, None) for number, first, length in places)


def by_partx(path, size):
    """Libblkid's list of partitions, in sectors of 512 bytes."""
    told = run("partx", "--pairs", "--sector-size", str(size), "-o", "NR,START,END,NAME", path).stdout
    unit = size // 512
    found = re.findall(r'^NR="(\d+)" START="(\d+)" END="(\d+)" NAME="(.*)"$', told, re.MULTILINE)
    return whole((int(number), int(first) // unit, (int(last) + 1) // unit - 1, name) for number, first, last, name in found)


def by_blkid(path, _):
    told = run("blkid", "--probe", "--output", "export", path).stdout
    found = dict(re.findall(r"^(PTTYPE|PTUUID)=(\S+)$", told, re.MULTILINE))
    return None if found.get("PTTYPE", "PMBR") == "PMBR" else ((found["PTTYPE"], found.get("PTUUID")),)


def by_sfdisk(path, _):
    told = run("sfdisk", "--json", path).stdout
    parts = json.loads(told[told.index("{"):])["partitiontable"].get("partitions", []) if "{" in told else []
    return whole((int(part["node"][len(path):].lstrip("p")), part["start"], part["start"] + part["size"] - 1, part.get("name", ""))
                 for part in parts if part["type"] != "ee")


def by_parted(path, size):
    done = run("parted", "-s", "-m", path, "unit", "s", "print", input="", env={**ENVIRONMENT, "PARTED_SECTOR_SIZE": str(size)})
    fields = [line.rstrip(";").split(":") for line in done.stdout.splitlines()]
    if not any(len(it) == 8 and it[5] not in ("unknown", "loop") for it in fields):
        return None
    parts = [it for it in fields if len(it) > 5 and it[0].isdigit() and it[1].endswith("s")]
    return whole((int(it[0]), int(it[1][:-1]), int(it[2][:-1]), it[5]) for it in parts)


def by_sgdisk(path, _):
    done = run("sgdisk", "-p", path)
    if done.returncode or "Creating new GPT entries" in done.stdout:
        return None
    found = re.findall(r"^ +(\d+) +(\d+) +(\d+) +[\d.]+ \S+ +\S+(?:  (.*))?$", done.stdout, re.MULTILINE)
    return whole((int(number), int(first), int(last), name.strip()) for number, first, last, name in found)


def by_cgpt(path, _):
    told = run("cgpt", "show", path).stdout
    found = re.findall(r'^ +(\d+) +(\d+) +(\d+)  Label: "(.*)"$', told, re.MULTILINE)
    return whole((int(number), int(first), int(first) + int(length) - 1, name) for first, length, number, name in found)


def by_kpartx(path, size):
    """In sectors of 512 bytes, without names. Of a file it would make a loop device itself."""
    told = run("kpartx", "-l", path).stdout
    unit = size // 512
    found = re.findall(r"p?(\d+) : 0 (\d+) \S+ (\d+)$", told, re.MULTILINE)
    return whole((int(number), int(first) // unit, (int(first) + int(length)) // unit - 1, None) for number, length, first in found)


@dataclass
class Finder:
    """A reader: its program, how it is asked, for which sizes of a sector it has to be shown a device, whether it goes by the primary copy
    alone, and whether it reads tables of fewer than 128 entries."""
    program: str
    ask: object
    on_device: tuple = (4096,)
    primary_alone: bool = False
    short_tables: bool = True

    def is_unread(self, job):
        return job.entries < 128 and not self.short_tables


FINDERS = {
    "the primary alone": Finder("python3", by_primary, (), True),
    "GRUB": Finder("grub-fstest", by_grub, (), True),
    "libparted": Finder("parted", by_parted, (), True),
    "libblkid": Finder("partx", by_partx, ()),
    "blkid": Finder("blkid", by_blkid),
    "libfdisk": Finder("sfdisk", by_sfdisk),
    "sgdisk": Finder("sgdisk", by_sgdisk),
    "cgpt": Finder("cgpt", by_cgpt, short_tables=False),
    "kpartx": Finder("kpartx", by_kpartx, (512, 4096)),
}


class Asked:
    """What each reader finds on each image, asked once."""

    def __init__(self, folder, loops):
        self.folder, self.loops, self.views = folder, loops, {}
        for it in FINDERS.values():
            if not shutil.which(it.program):
                sys.exit(f"readers: there is no {it.program}: tests/install.sh installs it")

    def names(self, size):
        """The readers that can be shown such images here."""
        return [name for name, it in FINDERS.items() if self.loops or size not in it.on_device]

    def at(self, number, image, size):
        path = put(f"{self.folder}/{number}.img", image)
        found = {name: it.ask(path, size) for name, it in FINDERS.items() if size not in it.on_device}
        if self.loops:
            with Loop(path, size) as loop:
                found.update({name: it.ask(loop.path, size) for name, it in FINDERS.items() if size in it.on_device})
        os.unlink(path)
        return found

    def ask(self, images, pool):
        """Asks about images (bytes, size) that weren't shown yet."""
        new = [it for it in dict.fromkeys(images) if it not in self.views]
        found = pool.map(lambda it: self.at(it[0], *it[1]), enumerate(new, len(self.views)))
        self.views.update(zip(new, found))
