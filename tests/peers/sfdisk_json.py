#!/usr/bin/env python3
"""Holds `show --json` against `sfdisk --json`, on images that sgdisk, sfdisk, fdisk and parted made and on drawn ones: each member that
docs/table.md says both have is equal, in the table and in each partition, and neither has one that the other lacks, but those that the page
names. (Not json.py: the scripts in this folder import Python's own module of that name.)

usage: tests/peers/sfdisk_json.py PTAB
"""
import json
import os
import random
import sys
import tempfile

sys.path.insert(0, os.path.join(os.path.dirname(os.path.abspath(__file__)), "..", "shared"))
import compared
from compared import same
from images import FREEBSD, SMALL, entry, guid, label, record
from tools import fdisk, must, parted

MIB = 1 << 20
OF_TABLE = {"label", "id", "device", "unit", "firstlba", "lastlba", "sectorsize"}
OF_PART = {"node", "start", "size", "type", "uuid", "name", "attrs", "bootable"}
OWN_OF_TABLE = {"sectors", "entries", "chain"}
OWN_OF_PART = {"number", "type_name", "attributes", "bsd", "start_chs", "end_chs", "record", "name_units"}
TYPES = ("ef00", "8300", "8200", "0700", "a500", "a503", "8e00", "fd00", "8304", "7f00", "4200", "ef02", "af0a")


def shared(what, found, names, own):
    """The members that sfdisk has too, of an object of ours; there are no others but our own."""
    same(f"{what}: the names", set(found) - names - own, set())
    return {name: value for name, value in found.items() if name in names}


def of_sfdisk(what, found, names, but=()):
    """The members of an object of sfdisk's, but for those that it has alone. One without a value is left out, as docs/table.md says."""
    same(f"{what}: sfdisk's names", set(found) - names - set(but), set())
    return {name: value for name, value in found.items() if name in names and value is not None and name not in but}


def compare(ptab, path):
    """One image, by both."""
    ours = json.loads(must(ptab, "show", "--json", path))["partitiontable"]
    theirs = json.loads(must("sfdisk", "--json", path))["partitiontable"]
    parts, their_parts = ours.pop("partitions"), theirs.pop("partitions", [])
    alone = {"grain", "table-length"} | ({"id"} if theirs["label"] == "dos" else set())
    same(f"{path}: the table", shared(path, ours, OF_TABLE, OWN_OF_TABLE), of_sfdisk(path, theirs, OF_TABLE, alone))
    same(f"{path}: how many partitions", len(parts), len(their_parts))
    for one, other in zip(parts, their_parts):
        what = f"{path}: partition {one['number']}"
        same(what, shared(what, one, OF_PART, OWN_OF_PART), of_sfdisk(what, other, OF_PART))
        same(f"{what}: its number", other["node"].endswith(str(one["number"])), True)


def new(folder, name, length):
    path = f"{folder}/{name}"
    with open(path, "wb") as it:
        it.truncate(length)
    return path


def by_tools(folder):
    """Images of GPTs and MBRs with what each tool makes of itself."""
    yield (path := new(folder, "empty.img", 64 * MIB))
    must("sgdisk", "-o", path)
    yield (path := new(folder, "sgdisk0", 64 * MIB))
    must("sgdisk", "-n", "1:2048:+10M", "-t", "1:ef00", "-c", "1:boot", "-n", "2:0:+20M", "-c", "2:wurzel \u00fc \u5b57 \U0001f4be",
         "-A", "2:set:0", "-A", "2:set:2", "-A", "2:set:48", "-A", "2:set:63", "-n", "5:0:0", "-t", "5:8200", "-c", "5:a \"b\" \\c/", path)
    yield (path := new(folder, "large.img", 9 << 30))
    must("sgdisk", "-n", "1:2048:+1G", "-t", "1:0700", "-A", "1:set:1", "-n", "128:0:0", "-t", "128:a503", "-c", "128:" + "x" * 36, path)
    yield (path := new(folder, "small.img", 2 * MIB))
    must("sgdisk", "-a", "1", "-n", "1:34:100", "-A", "1:set:3", "-n", "2:101:101", "-A", "2:set:47", "-A", "2:set:60", path)
    yield (path := new(folder, "sfdisk7.img", 32 * MIB))
    must("sfdisk", "-q", path,
         input="label: gpt\nstart=2048, size=4096, type=U, name=\"esp\", attrs=\"RequiredPartition GUID:60\"\nsize=8192\n")
    yield (path := new(folder, "fdisk.img", 48 * MIB))
    fdisk(path, 512, "g", "n", "1", "2048", "4095", "n", "7", "4096", "+4M", "t", "7", "19", "w")
    yield (path := new(folder, "parted.img", 48 * MIB))
    parted(512, path, "mklabel", "gpt", "mkpart", "first", "ext4", "1MiB", "10MiB", "mkpart", "second", "linux-swap", "10MiB", "40MiB",
           "set", "1", "legacy_boot", "on")
    yield (path := new(folder, "no.mbr", 64 * MIB))
    must("sfdisk", "-q", path, input="label: dos\n")
    yield (path := new(folder, "mbr9", 64 * MIB))
    must("sfdisk", "-q", path,
         input="label: dos\n2048,20000,83,*\n24576,8192,7\n40960,60000,5\n43008,10000,82\n63488,1000,c\n65536,1000,a5\n")
    yield (path := new(folder, "parted.mbr", 64 * MIB))
    parted(512, path, "mklabel", "msdos", "mkpart", "primary", "fat32", "1MiB", "10MiB", "mkpart", "extended", "10MiB", "60MiB",
           "mkpart", "logical", "ext4", "11MiB", "20MiB", "mkpart", "logical", "linux-swap", "21MiB", "30MiB", "set", "1", "boot", "on")
    yield (path := new(folder, "fdisk.mbr", 64 * MIB))
    fdisk(path, 512, "o", "n", "p", "3", "2048", "+1M", "t", "1", "n", "p", "1", "8192", "+1M", "t", "1", "ef", "a", "3", "w")


def by_hand(folder):
    """Slices with labels, and entries and records in an order of their own."""
    image = SMALL.gpt(16384, {3: entry(4096, 5095, FREEBSD), 1: entry(6000, 6999, unique=guid(2)), 128: entry(2048, 2048, unique=guid(3))})
    SMALL.put(image, 4097, label(1000, {0: (100, 16, 7)}))
    with open(f"{folder}/slice.img", "wb") as it:
        it.write(image)
    yield it.name
    image = SMALL.mbr(16384, [record(0xA5, 4096, 1000), bytes(16), record(0x01, 2048, 1000, 0x80), record(0xFF, 6000, 1)])
    SMALL.put(image, 4097, label(1000, {0: (100, 16, 7)}))
    with open(f"{folder}/slice.mbr", "wb") as it:
        it.write(image)
    yield it.name


def drawn(folder, seed):
    """A GPT and an MBR with partitions of drawn types, names and attributes."""
    rng = random.Random(seed)
    words = []
    for number in rng.sample(range(1, 129), rng.randrange(1, 12)):
        name = "".join(rng.choice("abc xyz-_.\u00e4\u00df\u03bb\u5b57\U0001f600\"\\'/&<>") for _ in range(rng.randrange(1, 17)))
        words += ["-n", f"{number}:0:+{rng.randrange(1, 6)}M", "-t", f"{number}:{rng.choice(TYPES)}", "-c", f"{number}:{name}"]
        for bit in rng.sample(range(64), rng.choice((0, 0, 1, 3, 40))):
            words += ["-A", f"{number}:set:{bit}"]
    yield (path := new(folder, f"drawn{seed}", 128 * MIB))
    must("sgdisk", *words, path)
    lines, start = ["label: dos"], 2048
    for number in range(1, rng.randrange(2, 12)):
        kind, size = rng.choice(("83", "82", "7", "c", "ef", "a5", "1", "e", "da")), rng.randrange(1, 2048)
        if number == 4:
            lines.append(f"{start},,{rng.choice(('5', 'f'))}")
        else:
            lines.append(f"{start + (2048 if number > 4 else 0)},{size},{kind}{rng.choice(('', ',*'))}")
        start += 4096 if number != 4 else 0
    yield (path := new(folder, f"drawn{seed}.mbr", 64 * MIB))
    must("sfdisk", "-q", path, input="\n".join(lines) + "\n")


def main():
    ptab = os.path.abspath(sys.argv[1])
    with tempfile.TemporaryDirectory() as folder:
        paths = [*by_tools(folder), *by_hand(folder)] + [path for seed in range(40) for path in drawn(folder, seed)]
        for path in paths:
            compare(ptab, path)
    print(f"json beside sfdisk: {compared.count} compared on {len(paths)} images, 0 differ")


main()
