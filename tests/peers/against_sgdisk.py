#!/usr/bin/env python3
"""Makes and edits the same GPTs with sgdisk and with ptab, on sectors of 512 bytes: the copies have the same bytes, sgdisk, sfdisk
and parted accept what ptab made, and all of them tell the same partitions.

usage: tests/peers/against_sgdisk.py PTAB [TABLES]
"""
import os
import random
import sys
import tempfile
import uuid
from dataclasses import dataclass

sys.path.insert(0, os.path.join(os.path.dirname(os.path.abspath(__file__)), "..", "shared"))
import compared
from compared import same
from tools import by_fdisk, by_parted, by_sfdisk, by_sgdisk, must, over_seeds, run

CODES = ("EF00", "8300", "8200", "0700", "A503")


@dataclass
class Partition:
    number: int
    first: int
    last: int
    code: str
    name: str
    unique: str
    bits: tuple


@dataclass
class Table:
    sectors: int
    disk: str
    partitions: list


def new_guid(rng):
    """A GUID that a fresh one may be: random, with its version and variant."""
    return str(uuid.UUID(int=rng.getrandbits(128), version=4))


def any_table(rng):
    """A table of a few partitions, or of many, that share no sector."""
    sectors = rng.choice((2048, 4096, 20000, 131072))
    count = rng.choice((1, 2, 3, 8, 40, 128))
    ends = sorted(rng.sample(range(34, sectors - 33), 2 * count))
    numbers = rng.sample(range(1, 129), count)
    names = ("", "data", "wurzel ü 字", "a b  c", "x" * 36)
    partitions = [Partition(numbers[k], ends[2 * k], ends[2 * k + 1], rng.choice(CODES), rng.choice(names), new_guid(rng),
                            tuple(sorted(rng.sample((0, 1, 2, 60, 63), rng.randrange(3)))))
                  for k in range(count)]
    return Table(sectors, new_guid(rng), partitions)


def blank(path, sectors):
    with open(path, "wb") as it:
        it.truncate(sectors * 512)
    return path


def by_sgdisk_words(table):
    words = ["-a", "1", "-U", table.disk]
    for it in table.partitions:
        words += ["-n", f"{it.number}:{it.first}:{it.last}", "-t", f"{it.number}:{it.code.lower()}", "-u", f"{it.number}:{it.unique}",
                  "-c", f"{it.number}:{it.name}"]
        words += [word for bit in it.bits for word in ("-A", f"{it.number}:set:{bit}")]
    return words


def by_ptab_words(table, rng):
    """The words of an edit: the GUIDs as fresh ones, or set by words of their own."""
    fresh = rng.randrange(2) == 0
    guids = [table.disk] + [it.unique for it in table.partitions]
    given = guids if fresh else [new_guid(rng) for _ in guids]
    words = ["--fresh", "".join(guid.replace("-", "") for guid in given), "o", "a:1"]
    for it in table.partitions:
        end = rng.choice((str(it.last), f"+{it.last - it.first + 1}"))
        code = "" if it.code == "8300" and rng.randrange(2) else f":{it.code}"
        words.append(f"n:{it.number}:{it.first}:{end}{code}")
        words += [f"c:{it.number}:{it.name}"] if it.name else []
        words += [f"A:{it.number}:{bit}:1" for bit in it.bits]
        words += [] if fresh else [f"u:{it.number}:{it.unique}"]
    return words + ([] if fresh else [f"U:{table.disk}"])


def copies(path):
    """All but sector 0, whose protective record sgdisk gives the last CHS address of a small disk."""
    with open(path, "rb") as it:
        return it.read()[512:]


def line_of(it):
    place = f"{it.number} {it.first} {it.last} {it.code}"
    return f"{place} {sum(1 << bit for bit in it.bits):016x} {it.unique}" + (f" {it.name}" if it.name else "")


def accepted(ptab, path, lines):
    """Every tool tells the lines of ptab's image and finds no fault in it."""
    same("show", must(ptab, "show", path).splitlines(), lines)
    same("verify", run(ptab, "verify", path).stdout, "yes\n")
    same("sgdisk -v", "No problems found" in must("sgdisk", "-v", path), True)
    same("sfdisk -V", run("sfdisk", "-V", path).returncode, 0)
    same("sfdisk", by_sfdisk(path), lines)
    parts = [line.split(" ", 6) for line in lines[1:]]
    same("fdisk", by_fdisk(path, 512)[1:], [" ".join(words[:4] + words[5:6]) for words in parts])
    same("parted", by_parted(path, 512), [(words[0], words[1], words[2], words[6] if len(words) == 7 else "") for words in parts])
    for words in parts[:3]:
        told = by_sgdisk(path, words[0])
        same("sgdisk -i", (told["First sector"].split(" ")[0], told["Last sector"].split(" ")[0], told["Partition unique GUID"].lower(),
                           told["Attribute flags"].lower()), (words[1], words[2], words[5], words[4]))


def made(ptab, folder, table, rng):
    ours, theirs = blank(f"{folder}/ptab.img", table.sectors), blank(f"{folder}/sgdisk.img", table.sectors)
    must("sgdisk", *by_sgdisk_words(table), theirs)
    same("edit", must(ptab, "edit", ours, *by_ptab_words(table, rng)), "done\n")
    lines = [f"gpt {table.sectors} 34 {table.sectors - 34} {table.disk}"]
    lines += [line_of(it) for it in sorted(table.partitions, key=lambda it: it.number)]
    accepted(ptab, ours, lines)
    same("both copies", copies(ours) == copies(theirs), True)
    return ours, theirs, lines


def edited(ptab, ours, theirs, rng, numbers):
    """Edits of a made table: a name, a type, a bit, a GUID, a deletion, a grown disk."""
    number = rng.choice(numbers)
    unique = new_guid(rng)
    steps = [([f"c:{number}:renamed"], ["-c", f"{number}:renamed"]), ([f"t:{number}:8200"], ["-t", f"{number}:8200"]),
             ([f"A:{number}:2:1", f"A:{number}:0:0"], ["-A", f"{number}:set:2", "-A", f"{number}:clear:0"]),
             ([f"u:{number}:{unique}"], ["-u", f"{number}:{unique}"]), ([f"U:{unique}"], ["-U", unique]),
             ([f"d:{number}"], ["-d", str(number)])]
    for words, options in steps:
        must("sgdisk", *options, theirs)
        same(f"edit {words}", must(ptab, "edit", ours, *words), "done\n")
        same(f"both copies after {words}", copies(ours) == copies(theirs), True)
    for path in (ours, theirs):
        os.truncate(path, os.path.getsize(path) + 1000 * 512)
    must("sgdisk", "-e", theirs)
    same("edit e", must(ptab, "edit", ours, "e"), "done\n")
    same("what both show of a grown disk", must(ptab, "show", ours), must(ptab, "show", theirs))
    accepted(ptab, ours, must(ptab, "show", ours).splitlines())


def table_made_and_edited(ptab, seed):
    """How many answers were compared."""
    before = compared.count
    rng = random.Random(seed)
    with tempfile.TemporaryDirectory() as folder:
        table = any_table(rng)
        ours, theirs, _ = made(ptab, folder, table, rng)
        edited(ptab, ours, theirs, rng, [it.number for it in table.partitions])
    return compared.count - before


if __name__ == "__main__":
    over_seeds("against sgdisk", table_made_and_edited)
