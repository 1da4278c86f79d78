#!/usr/bin/env python3
"""Cuts the power in each phase of real edits, of every kind of table, of tables that texts say (`set`), of MBRs where none was
(`adopt`), and of tables that come with data (`adopt --data`). The writes and syncs of the built command on an image are taken down by
strace; then, for each phase, images that hold the phases before and any choice of this phase's writes are shown: the old layout (or none,
where there was none) before the phase that switches, the new one after it, one of the two in it; and a repair of them keeps what they show
and leaves them healthy. Where the primary copy is kept, a plain reader of it finds the old table and then the new one, and turns with the
same write. Repairs of every kind of damage are cut the same way: each such image has the layout that was there, and a repair of it ends as
the whole one.

usage: tests/failures/power_cut.py PTAB
"""
import json
import os
import random
import subprocess
import sys
from concurrent.futures import ProcessPoolExecutor

sys.path.insert(0, os.path.join(os.path.dirname(os.path.abspath(__file__)), "..", "shared"))
import images
from damages import Gpt, damages, sliced
from images import FREEBSD, LARGE, SMALL, array_of, ebr, entry, guid, label, one_partition, record, room
from reader import followed
from writes import choices, recorded, written

FRESH = "--fresh 000102030405060708090a0b0c0d0e0f" + "0" * 32
MORE = FRESH + "".join(f"{number:032x}" for number in range(1, 4))
checked = 0


def shown(ptab, path, image, sectors, command="show"):
    with open(path, "wb") as it:
        it.write(image)
    return said(ptab, path, sectors, command)


def said(ptab, path, sectors, command, *more):
    done = subprocess.run([ptab, command, path, "--sector-size", str(sectors.size), *more], capture_output=True, text=True)
    return done.stdout, done.stderr, done.returncode


def repaired(ptab, path, sectors, found, keeps):
    """Whether a repair of the image, which shows what was found, leaves it healthy with that; where that is no table it is refused."""
    done = said(ptab, path, sectors, "repair", *(["--keep-primary"] if keeps else []))
    if found[2] != 0:
        return done == found
    return (done, said(ptab, path, sectors, "show"), said(ptab, path, sectors, "verify")) == (("done\n", "", 0), found, ("yes\n", "", 0))


class Followed:
    """What a reader of the primary copy alone may find, from one image to another. Nothing is said where there was no GPT."""

    def __init__(self, image, after, sectors):
        self.sectors, self.first = sectors, followed(image, sectors)
        self.old, self.new = self.first or followed(image, sectors, "backup"), followed(after, sectors)

    def hold(self, what, image, number, switch):
        """A copy that was lost may still be so in the first phase."""
        global checked
        allowed = [self.old] if number < switch else [self.new] if number > switch else [self.old, self.new]
        found = followed(image, self.sectors)
        if self.old and found not in allowed and not (found is self.first is None and number == 1):
            sys.exit(f"{what}: a reader of the primary copy finds {'nothing' if found is None else 'another table'}")
        checked += 1


def cut(ptab, folder, name, image, words, counts, switch, sectors=SMALL, command="edit"):
    """Edits the image, or sets its table, and stops it in each phase."""
    global checked
    path = f"{folder}/image"
    with open(path, "wb") as it:
        it.write(image)
    phases = [phase for phase in recorded(ptab, path, command, words, sectors) if phase]
    with open(path, "rb") as it:
        after = it.read()
    if [len(phase) for phase in phases] != counts:
        sys.exit(f"{name}: phases of {[len(phase) for phase in phases]} writes, not of {counts}")
    keeps = "--keep-primary" in words if command == "edit" else "--by-table" not in words
    old, new = shown(ptab, path, image, sectors), shown(ptab, path, after, sectors)
    # beside a new MBR, headers of a GPT stay until they are zeroed
    tables = Followed(image, after, sectors) if keeps and command != "adopt" else None
    if old == new or shown(ptab, path, after, sectors, "verify")[0] != "yes\n":
        sys.exit(f"{name}: nothing changed, or the image isn't healthy")
    rng = random.Random(1)
    before = bytes(image)
    for number, phase in enumerate(phases, 1):
        allowed = (old,) if number < switch else (new,) if number > switch else (old, new)
        for writes in choices(rng, phase):
            found = shown(ptab, path, written(before, writes, sectors), sectors)
            if found not in allowed:
                sys.exit(f"{name}: stopped in phase {number} by {[lba for lba, _ in writes]}: {found}")
            if tables:
                tables.hold(f"{name}: stopped in phase {number}", written(before, writes, sectors), number, switch)
            if not repaired(ptab, path, sectors, found, keeps):
                sys.exit(f"{name}: stopped in phase {number} by {[lba for lba, _ in writes]}: not repaired")
            checked += 2
        before = bytes(written(before, phase, sectors))
    if before != after:
        sys.exit(f"{name}: the writes don't make the image")


def on_gpt():
    """(name, image, words, the number of writes in each phase, the phase that switches)"""
    whole = one_partition()
    broken = bytearray(whole)
    broken[SMALL.size] ^= 0xFF
    sloppy = bytearray(whole)
    sloppy[446 + 5] = 0xFE
    yield "a name", whole, "c:1:data", [33, 1, 32, 1], 2
    yield "a name from the backup", broken, "c:1:data", [1, 32, 1, 33], 3
    yield "a name over a sloppy protective record", sloppy, "c:1:data", [33, 1, 32, 1, 1], 2
    yield "a new table", SMALL.zeros(2048), f"{FRESH} o", [1, 32, 1, 33, 1], 3
    yield "a new table with a partition", SMALL.zeros(2048), f"{FRESH} o a:1 n:1:0:0", [1, 32, 1, 33, 1], 3
    yield "a new table over another", whole, f"{FRESH} o", [33, 1, 32, 1], 2
    yield "a new partition", whole, f"{FRESH} a:1 n:2:100:200 c:2:new", [33, 1, 32, 1], 2
    yield "a grown disk", whole + SMALL.zeros(1000), "e", [33, 1, 32, 1, 1], 2
    two = SMALL.gpt(4096, {1: entry(2048, 3000), 2: entry(3001, 4000, unique=images.DISK)})
    yield "a deletion", two, "d:1 t:2:8200", [33, 1, 32, 1], 2


def kept_on_gpt():
    """The same, with the primary copy kept."""
    whole = one_partition()
    broken, unlinked, moved = bytearray(whole), bytearray(whole), bytearray(whole)
    broken[SMALL.size] ^= 0xFF
    SMALL.put_side(unlinked, "backup", {1: entry(2048, 4062, name="other")})
    SMALL.put_side(moved, "primary", {1: entry(2048, 4062)}, array=100)
    SMALL.put(moved, 2, bytes(32 * SMALL.size))
    SMALL.put(moved, 100, array_of({1: entry(2048, 4062)}))
    bare = SMALL.zeros(2048)
    SMALL.put(bare, 1, b"something")
    yield "a name", whole, "c:1:data", [33, 1, 32, 1], 2
    yield "a name from the backup", broken, "c:1:data", [1, 32, 1, 33], 3
    yield "a name by a moved array", moved, "c:1:data", [1, 32, 1, 33], 3
    yield "a name over another backup", unlinked, "c:1:data", [33, 1, 32, 1], 2
    yield "the name of the backup", unlinked, "c:1:other", [1, 32, 1], 1
    yield "a disk's GUID", whole, f"U:{images.FIRST}", [33, 1], 2
    yield "a disk's GUID from the backup", broken, f"U:{images.FIRST}", [1, 33], 1
    yield "a new table", SMALL.zeros(2048), f"{FRESH} o", [1, 33, 1], 1
    yield "a new table over something", bare, f"{FRESH} o a:1 n:1:0:0", [1, 32, 1, 33, 1], 3
    yield "a new table with a partition", SMALL.zeros(2048), f"{FRESH} o a:1 n:1:0:0", [32, 1, 33, 1], 2
    yield "a new table over another", whole, f"{FRESH} o", [33, 1, 32, 1], 2
    yield "a grown disk", whole + SMALL.zeros(1000), "e", [33, 1, 1], 2
    sliced = SMALL.gpt(2048, {1: entry(100, 1099, FREEBSD)})
    SMALL.put(sliced, 101, label(1000, {0: (100, 16, 7)}))
    lost = bytearray(sliced)
    lost[SMALL.size] ^= 0xFF
    yield "a slice", SMALL.gpt(2048, {}), f"{FRESH} a:1 n:1:100:1099:A500 n:1.a:0:0", [34, 1, 32, 1], 2
    yield "a slice from the backup", lost, f"{FRESH} a:1 n:2:1100:1199:A500", [1, 33, 1, 33], 3
    yield "a deleted slice", sliced, "d:1", [33, 1, 32, 1], 2
    yield "a label's changed partition", sliced, "t:1.a:01", [1], 1
    yield "an MBR to a GPT", SMALL.mbr(1024, [record(0x83, 100, 100)]), f"{FRESH} g", [66, 1], 2


def kept_on_large_sectors():
    whole = LARGE.gpt(64, {1: entry(6, 40)})
    lost = bytearray(whole)
    LARGE.put(lost, 1, bytes(LARGE.size))
    yield "a name", whole, "c:1:data", [5, 1, 4, 1], 2
    yield "a name from the backup", lost, "c:1:data", [1, 4, 1, 5], 3
    yield "a grown disk", whole + LARGE.zeros(10), "e", [5, 1, 1], 2


def kept(table):
    for name, image, words, counts, switch in table():
        yield f"{name}, the primary kept", image, f"--keep-primary {words}", counts, switch


def kept_repairs():
    """(name, image, the number of writes in each phase)"""
    whole = SMALL.gpt(100, {1: entry(34, 50, name="data"), 2: entry(51, 60, unique=guid(2))})

    def without(first, count):
        image = bytearray(whole)
        SMALL.put(image, first, bytes(count * SMALL.size))
        return image
    bridged = without(2, 32)
    SMALL.put_side(bridged, "primary", {1: entry(34, 50, name="data"), 2: entry(51, 60, unique=guid(2))}, array=67)
    SMALL.put(bridged, 2, bytes(32 * SMALL.size))
    yield "the primary header", without(1, 1), [1]
    yield "the primary array", without(2, 32), [1, 32, 1]
    yield "the primary copy", without(1, 33), [1, 32, 1]
    yield "a bridge", bridged, [32, 1]
    yield "the backup header", without(99, 1), [33]
    yield "the backup copy", without(67, 33), [33]
    yield "the record in sector 0", without(0, 1), [1]
    yield "a grown disk", whole + SMALL.zeros(50), [33, 1, 1]


def repair_kept(ptab, folder, name, image, counts):
    """Repairs the image with the primary kept, and stops that in each phase."""
    global checked
    path = f"{folder}/image"
    old = shown(ptab, path, image, SMALL)
    phases = recorded(ptab, path, "repair", ["--keep-primary"], SMALL)
    if [len(phase) for phase in phases] != [0, *counts]:
        sys.exit(f"a repair of {name}: phases of {[len(phase) for phase in phases]} writes, not of {[0, *counts]}")
    with open(path, "rb") as it:
        after = it.read()
    tables, before = Followed(image, after, SMALL), bytes(image)
    for number, phase in enumerate(phases[1:], 1):
        for writes in choices(random.Random(1), phase):
            now = written(before, writes, SMALL)
            tables.hold(f"a repair of {name}, stopped in phase {number}", now, number, len(phases))
            found = shown(ptab, path, now, SMALL)
            if found != old or not repaired(ptab, path, SMALL, found, True):
                sys.exit(f"a repair of {name}, stopped in phase {number}: {found}")
            checked += 2
        before = bytes(written(before, phase, SMALL))
    if before != after or tables.new != tables.old or shown(ptab, path, after, SMALL, "verify")[0] != "yes\n":
        sys.exit(f"a repair of {name}: another table, or the image isn't healthy")


def on_slices_of_gpt():
    sliced = SMALL.gpt(2048, {1: entry(100, 1099, FREEBSD)})
    SMALL.put(sliced, 101, label(1000, {0: (100, 16, 7)}))
    stale = SMALL.gpt(2048, {})
    SMALL.put(stale, 101, label(1000, {0: (100, 16, 7)}))
    broken = bytearray(sliced)
    broken[SMALL.size] ^= 0xFF
    yield "a slice", SMALL.gpt(2048, {}), f"{FRESH} a:1 n:1:100:1099:A500 n:1.a:0:0", [34, 1, 32, 1], 2
    yield "a slice where a label lies", stale, f"{FRESH} a:1 n:1:100:1099:A500", [34, 1, 32, 1], 2
    yield "a table with a slice", SMALL.zeros(2048), f"{FRESH} o a:1 n:1:100:1099:A500", [1, 33, 1, 33, 1], 3
    yield "a slice from the backup", broken, f"{FRESH} a:1 n:2:1100:1199:A500", [1, 33, 1, 33], 3
    yield "a deleted slice", sliced, "d:1", [33, 1, 32, 1], 2
    yield "a named slice on a grown disk", sliced + SMALL.zeros(100), "c:1:bsd e", [33, 1, 32, 1, 1], 2
    yield "a label's new partition", sliced, "a:1 n:1.b:216:0", [1], 1
    yield "a label's changed partition", sliced, "t:1.a:01", [1], 1
    yield "a label's deleted partition", sliced, "d:1.a", [1], 1


def on_mbr():
    one = SMALL.mbr(1024, [record(0x83, 100, 100)])
    sliced = SMALL.mbr(1024, [record(0xA5, 100, 500)])
    SMALL.put(sliced, 101, label(500, {0: (100, 16, 7)}))
    stale = SMALL.mbr(1024, [])
    SMALL.put(stale, 101, label(499, {0: (100, 16, 7)}))
    again = SMALL.mbr(1024, [])
    SMALL.put(again, 101, label(500, {}))
    covering = SMALL.mbr(1024, [record(0x05, 100, 100)])
    yield "a primary", SMALL.mbr(1024, []), "a:1 n:1:100:199", [1], 1
    yield "a second primary", one, "a:1 n:2:200:299 t:1:07", [1], 1
    yield "a deleted primary", one, "d:1", [1], 1
    yield "an MBR to a GPT", one, f"{FRESH} g", [66, 1], 2
    yield "an MBR with a slice to a GPT", sliced, f"{FRESH} g", [66, 1], 2
    yield "an MBR to a GPT with a new slice", one, f"{MORE} g a:1 n:2:300:399:A500", [67, 1], 2
    yield "a new table over an MBR", one, f"{FRESH} o", [66, 1], 2
    yield "a new table over an MBR with a slice", sliced, f"{FRESH} o", [66, 1], 2
    yield "a new table over a broken chain", covering, f"{FRESH} o", [66, 1], 2
    yield "a slice", SMALL.mbr(1024, []), "a:1 n:1:100:599:A5", [1, 1], 2
    yield "a slice with a partition", SMALL.mbr(1024, []), "a:1 n:1:100:599:A5 n:1.a:0:0", [1, 1], 2
    yield "a slice where another label lies", stale, "a:1 n:1:100:599:A5", [1, 1], 2
    yield "a slice where its label lies", again, "a:1 n:1:100:599:A5", [1], 1
    yield "two slices", SMALL.mbr(1024, []), "a:1 n:1:100:599:A5 n:2:600:0:A5", [2, 1], 2
    yield "a deleted slice", sliced, "d:1", [1], 1
    yield "a label's new partition", sliced, "a:1 n:1.b:216:0", [1], 1
    yield "a label's changed partition", sliced, "t:1.a:01", [1], 1
    yield "a label's deleted partition", sliced, "d:1.a", [1], 1


def chain(*ebrs, extended=True):
    """1024 sectors with an extended partition of 800 from 100 on, and the boot records (sector, bytes) where it is or was."""
    image = SMALL.mbr(1024, [record(0x83, 1, 50), record(0x05, 100, 800)] if extended else [record(0x83, 1, 50)])
    for lba, content in ebrs:
        SMALL.put(image, lba, content)
    return image


def on_chains():
    empty = (100, ebr())
    one = ((100, ebr(link=record(0x05, 99, 101))), (199, ebr(record(0x83, 1, 100))))
    two = ((100, ebr(link=record(0x05, 99, 101))), (199, ebr(record(0x83, 1, 100), record(0x05, 299, 51))), (399, ebr(record(0x83, 1, 50))))
    sliced = chain((100, ebr(link=record(0x05, 99, 101))), (199, ebr(record(0xA5, 1, 100))), (201, label(100, {0: (20, 16, 7)})))
    yield "an extended partition", chain(extended=False), "a:1 n:2:100:899:05", [1, 1], 2
    yield "an extended partition with a logical", chain(extended=False), "a:1 n:2:100:899:05 n:5:200:299", [2, 1], 2
    yield "an extended partition with two logicals", chain(extended=False), "a:1 n:2:100:899:05 n:5:200:299 n:5:400:449", [3, 1], 2
    yield "a first logical", chain(empty), "a:1 n:5:200:299", [1, 1], 2
    yield "a first logical in the first boot record", chain(empty), "a:1 n:5:101:299", [1], 1
    yield "a second logical", chain(*one), "a:1 n:5:400:449", [1, 1], 2
    yield "a logical before another", chain(*one), "a:1 n:5:150:159", [1, 1], 2
    yield "two logicals behind another", chain(*one), "a:1 n:5:400:449 n:5:500:549:82", [2, 1], 2
    yield "a logical between two", chain(*two), "a:1 n:5:350:359", [1, 1], 2
    yield "a deleted first logical", chain(*two), "d:5", [1], 1
    yield "a deleted last logical", chain(*two), "d:6", [1], 1
    gone = ((100, two[0][1]), (199, ebr(link=record(0x05, 299, 51))), (399, two[2][1]))
    yield "a logical made again in its boot record", chain(*gone), "a:1 n:5:200:299", [1], 1
    yield "a logical where a stale boot record lies", chain(empty, *two[1:]), "a:1 n:5:200:299", [1, 1], 2
    yield "a logical where its own boot record lies", chain(empty, *one[1:]), "a:1 n:5:200:299", [1], 1
    yield "a chain where a stale one lies", chain(*two, extended=False), "a:1 n:2:100:899:05 n:5:200:298", [2, 1], 2
    yield "a chain where half of it lies", chain(*two, extended=False), "a:1 n:2:100:899:05 n:5:200:299", [1, 1], 2
    yield "a longer extended partition over a stale chain", chain(*two, extended=False), "a:1 n:2:100:999:05", [1, 1], 2
    yield "a logical's type", chain(*two), "t:5:07", [1], 1
    yield "a deleted extended partition", chain(*two), "d:2", [1], 1
    image = chain(*two)
    image[446:462] = record(0x83, 40, 50)
    yield "logicals to a GPT", image, f"{MORE} g", [66, 1], 2
    yield "a new table over logicals", image, f"{FRESH} o", [66, 1], 2
    yield "a logical slice", chain(empty), "a:1 n:5:200:299:A5", [2, 1], 2
    yield "a label's new partition in a logical", sliced, "a:1 n:5.b:236:0", [1], 1
    yield "a label's changed partition in a logical", sliced, "t:5.a:01", [1], 1
    yield "a label's deleted partition in a logical", sliced, "d:5.a", [1], 1
    yield "a logical before a slice", sliced, "a:1 n:5:101:110", [1], 1
    yield "a deleted logical slice", sliced, "d:5", [1], 1


def on_large_sectors():
    whole = LARGE.gpt(64, {1: entry(6, 40)})
    mbr = LARGE.mbr(64, [record(0x83, 6, 10), record(0x05, 20, 30)])
    LARGE.put(mbr, 20, ebr())
    yield "a name", whole, "c:1:data", [5, 1, 4, 1], 2
    yield "a new table", LARGE.zeros(64), f"{FRESH} o", [1, 4, 1, 5, 1], 3
    yield "a grown disk", whole + LARGE.zeros(10), "e", [5, 1, 4, 1, 1], 2
    yield "a logical", mbr, "a:1 n:5:30:39", [1, 1], 2
    yield "an MBR to a GPT", mbr, f"{FRESH} g", [10, 1], 2


def table(*partitions, **members):
    """A text of these partitions."""
    return json.dumps({"partitiontable": {**members, "partitions": partitions}})


def part(start, size, **members):
    return {"start": start, "size": size, **members}


def sets():
    """(name, image, the text of a table, the number of writes in each phase, the phase that switches), the primary copy kept."""
    one, named = part(2048, 2015), part(2048, 2015, name="data")
    whole, blank, new = one_partition(), SMALL.zeros(4096), {"uuid": guid(7)}
    broken, bare, unlinked = bytearray(whole), bytearray(blank), bytearray(whole)
    broken[SMALL.size] ^= 0xFF
    SMALL.put(bare, 1, b"something")
    SMALL.put_side(unlinked, "backup", {1: entry(2048, 4062, name="other")})
    several = SMALL.gpt(4096, {1: entry(2048, 3000), 2: entry(3001, 4000, unique=guid(2)), 4: entry(100, 200, unique=guid(4))})
    yield "a name", whole, table(named), [33, 1, 32, 1], 2
    yield "a name from the backup", broken, table(named), [1, 32, 1, 33], 3
    yield "a name over another backup", unlinked, table(named), [33, 1, 32, 1], 2
    yield "no partitions", whole, table(), [33, 1, 32, 1], 2
    yield "a disk's GUID", whole, table(one, id=guid(9)), [33, 1], 2
    yield "fewer entries", whole, table(named, entries=4), [33, 1, 32, 1], 2
    yield "the usable sectors", whole, table(one, firstlba=2048, lastlba=4062), [33, 1], 2
    parts = part(2048, 700), part(2900, 99, number=5, **new), {"number": 4, "start": 3500}
    yield "all of three changed", several, table(*parts), [33, 1, 32, 1], 2
    yield "numbers exchanged", several, table(part(3001, 1000), part(2048, 953), part(100, 101, number=4)), [33, 1, 32, 1], 2
    yield "a grown disk", whole + SMALL.zeros(1000), table(one), [33, 1, 1], 2
    yield "a partition on a grown disk", whole + SMALL.zeros(1000), table(one, new), [33, 1, 32, 1, 1], 2
    yield "a new table", blank, table(id=guid(9)), [1, 33, 1], 1
    yield "a new table with a partition", blank, table(new, id=guid(9)), [32, 1, 33, 1], 2
    yield "a new table over something", bare, table(new, id=guid(9)), [1, 32, 1, 33, 1], 3


def sets_of_slices():
    """The same of labels, and in place of an MBR."""
    sliced, empty, mbr = SMALL.gpt(2048, {1: entry(100, 1099, FREEBSD)}), SMALL.gpt(2048, {}), SMALL.mbr(1024, [record(0x83, 100, 100)])
    SMALL.put(sliced, 101, label(1000, {0: (100, 16, 7)}))
    slice_of, gpt = part(100, 1000, type="freebsd"), {"label": "gpt", "id": guid(9)}
    with_slice = SMALL.mbr(1024, [record(0xA5, 100, 500)])
    SMALL.put(with_slice, 101, label(500, {0: (100, 16, 7)}))
    linked = chain((100, ebr(link=record(0x05, 99, 101))), (199, ebr(record(0x83, 1, 100))))
    linked[446:462] = record(0x83, 40, 50)
    blank = {"size": 0, "offset": 0, "fragment": 0, "fstype": 0, "frag": 0, "cpg": 0}
    other = {"kind": 0, "subtype": 0, "type_name": "00" * 16, "pack_name": "00" * 16, "geometry": [0] * 4, "unit": 1000, "kept": "00" * 68,
             "bbsize": 8192, "sbsize": 0, "entries": [{**blank, "size": 9, "offset": 16}, blank, {**blank, "size": 1000}, *[blank] * 5]}
    yield "a slice", empty, table({**slice_of, "uuid": guid(7)}), [34, 1, 32, 1], 2
    yield "a slice that is kept", sliced, table({**slice_of, "name": "bsd"}), [33, 1, 32, 1], 2
    yield "a deleted slice", sliced, table(), [33, 1, 32, 1], 2
    yield "another label", sliced, table({**slice_of, "bsd": other}), [1], 1
    yield "a GPT in place of an MBR", mbr, table(part(100, 100, uuid=guid(7)), **gpt), [66, 1], 2
    yield "one in place of an MBR with a slice", with_slice, table(**gpt), [66, 1], 2
    yield "one in place of logicals, with a slice", linked, table(part(300, 99, uuid=guid(7), type="A500"), **gpt), [67, 1], 2


def sets_of_mbrs():
    """MBRs in place of MBRs, of which the chains come, grow, shrink and go."""
    one = SMALL.mbr(1024, [record(0x83, 1, 50)])
    linked = chain((100, ebr(record(0x83, 1, 50), record(0x05, 200, 100))), (300, ebr(record(0x83, 1, 100))))
    first, outer = part(1, 50), part(100, 800, type="5")
    inner = part(101, 50, number=5), part(301, 100, number=6)
    chs = {"start_chs": "000200", "end_chs": "0abcde", "bootable": True}
    yield "a type and a mark", one, table(part(1, 50, type="c", **chs)), [1], 1
    yield "another place", one, table(part(2, 900)), [1], 1
    yield "no records", one, table(), [1], 1
    yield "a slice", one, table(first, part(60, 100, type="a5")), [1, 1], 2
    yield "an extended partition", one, table(first, outer), [1, 1], 2
    yield "two logical ones", one, table(first, outer, *inner), [2, 1], 2
    yield "a chain of three", one, table(first, outer, *inner, chain=[100, 250, 300]), [3, 1], 2
    yield "a type of a logical one", linked, table(first, outer, inner[0], part(301, 100, number=6, type="82")), [1], 1
    yield "one more", linked, table(first, outer, *inner, {"number": 7, "start": 500}), [1, 1], 2
    yield "one between", linked, table(first, outer, inner[0], part(200, 9, number=6), part(301, 100, number=7)), [1, 1], 2
    yield "the last one goes", linked, table(first, outer, inner[0], chain=[100, 300]), [1], 1
    yield "the last one goes with its record", linked, table(first, outer, inner[0]), [1], 1
    yield "the extended one goes", linked, table(first), [1], 1


def sets_by_table():
    whole = one_partition()
    yield "a name", whole, table(part(2048, 2015, name="data")), [33, 1, 32, 1], 2
    yield "a new table with a partition", SMALL.zeros(4096), table({"uuid": guid(7)}, id=guid(9)), [1, 32, 1, 33, 1], 3
    yield "a grown disk", whole + SMALL.zeros(1000), table(part(2048, 2015)), [33, 1, 32, 1, 1], 2


def sets_on_large_sectors():
    whole = LARGE.gpt(64, {1: entry(6, 40)})
    yield "a name", whole, table(part(6, 35, name="data")), [5, 1, 4, 1], 2
    yield "a grown disk", whole + LARGE.zeros(10), table(part(6, 35)), [5, 1, 1], 2
    yield "a new table", LARGE.zeros(64), table(part(6, 9, uuid=guid(7)), id=guid(9)), [4, 1, 5, 1], 2


def new_mbrs(sectors, count, first):
    """An MBR where none was, with a logical partition in an extended one from this sector on."""
    chained = sectors.mbr(count, [record(0x83, first + 200, 20), record(0x05, first, 100)])
    sectors.put(chained, first, ebr(record(0x83, 4, 20), record(0x05, 50, 10)))
    sectors.put(chained, first + 50, ebr(record(0x07, 2, 8)))
    gpt = sectors.gpt(count, {1: entry(first + 300, first + 320)})
    yield "on a blank disk", sectors.zeros(count), chained, [2, 1], 2
    yield "in place of a GPT", gpt, chained, [2, 1, 1, 1], 2
    yield "without partitions, in place of a GPT", gpt, sectors.mbr(count, []), [1, 1, 1], 1


def repair_cut(ptab, folder, damage, sectors):
    """Repairs a damaged image, stops that in each phase, and repairs what is left."""
    global checked
    path = f"{folder}/image"
    old = shown(ptab, path, damage.image, sectors)
    phases = recorded(ptab, path, "repair", [], sectors)
    if old[2] != 0 or [len(phase) for phase in phases] != [0, *damage.phases(sectors)]:
        sys.exit(f"{damage.name}: {old}, phases of {[len(phase) for phase in phases]} writes, not of {[0, *damage.phases(sectors)]}")
    rng = random.Random(1)
    before, seen = bytes(damage.image), set()
    for number, phase in enumerate(phases, 1):
        for writes in choices(rng, phase):
            image = bytes(written(before, writes, sectors))
            if image in seen:
                continue
            seen.add(image)
            what = f"{damage.name}: stopped in phase {number} by {[lba for lba, _ in writes]}"
            if shown(ptab, path, image, sectors) != old:
                sys.exit(f"{what}: another layout")
            if shown(ptab, path, image, sectors, "repair") != ("done\n", "", 0):
                sys.exit(f"{what}: not repaired")
            with open(path, "rb") as it:
                if it.read() != damage.mended:
                    sys.exit(f"{what}: not the image that a whole repair makes")
            checked += 2
        before = bytes(written(before, phase, sectors))
    if before != damage.mended or shown(ptab, path, before, sectors, "verify")[0] != "yes\n":
        sys.exit(f"{damage.name}: the writes don't make the image, or it isn't healthy")


def kinds(tables):
    """A damage of each finding, and of each fault of each copy; of the findings 4 to 6 all damages."""
    met = set()
    for gpt in tables:
        for damage in damages(gpt):
            kind = damage.finding if damage.finding[0] in "23" else damage.name
            if "grown" in damage.name or "zeroed" in damage.name:
                kind = damage.name
            if kind not in met:
                met.add(kind)
                yield damage, gpt.sectors


def repairs():
    """Every damage whose repair is cut. The second table has only some of them cut again."""
    small = Gpt("two", SMALL, 100, {1: entry(34, 50, name="data"), 2: entry(51, 60, unique=guid(2))})
    large = Gpt("two large", LARGE, 30, {1: entry(6, 10, name="data"), 2: entry(11, 20, FREEBSD, guid(2))})
    return [*kinds([small]), *kinds([large]), *list(kinds([sliced()]))[::5]]


def cut_repairs(ptab, part, parts):
    """How many stopped images were looked at."""
    with room() as folder:
        for damage, sectors in repairs()[part::parts]:
            repair_cut(ptab, folder, damage, sectors)
    return checked


def cut_edits(ptab, sectors, table, keeps=False):
    """The same."""
    with room() as folder:
        for name, image, words, counts, switch in kept(table) if keeps else table():
            cut(ptab, folder, name, image, words.split(" "), counts, switch, sectors)
    return checked


def cut_sets(ptab, sectors, tables, *options):
    """The same."""
    with room() as folder:
        for name, image, text, counts, switch in tables():
            with open(f"{folder}/table", "w", encoding="utf-8") as it:
                it.write(text)
            cut(ptab, folder, f"set: {name}", image, [*options, f"{folder}/table"], counts, switch, sectors, "set")
    return checked


def cut_new_mbrs(ptab, sectors, count, first):
    """The same, of a table that is taken from another image."""
    with room() as folder:
        for name, image, other, counts, switch in new_mbrs(sectors, count, first):
            with open(f"{folder}/other", "wb") as it:
                it.write(other)
            cut(ptab, folder, f"an MBR {name}", image, [f"{folder}/other"], counts, switch, sectors, "adopt")
    return checked


def with_data(sectors, count, first):
    """(name, image, another one whose table is taken with the first ten sectors of its second partition, ..) of each kind of table."""
    one, two = {1: entry(first, first + 49)}, {1: entry(first, first + 49), 2: entry(first + 60, first + 99, unique=guid(2))}
    records = [record(0x83, first, 50), record(0x83, first + 60, 40)]
    array = sectors.array
    for name, image, other, counts, switch in (
            ("a GPT", sectors.gpt(count, one), sectors.gpt(count, two), [10, array + 1, 1, array, 1], 3),
            ("an MBR", sectors.mbr(count, records[:1]), sectors.mbr(count, records), [10, 1], 2),
            ("a GPT on a blank disk", sectors.zeros(count), sectors.gpt(count, two), [10, array, 1, array + 1, 1], 3)):
        for lba in range(first + 60, first + 70):
            sectors.put(other, lba, bytes([lba % 251 + 1]) * sectors.size)
        yield name, image, other, counts, switch


def cut_data(ptab, sectors, count, first):
    """The same, with data. (tests/rows/data.py looks where that is.)"""
    with room() as folder:
        with open(f"{folder}/runs", "w", encoding="ascii") as it:
            it.write(f"{first + 60} {first + 64}\n{first + 65} {first + 69}\n")
        for name, image, other, counts, switch in with_data(sectors, count, first):
            with open(f"{folder}/other", "wb") as it:
                it.write(other)
            cut(ptab, folder, f"{name} with data", image, [f"{folder}/other", "--data", f"{folder}/runs"], counts, switch, sectors, "adopt")
    return checked


def cut_kept_repairs(ptab):
    with room() as folder:
        for name, image, counts in kept_repairs():
            repair_kept(ptab, folder, name, image, counts)
    return checked


def counted(call, *words):
    before = checked
    return call(*words) - before


def main():
    ptab = os.path.abspath(sys.argv[1])
    with ProcessPoolExecutor() as pool:
        tables = [(SMALL, table) for table in (on_gpt, on_slices_of_gpt, on_mbr, on_chains)] + [(LARGE, on_large_sectors)]
        done = [pool.submit(counted, cut_edits, ptab, sectors, table) for sectors, table in tables]
        done += [pool.submit(counted, cut_edits, ptab, *it, True) for it in ((SMALL, kept_on_gpt), (LARGE, kept_on_large_sectors))]
        texts = ((SMALL, sets), (SMALL, sets_of_slices), (SMALL, sets_of_mbrs), (LARGE, sets_on_large_sectors),
                 (SMALL, sets_by_table, "--by-table"))
        done += [pool.submit(counted, cut_sets, ptab, *it) for it in texts]
        done += [pool.submit(counted, cut_repairs, ptab, part, 8) for part in range(8)]
        done += [pool.submit(counted, cut_kept_repairs, ptab)]
        done += [pool.submit(counted, cut_new_mbrs, ptab, *it) for it in ((SMALL, 4096, 1024), (LARGE, 600, 100))]
        done += [pool.submit(counted, cut_data, ptab, *it) for it in ((SMALL, 4096, 1024), (LARGE, 600, 100))]
        print(f"power cuts: {sum(it.result() for it in done)} passed, 0 failed")


main()
