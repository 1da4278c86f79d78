#!/usr/bin/env python3
"""Takes tables as text there and back: sixty images of GPTs that sgdisk, sfdisk, parted, cgpt and ptab made, with 1 to 128 entries, names
of all kinds, attributes, slices with labels, disks that have grown, and lost copies.

  - The image takes its own text: no byte of a healthy one changes, and another one is healthy then, with the same table.
  - The text is edited by jq: names, types, sizes, numbers; partitions go, and come without a start. The image takes it, and then it shows
    what the text says, with what it leaves out as a plain reading of the text has it (shared/made.py). sgdisk and sfdisk agree.
  - What `sfdisk --json` prints of the image is taken too, and gives the same table.
  - A blank image of the same size takes the text, and shows the same. Of a healthy image it has the same sectors then, but for what stands
    before the records of sector 0.

usage: tests/peers/round_trips.py PTAB [COUNT]
"""
import json
import os
import random
import subprocess
import sys
from concurrent.futures import ProcessPoolExecutor

sys.path.insert(0, os.path.join(os.path.dirname(os.path.abspath(__file__)), "..", "shared"))
import compared
from compared import content, put, same
from drafts import Fault, fresh_guids
from images import FREEBSD, SMALL, entry, guid, label, room
from made import shown, wanted_of
from tools import ENVIRONMENT, must

MIB = 1 << 20
COUNT = 40 * 2048
FRESH = "".join(f"{k:032x}" for k in range(500, 516))
TYPES = ("ef00", "8300", "8200", "0700", "a503", "8e00", "fd00", "8304", "7f00", "4200", "ef02", "af0a")
LETTERS = "abc xyz-_.\u00e4\u00df\u03bb\u5b57\U0001f600\U0001f4be\"\\'/&<>"
EXACT = "(.partitiontable.partitions[] | select((.attributes // 0) > 9007199254740991)) |= del(.attributes)"
# What jq does to a text, each beside how many partitions it needs. A number past 2^53 isn't whole for jq: the words of `attrs` have it.
EDITS = (
    (1, '.partitiontable.partitions[0] |= (del(.name_units) | .name = "renamed \u00fc\U0001f4be")'),
    (1, ".partitiontable.partitions[-1] |= del(.name, .name_units)"),
    (1, '.partitiontable.partitions[0] |= (.type = "home" | del(.bsd))'),
    (1, '.partitiontable.partitions[0] |= (.type = "EF02" | del(.type_name, .bsd))'),
    (1, '.partitiontable.partitions[-1] |= (.type = "A19D880F-05FC-4D3B-A006-743F0F84911E" | del(.bsd))'),
    (1, ".partitiontable.partitions[0] |= (.size = ((.size + 1) / 2 | floor) | del(.bsd))"),
    (1, '.partitiontable.partitions[-1] |= (.size = "512KiB" | del(.bsd))'),
    (1, "del(.partitiontable.partitions[0])"),
    (0, "del(.partitiontable.partitions)"),
    (0, "del(.partitiontable.id, .partitiontable.firstlba, .partitiontable.lastlba, .partitiontable.entries)"),
    (0, '.partitiontable.partitions += [{"name": "new"}]'),
    (0, '.partitiontable.partitions += [{"size": "1MiB", "type": "swap"}, {"size": 7, "attrs": "GUID:60,63"}]'),
    (0, ".partitiontable.partitions = [{}] + .partitiontable.partitions"),
    (2, ".partitiontable.partitions |= (.[0].number as $one | .[0].number = .[1].number | .[1].number = $one | map(del(.node)))"),
    (2, ".partitiontable.partitions |= (.[0].uuid as $one | .[0].uuid = .[1].uuid | .[1].uuid = $one)"),
    (1, ".partitiontable.partitions |= map(del(.uuid, .number, .type_name))"),
    (1, ".partitiontable.partitions |= (reverse | map(del(.number, .node)))"),
    (1, "del(.partitiontable.partitions[0].start)"),
    (1, "del(.partitiontable.partitions[-1].size)"),
    (1, '.partitiontable.partitions |= map(del(.attributes) | .attrs = "RequiredPartition")'),
)


def new(folder, count=COUNT):
    path = f"{folder}/disk.img"
    with open(path, "wb") as it:
        it.truncate(count * 512)
    return path


def name_of(rng):
    return "".join(rng.choice(LETTERS) for _ in range(rng.randrange(1, 17))).strip() or "x"


def by_sgdisk(ptab, folder, rng):
    words = []
    for number in rng.sample(range(1, 129), rng.randrange(1, 9)):
        words += ["-n", f"{number}:0:+{rng.randrange(1, 4)}M", "-t", f"{number}:{rng.choice(TYPES)}", "-c", f"{number}:{name_of(rng)}"]
        for bit in rng.sample((*range(3), *range(48, 64)), rng.choice((0, 1, 3, 12))):
            words += ["-A", f"{number}:set:{bit}"]
    must("sgdisk", *words, new(folder))


def by_sfdisk(ptab, folder, rng):
    """Also with usable sectors of its own, and with an array of 4 or 40 entries, which ptab writes as long as one of 128."""
    lines, count = ["label: gpt"], rng.choice((None, None, 4, 40))
    if rng.randrange(2) or count:
        lines += [f"first-lba: {rng.choice((34, 100, 2048))}", f"last-lba: {COUNT - rng.choice((34, 100, 5000))}"]
    lines += [f"table-length: {count}"] if count else []
    for _ in range(rng.randrange(1, 5)):
        words = [f"size={rng.choice(('1MiB', '5000', '77', '8MiB'))}", f"type={rng.choice('LUS')}"]
        words += rng.choice(([], [f'name="{"".join(rng.choice("abc xyz") for _ in range(9))}z"']))
        words += rng.choice(([], ['attrs="RequiredPartition GUID:60"'], ['attrs="GUID:48,63"']))
        lines.append(", ".join(words))
    must("sfdisk", "-q", new(folder), input="\n".join(lines) + "\n")


def by_parted(ptab, folder, rng):
    words, at = ["mklabel", "gpt"], 1
    for number in range(1, rng.randrange(2, 7)):
        size = rng.randrange(1, 5)
        words += ["mkpart", f"part{number}", rng.choice(("ext4", "fat32", "linux-swap")), f"{at}MiB", f"{at + size}MiB"]
        words += rng.choice(([], ["set", str(number), rng.choice(("esp", "bios_grub", "lvm", "legacy_boot", "raid")), "on"]))
        at += size
    must("parted", "-s", new(folder), *words)


def by_cgpt(ptab, folder, rng):
    """With attributes of its own, and mostly no protective MBR."""
    path, at = new(folder), 64
    must("cgpt", "create", path)
    for number in sorted(rng.sample(range(1, 129), rng.randrange(1, 8))):
        size = rng.choice((1, 100, 8192))
        words = ["-i", str(number), "-b", str(at), "-s", str(size), "-l", f"L{number}"]
        words += ["-t", rng.choice(("data", "efi"))]
        must("cgpt", "add", *words, *rng.choice(([], ["-S", "1", "-T", "5", "-P", "9"])), path)
        at += size
    if rng.randrange(3) == 0:
        must("cgpt", "boot", "-p", path)


def by_text(ptab, folder, rng):
    """1, 4, 40 and 128 entries, by ptab."""
    count = rng.choice((1, 4, 40, 128))
    numbers = rng.sample(range(1, count + 1), rng.randrange(1, min(count, 9) + 1))
    parts = [{"number": number, "size": rng.choice(("1MiB", 3000, 1)), "type": rng.choice(TYPES), "name": name_of(rng),
              "attributes": rng.choice((0, 4, 2 ** 40, 2 ** 52 + 2 ** 20))} for number in numbers]
    text = {"entries": count, "firstlba": rng.choice((34, 64, 2048)), "lastlba": COUNT - rng.choice((34, 99)), "partitions": parts}
    must(ptab, "set", "--fresh", FRESH, new(folder), "-", input=json.dumps({"partitiontable": text}))


def with_slices(ptab, folder, rng):
    """Two slices, one of them with partitions, one with an empty label or none, and a partition of Linux."""
    words = ["o", "a:1", "n:1:2048:+4096:A500", "c:1:bsd \U0001f4be", "n:1.a:0:+1000:07", "n:1.b:0:0:01", "n:3:0:+2000:A500",
             "n:5:0:+3000:8300"]
    path = new(folder)
    must(ptab, "edit", path, "--fresh", FRESH, *words[:rng.randrange(3, 9)])
    if rng.randrange(2):
        image = bytearray(content(path))
        SMALL.put(image, 2049, bytes(512))
        put(path, image)


def by_hand(ptab, folder, rng):
    """Names with half a surrogate pair or with a zero in them, attributes of all bits, and a label with the disk's own sectors."""
    units = rng.choice(([0xD83D, 0x41], [0xDCBE], [0x41, 0, 0x42], [0x41] * 35 + [0xD800], [0xFFFF] * 36))
    name = b"".join(unit.to_bytes(2, "little") for unit in units).ljust(72, b"\0")
    image = SMALL.gpt(COUNT, {1: entry(34, 99)[:56] + name, 2: entry(100, 199, unique=guid(2), attributes=2 ** 64 - 1, name="all"),
                              7: entry(4096, 5095, FREEBSD, guid(7)), 128: entry(6000, 6000, unique=guid(128), attributes=8)})
    SMALL.put(image, 4097, label(1000, {0: (100, 4112, 7), 4: (30, 4600, 1)}, raw_offset=4096, count=rng.choice((5, 8))))
    put(new(folder), image)


def grown(ptab, folder, rng):
    rng.choice((by_sgdisk, by_text, with_slices))(ptab, folder, rng)
    path = f"{folder}/disk.img"
    put(path, content(path) + bytes(512 * rng.choice((1, 33, 34, 5000))))


def lost(ptab, folder, rng):
    """Without one of the copies, or with a protective record that is sloppy."""
    rng.choice((by_sgdisk, by_text, with_slices))(ptab, folder, rng)
    path = f"{folder}/disk.img"
    image = bytearray(content(path))
    at = rng.choice((1, 2, COUNT - 1, COUNT - 33))
    SMALL.put(image, at, bytes(b ^ 0x55 for b in SMALL.sector(image, at)))
    image[446 + 5] ^= rng.choice((0, 0xFE))
    put(path, image)


MAKERS = (by_sgdisk, by_sfdisk, by_text, with_slices, by_hand, grown, lost, by_parted, by_cgpt, by_text)


class Trip:
    """One image, and its way there and back."""

    def __init__(self, ptab, folder, seed):
        self.ptab, self.folder, self.path, self.seed = ptab, folder, f"{folder}/disk.img", seed
        MAKERS[seed % len(MAKERS)](ptab, folder, random.Random(seed))
        self.what = f"seed {seed}, {MAKERS[seed % len(MAKERS)].__name__}"
        self.image = content(self.path)
        self.is_healthy = self.run("verify", self.path) == ("yes\n", "", 0)
        self.text = must(ptab, "show", "--json", self.path)

    def run(self, *words, text=None):
        done = subprocess.run([self.ptab, *words], input=text, capture_output=True, text=True, encoding="utf-8")
        return done.stdout, done.stderr, done.returncode

    def shows(self, what, table):
        """The image is healthy and shows the table, which sgdisk finds nothing wrong with."""
        same(f"{self.what}: {what}: verify", self.run("verify", self.path), ("yes\n", "", 0))
        same(f"{self.what}: {what}: the table", json.loads(must(self.ptab, "show", "--json", self.path)), table)
        same(f"{self.what}: {what}: sgdisk -v", "No problems found" in must("sgdisk", "-v", self.path), True)

    def own_text(self):
        same(f"{self.what}: its own text", self.run("set", self.path, "-", text=self.text), ("done\n", "", 0))
        if self.is_healthy:
            same(f"{self.what}: the image of its own text", content(self.path) == self.image, True)
        self.shows("its own text", json.loads(self.text))
        left = content(self.path)
        same(f"{self.what}: once more", self.run("set", self.path, "-", text=self.text), ("done\n", "", 0))
        same(f"{self.what}: its image", content(self.path) == left, True)

    def edited(self):
        """Every edit that the table has enough partitions for."""
        parts = len(json.loads(self.text)["partitiontable"]["partitions"])
        for least, program in EDITS:
            if parts < least:
                continue
            text = must("jq", f"{EXACT} | {program}", input=self.text)
            put(self.path, self.image)
            found = self.run("set", "--fresh", FRESH, self.path, "-", text=text)
            wanted = self.wanted(text)
            if isinstance(wanted, tuple):
                same(f"{self.what}: {program}", found, wanted)
                same(f"{self.what}: {program}: the image", content(self.path) == self.image, True)
                continue
            same(f"{self.what}: {program}", found, ("done\n", "", 0))
            self.shows(program, wanted)
            self.says(program, json.loads(text)["partitiontable"], wanted["partitiontable"])

    def wanted(self, text):
        try:
            table = wanted_of(text.encode("utf-8"), fresh_guids(FRESH), self.image, SMALL, self.is_healthy)
        except Fault as fault:
            return fault.answer
        return shown(table, self.path)

    def says(self, what, text, table):
        """What the text says stands in the table: each member by its value, but for types by their names and sizes with units."""
        for name in set(text) & {"id", "firstlba", "lastlba", "entries", "sectors"}:
            same(f"{self.what}: {what}: {name}", table[name], text[name])
        same(f"{self.what}: {what}: how many", len(table["partitions"]), len(text.get("partitions", [])))
        by_number = {it["number"]: it for it in table["partitions"]}
        for it in text.get("partitions", []):
            for name in set(it) & {"start", "size", "uuid", "name", "name_units", "attributes", "attrs", "bsd"} if "number" in it else ():
                if name != "size" or isinstance(it[name], int):
                    same(f"{self.what}: {what}: {name} of {it['number']}", by_number[it["number"]].get(name), it[name])

    def of_sfdisk(self):
        """sfdisk prints no name that isn't UTF-16, and of some attributes null."""
        put(self.path, self.image)
        told = json.loads(self.text)
        parts = told["partitiontable"]["partitions"]
        if any("name_units" in it or (it.get("attributes", 0) & (2 ** 48 - 8)) for it in parts):
            return
        done = subprocess.run(["sfdisk", "--json", self.path], capture_output=True, text=True, env=ENVIRONMENT)
        if done.returncode != 0 or "{" not in done.stdout:
            return
        text = done.stdout[done.stdout.index("{"):]
        same(f"{self.what}: sfdisk's text", self.run("set", self.path, "-", text=text), ("done\n", "", 0))
        theirs = json.loads(text)["partitiontable"]
        told["partitiontable"] |= {name: theirs[name] for name in ("firstlba", "lastlba")}
        self.shows("sfdisk's text", told)

    def on_blank(self):
        put(self.path, bytes(len(self.image)))
        same(f"{self.what}: on a blank image", self.run("set", self.path, "-", text=self.text), ("done\n", "", 0))
        self.shows("on a blank image", json.loads(self.text))
        if self.is_healthy:
            same(f"{self.what}: a blank image's sectors", content(self.path)[446:] == self.image[446:], True)


def job(ptab, seed):
    """How much was compared."""
    before = compared.count
    with room() as folder:
        trip = Trip(ptab, folder, seed)
        trip.own_text()
        trip.edited()
        trip.of_sfdisk()
        trip.on_blank()
    return compared.count - before


def main():
    ptab = os.path.abspath(sys.argv[1])
    count = int(sys.argv[2]) if len(sys.argv) > 2 else 60
    with ProcessPoolExecutor() as pool:
        done = [pool.submit(job, ptab, seed) for seed in range(count)]
        print(f"round trips: {sum(it.result() for it in done)} passed, 0 failed, on {count} images")


main()
