"""Jobs on GPTs of every kind, and the images that a stop among the writes of each may leave."""
import os
import subprocess
import sys
from dataclasses import dataclass, field

import compared
from compared import put
from images import FREEBSD, LARGE, SMALL, Sectors, ebr, entry, guid, label, record
from plans import text_of
from writes import recorded, written

FRESH = "".join(f"{0xA0000000000000000000000000000001 + k:032x}" for k in range(48))
KEEP = "--keep-primary"
# up to how many writes of a phase each is also tried alone, and each left out
FEW = 12


@dataclass
class Job:
    """A command on an image. `whole` has the image's table, undamaged, for what a reader is to find of it. `entries` is how many the table
    has. `follows`: whether a reader of the primary copy alone finds the table before the job."""
    name: str
    image: bytes
    words: str = ""
    sectors: Sectors = SMALL
    whole: bytes = None
    entries: int = 128
    follows: bool = True

    @property
    def command(self):
        return "edit" if self.words else "repair"


@dataclass
class Done:
    """A job done, by the table or with the primary kept: its phases, the one that switches (0 where the table stays), the finished image,
    and the stopped ones, each with the first phase in which it may be left."""
    job: Job
    kept: bool
    phases: list
    switch: int
    after: bytes
    stops: dict = field(default_factory=dict)

    @property
    def what(self):
        return f"{self.job.name}, {'kept' if self.kept else 'by the table'}"


def subsets(writes):
    """All choices of a few writes; else none, all, the first and the last half, every other one; and of some more each alone and each
    left out."""
    if len(writes) <= 4:
        return [[it for k, it in enumerate(writes) if number >> k & 1] for number in range(2 ** len(writes))]
    half = len(writes) // 2
    picked = [[], writes, writes[:half], writes[half:], writes[::2], writes[1::2]]
    if len(writes) <= FEW:
        picked += [[it] for it in writes] + [[it for it in writes if it is not one] for one in writes]
    return picked


def answer(ptab, path, sectors, command, *words):
    done = subprocess.run([ptab, command, "--sector-size", str(sectors.size), path, *words], capture_output=True, text=True)
    return done.stdout + done.stderr


def done(ptab, folder, job, kept):
    """Does the job under strace, asks `check` which phase of its writes switches, and makes the stopped images."""
    path, sectors = f"{folder}/image", job.sectors
    put(path, job.image)
    words = [KEEP] * kept + (["--fresh", FRESH, *job.words.split(" ")] if job.words else [])
    phases = [phase for phase in recorded(ptab, path, job.command, words, sectors) if phase]
    after = compared.content(path)
    if answer(ptab, path, sectors, "verify") != "yes\n":
        sys.exit(f"{job.name}: not healthy at the end")
    put(path, job.image)
    put(f"{path}.plan", text_of(phases).encode())
    told = answer(ptab, path, sectors, "check", f"{path}.plan")
    if not told.startswith("yes "):
        sys.exit(f"{job.name}: check says {told}")
    it = Done(job, kept, phases, int(told.split()[1]), after)
    before = bytes(job.image)
    for number, phase in enumerate(phases, 1):
        live = [(lba, content) for lba, content in phase if sectors.sector(before, lba) != content]
        for writes in subsets(live):
            it.stops.setdefault(bytes(written(before, writes, sectors)), number)
        before = bytes(written(before, phase, sectors))
    return it


def two(sectors=SMALL, count=4096, entries_in_all=128):
    """Two partitions with room behind them, in a table of so many entries."""
    unit = 4096 // sectors.size
    entries = {1: entry(64 * unit, 128 * unit - 1, unique=guid(1), name="alpha"),
               2: entry(128 * unit, 192 * unit - 1, unique=guid(2), name="beta")}
    return bytes(sectors.gpt(count, entries, count=entries_in_all))


def without(image, lba, sectors=SMALL):
    """The image with zeros in one sector, counted from the end below 0."""
    made = bytearray(image)
    at = lba % sectors.count(image)
    sectors.put(made, at, bytes(sectors.size))
    return bytes(made)


def sliced():
    made = SMALL.gpt(4096, {1: entry(512, 1023, FREEBSD, guid(1), name="alpha"), 2: entry(1024, 1535, unique=guid(2), name="beta")})
    SMALL.put(made, 513, label(512, {0: (200, 16, 7)}))
    return bytes(made)


def mbr(chain=False):
    records = [record(0x83, 512, 512), record(0x05, 2048, 1024) if chain else record(0x82, 1024, 512)]
    made = SMALL.mbr(4096, records)
    if chain:
        SMALL.put(made, 2048, ebr(record(0x83, 64, 64), record(0x05, 512, 256)))
        SMALL.put(made, 2560, ebr(record(0x82, 64, 64)))
    return bytes(made)


def on_whole():
    """Jobs on a disk whose primary copy is whole, with and without changes of what GRUB and kpartx tell."""
    plain, large, slices = two(), two(LARGE, 1024), sliced()
    forty = " ".join(f"n:{3 + k}:{1536 + 8 * k}:{1543 + 8 * k}" for k in range(40))
    sloppy = bytearray(plain)
    sloppy[446 + 5] = 0xFE
    yield Job("a name", plain, "c:1:renamed")
    yield Job("a new partition", plain, "a:1 n:3:1600:1699")
    yield Job("a deletion", plain, "d:2")
    yield Job("another size", plain, "a:1 d:2 n:2:1024:1400 c:2:larger")
    yield Job("forty partitions", plain, f"a:1 {forty}")
    yield Job("a table of 4 entries", two(entries_in_all=4), "d:1", entries=4)
    yield Job("a table of 56 entries", two(entries_in_all=56), "c:1:renamed d:2", entries=56)
    yield Job("a name of a slice", slices, "c:1:renamed")
    yield Job("a deleted slice", slices, "d:1")
    yield Job("a new slice", slices, "a:1 n:3:1600:2111:A500 c:2:x")
    yield Job("4096 bytes, a name", large, "c:1:renamed", LARGE)
    yield Job("4096 bytes, a new partition", large, "a:1 n:3:200:299", LARGE)
    yield Job("a grown disk", plain + bytes(1000 * 512), "e")
    yield Job("a grown disk and a deletion", plain + bytes(1000 * 512), "e d:1")
    yield Job("a sloppy protective record", bytes(sloppy), "d:1")
    yield Job("a sloppy protective record, repaired", bytes(sloppy))
    yield Job("a lost backup, repaired", without(plain, -1), whole=plain)
    yield Job("a lost backup and a deletion", without(plain, -1), "d:1", whole=plain)
    yield Job("4096 bytes, a lost backup, repaired", without(large, -1, LARGE), sectors=LARGE, whole=large)


def on_lost():
    """Jobs on a disk whose primary copy is lost: a reader of that alone finds nothing before the first bridge."""
    plain, large, slices = two(), two(LARGE, 1024), sliced()
    yield Job("a lost primary, repaired", without(plain, 1), whole=plain, follows=False)
    bare = bytearray(without(plain, 1))
    SMALL.put(bare, 2, bytes(SMALL.array * 512))
    yield Job("a lost primary without its array, repaired", bytes(bare), whole=plain, follows=False)
    yield Job("a lost primary and a name", without(plain, 1), "c:1:renamed d:2", whole=plain, follows=False)
    yield Job("a lost primary and a new slice", without(slices, 1), "a:1 n:3:1600:2111:A500", whole=slices, follows=False)
    yield Job("4096 bytes, a lost primary and a name", without(large, 1, LARGE), "c:1:renamed d:2", LARGE, large, follows=False)


def on_stopped(it):
    """Jobs on a disk that was stopped in or after a phase of a kept one: its repair; and where a bridge stands, another edit."""
    sectors, image = it.job.sectors, bytes(it.job.image)
    old = it.job.whole or it.job.image

    def stopped(where, image, switched, words=""):
        return Job(f"{it.job.name}, stopped {where}, {'another edit' if words else 'repaired'}", image, words, sectors,
                   it.after if switched else old, it.job.entries)
    for number, phase in enumerate(it.phases, 1):
        live = [(lba, content) for lba, content in phase if sectors.sector(image, lba) != content]
        if len(live) > 1:
            yield stopped(f"in phase {number}", bytes(written(image, live[::2], sectors)), number > it.switch)
        image = bytes(written(image, phase, sectors))
        if image != it.after:
            yield stopped(f"after phase {number}", image, number >= it.switch)
        if is_bridge(image, sectors):
            yield stopped(f"after phase {number}", image, number >= it.switch, "c:1:another")


def is_bridge(image, sectors):
    """Whether sector 1 has a header whose array is that of the backup copy."""
    header = sectors.sector(image, 1)
    return header[:8] == b"EFI PART" and int.from_bytes(header[72:80], "little") == sectors.count(image) - sectors.array - 1


def on_mbr():
    """An MBR that becomes a GPT: there is no primary copy to keep."""
    yield Job("an MBR to a GPT", mbr(), "g", follows=False)
    yield Job("an MBR with a chain to a GPT", mbr(chain=True), "g", follows=False)


# the jobs in whose stops more is done
STOPPED = ("a name", "forty partitions", "a new slice", "4096 bytes, a new partition", "a lost primary and a name")


def done_both_ways(ptab, folder, job):
    """A job done both ways; of some the disk stopped in the kept one is mended and edited too, with the primary kept."""
    kept = done(ptab, folder, job, True)
    more = on_stopped(kept) if job.name in STOPPED else ()
    return [done(ptab, folder, job, False), kept, *(done(ptab, folder, it, True) for it in more)]


def all_done(ptab, folder, pool, every):
    """All these jobs, done, each in a folder of its own."""
    places = [f"{folder}/{number}" for number in range(len(every))]
    for place in places:
        os.mkdir(place)
    return [it for found in pool.map(done_both_ways, [ptab] * len(every), places, every) for it in found]


def images_of(every):
    """All that readers are to be shown, with the size of a sector: whole images, and stopped ones."""
    return [(bytes(image), it.job.sectors.size) for it in every for image in (it.job.whole or it.job.image, it.after, *it.stops)]
