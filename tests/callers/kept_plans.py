"""Plans of a GPT by what becomes of its primary copy, worked out by hand: which sectors are written in which phase by docs/c.md ("The
primary copy"), their bytes by docs/format.md. c_library.py holds the command and the calls of ptab.h against these, disk_library.py the
calls on open disks, also in what they write. At each stop of a plan that keeps the copy a reader of it alone (tests/shared/reader.py) finds
the old table or the new one."""
import os
import struct
import subprocess
import sys
import uuid
import zlib
from dataclasses import dataclass

import images
import plans
import replay
import writes
from compared import put, same
from images import LARGE, SMALL, Sectors, entry, guid, record
from reader import followed

ROOT = os.path.dirname(os.path.dirname(os.path.dirname(os.path.abspath(__file__))))
# random bytes of two GUIDs, and the second one
DRAWN = bytes(range(32))
UNIQUE = str(uuid.UUID(bytes=DRAWN[16:], version=4))
CHOICES = {None: replay.OF_ITSELF, True: replay.KEPT, False: replay.BY_TABLE}
# a job on an open disk by Python's module, in another process
PYTHON = """
import sys
import ptab as lib
library, path, other_path, size, keep, *words = sys.argv[1:]
lib.load(library)
keep = {"kept": True, "by table": False}.get(keep)
with lib.Disk(path, write=True, sector_size=int(size), keep_primary=keep) as disk:
    if words:
        count = disk.edit(*words, drawn=bytes(range(32)))
    elif other_path:
        with lib.Disk(other_path, sector_size=int(size), keep_primary=None if keep is None else not keep) as other:
            count = disk.adopt(other)
    else:
        count = disk.repair()
print(count)
"""


@dataclass
class Job:
    """An edit by words, an adoption of another image's table, or, without both, a repair; what it leaves; and the phases of its plan, each
    of (sector, bytes), with the primary copy kept and with its header zeroed."""
    name: str
    sectors: Sectors
    image: bytes
    new: bytes
    kept: list
    by_table: list
    words: tuple = ()
    other: bytes = b""

    def phases(self, keep):
        """Of itself an adoption keeps the primary copy, and all else doesn't."""
        return self.kept if keep or keep is None and self.other else self.by_table

    def read(self, k):
        return self.image[k * self.sectors.size:(k + 1) * self.sectors.size]


def bridge(sectors, image):
    """The backup's header with the numbers of the two headers exchanged: it stands in sector 1, and leads to the backup's array."""
    last = sectors.count(image) - 1
    header = bytearray(sectors.sector(image, last))
    struct.pack_into("<I4xQQ", header, 16, 0, 1, last)
    struct.pack_into("<I", header, 16, zlib.crc32(header[:92]))
    return bytes(header)


def job(name, sectors, image, new, kept, by_table, **more):
    """A job with its phases by their names: what is written of the new image, and what stands in sector 1 before its header."""
    count, array, image, new = sectors.count(image), sectors.array, bytes(image), bytes(new)

    def run(first, last):
        return [(lba, sectors.sector(new, lba)) for lba in range(first, last + 1)]
    parts = {"zero": run(0, 0), "header": run(1, 1), "array": run(2, array + 1), "backup": run(count - array - 1, count - 1),
             "zeros": [(1, bytes(sectors.size))], "bridge": [(1, bridge(sectors, new))], "old_bridge": [(1, bridge(sectors, image))]}
    phases = ([parts[part] for part in names.split()] for names in (kept, by_table))
    return Job(name, sectors, image, new, *phases, **more)


def without(sectors, image, *lost):
    """An image in which these sectors are lost."""
    image = bytearray(image)
    for lba in lost:
        sectors.put(image, lba, bytes(sectors.size))
    return image


def edits():
    gpt, empty = images.one_partition(), SMALL.zeros(4096)
    backup_first, primary_first = "backup zeros array header", "zeros array header backup zero"
    named = SMALL.gpt(4096, {1: entry(2048, 4062, name="data")})
    yield job("a rename", SMALL, gpt, named, "backup bridge array header", backup_first, words=("c:1:data",))
    large = LARGE.gpt(64, {1: entry(6, 40, name="data")})
    yield job("a rename, 4096", LARGE, LARGE.gpt(64, {1: entry(6, 40)}), large, "backup bridge array header", backup_first,
              words=("c:1:data",))
    short = [SMALL.gpt(200, {1: entry(40, 100, name=name)}, count=4) for name in ("", "data")]
    yield job("a table of 4 entries", SMALL, *short, "backup bridge array header", backup_first, words=("c:1:data",))
    # the array stands, so only headers differ
    other = SMALL.gpt(4096, {1: entry(2048, 4062)}, disk=guid(5))
    yield job("another GUID of the disk", SMALL, gpt, other, "backup header", backup_first, words=(f"U:{guid(5)}",))
    yield job("nothing", SMALL, gpt, gpt, "", "", words=("c:1:",))
    # where there is no table there is none to lead to: zeros stay
    made = SMALL.gpt(4096, {1: entry(40, 100, unique=UNIQUE)})
    yield job("a first table", SMALL, empty, made, "array header backup zero", primary_first, words=("o", "a:1", "n:1:40:100"))
    noise = bytearray(empty)
    SMALL.put(noise, 1, b"\xa5" * 512)
    yield job("a first table over noise", SMALL, noise, made, primary_first, primary_first, words=("o", "a:1", "n:1:40:100"))
    yield job("a first table without entries", SMALL, empty, SMALL.gpt(4096, {}), "header backup zero", primary_first, words=("o",))
    mbr = [SMALL.mbr(200, [record(kind, 120, 30, 0x80)]) for kind in (0x83, 0x07)]
    yield job("an MBR", SMALL, *mbr, "zero", "zero", words=("t:1:07",))


def repairs():
    gpt, large = images.one_partition(), LARGE.gpt(64, {1: entry(6, 40)})
    backup_first, primary_first = "backup zeros array header", "zeros array header backup"
    for sectors, image in ((SMALL, gpt), (LARGE, large)):
        last = sectors.count(image) - 1
        for name, lost, kept, by_table in (
                ("the backup header", (last,), "backup", backup_first),
                ("the backup array", (last - sectors.array,), "backup", backup_first),
                ("the primary header", (1,), "header", primary_first),
                ("the primary array", (2,), "old_bridge array header", primary_first),
                ("the primary copy", (1, 2), "old_bridge array header", primary_first),
                ("sector 0", (0,), "zero", f"{backup_first} zero"),
                ("sector 0 and the backup", (0, last), "backup zero", f"{backup_first} zero"),
                ("nothing", (), "", "")):
            yield job(f"lost: {name}, {sectors.size}", sectors, without(sectors, image, *lost), image, kept, by_table)
    differs = bytearray(gpt)
    SMALL.put_side(differs, "backup", {1: entry(2048, 4061)})
    yield job("copies that differ", SMALL, differs, gpt, "backup", backup_first)
    # stopped where sector 1 leads to the backup's array: the array, then the header
    named = SMALL.gpt(4096, {1: entry(2048, 4062, name="data")})
    stopped = bytearray(gpt)
    SMALL.put_side(stopped, "backup", {1: entry(2048, 4062, name="data")})
    SMALL.put(stopped, 1, bridge(SMALL, named))
    yield job("stopped", SMALL, stopped, named, "array header", primary_first)
    yield job("stopped after the array", SMALL, named[:512] + bridge(SMALL, named) + named[1024:], named, "header", primary_first)


def adoptions():
    gpt, other = images.one_partition(), bytes(SMALL.gpt(4096, {2: entry(100, 300)}))
    yield job("an adoption", SMALL, gpt, other, "backup bridge array header", "backup zeros array header", other=other)
    yield job("an adoption on an empty disk", SMALL, SMALL.zeros(4096), other, "array header backup zero",
              "zeros array header backup zero", other=other)
    yield job("an adoption of the same", SMALL, gpt, gpt, "", "", other=bytes(gpt))
    lost = without(SMALL, other, 4095)
    yield job("an adoption that mends the backup", SMALL, lost, other, "backup", "backup zeros array header", other=other)


def jobs():
    yield from edits()
    yield from repairs()
    yield from adoptions()


def stops(rng, sectors, image, phases):
    """How many stops of a plan were tried: at each the primary copy denotes the old table or the new one. An MBR in place of a GPT has no
    copy: it comes by one write of sector 0, alone in its phase, and what stands in sector 1 is as it was until then."""
    before, after, tried = bytearray(image), bytearray(image), 0
    for phase in phases:
        after = writes.written(after, phase, sectors)
    allowed = followed(image, sectors), followed(after, sectors)
    if 0xEE not in after[450:510:16]:
        turns = [k for k, phase in enumerate(phases) if any(lba == 0 for lba, _ in phase)]
        same("an MBR in place of a GPT turns", [len(phases[k]) for k in turns], [1])
        same("sector 1 before it", [lba for phase in phases[:turns[0]] for lba, _ in phase if lba == 1], [])
        return 0
    if None in allowed:
        sys.exit("kept plans: the primary copy isn't whole before and after")
    for number, phase in enumerate(phases, 1):
        for some in writes.choices(rng, phase):
            if followed(writes.written(before, some, sectors), sectors) not in allowed:
                sys.exit(f"kept plans: stopped in phase {number} after {[lba for lba, _ in some]} the primary copy denotes no table")
            tried += 1
        before = writes.written(before, phase, sectors)
    return tried


# ---- the command, the calls of ptab.h, and those on open disks


def by_command(ptab, folder, it, keep):
    """The phases that the command plans or, of a repair, writes."""
    path, other, size = put(f"{folder}/kept", it.image), put(f"{folder}/kept.other", it.other), str(it.sectors.size)
    option = ["--keep-primary"] if keep and not it.other else ["--by-table"] if keep is False and it.other else []
    if not it.words and not it.other:
        return [phase for phase in writes.recorded(ptab, path, "repair", option, it.sectors) if phase]
    words = ["plan", path, "--fresh", DRAWN.hex(), *it.words] if it.words else ["adopt", "--plan", path, other]
    done = subprocess.run([ptab, *words[:1], *option, "--sector-size", size, *words[1:]], capture_output=True, text=True)
    same(f"{it.name} by the command: {done.stderr}", done.returncode, 0)
    return plans.phases_of(done.stdout, it.sectors.size)


def by_calls(library, it, primary):
    """The phases that the library gives for a view with this number; they are taken by its checker."""
    def disk_of(image):
        return replay.Disk(library, lambda k: image[k * it.sectors.size:(k + 1) * it.sectors.size], it.sectors.count(image),
                           it.sectors.size, primary)
    disk = disk_of(it.image)
    if it.words:
        found = disk.plan(it.words, DRAWN)
    else:
        found = disk.adopt(disk_of(it.other)) if it.other else disk.repair()
    same(f"{it.name}: its check", disk.check(found)[0], replay.DONE)
    return found


def by_open_disk(library, folder, it, keep):
    """The phases that a call on an open disk writes. The other disk of an adoption is opened with another choice."""
    size = it.sectors.size
    path, other = put(f"{folder}/kept", it.image), put(f"{folder}/kept.other", it.other) if it.other else ""
    told = {None: "of itself", True: "kept", False: "by table"}[keep]
    command = [sys.executable, "-B", "-c", PYTHON, library, path, other, str(size), told, *it.words]
    env = {**os.environ, "PYTHONPATH": f"{ROOT}/bindings/python"}
    done, found = writes.traced(command, path, it.sectors, ("openat", "pwrite64", *writes.SYNCS), env=env)
    same(f"{it.name}, {told}: {done.stderr}", (done.returncode, found[:1]), (0, [[]]))
    with open(path, "rb") as left:
        same(f"{it.name}, {told}: what is left", left.read() == it.new, True)
    same(f"{it.name}, {told}: how many", int(done.stdout), sum(map(len, found)))
    return found[1:]
