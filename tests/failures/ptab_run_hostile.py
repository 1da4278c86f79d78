"""Tables of hostile fields through ptab-run: each field of a GPT's headers and of an entry, of records and of links, at extreme values. The
tool gives its copy another table. Either the image has that one afterwards, or it is as before and the reason is told in a line of its own;
--plan writes nothing, and --save leaves a COPY that shows the image's table, or none.
"""
import itertools
import os
import subprocess
from concurrent.futures import ThreadPoolExecutor

from images import FREEBSD, SMALL, ebr, entry, label, record
from tools import must

SECTORS = 2048
LONG = (0, 1, 33, SECTORS - 1, SECTORS, 1 << 31, 1 << 54, (1 << 55) - 1, 1 << 55, (1 << 63) - 1, 1 << 63, (1 << 64) - 33, (1 << 64) - 1)
SHORT = (0, 1, 129, 4096, 1 << 16, (1 << 31) - 1, 1 << 31, (1 << 32) - 1)
FIELDS = {**dict.fromkeys(("my", "alternate", "first", "last", "array"), LONG),
          **dict.fromkeys(("revision", "size", "count", "entry_size", "array_crc", "crc"), SHORT)}


def headers():
    """The sums are right, but for the sum's own field."""
    whole = {1: entry(100, 200)}
    sides = itertools.cycle((["primary", "backup"], ["primary"], ["backup"]))
    for name, values in FIELDS.items():
        for value, changed in zip(values, sides):
            image = SMALL.gpt(SECTORS, whole)
            for side in changed:
                SMALL.put_side(image, side, whole, **{name: value})
            yield f"{name} {value} {changed}", image
    # arrays of many long entries, all of them slices
    for count, size in ((128, 4096), (4096, 128), ((1 << 32) - 1, (1 << 32) - 1)):
        image = SMALL.gpt(SECTORS, {k: entry(k, (1 << 64) - 1, FREEBSD) for k in range(1, 129)})
        SMALL.put(image, 1, SMALL.header(1, SECTORS - 1, 34, SECTORS - 34, 2, 0, count=count, entry_size=size))
        yield f"{count} entries of {size}", image


def entries():
    for first in LONG:
        for last in (SECTORS - 1, (1 << 64) - 1):
            yield f"a slice from {first} to {last}", SMALL.gpt(SECTORS, {1: entry(first, last, FREEBSD), 2: entry(last, first)})
    for length in SHORT:
        image = SMALL.gpt(SECTORS, {1: entry(100, 200, FREEBSD)})
        SMALL.put(image, 101, label(length, {0: (length, length, 7), 7: (1, length, 255)}))
        yield f"a label of {length}", image


def chains():
    sizes = itertools.cycle((1, 1000, (1 << 32) - 1))
    for kind, start, size in zip(len(SHORT) * (0x05, 0x83, 0xA5, 0xEE), [start for start in SHORT for _ in range(4)], sizes):
        more = [record(0x0F, 500, size)] if kind == 0x05 else []
        yield f"a record {kind:02x} {start} {size}", SMALL.mbr(SECTORS, [record(kind, start, size), *more])
        image = SMALL.mbr(SECTORS, [record(0x05, 100, 1000)])
        SMALL.put(image, 100, ebr(record(kind, start, size), record(0x05, start, size)))
        yield f"a link {kind:02x} {start} {size}", image
    for lba in range(0, 32, 4):
        # each link leads to the next of them but one, and the last ones back
        image = SMALL.mbr(SECTORS, [record(0x05, 100, 1000)])
        for k in range(0, 32):
            SMALL.put(image, 100 + k, ebr(record(0xA5, k, 1 << 31), record(0x05, (k + 2) % 32 if k else lba, 1)))
        yield f"a loop by {lba}", image


class Tried:
    """One image, in a folder of its own."""

    def __init__(self, it, name, image, number, other):
        self.it, self.name, self.image = it, name, bytes(image)
        self.place = f"{it.folder}/{number}"
        os.makedirs(f"{self.place}/left")
        self.path, self.copy, self.other = f"{self.place}/disk.img", f"{self.place}/copy", other
        self.where = {**it.where, "TMPDIR": f"{self.place}/left"}

    def run(self, *words):
        """The answer, which is one of a run that ended as it should."""
        it = self.it
        it.write(self.image, self.path)
        done = subprocess.run([it.run_file, *words], capture_output=True, text=True, env=self.where)
        lines = done.stderr.splitlines()
        told = f"{self.name}: {words}: {done.stderr}"
        is_named = done.returncode == 0 or bool(lines)
        it.same(told, (done.returncode in (0, 123, 125), is_named, [line for line in lines if not line.startswith("ptab-run: ")],
                       os.listdir(f"{self.place}/left")), (True, True, [], []))
        return told, done.returncode

    def all(self):
        it = self.it
        told, status = self.run("--lossy", self.path, "cp", self.other, "@")
        wanted = (it.show(self.other), ("yes\n", "", 0)) if status == 0 else None
        found = (it.show(self.path), it.ptab_says("verify", self.path)) if status == 0 else None
        it.same(told, (found, status == 0 or it.image(self.path) == self.image), (wanted, True))
        told, planned = self.run("--plan", "--lossy", self.path, "cp", self.other, "@")
        it.same(told, (planned, it.image(self.path) == self.image), (status, True))
        told, saved = self.run("--save", self.copy, self.path)
        it.same(told, (it.image(self.path) == self.image, os.path.exists(self.copy)), (True, saved == 0))
        it.same(told, saved == 0, it.show(self.path)[2] == 0)
        if saved == 0:
            it.same(told, it.show(self.copy), it.show(self.path))
        return status


def all_of(it):
    """Some images of each kind take the table, and some don't."""
    other = it.write(SMALL.gpt(SECTORS, {3: entry(300, 400, name="other")}), f"{it.folder}/other")
    must(it.ptab, "verify", other)
    number = 0
    for kind in (headers, entries, chains):
        found = []
        with ThreadPoolExecutor() as pool:
            for name, image in kind():
                number += 1
                found.append(pool.submit(Tried(it, name, image, number, other).all))
            ends = {job.result() for job in found}
        it.same(f"{kind.__name__}: runs ended in both ways: {ends}", {0, 123} <= ends, True)
    return True
