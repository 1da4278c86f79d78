#!/usr/bin/env python3
"""Compares the sectors that each command asks the image for with those that docs/model.md says it reads: `show`, `locate` and `free` what
recovery reads, `show --copy` what decides what that copy gives, `verify` what decides the verdict, `check`, `apply` and `show --after`
what a check of that plan reads, each exactly, and `show --json` and `--human` what `show` reads; `plan`, `edit` and `repair` no others
than what decides the verdict, what a plan reads and what its check reads. So no bad sector elsewhere fails a call. A verdict, an edit, a
plan, a check and a repair read no sector twice. All this on tables of every kind and both sector sizes, with edits of several kinds that
are done and that are refused. A rename in a GPT reads at most 140 sectors and writes 67.

usage: tests/rows/reads.py PTAB
"""
import collections
import os
import re
import subprocess
import sys
import tempfile
from concurrent.futures import ThreadPoolExecutor

sys.path.insert(0, os.path.join(os.path.dirname(os.path.abspath(__file__)), "..", "shared"))
from images import FREEBSD, LARGE, SMALL, ebr, entry, guid, label, record
from plans import phases_of
from recovery import Disk, check_reads, plan_reads

CALL = re.compile(r"(pread64|pwrite64)\(\d+<[^>]*/image>.*, (\d+)\) += (\d+)$", re.MULTILINE)
FRESH = bytes(range(16)).hex()
REFUSED = 3
# the edits that are done on tables of each kind; the others are refused there, and with sectors of 4096 bytes those of a label's partition
ON_ENTRIES = ("c:1:root", "a:1 n:0:0:0", "a:1 n:5:0:0", "d:1", "t:1:8200", "o")
ON_RECORDS = ("a:1 n:0:0:0", "d:1")
ON_LABELS = ("a:1 n:1.b:0:+3", "d:1.a", "t:1.a:02")
ON_CHAINS = ("a:1 n:5:0:0", "d:5", "d:5.a", "t:5.a:02")
EDITS = dict.fromkeys((*ON_ENTRIES, "d:2.a", *ON_LABELS, *ON_CHAINS, "g", "t:9:8300"))


def fail(*told):
    sys.exit("reads: " + " ".join(str(it) for it in told))


def gpts(sectors):
    """(what it is, the image, the edits that are done on it) of each GPT"""
    count = 4 * sectors.array + 300
    first = sectors.array + 2
    one = {1: entry(first, first + 9, name="data"), 2: entry(first + 20, first + 120, FREEBSD, guid(2))}
    whole = sectors.gpt(count, one)
    sectors.put(whole, first + 21, label(101, {0: (30, 16, 7)}))
    yield "a GPT with a label", whole, (*ON_ENTRIES, "d:2.a")
    for name, lba in (("its primary copy", 1), ("its backup copy", count - 1)):
        broken = bytearray(whole)
        sectors.put(broken, lba, bytes(sectors.size))
        yield f"a GPT without {name}", broken, ON_ENTRIES


def mbrs(sectors):
    """(what it is, the image, the edits that are done on it) of each MBR"""
    sliced = sectors.mbr(400, [record(0xA5, 10, 100), record(0x83, 120, 30, 0x80), record(0xA5, 150, 200)])
    for first, length in ((10, 100), (150, 200)):
        sectors.put(sliced, first + 1, label(length, {0: (30, 16, 7)}))
    # a GPT's first copy takes sectors 1 to 33, or 1 to 5 of 4096 bytes
    yield "an MBR with labels", sliced, (*ON_RECORDS, *ON_LABELS, *(["o"] if sectors is LARGE else []))
    for steps in (1, 40):
        chain = sectors.mbr(12 + 25 * (steps + 2), [record(0x83, 1, 9), record(0x05, 10, 25 * (steps + 2))])
        for k in range(steps):
            link = record(0x05, 25 * (k + 1), 25) if k + 1 < steps else bytes(16)
            sectors.put(chain, 10 + 25 * k, ebr(record(0xA5, 1, 24), link))
            sectors.put(chain, 10 + 25 * k + 2, label(24, {0: (4, 16, 7)}))
        yield f"an MBR with {steps} logical partitions", chain, (*ON_RECORDS, *ON_CHAINS)


def sectors_of(calls, size):
    """How often each sector was read, and how many were written, by the calls of one file."""
    read, wrote = collections.Counter(), 0
    for name, at, count in CALL.findall(calls):
        touched = range(int(at) // size, -(-(int(at) + int(count)) // size))
        if name == "pread64":
            read.update(touched)
        else:
            wrote += len(touched)
    return read, wrote


class Counted:
    """The command, with its calls on an image counted."""

    def __init__(self, ptab, folder):
        self.ptab, self.folder, self.passed = ptab, folder, 0
        self.path = os.path.join(folder, "image")

    def run(self, what, sectors, image, command, words):
        """(how it ended and what it said, how often it read each sector, how many it wrote)"""
        with open(self.path, "wb") as file:
            file.write(image)
        log = os.path.join(self.folder, "calls")
        size = ["--sector-size", str(sectors.size)]
        done = subprocess.run(["strace", "-y", "-e", "trace=pread64,pwrite64", "-o", log, self.ptab, command, *size, self.path, *words],
                              stdin=subprocess.DEVNULL, capture_output=True, check=False)
        with open(log, encoding="utf-8", errors="replace") as file:
            read, wrote = sectors_of(file.read(), sectors.size)
        if not read:
            fail(what, command, words, "no read was counted", done.stderr)
        return done, read, wrote

    def reads(self, what, sectors, image, command, words, least, most):
        """Runs a call that reads at least these sectors and no others than those: the definition's. What it said."""
        done, read, _ = self.run(what, sectors, image, command, words)
        self.compare((what, command, *words), set(read), least, most)
        return done.stdout

    def compare(self, told, read, least, most):
        """Fails where a call read a sector that the definition doesn't have, or didn't read one that its answer rests on."""
        if read - most:
            fail(*told, "read sectors that decide nothing:", sorted(read - most)[:9])
        if least - read:
            fail(*told, "didn't read:", sorted(least - read)[:9])
        self.passed += 1

    def once(self, what, sectors, image, command, words=(), status=0):
        """(what it said, the sectors that it read, how many it wrote) of a call that ends with this status and reads no sector twice"""
        done, read, wrote = self.run(what, sectors, image, command, words)
        if done.returncode != status:
            fail(what, command, *words, f"ended with {done.returncode}", done.stderr)
        self.never_twice((what, command, *words), read)
        return done.stdout, set(read), wrote

    def never_twice(self, told, read):
        twice = {lba: times for lba, times in read.items() if times > 1}
        if twice:
            fail(*told, "sectors read more than once:", twice)
        self.passed += 1

    def verdict(self, what, sectors, image, decides):
        """A verdict reads the sectors that decide it, and none twice."""
        _, read, _ = self.run(what, sectors, image, "verify", ())
        self.never_twice((what, "verify"), read)
        self.compare((what, "verify"), set(read), decides, decides)

    def file(self, plan):
        path = os.path.join(self.folder, "plan")
        with open(path, "wb") as file:
            file.write(plan)
        return path


def look(it, what, sectors, image):
    """The calls that look at a disk."""
    disk = Disk(sectors, image)
    it.reads(what, sectors, image, "show", (), disk.reads, disk.reads)
    it.reads(what, sectors, image, "show", ("--json",), disk.reads, disk.reads)
    it.reads(what, sectors, image, "show", ("--human",), disk.reads, disk.reads)
    it.reads(what, sectors, image, "locate", ("1", "0"), disk.reads, disk.reads)
    it.reads(what, sectors, image, "free", (), disk.reads, disk.reads)
    for side in ("primary", "backup"):
        alone = disk.side_reads(side == "primary")
        it.reads(what, sectors, image, "show", ("--copy", side), alone, alone)
        it.reads(what, sectors, image, "show", ("--json", "--copy", side), alone, alone)
    it.verdict(what, sectors, image, disk.verdict_reads())


def mend(it, what, sectors, image):
    """A repair, whose plan is what it wrote."""
    disk = Disk(sectors, image)
    _, read, _ = it.once(what, sectors, image, "repair")
    with open(it.path, "rb") as file:
        mended = Disk(sectors, file.read())
    # whatever its phases are, recovery after each of them reads of the table before or after
    most = disk.verdict_reads() | mended.verdict_reads() | plan_reads(mended)
    it.compare((what, "repair"), read, disk.verdict_reads(), most)


def change(it, what, sectors, image, edits, is_done):
    """A plan of edits, its check, and the edits themselves and the plan applied."""
    disk = Disk(sectors, image)
    known = disk.verdict_reads()
    words, status = ["--fresh", FRESH, *edits.split()], 0 if is_done else REFUSED
    plan, read, _ = it.once(what, sectors, image, "plan", words, status)
    phases = phases_of(plan.decode(), sectors.size)
    checked = check_reads(disk, phases) if is_done else set()
    most = known | (plan_reads(disk.after(phases)) if is_done else {0}) | checked
    it.compare((what, "plan", edits), read, known, most)
    if is_done:
        for command, *option in (("check",), ("show", "--after"), ("show", "--json", "--after"), ("apply",)):
            _, read, _ = it.once(what, sectors, image, command, [*option, it.file(plan)])
            it.compare((what, command, edits), read, checked, checked)
    _, read, wrote = it.once(what, sectors, image, "edit", words, status)
    it.compare((what, "edit", edits), read, known | checked, most)
    if sectors is SMALL and what == "a GPT with a label" and edits == "c:1:root" and not (len(read) <= 140 and wrote == 67):
        fail(what, edits, f"{len(read)} sectors read, {wrote} written")
    if (wrote > 0) != is_done:
        fail(what, edits, f"{wrote} sectors written")


def counted(ptab, sectors):
    with tempfile.TemporaryDirectory() as folder:
        it = Counted(ptab, folder)
        for what, image, done in [*gpts(sectors), *mbrs(sectors)]:
            look(it, what, sectors, image)
            mend(it, what, sectors, image)
            for edits in EDITS:
                change(it, what, sectors, image, edits, edits in done and (sectors is SMALL or "." not in edits))
        return it.passed


def main():
    if len(sys.argv) != 2:
        sys.exit("usage: tests/rows/reads.py PTAB")
    with ThreadPoolExecutor(2) as lanes:
        passed = sum(lanes.map(lambda sectors: counted(sys.argv[1], sectors), (SMALL, LARGE)))
    print(f"sectors read once: {passed} passed, 0 failed")


if __name__ == "__main__":
    main()
