#!/usr/bin/env python3
"""What the calls of the library for callers in C take at worst: for each image and call how many calls it takes until none is wanted,
those of ptab_wanted among them, how many sectors they are given at last (both ends were read before the first one), the most
bytes of memory that one of them holds, and the milliseconds of all, by ctypes and with the packing of the view.

Then what sectors that are wanted cost: the calls by which an open disk shows images with more and more labels and chains, and the
instructions within the library, where valgrind is installed. It ends with status 1 where a GPT of slices takes more than three calls; where
a chain takes more than one for each extended boot record and three besides, of who asks sector by sector, or more than one of an open
disk; or where twice the labels or records cost more than twice the instructions and a tenth, or a fifth where both grow.

usage: bench/c_calls.py ARCHIVE     ARCHIVE is crates/pt_c/out/libpt_c.a, by packaging/build.py pt_c
"""
import ctypes
import os
import random
import re
import shutil
import subprocess
import sys
import tempfile
import time

ROOT = os.path.join(os.path.dirname(os.path.abspath(__file__)), "..")
sys.path[:0] = [os.path.join(ROOT, *it) for it in (("tests", "shared"), ("tests", "callers"), ("bindings", "python"))]
import disk_chains
import ptab
import replay as lib
from images import FREEBSD, LARGE, SMALL, ebr, entry, guid, label, record

DRAWN = random.Random(1).randbytes(16 * 256)


def library(archive, folder):
    """The archive as a shared object whose memory is counted."""
    path = f"{folder}/counting.so"
    subprocess.run(["cc", "-std=c11", "-O2", "-fPIC", "-shared", f"{ROOT}/tests/callers/c_library_memory.c", "-Wl,--whole-archive", archive,
                    "-Wl,--no-whole-archive", "-o", path], check=True)
    it = lib.Ptab(path)
    it.lib.test_refuse.argtypes = [ctypes.c_uint64, ctypes.c_uint64]
    it.lib.test_most_bytes.restype = ctypes.c_uint64
    return it


# the images; what they hold stands in no sector that is read beforehand


def gpt(sectors, count):
    """A GPT of so many partitions."""
    first = sectors.array + 2
    return sectors.gpt(first + 8 * count + sectors.array + 1,
                       {n: entry(first + 8 * n - 8, first + 8 * n - 1, unique=guid(n)) for n in range(1, count + 1)})


def sliced_gpt(count):
    """A GPT of so many slices, each with a label of seven partitions."""
    image = SMALL.gpt(34 + 64 * count + 33, {n: entry(34 + 64 * n - 64, 34 + 64 * n - 1, FREEBSD, guid(n)) for n in range(1, count + 1)})
    for n in range(count):
        SMALL.put(image, 34 + 64 * n + 1, full_label())
    return image


def full_label():
    return label(64, {k: (6, 16 + 6 * place, 7) for place, k in enumerate((0, 1, 3, 4, 5, 6, 7))})


def chain(count, sliced):
    """An MBR with so many logical partitions, and three other records; where they are sliced, each has a label of seven partitions."""
    kind, size = 0xA5 if sliced else 0x83, 64
    records = [record(kind, 100 + 100 * k, size) for k in range(3)] + [record(0x05, 1000, 128 * 100)]
    image = SMALL.mbr(1000 + 128 * 100 + 100, records)
    starts = [100 + 100 * k for k in range(3)]
    for k in range(count):
        at = 1000 + 100 * k
        SMALL.put(image, at, ebr(record(kind, 2, size), record(0x05, 100 * (k + 1), 98) if k + 1 < count else bytes(16)))
        starts.append(at + 2)
    if sliced:
        for start in starts:
            SMALL.put(image, start + 1, full_label())
    return image


def without_primary(image):
    SMALL.put(image, 1, bytes(512))
    return image


IMAGES = (
    ("GPT, 1 partition", SMALL, gpt(SMALL, 1), ["c:1:data"]),
    ("GPT, 128 partitions", SMALL, gpt(SMALL, 128), ["c:1:data"]),
    ("GPT, 128 partitions, 4096", LARGE, gpt(LARGE, 128), ["c:1:data"]),
    ("GPT, 128 partitions, to GPT anew", SMALL, gpt(SMALL, 128), ["o"]),
    ("GPT, its primary lost", SMALL, without_primary(gpt(SMALL, 128)), ["c:1:data"]),
    ("GPT, 128 slices with labels", SMALL, sliced_gpt(128), ["c:1:data"]),
    ("GPT, 128 slices, a label's word", SMALL, sliced_gpt(128), ["d:1.a"]),
    ("MBR, 3 partitions, 128 logical", SMALL, chain(128, False), ["t:1:07"]),
    ("MBR, 131 slices with labels", SMALL, chain(128, True), ["t:1.a:08"]),
    ("MBR, 131 slices, to GPT anew", SMALL, chain(128, True), ["o"]),
    ("MBR, 127 slices with labels, to GPT", SMALL, chain(124, True), ["g"]),
    ("MBR, 131 slices, to a GPT of 128 others", SMALL, chain(128, True),
     ["a:1", "o", *(f"n:{k + 1}:{1070 + 100 * k}:{1089 + 100 * k}:A500" for k in range(128))]),
)


class Asking(lib.Disk):
    """A disk that is asked for all sectors that are known to be wanted, and not for one of them after the other."""
    settled = False

    def read_ends(self):
        super().read_ends()
        self.settled = False

    def _add(self, sector):
        """Reads a sector that is wanted, and with it all that the table and its labels want, unless it wants nothing more."""
        super()._add(sector)
        reply, more = lib.Reply(), (ctypes.c_uint64 * lib.MOST_WANTED)()
        while not self.settled:
            self.calls += 1
            status = self.lib.ptab_wanted(ctypes.byref(self.view), more, ctypes.c_size_t(len(more)), ctypes.byref(reply))
            if status == lib.WANT:
                self.known |= {wanted: self.read(wanted) for wanted in more[:reply.count]}
                self._pack()
            # labels are the last that a table wants
            self.settled = status != lib.WANT or reply.count > 1


def measured(it, sectors, image, call):
    """(the outcome, calls, sectors given, bytes of memory, milliseconds)"""
    image, size = bytes(image), sectors.size
    best = None
    for _ in range(5):
        disk = Asking(it, lambda k: image[k * size:(k + 1) * size], len(image) // size, size)
        most, ask = [0], disk._ask

        def counted(inner, other=None):
            def one(*arguments):
                it.lib.test_refuse(0, 0)
                status = inner(*arguments)
                most[0] = max(most[0], it.lib.test_most_bytes())
                return status
            return ask(one, other)
        disk._ask = counted
        start = time.perf_counter()
        try:
            answer = call(disk)
            outcome = "done" if not isinstance(answer, tuple) or not isinstance(answer[0], int) else str(answer[0])
        except lib.Failed as failed:
            answer, outcome = None, f"status {failed.status}, {failed.reply.about}.{failed.reply.number}"
        took = (time.perf_counter() - start) * 1000
        if best is None or took < best[4]:
            best = (outcome, disk.calls, len(disk.known), most[0], took)
    return best, answer


def within_library(folder):
    """A call that counts the instructions within the library by which the C example shows an image; None where there is no valgrind."""
    if not shutil.which("valgrind"):
        return None
    example = f"{folder}/ptab_c"
    subprocess.run(["cc", "-std=c11", "-O2", f"-I{ROOT}/include", f"{ROOT}/examples/c/ptab.c", f"{folder}/libptab.a", "-o", example],
                   check=True)
    toggles = [f"--toggle-collect={call}" for call in ("ptab_members", "ptab_wanted")]

    def counted(image):
        with open(f"{folder}/shown", "wb") as file:
            file.write(image)
        done = subprocess.run(["valgrind", "--tool=callgrind", f"--callgrind-out-file={folder}/callgrind", *toggles, example,
                               f"{folder}/shown", "512", "show"], capture_output=True, text=True)
        return int(re.search(r"Collected : (\d+)", done.stderr).group(1))
    return counted


def on_open_disk(image, folder):
    """How often an open disk asks the library for the partitions of an image."""
    path = f"{folder}/open"
    with open(path, "wb") as file:
        file.write(image)
    with ptab.Disk(path) as disk:
        return disk_chains.asked(disk, SMALL, ptab.Disk.table)[1]


# (name, the image, the calls of who asks sector by sector, those of an open disk, what twice as many may cost)
GROWING = (("GPT, slices with labels", sliced_gpt, lambda n: 3, 3, 2.1),
           ("MBR, logical partitions", lambda n: chain(n, False), lambda n: n + 3, 1, 2.1),
           ("MBR, logical slices with labels", lambda n: chain(n, True), lambda n: n + 3, 1, 2.2))


def by_count(it, archive, folder):
    """What more and more sectors that are wanted cost. Returns whether the bounds hold."""
    subprocess.run([f"{ROOT}/bindings/c/build.sh", archive, folder], check=True)
    counted, held = within_library(folder), True
    disk_chains.counted_library(folder)
    print("\n| Image | Calls | Sectors | Calls of an open disk | Instructions of members |\n|---|---|---|---|---|")
    for name, make, calls, of_open, twice in GROWING:
        before = None
        for n in (8, 16, 32, 64, 128):
            image = make(n)
            (_, turns, given, _, _), _ = measured(it, SMALL, image, lambda disk: disk.members())
            asked, cost = on_open_disk(image, folder), counted(image) if counted else None
            print(f"| {name}: {n} | {turns} | {given} | {asked} | {cost or 0:,} |")
            held &= turns <= calls(n) and asked <= of_open and (not cost or not before or cost <= twice * before)
            before = cost
    return held


def main():
    worst, archive = [0, 0, 0], os.path.abspath(sys.argv[1])
    with tempfile.TemporaryDirectory() as folder:
        it = library(archive, folder)
        print("| Image | Call | Outcome | Calls | Sectors | Bytes of memory | ms |\n|---|---|---|---|---|---|---|")
        for name, sectors, image, words in IMAGES:
            many = [[(k, bytes(sectors.size)) for k in range(len(image) // sectors.size)][-4096:]]
            calls = [("members", lambda disk: disk.members()), ("verify", lambda disk: disk.verify()),
                     ("locate", lambda disk: disk.locate(1, "", 0)), ("plan " + " ".join(words)[:12], lambda disk: disk.plan(words, DRAWN)),
                     ("repair", lambda disk: disk.repair()), (f"check of {len(many[0])} writes", lambda disk: disk.check(many))]
            for what, call in calls:
                (outcome, turns, given, most, took), answer = measured(it, sectors, image, call)
                print(f"| {name} | {what} | {outcome} | {turns} | {given} | {most:,} | {took:.1f} |")
                worst = [max(a, b) for a, b in zip(worst, (turns, given, most))]
                if what.startswith("plan ") and answer:
                    (outcome, turns, given, most, took), _ = measured(it, sectors, image, lambda disk: disk.check(answer))
                    print(f"| {name} | check of that plan | {outcome} | {turns} | {given} | {most:,} | {took:.1f} |")
                    worst = [max(a, b) for a, b in zip(worst, (turns, given, most))]
        held = by_count(it, archive, folder)
    print(f"\nAt worst {worst[0]} calls, {worst[1]} sectors, {worst[2]:,} bytes.")
    if not held:
        sys.exit("c_calls.py: more calls or instructions than the bounds")


main()
