"""Runs of the built command in which a request for memory or a call on the image fails, by a library of this folder that is loaded
before others; and the disks and words that these runs take."""
import mmap
import os
import struct
import subprocess
import sys

from images import DISK, LARGE, SMALL, ebr, entry, label, one_partition, record

HERE = os.path.dirname(os.path.abspath(__file__))
FRESH = ("--fresh", "000102030405060708090a0b0c0d0e0f" + "0" * 32)
ROOM = 128 * 1024


def library(name, folder):
    """The library of tests/NAME.c, compiled."""
    path = f"{folder}/{name}.so"
    subprocess.run(["gcc", "-shared", "-fPIC", "-O1", "-Wall", "-Wextra", "-D_GNU_SOURCE", "-o", path, f"{HERE}/{name}.c"], check=True)
    return path


class Failing:
    """The command with the library before it, its numbers in a file beside the image, and its streams in two files."""

    def __init__(self, ptab, loaded, folder):
        self.ptab = ptab
        self.path = f"{folder}/image"
        self.plan = f"{folder}/plan"
        self.other = f"{folder}/other"
        self.table = f"{folder}/table"
        self.data = f"{folder}/data"
        self.held = None
        self.env = {"LD_PRELOAD": loaded, "FAULTS": f"{folder}/faults"}
        self.streams = [os.open(f"{folder}/{name}", os.O_RDWR | os.O_CREAT | os.O_TRUNC, 0o600) for name in ("out", "err")]
        with open(self.env["FAULTS"], "wb") as it:
            it.truncate(ROOM)
        with open(self.env["FAULTS"], "r+b") as it:
            self.numbers = mmap.mmap(it.fileno(), ROOM)

    def put(self, image):
        """Lays an image in place, where another lies."""
        if self.held is None or self.image() != image:
            with open(self.path, "wb") as it:
                it.write(image)
            self.hold(image)

    def hold(self, image):
        """The image that the file has now; its time of change is set to one that each write sets anew."""
        self.held = image
        os.utime(self.path, ns=(0, 0))

    def image(self):
        """The image, read where the file was written since."""
        if os.stat(self.path).st_mtime_ns != 0:
            with open(self.path, "rb") as it:
                self.hold(it.read())
        return self.held

    def write_plan(self, text):
        with open(self.plan, "w", encoding="ascii") as it:
            it.write(text)

    def write_other(self, line, words):
        """The other image: what this line makes of the one in place."""
        with open(self.other, "wb") as it:
            it.write(self.image())
        found = self.run((*line, self.other, *words))
        if found != ("done\n", "", 0):
            fail(f"{line} {words}", found, "done")

    def write_table(self, size):
        """The text of the other image's table."""
        text, errors, status = self.run(("show", "--json", *size, self.other))
        if status != 0:
            fail("show --json", (errors, status), ("", 0))
        with open(self.table, "w", encoding="utf-8") as it:
            it.write(text)

    def write_data(self, size):
        """The runs of data that may come from the other image: two sectors of its first free block, or none."""
        first = self.run(("free", *size, self.other))[0].split("\n")[0].split(" ")
        found = range(int(first[0]), int(first[1]) + 1)[:2] if len(first) == 2 else ()
        with open(self.data, "w", encoding="ascii") as it:
            it.write("".join(f"{lba} {lba}\n" for lba in found))
        return found

    def run(self, words, numbers=None, env=None):
        """(output, errors, status) of the words; with numbers, the library is loaded and has them. A signal's status is negative."""
        for stream in self.streams:
            os.ftruncate(stream, 0)
            os.lseek(stream, 0, os.SEEK_SET)
        around = {}
        if numbers is not None:
            self.numbers[:4 * len(numbers)] = struct.pack(f"<{len(numbers)}I", *numbers)
            around = {**self.env, **(env or {})}
        actions = [(os.POSIX_SPAWN_DUP2, stream, number) for number, stream in enumerate(self.streams, 1)]
        child = os.posix_spawn(self.ptab, [self.ptab, *words], around, file_actions=actions)
        status = os.waitstatus_to_exitcode(os.waitpid(child, 0)[1])
        out, err = (os.pread(stream, os.fstat(stream).st_size, 0).decode("utf-8") for stream in self.streams)
        return out, err, status

    def number(self, k):
        """Number k of the library's."""
        return struct.unpack_from("<I", self.numbers, 4 * k)[0]


def fail(what, found, wanted):
    sys.exit(f"{what}:\n  found  {found}\n  wanted {wanted}")


def one_logical():
    return "a logical in a new extended partition", SMALL, SMALL.mbr(16384, []), ("n:2:4096:12287:05", "n:5:0:+1000")


def one_label():
    image = SMALL.mbr(8192, [record(0xA5, 2048, 4096)])
    SMALL.put(image, 2049, label(4096, {}))
    return "a label's new partition", SMALL, image, ("a:1", "n:1.a:2064:4063")


def disks():
    """(name, its sectors, an image, words that change it) of healthy disks, one for each order of writes but one."""
    yield "a name", SMALL, one_partition(), ("c:1:data",)
    yield one_logical()
    yield one_label()
    yield "an MBR to a GPT", SMALL, SMALL.mbr(4096, [record(0x83, 2048, 2015)]), (*FRESH, "g")


def damaged_disks():
    """The same of disks that a repair changes; the words change the layout too."""
    for lba in (1, 2, 4095):
        image = one_partition()
        image[lba * 512] ^= 0xFF
        yield f"a name where sector {lba} is damaged", SMALL, image, ("c:1:data",)
    yield "a name on a grown disk", SMALL, one_partition() + SMALL.zeros(1000), ("c:1:data",)
    sloppy = one_partition()
    sloppy[446 + 5] = 0xFE
    yield "a name over a sloppy protective record", SMALL, sloppy, ("c:1:data",)


def more_disks():
    """The same of other kinds: no table at first, a chain that is there, sectors of 4096 bytes."""
    yield "a new table", SMALL, SMALL.zeros(2048), (*FRESH, "o", "a:1", "n:1:2000:2010:A500")
    chain = SMALL.mbr(1024, [record(0x83, 1, 50), record(0x05, 100, 800)])
    SMALL.put(chain, 100, ebr(link=record(0x05, 99, 101)))
    SMALL.put(chain, 199, ebr(record(0x83, 1, 100)))
    yield "a second logical", SMALL, chain, ("a:1", "n:5:400:449")
    yield "a name on large sectors", LARGE, LARGE.gpt(64, {1: entry(6, 40)}), ("c:1:data",)
    broken = LARGE.gpt(64, {1: entry(6, 40)}, disk=DISK)
    broken[4096] ^= 0xFF
    yield "a name on large sectors from the backup", LARGE, broken, ("c:1:data",)
