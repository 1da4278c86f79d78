"""Has each call of the C example on its image fail in turn, and each request for memory (disk_library.py). The answer is that of the
fault, or what it is without: a sector that can't be read counts only where the answer rests on it, and is asked for once more; who only
reads is told of no sync that fails. After a write has failed the image has the plan's writes up to there and no other."""
import errno
import os
import shutil
import subprocess
import sys

import faults
from doubles import phases_of

ALL = 2 ** 32 - 1
FAILS, DONE_AND_FAILS, ONE_BYTE, NOTHING = range(4)
# with all GUIDs, so that each run makes the same table
TABLE = """{"partitiontable": {"label": "gpt", "id": "00010203-0405-4607-8809-0A0B0C0D0E0F", "partitions": [
  {"start": 40, "size": 8, "name": "set", "uuid": "10111213-1415-4617-9819-1A1B1C1D1E1F"}]}}"""
DEVICE, MEMORY = ("", "device\n", 5), (("", "memory\n", 6), ("", "other: memory\n", 6))
HARMLESS = {"r": ((FAILS, errno.EINTR), (FAILS, errno.EINVAL), (ONE_BYTE, 0)), "w": ((FAILS, errno.EINTR), (ONE_BYTE, 0)),
            "f": ((FAILS, errno.EINTR),), "l": ((FAILS, errno.EINTR),), "o": ((FAILS, errno.EINTR),), "c": ((FAILS, errno.EIO),)}


def disks():
    yield from faults.disks()
    yield from faults.damaged_disks()


def fail(what, found, wanted):
    sys.exit(f"disk library: {what}:\n  found  {found!r:.1000}\n  wanted {wanted!r:.1000}")


def by(ptab, line, **more):
    done = subprocess.run([ptab, *line], capture_output=True, text=True, **more)
    return done.stdout, done.stderr, done.returncode


class Job:
    """One line of the example on one image, what it does where no call fails, and the writes of its plan, as the command has them."""

    def __init__(self, ptab, it, name, sectors, image, line, planned):
        self.ptab, self.it, self.sectors, self.image, self.told = ptab, it, sectors, bytes(image), f"{name}: {line}"
        self.line = (it.path, str(sectors.size), *line)
        self.size = ("--sector-size", str(sectors.size))
        self.only_reads = planned is None
        self.writes = self.planned(planned) if planned else []
        self.old = by(ptab, ("show", *self.size, self.put()))
        self.wanted, self.log, self.after = self.run((0, 0, 0, 0, 0))
        self.new = by(ptab, ("show", *self.size, it.path))
        if self.after != self.with_writes(len(self.writes)):
            fail(self.told, "another image", "the plan's writes")

    def planned(self, words):
        """The writes of a plan of the command, on a copy where it is a repair's."""
        text, errors, status = by(self.ptab, (words[0], *self.size, self.put(), *words[1:]))
        if status != 0:
            fail(f"{self.told}: its plan", (errors, status), "a plan")
        return [(lba, bytes.fromhex(digits)) for phase in phases_of(text) for lba, digits in phase]

    def put(self):
        self.it.put(self.image)
        return self.it.path

    def with_writes(self, count):
        image = bytearray(self.image)
        for lba, content in self.writes[:count]:
            self.sectors.put(image, lba, content)
        return bytes(image)

    def run(self, numbers):
        """The answer, the letters of the calls, and the image that is left."""
        self.put()
        answer = self.it.run(self.line, numbers, {"FAULTS_ON": self.it.path, "PTAB_RANDOM": f"{self.it.path}.drawn"})
        return answer, bytes(self.it.numbers[20:20 + self.it.number(4)]).decode("ascii"), self.it.image()

    def ends_well(self, told, left):
        """The image that is left denotes the old layout or the new one; repaired, it is healthy."""
        shown = by(self.ptab, ("show", *self.size, self.it.path))
        if shown not in (self.old, self.new):
            fail(told, shown, (self.old, self.new))
        if shown[2] == 0:
            self.it.put(left)
            found = self.it.run((self.it.path, str(self.sectors.size), "repair"))
            verified = by(self.ptab, ("verify", *self.size, self.it.path))
            if (found, verified) != (("done\n", "", 0), ("yes\n", "", 0)):
                fail(f"{told}, then repair", (found, verified), "done, yes")

    def fault(self, first, last, how, error):
        letter, earlier = self.log[first - 1], self.log[:first - 1]
        told = f"{self.told}: call {first} of {len(self.log)} ({letter}), way {how}, errno {error}, last {last}"
        found, _, left = self.run((first, last, how, error, 0))
        if letter == "f" and self.only_reads and last == first and found != self.wanted:
            fail(told, found, self.wanted)
        if (letter == "r" or letter == "f" and self.only_reads) and found == self.wanted:
            if left != self.after:
                fail(told, "another image", "that without the fault")
            return
        if found != DEVICE:
            fail(told, found, DEVICE)
        count = earlier.count("w") + (letter == "w" and how == DONE_AND_FAILS)
        if left != self.with_writes(count):
            fail(told, "another image", f"the first {count} writes of the plan")
        if "w" in earlier or letter in "wf":
            self.ends_well(told, left)

    def no_fault(self, first, how, error):
        found, _, left = self.run((first, first, how, error, 0))
        if (found, left) != (self.wanted, self.after):
            fail(f"{self.told}: call {first} ({self.log[first - 1]}), way {how}, errno {error}", found, self.wanted)

    def each(self):
        """How many runs: each call fails, of writes every twelfth and those beside a sync."""
        runs = 0
        for first, letter in enumerate(self.log, 1):
            if letter == "w" and first % 12 and "f" not in self.log[max(0, first - 2):first + 1]:
                continue
            ends = letter == "c" or letter == "l" and "l" in self.log[:first - 1]
            ways = [] if ends else [(first, FAILS), (ALL, FAILS)] + [(first, DONE_AND_FAILS)] * (letter in "wf")
            for last, how in ways + [(ALL, NOTHING)] * (letter in "rw"):
                self.fault(first, last, how, errno.EIO if letter != "w" else errno.ENOSPC)
                runs += 1
            for how, error in HARMLESS.get(letter, ()):
                self.no_fault(first, how, error)
                runs += 1
        return runs


def text_at(it, text):
    """The name of a file with the text of a table."""
    name = f"{it.path}.json"
    with open(name, "w", encoding="utf-8") as file:
        file.write(text)
    return name


def jobs(ptab, it):
    """Each line on each disk that it has something to do on. A text is that of the disk after the edit, where that is a GPT's."""
    for name, sectors, image, words in disks():
        words = [word for word in words if word not in faults.FRESH]
        it.put(bytes(image))
        other = f"{it.path}.other"
        shutil.copyfile(it.path, other)
        by(ptab, ("edit", other, "--sector-size", str(sectors.size), *faults.FRESH, *words))
        text = by(ptab, ("show", "--json", other, "--sector-size", str(sectors.size)))[0]
        table = text_at(it, text)
        sets = [(["set", table], ("set", "--plan", table))] if '"label": "gpt"' in text else []
        reads = (["show"], ["show", "--json"], ["verify"], ["locate", "1", "0"], ["free"])
        for line, planned in (*((line, None) for line in reads),
                              (["edit", *words], ("plan", *faults.FRESH, *words)), (["adopt", other], ("adopt", "--plan", other)), *sets):
            yield Job(ptab, it, name, sectors, image, line, planned)


def repairs(ptab, it):
    """A repair writes what an edit by a word that changes nothing writes."""
    for name, sectors, image, _ in faults.damaged_disks():
        yield Job(ptab, it, name, sectors, image, ["repair"], ("plan", "a:1"))


def calls(ptab, example, folder):
    """How many runs there were in which calls on the image failed."""
    it = faults.Failing(example, faults.library("no_device", folder), folder)
    with open(f"{it.path}.drawn", "wb") as drawn:
        drawn.write(bytes.fromhex(faults.FRESH[1]).ljust(4096, b"\0"))
    return sum(job.each() for some in (jobs, repairs) for job in some(ptab, it))


def memory(ptab, example, folder):
    """How many runs there were in which requests for memory were refused: the answer is `memory`, and nothing was written, or it is what it
    is with all of the memory."""
    it, runs = faults.Failing(example, faults.library("no_memory", folder), folder), 0
    for name, sectors, image, words in list(faults.disks())[:3]:
        image = bytes(image)
        it.put(image)
        other = f"{it.path}.other"
        shutil.copyfile(it.path, other)
        table = text_at(it, TABLE)
        for line in (["show"], ["show", "--json"], ["verify"], ["free"], ["edit", *words], ["repair"], ["adopt", other], ["set", table]):
            it.put(image)
            line = (it.path, str(sectors.size), *line)
            wanted, count, after = it.run(line, (0, 0, 0, 0)), it.number(2), it.image()
            for first in range(1, count + 1):
                for last in (first, ALL):
                    it.put(image)
                    found = it.run(line, (first, last, 0, 0))
                    if (found, it.image()) != (wanted, after) and (found not in MEMORY or it.image() != image):
                        fail(f"{name}: {line}: request {first} of {count} refused", found, (wanted, MEMORY))
                    runs += 1
    return runs
