"""Devices that go, or fail, while a command or ptab-run writes them.

- A device goes right after one of the command's syncs: it has no sectors any more, as one that is pulled out, and the kernel refuses what
  comes. So it is with each sync: the stop is between any two phases.
- A device takes only so many pages more, since the file system under it is full. So a sync fails, anywhere in a phase.

The answer is `device`, status 5 (of ptab-run 125), and what is left denotes the old table or the new one. It does so once the command is
asked again, where the device is there again; then it is done, and healthy.
"""
import fcntl
import os
import re
import signal
import struct
import subprocess
import sys
import time

import devices_runs
from compared import content
from images import SMALL, entry
from tools import ENVIRONMENT, must

# requests of ioctl(2) on loop devices, and in what they take the place of where the device begins in its file
SET_STATUS, GET_STATUS, STATUS_BYTES, BEGIN_AT = 0x4C04, 0x4C05, 232, 24
PAGE = 4096
FRESH = "0123456789abcdef" * 4


def take_away(device, path):
    """Has the loop device begin at the end of its file, so that nothing is left of it."""
    with open(device, "rb") as it:
        status = bytearray(STATUS_BYTES)
        fcntl.ioctl(it, GET_STATUS, status)
        struct.pack_into("<Q", status, BEGIN_AT, os.path.getsize(path))
        fcntl.ioctl(it, SET_STATUS, bytes(status))


def goes_after(words, loop, sync, trace, where):
    """Whether a process of the command came to its sync of that number, right after which the device went; and what came of the command."""
    if os.path.exists(trace):
        os.remove(trace)
    calls = "fsync,fdatasync"
    child = subprocess.Popen(["strace", "-f", "-o", trace, "-P", loop.path, "-e", f"trace={calls}", "-e",
                              f"inject={calls}:signal=SIGSTOP:when={sync}", *words],
                             stdin=subprocess.DEVNULL, stdout=subprocess.PIPE, stderr=subprocess.PIPE, text=True, env=where)
    went, last = 0, time.monotonic() + 300
    while child.poll() is None and time.monotonic() < last:
        time.sleep(0.005)
        told = content(trace).decode() if os.path.exists(trace) else ""
        for process in re.findall(r"^(\d+) +--- stopped by SIGSTOP ---$", told, re.MULTILINE)[went:]:
            if went == 0:
                take_away(loop.path, loop.image)
            went += 1
            os.kill(int(process), signal.SIGCONT)
    out, errors = child.communicate(timeout=300)
    return went > 0, (out, errors, child.returncode)


def tables(sectors):
    """Of each kind of table an image, and an edit."""
    gpt = sectors.gpt(1024, {1: entry(100, 200)})
    lost = bytearray(gpt)
    lost[sectors.size:2 * sectors.size] = bytes(sectors.size)
    mbr = sectors.mbr(1024, [])
    return (("a GPT", bytes(gpt), ("c:1:other", "a:1", "n:2:300:+8")), ("a GPT without its primary copy", bytes(lost), ("c:1:other",)),
            ("an MBR", bytes(mbr), ("a:1", "n:1:100:+8")), ("an MBR that becomes a GPT", bytes(mbr), ("g",)))


class Gone:
    """One edit of one table, on devices that go or fail."""

    def __init__(self, it, what, image, edits):
        self.it, self.what, self.image = it, what, image
        self.words = ["--fresh", FRESH, *edits]
        self.path, self.trace = it.at("goes"), it.at("syncs")
        self.old = self.shown(image)
        done = it.run("edit", self.path, *self.words)
        it.same(f"{what}: {edits}", done, ("done\n", "", 0))
        self.new = it.run("show", self.path)
        self.where = {**ENVIRONMENT, "PTAB": it.ptab, "PATH": f"{os.path.dirname(it.ptab)}:{ENVIRONMENT['PATH']}", "TMPDIR": it.folder}

    def shown(self, image):
        with open(self.path, "wb") as it:
            it.write(image)
        return self.it.run("show", self.path)

    def lines(self, device):
        """The command, and through ptab-run; and how each fails."""
        return (([self.it.ptab, "edit", "--device", device, *self.words], ("", "device\n", 5)),
                ([sys.executable, devices_runs.RUN, "--device", device, self.it.ptab, "edit", "@", *self.words], None))

    def fails(self, told, found, wanted):
        """An answer that says so."""
        if wanted is not None:
            self.it.same(told, found, wanted)
        else:
            self.it.same(told, (found[2], found[1].startswith("ptab-run: ")), (125, True))

    def is_left(self, told, path):
        """The old table or the new one; then the edit again, or a repair, ends well."""
        found = self.it.run("show", path)
        self.it.same(f"{told}: what is left", found in (self.old, self.new), True)
        if found == self.old:
            self.it.same(f"{told}: the edit again", self.it.run("edit", path, *self.words), ("done\n", "", 0))
        else:
            self.it.same(f"{told}: a repair", self.it.run("repair", path), ("done\n", "", 0))
        self.it.same(f"{told}: in the end", (self.it.run("show", path), self.it.run("verify", path)), (self.new, ("yes\n", "", 0)))
        return found == self.new

    def goes(self, loop):
        """How often the device went, and the new table was left."""
        count, new = 0, 0
        for which in range(2):
            for sync in range(1, 12):
                with open(self.path, "wb") as it:
                    it.write(self.image)
                with loop(self.path) as device:
                    words, wanted = self.lines(device.path)[which]
                    went, found = goes_after(words, device, sync, self.trace, self.where)
                if not went:
                    self.it.same(f"{self.what}: {sync} syncs", (found[2], sync > 2), (0, True))
                    break
                told = f"{self.what}: {'ptab-run' if which else 'ptab'}: gone after sync {sync}"
                # behind the last sync the command has nothing left to write
                if found[2] != 0:
                    self.fails(told, found, wanted)
                else:
                    self.it.same(f"{told}: the table", self.it.run("show", self.path), self.new)
                count, new = count + 1, new + self.is_left(told, self.path)
        return count, new

    def fails_in_writes(self, loop, room):
        """How often a device failed for lack of pages, and the new table was left."""
        count, new = 0, 0
        for which in range(2):
            for pages in range(0, 40):
                path = room.sparse(self.image, pages)
                with loop(path) as device:
                    words, wanted = self.lines(device.path)[which]
                    done = subprocess.run(words, stdin=subprocess.DEVNULL, capture_output=True, text=True, env=self.where)
                    found = done.stdout, done.stderr, done.returncode
                room.clear()
                told = f"{self.what}: {'ptab-run' if which else 'ptab'}: room for {pages} pages"
                if found[2] == 0:
                    break
                self.fails(told, found, wanted)
                count, new = count + 1, new + self.is_left(told, path)
            self.it.same(f"{self.what}: with room it is done", self.it.run("show", path), self.new)
        return count, new


class Room:
    """A file system of its own, which can be filled but for so many pages."""

    def __init__(self, place, pages):
        self.place, self.pages = place, pages

    def __enter__(self):
        os.mkdir(self.place)
        must("mount", "-t", "tmpfs", "-o", f"size={self.pages * PAGE}", "tmpfs", self.place)
        return self

    def __exit__(self, *_):
        must("umount", self.place)
        os.rmdir(self.place)

    def sparse(self, image, pages):
        """A file with that content, of which zeros take no page, where only that many pages more can be taken."""
        self.clear()
        path = f"{self.place}/disk"
        with open(path, "wb") as it:
            it.truncate(len(image))
            for at in range(0, len(image), PAGE):
                if image[at:at + PAGE].strip(b"\0"):
                    os.pwrite(it.fileno(), image[at:at + PAGE], at)
        left = os.statvfs(self.place).f_bfree
        with open(f"{self.place}/rest", "wb") as it:
            it.write(b"\1" * (max(0, left - pages) * PAGE))
        return path

    def clear(self):
        if os.path.exists(f"{self.place}/rest"):
            os.remove(f"{self.place}/rest")


def all_of(it, loop):
    """How many devices went or failed; of both kinds there were some that were left with the old table, and with the new one."""
    cases = [Gone(it, *case) for case in tables(SMALL)]
    with Room(it.at("small"), 600) as room:
        counts = [(case.goes(loop), case.fails_in_writes(loop, room)) for case in cases]
    for kind, way in enumerate(("gone", "failed")):
        total, new = sum(it[kind][0] for it in counts), sum(it[kind][1] for it in counts)
        it.same(f"of {total} devices that are {way} {new} are left with the new table: some of both", 0 < new < total, True)
    return sum(count for case in counts for count, _ in case)
