#!/usr/bin/env python3
"""Edits on a drive that fails once, and then again the same edit: `done` means that the drive's medium has it, whatever the kernel's cache
says. Linux keeps a page whose write failed as if it were written, so who reads it again gets what the drive doesn't have.

The drive (shared/failing_drive.c, by FUSE) is under a loop device, and under a file in ext4 on one, with a journal and without. Each write
that changes a sector of the table fails once, and each flush, where the drive then forgets what its cache holds, or keeps it. So it is
with an MBR and a GPT, and with each of these:

- `ptab-run IMAGE ptab edit @ ..`, and the library's edits (with ARCHIVE), in a new opening and in the same one: as they are;
- `ptab edit`: after what docs/commands.md says to do before the next look.

After each failure the medium has the old table or the new one, and the library's verdict is the medium's. Where nothing fails, `done` means
the same. Then: which calls make things durable (fsync, and no fdatasync); and what is read and written through whole pages, in
failing_pages.py. Where there is no root, no FUSE or no loop device, it says so, and the calls alone are tried.

usage: tests/failures/failing_drive.py PTAB [ARCHIVE]     ARCHIVE is crates/pt_c/out/libpt_c.a
"""
import os
import re
import shlex
import subprocess
import sys
import tempfile

TESTS = os.path.dirname(os.path.dirname(os.path.abspath(__file__)))
ROOT = os.path.dirname(TESTS)
sys.path[:0] = [f"{TESTS}/shared", f"{ROOT}/bindings/python"]
import compared
import drives
import failing_pages
import ptab as lib
from compared import content, put, same
from images import SMALL, entry, record, room
from loops import has_loops
from tools import ENVIRONMENT, must

RUN = failing_pages.RUN
SECTORS = 1024
# How often an edit is tried whose failure another program may have met. While others call sync(2) without a pause, that is most of them.
TRIES = 200
# what makes things durable, and could
SYNCS = ("fsync", "fdatasync", "sync_file_range", "msync", "syncfs", "sync")


class Tried:
    """The programs, and what came of the failures."""

    def __init__(self, ptab, archive, folder):
        self.ptab, self.folder, self.failures, self.kept = ptab, folder, 0, 0
        self.where = {**ENVIRONMENT, "PTAB": ptab, "PATH": f"{os.path.dirname(ptab)}:{ENVIRONMENT['PATH']}", "TMPDIR": folder}
        self.example = built(archive, folder) if archive else None

    def at(self, name):
        return f"{self.folder}/{name}"

    def run(self, *words):
        done = subprocess.run(words, stdin=subprocess.DEVNULL, capture_output=True, text=True, env=self.where)
        return done.stdout, done.stderr, done.returncode

    def of(self, image, command):
        """What the command says of an image with that content."""
        return self.run(self.ptab, command, put(self.at("plain"), image))

    def verdict(self, place):
        """The library's, of the image."""
        return self.run(self.example, place.path, place.size, "verify")


def built(archive, folder):
    """The example in C over the library, which is like ptab."""
    must(f"{ROOT}/bindings/c/build.sh", archive, folder)
    must("cc", "-std=c11", "-O2", f"-I{ROOT}/include", f"{ROOT}/examples/c/ptab.c", f"{folder}/libptab.a", "-o", f"{folder}/ptab_c")
    return f"{folder}/ptab_c"


# ---- ways to edit


class PtabRun:
    name, failed = "ptab-run", 125

    def __init__(self, it):
        self.it, self.said = it, ""

    def run(self, *words):
        """The status of a program, whose errors are kept."""
        _, self.said, status = self.it.run(*words)
        return status

    def edit(self, place, words):
        """The status of an edit."""
        return self.run(sys.executable, RUN, *place.options, place.path, self.it.ptab, "edit", "@", *words)

    def after_failure(self, place):
        """Does what there is to do before the next look: nothing. Gives whether that was done."""
        return True

    def end(self):
        """Closes what it holds open."""


class Ptab(PtabRun):
    """`ptab` alone. It can't drop the kernel's cache, so that is done before the next look, as docs/commands.md says."""

    name, failed = "ptab", 5

    def __init__(self, it):
        super().__init__(it)
        self.recipes = recipes()

    def edit(self, place, words):
        return self.run(self.it.ptab, "edit", *place.options, place.path, *words)

    def after_failure(self, place):
        line = self.recipes[bool(place.options)]
        if self.run(*[re.sub("IMAGE|DEV", place.path, word) for word in shlex.split(line)]):
            return False
        shown = self.it.run(self.it.ptab, "show", *place.options, place.path)
        same(f"what ptab shows of {place.name} after `{line}`", shown, self.it.of(place.on_drive(), "show"))
        return True


def recipes():
    """The lines of docs/commands.md that drop the kernel's cache, of a file and of a device."""
    text = content(f"{ROOT}/docs/commands.md").decode()
    found = [re.search(line, text) for line in (r"dd of=IMAGE oflag=nocache conv=\S+ count=0", "blockdev --flushbufs DEV")]
    same("docs/commands.md says how to drop the kernel's cache", [it is not None for it in found], [True, True])
    return [it[0] for it in found]


class Library(PtabRun):
    """The library, in a program of its own for each edit."""

    name, failed = "the library", 5

    def edit(self, place, words):
        return self.run(self.it.example, place.path, place.size, "edit", *words)


class SameOpening(PtabRun):
    """The library, in one opening of the image."""

    name, failed = "the library, in one opening", 5

    def __init__(self, it):
        super().__init__(it)
        lib.load(it.at("libptab.so.2"))
        self.disk = None

    def edit(self, place, words):
        try:
            # where the journal couldn't be written, that may be found out only here
            self.disk = self.disk or lib.Disk(place.path, write=True, device=bool(place.options))
            self.disk.edit(*words)
        except lib.Error as error:
            self.said = str(error)
            return error.status
        return 0

    def end(self):
        if self.disk:
            self.disk.close()
        self.disk = None


# ---- an edit, and again


def tables():
    """Of each kind of table an image, an edit, and the sectors that it changes."""
    return (("an MBR", SMALL.mbr(SECTORS, [record(0x83, 100, 200)]), ["t:1:07"], (0,)),
            ("a GPT", SMALL.gpt(SECTORS, {1: entry(100, 200)}), ["c:1:other"], (1, 2, SECTORS - 33, SECTORS - 1)))


class Edit:
    """An edit of a table, on one place, by one way."""

    def __init__(self, it, place, table, way):
        self.it, self.place, self.way = it, place, way
        self.what, image, self.words, self.sectors = table
        self.image = bytes(image)
        self.old = it.of(self.image, "show")
        same("the edit on an image", it.run(it.ptab, "edit", it.at("plain"), *self.words), ("done\n", "", 0))
        self.new = it.run(it.ptab, "show", it.at("plain"))

    def fails(self, fault):
        """Whether that fault came; then the same edit again."""
        it, place = self.it, self.place
        self.told = f"{self.what} in {place.name} by {self.way.name}: {fault}"
        # a sync(2) of some other program may be the flush that fails, and then nobody is told
        for _ in range(TRIES):
            status, came, left = self.once(fault)
            if not came or status != 0:
                break
        same(f"{self.told}: the edit", (status, left), (self.way.failed, 0) if came else (0, fault != "heal"))
        if came:
            it.failures += 1
            self.is_left()
            same(f"{self.told}: the same edit again", self.again(), (0, ""))
        self.is_done()
        self.way.end()
        return came

    def again(self):
        """How the same edit ends, and what it says where it isn't done. That a journal can't be written may be found out only by it."""
        for _ in range(5):
            status = self.way.edit(self.place, self.words)
            if status == 0 or not self.place.is_shut():
                break
            self.ready()
        return status, self.way.said if status else ""

    def ready(self):
        """Has the place written again."""
        if self.place.is_shut():
            self.way.end()
            self.place.open_again()

    def put(self):
        """Gives the place the old table. That a journal can't be written may be found out only by it."""
        for _ in range(5):
            self.ready()
            try:
                return self.place.put(self.image)
            except OSError as error:
                found = error
        raise found

    def before_next_look(self):
        """What the way has to be done there. That a journal can't be written may be found out only by it."""
        for _ in range(5):
            self.ready()
            if self.way.after_failure(self.place):
                return
        sys.exit(f"{self.told}: before the next look: {self.way.said}")

    def once(self, fault):
        """How the edit ends, whether a call failed, and how many still are to."""
        place = self.place
        self.put()
        same(f"{self.told}: the medium before", place.on_medium() == self.image, True)
        # the kernel may flush by itself as soon as it is told
        before = place.drive.counts()[0]
        place.drive.tell(fault)
        status = self.way.edit(place, self.words)
        failed, left = place.drive.counts()[:2]
        return status, failed > before, left

    def is_left(self):
        """A cut would leave the old table or the new one; what the kernel doesn't have from the drive isn't believed."""
        it, place = self.it, self.place
        same(f"{self.told}: what is left", it.of(place.on_medium(), "show") in (self.old, self.new), True)
        self.ready()
        it.kept += content(place.path) != place.on_drive()
        if it.example:
            same(f"{self.told}: the library's verdict", it.verdict(place)[::2], it.of(place.on_drive(), "verify")[::2])
        self.before_next_look()

    def is_done(self):
        """The medium has the new table, and is healthy."""
        it, place = self.it, self.place
        same(f"{self.told}: the medium", it.of(place.on_medium(), "show"), self.new)
        same(f"{self.told}: the medium's health", it.of(place.on_medium(), "verify"), ("yes\n", "", 0))
        if it.example:
            same(f"{self.told}: the library's verdict in the end", it.verdict(place)[::2], ("yes\n", 0))

    def all(self):
        """Each write and each flush fails."""
        self.fails("heal")
        for kind in [*(f"write {self.place.sector(sector)}" for sector in self.sectors), "flush", "keep"]:
            nth = 1
            while self.fails(f"{kind} {nth}"):
                nth += 1
            same(f"{self.told}: it failed before", nth > 1, True)


def on_failing_drives(it, program):
    ways = [Ptab(it), PtabRun(it), *([Library(it), SameOpening(it)] if it.example else [])]
    for place in drives.places(program, it.at("drives"), SECTORS * drives.SIZE):
        with place:
            for table in tables():
                for way in ways:
                    Edit(it, place, table, way).all()


# ---- the calls that make things durable


def synced(it, what, words):
    """Of the calls that make things durable a command makes fsync alone."""
    log = it.at("syncs")
    out, errors, status = it.run("strace", "-f", "-qq", "-o", log, "-e", f"trace={','.join(SYNCS)}", *words)
    same(f"{what}: done", (status, "done" in out + errors), (0, True))
    calls = re.findall(r"^(?:\d+ +)?(\w+)\(", content(log).decode(), re.MULTILINE)
    same(f"{what}: fsync", ("fsync" in calls, set(calls) - {"fsync"}), (True, set()))


def calls(it):
    """Each command that writes makes it durable by fsync. Not every file system has the drive flush its cache for an fdatasync."""
    image = bytes(SMALL.gpt(SECTORS, {1: entry(100, 200)}))
    harmed = image[:512] + bytes(512) + image[1024:]
    path, other, plan = it.at("image"), put(it.at("other"), SMALL.gpt(SECTORS, {2: entry(100, 120)})), it.at("plan")
    put(plan, it.run(it.ptab, "plan", put(path, image), "c:1:other")[0].encode())
    for start, *words in ((image, "edit", "c:1:other"), (harmed, "repair"), (image, "adopt", other), (image, "apply", plan)):
        put(path, start)
        synced(it, f"ptab {words[0]}", [it.ptab, words[0], path, *words[1:]])
        if it.example and words[0] != "apply":
            put(path, start)
            synced(it, f"the library's {words[0]}", [it.example, path, "512", *words])
        if words[0] == "edit":
            put(path, start)
            synced(it, "ptab-run", [sys.executable, RUN, path, it.ptab, words[0], "@", *words[1:]])


def main():
    if len(sys.argv) not in (2, 3):
        sys.exit("usage: tests/failures/failing_drive.py PTAB [ARCHIVE]")
    ptab, archive = (*map(os.path.abspath, sys.argv[1:]), None)[:2]
    without = "" if archive else "; the library, for lack of ARCHIVE, isn't tried"
    with room() as folder, tempfile.TemporaryDirectory() as place:
        it = Tried(ptab, archive, folder)
        calls(it)
        program = drives.made(place) if has_loops(folder) else None
        if not program:
            print(f"failing drive: {compared.count} passed, 0 failed; there is no drive that fails here, which takes "
                  f"{drives.WHAT_IS_WANTED}{without}")
            return
        on_failing_drives(it, program)
        pages = failing_pages.all_of(it, program)
    print(f"failing drive: {compared.count} passed, 0 failed; {it.failures} edits failed, and after {it.kept} of these the kernel's cache "
          f"had what the drive hadn't; {pages}{without}")


if __name__ == "__main__":
    main()
