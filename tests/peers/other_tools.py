#!/usr/bin/env python3
"""Runs jobs of sgdisk, sfdisk, fdisk, parted, cgpt and ptab through tools/ptab-run, and the same on a plain copy of the image. Afterwards
the image has the table that the tool made, by `ptab show` and by the tools themselves, and only sectors of tables have changed; or it is
bit for bit as before, and the reason stands on standard error. The writes to the image are taken down by strace: each image that a stop
among them leaves has the old table or the new one, and a repair of it keeps that.

Then what ptab-run does beside: its options, its refusals and faults, backups. Then each call of docs/other_tools.md.

usage: tests/peers/other_tools.py PTAB [all]
Without `all` every other job that writes the copies of a GPT isn't stopped.
"""
import ast
import glob
import os
import random
import re
import shutil
import subprocess
import sys
from concurrent.futures import ProcessPoolExecutor

sys.path.insert(0, os.path.join(os.path.dirname(os.path.abspath(__file__)), "..", "shared"))
import other_tools_jobs
import other_tools_page
import other_tools_runs
from compared import content
from images import LARGE, SMALL, room
from tools import ENVIRONMENT
from writes import SYNCS, choices, traced, written

TOP = os.path.abspath(os.path.join(os.path.dirname(os.path.abspath(__file__)), "..", ".."))
RUN = f"{TOP}/tools/ptab-run"
# what the tool left on its copy is kept
KEEPING = ("sh", "-c", 'copy=$1 kept=$2; shift 2; "$@" && cp --sparse=always "$copy" "$kept"', "sh", "@")
CALLS = ("openat", "write", "pwrite64", "ftruncate", *SYNCS)
GUID = r"[0-9a-fA-F]{8}(?:-[0-9a-fA-F]{4}){3}-[0-9a-fA-F]{12}|0x[0-9a-f]{8}\b"


def fail(what, found, wanted):
    sys.exit(f"{what}:\n  found  {found}\n  wanted {wanted}")


def told(path, *words):
    """What a tool tells of an image, whatever its path is."""
    done = subprocess.run(words, capture_output=True, text=True, env={**ENVIRONMENT, "PARTED_SECTOR_SIZE": "4096"} if "4096" in words
                          else ENVIRONMENT)
    return (done.stdout + done.stderr).replace(path, "IMAGE"), done.returncode


def views(path, kind, size):
    """The table, as each of the tools tells it."""
    found = {"fdisk": told(path, "fdisk", "-b", str(size), *(["-x"] if kind == "gpt" else ["-l"]), path)}
    with_size = ["env", f"PARTED_SECTOR_SIZE={size}"]
    found["parted"] = told(path, *with_size, "parted", "-s", "-m", path, "unit", "s", "print")
    if size == 512:
        found["sfdisk"] = told(path, "sfdisk", "-d", path)
    if size == 512 and kind == "gpt":
        numbers = re.findall(r"^ +(\d+) ", told(path, "sgdisk", "-p", path)[0], re.MULTILINE)
        found["sgdisk"] = told(path, "sgdisk", "-p", *(word for number in numbers for word in ("-i", number)), path)
        found["cgpt"] = told(path, "cgpt", "show", "-v", path)
    return found


def without_drawn(text, known):
    """A text without the GUIDs and signatures that were drawn."""
    return re.sub(GUID, lambda found: found[0] if found[0].lower() in known else "DRAWN", text)


def boot_records(image, size):
    """The sectors of extended boot records, and the second ones of slices."""
    found, here = [], 0
    first = 0
    while here * size < len(image) and here not in found:
        found.append(here)
        records = [image[here * size + at:][:16] for at in range(446, 510, 16)]
        found += [here + int.from_bytes(it[8:12], "little") + 1 for it in records if it[4] == 0xA5]
        links = [int.from_bytes(it[8:12], "little") for it in records if it[4] in (5, 15)]
        if not links:
            break
        here = first + links[0]
        first = first or here
    return set(found)


def changed(before, after, size):
    return {at // size for at in range(0, len(before), size) if before[at:at + size] != after[at:at + size]}


class Tried:
    """A job, done on an image by ptab-run and on a plain copy of it."""

    def __init__(self, ptab, bases, job, folder):
        self.ptab, self.job, self.folder = ptab, job, folder
        self.what = f"{job.image}: {' '.join(job.tool)} {job.lines.split()}"
        self.sectors = LARGE if job.size == 4096 else SMALL
        # names of one length, since tools make columns by them
        self.paths = {name: f"{folder}/{name}/disk.img" for name in ("ours", "bare", "kept", "stop")}
        for path in self.paths.values():
            os.mkdir(os.path.dirname(path))
        self.path = self.paths["ours"]
        for path in (self.path, self.paths["bare"]):
            shutil.copy(f"{bases}/{job.image}", path)
        self.before = content(self.path)
        self.old = self.show(self.path)
        self.known = {it.lower() for it in re.findall(GUID, str((self.old, views(self.path, self.kind(self.old), job.size), job)))}
        self.plain = subprocess.run([self.paths["bare"] if it == "@" else self.ptab if it == "ptab" else it for it in job.tool],
                                    input=job.lines, capture_output=True, text=True, env=ENVIRONMENT)
        command = [RUN, "--sector-size", str(job.size), self.path, *KEEPING, self.paths["kept"], *job.tool]
        shim = f"{folder}/bin"
        os.mkdir(shim)
        os.symlink(ptab, f"{shim}/ptab")
        where = {**ENVIRONMENT, "PTAB": ptab, "PATH": f"{shim}:{ENVIRONMENT['PATH']}", "TMPDIR": folder}
        self.done, self.phases = traced(command, self.path, self.sectors, CALLS, input=job.lines, env=where)
        self.after = content(self.path)

    def show(self, path, command="show"):
        done = subprocess.run([self.ptab, command, "--sector-size", str(self.job.size), path], capture_output=True, text=True)
        return done.stdout, done.stderr, done.returncode

    @staticmethod
    def kind(shown):
        return shown[0].partition(" ")[0]

    def same(self, part, found, wanted):
        if found != wanted:
            fail(f"{self.what}: {part}", found, wanted)

    def is_refused(self):
        """The image is as before, and the reason is told."""
        line = (self.done.stderr.splitlines() or [""])[-1]
        if self.job.wanted == other_tools_jobs.FAILS:
            status = self.plain.returncode
            self.same("the tool's failure", status != 0, True)
        else:
            status = 0 if self.job.wanted in (other_tools_jobs.NOTHING, other_tools_jobs.SAME) else 123
        if self.done.returncode != status or not line.startswith("ptab-run: ") or self.job.wanted not in line:
            fail(self.what, (self.done.returncode, self.done.stderr), (status, self.job.wanted))
        self.same("the image", self.after == self.before, True)
        self.same("writes", [it for it in self.phases if it], [])

    def is_done(self):
        """The image has the tool's table."""
        kept, size = self.paths["kept"], self.job.size
        if self.done.returncode != 0 or not self.done.stderr.endswith("ptab-run: done\n"):
            fail(self.what, (self.done.returncode, self.done.stderr), "done")
        self.same("the tool on a plain copy", (self.plain.returncode, self.plain.stderr), (0, self.plain.stderr))
        new = self.show(self.path)
        self.same("show", new, self.show(kept))
        self.same("verify", self.show(self.path, "verify"), ("yes\n", "", 0))
        kind = self.kind(new)
        ours, theirs, plain = (views(path, kind, size) for path in (self.path, kept, self.paths["bare"]))
        if " INVALID" in theirs.get("cgpt", ("",))[0]:
            # sgdisk -e may put the backup array elsewhere than cgpt takes it
            del ours["cgpt"]
        for tool, text in ours.items():
            self.same(f"{tool} of the image", text, theirs[tool])
            self.same(f"{tool} of the plain copy", without_drawn(plain[tool][0], self.known), without_drawn(text[0], self.known))
        self.only_tables_change(kind, size)
        return new

    def only_tables_change(self, kind, size):
        count, room_of = len(self.before) // size, 1 + 16384 // size
        allowed = boot_records(self.before, size) | boot_records(self.after, size)
        if "gpt" in (kind, self.kind(self.old)):
            allowed |= {*range(1 + room_of), *range(count - room_of, count)}
        self.same("sectors outside of tables", sorted(changed(self.before, self.after, size) - allowed), [])
        self.same("boot code", self.after[:440], self.before[:440])

    def cut(self, new):
        """How many stopped images were looked at. Every third one is repaired as well."""
        rng, path, count = random.Random(1), self.paths["stop"], 0
        before, turned = self.before, self.old == new
        self.put(path, before)
        for number, phase in enumerate((phase for phase in self.phases if phase), 1):
            whole = bytes(written(before, phase, self.sectors))
            turns = not turned and self.stopped(path, before, phase) == new
            allowed = (self.old, new) if turns else (new,) if turned else (self.old,)
            for writes in choices(rng, phase):
                found = self.stopped(path, before, writes, count % 3 == 0)
                if found not in allowed:
                    fail(f"{self.what}: stopped in phase {number} by {[lba for lba, _ in writes]}", found, allowed)
                count += 1
            before, turned = whole, turned or turns
            self.put(path, before)
        self.same("all writes", before == self.after, True)
        return count

    def stopped(self, path, before, writes, repairs=False):
        """What show tells of an image with these writes. A repair keeps that, and leaves it healthy."""
        size = self.job.size
        with open(path, "r+b", buffering=0) as it:
            for lba, bytes_of in writes:
                os.pwrite(it.fileno(), bytes_of, lba * size)
            found = self.show(path)
            if repairs and found[2] == 0:
                told = self.show(path, "repair"), self.show(path), self.show(path, "verify")
                self.same(f"{[lba for lba, _ in writes]}, repaired", told, (("done\n", "", 0), found, ("yes\n", "", 0)))
                os.pwrite(it.fileno(), before, 0)
            for lba, _ in writes:
                os.pwrite(it.fileno(), before[lba * size:][:size], lba * size)
        return found

    @staticmethod
    def put(path, image):
        with open(path, "wb") as it:
            it.write(image)


def tried(ptab, bases, job, always):
    """How many stopped images were looked at, none where the job is refused."""
    with room() as folder:
        it = Tried(ptab, bases, job, folder)
        if job.wanted is None:
            new = it.is_done()
            count = it.cut(new) if always or all(len(phase) < 4 for phase in it.phases) else 0
        else:
            it.is_refused()
            count = None
        it.same("what is left of the run", [name for name in os.listdir(folder) if name.startswith("ptab-run-")], [])
        return count


def main():
    ptab = os.path.abspath(sys.argv[1])
    for path in (RUN, *glob.glob(f"{TOP}/tools/ptab_run/*.py")):
        ast.parse(content(path), feature_version=(3, 8))
    jobs = list(other_tools_jobs.jobs())
    # more than there are processors, since sgdisk sleeps for a second where it has written
    with room() as bases, ProcessPoolExecutor(2 * len(os.sched_getaffinity(0))) as pool:
        names = {job.image for job in jobs}
        for made in [pool.submit(other_tools_jobs.make, name, f"{bases}/{name}") for name in names]:
            made.result()
        counts = [pool.submit(tried, ptab, bases, job, sys.argv[2:] == ["all"] or number % 2 == 0) for number, job in enumerate(jobs)]
        more = [pool.submit(other_tools_runs.all_of, ptab, RUN), pool.submit(other_tools_page.all_of, ptab, RUN)]
        counts = [it.result() for it in counts]
        runs, pairs = (it.result() for it in more)
    cuts = [it for it in counts if it is not None]
    print(f"other tools: {len(cuts)} jobs are done, {len(counts) - len(cuts)} are refused or change nothing, 0 failed; {sum(cuts)} images "
          f"of {sum(it > 0 for it in cuts)} jobs that were stopped have the old table or the new one")
    print(f"ptab-run: {runs} passed, 0 failed; docs/other_tools.md: {pairs} passed, 0 failed")


if __name__ == "__main__":
    main()
