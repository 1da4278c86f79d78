#!/usr/bin/env python3
"""Unchanged programs through `ptab-run --as-itself`, on images and on loop devices with sectors of 512 and of 4096 bytes: growpart,
systemd-repart, sfdisk, sgdisk, parted, fdisk, gdisk, cfdisk, cgpt, python3-parted, genimage, and as mkosi calls them. They name the disk
by its own path. The same is done to a plain copy of the disk: status, output and table are the same, by ptab, fdisk, parted, sfdisk,
sgdisk, cgpt and partx, but for drawn GUIDs; no sector outside of tables has changed, and the kernel has the device's new partitions. Some
are stopped at each of their writes: each such image has the old table or the new one.

With --data they make file systems too, by mke2fs, mkfs.fat and systemd-repart, and embed boot loaders. Then sectors that no partition of
the old table owned are as on the plain copy, the file systems are whole, and each stop leaves the old table, or the new one with all data.

usage: tests/peers/as_itself.py PTAB
"""
import os
import pty
import random
import re
import select
import shutil
import subprocess
import sys
import tempfile
import time
from concurrent.futures import ThreadPoolExecutor

TESTS = os.path.dirname(os.path.dirname(os.path.abspath(__file__)))
sys.path[:0] = [f"{TESTS}/{it}" for it in ("shared", "failures")]
import as_itself_data
import as_itself_jobs
from compared import content
from devices_runs import wanted_parts
from images import LARGE, SMALL, room
from loops import Loop, has_loops, parts_of
from other_tools import CALLS, GUID, boot_records, changed, views, without_drawn
from tools import ENVIRONMENT, must, run
from writes import choices, phases_in, tracing, written

RUN = f"{os.path.dirname(TESTS)}/tools/ptab-run"
HOW = {"flock": ("flock",), "udevadm": ("udevadm", "lock", "--device")}
SECONDS = 60


class File:
    """A plain file, in the place of a loop device over it."""

    def __init__(self, path, _):
        self.path = path

    def __enter__(self):
        return self

    def __exit__(self, *_):
        pass


def at_terminal(words, keys, where):
    """What a program prints at a terminal, at which each of the keys is typed once it is silent, and its status."""
    child, terminal = pty.fork()
    if child == 0:
        os.execvpe(words[0], words, {**where, "TERM": "linux", "LINES": "40", "COLUMNS": "120"})
    keys, printed, ends = list(keys), b"", time.monotonic() + SECONDS
    while time.monotonic() < ends:
        ready, _, _ = select.select([terminal], [], [], 0.5 if keys else 5)
        if not ready:
            if keys and printed:
                os.write(terminal, keys.pop(0).encode())
            continue
        try:
            more = os.read(terminal, 1 << 16)
        except OSError:
            more = b""
        if not more:
            break
        printed += more
    os.close(terminal)
    return printed.decode(errors="replace"), os.waitstatus_to_exitcode(os.waitpid(child, 0)[1])


class Tried:
    """A job, through ptab-run on one disk, and alone on another one."""

    def __init__(self, ptab, job, folder):
        self.ptab, self.job, self.folder = ptab, job, folder
        self.what = f"{job.kind}, {job.image}: {' '.join(job.words)} {job.lines.split()} {job.keys or ''} {job.how or ''}"
        self.sectors = LARGE if job.size == 4096 else SMALL
        as_itself_jobs.files_for(folder)
        self.paths = {name: f"{folder}/{name}/disk.img" for name in ("ours", "bare", "stop")}
        for path in self.paths.values():
            os.mkdir(os.path.dirname(path))
        os.mkdir(f"{folder}/bin")
        os.symlink(ptab, f"{folder}/bin/ptab")
        as_itself_jobs.make(job.image, self.paths["ours"])
        shutil.copyfile(self.paths["ours"], self.paths["bare"])
        self.before, self.old = content(self.paths["ours"]), self.show(self.paths["ours"])
        self.where = {**ENVIRONMENT, "PATH": f"{folder}/bin:{ENVIRONMENT['PATH']}:/usr/sbin:/sbin", "TMPDIR": folder, "PTAB": ptab}

    def same(self, part, found, wanted):
        if found != wanted:
            sys.exit(f"as itself: {self.what}: {part}:\n  found  {found}\n  wanted {wanted}")

    def show(self, path, command="show"):
        done = subprocess.run([self.ptab, command, "--sector-size", str(self.job.size), path], capture_output=True, text=True)
        return done.stdout, done.stderr, done.returncode

    def words(self, path):
        return [it.replace("DISK", path).replace("DIR", os.path.dirname(path)).replace("FOLDER", self.folder) for it in self.job.words]

    def do(self, words, path, **more):
        """What is printed, without ptab-run's lines, and these; and the status."""
        where = {**self.where, **more}
        if self.job.keys:
            printed, status = at_terminal(words, self.job.keys, where)
            # a terminal shows what was typed wherever that is read
            return "", [it for it in printed.splitlines() if it.startswith("ptab-run: ")], status
        done = subprocess.run(words, input=self.job.lines, capture_output=True, text=True, env=where)
        lines = done.stderr.splitlines()
        told = done.stdout + "\n".join(it for it in lines if not it.startswith("ptab-run: "))
        # a program that asks the kernel for a device's name is told the copy's
        told = re.sub(rf"{self.folder}/(ours|bare)|/dev/loop\d+", "DIR", told).replace("DIR/disk.img", "DIR")
        return told, [it for it in lines if it.startswith("ptab-run: ")], done.returncode

    def through(self, path, **more):
        """The job through ptab-run, with the lock of a caller or a partition in use."""
        options = ["--device"] if self.job.kind == "device" else ["--sector-size", str(self.job.size)]
        options += ["--data"] if self.job.data else []
        # of what grub-install writes its boot code is left out
        options += ["--lossy"] if self.job.data == "lossy" else []
        held = [*HOW[self.job.how], path] if self.job.how in HOW else []
        if self.job.how != "mounted":
            return self.do([*held, RUN, "--as-itself", *options, path, *self.words(path)], path, **more)
        place = f"{self.folder}/mounted"
        os.makedirs(place, exist_ok=True)
        must("mount", f"{path}p2", place)
        try:
            with open(f"{place}/file", "w", encoding="ascii") as it:
                it.write("kept")
            must("sync", "-f", place)
            must("blockdev", "--flushbufs", path)
            self.before = content(self.paths["ours"])
            found = self.do([RUN, "--as-itself", *options, "--in-use", path, *self.words(path)], path, **more)
            self.same("the file that was open", content(f"{place}/file"), b"kept")
            return found
        finally:
            must("umount", place)

    def tracer(self, path):
        """A program in place of ptab, of which the writes to the disk are taken down."""
        log, script = f"{self.folder}/calls", f"{self.folder}/tracer"
        # each call of it goes on with the same file
        tracing_words = " ".join([*tracing(path, self.sectors, CALLS, log), "-A"])
        with open(script, "w", encoding="ascii") as it:
            it.write(f'#!/bin/sh\ncase "$*" in *--no-lock*/proc/self/fd/*) exec {tracing_words} {self.ptab} "$@"; esac\n'
                     f'exec {self.ptab} "$@"\n')
        os.chmod(script, 0o755)
        return log, script

    def all(self):
        """How many stopped images were looked at."""
        kind = Loop if self.job.kind == "device" else File
        with kind(self.paths["ours"], self.job.size) as ours, kind(self.paths["bare"], self.job.size) as bare:
            if self.job.kind == "device":
                for it in (ours, bare):
                    it.make_partitions()
                    if self.job.how == "mounted":
                        must("mke2fs", "-q", "-t", "ext2", "-U", as_itself_jobs.SEED, f"{it.path}p2")
            log, script = self.tracer(ours.path) if self.job.cuts else (None, self.ptab)
            printed, lines, status = self.through(ours.path, PTAB=script)
            plain, _, plain_status = self.do(self.words(bare.path), bare.path)
            self.flush(ours, bare)
            self.known = {it.lower() for it in re.findall(GUID, str((self.old, self.job)))}
            masked = [without_drawn(it, self.known) for it in (printed, plain)]
            self.same("the status", (status, lines), (plain_status, lines))
            self.same("what it prints", self.sorted(masked[0]), self.sorted(masked[1]))
            self.same("what ptab-run says", lines[-1:], ["ptab-run: done"] if status == 0 else lines[-1:])
            new = self.tables(status)
            if self.job.kind == "device":
                self.same("the kernel's partitions", parts_of(ours.path), wanted_parts(new[0], self.job.size))
        self.same("what is left", [it for it in os.listdir(self.folder) if it.startswith("ptab-run-")], [])
        return self.cut(phases_in(log, self.sectors, self.what, is_open=True), new) if log else 0

    def flush(self, *disks):
        if self.job.kind == "device":
            for it in disks:
                must("blockdev", "--flushbufs", it.path)

    @staticmethod
    def sorted(text):
        """The lines of both streams of two processes may mix, and columns are as wide as the device's name."""
        return sorted(re.sub("▒+", "▒", " ".join(it.split())) for it in text.splitlines())

    def tables(self, status):
        """The new table, which is that of the plain copy, whoever tells it."""
        ours, bare = self.paths["ours"], self.paths["bare"]
        new = self.show(ours)
        if status:
            self.same("the disk", content(ours) == self.before, True)
            return new
        self.same("the table is another one", new == self.old, False)
        kind = new[0].partition(" ")[0]
        found, wanted = ({**views(it, kind, self.job.size), "partx": self.by_partx(it), "ptab": self.show(it)} for it in (ours, bare))
        for tool, text in found.items():
            # cgpt tells of boot code
            if (tool, self.job.data) == ("cgpt", "lossy"):
                continue
            self.same(f"the table by {tool}", *(without_drawn(str(it), self.known) for it in (text, wanted[tool])))
        self.same("verify", self.show(ours, "verify"), ("yes\n", "", 0))
        self.only_tables_change(kind)
        return new

    def by_partx(self, path):
        done = run("partx", "--show", "--sector-size", str(self.job.size), "--output", "NR,START,END,SECTORS,NAME,TYPE,FLAGS", path)
        return done.stdout, done.returncode

    def only_tables_change(self, kind):
        size, after = self.job.size, content(self.paths["ours"])
        count, room_of = len(self.before) // size, 1 + 16384 // size
        allowed = boot_records(self.before, size) | boot_records(after, size)
        if "gpt" in (kind, self.old[0].partition(" ")[0]):
            allowed |= {*range(1 + room_of), *range(count - room_of, count)}
        # whoever has partition 2 mounted writes it
        allowed |= {*range(4096, count - room_of)} if self.job.how == "mounted" else set()
        self.data = changed(self.before, after, size) - allowed
        if self.job.data:
            as_itself_data.check(self, after, self.data, allowed)
        else:
            self.same("sectors outside of tables", sorted(self.data), [])
        self.same("boot code", after[:440], self.before[:440])

    def cut(self, phases, new):
        rng, path, before, count, after = random.Random(1), self.paths["stop"], self.before, 0, content(self.paths["ours"])
        for phase in phases:
            for writes in choices(rng, phase):
                with open(path, "wb") as it:
                    it.write(written(before, writes, self.sectors))
                found = self.show(path)
                self.same(f"stopped by {[lba for lba, _ in writes]}", found in (self.old, new), True)
                if found == new:
                    self.same("data beside the new table", changed(content(path), after, self.job.size) & self.data, set())
                count += 1
            before = bytes(written(before, phase, self.sectors))
        self.same("all writes", before == after, True)
        return count


def tried(ptab, job):
    with room() as folder:
        return Tried(ptab, job, folder).all()


def main():
    if len(sys.argv) != 2:
        sys.exit("usage: tests/peers/as_itself.py PTAB")
    ptab = os.path.abspath(sys.argv[1])
    with tempfile.TemporaryDirectory() as folder:
        jobs = as_itself_jobs.jobs(has_loops(folder))
    # side by side, since sgdisk sleeps for a second where it has written
    with ThreadPoolExecutor(4) as pool:
        counts = [it.result() for it in [pool.submit(tried, ptab, job) for job in jobs]]
    devices = sum(it.kind == "device" for it in jobs)
    print(f"as itself: {len(jobs)} jobs of unchanged programs are as on a plain copy, {devices} of them on devices, 0 failed; "
          f"{sum(counts)} images of {sum(it > 0 for it in counts)} jobs that were stopped have the old table or the new one")


if __name__ == "__main__":
    main()
