#!/usr/bin/env python3
"""Kills ptab-run, by SIGKILL, at any moment of a run: by itself, or with all that it started; by `@` and under the image's own path; on an
image, and on loop devices with sectors of 512 and of 4096 bytes; half of them with --data. Then the disk has the old table or the new one,
whole, and with the new one all of the data; nobody holds its lock; no loop device and no mount of the run is left; and the next run makes
the other table, with its data, and removes the folder that was left.

usage: tests/failures/killed_runs.py PTAB [COUNT [SEED]]     60 kills, or so many
"""
import contextlib
import os
import random
import signal
import subprocess
import sys
import time

TESTS = os.path.dirname(os.path.dirname(os.path.abspath(__file__)))
sys.path.insert(0, f"{TESTS}/shared")
import compared
from compared import same
from images import LARGE, SMALL, entry, room
from loops import Loop, has_loops
from tools import ENVIRONMENT, must, run

RUN = f"{os.path.dirname(TESTS)}/tools/ptab-run"
SECTORS = 4096
NAMES = ("old", "new")
# data in so many sectors from there on
FIRST, COUNT = 1000, 600
# a program that names the partition, and writes the data that goes with the name
WRITES = ('disk=$1 data=$2 size=$3 ptab=$4 word=$5; "$ptab" edit $PTAB_OPTIONS "$disk" "$word"; '
          f'dd if="$data" of="$disk" bs="$size" seek={FIRST} conv=notrunc status=none')


def is_at_work(group):
    """Whether a process of the group goes on. One that has ended, and that nobody has asked for yet, doesn't."""
    for number in filter(str.isdigit, os.listdir("/proc")):
        with contextlib.suppress(OSError), open(f"/proc/{number}/stat", "rb") as it:
            state, _, found = it.read().rpartition(b")")[2].split()[:3]
            if int(found) == group and state not in (b"Z", b"X"):
                return True
    return False


class Disk:
    """An image, or a device over it, which has the one name or the other."""

    def __init__(self, ptab, folder, path, sectors, is_device):
        self.ptab, self.path, self.sectors, self.is_device = ptab, path, sectors, is_device
        self.left, self.seconds = f"{folder}/left", {}
        self.where = {**ENVIRONMENT, "PTAB": ptab, "TMPDIR": self.left}
        self.data = {name: f"{folder}/{name}{sectors.size}" for name in NAMES}
        for name, place in self.data.items():
            with open(place, "wb") as it:
                it.write(name.encode() * (COUNT * sectors.size // len(name)))
                it.write(name.encode()[:COUNT * sectors.size % len(name)])

    def has_data(self, name):
        with open(self.path, "rb") as disk, open(self.data[name], "rb") as wanted:
            disk.seek(FIRST * self.sectors.size)
            return disk.read(COUNT * self.sectors.size) == wanted.read()

    def words(self, name, how):
        """A run that gives the partition that name, and writes its data."""
        options = ["--device"] if self.is_device else ["--sector-size", str(self.sectors.size)]
        as_itself, with_data = how
        if with_data:
            place = self.path if as_itself else "@"
            more = ["--as-itself"] if as_itself else []
            tool = [place, self.data[name], str(self.sectors.size), self.ptab, f"c:1:{name}"]
            return [RUN, "--data", *more, *options, self.path, "sh", "-ec", WRITES, "sh", *tool]
        if not as_itself:
            return [RUN, *options, self.path, self.ptab, "edit", "@", f"c:1:{name}"]
        tool = [self.ptab, "edit", *options, self.path, f"c:1:{name}"]
        return [RUN, "--as-itself", *options, self.path, *tool]

    def name(self):
        """The partition's name, on a whole table; a stop may leave one that a repair makes whole."""
        options = ["--device"] if self.is_device else ["--sector-size", str(self.sectors.size)]
        done = run(self.ptab, "show", *options, self.path)
        same(f"{self.path}: show: {done.stderr}", done.returncode, 0)
        return done.stdout.split()[-1]

    def killed(self, rng):
        """Kills a run; whether it had changed the table."""
        before = self.name()
        after = NAMES[1 - NAMES.index(before)]
        how = rng.random() < 0.6, rng.random() < 0.5
        words = self.words(after, how)
        child = subprocess.Popen(words, env=self.where, stdout=subprocess.DEVNULL, stderr=subprocess.DEVNULL, start_new_session=True)
        # the disk is written near the end
        time.sleep(rng.uniform(rng.choice((0, 0.6)), 1) * self.seconds.get(how, 0.3))
        with_all = rng.random() < 0.5
        if child.poll() is None:
            (os.killpg if with_all else os.kill)(child.pid, signal.SIGKILL)
        child.wait()
        self.wait_for(child.pid)
        found = self.name()
        same(f"{words}: the table", found in NAMES, True)
        if found == after and how[1]:
            same(f"{words}: the data", self.has_data(after), True)
        return child.returncode == -signal.SIGKILL, found == after

    def wait_for(self, group):
        """What the run started goes on for a moment where the run alone was killed."""
        for _ in range(600):
            if not is_at_work(group):
                return
            time.sleep(0.02)
        sys.exit(f"{self.path}: what a killed run started goes on")

    def goes_on(self, rng):
        """Nothing of it is left that the next run trips over, which also removes its folder."""
        same(f"{self.path}: its lock", run("flock", "-n", self.path, "true").returncode, 0)
        same("loop devices", [it for it in run("losetup", "--list", "--noheadings", "--output", "NAME,BACK-FILE").stdout.splitlines()
                              if self.left in it], [])
        with open("/proc/self/mountinfo", encoding="utf-8") as it:
            same("mounts", [line for line in it if self.left in line], [])
        for name in os.listdir(self.left):
            os.utime(f"{self.left}/{name}", (0, 0))
        other = NAMES[1 - NAMES.index(self.name())]
        how, start = (rng.random() < 0.5, rng.random() < 0.5), time.monotonic()
        done = run(*self.words(other, how), env=self.where)
        # which also tells how long a run lasts here
        self.seconds[how] = time.monotonic() - start
        if how[1]:
            same("the data of the next run", self.has_data(other), True)
        same(f"the next run: {done.stderr}", (done.returncode, done.stderr.splitlines()[-1:], self.name()), (0, ["ptab-run: done"], other))
        same("what is left", os.listdir(self.left), [])
        options = ["--device"] if self.is_device else ["--sector-size", str(self.sectors.size)]
        same("verify", must(self.ptab, "verify", *options, self.path), "yes\n")


def main():
    if len(sys.argv) not in (2, 3, 4):
        sys.exit("usage: tests/failures/killed_runs.py PTAB [COUNT [SEED]]")
    ptab, count, seed = os.path.abspath(sys.argv[1]), *(int(it) for it in [*sys.argv[2:], *("60", "1")[len(sys.argv) - 2:]])
    rng, kills, turned = random.Random(seed), 0, 0
    with room() as folder:
        os.mkdir(f"{folder}/left")
        paths = []
        for sectors in (SMALL, LARGE):
            paths.append(f"{folder}/disk{sectors.size}.img")
            with open(paths[-1], "wb") as it:
                it.write(sectors.gpt(SECTORS, {1: entry(300, 400, name="old")}))
        disks = [Disk(ptab, folder, path, sectors, False) for path, sectors in zip(paths, (SMALL, LARGE))]
        if not has_loops(folder):
            kills, turned = all_of(disks, count, rng)
        else:
            with Loop(paths[0], 512) as small, Loop(paths[1], 4096) as large:
                disks += [Disk(ptab, folder, it.path, sectors, True) for it, sectors in ((small, SMALL), (large, LARGE))]
                # the images under the devices are left to these
                kills, turned = all_of(disks[2:], count - count // 3, rng)
            more = all_of(disks[:2], count // 3, rng)
            kills, turned = kills + more[0], turned + more[1]
    print(f"killed runs: {kills} runs were killed, {turned} of them with the new table, {compared.count} passed, 0 failed")


def all_of(disks, count, rng):
    """Kills so many runs before they end: how many that were, and of how many the table had turned."""
    found = []
    while sum(is_killed for is_killed, _ in found) < count:
        disk = disks[len(found) % len(disks)]
        found.append(disk.killed(rng))
        disk.goes_on(rng)
    return count, sum(all(it) for it in found)


if __name__ == "__main__":
    main()
