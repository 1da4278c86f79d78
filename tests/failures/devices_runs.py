"""Jobs of sgdisk, sfdisk, fdisk, parted, cgpt and ptab through `ptab-run --device`, beside the same on an image with the same content."""
import os
import re
import shutil
import subprocess
import sys
from concurrent.futures import ThreadPoolExecutor

import other_tools_jobs
from loops import parts_of
from other_tools import GUID, without_drawn
from tools import ENVIRONMENT

TOP = os.path.abspath(os.path.join(os.path.dirname(os.path.abspath(__file__)), "..", ".."))
RUN = f"{TOP}/tools/ptab-run"
# every fourth of some 175
STEP = 4


def wanted_parts(shown, size):
    """Those of a table. Of an extended partition the kernel has two sectors."""
    found = {}
    for number, first, last, kind, *_ in (line.split(" ") for line in shown.splitlines()[1:]):
        length = 2 if kind in ("05", "0F", "85") else (int(last) - int(first) + 1) * size // 512
        found[int(number)] = int(first) * size // 512, length
    return found


class Tried:
    """A job on an image and on a device."""

    def __init__(self, ptab, job, folder):
        self.ptab, self.job, self.folder = ptab, job, folder
        self.what = f"{job.image}: {' '.join(job.tool)} {job.lines.split()}"
        os.makedirs(f"{folder}/bin")
        os.symlink(ptab, f"{folder}/bin/ptab")
        self.image, self.under = f"{folder}/disk.img", f"{folder}/under.img"
        other_tools_jobs.make(job.image, self.image)
        shutil.copyfile(self.image, self.under)

    def same(self, part, found, wanted):
        if found != wanted:
            sys.exit(f"devices: {self.what}: {part}:\n  found  {found}\n  wanted {wanted}")

    def show(self, path):
        done = subprocess.run([self.ptab, "show", "--sector-size", str(self.job.size), path], capture_output=True, text=True)
        return done.stdout, done.stderr, done.returncode

    def run(self, path, *options):
        """The status, and what ptab-run says."""
        where = {**ENVIRONMENT, "PTAB": self.ptab, "PATH": f"{self.folder}/bin:{ENVIRONMENT['PATH']}", "TMPDIR": self.folder}
        done = subprocess.run([sys.executable, RUN, *options, path, *self.job.tool], input=self.job.lines, capture_output=True, text=True,
                              env=where)
        lines = [line for line in done.stderr.splitlines() if line.startswith("ptab-run: ")]
        return done.returncode, "\n".join(lines).replace(path, "IMAGE") if lines else done.stderr

    def compare(self, loop):
        before, old = open_bytes(self.under), self.show(self.under)
        known = {it.lower() for it in re.findall(GUID, str((old, self.job)))}
        wanted = self.run(self.image, "--sector-size", str(self.job.size))
        with loop(self.under, self.job.size) as it:
            self.same("ptab-run", self.run(it.path, "--device"), wanted)
            subprocess.run(["blockdev", "--flushbufs", it.path], check=True)
            after, new = open_bytes(self.under), self.show(self.under)
            self.same("show", without_drawn(str(new), known), without_drawn(str(self.show(self.image)), known))
            if wanted[1] != "ptab-run: done":
                self.same("the content", after == before, True)
            elif not re.search(r"^\d+\.[a-h] ", new[0], re.MULTILINE):
                self.same("the kernel's partitions", parts_of(it.path), wanted_parts(new[0], self.job.size))


def open_bytes(path):
    with open(path, "rb") as it:
        return it.read()


def all_of(ptab, loop, folder):
    """How many jobs were tried."""
    jobs = list(other_tools_jobs.jobs())[::STEP]

    def tried(number):
        place = f"{folder}/{number}"
        Tried(ptab, jobs[number], place).compare(loop)
        shutil.rmtree(place)

    # side by side, since sgdisk sleeps for a second where it has written
    with ThreadPoolExecutor(4) as pool:
        for done in [pool.submit(tried, number) for number in range(len(jobs))]:
            done.result()
    return len(jobs)
