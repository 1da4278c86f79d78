#!/usr/bin/env python3
"""Shows images that a stop leaves to the readers of partition tables that Debian has: GRUB, libparted, libblkid, libfdisk, sgdisk, cgpt and
kpartx (finders.py); and to one of its own, which goes by the primary copy alone with all of UEFI's checks, as Linux does. Jobs of every
kind (jobs.py) are done with --keep-primary and by the specification's table, their writes taken down by strace; each image that a stop
before, in or after a phase may leave is read by all, also those of the mending of a disk that was stopped.

With the primary kept, in each job that begins with a whole primary copy or with a bridge, each reader finds the old table before the
phase that switches, the new one after it, either of them in it: never none and never another. By the table those that go by the primary
copy alone find nothing exactly where sector 1 is zeros, and the others find the old table or the new one; so this would notice a reader
that has changed. Of an MBR that becomes a GPT sgdisk refuses each image with a header under an MBR, and cgpt shows the header's table.

kpartx is shown all on loop devices, and some readers are shown sectors of 4096 bytes on these. Where there are none it says so and goes
on.

usage: tests/readers/readers.py PTAB
"""
import os
import sys
from concurrent.futures import ThreadPoolExecutor

sys.path.insert(0, os.path.join(os.path.dirname(os.path.abspath(__file__)), "..", "shared"))
import checks
import jobs
from finders import FINDERS, Asked
from images import room
from loops import has_loops


def main():
    ptab = os.path.abspath(sys.argv[1])
    with room() as folder, ThreadPoolExecutor(len(os.sched_getaffinity(0))) as pool:
        asked = Asked(folder, has_loops(folder))
        if not asked.loops:
            shown = {size: ", ".join(asked.names(size)) for size in (512, 4096)}
            print(f"readers: no loop devices here, so sectors of 512 bytes are shown to {shown[512]}, and of 4096 bytes to {shown[4096]}")
        done = jobs.all_done(ptab, folder, pool, [*jobs.on_whole(), *jobs.on_lost(), *jobs.on_mbr()])
        asked.ask(jobs.images_of(done), pool)
        readers = checks.Readers(FINDERS, asked.views)
        for it in done:
            readers.job(it, asked.names(it.job.sectors.size))
        checks.both_ways(done)
    print(f"readers: {len(done)} jobs, {sum(len(it.stops) for it in done)} stops, {len(asked.views)} images, {len(FINDERS)} readers")
    print(f"readers: {checks.passed} passed, 0 failed")


main()
