#!/usr/bin/env python3
"""Shows images that a stop leaves to readers that are booted: Linux's kernel, without and with `gpt` on its command line, EDK2 and U-Boot,
under QEMU by emulation, as many images in one boot as the reader takes (guests.py). The jobs and what has to be found are those of
readers.py. Of EDK2, which mends tables when it starts, it also looks what it wrote: the table is still the one that was there; a disk with
zeros in sector 1 and a whole backup copy is healthy then; and one with a bridge and a whole backup copy isn't written to.

It takes some minutes, so the gate doesn't run it. It needs gcc and what readers.py needs, and of Debian's packages qemu-system-x86, ovmf,
u-boot-qemu and linux-image-amd64. It goes by emulation, since Debian's kernel hangs under some machines' KVM.

usage: tests/readers/machines.py PTAB [MACHINE...]
"""
import os
import sys
from collections import Counter
from concurrent.futures import ThreadPoolExecutor

sys.path.insert(0, os.path.join(os.path.dirname(os.path.abspath(__file__)), "..", "shared"))
import checks
import jobs
from compared import content, put
from guests import MACHINES
from images import room

# a table of more partitions has many
MANY = 20


def partitions(it):
    """How many entries of the finished disk's table are in use."""
    array = it.after[2 * it.job.sectors.size:][:16384]
    return sum(any(array[at:at + 16]) for at in range(0, len(array), 128))


class Booted:
    """What a machine finds on images, and of EDK2 what it makes of them."""

    def __init__(self, ptab, folder, name):
        self.ptab, self.folder, self.name = ptab, folder, name
        self.views, self.made, self.told = {}, {}, {}

    def show(self, done):
        most = MACHINES[self.name].disks
        for size in (512, 4096):
            some = self.shown(it for it in done if it.job.sectors.size == size)
            for at in range(0, len(some), most):
                self.boot(some[at:at + most], size)
                print(f"machines: {self.name}: {min(at + most, len(some))} of {len(some)} images, sectors of {size} bytes", flush=True)

    def shown(self, done):
        """The images that it is shown: whole ones, and of each job's stops all, or of many partitions some, the first and the last too."""
        found = []
        for it in done:
            stops = list(it.stops)
            most = min(len(stops), MACHINES[self.name].of_many if partitions(it) > MANY else len(stops))
            picked = stops if len(stops) == most else [stops[k * (len(stops) - 1) // (most - 1)] for k in range(most)]
            found += [(bytes(image), it.job.sectors.size) for image in (it.job.whole or it.job.image, it.after, *picked)]
        return list(dict.fromkeys(found))

    def boot(self, images, size):
        paths = [put(f"{self.folder}/disk{k}", image) for k, (image, _) in enumerate(images)]
        for key, path, view in zip(images, paths, MACHINES[self.name].boot(paths, size, self.folder)):
            self.views[key] = {self.name: view}
            if self.name == "EDK2":
                self.made[key] = content(f"{path}.edk2")

    def answers(self, image, sectors):
        """What `show` and `verify` print of an image."""
        if (image, sectors.size) not in self.told:
            path = put(f"{self.folder}/asked", image)
            self.told[image, sectors.size] = [jobs.answer(self.ptab, path, sectors, command) for command in ("show", "verify")]
        return self.told[image, sectors.size]

    def mended(self, it, image, number, counts):
        """What EDK2 made of one stop, where it was shown that."""
        sectors = it.job.sectors
        made = self.made.get((image, sectors.size))
        if made is None:
            return
        changed = [lba for lba in range(sectors.count(image)) if sectors.sector(made, lba) != sectors.sector(image, lba)]
        what = f"{it.what}, stopped in phase {number}, by EDK2"
        (table, before), (found, after) = self.answers(image, sectors), self.answers(made, sectors)
        checks.same(f"{what}: the table", found, table)
        kind = "zeros" if checks.is_zeros(image, sectors) else "a bridge" if jobs.is_bridge(image, sectors) else "a header"
        counts[f"{kind} in sector 1: {'written' if changed else 'left'}, verify {before.strip()} then {after.strip()}"] += 1
        if (kind, before) == ("a bridge", "no 2 primary copy 6\n"):
            checks.same(f"{what}: what it wrote where a bridge stands", changed, [])
        if kind == "zeros":
            checks.one_of(f"{what}: a primary copy", after, ("yes\n", "no 6 protective record\n"))


def machine(ptab, folder, name, done):
    """A machine at all stops."""
    booted, counts = Booted(ptab, folder, name), Counter()
    booted.show(done)
    readers = checks.Readers(MACHINES, booted.views)
    for it in done:
        readers.job(it, [name])
        for image, number in it.stops.items() if booted.made and it.job.words != "g" else ():
            booted.mended(it, image, number, counts)
    for kind, count in sorted(counts.items()):
        print(f"machines: EDK2, {kind}: {count}")
    print(f"machines: {name}: {len(booted.views)} images", flush=True)


def main():
    ptab = os.path.abspath(sys.argv[1])
    names = sys.argv[2:] or list(MACHINES)
    with room() as folder, ThreadPoolExecutor(len(os.sched_getaffinity(0))) as pool:
        done = jobs.all_done(ptab, folder, pool, [*jobs.on_whole(), *jobs.on_lost(), *jobs.on_mbr()])
        for name in names:
            machine(ptab, folder, name, done)
        checks.both_ways(done)
    print(f"machines: {len(done)} jobs, {sum(len(it.stops) for it in done)} stops, {len(names)} readers")
    print(f"machines: {checks.passed} passed, 0 failed")


main()
