"""What as_itself.py asks of the data that a program wrote: that it is what a plain copy has, and whole file systems."""
import os
import re
import subprocess

from compared import content
from tools import ENVIRONMENT

CHECKS = {"ext4": ("e2fsck", "-f", "-n"), "vfat": ("fsck.fat", "-n")}
EXTENDED = ("05", "0F", "85")


def partitions(shown):
    """The lines of partitions that `ptab show` prints, by their first and last sectors, but for extended ones."""
    lines = [line.split() for line in shown.splitlines()[1:]]
    return {(int(line[1]), int(line[2])): line for line in lines if line[3] not in EXTENDED}


def check(it, after, data, tables):
    """All that has changed is in sectors that no old partition owned, and is what the plain copy has."""
    size, bare = it.job.size, content(it.paths["bare"])
    owned = {lba for first, last in partitions(it.old[0]) for lba in range(first, last + 1)}
    it.same("there is data", bool(data), True)
    it.same("sectors of old partitions", sorted(data & owned), [])
    it.same("the disk signature", after[440:446], bare[440:446])
    if it.job.data == "same":
        for lba in range(len(after) // size):
            if lba not in owned and lba not in tables:
                same_sector(it, lba, *(image[lba * size:(lba + 1) * size] for image in (it.before, after, bare)))
    for first, last in partitions(it.show(it.paths["ours"])[0]).keys() - partitions(it.old[0]).keys():
        kinds = [file_system(it, image[first * size:(last + 1) * size]) for image in (after, bare)]
        it.same(f"the file system in sectors {first} to {last}", kinds[0], kinds[1])


def same_sector(it, lba, before, ours, bare):
    """The same bytes; or what was there before beside zeros, where a program made a hole, or discarded."""
    if ours != bare:
        it.same(f"sector {lba}", sorted([ours, bare]), sorted([before, bytes(len(before))]))


def file_system(it, part):
    """What is in a partition, as blkid tells, but for what is drawn; a whole file system, where it is one."""
    path = f"{it.folder}/part"
    with open(path, "wb") as file:
        file.write(part)
    found = subprocess.run(["blkid", "--probe", "--output", "export", path], capture_output=True, text=True, env=ENVIRONMENT).stdout
    told = {key: value for key, _, value in (line.partition("=") for line in found.splitlines())}
    if told.get("TYPE") in CHECKS:
        done = subprocess.run([*CHECKS[told["TYPE"]], path], capture_output=True, text=True, env=ENVIRONMENT)
        it.same(f"{CHECKS[told['TYPE']]}: {done.stdout}{done.stderr}", done.returncode, 0)
    os.unlink(path)
    return {key: value for key, value in told.items() if not re.fullmatch("DEVNAME|UUID.*|SEC_TYPE", key)}
