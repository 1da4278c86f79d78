"""ptab-run on devices, where that isn't as on images, and what the kernel's cache has otherwise than the medium: see ptab_run.py."""
import fcntl
import os
import struct

import devices
from devices_runs import parts_of
from images import LARGE, SMALL, entry, record
from tools import must

SECTORS = 2048
# a request of ioctl(2) on block devices, BLKBSZGET
PAGE_SIZE = 0x80081270


def page_size(path):
    with open(path, "rb") as it:
        return struct.unpack("i", fcntl.ioctl(it, PAGE_SIZE, bytes(4)))[0]


def table(sectors):
    return sectors.gpt(SECTORS, {1: entry(100, 200, name="old")})


def by_ptab(it):
    """`ptab` takes the copy of each kind, by itself, with options, and in a script."""
    os.symlink(it.ptab, f"{it.folder}/ptab")
    script = it.script("in_script", f'ptab edit $PTAB_OPTIONS "$1" c:1:new && ptab verify $PTAB_OPTIONS "$1"')
    tools = [[it.ptab, "edit", "@", "c:1:new"], [f"{it.folder}/ptab", "edit", "@", "c:1:new"], [script, "@"]]
    for sectors in (SMALL, LARGE):
        size = ["--sector-size", str(sectors.size)]
        own = [[it.ptab, "edit", "--device", "@", "c:1:new"]] if sectors is LARGE else []
        for tool in [*tools, *own, [it.ptab, "edit", *size, "@", "c:1:new"]]:
            path = it.write(table(sectors))
            with devices.Loop(path, sectors.size) as loop:
                it.same(f"{tool} on a device", it.do("--device", loop.path, *tool)[1:], ("done\n", 0))
                it.same("what it shows", it.ptab_says("show", "--device", loop.path)[0].split()[-1], "new")
                loop.content()
            device = it.image()
            if "--device" not in tool:
                it.write(table(sectors))
                it.same(f"{tool} on an image", it.do(*size, path, *tool)[1:], ("done\n", 0))
                it.same(f"{tool}: the image is as the device", it.image() == device, True)


def neighbours(it):
    """What a partition's user writes into the pages of the tables, while ptab has them in the cache, stays: sectors that begin right behind
    the first copy, and end right before the second one. The test holds the device open, so the kernel keeps what it knows of it."""
    near = [*range(34, 40), *range(SECTORS - 40, SECTORS - 33)]
    for words in (["--device"], ["--device", "--in-use"]):
        path = it.write(table(SMALL))
        with devices.Loop(path) as loop:
            user = f"for k in {' '.join(map(str, near))}; do printf neighbour | dd of={path} bs=512 seek=$k conv=notrunc status=none; done"
            program = it.script("ptab_between", f"""case "$*" in *--no-lock*/proc/self/fd/*)
  for last; do case $last in /proc/self/fd/*) cat $last >/dev/null; esac; done
  blockdev --getbsz {loop.path} >{it.folder}/size
  {user}
esac
exec {it.ptab} "$@" """)
            held = os.open(loop.path, os.O_RDONLY)
            before = page_size(loop.path)
            found = it.do(*words, loop.path, *it.rename()[1:], program=program)
            it.same(f"{words}: a run", found[1:], ("done\n", 0))
            it.same("sizes of pages", (it.image(f"{it.folder}/size"), page_size(loop.path)), (b"512\n", before))
            os.close(held)
            after = loop.content()
        it.same("the neighbours", [k for k in near if not after[k * 512:].startswith(b"neighbour")], [])
        it.same("the table", (it.names(), it.ptab_says("verify", it.path)), (["new"], ("yes\n", "", 0)))


def bad_sectors(it):
    """The end of a device can't be read, since its file was cut: that is no matter to an MBR, and is named where it is a GPT's."""
    image = SMALL.mbr(SECTORS, [record(0x83, 100, 200)])
    with devices.Loop(it.write(image)) as loop:
        os.truncate(it.path, (SECTORS - 100) * 512)
        it.same("an MBR", it.do("--device", loop.path, "sfdisk", "-q", "--part-type", "@", "1", "7")[1:], ("done\n", 0))
        it.same("its table", it.ptab_says("show", "--device", loop.path)[0], f"mbr {SECTORS}\n1 100 299 07 00\n")
        it.same("--save", it.do("--save", f"{it.folder}/copy", "--device", loop.path), ("", "", 0))
    with devices.Loop(it.write(table(SMALL))) as loop:
        os.truncate(it.path, (SECTORS - 8) * 512)
        line = f"{loop.path}: sector {SECTORS - 1} can't be read: Input/output error\n"
        for words in ([], ["--plan"]):
            it.same(f"a GPT {words}", it.do("--device", *words, loop.path, *it.rename()[1:]), ("", line, 125))


def changed_below(it):
    """The kernel's cache has the new table, and the medium the old one, as after a write that failed: in a device, and in a file of ext4.
    The same edit again is done, and the medium has it."""
    with devices.Loop(it.write(table(SMALL))) as loop:
        old = it.image()
        held = os.open(loop.path, os.O_RDONLY)
        must(it.ptab, "edit", "--device", loop.path, "c:1:new")
        it.write(old)
        it.same("the cache of a device", it.ptab_says("show", "--device", loop.path)[0].split()[-1], "new")
        it.same("the edit again", it.do("--device", loop.path, *it.rename()[1:])[1:], ("done\n", 0))
        os.close(held)
        it.same("the device", it.names(), ["new"])
    disk, place = f"{it.folder}/disk", f"{it.folder}/place"
    with open(disk, "wb") as file:
        file.truncate(8 << 20)
    must("mke2fs", "-q", "-F", "-t", "ext4", "-b", "4096", disk)
    os.mkdir(place)
    with devices.Loop(disk) as loop:
        must("mount", loop.path, place)
        try:
            path = it.gpt(f"{place}/image")
            must("sync", path)
            old = it.image(disk)
            must(it.ptab, "edit", path, "c:1:new")
            # the blocks that hold the table, as they were
            new = it.image(disk)
            at = [k for k in range(0, len(old), 4096) if old[k:k + 4096] != new[k:k + 4096] and b"o\0l\0d\0" in old[k:k + 4096]]
            it.same("the places of both arrays", len(at), 2)
            headers = [k for k in range(0, len(old), 4096) if old[k:k + 4096] != new[k:k + 4096] and b"EFI PART" in old[k:k + 4096]]
            with open(disk, "r+b", buffering=0) as file:
                for k in {*at, *headers}:
                    os.pwrite(file.fileno(), old[k:k + 4096], k)
            it.same("the cache of a file", it.names(path), ["new"])
            it.same("a plan", it.do("--plan", *it.rename(path))[0].startswith("W "), True)
            must("sh", "-c", f"cat {path} >/dev/null")
            it.same("the edit again", it.do(*it.rename(path))[1:], ("done\n", 0))
            fresh = it.image(disk)
            it.same("the medium", (sum(b"n\0e\0w\0" in fresh[k:k + 4096] for k in at), it.names(path)), (2, ["new"]))
        finally:
            must("umount", place)


def stopped(it):
    """No loop device over the copy stays."""
    with devices.Loop(it.write(table(LARGE)), LARGE.size) as loop:
        tool = it.script("stops", 'kill -TERM $PPID; exec sleep 20')
        it.same("a run", it.do("--device", loop.path, tool, "@")[1:], (f"ended by SIGTERM: {loop.path} isn't touched\n", 143))
        it.same("loop devices", [line for line in must("losetup", "--list").splitlines() if it.folder + "/left" in line], [])


def links(it):
    """A link to a device, by a name that begins with `-`; the kernel has the new partitions."""
    with open(it.path, "wb") as disk:
        disk.truncate(8 << 20)
    with devices.Loop(it.path) as loop:
        os.symlink(loop.path, f"{it.folder}/-disk")
        found = it.do("--device", "--", "-disk", "sgdisk", "-n", "1:2048:4095", "-n", "2:4096:8191", "@", cwd=it.folder)
        it.same("a run", (found[1].splitlines()[-1], found[2]), ("done", 0))
        it.same("the kernel's partitions", parts_of(loop.path), {1: (2048, 2048), 2: (4096, 4096)})


def all_of(it):
    """Whether there are loop devices."""
    if not devices.has_loops(it.folder):
        return False
    it.each((by_ptab, neighbours, bad_sectors, changed_below, stopped, links))
    return True
