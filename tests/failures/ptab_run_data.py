"""ptab-run --data: which sectors are carried and which are refused, zeros over what the copy doesn't have, limits and room, what a terminal
shows, and what a failure leaves: see ptab_run.py."""
import os
import signal
import subprocess

import devices
from as_itself import at_terminal
from images import SMALL, entry

# partition 1 has sectors 4096 to 5119; behind it all is free, to the backup copy, and has bytes that no copy of a run holds. Partition 2 is
# made from FREE on
SECTORS, FREE, LAST, LIMIT = 12288, 6144, 7167, 64
LOSSY = "--lossy goes on without that"


def stale(it, path=None):
    """A GPT, with bytes in each sector behind the first MiB, but for the backup copy."""
    image = SMALL.gpt(SECTORS, {1: entry(4096, 5119, name="old")})
    for lba in range(2048, SECTORS - 64):
        SMALL.put(image, lba, b"stale %d\n" % lba * 20)
    return it.write(image, path)


def adds(it, text):
    """A program that makes partition 2 from FREE on, and does more."""
    return it.script("adds", f'ptab edit "$1" --fresh {"5e" * 16} n:2:{FREE}:{LAST} >/dev/null || exit\n{text}')


def put(lba, count=1, source="/dev/urandom"):
    return f'dd if={source} of="$1" bs=512 seek={lba} count={count} conv=notrunc status=none\n'


def changed(before, after):
    return [lba for lba in range(len(after) // 512) if before[lba * 512:lba * 512 + 512] != after[lba * 512:lba * 512 + 512]]


def tables(lba):
    return lba < 34 or lba >= SECTORS - 33


def carried(it):
    """Data in free sectors, in new partitions and beside; the rest of the disk but for the tables is as before."""
    path, before = stale(it), it.image()
    tool = adds(it, put(6200, 3) + put(9000) + f'cp "$1" {it.folder}/copy')
    it.refused([path, tool, "@"], "not taken over: data in sectors 6200-6202, 9000\n"
               f"FOLDER/disk.img isn't touched; --data carries the data over, {LOSSY}")
    it.done("--data", path, tool, "@")
    after, copy = it.image(), it.image(f"{it.folder}/copy")
    found = [lba for lba in changed(before, after) if not tables(lba)]
    # of an image a new partition becomes as the program left it
    it.same("what has changed", found, [*range(FREE, LAST + 1), 9000])
    it.same("the partition, and the other sector", [after[first * 512:end * 512] == copy[first * 512:end * 512]
                                                    for first, end in ((FREE, LAST + 1), (9000, 9001))], [True, True])
    it.same("the table", it.show()[0].splitlines()[2].split()[:3], ["2", str(FREE), str(LAST)])
    it.unchanged(["--data", path, "true", "@"], ("", "true changed nothing\n", 0))
    # the table is as it was, and the data isn't
    it.done("--data", path, it.script("writes", put(9001)), "@")
    it.same("without another table", changed(after, it.image()), [9001])
    it.same("--quiet", it.do("--quiet", "--data", path, it.script("writes", put(9002)), "@"), ("", "", 0))


def refused(it):
    path, before = stale(it), it.image()
    owned = adds(it, put(4100, 2) + put(6200))
    it.refused(["--data", path, owned, "@"], f"not taken over: data in sectors 4100-4101\nFOLDER/disk.img isn't touched; {LOSSY}")
    it.refused([path, owned, "@"], f"not taken over: data in sectors 4100-4101, 6200\nFOLDER/disk.img isn't touched; {LOSSY}")
    it.done("--data", "--lossy", path, owned, "@", errors="not taken over: data in sectors 4100-4101\ndone\n")
    it.same("a part of it", [lba for lba in changed(before, it.image()) if not tables(lba)], [*range(FREE, LAST + 1)])
    stale(it)
    # what was a table, and is none in what the program left, can't get data before the table turns
    mbr = it.script("mbr", f"printf 'label: dos\\n{FREE},1024,83\\n' | sfdisk -q --wipe always \"$1\" || exit\n{put(5)}")
    it.refused(["--data", path, mbr, "@"], "FOLDER/disk.img isn't touched: refused: data table 5 (data for a sector of the old table: "
               "change the table in one run, and write the data in the next)")
    it.refused([path, mbr, "@"], f"not taken over: data in sectors 5\nFOLDER/disk.img isn't touched; {LOSSY}")
    boot = it.script("boot", f"{put(6300)}printf code | dd of=\"$1\" conv=notrunc status=none")
    it.refused([path, boot, "@"], "not taken over: boot code, data in sectors 6300\n"
               f"FOLDER/disk.img isn't touched; --data carries the data over, {LOSSY}")
    it.refused(["--data", path, boot, "@"], f"not taken over: boot code\nFOLDER/disk.img isn't touched; {LOSSY}")


def zeros(it):
    """Zeros over bytes that the copy doesn't have: written, and in a new partition's holes."""
    path, before = stale(it), it.image()
    it.done("--data", path, it.script("wipes", put(8000, 8, "/dev/zero")), "@")
    it.same("zeros that were written", (changed(before, it.image()), it.image()[8000 * 512:8008 * 512]),
            ([*range(8000, 8008)], bytes(8 * 512)))
    stale(it)
    it.done("--data", path, it.script("wipes", f'fallocate --punch-hole --offset {8000 * 512} --length 4096 "$1"'), "@",
            errors="FOLDER/wipes changed nothing\n")
    it.done("--data", path, adds(it, f'{put(6200)}fallocate --punch-hole --offset {7000 * 512} --length 4096 "$1"'), "@")
    it.same("a new partition's holes", it.image()[7000 * 512:7008 * 512], bytes(8 * 512))


def limits(it):
    path = stale(it)
    tool = adds(it, put(6200, LIMIT + 8))
    it.refused(["--data", "--data-limit", str(LIMIT * 512), path, tool, "@"], f"FOLDER/disk.img isn't touched: data of {(LIMIT + 8) * 512} "
               f"bytes, in sectors 6200-{6207 + LIMIT}, is more than --data-limit {LIMIT * 512}")
    places = f"FOLDER/left, /dev/shm, ., {os.path.realpath(it.folder).replace(it.folder, 'FOLDER')}"
    it.refused(["--data", "--data-limit=900T", path, "true", "@"], f"FOLDER/disk.img isn't touched: of {places} none takes a file as long "
               f"as it, {SECTORS * 512} bytes, and has room for {1800 << 40} bytes of data, twice --data-limit; TMPDIR may name another "
               "folder", 125)
    for words, line in ((["--data-limit", "1G"], "--data-limit is for --data"),
                        (["--data", "--data-limit", "1.5G"], "--data-limit takes bytes, or a number and K, M, G or T"),
                        (["--data", "--plan"], "--data can't go with --plan, which has the table's writes alone")):
        it.refused([*words, path, "true", "@"], line, 122)
    it.done("--data", "--data-limit=36K", path, tool, "@")


def shown(it):
    """A terminal sees how much is written, unless --quiet is given; the line goes again. A signal waits until all is done."""
    path = stale(it)
    slow = it.script("slow", f'case "$*" in *--data*) sleep 1.2; [ ! -e {it.folder}/kills ] || kill $PPID; esac\nexec {it.ptab} "$@"')
    where = {**it.where, "PTAB": slow}
    for words, wanted in ((["--data"], True), (["--data", "--quiet"], False)):
        printed, status = at_terminal([it.run_file, *words, path, it.script("writes", put(6144, 2048)), "@"], (), where)
        it.same(f"{words}: {printed}", ("0 of 1 MB of data written" in printed, printed.count("done"), status), (wanted, int(wanted), 0))
        done = subprocess.run([it.run_file, *words, path, f"{it.folder}/writes", "@"], capture_output=True, text=True, env=where)
        it.same("no terminal", (done.stderr, done.returncode), ("" if not wanted else "ptab-run: done\n", 0))
    it.write(b"", f"{it.folder}/kills")
    done = subprocess.run([it.run_file, "--data", path, adds(it, put(6200)), "@"], capture_output=True, text=True, env=where)
    it.same("a signal meanwhile", (done.stderr.splitlines()[1:], done.returncode, len(it.show()[0].splitlines())),
            ([f"ptab-run: ended by SIGTERM: {path} has the new table"], 128 + signal.SIGTERM, 3))


def wrong_disk(it):
    """What doesn't read as it was written, and a `ptab` that is killed in the middle."""
    path, before = stale(it), it.image()
    other = it.script("other", f'case "$*" in *--data*) {it.ptab} "$@"; n=$?; printf x | dd of={path} bs=512 seek=6200 conv=notrunc '
                      f'status=none; exit $n; esac\nexec {it.ptab} "$@"')
    line = "FOLDER/disk.img was written, and reads otherwise: does another program write it?\n"
    it.same("another writer", it.do("--data", path, adds(it, put(6200)), "@", program=other)[1:], (line, 125))
    stale(it)
    dies = it.script("dies", f'case "$*" in *--data*) kill -9 $$; esac\nexec {it.ptab} "$@"')
    found = it.do("--data", path, adds(it, put(6200)), "@", program=dies)
    it.same("ptab is killed", ("it has the old table or the new one" in found[1], found[2], it.image() == before), (True, 125, True))


def as_devices(it):
    """On a device what was written is carried, and what was zeroed; what was discarded isn't."""
    # whose blocks are told by FIEMAP, or not
    for size, place in ((512, f"{it.folder}/left"), (512, "/var/tmp"), (4096, "/var/tmp")):
        sectors = SMALL if size == 512 else devices.LARGE
        image = sectors.gpt(SECTORS, {1: entry(4096, 5119, name="old")})
        for lba in range(2048, SECTORS - 64):
            sectors.put(image, lba, b"stale %d\n" % lba * 20)
        it.write(image)
        at = [lba * size for lba in (6200, 6600, 7000)]
        with devices.Loop(it.path, size) as loop:
            tool = it.script("tool", f'ptab edit --device "$1" --fresh {"5e" * 16} n:2:{FREE}:{LAST} >/dev/null || exit\n'
                             f'head -c {size} /dev/zero | tr "\\0" x | dd of="$1" bs={size} seek=6200 status=none\n'
                             f'blkdiscard --force --zeroout --offset {at[1]} --length {8 * size} "$1" 2>&1 && '
                             f'blkdiscard --force --offset {at[2]} --length {8 * size} "$1" 2>&1')
            done = subprocess.run([it.run_file, "--data", "--as-itself", "--device", loop.path, tool, loop.path], capture_output=True,
                                  text=True, env={**it.where, "TMPDIR": place})
            it.same(f"a device of {size}", (done.stderr, done.returncode), ("ptab-run: done\n", 0))
            after = loop.content()
        it.same(f"{size}: what was written", after[at[0]:at[0] + size], b"x" * size)
        it.same(f"{size}: what was zeroed", after[at[1]:at[1] + 8 * size], bytes(8 * size))
        it.same(f"{size}: what was discarded", after[at[2]:at[2] + 8 * size] == bytes(image[at[2]:at[2] + 8 * size]), True)


def all_of(it):
    it.each([carried, refused, zeros, limits, shown, wrong_disk, *([as_devices] if devices.has_loops(it.folder) else [])])
