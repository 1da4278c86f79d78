"""Devices with many partitions that the kernel knows. A command that writes looks each of them up, so it names the one that is in use, also
the last, and goes on where none is. And `ptab-run --device` of ptab itself, with sectors of both sizes."""
import os
import sys

import devices_runs
from compared import put
from images import LARGE, SMALL, entry, guid
from loops import parts_of
from tools import ENVIRONMENT, must, run

# what one read of the kernel's list of them has room for, and more
COUNTS = (29, 30, 31, 64, 128)
SECTORS, FIRST, EACH, ROOM = 4096, 40, 8, 2000
DONE = ("done\n", "", 0)


def many(count):
    """A GPT with so many partitions, the last with room for a file system."""
    places = [(at, at + EACH - 1) for at in range(FIRST, FIRST + EACH * count, EACH)]
    places[-1] = (places[-1][0], places[-1][0] + ROOM)
    return SMALL.gpt(SECTORS, {number: entry(*place, unique=guid(number)) for number, place in enumerate(places, 1)})


def free(it, loop, count):
    """Nobody uses a partition."""
    told = f"{count} partitions"
    it.same(f"{told}: the kernel's", sorted(parts_of(loop.path)), list(range(1, count + 1)))
    it.same(f"{told}: edit", it.run("edit", "--device", loop.path, f"c:{count}:some"), DONE)
    it.same(f"{told}: repair", it.run("repair", "--device", loop.path), DONE)
    it.same(f"{told}: the name", it.run("show", "--device", loop.path)[0].endswith(" some\n"), True)


def used(it, loop, count):
    """The last partition is mounted, or held."""
    told, last, place, holders = f"{count} partitions", f"{loop.path}p{count}", it.at(f"many-{count}"), it.at(f"holders-{count}")
    os.makedirs(f"{holders}/dm-7")
    os.mkdir(place)
    must("mke2fs", "-q", "-F", "-b", "1024", last)
    must("mount", last, place)
    try:
        for words in (["edit", f"c:{count}:other"], ["repair"]):
            asked = [words[0], "--device", loop.path, *words[1:]]
            it.same(f"{told}, the last mounted: {asked}", it.run(*asked), ("", f"refused: in use: {last} is mounted on {place}\n", 3))
        it.same(f"{told}, the last mounted: --in-use", it.run("edit", "--device", "--in-use", loop.path, f"c:{count}:more"), DONE)
    finally:
        must("umount", place)
    at = f"/sys/block/{loop.name}/{loop.name}p{count}/holders"
    done = run("unshare", "-m", "sh", "-c", f'mount --bind {holders} {at} && exec "$0" "$@"', it.ptab, "edit", "--device", loop.path, "d:1")
    it.same(f"{told}, the last held", (done.stdout, done.stderr, done.returncode),
            ("", f"refused: in use: {loop.name}p{count} is held by dm-7\n", 3))


def ran(it, loop, size, *words):
    """What `ptab-run --device` of ptab says, and its status."""
    where = {**ENVIRONMENT, "PTAB": it.ptab, "PATH": f"{os.path.dirname(it.ptab)}:{ENVIRONMENT['PATH']}", "TMPDIR": it.folder}
    done = run(sys.executable, devices_runs.RUN, "--device", loop.path, it.ptab, words[0], "@", *words[1:], env=where, input="")
    return done.stderr, done.returncode


def through_ptab_run(it, loop, count):
    """The kernel has the partitions that are left, and the lost one no more."""
    it.same(f"{count} partitions: ptab-run", ran(it, loop, 512, "edit", f"d:{count - 1}"), ("ptab-run: done\n", 0))
    it.same(f"{count} partitions: the kernel's after ptab-run", sorted(parts_of(loop.path)), [*range(1, count - 1), count])


def by_itself(it, loop_of, sectors):
    """ptab through ptab-run on a device, beside the same on an image."""
    first = sectors.array + 2
    image = bytes(sectors.gpt(400, {1: entry(first, first + 9, name="data"), 2: entry(first + 20, first + 39, unique=guid(2))}))
    size = ["--sector-size", str(sectors.size)]
    for words in (["edit", "c:1:other"], ["edit", "d:2", "c:1:x"], ["edit", "a:1", "--fresh", "ab" * 16, "n:3:0:+8"], ["repair"],
                  ["edit", "d:7"], ["edit", "x"]):
        path = put(it.at("image"), image)
        status, errors = it.run(words[0], *size, path, *words[1:])[:0:-1]
        wanted = it.run("show", *size, path)
        with loop_of(put(it.at("under"), image), sectors.size) as loop:
            said, found = ran(it, loop, sectors.size, *words)
            told = f"ptab-run --device of ptab {words} with {sectors.size} bytes"
            it.same(told, (found, errors in said, said.endswith("ptab-run: done\n")), (status, True, status == 0 and words[0] == "edit"))
            it.same(f"{told}: show", it.run("show", "--device", loop.path), wanted)


def all_of(it, loop_of):
    for count in COUNTS:
        with loop_of(put(it.at("many"), bytes(many(count)))) as loop:
            loop.make_partitions()
            free(it, loop, count)
            used(it, loop, count)
            through_ptab_run(it, loop, count)
    for sectors in (SMALL, LARGE):
        by_itself(it, loop_of, sectors)
