"""What goes through the kernel's whole pages, on a drive with sectors of 512 bytes whose partitions begin and end in a page of the table.

- A neighbour writes its first and its last sector by its partition's node, while a command that has read the table writes it: both stay.
- The drive is asked to write the sectors of the plan, and none beside them.
- A sector that can't be read, and that no table uses, hinders nothing.

So it is by ptab-run and by the library. How it is by `ptab --device` alone, which opens devices as files, is told; and which sectors hinder
ptab-run, since the kernel reads them together with a table's. Then nothing is written.
"""
import os
import re
import signal
import subprocess
import sys
import time

import drives
from compared import content, same
from drives import SIZE
from images import SMALL, entry, guid
from tools import run

RUN = os.path.abspath(os.path.join(os.path.dirname(os.path.abspath(__file__)), "..", "..", "tools", "ptab-run"))
SECTORS = 1024
# the arrays are in sectors 2 to 33 and 991 to 1022
NEIGHBOURS = (1, 34), (2, 990)
PARTITIONS = {1: entry(34, 200), 2: entry(210, 990, unique=guid(2))}
WORDS = ["edit", "c:1:other"]
# sectors that can't be read: far from the table, in its pages or in those that the kernel reads ahead with them, and of the table
FAR, NEAR, USED = (500, 980), (36, 40, 988), 2


def commands(it, path):
    """The command lines of an edit, and the status where the image can't be read."""
    yield "ptab-run", [sys.executable, RUN, "--device", path, it.ptab, WORDS[0], "@", *WORDS[1:]], 125
    if it.example:
        yield "the library", [it.example, path, "device", *WORDS], 5


def alone(it, path):
    return [it.ptab, WORDS[0], "--device", path, *WORDS[1:]]


class Table:
    """A device with a table, again and again."""

    def __init__(self, it, place):
        self.it, self.place, self.image = it, place, bytes(SMALL.gpt(SECTORS, PARTITIONS))
        path = it.at("pages")
        with open(path, "wb") as file:
            file.write(self.image)
        plan = it.run(it.ptab, "plan", path, *WORDS[1:])[0]
        self.writes = sum(line.startswith("W ") for line in plan.splitlines())
        same("the edit on an image", it.run(it.ptab, WORDS[0], path, *WORDS[1:]), ("done\n", "", 0))
        self.new = content(path)

    def put(self):
        self.place.put(self.image)
        self.place.loop.make_partitions()

    def sector(self, lba):
        return self.place.on_medium()[lba * SIZE:(lba + 1) * SIZE]


def pattern(lba):
    return b"neighbour %d " % lba * 64


def neighbours_write(place):
    for number, lba in NEIGHBOURS:
        first = int.from_bytes(PARTITIONS[number][32:40], "little")
        file = os.open(f"{place.path}p{number}", os.O_WRONLY)
        try:
            os.pwrite(file, pattern(lba)[:SIZE], (lba - first) * SIZE)
            os.fsync(file)
        finally:
            os.close(file)


def stopped_in(it, words, place):
    """The status of a command during whose first write the neighbours write."""
    log = it.at("stopped")
    if os.path.exists(log):
        os.remove(log)
    child = subprocess.Popen(["strace", "-f", "-qq", "-o", log, "-P", place.path, "-e", "trace=pwrite64", "-e",
                              "inject=pwrite64:signal=SIGSTOP:when=1", *words],
                             stdin=subprocess.DEVNULL, stdout=subprocess.DEVNULL, stderr=subprocess.DEVNULL, env=it.where)
    last, seen = time.monotonic() + drives.SECONDS, 0
    while child.poll() is None and time.monotonic() < last:
        found = re.findall(r"^(\d+) +--- stopped by SIGSTOP ---$", content(log).decode() if os.path.exists(log) else "", re.MULTILINE)
        for process in found[seen:]:
            if seen == 0:
                neighbours_write(place)
            seen += 1
            os.kill(int(process), signal.SIGCONT)
        time.sleep(0.005)
    same(f"{words}: a write at which it stops", seen > 0, True)
    return child.wait(drives.SECONDS)


def kept(table):
    """How many of the neighbours' sectors are as they wrote them."""
    return sum(table.sector(lba) == pattern(lba)[:SIZE] for _, lba in NEIGHBOURS)


def neighbours(it, table):
    """How many neighbours lose their sector by ptab alone."""
    for name, words, _ in commands(it, table.place.path):
        table.put()
        same(f"{name} beside neighbours", stopped_in(it, words, table.place), 0)
        same(f"{name}: the neighbours' sectors", kept(table), len(NEIGHBOURS))
        same(f"{name} beside neighbours: the table", it.of(table.place.on_medium(), "show"), it.of(table.new, "show"))
        same(f"{name} beside neighbours: its health", it.of(table.place.on_medium(), "verify"), ("yes\n", "", 0))
    table.put()
    same("ptab beside neighbours", stopped_in(it, alone(it, table.place.path), table.place), 0)
    return len(NEIGHBOURS) - kept(table)


def written(it, table):
    """How many sectors the drive writes by ptab alone."""
    count = 0
    for name, words, _ in [*commands(it, table.place.path), ("ptab", alone(it, table.place.path), 5)]:
        table.put()
        before = table.place.drive.counts()[2]
        same(f"{name}: the edit", it.run(*words)[2], 0)
        count = table.place.drive.counts()[2] - before
        if name != "ptab":
            same(f"{name}: sectors written", count, table.writes)
        same(f"{name}: the medium", table.place.on_medium() == table.new, True)
    return count


def bad_sectors(it, table):
    """How often ptab alone, and ptab-run, can't read the table."""
    hindered = {"ptab": [], "ptab-run": []}
    for lba in (*FAR, *NEAR, USED):
        for name, words, status in commands(it, table.place.path):
            told = f"{name}: sector {lba} can't be read"
            harm(table, lba)
            same(f"{told}, as a test sees it", read_fails(table.place, lba), True)
            _, said, found = it.run(*words)
            if it.example:
                same(f"{told}: a verdict", it.verdict(table.place)[2], 5 if lba == USED else 0)
            table.place.drive.tell("heal")
            is_hindered = name == "ptab-run" and lba in NEAR and found == status
            hindered["ptab-run"] += [lba] * is_hindered
            same(f"{told}: {said}", found, status if lba == USED or is_hindered else 0)
            same(f"{told}: what is said", not is_hindered or str(lba) in said or "the old table or the new one" in said, True)
            same(f"{told}: the medium", table.place.on_medium() == (table.image if found else table.new), True)
        harm(table, lba)
        hindered["ptab"] += [lba] * (lba != USED and it.run(it.ptab, "verify", "--device", table.place.path)[2] != 0)
        table.place.drive.tell("heal")
    return hindered


def harm(table, lba):
    """A table of which nothing is cached, and a sector that can't be read."""
    table.put()
    table.place.drop_cache()
    table.place.drive.tell(f"read {lba}")


def read_fails(place, lba):
    done = run("dd", f"if={place.path}", "of=/dev/null", "iflag=direct", f"bs={SIZE}", f"skip={lba}", "count=1")
    return "Input/output error" in done.stderr


def all_of(it, program):
    """What is told of ptab alone."""
    with drives.Device(program, it.at("pages of a device"), SECTORS * SIZE) as place:
        table = Table(it, place)
        lost, count, hindered = neighbours(it, table), written(it, table), bad_sectors(it, table)
    return (f"by ptab --device alone {lost} of {len(NEIGHBOURS)} neighbours lose a sector, the drive writes {count} sectors for "
            f"{table.writes}, and of bad sectors beside the table {hindered['ptab']} hinder it, and {hindered['ptab-run']} ptab-run")
