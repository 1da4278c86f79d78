#!/usr/bin/env python3
"""Partition tools under their own names, as install.sh puts them into lib/ptab/safe, before others in the path:

- which calls only read, of every tool; these are the real tool's, also where the disk is locked or in use;
- calls that write: status, output and table are the tool's on a plain copy, on images and on devices, with root and without;
- what is refused has a sentence, the tool's failing status, and leaves the disk as it was;
- growpart on a device whose partition is mounted, with the lock that it holds, and a script of several tools.

usage: tests/peers/safe_tools.py PTAB
"""
import fcntl
import os
import re
import shutil
import subprocess
import sys
from concurrent.futures import ThreadPoolExecutor

TESTS = os.path.dirname(os.path.dirname(os.path.abspath(__file__)))
TOP = os.path.dirname(TESTS)
sys.path[:0] = [f"{TOP}/tools", f"{TESTS}/shared", f"{TESTS}/failures"]
sys.dont_write_bytecode = True
import compared
import other_tools_jobs
from compared import content, same
from devices_runs import wanted_parts
from images import room
from loops import Loop, has_loops, parts_of
from other_tools import GUID, views, without_drawn
from ptab_run.words import reads
from tools import ENVIRONMENT, must, run

NAMES = ("sgdisk", "sfdisk", "parted", "fdisk", "gdisk", "cfdisk", "cgpt", "growpart")
NOBODY = 65534
READING = (
    "sfdisk -l D", "sfdisk -d D", "sfdisk -J D", "sfdisk --dump --unit=S D", "sfdisk --list --unit=S D", "sfdisk -F D", "sfdisk -V D",
    "sfdisk -s D", "sfdisk -n D", "sfdisk -n -N 1 D", "sfdisk --part-type D 1", "sfdisk --part-label D 1", "sfdisk --disk-id D",
    "sfdisk -A D", "sfdisk -q -l D", "sfdisk --version", "sgdisk -p D", "sgdisk -p -i 1 D", "sgdisk -pv D", "sgdisk -P -o D",
    "sgdisk --pretend --zap D", "sgdisk -A list D", "sgdisk -A 1:show D", "sgdisk -D -E -f -F -O D", "sgdisk --print D",
    "sgdisk -b FILE D", "sgdisk -V", "parted -s D print", "parted -s D unit s print free", "parted -sm D u s p",
    "parted -s -a none D print", "parted -s D align-check opt 1", "parted -l", "fdisk -l D", "fdisk -x D", "fdisk -b 4096 -l D",
    "fdisk -c=dos -l D", "gdisk -l D", "cfdisk --version", "cgpt show D", "cgpt show -i 1 D", "cgpt find -t data D")
WRITING = (
    "sfdisk D", "sfdisk --delete D", "sfdisk --delete D 1", "sfdisk -N 1 D", "sfdisk --part-type D 1 L", "sfdisk --disk-id D 1",
    "sfdisk -A D 1", "sfdisk -l --delete D", "sfdisk --relocate gpt-bak-std D", "sfdisk -r D", "sfdisk -a D", "sgdisk -og D",
    "sgdisk -n1:0:0 D", "sgdisk -e D", "sgdisk -i1 -e D", "sgdisk -A 1:set:2 D", "sgdisk -l FILE D", "sgdisk -Z D", "sgdisk D",
    "parted -s D rm 1", "parted D", "parted -s -f D print", "parted -s D mklabel gpt print", "fdisk D", "fdisk -c=dos D",
    "fdisk -u=sectors D", "gdisk D", "cfdisk D", "cfdisk -L=always D", "cgpt add -i 1 -t data D", "cgpt repair D", "cgpt create D")
# calls on a GPT of two partitions, with the lines that they read
CALLS = (
    ("sgdisk -t 1:ef02 -c 2:x D", ""), ("sgdisk -Z -o -n 1:2048:4095 D", ""), ("sgdisk -t 9:8e00 D", ""), ("sgdisk -i 1 D", ""),
    ("sfdisk --delete D 2", ""), ("sfdisk -N 2 D", ", +\n"), ("sfdisk -q --append D", ",1M\n"), ("sfdisk -N 7 D", ",1M\n"),
    ("sfdisk -d D", ""), ("parted -s D name 2 archive", ""), ("parted -s D rm 7", ""), ("parted -s D unit s print", ""),
    ("fdisk D", "t\n2\n30\nw\n"), ("fdisk D", "p\nq\n"), ("gdisk D", "c\n2\nnew\nw\ny\n"), ("cgpt add -i 1 -t kernel -P 3 D", ""),
    ("cgpt add -i 500 -t data D", ""), ("growpart D 2", ""), ("growpart --dry-run D 2", ""), ("growpart D 9", ""))
REFUSED = (
    ("sgdisk -Z D", 4, "(the tool left no table that ptab reads)"), ("sgdisk -j 40 D", 4, "--lossy goes on without that"),
    ("sfdisk --move-data -N 2 D", 1, "its copy doesn't hold the data that sfdisk is to move"),
    ("cgpt legacy D", 1, "(the tool left no table that ptab reads)"),
    ("parted -s D disk_set pmbr_boot on", 1, "--lossy goes on without that"))


class Safe:
    """The tools in a folder as they are installed."""

    def __init__(self, ptab, folder):
        self.ptab, self.folder, self.safe = ptab, folder, f"{folder}/lib/ptab/safe"
        os.makedirs(self.safe)
        os.mkdir(f"{folder}/bin")
        os.mkdir(f"{folder}/left")
        shutil.copytree(f"{TOP}/tools/ptab_run", f"{folder}/lib/ptab/ptab_run")
        shutil.copy(ptab, f"{folder}/bin/ptab")
        for name in NAMES:
            shutil.copy(f"{TOP}/tools/safe/tool", f"{self.safe}/{name}")
        known = {key: value for key, value in ENVIRONMENT.items() if key != "PTAB"}
        self.plain = {**known, "PATH": f"{ENVIRONMENT['PATH']}:/usr/sbin:/sbin", "TMPDIR": f"{folder}/left"}
        self.where = {**self.plain, "PATH": f"{self.safe}:{self.plain['PATH']}"}

    def disk(self, name, kind="gpt"):
        os.makedirs(f"{self.folder}/{name}", exist_ok=True)
        path = f"{self.folder}/{name}/disk.img"
        other_tools_jobs.make(kind, path)
        return path

    def do(self, call, path, lines="", where=None, alone=()):
        """The output of a call, its lines of ours, its status."""
        words = [{"D": path, "FILE": f"{self.folder}/file"}.get(it, it) for it in call.split()]
        done = subprocess.run([*alone, *words], input=lines, capture_output=True, text=True, env=where or self.where, cwd=self.folder)
        same(f"{call}: what is left", os.listdir(f"{self.folder}/left"), [])
        ours = [it for it in done.stderr.splitlines() if it.startswith("ptab-run: ")]
        told = done.stdout + "".join(it for it in done.stderr.splitlines(True) if not it.startswith("ptab-run: "))
        return re.sub(r"/dev/loop\d+|/\S*disk\.img", "DISK", told), ours, done.returncode

    def show(self, path):
        return run(self.ptab, "show", path).stdout


def told_apart():
    for calls, wanted in ((READING, True), (WRITING, False)):
        for call in calls:
            name, *words = call.split()
            same(f"{call} only reads", bool(reads(name, words, False)), wanted)
    same("parted that may ask", bool(reads("parted", ["D", "print"], True)), False)


def looks(it):
    """What only reads is the real tool's, which waits for no lock."""
    path = it.disk("looked")
    with open(path, "rb") as held:
        fcntl.flock(held, fcntl.LOCK_EX)
        for call in ("sfdisk -d D", "sgdisk -p D", "parted -s D print", "fdisk -l D", "gdisk -l D", "cgpt show D"):
            same(call, it.do(call, path), it.do(call, path, where=it.plain))


def as_alone(it, loop=None):
    """Each call beside the same call of the tool alone on another disk; side by side, since sgdisk sleeps where it has written."""
    with ThreadPoolExecutor(4) as pool:
        for number, done in enumerate([pool.submit(beside, it, f"{it.folder}/{number}", loop, *call) for number, call in enumerate(CALLS)]):
            done.result()
            shutil.rmtree(f"{it.folder}/{number}")


def beside(it, folder, loop, call, lines):
    os.mkdir(folder)
    it = Safe(it.ptab, folder)
    ours, bare = it.disk("ours"), it.disk("bare")
    known = {found.lower() for found in re.findall(GUID, it.show(ours) + call)}
    if loop is None:
        found, wanted = it.do(call, ours, lines), it.do(call, bare, lines, it.plain)
    else:
        with loop(ours) as one, loop(bare) as two:
            for device in (one, two):
                device.make_partitions()
            found, wanted = it.do(call, one.path, lines), it.do(call, two.path, lines, it.plain)
            one.content(), two.content()
            same(f"{call}: the kernel's partitions", parts_of(one.path), wanted_parts(it.show(ours), 512))
    # columns are as wide as the device's name
    text, plain = (sorted(" ".join(line.split()) for line in without_drawn(out, known).splitlines()) for out in (found[0], wanted[0]))
    same(f"{call}: output and status", (text, found[1:]), (plain, ([], wanted[2])))
    theirs = views(bare, "gpt", 512)
    for tool, view in views(ours, "gpt", 512).items():
        same(f"{call}: {tool}", without_drawn(str(view), known), without_drawn(str(theirs[tool]), known))


def refusals(it):
    for call, status, part in REFUSED:
        path = it.disk("refused")
        before = content(path)
        _, lines, found = it.do(call, path)
        same(f"{call}: {lines}", (found, part in "".join(lines[-1:]), content(path) == before), (status, True, True))
    path = it.disk("large", "gpt 4096")
    same("fdisk -b 4096", it.do("fdisk -b 4096 D", path, "x\nn\n2\nroot\nr\nw\n")[1:], ([], 0))
    same("parted with 4096", it.do("parted -s D name 1 first", path, where={**it.where, "PARTED_SECTOR_SIZE": "4096"})[1:], ([], 0))
    shown = run(it.ptab, "show", "--sector-size", "4096", path).stdout
    same("an image with 4096 bytes a sector", [line.split()[-1] for line in shown.splitlines()[1:]], ["first", "root"])
    path = it.disk("refused")
    with open(path, "rb") as held:
        # by another program's lock it would be refused; this test is a caller
        fcntl.flock(held, fcntl.LOCK_EX)
        same("a caller's lock", it.do("sgdisk -c 1:x D", path)[1:], ([], 0))
    same("options of ptab-run", it.do("parted -s D disk_set pmbr_boot on", path, where={**it.where, "PTAB_SAFE_OPTIONS": "--lossy"})[1:],
         (["ptab-run: not taken over: the boot flag of the protective record"], 0))
    same("--data", it.do("sgdisk -c 1:y D", path, where={**it.where, "PTAB_SAFE_OPTIONS": "--data --data-limit=10M"})[1:], ([], 0))
    bare = {**it.where, "PATH": it.safe}
    os.mkdir(f"{it.folder}/empty")
    same("a path without others", it.do(f"{it.safe}/sfdisk -q --part-label D 1 new", path, where=bare)[1:], ([], 0))
    done = subprocess.run([f"{it.safe}/sgdisk"], capture_output=True, text=True, env=it.where)
    alone = subprocess.run(["sgdisk"], capture_output=True, text=True, env=it.plain)
    same("no disk", (done.stdout, done.stderr, done.returncode), (alone.stdout, alone.stderr, alone.returncode))
    other, source = it.disk("target", "blank"), it.disk("source")
    before = content(source)
    same("sgdisk -R", (it.do(f"sgdisk -R {other} D", source)[1:], it.show(other).splitlines()[1:], content(source) == before),
         (([], 0), it.show(source).splitlines()[1:], True))


def as_nobody(it):
    """Without root, by a user namespace or by `@`."""
    path = it.disk("nobodys")
    for place in (it.folder, os.path.dirname(path), path, f"{it.folder}/left"):
        os.chown(place, NOBODY, NOBODY)
    os.chmod(it.folder, 0o755)
    alone = ("setpriv", f"--reuid={NOBODY}", f"--regid={NOBODY}", "--clear-groups")
    same("nobody", it.do("sfdisk -q --part-label D 1 nobodys", path, alone=alone)[1:], ([], 0))
    same("its table", it.show(path).splitlines()[1].split()[-1], "nobodys")
    # before others in the path stands an unshare that can't
    os.mkdir(f"{it.folder}/broken")
    with open(f"{it.folder}/broken/unshare", "w", encoding="ascii") as file:
        file.write("#!/bin/sh\nexit 1\n")
    os.chmod(f"{it.folder}/broken/unshare", 0o755)
    where = {**it.where, "PATH": f"{it.safe}:{it.folder}/broken:{it.plain['PATH']}"}
    same("by @", it.do("sfdisk -q --part-label D 1 copys", path, where=where)[1:], ([], 0))
    same("its table, by @", it.show(path).splitlines()[1].split()[-1], "copys")


def in_use(it):
    """A disk with a mounted partition: growpart and `sfdisk --no-reread` go on, others are refused."""
    path, place = it.disk("used"), f"{it.folder}/mounted"
    os.mkdir(place)
    with Loop(path) as loop:
        loop.make_partitions()
        must("mke2fs", "-q", "-t", "ext2", f"{loop.path}p2")
        must("mount", f"{loop.path}p2", place)
        try:
            for call, status in (("sgdisk -c 1:x D", 4), ("sfdisk -q --part-label D 1 x", 1), ("parted -s D name 1 x", 1)):
                _, lines, found = it.do(call, loop.path)
                same(f"{call} in use: {lines}", ("it is in use, or a partition of it" in "".join(lines), found), (True, status))
            same("a look", it.do("parted -s D print", loop.path)[1:], ([], 0))
            same("sfdisk --no-reread", it.do("sfdisk -q --no-reread --part-label D 1 x", loop.path)[1:], ([], 0))
            same("the variable", it.do("sgdisk -c 1:y D", loop.path, where={**it.where, "PTAB_SAFE_OPTIONS": "--in-use"})[1:], ([], 0))
            for number, resizer in enumerate(("sfdisk", "sgdisk")):
                if number:
                    must("umount", place)
                    must("sfdisk", "-q", "--no-reread", "-N", "2", loop.path, input=",4096\n")
                    loop.make_partitions()
                    must("mount", f"{loop.path}p2", place)
                out, lines, status = it.do("growpart D 2", loop.path, where={**it.where, "GROWPART_RESIZER": resizer})
                same(f"growpart by {resizer}: {out}", (out.startswith("CHANGED: partition=2 start=4096 "), lines, status), (True, [], 0))
                same(f"growpart by {resizer}: the kernel's", parts_of(loop.path)[2][0], 4096)
                same(f"growpart by {resizer}: verify", must(it.ptab, "verify", "--device", loop.path), "yes\n")
        finally:
            run("umount", place)


def main():
    if len(sys.argv) != 2:
        sys.exit("usage: tests/peers/safe_tools.py PTAB")
    ptab, devices = os.path.abspath(sys.argv[1]), ""
    told_apart()
    parts = [looks, as_alone, refusals, *([as_nobody] if os.geteuid() == 0 else [])]
    with room() as folder:
        if has_loops(folder):
            parts += [lambda it: as_alone(it, Loop), in_use]
        else:
            devices = "; no loop devices here, or no root"
    for part in parts:
        with room() as folder:
            part(Safe(ptab, folder))
    print(f"safe tools: {compared.count} passed, 0 failed{devices}")


if __name__ == "__main__":
    main()
