#!/usr/bin/env python3
"""Tries `ptab --device` and `ptab-run --device` on loop devices with sectors of 512 and of 4096 bytes:

- every command, beside the same on an image with the same content: what it prints, its status, and the content afterwards;
- sgdisk and sfdisk on the same device: they tell what `ptab show` does, and what they write is shown;
- devices that are locked, mounted, swap space, held by another device, or read-only; a partition's node and a link to a node; what is no
  block device; and options that don't go with a device;
- devices with up to 128 partitions that the kernel knows, of which the last is in use or none is;
- some forty jobs of sgdisk, sfdisk, fdisk, parted and cgpt through ptab-run, beside the same on an image, and which partitions the kernel
  has afterwards;
- power cuts: every image that a stop among the writes to a device leaves has the old table or the new one;
- devices that go or fail while ptab or ptab-run writes them.

It needs root and loop devices. Where there are none it says so, and tries what needs none.

usage: tests/failures/devices.py PTAB
"""
import os
import random
import re
import shutil
import subprocess
import sys
import tempfile
import time

TESTS = os.path.dirname(os.path.dirname(os.path.abspath(__file__)))
sys.path[:0] = [f"{TESTS}/{it}" for it in ("shared", "rows", "peers")]
import devices_gone
import devices_many
import devices_runs
from compared import content, put
from images import LARGE, SMALL, entry, room
from loops import Loop, has_loops
from reads import EDITS, FRESH, gpts, mbrs
from tools import must, run
from writes import SYNCS, choices, traced, written

CALLS = ("openat", "write", "pwrite64", "ftruncate", *SYNCS)
DRAWN = os.urandom(128).hex()
# a GPT for `set`
TEXT = b"""{"partitiontable": {"label": "gpt", "partitions": [{"number": 3, "size": "64KiB", "type": "swap"}]}}"""
NOT_BLOCK = ("", "device: not a block device\n", 5)


class Tried:
    """The command, with what was compared counted."""

    def __init__(self, ptab, folder):
        self.ptab, self.folder, self.passed = ptab, folder, 0

    def same(self, what, found, wanted):
        self.passed += 1
        if found != wanted:
            sys.exit(f"devices: {what}:\n  found  {found}\n  wanted {wanted}")

    def run(self, command, *words, **more):
        done = subprocess.run([self.ptab, command, *words], stdin=subprocess.DEVNULL, capture_output=True, text=True, **more)
        return done.stdout, done.stderr, done.returncode

    def at(self, name):
        return f"{self.folder}/{name}"


# ---- each command beside the same on an image


def both(it, what, loop, image, command, *words):
    """A command on the device and on an image with that content; what both said."""
    loop.put(image)
    path = put(it.at("image"), image)
    size = ["--sector-size", str(loop.size)]
    wanted, found = it.run(command, *size, path, *words), it.run(command, "--device", loop.path, *words)
    it.same(f"{what}: {command} {words}", found, wanted)
    it.same(f"{what}: {command} {words}: the content", loop.content() == content(path), True)
    return wanted


def commands(it, sectors, what, image):
    """Every command on one table."""
    path = put(it.at("under"), bytes(image))
    with Loop(path, sectors.size) as loop:
        for words in (["show"], ["verify"], ["repair"], ["locate", "1", "0"], ["locate", "2", "5"], ["free"]):
            both(it, what, loop, image, *words)
        both(it, what, loop, image, "adopt", put(it.at("other"), sectors.gpt(sectors.count(image), {})))
        both(it, what, loop, image, "adopt", "--plan", put(it.at("other"), image))
        both(it, what, loop, image, "free", "--json")
        text = put(it.at("table"), TEXT)
        for words in (["set"], ["set", "--plan"], ["set", "--by-table"]):
            both(it, what, loop, image, *words, "--fresh", FRESH, text)
        for edits in EDITS:
            words = ["--fresh", FRESH, *edits.split()]
            plan, _, status = both(it, what, loop, image, "plan", *words)
            both(it, what, loop, image, "edit", *words)
            if status == 0:
                text = put(it.at("plan"), plan.encode())
                for command in ("check", "apply"):
                    both(it, what, loop, image, command, text)
                both(it, what, loop, image, "show", "--after", text)
        # the table of another device
        loop.put(image)
        with Loop(put(it.at("second"), sectors.gpt(sectors.count(image), {1: entry(100, 120)})), sectors.size) as second:
            image_path = put(it.at("image"), image)
            wanted = it.run("adopt", "--sector-size", str(sectors.size), image_path, second.image)
            it.same(f"{what}: adopt from a device", it.run("adopt", "--device", "--other-device", loop.path, second.path), wanted)
            it.same(f"{what}: adopt from a device: the content", loop.content() == content(image_path), True)


# ---- sgdisk and sfdisk on the same device


def places(lines):
    """The partitions' numbers and places in the lines of `ptab show`."""
    return [tuple(int(it) for it in line.split(" ")[:3]) for line in lines.splitlines()[1:]]


def by_sfdisk(path):
    told = must("sfdisk", "--dump", path)
    found = re.findall(rf"^{re.escape(path)}p?(\d+) : start= *(\d+), size= *(\d+)", told, re.MULTILINE)
    return [(int(number), int(start), int(start) + int(size) - 1) for number, start, size in found]


def beside_tools(it, size):
    """ptab and both tools by turns on one device."""
    path = it.at("turns")
    with open(path, "wb") as file:
        file.truncate(64 << 20)
    with Loop(path, size) as loop:
        def turn(what):
            shown = it.run("show", "--device", loop.path)
            it.same(f"{what}: show", (shown[1:], it.run("verify", "--device", loop.path)), (("", 0), ("yes\n", "", 0)))
            it.same(f"{what}: sfdisk", by_sfdisk(loop.path), places(shown[0]))
            checked = must("sgdisk", "--verify", loop.path) if shown[0].startswith("gpt") else "No problems found"
            it.same(f"{what}: sgdisk", "No problems found" in checked, True)

        def edit(*words):
            it.same(f"edit {words}", it.run("edit", "--device", loop.path, "--fresh", DRAWN, *words), ("done\n", "", 0))
            turn(f"edit {words}")

        edit("o", "n:1:2048:+2048:EF00", "c:1:boot", "n:2:0:0")
        must("sgdisk", "-d", "2", "-n", "3:8192:+512", "-t", "3:8e00", "-c", "3:data", loop.path)
        edit("c:3:kept", "A:3:60:1")
        run("sfdisk", "-q", "--no-reread", "--part-label", loop.path, "3", "by sfdisk")
        it.same("sfdisk's name", "by sfdisk" in it.run("show", "--device", loop.path)[0], True)
        edit("d:1")
        must("sgdisk", "--zap-all", loop.path)
        must("sfdisk", "-q", "--no-reread", loop.path, input="label: dos\n2048,512,83\n4096,4096,5\n4200,100,83\n")
        edit("d:1")
        edit("d:5")


# ---- devices that aren't opened


def told_in_use(it, loop, words, by):
    """A device that is in use is written only where that is allowed, and is always shown."""
    refused = ("", f"refused: in use: {by}\n", 3)
    for command in (["edit", "--device", *words, "c:1:x"], ["repair", "--device", *words]):
        it.same(f"{by}: {command}", it.run(*command), refused)
    before = loop.content()
    it.same(f"{by}: the content", it.run("show", "--device", *words)[1:], ("", 0))
    it.same(f"{by}: --no-lock", it.run("edit", "--device", "--no-lock", *words, "c:1:x"), refused)
    it.same(f"{by}: nothing is written", loop.content() == before, True)
    it.same(f"{by}: --in-use", it.run("repair", "--device", "--in-use", *words), ("done\n", "", 0))


def in_use(it, path):
    """Mounted, swap space, held."""
    must("sgdisk", "-n", "1:2048:+8M", "-n", "2:0:+8M", path)
    with Loop(path) as loop:
        first, second = loop.make_partitions()
        place = it.at("place")
        os.mkdir(place)
        must("mke2fs", "-q", "-F", first)
        must("mount", first, place)
        # what mounting changed would else be written at any time
        must("sync", "--file-system", place)
        try:
            told_in_use(it, loop, [loop.path], f"{first} is mounted on {place}")
            it.same("the other partition", it.run("repair", "--device", second)[1:], ("no table: copies 1 1\n", 4))
            done = run(sys.executable, devices_runs.RUN, "--device", loop.path, "sgdisk", "-c", "1:x", "@", input="")
            it.same("ptab-run", (done.returncode, "it is in use, or a partition of it" in done.stderr), (123, True))
            # in a namespace where it isn't mounted
            words = ["unshare", "-m", "sh", "-c", f'umount {place}; exec "$0" "$@"', sys.executable, devices_runs.RUN]
            done = run(*words, "--device", loop.path, "sgdisk", "-c", "1:x", "@", input="")
            it.same("ptab-run in another namespace", (done.returncode, "it is in use" in done.stderr), (123, True))
        finally:
            must("umount", place)
        must("mkswap", second)
        if run("swapon", second).returncode == 0:
            try:
                told_in_use(it, loop, [loop.path], f"{second} is swap")
            finally:
                must("swapoff", second)
        os.makedirs(it.at("holders/dm-7"))
        for part, by in ((f"{loop.name}p1", f"{loop.name}p1 is held by dm-7"), ("", "held by dm-7")):
            at = f"/sys/block/{loop.name}/{part}/holders"
            held = ["unshare", "-m", "sh", "-c", f'mount --bind {it.at("holders")} {at} && exec "$0" "$@"', it.ptab]
            done = run(*held, "edit", "--device", loop.path, "c:1:x")
            it.same(by, (done.stdout, done.stderr, done.returncode), ("", f"refused: in use: {by}\n", 3))
        it.same("in the end", it.run("edit", "--device", loop.path, "c:1:x"), ("done\n", "", 0))


def other_nodes(it, path):
    """A link, a table within a partition, a lock, another sector size, a device that can't be written."""
    must("sgdisk", "-o", "-n", "1:2048:+8M", path)
    with Loop(path) as loop:
        link, edit = it.at("link"), ["c:1:x"]
        os.symlink(loop.path, link)
        it.same("a link", it.run("edit", "--device", link, *edit), ("done\n", "", 0))
        it.same("without the option", it.run("show", loop.path), ("", "device\n", 5))
        it.same("the same size", it.run("show", "--device", "--sector-size", "512", loop.path)[1:], ("", 0))
        it.same("another size", it.run("show", "--device", "--sector-size", "4096", loop.path)[::2], ("", 2))
        part, = loop.make_partitions()
        it.same("within a partition", it.run("edit", "--device", part, "--fresh", DRAWN, "a:1", "o", "n:1:64:0"), ("done\n", "", 0))
        it.same("what is in it", it.run("show", "--device", part)[0].splitlines()[1].split(" ")[:2], ["1", "64"])
        for words in (["edit", "--device", loop.path, *edit], ["repair", "--device", loop.path]):
            done = run("flock", loop.path, it.ptab, *words)
            it.same("locked", (done.stdout, done.stderr, done.returncode), ("", "refused: locked\n", 3))
            done = run("flock", loop.path, it.ptab, words[0], "--no-lock", *words[1:])
            it.same("the caller's lock", (done.stdout, done.stderr, done.returncode), ("done\n", "", 0))
        it.same("locked, and shown", run("flock", loop.path, it.ptab, "show", "--device", loop.path).returncode, 0)
    with Loop(path, 512, "--read-only") as loop:
        it.same("read-only", it.run("edit", "--device", loop.path, "c:1:other"), ("", "device\n", 5))
        it.same("read-only, and shown", it.run("show", "--device", loop.path)[1:], ("", 0))
    with Loop(path, 4096) as loop:
        it.same("another size", it.run("show", "--device", "--sector-size", "512", loop.path)[::2], ("", 2))


def killed(it, path):
    """Where ptab-run is killed while the tool is at work, no loop device over its copy stays."""
    with Loop(path, 4096) as loop:
        words = ["sh", "-c", "kill -9 $PPID; sleep 0.3", "sh", "@"]
        done = run_kept(it, devices_runs.RUN, "--device", loop.path, *words)
        it.same("a run that was killed", done.returncode, -9)
        time.sleep(1)
        # other scripts run beside this one, and have loop devices of their own
        it.same("loop devices of the run", [line for line in run("losetup", "--list").stdout.splitlines() if it.at("kept") in line], [])
        shutil.rmtree(it.at("kept"))


def run_kept(it, *words):
    os.mkdir(it.at("kept"))
    return subprocess.run([sys.executable, *words], env={**os.environ, "PTAB": it.ptab, "TMPDIR": it.at("kept")}, input="", text=True,
                          capture_output=True)


def no_devices(it):
    """What is no block device. This needs no root."""
    path = put(it.at("plain"), SMALL.gpt(2048, {1: entry(100, 200)}))
    plan = put(it.at("plan"), b"")
    for command, *words in (["show"], ["show", "--json"], ["verify"], ["locate", "1", "0"], ["free"], ["plan", "d:1"], ["edit", "d:1"],
                            ["check", plan], ["apply", plan], ["repair"], ["adopt", path], ["set", put(it.at("table"), TEXT)]):
        for place in (path, "/dev/null", it.folder):
            it.same(f"{command} of {place}", it.run(command, "--device", place, *words), NOT_BLOCK)
        it.same(f"{command} of nothing", it.run(command, "--device", it.at("nothing"), *words), ("", "device\n", 5))
        it.same(f"{command} --in-use", it.run(command, "--in-use", path, *words)[::2], ("", 2))
    for place in (path, "/dev/null"):
        done = run(sys.executable, devices_runs.RUN, "--device", place, "true", "@", input="")
        it.same(f"ptab-run on {place}", (done.returncode, done.stderr), (125, f"ptab-run: {place}: not a block device\n"))
    it.same("nothing is written", content(path), bytes(SMALL.gpt(2048, {1: entry(100, 200)})))


# ---- power cuts


def cut(it, sectors, what, image, edits):
    """An edit on a device, stopped in each of its phases."""
    rng, words = random.Random(edits), ["--fresh", FRESH, *edits.split()]
    path, size = it.at("stopped"), ["--sector-size", str(sectors.size)]
    with Loop(put(it.at("under"), bytes(image)), sectors.size) as loop:
        done, phases = traced([it.ptab, "edit", "--device", loop.path, *words], loop.path, sectors, CALLS, it.at("calls"))
        it.same(f"{what}: {edits}", (done.stdout, done.stderr, done.returncode), ("done\n", "", 0))
        after = loop.content()

    def shown(content_of):
        return it.run("show", *size, put(path, content_of))

    old, new, before = shown(image), shown(after), bytes(image)
    for phase in phases:
        for writes in choices(rng, phase):
            found = shown(written(before, writes, sectors))
            it.same(f"{what}: {edits}: stopped by {[lba for lba, _ in writes]}", found in (old, new), True)
        before = bytes(written(before, phase, sectors))
    it.same(f"{what}: {edits}: all writes", before == after, True)


def on_loops(it):
    for sectors in (SMALL, LARGE):
        tables = [*gpts(sectors), *mbrs(sectors)]
        for what, image, done in tables:
            commands(it, sectors, what, image)
        for what, image, done in tables:
            for edits in done if sectors is SMALL else [edits for edits in done if "." not in edits]:
                cut(it, sectors, what, image, edits)
        beside_tools(it, sectors.size)
    for look in (in_use, other_nodes, killed):
        path = it.at("disk.img")
        with open(path, "wb") as file:
            file.truncate(64 << 20)
        look(it, path)
        os.remove(path)


def main():
    if len(sys.argv) != 2:
        sys.exit("usage: tests/failures/devices.py PTAB")
    ptab = os.path.abspath(sys.argv[1])
    with room() as folder, tempfile.TemporaryDirectory() as place:
        it = Tried(ptab, folder)
        no_devices(it)
        if not has_loops(folder):
            print(f"devices: no loop devices here, or no root: {it.passed} passed without any, 0 failed")
            return
        on_loops(it)
        devices_many.all_of(it, Loop)
        gone = devices_gone.all_of(it, Loop)
        jobs = devices_runs.all_of(ptab, Loop, place)
        print(f"devices: {it.passed} passed, 0 failed; {gone} went or failed in the middle; {jobs} jobs of other tools on devices are as "
              "on images, 0 failed")


if __name__ == "__main__":
    main()
