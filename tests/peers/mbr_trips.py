#!/usr/bin/env python3
"""Takes MBRs as text there and back: images of sfdisk and parted, with primary and logical partitions of many types, and marked ones.

  - The image takes its own text, and no byte of it changes.
  - A blank image of the same size takes the text, and so does one with a GPT: both are healthy then and show the same, and sfdisk reads the
    same partitions as on the image. The blank one has the same sectors then, but for boot code, signature and CHS numbers.
  - So it is with what `sfdisk --json` prints of the image, but for the sectors of boot records.
  - The text is edited by jq: a type, the mark of the one to be booted, a size, a partition less and one more. sfdisk then reads what it
    reads after its own commands for that.

usage: tests/peers/mbr_trips.py PTAB [COUNT]
"""
import json
import os
import random
import subprocess
import sys
from concurrent.futures import ProcessPoolExecutor

sys.path.insert(0, os.path.join(os.path.dirname(os.path.abspath(__file__)), "..", "shared"))
import compared
from compared import content, put, same
from images import SMALL, as_layout, room
from tools import must

COUNT = 64 * 2048
MIB = 2048
TYPES = ("83", "82", "c", "7", "8e", "ef", "b", "fd", "1", "a6")


def by_sfdisk(path, rng):
    """One to three primary partitions, and mostly an extended one with up to six in it."""
    lines, at = [f"label: dos\nlabel-id: 0x{rng.randrange(1, 2 ** 32):08x}"], rng.choice((1, 63, MIB))
    marked = rng.randrange(4)
    for k in range(rng.randrange(1, 4)):
        size = rng.choice((1, 77, 4096, 3 * MIB))
        lines.append(f"start={at}, size={size}, type={rng.choice(TYPES)}" + (", bootable" if k == marked else ""))
        at += size + rng.choice((0, 1, MIB))
    if rng.randrange(5):
        first = at + rng.choice((0, 5, MIB))
        lines.append(f"start={first}, size={COUNT - first - rng.choice((0, 9 * MIB))}, type={rng.choice('5f')}")
        for k in range(5, 5 + rng.randrange(7)):
            lines.append(f"{path}{k} : size={rng.choice((1, 100, 4096, 2 * MIB))}, type={rng.choice(TYPES)}")
    must("sfdisk", "-q", path, input="\n".join(lines) + "\n")


def by_parted(path, rng):
    """Partitions at whole MiB, and its boot code."""
    words, at = ["mklabel", "msdos"], 1
    for kind in ("primary", "primary", "extended"):
        size = 30 if kind == "extended" else rng.randrange(1, 6)
        words += ["mkpart", kind, *(["ext4"] if kind != "extended" else []), f"{at}MiB", f"{at + size}MiB"]
        at += size
    at -= 29
    for _ in range(rng.randrange(5)):
        words += ["mkpart", "logical", rng.choice(("ext4", "linux-swap", "fat32")), f"{at}MiB", f"{at + 3}MiB"]
        at += rng.choice((4, 5))
    must("parted", "-s", "-a", "none", path, *words, *(["set", "1", "boot", "on"] if rng.randrange(2) else []))


def table(text):
    return json.loads(text)["partitiontable"]


class Trip:
    """One image, and its way there and back."""

    def __init__(self, ptab, folder, seed):
        self.ptab, self.path, rng = ptab, f"{folder}/disk.img", random.Random(seed)
        put(self.path, bytes(SMALL.zeros(COUNT)))
        maker = by_parted if seed % 3 == 2 else by_sfdisk
        maker(self.path, rng)
        self.what, self.rng, self.image = f"seed {seed}, {maker.__name__}", rng, content(self.path)
        self.text, self.theirs = must(ptab, "show", "--json", self.path), must("sfdisk", "--json", self.path)

    def read(self):
        """What sfdisk reads, but for the disk's signature."""
        return table(must("sfdisk", "--json", self.path)).get("partitions", [])

    def take(self, what, text):
        done = subprocess.run([self.ptab, "set", self.path, "-"], input=text, capture_output=True, text=True)
        same(f"{self.what}: {what}", (done.stdout, done.stderr, done.returncode), ("done\n", "", 0))
        same(f"{self.what}: {what}: verify", must(self.ptab, "verify", self.path), "yes\n")

    def there_and_back(self):
        self.take("its own text", self.text)
        same(f"{self.what}: the image of its own text", content(self.path) == self.image, True)
        for other, image in (("a blank image", SMALL.zeros(COUNT)), ("a GPT", SMALL.gpt(COUNT, {}))):
            put(self.path, bytes(image))
            self.take(f"its text on {other}", self.text)
            same(f"{self.what}: {other} shows", must(self.ptab, "show", "--json", self.path), self.text)
            if not any(image):
                chain = table(self.text).get("chain", ())
                same(f"{self.what}: its sectors", as_layout(content(self.path), chain) == as_layout(self.image, chain), True)
            same(f"{self.what}: sfdisk on {other}", self.read(), table(self.theirs).get("partitions", []))
            left = content(self.path)
            self.take(f"its text on {other} once more", self.text)
            same(f"{self.what}: {other} once more", content(self.path) == left, True)
            put(self.path, bytes(image))
            self.take(f"sfdisk's text on {other}", self.theirs)
            same(f"{self.what}: sfdisk's partitions on {other}", self.read(), table(self.theirs).get("partitions", []))

    def edited(self, what, program, *command, text=None):
        """The text as jq changes it, and what sfdisk's own command does."""
        put(self.path, self.image)
        must("sfdisk", "-q", "--no-reread", *command, input=text)
        wanted = self.read()
        put(self.path, self.image)
        self.take(what, must("jq", program, input=self.text))
        same(f"{self.what}: {what}: sfdisk's partitions", self.read(), wanted)

    def edits(self):
        parts = [it for it in table(self.text)["partitions"] if it["type"] not in ("5", "f")]
        primary, last = next(it for it in parts if it["number"] < 5), parts[-1]
        for it in {primary["number"]: primary, last["number"]: last}.values():
            number, size = it["number"], max(1, it["size"] // 2)
            one = f".partitiontable.partitions[] | select(.number == {number})"
            self.edited(f"type of {number}", f'({one}) |= (.type = "7" | del(.type_name, .bsd))', "--part-type", self.path, str(number),
                        "7")
            self.edited(f"size of {number}", f"({one}) |= (.size = {size} | del(.bsd))", "-N", str(number), self.path,
                        text=f"{it['start']},{size}\n")
            self.edited(f"without {number}", f"del({one})", "--delete", self.path, str(number))
        self.edited("the mark", ".partitiontable.partitions |= map(del(.bootable)) | "
                    f"(.partitiontable.partitions[] | select(.number == {primary['number']})) |= (.bootable = true)",
                    "--activate", self.path, str(primary["number"]))
        end = max(it["start"] + it["size"] for it in table(self.text)["partitions"])
        if end < COUNT and len([it for it in table(self.text)["partitions"] if it["number"] < 5]) < 4:
            self.edited("one more", f'.partitiontable.partitions += [{{"start": {end}, "size": 5, "type": "b"}}]', "--append", self.path,
                        text=f"{end},5,b\n")


def run(ptab, seed):
    compared.count = 0
    with room() as folder:
        trip = Trip(ptab, folder, seed)
        trip.there_and_back()
        trip.edits()
    return compared.count


def main():
    count = int(sys.argv[2]) if len(sys.argv) > 2 else 30
    with ProcessPoolExecutor() as pool:
        done = [pool.submit(run, os.path.abspath(sys.argv[1]), seed) for seed in range(count)]
        print(f"MBRs there and back: {sum(it.result() for it in done)} passed, 0 failed, on {count} images")


if __name__ == "__main__":
    main()
