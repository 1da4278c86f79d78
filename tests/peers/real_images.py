#!/usr/bin/env python3
"""Shows and verifies images that sgdisk, sfdisk, fdisk and parted made, with both sector sizes, and compares with what those
tools say; renames partitions on the GPTs among them.

usage: tests/peers/real_images.py PTAB
"""
import os
import sys
import tempfile

sys.path.insert(0, os.path.join(os.path.dirname(os.path.abspath(__file__)), "..", "shared"))
import compared
from compared import same
from tools import by_fdisk, by_parted, by_sfdisk, by_sgdisk, fdisk, labels_by_fdisk, must, parted, run

MIB = 1 << 20
NO_SGDISK_RECORD = "no 6 protective record\n"


class Image:
    """An image with sectors of `size` bytes, and what the command says of it."""

    def __init__(self, ptab, folder, name, length, size=512):
        self.ptab = ptab
        self.path = f"{folder}/{name}.img"
        self.size = size
        with open(self.path, "wb") as it:
            it.truncate(length)

    def run(self, command, *words):
        return run(self.ptab, command, "--sector-size", str(self.size), self.path, *words)

    def shown(self):
        done = self.run("show")
        same(f"status of show {self.path}: {done.stderr}", done.returncode, 0)
        return done.stdout.splitlines()

    def verifies(self, wanted):
        same(f"verify {self.path}", self.run("verify").stdout, wanted)


def fields(line):
    """(number, first, last, name) of a shown partition line."""
    words = line.split(" ", 6)
    return (words[0], words[1], words[2], words[6] if len(words) == 7 else "")


def without_names(lines):
    """The lines of a GPT without attributes and names."""
    return [lines[0]] + [" ".join(line.split(" ")[:4] + line.split(" ")[5:6]) for line in lines[1:]]


def compare_gpt(image):
    lines = image.shown()
    same(f"fdisk on {image.path}", without_names(lines), by_fdisk(image.path, image.size))
    same(f"parted on {image.path}", [fields(line) for line in lines[1:]], by_parted(image.path, image.size))
    if image.size != 512:
        return lines
    same(f"sfdisk on {image.path}", lines, by_sfdisk(image.path))
    for line in lines[1:]:
        words = line.split(" ", 6)
        told = by_sgdisk(image.path, words[0])
        same("first sector by sgdisk", told["First sector"].split(" ")[0], words[1])
        same("last sector by sgdisk", told["Last sector"].split(" ")[0], words[2])
        same("attributes by sgdisk", told["Attribute flags"].lower(), words[4])
        same("unique GUID by sgdisk", told["Partition unique GUID"].lower(), words[5])
        same("name by sgdisk", told["Partition name"], f"'{words[6] if len(words) == 7 else ''}'")
    return lines


def compare_mbr(image):
    """The lines; parted tells primaries and logicals by number, as the command does."""
    lines = [line for line in image.shown() if "." not in line]
    same(f"fdisk on {image.path}", lines, by_fdisk(image.path, image.size))
    if image.size == 512:
        same(f"sfdisk on {image.path}", lines, by_sfdisk(image.path))
    same(f"parted on {image.path}", [tuple(line.split(" ")[:3]) for line in lines[1:]],
         [part[:3] for part in by_parted(image.path, image.size)])
    return lines


def locate_ends(image, lines):
    """The first and the last sector of each partition but containers, and the one after it."""
    for line in lines[1:]:
        number, first, last, kind = line.split(" ")[:4]
        if kind in ("05", "0F") or image.size == 512 and kind in ("A5", "A500"):
            same(f"locate {line}", image.run("locate", number, "0").stdout, "none\n")
            continue
        length = int(last) - int(first) + 1
        for k, wanted in ((0, first), (length - 1, last), (length, "none")):
            same(f"locate {line}, {k}", image.run("locate", number, str(k)).stdout, f"{wanted}\n")


def gpt_images(ptab, folder):
    """(an image, what verify says of it at first)."""
    image = Image(ptab, folder, "sgdisk", 64 * MIB)
    must("sgdisk", "-n", "1:2048:+10M", "-t", "1:ef00", "-c", "1:boot", "-n", "2:0:+20M", "-t", "2:8300",
         "-c", "2:wurzel ü 字", "-A", "2:set:2", "-A", "2:set:63", "-n", "5:0:0", "-t", "5:8200", image.path)
    yield image, NO_SGDISK_RECORD
    image = Image(ptab, folder, "sgdisk_large", 9 << 30)
    must("sgdisk", "-n", "1:2048:+1G", "-t", "1:0700", "-n", "128:0:0", "-t", "128:a503", "-c", "128:last", image.path)
    yield image, "yes\n"
    image = Image(ptab, folder, "sfdisk", 32 * MIB)
    script = "label: gpt\nstart=2048, size=4096, type=U, name=\"esp\", attrs=\"RequiredPartition GUID:60\"\nsize=8192, name=\"data\"\n"
    must("sfdisk", "-q", image.path, input=script)
    yield image, "yes\n"
    for size in (512, 4096):
        image = Image(ptab, folder, f"fdisk{size}", 48 * MIB, size)
        fdisk(image.path, size, "g", "n", "1", "2048", "4095", "n", "7", "4096", "+4M", "t", "7", "19", "w")
        yield image, "yes\n"
        image = Image(ptab, folder, f"parted{size}", 48 * MIB, size)
        parted(size, image.path, "mklabel", "gpt", "mkpart", "first", "ext4", "1MiB", "10MiB",
               "mkpart", "second", "linux-swap", "10MiB", "40MiB", "set", "1", "esp", "on")
        yield image, "yes\n"


def rename(image, number, name):
    before = compare_gpt(image)
    same("edit", image.run("edit", f"c:{number}:{name}").stdout, "done\n")
    wanted = []
    for line in before:
        words = line.split(" ", 6)
        if words[0] == str(number):
            line = " ".join(words[:6] + [name])
        wanted.append(line)
    same("renamed", compare_gpt(image), wanted)
    if image.size == 512:
        same("sgdisk -v", "No problems found" in must("sgdisk", "-v", image.path), True)
    image.verifies("yes\n")


def damaged(image):
    """A primary header of zeros: the backup is shown and renamed, and both copies stand again."""
    before = image.shown()
    with open(image.path, "r+b") as it:
        it.seek(image.size)
        it.write(bytes(image.size))
    same("shown from the backup", image.shown(), before)
    image.verifies("no 2 primary copy 1\n")
    same("edit", image.run("edit", "c:1:mended").stdout, "done\n")
    image.verifies("yes\n")
    same("name", fields(compare_gpt(image)[1])[3], "mended")


def mbr_images(ptab, folder):
    image = Image(ptab, folder, "sfdisk_mbr", 64 * MIB)
    must("sfdisk", "-q", image.path, input="label: dos\nstart=2048,size=20000,type=83,bootable\nstart=24576,size=8192,type=a5\n"
         "start=40960,size=60000,type=5\nstart=43008,size=10000,type=82\nstart=55296,size=10000,type=a5\n")
    yield image
    image = Image(ptab, folder, "sfdisk_chain", 64 * MIB)
    must("sfdisk", "-q", image.path, input="label: dos\nstart=2048,size=120000,type=f\n"
         + "".join(f"start={2049 + 1900 * k},size=1800,type={'83' if k % 2 else '7'}\n" for k in range(56)))
    yield image
    for size in (512, 4096):
        image = Image(ptab, folder, f"fdisk_mbr{size}", 64 * MIB, size)
        fdisk(image.path, size, "o", "n", "p", "1", "2048", "4095", "a", "n", "e", "2", "4096", "10000", "n", "l", "6144", "7000",
              "n", "l", "9300", "9999", "n", "p", "3", "10240", "", "t", "3", "a5", "w")
        yield image
        fdisk(image.path, size, "d", "5", "n", "l", "6200", "6300", "w")
        yield image
        image = Image(ptab, folder, f"parted_mbr{size}", 64 * MIB, size)
        parted(size, image.path, "mklabel", "msdos", "mkpart", "primary", "ext4", "1MiB", "10MiB", "mkpart", "extended", "10MiB",
               "60MiB", "mkpart", "logical", "ext4", "11MiB", "20MiB", "mkpart", "logical", "21MiB", "30MiB", "set", "1", "boot", "on")
        yield image
        parted(size, image.path, "rm", "5")
        yield image


def labels(ptab, folder):
    """fdisk's BSD labels count sectors of the disk; it adds an entry d for the whole disk, which is outside the slice."""
    image = Image(ptab, folder, "fdisk_bsd", 64 * MIB)
    fdisk(image.path, 512, "o", "n", "p", "1", "2048", "10239", "t", "a5", "n", "p", "2", "10240", "20479", "t", "2", "a5", "w")
    fdisk(image.path, 512, "b", "1", "y", "n", "a", "2064", "+1000", "n", "b", "4000", "", "w")
    letters = [line for line in image.shown() if line.startswith("1.")]
    same("fdisk's label", letters, labels_by_fdisk(image.path, "1"))
    same("its letters", [line[:3] for line in letters], ["1.a", "1.b", "1.d"])
    image.verifies("no 7 outside 1.d\n")
    fdisk(image.path, 512, "b", "1", "d", "d", "w")
    same("fdisk's label", [line for line in image.shown() if line.startswith("1.")], labels_by_fdisk(image.path, "1"))
    image.verifies("yes\n")
    same("locate", image.run("locate", "1.b", "1").stdout, "4001\n")
    fdisk(image.path, 512, "b", "1", "d", "a", "n", "a", "2048", "2063", "w")
    same("fdisk's label", [line for line in image.shown() if line.startswith("1.")], labels_by_fdisk(image.path, "1"))
    image.verifies("no 7 outside 1.a\n")
    return image


def out_of_order(ptab, folder):
    """parted chains logicals in the order in which they were made; sfdisk sorts them."""
    image = Image(ptab, folder, "parted_order", 64 * MIB)
    parted(512, image.path, "mklabel", "msdos", "mkpart", "extended", "1MiB", "60MiB", "mkpart", "logical", "40MiB", "50MiB",
           "mkpart", "logical", "20MiB", "30MiB", "mkpart", "logical", "2MiB", "5MiB")
    same("links that lead downward", image.run("show").stderr, "no table: chain 3 40832\n")
    image.verifies("no 1 no table\n")
    must("sfdisk", "-q", "-r", image.path)
    locate_ends(image, compare_mbr(image))
    image.verifies("yes\n")


def main():
    ptab = os.path.abspath(sys.argv[1])
    with tempfile.TemporaryDirectory() as folder:
        for image, verdict in gpt_images(ptab, folder):
            locate_ends(image, compare_gpt(image))
            image.verifies(verdict)
            rename(image, 1, "a new name")
            damaged(image)
        for image in mbr_images(ptab, folder):
            locate_ends(image, compare_mbr(image))
            image.verifies("yes\n")
        labels(ptab, folder)
        out_of_order(ptab, folder)
    print(f"real images: {compared.count} passed, 0 failed")


main()
