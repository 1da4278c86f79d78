#!/usr/bin/env python3
"""Runs the pairs of docs/sgdisk.md: the flags of sgdisk or the command of sfdisk on one copy of an image and the words of `ptab edit` on
another, after which `ptab show` prints the same of both; drawn GUIDs are left out. Every flag of `sgdisk --help` has a row, and no other.
Then what the page says of the flags that have no words is tried.

usage: tests/peers/from_sgdisk.py PTAB
"""
import os
import re
import subprocess
import sys
import tempfile

sys.path.insert(0, os.path.join(os.path.dirname(os.path.abspath(__file__)), "..", "shared"))
import compared
from compared import same
from tools import ENVIRONMENT, must, run

TOP = os.path.abspath(os.path.join(os.path.dirname(os.path.abspath(__file__)), "..", ".."))
FRESH = "".join(f"{number:02x}" * 16 for number in range(1, 9))
MORE = "".join(f"{number:02x}" * 16 for number in range(16, 32))
OWN = [re.sub(r"(.{8})(.{4})(.)(.{3})(.)(.{3})(.{12})", r"\1-\2-4\4-8\6-\7", f"{number:02x}" * 16) for number in (1, 2, 3)]
NAMES_DIFFER = ("-g",)
MIB = 1 << 20


class Images:
    """The images of the examples, each made anew when asked for."""

    def __init__(self, ptab, folder):
        self.ptab = ptab
        self.folder = folder
        self.made = 0

    def __call__(self, name):
        self.made += 1
        path = f"{self.folder}/{self.made}.img"
        with open(path, "wb") as it:
            it.truncate(64 * MIB)
        if name == "MBR":
            must("sfdisk", "-q", path, input="label: dos\n2048,20000,83,*\n24576,8192,7\n40960,60000,5\n43008,10000,82\n63488,1000,83\n")
            return path
        must(self.ptab, "edit", path, "--fresh", FRESH, "o", "n:1:2048:34815:EF00", "c:1:boot", "n:2:34816:65535", "c:2:data")
        if name == "GROWN":
            os.truncate(path, 128 * MIB)
        return path

    def shown(self, path, with_names=True):
        """The lines of show; a GUID that the examples don't name is left out."""
        lines = must(self.ptab, "show", path).splitlines()
        if not with_names:
            lines = [" ".join(line.split(" ", 6)[:6]) for line in lines]
        drawn = r"\b[0-9a-f]{8}-[0-9a-f]{4}-[0-9a-f]{4}-[0-9a-f]{4}-[0-9a-f]{12}\b"
        return [re.sub(drawn, lambda found: found[0] if found[0] in (*OWN, "6b4ad856-ec11-4444-b018-80b39d83996e") else "GUID", line)
                for line in lines]


def rows(docs, title):
    """The cells of each row of the table under that title."""
    part = docs.split(f"\n## {title}\n")[1].split("\n## ")[0]
    lines = [line for line in part.splitlines() if line.startswith("| ")]
    for line in lines[1:]:
        yield [cell.strip() for cell in line.strip()[1:-1].split("|")]


def example(cell):
    found = re.fullmatch(r"`([^`]*)`", cell)
    return found.group(1) if found else None


def tried(images, what, image, theirs, ours):
    """Both on copies of the image; theirs is a line for bash with PATH in place of the image."""
    left, right = images(image), images(image)
    done = subprocess.run(["bash", "-c", theirs.replace("PATH", left)], capture_output=True, text=True, env=ENVIRONMENT)
    same(f"{what}: {theirs}: {done.stdout}{done.stderr}", done.returncode, 0)
    words = ours.split()
    if words[0] == "ptab":
        same(f"{what}: {ours}", run(images.ptab, words[1], right).returncode, 0)
    else:
        same(f"{what}: edit {ours}", run(images.ptab, "edit", right, "--fresh", MORE, *words).stdout, "done\n")
        same(f"{what}: verify", run(images.ptab, "verify", right).stdout, "yes\n")
    with_names = what not in NAMES_DIFFER
    same(f"{what}: {theirs}, and {ours}", images.shown(right, with_names), images.shown(left, with_names))
    return images.shown(right) != images.shown(images(image))


def answers(images, what, cell):
    """A row without a pair: none, words with GUIDs in place of GUID, a call of ptab, or a recipe that is there."""
    if cell == "none":
        return
    words = example(cell).split()
    if words[0].endswith(".sh"):
        same(f"{what}: {words[0]}", os.access(f"{TOP}/examples/recipes/{words[0]}", os.X_OK), True)
        with open(f"{TOP}/examples/recipes/{words[0]}", encoding="utf-8") as it:
            same(f"{what}: the arguments of {words[0]}",
                 len(re.search(r"# usage: \S+ (.*)", it.read()).group(1).split("  ")[0].split()) > 0, True)
        return
    path = images("IMAGE")
    if words[0] == "ptab":
        done = run(images.ptab, *(word.replace("IMAGE", path) for word in words[1:]))
        same(f"{what}: {cell}: {done.stderr}", (done.returncode, done.stderr, done.stdout != ""), (0, "", True))
        return
    for number, word in enumerate(words):
        words[number] = word.replace("GUID", f"6b4ad856-ec11-4444-b018-{number:012}")
    same(f"{what}: {words}", run(images.ptab, "edit", path, *words).stdout, "done\n")


def flags_of(cell):
    return re.findall(r"`(-[^`]*)`", cell)


def by_sgdisk(images, docs):
    told = []
    for flags, theirs, ours, _ in rows(docs, "sgdisk"):
        told += flags_of(flags)
        name = flags_of(flags)[0]
        if theirs:
            image = {"-g": "MBR", "-e": "GROWN"}.get(name, "IMAGE")
            changes = tried(images, name, image, f"sgdisk {example(theirs)} PATH", example(ours))
            same(f"{name} changes something", changes, True)
        else:
            answers(images, name, ours)
    text = must("sgdisk", "--help")
    wanted = re.findall(r"^  (-.), (--[\w-]+)", text, re.MULTILINE) + [("--usage",)]
    same("the flags of sgdisk", sorted(told), sorted(flag for flags in wanted for flag in flags))


def by_sfdisk(images, docs):
    text = must("sfdisk", "--help")
    for command, theirs, ours, _ in rows(docs, "sfdisk"):
        for flag in flags_of(command):
            same(f"sfdisk {flag}", re.search(rf"(?:^|\W){flag.split()[0]}\b", text, re.MULTILINE) is not None, True)
        if theirs:
            image = re.search(r"IMAGE|MBR|GROWN", example(theirs)).group(0)
            tried(images, command, image, example(theirs).replace(image, "PATH").replace("sfdisk ", "sfdisk -q ", 1), example(ours))
        else:
            answers(images, command, ours)


def table(images, docs):
    """The table at the top is that of the examples' image."""
    same("the examples' table", re.search(r"^```\n(gpt .*?)^```", docs, re.DOTALL | re.MULTILINE).group(1),
         must(images.ptab, "show", images("IMAGE")))
    same("the page's GUIDs", [guid for guid in OWN if guid in docs], OWN)


def claims(images):
    """What the page says where there is no word."""
    verify, show = (lambda path: run(images.ptab, "verify", path).stdout), (lambda path: run(images.ptab, "show", path).stderr)
    path = images("IMAGE")
    before = images.shown(path)
    for flags in (["-h", "1"], ["-C"]):
        must("sgdisk", *flags, path)
        same(f"after {flags}", (verify(path), images.shown(path)), ("no 6 protective record\n", before))
        must(images.ptab, "edit", path, "a:1")
        same(f"after {flags} and an edit", (verify(path), images.shown(path)), ("yes\n", before))
    must("sgdisk", "-n", "3:70001:+8", path)
    same("sgdisk's START", images.shown(path)[3].split()[1], "69632")
    must(images.ptab, "edit", path, "d:3")
    must(images.ptab, "edit", path, "--fresh", MORE, "n:3:70001:+8")
    same("ptab's START", images.shown(path)[3].split()[1], "71680")
    path = images("IMAGE")
    must("sgdisk", "-j", "40", path)
    same("after -j", verify(path), "no 2 primary copy 6\n")
    must(images.ptab, "repair", path)
    same("after -j and a repair", verify(path), "yes\n")
    for entries, said in (("256", "copies 7 6"), ("56", "copies 8 6")):
        path = images("IMAGE")
        must("sgdisk", "-S", entries, path)
        same(f"after -S {entries}", show(path), f"no table: {said}\n")
    for flag in ("-z", "-Z"):
        path = images("IMAGE")
        must("sgdisk", flag, path)
        same(f"after {flag}", show(path), "no table: copies 1 1\n")
    path = images("GROWN")
    must(images.ptab, "repair", path)
    same("a repair keeps the last usable sector", images.shown(path)[0].split()[:4], ["gpt", "262144", "34", "131038"])
    path = images("IMAGE")
    must("sgdisk", "-t", "1:ef02", path)
    same("another type is shown and kept", must(images.ptab, "edit", path, "c:1:bios") + images.shown(path)[1].split()[3],
         "done\nGUID")
    same("no word makes it", run(images.ptab, "edit", path, "t:2:EF02").stderr, "refused: edit 6\n")
    path = images("MBR")
    must("sfdisk", "--part-type", path, "2", "12")
    same("a type without a code", run(images.ptab, "edit", path, "--fresh", MORE, "g").stderr, "refused: edit 6\n")


def main():
    ptab = os.path.abspath(sys.argv[1])
    with open(f"{TOP}/docs/sgdisk.md", encoding="utf-8") as it:
        docs = it.read()
    with tempfile.TemporaryDirectory() as folder:
        images = Images(ptab, folder)
        table(images, docs)
        by_sgdisk(images, docs)
        by_sfdisk(images, docs)
        claims(images)
    print(f"from sgdisk and sfdisk: {compared.count} passed, 0 failed")


main()
