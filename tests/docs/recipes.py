#!/usr/bin/env python3
"""Runs each recipe of examples/recipes on images that it makes in a folder of its own, and compares what is printed and what the images
hold with what docs/commands.md and docs/format.md say, written down here by hand; JSON with sfdisk's too, and filesystems with mke2fs's
own tools, where these are installed.

usage: tests/docs/recipes.py PTAB
"""
import fcntl
import hashlib
import os
import re
import shutil
import struct
import subprocess
import sys
import tempfile

sys.path.insert(0, os.path.join(os.path.dirname(os.path.abspath(__file__)), "..", "shared"))
import compared
from compared import content, same
from images import SMALL, entry

TOP = os.path.abspath(os.path.join(os.path.dirname(os.path.abspath(__file__)), "..", ".."))
WHERE = {**os.environ, "PATH": f"{os.environ['PATH']}:/usr/sbin:/sbin", "LC_ALL": "C.UTF-8"}
FRESH = "".join(f"{number:02x}" * 16 for number in range(1, 9))
DISK = "01010101-0101-4101-8101-010101010101"
FIRST = "02020202-0202-4202-8202-020202020202"
SECOND = "03030303-0303-4303-8303-030303030303"
THIRD = "04040404-0404-4404-8404-040404040404"


def recipe(name, *words, **more):
    """(output, errors, status) of a recipe."""
    done = subprocess.run([f"{TOP}/examples/recipes/{name}.sh", *words], capture_output=True, text=True, env={**WHERE, **more})
    return done.stdout, done.stderr, done.returncode


def ptab(*words):
    done = subprocess.run([WHERE["PTAB"], *words], capture_output=True, text=True)
    return done.stdout, done.stderr, done.returncode


def image_of(path, sectors, *words, size=512):
    """A new image with the table that the words make."""
    with open(path, "wb") as it:
        it.truncate(sectors * size)
    if words:
        same(f"edit {words}", ptab("edit", "--sector-size", str(size), path, "--fresh", FRESH, *words), ("done\n", "", 0))


def zero(path, first, count, size=512):
    with open(path, "r+b") as it:
        it.seek(first * size)
        it.write(bytes(count * size))


def fill(path, first, count, size=512):
    """Bytes that depend on their sector, in place of a partition's data."""
    with open(path, "r+b") as it:
        for lba in range(first, first + count):
            it.seek(lba * size)
            it.write(hashlib.sha256(b"%d" % lba).digest() * (size // 32))


DUMPED = f"""# the table of 16384 sectors of 512 bytes, as words; and as ptab show prints it:
# show gpt 16384 34 16350 {DISK}
# show 1 2048 4095 EF00 1000000000000005 {FIRST} c:2: the  "boot" one ü
# show 2 4096 12287 A500 0000000000000000 {SECOND}
# show 2.a 6144 8191 07
# show 2.b 8192 12287 01
# show 9 12288 16350 8200 0000000000000000 {THIRD} #swap
o
U:{DISK}
a:1
n:1:2048:4095:EF00
u:1:{FIRST}
c:1:c:2: the  "boot" one ü
A:1:0:1
A:1:2:1
A:1:60:1
n:2:4096:12287:A500
u:2:{SECOND}
n:2.a:6144:8191:07
n:2.b:8192:12287:01
n:9:12288:16350:8200
u:9:{THIRD}
c:9:#swap
"""


def dump_and_restore(folder):
    """A table with a label, with both copies zeroed, comes back with every byte; and of sectors of 4096 bytes."""
    path, table = f"{folder}/dump.img", f"{folder}/dump.table"
    image_of(path, 16384, "o", "n:1:0:+2048:EF00", 'c:1:c:2: the  "boot" one ü', "A:1:0:1", "A:1:2:1", "A:1:60:1",
             "n:2:0:+8192:A500", "n:2.a:0:+2048", "n:2.b:0:0:01", "n:9:0:0:8200", "c:9:#swap")
    for first, count in ((2048, 2048), (4098, 8190), (12288, 4063)):
        fill(path, first, count)
    before = content(path)
    dumped = recipe("dump", path)
    same("dump.sh", dumped, (DUMPED, "", 0))
    with open(table, "w", encoding="utf-8") as it:
        it.write(DUMPED)
    same("dump.sh changes nothing", content(path) == before, True)
    same("over a table", recipe("restore", path, table),
         ("", f"restore.sh: {path} has a table; look at it with ptab show, and replace it with restore.sh -f\n", 1))
    same("over a table, forced", (recipe("restore", "-f", path, table), content(path) == before), (("done\n", "", 0), True))
    zero(path, 0, 34)
    zero(path, 16384 - 33, 33)
    same("zeroed", ptab("show", path), ("", "no table: copies 1 1\n", 4))
    same("dump.sh of no table", recipe("dump", path), ("", "no table: copies 1 1\n", 4))
    same("restore.sh", recipe("restore", path, table), ("done\n", "", 0))
    same("every byte is back", content(path) == before, True)
    same("verify", ptab("verify", path), ("yes\n", "", 0))
    other = f"{folder}/other.img"
    image_of(other, 16385)
    same("an image of another length", recipe("restore", other, table),
         ("", f"restore.sh: {other} has 16385 sectors of 512 bytes, and the table is one for 16384\n", 1))
    large = f"{folder}/large.img"
    image_of(large, 2048, "o", "n:1:0:+256:A500", "n:2:0:0", size=4096)
    before = content(large)
    dumped = recipe("dump", large, SECTOR_SIZE="4096")
    same("dump.sh, sectors of 4096 bytes", dumped, (
        "# the table of 2048 sectors of 4096 bytes, as words; and as ptab show prints it:\n"
        f"# show gpt 2048 6 2042 {DISK}\n# show 1 256 511 A500 0000000000000000 {FIRST}\n"
        f"# show 2 512 2042 8300 0000000000000000 {SECOND}\n"
        f"o\nU:{DISK}\na:1\nn:1:256:511:A500\nu:1:{FIRST}\nn:2:512:2042:8300\nu:2:{SECOND}\n", "", 0))
    with open(table, "w", encoding="utf-8") as it:
        it.write(dumped[0])
    zero(large, 0, 6, 4096)
    zero(large, 2043, 5, 4096)
    same("restore.sh, sectors of 4096 bytes", recipe("restore", large, table, SECTOR_SIZE="4096"), ("done\n", "", 0))
    same("every byte is back, sectors of 4096 bytes", content(large) == before, True)


def not_dumped(folder):
    """What words can't make again."""
    path = f"{folder}/not_dumped.img"
    image_of(path, 4096, "o")
    same("a table without partitions", recipe("dump", path)[0].splitlines()[2:], ["o", f"U:{DISK}", "a:1"])
    subprocess.run(["sfdisk", "-q", path], input="label: dos\n2048,1024,83\n", check=True, text=True, env=WHERE)
    same("an MBR", recipe("dump", path), ("", "dump.sh: no word makes an MBR: keep its sectors with dd\n", 1))
    image_of(path, 16384)
    subprocess.run(["sgdisk", "-n", "1:2048:4095", "-t", "1:ef02", path], check=True, capture_output=True, env=WHERE)
    same("another type", recipe("dump", path),
         ("", "dump.sh: no word makes the type of partition 1, 21686148-6449-6e6f-744e-656564454649\n", 1))
    image_of(path, 16384)
    subprocess.run(["sgdisk", "-n", "1:2048:4095", "-t", "1:a500", path], check=True, capture_output=True, env=WHERE)
    same("a slice without a label", recipe("dump", path), ("", "dump.sh: slice 1 has no label, and a new one gets one\n", 1))
    script = "label: gpt\nfirst-lba: 2048\nlast-lba: 16000\n2048,1024\n"
    subprocess.run(["sfdisk", "-q", path], input=script, check=True, text=True, env=WHERE)
    out, err, status = recipe("dump", path)
    same("other usable sectors", (err, status),
         ("dump.sh: the usable sectors 2048 to 16000 aren't kept: a new table has all, 34 to 16350\n", 0))
    with open(f"{folder}/usable.table", "w", encoding="utf-8") as it:
        it.write(out)
    old = ptab("show", path)[0].splitlines()
    out, err, status = recipe("restore", "-f", path, f"{folder}/usable.table")
    new = ptab("show", path)[0].splitlines()
    same("restored with a difference", (out, status, err.splitlines()), ("done\n", 0, [
        "restore.sh: restored, with differences from the old table:", "1c1", f"< {old[0]}", "---", f"> {new[0]}"]))
    same("the difference", (new[0], new[1:]), (old[0].replace(" 2048 16000 ", " 34 16350 "), old[1:]))
    with open(path, "wb") as it:
        it.write(SMALL.gpt(4096, {1: entry(2048, 2999), 3: entry(2999, 3500)}))
    same("an unsound table", recipe("dump", path), ("", "dump.sh: the table isn't sound: no 8 overlap 1 3\n", 1))
    same("no image", recipe("dump", f"{folder}/none.img"), ("", "device\n", 5))


def built_image(folder):
    """Both filesystems stand where the table says, and no sector outside changes."""
    os.makedirs(f"{folder}/root/etc")
    with open(f"{folder}/root/etc/motd", "w", encoding="utf-8") as it:
        it.write("hello from the root partition\n")
    fat = os.urandom(100 * 512)
    with open(f"{folder}/fat", "wb") as it:
        it.write(fat)
    path = f"{folder}/built.img"
    wanted = "1 2048 34815\n2 34816 131038\nyes\n"
    same("image.sh with files", recipe("image", path, f"{folder}/fat", f"{folder}/fat", FRESH=FRESH[:96], ESP_SECTORS="32768"),
         (wanted, "", 0))
    shown = (f"gpt 131072 34 131038 {DISK}\n1 2048 34815 EF00 0000000000000000 {FIRST} esp\n"
             f"2 34816 131038 8300 0000000000000000 {SECOND} root\n")
    same("its table", ptab("show", path), (shown, "", 0))
    found = content(path)
    for first in (2048, 34816):
        same(f"the filesystem at {first}", found[first * 512:first * 512 + len(fat)] == fat, True)
    empty = f"{folder}/empty.img"
    image_of(empty, 131072, "o", "n:1:0:+32768:EF00", "c:1:esp", "n:2:0:0:8300", "c:2:root")
    for first in (2048, 34816):
        with open(empty, "r+b") as it:
            it.seek(first * 512)
            it.write(fat)
    same("no other sector", found == content(empty), True)
    with open(f"{folder}/long", "wb") as it:
        it.truncate(32769 * 512)
    same("a filesystem that doesn't fit", recipe("image", path, f"{folder}/fat", f"{folder}/long", ESP_SECTORS="32768"),
         ("", f"image.sh: {folder}/long doesn't fit into partition 1\n", 1))
    if shutil.which("mke2fs", path=WHERE["PATH"]):
        same("image.sh with a folder", recipe("image", path, f"{folder}/root", f"{folder}/fat", FRESH=FRESH[:96], ESP_SECTORS="32768"),
             (wanted, "", 0))
        with open(f"{folder}/root.ext4", "wb") as it:
            it.write(content(path)[34816 * 512:131039 * 512])
        done = subprocess.run(["e2fsck", "-fn", f"{folder}/root.ext4"], capture_output=True, text=True, env=WHERE)
        same(f"e2fsck: {done.stdout}", done.returncode, 0)
        done = subprocess.run(["debugfs", "-R", "cat /etc/motd", f"{folder}/root.ext4"], capture_output=True, text=True, env=WHERE)
        same("the file in the root filesystem", done.stdout, "hello from the root partition\n")
        same("the root filesystem is the partition's, without its last half block",
             re.search(r"Block count: +(\d+)", subprocess.run(["dumpe2fs", "-h", f"{folder}/root.ext4"], capture_output=True, text=True,
                                                             env=WHERE).stdout).group(1) in ("48111", "12027"), True)
        same("its table", ptab("show", path), (shown, "", 0))
        same("sectors past the partitions", content(path)[131039 * 512:] == found[131039 * 512:], True)
    out, err, status = recipe("image", path, f"{folder}/fat")
    if shutil.which("mkfs.fat", path=WHERE["PATH"]):
        same("image.sh with mkfs.fat", (out, err, status), ("1 2048 67583\n2 67584 131038\nyes\n", "", 0))
        with open(f"{folder}/esp.fat", "wb") as it:
            it.write(content(path)[2048 * 512:67584 * 512])
        done = subprocess.run(["fsck.fat", "-n", f"{folder}/esp.fat"], capture_output=True, text=True, env=WHERE)
        same(f"fsck.fat: {done.stdout}", done.returncode, 0)
        same("what it says of its place and length", (struct.unpack_from("<I", content(path), 2048 * 512 + 28)[0],
                                                      max(struct.unpack_from("<H", content(path), 2048 * 512 + 19)[0],
                                                          struct.unpack_from("<I", content(path), 2048 * 512 + 32)[0])), (2048, 65536))
    else:
        same("image.sh without mkfs.fat", (out, err, status),
             ("", "image.sh: no mkfs.fat here: give a file with a FAT filesystem as ESP\n", 1))


def renamed(folder):
    path = f"{folder}/rename.img"
    image_of(path, 8192, "o", "n:1:0:0", "c:1:old")
    with open(path, "rb") as held:
        fcntl.flock(held, fcntl.LOCK_EX)
        before = content(path)
        same("while another program holds the lock", recipe("rename", path, "1", "new", WAIT="0.1"),
             ("", f"rename.sh: another program holds the lock of {path}\n", 1))
        same("nothing is written", content(path) == before, True)
        waiting = subprocess.Popen([f"{TOP}/examples/recipes/rename.sh", path, "1", "a: new name"], env=WHERE, stdout=subprocess.PIPE,
                                   text=True)
        try:
            waiting.wait(0.3)
            sys.exit("rename.sh didn't wait for the lock")
        except subprocess.TimeoutExpired:
            pass
    same("when the lock is free", (waiting.communicate()[0], waiting.returncode), ("done\n", 0))
    same("the name", ptab("show", path)[0].splitlines()[1], f"1 2048 8158 8300 0000000000000000 {FIRST} a: new name")
    with open(path, "rb") as held:
        fcntl.flock(held, fcntl.LOCK_EX | fcntl.LOCK_NB)
    asking = f"{folder}/asking"
    with open(asking, "w", encoding="utf-8") as it:
        it.write(f"#!/bin/sh\nflock -s -n {path} echo not locked\nexec {WHERE['PTAB']} \"$@\"\n")
    os.chmod(asking, 0o755)
    same("while ptab runs", recipe("rename", path, "1", "again", PTAB=asking), ("done\n", "", 0))
    same("a refusal", recipe("rename", path, "2", "new"), ("", "refused: edit 1\n", 3))
    same("no image", (recipe("rename", f"{folder}/none.img", "1", "x")[2], os.path.exists(f"{folder}/none.img")), (1, False))


SIZES = ((512, "n:0:0:+16M:EF00", "n:0:0:+32768:EF00"), (4096, "n:0:0:+16M:EF00", "n:0:0:+4096:EF00"), (512, "n:1:1M:+1K", "n:1:2048:+2"),
         (512, "n:2:1G:+3T:83", "n:2:2097152:+6442450944:83"), (512, "n:2.b:4K:0", "n:2.b:8:0"), (512, "a:4K", "a:8"),
         (4096, "a:1M", "a:256"), (512, "c:1:+16M", "c:1:+16M"), (512, "c:1:n:1:1M:1M", "c:1:n:1:1M:1M"),
         (512, "n:1:0:+100", "n:1:0:+100"),
         (512, "n:1:2048:4095", "n:1:2048:4095"), (512, "n:1:2048:16M", "n:1:2048:16M"), (512, "o", "o"), (512, "t:1:EF00", "t:1:EF00"))
NO_SIZES = ((4096, "n:1:0:+1K", "1K isn't a number of sectors of 4096 bytes"), (512, "n:1:0:+01M", "bad size 01M"),
            (512, "a:M", "bad size M"),
            (512, "n:1:xM:0", "bad size xM"), (512, "n:1:0:+12345678G", "bad size 12345678G"))


def sized(folder):
    for size, word, wanted in SIZES:
        same(f"{word} in sectors of {size}", recipe("sizes", "none", word, SECTOR_SIZE=str(size), SIZES_ONLY="1"), (f"{wanted}\n", "", 0))
    for size, word, wanted in NO_SIZES:
        same(word, recipe("sizes", "none", word, SECTOR_SIZE=str(size), SIZES_ONLY="1"), ("", f"sizes.sh: {wanted}\n", 1))
    path = f"{folder}/sizes.img"
    drawn = set()
    for _ in range(2):
        image_of(path, 131072)
        same("sizes.sh", recipe("sizes", path, "o", "n:0:0:+16M:EF00", "c:1:boot", "a:4K", "n:0:20M:+8M:8200", "n:0:0:0"),
             ("done\n", "", 0))
        lines = ptab("show", path)[0].splitlines()
        same("the table of sizes", [re.sub(r"[0-9a-f-]{36}", "GUID", line) for line in lines], [
            "gpt 131072 34 131038 GUID", "1 2048 34815 EF00 0000000000000000 GUID boot", "2 40960 57343 8200 0000000000000000 GUID",
            "3 57344 131038 8300 0000000000000000 GUID"])
        drawn |= set(re.findall(r"[0-9a-f]{8}-[0-9a-f]{4}-4[0-9a-f]{3}-[89ab][0-9a-f]{3}-[0-9a-f]{12}", " ".join(lines)))
    same("drawn GUIDs", len(drawn), 8)
    same("an end without a plus", recipe("sizes", path, "n:0:0:16M"), ("", "bad word n:0:0:16M\n", 2))


JSON = f"""{{
   "partitiontable": {{
      "label": "gpt",
      "id": "{DISK.upper()}",
      "device": "IMAGE",
      "unit": "sectors",
      "firstlba": 34,
      "lastlba": 16350,
      "sectorsize": 512,
      "partitions": [
         {{
            "node": "IMAGE1",
            "start": 2048,
            "size": 2048,
            "type": "C12A7328-F81F-11D2-BA4B-00A0C93EC93B",
            "uuid": "{FIRST.upper()}",
            "name": "a \\"name\\" \\\\ ü",
            "attrs": "RequiredPartition LegacyBIOSBootable GUID:48,63"
         }},{{
            "node": "IMAGE4",
            "start": 4096,
            "size": 12255,
            "type": "516E7CB4-6ECF-11D6-8FF8-00022D09712B",
            "uuid": "{SECOND.upper()}"
         }}
      ]
   }}
}}
"""
JSON_MBR = """{
   "partitiontable": {
      "label": "dos",
      "id": "0x0badcafe",
      "device": "IMAGE",
      "unit": "sectors",
      "sectorsize": 512,
      "partitions": [
         {
            "node": "IMAGE1",
            "start": 2048,
            "size": 2048,
            "type": "83",
            "bootable": true
         },{
            "node": "IMAGE3",
            "start": 4096,
            "size": 8192,
            "type": "5"
         },{
            "node": "IMAGE5",
            "start": 6144,
            "size": 1024,
            "type": "a5"
         }
      ]
   }
}
"""


def as_json(folder):
    path = f"{folder}/json.img"
    image_of(path, 16384, "o", "n:1:0:+2048:EF00", 'c:1:a "name" \\ ü', "A:1:0:1", "A:1:2:1", "A:1:48:1", "A:1:63:1", "n:4:0:0:A500",
             "n:4.a:0:0")
    images = [(path, JSON)]
    path = f"{folder}/json_mbr.img"
    image_of(path, 16384)
    subprocess.run(["sfdisk", "-q", path], check=True, text=True, env=WHERE,
                   input="label: dos\nlabel-id: 0x0badcafe\na1 : start=2048, size=2048, type=83, bootable\n"
                   "a3 : start=4096, size=8192, type=5\na5 : start=6144, size=1024, type=a5\n")
    images.append((path, JSON_MBR))
    path = f"{folder}/json9"
    image_of(path, 16384, "o", "n:2:0:0")
    images.append((path, None))
    path = f"{folder}/json_empty.img"
    image_of(path, 16384, "o")
    images.append((path, None))
    for path, wanted in images:
        out, err, status = recipe("json", path)
        same(f"json.sh {path}", (err, status), ("", 0))
        if wanted is not None:
            same(f"json.sh {path}", out, wanted.replace("IMAGE", path))
        if shutil.which("sfdisk", path=WHERE["PATH"]):
            same(f"sfdisk --json {path}", out,
                 subprocess.run(["sfdisk", "--json", path], capture_output=True, text=True, env=WHERE).stdout)
    reader, writer = os.pipe()
    os.close(reader)
    done = subprocess.run([f"{TOP}/examples/recipes/json.sh", path], stdout=writer, stderr=subprocess.PIPE, text=True, env=WHERE)
    os.close(writer)
    same("json.sh into a pipe that nobody reads", (done.stderr, done.returncode), ("", 141))
    same("json.sh of no table", (image_of(path, 8192), recipe("json", path))[1], ("", "no table: copies 1 1\n", 4))


def usages():
    for name in sorted(os.listdir(f"{TOP}/examples/recipes")):
        out, err, status = recipe(name.removesuffix(".sh"))
        same(f"{name} without words", (out, err.startswith(f"usage: examples/recipes/{name} "), status), ("", True, 2))
        with open(f"{TOP}/examples/recipes/{name}", encoding="utf-8") as it:
            same(f"{name} says what it is for", it.read().splitlines()[1].startswith("# "), True)


def main():
    WHERE["PTAB"] = os.path.abspath(sys.argv[1])
    for name in ("SECTOR_SIZE", "FRESH", "LENGTH", "ESP_SECTORS", "WAIT", "SIZES_ONLY"):
        WHERE.pop(name, None)
    usages()
    for rows in (dump_and_restore, not_dumped, built_image, renamed, sized, as_json):
        with tempfile.TemporaryDirectory() as folder:
            rows(folder)
    print(f"recipes: {compared.count} passed, 0 failed")


main()
