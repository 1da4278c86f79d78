"""What sgdisk, sfdisk, fdisk and parted tell of an image, in the form of `ptab show`'s lines."""
import json
import os
import re
import subprocess
import sys
from concurrent.futures import ProcessPoolExecutor

TYPES = {
    "C12A7328-F81F-11D2-BA4B-00A0C93EC93B": "EF00",
    "0FC63DAF-8483-4772-8E79-3D69D8477DE4": "8300",
    "0657FD6D-A4AB-43C4-84E5-0933C84B4F4F": "8200",
    "EBD0A0A2-B9E5-4433-87C0-68B6B72699C7": "0700",
    "516E7CB4-6ECF-11D6-8FF8-00022D09712B": "A500",
    "516E7CB6-6ECF-11D6-8FF8-00022D09712B": "A503",
}
BITS = {"RequiredPartition": 0, "NoBlockIOProtocol": 1, "LegacyBIOSBootable": 2}
ENVIRONMENT = {**os.environ, "LC_ALL": "C.UTF-8"}


def run(*words, env=None, **more):
    return subprocess.run(words, capture_output=True, text=True, env=env or ENVIRONMENT, **more)


def must(*words, **more):
    done = run(*words, **more)
    if done.returncode != 0:
        sys.exit(f"{words}: status {done.returncode}\n{done.stdout}{done.stderr}")
    return done.stdout


def over_seeds(name, job):
    """The command line is PTAB and how many: so often, side by side, `job(ptab, seed)`, which tells how much it compared."""
    ptab = os.path.abspath(sys.argv[1])
    count = int(sys.argv[2]) if len(sys.argv) > 2 else 16
    with ProcessPoolExecutor() as pool:
        done = [pool.submit(job, ptab, seed) for seed in range(count)]
        print(f"{name}: {sum(it.result() for it in done)} passed, 0 failed")


def parted(size, *words):
    """parted on an image with sectors of that size."""
    done = subprocess.run(["parted", "-s", *words], capture_output=True, text=True,
                          env={**ENVIRONMENT, "PARTED_SECTOR_SIZE": str(size)})
    if done.returncode != 0:
        sys.exit(f"parted {words}: status {done.returncode}\n{done.stdout}{done.stderr}")
    return done.stdout


def fdisk(image, size, *lines):
    """fdisk's answers to these lines of commands."""
    return must("fdisk", "-b", str(size), image, input="".join(f"{line}\n" for line in lines))


def attributes_of(text):
    value = 0
    for word in text.split():
        if word.startswith("GUID:"):
            for bit in word[5:].split(","):
                value |= 1 << int(bit)
        else:
            value |= 1 << BITS[word]
    return value


def by_sfdisk(image):
    """All lines, on sectors of 512 bytes. Of a chain whose boot records aren't all used it says so before the braces, or tells the
    only one as a partition of no sectors."""
    told = must("sfdisk", "--json", image)
    table = json.loads(told[told.index("{"):])["partitiontable"]
    sectors = os.path.getsize(image) // 512
    lines = [f"gpt {sectors} {table['firstlba']} {table['lastlba']} {table['id'].lower()}" if table["label"] == "gpt" else f"mbr {sectors}"]
    for part in table.get("partitions", []):
        if part["size"] == 0:
            continue
        number = part["node"][len(image):].lstrip("p")
        place = f"{number} {part['start']} {part['start'] + part['size'] - 1}"
        if table["label"] == "gpt":
            kind = TYPES.get(part["type"], part["type"].lower())
            name = f" {part['name']}" if part.get("name") else ""
            lines.append(f"{place} {kind} {attributes_of(part.get('attrs', '')):016x} {part['uuid'].lower()}{name}")
        else:
            lines.append(f"{place} {int(part['type'], 16):02X} {80 if part.get('bootable') else '00'}")
    return lines


def by_fdisk(image, size):
    """All lines, without attributes and names."""
    sectors = os.path.getsize(image) // size
    is_gpt = "Disklabel type: gpt" in must("fdisk", "-b", str(size), "-l", image)
    columns = ["-x", "-o", "Device,Start,End,Type-UUID,UUID"] if is_gpt else ["-l", "-o", "Device,Start,End,Id,Boot"]
    text = must("fdisk", "-b", str(size), *columns, image)
    lines = [f"mbr {sectors}"]
    if is_gpt:
        found = [re.search(rf"{name}: (\S+)", text).group(1).lower() for name in ("First usable LBA", "Last usable LBA", "Disk identifier")]
        lines = [f"gpt {sectors} {found[0]} {found[1]} {found[2]}"]
    for line in text.splitlines():
        if not line.startswith(image) or ":" in line:
            continue
        number, first, last, kind, *rest = line[len(image):].lstrip("p").split()
        if is_gpt:
            lines.append(f"{number} {first} {last} {TYPES.get(kind, kind.lower())} {rest[0].lower()}")
        elif int(kind, 16) != 0:
            lines.append(f"{number} {first} {last} {int(kind, 16):02X} {'80' if rest else '00'}")
    return lines


def by_parted(image, size):
    """(number, first, last, name) of each partition, by number."""
    lines = parted(size, "-m", image, "unit", "s", "print").splitlines()
    if f":{size}:{size}:" not in lines[1]:
        sys.exit(f"parted takes no sectors of {size} bytes: {lines[1]}")
    parts = sorted((line.rstrip(";").split(":") for line in lines[2:]), key=lambda part: int(part[0]))
    return [(p[0], p[1].rstrip("s"), p[2].rstrip("s"), p[5]) for p in parts]


def by_sgdisk(image, number):
    """What sgdisk tells of one partition, as a dictionary of its lines."""
    lines = must("sgdisk", "-i", str(number), image).splitlines()
    return dict(line.split(": ", 1) for line in lines if ": " in line)


def labels_by_fdisk(image, number):
    """The lines of the label of slice `number` that fdisk tells, the raw entry c left out."""
    told = fdisk(image, 512, "b", number, "p", "q")
    found = re.findall(r"^([a-h]) +(\d+) +(\d+) +\d+ +\S+ +(.*?) +\d+ +\d+ +\d+$", told, re.MULTILINE)
    kinds = {"unused": "00", "swap": "01", "4.2BSD": "07"}
    return [f"{number}.{letter} {first} {last} {kinds[kind]}" for letter, first, last, kind in found if letter != "c"]
