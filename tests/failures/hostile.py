#!/usr/bin/env python3
"""Shows, verifies and locates in images that are valid but for bytes, sectors, sums and lengths changed at random by a fixed
seed, half of them with their sums mended: every run ends in a named answer, the three answers go together, and no image is
changed. Then each is repaired: it ends healthy with the partitions that it had and nothing else changed, or is refused and stays; and
every fourth takes its own table as text, with the same end. The images are of every kind: GPT from either copy, MBR, chains, labels of
both forms, both sector sizes.

usage: tests/failures/hostile.py PTAB [COUNT [WORKERS]]
"""
import multiprocessing
import os
import random
import re
import struct
import sys
import zlib

sys.path.insert(0, os.path.join(os.path.dirname(os.path.abspath(__file__)), "..", "shared"))
import images
from images import LARGE, SMALL, ebr, entry, guid, label, record, room
from replies import Runner

NUMBER = r"\d+"
PLACE = r"\d+(\.[a-h])?"
PARTITION = (rf"({NUMBER} {NUMBER} {NUMBER} ([0-9A-F]{{4}}|[0-9a-f-]{{36}}) [0-9a-f]{{16}} [0-9a-f-]{{36}}( [^\n]*)?"
             rf"|{NUMBER} {NUMBER} {NUMBER} [0-9A-F]{{2}} (00|80)|{NUMBER}\.[abd-h] {NUMBER} {NUMBER} [0-9A-F]{{2}})")
SHOWN = re.compile(rf"(gpt {NUMBER} {NUMBER} {NUMBER} [0-9a-f-]{{36}}|mbr {NUMBER})\n({PARTITION}\n)*")
NO_TABLE = re.compile(rf"no table: (copies [1-9] [1-9]|chain [1-4] {NUMBER}|chain 5|two extended|too small)\n")
FINDING = re.compile(
    rf"yes\n|no (1 no table|2 primary copy [1-9]|3 backup copy [1-9]|4 copies differ|5 alternate (primary|backup)|6 protective record"
    rf"|7 outside {PLACE}|8 overlap {PLACE} {PLACE}|9 on table {PLACE} {NUMBER}|10 same guid {NUMBER} {NUMBER}|11 foreign label {PLACE})\n")
LINE = re.compile(r"(\d+)(\.[a-h])? (\d+) (\d+) (\S+) (?:.*)")


def plain_gpt(rng, sectors):
    """A GPT with two partitions; sometimes with one copy alone."""
    count = rng.randrange(2 * sectors.array + 4, 200)
    first, last = sectors.array + 2, count - sectors.array - 2
    middle = rng.randrange(first, last + 1)
    entries = {1: entry(first, middle, name="data")}
    if middle < last:
        entries[3] = entry(middle + 1, last, images.FREEBSD if rng.randrange(2) else images.LINUX, guid(3), attributes=5)
    image = sectors.gpt(count, entries, count=rng.choice((128, 128, 3, 64)))
    broken = rng.choice((None, None, 1, count - 1))
    if broken:
        sectors.put(image, broken, bytes(sectors.size))
    return image


def sliced_gpt(rng, sectors):
    image = sectors.gpt(300, {1: entry(40, 139, images.FREEBSD), 2: entry(140, 200, images.FREEBSD, guid(2))})
    absolute = rng.randrange(2)
    base = 40 if absolute else 0
    sectors.put(image, 41, label(100, {0: (30, base + 16, 7), 3: (20, base + 50, 1)}, raw_offset=base))
    if rng.randrange(2):
        sectors.put(image, 141, label(61, {1: (45, 16, 7)}, count=rng.choice((3, 8))))
    if rng.randrange(3) == 0:
        sectors.put(image, 1, bytes(sectors.size))
    return image


def sliced_mbr(rng, sectors):
    image = sectors.mbr(200, [record(0xA5, 10, 100), record(0x83, 120, 30, 0x80), record(0xA5, 150, 2)])
    base = rng.choice((0, 10))
    sectors.put(image, 11, label(100, {0: (30, base + 16, 7), 1: (50, base + 46, 1)}, raw_offset=base))
    return image


def chained(rng, sectors):
    image = sectors.mbr(200, [record(0x0C, 1, 9), record(rng.choice((0x05, 0x0F)), 10, 150)])
    steps = rng.randrange(1, 6)
    for k in range(steps):
        at = 10 + 25 * k
        link = record(rng.choice((0x05, 0x0F)), 25 * (k + 1), 25) if k + 1 < steps else bytes(16)
        sectors.put(image, at, ebr(record(rng.choice((0x83, 0xA5, 0)), 1, 24), link))
        base = rng.choice((0, at + 1))
        if rng.randrange(2):
            sectors.put(image, at + 2, label(24, {0: (4, base + 16, 7), 7: (4, base + 20, 1)}, raw_offset=base))
    return image


def mend_gpt(image, sectors):
    count = sectors.count(image)
    for my in (1, count - 1):
        if not 1 <= my < count:
            continue
        at = my * sectors.size
        array, entries = struct.unpack_from("<QI", image, at + 72)
        length = min(entries, 128) * 128
        if array * sectors.size + length <= len(image):
            struct.pack_into("<I", image, at + 88, zlib.crc32(image[array * sectors.size:array * sectors.size + length]))
        size = struct.unpack_from("<I", image, at + 12)[0]
        if 20 <= size <= sectors.size:
            struct.pack_into("<I", image, at + 16, 0)
            struct.pack_into("<I", image, at + 16, zlib.crc32(image[at:at + size]))


def mend_labels(image, sectors):
    for at in range(0, len(image) - sectors.size + 1, sectors.size):
        if struct.unpack_from("<I", image, at)[0] != images.MAGIC:
            continue
        count = min(struct.unpack_from("<H", image, at + 138)[0], 8)
        struct.pack_into("<H", image, at + 136, 0)
        total = 0
        for (word,) in struct.iter_unpack("<H", image[at:at + 148 + 16 * count]):
            total ^= word
        struct.pack_into("<H", image, at + 136, total)


def interesting(image, sectors, rng):
    """A place that some format gives a meaning."""
    count = sectors.count(image)
    at = rng.choice((0, 0, 1, 2, 10, 11, 12, 35, 37, 41, 60, 62, 141, count - 1, count - 2, count - sectors.array - 1)) % count
    inside = rng.choice((rng.randrange(sectors.size), rng.randrange(92), 446 + rng.randrange(66), rng.randrange(128),
                         136 + rng.randrange(140)))
    return at * sectors.size + inside


def change(image, sectors, rng):
    kind = rng.randrange(6)
    if kind <= 2:
        image[interesting(image, sectors, rng)] = rng.choice((0, 1, 5, 15, 0x80, 0xA5, 0xEE, 0xFF, rng.randrange(256)))
    elif kind == 3:
        at = min(interesting(image, sectors, rng), len(image) - 8)
        number = rng.choice((0, 1, 2, 34, 2 ** 32 - 1, 2 ** 63 - 1, 2 ** 63, 2 ** 64 - 1, rng.randrange(300)))
        form = rng.choice(("<Q", "<I"))
        struct.pack_into(form, image, at, number & (2 ** (64 if form == "<Q" else 32) - 1))
    elif kind == 4:
        count, size = sectors.count(image), sectors.size
        a, b = rng.randrange(count), rng.randrange(count)
        image[a * size:(a + 1) * size] = image[b * size:(b + 1) * size]
    elif rng.randrange(4) == 0:
        del image[max(1, len(image) - rng.randrange(40 * sectors.size)):]
    else:
        image.extend(bytes(rng.randrange(3 * sectors.size)))


def hostile(rng):
    """(its sectors, an image)."""
    sectors = rng.choice((SMALL, SMALL, SMALL, LARGE))
    image = bytearray(rng.choice((plain_gpt, sliced_gpt, sliced_mbr, chained))(rng, sectors))
    for _ in range(rng.choice((0, 1, 1, 2, 3, 6))):
        if len(image) >= 2 * sectors.size:
            change(image, sectors, rng)
    if rng.randrange(2) == 0 and len(image) >= 2 * sectors.size:
        mend_labels(image, sectors)
        mend_gpt(image, sectors)
    return sectors, bytes(image)


def named(shown, verified):
    """Whether both answers are named ones that go together."""
    if shown[0] == 0 and not (SHOWN.fullmatch(shown[1]) and shown[2] == ""):
        return False
    if shown[0] == 4 and not (shown[1] == "" and NO_TABLE.fullmatch(shown[2])):
        return False
    if shown[0] not in (0, 4) or not FINDING.fullmatch(verified[1]) or verified[2] != "":
        return False
    return verified[0] == (0 if verified[1] == "yes\n" else 1) and (shown[0] == 4) == verified[1].startswith("no 1 ")


def place(shown, sectors, rng):
    """A path, a sector of it, and what locate has to answer after what show said."""
    lines = [line for line in map(LINE.fullmatch, (text + " " for text in shown[1].split("\n")[1:])) if line]
    k = rng.choice((0, 0, 1, 5, 29, 2 ** 32, 2 ** 64 - 1))
    if shown[0] == 4:
        return "1", k, (4, "", shown[2])
    if not lines or rng.randrange(8) == 0:
        return rng.choice(("129", "4.c", "1.c", str(2 ** 64 - 1))), k, (1, "none\n", "")
    number, letter, first, last, kind = rng.choice(lines).groups()
    containers = ("A500", "A5", "05", "0F") if sectors is SMALL else ("05", "0F")
    first, last = int(first), int(last)
    leaf = (letter or kind not in containers) and first <= last < 2 ** 63
    inside = leaf and k <= last - first
    return number + (letter or ""), k, (0, f"{first + k}\n", "") if inside else (1, "none\n", "")


def repair_fault(it, sectors, image, shown, verified):
    """What is wrong with a repair of the image, or None. Findings 7 to 11 of an image whose first one a repair mends may be seen by nobody
    yet: then it may be refused."""
    found = it.run("repair", sectors)
    with open(it.path, "rb") as file:
        after = file.read()
    refused = (3, "", "refused: repair 2\n")
    number = 0 if verified[1] == "yes\n" else int(verified[1].split(" ")[1])
    allowed = [shown] if number == 1 else [(0, "done\n", "")] if number == 0 else [refused] if number >= 7 else [(0, "done\n", ""), refused]
    if found not in allowed:
        return f"{found}"
    if number in (0, 1) or found == refused:
        return None if after == image else f"{found}: the image was changed"
    again = it.run("show", sectors), it.run("verify", sectors)
    if again != (shown, (0, "yes\n", "")):
        return f"{found}: then {again}"
    tables, end = (sectors.array + 2) * sectors.size, (sectors.count(image) - sectors.array - 1) * sectors.size
    kept = slice(0, 446), slice(tables, end), slice(sectors.count(image) * sectors.size, None), slice(512, sectors.size)
    return None if len(after) == len(image) and all(after[part] == image[part] for part in kept) else "more than the tables was changed"


def own_text_fault(it, sectors, image, shown, verified):
    """What is wrong with how the image takes its own text, or None; it is as it was then."""
    text = it.run("show", sectors, "--json")
    with open(f"{it.path}.json", "w", encoding="utf-8") as file:
        file.write(text[1])
    found = it.run("set", sectors, f"{it.path}.json")
    with open(it.path, "rb") as file:
        after = file.read()
    number = 0 if verified[1] == "yes\n" else int(verified[1].split(" ")[1])
    unsound, done = (3, "", "refused: plan 4\n"), (0, "done\n", "")
    allowed = [unsound] if number >= 7 else [done] if number == 0 else [done, unsound]
    if number == 1:
        allowed = [(3, "", "refused: table text\n")]
    if found not in allowed:
        return f"{found}"
    if after == image:
        return None if found != done or number == 0 else f"{found}: the image stays"
    again = it.run("show", sectors), it.run("verify", sectors)
    with open(it.path, "wb") as file:
        file.write(image)
    return None if found == done and number and again == (shown, (0, "yes\n", "")) else f"{found}: then {again}"


def page_fault(it, sectors, shown):
    """What is wrong with the page for people, or None: it has the partitions of `show`, the blocks of `free`, and no more."""
    page = it.run("show", sectors, "--human")
    if shown[0] != 0:
        return None if page == shown else f"{page}"
    head, bar, _, *rows = page[1].splitlines()
    blocks = [] if (text := it.run("free", sectors)[1]) == "none\n" else [["-", *line.split()[:2]] for line in text.splitlines()]
    wanted = [line.split(" ")[:3] for line in shown[1].splitlines()[1:]]
    found = [line.split()[:3] for line in rows]
    well = page[0] == 0 and page[2] == "" and len(bar) == 62 and head[:3].lower() == shown[1][:3]
    return None if well and sorted(found) == sorted(wanted + blocks) else f"{page}"


def batch(job):
    ptab, seed, count, path = job
    rng = random.Random(seed)
    it = Runner(ptab, path)
    for number in range(count):
        sectors, image = hostile(rng)
        with open(path, "wb") as file:
            file.write(image)
        shown, verified = it.run("show", sectors), it.run("verify", sectors)
        which = f"seed {seed}, image {number}: {sectors.size}"
        if not named(shown, verified):
            return f"{which}: {shown} {verified}"
        where, k, wanted = place(shown, sectors, rng)
        found = it.run("locate", sectors, where, str(k))
        if found != wanted:
            return f"{which}: {shown}: locate {where} {k}: found {found}, wanted {wanted}"
        with open(path, "rb") as file:
            if file.read() != image:
                return f"{which}: the image was changed"
        fault = page_fault(it, sectors, shown) if number % 4 == 1 else None
        if fault:
            return f"{which}: {shown}: show --human: {fault}"
        fault = own_text_fault(it, sectors, image, shown, verified) if number % 4 == 0 else None
        if fault:
            return f"{which}: {shown} {verified}: set: {fault}"
        fault = repair_fault(it, sectors, image, shown, verified)
        if fault:
            return f"{which}: {shown} {verified}: repair: {fault}"
    it.close()
    os.remove(path)
    return None


def main():
    ptab = os.path.abspath(sys.argv[1])
    count = int(sys.argv[2]) if len(sys.argv) > 2 else 100_000
    workers = int(sys.argv[3]) if len(sys.argv) > 3 else os.cpu_count() or 1
    with room() as folder, multiprocessing.Pool(workers) as pool:
        size = 100
        jobs = [(ptab, seed, size, f"{folder}/image{seed}") for seed in range((count + size - 1) // size)]
        for finished, done in enumerate(pool.imap_unordered(batch, jobs), 1):
            if done:
                sys.exit(done)
            if finished % 100 == 0:
                print(f"{finished * size} of {count}", file=sys.stderr, flush=True)
    print(f"hostile images: {count} passed, 0 failed")


main()
