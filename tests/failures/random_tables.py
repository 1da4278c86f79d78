#!/usr/bin/env python3
"""Gives images the tables that small texts say, which are valid but for members dropped, added, retyped and exchanged, numbers and bytes
changed at random by a fixed seed. Each run ends in what a plain reading of the text comes to (shared/drafts.py, shared/made.py): the first
fault by its name, and not a byte changed; or the table with all that the text leaves out, on a healthy image. Most are planned, and the
plan is checked and shown; the others are written.

usage: tests/failures/random_tables.py PTAB [COUNT [WORKERS]]
"""
import copy
import json
import multiprocessing
import os
import random
import sys

sys.path.insert(0, os.path.join(os.path.dirname(os.path.abspath(__file__)), "..", "shared"))
import images
from compared import content, put
from drafts import OF_LABEL, OF_LABEL_ENTRY, OF_PART, OF_TABLE, Fault, fresh_guids
from images import FREEBSD, LARGE, LINUX, SMALL, ebr, entry, guid, label, record, room
from made import shown, wanted_of
from made_mbr import Mbr, is_mbr, is_sound, mbr_on
from replies import Runner

UNIQUE = [guid(k).upper() for k in range(1, 5)]
FRESH = "".join(f"{k:032x}" for k in range(100, 106))


def several(sectors, count, step):
    """Entries of a GPT, one of them with a long name, attributes and a place at the end."""
    first = sectors.array + 2
    return {1: entry(first, first + step, name="boot"), 2: entry(2 * step + first, 3 * step + first, "21686148-6449-6E6F-744E-656564454649",
                                                                guid(2), 4, "\U0001f4be" * 3),
            4: entry(count - sectors.array - 2 - step, count - sectors.array - 2, unique=guid(4), attributes=2 ** 63 + 2 ** 10)}


def mbrs():
    """MBRs with logical partitions, one of them with slices and an empty extended boot record."""
    short = SMALL.mbr(8192, [record(0x05, 2048, 5000)])
    SMALL.put(short, 2048, ebr(record(0x83, 50, 100)))
    yield SMALL, short, True
    chs = b"\x01\x02\x03", b"\x04\x05\x06"
    image = SMALL.mbr(8192, [record(0x83, 40, 1000, 0x80, *chs), record(0x0F, 2048, 5000, 0, *chs), bytes(16), record(0xA5, 7100, 1000)])
    SMALL.put(image, 2048, ebr(record(0x83, 50, 100, 0, *chs), record(0x05, 200, 1)))
    SMALL.put(image, 2248, ebr(link=record(0x05, 500, 1)))
    SMALL.put(image, 2548, ebr(record(0xA5, 20, 1000), record(0x05, 3000, 1)))
    SMALL.put(image, 5048, ebr(record(0x82, 1, 500)))
    SMALL.put(image, 7101, label(1000, {0: (100, 16, 7), 3: (50, 200, 1)}))
    SMALL.put(image, 2569, label(1000, {0: (100, 16, 7)}))
    yield SMALL, image, True


def kinds():
    """(sectors, an image, whether it is healthy)"""
    yield SMALL, SMALL.zeros(8192), True
    yield SMALL, SMALL.gpt(8192, several(SMALL, 8192, 900)), True
    yield SMALL, SMALL.gpt(400, several(SMALL, 400, 20), count=4, first=36, last=365), True
    sliced = SMALL.gpt(8192, {1: entry(2048, 3047, FREEBSD), 2: entry(4096, 5095, FREEBSD, guid(2)), 3: entry(6000, 6100, unique=guid(3))})
    SMALL.put(sliced, 2049, label(1000, {0: (100, 16, 7), 3: (50, 200, 1)}))
    yield SMALL, sliced, True
    yield SMALL, SMALL.gpt(6000, several(SMALL, 6000, 700)) + SMALL.zeros(2192), False
    lost = SMALL.gpt(300, several(SMALL, 300, 10))
    SMALL.put(lost, 1, bytes(512))
    yield SMALL, lost, False
    yield SMALL, SMALL.mbr(8192, [record(0x83, 2048, 100), record(0x0C, 3000, 500, 0x80)]), True
    yield from mbrs()
    yield SMALL, SMALL.zeros(60), True
    yield LARGE, LARGE.gpt(1024, several(LARGE, 1024, 100)), True
    yield LARGE, LARGE.zeros(600), True


NUMBERS = (0, 1, 2, 3, 4, 5, 34, 40, 128, 129, 512, 2048, 4096, 4097, 8158, 8192, 2 ** 32, 2 ** 63 - 1, 2 ** 63, 2 ** 64 - 1, 2 ** 64)
TEXTS = ("", "gpt", "dos", "sectors", "1", "128", "0x1", "1MiB", "100KiB", "0KiB", "1 MiB", "2TiB", "99999999999TiB", "disk1", "sda",
         "x p9", "EF00", "ef00", "8300", "83", "ee", "linux", "swap", "freebsd", "A500", "none", LINUX, FREEBSD,
         "0" * 8 + "-0000-0000-0000-" + "0" * 12, *UNIQUE, "RequiredPartition", "GUID:60", "GUID:60,48 LegacyBIOSBootable", "GUID:47",
         "GUID:", "feffff", "00" * 68, "0g")
NAMES = ("a\u00fc\U0001f4be", "x" * 36, "x" * 37, "\U0001f4be" * 18, "\U0001f4be" * 19, "a\0b")


KINDS = ("EF00", "ef00", "8300", "linux", "swap", "freebsd", "freebsd", "A500", FREEBSD, LINUX, "root-alpha", UNIQUE[1])


def drawn_label(rng, length):
    """A label as show --json has it, of a slice of that length."""
    blank = dict.fromkeys(OF_LABEL_ENTRY, 0)
    entries = [dict(blank) for _ in range(8)]
    entries[2]["size"] = length
    entries[rng.choice((0, 1, 3, 7))] |= {"size": rng.choice((1, 40, 900)), "offset": rng.choice((16, 17, 0)), "fstype": 7}
    count = rng.choice((8, 8, 3, 2))
    widths = {"type_name": "00" * 16, "pack_name": "ab" * 16, "kept": "00" * 68, "geometry": [1, 2, 3, 4]}
    return {**{name: rng.choice((0, 7)) for name in OF_LABEL}, **widths, "entries": entries[:count] + [None] * (8 - count)}


def drawn_part(rng, k, most):
    start, size = rng.choice((34, 2048, 2048 + 1000 * k, 2048 + 1000 * k, 40 + 20 * k)), rng.choice((1, 10, 500, 1000, 1000))
    part = {"number": rng.choice((k, k, k, 4)), "start": start, "size": size, "type": rng.choice(KINDS),
            "uuid": UNIQUE[(k + rng.choice((0, 0, 0, 1))) % 4]}
    for name, values in (("node", ("disk.img3", "sdb", "p2")), ("name", NAMES[:5]), ("attributes", (0, 4, 2 ** 60 + 4, 8)),
                         ("attrs", (None, "LegacyBIOSBootable", "GUID:60 LegacyBIOSBootable")), ("type_name", ("esp",)),
                         ("bsd", (None, drawn_label(rng, size), drawn_label(rng, size)))):
        if rng.randrange(5) == 0 or name == "bsd" and part["type"] in ("freebsd", "A500", FREEBSD) and rng.randrange(2):
            part[name] = rng.choice(values)
    if rng.randrange(8) and part["type"] not in ("freebsd", "A500", FREEBSD):
        part.pop("bsd", None)
    for name in ("number", "start", "size", "type", "uuid"):
        if rng.randrange(3) == 0:
            del part[name]
    if "size" in part and rng.randrange(3) == 0:
        part["size"] = rng.choice(("1MiB", "100KiB", "512KiB"))
    if rng.randrange(12) == 0 and "start" in part:
        part.pop("size", None)
        part["last"] = rng.choice((part["start"], part["start"] + 300, most - 34))
    return part


def drawn(rng, sectors, image):
    """A text's table."""
    count = sectors.count(image)
    table = {"label": "gpt", "device": "disk.img", "unit": "sectors", "sectorsize": sectors.size, "sectors": count, "id": images.DISK,
             "firstlba": sectors.array + 2, "lastlba": count - sectors.array - 2, "entries": 128, "table-length": "128",
             "grain": "4194304"}
    for name in list(table):
        if rng.randrange(2) == 0:
            del table[name]
    if rng.randrange(8):
        table["partitions"] = [drawn_part(rng, k, count) for k in range(1, rng.choice((1, 2, 3, 4, 6)))]
    return table


OF_MBR = ("83", "82", "c", "5", "f", "a5", "freebsd", "swap", "esp", "home", "extended")


def drawn_logical(rng):
    part = {"number": rng.randrange(4, 11), "start": rng.choice((2200, 2300, 3600, 3700, 5700, 6500)),
            "size": rng.choice((1, 9, 300, 1000)), "record": rng.choice((2048, 2199, 2248, 3599, 5699)), "type": rng.choice(OF_MBR)}
    return {name: it for name, it in part.items() if rng.randrange(3) or name == "number" and rng.randrange(4)}


def with_edit(rng, parts):
    """One partition goes, comes, or has another member or one less."""
    how = rng.randrange(6)
    if how == 0 or not parts:
        parts.append(drawn_logical(rng))
    elif how == 1:
        del parts[rng.randrange(len(parts))]
    elif how == 2:
        it = rng.choice(parts)
        del it[rng.choice(sorted(it))]
    elif how == 3:
        for it in parts:
            for name in rng.choice((("record",), ("start_chs", "end_chs"), ("bsd",), ("record", "bsd", "start_chs", "end_chs"))):
                it.pop(name, None)
    else:
        it = rng.choice(parts)
        changes = {"type": rng.choice(OF_MBR), "start": it.get("start", 100) + rng.choice((-1, 1, 7)), "size": rng.choice((1, 50, 99)),
                   "bootable": True, "start_chs": "0a0b0c"}
        name = rng.choice(sorted(changes))
        it[name] = changes[name]
        it.pop("bsd", None)


def drawn_mbr(rng, sectors, image):
    """The text of the MBR that is there, with some edits."""
    table = copy.deepcopy(shown(mbr_on(image, sectors), "disk.img")["partitiontable"])
    table = {name: it for name, it in table.items() if name == "partitions" or rng.randrange(4)}
    for _ in range(rng.choice((0, 1, 1, 1, 2, 2, 3))):
        with_edit(rng, table["partitions"])
    if rng.randrange(6) == 0:
        rng.shuffle(table["partitions"])
    return table


def drawn_value(rng):
    return rng.choice((None, True, False, -1, 1.5, [], {}, [1, 2], [55357, 56510], ["x"], rng.choice(NUMBERS), rng.choice(TEXTS),
                       rng.choice((*TEXTS, *NAMES)), rng.choice(NUMBERS), drawn_label(rng, 1000)))


INSERTED = (b",", b'"', b"{", b"]", b" ", b"\n", b"0", b"-", b"\\u0041", b"\\ud83d", b"e3", b".0", b"\xef\xbb\xbf")


def objects(value):
    """All objects in it."""
    if isinstance(value, dict):
        yield value
    for it in value.values() if isinstance(value, dict) else value if isinstance(value, list) else ():
        yield from objects(it)


def mutate(rng, table):
    """One member of one object is dropped, added, given another value, or exchanged."""
    all_objects = list(objects(table))
    it = rng.choice(all_objects[1:] if len(all_objects) > 1 and rng.randrange(20) else all_objects)
    names = sorted(it)
    how = rng.randrange(7)
    if how == 0 and names:
        del it[rng.choice(names)]
    elif how == 1:
        it[rng.choice((*OF_PART, *OF_TABLE, "Start", "x", ""))] = drawn_value(rng)
    elif how == 2 and len(names) > 1:
        one, other = rng.sample(names, 2)
        it[one], it[other] = it[other], it[one]
    elif how == 3 and isinstance(it.get("partitions"), list) and it["partitions"]:
        it["partitions"].insert(rng.randrange(3), copy.deepcopy(rng.choice(it["partitions"])))
    elif names:
        name = rng.choice(names)
        is_number = isinstance(it[name], int) and not isinstance(it[name], bool)
        it[name] = max(0, it[name] + rng.choice((-1, 1, 7, 2048))) if is_number and rng.randrange(2) else drawn_value(rng)


def mangle(rng, text):
    """The bytes of a text, some of them changed."""
    content = bytearray(text.encode("utf-8"))
    for _ in range(rng.choice((1, 1, 2, 4))):
        at = rng.randrange(len(content))
        how = rng.randrange(6)
        if how == 0:
            content[at] = rng.randrange(256)
        elif how == 1:
            del content[at:at + rng.choice((1, 1, 5))]
        elif how == 2:
            content[at:at] = rng.choice(INSERTED)
        elif how == 3:
            content[at] ^= 1 << rng.randrange(8)
        elif how == 4:
            content += rng.choice((b"\n", b" ", b"x", b"{}", b"\0"))
        if not content:
            return b"x"
    return bytes(content)


def text_of(rng, sectors, image):
    draw = drawn_mbr if is_mbr(image) and rng.randrange(4) else drawn
    table = {"partitiontable": draw(rng, sectors, image)}
    for _ in range(rng.choice((0, 0, 0, 1, 1, 2, 4))):
        mutate(rng, table)
    text = json.dumps(table, ensure_ascii=rng.randrange(2) == 0, indent=rng.choice((None, 2)))
    if rng.randrange(10) == 0:
        head, *others = text.split("{")
        at = rng.randrange(len(others)) if others else 0
        text = head + "".join((f'{{"{rng.choice((*OF_PART, *OF_TABLE))}": 7, ' if k == at else "{") + it for k, it in enumerate(others))
    return mangle(rng, text) if rng.randrange(6) == 0 else text.encode("utf-8", "surrogatepass")


def expected(content, fresh, image, sectors, is_healthy):
    """(the answer, the table)"""
    try:
        return None, wanted_of(content, fresh, image, sectors, is_healthy)
    except Fault as fault:
        return fault.answer, None


def ran(it, command, sectors, *words):
    status, out, err = it.run(command, sectors, *words)
    return out, err, status


def has_no_plan(table, found):
    """Whether it says so of an MBR. That there is one isn't worked out here; but a sound table has none for another reason than that."""
    allowed = (1, 2, 3, 4) if table.labels or not is_sound(table) or any(it.kind == 0xA5 for _, _, it in table.numbered()) else (1, 2, 3)
    return found in [("", f"refused: plan {number}\n", 3) for number in allowed]


def fault_of(it, sectors, image, content, is_healthy, is_written, fresh):
    """(what is wrong with an answer or None, whether the text was taken)"""
    put(f"{it.path}.json", content)
    answer, table = expected(content, fresh_guids(fresh), image, sectors, is_healthy)
    found = ran(it, "set", sectors, *([] if is_written else ["--plan"]), "--fresh", fresh, f"{it.path}.json")
    if answer is not None:
        return None if found == answer else f"found {found}, wanted {answer}", False
    if isinstance(table, Mbr) and has_no_plan(table, found):
        return None, False
    if isinstance(table, Mbr) and not is_sound(table):
        return f"found {found}, wanted no plan for {table}", False
    if found[1:] != ("", 0) or is_written and found[0] != "done\n":
        return f"found {found}, wanted {table}", False
    wanted = json.dumps(shown(table, it.path), indent=2, sort_keys=True, ensure_ascii=False) + "\n"
    if is_written:
        after = ran(it, "show", sectors, "--json"), ran(it, "verify", sectors)
        return None if after == ((wanted, "", 0), ("yes\n", "", 0)) else f"left {after}, wanted {wanted}", True
    plan = put(f"{it.path}.plan", found[0].encode("ascii"))
    checked, after = ran(it, "check", sectors, plan), ran(it, "show", sectors, "--json", "--after", plan)
    if checked[0][:4] != "yes " or checked[1:] != ("", 0) or after != (wanted, "", 0):
        return f"its plan: {checked}, leaves {after}, wanted {wanted}", True
    return None, True


def batch(job):
    """(how many were taken, what is wrong or None)"""
    ptab, seed, count, path = job
    rng = random.Random(seed)
    all_kinds = list(kinds())
    sectors, image, is_healthy = all_kinds[seed % len(all_kinds)]
    image, taken = bytes(image), 0
    it = Runner(ptab, put(path, image))
    for number in range(count):
        text, is_written, fresh = text_of(rng, sectors, image), rng.randrange(5) == 0, FRESH[:32 * rng.choice((6, 6, 6, 6, 1, 0))]
        fault, is_taken = fault_of(it, sectors, image, text, is_healthy, is_written, fresh)
        which = f"seed {seed}, text {number}, fresh {len(fresh) // 32}, {'written' if is_written else 'planned'}: {text}"
        if fault:
            return 0, f"{which}\n{fault}"
        if is_written and is_taken:
            put(path, image)
        elif content(path) != image:
            return 0, f"{which}: the image was changed"
        taken += is_taken
    it.close()
    for name in ("", ".json", ".plan", ".out", ".err"):
        if os.path.exists(f"{path}{name}"):
            os.remove(f"{path}{name}")
    return taken, None


def main():
    ptab = os.path.abspath(sys.argv[1])
    count = int(sys.argv[2]) if len(sys.argv) > 2 else 10_000
    workers = int(sys.argv[3]) if len(sys.argv) > 3 else os.cpu_count() or 1
    size, done = 50, 0
    with room() as folder, multiprocessing.Pool(workers) as pool:
        jobs = [(ptab, seed, size, f"{folder}/image{seed}") for seed in range((count + size - 1) // size)]
        for taken, fault in pool.imap_unordered(batch, jobs):
            if fault:
                sys.exit(fault)
            done += taken
    print(f"random tables: {len(jobs) * size} passed, 0 failed; {done} of them were taken")


main()
