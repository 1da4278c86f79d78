"""Every word on every kind of table, for both sizes of sectors: it is done, and shown, or refused by its number."""
import random
import re
from functools import partial

import images
from images import FREEBSD, LARGE, SMALL, ebr, entry, guid, label, record
from plans import refused, same, turns

GUIDS = [guid(k) for k in range(101, 109)]
FRESH = "--fresh " + "".join(text.replace("-", "") for text in GUIDS)
NOT_ON_MBR = {word: "edit 9" for word in ("c:1:x", f"u:1:{guid(9)}", f"U:{guid(9)}", "A:1:2:1", "e", "c:9:x")}
FOR_SLICES = {"n:1.a:0:0": "edit 1", "d:1.a": "edit 1", "t:1.a:07": "edit 1", "n:9.a:0:0": "edit 1"}


def of_gpt(number, first, last, code="8300", unique=images.FIRST, attributes=0, name=""):
    return f"{number} {first} {last} {code} {attributes:016x} {unique}" + (f" {name}" if name else "")


def gpt(command):
    """A GPT with a partition and a slice with a label."""
    image = SMALL.gpt(8192, {1: entry(2048, 4095), 2: entry(4096, 6143, FREEBSD, guid(2))})
    SMALL.put(image, 4097, label(2048, {0: (100, 16, 7)}))
    head = f"gpt 8192 34 8158 {images.DISK}"
    base = {"": head, "1": of_gpt(1, 2048, 4095), "2": of_gpt(2, 4096, 6143, "A500", guid(2)), "2.a": "2.a 4112 4211 07"}
    words = {
        "a:1": {}, "e": {}, "g": "edit 9", "o": {"": head.replace(images.DISK, GUIDS[0]), "1": None, "2": None, "2.a": None},
        "n:0:0:0": {"3": of_gpt(3, 6144, 8158, unique=GUIDS[0])}, "n:4:0:+10:EF00": {"4": of_gpt(4, 6144, 6153, "EF00", GUIDS[0])},
        "n:3:0:0:A500": {"3": of_gpt(3, 6144, 8158, "A500", GUIDS[0])}, "a:1 n:2.b:0:0": {"2.b": "2.b 4212 6143 07"},
        "n:2.b:0:0": "edit 3", "n:2.a:0:0": "edit 2", "n:2.c:0:0": "edit 8", "n:1:0:0": "edit 2", "n:129:0:0": "edit 1",
        "n:0:0:0:83": "edit 6", "n:5:2048:0": "edit 5", "n:5:8192:0": "edit 4", "a:1 n:5:6144:6144:A500": "edit 8",
        "d:1": {"1": None}, "d:2": {"2": None, "2.a": None}, "d:2.a": {"2.a": None}, "d:3": "edit 1", "d:2.b": "edit 1", "d:2.c": "edit 8",
        "t:1:8200": {"1": of_gpt(1, 2048, 4095, "8200")}, "t:2.a:01": {"2.a": "2.a 4112 4211 01"}, "t:2:8300": "edit 8",
        "t:1:A500": "edit 8", "t:1:83": "edit 6", "t:2.a:8300": "edit 6", "t:2.b:07": "edit 1", "t:3:8300": "edit 1",
        "c:1:x": {"1": of_gpt(1, 2048, 4095, name="x")}, "c:2:y z": {"2": of_gpt(2, 4096, 6143, "A500", guid(2), name="y z")},
        "c:3:x": "edit 1", "c:1:" + "x" * 37: "edit 7", f"u:1:{guid(9)}": {"1": of_gpt(1, 2048, 4095, unique=guid(9))},
        f"u:1:{guid(2)}": "edit 11", f"U:{guid(9)}": {"": head.replace(images.DISK, guid(9))},
        "A:1:2:1": {"1": of_gpt(1, 2048, 4095, attributes=4)}, "A:3:2:1": "edit 1", **FOR_SLICES}
    return command, image, base, words


def mbr(command):
    """An MBR with a partition and a slice with a label."""
    image = SMALL.mbr(8192, [record(0x83, 2048, 2048, 0x80), bytes(16), record(0xA5, 4096, 2048)])
    SMALL.put(image, 4097, label(2048, {0: (100, 16, 7)}))
    base = {"": "mbr 8192", "1": "1 2048 4095 83 80", "3": "3 4096 6143 A5 00", "3.a": "3.a 4112 4211 07"}
    words = {
        "a:1": {}, "o": {"": f"gpt 8192 34 8158 {GUIDS[0]}", "1": None, "3": None, "3.a": None},
        "g": {"": f"gpt 8192 34 8158 {GUIDS[0]}", "1": of_gpt(1, 2048, 4095, unique=GUIDS[1]),
              "3": of_gpt(3, 4096, 6143, "A500", GUIDS[2])},
        "n:0:0:0": {"2": "2 6144 8191 83 00"}, "n:4:0:+10:ef": {"4": "4 6144 6153 EF 00"}, "n:2:0:0:A5": {"2": "2 6144 8191 A5 00"},
        "n:2:0:0:05": {"2": "2 6144 8191 05 00"}, "n:2:0:0:0F": {"2": "2 6144 8191 0F 00"}, "n:5:0:0": "edit 1", "n:6:0:0": "edit 1",
        "a:1 n:3.b:0:0": {"3.b": "3.b 4212 6143 07"}, "n:3.b:0:0": "edit 3", "n:3.a:0:0": "edit 2", "n:3.c:0:0": "edit 8",
        "n:1:0:0": "edit 2", "n:2:0:0:8300": "edit 6", "n:2:0:0:EE": "edit 6", "n:2:4096:0": "edit 5", "n:2:8192:0": "edit 4",
        "d:1": {"1": None}, "d:3": {"3": None, "3.a": None}, "d:3.a": {"3.a": None}, "d:2": "edit 1", "d:5": "edit 1", "d:3.b": "edit 1",
        "d:3.c": "edit 8", "t:1:07": {"1": "1 2048 4095 07 80"}, "t:3.a:01": {"3.a": "3.a 4112 4211 01"}, "t:1:A5": "edit 8",
        "t:1:05": "edit 8", "t:3:83": "edit 8", "t:1:00": "edit 6", "t:1:8300": "edit 6", "t:3.a:00": "edit 6", "t:2:07": "edit 1",
        **NOT_ON_MBR, **FOR_SLICES}
    return command, image, base, words


def chain(command):
    """An MBR with an extended partition, a logical, and a logical slice with a label."""
    image = SMALL.mbr(16384, [record(0x83, 2048, 2048), record(0x05, 4096, 8192)])
    for lba, content in ((4096, ebr(link=record(0x05, 2047, 1001))), (6143, ebr(record(0x83, 1, 1000), record(0x05, 4095, 1001))),
                         (8191, ebr(record(0xA5, 1, 1000))), (8193, label(1000, {0: (100, 16, 7)}))):
        SMALL.put(image, lba, content)
    gone = {"2": None, "5": None, "6": None, "6.a": None}
    base = {"": "mbr 16384", "1": "1 2048 4095 83 00", "2": "2 4096 12287 05 00", "5": "5 6144 7143 83 00", "6": "6 8192 9191 A5 00",
            "6.a": "6.a 8208 8307 07"}
    head = f"gpt 16384 34 16350 {GUIDS[0]}"
    words = {
        "a:1": {}, "o": {"": head, "1": None, **gone},
        "g": {"": head, "1": of_gpt(1, 2048, 4095, unique=GUIDS[1]), "2": None, "5": of_gpt(5, 6144, 7143, unique=GUIDS[2]),
              "6": of_gpt(6, 8192, 9191, "A500", GUIDS[3])},
        "n:0:0:0": {"3": "3 12288 16383 83 00"}, "n:3:0:0:A5": {"3": "3 12288 16383 A5 00"}, "n:3:0:0:05": "edit 8",
        "n:5:0:0": {"7": "7 10240 12287 83 00"}, "n:5:0:+5:A5": {"7": "7 10240 10244 A5 00"}, "n:5:0:0:0F": "edit 8", "n:6:0:0": "edit 1",
        "a:1 n:5:4097:+5": {"5": "5 4097 4101 83 00", "6": "6 6144 7143 83 00", "6.a": None, "7": "7 8192 9191 A5 00",
                            "7.a": "7.a 8208 8307 07"},
        "n:5:6144:0": "edit 5", "n:5:4096:0": "edit 5", "n:5:12288:0": "edit 4", "n:5:2048:0": "edit 4", "n:3:4096:0": "edit 5",
        "a:1 n:6.b:0:0": {"6.b": "6.b 8308 9191 07"}, "n:5.b:0:0": "edit 1", "n:2.b:0:0": "edit 1", "n:6.a:0:0": "edit 2",
        "d:1": {"1": None}, "d:2": gone, "d:5": {"5": "5 8192 9191 A5 00", "5.a": "5.a 8208 8307 07", "6": None, "6.a": None},
        "d:6": {"6": None, "6.a": None}, "d:6.a": {"6.a": None}, "d:7": "edit 1", "d:3": "edit 1", "d:5.a": "edit 1", "d:6.c": "edit 8",
        "t:1:07": {"1": "1 2048 4095 07 00"}, "t:5:82": {"5": "5 6144 7143 82 00"}, "t:6.a:01": {"6.a": "6.a 8208 8307 01"},
        "t:2:83": "edit 8", "t:2:0F": "edit 8", "t:6:83": "edit 8", "t:5:05": "edit 8", "t:5:A5": "edit 8", "t:5:EE": "edit 6",
        "t:7:83": "edit 1", **NOT_ON_MBR, **FOR_SLICES}
    return command, image, base, words


def large_gpt(command):
    image = LARGE.gpt(2048, {1: entry(256, 511), 2: entry(512, 767, FREEBSD, guid(2))})
    head = f"gpt 2048 6 2042 {images.DISK}"
    base = {"": head, "1": of_gpt(1, 256, 511), "2": of_gpt(2, 512, 767, "A500", guid(2))}
    words = {
        "a:1": {}, "e": {}, "g": "edit 9", "o": {"": head.replace(images.DISK, GUIDS[0]), "1": None, "2": None},
        "n:0:0:0": {"3": of_gpt(3, 768, 2042, unique=GUIDS[0])}, "n:0:0:+1:A500": {"3": of_gpt(3, 768, 768, "A500", GUIDS[0])},
        "n:1:0:0": "edit 2", "n:129:0:0": "edit 1", "n:2.a:0:0": "edit 1", "n:3:2043:0": "edit 4", "d:1": {"1": None}, "d:2": {"2": None},
        "d:2.a": "edit 1", "d:3": "edit 1", "t:1:A500": {"1": of_gpt(1, 256, 511, "A500")},
        "t:2:8300": {"2": of_gpt(2, 512, 767, unique=guid(2))}, "t:2.a:07": "edit 1", "t:1:07": "edit 6",
        "c:2:x": {"2": of_gpt(2, 512, 767, "A500", guid(2), name="x")}, f"u:1:{guid(9)}": {"1": of_gpt(1, 256, 511, unique=guid(9))},
        f"u:1:{guid(2)}": "edit 11", f"U:{guid(9)}": {"": head.replace(images.DISK, guid(9))},
        "A:2:63:1": {"2": of_gpt(2, 512, 767, "A500", guid(2), 1 << 63)}, **FOR_SLICES}
    return command.large(), image, base, words


def large_mbr(command):
    image = LARGE.mbr(2048, [record(0x83, 256, 256), record(0xA5, 512, 256), record(0x05, 1024, 512)])
    LARGE.put(image, 1024, ebr(link=record(0x05, 255, 101)))
    LARGE.put(image, 1279, ebr(record(0x83, 1, 100)))
    base = {"": "mbr 2048", "1": "1 256 511 83 00", "2": "2 512 767 A5 00", "3": "3 1024 1535 05 00", "5": "5 1280 1379 83 00"}
    head = f"gpt 2048 6 2042 {GUIDS[0]}"
    words = {
        "a:1": {}, "o": {"": head, "1": None, "2": None, "3": None, "5": None},
        "g": {"": head, "1": of_gpt(1, 256, 511, unique=GUIDS[1]), "2": of_gpt(2, 512, 767, "A500", GUIDS[2]), "3": None,
              "5": of_gpt(5, 1280, 1379, unique=GUIDS[3])},
        "n:0:0:0": {"4": "4 1536 2047 83 00"}, "n:4:768:+1:A5": {"4": "4 768 768 A5 00"}, "n:4:0:0:0F": "edit 8", "n:5:0:0": "edit 3",
        "a:1 n:5:0:0": {"5": "5 1026 1278 83 00", "6": "6 1280 1379 83 00"}, "a:1 n:5:1025:+1": {
            "5": "5 1025 1025 83 00", "6": "6 1280 1379 83 00"}, "n:2.a:0:0": "edit 1",
        "d:1": {"1": None}, "d:2": {"2": None}, "d:3": {"3": None, "5": None}, "d:5": {"5": None}, "d:4": "edit 1", "d:2.a": "edit 1",
        "t:1:A5": {"1": "1 256 511 A5 00"}, "t:2:83": {"2": "2 512 767 83 00"}, "t:5:A5": {"5": "5 1280 1379 A5 00"}, "t:3:83": "edit 8",
        "t:1:05": "edit 8", "t:5:0F": "edit 8", "t:2.a:07": "edit 1", "t:5:EE": "edit 6", **NOT_ON_MBR, **FOR_SLICES}
    return command.large(), image, base, words


TABLES = (gpt, mbr, chain, large_gpt, large_mbr)


def path_order(path):
    number, _, letter = path.partition(".")
    return int(number or 0), letter


def given_as(word):
    """The words of a call, after its fresh GUIDs; a name may hold spaces."""
    return [word] if word.startswith("c:") else word.split(" ")


def singly(table, command):
    it, image, base, words = table(command)
    it.on(image).shows(*base.values()).healthy()
    for word, wanted in words.items():
        given = [*FRESH.split(" "), *given_as(word)]
        if isinstance(wanted, str):
            refused(it.on(image), wanted, given)
        else:
            lines = {path: line for path, line in {**base, **wanted}.items() if line is not None}
            turns(it, image, given, None, None, [lines[path] for path in sorted(lines, key=path_order)])


def in_pairs(table, command):
    """Two words in one call: done, with a healthy table as both commands say, or refused by a number."""
    it, image, _, words = table(command)
    rng = random.Random(7)
    known = re.compile(r"refused: (edit ([1-9]|1[0-35])|plan [1-3])\n")
    for _ in range(60):
        given = FRESH.split(" ") + [part for word in rng.sample(sorted(words), 2) for part in given_as(word)]
        out, err, status = it.on(image).run("plan", *given)
        if status == 0:
            turns(it, image, given, None, None)
        else:
            same(f"plan {given}: {out}{err}", (status, bool(known.fullmatch(err))), (3, True))
            same("edit", it.run("edit", *given), (out, err, status))
            same("an image after a refusal", it.image() == bytes(image), True)


def on_nothing(command):
    for it, sectors, head in ((command, SMALL, f"gpt 4096 34 4062 {GUIDS[0]}"), (command.large(), LARGE, f"gpt 4096 6 4090 {GUIDS[0]}")):
        blank = sectors.zeros(4096)
        it.on(blank)
        for word in ("a:1", "n:1:0:0", "d:1", "t:1:83", "c:1:x", f"u:1:{guid(1)}", f"U:{guid(1)}", "A:1:1:1", "e", "g", "n:1.a:0:0", "d:5"):
            for verb in ("edit", "plan"):
                it.gives([verb, *FRESH.split(" "), word], "", "no table: copies 1 1\n", 4)
        turns(it, blank, f"{FRESH} o", None, None, [head])
        turns(it, blank, f"{FRESH} a:8 o", None, None, [head])


ROWS = (*(partial(singly, table) for table in TABLES), *(partial(in_pairs, table) for table in TABLES), on_nothing)
