"""What show --json prints: the whole table as one object of JSON, built here by docs/table.md."""
import contextlib
import json
import os
import struct
import sys

import images
from command import Command
from images import FREEBSD, LARGE, LINUX, SMALL, chained, ebr, entry, guid, label, one_partition, record
from plans import plan_file

UNKNOWN = "12345678-9abc-4def-8123-456789abcdef"
OWN_BITS = ",".join(str(bit) for bit in range(48, 64))
EMPTY = {"kind": 0, "subtype": 0, "type_name": "00" * 16, "pack_name": "00" * 16, "geometry": [0] * 4, "kept": "00" * 68, "bbsize": 8192,
         "sbsize": 0}


def text_of(told):
    """The one text of a table: members by their names, two spaces for each level."""
    return json.dumps({"partitiontable": told}, indent=2, sort_keys=True, ensure_ascii=False) + "\n"


def once(pairs):
    """The members of an object, each name once."""
    if len(dict(pairs)) != len(pairs):
        sys.exit(f"a name stands twice: {pairs}")
    return dict(pairs)


def shows(command, told, *options, device=None):
    """`show --json` prints this table, for the image or for the same by another name."""
    device = device or command.path
    told = {"device": device, "unit": "sectors", "sectorsize": command.sectors.size, **told}
    out, err, status = command.answer_at(device, "show", "--json", *options)
    if (err, status) != ("", 0):
        sys.exit(f"show --json {options} of {device}: {err}status {status}")
    found = json.loads(out, object_pairs_hook=once)
    if found != {"partitiontable": told}:
        sys.exit(f"show --json {options}:\n  found  {found}\n  wanted {told}")
    if out != text_of(told):
        sys.exit(f"show --json {options}:\n  found  {out!r}\n  wanted {text_of(told)!r}")
    Command.checked += 1
    return command


def gpt(sectors, partitions, of=SMALL, **more):
    return {"label": "gpt", "id": images.DISK.upper(), "sectors": sectors, "firstlba": of.array + 2, "lastlba": sectors - of.array - 2,
            "entries": 128, "partitions": partitions, **more}


def mbr(sectors, partitions, **more):
    return {"label": "dos", "sectors": sectors, "partitions": partitions, **more}


def node(device, number):
    return {"number": number, "node": f"{device}{'p' if device[-1] in '0123456789' else ''}{number}"}


def part(command, number, start, size, unique=images.FIRST, kind=LINUX, named="linux-generic", **more):
    """An entry, whose type has that name or none."""
    has = {} if named is None else {"type_name": named}
    return {**node(command.path, number), "start": start, "size": size, "type": kind.upper(), "uuid": unique.upper(), **has, **more}


def of_record(command, number, start, size, kind, named, **more):
    has = {} if named is None else {"type_name": named}
    return {**node(command.path, number), "start": start, "size": size, "type": kind, "start_chs": "feffff", "end_chs": "feffff", **has,
            **more}


def named(units, first=2048, last=2048):
    """An entry with a name of these units."""
    return entry(first, last)[:56] + struct.pack(f"<{len(units)}H", *units) + bytes(72 - 2 * len(units))


def names(command):
    """A name is a text, or the numbers of its units where these are none or a zero stands among them."""
    for text in ("boot", "a b", " ", "x" * 36, "\u00fc\u03a9 \u043b", "\U0001f4be", "\U0001f4be" * 18, "\U0010ffff\U00010000", "\ufeff",
                 "\uffff\ufffd", "\ue000\ud7ff", "\"\\/", "a\x01\b\t\n\f\r\x1f\x7f\x80\x9f", "\u202e\u2028", "\0"):
        units = struct.unpack(f"<{len(text.encode('utf-16-le')) // 2}H", text.encode("utf-16-le"))
        has = {} if text == "\0" else {"name": text}
        shows(command.on(SMALL.gpt(4096, {1: named(units)})), gpt(4096, [part(command, 1, 2048, 1, **has)]))
    for units in ([0xD800], [0xDFFF], [0x41, 0xDC00], [0xD83D, 0x41], [0xDCBE, 0xD83D], [0xD83D, 0xD83D, 0xDCBE], [0xD83D, 0, 0xDCBE],
                  [0x41, 0, 0x42], [0, 0x42], [0] * 35 + [1], [0x41] * 35 + [0xDBFF], [0xD83D, 0xDCBE, 0, 1], [0xD800] * 36):
        shows(command.on(SMALL.gpt(4096, {1: named(units)})), gpt(4096, [part(command, 1, 2048, 1, name_units=units)]))


def attributes(command):
    """The number, and sfdisk's words, which leave out bits 3 to 47."""
    words = (("RequiredPartition", 0), ("NoBlockIOProtocol", 1), ("LegacyBIOSBootable", 2))
    wanted = {0: None, 3: "RequiredPartition NoBlockIOProtocol", 7: "RequiredPartition NoBlockIOProtocol LegacyBIOSBootable",
              2 ** 48 - 8: None, 2 ** 64 - 2 ** 48: f"GUID:{OWN_BITS}",
              2 ** 64 - 1: f"RequiredPartition NoBlockIOProtocol LegacyBIOSBootable GUID:{OWN_BITS}",
              2 ** 63 + 2 ** 60 + 1: "RequiredPartition GUID:60,63", 2 ** 48 + 2 ** 47 + 4: "LegacyBIOSBootable GUID:48"}
    wanted |= {2 ** bit: word for word, bit in words}
    wanted |= {2 ** bit: None for bit in range(3, 48)} | {2 ** bit: f"GUID:{bit}" for bit in range(48, 64)}
    for value, text in wanted.items():
        has = {} if value == 0 else {"attributes": value}
        has |= {} if text is None else {"attrs": text}
        shows(command.on(SMALL.gpt(4096, {1: entry(2048, 2048, attributes=value)})), gpt(4096, [part(command, 1, 2048, 1, **has)]))


def types(command):
    """A type is its GUID, with the first name that the list of types has for it."""
    for kind, name in (("C12A7328-F81F-11D2-BA4B-00A0C93EC93B", "esp"), ("0657FD6D-A4AB-43C4-84E5-0933C84B4F4F", "swap"),
                       ("4F68BCE3-E8CD-4DB1-96E7-FBCAF984B709", "root-x86-64"), ("EBD0A0A2-B9E5-4433-87C0-68B6B72699C7", "microsoft-basic"),
                       ("E6D6D379-F507-44C2-A23C-238F2A3DF928", "lvm"), (UNKNOWN, None), ("F" * 8 + "-FFFF-FFFF-FFFF-" + "F" * 12, None)):
        image = SMALL.gpt(4096, {1: entry(2048, 3000, kind, UNKNOWN)})
        shows(command.on(image), gpt(4096, [part(command, 1, 2048, 953, UNKNOWN, kind, name)]))


def ends(command):
    """A size, or the last sector where there is none: the first one lies behind it, or the size has more than 64 bits."""
    shows(command.on(SMALL.gpt(4096, {})), gpt(4096, []))
    for first, last, end in ((34, 34, {"size": 1}), (0, 2 ** 64 - 2, {"size": 2 ** 64 - 1}), (0, 2 ** 64 - 1, {"last": 2 ** 64 - 1}),
                             (1, 2 ** 64 - 1, {"size": 2 ** 64 - 1}), (3000, 2999, {"last": 2999}), (2 ** 64 - 1, 0, {"last": 0}),
                             (2 ** 64 - 1, 2 ** 64 - 1, {"size": 1})):
        told = {name: value for name, value in part(command, 7, first, 0).items() if name != "size"}
        shows(command.on(SMALL.gpt(4096, {7: entry(first, last)})), gpt(4096, [{**told, **end}]))
    numbers = (1, 2, 100, 128)
    image = SMALL.gpt(8192, {k: entry(5000 - k, 5000 - k, unique=guid(k)) for k in numbers})
    shows(command.on(image), gpt(8192, [part(command, k, 5000 - k, 1, guid(k)) for k in numbers]))
    few = SMALL.gpt(4096, {4: entry(2048, 2048)}, count=4, first=100, last=3000)
    shows(command.on(few), gpt(4096, [part(command, 4, 2048, 1)], entries=4, firstlba=100, lastlba=3000))


def told_label(length, parts, raw_offset=0, count=8, **more):
    """A label's object, of the parts {index: (size, offset, fstype)}."""
    parts = {2: (length, raw_offset, 0), **parts}
    entries = [dict(zip(("size", "offset", "fstype", "fragment", "frag", "cpg"), (*parts.get(k, (0, 0, 0)), 0, 0, 0))) for k in range(8)]
    return {**EMPTY, "unit": length, "entries": entries[:count] + [None] * (8 - count), **more}


def own_label(length):
    """(the label's bytes, its object), each field of which has a value of its own."""
    it = bytearray(label(length, {0: (100, 16, 7), 3: (7, 116, 1)}, count=5))
    it[4:40] = struct.pack("<HH", 0x0102, 0x0304) + bytes(range(200, 232))
    it[44:60] = struct.pack("<IIII", 63, 255, 1024, 16065)
    it[60:132] = struct.pack("<I", 2 ** 32 - 1) + bytes(range(68))
    it[140:148] = struct.pack("<II", 4096, 65536)
    it[148 + 8:148 + 16] = struct.pack("<IBBH", 1024, 255, 8, 22)
    it[136:138] = bytes(2)
    total = 0
    for (word,) in struct.iter_unpack("<H", it[:148 + 16 * 5]):
        total ^= word
    it[136:138] = struct.pack("<H", total)
    told = told_label(length, {0: (100, 16, 7), 3: (7, 116, 1)}, count=5, kind=0x0102, subtype=0x0304, unit=2 ** 32 - 1, bbsize=4096,
                      sbsize=65536, type_name=bytes(range(200, 216)).hex(), pack_name=bytes(range(216, 232)).hex(),
                      geometry=[63, 255, 1024, 16065], kept=bytes(range(68)).hex())
    told["entries"][0] |= {"fragment": 1024, "fstype": 255, "frag": 8, "cpg": 22}
    return bytes(it), told


def slices(command):
    """A slice has its label beside it, or null; another type has neither."""
    image = SMALL.gpt(8192, {1: entry(2048, 3047, FREEBSD), 2: entry(3048, 4047, FREEBSD, guid(2)), 3: entry(4048, 5047, unique=guid(3)),
                             4: entry(5048, 6047, FREEBSD, guid(4))})
    parts = {0: (30, 16, 7), 7: (9, 500, 1)}
    content, own = own_label(1000)
    for lba, it in ((2049, label(1000, parts)), (4049, label(1000, parts)), (5049, content)):
        SMALL.put(image, lba, it)
    told = [part(command, 1, 2048, 1000, kind=FREEBSD, named="freebsd", bsd=told_label(1000, parts)),
            part(command, 2, 3048, 1000, guid(2), FREEBSD, "freebsd", bsd=None), part(command, 3, 4048, 1000, guid(3)),
            part(command, 4, 5048, 1000, guid(4), FREEBSD, "freebsd", bsd=own)]
    shows(command.on(image), gpt(8192, told))
    # a label of the disk's own sectors, one that counts three entries, and one that is another slice's
    image = SMALL.mbr(8192, [record(0xA5, 2048, 1000), record(0xA5, 3048, 1000), record(0xA5, 4048, 1000), record(0xA6, 5048, 1000)])
    for lba, it in ((2049, label(1000, {0: (30, 2064, 7)}, raw_offset=2048)), (3049, label(1000, {0: (30, 16, 7)}, count=3)),
                    (4049, label(999, {})), (5049, label(1000, {}))):
        SMALL.put(image, lba, it)
    told = [of_record(command, 1, 2048, 1000, "a5", "freebsd", bsd=told_label(1000, {0: (30, 2064, 7)}, 2048)),
            of_record(command, 2, 3048, 1000, "a5", "freebsd", bsd=told_label(1000, {0: (30, 16, 7)}, count=3)),
            of_record(command, 3, 4048, 1000, "a5", "freebsd", bsd=None), of_record(command, 4, 5048, 1000, "a6", "openbsd")]
    shows(command.on(image), mbr(8192, told))


def records(command):
    shows(command.on(SMALL.mbr(4096, [])), mbr(4096, []))
    image = SMALL.mbr(4096, [record(0x83, 1, 9, 0x80, b"\0\2\0", b"\x0a\xbc\xde"), bytes(16), record(0x0C, 0, 2 ** 32 - 1, 0x80),
                             record(0x01, 2 ** 32 - 1, 1)])
    told = [of_record(command, 1, 1, 9, "83", "linux", bootable=True, start_chs="000200", end_chs="0abcde"),
            of_record(command, 3, 0, 2 ** 32 - 1, "c", "fat32-lba", bootable=True), of_record(command, 4, 2 ** 32 - 1, 1, "1", "fat12")]
    shows(command.on(image), mbr(4096, told))
    # the disk signature is no part of a table
    image[440:446] = b"\x11\x22\x33\x44\x55\x66"
    shows(command.on(image), mbr(4096, told))
    for kind, text, name in ((0x07, "7", "ntfs"), (0xEF, "ef", "esp"), (0x82, "82", "swap"), (0x10, "10", None), (0xFF, "ff", None),
                             (0x02, "2", None)):
        shows(command.on(SMALL.mbr(4096, [record(kind, 9, 1)])), mbr(4096, [of_record(command, 1, 9, 1, text, name)]))


def logicals(command):
    """A logical partition says where its record is, and the chain lists all records, the empty ones too."""
    for kind, text, name in ((0x05, "5", "extended"), (0x0F, "f", "extended-lba")):
        outer = of_record(command, 2, 4096, 8192, text, name)
        shows(command.on(chained({4096: ebr()}, kind=kind)), mbr(16384, [outer], chain=[4096]))
        ebrs = {4096: ebr(link=record(0x05, 10, 990)), 4106: ebr(record(0x83, 1, 100, 0x80), record(0x0F, 2000, 100)),
                6096: ebr(link=record(0x05, 3000, 100)), 7096: ebr(record(0xA5, 2, 90, end_chs=b"\1\2\3"), record(0x05, 4000, 100)),
                8096: ebr(record(0xA5, 63, 1000))}
        image = chained(ebrs, kind=kind)
        SMALL.put(image, 8096 + 64, label(1000, {1: (40, 16, 1)}))
        told = [outer, of_record(command, 5, 4107, 100, "83", "linux", record=4106, bootable=True),
                of_record(command, 6, 7098, 90, "a5", "freebsd", record=7096, end_chs="010203", bsd=None),
                of_record(command, 7, 8159, 1000, "a5", "freebsd", record=8096, bsd=told_label(1000, {1: (40, 16, 1)}))]
        shows(command.on(image), mbr(16384, told, chain=[4096, 4106, 6096, 7096, 8096]))


def after(command):
    """The table that a plan leaves, or the checker's no."""
    command.on(one_partition())
    plan = command.answer("plan", "c:1:data", "A:1:2:1", "t:1:8200")[0]
    swap = part(command, 1, 2048, 2015, kind="0657FD6D-A4AB-43C4-84E5-0933C84B4F4F", named="swap")
    told = gpt(4096, [{**swap, "name": "data", "attributes": 4, "attrs": "LegacyBIOSBootable"}])
    shows(command, told, "--after", plan_file(command, plan))
    shows(command, gpt(4096, [part(command, 1, 2048, 2015)]), "--after", plan_file(command, []))
    command.gives(["show", "--json", "--after", plan_file(command, [[(0, bytes(512))]])], "no 8 6\n", status=1)
    command.gives(["show", "--json", "--after", plan_file(command, "x")], "", "refused: plan text 1\n", 3)
    command.on(SMALL.zeros(4096)).gives(["show", "--json", "--after", plan_file(command, [])], "no 8 1\n", status=1)


def copies(command):
    image = one_partition()
    SMALL.put_side(image, "backup", {1: entry(2048, 2999, name="other")})
    command.on(image)
    shows(command, gpt(4096, [part(command, 1, 2048, 2015)]))
    shows(command, gpt(4096, [part(command, 1, 2048, 2015)]), "--copy", "primary")
    shows(command, gpt(4096, [part(command, 1, 2048, 952, name="other")]), "--copy", "backup")
    SMALL.put(image, 1, bytes(512))
    command.on(image).gives(["show", "--json", "--copy", "primary"], "", "no table: primary copy 1\n", 4)
    shows(command, gpt(4096, [part(command, 1, 2048, 952, name="other")]))
    command.gives(["show", "--json", "--copy", "first"], "", "bad copy\n", 2)


def of_nothing(command):
    two = SMALL.mbr(4096, [record(0x05, 20, 10), record(0x0F, 40, 10)])
    for image, why in ((SMALL.zeros(4096), "copies 1 1"), (SMALL.zeros(67), "too small"), (two, "two extended"),
                       (SMALL.mbr(16384, [record(0x05, 20, 8192)]), "chain 1 20")):
        command.on(image).gives(["show", "--json"], "", f"no table: {why}\n", 4)


def devices(command):
    """The name of the image as it is given; a partition's node has a p where that ends with a digit."""
    folder, image = os.path.dirname(command.path), one_partition()
    for name in ("disk0", "disk9.img", "9", "a\"b\\c 7", "\u00fc\U0001f4be", "\u0663", "\x01\x7f", f"../{os.path.basename(folder)}/./x1"):
        it = Command(command.ptab, f"{folder}/{name}").on(image)
        shows(it, gpt(4096, [part(it, 1, 2048, 2015)]))
        os.unlink(it.path)
    # other rows go on in this process, once the folder is gone
    with contextlib.chdir(folder):
        it = Command(command.ptab, "1").on(SMALL.mbr(4096, [record(0x83, 9, 1)]))
        shows(it, mbr(4096, [{**of_record(it, 1, 9, 1, "83", "linux"), "node": "1p1"}]))


def large(command):
    """Sectors of 4096 bytes, where no label is read."""
    it = command.large()
    shows(it.on(LARGE.gpt(256, {})), gpt(256, [], LARGE))
    image = LARGE.gpt(256, {1: entry(6, 99, FREEBSD), 2: entry(100, 250, unique=guid(2), name="root")})
    LARGE.put(image, 7, label(94, {}))
    told = [part(it, 1, 6, 94, kind=FREEBSD, named="freebsd", bsd=None), part(it, 2, 100, 151, guid(2), name="root")]
    shows(it.on(image), gpt(256, told, LARGE))
    shows(it, gpt(256, told, LARGE), "--copy", "backup")
    shows(it.on(LARGE.mbr(256, [record(0x83, 9, 1)])), mbr(256, [of_record(it, 1, 9, 1, "83", "linux")]))


ROWS = (names, attributes, types, ends, slices, records, logicals, after, copies, of_nothing, devices, large)
