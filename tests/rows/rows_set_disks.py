"""`set` on disks of all kinds: what is kept of a GPT, fresh GUIDs, labels of slices, sectors of 4096 bytes, MBRs; texts of sfdisk, texts
that are no JSON, the order of faults, and TABLE as a file, a pipe and standard input. The tables that are wanted are worked out by hand."""
import fcntl
import json
import os
import subprocess

import images
from images import FREEBSD, LARGE, LINUX, SMALL, chained, ebr, entry, guid, label, record
from plans import same
from rows_json import gpt, own_label, shows, told_label
from rows_set import COUNT, DRAWN, ESP, FRESH, SWAP, blank, faulty, file_of, refused, taken, text_of, wanted
from tools import must


def whole():
    """A GPT with three partitions, of which each has everything."""
    entries = {1: entry(2048, 3047, ESP, guid(1), 4, "boot"), 2: entry(4096, 5095, LINUX, guid(2), 2 ** 60, "root"),
               5: entry(6144, 7000, SWAP, guid(5))}
    return SMALL.gpt(COUNT, entries)


def what_is_kept(command):
    """Of a GPT that was there: its GUID, its first usable sector, its room, and the GUIDs of partitions by their numbers."""
    was = SMALL.gpt(COUNT, {1: entry(2048, 3047, ESP, guid(1), 4, "boot"), 3: entry(4096, 5095, LINUX, guid(3))}, count=8, first=64,
                    last=8000)
    of = {"id": images.DISK.upper(), "firstlba": 64, "entries": 8}
    for parts, more, rows, has in (
            ([], {}, [], {}), ([{"size": 9}], {}, [(1, 2048, 9, guid(1))], {}),
            ([{"size": 9}, {"size": 9}, {"size": 9}], {}, [(1, 2048, 9, guid(1)), (2, 4096, 9, DRAWN[0]), (3, 6144, 9, guid(3))], {}),
            ([{"number": 3}], {}, [(3, 2048, 6111, guid(3))], {}), ([{"number": 8}], {}, [(8, 2048, 6111, DRAWN[0])], {}),
            ([{"number": 1, "uuid": guid(3), "size": 9}, {"number": 3, "uuid": guid(1), "size": 9}], {},
             [(1, 2048, 9, guid(3)), (3, 4096, 9, guid(1))], {}),
            ([{"start": 4096, "size": 1000, "name": "moved"}], {}, [(1, 4096, 1000, guid(1), {"name": "moved"})], {}),
            ([], {"id": guid(9)}, [], {"id": guid(9).upper()}), ([], {"firstlba": 34}, [], {"firstlba": 34}),
            ([], {"entries": 128}, [], {"entries": 128}), ([], {"lastlba": 7000}, [], {"lastlba": 7000}),
            ([{"number": 1, "size": 9}, {"number": 3, "size": 9}], {"entries": 3}, [(1, 2048, 9, guid(1)), (3, 4096, 9, guid(3))],
             {"entries": 3})):
        taken(command, was, text_of(parts, **more), wanted(command, rows, **{**of, **has}), FRESH)
    faulty(command, was, text_of([{"number": 9}]), "number 1")
    faulty(command, was, text_of([{}] * 9), "partitions")
    # of a partition nothing else is kept
    taken(command, whole(), text_of([{"start": 2048, "size": 1000}, {"start": 4096, "size": 1000, "number": 2}]),
          wanted(command, [(1, 2048, 1000, guid(1)), (2, 4096, 1000, guid(2))], id=images.DISK.upper()), None)
    # a disk that has grown, from either copy
    for number in (None, 1, COUNT - 1):
        grown = whole()
        if number:
            SMALL.put(grown, number, bytes(512))
        grown += bytes(1000 * 512)
        if number == COUNT - 1 or number is None:
            taken(command, grown, text_of([{"number": 5}]), wanted(command, [(5, 2048, 7111, guid(5))], COUNT + 1000,
                                                                   id=images.DISK.upper()), None)
        else:
            faulty(command, grown, text_of([]), "id", fresh=None)
            taken(command, grown, text_of([]), wanted(command, [], COUNT + 1000))
    for number in (0, 1, COUNT - 1):
        lost = whole()
        SMALL.put(lost, number, bytes(512))
        taken(command, lost, text_of([{"number": 2, "size": 3}]), wanted(command, [(2, 2048, 3, guid(2))], id=images.DISK.upper()), None)


def fresh_guids(command):
    """The disk's comes first, and then those of partitions in the order of the text; what isn't left out takes none."""
    parts = [{"size": 9, "number": 3}, {"size": 9, "uuid": guid(7), "number": 2}, {"size": 9, "number": 1}]
    taken(command, blank(), text_of(parts), wanted(command, [(1, 6144, 9, DRAWN[2]), (2, 4096, 9, guid(7)), (3, 2048, 9, DRAWN[1])]),
          FRESH[:96])
    taken(command, blank(), text_of(parts, id=guid(8)),
          wanted(command, [(1, 6144, 9, DRAWN[1]), (2, 4096, 9, guid(7)), (3, 2048, 9, DRAWN[0])], id=guid(8).upper()), FRESH[:64])
    taken(command, blank(), text_of([{"size": 9, "uuid": guid(7)}], id=guid(8)), wanted(command, [(1, 2048, 9, guid(7))],
                                                                                        id=guid(8).upper()), None)
    for fresh, key in ((None, "id"), ("", "id"), (FRESH[:32], "uuid 1"), (FRESH[:64], "uuid 3")):
        faulty(command, blank(), text_of(parts), key, fresh=fresh)
    faulty(command, blank(), text_of(parts, id=guid(8)), "uuid 1", fresh="")
    # the bits of version 4
    told = gpt(COUNT, [], id="FFFFFFFF-FFFF-4FFF-BFFF-FFFFFFFFFFFF")
    taken(command, blank(), text_of([]), told, "F" * 32)
    for fresh in ("0", "0" * 31, "0" * 33, "g" * 32, "0" * 63, f"{FRESH} ", DRAWN[0]):
        refused(command, blank(), "no text", "bad fresh", fresh, 2)


def slices(command):
    """Labels of slices: as the text says, or as they were, or empty ones."""
    content, own = own_label(1000)
    image = SMALL.gpt(COUNT, {1: entry(2048, 3047, FREEBSD, guid(1)), 2: entry(4096, 5095, FREEBSD, guid(2)), 3: entry(6144, 6343, LINUX,
                                                                                                                       guid(3))})
    SMALL.put(image, 2049, content)
    one, two, three = ({"start": 2048, "size": 1000, "type": "freebsd"}, {"start": 4096, "size": 1000, "type": "A500"},
                       {"start": 6144, "size": 200})

    def makes(text, *labels, more=(), on=image):
        rows = [(k, 2048 * k, 1000, guid(k), {"kind": FREEBSD, "bsd": it}) for k, it in enumerate(labels, 1)]
        taken(command, on, text, wanted(command, [*rows, *more], id=images.DISK.upper()), None)
    rest = (3, 6144, 200, guid(3))
    makes(text_of([one, two, three]), own, None, more=[rest])
    makes(text_of([{**one, "bsd": own}, {**two, "bsd": None}, three]), own, None, more=[rest])
    makes(text_of([one, two]), own, None)
    # a label that was not there, or that changes, and nothing else
    makes(text_of([one, {**two, "bsd": told_label(1000, {0: (30, 16, 7)})}, three]), own, told_label(1000, {0: (30, 16, 7)}), more=[rest])
    makes(text_of([{**one, "bsd": told_label(1000, {})}, two, three]), told_label(1000, {}), None, more=[rest])
    makes(text_of([{**one, "bsd": told_label(1000, {0: (5, 2100, 7)}, 2048)}, two, three]), told_label(1000, {0: (5, 2100, 7)}, 2048), None,
          more=[rest])
    clean = SMALL.gpt(COUNT, {3: entry(6144, 6343, LINUX, guid(3))})
    for bsd in ({}, {"bsd": told_label(1000, {})}):
        makes(text_of([{**one, "uuid": guid(1), **bsd}, {**two, "uuid": guid(2), "bsd": None}, three]), told_label(1000, {}), None,
              more=[rest], on=clean)
    makes(text_of([{**one, "uuid": guid(1), "bsd": own}, {**two, "uuid": guid(2)}]), own, told_label(1000, {}), on=clean)
    # with the disk's own sectors, and of three entries
    for bsd in (told_label(1000, {0: (5, 2100, 7)}, 2048), told_label(1000, {}, count=3), told_label(1000, {7: (984, 16, 1)})):
        makes(text_of([{**one, "uuid": guid(1), "bsd": bsd}]), bsd, on=clean)
    # a slice elsewhere has an empty label, whatever the one of its number had
    image_of_others = SMALL.gpt(COUNT, {2: entry(4096, 5095, LINUX, guid(2))})
    makes(text_of([{**one, "uuid": guid(1)}]), told_label(1000, {}), on=image_of_others)
    for text, why in (
            (text_of([{**one, "bsd": None}, two]), "plan 4"), (text_of([{**one, "bsd": told_label(1000, {}), "name": "x"}, two]), "plan 1"),
            (text_of([{**one, "bsd": told_label(1000, {})}, {**two, "bsd": own}, three]), "plan 1"), (text_of([{**one, "size": 999}, two]),
                                                                                                      "plan 1"),
            (text_of([one, {**two, "bsd": told_label(999, {})}, three]), "plan 1"),
            (text_of([one, {**two, "bsd": told_label(1000, {}, count=2)}, three]), "plan 1"),
            (text_of([one, {**two, "bsd": told_label(1000, {}, 2048)}, three]), "plan 1"),
            (text_of([one, {**two, "bsd": told_label(1000, {0: (30, 15, 7)})}, three]), "plan 4"),
            (text_of([one, {**two, "bsd": told_label(1000, {0: (985, 16, 7)})}, three]), "plan 4"),
            (text_of([one, two, {**three, "type": "freebsd"}]), "plan 2"), (text_of([one, two, {**three, "bsd": own}]), "table bsd 3"),
            (text_of([{**one, "size": 1}]), "table size 1"), (text_of([{"type": "freebsd", "size": 1}]), "table size 1")):
        refused(command, image, text, why)
    for name, values in {
            "kind": (65536, -1, None, "0", 1.5), "subtype": (65536, None), "type_name": ("", "00" * 15, "00" * 17, "g" * 32, None, 7),
            "pack_name": ("00" * 15, None), "geometry": ([0] * 3, [0] * 5, [0, 0, 0, 2 ** 32], [None] * 4, None, 0),
                         "unit": (2 ** 32, None),
            "kept": ("00" * 67, "00" * 69, None), "bbsize": (2 ** 32, None), "sbsize": (2 ** 32, None),
            "entries": ([], [None] * 7, [None] * 9, None, own["entries"][:7], own["entries"] + [None], [7] * 8, [{}] * 8,
                        [[]] * 8)}.items():
        for value in values:
            faulty(command, image, text_of([{**one, "bsd": {**own, name: value}}]), "bsd 1")
        faulty(command, image, text_of([{**one, "bsd": {member: it for member, it in own.items() if member != name}}]), "bsd 1")
    for name, most in {"size": 2 ** 32, "offset": 2 ** 32, "fragment": 2 ** 32, "fstype": 256, "frag": 256, "cpg": 65536}.items():
        for value in (most, -1, None, "0", 0.5):
            entries = [{**own["entries"][0], name: value}, *own["entries"][1:]]
            faulty(command, image, text_of([two, {**one, "number": 3, "bsd": {**own, "entries": entries}}]), "bsd 2")
    for bad in ({**own, "more": 1}, [], 7, "x", False, {**own, "entries": [{**own["entries"][0], "x": 0}, *own["entries"][1:]]}):
        faulty(command, image, text_of([{**one, "bsd": bad}]), "bsd 1")
    makes(text_of([{**one, "bsd": {**own, "kept": own["kept"].upper(), "type_name": own["type_name"].upper()}}, two, three]), own, None,
          more=[rest])


def huge(command):
    """A disk of 8 TiB: sizes past 32 bits, and the longest slice."""
    count = 2 ** 34
    for given, size, has in (({"size": "2TiB"}, 2 ** 32, {}), ({"size": 2 ** 33}, 2 ** 33, {}), ({}, count - 2048 - 33, {}),
                             ({"size": 2 ** 32 - 1, "type": "freebsd"}, 2 ** 32 - 1,
                              {"kind": FREEBSD, "bsd": told_label(2 ** 32 - 1, {})})):
        path = file_of(command.on_sparse(count, {}), text_of([given]))
        same(f"{given} of 8 TiB", command.run("set", "--fresh", FRESH, path), ("done\n", "", 0))
        shows(command, wanted(command, [(1, 2048, size, DRAWN[1], has)], count, lastlba=count - 34)).healthy()
    for given in ({"size": "8TiB"}, {"size": 2 ** 32, "type": "freebsd"}, {"size": "2TiB", "type": "freebsd"}, {"type": "freebsd"}):
        path = file_of(command.on_sparse(count, {}), text_of([given]))
        command.writes_nothing(["set", "--fresh", FRESH, path], "", "refused: table size 1\n", 3)


def large(command):
    """Sectors of 4096 bytes, where no slice has a label."""
    it = command.large()
    for parts, rows in (([], []), ([{}], [(1, 256, 1024 - 6 - 256 + 1, DRAWN[1])]), ([{"size": "1MiB"}], [(1, 256, 256, DRAWN[1])]),
                        ([{"start": 6, "size": 7}, {"size": 1}], [(1, 6, 7, DRAWN[1]), (2, 256, 1, DRAWN[2])]),
                        ([{"type": "freebsd", "size": 1}], [(1, 256, 1, DRAWN[1], {"kind": FREEBSD, "bsd": None})]),
                        ([{"type": "freebsd", "size": 9, "bsd": None}], [(1, 256, 9, DRAWN[1], {"kind": FREEBSD, "bsd": None})])):
        taken(it, LARGE.zeros(1024), text_of(parts), wanted(it, rows, 1024))
    faulty(it, LARGE.zeros(1024), text_of([{"type": "freebsd", "size": 9, "bsd": own_label(9)[1]}]), "bsd 1")
    faulty(it, LARGE.zeros(1024), text_of(sectorsize=512), "sectorsize")
    refused(it, LARGE.zeros(11), text_of([]), "plan 1")
    taken(it, LARGE.zeros(12), text_of([], sectorsize=4096, sectors=12), wanted(it, [], 12, lastlba=6))


def mbr_disks(command):
    """A GPT in place of an MBR, of which nothing is kept."""
    plain, chain = SMALL.mbr(COUNT, [record(0x83, 2048, 1000), record(0xA5, 4096, 1000)]), chained({4096: ebr(record(0x83, 1, 90))})
    SMALL.put(plain, 4097, label(1000, {}))
    for image, count in ((plain, COUNT), (chain, 16384), (SMALL.mbr(COUNT, []), COUNT)):
        taken(command, image, text_of([{"size": 9}], label="gpt"), wanted(command, [(1, 2048, 9, DRAWN[1])], count))
        faulty(command, image, text_of([{"size": 9}], label="gpt"), "id", fresh="")
    # under this the new table would lie
    refused(command, SMALL.mbr(COUNT, [record(0x83, 1, 100)]), text_of([], label="gpt"), "plan 2")
    for text in (text_of([{"type": "ntfs"}], label="gpt"), text_of([{"type": "7"}], label="gpt")):
        faulty(command, plain, text, "type 1")


def of_sfdisk(command):
    """What sfdisk prints of an image: a healthy one takes it and stays; a blank one takes it as it is. sfdisk's array of four entries is
    shorter than ours, so there the image is mended; and where its partitions begin behind that array, no table of ours has them."""
    esp, rest = 'size=2048, type=U, name="esp", attrs="RequiredPartition GUID:60"', "size=1000"
    for lines, stays in (
            (("label: gpt",), True), (("label: gpt", esp, rest), True), (("label: gpt", "grain: 1M", "7 : size=5, type=S", "2 : size=1MiB"),
                                                                         True),
            (("label: gpt", "first-lba: 2048", f"start=3000, size=10, uuid={guid(9)}"), True),
            (("label: gpt", "table-length: 4", "first-lba: 2048", "last-lba: 8000", esp, rest), False)):
        command.on(blank())
        must("sfdisk", "-q", command.path, input="\n".join(lines) + "\n")
        text, image = must("sfdisk", "--json", command.path), command.image()
        same("set of sfdisk's own text", command.run("set", file_of(command, text)), ("done\n", "", 0))
        same("the image of sfdisk's own text", command.image() == image, stays)
        told = json.loads(command.healthy().answer("show", "--json")[0])["partitiontable"]
        theirs = json.loads(text)["partitiontable"]
        same("sfdisk's table", [told[name] for name in ("id", "firstlba", "lastlba")],
             [theirs[name] for name in ("id", "firstlba", "lastlba")])
        names = ("node", "start", "size", "type", "uuid", "name", "attrs")
        same("sfdisk's partitions", [[it.get(name) for name in names] for it in told["partitions"]],
             [[it.get(name) for name in names] for it in theirs.get("partitions", [])])
        same("what is on a blank one", command.on(blank()).run("set", file_of(command, text)), ("done\n", "", 0))
        del told["device"], told["unit"], told["sectorsize"]
        shows(command, told).healthy()
    for lines, number in ((("label: gpt", "table-length: 4", rest), 4), (("label: gpt", "table-length: 4"), 1)):
        command.on(blank())
        must("sfdisk", "-q", command.path, input="\n".join(lines) + "\n")
        refused(command, blank(), must("sfdisk", "--json", command.path), f"plan {number}")


def names_and_json(command):
    """Of two members with one name the last counts; what is no JSON, and no text."""
    one = '{"start": 1, "size": 9, "start": 3000}'
    for text, rows, more in (
            (f'{{"partitiontable": {{"partitions": [{one}]}}}}', [(1, 3000, 9, DRAWN[1])], {}),
            ('{"partitiontable": 7, "partitiontable": {"entries": 7, "entries": 5, "label": "x", "label": "gpt"}}', [], {"entries": 5}),
            ('{"partitiontable": {"partitions": [{}, {}], "partitions": []}}', [], {}),
            ('{"partitiontable": {"partitions": 7, "\\u0070artitions": [{"n\\u0061me": "x\\u00fc\\ud83d\\udcbe", "size": 9}]}}',
             [(1, 2048, 9, DRAWN[1], {"name": "x\u00fc\U0001f4be"})], {}),
            (' \t\r\n{ "partitiontable"\n:\t{ } \r}\n ', [], {}), ('{"partitiontable":{"device":"\\"\\\\\\/\\b\\f\\n\\r\\t\x7f"}}', [],
                                                                   {})):
        taken(command, blank(), text, wanted(command, rows, **more))
    good = text_of([])
    for text in ("", " ", "x", good[:-1], good + "x", good + good, "\ufeff" + good, good + "\ufeff", good.replace('"', "'"),
                 good[:-2] + ",}}",
                 good.replace("[]", "[,]"), good.replace("[]", "[{},]"), good.replace("[]", "[1 2]"), "//\n" + good,
                 good.replace("[]", "nul"),
                 good.replace("[]", "True"), '{"partitiontable": {"device": "\n"}}', '{"partitiontable": {"device": "\\x"}}',
                 '{"partitiontable": {"device": "\\ud83d"}}', '{"partitiontable": {"device": "\\udcbe\\ud83d"}}', "[" * 200 + "]" * 200,
                 good + "\0",
                 '{"partitiontable" {}}', '{partitiontable: {}}', "\u00a0" + good):
        faulty(command, blank(), text, "text")
    for text in ("null", "7", "[]", '"x"', "{}", "[{}]", '{"partitiontable": null}', '{"partitiontable": []}', '{"Partitiontable": {}}',
                 '{"partitiontable": {}, "x": 1}', '{"partitiontable": {}, "partitiontable": 7}', '{"": {}}'):
        faulty(command, blank(), text, "partitiontable")
    for text in (b"\xff", good.encode() + b"\x80", good.encode("utf-16"), b"\xed\xa0\x80", good.encode()[:-1] + b"\xc0\xaf}",
                 b"\xff" + b" " * 9):
        refused(command, blank(), text, "table: not text", status=2)
    most = 8 * 1024 * 1024
    taken(command, blank(), good + " " * (most - len(good)), wanted(command, []))
    for text in (good + " " * (most - len(good) + 1), b"\xff" * (most + 1)):
        refused(command, blank(), text, "table: too long", status=2)


def order(command):
    """Of several faults the first: those of the text alone, of the disk, of the table, and then of each partition in order."""
    for parts, more, key in (
            ([{"number": 0}], {"sectors": 7, "entries": 0}, "sectors"), ([{"number": 0}], {"sectorsize": 7, "label": "dos"}, "sectorsize"),
            ([{"number": 0}], {"label": "dos", "chain": []}, "number 1"), ([{"number": 0}], {"chain": [], "entries": 0}, "chain"),
            ([{}] * 9, {"entries": 0}, "entries"), ([{}] * 9, {"entries": 4, "id": "0x1"}, "partitions"), ([{"number": 0}], {"id": "0x1"},
                                                                                                           "id"),
            ([{"size": "x"}], {"sectors": 7}, "size 1"), ([{"x": 1}], {"sectors": "7"}, "sectors"), ([7], {"x": 1}, "unknown"),
            ([{"number": 0}, {"size": "x"}], {}, "size 2"), ([{"number": 0, "type": "ntfs"}], {}, "number 1"),
            ([{"type": "ntfs", "start": 0}], {}, "type 1"), ([{"start": 0}], {"id": guid(1)}, "start 1"), ([{}, {"number": 0}], {},
                                                                                                           "number 2"),
            ([{"record": 1, "offset": 1, "bootable": True}], {}, "record 1"), ([{"offset": 1, "boot": 1, "number": 0}], {}, "offset 1"),
            ([{"boot": 1, "start_chs": "feffff"}], {}, "bootable 1"), ([{"start_chs": "feffff", "end_chs": "feffff"}], {}, "start_chs 1"),
            ([{"end_chs": "FEFFFF", "number": 0}], {}, "end_chs 1"), ([{"bsd": own_label(9)[1], "start": 0}], {}, "start 1"),
            ([{"label": 1, "number": "x"}], {}, "unknown 1"), ([{"number": "x", "node": 1}], {}, "number 1"),
            ([{"node": 1, "start": "x"}], {}, "node 1"), ([{"start": "x", "size": "x"}], {}, "start 1"), ([{"size": "x", "last": "x"}], {},
                                                                                                          "size 1"),
            ([{"last": "x", "offset": "x"}], {}, "last 1"), ([{"offset": "x", "type": "x"}], {}, "offset 1"),
            ([{"type": "x", "type_name": 1}], {}, "type 1"), ([{"type_name": 1, "uuid": "x"}], {}, "type_name 1"),
            ([{"uuid": "x", "name": 1}], {}, "uuid 1"), ([{"name": 1, "name_units": 1}], {}, "name 1"),
            ([{"name_units": 1, "attributes": "x"}], {}, "name_units 1"), ([{"attributes": "x", "attrs": 1}], {}, "attributes 1"),
            ([{"attrs": 1, "bootable": 1}], {}, "attrs 1"), ([{"bootable": 1, "boot": "x"}], {}, "bootable 1"),
            ([{"boot": "x", "start_chs": 1}], {}, "boot 1"), ([{"start_chs": 1, "end_chs": 1}], {}, "start_chs 1"),
            ([{"end_chs": 1, "record": "x"}], {}, "end_chs 1"), ([{"record": "x", "bsd": 1}], {}, "record 1"), ([{"bsd": 1}], {}, "bsd 1"),
            (7, {"label": 1, "device": 1}, "label"), (7, {"device": 1, "unit": 1}, "device"), (7, {"unit": 1, "sectorsize": "x"}, "unit"),
            (7, {"sectorsize": "x", "sectors": "x"}, "sectorsize"), (7, {"sectors": "x", "id": 1}, "sectors"),
                             (7, {"id": 1, "firstlba": "x"}, "id"),
            (7, {"firstlba": "x", "lastlba": "x"}, "firstlba"), (7, {"lastlba": "x", "entries": "x"}, "lastlba"),
            (7, {"entries": "x", "table-length": "x"}, "entries"), (7, {"table-length": "x"}, "table-length"),
                             (7, {"chain": 1}, "partitions"),
            ([{"number": "x"}], {"chain": 1}, "chain")):
        faulty(command, blank(), text_of(parts, **more), key)
    faulty(command, blank(), text_of([{"start": 0}]), "start 1", fresh=FRESH[:32])
    faulty(command, blank(), text_of([{"type": "freebsd", "size": 1}]), "uuid 1", fresh=FRESH[:32])


def files(command):
    """TABLE as a file, a pipe and standard input; what can't be read; an image that is locked or isn't there."""
    text, told = text_of([{"size": 9}]), wanted(command, [(1, 2048, 9, DRAWN[1])])
    for other in ("-", "/dev/stdin"):
        command.on(blank())
        done = subprocess.run([command.ptab, "set", "--fresh", FRESH, command.path, other], input=text.encode(), capture_output=True)
        same(f"by {other}", (done.stdout, done.stderr, done.returncode), (b"done\n", b"", 0))
        shows(command, told).healthy()
    planned = subprocess.run([command.ptab, "set", "--plan", command.path, "-"], input=text_of([{"size": 8}]).encode(), capture_output=True)
    same("a plan by standard input", (planned.stdout[:2], planned.stderr, planned.returncode), (b"W ", b"", 0))
    shows(command, told)
    pipe, path, folder = f"{command.path}.pipe", file_of(command, text), os.path.dirname(command.path)
    os.mkfifo(pipe)
    with subprocess.Popen(["dd", f"if={path}", f"of={pipe}", "bs=1", "status=none"]):
        same("by a pipe", command.on(blank()).run("set", "--fresh", FRESH, pipe), ("done\n", "", 0))
    shows(command, told).healthy()
    command.on(blank())
    for it in (f"{folder}/missing", folder, f"{path}/x", ""):
        for options in ([], ["--plan"]):
            command.writes_nothing(["set", *options, "--fresh", FRESH, it], "", "table: device\n", 5)
    command.writes_nothing(["set", "--fresh", "x", f"{folder}/missing"], "", "bad fresh\n", 2)
    same("a missing image", command.answer_at(f"{folder}/missing", "set", "--fresh", FRESH, path), ("", "device\n", 5))
    same("a bad text before it", command.answer_at(f"{folder}/missing", "set", file_of(command, "x")), ("", "refused: table text\n", 3))
    with open(command.path, "rb") as held:
        for how in (fcntl.LOCK_SH, fcntl.LOCK_EX):
            fcntl.flock(held, how)
            command.writes_nothing(["set", "--fresh", FRESH, file_of(command, text)], "", "refused: locked\n", 3)
            command.writes_nothing(["set", "--fresh", FRESH, file_of(command, "x")], "", "refused: table text\n", 3)
            command.writes_nothing(["set", "--fresh", "", file_of(command, text)], "", "refused: locked\n", 3)
        same("a plan of one that is locked", command.run("set", "--plan", "--fresh", FRESH, path)[2], 0)
        same("without the lock", command.run("set", "--no-lock", "--fresh", FRESH, path), ("done\n", "", 0))
    shows(command, told).healthy()


ROWS = (what_is_kept, fresh_guids, slices, huge, large, mbr_disks, of_sfdisk, names_and_json, order, files)
