"""`set`: an image takes the table that a text says, and what the text leaves out is made; or the text's first fault is told and the image
stays. Here is each member of a text, given and left out. The tables that are wanted are worked out by hand, of docs/table.md and the
command's help."""
import json
import os

import images
from images import FREEBSD, LINUX, SMALL, guid
from plans import plan_file, same
from rows_json import gpt, part, shows
from tools import must

ESP, SWAP, HOME = "C12A7328-F81F-11D2-BA4B-00A0C93EC93B", "0657FD6D-A4AB-43C4-84E5-0933C84B4F4F", "933AC7E1-2EB4-4F13-B844-0E14E2AEF915"
COUNT = 8192  # 4 MiB
DRAWN = [f"{k:08x}-0000-4000-8000-{k:012x}" for k in range(1, 7)]
FRESH = "".join(it.replace("-", "") for it in DRAWN)
NAMED = {LINUX: "linux-generic", ESP: "esp", SWAP: "swap", HOME: "home", FREEBSD: "freebsd"}


def text_of(partitions=None, **table):
    """A text of these partitions, and of these members of the table but for those that are None."""
    if partitions is not None:
        table["partitions"] = partitions
    return json.dumps({"partitiontable": table})


def file_of(command, text):
    path = f"{command.path}.json"
    with open(path, "wb") as it:
        it.write(text if isinstance(text, bytes) else text.encode("utf-8", "surrogatepass"))
    return path


def wanted(command, parts, sectors=COUNT, **more):
    """The table with these partitions (number, start, size, GUID, other members); its GUID is the first fresh one."""
    of = command.sectors
    told = []
    for number, start, size, unique, *others in parts:
        others = dict(*others)
        kind = others.pop("kind", LINUX)
        told.append(part(command, number, start, size, unique, kind, NAMED.get(kind), **others))
    return gpt(sectors, told, of, **{"id": DRAWN[0].upper(), **more})


def of_whole_chain(told):
    """Whether each extended boot record has a logical partition. sfdisk has its own way with one that has none."""
    records = [it.get("record") for it in told["partitions"]]
    return all(at in records for at in told.get("chain", []))


def by_others(command, told):
    """sgdisk finds nothing wrong with a GPT, and sfdisk prints the same, where it can."""
    if command.sectors is not SMALL or not of_whole_chain(told):
        return
    if told["label"] == "gpt":
        same("sgdisk -v", "No problems found" in must("sgdisk", "-v", command.path), True)
    if any("name_units" in it or "\n" in it.get("name", "") for it in told["partitions"]):
        return
    theirs = json.loads(must("sfdisk", "--json", command.path))["partitiontable"]
    for it in ("label", "id", "firstlba", "lastlba") if told["label"] == "gpt" else ("label",):
        same(f"sfdisk's {it}", theirs[it], told[it])
    same("sfdisk's partitions", len(theirs.get("partitions", [])), len(told["partitions"]))
    for one, other in zip(theirs.get("partitions", []), told["partitions"]):
        for name in ("node", "start", "size", "type", "uuid", "name", "bootable"):
            same(f"sfdisk's {name}", one.get(name), other.get(name))


def taken(command, image, text, told, fresh=FRESH):
    """The image takes the table: by its plan, at once, by the table, and once more, which changes nothing."""
    path, options = file_of(command, text), ["--fresh", fresh] if fresh is not None else []
    before = command.on(image).image()
    plan, err, status = command.run("set", "--plan", *options, path)
    same(f"the plan of {text!r:.300}", (err, status), ("", 0))
    same("an image that is planned for", command.image() == before, True)
    answer = command.run("check", plan_file(command, plan))
    same("its check", (answer[0][:4], answer[2]), ("yes ", 0))
    shows(command, told, "--after", plan_file(command, plan))
    same(f"set {text!r:.300}", command.run("set", *options, path), ("done\n", "", 0))
    shows(command, told).healthy()
    left = command.image()
    same("the plan applied", (command.on(image).run("apply", plan_file(command, plan)), command.image() == left), (("done\n", "", 0), True))
    same("by the table", command.on(image).run("set", "--by-table", *options, path), ("done\n", "", 0))
    same("the same by the table", command.image() == left, True)
    again = file_of(command, command.answer("show", "--json")[0])
    command.writes_nothing(["set", "--plan", again], "")
    os.utime(command.path, ns=(1, 1))
    same("its own text", command.run("set", again), ("done\n", "", 0))
    same("an image with its own text", (command.image() == left, os.stat(command.path).st_mtime_ns), (True, 1))
    by_others(command, told)
    return command


def refused(command, image, text, why, fresh=FRESH, status=3):
    """Both with and without --plan; and nothing is written."""
    command.on(image)
    options = ["--fresh", fresh] if fresh is not None else []
    line = why if status != 3 else f"refused: {why}"
    for words in (["set", "--plan"], ["set"], ["set", "--by-table", "--no-lock"]):
        command.writes_nothing([*words, *options, file_of(command, text)], "", f"{line}\n", status)
    return command


def faulty(command, image, text, key, **more):
    return refused(command, image, text, f"table {key}", **more)


def blank():
    return SMALL.zeros(COUNT)


def starts_and_sizes(command):
    """Where partitions lie: the largest block from a multiple of 1 MiB on, and its rest."""
    last = 8158
    rows = (
        ([], []),
        ([{}], [(2048, 6111)]),
        ([{"size": 1000}], [(2048, 1000)]),
        ([{"size": 6111}], [(2048, 6111)]),
        ([{"size": "1MiB"}], [(2048, 2048)]),
        ([{"last": 4000}], [(2048, 1953)]),
        ([{"last": 2048}], [(2048, 1)]),
        ([{"last": last}], [(2048, 6111)]),
        ([{"start": 34}], [(34, 8125)]),
        ([{"start": 3001}], [(3001, 5158)]),
        ([{"start": last}], [(last, 1)]),
        ([{"start": 34, "size": 1}], [(34, 1)]),
        ([{"start": 35, "last": 36}], [(35, 2)]),
        ([{"start": 34, "size": 8125}], [(34, 8125)]),
        ([{"size": 1000}, {}], [(2048, 1000), (4096, 4063)]),
        ([{"size": 1000}, {"size": 500}, {}], [(2048, 1000), (4096, 500), (6144, 2015)]),
        ([{}, {"start": 3000, "size": 10}], [(4096, 4063), (3000, 10)]),
        ([{"start": 3000, "size": 10}, {}], [(3000, 10), (4096, 4063)]),
        ([{"start": 7000, "size": 10}, {}], [(7000, 10), (2048, 4952)]),
        ([{"start": 100}, {"start": 3000, "size": 10}], [(100, 2900), (3000, 10)]),
        ([{"start": 100}, {"size": "512KiB", "start": 3000}, {}], [(100, 2900), (3000, 1024), (4096, 4063)]),
        ([{"start": 3000, "last": 3009}, {"start": 100}], [(3000, 10), (100, 2900)]),
        ([{"start": 4000}, {"start": 100, "size": 10}, {"size": 10}], [(4000, 4159), (100, 10), (2048, 10)]),
        # two blocks with as much room: the lowest
        ([{"start": 3048, "size": 1048}, {"start": 5096, "size": 3063}, {}], [(3048, 1048), (5096, 3063), (2048, 1000)]),
        # with more room once it is rounded up, though it is the shorter block
        ([{"start": 3100, "size": 1000}, {"start": 5143, "size": 3016}, {}], [(3100, 1000), (5143, 3016), (2048, 1052)]),
    )
    for parts, places in rows:
        told = wanted(command, [(k, *place, DRAWN[k]) for k, place in enumerate(places, 1)])
        taken(command, blank(), text_of(parts), told)
    for parts, key in (
            ([{"size": 6112}], "size 1"), ([{}, {}], "size 2"), ([{"size": 0}], "size 1"), ([{"start": 2048, "size": 0}], "size 1"),
            ([{"start": 0}], "start 1"), ([{"start": 33}], "start 1"), ([{"start": 8159}], "start 1"), ([{"start": 2 ** 64 - 1}],
                                                                                                        "start 1"),
            ([{"start": 3000}, {"start": 4000}], None), ([{"start": 4000}, {"start": 3000}], None),
            ([{"start": 3000}, {"start": 3000}], "start 2"), ([{"start": 3005}, {"start": 3000, "size": 10}], "start 1"),
            ([{"last": 2047}], "size 1"), ([{"last": 8159}], "size 1"), ([{"last": 0}], "size 1"), ([{"size": 7}, {"last": 2054}],
                                                                                                    "size 2"),
            ([{"size": 2 ** 64 - 1}], "size 1"), ([{"start": 2, "size": 2 ** 64 - 1}], "size 1"), ([{"size": "1KiB"}, {"size": "4MiB"}],
                                                                                                   "size 2"),
            ([{"start": 2 ** 64 - 1, "size": 2}], "size 1")):
        if key:
            faulty(command, blank(), text_of(parts), key)
    # the first of two without a size has all that is free
    faulty(command, blank(), text_of([{"start": 3000}, {"start": 4000}]), "start 2")
    taken(command, blank(), text_of([{"start": 4000}, {"start": 3000}]),
          wanted(command, [(1, 4000, 4159, DRAWN[1]), (2, 3000, 1000, DRAWN[2])]))


def not_sound(command):
    """Places that the text says and that no table has."""
    for parts, more, number in (
            ([{"start": 33, "size": 10}], {}, 4), ([{"start": 0, "size": 1}], {}, 4), ([{"start": 8158, "size": 2}], {}, 4),
            ([{"start": 1, "size": 2 ** 64 - 1}], {}, 4), ([{"start": 0, "last": 2 ** 64 - 1}], {}, 4),
            ([{"start": 3000, "last": 2999}], {}, 4), ([{"start": 3000, "size": 9000}], {}, 4),
            ([{"start": 3000, "size": 10}, {"start": 3009, "size": 1}], {}, 4), ([{"start": 2 ** 63, "size": 1}], {}, 4),
            ([{"uuid": guid(1), "size": 1}, {"uuid": guid(1), "size": 1}], {}, 4),
            ([{"start": 20, "size": 1}], {"firstlba": 20}, 4), ([{"start": 8159, "size": 1}], {"lastlba": 8160}, 4),
            ([], {"firstlba": 33}, 1), ([], {"lastlba": 8159}, 1), ([], {"firstlba": 0}, 1), ([], {"firstlba": 100, "lastlba": 99}, 1),
            ([], {"lastlba": 0}, 1), ([], {"firstlba": 2 ** 64 - 1}, 1), ([{"type": "0" * 8 + "-0000-0000-0000-" + "0" * 12}], {}, 1)):
        refused(command, blank(), text_of(parts, **more), f"plan {number}")
    refused(command, SMALL.zeros(67), text_of([]), "plan 1")
    taken(command, SMALL.zeros(68), text_of([]), wanted(command, [], 68, lastlba=34))


def the_table(command):
    """Its own members, given and left out; those that stand under other names say the same or count for nothing."""
    for text, more in (
            (text_of(), {}), (text_of(label="gpt"), {}), (text_of(device="/dev/sda"), {}), (text_of(device=""), {}),
            (text_of(unit="sectors"), {}), (text_of(sectorsize=512), {}), (text_of(sectors=COUNT), {}),
            (text_of(grain="4194304"), {}), (text_of(grain=None), {}), (text_of(grain={"x": []}), {}), (text_of(grain=7), {}),
            (text_of(firstlba=34), {}), (text_of(firstlba=2048), {"firstlba": 2048}), (text_of(firstlba=8158), {"firstlba": 8158}),
            (text_of(lastlba=8158), {}), (text_of(lastlba=34), {"lastlba": 34}), (text_of(lastlba=5000), {"lastlba": 5000}),
            (text_of(entries=128), {}), (text_of(entries=1), {"entries": 1}), (text_of(entries=4), {"entries": 4}),
            (text_of(**{"table-length": 4}), {"entries": 4}), (text_of(**{"table-length": "4"}), {"entries": 4}),
            (text_of(**{"table-length": "004"}), {"entries": 4}), (text_of(entries=4, **{"table-length": "4"}), {"entries": 4}),
            (text_of(id=guid(9)), {"id": guid(9).upper()}), (text_of(id=images.DISK.upper()), {"id": images.DISK.upper()}),
            (text_of(id="aAaAaAaA-bBbB-cCcC-dDdD-eEeEeEeEeEeE"), {"id": "AAAAAAAA-BBBB-CCCC-DDDD-EEEEEEEEEEEE"})):
        taken(command, blank(), text, wanted(command, [], **more))
    rows = {
        "label": ("GPT", "mbr", "", None, 1, True, ["gpt"]),
        "device": (None, 7, [], {"a": "b"}, False),
        "unit": ("Sectors", "bytes", "", None, 512),
        "sectorsize": ("512", None, 512.5, -512, 4096, 0, 2 ** 64 - 1),
        "sectors": (str(COUNT), None, -1, COUNT - 1, COUNT + 1, 0, 2 ** 64),
        "id": ("", None, 7, "x", guid(1)[:-1], f"{{{guid(1)}}}", guid(1).replace("-", ""), f" {guid(1)}", "0x", "0x123456789", "0xg",
               "0x12345678", "0xAb", "12345678"),
        "firstlba": ("34", None, 34.0, -34, [34], True),
        "lastlba": ("8158", None, 1e3, -1, {}),
        "entries": (0, 129, 2 ** 64 - 1, 2 ** 64, "128", None, -1, 1.5),
        "table-length": ("", "x", "-1", "+4", "4 ", "1.0", None, -4, 1.5, [4], str(2 ** 64), 2 ** 64),
        "partitions": ({}, None, "[]", 0, True),
        "chain": ([], None, [34], 7, "x", ["x"], [-1], [1.5]),
    }
    for name, values in rows.items():
        for value in values:
            faulty(command, blank(), json.dumps({"partitiontable": {name: value}}), name)
    for length in (0, 129, "0", "129"):
        faulty(command, blank(), text_of(**{"table-length": length}), "entries")
    for entries, length in ((128, 127), (4, "5"), (128, "")):
        faulty(command, blank(), text_of(entries=entries, **{"table-length": length}), "table-length")
    for count, parts in ((1, 2), (4, 5), (128, 129)):
        faulty(command, blank(), text_of([{"size": 1}] * parts, entries=count), "partitions")
    many = [{"size": 1, "start": 34 + k, "uuid": guid(k)} for k in range(128)]
    taken(command, blank(), text_of(many), wanted(command, [(k + 1, 34 + k, 1, guid(k)) for k in range(128)]))
    for name in ("Label", "", "grains", "table_length", "partition", "number", "label ", "\u00fc", "firstLBA"):
        faulty(command, blank(), text_of(**{name: "gpt"}), "unknown")


def members_of_partitions(command):
    """Each member of a partition that is given, and what is made where it is left out."""
    for given, has in (
            ({"type": ESP}, {"kind": ESP}), ({"type": ESP.lower()}, {"kind": ESP}), ({"type": "EF00"}, {"kind": ESP}),
            ({"type": "ef00"}, {"kind": ESP}), ({"type": "esp"}, {"kind": ESP}), ({"type": "efi"}, {"kind": ESP}),
            ({"type": "swap"}, {"kind": SWAP}), ({"type": "8200"}, {"kind": SWAP}), ({"type": "home"}, {"kind": HOME}),
            ({"type": "linux"}, {}), ({"type": "8300"}, {}), ({"type": guid(77)}, {"kind": guid(77)}),
            ({"type_name": "swap"}, {}), ({"type_name": "no such name"}, {}),
            ({"name": "a"}, {"name": "a"}), ({"name": ""}, {}), ({"name": "x" * 36}, {"name": "x" * 36}),
            ({"name": "\u00fc \U0001f4be\n\""}, {"name": "\u00fc \U0001f4be\n\""}), ({"name": "\U0001f4be" * 18},
                                                                                     {"name": "\U0001f4be" * 18}),
            ({"name_units": [65, 66]}, {"name": "AB"}), ({"name_units": []}, {}), ({"name_units": [0] * 36}, {}),
            ({"name_units": [55296]}, {"name_units": [55296]}), ({"name_units": [65, 0, 66, 0]}, {"name_units": [65, 0, 66]}),
            ({"name_units": [55357, 56510]}, {"name": "\U0001f4be"}), ({"name_units": [65535] * 36}, {"name": "\uffff" * 36}),
            ({"attributes": 4}, {"attributes": 4, "attrs": "LegacyBIOSBootable"}), ({"attributes": 0}, {}),
            ({"attributes": 8}, {"attributes": 8}), ({"attributes": 8, "attrs": None}, {"attributes": 8}), ({"attrs": None}, {}),
            ({"attributes": 2 ** 63}, {"attributes": 2 ** 63, "attrs": "GUID:63"}), ({"attrs": ""}, {}), ({"attrs": "  "}, {}),
            ({"attrs": "GUID:63,48"}, {"attributes": 2 ** 63 + 2 ** 48, "attrs": "GUID:48,63"}),
            ({"attrs": "GUID:60 GUID:060,61  RequiredPartition"}, {"attributes": 2 ** 60 + 2 ** 61 + 1,
                                                                   "attrs": "RequiredPartition GUID:60,61"}),
            ({"attrs": "NoBlockIOProtocol", "attributes": 10}, {"attributes": 10, "attrs": "NoBlockIOProtocol"}),
            ({"attrs": "", "attributes": 8}, {"attributes": 8}), ({"attrs": None, "attributes": 5},
                                                                  {"attributes": 5, "attrs": "RequiredPartition LegacyBIOSBootable"})):
        taken(command, blank(), text_of([{"size": 9, **given}]), wanted(command, [(1, 2048, 9, DRAWN[1], has)]))
    taken(command, blank(), text_of([{"size": 9, "uuid": guid(3).upper()}, {"size": 9}]),
          wanted(command, [(1, 2048, 9, guid(3)), (2, 4096, 9, DRAWN[1])]))
    rows = {
        "start": ("2048", None, -1, 2048.0, 2 ** 64, [2048]),
        "size": ("", "9", "1 MiB", "1MB", "1M", "1mib", "MiB", "1.5MiB", "-1MiB", "+1MiB", " 1MiB", "1MiB ", "1KiBMiB", "1PiB", None, -9,
                 9.5, {},
                 f"{2 ** 64}KiB", "16777216TiB", f"{2 ** 54}KiB"),
        "last": ("9", None, -1, 9.5, 2 ** 64),
        "offset": ("9", None, -1),
        "type": ("", "x", "83", "EF0", "EF000", "FFFF", "0000", "Esp", "esp ", "ntfs", "fat32", "7", ESP[:-1], f"{{{ESP}}}", None, 8300,
                 0xEF00,
                 "0xEF00"),
        "type_name": (None, 7, []),
        "uuid": ("", None, "x", guid(1)[:-1], guid(1).replace("-", ""), 7),
        "name": ("x" * 37, "\U0001f4be" * 19, "a\0", "\0", None, 7, ["a"]),
        "name_units": ([65536], [-1], [1] * 37, [1.5], ["A"], "A", None, {}, [None]),
        "attributes": ("4", None, -4, 2 ** 64, 4.5, "LegacyBIOSBootable"),
        "attrs": ("x", "requiredPartition", "RequiredPartition,NoBlockIOProtocol", "GUID:", "GUID:47", "GUID:64", "GUID:48,", "GUID: 48",
                  "guid:48", "GUID:48;49", "GUID:-48", 7, [], "GUID:" + "9" * 30, "RequiredPartition\tGUID:48", True),
        "bootable": (None, 1, "true", "", True, False),
        "boot": (None, 256, -1, "80", True),
        "start_chs": ("", "fefff", "fefffff", "gggggg", None, 7, "feffff"),
        "end_chs": ("", "fe ffff", None, 7, "000000"),
        "record": ("9", None, -1, 9, 0),
        "number": ("1", None, -1, 1.5, 0, 129, 2 ** 64 - 1, 2 ** 64),
        "node": (None, 7, ["sda1"]),
    }
    for name, values in rows.items():
        for value in values:
            faulty(command, blank(), text_of([{"size": 9, "uuid": guid(4)}, {"start": 4096, "size" if name != "last" else "name": "1KiB",
                                                                            name: value}]), f"{name} 2")
    for more, key in (({"size": 9, "last": 9}, "last"), ({"name": "a", "name_units": [97]}, "name_units"), ({"bootable": True, "boot": 128},
                                                                                                            "boot"),
                      ({"boot": 0}, "bootable"), ({"attributes": 1, "attrs": ""}, "attrs"), ({"attributes": 1, "attrs": "GUID:48"},
                                                                                             "attrs"),
                      ({"attributes": 0, "attrs": "GUID:48"}, "attrs"), ({"offset": 7}, "offset"), ({"Start": 7}, "unknown"),
                      ({"": 7}, "unknown"),
                      ({"label": "gpt"}, "unknown"), ({"bsd": True}, "bsd"), ({"bsd": {}}, "bsd"), ({"node": "disk0"}, "number"),
                      ({"node": "disk129"}, "number")):
        faulty(command, blank(), text_of([more]), f"{key} 1")
    for parts in ([7], [{}, None], [{}, {}, []], ["x"]):
        faulty(command, blank(), text_of(parts), f"partitions {len(parts)}")


def numbers(command):
    """By `number`, else by the digits at the end of `node`, else the lowest that nothing has or is given."""
    for parts, told in (
            ([{"number": 7}], [7]), ([{"number": 128}], [128]), ([{"node": "/dev/sda3"}], [3]), ([{"node": "nvme0n1p12"}], [12]),
            ([{"node": "x007"}], [7]), ([{"node": "9"}], [9]), ([{"node": "sda"}], [1]), ([{"node": ""}], [1]), ([{"node": "3x"}], [1]),
            ([{"node": f"x{2 ** 64}"}], [1]), ([{"node": "x\u0663"}], [1]), ([{"node": "sda3", "number": 4}], [4]),
            ([{"node": "sda0", "number": 4}], [4]), ([{"node": "sda", "number": 4}], [4]), ([{}, {"number": 1}], [2, 1]),
            ([{}, {}, {"node": "x2"}, {"number": 1}, {}], [3, 4, 2, 1, 5]), ([{"number": 2}, {}, {}], [2, 1, 3]),
            ([{"number": 3}, {"number": 2}, {"number": 1}], [3, 2, 1]), ([{"node": "1"}, {"node": "a"}], [1, 2])):
        parts = [{"start": 2048 + 9 * k, "size": 9, **it} for k, it in enumerate(parts)]
        rows = [(number, 2048 + 9 * k, 9, DRAWN[k + 1]) for k, number in enumerate(told)]
        taken(command, blank(), text_of(parts), wanted(command, sorted(rows)))
    for parts, key in (([{"number": 0}], 1), ([{"number": 129}], 1), ([{"number": 2}, {"number": 2}], 2), ([{"node": "x0"}], 1),
                       ([{"number": 2}, {"node": "sda2"}], 2), ([{"node": "x129"}], 1), ([{"size": 9}, {"number": 2 ** 63}], 2)):
        faulty(command, blank(), text_of(parts), f"number {key}")
    faulty(command, blank(), text_of([{"number": 5}], entries=4), "number 1")
    taken(command, blank(), text_of([{"number": 4, "size": 9}], entries=4), wanted(command, [(4, 2048, 9, DRAWN[1])], entries=4))


def forms(command):
    """Numbers in all forms of JSON: whole ones without a fraction or an exponent."""
    for form, is_one in (("4096", True), ("4096.0", False), ("4.096e3", False), ("4096e0", False), ("40960E-1", False), ("-4096", False),
                         ("-0", False), ("0", None), ("1e999", "text"), ("4096.", "text"), ("04096", "text"), ("+4096", "text"),
                         (".5", "text"),
                         ("0x1000", "text"), ("4_096", "text"), ("NaN", "text"), ("Infinity", "text"), ("18446744073709551615", None),
                         ("18446744073709551616", False), ("9" * 400, "text"), ("9" * 300, False), ("1E+2", False), ("4 096", "text")):
        text = text_of([{"start": 1234567, "size": 9}]).replace("1234567", form)
        if is_one is True:
            taken(command, blank(), text, wanted(command, [(1, 4096, 9, DRAWN[1])]))
        elif is_one == "text":
            faulty(command, blank(), text, "text")
        elif is_one is False:
            faulty(command, blank(), text, "start 1")
    for name in ("sectors", "firstlba", "lastlba", "entries", "sectorsize"):
        value = {"sectors": COUNT, "firstlba": 34, "lastlba": 8158, "entries": 128, "sectorsize": 512}[name]
        for form in (f"{value}.0", f"{value}e0", "-0", f'"{value}"', "null", "[]"):
            faulty(command, blank(), f'{{"partitiontable": {{"{name}": {form}}}}}', name)


def sizes(command):
    """Sizes as texts, rounded down to sectors."""
    for it, count, of in ((command, 3 * 2 ** 20, 512), (command.large(), 3 * 2 ** 17, 4096)):
        usable, mib = it.sectors.array + 2, 2 ** 20 // of
        for text, size in (("512MiB", 512 * mib), ("1GiB", 1024 * mib), ("1KiB", 1024 // of), ("5KiB", 5120 // of), ("7KiB", 7168 // of),
                           ("4096KiB", 4 * mib), ("0512MiB", 512 * mib), ("0KiB", 0), ("0TiB", 0), ("1TiB", None), ("16777215TiB", None)):
            for start in ({}, {"start": 2 * mib}):
                it.on_sparse(count, {})
                path = file_of(it, text_of([{"size": text, **start}]))
                if size:
                    first = start.get("start", mib)
                    same(f"a size of {text}", it.run("set", "--fresh", FRESH, path), ("done\n", "", 0))
                    told = wanted(it, [(1, first, size, DRAWN[1])], count, firstlba=usable, lastlba=count - usable)
                    shows(it, told).healthy()
                else:
                    why = "plan 4" if start and size is None else "table size 1"
                    it.writes_nothing(["set", "--fresh", FRESH, path], "", f"refused: {why}\n", 3)


ROWS = (starts_and_sizes, not_sound, the_table, members_of_partitions, numbers, forms, sizes)
