"""`set` on MBR disks: a text of an MBR's table, whole and with what it leaves out, edited, by hand and by sfdisk; and each fault by its
name. The tables that are wanted are worked out by hand, of docs/table.md."""
import copy
import json

import images
from images import LARGE, SMALL, ebr, entry, guid, label, record
from plans import plan_file, same
from rows_json import mbr, of_record, own_label, shows, told_label
from rows_set import COUNT, FRESH, faulty, file_of, refused, taken, text_of
from tools import must

FIRST_CHS, LAST_CHS = b"\x01\x02\x03", b"\x0a\xbc\xde"
LONG = 40960  # 20 MiB
OUTER, OUTER_SIZE = 4096, 32768


def link(at, size=100):
    """To an extended boot record of the extended partition."""
    return record(0x05, at - OUTER, size)


def whole():
    """Two primary partitions, one of them a slice, and three logical ones in a chain of four; CHS bytes of their own, and labels."""
    image = SMALL.mbr(LONG, [record(0x83, 2048, 1000, 0x80, FIRST_CHS, LAST_CHS), record(0x0F, OUTER, OUTER_SIZE, 0, LAST_CHS, FIRST_CHS),
                             bytes(16), record(0xA5, 37000, 1000)])
    SMALL.put(image, 37001, own_label(1000)[0])
    for lba, content in ((4096, ebr(record(0x83, 2048, 1000, 0x80, FIRST_CHS, LAST_CHS), link(7168))), (7168, ebr(link=link(12096))),
                         (12096, ebr(record(0xA5, 192, 500), link(20240))), (20240, ebr(record(0x82, 240, 1000)))):
        SMALL.put(image, lba, content)
    SMALL.put(image, 12289, label(500, {0: (30, 16, 7)}))
    return image


def parts_of(command):
    """What it shows."""
    chs = {"start_chs": "010203", "end_chs": "0abcde"}
    return [of_record(command, 1, 2048, 1000, "83", "linux", bootable=True, **chs),
            of_record(command, 2, OUTER, OUTER_SIZE, "f", "extended-lba", start_chs="0abcde", end_chs="010203"),
            of_record(command, 4, 37000, 1000, "a5", "freebsd", bsd=own_label(1000)[1]),
            of_record(command, 5, 6144, 1000, "83", "linux", record=4096, bootable=True, **chs),
            of_record(command, 6, 12288, 500, "a5", "freebsd", record=12096, bsd=told_label(500, {0: (30, 16, 7)})),
            of_record(command, 7, 20480, 1000, "82", "swap", record=20240)]


CHAIN = [4096, 7168, 12096, 20240]


def own(command, image=None):
    """The text of an image, as an object."""
    return json.loads(command.on(whole() if image is None else image).answer("show", "--json")[0])["partitiontable"]


def text(table):
    return json.dumps({"partitiontable": table})


def with_part(command, number, leave_out=(), parts=None, **changes):
    """The partitions that are shown, of which that one has other members."""
    found = copy.deepcopy(parts_of(command) if parts is None else parts)
    for it in found:
        if it["number"] == number:
            it.update(changes)
            for name in leave_out:
                del it[name]
    return found


def numbered(command, parts):
    """Logical partitions count from 5 in the order of their extended boot records, and nodes have the numbers."""
    found, number = [], 5
    for it in parts:
        it = dict(it)
        if it["number"] >= 5:
            it["number"], number = number, number + 1
        it["node"] = f"{command.path}{it['number']}"
        found.append(it)
    return found


def own_text(command):
    """Onto itself nothing is written; onto another MBR it gives the same table; with an id, of sfdisk's or of another, as well."""
    told = mbr(LONG, parts_of(command), chain=CHAIN)
    shows(command.on(whole()), told)
    table = own(command)
    for it in (table, {**table, "id": "0x12345678"}, {name: value for name, value in table.items() if name not in ("label", "sectors")}):
        command.on(whole()).writes_nothing(["set", "--plan", file_of(command, text(it))], "")
        command.on(whole()).writes_nothing(["set", file_of(command, text(it))], "done\n")
        for other in (SMALL.mbr(LONG, []), SMALL.mbr(LONG, [record(0x07, 9, 5, 0x80)]), SMALL.mbr(LONG, [record(0x05, 100, 1000)])):
            if other[450] == 0x05:
                SMALL.put(other, 100, ebr(record(0x83, 1, 9)))
            taken(command, other, text(it), told)
    for image in (SMALL.mbr(COUNT, []), SMALL.mbr(COUNT, [record(0x83, 1, 9), record(0x0C, 20, 9, 0x80), bytes(16), record(0x01, 40, 1)])):
        table = own(command, image)
        taken(command, image, text(table), {name: it for name, it in table.items() if name not in ("device", "unit", "sectorsize")})


def edits(command):
    """One thing of the text changes, and all else stays: types, marks, sizes, CHS bytes, labels."""
    parts, no_chs = parts_of(command), {"start_chs": "feffff", "end_chs": "feffff"}
    for changed, more in (
            (with_part(command, 1, type="c", type_name="fat32-lba"), {}), (with_part(command, 1, ["bootable"]), {}),
            (with_part(command, 1, start_chs="ffffff"), {}), (with_part(command, 2, type="5", type_name="extended"), {}),
            (with_part(command, 7, type="83", type_name="linux"), {}), (with_part(command, 7, bootable=True), {}),
            (with_part(command, 5, ["bootable"]), {}), (with_part(command, 5, size=999), {}),
            (with_part(command, 7, end_chs="000000"), {}), (with_part(command, 7, start=20500, record=20240), {}),
            (with_part(command, 2, size=OUTER_SIZE - 1), {}), (with_part(command, 1, start=2049, size=7), {}),
            (parts + [of_record(command, 3, 38000, 9, "83", "linux")], {}), ([it for it in parts if it["number"] != 1], {}),
            ([it for it in parts if it["number"] != 7], {}), ([it for it in parts if it["number"] not in (4,)], {})):
        ordered = sorted(changed, key=lambda it: it["number"])
        taken(command, whole(), text({**mbr(LONG, changed, chain=CHAIN), **more}), mbr(LONG, ordered, chain=CHAIN))
    # without CHS bytes those that were there are kept in the same sectors, and else those of a place that CHS can't say are taken
    bare = [{name: value for name, value in it.items() if not name.endswith("_chs")} for it in parts]
    command.on(whole()).writes_nothing(["set", file_of(command, text(mbr(LONG, bare, chain=CHAIN)))], "done\n")
    for number, start, size in ((1, 2048, 999), (1, 2047, 1000), (1, 3000, 20), (5, 6144, 999), (5, 6145, 1000)):
        moved = with_part(command, number, start=start, size=size, parts=bare)
        told = with_part(command, number, start=start, size=size, **no_chs)
        taken(command, whole(), text(mbr(LONG, moved, chain=CHAIN)), mbr(LONG, told, chain=CHAIN))
    # and without types they are Linux's
    taken(command, whole(), text(mbr(LONG, with_part(command, 7, ["type", "type_name"]), chain=CHAIN)),
          mbr(LONG, with_part(command, 7, type="83", type_name="linux"), chain=CHAIN))


def removed(command):
    """A logical partition that the text hasn't leaves its extended boot record in the chain, if `chain` has it, and those behind it have
    the numbers below theirs, with their labels. A chain that isn't said has the extended partition's first sector and the records."""
    parts = parts_of(command)
    without = [it for it in parts if it["number"] != 5]
    taken(command, whole(), text(mbr(LONG, without, chain=CHAIN)), mbr(LONG, numbered(command, without), chain=CHAIN))
    bare = [{name: value for name, value in it.items() if name not in ("bsd", "record") and not name.endswith("_chs")} for it in without]
    taken(command, whole(), text(mbr(LONG, bare, chain=CHAIN)), mbr(LONG, numbered(command, without), chain=CHAIN))
    taken(command, whole(), text(mbr(LONG, parts)), mbr(LONG, parts, chain=[4096, 12096, 20240]))
    none = [it for it in parts if it["number"] < 5]
    for image in (whole(), SMALL.mbr(LONG, [])):
        taken(command, image, text(mbr(LONG, none)), mbr(LONG, none, chain=[4096]))
    plain = [it for it in parts if it["number"] in (1, 4)]
    taken(command, whole(), text(mbr(LONG, plain)), mbr(LONG, plain))
    taken(command, whole(), text(mbr(LONG, [])), mbr(LONG, []))
    taken(command, whole(), text({}), mbr(LONG, []))


def added(command):
    """A new logical partition comes into the largest block, at a multiple of 1 MiB, with its record in the sector before it."""
    parts = parts_of(command)
    for given, start, size, at in (
            ({"number": 8}, 22528, 14336, 22527), ({"number": 99}, 22528, 14336, 22527), ({"node": "sda9", "size": 7}, 22528, 7, 22527),
            ({"number": 8, "size": "1MiB"}, 22528, 2048, 22527), ({"number": 8, "start": 30000}, 30000, 6864, 29999),
            ({"number": 8, "start": 30000, "size": 9}, 30000, 9, 29999),
            ({"number": 8, "start": 30000, "size": 9, "record": 25000}, 30000, 9, 25000),
            ({"number": 8, "record": 22000}, 22528, 14336, 22000)):
        told = parts + [of_record(command, 8, start, size, "83", "linux", record=at)]
        taken(command, whole(), text(mbr(LONG, parts + [given], chain=CHAIN)), mbr(LONG, told, chain=CHAIN + [at]))
    # between others, in the empty record that is there, or in one that enters the chain
    for given, start, size, at, chain in (
            ({"start": 8192, "size": 9, "record": 7168}, 8192, 9, 7168, CHAIN),
            ({"start": 8192, "size": 9}, 8192, 9, 8191, [4096, 7168, 8191, 12096, 20240])):
        new = of_record(command, 6, start, size, "83", "linux", record=at)
        shifted = [{**it, "number": it["number"] + 1} if it["number"] > 5 else it for it in parts]
        told = numbered(command, shifted[:4] + [new] + shifted[4:])
        taken(command, whole(), text(mbr(LONG, [{"number": 6, **given}] + shifted, chain=CHAIN)), mbr(LONG, told, chain=chain))


def by_hand(command):
    """A text without places: the extended partition's sectors are taken among the records, and logical ones lie inside of it."""
    blank = SMALL.mbr(LONG, [])
    taken(command, blank, text_of([{}]), mbr(LONG, [of_record(command, 1, 2048, 38912, "83", "linux")]))
    taken(command, blank, text_of([{"size": "1MiB", "type": "c", "bootable": True}, {"type": "swap"}], label="dos"),
          mbr(LONG, [of_record(command, 1, 2048, 2048, "c", "fat32-lba", bootable=True),
                     of_record(command, 2, 4096, 36864, "82", "swap")]))
    taken(command, blank, text_of([{"number": 5, "size": "4MiB"}, {"number": 6}, {"size": "1MiB"}, {"type": "extended"}]),
          mbr(LONG, [of_record(command, 1, 2048, 2048, "83", "linux"), of_record(command, 2, 4096, 36864, "5", "extended"),
                     of_record(command, 5, 6144, 8192, "83", "linux", record=4096),
                     of_record(command, 6, 16384, 24576, "83", "linux", record=16383)], chain=[4096, 16383]))
    # in the order of their numbers, whatever the text's
    taken(command, blank, text_of([{"number": 9, "size": 100}, {"number": 7, "size": 200}, {"number": 1, "type": "5", "start": 2048}]),
          mbr(LONG, [of_record(command, 1, 2048, 38912, "5", "extended"),
                     of_record(command, 5, 4096, 200, "83", "linux", record=2048),
                     of_record(command, 6, 6144, 100, "83", "linux", record=6143)], chain=[2048, 6143]))
    # a slice has an empty label, or none, or its own
    for more, bsd in (({}, told_label(1000, {}, unit=1000)), ({"bsd": None}, None), ({"bsd": own_label(1000)[1]}, own_label(1000)[1])):
        taken(command, blank, text_of([{"type": "a5", "size": 1000, **more}]),
              mbr(LONG, [of_record(command, 1, 2048, 1000, "a5", "freebsd", bsd=bsd)]))
    it = command.large()
    taken(it, LARGE.mbr(1024, []), text_of([{"size": 9, "type": "a5"}, {"type": "f"}, {"number": 5, "size": "40KiB"}]),
          mbr(1024, [of_record(it, 1, 256, 9, "a5", "freebsd", bsd=None), of_record(it, 2, 512, 512, "f", "extended-lba"),
                     of_record(it, 5, 768, 10, "83", "linux", record=512)], chain=[512]))


def chains(command):
    """`chain` and `record` as they are said."""
    blank = SMALL.mbr(COUNT, [])
    outer = {"number": 1, "type": "5", "start": 2048, "size": 4096}
    shown = of_record(command, 1, 2048, 4096, "5", "extended")
    for logicals, chain, told, links in (
            ([], [2048], [], [2048]), ([], [2048, 3000, 6143], [], [2048, 3000, 6143]),
            ([{"start": 3000, "size": 9}], [2048, 2999], [(3000, 9, 2048)], [2048, 2999]),
            ([{"start": 3000, "size": 9, "record": 2999}], None, [(3000, 9, 2999)], [2048, 2999]),
            ([{"start": 3000, "size": 9, "record": 2048}], None, [(3000, 9, 2048)], [2048]),
            ([{"start": 3000, "size": 9, "record": 2500}], [2048, 2600], [(3000, 9, 2500)], [2048, 2500, 2600]),
            ([{"start": 2049, "size": 9}, {"start": 3000, "size": 9}], [2048, 2500], [(2049, 9, 2048), (3000, 9, 2999)],
             [2048, 2500, 2999])):
        parts = [{"number": k, **it} for k, it in enumerate(logicals, 5)]
        rows = [of_record(command, k, start, size, "83", "linux", record=at) for k, (start, size, at) in enumerate(told, 5)]
        more = {} if chain is None else {"chain": chain}
        taken(command, blank, text_of([outer, *parts], **more), mbr(COUNT, [shown, *rows], chain=links))
    for chain in ([], [2047], [2049], [2048, 2048], [2048, 3000, 3000], [2048, 3000, 2999], [3000, 2048], list(range(2048, 2177))):
        faulty(command, blank, text_of([outer], chain=chain), "chain")
    many = list(range(2048, 2176))
    taken(command, blank, text_of([outer], chain=many), mbr(COUNT, [shown], chain=many))
    refused(command, blank, text_of([outer], chain=[2048, 6144]), "plan 1")
    for chain in ([], [2048]):
        faulty(command, blank, text_of([{"size": 9}], chain=chain), "chain")
    for logicals, n in (
            ([{"start": 3000, "size": 9, "record": 2047}], 2), ([{"start": 3000, "size": 9, "record": 3001}], 2),
            ([{"start": 2048, "size": 9}], 2), ([{"start": 100, "size": 9}], 2), ([{"start": 2 ** 40, "size": 9, "record": 2048}], 2),
            ([{"start": 3000, "size": 9}, {"start": 4000, "size": 9, "record": 2048}], 3),
            ([{"start": 4000, "size": 9, "record": 3500}, {"start": 3000, "size": 9}], 3)):
        parts = [{"number": k, **it} for k, it in enumerate(logicals, 5)]
        faulty(command, blank, text_of([outer, *parts]), f"record {n}")


def faults(command):
    """What an MBR doesn't have, and what it can't say."""
    blank, outer = SMALL.mbr(COUNT, []), {"number": 4, "type": "f", "start": 4096, "size": 4096}
    for more, key in (({"id": images.DISK}, "id"), ({"firstlba": 34}, "firstlba"), ({"lastlba": 8158}, "lastlba"),
                      ({"entries": 4}, "entries"), ({"table-length": "4"}, "entries"), ({"label": "gpt", "id": "0x1"}, "id")):
        faulty(command, blank, text_of([], **more), key)
    for more, key in (({"uuid": images.guid(1)}, "uuid"), ({"name": "a"}, "name"), ({"name": ""}, "name"), ({"name_units": [65]}, "name"),
                      ({"attributes": 0}, "attributes"), ({"attrs": "GUID:60"}, "attributes"), ({"last": 3000}, "last"),
                      ({"offset": 9}, "offset"),
                      ({"type": images.LINUX}, "type"), ({"type": "home"}, "type"), ({"type": "8300"}, "type"), ({"size": 0}, "size"),
                      ({"size": "511B"}, "size"), ({"size": 2 ** 32, "start": 2048}, "size"),
                      ({"size": 2 ** 64 - 1, "start": 2048}, "size"),
                      ({"size": 9000}, "size"), ({"start": 2048, "size": 0}, "size"), ({"start": 0}, "start"), ({"start": 8192}, "start"),
                      ({"type": "83", "bsd": own_label(9)[1], "size": 9}, "bsd"), ({"type": "a5", "size": 1}, "size")):
        faulty(command, blank, text_of([more]), f"{key} 1")
        faulty(command, blank, text_of([outer, {"number": 5, **more}]), f"{key} 2")
    for parts, key in (
            ([{"number": 0}], "number 1"), ([{"number": 3, "size": 9}, {"number": 3}], "number 2"),
            ([{"start": 9 * k, "size": 9} for k in range(1, 6)], "number 5"),
            ([{"number": 5}], "number 1"), ([{"size": 9}, {"number": 7}, {"number": 6}], "number 3"),
            ([outer, {"number": 6, "size": 9}, {"number": 6, "size": 9}], "number 3"),
            ([{"record": 9}], "record 1"), ([outer, {"number": 5, "type": "5"}], "type 2"), ([outer, {"type": "5"}], "type 2"),
            ([{"start": 2 ** 32, "size": 9}], "start 1"), ([{"start": 2 ** 64 - 1, "size": 9}], "size 1"),
            ([outer, {"number": 5}, {"number": 6}], "size 3")):
        faulty(command, blank, text_of(parts), key)
    faulty(command, blank, text_of([{}] * 133), "partitions")
    for parts in ([{"start": 0, "size": 1}], [{"start": 8192, "size": 1}], [{"start": 9, "size": 9}, {"start": 17, "size": 9}],
                  [outer, {"number": 5, "start": 4097, "size": 4096}],
                  [outer, {"number": 5, "start": 4100, "size": 9}, {"number": 6, "start": 4105, "size": 9}]):
        refused(command, blank, text_of(parts), "plan 4")
    refused(command, blank, text_of([{"boot": 1, "size": 9}]), "plan 1")
    # the first of several
    for parts, more, key in (
            ([{"number": 0}], {"id": images.DISK, "firstlba": 1, "chain": []}, "id"), ([{"number": 0}], {"chain": [7]}, "number 1"),
            ([{"number": 5}], {"chain": [7]}, "chain"), ([outer, {"number": 5, "record": 9, "size": 9}, {"number": 0}], {}, "number 3"),
            ([{"number": 0, "record": 1, "uuid": images.guid(1)}], {}, "record 1"),
            ([{"number": 0, "uuid": images.guid(1), "name": ""}], {}, "uuid 1"),
            ([{"type": "home", "start": 0}], {}, "type 1"), ([outer, {"number": 6, "size": 0}, {"number": 5, "size": 0}], {}, "size 3")):
        faulty(command, blank, text_of(parts, **more), key)


# what is given to sfdisk
SCRIPTS = ("", "2048,2048,83,*\n,2048,82", "start=2048,size=4096,type=c,bootable\nstart=38000,size=100,type=7",
           "2048,2048,83\n4096,30000,5\n6144,2048,83\n10240,2048,82\n,,83",
           "4096,30000,f\n,,\n,0,\n,0,\n6144,2048,83\n12288,4000,8e",
           "2048,2048,ef\n4096,2048,a6\n8192,30000,5\n38912,,b\n10240,100,1\n,100,6")


def of_sfdisk(command):
    """What sfdisk prints of a disk changes nothing there; another MBR of the same size then has the same partitions."""
    for script in SCRIPTS:
        command.on(SMALL.zeros(LONG))
        must("sfdisk", "-q", command.path, input=f"label: dos\nlabel-id: 0x1234abcd\n{script}\n")
        image = command.image()
        printed = json.loads(must("sfdisk", "--json", command.path))["partitiontable"]
        command.writes_nothing(["set", file_of(command, text(printed))], "done\n")
        command.on(SMALL.mbr(LONG, []))
        same(f"set of sfdisk's {script!r}", command.run("set", file_of(command, text(printed))), ("done\n", "", 0))
        command.healthy()
        found = json.loads(must("sfdisk", "--json", command.path))["partitiontable"]
        same(f"sfdisk's partitions of {script!r}", found.get("partitions"), printed.get("partitions"))
        for edit in ({"type": "7"}, {"bootable": True}):
            if printed.get("partitions") and printed["partitions"][0]["type"] not in ("5", "f"):
                changed = copy.deepcopy(printed)
                changed["partitions"][0].update(edit)
                command.on(image)
                same(f"set of sfdisk's {script!r} with {edit}", command.run("set", file_of(command, text(changed))), ("done\n", "", 0))
                found = json.loads(must("sfdisk", "--json", command.healthy().path))["partitiontable"]["partitions"]
                same(f"sfdisk's partitions of {script!r} with {edit}", found, changed["partitions"])


def new_one(command, image, content, told):
    """The MBR comes by one switch, where there is none; not by the table of the specification, which has no such plan."""
    path, before = file_of(command, content), command.on(image).image()
    plan, err, status = command.run("set", "--plan", path)
    same("the plan of a new MBR", (err, status, command.image() == before), ("", 0, True))
    same("its check", command.run("check", plan_file(command, plan))[2], 0)
    by_table = command.run("set", "--by-table", path), command.image() == before
    same("a new MBR by the table", by_table, (("", "refused: plan 1\n", 3), True))
    same("a new MBR", command.run("set", path), ("done\n", "", 0))
    shows(command, told).healthy()
    left = command.image()
    same("what stood before its records", left[:446], before[:446])
    same("the headers of a GPT", (left[512:1024], left[-512:]), (bytes(512), bytes(512)))
    applied = command.on(image).run("apply", plan_file(command, plan)), command.image() == left
    same("the plan applied", applied, (("done\n", "", 0), True))
    command.writes_nothing(["set", path], "done\n")


def new_ones(command):
    """An MBR on a disk without a table, and in place of a GPT, of which nothing is kept."""
    told = mbr(LONG, parts_of(command), chain=CHAIN)
    gpt = SMALL.gpt(LONG, {1: entry(50, 1000), 5: entry(37500, 37600, unique=guid(5))})
    code = bytearray(SMALL.zeros(LONG))
    code[:446] = bytes(range(1, 224)) * 2
    for image in (SMALL.zeros(LONG), gpt, SMALL.gpt(LONG, {}), code):
        new_one(command, image, text(own(command)), told)
        new_one(command, image, text_of([], label="dos"), mbr(LONG, []))
        new_one(command, image, text_of([{"size": "4MiB"}, {"type": "5"}], label="dos"),
                mbr(LONG, [of_record(command, 1, 2048, 8192, "83", "linux"), of_record(command, 2, 10240, LONG - 10240, "5", "extended")],
                    chain=[10240]))
    for start, why in ((50, "plan 2"), (1000, "plan 2"), (20, "plan 1"), (LONG - 20, None), (1001, None)):
        content = text_of([{"type": "5", "start": start, "size": 15}], label="dos")
        if why:
            answer = command.on(gpt).run("set", file_of(command, content))
            same(f"an extended partition from {start} on", (answer, command.image() == bytes(gpt)), (("", f"refused: {why}\n", 3), True))
        else:
            new_one(command, gpt, content, mbr(LONG, [of_record(command, 1, start, 15, "5", "extended")], chain=[start]))
    for script in SCRIPTS:
        command.on(SMALL.zeros(LONG))
        must("sfdisk", "-q", command.path, input=f"label: dos\nlabel-id: 0x1234abcd\n{script}\n")
        printed = json.loads(must("sfdisk", "--json", command.path))["partitiontable"]
        for image in (SMALL.zeros(LONG), gpt):
            command.on(image)
            same(f"a new MBR of sfdisk's {script!r}", command.run("set", file_of(command, text(printed))), ("done\n", "", 0))
            found = json.loads(must("sfdisk", "--json", command.healthy().path))["partitiontable"]
            same(f"a new MBR, sfdisk's partitions of {script!r}", found.get("partitions"), printed.get("partitions"))


ROWS = (own_text, edits, removed, added, by_hand, chains, faults, of_sfdisk, new_ones)
