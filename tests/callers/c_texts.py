"""The replies of the C library that are of tables as text: the texts, free blocks, plans of texts and their faults; c_library.py runs it.
What is expected is worked out by hand, by docs/table.md and docs/c.md."""
import json

import images
import replay as lib
from c_replies import PLAN, TEXT, TEXT_OF_ONE, Given, changed, reply
from images import LARGE, SMALL


def entry_as_text(number, first, last, unique, device="disk.img"):
    return {"node": f"{device}{number}", "number": number, "size": last - first + 1, "start": first, "type": images.LINUX,
            "type_name": "linux-generic", "uuid": unique.upper()}


def table_as_text(sectors, count, parts, device="disk.img"):
    """A GPT's text, as docs/table.md has it."""
    table = {"device": device, "entries": 128, "firstlba": sectors.array + 2, "id": images.DISK.upper(), "label": "gpt",
             "lastlba": count - sectors.array - 2, "partitions": parts, "sectors": count, "sectorsize": sectors.size, "unit": "sectors"}
    return json.dumps({"partitiontable": table}, indent=2).encode()


def texts(calls):
    """The table as text, and no byte behind it; a buffer that is too short by a byte; set back, it changes nothing."""
    first = images.FIRST
    gpt, large = Given(images.one_partition()), Given(LARGE.gpt(64, {1: images.entry(6, 40)}), 4096)
    mbr = Given(SMALL.mbr(200, [images.record(0x83, 120, 30, 0x80)]))
    record = {"bootable": True, "end_chs": "feffff", "node": "disk.img1", "number": 1, "size": 30, "start": 120, "start_chs": "feffff",
              "type": "83", "type_name": "linux"}
    of_mbr = {"device": "disk.img", "label": "dos", "partitions": [record], "sectors": 200, "sectorsize": 512, "unit": "sectors"}
    for given, text in ((gpt, table_as_text(SMALL, 4096, [entry_as_text(1, 2048, 4062, first)])),
                        (large, table_as_text(LARGE, 64, [entry_as_text(1, 6, 40, first)])),
                        (Given(SMALL.gpt(4096, {})), table_as_text(SMALL, 4096, [])),
                        (mbr, json.dumps({"partitiontable": of_mbr}, indent=2).encode())):
        yield calls.text(given), (lib.DONE, reply(count=len(text)))
        yield (calls.told, ()), (text, ())
        for space in (len(text), len(text) + 1):
            yield calls.text(given, room=space), (lib.DONE, reply(count=len(text)))
        for space in (len(text) - 1, 1, 0):
            yield calls.text(given, room=space), (lib.ROOM, reply(count=len(text)))
        yield calls.set(given, text, b""), (lib.DONE, reply())
    for device in ("", "a", "/dev/n\u00e9\U0001d11e", 'a"\\\n\x01'):
        text = table_as_text(SMALL, 4096, [entry_as_text(1, 2048, 4062, first, device)], device)
        yield calls.text(gpt, device.encode()), (lib.DONE, reply(count=len(calls.told)))
        yield (json.loads(calls.told), ()), (json.loads(text), ())


def free_blocks(calls):
    """Blocks of free sectors, in their order, with what they lie inside."""
    chain = images.chained({4096: images.ebr(images.record(0x83, 100, 400), images.record(0x05, 1000, 500)),
                            5096: images.ebr(images.record(0x83, 10, 90))})
    slices = {1: images.entry(40, 139, images.FREEBSD), 3: images.entry(200, 229, images.FREEBSD, images.guid(3))}
    two = SMALL.gpt(300, slices)
    SMALL.put(two, 41, images.label(100, {0: (30, 16, 7), 3: (20, 50, 1)}))
    full = SMALL.gpt(300, {1: images.entry(34, 266)})
    inside = [(4097, 4195, 2), (4596, 5095, 2), (5097, 5105, 2), (5196, 12287, 2)]
    for given, blocks in ((Given(images.one_partition()), [(34, 2047, 0)]),
                          (Given(LARGE.gpt(64, {1: images.entry(6, 40)}), 4096), [(41, 58, 0)]),
                          (Given(SMALL.mbr(200, [images.record(0x83, 120, 30)])), [(1, 119, 0), (150, 199, 0)]),
                          (Given(chain), [(1, 4095, 0), (12288, 16383, 0), *inside]),
                          (Given(two), [(34, 39, 0), (140, 199, 0), (230, 266, 0), (86, 89, 1), (110, 139, 1)]),
                          (Given(full), [])):
        yield calls.free(given), (lib.DONE, reply(count=len(blocks)))
        yield (calls.blocks, ()), (blocks, ())
        yield calls.free(given, len(blocks)), (lib.DONE, reply(count=len(blocks)))
        for space in {len(blocks) - 1, 0} if blocks else ():
            yield calls.free(given, space), (lib.ROOM, reply(count=len(blocks)))


def told_of(key, part=0):
    return lib.REFUSED, reply(about=TEXT, number=key, a=part)


def tables(calls):
    """Plans of the tables of texts, and each fault by the number of its key and of its object. A fault that the text alone has is told of a
    view that has no sector."""
    gpt, blank, nothing = Given(images.one_partition()), Given(bytes(4096 * 512)), Given(bytes(4096 * 512), only=())
    lost = Given(changed(images.one_partition(), 1, bytes(512)))
    large = Given(bytes(64 * 4096), 4096)
    # writes and phases, and the switch
    for given, text, count, phases, switch in (
            (gpt, TEXT_OF_ONE, 67, 4, 2), (blank, TEXT_OF_ONE, 67, 4, 2), (gpt, b'{"partitiontable": {}}', 67, 4, 2),
            (blank, b'{"partitiontable": {}}', 35, 3, 1),
            (large, b'{"partitiontable": {"partitions": [{"start": 10, "size": 8}]}}', 11, 4, 2)):
        yield calls.set(given, text), (lib.DONE, reply(count=count, phases=phases))
        yield calls.check_last(given), (lib.DONE, reply(a=switch))
    for primary, count, phases in ((lib.BY_TABLE, 68, 5), (lib.KEPT, 67, 4)):
        yield calls.set(Given(bytes(4096 * 512)).but(primary=primary)), (lib.DONE, reply(count=count, phases=phases))
    yield calls.set(gpt, drawn=b""), (lib.DONE, reply(count=67, phases=4))
    for rows, space in ((66, None), (0, None), (67, 67 * 512 - 1), (0, 0)):
        yield calls.set(gpt, rows=rows, room=space), (lib.ROOM, reply(count=67, phases=4))
    faults = {b"": (1, 0), b"x": (1, 0), b"[]": (2, 0), b'{"partitiontable": []}': (2, 0), b'{"partitiontable": {}, "x": 1}': (2, 0)}
    values = {"labels": 3, "label": 4, "device": 5, "unit": 6, "sectorsize": 7, "sectors": 8, "id": 9, "firstlba": 10, "lastlba": 11,
              "entries": 12, "table-length": 13, "partitions": 14, "chain": 15}
    faults |= {json.dumps({"partitiontable": {name: [[]]}}).encode(): (key, 0) for name, key in values.items() if name != "partitions"}
    faults[b'{"partitiontable": {"partitions": 1}}'] = (14, 0)
    values = {"nmae": 3, "number": 16, "node": 17, "start": 18, "size": 19, "last": 20, "offset": 21, "type": 22, "type_name": 23,
              "uuid": 24, "name": 25, "name_units": 26, "attributes": 27, "attrs": 28, "bootable": 29, "boot": 30, "start_chs": 31,
              "end_chs": 32, "record": 33, "bsd": 34}
    for part in (1, 2, 9):
        for name, key in values.items():
            parts = [{}] * (part - 1) + [{name: ["x"]}, {"nmae": 1}]
            faults[json.dumps({"partitiontable": {"partitions": parts}}).encode()] = (key, part)
    for text, (key, part) in faults.items():
        for given in (gpt, nothing, lost):
            yield calls.set(given, text, b""), told_of(key, part)
    # what depends on the disk: another number of sectors, no fresh GUID for the disk, for a partition
    for text, key, part in ((b'{"partitiontable": {"sectors": 4097}}', 8, 0), (b'{"partitiontable": {"sectorsize": 4096}}', 7, 0),
                            (b'{"partitiontable": {"label": "gpt", "partitions": [{}]}}', 9, 0)):
        yield calls.set(blank, text, b""), told_of(key, part)
        yield calls.set(nothing, text, b""), (lib.WANT, reply(sector=0))
    yield calls.set(gpt, b'{"partitiontable": {"partitions": [{"number": 1}, {"number": 1}]}}'), told_of(16, 2)
    yield calls.set(gpt, b'{"partitiontable": {"partitions": [{"number": 2}]}}', b""), told_of(24, 1)
    # a table that isn't sound; a disk that has no room for one
    yield calls.set(gpt, b'{"partitiontable": {"partitions": [{"start": 10, "size": 8}]}}'), (lib.REFUSED, reply(about=PLAN, number=4))
    yield calls.set(gpt, b'{"partitiontable": {"partitions": [{"start": 90, "size": 8}, {"start": 90, "size": 8}]}}'), (
        lib.REFUSED, reply(about=PLAN, number=4))
    for k in (*range(34), *range(4063, 4096)):
        yield calls.set(Given(images.one_partition(), without={k})), (lib.WANT, reply(sector=k))


PARTS = (texts, free_blocks, tables)
