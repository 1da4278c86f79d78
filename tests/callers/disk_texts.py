"""The table of an open disk as text, free blocks, and tables that texts say, by Python's module and by calls in C, beside the command;
disk_library.py runs it."""
import ctypes
import json
import os

import images
import ptab as lib
from compared import content, put, same
from disk_calls import error_of, must
from doubles import text_of


def two(sectors):
    """A table of two partitions, for small disks."""
    first = sectors.array + 4
    parts = [{"start": first, "size": 8, "type": "esp", "name": "EFI"}, {"start": first + 8, "name": "root"}]
    return {"partitiontable": {"label": "gpt", "partitions": parts}}


def as_text(ptab, folder, disks, drawn_bytes):
    """The table as text, free blocks and `set`, by Python's module and by buffers of each length, beside the command: on a GPT, one with a
    label, an MBR, 4096 bytes; from a text onto a blank disk of the same size."""
    path, text, blank = f"{folder}/texts", f"{folder}/texts.json", f"{folder}/blank"
    for name, sectors, image, _ in disks:
        size = ["--sector-size", str(sectors.size)]
        put(path, image())
        wanted = must(ptab, "show", "--json", *size, path)
        free = [tuple(int(it) for it in line.split(" ")) for line in must(ptab, "free", *size, path).splitlines()]
        with lib.Disk(path, write=True, sector_size=sectors.size) as disk, lib.Disk(path, sector_size=sectors.size) as reading:
            same(f"{name}: its text", (disk.text() + "\n", disk.json()), (wanted, json.loads(wanted)))
            same(f"{name}: its text by another name", disk.json("sda")["partitiontable"]["device"], "sda")
            same(f"{name}: free blocks", [(it.first, it.last) + (it.inside,) * (it.inside is not None) for it in disk.free()], free)
            in_buffers(disk, disk.text().encode(), len(free))
            same(f"{name}: it is set back", disk.set(disk.json()), 0)
            for table, drawn in ((two(sectors), drawn_bytes), ({"partitiontable": {"label": "gpt"}}, drawn_bytes[:16])):
                put(text, json.dumps(table).encode())
                plan = must(ptab, "set", "--plan", *size, "--fresh", drawn.hex(), path, text)
                for found in (reading.set_plan(table, drawn), reading.set_plan(json.dumps(table), drawn)):
                    same(f"{name}: a plan", text_of([(lba, data.hex()) for lba, data in phase] for phase in found), plan)
            same(f"{name}: it is as it was", content(path) == image(), True)
            same(f"{name}: a table is set", disk.set(two(sectors), drawn_bytes) > 0, True)
            same(f"{name}: it is healthy", (bool(disk.verify()), [it.name for it in disk.table().partitions]), (True, ["EFI", "root"]))
            onto_blank(name, sectors, disk, blank, len(image()))


def onto_blank(name, sectors, disk, blank, length):
    """The text of a disk makes the same table on a blank one."""
    put(blank, bytes(length))
    with lib.Disk(blank, write=True, sector_size=sectors.size) as other:
        found = other.set(disk.text("x")) > 0, other.table() == disk.table(), other.json("x") == disk.json("x")
        same(f"{name}: onto a blank disk", found, (True, True, True))
        same(f"{name}: and again", other.set(disk.json("y")), 0)


def in_buffers(disk, text, count):
    """The calls in C with buffers of each kind of length: behind a text stands a zero byte."""
    library, reply = lib.load(), lib._Reply()
    for room_of in (0, 1, len(text) - 1, len(text), len(text) + 1, len(text) + 9):
        buffer = ctypes.create_string_buffer(b"\x5a" * (room_of + 1), room_of + 1)
        status = library.ptab_disk_table(disk._disk, os.fsencode(disk._path), buffer, room_of, ctypes.byref(reply))
        wanted = (lib.DONE, len(text)) if room_of > len(text) else (lib.ROOM, len(text) + 1)
        same(f"a text of {len(text)} bytes into {room_of}", (status, reply.count), wanted)
        given = text + b"\0" if status == lib.DONE else b""
        same("its bytes, and what stands behind", buffer.raw, given + b"\x5a" * (room_of + 1 - len(given)))
    for room_of in (0, count, count + 1):
        rows = (lib._Block * (room_of + 1))()
        status = library.ptab_disk_free(disk._disk, rows, room_of, ctypes.byref(reply))
        same(f"{count} blocks into {room_of}", (status, reply.count), (lib.DONE if room_of >= count else lib.ROOM, count))


def faults(folder):
    """A fault of a text is an exception that has its key and its object; nothing is written."""
    path, image = f"{folder}/faults", images.one_partition()
    put(path, image)
    with lib.Disk(path, write=True) as disk:
        for table, key, part, told in (
                ("x", "text", None, "the table's text has a fault at `text`"),
                ({}, "partitiontable", None, "the table's text has a fault at `partitiontable`"),
                ({"partitiontable": {"sectors": 5}}, "sectors", None, "the table's text has a fault at `sectors`"),
                ({"partitiontable": {"partitions": [{}, {"nmae": "x"}]}}, "unknown", 2,
                 "object 2 of `partitions` has a fault at `unknown`"),
                ({"partitiontable": {"partitions": [{"size": "9TiB"}]}}, "size", 1, "object 1 of `partitions` has a fault at `size`")):
            for call in (disk.set, disk.set_plan):
                error = error_of(lambda: call(table))
                found = type(error), error.key, error.part, str(error), error.status
                same(f"{table}", found, (lib.TextFault, key, part, told, lib.REFUSED))
        error = error_of(lambda: disk.set({"partitiontable": {"partitions": [{"start": 1, "size": 1}]}}))
        same("a table that isn't sound", (type(error), str(error)), (lib.Refused, "the new layout isn't sound"))
        error = error_of(lambda: disk.set({"partitiontable": {}}, b"x"))
        same("random bytes", (type(error), str(error)), (lib.BadArgument, "the random bytes aren't whole groups of 16"))
        error = error_of(lambda: disk.set("\udc80"))
        same("no UTF-8", (type(error), str(error)), (lib.BadArgument, "the device's name or the table's text isn't UTF-8"))
        same("nothing was written", content(path) == image, True)
    with lib.Disk(path) as disk:
        same("who only reads", str(error_of(lambda: disk.set({}))), "the disk was opened for reading alone")
