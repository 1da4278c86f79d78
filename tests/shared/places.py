"""Places on a disk, and labels of slices, as a plain reading of docs/table.md and docs/format.md has them."""
import struct

import images


def last_by(first, extent, size):
    """The last sector, or None."""
    how, amount = extent
    if how == "last":
        return amount
    count = amount // size if how == "bytes" else amount
    return first + count - 1 if count and first + count <= 2 ** 64 else None


def blocks(low, high, runs):
    """The blocks of free sectors."""
    at, found = low, []
    for first, last in sorted((first, last) for first, last in runs if first <= last and last >= low and first <= high):
        if first > at:
            found.append((at, first - 1))
        at = max(at, last + 1)
    return found + ([(at, high)] if at <= high else [])


def empty_label(length):
    blank = {"size": 0, "offset": 0, "fragment": 0, "fstype": 0, "frag": 0, "cpg": 0}
    return {"kind": 0, "subtype": 0, "type_name": "00" * 16, "pack_name": "00" * 16, "geometry": [0] * 4, "unit": length,
            "kept": "00" * 68, "bbsize": 8192, "sbsize": 0, "entries": [blank, blank, {**blank, "size": length}] + [blank] * 5}


def label_in(sector, first, length):
    """The label of a slice that its second sector holds, as in a text, or None."""
    magic, kind, subtype, type_name, pack_name, size = struct.unpack_from("<IHH16s16sI", sector)
    magic2, _, count, bbsize, sbsize = struct.unpack_from("<IHHII", sector, 132)
    total = 0
    for (word,) in struct.iter_unpack("<H", sector[:148 + 16 * min(count, 8)]):
        total ^= word
    if (magic, magic2, size, total) != (images.MAGIC, images.MAGIC, 512, 0) or not 3 <= count <= 8:
        return None
    entries = [dict(zip(("size", "offset", "fragment", "fstype", "frag", "cpg"), struct.unpack_from("<IIIBBH", sector, 148 + 16 * k)))
               for k in range(count)]
    if entries[2]["size"] != length or entries[2]["offset"] not in (0, first):
        return None
    return {"kind": kind, "subtype": subtype, "type_name": type_name.hex(), "pack_name": pack_name.hex(),
            "geometry": list(struct.unpack_from("<4I", sector, 44)), "unit": struct.unpack_from("<I", sector, 60)[0],
            "kept": bytes(sector[64:132]).hex(), "bbsize": bbsize, "sbsize": sbsize, "entries": entries + [None] * (8 - count)}
