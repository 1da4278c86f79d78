"""What `ptab set` makes of a disk by a text, worked out plainly: the table with all that the text leaves out, or the first fault; and the
table as `ptab show --json` prints it."""
import struct
import uuid
from dataclasses import dataclass, field

import images
import made_mbr
from drafts import TYPES, WORDS, Fault, draft_of, entry_type
from made_mbr import is_mbr
from places import blocks, empty_label, label_in, last_by
from reader import followed

FREEBSD = images.FREEBSD.lower()
NOTHING = "00000000-0000-0000-0000-000000000000"
NAMES = {guid: name for name, _, guid in reversed(TYPES)}


@dataclass
class Entry:
    kind: str
    unique: str
    first: int
    last: int
    attributes: int = 0
    units: tuple = ()


@dataclass
class Table:
    """A GPT of a disk of so many sectors; labels as in the text, by the numbers of their slices."""
    size: int
    sectors: int
    disk: str
    first: int
    last: int
    count: int = 128
    entries: dict = field(default_factory=dict)
    labels: dict = field(default_factory=dict)


def trimmed(units):
    units = list(units)
    while units and units[-1] == 0:
        units.pop()
    return tuple(units)


# ## What stands on a disk.


def gpt_on(image, sectors):
    """The GPT that an image holds: that of the primary copy, or else that of the backup, or None."""
    found = followed(image, sectors) or followed(image, sectors, "backup")
    if found is None:
        return None
    disk, first, last, array = found
    table = Table(sectors.size, sectors.count(image), str(uuid.UUID(bytes_le=disk)), first, last, len(array) // 128)
    for k in range(table.count):
        it = array[128 * k:128 * (k + 1)]
        if it[:16] != bytes(16):
            start, end, attributes = struct.unpack_from("<QQQ", it, 32)
            table.entries[k + 1] = Entry(str(uuid.UUID(bytes_le=it[:16])), str(uuid.UUID(bytes_le=it[16:32])), start, end, attributes,
                                         trimmed(struct.unpack_from("<36H", it, 56)))
    for number, it in table.entries.items():
        if is_slice(table.size, it) and it.first < it.last and it.first + 1 < table.sectors:
            told = label_in(sectors.sector(image, it.first + 1), it.first, it.last - it.first + 1)
            table.labels |= {number: told} if told else {}
    return table


def is_slice(size, entry):
    return size == 512 and entry.kind == FREEBSD


# ## What a text leaves out.


def edge(size):
    return 16384 // size + 2


def placed(table, runs, start, extent, size):
    """Where a partition lies of which the text leaves out a start or a size, or None."""
    free = blocks(table.first, table.last, runs)
    if start:
        found = [(start, last) for first, last in free if first <= start <= last]
    else:
        alignment = (1 << 20) // size
        found = [(-(-first // alignment) * alignment, last) for first, last in free]
        most = max((last + 1 - first for first, last in found), default=0)
        found = [(first, last) for first, last in found if last + 1 - first == most > 0]
    if not found:
        return None
    first, last = found[0]
    if extent is None:
        return first, last
    how, amount = extent
    end = amount if how == "last" else first + (amount // size if how == "bytes" else amount) - 1
    return (first, end) if first <= end <= last else None


class Making:
    """A table that a draft makes of a disk, partition after partition."""

    def __init__(self, size, sectors, old, fresh, draft):
        self.size, self.old, self.fresh, self.draft = size, old, list(fresh), draft
        if draft["chain"] is not None:
            raise Fault("chain")
        count = draft["entries"] if draft["entries"] is not None else old.count if old else 128
        if not 1 <= count <= 128:
            raise Fault("entries")
        if len(draft["partitions"]) > count:
            raise Fault("partitions")
        disk = draft["id"] or (old.disk if old else self.next())
        if disk in (None, "signature"):
            raise Fault("id")
        first = draft["firstlba"] if draft["firstlba"] is not None else old.first if old else edge(size)
        last = draft["lastlba"] if draft["lastlba"] is not None else max(sectors - edge(size), 0)
        self.table = Table(size, sectors, disk, first, last, count)
        self.runs = []
        for part in draft["partitions"]:
            if part["start"] is not None and part["extent"] is not None:
                end = last_by(part["start"], part["extent"], size)
                self.runs += [] if end is None else [(part["start"], end)]
        for n, part in enumerate(draft["partitions"], 1):
            self.put(n, part)

    def next(self):
        return self.fresh.pop(0) if self.fresh else None

    def number(self, n, part):
        entries, number = self.table.entries, part["number"]
        if number is None:
            asked = {it["number"] for it in self.draft["partitions"]}
            number = next((k for k in range(1, self.table.count + 1) if k not in entries and k not in asked), 0)
        if not 1 <= number <= self.table.count or number in entries:
            raise Fault("number", n)
        return number

    def place(self, n, part):
        start, extent = part["start"], part["extent"]
        if start is not None and extent is not None:
            end = last_by(start, extent, self.size)
            place, key = None if end is None else (start, end), "size"
        elif start is not None:
            place, key = placed(self.table, self.runs, start, None, self.size) if start else None, "start"
        else:
            place, key = placed(self.table, self.runs, 0, extent, self.size), "size"
        if place is None:
            raise Fault(key, n)
        return place

    def label(self, n, part, number, entry):
        """(its label or None,)"""
        was = self.old.entries.get(number) if self.old else None
        if part["bsd"] is not None:
            if part["bsd"] != (None,) and not is_slice(self.size, entry):
                raise Fault("bsd", n)
            return part["bsd"][0]
        if not is_slice(self.size, entry):
            return None
        if was and is_slice(self.size, was) and (was.first, was.last) == (entry.first, entry.last):
            return self.old.labels.get(number)
        length = max(entry.last + 1 - entry.first, 1)
        if not 2 <= length < 2 ** 32:
            raise Fault("size", n)
        return empty_label(length)

    def put(self, n, part):
        for name in ("record", "offset", "bootable", "start_chs", "end_chs"):
            if part[name] is not None:
                raise Fault(name, n)
        number = self.number(n, part)
        kind = part["type"][0] if part["type"] else entry_type("8300")
        if kind is None:
            raise Fault("type", n)
        first, last = self.place(n, part)
        was = self.old.entries.get(number) if self.old else None
        unique = part["uuid"] or (was.unique if was else self.next())
        if unique is None:
            raise Fault("uuid", n)
        entry = Entry(kind, unique, first, last, part["attributes"] or 0, trimmed(part["name"] or ()))
        label = self.label(n, part, number, entry)
        self.table.entries[number] = entry
        self.table.labels |= {} if label is None else {number: label}
        self.runs.append((first, last))


# ## Whether the disk may have it.


def members(table):
    """(first, last, lowest and highest sector that it may have, what it lies in, whether it is a slice)"""
    for number, it in table.entries.items():
        yield it.first, it.last, table.first, table.last, 0, is_slice(table.size, it)
        label = table.labels.get(number)
        if not label:
            continue
        raw = label["entries"][2]
        base = 0 if raw and raw["offset"] else it.first
        for k, one in enumerate(label["entries"]):
            if k != 2 and one and one["size"]:
                yield base + one["offset"], base + one["offset"] + one["size"] - 1, it.first + 16, it.last, number, False


def is_sound(table):
    """Findings 7 to 10."""
    low, high = edge(table.size) - 1, table.sectors - edge(table.size) + 1
    all_members = list(members(table))
    for k, (first, last, least, most, parent, _) in enumerate(all_members):
        if not (first <= last < 2 ** 63 and least <= first and last <= most):
            return False
        if any(parent == it[4] and first <= it[1] and it[0] <= last for it in all_members[:k]):
            return False
        if first <= low or first < table.sectors and last >= high:
            return False
    return len({it.unique for it in table.entries.values()}) == len(table.entries)


def label_places(table):
    return [(number, it.first + 1) for number, it in table.entries.items() if is_slice(table.size, it) and it.first < it.last]


def fits(table):
    """It has room on the disk, with its usable sectors in order between the two arrays, and a type in each used entry."""
    least, most = edge(table.size), table.sectors - edge(table.size)
    has_room = table.sectors >= 2 * edge(table.size)
    return has_room and least <= table.first <= table.last <= most and all(it.kind != NOTHING for it in table.entries.values())


def is_writable(label, first, length):
    """Whether it counts three to eight entries, and its entry c is the slice."""
    count = next((k for k, it in enumerate(label["entries"]) if it is None), 8)
    raw = label["entries"][2]
    return count >= 3 and not any(label["entries"][count:]) and raw["size"] == length and raw["offset"] in (0, first)


def leaves_on(image, old):
    """(first, last) of what an image's table gives away, but for slices and what lies in an extended partition."""
    if old:
        return [(first, last) for first, last, _, _, _, is_container in members(old) if not is_container]
    records = []
    for k in range(4) if is_mbr(image) else ():
        kind, first, size = image[450 + 16 * k], *struct.unpack_from("<II", image, 454 + 16 * k)
        records += [(first, first + size - 1)] if kind not in (0, 0x05, 0x0F, 0xA5) else []
    return records


def by_labels(image, old, table, is_healthy):
    """Why the labels of a table keep an image from taking it, or None: N of `refused: plan N`."""
    had = {it.first + 1: old.labels.get(number) for number, it in old.entries.items() if is_slice(old.size, it)} if old else {}
    leaves = leaves_on(image, old)
    slices = [(number, it) for number, it in table.entries.items() if is_slice(table.size, it)]
    wanted = {number: table.labels.get(number) for number, _ in slices}
    if any(label and it.first == it.last for (_, it), label in zip(slices, wanted.values())):
        return 1
    for number, it in slices:
        magic = struct.unpack_from("<I", image, (it.first + 1) * table.size)[0] == images.MAGIC
        if wanted[number] is None and magic and it.first < it.last:
            return 4
    if any(label and not is_writable(label, it.first, it.last - it.first + 1) for (_, it), label in zip(slices, wanted.values())):
        return 1
    changed = [it.first + 1 for number, it in slices if wanted[number] is not None and had.get(it.first + 1) != wanted[number]]
    if any(first <= place <= last for first, last in leaves for place in changed):
        return 2
    if old and (table.entries, table.disk, table.first, table.last, table.count, table.sectors) == (
            old.entries, old.disk, old.first, old.last, old.count, old.sectors) and changed:
        return 1 if len(changed) > 1 else None if is_healthy else 3
    return 1 if any(place in had for place in changed) else None


def wanted_of(content, fresh, image, sectors, is_healthy=True):
    """The table that a text makes of an image, or the first fault; of an MBR without a look at whether there is a plan for it."""
    mbr, old = is_mbr(image), None if is_mbr(image) else gpt_on(image, sectors)
    count = sectors.count(image)
    draft = draft_of(content)
    if draft["sectors"] not in (None, count):
        raise Fault("sectors")
    if draft["sectorsize"] not in (None, sectors.size):
        raise Fault("sectorsize")
    if draft["label"] == "dos" or draft["label"] is None and mbr:
        return made_mbr.Making(sectors.size, count, made_mbr.mbr_on(image, sectors) if mbr else None, draft).table
    table = Making(sectors.size, count, old, fresh, draft).table
    if not is_sound(table):
        raise Fault("", line="refused: plan 4")
    if not fits(table):
        raise Fault("", line="refused: plan 1")
    refused = by_labels(image, old, table, is_healthy)
    if refused:
        raise Fault("", line=f"refused: plan {refused}")
    return table


# ## As it is shown.


def name_of(units):
    if not units:
        return {}
    text = struct.pack(f"<{len(units)}H", *units)
    if 0 in units or any(0xD800 <= ord(one) <= 0xDFFF for one in text.decode("utf-16-le", "surrogatepass")):
        return {"name_units": list(units)}
    return {"name": text.decode("utf-16-le")}


def words_of(attributes):
    words = [word for word, bit in WORDS.items() if attributes & bit]
    own = [str(bit) for bit in range(48, 64) if attributes >> bit & 1]
    return " ".join(words + ([f"GUID:{','.join(own)}"] if own else []))


def shown(table, device):
    """The object of JSON that is printed, with `device` as the image's name."""
    if isinstance(table, made_mbr.Mbr):
        return made_mbr.shown(table, device)
    parts = []
    for number, it in sorted(table.entries.items()):
        has_size = it.first <= it.last and it.last - it.first + 1 < 2 ** 64
        told = {"number": number, "node": f"{device}{'p' if device[-1] in '0123456789' else ''}{number}", "start": it.first,
                "type": it.kind.upper(), "uuid": it.unique.upper(), **name_of(it.units)}
        told |= {"size": it.last - it.first + 1} if has_size else {"last": it.last}
        told |= {"type_name": NAMES[it.kind]} if it.kind in NAMES else {}
        told |= {"attributes": it.attributes} if it.attributes else {}
        told |= {"attrs": words_of(it.attributes)} if words_of(it.attributes) else {}
        told |= {"bsd": table.labels.get(number)} if it.kind == FREEBSD else {}
        parts.append(told)
    return {"partitiontable": {"label": "gpt", "device": device, "unit": "sectors", "sectorsize": table.size, "sectors": table.sectors,
                               "id": table.disk.upper(), "firstlba": table.first, "lastlba": table.last, "entries": table.count,
                               "partitions": parts}}
