"""What `ptab set` makes of a disk by the text of an MBR, worked out plainly: the records and the chain with all that the text leaves out,
or the first fault; and the table as `ptab show --json` prints it."""
import struct
from dataclasses import dataclass, field

from drafts import OF_RECORDS, Fault
from places import blocks, empty_label, label_in, last_by

FARTHEST = "feffff"
EXTENDED = (0x05, 0x0F)
FREEBSD = 0xA5
NAMES = {kind: name for name, kind in reversed(OF_RECORDS.items())}


@dataclass
class Record:
    """`first` is the first sector on the disk."""
    kind: int
    first: int
    size: int
    boot: int = 0
    start_chs: str = FARTHEST
    end_chs: str = FARTHEST

    def last(self):
        return self.first + self.size - 1


@dataclass
class Mbr:
    """Logical partitions by the sectors of their extended boot records; labels as in the text, by the numbers of their slices."""
    size: int
    sectors: int
    records: dict = field(default_factory=dict)
    chain: list = field(default_factory=list)
    logicals: dict = field(default_factory=dict)
    labels: dict = field(default_factory=dict)

    def numbered(self):
        """(number, the sector of its extended boot record or None, the partition)"""
        yield from ((number, None, it) for number, it in sorted(self.records.items()))
        yield from ((number, at, it) for number, (at, it) in enumerate(sorted(self.logicals.items()), 5))

    def extended(self):
        return next((it for it in self.records.values() if it.kind in EXTENDED), None)


# ## What stands on a disk.


def is_mbr(image):
    kinds = [image[446 + 16 * k + 4] for k in range(4)]
    return image[510:512] == b"\x55\xaa" and all(image[446 + 16 * k] in (0, 0x80) for k in range(4)) and 0xEE not in kinds


def record_in(content, base=0):
    """The record in 16 bytes, where it is used."""
    first, size = struct.unpack_from("<II", content, 8)
    return Record(content[4], base + first, size, content[0], content[1:4].hex(), content[5:8].hex()) if content[4] and size else None


def mbr_on(image, sectors):
    """The MBR that an image holds, whose chain is sound."""
    table = Mbr(sectors.size, sectors.count(image))
    table.records = {k: it for k in range(1, 5) if (it := record_in(bytes(image[430 + 16 * k:446 + 16 * k])))}
    outer = table.extended()
    at = outer.first if outer else None
    while at is not None:
        content = sectors.sector(image, at)
        table.chain.append(at)
        logical, link = record_in(content[446:462], at), record_in(content[462:478], outer.first)
        table.logicals |= {at: logical} if logical else {}
        at = link.first if link else None
    for number, _, it in table.numbered():
        if table.size == 512 and it.kind == FREEBSD and it.size > 1 and it.first + 1 < table.sectors:
            told = label_in(sectors.sector(image, it.first + 1), it.first, it.size)
            table.labels |= {number: told} if told else {}
    return table


# ## What a text leaves out.


def placed(low, high, lead, runs, start, extent, size):
    """Where a partition lies of which the text leaves out a start or a size, or None."""
    free = blocks(low, high, runs)
    if start:
        found = [(start, last) for first, last in free if first <= start <= last]
    else:
        alignment = (1 << 20) // size
        found = [(-(-(first + lead) // alignment) * alignment, last) for first, last in free]
        most = max((last + 1 - first for first, last in found), default=0)
        found = [(first, last) for first, last in found if last + 1 - first == most > 0]
    if not found:
        return None
    first, last = found[0]
    if extent is None:
        return first, last
    end = first + (extent[1] // size if extent[0] == "bytes" else extent[1]) - 1
    return (first, end) if first <= end <= last else None


class Making:
    """An MBR that a draft makes of a disk: the records, and then the logical partitions."""

    def __init__(self, size, sectors, old, draft):
        self.size, self.old, self.parts = size, old or Mbr(size, sectors), draft["partitions"]
        self.was = {number: it for number, _, it in self.old.numbered()}
        self.of_table(draft)
        self.table = Mbr(size, sectors)
        self.runs = [run for part in self.parts if not self.is_logical(part) for run in self.stated(part)]
        self.later = {}
        for n, part in enumerate(self.parts, 1):
            self.put_later(n, part) if self.is_logical(part) else self.put_record(n, part)
        outer = self.table.extended()
        if outer:
            self.put_chain(outer, draft["chain"])
        elif draft["chain"] is not None:
            raise Fault("chain")
        elif self.later:
            raise Fault("number", min(self.later.items())[1][0])

    @staticmethod
    def of_table(draft):
        if draft["id"] not in (None, "signature"):
            raise Fault("id")
        for name in ("firstlba", "lastlba", "entries"):
            if draft[name] is not None:
                raise Fault(name)
        if len(draft["partitions"]) > 132:
            raise Fault("partitions")

    @staticmethod
    def is_logical(part):
        return part["number"] is not None and part["number"] > 4

    @staticmethod
    def foreign(n, part, names):
        for name in (*names, "uuid", "name", "attributes"):
            if part[name] is not None:
                raise Fault(name, n)
        if part["extent"] and part["extent"][0] == "last":
            raise Fault("last", n)
        if part["offset"] is not None:
            raise Fault("offset", n)

    def kind(self, n, part, is_wrong):
        kind = part["type"][1] if part["type"] else 0x83
        if kind is None or kind in EXTENDED and is_wrong:
            raise Fault("type", n)
        return kind

    def stated(self, part):
        """The sectors of a partition whose text says start and size."""
        if part["start"] is None or part["extent"] is None:
            return []
        end = last_by(part["start"], part["extent"], self.size)
        return [] if end is None else [(part["start"], end)]

    def place(self, n, part, low, high, lead, runs):
        start, extent = part["start"], part["extent"]
        if start is not None and extent is not None:
            found, key = self.stated(part), "size"
            place = found[0] if found else None
        elif start is not None:
            place, key = placed(low, high, 0, runs, start, None, self.size) if start else None, "start"
        else:
            place, key = placed(low, high, lead, runs, 0, extent, self.size), "size"
        if place is None:
            raise Fault(key, n)
        return place

    def made(self, n, part, number, kind, place):
        """The partition, and (its label or None,)"""
        first, size = place[0], place[1] - place[0] + 1
        was = self.was.get(number)
        was = was if was and (was.first, was.size) == (first, size) else Record(0, 0, 0)
        boot = 0x80 if part["bootable"] is True else part["bootable"] or 0
        it = Record(kind, first, size, boot, part["start_chs"] or was.start_chs, part["end_chs"] or was.end_chs)
        is_slice = self.size == 512 and kind == FREEBSD
        if part["bsd"] is not None:
            if part["bsd"] != (None,) and not is_slice:
                raise Fault("bsd", n)
            return it, part["bsd"][0]
        if not is_slice or was.kind == FREEBSD:
            return it, self.old.labels.get(number) if is_slice else None
        if size < 2:
            raise Fault("size", n)
        return it, empty_label(size)

    def put_record(self, n, part):
        self.foreign(n, part, ("record",))
        number, records = part["number"], self.table.records
        if number is None:
            asked = {it["number"] for it in self.parts}
            number = next((k for k in range(1, 5) if k not in records and k not in asked), 0)
        if not 1 <= number or number in records:
            raise Fault("number", n)
        kind = self.kind(n, part, self.table.extended())
        place = self.place(n, part, 1, min(self.table.sectors - 1, 2 ** 32 - 1), 0, self.runs)
        if place[0] >= 2 ** 32:
            raise Fault("start", n)
        if place[1] - place[0] + 1 >= 2 ** 32:
            raise Fault("size", n)
        records[number], label = self.made(n, part, number, kind, place)
        self.table.labels |= {} if label is None else {number: label}
        self.runs.append(place)

    def put_later(self, n, part):
        self.foreign(n, part, ())
        if part["number"] in self.later:
            raise Fault("number", n)
        self.later[part["number"]] = n, part, self.kind(n, part, True)

    def kept_at(self, first):
        return next((at for at, it in sorted(self.old.logicals.items()) if it.first == first), None)

    def put_chain(self, outer, chain):
        links = [outer.first] if chain is None else list(chain)
        if not links or links[0] != outer.first or any(one >= other for one, other in zip(links, links[1:])) or len(links) > 128:
            raise Fault("chain")
        self.runs = [(at, at) for at in links]
        for _, (_, part, _) in sorted(self.later.items()):
            for first, last in self.stated(part):
                at = next((it for it in (part["record"], self.kept_at(first)) if it is not None), max(first - 1, 0))
                self.runs += [(first, last), (at, at)]
        least = outer.first
        for number, (n, part, kind) in sorted(self.later.items()):
            place = self.place(n, part, outer.first, outer.last(), 1, self.runs)
            at = part["record"]
            if at is None and part["start"] is not None:
                at = self.kept_at(part["start"])
                at = None if at is not None and at < least else at
            if at is None:
                at = outer.first if least == outer.first < place[0] else max(place[0] - 1, 0)
            if place[1] - place[0] + 1 >= 2 ** 32:
                raise Fault("size", n)
            if not (least <= at <= place[0] and place[0] - at < 2 ** 32):
                raise Fault("record", n)
            it, label = self.made(n, part, number, kind, place)
            self.table.labels |= {} if label is None else {5 + len(self.table.logicals): label}
            self.table.logicals[at] = it
            self.runs += [place, (at, at)]
            links += [] if at in links else [at]
            least = at + 1
        self.table.chain = sorted(links)


# ## Whether a disk may have it.


def parts_in(label, it):
    """(first, last) of the partitions of a slice's label."""
    raw = label["entries"][2]
    base = 0 if raw and raw["offset"] else it.first
    for k, one in enumerate(label["entries"]):
        if k != 2 and one and one["size"]:
            yield base + one["offset"], base + one["offset"] + one["size"] - 1


def are_apart(runs, low, high):
    """All lie between the two, and none over another."""
    runs = sorted(runs)
    return all(low <= first <= last <= high for first, last in runs) and all(one[1] < other[0] for one, other in zip(runs, runs[1:]))


def is_sound(table):
    outer = table.extended()
    if not are_apart([(it.first, it.last()) for it in table.records.values()], 1, table.sectors - 1):
        return False
    inner = [(it.first, it.last()) for it in table.logicals.values()] + [(at, at) for at in table.chain]
    if outer and not are_apart(inner, outer.first, outer.last()):
        return False
    slices = [(table.labels[number], it) for number, _, it in table.numbered() if number in table.labels]
    return all(are_apart(parts_in(label, it), it.first + 16, it.last()) for label, it in slices)


# ## As it is shown.


def shown(table, device):
    """The object of JSON that is printed, with `device` as the image's name."""
    parts = []
    for number, at, it in table.numbered():
        told = {"number": number, "node": f"{device}{'p' if device[-1] in '0123456789' else ''}{number}", "start": it.first,
                "size": it.size, "type": f"{it.kind:x}", "start_chs": it.start_chs, "end_chs": it.end_chs}
        told |= {} if at is None else {"record": at}
        told |= {"type_name": NAMES[it.kind]} if it.kind in NAMES else {}
        told |= {"bootable": True} if it.boot == 0x80 else {"boot": it.boot} if it.boot else {}
        told |= {"bsd": table.labels.get(number)} if it.kind == FREEBSD else {}
        parts.append(told)
    more = {"chain": table.chain} if table.chain else {}
    return {"partitiontable": {"label": "dos", "device": device, "unit": "sectors", "sectorsize": table.size, "sectors": table.sectors,
                               "partitions": parts, **more}}
