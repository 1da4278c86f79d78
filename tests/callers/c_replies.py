"""The whole reply of the C library, field by field, for each status and each call, but for tables as text (c_texts.py); c_library.py runs
it. What is expected is worked out by hand: words, findings, refusals and reasons by docs/commands.md, plans by docs/model.md (kinds,
phases), arguments by docs/c.md."""
import ctypes

import images
import replay as lib
from images import LARGE, SMALL

FIELDS = [name for name, _ in lib.Reply._fields_]
DRAWN = bytes(range(16)) * 8
ARGUMENT, WORD, TABLE, FINDING, EDIT, PLAN, CHECK, REPAIR, ADOPT, OTHER_TABLE, TEXT = 1, 2, 3, 4, 5, 6, 7, 8, 9, 10, 11
SIZE, VIEW, PATH, RANDOM, WORDS, ROWS, OTHER_SIZE, OTHER_VIEW, NO_TEXT = 1, 2, 3, 4, 5, 6, 7, 8, 9
TEXT_OF_ONE = b'{"partitiontable": {"label": "gpt", "partitions": [{"start": 100, "size": 8}]}}'
# for each number of a fault words with it, by the table of words: another letter; another count of fields; no number or path, or out of its
# range; no GUID; no code
FAULTS = {1: (b"x", b"", b"aa:1", b"N:1:0:0"), 2: (b"d", b"e:1", b"n:1:0", b"c:1", b"t:1:83:1"),
          3: (b"d:x", b"a:0", b"a:65537", b"d:01", b"d:1.i", b"A:1:64:1", b"n:1:0:+0"), 4: (b"U:1", b"u:1:0"), 5: (b"t:1:8", b"t:1:8g")}


def reply(**fields):
    """A whole reply: these fields, and 0 in every other."""
    return tuple(fields.get(name, 0) for name in FIELDS)


def whole(found):
    """A reply of the library with every field."""
    return tuple(getattr(found, name) for name in FIELDS)


def misused(number, **fields):
    return lib.USAGE, reply(about=ARGUMENT, number=number, **fields)


class Given:
    """A view of an image: of all its sectors but some, or of some; and before or behind them these (number, bytes)."""

    def __init__(self, image, size=512, without=(), only=None, before=(), behind=()):
        self.size, self.count = size, len(image) // size
        known = [k for k in (range(self.count) if only is None else only) if k not in without]
        sectors = [*before, *((k, bytes(image[k * size:(k + 1) * size])) for k in known), *behind]
        known = [number for number, _ in sectors]
        self.numbers = (ctypes.c_uint64 * max(1, len(known)))(*known)
        self.bytes = ctypes.create_string_buffer(b"".join(content for _, content in sectors) or b"\0")
        self.view = lib.View(size, lib.OF_ITSELF, self.count, ctypes.addressof(self.numbers), len(known), ctypes.addressof(self.bytes),
                             len(known) * size)

    def but(self, **fields):
        for name, value in fields.items():
            setattr(self.view, name, value)
        return self


class Buffer:
    """A buffer of so many items, with a byte in it that no call has put there."""

    def __init__(self, kind, count):
        self.items, self.size = (kind * max(1, count))(), ctypes.sizeof(kind)
        ctypes.memset(self.items, 0x5A, ctypes.sizeof(self.items))

    def stays(self, count):
        """The call put nothing behind so many items."""
        if bytes(self.items)[count * self.size:].strip(b"\x5a"):
            raise SystemExit(f"C library: a buffer changed behind {count} items")


class Calls:
    """Each call of the library on a view: its status and its whole reply, in which nothing stays of what stood there before. The buffers
    hold what is given, and nothing else in them changed."""

    def __init__(self, it):
        self.lib = it.lib

    def ends(self, call, given, *words):
        found = lib.Reply.from_buffer_copy(b"\xff" * ctypes.sizeof(lib.Reply))
        status = call(ctypes.byref(given.view), *words, ctypes.byref(found))
        return status, whole(found)

    def wanted(self, given, room=lib.MOST_WANTED):
        sectors = Buffer(ctypes.c_uint64, room)
        status, found = self.ends(self.lib.ptab_wanted, given, sectors.items, room)
        self.listed = sectors.items[:found[1]] if status == lib.WANT else []
        sectors.stays(len(self.listed))
        return status, found

    def members(self, given, room=lib.MOST_MEMBERS):
        rows = Buffer(lib.Member, room)
        status, found = self.ends(self.lib.ptab_members, given, ctypes.byref(lib.Table()), rows.items, room)
        rows.stays(found[1] if status == lib.DONE else 0)
        return status, found

    def verify(self, given):
        return self.ends(self.lib.ptab_verify, given)

    def locate(self, given, number=1, letter="", k=0):
        return self.ends(self.lib.ptab_locate, given, number, letter if isinstance(letter, int) else ord(letter or "\0"), k)

    def fills(self, call, given, rows, room, *words):
        """A call that fills buffers with a plan, which has room for so many rows and bytes."""
        self.writes, self.data = Buffer(lib.Write, lib.MOST_WRITES), Buffer(ctypes.c_uint8, lib.MOST_WRITES * given.size)
        room = lib.MOST_WRITES * given.size if room is None else room
        status, found = self.ends(call, given, *words, self.writes.items, rows, self.data.items, room)
        self.count = found[1] if status == lib.DONE else 0
        self.writes.stays(self.count)
        self.data.stays(self.count * given.size)
        return status, found

    def plan(self, given, words=b"c:1:data\0", drawn=DRAWN, rows=lib.MOST_WRITES, room=None):
        return self.fills(self.lib.ptab_plan, given, rows, room, words, len(words), drawn, len(drawn))

    def text(self, given, device=b"disk.img", room=lib.MOST_TEXT):
        text = Buffer(ctypes.c_uint8, room)
        status, found = self.ends(self.lib.ptab_table_text, given, device, len(device), text.items, room)
        count = found[1] if status == lib.DONE else 0
        text.stays(count)
        self.told = bytes(text.items)[:count]
        return status, found

    def free(self, given, room=lib.MOST_BLOCKS):
        rows = Buffer(lib.Block, room)
        status, found = self.ends(self.lib.ptab_free, given, rows.items, room)
        count = found[1] if status == lib.DONE else 0
        rows.stays(count)
        self.blocks = [(row.first, row.last, row.inside) for row in rows.items[:count]]
        return status, found

    def set(self, given, text=TEXT_OF_ONE, drawn=DRAWN, rows=lib.MOST_WRITES, room=None):
        return self.fills(self.lib.ptab_set_plan, given, rows, room, text or b"\0", len(text), drawn, len(drawn))

    def repair(self, given, rows=lib.MOST_WRITES, room=None):
        return self.fills(self.lib.ptab_repair, given, rows, room)

    def adopt(self, given, other=None, rows=lib.MOST_WRITES, room=None):
        """Without another disk it is the disk itself."""
        def call(view, *rest):
            return self.lib.ptab_adopt_plan(view, ctypes.byref((other or given).view), *rest)
        return self.fills(call, given, rows, room)

    def check(self, given, rows=(), data=None):
        """Rows are (sector, phase); of `data` None each sector has zeros."""
        writes = (lib.Write * max(1, len(rows)))(*rows)
        data = bytes(len(rows) * given.size) if data is None else data
        return self.ends(self.lib.ptab_check, given, writes, len(rows), data or b"\0", len(data))

    def check_last(self, given):
        """The plan that the last call gave, from the same view."""
        rows = [(row.sector, row.phase) for row in self.writes.items[:self.count]]
        return self.check(given, rows, bytes(self.data.items)[:self.count * given.size])

    def all(self):
        return (self.members, self.verify, self.locate, self.plan, self.repair, self.check, self.adopt, self.wanted, self.text, self.free,
                self.set)


def sliced(entries, **fields):
    """200 sectors with a slice from 10 to 109 and its label in sector 11, whose entries are {index: (size, offset, fstype)}."""
    image = SMALL.mbr(200, [images.record(0xA5, 10, 100), images.record(0x83, 120, 30, 0x80)])
    SMALL.put(image, 11, images.label(100, entries, **fields))
    return image


def changed(image, lba, content, sectors=SMALL):
    image = bytearray(image)
    sectors.put(image, lba, content)
    return image


def other_side(side, entries, **fields):
    image = images.one_partition()
    SMALL.put_side(image, side, entries, **fields)
    return image


def arguments(calls):
    """(found, expected) of arguments that have no meaning, each alone."""
    gpt = images.one_partition()
    for size in (0, 1, 511, 513, 1024, 2 ** 32 - 1):
        for call in calls.all():
            yield call(Given(gpt).but(sector_size=size)), misused(SIZE)
    for wrong in ({"bytes_len": 4096 * 512 - 1}, {"bytes_len": 0}, {"numbers_len": 4095}, {"sectors": 2 ** 64 - 1}, {"sectors": 2 ** 55}):
        for call in calls.all():
            yield call(Given(gpt).but(**wrong)), misused(VIEW)
    for primary in (3, 4, 256, 2 ** 31, 2 ** 32 - 1):
        for call in calls.all():
            yield call(Given(gpt).but(primary=primary)), misused(VIEW)
        yield calls.adopt(Given(gpt), Given(gpt).but(primary=primary)), misused(OTHER_VIEW)
    for number, letter in ((0, 0), (0, "a"), (1, "i"), (1, "A"), (1, 1), (1, 255)):
        yield calls.locate(Given(gpt), number, letter), misused(PATH)
    for drawn in (b"1", DRAWN[:15], DRAWN[:17]):
        yield calls.plan(Given(gpt), drawn=drawn), misused(RANDOM)
    for words in (b"", b"e", b"e\0c:1:a", b"c:1:\xff\0", b"e\0c:1:\xc3\0", b"\xff"):
        yield calls.plan(Given(gpt), words), misused(WORDS)
    for drawn in (b"1", DRAWN[:15], DRAWN[:17]):
        yield calls.set(Given(gpt), drawn=drawn), misused(RANDOM)
    for text in (b"\xff", b"a\xc3", b"\xed\xa0\x80", b"\xc0\x80", b"\xf4\x90\x80\x80"):
        yield calls.set(Given(gpt), text), misused(NO_TEXT)
        yield calls.text(Given(gpt), text), misused(NO_TEXT)
    # bytes that are no sector for each row, whatever the rows
    for rows, length in (([(0, 1)], 511), ([(0, 1)], 513), ([(0, 1)], 0), ([(0, 1)], 1024), ([(0, 0)], 511), ([], 512)):
        yield calls.check(Given(gpt), rows, bytes(length)), misused(ROWS)
    # the first row that isn't of the phase before it or of the next one
    for phases, row in (((0,), 1), ((2,), 1), ((1, 3), 2), ((1, 0), 2), ((1, 2, 1), 3), ((1, 1, 2, 2, 4, 9), 5), ((2 ** 64 - 1,), 1)):
        yield calls.check(Given(gpt), [(40 + k, phase) for k, phase in enumerate(phases)]), misused(ROWS, a=row)


def several(calls):
    """Of several arguments without a meaning the first is told."""
    gpt = images.one_partition()
    # the size is judged first; then the path, the random bytes, the words or the rows; then the view
    bad = {"numbers_len": 4095}
    worse = {"numbers_len": 4095, "sector_size": 1024}
    yield calls.locate(Given(gpt).but(**worse), 0), misused(SIZE)
    yield calls.locate(Given(gpt).but(**bad), 0), misused(PATH)
    yield calls.plan(Given(gpt).but(**worse), b"x\0", b"1"), misused(SIZE)
    yield calls.plan(Given(gpt).but(**bad), b"x\0", b"1"), misused(RANDOM)
    yield calls.plan(Given(gpt).but(**bad), b"", b""), misused(WORDS)
    yield calls.plan(Given(gpt).but(**bad), b"e\0x\0", b""), (lib.USAGE, reply(about=WORD, number=1, a=2))
    yield calls.check(Given(gpt).but(**worse), [(0, 0)]), misused(SIZE)
    yield calls.check(Given(gpt).but(**bad), [(0, 1)], bytes(511)), misused(ROWS)
    yield calls.check(Given(gpt).but(**bad), [(0, 0)]), misused(ROWS, a=1)
    yield calls.locate(Given(gpt).but(primary=3), 0), misused(PATH)
    yield calls.plan(Given(gpt).but(primary=3), b"x\0"), (lib.USAGE, reply(about=WORD, number=1, a=1))
    yield calls.check(Given(gpt).but(primary=3), [(0, 0)]), misused(ROWS, a=1)
    yield calls.verify(Given(gpt).but(primary=3, sector_size=1024)), misused(SIZE)
    # the random bytes, then the text, then the view; and a fault of the text once each argument has a meaning
    yield calls.set(Given(gpt).but(**worse), b"\xff", b"1"), misused(SIZE)
    yield calls.set(Given(gpt).but(**bad), b"\xff", b"1"), misused(RANDOM)
    yield calls.set(Given(gpt).but(**bad), b"\xff", b""), misused(NO_TEXT)
    yield calls.set(Given(gpt).but(**bad), b"x", b""), misused(VIEW)
    yield calls.text(Given(gpt).but(**worse), b"\xff"), misused(SIZE)
    yield calls.text(Given(gpt).but(**bad), b"\xff"), misused(NO_TEXT)
    # of two disks: the size, the other's size, the view, the other view
    large = LARGE.gpt(64, {1: images.entry(6, 40)})
    for size in (0, 513, 4096):
        yield calls.adopt(Given(gpt), Given(gpt).but(sector_size=size)), misused(OTHER_SIZE)
    yield calls.adopt(Given(gpt), Given(large, 4096)), misused(OTHER_SIZE)
    yield calls.adopt(Given(large, 4096), Given(gpt)), misused(OTHER_SIZE)
    yield calls.adopt(Given(gpt).but(sector_size=1024), Given(gpt).but(sector_size=1024)), misused(SIZE)
    yield calls.adopt(Given(gpt).but(**bad), Given(gpt).but(**worse)), misused(OTHER_SIZE)
    yield calls.adopt(Given(gpt).but(**bad), Given(gpt).but(**bad)), misused(VIEW)
    yield calls.adopt(Given(gpt), Given(gpt).but(**bad)), misused(OTHER_VIEW)
    yield calls.adopt(Given(gpt).but(sectors=5000), Given(gpt).but(**bad)), misused(OTHER_VIEW)
    yield calls.adopt(Given(gpt).but(sectors=5000), Given(gpt).but(primary=3)), misused(OTHER_VIEW)
    yield calls.adopt(Given(gpt).but(primary=3), Given(gpt).but(primary=3)), misused(VIEW)
    # what is no text is told before a word of it, and a word before the missing end
    yield calls.plan(Given(gpt), b"x\0\xff\0"), misused(WORDS)
    yield calls.plan(Given(gpt), b"e\0x\0e"), (lib.USAGE, reply(about=WORD, number=1, a=2))


def unreadable(calls):
    """The first of several words that can't be read, by its place and its fault."""
    gpt = Given(images.one_partition())
    for number, words in FAULTS.items():
        for word in words:
            for before in ([], [b"e"], [b"c:1:a:b", b"a:8"]):
                for after in ([], [b"e"], [b"x", b"U:1"]):
                    text = b"".join(it + b"\0" for it in [*before, word, *after])
                    yield calls.plan(gpt, text), (lib.USAGE, reply(about=WORD, number=number, a=len(before) + 1))


def done(calls):
    gpt, large = Given(images.one_partition()), Given(LARGE.gpt(64, {1: images.entry(6, 40)}), 4096)
    label = Given(sliced({0: (30, 16, 7)}))
    for given, members in ((gpt, 1), (large, 1), (label, 3)):
        yield calls.members(given), (lib.DONE, reply(count=members))
        yield calls.verify(given), (lib.DONE, reply())
        yield calls.repair(given), (lib.DONE, reply())
        yield calls.check(given), (lib.DONE, reply())
    for given, where, sector in ((gpt, (1, "", 0), 2048), (gpt, (1, "", 2014), 4062), (large, (1, "", 3), 9), (label, (2, "", 29), 149),
                                 (label, (1, "a", 2), 28)):
        yield calls.locate(given, *where), (lib.DONE, reply(sector=sector))
    empty = Given(bytes(4096 * 512))
    broken = Given(changed(images.one_partition(), 1, bytes(512)))
    # (how the plan is made, its writes and phases, its switch): backup first; of 4096 bytes; primary first, with sector 0; one label;
    # sector 0 of an MBR; from an MBR disk; a repair, primary first
    plans = [(gpt, lambda: calls.plan(gpt), 67, 4, 2), (large, lambda: calls.plan(large), 11, 4, 2),
             (empty, lambda: calls.plan(empty, b"o\0"), 68, 5, 3), (label, lambda: calls.plan(label, b"t:1.a:01\0"), 1, 1, 1),
             (label, lambda: calls.plan(label, b"d:2\0"), 1, 1, 1), (broken, lambda: calls.repair(broken), 67, 4, 0)]
    chain = Given(images.chained({4096: images.ebr()}))
    plans.append((chain, lambda: calls.plan(chain, b"g\0"), 67, 2, 2))
    # of another disk: a GPT onto another one, onto nothing (where the primary copy is kept, so zeros that stand aren't written), and onto
    # the same
    other = Given(SMALL.gpt(4096, {2: images.entry(100, 300)}))
    plans += [(gpt, lambda: calls.adopt(gpt, other), 67, 4, 2), (empty, lambda: calls.adopt(empty, other), 67, 4, 2),
              (other, lambda: calls.adopt(other), 0, 0, 0)]
    for given, call, count, phases, switch in plans:
        yield call(), (lib.DONE, reply(count=count, phases=phases))
        yield calls.check_last(given), (lib.DONE, reply(a=switch))


def by_choice(calls):
    """By what becomes of the primary copy: writes and phases of a plan, and its switch. Other answers are the same."""
    gpt, empty, other = (Given(it) for it in (images.one_partition(), bytes(4096 * 512), SMALL.gpt(4096, {2: images.entry(100, 300)})))
    lost = {lba: Given(changed(images.one_partition(), lba, bytes(512))) for lba in (0, 1, 2, 4063, 4095)}
    whole, first, backup = (67, 4, 2), (67, 4, 0), (33, 1, 0)
    # by the table, and kept: a rename; a table where there was none, without entries and with some; then repairs
    for given, call, by_table, kept in (
            (gpt, calls.plan, whole, whole), (empty, lambda it: calls.plan(it, b"o\0"), (68, 5, 3), (35, 3, 1)),
            (empty, lambda it: calls.adopt(it, other), (68, 5, 3), whole), (gpt, lambda it: calls.adopt(it, other), whole, whole),
            (lost[0], calls.repair, (68, 5, 0), (1, 1, 0)), (lost[1], calls.repair, first, (1, 1, 0)),
            (lost[2], calls.repair, first, (34, 3, 0)), (lost[4063], calls.repair, first, backup),
            (lost[4095], calls.repair, first, backup), (gpt, calls.repair, (0, 0, 0), (0, 0, 0))):
        for primary, (count, phases, switch) in ((lib.BY_TABLE, by_table), (lib.KEPT, kept)):
            yield call(given.but(primary=primary)), (lib.DONE, reply(count=count, phases=phases))
            yield calls.check_last(given), (lib.DONE, reply(a=switch))
    for primary in (lib.OF_ITSELF, lib.KEPT, lib.BY_TABLE):
        for given in (gpt, lost[1], empty):
            for call in (calls.members, calls.verify, calls.locate, calls.check, calls.wanted, calls.text, calls.free):
                yield call(given.but(primary=primary)), call(given.but(primary=lib.OF_ITSELF))
        for k in (*range(34), *range(4063, 4096)):
            for call in (calls.plan, calls.repair):
                yield call(Given(images.one_partition(), without={k}).but(primary=primary)), (lib.WANT, reply(sector=k))


def no(calls):
    gpt = images.one_partition()
    one, two = images.entry(2048, 3000), images.entry(3000, 4062, unique=images.guid(2))
    findings = [
        (bytes(4096 * 512), {"number": 1}),
        (changed(gpt, 1, bytes(512)), {"number": 2, "a": 1}),
        (changed(gpt, 4095, bytes(512)), {"number": 3, "a": 1}),
        (other_side("backup", {1: images.entry(2048, 4061)}), {"number": 4}),
        (other_side("primary", {1: images.entry(2048, 4062)}, alternate=4000), {"number": 5, "a": 1}),
        (other_side("backup", {1: images.entry(2048, 4062)}, alternate=4000), {"number": 5, "a": 2}),
        (changed(gpt, 0, bytes(512)), {"number": 6}),
        (sliced({0: (30, 90, 7)}), {"number": 7, "a": 1, "a_letter": ord("a")}),
        (SMALL.gpt(4096, {1: one, 2: two}), {"number": 8, "a": 1, "b": 2}),
        (sliced({0: (30, 16, 7), 3: (30, 40, 7)}), {"number": 8, "a": 1, "b": 1, "a_letter": ord("a"), "b_letter": ord("d")}),
        (images.chained({4096: images.ebr(images.record(0x83, 1, 100), images.record(0x05, 4, 50)),
                         4100: images.ebr(images.record(0x83, 200, 10))}), {"number": 9, "a": 5, "b": 4100}),
        (SMALL.gpt(4096, {3: one, 5: images.entry(3001, 4062)}), {"number": 10, "a": 3, "b": 5}),
        (sliced({}, checksum=1), {"number": 11, "a": 1}),
    ]
    for image, fields in findings:
        yield calls.verify(Given(image)), (lib.NO, reply(about=FINDING, **fields))
    yield calls.verify(Given(gpt).but(sectors=0)), (lib.NO, reply(about=FINDING, number=1))
    for where in ((1, "", 2015), (1, "a", 0), (2, "", 0), (2 ** 64 - 1, "", 0), (1, "", 2 ** 64 - 1)):
        yield calls.locate(Given(gpt), *where), (lib.NO, reply())
    # a slice is a container
    yield calls.locate(Given(sliced({0: (30, 16, 7)}))), (lib.NO, reply())
    given, boot = Given(gpt), bytearray(gpt[:512])
    boot[0] ^= 1
    reasons = [([(40, 1)] * 4097, None, {"number": 1}), ([(0, 1), (4096, 1)], None, {"number": 2, "a": 2}),
               ([(1, 1), (2, 1), (0, 2)], gpt[512:1536] + boot, {"number": 3, "a": 3}),
               ([(3000, 1)], None, {"number": 6, "a": 3000})]
    for rows, data, fields in reasons:
        yield calls.check(given, rows, data and bytes(data)), (lib.NO, reply(about=CHECK, **fields))


def refused(calls):
    """Edits and repairs that are refused, and disks that denote nothing."""
    gpt = Given(images.one_partition())
    for words, number in ((b"d:7\0", 1), (b"c:1:a\0n:1:0:0\0", 2), (b"t:1:83\0", 6), (b"g\0", 9), (b"d:1\0n:1:0:0\0", 10)):
        yield calls.plan(gpt, words, b""), (lib.REFUSED, reply(about=EDIT, number=number))
    overlap = SMALL.gpt(4096, {1: images.entry(2048, 3000), 2: images.entry(3000, 4062, unique=images.guid(2))})
    yield calls.repair(Given(overlap)), (lib.REFUSED, reply(about=REPAIR, number=2, a=8))
    yield calls.repair(Given(sliced({}, checksum=1))), (lib.REFUSED, reply(about=REPAIR, number=2, a=11))
    tables = [
        (bytes(4096 * 512), {"number": 1, "a": 1, "b": 1}),
        (images.chained({4096: images.ebr(mark=b"\0\0")}), {"number": 2, "a": 1, "b": 4096}),
        (images.chained({4096: images.ebr(link=images.record(0x05, 0, 10))}), {"number": 2, "a": 3, "b": 4096}),
        (images.long_chain(129), {"number": 2, "a": 5}),
        (SMALL.mbr(200, [images.record(0x05, 10, 50), images.record(0x0F, 100, 50)]), {"number": 3}),
        (bytes(3 * 512), {"number": 4}),
    ]
    for image, fields in tables:
        given, told = Given(image), (lib.NO_TABLE, reply(about=TABLE, **fields))
        for call in (calls.members, calls.locate, calls.repair, lambda it: calls.plan(it, b"d:1\0"), calls.text, calls.free):
            yield call(given), told
        other = (lib.NO_TABLE, reply(about=OTHER_TABLE, **fields))
        for disk in (image, bytes(len(image))):
            yield calls.adopt(Given(disk), given), other
    # of another disk: another number of sectors, an MBR onto a GPT, a layout that isn't sound
    longer = Given(SMALL.gpt(4097, {1: images.entry(2048, 4062)}))
    for disk, another in ((gpt, longer), (longer, gpt), (gpt, Given(bytes(512 * 4095), only=()))):
        yield calls.adopt(disk, another), (lib.REFUSED, reply(about=ADOPT, number=1))
    early = SMALL.mbr(4096, [images.record(0x05, 10, 50)])
    SMALL.put(early, 10, images.ebr(images.record(0x83, 4, 20)))
    yield calls.adopt(gpt, Given(early)), (lib.REFUSED, reply(about=PLAN, number=1))
    yield calls.adopt(gpt, Given(overlap)), (lib.REFUSED, reply(about=PLAN, number=4))


def wanted(calls):
    """Of a view that lacks one sector that decides, that one; and no other is wanted."""
    gpt = images.one_partition()
    for k in (*range(34), *range(4063, 4096)):
        given = Given(gpt, without={k})
        for call in (calls.verify, calls.plan, calls.repair):
            yield call(given), (lib.WANT, reply(sector=k))
        for call, answer in ((calls.members, (lib.DONE, reply(count=1))), (calls.locate, (lib.DONE, reply(sector=2048))),
                             (calls.free, (lib.DONE, reply(count=1)))):
            yield call(given), (lib.WANT, reply(sector=k)) if k < 34 else answer
        yield (calls.text(given)[0], ()), (lib.WANT if k < 34 else lib.DONE, ())
    ends = Given(gpt, only=(*range(34), *range(4063, 4096)))
    yield calls.verify(ends), (lib.DONE, reply())
    yield calls.plan(ends), (lib.DONE, reply(count=67, phases=4))
    label = sliced({0: (30, 16, 7)})
    for call in calls.all():
        want = lib.WANT_OTHER if call == calls.adopt else lib.WANT
        count = {"count": 1} if call == calls.wanted else {}
        yield call(Given(label, without={11})), (want, reply(sector=11, **count))
        yield call(Given(label, without={0})), (want, reply(sector=0, **count))
    # of two disks: what recovery reads of the other one, and of the disk what a plan reads
    other = SMALL.gpt(4096, {2: images.entry(100, 300)})
    for k in (*range(34), *range(4063, 4096)):
        yield calls.adopt(Given(gpt, without={k}), Given(other)), (lib.WANT, reply(sector=k))
        lacking = Given(other, without={k})
        yield calls.adopt(Given(gpt), lacking), (lib.WANT_OTHER, reply(sector=k)) if k < 34 else (lib.DONE, reply(count=67, phases=4))
    # an MBR in place of a GPT: of that what recovery reads, and the headers that are zeroed
    plain = SMALL.mbr(4096, [images.record(0x83, 40, 100)])
    yield calls.adopt(ends, Given(plain, only=(0,))), (lib.DONE, reply(count=3, phases=3))
    yield calls.adopt(Given(gpt, only=range(34)), Given(plain, only=(0,))), (lib.WANT, reply(sector=4095))
    sliced_other = SMALL.gpt(4096, {2: images.entry(100, 300, images.FREEBSD)})
    yield calls.adopt(ends, Given(sliced_other, only=(*range(34), *range(4063, 4096)))), (lib.WANT_OTHER, reply(sector=101))
    yield calls.adopt(ends, Given(sliced_other)), (lib.WANT, reply(sector=101))
    both = (Given(gpt, without={1}), Given(other, without={1}))
    yield calls.adopt(*both), (lib.WANT_OTHER, reply(sector=1))


def listed(calls):
    """All that is known to be wanted, and in which order: the labels of the slices that aren't in the view."""
    ends = (*range(34), *range(4063, 4096))
    three = {1: (100, 199), 2: (300, 399), 5: (50, 80)}
    gpt = SMALL.gpt(4096, {n: images.entry(first, last, images.FREEBSD, images.guid(n)) for n, (first, last) in three.items()})
    for known, sectors in (((), [101, 301, 51]), ((301,), [101, 51]), ((51, 101), [301]), ((101, 301, 51), [])):
        found = calls.wanted(Given(gpt, only=(*ends, *known)))
        yield found, (lib.WANT, reply(sector=sectors[0], count=len(sectors))) if sectors else (lib.DONE, reply())
        yield (calls.listed, ()), (sectors, ())
    # without its primary copy; of two slices in one place the label is listed once; a slice of one sector has none
    lost = changed(gpt, 1, bytes(512))
    yield calls.wanted(Given(lost, only=ends)), (lib.WANT, reply(sector=101, count=3))
    same = SMALL.gpt(4096, {n: images.entry(100, 100 + 50 * n, images.FREEBSD, images.guid(n)) for n in range(3)})
    yield calls.wanted(Given(same, only=ends)), (lib.WANT, reply(sector=101, count=1))
    # records, and logical partitions once the chain is known: its extended boot records come one at a time
    mbr = images.chained({4096: images.ebr(images.record(0xA5, 1, 20), images.record(0x05, 100, 50)),
                          4196: images.ebr(images.record(0xA5, 1, 20))})
    view = [0]
    for sectors in ([4096], [4196], [4098, 4198], []):
        found = calls.wanted(Given(mbr, only=view))
        yield found, (lib.WANT, reply(sector=sectors[0], count=len(sectors))) if sectors else (lib.DONE, reply())
        yield (calls.listed, ()), (sectors, ())
        view += calls.listed
    # what isn't known to be a table wants one sector, and what denotes nothing wants none
    for only, sector in (((), 0), ((0,), 1), ((0, 1), 2), (range(33), 33)):
        yield calls.wanted(Given(gpt, only=only)), (lib.WANT, reply(sector=sector, count=1))
    for image in (bytes(4096 * 512), bytes(512), images.chained({4096: images.ebr(mark=b"\0\0")})):
        yield calls.wanted(Given(image)), (lib.DONE, reply())
    for space in (0, 2):
        yield calls.wanted(Given(gpt, only=ends), space), (lib.ROOM, reply(count=3))
    yield calls.wanted(Given(gpt, only=ends), 3), (lib.WANT, reply(sector=101, count=3))


def twice(calls):
    """Of a number that stands twice the first counts; the order of the others doesn't matter, and a number past the disk is no sector."""
    gpt, blank = images.one_partition(), bytes(512)
    for call in (calls.members, calls.verify, calls.plan, calls.repair):
        whole_disk = call(Given(gpt))
        yield call(Given(gpt, only=range(4095, -1, -1))), whole_disk
        yield call(Given(gpt, only=[(k * 1365) % 4096 for k in range(4096)])), whole_disk
        for k in (0, 1, 2, 33, 4063, 4094, 4095):
            yield call(Given(gpt, behind=[(k, blank)])), whole_disk
            yield call(Given(gpt, before=[(k, blank)])), call(Given(changed(gpt, k, blank)))
            good = bytes(gpt[k * 512:(k + 1) * 512])
            yield call(Given(gpt, without={k}, before=[(5000, blank), (k, good)], behind=[(k, blank), (k, good)])), whole_disk


def room(calls):
    gpt, broken = Given(images.one_partition()), Given(changed(images.one_partition(), 1, bytes(512)))
    yield calls.members(gpt, 0), (lib.ROOM, reply(count=1))
    yield calls.members(Given(sliced({0: (30, 16, 7)})), 2), (lib.ROOM, reply(count=3))
    for rows, space in ((66, None), (0, None), (67, 67 * 512 - 1), (67, 0), (0, 0)):
        yield calls.plan(gpt, rows=rows, room=space), (lib.ROOM, reply(count=67, phases=4))
        yield calls.repair(broken, rows, space), (lib.ROOM, reply(count=67, phases=4))
        other = Given(SMALL.gpt(4096, {2: images.entry(100, 300)}))
        yield calls.adopt(gpt, other, rows, space), (lib.ROOM, reply(count=67, phases=4))
    kept = Given(changed(images.one_partition(), 4095, bytes(512))).but(primary=lib.KEPT)
    for rows, space in ((32, None), (0, None), (33, 33 * 512 - 1), (0, 0)):
        yield calls.repair(kept, rows, space), (lib.ROOM, reply(count=33, phases=1))
    yield calls.repair(kept, 33, 33 * 512), (lib.DONE, reply(count=33, phases=1))


PARTS = (arguments, several, unreadable, done, by_choice, no, refused, wanted, listed, twice, room)


def checked(it, parts):
    """Compares them all, and says how many there were; `it` is the library."""
    calls, count = Calls(it), 0
    for part in parts:
        for number, (found, expected) in enumerate(part(calls)):
            if found != expected:
                raise SystemExit(f"C library: {part.__name__} {number}: {told(*found)}, wanted {told(*expected)}")
            count += 1
    return count


def told(status, fields):
    if isinstance(status, (bytes, list, dict)):
        return repr(status)
    return f"status {status} " + " ".join(f"{name} {value}" for name, value in zip(FIELDS, fields) if value)
