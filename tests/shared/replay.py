"""The calls of include/ptab.h by ctypes, on a disk whose sectors come from a `read(number)`: `Disk` asks until no sector is wanted. Each
call reads what it needs anew."""
import ctypes as c

DONE, NO, USAGE, REFUSED, NO_TABLE, DEVICE, MEMORY, WANT, ROOM, WANT_OTHER = 0, 1, 2, 3, 4, 5, 6, -1, -2, -3
VERSION, MOST_MEMBERS, MOST_WRITES, MOST_WANTED, MOST_BLOCKS, MOST_TEXT = 2, 1056, 264, 132, 400, 1 << 17
OF_ITSELF, KEPT, BY_TABLE = 0, 1, 2  # what becomes of the primary copy


class View(c.Structure):
    _fields_ = [("sector_size", c.c_uint32), ("primary", c.c_uint32), ("sectors", c.c_uint64), ("numbers", c.c_void_p),
                ("numbers_len", c.c_size_t), ("bytes", c.c_void_p), ("bytes_len", c.c_size_t)]


class Reply(c.Structure):
    _fields_ = [("sector", c.c_uint64), ("count", c.c_uint64), ("phases", c.c_uint64), ("a", c.c_uint64), ("b", c.c_uint64),
                ("about", c.c_uint32), ("number", c.c_uint32), ("a_letter", c.c_uint8), ("b_letter", c.c_uint8)]


class Table(c.Structure):
    _fields_ = [("sectors", c.c_uint64), ("first", c.c_uint64), ("last", c.c_uint64), ("kind", c.c_uint32), ("disk", c.c_uint8 * 16)]


class Member(c.Structure):
    _fields_ = [("number", c.c_uint64), ("first", c.c_uint64), ("last", c.c_uint64), ("attributes", c.c_uint64),
                ("letter", c.c_uint8), ("kind", c.c_uint8), ("type_byte", c.c_uint8), ("boot", c.c_uint8),
                ("type_guid", c.c_uint8 * 16), ("unique", c.c_uint8 * 16), ("name", c.c_uint16 * 36)]


class Write(c.Structure):
    _fields_ = [("sector", c.c_uint64), ("phase", c.c_uint64)]


class Block(c.Structure):
    _fields_ = [("first", c.c_uint64), ("last", c.c_uint64), ("inside", c.c_uint64)]


class Failed(Exception):
    """A call that gave no answer: its status, and what its reply is about."""

    def __init__(self, status, reply):
        super().__init__(status, reply.about, reply.number, reply.a, reply.b)
        self.status, self.reply = status, reply


class Ptab:
    """The shared object."""

    def __init__(self, library="libptab.so.2"):
        self.lib = c.CDLL(library)
        size, p, u8, u64 = c.c_size_t, c.c_void_p, c.c_uint8, c.c_uint64
        self.lib.ptab_members.argtypes = [p, p, p, size, p]
        self.lib.ptab_verify.argtypes = [p, p]
        self.lib.ptab_locate.argtypes = [p, u64, u8, u64, p]
        self.lib.ptab_plan.argtypes = [p, p, size, p, size, p, size, p, size, p]
        self.lib.ptab_repair.argtypes = [p, p, size, p, size, p]
        self.lib.ptab_adopt_plan.argtypes = [p, p, p, size, p, size, p]
        self.lib.ptab_check.argtypes = [p, p, size, p, size, p]
        self.lib.ptab_table_text.argtypes = [p, p, size, p, size, p]
        self.lib.ptab_free.argtypes = [p, p, size, p]
        self.lib.ptab_set_plan.argtypes = [p, p, size, p, size, p, size, p, size, p]
        self.lib.ptab_guid_text.argtypes = [p, p]
        self.lib.ptab_guid_text.restype = None
        self.lib.ptab_type_code.argtypes = [p]
        if self.lib.ptab_version() != VERSION:
            raise OSError(f"{library} has another interface")

    def guid(self, stored):
        text = (c.c_uint8 * 36)()
        self.lib.ptab_guid_text(stored, text)
        return bytes(text).decode()


class Disk:
    """A disk of so many sectors. A call reads both ends, and then each sector that it wants; it takes nothing from earlier calls."""

    def __init__(self, ptab, read, sectors, sector_size=512, primary=OF_ITSELF):
        self.lib, self.read, self.sectors, self.size, self.primary = ptab.lib, read, sectors, sector_size, primary
        self.known = {}
        self.calls = 0

    def read_ends(self):
        """Reads both ends, and forgets what earlier calls read: with this each call begins."""
        head, tail = (34, 33) if self.size == 512 else (6, 5)
        ends = {*range(min(head, self.sectors)), *range(max(0, self.sectors - tail), self.sectors)}
        self.known = {k: self.read(k) for k in sorted(ends)}
        self._pack()

    def _pack(self):
        self.numbers = (c.c_uint64 * max(1, len(self.known)))(*self.known)
        self.bytes = c.create_string_buffer(b"".join(self.known.values()) or b"\0")
        n = len(self.known)
        self.view = View(self.size, self.primary, self.sectors, c.addressof(self.numbers), n, c.addressof(self.bytes), n * self.size)

    def _add(self, sector):
        """Reads one sector more."""
        self.known[sector] = self.read(sector)
        self._pack()

    def _ask(self, call, other=None):
        """Calls until no sector is wanted, of this disk or of the other one."""
        self.read_ends()
        reply = Reply()
        while True:
            self.calls += 1
            status = call(c.byref(self.view), c.byref(reply))
            if status == WANT:
                self._add(reply.sector)
            elif status == WANT_OTHER:
                other._add(reply.sector)
            else:
                return status, reply

    def members(self):
        """The table, and its partitions."""
        table, rows = Table(), (Member * MOST_MEMBERS)()
        status, reply = self._ask(lambda view, reply: self.lib.ptab_members(view, c.byref(table), rows, len(rows), reply))
        if status != DONE:
            raise Failed(status, reply)
        return table, rows[:reply.count]

    def text(self, device):
        """The table as text, of a device of this name."""
        name, text = device.encode(), c.create_string_buffer(MOST_TEXT)
        status, reply = self._ask(
            lambda view, reply: self.lib.ptab_table_text(view, name, len(name), text, len(text), reply))
        if status != DONE:
            raise Failed(status, reply)
        return text.raw[:reply.count].decode()

    def free(self):
        """The blocks of free sectors, as (first, last, inside)."""
        rows = (Block * MOST_BLOCKS)()
        status, reply = self._ask(lambda view, reply: self.lib.ptab_free(view, rows, len(rows), reply))
        if status != DONE:
            raise Failed(status, reply)
        return [(row.first, row.last, row.inside) for row in rows[:reply.count]]

    def verify(self):
        """(DONE or NO, the reply)"""
        status, reply = self._ask(self.lib.ptab_verify)
        if status not in (DONE, NO):
            raise Failed(status, reply)
        return status, reply

    def locate(self, number, letter, k):
        """The disk's sector that is sector k of a partition, or None."""
        status, reply = self._ask(
            lambda view, reply: self.lib.ptab_locate(view, number, ord(letter) if letter else 0, k, reply))
        if status not in (DONE, NO):
            raise Failed(status, reply)
        return reply.sector if status == DONE else None

    def _phases(self, call, other=None):
        """The phases of a plan, as lists of (sector, bytes)."""
        writes, data = (Write * MOST_WRITES)(), c.create_string_buffer(MOST_WRITES * self.size)
        status, reply = self._ask(lambda view, reply: call(view, writes, len(writes), data, len(data), reply), other)
        if status != DONE:
            raise Failed(status, reply)
        phases = [[] for _ in range(reply.phases)]
        for k in range(reply.count):
            phases[writes[k].phase - 1].append((writes[k].sector, data.raw[k * self.size:(k + 1) * self.size]))
        return phases

    def plan(self, words, drawn=b""):
        """The plan of edit words, with 16 random bytes for each GUID that they need."""
        text = b"".join(word.encode() + b"\0" for word in words)
        return self._phases(lambda view, *rest: self.lib.ptab_plan(view, text, len(text), drawn, len(drawn), *rest))

    def repair(self):
        """The plan of a repair."""
        return self._phases(self.lib.ptab_repair)

    def adopt(self, other):
        """The plan that makes the disk healthy with the layout that another `Disk` denotes."""
        other.read_ends()
        return self._phases(lambda view, *rest: self.lib.ptab_adopt_plan(view, c.byref(other.view), *rest), other)

    def set(self, text, drawn=b""):
        """The plan by which the disk takes the table that the text says, which is bytes."""
        return self._phases(
            lambda view, *rest: self.lib.ptab_set_plan(view, text or b"\0", len(text), drawn, len(drawn), *rest))

    def check(self, phases):
        """(DONE or NO, the reply) for a plan from elsewhere."""
        flat = [(sector, number, data) for number, phase in enumerate(phases, 1) for sector, data in phase]
        writes = (Write * max(1, len(flat)))(*[(sector, number) for sector, number, _ in flat])
        data = b"".join(data for _, _, data in flat)
        status, reply = self._ask(lambda view, reply: self.lib.ptab_check(view, writes, len(flat), data or b"\0", len(data), reply))
        if status not in (DONE, NO):
            raise Failed(status, reply)
        return status, reply
