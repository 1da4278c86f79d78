"""Partition tables of images and block devices: what they say, also as text, and checked edits and repairs.

    with ptab.Disk("disk.img", write=True) as disk:
        for partition in disk.table().partitions:
            print(partition.path, partition.name)
        disk.edit("c:1:archive")

Each call reads the disk anew, so it answers for the disk as it is now. One that writes stops at any moment with the old table or the new
one on the disk. The module calls the library's ptab_disk.h by ctypes; docs/c.md says what that does."""
from __future__ import annotations

import ctypes as c
import json
import operator
import os
import uuid
from pathlib import Path
from typing import Any, Iterable, NamedTuple, Optional, Sequence, Union

__all__ = ["BadArgument", "DeviceFault", "Disk", "Error", "FreeBlock", "Locked", "NoMemory", "NoTable", "Partition", "Plan", "Refused",
           "Table", "TextFault", "Verdict", "Write", "load"]

DONE, NO, USAGE, REFUSED, NO_TABLE, DEVICE, MEMORY, ROOM = 0, 1, 2, 3, 4, 5, 6, -2
VERSION, MOST_MEMBERS, MOST_WRITES, GPT = 2, 1056, 264, 2
WRITE, UNLOCKED, IS_DEVICE, KEEP_PRIMARY, BY_TABLE = 1, 2, 4, 8, 16
MOST_BLOCKS, TEXT_ROOM = 512, 16384
ABOUT_DISK, LOCKED, ABOUT_TEXT = 64, 7, 11
ABOUT_ARGUMENT, ARGUMENT_SIZE, ARGUMENT_PARTITION, ARGUMENT_PLAN = 1, 1, 3, 6
# where a table's text has a fault, from 1 on (include/ptab.h)
KEYS = ("text", "partitiontable", "unknown", "label", "device", "unit", "sectorsize", "sectors", "id", "firstlba", "lastlba",
        "entries", "table-length", "partitions", "chain", "number", "node", "start", "size", "last", "offset", "type",
        "type_name", "uuid", "name", "name_units", "attributes", "attrs", "bootable", "boot", "start_chs", "end_chs", "record",
        "bsd")


class _Reply(c.Structure):
    _fields_ = [("sector", c.c_uint64), ("count", c.c_uint64), ("phases", c.c_uint64), ("a", c.c_uint64), ("b", c.c_uint64),
                ("about", c.c_uint32), ("number", c.c_uint32), ("a_letter", c.c_uint8), ("b_letter", c.c_uint8)]


class _Table(c.Structure):
    _fields_ = [("sectors", c.c_uint64), ("first", c.c_uint64), ("last", c.c_uint64), ("kind", c.c_uint32), ("disk", c.c_uint8 * 16)]


class _Member(c.Structure):
    _fields_ = [("number", c.c_uint64), ("first", c.c_uint64), ("last", c.c_uint64), ("attributes", c.c_uint64),
                ("letter", c.c_uint8), ("kind", c.c_uint8), ("type_byte", c.c_uint8), ("boot", c.c_uint8),
                ("type_guid", c.c_uint8 * 16), ("unique", c.c_uint8 * 16), ("name", c.c_uint16 * 36)]


class _Write(c.Structure):
    _fields_ = [("sector", c.c_uint64), ("phase", c.c_uint64)]


class _Block(c.Structure):
    _fields_ = [("first", c.c_uint64), ("last", c.c_uint64), ("inside", c.c_uint64)]


class Write(NamedTuple):
    """A sector that a plan writes."""
    sector: int
    data: bytes


# Phases of writes: those of a phase in any order, with a sync between a phase and the next.
Plan = Sequence[Sequence[Write]]


class Error(Exception):
    """Why a call has no answer. It prints as a sentence; `about`, `number`, `a` and `b` are those of the library's reply, and `written` is
    how many sectors may have been written."""

    def __init__(self, status: int, reply: _Reply, sentence: str):
        super().__init__(sentence)
        self.status, self.about, self.number, self.a, self.b = status, reply.about, reply.number, reply.a, reply.b
        self.sector, self.written = reply.sector, reply.count if status == DEVICE else 0

    def __str__(self) -> str:
        return self.args[0]

    def __repr__(self) -> str:
        return f"{type(self).__name__}({self.args[0]!r})"


class BadArgument(Error, ValueError):
    """An argument or a word that has no meaning."""


def _bad(sentence: str, number: int = 0) -> BadArgument:
    """The error of an argument that the library isn't given; with the number that the library has for such a one, if it has any."""
    return BadArgument(USAGE, _Reply(about=ABOUT_ARGUMENT if number else 0, number=number), sentence)


def _within(name: str, value: int, bits: int, number: int = 0) -> int:
    """The value, if it fits an unsigned number of so many bits: ctypes would cut it."""
    value = operator.index(value)
    if not 0 <= value < 1 << bits:
        raise _bad(f"{name} is {value}, and not from 0 to 2^{bits} - 1", number)
    return value


class Refused(Error):
    """An edit, a repair or a plan that is refused: nothing was written."""


class Locked(Refused, BlockingIOError):
    """The disk's lock is held elsewhere."""


class TextFault(Refused, ValueError):
    """The first fault of a table's text: at the name `key`, of object `part` of `partitions`, counted from 1, or None."""

    def __init__(self, status: int, reply: _Reply, sentence: str):
        super().__init__(status, reply, sentence)
        self.key = KEYS[reply.number - 1] if 0 < reply.number <= len(KEYS) else ""
        self.part = reply.a or None


class NoTable(Error):
    """The disk has no table that can be read."""


class DeviceFault(Error, OSError):
    """The disk can't be opened, read or written; `errno` says why. After a write the disk has the old table or the new one."""

    def __init__(self, status: int, reply: _Reply, sentence: str):
        super().__init__(status, reply, sentence)
        self.errno = reply.b


class NoMemory(Error, MemoryError):
    """The library's memory was refused."""


_ERRORS = {NO: Refused, USAGE: BadArgument, REFUSED: Refused, NO_TABLE: NoTable, DEVICE: DeviceFault, MEMORY: NoMemory}


class Verdict:
    """A yes, or a no with its first reason: true where it is a yes. It prints as a sentence."""

    def __init__(self, status: int, reply: _Reply, sentence: str):
        self.healthy = status == DONE
        self.number, self.a, self.b = reply.number, reply.a, reply.b
        self._sentence = "yes" if self.healthy else sentence

    def __bool__(self) -> bool:
        return self.healthy

    def __str__(self) -> str:
        return self._sentence

    def __repr__(self) -> str:
        return f"Verdict({self._sentence!r})"


class Partition(NamedTuple):
    """A partition. What its kind of table doesn't have is None, 0 or empty."""
    number: int
    letter: str  # in a label, "a" to "h"
    first: int
    last: int
    type: str  # as `ptab show` prints it: a code, a GUID, or two digits
    name: str
    unique: Optional[uuid.UUID]
    attributes: int
    boot: int

    @property
    def path(self) -> str:
        """As `3` or `2.a`."""
        return f"{self.number}.{self.letter}" if self.letter else str(self.number)


class FreeBlock(NamedTuple):
    """A block of free sectors: as long as can be."""
    first: int
    last: int
    inside: Optional[int]  # the number of the extended partition or of the slice that it lies inside


class Table(NamedTuple):
    """What stands on a disk."""
    kind: str  # "gpt" or "mbr"
    sectors: int
    first: int  # a GPT's usable sectors
    last: int
    guid: Optional[uuid.UUID]
    partitions: Sequence[Partition]


_P, _S, _U8, _U32, _U64 = c.c_void_p, c.c_size_t, c.c_uint8, c.c_uint32, c.c_uint64
_CALLS = {
    "ptab_disk_open": [c.c_char_p, _U32, _U32, _P, _P], "ptab_disk_take": [c.c_int, _U32, _U32, _P, _P],
    "ptab_disk_size": [_P, _P, _P, _P], "ptab_disk_members": [_P, _P, _P, _S, _P], "ptab_disk_verify": [_P, _P],
    "ptab_disk_locate": [_P, _U64, _U8, _U64, _P], "ptab_disk_edit": [_P, _P, _S, _P, _S, _P], "ptab_disk_repair": [_P, _P],
    "ptab_disk_adopt": [_P, _P, _P], "ptab_disk_apply": [_P, _P, _S, _P, _S, _P], "ptab_disk_check": [_P, _P, _S, _P, _S, _P],
    "ptab_disk_plan": [_P, _P, _S, _P, _S, _P, _S, _P, _S, _P], "ptab_disk_repair_plan": [_P, _P, _S, _P, _S, _P],
    "ptab_disk_adopt_plan": [_P, _P, _P, _S, _P, _S, _P], "ptab_disk_table": [_P, c.c_char_p, _P, _S, _P],
    "ptab_disk_set": [_P, c.c_char_p, _S, _P, _S, _P], "ptab_disk_set_plan": [_P, c.c_char_p, _S, _P, _S, _P, _S, _P, _S, _P],
    "ptab_disk_free": [_P, _P, _S, _P], "ptab_type_code": [_P], "ptab_version": []}
_library: Optional[c.CDLL] = None


def _installed() -> Optional[str]:
    """The shared object of the prefix that this module was installed under, in PREFIX/lib/python3/dist-packages, or none."""
    folders = Path(__file__).resolve().parents
    near = folders[2] / "libptab.so.2" if len(folders) > 2 else None
    return str(near) if near is not None and near.exists() else None


def load(path: Optional[str] = None) -> c.CDLL:
    """The shared object: this file, else that of PTAB_LIBRARY, else the one that was installed with this module, else the system's. It is
    loaded once; a path replaces it."""
    global _library
    if _library is not None and path is None:
        return _library
    library = c.CDLL(path or os.environ.get("PTAB_LIBRARY") or _installed() or "libptab.so.2", use_errno=True)
    for name, arguments in _CALLS.items():
        function = getattr(library, name)
        function.argtypes, function.restype = arguments, c.c_int32
    library.ptab_disk_close.argtypes, library.ptab_disk_close.restype = [_P], None
    library.ptab_message.argtypes, library.ptab_message.restype = [c.c_int32, _P, _P, _S], _S
    if library.ptab_version() != VERSION:
        raise ImportError(f"{library._name} has another interface")
    _library = library
    return library


def _sentence(library: c.CDLL, status: int, reply: _Reply) -> str:
    text = c.create_string_buffer(512)
    library.ptab_message(status, c.byref(reply), text, len(text))
    return text.value.decode("utf-8", "replace")


def _fail(library: c.CDLL, status: int, reply: _Reply) -> Error:
    kind = _ERRORS.get(status, Error)
    if status == REFUSED and (reply.about, reply.number) == (ABOUT_DISK, LOCKED):
        kind = Locked
    if status == REFUSED and reply.about == ABOUT_TEXT:
        kind = TextFault
    return kind(status, reply, _sentence(library, status, reply))


class Disk:
    """An open image, or block device with `device`. With `write` it is locked until it is closed, but with `lock=False`, for who holds the
    lock. `path` may be a descriptor, which stays open. A device has a sector size of its own; an image has 512 where none is told.

    With `keep_primary` its plans keep the primary copy of a GPT: who reads that copy alone finds the old table or the new one wherever one
    stops. With `keep_primary=False` they zero its header meanwhile. Where it isn't told, `edit` and `repair` zero it, and `adopt` and `set`
    keep it.

    Threads take turns with a disk: its calls, `close` among them, come one after the other. A forked process may close it, which leaves
    the lock to the process that opened it; all else is a BadArgument there."""

    def __init__(self, path: Union[str, os.PathLike, int], *, write: bool = False, lock: bool = True, device: bool = False,
                 sector_size: int = 0, keep_primary: Optional[bool] = None) -> None:
        self._disk: Optional[c.c_void_p] = None
        self._path = path
        self._library = load()
        how = (WRITE if write else 0) | (0 if lock else UNLOCKED) | (IS_DEVICE if device else 0) | _primary(keep_primary)
        disk, reply = c.c_void_p(), _Reply()
        sector_size = _within("sector_size", sector_size, 32, ARGUMENT_SIZE)
        if isinstance(path, int):
            path = _within("the descriptor", path, 31)
            status = self._library.ptab_disk_take(path, how, sector_size, c.byref(disk), c.byref(reply))
        else:
            name = os.fsencode(path)
            if b"\0" in name:
                raise _bad("the path has a zero byte")
            status = self._library.ptab_disk_open(name, how, sector_size, c.byref(disk), c.byref(reply))
        if status != DONE:
            raise _fail(self._library, status, reply)
        self._disk = disk

    def close(self) -> None:
        """Ends the lock, and closes the file."""
        if self._disk is not None:
            self._library.ptab_disk_close(self._disk)
            self._disk = None

    def __enter__(self) -> Disk:
        return self

    def __exit__(self, *_: object) -> None:
        self.close()

    def __del__(self) -> None:
        self.close()

    def __repr__(self) -> str:
        return f"Disk({self._path!r}{'' if self._disk is not None else ', closed'})"

    def _open(self, name: str = "the disk") -> c.c_void_p:
        """The library's disk, while this one isn't closed."""
        if self._disk is None:
            raise ValueError(f"{name} is closed")
        return self._disk

    def _call(self, name: str, *arguments: object, allowed: Iterable[int] = (DONE,)) -> tuple[int, _Reply]:
        """The status and the reply of a call; any status but those allowed is an error."""
        disk, reply = self._open(), _Reply()
        status = getattr(self._library, f"ptab_disk_{name}")(disk, *arguments, c.byref(reply))
        if status not in allowed:
            raise _fail(self._library, status, reply)
        return status, reply

    def size(self) -> tuple[int, int]:
        """How many sectors the disk has, and how many bytes each of them has."""
        sectors, size = c.c_uint64(), c.c_uint32()
        self._call("size", c.byref(sectors), c.byref(size))
        return sectors.value, size.value

    def table(self) -> Table:
        """The table, and its partitions."""
        table, rows = _Table(), (_Member * MOST_MEMBERS)()
        _, reply = self._call("members", c.byref(table), rows, len(rows))
        gpt = table.kind == GPT
        return Table("gpt" if gpt else "mbr", table.sectors, table.first, table.last,
                     uuid.UUID(bytes_le=bytes(table.disk)) if gpt else None,
                     tuple(self._partition(row, gpt) for row in rows[:reply.count]))

    def _partition(self, row: _Member, gpt: bool) -> Partition:
        code = self._library.ptab_type_code(row.type_guid)
        is_entry = gpt and not row.letter
        kind = f"{row.type_byte:02X}" if not is_entry else f"{code:04X}" if code >= 0 else str(uuid.UUID(bytes_le=bytes(row.type_guid)))
        units = bytes(row.name).decode("utf-16-le", "replace")
        return Partition(row.number, chr(row.letter) if row.letter else "", row.first, row.last, kind, units.partition("\0")[0],
                         uuid.UUID(bytes_le=bytes(row.unique)) if is_entry else None, row.attributes, row.boot)

    def text(self, device: Optional[str] = None) -> str:
        """The whole table as a text of JSON, as `ptab show --json` prints it, but for the line's end behind it. `device` is the name that
        stands there; without it that is the path."""
        name, count = _name(self._path if device is None else device), TEXT_ROOM
        while True:
            text = c.create_string_buffer(count)
            status, reply = self._call("table", name, text, count, allowed=(DONE, ROOM))
            if status == DONE:
                return text.raw[:reply.count].decode()
            count = reply.count

    def json(self, device: Optional[str] = None) -> dict[str, Any]:
        """The same as an object, which `set` takes too: its one member is `partitiontable`."""
        return json.loads(self.text(device))

    def free(self) -> list[FreeBlock]:
        """The blocks of free sectors where a new partition may lie, as `ptab free` has them."""
        count = MOST_BLOCKS
        while True:
            rows = (_Block * count)()
            status, reply = self._call("free", rows, count, allowed=(DONE, ROOM))
            if status == DONE:
                return [FreeBlock(row.first, row.last, row.inside or None) for row in rows[:reply.count]]
            count = reply.count

    def verify(self) -> Verdict:
        """Whether the disk is healthy, or the first finding."""
        return self._verdict(*self._call("verify", allowed=(DONE, NO)))

    def _verdict(self, status: int, reply: _Reply) -> Verdict:
        return Verdict(status, reply, _sentence(self._library, status, reply))

    def locate(self, number: int, k: int, letter: str = "") -> Optional[int]:
        """The disk's sector that is sector `k` of a partition, or None."""
        if letter and letter not in list("abcdefgh"):
            raise _bad(f"the letter is {letter!r}, and not one from a to h", ARGUMENT_PARTITION)
        status, reply = self._call("locate", _within("number", number, 64, ARGUMENT_PARTITION), ord(letter) if letter else 0,
                                   _within("k", k, 64), allowed=(DONE, NO))
        return reply.sector if status == DONE else None

    def edit(self, *words: str, drawn: Optional[bytes] = None) -> int:
        """Edits by words as `ptab edit` takes them: how many sectors were written. `drawn` has 16 random bytes for each GUID; without it
        they are drawn."""
        return self._call("edit", *_words(words, drawn))[1].count

    def repair(self) -> int:
        """Makes the disk healthy, and keeps its partitions: how many sectors were written."""
        return self._call("repair")[1].count

    def adopt(self, other: Disk) -> int:
        """Gives the disk the layout that another one denotes: how many sectors were written."""
        return self._call("adopt", other._open("the other disk"))[1].count

    def set(self, table: Union[str, dict[str, Any]], drawn: Optional[bytes] = None) -> int:
        """Gives the disk the table that a text of JSON says, or an object as that of `json`: how many sectors were written. What it leaves
        out is chosen (docs/table.md), and partitions that it doesn't have are removed. Its first fault is a TextFault. `drawn` is as of
        `edit`."""
        return self._call("set", *_text(table, drawn))[1].count

    def apply(self, plan: Plan) -> int:
        """Carries out a plan from elsewhere, if `check` says yes to it: how many sectors were written."""
        return self._call("apply", *_given(plan, self.size()[1]))[1].count

    def check(self, plan: Plan) -> Verdict:
        """Whether a plan from elsewhere may be carried out."""
        return self._verdict(*self._call("check", *_given(plan, self.size()[1]), allowed=(DONE, NO)))

    def plan(self, *words: str, drawn: Optional[bytes] = None) -> Plan:
        """The plan of an edit, of which nothing is written."""
        return self._plan("plan", *_words(words, drawn))

    def repair_plan(self) -> Plan:
        """The plan of a repair."""
        return self._plan("repair_plan")

    def adopt_plan(self, other: Disk) -> Plan:
        """The plan that gives the disk the layout of another one."""
        return self._plan("adopt_plan", other._open("the other disk"))

    def set_plan(self, table: Union[str, dict[str, Any]], drawn: Optional[bytes] = None) -> Plan:
        """The plan of `set`."""
        return self._plan("set_plan", *_text(table, drawn))

    def _plan(self, name: str, *arguments: object) -> Plan:
        size, count = self.size()[1], MOST_WRITES
        while True:
            writes, data = (_Write * count)(), c.create_string_buffer(count * size)
            status, reply = self._call(name, *arguments, writes, count, data, len(data), allowed=(DONE, ROOM))
            if status == DONE:
                break
            count = reply.count
        phases: list[list[Write]] = [[] for _ in range(reply.phases)]
        for k in range(reply.count):
            phases[writes[k].phase - 1].append(Write(writes[k].sector, data.raw[k * size:(k + 1) * size]))
        return phases


def _primary(keep: Optional[bool]) -> int:
    """What becomes of the primary copy, as a part of how a disk is opened."""
    return 0 if keep is None else KEEP_PRIMARY if keep else BY_TABLE


def _bytes(data: bytes) -> bytes:
    """The bytes, also of a bytearray or a memoryview; of nothing else, since ctypes takes numbers for addresses."""
    return data if isinstance(data, bytes) else bytes(memoryview(data))


def _words(words: Sequence[str], drawn: Optional[bytes]) -> tuple[object, ...]:
    """Words and random bytes as arguments."""
    if any("\0" in word for word in words):
        raise _bad("a word has a zero byte")
    texts = (c.c_char_p * max(1, len(words)))(*[word.encode() for word in words])
    data = None if drawn is None else _bytes(drawn)
    return texts, len(words), data, len(data or b"")


def _name(device: Union[str, os.PathLike, int]) -> bytes:
    """A device's name, which a text holds: a path, or the number of a descriptor."""
    name = str(device) if isinstance(device, int) else os.fsdecode(device)
    if "\0" in name:
        raise _bad("the device's name has a zero byte")
    return name.encode("utf-8", "replace")


def _text(table: Union[str, dict[str, Any]], drawn: Optional[bytes]) -> tuple[object, ...]:
    """A table's text and random bytes as arguments."""
    text = (table if isinstance(table, str) else json.dumps(table)).encode("utf-8", "surrogatepass")
    data = None if drawn is None else _bytes(drawn)
    return text, len(text), data, len(data or b"")


def _given(plan: Plan, size: int) -> tuple[object, ...]:
    """A plan as arguments, of writes of whole sectors."""
    rows, data = [], []
    for number, phase in enumerate(plan, 1):
        for sector, content in phase:
            content = _bytes(content)
            if len(content) != size:
                raise _bad(f"the write of sector {sector} in phase {number} has {len(content)} bytes, and a sector {size}", ARGUMENT_PLAN)
            rows.append((_within(f"a sector of phase {number}", sector, 64, ARGUMENT_PLAN), number))
            data.append(content)
    return (_Write * max(1, len(rows)))(*rows), len(rows), b"".join(data) or b"\0", size * len(rows)
