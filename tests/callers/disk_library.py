#!/usr/bin/env python3
"""The library's calls on open disks (include/ptab_disk.h), by the program examples/c/ptab.c and by Python's module. The headers are
compiled as C and as C++, and the small programs of docs/c.md run. On images changed at random, of every kind and both sector sizes, each
call answers what the command answers, and leaves the image that the command leaves. Then: plans by what becomes of the primary copy
(kept_plans.py), as they are given and as they are written; several edits in one opening; the lock, held elsewhere and held here; files of
other kinds; how often the library is asked on a chain, and what is read of it (disk_chains.py); each call on the image failing in turn,
and each request for memory; a file that can't grow; plans, checked and applied. As root, where there are loop devices, also on those of
512 and of 4096 bytes.

usage: tests/callers/disk_library.py PTAB ARCHIVE [COUNT]     ARCHIVE is crates/pt_c/out/libpt_c.a
"""
import contextlib
import ctypes
import errno
import fcntl
import json
import os
import random
import resource
import shutil
import socket
import subprocess
import sys

HERE = os.path.dirname(os.path.abspath(__file__))
ROOT = os.path.dirname(os.path.dirname(HERE))
sys.path[:0] = [os.path.join(ROOT, "tests", "shared"), os.path.join(ROOT, "bindings", "python")]
import compared
import disk_chains
import disk_faults
import disk_system
import disk_texts
import images
import kept_plans
import ptab as lib
import replay
from compared import content, put, same
from disk_calls import error_of, must
from doubles import text_of
from images import LARGE, SMALL, room
from other_test import of_test

DRAWN = bytes(range(256)) * 16
WARNINGS = ("-Wall", "-Wextra", "-pedantic", "-Werror", "-O2")
NO_COPY = "no MBR, and neither copy of a GPT exists: the signature isn't EFI PART (primary); the signature isn't EFI PART (backup)"
WORDS = (["a:2048"], ["c:1:name"], ["d:1"], ["n:0:0:0"], ["o"], ["o", "n:0:0:+8", "c:1:root"], ["g"], ["t:1:8300"], ["e"], ["x"], ["d:2.a"],
         ["n:0:0:+5:8200", "d:1"], ["n:5:0:0"], ["t:2.a:07"], ["a:1", "n:0:0:0"], ["g", "c:1:é𝄞"],
         ["U:e896e426-a4e9-4c9e-8d92-b56974f85fcf"])


HOSTILE, TABLES = of_test("hostile"), of_test("random_tables")


# what is built


def built(archive, folder):
    """The C example, compiled with all warnings; the headers by themselves, in C and in C++."""
    must(f"{ROOT}/bindings/c/build.sh", archive, folder)
    include = f"-I{ROOT}/include"
    compilers = [it for it in ("cc", "clang") if shutil.which(it)], [it for it in ("c++", "clang++") if shutil.which(it)]
    for name, standards, found in (("h.c", ("-std=c11", "-std=c17"), compilers[0]), ("h.cpp", ("-std=c++11", "-std=c++20"), compilers[1])):
        put(f"{folder}/{name}", b'''#include "ptab_disk.h"
int main(void) { ptab_disk_close(0); return ptab_version() == PTAB_VERSION ? 0 : 1; }
''')
        for compiler in found:
            for standard in standards:
                must(compiler, standard, *WARNINGS, include, f"{folder}/{name}", f"{folder}/libptab.a", "-o", f"{folder}/h")
                same(f"{compiler} {standard}", must(f"{folder}/h"), "")
    for compiler in compilers[0]:
        for source in ("ptab_disk", "ptab_disk_open", "ptab_disk_io", "ptab_disk_mbr", "ptab_disk_text", "ptab_disk_list"):
            must(compiler, "-std=c11", *WARNINGS, include, "-c", f"{ROOT}/bindings/c/{source}.c", "-o", f"{folder}/{source}.o")
    for name in ("ptab", "rename", "keep_primary", "set"):
        must("cc", "-std=c11", *WARNINGS, include, f"{ROOT}/examples/c/{name}.c", f"{folder}/libptab.a", "-o", f"{folder}/{name}_c")
    return f"{folder}/ptab_c"


# what the small programs print: of two partitions; of a lost backup that is mended, and of a rename
SMALL_PROGRAMS = {"rename": "1 EFI\n2 root\ndone\n", "keep_primary": "33 sectors mended\n67 sectors written\n"}


def small_programs(ptab, folder):
    """The programs that list an image's partitions and rename one, and that mend an image and rename one, in C and in Python. They stand in
    docs/c.md, as those in Rust do."""
    image = f"{folder}/disk.img"
    where = {**os.environ, "PYTHONPATH": f"{ROOT}/bindings/python", "PTAB_LIBRARY": f"{folder}/libptab.so.2"}
    for name, wanted in SMALL_PROGRAMS.items():
        for path in (f"examples/c/{name}.c", f"examples/python/{name}.py", f"bindings/rust/examples/{name}.rs"):
            same(f"docs/c.md has {path}", content(f"{ROOT}/{path}") in content(f"{ROOT}/docs/c.md"), True)
        for program in ([f"{folder}/{name}_c"], [sys.executable, f"{ROOT}/examples/python/{name}.py"]):
            put(image, bytes(64 << 20))
            must(ptab, "edit", image, "--fresh", DRAWN.hex(), "o", "n:1:0:+32768:EF00", "c:1:EFI", "n:2:0:0", "c:2:root")
            if name == "keep_primary":
                put_at(image, (64 << 20) - 512, bytes(512))
            same(program, must(*program, cwd=folder, env=where), wanted)
            same("the renamed partition", must(ptab, "show", image).splitlines()[1].split()[-1], "archive")
            same("it is healthy", must(ptab, "verify", image), "yes\n")
    for path in ("examples/python/set.py", "examples/c/set.c", "bindings/rust/examples/set.rs"):
        same(f"docs/c.md has {path}", content(f"{ROOT}/{path}") in content(f"{ROOT}/docs/c.md"), True)
    put(image, bytes(64 << 20))
    same("set.c", must(f"{folder}/set_c", cwd=folder), "67 sectors written\n")
    same("its partitions", [line.split()[-1] for line in must(ptab, "show", image).splitlines()[1:]], ["EFI", "root"])
    put(image, bytes(64 << 20))
    same("set.py", must(sys.executable, f"{ROOT}/examples/python/set.py", cwd=folder, env=where),
         "8200\n8300\nobject 1 of `partitions` has a fault at `unknown` / unknown 1\n")
    ends = (bytes(1 << 20), 4, f"there is no table: {NO_COPY}\n"), (None, 5, f"the disk can't be opened: {os.strerror(errno.ENOENT)}\n")
    for blank, status, told in ends:
        put(image, blank) if blank else os.remove(image)
        done = subprocess.run([f"{folder}/rename_c"], cwd=folder, capture_output=True, text=True)
        same("the program in C ends", (done.returncode, done.stdout, done.stderr), (status, "", told))


# beside the command


class Example(HOSTILE["Runner"]):
    """The example in the command's place."""

    def __init__(self, example, path, drawn):
        super().__init__(example, path)
        self.drawn = drawn

    def run(self, command, sectors, *words):
        for stream in self.streams:
            os.ftruncate(stream, 0)
            os.lseek(stream, 0, os.SEEK_SET)
        actions = [(os.POSIX_SPAWN_DUP2, stream, number) for number, stream in enumerate(self.streams, 1)]
        child = os.posix_spawn(self.ptab, [self.ptab, self.path, str(sectors.size), command, *words], {"PTAB_RANDOM": self.drawn},
                               file_actions=actions)
        status = os.waitstatus_to_exitcode(os.waitpid(child, 0)[1])
        return (status, *(os.pread(stream, os.fstat(stream).st_size, 0).decode("utf-8") for stream in self.streams))


def beside(ptab, example, folder, count):
    rng, path, other = random.Random(2), f"{folder}/image", f"{folder}/other"
    put(f"{folder}/drawn", DRAWN)
    mine, theirs = Example(example, path, f"{folder}/drawn"), HOSTILE["Runner"](ptab, path)
    put(other, images.one_partition())
    for number in range(count):
        sectors, image = HOSTILE["hostile"](rng)
        words = rng.choice(WORDS)
        put(path, image)
        where = HOSTILE["place"](theirs.run("show", sectors), sectors, rng)
        text = put(f"{folder}/text", drawn_text(theirs, rng, sectors, image))
        for command, given, fresh in (("show", (), ()), ("show", ("--json",), ()), ("verify", (), ()), ("free", (), ()),
                                      ("locate", (where[0], str(where[1])), ()), ("repair", (), ()),
                                      ("edit", words, ("--fresh", DRAWN.hex())), ("adopt", (other,), ()),
                                      ("set", (text,), ("--fresh", DRAWN.hex()))):
            answers = []
            for it, more in ((theirs, fresh), (mine, ())):
                put(path, image)
                answers.append((it.run(command, sectors, *more, *given), content(path)))
            same(f"{command} {given} on an image of {len(image)} bytes", answers[1], answers[0])
        by_plan(theirs, sectors, image, words, (None, True, False)[number % 3])
        listed(theirs, sectors)
        put(other, content(path))


def drawn_text(command, rng, sectors, image):
    """A text for the image: its own, changed or not, or one that is drawn (random_tables.py)."""
    status, text, _ = command.run("show", sectors, "--json")
    own = status == 0 and rng.randrange(3)
    table = json.loads(text) if own else {"partitiontable": TABLES["drawn"](rng, sectors, image)}
    for _ in range(rng.choice((0, 0, 1, 2))):
        TABLES["mutate"](rng, table)
    return json.dumps(table).encode()


class Partition(ctypes.Structure):
    """A row of ptab_disk_list."""
    _fields_ = [("first", ctypes.c_uint64), ("last", ctypes.c_uint64), ("path", ctypes.c_char * 24), ("type", ctypes.c_char * 40),
                ("name", ctypes.c_char * 112)]


def listed(command, sectors):
    """The rows of ptab_disk_list have what `ptab show` prints."""
    status, shown, _ = command.run("show", sectors)
    wanted = [(line.split(" ")[:4], line.split(" ", 6)[6:]) for line in shown.splitlines()[1:]]
    library, reply, rows = lib.load(), lib._Reply(), (Partition * (len(wanted) + 1))()
    library.ptab_disk_list.argtypes = [ctypes.c_void_p, ctypes.c_void_p, ctypes.c_size_t, ctypes.c_void_p]
    with lib.Disk(command.path, sector_size=sectors.size) as disk:
        for room_of in {0, len(wanted), len(rows)}:
            found = library.ptab_disk_list(disk._disk, rows, room_of, ctypes.byref(reply))
            same(f"ptab_disk_list into {room_of} rows", found, lib.ROOM if status == 0 and room_of < len(wanted) else status)
            same("how many partitions there are", reply.count, len(wanted))
    texts = [([it.path.decode(), str(it.first), str(it.last), it.type.decode()], [it.name.decode()] if it.name else []) for it in rows]
    same("the rows of ptab_disk_list", texts[:-1], wanted)


def by_plan(command, sectors, image, words, keep):
    """Plans by Python's module: the command's text, the command's answers to it, and what it leaves."""
    path, text, option = command.path, f"{command.path}.plan", ["--keep-primary"] if keep else []
    put(path, image)
    status, wanted, errors = command.run("plan", sectors, *option, "--fresh", DRAWN.hex(), *words)
    with lib.Disk(path, write=True, sector_size=sectors.size, keep_primary=keep) as disk:
        if status != 0:
            same(f"the plan of {words}: {errors}", error_of(lambda: disk.plan(*words, drawn=DRAWN)).status, status)
            return
        plan = disk.plan(*words, drawn=DRAWN)
        same(f"the plan of {words}", text_of([(lba, data.hex()) for lba, data in phase] for phase in plan), wanted)
        put(text, wanted.encode())
        same("its check", f"yes {disk.check(plan).a}\n", command.run("check", sectors, text)[1])
        same("it is applied", disk.apply(plan), sum(len(phase) for phase in plan))
        after = content(path)
        part = plan[:-1]
        put(text, text_of([(lba, data.hex()) for lba, data in phase] for phase in part).encode())
        answer, verdict = command.run("check", sectors, text), disk.check(part)
        same("the check of a part", (bool(verdict), verdict.number), (answer[0] == 0, int(answer[1].split()[1]) if answer[0] else 0))
        if not verdict:
            same("a part of it", (type(error_of(lambda: disk.apply(part))), content(path) == after), (lib.Refused, True))
    put(path, image)
    same("the command's edit", command.run("edit", sectors, *option, "--fresh", DRAWN.hex(), *words)[0], 0)
    same("the image", content(path) == after, True)


def by_choice(folder):
    """Plans by what becomes of the primary copy, on disks that are opened with each choice: as they are given, and as they are written."""
    path, library = f"{folder}/chosen", f"{folder}/libptab.so.2"
    for job in kept_plans.jobs():
        for keep in kept_plans.CHOICES:
            wanted = job.phases(keep)
            put(path, job.image)
            with lib.Disk(path, sector_size=job.sectors.size, keep_primary=keep) as disk:
                if job.words:
                    found = disk.plan(*job.words, drawn=kept_plans.DRAWN)
                elif job.other:
                    with lib.Disk(put(f"{path}.other", job.other), sector_size=job.sectors.size, keep_primary=not keep) as other:
                        found = disk.adopt_plan(other)
                else:
                    found = disk.repair_plan()
                same(f"{job.name}, {keep}: the plan", found, wanted)
                same(f"{job.name}, {keep}: its check", bool(disk.check(found)), True)
            same(f"{job.name}, {keep}: what is written", kept_plans.by_open_disk(library, folder, job, keep), wanted)


# one opening


EDITS = (
    ("GPT", SMALL, images.one_partition, (["c:1:data"], ["a:1", "n:2:0:+8"], ["d:1", "c:2:root"])),
    ("GPT of 4096 bytes", LARGE, lambda: LARGE.gpt(64, {1: images.entry(6, 40)}), (["c:1:data"], ["a:1", "n:2:0:+8"], ["d:1"])),
    ("GPT with a slice", SMALL, lambda: SMALL.gpt(300, {1: images.entry(40, 139, images.FREEBSD)}),
     (["c:1:x"], ["a:1", "n:0:160:180"], ["d:1"])),
    ("MBR", SMALL, lambda: SMALL.mbr(200, [images.record(0x83, 120, 30, 0x80)]), (["t:1:07"], ["a:1", "n:2:10:+20"], ["d:1"])),
)


def by_command(ptab, path, sectors, *edits):
    """What the command makes of a copy of the image."""
    copy = f"{path}.copy"
    shutil.copyfile(path, copy)
    for words in edits:
        must(ptab, "edit", copy, "--sector-size", str(sectors.size), "--fresh", DRAWN.hex(), *words)
    return content(copy)


def in_one_opening(ptab, folder):
    """Each edit begins with what the one before it left, on a path and on a descriptor."""
    path = f"{folder}/edited"
    for name, sectors, image, edits in EDITS:
        put(path, image())
        wanted = by_command(ptab, path, sectors, *edits)
        for how in ("a path", "a descriptor"):
            put(path, image())
            fd = os.open(path, os.O_RDWR)
            with lib.Disk(path if how == "a path" else fd, write=True, sector_size=sectors.size) as disk:
                for words in edits:
                    disk.edit(*words, drawn=DRAWN)
                same(f"{name}: healthy", (bool(disk.verify()), disk.repair()), (True, 0))
                same(f"{name}: its size", disk.size(), (sectors.count(image()), sectors.size))
            os.close(fd)
            same(f"{name}: edits by {how}", content(path) == wanted, True)
        with lib.Disk(path, sector_size=sectors.size) as disk, lib.Disk(path, write=True, sector_size=sectors.size) as writing:
            kept = disk.table()
            put(path, image())
            writing.adopt(disk)
            same(f"{name}: what is there now is adopted, not what was", disk.table() == kept, False)


def locks(ptab, folder):
    path = f"{folder}/locked"
    put(path, images.one_partition())
    edit = [ptab, "edit", path, "c:1:other"]

    def by_the_command():
        done = subprocess.run(edit, capture_output=True, text=True)
        return done.stdout, done.stderr, done.returncode
    with lib.Disk(path, write=True):
        same("an edit beside a disk that is open", by_the_command(), ("", "refused: locked\n", 3))
        with lib.Disk(path) as reading:
            same("who reads takes no lock", bool(reading.verify()), True)
        error = error_of(lambda: lib.Disk(path, write=True))
        same("a second opening", (type(error), str(error), error.written), (lib.Locked, "the lock is held elsewhere", 0))
    same("when it is closed", by_the_command(), ("done\n", "", 0))
    with open(path, "r+b") as held:
        for how in (fcntl.LOCK_SH, fcntl.LOCK_EX):
            fcntl.flock(held, how)
            same("the lock is held by another", type(error_of(lambda: lib.Disk(path, write=True))), lib.Locked)
        with lib.Disk(path, write=True, lock=False) as disk:
            same("who holds it takes none", disk.edit("c:1:mine"), 67)
        same("it is held after that", by_the_command(), ("", "refused: locked\n", 3))
        with lib.Disk(held.fileno(), write=True) as disk:
            same("an edit by the descriptor", disk.edit("c:1:yours"), 67)
        same("its lock has ended, and it is open", (by_the_command(), os.fstat(held.fileno()).st_size), (("done\n", "", 0), 4096 * 512))


def refusals(folder):
    """What is no disk, and arguments without a meaning: the status, errno, and the sentence."""
    image, pipe, sock = f"{folder}/plain", f"{folder}/pipe", f"{folder}/socket"
    put(image, images.one_partition())
    os.mkfifo(pipe)
    with socket.socket(socket.AF_UNIX) as it:
        it.bind(sock)
    there = "the disk can't be opened: "
    cases = [(folder, {}, errno.EINVAL, "this is a folder"), (pipe, {"write": True}, errno.EINVAL, "this is a pipe"),
             (sock, {}, errno.EINVAL, "this is a socket"), ("/dev/null", {}, errno.EINVAL, "this is a character device"),
             ("/dev/null", {"device": True}, errno.EINVAL, "this is a character device"),
             (image, {"device": True}, errno.EINVAL, "this is a plain file"),
             (f"{folder}/none", {}, errno.ENOENT, there + os.strerror(errno.ENOENT)),
             (f"{image}/none", {}, errno.ENOTDIR, there + os.strerror(errno.ENOTDIR))]
    for path, how, number, told in cases:
        error = error_of(lambda: lib.Disk(path, **how))
        same(f"{path} {how}", (type(error), error.status, error.errno, str(error)), (lib.DeviceFault, lib.DEVICE, number, told))
        same("errno", ctypes.get_errno(), number)
    with open(image, "rb") as reading, open(image, "ab") as writing, open(image, "a+b") as appending:
        for fd, how in ((reading.fileno(), {"write": True}), (writing.fileno(), {}), (appending.fileno(), {"write": True}), (9999, {})):
            same("a descriptor that doesn't do", error_of(lambda: lib.Disk(fd, **how)).errno, errno.EBADF)
    for how, about, number in (({"sector_size": 513}, 1, 1), ({"sector_size": 1}, 1, 1)):
        error = error_of(lambda: lib.Disk(image, **how))
        same(f"{how}", (type(error), error.about, error.number), (lib.BadArgument, about, number))
    with lib.Disk(image) as disk:
        for call in (disk.repair, lambda: disk.edit("c:1:x"), lambda: disk.apply([]), lambda: disk.adopt(disk)):
            error = error_of(call)
            same("a call that writes", (type(error), str(error)), (lib.BadArgument, "the disk was opened for reading alone"))
        for words, told in ((["c:1:x", "d:x"], "word 2: a number or a path that is none, or out of range"),
                            ([], "there are no words, or they aren't UTF-8")):
            same(f"{words}", str(error_of(lambda: disk.plan(*words))), told)
        same("no sector", disk.locate(1, 1 << 40), None)
        same("no partition", str(error_of(lambda: disk.plan("d:7"))), "no such partition")
    same("it is as it was", content(image) == images.one_partition(), True)


def small_buffers(folder):
    """Buffers that are too small: what they take is told, and a table of rows."""
    path, library, reply = f"{folder}/small", lib.load(), lib._Reply()
    put(path, images.one_partition())
    with lib.Disk(path) as disk:
        table, writes, data = lib._Table(), (lib._Write * 67)(), ctypes.create_string_buffer(67 * 512)
        status = library.ptab_disk_members(disk._disk, ctypes.byref(table), writes, 0, ctypes.byref(reply))
        same("no room for rows", (status, reply.count, table.sectors), (lib.ROOM, 1, 4096))
        words = lib._words(["c:1:x"], None)
        for rows, room_of, wanted in ((66, 67 * 512, lib.ROOM), (67, 67 * 512 - 1, lib.ROOM), (67, 67 * 512, lib.DONE)):
            status = library.ptab_disk_plan(disk._disk, *words, writes, rows, data, room_of, ctypes.byref(reply))
            same(f"room for {rows} writes in {room_of} bytes", (status, reply.count, reply.phases), (wanted, 67, 4))
    ways(path, library)


def ways(path, library):
    """What is no way to open a disk: another number, and both choices of what becomes of the primary copy at once."""
    fd, reply, disk = os.open(path, os.O_RDWR), lib._Reply(), ctypes.c_void_p(1)
    for call, it in ((library.ptab_disk_open, path.encode()), (library.ptab_disk_take, fd)):
        for how in (24, 25, 31, 32, 40, 2 ** 31):
            disk.value = 1
            status = call(it, how, 0, ctypes.byref(disk), ctypes.byref(reply))
            same(f"no way to open: {how}", (status, reply.about, reply.number, disk.value), (lib.USAGE, 64, 12, None))
        for how in (8, 9, 11, 16, 17, 19):
            same(f"a way to open: {how}", call(it, how, 0, ctypes.byref(disk), ctypes.byref(reply)), lib.DONE)
            library.ptab_disk_close(disk)
    os.close(fd)


def drawn_guids(folder):
    """GUIDs that are drawn within: others each time, and as many as words can need."""
    path, seen = f"{folder}/drawn_guids", set()
    for _ in range(3):
        put(path, SMALL.zeros(4096))
        with lib.Disk(path, write=True) as disk:
            disk.edit("o", "a:1", *(["n:0:0:+8"] * 128))
            table = disk.table()
        seen |= {table.guid, *(it.unique for it in table.partitions)}
    same("GUIDs", (len(seen), {it.version for it in seen}), (3 * 129, {4}))
    chain = images.long_chain(124)
    put(path, chain)
    with lib.Disk(path, write=True) as disk:
        error = error_of(lambda: disk.edit("g"))
        same("a GPT of a chain", str(error) != "no fresh GUID is left", True)


def full_files(ptab, folder):
    """The system refuses to write past a place: the edit stops there, says how much was written, and the next one goes on."""
    path = f"{folder}/full"
    soft, hard = resource.getrlimit(resource.RLIMIT_FSIZE)
    for name, sectors, image, edits in EDITS[:2]:
        put(path, image())
        with lib.Disk(path, write=True, sector_size=sectors.size) as disk:
            last = sectors.count(image()) - 1
            resource.setrlimit(resource.RLIMIT_FSIZE, (last * sectors.size, hard))
            try:
                error = error_of(lambda: disk.edit(*edits[0], drawn=DRAWN))
            finally:
                resource.setrlimit(resource.RLIMIT_FSIZE, (soft, hard))
            same(f"{name}: the fault", (type(error), error.errno, error.sector, str(error)),
                 (lib.DeviceFault, errno.EFBIG, last, f"sector {last} can't be written: {os.strerror(errno.EFBIG)}"))
            same(f"{name}: some was written", 1 <= error.written <= 1 + sectors.array and content(path) != image(), True)
            wanted = by_command(ptab, path, sectors, edits[1])
            same(f"{name}: another edit after it", disk.edit(*edits[1], drawn=DRAWN) > 0, True)
            same(f"{name}: the image", content(path) == wanted, True)
            os.truncate(path, (last - 5) * sectors.size)
            same(f"{name}: the file is shorter now", (disk.size()[0], disk.verify().number), (last - 5, 1))


# plans that are too long


def field_values(reply):
    return [getattr(reply, name) for name, _ in reply._fields_]


def wants(call, sectors, image):
    """The sectors that a call of ptab.h wants one after the other, of a disk of which nothing is known, and its last status and reply."""
    disk = replay.Disk(replay.Ptab(lib.load()._name), lambda lba: bytes(image[lba * sectors.size:(lba + 1) * sectors.size]),
                       sectors.count(image), sectors.size)
    disk._pack()
    wanted, reply = [], replay.Reply()
    while (status := call(disk.lib, ctypes.byref(disk.view), ctypes.byref(reply))) == replay.WANT:
        wanted.append(reply.sector)
        disk._add(reply.sector)
    return wanted, status, field_values(reply)


def long_plans(folder):
    """The answer to a plan of too many writes is that of ptab_check, which wants the sectors of the table first, and the plan isn't
    copied for it."""
    path, count = f"{folder}/long", 4097
    for sectors, image in ((SMALL, SMALL.zeros(100)), (SMALL, images.one_partition()), (SMALL, images.long_chain(124)),
                           (SMALL, SMALL.gpt(300, {1: images.entry(40, 139, images.FREEBSD)})), (LARGE, LARGE.gpt(64, {}))):
        put(path, image)
        data, table, row = ctypes.create_string_buffer(count * sectors.size), replay.Table(), replay.Member()
        members = wants(lambda of, view, reply: of.ptab_members(view, ctypes.byref(table), ctypes.byref(row), 0, reply), sectors, image)
        for phases, length in (([1] * count, len(data)), ([*range(1, count + 1)], len(data)), ([1] * 4000 + [2] * 97, len(data)),
                               ([1] * 4000 + [3] * 97, len(data)), ([1] * 4000 + [0] * 97, len(data)), ([2] * count, len(data)),
                               ([0] * count, len(data)), ([1] * count, len(data) - 1), ([1] * count, len(data) - sectors.size)):
            rows = (lib._Write * count)(*[(1, phase) for phase in phases])
            wanted, status, fields = wants(lambda of, view, reply: of.ptab_check(view, rows, count, data, length, reply), sectors, image)
            if status == lib.NO:
                same("what is wanted first", (wanted, fields[5:7]), (members[0], [7, 1]))
            with lib.Disk(path, write=True, sector_size=sectors.size) as disk:
                for call in (disk._library.ptab_disk_check, disk._library.ptab_disk_apply):
                    reply = lib._Reply()
                    found = call(disk._disk, rows, count, data, length, ctypes.byref(reply))
                    same(f"a long plan of phases {phases[0]} to {phases[-1]}, {length}", (found, field_values(reply)), (status, fields))
        same("nothing is written", content(path) == image, True)
    rows, data = (lib._Write * 200000)(*[(1, 1)] * 200000), ctypes.create_string_buffer(200000 * 512)
    with lib.Disk(put(path, images.one_partition())) as disk:
        reply, before = lib._Reply(), resource.getrusage(resource.RUSAGE_SELF).ru_maxrss
        found = disk._library.ptab_disk_check(disk._disk, rows, len(rows), data, len(data), ctypes.byref(reply))
        grown = resource.getrusage(resource.RUSAGE_SELF).ru_maxrss - before
    same(f"200000 writes aren't copied: {grown} kB", (found, reply.about, reply.number, grown < 20000), (lib.NO, 7, 1, True))


# loop devices


@contextlib.contextmanager
def loop_device(path, size):
    """A loop device of the file with sectors of that size, or None."""
    done = subprocess.run(["losetup", "--show", "-b", str(size), "-f", path], capture_output=True, text=True)
    device = done.stdout.strip()
    try:
        yield device or None
    finally:
        if device:
            subprocess.run(["losetup", "-d", device], check=False)


def on_devices(ptab, example, folder):
    """Whether there are loop devices on which all of it could be tried."""
    if os.getuid() != 0 or not shutil.which("losetup"):
        return False
    for name, sectors, image, edits in EDITS:
        path = f"{folder}/loop{sectors.size}"
        # a loop device has whole pages
        put(path, bytes(image()) + bytes(-len(image()) % 4096))
        if len(image()) % 4096:
            must(ptab, "edit", path, "e") if image()[450] == 0xEE else None
        with loop_device(path, sectors.size) as device:
            if device is None:
                return False
            on_device(ptab, example, device, path, sectors, edits, name)
            if name.startswith("GPT") and name != "GPT with a slice":
                put_at(path, 0, image())
                disk_system.on_device(ptab, example, folder, device, path, sectors)
    return True


def on_device(ptab, example, device, path, sectors, edits, name):
    told = error_of(lambda: lib.Disk(device))
    same(f"{name}: a device that isn't asked for", (type(told), str(told)), (lib.DeviceFault, "this is a block device"))
    told = error_of(lambda: lib.Disk(device, device=True, sector_size=4608 - sectors.size))
    same(f"{name}: another sector size", (type(told), str(told)), (lib.BadArgument, f"the device has sectors of {sectors.size} bytes"))
    held = os.open(device, os.O_RDWR | os.O_EXCL)
    told = error_of(lambda: lib.Disk(device, device=True, write=True))
    same(f"{name}: a device in use", (type(told), str(told)), (lib.Refused, "the device is in use"))
    with lib.Disk(device, device=True) as disk:
        same(f"{name}: it can be read", disk.size(), (len(content(path)) // sectors.size, sectors.size))
    os.close(held)
    with open(device, "rb") as other:
        fcntl.flock(other, fcntl.LOCK_SH)
        same(f"{name}: its lock", type(error_of(lambda: lib.Disk(device, device=True, write=True))), lib.Locked)
    wanted = by_command(ptab, path, sectors, *edits)
    with lib.Disk(device, device=True, write=True) as disk:
        for words in edits:
            disk.edit(*words, drawn=DRAWN)
        same(f"{name}: edits on a device", (content(path) == wanted, bool(disk.verify())), (True, True))
        # the file changes below the device, whose pages are stale then
        put_at(path, 0, bytes(3 * sectors.size))
        same(f"{name}: pages are read anew", str(disk.verify()) == "yes", False)
        if name.startswith("GPT"):
            same(f"{name}: a repair", (disk.repair() > 0, str(disk.verify()), content(path) == wanted), (True, "yes", True))
    if name.startswith("GPT"):
        put_at(path, len(wanted) - sectors.size, bytes(sectors.size))
        with lib.Disk(device, device=True, write=True, keep_primary=True) as disk:
            same(f"{name}: a lost backup, the primary copy kept", (disk.repair(), content(path) == wanted), (sectors.array + 1, True))
    without_rights(name, device)
    size = ["--sector-size", str(sectors.size)]
    for line in (["show"], ["verify"], ["locate", "1", "0"]):
        mine = subprocess.run([example, device, "device", *line], capture_output=True, text=True)
        theirs = subprocess.run([ptab, line[0], path, *size, *line[1:]], capture_output=True, text=True)
        same(f"{name}: {line}", (mine.stdout, mine.stderr, mine.returncode), (theirs.stdout, theirs.stderr, theirs.returncode))


def without_rights(name, device):
    """Who may not drop a device's pages reads it, and doesn't write it."""
    fd, child = os.open(device, os.O_RDWR), os.fork()
    if child == 0:
        ends = 1
        try:
            os.setuid(65534)
            with lib.Disk(fd, device=True) as disk:
                disk.verify()
            with lib.Disk(fd, device=True, write=True) as disk:
                ends = 0 if str(error_of(disk.repair)) == f"the disk can't be flushed: {os.strerror(errno.EACCES)}" else 2
        finally:
            os._exit(ends)
    os.close(fd)
    same(f"{name}: without rights", os.waitstatus_to_exitcode(os.waitpid(child, 0)[1]), 0)


def put_at(path, at, data):
    """Changes a file where it is."""
    with open(path, "r+b") as it:
        it.seek(at)
        it.write(data)
        it.flush()
        os.fsync(it.fileno())


def main():
    ptab, archive = os.path.abspath(sys.argv[1]), os.path.abspath(sys.argv[2])
    count = int(sys.argv[3]) if len(sys.argv) > 3 else 400
    with room() as folder:
        example = built(archive, folder)
        lib.load(f"{folder}/libptab.so.2")
        small_programs(ptab, folder)
        beside(ptab, example, folder, count)
        by_choice(folder)
        disk_texts.as_text(ptab, folder, EDITS, DRAWN)
        disk_texts.faults(folder)
        in_one_opening(ptab, folder)
        locks(ptab, folder)
        refusals(folder)
        small_buffers(folder)
        drawn_guids(folder)
        full_files(ptab, folder)
        long_plans(folder)
        disk_chains.tried(folder, 3 * count)
        medium = disk_system.tried(ptab, example, folder)
        compared.count += disk_faults.calls(ptab, example, folder)
        compared.count += disk_faults.memory(ptab, example, folder)
        devices = on_devices(ptab, example, folder)
    left = "" if devices and medium else " (no loop devices here, or no file systems on them, so none was tried)"
    print(f"disk library: {compared.count} passed, 0 failed{left}")


main()
