#!/usr/bin/env python3
"""The module for Python and the crate for Rust, where they aren't what disk_library.py has compared with the command: Python's
exceptions, texts and type hints, what its arguments may be, that it keeps the primary copy, and where it finds the library; in Rust, where
there is a cargo, its tests without a warning, with the library in a folder and with the one that pkg-config finds, and its examples; these
beside the command on drawn images, and a write that fails, with a mending after it.

usage: tests/callers/bindings.py PTAB ARCHIVE     ARCHIVE is crates/pt_c/out/libpt_c.a
"""
import errno
import inspect
import os
import random
import resource
import shutil
import subprocess
import sys
import typing
import uuid

HERE = os.path.dirname(os.path.abspath(__file__))
ROOT = os.path.dirname(os.path.dirname(HERE))
sys.path[:0] = [os.path.join(ROOT, "tests", "shared"), os.path.join(ROOT, "bindings", "python")]
import compared
import images
import ptab as lib
from compared import content, put, same
from images import FREEBSD, SMALL, entry, label, record, room
from other_test import of_test
from tools import must

NO_COPY = "no MBR, and neither copy of a GPT exists: the signature isn't EFI PART (primary); the signature isn't EFI PART (backup)"
HOSTILE = of_test("hostile")


def error_of(call):
    try:
        found = call()
    except Exception as error:
        return error
    sys.exit(f"bindings: no error, but {found!r}")


def exceptions(folder):
    """Each kind of exception is also the system's that goes with it, and prints as its sentence."""
    path, blank = f"{folder}/image", f"{folder}/blank"
    put(path, images.one_partition())
    put(blank, SMALL.zeros(4096))
    with lib.Disk(path, write=True) as disk, lib.Disk(blank) as none:
        cases = ((lambda: disk.edit("x"), lib.BadArgument, ValueError, "word 1: another letter than a word's"),
                 (lambda: disk.edit("d:2"), lib.Refused, lib.Error, "no such partition"),
                 (lambda: disk.apply([[(100, bytes(512))]]), lib.Refused, lib.Error,
                  "sector 100 is written, and is in the tables of neither layout"),
                 (lambda: disk.apply([[(5, b"short")]]), lib.BadArgument, ValueError,
                  "the write of sector 5 in phase 1 has 5 bytes, and a sector 512"),
                 (lambda: disk.check([[(5, bytes(512))], [], [(6, bytes(512))]]), lib.BadArgument, ValueError,
                  "the plan's bytes aren't a whole sector for each write, or the phase of write 2 isn't in order"),
                 (lambda: lib.Disk(path, write=True), lib.Locked, BlockingIOError, "the lock is held elsewhere"),
                 (lambda: disk.set({"partitiontable": {"x": 1}}), lib.TextFault, lib.Refused, "the table's text has a fault at `unknown`"),
                 (none.table, lib.NoTable, lib.Error, f"there is no table: {NO_COPY}"),
                 (lambda: disk.adopt(none), lib.NoTable, lib.Error, f"the other disk: {NO_COPY}"),
                 (lambda: lib.Disk(f"{folder}/no"), lib.DeviceFault, OSError, "the disk can't be opened: No such file or directory"))
        for call, kind, system, told in cases:
            error = error_of(call)
            same(told, (type(error), isinstance(error, (system, lib.Error)), str(error), repr(error)),
                 (kind, True, told, f"{kind.__name__}({told!r})"))
        same("a word with a zero byte", str(error_of(lambda: disk.edit("c:1:\0"))), "a word has a zero byte")
        same("texts", (repr(disk), repr(disk.verify()), str(disk.verify()), str(none.verify())),
             (f"Disk({path!r})", "Verdict('yes')", "yes", "there is no table"))
    same("closed", repr(disk), f"Disk({path!r}, closed)")
    for call in (disk.size, disk.table, disk.verify, lambda: disk.locate(1, 0), lambda: disk.edit("c:1:x"), disk.repair,
                 disk.text, disk.json, disk.free, lambda: disk.set({}), lambda: disk.set_plan({}),
                 lambda: disk.plan("e"), disk.repair_plan, lambda: disk.check([]), lambda: disk.apply([])):
        same("a call on a closed disk", repr(error_of(call)), "ValueError('the disk is closed')")
    with lib.Disk(path, write=True) as other:
        for call in (lambda: other.adopt(disk), lambda: other.adopt_plan(disk)):
            same("another disk that is closed", repr(error_of(call)), "ValueError('the other disk is closed')")
    disk.close()
    del disk


def ranges(folder):
    """What a number of C can't hold, and data of another length than a sector, are refused: nothing is cut, and nothing is written."""
    path, image, sector = f"{folder}/ranges", images.one_partition(), bytes(512)
    put(path, image)
    with lib.Disk(path, write=True) as disk:
        same("the most that they hold", (disk.locate(2 ** 64 - 1, 0), disk.locate(1, 2 ** 64 - 1)), (None, None))
        plan = disk.plan("c:1:cut")
        moved = [[(at + (1 << 64), data) for at, data in phase] for phase in plan]
        shifted = b"".join(data for _, data in plan[0])
        cut = [(at, shifted[511 * k:511 * (k + 1)]) for k, (at, _) in enumerate(plan[0][:-1])] + [(plan[0][-1][0], shifted[511 * 32:])]
        first = plan[0][0][0]
        above = "and not from 0 to 2^64 - 1"
        for call, about, number, told in (
                (lambda: disk.locate(2 ** 64 + 1, 0), 1, 3, f"number is {2 ** 64 + 1}, {above}"),
                (lambda: disk.locate(-1, 0), 1, 3, f"number is -1, {above}"),
                (lambda: disk.locate(1, 2 ** 64), 0, 0, f"k is {2 ** 64}, {above}"),
                (lambda: disk.locate(1, -5), 0, 0, f"k is -5, {above}"),
                (lambda: disk.locate(0, 0), 1, 3, "the number is 0, or the letter is neither 0 nor from a to h"),
                (lambda: disk.locate(1, 0, "ab"), 1, 3, "the letter is 'ab', and not one from a to h"),
                (lambda: disk.locate(1, 0, "i"), 1, 3, "the letter is 'i', and not one from a to h"),
                (lambda: disk.locate(1, 0, chr(0x161)), 1, 3, "the letter is 'š', and not one from a to h"),
                (lambda: disk.locate(1, 0, "A"), 1, 3, "the letter is 'A', and not one from a to h"),
                (lambda: disk.apply(moved), 1, 6, f"a sector of phase 1 is {first + 2 ** 64}, {above}"),
                (lambda: disk.check([plan[0], [(-1, sector)]]), 1, 6, f"a sector of phase 2 is -1, {above}"),
                (lambda: disk.check([cut, *plan[1:]]), 1, 6, f"the write of sector {first} in phase 1 has 511 bytes, and a sector 512"),
                (lambda: disk.apply([cut, *plan[1:]]), 1, 6, f"the write of sector {first} in phase 1 has 511 bytes, and a sector 512"),
                (lambda: disk.apply([[(5, bytes(4096))]]), 1, 6, "the write of sector 5 in phase 1 has 4096 bytes, and a sector 512"),
                (lambda: disk.edit("c:1:x", drawn=bytes(17)), 1, 4, "the random bytes aren't whole groups of 16"),
                (lambda: lib.Disk(path, sector_size=2 ** 32 + 512), 1, 1, f"sector_size is {2 ** 32 + 512}, and not from 0 to 2^32 - 1"),
                (lambda: lib.Disk(path, sector_size=-512), 1, 1, "sector_size is -512, and not from 0 to 2^32 - 1"),
                (lambda: lib.Disk(2 ** 32), 0, 0, f"the descriptor is {2 ** 32}, and not from 0 to 2^31 - 1"),
                (lambda: lib.Disk(-1), 0, 0, "the descriptor is -1, and not from 0 to 2^31 - 1"),
                (lambda: disk.set({"partitiontable": {}}, bytes(17)), 1, 4, "the random bytes aren't whole groups of 16"),
                (lambda: disk.json("a\0b"), 0, 0, "the device's name has a zero byte"),
                (lambda: lib.Disk(f"{path}\0.bak"), 0, 0, "the path has a zero byte")):
            error = error_of(call)
            same(told, (type(error), str(error), error.about, error.number, error.written), (lib.BadArgument, told, about, number, 0))
        for call in (lambda: disk.locate("1", 0), lambda: disk.locate(1, 0.5), lambda: disk.locate(None, 0),
                     lambda: disk.edit("e", drawn=16), lambda: disk.edit("e", drawn="x" * 16), lambda: disk.apply([[(5, "x" * 512)]]),
                     lambda: disk.apply([[(5.0, sector)]]), lambda: lib.Disk(path, sector_size="512")):
            same("another type", type(error_of(call)), TypeError)
        same("nothing was written", content(path) == image, True)
        views = [[(at, memoryview(bytearray(data))) for at, data in phase] for phase in plan]
        same("bytes by other names", (bool(disk.check(views)), disk.apply(views), disk.table().partitions[0].name), (True, 67, "cut"))


def places(folder):
    """The module finds the library that was installed with it, and that of the system wherever it lies itself."""
    code = """
import sys
name, path = sys.argv[1:]
module = {"__name__": "ptab", "__file__": name}
exec(compile(open(path, encoding="utf-8").read(), name, "exec"), module)
print(module["load"]()._name)
"""
    source, near = f"{ROOT}/bindings/python/ptab.py", f"{folder}/near/lib"
    env = {name: value for name, value in os.environ.items() if name != "PTAB_LIBRARY"}
    for name in ("/ptab.py", "/x/ptab.py", "/x/y/ptab.py", "/a/b/c/d/ptab.py"):
        same(name, must(sys.executable, "-c", code, name, source, env={**env, "LD_LIBRARY_PATH": folder}), "libptab.so.2\n")
    installed = f"{near}/python3/dist-packages"
    os.makedirs(installed)
    shutil.copy(source, installed)
    shutil.copy(f"{folder}/libptab.so.2", near)
    line = [sys.executable, "-B", "-c", "import ptab; print(ptab.load()._name)"]
    named = f"{folder}/libptab.so"
    for more, wanted in (({}, f"{near}/libptab.so.2"), ({"LD_LIBRARY_PATH": folder}, f"{near}/libptab.so.2"),
                         ({"PTAB_LIBRARY": named}, named)):
        same(f"installed, and {more}", must(*line, env={**env, "PYTHONPATH": installed, **more}), f"{wanted}\n")


def rows(folder):
    """The fields of a table and of its partitions, of each kind."""
    path = f"{folder}/rows"
    gpt = SMALL.gpt(300, {1: entry(40, 139, FREEBSD, images.guid(7), 5, "é𝄞"), 2: entry(150, 160, images.guid(9))})
    SMALL.put(gpt, 41, label(100, {0: (30, 16, 7)}))
    put(path, gpt)
    with lib.Disk(path) as disk:
        table = disk.table()
        same("a GPT", table[:5], ("gpt", 300, 34, 266, uuid.UUID(images.DISK)))
        same("its partitions", table.partitions, (
            (1, "", 40, 139, "A500", "é𝄞", uuid.UUID(images.guid(7)), 5, 0), (1, "a", 56, 85, "07", "", None, 0, 0),
            (2, "", 150, 160, images.guid(9), "", uuid.UUID(images.FIRST), 0, 0)))
        same("paths", [it.path for it in table.partitions], ["1", "1.a", "2"])
        same("places", (disk.locate(1, 5, "a"), disk.locate(2, 3), disk.locate(1, 0)), (61, 153, None))
    put(path, SMALL.mbr(200, [record(0x83, 120, 30, 0x80)]))
    with lib.Disk(path) as disk:
        same("an MBR", disk.table(), ("mbr", 200, 0, 0, None, ((1, "", 120, 149, "83", "", None, 0, 0x80),)))


def primary_copy(folder):
    """A lost backup is mended beside the primary copy where that is kept, by a path and by a descriptor. Else both copies are written."""
    path, whole = f"{folder}/primary", bytes(SMALL.gpt(4096, {1: entry(2048, 4062, name="root")}))
    lost, backup, primary = whole[:-512] + bytes(512), {*range(4063, 4096)}, {*range(1, 34)}
    for keep, wanted, count in ((None, backup | primary, 67), (True, backup, 33), (False, backup | primary, 67)):
        for of in (str, lambda path: os.open(path, os.O_RDWR)):
            where = of(put(path, lost))
            with lib.Disk(where, write=True, keep_primary=keep) as disk:
                found = {it.sector for phase in disk.repair_plan() for it in phase}
                same(f"a lost backup, {keep}", (found, disk.repair(), content(path) == whole), (wanted, count, True))
            if isinstance(where, int):
                os.close(where)


def hints():
    """Every public function has type hints that can be read."""
    for name, it in inspect.getmembers(lib.Disk, inspect.isfunction):
        if not name.startswith("_") or name == "__init__":
            told = typing.get_type_hints(it)
            same(f"hints of {name}", {*told}, {*inspect.signature(it).parameters, "return"} - {"self"})


def in_rust(ptab, archive, folder):
    """The crate in a copy, so that cargo leaves nothing here."""
    if not shutil.which("cargo"):
        return "no cargo here"
    crate, prefix = f"{folder}/crate", f"{folder}/prefix"
    shutil.copytree(f"{ROOT}/bindings/rust", crate, ignore=shutil.ignore_patterns("target", "Cargo.lock"))
    where = {**os.environ, "CARGO_TARGET_DIR": f"{folder}/target", "RUSTFLAGS": "-D warnings", "CARGO_TERM_COLOR": "never"}
    said = must("cargo", "test", "--offline", "--quiet", cwd=crate, env={**where, "PTAB_LIB_DIR": folder})
    same("the tests in Rust", ("9 passed; 0 failed" in said, "4 passed; 0 failed" in said), (True, True))
    must(f"{ROOT}/install.sh", prefix, env={**os.environ, "PTAB": ptab, "LIBRARY": archive, "DESTDIR": ""})
    if not shutil.which("pkg-config"):
        return "Rust too, without pkg-config"
    where["PKG_CONFIG_PATH"] = f"{prefix}/lib/pkgconfig"
    put(f"{folder}/disk.img", SMALL.gpt(4096, {1: entry(2048, 4062, name="root")}))
    example = ("cargo", "run", "--offline", "--quiet", "--manifest-path", f"{crate}/Cargo.toml", "--example")
    same("rename.rs", must(*example, "rename", cwd=folder, env=where), "1 root\ndone\n")
    put(f"{folder}/disk.img", SMALL.gpt(4096, {1: entry(2048, 4062, name="root")})[:-512] + bytes(512))
    same("keep_primary.rs", must(*example, "keep_primary", cwd=folder, env=where), "33 sectors mended\n67 sectors written\n")
    put(f"{folder}/disk.img", bytes(64 << 20))
    same("set.rs", must(*example, "set", cwd=folder, env=where), "67 sectors written\n")
    put(f"{folder}/disk.img", SMALL.gpt(4096, {1: entry(2048, 4062, name="archive")}))
    same("show.rs", must(*example, "show", "--", "disk.img", "512", "t:1:8200", cwd=folder, env=where), "1 2048 4062 8200 archive\n")
    done = subprocess.run([*example, "show", "--", "disk.img", "512", "d:9"], cwd=folder, env=where, capture_output=True, text=True)
    same("a refusal", (done.stdout, done.stderr.splitlines()[-1], done.returncode), ("", "no such partition", 1))
    show = f"{folder}/target/debug/examples/show"
    drawn_images(ptab, show, where, folder)
    failed_write(ptab, show, where, folder)
    return "Rust too"


def shown(ptab, path, size):
    """What the example prints of an image, by the command: of each line the path, place, type and name."""
    done = subprocess.run([ptab, "show", "--sector-size", str(size), path], capture_output=True, text=True)
    lines = [(line.split(" ")[:4], line.split(" ", 6)[6:]) for line in done.stdout.splitlines()[1:]]
    return done.returncode, "".join(f"{' '.join(fields)} {''.join(name)}\n" for fields, name in lines)


def drawn_images(ptab, show, where, folder):
    """The example beside the command on drawn images, which it edits too."""
    rng, path, copy = random.Random(3), f"{folder}/drawn", f"{folder}/copy"
    for _ in range(40):
        sectors, image = HOSTILE["hostile"](rng)
        for words in ([], *rng.sample((["c:1:name"], ["d:1"], ["a:1"], ["a:1", "n:0:0:+8"], ["t:1:82"], ["o", "c:1:x"], ["d:9"]), 3)):
            put(path, image)
            put(copy, image)
            mine = subprocess.run([show, path, str(sectors.size), *words], capture_output=True, text=True, env=where)
            edit = [ptab, "edit", "--sector-size", str(sectors.size), "--fresh", "07" * 2048, copy, *words]
            edited = subprocess.run(edit, capture_output=True).returncode if words else 0
            status, wanted = shown(ptab, copy, sectors.size)
            same(f"{words} on an image of {len(image)} bytes: {mine.stderr}", (mine.returncode == 0, mine.stdout),
                 (edited == 0 and status == 0, wanted if edited == 0 else ""))
            same(f"{words}: the table that is left", shown(ptab, path, sectors.size), (status, wanted))


def failed_write(ptab, show, where, folder):
    """A write of the last sector is refused by the system: the error says so, and the next call mends what was left."""
    path, image = f"{folder}/fails", images.one_partition()
    put(path, image)
    limit = (len(image) - 512, resource.getrlimit(resource.RLIMIT_FSIZE)[1])
    done = subprocess.run([show, path, "512", "c:1:data"], capture_output=True, text=True, env=where, restore_signals=False,
                          preexec_fn=lambda: resource.setrlimit(resource.RLIMIT_FSIZE, limit))
    same("a write that fails", (done.stdout, done.stderr, done.returncode),
         ("", f"sector {len(image) // 512 - 1} can't be written: {os.strerror(errno.EFBIG)}\n", 1))
    same("the old table is left", (shown(ptab, path, 512)[1], must(ptab, "repair", path)), ("1 2048 4062 8300 \n", "done\n"))
    same("an edit after it", must(show, path, "512", "c:1:data", env=where), "1 2048 4062 8300 data\n")
    same("it is healthy", must(ptab, "verify", path), "yes\n")


def main():
    ptab, archive = os.path.abspath(sys.argv[1]), os.path.abspath(sys.argv[2])
    with room() as folder:
        must(f"{ROOT}/bindings/c/build.sh", archive, folder)
        lib.load(f"{folder}/libptab.so.2")
        exceptions(folder)
        ranges(folder)
        places(folder)
        rows(folder)
        primary_copy(folder)
        hints()
        rust = in_rust(ptab, archive, folder)
    print(f"bindings: {compared.count} passed, 0 failed ({rust})")


main()
