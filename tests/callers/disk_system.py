"""What the calls on open disks ask of the system (disk_library.py), as strace takes it down and as it comes out:

- each call syncs the image by fsync and drops what is cached of it, before it reads; each phase ends with an fsync; nothing else syncs;
- what is read goes past the page cache, by whole sectors and none beside them; where the system refuses that, through the cache;
- a file of which the medium has something else than the cache is read as the medium has it;
- a descriptor that was taken with O_DIRECT works, and has its flags afterwards;
- a forked process ends no lock, and may do nothing but close;
- on a device with sectors of 512 bytes what stands beside a written sector stays, also where it is written meanwhile.
"""
import fcntl
import os
import re
import shutil
import struct
import subprocess
import sys
import tempfile

import images
import ptab as lib
from compared import content, put, same
from doubles import phases_of
from images import LARGE, SMALL

HERE = os.path.dirname(os.path.abspath(__file__))
ROOT = os.path.dirname(os.path.dirname(HERE))
CALLS = "trace=fsync,fdatasync,sync_file_range,fadvise64,ioctl,pread64,pwrite64,fcntl"
CALL = re.compile(r"^(?:\d+ +)?(\w+)\((.*)\) += (-?\w+)")
FIBMAP = 1
LOG = tempfile.TemporaryDirectory()
# what the system refuses, and what is asked of it then
REFUSALS = (("no O_DIRECT", "fcntl:error=EINVAL:when=2+", "sdcc"), ("no units of 512", "pread64:error=EINVAL:when=1", "sdrrr"),
            ("no units at all", "pread64:error=EINVAL:when=1..2", "sdrrcc"),
            ("another refusal", "pread64:error=EOPNOTSUPP:when=1..2", "sdrrcc"))
# by Python's module, in another process: of the disk and another one, both open
PYTHON = """
import sys
import ptab as lib
library, path, other_path, size, device, code = sys.argv[1:]
lib.load(library)
how = {"sector_size": int(size), "device": device == "device"}
with lib.Disk(path, write=True, **how) as disk, lib.Disk(other_path, sector_size=int(size)) as other:
    exec(code)
"""


def of_python(folder, path, other, size, code, device="file"):
    return [sys.executable, "-c", PYTHON, f"{folder}/libptab.so.2", path, other, str(size), device, code]


def traced(command, path, *options):
    """The calls on the path: (name, arguments, answer)."""
    log = f"{LOG.name}/calls"
    env = {**os.environ, "PYTHONPATH": f"{ROOT}/bindings/python", "PYTHONDONTWRITEBYTECODE": "1"}
    done = subprocess.run(["strace", "-f", "-P", path, "-e", CALLS, "-s", "0", "-o", log, *options, *command],
                          capture_output=True, text=True, env=env)
    with open(log, encoding="ascii") as it:
        return done, [found.groups() for found in map(CALL.search, it) if found]


def has_direct(path):
    """Whether the system has reads past the cache there."""
    try:
        os.close(os.open(path, os.O_RDONLY | os.O_DIRECT))
    except OSError:
        return False
    return True


class Seen:
    """What was asked of the system, letter by letter: `s` fsync, `d` what is cached is dropped, `r` a read past the cache, `c` one through
    it, `w` a write; and the places of reads."""

    def __init__(self, calls, size):
        self.letters, self.places, direct = "", [], False
        for name, words, answer in calls:
            if name == "fcntl" and "F_SETFL" in words and answer == "0":
                direct = "O_DIRECT" in words
            elif name == "fsync":
                self.letters += "s"
            elif name == "fadvise64" and "POSIX_FADV_DONTNEED" in words or name == "ioctl" and "BLKFLSBUF" in words:
                self.letters += "d"
            elif name == "pread64":
                self.letters += "r" if direct else "c"
                count, at = (int(it) for it in words.rsplit(", ", 2)[1:])
                same("a read is of whole sectors", (count % size, at % size), (0, 0))
                self.places.append((at // size, count // size))
            elif name == "pwrite64":
                same("a write is of a sector, through the cache", (int(words.rsplit(", ", 2)[1]), direct), (size, False))
                self.letters += "w"
            elif name in ("fdatasync", "sync_file_range"):
                sys.exit(f"disk library: {name}")

    def is_like(self, pattern, path):
        """Whether it is as the pattern has it; reads go through the cache where the system has no other."""
        return bool(re.fullmatch(pattern if has_direct(path) else pattern.replace("r", "c"), self.letters))


def ends(sectors, size):
    """The sectors of both ends, as docs/c.md has them."""
    head, tail = (34, 33) if size == 512 else (6, 5)
    return [(0, head), (sectors - tail, tail)]


# ---- what each call does


def jobs(ptab, example, folder, path, other, sectors, device="file"):
    """(name, a command, a plan's phases): a call that writes has one sync more than its plan has phases."""
    size, place = sectors.size, "device" if device == "device" else str(sectors.size)
    planned = subprocess.run([ptab, "plan", "--sector-size", str(size), other, "c:1:renamed"], capture_output=True, text=True)
    phases = len(phases_of(planned.stdout))
    same("a plan has phases", phases, 4)
    for words in (["show"], ["verify"], ["locate", "1", "0"]):
        yield words[0], [example, path, place, *words], None
    yield "edit", [example, path, place, "edit", "c:1:renamed"], phases
    yield "repair of nothing", [example, path, place, "repair"], 0
    yield "adopt", [example, path, place, "adopt", other], phases
    for code in ("disk.plan('c:1:x')", "disk.repair_plan()", "disk.adopt_plan(other)"):
        yield code, of_python(folder, path, other, size, code, device), None
    made = "plan = disk.plan('c:1:y')"
    yield "check", of_python(folder, path, other, size, f"{made}; assert disk.check(plan)", device), (None, None)
    yield "apply", of_python(folder, path, other, size, f"{made}; assert disk.apply(plan) == sum(map(len, plan))", device), (None, phases)


def each_call(ptab, example, folder):
    for sectors, image in ((SMALL, images.one_partition()), (LARGE, LARGE.gpt(64, {1: images.entry(6, 40)}))):
        path, other = put(f"{folder}/asked", image), put(f"{folder}/asked.other", image)
        both = ends(sectors.count(image), sectors.size)
        for name, command, phases in jobs(ptab, example, folder, path, other, sectors):
            done, calls = traced(command, path)
            same(f"{name}: {done.stderr}", done.returncode, 0)
            begin_well(name, path, Seen(calls, sectors.size), phases, both, ("sd", "sd"))


def begin_well(name, path, seen, phases, both, begin):
    """Each call begins with a sync, then drops what is cached (`begin`, of calls that read and that write), then reads both ends past the
    cache and nothing else."""
    each = phases if isinstance(phases, tuple) else (phases,)
    pattern = "".join(begin[it is not None] + "rr" + (f"(w+s){{{it}}}" if it else "") for it in each)
    same(f"{name}: {seen.letters}", seen.is_like(pattern, path), True)
    same(f"{name}: what is read", seen.places, both * len(each))


def in_one_opening(folder):
    """Every call of a disk that stays open, the other one's too."""
    image = images.one_partition()
    path, other = put(f"{folder}/asked", image), put(f"{folder}/asked.other", image)
    code = "disk.verify(); disk.edit('c:1:a'); disk.table(); disk.adopt(other); disk.locate(1, 0); other.verify()"
    done, calls = traced(of_python(folder, path, other, 512, code), path)
    wanted = "sdrr" + "sdrr(w+s){4}" + "sdrr" + "sdrr(w+s){4}" + "sdrr"
    same(f"one opening: {done.stderr}", Seen(calls, 512).is_like(wanted, path), True)
    done, calls = traced(of_python(folder, path, other, 512, code), other)
    same(f"of the other disk: {done.stderr}", Seen(calls, 512).is_like("sdrrsdrr", path), True)


def refused(example, folder):
    """Where the system has no reads past the cache, or none of such units, the answers are those that it has else."""
    image = images.one_partition()
    path = put(f"{folder}/refused", image)
    shown = subprocess.run([example, path, "512", "show"], capture_output=True, text=True).stdout
    for name, inject, wanted in REFUSALS if has_direct(path) else ():
        done, calls = traced([example, path, "512", "show"], path, "-e", f"inject={inject}")
        found = "".join({"pread64": "r", "fsync": "s", "fadvise64": "d"}.get(call, "") for call, _, _ in calls)
        same(f"{name}: {done.stderr}", (done.stdout, done.returncode, found), (shown, 0, wanted.replace("c", "r")))
        last = [call for call in calls if call[0] == "pread64"][-1]
        is_page = int(last[1].rsplit(", ", 2)[1]) % 4096 == 0
        same(f"{name}: whole pages", is_page, wanted == "sdrrr")
    done, calls = traced([example, path, "512", "edit", "c:1:x"], path, "-e", "inject=fsync:error=EIO:when=2")
    same("a sync that fails", (done.stdout, done.stderr, done.returncode), ("", "device\n", 5))
    same("what is cached then is dropped", Seen(calls, 512).is_like("sdrrw+sd", path), True)


# ---- the cache and the medium


class Filesystem:
    """An ext4 over a loop device with sectors of that size, over a file. None where there are no loop devices."""

    def __init__(self, folder, size):
        self.below, self.top, self.size, self.device = f"{folder}/below", f"{folder}/top", size, None

    def __enter__(self):
        os.makedirs(self.top, exist_ok=True)
        put(self.below, bytes(64 << 20))
        if os.getuid() != 0 or not all(map(shutil.which, ("losetup", "mkfs.ext4", "mount"))):
            return None
        if subprocess.run(["mkfs.ext4", "-q", "-F", "-b", "4096", self.below], capture_output=True).returncode != 0:
            return None
        words = ["losetup", "--show", "-b", str(self.size), "-f", self.below]
        self.device = subprocess.run(words, capture_output=True, text=True).stdout.strip()
        if self.device and subprocess.run(["mount", self.device, self.top], capture_output=True).returncode == 0:
            return self
        self.__exit__()
        return None

    def __exit__(self, *_):
        subprocess.run(["umount", self.top], capture_output=True)
        if self.device:
            subprocess.run(["losetup", "-d", self.device], check=False)
        self.device = None

    def put_below(self, path, sector, data):
        """Changes a sector of a file on the medium, and not in the cache."""
        with open(path, "rb") as it:
            block = struct.unpack("I", fcntl.ioctl(it.fileno(), FIBMAP, struct.pack("I", sector // 8)))[0]
        with open(self.below, "r+b") as it:
            os.pwrite(it.fileno(), data, block * 4096 + sector % 8 * 512)
            os.fsync(it.fileno())


def on_the_medium(example, folder, size):
    """A healthy table in the cache of which the medium lacks the primary header, as after a write that failed. True if it was tried."""
    lost = "no 2 primary copy 1\n"
    with Filesystem(folder, size) as it:
        if it is None:
            return False
        path = f"{it.top}/image"
        done, calls = traced([example, put(path, images.one_partition()), "512", "verify"], path)
        same(f"a file over sectors of {size} bytes: {done.stderr}", done.stdout, "yes\n")
        lengths = [int(words.rsplit(", ", 2)[1]) for call, words, answer in calls if call == "pread64" and answer != "-1"]
        same("what is read of it", lengths, [34 * 512, 33 * 512] if size == 512 else [5 * 4096, 5 * 4096])
        for name, options in (("past the cache", []), ("through the cache", ["-e", "inject=fcntl:error=EINVAL:when=2+"])):
            for how in ("verify", "edit"):
                put(path, images.one_partition())
                os.sync()
                cached = content(path)
                it.put_below(path, 1, bytes(512))
                same("the cache has what the medium hasn't", content(path) == cached, True)
                words = [example, path, "512", how] + ["c:1:x"] * (how == "edit")
                done, _ = traced(words, path, *options)
                found = (done.stdout, done.returncode)
                same(f"{name}: {how}: {done.stderr}", found, (lost, 1) if how == "verify" else ("done\n", 0))
            same(f"{name}: the edit mended it", subprocess.run([example, path, "512", "verify"], capture_output=True).returncode, 0)
            it.put_below(path, 0, bytes(512))
            with lib.Disk(path, write=True) as disk:
                same("an open disk", str(disk.verify()), "sector 0 isn't a protective MBR")
    return True


# ---- descriptors, and who has them


def direct_descriptors(ptab, folder):
    path = put(f"{folder}/direct", images.one_partition())
    for more in (os.O_DIRECT, 0, os.O_NOATIME) if has_direct(path) else (0,):
        fd = os.open(path, os.O_RDWR | more)
        before = fcntl.fcntl(fd, fcntl.F_GETFL)
        with lib.Disk(fd, write=True) as disk:
            same("an edit by a descriptor", (disk.edit(f"c:1:n{more}"), bool(disk.verify())), (67, True))
            same("what it reads", disk.table().partitions[0].name, f"n{more}")
            same("its flags between calls", fcntl.fcntl(fd, fcntl.F_GETFL), before)
        same("its flags", fcntl.fcntl(fd, fcntl.F_GETFL), before)
        os.close(fd)
    same("the command agrees", subprocess.run([ptab, "verify", path], capture_output=True, text=True).stdout, "yes\n")


def in_child(call):
    """What a call tells, in a forked process."""
    out, into = os.pipe()
    child = os.fork()
    if child == 0:
        try:
            told = str(call())
        except Exception as error:
            told = f"{type(error).__name__}: {error}"
        os.write(into, told.encode())
        os._exit(0)
    os.close(into)
    with open(out, encoding="utf-8") as it:
        told = it.read()
    os.waitpid(child, 0)
    return told


def forks(ptab, folder):
    """A forked process closes the disk, and a third one is refused still. It has no other calls."""
    path = put(f"{folder}/forks", images.one_partition())

    def edited():
        done = subprocess.run([ptab, "edit", path, "c:1:third"], capture_output=True, text=True)
        return done.stdout, done.stderr, done.returncode
    fd = os.open(path, os.O_RDWR)
    for where in (path, fd):
        disk = lib.Disk(where, write=True)
        same("a child closes", in_child(disk.close), "None")
        same("the lock stays", edited(), ("", "refused: locked\n", 3))
        before = content(path)
        for call in (disk.verify, disk.table, disk.size, disk.repair, lambda: disk.edit("c:1:child"), lambda: disk.adopt(disk)):
            about = "the other disk: " if call.__name__ == "<lambda>" and call.__code__.co_names[-1] == "adopt" else ""
            same("a child's call", in_child(call), f"BadArgument: {about}the disk was opened by another process")
        same("it has written nothing", content(path) == before, True)
        same("who opened it goes on", disk.edit("c:1:mine"), 67)
        disk.close()
        same("its end is the lock's", edited()[0], "done\n")
    os.close(fd)


# ---- devices


def beside_a_sector(example, folder, device, below):
    """Sector 34 of a device changes on the medium between the writes of a phase and their sync, as a partition's own node may have it
    changed. It lies in one page with sector 33, the last of the primary array."""
    loaded = f"{folder}/neighbour.so"
    subprocess.run(["gcc", "-shared", "-fPIC", "-O1", "-Wall", "-Wextra", "-Werror", "-o", loaded, f"{HERE}/disk_neighbour.c"], check=True)
    env = {"LD_PRELOAD": loaded, "NEIGHBOUR": below, "NEIGHBOUR_AT": str(34 * 512), "NEIGHBOUR_OF": device}
    done = subprocess.run([example, device, "device", "edit", "c:1:beside"], capture_output=True, text=True, env=env)
    same("an edit beside another's writes", (done.stdout, done.stderr, done.returncode), ("done\n", "", 0))
    with open(below, "rb") as it:
        same("what the other wrote stays", os.pread(it.fileno(), 512, 34 * 512), b"N" * 512)


def block_size(device):
    return int(subprocess.run(["blockdev", "--getbsz", device], capture_output=True, text=True, check=True).stdout)


def on_device(ptab, example, folder, device, below, sectors):
    """A loop device with a GPT of one partition on it, over that file."""
    image = content(below)
    both, other = ends(sectors.count(image), sectors.size), put(f"{folder}/asked.other", image)
    for name, command, phases in jobs(ptab, example, folder, device, other, sectors, "device"):
        done, calls = traced(command, device)
        same(f"{name} on a device: {done.stderr}", done.returncode, 0)
        begin_well(f"{name} on a device", device, Seen(calls, sectors.size), phases, both, ("d", "sd"))
    with open(device, "rb") as kept:
        before = block_size(device)
        with lib.Disk(device, device=True, write=True) as disk:
            disk.edit("c:1:z")
            same("blocks of a sector while it is written", block_size(device), sectors.size)
            same("a child that closes leaves it", (in_child(disk.close), block_size(device)), ("None", sectors.size))
        same("and as before when it is closed", (block_size(device), kept.fileno() >= 0), (before, True))
        claimed = os.open(device, os.O_RDONLY | os.O_EXCL)
        for more in (0, os.O_DIRECT):
            fd = os.open(device, os.O_RDWR | more)
            with lib.Disk(fd, device=True, write=True) as disk:
                same("a device that another has claimed", (disk.edit(f"c:1:v{more}") > 0, str(disk.verify())), (True, "yes"))
                same("its blocks are left to that one", (block_size(device), fcntl.fcntl(fd, fcntl.F_GETFL) & os.O_DIRECT), (before, more))
            os.close(fd)
        os.close(claimed)
    if sectors.size == 512:
        beside_a_sector(example, folder, device, below)


def tried(ptab, example, folder):
    """All that needs no device. True if the medium's part was tried too."""
    each_call(ptab, example, folder)
    in_one_opening(folder)
    refused(example, folder)
    direct_descriptors(ptab, folder)
    forks(ptab, folder)
    return all([on_the_medium(example, folder, size) for size in (512, 4096)])
