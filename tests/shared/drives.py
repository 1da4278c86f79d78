"""Images on a drive that fails at will (failing_drive.c): a device over it, and a file in a file system over that. What the drive has, and
what its medium has, are read behind the kernel's back, so none of its caches has a part in it."""
import fcntl
import os
import struct
import subprocess
import sys
import time

from compared import content
from loops import Loop
from tools import must, run

HERE = os.path.dirname(os.path.abspath(__file__))
SIZE = 512
# of ext4's, and the request of ioctl(2) that tells where a file's block stands on the device
BLOCK, FIND_BLOCK = 4096, 1
FILE_SYSTEM_BYTES = 16 << 20
# how long a process may take to come and to go, where all processors are busy
SECONDS = 300
WHAT_IS_WANTED = "root, loop devices, FUSE, and libfuse3's headers"


def made(folder):
    """The program of the drive, or none where there can be no such drive here."""
    program = f"{folder}/failing_drive"
    if os.geteuid() != 0 or not os.path.exists("/dev/fuse") or not os.path.exists("/usr/include/fuse3/fuse.h"):
        return None
    must("cc", "-std=c11", "-D_GNU_SOURCE", "-O2", "-Wall", "-Wextra", "-Werror", "-I/usr/include/fuse3", f"{HERE}/failing_drive.c",
         "-lfuse3", "-o", program)
    drive = Drive(program, f"{folder}/probe", SIZE)
    is_there = drive.starts()
    drive.__exit__()
    return program if is_there else None


def unmount(place):
    """Also where a test that failed left a file open."""
    if run("umount", place).returncode:
        must("umount", "--lazy", place)


class Drive:
    """The drive, as long as the block lasts."""

    def __init__(self, program, folder, length):
        self.program, self.medium, self.folder = program, f"{folder}/medium", f"{folder}/drive"
        os.makedirs(self.folder, exist_ok=True)
        with open(self.medium, "wb") as it:
            it.truncate(length)
        self.path, self.control = f"{self.folder}/disk", f"{self.folder}/control"

    def starts(self):
        """Whether it is there, which it isn't where nothing may be mounted."""
        self.process = subprocess.Popen([self.program, self.medium, self.folder, "-f", "-s"], stderr=subprocess.DEVNULL)
        last = time.monotonic() + SECONDS
        while not os.path.exists(self.path) and self.process.poll() is None and time.monotonic() < last:
            time.sleep(0.01)
        return os.path.exists(self.path)

    def __enter__(self):
        if not self.starts():
            sys.exit("the failing drive doesn't start")
        return self

    def __exit__(self, *_):
        if os.path.ismount(self.folder):
            unmount(self.folder)
        self.process.wait(SECONDS)

    def tell(self, line):
        with open(self.control, "w", encoding="ascii") as it:
            it.write(line)

    def counts(self):
        """How many calls failed, are still to fail, sectors were written, and flushes had something to bring to the medium."""
        return [int(it) for it in content(self.control).split()]


class Device:
    """An image on a device over the drive. The test holds it open, as a partition's user would, so that the kernel keeps its cache."""

    name, options, size = "a device", ["--device"], "device"

    def __init__(self, program, folder, length):
        os.makedirs(folder)
        self.drive, self.length = Drive(program, folder, length), length

    def __enter__(self):
        self.drive.__enter__()
        self.loop = Loop(self.drive.path, SIZE).__enter__()
        self.path = self.loop.path
        self.held = os.open(self.path, os.O_RDONLY)
        return self

    def __exit__(self, *_):
        os.close(self.held)
        self.loop.__exit__()
        self.drive.__exit__()

    def put(self, image):
        """Gives it that content, on the medium too, and nothing fails."""
        self.drive.tell("heal")
        self.loop.put(image)
        self.drop_cache()

    def drop_cache(self):
        must("blockdev", "--flushbufs", self.path)

    def sector(self, lba):
        """Which sector of the drive that sector of the image is."""
        return lba

    def on_drive(self):
        return content(self.drive.path)

    def on_medium(self):
        return content(self.drive.medium)

    def is_shut(self):
        """Whether nothing can be written any more, after a failure."""
        return False


class File:
    """An image in a file system over the drive, with a journal or without."""

    options, size = [], str(SIZE)

    def __init__(self, program, folder, length, journal):
        os.makedirs(f"{folder}/place")
        self.drive, self.length, self.journal = Drive(program, folder, FILE_SYSTEM_BYTES), length, journal
        self.place, self.path = f"{folder}/place", f"{folder}/place/image"
        self.name = f"a file on ext4 {'with' if journal else 'without'} a journal"

    def __enter__(self):
        self.drive.__enter__()
        self.loop = Loop(self.drive.path, SIZE).__enter__()
        must("mke2fs", "-q", "-F", "-t", "ext4", "-b", str(BLOCK), "-E", "lazy_itable_init=0,lazy_journal_init=0",
             "-O", "has_journal" if self.journal else "^has_journal", self.loop.path)
        self.mount()
        return self

    def mount(self):
        must("mount", "-o", "noatime", self.loop.path, self.place)

    def __exit__(self, *_):
        unmount(self.place)
        self.loop.__exit__()
        self.drive.__exit__()

    def put(self, image):
        self.drive.tell("heal")
        with open(self.path, "r+b" if os.path.exists(self.path) else "w+b", buffering=0) as it:
            it.write(image)
            os.fsync(it.fileno())
            blocks = [fcntl.ioctl(it, FIND_BLOCK, struct.pack("i", k)) for k in range(-(-self.length // BLOCK))]
            self.blocks = [struct.unpack("i", block)[0] for block in blocks]
        self.drop_cache()

    def drop_cache(self):
        with open(self.path, "rb") as it:
            os.fsync(it.fileno())
            os.posix_fadvise(it.fileno(), 0, 0, os.POSIX_FADV_DONTNEED)

    def sector(self, lba):
        return self.blocks[lba * SIZE // BLOCK] * BLOCK // SIZE + lba % (BLOCK // SIZE)

    def blocks_of(self, path):
        with open(path, "rb", buffering=0) as it:
            return b"".join(os.pread(it.fileno(), BLOCK, block * BLOCK) for block in self.blocks)[:self.length]

    def on_drive(self):
        return self.blocks_of(self.drive.path)

    def on_medium(self):
        return self.blocks_of(self.drive.medium)

    def is_shut(self):
        """So is a file system whose journal couldn't be written, until it is mounted again."""
        try:
            # the first such call finds it out, and the next is told
            for _ in range(2 if os.path.exists(self.path) else 0):
                os.utime(self.path)
        except OSError:
            return True
        return False

    def open_again(self):
        must("umount", self.place)
        # in another mount namespace it may still be there, with its errors; so it would be if it were mounted again
        last = time.monotonic() + SECONDS
        while os.path.exists(f"/sys/fs/ext4/{os.path.basename(self.loop.path)}") and time.monotonic() < last:
            time.sleep(0.01)
        self.mount()


def places(program, folder, length):
    return [Device(program, f"{folder}/device", length), File(program, f"{folder}/journal", length, True),
            File(program, f"{folder}/none", length, False)]
