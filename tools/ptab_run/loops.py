"""Loop devices over copies."""
import errno
import fcntl
import os
import struct
import subprocess

from .ends import FAILED, End, hold_signals, let_signals

# requests of ioctl(2): LOOP_CTL_GET_FREE on the kernel's control of loop devices, and LOOP_CONFIGURE, since Linux 5.8
CONTROL, FREE, CONFIGURE = "/dev/loop-control", 0x4C82, 0x4C0A
# LO_FLAGS_AUTOCLEAR and LO_FLAGS_PARTSCAN
FLAGS = 4 | 8
# a struct loop_config: the file and the size of sectors, and of what follows the flags and the file's name
CONFIG = struct.Struct("=II52xI64s112x64x")


class Loop:
    """A loop device over a copy, with its partitions. It goes with its last user, also where the script is killed."""

    def __init__(self, copy, sector):
        hold_signals()
        try:
            self.path, self.file = by_ioctl(copy, sector) or by_losetup(copy, sector)
        except OSError as error:
            raise End(FAILED, f"there is no loop device for the copy: {error.strerror}") from error
        # a kernel that reads no tables is told
        subprocess.run(["partx", "--update", self.path], capture_output=True)
        let_signals()

    def __enter__(self):
        return self.path

    def __exit__(self, *_):
        os.fsync(self.file)
        os.close(self.file)


def by_ioctl(copy, sector):
    """The path and the open file of a new loop device, none where the kernel can't make it in one step."""
    under = os.open(copy, os.O_RDWR | os.O_CLOEXEC)
    control = os.open(CONTROL, os.O_RDWR | os.O_CLOEXEC)
    try:
        while True:
            path = f"/dev/loop{fcntl.ioctl(control, FREE)}"
            file = os.open(path, os.O_RDWR | os.O_CLOEXEC)
            try:
                fcntl.ioctl(file, CONFIGURE, CONFIG.pack(under, sector, FLAGS, os.fsencode(copy)[:63]))
                return path, file
            except OSError as error:
                os.close(file)
                # another program may have taken it
                if error.errno == errno.EINVAL:
                    return None
                if error.errno != errno.EBUSY:
                    raise
    finally:
        os.close(under)
        os.close(control)


def by_losetup(copy, sector):
    """The same in steps: it is detached at once, and so goes with its last user."""
    words = ["losetup", "--find", "--show", "--partscan", "--sector-size", str(sector), copy]
    made = subprocess.run(words, stdout=subprocess.PIPE)
    if made.returncode:
        raise OSError(errno.ENODEV, os.strerror(errno.ENODEV))
    path = made.stdout.decode().strip()
    file = os.open(path, os.O_RDWR | os.O_CLOEXEC)
    subprocess.run(["losetup", "--detach", path], check=True)
    return path, file
