"""Loop devices over files, and the partitions that the kernel has of a device."""
import os
import shutil
import time

from compared import content
from tools import must, run


def number_in(path):
    with open(path, encoding="ascii") as it:
        return int(it.read())


def parts_of(device):
    """The kernel's partitions of a device: of each the first sector and how many there are, of 512 bytes."""
    folder = f"/sys/block/{os.path.basename(device)}"
    parts = [it.path for it in os.scandir(folder) if os.path.exists(f"{it.path}/partition")]
    return {number_in(f"{it}/partition"): (number_in(f"{it}/start"), number_in(f"{it}/size")) for it in parts}


class Loop:
    """A loop device over a file, as long as the block lasts."""

    def __init__(self, path, size=512, *more):
        self.image, self.size, self.more = path, size, more

    def __enter__(self):
        self.path = must("losetup", "--find", "--show", "--partscan", "--sector-size", str(self.size), *self.more, self.image).strip()
        self.name = os.path.basename(self.path)
        return self

    def __exit__(self, *_):
        # whoever looks at it for a moment, as udev does, keeps it
        for _ in range(50):
            if run("losetup", "--detach", self.path).returncode == 0:
                break
            time.sleep(0.1)

    def content(self):
        must("blockdev", "--flushbufs", self.path)
        return content(self.image)

    def put(self, image):
        """Gives it that content, of the same length."""
        with open(self.path, "r+b", buffering=0) as it:
            os.pwrite(it.fileno(), image, 0)
            os.fsync(it.fileno())
        must("blockdev", "--flushbufs", self.path)

    def make_partitions(self):
        """Has the kernel take the table's partitions, also a kernel that reads no tables."""
        run("partx", "--add", self.path)
        return [f"{self.path}p{number}" for number in sorted(parts_of(self.path))]


def has_loops(folder):
    """Whether a loop device can be made here, with its partitions."""
    path = f"{folder}/probe"
    if os.geteuid() != 0 or not shutil.which("losetup"):
        return False
    with open(path, "wb") as file:
        file.truncate(1 << 20)
    done = run("losetup", "--find", "--show", "--sector-size", "4096", path)
    return done.returncode == 0 and run("losetup", "--detach", done.stdout.strip()).returncode == 0
