"""The kernel is told of a device's partitions, of those alone that have changed."""
import contextlib
import fcntl
import os
import shutil
import subprocess

from .disks import READ_TABLE
from .ends import say


def sysfs(number):
    """The kernel's folder of a device."""
    return f"/sys/dev/block/{os.major(number)}:{os.minor(number)}"


def node_of(folder):
    """The node of a device, by the kernel's own name of it; none where something else has that name."""
    node = "/dev/" + os.path.basename(os.path.realpath(folder)).replace("!", "/")
    with contextlib.suppress(OSError), open(f"{folder}/dev", encoding="ascii") as it:
        if sysfs(os.stat(node).st_rdev).endswith(f"/{it.read().strip()}"):
            return node
    return None


def parts_of(folder):
    """The folders of a device's partitions, by number."""
    return {number_in(it.path, "partition"): it.path for it in os.scandir(folder) if os.path.exists(f"{it.path}/partition")}


def number_in(folder, name):
    with open(f"{folder}/{name}", encoding="ascii") as it:
        return int(it.read())


def kernels(folder):
    """The partitions that the kernel has of a device: of each the first sector and how many there are, of 512 bytes."""
    return {number: (number_in(it, "start"), number_in(it, "size")) for number, it in parts_of(folder).items()}


def tables(node, image):
    """Those that its table has, as `partx` tells the kernel of them."""
    words = ["partx", "--show", "--noheadings", "--output", "NR,START,SECTORS", node]
    lines = subprocess.run(words, capture_output=True, text=True, pass_fds=(image.file,)).stdout.splitlines()
    return {number: (start, count) for number, start, count in (map(int, line.split()) for line in lines)}


def is_as(had, wanted):
    """Whether the kernel has a partition as it is wanted. Of an extended one it has two sectors at most."""
    return had == wanted or bool(had and wanted and had[0] == wanted[0] and had[1] <= 2)


def take_partitions(image, node, folder, has_some):
    """The kernel takes what has changed: whether it has the table's partitions then. One that is in use stays, with its new length."""
    def partx(how, number):
        words = ["partx", how, "--nr", str(number), node]
        return subprocess.run(words, capture_output=True, pass_fds=(image.file,)).returncode == 0

    had, wanted = kernels(folder), tables(node, image) if has_some else {}
    changed = [it for it in sorted(had.keys() | wanted.keys()) if not is_as(had.get(it), wanted.get(it))]
    stay = [it for it in changed if it in had and not partx("--delete", it)]
    for it in changed:
        if it in wanted:
            partx("--update" if it in stay else "--add", it)
    now = kernels(folder)
    return now.keys() == wanted.keys() and all(is_as(now[it], wanted[it]) for it in now)


def tell_kernel(image, has_some):
    """The kernel is told of the partitions that the table has now."""
    folder = sysfs(os.fstat(image.file).st_rdev)
    if os.path.exists(f"{folder}/partition"):
        # the table within a partition isn't the kernel's affair
        return
    try:
        if shutil.which("partx"):
            # partx finds partitions by their disk's own name
            is_told = take_partitions(image, node_of(folder) or image.link, folder, has_some)
        else:
            is_told = fcntl.ioctl(image.file, READ_TABLE) == 0
    except (OSError, ValueError):
        is_told = False
    if not is_told:
        say(f"the kernel may go on with the old table: partx -u {image.path} tells it, or the next boot")
