"""Partition tools under their own names: a call that only reads is the real tool's, and one that may write goes through ptab-run."""
import collections
import os
import shutil
import stat
import sys

from . import command_line, namespaces
from .ends import FAILED, REFUSED, USAGE, say
from .words import DISK_LAST, FAILING, moves_data, reads, told

# where tools stand that only root calls
SBIN = "/usr/local/sbin:/usr/sbin:/sbin:/usr/bin:/bin"
# options that the caller may give to ptab-run
OPTIONS = "PTAB_SAFE_OPTIONS"

# What a call is about: the place of the disk among its words, and whether that is a device.
Disk = collections.namedtuple("Disk", "at path is_device")


def disk_of(name, words):
    """The disk that a call is about, none where it names none."""
    found = told(name, words).places
    for at in reversed(found) if name in DISK_LAST else found:
        try:
            mode = os.stat(words[at]).st_mode
        except OSError:
            continue
        if stat.S_ISBLK(mode) or stat.S_ISREG(mode):
            return Disk(at, words[at], stat.S_ISBLK(mode))
    return None


def target_of(name, words):
    """The same of `sgdisk -R OTHER DISK`, which writes OTHER and reads DISK."""
    others = [(flag, value, at) for flag, value, at in told(name, words).flags if flag in ("-R", "--replicate") and value]
    if name != "sgdisk" or not others:
        return None
    path, at = others[-1][1:]
    return Disk(at, path, os.path.exists(path) and stat.S_ISBLK(os.stat(path).st_mode))


def main(folder, programs):
    """The exit status of a call by the name in that folder. A `ptab` stands in the folder of programs."""
    name, words = os.path.basename(sys.argv[0]), sys.argv[1:]
    paths = [it for it in os.environ.get("PATH", os.defpath).split(":") if os.path.realpath(it or ".") != os.path.realpath(folder)]
    others = ":".join([*paths, SBIN])
    tool = shutil.which(name, path=others)
    if not tool:
        say(f"{name}: there is no other program of that name")
        return 127
    if name == "growpart":
        # it has sfdisk or sgdisk write, under its own lock, and means disks in use
        where = {"PATH": f"{folder}:{others}", OPTIONS: f"{os.environ.get(OPTIONS, '')} --in-use"}
        os.execve(tool, [name, *words], {**os.environ, **where})
    os.environ["PATH"] = others
    disk = target_of(name, words) or disk_of(name, words)
    if disk is None or reads(name, words, sys.stdin is not None and sys.stdin.isatty()):
        os.execv(tool, [name, *words])
    return through_ptab_run(name, words, disk, programs)


def through_ptab_run(name, words, disk, programs):
    """The tool's own status, or its failing one where the disk isn't touched."""
    if moves_data(name, words):
        say(f"{disk.path} isn't touched: its copy doesn't hold the data that {name} is to move")
        return FAILING[name]
    given = os.environ.get(OPTIONS, "").split()
    options = ["--quiet", *(it for it in given if it != "--in-use" or disk.is_device), *(["--device"] if disk.is_device else [])]
    if disk.is_device:
        options += ["--in-use"] if is_forced(name, words) else []
    elif sector_size(name, words) == "4096":
        options.append("--sector-size=4096")
    if not namespaces.way_in(disk.is_device)[0]:
        words = [*words[:disk.at], words[disk.at].replace(disk.path, "@"), *words[disk.at + 1:]]
    else:
        options.append("--as-itself")
    status = command_line.main(programs, [*options, "--", disk.path, name, *words])
    return FAILING[name] if status in (USAGE, REFUSED, FAILED) else status


def sector_size(name, words):
    """The size of an image's sectors, where the tool is told one."""
    if name == "parted":
        return os.environ.get("PARTED_SECTOR_SIZE")
    return next((value for flag, value, _ in told(name, words).flags if flag == "--sector-size" or name == "fdisk" and flag == "-b"), None)


def is_forced(name, words):
    """Whether sfdisk was told to go on where the disk is in use."""
    return name == "sfdisk" and any(flag in ("-f", "--force", "--no-reread") for flag, _, _ in told(name, words).flags)
