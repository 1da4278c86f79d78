"""The image's lock, also where a caller of this run holds it already."""
import contextlib
import fcntl
import os
import re

from .ends import REFUSED, End


def take_lock(file, path, writes):
    """Locks the open image, as udev and `sfdisk --lock` do. A lock that a caller holds is his, and stays so."""
    try:
        fcntl.flock(file, (fcntl.LOCK_EX if writes else fcntl.LOCK_SH) | fcntl.LOCK_NB)
    except BlockingIOError as error:
        if not is_callers(file):
            raise End(REFUSED, f"{path} isn't touched: another process has locked it") from error


def is_callers(file):
    """Whether this process has inherited the lock that nobody else may hold beside it, as by `flock DEV ptab-run ..`, or one of those that
    called it holds it, as `udevadm lock` does."""
    image = os.fstat(file)
    return any(holds(process, image) for process in callers())


def callers():
    """This process, the one that started it, and so on."""
    found, process = [], os.getpid()
    with contextlib.suppress(OSError):
        while process > 0 and process not in found:
            found.append(process)
            with open(f"/proc/{process}/stat", "rb") as it:
                # behind the name, in which anything may stand
                process = int(it.read().rpartition(b")")[2].split()[1])
    return found


def holds(process, image):
    """Whether a process has this file open by a descriptor whose lock is for writing."""
    folder = f"/proc/{process}"
    try:
        numbers = os.listdir(f"{folder}/fd")
    except OSError:
        return False
    return any(is_locked(folder, it, image) for it in numbers)


def is_locked(folder, number, image):
    with contextlib.suppress(OSError):
        found = os.stat(f"{folder}/fd/{number}")
        if (found.st_dev, found.st_ino) == (image.st_dev, image.st_ino):
            with open(f"{folder}/fdinfo/{number}", encoding="ascii", errors="replace") as it:
                return bool(re.search(r"^lock:\s+\d+: FLOCK\s+\w+\s+WRITE\s", it.read(), re.MULTILINE))
    return False
