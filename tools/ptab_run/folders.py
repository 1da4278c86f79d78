"""The folder in which a run's copies stand."""
import contextlib
import errno
import fcntl
import os
import shutil
import tempfile
import time

from .disks import BLOCK
from .ends import FAILED, End, hold_signals, let_signals

# What folders of runs are called, and after how many seconds one is swept that no run has locked.
NAME, STALE = "ptab-run-", 60


def place_for(image, room):
    """The first folder whose file system takes a file of the image's length, and has room for so many bytes."""
    first = os.path.abspath(os.environ.get("TMPDIR") or tempfile.gettempdir())
    if not is_too_long(first, image.bytes) and has_room(first, room):
        return first
    others = ["/dev/shm", ".", *([] if image.device else [os.path.dirname(os.path.realpath(image.path))])]
    found = next((it for it in others if is_too_long(it, image.bytes) is False and has_room(it, room)), None)
    if found is None:
        places = ", ".join([first, *others])
        more = f", and has room for {room} bytes of data, twice --data-limit" if room else ""
        raise End(FAILED, f"{image.path} isn't touched: of {places} none takes a file as long as it, {image.bytes} bytes{more}; TMPDIR may "
                  "name another folder")
    return os.path.abspath(found)


def has_room(folder, room):
    """Whether so many bytes go there. Where that isn't known, the writing tells."""
    try:
        found = os.statvfs(folder)
    except OSError:
        return True
    return found.f_bavail * found.f_frsize >= room


def is_too_long(folder, length):
    """Whether a file of that length is too long there; none where no file can be made."""
    try:
        with tempfile.TemporaryFile(dir=folder) as it:
            os.truncate(it.fileno(), length)
    except OSError as error:
        return True if error.errno == errno.EFBIG else None
    return False


def sweep(place):
    """Removes what runs left there that were killed."""
    with contextlib.suppress(OSError), os.scandir(place) as found:
        for it in found:
            if it.name.startswith(NAME) and is_left(it):
                shutil.rmtree(it.path, ignore_errors=True)


def is_left(folder):
    """Whether a folder is of a run of this user that has ended, since nobody has it locked. A run locks its own right behind its making."""
    with contextlib.suppress(OSError):
        known = folder.stat(follow_symlinks=False)
        if folder.is_dir(follow_symlinks=False) and known.st_uid == os.geteuid() and known.st_mtime < time.time() - STALE:
            file = os.open(folder.path, os.O_RDONLY | os.O_DIRECTORY | os.O_NOFOLLOW | os.O_CLOEXEC)
            try:
                fcntl.flock(file, fcntl.LOCK_EX | fcntl.LOCK_NB)
                return True
            finally:
                os.close(file)
    return False


def in_folder(image, room, work):
    """What the work gives in a folder for the copies, with so much room for data, which goes at the end."""
    place = place_for(image, room)
    sweep(place)
    hold_signals()
    try:
        folder = tempfile.mkdtemp(prefix=NAME, dir=place)
        lock = os.open(folder, os.O_RDONLY | os.O_DIRECTORY | os.O_CLOEXEC)
        fcntl.flock(lock, fcntl.LOCK_EX)
    except OSError as error:
        raise no_room(image.path, place, error.strerror) from error
    try:
        try:
            let_signals()
            return work(folder)
        finally:
            hold_signals()
    finally:
        # once a signal has ended the run no other one can
        shutil.rmtree(folder, ignore_errors=True)


def no_room(path, place, reason):
    return End(FAILED, f"{path} isn't touched: its copy in {place} can't be written: {reason}; TMPDIR may name another folder")


def reason_in(folder):
    """Why nothing more can be written there, if so."""
    try:
        with open(f"{folder}/more", "wb") as it:
            it.write(b"\1" * BLOCK)
    except OSError as error:
        return error.strerror
    return None
