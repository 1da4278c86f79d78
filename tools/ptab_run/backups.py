"""Backups of tables: `--save`."""
import os
import stat

from .copies import copy_of
from .disks import unreadable
from .ends import FAILED, REFUSED, End, hold_signals, let_signals
from .programs import ptab


def save(copy, image):
    """Writes the backup, with the image's mode. A copy that is there stays as it is, and one that isn't whole goes again."""
    status, _, said = shown = image.ptab("show")
    if status == 4:
        raise End(REFUSED, f"{image.path}: {said}")
    hold_signals()
    new = os.open(copy, os.O_RDWR | os.O_CREAT | os.O_EXCL | os.O_CLOEXEC, 0o600)
    try:
        try:
            let_signals()
            copy_of(image, new, 1 + image.room)
            has = ptab("show", image.sector, f"/proc/self/fd/{new}", files=(new,))
            # where sectors beside the table can't be read, only the copy can be shown
            beside = unreadable(image) if status == 5 else ""
            if (status and not beside) or has != ((0, has[1], "") if status else shown):
                raise End(FAILED, f"{image.path}: {said}{beside}" if status else f"{copy} doesn't show the table of {image.path}")
            os.fchmod(new, stat.S_IMODE(os.fstat(image.file).st_mode))
            os.fsync(new)
        finally:
            hold_signals()
    except BaseException as error:
        os.unlink(copy)
        if isinstance(error, OSError):
            raise End(FAILED, f"{copy}: {error.strerror}") from error
        raise
    return 0
