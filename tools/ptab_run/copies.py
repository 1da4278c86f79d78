"""Sparse copies of an image, and what they differ in."""
import errno
import os

from .disks import BLOCK, PIECE
from .tables import is_zero, places


def put(file, at, content):
    """Writes what isn't zeros into a new file."""
    low, end = at, at + len(content)
    while low < end:
        high = min(low - low % PIECE + PIECE, end)
        piece = content[low - at:high - at]
        low += (high - low) if is_zero(piece) else os.pwrite(file, piece, low)


def copy_of(disk, new, ends):
    """Makes an empty file a sparse one of the disk's length, with its tables, and with that many sectors of both ends where they can be
    read."""
    os.ftruncate(new, disk.bytes)
    for first, count, lenient in [*((*it, False) for it in places(disk)), (0, ends, True), (disk.count - ends, ends, True)]:
        for lba, piece in disk.pieces(first, count, lenient):
            put(new, lba * disk.sector, piece)


def keep(path, kept):
    """Copies a file as it is now, so that whoever still has it open changes nothing more."""
    with open(path, "rb") as it, open(kept, "wb") as new:
        new.truncate(os.path.getsize(path))
        for at in blocks([it.fileno()]):
            put(new.fileno(), at, os.pread(it.fileno(), BLOCK, at))


def held(file):
    """The ranges of bytes in which a file has data, each as its beginning and its end."""
    end = 0
    while True:
        try:
            at = os.lseek(file, end, os.SEEK_DATA)
        except OSError as error:
            if error.errno != errno.ENXIO:
                raise
            return
        end = os.lseek(file, at, os.SEEK_HOLE)
        yield at, end


def blocks(files):
    """The places of the blocks in which one of the files has data."""
    found = set()
    for file in files:
        for at, end in held(file):
            found.update(range(at // BLOCK, -(-end // BLOCK)))
    return [it * BLOCK for it in sorted(found)]


def differences(paths, sector):
    """Each sector in which the files differ, with what each of them has there."""
    files = [os.open(path, os.O_RDONLY) for path in paths]
    try:
        for at in blocks(files):
            found = [os.pread(it, BLOCK, at) for it in files]
            for k in range(0, len(found[0]) if found.count(found[0]) != len(found) else 0, sector):
                cut = [it[k:k + sector] for it in found]
                if cut.count(cut[0]) != len(cut):
                    yield (at + k) // sector, cut
    finally:
        for it in files:
            os.close(it)


def is_same(one, two, sector):
    return next(differences((one, two), sector), None) is None
