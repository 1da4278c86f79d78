"""The image: opened, locked, and read by sectors."""
import contextlib
import errno
import fcntl
import mmap
import os
import stat
import struct
import sys

from .ends import FAILED, REFUSED, UNTOUCHED, USAGE, End
from .locks import take_lock
from .programs import ptab
from .tables import ARRAY, places, ranges, sectors_of

# The pieces in which a copy is written, so that zeros stay holes, and those in which files are read.
PIECE, BLOCK = 4096, 1 << 16
# So many sectors that can't be read are looked for outside of tables.
MOST_BAD = 64
# requests of ioctl(2) on block devices: BLKSSZGET, BLKPBSZGET, BLKRRPART, BLKFLSBUF; BLKBSZGET and BLKBSZSET
SECTOR_SIZE, DRIVE_SIZE, READ_TABLE, DROP_CACHE = 0x1268, 0x127B, 0x125F, 0x1261
PAGE_SIZE, SET_PAGE_SIZE = (way << 30 | struct.calcsize("N") << 16 | 0x1200 | number for way, number in ((2, 112), (1, 113)))


class Disk:
    """An open image or a copy of one, read by sectors. What lies past its end reads as zeros."""

    def __init__(self, file, sector, path=None):
        self.file, self.sector, self.path = file, sector, path
        self.bytes = os.lseek(file, 0, os.SEEK_END)
        self.count = self.bytes // sector
        # how many sectors a copy of a GPT takes: the header's and the array's
        self.room = 1 + ARRAY // sector
        # sectors that can't be read, where no table stands
        self.bad = set()

    def fetch(self, count, at):
        return os.pread(self.file, count, at)

    def pieces(self, first, count, lenient=False):
        """The sectors from there on, as far as the disk goes, in pieces, each behind its first sector. One that can't be read ends the run,
        or is left out."""
        stop_at, step = min(first + count, self.count), BLOCK // self.sector
        for lba in range(max(0, first), stop_at, step):
            yield from self.piece(lba, min(step, stop_at - lba), lenient)

    def piece(self, lba, count, lenient):
        if lenient and len(self.bad) > MOST_BAD:
            return
        try:
            found, reason = self.fetch(count * self.sector, lba * self.sector), "it ends there"
        except OSError as error:
            found, reason = b"", error.strerror
        whole = len(found) // self.sector
        cut_at = whole or count // 2
        if whole:
            yield lba, found[:whole * self.sector]
        elif cut_at:
            yield from self.piece(lba, cut_at, lenient)
        elif lenient:
            self.bad.add(lba)
        else:
            raise End(FAILED, f"{self.path}: sector {lba} can't be read: {reason}")
        if 0 < cut_at < count:
            yield from self.piece(lba + cut_at, count - cut_at, lenient)

    def read(self, lba, count=1, lenient=False):
        found = bytearray(count * self.sector)
        for at, piece in self.pieces(lba, count, lenient):
            start = (at - lba) * self.sector
            found[start:start + len(piece)] = piece
        return bytes(found)


class Image(Disk):
    """The image, open and locked. Commands of ptab take this open file, whatever has its path by then."""

    def __init__(self, path, options, writes):
        self.device, self.writes, self.fate, self.direct = options["device"], writes, UNTOUCHED, None
        file = opened(path, writes, self.device, options["in-use"])
        if not options["no-lock"]:
            take_lock(file, path, writes)
        super().__init__(file, sector_size(path, file, options["sector-size"]) if self.device else options["sector-size"] or 512, path)
        # how commands of ptab are told of it, and those that write
        self.link, self.how = f"/proc/self/fd/{file}", ["--device"] if self.device else []
        self.to_write = [*self.how, "--no-lock", *(["--in-use"] if options["in-use"] else [])]
        if not os.path.exists(self.link):
            raise End(FAILED, f"{path}: /proc isn't there, by which ptab takes the open image")
        with contextlib.suppress(OSError):
            os.posix_fadvise(file, 0, 0, os.POSIX_FADV_RANDOM)
        if self.device:
            self.buffer = mmap.mmap(-1, BLOCK)
            with contextlib.suppress(OSError):
                self.direct = os.open(self.link, os.O_RDONLY | os.O_DIRECT | os.O_CLOEXEC)
        self.sync()

    def fetch(self, count, at):
        """A device is read past the kernel's pages, which hold more sectors than those that are asked for."""
        if self.direct is not None:
            try:
                return self.buffer[:os.preadv(self.direct, [memoryview(self.buffer)[:count]], at)]
            except OSError as error:
                if error.errno != errno.EINVAL:
                    raise
                self.direct = None
        return super().fetch(count, at)

    def sync(self):
        """Makes durable what was written to the image before, so that what is read is what the medium has."""
        reason = None
        try:
            os.fsync(self.file)
        except OSError as error:
            reason = error.strerror
        self.drop_cache()
        # what is only read may lie where nothing can be written
        if reason and self.writes:
            raise End(FAILED, f"{self.path} isn't touched: what was written to it before isn't durable: {reason}")

    def drop_cache(self):
        """Has the kernel forget what it holds of the image. It keeps a page whose write failed as if it were written, and it keeps a disk's
        sectors apart from its partitions', which may be newer."""
        if self.device:
            fcntl.ioctl(self.file, DROP_CACHE)
        else:
            with contextlib.suppress(OSError):
                os.posix_fadvise(self.file, 0, 0, os.POSIX_FADV_DONTNEED)

    @contextlib.contextmanager
    def by_sectors(self):
        """Within the block the kernel writes single sectors of a device, where the drive has such, and not the pages that they are in."""
        was = None
        if self.device and self.sector == 512:
            # it can't where others use the device
            with contextlib.suppress(OSError):
                if asked(self.file, DRIVE_SIZE) == 512:
                    was = asked(self.file, PAGE_SIZE)
                    fcntl.ioctl(self.file, SET_PAGE_SIZE, struct.pack("ii", 512, 0))
        try:
            yield
        finally:
            if was:
                with contextlib.suppress(OSError):
                    fcntl.ioctl(self.file, SET_PAGE_SIZE, struct.pack("ii", was, 0))

    def ptab(self, command, *words, how=None, **more):
        """A command of ptab on the image. The lock is held as long as that runs, also where we end before it. The tables' pages are read
        one by one before, since the kernel reads ahead for ptab, and what it can't read there would count as the table's."""
        for first, count in places(self):
            for at in range(first * self.sector // PIECE * PIECE, (first + count) * self.sector, PIECE):
                with contextlib.suppress(OSError):
                    os.pread(self.file, PIECE, at)
        return ptab(command, self.sector, *(self.how if how is None else how), self.link, *words, files=(self.file,), **more)


def opened(path, writes, device, in_use):
    """The image, open. The kernel opens a device exclusively only where nobody uses it or a partition of it, in whatever
    namespace."""
    is_right = stat.S_ISBLK if device else stat.S_ISREG
    try:
        alone = os.O_EXCL if device and writes and not in_use else 0
        # what is something else isn't opened
        file = os.open(path, (os.O_RDWR if writes else os.O_RDONLY) | alone | os.O_CLOEXEC) if is_right(os.stat(path).st_mode) else None
    except OSError as error:
        if error.errno == errno.EBUSY:
            raise End(REFUSED, f"{path} isn't touched: it is in use, or a partition of it; lsblk {path} shows by what") from error
        raise End(FAILED, f"{path}: {error.strerror}") from error
    if file is None or not is_right(os.fstat(file).st_mode):
        raise End(FAILED, f"{path}: not a {'block device' if device else 'plain file'}")
    return file


def asked(file, request):
    """A number that the kernel tells of a device."""
    return int.from_bytes(fcntl.ioctl(file, request, bytes(8))[:4], sys.byteorder)


def sector_size(path, file, given):
    """A device's own sector size."""
    own = asked(file, SECTOR_SIZE)
    if own not in (512, 4096):
        raise End(REFUSED, f"{path} has sectors of {own} bytes")
    if given not in (None, own):
        raise End(USAGE, f"--sector-size {given}: {path} has sectors of {own} bytes")
    return own


def unreadable(disk):
    """Which sectors in the pages of tables can't be read, in words."""
    bad, step = set(), PIECE // disk.sector
    for page in {lba // step for lba in sectors_of(disk)}:
        disk.bad.clear()
        held = {lba + k for lba, piece in disk.pieces(page * step, step, True) for k in range(len(piece) // disk.sector)}
        bad |= {*range(page * step, min(page * step + step, disk.count))} - held
    return f"; sectors {ranges(sorted(bad))} can't be read, which the kernel reads together with a table" if bad else ""
