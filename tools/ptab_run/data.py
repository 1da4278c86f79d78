"""What the program wrote to sectors that no partition of the old table owns, and how it is carried over: `--data`."""
import fcntl
import struct

from .copies import held
from .disks import PIECE, Disk
from .ends import REFUSED, End
from .tables import add, in_words, is_zero, partitions

# FS_IOC_FIEMAP of ioctl(2): a struct fiemap with room for so many extents, and FIEMAP_FLAG_SYNC; where an extent begins, its length
MAP, HEAD, EXTENT, ROOM, SYNC = 0xC020660B, struct.Struct("=QQIIII"), struct.Struct("=QQQ32x"), 512, 1


def blocks_of(file):
    """The ranges of bytes for which a file has blocks, also of such that were zeroed alone; where its file system doesn't tell these, the
    ones with data."""
    found, at = [], 0
    while True:
        told = bytearray(HEAD.size + ROOM * EXTENT.size)
        HEAD.pack_into(told, 0, at, (1 << 64) - 1 - at, SYNC, 0, ROOM, 0)
        try:
            fcntl.ioctl(file, MAP, told)
        except OSError:
            return list(held(file))
        count = HEAD.unpack_from(told)[3]
        extents = [EXTENT.unpack_from(told, HEAD.size + k * EXTENT.size) for k in range(count)]
        if not extents:
            return found
        found += [(start, start + length) for start, _, length in extents]
        at = found[-1][1]


def merged(runs):
    """Ranges of sectors as runs that ascend, and that have none between them and none in common."""
    found = []
    for first, last in sorted(it for it in runs if it[0] <= it[1]):
        if found and first <= found[-1][1] + 1:
            found[-1][1] = max(found[-1][1], last)
        else:
            found.append([first, last])
    return found


def split(runs, others):
    """What of some runs none of the others has, and what one of them has. Both ascend."""
    apart, common, k = [], [], 0
    for first, last in runs:
        while first <= last:
            while k < len(others) and others[k][1] < first:
                k += 1
            low, high = others[k] if k < len(others) else (last + 1, last + 1)
            end = min(last, high if low <= first else low - 1)
            (common if low <= first else apart).append([first, end])
            first = end + 1
    return apart, common


class Data:
    """The runs of sectors that are carried (`runs`), and those that a partition of the old table owns (`owned`)."""

    def __init__(self, image, shown, lost):
        self.image, self.sector, self.taken = image, image.sector, merged(partitions(shown))
        self.tables = merged((lba, lba) for lba in lost.tables | {0})
        self.runs, self.owned = split(lost.data, self.taken)

    def bytes(self):
        return sum(last + 1 - first for first, last in self.runs) * self.sector

    def is_free(self):
        """Whether nothing of it is in a partition of the old table or in a table."""
        return not self.owned and not split(self.runs, self.tables)[1]

    def add_zeros(self, copy, written, new, ends, limit):
        """Adds the sectors where the program left zeros over something that the copy doesn't have, in the ranges of bytes that were
        written: each one in a new partition, and whole blocks beside. In a file it adds all of a new partition that has data, since a hole
        may have been made there. Both ends are known without."""
        count, parts = self.image.count, partitions(new)
        known = merged([*self.taken, *self.tables, [0, ends - 1], [max(0, count - ends), count - 1]])
        beside, inside = split(split(self.sectors(written), known)[0], merged(parts))
        self.take(self.zeros(copy, inside))
        self.take(self.zeros(copy, beside, PIECE // self.sector))
        if self.bytes() > limit:
            raise End(REFUSED, f"{self.image.path} isn't touched: data of {self.bytes()} bytes, in sectors {in_words(self.runs)}, is more "
                      f"than --data-limit {limit}")
        if not self.image.device:
            formatted = merged(it for it in parts if split([it], self.runs)[1])
            self.take(self.zeros(copy, split(split(self.sectors(held(self.image.file)), formatted)[1], known)[0]))

    def sectors(self, places):
        """Ranges of bytes as runs of sectors."""
        return merged((start // self.sector, -(-end // self.sector) - 1) for start, end in places)

    def take(self, runs):
        self.runs = merged([*self.runs, *runs])

    def zeros(self, copy, spans, step=1):
        """The sectors of some runs in which the copy has zeros and the image something else; of so many in a row all or none."""
        found = []
        with open(copy, "rb") as it:
            ours = Disk(it.fileno(), self.sector)
            for first, last in spans:
                for lba, piece in self.image.pieces(first, last + 1 - first, True):
                    left = b"" if is_zero(piece) else ours.read(lba, len(piece) // self.sector)
                    for k in range(0, len(left) if left != piece else 0, self.sector):
                        at = lba + k // self.sector
                        is_other = is_zero(left[k:k + self.sector]) and not is_zero(piece[k:k + self.sector])
                        if is_other and (step == 1 or is_zero(ours.read(at - at % step, step))):
                            add(found, at)
        return found

    def write_to(self, path):
        """Writes the runs as `ptab adopt --data` takes them."""
        with open(path, "w", encoding="ascii") as it:
            it.writelines(f"{first} {last}\n" for first, last in self.runs)

    def is_there(self, copy):
        """Whether the image has the data that the copy has."""
        with open(copy, "rb") as it:
            ours = Disk(it.fileno(), self.sector)
            return all(piece == ours.read(lba, len(piece) // self.sector)
                       for first, last in self.runs for lba, piece in self.image.pieces(first, last + 1 - first))
