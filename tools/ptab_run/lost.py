"""What the tool did, or left, that no table carries."""
from .copies import differences
from .disks import Disk
from .tables import PROTECTIVE, add, is_bridge, is_whole, ranges, records, sectors_of

# How the boot code begins that parted writes where there is none.
PARTED_STUB = bytes.fromhex("fab800108ed0bc00b0")
SIGNATURE = "the MBR's disk signature"
FILE_SYSTEM = "a file system that begins in sector 0"


def is_wiped(was, now):
    """Whether a sector has what it had, or a part of that and zeros."""
    return all(new in (0, old) for old, new in zip(was, now))


class Lost:
    """How the copy on which a way was tried differs from the tool's, though both have the same table: what matters (`heavy`), and what
    doesn't (`light`)."""

    def __init__(self, base, tool, done, sector):
        # `data` has the runs of sectors that the tool wrote where no table is, and `tables` where there is one
        self.heavy, self.light, self.data, over = set(), set(), [], []
        with open(base, "rb") as was, open(tool, "rb") as want, open(done, "rb") as has:
            disks = [Disk(it.fileno(), sector) for it in (was, want, has)]
            left = sectors_of(disks[1])
            theirs = sectors_of(disks[0]) | left
            if is_bridge(disks[0].read(1), disks[0].read(disks[0].count - 1)):
                theirs |= {*range(2, 1 + disks[0].room)}
            self.tables = theirs | sectors_of(disks[2])
            self.copies(*disks)
        for lba, (was, want, has) in differences((base, tool, done), sector):
            if want == has:
                continue
            if lba == 0:
                self.sector_0(was, want, has)
            elif want == was:
                over += [lba] if any(want) and lba not in theirs else []
            elif lba in left or lba in self.tables and is_wiped(was, want):
                self.light.add("bytes of tables that say nothing")
            else:
                # also where a table was, and is none in what the tool left
                add(self.data, lba)
        self.heavy |= {f"what stands in sectors {ranges(over)}, where the table goes"} if over else set()

    def sector_0(self, was, want, has):
        is_stub = all(not any(it[:440]) or it.startswith(PARTED_STUB) for it in (was, want))
        if want[:440] != has[:440]:
            (self.light if is_stub else self.heavy).add("parted's boot code" if is_stub else "boot code")
        kinds = [it[4] for it in records(has)]
        if want[440:446] != has[440:446]:
            # beside a GPT it means nothing
            (self.light if PROTECTIVE in kinds else self.heavy).add(SIGNATURE)
        if PROTECTIVE in kinds:
            self.protective(records(want))
        if want[446:510] != has[446:510]:
            self.light.add("CHS numbers of records")

    def protective(self, wanted):
        if any(it[4] not in (0, PROTECTIVE) for it in wanted):
            self.heavy.add("records of a hybrid MBR")
        if any(it[0] and it[4] == PROTECTIVE for it in wanted):
            self.heavy.add("the boot flag of the protective record")

    def copies(self, was, want, has):
        """The tool's copies of a GPT, where they aren't as ours are."""
        (before, _), (first, last), (our_first, our_last) = ([it.read(1), it.read(it.count - 1)] for it in (was, want, has))
        if is_whole(first) and is_whole(our_first):
            if is_bridge(first, our_last):
                self.light.add("the header that leads to the backup's array")
            elif first[72:88] != our_first[72:88]:
                self.heavy.add("the array, which stands elsewhere")
            # a backup copy that was elsewhere and is still, as on a grown disk, is mended
            if first[32:40] not in (before[32:40], our_first[32:40]):
                self.heavy.add("the backup copy, which stands elsewhere")
        is_other = is_whole(first) and is_whole(last) and (first[40:72], first[80:92]) != (last[40:72], last[80:92])
        if is_other and last != our_last:
            self.heavy.add("the backup copy, which has another table")
        if not any(it[4] == PROTECTIVE for it in records(has.read(0))):
            for want_one, our_one in ((first, our_first), (last, our_last)):
                if is_whole(our_one) and not is_whole(want_one):
                    self.heavy.add("an old header of a GPT, which stays")
