"""What readers have to find at the stops of a job, and what they found, compared and counted."""
import sys
import zlib
from collections import Counter

# readers that go by a header whatever sector 0 is
WHATEVER_SECTOR_0 = ("cgpt", "Linux with gpt")
MOST = 2000  # characters that are shown of what isn't as it has to be
passed = 0


def same(what, found, wanted):
    global passed
    passed += 1
    if found != wanted:
        sys.exit(f"readers: {what}:\n  found  {found!r:.{MOST}}\n  wanted {wanted!r:.{MOST}}")


def one_of(what, found, allowed):
    global passed
    passed += 1
    if found not in allowed:
        sys.exit(f"readers: {what}:\n  found  {found!r:.{MOST}}\n  wanted one of {allowed!r:.{MOST}}")


def is_zeros(image, sectors):
    return not any(sectors.sector(image, 1))


def header_under_mbr(image, sectors):
    """Whether sector 0 has records and none is protective, while a header with its own CRC stands in sector 1 or the last one."""
    for lba in (1, sectors.count(image) - 1):
        header = sectors.sector(image, lba)
        size = int.from_bytes(header[12:16], "little")
        crc = zlib.crc32(header[:16] + bytes(4) + header[20:size]).to_bytes(4, "little")
        if header[:8] == b"EFI PART" and header[16:20] == crc and 0xEE not in image[450:510:16]:
            return True
    return False


def allowed_of(it, number, old, new):
    """What a reader may find in a stop of that phase."""
    if it.switch in (0, number):
        return old, new
    return (old,) if number < it.switch else (new,)


class Readers:
    """Readers by name, each with `primary_alone` and `is_unread(job)`, and what they found: views[image, size][name]."""

    def __init__(self, readers, views):
        self.readers, self.views = readers, views
        self.told = Counter()

    def tables(self, it, name):
        """The old table and the new one, as a reader tells them of whole images."""
        size = it.job.sectors.size
        return self.views[bytes(it.job.whole or it.job.image), size][name], self.views[it.after, size][name]

    def stop(self, it, name, image, number):
        """A reader at one stop, where it was shown that."""
        sectors = it.job.sectors
        if name not in self.views.get((image, sectors.size), ()):
            return
        found = self.views[image, sectors.size][name]
        what = f"{it.what}, stopped in phase {number}, {name}"
        old, new = self.tables(it, name)
        self.told[name] += found is None
        if self.readers[name].is_unread(it.job):
            same(what, found, None)
        elif self.readers[name].primary_alone and it.job.words != "g" and is_zeros(image, sectors):
            same(what, found, None)
        elif name == "sgdisk" and header_under_mbr(image, sectors):
            same(what, found, None)
        elif name in WHATEVER_SECTOR_0 and it.job.words == "g":
            one_of(what, found, (old, new))
        else:
            one_of(what, found, allowed_of(it, number, old, new))

    def job(self, it, names):
        """These readers at all stops of a job, and a line on them."""
        self.told.clear()
        for name in names:
            old, new = self.tables(it, name)
            if it.job.words != "g":
                same(f"{it.what}: {name} reads no such table", old is None, self.readers[name].is_unread(it.job))
            if it.switch == 0:
                same(f"{it.what}: {name}: the table stays", old, new)
            for image, number in it.stops.items():
                self.stop(it, name, image, number)
        none = ", ".join(f"{name} {self.told[name]}" for name in names if self.told[name])
        print(f"{it.what}: {len(it.phases)} phases, {len(it.stops)} stops; none found by {none or 'no reader'}", flush=True)


def stops_with_zeros(done, kept):
    """At how many stops of jobs that begin with a primary copy sector 1 is zeros."""
    return sum(is_zeros(image, it.job.sectors) for it in done if it.kept == kept and it.job.follows for image in it.stops)


def both_ways(done):
    """The primary is never missing where it is kept, and is by the table."""
    same("stops with zeros in sector 1 while the primary is kept", stops_with_zeros(done, True), 0)
    same("stops with zeros in sector 1 by the table", stops_with_zeros(done, False) > 0, True)
