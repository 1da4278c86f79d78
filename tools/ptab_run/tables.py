"""Where tables stand on a disk, whoever reads them, and what is there where `ptab` reads none."""
import re
import zlib

# An array of 128 entries, in bytes.
ARRAY = 16384
EXTENDED, SLICE, PROTECTIVE = (0x05, 0x0F, 0x85), 0xA5, 0xEE
SLICE_GUID = bytes.fromhex("b47c6e51cf6ed6118ff800022d09712b")
MARK = b"EFI PART"
# as many zeros as are mostly asked for
ZEROS = bytes(4096)
# What may be done where ptab reads no table, by what it says of that.
ADVICE = (
    (r"copies 1 1", "wipefs without an option shows what it is, and ends nothing: a file system without a table, or a table of another "
                    "kind"),
    (r"copies [678] .*", "other tools may read its GPT, which has more or fewer than 128 entries, or an array in another place, as ISO "
                         "images have: leave it to the tool that made it"),
    (r"(chain|two) .*", "other tools may read its table: see `no table` in ptab(8)"),
    (r"too small", "make it longer"),
    (r".*", "its GPT is damaged: testdisk may find its partitions, on a whole copy"),
)


def number(content, at, length):
    return int.from_bytes(content[at:at + length], "little")


def records(sector):
    """The four records of a sector, none where it is no boot record."""
    return [sector[at:at + 16] for at in range(446, 510, 16)] if sector[510:512] == b"\x55\xaa" else []


def chained(disk):
    """The extended boot records, as tools follow them, and the first sectors of the slices that they and sector 0 have."""
    found, slices = [], []
    for record in records(disk.read(0)):
        start = number(record, 8, 4)
        slices += [start] if record[4] == SLICE else []
        here = start if record[4] in EXTENDED else 0
        while here and here not in found and here < disk.count and len(found) < 4096:
            found.append(here)
            inner = records(disk.read(here))
            slices += [here + number(it, 8, 4) for it in inner if it[4] == SLICE]
            links = [number(it, 8, 4) for it in inner if it[4] in EXTENDED]
            here = start + links[0] if links else 0
    return found, slices


def array_of(disk, header):
    """The first sector of the array that a header names, and how many sectors it takes."""
    return number(header, 72, 8), -(-min(number(header, 80, 4), 1024) * min(number(header, 84, 4), 4096) // disk.sector)


def is_whole(header):
    size = number(header, 12, 4)
    is_one = header[:8] == MARK and 92 <= size <= len(header)
    return is_one and zlib.crc32(header[:16] + bytes(4) + header[20:size]) == number(header, 16, 4)


def gpt_places(disk):
    """Both copies of a GPT, wherever the headers say that they are, as first sectors and counts; and the first sectors of its slices."""
    found, slices = [], []
    kinds = [it[4] for it in records(disk.read(0))]
    for at in (1, disk.count - 1):
        # beside an MBR nobody needs them
        header = disk.read(at, lenient=bool(kinds) and PROTECTIVE not in kinds)
        if header[:8] != MARK:
            continue
        (array, room), other = array_of(disk, header), number(header, 32, 8)
        found += [(at, 1), (array, room), (other - room, room + 1)]
        entries, size = disk.read(array, room), number(header, 84, 4)
        if 128 <= size <= 4096:
            slices += [number(entries, k + 32, 8) for k in range(0, len(entries) - 127, size) if entries[k:k + 16] == SLICE_GUID]
    return found, slices


def places(disk):
    """Where tables stand, whoever reads them, as first sectors and counts. A label stands in a slice's second sector."""
    copies, slices = gpt_places(disk)
    boot, more = chained(disk)
    found = [(0, 1), *copies, *((lba, 1) for lba in boot), *((start + 1, 1) for start in slices + more)]
    found = [(max(0, first), min(first + count, disk.count)) for first, count in found]
    return [(first, end - first) for first, end in found if first < end]


def is_bridge(first, last):
    """Whether the header in sector 1 leads to the backup's array, as a stop of `ptab adopt` leaves it."""
    return is_whole(first) and is_whole(last) and first[72:80] == last[72:80]


def sectors_of(disk):
    return {lba for first, count in places(disk) for lba in range(first, first + count)}


def is_zero(content):
    return content == (ZEROS if len(content) == len(ZEROS) else bytes(len(content)))


def is_blank(disk):
    """Whether there are zeros wherever a GPT or an MBR would stand."""
    return is_zero(disk.read(0, 1 + disk.room)) and is_zero(disk.read(max(0, disk.count - disk.room), disk.room))


def file_system(sector):
    """The file system that a sector 0 begins, beside which it looks like an MBR without partitions."""
    marks = ((3, b"NTFS    "), (3, b"EXFAT   "), (54, b"FAT"), (82, b"FAT32   "))
    names = [sector[at:at + 8].decode("ascii", "replace").strip() for at, mark in marks if sector[at:at + len(mark)] == mark]
    return names[0] if names and (sector[0] == 0xE9 or sector[0] == 0xEB and sector[2] == 0x90) else None


def advice(disk, said):
    """What may be done where ptab reads no table, and there is something."""
    header, other = disk.read(1), 4608 - disk.sector
    if not disk.device and disk.read(0, 1 + 4096 // disk.sector)[other:][:8] == MARK:
        return f"a GPT with sectors of {other} bytes begins there: --sector-size {other}"
    if is_whole(header) and number(header, 32, 8) >= disk.count:
        return (f"it is cut off, since its GPT is of a disk of {number(header, 32, 8) + 1} sectors: give it that length back, or let "
                "sgdisk -e work on a whole copy, and take the table from there by ptab adopt")
    return next(text for pattern, text in ADVICE if re.fullmatch(f"no table: {pattern}", said))


def partitions(shown):
    """The first and the last sectors of the partitions that `ptab show` prints, ascending, but for extended ones of an MBR, which own no
    sector."""
    lines = [line.split(" ") for line in shown.splitlines()]
    extended = {f"{kind:02X}" for kind in EXTENDED} if lines and lines[0][0] == "mbr" else ()
    return sorted((int(line[1]), int(line[2])) for line in lines[1:] if line[3] not in extended)


def add(runs, lba):
    """Adds a sector behind those of ascending runs."""
    if runs and runs[-1][1] + 1 == lba:
        runs[-1][1] = lba
    else:
        runs.append([lba, lba])


def in_words(runs):
    """The first of some runs of sectors."""
    words = [f"{first}-{last}" if last > first else f"{first}" for first, last in runs[:6]]
    return ", ".join(words) + (" and more" if len(runs) > 6 else "")


def ranges(lbas):
    """The first ranges of ascending sectors, in words."""
    found = []
    for lba in lbas:
        add(found, lba)
    return in_words(found)
