"""A plain reader of one copy of a GPT, by the checks of UEFI 2.10, 5.3.2, which takes the array from where the header says."""
import struct
import zlib


def followed(image, sectors, side="primary"):
    """What the copy on this side tells: the disk's GUID, the usable sectors and the array; None where there is no such copy."""
    count = sectors.count(image)
    my = 1 if side == "primary" else count - 1
    head = sectors.sector(image, my)
    signature, revision, size, crc, _, here, _, first, last, disk, array, entries, each, array_crc = struct.unpack_from(
        "<8sIIIIQQQQ16sQIII", head)
    if signature != b"EFI PART" or revision != 0x10000 or not 92 <= size <= sectors.size or here != my:
        return None
    if zlib.crc32(head[:16] + bytes(4) + head[20:size]) != crc or each != 128 or not 1 <= entries <= 128:
        return None
    start = array * sectors.size
    found = bytes(image[start:start + 128 * entries])
    if len(found) != 128 * entries or zlib.crc32(found) != array_crc:
        return None
    return disk, first, last, found
