"""What edits of MBR disks write, phase by phase, and what stands then: primaries, extended partitions and their chains."""
from images import LARGE, SMALL, chained, ebr, long_chain, record
from plans import at, record_at, refused, same, turns

EXTENDED = "2 4096 12287 05 00"
FIRST = "5 6144 7143 83 00"
HEAD = "mbr 16384"
BLANK = SMALL.mbr(16384, [])
NOTHING = "00 00 00 00 00 00 00 00 00 00 00 00 00 00 00 00"


def one_logical(sectors=SMALL):
    """An extended partition as record 2 with a logical from 6144 to 7143; its links as this project makes them."""
    return chained({4096: ebr(link=record(0x05, 2047, 1001)), 6143: ebr(record(0x83, 1, 1000))}, sectors)


def two_logicals():
    return chained({4096: ebr(link=record(0x05, 2047, 1001)), 6143: ebr(record(0x83, 1, 1000), record(0x05, 4095, 1001)),
                    8191: ebr(record(0x83, 1, 1000))})


def is_now(command, image, what):
    same(what, command.image() == bytes(image), True)


def primaries(command):
    """Sector 0 alone is written."""
    turns(command, BLANK, "n:0:2048:4095 n:0:0:0", "0", 1, [HEAD, "1 2048 4095 83 00", "2 4096 16383 83 00"])
    is_now(command, SMALL.mbr(16384, [record(0x83, 2048, 2048), record(0x83, 4096, 12288)]), "two primaries")
    turns(command, None, "t:2:07", "0", 1, [HEAD, "1 2048 4095 83 00", "2 4096 16383 07 00"])
    turns(command, None, "d:1", "0", 1, [HEAD, "2 4096 16383 07 00"])
    is_now(command, SMALL.mbr(16384, [bytes(16), record(0x07, 4096, 12288)]), "a deleted primary")
    turns(command, None, "n:0:2048:+10:EF a:1 n:4:3000:3999:0c", "0", 1,
          [HEAD, "1 2048 2057 EF 00", "2 4096 16383 07 00", "4 3000 3999 0C 00"])
    turns(command, None, "d:1 d:2 d:4 n:3:0:0", "0", 1, [HEAD, "3 2048 16383 83 00"])
    turns(command, None, "d:3", "0", 1, [HEAD])
    is_now(command, BLANK, "an MBR without partitions")
    junk = bytes([0, 1, 2, 3, 0, 4, 5, 6]) + bytes([7]) * 8
    kept = SMALL.mbr(4096, [record(0x83, 100, 100, 0x80, b"\x01\x02\x03", b"\x04\x05\x06"), junk,
                            record(0x07, 300, 100, 0, b"\x09\x08\x07", b"\x06\x05\x04"), bytes([0x80]) + bytes(15)])
    kept[:446] = bytes(range(256)) + bytes(range(190))
    turns(command, kept, "t:1:0B", "0", 1, ["mbr 4096", "1 100 199 0B 80", "3 300 399 07 00"])
    wanted = bytearray(kept)
    wanted[450] = 0x0B
    is_now(command, wanted, "a type alone")
    turns(command, kept, "d:3", "0", 1, ["mbr 4096", "1 100 199 83 80"])
    wanted = bytearray(kept)
    wanted[478:494] = bytes(16)
    is_now(command, wanted, "a record that becomes unused")
    turns(command, kept, "a:1 n:2:200:299", "0", 1, ["mbr 4096", "1 100 199 83 80", "2 200 299 83 00", "3 300 399 07 00"])
    wanted = bytearray(kept)
    wanted[462:478] = record(0x83, 200, 100)
    is_now(command, wanted, "a record over one that is unused")
    turns(command, kept, "a:1 d:1 n:1:100:199", "0", 1)
    same("a record made again", record_at(command.image(), 0, 1), "00 fe ff ff 83 fe ff ff 64 00 00 00 64 00 00 00")
    unsound = SMALL.mbr(4096, [record(0x83, 100, 100), record(0x83, 150, 100)])
    for words in ("t:1:07", "a:1", "n:3:2048:0"):
        refused(command.on(unsound), "plan 4", words)
    turns(command, unsound, "d:2", "0", 1, ["mbr 4096", "1 100 199 83 00"])
    refused(command.on(SMALL.mbr(4096, [record(0x83, 0, 10)])), "plan 2", "d:1")
    turns(command, SMALL.mbr(1, []), "a:1", "", 0, ["mbr 1"])
    huge = SMALL.mbr(4096, [record(0x83, 0xFFFFFFFF, 0xFFFFFFFF), record(0x83, 100, 1)])
    refused(command.on(huge), "plan 4", "d:2")
    turns(command, huge, "d:1", "0", 1, ["mbr 4096", "2 100 100 83 00"])


def first_logical(command):
    turns(command, BLANK, "n:2:4096:12287:05 n:5:0:+1000", "4096 6143 | 0", 2, [HEAD, EXTENDED, FIRST])
    is_now(command, one_logical(), "an extended partition with a logical")
    same("the logical", record_at(command.image(), 6143, 1), "00 fe ff ff 83 fe ff ff 01 00 00 00 e8 03 00 00")
    same("the link", record_at(command.image(), 4096, 2), "00 fe ff ff 05 fe ff ff ff 07 00 00 e9 03 00 00")
    for kind in ("05", "0F", "0f"):
        turns(command, BLANK, f"n:2:4096:12287:{kind}", "4096 | 0", 2, [HEAD, f"2 4096 12287 {kind.upper()} 00"])
    is_now(command, chained({4096: ebr()}, kind=0x0F), "an extended partition")
    turns(command, None, "n:5:0:+1000", "6143 | 4096", 2, [HEAD, EXTENDED.replace("05", "0F"), FIRST])
    same("the link", record_at(command.image(), 4096, 2), "00 fe ff ff 05 fe ff ff ff 07 00 00 e9 03 00 00")
    turns(command, chained({4096: ebr()}), "a:1 n:5:0:0", "4097 | 4096", 2, [HEAD, EXTENDED, "5 4098 12287 83 00"])
    turns(command, chained({4096: ebr()}), "a:1 n:5:4097:0", "4096", 1, [HEAD, EXTENDED, "5 4097 12287 83 00"])
    is_now(command, chained({4096: ebr(record(0x83, 1, 8191))}), "a logical in the first boot record")
    noise = chained({4096: ebr()})
    SMALL.put(noise, 6143, bytes(range(256)) * 2)
    turns(command, noise, "n:5:0:+1000", "6143 | 4096", 2, [HEAD, EXTENDED, FIRST])
    is_now(command, one_logical(), "a new boot record over other bytes")


def second_logical(command):
    turns(command, one_logical(), "n:5:0:+1000", "8191 | 6143", 2, [HEAD, EXTENDED, FIRST, "6 8192 9191 83 00"])
    is_now(command, two_logicals(), "a second logical")
    same("the link", record_at(command.image(), 6143, 2), "00 fe ff ff 05 fe ff ff ff 0f 00 00 e9 03 00 00")
    refused(command.on(one_logical()), "edit 1", "n:6:0:+1000")
    turns(command, one_logical(), "n:5:0:+1000 n:5:0:+1000:82", "8191 10239 | 6143", 2,
          [HEAD, EXTENDED, FIRST, "6 8192 9191 83 00", "7 10240 11239 82 00"])
    turns(command, one_logical(), "a:1 n:5:5000:5999", "4999 | 4096", 2, [HEAD, EXTENDED, "5 5000 5999 83 00", "6 6144 7143 83 00"])
    same("the links", (record_at(command.image(), 4096, 2), record_at(command.image(), 4999, 2)),
         (record(0x05, 903, 1001).hex(" "), record(0x05, 2047, 1001).hex(" ")))
    turns(command, one_logical(), "a:1 n:5:4097:+10", "4096", 1, [HEAD, EXTENDED, "5 4097 4106 83 00", "6 6144 7143 83 00"])
    is_now(command, chained({4096: ebr(record(0x83, 1, 10), record(0x05, 2047, 1001)), 6143: ebr(record(0x83, 1, 1000))}),
           "a logical in the first boot record")
    command.on(one_logical())
    refused(command, "plan 1", "a:1 n:5:4097:+10 n:5:8192:+10")
    refused(command, "plan 1", "a:1 n:5:5000:5999 t:6:07")
    refused(command, "plan 1", "n:5:8192:+10 n:1:2048:+10")
    turns(command, one_logical(), "n:5:8192:+10 t:6:07", "8191 | 6143", 2, [HEAD, EXTENDED, FIRST, "6 8192 8201 07 00"])
    turns(command, one_logical(), "n:5:8192:+10 t:5:07", "8191 | 6143", 2, [HEAD, EXTENDED, FIRST.replace("83", "07"), "6 8192 8201 83 00"])


def deleted_logicals(command):
    turns(command, two_logicals(), "d:5", "6143", 1, [HEAD, EXTENDED, "5 8192 9191 83 00"])
    same("what stays", (record_at(command.image(), 4096, 2), record_at(command.image(), 6143, 1), record_at(command.image(), 6143, 2)),
         ("00 fe ff ff 05 fe ff ff ff 07 00 00 e9 03 00 00", NOTHING, "00 fe ff ff 05 fe ff ff ff 0f 00 00 e9 03 00 00"))
    turns(command, None, "n:5:6144:+1000", "6143", 1, [HEAD, EXTENDED, FIRST, "6 8192 9191 83 00"])
    is_now(command, two_logicals(), "a logical made again in its empty boot record")
    turns(command, two_logicals(), "d:6", "8191", 1, [HEAD, EXTENDED, FIRST])
    turns(command, None, "d:5", "6143", 1, [HEAD, EXTENDED])
    turns(command, None, "a:1 n:5:8192:8193", "8191", 1, [HEAD, EXTENDED, "5 8192 8193 83 00"])
    refused(command.on(two_logicals()), "plan 1", "d:5 d:5")
    refused(command, "plan 1", "d:5 t:5:07")
    turns(command, two_logicals(), "t:6:82", "8191", 1, [HEAD, EXTENDED, FIRST, "6 8192 9191 82 00"])
    turns(command, two_logicals(), "d:5 n:5:6144:7143", "", 0, [HEAD, EXTENDED, FIRST, "6 8192 9191 83 00"])
    turns(command, two_logicals(), "d:5 n:5:6144:7143:82", "6143", 1, [HEAD, EXTENDED, FIRST.replace("83", "82"), "6 8192 9191 83 00"])


def link_sizes(command):
    """A link that is made has the size from its boot record to the end of its logical, one sector where that is empty."""
    image = chained({4096: ebr(link=record(0x05, 2047, 11)), 6143: ebr(record(0x83, 1, 10), record(0x05, 4095, 11)), 8191: ebr()})
    turns(command, image, "a:1 n:5:7000:7009", "6999 | 6143", 2, [HEAD, EXTENDED, "5 6144 6153 83 00", "6 7000 7009 83 00"])
    same("links", [record_at(command.image(), lba, 2) for lba in (4096, 6143, 6999, 8191)],
         [record(0x05, 2047, 11).hex(" "), record(0x05, 2903, 11).hex(" "), record(0x05, 4095, 1).hex(" "), NOTHING])
    far = chained({4096: ebr(link=record(0x0F, 2047, 77, 0x80, b"abc", b"def")), 6143: ebr(record(0x83, 100, 10))})
    turns(command, far, "d:5", "6143", 1, [HEAD, EXTENDED])
    same("a link that stays", record_at(command.image(), 4096, 2), record(0x0F, 2047, 77, 0x80, b"abc", b"def").hex(" "))
    turns(command, far, "n:5:10240:+1", "10239 | 6143", 2, [HEAD, EXTENDED, "5 6243 6252 83 00", "6 10240 10240 83 00"])
    same("a link that stays", record_at(command.image(), 4096, 2), record(0x0F, 2047, 77, 0x80, b"abc", b"def").hex(" "))
    turns(command, far, "a:1 n:5:5000:+1", "4999 | 4096", 2, [HEAD, EXTENDED, "5 5000 5000 83 00", "6 6243 6252 83 00"])
    same("links that are made", (record_at(command.image(), 4096, 2), record_at(command.image(), 4999, 2)),
         (record(0x05, 903, 2).hex(" "), record(0x05, 2047, 110).hex(" ")))


def kept_bytes(command):
    """Bytes of a boot record that no change names: junk in unused records, boot code, what follows."""
    junk = bytes([0x80, 1, 2, 3, 0, 4, 5, 6]) + bytes([9]) * 8
    first = bytearray(ebr(junk, bytes([0, 1, 2, 3, 0x83, 4, 5, 6]) + bytes([9]) * 4 + bytes(4)))
    first[:446] = bytes([0xC3]) * 446
    image = chained({4096: first})
    turns(command, image, "n:5:6144:+1000", "6143 | 4096", 2, [HEAD, EXTENDED, FIRST])
    wanted = bytearray(first)
    wanted[462:478] = record(0x05, 2047, 1001)
    same("a boot record whose link is made", SMALL.sector(command.image(), 4096), bytes(wanted))
    same("a new boot record", SMALL.sector(command.image(), 6143), ebr(record(0x83, 1, 1000)))
    turns(command, image, "a:1 n:5:4097:+5", "4096", 1)
    wanted = bytearray(first)
    wanted[446:462] = record(0x83, 1, 5)
    same("a boot record whose logical is made", SMALL.sector(command.image(), 4096), bytes(wanted))
    turns(command, None, "d:5", "4096", 1)
    wanted[446:462] = bytes(16)
    same("a boot record whose logical goes", SMALL.sector(command.image(), 4096), bytes(wanted))
    named = chained({4096: ebr(record(0x83, 5, 7, 0x80, b"xyz", b"uvw"))})
    turns(command, named, "t:5:0C", "4096", 1, [HEAD, EXTENDED, "5 4101 4107 0C 80"])
    same("a logical's type", record_at(command.image(), 4096, 1), record(0x0C, 5, 7, 0x80, b"xyz", b"uvw").hex(" "))


def extended_deleted(command):
    turns(command, two_logicals(), "d:2", "0", 1, [HEAD])
    same("its boot records stay", SMALL.sector(command.image(), 8191), ebr(record(0x83, 1, 1000)))
    turns(command, None, "n:1:4096:12287", "0", 1, [HEAD, "1 4096 12287 83 00"])
    turns(command, two_logicals(), "d:2 n:1:4096:12287:07", "0", 1, [HEAD, "1 4096 12287 07 00"])
    turns(command, chained({4096: ebr()}), "d:2", "0", 1, [HEAD])
    turns(command, None, "n:2:4096:12287:05", "0", 1, [HEAD, EXTENDED])
    turns(command, two_logicals(), "d:2 n:3:2048:0:05", "2048 | 0", 2, [HEAD, "3 2048 16383 05 00"])
    turns(command, two_logicals(), "d:2 n:2:4096:12287:05", "4096", 1, [HEAD, EXTENDED])
    same("a link that goes", record_at(command.image(), 4096, 2), NOTHING)
    refused(command.on(two_logicals()), "plan 1", "d:2 n:2:4096:12287:0F")
    refused(command.on(two_logicals()), "plan 2", "d:2 n:2:8192:12287:05")
    refused(command, "plan 2", "a:1 d:2 n:2:6144:12287:05")
    refused(command.on(SMALL.mbr(16384, [record(0x83, 2048, 4096)])), "plan 2", "d:1 n:1:2048:6143:05")
    turns(command, None, "d:1", "0", 1, [HEAD])
    turns(command, None, "n:1:2048:6143:05", "2048 | 0", 2, [HEAD, "1 2048 6143 05 00"])
    turns(command, None, "d:1 n:1:2048:8191:0F", "0", 1, [HEAD, "1 2048 8191 0F 00"])


def links_by_their_starts(command):
    """A link counts as changed by the start that its record holds, under the extended partition that is wanted, not by the sector
    that it leads to."""
    command.on(two_logicals()).edited("d:5").shows(HEAD, EXTENDED, "5 8192 9191 83 00")
    refused(command, "plan 1", "a:1 d:2 n:2:6143:12287:05 n:5:8192:+1000")
    command.on(BLANK).edited("a:1", "n:2:4096:15000:05", "n:5:6144:+100").edited("a:1", "n:5:8191:+100").edited("d:5")
    command.shows(HEAD, "2 4096 15000 05 00", "5 8191 8290 83 00")
    before = SMALL.sector(command.image(), 6143)
    turns(command, None, "a:1 d:2 n:2:6143:15000:05 n:5:10238:+10", "10237 | 0", 2, [HEAD, "2 6143 15000 05 00", "5 10238 10247 83 00"])
    same("the link under another extended partition", SMALL.sector(command.image(), 6143), before)


def stale_records(command):
    """Where a chain stood before: a boot record that lies there with the wanted bytes isn't written, any other is."""
    turns(command, BLANK, "n:2:4096:12287:05", "4096 | 0", 2, [HEAD, EXTENDED])
    turns(command, None, "d:2", "0", 1, [HEAD])
    turns(command, None, "n:2:4096:12287:05", "0", 1, [HEAD, EXTENDED])
    turns(command, None, "n:5:6144:+1000", "6143 | 4096", 2, [HEAD, EXTENDED, FIRST])
    turns(command, None, "d:2", "0", 1, [HEAD])
    turns(command, None, "n:2:4096:12287:05", "4096 | 0", 2, [HEAD, EXTENDED])
    turns(command, None, "n:5:6144:+1000", "4096", 1, [HEAD, EXTENDED, FIRST])
    is_now(command, one_logical(), "a logical whose boot record stood there")
    turns(command, None, "d:2", "0", 1, [HEAD])
    turns(command, None, "n:2:4096:12287:05 n:5:6144:+1000", "0", 1, [HEAD, EXTENDED, FIRST])
    turns(command, None, "d:2", "0", 1, [HEAD])
    turns(command, None, "n:2:4096:12287:05 n:5:6144:+999", "4096 6143 | 0", 2, [HEAD, EXTENDED, "5 6144 7142 83 00"])


def long_chains(command):
    full = long_chain(128)
    refused(command.on(full), "edit 3", "a:1 n:5:300:+1")
    turns(command, full, "d:5", "10", 1)
    turns(command, None, "a:1 n:5:11:+1", "10", 1)
    turns(command, full, "d:132", "264", 1)
    turns(command, full, "t:100:82", "200", 1)
    same("records of a long chain", record_at(command.image(), 200, 1), record(0x82, 1, 1).hex(" "))
    turns(command, long_chain(127), "a:1 n:5:600:+10", "599 | 262", 2)
    turns(command, full, "d:1", "0", 1, ["mbr 1024"])


def unsound(command):
    """Chains that are there and aren't sound."""
    covered = chained({4096: ebr(link=record(0x05, 2047, 1001)), 6143: ebr(record(0x83, 1, 1000), record(0x05, 2904, 1)), 7000: ebr()})
    for words in ("n:1:2048:4095", "t:5:07", "a:1", "n:5:8192:+10"):
        refused(command.on(covered), "plan 4", words)
    turns(command, covered, "d:5", "6143", 1, [HEAD, EXTENDED])
    turns(command, covered, "d:2", "0", 1, [HEAD])
    tight = chained({4096: ebr(record(0x83, 1, 1), record(0x05, 1, 1)), 4097: ebr()})
    refused(command.on(tight), "plan 4", "t:5:07")
    turns(command, tight, "d:5", "4096", 1, [HEAD, EXTENDED])
    over = chained({4096: ebr(record(0x83, 10, 4000), record(0x05, 2047, 1)), 6143: ebr(record(0x83, 1, 10))})
    refused(command.on(over), "plan 4", "d:6")
    refused(command.on(over), "plan 2", "d:6 d:5")
    turns(command, over, "d:5", "4096", 1, [HEAD, EXTENDED, "5 6144 6153 83 00"])
    wide = SMALL.mbr(4096, [record(0x83, 1, 4095), record(0x05, 100, 100)])
    SMALL.put(wide, 100, ebr())
    refused(command.on(wide), "plan 4", "t:1:07")
    turns(command, wide, "d:1", "0", 1, ["mbr 4096", "2 100 199 05 00"])
    turns(command, wide, "d:2", "0", 1, ["mbr 4096", "1 1 4095 83 00"])
    refused(command.on(wide), "plan 2", "a:1 d:1 n:5:101:+1")


def large(command):
    """Sectors of 4096 bytes: the first alignment is 256, slices are partitions like others, bytes past 512 are kept."""
    it = command.large()
    head, extended = "mbr 2048", "2 512 1535 05 00"

    def of(ebrs):
        image = LARGE.mbr(2048, [bytes(16), record(0x05, 512, 1024)])
        for lba, content in ebrs.items():
            LARGE.put(image, lba, content)
        return image

    blank, one = LARGE.mbr(2048, []), of({512: ebr(link=record(0x05, 255, 101)), 767: ebr(record(0x83, 1, 100))})
    turns(it, blank, "n:2:512:1535:05 n:5:0:+100", "512 767 | 0", 2, [head, extended, "5 768 867 83 00"])
    is_now(it, one, "a logical on large sectors")
    turns(it, None, "n:5:0:+100:A5", "1023 | 767", 2, [head, extended, "5 768 867 83 00", "6 1024 1123 A5 00"])
    turns(it, None, "t:6:07", "1023", 1, [head, extended, "5 768 867 83 00", "6 1024 1123 07 00"])
    turns(it, None, "d:5", "767", 1, [head, extended, "5 1024 1123 07 00"])
    refused(it, "plan 1", "a:1 d:2 n:2:767:1535:05 n:5:1024:+100")
    turns(it, None, "d:2", "0", 1, [head])
    turns(it, blank, "n:1:256:+1:A5 n:0:0:0", "0", 1, [head, "1 256 256 A5 00", "2 512 2047 83 00"])
    turns(it, None, "t:1:83 t:2:A5", "0", 1, [head, "1 256 256 83 00", "2 512 2047 A5 00"])
    for words in ("d:1.a", "t:1.a:07", "n:2.a:0:0"):
        refused(it, "edit 1", words)
    junk = bytearray(one)
    for lba in (0, 512, 767, 639):
        LARGE.put(junk, lba, LARGE.sector(junk, lba)[:512] + bytes([0xAB]) * 3584)
    turns(it, junk, "n:1:256:+1", "0", 1)
    same("bytes past 512 of sector 0", at(it.image(), 0, 512, 4095, LARGE), (bytes([0xAB]) * 3584).hex(" "))
    turns(it, junk, "a:1 n:5:640:+50", "639 | 512", 2, [head, extended, "5 640 689 83 00", "6 768 867 83 00"])
    same("bytes past 512 of a changed boot record", at(it.image(), 512, 512, 4095, LARGE), (bytes([0xAB]) * 3584).hex(" "))
    same("bytes past 512 of a new one", at(it.image(), 639, 512, 4095, LARGE), bytes(3584).hex(" "))
    turns(it, junk, "d:5", "767", 1, [head, extended])
    refused(it.on(one), "plan 1", "t:5:07 n:1:256:+1")
    refused(it, "plan 2", "a:1 d:2 n:2:800:1535:05")
    refused(it.on(LARGE.mbr(4096, [record(0x83, 100, 100), record(0x83, 150, 100)])), "plan 4", "t:1:07")
    stale = turns(it, blank, "n:2:512:1535:05", "512 | 0", 2).edited("d:2")
    turns(stale, None, "n:2:512:1535:05", "0", 1, [head, extended])
    kept = LARGE.sector(stale.image(), 512)[:510] + b"\x55\xaa" + bytes([1]) + bytes(3583)
    it.edited("d:2")
    other = bytearray(it.image())
    LARGE.put(other, 512, kept)
    turns(it, other, "n:2:512:1535:05", "512 | 0", 2, [head, extended])


ROWS = (primaries, first_logical, second_logical, deleted_logicals, link_sizes, kept_bytes, extended_deleted, links_by_their_starts,
        stale_records, long_chains, unsound, large)
