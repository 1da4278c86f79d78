"""What edits of slices and their labels write, phase by phase, and what stands then: on MBR disks, in chains, on a GPT."""
import images
from images import FREEBSD, SMALL, chained, checksum_of, ebr, entry, guid, label, record
from plans import both_copies, lay, record_at, refused, same, turns

HEAD = ("mbr 8192", "1 2048 6143 A5 00")
WIDE = f"gpt 8192 34 8158 {images.DISK}"
SLICE = f"1 2048 6143 A500 0000000000000000 {images.FIRST}"
CHAIN = ("mbr 16384", "2 4096 12287 05 00")
NEXT = "--fresh 101112131415161718191a1b1c1d1e1f"
A = {0: (2000, 16, 7)}
BLANK = SMALL.mbr(8192, [])


def of(content=b"", length=4096, *more):
    image = SMALL.mbr(8192, [record(0xA5, 2048, length), *more])
    SMALL.put(image, 2049, content)
    return image


def gpt_of(content=b"", **more):
    image = SMALL.gpt(8192, {1: entry(2048, 6143, FREEBSD), **more})
    SMALL.put(image, 2049, content)
    return image


def stands(command, lba, content, checksum=None):
    """The sector holds these bytes and zeros after them."""
    same(f"sector {lba}", SMALL.sector(command.image(), lba), bytes(content) + bytes(512 - len(content)))
    if checksum is not None:
        same("a checksum", checksum_of(SMALL.sector(command.image(), lba)), checksum)


def made(command):
    turns(command, BLANK, "n:1:2048:6143:A5", "2049 | 0", 2, HEAD)
    same("the slice's record", record_at(command.image(), 0, 1), record(0xA5, 2048, 4096).hex(" "))
    stands(command, 2049, label(4096, {}), 0x2208)
    turns(command, None, "a:1 n:1.a:2064:4063", "2049", 1, [*HEAD, "1.a 2064 4063 07"])
    stands(command, 2049, label(4096, A), 0x25CF)
    turns(command, None, "a:1 n:1.b:4064:+1000", "2049", 1, [*HEAD, "1.a 2064 4063 07", "1.b 4064 5063 07"])
    stands(command, 2049, label(4096, {**A, 1: (1000, 2016, 7)}), 0x21C0)
    turns(command, None, "t:1.a:01", "2049", 1, [*HEAD, "1.a 2064 4063 01", "1.b 4064 5063 07"])
    turns(command, None, "d:1.a", "2049", 1, [*HEAD, "1.b 4064 5063 07"])
    stands(command, 2049, label(4096, {1: (1000, 2016, 7)}))
    turns(command, None, "d:1.b n:1.h:0:0:01", "2049", 1, [*HEAD, "1.h 4096 6143 01"])
    turns(command, None, "d:1.h a:1 n:1.a:0:0", "2049", 1, [*HEAD, "1.a 2064 6143 07"])
    turns(command, BLANK, "n:1:2048:6143:A5 a:1 n:1.a:2064:4063", "2049 | 0", 2, [*HEAD, "1.a 2064 4063 07"])
    stands(command, 2049, label(4096, A), 0x25CF)
    turns(command, BLANK, "a:1 n:1:2048:2049:A5 n:2:3000:3015:a5", "2049 3001 | 0", 2,
          ["mbr 8192", "1 2048 2049 A5 00", "2 3000 3015 A5 00"])
    refused(command, "edit 3", "a:1 n:2.a:0:0")
    refused(command, "edit 4", "a:1 n:2.a:3016:3016")
    refused(command.on(BLANK), "edit 8", "n:1:2048:2048:A5")
    turns(command, of(), "a:1 n:2:7000:7100", "0", 1, [*HEAD, "2 7000 7100 83 00"])
    refused(command.on(of()), "edit 13", "n:1.a:0:0")


def several(command):
    """More than one label, or a label and a record, don't go in one call; two words on one label do."""
    two = SMALL.mbr(8192, [record(0xA5, 2048, 2048), record(0xA5, 4096, 2048), record(0x83, 100, 100)])
    for lba in (2049, 4097):
        SMALL.put(two, lba, label(2048, {0: (100, 16, 7)}))
    command.on(two)
    for words in ("d:1.a d:2.a", "d:1.a t:3:07", "t:1.a:01 d:3", "a:1 n:1.b:2164:0 n:4:6200:0"):
        refused(command, "plan 1", words)
    lines = ["mbr 8192", "1 2048 4095 A5 00", "1.a 2064 2163 07", "2 4096 6143 A5 00", "2.a 4112 4211 07", "3 100 199 83 00"]
    turns(command, two, "a:1 n:1.b:2164:0 t:1.a:01", "2049", 1, [*lines[:2], "1.a 2064 2163 01", "1.b 2164 4095 07", *lines[3:]])
    turns(command, two, "d:1", "0", 1, [lines[0], *lines[3:]])
    turns(command, two, "d:1 d:2 d:3", "0", 1, ["mbr 8192"])
    turns(command, two, "t:3:07 n:4:6144:+100:A5", "6145 | 0", 2, [*lines[:5], "3 100 199 07 00", "4 6144 6243 A5 00"])
    gpt = SMALL.gpt(8192, {1: entry(2048, 4095, FREEBSD), 2: entry(4096, 6143, FREEBSD, guid(2))})
    for lba in (2049, 4097):
        SMALL.put(gpt, lba, label(2048, {0: (100, 16, 7)}))
    refused(command.on(gpt), "plan 1", "d:1.a d:2.a")
    gpt[8191 * 512] ^= 1
    refused(command.on(gpt), "plan 1", "d:1.a d:2.a")
    refused(command, "plan 3", "d:1.a")


def on_gpt(command):
    """Only a label changes: one write, on a table that needs no mending."""
    turns(command, gpt_of(label(4096, {})), "a:1 n:1.a:2064:4063", "2049", 1, [WIDE, SLICE, "1.a 2064 4063 07"])
    turns(command, None, "t:1.a:01", "2049", 1, [WIDE, SLICE, "1.a 2064 4063 01"])
    turns(command, None, "d:1.a", "2049", 1, [WIDE, SLICE])
    stands(command, 2049, label(4096, {}))
    turns(command, gpt_of(label(4096, A)), "d:1", both_copies(SMALL, 8192), 2, [WIDE])
    turns(command, gpt_of(label(4096, A)), "c:1:bsd", both_copies(SMALL, 8192), 2, [WIDE, f"{SLICE} bsd", "1.a 2064 4063 07"])
    whole = gpt_of(label(4096, A))
    differing, alternate = bytearray(whole), bytearray(whole)
    SMALL.put_side(differing, "backup", {1: entry(2048, 6142, FREEBSD)})
    SMALL.put_side(alternate, "primary", {1: entry(2048, 6143, FREEBSD)}, alternate=8190)
    broken = [differing, alternate]
    for place in (512, 8191 * 512, 8160 * 512, 3 * 512, 446 + 5, 510):
        broken.append(bytearray(whole))
        broken[-1][place] ^= 0x40
    for image in broken:
        command.on(image)
        refused(command, "plan 3", "a:1 n:1.b:4064:4163")
        refused(command, "plan 3", "d:1.a")
        turns(command, image, "t:1.a:07", both_copies(SMALL, 8192, protects=image[:512] != whole[:512]) if image[512] == whole[512]
              and image[3 * 512] == whole[3 * 512] else "1 | 2-33 | 1 | 8159-8191", 0, [WIDE, SLICE, "1.a 2064 4063 07"])
        turns(command, None, "a:1 n:1.b:4064:4163", "2049", 1, [WIDE, SLICE, "1.a 2064 4063 07", "1.b 4064 4163 07"])
    boot = bytearray(whole)
    boot[:446] = bytes([0xEB]) * 446
    turns(command, boot, "d:1.a", "2049", 1, [WIDE, SLICE])


def in_chains(command):
    turns(command, chained({4096: ebr()}), "n:5:0:+1000:A5", "6143 6145 | 4096", 2, [*CHAIN, "5 6144 7143 A5 00"])
    stands(command, 6145, label(1000, {}))
    turns(command, None, "a:1 n:5.a:6160:6259", "6145", 1, [*CHAIN, "5 6144 7143 A5 00", "5.a 6160 6259 07"])
    turns(command, None, "a:1 n:5:4097:4106", "4096", 1, [*CHAIN, "5 4097 4106 83 00", "6 6144 7143 A5 00", "6.a 6160 6259 07"])
    turns(command, None, "t:6.a:01", "6145", 1, [*CHAIN, "5 4097 4106 83 00", "6 6144 7143 A5 00", "6.a 6160 6259 01"])
    turns(command, None, "d:5", "4096", 1, [*CHAIN, "5 6144 7143 A5 00", "5.a 6160 6259 01"])
    refused(command, "plan 1", "a:1 n:5:4097:4106 d:6.a")
    turns(command, None, "a:1 n:5:4097:4112:A5", "4098 | 4096", 2,
          [*CHAIN, "5 4097 4112 A5 00", "6 6144 7143 A5 00", "6.a 6160 6259 01"])
    turns(command, None, "d:5", "4096", 1, [*CHAIN, "5 6144 7143 A5 00", "5.a 6160 6259 01"])
    turns(command, None, "a:1 n:5:4097:4112:A5", "4096", 1, [*CHAIN, "5 4097 4112 A5 00", "6 6144 7143 A5 00", "6.a 6160 6259 01"])
    turns(command, None, "d:6", "6143", 1, [*CHAIN, "5 4097 4112 A5 00"])
    turns(command, None, "n:5:6144:+1000:A5", "6145 | 6143", 2, [*CHAIN, "5 4097 4112 A5 00", "6 6144 7143 A5 00"])
    turns(command, None, "a:1 n:1:2048:4095:A5 n:1.a:2064:0", "2049 | 0", 2,
          [CHAIN[0], "1 2048 4095 A5 00", "1.a 2064 4095 07", CHAIN[1], "5 4097 4112 A5 00", "6 6144 7143 A5 00"])
    turns(command, SMALL.mbr(16384, []), "n:2:4096:12287:05 n:5:6144:+1000:A5 a:1 n:5.h:0:0", "4096 6143 6145 | 0", 2,
          [*CHAIN, "5 6144 7143 A5 00", "5.h 6160 7143 07"])
    turns(command, None, "d:2", "0", 1, [CHAIN[0]])
    covering = chained({4096: ebr(link=record(0x05, 2047, 1)), 6143: ebr(record(0xA5, 1, 1000), record(0x05, 2049, 1)), 6145: ebr()})
    refused(command.on(covering), "plan 4", "n:1:2048:4095")
    turns(command, covering, "d:5", "6143", 1, [*CHAIN])


def made_again(command):
    """A slice deleted and made again where it was: on an MBR disk the label that stands there isn't written again."""
    turns(command, BLANK, "n:1:2048:6143:A5", "2049 | 0", 2, HEAD)
    turns(command, None, "d:1", "0", 1, ["mbr 8192"])
    turns(command, None, "n:1:2048:6143:A5", "0", 1, HEAD)
    turns(command, None, "d:1", "0", 1, ["mbr 8192"])
    turns(command, None, "n:1:2048:6144:A5", "2049 | 0", 2, ["mbr 8192", "1 2048 6144 A5 00"])
    turns(command, None, "d:1 n:1:2048:6144:A5", "", 0, ["mbr 8192", "1 2048 6144 A5 00"])
    turns(command, None, "d:1 n:2:2048:6144:A5", "0", 1, ["mbr 8192", "2 2048 6144 A5 00"])
    turns(command, of(label(4096, A)), "d:1 n:1:2048:6143:A5", "2049", 1, HEAD)
    refused(command.on(of(label(4096, A))), "plan 1", "d:1 n:2:2048:6143:A5")
    refused(command, "plan 1", "d:1 n:1:2048:6144:A5")
    content = label(4096, A) + bytes(range(100))
    turns(command, of(content), "d:1 n:2:2048:6143:A5 a:1 n:2.a:2064:4063", "0", 1, ["mbr 8192", "2 2048 6143 A5 00", "2.a 2064 4063 07"])
    same("a label whose slice has another number", SMALL.sector(command.image(), 2049), content + bytes(136))
    turns(command, of(), "d:1 n:1:2048:6143:A5", "2049", 1, HEAD)
    refused(command.on(of()), "plan 1", "d:1 n:2:2048:6143:A5")
    refused(command.on(SMALL.mbr(8192, [record(0x83, 2048, 4096)])), "plan 2", "d:1 n:1:2048:6143:A5")
    turns(command, SMALL.mbr(8192, [record(0x83, 2049, 4000)]), "a:1 d:1 n:1:2040:6143:A5", "2041 | 0", 2,
          ["mbr 8192", "1 2040 6143 A5 00"])


def foreign(command):
    """What has the magic and is no label of its slice."""
    for content in (label(4096, A, checksum=0x1234), label(4097, A), label(4096, A, count=2), label(4096, A, sector_size=2048),
                    label(4096, A, raw_offset=2049)):
        command.on(of(content)).unhealthy("11 foreign label 1")
        for words in ("a:1", "a:1 n:2:7000:7100", "a:1 n:2:7000:7100:A5"):
            refused(command, "plan 4", words)
        refused(command, "edit 13", "n:1.a:0:0")
        turns(command, of(content), "d:1", "0", 1, ["mbr 8192"])
    turns(command, of(label(4096, {}), 3000), "a:1 d:1 n:1:2048:6143:A5", "0", 1, HEAD)
    refused(command.on(of(label(4096, {}), 3000)), "plan 1", "a:1 d:1 n:1:2048:5000:A5")
    refused(command, "plan 4", "n:2:6144:0")
    plain = SMALL.mbr(8192, [])
    SMALL.put(plain, 2049, label(77, {}))
    turns(command, plain, "n:1:2048:6143:A5", "2049 | 0", 2, HEAD)
    chain = chained({4096: ebr(link=record(0x05, 2047, 1)), 6143: ebr(record(0xA5, 1, 1000)), 6145: label(999, {})})
    refused(command.on(chain).unhealthy("11 foreign label 5"), "plan 4", "n:1:2048:4095")
    turns(command, chain, "d:5", "6143", 1, [*CHAIN])
    turns(command, None, "n:5:6144:7143:A5", "6145 | 6143", 2, [*CHAIN, "5 6144 7143 A5 00"])


def unsound(command):
    """A partition of a label over the first 16 sectors: one that has the label's own sector can't be deleted alone, since that
    sector is then one that the old layout owns."""
    low = of(label(4096, {0: (2000, 0, 7)}))
    command.on(low).unhealthy("7 outside 1.a")
    refused(command, "plan 2", "d:1.a")
    refused(command, "plan 4", "t:1.a:01")
    refused(command, "plan 4", "a:1 n:2:7000:7100")
    turns(command, low, "d:1", "0", 1, ["mbr 8192"])
    turns(command, of(label(4096, {0: (2000, 2, 7)})), "d:1.a", "2049", 1, HEAD)
    turns(command, of(label(4096, {0: (2000, 1, 7)}), 4096), "d:1", "0", 1, ["mbr 8192"])
    refused(command.on(of(label(4096, {0: (2000, 1, 7)}))), "plan 2", "d:1.a")
    turns(command, of(label(4096, {0: (100, 200, 7), 1: (100, 250, 7)})), "d:1.b", "2049", 1, [*HEAD, "1.a 2248 2347 07"])
    refused(command.on(of(label(4096, {0: (100, 200, 7), 1: (100, 250, 7)}))), "plan 4", "a:1 n:1.d:4000:4100")
    refused(command.on(gpt_of(label(4096, {0: (2000, 0, 7)}))), "plan 2", "d:1.a")
    turns(command, gpt_of(label(4096, {0: (2000, 2, 7)})), "d:1.a", "2049", 1, [WIDE, SLICE])
    covered = of(label(4096, {}), 4096, record(0x83, 2049, 1))
    refused(command.on(covered), "plan 2", "d:2 a:1 n:1.a:2064:0")
    turns(command, covered, "d:2", "0", 1, HEAD)


def kept_bytes(command):
    """A label that changes is encoded over its sector: geometry, names, fields of other entries and what follows stay."""
    content = bytearray(label(4096, {0: (2000, 16, 7), 1: (1000, 2016, 1)}, count=4) + bytes([0xAA]) * 40)
    content[4:40] = bytes(range(1, 37))
    content[44:64] = bytes(range(60, 80))
    content[64:132] = bytes(range(100, 168))
    content[140:148] = bytes(range(8))
    content[164 + 8:164 + 16] = bytes([1, 2, 3, 4, 1, 5, 6, 7])
    content[180 + 8:180 + 16] = bytes([8, 8, 8, 8, 8, 8, 8, 8])
    content[196:212] = bytes(4) + bytes([9] * 8) + bytes([3, 1, 1, 1])

    def summed(given):
        given = bytearray(given)
        given[136:138] = bytes(2)
        total = 0
        for k in range(0, 148 + 16 * 4, 2):
            total ^= int.from_bytes(given[k:k + 2], "little")
        given[136:138] = total.to_bytes(2, "little")
        return given

    content = summed(content)
    image = of(bytes(content) + bytes([0xCC]) * (512 - len(content)))
    lines = [*HEAD, "1.a 2064 4063 07", "1.b 4064 5063 01"]
    turns(command, image, "t:1.b:1B", "2049", 1, [*lines[:3], "1.b 4064 5063 1B"])
    wanted = bytearray(content)
    wanted[164 + 12] = 0x1B
    same("a type alone", SMALL.sector(command.image(), 2049)[:len(content)], bytes(summed(wanted)))
    turns(command, image, "d:1.a", "2049", 1, [*HEAD, "1.b 4064 5063 01"])
    wanted = bytearray(content)
    wanted[148:164] = bytes(16)
    same("an entry that goes", SMALL.sector(command.image(), 2049)[:len(content)], bytes(summed(wanted)))
    turns(command, image, "a:1 n:1.d:5064:+10:02", "2049", 1, [*lines, "1.d 5064 5073 02"])
    wanted = bytearray(content)
    wanted[196:212] = (10).to_bytes(4, "little") + (3016).to_bytes(4, "little") + bytes(4) + bytes([2, 0, 0, 0])
    same("an entry that is made", SMALL.sector(command.image(), 2049), bytes(summed(wanted)) + bytes([0xCC]) * (512 - len(content)))
    refused(command, "edit 1", "a:1 n:1.e:5074:0")


def absolute(command):
    """Labels whose offsets count sectors of the disk keep that form."""
    empty = of(label(4096, {}, raw_offset=2048))
    lines = [*HEAD, "1.a 2064 4063 07", "1.b 4064 5063 07"]
    same("its checksum", checksum_of(SMALL.sector(empty, 2049)), 0x2A08)
    turns(command, empty, "a:1 n:1.a:2064:4063", "2049", 1, lines[:3])
    stands(command, 2049, label(4096, {0: (2000, 2064, 7)}, raw_offset=2048), 0x25CF)
    turns(command, None, "a:1 n:1.b:4064:+1000", "2049", 1, lines)
    stands(command, 2049, label(4096, {0: (2000, 2064, 7), 1: (1000, 4064, 7)}, raw_offset=2048), 0x29C0)
    both = command.image()
    turns(command, None, "t:1.a:01", "2049", 1, [*HEAD, "1.a 2064 4063 01", lines[3]])
    turns(command, None, "d:1.a", "2049", 1, [*HEAD, lines[3]])
    stands(command, 2049, label(4096, {1: (1000, 4064, 7)}, raw_offset=2048))
    fresh = "--fresh " + "".join(guid(k).replace("-", "") for k in (1, 2))
    turns(command, both, f"{fresh} g", "1-33 8159-8191 | 0", 2,
          [f"gpt 8192 34 8158 {guid(1)}", SLICE.replace(images.FIRST, guid(2)), *lines[2:]])
    turns(command, None, "d:1.b", "2049", 1, [f"gpt 8192 34 8158 {guid(1)}", SLICE.replace(images.FIRST, guid(2)), lines[2]])
    stands(command, 2049, label(4096, {0: (2000, 2064, 7)}, raw_offset=2048))
    turns(command, empty, "d:1 n:1:2048:6143:A5", "2049", 1, HEAD)
    stands(command, 2049, label(4096, {}))
    chain = chained({4096: ebr(link=record(0x05, 2047, 1)), 6143: ebr(record(0xA5, 1, 1000)), 6145: label(1000, {}, raw_offset=6144)})
    turns(command, chain, "a:1 n:5.a:6160:+10", "6145", 1, [*CHAIN, "5 6144 7143 A5 00", "5.a 6160 6169 07"])
    stands(command, 6145, label(1000, {0: (10, 6160, 7)}, raw_offset=6144))


def far(command):
    """An offset of 32 bits: of the disk's sectors or of the slice's."""
    sectors = 2 ** 32 + 5000
    pieces = SMALL.gpt_pieces(sectors, {1: entry(4294967200, 4294968199, FREEBSD)})
    lines = [f"gpt {sectors} 34 {sectors - 34} {images.DISK}", f"1 4294967200 4294968199 A500 0000000000000000 {images.FIRST}"]
    pieces[4294967201] = label(1000, {}, raw_offset=4294967200) + bytes(236)
    disk = (sectors, pieces)
    refused(lay(command, disk), "edit 15", "a:1 n:1.a:4294967300:+10")
    refused(command, "edit 15", "a:1 n:1.a:4294967296:+10")
    turns(command, disk, "a:1 n:1.a:4294967295:+10", "4294967201", 1, [*lines, "1.a 4294967295 4294967304 07"])
    turns(command, disk, "a:1 n:1.a:4294967290:+10", "4294967201", 1, [*lines, "1.a 4294967290 4294967299 07"])
    pieces[4294967201] = label(1000, {}) + bytes(236)
    turns(command, disk, "a:1 n:1.a:4294967300:+10", "4294967201", 1, [*lines, "1.a 4294967300 4294967309 07"])
    pieces[4294967201] = bytes(512)
    gone = (sectors, {**SMALL.gpt_pieces(sectors, {}), 4294967201: bytes(512)})
    turns(command, gone, f"{NEXT} a:1 n:2:4294967200:+1000:A500", both_copies(SMALL, sectors, "4294967201"), 2)
    record_sectors = (sectors, {0: bytes(SMALL.mbr(1, [])), 1: bytes(512)})
    turns(command, record_sectors, "n:1:2048:0", "0", 1, [f"mbr {sectors}", "1 2048 4294967295 83 00"])
    refused(command, "edit 4", "n:2:4294967296:0")


ROWS = (made, several, on_gpt, in_chains, made_again, foreign, unsound, kept_bytes, absolute, far)
