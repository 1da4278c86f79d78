"""What show, verify and locate answer on images with slices and labels."""
import images
from images import FREEBSD, LARGE, SMALL, chained, checksum_of, ebr, entry, guid, label, record

HEAD = ("mbr 8192", "1 2048 6143 A5 00")
SLICE = record(0xA5, 2048, 4096)


def labelled(content):
    image = SMALL.mbr(8192, [SLICE])
    SMALL.put(image, 2049, content)
    return image


def checksums():
    """The labels of these tests have the checksums that docs/format.md's rule gives by hand."""
    wanted = [(label(4096, {}), 0x2208), (label(77, {}, count=3), 0x2203), (label(4096, {}, raw_offset=2048), 0x2A08),
              (label(4096, {0: (2000, 16, 7)}), 0x25CF), (label(4096, {0: (2000, 16, 7), 1: (1000, 2016, 7)}), 0x21C0),
              (label(4096, {0: (2000, 2064, 7)}, raw_offset=2048), 0x25CF),
              (label(4096, {0: (2000, 2064, 7), 1: (1000, 4064, 7)}, raw_offset=2048), 0x29C0),
              (label(4096, {}, sector_size=2048), 0x2808)]
    for content, total in wanted:
        if checksum_of(content) != total & 0xFFFF:
            raise SystemExit(f"a label's checksum is {checksum_of(content):04X}, not {total:04X}")


def labels(command):
    checksums()
    command.on(SMALL.mbr(8192, [SLICE])).shows(*HEAD).healthy().nowhere("1", 0).nowhere("1.a", 0)
    command.on(labelled(label(4096, {}))).shows(*HEAD).healthy()
    command.on(labelled(label(4096, {0: (2000, 16, 7)}))).shows(*HEAD, "1.a 2064 4063 07").healthy()
    command.located("1.a", 0, 2064).located("1.a", 1999, 4063).nowhere("1.a", 2000).nowhere("1", 0).nowhere("1.c", 0).nowhere("1.b", 0)
    every = {0: (100, 16, 7), 1: (100, 116, 1), 3: (100, 216, 0), 4: (1, 316, 255), 5: (1, 317, 2), 6: (0, 318, 7), 7: (3778, 318, 16)}
    command.on(labelled(label(4096, every))).shows(
        *HEAD, "1.a 2064 2163 07", "1.b 2164 2263 01", "1.d 2264 2363 00", "1.e 2364 2364 FF", "1.f 2365 2365 02",
        "1.h 2366 6143 10").healthy().nowhere("1.g", 0).located("1.d", 0, 2264)
    short = label(4096, {0: (10, 16, 7), 3: (10, 26, 7)}, count=3)
    command.on(labelled(short)).shows(*HEAD, "1.a 2064 2073 07").healthy().nowhere("1.d", 0)


def absolute(command):
    command.on(labelled(label(4096, {}, raw_offset=2048))).shows(*HEAD).healthy()
    two = {0: (2000, 2064, 7), 1: (1000, 4064, 7)}
    command.on(labelled(label(4096, two, raw_offset=2048))).shows(*HEAD, "1.a 2064 4063 07", "1.b 4064 5063 07").healthy()
    command.located("1.b", 0, 4064).located("1.b", 999, 5063).nowhere("1.b", 1000)
    command.on(labelled(label(4096, {0: (10, 2000, 7)}, raw_offset=2048))).shows(*HEAD, "1.a 2000 2009 07").unhealthy("7 outside 1.a")
    command.on(labelled(label(4096, {}, raw_offset=2049))).shows(*HEAD).unhealthy("11 foreign label 1")
    both = SMALL.mbr(8192, [record(0xA5, 0, 4096)])
    SMALL.put(both, 1, label(4096, {0: (10, 100, 7)}))
    command.on(both).shows("mbr 8192", "1 0 4095 A5 00", "1.a 100 109 07").unhealthy("7 outside 1")


def foreign(command):
    """What has the magic and is no label of its slice."""
    a = {0: (2000, 16, 7)}
    for content in (label(4097, a), label(4095, a), label(4096, a, checksum=0x1234), label(4096, a, count=2),
                    label(4096, a, count=9), label(4096, a, count=0xFFFF), label(4096, a, sector_size=2048),
                    label(4096, a, magic2=0x82564556), label(4096, {}, checksum=0x2209), label(4096, {**a, 2: (4096, 16, 0)}),
                    label(4096, {**a, 2: (0, 0, 0)})):
        command.on(labelled(content)).shows(*HEAD).unhealthy("11 foreign label 1").nowhere("1.a", 0)
    command.on(labelled(label(4096, a, magic=0x82564558))).shows(*HEAD).healthy()
    two = SMALL.mbr(8192, [record(0xA5, 5000, 100), record(0xA5, 100, 100)])
    SMALL.put(two, 101, label(99, {}))
    command.on(two).unhealthy("11 foreign label 2")
    SMALL.put(two, 5001, label(99, {}))
    command.on(two).unhealthy("11 foreign label 1")


def unsound(command):
    for a, line, finding in (((2000, 0, 7), "2048 4047", "7 outside 1.a"), ((2000, 15, 7), "2063 4062", "7 outside 1.a"),
                             ((4080, 16, 7), "2064 6143", None), ((4081, 16, 7), "2064 6144", "7 outside 1.a"),
                             ((0xFFFFFFFF, 0xFFFFFFFF, 7), "4294969343 8589936637", "7 outside 1.a")):
        command.on(labelled(label(4096, {0: a}))).shows(*HEAD, f"1.a {line} 07")
        command.unhealthy(finding) if finding else command.healthy()
    apart = {0: (100, 200, 7), 1: (100, 16, 7)}
    command.on(labelled(label(4096, apart))).healthy()
    command.on(labelled(label(4096, {0: (100, 115, 7), 1: (100, 16, 7)}))).unhealthy("8 overlap 1.b 1.a")
    command.on(labelled(label(4096, {0: (100, 16, 7), 7: (100, 16, 7)}))).unhealthy("8 overlap 1.a 1.h")
    image = SMALL.mbr(8192, [SLICE, record(0x83, 6143, 10)])
    SMALL.put(image, 2049, label(4096, {0: (100, 16, 7), 7: (100, 16, 7)}))
    command.on(image).unhealthy("8 overlap 1 2")


def places(command):
    """Slices with and without a place for a label."""
    command.on(SMALL.mbr(4096, [record(0xA5, 4095, 1)])).shows("mbr 4096", "1 4095 4095 A5 00").healthy()
    image = SMALL.mbr(4096, [record(0xA5, 4094, 2)])
    SMALL.put(image, 4095, label(2, {}))
    command.on(image).shows("mbr 4096", "1 4094 4095 A5 00").healthy()
    SMALL.put(image, 4095, label(3, {}))
    command.on(image).unhealthy("11 foreign label 1")
    command.on(SMALL.mbr(4096, [record(0xA5, 4095, 10)])).shows("mbr 4096", "1 4095 4104 A5 00").unhealthy("7 outside 1")
    past = SMALL.mbr(4096, [record(0xA5, 4000, 1000)])
    SMALL.put(past, 4001, label(1000, {0: (10, 16, 7)}))
    command.on(past).shows("mbr 4096", "1 4000 4999 A5 00", "1.a 4016 4025 07").unhealthy("7 outside 1")


def in_chains(command):
    head = ("mbr 16384", "2 4096 12287 05 00")
    first = ebr(link=record(0x05, 2047, 1))
    image = chained({4096: first, 6143: ebr(record(0xA5, 1, 1000)), 6145: label(1000, {0: (100, 16, 7)})})
    command.on(image).shows(*head, "5 6144 7143 A5 00", "5.a 6160 6259 07").healthy().located("5.a", 1, 6161).nowhere("5", 0)
    SMALL.put(image, 6145, label(1000, {0: (100, 6160, 1)}, raw_offset=6144))
    command.on(image).shows(*head, "5 6144 7143 A5 00", "5.a 6160 6259 01").healthy()
    image = chained({4096: first, 6143: ebr(record(0xA5, 1, 1000), record(0x05, 2049, 1)), 6145: ebr()})
    command.on(image).shows(*head, "5 6144 7143 A5 00").unhealthy("9 on table 5 6145")


def on_gpt(command):
    lines = (f"gpt 8192 34 8158 {images.DISK}", f"1 2048 6143 A500 0000000000000000 {images.FIRST}",
             f"2 6144 8158 A500 0000000000000000 {guid(2)}")
    image = SMALL.gpt(8192, {1: entry(2048, 6143, FREEBSD), 2: entry(6144, 8158, FREEBSD, guid(2))})
    command.on(image).shows(*lines).healthy().nowhere("1", 0)
    SMALL.put(image, 2049, label(4096, {3: (100, 16, 1)}))
    SMALL.put(image, 6145, label(2015, {0: (100, 6160, 7)}, raw_offset=6144))
    command.on(image).shows(lines[0], lines[1], "1.d 2064 2163 01", lines[2], "2.a 6160 6259 07").healthy()
    command.located("2.a", 99, 6259).located("1.d", 0, 2064).nowhere("2", 0)
    image[512] ^= 1
    command.on(image).shows(lines[0], lines[1], "1.d 2064 2163 01", lines[2], "2.a 6160 6259 07").unhealthy("2 primary copy 1")
    low = SMALL.gpt(4096, {1: entry(0, 99, FREEBSD)})
    command.on(low).shows(f"gpt 4096 34 4062 {images.DISK}", f"1 0 99 A500 0000000000000000 {images.FIRST}").unhealthy("7 outside 1")


def far(command):
    """A slice that begins past 32 bits has no absolute form; one that begins below has, though it ends past them."""
    sectors = 2 ** 32 + 5000
    for first, absolute in ((4294967200, True), (4294967296, False)):
        pieces = SMALL.gpt_pieces(sectors, {1: entry(first, first + 999, FREEBSD)})
        lines = (f"gpt {sectors} 34 {sectors - 34} {images.DISK}", f"1 {first} {first + 999} A500 0000000000000000 {images.FIRST}")
        pieces[first + 1] = label(1000, {0: (10, 100, 7)})
        command.on_sparse(sectors, pieces).shows(*lines, f"1.a {first + 100} {first + 109} 07").healthy().located("1.a", 9, first + 109)
        if absolute:
            pieces[first + 1] = label(1000, {0: (10, first + 20, 7)}, raw_offset=first)
            command.on_sparse(sectors, pieces).shows(*lines, f"1.a {first + 20} {first + 29} 07").healthy()
    pieces[4294967297] = label(1000, {}, raw_offset=1)
    command.on_sparse(sectors, pieces).shows(*lines).unhealthy("11 foreign label 1")


def sectors_of_4096(command):
    """No slices and no labels: both types are ordinary ones."""
    large = command.large()
    image = LARGE.mbr(8192, [SLICE])
    LARGE.put(image, 2049, label(4096, {0: (2000, 16, 7)}))
    large.on(image).shows(*HEAD).healthy().located("1", 0, 2048).located("1", 4095, 6143).nowhere("1", 4096).nowhere("1.a", 0)
    image = LARGE.gpt(256, {1: entry(6, 250, FREEBSD)})
    LARGE.put(image, 7, label(245, {}, checksum=1))
    large.on(image).shows(f"gpt 256 6 250 {images.DISK}", f"1 6 250 A500 0000000000000000 {images.FIRST}").healthy()
    large.located("1", 0, 6).nowhere("1.a", 0)


ROWS = (labels, absolute, foreign, unsound, places, in_chains, on_gpt, far, sectors_of_4096)
