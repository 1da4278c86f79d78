"""What show, verify and locate answer on MBR images, with and without an extended partition."""
from images import LARGE, SMALL, chained, ebr, entry, long_chain, record

EXTENDED = "2 4096 12287 05 00"
FIRST_EBR = ebr(link=record(0x05, 2047, 1001))
LOGICAL = record(0x83, 1, 1000)


def both_sizes(command):
    return ((command, SMALL), (command.large(), LARGE))


def primaries(command):
    for it, sectors in both_sizes(command):
        image = sectors.mbr(4096, [record(0x83, 1, 1000, 0x80), record(0xEF, 1001, 95), bytes(16), record(0x07, 1096, 3000)])
        it.on(image).shows("mbr 4096", "1 1 1000 83 80", "2 1001 1095 EF 00", "4 1096 4095 07 00").healthy()
        it.located("4", 2999, 4095).nowhere("4", 3000).nowhere("3", 0).nowhere("1.a", 0).nowhere("5", 0)
        it.on(sectors.mbr(1, [])).shows("mbr 1").healthy()
        it.on(sectors.mbr(1, [record(0x83, 100, 10)])).shows("mbr 1", "1 100 109 83 00").unhealthy("7 outside 1")
        it.on(sectors.mbr(4096, [record(0x83, 5, 0), record(0, 5, 10)])).shows("mbr 4096").healthy()
        junk = bytes([0, 1, 2, 3, 0, 4, 5, 6]) + bytes([7]) * 8
        it.on(sectors.mbr(4096, [junk, record(0x0C, 9, 1)])).shows("mbr 4096", "2 9 9 0C 00").healthy()
        it.on(sectors.mbr(4096, [record(0xEE, 1, 0)])).no_table("copies 1 1")
        it.on(sectors.mbr(4096, [record(0x83, 1, 9), bytes(16), bytes(16), record(0xEE, 0, 0)])).no_table("copies 1 1")
        it.on(sectors.mbr(4096, [record(0, 0, 0, 0x01)])).no_table("copies 1 1")
        it.on(sectors.mbr(4096, [record(0x83, 1, 9, 0x7F)])).no_table("copies 1 1")
        image = sectors.mbr(4096, [record(0x83, 1, 9)])
        image[511] = 0xA9
        it.on(image).no_table("copies 1 1")
    whole = SMALL.gpt(4096, {1: entry(2048, 4062)})
    whole[:512] = SMALL.mbr(1, [record(0x83, 2048, 2048)])
    command.on(whole).shows("mbr 4096", "1 2048 4095 83 00").healthy()


def unsound(command):
    for it, sectors in both_sizes(command):
        huge = sectors.mbr(4096, [record(0x83, 0xFFFFFFFF, 0xFFFFFFFF)])
        it.on(huge).shows("mbr 4096", "1 4294967295 8589934589 83 00").unhealthy("7 outside 1")
        it.on(sectors.mbr(4096, [record(0x83, 0, 10)])).unhealthy("7 outside 1")
        it.on(sectors.mbr(4096, [record(0x83, 1, 10), record(0x83, 4000, 97)])).unhealthy("7 outside 2")
        it.on(sectors.mbr(4096, [record(0x83, 100, 10), record(0x83, 50, 51)])).unhealthy("8 overlap 2 1")
        it.on(sectors.mbr(4096, [record(0x83, 100, 10), record(0x83, 50, 50)])).healthy()


def extended(command):
    for it, sectors in both_sizes(command):
        for kind in (0x05, 0x0F):
            image = chained({4096: FIRST_EBR, 6143: ebr(LOGICAL)}, sectors, kind)
            it.on(image).shows("mbr 16384", f"2 4096 12287 {kind:02X} 00", "5 6144 7143 83 00").healthy()
            it.located("5", 0, 6144).located("5", 999, 7143).nowhere("5", 1000).nowhere("2", 0).nowhere("6", 0).nowhere("4", 0)
        two = sectors.mbr(4096, [record(0x05, 100, 10), record(0x0F, 200, 10)])
        it.on(two).no_table("two extended")
        sectors.put(two, 100, ebr(link=record(0x05, 0, 1)))
        it.on(two).no_table("two extended")
        it.on(sectors.mbr(4096, [record(0x05, 4096, 10)])).no_table("chain 4 4096")
        it.on(sectors.mbr(4096, [record(0x05, 0xFFFFFFFF, 10)])).no_table("chain 4 4294967295")
        it.on(sectors.mbr(4096, [record(0x05, 0, 10)])).no_table("chain 2 0")
        it.on(sectors.mbr(4096, [bytes(16), record(0x05, 0, 10)])).no_table("chain 3 0")
        image = sectors.mbr(4096, [record(0x05, 4090, 10)])
        sectors.put(image, 4090, ebr())
        it.on(image).shows("mbr 4096", "1 4090 4099 05 00").unhealthy("7 outside 1")


def chains(command):
    """The faults of a chain, each at the sector that has it."""
    for it, sectors in both_sizes(command):
        def of(first, second=ebr(LOGICAL)):
            return it.on(chained({4096: first, 6143: second}, sectors))
        of(FIRST_EBR, ebr()).shows("mbr 16384", EXTENDED).healthy()
        of(ebr(link=record(0x05, 2047, 0))).shows("mbr 16384", EXTENDED).healthy()
        of(ebr(link=record(0x83, 2047, 0))).shows("mbr 16384", EXTENDED).healthy()
        of(ebr(record(0x05, 1, 0), record(0x0F, 2047, 1))).shows("mbr 16384", EXTENDED, "5 6144 7143 83 00").healthy()
        of(FIRST_EBR, ebr(LOGICAL, record(0x05, 0, 1))).no_table("chain 3 6143")
        of(FIRST_EBR, ebr(LOGICAL, record(0x05, 2047, 1))).no_table("chain 3 6143")
        of(ebr(link=record(0x05, 0, 1))).no_table("chain 3 4096")
        of(ebr(link=record(0x05, 8192, 1))).no_table("chain 4 12288")
        of(ebr(link=record(0x05, 0xFFFFFFFF, 1))).no_table("chain 4 4294971391")
        of(ebr(rest=bytes([1]) + bytes(31))).no_table("chain 2 4096")
        of(ebr(rest=bytes(31) + bytes([1]))).no_table("chain 2 4096")
        of(ebr(link=record(0x83, 2047, 1))).no_table("chain 2 4096")
        of(ebr(rest=bytes([1]) + bytes(31), mark=bytes(2))).no_table("chain 1 4096")
        for kind in (0x05, 0x0F, 0xEE):
            of(ebr(record(kind, 1, 1))).no_table("chain 2 4096")
        of(ebr(record(0, 0, 0, 0x01))).no_table("chain 2 4096")
        of(FIRST_EBR, bytes(512)).no_table("chain 1 6143")
        of(FIRST_EBR, ebr(record(0x83, 1, 1, 0x80))).shows("mbr 16384", EXTENDED, "5 6144 6144 83 80").healthy()


def long_chains(command):
    for it, sectors in both_sizes(command):
        it.on(long_chain(129, sectors)).no_table("chain 5")
        lines = [f"{5 + k} {11 + 2 * k} {11 + 2 * k} 83 00" for k in range(128)]
        it.on(long_chain(128, sectors)).shows("mbr 1024", "1 10 909 05 00", *lines).healthy().located("132", 0, 265)
        last = 10 + 2 * 127
        for link, fault in ((record(0x05, 0, 1), f"chain 3 {last}"), (record(0x05, 900, 1), "chain 4 910"),
                            (record(0x05, 899, 1), "chain 5")):
            image = long_chain(128, sectors)
            sectors.put(image, last, ebr(record(0x83, 1, 1), link))
            it.on(image).no_table(fault)


def unsound_logicals(command):
    for it, sectors in both_sizes(command):
        image = chained({4096: FIRST_EBR, 6143: ebr(LOGICAL, record(0x05, 2904, 1)), 7000: ebr()}, sectors)
        it.on(image).shows("mbr 16384", EXTENDED, "5 6144 7143 83 00").unhealthy("9 on table 5 7000")
        image = chained({4096: FIRST_EBR, 6143: ebr(record(0x83, 1, 6145))}, sectors)
        it.on(image).shows("mbr 16384", EXTENDED, "5 6144 12288 83 00").unhealthy("7 outside 5")
        image = chained({4096: ebr(LOGICAL, record(0x05, 500, 1)), 4596: ebr(LOGICAL)}, sectors)
        it.on(image).shows("mbr 16384", EXTENDED, "5 4097 5096 83 00", "6 4597 5596 83 00").unhealthy("8 overlap 5 6")
        image = chained({4096: ebr(record(0x83, 6000, 10), record(0x05, 2047, 1)), 6143: ebr(record(0x83, 1, 10))}, sectors)
        it.on(image).shows("mbr 16384", EXTENDED, "5 10096 10105 83 00", "6 6144 6153 83 00").healthy()
        image = chained({4096: ebr(record(0x83, 1, 1), record(0x05, 1, 1)), 4097: ebr()}, sectors)
        it.on(image).unhealthy("9 on table 5 4097")
        image = chained({4096: FIRST_EBR, 6143: ebr(LOGICAL)}, sectors)
        image[446:462] = record(0x83, 4000, 97)
        it.on(image).unhealthy("8 overlap 1 2")
        image[446:462] = record(0x83, 4000, 96)
        it.on(image).healthy()


ROWS = (primaries, unsound, extended, chains, long_chains, unsound_logicals)
