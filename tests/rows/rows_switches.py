"""What check answers of plans made by hand, byte by byte: the first reason against one, or the phase that switches."""
import images
from images import FREEBSD, LARGE, SMALL, chained, ebr, entry, guid, label, one_partition, record
from plans import checks, same


def pieces(image, *runs, sectors=SMALL):
    """The sectors of an image as writes: numbers, and (first, last) for runs."""
    places = [lba for run in runs for lba in (range(run[0], run[1] + 1) if isinstance(run, tuple) else (run,))]
    return [(lba, sectors.sector(image, lba)) for lba in places]


def zero(lba, sectors=SMALL):
    return [(lba, bytes(sectors.size))]


def changed(image, lba, byte, value, sectors=SMALL):
    content = bytearray(sectors.sector(image, lba))
    content[byte] = value
    return [(lba, bytes(content))]


def renamed():
    return SMALL.gpt(4096, {1: entry(2048, 4062, name="data")})


def whole_copies(new):
    return [pieces(new, (4063, 4095)), zero(1), pieces(new, (2, 33)), pieces(new, 1)]


def of_a_gpt(command):
    old, new = one_partition(), renamed()
    command.on(old)
    plan = whole_copies(new)
    checks(command, [], "yes 0")
    checks(command, plan, "yes 2")
    checks(command, plan[:1] + plan[2:], "no 4 2 2")
    checks(command, plan[:1] + [plan[1] + plan[2]] + plan[3:], "no 4 2 1")
    checks(command, plan[1:], "no 8 4")
    checks(command, plan[:2], "no 8 2")
    checks(command, plan[:3], "no 8 2")
    checks(command, plan[:1], "no 8 4")
    checks(command, [plan[1], plan[2], plan[3], plan[0]], "yes 3")
    checks(command, [plan[2], plan[1], plan[3], plan[0]], "no 4 1 2")
    checks(command, [plan[0], plan[1], plan[3], plan[2]], "no 4 4 2")
    checks(command, [[it] for it in plan[0]] + plan[1:2] + [[it] for it in plan[2]] + plan[3:], "yes 34")
    checks(command, [list(reversed(plan[0])), plan[1], list(reversed(plan[2])), plan[3]], "yes 2")
    checks(command, [zero(2)] * 4097, "no 1")
    checks(command, [pieces(old, 2)] * 4096, "yes 0")
    checks(command, [pieces(old, 4063) * 4096], "yes 0")
    checks(command, [pieces(old, 4063) * 4097], "no 1")
    checks(command, [changed(old, 0, 0, 1)], "no 3 1")
    checks(command, [zero(1), zero(4095), pieces(old, 1)], "no 5 2")
    checks(command, [zero(100)], "no 6 100")
    sliced = SMALL.gpt(4096, {1: entry(2048, 4062, FREEBSD)})
    SMALL.put(sliced, 2049, label(2015, {}))
    checks(command, [pieces(sliced, 2049, (4063, 4095)), *whole_copies(sliced)[1:]], "no 7 2049")
    checks(command, [zero(0)], "no 8 6")
    checks(command, [zero(4095), zero(1)], "no 8 1")
    checks(command, [zero(1)], "no 8 2")
    checks(command, [zero(4095)], "no 8 3")
    checks(command, [zero(4096)], "no 2 1")
    checks(command, [pieces(old, 2), zero(2 ** 64 - 1)], "no 2 2")
    from_backup = bytearray(old)
    from_backup[512] ^= 1
    command.on(from_backup)
    checks(command, [], "no 8 2")
    checks(command, whole_copies(new), "no 4 1 4063")
    checks(command, [plan[1], plan[2], plan[3], plan[0]], "yes 3")
    mended = whole_copies(old)
    checks(command, [mended[1], mended[2], mended[3]], "yes 0")
    checks(command, [mended[1], mended[2], mended[3], mended[0]], "yes 0")
    checks(command, [mended[3]], "yes 0")


def order(command):
    """The first reason of several is the one that is given."""
    old = one_partition()
    command.on(old)
    boot, far = changed(old, 0, 0, 1), zero(4096)
    checks(command, [boot, far], "no 2 2")
    checks(command, [boot, far] + [zero(2)] * 4095, "no 1")
    checks(command, [zero(100), zero(2), changed(old, 0, 439, 1)], "no 3 3")
    checks(command, [changed(old, 0, 440, 1)], "yes 0")
    checks(command, [changed(old, 0, 445, 1)], "yes 0")
    checks(command, [changed(old, 0, 447, 1)], "no 8 6")
    checks(command, [zero(100), zero(1) + zero(2), zero(4095)], "no 4 2 1")
    checks(command, [zero(1), zero(4095) + zero(4094)], "no 4 2 4095")
    checks(command, [zero(1), zero(4095), zero(100)], "no 6 100")
    checks(command, [zero(1), zero(4095), pieces(old, 1), zero(100)], "no 5 2")
    checks(command, [zero(100), zero(1)], "no 6 100")
    checks(command, [pieces(old, 100)], "no 6 100")
    checks(command, [zero(2048)], "no 6 2048")
    checks(command, [zero(2050) + zero(2049)], "no 6 2050")
    checks(command, [pieces(old, 2), pieces(old, 0), pieces(old, 4070) * 2], "yes 0")


def without_a_table(command):
    """Nothing is a layout here: before, after, or both."""
    blank = SMALL.zeros(4096)
    command.on(blank)
    checks(command, [], "no 8 1")
    checks(command, [zero(5)], "no 6 5")
    new = one_partition()
    checks(command, [pieces(new, 1)], "no 6 1")
    checks(command, [zero(1), pieces(new, (2, 33)), pieces(new, 1), pieces(new, (4063, 4095)), pieces(new, 0)], "yes 3")
    checks(command, [pieces(new, (2, 33)), pieces(new, 1), pieces(new, (4063, 4095)), pieces(new, 0)], "yes 2")
    checks(command, [pieces(new, (2, 33)), pieces(new, (4063, 4094)), pieces(new, 1), pieces(new, 4095)], "no 8 6")
    checks(command, [pieces(new, (1, 33)), pieces(new, (4063, 4095))], "no 4 1 1")
    checks(command, [pieces(new, 1), pieces(new, (2, 33))], "no 4 2 2")
    command.on(SMALL.zeros(0))
    checks(command, [], "no 8 1")
    checks(command, [zero(0)], "no 2 1")
    command.on(SMALL.zeros(67))
    checks(command, [], "no 8 1")
    checks(command, [[(0, bytes(SMALL.mbr(1, [])))]], "yes 1")


def of_mbrs(command):
    blank, one = SMALL.mbr(16384, []), chained({4096: ebr(link=record(0x05, 2047, 1001)), 6143: ebr(record(0x83, 1, 1000))})
    command.on(blank)
    checks(command, [], "yes 0")
    checks(command, [pieces(one, 4096, 6143), pieces(one, 0)], "yes 2")
    checks(command, [pieces(one, 6143), pieces(one, 4096), pieces(one, 0)], "yes 3")
    checks(command, [pieces(one, 0, 4096, 6143)], "no 4 1 0")
    checks(command, [pieces(one, 0), pieces(one, 4096, 6143)], "no 5 1")
    checks(command, [pieces(one, 4096), pieces(one, 0)], "no 6 4096")
    checks(command, [pieces(one, 4096)], "no 6 4096")
    checks(command, [pieces(one, 0)], "no 8 1")
    checks(command, [pieces(one, 0), pieces(blank, 0)], "no 5 1")
    leaf = SMALL.mbr(16384, [record(0x83, 2048, 100)])
    checks(command, [pieces(leaf, 0), pieces(blank, 0), pieces(leaf, 0)], "no 5 2")
    checks(command, [pieces(leaf, 0), pieces(leaf, 0)], "yes 1")
    checks(command, [pieces(blank, 0), pieces(leaf, 0)], "yes 2")
    checks(command, [pieces(leaf, 0) * 2], "no 4 1 0")
    checks(command, [[(0, bytes(SMALL.mbr(1, [record(0x83, 100, 10), record(0x07, 105, 10)])))]], "no 8 8")
    checks(command, [[(0, bytes(SMALL.mbr(1, [record(0x83, 100, 16384)])))]], "no 8 7")
    two = bytearray(one)
    SMALL.put(two, 6143, ebr(record(0x83, 1, 1000), record(0x05, 4095, 11)))
    SMALL.put(two, 8191, ebr(record(0x83, 1, 10)))
    command.on(one)
    checks(command, [pieces(two, 8191), pieces(two, 6143)], "yes 2")
    checks(command, [pieces(two, 8191) * 2, pieces(two, 6143)], "yes 2")
    checks(command, [pieces(two, 6143), pieces(two, 8191)], "no 5 1")
    checks(command, [pieces(two, 8191, 6143)], "no 4 1 6143")
    checks(command, [pieces(two, 8191)], "no 6 8191")
    checks(command, [pieces(one, 6143)], "yes 0")
    checks(command, [zero(6143)], "no 8 1")
    inside = bytearray(one)
    SMALL.put(inside, 6143, ebr(record(0x83, 1, 1000), record(0x05, 2904, 1)))
    SMALL.put(inside, 7000, ebr())
    checks(command, [pieces(inside, 7000), pieces(inside, 6143)], "no 7 7000")
    checks(command, [[(4096, bytes(512))], [(0, bytes(SMALL.mbr(1, [])))]], "no 5 1")
    checks(command, [[(0, bytes(SMALL.mbr(1, [])))]], "yes 1")
    checks(command, [[(0, bytes(SMALL.mbr(1, [])))], zero(4096)], "yes 1")
    two_extended = [(0, bytes(SMALL.mbr(1, [record(0x05, 4096, 8192), record(0x05, 14000, 10)])))]
    checks(command, [two_extended], "no 8 1")


def of_labels(command):
    blank = SMALL.mbr(8192, [record(0x83, 7000, 10)])
    sliced = SMALL.mbr(8192, [record(0xA5, 2048, 2048), record(0x83, 7000, 10)])
    SMALL.put(sliced, 2049, label(2048, {}))
    command.on(blank)
    checks(command, [pieces(sliced, 2049), pieces(sliced, 0)], "yes 2")
    checks(command, [pieces(sliced, 0), pieces(sliced, 2049)], "no 5 1")
    checks(command, [pieces(sliced, 0)], "yes 1")
    checks(command, [pieces(sliced, 2049)], "no 6 2049")
    checks(command, [[(2049, label(2047, {}) + bytes(236))], pieces(sliced, 0)], "no 8 11")
    leaf = SMALL.mbr(8192, [record(0x83, 2048, 2048), record(0x83, 7000, 10)])
    command.on(leaf)
    checks(command, [pieces(sliced, 2049), pieces(sliced, 0)], "no 7 2049")
    two = SMALL.mbr(8192, [record(0xA5, 2048, 2048), record(0xA5, 4096, 2048)])
    more = bytearray(two)
    for image, entries in ((two, {}), (more, {0: (100, 16, 7)})):
        SMALL.put(image, 2049, label(2048, entries))
        SMALL.put(image, 4097, label(2048, entries))
    command.on(two)
    checks(command, [pieces(more, 2049)], "yes 1")
    checks(command, [pieces(more, 2049), pieces(more, 4097)], "no 5 1")
    checks(command, [pieces(more, 2049, 4097)], "no 4 1 2049")
    checks(command, [[(2049, label(2048, {0: (100, 15, 7)}) + bytes(236))]], "no 8 7")
    checks(command, [[(2049, label(2048, {0: (100, 2, 7)}) + bytes(236))]], "no 8 7")
    checks(command, [[(2049, label(2048, {0: (100, 1, 7)}) + bytes(236))]], "no 7 2049")
    checks(command, [zero(2049)], "yes 1")
    checks(command, [[(2049, label(2049, {}) + bytes(236))]], "no 8 11")
    gpt = SMALL.gpt(8192, {1: entry(2048, 4095, FREEBSD), 2: entry(4096, 6143, images.LINUX, guid(2))})
    SMALL.put(gpt, 2049, label(2048, {}))
    command.on(gpt)
    checks(command, [[(2049, label(2048, {0: (100, 16, 7)}) + bytes(236))]], "yes 1")
    checks(command, [zero(2050)], "no 6 2050")
    checks(command, [zero(4097)], "no 6 4097")


def conversions(command):
    mbr, gpt = SMALL.mbr(4096, [record(0x83, 2048, 2015)]), one_partition()
    command.on(mbr)
    checks(command, [pieces(gpt, (1, 33), (4063, 4095)), pieces(gpt, 0)], "yes 2")
    checks(command, [pieces(gpt, (1, 33)), pieces(gpt, (4063, 4095)), pieces(gpt, 0)], "yes 3")
    checks(command, [pieces(gpt, 0), pieces(gpt, (1, 33), (4063, 4095))], "no 5 1")
    checks(command, [pieces(gpt, (0, 33), (4063, 4095))], "no 4 1 0")
    checks(command, [pieces(gpt, (1, 33), (4063, 4095))], "no 6 1")
    checks(command, [pieces(gpt, (1, 33)), pieces(gpt, 0)], "no 8 3")
    command.on(SMALL.mbr(4096, [record(0x83, 2048, 2016)]))
    checks(command, [pieces(gpt, (1, 33), (4063, 4095)), pieces(gpt, 0)], "no 7 4063")
    command.on(gpt)
    checks(command, [pieces(mbr, 0)], "yes 1")
    checks(command, [pieces(mbr, 0), zero(1), zero(4095)], "yes 1")


def large(command):
    it = command.large()
    old, new = LARGE.gpt(256, {1: entry(6, 250)}), LARGE.gpt(256, {1: entry(6, 250, name="data")})
    it.on(old)
    plan = [pieces(new, (251, 255), sectors=LARGE), zero(1, LARGE), pieces(new, (2, 5), sectors=LARGE), pieces(new, 1, sectors=LARGE)]
    checks(it, [], "yes 0")
    checks(it, plan, "yes 2")
    checks(it, plan[:1] + plan[2:], "no 4 2 2")
    checks(it, [zero(256, LARGE)], "no 2 1")
    checks(it, [changed(old, 0, 439, 1, LARGE)], "no 3 1")
    checks(it, [changed(old, 0, 440, 1, LARGE)], "yes 0")
    checks(it, [changed(old, 0, 512, 1, LARGE)], "yes 0")
    checks(it, [changed(old, 0, 4095, 1, LARGE)], "yes 0")
    checks(it, [changed(old, 0, 511, 1, LARGE)], "no 8 6")
    checks(it, [zero(6, LARGE)], "no 6 6")
    checks(it, [zero(255, LARGE), zero(1, LARGE)], "no 8 1")
    mbr = LARGE.mbr(256, [record(0x83, 6, 245)])
    it.on(mbr)
    checks(it, [pieces(old, (1, 5), (251, 255), sectors=LARGE), pieces(old, 0, sectors=LARGE)], "yes 2")
    checks(it, [pieces(old, 0, sectors=LARGE), pieces(old, (1, 5), (251, 255), sectors=LARGE)], "no 5 1")
    sliced = LARGE.mbr(256, [record(0xA5, 6, 245)])
    checks(it, [[(7, label(245, {}) + bytes(3820))], pieces(sliced, 0, sectors=LARGE)], "no 6 7")
    checks(it, [pieces(sliced, 0, sectors=LARGE)], "yes 1")


def applied(command):
    """A plan from elsewhere, applied: the image is that plan's, and nothing else."""
    new = renamed()
    path = f"{command.path}.plan"
    with open(path, "w", encoding="ascii") as it:
        it.write("")
    same("apply", command.on(one_partition()).run("apply", path), ("done\n", "", 0))
    same("the empty plan", command.image() == bytes(one_partition()), True)
    with open(path, "w", encoding="ascii") as it:
        for phase in whole_copies(new):
            it.write("".join(f"W {lba} {content.hex().upper()}\n" for lba, content in phase) + "F\n")
    same("apply", command.run("apply", path), ("done\n", "", 0))
    same("an applied plan", command.image() == bytes(new), True)
    same("apply", command.run("apply", path), ("done\n", "", 0))
    same("a plan applied twice", command.image() == bytes(new), True)


ROWS = (of_a_gpt, order, without_a_table, of_mbrs, of_labels, conversions, large, applied)
