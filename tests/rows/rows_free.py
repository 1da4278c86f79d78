"""Where a new partition may lie: the blocks of free sectors."""
import json

from images import FREEBSD, LARGE, SMALL, chained, ebr, entry, guid, label, one_partition, record

NEXT = ("--fresh", "101112131415161718191a1b1c1d1e1f")
LAST_OF_RECORDS = 2 ** 32 - 1


def member(first, last, *inside):
    """A block as an object of JSON."""
    return {**({"inside": inside[0]} if inside else {}), "size": last - first + 1, "start": first}


def free(command, *blocks):
    """`free` prints these blocks, or `none` with status 1 where there are none; and as JSON all of them, also where there are none."""
    command.gives(["free", "--json"], json.dumps({"freeblocks": [member(*it) for it in blocks]}, indent=2) + "\n")
    if not blocks:
        return command.gives(["free"], "none\n", status=1)
    return command.gives(["free"], "".join(" ".join(map(str, it)) + "\n" for it in blocks))


def of_entries(command):
    free(command.on(one_partition()), (34, 2047))
    free(command.on(SMALL.gpt(4096, {})), (34, 4062))
    free(command.on(SMALL.gpt(4096, {1: entry(34, 4062)})))
    free(command.on(SMALL.gpt(8192, {1: entry(2000, 2999), 2: entry(5000, 5999, unique=guid(2))})), (34, 1999), (3000, 4999), (6000, 8158))
    # in any order, side by side, over each other, in no order, and past what is usable
    free(command.on(SMALL.gpt(4096, {3: entry(34, 99), 1: entry(3000, 4062, unique=guid(2)), 2: entry(100, 199, unique=guid(3))})),
         (200, 2999))
    free(command.on(SMALL.gpt(4096, {1: entry(100, 299), 2: entry(200, 249, unique=guid(2)), 3: entry(250, 399, unique=guid(3))})),
         (34, 99), (400, 4062))
    free(command.on(SMALL.gpt(4096, {1: entry(300, 200), 2: entry(0, 50, unique=guid(2)), 3: entry(4000, 5000, unique=guid(3))})),
         (51, 3999))
    free(command.on(SMALL.gpt(4096, {1: entry(0, 2 ** 63 - 1)})))
    free(command.on(SMALL.gpt(4096, {1: entry(0, 2 ** 63)})), (34, 4062))
    free(command.on(SMALL.gpt(4096, {k: entry(100 + 2 * k, 100 + 2 * k, unique=guid(k)) for k in range(1, 129)})), (34, 101),
         *((101 + 2 * k, 101 + 2 * k) for k in range(1, 128)), (357, 4062))
    free(command.large().on(LARGE.gpt(1024, {1: entry(6, 99, FREEBSD), 2: entry(200, 1018, unique=guid(2))})), (100, 199))


def of_records(command):
    free(command.on(SMALL.mbr(4096, [])), (1, 4095))
    free(command.on(SMALL.mbr(1, [])))
    free(command.on(SMALL.mbr(4096, [record(0x83, 2048, 100), record(0x07, 1, 1047)])), (1048, 2047), (2148, 4095))
    free(command.on(SMALL.mbr(4096, [record(0x83, 0, 10), record(0x83, 4000, 200)])), (10, 3999))
    command.on_sparse(LAST_OF_RECORDS + 3, {0: bytes(SMALL.mbr(1, [record(0x83, 1, 99)]))})
    free(command, (100, LAST_OF_RECORDS))


def of_containers(command):
    """Inside the extended partition and slices, each under its number; outside they are taken as a whole."""
    free(command.on(chained({4096: ebr(link=record(0x05, 2047, 1001)), 6143: ebr(record(0x83, 1, 1000))})),
         (1, 4095), (12288, 16383), (4097, 6142, 2), (7144, 12287, 2))
    image = SMALL.mbr(8192, [record(0xA5, 2048, 4096)])
    free(command.on(image), (1, 2047), (6144, 8191))
    SMALL.put(image, 2049, label(4096, {0: (2064, 16, 7)}, count=4))
    free(command.on(image), (1, 2047), (6144, 8191), (4128, 6143, 1))
    # an empty label leaves the slice from its 17th sector on, a full one nothing
    image = SMALL.mbr(8192, [bytes(16), record(0x83, 2048, 1024), record(0xA5, 4096, 1024)])
    SMALL.put(image, 4097, label(1024, {}))
    free(command.on(image), (1, 2047), (3072, 4095), (5120, 8191), (4112, 5119, 3))
    SMALL.put(image, 4097, label(1024, {0: (1008, 16, 7)}))
    free(command.on(image), (1, 2047), (3072, 4095), (5120, 8191))
    image = SMALL.gpt(8192, {2: entry(2048, 4095, FREEBSD)})
    SMALL.put(image, 2049, label(2048, {1: (10, 100, 7)}))
    free(command.on(image), (34, 2047), (4096, 8158), (2064, 2147, 2), (2158, 4095, 2))


def is_taken_then(command):
    """A partition takes a block, and the others are left."""
    image = SMALL.gpt(8192, {1: entry(2000, 2999), 2: entry(5000, 5999, unique=guid(2))})
    blocks = ((34, 1999), (3000, 4999), (6000, 8158))
    for first, last in blocks:
        command.on(image).edited(*NEXT, "a:1", f"n:3:{first}:{last}")
        free(command, *(it for it in blocks if it != (first, last)))
        command.on(image).refused("edit 5" if last < 8158 else "edit 4", *NEXT, "a:1", f"n:3:{first}:{last + 1}")


def of_nothing(command):
    command.on(SMALL.zeros(4096)).gives(["free"], "", "no table: copies 1 1\n", 4)
    command.on(SMALL.zeros(67)).gives(["free"], "", "no table: too small\n", 4)
    command.on(SMALL.mbr(16384, [record(0x05, 20, 8192)])).gives(["free"], "", "no table: chain 1 20\n", 4)
    two = SMALL.mbr(4096, [record(0x05, 20, 10), record(0x0F, 40, 10)])
    command.on(two).gives(["free"], "", "no table: two extended\n", 4)


ROWS = (of_entries, of_records, of_containers, is_taken_then, of_nothing)
