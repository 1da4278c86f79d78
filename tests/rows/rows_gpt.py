"""What show, verify and locate answer on GPT images."""
import images
from images import LARGE, SMALL, entry, guid, one_partition, protective

HEAD = f"gpt 4096 34 4062 {images.DISK}"
ONE = f"1 2048 4062 8300 0000000000000000 {images.FIRST}"
LARGE_HEAD = f"gpt 256 6 250 {images.DISK}"


def whole(command):
    command.on(one_partition()).shows(HEAD, ONE).healthy()
    for k, lba in ((0, 2048), (1, 2049), (2014, 4062)):
        command.located("1", k, lba)
    for path, k in (("1", 2015), ("2", 0), ("1.a", 0), ("129", 0), ("1", 2 ** 64 - 1), (str(2 ** 64 - 1), 0)):
        command.nowhere(path, k)
    for path, k in (("0", "0"), ("01", "0"), ("1.i", "0"), ("1.A", "x"), ("1.", "0"), (".a", "0"), ("1.ab", "0"), ("", "0"),
                    ("+1", "0"), (str(2 ** 64), "0")):
        command.gives(["locate", path, k], "", "bad path\n", 2)
    for k in ("x", "01", "", "+1", "1 ", str(2 ** 64)):
        command.gives(["locate", "1", k], "", "bad number\n", 2)
    command.gives(["show", "--sector-size", "512"], f"{HEAD}\n{ONE}\n")
    command.large().no_table("copies 1 1")
    for sectors in (4096, 4097):
        tail = SMALL.gpt(sectors, {}) + bytes(511)
        command.on(tail).shows(f"gpt {sectors} 34 {sectors - 34} {images.DISK}").healthy()


def damaged(command):
    image = one_partition()
    image[2 * 512 + 200] ^= 1
    command.on(image).shows(HEAD, ONE).unhealthy("2 primary copy 9").located("1", 0, 2048)
    image = one_partition()
    image[512] ^= 0xFF
    command.on(image).shows(HEAD, ONE).unhealthy("2 primary copy 1")
    image[4095 * 512] ^= 0xFF
    command.on(image).no_table("copies 1 1").gives(["locate", "1", "0"], "", "no table: copies 1 1\n", 4)
    image = one_partition()
    image[4095 * 512] ^= 0xFF
    command.on(image).shows(HEAD, ONE).unhealthy("3 backup copy 1")
    image = one_partition()
    image[(4095 - 32) * 512] ^= 1
    command.on(image).shows(HEAD, ONE).unhealthy("3 backup copy 9")
    grown = one_partition() + SMALL.zeros(1000)
    command.on(grown).shows(HEAD.replace("4096", "5096"), ONE).unhealthy("3 backup copy 1")
    command.on(one_partition()[:3000 * 512]).no_table("copies 8 1")


def headers(command):
    """Each fault of a header, in the primary and in the backup, with right sums unless the sum is the fault."""
    faults = [({"signature": b"EFI PARU"}, 1), ({"revision": 0x10001}, 2), ({"size": 91}, 3), ({"size": 513}, 3),
              ({"size": 0xFFFFFFFF, "crc": 1}, 3), ({"crc": 1}, 4), ({"my": 2}, 5), ({"array": 3}, 6),
              ({"array": 2 ** 64 - 1}, 6), ({"count": 0}, 7), ({"count": 129}, 7), ({"count": 0xFFFFFFFF}, 7),
              ({"entry_size": 256}, 7), ({"first": 33}, 8), ({"last": 4063}, 8), ({"first": 3000, "last": 2999}, 8),
              ({"last": 2 ** 64 - 1}, 8), ({"array_crc": 1}, 9)]
    entries = {1: entry(2048, 4062)}
    for fields, number in faults:
        image = one_partition()
        SMALL.put(image, 1, header_of("primary", entries, **fields))
        command.on(image).shows(HEAD, ONE).unhealthy(f"2 primary copy {number}")
        SMALL.put(image, 4095, header_of("backup", entries, **fields))
        command.on(image).no_table(f"copies {number} {number}")
        SMALL.put(image, 1, header_of("primary", entries))
        command.on(image).shows(HEAD, ONE).unhealthy(f"3 backup copy {number}")


def header_of(side, entries, **fields):
    array_crc = images.zlib.crc32(images.array_of(entries))
    my, alternate, array = (1, 4095, 2) if side == "primary" else (4095, 1, 4063)
    words = dict(my=my, alternate=alternate, first=34, last=4062, array=array, array_crc=array_crc)
    return SMALL.header(**{**words, **fields})


def first_fault(command):
    """Of several faults of one header the first in order is told."""
    steps = [{"signature": bytes(8)}, {"revision": 2}, {"size": 91}, {"crc": 1}, {"my": 9}, {"array": 9}, {"count": 0},
             {"first": 33}, {"array_crc": 1}]
    for number in range(1, 10):
        fields = {}
        for step in steps[number - 1:]:
            fields.update(step)
        image = one_partition()
        SMALL.put(image, 1, header_of("primary", {}, **fields))
        command.on(image).unhealthy(f"2 primary copy {number}")


def accepted(command):
    """Headers that are unusual and right."""
    entries = {1: entry(2048, 4062)}
    for fields in ({"size": 93}, {"size": 512}):
        command.on(SMALL.gpt(4096, entries, **fields)).shows(HEAD, ONE).healthy()
    image = SMALL.gpt(4096, {4: entry(2048, 4062)}, count=4)
    SMALL.put(image, 3, b"past the last entry")
    command.on(image).shows(HEAD, f"4{ONE[1:]}").healthy()
    image = SMALL.gpt(4096, {3: entry(2048, 4062)}, count=3)
    image[2 * 512 + 3 * 128] = 0xFF
    command.on(image).shows(HEAD, f"3{ONE[1:]}").healthy()
    image = SMALL.gpt(4096, {1: entry(100, 200)}, first=100, last=200)
    command.on(image).shows(f"gpt 4096 100 200 {images.DISK}", f"1 100 200 8300 0000000000000000 {images.FIRST}").healthy()
    junk = bytes(16) + bytes(range(1, 113))
    command.on(SMALL.gpt(4096, {1: entry(2048, 4062), 2: junk})).shows(HEAD, ONE).healthy()


def findings_of_gpt(command):
    for fields, finding in (({"alternate": 4094}, "primary"), ({"alternate": 0}, "primary")):
        image = one_partition()
        SMALL.put_side(image, "primary", {1: entry(2048, 4062)}, **fields)
        command.on(image).shows(HEAD, ONE).unhealthy(f"5 alternate {finding}")
        SMALL.put_side(image, "backup", {1: entry(2048, 4062)}, alternate=2)
        command.on(image).unhealthy("5 alternate primary")
        SMALL.put_side(image, "primary", {1: entry(2048, 4062)})
        command.on(image).unhealthy("5 alternate backup")
    for changed in (dict(entries={1: entry(2048, 4061)}), dict(entries={}), dict(disk=images.FIRST), dict(first=35),
                    dict(last=4061), dict(count=64), dict(entries={1: entry(2048, 4062, attributes=1)}),
                    dict(entries={1: entry(2048, 4062, name="x")})):
        image = one_partition()
        SMALL.put_side(image, "backup", **{"entries": {1: entry(2048, 4062)}, **changed})
        command.on(image).shows(HEAD, ONE).unhealthy("4 copies differ")


def protective_records(command):
    for at, value in ((446, 0x80), (447, 1), (450, 0xEF), (451, 0xFE), (454, 2), (458, 0xFE), (462, 1), (509, 1)):
        image = one_partition()
        image[at] = value
        if at == 450:
            command.on(image).shows("mbr 4096", "1 1 4095 EF 00").healthy()
        else:
            command.on(image).shows(HEAD, ONE).unhealthy("6 protective record")
    image = one_partition()
    image[510] = 0
    command.on(image).shows(HEAD, ONE).unhealthy("6 protective record")
    image = one_partition()
    image[:512] = bytes(512)
    command.on(image).shows(HEAD, ONE).unhealthy("6 protective record")
    image = one_partition()
    image[:446] = bytes([0xAB]) * 446
    command.on(image).shows(HEAD, ONE).healthy()
    image[446 + 16] = 0x81
    command.on(image).shows(HEAD, ONE).unhealthy("6 protective record")


def unsound(command):
    for first, last in ((3000, 2999), (2048, 2 ** 63), (33, 40), (4000, 4063), (0, 2 ** 64 - 1), (2 ** 64 - 1, 2 ** 64 - 1)):
        command.on(SMALL.gpt(4096, {1: entry(first, last)})).unhealthy("7 outside 1")
        command.shows(HEAD, f"1 {first} {last} 8300 0000000000000000 {images.FIRST}")
    command.on(SMALL.gpt(4096, {1: entry(3000, 2999)})).nowhere("1", 0)
    command.on(SMALL.gpt(4096, {1: entry(0, 2 ** 64 - 1)})).nowhere("1", 0)
    several = {2: entry(4000, 4063, unique=guid(2)), 7: entry(1, 2, unique=guid(7)), 9: entry(1, 2, unique=guid(9))}
    command.on(SMALL.gpt(4096, several)).unhealthy("7 outside 2")


def overlaps(command):
    def of(*extents):
        return SMALL.gpt(4096, {k: entry(first, last, unique=guid(k)) for k, (first, last) in enumerate(extents, 1)})
    command.on(of((2048, 3000), (2500, 4000))).unhealthy("8 overlap 1 2")
    command.on(of((2500, 4000), (2048, 2500))).unhealthy("8 overlap 2 1")
    command.on(of((2048, 3000), (2048, 2048))).unhealthy("8 overlap 1 2")
    command.on(of((155, 900), (150, 160), (100, 200))).unhealthy("8 overlap 3 2")
    command.on(of((100, 1000), (400, 500), (200, 300))).unhealthy("8 overlap 1 3")
    command.on(of((2048, 3000), (3001, 4000), (34, 2047))).healthy()
    image = SMALL.gpt(4096, {1: entry(100, 300), 2: entry(200, 400), 3: entry(4000, 4063)})
    command.on(image).unhealthy("7 outside 3")
    image = SMALL.gpt(4096, {1: entry(100, 300), 2: entry(200, 400)})
    command.on(image).unhealthy("8 overlap 1 2")


def same_guids(command):
    def of(*numbers):
        return SMALL.gpt(4096, {k: entry(100 * k, 100 * k + 99, unique=guid(number)) for k, number in enumerate(numbers, 1)})
    command.on(of(1, 1)).unhealthy("10 same guid 1 2")
    command.on(of(1, 2, 2, 1)).unhealthy("10 same guid 2 3")
    command.on(of(3, 1, 2, 1, 2)).unhealthy("10 same guid 2 4")
    command.on(of(1, 1, 1)).unhealthy("10 same guid 1 2")
    command.on(of(1, 2, 3)).healthy()


def shown_fields(command):
    """Types, attributes, names, and a table that is full."""
    codes = (("C12A7328-F81F-11D2-BA4B-00A0C93EC93B", "EF00"), (images.LINUX, "8300"),
             ("0657FD6D-A4AB-43C4-84E5-0933C84B4F4F", "8200"), ("EBD0A0A2-B9E5-4433-87C0-68B6B72699C7", "0700"),
             (images.FREEBSD, "A500"), ("516E7CB6-6ECF-11D6-8FF8-00022D09712B", "A503"),
             ("E6D6D379-F507-44C2-A23C-238F2A3DF928", "e6d6d379-f507-44c2-a23c-238f2a3df928"))
    entries, lines = {}, []
    for k, (kind, shown) in enumerate(codes, 1):
        entries[k] = entry(100 * k, 100 * k + 99, kind, guid(k), attributes=0xF0E0000000000007 + k, name="n" * k)
        lines.append(f"{k} {100 * k} {100 * k + 99} {shown} {0xF0E0000000000007 + k:016x} {guid(k)} {'n' * k}")
    command.on(SMALL.gpt(4096, entries)).shows(HEAD, *lines).healthy()
    wild = entry(2048, 4062)[:56] + b"a\x00\x01\x00\x7f\x00\x00\xd8b\x00\x00\xdc" + "\U0001F4BE\x80\x1f\ufeff ".encode("utf-16-le")
    command.on(SMALL.gpt(4096, {1: wild + bytes(128 - len(wild))})).shows(HEAD, ONE + " a???b?\U0001F4BE\x80?\ufeff ").healthy()
    for units, shown in ((b"x\x00" * 36, "x" * 36), (b"a\x00\x00\x00b\x00", "a"), (b"\x00\xd8" * 36, "?" * 36),
                         (b"\x00\x00x\x00", ""), (b"a\x00" * 35 + b"\x00\xd8", "a" * 35 + "?")):
        name = entry(2048, 4062)[:56] + units + bytes(72 - len(units))
        command.on(SMALL.gpt(4096, {1: name})).shows(HEAD, ONE + (f" {shown}" if shown else ""))
    full = {k: entry(33 + k, 33 + k, unique=guid(k), name=f"part {k}") for k in range(1, 129)}
    lines = [f"{k} {33 + k} {33 + k} 8300 0000000000000000 {guid(k)} part {k}" for k in range(1, 129)]
    command.on(SMALL.gpt(4096, full)).shows(HEAD, *lines).healthy().located("128", 0, 161).nowhere("128", 1)


def small(command):
    for size in (0, 511, 512, 67 * 512):
        command.on(bytes(size)).no_table("too small")
    command.on(protective(67) + bytes(66 * 512)).no_table("too small")
    command.on(SMALL.zeros(68)).no_table("copies 1 1")
    command.on(SMALL.gpt(68, {})).shows(f"gpt 68 34 34 {images.DISK}").healthy()
    command.on(SMALL.gpt(68, {128: entry(34, 34)})).healthy().located("128", 0, 34)


def huge(command):
    """Disks whose sectors don't fit 32 bits: the protective record's size doesn't either."""
    for sectors in (2 ** 32, 2 ** 32 + 1, 2 ** 32 + 5000):
        pieces = SMALL.gpt_pieces(sectors, {1: entry(34, sectors - 34, name="all")})
        if pieces[0][458:462] != b"\xff\xff\xff\xff":
            raise SystemExit("the protective record of a huge disk has another size")
        command.on_sparse(sectors, pieces).healthy().located("1", sectors - 68, sectors - 34).nowhere("1", sectors - 67)
        command.shows(f"gpt {sectors} 34 {sectors - 34} {images.DISK}", f"1 34 {sectors - 34} 8300 0000000000000000 {images.FIRST} all")
    pieces[0] = protective(5000)
    command.on_sparse(sectors, pieces).unhealthy("6 protective record")


def sectors_of_4096(command):
    large = command.large()
    one = f"1 6 250 8300 0000000000000000 {images.FIRST}"
    image = LARGE.gpt(256, {1: entry(6, 250)})
    large.on(image).shows(LARGE_HEAD, one).healthy().located("1", 0, 6).located("1", 244, 250).nowhere("1", 245)
    command.no_table("copies 1 1")
    large.on(image + bytes(4095)).shows(LARGE_HEAD, one).healthy()
    for first, last in ((5, 10), (249, 251)):
        large.on(LARGE.gpt(256, {1: entry(first, last)})).unhealthy("7 outside 1")
    for size, number in ((91, 3), (93, 0), (513, 0), (4096, 0), (4097, 3)):
        image = LARGE.gpt(256, {1: entry(6, 250)})
        LARGE.put_side(image, "primary", {1: entry(6, 250)}, size=size)
        large.on(image).shows(LARGE_HEAD, one)
        large.unhealthy(f"2 primary copy {number}") if number else large.healthy()
    for fields in ({"first": 5}, {"last": 251}):
        image = LARGE.gpt(256, {1: entry(6, 250)})
        LARGE.put_side(image, "primary", {1: entry(6, 250)}, **fields)
        large.on(image).unhealthy("2 primary copy 8")
    image = LARGE.gpt(256, {1: entry(6, 250)})
    image[2 * 4096 + 16383] ^= 1
    large.on(image).shows(LARGE_HEAD, one).unhealthy("2 primary copy 9")
    image = LARGE.gpt(256, {1: entry(6, 250)})
    image[512:4096] = bytes([7]) * 3584
    large.on(image).healthy()
    image[451] = 0
    large.on(image).unhealthy("6 protective record")
    large.on(LARGE.gpt(256, {1: entry(6, 250)}) + LARGE.zeros(4)).unhealthy("3 backup copy 1")
    two = {1: entry(6, 100), 2: entry(100, 250, unique=guid(2))}
    large.on(LARGE.gpt(256, two)).unhealthy("8 overlap 1 2")
    large.on(LARGE.gpt(256, {1: entry(6, 100), 2: entry(101, 250)})).unhealthy("10 same guid 1 2")
    wild = entry(6, 250)[:56] + b"\x1f\x00\x00\xdc" + bytes(68)
    large.on(LARGE.gpt(256, {1: wild})).shows(LARGE_HEAD, one + " ??")
    for size in (0, 4095, 4096, 11 * 4096):
        large.on(bytes(size)).no_table("too small")
    large.on(LARGE.zeros(12)).no_table("copies 1 1")
    large.on(LARGE.gpt(12, {})).shows(f"gpt 12 6 6 {images.DISK}").healthy()


ROWS = (whole, damaged, headers, first_fault, accepted, findings_of_gpt, protective_records, unsound, overlaps, same_guids,
        shown_fields, small, huge, sectors_of_4096)
