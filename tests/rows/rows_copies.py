"""What show --copy answers: the table of one copy of a GPT alone, whatever sector 0 and the other copy say."""
import images
from images import FREEBSD, LARGE, SMALL, entry, guid, label, one_partition, record

HEAD = f"gpt 4096 34 4062 {images.DISK}"
ONE = f"1 2048 4062 8300 0000000000000000 {images.FIRST}"
TWO = f"1 2048 2999 8300 0000000000000000 {images.FIRST} other"


def alone(command, side, *lines):
    return command.gives(["show", "--copy", side], "".join(f"{line}\n" for line in lines))


def none(command, side, number):
    return command.gives(["show", "--copy", side], "", f"no table: {side} copy {number}\n", 4)


def differ(command):
    """Copies with different tables: each is shown as it is, and the disk's is the primary's."""
    image = one_partition()
    SMALL.put_side(image, "backup", {1: entry(2048, 2999, name="other")})
    command.on(image).shows(HEAD, ONE).unhealthy("4 copies differ")
    alone(command, "primary", HEAD, ONE)
    alone(command, "backup", HEAD, TWO)


def lost(command):
    """A copy that doesn't exist, by its first fault; the other one is shown."""
    entries = {1: entry(2048, 4062)}
    for fields, number in (({"signature": b"EFI PARU"}, 1), ({"revision": 0x10001}, 2), ({"size": 91}, 3), ({"crc": 1}, 4), ({"my": 2}, 5),
                           ({"array": 3}, 6), ({"count": 129}, 7), ({"first": 33}, 8), ({"array_crc": 1}, 9)):
        for side, other in (("primary", "backup"), ("backup", "primary")):
            image = one_partition()
            # the header alone: an array that stands elsewhere isn't put there
            place = 1 if side == "primary" else 4095
            SMALL.put(image, place, SMALL.side(4096, side, entries, **fields)[place])
            none(command.on(image), side, number)
            alone(command, other, HEAD, ONE)
    none(command.on(one_partition() + SMALL.zeros(1000)), "backup", 1)
    none(command.on(one_partition()[:3000 * 512]), "primary", 8)


def behind_an_mbr(command):
    """Sector 0 isn't asked: a new MBR stands over a GPT, whose copies are still there."""
    image = one_partition()
    SMALL.put(image, 0, bytes(446) + record(0x83, 2048, 100) + bytes(48) + b"\x55\xaa")
    command.on(image).shows("mbr 4096", "1 2048 2147 83 00")
    for side in ("primary", "backup"):
        alone(command, side, HEAD, ONE)
    two = one_partition()
    SMALL.put(two, 0, bytes(446) + record(0x05, 100, 10) + record(0x05, 200, 10) + bytes(32) + b"\x55\xaa")
    alone(command.on(two).no_table("two extended"), "backup", HEAD, ONE)


def labels(command):
    """The labels in a copy's own slices."""
    image = SMALL.gpt(4096, {1: entry(2048, 3047, FREEBSD)})
    SMALL.put_side(image, "backup", {2: entry(3048, 4047, FREEBSD, guid(2))})
    SMALL.put(image, 2049, label(1000, {0: (30, 16, 7)}))
    SMALL.put(image, 3049, label(1000, {1: (40, 16, 1)}))
    command.on(image)
    alone(command, "primary", HEAD, f"1 2048 3047 A500 0000000000000000 {images.FIRST}", "1.a 2064 2093 07")
    alone(command, "backup", HEAD, f"2 3048 4047 A500 0000000000000000 {guid(2)}", "2.b 3064 3103 01")


def sizes(command):
    """Too few sectors, 4096 bytes, and the other size."""
    for sectors in (0, 1, 67):
        for side in ("primary", "backup"):
            command.on(bytes(512 * sectors)).gives(["show", "--copy", side], "", "no table: too small\n", 4)
    none(command.on(bytes(512 * 68)), "backup", 1)
    image = LARGE.gpt(256, {1: entry(100, 120)})
    LARGE.put_side(image, "backup", {1: entry(100, 130)})
    large = command.large().on(image)
    alone(large, "primary", f"gpt 256 6 250 {images.DISK}", f"1 100 120 8300 0000000000000000 {images.FIRST}")
    alone(large, "backup", f"gpt 256 6 250 {images.DISK}", f"1 100 130 8300 0000000000000000 {images.FIRST}")
    none(command.on(image), "primary", 1)


def not_a_copy(command):
    """Names that are none, and a plan beside one: before the plan's file and the image are looked at."""
    command.on(one_partition())
    for name in ("", "Primary", "primary ", "backups", "both", "0", "1"):
        command.gives(["show", "--copy", name], "", "bad copy\n", 2)
    for name in ("primary", "backup", "x"):
        command.gives(["show", "--copy", name, "--after", "/nowhere/plan"], "", "bad copy\n", 2)
    missing = command.path + ".none"
    found = command.answer_at(missing, "show", "--copy", "x")
    if found != ("", "bad copy\n", 2):
        raise SystemExit(f"show --copy x of an image that isn't there: {found}")


ROWS = (differ, lost, behind_an_mbr, labels, sizes, not_a_copy)
