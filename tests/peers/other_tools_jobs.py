"""The jobs of other_tools.py: images that sgdisk, sfdisk, fdisk and parted made, and what these tools, cgpt and ptab do to them."""
import collections
import hashlib
import os

from tools import fdisk, must, parted

DISK = "01010101-0101-4101-8101-010101010101"
BOOT = "02020202-0202-4202-8202-020202020202"
DATA = "03030303-0303-4303-8303-030303030303"
LVM = "E6D6D379-F507-44C2-A23C-238F2A3DF928"
FRESH = "".join(f"{number:02x}" * 16 for number in range(16, 20))
SECTORS, LARGE_SECTORS = 16384, 4096
# The answers of ptab-run that aren't `done`, by a part of its last line.
NO_TABLE = "the tool left no table that ptab reads"
LOSSY = "--lossy goes on without that"
ONE_WRITE = "refused: plan 1 ("
IN_USE = "refused: plan 2 ("
UNSOUND = "refused: plan 4 ("
NOTHING = "changed nothing"
SAME = "nothing to do"
FOREIGN = "isn't blank"
FAILS = "ended with status"

Job = collections.namedtuple("Job", "image tool wanted lines size")


def data(path, sectors, size):
    """An image with data in every so many sectors, but for both ends."""
    with open(path, "wb") as it:
        it.truncate(sectors * size)
        for lba in range(1 << 11, sectors - 64, 509):
            it.seek(lba * size)
            it.write(hashlib.sha256(b"%d" % lba).digest() * (size // 32))


def put(path, at, content):
    with open(path, "r+b") as it:
        it.seek(at)
        it.write(content)


def gpt(path):
    must("sgdisk", "-U", DISK, "-n", "1:2048:4095", "-t", "1:ef00", "-c", "1:boot", "-u", f"1:{BOOT}", "-n", "2:4096:8191", "-c", "2:data",
         "-u", f"2:{DATA}", path)


def mbr(path, *lines):
    must("sfdisk", "-q", path, input="".join(f"{line}\n" for line in ("label: dos", "label-id: 0x0badcafe", *lines)))


def loader(path, first):
    """Boot code in sector 0, and a boot loader behind the table."""
    put(path, 0, hashlib.sha256(b"code").digest() * 13)
    put(path, first * 512, hashlib.sha256(b"loader").digest() * 16 * 60)


def make(name, path):
    """Makes the image of that name."""
    size = 4096 if name.endswith(" 4096") else 512
    data(path, LARGE_SECTORS if size == 4096 else SECTORS, size)
    kind, _, more = name.partition(", ")
    if kind == "gpt":
        gpt(path)
    elif kind == "gpt by sfdisk":
        must("sfdisk", "-q", path, input=f"label: gpt\nlabel-id: {DISK}\nstart=2048,size=2048,uuid={BOOT}\n")
    elif kind == "mbr":
        mbr(path, "2048,2048,83,*", "4096,2048,7")
    elif kind == "logicals":
        mbr(path, "2048,1024,83,*", "3072,1024,7", "4096,12288,5", "6144,1024,82", "12288,1024,83")
    elif kind == "slice":
        mbr(path, "2048,8192,a5")
    elif kind == "gpt 4096":
        parted(4096, path, "unit", "s", "mklabel", "gpt", "mkpart", "boot", "256", "511", "mkpart", "data", "512", "2047")
    elif kind == "mbr 4096":
        parted(4096, path, "unit", "s", "mklabel", "msdos", "mkpart", "primary", "256", "511", "mkpart", "primary", "512", "2047")
    elif kind not in ("blank", "blank 4096"):
        raise KeyError(name)
    change(path, kind, more)


def change(path, kind, more):
    """What the name says behind the comma."""
    ways = {"unsorted": ("sgdisk", "-d", "1", "-n", "1:8192:9215", "-u", f"1:{BOOT}"), "hybrid": ("sgdisk", "-h", "1"),
            "array elsewhere": ("sgdisk", "-j", "40"), "more entries": ("sgdisk", "-S", "256")}
    if more in ways:
        must(*ways[more], path)
    elif kind == "slice" and not more:
        fdisk(path, 512, "b", "y", "d", "d", "n", "a", "2064", "+1000", "w")
    elif more == "grown":
        os.truncate(path, 2 * SECTORS * 512)
    elif more == "grown, data at the end":
        os.truncate(path, 2 * SECTORS * 512)
        put(path, (2 * SECTORS - 20) * 512, hashlib.sha256(b"end").digest() * 160)
    elif more == "primary lost":
        put(path, 512, bytes(512))
    elif more == "backup lost":
        put(path, (SECTORS - 1) * 512, bytes(512))
    elif more == "boot loader":
        loader(path, 34 if kind == "gpt" else 1)
    elif more == "chained backwards":
        must("sfdisk", "-q", "-a", path, input="9216,512,83\n")
    elif more == "a filesystem":
        put(path, 1024 + 56, b"\x53\xef")
    elif more not in ("", "no label"):
        raise KeyError(more)


MANY = " ".join(f"-n {k}:{2048 + 128 * k}:+64 -t {k}:8e00 -c {k}:volume{k}" for k in range(1, 41))
SGDISK = (
    ("gpt", "-t 1:ef02"), ("gpt", "-t 2:8e00"), ("gpt", "-t 1:8304 -t 2:8309"), ("gpt", "-t 2:8305"), ("gpt", "-t 2:fd00 -c 2:raid"),
    ("gpt", "-t 2:CA7D7CCB-63ED-4C53-861C-1742536059CC"), ("gpt, unsorted", "-s"), ("gpt", "-G"), ("gpt", "-u 2:R -U R"), ("gpt", "-r 1:2"),
    ("gpt", f"-d 2 -n 2:4096:+5M -c 2:data -u 2:{DATA}"), ("gpt", "-A 1:set:2 -A 2:set:60"), ("gpt", "-A 2:=:d000000000000001"),
    ("gpt", "-A 2:toggle:63"), ("gpt", "-N 3"), ("gpt", "-n 3:0:+1M -t 3:8200"), ("gpt", "-n 0:-2M:-1M"), ("gpt", "-I -n 3:0:0"),
    ("gpt", "-a 8 -n 3:8200:+8"), ("gpt", "-c 2:système"), ("gpt", "-B 2"), ("gpt", "-d 1"), ("gpt", "-o"),
    ("gpt", "-o -n 1:0:0 -t 1:ef02"), ("gpt, grown", "-e"), ("gpt by sfdisk, grown", "-e"), ("gpt, grown", "-e -d 2 -n 2:4096:0"),
    ("gpt, primary lost", "-c 1:found"), ("gpt, backup lost", "-t 2:8e00"), ("gpt, boot loader", "-t 1:ef02 -t 2:8304"),
    ("blank", "-n 1:0:+1M -t 1:ef02 -n 2:0:0 -t 2:8e00"), ("blank", f"-a 1 {MANY}"), ("mbr", "-g"), ("mbr", "-g -t 1:ef02"),
    ("mbr, boot loader", "-g"), ("gpt", "-m 1:2"), ("gpt, boot loader", "-m 1", LOSSY), ("logicals", "-g"), ("gpt", "-h 1", LOSSY),
    ("gpt, hybrid", "-c 2:new", LOSSY), ("gpt", "-j 40", LOSSY), ("gpt, array elsewhere", "-c 2:new", LOSSY), ("gpt", "-S 256", NO_TABLE),
    ("gpt", "-S 64", NO_TABLE), ("gpt", "-Z", NO_TABLE), ("gpt", "-z", NO_TABLE), ("gpt", "-C", NOTHING), ("gpt by sfdisk", "-C", SAME),
    ("gpt", "-p -v -i 1 -E -F -f -D", NOTHING), ("gpt", "-t 9:8e00", FAILS), ("mbr", "-c 1:name", FAILS),
    ("gpt, more entries", "-t 1:ef02", FOREIGN), ("blank, a filesystem", "-o", FOREIGN),
)
SFDISK = (
    ("gpt", f"--part-type @ 2 {LVM}"), ("gpt", "--part-type @ 2 L"), ("gpt", "--part-label @ 2 archive"),
    ("gpt", "--part-uuid @ 2 6b4ad856-ec11-4444-b018-80b39d83996e"), ("gpt", "--disk-id @ 6b4ad856-ec11-4444-b018-80b39d83996e"),
    ("gpt", "--part-attrs @ 1 LegacyBIOSBootable,60"), ("gpt", "--delete @ 2"), ("gpt", "--delete @"), ("gpt", "-N 2 @", None, ",+"),
    ("gpt", "-N 2 @", None, ",1M"), ("gpt", "-a @", None, f",2M,{LVM}"), ("gpt, unsorted", "-r @"),
    ("gpt, grown", "--relocate gpt-bak-std @"), ("gpt", "--relocate gpt-bak-mini @", LOSSY),
    ("blank", "@", None, "label: gpt", "unit: sectors", "size=1024,type=U,name=esp", "type=L"),
    ("blank", "@", None, "label: gpt", "first-lba: 34", *(f"start={2048 + 128 * k},size=64,type={LVM},name=volume{k}" for k in range(40))),
    ("gpt", "@", NO_TABLE, "label: gpt", "table-length: 64", "2048,1024"), ("gpt", "--wipe always @", None, "label: dos", "2048,2048,83,*"),
    ("gpt", "--wipe always @", LOSSY, "label: dos", "2048,,83"), ("gpt", "@", LOSSY, "label: dos", "2048,,83"),
    ("gpt, boot loader", "@", None, "label: dos", "2048,2048,83"), ("mbr", "@", None, "label: gpt", "2048,2048", "4096,2048"),
    ("blank", "@", None, "label: dos", "2048,2048,83,*", "4096,,7"),
    ("blank", "@", None, "label: dos", "2048,12288,5", "4096,1024", "8192,1024"), ("mbr", "-A @ 2"), ("mbr", "-A @ 1 2"),
    ("mbr", "--part-type @ 1 7"), ("mbr", "--disk-id @ 0xfeedbeef"), ("mbr", "--delete @ 1"), ("mbr", "-N 1 @", None, ",1024"),
    ("mbr", "-a @", None, ",1M,82"), ("mbr", "@", None, "label: dos", "2048,1024,83", "4096,4096,7"), ("mbr, boot loader", "-A @ 2"),
    ("mbr", "@", IN_USE, "label: dos", "label-id: 0x0badcafe", "2048,2048,83,*", "4096,8192,5", "6144,512"),
    ("logicals", "--delete @ 5"), ("logicals", "--delete @ 6"), ("logicals", "--delete @ 3"), ("logicals", "-N 6 @", None, ",1536"),
    ("logicals", "-N 5 @", None, ",512"), ("logicals", "-a @", None, ",512,82"), ("logicals", "--part-type @ 6 8e"),
    ("logicals", "--disk-id @ 0xfeedbeef"), ("logicals", "--delete @ 1 5", ONE_WRITE),
    ("logicals", "@", None, "label: dos", "label-id: 0x0badcafe", "2048,2048,83,*"), ("logicals, chained backwards", "-r @", FOREIGN),
    ("mbr", "--part-type @ 3 7", FAILS), ("gpt", "-d @", NOTHING), ("mbr", "-J @", NOTHING),
)
FDISK = (
    ("gpt", None, "t", "2", "30", "w"), ("gpt", None, "n", "3", "", "+1M", "w"), ("gpt", None, "x", "n", "1", "name", "r", "w"),
    ("gpt", None, "x", "A", "1", "r", "w"), ("gpt, unsorted", None, "x", "f", "r", "w"), ("gpt", None, "g", "w"),
    ("gpt", NOTHING, "p", "q"), ("mbr", None, "a", "2", "w"), ("mbr", None, "x", "i", "0xfeedbeef", "r", "w"),
    ("mbr", None, "t", "2", "8e", "w"), ("mbr", None, "n", "p", "3", "", "+1M", "w"), ("blank", None, "o", "n", "p", "1", "", "+1M", "w"),
    ("logicals", None, "n", "l", "", "+100", "w"), ("logicals", None, "x", "b", "5", "6200", "r", "w"),
    ("blank", None, "g", "n", "1", "", "", "t", "4", "w"), ("slice", None, "b", "n", "b", "4096", "+1000", "w"),
    ("slice", None, "b", "t", "a", "1", "w"), ("slice, no label", UNSOUND, "b", "y", "w"),
)
PARTED = (
    ("gpt", "set 1 bios_grub on"), ("gpt", "set 2 lvm on"), ("gpt", "set 2 raid on name 2 raid"), ("gpt", "set 1 legacy_boot on"),
    ("gpt", "set 2 hidden on set 2 msftdata on"), ("gpt", "name 2 root"), ("gpt", "unit s resizepart 2 12287"), ("gpt", "rm 1"),
    ("gpt", "unit s mkpart home ext4 10240 12287"), ("gpt", "disk_set pmbr_boot on", LOSSY), ("gpt, grown", "-f print"),
    ("gpt, grown, data at the end", "name 1 x", LOSSY),
    ("blank", "unit s mklabel gpt mkpart esp fat32 2048 4095 set 1 esp on"),
    ("blank", "unit s mklabel msdos mkpart primary ext4 2048 4095"), ("gpt", "mklabel msdos"), ("mbr", "mklabel gpt"),
    ("mbr", "set 2 boot on"), ("mbr", "set 2 lba on"), ("mbr", "unit s resizepart 2 9000"), ("mbr, boot loader", "set 2 boot on"),
    ("logicals", "rm 6"), ("logicals", "unit s mkpart logical 8192 9215", NO_TABLE), ("logicals", "unit s mkpart logical 14336 15359"),
    ("mbr", "rm 5", FAILS), ("logicals", "unit s resizepart 6 14335"), ("gpt", "print", NOTHING),
)
CGPT = (
    ("gpt", "add -i 3 -b 8192 -s 1024 -t rootfs -l ROOT-A @"), ("gpt", "add -i 1 -t kernel -P 3 -T 1 -S 1 @"),
    ("gpt", "add -i 2 -B 1 -R 1 @"), ("gpt", "edit -u 6b4ad856-ec11-4444-b018-80b39d83996e @"), ("gpt, primary lost", "repair @"),
    ("gpt, backup lost", "repair @"), ("gpt", "create @"), ("gpt", "add -i 1 -t data @"), ("gpt", "legacy @", NO_TABLE),
    ("gpt", "show @", NOTHING), ("gpt", "boot -i 2 @", LOSSY),
)
PTAB = (
    ("gpt", "c:2:root t:1:8200"), ("gpt", "d:1"), ("gpt, unsorted", "a:1"), ("logicals", "d:6"), ("gpt", "d:3", FAILS),
    ("blank", f"--fresh {FRESH} o n:1:0:0"),
)
LARGE_FDISK = (
    ("gpt 4096", None, "t", "2", "30", "w"), ("gpt 4096", None, "n", "3", "2304", "2559", "w"), ("mbr 4096", None, "a", "2", "w"),
    ("blank 4096", None, "g", "n", "1", "", "", "w"), ("blank 4096", None, "o", "n", "p", "1", "", "", "w"),
    ("gpt 4096", None, "o", "n", "p", "1", "", "", "w"),
)
LARGE_PARTED = (
    ("gpt 4096", "set 1 bios_grub on"), ("gpt 4096", "name 2 root"), ("gpt 4096", "unit s resizepart 2 3000"), ("gpt 4096", "rm 1"),
    ("mbr 4096", "set 2 boot on"), ("mbr 4096", "mklabel gpt"), ("mbr 4096", "unit s mkpart extended 2304 3583"),
)


def job(image, words, wanted=None, *lines, size=512):
    return Job(image, words, wanted, "".join(f"{line}\n" for line in lines), size)


def jobs():
    """Each with the tool's words, `@` for the image, what ptab-run says (`done` by default), and the lines that the tool reads."""
    for image, words, *more in SGDISK:
        yield job(image, ["sgdisk", *words.split(), "@"], *more)
    for image, words, *more in SFDISK:
        yield job(image, ["sfdisk", "-q", *words.split()], *more)
    for image, wanted, *lines in FDISK:
        yield job(image, ["fdisk", "@"], wanted, *lines)
    for image, words, *more in PARTED:
        options = ["-f"] * words.startswith("-f ")
        yield job(image, ["parted", "-s", *options, "@", *words.replace("-f ", "").split()], *more)
    for image, words, *more in CGPT:
        yield job(image, ["cgpt", *words.split()], *more)
    for image, words, *more in PTAB:
        yield job(image, ["ptab", "edit", "@", *words.split()], *more)
    for image, wanted, *lines in LARGE_FDISK:
        yield job(image, ["fdisk", "-b", "4096", "@"], wanted, *lines, size=4096)
    for image, words, *more in LARGE_PARTED:
        yield job(image, ["env", "PARTED_SECTOR_SIZE=4096", "parted", "-s", "@", *words.split()], *more, size=4096)
