"""Tables as pages for people: each line by hand."""
from images import FREEBSD, LARGE, LINUX, SMALL, ebr, entry, guid, label, one_partition, record

ESP = "C12A7328-F81F-11D2-BA4B-00A0C93EC93B"
UNKNOWN = "12345678-9abc-4def-8123-456789abcdef"
TWO_FORMS = "error: the argument '--json' cannot be used with '--human'\n\nFor more information, try '--help'.\n"


def page(command, text, *words):
    """`show --human` prints this text, which stands here behind an empty line."""
    command.gives(["show", "--human", *words], text.removeprefix("\n"))


def of_entries(command):
    page(command.on(one_partition()), """
GPT, 2 MiB, 4096 sectors of 512 bytes, 00010203-0405-4607-8809-0a0b0c0d0e0f
[#.............................111111111111111111111111111111]
No.        First   Last        Size  Type           Name
-             34   2047    1007 KiB  free
1           2048   4062  1007.5 KiB  linux-generic
""")
    # in any order; an ESP with a name, one with attributes, one whose type has no name; 130 sectors are a character and a half
    page(command.on(SMALL.gpt(6000, {
        7: entry(3000, 3999, UNKNOWN, unique=guid(7)), 1: entry(1000, 1999, ESP, name="EFI"),
        12: entry(4100, 4100, LINUX, unique=guid(12), attributes=1 << 2 | 1 << 63, name="root")})), """
GPT, 2.9 MiB, 6000 sectors of 512 bytes, 00010203-0405-4607-8809-0a0b0c0d0e0f
[#.........1111111111..........7777777777.2.................#]
No.        First   Last        Size  Type                                  Name
-             34    999     483 KiB  free
1           1000   1999     500 KiB  esp                                   EFI
-           2000   2999     500 KiB  free
7           3000   3999     500 KiB  12345678-9abc-4def-8123-456789abcdef
-           4000   4099      50 KiB  free
12          4100   4100       512 B  linux-generic                         root  [LegacyBIOSBootable GUID:63]
-           4101   5966     933 KiB  free
""")
    page(command.on(SMALL.gpt(4096, {})), """
GPT, 2 MiB, 4096 sectors of 512 bytes, 00010203-0405-4607-8809-0a0b0c0d0e0f
[#..........................................................#]
No.        First   Last        Size  Type  Name
-             34   4062     1.9 MiB  free
""")


def of_records(command):
    """A slice with a label, a chain with an empty first record, and the gaps of each under it."""
    image = SMALL.mbr(16384, [record(0xA5, 2048, 1024, boot=0x80), record(0x05, 4096, 8192), bytes(16), record(0x99, 12400, 1)])
    SMALL.put(image, 2049, label(1024, {0: (100, 16, 7), 1: (50, 200, 1)}))
    SMALL.put(image, 4096, ebr(record(0x82, 64, 1000), record(0x05, 2047, 1001)))
    SMALL.put(image, 6143, ebr(record(0x83, 1, 1000)))
    page(command.on(image), """
MBR, 8 MiB, 16384 sectors of 512 bytes
[#......11..1...5555...66666..................4..............]
No.        First   Last        Size  Type
-              1   2047  1023.5 KiB  free
1           2048   3071     512 KiB  freebsd   [boot]
  1.a       2064   2163      50 KiB  07
  -         2164   2247      42 KiB  free
  1.b       2248   2297      25 KiB  01
  -         2298   3071     387 KiB  free
-           3072   4095     512 KiB  free
2           4096  12287       4 MiB  extended
  -         4097   4159    31.5 KiB  free
  5         4160   5159     500 KiB  swap
  -         5160   6142   491.5 KiB  free
  6         6144   7143     500 KiB  linux
  -         7144  12287     2.5 MiB  free
-          12288  12399      56 KiB  free
4          12400  12400       512 B  99
-          12401  16383     1.9 MiB  free
""")
    page(command.on(SMALL.mbr(4096, [])), """
MBR, 2 MiB, 4096 sectors of 512 bytes
[#...........................................................]
No.        First   Last        Size  Type
-              1   4095     1.9 MiB  free
""")


def of_large_sectors(command):
    page(command.large().on(LARGE.gpt(1024, {1: entry(6, 99, FREEBSD), 2: entry(200, 1018, unique=guid(2))})), """
GPT, 4 MiB, 1024 sectors of 4096 bytes, 00010203-0405-4607-8809-0a0b0c0d0e0f
[111111.....2222222222222222222222222222222222222222222222222]
No.        First   Last        Size  Type           Name
1              6     99     376 KiB  freebsd
-            100    199     400 KiB  free
2            200   1018     3.1 MiB  linux-generic
""")


def of_containers(command):
    """A slice among the logical partitions, with a label of its own."""
    image = SMALL.mbr(8192, [record(0x0F, 2048, 6144)])
    SMALL.put(image, 2048, ebr(record(0xA5, 1024, 2048)))
    SMALL.put(image, 3073, label(2048, {7: (1008, 16, 7)}))
    page(command.on(image), """
MBR, 4 MiB, 8192 sectors of 512 bytes
[#..............1......55555555.......5......................]
No.        First   Last        Size  Type
-              1   2047  1023.5 KiB  free
1           2048   8191       3 MiB  extended-lba
  -         2049   3071   511.5 KiB  free
  5         3072   5119       1 MiB  freebsd
    5.h     3088   4095     504 KiB  07
    -       4096   5119     512 KiB  free
  -         5120   8191     1.5 MiB  free
""")


def of_sizes(command):
    """Binary units, whole ones and rounded down, and columns as wide as the disk's last sectors."""
    sectors = 2 ** 33
    command.on_sparse(sectors, SMALL.gpt_pieces(sectors, {
        1: entry(2048, 2048 + 2 ** 31 - 1), 2: entry(2 ** 32, 2 ** 32 + 2 ** 21 + 2 ** 20 - 1, unique=guid(2)),
        3: entry(2 ** 32 + 2 ** 22, sectors - 35, unique=guid(3))}))
    page(command, """
GPT, 4 TiB, 8589934592 sectors of 512 bytes, 00010203-0405-4607-8809-0a0b0c0d0e0f
[1111111111111111..............333333333333333333333333333333]
No.             First        Last        Size  Type           Name
-                  34        2047    1007 KiB  free
1                2048  2147485695       1 TiB  linux-generic
-          2147485696  4294967295  1023.9 GiB  free
2          4294967296  4298113023     1.5 GiB  linux-generic
-          4298113024  4299161599     512 MiB  free
3          4299161600  8589934557     1.9 TiB  linux-generic
-          8589934558  8589934558       512 B  free
""")
    # what no disk has: an entry that ends before it begins, and one past 64 bits
    page(command.on(SMALL.mbr(4096, [record(0x83, 2 ** 32 - 1, 2 ** 32 - 1)])), """
MBR, 2 MiB, 4096 sectors of 512 bytes
[#...........................................................]
No.        First   Last        Size  Type
-              1   4095     1.9 MiB  free
1          4294967295  8589934589     1.9 TiB  linux
""")
    page(command.on(SMALL.gpt(4096, {1: entry(300, 200)})), """
GPT, 2 MiB, 4096 sectors of 512 bytes, 00010203-0405-4607-8809-0a0b0c0d0e0f
[#..........................................................#]
No.        First   Last        Size  Type           Name
-             34   4062     1.9 MiB  free
1            300    200           -  linux-generic
""")


def of_names(command):
    """What a terminal may act on is a question mark, as half of a surrogate pair is; all else prints as it is."""
    hidden = "\x01\x1f\x7f\x80\x9f\u061c\u200e\u200f\u2028\u2029\u202a\u202e\u2066\u2069"
    beside = " ~\xa0\u061b\u200d\u2010\u2027\u202f\u2065\u206a\U0001d11e"
    rows = [("a" + hidden + "b", "a" + "?" * 14 + "b"), (beside + "x", beside + "x")]
    entries = {k + 1: entry(34 + k, 34 + k, unique=guid(k), name=name) for k, (name, _) in enumerate(rows)}
    halves = entry(36, 36, unique=guid(9))
    entries[3] = halves[:56] + bytes.fromhex("1edd410034d8") + bytes(66)
    page(command.on(SMALL.gpt(100, entries)), f"""
GPT, 50 KiB, 100 sectors of 512 bytes, 00010203-0405-4607-8809-0a0b0c0d0e0f
[####################123.................####################]
No.        First   Last        Size  Type           Name
1             34     34       512 B  linux-generic  {rows[0][1]}
2             35     35       512 B  linux-generic  {rows[1][1]}
3             36     36       512 B  linux-generic  ?A?
-             37     66      15 KiB  free
""")


def of_forms(command):
    """The page goes with a plan and with one copy, but not with JSON; a no and what has no table are told in lines."""
    command.on(one_partition())
    command.gives(["show", "--human", "--json"], "", TWO_FORMS, 2)
    command.gives(["show", "--json", "--human"], "", TWO_FORMS, 2)
    before, _, _ = command.answer("show", "--human")
    for side in ("primary", "backup"):
        page(command, before, "--copy", side)
    command.on(SMALL.zeros(4096)).gives(["show", "--human"], "", "no table: copies 1 1\n", 4)
    command.gives(["show", "--human", "--copy", "primary"], "", "no table: primary copy 1\n", 4)


ROWS = (of_entries, of_records, of_large_sectors, of_containers, of_sizes, of_names, of_forms)
