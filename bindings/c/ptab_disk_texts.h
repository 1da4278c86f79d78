/* The sentences of ptab_disk_text.c: packaging/put_texts.py writes this from docs/texts.toml. */

static const char *const tables[] = {
    [1] = "no MBR, and neither copy of a GPT exists: {A} (primary); {B} (backup)",
    [3] = "two records of type 05 or 0F",
    [4] = "no MBR, and fewer sectors than a GPT takes",
};

static const char *const chains[] = {
    [1] = "the extended boot record at sector {b} lacks 55 AA",
    [2] = "the extended boot record at sector {b} has a record that it may not have",
    [3] = "the link at sector {b} leads to its own sector or to a lower one",
    [4] = "the chain leads to sector {b}, outside the extended partition or the disk",
    [5] = "the chain has more than 128 extended boot records",
};

static const char *const copies[] = {
    [1] = "the signature isn't EFI PART",
    [2] = "the revision isn't 1.0",
    [3] = "the header's size isn't from 92 to that of a sector",
    [4] = "the header's CRC is wrong",
    [5] = "the header names another sector as its own",
    [6] = "the array isn't beside the header",
    [7] = "there aren't 1 to 128 entries of 128 bytes",
    [8] = "the usable sectors aren't in order and clear of both copies",
    [9] = "the array's CRC is wrong",
};

static const char *const findings[] = {
    [1] = "there is no table",
    [2] = "the primary copy of the GPT doesn't exist: {A}",
    [3] = "the backup copy of the GPT doesn't exist: {A}",
    [4] = "the copies of the GPT have different tables",
    [6] = "sector 0 isn't a protective MBR",
    [7] = "{a} isn't inside what may hold it",
    [8] = "{a} and {b} share a sector",
    [9] = "{a} covers sector {b}, where a table stands",
    [10] = "entries {a} and {b} have one unique GUID",
    [11] = "the second sector of slice {a} holds a foreign label",
};

static const char *const alternates[] = {
    [1] = "the primary header doesn't name the backup's sector",
    [2] = "the backup header doesn't name the primary's sector",
};

static const char *const edits[] = {
    [1] = "no such partition",
    [2] = "the number is taken",
    [3] = "no space",
    [4] = "outside the usable sectors",
    [5] = "it would share a sector with another",
    [6] = "not a type code there",
    [7] = "a name over 36 units",
    [8] = "not with a container",
    [9] = "the word isn't for this kind of table",
    [10] = "no fresh GUID is left",
    [11] = "another partition has this GUID",
    [12] = "the disk has no room for a GPT",
    [13] = "a letter in a slice without a label",
    [14] = "out of memory",
    [15] = "the offset doesn't fit a label that counts sectors of the disk",
};

static const char *const plans[] = {
    [1] = "no order of writes has one moment of change",
    [2] = "a sector that a partition of the old layout owns would be written",
    [3] = "only a label changes, and the GPT needs mending",
    [4] = "the new layout isn't sound",
};

static const char *const checks[] = {
    [1] = "more than 4096 writes",
    [2] = "write {a} is of a sector past the last",
    [3] = "write {a} changes boot code, bytes 0 to 439 of sector 0",
    [4] = "phase {a} has several writes, and sector {b} is one that decides the layout",
    [5] = "after phase {a} the layout is neither the old nor the new one, or the old one again once the new one was there",
    [6] = "sector {a} is written, and is in the tables of neither layout",
    [7] = "sector {a} is written, and a partition of the old or the new layout owns it",
    [8] = "the finished disk isn't healthy: finding {a}",
};

static const char *const repairs[] = {
    [2] = "a repair leaves it to you: finding {a}",
};

static const char *const adoptions[] = {
    [1] = "the other disk has another number of sectors",
};

static const char *const words[] = {
    [1] = "another letter than a word's",
    [2] = "another number of fields",
    [3] = "a number or a path that is none, or out of range",
    [4] = "not a GUID",
    [5] = "a code that isn't two or four hexadecimal digits",
};

static const char *const arguments[] = {
    [1] = "the sector size is neither 512 nor 4096",
    [2] = "the view's bytes aren't a whole sector for each of its numbers, its primary is more than 2, or the disk has 2^64 bytes"
          " or more",
    [3] = "the number is 0, or the letter is neither 0 nor from a to h",
    [4] = "the random bytes aren't whole groups of 16",
    [5] = "there are no words, or they aren't UTF-8",
    [6] = "the plan's bytes aren't a whole sector for each write, or the phase of write {a} isn't in order",
    [7] = "the other disk has sectors of another size",
    [8] = "the other view's bytes aren't a whole sector for each of its numbers, its primary is more than 2, or its disk has 2^64"
          " bytes or more",
    [9] = "the device's name or the table's text isn't UTF-8",
};

static const char *const faults[] = {
    [1] = "the table's text has a fault at `{K}`",
    [2] = "object {a} of `partitions` has a fault at `{K}`",
};

static const char *const disks[] = {
    [1] = "the disk can't be opened",
    [2] = "this is {k}",
    [3] = "sector {s} can't be read",
    [4] = "sector {s} can't be written",
    [5] = "the disk can't be flushed",
    [6] = "the disk can't be locked",
    [7] = "the lock is held elsewhere",
    [8] = "the device is in use",
    [9] = "the device has sectors of {a} bytes",
    [10] = "the disk was opened for reading alone",
    [11] = "the system gives no random bytes",
    [12] = "there is no such way to open a disk",
    [13] = "the disk was opened by another process",
};

static const char *const kinds[] = {
    [0] = "no file or block device",
    [1] = "a plain file",
    [2] = "a block device",
    [3] = "a folder",
    [4] = "a character device",
    [5] = "a pipe",
    [6] = "a socket",
};

static const char *const keys[] = {
    [1] = "text",
    [2] = "partitiontable",
    [3] = "unknown",
    [4] = "label",
    [5] = "device",
    [6] = "unit",
    [7] = "sectorsize",
    [8] = "sectors",
    [9] = "id",
    [10] = "firstlba",
    [11] = "lastlba",
    [12] = "entries",
    [13] = "table-length",
    [14] = "partitions",
    [15] = "chain",
    [16] = "number",
    [17] = "node",
    [18] = "start",
    [19] = "size",
    [20] = "last",
    [21] = "offset",
    [22] = "type",
    [23] = "type_name",
    [24] = "uuid",
    [25] = "name",
    [26] = "name_units",
    [27] = "attributes",
    [28] = "attrs",
    [29] = "bootable",
    [30] = "boot",
    [31] = "start_chs",
    [32] = "end_chs",
    [33] = "record",
    [34] = "bsd",
};

static const struct {
  int32_t status;
  const char *sentence;
} statuses[] = {
    {PTAB_DONE, "done"},
    {PTAB_NO, "the partition has no such sector"},
    {PTAB_USAGE, "an argument has no meaning"},
    {PTAB_REFUSED, "it is refused"},
    {PTAB_NO_TABLE, "there is no table"},
    {PTAB_DEVICE, "the disk failed"},
    {PTAB_MEMORY, "out of memory"},
    {PTAB_WANT, "sector {s} is wanted"},
    {PTAB_WANT_OTHER, "sector {s} of the other disk is wanted"},
    {PTAB_ROOM, "a buffer is too small: it takes {n} rows, writes or bytes"},
};
