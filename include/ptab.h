/*
 * ptab.h: what a disk's partition table says, also as a text of JSON, whether it is healthy, where a partition's sectors are,
 * which sectors are free, and checked plans of edits and repairs, of the layout of another disk, and of the table that a text
 * says. docs/c.md tells how to use it.
 *
 * The library does no I/O. A call gets the sectors that its caller has read so far, and ends with an answer or with
 * PTAB_WANT and the number of one more sector; the caller reads that one, adds it and calls again. With both ends of
 * the disk read beforehand (PTAB_HEAD and PTAB_TAIL, below) a GPT without slices takes one call; where more is wanted,
 * ptab_wanted lists all of it that is known.
 *
 * Rules for every call, which nothing checks:
 *   - no pointer is NULL, also where its length is 0;
 *   - each is aligned as its type; what a call writes overlaps nothing else that it gets;
 *   - not from a signal handler, nor in the child of a fork in a program with threads. Calls in several threads at
 *     once are fine as long as their arguments are apart: the library has no state.
 * All other arguments may have any value: a wrong one is answered by PTAB_USAGE.
 * A buffer is as it was behind what is given in it, and in whole where the answer gives nothing.
 *
 * It allocates by malloc, and frees all before it returns. Who has no malloc gives three functions (docs/c.md, "Memory").
 */
#ifndef PTAB_H
#define PTAB_H

#include <stddef.h>
#include <stdint.h>

#ifdef __cplusplus
extern "C" {
#endif

/* The number of this interface; ptab_version() gives that of the library. */
#define PTAB_VERSION 2

/* What a call returns: the exit statuses of the command `ptab`, and three more. */
enum {
  PTAB_DONE = 0,     /* done, or yes */
  PTAB_NO = 1,       /* the answer is no */
  PTAB_USAGE = 2,    /* an argument or a word that can't be read */
  PTAB_REFUSED = 3,  /* an edit, a repair or its plan was refused, the other disk's layout, or a table's text */
  PTAB_NO_TABLE = 4, /* the disk, or the other one, has no table that can be read */
  PTAB_DEVICE = 5,   /* not returned; for the caller's own use where a read or write fails */
  PTAB_MEMORY = 6,   /* malloc gave nothing */
  PTAB_WANT = -1,    /* read sector `reply.sector`, one that decides the answer, add it to the view and call again */
  PTAB_ROOM = -2,    /* a buffer is too small: it takes `reply.count` rows, writes, sectors or bytes of text */
  PTAB_WANT_OTHER = -3 /* of ptab_adopt_plan: the same as PTAB_WANT, of the other disk and its view */
};

/* What `reply.number` counts. */
enum {
  PTAB_ABOUT_NOTHING = 0,
  PTAB_ABOUT_ARGUMENT = 1, /* 1 sector_size; 2 the view's lengths, its `primary`, or a disk of 2^64 bytes or more; 3 number or
                              letter; 4 the length of `drawn`; 5 no words, not UTF-8, or no zero byte at the end; 6 the writes
                              of a plan: their bytes don't fit their number (then `a` is 0), or write `a`, from 1, is
                              the first that is of another phase than the one before it or the next; 7 the
                              sector_size of the other view isn't the view's; 8 the other view, as 2; 9 the device's
                              name or the table's text isn't UTF-8. Of several the first is told: the size, then 3, 4,
                              6 or 7, then the words or 9, then the view, then the other one (docs/c.md) */
  PTAB_ABOUT_WORD = 2,     /* word `a`, from 1, is the first that can't be read: 1 letter, 2 fields, 3 number, 4 GUID,
                              5 code */
  PTAB_ABOUT_TABLE = 3,    /* 1 copies: their faults `a` and `b`; 2 chain: its fault `a` at sector `b`; 3 two extended;
                              4 too small */
  PTAB_ABOUT_FINDING = 4,  /* 1 to 11, as `ptab verify` prints them, with arguments `a` and `b` */
  PTAB_ABOUT_EDIT = 5,     /* 1 to 15, as in `refused: edit N` */
  PTAB_ABOUT_PLAN = 6,     /* 1 to 4, as in `refused: plan N` */
  PTAB_ABOUT_CHECK = 7,    /* 1 to 8, as `ptab check` prints them, with arguments `a` and `b` */
  PTAB_ABOUT_REPAIR = 8,   /* 2, as in `refused: repair 2`, with the number `a` of the finding */
  PTAB_ABOUT_ADOPT = 9,    /* 1: the other disk has another number of sectors */
  PTAB_ABOUT_OTHER_TABLE = 10, /* why the other disk has no table: numbers and arguments as of PTAB_ABOUT_TABLE */
  PTAB_ABOUT_TEXT = 11     /* a table's text has its first fault at a key, PTAB_KEY_TEXT to PTAB_KEY_BSD, of object `a` of
                              `partitions`, from 1, or of none where `a` is 0; as in `refused: table KEY N` */
};

/* The keys of a table's text, as docs/table.md describes it: what stands where a text has a fault. */
enum {
  PTAB_KEY_TEXT = 1,            /* `text`: it isn't JSON */
  PTAB_KEY_PARTITIONTABLE = 2,  /* `partitiontable`: it isn't an object with this one member, an object */
  PTAB_KEY_UNKNOWN = 3,         /* `unknown`: a name is none of the object's */
  PTAB_KEY_LABEL = 4,           /* `label` */
  PTAB_KEY_DEVICE = 5,          /* `device` */
  PTAB_KEY_UNIT = 6,            /* `unit` */
  PTAB_KEY_SECTORSIZE = 7,      /* `sectorsize` */
  PTAB_KEY_SECTORS = 8,         /* `sectors` */
  PTAB_KEY_ID = 9,              /* `id` */
  PTAB_KEY_FIRSTLBA = 10,       /* `firstlba` */
  PTAB_KEY_LASTLBA = 11,        /* `lastlba` */
  PTAB_KEY_ENTRIES = 12,        /* `entries` */
  PTAB_KEY_TABLE_LENGTH = 13,   /* `table-length` */
  PTAB_KEY_PARTITIONS = 14,     /* `partitions` */
  PTAB_KEY_CHAIN = 15,          /* `chain` */
  PTAB_KEY_NUMBER = 16,         /* `number` */
  PTAB_KEY_NODE = 17,           /* `node` */
  PTAB_KEY_START = 18,          /* `start` */
  PTAB_KEY_SIZE = 19,           /* `size` */
  PTAB_KEY_LAST = 20,           /* `last` */
  PTAB_KEY_OFFSET = 21,         /* `offset` */
  PTAB_KEY_TYPE = 22,           /* `type` */
  PTAB_KEY_TYPE_NAME = 23,      /* `type_name` */
  PTAB_KEY_UUID = 24,           /* `uuid` */
  PTAB_KEY_NAME = 25,           /* `name` */
  PTAB_KEY_NAME_UNITS = 26,     /* `name_units` */
  PTAB_KEY_ATTRIBUTES = 27,     /* `attributes` */
  PTAB_KEY_ATTRS = 28,          /* `attrs` */
  PTAB_KEY_BOOTABLE = 29,       /* `bootable` */
  PTAB_KEY_BOOT = 30,           /* `boot` */
  PTAB_KEY_START_CHS = 31,      /* `start_chs` */
  PTAB_KEY_END_CHS = 32,        /* `end_chs` */
  PTAB_KEY_RECORD = 33,         /* `record` */
  PTAB_KEY_BSD = 34             /* `bsd` */
};

/*
 * What a plan that writes a GPT's table does with the primary header while the primary array behind it is rewritten. Where it is
 * zeroed, a reader that looks at the primary copy alone finds nothing until it is written anew. Where the primary copy is kept,
 * the header is the backup's with the numbers of the two headers exchanged, and leads to the backup's array: on a disk whose
 * primary copy was whole such a reader finds the old table or the new one wherever the plan stops. Then a phase whose sectors
 * hold what it would write is left out, too. Both plans end with the same disk. docs/c.md, "The primary copy", has more.
 */
enum {
  PTAB_PRIMARY_OF_ITSELF = 0, /* as the call has it: ptab_plan and ptab_repair zero the header; ptab_adopt_plan and
                                 ptab_set_plan keep the copy */
  PTAB_PRIMARY_KEPT = 1,      /* the copy is kept */
  PTAB_PRIMARY_BY_TABLE = 2   /* the header is zeroed, by the specification's table */
};

/* What is known of a disk: `numbers_len` sectors, in any order, their bytes one after the other. Of a number that
   stands twice the first counts. */
typedef struct ptab_view {
  uint32_t sector_size; /* 512 or 4096 */
  uint32_t primary;     /* PTAB_PRIMARY_OF_ITSELF, PTAB_PRIMARY_KEPT or PTAB_PRIMARY_BY_TABLE: plans go by it */
  uint64_t sectors;     /* how many the whole disk has */
  const uint64_t *numbers;
  size_t numbers_len;
  const uint8_t *bytes;
  size_t bytes_len; /* numbers_len * sector_size */
} ptab_view;

/* What goes with a status; a field that doesn't is 0. */
typedef struct ptab_reply {
  uint64_t sector; /* the one wanted, or the one located */
  uint64_t count;  /* of rows, writes, sectors or bytes of text */
  uint64_t phases; /* of a plan */
  uint64_t a, b;   /* arguments of `number`; of a checked plan `a` is the phase that switches, 0 where none does */
  uint32_t about, number;
  uint8_t a_letter, b_letter; /* where `a`, `b` are partitions of a label: 'a' to 'h', else 0 */
} ptab_reply;

/* A GUID as a disk stores it: the first three fields of its text are turned round. ptab_guid_text makes the text. */
typedef struct ptab_guid {
  uint8_t bytes[16];
} ptab_guid;

/* 36 characters, and no zero byte behind them. */
typedef struct ptab_text {
  uint8_t bytes[36];
} ptab_text;

enum { PTAB_MBR = 1, PTAB_GPT = 2 };

typedef struct ptab_table {
  uint64_t sectors;
  uint64_t first, last; /* a GPT's usable sectors */
  uint32_t kind;        /* PTAB_MBR or PTAB_GPT */
  ptab_guid disk;       /* a GPT's */
} ptab_table;

enum { PTAB_LEAF = 0, PTAB_SLICE = 1, PTAB_EXTENDED = 2 };

/* A partition; what its kind of table doesn't have is 0. Where last < first it has no sectors; numbers past 2^64 are
   cut to 2^64 - 1. */
typedef struct ptab_member {
  uint64_t number, first, last;
  uint64_t attributes;         /* GPT */
  uint8_t letter;              /* label: 'a' to 'h' */
  uint8_t kind;                /* PTAB_LEAF, PTAB_SLICE, PTAB_EXTENDED */
  uint8_t type_byte;           /* MBR, label */
  uint8_t boot;                /* MBR */
  ptab_guid type_guid, unique; /* GPT */
  uint16_t name[36];           /* GPT: UTF-16, ended by a zero or by the last unit */
} ptab_member;

/* A block of free sectors: none of them is taken, and right before it and after it none is free. */
typedef struct ptab_block {
  uint64_t first, last;
  uint64_t inside; /* the number of the extended partition or of the slice that it lies inside, 0 where it is for an entry or
                      a record of the table itself */
} ptab_block;

/* A write of a plan; its bytes stand at the same place of `bytes`. */
typedef struct ptab_write {
  uint64_t sector;
  uint64_t phase; /* from 1 on, each as the one before it or one more */
} ptab_write;

/* The most partitions that a disk has: 4 records and 128 logicals, each with 7 entries of a label. */
#define PTAB_MOST_MEMBERS 1056
/* The most sectors that ptab_wanted lists: a label for each slice. */
#define PTAB_MOST_WANTED 132
/* Room for the writes of the largest plans: both copies of a GPT with 128 labels, or sector 0, 128 extended boot records
   and 132 labels. PTAB_ROOM tells where it takes more. */
#define PTAB_MOST_WRITES 264
/* The most GUIDs that the table of a text takes: the disk's, and one for each of 128 entries. */
#define PTAB_MOST_FRESH 129
/* How many sectors to read at the head and at the tail of a disk before the first call. */
#define PTAB_HEAD(sector_size) ((sector_size) == 512 ? 34 : 6)
#define PTAB_TAIL(sector_size) ((sector_size) == 512 ? 33 : 5)

/*
 * All sectors that are known to be wanted for the table and its labels, to be read in one go: PTAB_WANT and reply.count
 * of them in `sectors`, the first one in reply.sector too, none of them in the view and none twice. PTAB_DONE: the table
 * wants nothing, and only a plan or a check may want more. An extended boot record leads to the next one, so these come
 * one at a time, unless the caller has followed them himself and put them into the view beforehand (docs/c.md, "A chain in one
 * call"); the labels of all slices come at once, and then nothing more.
 */
int32_t ptab_wanted(const ptab_view *view, uint64_t *sectors, size_t sectors_len, ptab_reply *reply);

/* The partitions: records or entries by number, then logical ones; a slice before the entries of its label. With PTAB_ROOM
   the table is given, and no row. */
int32_t ptab_members(const ptab_view *view, ptab_table *table, ptab_member *rows, size_t rows_len, ptab_reply *reply);

/*
 * The whole table as a text of JSON in UTF-8, byte for byte as `ptab show --json IMAGE` prints it where IMAGE is `device`, a name
 * in UTF-8, but for the line's end behind it (docs/table.md). PTAB_DONE: reply.count bytes stand in `text`, and no zero byte
 * behind them. PTAB_ROOM: it takes reply.count bytes.
 */
int32_t ptab_table_text(const ptab_view *view, const uint8_t *device, size_t device_len, uint8_t *text, size_t text_len,
                        ptab_reply *reply);

/* The blocks of free sectors where a new partition may lie, as `ptab free` prints them: those of the table itself in ascending
   order, then those inside the extended partition, then those inside each slice that has a label. PTAB_DONE also where there
   are none. */
int32_t ptab_free(const ptab_view *view, ptab_block *rows, size_t rows_len, ptab_reply *reply);

/* PTAB_DONE where the disk is healthy, or PTAB_NO and the first finding. */
int32_t ptab_verify(const ptab_view *view, ptab_reply *reply);

/* The disk's sector that is sector k, from 0, of a partition: PTAB_DONE and reply.sector, or PTAB_NO. */
int32_t ptab_locate(const ptab_view *view, uint64_t number, uint8_t letter, uint64_t k, ptab_reply *reply);

/*
 * The plan of an edit. `words` are edit words as `ptab edit` takes them, UTF-8, each ended by a zero byte; `drawn` has
 * 16 random bytes for each GUID that they need.
 *
 * To carry it out: lock the disk; fsync; drop what is cached of it; read; call; then for each phase write its sectors, in
 * any order, and fsync before the next phase. If a write or an fsync fails, stop: the disk has the old table or the new
 * one. PTAB_DONE with no writes says that the disk is as wanted. The plan is for the disk as it was read: if anything else
 * writes the disk in between, throw the plan away.
 */
int32_t ptab_plan(const ptab_view *view, const uint8_t *words, size_t words_len, const uint8_t *drawn,
                  size_t drawn_len, ptab_write *writes, size_t writes_len, uint8_t *bytes, size_t bytes_len,
                  ptab_reply *reply);

/* The plan that makes the disk healthy and keeps its partitions, to be carried out in the same way. */
int32_t ptab_repair(const ptab_view *view, ptab_write *writes, size_t writes_len, uint8_t *bytes, size_t bytes_len,
                    ptab_reply *reply);

/*
 * The plan that makes the disk healthy with the layout that another disk denotes, to be carried out in the same way. It
 * may want a sector of either disk: PTAB_WANT of the disk, PTAB_WANT_OTHER of the other one, whose table is read first.
 * The other disk is only read; the plan goes by `primary` of the first view. Both have the same sector size and the same
 * number of sectors. A layout is taken, and nothing else: no boot code, no disk signature of an MBR, no sector of a
 * partition.
 */
int32_t ptab_adopt_plan(const ptab_view *view, const ptab_view *other, ptab_write *writes, size_t writes_len,
                        uint8_t *bytes, size_t bytes_len, ptab_reply *reply);

/*
 * The plan by which the disk takes the table that a text says, to be carried out in the same way: a text of ptab_table_text, of
 * `sfdisk --json`, or one by hand, in UTF-8 (docs/table.md). The text is the whole table: partitions that it doesn't have are
 * removed. `drawn` has 16 random bytes for each GUID that the text leaves out and the disk doesn't have, PTAB_MOST_FRESH at most.
 * PTAB_REFUSED with PTAB_ABOUT_TEXT: the first fault of the text. The disk may have no table; the plan keeps the primary copy
 * unless `primary` says otherwise.
 */
int32_t ptab_set_plan(const ptab_view *view, const uint8_t *text, size_t text_len, const uint8_t *drawn, size_t drawn_len,
                      ptab_write *writes, size_t writes_len, uint8_t *bytes, size_t bytes_len, ptab_reply *reply);

/* Whether a plan from elsewhere may be carried out on the disk as it was read: PTAB_DONE, or PTAB_NO and the first
   reason. Its writes stand by phases, in order; `bytes_len` is writes_len * sector_size. */
int32_t ptab_check(const ptab_view *view, const ptab_write *writes, size_t writes_len, const uint8_t *bytes,
                   size_t bytes_len, ptab_reply *reply);

/* The text of a GUID, in lower case. */
void ptab_guid_text(const ptab_guid *guid, ptab_text *text);

/* The code of a partition's type, as 0xEF00, or -1. */
int32_t ptab_type_code(const ptab_guid *guid);

/* The number of the library's interface. */
int32_t ptab_version(void);

#ifdef __cplusplus
}
#endif

#endif
