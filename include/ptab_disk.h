/*
 * ptab_disk.h: the calls of ptab.h on an image or a block device. Each is one call: it reads what it needs, asks the library
 * until it has an answer, and carries out what is to be written. docs/c.md tells how to use it. It is for Linux.
 *
 * Rules, besides those of ptab.h:
 *   - each call reads the disk anew, its size too, so it answers for the disk as it is now;
 *   - each call first syncs the disk and drops what the system has cached of it, and reads past the cache (O_DIRECT), so it
 *     answers for what is on the medium, as far as the system can do that (docs/c.md);
 *   - a call that writes first makes durable what is there, then reads, and writes a plan phase by phase with an fsync after
 *     each. It stops at the first write or sync that fails; the disk then has the old table or the new one;
 *   - `errno` is that of the call that failed where PTAB_DEVICE is answered.
 *
 * The descriptor. While a call runs it sets O_DIRECT for its reads and clears it for its writes; then the flag is as it was.
 * So nobody else reads or writes meanwhile by the descriptor, by a duplicate of it, or by one that a fork left.
 *
 * Threads. Any thread may call. Calls on one disk, ptab_disk_close too, come one after the other; on different disks they may
 * be in several threads at once. No thread is cancelled (pthread_cancel) in a call.
 *
 * Fork. The disk stays that of the process that opened it. A child that was forked may close its copy, which ends no lock and
 * changes nothing for the opener; it may do nothing else: every other call is answered by PTAB_DISK_FORKED. The lock ends when
 * the opener closes the disk, or, where it ends without that, when no process has a copy of the descriptor left. An exec closes
 * what ptab_disk_open opened.
 *
 * Signals. A signal that interrupts a call doesn't end it, so SA_RESTART makes no difference. A handler makes none of these
 * calls, and doesn't leave one by longjmp. A process that is killed in a call leaves the old table or the new one. No file is
 * mapped, so no call raises SIGBUS, and none raises SIGPIPE. As with each write, the system raises SIGXFSZ where the limit of a
 * file's size is reached; where that is ignored, PTAB_DEVICE is answered, with EFBIG.
 *
 * Every call returns a status of ptab.h, but never PTAB_WANT or PTAB_WANT_OTHER, and fills the
 * reply.
 */
#ifndef PTAB_DISK_H
#define PTAB_DISK_H

#include "ptab.h"

#ifdef __cplusplus
extern "C" {
#endif

/* A disk that is open. */
typedef struct ptab_disk ptab_disk;

/* How a disk is opened: a sum of these. Without PTAB_DISK_DEVICE it is a plain file, with it a block device; all else is
   refused. A device that is to be written is claimed as the kernel claims it for a mount, so one that is in use is refused.
   The last two say what becomes of a GPT's primary copy in the plans of the disk, those that are carried out too (ptab.h). They
   aren't given together. Without them an edit and a repair zero its header meanwhile, and an adoption and ptab_disk_set keep it. */
enum {
  PTAB_DISK_READ = 0,
  PTAB_DISK_WRITE = 1,        /* for writing, under the exclusive lock of flock(2) until it is closed */
  PTAB_DISK_UNLOCKED = 2,     /* takes no lock, since the caller holds it */
  PTAB_DISK_DEVICE = 4,       /* a block device */
  PTAB_DISK_KEEP_PRIMARY = 8, /* it is kept: PTAB_PRIMARY_KEPT */
  PTAB_DISK_BY_TABLE = 16     /* its header is zeroed: PTAB_PRIMARY_BY_TABLE */
};

/* More of what `reply.number` counts. */
enum {
  PTAB_ABOUT_DISK = 64,      /* 1 to 13, below: `sector` is that of a read or write, `b` is errno */
  PTAB_ABOUT_OTHER_DISK = 65 /* the same of the other disk of ptab_disk_adopt */
};

enum {
  PTAB_DISK_OPENING = 1,     /* PTAB_DEVICE: it can't be opened */
  PTAB_DISK_KIND = 2,        /* PTAB_DEVICE: it is another kind of file, `a`, below */
  PTAB_DISK_READING = 3,     /* PTAB_DEVICE: a sector can't be read, or the file ends before it */
  PTAB_DISK_WRITING = 4,     /* PTAB_DEVICE: a sector can't be written */
  PTAB_DISK_SYNCING = 5,     /* PTAB_DEVICE: what was written can't be made durable */
  PTAB_DISK_LOCKING = 6,     /* PTAB_DEVICE: there are no locks */
  PTAB_DISK_LOCKED = 7,      /* PTAB_REFUSED: the lock is held elsewhere */
  PTAB_DISK_IN_USE = 8,      /* PTAB_REFUSED: the device is in use: mounted, as swap, or by another device */
  PTAB_DISK_SECTOR_SIZE = 9, /* PTAB_USAGE: the device has sectors of `a` bytes */
  PTAB_DISK_READ_ONLY = 10,  /* PTAB_USAGE: it was opened for reading alone */
  PTAB_DISK_RANDOM = 11,     /* PTAB_DEVICE: the system gives no random bytes */
  PTAB_DISK_HOW = 12,        /* PTAB_USAGE: `how` is no sum of the above */
  PTAB_DISK_FORKED = 13      /* PTAB_USAGE: another process opened the disk, and this one was forked from it */
};

/* The kinds of PTAB_DISK_KIND. */
enum {
  PTAB_KIND_OTHER = 0,
  PTAB_KIND_FILE = 1,
  PTAB_KIND_BLOCK = 2,
  PTAB_KIND_FOLDER = 3,
  PTAB_KIND_CHARACTERS = 4,
  PTAB_KIND_PIPE = 5,
  PTAB_KIND_SOCKET = 6
};

/* Opens a disk, with sectors of 512 or 4096 bytes. Where `sector_size` is 0 it is a device's own, of a file 512. With any
   status but PTAB_DONE `*disk` is NULL. */
int32_t ptab_disk_open(const char *path, uint32_t how, uint32_t sector_size, ptab_disk **disk, ptab_reply *reply);

/* The same of a descriptor, which stays the caller's, and open until the disk is closed: it was opened for reading, or for
   both and not for appending, with O_DIRECT or without, a device with O_EXCL. It is locked and unlocked as a path is, unless
   PTAB_DISK_UNLOCKED says that the caller does. A descriptor and its duplicates have one lock, so one of them is taken at a
   time: of two disks the second isn't refused, and the lock ends with the first that is closed. */
int32_t ptab_disk_take(int fd, uint32_t how, uint32_t sector_size, ptab_disk **disk, ptab_reply *reply);

/* Ends the lock, unless this process was forked from the one that opened the disk, and closes what ptab_disk_open opened.
   NULL is no disk, and nothing is done. */
void ptab_disk_close(ptab_disk *disk);

/* How many sectors the disk has now, and how many bytes each of them has. */
int32_t ptab_disk_size(ptab_disk *disk, uint64_t *sectors, uint32_t *sector_size, ptab_reply *reply);

/* ptab_members, ptab_verify, ptab_locate. */
int32_t ptab_disk_members(ptab_disk *disk, ptab_table *table, ptab_member *rows, size_t rows_len, ptab_reply *reply);
int32_t ptab_disk_verify(ptab_disk *disk, ptab_reply *reply);
int32_t ptab_disk_locate(ptab_disk *disk, uint64_t number, uint8_t letter, uint64_t k, ptab_reply *reply);

/* A partition with its texts, which are those of `ptab show`. */
typedef struct ptab_partition {
  uint64_t first, last;
  char path[24];  /* 3, or 2.a */
  char type[40];  /* a code, a GUID, or two digits */
  char name[112]; /* GPT: in UTF-8 */
} ptab_partition;

/* The partitions that ptab_disk_members gives, with their texts; `reply.count` is how many. */
int32_t ptab_disk_list(ptab_disk *disk, ptab_partition *rows, size_t rows_len, ptab_reply *reply);

/* The text of ptab_table_text, for the device of this name, which is a C string. PTAB_DONE: `text` has it with a zero byte
   behind it, and `reply.count` is its length without that. PTAB_ROOM: `text_len` has to be `reply.count`, the zero byte counted. */
int32_t ptab_disk_table(ptab_disk *disk, const char *device, char *text, size_t text_len, ptab_reply *reply);

/* The blocks of ptab_free. */
int32_t ptab_disk_free(ptab_disk *disk, ptab_block *rows, size_t rows_len, ptab_reply *reply);

/*
 * Calls that write, on a disk that was opened with PTAB_DISK_WRITE. With PTAB_DONE the disk is as wanted, and that is durable;
 * `reply.count` is the number of sectors that were written. With PTAB_DEVICE it is that of the sectors that were written, or
 * may have been in part, and `reply.phases` that of the phases that are durable. With every other status nothing was written.
 */

/* An edit by `words_len` words as `ptab edit` takes them, each ended by a zero byte. `drawn` has 16 random bytes for each GUID
   that they need; where it is NULL they are drawn by getrandom(2). */
int32_t ptab_disk_edit(ptab_disk *disk, const char *const *words, size_t words_len, const uint8_t *drawn, size_t drawn_len,
                       ptab_reply *reply);

/* A repair. */
int32_t ptab_disk_repair(ptab_disk *disk, ptab_reply *reply);

/* Gives the disk the layout that another one denotes, which is only read. Both may be the same. Of the primary copy only the
   opening of the disk says something, and not that of the other one. */
int32_t ptab_disk_adopt(ptab_disk *disk, ptab_disk *other, ptab_reply *reply);

/* Gives the disk the table that a text of `text_len` bytes says, as ptab_set_plan has it. `drawn` is as of ptab_disk_edit. */
int32_t ptab_disk_set(ptab_disk *disk, const char *text, size_t text_len, const uint8_t *drawn, size_t drawn_len,
                      ptab_reply *reply);

/* Carries out a plan from elsewhere, if ptab_check says yes to it; PTAB_NO and the first reason else. */
int32_t ptab_disk_apply(ptab_disk *disk, const ptab_write *writes, size_t writes_len, const uint8_t *bytes, size_t bytes_len,
                        ptab_reply *reply);

/* Plans, of which nothing is written: those that the calls above would carry out, and whether one may be. Buffers are
   those of ptab.h; room for PTAB_MOST_WRITES is mostly enough, and PTAB_ROOM tells where it isn't. */
int32_t ptab_disk_plan(ptab_disk *disk, const char *const *words, size_t words_len, const uint8_t *drawn, size_t drawn_len,
                       ptab_write *writes, size_t writes_len, uint8_t *bytes, size_t bytes_len, ptab_reply *reply);
int32_t ptab_disk_repair_plan(ptab_disk *disk, ptab_write *writes, size_t writes_len, uint8_t *bytes, size_t bytes_len,
                              ptab_reply *reply);
int32_t ptab_disk_adopt_plan(ptab_disk *disk, ptab_disk *other, ptab_write *writes, size_t writes_len, uint8_t *bytes,
                             size_t bytes_len, ptab_reply *reply);
int32_t ptab_disk_set_plan(ptab_disk *disk, const char *text, size_t text_len, const uint8_t *drawn, size_t drawn_len,
                           ptab_write *writes, size_t writes_len, uint8_t *bytes, size_t bytes_len, ptab_reply *reply);
int32_t ptab_disk_check(ptab_disk *disk, const ptab_write *writes, size_t writes_len, const uint8_t *bytes, size_t bytes_len,
                        ptab_reply *reply);

/* Texts: as much as `length` bytes hold, with a zero byte at the end. They give how many bytes the whole text has without
   that, so a text of that length or more wasn't cut. */

/* The sentence that says what a status and its reply mean, of these calls and of ptab.h's. */
size_t ptab_message(int32_t status, const ptab_reply *reply, char *text, size_t length);

/* A GPT partition's name in UTF-8, as `ptab show` prints it: at most 108 bytes. */
size_t ptab_name_text(const ptab_member *row, char *text, size_t length);

/* For a program that ends at the first failure: unless the status is PTAB_DONE, prints its sentence on standard error, and
   exits with the status; with PTAB_USAGE where that is less than 0. */
void ptab_must(int32_t status, const ptab_reply *reply);

#ifdef __cplusplus
}
#endif

#endif
