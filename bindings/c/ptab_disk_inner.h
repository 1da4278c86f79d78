/*
 * What the sources of ptab_disk.h share: an open disk, how answers are filled, and the calls of the system
 * (ptab_disk_io.c). It isn't installed.
 */
#ifndef PTAB_DISK_INNER_H
#define PTAB_DISK_INNER_H

#include "ptab_disk.h"

#include <errno.h>
#include <string.h>
#include <sys/types.h>

/* Repeats a call that a signal interrupts. */
#define UNINTERRUPTED(answer, call)                   \
  do {                                                \
    (answer) = (call);                                \
  } while ((answer) < 0 && errno == EINTR)

/* Seen by these sources, and not by programs that load the shared object. */
#define INNER __attribute__((visibility("hidden")))

/* Bytes that are read past the page cache at once. */
#define BUFFER_SIZE 32768

struct ptab_disk {
  int fd;
  uint32_t how;
  uint32_t sector_size;
  int owns;       /* closing the disk closes the descriptor */
  pid_t opener;   /* the process that opened it: the lock is ended by no other */
  size_t unit;    /* reads past the page cache have whole units; 0: the system has no such reads here */
  int block_size; /* the device's before it was set to that of a sector; 0: it wasn't set */
};

/* answers */

static inline int32_t said(ptab_reply *reply, int32_t status, uint32_t number, uint64_t a) {
  int error = errno;
  memset(reply, 0, sizeof *reply);
  reply->about = PTAB_ABOUT_DISK;
  reply->number = number;
  reply->a = a;
  reply->b = status == PTAB_DEVICE ? (uint64_t)error : 0;
  return status;
}

static inline int32_t said_of(ptab_reply *reply, uint32_t number, uint64_t sector) {
  int32_t status = said(reply, PTAB_DEVICE, number, 0);
  reply->sector = sector;
  return status;
}

static inline int32_t no_memory(ptab_reply *reply) {
  memset(reply, 0, sizeof *reply);
  return PTAB_MEMORY;
}

/* The status, with errno as it was where the disk failed. */
static inline int32_t ended(int32_t status, const ptab_reply *reply) {
  if (status == PTAB_DEVICE) errno = (int)reply->b;
  return status;
}

/* where an MBR leads (ptab_disk_mbr.c) */

/* How far an MBR was followed. */
struct led {
  uint64_t sectors;                  /* of the disk */
  int is_mbr;                        /* whether its sector 0 is that of an MBR disk */
  int has_labels;                    /* whether slices have labels: with sectors of 4096 bytes there are no slices */
  uint64_t first, last;              /* the extended partition's */
  int has_next, records;             /* whether there is an extended boot record to be read; how many there were, that one too */
  uint64_t next;                     /* where it stands */
  uint64_t labels[PTAB_MOST_WANTED]; /* those of slices, up to there; none where the table breaks off */
  size_t labels_len;
};

/* Begins at sector 0 of a disk, of which the view says how many sectors it has, and of which size. */
INNER void ptab_inner_lead(struct led *it, const uint8_t *sector, const ptab_view *disk);

/* Goes on by the bytes of the extended boot record that is next. */
INNER void ptab_inner_lead_on(struct led *it, const uint8_t *sector);

/* calls of the system */

/* What each call begins with: whether it may be made. The next reads come from the medium, as far as the system can do that. */
INNER int32_t ptab_inner_begin(ptab_disk *disk, int writes, ptab_reply *reply);

/* Drops what is cached, as far as the system can do that. */
INNER void ptab_inner_drop(const ptab_disk *disk);

/* Whether this process opened the disk. */
INNER int ptab_inner_is_ours(const ptab_disk *disk);

/* How many sectors the disk has now. */
INNER int32_t ptab_inner_count(const ptab_disk *disk, uint64_t *sectors, ptab_reply *reply);

/* Memory for reads past the page cache, or NULL; NULL needn't be given back. */
INNER uint8_t *ptab_inner_buffer(void);
INNER void ptab_inner_give_back(uint8_t *buffer);

/* How many bytes could be read from a place, of so many; errno says why they are fewer. */
INNER size_t ptab_inner_read(ptab_disk *disk, uint8_t *buffer, uint8_t *into, size_t count, uint64_t at);

/* Turns the descriptor's O_DIRECT on or off: the flags that ptab_inner_put_back puts back, or -1. */
INNER int ptab_inner_set_direct(const ptab_disk *disk, int direct);
INNER void ptab_inner_put_back(const ptab_disk *disk, int flags);

INNER int ptab_inner_write(const ptab_disk *disk, const uint8_t *from, size_t count, uint64_t at);
INNER int ptab_inner_sync(const ptab_disk *disk);

/* Gives the device the block size that it had when it was opened. */
INNER void ptab_inner_restore(const ptab_disk *disk);

#endif
