/*
 * Reads, writes and syncs of an open disk: of what is on the medium, and of whole sectors and no more where the system lets them be.
 * docs/c.md, "What is read and written", says why.
 */
#define _GNU_SOURCE
#include "ptab_disk_inner.h"

#include <fcntl.h>
#include <linux/fs.h>
#include <sys/ioctl.h>
#include <sys/mman.h>
#include <sys/stat.h>
#include <unistd.h>

/* The most bytes that a file system may want reads past the cache to be multiples of; a buffer has more. */
#define PAGE 4096

_Static_assert(sizeof(off_t) == 8, "a place in a file takes 64 bits");

int ptab_inner_is_ours(const ptab_disk *disk) { return disk->opener == getpid(); }

int32_t ptab_inner_count(const ptab_disk *disk, uint64_t *sectors, ptab_reply *reply) {
  struct stat st;
  uint64_t bytes = 0;
  int answer;
  if (disk->how & PTAB_DISK_DEVICE) {
    UNINTERRUPTED(answer, ioctl(disk->fd, BLKGETSIZE64, &bytes));
  } else {
    answer = fstat(disk->fd, &st);
    if (answer == 0) bytes = (uint64_t)st.st_size;
  }
  *sectors = bytes / disk->sector_size;
  return answer == 0 ? PTAB_DONE : said(reply, PTAB_DEVICE, PTAB_DISK_OPENING, 0);
}

/* what is cached */

int ptab_inner_sync(const ptab_disk *disk) {
  int answer;
  UNINTERRUPTED(answer, fsync(disk->fd));
  return answer == 0;
}

static int is_flushed(const ptab_disk *disk) {
  int answer;
  UNINTERRUPTED(answer, ioctl(disk->fd, BLKFLSBUF, 0));
  return answer == 0;
}

/* Drops the pages that are clean. A page that is mapped or was written meanwhile may stay. */
static void advise(const ptab_disk *disk) { posix_fadvise(disk->fd, 0, 0, POSIX_FADV_DONTNEED); }

/* Where the device writes single sectors, has the system write these and not whole pages, which have what stood beside them. */
static void set_block_size(ptab_disk *disk) {
  int size = (int)disk->sector_size, block = 0, answer;
  unsigned physical = 0;
  if (ioctl(disk->fd, BLKPBSZGET, &physical) < 0 || physical > disk->sector_size) return;
  if (ioctl(disk->fd, BLKBSZGET, &block) < 0 || block <= size) return;
  UNINTERRUPTED(answer, ioctl(disk->fd, BLKBSZSET, &size));
  if (answer == 0 && disk->block_size == 0) disk->block_size = block;
}

void ptab_inner_restore(const ptab_disk *disk) {
  int size = disk->block_size, answer;
  if (size != 0) UNINTERRUPTED(answer, ioctl(disk->fd, BLKBSZSET, &size));
}

void ptab_inner_drop(const ptab_disk *disk) {
  if (!(disk->how & PTAB_DISK_DEVICE) || !is_flushed(disk)) advise(disk);
}

/* Makes durable what is there, and drops what is cached: it may be what a write that failed has left. */
static int is_fresh_to_write(ptab_disk *disk) {
  if (!ptab_inner_sync(disk)) return 0;
  if (disk->how & PTAB_DISK_DEVICE) {
    set_block_size(disk);
    return is_flushed(disk);
  }
  advise(disk);
  return 1;
}

/* The same for who only reads, who may lack the right to drop a device's pages. A sync that fails is no hindrance: what others wrote
   isn't on the medium then, and the medium is what is read. */
static void freshen_to_read(const ptab_disk *disk) {
  if (disk->how & PTAB_DISK_DEVICE && is_flushed(disk)) return;
  ptab_inner_sync(disk);
  advise(disk);
}

int32_t ptab_inner_begin(ptab_disk *disk, int writes, ptab_reply *reply) {
  memset(reply, 0, sizeof *reply);
  if (!ptab_inner_is_ours(disk)) return said(reply, PTAB_USAGE, PTAB_DISK_FORKED, 0);
  if (writes && !(disk->how & PTAB_DISK_WRITE)) return said(reply, PTAB_USAGE, PTAB_DISK_READ_ONLY, 0);
  if (!writes)
    freshen_to_read(disk);
  else if (!is_fresh_to_write(disk))
    return said(reply, PTAB_DEVICE, PTAB_DISK_SYNCING, 0);
  return PTAB_DONE;
}

/* reads and writes */

/* It begins with a page. No fork copies it: that might take away the page that the drive is just filling (open(2), O_DIRECT). */
uint8_t *ptab_inner_buffer(void) {
  void *buffer = mmap(NULL, BUFFER_SIZE, PROT_READ | PROT_WRITE, MAP_PRIVATE | MAP_ANONYMOUS, -1, 0);
  if (buffer == MAP_FAILED) return NULL;
  madvise(buffer, BUFFER_SIZE, MADV_DONTFORK);
  return buffer;
}

void ptab_inner_give_back(uint8_t *buffer) {
  if (buffer) munmap(buffer, BUFFER_SIZE);
}

int ptab_inner_set_direct(const ptab_disk *disk, int direct) {
  int flags = fcntl(disk->fd, F_GETFL);
  if (flags < 0 || !(flags & O_DIRECT) == !direct) return flags;
  return fcntl(disk->fd, F_SETFL, flags ^ O_DIRECT) < 0 ? -1 : flags;
}

void ptab_inner_put_back(const ptab_disk *disk, int flags) {
  int error = errno, now = fcntl(disk->fd, F_GETFL);
  if (flags >= 0 && now >= 0 && (now ^ flags) & O_DIRECT) fcntl(disk->fd, F_SETFL, now ^ O_DIRECT);
  errno = error;
}

static int is_refused(int error) { return error == EINVAL || error == EOPNOTSUPP; }

/* Reads by way of the page cache. */
static size_t read_cached(const ptab_disk *disk, uint8_t *into, size_t count, uint64_t at) {
  size_t done = 0;
  while (done < count) {
    ssize_t got = pread(disk->fd, into + done, count - done, (off_t)(at + done));
    if (got < 0 && errno == EINTR) continue;
    if (got == 0) errno = EIO;
    if (got <= 0) break;
    done += (size_t)got;
  }
  return done;
}

/* Reads past it, by whole units. A unit that comes in part is asked for once more; if it comes no further the file ends there. */
static size_t read_units(const ptab_disk *disk, uint8_t *buffer, uint8_t *into, size_t count, uint64_t at) {
  size_t done = 0, tries = 0;
  while (done < count) {
    size_t before = (size_t)((at + done) % disk->unit), wanted = before + (count - done);
    wanted = (wanted + disk->unit - 1) / disk->unit * disk->unit;
    if (wanted > BUFFER_SIZE) wanted = BUFFER_SIZE;
    ssize_t got = pread(disk->fd, buffer, wanted, (off_t)(at + done - before));
    if (got < 0 && errno == EINTR) continue;
    if (got < 0) break;
    size_t more = (size_t)got > before ? (size_t)got - before : 0;
    if (more > count - done) more = count - done;
    tries = more > 0 ? 0 : tries + 1;
    errno = EIO;
    if (got == 0 || tries > 1) break;
    memcpy(into + done, buffer + before, more);
    done += more;
  }
  return done;
}

/* A unit is a sector, or a page of a file whose device has larger sectors than the image. */
size_t ptab_inner_read(ptab_disk *disk, uint8_t *buffer, uint8_t *into, size_t count, uint64_t at) {
  while (disk->unit != 0) {
    int flags = ptab_inner_set_direct(disk, 1);
    size_t done = flags >= 0 ? read_units(disk, buffer, into, count, at) : 0;
    ptab_inner_put_back(disk, flags);
    if (done == count || !is_refused(errno)) return done;
    disk->unit = flags >= 0 && disk->unit < PAGE ? PAGE : 0;
  }
  int flags = ptab_inner_set_direct(disk, 0);
  size_t done = read_cached(disk, into, count, at);
  ptab_inner_put_back(disk, flags);
  return done;
}

int ptab_inner_write(const ptab_disk *disk, const uint8_t *from, size_t count, uint64_t at) {
  while (count > 0) {
    ssize_t put = pwrite(disk->fd, from, count, (off_t)at);
    if (put < 0 && errno == EINTR) continue;
    if (put == 0) errno = EIO;
    if (put <= 0) return 0;
    from += put;
    at += (uint64_t)put;
    count -= (size_t)put;
  }
  return 1;
}
