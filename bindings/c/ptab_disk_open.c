/*
 * Opening and closing a disk, and its lock. include/ptab_disk.h says what each call does.
 */
#define _GNU_SOURCE
#include "ptab_disk_inner.h"

#include <fcntl.h>
#include <linux/fs.h>
#include <stdlib.h>
#include <sys/file.h>
#include <sys/ioctl.h>
#include <sys/stat.h>
#include <unistd.h>

static uint64_t kind_of(const struct stat *st) {
  if (S_ISREG(st->st_mode)) return PTAB_KIND_FILE;
  if (S_ISBLK(st->st_mode)) return PTAB_KIND_BLOCK;
  if (S_ISDIR(st->st_mode)) return PTAB_KIND_FOLDER;
  if (S_ISCHR(st->st_mode)) return PTAB_KIND_CHARACTERS;
  if (S_ISFIFO(st->st_mode)) return PTAB_KIND_PIPE;
  return S_ISSOCK(st->st_mode) ? PTAB_KIND_SOCKET : PTAB_KIND_OTHER;
}

static int32_t judge_kind(const struct stat *st, uint32_t how, ptab_reply *reply) {
  uint64_t kind = kind_of(st), wanted = how & PTAB_DISK_DEVICE ? PTAB_KIND_BLOCK : PTAB_KIND_FILE;
  errno = EINVAL;
  return kind == wanted ? PTAB_DONE : said(reply, PTAB_DEVICE, PTAB_DISK_KIND, kind);
}

/* Whether this is a way to open a disk: what becomes of the primary copy is said once at most. */
static int is_way(uint32_t how) {
  uint32_t primary = PTAB_DISK_KEEP_PRIMARY | PTAB_DISK_BY_TABLE;
  uint32_t all = PTAB_DISK_WRITE | PTAB_DISK_UNLOCKED | PTAB_DISK_DEVICE | primary;
  return !(how & ~all) && (how & primary) != primary;
}

static int32_t judge_arguments(uint32_t how, uint32_t sector_size, ptab_reply *reply) {
  memset(reply, 0, sizeof *reply);
  if (!is_way(how)) return said(reply, PTAB_USAGE, PTAB_DISK_HOW, 0);
  if (sector_size == 0 || sector_size == 512 || sector_size == 4096) return PTAB_DONE;
  reply->about = PTAB_ABOUT_ARGUMENT;
  reply->number = 1;
  return PTAB_USAGE;
}

/* The size of the disk's sectors: of a device its own, and no other. */
static int32_t find_sector_size(ptab_disk *disk, uint32_t wanted, ptab_reply *reply) {
  int own = 512, answer = 0;
  if (disk->how & PTAB_DISK_DEVICE) {
    UNINTERRUPTED(answer, ioctl(disk->fd, BLKSSZGET, &own));
    if (answer < 0) return said(reply, PTAB_DEVICE, PTAB_DISK_OPENING, 0);
    if ((own != 512 && own != 4096) || (wanted != 0 && wanted != (uint32_t)own))
      return said(reply, PTAB_USAGE, PTAB_DISK_SECTOR_SIZE, (uint64_t)own);
  }
  disk->sector_size = wanted != 0 ? wanted : (uint32_t)own;
  return PTAB_DONE;
}

static int is_locked(const ptab_disk *disk) {
  return (disk->how & PTAB_DISK_WRITE) && !(disk->how & PTAB_DISK_UNLOCKED);
}

static int32_t lock(const ptab_disk *disk, ptab_reply *reply) {
  int answer;
  if (!is_locked(disk)) return PTAB_DONE;
  UNINTERRUPTED(answer, flock(disk->fd, LOCK_EX | LOCK_NB));
  if (answer == 0) return PTAB_DONE;
  if (errno == EWOULDBLOCK) return said(reply, PTAB_REFUSED, PTAB_DISK_LOCKED, 0);
  return said(reply, PTAB_DEVICE, PTAB_DISK_LOCKING, 0);
}

/* Whether a descriptor with these flags can be read, and written at any place where the disk is to be written. */
static int has_access(int flags, uint32_t how) {
  if (how & PTAB_DISK_WRITE) return (flags & O_ACCMODE) == O_RDWR && !(flags & O_APPEND);
  return (flags & O_ACCMODE) != O_WRONLY;
}

/* A disk of an open descriptor. */
static int32_t take(int fd, int owns, uint32_t how, uint32_t sector_size, ptab_disk **disk, ptab_reply *reply) {
  struct stat st;
  int flags = fcntl(fd, F_GETFL);
  if (flags < 0 || fstat(fd, &st) != 0) return said(reply, PTAB_DEVICE, PTAB_DISK_OPENING, 0);
  int32_t status = judge_kind(&st, how, reply);
  if (status != PTAB_DONE) return status;
  errno = EBADF;
  if (!has_access(flags, how)) return said(reply, PTAB_DEVICE, PTAB_DISK_OPENING, 0);
  ptab_disk *it = malloc(sizeof *it);
  if (!it) return no_memory(reply);
  *it = (ptab_disk){.fd = fd, .how = how, .owns = owns, .opener = getpid()};
  status = find_sector_size(it, sector_size, reply);
  it->unit = it->sector_size;
  if (status == PTAB_DONE) status = lock(it, reply);
  if (status == PTAB_DONE)
    *disk = it;
  else
    free(it);
  return status;
}

/* Opens a path. What another kind of file would do when it is opened isn't tried. */
static int32_t open_path(const char *path, uint32_t how, int *fd, ptab_reply *reply) {
  struct stat st;
  int exclusive = how & PTAB_DISK_DEVICE && how & PTAB_DISK_WRITE ? O_EXCL : 0;
  if (stat(path, &st) != 0) return said(reply, PTAB_DEVICE, PTAB_DISK_OPENING, 0);
  int32_t status = judge_kind(&st, how, reply);
  if (status != PTAB_DONE) return status;
  UNINTERRUPTED(*fd, open(path, (how & PTAB_DISK_WRITE ? O_RDWR : O_RDONLY) | O_CLOEXEC | O_NOCTTY | exclusive));
  if (*fd >= 0) return PTAB_DONE;
  if (exclusive && errno == EBUSY) return said(reply, PTAB_REFUSED, PTAB_DISK_IN_USE, 0);
  return said(reply, PTAB_DEVICE, PTAB_DISK_OPENING, 0);
}

int32_t ptab_disk_open(const char *path, uint32_t how, uint32_t sector_size, ptab_disk **disk, ptab_reply *reply) {
  int fd = -1;
  *disk = NULL;
  int32_t status = judge_arguments(how, sector_size, reply);
  if (status == PTAB_DONE) status = open_path(path, how, &fd, reply);
  if (status == PTAB_DONE) status = take(fd, 1, how, sector_size, disk, reply);
  if (status != PTAB_DONE && fd >= 0) close(fd);
  return ended(status, reply);
}

int32_t ptab_disk_take(int fd, uint32_t how, uint32_t sector_size, ptab_disk **disk, ptab_reply *reply) {
  *disk = NULL;
  int32_t status = judge_arguments(how, sector_size, reply);
  if (status == PTAB_DONE) status = take(fd, 0, how, sector_size, disk, reply);
  return ended(status, reply);
}

/* Ends what the opener alone may end: the lock is one with that of its copies of the descriptor. */
static void leave(const ptab_disk *disk) {
  int answer;
  ptab_inner_restore(disk);
  if (is_locked(disk)) UNINTERRUPTED(answer, flock(disk->fd, LOCK_UN));
}

void ptab_disk_close(ptab_disk *disk) {
  if (!disk) return;
  if (ptab_inner_is_ours(disk)) leave(disk);
  if (disk->owns) close(disk->fd);
  free(disk);
}

int32_t ptab_disk_size(ptab_disk *disk, uint64_t *sectors, uint32_t *sector_size, ptab_reply *reply) {
  memset(reply, 0, sizeof *reply);
  *sector_size = disk->sector_size;
  int32_t status = PTAB_DONE;
  if (!ptab_inner_is_ours(disk)) status = said(reply, PTAB_USAGE, PTAB_DISK_FORKED, 0);
  return status == PTAB_DONE ? ended(ptab_inner_count(disk, sectors, reply), reply) : status;
}
