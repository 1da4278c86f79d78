/*
 * A drive that fails at will: the file `disk` in FOLDER, of MEDIUM's length. It has a cache, as drives have: what is written stands there
 * and is read from there, and a flush (an fsync of `disk`) brings it to MEDIUM. So MEDIUM is what a power cut would leave.
 *
 * `control` in the same folder takes a line:
 *   write SECTOR NTH   the NTH write from now on that changes this sector fails, and it stays as it was; what is written with it is written
 *   flush NTH          of the flushes that have something to bring to MEDIUM the NTH from now on fails, and what the cache holds is lost
 *   keep NTH           the same, and the cache keeps what it holds
 *   read SECTOR        each read of this sector fails
 *   heal               nothing fails any more
 * and gives four numbers: calls that failed; what is still to fail, but for reads; sectors that were written; flushes that had something to
 * bring to MEDIUM.
 *
 * usage: failing_drive MEDIUM FOLDER -f -s     the options are FUSE's; it ends when FOLDER is unmounted
 */
#define FUSE_USE_VERSION 31
#include <errno.h>
#include <fcntl.h>
#include <fuse.h>
#include <stdint.h>
#include <stdio.h>
#include <stdlib.h>
#include <string.h>
#include <sys/stat.h>
#include <unistd.h>

enum { SECTOR = 512, LINE = 128 };

static struct {
  int medium;
  uint64_t sectors;
  uint8_t *now;     /* what is read */
  uint8_t *pending; /* of each sector whether it is in the cache alone */
  uint8_t *bad;     /* of each sector whether reads of it fail */
} drive;

static struct {
  uint64_t sector, nth_write, nth_flush;
  int keeps;
} fault;

static struct {
  uint64_t failed, written, flushes;
} count;

static int is_there(off_t at, size_t size) {
  return at >= 0 && at % SECTOR == 0 && size % SECTOR == 0 && at / SECTOR + size / SECTOR <= drive.sectors;
}

static int failed(void) {
  count.failed++;
  return -EIO;
}

/* Bytes from any place on, since the tests read here too. */
static int read_disk(char *into, size_t size, off_t at) {
  uint64_t end = drive.sectors * SECTOR, from = (uint64_t)at;
  if (at < 0 || from >= end || size == 0) return 0;
  if (size > end - from) size = end - from;
  for (uint64_t k = from / SECTOR; k <= (from + size - 1) / SECTOR; k++)
    if (drive.bad[k]) return failed();
  memcpy(into, drive.now + from, size);
  return (int)size;
}

/* Whether this write of a sector is the one that fails. */
static int fails(uint64_t sector, const char *from) {
  if (fault.nth_write == 0 || sector != fault.sector || memcmp(drive.now + sector * SECTOR, from, SECTOR) == 0) return 0;
  return --fault.nth_write == 0;
}

static int write_disk(const char *from, size_t size, off_t at) {
  int is_well = 1;
  if (!is_there(at, size)) return -EINVAL;
  for (size_t k = 0; k < size; k += SECTOR) {
    uint64_t sector = ((uint64_t)at + k) / SECTOR;
    count.written++;
    if (fails(sector, from + k)) {
      is_well = 0;
      continue;
    }
    memcpy(drive.now + sector * SECTOR, from + k, SECTOR);
    drive.pending[sector] = 1;
  }
  return is_well ? (int)size : failed();
}

/* Brings a sector of the cache to the medium, or has the cache forget it. */
static int is_settled(uint64_t sector, int forgets) {
  uint8_t *here = drive.now + sector * SECTOR;
  off_t at = (off_t)(sector * SECTOR);
  ssize_t done = forgets ? pread(drive.medium, here, SECTOR, at) : pwrite(drive.medium, here, SECTOR, at);
  drive.pending[sector] = 0;
  return done == SECTOR;
}

static int flush_disk(void) {
  uint8_t *some = memchr(drive.pending, 1, drive.sectors);
  if (!some) return 0;
  int is_to_fail = fault.nth_flush != 0 && --fault.nth_flush == 0;
  count.flushes++;
  if (is_to_fail && fault.keeps) return failed();
  for (uint64_t k = (uint64_t)(some - drive.pending); k < drive.sectors; k++)
    if (drive.pending[k] && !is_settled(k, is_to_fail)) return -EIO;
  return is_to_fail ? failed() : 0;
}

static int told(const char *line) {
  unsigned long long one = 0, two = 0;
  if (sscanf(line, "write %llu %llu", &one, &two) == 2 && one < drive.sectors) {
    fault.sector = one;
    fault.nth_write = two;
  } else if (sscanf(line, "flush %llu", &one) == 1 || sscanf(line, "keep %llu", &one) == 1) {
    fault.nth_flush = one;
    fault.keeps = line[0] == 'k';
  } else if (sscanf(line, "read %llu", &one) == 1 && one < drive.sectors) {
    drive.bad[one] = 1;
  } else if (strncmp(line, "heal", 4) == 0) {
    memset(&fault, 0, sizeof fault);
    memset(drive.bad, 0, drive.sectors);
  } else {
    return -EINVAL;
  }
  return 0;
}

static int numbers(char *into, size_t size, off_t at) {
  char line[LINE];
  int length = snprintf(line, sizeof line, "%llu %d %llu %llu\n", (unsigned long long)count.failed,
                        (fault.nth_write != 0) + (fault.nth_flush != 0), (unsigned long long)count.written,
                        (unsigned long long)count.flushes);
  if (at >= length) return 0;
  if (size > (size_t)(length - at)) size = (size_t)(length - at);
  memcpy(into, line + at, size);
  return (int)size;
}

/* What FUSE calls */

static int is_disk(const char *path) { return strcmp(path, "/disk") == 0; }

static int is_control(const char *path) { return strcmp(path, "/control") == 0; }

static int at_getattr(const char *path, struct stat *st, struct fuse_file_info *info) {
  (void)info;
  memset(st, 0, sizeof *st);
  st->st_nlink = 1;
  st->st_mode = strcmp(path, "/") == 0 ? S_IFDIR | 0700 : S_IFREG | 0600;
  st->st_size = is_disk(path) ? (off_t)(drive.sectors * SECTOR) : 0;
  return S_ISDIR(st->st_mode) || is_disk(path) || is_control(path) ? 0 : -ENOENT;
}

/* The kernel has no cache of it. */
static int at_open(const char *path, struct fuse_file_info *info) {
  info->direct_io = 1;
  return is_disk(path) || is_control(path) ? 0 : -ENOENT;
}

static int at_read(const char *path, char *into, size_t size, off_t at, struct fuse_file_info *info) {
  (void)info;
  return is_disk(path) ? read_disk(into, size, at) : numbers(into, size, at);
}

static int at_write(const char *path, const char *from, size_t size, off_t at, struct fuse_file_info *info) {
  char line[LINE] = "";
  (void)info;
  if (is_disk(path)) return write_disk(from, size, at);
  if (size >= sizeof line) return -EINVAL;
  memcpy(line, from, size);
  int answer = told(line);
  return answer < 0 ? answer : (int)size;
}

static int at_fsync(const char *path, int only_bytes, struct fuse_file_info *info) {
  (void)only_bytes;
  (void)info;
  return is_disk(path) ? flush_disk() : 0;
}

static int at_truncate(const char *path, off_t size, struct fuse_file_info *info) {
  (void)size;
  (void)info;
  return is_control(path) ? 0 : -EPERM;
}

static const struct fuse_operations calls = {
  .getattr = at_getattr, .open = at_open, .read = at_read, .write = at_write, .fsync = at_fsync, .truncate = at_truncate};

int main(int argc, char **argv) {
  struct stat st;
  if (argc < 3 || (drive.medium = open(argv[1], O_RDWR | O_CLOEXEC)) < 0 || fstat(drive.medium, &st) != 0) {
    fprintf(stderr, "usage: failing_drive MEDIUM FOLDER -f -s\n");
    return 2;
  }
  drive.sectors = (uint64_t)st.st_size / SECTOR;
  drive.now = malloc(drive.sectors * SECTOR + 1);
  drive.pending = calloc(drive.sectors + 1, 1);
  drive.bad = calloc(drive.sectors + 1, 1);
  if (!drive.now || !drive.pending || !drive.bad) return 1;
  if (pread(drive.medium, drive.now, drive.sectors * SECTOR, 0) != (ssize_t)(drive.sectors * SECTOR)) return 1;
  argv[1] = argv[0];
  return fuse_main(argc - 1, argv + 1, &calls, NULL);
}
