/* Lists an image's partitions by the library for callers in C and by libfdisk, from the opening of the image to its closing, in turn, so
   many times. Prints of each how many partitions it lists and the nanoseconds of its fastest run.

   usage: lists IMAGE ROUNDS */
#include <libfdisk/libfdisk.h>
#include <ptab_disk.h>
#include <stdio.h>
#include <stdlib.h>
#include <time.h>

static long now(void) {
  struct timespec it;
  clock_gettime(CLOCK_MONOTONIC, &it);
  return it.tv_sec * 1000000000L + it.tv_nsec;
}

static void must(int status, const char *what) {
  if (status == 0) return;
  fprintf(stderr, "%s: %d\n", what, status);
  exit(1);
}

static size_t by_ptab(const char *path) {
  static ptab_partition rows[PTAB_MOST_MEMBERS];
  ptab_disk *disk;
  ptab_reply reply;
  ptab_must(ptab_disk_open(path, PTAB_DISK_READ, 512, &disk, &reply), &reply);
  ptab_must(ptab_disk_list(disk, rows, PTAB_MOST_MEMBERS, &reply), &reply);
  ptab_disk_close(disk);
  return reply.count;
}

static size_t by_libfdisk(const char *path) {
  struct fdisk_context *disk = fdisk_new_context();
  struct fdisk_table *table = NULL;
  must(fdisk_assign_device(disk, path, 1), "fdisk_assign_device");
  must(fdisk_get_partitions(disk, &table), "fdisk_get_partitions");
  size_t count = fdisk_table_get_nents(table);
  fdisk_unref_table(table);
  must(fdisk_deassign_device(disk, 1), "fdisk_deassign_device");
  fdisk_unref_context(disk);
  return count;
}

int main(int words, char **word) {
  size_t (*const ways[])(const char *) = {by_ptab, by_libfdisk};
  size_t counts[2];
  long fastest[2] = {0, 0};
  if (words != 3) return 2;
  for (int round = 0; round < atoi(word[2]); round++) {
    for (int k = 0; k < 2; k++) {
      long start = now();
      counts[k] = ways[k](word[1]);
      long took = now() - start;
      if (round == 0 || took < fastest[k]) fastest[k] = took;
    }
  }
  for (int k = 0; k < 2; k++) printf("%zu %ld\n", counts[k], fastest[k]);
  return 0;
}
