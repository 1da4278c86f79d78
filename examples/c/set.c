/* Gives disk.img a GPT, saves its table as text, empties it, and takes the saved table back. Build:
     cc set.c $(pkg-config --cflags --libs ptab) -o set */
#include <ptab_disk.h>
#include <stdio.h>
#include <string.h>

static const char two[] = "{\"partitiontable\": {\"label\": \"gpt\", \"partitions\": ["
                          "{\"size\": \"16MiB\", \"type\": \"esp\", \"name\": \"EFI\"}, {\"name\": \"root\"}]}}";
static const char none[] = "{\"partitiontable\": {}}";

int main(void) {
  static char saved[1 << 16];
  ptab_disk *disk;
  ptab_reply reply;
  ptab_must(ptab_disk_open("disk.img", PTAB_DISK_WRITE, 512, &disk, &reply), &reply);
  ptab_must(ptab_disk_set(disk, two, strlen(two), NULL, 0, &reply), &reply);
  ptab_must(ptab_disk_table(disk, "disk.img", saved, sizeof saved, &reply), &reply);
  ptab_must(ptab_disk_set(disk, none, strlen(none), NULL, 0, &reply), &reply);
  ptab_must(ptab_disk_set(disk, saved, strlen(saved), NULL, 0, &reply), &reply);
  printf("%llu sectors written\n", (unsigned long long)reply.count);
  ptab_disk_close(disk);
}
