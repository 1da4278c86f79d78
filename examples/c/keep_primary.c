/* Mends disk.img, and renames its first partition. Wherever this stops, who reads the primary copy alone finds a table. Build:
     cc keep_primary.c $(pkg-config --cflags --libs ptab) -o keep_primary */
#include <ptab_disk.h>
#include <stdio.h>

int main(void) {
  ptab_disk *disk;
  ptab_reply reply;
  ptab_must(ptab_disk_open("disk.img", PTAB_DISK_WRITE | PTAB_DISK_KEEP_PRIMARY, 512, &disk, &reply), &reply);
  ptab_must(ptab_disk_repair(disk, &reply), &reply);
  printf("%llu sectors mended\n", (unsigned long long)reply.count);
  ptab_must(ptab_disk_edit(disk, (const char *[]){"c:1:archive"}, 1, NULL, 0, &reply), &reply);
  printf("%llu sectors written\n", (unsigned long long)reply.count);
  ptab_disk_close(disk);
}
