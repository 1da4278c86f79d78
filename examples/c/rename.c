/* Lists the partitions of disk.img and renames the first one. Build:
     cc rename.c $(pkg-config --cflags --libs ptab) -o rename */
#include <ptab_disk.h>
#include <stdio.h>

int main(void) {
  static ptab_partition rows[PTAB_MOST_MEMBERS];
  ptab_disk *disk;
  ptab_reply reply;
  ptab_must(ptab_disk_open("disk.img", PTAB_DISK_WRITE, 512, &disk, &reply), &reply);
  ptab_must(ptab_disk_list(disk, rows, PTAB_MOST_MEMBERS, &reply), &reply);
  for (size_t k = 0; k < reply.count; k++) printf("%s %s\n", rows[k].path, rows[k].name);
  ptab_must(ptab_disk_edit(disk, (const char *[]){"c:1:archive"}, 1, NULL, 0, &reply), &reply);
  ptab_disk_close(disk);
  puts("done");
}
