/* What a program in C needs for two of ptab's jobs, with no proof, no check of a plan and no choice of anything: it reads the same 67
   sectors of a GPT of 128 entries, one by one, sums by zlib and compares both copies.

     floor verify IMAGE        prints yes or no
     floor rename IMAGE NAME   names the first entry by 67 writes in four phases, with an fdatasync before the first and after each

   NAME is ASCII. The status is 0 where it is done, 1 where the answer is no, and 5 where a call fails. bench/floor.py counts both. */
#include <fcntl.h>
#include <stdint.h>
#include <string.h>
#include <sys/file.h>
#include <sys/stat.h>
#include <unistd.h>
#include <zlib.h>

enum { SIZE = 512, ARRAY = 32, NAME_AT = 56, NAME_UNITS = 36, FAILED = 5 };

/* The sectors as they are read: sector 0, the primary header, its array, the backup array and its header. */
static uint8_t boot[SIZE], primary[SIZE], array[ARRAY * SIZE], backup_array[ARRAY * SIZE], backup[SIZE];
static const uint8_t zeros[SIZE];
static int file;

static void read_at(uint8_t *into, uint64_t first, int count) {
  for (int k = 0; k < count; k++)
    if (pread(file, into + k * SIZE, SIZE, (off_t)((first + k) * SIZE)) != SIZE) _exit(FAILED);
}

static void write_at(const uint8_t *from, uint64_t first, int count) {
  for (int k = 0; k < count; k++)
    if (pwrite(file, from + k * SIZE, SIZE, (off_t)((first + k) * SIZE)) != SIZE) _exit(FAILED);
}

static void flush(void) {
  if (fdatasync(file) != 0) _exit(FAILED);
}

static void say(const char *line) {
  if (write(STDOUT_FILENO, line, strlen(line)) < 0) _exit(FAILED);
}

static uint32_t number_at(const uint8_t *bytes) {
  uint32_t number;
  memcpy(&number, bytes, sizeof number);
  return number;
}

static void put_number(uint8_t *bytes, uint32_t number) { memcpy(bytes, &number, sizeof number); }

static uint32_t sum_of_header(const uint8_t *header) {
  uint8_t copy[92];
  memcpy(copy, header, sizeof copy);
  memset(copy + 16, 0, 4);
  return (uint32_t)crc32(0, copy, sizeof copy);
}

static int is_whole(const uint8_t *header, const uint8_t *entries) {
  return memcmp(header, "EFI PART", 8) == 0 && sum_of_header(header) == number_at(header + 16) &&
         (uint32_t)crc32(0, entries, sizeof array) == number_at(header + 88);
}

/* Reads all of it, and tells whether both copies are whole and alike. */
static int is_healthy(uint64_t sectors) {
  read_at(boot, 0, 1);
  read_at(primary, 1, 1);
  read_at(array, 2, ARRAY);
  read_at(backup_array, sectors - ARRAY - 1, ARRAY);
  read_at(backup, sectors - 1, 1);
  return boot[510] == 0x55 && boot[450] == 0xEE && is_whole(primary, array) && is_whole(backup, backup_array) &&
         memcmp(array, backup_array, sizeof array) == 0 && memcmp(primary + 40, backup + 40, 32) == 0 &&
         memcmp(primary + 80, backup + 80, 12) == 0;
}

static void put_sums(uint8_t *header, uint32_t sum) {
  put_number(header + 88, sum);
  put_number(header + 16, sum_of_header(header));
}

static void rename_first(const char *name, uint64_t sectors) {
  memset(array + NAME_AT, 0, 2 * NAME_UNITS);
  for (int k = 0; k < NAME_UNITS && name[k] != 0; k++) array[NAME_AT + 2 * k] = (uint8_t)name[k];
  uint32_t sum = (uint32_t)crc32(0, array, sizeof array);
  put_sums(primary, sum);
  put_sums(backup, sum);
  write_at(array, sectors - ARRAY - 1, ARRAY);
  write_at(backup, sectors - 1, 1);
  flush();
  write_at(zeros, 1, 1);
  flush();
  write_at(array, 2, ARRAY);
  flush();
  write_at(primary, 1, 1);
  flush();
}

int main(int count, char **words) {
  struct stat about;
  int renames = count == 4 && strcmp(words[1], "rename") == 0;
  if (!renames && (count != 3 || strcmp(words[1], "verify") != 0)) return 2;
  file = open(words[2], renames ? O_RDWR : O_RDONLY);
  if (file < 0 || fstat(file, &about) != 0) return FAILED;
  if (renames) {
    if (flock(file, LOCK_EX | LOCK_NB) != 0) return FAILED;
    flush();
  }
  uint64_t sectors = (uint64_t)about.st_size / SIZE;
  int healthy = is_healthy(sectors);
  if (renames && healthy) rename_first(words[3], sectors);
  say(!healthy ? "no\n" : renames ? "done\n" : "yes\n");
  return !healthy;
}
