/*
 * A small `ptab` over the library: shows an image, also as JSON, verifies it, locates a sector, lists free blocks, edits,
 * repairs, adopts, sets the table of a text. Reading, locking and writing by phases are the library's part (ptab_disk.h); what
 * stands here reads the words and prints the answers.
 *
 *   ptab_c IMAGE SIZE show [--json] | verify | repair | locate NUMBER[.LETTER] K | free | edit WORD... | adopt OTHER | set TABLE
 *
 * SIZE is 512 or 4096; or `device`, and IMAGE is a block device. Statuses are those of `ptab`. Build:
 *   cc -Iinclude examples/c/ptab.c libptab.a -o ptab_c
 */
#include <errno.h>
#include <stdio.h>
#include <stdlib.h>
#include <string.h>

#include "ptab_disk.h"

typedef unsigned long long wide;

static void path_text(char *text, size_t size, uint64_t number, uint8_t letter) {
  if (letter)
    snprintf(text, size, "%llu.%c", (wide)number, letter);
  else
    snprintf(text, size, "%llu", (wide)number);
}

/* Says on standard error why there is no table, as `ptab` does. */
static void complain_of_table(const ptab_reply *r) {
  if (r->number == 1)
    fprintf(stderr, "no table: copies %llu %llu\n", (wide)r->a, (wide)r->b);
  else if (r->number == 2 && r->a == 5)
    fputs("no table: chain 5\n", stderr);
  else if (r->number == 2)
    fprintf(stderr, "no table: chain %llu %llu\n", (wide)r->a, (wide)r->b);
  else
    fputs(r->number == 3 ? "no table: two extended\n" : "no table: too small\n", stderr);
}

/* Says where a table's text has its first fault, as `ptab` does: the name stands between marks in the library's sentence. */
static void complain_of_text(int status, const ptab_reply *r) {
  char text[256];
  ptab_message(status, r, text, sizeof text);
  text[strlen(text) - 1] = 0;
  fprintf(stderr, "refused: table %s", strrchr(text, '`') + 1);
  if (r->a) fprintf(stderr, " %llu", (wide)r->a);
  fputs("\n", stderr);
}

/* Says why there is no answer, as `ptab` does; `words` are the `count` words that were asked for. What `ptab` has no words
   for, the library has. */
static void complain(int status, const ptab_reply *r, char **words, int count) {
  static const char *const kinds[] = {"", "", "", "", "", "edit", "plan", "check", "repair"};
  char text[256];
  if (r->about == PTAB_ABOUT_OTHER_DISK || r->about == PTAB_ABOUT_OTHER_TABLE) fputs("other: ", stderr);
  if (status == PTAB_DEVICE)
    fputs("device\n", stderr);
  else if (status == PTAB_MEMORY)
    fputs("memory\n", stderr);
  else if (r->about == PTAB_ABOUT_WORD && r->a >= 1 && r->a <= (uint64_t)count)
    fprintf(stderr, "bad word %s\n", words[r->a - 1]);
  else if (r->about == PTAB_ABOUT_TABLE || r->about == PTAB_ABOUT_OTHER_TABLE)
    complain_of_table(r);
  else if (r->about == PTAB_ABOUT_ADOPT)
    fputs("refused: other size\n", stderr);
  else if (r->about == PTAB_ABOUT_TEXT)
    complain_of_text(status, r);
  else if (status == PTAB_REFUSED && r->about <= PTAB_ABOUT_REPAIR)
    fprintf(stderr, "refused: %s %u\n", kinds[r->about], (unsigned)r->number);
  else if (status == PTAB_REFUSED && r->number == PTAB_DISK_LOCKED)
    fputs("refused: locked\n", stderr);
  else {
    ptab_message(status, r, text, sizeof text);
    fprintf(stderr, "%s\n", text);
  }
}

static void print_member(const ptab_table *table, const ptab_member *m) {
  char path[32], name[109];
  ptab_text text;
  path_text(path, sizeof path, m->number, m->letter);
  printf("%s %llu %llu ", path, (wide)m->first, (wide)m->last);
  if (m->letter) {
    printf("%02X\n", m->type_byte);
  } else if (table->kind == PTAB_MBR) {
    printf("%02X %02X\n", m->type_byte, m->boot);
  } else {
    int32_t code = ptab_type_code(&m->type_guid);
    ptab_guid_text(&m->type_guid, &text);
    if (code >= 0)
      printf("%04X", (unsigned)code);
    else
      printf("%.36s", (const char *)text.bytes);
    ptab_guid_text(&m->unique, &text);
    ptab_name_text(m, name, sizeof name);
    printf(" %016llx %.36s%s%s\n", (wide)m->attributes, (const char *)text.bytes, *name ? " " : "", name);
  }
}

static int show(ptab_disk *disk, ptab_reply *reply) {
  static ptab_member rows[PTAB_MOST_MEMBERS];
  ptab_table table;
  int status = ptab_disk_members(disk, &table, rows, PTAB_MOST_MEMBERS, reply);
  if (status != PTAB_DONE) return status;
  if (table.kind == PTAB_GPT) {
    ptab_text text;
    ptab_guid_text(&table.disk, &text);
    printf("gpt %llu %llu %llu %.36s\n", (wide)table.sectors, (wide)table.first, (wide)table.last,
           (const char *)text.bytes);
  } else {
    printf("mbr %llu\n", (wide)table.sectors);
  }
  for (uint64_t k = 0; k < reply->count; k++) print_member(&table, &rows[k]);
  return PTAB_DONE;
}

/* Prints the table as JSON, in as much room as it takes. */
static int show_json(ptab_disk *disk, const char *image, ptab_reply *reply) {
  char *text = NULL;
  size_t size = 0;
  int status;
  do {
    size = size ? (size_t)reply->count : 4096;
    free(text);
    text = malloc(size);
    status = text ? ptab_disk_table(disk, image, text, size, reply) : PTAB_MEMORY;
  } while (status == PTAB_ROOM);
  if (status == PTAB_DONE) puts(text);
  free(text);
  return status;
}

/* Prints the blocks of free sectors. */
static int show_free(ptab_disk *disk, ptab_reply *reply) {
  ptab_block *rows = NULL;
  size_t count = 0;
  int status;
  do {
    count = count ? (size_t)reply->count : 16;
    free(rows);
    rows = malloc(count * sizeof *rows);
    status = rows ? ptab_disk_free(disk, rows, count, reply) : PTAB_MEMORY;
  } while (status == PTAB_ROOM);
  for (uint64_t k = 0; status == PTAB_DONE && k < reply->count; k++) {
    printf("%llu %llu", (wide)rows[k].first, (wide)rows[k].last);
    if (rows[k].inside) printf(" %llu", (wide)rows[k].inside);
    puts("");
  }
  free(rows);
  if (status != PTAB_DONE || reply->count > 0) return status;
  puts("none");
  return PTAB_NO;
}

static int verify(ptab_disk *disk, ptab_reply *reply) {
  char a[32], b[32];
  int status = ptab_disk_verify(disk, reply);
  if (status == PTAB_DONE) puts("yes");
  if (status != PTAB_NO) return status;
  path_text(a, sizeof a, reply->a, reply->a_letter);
  path_text(b, sizeof b, reply->b, reply->b_letter);
  printf("no %u ", (unsigned)reply->number);
  switch (reply->number) {
    case 1: puts("no table"); break;
    case 2: printf("primary copy %s\n", a); break;
    case 3: printf("backup copy %s\n", a); break;
    case 4: puts("copies differ"); break;
    case 5: printf("alternate %s\n", reply->a == 1 ? "primary" : "backup"); break;
    case 6: puts("protective record"); break;
    case 7: printf("outside %s\n", a); break;
    case 8: printf("overlap %s %s\n", a, b); break;
    case 9: printf("on table %s %s\n", a, b); break;
    case 10: printf("same guid %s %s\n", a, b); break;
    default: printf("foreign label %s\n", a); break;
  }
  return PTAB_NO;
}

static int locate(ptab_disk *disk, char **words, ptab_reply *reply) {
  char *rest;
  uint64_t number = strtoull(words[0], &rest, 10);
  uint8_t letter = *rest == '.' ? (uint8_t)rest[1] : 0;
  int status = ptab_disk_locate(disk, number, letter, strtoull(words[1], NULL, 10), reply);
  if (status == PTAB_DONE) printf("%llu\n", (wide)reply->sector);
  if (status == PTAB_NO) puts("none");
  return status;
}

/* Reads a file, of which there are so many bytes at most. */
static int read_file(const char *path, void *bytes, size_t most, size_t *got) {
  FILE *file = fopen(path, "rb");
  if (!file) return errno == ENOMEM ? PTAB_MEMORY : PTAB_DEVICE;
  *got = fread(bytes, 1, most, file);
  int failed = ferror(file);
  fclose(file);
  return failed ? PTAB_DEVICE : PTAB_DONE;
}

#define DRAWN (256 * 16)

/* Random bytes: those of the file that PTAB_RANDOM names; or none, and the library draws them. */
static int draw(uint8_t *bytes, const uint8_t **drawn) {
  const char *path = getenv("PTAB_RANDOM");
  size_t got = DRAWN;
  int status = path ? read_file(path, bytes, DRAWN, &got) : PTAB_DONE;
  *drawn = path ? bytes : NULL;
  return got == DRAWN ? status : PTAB_DEVICE;
}

/* Edits by words. */
static int edit(ptab_disk *disk, char **words, int count, ptab_reply *reply) {
  uint8_t bytes[DRAWN];
  const uint8_t *drawn;
  int status = draw(bytes, &drawn);
  if (status != PTAB_DONE) return status;
  return ptab_disk_edit(disk, (const char *const *)words, (size_t)count, drawn, DRAWN, reply);
}

/* Gives the disk the table that the text in a file says. */
static int set(ptab_disk *disk, const char *path, ptab_reply *reply) {
  static char text[8 << 20];
  uint8_t bytes[DRAWN];
  const uint8_t *drawn;
  size_t length;
  int status = draw(bytes, &drawn);
  if (status == PTAB_DONE) status = read_file(path, text, sizeof text, &length);
  return status == PTAB_DONE ? ptab_disk_set(disk, text, length, drawn, DRAWN, reply) : status;
}

/* Gives the disk the layout of another image. */
static int adopt(ptab_disk *disk, const char *path, ptab_reply *reply) {
  uint32_t size;
  uint64_t sectors;
  ptab_disk *other;
  int status = ptab_disk_size(disk, &sectors, &size, reply);
  if (status != PTAB_DONE) return status;
  status = ptab_disk_open(path, PTAB_DISK_READ, size, &other, reply);
  if (status == PTAB_DONE)
    status = ptab_disk_adopt(disk, other, reply);
  else
    reply->about = PTAB_ABOUT_OTHER_DISK;
  ptab_disk_close(other);
  return status;
}

static int is_job(const char *job, int argc) {
  return !strcmp(job, "show") || !strcmp(job, "verify") || !strcmp(job, "repair") || !strcmp(job, "free") ||
         (!strcmp(job, "locate") && argc == 6) || (!strcmp(job, "edit") && argc > 4) || (!strcmp(job, "adopt") && argc == 5) ||
         (!strcmp(job, "set") && argc == 5);
}

static int changes(const char *job) {
  return !strcmp(job, "edit") || !strcmp(job, "repair") || !strcmp(job, "adopt") || !strcmp(job, "set");
}

static int run(ptab_disk *disk, const char *image, const char *job, char **words, int count, ptab_reply *reply) {
  if (!strcmp(job, "show") && count > 0) return show_json(disk, image, reply);
  if (!strcmp(job, "show")) return show(disk, reply);
  if (!strcmp(job, "verify")) return verify(disk, reply);
  if (!strcmp(job, "locate")) return locate(disk, words, reply);
  if (!strcmp(job, "free")) return show_free(disk, reply);
  int status;
  if (!strcmp(job, "edit"))
    status = edit(disk, words, count, reply);
  else if (!strcmp(job, "set"))
    status = set(disk, words[0], reply);
  else
    status = !strcmp(job, "adopt") ? adopt(disk, words[0], reply) : ptab_disk_repair(disk, reply);
  if (status == PTAB_DONE) puts("done");
  return status;
}

int main(int argc, char **argv) {
  ptab_disk *disk;
  ptab_reply reply;
  const char *job = argc > 3 ? argv[3] : "";
  int is_device = argc > 2 && !strcmp(argv[2], "device");
  uint32_t size = argc > 2 && !is_device ? (uint32_t)strtoul(argv[2], NULL, 10) : 0;
  uint32_t how = (changes(job) ? PTAB_DISK_WRITE : PTAB_DISK_READ) | (is_device ? PTAB_DISK_DEVICE : 0);
  if ((size != 512 && size != 4096 && !is_device) || !is_job(job, argc) || ptab_version() != PTAB_VERSION) {
    fputs("usage: ptab_c IMAGE SIZE show [--json] | verify | repair | locate NUMBER[.LETTER] K | free | edit WORD... | adopt OTHER | "
          "set TABLE\n", stderr);
    return PTAB_USAGE;
  }
  int status = ptab_disk_open(argv[1], how, size, &disk, &reply);
  if (status == PTAB_DONE) status = run(disk, argv[1], job, argv + 4, argc - 4, &reply);
  if (status != PTAB_DONE && status != PTAB_NO) complain(status, &reply, argv + 4, argc - 4);
  ptab_disk_close(disk);
  return status < 0 ? PTAB_USAGE : status;
}
