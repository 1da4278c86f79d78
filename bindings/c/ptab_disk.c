/*
 * The calls of ptab.h on an image or a block device: the loop of reads, phases and syncs, which the library leaves to its
 * caller. include/ptab_disk.h says what each call does.
 */
#define _GNU_SOURCE
#include "ptab_disk_inner.h"

#include <stdlib.h>
#include <sys/random.h>

/* The most GUIDs that words take besides one each, by `g`, and those that a table's text takes. */
#define MORE_GUIDS PTAB_MOST_FRESH
/* The most writes of a plan that ptab_check takes. */
#define MOST_CHECKED 4096

/* What one call has read of a disk. */
struct known {
  ptab_disk *disk;
  ptab_view view;
  uint64_t *numbers;
  uint8_t *bytes;
  uint8_t *buffer; /* of ptab_inner_read */
  size_t room;
  int is_settled; /* whether the table and its labels want no more */
};

/* What one call asks of the library, with all that goes with it. */
struct asked {
  int32_t (*call)(struct asked *it, ptab_reply *reply);
  struct known known, other;
  ptab_table *table;
  ptab_member *rows;
  size_t rows_len;
  ptab_block *blocks;
  size_t blocks_len;
  const uint8_t *device; /* the name under which a table's text has it, and room for that text */
  size_t device_len;
  uint8_t *text;
  size_t text_len;
  uint64_t number, k;
  uint8_t letter;
  uint8_t *words, *random;
  size_t words_len, drawn_len;
  const uint8_t *drawn;
  const uint8_t *set; /* the text of a table that the disk is to take */
  size_t set_len;
  const ptab_write *given; /* a plan from elsewhere, and its bytes */
  const uint8_t *given_bytes;
  size_t given_len, given_bytes_len;
  ptab_write *writes; /* room for a plan */
  uint8_t *bytes;
  size_t writes_len, bytes_len;
  int owns_room; /* the call takes that room, and frees it */
};

/* reading */

/* Makes room for so many more sectors. */
static int has_room(struct known *it, size_t count) {
  size_t wanted = it->view.numbers_len + count, room = it->room;
  if (wanted <= room) return 1;
  room = wanted > 2 * room ? wanted : 2 * room;
  uint64_t *numbers = realloc(it->numbers, room * sizeof *numbers);
  if (!numbers) return 0;
  it->view.numbers = it->numbers = numbers;
  uint8_t *bytes = realloc(it->bytes, room * it->view.sector_size);
  if (!bytes) return 0;
  it->view.bytes = it->bytes = bytes;
  it->room = room;
  return 1;
}

/* Reads sectors into the view, for which there is room: how many could be read. */
static size_t read_sectors(struct known *it, uint64_t first, size_t count) {
  size_t size = it->view.sector_size, len = it->view.numbers_len;
  size_t done = ptab_inner_read(it->disk, it->buffer, it->bytes + len * size, count * size, first * size) / size;
  for (size_t k = 0; k < done; k++) it->numbers[len + k] = first + k;
  it->view.numbers_len = len + done;
  it->view.bytes_len = (len + done) * size;
  return done;
}

/* Reads both ends of the disk. A sector that can't be read is left out: it counts where the answer rests on it. */
static int32_t read_ends(struct known *it, ptab_reply *reply) {
  uint64_t all = it->view.sectors, head = PTAB_HEAD(it->view.sector_size), tail = PTAB_TAIL(it->view.sector_size);
  if (head > all) head = all;
  if (tail > all - head) tail = all - head;
  if (!has_room(it, (size_t)(head + tail) + 1)) return no_memory(reply);
  read_sectors(it, 0, (size_t)head);
  read_sectors(it, all - tail, (size_t)tail);
  return PTAB_DONE;
}

static int32_t read_one(struct known *it, uint64_t sector, ptab_reply *reply) {
  if (!has_room(it, 1)) return no_memory(reply);
  return read_sectors(it, sector, 1) == 1 ? PTAB_DONE : said_of(reply, PTAB_DISK_READING, sector);
}

/* The bytes of a sector that was read, or NULL. */
static const uint8_t *bytes_of(const struct known *it, uint64_t sector) {
  for (size_t k = 0; k < it->view.numbers_len; k++)
    if (it->numbers[k] == sector) return it->bytes + k * it->view.sector_size;
  return NULL;
}

/* The bytes of a sector, which is read where it wasn't; NULL where it can't be. */
static const uint8_t *take_sector(struct known *it, uint64_t sector, ptab_reply *reply, int32_t *status) {
  if (!bytes_of(it, sector)) *status = read_one(it, sector, reply);
  return *status == PTAB_DONE ? bytes_of(it, sector) : NULL;
}

/* Reads what an MBR leads to, so that a call needn't ask for each extended boot record. It ends where the table breaks off, and at the
   first sector that can't be read: the library asks for that one where the answer rests on it. */
static int32_t read_mbr(struct known *it, ptab_reply *reply) {
  struct led led;
  int32_t status = PTAB_DONE;
  const uint8_t *sector = bytes_of(it, 0);
  if (!sector) return PTAB_DONE;
  ptab_inner_lead(&led, sector, &it->view);
  while (led.has_next && (sector = take_sector(it, led.next, reply, &status))) ptab_inner_lead_on(&led, sector);
  for (size_t k = 0; k < led.labels_len && status == PTAB_DONE; k++) take_sector(it, led.labels[k], reply, &status);
  it->is_settled = led.is_mbr && status == PTAB_DONE;
  return status == PTAB_MEMORY ? status : PTAB_DONE;
}

/* Reads a sector that is wanted, and with it all that the table and its labels want, as far as they are known. */
static int32_t read_wanted(struct known *it, uint64_t sector, ptab_reply *reply) {
  uint64_t more[PTAB_MOST_WANTED];
  ptab_reply wanted;
  int32_t status = read_one(it, sector, reply);
  while (status == PTAB_DONE && !it->is_settled) {
    int32_t answer = ptab_wanted(&it->view, more, PTAB_MOST_WANTED, &wanted);
    if (answer == PTAB_MEMORY) return no_memory(reply);
    for (uint64_t k = 0; answer == PTAB_WANT && k < wanted.count && status == PTAB_DONE; k++)
      status = read_one(it, more[k], reply);
    it->is_settled = answer != PTAB_WANT || wanted.count > 1; /* labels are the last that a table wants */
  }
  return status;
}

/* What each call begins with. Before a call that writes reads, what is there is made durable. */
static int32_t begin(struct known *it, ptab_disk *disk, int writes, ptab_reply *reply) {
  it->disk = disk;
  it->view.sector_size = disk->sector_size;
  int32_t status = ptab_inner_begin(disk, writes, reply);
  if (status == PTAB_DONE) status = ptab_inner_count(disk, &it->view.sectors, reply);
  if (status != PTAB_DONE) return status;
  it->buffer = ptab_inner_buffer();
  if (!it->buffer) return no_memory(reply);
  status = read_ends(it, reply);
  return status == PTAB_DONE ? read_mbr(it, reply) : status;
}

/* asking */

/* Room for so many writes of a plan. */
static int32_t plan_room(struct asked *it, uint64_t count, uint32_t sector_size, ptab_reply *reply) {
  free(it->writes);
  free(it->bytes);
  it->writes_len = (size_t)count;
  it->bytes_len = (size_t)count * sector_size;
  it->writes = malloc(it->writes_len * sizeof *it->writes);
  it->bytes = malloc(it->bytes_len);
  return it->writes && it->bytes ? PTAB_DONE : no_memory(reply);
}

/* The status, where what failed is the other disk. */
static int32_t of_other(int32_t status, ptab_reply *reply) {
  if (reply->about == PTAB_ABOUT_DISK) reply->about = PTAB_ABOUT_OTHER_DISK;
  return status;
}

/* What becomes of the primary copy in the plans of a disk that was opened so. */
static uint32_t primary_of(uint32_t how) {
  if (how & PTAB_DISK_KEEP_PRIMARY) return PTAB_PRIMARY_KEPT;
  return how & PTAB_DISK_BY_TABLE ? PTAB_PRIMARY_BY_TABLE : PTAB_PRIMARY_OF_ITSELF;
}

/* Asks until there is an answer. */
static int32_t ask(struct asked *it, ptab_disk *disk, int writes, ptab_reply *reply) {
  it->known.view.primary = primary_of(disk->how);
  int32_t status = it->other.disk ? of_other(begin(&it->other, it->other.disk, 0, reply), reply) : PTAB_DONE;
  if (status == PTAB_DONE) status = begin(&it->known, disk, writes, reply);
  if (status == PTAB_DONE && it->owns_room) status = plan_room(it, PTAB_MOST_WRITES, disk->sector_size, reply);
  while (status == PTAB_DONE) {
    status = it->call(it, reply);
    if (status == PTAB_WANT)
      status = read_wanted(&it->known, reply->sector, reply);
    else if (status == PTAB_WANT_OTHER)
      status = of_other(read_wanted(&it->other, reply->sector, reply), reply);
    else if (status == PTAB_ROOM && it->owns_room)
      status = plan_room(it, reply->count, disk->sector_size, reply);
    else
      break;
  }
  return status;
}

static void forget(struct known *it) {
  free(it->numbers);
  free(it->bytes);
  ptab_inner_give_back(it->buffer);
}

/* Frees what a call took, and gives its status. */
static int32_t done_with(struct asked *it, int32_t status, const ptab_reply *reply) {
  forget(&it->known);
  forget(&it->other);
  free(it->words);
  free(it->random);
  if (it->owns_room) {
    free(it->writes);
    free(it->bytes);
  }
  return ended(status, reply);
}

static int32_t call_members(struct asked *it, ptab_reply *reply) {
  return ptab_members(&it->known.view, it->table, it->rows, it->rows_len, reply);
}

static int32_t call_table(struct asked *it, ptab_reply *reply) {
  return ptab_table_text(&it->known.view, it->device, it->device_len, it->text, it->text_len, reply);
}

static int32_t call_free(struct asked *it, ptab_reply *reply) {
  return ptab_free(&it->known.view, it->blocks, it->blocks_len, reply);
}

static int32_t call_verify(struct asked *it, ptab_reply *reply) { return ptab_verify(&it->known.view, reply); }

static int32_t call_locate(struct asked *it, ptab_reply *reply) {
  return ptab_locate(&it->known.view, it->number, it->letter, it->k, reply);
}

static int32_t call_plan(struct asked *it, ptab_reply *reply) {
  return ptab_plan(&it->known.view, it->words, it->words_len, it->drawn, it->drawn_len, it->writes, it->writes_len, it->bytes,
                   it->bytes_len, reply);
}

static int32_t call_set(struct asked *it, ptab_reply *reply) {
  return ptab_set_plan(&it->known.view, it->set, it->set_len, it->drawn, it->drawn_len, it->writes, it->writes_len, it->bytes,
                       it->bytes_len, reply);
}

static int32_t call_repair(struct asked *it, ptab_reply *reply) {
  return ptab_repair(&it->known.view, it->writes, it->writes_len, it->bytes, it->bytes_len, reply);
}

static int32_t call_adopt(struct asked *it, ptab_reply *reply) {
  return ptab_adopt_plan(&it->known.view, &it->other.view, it->writes, it->writes_len, it->bytes, it->bytes_len, reply);
}

static int32_t call_check(struct asked *it, ptab_reply *reply) {
  return ptab_check(&it->known.view, it->given, it->given_len, it->given_bytes, it->given_bytes_len, reply);
}

/* The answer of ptab_check to a plan that is too long. It would copy the plan first; it reads the layout, and counts the writes then. */
static int32_t call_refusing(struct asked *it, ptab_reply *reply) {
  ptab_table table;
  ptab_member row;
  int32_t status = ptab_members(&it->known.view, &table, &row, 0, reply);
  if (status != PTAB_DONE && status != PTAB_ROOM && status != PTAB_NO_TABLE) return status;
  *reply = (ptab_reply){.about = PTAB_ABOUT_CHECK, .number = 1};
  return PTAB_NO;
}

int32_t ptab_disk_members(ptab_disk *disk, ptab_table *table, ptab_member *rows, size_t rows_len, ptab_reply *reply) {
  struct asked it = {.call = call_members, .table = table, .rows = rows, .rows_len = rows_len};
  return done_with(&it, ask(&it, disk, 0, reply), reply);
}

int32_t ptab_disk_table(ptab_disk *disk, const char *device, char *text, size_t text_len, ptab_reply *reply) {
  struct asked it = {.call = call_table, .device = (const uint8_t *)device, .device_len = strlen(device), .text = (uint8_t *)text,
                     .text_len = text_len > 0 ? text_len - 1 : 0};
  int32_t status = done_with(&it, ask(&it, disk, 0, reply), reply);
  if (status == PTAB_DONE) text[reply->count] = 0;
  if (status == PTAB_ROOM) reply->count++; /* for the zero byte */
  return status;
}

int32_t ptab_disk_free(ptab_disk *disk, ptab_block *rows, size_t rows_len, ptab_reply *reply) {
  struct asked it = {.call = call_free, .blocks = rows, .blocks_len = rows_len};
  return done_with(&it, ask(&it, disk, 0, reply), reply);
}

int32_t ptab_disk_verify(ptab_disk *disk, ptab_reply *reply) {
  struct asked it = {.call = call_verify};
  return done_with(&it, ask(&it, disk, 0, reply), reply);
}

int32_t ptab_disk_locate(ptab_disk *disk, uint64_t number, uint8_t letter, uint64_t k, ptab_reply *reply) {
  struct asked it = {.call = call_locate, .number = number, .letter = letter, .k = k};
  return done_with(&it, ask(&it, disk, 0, reply), reply);
}

/* plans */

/* Puts the words one after the other, each with its zero byte. */
static int32_t join_words(struct asked *it, const char *const *words, size_t count, ptab_reply *reply) {
  size_t len = 0;
  for (size_t k = 0; k < count; k++) len += strlen(words[k]) + 1;
  uint8_t *at = it->words = malloc(len + 1);
  if (!at) return no_memory(reply);
  it->words_len = len;
  for (size_t k = 0; k < count; k++) {
    size_t one = strlen(words[k]) + 1;
    memcpy(at, words[k], one);
    at += one;
  }
  return PTAB_DONE;
}

/* Draws as many GUIDs as so many words can need. */
static int32_t draw(struct asked *it, size_t words, ptab_reply *reply) {
  it->drawn_len = 16 * (words + MORE_GUIDS);
  it->drawn = it->random = malloc(it->drawn_len);
  if (!it->random) return no_memory(reply);
  for (size_t done = 0; done < it->drawn_len;) {
    ssize_t got = getrandom(it->random + done, it->drawn_len - done, 0);
    if (got < 0 && errno != EINTR) return said(reply, PTAB_DEVICE, PTAB_DISK_RANDOM, 0);
    if (got > 0) done += (size_t)got;
  }
  return PTAB_DONE;
}

/* Readies words, and random bytes where there are none. */
static int32_t ready(struct asked *it, const char *const *words, size_t count, ptab_reply *reply) {
  int32_t status = join_words(it, words, count, reply);
  return status == PTAB_DONE && !it->drawn ? draw(it, count, reply) : status;
}

/* Stops a plan at a write or sync that failed: so many sectors may have been written, and so many phases are durable. Others aren't to
   read from the cache what the medium doesn't have. */
static int32_t stop(ptab_disk *disk, uint32_t number, uint64_t sector, uint64_t count, uint64_t phases, ptab_reply *reply) {
  int32_t status = said_of(reply, number, sector);
  ptab_inner_drop(disk);
  reply->count = count;
  reply->phases = phases;
  return status;
}

/* Writes a plan phase by phase, with a sync after each. */
static int32_t write_phases(ptab_disk *disk, const ptab_write *writes, const uint8_t *bytes, uint64_t count, ptab_reply *reply) {
  size_t size = disk->sector_size;
  uint64_t phases = 0;
  for (uint64_t k = 0; k < count; k++) {
    if (!ptab_inner_write(disk, bytes + k * size, size, writes[k].sector * size))
      return stop(disk, PTAB_DISK_WRITING, writes[k].sector, k + 1, phases, reply);
    if (k + 1 < count && writes[k + 1].phase == writes[k].phase) continue;
    if (!ptab_inner_sync(disk)) return stop(disk, PTAB_DISK_SYNCING, 0, k + 1, phases, reply);
    phases++;
  }
  memset(reply, 0, sizeof *reply);
  reply->count = count;
  reply->phases = phases;
  return PTAB_DONE;
}

/* The same by a descriptor that may have been taken with O_DIRECT, for which the bytes aren't aligned. */
static int32_t carry_out(ptab_disk *disk, const ptab_write *writes, const uint8_t *bytes, uint64_t count, ptab_reply *reply) {
  int flags = ptab_inner_set_direct(disk, 0);
  int32_t status = write_phases(disk, writes, bytes, count, reply);
  ptab_inner_put_back(disk, flags);
  return status;
}

/* Asks for a plan, and carries it out. */
static int32_t change(struct asked *it, ptab_disk *disk, ptab_reply *reply) {
  int32_t status = ask(it, disk, 1, reply);
  return status == PTAB_DONE ? carry_out(disk, it->writes, it->bytes, reply->count, reply) : status;
}

int32_t ptab_disk_edit(ptab_disk *disk, const char *const *words, size_t words_len, const uint8_t *drawn, size_t drawn_len,
                       ptab_reply *reply) {
  struct asked it = {.call = call_plan, .drawn = drawn, .drawn_len = drawn_len, .owns_room = 1};
  int32_t status = ready(&it, words, words_len, reply);
  return done_with(&it, status == PTAB_DONE ? change(&it, disk, reply) : status, reply);
}

int32_t ptab_disk_repair(ptab_disk *disk, ptab_reply *reply) {
  struct asked it = {.call = call_repair, .owns_room = 1};
  return done_with(&it, change(&it, disk, reply), reply);
}

int32_t ptab_disk_adopt(ptab_disk *disk, ptab_disk *other, ptab_reply *reply) {
  struct asked it = {.call = call_adopt, .other = {.disk = other}, .owns_room = 1};
  return done_with(&it, change(&it, disk, reply), reply);
}

/* A call for the table of a text, with random bytes where there are none. */
static int32_t ready_to_set(struct asked *it, const char *text, size_t text_len, ptab_reply *reply) {
  it->call = call_set;
  it->set = (const uint8_t *)text;
  it->set_len = text_len;
  return it->drawn ? PTAB_DONE : draw(it, 0, reply);
}

int32_t ptab_disk_set(ptab_disk *disk, const char *text, size_t text_len, const uint8_t *drawn, size_t drawn_len,
                      ptab_reply *reply) {
  struct asked it = {.drawn = drawn, .drawn_len = drawn_len, .owns_room = 1};
  int32_t status = ready_to_set(&it, text, text_len, reply);
  return done_with(&it, status == PTAB_DONE ? change(&it, disk, reply) : status, reply);
}

int32_t ptab_disk_plan(ptab_disk *disk, const char *const *words, size_t words_len, const uint8_t *drawn, size_t drawn_len,
                       ptab_write *writes, size_t writes_len, uint8_t *bytes, size_t bytes_len, ptab_reply *reply) {
  struct asked it = {.call = call_plan, .drawn = drawn, .drawn_len = drawn_len, .writes = writes, .writes_len = writes_len,
                     .bytes = bytes, .bytes_len = bytes_len};
  int32_t status = ready(&it, words, words_len, reply);
  return done_with(&it, status == PTAB_DONE ? ask(&it, disk, 0, reply) : status, reply);
}

int32_t ptab_disk_repair_plan(ptab_disk *disk, ptab_write *writes, size_t writes_len, uint8_t *bytes, size_t bytes_len,
                              ptab_reply *reply) {
  struct asked it = {.call = call_repair, .writes = writes, .writes_len = writes_len, .bytes = bytes, .bytes_len = bytes_len};
  return done_with(&it, ask(&it, disk, 0, reply), reply);
}

int32_t ptab_disk_adopt_plan(ptab_disk *disk, ptab_disk *other, ptab_write *writes, size_t writes_len, uint8_t *bytes,
                             size_t bytes_len, ptab_reply *reply) {
  struct asked it = {.call = call_adopt, .other = {.disk = other}, .writes = writes, .writes_len = writes_len, .bytes = bytes,
                     .bytes_len = bytes_len};
  return done_with(&it, ask(&it, disk, 0, reply), reply);
}

int32_t ptab_disk_set_plan(ptab_disk *disk, const char *text, size_t text_len, const uint8_t *drawn, size_t drawn_len,
                           ptab_write *writes, size_t writes_len, uint8_t *bytes, size_t bytes_len, ptab_reply *reply) {
  struct asked it = {.drawn = drawn, .drawn_len = drawn_len, .writes = writes, .writes_len = writes_len, .bytes = bytes,
                     .bytes_len = bytes_len};
  int32_t status = ready_to_set(&it, text, text_len, reply);
  return done_with(&it, status == PTAB_DONE ? ask(&it, disk, 0, reply) : status, reply);
}

/* Whether a plan has more writes than one may have, and has nothing that ptab_check tells before that. */
static int is_too_long(const ptab_write *writes, size_t writes_len, size_t bytes_len, size_t size) {
  if (writes_len <= MOST_CHECKED || bytes_len % size != 0 || bytes_len / size != writes_len || writes[0].phase != 1) return 0;
  for (size_t k = 1; k < writes_len; k++) {
    uint64_t step = writes[k].phase - writes[k - 1].phase;
    if (step > 1) return 0;
  }
  return 1;
}

static struct asked checking(const ptab_disk *disk, const ptab_write *writes, size_t writes_len, const uint8_t *bytes,
                             size_t bytes_len) {
  int refuses = is_too_long(writes, writes_len, bytes_len, disk->sector_size);
  return (struct asked){.call = refuses ? call_refusing : call_check, .given = writes, .given_len = writes_len,
                        .given_bytes = bytes, .given_bytes_len = bytes_len};
}

int32_t ptab_disk_check(ptab_disk *disk, const ptab_write *writes, size_t writes_len, const uint8_t *bytes, size_t bytes_len,
                        ptab_reply *reply) {
  struct asked it = checking(disk, writes, writes_len, bytes, bytes_len);
  return done_with(&it, ask(&it, disk, 0, reply), reply);
}

int32_t ptab_disk_apply(ptab_disk *disk, const ptab_write *writes, size_t writes_len, const uint8_t *bytes, size_t bytes_len,
                        ptab_reply *reply) {
  struct asked it = checking(disk, writes, writes_len, bytes, bytes_len);
  int32_t status = ask(&it, disk, 1, reply);
  if (status == PTAB_DONE) status = carry_out(disk, writes, bytes, writes_len, reply);
  return done_with(&it, status, reply);
}
