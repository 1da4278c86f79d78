/* Counts the calls of ptab.h that the calls on open disks make, and keeps the places that these read. It is linked with the library by
   --wrap, of each of the names below. */
#include "ptab.h"

#include <sys/types.h>

/* The most reads that are kept. */
enum { MOST = 4096 };

struct place {
  uint64_t at, length;
};

void test_begin(void);
uint64_t test_calls(void);
uint64_t test_reads(struct place *places, uint64_t room);

static struct place kept[MOST];
static uint64_t calls, reads;

void test_begin(void) { calls = reads = 0; }

uint64_t test_calls(void) { return calls; }

uint64_t test_reads(struct place *places, uint64_t room) {
  for (uint64_t k = 0; k < reads && k < room; k++) places[k] = kept[k];
  return reads;
}

ssize_t __real_pread(int fd, void *into, size_t count, off_t at);
ssize_t __wrap_pread(int fd, void *into, size_t count, off_t at);

ssize_t __wrap_pread(int fd, void *into, size_t count, off_t at) {
  if (reads < MOST) kept[reads++] = (struct place){(uint64_t)at, count};
  return __real_pread(fd, into, count, at);
}

#define COUNTED(name, parameters, arguments) \
  int32_t __real_##name parameters;          \
  int32_t __wrap_##name parameters;          \
  int32_t __wrap_##name parameters {         \
    calls++;                                 \
    return __real_##name arguments;          \
  }

#define PLAN ptab_write *writes, size_t writes_len, uint8_t *bytes, size_t bytes_len, ptab_reply *reply

COUNTED(ptab_wanted, (const ptab_view *view, uint64_t *sectors, size_t len, ptab_reply *reply), (view, sectors, len, reply))
COUNTED(ptab_members, (const ptab_view *view, ptab_table *table, ptab_member *rows, size_t len, ptab_reply *reply),
        (view, table, rows, len, reply))
COUNTED(ptab_verify, (const ptab_view *view, ptab_reply *reply), (view, reply))
COUNTED(ptab_locate, (const ptab_view *view, uint64_t number, uint8_t letter, uint64_t k, ptab_reply *reply),
        (view, number, letter, k, reply))
COUNTED(ptab_free, (const ptab_view *view, ptab_block *rows, size_t len, ptab_reply *reply), (view, rows, len, reply))
COUNTED(ptab_table_text, (const ptab_view *view, const uint8_t *device, size_t device_len, uint8_t *text, size_t len, ptab_reply *reply),
        (view, device, device_len, text, len, reply))
COUNTED(ptab_plan, (const ptab_view *view, const uint8_t *words, size_t words_len, const uint8_t *drawn, size_t drawn_len, PLAN),
        (view, words, words_len, drawn, drawn_len, writes, writes_len, bytes, bytes_len, reply))
COUNTED(ptab_set_plan, (const ptab_view *view, const uint8_t *text, size_t len, const uint8_t *drawn, size_t drawn_len, PLAN),
        (view, text, len, drawn, drawn_len, writes, writes_len, bytes, bytes_len, reply))
COUNTED(ptab_repair, (const ptab_view *view, PLAN), (view, writes, writes_len, bytes, bytes_len, reply))
COUNTED(ptab_adopt_plan, (const ptab_view *view, const ptab_view *other, PLAN), (view, other, writes, writes_len, bytes, bytes_len, reply))
COUNTED(ptab_check, (const ptab_view *view, const ptab_write *writes, size_t writes_len, const uint8_t *bytes, size_t bytes_len,
                     ptab_reply *reply), (view, writes, writes_len, bytes, bytes_len, reply))
