/* The library's memory for tests: refuses a request of one's choice, counts requests, the blocks that are left and the bytes held. */
#include <stdbool.h>
#include <stddef.h>
#include <stdint.h>
#include <stdlib.h>
#include <string.h>

struct tried {
  bool ok;
  void *at;
};

struct tried rattle_alloc(size_t bytes, size_t align);
struct tried rattle_realloc(void *old, size_t kept, size_t bytes, size_t align);
void rattle_dealloc(void *block);
void test_refuse(uint64_t first, uint64_t last);
uint64_t test_requests(void);
uint64_t test_blocks(void);
uint64_t test_most_bytes(void);

/* Before each block stands its size; 16 bytes keep its alignment. */
enum { BEFORE = 16 };

static char nothing;
static uint64_t requests, blocks, first_refused, last_refused, held, most_held;

void test_refuse(uint64_t first, uint64_t last) {
  requests = 0;
  most_held = held;
  first_refused = first;
  last_refused = last;
}

uint64_t test_requests(void) { return requests; }

uint64_t test_blocks(void) { return blocks; }

/* The most bytes that were asked for and not given back at once, since the last `test_refuse`. */
uint64_t test_most_bytes(void) { return most_held; }

static bool refused(void) {
  requests++;
  return first_refused <= requests && requests <= last_refused;
}

static size_t size_of(void *block) {
  size_t bytes;
  memcpy(&bytes, (char *)block - BEFORE, sizeof bytes);
  return bytes;
}

static struct tried tried(char *whole, size_t bytes) {
  struct tried answer = {whole != NULL, whole != NULL ? whole + BEFORE : &nothing};
  if (whole != NULL) {
    memcpy(whole, &bytes, sizeof bytes);
    held += bytes;
    most_held = held > most_held ? held : most_held;
  }
  return answer;
}

struct tried rattle_alloc(size_t bytes, size_t align) {
  (void)align;
  char *whole = refused() ? NULL : malloc(BEFORE + bytes);
  blocks += whole != NULL;
  return tried(whole, bytes);
}

struct tried rattle_realloc(void *old, size_t kept, size_t bytes, size_t align) {
  (void)kept;
  (void)align;
  size_t before = size_of(old);
  char *whole = refused() ? NULL : realloc((char *)old - BEFORE, BEFORE + bytes);
  held -= whole != NULL ? before : 0;
  return tried(whole, bytes);
}

void rattle_dealloc(void *block) {
  blocks--;
  held -= size_of(block);
  free((char *)block - BEFORE);
}
