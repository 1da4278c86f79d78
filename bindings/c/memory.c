/*
 * The three functions that the library gets its memory from, over malloc. Who embeds the library elsewhere gives these three
 * in place of this file; all of a block's calls must come from one allocator, and a block is aligned to each power of two up to 16 that
 * divides its size. Where there is no memory `ok` is false, and `at` points to some byte that stays.
 */
#include <stdbool.h>
#include <stddef.h>
#include <stdlib.h>

struct tried {
  bool ok;
  void *at;
};

struct tried rattle_alloc(size_t bytes, size_t align);
struct tried rattle_realloc(void *old, size_t kept, size_t bytes, size_t align);
void rattle_dealloc(void *block);

static char nothing;

static struct tried tried(void *block) {
  struct tried answer = {block != NULL, block != NULL ? block : &nothing};
  return answer;
}

struct tried rattle_alloc(size_t bytes, size_t align) { return tried(malloc(bytes != 0 ? bytes : align)); }

struct tried rattle_realloc(void *old, size_t kept, size_t bytes, size_t align) {
  (void)kept;
  return tried(realloc(old, bytes != 0 ? bytes : align));
}

void rattle_dealloc(void *block) { free(block); }
