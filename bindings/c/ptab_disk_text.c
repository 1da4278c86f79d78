/*
 * The sentence of a status and its reply, and the text of a name. The sentences stand in docs/texts.toml, and
 * packaging/put_texts.py writes ptab_disk_texts.h from it; those of the library are what its errors print.
 */
#define _POSIX_C_SOURCE 200809L
#include "ptab_disk.h"

#include <string.h>

/*
 * In a sentence {a} and {b} are the arguments of the reply, as numbers or as partitions; {A} and {B} are the sentences of
 * the faults of a copy that have these numbers; {s} is the sector, {n} the count, {k} a kind of file, {K} the key of a
 * table's text.
 */
#include "ptab_disk_texts.h"

static const struct {
  const char *const *sentences;
  size_t count;
} about[] = {
    [PTAB_ABOUT_ARGUMENT] = {arguments, sizeof arguments / sizeof *arguments},
    [PTAB_ABOUT_WORD] = {words, sizeof words / sizeof *words},
    [PTAB_ABOUT_TABLE] = {tables, sizeof tables / sizeof *tables},
    [PTAB_ABOUT_FINDING] = {findings, sizeof findings / sizeof *findings},
    [PTAB_ABOUT_EDIT] = {edits, sizeof edits / sizeof *edits},
    [PTAB_ABOUT_PLAN] = {plans, sizeof plans / sizeof *plans},
    [PTAB_ABOUT_CHECK] = {checks, sizeof checks / sizeof *checks},
    [PTAB_ABOUT_REPAIR] = {repairs, sizeof repairs / sizeof *repairs},
    [PTAB_ABOUT_ADOPT] = {adoptions, sizeof adoptions / sizeof *adoptions},
    [PTAB_ABOUT_OTHER_TABLE] = {tables, sizeof tables / sizeof *tables},
    [PTAB_ABOUT_DISK] = {disks, sizeof disks / sizeof *disks},
    [PTAB_ABOUT_OTHER_DISK] = {disks, sizeof disks / sizeof *disks},
};

/* A text that grows; what doesn't fit is counted. */
struct text {
  char *at;
  size_t room, len, whole;
};

/* Adds bytes of one character, or none of them. */
static void put(struct text *it, const char *bytes, size_t count) {
  if (it->len == it->whole && it->room > count && it->len < it->room - count) {
    memcpy(it->at + it->len, bytes, count);
    it->len += count;
  }
  it->whole += count;
}

static void put_all(struct text *it, const char *text) {
  for (; *text; text++) put(it, text, 1);
}

static void put_number(struct text *it, uint64_t number, uint8_t letter) {
  char digits[24], *at = digits + sizeof digits;
  *--at = 0;
  if (letter) {
    *--at = (char)letter;
    *--at = '.';
  }
  do {
    *--at = (char)('0' + number % 10);
    number /= 10;
  } while (number > 0);
  put_all(it, at);
}

static const char *of_list(const char *const *list, size_t count, uint64_t number) {
  return number < count && list[number] ? list[number] : "?";
}

#define OF(list, number) of_list((list), sizeof(list) / sizeof *(list), (number))

/* Adds what stands for a letter in braces. */
static void put_argument(struct text *it, char letter, const ptab_reply *r) {
  switch (letter) {
    case 'a': put_number(it, r->a, r->a_letter); break;
    case 'b': put_number(it, r->b, r->b_letter); break;
    case 'A': put_all(it, OF(copies, r->a)); break;
    case 'B': put_all(it, OF(copies, r->b)); break;
    case 's': put_number(it, r->sector, 0); break;
    case 'n': put_number(it, r->count, 0); break;
    case 'K': put_all(it, OF(keys, r->number)); break;
    default: put_all(it, OF(kinds, r->a)); break;
  }
}

static void put_sentence(struct text *it, const char *sentence, const ptab_reply *r) {
  for (; *sentence; sentence++) {
    if (*sentence == '{') {
      put_argument(it, sentence[1], r);
      sentence += 2;
    } else {
      put(it, sentence, 1);
    }
  }
}

/* The sentence of what a reply is about, or NULL. */
static const char *sentence_of(const ptab_reply *r) {
  if ((r->about == PTAB_ABOUT_TABLE || r->about == PTAB_ABOUT_OTHER_TABLE) && r->number == 2) return OF(chains, r->a);
  if (r->about == PTAB_ABOUT_FINDING && r->number == 5) return OF(alternates, r->a);
  if (r->about == PTAB_ABOUT_TEXT && r->number > 0 && r->number < sizeof keys / sizeof *keys) return faults[r->a ? 2 : 1];
  if (r->about >= sizeof about / sizeof *about || r->number >= about[r->about].count) return NULL;
  return about[r->about].sentences[r->number];
}

/* The sentence of a status that is about nothing. */
static const char *sentence_alone(int32_t status) {
  for (size_t k = 0; k < sizeof statuses / sizeof *statuses; k++)
    if (statuses[k].status == status) return statuses[k].sentence;
  return "no status of this library";
}

/* Adds what the system says of a device's fault. */
static void put_error(struct text *it, const ptab_reply *r) {
  char error[128];
  if (r->about < PTAB_ABOUT_DISK || r->number == PTAB_DISK_KIND || r->b == 0) return;
  if (strerror_r((int)r->b, error, sizeof error) != 0) return;
  put_all(it, ": ");
  put_all(it, error);
}

static size_t ended(struct text *it) {
  if (it->room > 0) it->at[it->len] = 0;
  return it->whole;
}

/* What stands before the sentence: of which word or disk it is told. */
static const char *before(int32_t status, const ptab_reply *r) {
  switch (r->about) {
    case PTAB_ABOUT_TABLE: return "there is no table: ";
    case PTAB_ABOUT_OTHER_TABLE:
    case PTAB_ABOUT_OTHER_DISK: return "the other disk: ";
    case PTAB_ABOUT_WORD: return "word {a}: ";
    case PTAB_ABOUT_CHECK: return status == PTAB_REFUSED ? "the plan is refused: " : "";
    default: return "";
  }
}

size_t ptab_message(int32_t status, const ptab_reply *reply, char *text, size_t length) {
  struct text it = {text, length, 0, 0};
  const char *sentence = sentence_of(reply);
  if (sentence) put_sentence(&it, before(status, reply), reply);
  put_sentence(&it, sentence ? sentence : sentence_alone(status), reply);
  if (status == PTAB_DEVICE) put_error(&it, reply);
  return ended(&it);
}

/* The character at unit `*k` of a name, which is moved past it. */
static uint32_t character(const uint16_t *name, int *k) {
  uint32_t c = name[(*k)++];
  if (c >= 0xD800 && c < 0xDC00 && *k < 36 && name[*k] >= 0xDC00 && name[*k] < 0xE000)
    return 0x10000 + ((c - 0xD800) << 10) + (uint32_t)(name[(*k)++] - 0xDC00);
  return c < 0x20 || c == 0x7F || (c >= 0xD800 && c < 0xE000) ? '?' : c;
}

size_t ptab_name_text(const ptab_member *row, char *text, size_t length) {
  struct text it = {text, length, 0, 0};
  for (int k = 0; k < 36 && row->name[k];) {
    uint32_t c = character(row->name, &k);
    char bytes[4] = {(char)(0xF0 | c >> 18), (char)(0x80 | (c >> 12 & 0x3F)), (char)(0x80 | (c >> 6 & 0x3F)),
                     (char)(0x80 | (c & 0x3F))};
    size_t count = c < 0x80 ? 1 : c < 0x800 ? 2 : c < 0x10000 ? 3 : 4;
    if (count == 1) bytes[3] = (char)c;
    if (count == 2) bytes[2] = (char)(0xC0 | c >> 6);
    if (count == 3) bytes[1] = (char)(0xE0 | c >> 12);
    put(&it, bytes + 4 - count, count);
  }
  return ended(&it);
}
