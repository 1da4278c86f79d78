/*
 * Which sectors an MBR leads to: its extended boot records, one after the other, and the labels of its slices. They are those that
 * the library wants of such a disk (docs/format.md), so that a call has read them before it asks. Nothing is answered by what
 * stands here: the library judges the same bytes itself.
 */
#include "ptab_disk_inner.h"

#define RECORD(sector, k) ((sector) + 446 + 16 * (k))
/* The most extended boot records of a chain. */
#define MOST_RECORDS 128

static uint32_t number_at(const uint8_t *bytes) {
  return bytes[0] | (uint32_t)bytes[1] << 8 | (uint32_t)bytes[2] << 16 | (uint32_t)bytes[3] << 24;
}

static uint8_t type_of(const uint8_t *record) { return record[4]; }
static uint32_t start_of(const uint8_t *record) { return number_at(record + 8); }
static uint32_t size_of(const uint8_t *record) { return number_at(record + 12); }
static int is_used(const uint8_t *record) { return type_of(record) != 0 && size_of(record) != 0; }
static int has_extended_type(const uint8_t *record) { return type_of(record) == 0x05 || type_of(record) == 0x0F; }

static int is_mbr_formed(const uint8_t *sector) {
  for (int k = 0; k < 4; k++)
    if (*RECORD(sector, k) != 0x00 && *RECORD(sector, k) != 0x80) return 0;
  return sector[510] == 0x55 && sector[511] == 0xAA;
}

static int is_protective(const uint8_t *sector) {
  for (int k = 0; k < 4; k++)
    if (type_of(RECORD(sector, k)) == 0xEE) return 1;
  return 0;
}

/* Takes down the label of a slice, whose record counts from this sector. */
static void take_label(struct led *it, const uint8_t *record, uint64_t from) {
  uint64_t label = from + start_of(record) + 1;
  int is_slice = it->has_labels && is_used(record) && type_of(record) == 0xA5;
  if (is_slice && size_of(record) >= 2 && label < it->sectors) it->labels[it->labels_len++] = label;
}

static void end_broken(struct led *it) {
  it->has_next = 0;
  it->labels_len = 0;
}

/* Goes on at an extended boot record. */
static void lead_to(struct led *it, uint64_t record) {
  if (record < it->first || record > it->last || record >= it->sectors || it->records == MOST_RECORDS) {
    end_broken(it);
    return;
  }
  it->has_next = 1;
  it->next = record;
  it->records++;
}

void ptab_inner_lead(struct led *it, const uint8_t *sector, const ptab_view *disk) {
  const uint8_t *extended = NULL;
  *it = (struct led){.sectors = disk->sectors, .has_labels = disk->sector_size == 512};
  it->is_mbr = is_mbr_formed(sector) && !is_protective(sector);
  if (!it->is_mbr) return;
  for (int k = 0; k < 4; k++) {
    const uint8_t *record = RECORD(sector, k);
    take_label(it, record, 0);
    if (!is_used(record) || !has_extended_type(record)) continue;
    if (extended) {
      end_broken(it);
      return;
    }
    extended = record;
  }
  if (!extended) return;
  it->first = start_of(extended);
  it->last = it->first + size_of(extended) - 1;
  lead_to(it, it->first);
}

/* Whether an extended boot record's records are what they may be. */
static int is_boot_record(const uint8_t *sector) {
  static const uint8_t none[32];
  const uint8_t *logical = RECORD(sector, 0), *link = RECORD(sector, 1);
  if (!is_mbr_formed(sector) || memcmp(RECORD(sector, 2), none, sizeof none) != 0) return 0;
  if (is_used(logical) && (has_extended_type(logical) || type_of(logical) == 0xEE)) return 0;
  return !is_used(link) || has_extended_type(link);
}

void ptab_inner_lead_on(struct led *it, const uint8_t *sector) {
  uint64_t at = it->next;
  const uint8_t *link = RECORD(sector, 1);
  it->has_next = 0;
  if (!is_boot_record(sector)) {
    end_broken(it);
    return;
  }
  take_label(it, RECORD(sector, 0), at);
  if (!is_used(link)) return;
  if (it->first + start_of(link) > at)
    lead_to(it, it->first + start_of(link));
  else
    end_broken(it);
}
