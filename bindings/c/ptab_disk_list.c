/*
 * What short programs take: the partitions of an open disk with their texts, and an end where a call has another status
 * than done. include/ptab_disk.h says what each call does.
 */
#include "ptab_disk.h"

#include <stdio.h>
#include <stdlib.h>

static void type_text(const ptab_table *table, const ptab_member *row, char *text, size_t length) {
  ptab_text guid;
  int32_t code = ptab_type_code(&row->type_guid);
  ptab_guid_text(&row->type_guid, &guid);
  if (row->letter != 0 || table->kind == PTAB_MBR)
    snprintf(text, length, "%02X", row->type_byte);
  else if (code >= 0)
    snprintf(text, length, "%04X", (unsigned)code);
  else
    snprintf(text, length, "%.36s", (const char *)guid.bytes);
}

static void put_texts(const ptab_table *table, const ptab_member *row, ptab_partition *it) {
  int path = snprintf(it->path, sizeof it->path, "%llu", (unsigned long long)row->number);
  if (row->letter != 0) snprintf(it->path + path, sizeof it->path - (size_t)path, ".%c", row->letter);
  it->first = row->first;
  it->last = row->last;
  type_text(table, row, it->type, sizeof it->type);
  ptab_name_text(row, it->name, sizeof it->name);
}

int32_t ptab_disk_list(ptab_disk *disk, ptab_partition *rows, size_t rows_len, ptab_reply *reply) {
  ptab_table table;
  ptab_member *members = calloc(rows_len ? rows_len : 1, sizeof *members);
  if (!members) {
    *reply = (ptab_reply){0};
    return PTAB_MEMORY;
  }
  int32_t status = ptab_disk_members(disk, &table, members, rows_len, reply);
  for (size_t k = 0; status == PTAB_DONE && k < reply->count; k++) put_texts(&table, &members[k], &rows[k]);
  free(members);
  return status;
}

void ptab_must(int32_t status, const ptab_reply *reply) {
  char text[400];
  if (status == PTAB_DONE) return;
  ptab_message(status, reply, text, sizeof text);
  fprintf(stderr, "%s\n", text);
  exit(status > 0 ? status : PTAB_USAGE);
}
