#include "entries.h"

#include <stdio.h>
#include <stdlib.h>

static int read_determinant(FILE *file, nixu_determinant *read) {
  unsigned source, dest;
  if (fscanf(file, "%u %u %u %u", &source, &read->ssn, &dest, &read->rsn) != 4) return 0;
  read->source = (uint8_t)source;
  read->dest = (uint8_t)dest;
  return 1;
}

static int read_listed(FILE *file, recorded *read) {
  read->listed = malloc((read->count + 1) * sizeof *read->listed);
  for (uint32_t i = 0; i < read->count; i++)
    if (!read->listed || !read_determinant(file, &read->listed[i])) return 0;
  return read->listed != NULL;
}

/* 1 where there is one, 0 at the end, and else -1. */
static int read_entry(FILE *file, recorded *read) {
  nixu_entry *entry = &read->entry;
  unsigned source, dest, who;
  int got = fscanf(file, "%u %u %u %u", &entry->kind, &entry->ssn, &entry->rsn, &entry->send);
  if (got == EOF) return 0;
  if (got != 4 || fscanf(file, "%u %u %u %u", &source, &dest, &who, &read->count) != 4) return -1;
  entry->source = (uint8_t)source;
  entry->dest = (uint8_t)dest;
  entry->who = (uint8_t)who;
  return 1;
}

static int read_entries(FILE *file, recording *read) {
  recorded one = {{0, 0, 0, 0, 0, 0, 0}, NULL, 0};
  int got;
  while ((got = read_entry(file, &one)) == 1) {
    recorded *longer = realloc(read->entries, (read->count + 1) * sizeof *longer);
    if (!longer) return 0;
    read->entries = longer;
    if (!read_listed(file, &one)) return 0;
    read->entries[read->count++] = one;
  }
  return got == 0;
}

int read_recording(const char *path, recording *read) {
  FILE *file = fopen(path, "r");
  unsigned processes = 0;
  read->entries = NULL;
  read->count = 0;
  if (!file) return 0;
  int is_read = fscanf(file, "%u", &processes) == 1 && read_entries(file, read);
  read->processes = (uint16_t)processes;
  fclose(file);
  return is_read;
}

void free_recording(recording *read) {
  for (size_t i = 0; i < read->count; i++) free(read->entries[i].listed);
  free(read->entries);
}

uint32_t push_all(nixu_trace *trace, const recording *all, size_t *at, uint32_t *fault, int refused(void)) {
  uint32_t status = NIXU_OK;
  for (*at = 0; *at < all->count; ++*at) {
    const recorded *one = &all->entries[*at];
    do status = nixu_trace_push(trace, &one->entry, one->listed, one->count, fault);
    while (status == NIXU_NO_MEMORY && refused && refused());
    if (status != NIXU_OK) break;
  }
  return status;
}
