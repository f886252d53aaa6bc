/* A recording from a file of numbers. The first line is the number of processes. Then each entry is a line

     KIND SSN RSN SEND SOURCE DEST WHO COUNT

   followed by COUNT determinants, each as SOURCE SSN DEST RSN. A number that the kind does not use is 0. */
#ifndef BINDINGS_ENTRIES_H
#define BINDINGS_ENTRIES_H

#include "nixu.h"

typedef struct recorded {
  nixu_entry entry;
  nixu_determinant *listed;
  uint32_t count;
} recorded;

typedef struct recording {
  uint16_t processes;
  recorded *entries;
  size_t count;
} recording;

/* Returns whether the file could be read. The recording must be freed in both cases. */
int read_recording(const char *path, recording *read);

void free_recording(recording *read);

/* Pushes the entries, up to the first invalid one; then `at` is its position and `fault` the number of its error. If a
   push returns NIXU_NO_MEMORY, `refused` is called, which may free memory; if it returns nonzero, the push is
   repeated. */
uint32_t push_all(nixu_trace *trace, const recording *all, size_t *at, uint32_t *fault, int refused(void));

#endif
