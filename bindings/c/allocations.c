#include "allocations.h"

#include <stddef.h>

int counts, all_from_first;
long blocks, asked, first_refused;

void *__real_malloc(size_t size);
void *__real_realloc(void *old, size_t size);
void __real_free(void *old);
void *__wrap_malloc(size_t size);
void *__wrap_realloc(void *old, size_t size);
void __wrap_free(void *old);

static int is_refused(void) {
  if (!counts) return 0;
  asked++;
  return first_refused && (asked == first_refused || (all_from_first && asked > first_refused));
}

void *__wrap_malloc(size_t size) {
  void *made = is_refused() ? NULL : __real_malloc(size);
  if (counts && made) blocks++;
  return made;
}

void *__wrap_realloc(void *old, size_t size) {
  void *made = is_refused() ? NULL : __real_realloc(old, size);
  if (counts && made && !old) blocks++;
  return made;
}

void __wrap_free(void *old) {
  if (counts && old) blocks--;
  __real_free(old);
}
