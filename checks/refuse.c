/* Loaded before the C library: the allocation of the number AT, counted from 1, is refused, and the file COUNT gets how many were
   asked for. */
#include "count.h"

#include <errno.h>

static int is_refused(void) {
  if (!is_chosen()) return 0;
  errno = ENOMEM;
  return 1;
}

void *malloc(size_t size) {
  static void *(*real)(size_t);
  if (!real) real = dlsym(RTLD_NEXT, "malloc");
  return is_refused() ? NULL : real(size);
}

void *realloc(void *old, size_t size) {
  static void *(*real)(void *, size_t);
  if (!real) real = dlsym(RTLD_NEXT, "realloc");
  return is_refused() ? NULL : real(old, size);
}

void *aligned_alloc(size_t alignment, size_t size) {
  static void *(*real)(size_t, size_t);
  if (!real) real = dlsym(RTLD_NEXT, "aligned_alloc");
  return is_refused() ? NULL : real(alignment, size);
}

int posix_memalign(void **out, size_t alignment, size_t size) {
  static int (*real)(void **, size_t, size_t);
  if (!real) real = dlsym(RTLD_NEXT, "posix_memalign");
  return is_refused() ? ENOMEM : real(out, alignment, size);
}
