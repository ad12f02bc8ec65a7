// Refuses one allocation of a program that it is loaded into by LD_PRELOAD: the one whose number, counted from 1, is in the variable
// REFUSE. Where there are fewer, nothing is refused.
#define _GNU_SOURCE
#include <dlfcn.h>
#include <errno.h>
#include <stdlib.h>

// How many allocations come up to the one that is refused; 0 where none is.
static unsigned long left;

__attribute__((constructor)) static void begin(void) {
  const char *number = getenv("REFUSE");
  left = number ? strtoul(number, NULL, 10) : 0;
}

static int is_refused(void) {
  if (left == 0 || --left != 0) return 0;
  errno = ENOMEM;
  return 1;
}

void *malloc(size_t size) {
  static void *(*next)(size_t);
  if (!next) next = dlsym(RTLD_NEXT, "malloc");
  return is_refused() ? NULL : next(size);
}

void *realloc(void *old, size_t size) {
  static void *(*next)(void *, size_t);
  if (!next) next = dlsym(RTLD_NEXT, "realloc");
  return is_refused() ? NULL : next(old, size);
}

void *aligned_alloc(size_t alignment, size_t size) {
  static void *(*next)(size_t, size_t);
  if (!next) next = dlsym(RTLD_NEXT, "aligned_alloc");
  return is_refused() ? NULL : next(alignment, size);
}

int posix_memalign(void **place, size_t alignment, size_t size) {
  static int (*next)(void **, size_t, size_t);
  if (!next) next = dlsym(RTLD_NEXT, "posix_memalign");
  return is_refused() ? ENOMEM : next(place, alignment, size);
}
