// What a program asks of its system, as a page gives it: bytes come from the page and go to it, and there is nothing else.
#include "heap.c"

#define FROM_PAGE(name) __attribute__((import_module("page"), import_name(name)))

// Answers once the page has a line.
FROM_PAGE("read") long page_read(void *to, size_t room);
FROM_PAGE("write") void page_write(const void *at, size_t count, int where);

// The number of the error that a descriptor can't be moved about in.
#define NO_SEEK 29

long read(int from, void *to, size_t room) { return page_read(to, room); }

long write(int where, const void *at, size_t count) {
  page_write(at, count, where);
  return count;
}

long __write(int where, const void *at, size_t count) { return write(where, at, count); }

long lseek(int where, long to, int from) { return -1; }

int rattle_errno(void) { return NO_SEEK; }

int __xpg_strerror_r(int number, char *to, size_t room) {
  if (room) *to = 0;
  return 0;
}

size_t __sysv_signal(int signal, size_t how) { return 0; }

// The program asks what the processor has, and is told all: what it then uses was compiled for the browser.
void *__x86_get_cpuid_feature_leaf(int which) {
  static unsigned leaf[64];
  for (int at = 0; at < 64; at++) leaf[at] = ~0u;
  return leaf;
}
