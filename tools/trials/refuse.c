/* Loaded before the C library: the allocation numbered REFUSE (from 1) is refused, and its number is written to the
   file REFUSED. Where REFUSE is 0 none is refused, and the file has in the end how many there were. Threads count
   together. */
#define _GNU_SOURCE
#include <dlfcn.h>
#include <errno.h>
#include <fcntl.h>
#include <stddef.h>
#include <stdio.h>
#include <stdlib.h>
#include <unistd.h>

static long turn, wanted = -1;

static void tell(long number) {
  char text[24];
  const char *path = getenv("REFUSED");
  int file = path ? open(path, O_WRONLY | O_CREAT | O_TRUNC, 0600) : -1;
  if (file < 0) return;
  int size = snprintf(text, sizeof text, "%ld", number);
  if (write(file, text, size) != size) abort();
  close(file);
}

__attribute__((destructor)) static void tell_all(void) {
  if (wanted == 0) tell(turn);
}

static int is_refused(void) {
  if (wanted < 0) {
    const char *text = getenv("REFUSE");
    wanted = text ? atol(text) : 0;
  }
  if (__atomic_add_fetch(&turn, 1, __ATOMIC_RELAXED) != wanted) return 0;
  tell(wanted);
  errno = ENOMEM;
  return 1;
}

void *malloc(size_t size) {
  static void *(*next)(size_t);
  if (!next) next = (void *(*)(size_t))dlsym(RTLD_NEXT, "malloc");
  return is_refused() ? NULL : next(size);
}

void *realloc(void *old, size_t size) {
  static void *(*next)(void *, size_t);
  if (!next) next = (void *(*)(void *, size_t))dlsym(RTLD_NEXT, "realloc");
  return is_refused() ? NULL : next(old, size);
}

void *aligned_alloc(size_t align, size_t size) {
  static void *(*next)(size_t, size_t);
  if (!next) next = (void *(*)(size_t, size_t))dlsym(RTLD_NEXT, "aligned_alloc");
  return is_refused() ? NULL : next(align, size);
}

int posix_memalign(void **at, size_t align, size_t size) {
  static int (*next)(void **, size_t, size_t);
  if (!next) next = (int (*)(void **, size_t, size_t))dlsym(RTLD_NEXT, "posix_memalign");
  return is_refused() ? ENOMEM : next(at, align, size);
}
