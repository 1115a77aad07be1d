/* Loaded before the C library: how many allocations a program asked for is written to the file COUNTED when it ends. */
#define _GNU_SOURCE
#include <dlfcn.h>
#include <stddef.h>
#include <stdio.h>
#include <stdlib.h>
#include <sys/syscall.h>
#include <unistd.h>

static long asked;

void *malloc(size_t size) {
  static void *(*next)(size_t);
  if (!next) next = (void *(*)(size_t))dlsym(RTLD_NEXT, "malloc");
  __atomic_add_fetch(&asked, 1, __ATOMIC_RELAXED);
  return next(size);
}

void *realloc(void *old, size_t size) {
  static void *(*next)(void *, size_t);
  if (!next) next = (void *(*)(void *, size_t))dlsym(RTLD_NEXT, "realloc");
  __atomic_add_fetch(&asked, 1, __ATOMIC_RELAXED);
  return next(old, size);
}

void *aligned_alloc(size_t align, size_t size) {
  static void *(*next)(size_t, size_t);
  if (!next) next = (void *(*)(size_t, size_t))dlsym(RTLD_NEXT, "aligned_alloc");
  __atomic_add_fetch(&asked, 1, __ATOMIC_RELAXED);
  return next(align, size);
}

int posix_memalign(void **at, size_t align, size_t size) {
  static int (*next)(void **, size_t, size_t);
  if (!next) next = (int (*)(void **, size_t, size_t))dlsym(RTLD_NEXT, "posix_memalign");
  __atomic_add_fetch(&asked, 1, __ATOMIC_RELAXED);
  return next(at, align, size);
}

/* The program ends by _exit, which runs no destructor. */
void _exit(int status) {
  const char *path = getenv("COUNTED");
  FILE *file = path ? fopen(path, "w") : NULL;
  if (file) {
    fprintf(file, "%ld\n", asked);
    fclose(file);
  }
  syscall(SYS_exit_group, status);
  __builtin_unreachable();
}
