/* Loaded before the C library. The first FAIL_TIMES reads of the file whose path ends in FAIL_FILE fail. Standard
   output takes FAIL_ROOM bytes, then it refuses, or takes nothing more where FAIL_HOW is `nothing`. With FAIL_THREADS
   no thread is started. */
#define _GNU_SOURCE
#include <dlfcn.h>
#include <errno.h>
#include <fcntl.h>
#include <pthread.h>
#include <stdarg.h>
#include <stdlib.h>
#include <string.h>
#include <sys/types.h>

static long tries, taken;

int open(const char *path, int flags, ...) {
  int (*next)(const char *, int, ...) = (int (*)(const char *, int, ...))dlsym(RTLD_NEXT, "open");
  const char *file = getenv("FAIL_FILE"), *times = getenv("FAIL_TIMES");
  va_list more;
  va_start(more, flags);
  mode_t mode = flags & O_CREAT ? va_arg(more, mode_t) : 0;
  va_end(more);
  if (file && times && strlen(path) >= strlen(file) && !strcmp(path + strlen(path) - strlen(file), file) &&
      __atomic_add_fetch(&tries, 1, __ATOMIC_RELAXED) <= atol(times)) {
    errno = EIO;
    return -1;
  }
  return next(path, flags, mode);
}

ssize_t write(int to, const void *bytes, size_t count) {
  ssize_t (*next)(int, const void *, size_t) = (ssize_t(*)(int, const void *, size_t))dlsym(RTLD_NEXT, "write");
  const char *room = getenv("FAIL_ROOM"), *how = getenv("FAIL_HOW");
  if (to != 1 || !room) return next(to, bytes, count);
  size_t left = atol(room) - taken;
  if (left < count) count = left;
  if (count == 0 && how && !strcmp(how, "nothing")) return 0;
  if (count == 0) {
    errno = EIO;
    return -1;
  }
  ssize_t done = next(to, bytes, count);
  if (done > 0) taken += done;
  return done;
}

int pthread_create(pthread_t *thread, const pthread_attr_t *kind, void *(*run)(void *), void *with) {
  int (*next)(pthread_t *, const pthread_attr_t *, void *(*)(void *), void *) =
      (int (*)(pthread_t *, const pthread_attr_t *, void *(*)(void *), void *))dlsym(RTLD_NEXT, "pthread_create");
  return getenv("FAIL_THREADS") ? EAGAIN : next(thread, kind, run, with);
}
