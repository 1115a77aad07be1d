/* Loaded before the C library: the link numbered LINK_THERE (from 1) is made, and says EEXIST all the same, as a network
   file system does where its answer was lost and the link was asked for once more. */
#define _GNU_SOURCE
#include <dlfcn.h>
#include <errno.h>
#include <stdlib.h>

static long turn;

static int said(int made) {
  const char *wanted = getenv("LINK_THERE");
  if (made == 0 && wanted && ++turn == atol(wanted)) {
    errno = EEXIST;
    return -1;
  }
  return made;
}

int link(const char *from, const char *to) {
  int (*next)(const char *, const char *) = (int (*)(const char *, const char *))dlsym(RTLD_NEXT, "link");
  return said(next(from, to));
}

int linkat(int from_folder, const char *from, int to_folder, const char *to, int flags) {
  int (*next)(int, const char *, int, const char *, int) =
      (int (*)(int, const char *, int, const char *, int))dlsym(RTLD_NEXT, "linkat");
  return said(next(from_folder, from, to_folder, to, flags));
}
