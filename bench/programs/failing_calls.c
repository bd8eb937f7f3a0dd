/* Loaded before the C library: makes an open, a read or a write go wrong, or do a part of what is asked. */
#define _GNU_SOURCE
#include <dlfcn.h>
#include <errno.h>
#include <stdarg.h>
#include <string.h>
#include <sys/types.h>
#include <unistd.h>
static ssize_t write_through(int fd, const void *bytes, size_t n) {
  static ssize_t (*real)(int, const void *, size_t);
  if (!real) real = dlsym(RTLD_NEXT, "write");
  return real(fd, bytes, n);
}
#include "telling.h"

static long at = -1, count;
static int from_on;
static const char *call, *how;
/* Whether this call of that name is to go wrong. */
static int is_due(const char *name) {
  if (at < 0) {
    at = atol(getenv("FAIL_AT")), call = getenv("FAIL_CALL"), how = getenv("FAIL_HOW");
    from_on = getenv("FAIL_ON") != NULL;
  }
  if (strcmp(name, call)) return 0;
  ++count;
  return count == at || (from_on && count > at && at > 0);
}
/* Whether this call is to do a part of what is asked: `cut` is one such call, and all after it fail. */
static int does_part(const char *part) {
  return strcmp(how, part) == 0 || (strcmp(how, "cut") == 0 && count == at);
}
static int fail(void) { errno = strcmp(how, "interrupted") ? EIO : EINTR; return -1; }
int open(const char *path, int flags, ...) {
  static int (*real)(const char *, int, ...);
  va_list rest; va_start(rest, flags); int mode = va_arg(rest, int); va_end(rest);
  if (!real) real = dlsym(RTLD_NEXT, "open");
  return is_due("open") ? fail() : real(path, flags, mode);
}
ssize_t read(int fd, void *bytes, size_t n) {
  static ssize_t (*real)(int, void *, size_t);
  if (!real) real = dlsym(RTLD_NEXT, "read");
  if (is_due("read")) {
    if (!does_part("one")) return fail();
    n = n > 1 ? 1 : n;
  }
  return real(fd, bytes, n);
}
ssize_t write(int fd, const void *bytes, size_t n) {
  if (is_due("write")) {
    if (!strcmp(how, "nothing")) return 0;
    if (!strcmp(how, "one")) n = n > 1 ? 1 : n;
    else if (does_part("half")) n = (n + 1) / 2;
    else return fail();
  }
  return write_through(fd, bytes, n);
}
__attribute__((destructor)) static void told(void) { tell_fewer(at, count); }
