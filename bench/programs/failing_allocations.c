/* Loaded before the C library: makes the allocation of number FAIL_AT give no memory. */
#define _GNU_SOURCE
#include <dlfcn.h>
#include <errno.h>
#include <stddef.h>
#include <unistd.h>
#define write_through write
#include "telling.h"

static long at = -1, count;
static int fails(void) {
  if (at < 0) { const char *s = getenv("FAIL_AT"); at = s ? atol(s) : 0; }
  if (++count != at) return 0;
  errno = ENOMEM;
  return 1;
}
extern void *__libc_malloc(size_t), *__libc_calloc(size_t, size_t), *__libc_realloc(void *, size_t), *__libc_memalign(size_t, size_t);
void *malloc(size_t n) { return fails() ? NULL : __libc_malloc(n); }
void *calloc(size_t n, size_t m) { return fails() ? NULL : __libc_calloc(n, m); }
void *realloc(void *p, size_t n) { return fails() ? NULL : __libc_realloc(p, n); }
void *aligned_alloc(size_t a, size_t n) { return fails() ? NULL : __libc_memalign(a, n); }
int posix_memalign(void **p, size_t a, size_t n) { if (fails()) return 12; *p = __libc_memalign(a, n); return *p ? 0 : 12; }
__attribute__((destructor)) static void told(void) { tell_fewer(at, count); }
