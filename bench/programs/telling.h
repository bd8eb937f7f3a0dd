/* Where a run made fewer calls than the one that was to fail, `tell_fewer` says so on the descriptor COUNT_TO, before the program
   ends. Who includes this has `write_through`, which writes whatever fails, and `told`, which calls `tell_fewer` at the end of the
   program; it may come without destructors where the program has threads, so `_exit` calls it as well. */
#include <stdlib.h>
#include <unistd.h>
static void tell_fewer(long at, long count) {
  const char *fd = getenv("COUNT_TO");
  if (fd && at > 0 && count < at && write_through(atoi(fd), "end", 3) < 0) abort();
}
static void told(void);
void _exit(int status) {
  told();
  void (*real)(int) = dlsym(RTLD_NEXT, "_exit");
  real(status);
  __builtin_unreachable();
}
