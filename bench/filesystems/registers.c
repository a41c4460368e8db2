// A library before linux.uml. Some processors have more registers (AMX) than that kernel has room for, and then ptrace
// refuses what it sets. This call sets those that it knows, and leaves the others as they were at the first one.

#define _GNU_SOURCE
#include <dlfcn.h>
#include <stdarg.h>
#include <string.h>
#include <sys/ptrace.h>
#include <sys/uio.h>

// The registers of vectors, as linux/elf.h numbers them.
#define XSTATE 0x202

static long (*next)(int, int, void *, void *);
static char all[1 << 16];
static size_t length;

__attribute__((constructor)) static void begin(void) { next = dlsym(RTLD_NEXT, "ptrace"); }

long ptrace(enum __ptrace_request request, ...) {
  va_list words;
  va_start(words, request);
  int pid = va_arg(words, int);
  void *place = va_arg(words, void *), *data = va_arg(words, void *);
  va_end(words);
  if (request != PTRACE_SETREGSET || (long)place != XSTATE) return next(request, pid, place, data);
  struct iovec *given = data, whole = {all, sizeof all};
  if (!length) {
    if (next(PTRACE_GETREGSET, pid, place, &whole)) return -1;
    length = whole.iov_len;
  }
  memcpy(all, given->iov_base, given->iov_len < length ? given->iov_len : length);
  whole.iov_len = length;
  return next(request, pid, place, &whole);
}
