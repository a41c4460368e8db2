/* A library that makes each answer of a disk late, as over a network: it is loaded before the C library, and waits for
 * the microseconds of the variable LATE before it asks. Threads wait side by side. strace could do the same without a
 * compiler, but takes 35 microseconds of each call for itself, one thread after the other. */

#define _GNU_SOURCE
#include <fcntl.h>
#include <stdarg.h>
#include <stdlib.h>
#include <sys/stat.h>
#include <sys/syscall.h>
#include <time.h>
#include <unistd.h>

static struct timespec late;

__attribute__((constructor)) static void read_late(void) {
  const char *text = getenv("LATE");
  long microseconds = text ? atol(text) : 0;
  late.tv_sec = microseconds / 1000000;
  late.tv_nsec = microseconds % 1000000 * 1000;
}

int statx(int directory, const char *restrict path, int flags, unsigned mask, struct statx *restrict found) {
  nanosleep(&late, NULL);
  return syscall(SYS_statx, directory, path, flags, mask, found);
}

ssize_t getdents64(int directory, void *block, size_t size) {
  nanosleep(&late, NULL);
  return syscall(SYS_getdents64, directory, block, size);
}

int openat(int directory, const char *path, int flags, ...) {
  va_list rest;
  va_start(rest, flags);
  int mode = va_arg(rest, int);
  va_end(rest);
  nanosleep(&late, NULL);
  return syscall(SYS_openat, directory, path, flags, mode);
}
