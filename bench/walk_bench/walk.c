/* The plain walk that bench/walk_bench compares with: openat, getdents64 and statx by name, on one thread. It keeps
 * nothing, and prints how many microseconds it took and how many entries it saw. */
#define _GNU_SOURCE
#include <fcntl.h>
#include <stdio.h>
#include <stdlib.h>
#include <string.h>
#include <sys/stat.h>
#include <sys/syscall.h>
#include <time.h>
#include <unistd.h>

struct entry {
  unsigned long long ino;
  long long off;
  unsigned short length;
  unsigned char type;
  char name[];
};

static unsigned long entries;
static unsigned long long sizes;

static void walk(int above, const char *name, int follow) {
  int directory = openat(above, name, O_RDONLY | O_DIRECTORY | O_CLOEXEC | (follow ? 0 : O_NOFOLLOW));
  if (directory < 0) return;
  char *block = malloc(32768);
  for (;;) {
    long count = syscall(SYS_getdents64, directory, block, 32768);
    if (count <= 0) break;
    for (long at = 0; at < count;) {
      struct entry *entry = (struct entry *)(block + at);
      at += entry->length;
      if (!strcmp(entry->name, ".") || !strcmp(entry->name, "..")) continue;
      struct statx found;
      if (statx(directory, entry->name, AT_SYMLINK_NOFOLLOW, STATX_BASIC_STATS, &found) < 0) continue;
      entries++;
      sizes += found.stx_size;
      if (S_ISDIR(found.stx_mode)) walk(directory, entry->name, 0);
    }
  }
  free(block);
  close(directory);
}

static long long now(void) {
  struct timespec time;
  clock_gettime(CLOCK_MONOTONIC, &time);
  return time.tv_sec * 1000000LL + time.tv_nsec / 1000;
}

int main(int count, char **words) {
  if (count < 2) return 2;
  for (int turn = 0; turn < 3; turn++) {
    entries = 0;
    long long start = now();
    walk(AT_FDCWD, words[1], 1);
    printf("walk %lld entries %lu sizes %llu\n", now() - start, entries, sizes);
  }
  return 0;
}
