/* The walk by several threads that bench/walk_bench and bench/far compare with. One walk finds the directories. Then 1, 2
 * and 4 threads, or those that further words say, draw these from one counter, and look at each entry: openat, getdents64
 * and statx by name. It keeps nothing, and prints how many microseconds each took and how many entries it saw. */
#define _GNU_SOURCE
#include <dirent.h>
#include <fcntl.h>
#include <pthread.h>
#include <stdatomic.h>
#include <stdio.h>
#include <stdlib.h>
#include <string.h>
#include <sys/stat.h>
#include <sys/syscall.h>
#include <time.h>
#include <unistd.h>

enum { BLOCK = 65536, MOST_THREADS = 64 };

struct entry {
  unsigned long long ino;
  long long off;
  unsigned short length;
  unsigned char type;
  char name[];
};

static char **directories;
static long known, room;
static atomic_long next, entries;

static void keep(char *path) {
  if (known == room) {
    room = room ? room * 2 : 1024;
    directories = realloc(directories, room * sizeof *directories);
    if (!directories) exit(1);
  }
  directories[known++] = path;
}

static void keep_below(const char *path, const char *name) {
  char *below;
  if (asprintf(&below, "%s/%s", path, name) < 0) exit(1);
  keep(below);
}

/* Looks at the entries of a directory. While the directories are not known yet, it keeps those that it finds. */
static void look(const char *path, int is_first) {
  int directory = openat(AT_FDCWD, path, O_RDONLY | O_DIRECTORY | O_CLOEXEC);
  if (directory < 0) return;
  char block[BLOCK];
  long count, seen = 0;
  while ((count = getdents64(directory, block, sizeof block)) > 0) {
    for (long at = 0; at < count;) {
      struct entry *entry = (struct entry *)(block + at);
      at += entry->length;
      if (!strcmp(entry->name, ".") || !strcmp(entry->name, "..")) continue;
      struct statx found;
      if (statx(directory, entry->name, AT_SYMLINK_NOFOLLOW, STATX_BASIC_STATS, &found) < 0) continue;
      seen++;
      if (is_first && S_ISDIR(found.stx_mode)) keep_below(path, entry->name);
    }
  }
  close(directory);
  atomic_fetch_add(&entries, seen);
}

static void *draw(void *unused) {
  long at;
  while ((at = atomic_fetch_add(&next, 1)) < known) look(directories[at], 0);
  return unused;
}

static long long now(void) {
  struct timespec time;
  clock_gettime(CLOCK_MONOTONIC, &time);
  return time.tv_sec * 1000000LL + time.tv_nsec / 1000;
}

static void walk(int threads) {
  pthread_t others[MOST_THREADS];
  long long start = now();
  atomic_store(&next, 0);
  atomic_store(&entries, 0);
  for (int at = 1; at < threads; at++) {
    if (pthread_create(&others[at], NULL, draw, NULL)) exit(1);
  }
  draw(NULL);
  for (int at = 1; at < threads; at++) pthread_join(others[at], NULL);
  printf("known directories, %d threads %lld entries %ld\n", threads, now() - start, atomic_load(&entries));
}

int main(int count, char **words) {
  if (count < 2) return 2;
  keep(strdup(words[1]));
  for (long at = 0; at < known; at++) look(directories[at], 1);
  for (int at = 2; at < count; at++) {
    int threads = atoi(words[at]);
    if (threads >= 1 && threads <= MOST_THREADS) walk(threads);
  }
  for (int threads = 1; count == 2 && threads <= 4; threads *= 2) walk(threads);
  return 0;
}
