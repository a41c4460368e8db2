/* passing SOURCE OPTION.. PLACE: shows a directory at another place by FUSE. Each question goes on to the directory,
 * whose files may change behind it. It can be read alone. */

#define FUSE_USE_VERSION 31
#define _GNU_SOURCE
#include <dirent.h>
#include <errno.h>
#include <fcntl.h>
#include <fuse.h>
#include <sys/stat.h>
#include <unistd.h>

static int source;

/* The path below the source: "." for the source itself. */
static const char *below(const char *path) { return path[1] ? path + 1 : "."; }

static int attributes(const char *path, struct stat *found, struct fuse_file_info *file) {
  (void)file;
  return fstatat(source, below(path), found, AT_SYMLINK_NOFOLLOW) < 0 ? -errno : 0;
}

static int names(const char *path, void *list, fuse_fill_dir_t add, off_t offset, struct fuse_file_info *file,
                 enum fuse_readdir_flags flags) {
  (void)offset, (void)file, (void)flags;
  int number = openat(source, below(path), O_RDONLY | O_DIRECTORY | O_CLOEXEC);
  if (number < 0) return -errno;
  DIR *directory = fdopendir(number);
  struct dirent *entry;
  while ((entry = readdir(directory)))
    if (add(list, entry->d_name, NULL, 0, 0)) break;
  closedir(directory);
  return 0;
}

static int target(const char *path, char *text, size_t size) {
  ssize_t length = readlinkat(source, below(path), text, size - 1);
  if (length < 0) return -errno;
  text[length] = 0;
  return 0;
}

static const struct fuse_operations operations = {.getattr = attributes, .readdir = names, .readlink = target};

int main(int count, char **words) {
  if (count < 3) return 2;
  source = open(words[1], O_RDONLY | O_DIRECTORY | O_CLOEXEC);
  if (source < 0) return 1;
  words[1] = words[0];
  return fuse_main(count - 1, words + 1, &operations, NULL);
}
