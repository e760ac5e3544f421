/* Loaded before the C library: of the calls on files of the current folder, on standard input and on standard output, that of the number
   AT, counted from 1, fails. The file COUNT gets how many there were, and `disk NAME` where the one that failed was to find, open or
   remove a file, `file NAME` where it was on an open one. */
#include "count.h"

#include <errno.h>
#include <fcntl.h>
#include <stdarg.h>
#include <string.h>
#include <sys/stat.h>
#include <sys/types.h>

static int fails(const char *on, const char *name) {
  if (!is_chosen()) return 0;
  snprintf(met, sizeof met, "%s %s", on, name);
  errno = EIO;
  return 1;
}

/* The same of an open file, whose name the system tells. */
static int fails_at(const char *on, int fd) {
  char link[64], path[PATH_MAX];
  snprintf(link, sizeof link, "/proc/self/fd/%d", fd);
  ssize_t length = readlink(link, path, sizeof path - 1);
  path[length < 0 ? 0 : length] = 0;
  const char *name = strrchr(path, '/');
  return fails(on, name ? name + 1 : path);
}

static int is_here(const char *path) { return path[0] != '/'; }

static int is_file(int fd) { return fd > STDERR_FILENO; }

#define REAL(type, name) \
  static type real; \
  if (!real) real = (type)dlsym(RTLD_NEXT, name)

typedef int (*open_t)(const char *, int, ...);
typedef ssize_t (*read_t)(int, void *, size_t);
typedef ssize_t (*write_t)(int, const void *, size_t);
typedef ssize_t (*pread_t)(int, void *, size_t, off_t);
typedef ssize_t (*pwrite_t)(int, const void *, size_t, off_t);
typedef int (*cut_t)(int, off_t);
typedef int (*unlink_t)(const char *);
typedef int (*statx_t)(int, const char *, int, unsigned int, struct statx *);

#define OPEN(name) \
  int name(const char *path, int flags, ...) { \
    REAL(open_t, #name); \
    va_list rest; \
    va_start(rest, flags); \
    int mode = flags & O_CREAT ? va_arg(rest, int) : 0; \
    va_end(rest); \
    return is_here(path) && fails("disk", path) ? -1 : real(path, flags, mode); \
  }
OPEN(open)
OPEN(open64)

#define PREAD(name) \
  ssize_t name(int fd, void *into, size_t count, off_t at) { \
    REAL(pread_t, #name); \
    return is_file(fd) && fails_at("file", fd) ? -1 : real(fd, into, count, at); \
  }
PREAD(pread)
PREAD(pread64)

#define PWRITE(name) \
  ssize_t name(int fd, const void *from, size_t count, off_t at) { \
    REAL(pwrite_t, #name); \
    return is_file(fd) && fails_at("file", fd) ? -1 : real(fd, from, count, at); \
  }
PWRITE(pwrite)
PWRITE(pwrite64)

#define CUT(name) \
  int name(int fd, off_t length) { \
    REAL(cut_t, #name); \
    return is_file(fd) && fails_at("file", fd) ? -1 : real(fd, length); \
  }
CUT(ftruncate)
CUT(ftruncate64)

int unlink(const char *path) {
  REAL(unlink_t, "unlink");
  return is_here(path) && fails("disk", path) ? -1 : real(path);
}

int statx(int fd, const char *path, int flags, unsigned int mask, struct statx *found) {
  REAL(statx_t, "statx");
  int failed = path[0] ? is_here(path) && fails("disk", path) : fails_at("disk", fd);
  return failed ? -1 : real(fd, path, flags, mask, found);
}

ssize_t read(int fd, void *into, size_t count) {
  REAL(read_t, "read");
  return fd == STDIN_FILENO && fails("input", "") ? -1 : real(fd, into, count);
}

#define WRITE(name) \
  ssize_t name(int fd, const void *from, size_t count) { \
    REAL(write_t, #name); \
    return fd == STDOUT_FILENO && fails("output", "") ? -1 : real(fd, from, count); \
  }
WRITE(write)
WRITE(__write)
