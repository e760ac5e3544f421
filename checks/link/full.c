/* A disk that is full in the middle of a file: pwrite stops short once, fails once for want of room, and is right from then on. */
#define _GNU_SOURCE
#include <dlfcn.h>
#include <errno.h>
#include <unistd.h>

int fallocate(int file, int how, off_t from, off_t length) {
    (void)file; (void)how; (void)from; (void)length;
    errno = EOPNOTSUPP;
    return -1;
}

ssize_t pwrite(int file, const void *bytes, size_t length, off_t at) {
    static int calls;
    ssize_t (*real)(int, const void *, size_t, off_t) = dlsym(RTLD_NEXT, "pwrite");
    calls++;
    if (calls == 1) return real(file, bytes, length / 2, at);
    if (calls == 2) { errno = ENOSPC; return -1; }
    return real(file, bytes, length, at);
}
