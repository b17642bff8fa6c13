/* short_pieces: a library that a program is started with (LD_PRELOAD) so that each read gives and each write takes at most as
   many bytes as SHORT_PIECES says. */
#define _GNU_SOURCE
#include <dlfcn.h>
#include <stdlib.h>
#include <sys/types.h>

static size_t at_most(size_t size) {
    const char *number = getenv("SHORT_PIECES");
    size_t most = number ? strtoul(number, 0, 10) : size;
    return size < most ? size : most;
}

ssize_t read(int file, void *at, size_t size) {
    ssize_t (*real)(int, void *, size_t) = (ssize_t (*)(int, void *, size_t))dlsym(RTLD_NEXT, "read");
    return real(file, at, at_most(size));
}

ssize_t write(int file, const void *at, size_t size) {
    ssize_t (*real)(int, const void *, size_t) = (ssize_t (*)(int, const void *, size_t))dlsym(RTLD_NEXT, "write");
    return real(file, at, at_most(size));
}
