/* refuse_memory: a library that a program is started with (LD_PRELOAD) so that one allocation is refused.
   REFUSE=N refuses the Nth call of malloc, realloc, aligned_alloc or posix_memalign; where REFUSE is 0
   none is refused. At the end the number of calls is written to the file that REFUSE_COUNT names. */
#define _GNU_SOURCE
#include <dlfcn.h>
#include <errno.h>
#include <stdio.h>
#include <stdlib.h>

static unsigned long calls, refused;
static int known;

static int refuse(void) {
    if (!known) {
        const char *number = getenv("REFUSE");
        refused = number ? strtoul(number, 0, 10) : 0;
        known = 1;
    }
    return ++calls == refused;
}

#define REAL(result, name, ...) \
    static result (*real)(__VA_ARGS__); \
    if (!real) real = (result (*)(__VA_ARGS__))dlsym(RTLD_NEXT, #name)

void *malloc(size_t size) {
    REAL(void *, malloc, size_t);
    return refuse() ? 0 : real(size);
}

void *realloc(void *old, size_t size) {
    REAL(void *, realloc, void *, size_t);
    return refuse() ? 0 : real(old, size);
}

void *aligned_alloc(size_t align, size_t size) {
    REAL(void *, aligned_alloc, size_t, size_t);
    return refuse() ? 0 : real(align, size);
}

int posix_memalign(void **at, size_t align, size_t size) {
    REAL(int, posix_memalign, void **, size_t, size_t);
    return refuse() ? ENOMEM : real(at, align, size);
}

__attribute__((destructor)) static void tell(void) {
    const char *name = getenv("REFUSE_COUNT");
    FILE *file = name ? fopen(name, "w") : 0;
    if (file) {
        fprintf(file, "%lu\n", calls);
        fclose(file);
    }
}
