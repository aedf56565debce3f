// Refuses one request for memory: LD_PRELOAD this, with REFUSE=N. The Nth call of malloc, calloc, realloc or
// posix_memalign that asks for memory returns null. COUNT=FILE writes the number of calls at the end.
#define _GNU_SOURCE
#include <dlfcn.h>
#include <errno.h>
#include <stdio.h>
#include <stdlib.h>

static unsigned long calls, refused;
static void *(*real_malloc)(size_t);
static void *(*real_calloc)(size_t, size_t);
static void *(*real_realloc)(void *, size_t);
static int (*real_memalign)(void **, size_t, size_t);
static int ready;

__attribute__((constructor)) static void start(void) {
    real_malloc = dlsym(RTLD_NEXT, "malloc");
    real_calloc = dlsym(RTLD_NEXT, "calloc");
    real_realloc = dlsym(RTLD_NEXT, "realloc");
    real_memalign = dlsym(RTLD_NEXT, "posix_memalign");
    const char *n = getenv("REFUSE");
    refused = n ? strtoul(n, NULL, 10) : 0;
    ready = 1;
}

__attribute__((destructor)) static void end(void) {
    const char *name = getenv("COUNT");
    ready = 0;
    if (name) {
        FILE *file = fopen(name, "w");
        if (file) {
            fprintf(file, "%lu\n", calls);
            fclose(file);
        }
    }
}

static int refuses(void) { return ready && ++calls == refused; }

void *malloc(size_t size) {
    if (!real_malloc) real_malloc = dlsym(RTLD_NEXT, "malloc");
    return refuses() ? NULL : real_malloc(size);
}

void *realloc(void *old, size_t size) {
    if (!real_realloc) real_realloc = dlsym(RTLD_NEXT, "realloc");
    return refuses() ? NULL : real_realloc(old, size);
}

void *calloc(size_t count, size_t size) {
    static char first[4096];
    static size_t used;
    if (!real_calloc) {
        // dlsym itself may ask before the real call is known.
        void *at = first + used;
        used += count * size;
        return used <= sizeof first ? at : NULL;
    }
    return refuses() ? NULL : real_calloc(count, size);
}

int posix_memalign(void **at, size_t alignment, size_t size) {
    if (!real_memalign) real_memalign = dlsym(RTLD_NEXT, "posix_memalign");
    return refuses() ? ENOMEM : real_memalign(at, alignment, size);
}
