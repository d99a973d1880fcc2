/* Makes one allocation fail: the one with the number FAIL, counted from 1. Preloaded; with FAIL=0 none fails, and how many
 * there were is written to the file that COUNT names. */
#define _GNU_SOURCE
#include <dlfcn.h>
#include <errno.h>
#include <stdatomic.h>
#include <stddef.h>
#include <stdio.h>
#include <stdlib.h>
#include <sys/syscall.h>
#include <unistd.h>

static atomic_ulong made;
static unsigned long failing;

static int fails(void) {
    return atomic_fetch_add(&made, 1) + 1 == failing;
}

void *malloc(size_t size) {
    static void *(*next)(size_t);
    if (!next) next = (void *(*)(size_t))dlsym(RTLD_NEXT, "malloc");
    if (fails()) {
        errno = ENOMEM;
        return NULL;
    }
    return next(size);
}

void *realloc(void *old, size_t size) {
    static void *(*next)(void *, size_t);
    if (!next) next = (void *(*)(void *, size_t))dlsym(RTLD_NEXT, "realloc");
    if (fails()) {
        errno = ENOMEM;
        return NULL;
    }
    return next(old, size);
}

int posix_memalign(void **to, size_t align, size_t size) {
    static int (*next)(void **, size_t, size_t);
    if (!next) next = (int (*)(void **, size_t, size_t))dlsym(RTLD_NEXT, "posix_memalign");
    return fails() ? ENOMEM : next(to, align, size);
}

void *aligned_alloc(size_t align, size_t size) {
    static void *(*next)(size_t, size_t);
    if (!next) next = (void *(*)(size_t, size_t))dlsym(RTLD_NEXT, "aligned_alloc");
    if (fails()) {
        errno = ENOMEM;
        return NULL;
    }
    return next(align, size);
}

__attribute__((constructor)) static void begin(void) {
    const char *number = getenv("FAIL");
    failing = number ? strtoul(number, NULL, 10) : 0;
    atomic_store(&made, 0);
}

/* (the program ends by _exit, which runs no destructors) */
void _exit(int status) {
    const char *file = getenv("COUNT");
    FILE *to = file ? fopen(file, "w") : NULL;
    if (to) {
        fprintf(to, "%lu\n", atomic_load(&made));
        fclose(to);
    }
    syscall(SYS_exit_group, status);
    __builtin_unreachable();
}
