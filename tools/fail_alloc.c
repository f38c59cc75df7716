/* Loaded before the C library, this lets the N-th call of malloc or realloc fail, with N from FAIL_ALLOC. */
#define _GNU_SOURCE
#include <dlfcn.h>
#include <stdlib.h>

static int fails(void) {
    static long left = -1;
    if (left < 0) {
        const char *number = getenv("FAIL_ALLOC");
        left = number ? atol(number) : 0;
    }
    return left > 0 && --left == 0;
}

void *malloc(size_t size) {
    static void *(*next)(size_t);
    if (!next) next = (void *(*)(size_t))dlsym(RTLD_NEXT, "malloc");
    return fails() ? NULL : next(size);
}

void *realloc(void *old, size_t size) {
    static void *(*next)(void *, size_t);
    if (!next) next = (void *(*)(void *, size_t))dlsym(RTLD_NEXT, "realloc");
    return fails() ? NULL : next(old, size);
}
