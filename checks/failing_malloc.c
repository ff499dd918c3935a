// Makes one allocation fail: the one whose number, counted from 1, is in FAIL_AT. Loaded with LD_PRELOAD.
#define _GNU_SOURCE
#include <dlfcn.h>
#include <errno.h>
#include <stddef.h>
#include <stdlib.h>

static long count;

// where the number is 0 or missing, none fails
static int fails(void) {
    static long at = -1;
    if (at < 0) {
        const char *text = getenv("FAIL_AT");
        at = text ? atol(text) : 0;
    }
    return ++count == at;
}

void *malloc(size_t size) {
    static void *(*real)(size_t);
    if (!real) real = dlsym(RTLD_NEXT, "malloc");
    if (fails()) { errno = ENOMEM; return NULL; }
    return real(size);
}

void *realloc(void *old, size_t size) {
    static void *(*real)(void *, size_t);
    if (!real) real = dlsym(RTLD_NEXT, "realloc");
    if (fails()) { errno = ENOMEM; return NULL; }
    return real(old, size);
}
