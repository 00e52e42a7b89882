/* A malloc and realloc that refuse after a number of calls, and count what is held. It is to be preloaded. */
#define _GNU_SOURCE
#include <dlfcn.h>
#include <stddef.h>
#include <stdint.h>

static long calls_left = -1;
static long held;

/* All allocations after this number of them are refused. If it is below 0, none is. */
void memory_ends_after(long calls) {
    calls_left = calls;
}

/* How many blocks are held. */
long memory_held(void) {
    return held;
}

static int is_refused(void) {
    if (calls_left < 0) {
        return 0;
    }
    if (calls_left == 0) {
        return 1;
    }
    calls_left--;
    return 0;
}

void *malloc(size_t size) {
    static void *(*next)(size_t);
    void *block;
    if (!next) {
        next = (void *(*)(size_t))dlsym(RTLD_NEXT, "malloc");
    }
    block = is_refused() ? NULL : next(size);
    held += block != NULL;
    return block;
}

void *realloc(void *old, size_t size) {
    static void *(*next)(void *, size_t);
    void *block;
    if (!next) {
        next = (void *(*)(void *, size_t))dlsym(RTLD_NEXT, "realloc");
    }
    block = is_refused() ? NULL : next(old, size);
    held += old == NULL && block != NULL;
    return block;
}

void free(void *block) {
    static void (*next)(void *);
    if (!next) {
        next = (void (*)(void *))dlsym(RTLD_NEXT, "free");
    }
    held -= block != NULL;
    next(block);
}
