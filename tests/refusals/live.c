/* A library to preload before a program (LD_PRELOAD): it counts what the program has allocated and not freed yet. Each
 * 20,000th allocation adds a line `PIECES BYTES` to the file that LIVE_TELL names. Built as refuse.c.
 */
#define _GNU_SOURCE
#include <fcntl.h>
#include <malloc.h>
#include <stdatomic.h>
#include <stdio.h>
#include <stdlib.h>
#include <unistd.h>

/* the C library's own, under their other names */
extern void *__libc_malloc(size_t size);
extern void *__libc_calloc(size_t count, size_t size);
extern void *__libc_realloc(void *old, size_t size);
extern void __libc_free(void *old);

enum { EACH = 20000 };

static int tell_to = -1;
static atomic_long made, pieces, bytes;

__attribute__((constructor)) static void begin(void)
{
    const char *path = getenv("LIVE_TELL");
    if (path != NULL)
        tell_to = open(path, O_WRONLY | O_CREAT | O_APPEND | O_CLOEXEC, 0600);
}

static void *counted(void *now, long was)
{
    if (now != NULL)
        atomic_fetch_add(&bytes, (long)malloc_usable_size(now) - was);
    if (atomic_fetch_add(&made, 1) % EACH == EACH - 1 && tell_to >= 0) {
        char line[60];
        int length = snprintf(line, sizeof line, "%ld %ld\n", atomic_load(&pieces), atomic_load(&bytes));
        if (write(tell_to, line, (size_t)length) < 0)
            tell_to = -1;
    }
    return now;
}

void *malloc(size_t size)
{
    void *made_now = __libc_malloc(size);
    atomic_fetch_add(&pieces, made_now != NULL);
    return counted(made_now, 0);
}

void *calloc(size_t count, size_t size)
{
    void *made_now = __libc_calloc(count, size);
    atomic_fetch_add(&pieces, made_now != NULL);
    return counted(made_now, 0);
}

void *realloc(void *old, size_t size)
{
    long was = old == NULL ? 0 : (long)malloc_usable_size(old);
    void *made_now = __libc_realloc(old, size);
    atomic_fetch_add(&pieces, old == NULL && made_now != NULL);
    return counted(made_now, was);
}

void free(void *old)
{
    if (old == NULL)
        return;
    atomic_fetch_sub(&pieces, 1);
    atomic_fetch_sub(&bytes, (long)malloc_usable_size(old));
    __libc_free(old);
}
