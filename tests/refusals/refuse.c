/* A library to preload before a program (LD_PRELOAD): it counts the program's allocations, and refuses some of them.
 *
 * What it refuses, by the environment:
 *   REFUSE_THESE   a file with the numbers of the allocations to refuse, one a line, rising (the first is 1)
 *   REFUSE_ONE_IN  refuse each with odds of one in so many, by REFUSE_SEED, from number REFUSE_FROM on
 * Where it tells of that:
 *   REFUSE_TELL    a file that gets a line `NUMBER SIZE WRITTEN` for each refusal: how many bytes were asked for, and
 *                  at which byte standard output, a file, then stood
 *   REFUSE_LARGE   so it does for each allocation of at least so many bytes
 *
 * A growth (realloc) counts as one allocation. Built by `cc -std=c11 -shared -fPIC -o refuse.so refuse.c`.
 */
#define _GNU_SOURCE
#include <errno.h>
#include <fcntl.h>
#include <stdatomic.h>
#include <stdint.h>
#include <stdio.h>
#include <stdlib.h>
#include <unistd.h>

/* the C library's own, under their other names */
extern void *__libc_malloc(size_t size);
extern void *__libc_calloc(size_t count, size_t size);
extern void *__libc_realloc(void *old, size_t size);
extern void *__libc_memalign(size_t alignment, size_t size);

enum { MOST = 1 << 16 };

static unsigned long these[MOST];
static size_t these_count;
static atomic_size_t these_met;
static unsigned long one_in, seed, from, large;
static int tell_to = -1;
static atomic_ulong allocations;

static unsigned long number_of(const char *name)
{
    const char *said = getenv(name);
    return said == NULL ? 0 : strtoul(said, NULL, 10);
}

static void read_these(const char *path)
{
    static char text[MOST * 12];
    int file = open(path, O_RDONLY);
    size_t length = 0;
    ssize_t more;
    while (file >= 0 && (more = read(file, text + length, sizeof text - 1 - length)) > 0)
        length += (size_t)more;
    close(file);
    for (char *at = text, *end; these_count < MOST; at = end) {
        unsigned long number = strtoul(at, &end, 10);
        if (end == at)
            break;
        these[these_count++] = number;
    }
}

__attribute__((constructor)) static void begin(void)
{
    const char *path = getenv("REFUSE_THESE"), *tell = getenv("REFUSE_TELL");
    one_in = number_of("REFUSE_ONE_IN");
    seed = number_of("REFUSE_SEED");
    from = number_of("REFUSE_FROM");
    large = number_of("REFUSE_LARGE");
    if (tell != NULL)
        tell_to = open(tell, O_WRONLY | O_CREAT | O_APPEND | O_CLOEXEC, 0600);
    if (path != NULL)
        read_these(path);
    /* what was allocated until here is not the program's own */
    atomic_store(&allocations, 0);
}

/* by chance, but the same for the same number and seed */
static uint64_t mixed(uint64_t word)
{
    word = (word ^ (word >> 30)) * UINT64_C(0xbf58476d1ce4e5b9);
    word = (word ^ (word >> 27)) * UINT64_C(0x94d049bb133111eb);
    return word ^ (word >> 31);
}

static int is_listed(unsigned long number)
{
    size_t at = atomic_load(&these_met);
    while (at < these_count && these[at] < number)
        at++;
    atomic_store(&these_met, at);
    return at < these_count && these[at] == number;
}

static int is_refused(size_t size)
{
    unsigned long number = atomic_fetch_add(&allocations, 1) + 1;
    int refused = is_listed(number)
        || (one_in > 0 && number >= from && mixed(seed * UINT64_C(0x9e3779b97f4a7c15) + number) % one_in == 0);
    if (tell_to >= 0 && (refused || (large > 0 && size >= large))) {
        char line[80];
        int length = snprintf(line, sizeof line, "%lu %zu %ld\n", number, size, (long)lseek(1, 0, SEEK_CUR));
        if (write(tell_to, line, (size_t)length) < 0)
            tell_to = -1;
    }
    if (refused)
        errno = ENOMEM;
    return refused;
}

void *malloc(size_t size)
{
    return is_refused(size) ? NULL : __libc_malloc(size);
}

void *calloc(size_t count, size_t size)
{
    return is_refused(count * size) ? NULL : __libc_calloc(count, size);
}

void *realloc(void *old, size_t size)
{
    return is_refused(size) ? NULL : __libc_realloc(old, size);
}

void *aligned_alloc(size_t alignment, size_t size)
{
    return is_refused(size) ? NULL : __libc_memalign(alignment, size);
}

int posix_memalign(void **made, size_t alignment, size_t size)
{
    void *room = aligned_alloc(alignment, size);
    if (room == NULL)
        return ENOMEM;
    *made = room;
    return 0;
}
