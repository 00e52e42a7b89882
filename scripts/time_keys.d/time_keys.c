/* Times calls on two keys of a length that differ in their last byte alone. scripts/time_keys builds it and makes the table.
 *
 * `time_keys BYTES ROUNDS`: each round opens an index, puts the first key, and times the put of the second, a get of it,
 * a range past both, and a remove of the second. It prints a line for each: the median of its nanoseconds, and its name. */
#include <stdio.h>
#include <stdlib.h>
#include <string.h>
#include <time.h>

#include "rowanspan.h"

enum { KINDS = 4, MOST_ROUNDS = 100000 };

static const char *const names[KINDS] = {"put", "get", "range", "remove"};
static uint8_t first[ROWANSPAN_MAX_KEY_BYTES], second[ROWANSPAN_MAX_KEY_BYTES], room[4 * ROWANSPAN_MAX_KEY_BYTES];
static uint64_t took[KINDS][MOST_ROUNDS];

/* Ends the program if a call was not done. */
static void want(rowanspan_status status) {
    if (status != ROWANSPAN_OK) {
        fprintf(stderr, "time_keys: %s\n", rowanspan_status_text(status));
        exit(1);
    }
}

static uint64_t now(void) {
    struct timespec at;
    clock_gettime(CLOCK_MONOTONIC, &at);
    return (uint64_t)at.tv_sec * 1000000000u + (uint64_t)at.tv_nsec;
}

/* A call of a kind, in their order above. */
static rowanspan_status call_of(rowanspan *index, int kind, size_t length) {
    switch (kind) {
    case 0: return rowanspan_put(index, second, length, NULL, 0, NULL);
    case 1: return rowanspan_get(index, second, length, NULL, 0, room, sizeof room, NULL);
    case 2: return rowanspan_range(index, first, length, 1000, NULL, 0, room, sizeof room, NULL);
    default: return rowanspan_remove(index, second, length, NULL);
    }
}

static void time_round(size_t length, size_t at) {
    rowanspan *index;
    int kind;
    want(rowanspan_open(&index, 1, 4096, 0));
    want(rowanspan_put(index, first, length, NULL, 0, NULL));
    for (kind = 0; kind < KINDS; kind++) {
        uint64_t begun = now();
        rowanspan_status status = call_of(index, kind, length);
        took[kind][at] = now() - begun;
        want(status);
    }
    rowanspan_close(index);
}

static int compare(const void *a, const void *b) {
    uint64_t one = *(const uint64_t *)a, other = *(const uint64_t *)b;
    return (one > other) - (one < other);
}

int main(int count, char **words) {
    size_t length = count == 3 ? strtoul(words[1], NULL, 10) : 0, rounds = count == 3 ? strtoul(words[2], NULL, 10) : 0;
    size_t at;
    int kind;
    if (length < 1 || length > ROWANSPAN_MAX_KEY_BYTES || rounds < 1 || rounds > MOST_ROUNDS) {
        fprintf(stderr, "time_keys: it takes BYTES (1 to %d) and ROUNDS (1 to %d)\n", ROWANSPAN_MAX_KEY_BYTES, MOST_ROUNDS);
        return 2;
    }
    memset(first, 'a', length);
    memset(second, 'a', length);
    second[length - 1] = 'b';
    for (at = 0; at < rounds; at++) {
        time_round(length, at);
    }
    for (kind = 0; kind < KINDS; kind++) {
        qsort(took[kind], rounds, sizeof took[kind][0], compare);
        printf("%llu\t%s\n", (unsigned long long)took[kind][rounds / 2], names[kind]);
    }
    return 0;
}
