/* What the tests of the library share: a count of what was wanted, indexes, and rows with plain bytes. */
#ifndef WANTING_H
#define WANTING_H

#include <stdio.h>
#include <stdlib.h>
#include <string.h>

#include "rowanspan.h"

static int wanting_passed;
static int wanting_failed;

static int wanting_before;

/* Begins a case, which lasts until `ends`. It passes if all in it is as it is wanted. */
static inline void begins(void) {
    wanting_before = wanting_failed;
}

static inline void ends(const char *name) {
    if (wanting_failed == wanting_before) {
        wanting_passed++;
        printf("ok %s\n", name);
    } else {
        wanting_failed = wanting_before + 1;
        printf("FAILED %s\n", name);
    }
    fflush(stdout);
}

#define WANT(is_so)                                                        \
    do {                                                                   \
        if (!(is_so)) {                                                    \
            printf("%s:%d: it isn't so: %s\n", __FILE__, __LINE__, #is_so); \
            wanting_failed++;                                              \
        }                                                                  \
    } while (0)

#define WANT_SAME(got, wanted)                                                                      \
    do {                                                                                            \
        unsigned long long got_ = (unsigned long long)(got), wanted_ = (unsigned long long)(wanted); \
        if (got_ != wanted_) {                                                                      \
            printf("%s:%d: %s is %llu instead of %llu\n", __FILE__, __LINE__, #got, got_, wanted_); \
            wanting_failed++;                                                                       \
        }                                                                                           \
    } while (0)

static inline int all_told(void) {
    printf("%d passed, %d failed\n", wanting_passed, wanting_failed);
    return wanting_failed != 0;
}

static inline rowanspan *opened(uint64_t columns, uint64_t log_capacity, uint64_t log_retention) {
    rowanspan *index = NULL;
    WANT_SAME(rowanspan_open(&index, columns, log_capacity, log_retention), ROWANSPAN_OK);
    return index;
}

/* A put of one column, 0. */
static inline rowanspan_status put_text(rowanspan *index, const char *key, const char *text, uint64_t *commit) {
    struct rowanspan_set set = rowanspan_set(0, text, strlen(text));
    return rowanspan_put(index, key, strlen(key), &set, 1, commit);
}

static inline int is_text(struct rowanspan_bytes bytes, const char *text) {
    return bytes.length == strlen(text) && memcmp(bytes.at, text, bytes.length) == 0;
}

#endif
