/* What the tests of cursors share: rows with keys of numbers, and the rows that a cursor has to return. */
#ifndef WALKING_H
#define WALKING_H

#include "wanting.h"

/* How many rows a cursor reads at a time. */
enum { AT_ONCE = 64, MOST = ROWANSPAN_MAX_KEY_BYTES };

static inline void put_key(rowanspan *index, const void *key, size_t length, const char *text) {
    struct rowanspan_set set = rowanspan_set(0, text, strlen(text));
    WANT_SAME(rowanspan_put(index, key, length, &set, 1, NULL), ROWANSPAN_OK);
}

static inline void remove_key(rowanspan *index, const char *key) {
    WANT_SAME(rowanspan_remove(index, key, strlen(key), NULL), ROWANSPAN_OK);
}

static inline void want_bytes(rowanspan_cursor *cursor, const void *key, size_t length, const char *text) {
    struct rowanspan_pair pair;
    rowanspan_status status = rowanspan_cursor_next(cursor, &pair);
    WANT_SAME(status, ROWANSPAN_OK);
    if (status == ROWANSPAN_OK) {
        WANT(pair.key.length == length && memcmp(pair.key.at, key, length) == 0);
        WANT(pair.row.column_count > 0 && is_text(rowanspan_read_bytes(&pair.row.columns), text));
    }
}

static inline void want_next(rowanspan_cursor *cursor, const char *key, const char *text) {
    want_bytes(cursor, key, strlen(key), text);
}

/* The end stays the end, and leaves the pair as it was. */
static inline void want_end(rowanspan_cursor *cursor) {
    struct rowanspan_pair pair, before;
    int i;
    memset(&pair, 0xee, sizeof pair);
    before = pair;
    for (i = 0; i < 2; i++) {
        WANT_SAME(rowanspan_cursor_next(cursor, &pair), ROWANSPAN_ABSENT);
        WANT(pair.key.at == before.key.at && pair.row.version == before.row.version);
    }
}

static inline const char *key_of(int number) {
    static char key[16];
    snprintf(key, sizeof key, "key%04d", number);
    return key;
}

/* An index with the keys of the numbers from 0 on, put in another order. The column of each is its number. */
static inline rowanspan *numbered(int count) {
    rowanspan *index = opened(1, 4096, 0);
    char text[16];
    int i;
    for (i = 0; i < count; i++) {
        snprintf(text, sizeof text, "%d", i * 11 % count);
        put_key(index, key_of(i * 11 % count), 7, text);
    }
    return index;
}

/* Wants the rows of the numbers from `first` on that are before `end`. */
static inline void want_numbers(rowanspan_cursor *cursor, int first, int end) {
    char text[16];
    for (; first < end; first++) {
        snprintf(text, sizeof text, "%d", first);
        want_next(cursor, key_of(first), text);
    }
}

#endif
