/* What the tests by chance of ranges share: the keys of an index, many of which begin alike, in a sorted array. */
#ifndef PLAIN_KEYS_H
#define PLAIN_KEYS_H

#include "wanting.h"

enum { ROWS = 4000, LONGEST = 40, ROUNDS = 60000 };

struct plain_row {
    uint8_t key[LONGEST];
    size_t length;
    uint64_t version;
};

static struct plain_row rows[ROWS];
static size_t row_count;

static inline uint64_t chance(uint64_t below) {
    static uint64_t state = 88172645463325252u;
    state ^= state << 13;
    state ^= state >> 7;
    state ^= state << 17;
    return state % below;
}

/* A key of 1 to 40 bytes. Most of them begin as many others do, in up to five layers. */
static inline struct plain_row chance_key(void) {
    struct plain_row row = {{0}, 1 + chance(LONGEST), 0};
    size_t alike = chance(6) * 8, i;
    for (i = 0; i < row.length; i++) {
        row.key[i] = i < alike ? (uint8_t)(0xff * (i / 8 % 2)) : (uint8_t)chance(chance(3) ? 4 : 256);
    }
    return row;
}

static inline int compare(const struct plain_row *a, const struct plain_row *b) {
    int order = memcmp(a->key, b->key, a->length < b->length ? a->length : b->length);
    return order ? order : (a->length > b->length) - (a->length < b->length);
}

/* How many rows are before a key. */
static inline size_t count_before(const struct plain_row *key) {
    size_t low = 0, high = row_count;
    while (low < high) {
        size_t middle = (low + high) / 2;
        if (compare(&rows[middle], key) < 0) {
            low = middle + 1;
        } else {
            high = middle;
        }
    }
    return low;
}

/* A key by chance, or that of a row, or seldom the empty key. */
static inline struct plain_row chance_bound(void) {
    struct plain_row key = chance_key();
    if (row_count > 0 && chance(2)) {
        key = rows[chance(row_count)];
    }
    key.length = chance(100) ? key.length : 0;
    return key;
}

/* Puts or removes a row, in the index and in the array. */
static inline void change_once(rowanspan *index, bool is_remove) {
    struct plain_row key = chance_key();
    size_t at = count_before(&key);
    bool is_there = at < row_count && compare(&rows[at], &key) == 0;
    if (is_remove) {
        WANT_SAME(rowanspan_remove(index, key.key, key.length, NULL), is_there ? ROWANSPAN_OK : ROWANSPAN_ABSENT);
        row_count -= is_there;
        memmove(&rows[at], &rows[at + is_there], (row_count - at) * sizeof key);
    } else if (is_there || row_count < ROWS) {
        WANT_SAME(rowanspan_put(index, key.key, key.length, NULL, 0, &key.version), ROWANSPAN_OK);
        memmove(&rows[at + !is_there], &rows[at], (row_count - at) * sizeof key);
        row_count += !is_there;
        rows[at] = key;
    }
}

/* Changes and reads by chance. Rows become many, then few, then many again. */
static inline void by_chance(const char *reads_of, void (*read_once)(const rowanspan *)) {
    rowanspan *index = opened(1, 65536, 0);
    size_t most = 0;
    int round, reads = 0;
    begins();
    for (round = 0; round < ROUNDS; round++) {
        uint64_t what = chance(100);
        if (what < 20) {
            read_once(index);
            reads++;
        } else {
            change_once(index, round / 10000 % 3 == 2 ? what < 80 : what < 40);
        }
        WANT_SAME(rowanspan_len(index), row_count);
        most = row_count > most ? row_count : most;
    }
    printf("%d %s, over up to %zu rows\n", reads, reads_of, most);
    WANT(most > 2000);
    rowanspan_close(index);
    ends("by_chance");
}

#endif
