/* Cursors against the order of keys: the rows that they return, in which order, and what changes of the index between
 * two calls do to that. */
#include "walking.h"

static rowanspan_cursor *cursor_before(const rowanspan *index, const void *before, size_t length) {
    rowanspan_cursor *cursor = NULL;
    WANT_SAME(rowanspan_cursor_open_back(index, before, length, NULL, 0, &cursor), ROWANSPAN_OK);
    WANT(cursor != NULL);
    return cursor;
}

/* Wants the rows of the numbers before `end`, from the greatest down to `least`. */
static void want_back(rowanspan_cursor *cursor, int end, int least) {
    char text[16];
    while (end > least) {
        snprintf(text, sizeof text, "%d", --end);
        want_next(cursor, key_of(end), text);
    }
}

static void no_rows(void) {
    rowanspan *index = opened(1, 16, 0);
    rowanspan_cursor *cursor = cursor_before(index, NULL, 0);
    begins();
    want_end(cursor);
    rowanspan_cursor_close(cursor);
    WANT_SAME(rowanspan_put(index, "k", 1, NULL, 0, NULL), ROWANSPAN_OK);
    cursor = cursor_before(index, "", 0);
    want_end(cursor);
    rowanspan_cursor_close(cursor);
    cursor = cursor_before(index, "k", 1);
    want_end(cursor);
    rowanspan_cursor_close(cursor);
    cursor = cursor_before(index, NULL, 0);
    rowanspan_cursor_close(cursor);
    rowanspan_close(index);
    ends("no_rows");
}

/* Up to a number of rows that are read at once, and more. */
static void rows_in_order(void) {
    static const int counts[] = {1, 2, AT_ONCE - 1, AT_ONCE, AT_ONCE + 1, 2 * AT_ONCE, 1000};
    size_t i;
    begins();
    for (i = 0; i < sizeof counts / sizeof counts[0]; i++) {
        rowanspan *index = numbered(counts[i]);
        rowanspan_cursor *cursor = cursor_before(index, NULL, 9999);
        want_back(cursor, counts[i], 0);
        want_end(cursor);
        rowanspan_cursor_close(cursor);
        rowanspan_close(index);
    }
    ends("rows_in_order");
}

/* The key is copied. */
static void before_a_key(void) {
    static const struct {
        const char *before;
        int end;
    } cases[] = {{"", 0},          {"key", 0},       {"key0000", 0},   {"key0000!", 1}, {"key0100", 100},
                 {"key0100!", 101}, {"key00999", 100}, {"key0199", 199}, {"z", 200}};
    rowanspan *index = numbered(200);
    size_t i;
    begins();
    for (i = 0; i < sizeof cases / sizeof cases[0]; i++) {
        char before[16];
        rowanspan_cursor *cursor;
        strcpy(before, cases[i].before);
        cursor = cursor_before(index, before, strlen(before));
        memset(before, 'x', sizeof before);
        want_back(cursor, cases[i].end, 0);
        want_end(cursor);
        rowanspan_cursor_close(cursor);
    }
    rowanspan_close(index);
    ends("before_a_key");
}

/* Columns in the order in which they are asked for; their numbers are copied. */
static void columns(void) {
    rowanspan *index = opened(3, 4096, 0);
    uint8_t asked[2] = {2, 0};
    rowanspan_cursor *cursor;
    struct rowanspan_pair pair;
    int i;
    begins();
    for (i = 0; i < 2 * AT_ONCE; i++) {
        struct rowanspan_set sets[2];
        sets[0] = rowanspan_set(0, "a", 1);
        sets[1] = rowanspan_set(2, key_of(i), 7);
        WANT_SAME(rowanspan_put(index, key_of(i), 7, sets, 2, NULL), ROWANSPAN_OK);
    }
    WANT_SAME(rowanspan_cursor_open_back(index, NULL, 0, asked, 2, &cursor), ROWANSPAN_OK);
    memset(asked, 1, sizeof asked);
    while (i-- > 0) {
        WANT_SAME(rowanspan_cursor_next(cursor, &pair), ROWANSPAN_OK);
        WANT(is_text(pair.key, key_of(i)));
        WANT_SAME(pair.row.version, i + 1);
        WANT_SAME(pair.row.column_count, 2);
        WANT(is_text(rowanspan_read_bytes(&pair.row.columns), key_of(i)));
        WANT(is_text(rowanspan_read_bytes(&pair.row.columns), "a"));
    }
    want_end(cursor);
    rowanspan_cursor_close(cursor);
    rowanspan_close(index);
    ends("columns");
}

static void refused(void) {
    static const uint8_t twice[2] = {1, 1}, none_such[1] = {3}, long_key[MOST + 1] = {0};
    static char other;
    rowanspan *index = opened(3, 16, 0);
    rowanspan_cursor *cursor = (rowanspan_cursor *)&other;
    begins();
    WANT_SAME(rowanspan_cursor_open_back(index, "k", 1, twice, 2, &cursor), ROWANSPAN_BAD_COLUMN);
    WANT(cursor == NULL);
    cursor = (rowanspan_cursor *)&other;
    WANT_SAME(rowanspan_cursor_open_back(index, NULL, 0, none_such, 1, &cursor), ROWANSPAN_BAD_COLUMN);
    WANT(cursor == NULL);
    cursor = (rowanspan_cursor *)&other;
    WANT_SAME(rowanspan_cursor_open_back(index, long_key, MOST + 1, none_such, 1, &cursor), ROWANSPAN_KEY_TOO_LONG);
    WANT(cursor == NULL);
    cursor = cursor_before(index, long_key, MOST);
    want_end(cursor);
    rowanspan_cursor_close(cursor);
    rowanspan_close(index);
    ends("refused");
}

/* Keys that differ in how many zero bytes they end in, down to the empty key, which may be the first or the last one
 * that is read at once. */
static void zero_bytes(void) {
    static const uint8_t key[200] = {'a'};
    static const size_t counts[] = {1, AT_ONCE, AT_ONCE + 1, 200};
    size_t i, length;
    begins();
    for (i = 0; i < sizeof counts / sizeof counts[0]; i++) {
        rowanspan *index = opened(1, 4096, 0);
        rowanspan_cursor *cursor;
        for (length = 0; length < counts[i]; length++) {
            put_key(index, key, length, length % 2 ? "odd" : "even");
        }
        cursor = cursor_before(index, NULL, 0);
        while (length-- > 0) {
            want_bytes(cursor, key, length, length % 2 ? "odd" : "even");
        }
        want_end(cursor);
        rowanspan_cursor_close(cursor);
        rowanspan_close(index);
    }
    ends("zero_bytes");
}

/* The buffer grows, and the last key that is read at once has the greatest length: the next rows are before it. */
static void greatest_keys(void) {
    rowanspan *index = numbered(AT_ONCE);
    uint8_t key[MOST];
    rowanspan_cursor *cursor;
    int i;
    begins();
    memset(key, 0xff, sizeof key);
    for (i = 0; i < AT_ONCE; i++) {
        key[MOST - 1] = (uint8_t)(0xff - i);
        put_key(index, key, sizeof key, "greatest");
    }
    cursor = cursor_before(index, NULL, 0);
    for (i = 0; i < AT_ONCE; i++) {
        key[MOST - 1] = (uint8_t)(0xff - i);
        want_bytes(cursor, key, sizeof key, "greatest");
    }
    want_back(cursor, AT_ONCE, 0);
    want_end(cursor);
    rowanspan_cursor_close(cursor);
    rowanspan_close(index);
    ends("greatest_keys");
}

/* Changes between two calls. What the cursor has read stays as it was; what it reads later is as it is then. */
static void changes_between(void) {
    rowanspan *index = numbered(200);
    rowanspan_cursor *cursor = cursor_before(index, NULL, 0);
    const int first = 200 - AT_ONCE;
    begins();
    want_back(cursor, 200, 190);
    put_key(index, "z", 1, "after");
    remove_key(index, key_of(190));
    put_key(index, key_of(190), 7, "the present key again");
    put_key(index, key_of(180), 7, "read before");
    put_key(index, "key0177!", 8, "read before");
    remove_key(index, key_of(178));
    put_key(index, key_of(100), 7, "changed");
    remove_key(index, key_of(99));
    put_key(index, "key0097!", 8, "added");
    want_back(cursor, 190, first);
    remove_key(index, key_of(first));
    put_key(index, "key0135!", 8, "added");
    want_next(cursor, "key0135!", "added");
    want_back(cursor, first, 101);
    want_next(cursor, key_of(100), "changed");
    want_back(cursor, 99, 98);
    want_next(cursor, "key0097!", "added");
    want_back(cursor, 98, 20);
    put_key(index, "a", 1, "before");
    want_back(cursor, 20, 0);
    want_next(cursor, "a", "before");
    want_end(cursor);
    put_key(index, "A", 1, "after the end");
    want_end(cursor);
    rowanspan_cursor_close(cursor);
    rowanspan_close(index);
    ends("changes_between");
}

/* All rows are removed: those that were read are still returned. */
static void all_removed(void) {
    rowanspan *index = numbered(3 * AT_ONCE);
    rowanspan_cursor *cursor = cursor_before(index, NULL, 0);
    int i;
    begins();
    want_back(cursor, 3 * AT_ONCE, 3 * AT_ONCE - 1);
    for (i = 0; i < 3 * AT_ONCE; i++) {
        remove_key(index, key_of(i));
    }
    want_back(cursor, 3 * AT_ONCE - 1, 2 * AT_ONCE);
    want_end(cursor);
    rowanspan_cursor_close(cursor);
    rowanspan_close(index);
    ends("all_removed");
}

/* One cursor returns the rows in the order of their keys, and the other against it. */
static void both_ways(void) {
    rowanspan *index = numbered(3 * AT_ONCE);
    rowanspan_cursor *back = cursor_before(index, NULL, 0), *on = NULL;
    int i;
    begins();
    WANT_SAME(rowanspan_cursor_open(index, NULL, 0, NULL, 0, &on), ROWANSPAN_OK);
    for (i = 0; i < 3 * AT_ONCE; i++) {
        want_numbers(on, i, i + 1);
        want_back(back, 3 * AT_ONCE - i, 3 * AT_ONCE - i - 1);
    }
    want_end(on);
    want_end(back);
    rowanspan_cursor_close(on);
    rowanspan_cursor_close(back);
    rowanspan_close(index);
    ends("both_ways");
}

int main(void) {
    no_rows();
    rows_in_order();
    before_a_key();
    columns();
    refused();
    zero_bytes();
    greatest_keys();
    changes_between();
    all_removed();
    both_ways();
    return all_told();
}
