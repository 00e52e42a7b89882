/* Cursors: the rows that they return, in which order, and what changes of the index between two calls do to that. */
#include "walking.h"

static rowanspan_cursor *cursor_from(const rowanspan *index, const void *start, size_t length) {
    rowanspan_cursor *cursor = NULL;
    WANT_SAME(rowanspan_cursor_open(index, start, length, NULL, 0, &cursor), ROWANSPAN_OK);
    WANT(cursor != NULL);
    return cursor;
}

static void no_rows(void) {
    rowanspan *index = opened(1, 16, 0);
    rowanspan_cursor *cursor = cursor_from(index, NULL, 0);
    begins();
    want_end(cursor);
    rowanspan_cursor_close(cursor);
    cursor = cursor_from(index, "k", 1);
    rowanspan_cursor_close(cursor);
    rowanspan_cursor_close(NULL);
    rowanspan_close(index);
    ends("no_rows");
}

/* Up to a number of rows that are read at once, and more. */
static void rows_in_order(void) {
    static const int counts[] = {1, 2, AT_ONCE - 1, AT_ONCE, AT_ONCE + 1, 2 * AT_ONCE, 1000};
    size_t i;
    begins();
    for (i = 0; i < sizeof counts / sizeof counts[0]; i++) {
        rowanspan *index = numbered(counts[i]);
        rowanspan_cursor *cursor = cursor_from(index, NULL, 0);
        want_numbers(cursor, 0, counts[i]);
        want_end(cursor);
        rowanspan_cursor_close(cursor);
        rowanspan_close(index);
    }
    ends("rows_in_order");
}

/* The start is copied. */
static void from_a_key(void) {
    static const struct {
        const char *start;
        int first;
    } cases[] = {{"", 0}, {"key", 0}, {"key0100", 100}, {"key0100!", 101}, {"key00999", 100}, {"key0199", 199},
                 {"key0199!", 200}, {"z", 200}};
    rowanspan *index = numbered(200);
    size_t i;
    begins();
    for (i = 0; i < sizeof cases / sizeof cases[0]; i++) {
        char start[16];
        rowanspan_cursor *cursor;
        strcpy(start, cases[i].start);
        cursor = cursor_from(index, start, strlen(start));
        memset(start, 'x', sizeof start);
        want_numbers(cursor, cases[i].first, 200);
        want_end(cursor);
        rowanspan_cursor_close(cursor);
    }
    rowanspan_close(index);
    ends("from_a_key");
}

/* Columns in the order in which they are asked for; their numbers are copied. */
static void columns(void) {
    rowanspan *index = opened(3, 4096, 0);
    uint8_t asked[2] = {2, 0};
    rowanspan_cursor *cursor;
    struct rowanspan_pair pair;
    int i;
    begins();
    for (i = 0; i < 2 * AT_ONCE; i++) {
        struct rowanspan_set sets[3];
        sets[0] = rowanspan_set(0, "a", 1);
        sets[1] = rowanspan_set(1, "bb", 2);
        sets[2] = rowanspan_set(2, key_of(i), 7);
        WANT_SAME(rowanspan_put(index, key_of(i), 7, sets, 3, NULL), ROWANSPAN_OK);
    }
    WANT_SAME(rowanspan_cursor_open(index, NULL, 0, asked, 2, &cursor), ROWANSPAN_OK);
    memset(asked, 1, sizeof asked);
    for (i = 0; i < 2 * AT_ONCE; i++) {
        WANT_SAME(rowanspan_cursor_next(cursor, &pair), ROWANSPAN_OK);
        WANT(is_text(pair.key, key_of(i)));
        WANT_SAME(pair.row.version, i + 1);
        WANT_SAME(pair.row.column_count, 2);
        WANT(is_text(rowanspan_read_bytes(&pair.row.columns), key_of(i)));
        WANT(is_text(rowanspan_read_bytes(&pair.row.columns), "a"));
    }
    want_end(cursor);
    rowanspan_cursor_close(cursor);
    rowanspan_close(index);
    ends("columns");
}

static void refused(void) {
    static const uint8_t twice[2] = {1, 1}, none_such[1] = {3}, long_key[MOST + 1] = {0};
    static char other;
    rowanspan *index = opened(3, 16, 0);
    rowanspan_cursor *cursor = (rowanspan_cursor *)&other;
    begins();
    WANT_SAME(rowanspan_cursor_open(index, "k", 1, twice, 2, &cursor), ROWANSPAN_BAD_COLUMN);
    WANT(cursor == NULL);
    cursor = (rowanspan_cursor *)&other;
    WANT_SAME(rowanspan_cursor_open(index, "k", 1, none_such, 1, &cursor), ROWANSPAN_BAD_COLUMN);
    WANT(cursor == NULL);
    cursor = (rowanspan_cursor *)&other;
    WANT_SAME(rowanspan_cursor_open(index, long_key, MOST + 1, none_such, 1, &cursor), ROWANSPAN_KEY_TOO_LONG);
    WANT(cursor == NULL);
    cursor = cursor_from(index, long_key, MOST);
    want_end(cursor);
    rowanspan_cursor_close(cursor);
    rowanspan_close(index);
    ends("refused");
}

enum { COLUMNS = 16, BYTES = 64 };

/* The length of the key of a number: keys and columns grow until the greatest, and shrink again. */
static size_t length_of(int number, size_t most) {
    size_t part = (size_t)(number < 200 ? number : 400 - number);
    return 4 + (most - 4) * part / 200;
}

/* A row of this number: a key that begins with it, and columns of which each has other letters. */
static void put_large(rowanspan *index, int number) {
    struct rowanspan_set sets[COLUMNS];
    uint8_t key[MOST], bytes[COLUMNS][BYTES];
    int column;
    memset(key, 'k', sizeof key);
    snprintf((char *)key, 4, "%03d", number);
    for (column = 0; column < COLUMNS; column++) {
        memset(bytes[column], 'a' + (number + column) % 26, BYTES);
        sets[column] = rowanspan_set((uint8_t)column, bytes[column], length_of(number, BYTES));
    }
    WANT_SAME(rowanspan_put(index, key, length_of(number, MOST), sets, COLUMNS, NULL), ROWANSPAN_OK);
}

static void want_large(rowanspan_cursor *cursor, int number) {
    struct rowanspan_pair pair;
    int column;
    size_t i;
    char text[16];
    WANT_SAME(rowanspan_cursor_next(cursor, &pair), ROWANSPAN_OK);
    snprintf(text, sizeof text, "%03d", number);
    WANT(pair.key.length == length_of(number, MOST) && memcmp(pair.key.at, text, 3) == 0);
    WANT_SAME(pair.row.version, number + 1);
    WANT_SAME(pair.row.column_count, COLUMNS);
    for (column = 0; column < COLUMNS; column++) {
        struct rowanspan_bytes got = rowanspan_read_bytes(&pair.row.columns);
        WANT_SAME(got.length, length_of(number, BYTES));
        for (i = 0; i < got.length; i++) {
            WANT_SAME(got.at[i], 'a' + (number + column) % 26);
        }
    }
}

/* The buffer grows while the cursor reads, and has then more room than an answer needs. */
static void large_rows(void) {
    rowanspan *index = opened(COLUMNS, 4096, 0);
    rowanspan_cursor *cursor;
    int i;
    begins();
    for (i = 0; i < 400; i++) {
        put_large(index, i);
    }
    cursor = cursor_from(index, NULL, 0);
    for (i = 0; i < 400; i++) {
        want_large(cursor, i);
    }
    want_end(cursor);
    rowanspan_cursor_close(cursor);
    rowanspan_close(index);
    ends("large_rows");
}

/* Keys that differ in how many zero bytes they end in: each is the next one that there can be after the other. */
static void zero_bytes(void) {
    static const uint8_t key[200] = {'a'};
    rowanspan *index = opened(1, 4096, 0);
    rowanspan_cursor *cursor;
    size_t length;
    begins();
    for (length = 0; length <= sizeof key; length++) {
        put_key(index, key, length, length % 2 ? "odd" : "even");
    }
    cursor = cursor_from(index, NULL, 0);
    for (length = 0; length <= sizeof key; length++) {
        want_bytes(cursor, key, length, length % 2 ? "odd" : "even");
    }
    want_end(cursor);
    rowanspan_cursor_close(cursor);
    rowanspan_close(index);
    ends("zero_bytes");
}

/* The last key that is read at once has the greatest length, and ends in `greatest` bytes 0xff, after a byte 'k'. The
 * next one is the least that is after it; if all its bytes are 0xff, there is none. */
static void want_after_greatest(size_t greatest) {
    rowanspan *index = numbered(AT_ONCE - 1);
    rowanspan_cursor *cursor;
    uint8_t key[MOST], next[MOST];
    size_t length = MOST - greatest;
    memset(key, 'k', sizeof key);
    memset(key + length, 0xff, greatest);
    memcpy(next, key, sizeof key);
    put_key(index, key, sizeof key, "greatest");
    if (length > 0) {
        next[length - 1]++;
        put_key(index, next, length, "next");
        put_key(index, "\xff", 1, "last");
    }
    cursor = cursor_from(index, NULL, 0);
    want_numbers(cursor, 0, AT_ONCE - 1);
    want_bytes(cursor, key, sizeof key, "greatest");
    if (length > 0) {
        want_bytes(cursor, next, length, "next");
        want_next(cursor, "\xff", "last");
    }
    want_end(cursor);
    rowanspan_cursor_close(cursor);
    rowanspan_close(index);
}

static void greatest_keys(void) {
    begins();
    want_after_greatest(0);
    want_after_greatest(1);
    want_after_greatest(8);
    want_after_greatest(MOST - 1);
    want_after_greatest(MOST);
    ends("greatest_keys");
}

/* Changes between two calls. What the cursor has read stays as it was; what it reads later is as it is then. */
static void changes_between(void) {
    rowanspan *index = numbered(200);
    rowanspan_cursor *cursor = cursor_from(index, NULL, 0);
    begins();
    want_numbers(cursor, 0, 10);
    put_key(index, "aaa", 3, "before");
    remove_key(index, key_of(9));
    put_key(index, key_of(9), 7, "the present key again");
    put_key(index, key_of(20), 7, "read before");
    put_key(index, "key0022!", 8, "read before");
    remove_key(index, key_of(21));
    put_key(index, key_of(100), 7, "changed");
    remove_key(index, key_of(101));
    put_key(index, "key0102!", 8, "added");
    want_numbers(cursor, 10, AT_ONCE);
    remove_key(index, key_of(AT_ONCE - 1));
    put_key(index, "key0063!", 8, "added");
    want_next(cursor, "key0063!", "added");
    want_numbers(cursor, AT_ONCE, 100);
    want_next(cursor, key_of(100), "changed");
    want_numbers(cursor, 102, 103);
    want_next(cursor, "key0102!", "added");
    want_numbers(cursor, 103, 180);
    put_key(index, "z", 1, "after");
    want_numbers(cursor, 180, 200);
    want_next(cursor, "z", "after");
    want_end(cursor);
    put_key(index, "zz", 2, "after the end");
    want_end(cursor);
    rowanspan_cursor_close(cursor);
    rowanspan_close(index);
    ends("changes_between");
}

/* All rows are removed: those that were read are still returned. */
static void all_removed(void) {
    rowanspan *index = numbered(3 * AT_ONCE);
    rowanspan_cursor *cursor = cursor_from(index, NULL, 0);
    int i;
    begins();
    want_numbers(cursor, 0, 1);
    for (i = 0; i < 3 * AT_ONCE; i++) {
        remove_key(index, key_of(i));
    }
    want_numbers(cursor, 1, AT_ONCE);
    want_end(cursor);
    rowanspan_cursor_close(cursor);
    rowanspan_close(index);
    ends("all_removed");
}

/* Two cursors at once: what one has returned is good while the other is used, and while the index changes. */
static void two_cursors(void) {
    rowanspan *index = numbered(2 * AT_ONCE);
    rowanspan_cursor *one = cursor_from(index, key_of(5), 7), *other = cursor_from(index, NULL, 0);
    struct rowanspan_pair pair;
    begins();
    WANT_SAME(rowanspan_cursor_next(one, &pair), ROWANSPAN_OK);
    want_numbers(other, 0, 2 * AT_ONCE);
    remove_key(index, key_of(5));
    want_end(other);
    rowanspan_cursor_close(other);
    WANT(is_text(pair.key, key_of(5)) && is_text(rowanspan_read_bytes(&pair.row.columns), "5"));
    want_numbers(one, 6, 2 * AT_ONCE);
    rowanspan_cursor_close(one);
    rowanspan_close(index);
    ends("two_cursors");
}

int main(void) {
    no_rows();
    rows_in_order();
    from_a_key();
    columns();
    refused();
    large_rows();
    zero_bytes();
    greatest_keys();
    changes_between();
    all_removed();
    two_cursors();
    return all_told();
}
