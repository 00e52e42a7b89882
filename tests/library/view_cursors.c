/* Cursors over views: the rows that they return, what changes of the view between two calls do to that, and views that
 * are dropped. */
#include "walking.h"

/* A view of the keys that begin so. */
static uint64_t view_of(rowanspan *index, const char *prefix, struct rowanspan_test test) {
    uint64_t view = 0;
    WANT_SAME(rowanspan_build_prefix(index, prefix, strlen(prefix), test, &view), ROWANSPAN_OK);
    return view;
}

static rowanspan_cursor *cursor_over(const rowanspan *index, uint64_t view, const char *start) {
    rowanspan_cursor *cursor = NULL;
    WANT_SAME(rowanspan_view_cursor_open(index, view, start, strlen(start), &cursor), ROWANSPAN_OK);
    WANT(cursor != NULL);
    return cursor;
}

static void keep(rowanspan *index) {
    WANT_SAME(rowanspan_keep_views(index, NULL), ROWANSPAN_OK);
}

static void no_rows(void) {
    rowanspan *index = numbered(10);
    rowanspan_cursor *cursor = cursor_over(index, view_of(index, "z", rowanspan_any()), "");
    begins();
    want_end(cursor);
    rowanspan_cursor_close(cursor);
    rowanspan_close(index);
    ends("no_rows");
}

/* Up to a number of rows that are read at once, and more. Rows before and after the view's are not returned. */
static void rows_in_order(void) {
    static const int counts[] = {1, 2, AT_ONCE - 1, AT_ONCE, AT_ONCE + 1, 2 * AT_ONCE, 1000};
    size_t i;
    begins();
    for (i = 0; i < sizeof counts / sizeof counts[0]; i++) {
        rowanspan *index = numbered(counts[i]);
        rowanspan_cursor *cursor;
        put_key(index, "a", 1, "before");
        put_key(index, "z", 1, "after");
        cursor = cursor_over(index, view_of(index, "key", rowanspan_any()), "");
        want_numbers(cursor, 0, counts[i]);
        want_end(cursor);
        rowanspan_cursor_close(cursor);
        rowanspan_close(index);
    }
    ends("rows_in_order");
}

/* The start is copied. The rows are those that pass the view's test. */
static void from_a_key(void) {
    rowanspan *index = numbered(200);
    uint64_t view = view_of(index, "key", rowanspan_equals(0, "150", 3)), all = view_of(index, "", rowanspan_any());
    rowanspan_cursor *cursor = cursor_over(index, view, "");
    char start[] = "key0100";
    begins();
    want_numbers(cursor, 150, 151);
    want_end(cursor);
    rowanspan_cursor_close(cursor);
    cursor = cursor_over(index, view, "key0151");
    want_end(cursor);
    rowanspan_cursor_close(cursor);
    cursor = cursor_over(index, all, start);
    memset(start, 'x', sizeof start);
    want_numbers(cursor, 100, 200);
    want_end(cursor);
    rowanspan_cursor_close(cursor);
    rowanspan_close(index);
    ends("from_a_key");
}

/* All columns are returned, and rows that need a larger buffer. */
static void large_rows(void) {
    enum { COLUMNS = 16, BYTES = 64, ROWS = 150 };
    rowanspan *index = opened(COLUMNS, 4096, 0);
    struct rowanspan_set sets[COLUMNS];
    struct rowanspan_pair pair;
    rowanspan_cursor *cursor;
    uint8_t bytes[BYTES];
    int i, column;
    begins();
    memset(bytes, 'x', sizeof bytes);
    for (column = 0; column < COLUMNS; column++) {
        sets[column] = rowanspan_set((uint8_t)column, bytes, BYTES - (size_t)column);
    }
    for (i = 0; i < ROWS; i++) {
        WANT_SAME(rowanspan_put(index, key_of(i), 7, sets, COLUMNS, NULL), ROWANSPAN_OK);
    }
    cursor = cursor_over(index, view_of(index, "", rowanspan_any()), "");
    for (i = 0; i < ROWS; i++) {
        WANT_SAME(rowanspan_cursor_next(cursor, &pair), ROWANSPAN_OK);
        WANT(is_text(pair.key, key_of(i)));
        WANT(pair.row.version == (uint64_t)i + 1 && pair.row.column_count == COLUMNS);
        for (column = 0; column < COLUMNS; column++) {
            WANT_SAME(rowanspan_read_bytes(&pair.row.columns).length, BYTES - column);
        }
    }
    want_end(cursor);
    rowanspan_cursor_close(cursor);
    rowanspan_close(index);
    ends("large_rows");
}

static void refused(void) {
    static const uint8_t long_key[ROWANSPAN_MAX_KEY_BYTES + 1] = {0};
    static char other;
    rowanspan *index = opened(1, 16, 0);
    uint64_t view = view_of(index, "", rowanspan_any()), wrong;
    rowanspan_cursor *cursor;
    begins();
    for (wrong = 0; wrong < 10; wrong++) {
        if (wrong != view) {
            cursor = (rowanspan_cursor *)&other;
            WANT_SAME(rowanspan_view_cursor_open(index, wrong, NULL, 0, &cursor), ROWANSPAN_NO_SUCH_VIEW);
            WANT(cursor == NULL);
        }
    }
    cursor = (rowanspan_cursor *)&other;
    WANT_SAME(rowanspan_view_cursor_open(index, view, long_key, sizeof long_key, &cursor), ROWANSPAN_KEY_TOO_LONG);
    WANT(cursor == NULL);
    WANT_SAME(rowanspan_view_cursor_open(index, view, long_key, sizeof long_key - 1, &cursor), ROWANSPAN_OK);
    want_end(cursor);
    rowanspan_cursor_close(cursor);
    rowanspan_close(index);
    ends("refused");
}

/* A view that doesn't advance shows its own commit, whatever is put and removed. */
static void changes_of_the_index(void) {
    rowanspan *index = numbered(200);
    rowanspan_cursor *cursor = cursor_over(index, view_of(index, "key", rowanspan_any()), "");
    int i;
    begins();
    want_numbers(cursor, 0, 10);
    for (i = 0; i < 200; i += 2) {
        remove_key(index, key_of(i));
        put_key(index, key_of(i + 1), 7, "changed");
    }
    want_numbers(cursor, 10, 200);
    want_end(cursor);
    rowanspan_cursor_close(cursor);
    rowanspan_close(index);
    ends("changes_of_the_index");
}

/* A view that advances between two pages: the second page is that of the later commit, from the same key on. */
static void the_view_advances(void) {
    rowanspan *index = numbered(200);
    uint64_t view = view_of(index, "key", rowanspan_any());
    rowanspan_cursor *cursor = cursor_over(index, view, "");
    begins();
    want_numbers(cursor, 0, 10);
    remove_key(index, key_of(5));
    put_key(index, "key0001!", 8, "at a place that was passed");
    remove_key(index, key_of(20));
    put_key(index, "key0030!", 8, "in the page that was read");
    remove_key(index, key_of(100));
    put_key(index, "key0101!", 8, "in a later page");
    keep(index);
    want_numbers(cursor, 10, 100);
    want_numbers(cursor, 101, 102);
    want_next(cursor, "key0101!", "in a later page");
    want_numbers(cursor, 102, 200);
    want_end(cursor);
    put_key(index, "keyz", 4, "after the end");
    keep(index);
    want_end(cursor);
    rowanspan_cursor_close(cursor);
    rowanspan_close(index);
    ends("the_view_advances");
}

/* Wants a view that was dropped to be missed, each time, and the pair to stay as it was. */
static void want_dropped(rowanspan_cursor *cursor) {
    struct rowanspan_pair pair, before;
    int i;
    memset(&pair, 0xee, sizeof pair);
    before = pair;
    for (i = 0; i < 2; i++) {
        WANT_SAME(rowanspan_cursor_next(cursor, &pair), ROWANSPAN_NO_SUCH_VIEW);
        WANT(pair.key.at == before.key.at && pair.row.version == before.row.version);
    }
}

/* A view that is dropped before the first row, in the first page, in the last one, and after the end. */
static void the_view_is_dropped(void) {
    static const struct {
        int before, last;
        bool is_whole;
    } cases[] = {{0, 0, false}, {10, AT_ONCE, false}, {AT_ONCE, AT_ONCE, false}, {AT_ONCE + 1, 2 * AT_ONCE, false},
                 {2 * AT_ONCE + 1, 150, true}, {150, 150, true}};
    size_t i;
    begins();
    for (i = 0; i < sizeof cases / sizeof cases[0]; i++) {
        rowanspan *index = numbered(150);
        uint64_t view = view_of(index, "key", rowanspan_any());
        rowanspan_cursor *cursor = cursor_over(index, view, "");
        want_numbers(cursor, 0, cases[i].before);
        WANT_SAME(rowanspan_drop(index, view), ROWANSPAN_OK);
        want_numbers(cursor, cases[i].before, cases[i].last);
        if (cases[i].is_whole) {
            want_end(cursor);
        } else {
            want_dropped(cursor);
        }
        rowanspan_cursor_close(cursor);
        rowanspan_close(index);
    }
    ends("the_view_is_dropped");
}

/* The last key of a page has the greatest length: the next page begins with the least key after it. */
static void greatest_keys(void) {
    rowanspan *index = numbered(AT_ONCE - 1);
    uint8_t key[ROWANSPAN_MAX_KEY_BYTES];
    rowanspan_cursor *cursor;
    begins();
    memset(key, 0xff, sizeof key);
    key[0] = 'l';
    put_key(index, key, sizeof key, "greatest");
    put_key(index, "m", 1, "next");
    cursor = cursor_over(index, view_of(index, "", rowanspan_any()), "");
    want_numbers(cursor, 0, AT_ONCE - 1);
    want_bytes(cursor, key, sizeof key, "greatest");
    want_next(cursor, "m", "next");
    want_end(cursor);
    rowanspan_cursor_close(cursor);
    rowanspan_close(index);
    ends("greatest_keys");
}

int main(void) {
    no_rows();
    rows_in_order();
    from_a_key();
    large_rows();
    refused();
    changes_of_the_index();
    the_view_advances();
    the_view_is_dropped();
    greatest_keys();
    return all_told();
}
