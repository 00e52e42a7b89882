/* Each call on views, commits and nodes by example: what it returns, each status, and what it leaves in a buffer. */
#include "wanting.h"

/* A view of one column, its pages, and what its test and its range refuse. */
static void views(void) {
    rowanspan *index = opened(1, 4, 0);
    uint8_t room[4096];
    uint64_t number = 99, view;
    struct rowanspan_reader reader;
    struct rowanspan_page page;
    struct rowanspan_pair pair;
    struct rowanspan_totals totals;
    begins();
    WANT_SAME(put_text(index, "a1", "\x05", &number), ROWANSPAN_OK);
    WANT_SAME(put_text(index, "b1", "\x06", &number), ROWANSPAN_OK);
    WANT_SAME(rowanspan_build_prefix(index, "a", 1, rowanspan_any(), &view), ROWANSPAN_OK);
    WANT_SAME(view, 1);
    WANT_SAME(rowanspan_apply(index, 0, &number), ROWANSPAN_CURRENT);
    WANT_SAME(number, 0);
    WANT_SAME(rowanspan_apply(index, 9, &number), ROWANSPAN_NO_SUCH_VIEW);
    WANT_SAME(put_text(index, "a2", "\x07", &number), ROWANSPAN_OK);
    WANT_SAME(rowanspan_view(index, view, 3, NULL, 0, 9, room, sizeof room, &number), ROWANSPAN_BEHIND);
    WANT_SAME(number, 2);
    WANT_SAME(rowanspan_totals(index, view, 3, &totals), ROWANSPAN_BEHIND);
    WANT(totals.commit == 2 && totals.row_count == 0 && totals.sum_count == 0);
    WANT_SAME(rowanspan_totals(index, view, 2, &totals), ROWANSPAN_OK);
    WANT(totals.commit == 2 && totals.row_count == 1 && totals.sum_count == 1 && totals.sums[0].lower == 5);
    WANT_SAME(rowanspan_apply(index, view, &number), ROWANSPAN_OK);
    WANT_SAME(number, 3);
    WANT_SAME(rowanspan_apply(index, view, &number), ROWANSPAN_CURRENT);
    WANT_SAME(rowanspan_view(index, view, 3, "a2", 2, 9, room, sizeof room, &number), ROWANSPAN_OK);
    reader = rowanspan_reader(room, number);
    page = rowanspan_read_page(&reader);
    WANT(page.commit == 3 && page.row_count == 2 && page.sum_count == 1 && page.pair_count == 1);
    WANT(page.sums[0].upper == 0 && page.sums[0].lower == 12 && page.sums[1].lower == 0);
    pair = rowanspan_read_pair(&page.pairs);
    WANT(is_text(pair.key, "a2") && pair.row.version == 3);
    WANT(!page.pairs.is_short && page.pairs.left == 0);
    WANT_SAME(rowanspan_drop(index, view), ROWANSPAN_OK);
    WANT_SAME(rowanspan_drop(index, view), ROWANSPAN_NO_SUCH_VIEW);
    WANT_SAME(rowanspan_totals(index, view, 9, &totals), ROWANSPAN_NO_SUCH_VIEW);
    WANT(totals.commit == 0 && totals.row_count == 0 && totals.sum_count == 0 && totals.sums[0].lower == 0);
    rowanspan_close(index);
    ends("views");
}

/* How many rows a view has. */
static uint64_t rows_of(const rowanspan *index, uint64_t view) {
    uint8_t room[4096];
    uint64_t number;
    struct rowanspan_reader reader;
    WANT_SAME(rowanspan_view(index, view, 0, NULL, 0, 9, room, sizeof room, &number), ROWANSPAN_OK);
    reader = rowanspan_reader(room, number);
    return rowanspan_read_page(&reader).row_count;
}

static void builds(void) {
    rowanspan *index = opened(1, 16, 0);
    struct rowanspan_test bad = rowanspan_any(), equals = rowanspan_equals(0, "\x05", 1);
    uint8_t room[65] = {0};
    uint64_t number = 99;
    int i;
    begins();
    bad.kind = 3;
    WANT_SAME(put_text(index, "a1", "\x05", &number), ROWANSPAN_OK);
    WANT_SAME(put_text(index, "b1", "\x05", &number), ROWANSPAN_OK);
    WANT_SAME(put_text(index, "b2", "\x06", &number), ROWANSPAN_OK);
    WANT_SAME(rowanspan_build_prefix(index, "b", 1, rowanspan_any(), &number), ROWANSPAN_OK);
    WANT_SAME(number, 1);
    WANT_SAME(rowanspan_build_from(index, "a2", 2, rowanspan_at_least(0, 6), &number), ROWANSPAN_OK);
    WANT_SAME(number, 2);
    WANT_SAME(rowanspan_build_between(index, "a", 1, "b", 1, equals, &number), ROWANSPAN_OK);
    WANT_SAME(number, 3);
    WANT(rows_of(index, 1) == 2 && rows_of(index, 2) == 1 && rows_of(index, 3) == 1);
    WANT_SAME(rowanspan_build_between(index, "b", 1, "a", 1, rowanspan_any(), &number), ROWANSPAN_BAD_RANGE);
    WANT_SAME(rowanspan_build_prefix(index, "a", 1, bad, &number), ROWANSPAN_NO_SUCH_TEST);
    WANT_SAME(rowanspan_build_from(index, "a", 1, bad, &number), ROWANSPAN_NO_SUCH_TEST);
    WANT_SAME(rowanspan_build_between(index, "a", 1, "b", 1, bad, &number), ROWANSPAN_NO_SUCH_TEST);
    WANT_SAME(rowanspan_build_prefix(index, "a", 1, rowanspan_at_least(1, 0), &number), ROWANSPAN_BAD_COLUMN);
    WANT_SAME(rowanspan_build_prefix(index, "a", 1, rowanspan_equals(0, room, 65), &number), ROWANSPAN_COLUMN_TOO_LONG);
    WANT_SAME(rowanspan_view(index, 2, 0, NULL, 0, 0, room, sizeof room, &number), ROWANSPAN_BAD_LIMIT);
    WANT_SAME(rowanspan_view(index, 9, 0, NULL, 0, 1, room, sizeof room, &number), ROWANSPAN_NO_SUCH_VIEW);
    for (i = 4; i <= 64; i++) {
        WANT_SAME(rowanspan_build_prefix(index, "z", 1, rowanspan_any(), &number), ROWANSPAN_OK);
    }
    WANT_SAME(rowanspan_build_prefix(index, "z", 1, rowanspan_any(), &number), ROWANSPAN_TOO_MANY_VIEWS);
    rowanspan_close(index);
    ends("builds");
}

/* Views that are behind hold the log, which has room for four commits, until they are advanced. */
static void kept_views(void) {
    rowanspan *index = opened(1, 4, 0);
    uint64_t number = 99, view;
    int i;
    begins();
    WANT_SAME(rowanspan_keep_views(index, &number), ROWANSPAN_OK);
    WANT_SAME(number, 0);
    WANT_SAME(put_text(index, "b", "", &number), ROWANSPAN_OK);
    for (i = 0; i < 2; i++) {
        WANT_SAME(rowanspan_build_from(index, NULL, 0, rowanspan_any(), &view), ROWANSPAN_OK);
    }
    WANT_SAME(rowanspan_keep_views(index, &number), ROWANSPAN_OK);
    WANT_SAME(number, 0);
    for (i = 1; i <= 4; i++) {
        WANT_SAME(put_text(index, "c", "", &number), ROWANSPAN_OK);
    }
    WANT_SAME(rowanspan_apply(index, view, &number), ROWANSPAN_OK);
    WANT_SAME(number, 2);
    WANT_SAME(put_text(index, "c", "", &number), ROWANSPAN_FEED_FULL);
    WANT_SAME(number, 1);
    WANT_SAME(rowanspan_remove(index, "c", 1, &number), ROWANSPAN_FEED_FULL);
    WANT_SAME(rowanspan_keep_views(index, &number), ROWANSPAN_OK);
    WANT_SAME(number, 7);
    WANT_SAME(rowanspan_apply(index, 0, &number), ROWANSPAN_CURRENT);
    WANT_SAME(put_text(index, "c", "", &number), ROWANSPAN_OK);
    WANT_SAME(number, 6);
    rowanspan_close(index);
    ends("kept_views");
}

/* A sum above 2^64, of columns that are the greatest of eight bytes. */
static void large_sums(void) {
    static const char greatest[] = "\xff\xff\xff\xff\xff\xff\xff\xff";
    rowanspan *index = opened(1, 4, 0);
    uint8_t room[4096];
    uint64_t number = 99, upper, lower, view, commit;
    struct rowanspan_reader reader;
    struct rowanspan_page page;
    struct rowanspan_totals totals;
    begins();
    WANT_SAME(rowanspan_build_prefix(index, "a", 1, rowanspan_any(), &view), ROWANSPAN_OK);
    WANT_SAME(put_text(index, "a1", greatest, &number), ROWANSPAN_OK);
    WANT_SAME(put_text(index, "a2", greatest, &commit), ROWANSPAN_OK);
    WANT_SAME(rowanspan_keep_views(index, &number), ROWANSPAN_OK);
    WANT_SAME(rowanspan_view(index, view, commit, NULL, 0, 1, room, sizeof room, &number), ROWANSPAN_OK);
    reader = rowanspan_reader(room, number);
    WANT_SAME(rowanspan_read_number(&reader), commit);
    WANT_SAME(rowanspan_read_number(&reader), 2);
    WANT_SAME(rowanspan_read_count(&reader), 1);
    rowanspan_read_sum(&reader, &upper, &lower);
    WANT(upper == 1 && lower == UINT64_MAX - 1);
    reader = rowanspan_reader(room, number);
    page = rowanspan_read_page(&reader);
    WANT(page.sums[0].upper == 1 && page.sums[0].lower == UINT64_MAX - 1);
    WANT_SAME(rowanspan_totals(index, view, commit, &totals), ROWANSPAN_OK);
    WANT(totals.row_count == 2 && totals.sums[0].upper == 1 && totals.sums[0].lower == UINT64_MAX - 1);
    rowanspan_close(index);
    ends("large_sums");
}

/* Each call on views, commits and nodes does the same if the pointer to its number is null. */
static void null_numbers(void) {
    rowanspan *index = opened(1, 2, 2);
    uint8_t room[256];
    begins();
    WANT_SAME(rowanspan_build_prefix(index, "a", 1, rowanspan_any(), NULL), ROWANSPAN_OK);
    WANT_SAME(rowanspan_build_from(index, "a", 1, rowanspan_any(), NULL), ROWANSPAN_OK);
    WANT_SAME(rowanspan_build_between(index, "a", 1, "b", 1, rowanspan_any(), NULL), ROWANSPAN_OK);
    WANT_SAME(put_text(index, "a1", "1", NULL), ROWANSPAN_OK);
    WANT_SAME(put_text(index, "a1", "2", NULL), ROWANSPAN_OK);
    WANT_SAME(put_text(index, "a1", "3", NULL), ROWANSPAN_FEED_FULL);
    WANT_SAME(rowanspan_view(index, 1, 1, NULL, 0, 9, room, sizeof room, NULL), ROWANSPAN_BEHIND);
    WANT_SAME(rowanspan_apply(index, 1, NULL), ROWANSPAN_OK);
    WANT_SAME(rowanspan_keep_views(index, NULL), ROWANSPAN_OK);
    WANT_SAME(rowanspan_apply(index, 0, NULL), ROWANSPAN_CURRENT);
    WANT_SAME(rowanspan_view(index, 1, 2, NULL, 0, 9, room, sizeof room, NULL), ROWANSPAN_OK);
    WANT(room[7] == 2 && room[15] == 1);
    WANT_SAME(rowanspan_view(index, 1, 2, NULL, 0, 9, NULL, 0, NULL), ROWANSPAN_NO_ROOM);
    WANT_SAME(rowanspan_feed(index, 1, 9, room, sizeof room, NULL), ROWANSPAN_OK);
    WANT(room[7] == 1 && room[15] == 2);
    WANT_SAME(rowanspan_advance(index, NULL), ROWANSPAN_OK);
    rowanspan_close(index);
    ends("null_numbers");
}

/* A page that says more columns than there can be is short, and so is one that ends too early. */
static void short_pages(void) {
    static const uint8_t nothing[64] = {0};
    uint8_t answer[400] = {0};
    struct rowanspan_reader reader;
    struct rowanspan_page page;
    begins();
    reader = rowanspan_reader(nothing, 23);
    page = rowanspan_read_page(&reader);
    WANT(page.pairs.is_short && reader.is_short && page.pair_count == 0);
    answer[23] = 16;
    answer[23 + 16 * 16] = 7;
    answer[23 + 16 * 16 + 8] = 9;
    reader = rowanspan_reader(answer, sizeof answer);
    page = rowanspan_read_page(&reader);
    WANT(page.sum_count == 16 && page.sums[15].lower == 7 && page.pair_count == 9 && !page.pairs.is_short);
    answer[23] = 17;
    reader = rowanspan_reader(answer, sizeof answer);
    page = rowanspan_read_page(&reader);
    WANT(page.sum_count == 0 && page.pair_count == 0 && page.pairs.is_short && page.sums[15].lower == 0);
    ends("short_pages");
}

static void feeds(void) {
    rowanspan *index = opened(1, 16, 2);
    uint8_t room[4096];
    uint64_t number = 99;
    struct rowanspan_reader reader;
    struct rowanspan_delta delta;
    begins();
    WANT_SAME(rowanspan_feed(index, 0, 9, room, sizeof room, &number), ROWANSPAN_OK);
    WANT_SAME(number, 8);
    WANT_SAME(put_text(index, "k", "one", &number), ROWANSPAN_OK);
    WANT_SAME(put_text(index, "k", "two", &number), ROWANSPAN_OK);
    WANT_SAME(rowanspan_remove(index, "k", 1, &number), ROWANSPAN_OK);
    WANT_SAME(rowanspan_feed(index, 0, 9, room, sizeof room, &number), ROWANSPAN_BEHIND);
    WANT_SAME(number, 1);
    WANT_SAME(rowanspan_feed(index, 1, 0, room, sizeof room, &number), ROWANSPAN_BAD_LIMIT);
    WANT_SAME(rowanspan_feed(index, 1, 9, room, sizeof room, &number), ROWANSPAN_OK);
    reader = rowanspan_reader(room, number);
    WANT_SAME(rowanspan_read_count(&reader), 2);
    delta = rowanspan_read_delta(&reader);
    WANT_SAME(delta.number, 2);
    WANT(is_text(delta.key, "k"));
    WANT(delta.had_row && delta.has_row);
    WANT_SAME(delta.before.version, 1);
    WANT(is_text(rowanspan_read_bytes(&delta.before.columns), "one"));
    WANT(is_text(rowanspan_read_bytes(&delta.after.columns), "two"));
    delta = rowanspan_read_delta(&reader);
    WANT_SAME(delta.number, 3);
    WANT(delta.had_row && !delta.has_row);
    WANT(!reader.is_short && reader.left == 0);
    WANT_SAME(rowanspan_feed(index, 1, 1, room, sizeof room, &number), ROWANSPAN_OK);
    reader = rowanspan_reader(room, number);
    WANT_SAME(rowanspan_read_count(&reader), 1);
    rowanspan_close(index);
    ends("feeds");
}

/* Layers are made by keys that begin alike. The removes take them out again and free their nodes, so that tidies and a
 * collect find nothing. */
static void tidies(void) {
    rowanspan *index = opened(1, 16, 0);
    char key[40];
    uint64_t number = 99;
    begins();
    memset(key, 'k', sizeof key);
    WANT_SAME(rowanspan_put(index, key, 40, NULL, 0, &number), ROWANSPAN_OK);
    WANT_SAME(rowanspan_put(index, key, 39, NULL, 0, &number), ROWANSPAN_OK);
    WANT_SAME(rowanspan_nodes(index), 10);
    WANT_SAME(rowanspan_remove(index, key, 40, &number), ROWANSPAN_OK);
    WANT_SAME(rowanspan_nodes(index), 10);
    WANT_SAME(rowanspan_remove(index, key, 39, &number), ROWANSPAN_OK);
    WANT_SAME(number, 4);
    WANT_SAME(rowanspan_nodes(index), 2);
    WANT_SAME(rowanspan_tidy(index, key, 40, &number), ROWANSPAN_OK);
    WANT_SAME(number, ROWANSPAN_TIDIED_NOTHING);
    WANT_SAME(rowanspan_advance(index, &number), ROWANSPAN_OK);
    WANT_SAME(number, 1);
    WANT_SAME(rowanspan_collect(index), 0);
    rowanspan_close(index);
    ends("tidies");
}

/* A window moves: each move puts a row at its end and removes the one at its front. Its nodes stay as few as they
 * were. */
static void window(void) {
    rowanspan *index = opened(1, 16, 0);
    unsigned char key[8] = {0};
    unsigned row;
    begins();
    for (row = 0; row < 20000; row++) {
        key[6] = (unsigned char)(row >> 8);
        key[7] = (unsigned char)row;
        WANT_SAME(rowanspan_put(index, key, sizeof key, NULL, 0, NULL), ROWANSPAN_OK);
        if (row >= 100) {
            key[6] = (unsigned char)((row - 100) >> 8);
            key[7] = (unsigned char)(row - 100);
            WANT_SAME(rowanspan_remove(index, key, sizeof key, NULL), ROWANSPAN_OK);
        }
    }
    WANT(rowanspan_nodes(index) < 30);
    rowanspan_close(index);
    ends("window");
}

/* The key of a number: eight bytes, or sixteen, of which the first eight are those of fifteen other numbers. */
static size_t key_of(unsigned number, int is_long, unsigned char *key) {
    unsigned first = is_long ? number / 16 : number;
    memset(key, 0, 16);
    key[6] = (unsigned char)(first >> 8);
    key[7] = (unsigned char)first;
    key[14] = (unsigned char)(number >> 8);
    key[15] = (unsigned char)number;
    return is_long ? 16 : 8;
}

/* Puts a row for each number below `many`, and then removes each of them, `step` on from the last one. */
static void put_and_remove(rowanspan *index, int is_long, unsigned many, unsigned step) {
    unsigned char key[16];
    unsigned count;
    for (count = 0; count < many; count++) {
        WANT_SAME(rowanspan_put(index, key, key_of(count, is_long, key), NULL, 0, NULL), ROWANSPAN_OK);
    }
    for (count = 0; count < many; count++) {
        size_t length = key_of(count * step % many, is_long, key);
        WANT_SAME(rowanspan_remove(index, key, length, NULL), ROWANSPAN_OK);
    }
}

/* All nodes but the first two come back if the rows are removed in the order of their keys, against it, or in steps that
 * have no common divisor with their number. */
static void removed_in_any_order(void) {
    static const unsigned steps[] = {1, 600, 7, 331};
    unsigned at;
    begins();
    for (at = 0; at < 8; at++) {
        rowanspan *index = opened(1, 16, 0);
        put_and_remove(index, at % 2, 601, steps[at / 2]);
        WANT_SAME(rowanspan_nodes(index), 2);
        rowanspan_close(index);
    }
    ends("removed in any order");
}

/* A stretch of rows is removed. After each remove a tidy may find an interior with one child, and no empty node. */
static void removed_stretch(void) {
    rowanspan *index = opened(1, 16, 0);
    unsigned char key[16];
    unsigned number;
    begins();
    for (number = 0; number < 200; number++) {
        WANT_SAME(rowanspan_put(index, key, key_of(number, 1, key), NULL, 0, NULL), ROWANSPAN_OK);
    }
    for (number = 40; number < 160; number++) {
        uint64_t tidied = 99;
        size_t length = key_of(number, 1, key);
        WANT_SAME(rowanspan_remove(index, key, length, NULL), ROWANSPAN_OK);
        WANT_SAME(rowanspan_tidy(index, key, length, &tidied), ROWANSPAN_OK);
        WANT(tidied == ROWANSPAN_TIDIED_NOTHING || tidied == ROWANSPAN_TIDIED_LONE_CHILD ||
             tidied == ROWANSPAN_TIDIED_LONE_ROOT_CHILD);
    }
    WANT_SAME(rowanspan_len(index), 80);
    rowanspan_close(index);
    ends("removed stretch");
}

int main(void) {
    views();
    builds();
    kept_views();
    large_sums();
    null_numbers();
    short_pages();
    feeds();
    tidies();
    window();
    removed_in_any_order();
    removed_stretch();
    return all_told();
}
