/* Memory that ends at each allocation in turn, and memory that stays flat. It runs with wanting_memory.c preloaded. */
#define _GNU_SOURCE
#include <dlfcn.h>

#include "wanting.h"

static void (*memory_ends_after)(long);
static long (*memory_held)(void);

/* The rows, the commits and the views that an index shows, as bytes; they are read while there is memory. */
struct shown {
    uint8_t rows[4096], page[4096];
    uint64_t rows_length, page_length, commits;
};

static struct shown shown_now(rowanspan *index, uint64_t view) {
    static const struct shown nothing;
    struct shown it = nothing;
    WANT_SAME(rowanspan_range(index, NULL, 0, 1000, NULL, 0, it.rows, sizeof it.rows, &it.rows_length), ROWANSPAN_OK);
    WANT_SAME(rowanspan_view(index, view, 0, NULL, 0, 1000, it.page, sizeof it.page, &it.page_length), ROWANSPAN_OK);
    it.commits = rowanspan_commits(index);
    return it;
}

static bool is_same(const struct shown *a, const struct shown *b) {
    return a->rows_length == b->rows_length && a->page_length == b->page_length && a->commits == b->commits
        && memcmp(a->rows, b->rows, sizeof a->rows) == 0 && memcmp(a->page, b->page, sizeof a->page) == 0;
}

enum { KINDS = 14 };

/* A count of rows in two layers. */
static rowanspan_status count_rows(const rowanspan *index, uint64_t *number) {
    uint32_t count = 99;
    rowanspan_status status = rowanspan_count(index, "aaaaaaaa", 8, "k09", 3, UINT32_MAX, &count);
    *number = count;
    WANT(status != ROWANSPAN_OK || count == 10);
    return status;
}

/* The rows of three keys, of which one has none. */
static rowanspan_status get_rows(const rowanspan *index, uint8_t *room, size_t size, uint64_t *number) {
    struct rowanspan_bytes keys[] = {rowanspan_bytes("k03", 3), rowanspan_bytes("", 0), rowanspan_bytes("k05", 3)};
    return rowanspan_get_many(index, keys, 3, NULL, 0, room, size, number);
}

/* A call of each kind that allocates. The keys continue in new layers, and nodes are full. */
static rowanspan_status call_of(rowanspan *index, int kind, uint64_t view, uint8_t *room, size_t size,
                                uint64_t *number) {
    struct rowanspan_set set = rowanspan_set(0, "value", 5);
    switch (kind) {
    case 0: return rowanspan_put(index, "aaaaaaaabbbbbbbbcccc", 20, &set, 1, number);
    case 1: return rowanspan_put(index, "k05", 3, &set, 1, number);
    case 2: return rowanspan_put(index, "k17", 3, &set, 1, number);
    case 3: return rowanspan_remove(index, "k07", 3, number);
    case 4: return rowanspan_get(index, "k03", 3, (const uint8_t *)"\0", 1, room, size, number);
    case 5: return rowanspan_range(index, "k03", 3, 5, NULL, 0, room, size, number);
    case 6: return rowanspan_build_between(index, "a", 1, "z", 1, rowanspan_equals(0, "value", 5), number);
    case 7: return rowanspan_view(index, view, 0, NULL, 0, 5, room, size, number);
    case 8: return rowanspan_feed(index, 0, 5, room, size, number);
    case 9: return rowanspan_get_column(index, "k03", 3, 0, room, size, number);
    case 10: return rowanspan_range_back(index, "k09", 3, 5, NULL, 0, room, size, number);
    case 11: return count_rows(index, number);
    case 12: return get_rows(index, room, size, number);
    default: return rowanspan_apply(index, view, number);
    }
}

static rowanspan *filled(uint64_t *view) {
    rowanspan *index = opened(1, 64, 64);
    char key[8];
    int i;
    WANT_SAME(put_text(index, "aaaaaaaabbbbbbbbdddd", "v", NULL), ROWANSPAN_OK);
    WANT_SAME(rowanspan_build_prefix(index, "k", 1, rowanspan_any(), view), ROWANSPAN_OK);
    for (i = 0; i < 14; i++) {
        snprintf(key, sizeof key, "k%02d", i);
        WANT_SAME(put_text(index, key, "v", NULL), ROWANSPAN_OK);
    }
    return index;
}

/* A call for which memory ends after some allocations. If it is refused, the rows, the commits and the views are as
 * they were, and the call is done when there is memory again. */
static rowanspan_status call_without_memory(int kind, long allocations) {
    uint8_t room[4096];
    uint64_t number = 99, view = 0;
    rowanspan *index = filled(&view);
    struct shown before = shown_now(index, view), after;
    rowanspan_status status;
    memset(room, 0xee, sizeof room);
    memory_ends_after(allocations);
    status = call_of(index, kind, view, room, sizeof room, &number);
    memory_ends_after(-1);
    if (status == ROWANSPAN_NO_MEMORY) {
        WANT(number == 0 && room[0] == 0xee);
        WANT_SAME(rowanspan_len(index), 15);
        after = shown_now(index, view);
        WANT(is_same(&before, &after));
        WANT_SAME(call_of(index, kind, view, room, sizeof room, &number), ROWANSPAN_OK);
    }
    rowanspan_close(index);
    return status;
}

/* The allocations of a call are refused from the first on, then from the second on, until it is done. */
static void out_of_memory(void) {
    int kind, refused = 0;
    begins();
    for (kind = 0; kind < KINDS; kind++) {
        long allocations = 0;
        rowanspan_status status = call_without_memory(kind, allocations);
        while (status == ROWANSPAN_NO_MEMORY && allocations < 500) {
            refused++;
            status = call_without_memory(kind, ++allocations);
        }
        WANT_SAME(status, ROWANSPAN_OK);
    }
    printf("%d calls were refused as out of memory\n", refused);
    WANT(refused > KINDS);
    ends("out_of_memory");
}

/* An open that is refused holds no memory, and answers limits before memory. */
static void no_memory_to_open(void) {
    long allocations, before = memory_held();
    rowanspan_status status = ROWANSPAN_NO_MEMORY;
    begins();
    for (allocations = 0; status == ROWANSPAN_NO_MEMORY && allocations < 100; allocations++) {
        rowanspan *index;
        memory_ends_after(allocations);
        status = rowanspan_open(&index, 1, 16, 0);
        memory_ends_after(-1);
        WANT((index != NULL) == (status == ROWANSPAN_OK));
        WANT(index != NULL || memory_held() == before);
        rowanspan_close(index);
        WANT_SAME(memory_held(), before);
        memory_ends_after(allocations);
        WANT_SAME(rowanspan_open(&index, 1, 0, 0), ROWANSPAN_BAD_LIMIT);
        memory_ends_after(-1);
    }
    WANT(allocations > 2);
    WANT_SAME(status, ROWANSPAN_OK);
    ends("no_memory_to_open");
}

enum { COLUMNS = 16, BYTES = 64, LENGTH = 8 + 8 + COLUMNS * (8 + BYTES) };

/* Puts a row whose columns all have BYTES bytes, those of column 0 'a', of column 1 'b'. */
static void put_greatest(rowanspan *index, const char *key) {
    struct rowanspan_set sets[COLUMNS];
    uint8_t bytes[COLUMNS][BYTES];
    int column;
    for (column = 0; column < COLUMNS; column++) {
        memset(bytes[column], 'a' + column, BYTES);
        sets[column] = rowanspan_set((uint8_t)column, bytes[column], BYTES);
    }
    WANT_SAME(rowanspan_put(index, key, strlen(key), sets, COLUMNS, NULL), ROWANSPAN_OK);
}

static void want_greatest(const uint8_t *room, uint64_t length, uint64_t version) {
    struct rowanspan_reader reader = rowanspan_reader(room, length);
    struct rowanspan_row row = rowanspan_read_row(&reader);
    int column, i;
    WANT_SAME(row.version, version);
    WANT_SAME(row.column_count, COLUMNS);
    for (column = 0; column < COLUMNS; column++) {
        struct rowanspan_bytes got = rowanspan_read_bytes(&row.columns);
        WANT_SAME(got.length, BYTES);
        for (i = 0; i < BYTES; i++) {
            WANT_SAME(got.at[i], 'a' + column);
        }
    }
    WANT(!reader.is_short && reader.left == 0);
}

/* How many allocations a get of this key needs; the answer is in the buffer, and nothing after it. */
static long allocations_of_get(const rowanspan *index, const char *key, uint64_t version) {
    uint8_t room[LENGTH + 1];
    uint64_t number;
    rowanspan_status status;
    long allocations = -1;
    memset(room, 0xee, sizeof room);
    do {
        WANT_SAME(room[0], 0xee);
        memory_ends_after(++allocations);
        status = rowanspan_get(index, key, strlen(key), NULL, 0, room, LENGTH, &number);
        memory_ends_after(-1);
    } while (status == ROWANSPAN_NO_MEMORY && allocations < 10);
    WANT_SAME(status, ROWANSPAN_OK);
    WANT_SAME(number, LENGTH);
    WANT_SAME(room[LENGTH], 0xee);
    want_greatest(room, number, version);
    return allocations;
}

/* A get takes no memory: the row goes from the index into the buffer. Nor does one whose buffer is too small, nor one
 * of a column. */
static void gets_take_no_memory(void) {
    static const char *const keys[2] = {"", "aaaaaaaabbbbbbbbcccccccc"};
    rowanspan *index = opened(COLUMNS, 16, 0);
    uint8_t room[LENGTH] = {0};
    uint64_t number;
    int i;
    begins();
    for (i = 0; i < 2; i++) {
        put_greatest(index, keys[i]);
        room[0] = 0xee;
        memory_ends_after(0);
        WANT_SAME(rowanspan_get(index, keys[i], strlen(keys[i]), NULL, 0, room, LENGTH - 1, &number),
                  ROWANSPAN_NO_ROOM);
        WANT_SAME(number, LENGTH);
        WANT_SAME(room[0], 0xee);
        WANT_SAME(rowanspan_get_column(index, keys[i], strlen(keys[i]), 1, room, BYTES, &number), ROWANSPAN_OK);
        memory_ends_after(-1);
        WANT(number == BYTES && room[0] == 'b' && room[BYTES - 1] == 'b' && room[BYTES] != 'b');
        room[0] = 0xee;
        WANT_SAME(allocations_of_get(index, keys[i], (uint64_t)i + 1), 0);
    }
    rowanspan_close(index);
    ends("gets_take_no_memory");
}

/* The totals of a view take no memory. */
static void totals_take_no_memory(void) {
    uint64_t view;
    rowanspan *index = filled(&view);
    struct rowanspan_totals totals;
    begins();
    memory_ends_after(0);
    WANT_SAME(rowanspan_totals(index, view, 0, &totals), ROWANSPAN_OK);
    memory_ends_after(-1);
    WANT(totals.commit == 1 && totals.row_count == 0 && totals.sum_count == 1);
    WANT_SAME(rowanspan_keep_views(index, NULL), ROWANSPAN_OK);
    memory_ends_after(0);
    WANT_SAME(rowanspan_totals(index, view, 15, &totals), ROWANSPAN_OK);
    memory_ends_after(-1);
    WANT(totals.commit == 15 && totals.row_count == 14 && totals.sums[0].lower == 14 * 'v');
    rowanspan_close(index);
    ends("totals_take_no_memory");
}

/* The kinds of cursors. */
enum kind { OVER_ROWS, BACK, OVER_VIEW };

/* Opens a cursor from a key on, or before it, over the rows of the index or of the view. */
static rowanspan_status open_cursor(const rowanspan *index, enum kind kind, uint64_t view, const char *key,
                                    size_t length, rowanspan_cursor **cursor) {
    switch (kind) {
    case BACK: return rowanspan_cursor_open_back(index, key, length, NULL, 0, cursor);
    case OVER_VIEW: return rowanspan_view_cursor_open(index, view, key, length, cursor);
    default: return rowanspan_cursor_open(index, key, length, NULL, 0, cursor);
    }
}

/* A cursor that is refused holds no memory, and its limits are answered before memory. */
static void no_memory_to_open_a_cursor(enum kind kind) {
    static const char *const names[] = {"no_memory_to_open_a_cursor", "no_memory_to_open_a_cursor_back",
                                        "no_memory_to_open_a_cursor_over_a_view"};
    static const uint8_t none_such[1] = {1};
    static const char long_key[ROWANSPAN_MAX_KEY_BYTES + 1];
    rowanspan *index = opened(1, 16, 0);
    uint64_t view = 0;
    long allocations, before;
    rowanspan_status status = ROWANSPAN_NO_MEMORY;
    begins();
    WANT_SAME(rowanspan_build_prefix(index, NULL, 0, rowanspan_any(), &view), ROWANSPAN_OK);
    before = memory_held();
    for (allocations = 0; status == ROWANSPAN_NO_MEMORY && allocations < 100; allocations++) {
        rowanspan_cursor *cursor;
        memory_ends_after(allocations);
        status = open_cursor(index, kind, view, "key", 3, &cursor);
        memory_ends_after(-1);
        WANT((cursor != NULL) == (status == ROWANSPAN_OK));
        rowanspan_cursor_close(cursor);
        WANT_SAME(memory_held(), before);
        memory_ends_after(allocations);
        WANT_SAME(rowanspan_cursor_open(index, "key", 3, none_such, 1, &cursor), ROWANSPAN_BAD_COLUMN);
        WANT_SAME(rowanspan_cursor_open_back(index, "key", 3, none_such, 1, &cursor), ROWANSPAN_BAD_COLUMN);
        WANT_SAME(rowanspan_view_cursor_open(index, 9, "key", 3, &cursor), ROWANSPAN_NO_SUCH_VIEW);
        WANT_SAME(open_cursor(index, kind, view, long_key, sizeof long_key, &cursor), ROWANSPAN_KEY_TOO_LONG);
        memory_ends_after(-1);
    }
    WANT(allocations > 2);
    WANT_SAME(status, ROWANSPAN_OK);
    rowanspan_close(index);
    ends(names[kind]);
}

enum { CURSOR_ROWS = 150 };

/* The row of this number, for which memory ends after no allocation, then after one, until the cursor returns it.
 * Returns how often it was refused. */
static long refusals_of_next(rowanspan_cursor *cursor, int number) {
    struct rowanspan_pair pair, before;
    rowanspan_status status;
    char key[8];
    long refusals = -1;
    memset(&pair, 0xee, sizeof pair);
    before = pair;
    do {
        WANT(pair.key.at == before.key.at && pair.row.version == before.row.version);
        memory_ends_after(++refusals);
        status = rowanspan_cursor_next(cursor, &pair);
        memory_ends_after(-1);
    } while (status == ROWANSPAN_NO_MEMORY && refusals < 5000);
    snprintf(key, sizeof key, "k%03d", number);
    WANT_SAME(status, ROWANSPAN_OK);
    WANT(status != ROWANSPAN_OK || is_text(pair.key, key));
    WANT(status != ROWANSPAN_OK || pair.row.version == (uint64_t)number + 1);
    return refusals;
}

/* A cursor that was refused memory returns the same row when it is asked again. It allocates only when it reads rows,
 * and not at the end. Its buffer, which has to grow here, is freed when it is closed. */
static void no_memory_for_a_cursor(enum kind kind) {
    static const char *const names[] = {"no_memory_for_a_cursor", "no_memory_for_a_cursor_back",
                                        "no_memory_for_a_cursor_over_a_view"};
    rowanspan *index = opened(COLUMNS, 1024, 0);
    rowanspan_cursor *cursor;
    struct rowanspan_pair pair;
    rowanspan_status status;
    uint64_t view = 0;
    char key[8];
    long before;
    int i;
    begins();
    for (i = 0; i < CURSOR_ROWS; i++) {
        snprintf(key, sizeof key, "k%03d", i);
        put_greatest(index, key);
    }
    WANT_SAME(rowanspan_build_prefix(index, NULL, 0, rowanspan_any(), &view), ROWANSPAN_OK);
    before = memory_held();
    WANT_SAME(open_cursor(index, kind, view, NULL, 0, &cursor), ROWANSPAN_OK);
    for (i = 0; i < CURSOR_ROWS; i++) {
        WANT((refusals_of_next(cursor, kind == BACK ? CURSOR_ROWS - 1 - i : i) > 0) == (i % 64 == 0));
    }
    memory_ends_after(0);
    status = rowanspan_cursor_next(cursor, &pair);
    memory_ends_after(-1);
    WANT_SAME(status, ROWANSPAN_ABSENT);
    rowanspan_cursor_close(cursor);
    WANT_SAME(memory_held(), before);
    rowanspan_close(index);
    ends(names[kind]);
}

/* What an index held is freed when it is closed, a thousand times. */
static void opened_and_closed(void) {
    long before;
    int i;
    uint64_t view;
    rowanspan *index = filled(&view);
    begins();
    rowanspan_close(index);
    before = memory_held();
    for (i = 0; i < 1000; i++) {
        index = filled(&view);
        rowanspan_close(index);
        WANT_SAME(memory_held(), before);
    }
    ends("opened_and_closed");
}

/* A remove frees the columns of its row, also if its node keeps rows. */
static void removed_rows_are_freed(void) {
    static const uint8_t column[ROWANSPAN_MAX_COLUMN_BYTES];
    struct rowanspan_set set = rowanspan_set(0, column, sizeof column);
    rowanspan *index;
    long before;
    int i;
    begins();
    WANT_SAME(rowanspan_open(&index, 1, 16, 0), ROWANSPAN_OK);
    for (i = 0; i < 10; i++) {
        WANT_SAME(rowanspan_put(index, &"0123456789"[i], 1, &set, 1, NULL), ROWANSPAN_OK);
    }
    before = memory_held();
    for (i = 1; i < 10; i += 2) {
        WANT_SAME(rowanspan_remove(index, &"0123456789"[i], 1, NULL), ROWANSPAN_OK);
    }
    WANT(memory_held() <= before - 5);
    rowanspan_close(index);
    ends("removed_rows_are_freed");
}

int main(void) {
    int kind;
    memory_ends_after = (void (*)(long))dlsym(RTLD_DEFAULT, "memory_ends_after");
    memory_held = (long (*)(void))dlsym(RTLD_DEFAULT, "memory_held");
    if (!memory_ends_after || !memory_held) {
        printf("memory: wanting_memory.c is to be preloaded\n0 passed, 1 failed\n");
        return 1;
    }
    setvbuf(stdout, NULL, _IONBF, 0);
    out_of_memory();
    no_memory_to_open();
    gets_take_no_memory();
    totals_take_no_memory();
    for (kind = OVER_ROWS; kind <= OVER_VIEW; kind++) {
        no_memory_to_open_a_cursor((enum kind)kind);
        no_memory_for_a_cursor((enum kind)kind);
    }
    opened_and_closed();
    removed_rows_are_freed();
    return all_told();
}
