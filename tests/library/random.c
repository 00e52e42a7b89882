/* 20,000 calls by chance on an index of two columns, whose answers have to be those of a plain map: a sorted array. */
#include "wanting.h"

enum { COLUMNS = 2, MOST_ROWS = 512, MOST_KEY = 24, MOST_COLUMN = 9, CALLS = 20000, KEEP = 8 };

struct plain_row {
    uint8_t key[MOST_KEY];
    size_t key_length;
    uint64_t version;
    uint8_t column[COLUMNS][MOST_COLUMN];
    size_t column_length[COLUMNS];
    /* whether the cursor has yet to return it: it was there when the cursor was opened, and has been since */
    bool is_to_come;
};

struct plain_delta {
    uint64_t number;
    bool had_row, has_row;
    struct plain_row before, after;
};

static struct plain_row rows[MOST_ROWS];
static size_t row_count;
static uint64_t commits;
static struct plain_delta deltas[KEEP];

static uint64_t chance_state = 88172645463325252u;

static uint64_t chance(uint64_t below) {
    chance_state ^= chance_state << 13;
    chance_state ^= chance_state >> 7;
    chance_state ^= chance_state << 17;
    return chance_state % below;
}

/* Keys of the letters a and b, in up to three slices, many of which begin alike. */
static size_t chance_key(uint8_t *key) {
    size_t length = chance(4) == 0 ? chance(MOST_KEY) : chance(5), i;
    for (i = 0; i < length; i++) {
        key[i] = i < 16 && length > 8 ? 'a' : (uint8_t)('a' + chance(3));
    }
    return length;
}

static int compare(const uint8_t *a, size_t a_length, const uint8_t *b, size_t b_length) {
    size_t shorter = a_length < b_length ? a_length : b_length;
    int order = shorter ? memcmp(a, b, shorter) : 0;
    return order ? order : (a_length > b_length) - (a_length < b_length);
}

/* The place of the first row at or after a key. */
static size_t place_of(const uint8_t *key, size_t length) {
    size_t at = 0;
    while (at < row_count && compare(rows[at].key, rows[at].key_length, key, length) < 0) {
        at++;
    }
    return at;
}

static bool is_at(size_t at, const uint8_t *key, size_t length) {
    return at < row_count && compare(rows[at].key, rows[at].key_length, key, length) == 0;
}

static bool same_row(struct rowanspan_row got, const struct plain_row *wanted) {
    int i;
    if (got.version != wanted->version || got.column_count != COLUMNS) {
        return false;
    }
    for (i = 0; i < COLUMNS; i++) {
        struct rowanspan_bytes bytes = rowanspan_read_bytes(&got.columns);
        if (bytes.length != wanted->column_length[i] || memcmp(bytes.at, wanted->column[i], bytes.length) != 0) {
            return false;
        }
    }
    return true;
}

static void plain_put(const uint8_t *key, size_t length, const struct rowanspan_set *sets, size_t count) {
    size_t at = place_of(key, length), i;
    struct plain_delta *delta = &deltas[++commits % KEEP];
    delta->number = commits;
    delta->had_row = is_at(at, key, length);
    delta->has_row = true;
    if (delta->had_row) {
        delta->before = rows[at];
    } else {
        memmove(&rows[at + 1], &rows[at], (row_count - at) * sizeof rows[0]);
        memset(&rows[at], 0, sizeof rows[0]);
        memcpy(rows[at].key, key, length);
        rows[at].key_length = length;
        row_count++;
    }
    rows[at].version = commits;
    for (i = 0; i < count; i++) {
        memcpy(rows[at].column[sets[i].column], sets[i].at, sets[i].length);
        rows[at].column_length[sets[i].column] = sets[i].length;
    }
    delta->after = rows[at];
}

static void plain_remove(size_t at) {
    struct plain_delta *delta = &deltas[++commits % KEEP];
    delta->number = commits;
    delta->had_row = true;
    delta->has_row = false;
    delta->before = rows[at];
    row_count--;
    memmove(&rows[at], &rows[at + 1], (row_count - at) * sizeof rows[0]);
}

static void put_once(rowanspan *index) {
    uint8_t key[MOST_KEY], bytes[COLUMNS][MOST_COLUMN];
    size_t length = chance_key(key), count = chance(COLUMNS + 1), i, j;
    struct rowanspan_set sets[COLUMNS];
    uint64_t commit;
    for (i = 0; i < count; i++) {
        size_t column_length = chance(MOST_COLUMN + 1);
        for (j = 0; j < column_length; j++) {
            bytes[i][j] = (uint8_t)chance(256);
        }
        sets[i] = rowanspan_set((uint8_t)(count == 1 ? chance(COLUMNS) : i), bytes[i], column_length);
    }
    WANT_SAME(rowanspan_put(index, key, length, sets, count, &commit), ROWANSPAN_OK);
    plain_put(key, length, sets, count);
    WANT_SAME(commit, commits);
}

/* A conditional put, over the row that is there or over one that isn't. */
static void put_if_once(rowanspan *index) {
    uint8_t key[MOST_KEY];
    size_t length = chance_key(key), at = place_of(key, length);
    struct rowanspan_set set = rowanspan_set((uint8_t)chance(COLUMNS), "if", 2);
    uint64_t found = is_at(at, key, length) ? rows[at].version : 0, version = found + chance(2), commit;
    rowanspan_status status = rowanspan_put_if(index, key, length, &set, 1, version, &commit);
    if (version == found) {
        WANT_SAME(status, ROWANSPAN_OK);
        plain_put(key, length, &set, 1);
        WANT_SAME(commit, commits);
    } else {
        WANT_SAME(status, ROWANSPAN_OTHER_VERSION);
        WANT_SAME(commit, found);
    }
}

static void remove_once(rowanspan *index) {
    uint8_t key[MOST_KEY];
    size_t length = chance_key(key), at = place_of(key, length);
    uint64_t commit;
    rowanspan_status status = rowanspan_remove(index, key, length, &commit);
    if (is_at(at, key, length)) {
        WANT_SAME(status, ROWANSPAN_OK);
        plain_remove(at);
        WANT_SAME(commit, commits);
    } else {
        WANT_SAME(status, ROWANSPAN_ABSENT);
    }
}

static void get_once(rowanspan *index) {
    uint8_t key[MOST_KEY], room[64];
    size_t length = chance_key(key), at = place_of(key, length);
    uint64_t answered;
    rowanspan_status status = rowanspan_get(index, key, length, NULL, 0, room, sizeof room, &answered);
    if (is_at(at, key, length)) {
        struct rowanspan_reader reader = rowanspan_reader(room, answered);
        WANT_SAME(status, ROWANSPAN_OK);
        WANT(same_row(rowanspan_read_row(&reader), &rows[at]));
        WANT(!reader.is_short && reader.left == 0);
    } else {
        WANT_SAME(status, ROWANSPAN_ABSENT);
    }
}

static void get_column_once(rowanspan *index) {
    uint8_t key[MOST_KEY], room[MOST_COLUMN], column = (uint8_t)chance(COLUMNS);
    size_t length = chance_key(key), at = place_of(key, length);
    uint64_t bytes;
    rowanspan_status status = rowanspan_get_column(index, key, length, column, room, sizeof room, &bytes);
    WANT_SAME(status, is_at(at, key, length) ? ROWANSPAN_OK : ROWANSPAN_ABSENT);
    WANT_SAME(bytes, status == ROWANSPAN_OK ? rows[at].column_length[column] : 0);
    WANT(status != ROWANSPAN_OK || memcmp(room, rows[at].column[column], bytes) == 0);
}

static uint8_t answer[1 << 16];

/* Wants the rows of an answer, of which there are `count`, to be those from a place on that pass. */
static void want_rows(struct rowanspan_reader *reader, size_t count, size_t at, size_t limit,
                      bool (*passes)(const struct plain_row *)) {
    size_t seen = 0;
    for (; at < row_count && seen < limit; at++) {
        if (passes(&rows[at])) {
            struct rowanspan_pair pair = rowanspan_read_pair(reader);
            WANT(seen < count && compare(pair.key.at, pair.key.length, rows[at].key, rows[at].key_length) == 0);
            WANT(same_row(pair.row, &rows[at]));
            seen++;
        }
    }
    WANT_SAME(count, seen);
    WANT(!reader->is_short && reader->left == 0);
}

static bool each(const struct plain_row *row) {
    (void)row;
    return true;
}

static void range_once(rowanspan *index) {
    uint8_t key[MOST_KEY];
    size_t length = chance_key(key);
    uint16_t limit = (uint16_t)(1 + chance(40));
    uint64_t answered;
    struct rowanspan_reader reader;
    size_t count;
    WANT_SAME(rowanspan_range(index, key, length, limit, NULL, 0, answer, sizeof answer, &answered), ROWANSPAN_OK);
    reader = rowanspan_reader(answer, answered);
    count = rowanspan_read_count(&reader);
    want_rows(&reader, count, place_of(key, length), limit, each);
}

/* A cursor that is open while the other calls are made, and the key after which its next one has to be. */
static rowanspan_cursor *cursor;
static bool has_last;
static struct plain_row last;

static void open_cursor(rowanspan *index) {
    uint8_t key[MOST_KEY];
    size_t length = chance_key(key), first = place_of(key, length), i;
    WANT_SAME(rowanspan_cursor_open(index, key, length, NULL, 0, &cursor), ROWANSPAN_OK);
    has_last = false;
    for (i = 0; i < row_count; i++) {
        rows[i].is_to_come = i >= first;
    }
}

/* Wants no row before this place to be yet to come. */
static void want_none_to_come(size_t before) {
    size_t i;
    for (i = 0; i < before; i++) {
        WANT(!rows[i].is_to_come);
    }
}

static void want_pair(struct rowanspan_pair pair) {
    size_t at = place_of(pair.key.at, pair.key.length);
    WANT(!has_last || compare(last.key, last.key_length, pair.key.at, pair.key.length) < 0);
    want_none_to_come(at);
    if (is_at(at, pair.key.at, pair.key.length)) {
        WANT(pair.row.version <= rows[at].version);
        WANT(pair.row.version < rows[at].version || same_row(pair.row, &rows[at]));
        rows[at].is_to_come = false;
    }
    has_last = true;
    memcpy(last.key, pair.key.at, pair.key.length);
    last.key_length = pair.key.length;
}

/* Some rows of the cursor; it is opened again when it has no more. */
static void cursor_once(rowanspan *index) {
    uint64_t count = 1 + chance(30);
    for (; count > 0; count--) {
        struct rowanspan_pair pair;
        rowanspan_status status = rowanspan_cursor_next(cursor, &pair);
        if (status == ROWANSPAN_OK) {
            want_pair(pair);
        } else {
            WANT_SAME(status, ROWANSPAN_ABSENT);
            want_none_to_come(row_count);
            rowanspan_cursor_close(cursor);
            open_cursor(index);
        }
    }
}

static uint64_t amount(const struct plain_row *row, int column) {
    uint64_t sum = 0;
    size_t i;
    if (row->column_length[column] > 8) {
        return 0;
    }
    for (i = 0; i < row->column_length[column]; i++) {
        sum = sum << 8 | row->column[column][i];
    }
    return sum;
}

/* What the view shows: of the keys that begin with a, those whose column 1 amounts to 300 at least. */
static bool is_shown(const struct plain_row *row) {
    return row->key_length > 0 && row->key[0] == 'a' && amount(row, 1) >= 300;
}

/* Wants the totals of the view. */
static void want_totals(const struct rowanspan_totals *totals) {
    uint64_t count = 0, sums[COLUMNS][2] = {{0}};
    size_t i;
    int column;
    for (i = 0; i < row_count; i++) {
        for (column = 0; is_shown(&rows[i]) && column < COLUMNS; column++) {
            sums[column][1] += amount(&rows[i], column);
            sums[column][0] += sums[column][1] < amount(&rows[i], column);
        }
        count += is_shown(&rows[i]);
    }
    WANT_SAME(totals->commit, commits);
    WANT_SAME(totals->row_count, count);
    WANT_SAME(totals->sum_count, COLUMNS);
    for (column = 0; column < COLUMNS; column++) {
        WANT(totals->sums[column].upper == sums[column][0] && totals->sums[column].lower == sums[column][1]);
    }
}

static void page_once(rowanspan *index, uint64_t view) {
    uint8_t key[MOST_KEY];
    size_t length = chance_key(key);
    uint64_t answered;
    struct rowanspan_reader reader;
    struct rowanspan_page page;
    struct rowanspan_totals totals;
    WANT_SAME(rowanspan_keep_views(index, NULL), ROWANSPAN_OK);
    WANT_SAME(rowanspan_view(index, view, commits, key, length, 50, answer, sizeof answer, &answered), ROWANSPAN_OK);
    reader = rowanspan_reader(answer, answered);
    page = rowanspan_read_page(&reader);
    WANT_SAME(rowanspan_totals(index, view, commits, &totals), ROWANSPAN_OK);
    want_totals(&totals);
    WANT(page.commit == commits && page.row_count == totals.row_count && page.sum_count == totals.sum_count);
    WANT(memcmp(page.sums, totals.sums, sizeof page.sums) == 0);
    want_rows(&page.pairs, page.pair_count, place_of(key, length), 50, is_shown);
}

static void feed_once(rowanspan *index) {
    uint64_t length, from = commits < KEEP ? 0 : commits - KEEP, number;
    struct rowanspan_reader reader;
    WANT_SAME(rowanspan_feed(index, from, KEEP, answer, sizeof answer, &length), ROWANSPAN_OK);
    reader = rowanspan_reader(answer, length);
    WANT_SAME(rowanspan_read_count(&reader), commits - from);
    for (number = from + 1; number <= commits; number++) {
        const struct plain_delta *wanted = &deltas[number % KEEP];
        const struct plain_row *keyed = wanted->has_row ? &wanted->after : &wanted->before;
        struct rowanspan_delta got = rowanspan_read_delta(&reader);
        WANT_SAME(got.number, number);
        WANT(compare(got.key.at, got.key.length, keyed->key, keyed->key_length) == 0);
        WANT(got.had_row == wanted->had_row && got.has_row == wanted->has_row);
        WANT(!got.had_row || same_row(got.before, &wanted->before));
        WANT(!got.has_row || same_row(got.after, &wanted->after));
    }
    WANT(!reader.is_short && reader.left == 0);
}

static void tidy_once(rowanspan *index) {
    uint8_t key[MOST_KEY];
    uint64_t tidied, nodes;
    WANT_SAME(rowanspan_tidy(index, key, chance_key(key), &tidied), ROWANSPAN_OK);
    WANT(tidied <= ROWANSPAN_TIDIED_EMPTY_LAYER);
    WANT_SAME(rowanspan_advance(index, NULL), ROWANSPAN_OK);
    nodes = rowanspan_nodes(index);
    WANT_SAME(rowanspan_collect(index), nodes - rowanspan_nodes(index));
}

/* The call of a round, by chance: rows become many, and then few. */
static void call_once(rowanspan *index, uint64_t view, int round) {
    uint64_t what = chance(100), puts = round / 2500 % 2 ? 8 : 40;
    if (what < puts / 4 && row_count < MOST_ROWS) {
        put_if_once(index);
    } else if (what < puts && row_count < MOST_ROWS) {
        put_once(index);
    } else if (what < 48) {
        remove_once(index);
    } else if (what < 65) {
        get_once(index);
    } else if (what < 70) {
        get_column_once(index);
    } else if (what < 75) {
        range_once(index);
    } else if (what < 80) {
        cursor_once(index);
    } else if (what < 88) {
        page_once(index, view);
    } else if (what < 94) {
        feed_once(index);
    } else {
        tidy_once(index);
    }
}

int main(void) {
    rowanspan *index = opened(COLUMNS, 65536, KEEP);
    uint64_t view;
    int round;
    begins();
    WANT_SAME(rowanspan_build_prefix(index, "a", 1, rowanspan_at_least(1, 300), &view), ROWANSPAN_OK);
    open_cursor(index);
    for (round = 0; round < CALLS; round++) {
        call_once(index, view, round);
        WANT(rowanspan_commits(index) == commits && rowanspan_len(index) == row_count);
    }
    rowanspan_cursor_close(cursor);
    printf("%llu commits, %zu rows at the end\n", (unsigned long long)commits, row_count);
    rowanspan_close(index);
    ends("random_calls_against_a_plain_map");
    return all_told();
}
