/* Changes by chance of an index with a folder, whose log is shortened again and again, against a sorted array. Each
 * round is a process of its own, which mostly ends without a close. */
#include "foldering.h"

enum { ROUNDS = 40, CHANGES = 1500, KEYS = 700, COLUMNS = 2, LIMIT = 8000 };

/* A row of the array, and its key; a version of 0 is no row. */
struct plain_row {
    char key[32];
    uint64_t version;
    uint8_t length[COLUMNS], bytes[COLUMNS][ROWANSPAN_MAX_COLUMN_BYTES];
};

static struct plain_row rows[KEYS];
static uint64_t commits;
static uint64_t state = 88172645463325252u;
static size_t most_used;

static uint64_t chance(uint64_t below) {
    state ^= state << 13;
    state ^= state >> 7;
    state ^= state << 17;
    return state % below;
}

/* Keys that begin alike have layers of their own. */
static void name_rows(void) {
    int i;
    for (i = 0; i < KEYS; i++) {
        snprintf(rows[i].key, sizeof rows[i].key, i % 3 == 0 ? "%03d" : "alike, alike, %03d", i);
    }
}

static int by_key(const void *a, const void *b) {
    return strcmp(((const struct plain_row *)a)->key, ((const struct plain_row *)b)->key);
}

/* Puts some columns, in the array and, if there is one, in the index. */
static void put_once(rowanspan *index, struct plain_row *row, bool is_conditional) {
    struct rowanspan_set sets[COLUMNS];
    uint64_t version = row->version, commit = 0;
    size_t count = 0, i, size;
    for (i = 0; i < COLUMNS; i++) {
        if (chance(3) > 0) {
            row->length[i] = (uint8_t)chance(ROWANSPAN_MAX_COLUMN_BYTES + 1);
            for (size = 0; size < row->length[i]; size++) {
                row->bytes[i][size] = (uint8_t)chance(chance(2) ? 2 : 256);
            }
            sets[count++] = rowanspan_set((uint8_t)i, row->bytes[i], row->length[i]);
        } else if (version == 0) {
            row->length[i] = 0;
        }
    }
    row->version = ++commits;
    if (!index) {
        return;
    }
    if (is_conditional) {
        WANT_SAME(rowanspan_put_if(index, row->key, strlen(row->key), sets, count, version, &commit), ROWANSPAN_OK);
    } else {
        WANT_SAME(rowanspan_put(index, row->key, strlen(row->key), sets, count, &commit), ROWANSPAN_OK);
    }
    WANT_SAME(commit, commits);
}

static void remove_once(rowanspan *index, struct plain_row *row) {
    uint64_t commit = 0;
    bool is_there = row->version > 0;
    commits += is_there;
    row->version = 0;
    if (index) {
        WANT_SAME(rowanspan_remove(index, row->key, strlen(row->key), &commit),
                  is_there ? ROWANSPAN_OK : ROWANSPAN_ABSENT);
        WANT_SAME(commit, is_there ? commits : 0);
    }
}

/* The same changes for the same `state`, with an index and without one. More rows are removed in some rounds. */
static void change(rowanspan *index, int round) {
    int i, count = (int)chance(CHANGES);
    for (i = 0; i < count; i++) {
        struct plain_row *row = &rows[chance(KEYS)];
        uint64_t what = chance(100);
        if (what < (round % 4 == 3 ? 70u : 25u)) {
            remove_once(index, row);
        } else {
            put_once(index, row, what < 90);
        }
        if (index && what == 99) {
            WANT_SAME(rowanspan_sync(index, NULL), ROWANSPAN_OK);
        } else if (index && what == 98 && round % 5 == 0) {
            WANT_SAME(rowanspan_checkpoint(index), ROWANSPAN_OK);
        }
    }
}

static int round_now;

/* Changes rows in a process of its own, which ends without a close in two of three rounds. */
static int change_and_end(void) {
    rowanspan *index = opened_in(COLUMNS, LIMIT);
    change(index, round_now);
    WANT_SAME(rowanspan_commits(index), commits);
    if (round_now % 3 == 0) {
        rowanspan_close(index);
    }
    return wanting_failed ? 1 : 0;
}

static void want_same_row(struct rowanspan_pair *pair, const struct plain_row *row) {
    size_t i;
    WANT(is_text(pair->key, row->key));
    WANT_SAME(pair->row.version, row->version);
    for (i = 0; i < COLUMNS; i++) {
        struct rowanspan_bytes bytes = rowanspan_read_bytes(&pair->row.columns);
        WANT_SAME(bytes.length, row->length[i]);
        WANT(bytes.length != row->length[i] || memcmp(bytes.at, row->bytes[i], bytes.length) == 0);
    }
}

/* Wants the rows of the array, in their order. Returns how many they are. */
static size_t want_rows(const rowanspan *index) {
    static struct plain_row sorted[KEYS];
    rowanspan_cursor *cursor;
    struct rowanspan_pair pair;
    size_t i, count = 0;
    memcpy(sorted, rows, sizeof rows);
    qsort(sorted, KEYS, sizeof sorted[0], by_key);
    WANT_SAME(rowanspan_cursor_open(index, NULL, 0, NULL, 0, &cursor), ROWANSPAN_OK);
    for (i = 0; i < KEYS; i++) {
        if (sorted[i].version > 0) {
            WANT_SAME(rowanspan_cursor_next(cursor, &pair), ROWANSPAN_OK);
            want_same_row(&pair, &sorted[i]);
            count++;
        }
    }
    WANT_SAME(rowanspan_cursor_next(cursor, &pair), ROWANSPAN_ABSENT);
    rowanspan_cursor_close(cursor);
    WANT_SAME(rowanspan_len(index), count);
    WANT_SAME(rowanspan_commits(index), commits);
    return count;
}

static void by_chance(void) {
    size_t count, most = 0;
    begins_anew();
    name_rows();
    for (round_now = 0; round_now < ROUNDS && wanting_failed == 0; round_now++) {
        rowanspan *index;
        WANT_SAME(in_a_process(change_and_end), 0);
        most_used = used() > most_used ? used() : most_used;
        change(NULL, round_now);
        index = opened_in(COLUMNS, LIMIT);
        count = want_rows(index);
        most = count > most ? count : most;
        rowanspan_close(index);
    }
    printf("%d rounds, %llu commits, up to %zu rows and %zu bytes\n", round_now, (unsigned long long)commits, most,
           most_used);
    WANT(most > KEYS / 2 && commits > 10000);
    /* (a row takes up to some 200 bytes, and each of both files up to twice its rows and the limit) */
    WANT(most_used < 2 * 2 * (200 * KEYS + LIMIT));
    ends("by_chance");
}

int main(void) {
    make_place();
    by_chance();
    return all_told_of_folders();
}
