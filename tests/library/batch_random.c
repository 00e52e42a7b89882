/* Batches by chance, against a sorted array. */
#include "plain_keys.h"

/* The most changes of a batch. */
enum { AT_ONCE = 24 };

static struct plain_row keys[AT_ONCE];
static struct rowanspan_change changes[AT_ONCE];

/* Makes the keys and the changes of a batch, all of different keys. Returns how many they are. */
static size_t chance_changes(void) {
    size_t count = chance(AT_ONCE + 1), i, k;
    for (i = 0; i < count; i++) {
        keys[i] = chance_bound();
        for (k = 0; k < i && compare(&keys[k], &keys[i]) != 0; k++) {
        }
        if (k < i) {
            return i;
        }
        changes[i] = chance(3) ? rowanspan_change_put(keys[i].key, keys[i].length, NULL, 0)
                               : rowanspan_change_remove(keys[i].key, keys[i].length);
    }
    return count;
}

/* Makes the puts or the removes in the array, and wants the numbers of their commits. */
static void make_plainly(size_t count, bool removes, const uint64_t *numbers, uint64_t *commits) {
    size_t i;
    for (i = 0; i < count; i++) {
        size_t at = count_before(&keys[i]);
        bool is_there = at < row_count && compare(&rows[at], &keys[i]) == 0;
        if (changes[i].removes != removes) {
            continue;
        }
        WANT_SAME(numbers[i], removes && !is_there ? 0 : ++*commits);
        if (removes) {
            row_count -= is_there;
            memmove(&rows[at], &rows[at + is_there], (row_count - at) * sizeof keys[i]);
        } else {
            memmove(&rows[at + !is_there], &rows[at], (row_count - at) * sizeof keys[i]);
            row_count += !is_there;
            keys[i].version = numbers[i];
            rows[at] = keys[i];
        }
    }
}

/* Wants the index to have the rows of the array. */
static void want_rows(const rowanspan *index) {
    rowanspan_cursor *cursor;
    struct rowanspan_pair pair;
    size_t i;
    WANT_SAME(rowanspan_len(index), row_count);
    WANT_SAME(rowanspan_cursor_open(index, NULL, 0, NULL, 0, &cursor), ROWANSPAN_OK);
    for (i = 0; i < row_count && rowanspan_cursor_next(cursor, &pair) == ROWANSPAN_OK; i++) {
        WANT(pair.key.length == rows[i].length && memcmp(pair.key.at, rows[i].key, rows[i].length) == 0);
        WANT_SAME(pair.row.version, rows[i].version);
    }
    WANT_SAME(i, row_count);
    rowanspan_cursor_close(cursor);
}

/* Batches with a condition on a row by chance, which often doesn't hold. */
static void batches_by_chance(void) {
    rowanspan *index = opened(1, 65536, 0);
    uint64_t commits = 0, numbers[AT_ONCE];
    int round, refused = 0;
    begins();
    for (round = 0; round < 10000 && row_count + AT_ONCE < ROWS; round++) {
        struct plain_row asked = chance_bound();
        size_t at = count_before(&asked), count = chance_changes();
        bool is_there = at < row_count && compare(&rows[at], &asked) == 0;
        uint64_t version = is_there ? rows[at].version : 0, number = 99, found = 99;
        bool is_off = chance(8) == 0;
        struct rowanspan_condition condition = rowanspan_condition(asked.key, asked.length, version + is_off);
        WANT_SAME(rowanspan_batch(index, &condition, 1, changes, count, numbers, &number, &found),
                  is_off ? ROWANSPAN_UNMET : ROWANSPAN_OK);
        refused += is_off;
        WANT_SAME(found, is_off ? version : 0);
        if (!is_off) {
            make_plainly(count, false, numbers, &commits);
            make_plainly(count, true, numbers, &commits);
        }
        WANT_SAME(number, is_off ? 0 : commits);
        WANT_SAME(rowanspan_commits(index), commits);
        if (round % 100 == 0) {
            want_rows(index);
        }
    }
    want_rows(index);
    WANT(round > 400 && refused > 50);
    printf("%d batches, %d of them unmet, and %zu rows at the end\n", round, refused, row_count);
    rowanspan_close(index);
    ends("batches_by_chance");
}

int main(void) {
    batches_by_chance();
    return all_told();
}
