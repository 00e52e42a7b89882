/* Batches: what they make, each status, and pointers that are null. */
#include "wanting.h"

enum { MOST = ROWANSPAN_MAX_BATCH, ROOM = 1 << 16 };

static struct rowanspan_condition condition_of(const char *key, uint64_t version) {
    return rowanspan_condition(key, strlen(key), version);
}

static struct rowanspan_change removed(const char *key) {
    return rowanspan_change_remove(key, strlen(key));
}

static struct rowanspan_change put(const char *key, const struct rowanspan_set *sets, size_t count) {
    return rowanspan_change_put(key, strlen(key), sets, count);
}

/* The rows of an index, as bytes, and its numbers. */
struct shown {
    uint8_t rows[ROOM];
    uint64_t length, commits, count;
};

static void show(const rowanspan *index, struct shown *it) {
    memset(it, 0, sizeof *it);
    WANT_SAME(rowanspan_range(index, NULL, 0, 1000, NULL, 0, it->rows, sizeof it->rows, &it->length), ROWANSPAN_OK);
    it->commits = rowanspan_commits(index);
    it->count = rowanspan_len(index);
}

/* Wants a batch to be answered so, and nothing to change. */
static void want_refused(rowanspan *index, const struct rowanspan_condition *conditions, size_t condition_count,
                         const struct rowanspan_change *changes, size_t change_count, rowanspan_status status) {
    static struct shown before, after;
    static uint64_t numbers[MOST + 1];
    uint64_t number = 99, found = 99;
    numbers[0] = numbers[MOST] = 99;
    show(index, &before);
    WANT_SAME(rowanspan_batch(index, conditions, condition_count, changes, change_count, numbers, &number, &found),
              status);
    show(index, &after);
    WANT(memcmp(&before, &after, sizeof before) == 0);
    WANT(numbers[0] == 99 && numbers[MOST] == 99);
    if (status != ROWANSPAN_UNMET && status != ROWANSPAN_FEED_FULL) {
        WANT(number == 0 && found == 0);
    }
}

static void want_row(const rowanspan *index, const char *key, uint64_t version, const char *first,
                     const char *second) {
    uint8_t room[256];
    uint64_t length = 0;
    rowanspan_status status = rowanspan_get(index, key, strlen(key), NULL, 0, room, sizeof room, &length);
    struct rowanspan_reader reader = rowanspan_reader(room, length);
    struct rowanspan_row row = rowanspan_read_row(&reader);
    WANT_SAME(status, version > 0 ? ROWANSPAN_OK : ROWANSPAN_ABSENT);
    WANT_SAME(row.version, version);
    if (version > 0) {
        WANT_SAME(row.column_count, 2);
        WANT(is_text(rowanspan_read_bytes(&row.columns), first));
        WANT(is_text(rowanspan_read_bytes(&row.columns), second));
    }
}

/* An index of two columns with the rows apple, of version 1, and fig, of version 2. */
static rowanspan *with_rows(void) {
    rowanspan *index = opened(2, 64, 64);
    struct rowanspan_set sets[2] = {rowanspan_set(0, "red", 3), rowanspan_set(1, "sweet", 5)};
    WANT_SAME(rowanspan_put(index, "apple", 5, sets, 2, NULL), ROWANSPAN_OK);
    WANT_SAME(rowanspan_put(index, "fig", 3, NULL, 0, NULL), ROWANSPAN_OK);
    return index;
}

/* The puts are first, in their order, and then the removes. Columns that aren't set stay. */
static void by_example(void) {
    rowanspan *index = with_rows();
    struct rowanspan_set green = rowanspan_set(0, "green", 5), soft = rowanspan_set(1, "soft", 4);
    struct rowanspan_condition conditions[] = {condition_of("apple", 1), condition_of("pear", 0)};
    struct rowanspan_change changes[] = {removed("fig"), put("apple", &green, 1), removed("none"),
                                         put("pear", &soft, 1)};
    static const uint64_t wanted[] = {5, 3, 0, 4, 99};
    uint64_t numbers[5] = {99, 99, 99, 99, 99}, number = 99, found = 99;
    begins();
    WANT_SAME(rowanspan_batch(index, conditions, 2, changes, 4, numbers, &number, &found), ROWANSPAN_OK);
    WANT(memcmp(numbers, wanted, sizeof wanted) == 0);
    WANT_SAME(number, 5);
    WANT_SAME(found, 0);
    want_row(index, "apple", 3, "green", "sweet");
    want_row(index, "fig", 0, NULL, NULL);
    want_row(index, "none", 0, NULL, NULL);
    want_row(index, "pear", 4, "", "soft");
    WANT_SAME(rowanspan_len(index), 2);
    WANT_SAME(rowanspan_commits(index), 5);
    WANT_SAME(put_text(index, "apple", "red", &number), ROWANSPAN_OK);
    WANT_SAME(number, 6);
    rowanspan_close(index);
    ends("by_example");
}

/* The feed has each commit of a batch, in their order. */
static void in_the_feed(void) {
    static uint8_t room[ROOM];
    static const char *const keys[] = {"kiwi", "pear", "fig"};
    rowanspan *index = with_rows();
    struct rowanspan_change changes[] = {removed("fig"), put("kiwi", NULL, 0), put("pear", NULL, 0)};
    struct rowanspan_reader reader;
    uint64_t length = 0;
    size_t i;
    begins();
    WANT_SAME(rowanspan_batch(index, NULL, 0, changes, 3, NULL, NULL, NULL), ROWANSPAN_OK);
    WANT_SAME(rowanspan_feed(index, 2, 1000, room, sizeof room, &length), ROWANSPAN_OK);
    reader = rowanspan_reader(room, length);
    WANT_SAME(rowanspan_read_count(&reader), 3);
    for (i = 0; i < 3; i++) {
        struct rowanspan_delta delta = rowanspan_read_delta(&reader);
        WANT_SAME(delta.number, i + 3);
        WANT(is_text(delta.key, keys[i]));
        WANT_SAME(delta.had_row, i == 2);
        WANT_SAME(delta.has_row, i < 2);
    }
    rowanspan_close(index);
    ends("in_the_feed");
}

/* The first condition that doesn't hold, with the version that was found. */
static void unmet(void) {
    static const struct {
        const char *key;
        uint64_t version, found;
    } cases[] = {{"apple", 2, 1}, {"apple", 0, 1}, {"fig", 1, 2}, {"none", 1, 0}, {"", UINT64_MAX, 0}};
    rowanspan *index = with_rows();
    struct rowanspan_change change = removed("apple");
    size_t i;
    begins();
    for (i = 0; i < sizeof cases / sizeof cases[0]; i++) {
        struct rowanspan_condition conditions[] = {condition_of("apple", 1), condition_of("none", 0),
                                                   condition_of(cases[i].key, cases[i].version),
                                                   condition_of("fig", 7)};
        uint64_t number = 99, found = 99;
        want_refused(index, conditions, 4, &change, 1, ROWANSPAN_UNMET);
        WANT_SAME(rowanspan_batch(index, conditions, 4, &change, 1, NULL, &number, &found), ROWANSPAN_UNMET);
        WANT_SAME(number, 2);
        WANT_SAME(found, cases[i].found);
        WANT_SAME(rowanspan_batch(index, conditions + 2, 1, NULL, 0, NULL, &number, NULL), ROWANSPAN_UNMET);
        WANT_SAME(number, 0);
    }
    rowanspan_close(index);
    ends("unmet");
}

/* Pointers may be null if there is nothing behind them, and where numbers would be written. */
static void null_pointers(void) {
    rowanspan *index = opened(2, 64, 0);
    struct rowanspan_condition conditions[] = {rowanspan_condition(NULL, 0, 0), rowanspan_condition("", 0, 0)};
    struct rowanspan_change changes[] = {rowanspan_change_put(NULL, 0, NULL, 0), rowanspan_change_remove("k", 1)};
    struct rowanspan_set empty = rowanspan_set(1, NULL, 0);
    uint64_t number = 99, found = 99;
    begins();
    WANT(conditions[0].key && changes[0].key && changes[0].sets && changes[1].sets);
    WANT(!changes[0].removes && changes[1].removes && changes[1].count == 0);
    WANT_SAME(rowanspan_batch(index, NULL, 0, NULL, 0, NULL, &number, &found), ROWANSPAN_OK);
    WANT(number == 0 && found == 0);
    WANT_SAME(rowanspan_batch(index, conditions, 2, changes, 2, NULL, NULL, NULL), ROWANSPAN_OK);
    want_row(index, "", 1, "", "");
    WANT_SAME(rowanspan_batch(index, NULL, 0, changes + 1, 1, NULL, &number, &found), ROWANSPAN_OK);
    WANT(number == 1 && found == 0);
    changes[1] = rowanspan_change_put("k", 1, &empty, 1);
    WANT_SAME(rowanspan_batch(index, NULL, 0, changes, 2, NULL, &number, NULL), ROWANSPAN_OK);
    WANT_SAME(number, 3);
    want_row(index, "k", 3, "", "");
    changes[0] = rowanspan_change_remove(NULL, 0);
    WANT_SAME(rowanspan_batch(index, NULL, 0, changes, 1, NULL, NULL, &found), ROWANSPAN_OK);
    WANT_SAME(rowanspan_len(index), 1);
    rowanspan_close(index);
    ends("null_pointers");
}

/* Each limit of a key and of columns, of which the first that is broken is answered. */
static void bad_keys_and_columns(void) {
    static uint8_t key[ROWANSPAN_MAX_KEY_BYTES + 1], column[ROWANSPAN_MAX_COLUMN_BYTES + 1];
    rowanspan *index = with_rows();
    struct rowanspan_set none_such = rowanspan_set(2, "", 0), wide = rowanspan_set(0, column, sizeof column);
    struct rowanspan_set twice[] = {rowanspan_set(1, "a", 1), rowanspan_set(1, "b", 1)};
    struct rowanspan_condition long_condition = rowanspan_condition(key, sizeof key, 0);
    struct rowanspan_condition off = condition_of("apple", 7);
    struct rowanspan_change long_put = rowanspan_change_put(key, sizeof key, &wide, 1);
    struct rowanspan_change long_remove = rowanspan_change_remove(key, sizeof key);
    struct rowanspan_change changes[3] = {put("fig", NULL, 0), put("fig", NULL, 0), put("fig", &none_such, 1)};
    begins();
    want_refused(index, &long_condition, 1, changes, 3, ROWANSPAN_KEY_TOO_LONG);
    want_refused(index, &off, 1, changes, 3, ROWANSPAN_BAD_COLUMN);
    changes[1] = long_remove;
    want_refused(index, &off, 1, changes, 3, ROWANSPAN_KEY_TOO_LONG);
    changes[1] = long_put;
    want_refused(index, &off, 1, changes, 3, ROWANSPAN_KEY_TOO_LONG);
    changes[0] = put("fig", &wide, 1);
    want_refused(index, &off, 1, changes, 3, ROWANSPAN_COLUMN_TOO_LONG);
    changes[0] = put("pear", twice, 2);
    want_refused(index, NULL, 0, changes, 1, ROWANSPAN_BAD_COLUMN);
    WANT_SAME(rowanspan_batch(index, &off, 1, changes, 3, NULL, NULL, NULL), ROWANSPAN_BAD_COLUMN);
    rowanspan_close(index);
    ends("bad_keys_and_columns");
}

/* A key that is changed twice, and too many conditions or changes, which is answered before all else. */
static void bad_batches(void) {
    static uint8_t key[ROWANSPAN_MAX_KEY_BYTES + 1];
    static struct rowanspan_condition conditions[MOST + 1];
    static struct rowanspan_change changes[MOST + 1];
    rowanspan *index = with_rows();
    struct rowanspan_condition off = condition_of("apple", 7);
    struct rowanspan_change twice[] = {put("a", NULL, 0), removed("fig"), put("b", NULL, 0), removed("a")};
    size_t i;
    begins();
    want_refused(index, NULL, 0, twice, 4, ROWANSPAN_BAD_BATCH);
    want_refused(index, &off, 1, twice, 4, ROWANSPAN_BAD_BATCH);
    want_refused(index, &off, 1, twice, 3, ROWANSPAN_UNMET);
    twice[3] = put("b", NULL, 0);
    want_refused(index, NULL, 0, twice + 2, 2, ROWANSPAN_BAD_BATCH);
    for (i = 0; i <= MOST; i++) {
        conditions[i] = rowanspan_condition(key, sizeof key, 7);
        changes[i] = rowanspan_change_remove(key, sizeof key);
    }
    want_refused(index, conditions, MOST + 1, NULL, 0, ROWANSPAN_BAD_BATCH);
    want_refused(index, conditions, MOST + 1, changes, 1, ROWANSPAN_BAD_BATCH);
    want_refused(index, conditions, 1, changes, MOST + 1, ROWANSPAN_BAD_BATCH);
    want_refused(index, conditions, MOST, changes, MOST, ROWANSPAN_KEY_TOO_LONG);
    want_refused(index, NULL, 0, changes, MOST, ROWANSPAN_KEY_TOO_LONG);
    rowanspan_close(index);
    ends("bad_batches");
}

/* As many conditions and changes as there may be. */
static void most_of_both(void) {
    static char keys[MOST][8];
    static struct rowanspan_condition conditions[MOST];
    static struct rowanspan_change changes[MOST];
    static uint64_t numbers[MOST];
    rowanspan *index = opened(1, 4096, 0);
    uint64_t number = 99;
    size_t i;
    begins();
    for (i = 0; i < MOST; i++) {
        snprintf(keys[i], sizeof keys[i], "key%04d", (int)(i * 7 % MOST));
        conditions[i] = condition_of(keys[i], 0);
        changes[i] = put(keys[i], NULL, 0);
    }
    WANT_SAME(rowanspan_batch(index, conditions, MOST, changes, MOST, numbers, &number, NULL), ROWANSPAN_OK);
    WANT_SAME(number, MOST);
    for (i = 0; i < MOST; i++) {
        WANT_SAME(numbers[i], i + 1);
        conditions[i] = condition_of(keys[i], numbers[i]);
        changes[i] = removed(keys[i]);
    }
    WANT_SAME(rowanspan_len(index), MOST);
    WANT_SAME(rowanspan_batch(index, conditions, MOST, changes, MOST, numbers, &number, NULL), ROWANSPAN_OK);
    WANT_SAME(number, 2 * MOST);
    WANT_SAME(numbers[MOST - 1], 2 * MOST);
    WANT_SAME(rowanspan_len(index), 0);
    rowanspan_close(index);
    ends("most_of_both");
}

/* A view holds the log, which has no room for all commits of a batch; and a view at the floor shows all of one. */
static void beside_a_view(void) {
    rowanspan *index = opened(1, 3, 0);
    struct rowanspan_change changes[] = {put("a", NULL, 0), put("b", NULL, 0), put("c", NULL, 0), removed("d")};
    struct rowanspan_totals totals;
    uint64_t view = 0, number = 99, found = 99;
    begins();
    WANT_SAME(rowanspan_build_prefix(index, NULL, 0, rowanspan_any(), &view), ROWANSPAN_OK);
    WANT_SAME(put_text(index, "a", "one", NULL), ROWANSPAN_OK);
    want_refused(index, NULL, 0, changes, 3, ROWANSPAN_FEED_FULL);
    WANT_SAME(rowanspan_keep_views(index, NULL), ROWANSPAN_OK);
    changes[3] = put("d", NULL, 0);
    WANT_SAME(rowanspan_batch(index, NULL, 0, changes, 4, NULL, &number, &found), ROWANSPAN_FEED_FULL);
    WANT(number == 1 && found == 0);
    changes[3] = removed("d");
    WANT_SAME(rowanspan_batch(index, NULL, 0, changes, 4, NULL, &number, &found), ROWANSPAN_OK);
    WANT(number == 4 && found == 0);
    WANT_SAME(rowanspan_totals(index, view, number, &totals), ROWANSPAN_BEHIND);
    WANT_SAME(totals.commit, 1);
    WANT_SAME(rowanspan_keep_views(index, NULL), ROWANSPAN_OK);
    WANT_SAME(rowanspan_totals(index, view, number, &totals), ROWANSPAN_OK);
    WANT(totals.commit == 4 && totals.row_count == 3);
    rowanspan_close(index);
    ends("beside_a_view");
}

/* Without a view the log holds no batch: it may have more commits than the log. */
static void beyond_the_log(void) {
    rowanspan *index = opened(1, 1, 0);
    struct rowanspan_change changes[] = {put("a", NULL, 0), put("b", NULL, 0), put("c", NULL, 0)};
    uint64_t number = 99;
    begins();
    WANT_SAME(rowanspan_batch(index, NULL, 0, changes, 3, NULL, &number, NULL), ROWANSPAN_OK);
    WANT_SAME(number, 3);
    struct rowanspan_change removes[] = {rowanspan_change_remove("a", 1), rowanspan_change_remove("b", 1)};
    WANT_SAME(rowanspan_batch(index, NULL, 0, removes, 2, NULL, &number, NULL), ROWANSPAN_FEED_FULL);
    WANT_SAME(number, 3);
    WANT_SAME(rowanspan_len(index), 3);
    WANT_SAME(rowanspan_batch(index, NULL, 0, removes, 1, NULL, &number, NULL), ROWANSPAN_OK);
    WANT_SAME(number, 4);
    rowanspan_close(index);
    ends("beyond_the_log");
}

int main(void) {
    by_example();
    in_the_feed();
    unmet();
    null_pointers();
    bad_keys_and_columns();
    bad_batches();
    most_of_both();
    beside_a_view();
    beyond_the_log();
    return all_told();
}
