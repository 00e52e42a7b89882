/* The rows of many keys in one call: by example, each status, and by chance against a sorted array. */
#include "plain_keys.h"

enum { MOST_KEYS = 1000, ROOM = 1 << 20 };

static uint8_t room[ROOM];

static struct rowanspan_bytes key_of(const char *text) {
    return rowanspan_bytes(text, strlen(text));
}

/* Gets the rows of keys into `room`, and reads the answer up to its rows. */
static struct rowanspan_reader got(const rowanspan *index, const struct rowanspan_bytes *keys, size_t count,
                                   const uint8_t *columns, size_t column_count) {
    struct rowanspan_reader reader;
    uint64_t length = 99;
    WANT_SAME(rowanspan_get_many(index, keys, count, columns, column_count, room, sizeof room, &length), ROWANSPAN_OK);
    reader = rowanspan_reader(room, length);
    WANT_SAME(rowanspan_read_count(&reader), count);
    return reader;
}

/* Wants the next row to be of this version, with one column that is this text; or absent, if the version is 0. */
static void want_row(struct rowanspan_reader *reader, uint64_t version, const char *text) {
    struct rowanspan_row row;
    WANT_SAME(rowanspan_read_maybe_row(reader, &row), version > 0);
    WANT_SAME(row.version, version);
    WANT_SAME(row.column_count, version > 0);
    WANT(version == 0 || is_text(rowanspan_read_bytes(&row.columns), text));
}

static void want_end(const struct rowanspan_reader *reader) {
    WANT(!reader->is_short);
    WANT_SAME(reader->left, 0);
}

/* Keys with a row and without one, the empty key, and keys that are there twice. */
static void by_example(void) {
    rowanspan *index = opened(1, 4096, 0);
    struct rowanspan_bytes keys[] = {key_of("b"), key_of("a"), rowanspan_bytes(NULL, 0), key_of("ab"),
                                     key_of("a"), key_of("b"), key_of("\xff"),           rowanspan_bytes("", 0)};
    struct rowanspan_reader reader;
    begins();
    WANT_SAME(put_text(index, "a", "one", NULL), ROWANSPAN_OK);
    WANT_SAME(put_text(index, "ab", "two", NULL), ROWANSPAN_OK);
    reader = got(index, keys, 8, NULL, 0);
    want_row(&reader, 0, NULL);
    want_row(&reader, 1, "one");
    want_row(&reader, 0, NULL);
    want_row(&reader, 2, "two");
    want_row(&reader, 1, "one");
    want_row(&reader, 0, NULL);
    want_row(&reader, 0, NULL);
    want_row(&reader, 0, NULL);
    want_end(&reader);
    WANT_SAME(put_text(index, "", "none", NULL), ROWANSPAN_OK);
    WANT_SAME(rowanspan_remove(index, "a", 1, NULL), ROWANSPAN_OK);
    reader = got(index, keys + 1, 2, NULL, 0);
    want_row(&reader, 0, NULL);
    want_row(&reader, 3, "none");
    want_end(&reader);
    reader = got(index, keys + 7, 1, NULL, 0);
    want_row(&reader, 3, "none");
    want_end(&reader);
    rowanspan_close(index);
    ends("by_example");
}

/* The columns that are asked for, in the order in which they are. */
static void columns(void) {
    static const uint8_t asked[] = {2, 0};
    rowanspan *index = opened(3, 16, 0);
    struct rowanspan_set sets[2] = {rowanspan_set(0, "red", 3), rowanspan_set(2, "sweet", 5)};
    struct rowanspan_bytes keys[] = {key_of("pear"), key_of("apple")};
    struct rowanspan_reader reader;
    struct rowanspan_row row;
    begins();
    WANT_SAME(rowanspan_put(index, "apple", 5, sets, 2, NULL), ROWANSPAN_OK);
    reader = got(index, keys, 2, asked, 2);
    WANT(!rowanspan_read_maybe_row(&reader, &row));
    WANT(rowanspan_read_maybe_row(&reader, &row));
    want_end(&reader);
    WANT_SAME(row.column_count, 2);
    WANT(is_text(rowanspan_read_bytes(&row.columns), "sweet"));
    WANT(is_text(rowanspan_read_bytes(&row.columns), "red"));
    reader = got(index, keys + 1, 1, asked, 1);
    want_row(&reader, 1, "sweet");
    want_end(&reader);
    reader = got(index, keys + 1, 1, NULL, 0);
    WANT(rowanspan_read_maybe_row(&reader, &row));
    want_end(&reader);
    WANT_SAME(row.column_count, 3);
    WANT(is_text(rowanspan_read_bytes(&row.columns), "red"));
    WANT(is_text(rowanspan_read_bytes(&row.columns), ""));
    WANT(is_text(rowanspan_read_bytes(&row.columns), "sweet"));
    rowanspan_close(index);
    ends("columns");
}

static void no_keys(void) {
    rowanspan *index = opened(1, 16, 0);
    struct rowanspan_bytes key = key_of("a");
    struct rowanspan_reader reader;
    uint64_t length = 99;
    begins();
    WANT_SAME(put_text(index, "a", "one", NULL), ROWANSPAN_OK);
    reader = got(index, NULL, 0, NULL, 0);
    want_end(&reader);
    reader = got(index, &key, 0, NULL, 0);
    want_end(&reader);
    WANT_SAME(rowanspan_get_many(index, NULL, 0, NULL, 0, NULL, 0, &length), ROWANSPAN_NO_ROOM);
    WANT_SAME(length, 8);
    rowanspan_close(index);
    ends("no_keys");
}

/* As many keys as there may be, in many nodes, of which every third has no row. */
static void most_keys(void) {
    static char texts[MOST_KEYS][8];
    static struct rowanspan_bytes keys[MOST_KEYS];
    rowanspan *index = opened(1, 4096, 0);
    struct rowanspan_reader reader;
    uint64_t versions[MOST_KEYS] = {0};
    int i;
    begins();
    for (i = 0; i < MOST_KEYS; i++) {
        snprintf(texts[i], sizeof texts[i], "key%04d", i * 7 % MOST_KEYS);
        keys[i] = key_of(texts[i]);
        if (i % 3 > 0) {
            WANT_SAME(put_text(index, texts[i], texts[i], &versions[i]), ROWANSPAN_OK);
        }
    }
    reader = got(index, keys, MOST_KEYS, NULL, 0);
    for (i = 0; i < MOST_KEYS; i++) {
        want_row(&reader, versions[i], texts[i]);
    }
    want_end(&reader);
    rowanspan_close(index);
    ends("most_keys");
}

/* Each limit, and which of those that are broken is answered. Nothing is then written to the buffer. */
static void refused(void) {
    static uint8_t long_key[ROWANSPAN_MAX_KEY_BYTES + 1];
    static struct rowanspan_bytes keys[MOST_KEYS + 1];
    static const uint8_t names[] = {0, 1, 0};
    static const struct {
        size_t length, count, first_column, column_count;
        rowanspan_status status;
    } cases[] = {{1024, MOST_KEYS + 1, 0, 0, ROWANSPAN_BAD_LIMIT},    {1025, MOST_KEYS, 0, 0, ROWANSPAN_KEY_TOO_LONG},
                 {1025, MOST_KEYS + 1, 0, 2, ROWANSPAN_KEY_TOO_LONG}, {1024, MOST_KEYS + 1, 0, 2, ROWANSPAN_BAD_COLUMN},
                 {1025, 3, 1, 1, ROWANSPAN_KEY_TOO_LONG},             {1024, 3, 1, 1, ROWANSPAN_BAD_COLUMN},
                 {1024, 3, 0, 3, ROWANSPAN_BAD_COLUMN},               {1024, 0, 1, 1, ROWANSPAN_BAD_COLUMN},
                 {1024, MOST_KEYS, 0, 1, ROWANSPAN_OK},               {1024, 1, 0, 1, ROWANSPAN_OK}};
    rowanspan *index = opened(1, 16, 0);
    size_t i, k;
    begins();
    memset(long_key, 'k', sizeof long_key);
    WANT_SAME(rowanspan_put(index, long_key, sizeof long_key - 1, NULL, 0, NULL), ROWANSPAN_OK);
    for (i = 0; i < sizeof cases / sizeof cases[0]; i++) {
        const uint8_t *asked = names + cases[i].first_column;
        uint64_t length = 99;
        for (k = 0; k < cases[i].count; k++) {
            keys[k] = rowanspan_bytes(long_key, k + 1 == cases[i].count ? cases[i].length : k % 1000);
        }
        memset(room, 0xee, sizeof room);
        WANT_SAME(rowanspan_get_many(index, keys, cases[i].count, asked, cases[i].column_count, room, sizeof room,
                                     &length), cases[i].status);
        if (cases[i].status == ROWANSPAN_OK) {
            /* the number of keys, one for each, and the one row, with its version and its empty column */
            WANT_SAME(length, 8 + 8 * cases[i].count + 8 + 8 + 8);
        } else {
            WANT_SAME(length, 0);
            WANT(room[0] == 0xee && memcmp(room, room + 1, sizeof room - 1) == 0);
        }
    }
    WANT_SAME(rowanspan_commits(index), 1);
    rowanspan_close(index);
    ends("refused");
}

/* A buffer with exactly as much room as the answer has, and one that is a byte too small and stays as it was. */
static void rooms(void) {
    rowanspan *index = opened(1, 16, 0);
    struct rowanspan_bytes keys[] = {key_of("a"), key_of("b"), key_of("a")};
    /* the number of keys; twice a row with its version and its column; and once none */
    enum { LENGTH = 8 + 2 * (8 + 8 + 8 + 8 + 3) + 8 };
    uint8_t answer[LENGTH + 1];
    uint64_t length = 99;
    size_t i;
    begins();
    WANT_SAME(put_text(index, "a", "one", NULL), ROWANSPAN_OK);
    memset(answer, 0xee, sizeof answer);
    WANT_SAME(rowanspan_get_many(index, keys, 3, NULL, 0, answer, LENGTH - 1, &length), ROWANSPAN_NO_ROOM);
    WANT_SAME(length, LENGTH);
    for (i = 0; i < sizeof answer; i++) {
        WANT_SAME(answer[i], 0xee);
    }
    WANT_SAME(rowanspan_get_many(index, keys, 3, NULL, 0, NULL, LENGTH, &length), ROWANSPAN_NO_ROOM);
    WANT_SAME(length, LENGTH);
    WANT_SAME(rowanspan_get_many(index, keys, 3, NULL, 0, answer, LENGTH - 1, NULL), ROWANSPAN_NO_ROOM);
    WANT_SAME(rowanspan_get_many(index, keys, 3, NULL, 0, answer, LENGTH, NULL), ROWANSPAN_OK);
    WANT_SAME(answer[7], 3);
    WANT_SAME(answer[LENGTH], 0xee);
    WANT_SAME(rowanspan_get_many(index, keys, 3, NULL, 0, answer, LENGTH + 1, &length), ROWANSPAN_OK);
    WANT_SAME(length, LENGTH);
    WANT_SAME(answer[LENGTH], 0xee);
    rowanspan_close(index);
    ends("rooms");
}

/* The keys of an answer can be asked for as they are. */
static void keys_of_an_answer(void) {
    static uint8_t range[256];
    rowanspan *index = opened(1, 16, 0);
    struct rowanspan_bytes keys[2];
    struct rowanspan_reader reader;
    uint64_t length;
    size_t i;
    begins();
    WANT_SAME(put_text(index, "a", "one", NULL), ROWANSPAN_OK);
    WANT_SAME(put_text(index, "", "two", NULL), ROWANSPAN_OK);
    WANT_SAME(rowanspan_range(index, NULL, 0, 2, NULL, 0, range, sizeof range, &length), ROWANSPAN_OK);
    reader = rowanspan_reader(range, length);
    WANT_SAME(rowanspan_read_count(&reader), 2);
    for (i = 0; i < 2; i++) {
        keys[i] = rowanspan_read_pair(&reader).key;
    }
    reader = got(index, keys, 2, NULL, 0);
    want_row(&reader, 2, "two");
    want_row(&reader, 1, "one");
    want_end(&reader);
    rowanspan_close(index);
    ends("keys_of_an_answer");
}

/* Wants the rows of some keys, with the versions that they have in the array. */
static void get_once(const rowanspan *index) {
    static struct plain_row asked[64];
    static struct rowanspan_bytes keys[64];
    size_t count = chance(65), i;
    struct rowanspan_reader reader;
    for (i = 0; i < count; i++) {
        asked[i] = i > 0 && chance(10) == 0 ? asked[i - 1] : chance_bound();
        keys[i] = rowanspan_bytes(asked[i].key, asked[i].length);
    }
    reader = got(index, keys, count, NULL, 0);
    for (i = 0; i < count; i++) {
        size_t at = count_before(&asked[i]);
        bool is_there = at < row_count && compare(&rows[at], &asked[i]) == 0;
        want_row(&reader, is_there ? rows[at].version : 0, "");
    }
    want_end(&reader);
}

int main(void) {
    by_example();
    columns();
    no_keys();
    most_keys();
    refused();
    rooms();
    keys_of_an_answer();
    by_chance("gets of many keys", get_once);
    return all_told();
}
