/* Each call on rows by example: what it returns, each status, and what it leaves in a buffer. */
#include "wanting.h"

/* The bytes of the row of one column after the first commit, as docs/EMBEDDING.md has them. */
static void worked_row(void) {
    static const uint8_t wanted[27] = {0, 0, 0, 0, 0, 0, 0, 1, 0, 0, 0, 0, 0, 0, 0, 1,
                                       0, 0, 0, 0, 0, 0, 0, 3, 'r', 'e', 'd'};
    rowanspan *index = opened(1, 16, 0);
    uint8_t room[27];
    uint64_t number = 99;
    begins();
    WANT_SAME(put_text(index, "apple", "red", &number), ROWANSPAN_OK);
    WANT_SAME(number, 1);
    WANT_SAME(rowanspan_get(index, "apple", 5, NULL, 0, room, sizeof room, &number), ROWANSPAN_OK);
    WANT_SAME(number, 27);
    WANT(memcmp(room, wanted, 27) == 0);
    rowanspan_close(index);
    ends("worked_row");
}

/* Columns of a row that two puts have set, in the order in which they are asked for. */
static void columns(void) {
    rowanspan *index = opened(3, 16, 0);
    struct rowanspan_set sets[2];
    const uint8_t asked[2] = {2, 0};
    uint8_t room[256];
    uint64_t number = 99;
    struct rowanspan_reader reader;
    struct rowanspan_row row;
    begins();
    sets[0] = rowanspan_set(0, "a", 1);
    sets[1] = rowanspan_set(2, "cc", 2);
    WANT_SAME(rowanspan_put(index, "k", 1, sets, 2, &number), ROWANSPAN_OK);
    sets[0] = rowanspan_set(1, "b", 1);
    WANT_SAME(rowanspan_put(index, "k", 1, sets, 1, &number), ROWANSPAN_OK);
    WANT_SAME(number, 2);
    WANT_SAME(rowanspan_get(index, "k", 1, NULL, 0, room, sizeof room, &number), ROWANSPAN_OK);
    reader = rowanspan_reader(room, number);
    row = rowanspan_read_row(&reader);
    WANT_SAME(row.version, 2);
    WANT_SAME(row.column_count, 3);
    WANT(is_text(rowanspan_read_bytes(&row.columns), "a"));
    WANT(is_text(rowanspan_read_bytes(&row.columns), "b"));
    WANT(is_text(rowanspan_read_bytes(&row.columns), "cc"));
    WANT(!reader.is_short && reader.left == 0);
    WANT_SAME(rowanspan_get(index, "k", 1, asked, 2, room, sizeof room, &number), ROWANSPAN_OK);
    reader = rowanspan_reader(room, number);
    row = rowanspan_read_row(&reader);
    WANT_SAME(row.column_count, 2);
    WANT(is_text(rowanspan_read_bytes(&row.columns), "cc"));
    WANT(is_text(rowanspan_read_bytes(&row.columns), "a"));
    rowanspan_close(index);
    ends("columns");
}

static void bad_columns(void) {
    rowanspan *index = opened(3, 16, 0);
    struct rowanspan_set sets[2];
    const uint8_t twice[2] = {1, 1}, none_such[1] = {3};
    uint8_t room[256], long_column[65] = {0};
    uint64_t number = 99;
    begins();
    WANT_SAME(put_text(index, "k", "a", &number), ROWANSPAN_OK);
    WANT_SAME(rowanspan_get(index, "k", 1, twice, 2, room, sizeof room, &number), ROWANSPAN_BAD_COLUMN);
    WANT_SAME(rowanspan_get(index, "k", 1, none_such, 1, room, sizeof room, &number), ROWANSPAN_BAD_COLUMN);
    WANT_SAME(rowanspan_range(index, "k", 1, 1, none_such, 1, room, sizeof room, &number), ROWANSPAN_BAD_COLUMN);
    sets[0] = rowanspan_set(3, "x", 1);
    WANT_SAME(rowanspan_put(index, "k", 1, sets, 1, &number), ROWANSPAN_BAD_COLUMN);
    WANT_SAME(number, 0);
    sets[0] = rowanspan_set(1, "x", 1);
    sets[1] = rowanspan_set(1, "y", 1);
    WANT_SAME(rowanspan_put(index, "k", 1, sets, 2, &number), ROWANSPAN_BAD_COLUMN);
    sets[0] = rowanspan_set(0, long_column, 65);
    WANT_SAME(rowanspan_put(index, "k", 1, sets, 1, &number), ROWANSPAN_COLUMN_TOO_LONG);
    sets[0] = rowanspan_set(0, long_column, 64);
    WANT_SAME(rowanspan_put(index, "k", 1, sets, 1, &number), ROWANSPAN_OK);
    WANT_SAME(rowanspan_put(index, "k", 1, NULL, 0, &number), ROWANSPAN_OK);
    WANT_SAME(number, 3);
    rowanspan_close(index);
    ends("bad_columns");
}

static void conditional_puts(void) {
    rowanspan *index = opened(2, 16, 0);
    struct rowanspan_set set = rowanspan_set(0, "a", 1);
    uint8_t room[64];
    uint64_t number = 99;
    struct rowanspan_reader reader;
    struct rowanspan_row row;
    begins();
    WANT_SAME(rowanspan_put_if(index, "k", 1, &set, 1, 1, &number), ROWANSPAN_OTHER_VERSION);
    WANT_SAME(number, 0);
    WANT_SAME(rowanspan_put_if(index, "k", 1, &set, 1, 0, &number), ROWANSPAN_OK);
    WANT_SAME(number, 1);
    WANT_SAME(rowanspan_put_if(index, "k", 1, &set, 1, 0, &number), ROWANSPAN_OTHER_VERSION);
    WANT_SAME(number, 1);
    set = rowanspan_set(1, "b", 1);
    WANT_SAME(rowanspan_put_if(index, "k", 1, &set, 1, 1, &number), ROWANSPAN_OK);
    WANT_SAME(number, 2);
    WANT_SAME(rowanspan_put_if(index, "k", 1, &set, 1, UINT64_MAX, &number), ROWANSPAN_OTHER_VERSION);
    WANT_SAME(number, 2);
    WANT_SAME(rowanspan_put_if(index, "k", 1, NULL, 0, 2, &number), ROWANSPAN_OK);
    WANT_SAME(rowanspan_get(index, "k", 1, NULL, 0, room, sizeof room, &number), ROWANSPAN_OK);
    reader = rowanspan_reader(room, number);
    row = rowanspan_read_row(&reader);
    WANT_SAME(row.version, 3);
    WANT(is_text(rowanspan_read_bytes(&row.columns), "a"));
    WANT(is_text(rowanspan_read_bytes(&row.columns), "b"));
    set = rowanspan_set(2, "c", 1);
    WANT_SAME(rowanspan_put_if(index, "k", 1, &set, 1, 9, &number), ROWANSPAN_BAD_COLUMN);
    WANT_SAME(rowanspan_put_if(index, NULL, 0, NULL, 0, 0, &number), ROWANSPAN_OK);
    WANT_SAME(rowanspan_remove(index, "k", 1, &number), ROWANSPAN_OK);
    WANT_SAME(rowanspan_put_if(index, "k", 1, NULL, 0, 3, &number), ROWANSPAN_OTHER_VERSION);
    WANT_SAME(number, 0);
    WANT_SAME(rowanspan_commits(index), 5);
    rowanspan_close(index);
    ends("conditional_puts");
}

static void keys(void) {
    rowanspan *index = opened(1, 4096, 0);
    enum { MOST = ROWANSPAN_MAX_KEY_BYTES, TOO_MANY = MOST + 1 };
    char key[TOO_MANY];
    uint8_t room[2048];
    uint64_t number = 99;
    begins();
    memset(key, 'k', sizeof key);
    WANT_SAME(rowanspan_put(index, key, MOST, NULL, 0, &number), ROWANSPAN_OK);
    WANT_SAME(rowanspan_put(index, key, TOO_MANY, NULL, 0, &number), ROWANSPAN_KEY_TOO_LONG);
    WANT_SAME(rowanspan_put_if(index, key, TOO_MANY, NULL, 0, 0, &number), ROWANSPAN_KEY_TOO_LONG);
    WANT_SAME(rowanspan_get(index, key, TOO_MANY, NULL, 0, room, sizeof room, &number), ROWANSPAN_KEY_TOO_LONG);
    WANT_SAME(rowanspan_range(index, key, TOO_MANY, 1, NULL, 0, room, sizeof room, &number), ROWANSPAN_KEY_TOO_LONG);
    WANT_SAME(rowanspan_remove(index, key, TOO_MANY, &number), ROWANSPAN_KEY_TOO_LONG);
    WANT_SAME(rowanspan_tidy(index, key, TOO_MANY, &number), ROWANSPAN_KEY_TOO_LONG);
    WANT_SAME(rowanspan_build_prefix(index, key, TOO_MANY, rowanspan_any(), &number), ROWANSPAN_KEY_TOO_LONG);
    WANT_SAME(rowanspan_view(index, 1, 0, key, TOO_MANY, 1, room, sizeof room, &number), ROWANSPAN_KEY_TOO_LONG);
    WANT_SAME(rowanspan_put(index, NULL, 0, NULL, 0, &number), ROWANSPAN_OK);
    WANT_SAME(rowanspan_get(index, NULL, 0, NULL, 0, room, sizeof room, &number), ROWANSPAN_OK);
    WANT_SAME(rowanspan_range(index, NULL, 0, 0, NULL, 0, room, sizeof room, &number), ROWANSPAN_BAD_LIMIT);
    WANT_SAME(rowanspan_range(index, NULL, 0, 1001, NULL, 0, room, sizeof room, &number), ROWANSPAN_BAD_LIMIT);
    WANT_SAME(rowanspan_range(index, NULL, 0, 1000, NULL, 0, room, sizeof room, &number), ROWANSPAN_OK);
    WANT_SAME(rowanspan_remove(index, NULL, 0, &number), ROWANSPAN_OK);
    WANT_SAME(number, 3);
    WANT_SAME(rowanspan_remove(index, NULL, 0, &number), ROWANSPAN_ABSENT);
    WANT_SAME(number, 0);
    WANT_SAME(rowanspan_get(index, NULL, 0, NULL, 0, room, sizeof room, &number), ROWANSPAN_ABSENT);
    WANT_SAME(number, 0);
    rowanspan_close(index);
    ends("keys");
}

/* With each room up to the answer's, and some more: nothing is written if there is too little, and never past it. */
static void rooms(void) {
    rowanspan *index = opened(2, 16, 16);
    struct rowanspan_set set = rowanspan_set(1, "xyz", 3);
    uint8_t room[200], answer[200];
    uint64_t number = 99, wanted;
    size_t given, i;
    begins();
    WANT_SAME(rowanspan_put(index, "key", 3, &set, 1, &number), ROWANSPAN_OK);
    WANT_SAME(rowanspan_get(index, "key", 3, NULL, 0, answer, sizeof answer, &wanted), ROWANSPAN_OK);
    WANT_SAME(wanted, 35);
    for (given = 0; given <= wanted + 2; given++) {
        memset(room, 0xee, sizeof room);
        rowanspan_status status = rowanspan_get(index, "key", 3, NULL, 0, room, given, &number);
        WANT_SAME(status, given < wanted ? ROWANSPAN_NO_ROOM : ROWANSPAN_OK);
        WANT_SAME(number, wanted);
        for (i = 0; i < sizeof room; i++) {
            WANT_SAME(room[i], given >= wanted && i < wanted ? answer[i] : 0xee);
        }
    }
    rowanspan_close(index);
    ends("rooms");
}

/* A buffer that is null has no room, also if the caller says that it has some. */
static void null_buffers(void) {
    rowanspan *index = opened(2, 16, 16);
    struct rowanspan_set set = rowanspan_set(1, "xyz", 3);
    uint64_t number = 99, view;
    size_t room;
    begins();
    WANT_SAME(rowanspan_put(index, "key", 3, &set, 1, &number), ROWANSPAN_OK);
    WANT_SAME(rowanspan_build_prefix(index, NULL, 0, rowanspan_any(), &view), ROWANSPAN_OK);
    for (room = 0; room <= 1000; room += 1000) {
        WANT_SAME(rowanspan_get(index, "key", 3, NULL, 0, NULL, room, &number), ROWANSPAN_NO_ROOM);
        WANT_SAME(number, 35);
        WANT_SAME(rowanspan_range(index, NULL, 0, 9, NULL, 0, NULL, room, &number), ROWANSPAN_NO_ROOM);
        WANT_SAME(number, 8 + 8 + 3 + 35);
        WANT_SAME(rowanspan_view(index, view, 0, NULL, 0, 9, NULL, room, &number), ROWANSPAN_NO_ROOM);
        WANT_SAME(number, 8 + 8 + 8 + 2 * 16 + 8 + 8 + 3 + 35);
        WANT_SAME(rowanspan_feed(index, 0, 9, NULL, room, &number), ROWANSPAN_NO_ROOM);
        WANT_SAME(number, 8 + 8 + 11 + 8 + 8 + 35);
    }
    rowanspan_close(index);
    ends("null_buffers");
}

/* How many rows there are. A put over a row adds none, and a change that is refused or finds no row leaves their number
 * as it is. */
static void lengths(void) {
    rowanspan *index = opened(1, 16, 0);
    begins();
    WANT_SAME(rowanspan_len(index), 0);
    WANT_SAME(rowanspan_remove(index, "a", 1, NULL), ROWANSPAN_ABSENT);
    WANT_SAME(rowanspan_len(index), 0);
    WANT_SAME(put_text(index, "a", "1", NULL), ROWANSPAN_OK);
    WANT_SAME(put_text(index, "aaaaaaaab", "2", NULL), ROWANSPAN_OK);
    WANT_SAME(rowanspan_put(index, NULL, 0, NULL, 0, NULL), ROWANSPAN_OK);
    WANT_SAME(rowanspan_len(index), 3);
    WANT_SAME(put_text(index, "a", "4", NULL), ROWANSPAN_OK);
    WANT_SAME(rowanspan_len(index), 3);
    WANT_SAME(rowanspan_put_if(index, "b", 1, NULL, 0, 9, NULL), ROWANSPAN_OTHER_VERSION);
    WANT_SAME(rowanspan_len(index), 3);
    WANT_SAME(rowanspan_put_if(index, "b", 1, NULL, 0, 0, NULL), ROWANSPAN_OK);
    WANT_SAME(rowanspan_len(index), 4);
    WANT_SAME(rowanspan_remove(index, "aaaaaaaab", 9, NULL), ROWANSPAN_OK);
    WANT_SAME(rowanspan_len(index), 3);
    WANT_SAME(rowanspan_remove(index, "aaaaaaaab", 9, NULL), ROWANSPAN_ABSENT);
    WANT_SAME(rowanspan_len(index), 3);
    WANT_SAME(rowanspan_tidy(index, "a", 1, NULL), ROWANSPAN_OK);
    WANT_SAME(rowanspan_len(index), 3);
    rowanspan_close(index);
    ends("lengths");
}

/* The bytes of one column of a row, and each status. */
static void one_column(void) {
    enum { TOO_MANY = ROWANSPAN_MAX_KEY_BYTES + 1 };
    static const char long_key[TOO_MANY];
    rowanspan *index = opened(16, 16, 0);
    struct rowanspan_set sets[2];
    char bytes[ROWANSPAN_MAX_COLUMN_BYTES];
    uint8_t room[100];
    uint64_t number = 99;
    begins();
    memset(bytes, 'x', sizeof bytes);
    sets[0] = rowanspan_set(15, bytes, sizeof bytes);
    sets[1] = rowanspan_set(2, "abc", 3);
    WANT_SAME(rowanspan_put(index, "key", 3, sets, 2, NULL), ROWANSPAN_OK);
    WANT_SAME(rowanspan_get_column(index, "key", 3, 2, room, sizeof room, &number), ROWANSPAN_OK);
    WANT(number == 3 && memcmp(room, "abc", 3) == 0);
    WANT_SAME(rowanspan_get_column(index, "key", 3, 15, room, sizeof room, &number), ROWANSPAN_OK);
    WANT(number == sizeof bytes && memcmp(room, bytes, sizeof bytes) == 0);
    WANT_SAME(rowanspan_get_column(index, "key", 3, 0, NULL, 0, &number), ROWANSPAN_OK);
    WANT_SAME(number, 0);
    WANT_SAME(rowanspan_get_column(index, "key", 3, 2, NULL, 100, &number), ROWANSPAN_NO_ROOM);
    WANT_SAME(number, 3);
    WANT_SAME(rowanspan_get_column(index, "kex", 3, 2, room, sizeof room, &number), ROWANSPAN_ABSENT);
    WANT_SAME(number, 0);
    number = 99;
    WANT_SAME(rowanspan_get_column(index, "key", 3, 16, room, sizeof room, &number), ROWANSPAN_BAD_COLUMN);
    WANT_SAME(number, 0);
    number = 99;
    WANT_SAME(rowanspan_get_column(index, long_key, TOO_MANY, 2, room, 0, &number), ROWANSPAN_KEY_TOO_LONG);
    WANT_SAME(number, 0);
    WANT_SAME(rowanspan_get_column(index, "key", 3, 2, room, sizeof room, NULL), ROWANSPAN_OK);
    rowanspan_close(index);
    ends("one_column");
}

/* With each room up to the column's bytes, and some more: nothing is written if there is too little, and never past
 * it. */
static void rooms_of_a_column(void) {
    rowanspan *index = opened(1, 16, 0);
    uint8_t room[16];
    uint64_t number = 99;
    size_t given, i;
    begins();
    WANT_SAME(put_text(index, "key", "value", NULL), ROWANSPAN_OK);
    for (given = 0; given <= 7; given++) {
        memset(room, 0xee, sizeof room);
        WANT_SAME(rowanspan_get_column(index, "key", 3, 0, room, given, &number),
                  given < 5 ? ROWANSPAN_NO_ROOM : ROWANSPAN_OK);
        WANT_SAME(number, 5);
        for (i = 0; i < sizeof room; i++) {
            WANT_SAME(room[i], given >= 5 && i < 5 ? (uint8_t)"value"[i] : 0xee);
        }
    }
    rowanspan_close(index);
    ends("rooms_of_a_column");
}

/* Each call on rows does the same if the pointer to its number is null. */
static void null_numbers(void) {
    rowanspan *index = opened(1, 16, 0);
    struct rowanspan_set set = rowanspan_set(0, "red", 3);
    uint8_t room[128];
    begins();
    WANT_SAME(rowanspan_put(index, "apple", 5, &set, 1, NULL), ROWANSPAN_OK);
    WANT_SAME(rowanspan_put_if(index, "apple", 5, &set, 1, 1, NULL), ROWANSPAN_OK);
    WANT_SAME(rowanspan_put_if(index, "apple", 5, &set, 1, 1, NULL), ROWANSPAN_OTHER_VERSION);
    WANT_SAME(rowanspan_get(index, "apple", 5, NULL, 0, room, sizeof room, NULL), ROWANSPAN_OK);
    WANT(room[7] == 2 && memcmp(room + 24, "red", 3) == 0);
    WANT_SAME(rowanspan_get(index, "apple", 5, NULL, 0, NULL, 0, NULL), ROWANSPAN_NO_ROOM);
    WANT_SAME(rowanspan_get_column(index, "apple", 5, 0, room, sizeof room, NULL), ROWANSPAN_OK);
    WANT(memcmp(room, "red", 3) == 0);
    WANT_SAME(rowanspan_range(index, NULL, 0, 9, NULL, 0, room, sizeof room, NULL), ROWANSPAN_OK);
    WANT(room[7] == 1 && memcmp(room + 16, "apple", 5) == 0);
    WANT_SAME(rowanspan_range(index, NULL, 0, 9, NULL, 0, NULL, 0, NULL), ROWANSPAN_NO_ROOM);
    WANT_SAME(rowanspan_tidy(index, "apple", 5, NULL), ROWANSPAN_OK);
    WANT_SAME(rowanspan_remove(index, "apple", 5, NULL), ROWANSPAN_OK);
    WANT_SAME(rowanspan_remove(index, "apple", 5, NULL), ROWANSPAN_ABSENT);
    WANT_SAME(rowanspan_commits(index), 3);
    rowanspan_close(index);
    ends("null_numbers");
}

static void ranges(void) {
    rowanspan *index = opened(1, 4096, 0);
    uint8_t room[4096];
    uint64_t number = 99;
    struct rowanspan_reader reader;
    struct rowanspan_pair pair;
    begins();
    WANT_SAME(put_text(index, "b", "2", &number), ROWANSPAN_OK);
    WANT_SAME(put_text(index, "a", "1", &number), ROWANSPAN_OK);
    WANT_SAME(put_text(index, "ab", "3", &number), ROWANSPAN_OK);
    WANT_SAME(rowanspan_range(index, "a", 1, 2, NULL, 0, room, sizeof room, &number), ROWANSPAN_OK);
    reader = rowanspan_reader(room, number);
    WANT_SAME(rowanspan_read_count(&reader), 2);
    pair = rowanspan_read_pair(&reader);
    WANT(is_text(pair.key, "a"));
    WANT_SAME(pair.row.version, 2);
    WANT(is_text(rowanspan_read_bytes(&pair.row.columns), "1"));
    WANT(is_text(rowanspan_read_bytes(&reader), "ab"));
    WANT_SAME(rowanspan_read_row(&reader).version, 3);
    WANT(!reader.is_short && reader.left == 0);
    WANT_SAME(rowanspan_range(index, "c", 1, 2, NULL, 0, room, sizeof room, &number), ROWANSPAN_OK);
    WANT_SAME(number, 8);
    reader = rowanspan_reader(room, number);
    WANT_SAME(rowanspan_read_count(&reader), 0);
    WANT_SAME(rowanspan_read_number(&reader), 0);
    WANT(reader.is_short);
    rowanspan_close(index);
    ends("ranges");
}

int main(void) {
    worked_row();
    columns();
    bad_columns();
    conditional_puts();
    keys();
    rooms();
    null_buffers();
    lengths();
    one_column();
    rooms_of_a_column();
    null_numbers();
    ranges();
    return all_told();
}
