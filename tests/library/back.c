/* Ranges against the order of keys: by example, each status, and by chance against a sorted array. */
#include "plain_keys.h"

enum { MOST = ROWANSPAN_MAX_KEY_BYTES };

static uint8_t answer[1 << 18];

/* Wants the keys of the last rows before a key, in this order, with spaces between them. Their column has the key's
 * bytes. */
static void want_keys(const rowanspan *index, const char *before, uint16_t limit, const char *wanted) {
    char got[256] = "";
    uint64_t number = 99;
    struct rowanspan_reader reader;
    size_t count;
    WANT_SAME(rowanspan_range_back(index, before, before ? strlen(before) : 0, limit, NULL, 0, answer, sizeof answer,
                                   &number), ROWANSPAN_OK);
    reader = rowanspan_reader(answer, number);
    for (count = rowanspan_read_count(&reader); count > 0; count--) {
        struct rowanspan_pair pair = rowanspan_read_pair(&reader);
        struct rowanspan_bytes bytes = rowanspan_read_bytes(&pair.row.columns);
        WANT(bytes.length == pair.key.length && memcmp(bytes.at, pair.key.at, bytes.length) == 0);
        strncat(got, (const char *)pair.key.at, pair.key.length);
        strcat(got, count > 1 ? " " : "");
    }
    WANT(!reader.is_short && reader.left == 0);
    if (strcmp(got, wanted) != 0) {
        printf("before %s: \"%s\" instead of \"%s\"\n", before ? before : "the end", got, wanted);
    }
    WANT(strcmp(got, wanted) == 0);
}

static void put_keys(rowanspan *index, const char *const *keys) {
    for (; *keys; keys++) {
        WANT_SAME(put_text(index, *keys, *keys, NULL), ROWANSPAN_OK);
    }
}

/* The bytes of the last row after two commits. */
static void worked_range(void) {
    static const uint8_t wanted[43] = {0, 0, 0, 0, 0, 0, 0, 1, 0, 0, 0, 0, 0, 0, 0, 4, 'p', 'e', 'a', 'r',
                                       0, 0, 0, 0, 0, 0, 0, 2, 0, 0, 0, 0, 0, 0, 0, 1, 0, 0, 0, 0, 0, 0, 0};
    rowanspan *index = opened(1, 16, 0);
    uint8_t room[48];
    uint64_t number = 99;
    begins();
    WANT_SAME(put_text(index, "apple", "red", NULL), ROWANSPAN_OK);
    WANT_SAME(put_text(index, "pear", "green", NULL), ROWANSPAN_OK);
    WANT_SAME(rowanspan_range_back(index, NULL, 0, 1, NULL, 0, room, sizeof room, &number), ROWANSPAN_NO_ROOM);
    WANT_SAME(number, 49);
    WANT_SAME(rowanspan_range_back(index, NULL, 0, 1, NULL, 0, answer, sizeof answer, &number), ROWANSPAN_OK);
    WANT_SAME(number, 49);
    WANT(memcmp(answer, wanted, sizeof wanted) == 0 && answer[43] == 5 && memcmp(answer + 44, "green", 5) == 0);
    rowanspan_close(index);
    ends("worked_range");
}

static void by_example(void) {
    static const char *const keys[] = {"b", "a", "ab", "c", "abc", NULL};
    rowanspan *index = opened(1, 4096, 0);
    uint64_t number = 99;
    begins();
    want_keys(index, NULL, 9, "");
    want_keys(index, "a", 9, "");
    put_keys(index, keys);
    want_keys(index, NULL, 1000, "c b abc ab a");
    want_keys(index, NULL, 2, "c b");
    want_keys(index, "c", 9, "b abc ab a");
    want_keys(index, "bb", 1, "b");
    want_keys(index, "b", 2, "abc ab");
    want_keys(index, "abb", 9, "ab a");
    want_keys(index, "ab", 9, "a");
    want_keys(index, "a", 9, "");
    want_keys(index, "", 9, "");
    want_keys(index, "z", 1, "c");
    /* the empty key is the first of all, and nothing is before it */
    WANT_SAME(rowanspan_put(index, NULL, 0, NULL, 0, NULL), ROWANSPAN_OK);
    WANT_SAME(rowanspan_range_back(index, "", 0, 9, NULL, 0, answer, sizeof answer, &number), ROWANSPAN_OK);
    WANT_SAME(number, 8);
    WANT_SAME(rowanspan_range_back(index, "a", 1, 9, NULL, 0, answer, sizeof answer, &number), ROWANSPAN_OK);
    WANT_SAME(number, 8 + 8 + 0 + 8 + 8 + 8);
    /* (the length of a key that is null isn't used) */
    WANT_SAME(rowanspan_range_back(index, NULL, 9999, 1, NULL, 0, answer, sizeof answer, &number), ROWANSPAN_OK);
    WANT(answer[7] == 1 && answer[15] == 1 && answer[16] == 'c');
    WANT_SAME(rowanspan_remove(index, "c", 1, NULL), ROWANSPAN_OK);
    want_keys(index, NULL, 1, "b");
    want_keys(index, "c", 1, "b");
    rowanspan_close(index);
    ends("by_example");
}

/* Keys that begin alike with one, two and three times eight bytes: each such beginning has a layer. */
static void layers(void) {
    static const char *const keys[] = {"aaaaaaaa", "aaaaaaaab", "aaaaaaaabbbbbbbb", "aaaaaaaabbbbbbbbc", "aaaaaaab",
                                       "aaaaaaaabbbbbbbbd", "aaaaaaaabbbbbbbbccccccccx", "aaaaaaaac", "aaaaaaa",
                                       "aaaaaaaabbbbbbbbccccccccy", NULL};
    rowanspan *index = opened(1, 4096, 0);
    begins();
    put_keys(index, keys);
    want_keys(index, NULL, 2, "aaaaaaab aaaaaaaac");
    want_keys(index, "aaaaaaaac", 3, "aaaaaaaabbbbbbbbd aaaaaaaabbbbbbbbccccccccy aaaaaaaabbbbbbbbccccccccx");
    want_keys(index, "aaaaaaaabbbbbbbbccccccccy", 3,
              "aaaaaaaabbbbbbbbccccccccx aaaaaaaabbbbbbbbc aaaaaaaabbbbbbbb");
    want_keys(index, "aaaaaaaabbbbbbbb", 9, "aaaaaaaab aaaaaaaa aaaaaaa");
    want_keys(index, "aaaaaaaa", 9, "aaaaaaa");
    want_keys(index, "aaaaaaaabbbbbbbbcccccccc", 2, "aaaaaaaabbbbbbbbc aaaaaaaabbbbbbbb");
    WANT_SAME(rowanspan_remove(index, "aaaaaaaabbbbbbbbccccccccx", 25, NULL), ROWANSPAN_OK);
    WANT_SAME(rowanspan_remove(index, "aaaaaaaabbbbbbbbccccccccy", 25, NULL), ROWANSPAN_OK);
    want_keys(index, "aaaaaaaabbbbbbbbd", 2, "aaaaaaaabbbbbbbbc aaaaaaaabbbbbbbb");
    rowanspan_close(index);
    ends("layers");
}

/* Calls that break limits are refused for the first one, and leave the buffer as it was. */
static void refused(void) {
    static const uint8_t twice[2] = {1, 1}, none_such[1] = {2}, both[2] = {1, 0};
    static const char long_key[MOST + 1];
    rowanspan *index = opened(2, 16, 0);
    static const struct {
        const char *before;
        size_t length;
        uint16_t limit;
        const uint8_t *columns;
        size_t count;
        rowanspan_status status;
    } cases[] = {
        {long_key, MOST + 1, 0, none_such, 1, ROWANSPAN_KEY_TOO_LONG},
        {long_key, MOST + 1, 1, NULL, 0, ROWANSPAN_KEY_TOO_LONG},
        {long_key, MOST, 0, none_such, 1, ROWANSPAN_BAD_COLUMN},
        {NULL, 0, 9, twice, 2, ROWANSPAN_BAD_COLUMN},
        {NULL, MOST + 1, 1001, none_such, 1, ROWANSPAN_BAD_COLUMN},
        {NULL, MOST + 1, 0, NULL, 0, ROWANSPAN_BAD_LIMIT},
        {"", 0, 1001, both, 2, ROWANSPAN_BAD_LIMIT},
        {"k", 1, 65535, NULL, 0, ROWANSPAN_BAD_LIMIT},
        {long_key, MOST, 1, both, 2, ROWANSPAN_OK},
        {NULL, 0, 1000, both, 2, ROWANSPAN_OK}};
    size_t i;
    begins();
    WANT_SAME(put_text(index, "key", "value", NULL), ROWANSPAN_OK);
    for (i = 0; i < sizeof cases / sizeof cases[0]; i++) {
        uint64_t number = 99;
        bool is_done = cases[i].status == ROWANSPAN_OK;
        memset(answer, 0xee, 8);
        WANT_SAME(rowanspan_range_back(index, cases[i].before, cases[i].length, cases[i].limit, cases[i].columns,
                                       cases[i].count, answer, sizeof answer, &number), cases[i].status);
        WANT((number > 0) == is_done && (answer[0] == 0) == is_done);
    }
    WANT_SAME(rowanspan_commits(index), 1);
    rowanspan_close(index);
    ends("refused");
}

static void columns(void) {
    static const uint8_t asked[2] = {2, 0};
    rowanspan *index = opened(3, 16, 0);
    struct rowanspan_set sets[3] = {rowanspan_set(0, "a", 1), rowanspan_set(1, "bb", 2), rowanspan_set(2, "ccc", 3)};
    uint64_t number = 99;
    struct rowanspan_reader reader;
    struct rowanspan_pair pair;
    begins();
    WANT_SAME(rowanspan_put(index, "k", 1, NULL, 0, NULL), ROWANSPAN_OK);
    WANT_SAME(rowanspan_put(index, "l", 1, sets, 3, NULL), ROWANSPAN_OK);
    WANT_SAME(rowanspan_range_back(index, "m", 1, 2, asked, 2, answer, sizeof answer, &number), ROWANSPAN_OK);
    reader = rowanspan_reader(answer, number);
    WANT_SAME(rowanspan_read_count(&reader), 2);
    pair = rowanspan_read_pair(&reader);
    WANT(is_text(pair.key, "l") && pair.row.version == 2 && pair.row.column_count == 2);
    WANT(is_text(rowanspan_read_bytes(&pair.row.columns), "ccc"));
    WANT(is_text(rowanspan_read_bytes(&pair.row.columns), "a"));
    pair = rowanspan_read_pair(&reader);
    WANT(is_text(pair.key, "k") && pair.row.version == 1 && pair.row.column_count == 2);
    WANT(!reader.is_short && reader.left == 0);
    rowanspan_close(index);
    ends("columns");
}

/* With each room up to the answer's, and some more: nothing is written if there is too little, and never past it. A
 * buffer that is null has no room. */
static void rooms(void) {
    rowanspan *index = opened(1, 16, 0);
    uint8_t room[100];
    uint64_t number = 99, wanted;
    size_t given, i;
    begins();
    WANT_SAME(put_text(index, "b", "xyz", NULL), ROWANSPAN_OK);
    WANT_SAME(put_text(index, "a", "", NULL), ROWANSPAN_OK);
    WANT_SAME(rowanspan_range_back(index, "c", 1, 9, NULL, 0, answer, sizeof answer, &wanted), ROWANSPAN_OK);
    WANT_SAME(wanted, 8 + (8 + 1 + 8 + 8 + 8 + 3) + (8 + 1 + 8 + 8 + 8));
    for (given = 0; given <= wanted + 2; given++) {
        memset(room, 0xee, sizeof room);
        WANT_SAME(rowanspan_range_back(index, "c", 1, 9, NULL, 0, room, given, &number),
                  given < wanted ? ROWANSPAN_NO_ROOM : ROWANSPAN_OK);
        WANT_SAME(number, wanted);
        for (i = 0; i < sizeof room; i++) {
            WANT_SAME(room[i], given >= wanted && i < wanted ? answer[i] : 0xee);
        }
    }
    WANT_SAME(rowanspan_range_back(index, NULL, 0, 9, NULL, 0, NULL, 1000, &number), ROWANSPAN_NO_ROOM);
    WANT_SAME(number, wanted);
    WANT_SAME(rowanspan_range_back(index, NULL, 0, 9, NULL, 0, NULL, 0, NULL), ROWANSPAN_NO_ROOM);
    WANT_SAME(rowanspan_range_back(index, "", 0, 9, NULL, 0, room, 8, NULL), ROWANSPAN_OK);
    WANT_SAME(rowanspan_range_back(index, NULL, 0, 1, NULL, 0, room, sizeof room, NULL), ROWANSPAN_OK);
    WANT(room[7] == 1 && room[16] == 'b');
    rowanspan_close(index);
    ends("rooms");
}

/* ---- by chance */

/* The last rows before a key, which may be there, or before the end, or before the empty key. */
static void read_once(const rowanspan *index) {
    struct plain_row key = chance_bound();
    bool is_bounded = chance(10) > 0;
    size_t at;
    uint16_t limit = (uint16_t)(1 + chance(chance(50) ? 40 : 1000));
    uint64_t number;
    struct rowanspan_reader reader;
    at = is_bounded ? count_before(&key) : row_count;
    WANT_SAME(rowanspan_range_back(index, is_bounded ? key.key : NULL, key.length, limit, NULL, 0, answer,
                                   sizeof answer, &number), ROWANSPAN_OK);
    reader = rowanspan_reader(answer, number);
    limit = at < limit ? (uint16_t)at : limit;
    WANT_SAME(rowanspan_read_count(&reader), limit);
    for (; limit > 0; limit--) {
        struct rowanspan_pair pair = rowanspan_read_pair(&reader);
        at--;
        WANT(pair.key.length == rows[at].length && memcmp(pair.key.at, rows[at].key, pair.key.length) == 0);
        WANT_SAME(pair.row.version, rows[at].version);
    }
    WANT(!reader.is_short && reader.left == 0);
}

int main(void) {
    worked_range();
    by_example();
    layers();
    refused();
    columns();
    rooms();
    by_chance("ranges", read_once);
    return all_told();
}
