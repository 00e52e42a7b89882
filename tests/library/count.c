/* Counts of ranges: by example, each status, and by chance against a sorted array. */
#include "plain_keys.h"

enum { MOST = ROWANSPAN_MAX_KEY_BYTES };

/* Counts the rows from a key on and before another one, or to the last one if that is null. */
static uint32_t counted(const rowanspan *index, const char *start, const char *end, uint32_t most) {
    uint32_t count = 99;
    WANT_SAME(rowanspan_count(index, start, strlen(start), end, end ? strlen(end) : 0, most, &count), ROWANSPAN_OK);
    return count;
}

/* Wants a range to have `wanted` rows: without a bound, and up to 0, 1, one fewer, exactly as many and one more. */
static void want_count(const rowanspan *index, const char *start, const char *end, uint32_t wanted) {
    uint32_t most;
    WANT_SAME(counted(index, start, end, UINT32_MAX), wanted);
    WANT_SAME(counted(index, start, end, 0), 0);
    WANT_SAME(counted(index, start, end, 1), wanted > 0);
    for (most = wanted > 0 ? wanted - 1 : 0; most <= wanted + 1; most++) {
        WANT_SAME(counted(index, start, end, most), most < wanted ? most : wanted);
    }
}

static void put_keys(rowanspan *index, const char *const *keys) {
    for (; *keys; keys++) {
        WANT_SAME(put_text(index, *keys, *keys, NULL), ROWANSPAN_OK);
    }
}

static void remove_text(rowanspan *index, const char *key) {
    WANT_SAME(rowanspan_remove(index, key, strlen(key), NULL), ROWANSPAN_OK);
}

static void by_example(void) {
    static const char *const keys[] = {"b", "a", "ab", "c", "abc", NULL};
    rowanspan *index = opened(1, 4096, 0);
    begins();
    want_count(index, "", NULL, 0);
    want_count(index, "a", "b", 0);
    put_keys(index, keys);
    want_count(index, "", NULL, 5);
    want_count(index, "a", NULL, 5);
    want_count(index, "ab", NULL, 4);
    want_count(index, "ab", "b", 2);
    want_count(index, "aa", "abb", 1);
    want_count(index, "a", "c", 4);
    want_count(index, "", "z", 5);
    want_count(index, "c", NULL, 1);
    want_count(index, "d", NULL, 0);
    /* a row is counted once, also after another put, and a removed one isn't */
    WANT_SAME(put_text(index, "ab", "again", NULL), ROWANSPAN_OK);
    want_count(index, "", NULL, 5);
    remove_text(index, "ab");
    want_count(index, "", NULL, 4);
    want_count(index, "ab", "b", 1);
    remove_text(index, "abc");
    want_count(index, "ab", "b", 0);
    rowanspan_close(index);
    ends("by_example");
}

/* Bounds that are null, empty, the same, or in the wrong order. */
static void bounds(void) {
    static const char *const keys[] = {"a", "b", "c", NULL};
    rowanspan *index = opened(1, 4096, 0);
    uint32_t count = 99;
    begins();
    put_keys(index, keys);
    WANT_SAME(rowanspan_put(index, NULL, 0, NULL, 0, NULL), ROWANSPAN_OK);
    want_count(index, "", NULL, 4);
    want_count(index, "", "", 0);
    want_count(index, "a", "", 0);
    want_count(index, "", "a", 1);
    want_count(index, "b", "b", 0);
    want_count(index, "b", "b!", 1);
    want_count(index, "c", "a", 0);
    want_count(index, "z", "a", 0);
    /* (the length of a key that is null isn't used, and that of the empty key is 0) */
    WANT_SAME(rowanspan_count(index, NULL, 0, NULL, 9999, UINT32_MAX, &count), ROWANSPAN_OK);
    WANT_SAME(count, 4);
    WANT_SAME(rowanspan_count(index, "a\0", 2, "c\0", 2, UINT32_MAX, &count), ROWANSPAN_OK);
    WANT_SAME(count, 2);
    WANT_SAME(rowanspan_count(index, "a", 1, "c", 1, 9, NULL), ROWANSPAN_OK);
    rowanspan_close(index);
    ends("bounds");
}

/* Keys that begin alike with one, two and three times eight bytes: each such beginning has a layer. */
static void layers(void) {
    static const char *const keys[] = {"aaaaaaaa", "aaaaaaaab", "aaaaaaaabbbbbbbb", "aaaaaaaabbbbbbbbc", "aaaaaaab",
                                       "aaaaaaaabbbbbbbbd", "aaaaaaaabbbbbbbbccccccccx", "aaaaaaaac", "aaaaaaa",
                                       "aaaaaaaabbbbbbbbccccccccy", NULL};
    rowanspan *index = opened(1, 4096, 0);
    begins();
    put_keys(index, keys);
    want_count(index, "", NULL, 10);
    want_count(index, "aaaaaaaa", NULL, 9);
    want_count(index, "aaaaaaaa", "aaaaaaab", 8);
    want_count(index, "aaaaaaaab", "aaaaaaaac", 6);
    want_count(index, "aaaaaaaabbbbbbbb", "aaaaaaaabbbbbbbbd", 4);
    want_count(index, "aaaaaaaabbbbbbbbc", "aaaaaaaabbbbbbbbd", 3);
    want_count(index, "aaaaaaaabbbbbbbbcccccccc", "aaaaaaaabbbbbbbbccccccccy", 1);
    want_count(index, "aaaaaaaabbbbbbbbccccccccz", "aaaaaaaac", 1);
    remove_text(index, "aaaaaaaabbbbbbbbccccccccx");
    want_count(index, "aaaaaaaabbbbbbbbc", "aaaaaaaabbbbbbbbd", 2);
    remove_text(index, "aaaaaaaabbbbbbbbccccccccy");
    want_count(index, "aaaaaaaabbbbbbbbc", "aaaaaaaabbbbbbbbd", 1);
    want_count(index, "", NULL, 8);
    rowanspan_close(index);
    ends("layers");
}

/* Rows in many nodes, of which some are then removed, and all. */
static void many(void) {
    enum { COUNT = 3000 };
    rowanspan *index = opened(1, 65536, 0);
    char key[16], end[16];
    int i;
    begins();
    for (i = 0; i < COUNT; i++) {
        snprintf(key, sizeof key, "key%04d", i * 7 % COUNT);
        WANT_SAME(put_text(index, key, "", NULL), ROWANSPAN_OK);
    }
    want_count(index, "", NULL, COUNT);
    for (i = 0; i <= COUNT; i += 97) {
        snprintf(key, sizeof key, "key%04d", i);
        snprintf(end, sizeof end, "key%04d", i + 500);
        want_count(index, "", key, (uint32_t)i);
        want_count(index, key, NULL, (uint32_t)(COUNT - i));
        want_count(index, key, end, (uint32_t)(COUNT - i < 500 ? COUNT - i : 500));
    }
    for (i = 0; i < COUNT; i++) {
        snprintf(key, sizeof key, "key%04d", i);
        if (i % 3 > 0) {
            remove_text(index, key);
        }
    }
    want_count(index, "", NULL, COUNT / 3);
    want_count(index, "key0300", "key0600", 100);
    for (i = 0; i < COUNT; i += 3) {
        snprintf(key, sizeof key, "key%04d", i);
        remove_text(index, key);
        WANT_SAME(counted(index, "", NULL, UINT32_MAX), COUNT / 3 - i / 3 - 1);
    }
    rowanspan_close(index);
    ends("many");
}

/* A key that is too long is refused, also if nothing is to be counted; the greatest key isn't. */
static void refused(void) {
    static uint8_t long_key[MOST + 1];
    static const struct {
        size_t start, end;
        bool has_end;
        uint32_t most;
        rowanspan_status status;
    } cases[] = {{MOST + 1, 0, false, 9, ROWANSPAN_KEY_TOO_LONG}, {0, MOST + 1, true, 9, ROWANSPAN_KEY_TOO_LONG},
                 {MOST + 1, 0, true, 9, ROWANSPAN_KEY_TOO_LONG},  {MOST + 1, MOST + 1, true, 0, ROWANSPAN_KEY_TOO_LONG},
                 {MOST, MOST + 1, true, 0, ROWANSPAN_KEY_TOO_LONG}, {MOST + 1, 0, false, 0, ROWANSPAN_KEY_TOO_LONG},
                 {0, MOST + 1, false, 9, ROWANSPAN_OK},           {MOST, MOST, true, 9, ROWANSPAN_OK},
                 {MOST, 0, false, 9, ROWANSPAN_OK},               {0, MOST, true, 9, ROWANSPAN_OK}};
    rowanspan *index = opened(1, 16, 0);
    size_t i;
    begins();
    memset(long_key, 'k', sizeof long_key);
    WANT_SAME(rowanspan_put(index, long_key, MOST, NULL, 0, NULL), ROWANSPAN_OK);
    WANT_SAME(rowanspan_put(index, long_key, MOST - 1, NULL, 0, NULL), ROWANSPAN_OK);
    for (i = 0; i < sizeof cases / sizeof cases[0]; i++) {
        uint32_t count = 99, wanted = 0;
        if (cases[i].status == ROWANSPAN_OK) {
            wanted = (cases[i].start == 0) + !cases[i].has_end;
        }
        WANT_SAME(rowanspan_count(index, long_key, cases[i].start, cases[i].has_end ? long_key : NULL, cases[i].end,
                                  cases[i].most, &count), cases[i].status);
        WANT_SAME(count, wanted);
        WANT_SAME(rowanspan_count(index, long_key, cases[i].start, cases[i].has_end ? long_key : NULL, cases[i].end,
                                  cases[i].most, NULL), cases[i].status);
    }
    WANT_SAME(rowanspan_commits(index), 2);
    rowanspan_close(index);
    ends("refused");
}

/* How many rows are from a key on and before another one, which may be in the wrong order, up to a number. */
static void count_once(const rowanspan *index) {
    struct plain_row start = chance_bound(), end = chance_bound();
    bool is_bounded = chance(5) > 0;
    size_t first = count_before(&start), last = is_bounded ? count_before(&end) : row_count;
    size_t wanted = first < last ? last - first : 0;
    uint32_t most = chance(2) ? UINT32_MAX : (uint32_t)chance(chance(2) ? 10 : 2 * wanted + 3), count = 99;
    WANT_SAME(rowanspan_count(index, start.key, start.length, is_bounded ? end.key : NULL, end.length, most, &count),
              ROWANSPAN_OK);
    WANT_SAME(count, wanted < most ? wanted : most);
}

int main(void) {
    by_example();
    bounds();
    layers();
    many();
    refused();
    by_chance("counts", count_once);
    return all_told();
}
