/* A word count with a live view: each word is a row, whose column is how often it came. The view holds the words that
 * came at least twice, in their order, and its sum is how many words those are. */
#include <ctype.h>
#include <stdio.h>
#include <stdlib.h>
#include <string.h>

#include "rowanspan.h"

static const char text[] =
    "the tree of the index is a trie of trees, and each tree of the trie has the rows of one layer of the index";

/* Ends the program if a call was not done. */
static void want(rowanspan_status status) {
    if (status != ROWANSPAN_OK) {
        fprintf(stderr, "word_count: %s\n", rowanspan_status_text(status));
        exit(1);
    }
}

/* How often a word came so far. */
static unsigned count_of(const rowanspan *index, const char *word, size_t length) {
    uint8_t times;
    rowanspan_status status = rowanspan_get_column(index, word, length, 0, &times, 1, NULL);
    if (status == ROWANSPAN_ABSENT) {
        return 0;
    }
    want(status);
    return times;
}

static void count(rowanspan *index, const char *word, size_t length) {
    uint8_t more = (uint8_t)(count_of(index, word, length) + 1);
    struct rowanspan_set set = rowanspan_set(0, &more, 1);
    want(rowanspan_put(index, word, length, &set, 1, NULL));
    want(rowanspan_keep_views(index, NULL));
}

static void show(const rowanspan *index, uint64_t view) {
    uint8_t room[4096];
    uint64_t length;
    struct rowanspan_reader reader;
    struct rowanspan_page page;
    size_t left;
    want(rowanspan_view(index, view, 0, NULL, 0, 100, room, sizeof room, &length));
    reader = rowanspan_reader(room, length);
    page = rowanspan_read_page(&reader);
    printf("after %d words, %d came at least twice, %d in all:", (int)page.commit, (int)page.row_count,
           (int)page.sums[0].lower);
    for (left = page.pair_count; left > 0; left--) {
        struct rowanspan_pair pair = rowanspan_read_pair(&page.pairs);
        struct rowanspan_bytes times = rowanspan_read_bytes(&pair.row.columns);
        printf(" %.*s %d", (int)pair.key.length, (const char *)pair.key.at, times.at[0]);
    }
    printf("\n");
}

int main(void) {
    rowanspan *index;
    uint64_t often;
    const char *at = text;
    want(rowanspan_open(&index, 1, 64, 0));
    want(rowanspan_build_prefix(index, NULL, 0, rowanspan_at_least(0, 2), &often));
    while (*at) {
        size_t length = 0;
        while (isalpha((unsigned char)at[length])) {
            length++;
        }
        if (length > 0) {
            count(index, at, length);
            if (rowanspan_commits(index) % 8 == 0) {
                show(index, often);
            }
        }
        at += length > 0 ? length : 1;
    }
    show(index, often);
    rowanspan_close(index);
    return 0;
}
