/* Batches while memory ends at each of their allocations in turn. It runs with wanting_memory.c preloaded. */
#define _GNU_SOURCE
#include <dlfcn.h>

#include "wanting.h"

static void (*memory_ends_after)(long);
static long (*memory_held)(void);

enum { ROWS = 40, PUTS = 30, CHANGES = PUTS + 6, ROOM = 1 << 15 };

/* The rows, the numbers and the views that an index shows; they are read while there is memory. */
struct shown {
    uint8_t rows[ROOM], feed[ROOM], page[ROOM];
    uint64_t rows_length, feed_length, page_length, commits, count;
};

static void show(const rowanspan *index, uint64_t view, struct shown *it) {
    memset(it, 0, sizeof *it);
    WANT_SAME(rowanspan_range(index, NULL, 0, 1000, NULL, 0, it->rows, ROOM, &it->rows_length), ROWANSPAN_OK);
    WANT_SAME(rowanspan_feed(index, 0, 1000, it->feed, ROOM, &it->feed_length), ROWANSPAN_OK);
    WANT_SAME(rowanspan_view(index, view, 0, NULL, 0, 1000, it->page, ROOM, &it->page_length), ROWANSPAN_OK);
    it->commits = rowanspan_commits(index);
    it->count = rowanspan_len(index);
}

/* An index with the rows k01, k02, .., and others in layers, and a view of them at the newest commit. */
static rowanspan *filled(uint64_t log_capacity, uint64_t *view) {
    rowanspan *index = opened(1, log_capacity, 4096);
    char key[32];
    int i;
    for (i = 0; i < ROWS; i++) {
        snprintf(key, sizeof key, i % 4 > 0 ? "k%02d" : "aaaaaaaabbbbbbbb%02d", i);
        WANT_SAME(put_text(index, key, "old", NULL), ROWANSPAN_OK);
    }
    WANT_SAME(rowanspan_build_prefix(index, NULL, 0, rowanspan_any(), view), ROWANSPAN_OK);
    return index;
}

/* A batch with puts of new and of old keys, in full nodes and new layers, and with removes, of which one finds no row.
 * A condition of it holds. */
static rowanspan_status make_batch(rowanspan *index, uint64_t *numbers, uint64_t *number, uint64_t *found) {
    static char keys[CHANGES][32];
    struct rowanspan_set set = rowanspan_set(0, "new", 3);
    struct rowanspan_condition conditions[] = {rowanspan_condition("k01", 3, 2), rowanspan_condition("k99", 3, 0)};
    struct rowanspan_change changes[CHANGES];
    int i;
    for (i = 0; i < CHANGES; i++) {
        if (i < PUTS) {
            snprintf(keys[i], sizeof keys[i], i % 3 > 0 ? "k%02d" : "aaaaaaaabbbbbbbbcccccccc%02d", 2 * i + 1);
            changes[i] = rowanspan_change_put(keys[i], strlen(keys[i]), &set, 1);
        } else {
            snprintf(keys[i], sizeof keys[i], "k%02d", i == PUTS ? 98 : 4 * (i - PUTS) + 2);
            changes[i] = rowanspan_change_remove(keys[i], strlen(keys[i]));
        }
    }
    return rowanspan_batch(index, conditions, 2, changes, CHANGES, numbers, number, found);
}

/* The numbers of a batch that was made after `commits` commits. */
static void want_numbers(const uint64_t *numbers, uint64_t commits) {
    int i;
    for (i = 0; i < CHANGES; i++) {
        WANT_SAME(numbers[i], i == PUTS ? 0 : commits + (uint64_t)(i < PUTS ? i + 1 : i));
    }
}

/* A batch for which memory ends after some allocations. If it is refused, all is as it was, and it is made when there
 * is memory again. */
static rowanspan_status batch_without_memory(long allocations) {
    static struct shown before, after;
    uint64_t numbers[CHANGES] = {99}, number = 99, found = 99, view = 0;
    rowanspan *index = filled(4096, &view);
    rowanspan_status status;
    show(index, view, &before);
    memory_ends_after(allocations);
    status = make_batch(index, numbers, &number, &found);
    memory_ends_after(-1);
    WANT_SAME(found, 0);
    if (status == ROWANSPAN_NO_MEMORY) {
        WANT(number == 0 && numbers[0] == 99 && numbers[1] == 0);
        show(index, view, &after);
        WANT(memcmp(&before, &after, sizeof before) == 0);
        WANT_SAME(make_batch(index, numbers, &number, &found), ROWANSPAN_OK);
    }
    want_numbers(numbers, before.commits);
    WANT_SAME(number, before.commits + CHANGES - 1);
    WANT_SAME(rowanspan_commits(index), number);
    WANT_SAME(rowanspan_keep_views(index, NULL), ROWANSPAN_OK);
    show(index, view, &after);
    WANT(after.count > before.count);
    rowanspan_close(index);
    return status;
}

/* Each allocation of a batch is refused in turn, until the batch is made. What it held is freed with the index. */
static void no_memory_for_batches(void) {
    rowanspan_status status = ROWANSPAN_NO_MEMORY;
    long allocations, before;
    begins();
    WANT_SAME(batch_without_memory(0), ROWANSPAN_NO_MEMORY);
    before = memory_held();
    for (allocations = 1; status == ROWANSPAN_NO_MEMORY && allocations < 5000; allocations++) {
        status = batch_without_memory(allocations);
        WANT_SAME(memory_held(), before);
    }
    printf("%ld batches were refused as out of memory\n", allocations - 1);
    WANT_SAME(status, ROWANSPAN_OK);
    WANT(allocations > CHANGES);
    ends("no_memory_for_batches");
}

enum { ROUNDS = 50, FEW = 20, MOST_HELD = 1000 };

/* Batches that are refused again and again, since memory ends in them, or since the log has room for few of their
 * commits. They change nothing, and hold no memory but that of slots and nodes, which the next one uses. */
static void refused_batches_hold_little(void) {
    static struct shown shown, after;
    uint64_t numbers[CHANGES], number, found, view = 0;
    rowanspan *index = filled(FEW, &view);
    long allocations, before = memory_held(), refused = 0;
    int round;
    begins();
    show(index, view, &shown);
    for (round = 0; round < ROUNDS; round++) {
        rowanspan_status status = ROWANSPAN_NO_MEMORY;
        for (allocations = 0; status == ROWANSPAN_NO_MEMORY && allocations < 5000; allocations++) {
            memory_ends_after(allocations);
            status = make_batch(index, numbers, &number, &found);
            memory_ends_after(-1);
            WANT_SAME(number, status == ROWANSPAN_NO_MEMORY ? 0 : shown.commits);
            WANT_SAME(rowanspan_commits(index), shown.commits);
            refused++;
        }
        WANT_SAME(status, ROWANSPAN_FEED_FULL);
    }
    show(index, view, &after);
    WANT(memcmp(&shown, &after, sizeof shown) == 0);
    printf("%ld refused batches hold %ld blocks\n", refused, memory_held() - before);
    WANT(refused > ROUNDS * CHANGES && memory_held() - before < MOST_HELD);
    rowanspan_close(index);
    ends("refused_batches_hold_little");
}

int main(void) {
    memory_ends_after = (void (*)(long))dlsym(RTLD_DEFAULT, "memory_ends_after");
    memory_held = (long (*)(void))dlsym(RTLD_DEFAULT, "memory_held");
    if (!memory_ends_after || !memory_held) {
        printf("batch_memory: wanting_memory.c is to be preloaded\n0 passed, 1 failed\n");
        return 1;
    }
    setvbuf(stdout, NULL, _IONBF, 0);
    no_memory_for_batches();
    refused_batches_hold_little();
    return all_told();
}
