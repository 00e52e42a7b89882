/* Counts in one index by eight threads. An index takes one call at a time, so the threads share a mutex: each call is
 * made under it. An increment is a get and a put under one holding, so none is lost.
 *
 * In a checkout, after scripts/build_library:
 *
 *     cc -I dist examples/embedding/counters.c dist/librowanspan.a -pthread -o counters && ./counters */
#include <pthread.h>
#include <stdio.h>
#include <stdlib.h>
#include <string.h>

#include "rowanspan.h"

enum { THREADS = 8, ROUNDS = 1000, COUNTERS = 4 };

/* An index and the mutex of its calls. */
struct shared {
    pthread_mutex_t mutex;
    rowanspan *index;
};

static void stop_unless_ok(rowanspan_status status) {
    if (status != ROWANSPAN_OK) {
        fprintf(stderr, "counters: %s\n", rowanspan_status_text(status));
        exit(1);
    }
}

/* Increases the number of a key by one. The caller holds the mutex. */
static void increase(rowanspan *index, const char *key) {
    uint8_t bytes[2] = {0, 0};
    uint64_t length;
    struct rowanspan_set set = rowanspan_set(0, bytes, sizeof bytes);
    rowanspan_status status = rowanspan_get_column(index, key, strlen(key), 0, bytes, sizeof bytes, &length);
    unsigned count;
    if (status != ROWANSPAN_ABSENT) {
        stop_unless_ok(status);
    }
    count = (unsigned)bytes[0] << 8 | bytes[1];
    count++;
    bytes[0] = (uint8_t)(count >> 8);
    bytes[1] = (uint8_t)count;
    stop_unless_ok(rowanspan_put(index, key, strlen(key), &set, 1, NULL));
}

static void *work(void *argument) {
    struct shared *shared = argument;
    char key[16];
    int round;
    for (round = 0; round < ROUNDS; round++) {
        snprintf(key, sizeof key, "counter %d", round % COUNTERS);
        pthread_mutex_lock(&shared->mutex);
        increase(shared->index, key);
        pthread_mutex_unlock(&shared->mutex);
    }
    return NULL;
}

int main(void) {
    struct shared shared = {PTHREAD_MUTEX_INITIALIZER, NULL};
    struct rowanspan_totals totals;
    pthread_t threads[THREADS];
    uint64_t view;
    int i;
    stop_unless_ok(rowanspan_open(&shared.index, 1, 65536, 0));
    stop_unless_ok(rowanspan_build_prefix(shared.index, "counter", 7, rowanspan_any(), &view));
    for (i = 0; i < THREADS; i++) {
        if (pthread_create(&threads[i], NULL, work, &shared) != 0) {
            fprintf(stderr, "counters: a thread can't be made\n");
            exit(1);
        }
    }
    for (i = 0; i < THREADS; i++) {
        pthread_join(threads[i], NULL);
    }
    /* (no other thread is left) */
    stop_unless_ok(rowanspan_keep_views(shared.index, NULL));
    stop_unless_ok(rowanspan_totals(shared.index, view, rowanspan_commits(shared.index), &totals));
    printf("%llu counters, which add up to %llu\n", (unsigned long long)totals.row_count,
           (unsigned long long)totals.sums[0].lower);
    rowanspan_close(shared.index);
    return 0;
}
