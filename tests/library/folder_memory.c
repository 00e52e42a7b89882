/* Memory that ends at each allocation in turn, for an index with a folder, and memory and files that stay flat. It runs
 * with wanting_memory.c preloaded. */
#define _GNU_SOURCE
#include <dlfcn.h>

#include "foldering.h"

static void (*memory_ends_after)(long);
static long (*memory_held)(void);

enum { ROWS = 20, MOST = 2000, TIMES = 200 };

/* A folder with rows in its first file, and in the other one if it was shortened. Returns how many commits it has. */
static uint64_t filled(bool is_shortened) {
    rowanspan *index = opened_in(1, 0);
    uint64_t commits;
    char key[8];
    int i;
    for (i = 0; i < 2 * ROWS; i++) {
        snprintf(key, sizeof key, "k%02d", i % ROWS);
        put_row(index, key, "v");
        if (i == ROWS && is_shortened) {
            WANT_SAME(rowanspan_checkpoint(index), ROWANSPAN_OK);
        }
    }
    commits = rowanspan_commits(index);
    rowanspan_close(index);
    return commits;
}

static void want_commits(uint64_t commits) {
    rowanspan *index = opened_in(1, 0);
    WANT_SAME(rowanspan_commits(index), commits);
    want_row(index, "k05", ROWS + 6, "v");
    rowanspan_close(index);
}

/* An open that is refused holds no memory and no file, and changes nothing. */
static void no_memory_to_open_a_folder(bool is_shortened) {
    rowanspan_status status = ROWANSPAN_NO_MEMORY;
    long allocations, before;
    uint64_t commits;
    int files;
    begins_anew();
    commits = filled(is_shortened);
    before = memory_held();
    files = open_files();
    for (allocations = 0; status != ROWANSPAN_OK && allocations < MOST; allocations++) {
        rowanspan *index;
        memory_ends_after(allocations);
        status = rowanspan_open_folder(&index, folder(), 1, 16, 0, 0, message, sizeof message);
        memory_ends_after(-1);
        WANT(status == ROWANSPAN_OK || status == ROWANSPAN_NO_MEMORY);
        WANT((index != NULL) == (status == ROWANSPAN_OK));
        WANT(index != NULL || (memory_held() == before && open_files() == files));
        rowanspan_close(index);
        WANT_SAME(memory_held(), before);
        WANT_SAME(open_files(), files);
        memory_ends_after(0);
        WANT_SAME(rowanspan_open_folder(&index, folder(), 1, 0, 0, 0, NULL, 0), ROWANSPAN_BAD_LIMIT);
        memory_ends_after(-1);
    }
    WANT_SAME(status, ROWANSPAN_OK);
    WANT(allocations > 5);
    want_commits(commits);
    ends(is_shortened ? "no_memory_to_open_a_shortened_folder" : "no_memory_to_open_a_folder");
}

static rowanspan_status change(rowanspan *index, bool is_remove, uint64_t *commit) {
    return is_remove ? rowanspan_remove(index, "k07", 3, commit) : put_text(index, "aaaaaaaabbbbbbbbcccc", "w", commit);
}

/* A change that was made, and isn't written: the next one writes it first. */
static void want_written_later(rowanspan *index, uint64_t commits) {
    uint64_t number = 99;
    WANT_SAME(rowanspan_commits(index), commits + 1);
    memory_ends_after(0);
    WANT_SAME(put_text(index, "k08", "w", &number), ROWANSPAN_NO_MEMORY);
    WANT_SAME(number, 0);
    WANT_SAME(rowanspan_sync(index, &number), ROWANSPAN_NO_MEMORY);
    WANT_SAME(rowanspan_checkpoint(index), ROWANSPAN_NO_MEMORY);
    memory_ends_after(-1);
    WANT_SAME(rowanspan_commits(index), commits + 1);
    WANT_SAME(put_text(index, "k08", "w", &number), ROWANSPAN_OK);
    WANT_SAME(number, commits + 2);
}

/* If memory ends in a change, nothing has changed, or the change was made and is written by the next one. */
static void no_memory_for_changes(bool is_remove) {
    rowanspan_status status = ROWANSPAN_NO_MEMORY;
    long allocations;
    int unwritten = 0;
    begins();
    for (allocations = 0; status != ROWANSPAN_OK && allocations < MOST; allocations++) {
        rowanspan *index;
        uint64_t commits, number = 99;
        remove_all(folder());
        commits = filled(false);
        index = opened_in(1, 0);
        memory_ends_after(allocations);
        status = change(index, is_remove, &number);
        memory_ends_after(-1);
        WANT(status == ROWANSPAN_OK || status == ROWANSPAN_NO_MEMORY || status == ROWANSPAN_NOT_WRITTEN);
        WANT_SAME(number, status == ROWANSPAN_NO_MEMORY ? 0 : commits + 1);
        if (status == ROWANSPAN_NOT_WRITTEN) {
            unwritten++;
            want_written_later(index, commits);
        } else if (status == ROWANSPAN_NO_MEMORY) {
            WANT_SAME(rowanspan_commits(index), commits);
            WANT_SAME(change(index, is_remove, NULL), ROWANSPAN_OK);
        }
        commits = rowanspan_commits(index);
        rowanspan_close(index);
        want_commits(commits);
    }
    WANT_SAME(status, ROWANSPAN_OK);
    WANT(unwritten > 0);
    ends(is_remove ? "no_memory_for_removes" : "no_memory_for_puts");
}

/* A checkpoint that is refused can be made again. No commit is lost. */
static void no_memory_for_checkpoints(void) {
    rowanspan_status status = ROWANSPAN_NO_MEMORY;
    long allocations;
    begins();
    for (allocations = 0; status == ROWANSPAN_NO_MEMORY && allocations < MOST; allocations++) {
        rowanspan *index;
        uint64_t commits;
        remove_all(folder());
        commits = filled(false);
        index = opened_in(1, 0);
        memory_ends_after(allocations);
        status = rowanspan_checkpoint(index);
        memory_ends_after(-1);
        WANT(status == ROWANSPAN_OK || status == ROWANSPAN_NO_MEMORY);
        put_row(index, "a", "v");
        WANT_SAME(rowanspan_checkpoint(index), ROWANSPAN_OK);
        WANT_SAME(rowanspan_sync(index, NULL), ROWANSPAN_OK);
        WANT_SAME(rowanspan_durable(index), commits + 1);
        rowanspan_close(index);
        index = opened_in(1, 0);
        WANT_SAME(rowanspan_checkpoint(index), ROWANSPAN_OK);
        rowanspan_close(index);
        want_commits(commits + 1);
    }
    WANT_SAME(status, ROWANSPAN_OK);
    WANT(allocations > 1);
    ends("no_memory_for_checkpoints");
}

/* What an index with a folder held is freed when it is closed, and its files are closed. */
static void opened_and_closed(void) {
    long before;
    int files, i;
    uint64_t commits;
    begins_anew();
    commits = filled(true);
    want_commits(commits);
    before = memory_held();
    files = open_files();
    for (i = 0; i < TIMES; i++) {
        rowanspan *index = opened_in(1, 500);
        put_row(index, "b", "v");
        put_row(index, "b", "v");
        rowanspan_close(index);
        WANT_SAME(memory_held(), before);
        WANT_SAME(open_files(), files);
    }
    want_commits(commits + 2 * TIMES);
    ends("opened_and_closed");
}

int main(void) {
    memory_ends_after = (void (*)(long))dlsym(RTLD_DEFAULT, "memory_ends_after");
    memory_held = (long (*)(void))dlsym(RTLD_DEFAULT, "memory_held");
    if (!memory_ends_after || !memory_held) {
        printf("folder_memory: wanting_memory.c is to be preloaded\n0 passed, 1 failed\n");
        return 1;
    }
    setvbuf(stdout, NULL, _IONBF, 0);
    make_place();
    no_memory_to_open_a_folder(false);
    no_memory_to_open_a_folder(true);
    no_memory_for_changes(false);
    no_memory_for_changes(true);
    no_memory_for_checkpoints();
    opened_and_closed();
    return all_told_of_folders();
}
