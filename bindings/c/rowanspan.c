/* rowanspan.c: the functions of rowanspan.h, but for cursors and folders. Each passes its arguments to the proved
 * function that raw.h declares.
 *
 * A raw function takes no null pointer. If the caller's is null, it is passed the address of something else: of bytes
 * that it doesn't use, or of a number that nobody reads. */
#include "index.h"

#include <stdlib.h>
#include <string.h>

/* The raw handle of an index. A raw function writes to the handle also if it only reads what the handle holds. The
 * const of a caller's pointer is taken away here: the memory is that of malloc, so it may be written. */
static raw_handle raw_of(const rowanspan *index) {
    return &((rowanspan *)index)->raw;
}

static const struct rowanspan_bytes *keys_at(const struct rowanspan_bytes *keys) {
    static const struct rowanspan_bytes none = {NULL, 0};
    return keys ? keys : &none;
}

static const struct rowanspan_condition *conditions_at(const struct rowanspan_condition *conditions) {
    static const struct rowanspan_condition none = {NULL, 0, 0};
    return conditions ? conditions : &none;
}

static const struct rowanspan_change *changes_at(const struct rowanspan_change *changes) {
    static const struct rowanspan_change none = {NULL, 0, NULL, 0, false};
    return changes ? changes : &none;
}

/* ---- the index */

rowanspan_status rowanspan_open(rowanspan **index, uint64_t columns, uint64_t log_capacity, uint64_t log_retention) {
    struct rowanspan_raw raw = {NULL, false};
    const struct rowanspan_raw_log none = {NULL, false};
    rowanspan_status status = (rowanspan_status)rowanspan_raw_open(&raw, columns, log_capacity, log_retention);
    *index = NULL;
    /* after the raw call, so that limits are answered before memory */
    return status == ROWANSPAN_OK ? hold(index, raw, none) : status;
}

void rowanspan_close(rowanspan *index) {
    if (index) {
        close_log(index);
        rowanspan_raw_close(&index->raw);
        free(index);
    }
}

/* ---- rows */

rowanspan_status rowanspan_put(rowanspan *index, const void *key, size_t key_length, const struct rowanspan_set *sets,
                               size_t count, uint64_t *commit) {
    uint64_t unread = 0;
    uint64_t *number = commit ? commit : &unread;
    rowanspan_status status = begin_change(index, number);
    if (status == ROWANSPAN_OK) {
        status = (rowanspan_status)rowanspan_raw_put(raw_of(index), rowanspan_bytes_at(key), key_length,
                                                     rowanspan_sets_at(sets), count, number);
        status = end_change(index, status);
    }
    return status;
}

rowanspan_status rowanspan_put_if(rowanspan *index, const void *key, size_t key_length,
                                  const struct rowanspan_set *sets, size_t count, uint64_t version, uint64_t *commit) {
    uint64_t unread = 0;
    uint64_t *number = commit ? commit : &unread;
    rowanspan_status status = begin_change(index, number);
    if (status == ROWANSPAN_OK) {
        status = (rowanspan_status)rowanspan_raw_put_if(raw_of(index), rowanspan_bytes_at(key), key_length,
                                                        rowanspan_sets_at(sets), count, version, number);
        status = end_change(index, status);
    }
    return status;
}

rowanspan_status rowanspan_remove(rowanspan *index, const void *key, size_t key_length, uint64_t *commit) {
    uint64_t unread = 0;
    uint64_t *number = commit ? commit : &unread;
    rowanspan_status status = begin_change(index, number);
    if (status == ROWANSPAN_OK) {
        status = (rowanspan_status)rowanspan_raw_remove(raw_of(index), rowanspan_bytes_at(key), key_length, number);
        status = end_change(index, status);
    }
    return status;
}

rowanspan_status rowanspan_batch(rowanspan *index, const struct rowanspan_condition *conditions, size_t condition_count,
                                 const struct rowanspan_change *changes, size_t change_count, uint64_t *numbers,
                                 uint64_t *number, uint64_t *found) {
    uint64_t unread = 0, unread_version = 0, none[1] = {0};
    uint64_t *told = number ? number : &unread, *version = found ? found : &unread_version;
    if (index->log.is_open) {
        *told = 0;
        *version = 0;
        return ROWANSPAN_IN_FOLDER;
    }
    return (rowanspan_status)rowanspan_raw_batch(raw_of(index), conditions_at(conditions), condition_count,
                                                 changes_at(changes), change_count, numbers ? numbers : none,
                                                 numbers ? change_count : 0, told, version);
}

rowanspan_status rowanspan_tidy(rowanspan *index, const void *key, size_t key_length, uint64_t *tidied) {
    uint64_t unread;
    return (rowanspan_status)rowanspan_raw_tidy(raw_of(index), rowanspan_bytes_at(key), key_length,
                                                tidied ? tidied : &unread);
}

rowanspan_status rowanspan_get(const rowanspan *index, const void *key, size_t key_length, const uint8_t *columns,
                               size_t column_count, void *into, size_t room, uint64_t *length) {
    uint64_t unread;
    uint8_t none[1] = {0};
    return (rowanspan_status)rowanspan_raw_get(raw_of(index), rowanspan_bytes_at(key), key_length,
                                               rowanspan_bytes_at(columns), column_count, into ? into : none,
                                               into ? room : 0, length ? length : &unread);
}

/* How many bytes a row with one column has at most: its version, the count of its columns, the length of the column and
 * its bytes. */
enum { ROW_OF_ONE = 8 + 8 + 8 + ROWANSPAN_MAX_COLUMN_BYTES };

/* Writes bytes to a buffer if they fit, and how many they are to *length. */
static rowanspan_status write_bytes(struct rowanspan_bytes bytes, void *into, size_t room, uint64_t *length) {
    *length = bytes.length;
    if (bytes.length > (into ? room : 0)) {
        return ROWANSPAN_NO_ROOM;
    }
    if (bytes.length > 0) {
        memcpy(into, bytes.at, bytes.length);
    }
    return ROWANSPAN_OK;
}

rowanspan_status rowanspan_get_column(const rowanspan *index, const void *key, size_t key_length, uint8_t column,
                                      void *into, size_t room, uint64_t *length) {
    uint8_t answer[ROW_OF_ONE];
    uint64_t unread = 0;
    uint64_t *number = length ? length : &unread;
    rowanspan_status status = rowanspan_get(index, key, key_length, &column, 1, answer, sizeof answer, number);
    struct rowanspan_reader reader;
    struct rowanspan_row row;
    if (status != ROWANSPAN_OK) {
        return status;
    }
    reader = rowanspan_reader(answer, *number);
    row = rowanspan_read_row(&reader);
    return write_bytes(rowanspan_read_bytes(&row.columns), into, room, number);
}

rowanspan_status rowanspan_get_many(const rowanspan *index, const struct rowanspan_bytes *keys, size_t count,
                                    const uint8_t *columns, size_t column_count, void *into, size_t room,
                                    uint64_t *length) {
    uint64_t unread;
    uint8_t none[1] = {0};
    return (rowanspan_status)rowanspan_raw_get_many(raw_of(index), keys_at(keys), count, rowanspan_bytes_at(columns),
                                                    column_count, into ? into : none, into ? room : 0,
                                                    length ? length : &unread);
}

rowanspan_status rowanspan_range(const rowanspan *index, const void *start, size_t start_length, uint16_t limit,
                                 const uint8_t *columns, size_t column_count, void *into, size_t room,
                                 uint64_t *length) {
    uint64_t unread;
    uint8_t none[1] = {0};
    return (rowanspan_status)rowanspan_raw_range(raw_of(index), rowanspan_bytes_at(start), start_length, limit,
                                                 rowanspan_bytes_at(columns), column_count, into ? into : none,
                                                 into ? room : 0, length ? length : &unread);
}

rowanspan_status rowanspan_range_back(const rowanspan *index, const void *before, size_t before_length, uint16_t limit,
                                      const uint8_t *columns, size_t column_count, void *into, size_t room,
                                      uint64_t *length) {
    uint64_t unread;
    uint8_t none[1] = {0};
    return (rowanspan_status)rowanspan_raw_range_back(raw_of(index), before != NULL, rowanspan_bytes_at(before),
                                                      before ? before_length : 0, limit, rowanspan_bytes_at(columns),
                                                      column_count, into ? into : none, into ? room : 0,
                                                      length ? length : &unread);
}

rowanspan_status rowanspan_count(const rowanspan *index, const void *start, size_t start_length, const void *end,
                                 size_t end_length, uint32_t most, uint32_t *count) {
    uint64_t counted = 0;
    rowanspan_status status = (rowanspan_status)rowanspan_raw_count(raw_of(index), rowanspan_bytes_at(start),
                                                                    start_length, end != NULL, rowanspan_bytes_at(end),
                                                                    end ? end_length : 0, most, &counted);
    if (count) {
        /* (it is at most `most`) */
        *count = (uint32_t)counted;
    }
    return status;
}

/* ---- views */

rowanspan_status rowanspan_build_prefix(rowanspan *index, const void *prefix, size_t prefix_length,
                                        struct rowanspan_test test, uint64_t *view) {
    uint64_t unread;
    return (rowanspan_status)rowanspan_raw_build_prefix(raw_of(index), rowanspan_bytes_at(prefix), prefix_length,
                                                        &test, view ? view : &unread);
}

rowanspan_status rowanspan_build_from(rowanspan *index, const void *lo, size_t lo_length, struct rowanspan_test test,
                                      uint64_t *view) {
    uint64_t unread;
    return (rowanspan_status)rowanspan_raw_build_from(raw_of(index), rowanspan_bytes_at(lo), lo_length, &test,
                                                      view ? view : &unread);
}

rowanspan_status rowanspan_build_between(rowanspan *index, const void *lo, size_t lo_length, const void *hi,
                                         size_t hi_length, struct rowanspan_test test, uint64_t *view) {
    uint64_t unread;
    return (rowanspan_status)rowanspan_raw_build_between(raw_of(index), rowanspan_bytes_at(lo), lo_length,
                                                         rowanspan_bytes_at(hi), hi_length, &test,
                                                         view ? view : &unread);
}

rowanspan_status rowanspan_view(const rowanspan *index, uint64_t view, uint64_t floor, const void *start,
                                size_t start_length, uint16_t limit, void *into, size_t room, uint64_t *length) {
    uint64_t unread;
    uint8_t none[1] = {0};
    return (rowanspan_status)rowanspan_raw_view(raw_of(index), view, floor, rowanspan_bytes_at(start), start_length,
                                                limit, into ? into : none, into ? room : 0, length ? length : &unread);
}

/* How many bytes the totals of a view with the most columns have: three numbers, and two for each sum. */
enum { MOST_TOTALS = 8 * (3 + 2 * ROWANSPAN_MAX_COLUMNS) };

rowanspan_status rowanspan_totals(const rowanspan *index, uint64_t view, uint64_t floor,
                                  struct rowanspan_totals *totals) {
    uint8_t answer[MOST_TOTALS];
    uint64_t number = 0;
    rowanspan_status status =
        (rowanspan_status)rowanspan_raw_totals(raw_of(index), view, floor, answer, sizeof answer, &number);
    /* (past the end of an answer, numbers are read as 0) */
    struct rowanspan_reader reader = rowanspan_reader(answer, status == ROWANSPAN_OK ? number : 0);
    *totals = rowanspan_read_totals(&reader);
    if (status == ROWANSPAN_BEHIND) {
        totals->commit = number;
    }
    return status;
}

rowanspan_status rowanspan_apply(rowanspan *index, uint64_t view, uint64_t *commit) {
    uint64_t unread;
    return (rowanspan_status)rowanspan_raw_apply(raw_of(index), view, commit ? commit : &unread);
}

rowanspan_status rowanspan_keep_views(rowanspan *index, uint64_t *applied) {
    uint64_t unread;
    return (rowanspan_status)rowanspan_raw_keep_views(raw_of(index), applied ? applied : &unread);
}

rowanspan_status rowanspan_drop(rowanspan *index, uint64_t view) {
    uint64_t unread;
    return (rowanspan_status)rowanspan_raw_drop(raw_of(index), view, &unread);
}

/* ---- commits, nodes and numbers */

rowanspan_status rowanspan_feed(const rowanspan *index, uint64_t from, uint16_t limit, void *into, size_t room,
                                uint64_t *length) {
    uint64_t unread;
    uint8_t none[1] = {0};
    return (rowanspan_status)rowanspan_raw_feed(raw_of(index), from, limit, into ? into : none, into ? room : 0,
                                                length ? length : &unread);
}

rowanspan_status rowanspan_advance(rowanspan *index, uint64_t *epoch) {
    uint64_t unread;
    return (rowanspan_status)rowanspan_raw_advance(raw_of(index), epoch ? epoch : &unread);
}

/* (The status of the next five is always OK: an index that is open is closed by rowanspan_close alone.) */

uint64_t rowanspan_collect(rowanspan *index) {
    uint64_t freed = 0;
    rowanspan_raw_collect(raw_of(index), &freed);
    return freed;
}

uint64_t rowanspan_commits(const rowanspan *index) {
    uint64_t commits = 0;
    rowanspan_raw_commits(raw_of(index), &commits);
    return commits;
}

uint64_t rowanspan_len(const rowanspan *index) {
    uint64_t rows = 0;
    rowanspan_raw_len(raw_of(index), &rows);
    return rows;
}

uint64_t rowanspan_nodes(const rowanspan *index) {
    uint64_t nodes = 0;
    rowanspan_raw_nodes(raw_of(index), &nodes);
    return nodes;
}

uint64_t rowanspan_columns(const rowanspan *index) {
    uint64_t columns = 0;
    rowanspan_raw_columns(raw_of(index), &columns);
    return columns;
}

/* ---- texts */

/* (without a default, so that the compiler names a status that has no text) */
const char *rowanspan_status_text(rowanspan_status status) {
    switch (status) {
    case ROWANSPAN_OK: return "the call was done";
    case ROWANSPAN_NO_MEMORY: return "out of memory";
    case ROWANSPAN_KEY_TOO_LONG: return "a key has more than 1,024 bytes";
    case ROWANSPAN_BAD_COLUMN: return "a column doesn't exist or is named twice; an index has 1 to 16 columns";
    case ROWANSPAN_COLUMN_TOO_LONG: return "a column has more than 64 bytes";
    case ROWANSPAN_BAD_LIMIT: return "a limit is not from 1 to 1000, or an option is out of its bounds";
    case ROWANSPAN_ARENA_FULL: return "too few of the 4,294,967,295 nodes are free";
    case ROWANSPAN_FEED_FULL: return "the log is full: views or open calls hold it from commit N on";
    case ROWANSPAN_TOO_MANY_VIEWS: return "there are already 64 views";
    case ROWANSPAN_NO_SUCH_VIEW: return "no view has this number";
    case ROWANSPAN_BEHIND: return "the view is at commit N, or the log begins after it";
    case ROWANSPAN_BAD_RANGE: return "the end of a range is not after its start";
    case ROWANSPAN_SPENT: return "a counter is at its greatest value";
    case ROWANSPAN_OTHER_VERSION: return "the row has version N, not the one asked for; 0 means no row";
    case ROWANSPAN_BAD_BATCH: return "a batch has more than 1,000 conditions or changes, or changes a key twice";
    case ROWANSPAN_ABSENT: return "the key has no row, or the cursor has no more rows";
    case ROWANSPAN_NO_ROOM: return "the buffer is smaller than the answer";
    case ROWANSPAN_CURRENT: return "there was nothing to apply: no view is behind";
    case ROWANSPAN_NO_SUCH_TEST: return "no test of rows is of this kind";
    case ROWANSPAN_FOLDER_FAILED: return "the folder or its files can't be made, opened or read";
    case ROWANSPAN_FOLDER_BUSY: return "another index or process has the folder";
    case ROWANSPAN_FOLDER_DAMAGED:
        return "the files are no logs of such an index, or rows or durable commits are missing";
    case ROWANSPAN_DISK_FULL: return "the disk is full";
    case ROWANSPAN_DISK_FAILED: return "the disk has failed";
    case ROWANSPAN_NO_FOLDER: return "the rows are in memory alone";
    case ROWANSPAN_NOT_WRITTEN: return "the change is in memory, and its commit N was not written to the log";
    case ROWANSPAN_UNMET: return "a condition of the batch doesn't hold, and nothing changed";
    case ROWANSPAN_IN_FOLDER: return "an index with a folder makes no batches, and nothing changed";
    }
    return "no status has this number";
}

const char *rowanspan_version(void) {
    return ROWANSPAN_VERSION;
}
