/* raw.h: the functions of the crate rowanspan_c, of which it is proved what they do. Only bindings/c and
 * bindings/python include it.
 *
 * exports.rt, batch_exports.rt, view_exports.rt and log_exports.rt in crates/rowanspan_c/src have them, with their
 * contracts. scripts/build_library renames those that are there named as functions of rowanspan.h: rowanspan_open is
 * rowanspan_raw_open here. No pointer may be null, also if there are no bytes, and no buffer may overlap what else is
 * passed. */
#ifndef ROWANSPAN_RAW_H
#define ROWANSPAN_RAW_H

#include "rowanspan.h"

/* What the crate's functions take as a handle: all bytes 0 if it holds no index. It may be moved, and not copied. */
struct rowanspan_raw {
    void *at;
    bool is_open;
};

typedef struct rowanspan_raw *raw_handle;

/* What the crate's functions take as the log of an index: all bytes 0 if it holds none. It may be moved, and not
 * copied. */
struct rowanspan_raw_log {
    void *at;
    bool is_open;
};

typedef struct rowanspan_raw_log *raw_log;

uint16_t rowanspan_raw_open(raw_handle handle, uint64_t columns, uint64_t log_capacity, uint64_t log_retention);
uint16_t rowanspan_raw_close(raw_handle handle);
uint16_t rowanspan_raw_put(raw_handle handle, const uint8_t *key, size_t key_length, const struct rowanspan_set *sets,
                           size_t count, uint64_t *told);
uint16_t rowanspan_raw_put_if(raw_handle handle, const uint8_t *key, size_t key_length,
                              const struct rowanspan_set *sets, size_t count, uint64_t version, uint64_t *told);
uint16_t rowanspan_raw_remove(raw_handle handle, const uint8_t *key, size_t key_length, uint64_t *told);
/* told: the number of commits after the batch, or if a condition doesn't hold (113) its place; found: the version that
 * the row of its key has. It writes to numbers only if the batch is made. */
uint16_t rowanspan_raw_batch(raw_handle handle, const struct rowanspan_condition *conditions, size_t condition_count,
                             const struct rowanspan_change *changes, size_t change_count, uint64_t *numbers,
                             size_t number_room, uint64_t *told, uint64_t *found);
uint16_t rowanspan_raw_tidy(raw_handle handle, const uint8_t *key, size_t key_length, uint64_t *told);
uint16_t rowanspan_raw_get(raw_handle handle, const uint8_t *key, size_t key_length, const uint8_t *columns,
                           size_t column_count, uint8_t *into, size_t room, uint64_t *told);
uint16_t rowanspan_raw_get_many(raw_handle handle, const struct rowanspan_bytes *keys, size_t count,
                                const uint8_t *columns, size_t column_count, uint8_t *into, size_t room,
                                uint64_t *told);
uint16_t rowanspan_raw_range(raw_handle handle, const uint8_t *start, size_t start_length, uint16_t limit,
                             const uint8_t *columns, size_t column_count, uint8_t *into, size_t room, uint64_t *told);
uint16_t rowanspan_raw_range_back(raw_handle handle, bool bounded, const uint8_t *before, size_t before_length,
                                  uint16_t limit, const uint8_t *columns, size_t column_count, uint8_t *into,
                                  size_t room, uint64_t *told);
uint16_t rowanspan_raw_count(raw_handle handle, const uint8_t *start, size_t start_length, bool bounded,
                             const uint8_t *end, size_t end_length, uint32_t most, uint64_t *told);
uint16_t rowanspan_raw_build_prefix(raw_handle handle, const uint8_t *prefix, size_t prefix_length,
                                    const struct rowanspan_test *test, uint64_t *told);
uint16_t rowanspan_raw_build_from(raw_handle handle, const uint8_t *lo, size_t lo_length,
                                  const struct rowanspan_test *test, uint64_t *told);
uint16_t rowanspan_raw_build_between(raw_handle handle, const uint8_t *lo, size_t lo_length, const uint8_t *hi,
                                     size_t hi_length, const struct rowanspan_test *test, uint64_t *told);
uint16_t rowanspan_raw_view(raw_handle handle, uint64_t view, uint64_t floor, const uint8_t *start,
                            size_t start_length, uint16_t limit, uint8_t *into, size_t room, uint64_t *told);
uint16_t rowanspan_raw_totals(raw_handle handle, uint64_t view, uint64_t floor, uint8_t *into, size_t room,
                              uint64_t *told);
uint16_t rowanspan_raw_apply(raw_handle handle, uint64_t view, uint64_t *told);
uint16_t rowanspan_raw_keep_views(raw_handle handle, uint64_t *told);
uint16_t rowanspan_raw_drop(raw_handle handle, uint64_t view, uint64_t *told);
uint16_t rowanspan_raw_feed(raw_handle handle, uint64_t from, uint16_t limit, uint8_t *into, size_t room,
                            uint64_t *told);
uint16_t rowanspan_raw_advance(raw_handle handle, uint64_t *told);
uint16_t rowanspan_raw_collect(raw_handle handle, uint64_t *told);
uint16_t rowanspan_raw_commits(raw_handle handle, uint64_t *told);
uint16_t rowanspan_raw_len(raw_handle handle, uint64_t *told);
uint16_t rowanspan_raw_nodes(raw_handle handle, uint64_t *told);
uint16_t rowanspan_raw_columns(raw_handle handle, uint64_t *told);

/* Opens an index with the rows of a folder, and the log to which its commits go. If it fails, why is written to message
 * as text (UTF-8, no 0 at its end, cut to room), and told is the number of these bytes. */
uint16_t rowanspan_raw_open_folder(raw_handle handle, raw_log log, const uint8_t *folder, size_t folder_length,
                                   uint64_t columns, uint64_t log_capacity, uint64_t log_retention,
                                   uint64_t checkpoint, uint8_t *message, size_t room, uint64_t *told);
/* Writes the next commits that the log lacks, at most 1000. told: how many commits it still lacks, also if it fails. */
uint16_t rowanspan_raw_log_commits(raw_handle handle, raw_log log, uint64_t *told);
/* Makes all that was written durable. told: the number of the last commit. */
uint16_t rowanspan_raw_log_sync(raw_log log, uint64_t *told);
/* told: the number of the last commit that no crash undoes. */
uint16_t rowanspan_raw_log_durable(raw_log log, uint64_t *told);
/* Makes one round of a checkpoint, if one is due or in progress, or `begins` is true. Does nothing while the log lacks
 * a commit. told: 1 if it isn't complete yet, else 0. */
uint16_t rowanspan_raw_log_checkpoint(raw_handle handle, raw_log log, bool begins, uint64_t *told);
/* Ends the log, which is not synced by that, and unlocks the folder. */
uint16_t rowanspan_raw_log_close(raw_log log);

#endif
