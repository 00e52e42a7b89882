/* rowanspan.h: an ordered key-value index in memory, with views that stay exact. Its rows may be in a folder too.
 *
 * Link with librowanspan.a or librowanspan.so. C99, C11 and C++ can include it.
 *
 *     rowanspan *index;
 *     uint64_t commit;
 *     rowanspan_status status = rowanspan_open(&index, 1, 4096, 0);
 *     if (status != ROWANSPAN_OK) {
 *         fprintf(stderr, "%s\n", rowanspan_status_text(status));
 *         return 1;
 *     }
 *     struct rowanspan_set red = rowanspan_set(0, "red", 3);
 *     status = rowanspan_put(index, "apple", 5, &red, 1, &commit);
 *     rowanspan_close(index);
 *
 * PROOFS
 *     The functions are thin: each passes its arguments to a function inside the library, of which it is proved what it
 *     does, by its contract in crates/rowanspan_c/src/exports.rt, batch_exports.rt, view_exports.rt or log_exports.rt.
 *     (rowanspan_open also allocates what the pointer points to, rowanspan_get_column copies one column of the answer
 *     of rowanspan_get, rowanspan_totals reads its answer into a struct, rowanspan_batch is refused if there is a
 *     folder, and a cursor repeats rowanspan_range, rowanspan_range_back or rowanspan_view. A change of an index with a
 *     folder is two calls: it is made, and its commit is written.) The thin functions, which are in bindings/c, and the
 *     inline functions of this header are only tested.
 *
 * ORDER OF REFUSALS
 *     Limits are answered before memory. A call that breaks a limit of its keys, its columns, its test, its range or
 *     its number of rows or deltas is refused for the first that it breaks, and a page then for its view and a feed for
 *     its log (ROWANSPAN_NO_SUCH_VIEW, ROWANSPAN_BEHIND). A batch is refused for its number of conditions and changes
 *     first, then for the keys of its conditions, and then for its changes. Such a call never answers
 *     ROWANSPAN_NO_MEMORY, unless it is a batch, or a change while the log of a folder lacks a commit.
 *
 * HANDLES
 *     A caller holds an index by a pointer to a `rowanspan`, of which it sees nothing else. rowanspan_open or
 *     rowanspan_open_folder makes the index, and rowanspan_close ends it: the pointer must not be used after that. Only
 *     rowanspan_close takes a null pointer to an index.
 *
 * FOLDERS
 *     The rows of rowanspan_open are gone when the process ends. rowanspan_open_folder opens an index whose rows are
 *     also in the files of a folder. A put, put_if or remove is made in memory, and then its commit is written to a log
 *     there. A crash of the process undoes no commit that was written. A crash of the machine undoes no commit that was
 *     synced (rowanspan_sync). Whatever a crash leaves, rowanspan_open_folder finds the rows after the first m commits,
 *     with their versions, and m is at least the last number that rowanspan_durable returned.
 *
 *     If a commit can't be written, the call returns NOT_WRITTEN: the change is in memory alone. Each further change
 *     first writes what the log lacks, before it tests its limits. If that fails, it returns DISK_FULL, DISK_FAILED or
 *     NO_MEMORY, and changes nothing. All other calls continue.
 *
 *     A folder is of one index at a time. A forked child must not use an index with a folder, and shares the lock: the
 *     folder is free when the child has ended, too.
 *
 * THREADS
 *     An index may be made by one thread, and used and closed by another: it is proved that what it holds may be moved.
 *     An index is used by one thread at a time, also if the calls only read. SQLite calls this mode "multi-thread". If
 *     threads share an index, the caller orders their calls by a mutex of its own (docs/EMBEDDING.md has the pattern),
 *     by the start or the join of a thread, or by a sequentially consistent atomic. Calls on different indexes may be
 *     made at once. A `const rowanspan *` says that a call changes no row, no commit and no view. It doesn't say that
 *     two such calls may be made at once.
 *
 * STATUSES
 *     A call that can fail returns a status. ROWANSPAN_OK, which is 0, means that the call was done. A status from 1 to
 *     17 means that the call was refused: it has changed no row, no commit and no view, and the index can still be
 *     used. The statuses from 100 on are described with their constants. The comments below leave out the prefix
 *     ROWANSPAN_. A call that can't fail, such as rowanspan_commits, returns its value.
 *
 * NUMBERS
 *     The last parameter of most calls that return a status points to a number, such as `commit` or `length`. The call
 *     always writes this number, unless the pointer is null. The comment of the call says what the number is if the
 *     status is OK, and if it is FEED_FULL, BEHIND, OTHER_VERSION, NO_ROOM, NOT_WRITTEN or UNMET. For all other
 *     statuses it is 0. rowanspan_batch writes two such numbers. The pointers to an index, a cursor, a pair or totals
 *     that a call sets must not be null.
 *
 * BUFFERS
 *     A call whose answer is bytes writes them to the start of the buffer `into`, which the caller owns and which has
 *     `room` bytes, and sets *length to the length of the answer in bytes. If the answer doesn't fit, the call writes
 *     nothing to the buffer and returns NO_ROOM, and *length is the length that is needed: call again with as much
 *     room. A call never writes more than the answer. struct rowanspan_reader, at the end of this file, reads answers.
 *     A buffer must not overlap any other argument. A pointer to bytes, columns, sets, keys, conditions or changes may
 *     be null if their number is 0, and `into` may be null: there is then no room.
 *
 * LIMITS
 *     A key has up to 1,024 bytes (ROWANSPAN_MAX_KEY_BYTES). Keys are ordered by their bytes, and a key comes before
 *     those that it is a prefix of. An index has 1 to 16 columns (ROWANSPAN_MAX_COLUMNS) of up to 64 bytes
 *     (ROWANSPAN_MAX_COLUMN_BYTES). A call returns up to 1000 rows or deltas, and takes up to 1000 keys. A batch has up
 *     to 1000 conditions, and up to 1000 changes (ROWANSPAN_MAX_BATCH). An index has up to 64 views, and up to
 *     4,294,967,295 nodes of up to 15 keys.
 *
 * MEMORY
 *     The library copies the keys, columns and tests that it is passed: they stay the caller's. A call that stores or
 *     returns something allocates with malloc, except rowanspan_get, rowanspan_get_column and rowanspan_totals, which
 *     take no memory. malloc and realloc have to align blocks as ISO C requires. No call may be made in a signal
 *     handler, or in the forked child of a process with threads.
 *
 * It isn't proved that a caller in C meets the conditions that are stated here, nor what a compiler makes of the header
 * and of bindings/c. See docs/EMBEDDING.md. */
#ifndef ROWANSPAN_H
#define ROWANSPAN_H

#include <stdbool.h>
#include <stddef.h>
#include <stdint.h>

/* The version of this header. It is written in one place, the file VERSION of the repository: scripts/build_library
 * fills it in here when it writes dist/rowanspan.h. */
#define ROWANSPAN_VERSION "@VERSION@"

/* The most bytes of a key. */
#define ROWANSPAN_MAX_KEY_BYTES 1024

/* The most columns of a row, and the most bytes of a column. */
#define ROWANSPAN_MAX_COLUMNS 16
#define ROWANSPAN_MAX_COLUMN_BYTES 64

/* The most conditions of a batch, and the most changes. */
#define ROWANSPAN_MAX_BATCH 1000

/* The usual `checkpoint` of rowanspan_open_folder: 64 MiB. */
#define ROWANSPAN_CHECKPOINT 67108864

#ifdef __cplusplus
extern "C" {
#endif

/* ---- statuses */

/* What came of a call. N is the number that the call writes. */
typedef enum rowanspan_status {
    ROWANSPAN_OK = 0,
    ROWANSPAN_NO_MEMORY = 1,        /* out of memory */
    ROWANSPAN_KEY_TOO_LONG = 2,     /* a key has more than 1,024 bytes */
    ROWANSPAN_BAD_COLUMN = 3,       /* a column doesn't exist or is named twice; an index has 1 to 16 columns */
    ROWANSPAN_COLUMN_TOO_LONG = 4,  /* a column has more than 64 bytes */
    ROWANSPAN_BAD_LIMIT = 5,        /* a limit is not from 1 to 1000, or an option is out of its bounds:
                                       log_capacity is not from 1 to 65536, or log_retention is over 65536 */
    ROWANSPAN_ARENA_FULL = 6,       /* too few of the 4,294,967,295 nodes are free */
    ROWANSPAN_FEED_FULL = 7,        /* the log is full: views or open calls hold it from commit N on; apply or drop the
                                       views */
    ROWANSPAN_TOO_MANY_VIEWS = 10,  /* there are already 64 views */
    ROWANSPAN_NO_SUCH_VIEW = 11,    /* no view has this number */
    ROWANSPAN_BEHIND = 12,          /* the view is at commit N, or the log begins after it: the view is before the
                                       floor, or the log has only the commits after N */
    ROWANSPAN_BAD_RANGE = 13,       /* the end of a range is not after its start */
    ROWANSPAN_SPENT = 14,           /* a counter is at its greatest value */
    ROWANSPAN_OTHER_VERSION = 16,   /* the row has version N, not the one asked for; 0 means no row */
    ROWANSPAN_BAD_BATCH = 17,       /* a batch has more than 1000 conditions or changes, or changes a key twice */
    ROWANSPAN_ABSENT = 102,         /* the key has no row, or the cursor has no more rows */
    ROWANSPAN_NO_ROOM = 103,        /* the answer has N bytes, and the buffer is smaller */
    ROWANSPAN_CURRENT = 104,        /* there was nothing to apply: no view is behind */
    ROWANSPAN_NO_SUCH_TEST = 105,   /* no test of rows is of this kind */
    ROWANSPAN_FOLDER_FAILED = 106,  /* the folder or its files can't be made, opened or read */
    ROWANSPAN_FOLDER_BUSY = 107,    /* another index or process has the folder */
    ROWANSPAN_FOLDER_DAMAGED = 108, /* the files are no logs of such an index, or rows or durable commits are missing;
                                       nothing was changed in them */
    ROWANSPAN_DISK_FULL = 109,      /* the disk is full: nothing was written, and the call can be made again */
    ROWANSPAN_DISK_FAILED = 110,    /* the disk has failed. If a write or a sync of commits has, nothing is written
                                       until the folder is opened again */
    ROWANSPAN_NO_FOLDER = 111,      /* the rows are in memory alone */
    ROWANSPAN_NOT_WRITTEN = 112,    /* the change is in memory, and its commit N was not written to the log */
    ROWANSPAN_UNMET = 113,          /* a condition of the batch doesn't hold, the one at place N, and nothing changed */
    ROWANSPAN_IN_FOLDER = 114       /* an index with a folder makes no batches, and nothing changed */
} rowanspan_status;

/* What rowanspan_tidy has done. */
enum {
    ROWANSPAN_TIDIED_NOTHING = 0,
    ROWANSPAN_TIDIED_EMPTY_BORDER = 1,
    ROWANSPAN_TIDIED_LONE_CHILD = 2,
    ROWANSPAN_TIDIED_LONE_ROOT_CHILD = 3,
    ROWANSPAN_TIDIED_EMPTY_LAYER = 4
};

/* rowanspan_status_text: what a status means, in one line without a full stop; also for a number that is no status. If
 * the call writes the number of a commit, the text has N for this number. The text is never freed. */
const char *rowanspan_status_text(rowanspan_status status);

/* rowanspan_version: the version of the library that is loaded, as ROWANSPAN_VERSION is that of the header. */
const char *rowanspan_version(void);

/* ---- arguments */

/* An index. */
typedef struct rowanspan rowanspan;

/* One of the keys that a call is passed, or bytes in an answer. Make a key with rowanspan_bytes: `at` must not be
 * null. */
struct rowanspan_bytes {
    const uint8_t *at;
    size_t length;
};

/* New bytes for a column. Make it with rowanspan_set: `at` must not be null. */
struct rowanspan_set {
    uint8_t column;
    const uint8_t *at;
    size_t length;
};

/* A condition of a batch: the row of the key is of this version, or `version` is 0 and the key has no row. Make it with
 * rowanspan_condition: `key` must not be null. */
struct rowanspan_condition {
    const uint8_t *key;
    size_t key_length;
    uint64_t version;
};

/* A change of a batch: a put of `count` sets, or a remove if `removes` is true. Make it with rowanspan_change_put or
 * rowanspan_change_remove: `key` and `sets` must not be null. */
struct rowanspan_change {
    const uint8_t *key;
    size_t key_length;
    const struct rowanspan_set *sets;
    size_t count;
    bool removes;
};

/* A test of the rows of a view. Make it with rowanspan_any, rowanspan_equals or rowanspan_at_least: `at` must not be
 * null. */
struct rowanspan_test {
    uint8_t kind;
    uint8_t column;
    uint64_t least;
    const uint8_t *at;
    size_t length;
};

/* ---- the index */

/* rowanspan_open: opens an empty index whose rows have `columns` columns (1 to 16), and sets *index to it. The index's
 * log holds up to `log_capacity` commits (1 to 65536) for the view that is furthest behind, and keeps the last
 * `log_retention` commits (up to 65536) for callers of rowanspan_feed. The caller has to close the index with
 * rowanspan_close.
 *
 * Cost: a few allocations.
 *
 * Returns OK. Fails with BAD_COLUMN, BAD_LIMIT or NO_MEMORY; *index is then null. */
rowanspan_status rowanspan_open(rowanspan **index, uint64_t columns, uint64_t log_capacity, uint64_t log_retention);

/* rowanspan_open_folder: opens an index with the rows of a folder, and sets *index to it. `folder` is a path that ends
 * in a 0. The folder is made if it is missing, but no folder above it, and so are its files, `even-wal` and `odd-wal`.
 * They are as those of `mtserve --data`: a server can open the folder after the index was closed, and `mtfolder verify`
 * reads it. The commits of the index continue after the last one of the folder, and rowanspan_feed has none before
 * that. `columns`, `log_capacity` and `log_retention` are as of rowanspan_open; a folder is always opened with the same
 * `columns`.
 *
 * The log is shortened when it has grown by `checkpoint` bytes (ROWANSPAN_CHECKPOINT is usual), and by as many as its
 * rows took; if `checkpoint` is 0, only by rowanspan_checkpoint. This is done bit by bit, with the changes: each of
 * them copies up to 256 rows, and the first and the last one sync.
 *
 * If the call fails, why is written to `message` as text that ends in a 0, cut to `room` bytes. If it returns OK, the
 * text is empty. `message` may be null.
 *
 * Cost: a read of the logs, which are in memory meanwhile, and a put for each row.
 *
 * Returns OK. Fails with BAD_COLUMN, BAD_LIMIT, ARENA_FULL, NO_MEMORY, FOLDER_FAILED, FOLDER_BUSY, FOLDER_DAMAGED or
 * DISK_FULL; *index is then null. */
rowanspan_status rowanspan_open_folder(rowanspan **index, const char *folder, uint64_t columns, uint64_t log_capacity,
                                       uint64_t log_retention, uint64_t checkpoint, char *message, size_t room);

/* rowanspan_sync: makes all commits durable: no crash undoes them. *durable is the number of the last one. If the log
 * lacks a commit, it writes that first.
 *
 * Cost: one fdatasync.
 *
 * Returns OK. Fails with NO_FOLDER, DISK_FULL, DISK_FAILED or NO_MEMORY. */
rowanspan_status rowanspan_sync(rowanspan *index, uint64_t *durable);

/* rowanspan_durable: returns the number of the last commit that no crash undoes; 0 if the rows are in memory alone.
 *
 * It costs next to nothing, and doesn't fail. */
uint64_t rowanspan_durable(const rowanspan *index);

/* rowanspan_checkpoint: shortens the log at once: the log continues in the other file, to which all rows are copied. If
 * that is in progress, it is completed. All commits are durable then.
 *
 * Cost: a copy of each row, and some ten calls of the disk.
 *
 * Returns OK. Fails with NO_FOLDER, DISK_FULL, DISK_FAILED or NO_MEMORY. After DISK_FULL and NO_MEMORY it can be called
 * again. If the other file has failed, the log stays in its file, and isn't shortened before the folder is opened again:
 * then this fails with DISK_FAILED, and commits are written as before. */
rowanspan_status rowanspan_checkpoint(rowanspan *index);

/* rowanspan_close: closes an index and frees its memory. If it has a folder, all commits are made durable, as by
 * rowanspan_sync, and the folder is free for others. A caller that has to know whether they are calls rowanspan_sync
 * before. It does nothing if `index` is null.
 *
 * Cost: a visit of each node, row, delta and view, and with a folder one fdatasync. */
void rowanspan_close(rowanspan *index);

/* ---- rows */

/* rowanspan_put: sets `count` columns of a key's row. The row's other columns stay as they were; those of a new row are
 * empty. A put with no sets makes a commit too. *commit is the number of the commit: commits are numbered from 1 on. If
 * the call returns FEED_FULL, views hold the log from commit *commit on.
 *
 * Cost: a visit of each node on the way to the key (among 100,000 keys, six), the split of each that is full, and
 * memory for the key and the columns, which are copied. The tree has one more layer for each eight bytes at the start
 * of the key that another key has too, if both are longer: seven visits if the put makes the layer, else two.
 *
 * Returns OK. Returns NOT_WRITTEN if the put was made in memory, and its commit *commit was not written to the log.
 * Fails with KEY_TOO_LONG, BAD_COLUMN, COLUMN_TOO_LONG, FEED_FULL, ARENA_FULL, SPENT or NO_MEMORY, and with a folder
 * DISK_FULL or DISK_FAILED; the row is then as it was. */
rowanspan_status rowanspan_put(rowanspan *index, const void *key, size_t key_length, const struct rowanspan_set *sets,
                               size_t count, uint64_t *commit);

/* rowanspan_put_if: a rowanspan_put that is done only if the key's row is of this version, or if `version` is 0 and the
 * key has no row. So a caller that has read a row changes it only if no other put has changed it since.
 *
 * Cost: that of a put.
 *
 * Returns OK. Returns OTHER_VERSION if the row is of another version; nothing changes, and *commit is the row's
 * version, or 0 if there is no row. Returns NOT_WRITTEN, and fails, as rowanspan_put does. */
rowanspan_status rowanspan_put_if(rowanspan *index, const void *key, size_t key_length,
                                  const struct rowanspan_set *sets, size_t count, uint64_t version, uint64_t *commit);

/* rowanspan_remove: removes a key's row. *commit is the number of the commit. If this leaves a node without rows, nodes
 * that are no longer needed are taken out of the tree and freed. If the call returns FEED_FULL, views hold the log from
 * commit *commit on.
 *
 * Cost: a visit of each node on the way to the key, twice, and the steps by which nodes are taken out.
 *
 * Returns OK. Returns ABSENT if the key has no row; nothing changes, and there is no commit. Returns NOT_WRITTEN as
 * rowanspan_put does. Fails with KEY_TOO_LONG, FEED_FULL, SPENT or NO_MEMORY, and with a folder DISK_FULL or
 * DISK_FAILED; the row is then as it was. */
rowanspan_status rowanspan_remove(rowanspan *index, const void *key, size_t key_length, uint64_t *commit);

/* rowanspan_tidy: takes at most one node out of the tree near the place of a key, if removes have left one that isn't
 * needed. It changes no row. *tidied is what it has done (ROWANSPAN_TIDIED_). rowanspan_collect frees what was taken
 * out. A program needs neither, since each remove that leaves a node without rows does both.
 *
 * Cost: a visit of each node on the way to the key.
 *
 * Returns OK, also if there was nothing to do. Fails with KEY_TOO_LONG, SPENT or NO_MEMORY. */
rowanspan_status rowanspan_tidy(rowanspan *index, const void *key, size_t key_length, uint64_t *tidied);

/* rowanspan_get: writes the row of a key to the buffer (rowanspan_read_row reads it), with the columns of these numbers
 * in this order, or with all columns if `column_count` is 0. *length is the length of the answer in bytes, also if the
 * call returns NO_ROOM.
 *
 * Cost: a visit of each node on the way to the key, and one copy of the columns, from the index into the buffer. It
 * takes no memory. A row with all its columns fits in 16 bytes, and 72 for each column.
 *
 * Returns OK. Returns ABSENT if the key has no row, and NO_ROOM if the answer doesn't fit. Fails with KEY_TOO_LONG or
 * BAD_COLUMN, and never with NO_MEMORY. Unless it returns OK the buffer is as it was. */
rowanspan_status rowanspan_get(const rowanspan *index, const void *key, size_t key_length, const uint8_t *columns,
                               size_t column_count, void *into, size_t room, uint64_t *length);

/* rowanspan_get_column: writes the bytes of one column of a key's row to the buffer, and nothing else. *length is how
 * many they are, also if the call returns NO_ROOM.
 *
 * Cost: that of a get of this column, and one more copy of its bytes. It takes no memory. A column has up to 64 bytes.
 *
 * Returns OK. Returns ABSENT if the key has no row, and NO_ROOM if the bytes don't fit. Fails with KEY_TOO_LONG or
 * BAD_COLUMN, and never with NO_MEMORY. Unless it returns OK the buffer is as it was. */
rowanspan_status rowanspan_get_column(const rowanspan *index, const void *key, size_t key_length, uint8_t column,
                                      void *into, size_t room, uint64_t *length);

/* rowanspan_get_many: writes the rows of `count` keys (up to 1000) to the buffer, in the order of the keys. A key may
 * be there more than once, and may have no row. The answer is read by rowanspan_read_count, and then by
 * rowanspan_read_maybe_row for each key. The columns and *length are as of rowanspan_get.
 *
 * Cost: that of a get of each key, and memory for the answer, which is freed before the call returns.
 *
 * Returns OK, also if there are no keys or no rows. Returns NO_ROOM if the answer doesn't fit. Fails with KEY_TOO_LONG,
 * for any of the keys, BAD_COLUMN, BAD_LIMIT if there are more than 1000 keys, or NO_MEMORY. Unless it returns OK the
 * buffer is as it was. */
rowanspan_status rowanspan_get_many(const rowanspan *index, const struct rowanspan_bytes *keys, size_t count,
                                    const uint8_t *columns, size_t column_count, void *into, size_t room,
                                    uint64_t *length);

/* rowanspan_range: writes the first rows from a key on to the buffer, in the order of their keys, at most `limit` (1 to
 * 1000). The answer is read by rowanspan_read_count, and then by rowanspan_read_pair for each row. The columns and
 * *length are as of rowanspan_get.
 *
 * Cost: a visit of each border that it reads and of the nodes on the way there, and memory for the answer, which is
 * freed before the call returns. After the last row of a layer it continues in the border above.
 *
 * Returns OK, also if there are no rows. Returns NO_ROOM if the answer doesn't fit. Fails with KEY_TOO_LONG,
 * BAD_COLUMN, BAD_LIMIT or NO_MEMORY. Unless it returns OK the buffer is as it was. */
rowanspan_status rowanspan_range(const rowanspan *index, const void *start, size_t start_length, uint16_t limit,
                                 const uint8_t *columns, size_t column_count, void *into, size_t room,
                                 uint64_t *length);

/* rowanspan_range_back: writes the last rows whose keys are before a key to the buffer, the greatest key first, at most
 * `limit` (1 to 1000). If `before` is null, they are the last rows of all, and `before_length` isn't used. If it isn't
 * null and `before_length` is 0, it is the empty key, and no row is before that. The answer, the columns and *length
 * are as of rowanspan_range.
 *
 * Cost: about twice that of a range. For each border of up to 15 rows there are a few visits of the nodes on the way to
 * it. The memory for the answer is freed before the call returns.
 *
 * Returns OK, also if there are no rows. Returns NO_ROOM if the answer doesn't fit. Fails with KEY_TOO_LONG,
 * BAD_COLUMN, BAD_LIMIT or NO_MEMORY. Unless it returns OK the buffer is as it was. */
rowanspan_status rowanspan_range_back(const rowanspan *index, const void *before, size_t before_length, uint16_t limit,
                                      const uint8_t *columns, size_t column_count, void *into, size_t room,
                                      uint64_t *length);

/* rowanspan_count: counts the rows whose keys are from `start` on and before `end`, up to `most`: *count is their
 * number, or `most` if there are more. If `end` is null, the range has no end, and `end_length` isn't used. If it isn't
 * null and `end_length` is 0, it is the empty key, and no row is before that.
 *
 * Cost: a walk, one step for each row that is counted and one more, and memory for the key at which it is, which is
 * freed before the call returns. It copies no row. Threads that share the index by a mutex wait until it returns, which
 * `most` bounds. The number of all rows is ready (rowanspan_len), and so is the count of a view (rowanspan_totals).
 *
 * Returns OK, also if there are no rows or `most` is 0. Fails with KEY_TOO_LONG, for either key, or NO_MEMORY. */
rowanspan_status rowanspan_count(const rowanspan *index, const void *start, size_t start_length, const void *end,
                                 size_t end_length, uint32_t most, uint32_t *count);

/* ---- batches
 *
 * A batch is several changes that are made as one: all of them, or none. It may have conditions on versions of rows. So
 * a caller that has read some rows makes its changes only if no other has changed these rows since. */

/* rowanspan_batch: tests conditions, and makes changes if all of them hold, as consecutive commits: first the puts in
 * their order, and then the removes in theirs. If a condition doesn't hold, or a change is refused, also for memory,
 * nothing changes. A remove of a key without a row makes no commit.
 *
 * If the call returns OK, *number is the number of the batch's last commit, or of the newest commit if it made none,
 * and numbers[i] is the number of the commit of changes[i], or 0 if that made none. `numbers` has `change_count`
 * places, or is null; it stays as it was unless the call returns OK. If the call returns UNMET, *number is the place of
 * the first condition that doesn't hold, from 0 on, and *found is the version that its key's row has, or 0 if there is
 * no row. If it returns FEED_FULL, views hold the log from commit *number on. *found is 0 unless it returns UNMET.
 *
 * If there are views, the log holds all commits of a batch for them: a batch of more than `log_capacity` commits is
 * FEED_FULL then. One of more than `log_capacity` removes always is. An answer of rowanspan_feed may begin or end in
 * the middle of a batch. A page of a view may show a part of a batch until rowanspan_keep_views has advanced the view
 * over it; a page whose `floor` is *number shows all of it.
 *
 * An index with a folder makes no batches yet, since a crash could leave a part of a batch in the folder: the call
 * returns IN_FOLDER, whatever the batch has.
 *
 * Cost: a visit of each node on the way to the key for each condition, that of a put or a remove for each change, and
 * O(n log n) in the changes, to see that no key is changed twice.
 *
 * Returns OK. Returns UNMET if a condition doesn't hold. Fails with BAD_BATCH if there are more than 1000 conditions or
 * changes, or if a key is changed twice, which it finds before it tests the conditions. Fails with KEY_TOO_LONG,
 * BAD_COLUMN, COLUMN_TOO_LONG, FEED_FULL, ARENA_FULL, SPENT, NO_MEMORY or IN_FOLDER. Unless it returns OK, all rows are
 * as they were. */
rowanspan_status rowanspan_batch(rowanspan *index, const struct rowanspan_condition *conditions, size_t condition_count,
                                 const struct rowanspan_change *changes, size_t change_count, uint64_t *numbers,
                                 uint64_t *number, uint64_t *found);

/* ---- cursors
 *
 * A cursor returns the rows from a key on, one after the other, in the order of their keys, or the rows before a key
 * against that order. It reads them by rowanspan_range or rowanspan_range_back, or by rowanspan_view if it is a cursor
 * over a view, up to 64 at a time, into a buffer of its own. The index may be changed between two calls with a cursor:
 * each key is still returned at most once, each key that has a row throughout is returned, and each row is as it was
 * when the cursor read it. A call with a cursor is a call on its index too. A cursor has to be closed before its index
 * is. */

/* A cursor, and a key with its row, which is defined at the end of this file. */
typedef struct rowanspan_cursor rowanspan_cursor;
struct rowanspan_pair;

/* rowanspan_cursor_open: opens a cursor over the rows from a key on, and sets *cursor to it. The columns are as of
 * rowanspan_get. The caller has to close the cursor with rowanspan_cursor_close.
 *
 * Cost: that of a range of one row, by which the key and the columns are tested, and two allocations, of some 5,200
 * bytes together.
 *
 * Returns OK, also if there are no rows. Fails with KEY_TOO_LONG, BAD_COLUMN or NO_MEMORY; *cursor is then null. */
rowanspan_status rowanspan_cursor_open(const rowanspan *index, const void *start, size_t start_length,
                                       const uint8_t *columns, size_t column_count, rowanspan_cursor **cursor);

/* rowanspan_cursor_open_back: opens a cursor over the rows whose keys are before a key, the greatest key first, and
 * sets *cursor to it. If `before` is null, it is a cursor over all rows, as of rowanspan_range_back. The columns are as
 * of rowanspan_get. The cursor is read by rowanspan_cursor_next, and the caller has to close it with
 * rowanspan_cursor_close.
 *
 * Cost: that of a rowanspan_range_back of one row, by which the key and the columns are tested, and two allocations, of
 * some 5,200 bytes together.
 *
 * Returns OK, also if there are no rows. Fails with KEY_TOO_LONG, BAD_COLUMN or NO_MEMORY; *cursor is then null. */
rowanspan_status rowanspan_cursor_open_back(const rowanspan *index, const void *before, size_t before_length,
                                            const uint8_t *columns, size_t column_count, rowanspan_cursor **cursor);

/* rowanspan_view_cursor_open: opens a cursor over the rows that a view shows, from a key on, and sets *cursor to it. It
 * is read by rowanspan_cursor_next, and the caller has to close it with rowanspan_cursor_close.
 *
 * The cursor reads pages of up to 64 rows. Each page shows the view exactly at the commit at which the view is when the
 * page is read. If the view advances between two pages, the second page shows the later commit. The keys still rise
 * strictly, and each key that the view shows throughout is returned. A row that comes into the view meanwhile is
 * returned only if its key is after those of the pages that were read.
 *
 * Cost: that of a page of one row, by which the key and the view are tested, and two allocations, of some 5,200 bytes
 * together.
 *
 * Returns OK, also if there are no rows. Fails with KEY_TOO_LONG, NO_SUCH_VIEW or NO_MEMORY; *cursor is then null. */
rowanspan_status rowanspan_view_cursor_open(const rowanspan *index, uint64_t view, const void *start,
                                            size_t start_length, rowanspan_cursor **cursor);

/* rowanspan_cursor_next: sets *pair to the next key and its row, whose columns rowanspan_read_bytes reads. Both point
 * into the cursor's buffer, and are good until the next call with this cursor.
 *
 * Cost: for the first row, and again after each 64 rows, that of a range, a range back or a page of 64 rows; of two, if
 * the buffer has to grow. The other calls only read the buffer.
 *
 * Returns OK. Returns ABSENT if there are no more rows, and then each time. Fails with NO_MEMORY; the cursor is then as
 * it was, and can be asked again. Fails with NO_SUCH_VIEW, and then each time, if the view of the cursor was dropped
 * and the cursor has returned all rows that it had read. Unless it returns OK *pair is as it was. */
rowanspan_status rowanspan_cursor_next(rowanspan_cursor *cursor, struct rowanspan_pair *pair);

/* rowanspan_cursor_close: closes a cursor and frees its memory. It does nothing if `cursor` is null. */
void rowanspan_cursor_close(rowanspan_cursor *cursor);

/* ---- views, of keys
 *
 * A view holds the rows whose keys are in its range and that pass its test, with their count and, for each column, the
 * sum of their amounts. It is at a number of commits, and shows exactly the rows after those. rowanspan_apply advances
 * it. While views are behind, the log holds the commits that they still need: once it holds `log_capacity` of them, a
 * put or remove is refused with FEED_FULL. */

/* rowanspan_build_prefix: builds a view of the keys that begin with `prefix`; if it is empty, of all keys.
 * rowanspan_build_from: builds a view of the keys from `lo` on.
 * rowanspan_build_between: builds a view of the keys from `lo` on that are before `hi`.
 * Each view is at the newest commit, and *view is its number, from 1 on. rowanspan_drop ends it.
 *
 * Cost: that of a range over those keys, and memory for the view's rows, which share their bytes with the index.
 *
 * They return OK. They fail with NO_SUCH_TEST, KEY_TOO_LONG, BAD_COLUMN, COLUMN_TOO_LONG, BAD_RANGE, TOO_MANY_VIEWS,
 * SPENT or NO_MEMORY; there is then no new view. */
rowanspan_status rowanspan_build_prefix(rowanspan *index, const void *prefix, size_t prefix_length,
                                        struct rowanspan_test test, uint64_t *view);
rowanspan_status rowanspan_build_from(rowanspan *index, const void *lo, size_t lo_length, struct rowanspan_test test,
                                      uint64_t *view);
rowanspan_status rowanspan_build_between(rowanspan *index, const void *lo, size_t lo_length, const void *hi,
                                         size_t hi_length, struct rowanspan_test test, uint64_t *view);

/* rowanspan_view: writes what a view shows to the buffer, if the view is at commit `floor` or later, with the view's
 * first rows from a key on, at most `limit` (1 to 1000). The answer is read by rowanspan_read_page. *length is the
 * length of the answer in bytes, also if the call returns NO_ROOM. If it returns BEHIND, *length is the commit at which
 * the view is.
 *
 * Cost: a descent of the tree of the view's rows, and memory for the rows that it returns, which is freed before the
 * call returns.
 *
 * Returns OK. Returns NO_ROOM if the answer doesn't fit, and BEHIND if the view is at a commit before the floor.
 * Fails with KEY_TOO_LONG, BAD_LIMIT, NO_SUCH_VIEW or NO_MEMORY. Unless it returns OK the buffer is as it was. */
rowanspan_status rowanspan_view(const rowanspan *index, uint64_t view, uint64_t floor, const void *start,
                                size_t start_length, uint16_t limit, void *into, size_t room, uint64_t *length);

/* The totals of a view, which are defined at the end of this file. */
struct rowanspan_totals;

/* rowanspan_totals: sets *totals to the commit at which a view is, how many rows it has, and the sum of each column, if
 * the view is at commit `floor` or later. They are those of a page of rowanspan_view. If the call returns BEHIND,
 * totals->commit is that of the view. The rest of *totals is 0 unless it returns OK.
 *
 * Cost: a descent of the tree of views, and a copy of the sums. It takes no memory.
 *
 * Returns OK. Returns BEHIND if the view is at a commit before the floor. Fails with NO_SUCH_VIEW, and with nothing
 * else. */
rowanspan_status rowanspan_totals(const rowanspan *index, uint64_t view, uint64_t floor,
                                  struct rowanspan_totals *totals);

/* rowanspan_apply: applies the next commit to a view; if `view` is 0, to the view that is furthest behind. *commit is
 * the number of the commit at which the view then is.
 *
 * Cost: a descent of the tree of the view's rows, and one of the tree of views.
 *
 * Returns OK. Returns CURRENT if the view is at the newest commit, or if `view` is 0 and no view is behind. Fails with
 * NO_SUCH_VIEW or NO_MEMORY; the view is then as it was. */
rowanspan_status rowanspan_apply(rowanspan *index, uint64_t view, uint64_t *commit);

/* rowanspan_keep_views: applies commits to the views that are behind, until all are at the newest commit. *applied is
 * how many times it applied a commit to a view.
 *
 * Returns OK, also if there was nothing to do. Fails with NO_MEMORY; the commits that were applied by then stay
 * applied. */
rowanspan_status rowanspan_keep_views(rowanspan *index, uint64_t *applied);

/* rowanspan_drop: ends a view and frees its memory. Its number isn't used again.
 *
 * Cost: the freeing of its rows.
 *
 * Returns OK. Fails with NO_SUCH_VIEW. */
rowanspan_status rowanspan_drop(rowanspan *index, uint64_t view);

/* ---- commits, nodes and numbers */

/* rowanspan_feed: writes what the commits after commit `from` did to the buffer, in their order, at most `limit` (1 to
 * 1000) commits. The answer is read by rowanspan_read_count, and then by rowanspan_read_delta for each. *length is the
 * length of the answer in bytes, also if the call returns NO_ROOM. If it returns BEHIND, *length is a commit: the log
 * has only the commits after it.
 *
 * Cost: memory for the deltas, which is freed before the call returns.
 *
 * Returns OK, also if there are no such commits. Returns NO_ROOM if the answer doesn't fit, and BEHIND if the log no
 * longer has some of these commits. Fails with BAD_LIMIT or NO_MEMORY. Unless it returns OK the buffer is as it was. */
rowanspan_status rowanspan_feed(const rowanspan *index, uint64_t from, uint16_t limit, void *into, size_t room,
                                uint64_t *length);

/* rowanspan_advance: begins the next epoch. *epoch is its number.
 *
 * Returns OK. Fails with SPENT. */
rowanspan_status rowanspan_advance(rowanspan *index, uint64_t *epoch);

/* rowanspan_collect: frees the nodes that rowanspan_tidy took out, and returns how many. It needs no advance before it,
 * since no call of this library is open while another is made. It doesn't fail.
 *
 * Cost: O(n) in the nodes that it frees. */
uint64_t rowanspan_collect(rowanspan *index);

/* rowanspan_commits: returns how many commits were made, which is the number of the last one.
 * rowanspan_len: returns how many rows there are.
 * rowanspan_nodes: returns how many nodes are in use, of at most 4,294,967,295 nodes.
 * rowanspan_columns: returns how many columns a row has.
 *
 * They cost next to nothing, and don't fail. */
uint64_t rowanspan_commits(const rowanspan *index);
uint64_t rowanspan_len(const rowanspan *index);
uint64_t rowanspan_nodes(const rowanspan *index);
uint64_t rowanspan_columns(const rowanspan *index);

#ifdef __cplusplus
}
#endif

/* ---- how arguments are made */

/* rowanspan_bytes_at: the same address, or another one that isn't null if it is null. */
static inline const uint8_t *rowanspan_bytes_at(const void *at) {
    static const uint8_t none[1] = {0};
    return at ? (const uint8_t *)at : none;
}

/* rowanspan_bytes: a key of `length` bytes at `at`, which may be null if `length` is 0. It doesn't copy them: the
 * caller keeps them unchanged until the call that is passed the key has returned. */
static inline struct rowanspan_bytes rowanspan_bytes(const void *at, size_t length) {
    struct rowanspan_bytes bytes;
    bytes.at = rowanspan_bytes_at(at);
    bytes.length = length;
    return bytes;
}

/* rowanspan_set: sets a column to `length` bytes at `at`. It doesn't copy them: the caller keeps them unchanged until
 * the put has returned. */
static inline struct rowanspan_set rowanspan_set(uint8_t column, const void *at, size_t length) {
    struct rowanspan_set set;
    set.column = column;
    set.at = rowanspan_bytes_at(at);
    set.length = length;
    return set;
}

/* rowanspan_sets_at: the same address, or another one that isn't null if it is null. */
static inline const struct rowanspan_set *rowanspan_sets_at(const struct rowanspan_set *sets) {
    static const struct rowanspan_set none[1] = {{0, NULL, 0}};
    return sets ? sets : none;
}

/* rowanspan_condition: the condition that the key's row is of this version, or, if `version` is 0, that the key has no
 * row. It doesn't copy the key: the caller keeps it unchanged until the batch has returned. */
static inline struct rowanspan_condition rowanspan_condition(const void *key, size_t key_length, uint64_t version) {
    struct rowanspan_condition condition;
    condition.key = rowanspan_bytes_at(key);
    condition.key_length = key_length;
    condition.version = version;
    return condition;
}

/* rowanspan_change_put: the change that sets `count` columns of the key's row, as rowanspan_put does. It copies neither
 * the key nor the sets: the caller keeps them unchanged until the batch has returned. */
static inline struct rowanspan_change rowanspan_change_put(const void *key, size_t key_length,
                                                           const struct rowanspan_set *sets, size_t count) {
    struct rowanspan_change change;
    change.key = rowanspan_bytes_at(key);
    change.key_length = key_length;
    change.sets = rowanspan_sets_at(sets);
    change.count = count;
    change.removes = false;
    return change;
}

/* rowanspan_change_remove: the change that removes the key's row, if there is one. It doesn't copy the key: the caller
 * keeps it unchanged until the batch has returned. */
static inline struct rowanspan_change rowanspan_change_remove(const void *key, size_t key_length) {
    struct rowanspan_change change = rowanspan_change_put(key, key_length, NULL, 0);
    change.removes = true;
    return change;
}

/* rowanspan_any: the test that each row passes. */
static inline struct rowanspan_test rowanspan_any(void) {
    struct rowanspan_test test;
    test.kind = 0;
    test.column = 0;
    test.least = 0;
    test.at = rowanspan_bytes_at(NULL);
    test.length = 0;
    return test;
}

/* rowanspan_equals: the test that a row passes if the column has exactly these bytes. It doesn't copy them: the caller
 * keeps them unchanged until the build has returned. */
static inline struct rowanspan_test rowanspan_equals(uint8_t column, const void *at, size_t length) {
    struct rowanspan_test test = rowanspan_any();
    test.kind = 1;
    test.column = column;
    test.at = rowanspan_bytes_at(at);
    test.length = length;
    return test;
}

/* rowanspan_at_least: the test that a row passes if the amount of the column is at least `least`. The amount of a
 * column is its bytes as a number, the highest byte first, or 0 if there are more than eight. */
static inline struct rowanspan_test rowanspan_at_least(uint8_t column, uint64_t least) {
    struct rowanspan_test test = rowanspan_any();
    test.kind = 2;
    test.column = column;
    test.least = least;
    return test;
}

/* ---- how answers are read
 *
 * A number has eight bytes, the highest first. Bytes, and the items of a list, come after a number that counts them. A
 * row is its version, which is the number of the commit that wrote it last, and the list of its columns. A reader reads
 * an answer from its start. Past the end it reads numbers as 0 and bytes as none, and is_short is true. What a reader
 * returns points into the caller's buffer, and is good as long as the buffer is unchanged. */
struct rowanspan_reader {
    const uint8_t *at;
    size_t left;
    bool is_short;
};

/* A row in an answer: rowanspan_read_bytes of `columns` returns one column after the other. */
struct rowanspan_row {
    uint64_t version;
    size_t column_count;
    struct rowanspan_reader columns;
};

/* A key and its row. */
struct rowanspan_pair {
    struct rowanspan_bytes key;
    struct rowanspan_row row;
};

/* A sum of up to 128 bits, as its upper and its lower half. */
struct rowanspan_sum {
    uint64_t upper, lower;
};

/* The totals of a view at a commit: how many rows it has, and for each column the sum of its amounts. */
struct rowanspan_totals {
    uint64_t commit;
    uint64_t row_count;
    size_t sum_count;
    struct rowanspan_sum sums[ROWANSPAN_MAX_COLUMNS];
};

/* What a view shows at a commit: how many rows it has, for each column the sum of its amounts, and the rows that were
 * asked for. rowanspan_read_pair of `pairs` returns one of these rows after the other. */
struct rowanspan_page {
    uint64_t commit;
    uint64_t row_count;
    size_t sum_count;
    struct rowanspan_sum sums[ROWANSPAN_MAX_COLUMNS];
    size_t pair_count;
    struct rowanspan_reader pairs;
};

/* What a commit did to a key: the row before it if `had_row`, and the row after it if `has_row`. */
struct rowanspan_delta {
    uint64_t number;
    struct rowanspan_bytes key;
    bool had_row, has_row;
    struct rowanspan_row before, after;
};

static inline struct rowanspan_reader rowanspan_reader(const void *answer, uint64_t length) {
    struct rowanspan_reader reader;
    reader.at = rowanspan_bytes_at(answer);
    reader.left = (size_t)length;
    reader.is_short = false;
    return reader;
}

static inline uint64_t rowanspan_read_number(struct rowanspan_reader *reader) {
    const uint8_t *at = reader->at;
    if (reader->left < 8) {
        reader->left = 0;
        reader->is_short = true;
        return 0;
    }
    reader->at += 8;
    reader->left -= 8;
    /* (compilers make one load and a byte swap of this) */
    return (uint64_t)at[0] << 56 | (uint64_t)at[1] << 48 | (uint64_t)at[2] << 40 | (uint64_t)at[3] << 32
        | (uint64_t)at[4] << 24 | (uint64_t)at[5] << 16 | (uint64_t)at[6] << 8 | (uint64_t)at[7];
}

/* rowanspan_read_count: how many items follow. */
static inline size_t rowanspan_read_count(struct rowanspan_reader *reader) {
    return (size_t)rowanspan_read_number(reader);
}

/* rowanspan_read_sum: a sum of up to 128 bits, as its upper and its lower half. */
static inline void rowanspan_read_sum(struct rowanspan_reader *reader, uint64_t *upper, uint64_t *lower) {
    *upper = rowanspan_read_number(reader);
    *lower = rowanspan_read_number(reader);
}

static inline struct rowanspan_bytes rowanspan_read_bytes(struct rowanspan_reader *reader) {
    struct rowanspan_bytes bytes;
    uint64_t length = rowanspan_read_number(reader);
    bytes.at = reader->at;
    bytes.length = 0;
    if (length > reader->left) {
        reader->left = 0;
        reader->is_short = true;
        return bytes;
    }
    bytes.length = (size_t)length;
    reader->at += bytes.length;
    reader->left -= bytes.length;
    return bytes;
}

static inline struct rowanspan_row rowanspan_read_row(struct rowanspan_reader *reader) {
    struct rowanspan_row row;
    size_t i;
    row.version = rowanspan_read_number(reader);
    row.column_count = rowanspan_read_count(reader);
    row.columns = *reader;
    for (i = 0; i < row.column_count && !reader->is_short; i++) {
        rowanspan_read_bytes(reader);
    }
    return row;
}

/* rowanspan_read_pair: a key and its row, as ranges and pages have them. */
static inline struct rowanspan_pair rowanspan_read_pair(struct rowanspan_reader *reader) {
    struct rowanspan_pair pair;
    pair.key = rowanspan_read_bytes(reader);
    pair.row = rowanspan_read_row(reader);
    return pair;
}

/* rowanspan_read_totals: reads the totals with which the answer of rowanspan_view begins. Further sums are 0. */
static inline struct rowanspan_totals rowanspan_read_totals(struct rowanspan_reader *reader) {
    struct rowanspan_totals totals;
    size_t i;
    totals.commit = rowanspan_read_number(reader);
    totals.row_count = rowanspan_read_number(reader);
    totals.sum_count = rowanspan_read_count(reader);
    if (totals.sum_count > ROWANSPAN_MAX_COLUMNS) {
        totals.sum_count = 0;
        reader->left = 0;
        reader->is_short = true;
    }
    for (i = 0; i < totals.sum_count; i++) {
        rowanspan_read_sum(reader, &totals.sums[i].upper, &totals.sums[i].lower);
    }
    for (; i < ROWANSPAN_MAX_COLUMNS; i++) {
        totals.sums[i].upper = 0;
        totals.sums[i].lower = 0;
    }
    return totals;
}

/* rowanspan_read_page: reads the answer of rowanspan_view up to its rows. The reader, and `pairs` of the page, are then
 * before the first row. */
static inline struct rowanspan_page rowanspan_read_page(struct rowanspan_reader *reader) {
    struct rowanspan_totals totals = rowanspan_read_totals(reader);
    struct rowanspan_page page;
    size_t i;
    page.commit = totals.commit;
    page.row_count = totals.row_count;
    page.sum_count = totals.sum_count;
    for (i = 0; i < ROWANSPAN_MAX_COLUMNS; i++) {
        page.sums[i] = totals.sums[i];
    }
    page.pair_count = rowanspan_read_count(reader);
    page.pairs = *reader;
    return page;
}

/* rowanspan_read_maybe_row: a row that may be absent, as rowanspan_get_many and deltas have it. It returns whether
 * there is a row. If there is none, *row has version 0 and no columns. */
static inline bool rowanspan_read_maybe_row(struct rowanspan_reader *reader, struct rowanspan_row *row) {
    bool is_there = rowanspan_read_number(reader) != 0;
    row->version = 0;
    row->column_count = 0;
    row->columns = *reader;
    if (is_there) {
        *row = rowanspan_read_row(reader);
    }
    return is_there;
}

static inline struct rowanspan_delta rowanspan_read_delta(struct rowanspan_reader *reader) {
    struct rowanspan_delta delta;
    delta.number = rowanspan_read_number(reader);
    delta.key = rowanspan_read_bytes(reader);
    delta.had_row = rowanspan_read_maybe_row(reader, &delta.before);
    delta.has_row = rowanspan_read_maybe_row(reader, &delta.after);
    return delta;
}

#endif
