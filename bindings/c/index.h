/* index.h: what an index of rowanspan.h is, and what its changes do besides if its rows are in a folder. Only the files
 * of bindings/c include it. */
#ifndef ROWANSPAN_INDEX_H
#define ROWANSPAN_INDEX_H

#include "raw.h"

/* An index: a raw handle that holds one, and the log to which its commits go. The log isn't open if the rows are in
 * memory alone. `lags` is true if the log may lack a commit. */
struct rowanspan {
    struct rowanspan_raw raw;
    struct rowanspan_raw_log log;
    bool lags;
};

/* Sets *index to a new index that holds what these hold. If memory is refused, both are closed. */
rowanspan_status hold(rowanspan **index, struct rowanspan_raw raw, struct rowanspan_raw_log log);

/* Writes the commits that an open log lacks. */
rowanspan_status write_commits(rowanspan *index);

/* Makes all commits durable, as far as the disk does that, and ends the log. It does nothing if the log isn't open. */
void close_log(rowanspan *index);

/* What a change does before it is made: it writes what the log lacks. If that fails, nothing is changed. */
static inline rowanspan_status begin_change(rowanspan *index, uint64_t *commit) {
    if (!index->lags) {
        return ROWANSPAN_OK;
    }
    *commit = 0;
    return write_commits(index);
}

/* What a change of this status does after it: it writes its commit to the log. Returns the status of the call. */
static inline rowanspan_status end_change(rowanspan *index, rowanspan_status status) {
    if (status != ROWANSPAN_OK || !index->log.is_open) {
        return status;
    }
    return write_commits(index) == ROWANSPAN_OK ? ROWANSPAN_OK : ROWANSPAN_NOT_WRITTEN;
}

#endif
