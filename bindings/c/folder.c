/* folder.c: an index whose rows are in a folder. Its changes, in rowanspan.c, call begin_change and end_change. */
#include "index.h"

#include <stdlib.h>
#include <string.h>

rowanspan_status hold(rowanspan **index, struct rowanspan_raw raw, struct rowanspan_raw_log log) {
    *index = malloc(sizeof **index);
    if (!*index) {
        if (log.is_open) {
            rowanspan_raw_log_close(&log);
        }
        rowanspan_raw_close(&raw);
        return ROWANSPAN_NO_MEMORY;
    }
    (*index)->raw = raw;
    (*index)->log = log;
    (*index)->lags = false;
    return ROWANSPAN_OK;
}

rowanspan_status rowanspan_open_folder(rowanspan **index, const char *folder, uint64_t columns, uint64_t log_capacity,
                                       uint64_t log_retention, uint64_t checkpoint, char *message, size_t room) {
    struct rowanspan_raw raw = {NULL, false};
    struct rowanspan_raw_log log = {NULL, false};
    bool is_asked = message && room > 0;
    uint8_t none[1] = {0};
    uint64_t length = 0;
    rowanspan_status status = (rowanspan_status)rowanspan_raw_open_folder(
        &raw, &log, (const uint8_t *)folder, strlen(folder), columns, log_capacity, log_retention, checkpoint,
        is_asked ? (uint8_t *)message : none, is_asked ? room - 1 : 0, &length);
    if (is_asked) {
        message[length] = 0;
    }
    *index = NULL;
    /* after the raw call, so that limits are answered before memory */
    return status == ROWANSPAN_OK ? hold(index, raw, log) : status;
}

rowanspan_status write_commits(rowanspan *index) {
    rowanspan_status status;
    uint64_t lacking = 0, unread;
    do {
        status = (rowanspan_status)rowanspan_raw_log_commits(&index->raw, &index->log, &lacking);
    } while (status == ROWANSPAN_OK && lacking > 0);
    index->lags = lacking > 0;
    if (lacking > 0) {
        return status;
    }
    /* a round of a checkpoint that is due: if it fails, the commits are written all the same */
    rowanspan_raw_log_checkpoint(&index->raw, &index->log, false, &unread);
    return ROWANSPAN_OK;
}

void close_log(rowanspan *index) {
    if (index->log.is_open) {
        rowanspan_sync(index, NULL);
        rowanspan_raw_log_close(&index->log);
    }
}

rowanspan_status rowanspan_sync(rowanspan *index, uint64_t *durable) {
    uint64_t unread = 0;
    uint64_t *number = durable ? durable : &unread;
    rowanspan_status status = ROWANSPAN_NO_FOLDER;
    *number = 0;
    if (index->log.is_open) {
        status = begin_change(index, number);
    }
    return status == ROWANSPAN_OK ? (rowanspan_status)rowanspan_raw_log_sync(&index->log, number) : status;
}

uint64_t rowanspan_durable(const rowanspan *index) {
    uint64_t durable = 0;
    if (index->log.is_open) {
        /* (the const is taken away as in rowanspan.c) */
        rowanspan_raw_log_durable(&((rowanspan *)index)->log, &durable);
    }
    return durable;
}

rowanspan_status rowanspan_checkpoint(rowanspan *index) {
    uint64_t unread, is_going = 1;
    bool begins = true;
    rowanspan_status status = index->log.is_open ? begin_change(index, &unread) : ROWANSPAN_NO_FOLDER;
    while (status == ROWANSPAN_OK && is_going) {
        status = (rowanspan_status)rowanspan_raw_log_checkpoint(&index->raw, &index->log, begins, &is_going);
        begins = false;
    }
    return status;
}
