/* cursor.c: a cursor, which reads some rows at a time by rowanspan_range, rowanspan_range_back or rowanspan_view, and
 * returns one after the other. */
#include "rowanspan.h"

#include <stdlib.h>
#include <string.h>

/* How many rows are read at a time, and how many bytes the buffer has at first. */
enum { ROWS = 64, FIRST_SIZE = 4096 };

struct rowanspan_cursor {
    const rowanspan *index;
    /* the view whose rows it returns, or 0 for the rows of the index */
    uint64_t view;
    /* the rows that were read and not yet returned, and how many they are */
    struct rowanspan_reader reader;
    size_t left;
    /* whether it returns rows against the order of their keys, and whether they are to be before a key */
    bool is_back, is_bounded;
    /* the key from which the next rows are read, or before which they are, if there may be more */
    bool may_have_more;
    uint8_t from[ROWANSPAN_MAX_KEY_BYTES];
    size_t from_length;
    /* the answer of a range or of a view */
    uint8_t *buffer;
    size_t size;
    size_t column_count;
    uint8_t columns[];
};

/* Makes the buffer larger, to at least `needed` bytes, and at least twice as large, so that it seldom grows. What it
 * holds is lost. If memory is refused, the buffer is as it was. */
static bool grow(rowanspan_cursor *cursor, uint64_t needed) {
    size_t size = cursor->size <= SIZE_MAX / 2 ? 2 * cursor->size : SIZE_MAX;
    uint8_t *buffer;
    if (size < needed) {
        size = (size_t)needed;
    }
    /* (if a size_t can't hold the number) */
    if (size < needed) {
        return false;
    }
    buffer = malloc(size);
    if (!buffer) {
        return false;
    }
    free(cursor->buffer);
    cursor->buffer = buffer;
    cursor->size = size;
    return true;
}

static rowanspan_status ask(const rowanspan_cursor *cursor, uint64_t *length) {
    if (cursor->view != 0) {
        return rowanspan_view(cursor->index, cursor->view, 0, cursor->from, cursor->from_length, ROWS, cursor->buffer,
                              cursor->size, length);
    }
    if (cursor->is_back) {
        return rowanspan_range_back(cursor->index, cursor->is_bounded ? cursor->from : NULL, cursor->from_length, ROWS,
                                    cursor->columns, cursor->column_count, cursor->buffer, cursor->size, length);
    }
    return rowanspan_range(cursor->index, cursor->from, cursor->from_length, ROWS, cursor->columns,
                           cursor->column_count, cursor->buffer, cursor->size, length);
}

/* Reads the count of the rows of an answer. The reader is then before the first one. */
static size_t read_count(const rowanspan_cursor *cursor, struct rowanspan_reader *reader) {
    return cursor->view != 0 ? rowanspan_read_page(reader).pair_count : rowanspan_read_count(reader);
}

/* Reads the next rows into the buffer, from which all rows were returned. */
static rowanspan_status read_rows(rowanspan_cursor *cursor) {
    uint64_t length;
    rowanspan_status status = ask(cursor, &length);
    while (status == ROWANSPAN_NO_ROOM) {
        if (!grow(cursor, length)) {
            return ROWANSPAN_NO_MEMORY;
        }
        status = ask(cursor, &length);
    }
    if (status != ROWANSPAN_OK) {
        return status;
    }
    cursor->reader = rowanspan_reader(cursor->buffer, length);
    cursor->left = read_count(cursor, &cursor->reader);
    cursor->may_have_more = cursor->left == ROWS;
    return ROWANSPAN_OK;
}

/* Sets `from` to the least key after this one, or to this one if the cursor goes back. Returns whether there can be a
 * row from there on, or before it. */
static bool continue_after(rowanspan_cursor *cursor, struct rowanspan_bytes key) {
    size_t length = key.length;
    memcpy(cursor->from, key.at, length);
    if (cursor->is_back) {
        cursor->is_bounded = true;
        cursor->from_length = length;
        return length > 0;
    }
    if (length < ROWANSPAN_MAX_KEY_BYTES) {
        cursor->from[length] = 0;
        cursor->from_length = length + 1;
        return true;
    }
    /* no longer key begins with it, so the next key is greater in some byte: in the last one that can be greater */
    while (length > 0 && cursor->from[length - 1] == UINT8_MAX) {
        length--;
    }
    if (length == 0) {
        return false;
    }
    cursor->from[length - 1]++;
    cursor->from_length = length;
    return true;
}

/* Makes a cursor, whose start and columns were tested: the key has room, and there are at most 16 names of columns. */
static rowanspan_status make(const rowanspan *index, uint64_t view, const void *start, size_t start_length,
                             const uint8_t *columns, size_t column_count, rowanspan_cursor **cursor) {
    rowanspan_cursor *made = malloc(sizeof *made + column_count);
    if (!made) {
        return ROWANSPAN_NO_MEMORY;
    }
    made->index = index;
    made->view = view;
    made->left = 0;
    made->is_back = false;
    made->is_bounded = false;
    made->may_have_more = true;
    memcpy(made->from, rowanspan_bytes_at(start), start_length);
    made->from_length = start_length;
    made->buffer = NULL;
    made->size = 0;
    memcpy(made->columns, rowanspan_bytes_at(columns), column_count);
    made->column_count = column_count;
    if (!grow(made, FIRST_SIZE)) {
        free(made);
        return ROWANSPAN_NO_MEMORY;
    }
    *cursor = made;
    return ROWANSPAN_OK;
}

/* Each open first asks for one row, without a buffer: limits are then answered before memory. If no limit is broken,
 * the status is NO_ROOM, since each answer has a count at least. */

rowanspan_status rowanspan_cursor_open(const rowanspan *index, const void *start, size_t start_length,
                                       const uint8_t *columns, size_t column_count, rowanspan_cursor **cursor) {
    rowanspan_status status = rowanspan_range(index, start, start_length, 1, columns, column_count, NULL, 0, NULL);
    *cursor = NULL;
    return status == ROWANSPAN_NO_ROOM ? make(index, 0, start, start_length, columns, column_count, cursor) : status;
}

rowanspan_status rowanspan_cursor_open_back(const rowanspan *index, const void *before, size_t before_length,
                                            const uint8_t *columns, size_t column_count, rowanspan_cursor **cursor) {
    size_t length = before ? before_length : 0;
    rowanspan_status status = rowanspan_range_back(index, before, length, 1, columns, column_count, NULL, 0, NULL);
    *cursor = NULL;
    if (status == ROWANSPAN_NO_ROOM) {
        status = make(index, 0, before, length, columns, column_count, cursor);
    }
    if (*cursor) {
        (*cursor)->is_back = true;
        (*cursor)->is_bounded = before != NULL;
    }
    return status;
}

rowanspan_status rowanspan_view_cursor_open(const rowanspan *index, uint64_t view, const void *start,
                                            size_t start_length, rowanspan_cursor **cursor) {
    rowanspan_status status = rowanspan_view(index, view, 0, start, start_length, 1, NULL, 0, NULL);
    *cursor = NULL;
    return status == ROWANSPAN_NO_ROOM ? make(index, view, start, start_length, NULL, 0, cursor) : status;
}

rowanspan_status rowanspan_cursor_next(rowanspan_cursor *cursor, struct rowanspan_pair *pair) {
    if (cursor->left == 0 && cursor->may_have_more) {
        rowanspan_status status = read_rows(cursor);
        if (status != ROWANSPAN_OK) {
            return status;
        }
    }
    if (cursor->left == 0) {
        return ROWANSPAN_ABSENT;
    }
    *pair = rowanspan_read_pair(&cursor->reader);
    cursor->left--;
    if (cursor->left == 0 && cursor->may_have_more) {
        cursor->may_have_more = continue_after(cursor, pair->key);
    }
    return ROWANSPAN_OK;
}

void rowanspan_cursor_close(rowanspan_cursor *cursor) {
    if (cursor) {
        free(cursor->buffer);
        free(cursor);
    }
}
