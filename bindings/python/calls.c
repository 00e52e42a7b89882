/* calls.c: the calls of an index. native.h says what they have in common. */
#include "native.h"

/* ---- reads */

static PyObject *calls_get(Calls *self, PyObject *arguments) {
    uint8_t columns[COLUMNS], answer[ROW_BYTES];
    struct rowanspan_bytes key;
    size_t count;
    uint64_t length;
    uint16_t status;
    if (!takes(arguments, 2)) {
        return NULL;
    }
    if (!bytes_in(PyTuple_GetItem(arguments, 0), &key) ||
        !columns_in(PyTuple_GetItem(arguments, 1), columns, &count) || !is_free(&self->lock)) {
        return undone();
    }
    status = self->library.get(self->handle, key.at, key.length, columns, count, answer, sizeof answer, &length);
    if (status == ROWANSPAN_ABSENT) {
        return none();
    }
    return status == DONE ? value_in(self, answer, length, row_of) : undone();
}

/* A read of several rows: the range from `start` on, or that before it if it goes back (before the end if it has no
 * bound), or the page of a view from there on. */
struct query {
    bool is_of_view, is_back, is_bounded;
    uint64_t view, floor, limit;
    struct rowanspan_bytes start;
    uint8_t columns[COLUMNS];
    size_t count;
};

static uint16_t ask(Calls *self, const struct query *query, const struct room *room, uint64_t *length) {
    if (query->is_of_view) {
        return self->library.view(self->handle, query->view, query->floor, query->start.at, query->start.length,
                                  (uint16_t)query->limit, room->at, room->size, length);
    }
    if (query->is_back) {
        return self->library.range_back(self->handle, query->is_bounded, query->start.at, query->start.length,
                                        (uint16_t)query->limit, query->columns, query->count, room->at, room->size,
                                        length);
    }
    return self->library.range(self->handle, query->start.at, query->start.length, (uint16_t)query->limit,
                               query->columns, query->count, room->at, room->size, length);
}

/* Makes room for an answer of this length. Returns false, and keeps the room as it was, if memory ends. */
static bool grow(struct room *room, uint64_t length) {
    size_t size = 2 * (size_t)length;
    uint8_t *at = PyMem_Realloc(room->at, size);
    if (at) {
        room->at = at;
        room->size = size;
    }
    return at != NULL;
}

/* Asks, and again if the answer needs more room. Returns whether there is an answer. */
static bool is_answered(Calls *self, const struct query *query, struct room *room, uint64_t *length) {
    uint16_t status = ask(self, query, room, length);
    if (status == ROWANSPAN_NO_ROOM && grow(room, *length)) {
        status = ask(self, query, room, length);
    }
    return status == DONE;
}

/* Reads several rows. The room is taken out while it is in use: a call that is made meanwhile makes its own. */
static PyObject *answer_to(Calls *self, const struct query *query, of_answer value_of) {
    struct room room = self->room, empty = {NULL, 0};
    PyObject *value;
    uint64_t length = 0;
    if (!is_free(&self->lock)) {
        return undone();
    }
    self->room = empty;
    if (!room.at && !grow(&room, FIRST_ROOM / 2)) {
        return undone();
    }
    value = is_answered(self, query, &room, &length) ? value_in(self, room.at, length, value_of) : undone();
    PyMem_Free(self->room.at);
    self->room = room;
    return value;
}

static PyObject *calls_range(Calls *self, PyObject *arguments) {
    struct query query = {.is_of_view = false};
    if (!takes(arguments, 3)) {
        return NULL;
    }
    if (!bytes_in(PyTuple_GetItem(arguments, 0), &query.start) ||
        !number_in(PyTuple_GetItem(arguments, 1), UINT16_MAX, &query.limit) ||
        !columns_in(PyTuple_GetItem(arguments, 2), query.columns, &query.count)) {
        return undone();
    }
    return answer_to(self, &query, pairs_of);
}

static PyObject *calls_range_back(Calls *self, PyObject *arguments) {
    struct query query = {.is_back = true, .start = {(const uint8_t *)"", 0}};
    if (!takes(arguments, 3)) {
        return NULL;
    }
    query.is_bounded = PyTuple_GetItem(arguments, 0) != Py_None;
    if ((query.is_bounded && !bytes_in(PyTuple_GetItem(arguments, 0), &query.start)) ||
        !number_in(PyTuple_GetItem(arguments, 1), UINT16_MAX, &query.limit) ||
        !columns_in(PyTuple_GetItem(arguments, 2), query.columns, &query.count)) {
        return undone();
    }
    return answer_to(self, &query, pairs_of);
}

static PyObject *calls_count(Calls *self, PyObject *arguments) {
    struct rowanspan_bytes start, stop = {(const uint8_t *)"", 0};
    uint64_t most, count;
    bool is_bounded;
    uint16_t status;
    if (!takes(arguments, 3)) {
        return NULL;
    }
    is_bounded = PyTuple_GetItem(arguments, 1) != Py_None;
    if (!bytes_in(PyTuple_GetItem(arguments, 0), &start) ||
        (is_bounded && !bytes_in(PyTuple_GetItem(arguments, 1), &stop)) ||
        !number_in(PyTuple_GetItem(arguments, 2), UINT32_MAX, &most) || !is_free(&self->lock)) {
        return undone();
    }
    status = self->library.count(self->handle, start.at, start.length, is_bounded, stop.at, stop.length,
                                 most < COUNTED_ROWS ? (uint32_t)most : COUNTED_ROWS, &count);
    return status == DONE && count < COUNTED_ROWS ? PyLong_FromUnsignedLongLong(count) : undone();
}

static PyObject *calls_len(Calls *self, PyObject *unused) {
    uint64_t rows;
    (void)unused;
    if (!is_free(&self->lock) || self->library.len(self->handle, &rows) != DONE) {
        return undone();
    }
    return PyLong_FromUnsignedLongLong(rows);
}

static PyObject *calls_view(Calls *self, PyObject *arguments) {
    struct query query = {.is_of_view = true};
    if (!takes(arguments, 4)) {
        return NULL;
    }
    if (!number_in(PyTuple_GetItem(arguments, 0), UINT64_MAX, &query.view) ||
        !number_in(PyTuple_GetItem(arguments, 1), UINT64_MAX, &query.floor) ||
        !bytes_in(PyTuple_GetItem(arguments, 2), &query.start) ||
        !number_in(PyTuple_GetItem(arguments, 3), UINT16_MAX, &query.limit)) {
        return undone();
    }
    return answer_to(self, &query, page_of);
}

static PyObject *calls_totals(Calls *self, PyObject *arguments) {
    uint8_t answer[TOTALS_BYTES];
    uint64_t view, floor, length;
    uint16_t status;
    if (!takes(arguments, 2)) {
        return NULL;
    }
    if (!number_in(PyTuple_GetItem(arguments, 0), UINT64_MAX, &view) ||
        !number_in(PyTuple_GetItem(arguments, 1), UINT64_MAX, &floor) || !is_free(&self->lock)) {
        return undone();
    }
    status = self->library.totals(self->handle, view, floor, answer, sizeof answer, &length);
    return status == DONE ? value_in(self, answer, length, totals_of) : undone();
}

/* ---- changes */

/* Brings all views to the newest commit. Returns false if the library refuses that. */
static bool views_follow(Calls *self) {
    uint64_t at;
    uint16_t status;
    do {
        status = self->library.apply(self->handle, 0, &at);
    } while (status == DONE);
    return status == ROWANSPAN_CURRENT;
}

/* Whether a change may be made here: no other thread is in a call of the index, and its log lacks no commit. */
static bool may_change(const Calls *self) {
    return is_free(&self->lock) && !self->log->lags;
}

/* Writes the commits that the log of a folder lacks, and makes a round of a checkpoint that is due. Other threads of the interpreter run meanwhile, and those that
 * call the index wait for its lock. */
static uint16_t write_commits(Calls *self) {
    bool is_held = lock_at_once(&self->lock);
    PyThreadState *state = is_held ? PyEval_SaveThread() : NULL;
    uint64_t lacking = 0, unread;
    uint16_t status;
    do {
        status = self->library.log_commits(self->handle, &self->log->handle, &lacking);
    } while (status == DONE && lacking > 0);
    if (lacking == 0) {
        /* (if it fails, the commits are written all the same) */
        self->library.log_checkpoint(self->handle, &self->log->handle, false, &unread);
    }
    if (state) {
        PyEval_RestoreThread(state);
    }
    self->log->lags = lacking > 0;
    if (is_held) {
        lock_release(&self->lock);
    }
    return lacking > 0 ? status : DONE;
}

/* What a change does that was made: its commit is written, if there is a folder. */
static PyObject *committed(Calls *self, PyObject *index, uint64_t number) {
    uint16_t status = self->log->handle.is_open ? write_commits(self) : DONE;
    if (status != DONE) {
        /* (it raises NotWritten) */
        return PyObject_CallMethod(index, "_not_written", "KH", (unsigned long long)number, status);
    }
    return PyLong_FromUnsignedLongLong(number);
}

/* What a change does after its call of the library: the views follow. If they can't, the index is told that they lag,
 * and its next change by ctypes brings them up to date. */
static PyObject *changed(Calls *self, PyObject *index, uint16_t status, uint64_t number) {
    if (status == DONE && self->keeps_views && !views_follow(self) &&
        PyObject_SetAttr(index, self->views_lag, Py_True) < 0) {
        PyErr_Clear();
    }
    if (status == ROWANSPAN_ABSENT) {
        return none();
    }
    return status == DONE ? committed(self, index, number) : undone();
}

static PyObject *calls_put(Calls *self, PyObject *arguments) {
    struct rowanspan_set sets[COLUMNS];
    struct rowanspan_bytes key;
    size_t count;
    uint64_t number;
    uint16_t status;
    if (!takes(arguments, 3)) {
        return NULL;
    }
    if (!bytes_in(PyTuple_GetItem(arguments, 1), &key) || !sets_in(PyTuple_GetItem(arguments, 2), sets, &count) ||
        !may_change(self)) {
        return undone();
    }
    status = self->library.put(self->handle, key.at, key.length, sets, count, &number);
    return changed(self, PyTuple_GetItem(arguments, 0), status, number);
}

static PyObject *calls_put_if(Calls *self, PyObject *arguments) {
    struct rowanspan_set sets[COLUMNS];
    struct rowanspan_bytes key;
    size_t count;
    uint64_t version, number;
    uint16_t status;
    if (!takes(arguments, 4)) {
        return NULL;
    }
    if (!bytes_in(PyTuple_GetItem(arguments, 1), &key) || !sets_in(PyTuple_GetItem(arguments, 2), sets, &count) ||
        !number_in(PyTuple_GetItem(arguments, 3), UINT64_MAX, &version) || !may_change(self)) {
        return undone();
    }
    status = self->library.put_if(self->handle, key.at, key.length, sets, count, version, &number);
    return changed(self, PyTuple_GetItem(arguments, 0), status, number);
}

static PyObject *calls_remove(Calls *self, PyObject *arguments) {
    struct rowanspan_bytes key;
    uint64_t number;
    uint16_t status;
    if (!takes(arguments, 2)) {
        return NULL;
    }
    if (!bytes_in(PyTuple_GetItem(arguments, 1), &key) || !may_change(self)) {
        return undone();
    }
    status = self->library.remove(self->handle, key.at, key.length, &number);
    return changed(self, PyTuple_GetItem(arguments, 0), status, number);
}

PyMethodDef calls_methods[] = {
    {"get", (PyCFunction)calls_get, METH_VARARGS, "get(key, columns): the row, or None"},
    {"range", (PyCFunction)calls_range, METH_VARARGS, "range(start, limit, columns): pairs of a key and its row"},
    {"range_back", (PyCFunction)calls_range_back, METH_VARARGS, "range_back(stop, limit, columns): pairs"},
    {"count", (PyCFunction)calls_count, METH_VARARGS, "count(start, stop, most): how many rows"},
    {"len", (PyCFunction)calls_len, METH_NOARGS, "len(): how many rows there are"},
    {"view", (PyCFunction)calls_view, METH_VARARGS, "view(number, floor, start, limit): the page"},
    {"totals", (PyCFunction)calls_totals, METH_VARARGS, "totals(number, floor): at, count and sums"},
    {"put", (PyCFunction)calls_put, METH_VARARGS, "put(index, key, sets): the number of the commit"},
    {"put_if", (PyCFunction)calls_put_if, METH_VARARGS, "put_if(index, key, sets, version): the number of the commit"},
    {"remove", (PyCFunction)calls_remove, METH_VARARGS, "remove(index, key): the number of the commit, or None"},
    {"__enter__", (PyCFunction)calls_enter, METH_NOARGS, "Takes the index's lock, for a call by ctypes."},
    {"__exit__", (PyCFunction)calls_exit, METH_VARARGS, "Releases the index's lock."},
    {NULL, NULL, 0, NULL},
};
