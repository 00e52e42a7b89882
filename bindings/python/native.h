/* native.h: what the files of the extension module rowanspan._native share.
 *
 * The module makes the most frequent calls of an embedded index: get, put, put_if, remove, range, range_back, count,
 * len, and those of a view. Its type Calls, of which an index has one, calls the library that ctypes has loaded: it is
 * passed the addresses of the library's functions, and of the index's handle. So there is one copy of the library in a
 * process, and an index takes calls of both kinds.
 *
 * Each call returns NotImplemented if it has changed nothing and has no answer: an argument isn't of the usual type,
 * another thread is in a call of the index, the library refuses the call, memory ends, the log of a folder lacks a
 * commit, or there are COUNTED_ROWS rows or more to count. The caller then makes the call by ctypes, which waits for
 * the other thread, or raises what has to be raised.
 *
 * A call holds the interpreter's lock from its first to its last call of the library, and no code in Python runs in
 * between. Only while it writes the commit of a change to the log of a folder, it holds the index's lock instead. A
 * call by ctypes releases the interpreter's lock: it holds the index's lock, which a call here tests. Code in Python
 * may run when the answer becomes objects, since an allocation may start the garbage collector, and this code may call
 * the index again. So each call has room of its own for its answer. */
#ifndef ROWANSPAN_NATIVE_H
#define ROWANSPAN_NATIVE_H

#define PY_SSIZE_T_CLEAN
#include <Python.h>

#include <stdbool.h>

#include "../c/raw.h"

enum {
    DONE = ROWANSPAN_OK,
    /* the most columns of an index, and the most bytes of a row */
    COLUMNS = 16,
    ROW_BYTES = 16 + 72 * COLUMNS,
    /* the most bytes of the totals of a view */
    TOTALS_BYTES = 24 + 16 * COLUMNS,
    FIRST_ROOM = 4096,
    /* a call counts fewer rows than that. To count them takes about as long as a call by ctypes takes besides: so it
     * costs little that ctypes counts them again, and other threads of the interpreter don't wait for a long count. */
    COUNTED_ROWS = 256
};

/* The lock of an index: the thread that holds it may take it again. Only threads that hold the interpreter's lock read
 * and write `owner` and `depth`. */
struct lock {
    PyThread_type_lock lock;
    unsigned long owner;
    size_t depth;
};

/* The functions of the library, of the types that bindings/c/raw.h declares (__typeof__ is of GCC and Clang). */
struct functions {
    __typeof__(rowanspan_raw_get) *get;
    __typeof__(rowanspan_raw_put) *put;
    __typeof__(rowanspan_raw_put_if) *put_if;
    __typeof__(rowanspan_raw_remove) *remove;
    __typeof__(rowanspan_raw_range) *range;
    __typeof__(rowanspan_raw_range_back) *range_back;
    __typeof__(rowanspan_raw_count) *count;
    __typeof__(rowanspan_raw_len) *len;
    __typeof__(rowanspan_raw_view) *view;
    __typeof__(rowanspan_raw_totals) *totals;
    __typeof__(rowanspan_raw_apply) *apply;
    __typeof__(rowanspan_raw_log_commits) *log_commits;
    __typeof__(rowanspan_raw_log_checkpoint) *log_checkpoint;
};

/* The log of an index, as library.py has it: it isn't open if the rows are in memory alone. `lags` is true if the log
 * may lack a commit. */
struct log {
    struct rowanspan_raw_log handle;
    bool lags;
};

/* A class whose objects are made without a call of its __init__, and the names of their attributes. */
struct record {
    PyTypeObject *type;
    newfunc make;
    PyObject *names[4];
};

/* Room for an answer. */
struct room {
    uint8_t *at;
    size_t size;
};

typedef struct {
    PyObject_HEAD
    struct functions library;
    raw_handle handle;
    struct log *log;
    bool keeps_views;
    /* the objects of ctypes that have the handle and the log */
    PyObject *owner, *log_owner;
    struct lock lock;
    PyObject *no_arguments, *views_lag;
    struct record row, page;
    /* the room of the last answer, or none while a call uses it */
    struct room room;
} Calls;

/* ---- lock.c */

/* Makes a lock. Returns false with an exception if memory ends. */
bool lock_begin(struct lock *lock);

void lock_end(struct lock *lock);

/* Whether no other thread is in a call of the index. */
bool is_free(const struct lock *lock);

/* Takes a lock that is free, without waiting. Returns false if another thread is about to have it. */
bool lock_at_once(struct lock *lock);

/* Releases a lock that this thread holds. */
void lock_release(struct lock *lock);

/* The methods __enter__ and __exit__, for a with statement in which a call is made by ctypes. */
PyObject *calls_enter(Calls *self, PyObject *unused);
PyObject *calls_exit(Calls *self, PyObject *fault);

/* ---- arguments.c: each function returns false if the value isn't of the usual type */

/* (this one raises TypeError then) */
bool takes(PyObject *arguments, Py_ssize_t count);

bool bytes_in(PyObject *value, struct rowanspan_bytes *bytes);

bool number_in(PyObject *value, uint64_t most, uint64_t *number);

/* The numbers of columns; None means all, which the library spells as none. */
bool columns_in(PyObject *value, uint8_t *columns, size_t *count);

/* What a put sets: bytes of column 0, or a dict of columns and bytes. The sets point into the value. */
bool sets_in(PyObject *value, struct rowanspan_set *sets, size_t *count);

/* ---- answers.c: each function returns a new object, or null with an exception */

typedef PyObject *(*of_answer)(Calls *, struct rowanspan_reader *);

/* None, and NotImplemented. */
PyObject *none(void);
PyObject *undone(void);
PyObject *row_of(Calls *self, struct rowanspan_reader *reader);
PyObject *pairs_of(Calls *self, struct rowanspan_reader *reader);
PyObject *page_of(Calls *self, struct rowanspan_reader *reader);

/* The totals of a view: its number of commits, its count and its sums, as a tuple. */
PyObject *totals_of(Calls *self, struct rowanspan_reader *reader);

/* The object that an answer has. If the answer ends inside a field, ctypes reads it again, and says so. */
PyObject *value_in(Calls *self, const uint8_t *answer, uint64_t length, of_answer value_of);

/* ---- calls.c */

extern PyMethodDef calls_methods[];

#endif
