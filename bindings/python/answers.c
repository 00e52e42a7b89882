/* answers.c: how the answers of the library become objects. native.h describes the functions. */
#include "native.h"

#include <inttypes.h>
#include <stdio.h>

PyObject *none(void) {
    Py_INCREF(Py_None);
    return Py_None;
}

PyObject *undone(void) {
    Py_INCREF(Py_NotImplemented);
    return Py_NotImplemented;
}

/* An object of a record's class, with these values, whose references it takes, also if it fails. If one of them is
 * null, the last one is null too. */
static PyObject *record_of(Calls *self, const struct record *record, size_t count, PyObject **values) {
    bool is_whole = values[count - 1] != NULL;
    PyObject *made = is_whole ? record->make(record->type, self->no_arguments, NULL) : NULL;
    size_t i;
    is_whole = made != NULL;
    for (i = 0; i < count; i++) {
        is_whole = is_whole && PyObject_GenericSetAttr(made, record->names[i], values[i]) == 0;
        Py_XDECREF(values[i]);
    }
    if (!is_whole) {
        Py_CLEAR(made);
    }
    return made;
}

static PyObject *bytes_of(struct rowanspan_reader *reader) {
    struct rowanspan_bytes bytes = rowanspan_read_bytes(reader);
    return PyBytes_FromStringAndSize((const char *)bytes.at, (Py_ssize_t)bytes.length);
}

static PyObject *sum_of(struct rowanspan_reader *reader) {
    uint64_t upper, lower;
    char digits[33];
    rowanspan_read_sum(reader, &upper, &lower);
    if (upper == 0) {
        return PyLong_FromUnsignedLongLong(lower);
    }
    snprintf(digits, sizeof digits, "%016" PRIx64 "%016" PRIx64, upper, lower);
    return PyLong_FromString(digits, NULL, 16);
}

/* How many items follow. An answer that ends inside a field, as no answer of the library does, has none. */
static Py_ssize_t count_of(struct rowanspan_reader *reader, size_t least_bytes) {
    size_t count = rowanspan_read_count(reader);
    if (count > reader->left / least_bytes) {
        reader->is_short = true;
        return 0;
    }
    return (Py_ssize_t)count;
}

/* A tuple of as many items as the answer has next. */
static PyObject *tuple_of(struct rowanspan_reader *reader, size_t least_bytes,
                          PyObject *(*item_of)(struct rowanspan_reader *)) {
    Py_ssize_t count = count_of(reader, least_bytes), i;
    PyObject *items = PyTuple_New(count), *item;
    for (i = 0; items && i < count; i++) {
        item = item_of(reader);
        if (!item || PyTuple_SetItem(items, i, item) < 0) {
            Py_CLEAR(items);
        }
    }
    return items;
}

PyObject *row_of(Calls *self, struct rowanspan_reader *reader) {
    PyObject *values[2];
    values[0] = PyLong_FromUnsignedLongLong(rowanspan_read_number(reader));
    values[1] = values[0] ? tuple_of(reader, 8, bytes_of) : NULL;
    return record_of(self, &self->row, 2, values);
}

static PyObject *pair_of(Calls *self, struct rowanspan_reader *reader) {
    PyObject *key = bytes_of(reader), *row = key ? row_of(self, reader) : NULL;
    PyObject *pair = row ? PyTuple_Pack(2, key, row) : NULL;
    Py_XDECREF(key);
    Py_XDECREF(row);
    return pair;
}

PyObject *pairs_of(Calls *self, struct rowanspan_reader *reader) {
    Py_ssize_t count = count_of(reader, 24), i;
    PyObject *pairs = PyList_New(count), *pair;
    for (i = 0; pairs && i < count; i++) {
        pair = pair_of(self, reader);
        if (!pair || PyList_SetItem(pairs, i, pair) < 0) {
            Py_CLEAR(pairs);
        }
    }
    return pairs;
}

PyObject *page_of(Calls *self, struct rowanspan_reader *reader) {
    PyObject *values[4];
    values[0] = PyLong_FromUnsignedLongLong(rowanspan_read_number(reader));
    values[1] = values[0] ? PyLong_FromUnsignedLongLong(rowanspan_read_number(reader)) : NULL;
    values[2] = values[1] ? tuple_of(reader, 16, sum_of) : NULL;
    values[3] = values[2] ? pairs_of(self, reader) : NULL;
    return record_of(self, &self->page, 4, values);
}

PyObject *totals_of(Calls *self, struct rowanspan_reader *reader) {
    unsigned long long at = rowanspan_read_number(reader), count = rowanspan_read_number(reader);
    PyObject *sums = tuple_of(reader, 16, sum_of);
    (void)self;
    return sums ? Py_BuildValue("(KKN)", at, count, sums) : NULL;
}

PyObject *value_in(Calls *self, const uint8_t *answer, uint64_t length, of_answer value_of) {
    struct rowanspan_reader reader = rowanspan_reader(answer, length);
    PyObject *value = value_of(self, &reader);
    if (value && reader.is_short) {
        Py_DECREF(value);
        return undone();
    }
    /* (an object has copies of the bytes, and doesn't point to the reader) */
    /* cppcheck-suppress returnDanglingLifetime */
    return value;
}
