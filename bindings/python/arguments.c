/* arguments.c: how the calls of the module read their arguments. native.h describes the functions. */
#include "native.h"

bool takes(PyObject *arguments, Py_ssize_t count) {
    if (PyTuple_Size(arguments) == count) {
        return true;
    }
    PyErr_Format(PyExc_TypeError, "it takes %zd arguments", count);
    return false;
}

bool bytes_in(PyObject *value, struct rowanspan_bytes *bytes) {
    if (!PyBytes_CheckExact(value)) {
        return false;
    }
    bytes->at = (const uint8_t *)PyBytes_AsString(value);
    bytes->length = (size_t)PyBytes_Size(value);
    return true;
}

bool number_in(PyObject *value, uint64_t most, uint64_t *number) {
    if (!PyLong_CheckExact(value)) {
        return false;
    }
    *number = PyLong_AsUnsignedLongLong(value);
    if (*number == UINT64_MAX && PyErr_Occurred()) {
        PyErr_Clear();
        return false;
    }
    return *number <= most;
}

bool columns_in(PyObject *value, uint8_t *columns, size_t *count) {
    bool is_tuple = PyTuple_CheckExact(value);
    Py_ssize_t size, i;
    uint64_t column;
    *count = 0;
    if (value == Py_None) {
        return true;
    }
    if (!is_tuple && !PyList_CheckExact(value)) {
        return false;
    }
    size = is_tuple ? PyTuple_Size(value) : PyList_Size(value);
    if (size > COLUMNS) {
        return false;
    }
    for (i = 0; i < size; i++) {
        if (!number_in(is_tuple ? PyTuple_GetItem(value, i) : PyList_GetItem(value, i), UINT8_MAX, &column)) {
            return false;
        }
        columns[i] = (uint8_t)column;
    }
    *count = (size_t)size;
    return true;
}

bool sets_in(PyObject *value, struct rowanspan_set *sets, size_t *count) {
    struct rowanspan_bytes bytes;
    PyObject *name, *item;
    Py_ssize_t at = 0;
    uint64_t column;
    *count = 0;
    if (bytes_in(value, &bytes)) {
        sets[(*count)++] = rowanspan_set(0, bytes.at, bytes.length);
        return true;
    }
    if (!PyDict_CheckExact(value) || PyDict_Size(value) > COLUMNS) {
        return false;
    }
    while (PyDict_Next(value, &at, &name, &item)) {
        if (!number_in(name, UINT8_MAX, &column) || !bytes_in(item, &bytes)) {
            return false;
        }
        sets[(*count)++] = rowanspan_set((uint8_t)column, bytes.at, bytes.length);
    }
    return true;
}
