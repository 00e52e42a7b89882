/* native.c: the extension module rowanspan._native, and how its type Calls begins and ends. native.h says what it is
 * for.
 *
 * scripts/build_native compiles this folder for the stable ABI of Python 3.9. */
#include "native.h"

#include <string.h>

/* Reads the address of a function, which a dict has by the function's name. */
static bool address_in(PyObject *addresses, const char *name, void *to) {
    PyObject *given = PyDict_GetItemString(addresses, name);
    void *address = given ? PyLong_AsVoidPtr(given) : NULL;
    if (!address) {
        if (!PyErr_Occurred()) {
            PyErr_Format(PyExc_ValueError, "there is no address of %s", name);
        }
        return false;
    }
    /* (ISO C has no cast from a pointer to an object to one to a function) */
    memcpy(to, &address, sizeof address);
    return true;
}

static bool functions_in(PyObject *addresses, struct functions *library) {
    return address_in(addresses, "get", &library->get) && address_in(addresses, "put", &library->put) &&
           address_in(addresses, "put_if", &library->put_if) && address_in(addresses, "remove", &library->remove) &&
           address_in(addresses, "range", &library->range) &&
           address_in(addresses, "range_back", &library->range_back) &&
           address_in(addresses, "count", &library->count) && address_in(addresses, "len", &library->len) &&
           address_in(addresses, "view", &library->view) && address_in(addresses, "totals", &library->totals) &&
           address_in(addresses, "apply", &library->apply) &&
           address_in(addresses, "log_commits", &library->log_commits) &&
           address_in(addresses, "log_checkpoint", &library->log_checkpoint);
}

static bool record_in(PyTypeObject *type, const char *const *names, size_t count, struct record *record) {
    size_t i;
    Py_INCREF(type);
    record->type = type;
    record->make = (newfunc)PyType_GetSlot(type, Py_tp_new);
    for (i = 0; i < count; i++) {
        record->names[i] = PyUnicode_InternFromString(names[i]);
        if (!record->names[i]) {
            return false;
        }
    }
    if (!record->make && !PyErr_Occurred()) {
        PyErr_SetString(PyExc_TypeError, "a class that makes no objects");
    }
    return record->make != NULL;
}

static bool begin(Calls *self, PyObject *addresses, PyTypeObject *row, PyTypeObject *page) {
    static const char *const of_row[] = {"version", "columns"}, *const of_page[] = {"at", "count", "sums", "rows"};
    self->no_arguments = PyTuple_New(0);
    self->views_lag = PyUnicode_InternFromString("_views_lag");
    return self->no_arguments && self->views_lag && functions_in(addresses, &self->library) &&
           record_in(row, of_row, 2, &self->row) && record_in(page, of_page, 4, &self->page);
}

static void end_record(struct record *record) {
    size_t i;
    Py_XDECREF((PyObject *)record->type);
    for (i = 0; i < 4; i++) {
        Py_XDECREF(record->names[i]);
    }
}

static void calls_end(Calls *self) {
    PyTypeObject *type = Py_TYPE(self);
    Py_XDECREF(self->owner);
    Py_XDECREF(self->log_owner);
    Py_XDECREF(self->no_arguments);
    Py_XDECREF(self->views_lag);
    end_record(&self->row);
    end_record(&self->page);
    PyMem_Free(self->room.at);
    lock_end(&self->lock);
    ((freefunc)PyType_GetSlot(type, Py_tp_free))(self);
    Py_DECREF(type);
}

/* Calls(handle, its address, log, its address, {name: address of the function}, keeps_views, Row, Page) */
static PyObject *calls_new(PyTypeObject *type, PyObject *arguments, PyObject *named) {
    PyObject *owner, *handle, *log_owner, *log, *addresses, *row, *page;
    int keeps_views;
    Calls *self;
    if (named || !PyArg_ParseTuple(arguments, "OO!OO!O!pO!O!", &owner, &PyLong_Type, &handle, &log_owner, &PyLong_Type,
                                   &log, &PyDict_Type, &addresses, &keeps_views, &PyType_Type, &row, &PyType_Type,
                                   &page)) {
        if (!PyErr_Occurred()) {
            PyErr_SetString(PyExc_TypeError, "it takes no arguments by their names");
        }
        return NULL;
    }
    /* all fields are 0 then */
    self = (Calls *)PyType_GenericAlloc(type, 0);
    if (!self) {
        return NULL;
    }
    Py_INCREF(owner);
    Py_INCREF(log_owner);
    self->owner = owner;
    self->log_owner = log_owner;
    self->keeps_views = keeps_views != 0;
    self->handle = PyLong_AsVoidPtr(handle);
    self->log = PyLong_AsVoidPtr(log);
    if (!self->handle || !self->log || !lock_begin(&self->lock) ||
        !begin(self, addresses, (PyTypeObject *)row, (PyTypeObject *)page)) {
        Py_DECREF(self);
        return NULL;
    }
    return (PyObject *)self;
}

static PyType_Slot calls_slots[] = {
    {Py_tp_doc, "The calls of an index. Each returns NotImplemented if it has done nothing."},
    {Py_tp_new, (void *)calls_new},
    {Py_tp_dealloc, (void *)calls_end},
    {Py_tp_methods, calls_methods},
    {0, NULL},
};

static PyType_Spec calls_spec = {"rowanspan._native.Calls", sizeof(Calls), 0, Py_TPFLAGS_DEFAULT, calls_slots};

static int module_begins(PyObject *module) {
    PyObject *type = PyType_FromSpec(&calls_spec);
    if (!type) {
        return -1;
    }
    if (PyModule_AddObject(module, "Calls", type) < 0) {
        Py_DECREF(type);
        return -1;
    }
    return 0;
}

static PyModuleDef_Slot module_slots[] = {{Py_mod_exec, (void *)module_begins}, {0, NULL}};

static struct PyModuleDef module = {
    .m_base = PyModuleDef_HEAD_INIT,
    .m_name = "rowanspan._native",
    .m_doc = "The most frequent calls of an embedded index; rowanspan/native.py uses them.",
    .m_slots = module_slots,
};

PyMODINIT_FUNC PyInit__native(void) {
    return PyModuleDef_Init(&module);
}
