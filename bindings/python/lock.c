/* lock.c: the lock of an index. native.h describes the functions. */
#include "native.h"

bool lock_begin(struct lock *lock) {
    lock->lock = PyThread_allocate_lock();
    if (!lock->lock) {
        PyErr_NoMemory();
    }
    return lock->lock != NULL;
}

void lock_end(struct lock *lock) {
    if (lock->lock) {
        if (lock->depth > 0) {
            PyThread_release_lock(lock->lock);
        }
        PyThread_free_lock(lock->lock);
    }
}

bool is_free(const struct lock *lock) {
    return lock->depth == 0 || lock->owner == PyThread_get_thread_ident();
}

/* Takes the lock; other threads run while it waits. Returns false with an exception if the handler of a signal raises
 * one. */
static bool take(struct lock *lock) {
    PyLockStatus status = PyThread_acquire_lock_timed(lock->lock, 0, 0);
    while (status != PY_LOCK_ACQUIRED) {
        Py_BEGIN_ALLOW_THREADS
        status = PyThread_acquire_lock_timed(lock->lock, -1, 1);
        Py_END_ALLOW_THREADS
        if (status == PY_LOCK_INTR && PyErr_CheckSignals() < 0) {
            return false;
        }
    }
    return true;
}

bool lock_at_once(struct lock *lock) {
    if (lock->depth == 0 && PyThread_acquire_lock_timed(lock->lock, 0, 0) != PY_LOCK_ACQUIRED) {
        return false;
    }
    lock->owner = PyThread_get_thread_ident();
    lock->depth++;
    return true;
}

void lock_release(struct lock *lock) {
    lock->depth--;
    if (lock->depth == 0) {
        PyThread_release_lock(lock->lock);
    }
}

PyObject *calls_enter(Calls *self, PyObject *unused) {
    unsigned long thread = PyThread_get_thread_ident();
    (void)unused;
    if (self->lock.depth == 0 || self->lock.owner != thread) {
        if (!take(&self->lock)) {
            return NULL;
        }
        self->lock.owner = thread;
    }
    self->lock.depth++;
    return none();
}

PyObject *calls_exit(Calls *self, PyObject *fault) {
    (void)fault;
    if (self->lock.depth == 0 || self->lock.owner != PyThread_get_thread_ident()) {
        PyErr_SetString(PyExc_RuntimeError, "this thread doesn't hold the lock of the index");
        return NULL;
    }
    lock_release(&self->lock);
    return none();
}
