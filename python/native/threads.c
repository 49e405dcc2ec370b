/* SPDX-License-Identifier: ISC
 *
 * Threads. A short call keeps the interpreter's lock (GIL) and needs no other. An update that
 * releases the GIL takes a lock of its object, and from then on all calls on that object do. A
 * build of Python without a GIL doesn't load extensions for this version's limited API. */
#include "native.h"

/* Releases the GIL where an input is long, until go_on(). In between, the caller may only touch
 * borrowed buffers and its own memory. */
PyThreadState *let_others_run(size_t input_len)
{
    return input_len < GIL_MIN_LEN ? NULL : PyEval_SaveThread();
}

void go_on(PyThreadState *saved)
{
    if (saved != NULL) PyEval_RestoreThread(saved);
}

/* Takes an object's lock where it has one. It releases the GIL while it waits, since the holder of
 * the lock may wait for the GIL. */
void enter(PyThread_type_lock lock)
{
    if (lock == NULL || PyThread_acquire_lock(lock, NOWAIT_LOCK)) return;
    PyThreadState *saved = PyEval_SaveThread();
    PyThread_acquire_lock(lock, WAIT_LOCK);
    PyEval_RestoreThread(saved);
}

void leave(PyThread_type_lock lock)
{
    if (lock != NULL) PyThread_release_lock(lock);
}
