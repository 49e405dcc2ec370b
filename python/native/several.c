/* SPDX-License-Identifier: ISC
 *
 * Digests of several messages by one call. */
#include "native.h"

/* The memory of a call: each message's view and entry for the library, and room for the digests. */
typedef struct {
    Py_ssize_t count;
    Py_buffer *views;
    yz_message *places;
    uint8_t *out;
    size_t out_len;
    size_t total;
} batch;

static void put_away(batch *all)
{
    for (Py_ssize_t i = 0; i < all->count; i++) PyBuffer_Release(&all->views[i]);
    if (all->out != NULL) yz_clear(all->out, all->out_len);
    PyMem_Free(all->views);
    PyMem_Free(all->places);
    PyMem_Free(all->out);
}

static bool has_room(batch *all, size_t count)
{
    all->views = PyMem_Calloc(count, sizeof *all->views);
    all->places = PyMem_Calloc(count, sizeof *all->places);
    all->out = PyMem_Malloc(all->out_len);
    if (all->views != NULL && all->places != NULL && all->out != NULL) return true;
    PyErr_NoMemory();
    return false;
}

/* Borrows each message. The pointer of an empty one may not be NULL. */
static bool borrow_each(batch *all, PyObject *messages, Py_ssize_t count)
{
    static const uint8_t nothing[1] = {0};
    for (Py_ssize_t i = 0; i < count; i++) {
        Py_buffer *view = &all->views[i];
        if (!borrow(PyTuple_GetItem(messages, i), view)) return false;
        all->count = i + 1;
        const uint8_t *bytes = bytes_of(view);
        all->places[i] = (yz_message){bytes == NULL ? nothing : bytes, len_of(view)};
        all->total += len_of(view);
    }
    return true;
}

static PyObject *listed(const batch *all, size_t output_len)
{
    PyObject *list = PyList_New(all->count);
    for (Py_ssize_t i = 0; list != NULL && i < all->count; i++) {
        const char *digest = (const char *)all->out + (size_t)i * output_len;
        PyObject *item = PyBytes_FromStringAndSize(digest, (Py_ssize_t)output_len);
        if (item == NULL || PyList_SetItem(list, i, item) != 0) Py_CLEAR(list);
    }
    return list;
}

static PyObject *digests(uint32_t algorithm, PyObject *messages)
{
    size_t count = (size_t)PyTuple_Size(messages), output_len = yz_output_len(algorithm);
    batch all = {.out_len = count * output_len};
    PyObject *list = NULL;
    if (has_room(&all, count) && borrow_each(&all, messages, (Py_ssize_t)count)) {
        PyThreadState *saved = let_others_run(all.total);
        yz_status status = yz_digest_each(algorithm, all.places, count, all.out, all.out_len);
        go_on(saved);
        list = status == YZ_OK ? listed(&all, output_len) : refuse(status);
    }
    put_away(&all);
    return list;
}

PyObject *digest_each(PyObject *Py_UNUSED(module), PyObject *const *args, Py_ssize_t args_len,
                      PyObject *keywords)
{
    static const signature takes = {"digest_each", 2, 2, 2, {"name", "messages"}};
    PyObject *values[2];
    uint32_t algorithm;
    if (!gather(&takes, args, args_len, keywords, values)) return NULL;
    if (!algorithm_of_name(values[0], &algorithm)) return NULL;
    /* A tuple keeps the messages alive, whatever other threads do with the caller's list. */
    PyObject *messages = PySequence_Tuple(values[1]);
    if (messages == NULL) return NULL;
    PyObject *list = digests(algorithm, messages);
    Py_DECREF(messages);
    return list;
}
