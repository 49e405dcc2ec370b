/* SPDX-License-Identifier: ISC
 *
 * Buffers of Python's objects, which are read in place, and new objects. */
#include "native.h"

/* Borrows the contiguous buffer of an object. */
bool borrow(PyObject *object, Py_buffer *view)
{
    if (PyUnicode_Check(object)) {
        PyErr_SetString(PyExc_TypeError, "a str must be encoded before it is hashed");
        return false;
    }
    return PyObject_GetBuffer(object, view, PyBUF_SIMPLE) == 0;
}

/* Borrows the buffers of all of some objects, or of none. For NULL the buffer is empty. */
bool borrow_all(PyObject *const *objects, int count, Py_buffer *views)
{
    for (int i = 0; i < count; i++) {
        views[i] = (Py_buffer){0};
        if (objects[i] != NULL && !borrow(objects[i], &views[i])) {
            give_back(views, i);
            return false;
        }
    }
    return true;
}

void give_back(Py_buffer *views, int count)
{
    for (int i = 0; i < count; i++) PyBuffer_Release(&views[i]);
}

const uint8_t *bytes_of(const Py_buffer *view)
{
    return view->buf;
}

size_t len_of(const Py_buffer *view)
{
    return (size_t)view->len;
}

/* A new `bytes` object, and where to write its bytes before it is passed on. */
PyObject *new_bytes(size_t len, uint8_t **bytes)
{
    PyObject *made = PyBytes_FromStringAndSize(NULL, (Py_ssize_t)len);
    if (made != NULL) *bytes = (uint8_t *)PyBytes_AsString(made);
    return made;
}

/* The hex digit of a number below 16. No address depends on it, since it may be secret. */
static char hex_digit(unsigned number)
{
    unsigned is_letter = (number + 6) >> 4;
    return (char)('0' + number + is_letter * ('a' - '0' - 10));
}

/* At most YZ_MAX_OUTPUT_LEN bytes as text. */
PyObject *hex_digits(const uint8_t *bytes, size_t len)
{
    char text[2 * YZ_MAX_OUTPUT_LEN];
    for (size_t i = 0; i < len; i++) {
        text[2 * i] = hex_digit(bytes[i] >> 4);
        text[2 * i + 1] = hex_digit(bytes[i] & 15);
    }
    return PyUnicode_FromStringAndSize(text, (Py_ssize_t)(2 * len));
}
