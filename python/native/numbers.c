/* SPDX-License-Identifier: ISC
 *
 * Numbers of 64 bits without a sign. */
#include "native.h"

/* Reads a number. NONE is below 0, or has more than 64 bits. */
reading read_number(PyObject *object, uint64_t *number)
{
    PyObject *index = PyNumber_Index(object);
    if (index == NULL) return FAILED;
    unsigned long long value = PyLong_AsUnsignedLongLong(index);
    Py_DECREF(index);
    if (value == (unsigned long long)-1 && PyErr_Occurred()) {
        if (!PyErr_ExceptionMatches(PyExc_OverflowError)) return FAILED;
        PyErr_Clear();
        return NONE;
    }
    *number = value;
    return READ;
}

/* Reads a number up to `most`. Any other is an OverflowError, which has the number's name. */
bool number_up_to(uint64_t most, const char *name, PyObject *object, uint64_t *number)
{
    reading found = read_number(object, number);
    if (found == READ && *number <= most) return true;
    if (found != FAILED) {
        PyErr_Format(PyExc_OverflowError, "%s must be from 0 to %llu", name,
                     (unsigned long long)most);
    }
    return false;
}
