/* SPDX-License-Identifier: ISC
 *
 * Arguments, and the exceptions that are raised. */
#include "native.h"

static bool wrong_call(const signature *takes, const char *what)
{
    PyErr_Format(PyExc_TypeError, "%s() %s", takes->function, what);
    return false;
}

/* Puts a keyword's value at the place of its name. */
static bool put(const signature *takes, PyObject *keyword, PyObject *value, PyObject **values)
{
    for (int i = 0; i < takes->count; i++) {
        if (PyUnicode_CompareWithASCIIString(keyword, takes->names[i]) != 0) continue;
        if (values[i] != NULL) return wrong_call(takes, "got an argument twice");
        values[i] = value;
        return true;
    }
    PyErr_Format(PyExc_TypeError, "%s() got an unexpected keyword argument '%U'", takes->function,
                 keyword);
    return false;
}

/* Stores the arguments of a call in the order of their names as borrowed references, NULL for each
 * that isn't given. */
bool gather(const signature *takes, PyObject *const *args, Py_ssize_t args_len, PyObject *keywords,
            PyObject **values)
{
    if (args_len > takes->positional) return wrong_call(takes, "got too many arguments");
    for (int i = 0; i < takes->count; i++) values[i] = i < args_len ? args[i] : NULL;
    Py_ssize_t keywords_len = keywords == NULL ? 0 : PyTuple_Size(keywords);
    for (Py_ssize_t i = 0; i < keywords_len; i++) {
        if (!put(takes, PyTuple_GetItem(keywords, i), args[args_len + i], values)) return false;
    }
    for (int i = 0; i < takes->required; i++) {
        if (values[i] != NULL) continue;
        PyErr_Format(PyExc_TypeError, "%s() missing required argument '%s'", takes->function,
                     takes->names[i]);
        return false;
    }
    return true;
}

/* Raises the exception of a status, a `yezdopin.Error`. It takes the reference to the reason; where
 * that is NULL, the reason is the status's own. */
static PyObject *raise(yz_status status, PyObject *reason)
{
    PyObject *errors = PyImport_ImportModule("yezdopin._errors");
    PyObject *error = NULL;
    if (errors != NULL && reason == NULL) {
        error = PyObject_CallMethod(errors, "refusal", "i", (int)status);
    }
    if (errors != NULL && reason != NULL) {
        error = PyObject_CallMethod(errors, "refusal", "iO", (int)status, reason);
    }
    if (error != NULL) PyErr_SetObject((PyObject *)Py_TYPE(error), error);
    Py_XDECREF(error);
    Py_XDECREF(errors);
    Py_XDECREF(reason);
    return NULL;
}

PyObject *refuse(yz_status status)
{
    return raise(status, NULL);
}

/* Raises a status for a reason that says more than the status's own, as PyUnicode_FromFormat has
 * it. */
PyObject *refuse_for(yz_status status, const char *reason, ...)
{
    va_list arguments;
    va_start(arguments, reason);
    PyObject *text = PyUnicode_FromFormatV(reason, arguments);
    va_end(arguments);
    return text == NULL ? NULL : raise(status, text);
}

/* Raises `yezdopin.Error` for a hash that the library doesn't have for this call. */
PyObject *refuse_hash(PyObject *hash)
{
    return refuse_for(YZ_UNKNOWN_ALGORITHM, "unsupported hash type %S", hash);
}

/* The result of a verification. */
PyObject *verdict(yz_status status)
{
    if (status != YZ_OK && status != YZ_UNSPECIFIED) return refuse(status);
    return PyBool_FromLong(status == YZ_OK);
}

/* A pickle would hold key state: no context and no key is pickled. */
PyObject *cannot_pickle(PyObject *self, PyObject *Py_UNUSED(protocol))
{
    PyObject *name = PyType_GetName(Py_TYPE(self));
    if (name != NULL) PyErr_Format(PyExc_TypeError, "cannot pickle '%U' object", name);
    Py_XDECREF(name);
    return NULL;
}
