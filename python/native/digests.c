/* SPDX-License-Identifier: ISC
 *
 * The constructors of digests. */
#include "native.h"
#include "rows.h"

/* The message is `data`, or `string`, which is hashlib's older name for it. */
static PyObject *constructed(PyObject *module, uint32_t algorithm, PyObject *data, PyObject *string)
{
    if (data != NULL && string != NULL) {
        PyErr_SetString(PyExc_TypeError, "give 'data' or 'string', not both");
        return NULL;
    }
    module_state *state = PyModule_GetState(module);
    return begun_digest(state->digest_type, algorithm, data != NULL ? data : string);
}

static PyObject *native_new(PyObject *module, PyObject *const *args, Py_ssize_t args_len,
                            PyObject *keywords)
{
    static const signature takes = {"new", 1, 2, 4, {"name", "data", "string", "usedforsecurity"}};
    PyObject *values[4];
    uint32_t algorithm;
    if (!gather(&takes, args, args_len, keywords, values)) return NULL;
    if (!algorithm_of_name(values[0], &algorithm)) return NULL;
    return constructed(module, algorithm, values[1], values[2]);
}

#define CONSTRUCTOR(algorithm, name, ...)                                                       \
    static PyObject *name(PyObject *module, PyObject *const *args, Py_ssize_t args_len,         \
                          PyObject *keywords)                                                   \
    {                                                                                           \
        static const signature takes = {#name, 0, 1, 3, {"data", "string", "usedforsecurity"}}; \
        PyObject *values[3];                                                                    \
        if (!gather(&takes, args, args_len, keywords, values)) return NULL;                     \
        return constructed(module, algorithm, values[0], values[1]);                            \
    }

EACH_ALGORITHM(CONSTRUCTOR)

#define CONSTRUCTED_BY(algorithm, name, ...) {algorithm, METHOD(name)},
/* The algorithm whose constructor an object is, or 0. */
uint32_t algorithm_of_constructor(PyObject *object)
{
    static const struct {
        uint32_t algorithm;
        PyCFunction function;
    } constructors[] = {EACH_ALGORITHM(CONSTRUCTED_BY)};
    if (!PyCFunction_Check(object)) return 0;
    PyCFunction function = PyCFunction_GetFunction(object);
    for (size_t i = 0; i < sizeof constructors / sizeof *constructors; i++) {
        if (constructors[i].function == function) return constructors[i].algorithm;
    }
    return 0;
}

#define TAKES "($module, /, data=b'', *, usedforsecurity=True, string=...)\n--\n\n"

#define OFFERED(algorithm, name, says) {#name, METHOD(name), FAST, PyDoc_STR(#name TAKES says)},
PyMethodDef digest_functions[] = {
    FUNCTION("new", native_new, "name, data=b'', *, usedforsecurity=True, string=...",
             "A digest under the algorithm of a name, as `hashlib.new`."),
    EACH_ALGORITHM(OFFERED)
    FUNCTION("digest_each", digest_each, "name, messages",
             "The digests of several messages, each at its message's place, by one call.\n\n"
             "Of four or more under SHA-1 and SHA-256, four at a time are made side by side."),
    {NULL, NULL, 0, NULL},
};
