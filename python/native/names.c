/* SPDX-License-Identifier: ISC
 *
 * The names of algorithms: those of hashlib, and those that OpenSSL has for the same. */
#include "native.h"
#include "rows.h"

#include <string.h>

#define LONGEST_NAME 24

#define NAMED(algorithm, name, ...) {algorithm, #name},
#define ALSO_NAMED(algorithm, name) {algorithm, name},
static const struct {
    uint32_t algorithm;
    const char *name;
} names[] = {EACH_ALGORITHM(NAMED) EACH_OTHER_NAME(ALSO_NAMED)};

/* An algorithm's name, as hashlib has it. */
const char *name_of(uint32_t algorithm)
{
    return names[algorithm - 1].name;
}

static char lower(char letter)
{
    return letter >= 'A' && letter <= 'Z' ? (char)(letter - 'A' + 'a') : letter;
}

/* Finds the algorithm of a name, whose letters may be of either case. */
bool algorithm_of_name(PyObject *name, uint32_t *algorithm)
{
    if (!PyUnicode_Check(name)) {
        PyErr_SetString(PyExc_TypeError, "the name of a hash must be a str");
        return false;
    }
    Py_ssize_t len;
    const char *text = PyUnicode_AsUTF8AndSize(name, &len);
    if (text == NULL) return false;
    char lowered[LONGEST_NAME + 1] = "";
    for (Py_ssize_t i = 0; i < len && len <= LONGEST_NAME; i++) lowered[i] = lower(text[i]);
    for (size_t i = 0; i < sizeof names / sizeof *names; i++) {
        if (strlen(names[i].name) != (size_t)len || strcmp(names[i].name, lowered) != 0) continue;
        *algorithm = names[i].algorithm;
        return true;
    }
    refuse_hash(name);
    return false;
}

/* Finds the algorithm of a name, or of a constructor of this module. */
bool algorithm_of(PyObject *name_or_constructor, uint32_t *algorithm)
{
    if (PyUnicode_Check(name_or_constructor)) {
        return algorithm_of_name(name_or_constructor, algorithm);
    }
    *algorithm = algorithm_of_constructor(name_or_constructor);
    if (*algorithm != 0) return true;
    if (PyCallable_Check(name_or_constructor)) {
        refuse_hash(name_or_constructor);
    } else {
        PyErr_SetString(PyExc_TypeError, "a hash must be a name or a constructor");
    }
    return false;
}

#define CASE(algorithm) case algorithm:
/* The same for HMAC, which not all algorithms have. */
bool algorithm_of_tags(PyObject *name_or_constructor, uint32_t *algorithm)
{
    if (!algorithm_of(name_or_constructor, algorithm)) return false;
    switch (*algorithm) {
    EACH_KEYED(CASE) return true;
    default: refuse_hash(name_or_constructor); return false;
    }
}
