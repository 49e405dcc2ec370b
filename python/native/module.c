/* SPDX-License-Identifier: ISC
 *
 * The extension `yezdopin._native`: what `yezdopin` and `yezdopin.hmac` are made of. */
#include "native.h"

/* Adds a type, and gives it with a reference of the caller's, or NULL. */
static PyTypeObject *add_type(PyObject *module, PyType_Spec *spec)
{
    PyObject *type = PyType_FromModuleAndSpec(module, spec, NULL);
    if (type != NULL && PyModule_AddType(module, (PyTypeObject *)type) != 0) Py_CLEAR(type);
    return (PyTypeObject *)type;
}

static int add_types(PyObject *module)
{
    module_state *state = PyModule_GetState(module);
    state->digest_type = add_type(module, &digest_spec);
    if (state->digest_type == NULL) return -1;
    state->tag_type = add_type(module, &tag_spec);
    if (state->tag_type == NULL) return -1;
    PyTypeObject *key_type = add_type(module, &key_spec);
    if (key_type == NULL) return -1;
    Py_DECREF((PyObject *)key_type);
    return 0;
}

/* The header is compiled in, and the archive linked in: they must be of one version. */
static int add_version(PyObject *module)
{
    if (yz_version() != YZ_VERSION) {
        PyErr_SetString(PyExc_ImportError, "libyezdopin.a isn't of its header's version");
        return -1;
    }
    PyObject *version = PyUnicode_FromFormat("%d.%d.%d", YZ_VERSION_MAJOR, YZ_VERSION_MINOR,
                                             YZ_VERSION_PATCH);
    int added = version == NULL ? -1 : PyModule_AddObjectRef(module, "__version__", version);
    Py_XDECREF(version);
    return added;
}

/* The library's code would end the program on an older processor. */
static int test_processor(void)
{
    if (yz_supported()) return 0;
    PyErr_SetString(PyExc_ImportError,
                    "yezdopin needs an x86-64-v2 processor (SSE4.2, SSSE3 and POPCNT)");
    return -1;
}

static int fill(PyObject *module)
{
    if (test_processor() != 0) return -1;
    if (add_version(module) != 0 || add_types(module) != 0) return -1;
    if (PyModule_AddFunctions(module, digest_functions) != 0) return -1;
    if (PyModule_AddFunctions(module, tag_functions) != 0) return -1;
    if (PyModule_AddFunctions(module, derivation_functions) != 0) return -1;
    if (PyModule_AddFunctions(module, merkle_functions) != 0) return -1;
    if (PyModule_AddFunctions(module, token_functions) != 0) return -1;
    if (PyModule_AddFunctions(module, webhook_functions) != 0) return -1;
    return PyModule_AddFunctions(module, tls13_functions);
}

static int traverse(PyObject *module, visitproc visit, void *arg)
{
    module_state *state = PyModule_GetState(module);
    Py_VISIT(state->digest_type);
    Py_VISIT(state->tag_type);
    return 0;
}

static int clear(PyObject *module)
{
    module_state *state = PyModule_GetState(module);
    Py_CLEAR(state->digest_type);
    Py_CLEAR(state->tag_type);
    return 0;
}

/* Each interpreter has a module and a state of its own, and interpreters with a GIL of their own
 * share nothing but what dispatch.c knows of the processor. Python 3.12 asks for a slot that says
 * so, Py_mod_multiple_interpreters with Py_MOD_PER_INTERPRETER_GIL_SUPPORTED, and 3.11 refuses one
 * that it doesn't know. */
#define HAS_OWN_GIL {3, (void *)2}
#define FIRST_WITH_OWN_GIL 0x030C0000

static PyModuleDef_Slot slots[] = {
    SLOT(Py_mod_exec, fill),
    HAS_OWN_GIL,
    {0, NULL},
};

static PyModuleDef_Slot older_slots[] = {
    SLOT(Py_mod_exec, fill),
    {0, NULL},
};

#define DEFINITION(of_slots)                                                                       \
    {                                                                                              \
        PyModuleDef_HEAD_INIT,                                                                     \
        .m_name = "yezdopin._native",                                                              \
        .m_doc = PyDoc_STR("The proved calls of libyezdopin for Python."),                         \
        .m_size = sizeof(module_state),                                                            \
        .m_slots = of_slots,                                                                       \
        .m_traverse = traverse,                                                                    \
        .m_clear = clear,                                                                          \
    }

static PyModuleDef definition = DEFINITION(slots);
static PyModuleDef older_definition = DEFINITION(older_slots);

PyMODINIT_FUNC PyInit__native(void)
{
    return PyModuleDef_Init(Py_Version < FIRST_WITH_OWN_GIL ? &older_definition : &definition);
}
