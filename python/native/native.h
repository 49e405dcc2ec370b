/* SPDX-License-Identifier: ISC
 *
 * What the files of the extension `yezdopin._native` share. It is written for the limited API of
 * Python 3.11, the first with buffers in it, so that one build serves all later versions. */
#ifndef YEZDOPIN_NATIVE_H
#define YEZDOPIN_NATIVE_H

#define PY_SSIZE_T_CLEAN
#define Py_LIMITED_API 0x030B0000
#include <Python.h>
#include <stdbool.h>
#include <stdint.h>
#include <yezdopin.h>

/* Calls with at least this many bytes of input release the GIL, as those of hashlib do. */
#define GIL_MIN_LEN 2048

/* Python's slots hold functions as `void *`, a cast that ISO C doesn't have. */
#define SLOT(id, function) {(id), __extension__(void *)(function)}
#define METHOD(function) ((PyCFunction)(void (*)(void))(function))
#define FAST (METH_FASTCALL | METH_KEYWORDS)

/* A function of the module: its name, its code, its parameters and what its docstring says. */
#define FUNCTION(name, code, takes, says) \
    {name, METHOD(code), FAST, PyDoc_STR(name "($module, /, " takes ")\n--\n\n" says)}

/* A buffer as two arguments of a call, as bytes or as text. */
#define BYTES(view) bytes_of(&(view)), len_of(&(view))
#define TEXT(view) (const char *)bytes_of(&(view)), len_of(&(view))

/* What the module holds. */
typedef struct {
    PyTypeObject *digest_type;
    PyTypeObject *tag_type;
} module_state;

/* The arguments that a function takes: `positional` of its `count` names may be given by their
 * places, and the first `required` must be given. */
#define MOST_ARGUMENTS 8
typedef struct {
    const char *function;
    int required;
    int positional;
    int count;
    const char *names[MOST_ARGUMENTS];
} signature;

/* What an object is read as: FAILED has raised an exception, as for a wrong type, and NONE is of
 * the type, but nothing that the call knows. The worse is the smaller. */
typedef enum { FAILED, NONE, READ } reading;

/* errors.c: a call that returns NULL or false has raised an exception. */
bool gather(const signature *takes, PyObject *const *args, Py_ssize_t args_len, PyObject *keywords,
            PyObject **values);
PyObject *refuse(yz_status status);
PyObject *refuse_for(yz_status status, const char *reason, ...);
PyObject *refuse_hash(PyObject *hash);
PyObject *verdict(yz_status status);
PyObject *cannot_pickle(PyObject *self, PyObject *protocol);

/* names.c */
const char *name_of(uint32_t algorithm);
bool algorithm_of_name(PyObject *name, uint32_t *algorithm);
bool algorithm_of(PyObject *name_or_constructor, uint32_t *algorithm);
bool algorithm_of_tags(PyObject *name_or_constructor, uint32_t *algorithm);

/* numbers.c */
reading read_number(PyObject *object, uint64_t *number);
bool number_up_to(uint64_t most, const char *name, PyObject *object, uint64_t *number);

/* buffers.c */
bool borrow(PyObject *object, Py_buffer *view);
bool borrow_all(PyObject *const *objects, int count, Py_buffer *views);
void give_back(Py_buffer *views, int count);
const uint8_t *bytes_of(const Py_buffer *view);
size_t len_of(const Py_buffer *view);
PyObject *new_bytes(size_t len, uint8_t **bytes);
PyObject *hex_digits(const uint8_t *bytes, size_t len);

/* threads.c */
PyThreadState *let_others_run(size_t input_len);
void go_on(PyThreadState *saved);
void enter(PyThread_type_lock lock);
void leave(PyThread_type_lock lock);

/* running.c: a digest or a tag of a message in pieces, which begins with the bytes of an object, or
 * empty where that is NULL. */
PyObject *begun_digest(PyTypeObject *type, uint32_t algorithm, PyObject *data);
PyObject *begun_tag(PyTypeObject *type, uint32_t algorithm, const yz_hmac_key *key, PyObject *msg);
extern PyType_Spec digest_spec;
extern PyType_Spec tag_spec;

/* digests.c, several.c, tags.c, derivation.c, merkle.c, tokens.c, webhook.c, tls13.c: what the module
 * is made of. */
uint32_t algorithm_of_constructor(PyObject *object);
PyObject *digest_each(PyObject *module, PyObject *const *args, Py_ssize_t args_len,
                      PyObject *keywords);
extern PyMethodDef digest_functions[];
extern PyMethodDef tag_functions[];
extern PyMethodDef derivation_functions[];
extern PyMethodDef merkle_functions[];
extern PyMethodDef token_functions[];
extern PyMethodDef webhook_functions[];
extern PyMethodDef tls13_functions[];
extern PyType_Spec key_spec;

#endif
