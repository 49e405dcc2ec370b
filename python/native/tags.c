/* SPDX-License-Identifier: ISC
 *
 * Keys of HMAC, tags by one call, and the comparison of two values. */
#include "native.h"

typedef struct {
    PyObject ob_base;
    uint32_t algorithm;
    yz_hmac_key key;
} key_object;

static key_object *key_of(PyObject *self)
{
    return (key_object *)self;
}

/* Makes a key of the bytes of an object. */
static bool make(uint32_t algorithm, PyObject *value, yz_hmac_key *key)
{
    Py_buffer view;
    if (!borrow(value, &view)) return false;
    PyThreadState *saved = let_others_run(len_of(&view));
    yz_status status = yz_hmac_key_init(algorithm, BYTES(view), key);
    go_on(saved);
    PyBuffer_Release(&view);
    if (status != YZ_OK) refuse(status);
    return status == YZ_OK;
}

static PyObject *key_new(PyTypeObject *type, PyObject *args, PyObject *keywords)
{
    static char *names[] = {"key", "digestmod", NULL};
    PyObject *value, *digestmod;
    uint32_t algorithm;
    yz_hmac_key key;
    if (!PyArg_ParseTupleAndKeywords(args, keywords, "OO:Key", names, &value, &digestmod)) {
        return NULL;
    }
    /* The key is made first: others can find an object through the garbage collector. */
    if (!algorithm_of_tags(digestmod, &algorithm) || !make(algorithm, value, &key)) return NULL;
    allocfunc allocate = __extension__(allocfunc)PyType_GetSlot(type, Py_tp_alloc);
    PyObject *self = allocate(type, 0);
    if (self != NULL) {
        key_of(self)->algorithm = algorithm;
        key_of(self)->key = key;
    }
    yz_clear(&key, sizeof key);
    return self;
}

static void key_dealloc(PyObject *self)
{
    PyTypeObject *type = Py_TYPE(self);
    freefunc release = __extension__(freefunc)PyType_GetSlot(type, Py_tp_free);
    yz_clear(&key_of(self)->key, sizeof key_of(self)->key);
    release(self);
    Py_DECREF((PyObject *)type);
}

static PyObject *key_sign(PyObject *self, PyObject *const *args, Py_ssize_t args_len,
                          PyObject *keywords)
{
    static const signature takes = {"sign", 1, 1, 1, {"msg"}};
    PyObject *msg;
    Py_buffer view;
    uint8_t out[YZ_MAX_OUTPUT_LEN];
    const key_object *it = key_of(self);
    size_t len = yz_output_len(it->algorithm);
    if (!gather(&takes, args, args_len, keywords, &msg) || !borrow(msg, &view)) return NULL;
    PyThreadState *saved = let_others_run(len_of(&view));
    yz_status status = yz_hmac_key_sign(&it->key, BYTES(view), out, len);
    go_on(saved);
    PyBuffer_Release(&view);
    if (status != YZ_OK) return refuse(status);
    return PyBytes_FromStringAndSize((const char *)out, (Py_ssize_t)len);
}

static PyObject *key_verify(PyObject *self, PyObject *const *args, Py_ssize_t args_len,
                            PyObject *keywords)
{
    static const signature takes = {"verify", 2, 2, 2, {"msg", "tag"}};
    PyObject *values[2];
    Py_buffer views[2];
    if (!gather(&takes, args, args_len, keywords, values)) return NULL;
    if (!borrow_all(values, 2, views)) return NULL;
    PyThreadState *saved = let_others_run(len_of(&views[0]));
    yz_status status = yz_hmac_key_verify(&key_of(self)->key, BYTES(views[0]), BYTES(views[1]));
    go_on(saved);
    give_back(views, 2);
    return verdict(status);
}

/* A tag under the key, of which `yezdopin.hmac.Key.new` makes an HMAC. */
static PyObject *key_begin(PyObject *self, PyTypeObject *defining, PyObject *const *args,
                           Py_ssize_t args_len, PyObject *keywords)
{
    static const signature takes = {"_begin", 0, 1, 1, {"msg"}};
    PyObject *msg;
    module_state *state = PyType_GetModuleState(defining);
    if (state == NULL || !gather(&takes, args, args_len, keywords, &msg)) return NULL;
    if (msg == Py_None) msg = NULL;
    return begun_tag(state->tag_type, key_of(self)->algorithm, &key_of(self)->key, msg);
}

/* A key is immutable: it is its own copy. */
static PyObject *key_copy(PyObject *self, PyObject *Py_UNUSED(memo))
{
    return Py_NewRef(self);
}

static PyObject *key_name(PyObject *self, void *Py_UNUSED(closure))
{
    return PyUnicode_FromString(name_of(key_of(self)->algorithm));
}

static PyObject *key_digest_size(PyObject *self, void *Py_UNUSED(closure))
{
    return PyLong_FromSize_t(yz_output_len(key_of(self)->algorithm));
}

static PyObject *key_block_size(PyObject *self, void *Py_UNUSED(closure))
{
    return PyLong_FromSize_t(yz_block_len(key_of(self)->algorithm));
}

static PyMethodDef key_methods[] = {
    {"sign", METHOD(key_sign), FAST,
     PyDoc_STR("sign($self, /, msg)\n--\n\nThe tag of a message.")},
    {"verify", METHOD(key_verify), FAST,
     PyDoc_STR("verify($self, /, msg, tag)\n--\n\nWhether `tag` is the whole tag of a message.")},
    {"_begin", METHOD(key_begin), METH_METHOD | FAST, NULL},
    {"__copy__", key_copy, METH_NOARGS, NULL},
    {"__deepcopy__", key_copy, METH_O, NULL},
    {"__reduce__", cannot_pickle, METH_NOARGS, NULL},
    {"__reduce_ex__", cannot_pickle, METH_O, NULL},
    {NULL, NULL, 0, NULL},
};

static PyGetSetDef key_members[] = {
    {"name", key_name, NULL, PyDoc_STR("The algorithm's name."), NULL},
    {"digest_size", key_digest_size, NULL, PyDoc_STR("The length of a tag."), NULL},
    {"block_size", key_block_size, NULL, PyDoc_STR("The length of a block."), NULL},
    {NULL, NULL, NULL, NULL, NULL},
};

static PyType_Slot key_slots[] = {
    {Py_tp_doc, "Key(key, digestmod)\n--\n\nA key, which signs and verifies messages."},
    SLOT(Py_tp_new, key_new),
    SLOT(Py_tp_dealloc, key_dealloc),
    {Py_tp_methods, key_methods},
    {Py_tp_getset, key_members},
    {0, NULL},
};

PyType_Spec key_spec = {
    .name = "yezdopin._native.Key",
    .basicsize = sizeof(key_object),
    .flags = Py_TPFLAGS_DEFAULT | Py_TPFLAGS_BASETYPE | Py_TPFLAGS_IMMUTABLETYPE,
    .slots = key_slots,
};

/* A tag of a message in pieces under a key that is used once. */
static PyObject *hmac_new(PyObject *module, PyObject *const *args, Py_ssize_t args_len,
                          PyObject *keywords)
{
    static const signature takes = {"hmac_new", 1, 3, 3, {"key", "msg", "digestmod"}};
    module_state *state = PyModule_GetState(module);
    PyObject *values[3];
    uint32_t algorithm;
    yz_hmac_key key;
    if (!gather(&takes, args, args_len, keywords, values)) return NULL;
    if (values[2] == NULL) {
        PyErr_SetString(PyExc_TypeError, "hmac_new() missing required argument 'digestmod'");
        return NULL;
    }
    if (!algorithm_of_tags(values[2], &algorithm) || !make(algorithm, values[0], &key)) return NULL;
    PyObject *msg = values[1] == Py_None ? NULL : values[1];
    PyObject *tag = begun_tag(state->tag_type, algorithm, &key, msg);
    yz_clear(&key, sizeof key);
    return tag;
}

static PyObject *hmac_digest(PyObject *Py_UNUSED(module), PyObject *const *args,
                             Py_ssize_t args_len, PyObject *keywords)
{
    static const signature takes = {"hmac_digest", 3, 3, 3, {"key", "msg", "digest"}};
    PyObject *values[3];
    Py_buffer views[2];
    uint32_t algorithm;
    uint8_t out[YZ_MAX_OUTPUT_LEN];
    if (!gather(&takes, args, args_len, keywords, values)) return NULL;
    if (!algorithm_of_tags(values[2], &algorithm) || !borrow_all(values, 2, views)) return NULL;
    size_t len = yz_output_len(algorithm);
    PyThreadState *saved = let_others_run(len_of(&views[0]) + len_of(&views[1]));
    yz_status status = yz_hmac_sign(algorithm, BYTES(views[0]), BYTES(views[1]), out, len);
    go_on(saved);
    give_back(views, 2);
    if (status != YZ_OK) return refuse(status);
    return PyBytes_FromStringAndSize((const char *)out, (Py_ssize_t)len);
}

static PyObject *hmac_verify(PyObject *Py_UNUSED(module), PyObject *const *args,
                             Py_ssize_t args_len, PyObject *keywords)
{
    static const signature takes = {"hmac_verify", 4, 4, 4, {"key", "msg", "tag", "digest"}};
    PyObject *values[4];
    Py_buffer views[3];
    uint32_t algorithm;
    if (!gather(&takes, args, args_len, keywords, values)) return NULL;
    if (!algorithm_of_tags(values[3], &algorithm) || !borrow_all(values, 3, views)) return NULL;
    PyThreadState *saved = let_others_run(len_of(&views[0]) + len_of(&views[1]));
    yz_status status = yz_hmac_verify(algorithm, BYTES(views[0]), BYTES(views[1]),
                                      BYTES(views[2]));
    go_on(saved);
    give_back(views, 3);
    return verdict(status);
}

static PyObject *are_equal(const uint8_t *a, size_t a_len, const uint8_t *b, size_t b_len)
{
    PyThreadState *saved = let_others_run(a_len);
    bool answer = yz_equal(a, a_len, b, b_len);
    go_on(saved);
    return PyBool_FromLong(answer);
}

/* The bytes of a text, which must be ASCII. One with a lone surrogate has no UTF-8. */
static const char *ascii_of(PyObject *text, Py_ssize_t *len)
{
    const char *bytes = PyUnicode_AsUTF8AndSize(text, len);
    if (bytes != NULL && *len == PyUnicode_GetLength(text)) return bytes;
    if (bytes != NULL || PyErr_ExceptionMatches(PyExc_UnicodeEncodeError)) {
        PyErr_SetString(PyExc_TypeError, "text that is not ASCII can't be compared");
    }
    return NULL;
}

static PyObject *compare_text(PyObject *a, PyObject *b)
{
    Py_ssize_t a_len, b_len;
    const char *a_text = ascii_of(a, &a_len);
    const char *b_text = a_text == NULL ? NULL : ascii_of(b, &b_len);
    if (b_text == NULL) return NULL;
    return are_equal((const uint8_t *)a_text, (size_t)a_len, (const uint8_t *)b_text,
                     (size_t)b_len);
}

static PyObject *compare_digest(PyObject *Py_UNUSED(module), PyObject *const *args,
                                Py_ssize_t args_len)
{
    Py_buffer views[2];
    if (args_len != 2) {
        PyErr_SetString(PyExc_TypeError, "compare_digest() takes two arguments");
        return NULL;
    }
    if (PyUnicode_Check(args[0]) && PyUnicode_Check(args[1])) return compare_text(args[0], args[1]);
    if (PyUnicode_Check(args[0]) || PyUnicode_Check(args[1])) {
        PyErr_SetString(PyExc_TypeError, "a str can only be compared with a str");
        return NULL;
    }
    if (!borrow_all(args, 2, views)) return NULL;
    PyObject *answer = are_equal(BYTES(views[0]), BYTES(views[1]));
    give_back(views, 2);
    return answer;
}

PyMethodDef tag_functions[] = {
    FUNCTION("hmac_new", hmac_new, "key, msg=None, digestmod=''",
             "The tag of a message in pieces."),
    FUNCTION("hmac_digest", hmac_digest, "key, msg, digest", "The tag of a message."),
    FUNCTION("hmac_verify", hmac_verify, "key, msg, tag, digest",
             "Whether `tag` is the whole tag of a message."),
    {"compare_digest", METHOD(compare_digest), METH_FASTCALL,
     PyDoc_STR("compare_digest($module, a, b, /)\n--\n\n"
               "Whether both are equal bytes, or equal ASCII text. Where their lengths agree, all\n"
               "of both is read.")},
    {NULL, NULL, 0, NULL},
};
