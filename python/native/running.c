/* SPDX-License-Identifier: ISC
 *
 * Digests and tags of a message in pieces: the types Digest and Tag, which differ in their context
 * and in the calls over it alone. */
#include "native.h"

typedef struct {
    PyObject ob_base;
    PyThread_type_lock lock; /* NULL until a long update */
    uint32_t algorithm;
    bool is_tag;
    union {
        yz_digest_context digest;
        yz_hmac_context tag;
    } context;
} running;

static running *running_of(PyObject *self)
{
    return (running *)self;
}

static running *allocated(PyTypeObject *type, uint32_t algorithm, bool is_tag)
{
    running *it = PyObject_New(running, type);
    if (it == NULL) return NULL;
    it->lock = NULL;
    it->algorithm = algorithm;
    it->is_tag = is_tag;
    return it;
}

static void running_dealloc(PyObject *self)
{
    PyTypeObject *type = Py_TYPE(self);
    running *it = running_of(self);
    yz_clear(&it->context, it->is_tag ? sizeof it->context.tag : sizeof it->context.digest);
    if (it->lock != NULL) PyThread_free_lock(it->lock);
    PyObject_Free(self);
    Py_DECREF((PyObject *)type);
}

static yz_status call_update(running *it, const Py_buffer *input)
{
    if (it->is_tag) return yz_hmac_update(&it->context.tag, BYTES(*input));
    return yz_digest_update(&it->context.digest, BYTES(*input));
}

/* Updates a context while no other thread reads or writes it. Where no lock can be allocated, a
 * long input keeps the GIL. */
static yz_status update_alone(running *it, const Py_buffer *input)
{
    if (it->lock == NULL && len_of(input) >= GIL_MIN_LEN) it->lock = PyThread_allocate_lock();
    PyThread_type_lock held = it->lock;
    enter(held);
    PyThreadState *saved = held == NULL ? NULL : let_others_run(len_of(input));
    yz_status status = call_update(it, input);
    leave(held);
    go_on(saved);
    return status;
}

static bool add(running *it, PyObject *data)
{
    Py_buffer view;
    if (!borrow(data, &view)) return false;
    yz_status status = update_alone(it, &view);
    PyBuffer_Release(&view);
    if (status != YZ_OK) refuse(status);
    return status == YZ_OK;
}

/* Adds the first bytes to a new object, whose context was begun with a status. */
static PyObject *begun(running *it, yz_status status, PyObject *data)
{
    if (status != YZ_OK) refuse(status);
    if (status == YZ_OK && (data == NULL || add(it, data))) return (PyObject *)it;
    Py_DECREF((PyObject *)it);
    return NULL;
}

PyObject *begun_digest(PyTypeObject *type, uint32_t algorithm, PyObject *data)
{
    running *it = allocated(type, algorithm, false);
    if (it == NULL) return NULL;
    return begun(it, yz_digest_init(algorithm, &it->context.digest), data);
}

PyObject *begun_tag(PyTypeObject *type, uint32_t algorithm, const yz_hmac_key *key, PyObject *msg)
{
    running *it = allocated(type, algorithm, true);
    if (it == NULL) return NULL;
    return begun(it, yz_hmac_init(key, &it->context.tag), msg);
}

static PyObject *running_update(PyObject *self, PyObject *data)
{
    if (!add(running_of(self), data)) return NULL;
    Py_RETURN_NONE;
}

/* Writes the digest or tag of the message so far. Returns its length, or 0 after an exception. */
static size_t finished(running *it, uint8_t *out)
{
    size_t len = yz_output_len(it->algorithm);
    PyThread_type_lock held = it->lock;
    enter(held);
    yz_status status = it->is_tag ? yz_hmac_final(&it->context.tag, out, len)
                                  : yz_digest_final(&it->context.digest, out, len);
    leave(held);
    if (status == YZ_OK) return len;
    refuse(status);
    return 0;
}

static PyObject *running_digest(PyObject *self, PyObject *Py_UNUSED(nothing))
{
    uint8_t out[YZ_MAX_OUTPUT_LEN];
    size_t len = finished(running_of(self), out);
    return len == 0 ? NULL : PyBytes_FromStringAndSize((const char *)out, (Py_ssize_t)len);
}

static PyObject *running_hexdigest(PyObject *self, PyObject *Py_UNUSED(nothing))
{
    uint8_t out[YZ_MAX_OUTPUT_LEN];
    size_t len = finished(running_of(self), out);
    return len == 0 ? NULL : hex_digits(out, len);
}

static PyObject *running_copy(PyObject *self, PyObject *Py_UNUSED(memo))
{
    running *it = running_of(self);
    running *copy = allocated(Py_TYPE(self), it->algorithm, it->is_tag);
    if (copy == NULL) return NULL;
    PyThread_type_lock held = it->lock;
    enter(held);
    copy->context = it->context;
    leave(held);
    return (PyObject *)copy;
}

static PyObject *running_repr(PyObject *self)
{
    running *it = running_of(self);
    const char *type = it->is_tag ? tag_spec.name : digest_spec.name;
    return PyUnicode_FromFormat("<%s %s object at %p>", name_of(it->algorithm), type, (void *)self);
}

static PyObject *running_name(PyObject *self, void *Py_UNUSED(closure))
{
    running *it = running_of(self);
    return PyUnicode_FromFormat(it->is_tag ? "hmac-%s" : "%s", name_of(it->algorithm));
}

static PyObject *running_digest_size(PyObject *self, void *Py_UNUSED(closure))
{
    return PyLong_FromSize_t(yz_output_len(running_of(self)->algorithm));
}

static PyObject *running_block_size(PyObject *self, void *Py_UNUSED(closure))
{
    return PyLong_FromSize_t(yz_block_len(running_of(self)->algorithm));
}

static PyMethodDef running_methods[] = {
    {"update", running_update, METH_O,
     PyDoc_STR("update($self, data, /)\n--\n\nAdds bytes to the message.")},
    {"digest", running_digest, METH_NOARGS,
     PyDoc_STR("digest($self, /)\n--\n\n"
               "The digest or tag of the message so far. More may be added.")},
    {"hexdigest", running_hexdigest, METH_NOARGS,
     PyDoc_STR("hexdigest($self, /)\n--\n\nThe digest or tag so far as hex digits.")},
    {"copy", running_copy, METH_NOARGS,
     PyDoc_STR("copy($self, /)\n--\n\nAn independent copy.")},
    {"__copy__", running_copy, METH_NOARGS, NULL},
    {"__deepcopy__", running_copy, METH_O, NULL},
    {"__reduce__", cannot_pickle, METH_NOARGS, NULL},
    {"__reduce_ex__", cannot_pickle, METH_O, NULL},
    {NULL, NULL, 0, NULL},
};

static PyGetSetDef running_members[] = {
    {"name", running_name, NULL, PyDoc_STR("The algorithm's name."), NULL},
    {"digest_size", running_digest_size, NULL, PyDoc_STR("The length of the digest or tag."), NULL},
    {"block_size", running_block_size, NULL, PyDoc_STR("The length of a block."), NULL},
    {NULL, NULL, NULL, NULL, NULL},
};

static PyType_Slot running_slots[] = {
    SLOT(Py_tp_dealloc, running_dealloc),
    SLOT(Py_tp_repr, running_repr),
    {Py_tp_methods, running_methods},
    {Py_tp_getset, running_members},
    {0, NULL},
};

PyType_Spec digest_spec = {
    .name = "yezdopin.Digest",
    .basicsize = sizeof(running),
    .flags = Py_TPFLAGS_DEFAULT | Py_TPFLAGS_DISALLOW_INSTANTIATION | Py_TPFLAGS_IMMUTABLETYPE,
    .slots = running_slots,
};

PyType_Spec tag_spec = {
    .name = "yezdopin._native.Tag",
    .basicsize = sizeof(running),
    .flags = Py_TPFLAGS_DEFAULT | Py_TPFLAGS_DISALLOW_INSTANTIATION | Py_TPFLAGS_IMMUTABLETYPE,
    .slots = running_slots,
};
