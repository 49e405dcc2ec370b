/* SPDX-License-Identifier: ISC
 *
 * Merkle trees of transparency logs. A proof comes from others: what is no hash and no size of a
 * tree proves nothing, and a verification answers False. */
#include "native.h"
#include <string.h>

/* Hashes that are copied from objects. */
typedef struct {
    yz_merkle_hash *hashes;
    size_t count;
} hash_list;

static reading worse(reading a, reading b)
{
    return a < b ? a : b;
}

static reading read_hash(PyObject *object, yz_merkle_hash *hash)
{
    Py_buffer view;
    if (!borrow(object, &view)) return FAILED;
    reading found = len_of(&view) == sizeof hash->bytes ? READ : NONE;
    if (found == READ) memcpy(hash->bytes, bytes_of(&view), sizeof hash->bytes);
    PyBuffer_Release(&view);
    return found;
}

/* Reads all hashes of an iterable into memory that the caller frees, whatever is found. */
static reading read_hashes(PyObject *iterable, hash_list *list)
{
    *list = (hash_list){0};
    PyObject *objects = PySequence_Tuple(iterable);
    if (objects == NULL) return FAILED;
    size_t count = (size_t)PyTuple_Size(objects);
    list->hashes = PyMem_Calloc(count, sizeof *list->hashes);
    reading found = list->hashes == NULL ? FAILED : READ;
    if (list->hashes == NULL) PyErr_NoMemory();
    for (; found != FAILED && list->count < count; list->count++) {
        PyObject *object = PyTuple_GetItem(objects, (Py_ssize_t)list->count);
        found = worse(found, read_hash(object, &list->hashes[list->count]));
    }
    Py_DECREF(objects);
    return found;
}

/* What a verification is given: two hashes, two sizes and a path, whose memory the caller frees. */
typedef struct {
    yz_merkle_hash hashes[2];
    uint64_t sizes[2];
    hash_list path;
} proof;

static reading read_proof(PyObject *const *hashes, PyObject *const *sizes, PyObject *path,
                          proof *given)
{
    reading found = read_hashes(path, &given->path);
    for (int i = 0; i < 2 && found != FAILED; i++) {
        found = worse(found, read_hash(hashes[i], &given->hashes[i]));
    }
    for (int i = 0; i < 2 && found != FAILED; i++) {
        found = worse(found, read_number(sizes[i], &given->sizes[i]));
    }
    return found;
}

/* Whether a call verifies what is read of a proof. What is no hash or size proves nothing. */
static PyObject *verified(yz_status (*call)(const proof *given), PyObject *const *hashes,
                          PyObject *const *sizes, PyObject *path)
{
    proof given;
    reading found = read_proof(hashes, sizes, path, &given);
    yz_status status = found == READ ? call(&given) : YZ_UNSPECIFIED;
    PyMem_Free(given.path.hashes);
    return found == FAILED ? NULL : verdict(status);
}

static yz_status call_inclusion(const proof *it)
{
    return yz_merkle_verify_inclusion(&it->hashes[0], it->sizes[0], it->sizes[1], it->path.hashes,
                                      it->path.count, &it->hashes[1]);
}

static PyObject *verify_inclusion(PyObject *Py_UNUSED(module), PyObject *const *args,
                                  Py_ssize_t args_len, PyObject *keywords)
{
    static const signature takes = {"merkle_verify_inclusion", 5, 5, 5,
                                    {"hash", "index", "size", "path", "root"}};
    PyObject *values[5];
    if (!gather(&takes, args, args_len, keywords, values)) return NULL;
    PyObject *hashes[] = {values[0], values[4]};
    return verified(call_inclusion, hashes, values + 1, values[3]);
}

static yz_status call_consistency(const proof *it)
{
    return yz_merkle_verify_consistency(it->sizes[0], &it->hashes[0], it->sizes[1], &it->hashes[1],
                                        it->path.hashes, it->path.count);
}

static PyObject *verify_consistency(PyObject *Py_UNUSED(module), PyObject *const *args,
                                    Py_ssize_t args_len, PyObject *keywords)
{
    static const signature takes = {"merkle_verify_consistency", 5, 5, 5,
                                    {"first_size", "first", "second_size", "second", "path"}};
    PyObject *values[5];
    if (!gather(&takes, args, args_len, keywords, values)) return NULL;
    PyObject *hashes[] = {values[1], values[3]}, *sizes[] = {values[0], values[2]};
    return verified(call_consistency, hashes, sizes, values[4]);
}

static PyObject *bytes_of_hash(const yz_merkle_hash *hash)
{
    return PyBytes_FromStringAndSize((const char *)hash->bytes, sizeof hash->bytes);
}

static PyObject *leaf(PyObject *Py_UNUSED(module), PyObject *const *args, Py_ssize_t args_len,
                      PyObject *keywords)
{
    static const signature takes = {"merkle_leaf", 1, 1, 1, {"entry"}};
    PyObject *values[1];
    Py_buffer view;
    yz_merkle_hash hash;
    if (!gather(&takes, args, args_len, keywords, values)) return NULL;
    if (!borrow(values[0], &view)) return NULL;
    PyThreadState *saved = let_others_run(len_of(&view));
    yz_status status = yz_merkle_leaf(BYTES(view), &hash);
    go_on(saved);
    PyBuffer_Release(&view);
    return status == YZ_OK ? bytes_of_hash(&hash) : refuse(status);
}

/* Reads the hashes of leaves, into memory that the caller frees. */
static bool read_leaves(PyObject *iterable, hash_list *leaves)
{
    reading found = read_hashes(iterable, leaves);
    if (found == NONE) {
        PyErr_Format(PyExc_ValueError, "the hash of a leaf has %d bytes", YZ_MERKLE_HASH_LEN);
    }
    return found == READ;
}

static PyObject *root(PyObject *Py_UNUSED(module), PyObject *const *args, Py_ssize_t args_len,
                      PyObject *keywords)
{
    static const signature takes = {"merkle_root", 1, 1, 1, {"leaves"}};
    PyObject *values[1], *made = NULL;
    hash_list leaves;
    if (!gather(&takes, args, args_len, keywords, values)) return NULL;
    if (read_leaves(values[0], &leaves)) {
        yz_merkle_hash hash;
        PyThreadState *saved = let_others_run(leaves.count * sizeof *leaves.hashes);
        yz_status status = yz_merkle_root(leaves.hashes, leaves.count, &hash);
        go_on(saved);
        made = status == YZ_OK ? bytes_of_hash(&hash) : refuse(status);
    }
    PyMem_Free(leaves.hashes);
    return made;
}

static PyObject *listed(const yz_merkle_hash *hashes, size_t count)
{
    PyObject *list = PyList_New((Py_ssize_t)count);
    for (size_t i = 0; list != NULL && i < count; i++) {
        PyObject *item = bytes_of_hash(&hashes[i]);
        if (item == NULL || PyList_SetItem(list, (Py_ssize_t)i, item) != 0) Py_CLEAR(list);
    }
    return list;
}

/* The path that a call writes for an index or a first size, which may be none of the tree. */
static PyObject *path_by(__typeof__(yz_merkle_inclusion_path) *call, const hash_list *leaves,
                         PyObject *object)
{
    yz_merkle_hash path[YZ_MERKLE_MAX_PATH];
    size_t count = 0;
    uint64_t first;
    reading found = read_number(object, &first);
    if (found == FAILED) return NULL;
    yz_status status = YZ_UNSPECIFIED;
    if (found == READ) {
        PyThreadState *saved = let_others_run(leaves->count * sizeof *leaves->hashes);
        status = call(leaves->hashes, leaves->count, first, path, YZ_MERKLE_MAX_PATH, &count);
        go_on(saved);
    }
    if (status == YZ_UNSPECIFIED) {
        return refuse_for(status, "a tree of %zu leaves has no path for %S", leaves->count, object);
    }
    return status == YZ_OK ? listed(path, count) : refuse(status);
}

/* The same of the leaves and the place that are given. */
static PyObject *path_of(__typeof__(yz_merkle_inclusion_path) *call, PyObject *const *values)
{
    hash_list leaves;
    PyObject *made = read_leaves(values[0], &leaves) ? path_by(call, &leaves, values[1]) : NULL;
    PyMem_Free(leaves.hashes);
    return made;
}

static PyObject *inclusion_path(PyObject *Py_UNUSED(module), PyObject *const *args,
                                Py_ssize_t args_len, PyObject *keywords)
{
    static const signature takes = {"merkle_inclusion_path", 2, 2, 2, {"leaves", "index"}};
    PyObject *values[2];
    if (!gather(&takes, args, args_len, keywords, values)) return NULL;
    return path_of(yz_merkle_inclusion_path, values);
}

static PyObject *consistency_path(PyObject *Py_UNUSED(module), PyObject *const *args,
                                  Py_ssize_t args_len, PyObject *keywords)
{
    static const signature takes = {"merkle_consistency_path", 2, 2, 2, {"leaves", "first_size"}};
    PyObject *values[2];
    if (!gather(&takes, args, args_len, keywords, values)) return NULL;
    return path_of(yz_merkle_consistency_path, values);
}

PyMethodDef merkle_functions[] = {
    FUNCTION("merkle_leaf", leaf, "entry", "The hash of an entry as a leaf."),
    FUNCTION("merkle_verify_inclusion", verify_inclusion, "hash, index, size, path, root",
             "Whether the path proves that a leaf of this hash is in the tree."),
    FUNCTION("merkle_verify_consistency", verify_consistency,
             "first_size, first, second_size, second, path",
             "Whether the path proves that the first tree is the beginning of the second."),
    FUNCTION("merkle_root", root, "leaves", "The root over the hashes of leaves."),
    FUNCTION("merkle_inclusion_path", inclusion_path, "leaves, index",
             "The path that proves where a leaf is."),
    FUNCTION("merkle_consistency_path", consistency_path, "leaves, first_size",
             "The path that proves that the first leaves are the beginning."),
    {NULL, NULL, 0, NULL},
};
