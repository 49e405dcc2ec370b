/* SPDX-License-Identifier: ISC
 *
 * The Finished messages and PSK binders of TLS 1.3. */
#include "native.h"

/* Reads the hash of a call, and borrows its inputs. */
static bool begin(PyObject *hash_name, PyObject *const *inputs, int count, uint32_t *algorithm,
                  Py_buffer *views)
{
    return algorithm_of_name(hash_name, algorithm) && borrow_all(inputs, count, views);
}

/* Raises the status of a Finished, and says which lengths are wanted. */
static PyObject *refuse_finished(yz_status status, uint32_t algorithm)
{
    if (status != YZ_WRONG_LENGTH) return refuse(status);
    return refuse_for(status, "a base key and the hash of a transcript have %zu bytes each",
                      yz_output_len(algorithm));
}

static PyObject *finished(PyObject *Py_UNUSED(module), PyObject *const *args, Py_ssize_t args_len,
                          PyObject *keywords)
{
    static const signature takes = {"tls13_finished", 3, 3, 3,
                                    {"hash_name", "base_key", "transcript_hash"}};
    PyObject *values[3];
    Py_buffer views[2];
    uint32_t algorithm;
    uint8_t out[YZ_MAX_OUTPUT_LEN];
    if (!gather(&takes, args, args_len, keywords, values)) return NULL;
    if (!begin(values[0], values + 1, 2, &algorithm, views)) return NULL;
    size_t len = yz_output_len(algorithm);
    yz_status status = yz_tls13_finished(algorithm, BYTES(views[0]), BYTES(views[1]), out, len);
    give_back(views, 2);
    if (status != YZ_OK) return refuse_finished(status, algorithm);
    return PyBytes_FromStringAndSize((const char *)out, (Py_ssize_t)len);
}

static PyObject *verify_finished(PyObject *Py_UNUSED(module), PyObject *const *args,
                                 Py_ssize_t args_len, PyObject *keywords)
{
    static const signature takes = {"tls13_verify_finished", 4, 4, 4,
                                    {"hash_name", "base_key", "transcript_hash", "verify_data"}};
    PyObject *values[4];
    Py_buffer views[3];
    uint32_t algorithm;
    if (!gather(&takes, args, args_len, keywords, values)) return NULL;
    if (!begin(values[0], values + 1, 3, &algorithm, views)) return NULL;
    yz_status status = yz_tls13_finished_verify(algorithm, BYTES(views[0]), BYTES(views[1]),
                                                BYTES(views[2]));
    give_back(views, 3);
    return status == YZ_WRONG_LENGTH ? refuse_finished(status, algorithm) : verdict(status);
}

/* The key is written where it stays, so that no other memory has it. */
static PyObject *made_binder_key(uint32_t algorithm, const Py_buffer *psk, bool is_external)
{
    size_t len = yz_output_len(algorithm);
    uint8_t *bytes;
    PyObject *key = new_bytes(len, &bytes);
    if (key == NULL) return NULL;
    PyThreadState *saved = let_others_run(len_of(psk));
    yz_status status = yz_tls13_binder_key(algorithm, BYTES(*psk), is_external, bytes, len);
    go_on(saved);
    if (status == YZ_OK) return key;
    Py_DECREF(key);
    return len_of(psk) == 0 && status == YZ_UNSPECIFIED ? refuse_for(status, "the PSK is empty")
                                                        : refuse(status);
}

static PyObject *binder_key(PyObject *Py_UNUSED(module), PyObject *const *args,
                            Py_ssize_t args_len, PyObject *keywords)
{
    static const signature takes = {"tls13_binder_key", 3, 3, 3,
                                    {"hash_name", "psk", "is_external"}};
    PyObject *values[3];
    Py_buffer views[1];
    uint32_t algorithm;
    if (!gather(&takes, args, args_len, keywords, values)) return NULL;
    if (values[2] != Py_True && values[2] != Py_False) {
        PyErr_SetString(PyExc_TypeError, "is_external must be a bool");
        return NULL;
    }
    if (!begin(values[0], values + 1, 1, &algorithm, views)) return NULL;
    PyObject *key = made_binder_key(algorithm, &views[0], values[2] == Py_True);
    give_back(views, 1);
    return key;
}

PyMethodDef tls13_functions[] = {
    FUNCTION("tls13_finished", finished, "hash_name, base_key, transcript_hash",
             "The verify_data of a Finished or a PSK binder (RFC 8446, 4.4.4)."),
    FUNCTION("tls13_verify_finished", verify_finished,
             "hash_name, base_key, transcript_hash, verify_data",
             "Whether this is the verify_data of a Finished or a PSK binder."),
    FUNCTION("tls13_binder_key", binder_key, "hash_name, psk, is_external",
             "The key of the binders of a PSK (RFC 8446, 7.1)."),
    {NULL, NULL, 0, NULL},
};
