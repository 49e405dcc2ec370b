/* SPDX-License-Identifier: ISC
 *
 * Keys that are derived: HKDF and PBKDF2. */
#include "native.h"
#include "rows.h"

/* A derivation: its inputs, which are borrowed, and the object that it fills. */
#define MOST_INPUTS 3
typedef struct {
    uint32_t algorithm;
    int count;
    Py_buffer inputs[MOST_INPUTS];
    size_t input_len;
    PyObject *out;
    uint8_t *bytes;
    size_t len;
} derivation;

/* Begins a derivation whose algorithm and length are found. One that is begun has to be ended. */
static bool begin(derivation *it, PyObject *const *inputs, int count)
{
    it->count = count;
    it->input_len = 0;
    if (!borrow_all(inputs, count, it->inputs)) return false;
    for (int i = 0; i < count; i++) it->input_len += len_of(&it->inputs[i]);
    it->out = new_bytes(it->len, &it->bytes);
    if (it->out == NULL) give_back(it->inputs, count);
    return it->out != NULL;
}

/* Gives the inputs back, and frees the output if the call was refused. */
static bool end(derivation *it, yz_status status)
{
    give_back(it->inputs, it->count);
    if (status != YZ_OK) Py_DECREF(it->out);
    return status == YZ_OK;
}

/* The length of an output of HKDF. A length past the limit becomes the least that the library
 * refuses, so that no memory is allocated for it. */
static bool hkdf_len(PyObject *object, uint32_t algorithm, size_t *len)
{
    size_t most = YZ_HKDF_MAX_OUT_LEN(yz_output_len(algorithm));
    Py_ssize_t wanted = PyNumber_AsSsize_t(object, PyExc_OverflowError);
    if (wanted == -1 && PyErr_Occurred()) return false;
    if (wanted < 0) {
        PyErr_SetString(PyExc_ValueError, "the length must be at least 0");
        return false;
    }
    *len = (size_t)wanted > most ? most + 1 : (size_t)wanted;
    return true;
}

/* Begins a step of HKDF: the first value is the hash's name, and the next are the inputs. Without
 * a length the output is as long as a digest. */
static bool begin_hkdf(derivation *it, PyObject *const *values, int count, PyObject *length)
{
    if (!algorithm_of_name(values[0], &it->algorithm)) return false;
    it->len = yz_output_len(it->algorithm);
    if (length != NULL && !hkdf_len(length, it->algorithm, &it->len)) return false;
    return begin(it, values + 1, count);
}

static PyObject *hkdf(PyObject *Py_UNUSED(module), PyObject *const *args, Py_ssize_t args_len,
                      PyObject *keywords)
{
    static const signature takes = {
        "hkdf", 5, 5, 5, {"hash_name", "secret", "salt", "info", "length"}};
    PyObject *values[5];
    derivation it;
    if (!gather(&takes, args, args_len, keywords, values)) return NULL;
    if (!begin_hkdf(&it, values, 3, values[4])) return NULL;
    PyThreadState *saved = let_others_run(it.input_len);
    yz_status status = yz_hkdf(it.algorithm, BYTES(it.inputs[1]), BYTES(it.inputs[0]),
                               BYTES(it.inputs[2]), it.bytes, it.len);
    go_on(saved);
    return end(&it, status) ? it.out : refuse(status);
}

static PyObject *hkdf_extract(PyObject *Py_UNUSED(module), PyObject *const *args,
                              Py_ssize_t args_len, PyObject *keywords)
{
    static const signature takes = {"hkdf_extract", 2, 3, 3, {"hash_name", "secret", "salt"}};
    PyObject *values[3];
    derivation it;
    if (!gather(&takes, args, args_len, keywords, values)) return NULL;
    if (!begin_hkdf(&it, values, 2, NULL)) return NULL;
    PyThreadState *saved = let_others_run(it.input_len);
    yz_status status = yz_hkdf_extract(it.algorithm, BYTES(it.inputs[1]), BYTES(it.inputs[0]),
                                       it.bytes, it.len);
    go_on(saved);
    return end(&it, status) ? it.out : refuse(status);
}

static PyObject *hkdf_expand(PyObject *Py_UNUSED(module), PyObject *const *args,
                             Py_ssize_t args_len, PyObject *keywords)
{
    static const signature takes = {
        "hkdf_expand", 4, 4, 4, {"hash_name", "prk", "info", "length"}};
    PyObject *values[4];
    derivation it;
    if (!gather(&takes, args, args_len, keywords, values)) return NULL;
    if (!begin_hkdf(&it, values, 2, values[3])) return NULL;
    PyThreadState *saved = let_others_run(it.input_len);
    yz_status status = yz_hkdf_expand(it.algorithm, BYTES(it.inputs[0]), BYTES(it.inputs[1]),
                                      it.bytes, it.len);
    go_on(saved);
    return end(&it, status) ? it.out : refuse(status);
}

/* Raises the status of HKDF-Expand-Label, and says which input is out of its limits. */
static PyObject *refuse_label(yz_status status, size_t label_len, size_t context_len)
{
    if (status == YZ_UNSPECIFIED && (label_len < 1 || label_len > YZ_MAX_LABEL_LEN)) {
        return refuse_for(status, "a label has 1 to %d bytes, and this one has %zu",
                          YZ_MAX_LABEL_LEN, label_len);
    }
    if (status == YZ_UNSPECIFIED && context_len > YZ_MAX_CONTEXT_LEN) {
        return refuse_for(status, "a context has at most %d bytes, and this one has %zu",
                          YZ_MAX_CONTEXT_LEN, context_len);
    }
    return refuse(status);
}

static PyObject *hkdf_expand_label(PyObject *Py_UNUSED(module), PyObject *const *args,
                                   Py_ssize_t args_len, PyObject *keywords)
{
    static const signature takes = {
        "hkdf_expand_label", 5, 5, 5, {"hash_name", "secret", "label", "context", "length"}};
    PyObject *values[5];
    derivation it;
    if (!gather(&takes, args, args_len, keywords, values)) return NULL;
    if (!begin_hkdf(&it, values, 3, values[4])) return NULL;
    size_t label_len = len_of(&it.inputs[1]), context_len = len_of(&it.inputs[2]);
    PyThreadState *saved = let_others_run(it.input_len);
    yz_status status = yz_hkdf_expand_label(it.algorithm, BYTES(it.inputs[0]), BYTES(it.inputs[1]),
                                            BYTES(it.inputs[2]), it.bytes, it.len);
    go_on(saved);
    return end(&it, status) ? it.out : refuse_label(status, label_len, context_len);
}

/* The most iterations that hashlib's PBKDF2 takes, and so this one: what it makes, that makes. */
#define MAX_ITERATIONS INT32_MAX

/* A number of iterations, from 1 to `most`. As in hashlib 0 is a ValueError, and one that is too
 * great an OverflowError. */
static bool iterations_of(PyObject *object, uint32_t most, uint32_t *iterations)
{
    int overflow;
    long long wanted = PyLong_AsLongLongAndOverflow(object, &overflow);
    if (wanted == -1 && overflow == 0 && PyErr_Occurred()) return false;
    if (overflow != 0 || wanted > (long long)most) {
        PyErr_Format(PyExc_OverflowError, "iterations must be from 1 to %u", most);
        return false;
    }
    if (wanted < 1) {
        refuse_for(YZ_NO_ITERATIONS, "iterations must be from 1 to %u", most);
        return false;
    }
    *iterations = (uint32_t)wanted;
    return true;
}

/* The limit of a verification, which is at least 1. No text can name more than UINT32_MAX
 * iterations, so that a greater limit says no more than that one. */
static bool limit_of(PyObject *object, uint32_t *limit)
{
    int overflow;
    long long wanted = PyLong_AsLongLongAndOverflow(object, &overflow);
    if (wanted == -1 && overflow == 0 && PyErr_Occurred()) return false;
    if (overflow < 0 || (overflow == 0 && wanted < 1)) {
        refuse_for(YZ_NO_ITERATIONS, "max_iterations must be at least 1");
        return false;
    }
    *limit = overflow > 0 || wanted > (long long)UINT32_MAX ? UINT32_MAX : (uint32_t)wanted;
    return true;
}

/* The length of a derived key, a digest's where the object is NULL or None. */
static bool derived_len(PyObject *object, uint32_t algorithm, size_t *len)
{
    *len = yz_output_len(algorithm);
    if (object == NULL || object == Py_None) return true;
    Py_ssize_t wanted = PyNumber_AsSsize_t(object, PyExc_OverflowError);
    if (wanted == -1 && PyErr_Occurred()) return false;
    if (wanted < 1) {
        PyErr_SetString(PyExc_ValueError, "the length of a derived key must be at least 1");
        return false;
    }
    if ((uint64_t)wanted > YZ_PBKDF2_MAX_OUT_LEN(*len)) {
        PyErr_SetString(PyExc_OverflowError, "the derived key is past the limit of PBKDF2");
        return false;
    }
    *len = (size_t)wanted;
    return true;
}

static PyObject *pbkdf2_hmac(PyObject *Py_UNUSED(module), PyObject *const *args,
                             Py_ssize_t args_len, PyObject *keywords)
{
    static const signature takes = {
        "pbkdf2_hmac", 4, 5, 5, {"hash_name", "password", "salt", "iterations", "dklen"}};
    PyObject *values[5];
    uint32_t iterations;
    derivation it;
    if (!gather(&takes, args, args_len, keywords, values)) return NULL;
    if (!algorithm_of_name(values[0], &it.algorithm)) return NULL;
    if (!iterations_of(values[3], MAX_ITERATIONS, &iterations)) return NULL;
    if (!derived_len(values[4], it.algorithm, &it.len) || !begin(&it, values + 1, 2)) return NULL;
    PyThreadState *saved = PyEval_SaveThread();
    yz_status status = yz_pbkdf2_derive(it.algorithm, iterations, BYTES(it.inputs[1]),
                                        BYTES(it.inputs[0]), it.bytes, it.len);
    PyEval_RestoreThread(saved);
    return end(&it, status) ? it.out : refuse(status);
}

static PyObject *pbkdf2_hmac_verify(PyObject *Py_UNUSED(module), PyObject *const *args,
                                    Py_ssize_t args_len, PyObject *keywords)
{
    static const signature takes = {"pbkdf2_hmac_verify", 5, 5, 5,
                                    {"hash_name", "password", "salt", "iterations", "derived"}};
    PyObject *values[5];
    Py_buffer views[3];
    uint32_t algorithm, iterations;
    if (!gather(&takes, args, args_len, keywords, values)) return NULL;
    PyObject *lent[] = {values[1], values[2], values[4]};
    if (!algorithm_of_name(values[0], &algorithm)) return NULL;
    if (!iterations_of(values[3], MAX_ITERATIONS, &iterations)) return NULL;
    if (!borrow_all(lent, 3, views)) return NULL;
    PyThreadState *saved = PyEval_SaveThread();
    yz_status status = yz_pbkdf2_verify(algorithm, iterations, BYTES(views[1]), BYTES(views[0]),
                                        BYTES(views[2]));
    PyEval_RestoreThread(saved);
    give_back(views, 3);
    return verdict(status);
}

static PyObject *password_hash_verify(PyObject *Py_UNUSED(module), PyObject *const *args,
                                      Py_ssize_t args_len, PyObject *keywords)
{
    static const signature takes = {"password_hash_verify", 3, 3, 3,
                                    {"text", "password", "max_iterations"}};
    PyObject *values[3];
    Py_buffer views[2];
    uint32_t most;
    if (!gather(&takes, args, args_len, keywords, values)) return NULL;
    if (!limit_of(values[2], &most) || !borrow_all(values, 2, views)) return NULL;
    PyThreadState *saved = PyEval_SaveThread();
    yz_status status = yz_password_hash_verify(TEXT(views[0]), BYTES(views[1]), most);
    PyEval_RestoreThread(saved);
    give_back(views, 2);
    return verdict(status);
}

/* The schemes of password hashes, by their names. */
#define NAMED(scheme, name) [scheme] = name,
static const char *const SCHEMES[] = {EACH_SCHEME(NAMED)};

static bool scheme_of_name(PyObject *name, uint32_t *scheme)
{
    if (!PyUnicode_Check(name)) {
        PyErr_SetString(PyExc_TypeError, "the scheme of a password hash must be a str");
        return false;
    }
    for (uint32_t it = 1; it < sizeof SCHEMES / sizeof *SCHEMES; it++) {
        if (PyUnicode_CompareWithASCIIString(name, SCHEMES[it]) == 0) {
            *scheme = it;
            return true;
        }
    }
    PyErr_Format(PyExc_ValueError, "%R is no scheme of password hashes", name);
    return false;
}

static PyObject *password_hash_info(PyObject *Py_UNUSED(module), PyObject *const *args,
                                    Py_ssize_t args_len, PyObject *keywords)
{
    static const signature takes = {"password_hash_info", 1, 1, 1, {"text"}};
    PyObject *values[1];
    Py_buffer views[1];
    uint32_t scheme, iterations;
    if (!gather(&takes, args, args_len, keywords, values)) return NULL;
    if (!borrow_all(values, 1, views)) return NULL;
    yz_status status = yz_password_hash_info(TEXT(views[0]), &scheme, &iterations);
    give_back(views, 1);
    if (status != YZ_OK) return refuse(status);
    return Py_BuildValue("sI", SCHEMES[scheme], (unsigned)iterations);
}

static PyObject *password_hash_salt(PyObject *Py_UNUSED(module), PyObject *const *args,
                                    Py_ssize_t args_len, PyObject *keywords)
{
    static const signature takes = {"password_hash_salt", 2, 2, 2, {"scheme", "random"}};
    PyObject *values[2];
    Py_buffer views[1];
    uint32_t scheme;
    uint8_t salt[YZ_MAX_SALT_LEN];
    size_t len = 0;
    if (!gather(&takes, args, args_len, keywords, values)) return NULL;
    if (!scheme_of_name(values[0], &scheme) || !borrow_all(values + 1, 1, views)) return NULL;
    yz_status status = yz_password_hash_salt(scheme, BYTES(views[0]), salt, sizeof salt, &len);
    size_t random_len = len_of(&views[0]);
    give_back(views, 1);
    if (status == YZ_UNSPECIFIED) {
        return refuse_for(status, "a salt is made of %d random bytes, and these are %zu",
                          YZ_SALT_RANDOM_LEN, random_len);
    }
    if (status != YZ_OK) return refuse(status);
    return PyBytes_FromStringAndSize((const char *)salt, (Py_ssize_t)len);
}

static PyObject *password_hash_new(PyObject *Py_UNUSED(module), PyObject *const *args,
                                   Py_ssize_t args_len, PyObject *keywords)
{
    static const signature takes = {"password_hash_new", 4, 4, 4,
                                    {"scheme", "password", "salt", "iterations"}};
    PyObject *values[4];
    Py_buffer views[2];
    uint32_t scheme, iterations;
    char text[YZ_MAX_PASSWORD_HASH_LEN];
    size_t len = 0;
    if (!gather(&takes, args, args_len, keywords, values)) return NULL;
    if (!scheme_of_name(values[0], &scheme)) return NULL;
    if (!iterations_of(values[3], UINT32_MAX, &iterations)) return NULL;
    if (!borrow_all(values + 1, 2, views)) return NULL;
    PyThreadState *saved = PyEval_SaveThread();
    yz_status status = yz_password_hash_new(scheme, iterations, BYTES(views[1]), BYTES(views[0]),
                                            text, sizeof text, &len);
    PyEval_RestoreThread(saved);
    give_back(views, 2);
    if (status != YZ_OK) return refuse(status);
    return PyUnicode_DecodeUTF8(text, (Py_ssize_t)len, NULL);
}

PyMethodDef derivation_functions[] = {
    FUNCTION("hkdf", hkdf, "hash_name, secret, salt, info, length",
             "`length` bytes of output for `info` (RFC 5869): extract, and then expand. The "
             "secret comes before the salt, and in C behind it."),
    FUNCTION("hkdf_extract", hkdf_extract, "hash_name, secret, salt=b''",
             "The pseudorandom key of a secret (RFC 5869, 2.2). In C the salt comes first."),
    FUNCTION("hkdf_expand", hkdf_expand, "hash_name, prk, info, length",
             "`length` bytes of output of a pseudorandom key for `info` (RFC 5869, 2.3)."),
    FUNCTION("hkdf_expand_label", hkdf_expand_label, "hash_name, secret, label, context, length",
             "`length` bytes of HKDF-Expand-Label (RFC 8446, 7.1). The label is without its "
             "prefix."),
    FUNCTION("pbkdf2_hmac", pbkdf2_hmac, "hash_name, password, salt, iterations, dklen=None",
             "The key derived from a password (RFC 2898), as `hashlib.pbkdf2_hmac`. In C the "
             "order is iterations, salt, password."),
    FUNCTION("pbkdf2_hmac_verify", pbkdf2_hmac_verify,
             "hash_name, password, salt, iterations, derived",
             "Whether `derived` isn't empty, and is what `pbkdf2_hmac` gives for its length."),
    FUNCTION("password_hash_verify", password_hash_verify, "text, password, max_iterations",
             "Whether the hash of this text is the password's."),
    FUNCTION("password_hash_info", password_hash_info, "text",
             "The scheme and the iterations of this text."),
    FUNCTION("password_hash_salt", password_hash_salt, "scheme, random",
             "A salt for a new hash, made of 16 random bytes."),
    FUNCTION("password_hash_new", password_hash_new, "scheme, password, salt, iterations",
             "The text of the hash of a password."),
    {NULL, NULL, 0, NULL},
};
