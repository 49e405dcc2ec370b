/* SPDX-License-Identifier: ISC
 *
 * The headers with which webhooks are signed. */
#include "native.h"

/* The secret, the body and the header of each call, and the prefix where there is one. */
#define MOST_INPUTS 4
typedef struct {
    int count;
    Py_buffer inputs[MOST_INPUTS];
    PyThreadState *saved;
} signed_body;

/* Borrows the inputs, and releases the GIL for a long body. What is begun has to be ended. */
static bool begin(signed_body *it, PyObject *const *inputs, int count)
{
    it->count = count;
    if (!borrow_all(inputs, count, it->inputs)) return false;
    it->saved = let_others_run(len_of(&it->inputs[0]) + len_of(&it->inputs[1]));
    return true;
}

static PyObject *end(signed_body *it, yz_status status)
{
    go_on(it->saved);
    give_back(it->inputs, it->count);
    return verdict(status);
}

static PyObject *verify_hex(PyObject *Py_UNUSED(module), PyObject *const *args,
                            Py_ssize_t args_len, PyObject *keywords)
{
    static const signature takes = {"webhook_verify_hex", 5, 5, 5,
                                    {"algorithm", "secret", "body", "header", "prefix"}};
    PyObject *values[5];
    uint32_t algorithm;
    signed_body it;
    if (!gather(&takes, args, args_len, keywords, values)) return NULL;
    if (!algorithm_of_tags(values[0], &algorithm) || !begin(&it, values + 1, 4)) return NULL;
    return end(&it, yz_webhook_verify_hex(algorithm, BYTES(it.inputs[0]), TEXT(it.inputs[3]),
                                          BYTES(it.inputs[1]), TEXT(it.inputs[2])));
}

static PyObject *verify_github(PyObject *Py_UNUSED(module), PyObject *const *args,
                               Py_ssize_t args_len, PyObject *keywords)
{
    static const signature takes = {"webhook_verify_github", 3, 3, 3,
                                    {"secret", "body", "header"}};
    PyObject *values[3];
    signed_body it;
    if (!gather(&takes, args, args_len, keywords, values) || !begin(&it, values, 3)) return NULL;
    return end(&it, yz_webhook_verify_github(BYTES(it.inputs[0]), BYTES(it.inputs[1]),
                                             TEXT(it.inputs[2])));
}

static PyObject *verify_stripe(PyObject *Py_UNUSED(module), PyObject *const *args,
                               Py_ssize_t args_len, PyObject *keywords)
{
    static const signature takes = {"webhook_verify_stripe", 5, 5, 5,
                                    {"secret", "body", "header", "tolerance", "now"}};
    PyObject *values[5];
    uint64_t tolerance, now;
    signed_body it;
    if (!gather(&takes, args, args_len, keywords, values)) return NULL;
    if (!number_up_to(UINT64_MAX, "tolerance", values[3], &tolerance)) return NULL;
    if (!number_up_to(UINT64_MAX, "now", values[4], &now) || !begin(&it, values, 3)) return NULL;
    return end(&it, yz_webhook_verify_stripe(BYTES(it.inputs[0]), BYTES(it.inputs[1]),
                                             TEXT(it.inputs[2]), now, tolerance));
}

PyMethodDef webhook_functions[] = {
    FUNCTION("webhook_verify_hex", verify_hex, "algorithm, secret, body, header, prefix",
             "Whether the header is the prefix and the hex digits of the body's tag."),
    FUNCTION("webhook_verify_github", verify_github, "secret, body, header",
             "Whether GitHub signs the body with the header."),
    FUNCTION("webhook_verify_stripe", verify_stripe, "secret, body, header, tolerance, now",
             "Whether Stripe signs the body with the header, and not too long ago."),
    {NULL, NULL, 0, NULL},
};
