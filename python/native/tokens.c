/* SPDX-License-Identifier: ISC
 *
 * Signed tokens and one-time passwords. */
#include "native.h"
#include "rows.h"

#define NAMED(algorithm, name) {algorithm, name},
/* The algorithms of tokens by their names, which never come from a token. */
static bool algorithm_of_token(PyObject *name, uint32_t *algorithm)
{
    static const struct {
        uint32_t algorithm;
        const char *name;
    } known[] = {EACH_TOKEN(NAMED)};
    if (!PyUnicode_Check(name)) {
        PyErr_SetString(PyExc_TypeError, "the algorithm of a token must be a str");
        return false;
    }
    for (size_t i = 0; i < sizeof known / sizeof *known; i++) {
        if (PyUnicode_CompareWithASCIIString(name, known[i].name) != 0) continue;
        *algorithm = known[i].algorithm;
        return true;
    }
    refuse_for(YZ_UNKNOWN_ALGORITHM, "unsupported algorithm %R", name);
    return false;
}

/* A call on a payload or a token, which is the first input, and a key; and the room for what it
 * writes, which is long enough for the token of a payload, and so for the payload of a token. */
typedef struct {
    uint32_t algorithm;
    Py_buffer inputs[2];
    char *out;
    size_t room;
    size_t len;
} exchange;

/* Begins a call on the values input, key and algorithm. One that is begun has to be ended. */
static bool begin(exchange *it, PyObject *const *values)
{
    if (!algorithm_of_token(values[2], &it->algorithm)) return false;
    if (!borrow_all(values, 2, it->inputs)) return false;
    it->room = YZ_JWS_TOKEN_LEN(yz_output_len(it->algorithm), len_of(&it->inputs[0]));
    it->len = 0;
    it->out = PyMem_Malloc(it->room);
    if (it->out != NULL) return true;
    give_back(it->inputs, 2);
    PyErr_NoMemory();
    return false;
}

static void end(exchange *it)
{
    yz_clear(it->out, it->room);
    PyMem_Free(it->out);
    give_back(it->inputs, 2);
}

/* Raises a status, and says whether the key is too short. */
static PyObject *refuse_token(yz_status status, uint32_t algorithm, size_t key_len)
{
    size_t least = yz_output_len(algorithm);
    if (status != YZ_UNSPECIFIED) return refuse(status);
    if (key_len < least) {
        return refuse_for(status, "a key for HS%zu has at least %zu bytes", 8 * least, least);
    }
    return refuse_for(status, "not a token that the key signed");
}

static PyObject *sign(PyObject *Py_UNUSED(module), PyObject *const *args, Py_ssize_t args_len,
                      PyObject *keywords)
{
    static const signature takes = {"tokens_sign", 3, 3, 3, {"payload", "key", "algorithm"}};
    PyObject *values[3], *token = NULL;
    exchange it;
    if (!gather(&takes, args, args_len, keywords, values) || !begin(&it, values)) return NULL;
    size_t key_len = len_of(&it.inputs[1]);
    PyThreadState *saved = let_others_run(key_len + len_of(&it.inputs[0]));
    yz_status status = yz_jws_sign(it.algorithm, BYTES(it.inputs[1]), BYTES(it.inputs[0]), it.out,
                                   it.room, &it.len);
    go_on(saved);
    if (status == YZ_OK) token = PyUnicode_DecodeASCII(it.out, (Py_ssize_t)it.len, NULL);
    end(&it);
    return status == YZ_OK ? token : refuse_token(status, it.algorithm, key_len);
}

static PyObject *verify(PyObject *Py_UNUSED(module), PyObject *const *args, Py_ssize_t args_len,
                        PyObject *keywords)
{
    static const signature takes = {"tokens_verify", 3, 3, 3, {"token", "key", "algorithm"}};
    PyObject *values[3], *payload = NULL;
    exchange it;
    if (!gather(&takes, args, args_len, keywords, values) || !begin(&it, values)) return NULL;
    size_t key_len = len_of(&it.inputs[1]);
    PyThreadState *saved = let_others_run(key_len + len_of(&it.inputs[0]));
    yz_status status = yz_jws_verify(it.algorithm, BYTES(it.inputs[1]), TEXT(it.inputs[0]),
                                     (uint8_t *)it.out, it.room, &it.len);
    go_on(saved);
    if (status == YZ_OK) payload = PyBytes_FromStringAndSize(it.out, (Py_ssize_t)it.len);
    end(&it);
    return status == YZ_OK ? payload : refuse_token(status, it.algorithm, key_len);
}

/* What each call on one-time passwords takes: a key, with the text that is looked for behind it,
 * where there is one, a hash, and how many digits a password has. */
typedef struct {
    int count;
    Py_buffer inputs[2];
    uint32_t algorithm;
    uint64_t digits;
} passwords;

/* Reads these. What is no number of digits is refused by the call. */
static bool read_passwords(passwords *it, PyObject *const *inputs, int count, PyObject *digits,
                           PyObject *hash)
{
    it->count = count;
    if (!algorithm_of_tags(hash, &it->algorithm)) return false;
    reading found = read_number(digits, &it->digits);
    if (found == NONE) it->digits = 0;
    return found != FAILED && borrow_all(inputs, count, it->inputs);
}

/* The seconds of a step, at least 1. */
static bool seconds_of(PyObject *object, uint32_t *seconds)
{
    uint64_t number;
    if (!number_up_to(UINT32_MAX, "interval", object, &number)) return false;
    *seconds = (uint32_t)number;
    if (number == 0) refuse_for(YZ_UNSPECIFIED, "interval must be at least 1");
    return number != 0;
}

static PyObject *refuse_digits(yz_status status, PyObject *digits)
{
    if (status != YZ_WRONG_LENGTH) return refuse(status);
    return refuse_for(status, "a one-time password has %d to %d digits, and not %S",
                      YZ_OTP_MIN_DIGITS, YZ_OTP_MAX_DIGITS, digits);
}

/* The password that a call wrote. */
static PyObject *password(passwords *it, yz_status status, const char *text, PyObject *digits)
{
    give_back(it->inputs, it->count);
    if (status != YZ_OK) return refuse_digits(status, digits);
    return PyUnicode_DecodeASCII(text, (Py_ssize_t)it->digits, NULL);
}

/* The counter that a call found, or None. */
static PyObject *counter_or_none(passwords *it, yz_status status, uint64_t counter,
                                 PyObject *digits)
{
    give_back(it->inputs, it->count);
    if (status == YZ_UNSPECIFIED) Py_RETURN_NONE;
    if (status != YZ_OK) return refuse_digits(status, digits);
    return PyLong_FromUnsignedLongLong(counter);
}

static PyObject *hotp(PyObject *Py_UNUSED(module), PyObject *const *args, Py_ssize_t args_len,
                      PyObject *keywords)
{
    static const signature takes = {"tokens_hotp", 4, 4, 4,
                                    {"key", "counter", "digits", "digest"}};
    PyObject *values[4];
    passwords it;
    uint64_t counter;
    char text[YZ_OTP_MAX_DIGITS];
    if (!gather(&takes, args, args_len, keywords, values)) return NULL;
    if (!number_up_to(UINT64_MAX, "counter", values[1], &counter)) return NULL;
    if (!read_passwords(&it, values, 1, values[2], values[3])) return NULL;
    yz_status status = yz_hotp(it.algorithm, BYTES(it.inputs[0]), counter, text, it.digits);
    return password(&it, status, text, values[2]);
}

static PyObject *totp(PyObject *Py_UNUSED(module), PyObject *const *args, Py_ssize_t args_len,
                      PyObject *keywords)
{
    static const signature takes = {"tokens_totp", 5, 5, 5,
                                    {"key", "time", "digits", "digest", "interval"}};
    PyObject *values[5];
    passwords it;
    uint64_t time;
    uint32_t step;
    char text[YZ_OTP_MAX_DIGITS];
    if (!gather(&takes, args, args_len, keywords, values)) return NULL;
    if (!number_up_to(UINT64_MAX, "time", values[1], &time)) return NULL;
    if (!seconds_of(values[4], &step)) return NULL;
    if (!read_passwords(&it, values, 1, values[2], values[3])) return NULL;
    yz_status status = yz_totp(it.algorithm, BYTES(it.inputs[0]), time, step, text, it.digits);
    return password(&it, status, text, values[2]);
}

/* A search hashes two blocks for each counter. */
static size_t hashed_len(uint64_t counters)
{
    return counters < GIL_MIN_LEN ? (size_t)counters * 2 * YZ_MAX_BLOCK_LEN : GIL_MIN_LEN;
}

static PyObject *find_hotp(PyObject *Py_UNUSED(module), PyObject *const *args,
                           Py_ssize_t args_len, PyObject *keywords)
{
    static const signature takes = {"tokens_find_hotp", 6, 6, 6,
                                    {"key", "otp", "first", "count", "digits", "digest"}};
    PyObject *values[6];
    passwords it;
    uint64_t first, count, counter = 0;
    if (!gather(&takes, args, args_len, keywords, values)) return NULL;
    if (!number_up_to(UINT64_MAX, "first", values[2], &first)) return NULL;
    if (!number_up_to(UINT64_MAX, "count", values[3], &count)) return NULL;
    if (!read_passwords(&it, values, 2, values[4], values[5])) return NULL;
    PyThreadState *saved = let_others_run(hashed_len(count));
    yz_status status = yz_hotp_find(it.algorithm, BYTES(it.inputs[0]), first, count, it.digits,
                                    TEXT(it.inputs[1]), &counter);
    go_on(saved);
    return counter_or_none(&it, status, counter, values[4]);
}

static PyObject *find_totp(PyObject *Py_UNUSED(module), PyObject *const *args,
                           Py_ssize_t args_len, PyObject *keywords)
{
    static const signature takes = {
        "tokens_find_totp", 8, 8, 8,
        {"key", "otp", "time", "back", "ahead", "digits", "digest", "interval"}};
    PyObject *values[8];
    passwords it;
    uint64_t time, back, ahead, counter = 0;
    uint32_t step;
    if (!gather(&takes, args, args_len, keywords, values)) return NULL;
    if (!number_up_to(UINT64_MAX, "time", values[2], &time)) return NULL;
    if (!number_up_to(UINT32_MAX, "back", values[3], &back)) return NULL;
    if (!number_up_to(UINT32_MAX, "ahead", values[4], &ahead)) return NULL;
    if (!seconds_of(values[7], &step)) return NULL;
    if (!read_passwords(&it, values, 2, values[5], values[6])) return NULL;
    PyThreadState *saved = let_others_run(hashed_len(back + 1 + ahead));
    yz_status status = yz_totp_find(it.algorithm, BYTES(it.inputs[0]), time, step, (uint32_t)back,
                                    (uint32_t)ahead, it.digits, TEXT(it.inputs[1]), &counter);
    go_on(saved);
    return counter_or_none(&it, status, counter, values[5]);
}

PyMethodDef token_functions[] = {
    FUNCTION("tokens_sign", sign, "payload, key, algorithm", "The token of a payload."),
    FUNCTION("tokens_verify", verify, "token, key, algorithm",
             "The payload of a token that the key signed."),
    FUNCTION("tokens_hotp", hotp, "key, counter, digits, digest",
             "The one-time password of a counter."),
    FUNCTION("tokens_totp", totp, "key, time, digits, digest, interval",
             "The one-time password of a time."),
    FUNCTION("tokens_find_hotp", find_hotp, "key, otp, first, count, digits, digest",
             "The first counter whose one-time password this is, or None."),
    FUNCTION("tokens_find_totp", find_totp, "key, otp, time, back, ahead, digits, digest, interval",
             "The first step whose one-time password this is, or None."),
    {NULL, NULL, 0, NULL},
};
