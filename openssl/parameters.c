/* SPDX-License-Identifier: ISC
 *
 * Parameters of OpenSSL's calls, and copies of what they held. */
#include "provider.h"
#include <string.h>

/* Sets a parameter to a number, if it is asked for. */
int set_number(OSSL_PARAM params[], const char *name, size_t value)
{
    OSSL_PARAM *asked = OSSL_PARAM_locate(params, name);
    return asked == NULL || OSSL_PARAM_set_size_t(asked, value);
}

static char lower(char letter)
{
    return letter >= 'A' && letter <= 'Z' ? (char)(letter - 'A' + 'a') : letter;
}

/* Whether two words are the same but for the case of ASCII letters. */
int same_word(const char *a, size_t a_len, const char *b)
{
    for (size_t i = 0; i < a_len; i++) {
        if (b[i] == 0 || lower(a[i]) != lower(b[i])) return 0;
    }
    return b[a_len] == 0;
}

/* Wipes and frees a copy. */
void forget(kept *what)
{
    OPENSSL_clear_free(what->bytes, what->len);
    *what = (kept){NULL, 0};
}

/* Appends bytes to a copy, which stays as it was if there is no memory. */
int append(kept *what, const void *bytes, size_t len)
{
    unsigned char *longer = NULL;
    if (len < SIZE_MAX - what->len) {
        longer = OPENSSL_clear_realloc(what->bytes, what->len, what->len + len + 1);
    }
    if (longer == NULL) return 0;
    if (len != 0) memcpy(longer + what->len, bytes, len);
    *what = (kept){longer, what->len + len};
    longer[what->len] = 0;
    return 1;
}

/* Makes `to`, which holds nothing that is freed, a copy of its own. */
int copy_kept(kept *to, const kept *from)
{
    *to = (kept){NULL, 0};
    return from->bytes == NULL || append(to, from->bytes, from->len);
}

/* Wipes and frees the one of two copies that isn't kept, where they are two: `next` is `now` but
 * for what a call reads, which is taken over or dropped. */
void drop_one(kept *now, kept *next, int is_taken)
{
    if (now->bytes != next->bytes) forget(is_taken ? now : next);
}

/* The length of a word: up to its 0, and at most the parameter's size, within which no 0 need be.
 * Where the size is 0 the word ends at its 0, as each does for OpenSSL's own code: callers write
 * OSSL_PARAM_utf8_string(name, word, 0). */
size_t word_len(const OSSL_PARAM *it)
{
    return it->data_size == 0 ? strlen(it->data) : strnlen(it->data, it->data_size);
}

/* Appends what one parameter has. */
static int append_one(const provider *reporter, kept *what, const OSSL_PARAM *it, unsigned int type)
{
    size_t len = it->data_size;
    if (it->data_type != type || (it->data == NULL && len != 0)) {
        return refuse(reporter, PROV_R_FAILED_TO_GET_PARAMETER);
    }
    if (type == OSSL_PARAM_UTF8_STRING && it->data != NULL) len = word_len(it);
    return append(what, it->data, len) || refuse(reporter, PROV_R_FAILED_TO_GET_PARAMETER);
}

/* Reads the first parameter of the name into a copy. Where there is none, `what` stays. What it had
 * is not freed: it is the context's until the whole call is done. */
static int read_first(const provider *reporter, kept *what, const OSSL_PARAM params[],
                      const char *name, unsigned int type)
{
    const OSSL_PARAM *it = OSSL_PARAM_locate_const(params, name);
    kept copy = {NULL, 0};
    if (it == NULL) return 1;
    if (!append_one(reporter, &copy, it, type)) return 0;
    *what = copy;
    return 1;
}

int read_word(const provider *reporter, kept *what, const OSSL_PARAM params[], const char *name)
{
    return read_first(reporter, what, params, name, OSSL_PARAM_UTF8_STRING);
}

int read_bytes(const provider *reporter, kept *what, const OSSL_PARAM params[], const char *name)
{
    return read_first(reporter, what, params, name, OSSL_PARAM_OCTET_STRING);
}

/* Reads all parameters of the name, one after another, as `read_first` reads one. */
int read_all(const provider *reporter, kept *what, const OSSL_PARAM params[], const char *name)
{
    const OSSL_PARAM *it = OSSL_PARAM_locate_const(params, name);
    kept copy = {NULL, 0};
    if (it == NULL) return 1;
    for (; it != NULL; it = OSSL_PARAM_locate_const(it + 1, name)) {
        if (!append_one(reporter, &copy, it, OSSL_PARAM_OCTET_STRING)) {
            forget(&copy);
            return 0;
        }
    }
    *what = copy;
    return 1;
}
