/* SPDX-License-Identifier: ISC
 *
 * Digests. A message of at most SHORT_LEN bytes is kept until its end and digested by one call of
 * the library, which is faster than the same in pieces: a context is plain bytes that each call of
 * the library reads and writes again. */
#include "../c/rows.h"
#include "provider.h"
#include <string.h>

#define SHORT_LEN 128

typedef struct {
    uint32_t algorithm;
    uint32_t output_len;
    int is_long; /* whether `context` has the message, and else `message` has it */
    size_t short_len;
    unsigned char message[SHORT_LEN];
    yz_digest_context context;
} digest;

static void *new_digest(uint32_t algorithm)
{
    digest *made = OPENSSL_zalloc(sizeof *made);
    if (made == NULL) return NULL;
    made->algorithm = algorithm;
    made->output_len = (uint32_t)yz_output_len(algorithm);
    return made;
}

/* Wipes what the message left. */
static void wipe(digest *it)
{
    yz_clear(it->message, it->short_len);
    it->short_len = 0;
    if (it->is_long) yz_clear(&it->context, sizeof it->context);
    it->is_long = 0;
}

static void free_digest(void *self)
{
    if (self != NULL) wipe(self);
    OPENSSL_free(self);
}

static void *copy_digest_context(void *self)
{
    return OPENSSL_memdup(self, sizeof(digest));
}

static int init(void *self, const OSSL_PARAM params[])
{
    (void)params;
    wipe(self);
    return 1;
}

/* Moves a message that gets longer into the context. */
static int begin(digest *it)
{
    it->is_long = yz_digest_init(it->algorithm, &it->context) == YZ_OK
                  && yz_digest_update(&it->context, it->message, it->short_len) == YZ_OK;
    return it->is_long;
}

static int update(void *self, const unsigned char *input, size_t input_len)
{
    digest *it = self;
    if (!it->is_long) {
        if (input_len <= SHORT_LEN - it->short_len) {
            if (input_len != 0) memcpy(it->message + it->short_len, input, input_len);
            it->short_len += input_len;
            return 1;
        }
        if (!begin(it)) return 0;
    }
    return yz_digest_update(&it->context, input, input_len) == YZ_OK;
}

static int final(void *self, unsigned char *out, size_t *out_len, size_t out_size)
{
    const digest *it = self;
    yz_status status;
    if (out_size < it->output_len) return 0;
    status = it->is_long ? yz_digest_final(&it->context, out, it->output_len)
                         : yz_digest(it->algorithm, it->message, it->short_len, out,
                                     it->output_len);
    if (status != YZ_OK) return 0;
    *out_len = it->output_len;
    return 1;
}

/* "algid-absent" says that an AlgorithmIdentifier of the digest has no parameters. */
static int get_params(uint32_t algorithm, OSSL_PARAM params[])
{
    return set_number(params, OSSL_DIGEST_PARAM_BLOCK_SIZE, yz_block_len(algorithm))
           && set_number(params, OSSL_DIGEST_PARAM_SIZE, yz_output_len(algorithm))
           && set_number(params, OSSL_DIGEST_PARAM_XOF, 0)
           && set_number(params, OSSL_DIGEST_PARAM_ALGID_ABSENT, 1);
}

static const OSSL_PARAM *gettable(void *self)
{
    static const OSSL_PARAM names[] = {
        OSSL_PARAM_size_t(OSSL_DIGEST_PARAM_BLOCK_SIZE, NULL),
        OSSL_PARAM_size_t(OSSL_DIGEST_PARAM_SIZE, NULL),
        OSSL_PARAM_int(OSSL_DIGEST_PARAM_XOF, NULL),
        OSSL_PARAM_int(OSSL_DIGEST_PARAM_ALGID_ABSENT, NULL),
        OSSL_PARAM_END,
    };
    (void)self;
    return names;
}

#define DIGEST(NAME, ...) \
    static void *new_##NAME(void *self) \
    { \
        (void)self; \
        return new_digest(YZ_##NAME); \
    } \
    static int get_params_##NAME(OSSL_PARAM params[]) \
    { \
        return get_params(YZ_##NAME, params); \
    } \
    static const OSSL_DISPATCH calls_##NAME[] = { \
        ENTRY(DIGEST_NEWCTX, digest_newctx, new_##NAME), \
        ENTRY(DIGEST_FREECTX, digest_freectx, free_digest), \
        ENTRY(DIGEST_DUPCTX, digest_dupctx, copy_digest_context), \
        ENTRY(DIGEST_INIT, digest_init, init), \
        ENTRY(DIGEST_UPDATE, digest_update, update), \
        ENTRY(DIGEST_FINAL, digest_final, final), \
        ENTRY(DIGEST_GETTABLE_PARAMS, digest_gettable_params, gettable), \
        ENTRY(DIGEST_GET_PARAMS, digest_get_params, get_params_##NAME), \
        LAST_ENTRY, \
    };
EACH_ALGORITHM(DIGEST)

#define OFFERED(NAME, title, name, names) {names, "provider=yezdopin", calls_##NAME, NULL},
const OSSL_ALGORITHM digest_algorithms[] = {EACH_ALGORITHM(OFFERED) {NULL, NULL, NULL, NULL}};

/* Whether a name is one of a list that is separated by colons. */
int is_among(const char *name, const char *names)
{
    for (;;) {
        size_t len = strcspn(names, ":");
        if (same_word(names, len, name)) return 1;
        if (names[len] == 0) return 0;
        names += len + 1;
    }
}

#define NAMED(NAME, title, name, names) {YZ_##NAME, names},
/* The library's number of a digest by one of its names, or 0. */
uint32_t algorithm_of_name(const char *name)
{
    static const struct {
        uint32_t algorithm;
        const char *names;
    } digests[] = {EACH_ALGORITHM(NAMED)};
    const size_t count = sizeof digests / sizeof digests[0];
    /* SHA-256 is tried first: most callers name it. */
    for (size_t i = 0; i < count; i++) {
        size_t at = (i + YZ_SHA256 - 1) % count;
        if (is_among(name, digests[at].names)) return digests[at].algorithm;
    }
    return 0;
}
