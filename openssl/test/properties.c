/* SPDX-License-Identifier: ISC */
/* A digest that is asked for with properties is the one that has them, in a copy too, and one that
 * is named later without them is any. A provider of this test's own has a SHA256 that is another
 * function. properties MODULES */
#include "single.h"
#include <openssl/core_dispatch.h>

#define OUT_LEN 32
#define BLOCK_LEN 64
#define OTHER "provider=other"
#define FUNCTION(NUMBER, function) {OSSL_FUNC_##NUMBER, (void (*)(void))(function)}
#define LAST_FUNCTION {0, NULL}

static OSSL_LIB_CTX *all;

/* The other SHA256 is the sum of the bytes, modulo 256, 32 times. */
static void *new_sum(void *self)
{
    (void)self;
    return OPENSSL_zalloc(1);
}

static void free_sum(void *sum)
{
    OPENSSL_free(sum);
}

static void *copy_sum(void *sum)
{
    return OPENSSL_memdup(sum, 1);
}

static int init(void *sum, const OSSL_PARAM params[])
{
    (void)params;
    *(unsigned char *)sum = 0;
    return 1;
}

static int update(void *sum, const unsigned char *input, size_t len)
{
    unsigned char *now = sum;
    for (size_t i = 0; i < len; i++) *now = (unsigned char)(*now + input[i]);
    return 1;
}

static int final(void *sum, unsigned char *out, size_t *out_len, size_t out_size)
{
    if (out_size < OUT_LEN) return 0;
    memset(out, *(unsigned char *)sum, OUT_LEN);
    *out_len = OUT_LEN;
    return 1;
}

static int get_params(OSSL_PARAM params[])
{
    OSSL_PARAM *size = OSSL_PARAM_locate(params, OSSL_DIGEST_PARAM_SIZE);
    OSSL_PARAM *block_size = OSSL_PARAM_locate(params, OSSL_DIGEST_PARAM_BLOCK_SIZE);
    return (size == NULL || OSSL_PARAM_set_size_t(size, OUT_LEN))
           && (block_size == NULL || OSSL_PARAM_set_size_t(block_size, BLOCK_LEN));
}

static const OSSL_ALGORITHM *query(void *self, int operation, int *no_cache)
{
    static const OSSL_DISPATCH calls[] = {
        FUNCTION(DIGEST_NEWCTX, new_sum),     FUNCTION(DIGEST_FREECTX, free_sum),
        FUNCTION(DIGEST_DUPCTX, copy_sum),    FUNCTION(DIGEST_INIT, init),
        FUNCTION(DIGEST_UPDATE, update),      FUNCTION(DIGEST_FINAL, final),
        FUNCTION(DIGEST_GET_PARAMS, get_params), LAST_FUNCTION,
    };
    static const OSSL_ALGORITHM digests[] = {{"SHA2-256:SHA-256:SHA256", OTHER, calls, NULL},
                                             {NULL, NULL, NULL, NULL}};
    (void)self;
    *no_cache = 0;
    return operation == OSSL_OP_DIGEST ? digests : NULL;
}

static int init_other(const OSSL_CORE_HANDLE *core, const OSSL_DISPATCH *in,
                      const OSSL_DISPATCH **out, void **self)
{
    static const OSSL_DISPATCH calls[] = {FUNCTION(PROVIDER_QUERY_OPERATION, query),
                                          LAST_FUNCTION};
    (void)in;
    *out = calls;
    *self = (void *)core;
    return 1;
}

/* A tag under a digest, or under another that is named later, by a copy of the context. */
static void sign(const char *side, const OSSL_PARAM *digest, const OSSL_PARAM *later,
                 unsigned char *out)
{
    const unsigned char *key = (const unsigned char *)"key";
    EVP_MAC_CTX *first = new_hmac(all, side), *it;
    size_t len = 0;
    CHECK(EVP_MAC_init(first, key, 3, digest) == 1);
    it = EVP_MAC_CTX_dup(first);
    EVP_MAC_CTX_free(first);
    CHECK(EVP_MAC_init(it, key, 3, later) == 1);
    CHECK(EVP_MAC_update(it, (const unsigned char *)"message", 7) == 1);
    CHECK(EVP_MAC_final(it, out, &len, OUT_LEN) == 1 && len == OUT_LEN);
    EVP_MAC_CTX_free(it);
}

/* A derived key likewise. OpenSSL 3.0 copies no derivation: its own context goes on. */
static void derive(const char *kdf, const char *side, const OSSL_PARAM *digest,
                   const OSSL_PARAM *later, unsigned char *out)
{
    const OSSL_PARAM rest[] = {octets("key", "key", 3), octets("pass", "key", 3),
                               octets("salt", "salt", 4), octets("info", "info", 4),
                               OSSL_PARAM_END};
    EVP_KDF_CTX *first = new_kdf_of(all, kdf, side), *it;
    CHECK(EVP_KDF_CTX_set_params(first, rest) == 1 && EVP_KDF_CTX_set_params(first, digest) == 1);
    it = strcmp(side, OURS) == 0 ? EVP_KDF_CTX_dup(first) : first;
    if (it != first) EVP_KDF_CTX_free(first);
    CHECK(EVP_KDF_derive(it, out, OUT_LEN, later) == 1);
    EVP_KDF_CTX_free(it);
}

static void make(const char *algorithm, const char *side, const OSSL_PARAM *digest,
                 const OSSL_PARAM *later, unsigned char *out)
{
    memset(out, 0, OUT_LEN);
    if (strcmp(algorithm, "HMAC") == 0) {
        sign(side, digest, later, out);
    } else {
        derive(algorithm, side, digest, later, out);
    }
}

/* Under SHA256 with properties and without, and under either after the other. */
static void compare(const char *algorithm)
{
    const OSSL_PARAM any[] = {word("digest", "SHA256"), OSSL_PARAM_END};
    const OSSL_PARAM other[] = {word("digest", "SHA256"), word("properties", OTHER),
                                OSSL_PARAM_END};
    unsigned char of_any[OUT_LEN], of_other[OUT_LEN], out[OUT_LEN];
    make(algorithm, THEIRS, any, NULL, of_any);
    make(algorithm, THEIRS, other, NULL, of_other);
    CHECK(memcmp(of_any, of_other, OUT_LEN) != 0);
    make(algorithm, OURS, any, NULL, out);
    CHECK(memcmp(out, of_any, OUT_LEN) == 0);
    make(algorithm, OURS, other, NULL, out);
    CHECK(memcmp(out, of_other, OUT_LEN) == 0);
    make(algorithm, OURS, other, any, out);
    CHECK(memcmp(out, of_any, OUT_LEN) == 0);
    make(algorithm, OURS, any, other, out);
    CHECK(memcmp(out, of_other, OUT_LEN) == 0);
}

int main(int argc, char **argv)
{
    OSSL_PROVIDER *loaded[3];
    if (argc != 2) return 2;
    all = OSSL_LIB_CTX_new();
    OSSL_PROVIDER_set_default_search_path(all, argv[1]);
    CHECK(OSSL_PROVIDER_add_builtin(all, "other", init_other) == 1);
    loaded[0] = OSSL_PROVIDER_load(all, "default");
    loaded[1] = OSSL_PROVIDER_load(all, "other");
    loaded[2] = OSSL_PROVIDER_load(all, "yezdopin");
    CHECK(EVP_set_default_properties(all, "?" OURS) == 1);
    if (loaded[0] == NULL || loaded[1] == NULL || loaded[2] == NULL) return 2;
    compare("HMAC");
    compare("HKDF");
    compare("PBKDF2");
    for (int i = 2; i >= 0; i--) CHECK(OSSL_PROVIDER_unload(loaded[i]) == 1);
    OSSL_LIB_CTX_free(all);
    printf("digests with properties and without: %d failures\n", failures);
    return failures != 0;
}
