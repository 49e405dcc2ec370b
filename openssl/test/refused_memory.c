/* SPDX-License-Identifier: ISC */
/* Refuses each allocation of OpenSSL's and the provider's in turn, over calls of every kind:
 * nothing breaks, what a call writes that says it is done is right, and a call that changes
 * parameters changes all or none. refused_memory MODULES */
#include "single.h"
#include <openssl/crypto.h>
#include <stdlib.h>

#define MOST_ALLOCATIONS 20000
#define NUM_CALLS 5
#define ALL_DONE ((1 << NUM_CALLS) - 1)
#define OUT_LEN 40
#define NO_CHANGE -2

typedef unsigned char outputs[NUM_CALLS][64];

/* How many allocations still succeed before one is refused; below 0 none is refused. */
static long left = -1;
static int was_refused;
static EVP_MD *digest;

static int is_refused(void)
{
    return left >= 0 && left-- == 0;
}

static void *allocate(size_t len, const char *file, int line)
{
    (void)file, (void)line;
    return is_refused() ? NULL : malloc(len);
}

static void *allocate_again(void *old, size_t len, const char *file, int line)
{
    (void)file, (void)line;
    return is_refused() ? NULL : realloc(old, len);
}

static void release(void *old, const char *file, int line)
{
    (void)file, (void)line;
    free(old);
}

/* A message longer than what is kept for one call. */
static int make_digest(unsigned char *out)
{
    static const unsigned char message[200] = "abc";
    EVP_MD_CTX *it = EVP_MD_CTX_new(), *copy = EVP_MD_CTX_new();
    int is_done = it != NULL && copy != NULL && EVP_DigestInit_ex2(it, digest, NULL)
                  && EVP_DigestUpdate(it, message, 100) && EVP_DigestUpdate(it, message, 100)
                  && EVP_MD_CTX_copy_ex(copy, it) && EVP_DigestFinal_ex(copy, out, NULL);
    EVP_MD_CTX_free(it);
    EVP_MD_CTX_free(copy);
    return is_done;
}

static int make_tags(EVP_MAC *mac, const OSSL_PARAM *params, unsigned char *out,
                     unsigned char *out_again)
{
    EVP_MAC_CTX *it = EVP_MAC_CTX_new(mac), *copy = NULL;
    size_t len;
    int is_done = 0;
    if (it != NULL && EVP_MAC_init(it, (const unsigned char *)"k", 1, params)
        && EVP_MAC_update(it, (const unsigned char *)"abc", 3)
        && (copy = EVP_MAC_CTX_dup(it)) != NULL) {
        /* A copy that is made although an allocation was refused lacks nothing. */
        int must_end = left < 0;
        is_done = EVP_MAC_final(copy, out, &len, 64);
        CHECK(is_done || !must_end);
    }
    if (it != NULL && EVP_MAC_init(it, NULL, 0, NULL) && EVP_MAC_final(it, out_again, &len, 64)) {
        is_done |= 2;
    }
    EVP_MAC_CTX_free(it);
    EVP_MAC_CTX_free(copy);
    return is_done;
}

static int derive(EVP_KDF *kdf, const OSSL_PARAM *params, const OSSL_PARAM *by_digest,
                  unsigned char *out)
{
    EVP_KDF_CTX *it = EVP_KDF_CTX_new(kdf), *copy = NULL;
    int is_done = it != NULL && EVP_KDF_CTX_set_params(it, by_digest)
                  && EVP_KDF_CTX_set_params(it, params) && (copy = EVP_KDF_CTX_dup(it)) != NULL
                  && EVP_KDF_derive(copy, out, OUT_LEN, NULL);
    EVP_KDF_CTX_free(it);
    EVP_KDF_CTX_free(copy);
    return is_done;
}

static EVP_MAC *mac;
static EVP_KDF *hkdf, *pbkdf2;

/* Makes the calls; one bit for each that is done. */
static int make_calls(outputs out, const char *name)
{
    uint64_t iterations = 3;
    const OSSL_PARAM by_digest[] = {word("digest", name), OSSL_PARAM_construct_end()};
    const OSSL_PARAM params[] = {OSSL_PARAM_construct_uint64("iter", &iterations),
                                 octets("key", "some key", 8),
                                 octets("pass", "some key", 8),
                                 octets("salt", "salt", 4),
                                 octets("info", "in", 2),
                                 octets("info", "fo", 2),
                                 OSSL_PARAM_construct_end()};
    int done = make_digest(out[0]);
    done |= make_tags(mac, by_digest, out[1], out[2]) << 1;
    done |= derive(hkdf, params, by_digest, out[3]) << 3;
    done |= derive(pbkdf2, params, by_digest, out[4]) << 4;
    ERR_clear_error();
    return done;
}

/* Changes parameters in the midst of a message, or where there are none begins it again, while one
 * allocation is refused, then ends it; whether that was done. For NULL nothing is done. */
static int change_tag(const OSSL_PARAM *old, const OSSL_PARAM *changes, long count,
                      unsigned char *out)
{
    EVP_MAC_CTX *it = EVP_MAC_CTX_new(mac);
    size_t len;
    int is_done;
    CHECK(EVP_MAC_init(it, (const unsigned char *)"k", 1, old)
          && EVP_MAC_update(it, (const unsigned char *)"abc", 3));
    left = count;
    if (changes == NULL) {
        is_done = 0;
    } else {
        is_done = changes->key == NULL ? EVP_MAC_init(it, NULL, 0, NULL)
                                       : EVP_MAC_CTX_set_params(it, changes);
    }
    was_refused = left < 0;
    left = -1;
    CHECK(EVP_MAC_final(it, out, &len, 64));
    EVP_MAC_CTX_free(it);
    return is_done;
}

/* The same before a key is derived. */
static int change_derivation(EVP_KDF *kdf, const OSSL_PARAM *old, const OSSL_PARAM *changes,
                             long count, unsigned char *out)
{
    EVP_KDF_CTX *it = EVP_KDF_CTX_new(kdf);
    int is_done;
    CHECK(EVP_KDF_CTX_set_params(it, old));
    left = count;
    is_done = changes != NULL && EVP_KDF_CTX_set_params(it, changes);
    was_refused = left < 0;
    left = -1;
    CHECK(EVP_KDF_derive(it, out, OUT_LEN, NULL));
    EVP_KDF_CTX_free(it);
    return is_done;
}

/* Of HMAC where `kdf` is NULL. Where `to` is NULL its message begins again. */
static int change(EVP_KDF *kdf, const char *from, const char *to, long count, unsigned char *out)
{
    uint64_t few = 3, more = 4;
    const OSSL_PARAM old[] = {word("digest", from), octets("key", "some key", 8),
                              octets("pass", "some key", 8), octets("salt", "salt", 4),
                              octets("info", "info", 4), OSSL_PARAM_construct_uint64("iter", &few),
                              OSSL_PARAM_construct_end()};
    const OSSL_PARAM changes[] = {word("digest", to), octets("key", "other", 5),
                                  octets("pass", "other", 5), octets("salt", "pepper", 6),
                                  octets("info", "in", 2), octets("info", "formation", 9),
                                  OSSL_PARAM_construct_uint64("iter", &more),
                                  OSSL_PARAM_construct_end()};
    const OSSL_PARAM again[] = {OSSL_PARAM_construct_end()};
    const OSSL_PARAM *given = to == NULL ? again : changes;
    if (count == NO_CHANGE) given = NULL;
    if (kdf == NULL) return change_tag(old, given, count, out);
    return change_derivation(kdf, old, given, count, out);
}

/* From one digest to another; how many runs had a refusal. */
static long change_each(EVP_KDF *kdf, const char *from, const char *to)
{
    unsigned char right[2][64] = {{0}, {0}};
    CHECK(change(kdf, from, to, NO_CHANGE, right[0]) == 0);
    CHECK(change(kdf, from, to, -1, right[1]) == 1);
    CHECK(memcmp(right[0], right[1], sizeof right[0]) != 0);
    for (long count = 0; count < MOST_ALLOCATIONS; count++) {
        unsigned char out[64] = {0};
        int is_done = change(kdf, from, to, count, out);
        CHECK(memcmp(out, right[is_done], sizeof out) == 0);
        if (!was_refused) return count;
    }
    CHECK(!"the call takes no end of memory");
    return 0;
}

/* Of each algorithm, within the library, to another provider and back, and a message that another
 * provider begins again; in how many runs. */
static long change_all(void)
{
    static const char *const digests[][2] = {
        {"SHA256", "SHA512"}, {"SHA256", "SHA3-256"}, {"SHA3-256", "SHA512"}};
    EVP_KDF *const kdfs[] = {NULL, hkdf, pbkdf2};
    long runs = change_each(NULL, "SHA3-256", NULL);
    CHECK(runs != 0);
    for (int i = 0; i < 9; i++) {
        runs += change_each(kdfs[i / 3], digests[i % 3][0], digests[i % 3][1]);
    }
    ERR_clear_error();
    return runs;
}

/* Under one digest; how many runs had a refusal. */
static long refuse_each(const char *name)
{
    static outputs right, out;
    int done;
    memset(right, 0, sizeof right);
    done = make_calls(right, name);
    CHECK(done == ALL_DONE);
    for (long count = 0; count < MOST_ALLOCATIONS; count++) {
        memset(out, 0, sizeof out);
        left = count;
        done = make_calls(out, name);
        if (left >= 0) {
            left = -1;
            CHECK(done == ALL_DONE);
            return count;
        }
        left = -1;
        for (int i = 0; i < NUM_CALLS; i++) {
            if (done >> i & 1) CHECK(memcmp(out[i], right[i], sizeof out[i]) == 0);
        }
    }
    CHECK(!"the calls take no end of memory");
    return 0;
}

int main(int argc, char **argv)
{
    OSSL_PROVIDER *theirs, *ours;
    long by_library, by_other, of_changes;
    if (argc != 2 || !CRYPTO_set_mem_functions(allocate, allocate_again, release)) return 2;
    OSSL_PROVIDER_set_default_search_path(NULL, argv[1]);
    theirs = OSSL_PROVIDER_load(NULL, "default");
    ours = OSSL_PROVIDER_load(NULL, "yezdopin");
    digest = EVP_MD_fetch(NULL, "SHA256", OURS);
    mac = EVP_MAC_fetch(NULL, "HMAC", OURS);
    hkdf = EVP_KDF_fetch(NULL, "HKDF", OURS);
    pbkdf2 = EVP_KDF_fetch(NULL, "PBKDF2", OURS);
    by_library = refuse_each("SHA256");
    by_other = refuse_each("SHA3-256");
    of_changes = change_all();
    EVP_MD_free(digest);
    EVP_MAC_free(mac);
    EVP_KDF_free(hkdf);
    EVP_KDF_free(pbkdf2);
    CHECK(OSSL_PROVIDER_unload(ours) && OSSL_PROVIDER_unload(theirs));
    printf("allocations refused in turn: %ld under SHA-256, %ld under SHA3-256, %ld of changes: "
           "%d failures\n", by_library, by_other, of_changes, failures);
    return failures != 0 || by_library == 0 || by_other == 0 || of_changes == 0;
}
