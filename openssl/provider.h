/* SPDX-License-Identifier: ISC
 *
 * What the files of the OpenSSL provider share. A function of theirs that returns an int returns 1
 * when it is done and 0 when it refuses, as OpenSSL's own calls do. */
#ifndef YEZDOPIN_PROVIDER_H
#define YEZDOPIN_PROVIDER_H

#include <openssl/core_dispatch.h>
#include <openssl/core_names.h>
#include <openssl/evp.h>
#include <openssl/kdf.h>
#include <openssl/params.h>
#include <openssl/proverr.h>
#include <stdint.h>
#include <yezdopin.h>

/* An entry of a dispatch table. The function must have the type that OpenSSL calls it by. */
#define ENTRY(NUMBER, type, function) \
    {OSSL_FUNC_##NUMBER, (void (*)(void))(1 ? (function) : (OSSL_FUNC_##type##_fn *)NULL)}
#define LAST_ENTRY {0, NULL}

/* How OpenSSL is told of errors, and a library context that has the application's providers. */
typedef struct {
    const OSSL_CORE_HANDLE *core;
    OSSL_FUNC_core_new_error_fn *new_error;
    OSSL_FUNC_core_vset_error_fn *vset_error;
    OSSL_LIB_CTX *library_context;
    int hands_on; /* whether other providers do what the library has no call for */
} provider;

/* provider.c */
int refuse(const provider *reporter, int reason);

/* A copy of bytes that a caller passed: NULL where none were, not NULL where they are empty, and
 * with a 0 behind them, so that a copy of a word is a string. */
typedef struct {
    unsigned char *bytes;
    size_t len;
} kept;

/* parameters.c */
int set_number(OSSL_PARAM params[], const char *name, size_t value);
int same_word(const char *a, size_t a_len, const char *b);
void forget(kept *what);
int append(kept *what, const void *bytes, size_t len);
int copy_kept(kept *to, const kept *from);
void drop_one(kept *now, kept *next, int is_taken);
size_t word_len(const OSSL_PARAM *it);
int read_word(const provider *reporter, kept *what, const OSSL_PARAM params[], const char *name);
int read_bytes(const provider *reporter, kept *what, const OSSL_PARAM params[], const char *name);
int read_all(const provider *reporter, kept *what, const OSSL_PARAM params[], const char *name);

/* digests.c */
extern const OSSL_ALGORITHM digest_algorithms[];
int is_among(const char *name, const char *names);
uint32_t algorithm_of_name(const char *name);

/* A digest under HMAC, HKDF or PBKDF2. No name is chosen yet where `name` is NULL. */
typedef struct {
    kept name;
    kept properties;
    uint32_t algorithm; /* the library's number, or 0 where another provider must do the work */
    size_t output_len;
    size_t block_len;
} chosen_digest;

/* handed_on.c */
int has_right_properties(const provider *reporter, const OSSL_PARAM params[]);
int read_digest(const provider *reporter, chosen_digest *digest, const OSSL_PARAM params[]);
int copy_digest(chosen_digest *to, const chosen_digest *from);
void drop_one_digest(chosen_digest *now, chosen_digest *next, int is_taken);
void forget_digest(chosen_digest *digest);
int library_signs(const chosen_digest *digest, size_t record_len);
int library_derives(const chosen_digest *digest, uint64_t iterations);
EVP_MAC_CTX *begin_other_tag(const provider *reporter, const chosen_digest *digest,
                             const kept *key, size_t record_len);
#define MOST_DIGEST_PARAMS 2
OSSL_PARAM *put_digest(const chosen_digest *digest, OSSL_PARAM *params);
OSSL_PARAM *put_bytes(const kept *what, const char *name, OSSL_PARAM *params);
int other_takes_digest(const provider *reporter, const char *kdf, const chosen_digest *digest);
int derive_by_other(const provider *reporter, const char *kdf, const OSSL_PARAM params[],
                    unsigned char *out, size_t out_len);

/* hmac.c and kdfs.c */
extern const OSSL_DISPATCH hmac_calls[];
extern const OSSL_DISPATCH hkdf_calls[];
extern const OSSL_DISPATCH pbkdf2_calls[];

#endif
