/* SPDX-License-Identifier: ISC
 *
 * What is handed on to another provider, and why.
 *
 * OpenSSL chooses the provider of a MAC or a KDF by its name alone, before the caller names the
 * digest. Where the application prefers this provider (`default_properties = ?provider=yezdopin`),
 * work comes here that the library has no call for. To refuse it would break the application, so
 * the HMAC, HKDF or PBKDF2 of another provider that the application has loaded does it:
 *
 * - under a digest that the library lacks, as MD5, SHA-224 or SHA-3; and under SHA-512/256, which
 *   it has as a digest alone;
 * - under a digest that is asked for with properties, since these may exclude this provider;
 * - HMAC of a TLS record whose padding is secret (`tls-data-size`: CBC without encrypt-then-MAC).
 *   libssl passes the record with its padding, and the time must not tell how long the padding is
 *   (the attack Lucky Thirteen). OpenSSL's HMAC has code for this; the library's takes a time that
 *   depends on the length. To ignore the parameter would give the right tag and leak;
 * - PBKDF2 of 2^32 iterations or more, which the library's 32 bits don't count.
 *
 * Another provider is any that isn't this one (`provider!=yezdopin`). If none serves, the call is
 * refused, and so it is where the configuration of this module says `hand_on = no`. */
#include "../c/rows.h"
#include "provider.h"

#define NOT_OURS "provider!=yezdopin"

/* Whether the library makes the tag. A length of 0 says that the message is no TLS record. */
int library_signs(const chosen_digest *digest, size_t record_len)
{
    return digest->algorithm != 0 && record_len == 0;
}

/* Whether the library derives the key. */
int library_derives(const chosen_digest *digest, uint64_t iterations)
{
    return digest->algorithm != 0 && iterations <= UINT32_MAX;
}

#define NAMED(NAME, title, name, ...) {YZ_##NAME, name},
/* The library's number of such a digest, by whichever name it was found, or 0. */
static uint32_t keyed_algorithm_of(const EVP_MD *found)
{
    static const struct {
        uint32_t algorithm;
        const char *name;
    } keyed[] = {EACH_KEYED(NAMED)};
    for (size_t i = 0; i < sizeof keyed / sizeof keyed[0]; i++) {
        if (EVP_MD_is_a(found, keyed[i].name)) return keyed[i].algorithm;
    }
    return 0;
}

/* Finds a digest that isn't known by name, or has properties, in the application's providers.
 * Another name of a digest of the library is found here too. */
static int find_digest(const provider *reporter, chosen_digest *digest)
{
    const char *properties = (const char *)digest->properties.bytes;
    EVP_MD *found =
        EVP_MD_fetch(reporter->library_context, (const char *)digest->name.bytes, properties);
    if (found == NULL) return refuse(reporter, PROV_R_INVALID_DIGEST);
    digest->algorithm = 0;
    if (digest->properties.len == 0) {
        digest->algorithm = keyed_algorithm_of(found);
    }
    digest->output_len = (size_t)EVP_MD_get_size(found);
    digest->block_len = (size_t)EVP_MD_get_block_size(found);
    EVP_MD_free(found);
    return 1;
}

/* Finds out which digest the name and the properties say. */
static int resolve(const provider *reporter, chosen_digest *digest)
{
    uint32_t algorithm = algorithm_of_name((const char *)digest->name.bytes);
    if (algorithm == 0 || digest->properties.len != 0) {
        if (!find_digest(reporter, digest)) return 0;
    } else {
        digest->algorithm = IS_KEYED(algorithm) ? algorithm : 0;
        digest->output_len = yz_output_len(algorithm);
        digest->block_len = yz_block_len(algorithm);
    }
    return digest->algorithm != 0 || reporter->hands_on
           || refuse(reporter, PROV_R_INVALID_DIGEST);
}

/* Whether properties, which mean nothing without a digest, are a word where they are given. */
int has_right_properties(const provider *reporter, const OSSL_PARAM params[])
{
    const OSSL_PARAM *it = OSSL_PARAM_locate_const(params, OSSL_ALG_PARAM_PROPERTIES);
    return it == NULL || it->data_type == OSSL_PARAM_UTF8_STRING
           || refuse(reporter, PROV_R_FAILED_TO_GET_PARAMETER);
}

/* Reads the digest that parameters name into copies, if they name one, as `read_word` does. */
int read_digest(const provider *reporter, chosen_digest *digest, const OSSL_PARAM params[])
{
    chosen_digest read = {0};
    if (!has_right_properties(reporter, params)) return 0;
    if (OSSL_PARAM_locate_const(params, OSSL_ALG_PARAM_DIGEST) == NULL) return 1;
    if (read_word(reporter, &read.name, params, OSSL_ALG_PARAM_DIGEST)
        && read_word(reporter, &read.properties, params, OSSL_ALG_PARAM_PROPERTIES)
        && resolve(reporter, &read)) {
        *digest = read;
        return 1;
    }
    forget_digest(&read);
    return 0;
}

/* Makes `to`, which holds nothing that is freed, a copy of its own. */
int copy_digest(chosen_digest *to, const chosen_digest *from)
{
    int is_named, has_properties;
    *to = *from;
    is_named = copy_kept(&to->name, &from->name);
    has_properties = copy_kept(&to->properties, &from->properties);
    return is_named && has_properties;
}

void forget_digest(chosen_digest *digest)
{
    forget(&digest->name);
    forget(&digest->properties);
    *digest = (chosen_digest){0};
}

/* As `drop_one`. */
void drop_one_digest(chosen_digest *now, chosen_digest *next, int is_taken)
{
    drop_one(&now->name, &next->name, is_taken);
    drop_one(&now->properties, &next->properties, is_taken);
}

/* Puts what was kept into a list of parameters; where the list goes on. */
OSSL_PARAM *put_bytes(const kept *what, const char *name, OSSL_PARAM *params)
{
    if (what->bytes == NULL) return params;
    *params = OSSL_PARAM_construct_octet_string(name, what->bytes, what->len);
    return params + 1;
}

static OSSL_PARAM *put_word(const kept *what, const char *name, OSSL_PARAM *params)
{
    if (what->bytes == NULL) return params;
    *params = OSSL_PARAM_construct_utf8_string(name, (char *)what->bytes, what->len);
    return params + 1;
}

OSSL_PARAM *put_digest(const chosen_digest *digest, OSSL_PARAM *params)
{
    OSSL_PARAM *next = put_word(&digest->name, OSSL_ALG_PARAM_DIGEST, params);
    return put_word(&digest->properties, OSSL_ALG_PARAM_PROPERTIES, next);
}

/* Begins a message under another provider's HMAC; NULL if none serves. */
EVP_MAC_CTX *begin_other_tag(const provider *reporter, const chosen_digest *digest,
                             const kept *key, size_t record_len)
{
    OSSL_PARAM params[MOST_DIGEST_PARAMS + 2], *next = put_digest(digest, params);
    EVP_MAC *hmac;
    EVP_MAC_CTX *made;
    if (!reporter->hands_on) {
        (void)refuse(reporter, PROV_R_NOT_SUPPORTED);
        return NULL;
    }
    hmac = EVP_MAC_fetch(reporter->library_context, "HMAC", NOT_OURS);
    made = hmac == NULL ? NULL : EVP_MAC_CTX_new(hmac);
    EVP_MAC_free(hmac);
    if (made == NULL) {
        (void)refuse(reporter, PROV_R_INVALID_DIGEST);
        return NULL;
    }
    *next++ = OSSL_PARAM_construct_size_t(OSSL_MAC_PARAM_TLS_DATA_SIZE, &record_len);
    *next = OSSL_PARAM_construct_end();
    if (EVP_MAC_init(made, key->bytes, key->len, params)) return made;
    EVP_MAC_CTX_free(made);
    return NULL;
}

/* A context of another provider's KDF; NULL if none serves. */
static EVP_KDF_CTX *new_other_kdf(const provider *reporter, const char *kdf)
{
    EVP_KDF *other;
    EVP_KDF_CTX *made;
    if (!reporter->hands_on) {
        (void)refuse(reporter, PROV_R_NOT_SUPPORTED);
        return NULL;
    }
    other = EVP_KDF_fetch(reporter->library_context, kdf, NOT_OURS);
    made = EVP_KDF_CTX_new(other);
    EVP_KDF_free(other);
    if (made == NULL) (void)refuse(reporter, PROV_R_INVALID_DIGEST);
    return made;
}

/* Whether another provider's KDF takes a digest that the library lacks. OpenSSL 3.5's refuses
 * SHAKE when it is set, and 3.0's when it derives. */
int other_takes_digest(const provider *reporter, const char *kdf, const chosen_digest *digest)
{
    OSSL_PARAM params[MOST_DIGEST_PARAMS + 1];
    EVP_KDF_CTX *context = new_other_kdf(reporter, kdf);
    int is_taken;
    *put_digest(digest, params) = OSSL_PARAM_construct_end();
    is_taken = context != NULL && EVP_KDF_CTX_set_params(context, params);
    EVP_KDF_CTX_free(context);
    return is_taken;
}

/* Derives a key by another provider's KDF. It takes the parameters that it knows. */
int derive_by_other(const provider *reporter, const char *kdf, const OSSL_PARAM params[],
                    unsigned char *out, size_t out_len)
{
    EVP_KDF_CTX *context = new_other_kdf(reporter, kdf);
    int is_done = context != NULL && EVP_KDF_derive(context, out, out_len, params);
    EVP_KDF_CTX_free(context);
    return is_done;
}
