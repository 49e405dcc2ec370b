/* SPDX-License-Identifier: ISC */
/* The work by OpenSSL 3, called as its manual advises: what is fetched is fetched once, and where a
 * call takes a context, that is made once for all calls. Several messages are digested in turn. */
#include "speed.h"

#if __has_include(<openssl/core_names.h>)
#include <openssl/core_names.h>
#include <openssl/crypto.h>
#include <openssl/evp.h>
#include <openssl/kdf.h>
#include <openssl/params.h>

static size_t out_len;
static EVP_MD *md;
static EVP_MD_CTX *running, *context;
static EVP_MAC_CTX *mac, *ready;
static EVP_KDF_CTX *expanding;
static OSSL_PARAM given[5];

static const char *name(void) { return OpenSSL_version(OPENSSL_VERSION); }

static void end(void) {
    EVP_KDF_CTX_free(expanding);
    EVP_MAC_CTX_free(ready), EVP_MAC_CTX_free(mac);
    EVP_MD_CTX_free(context), EVP_MD_CTX_free(running);
    EVP_MD_free(md);
}

static bool begin(const hash *wanted) {
    static char digest_name[16];
    end();
    out_len = wanted->out_len;
    for (size_t i = 0; i < sizeof digest_name - 1; i++)
        if (!(digest_name[i] = wanted->name[i])) break;
    md = EVP_MD_fetch(NULL, digest_name, NULL);
    running = EVP_MD_CTX_new(), context = EVP_MD_CTX_new();
    given[0] = OSSL_PARAM_construct_utf8_string(OSSL_MAC_PARAM_DIGEST, digest_name, 0);
    given[1] = OSSL_PARAM_construct_end();
    EVP_MAC *hmac = EVP_MAC_fetch(NULL, "HMAC", NULL);
    mac = EVP_MAC_CTX_new(hmac), ready = EVP_MAC_CTX_new(hmac);
    EVP_MAC_free(hmac);
    bool done = EVP_DigestInit_ex2(running, md, NULL) && EVP_MAC_init(mac, key, KEY_LEN, given)
        && EVP_MAC_init(ready, key, KEY_LEN, given);
    given[0] = OSSL_PARAM_construct_utf8_string(OSSL_KDF_PARAM_DIGEST, digest_name, 0);
    given[1] = OSSL_PARAM_construct_octet_string(OSSL_KDF_PARAM_KEY, key, KEY_LEN);
    given[2] = OSSL_PARAM_construct_octet_string(OSSL_KDF_PARAM_SALT, salt, SALT_LEN);
    given[3] = OSSL_PARAM_construct_octet_string(OSSL_KDF_PARAM_INFO, info, INFO_LEN);
    given[4] = OSSL_PARAM_construct_end();
    EVP_KDF *kdf = EVP_KDF_fetch(NULL, "HKDF", NULL);
    expanding = EVP_KDF_CTX_new(kdf);
    EVP_KDF_free(kdf);
    return done && EVP_KDF_CTX_set_params(expanding, given);
}

static bool digest(const work *row, uint8_t *out) {
    return EVP_Digest(messages, row->len, out, NULL, md, NULL);
}

static bool digest_of_pieces(const uint8_t *bytes, size_t count, size_t len, uint8_t *out) {
    bool done = EVP_DigestInit_ex2(context, md, NULL);
    for (size_t i = 0; i < count && done; i++)
        done = EVP_DigestUpdate(context, bytes + i * len, len);
    return done && EVP_DigestFinal_ex(context, out, NULL);
}

static bool pieces(const work *row, uint8_t *out) {
    return digest_of_pieces(messages, row->count, row->len, out);
}

static bool update(const work *row, uint8_t *out) {
    (void)out;
    return EVP_DigestUpdate(running, messages, row->len);
}

static bool tag(const work *row, uint8_t *out) {
    return EVP_MAC_init(mac, key, KEY_LEN, NULL) && EVP_MAC_update(mac, messages, row->len)
        && EVP_MAC_final(mac, out, NULL, MAX_OUT_LEN);
}

static bool tag_under_key(const work *row, uint8_t *out) {
    return EVP_MAC_init(ready, NULL, 0, NULL) && EVP_MAC_update(ready, messages, row->len)
        && EVP_MAC_final(ready, out, NULL, MAX_OUT_LEN);
}

static bool hkdf(const work *row, uint8_t *out) {
    return EVP_KDF_derive(expanding, out, row->len, given + 1) == 1; /* the digest stays */
}

static bool pbkdf2(const work *row, uint8_t *out) {
    return PKCS5_PBKDF2_HMAC((const char *)key, KEY_LEN, salt, SALT_LEN, ITERATIONS, md,
                             (int)(row->count * out_len), out);
}

static bool each(const work *row, uint8_t *out) {
    for (size_t i = 0; i < row->count; i++)
        if (!digest_of_pieces(message_at(row, i), 1, row->len, out + i * out_len)) return false;
    return true;
}

const party openssl = {name, begin, {digest, pieces, update, tag, tag_under_key, hkdf, pbkdf2,
                                     NULL, each}};
#else
const party openssl = {0};
#endif
