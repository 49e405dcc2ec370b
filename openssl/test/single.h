/* SPDX-License-Identifier: ISC */
/* What the tests of one provider share. */
#ifndef YEZDOPIN_SINGLE_H
#define YEZDOPIN_SINGLE_H

#include <openssl/core_names.h>
#include <openssl/err.h>
#include <openssl/evp.h>
#include <openssl/kdf.h>
#include <openssl/params.h>
#include <openssl/provider.h>
#include <stdint.h>
#include <stdio.h>
#include <stdlib.h>
#include <string.h>

#define OURS "provider=yezdopin"
#define THEIRS "provider=default"

static int failures;

#define CHECK(it)                                                  \
    do {                                                           \
        if (!(it)) {                                               \
            printf("%s:%d: %s fails\n", __FILE__, __LINE__, #it);  \
            ERR_print_errors_fp(stdout);                           \
            failures++;                                            \
        }                                                          \
        ERR_clear_error();                                         \
    } while (0)

/* Loads OpenSSL's own provider and the one of the folder of modules: a context with both. */
static inline OSSL_LIB_CTX *with_both(const char *modules, OSSL_PROVIDER **loaded)
{
    OSSL_LIB_CTX *context = OSSL_LIB_CTX_new();
    OSSL_PROVIDER_set_default_search_path(context, modules);
    loaded[0] = OSSL_PROVIDER_load(context, "default");
    loaded[1] = OSSL_PROVIDER_load(context, "yezdopin");
    if (loaded[0] == NULL || loaded[1] == NULL) exit(2);
    return context;
}

static inline void without_both(OSSL_LIB_CTX *context, OSSL_PROVIDER **loaded)
{
    CHECK(OSSL_PROVIDER_unload(loaded[1]) && OSSL_PROVIDER_unload(loaded[0]));
    OSSL_LIB_CTX_free(context);
}

static inline EVP_MAC_CTX *new_hmac(OSSL_LIB_CTX *context, const char *properties)
{
    EVP_MAC *mac = EVP_MAC_fetch(context, "HMAC", properties);
    EVP_MAC_CTX *made = EVP_MAC_CTX_new(mac);
    EVP_MAC_free(mac);
    return made;
}

static inline EVP_KDF_CTX *new_kdf_of(OSSL_LIB_CTX *context, const char *name,
                                      const char *properties)
{
    EVP_KDF *kdf = EVP_KDF_fetch(context, name, properties);
    EVP_KDF_CTX *made = EVP_KDF_CTX_new(kdf);
    EVP_KDF_free(kdf);
    return made;
}

static inline EVP_KDF_CTX *new_kdf(OSSL_LIB_CTX *context, const char *name)
{
    return new_kdf_of(context, name, OURS);
}

static inline OSSL_PARAM word(const char *name, const char *value)
{
    return OSSL_PARAM_construct_utf8_string(name, (char *)value, 0);
}

static inline OSSL_PARAM octets(const char *name, const void *value, size_t len)
{
    return OSSL_PARAM_construct_octet_string(name, (void *)value, len);
}

#endif
