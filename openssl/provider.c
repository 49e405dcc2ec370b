/* SPDX-License-Identifier: ISC
 *
 * yezdopin.so, a provider for OpenSSL 3.0 and later: digests, HMAC, HKDF and PBKDF2 by the proved
 * calls of libyezdopin. The provider is plain C, which is tested and not proved. This file has
 * what OpenSSL asks of the provider as a whole. */
#include "provider.h"
#include <openssl/err.h>
#include <stdarg.h>

#define TEXT_OF(it) #it
#define DOTTED(a, b, c) TEXT_OF(a) "." TEXT_OF(b) "." TEXT_OF(c)
#define OURS "provider=yezdopin"
#define LAST_ALGORITHM {NULL, NULL, NULL, NULL}

static int report(const provider *reporter, uint32_t code, ...)
{
    va_list nothing;
    va_start(nothing, code);
    reporter->new_error(reporter->core);
    reporter->vset_error(reporter->core, code, NULL, nothing);
    va_end(nothing);
    return 0;
}

/* Refuses a call, and tells OpenSSL why. The error goes through OpenSSL's own table and not through
 * ERR_raise, since the application may have another copy of libcrypto than this module. */
int refuse(const provider *reporter, int reason)
{
    return report(reporter, (uint32_t)ERR_PACK(ERR_LIB_PROV, 0, reason));
}

/* The algorithms, under the names that OpenSSL's default provider has for them. */
static const OSSL_ALGORITHM *query(void *self, int operation, int *no_cache)
{
    static const OSSL_ALGORITHM macs[] = {{"HMAC", OURS, hmac_calls, NULL}, LAST_ALGORITHM};
    static const OSSL_ALGORITHM kdfs[] = {
        {"HKDF", OURS, hkdf_calls, NULL},
        {"PBKDF2:1.2.840.113549.1.5.12", OURS, pbkdf2_calls, NULL},
        LAST_ALGORITHM,
    };
    (void)self;
    *no_cache = 0;
    switch (operation) {
    case OSSL_OP_DIGEST: return digest_algorithms;
    case OSSL_OP_MAC: return macs;
    case OSSL_OP_KDF: return kdfs;
    default: return NULL;
    }
}

static const OSSL_PARAM *gettable(void *self)
{
    static const OSSL_PARAM names[] = {
        OSSL_PARAM_DEFN(OSSL_PROV_PARAM_NAME, OSSL_PARAM_UTF8_PTR, NULL, 0),
        OSSL_PARAM_DEFN(OSSL_PROV_PARAM_VERSION, OSSL_PARAM_UTF8_PTR, NULL, 0),
        OSSL_PARAM_DEFN(OSSL_PROV_PARAM_STATUS, OSSL_PARAM_INTEGER, NULL, 0),
        OSSL_PARAM_END,
    };
    (void)self;
    return names;
}

static int get_params(void *self, OSSL_PARAM params[])
{
    static const char version[] = DOTTED(YZ_VERSION_MAJOR, YZ_VERSION_MINOR, YZ_VERSION_PATCH);
    OSSL_PARAM *name_asked = OSSL_PARAM_locate(params, OSSL_PROV_PARAM_NAME);
    OSSL_PARAM *version_asked = OSSL_PARAM_locate(params, OSSL_PROV_PARAM_VERSION);
    (void)self;
    return (name_asked == NULL || OSSL_PARAM_set_utf8_ptr(name_asked, "Yezdopin"))
           && (version_asked == NULL || OSSL_PARAM_set_utf8_ptr(version_asked, version))
           && set_number(params, OSSL_PROV_PARAM_STATUS, 1);
}

static void tear_down(void *self)
{
    provider *ending = self;
    OSSL_LIB_CTX_free(ending->library_context);
    OPENSSL_free(ending);
}

/* Whether the module's section of the configuration lets work be handed on. Where it has the
 * setting, any word but these says no. */
static int may_hand_on(const OSSL_CORE_HANDLE *core, OSSL_FUNC_core_get_params_fn *get)
{
    char *word = NULL;
    OSSL_PARAM asked[] = {OSSL_PARAM_utf8_ptr("hand_on", &word, 0), OSSL_PARAM_END};
    return get(core, asked) && (word == NULL || is_among(word, "yes:on:true:1"));
}

static provider *make_provider(const OSSL_CORE_HANDLE *core, const OSSL_DISPATCH *in)
{
    provider *made = OPENSSL_zalloc(sizeof *made);
    if (made == NULL) return NULL;
    made->core = core;
    for (const OSSL_DISPATCH *it = in; it->function_id != 0; it++) {
        if (it->function_id == OSSL_FUNC_CORE_NEW_ERROR) {
            made->new_error = OSSL_FUNC_core_new_error(it);
        } else if (it->function_id == OSSL_FUNC_CORE_VSET_ERROR) {
            made->vset_error = OSSL_FUNC_core_vset_error(it);
        } else if (it->function_id == OSSL_FUNC_CORE_GET_PARAMS) {
            made->hands_on = may_hand_on(core, OSSL_FUNC_core_get_params(it));
        }
    }
    made->library_context = OSSL_LIB_CTX_new_child(core, in);
    if (made->library_context != NULL && made->new_error != NULL && made->vset_error != NULL) {
        return made;
    }
    tear_down(made);
    return NULL;
}

/* OpenSSL calls this when it loads the module. On a processor for which the library isn't compiled
 * it refuses, which leaves the application with the other providers. */
OSSL_provider_init_fn OSSL_provider_init;
int OSSL_provider_init(const OSSL_CORE_HANDLE *core, const OSSL_DISPATCH *in,
                       const OSSL_DISPATCH **out, void **self)
{
    static const OSSL_DISPATCH calls[] = {
        ENTRY(PROVIDER_TEARDOWN, provider_teardown, tear_down),
        ENTRY(PROVIDER_GETTABLE_PARAMS, provider_gettable_params, gettable),
        ENTRY(PROVIDER_GET_PARAMS, provider_get_params, get_params),
        ENTRY(PROVIDER_QUERY_OPERATION, provider_query_operation, query),
        LAST_ENTRY,
    };
    provider *made = yz_supported() ? make_provider(core, in) : NULL;
    if (made == NULL) return 0;
    *out = calls;
    *self = made;
    return 1;
}
