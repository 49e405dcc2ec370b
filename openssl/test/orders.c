/* SPDX-License-Identifier: ISC */
/* Calls in wrong orders, and missing and wrong parameters, with and without the default provider
 * beside; the setting `hand_on`; records of TLS; loading and unloading in both orders.
 * orders MODULES LOADS */
#include "../../c/rows.h"
#include "single.h"
#include <openssl/conf.h>
#include <openssl/core_dispatch.h>
#include <stdlib.h>

#define MOST_RECORD 600

/* Whether a call refuses, and gives the reason. */
#define REFUSES(it, reason)                                                                \
    do {                                                                                   \
        ERR_clear_error();                                                                 \
        int returned_ = (it);                                                              \
        const char *said_ = ERR_reason_error_string(ERR_peek_last_error());                \
        if (returned_ > 0 || said_ == NULL || strcmp(said_, reason) != 0) {                \
            printf("%s:%d: %s gives %d, %s\n", __FILE__, __LINE__, #it, returned_,         \
                   said_ == NULL ? "no reason" : said_);                                   \
            failures++;                                                                    \
        }                                                                                  \
        ERR_clear_error();                                                                 \
    } while (0)

static OSSL_PARAM none[1], sha256[2], md5[2], sha512_256[2];

static void make_params(void)
{
    none[0] = OSSL_PARAM_construct_end();
    sha256[0] = word("digest", "SHA256");
    md5[0] = word("digest", "MD5");
    sha512_256[0] = word("digest", "SHA512-256");
    sha256[1] = md5[1] = sha512_256[1] = OSSL_PARAM_construct_end();
}

static void tag_before_its_key(EVP_MAC_CTX *it)
{
    unsigned char out[64];
    size_t len;
    CHECK(EVP_MAC_update(it, out, 0) == 0);
    CHECK(EVP_MAC_final(it, out, &len, sizeof out) == 0);
    REFUSES(EVP_MAC_init(it, NULL, 0, NULL), "no key set");
    REFUSES(EVP_MAC_init(it, (const unsigned char *)"key", 3, NULL), "missing message digest");
    REFUSES(EVP_MAC_init(it, NULL, 0, NULL), "no key set");
    REFUSES(EVP_MAC_init(it, NULL, 0, sha256), "no key set");
}

static void tag_and_its_ends(EVP_MAC_CTX *it)
{
    unsigned char first[64], again[64];
    OSSL_PARAM as_word[] = {OSSL_PARAM_construct_utf8_string("size", (char *)again, sizeof again),
                            OSSL_PARAM_construct_end()};
    EVP_MAC_CTX *copy;
    size_t len;
    CHECK(EVP_MAC_init(it, (const unsigned char *)"key", 3, sha256) == 1);
    CHECK(EVP_MAC_CTX_get_mac_size(it) == 32 && EVP_MAC_CTX_get_block_size(it) == 64);
    CHECK(EVP_MAC_CTX_get_params(it, as_word) == 0);
    CHECK(EVP_MAC_update(it, NULL, 0) == 1);
    REFUSES(EVP_MAC_final(it, first, &len, 31), "buffer too small");
    copy = EVP_MAC_CTX_dup(it);
    CHECK(EVP_MAC_final(it, first, &len, 32) == 1 && len == 32);
    /* No message is begun. */
    CHECK(EVP_MAC_final(it, again, &len, 32) == 0);
    CHECK(EVP_MAC_update(it, first, 1) == 0);
    /* The same key again, and the copy. */
    CHECK(EVP_MAC_init(it, NULL, 0, none) == 1 && EVP_MAC_final(it, again, &len, 64) == 1);
    CHECK(memcmp(first, again, 32) == 0);
    CHECK(EVP_MAC_final(copy, again, &len, 64) == 1 && memcmp(first, again, 32) == 0);
    EVP_MAC_CTX_free(copy);
    CHECK(EVP_MAC_init(it, first, 0, NULL) == 1); /* an empty key */
}

/* Another digest under the same key, which begins anew; a wrong parameter, and a right one. */
static void tag_under_other_digests(EVP_MAC_CTX *it, int has_default)
{
    const OSSL_PARAM unknown[] = {word("digest", "NOSUCH"), OSSL_PARAM_construct_end()};
    const OSSL_PARAM wrong_type[] = {octets("digest", "SHA256", 6), OSSL_PARAM_construct_end()};
    unsigned char out[64];
    size_t len;
    CHECK(EVP_MAC_init(it, (const unsigned char *)"key", 3, md5) == has_default);
    /* Where that was refused, the digest and the key are those before. */
    CHECK(EVP_MAC_init(it, NULL, 0, NULL) == 1);
    CHECK(EVP_MAC_update(it, out, 0) == 1);
    CHECK(EVP_MAC_final(it, out, &len, sizeof out) == 1 && len == (has_default ? 16 : 32));
    CHECK(EVP_MAC_init(it, (const unsigned char *)"key", 3, sha512_256) == has_default);
    CHECK(EVP_MAC_init(it, (const unsigned char *)"key", 3, unknown) == 0);
    REFUSES(EVP_MAC_CTX_set_params(it, wrong_type), "failed to get parameter");
    CHECK(EVP_MAC_init(it, (const unsigned char *)"key", 3, sha256) == 1);
    CHECK(EVP_MAC_final(it, out, &len, sizeof out) == 1 && len == 32);
    if (!has_default) return;
    CHECK(EVP_MAC_init(it, NULL, 0, md5) == 1 && EVP_MAC_CTX_get_mac_size(it) == 16);
    CHECK(EVP_MAC_final(it, out, &len, sizeof out) == 1 && len == 16);
    CHECK(EVP_MAC_final(it, out, &len, sizeof out) == 0 && EVP_MAC_update(it, out, 1) == 0);
    CHECK(EVP_MAC_init(it, NULL, 0, NULL) == 1 && EVP_MAC_final(it, out, &len, 16) == 1);
    CHECK(EVP_MAC_init(it, NULL, 0, sha256) == 1 && EVP_MAC_CTX_get_mac_size(it) == 32);
}

/* What is handed on is refused where no other provider serves or may. A record's tag would be right
 * by the library too, and its time would tell the length of the padding. */
static void handed_on(OSSL_LIB_CTX *context)
{
    size_t total = 100;
    uint64_t many = (uint64_t)UINT32_MAX + 2;
    unsigned char out[32];
    const OSSL_PARAM record[] = {OSSL_PARAM_construct_size_t("tls-data-size", &total),
                                 OSSL_PARAM_construct_end()};
    const OSSL_PARAM with_properties[] = {word("digest", "SHA256"), word("properties", OURS),
                                          OSSL_PARAM_construct_end()};
    const OSSL_PARAM iterations[] = {OSSL_PARAM_construct_uint64("iter", &many),
                                     octets("pass", "p", 1), octets("salt", "s", 1),
                                     OSSL_PARAM_construct_end()};
    EVP_MAC_CTX *tag = new_hmac(context, OURS);
    EVP_KDF_CTX *derivation = new_kdf(context, "PBKDF2");
    CHECK(EVP_MAC_init(tag, (const unsigned char *)"key", 3, sha256) == 1);
    CHECK(EVP_MAC_CTX_set_params(tag, record) == 0);
    EVP_MAC_CTX_free(tag);
    tag = new_hmac(context, OURS);
    CHECK(EVP_MAC_init(tag, (const unsigned char *)"key", 3, with_properties) == 0);
    EVP_MAC_CTX_free(tag);
    CHECK(EVP_KDF_derive(derivation, out, sizeof out, iterations) == 0);
    CHECK(EVP_KDF_CTX_set_params(derivation, sha512_256) == 0);
    EVP_KDF_CTX_free(derivation);
}

static void derivations(OSSL_LIB_CTX *context)
{
    const OSSL_PARAM wrong_mode[] = {word("mode", "EXTRACT"), OSSL_PARAM_construct_end()};
    const OSSL_PARAM null_key[] = {octets("key", NULL, 0), OSSL_PARAM_construct_end()};
    const OSSL_PARAM null_salt[] = {octets("salt", NULL, 5), OSSL_PARAM_construct_end()};
    const OSSL_PARAM endless[] = {octets("info", "bytes", 5), octets("info", "bytes", SIZE_MAX - 3),
                                  OSSL_PARAM_construct_end()};
    unsigned char out[33];
    uint64_t zero = 0;
    const OSSL_PARAM no_iterations[] = {OSSL_PARAM_construct_uint64("iter", &zero),
                                        OSSL_PARAM_construct_end()};
    const OSSL_PARAM pass[] = {octets("pass", "", 0), OSSL_PARAM_construct_end()};
    const OSSL_PARAM key[] = {octets("key", "key", 3), word("mode", "extract_only"),
                              OSSL_PARAM_construct_end()};
    EVP_KDF_CTX *it = new_kdf(context, "HKDF");
    REFUSES(EVP_KDF_derive(it, out, 32, none), "missing message digest");
    REFUSES(EVP_KDF_derive(it, out, 32, sha256), "missing key");
    REFUSES(EVP_KDF_CTX_set_params(it, wrong_mode), "invalid mode");
    REFUSES(EVP_KDF_CTX_set_params(it, null_key), "failed to get parameter");
    REFUSES(EVP_KDF_CTX_set_params(it, null_salt), "failed to get parameter");
    REFUSES(EVP_KDF_CTX_set_params(it, endless), "failed to get parameter");
    CHECK(EVP_KDF_CTX_set_params(it, sha256) == 1 && EVP_KDF_CTX_get_kdf_size(it) == SIZE_MAX);
    REFUSES(EVP_KDF_derive(it, out, 0, key), "invalid key length");
    CHECK(EVP_KDF_CTX_set_params(it, key) == 1 && EVP_KDF_CTX_get_kdf_size(it) == 32);
    REFUSES(EVP_KDF_derive(it, out, 33, none), "wrong output buffer size");
    CHECK(EVP_KDF_derive(it, out, 32, none) == 1);
    EVP_KDF_CTX_reset(it);
    REFUSES(EVP_KDF_derive(it, out, 32, none), "missing message digest");
    EVP_KDF_CTX_free(it);

    it = new_kdf(context, "PBKDF2");
    REFUSES(EVP_KDF_derive(it, out, 32, none), "missing pass");
    REFUSES(EVP_KDF_derive(it, out, 32, pass), "missing salt");
    REFUSES(EVP_KDF_CTX_set_params(it, no_iterations), "invalid iteration count");
    REFUSES(EVP_KDF_CTX_set_params(it, null_salt), "failed to get parameter");
    CHECK(EVP_KDF_CTX_get_kdf_size(it) == SIZE_MAX);
    EVP_KDF_CTX_free(it);
    CHECK(new_kdf(context, "SCRYPT") == NULL);
}

/* A copy keeps the lower bounds that `pkcs5` at 0 asks for, and derives the same key. */
static void copied_bounds(OSSL_LIB_CTX *context)
{
    int no = 0;
    uint64_t thousand = 1000;
    unsigned char out[14], again[14];
    const OSSL_PARAM bounded[] = {OSSL_PARAM_construct_int("pkcs5", &no),
                                  OSSL_PARAM_construct_uint64("iter", &thousand),
                                  octets("pass", "p", 1), octets("salt", "sixteen bytes ..", 16),
                                  OSSL_PARAM_construct_end()};
    EVP_KDF_CTX *it = new_kdf(context, "PBKDF2"), *copy;
    CHECK(EVP_KDF_CTX_set_params(it, bounded) == 1);
    copy = EVP_KDF_CTX_dup(it);
    REFUSES(EVP_KDF_derive(copy, out, 13, none), "key size too small");
    CHECK(EVP_KDF_derive(copy, out, 14, none) == 1 && EVP_KDF_derive(it, again, 14, none) == 1);
    CHECK(memcmp(out, again, 14) == 0);
    EVP_KDF_CTX_free(copy);
    EVP_KDF_CTX_free(it);
}

/* Whether one of a list of parameters has the name and the type of another. */
static int is_listed(const OSSL_PARAM *it, const OSSL_PARAM *list)
{
    while (list->key != NULL
           && (strcmp(list->key, it->key) != 0 || list->data_type != it->data_type)) {
        list++;
    }
    return list->key != NULL;
}

/* Our list has what theirs has, but for flags of HMAC that change no tag. */
static void lists_as_much(const OSSL_PARAM *ours, const OSSL_PARAM *theirs)
{
    CHECK(ours != NULL && theirs != NULL);
    for (const OSSL_PARAM *it = theirs; it->key != NULL; it++) {
        CHECK(is_listed(it, ours) || strncmp(it->key, "digest-", strlen("digest-")) == 0);
    }
}

/* Programs ask which parameters there are: OpenSSL's commands take no other ones. */
static void listed_parameters(OSSL_LIB_CTX *context)
{
    static const char *const kdfs[] = {"HKDF", "PBKDF2"};
    EVP_MAC *ours = EVP_MAC_fetch(context, "HMAC", OURS);
    EVP_MAC *theirs = EVP_MAC_fetch(context, "HMAC", THEIRS);
    lists_as_much(EVP_MAC_settable_ctx_params(ours), EVP_MAC_settable_ctx_params(theirs));
    lists_as_much(EVP_MAC_gettable_ctx_params(ours), EVP_MAC_gettable_ctx_params(theirs));
    EVP_MAC_free(ours);
    EVP_MAC_free(theirs);
    for (int i = 0; i < 2; i++) {
        EVP_KDF *our_kdf = EVP_KDF_fetch(context, kdfs[i], OURS);
        EVP_KDF *their_kdf = EVP_KDF_fetch(context, kdfs[i], THEIRS);
        lists_as_much(EVP_KDF_settable_ctx_params(our_kdf), EVP_KDF_settable_ctx_params(their_kdf));
        lists_as_much(EVP_KDF_gettable_ctx_params(our_kdf), EVP_KDF_gettable_ctx_params(their_kdf));
        EVP_KDF_free(our_kdf);
        EVP_KDF_free(their_kdf);
    }
}

/* How many algorithms of a kind this provider has. The default one has each by the same names. */
static int num_named(const OSSL_PROVIDER *ours, const OSSL_PROVIDER *theirs, int operation)
{
    int no_cache, count = 0;
    const OSSL_ALGORITHM *it = OSSL_PROVIDER_query_operation(ours, operation, &no_cache);
    for (; it->algorithm_names != NULL; it++, count++) {
        const OSSL_ALGORITHM *other = OSSL_PROVIDER_query_operation(theirs, operation, &no_cache);
        while (other->algorithm_names != NULL
               && strcmp(other->algorithm_names, it->algorithm_names) != 0) {
            other++;
        }
        CHECK(other->algorithm_names != NULL);
    }
    return count;
}

/* The tag of a record of `len` bytes with padding behind it up to `total` bytes. */
static size_t record_tag(OSSL_LIB_CTX *context, const char *properties, const char *digest,
                         const unsigned char *bytes, size_t len, size_t total, unsigned char *out)
{
    const OSSL_PARAM by_digest[] = {word("digest", digest), OSSL_PARAM_construct_end()};
    const OSSL_PARAM record[] = {OSSL_PARAM_construct_size_t("tls-data-size", &total),
                                 OSSL_PARAM_construct_end()};
    EVP_MAC_CTX *it = new_hmac(context, properties), *copy;
    size_t out_len = 0;
    CHECK(EVP_MAC_init(it, bytes, 20, by_digest) == 1);
    copy = EVP_MAC_CTX_dup(it); /* as libssl does for each record */
    EVP_MAC_CTX_free(it);
    CHECK(EVP_MAC_CTX_set_params(copy, record) == 1);
    /* OpenSSL's HMAC refuses a header of another length where it knows of the record: its tag would
     * be right without, in a time that tells the length of the padding. */
    CHECK(EVP_MAC_update(copy, bytes, 12) == 0);
    CHECK(EVP_MAC_init(copy, bytes, 20, NULL) == 1 && EVP_MAC_update(copy, bytes, 12) == 0);
    CHECK(EVP_MAC_update(copy, bytes, 13) == 1 && EVP_MAC_update(copy, bytes, len) == 1);
    CHECK(EVP_MAC_final(copy, out, &out_len, 64) == 1);
    EVP_MAC_CTX_free(copy);
    return out_len;
}

#define NAME_OF(NAME, title, name, names) name,
static void records(OSSL_LIB_CTX *context)
{
    static const char *const digests[] = {EACH_KEYED(NAME_OF)};
    static unsigned char bytes[MOST_RECORD];
    unsigned char out[2][64];
    memset(bytes, 0x17, sizeof bytes);
    for (size_t i = 0; i < sizeof digests / sizeof *digests; i++) {
        for (size_t len = 0; len < MOST_RECORD; len += 7) {
            size_t total = len + (size_t)EVP_MD_get_size(EVP_get_digestbyname(digests[i])) + 17;
            size_t ours = record_tag(context, OURS, digests[i], bytes, len, total, out[0]);
            size_t theirs = record_tag(context, THEIRS, digests[i], bytes, len, total, out[1]);
            CHECK(ours == theirs && ours != 0 && memcmp(out[0], out[1], ours) == 0);
        }
    }
}

/* A key by EVP_PKEY's calls, with the info in two pieces, over the HKDF of some properties. */
static void derive_by_pieces(OSSL_LIB_CTX *context, const char *properties, unsigned char *out)
{
    EVP_MD *digest = EVP_MD_fetch(context, "SHA256", THEIRS);
    EVP_PKEY_CTX *it;
    size_t len = 32;
    CHECK(EVP_set_default_properties(context, properties) == 1);
    it = EVP_PKEY_CTX_new_from_name(context, "HKDF", NULL);
    CHECK(EVP_PKEY_derive_init(it) == 1 && EVP_PKEY_CTX_set_hkdf_md(it, digest) == 1);
    CHECK(EVP_PKEY_CTX_set1_hkdf_key(it, (const unsigned char *)"key", 3) == 1);
    CHECK(EVP_PKEY_CTX_add1_hkdf_info(it, (const unsigned char *)"in", 2) == 1);
    CHECK(EVP_PKEY_CTX_add1_hkdf_info(it, (const unsigned char *)"fo", 2) == 1);
    CHECK(EVP_PKEY_derive(it, out, &len) == 1 && len == 32);
    CHECK(EVP_set_default_properties(context, "") == 1);
    EVP_PKEY_CTX_free(it);
    EVP_MD_free(digest);
}

static void info_in_pieces(OSSL_LIB_CTX *context)
{
    unsigned char ours[32], theirs[32];
    derive_by_pieces(context, "?" OURS, ours);
    derive_by_pieces(context, "?" THEIRS, theirs);
    CHECK(memcmp(ours, theirs, 32) == 0);
}

static void run(const char *modules, int has_default, int is_default_first, int has_records)
{
    OSSL_LIB_CTX *context = OSSL_LIB_CTX_new();
    OSSL_PROVIDER *ours, *theirs = NULL;
    EVP_MAC_CTX *it;
    OSSL_PROVIDER_set_default_search_path(context, modules);
    ours = OSSL_PROVIDER_load(context, "yezdopin");
    CHECK(ours != NULL);
    if (has_default) theirs = OSSL_PROVIDER_load(context, "default");
    it = new_hmac(context, OURS);
    tag_before_its_key(it);
    tag_and_its_ends(it);
    tag_under_other_digests(it, has_default);
    EVP_MAC_CTX_free(it);
    derivations(context);
    copied_bounds(context);
    if (!has_default) handed_on(context);
    if (has_default) {
        info_in_pieces(context);
        listed_parameters(context);
        CHECK(num_named(ours, theirs, OSSL_OP_DIGEST) == 5);
        CHECK(num_named(ours, theirs, OSSL_OP_MAC) == 1);
        CHECK(num_named(ours, theirs, OSSL_OP_KDF) == 2);
    }
    if (has_records) records(context);
    if (is_default_first) OSSL_PROVIDER_unload(theirs);
    OSSL_PROVIDER_unload(ours);
    if (!is_default_first && theirs != NULL) OSSL_PROVIDER_unload(theirs);
    OSSL_LIB_CTX_free(context);
}

/* A context into which a configuration loads both providers, with a setting of this one. */
static OSSL_LIB_CTX *configured(const char *modules, const char *setting)
{
    static const char sections[] = "openssl_conf = init\n[init]\nproviders = all\n[all]\n"
                                   "default = theirs\nyezdopin = ours\n[theirs]\nactivate = 1\n"
                                   "[ours]\nactivate = 1\nhand_on = ";
    OSSL_LIB_CTX *context = OSSL_LIB_CTX_new();
    CONF *configuration = NCONF_new_ex(context, NULL);
    BIO *text = BIO_new(BIO_s_mem());
    long line;
    OSSL_PROVIDER_set_default_search_path(context, modules);
    CHECK(BIO_printf(text, "%s%s\n", sections, setting) > 0);
    CHECK(NCONF_load_bio(configuration, text, &line) == 1);
    CHECK(CONF_modules_load(configuration, NULL, 0) == 1);
    BIO_free(text);
    NCONF_free(configuration);
    return context;
}

/* The setting `hand_on` decides whether another provider, which is there, does the work. */
static void by_setting(const char *modules, const char *setting, int is_yes)
{
    OSSL_LIB_CTX *context = configured(modules, setting);
    EVP_MAC_CTX *tag = new_hmac(context, OURS);
    EVP_KDF_CTX *derivation = new_kdf(context, "HKDF");
    int is_handed_on = EVP_KDF_CTX_set_params(derivation, md5);
    CHECK(OSSL_PROVIDER_available(context, "default") == 1);
    CHECK(is_handed_on == is_yes);
    tag_and_its_ends(tag);
    tag_under_other_digests(tag, is_yes);
    if (!is_handed_on) {
        REFUSES(EVP_KDF_CTX_set_params(derivation, sha512_256), "invalid digest");
        handed_on(context);
    }
    EVP_KDF_CTX_free(derivation);
    EVP_MAC_CTX_free(tag);
    OSSL_LIB_CTX_free(context);
}

static void by_settings(const char *modules)
{
    static const char *const refusing[] = {"no", "off", "0", "never", ""};
    static const char *const handing_on[] = {"yes", "on", "True", "1"};
    for (int i = 0; i < 5; i++) by_setting(modules, refusing[i], 0);
    for (int i = 0; i < 4; i++) by_setting(modules, handing_on[i], 1);
}

int main(int argc, char **argv)
{
    long loads = argc == 3 ? strtol(argv[2], NULL, 10) : 0;
    make_params();
    OPENSSL_load_builtin_modules();
    by_settings(argv[1]);
    for (long i = 0; i < loads && failures == 0; i++) {
        run(argv[1], i % 2 == 1, i % 4 == 1, i == 1);
    }
    printf("%ld loads: %d failures\n", loads, failures);
    return failures != 0 || loads == 0;
}
