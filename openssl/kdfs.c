/* SPDX-License-Identifier: ISC
 *
 * HKDF and PBKDF2. */
#include "provider.h"

#define HKDF_MODES 3

/* The lower bounds of SP 800-132, which a caller of PBKDF2 asks for by `pkcs5` at 0. */
#define LEAST_SALT_LEN 16
#define LEAST_ITERATIONS 1000
#define LEAST_OUT_LEN 14

/* What a caller sets. */
typedef struct {
    chosen_digest digest;
    kept secret; /* HKDF's key or PBKDF2's password */
    kept salt;
    kept info;           /* HKDF */
    int mode;            /* HKDF */
    uint64_t iterations; /* PBKDF2 */
    int is_bounded;      /* PBKDF2: whether the lower bounds hold */
} settings;

typedef struct {
    const provider *reporter;
    int is_pbkdf2;
    settings set;
} derivation;

static const char *name_of(const derivation *it)
{
    return it->is_pbkdf2 ? "PBKDF2" : "HKDF";
}

static void forget_settings(settings *it)
{
    forget_digest(&it->digest);
    forget(&it->secret);
    forget(&it->salt);
    forget(&it->info);
}

/* Wipes what was kept, and sets the defaults. Those of PBKDF2 are OpenSSL's, which are old. */
static void reset(void *self)
{
    derivation *it = self;
    forget_settings(&it->set);
    it->set = (settings){.iterations = PKCS5_DEFAULT_ITER};
    if (it->is_pbkdf2) {
        static char sha1[] = "SHA1";
        const OSSL_PARAM by_default[] = {
            OSSL_PARAM_utf8_string(OSSL_KDF_PARAM_DIGEST, sha1, sizeof sha1 - 1), OSSL_PARAM_END};
        /* Without memory for the name there is no digest, and the derivation is refused. */
        (void)read_digest(it->reporter, &it->set.digest, by_default);
    }
}

static void *new_derivation(void *self, int is_pbkdf2)
{
    derivation *made = OPENSSL_zalloc(sizeof *made);
    if (made == NULL) return NULL;
    made->reporter = self;
    made->is_pbkdf2 = is_pbkdf2;
    reset(made);
    return made;
}

static void *new_hkdf(void *self)
{
    return new_derivation(self, 0);
}

static void *new_pbkdf2(void *self)
{
    return new_derivation(self, 1);
}

static void free_derivation(void *self)
{
    derivation *it = self;
    if (it == NULL) return;
    forget_settings(&it->set);
    OPENSSL_free(it);
}

static void *copy_derivation(void *self)
{
    const derivation *from = self;
    derivation *made = OPENSSL_memdup(from, sizeof *from);
    int has_digest, has_secret, has_salt, has_info;
    if (made == NULL) return NULL;
    has_digest = copy_digest(&made->set.digest, &from->set.digest);
    has_secret = copy_kept(&made->set.secret, &from->set.secret);
    has_salt = copy_kept(&made->set.salt, &from->set.salt);
    has_info = copy_kept(&made->set.info, &from->set.info);
    if (has_digest && has_secret && has_salt && has_info) return made;
    free_derivation(made);
    return NULL;
}

/* Takes over the settings that a call has read, if it is done. A call that is refused changes
 * nothing. */
static int end_call(derivation *it, settings *next, int is_done)
{
    drop_one_digest(&it->set.digest, &next->digest, is_done);
    drop_one(&it->set.secret, &next->secret, is_done);
    drop_one(&it->set.salt, &next->salt, is_done);
    drop_one(&it->set.info, &next->info, is_done);
    if (is_done) it->set = *next;
    return is_done;
}

/* Has another provider derive. */
static int derive_elsewhere(const derivation *it, settings *set, unsigned char *out, size_t out_len)
{
    OSSL_PARAM params[MOST_DIGEST_PARAMS + 6], *next = put_digest(&set->digest, params);
    int is_unbounded = !set->is_bounded;
    next = put_bytes(&set->salt, OSSL_KDF_PARAM_SALT, next);
    if (it->is_pbkdf2) {
        next = put_bytes(&set->secret, OSSL_KDF_PARAM_PASSWORD, next);
        *next++ = OSSL_PARAM_construct_int(OSSL_KDF_PARAM_PKCS5, &is_unbounded);
        *next++ = OSSL_PARAM_construct_uint64(OSSL_KDF_PARAM_ITER, &set->iterations);
    } else {
        next = put_bytes(&set->secret, OSSL_KDF_PARAM_KEY, next);
        next = put_bytes(&set->info, OSSL_KDF_PARAM_INFO, next);
        *next++ = OSSL_PARAM_construct_int(OSSL_KDF_PARAM_MODE, &set->mode);
    }
    *next = OSSL_PARAM_construct_end();
    return derive_by_other(it->reporter, name_of(it), params, out, out_len);
}

/* Reads the digest, and refuses one that the provider to which it is handed on refuses. */
static int read_kdf_digest(const derivation *it, chosen_digest *digest, const OSSL_PARAM params[])
{
    if (!read_digest(it->reporter, digest, params)) return 0;
    return digest->algorithm != 0 || digest->name.bytes == it->set.digest.name.bytes
           || other_takes_digest(it->reporter, name_of(it), digest);
}

/* Reads HKDF's mode, which is a number or its word. */
static int read_mode(const provider *reporter, int *mode, const OSSL_PARAM params[])
{
    static const char *const words[HKDF_MODES] = {
        [EVP_KDF_HKDF_MODE_EXTRACT_AND_EXPAND] = "EXTRACT_AND_EXPAND",
        [EVP_KDF_HKDF_MODE_EXTRACT_ONLY] = "EXTRACT_ONLY",
        [EVP_KDF_HKDF_MODE_EXPAND_ONLY] = "EXPAND_ONLY",
    };
    const OSSL_PARAM *given = OSSL_PARAM_locate_const(params, OSSL_KDF_PARAM_MODE);
    int read = 0;
    if (given == NULL) return 1;
    if (given->data_type == OSSL_PARAM_UTF8_STRING && given->data != NULL) {
        size_t len = word_len(given);
        while (read < HKDF_MODES && !same_word(given->data, len, words[read])) read++;
    } else if (!OSSL_PARAM_get_int(given, &read)) {
        return refuse(reporter, PROV_R_INVALID_MODE);
    }
    if (read < 0 || read >= HKDF_MODES) return refuse(reporter, PROV_R_INVALID_MODE);
    *mode = read;
    return 1;
}

/* NULL of length 0 is no key: it was hardly meant. */
static int read_key(const provider *reporter, kept *key, const OSSL_PARAM params[])
{
    const OSSL_PARAM *given = OSSL_PARAM_locate_const(params, OSSL_KDF_PARAM_KEY);
    if (given != NULL && given->data == NULL) {
        return refuse(reporter, PROV_R_FAILED_TO_GET_PARAMETER);
    }
    return read_bytes(reporter, key, params, OSSL_KDF_PARAM_KEY);
}

static int read_hkdf(const derivation *it, settings *next, const OSSL_PARAM params[])
{
    const provider *reporter = it->reporter;
    return read_kdf_digest(it, &next->digest, params) && read_mode(reporter, &next->mode, params)
           && read_key(reporter, &next->secret, params)
           && read_bytes(reporter, &next->salt, params, OSSL_KDF_PARAM_SALT)
           && read_all(reporter, &next->info, params, OSSL_KDF_PARAM_INFO);
}

static int set_hkdf(void *self, const OSSL_PARAM params[])
{
    derivation *it = self;
    settings next = it->set;
    return end_call(it, &next, read_hkdf(it, &next, params));
}

static yz_status hkdf(const settings *set, unsigned char *out, size_t out_len)
{
    const kept *secret = &set->secret, *salt = &set->salt, *info = &set->info;
    switch (set->mode) {
    case EVP_KDF_HKDF_MODE_EXTRACT_ONLY:
        return yz_hkdf_extract(set->digest.algorithm, salt->bytes, salt->len, secret->bytes,
                               secret->len, out, out_len);
    case EVP_KDF_HKDF_MODE_EXPAND_ONLY:
        return yz_hkdf_expand(set->digest.algorithm, secret->bytes, secret->len, info->bytes,
                              info->len, out, out_len);
    default:
        return yz_hkdf(set->digest.algorithm, salt->bytes, salt->len, secret->bytes, secret->len,
                       info->bytes, info->len, out, out_len);
    }
}

static int run_hkdf(const derivation *it, settings *set, unsigned char *out, size_t out_len)
{
    if (set->digest.name.bytes == NULL) return refuse(it->reporter, PROV_R_MISSING_MESSAGE_DIGEST);
    if (set->secret.bytes == NULL) return refuse(it->reporter, PROV_R_MISSING_KEY);
    if (out_len == 0) return refuse(it->reporter, PROV_R_INVALID_KEY_LENGTH);
    if (!library_derives(&set->digest, 0)) return derive_elsewhere(it, set, out, out_len);
    return hkdf(set, out, out_len) == YZ_OK
           || refuse(it->reporter, PROV_R_WRONG_OUTPUT_BUFFER_SIZE);
}

static int derive_hkdf(void *self, unsigned char *out, size_t out_len, const OSSL_PARAM params[])
{
    derivation *it = self;
    settings next = it->set;
    return end_call(it, &next, read_hkdf(it, &next, params) && run_hkdf(it, &next, out, out_len));
}

static int salt_is_within(const provider *reporter, const settings *set)
{
    return !set->is_bounded || set->salt.len >= LEAST_SALT_LEN
           || refuse(reporter, PROV_R_INVALID_SALT_LENGTH);
}

static int iterations_are_within(const provider *reporter, const settings *set)
{
    return set->iterations >= (set->is_bounded ? LEAST_ITERATIONS : 1)
           || refuse(reporter, PROV_R_INVALID_ITERATION_COUNT);
}

/* Reads PBKDF2's numbers. */
static int read_numbers(const provider *reporter, settings *next, const OSSL_PARAM params[])
{
    const OSSL_PARAM *pkcs5 = OSSL_PARAM_locate_const(params, OSSL_KDF_PARAM_PKCS5);
    const OSSL_PARAM *iterations = OSSL_PARAM_locate_const(params, OSSL_KDF_PARAM_ITER);
    int is_unbounded = !next->is_bounded;
    if ((pkcs5 != NULL && !OSSL_PARAM_get_int(pkcs5, &is_unbounded))
        || (iterations != NULL && !OSSL_PARAM_get_uint64(iterations, &next->iterations))) {
        return refuse(reporter, PROV_R_FAILED_TO_GET_PARAMETER);
    }
    next->is_bounded = !is_unbounded;
    return iterations == NULL || iterations_are_within(reporter, next);
}

static int read_pbkdf2(const derivation *it, settings *next, const OSSL_PARAM params[])
{
    const provider *reporter = it->reporter;
    return read_kdf_digest(it, &next->digest, params)
           && read_bytes(reporter, &next->secret, params, OSSL_KDF_PARAM_PASSWORD)
           && read_bytes(reporter, &next->salt, params, OSSL_KDF_PARAM_SALT)
           && read_numbers(reporter, next, params)
           && (OSSL_PARAM_locate_const(params, OSSL_KDF_PARAM_SALT) == NULL
               || salt_is_within(reporter, next));
}

static int set_pbkdf2(void *self, const OSSL_PARAM params[])
{
    derivation *it = self;
    settings next = it->set;
    return end_call(it, &next, read_pbkdf2(it, &next, params));
}

static int run_pbkdf2(const derivation *it, settings *set, unsigned char *out, size_t out_len)
{
    const provider *reporter = it->reporter;
    if (set->digest.name.bytes == NULL) return refuse(reporter, PROV_R_MISSING_MESSAGE_DIGEST);
    if (set->secret.bytes == NULL) return refuse(reporter, PROV_R_MISSING_PASS);
    if (set->salt.bytes == NULL) return refuse(reporter, PROV_R_MISSING_SALT);
    if (set->is_bounded && out_len < LEAST_OUT_LEN) {
        return refuse(reporter, PROV_R_KEY_SIZE_TOO_SMALL);
    }
    if (!salt_is_within(reporter, set) || !iterations_are_within(reporter, set)) return 0;
    if (!library_derives(&set->digest, set->iterations)) {
        return derive_elsewhere(it, set, out, out_len);
    }
    return yz_pbkdf2_derive(set->digest.algorithm, (uint32_t)set->iterations, set->salt.bytes,
                            set->salt.len, set->secret.bytes, set->secret.len, out, out_len)
               == YZ_OK
           || refuse(reporter, PROV_R_INVALID_KEY_LENGTH);
}

static int derive_pbkdf2(void *self, unsigned char *out, size_t out_len, const OSSL_PARAM params[])
{
    derivation *it = self;
    settings next = it->set;
    return end_call(it, &next, read_pbkdf2(it, &next, params)
                                   && run_pbkdf2(it, &next, out, out_len));
}

/* Only HKDF's extraction has an output of one length. */
static int give_size(const derivation *it, OSSL_PARAM *asked)
{
    const settings *set = &it->set;
    if (set->mode != EVP_KDF_HKDF_MODE_EXTRACT_ONLY) return OSSL_PARAM_set_size_t(asked, SIZE_MAX);
    if (set->digest.name.bytes == NULL) return refuse(it->reporter, PROV_R_MISSING_MESSAGE_DIGEST);
    return OSSL_PARAM_set_size_t(asked, set->digest.output_len);
}

static int give_bytes(const kept *what, OSSL_PARAM *asked)
{
    return OSSL_PARAM_set_octet_string(asked, what->bytes == NULL ? "" : (void *)what->bytes,
                                       what->len);
}

/* EVP_PKEY_CTX_add1_hkdf_info asks for the info, and sets it again with more behind it. OpenSSL
 * takes -2 for parameters that aren't known. */
static int get_params(void *self, OSSL_PARAM params[])
{
    const derivation *it = self;
    OSSL_PARAM *size = OSSL_PARAM_locate(params, OSSL_KDF_PARAM_SIZE);
    OSSL_PARAM *info = it->is_pbkdf2 ? NULL : OSSL_PARAM_locate(params, OSSL_KDF_PARAM_INFO);
    if (size == NULL && info == NULL) return -2;
    return (size == NULL || give_size(it, size))
           && (info == NULL || give_bytes(&it->set.info, info));
}

static const OSSL_PARAM *hkdf_gettable(void *self, void *of_provider)
{
    static const OSSL_PARAM names[] = {OSSL_PARAM_size_t(OSSL_KDF_PARAM_SIZE, NULL),
                                       OSSL_PARAM_octet_string(OSSL_KDF_PARAM_INFO, NULL, 0),
                                       OSSL_PARAM_END};
    (void)self, (void)of_provider;
    return names;
}

static const OSSL_PARAM *pbkdf2_gettable(void *self, void *of_provider)
{
    static const OSSL_PARAM names[] = {OSSL_PARAM_size_t(OSSL_KDF_PARAM_SIZE, NULL),
                                       OSSL_PARAM_END};
    (void)self, (void)of_provider;
    return names;
}

#define KDF(name, ...) \
    static const OSSL_PARAM *name##_settable(void *self, void *of_provider) \
    { \
        static const OSSL_PARAM names[] = { \
            OSSL_PARAM_utf8_string(OSSL_KDF_PARAM_DIGEST, NULL, 0), \
            OSSL_PARAM_utf8_string(OSSL_KDF_PARAM_PROPERTIES, NULL, 0), \
            OSSL_PARAM_octet_string(OSSL_KDF_PARAM_SALT, NULL, 0), __VA_ARGS__, OSSL_PARAM_END}; \
        (void)self, (void)of_provider; \
        return names; \
    } \
    const OSSL_DISPATCH name##_calls[] = { \
        ENTRY(KDF_NEWCTX, kdf_newctx, new_##name), \
        ENTRY(KDF_FREECTX, kdf_freectx, free_derivation), \
        ENTRY(KDF_DUPCTX, kdf_dupctx, copy_derivation), \
        ENTRY(KDF_RESET, kdf_reset, reset), \
        ENTRY(KDF_DERIVE, kdf_derive, derive_##name), \
        ENTRY(KDF_GETTABLE_CTX_PARAMS, kdf_gettable_ctx_params, name##_gettable), \
        ENTRY(KDF_GET_CTX_PARAMS, kdf_get_ctx_params, get_params), \
        ENTRY(KDF_SETTABLE_CTX_PARAMS, kdf_settable_ctx_params, name##_settable), \
        ENTRY(KDF_SET_CTX_PARAMS, kdf_set_ctx_params, set_##name), \
        LAST_ENTRY, \
    };
KDF(hkdf, OSSL_PARAM_utf8_string(OSSL_KDF_PARAM_MODE, NULL, 0),
    OSSL_PARAM_int(OSSL_KDF_PARAM_MODE, NULL), OSSL_PARAM_octet_string(OSSL_KDF_PARAM_KEY, NULL, 0),
    OSSL_PARAM_octet_string(OSSL_KDF_PARAM_INFO, NULL, 0))
KDF(pbkdf2, OSSL_PARAM_octet_string(OSSL_KDF_PARAM_PASSWORD, NULL, 0),
    OSSL_PARAM_uint64(OSSL_KDF_PARAM_ITER, NULL), OSSL_PARAM_int(OSSL_KDF_PARAM_PKCS5, NULL))
