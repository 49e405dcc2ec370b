/* SPDX-License-Identifier: ISC
 *
 * HMAC. The key that a caller passed is kept, since a caller may name another digest, or say that
 * the message is a TLS record, and then go on under the same key. */
#include "provider.h"

/* What a caller sets. */
typedef struct {
    chosen_digest digest;
    kept secret;
    size_t record_len; /* of a TLS record with its padding, or 0 */
} settings;

/* What is made of it, once there are a digest and a key. */
typedef struct {
    int is_keyed; /* whether `key` is made of the secret */
    yz_hmac_key key;
    yz_hmac_context context; /* all 0 while no message is begun */
    EVP_MAC_CTX *other;      /* the context of the provider that does the work instead, or NULL */
    int is_ended;            /* whether `other` has given its tag */
} message;

typedef struct {
    const provider *reporter;
    settings set;
    message begun;
} tag;

static void *new_tag(void *self)
{
    tag *made = OPENSSL_zalloc(sizeof *made);
    if (made != NULL) made->reporter = self;
    return made;
}

/* Wipes a message, and the key made for it. */
static void end(message *it)
{
    EVP_MAC_CTX_free(it->other);
    yz_clear(it, sizeof *it);
}

static void free_tag(void *self)
{
    tag *it = self;
    if (it == NULL) return;
    end(&it->begun);
    forget(&it->set.secret);
    forget_digest(&it->set.digest);
    OPENSSL_free(it);
}

static void *copy_tag(void *self)
{
    const tag *from = self;
    tag *made = OPENSSL_memdup(from, sizeof *from);
    EVP_MAC_CTX *other = from->begun.other;
    int has_digest, has_secret;
    if (made == NULL) return NULL;
    has_digest = copy_digest(&made->set.digest, &from->set.digest);
    has_secret = copy_kept(&made->set.secret, &from->set.secret);
    made->begun.other = other == NULL ? NULL : EVP_MAC_CTX_dup(other);
    if (has_digest && has_secret && (made->begun.other == NULL) == (other == NULL)) return made;
    free_tag(made);
    return NULL;
}

/* Begins the first message under settings. */
static int begin(const provider *reporter, const settings *set, message *made)
{
    const kept *secret = &set->secret;
    if (secret->bytes == NULL) return refuse(reporter, PROV_R_NO_KEY_SET);
    if (set->digest.name.bytes == NULL) return refuse(reporter, PROV_R_MISSING_MESSAGE_DIGEST);
    if (!library_signs(&set->digest, set->record_len)) {
        made->other = begin_other_tag(reporter, &set->digest, secret, set->record_len);
        return made->other != NULL;
    }
    made->is_keyed = yz_hmac_key_init(set->digest.algorithm, secret->bytes, secret->len,
                                      &made->key) == YZ_OK;
    return made->is_keyed && yz_hmac_init(&made->key, &made->context) == YZ_OK;
}

/* Begins a message under the same key. Another provider begins it in a copy, since a refusal may
 * leave its context without a message. */
static int begin_again(tag *it)
{
    message *begun = &it->begun;
    EVP_MAC_CTX *again;
    if (begun->is_keyed) return yz_hmac_init(&begun->key, &begun->context) == YZ_OK;
    if (begun->other == NULL) return refuse(it->reporter, PROV_R_NO_KEY_SET);
    again = EVP_MAC_CTX_dup(begun->other);
    if (again == NULL || !EVP_MAC_init(again, NULL, 0, NULL)) {
        EVP_MAC_CTX_free(again);
        return 0;
    }
    EVP_MAC_CTX_free(begun->other);
    begun->other = again;
    begun->is_ended = 0;
    return 1;
}

static int read_secret(const provider *reporter, kept *secret, const OSSL_PARAM params[])
{
    const OSSL_PARAM *given = OSSL_PARAM_locate_const(params, OSSL_MAC_PARAM_KEY);
    if (given != NULL && given->data == NULL) {
        return refuse(reporter, PROV_R_FAILED_TO_GET_PARAMETER);
    }
    return read_bytes(reporter, secret, params, OSSL_MAC_PARAM_KEY);
}

static int read_record_len(const provider *reporter, size_t *len, const OSSL_PARAM params[])
{
    const OSSL_PARAM *given = OSSL_PARAM_locate_const(params, OSSL_MAC_PARAM_TLS_DATA_SIZE);
    return given == NULL || OSSL_PARAM_get_size_t(given, len)
           || refuse(reporter, PROV_R_FAILED_TO_GET_PARAMETER);
}

/* Whether a parameter is given that changes the tag. */
static int changes(const OSSL_PARAM params[])
{
    return OSSL_PARAM_locate_const(params, OSSL_MAC_PARAM_DIGEST) != NULL
           || OSSL_PARAM_locate_const(params, OSSL_MAC_PARAM_KEY) != NULL
           || OSSL_PARAM_locate_const(params, OSSL_MAC_PARAM_TLS_DATA_SIZE) != NULL;
}

/* Puts a key in place of what `next` has. */
static int replace_secret(kept *now, kept *next, const unsigned char *key, size_t key_len)
{
    kept copy = {NULL, 0};
    if (!append(&copy, key, key_len)) return 0;
    drop_one(now, next, 0);
    *next = copy;
    return 1;
}

/* Takes over parameters, and a key if it isn't NULL, and begins a message if there is a key then.
 * A call that is refused changes nothing: not the settings, nor the message that was begun. */
static int take(tag *it, const unsigned char *key, size_t key_len, const OSSL_PARAM params[],
                int must_begin)
{
    settings next = it->set;
    message made = {0};
    int is_taken = read_digest(it->reporter, &next.digest, params)
                   && read_secret(it->reporter, &next.secret, params)
                   && read_record_len(it->reporter, &next.record_len, params)
                   && (key == NULL || replace_secret(&it->set.secret, &next.secret, key, key_len))
                   && ((next.secret.bytes == NULL && !must_begin)
                       || begin(it->reporter, &next, &made));
    drop_one_digest(&it->set.digest, &next.digest, is_taken);
    drop_one(&it->set.secret, &next.secret, is_taken);
    if (is_taken) {
        end(&it->begun);
        it->set = next;
        it->begun = made;
    }
    yz_clear(&made, sizeof made);
    return is_taken;
}

static int set_params(void *self, const OSSL_PARAM params[])
{
    tag *it = self;
    if (!changes(params)) return has_right_properties(it->reporter, params);
    return take(it, NULL, 0, params, 0);
}

static int init(void *self, const unsigned char *key, size_t key_len, const OSSL_PARAM params[])
{
    tag *it = self;
    if (key != NULL || changes(params)) return take(it, key, key_len, params, 1);
    return has_right_properties(it->reporter, params) && begin_again(it);
}

/* The library refuses a context of which all bytes are 0. */
static int update(void *self, const unsigned char *input, size_t input_len)
{
    tag *it = self;
    if (it->begun.is_ended) return 0;
    if (it->begun.other != NULL) return EVP_MAC_update(it->begun.other, input, input_len);
    return yz_hmac_update(&it->begun.context, input, input_len) == YZ_OK;
}

/* OpenSSL 3.0 goes on behind its tag, with one of no known message. */
static int final_of_other(message *it, unsigned char *out, size_t *out_len, size_t out_size)
{
    if (it->is_ended || !EVP_MAC_final(it->other, out, out_len, out_size)) return 0;
    it->is_ended = 1;
    return 1;
}

static int final(void *self, unsigned char *out, size_t *out_len, size_t out_size)
{
    tag *it = self;
    size_t len = it->set.digest.output_len;
    if (it->begun.other != NULL) return final_of_other(&it->begun, out, out_len, out_size);
    if (out_size < len || yz_hmac_final(&it->begun.context, out, len) != YZ_OK) return 0;
    yz_clear(&it->begun.context, sizeof it->begun.context);
    *out_len = len;
    return 1;
}

static int get_params(void *self, OSSL_PARAM params[])
{
    const tag *it = self;
    return set_number(params, OSSL_MAC_PARAM_SIZE, it->set.digest.output_len)
           && set_number(params, OSSL_MAC_PARAM_BLOCK_SIZE, it->set.digest.block_len);
}

static const OSSL_PARAM *gettable(void *self, void *of_provider)
{
    static const OSSL_PARAM names[] = {
        OSSL_PARAM_size_t(OSSL_MAC_PARAM_SIZE, NULL),
        OSSL_PARAM_size_t(OSSL_MAC_PARAM_BLOCK_SIZE, NULL),
        OSSL_PARAM_END,
    };
    (void)self, (void)of_provider;
    return names;
}

static const OSSL_PARAM *settable(void *self, void *of_provider)
{
    static const OSSL_PARAM names[] = {
        OSSL_PARAM_utf8_string(OSSL_MAC_PARAM_DIGEST, NULL, 0),
        OSSL_PARAM_utf8_string(OSSL_MAC_PARAM_PROPERTIES, NULL, 0),
        OSSL_PARAM_octet_string(OSSL_MAC_PARAM_KEY, NULL, 0),
        OSSL_PARAM_size_t(OSSL_MAC_PARAM_TLS_DATA_SIZE, NULL),
        OSSL_PARAM_END,
    };
    (void)self, (void)of_provider;
    return names;
}

const OSSL_DISPATCH hmac_calls[] = {
    ENTRY(MAC_NEWCTX, mac_newctx, new_tag),
    ENTRY(MAC_FREECTX, mac_freectx, free_tag),
    ENTRY(MAC_DUPCTX, mac_dupctx, copy_tag),
    ENTRY(MAC_INIT, mac_init, init),
    ENTRY(MAC_UPDATE, mac_update, update),
    ENTRY(MAC_FINAL, mac_final, final),
    ENTRY(MAC_GETTABLE_CTX_PARAMS, mac_gettable_ctx_params, gettable),
    ENTRY(MAC_GET_CTX_PARAMS, mac_get_ctx_params, get_params),
    ENTRY(MAC_SETTABLE_CTX_PARAMS, mac_settable_ctx_params, settable),
    ENTRY(MAC_SET_CTX_PARAMS, mac_set_ctx_params, set_params),
    LAST_ENTRY,
};
