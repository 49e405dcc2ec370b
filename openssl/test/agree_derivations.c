/* SPDX-License-Identifier: ISC */
/* HKDF and PBKDF2 over random parameters, of which some are missing or wrong. */
#include "agree.h"
#include <string.h>

#define MOST_PARAMS 12
#define MOST_KEPT 8000
#define NUM_MODES 4

/* The steps. Those up to SET write nothing; each number from DERIVE on derives. */
enum { RESET, COPY, SET, INFO, SIZE, DERIVE, NUM_STEPS = 12 };

/* Parameters, and what they point to. */
typedef struct {
    OSSL_PARAM params[MOST_PARAMS];
    OSSL_PARAM *next;
    unsigned char bytes[MOST_KEPT];
    size_t bytes_len;
    int mode;
    int pkcs5;
    uint64_t iterations;
} request;

/* Adds random bytes of a random length, at least `least`; now and then of a wrong type. OpenSSL
 * 3.0's HKDF reads NULL where an info is followed by an empty one, so these are never empty. */
static void add_bytes(request *it, random_numbers *numbers, const char *name, size_t least)
{
    size_t len = least + below(numbers, below(numbers, 5) ? 40 : 300);
    unsigned char *bytes = it->bytes + it->bytes_len;
    fill(numbers, bytes, len);
    it->bytes_len += len;
    *it->next = OSSL_PARAM_construct_octet_string(name, bytes, len);
    if (len != 0 && below(numbers, 100) == 0) it->next->data_type = OSSL_PARAM_UTF8_STRING;
    if (len == 0 && strcmp(name, "key") == 0 && below(numbers, 60) == 0) it->next->data = NULL;
    it->next++;
}

static void add_digest(request *it, random_numbers *numbers)
{
    size_t number = below(numbers, below(numbers, 4) ? NUM_USUAL_NAMES : NUM_NAMES);
    *it->next++ = OSSL_PARAM_construct_utf8_string("digest", (char *)names[number], 0);
}

static void add_hkdf(request *it, random_numbers *numbers)
{
    static const char *const modes[NUM_MODES] = {"EXTRACT_AND_EXPAND", "extract_only",
                                                 "EXPAND_ONLY", "NO"};
    if (below(numbers, 2)) {
        char *word = (char *)modes[below(numbers, 30) % NUM_MODES];
        *it->next++ = OSSL_PARAM_construct_utf8_string("mode", word, 0);
    } else if (below(numbers, 2)) {
        it->mode = below(numbers, 20) ? (int)below(numbers, 3) : (int)below(numbers, 9) - 4;
        *it->next++ = OSSL_PARAM_construct_int("mode", &it->mode);
    }
    if (below(numbers, 12)) add_bytes(it, numbers, "key", 0);
    if (below(numbers, 12)) add_bytes(it, numbers, "salt", 0);
    for (int i = 0; i < 3; i++) {
        if (below(numbers, 2)) add_bytes(it, numbers, "info", 1);
    }
}

static void add_pbkdf2(request *it, random_numbers *numbers)
{
    if (below(numbers, 12)) add_bytes(it, numbers, "pass", 0);
    if (below(numbers, 12)) add_bytes(it, numbers, "salt", 0);
    if (below(numbers, 8)) {
        /* 1000 is the lower bound where `pkcs5` is 0. */
        it->iterations = below(numbers, 40) ? below(numbers, 30) : 996 + below(numbers, 8);
        *it->next++ = OSSL_PARAM_construct_uint64("iter", &it->iterations);
    }
    if (below(numbers, 8) == 0) {
        it->pkcs5 = (int)below(numbers, 2);
        *it->next++ = OSSL_PARAM_construct_int("pkcs5", &it->pkcs5);
    }
}

static void choose(request *it, random_numbers *numbers, int is_hkdf)
{
    it->next = it->params;
    it->bytes_len = 0;
    if (below(numbers, 10)) add_digest(it, numbers);
    if (is_hkdf) {
        add_hkdf(it, numbers);
    } else {
        add_pbkdf2(it, numbers);
    }
    *it->next = OSSL_PARAM_construct_end();
}

/* A length to derive: often that of a digest, and now and then one at the limit: HKDF's upper one,
 * and PBKDF2's lower one where `pkcs5` is 0. */
static size_t choose_len(random_numbers *numbers, int is_hkdf)
{
    static const size_t digest_lens[] = {20, 32, 48, 64};
    size_t digest_len = digest_lens[below(numbers, 4)];
    if (below(numbers, 20) == 0) {
        return is_hkdf ? 255 * digest_len + below(numbers, 2) : 12 + below(numbers, 4);
    }
    return below(numbers, 2) ? digest_len : below(numbers, 200);
}

static int replace_by_copy(EVP_KDF_CTX **context)
{
    EVP_KDF_CTX *copy = EVP_KDF_CTX_dup(*context);
    if (copy == NULL) return 0;
    EVP_KDF_CTX_free(*context);
    *context = copy;
    return 1;
}

static int get_info(EVP_KDF_CTX *context, unsigned char *out, size_t *out_len)
{
    OSSL_PARAM asked[] = {OSSL_PARAM_construct_octet_string("info", out, MOST_OUT),
                          OSSL_PARAM_construct_end()};
    int returned = EVP_KDF_CTX_get_params(context, asked);
    *out_len = asked[0].return_size;
    return returned;
}

static int run(EVP_KDF_CTX **context, const request *it, size_t what, unsigned char *out,
               size_t *out_len)
{
    size_t size;
    switch (what) {
    case RESET: EVP_KDF_CTX_reset(*context); return 1;
    case COPY: return replace_by_copy(context);
    case SET: return EVP_KDF_CTX_set_params(*context, it->params);
    case INFO: return get_info(*context, out, out_len);
    case SIZE:
        size = EVP_KDF_CTX_get_kdf_size(*context);
        memcpy(out, &size, sizeof size);
        *out_len = sizeof size;
        return 1;
    default: return EVP_KDF_derive(*context, out, *out_len, it->params);
    }
}

void compare_derivations(uint64_t seed, const char *kdf_name)
{
    static _Thread_local request next;
    static _Thread_local outputs out;
    random_numbers numbers = {seed};
    EVP_KDF_CTX *contexts[SIDES];
    int is_hkdf = strcmp(kdf_name, "HKDF") == 0, returned[SIDES] = {1, 1};
    for (int side = 0; side < SIDES; side++) {
        EVP_KDF *kdf = EVP_KDF_fetch(both, kdf_name, sides[side]);
        contexts[side] = EVP_KDF_CTX_new(kdf);
        EVP_KDF_free(kdf);
    }
    /* After a refusal each may be in a state of its own. */
    for (size_t steps = 1 + below(&numbers, 5); steps > 0 && returned[1] > 0; steps--) {
        size_t what = below(&numbers, NUM_STEPS), len = choose_len(&numbers, is_hkdf);
        size_t lens[SIDES] = {len, len};
        choose(&next, &numbers, is_hkdf);
        if (next.next == next.params) what = DERIVE;
        if (!is_hkdf && what == INFO) what = SIZE;
        for (int side = 0; side < SIDES; side++) {
            returned[side] = run(&contexts[side], &next, what, out[side], &lens[side]);
        }
        /* OpenSSL 3.0 copies no derivation, and 3.5 none with an empty key: theirs goes on then. */
        if (what == COPY) returned[1] = 1;
        compare(kdf_name, seed, returned, what <= SET ? NULL : (const outputs *)&out, lens);
    }
    for (int side = 0; side < SIDES; side++) EVP_KDF_CTX_free(contexts[side]);
}
