/* SPDX-License-Identifier: ISC */
/* HMAC: random calls in a random order. What both providers refuse may leave each in a state of its
 * own, and OpenSSL's goes on after its final call where ours refuses, so a case ends or passes over
 * a step there. */
#include "agree.h"
#include <string.h>

/* The steps. Each number below NUM_STEPS is as likely as another. */
enum {
    INIT, INIT_TOO, INIT_BY_PARAMETERS, SET_DIGEST, INIT_AGAIN, UPDATE, UPDATE_TOO, UPDATE_MORE,
    FINAL, COPY, INIT_KEY, SET_WRONG_TYPE, NUM_STEPS
};

typedef struct {
    size_t what;
    const char *digest; /* or NULL where none is set */
    unsigned char *input;
    size_t input_len;
    size_t out_size;
} step;

typedef struct {
    EVP_MAC_CTX *contexts[SIDES];
    int has_key;
    int is_begun;
} state;

static int replace_by_copy(EVP_MAC_CTX **context)
{
    EVP_MAC_CTX *copy = EVP_MAC_CTX_dup(*context);
    if (copy == NULL) return 0;
    EVP_MAC_CTX_free(*context);
    *context = copy;
    return 1;
}

/* The final call, and whether it wrote as many bytes as it says that it writes. Behind the tag
 * stands the length of a block. */
static int end(EVP_MAC_CTX *context, unsigned char *out, size_t *out_len, size_t out_size)
{
    size_t block_len = EVP_MAC_CTX_get_block_size(context);
    if (!EVP_MAC_final(context, out, out_len, out_size)
        || *out_len != EVP_MAC_CTX_get_mac_size(context)) {
        return 0;
    }
    memcpy(out + *out_len, &block_len, sizeof block_len);
    *out_len += sizeof block_len;
    return 1;
}

static int run(const step *it, EVP_MAC_CTX **context, unsigned char *out, size_t *out_len)
{
    OSSL_PARAM params[3], *next = params;
    if (it->digest != NULL) {
        *next++ = OSSL_PARAM_construct_utf8_string("digest", (char *)it->digest, 0);
    }
    /* Where a key is passed too, that one counts. */
    if (it->what == INIT_BY_PARAMETERS || it->what == INIT_TOO) {
        *next++ = OSSL_PARAM_construct_octet_string("key", it->input, it->input_len / 2);
    }
    if (it->what == SET_WRONG_TYPE) {
        *next++ = OSSL_PARAM_construct_octet_string("digest", it->input, 3);
    }
    *next = OSSL_PARAM_construct_end();
    switch (it->what) {
    case INIT:
    case INIT_TOO: return EVP_MAC_init(*context, it->input, it->input_len, params);
    case INIT_BY_PARAMETERS:
    case SET_DIGEST:
    case SET_WRONG_TYPE: return EVP_MAC_CTX_set_params(*context, params);
    case INIT_AGAIN: return EVP_MAC_init(*context, NULL, 0, NULL);
    case INIT_KEY: return EVP_MAC_init(*context, it->input, it->input_len, NULL);
    case COPY: return replace_by_copy(context);
    case FINAL: return end(*context, out, out_len, it->out_size);
    default:
        return EVP_MAC_update(*context, it->input_len == 0 ? NULL : it->input, it->input_len);
    }
}

/* Whether a step needs a message that is begun, and there is none. Where there never was a key,
 * some such steps are tried all the same. */
static int is_out_of_order(const state *now, size_t what, random_numbers *numbers)
{
    int needs_message = (what >= UPDATE && what <= UPDATE_MORE) || what == FINAL;
    return needs_message && !now->is_begun && (below(numbers, 8) != 0 || now->has_key);
}

static void follow(state *now, const step *it, int is_done)
{
    switch (it->what) {
    case INIT:
    case INIT_TOO:
    case INIT_BY_PARAMETERS:
    case INIT_KEY: now->has_key = now->is_begun = is_done; break;
    case SET_DIGEST:
        if (it->digest != NULL) now->has_key = now->is_begun = 0;
        break;
    case INIT_AGAIN: now->is_begun = is_done; break;
    case FINAL: now->is_begun = now->is_begun && !is_done; break;
    default: break;
    }
}

static step choose(random_numbers *numbers, const state *now, unsigned char *input)
{
    size_t what = below(numbers, NUM_STEPS);
    size_t number = below(numbers, below(numbers, 4) ? NUM_USUAL_NAMES - 1 : NUM_NAMES);
    int is_named = what <= INIT_BY_PARAMETERS || (what == SET_DIGEST && !now->has_key);
    step chosen = {what, is_named ? names[number] : NULL, input, 0, 64};
    chosen.input_len = below(numbers, below(numbers, 3) ? 300 : MOST_INPUT);
    if (below(numbers, 10) == 0) chosen.input_len = 0; /* often an empty key */
    if (below(numbers, 6) == 0) chosen.out_size = below(numbers, 64);
    fill(numbers, input, chosen.input_len < 3 ? 3 : chosen.input_len);
    return chosen;
}

void compare_tags(uint64_t seed)
{
    static _Thread_local unsigned char input[MOST_INPUT];
    static _Thread_local outputs out;
    random_numbers numbers = {seed};
    state now = {{NULL, NULL}, 0, 0};
    size_t lens[SIDES] = {0, 0};
    int returned[SIDES];
    for (int side = 0; side < SIDES; side++) {
        EVP_MAC *mac = EVP_MAC_fetch(both, "HMAC", sides[side]);
        now.contexts[side] = EVP_MAC_CTX_new(mac);
        EVP_MAC_free(mac);
    }
    for (size_t steps = 2 + below(&numbers, 12); steps > 0; steps--) {
        step next = choose(&numbers, &now, input);
        if (is_out_of_order(&now, next.what, &numbers)) continue;
        for (int side = 0; side < SIDES; side++) {
            returned[side] = run(&next, &now.contexts[side], out[side], &lens[side]);
        }
        compare("a step of HMAC", seed, returned,
                next.what == FINAL ? (const outputs *)&out : NULL, lens);
        if (next.what == SET_WRONG_TYPE || (next.what <= SET_DIGEST && returned[1] <= 0)) break;
        follow(&now, &next, returned[1] > 0);
    }
    for (int side = 0; side < SIDES; side++) EVP_MAC_CTX_free(now.contexts[side]);
}
