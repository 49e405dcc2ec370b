/* SPDX-License-Identifier: ISC */
/* The builds for x86-64-v2 and x86-64-v3 are one library. Contexts and keys have the same bytes
 * whichever build made or advanced them, so each step may be taken by either: a digest and a tag in
 * pieces is made by each build and ended by the other, and made again by a build that is drawn for
 * each step. Garbage in the place of contexts and keys has the same answers in both. The calls that
 * run several messages or rounds of output side by side give the same in both, at both widths, and
 * each build verifies the other's paths of Merkle trees, signed tokens, binders and headers of
 * webhooks, and finds its one-time passwords. Messages, pieces and builds are drawn at random, in
 * each run the same. */
#include "../rows.h"
#include "yezdopin.h"
#include <stdio.h>
#include <stdlib.h>
#include <string.h>

#define MESSAGES 20000
#define LISTS 2000
#define DERIVATIONS 2000
#define GARBAGE 20000
#define MOST_MESSAGE 4096
#define MOST_PIECE 300
#define MOST_KEY 200
#define MOST_COUNT 40
#define MOST_ITERATIONS 5
#define MOST_DERIVED 1000
#define TREES 2000
#define TOKENS 2000
#define MOST_PAYLOAD 500
#define MOST_TOKEN YZ_JWS_TOKEN_LEN(YZ_MAX_OUTPUT_LEN, MOST_PAYLOAD)
#define MOST_LEAVES 70

/* The calls that dispatch.c alone knows, and those of the build for x86-64-v3 by the names that the
 * Makefile gives them here. */
__typeof__(yz_digest_each) yz_digest_each_wide, v3_yz_digest_each, v3_yz_digest_each_wide;
__typeof__(yz_pbkdf2_derive) yz_pbkdf2_derive_wide, v3_yz_pbkdf2_derive, v3_yz_pbkdf2_derive_wide;
__typeof__(yz_pbkdf2_verify) yz_pbkdf2_verify_wide, v3_yz_pbkdf2_verify, v3_yz_pbkdf2_verify_wide;
/* The SHA instructions are not taken here. */
uint8_t yz_instructions;
__typeof__(yz_digest) v3_yz_digest;
__typeof__(yz_digest_init) v3_yz_digest_init;
__typeof__(yz_digest_update) v3_yz_digest_update;
__typeof__(yz_digest_final) v3_yz_digest_final;
__typeof__(yz_hmac_sign) v3_yz_hmac_sign;
__typeof__(yz_hmac_verify) v3_yz_hmac_verify;
__typeof__(yz_hmac_key_init) v3_yz_hmac_key_init;
__typeof__(yz_hmac_key_sign) v3_yz_hmac_key_sign;
__typeof__(yz_hmac_key_verify) v3_yz_hmac_key_verify;
__typeof__(yz_hmac_init) v3_yz_hmac_init;
__typeof__(yz_hmac_update) v3_yz_hmac_update;
__typeof__(yz_hmac_final) v3_yz_hmac_final;
__typeof__(yz_hkdf_extract) v3_yz_hkdf_extract;
__typeof__(yz_hkdf_expand) v3_yz_hkdf_expand;
__typeof__(yz_hkdf_expand_label) v3_yz_hkdf_expand_label;
__typeof__(yz_hkdf) v3_yz_hkdf;
__typeof__(yz_jws_sign) v3_yz_jws_sign;
__typeof__(yz_jws_verify) v3_yz_jws_verify;
__typeof__(yz_hotp) v3_yz_hotp;
__typeof__(yz_totp) v3_yz_totp;
__typeof__(yz_hotp_find) v3_yz_hotp_find;
__typeof__(yz_totp_find) v3_yz_totp_find;
__typeof__(yz_tls13_finished) v3_yz_tls13_finished;
__typeof__(yz_tls13_finished_verify) v3_yz_tls13_finished_verify;
__typeof__(yz_tls13_binder_key) v3_yz_tls13_binder_key;
__typeof__(yz_webhook_verify_hex) v3_yz_webhook_verify_hex;
__typeof__(yz_webhook_verify_github) v3_yz_webhook_verify_github;
__typeof__(yz_webhook_verify_stripe) v3_yz_webhook_verify_stripe;
__typeof__(yz_merkle_leaf) v3_yz_merkle_leaf;
__typeof__(yz_merkle_root) v3_yz_merkle_root;
__typeof__(yz_merkle_inclusion_path) v3_yz_merkle_inclusion_path;
__typeof__(yz_merkle_consistency_path) v3_yz_merkle_consistency_path;
__typeof__(yz_merkle_verify_inclusion) v3_yz_merkle_verify_inclusion;
__typeof__(yz_merkle_verify_consistency) v3_yz_merkle_verify_consistency;

typedef struct {
    __typeof__(yz_digest) *digest;
    __typeof__(yz_digest_init) *digest_init;
    __typeof__(yz_digest_update) *digest_update;
    __typeof__(yz_digest_final) *digest_final;
    __typeof__(yz_hmac_sign) *hmac_sign;
    __typeof__(yz_hmac_verify) *hmac_verify;
    __typeof__(yz_hmac_key_init) *hmac_key_init;
    __typeof__(yz_hmac_key_sign) *hmac_key_sign;
    __typeof__(yz_hmac_key_verify) *hmac_key_verify;
    __typeof__(yz_hmac_init) *hmac_init;
    __typeof__(yz_hmac_update) *hmac_update;
    __typeof__(yz_hmac_final) *hmac_final;
    __typeof__(yz_hkdf_extract) *hkdf_extract;
    __typeof__(yz_hkdf_expand) *hkdf_expand;
    __typeof__(yz_hkdf_expand_label) *hkdf_expand_label;
    __typeof__(yz_hkdf) *hkdf;
    __typeof__(yz_jws_sign) *jws_sign;
    __typeof__(yz_jws_verify) *jws_verify;
    __typeof__(yz_hotp) *hotp;
    __typeof__(yz_totp) *totp;
    __typeof__(yz_hotp_find) *hotp_find;
    __typeof__(yz_totp_find) *totp_find;
    __typeof__(yz_tls13_finished) *finished;
    __typeof__(yz_tls13_finished_verify) *finished_verify;
    __typeof__(yz_tls13_binder_key) *binder_key;
    __typeof__(yz_webhook_verify_hex) *verify_hex;
    __typeof__(yz_webhook_verify_github) *verify_github;
    __typeof__(yz_webhook_verify_stripe) *verify_stripe;
    __typeof__(yz_merkle_leaf) *leaf;
    __typeof__(yz_merkle_root) *root;
    __typeof__(yz_merkle_inclusion_path) *inclusion_path;
    __typeof__(yz_merkle_consistency_path) *consistency_path;
    __typeof__(yz_merkle_verify_inclusion) *verify_inclusion;
    __typeof__(yz_merkle_verify_consistency) *verify_consistency;
} build;

/* The builds, and what is made by both in turn. */
enum { V2, V3, BUILDS, MIXED = BUILDS, MAKERS };
static const build BUILD[BUILDS] = {
    {yz_digest, yz_digest_init, yz_digest_update, yz_digest_final, yz_hmac_sign, yz_hmac_verify,
     yz_hmac_key_init, yz_hmac_key_sign, yz_hmac_key_verify, yz_hmac_init, yz_hmac_update,
     yz_hmac_final, yz_hkdf_extract, yz_hkdf_expand, yz_hkdf_expand_label, yz_hkdf,
     yz_jws_sign, yz_jws_verify, yz_hotp, yz_totp, yz_hotp_find, yz_totp_find, yz_tls13_finished,
     yz_tls13_finished_verify, yz_tls13_binder_key, yz_webhook_verify_hex, yz_webhook_verify_github,
     yz_webhook_verify_stripe, yz_merkle_leaf, yz_merkle_root, yz_merkle_inclusion_path,
     yz_merkle_consistency_path, yz_merkle_verify_inclusion, yz_merkle_verify_consistency},
    {v3_yz_digest, v3_yz_digest_init, v3_yz_digest_update, v3_yz_digest_final, v3_yz_hmac_sign,
     v3_yz_hmac_verify, v3_yz_hmac_key_init, v3_yz_hmac_key_sign, v3_yz_hmac_key_verify,
     v3_yz_hmac_init, v3_yz_hmac_update, v3_yz_hmac_final, v3_yz_hkdf_extract, v3_yz_hkdf_expand,
     v3_yz_hkdf_expand_label, v3_yz_hkdf, v3_yz_jws_sign, v3_yz_jws_verify, v3_yz_hotp,
     v3_yz_totp, v3_yz_hotp_find, v3_yz_totp_find, v3_yz_tls13_finished,
     v3_yz_tls13_finished_verify, v3_yz_tls13_binder_key, v3_yz_webhook_verify_hex,
     v3_yz_webhook_verify_github, v3_yz_webhook_verify_stripe, v3_yz_merkle_leaf,
     v3_yz_merkle_root, v3_yz_merkle_inclusion_path, v3_yz_merkle_consistency_path,
     v3_yz_merkle_verify_inclusion, v3_yz_merkle_verify_consistency},
};

/* The calls of both builds that run several side by side, as many as is usual and as are wide. */
enum { WIDTHS = 4 };
static __typeof__(yz_digest_each) *const DIGEST_EACH[WIDTHS] = {
    yz_digest_each, yz_digest_each_wide, v3_yz_digest_each, v3_yz_digest_each_wide};
static __typeof__(yz_pbkdf2_derive) *const DERIVE[WIDTHS] = {
    yz_pbkdf2_derive, yz_pbkdf2_derive_wide, v3_yz_pbkdf2_derive, v3_yz_pbkdf2_derive_wide};
static __typeof__(yz_pbkdf2_verify) *const VERIFY[WIDTHS] = {
    yz_pbkdf2_verify, yz_pbkdf2_verify_wide, v3_yz_pbkdf2_verify, v3_yz_pbkdf2_verify_wide};

static long steps;

static void must(bool holds, const char *what) {
    if (holds) return;
    printf("FAILED: %s\n", what);
    exit(1);
}

static size_t below(size_t limit) { return (size_t)rand() % limit; }

static const build *either(void) { return &BUILD[below(BUILDS)]; }

/* The build that takes the next step of a maker's. */
static const build *of(int maker) { return maker == MIXED ? either() : &BUILD[maker]; }

/* The length of the next piece of a message of which so much is left. */
static size_t piece_of(size_t left) {
    size_t piece = 1 + below(MOST_PIECE);
    return piece < left ? piece : left;
}

static void digest_in_pieces(uint32_t n, const uint8_t *message, size_t len) {
    yz_digest_context context[MAKERS];
    uint8_t whole[YZ_MAX_OUTPUT_LEN], pieces[YZ_MAX_OUTPUT_LEN];
    size_t out_len = yz_output_len(n);
    for (int i = 0; i < MAKERS; i++) {
        memset(&context[i], 0xa5, sizeof context[i]);
        must(of(i)->digest_init(n, &context[i]) == YZ_OK, "a context is begun");
    }
    must(!memcmp(&context[V2], &context[V3], sizeof *context), "both begin the same context");
    for (size_t at = 0, piece; at < len; at += piece, steps++) {
        piece = piece_of(len - at);
        for (int i = 0; i < MAKERS; i++)
            must(of(i)->digest_update(&context[i], message + at, piece) == YZ_OK, "an update");
        must(!memcmp(&context[V2], &context[V3], sizeof *context), "both advance it alike");
        must(!memcmp(&context[V2], &context[MIXED], sizeof *context), "and so do both in turn");
    }
    must(either()->digest(n, message, len, whole, out_len) == YZ_OK, "a digest");
    for (int i = 0; i < MAKERS; i++) {
        /* What one build began and advanced the other ends. */
        must(BUILD[i == V2].digest_final(&context[i], pieces, out_len) == YZ_OK, "an end");
        must(!memcmp(whole, pieces, out_len), "the digest in pieces is that of the whole");
    }
}

static void tag_in_pieces(uint32_t n, size_t key_len, const uint8_t *message, size_t len) {
    yz_hmac_key key[BUILDS];
    yz_hmac_context context[MAKERS];
    uint8_t whole[YZ_MAX_OUTPUT_LEN], pieces[YZ_MAX_OUTPUT_LEN];
    size_t out_len = yz_output_len(n);
    for (int i = 0; i < BUILDS; i++)
        must(BUILD[i].hmac_key_init(n, message, key_len, &key[i]) == YZ_OK, "a key is made");
    must(!memcmp(&key[V2], &key[V3], sizeof *key), "both make the same key");
    for (int i = 0; i < MAKERS; i++)
        must(of(i)->hmac_init(&key[below(BUILDS)], &context[i]) == YZ_OK, "a tag is begun");
    for (size_t at = 0, piece; at < len; at += piece, steps++) {
        piece = piece_of(len - at);
        for (int i = 0; i < MAKERS; i++)
            must(of(i)->hmac_update(&context[i], message + at, piece) == YZ_OK, "a tag's update");
        must(!memcmp(&context[V2], &context[V3], sizeof *context), "both advance a tag alike");
        must(!memcmp(&context[V2], &context[MIXED], sizeof *context), "and so do both in turn");
    }
    must(either()->hmac_sign(n, message, key_len, message, len, whole, out_len) == YZ_OK, "a tag");
    for (int i = 0; i < MAKERS; i++) {
        must(BUILD[i == V2].hmac_final(&context[i], pieces, out_len) == YZ_OK, "the end of a tag");
        must(!memcmp(whole, pieces, out_len), "the tag in pieces is that of the whole");
    }
    for (int i = 0; i < BUILDS; i++) {
        must(BUILD[i].hmac_key_sign(&key[!i], message, len, pieces, out_len) == YZ_OK &&
                 !memcmp(whole, pieces, out_len), "a tag under a key of the other build");
        must(BUILD[i].hmac_key_verify(&key[!i], message, len, whole, out_len) == YZ_OK &&
                 BUILD[i].hmac_verify(n, message, key_len, message, len, whole, out_len) == YZ_OK,
             "a verification");
    }
}

/* The steps of HKDF by one build each, and both in one call. */
static void expansion(uint32_t n, const uint8_t *bytes, size_t len) {
    uint8_t prk[YZ_MAX_OUTPUT_LEN], out[BUILDS][MOST_DERIVED], whole[MOST_DERIVED];
    size_t salt_len = below(MOST_KEY), secret_len = below(MOST_KEY), info_len = below(MOST_KEY);
    const uint8_t *secret = bytes + MOST_KEY, *info = secret + MOST_KEY;
    for (int i = 0; i < BUILDS; i++) {
        must(BUILD[i].hkdf_extract(n, bytes, salt_len, secret, secret_len, prk,
                                   yz_output_len(n)) == YZ_OK, "an extraction");
        must(BUILD[!i].hkdf_expand(n, prk, yz_output_len(n), info, info_len, out[i], len) == YZ_OK,
             "an expansion of what the other build extracted");
        must(BUILD[i].hkdf(n, bytes, salt_len, secret, secret_len, info, info_len, whole,
                           len) == YZ_OK, "both steps in one");
        must(!memcmp(whole, out[0], len) && !memcmp(out[i], out[0], len), "outputs are the same");
    }
    for (int i = 0; i < BUILDS; i++)
        must(BUILD[i].hkdf_expand_label(n, secret, secret_len, bytes, salt_len + 1, info,
                                        info_len, out[i], len) == YZ_OK, "an expansion by a label");
    must(!memcmp(out[V2], out[V3], len), "and its outputs are");
}

/* Any bytes as contexts and keys. */
static void garbage(const uint8_t *message) {
    yz_digest_context digest[BUILDS];
    yz_hmac_context tag[BUILDS];
    yz_hmac_key key;
    uint8_t out[BUILDS][4][YZ_MAX_OUTPUT_LEN] = {0};
    yz_status status[BUILDS][6];
    for (size_t i = 0; i < sizeof key; i++) ((uint8_t *)&key)[i] = (uint8_t)rand();
    for (size_t i = 0; i < sizeof *tag; i++) ((uint8_t *)tag)[i] = (uint8_t)rand();
    key.algorithm = (uint32_t)below(8);
    tag[0].inner.algorithm = (uint32_t)below(8);
    tag[0].inner.num_pending = (uint32_t)below(150);
    if (below(2)) tag[0].inner.completed_high = 0;
    tag[1] = tag[0];
    digest[0] = digest[1] = tag[0].inner;
    size_t len = below(MOST_PIECE), tag_len = yz_output_len(key.algorithm);
    for (int i = 0; i < BUILDS; i++) {
        status[i][0] = BUILD[i].digest_update(&digest[i], message, len);
        status[i][1] = BUILD[i].digest_final(&digest[i], out[i][0],
                                             yz_output_len(digest->algorithm));
        status[i][2] = BUILD[i].hmac_update(&tag[i], message, len);
        status[i][3] = BUILD[i].hmac_final(&tag[i], out[i][1],
                                           yz_output_len(tag->inner.algorithm));
        status[i][4] = BUILD[i].hmac_key_sign(&key, message, len, out[i][2], tag_len);
        status[i][5] = BUILD[i].hmac_key_verify(&key, message, len, out[i][2], tag_len);
    }
    must(!memcmp(status[V2], status[V3], sizeof *status), "both answer the same to garbage");
    must(!memcmp(out[V2], out[V3], sizeof *out), "both write the same for garbage");
    must(!memcmp(&digest[V2], &digest[V3], sizeof *digest) && !memcmp(&tag[V2], &tag[V3],
         sizeof *tag), "both advance garbage alike");
}

static void several(uint32_t n, const uint8_t *bytes, size_t count) {
    static yz_message messages[MOST_COUNT];
    static uint8_t out[WIDTHS][MOST_COUNT * YZ_MAX_OUTPUT_LEN];
    size_t len = yz_output_len(n);
    size_t most = 1 + below(below(2) ? MOST_MESSAGE : MOST_PIECE);
    for (size_t i = 0; i < count; i++) {
        size_t some = below(4) ? below(most) : most - 1;
        messages[i] = (yz_message){bytes + below(MOST_MESSAGE - some), some};
    }
    for (int i = 0; i < WIDTHS; i++)
        must(DIGEST_EACH[i](n, messages, count, out[i], count * len) == YZ_OK, "several digests");
    for (size_t i = 0; i < count; i++) {
        uint8_t one[YZ_MAX_OUTPUT_LEN];
        must(yz_digest(n, messages[i].bytes, messages[i].len, one, len) == YZ_OK, "one digest");
        for (int j = 0; j < WIDTHS; j++)
            must(!memcmp(out[j] + i * len, one, len), "digests of several are those of each");
    }
}

static void derivations(uint32_t n, uint32_t iterations, const uint8_t *bytes, size_t len) {
    static uint8_t out[WIDTHS][MOST_DERIVED];
    size_t salt_len = below(MOST_KEY), secret_len = below(MOST_KEY);
    for (int i = 0; i < WIDTHS; i++) {
        must(DERIVE[i](n, iterations, bytes, salt_len, bytes + MOST_KEY, secret_len, out[i],
                       len) == YZ_OK, "a derivation");
        must(!memcmp(out[i], out[0], len), "derived keys are the same");
    }
    for (int right = 1; right >= 0; right--, out[0][below(len)] ^= 1)
        for (int i = 0; i < WIDTHS; i++)
            must(VERIFY[i](n, iterations, bytes, salt_len, bytes + MOST_KEY, secret_len, out[0],
                           len) == (right ? YZ_OK : YZ_UNSPECIFIED), "a derived key is verified");
}

/* A tree, the path of a leaf and that of a first tree: each build verifies what the other made, and
 * refuses it under another root. */
static void tree(const uint8_t *bytes, size_t size) {
    yz_merkle_hash leaves[BUILDS][MOST_LEAVES], first[BUILDS], root[BUILDS];
    yz_merkle_hash path[BUILDS][YZ_MERKLE_MAX_PATH], proof[BUILDS][YZ_MERKLE_MAX_PATH];
    size_t index = below(size), first_size = 1 + below(size - 1);
    size_t path_count[BUILDS], proof_count[BUILDS];
    for (int i = 0; i < BUILDS; i++) {
        for (size_t k = 0; k < size; k++)
            must(BUILD[i].leaf(bytes + k, k, &leaves[i][k]) == YZ_OK, "a leaf");
        must(BUILD[i].root(leaves[i], first_size, &first[i]) == YZ_OK &&
                 BUILD[i].root(leaves[i], size, &root[i]) == YZ_OK, "roots");
        must(BUILD[i].inclusion_path(leaves[i], size, index, path[i], YZ_MERKLE_MAX_PATH,
                                     &path_count[i]) == YZ_OK, "a leaf's path");
        must(BUILD[i].consistency_path(leaves[i], size, first_size, proof[i], YZ_MERKLE_MAX_PATH,
                                       &proof_count[i]) == YZ_OK, "a first tree's path");
    }
    must(!memcmp(leaves[V2], leaves[V3], size * sizeof **leaves) &&
             !memcmp(&root[V2], &root[V3], sizeof *root), "trees are the same");
    for (int right = 1; right >= 0; right--)
        for (int i = 0; i < BUILDS; root[i++].bytes[below(sizeof root->bytes)] ^= 1) {
            yz_status want = right ? YZ_OK : YZ_UNSPECIFIED;
            must(BUILD[!i].verify_inclusion(&leaves[i][index], index, size, path[i], path_count[i],
                                            &root[i]) == want, "a leaf is verified");
            must(BUILD[!i].verify_consistency(first_size, &first[i], size, &root[i], proof[i],
                                              proof_count[i]) == want, "a first tree is verified");
        }
}

/* A token: each build verifies it, and refuses it with a bit turned. */
static void token(uint32_t n, const uint8_t *bytes, size_t payload_len) {
    char text[BUILDS][MOST_TOKEN];
    uint8_t payload[MOST_TOKEN];
    const size_t key_len = yz_output_len(n) + below(MOST_KEY);
    const uint8_t *signed_bytes = bytes + MOST_KEY + YZ_MAX_OUTPUT_LEN;
    size_t len[BUILDS];
    for (int i = 0; i < BUILDS; i++)
        must(BUILD[i].jws_sign(n, bytes, key_len, signed_bytes, payload_len, text[i], MOST_TOKEN,
                               &len[i]) == YZ_OK, "a token");
    must(len[V2] == len[V3] && !memcmp(text[V2], text[V3], len[V2]), "tokens are the same");
    for (int right = 1; right >= 0; right--, text[V2][below(len[V2])] ^= 1)
        for (int i = 0; i < BUILDS; i++) {
            size_t got = 0;
            yz_status status = BUILD[i].jws_verify(n, bytes, key_len, text[V2], len[V2], payload,
                                                   MOST_TOKEN, &got);
            must(status == (right ? YZ_OK : YZ_UNSPECIFIED), "a token is verified");
            must(!right || (got == payload_len && !memcmp(payload, signed_bytes, got)),
                 "a token has its payload");
        }
}

/* A password of a counter, and of the step of that number: each build finds it. */
static void password(uint32_t n, const uint8_t *bytes, size_t key_len, uint64_t counter) {
    char text[2 * BUILDS][YZ_OTP_MAX_DIGITS];
    const size_t digits = YZ_OTP_MIN_DIGITS + below(3);
    const uint32_t window = (uint32_t)below(20);
    for (int i = 0; i < BUILDS; i++)
        must(BUILD[i].hotp(n, bytes, key_len, counter, text[i], digits) == YZ_OK &&
                 BUILD[i].totp(n, bytes, key_len, 30 * counter + 29, 30, text[BUILDS + i],
                               digits) == YZ_OK, "a password");
    for (int i = 1; i < 2 * BUILDS; i++)
        must(!memcmp(text[i], text[0], digits), "passwords are the same");
    for (int i = 0; i < BUILDS; i++) {
        uint64_t of_hotp = 0, of_totp = 0;
        must(BUILD[i].hotp_find(n, bytes, key_len, counter, 1 + window, digits, text[0], digits,
                                &of_hotp) == YZ_OK &&
                 BUILD[i].totp_find(n, bytes, key_len, 30 * counter, 30, 0, window, digits, text[0],
                                    digits, &of_totp) == YZ_OK, "a password is found");
        must(of_hotp == counter && of_totp == counter, "at its counter");
    }
}

/* A binder, or a Finished of the same key: each build verifies it, and refuses it with a bit
 * turned. */
static void finished(uint32_t n, const uint8_t *bytes, size_t psk_len) {
    uint8_t key[BUILDS][YZ_MAX_OUTPUT_LEN], out[BUILDS][YZ_MAX_OUTPUT_LEN];
    const size_t len = yz_output_len(n);
    const bool is_external = below(2);
    for (int i = 0; i < BUILDS; i++)
        must(BUILD[i].binder_key(n, bytes, psk_len, is_external, key[i], len) == YZ_OK &&
                 BUILD[i].finished(n, key[i], len, bytes + MOST_KEY, len, out[i], len) == YZ_OK,
             "a binder");
    must(!memcmp(key[V2], key[V3], len) && !memcmp(out[V2], out[V3], len), "binders are the same");
    for (int right = 1; right >= 0; right--, out[V2][below(len)] ^= 1)
        for (int i = 0; i < BUILDS; i++)
            must(BUILD[i].finished_verify(n, key[i], len, bytes + MOST_KEY, len, out[V2], len) ==
                     (right ? YZ_OK : YZ_UNSPECIFIED), "a binder is verified");
}

static bool is_header(const build *it, uint32_t n, const uint8_t *secret, size_t secret_len,
                      const uint8_t *body, size_t body_len, const char *text, size_t len) {
    yz_status status =
        it->verify_hex(n, secret, secret_len, "sha256=", 7, body, body_len, text, len);
    must(n != YZ_SHA256 || status == it->verify_github(secret, secret_len, body, body_len, text,
                                                       len), "GitHub's are of the same form");
    return status == YZ_OK;
}

/* The header of a webhook, of Stripe's if so, which has a time before the body: each build verifies
 * it, and refuses it with a bit turned. */
static void header(uint32_t n, const uint8_t *bytes, size_t body_len, bool is_stripes) {
    static uint8_t signed_bytes[2 + MOST_PAYLOAD] = "7.";
    char text[8 + 2 * YZ_MAX_OUTPUT_LEN];
    uint8_t tag[YZ_MAX_OUTPUT_LEN];
    const size_t secret_len = 1 + below(MOST_KEY), out_len = yz_output_len(n);
    const uint8_t *body = signed_bytes + 2, *from = is_stripes ? signed_bytes : body;
    memcpy(signed_bytes + 2, bytes + MOST_KEY, body_len);
    must(either()->hmac_sign(n, bytes, secret_len, from, body_len + (is_stripes ? 2 : 0), tag,
                             out_len) == YZ_OK, "the tag of a body");
    memcpy(text, is_stripes ? "t=7,v1=" : "sha256=", 7);
    for (size_t i = 0; i < out_len; i++) snprintf(text + 7 + 2 * i, 3, "%02x", tag[i]);
    for (int right = 1; right >= 0; right--, text[below(7 + 2 * out_len)] ^= 1)
        for (int i = 0; i < BUILDS; i++)
            must((is_stripes ? BUILD[i].verify_stripe(bytes, secret_len, body, body_len, text,
                                                      7 + 2 * out_len, 9, 2) == YZ_OK
                             : is_header(&BUILD[i], n, bytes, secret_len, body, body_len, text,
                                         7 + 2 * out_len)) == (right != 0), "a header is verified");
}

int main(void) {
    static uint8_t message[MOST_MESSAGE];
    for (size_t i = 0; i < MOST_MESSAGE; i++) message[i] = (uint8_t)rand();
    for (int turn = 0; turn < MESSAGES; turn++) {
        uint32_t n = 1 + (uint32_t)below(ALGORITHMS_COUNT);
        size_t len = below(MOST_MESSAGE);
        digest_in_pieces(n, message, len);
        if (IS_KEYED(n)) tag_in_pieces(n, below(MOST_KEY), message, len);
    }
    for (int turn = 0; turn < LISTS; turn++)
        several(1 + (uint32_t)below(ALGORITHMS_COUNT), message, below(MOST_COUNT + 1));
    for (int turn = 0; turn < DERIVATIONS; turn++)
        derivations(1 + (uint32_t)below(YZ_SHA512), 1 + (uint32_t)below(MOST_ITERATIONS),
                    message, 1 + below(MOST_DERIVED));
    for (int turn = 0; turn < DERIVATIONS; turn++)
        expansion(1 + (uint32_t)below(YZ_SHA512), message, 1 + below(MOST_DERIVED));
    for (int turn = 0; turn < TREES; turn++) tree(message, 2 + below(MOST_LEAVES - 1));
    for (int turn = 0; turn < TOKENS; turn++) {
        token(YZ_SHA256 + (uint32_t)below(3), message, below(MOST_PAYLOAD));
        password(1 + (uint32_t)below(YZ_SHA512), message, 1 + below(MOST_KEY),
                 (uint64_t)rand() << below(28));
        finished(1 + (uint32_t)below(YZ_SHA512), message, 1 + below(MOST_KEY));
        header(1 + (uint32_t)below(YZ_SHA512), message, below(MOST_PAYLOAD), false);
        header(YZ_SHA256, message, below(MOST_PAYLOAD), true);
    }
    for (int turn = 0; turn < GARBAGE; turn++) garbage(message);
    printf("both builds agree: %d messages in %ld pieces, %d lists of messages, %d derived keys of "
           "each kind, %d trees, %d tokens, passwords, binders and headers, %d times garbage\n",
           MESSAGES, steps, LISTS, DERIVATIONS, TREES, TOKENS, GARBAGE);
}
