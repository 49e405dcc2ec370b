/* SPDX-License-Identifier: ISC */
/* How much stack the calls take: each is run on a stack of its own that was painted before. */
#define _GNU_SOURCE
#include "../rows.h"
#include "yezdopin.h"
#include <stdio.h>
#include <string.h>

#define ROOM (64 * 1024)
#ifdef _WIN32
#define PROMISED (12 * 1024)
#else
#include <ucontext.h>
#define PROMISED (8 * 1024)
#endif
/* What the calls of password hashes are promised: they hold a text's salt and hash. */
#define PROMISED_TO_HASHES (20 * 1024)
#define FIRST_OF_HASHES 19
#define LAST_OF_HASHES 24
#define LAST 42
#define PAINT 0xa5
#define COUNT 10
#define LEAVES 18

static uint32_t n;
static int call;
static const char hash[] = "$7$101$AAECAwQFBgcICQoL$cJ75j/0MokIxIQCU/t1k7JBGVfwD3W1st+OyLYF0EzgR"
                           "LNjRyexylNuHrNThmUCWBWt20yys3R1zS31q5smg/w==";
static const char keys[] = "SCRAM-SHA-256$1000:AAECAwQFBgcICQoLDA0ODw==$7xyJ1HnA2mtSyupYnfwfyMN/"
                           "J3bBFnm1azxiuCq93cA=:2gGHDOt/fKGk7q0t853S5/tlrW2XzQkPg60ChUqH8m4=";
static const char password[] = "correct horse battery staple";
#define DIGITS "0123456789abcdef0123456789abcdef"
static const char header[] = "sha256=" DIGITS DIGITS DIGITS DIGITS;
static const char stripe[] = "t=1492774577,v1=" DIGITS DIGITS ",v1=";

/* The status of a call that refuses a wrong header, once it has compared it. */
static yz_status wrong(yz_status status) { return status == YZ_UNSPECIFIED ? YZ_OK : status; }

/* Runs one call on long inputs: a key past a block, several blocks, several rounds. What is large
 * is on no stack. */
static void run(void) {
    static uint8_t bytes[600], out[COUNT * YZ_MAX_OUTPUT_LEN], payload[700];
    static const yz_message messages[COUNT] = {
        {bytes, 400}, {bytes, 300}, {bytes, 400}, {bytes, 400}, {bytes, 333},
        {bytes, 400}, {bytes, 500}, {bytes, 600}, {bytes, 400}, {bytes, 1}};
    static char text[YZ_MAX_PASSWORD_HASH_LEN];
    static yz_merkle_hash leaves[LEAVES], path[YZ_MERKLE_MAX_PATH], root, first;
    static char token[YZ_JWS_TOKEN_LEN(YZ_MAX_OUTPUT_LEN, 400)], digits[YZ_OTP_MAX_DIGITS];
    static size_t path_count, token_len;
    static uint64_t counter;
    static yz_digest_context context;
    static yz_hmac_key key;
    static yz_hmac_context tag;
    size_t len = yz_output_len(n), text_len;
    uint32_t scheme, iterations;
    yz_status status = YZ_OK;
    switch (call) {
    case 0: status = yz_digest(n, bytes, 400, out, len); break;
    case 1: status = yz_digest_init(n, &context); break;
    case 2: status = yz_digest_update(&context, bytes, 333); break;
    case 3: status = yz_digest_final(&context, out, len); break;
    case 4: status = yz_hmac_sign(n, bytes, 300, bytes, 400, out, len); break;
    case 5: status = yz_hmac_verify(n, bytes, 300, bytes, 400, out, len); break;
    case 6: status = yz_hmac_key_init(n, bytes, 300, &key); break;
    case 7: status = yz_hmac_key_sign(&key, bytes, 400, out, len); break;
    case 8: status = yz_hmac_key_verify(&key, bytes, 400, out, len); break;
    case 9: status = yz_hmac_init(&key, &tag); break;
    case 10: status = yz_hmac_update(&tag, bytes, 333); break;
    case 11: status = yz_hmac_final(&tag, out, len); break;
    case 12: status = yz_hkdf_extract(n, bytes, 300, bytes, 400, out, len); break;
    case 13: status = yz_hkdf_expand(n, bytes, 300, bytes, 200, out, 400); break;
    case 14: status = yz_hkdf(n, bytes, 300, bytes, 400, bytes, 200, out, 400); break;
    case 15: status = yz_pbkdf2_derive(n, 3, bytes, 300, bytes, 400, out, sizeof out); break;
    case 16: status = yz_pbkdf2_verify(n, 3, bytes, 300, bytes, 400, out, sizeof out); break;
    case 17: status = yz_digest_each(n, messages, COUNT, out, COUNT * len); break;
    case 18:
        status = yz_hkdf_expand_label(n, bytes, 300, bytes, 249, bytes, 255, out, 400);
        break;
    case 19:
        status = yz_password_hash_verify(hash, sizeof hash - 1, (const uint8_t *)password,
                                         sizeof password - 1, 101);
        break;
    case 20:
        status = yz_password_hash_new(YZ_MOSQUITTO, 3, bytes, 300, bytes, 400, text, sizeof text,
                                      &text_len);
        break;
    case 21:
        status = yz_password_hash_verify(keys, sizeof keys - 1, (const uint8_t *)password,
                                         sizeof password - 1, 1000);
        break;
    case 22:
        status = yz_password_hash_new(YZ_POSTGRESQL, 3, bytes, 300, bytes, 400, text, sizeof text,
                                      &text_len);
        break;
    case 23: status = yz_password_hash_info(keys, sizeof keys - 1, &scheme, &iterations); break;
    case 24:
        status = yz_password_hash_salt(YZ_DJANGO_SHA256, bytes, 16, out, sizeof out, &text_len);
        break;
    case 25: status = yz_merkle_leaf(bytes, 400, &leaves[0]); break;
    case 26: status = yz_merkle_root(leaves, LEAVES, &root); break;
    case 27:
        status = yz_merkle_inclusion_path(leaves, LEAVES, 5, path, YZ_MERKLE_MAX_PATH, &path_count);
        break;
    case 28:
        status = yz_merkle_verify_inclusion(&leaves[5], 5, LEAVES, path, path_count, &root);
        break;
    case 29:
        status = yz_merkle_root(leaves, LEAVES / 2, &first);
        if (status == YZ_OK)
            status = yz_merkle_consistency_path(leaves, LEAVES, LEAVES / 2, path,
                                                YZ_MERKLE_MAX_PATH, &path_count);
        break;
    case 30:
        status = yz_merkle_verify_consistency(LEAVES / 2, &first, LEAVES, &root, path, path_count);
        break;
    case 31:
        if (n != YZ_SHA1)
            status = yz_jws_sign(n, bytes, 300, bytes, 400, token, sizeof token, &token_len);
        break;
    case 32:
        if (n != YZ_SHA1)
            status = yz_jws_verify(n, bytes, 300, token, token_len, payload, sizeof payload,
                                   &text_len);
        break;
    case 33: status = yz_hotp(n, bytes, 300, 1, digits, sizeof digits); break;
    case 34:
        status = yz_hotp_find(n, bytes, 300, 0, 9, sizeof digits, digits, sizeof digits, &counter);
        break;
    case 35: status = yz_totp(n, bytes, 300, 59, 30, digits, sizeof digits); break;
    case 36:
        status = yz_totp_find(n, bytes, 300, 89, 30, 1, 1, sizeof digits, digits, sizeof digits,
                              &counter);
        break;
    case 37: status = yz_tls13_finished(n, bytes, len, bytes + 99, len, out, len); break;
    case 38: status = yz_tls13_finished_verify(n, bytes, len, bytes + 99, len, out, len); break;
    case 39: status = yz_tls13_binder_key(n, bytes, 300, true, out, len); break;
    case 40:
        status = wrong(yz_webhook_verify_hex(n, bytes, 300, header, 7, bytes, 400, header,
                                             7 + 2 * len));
        break;
    case 41:
        status = wrong(yz_webhook_verify_github(bytes, 300, bytes, 400, header, 7 + 64));
        break;
    case LAST:
        status = wrong(yz_webhook_verify_stripe(bytes, 300, bytes, 400, stripe, sizeof stripe - 1,
                                                1492774577, 300));
        break;
    }
    if (status != YZ_OK) printf("call %d of algorithm %u answers %d\n", call, n, status);
}

#ifdef _WIN32
/* Paints the stack that the caller's next call has, or gives how much of it is painted no more. */
static __attribute__((noinline)) size_t below(bool paints) {
    volatile uint8_t room[ROOM];
    size_t i = 0;
    for (; i < ROOM && (paints || room[i] == PAINT); i++) room[i] = PAINT;
    return ROOM - i;
}

/* How much stack the call takes. */
static size_t used(void) {
    below(true);
    run();
    return below(false);
}
#else
/* How much stack the call takes, on one of its own. */
static size_t used(void) {
    static uint8_t stack[ROOM] __attribute__((aligned(64)));
    static ucontext_t back, there;
    memset(stack, PAINT, ROOM);
    if (getcontext(&there)) return ROOM;
    there.uc_stack.ss_sp = stack, there.uc_stack.ss_size = ROOM, there.uc_link = &back;
    makecontext(&there, run, 0);
    if (swapcontext(&back, &there)) return ROOM;
    size_t untouched = 0;
    while (untouched < ROOM && stack[untouched] == PAINT) untouched++;
    return ROOM - untouched;
}
#endif

int main(void) {
    static size_t most, most_of_hashes;
    FOR_EACH_KEYED(number)
        for (n = number, call = 0; call <= LAST; call++) {
            size_t now = used();
            bool is_of_hashes = call >= FIRST_OF_HASHES && call <= LAST_OF_HASHES;
            size_t *of = is_of_hashes ? &most_of_hashes : &most;
            if (now > *of) *of = now;
        }
    printf("%zu bytes of stack at most, of %d; a password hash's call %zu, of %d\n", most,
           PROMISED, most_of_hashes, PROMISED_TO_HASHES);
    return most > PROMISED || most_of_hashes > PROMISED_TO_HASHES;
}
