/* SPDX-License-Identifier: ISC */
/* Run under valgrind, with every secret marked as memory that was never written: memcheck then
 * reports each jump and each address that depends on one. What a call answers is made known before
 * it is looked at. The planted bodies, whose jumps or addresses do depend on secrets, must be
 * reported. */
#include "../rows.h"
#include "yezdopin.h"
#include <stdio.h>
#include <stdlib.h>
#include <string.h>
#include <valgrind/memcheck.h>

#define HIDE(memory, len) VALGRIND_MAKE_MEM_UNDEFINED(memory, len)
#define SHOW(memory, len) VALGRIND_MAKE_MEM_DEFINED(memory, len)
#define MOST 300
#define ITERATIONS 3

bool plant_equal(const uint8_t *, size_t, const uint8_t *, size_t);
bool plant_verify(const uint8_t *, size_t, const uint8_t *, size_t, const uint8_t *, size_t);
uint8_t plant_lookup(const uint8_t *table, uint8_t place);

static const size_t LEN[] = {0,  1,   3,   4,   20,  31,  32,  33,  55,  56,  63,
                             64, 65,  100, 111, 112, 127, 128, 129, 200, 255, MOST};
#define LENGTHS (sizeof LEN / sizeof *LEN)

/* What is secret, and what calls make of it. */
typedef struct {
    uint8_t key[MOST], message[MOST], out[2 * MOST + 1], tag[YZ_MAX_OUTPUT_LEN];
} secrets;

static unsigned before, faults;

static void begin(void) { before = VALGRIND_COUNT_ERRORS; }

static void end(const char *what, uint32_t n, bool is_planted) {
    unsigned reports = VALGRIND_COUNT_ERRORS - before;
    bool is_fault = is_planted ? reports == 0 : reports != 0;
    printf("%s: %s, algorithm %u: %u reports\n", is_fault ? "FAILED" : "ok", what, n, reports);
    faults += is_fault;
}

static void hide(secrets *its) {
    HIDE(its->key, sizeof its->key), HIDE(its->message, sizeof its->message);
}

/* What a call answers may tell whether a verification succeeded. */
static void is(yz_status status, yz_status wanted) {
    SHOW(&status, sizeof status);
    if (status == wanted) return;
    printf("FAILED: a call answers %d and not %d\n", status, wanted);
    exit(3);
}

static size_t other(size_t i) { return LEN[(7 * i + 5) % LENGTHS]; }

static void equality(secrets *its) {
    begin();
    for (size_t i = 0; i < LENGTHS; i++)
        for (int same = 0; same < 2; same++) {
            hide(its);
            bool answer = yz_equal(its->key, LEN[i], same ? its->key : its->message, LEN[i]);
            SHOW(&answer, sizeof answer);
            if (same && !answer) exit(3);
        }
    end("equal", 0, false);
}

static void digests(secrets *its, uint32_t n) {
    size_t len = yz_output_len(n);
    begin();
    for (size_t i = 0; i < LENGTHS; i++) {
        yz_digest_context context;
        hide(its);
        is(yz_digest(n, its->message, LEN[i], its->out, len), YZ_OK);
        is(yz_digest_init(n, &context), YZ_OK);
        is(yz_digest_update(&context, its->message, LEN[i]), YZ_OK);
        is(yz_digest_update(&context, its->key, other(i)), YZ_OK);
        is(yz_digest_final(&context, its->out, len), YZ_OK);
        yz_clear(&context, sizeof context);
    }
    end("digest of a message, whole and in pieces", n, false);
}

static void digests_of_several(secrets *its, uint32_t n) {
    size_t len = yz_output_len(n);
    begin();
    for (size_t i = 0; i < LENGTHS; i++) {
        const yz_message nine[] = {
            {its->message, LEN[i]}, {its->key, other(i)}, {its->message, other(i)},
            {its->message, LEN[i]}, {its->key, LEN[i]},   {its->key, other(i)},
            {its->message, LEN[i]}, {its->key, LEN[i]},   {its->message, other(i)}};
        hide(its);
        is(yz_digest_each(n, nine, 9, its->out, 9 * len), YZ_OK);
    }
    end("digests of several messages", n, false);
}

static void tags(secrets *its, uint32_t n) {
    size_t len = yz_output_len(n);
    begin();
    for (size_t i = 0; i < LENGTHS; i++)
        for (size_t j = 0; j < LENGTHS; j++) {
            hide(its);
            is(yz_hmac_sign(n, its->key, LEN[i], its->message, LEN[j], its->out, len), YZ_OK);
        }
    end("tag of a message under a key", n, false);
    begin();
    for (size_t i = 0; i < LENGTHS; i++) {
        yz_hmac_key made;
        yz_hmac_context context;
        hide(its);
        is(yz_hmac_key_init(n, its->key, LEN[i], &made), YZ_OK);
        is(yz_hmac_key_sign(&made, its->message, other(i), its->out, len), YZ_OK);
        is(yz_hmac_init(&made, &context), YZ_OK);
        is(yz_hmac_update(&context, its->message, LEN[i]), YZ_OK);
        is(yz_hmac_update(&context, its->message, other(i)), YZ_OK);
        is(yz_hmac_final(&context, its->out, len), YZ_OK);
    }
    end("keys, and tags in pieces", n, false);
}

static void verified_tags(secrets *its, uint32_t n) {
    size_t len = yz_output_len(n);
    begin();
    for (size_t i = 0; i < LENGTHS; i++)
        for (int same = 0; same < 2; same++) {
            yz_hmac_key made;
            yz_status wanted = same ? YZ_OK : YZ_UNSPECIFIED;
            hide(its);
            is(yz_hmac_key_init(n, its->key, LEN[i], &made), YZ_OK);
            is(yz_hmac_key_sign(&made, its->message, other(i), its->tag, len), YZ_OK);
            if (!same) its->tag[i % len] ^= 1;
            is(yz_hmac_key_verify(&made, its->message, other(i), its->tag, len), wanted);
            is(yz_hmac_verify(n, its->key, LEN[i], its->message, other(i), its->tag, len), wanted);
            is(yz_hmac_verify(n, its->key, LEN[i], its->message, other(i), its->tag, len - 1),
               YZ_UNSPECIFIED);
        }
    end("verification of a tag", n, false);
}

static void expansions(secrets *its, uint32_t n) {
    size_t len = yz_output_len(n);
    begin();
    for (size_t i = 0; i < LENGTHS; i++) {
        hide(its);
        is(yz_hkdf_extract(n, its->key, LEN[i], its->message, other(i), its->tag, len), YZ_OK);
        is(yz_hkdf_expand(n, its->tag, len, its->key, other(i), its->out, LEN[i]), YZ_OK);
        is(yz_hkdf_expand_label(n, its->tag, len, its->key, 1 + other(i) % YZ_MAX_LABEL_LEN,
                                its->message, LEN[i] % YZ_MAX_CONTEXT_LEN, its->out, LEN[i]),
           YZ_OK);
        is(yz_hkdf(n, its->key, LEN[i], its->message, other(i), its->message, 9, its->out,
                   2 * LEN[i]), YZ_OK);
    }
    end("HKDF of salt, secret, PRK, info, label and context", n, false);
}

static void finished(secrets *its, uint32_t n) {
    size_t len = yz_output_len(n);
    begin();
    for (size_t i = 0; i < len; i++)
        for (int same = 0; same < 2; same++) {
            hide(its);
            is(yz_tls13_finished(n, its->key, len, its->message, len, its->tag, len), YZ_OK);
            if (!same) its->tag[i] ^= 1;
            is(yz_tls13_finished_verify(n, its->key, len, its->message, len, its->tag, len),
               same ? YZ_OK : YZ_UNSPECIFIED);
        }
    for (size_t i = 1; i < LENGTHS; i++) {
        hide(its);
        is(yz_tls13_binder_key(n, its->key, LEN[i], i % 2, its->out, len), YZ_OK);
    }
    end("Finished of base key and hash, and a binder's key", n, false);
}

/* Writes a tag as hex behind a prefix, and makes the text known: a header is no secret. */
static size_t header_of(char *header, const char *prefix, uint8_t *tag, size_t len) {
    size_t at = strlen(prefix);
    memcpy(header, prefix, at);
    SHOW(tag, len);
    for (size_t i = 0; i < len; i++, at += 2) snprintf(header + at, 3, "%02x", tag[i]);
    return at;
}

static void webhooks(secrets *its, uint32_t n) {
    char header[16 + 2 * YZ_MAX_OUTPUT_LEN];
    size_t len = yz_output_len(n);
    begin();
    for (size_t i = 1; i < LENGTHS; i++)
        for (int same = 0; same < 2; same++) {
            yz_status wanted = same ? YZ_OK : YZ_UNSPECIFIED;
            is(yz_hmac_sign(n, its->key, LEN[i], its->message, other(i), its->tag, len), YZ_OK);
            size_t size = header_of(header, "sha256=", its->tag, len);
            if (!same) header[7 + i] ^= 1;
            hide(its);
            is(yz_webhook_verify_hex(n, its->key, LEN[i], header, 7, its->message, other(i), header,
                                     size), wanted);
            if (n != YZ_SHA256) continue;
            is(yz_webhook_verify_github(its->key, LEN[i], its->message, other(i), header, size),
               wanted);
        }
    end("headers of webhooks", n, false);
}

/* What Stripe signs: a time and a full stop before the body. */
static void stripe(secrets *its) {
    char header[16 + 2 * YZ_MAX_OUTPUT_LEN];
    size_t len = YZ_SHA256_OUTPUT_LEN;
    begin();
    for (size_t i = 1; i < LENGTHS; i++)
        for (int same = 0; same < 2; same++) {
            uint8_t *body = its->message + 2;
            hide(its);
            memcpy(its->message, "7.", 2);
            is(yz_hmac_sign(YZ_SHA256, its->key, LEN[i], its->message, 11, its->tag, len), YZ_OK);
            size_t size = header_of(header, "t=7,v1=,v1=", its->tag, len);
            if (!same) header[11 + i] ^= 1;
            is(yz_webhook_verify_stripe(its->key, LEN[i], body, 9, header, size, 9, 2),
               same ? YZ_OK : YZ_UNSPECIFIED);
        }
    end("a header of Stripe's", YZ_SHA256, false);
}

static void derivations(secrets *its, uint32_t n) {
    const uint8_t *salt = its->message, *secret = its->key;
    begin();
    for (size_t i = 0; i < LENGTHS; i++) {
        size_t len = LEN[i] + 1;
        hide(its);
        is(yz_pbkdf2_derive(n, ITERATIONS, salt, other(i), secret, LEN[i], its->out, len), YZ_OK);
        is(yz_pbkdf2_verify(n, ITERATIONS, salt, other(i), secret, LEN[i], its->out, len), YZ_OK);
        its->out[i % len] ^= 1;
        is(yz_pbkdf2_verify(n, ITERATIONS, salt, other(i), secret, LEN[i], its->out, len),
           YZ_UNSPECIFIED);
    }
    end("PBKDF2 of salt, secret and value", n, false);
}

/* Passwords alone: the text of a hash, and so its length and its count, is no secret. */
static void password_hashes(secrets *its) {
    static const char hash[] = "$7$3$AAECAwQFBgcICQoL$cJ75j/0MokIxIQCU/t1k7JBGVfwD3W1st+OyLYF0EzgR"
                               "LNjRyexylNuHrNThmUCWBWt20yys3R1zS31q5smg/w==";
    static const char keys[] = "SCRAM-SHA-256$3:AAECAwQFBgcICQoLDA0ODw==$7xyJ1HnA2mtSyupYnfwfyMN/"
                               "J3bBFnm1azxiuCq93cA=:2gGHDOt/fKGk7q0t853S5/tlrW2XzQkPg60ChUqH8m4=";
    begin();
    for (size_t i = 0; i < LENGTHS; i++) {
        hide(its);
        is(yz_password_hash_verify(hash, sizeof hash - 1, its->key, LEN[i], 3), YZ_UNSPECIFIED);
        is(yz_password_hash_verify(keys, sizeof keys - 1, its->key, LEN[i], 3), YZ_UNSPECIFIED);
    }
    end("password against a hash", 0, false);
}

/* That what is made of a secret counts as one, without which nothing above would say anything. */
static void outputs_are_secret(secrets *its, uint32_t n) {
    begin();
    hide(its);
    is(yz_digest(n, its->message, 40, its->out, yz_output_len(n)), YZ_OK);
    (void)VALGRIND_CHECK_MEM_IS_DEFINED(its->out, yz_output_len(n));
    end("planted: a digest of a secret is looked at", n, true);
}

static void planted(secrets *its) {
    static const uint8_t TABLE[256];
    begin();
    hide(its);
    bool equal = plant_equal(its->key, 32, its->message, 32);
    SHOW(&equal, sizeof equal);
    end("planted: a comparison by ==", 0, true);
    begin();
    hide(its);
    SHOW(its->tag, sizeof its->tag), memset(its->tag, 0, sizeof its->tag);
    bool verified = plant_verify(its->key, 32, its->message, 40, its->tag, YZ_SHA256_OUTPUT_LEN);
    SHOW(&verified, sizeof verified);
    end("planted: one inside a verification", YZ_SHA256, true);
    begin();
    hide(its);
    uint8_t found = plant_lookup(TABLE, its->key[0]);
    SHOW(&found, sizeof found);
    end("planted: a table read at a secret place", 0, true);
    if (equal || verified || found) exit(3);
}

int main(void) {
    if (!RUNNING_ON_VALGRIND) return puts("FAILED: not under valgrind"), 2;
    static secrets its;
    for (size_t i = 0; i < MOST; i++)
        its.key[i] = (uint8_t)(3 * i), its.message[i] = (uint8_t)(7 * i + 1);
    equality(&its);
    for (uint32_t n = 1; n <= ALGORITHMS_COUNT; n++)
        digests(&its, n), digests_of_several(&its, n), outputs_are_secret(&its, n);
    FOR_EACH_KEYED(n)
        tags(&its, n), verified_tags(&its, n), expansions(&its, n), derivations(&its, n),
            finished(&its, n), webhooks(&its, n);
    stripe(&its);
    password_hashes(&its);
    planted(&its);
    return faults != 0;
}
