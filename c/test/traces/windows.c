/* SPDX-License-Identifier: ISC */
/* Each call that takes a secret, over all algorithms and many lengths, between two marks: a window.
 * The secrets are made from the argument, a number; lengths and all else are the same in each run.
 * The name of each window is printed. Those that are called planted leak; the others must not. */
#include "../../rows.h"
#include "yezdopin.h"
#include <stdio.h>
#include <stdlib.h>
#include <string.h>

#define MOST 300
#define NOINLINE __attribute__((noinline))

NOINLINE void window_begin(void) { __asm__ volatile("" ::: "memory"); }
NOINLINE void window_end(void) { __asm__ volatile("" ::: "memory"); }

static const size_t LEN[] = {0,  1,   3,   4,   20,  31,  32,  33,  55,  56,  63,
                             64, 65,  100, 111, 112, 127, 128, 129, 200, 255, MOST};
#define LENGTHS (sizeof LEN / sizeof *LEN)

static uint8_t a[MOST], b[MOST], tag[YZ_MAX_OUTPUT_LEN], out[9 * YZ_MAX_OUTPUT_LEN + 1];
static uint8_t table[256];
static uint64_t state;
static yz_status status;
static volatile int kept;

/* Knuth's generator, of which the upper bits are taken. */
static uint8_t secret(void) {
    state = state * UINT64_C(6364136223846793005) + UINT64_C(1442695040888963407);
    return (uint8_t)(state >> 56);
}

static void renew(uint8_t *bytes, size_t len) {
    for (size_t i = 0; i < len; i++) bytes[i] = secret();
}

static size_t other(size_t i) { return LEN[(7 * i + 5) % LENGTHS]; }

/* Changes a byte at a secret place. */
static void spoil(uint8_t *bytes, size_t len) { bytes[secret() % len] ^= 1; }

static void must_be(yz_status wanted) {
    if (status == wanted) return;
    fprintf(stderr, "windows: a call answers %d and not %d\n", status, wanted);
    exit(3);
}

#define WINDOW(what, wanted, ...)                                       \
    do {                                                                \
        printf("%s, algorithm %u, lengths %zu and %zu\n", what, n, l, m); \
        window_begin();                                                 \
        __VA_ARGS__;                                                    \
        window_end();                                                   \
        must_be(wanted);                                                \
    } while (0)

static void digests(uint32_t n, size_t l, size_t m) {
    size_t len = yz_output_len(n);
    yz_digest_context context;
    const yz_message nine[] = {{a, l}, {b, m}, {a, m}, {a, l}, {b, l},
                               {b, m}, {a, l}, {b, l}, {a, m}};
    WINDOW("a digest", YZ_OK, status = yz_digest(n, a, l, out, len));
    WINDOW("a digest in pieces", YZ_OK,
           status = yz_digest_init(n, &context) | yz_digest_update(&context, a, l) |
                    yz_digest_update(&context, b, m) | yz_digest_final(&context, out, len));
    WINDOW("nine digests", YZ_OK, status = yz_digest_each(n, nine, 9, out, 9 * len));
}

static void comparisons(uint32_t n, size_t l) {
    size_t m = l;
    if (l == 0) return;
    memcpy(b, a, l);
    WINDOW("equal lists", YZ_OK, status = !yz_equal(a, l, b, l));
    spoil(b, l);
    WINDOW("different lists", 1, status = !yz_equal(a, l, b, l));
}

static void tags(uint32_t n, size_t l, size_t m) {
    size_t len = yz_output_len(n);
    yz_hmac_key key;
    yz_hmac_context context;
    WINDOW("a tag", YZ_OK, status = yz_hmac_sign(n, a, l, b, m, tag, len));
    WINDOW("a right tag", YZ_OK, status = yz_hmac_verify(n, a, l, b, m, tag, len));
    WINDOW("a key, and its tag", YZ_OK,
           status = yz_hmac_key_init(n, a, l, &key) | yz_hmac_key_sign(&key, b, m, tag, len));
    WINDOW("a right tag under a key", YZ_OK,
           status = yz_hmac_key_verify(&key, b, m, tag, len));
    spoil(tag, len);
    WINDOW("a wrong tag", YZ_UNSPECIFIED, status = yz_hmac_verify(n, a, l, b, m, tag, len));
    WINDOW("a wrong tag under a key", YZ_UNSPECIFIED,
           status = yz_hmac_key_verify(&key, b, m, tag, len));
    WINDOW("a tag in pieces", YZ_OK,
           status = yz_hmac_init(&key, &context) | yz_hmac_update(&context, b, l) |
                    yz_hmac_update(&context, a, m) | yz_hmac_final(&context, out, len));
}

/* A wrong token, whose text is public: the same in each run, under keys that differ. */
static void tokens(uint32_t n, size_t l, size_t m) {
    static char token[8 + YZ_BASE64_LEN(YZ_MAX_OUTPUT_LEN)] = "e30.e30.";
    size_t len = YZ_BASE64_LEN(yz_output_len(n)), payload_len;
    if (n == YZ_SHA1 || l < yz_output_len(n)) return;
    memset(token + 8, 'A', len);
    WINDOW("a wrong token", YZ_UNSPECIFIED,
           status = yz_jws_verify(n, a, l, token, 8 + len, out, sizeof out, &payload_len));
}

/* Wrong headers of webhooks, whose texts are public too. */
static void webhooks(uint32_t n, size_t l, size_t m) {
    static char header[16 + 2 * YZ_MAX_OUTPUT_LEN] = "sha256=";
    static const char stripe[] =
        "t=1492774577,v1=799c4ba7bb339f3c8601adfd112f0e477c930a268be1243d341abb8286501c2f,v1=";
    size_t len = 7 + 2 * yz_output_len(n);
    if (l == 0) return;
    memset(header + 7, 'c', len - 7);
    WINDOW("a wrong header", YZ_UNSPECIFIED,
           status = yz_webhook_verify_hex(n, a, l, header, 7, b, m, header, len));
    WINDOW("no header", YZ_UNSPECIFIED,
           status = yz_webhook_verify_hex(n, a, l, header, 7, b, m, header, 9));
    if (n != YZ_SHA256) return;
    WINDOW("a wrong header of GitHub's", YZ_UNSPECIFIED,
           status = yz_webhook_verify_github(a, l, b, m, header, len));
    WINDOW("a wrong header of Stripe's", YZ_UNSPECIFIED,
           status = yz_webhook_verify_stripe(a, l, b, m, stripe, sizeof stripe - 1, 1492774577, 0));
}

static void finished(uint32_t n, size_t l, size_t m) {
    size_t len = yz_output_len(n);
    WINDOW("a Finished", YZ_OK, status = yz_tls13_finished(n, a, len, b, len, tag, len));
    WINDOW("a right Finished", YZ_OK,
           status = yz_tls13_finished_verify(n, a, len, b, len, tag, len));
    spoil(tag, len);
    WINDOW("a wrong Finished", YZ_UNSPECIFIED,
           status = yz_tls13_finished_verify(n, a, len, b, len, tag, len));
    if (l == 0) return;
    WINDOW("a binder's key", YZ_OK,
           status = yz_tls13_binder_key(n, a, l, m % 2 == 0, out, len));
}

static void derivations(uint32_t n, size_t l, size_t m) {
    size_t len = yz_output_len(n);
    WINDOW("HKDF", YZ_OK, status = yz_hkdf(n, a, l, b, m, a, m, out, 2 * len + 1));
    WINDOW("HKDF's first step", YZ_OK, status = yz_hkdf_extract(n, a, l, b, m, tag, len));
    WINDOW("HKDF's second step", YZ_OK,
           status = yz_hkdf_expand(n, tag, len, a, m, out, 3 * len));
    WINDOW("HKDF-Expand-Label", YZ_OK,
           status = yz_hkdf_expand_label(n, tag, len, a, 1 + m % YZ_MAX_LABEL_LEN, b,
                                         l % YZ_MAX_CONTEXT_LEN, out, 3 * len));
    WINDOW("PBKDF2", YZ_OK, status = yz_pbkdf2_derive(n, 3, a, l, b, m, out, 9 * len + 1));
    WINDOW("a right derived key", YZ_OK,
           status = yz_pbkdf2_verify(n, 3, a, l, b, m, out, 9 * len + 1));
    spoil(out, 9 * len + 1);
    WINDOW("a wrong derived key", YZ_UNSPECIFIED,
           status = yz_pbkdf2_verify(n, 3, a, l, b, m, out, 9 * len + 1));
}

NOINLINE static int early_exit(const uint8_t *x, const uint8_t *y, size_t len) {
    for (size_t i = 0; i < len; i++)
        if (x[i] != y[i]) return 0;
    return 1;
}

NOINLINE static uint8_t looked_up(const volatile uint8_t *bytes, uint8_t place) {
    return bytes[place];
}

static void planted(void) {
    uint32_t n = 0;
    size_t l = 64, m = 64;
    status = YZ_OK;
    for (int i = 0; i < 4; i++) {
        renew(a, l);
        memcpy(b, a, l), spoil(b, l);
        WINDOW("planted: a comparison that ends at a difference", YZ_OK,
               kept = early_exit(a, b, l));
        WINDOW("planted: a table read at a secret place", YZ_OK, kept = looked_up(table, a[0]));
    }
}

int main(int count, char **words) {
    if (count != 2) return 2;
    state = strtoul(words[1], NULL, 10) * UINT64_C(0x9e3779b97f4a7c15);
    for (uint32_t n = 1; n <= ALGORITHMS_COUNT; n++)
        for (size_t i = 0; i < LENGTHS; i++) {
            renew(a, MOST), renew(b, MOST);
            digests(n, LEN[i], other(i));
            comparisons(n, LEN[i]);
            if (!IS_KEYED(n)) continue;
            tags(n, LEN[i], other(i));
            tokens(n, LEN[i], other(i));
            webhooks(n, LEN[i], other(i));
            finished(n, LEN[i], other(i));
            derivations(n, LEN[i], other(i));
        }
    planted();
    return 0;
}
