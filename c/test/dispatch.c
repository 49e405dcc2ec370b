/* SPDX-License-Identifier: ISC */
/* Which build dispatch.c chooses, also on processors that lack a part of x86-64-v3 or the SHA
 * instructions, and that it hands on each argument and the status. The calls of the builds are
 * stand-ins here. With an argument it prints which build gets which call: PLATFORMS.md's table. */
#include "../rows.h"
#include "yezdopin.h"
#include <cpuid.h>
#include <stdio.h>
#include <stdlib.h>
#include <string.h>

#define MOST_ARGUMENTS 11

static int faults;

static void is(const char *what, long got, long want) {
    if (got == want) return;
    fprintf(stderr, "FAILED: %s is %ld and not %ld\n", what, got, want);
    faults++;
}

#ifdef FORCED
#include "../dispatch.c"
#include "../processor.c"
#else

/* Bits of a leaf that the processor is told to lack, whether it is told to have the SHA
 * instructions, and how often it was asked. */
static struct {
    unsigned leaf, bits;
} lost;
static bool gets_sha;
static int asked;

static int get(unsigned leaf, unsigned *a, unsigned *b, unsigned *c, unsigned *d) {
    int is_known = __get_cpuid(leaf, a, b, c, d);
    asked += leaf == 1;
    if (leaf == lost.leaf) *b &= ~lost.bits, *c &= ~lost.bits;
    return is_known;
}

static int get_count(unsigned leaf, unsigned part, unsigned *a, unsigned *b, unsigned *c,
                     unsigned *d) {
    int is_known = __get_cpuid_count(leaf, part, a, b, c, d);
    if (leaf == 7 && gets_sha) *b |= bit_SHA;
    if (leaf == lost.leaf) *b &= ~lost.bits, *c &= ~lost.bits;
    return is_known;
}

/* What the system saves, but for bits that it is told to lose. */
static unsigned lost_registers;
static unsigned saved(void) {
    unsigned low, high;
    __asm__ volatile("xgetbv" : "=a"(low), "=d"(high) : "c"(0));
    return low & ~lost_registers;
}

#define saved_registers saved
#define __get_cpuid get
#define __get_cpuid_count get_count
#include "../dispatch.c"
#include "../processor.c"
#endif

#define OUTPUT_LEN_OF(name, ...) YZ_##name##_OUTPUT_LEN,
size_t yz_output_len(uint32_t algorithm) {
    static const size_t LEN[] = {0, EACH_ALGORITHM(OUTPUT_LEN_OF)};
    return algorithm < sizeof LEN / sizeof *LEN ? LEN[algorithm] : 0;
}

/* The last stand-in: of which build and which call it is, and its arguments in their order. */
static int build;
static const char *called;
static uintptr_t arguments[MOST_ARGUMENTS];

static yz_status told(int of, const char *name, const uintptr_t *in_order, size_t count) {
    build = of, called = name;
    memset(arguments, 0, sizeof arguments);
    memcpy(arguments, in_order, count * sizeof *in_order);
    return 1000 * of + (int)count;
}

/* STAND_INS(NAME, WIDE, (PARAMETERS), A, B, ..): the call in both builds. */
#define TOLD(of, name, ...)                                                                        \
    {                                                                                              \
        const uintptr_t in_order[] = {__VA_ARGS__};                                                \
        return told(of, name, in_order, sizeof in_order / sizeof *in_order);                       \
    }
#define STAND_INS(name, wide, parameters, ...)                                                     \
    yz_status v2_##name parameters TOLD(2, #name, __VA_ARGS__)                                     \
    yz_status v3_##name##wide parameters TOLD(3, #name, __VA_ARGS__)
#define N(name) (uintptr_t)name
typedef const uint8_t *in;
typedef uint8_t *out;
typedef const yz_merkle_hash *const_hash;

STAND_INS(yz_digest, , (uint32_t a, in b, size_t c, out d, size_t e), N(a), N(b), N(c), N(d), N(e))
STAND_INS(yz_digest_each, _wide, (uint32_t a, const yz_message *b, size_t c, out d, size_t e),
          N(a), N(b), N(c), N(d), N(e))
STAND_INS(yz_digest_update, , (yz_digest_context *a, in b, size_t c), N(a), N(b), N(c))
STAND_INS(yz_digest_final, , (const yz_digest_context *a, out b, size_t c), N(a), N(b), N(c))
STAND_INS(yz_hmac_sign, , (uint32_t a, in b, size_t c, in d, size_t e, out f, size_t g),
          N(a), N(b), N(c), N(d), N(e), N(f), N(g))
STAND_INS(yz_hmac_verify, , (uint32_t a, in b, size_t c, in d, size_t e, in f, size_t g),
          N(a), N(b), N(c), N(d), N(e), N(f), N(g))
STAND_INS(yz_hmac_key_init, , (uint32_t a, in b, size_t c, yz_hmac_key *d), N(a), N(b), N(c), N(d))
STAND_INS(yz_hmac_key_sign, , (const yz_hmac_key *a, in b, size_t c, out d, size_t e),
          N(a), N(b), N(c), N(d), N(e))
STAND_INS(yz_hmac_key_verify, , (const yz_hmac_key *a, in b, size_t c, in d, size_t e),
          N(a), N(b), N(c), N(d), N(e))
STAND_INS(yz_hmac_update, , (yz_hmac_context *a, in b, size_t c), N(a), N(b), N(c))
STAND_INS(yz_hmac_final, , (const yz_hmac_context *a, out b, size_t c), N(a), N(b), N(c))
STAND_INS(yz_jws_sign, ,
          (uint32_t a, in b, size_t c, in d, size_t e, char *f, size_t g, size_t *h),
          N(a), N(b), N(c), N(d), N(e), N(f), N(g), N(h))
STAND_INS(yz_jws_verify, ,
          (uint32_t a, in b, size_t c, const char *d, size_t e, out f, size_t g, size_t *h),
          N(a), N(b), N(c), N(d), N(e), N(f), N(g), N(h))
STAND_INS(yz_hotp, , (uint32_t a, in b, size_t c, uint64_t d, char *e, size_t f),
          N(a), N(b), N(c), N(d), N(e), N(f))
STAND_INS(yz_totp, , (uint32_t a, in b, size_t c, uint64_t d, uint32_t e, char *f, size_t g),
          N(a), N(b), N(c), N(d), N(e), N(f), N(g))
STAND_INS(yz_hotp_find, ,
          (uint32_t a, in b, size_t c, uint64_t d, uint64_t e, size_t f, const char *g, size_t h,
           uint64_t *i),
          N(a), N(b), N(c), N(d), N(e), N(f), N(g), N(h), N(i))
STAND_INS(yz_totp_find, ,
          (uint32_t a, in b, size_t c, uint64_t d, uint32_t e, uint32_t f, uint32_t g, size_t h,
           const char *i, size_t j, uint64_t *k),
          N(a), N(b), N(c), N(d), N(e), N(f), N(g), N(h), N(i), N(j), N(k))
STAND_INS(yz_webhook_verify_hex, ,
          (uint32_t a, in b, size_t c, const char *d, size_t e, in f, size_t g, const char *h,
           size_t i),
          N(a), N(b), N(c), N(d), N(e), N(f), N(g), N(h), N(i))
STAND_INS(yz_webhook_verify_github, , (in a, size_t b, in c, size_t d, const char *e, size_t f),
          N(a), N(b), N(c), N(d), N(e), N(f))
STAND_INS(yz_webhook_verify_stripe, ,
          (in a, size_t b, in c, size_t d, const char *e, size_t f, uint64_t g, uint64_t h),
          N(a), N(b), N(c), N(d), N(e), N(f), N(g), N(h))
STAND_INS(yz_hkdf_extract, , (uint32_t a, in b, size_t c, in d, size_t e, out f, size_t g),
          N(a), N(b), N(c), N(d), N(e), N(f), N(g))
STAND_INS(yz_hkdf_expand, , (uint32_t a, in b, size_t c, in d, size_t e, out f, size_t g),
          N(a), N(b), N(c), N(d), N(e), N(f), N(g))
STAND_INS(yz_hkdf_expand_label, ,
          (uint32_t a, in b, size_t c, in d, size_t e, in f, size_t g, out h, size_t i),
          N(a), N(b), N(c), N(d), N(e), N(f), N(g), N(h), N(i))
STAND_INS(yz_hkdf, , (uint32_t a, in b, size_t c, in d, size_t e, in f, size_t g, out h, size_t i),
          N(a), N(b), N(c), N(d), N(e), N(f), N(g), N(h), N(i))
STAND_INS(yz_tls13_finished, , (uint32_t a, in b, size_t c, in d, size_t e, out f, size_t g),
          N(a), N(b), N(c), N(d), N(e), N(f), N(g))
STAND_INS(yz_tls13_finished_verify, ,
          (uint32_t a, in b, size_t c, in d, size_t e, in f, size_t g),
          N(a), N(b), N(c), N(d), N(e), N(f), N(g))
STAND_INS(yz_tls13_binder_key, , (uint32_t a, in b, size_t c, bool d, out e, size_t f),
          N(a), N(b), N(c), N(d), N(e), N(f))
STAND_INS(yz_pbkdf2_derive, _wide,
          (uint32_t a, uint32_t b, in c, size_t d, in e, size_t f, out g, size_t h),
          N(a), N(b), N(c), N(d), N(e), N(f), N(g), N(h))
STAND_INS(yz_pbkdf2_verify, _wide,
          (uint32_t a, uint32_t b, in c, size_t d, in e, size_t f, in g, size_t h),
          N(a), N(b), N(c), N(d), N(e), N(f), N(g), N(h))
STAND_INS(yz_password_hash_new, ,
          (uint32_t a, uint32_t b, in c, size_t d, in e, size_t f, char *g, size_t h, size_t *i),
          N(a), N(b), N(c), N(d), N(e), N(f), N(g), N(h), N(i))
STAND_INS(yz_password_hash_verify, , (const char *a, size_t b, in c, size_t d, uint32_t e),
          N(a), N(b), N(c), N(d), N(e))
STAND_INS(yz_merkle_leaf, , (in a, size_t b, yz_merkle_hash *c), N(a), N(b), N(c))
STAND_INS(yz_merkle_verify_inclusion, ,
          (const_hash a, uint64_t b, uint64_t c, const_hash d, size_t e, const_hash f),
          N(a), N(b), N(c), N(d), N(e), N(f))
STAND_INS(yz_merkle_verify_consistency, ,
          (uint64_t a, const_hash b, uint64_t c, const_hash d, const_hash e, size_t f),
          N(a), N(b), N(c), N(d), N(e), N(f))
STAND_INS(yz_merkle_root, , (const_hash a, size_t b, yz_merkle_hash *c), N(a), N(b), N(c))
STAND_INS(yz_merkle_inclusion_path, ,
          (const_hash a, size_t b, size_t c, yz_merkle_hash *d, size_t e, size_t *f),
          N(a), N(b), N(c), N(d), N(e), N(f))
STAND_INS(yz_merkle_consistency_path, ,
          (const_hash a, size_t b, size_t c, yz_merkle_hash *d, size_t e, size_t *f),
          N(a), N(b), N(c), N(d), N(e), N(f))

/* The calls, and their arguments in their order: the number of an algorithm, a context or a key
 * of it, messages, places of some bytes and of hashes, of a size and of a counter that are written,
 * lengths, what is true, and what is counted by itself. */
static const struct {
    const char *name, *arguments;
} CALLS[] = {
    {"yz_digest", "nplpl"}, {"yz_digest_update", "cpl"}, {"yz_digest_final", "cpl"},
    {"yz_digest_each", "nmopl"},
    {"yz_hmac_sign", "nplplpl"}, {"yz_hmac_verify", "nplplpl"}, {"yz_hmac_key_init", "nplw"},
    {"yz_hmac_key_sign", "kplpl"}, {"yz_hmac_key_verify", "kplpl"}, {"yz_hmac_update", "tpl"},
    {"yz_hmac_final", "tpl"},
    {"yz_jws_sign", "nplplpls"}, {"yz_jws_verify", "nplplpls"}, {"yz_hotp", "npllpl"},
    {"yz_totp", "nplllpl"}, {"yz_hotp_find", "npllllplu"}, {"yz_totp_find", "npllllllplu"},
    {"yz_webhook_verify_hex", "nplplplpl"},
    {"yz_hkdf", "nplplplpl"}, {"yz_hkdf_extract", "nplplpl"}, {"yz_hkdf_expand", "nplplpl"},
    {"yz_hkdf_expand_label", "nplplplpl"}, {"yz_tls13_finished", "nplplpl"},
    {"yz_tls13_finished_verify", "nplplpl"}, {"yz_tls13_binder_key", "nplbpl"},
    {"yz_pbkdf2_derive", "nlplplpo"}, {"yz_pbkdf2_verify", "nlplplpo"},
    {"yz_password_hash_new", "llplplpls"}, {"yz_password_hash_verify", "plpll"},
    {"yz_webhook_verify_github", "plplpl"}, {"yz_webhook_verify_stripe", "plplplll"},
    {"yz_merkle_leaf", "plh"}, {"yz_merkle_verify_inclusion", "hllhlh"},
    {"yz_merkle_verify_consistency", "lhlhhl"}, {"yz_merkle_root", "hlh"},
    {"yz_merkle_inclusion_path", "hllhls"}, {"yz_merkle_consistency_path", "hllhls"},
};
enum { NUM_CALLS = sizeof CALLS / sizeof *CALLS, EACH = 3, PBKDF2 = 25, PASSWORDS = 27 };

static yz_digest_context digest;
static yz_hmac_context tag;
static yz_hmac_key key, written;
static const yz_message messages[1];
static uint8_t bytes[MOST_ARGUMENTS];
static yz_merkle_hash hashes[MOST_ARGUMENTS];
static size_t written_size;
static uint64_t written_counter;
#define AT(i) (bytes + (i))
#define TEXT_AT(i) ((char *)AT(i))
#define HASH(i) (hashes + (i))

/* A call, in which a length is the number of its place, but for `out_len`: PBKDF2's, and how many
 * messages there are. */
static yz_status call(int which, uint32_t n, size_t out_len) {
    digest.algorithm = tag.inner.algorithm = key.algorithm = n;
    switch (which) {
    case 0: return yz_digest(n, AT(1), 2, AT(3), 4);
    case 1: return yz_digest_update(&digest, AT(1), 2);
    case 2: return yz_digest_final(&digest, AT(1), 2);
    case EACH: return yz_digest_each(n, messages, out_len, AT(3), 4);
    case 4: return yz_hmac_sign(n, AT(1), 2, AT(3), 4, AT(5), 6);
    case 5: return yz_hmac_verify(n, AT(1), 2, AT(3), 4, AT(5), 6);
    case 6: return yz_hmac_key_init(n, AT(1), 2, &written);
    case 7: return yz_hmac_key_sign(&key, AT(1), 2, AT(3), 4);
    case 8: return yz_hmac_key_verify(&key, AT(1), 2, AT(3), 4);
    case 9: return yz_hmac_update(&tag, AT(1), 2);
    case 10: return yz_hmac_final(&tag, AT(1), 2);
    case 11: return yz_jws_sign(n, AT(1), 2, AT(3), 4, TEXT_AT(5), 6, &written_size);
    case 12: return yz_jws_verify(n, AT(1), 2, TEXT_AT(3), 4, AT(5), 6, &written_size);
    case 13: return yz_hotp(n, AT(1), 2, 3, TEXT_AT(4), 5);
    case 14: return yz_totp(n, AT(1), 2, 3, 4, TEXT_AT(5), 6);
    case 15: return yz_hotp_find(n, AT(1), 2, 3, 4, 5, TEXT_AT(6), 7, &written_counter);
    case 16: return yz_totp_find(n, AT(1), 2, 3, 4, 5, 6, 7, TEXT_AT(8), 9, &written_counter);
    case 17: return yz_webhook_verify_hex(n, AT(1), 2, TEXT_AT(3), 4, AT(5), 6, TEXT_AT(7), 8);
    case 18: return yz_hkdf(n, AT(1), 2, AT(3), 4, AT(5), 6, AT(7), 8);
    case 19: return yz_hkdf_extract(n, AT(1), 2, AT(3), 4, AT(5), 6);
    case 20: return yz_hkdf_expand(n, AT(1), 2, AT(3), 4, AT(5), 6);
    case 21: return yz_hkdf_expand_label(n, AT(1), 2, AT(3), 4, AT(5), 6, AT(7), 8);
    case 22: return yz_tls13_finished(n, AT(1), 2, AT(3), 4, AT(5), 6);
    case 23: return yz_tls13_finished_verify(n, AT(1), 2, AT(3), 4, AT(5), 6);
    case 24: return yz_tls13_binder_key(n, AT(1), 2, true, AT(4), 5);
    case 25: return yz_pbkdf2_derive(n, 1, AT(2), 3, AT(4), 5, AT(6), out_len);
    case 26: return yz_pbkdf2_verify(n, 1, AT(2), 3, AT(4), 5, AT(6), out_len);
    case 27: return yz_password_hash_new(0, 1, AT(2), 3, AT(4), 5, TEXT_AT(6), 7, &written_size);
    case 28: return yz_password_hash_verify(TEXT_AT(0), 1, AT(2), 3, 4);
    case 29: return yz_webhook_verify_github(AT(0), 1, AT(2), 3, TEXT_AT(4), 5);
    case 30: return yz_webhook_verify_stripe(AT(0), 1, AT(2), 3, TEXT_AT(4), 5, 6, 7);
    case 31: return yz_merkle_leaf(AT(0), 1, HASH(2));
    case 32: return yz_merkle_verify_inclusion(HASH(0), 1, 2, HASH(3), 4, HASH(5));
    case 33: return yz_merkle_verify_consistency(0, HASH(1), 2, HASH(3), HASH(4), 5);
    case 34: return yz_merkle_root(HASH(0), 1, HASH(2));
    case 35: return yz_merkle_inclusion_path(HASH(0), 1, 2, HASH(3), 4, &written_size);
    default: return yz_merkle_consistency_path(HASH(0), 1, 2, HASH(3), 4, &written_size);
    }
}

static uintptr_t argument(char kind, size_t place, uint32_t n, size_t out_len) {
    switch (kind) {
    case 'n': return n;
    case 'c': return (uintptr_t)&digest;
    case 't': return (uintptr_t)&tag;
    case 'k': return (uintptr_t)&key;
    case 'w': return (uintptr_t)&written;
    case 'm': return (uintptr_t)messages;
    case 'p': return (uintptr_t)AT(place);
    case 'h': return (uintptr_t)HASH(place);
    case 's': return (uintptr_t)&written_size;
    case 'u': return (uintptr_t)&written_counter;
    case 'b': return true;
    case 'o': return out_len;
    default: return place;
    }
}

/* The build that a call goes to, which is given all arguments and whose status is handed back. */
static int build_of(int which, uint32_t n, size_t out_len) {
    const char *name = CALLS[which].name, *kinds = CALLS[which].arguments;
    size_t count = strlen(kinds);
    yz_status status = call(which, n, out_len);
    is(name, strcmp(called, name), 0);
    is(name, status, 1000 * build + (long)count);
    for (size_t i = 0; i < count; i++)
        is(name, arguments[i] == argument(kinds[i], i, n, out_len), true);
    return build;
}

#ifdef FORCED
static void try_all(void) {
    for (int which = 0; which < NUM_CALLS; which++)
        for (uint32_t n = 0; n < 9; n++)
            for (size_t out_len = 0; out_len < 200; out_len++)
                is(CALLS[which].name, build_of(which, n, out_len), FORCED);
    if (!faults) printf("all calls are those of x86-64-v%d\n", FORCED);
}

static void print_table(void) {}
#else

/* The rows of PLATFORMS.md: some calls, and for which part of their work. */
static const struct {
    int first, last;
    const char *work;
    size_t rounds; /* of output of PBKDF2, or messages */
} ROWS[] = {{0, 2, "", 1}, {EACH, EACH, ": up to 3 messages", 3}, {EACH, EACH, ": more", 4},
            {4, 17, "", 1}, {18, 24, "", 1}, {PBKDF2, PBKDF2 + 1, ": up to 3 rounds of output", 3},
            {PBKDF2, PBKDF2 + 1, ": more", 4}};

/* Which code the calls of a row get: SHA instructions or a build. */
static void print_cell(size_t row, uint32_t n) {
    size_t out_len = ROWS[row].rounds * (ROWS[row].first == EACH ? 1 : yz_output_len(n));
    int builds[2];
    for (int has_sha = 0; has_sha < 2; has_sha++) {
        yz_known = (uint8_t)(ASKED | YZ_FEATURE_V3 | (has_sha ? YZ_FEATURE_SHA : 0));
        builds[has_sha] = build_of(ROWS[row].first, n, out_len);
        for (int which = ROWS[row].first; which <= ROWS[row].last; which++)
            is(CALLS[which].name, build_of(which, n, out_len), builds[has_sha]);
    }
    bool takes_sha = n <= YZ_SHA256 && builds[1] == 2;
    if (!takes_sha) is("the build with SHA instructions", builds[1], builds[0]);
    printf("%sv%d|", takes_sha ? "SHA, " : "", builds[0]);
}

#define HEAD_OF(name, title, ...) title "|"
#define LINE_OF(...) "-|"
static void print_table(void) {
    printf("|Calls|" EACH_ALGORITHM(HEAD_OF) "\n");
    printf("|-|" EACH_ALGORITHM(LINE_OF) "\n");
    for (size_t row = 0; row < sizeof ROWS / sizeof *ROWS; row++) {
        for (int which = ROWS[row].first; which <= ROWS[row].last; which++)
            printf("%s`%s`", which == ROWS[row].first ? "|" : ", ", CALLS[which].name);
        printf("%s|", ROWS[row].work);
        for (uint32_t n = 1; n <= ALGORITHMS_COUNT; n++) print_cell(row, n);
        printf("\n");
    }
}

/* The build for this processor, by the compiler's own test. That of clang and of gcc before 11
 * knows no levels. */
static int wanted(void) {
#if defined(__clang__) || __GNUC__ < 11
    return __builtin_cpu_supports("avx2") && __builtin_cpu_supports("bmi2") ? 3 : 2;
#else
    return __builtin_cpu_supports("x86-64-v3") ? 3 : 2;
#endif
}

static void each_loss(void) {
    static const unsigned BITS[][2] = {
        {1, bit_OSXSAVE}, {1, bit_AVX}, {1, bit_F16C}, {1, bit_FMA}, {1, bit_MOVBE},
        {7, bit_AVX2}, {7, bit_BMI}, {7, bit_BMI2}, {0x80000001, bit_LZCNT}};
    is("has_v3", has_v3(), wanted() == 3);
    for (size_t i = 0; i < sizeof BITS / sizeof *BITS; i++) {
        lost.leaf = BITS[i][0], lost.bits = BITS[i][1];
        is("has_v3 of less", has_v3(), false);
    }
    lost.bits = 0;
    /* Without the lower halves of the vectors, the upper ones, or both. */
    for (unsigned i = 0; i < 8; i++) { /* bit 0: those of x87 */
        lost_registers = i;
        is("has_v3 of saved registers", has_v3(), wanted() == 3 && (i & 6) == 0);
    }
    lost_registers = 0;
    gets_sha = true;
    is("has_sha", has_sha(), true);
    static const unsigned OF_SHA[][2] = {{1, bit_SSSE3}, {1, bit_SSE4_1}, {7, bit_SHA}};
    for (size_t i = 0; i < sizeof OF_SHA / sizeof *OF_SHA; i++) {
        lost.leaf = OF_SHA[i][0], lost.bits = OF_SHA[i][1];
        is("has_sha of less", has_sha(), false);
    }
    lost.bits = 0;
    gets_sha = false;
}

/* Which build a call is wanted to get. */
static int wanted_of(int which, uint32_t n, size_t out_len, bool has_v3, bool has_sha) {
    size_t most_alone = 3 * (which == EACH ? 1 : yz_output_len(n));
    bool is_alone = (which != EACH && which < PBKDF2) || out_len <= most_alone;
    bool takes_sha = which >= PASSWORDS || n == YZ_SHA256 || (n == YZ_SHA1 && is_alone);
    return has_v3 && !(has_sha && takes_sha) ? 3 : 2;
}

/* Each call under each algorithm, and under numbers of none, at lengths around some rounds: of what
 * is known, nobody asks again, and a processor without x86-64-v3 gets no call of it. With SHA
 * instructions the build for x86-64-v2 gets all calls of SHA-256, and those of SHA-1 that run
 * nothing side by side. */
static void each_call(void) {
    asked = 0;
    for (int features = 0; features < 4; features++) {
        bool has_v3 = features & YZ_FEATURE_V3, has_sha = features & YZ_FEATURE_SHA;
        yz_known = (uint8_t)(ASKED | features);
        is("yz_features", (long)yz_features(), features);
        for (int which = 0; which < NUM_CALLS; which++)
            for (uint32_t n = 0; n < 9; n++)
                for (size_t out_len = 0; out_len < 300; out_len++)
                    is(CALLS[which].name, build_of(which, n, out_len),
                       wanted_of(which, n, out_len, has_v3, has_sha));
    }
    is("how often the processor is asked", asked, 0);
}

/* The first call asks, and no other. Both bytes say what is there, but for what the environment
 * refuses. */
static void first_call(int build_wanted, bool sha_wanted) {
    yz_known = 0;
    gets_sha = true;
    asked = 0;
    for (int turn = 0; turn < 2; turn++)
        is("yz_digest_each", build_of(EACH, YZ_SHA512, 4), build_wanted);
    is("how often the processor is asked", asked, 2); /* for each of both features */
    int features = build_wanted == 3 ? YZ_FEATURE_V3 : 0;
    is("yz_features", (long)yz_features(), features | (sha_wanted ? YZ_FEATURE_SHA : 0));
    is("yz_instructions", yz_instructions, sha_wanted);
    gets_sha = false;
}

#ifdef _WIN32
#define setenv(name, value, replaces) _putenv_s(name, value)
#define unsetenv(name) _putenv_s(name, "")
enum { IS_READ = false }; /* the environment */
#else
enum { IS_READ = true };
#endif

static void refused(const char *value, bool sha_wanted) {
    is("setenv", setenv("YEZDOPIN_INSTRUCTIONS", value, 1), 0);
    first_call(wanted(), sha_wanted);
    unsetenv("YEZDOPIN_INSTRUCTIONS");
}

static void try_all(void) {
    unsetenv("YEZDOPIN_INSTRUCTIONS");
    each_loss();
    first_call(wanted(), true);
    lost.leaf = 7, lost.bits = bit_AVX2;
    first_call(2, true);
    lost.leaf = 7, lost.bits = bit_SHA;
    first_call(wanted(), false);
    lost.bits = 0;
    refused("0", !IS_READ);
    refused("1", true);
    refused("", true);
    refused("00", true);
    each_call();
    if (!faults) printf("the dispatcher chooses x86-64-v%d, or the SHA instructions\n", wanted());
}
#endif

int main(int count, char **words) {
    (void)words;
    if (count > 1) print_table();
    else try_all();
    return faults != 0;
}
