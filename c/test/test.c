/* SPDX-License-Identifier: ISC */
/* Each status of each call but those of merkle.c, password_hashes.c and tokens.c, NULL at length 0,
 * several messages, messages in pieces, copies in mid-stream, and garbage in the place of contexts
 * and keys. Values come from the standards, named where they stand. */
#include "../rows.h"
#include "check.h"
#include <string.h>

_Static_assert(sizeof(yz_digest_context) == 216, "layout");
_Static_assert(offsetof(yz_digest_context, num_pending) == 4, "layout");
_Static_assert(offsetof(yz_digest_context, completed_low) == 8, "layout");
_Static_assert(offsetof(yz_digest_context, completed_high) == 16, "layout");
_Static_assert(offsetof(yz_digest_context, words) == 24, "layout");
_Static_assert(offsetof(yz_digest_context, pending) == 88, "layout");
_Static_assert(sizeof(yz_hmac_key) == 136, "layout");
_Static_assert(offsetof(yz_hmac_key, inner) == 8, "layout");
_Static_assert(offsetof(yz_hmac_key, outer) == 72, "layout");
_Static_assert(sizeof(yz_hmac_context) == 280, "layout");
_Static_assert(offsetof(yz_hmac_context, outer) == 216, "layout");
_Static_assert(sizeof(yz_message) == 16, "layout");
_Static_assert(offsetof(yz_message, len) == 8, "layout");

#if YZ_VERSION >> 16 != YZ_VERSION_MAJOR || (YZ_VERSION & 0xff) != YZ_VERSION_PATCH
#error "the version can't be compared where a caller is compiled"
#endif

#define PIECES_TURNS 4000
#define GARBAGE_TURNS 50000
#define MOST_MESSAGE 5000
#define MOST_PIECE 300
#define MOST_COUNT 65

#define OUTPUT_LEN_OF(name, ...) YZ_##name##_OUTPUT_LEN,
#define NUMBER_OF(name, ...) YZ_##name,
#define BLOCK_LEN_OF(name, ...) YZ_##name##_BLOCK_LEN,
static const size_t OUTPUT[] = {0, EACH_ALGORITHM(OUTPUT_LEN_OF) 0};
static const size_t BLOCK[] = {0, EACH_ALGORITHM(BLOCK_LEN_OF) 0};

/* Each call once, with a value from outside. */
static void known_values(void) {
    static const uint8_t ABC[] = {0xba, 0x78, 0x16, 0xbf}, TAG[] = {0x5b, 0xdc, 0xc1, 0x46},
                         PRK[] = {0x07, 0x77, 0x09, 0x36}, OKM[] = {0x3c, 0xb2, 0x5f, 0x25},
                         DK[] = {0xea, 0x6c, 0x01, 0x4d}, DERIVED[] = {0x6f, 0x26, 0x15, 0xa1},
                         zeros[32] = {0};
    uint8_t digest[32], tag[32], secret[22], salt[13], info[10], prk[32], out[42];
    /* FIPS 180-4's example. */
    IS(yz_digest(YZ_SHA256, text("abc"), 3, digest, 32), YZ_OK);
    IS(memcmp(digest, ABC, 4), 0);
    const yz_message four[] = {{text(""), 0}, {text("abc"), 3}, {text("a"), 1}, {text("abc"), 3}};
    uint8_t digests[4 * YZ_SHA256_OUTPUT_LEN];
    IS(yz_digest_each(YZ_SHA256, four, 4, digests, sizeof digests), YZ_OK);
    IS(memcmp(digests + 32, ABC, 4), 0);
    IS(memcmp(digests + 96, ABC, 4), 0);
    /* RFC 4231, test case 2. */
    IS(yz_hmac_sign(YZ_SHA256, text("Jefe"), 4, text("what do ya want for nothing?"), 28, tag, 32),
       YZ_OK);
    IS(memcmp(tag, TAG, 4), 0);
    /* RFC 5869, A.1. */
    memset(secret, 0x0b, 22);
    for (uint8_t i = 0; i < 13; i++) salt[i] = i;
    for (uint8_t i = 0; i < 10; i++) info[i] = (uint8_t)(0xf0 + i);
    IS(yz_hkdf_extract(YZ_SHA256, salt, 13, secret, 22, prk, 32), YZ_OK);
    IS(memcmp(prk, PRK, 4), 0);
    IS(yz_hkdf_expand(YZ_SHA256, prk, 32, info, 10, out, 42), YZ_OK);
    IS(memcmp(out, OKM, 4), 0);
    IS(yz_hkdf(YZ_SHA256, salt, 13, secret, 22, info, 10, out, 42), YZ_OK);
    IS(memcmp(out, OKM, 4), 0);
    /* RFC 8448, 3: the secret "derived" of the early secret, for the hash of no message. */
    IS(yz_hkdf_extract(YZ_SHA256, NULL, 0, zeros, 32, prk, 32), YZ_OK);
    IS(yz_digest(YZ_SHA256, NULL, 0, digest, 32), YZ_OK);
    IS(yz_hkdf_expand_label(YZ_SHA256, prk, 32, text("derived"), 7, digest, 32, out, 32), YZ_OK);
    IS(memcmp(out, DERIVED, 4), 0);
    /* RFC 6070, 2. */
    IS(yz_pbkdf2_derive(YZ_SHA1, 2, text("salt"), 4, text("password"), 8, out, 20), YZ_OK);
    IS(memcmp(out, DK, 4), 0);
    IS(yz_pbkdf2_verify(YZ_SHA1, 2, text("salt"), 4, text("password"), 8, out, 20), YZ_OK);
    out[19] ^= 1;
    IS(yz_pbkdf2_verify(YZ_SHA1, 2, text("salt"), 4, text("password"), 8, out, 20),
       YZ_UNSPECIFIED);
}

/* What each call answers to each number, to a wrong length, to no iterations, with NULLs. */
static void statuses(void) {
    yz_digest_context context;
    yz_hmac_key key;
    const uint32_t numbers[] = {0, EACH_ALGORITHM(NUMBER_OF) ALGORITHMS_COUNT + 1, 256,
                                0x80000002u, 0xffffffffu};
    uint8_t unwritten[70], out[YZ_MAX_OUTPUT_LEN] = {0};
    memset(unwritten, UNWRITTEN, sizeof unwritten);
    for (size_t i = 0; i < sizeof numbers / sizeof *numbers; i++) {
        uint32_t n = numbers[i];
        bool digests = n >= 1 && n <= ALGORITHMS_COUNT, tags = IS_KEYED(n);
        yz_status digested = digests ? YZ_OK : YZ_UNKNOWN_ALGORITHM;
        yz_status tagged = tags ? YZ_OK : YZ_UNKNOWN_ALGORITHM;
        yz_status misfit = tags ? YZ_WRONG_LENGTH : YZ_UNKNOWN_ALGORITHM;
        yz_status other = tags ? YZ_UNSPECIFIED : YZ_UNKNOWN_ALGORITHM;
        yz_status none = tags ? YZ_NO_ITERATIONS : YZ_UNKNOWN_ALGORITHM;
        size_t len = digests ? OUTPUT[n] : 0;
        IS(yz_output_len(n), len);
        IS(yz_block_len(n), digests ? BLOCK[n] : 0);
        for (size_t wrong = 0; wrong < sizeof unwritten; wrong++)
            if (wrong != len || !digests)
                IS(yz_digest(n, NULL, 0, unwritten, wrong),
                   digests ? YZ_WRONG_LENGTH : YZ_UNKNOWN_ALGORITHM);
        IS(yz_digest(n, NULL, 0, out, len), digested);
        IS(yz_digest_each(n, NULL, 0, NULL, 0), digested);
        IS(yz_digest_each(n, NULL, 0, unwritten, 1),
           digests ? YZ_WRONG_LENGTH : YZ_UNKNOWN_ALGORITHM);
        IS(yz_digest_init(n, &context), digested);
        IS(yz_hmac_sign(n, NULL, 0, NULL, 0, unwritten, len + 1), misfit);
        IS(yz_hmac_sign(n, NULL, 0, NULL, 0, out, len), tagged);
        IS(yz_hmac_verify(n, NULL, 0, NULL, 0, out, len), tagged);
        IS(yz_hmac_verify(n, NULL, 0, NULL, 0, NULL, 0), other);
        IS(yz_hmac_key_init(n, NULL, 0, &key), tagged);
        IS(yz_hkdf_extract(n, NULL, 0, NULL, 0, unwritten, len + 1), misfit);
        IS(yz_hkdf_extract(n, NULL, 0, NULL, 0, out, len), tagged);
        IS(yz_hkdf_expand(n, NULL, 0, NULL, 0, NULL, 0), tagged);
        IS(yz_hkdf_expand_label(n, NULL, 0, out, 1, NULL, 0, NULL, 0), tagged);
        IS(yz_hkdf_expand_label(n, NULL, 0, NULL, 0, NULL, 0, unwritten, 1), other);
        IS(yz_hkdf(n, NULL, 0, NULL, 0, NULL, 0, NULL, 0), tagged);
        IS(yz_pbkdf2_derive(n, 0, NULL, 0, NULL, 0, unwritten, 70), none);
        IS(yz_pbkdf2_derive(n, 1, NULL, 0, NULL, 0, NULL, 0), tagged);
        IS(yz_pbkdf2_verify(n, 0, NULL, 0, NULL, 0, NULL, 0), none);
        IS(yz_pbkdf2_verify(n, 1, NULL, 0, NULL, 0, NULL, 0), other);
    }
    IS_UNWRITTEN(unwritten, sizeof unwritten);
}

/* Parts of some bytes as messages, and room for their digests and a byte more. */
typedef struct {
    uint8_t bytes[MOST_MESSAGE];
    yz_message messages[MOST_COUNT];
    uint8_t digests[MOST_COUNT * YZ_MAX_OUTPUT_LEN + 1];
} several;

/* Several messages of mixed lengths give what each gives by itself, and not a byte more is
 * written. */
static void digests_of_several(several *it, uint32_t n, size_t count) {
    static const size_t LENGTHS[] = {0, 1, 55, 56, 63, 64, 65, 111, 112, 127, 128, 129, 1000};
    uint8_t alone[YZ_MAX_OUTPUT_LEN];
    size_t len = OUTPUT[n];
    for (size_t i = 0; i < count; i++) {
        size_t some = LENGTHS[below(sizeof LENGTHS / sizeof *LENGTHS)];
        it->messages[i] = (yz_message){it->bytes + below(MOST_MESSAGE - some), some};
    }
    memset(it->digests, UNWRITTEN, sizeof it->digests);
    IS(yz_digest_each(n, it->messages, count, it->digests, count * len), YZ_OK);
    for (size_t i = 0; i < count; i++) {
        IS(yz_digest(n, it->messages[i].bytes, it->messages[i].len, alone, len), YZ_OK);
        IS(memcmp(it->digests + i * len, alone, len), 0);
    }
    IS_UNWRITTEN(it->digests + count * len, sizeof it->digests - count * len);
}

/* What is refused of several messages writes nothing, also where only the last is past the limit:
 * no message is as long, but the number may be written. */
static void refused_several(several *it, uint32_t n, size_t count) {
    const yz_message *messages = it->messages;
    uint8_t *out = it->digests;
    size_t len = count * OUTPUT[n];
    memset(out, UNWRITTEN, sizeof it->digests);
    IS(yz_digest_each(n, messages, count, out, len - 1), YZ_WRONG_LENGTH);
    IS(yz_digest_each(n, messages, count, out, len + 1), YZ_WRONG_LENGTH);
    IS(yz_digest_each(n, messages, count - 1, out, len), YZ_WRONG_LENGTH);
    IS(yz_digest_each(n, messages, count, NULL, 0), YZ_WRONG_LENGTH);
    IS(yz_digest_each(n + ALGORITHMS_COUNT, messages, count, out, len), YZ_UNKNOWN_ALGORITHM);
    if (BLOCK[n] == 64) {
        it->messages[count - 1].len = (size_t)1 << 61;
        IS(yz_digest_each(n, messages, count, out, len), YZ_UNSPECIFIED);
        IS(yz_digest_each(n, messages, count, out, len - 1), YZ_WRONG_LENGTH);
        IS(yz_digest_each(n + ALGORITHMS_COUNT, messages, count, out, len), YZ_UNKNOWN_ALGORITHM);
    }
    IS_UNWRITTEN(out, sizeof it->digests);
}

static void several_messages(void) {
    static const size_t COUNTS[] = {0, 1, 3, 4, 5, 9, 15, 16, 17, 20, 33, 64, MOST_COUNT};
    several it;
    fill_at_random(it.bytes, sizeof it.bytes);
    for (uint32_t n = 1; n <= ALGORITHMS_COUNT; n++)
        for (size_t i = 0; i < sizeof COUNTS / sizeof *COUNTS; i++)
            for (int turn = 0; turn < 10; turn++) {
                digests_of_several(&it, n, COUNTS[i]);
                if (COUNTS[i]) refused_several(&it, n, COUNTS[i]);
            }
}

/* An output of HKDF may have 255 digests, and no byte more. */
static void longest_outputs(void) {
    static uint8_t out[YZ_HKDF_MAX_OUT_LEN(YZ_MAX_OUTPUT_LEN) + 1];
    FOR_EACH_KEYED(n) {
        size_t most = YZ_HKDF_MAX_OUT_LEN(OUTPUT[n]);
        IS(yz_hkdf(n, NULL, 0, NULL, 0, NULL, 0, out, most), YZ_OK);
        IS(yz_hkdf_expand(n, NULL, 0, NULL, 0, out, most), YZ_OK);
        IS(yz_hkdf_expand_label(n, NULL, 0, text("a"), 1, NULL, 0, out, most), YZ_OK);
        memset(out, UNWRITTEN, sizeof out);
        IS(yz_hkdf(n, NULL, 0, NULL, 0, NULL, 0, out, most + 1), YZ_WRONG_LENGTH);
        IS(yz_hkdf_expand(n, NULL, 0, NULL, 0, out, most + 1), YZ_WRONG_LENGTH);
        IS(yz_hkdf_expand_label(n, NULL, 0, text("a"), 1, NULL, 0, out, most + 1), YZ_WRONG_LENGTH);
        IS(yz_hkdf_expand_label(n, NULL, 0, NULL, 0, NULL, 0, out, most + 1), YZ_WRONG_LENGTH);
        IS_UNWRITTEN(out, sizeof out);
    }
}

/* HKDF-Expand-Label is HKDF's second step for this info (RFC 8446, 7.1): Length in two bytes, and
 * the label behind its prefix and the context, each behind its length in one byte. */
static void labels(void) {
    static const size_t LABELS[] = {1, 7, 48, 49, 248, YZ_MAX_LABEL_LEN},
                        CONTEXTS[] = {0, 1, 32, 64, 254, YZ_MAX_CONTEXT_LEN}, LENS[] = {0, 12, 700};
    uint8_t bytes[1000], info[2 + 1 + 255 + 1 + 255], want[700], out[700];
    fill_at_random(bytes, sizeof bytes);
    FOR_EACH_KEYED(n)
        for (size_t i = 0; i < 6; i++)
            for (size_t j = 0; j < 6; j++)
                for (size_t k = 0; k < 3; k++) {
                    size_t label_len = LABELS[i], context_len = CONTEXTS[j], len = LENS[k];
                    const uint8_t *label = bytes + i, *context = bytes + 300 + j;
                    uint8_t *at = info;
                    *at++ = (uint8_t)(len >> 8), *at++ = (uint8_t)len;
                    *at++ = (uint8_t)(6 + label_len), memcpy(at, "tls13 ", 6), at += 6;
                    memcpy(at, label, label_len), at += label_len;
                    *at++ = (uint8_t)context_len, memcpy(at, context, context_len);
                    at += context_len;
                    IS(yz_hkdf_expand(n, bytes, 40, info, (size_t)(at - info), want, len), YZ_OK);
                    IS(yz_hkdf_expand_label(n, bytes, 40, label, label_len, context, context_len,
                                            out, len), YZ_OK);
                    IS(memcmp(out, want, len), 0);
                }
}

/* A label of no byte or of more than 249, and a context of more than 255, write nothing. */
static void refused_labels(void) {
    static const uint8_t bytes[YZ_MAX_CONTEXT_LEN + 1];
    uint8_t out[32];
    memset(out, UNWRITTEN, sizeof out);
    FOR_EACH_KEYED(n) {
        IS(yz_hkdf_expand_label(n, bytes, 40, bytes, 0, NULL, 0, out, 32), YZ_UNSPECIFIED);
        IS(yz_hkdf_expand_label(n, bytes, 40, bytes, 250, NULL, 0, out, 32), YZ_UNSPECIFIED);
        IS(yz_hkdf_expand_label(n, bytes, 40, bytes, SIZE_MAX, NULL, 0, out, 32),
           YZ_UNSPECIFIED);
        IS(yz_hkdf_expand_label(n, bytes, 40, bytes, 1, bytes, 256, out, 32), YZ_UNSPECIFIED);
    }
    IS_UNWRITTEN(out, sizeof out);
}

/* An output of PBKDF2 a byte past its limit is of a wrong length, before the iterations are looked
 * at. No memory is as long, but the number may be written. */
static void past_the_longest_derived(void) {
    uint8_t out[32];
    memset(out, UNWRITTEN, sizeof out);
    FOR_EACH_KEYED(n) {
        size_t more = YZ_PBKDF2_MAX_OUT_LEN(OUTPUT[n]) + 1;
        IS(yz_pbkdf2_derive(n, 1, NULL, 0, NULL, 0, out, more), YZ_WRONG_LENGTH);
        IS(yz_pbkdf2_derive(n, 0, NULL, 0, NULL, 0, out, more), YZ_NO_ITERATIONS);
        IS(yz_pbkdf2_verify(n, 1, NULL, 0, NULL, 0, out, more), YZ_UNSPECIFIED);
    }
    IS_UNWRITTEN(out, sizeof out);
}

/* Which bytes are no context's, beside those that name no algorithm: others are answered. */
static void bytes_of_no_context(void) {
    static const uint8_t message[YZ_MAX_BLOCK_LEN];
    uint8_t out[YZ_MAX_OUTPUT_LEN];
    yz_digest_context context;
    yz_hmac_key key;
    yz_hmac_context tag;
    FOR_EACH_KEYED(n) {
        IS(yz_digest_init(n, &context), YZ_OK);
        context.num_pending = (uint32_t)BLOCK[n] - 1;
        IS(yz_digest_final(&context, out, OUTPUT[n]), YZ_OK);
        context.num_pending++;
        IS(yz_digest_final(&context, out, OUTPUT[n]), YZ_UNKNOWN_CONTEXT);
        IS(yz_digest_update(&context, message, 0), YZ_UNKNOWN_CONTEXT);
        IS(yz_hmac_key_init(n, NULL, 0, &key), YZ_OK);
        IS(yz_hmac_init(&key, &tag), YZ_OK);
        tag.inner.completed_low--;
        IS(yz_hmac_final(&tag, out, OUTPUT[n]), YZ_UNKNOWN_CONTEXT);
        IS(yz_hmac_update(&tag, message, BLOCK[n]), YZ_UNKNOWN_CONTEXT);
        IS(yz_hmac_update(&tag, message, BLOCK[n] - 1), YZ_UNKNOWN_CONTEXT);
        tag.inner.completed_low++;
        IS(yz_hmac_update(&tag, message, BLOCK[n] - 1), YZ_OK);
        IS(yz_hmac_final(&tag, out, OUTPUT[n]), YZ_OK);
    }
}

/* Zeros are no context and no key; contexts and keys at their lengths. */
static void contexts(void) {
    uint8_t out[YZ_MAX_OUTPUT_LEN + 1], other[YZ_MAX_OUTPUT_LEN + 1];
    yz_digest_context context;
    yz_hmac_key key;
    yz_hmac_context tag;
    memset(&context, 0, sizeof context), memset(&key, 0, sizeof key), memset(&tag, 0, sizeof tag);
    IS(yz_digest_update(&context, text("a"), 1), YZ_UNKNOWN_CONTEXT);
    IS(yz_digest_final(&context, out, 32), YZ_UNKNOWN_CONTEXT);
    IS(yz_hmac_key_sign(&key, text("a"), 1, out, 32), YZ_UNKNOWN_CONTEXT);
    IS(yz_hmac_key_verify(&key, text("a"), 1, out, 32), YZ_UNKNOWN_CONTEXT);
    IS(yz_hmac_init(&key, &tag), YZ_UNKNOWN_CONTEXT);
    IS(yz_hmac_update(&tag, text("a"), 1), YZ_UNKNOWN_CONTEXT);
    IS(yz_hmac_final(&tag, out, 32), YZ_UNKNOWN_CONTEXT);
    FOR_EACH_KEYED(n) {
        IS(yz_digest_init(n, &context), YZ_OK);
        IS(yz_digest_update(&context, NULL, 0), YZ_OK);
        IS(yz_digest_final(&context, out, OUTPUT[n] - 1), YZ_WRONG_LENGTH);
        IS(yz_digest_final(&context, out, OUTPUT[n] + 1), YZ_WRONG_LENGTH);
        IS(yz_digest_final(&context, out, OUTPUT[n]), YZ_OK);
        IS(yz_hmac_key_init(n, NULL, 0, &key), YZ_OK);
        IS(yz_hmac_key_sign(&key, NULL, 0, out, OUTPUT[n] - 1), YZ_WRONG_LENGTH);
        IS(yz_hmac_key_sign(&key, NULL, 0, out, OUTPUT[n]), YZ_OK);
        IS(yz_hmac_key_verify(&key, NULL, 0, NULL, 0), YZ_UNSPECIFIED);
        IS(yz_hmac_init(&key, &tag), YZ_OK);
        IS(yz_hmac_update(&tag, NULL, 0), YZ_OK);
        IS(yz_hmac_final(&tag, other, OUTPUT[n] + 1), YZ_WRONG_LENGTH);
        IS(yz_hmac_final(&tag, other, OUTPUT[n]), YZ_OK);
        IS(memcmp(out, other, OUTPUT[n]), 0);
    }
}

/* A context whose count is past the limit: the digest is refused, and so is the tag. No message is
 * as long, but the numbers may be written. */
static void past_the_limit(void) {
    uint8_t unwritten[YZ_MAX_OUTPUT_LEN], out[YZ_MAX_OUTPUT_LEN];
    yz_digest_context context;
    yz_hmac_key key;
    yz_hmac_context tag;
    memset(unwritten, UNWRITTEN, sizeof unwritten);
    IS(yz_digest_init(YZ_SHA256, &context), YZ_OK);
    context.completed_low = UINT64_C(1) << 61;
    IS(yz_digest_final(&context, unwritten, 32), YZ_UNSPECIFIED);
    IS(yz_digest_init(YZ_SHA512, &context), YZ_OK);
    context.completed_low = UINT64_C(1) << 61;
    IS(yz_digest_final(&context, out, 64), YZ_OK);
    context.completed_high = UINT64_C(1) << 61;
    IS(yz_digest_final(&context, unwritten, 64), YZ_UNSPECIFIED);
    IS(yz_hmac_key_init(YZ_SHA256, NULL, 0, &key), YZ_OK);
    IS(yz_hmac_init(&key, &tag), YZ_OK);
    tag.inner.completed_high = 1;
    IS(yz_hmac_final(&tag, unwritten, 32), YZ_UNSPECIFIED);
    IS_UNWRITTEN(unwritten, sizeof unwritten);
}

/* A message in pieces gives what it gives as a whole; a copy and a look in mid-stream change
 * nothing. */
static void digest_in_pieces(uint32_t n, const uint8_t *message, size_t len) {
    uint8_t whole[YZ_MAX_OUTPUT_LEN], out[YZ_MAX_OUTPUT_LEN];
    yz_digest_context context;
    IS(yz_digest(n, message, len, whole, OUTPUT[n]), YZ_OK);
    IS(yz_digest_init(n, &context), YZ_OK);
    for (size_t i = 0, piece; i < len; i += piece) {
        piece = below(MOST_PIECE);
        if (piece > len - i) piece = len - i;
        IS(yz_digest_update(&context, message + i, piece), YZ_OK);
        yz_digest_context copy = context;
        IS(yz_digest_update(&copy, message, 5), YZ_OK);
        IS(yz_digest_final(&context, out, OUTPUT[n]), YZ_OK);
    }
    IS(yz_digest_final(&context, out, OUTPUT[n]), YZ_OK);
    IS(memcmp(whole, out, OUTPUT[n]), 0);
}

static void tag_in_pieces(uint32_t n, size_t key_len, const uint8_t *message, size_t len) {
    uint8_t whole[YZ_MAX_OUTPUT_LEN], out[YZ_MAX_OUTPUT_LEN];
    yz_hmac_key key;
    yz_hmac_context context;
    IS(yz_hmac_sign(n, message, key_len, message, len, whole, OUTPUT[n]), YZ_OK);
    IS(yz_hmac_key_init(n, message, key_len, &key), YZ_OK);
    IS(yz_hmac_key_sign(&key, message, len, out, OUTPUT[n]), YZ_OK);
    IS(memcmp(whole, out, OUTPUT[n]), 0);
    IS(yz_hmac_init(&key, &context), YZ_OK);
    for (size_t i = 0, piece; i < len; i += piece) {
        piece = below(MOST_PIECE);
        if (piece > len - i) piece = len - i;
        IS(yz_hmac_update(&context, message + i, piece), YZ_OK);
        yz_hmac_context copy = context;
        IS(yz_hmac_update(&copy, message, 5), YZ_OK);
        IS(yz_hmac_final(&context, out, OUTPUT[n]), YZ_OK);
    }
    IS(yz_hmac_final(&context, out, OUTPUT[n]), YZ_OK);
    IS(memcmp(whole, out, OUTPUT[n]), 0);
    IS(yz_hmac_key_verify(&key, message, len, out, OUTPUT[n]), YZ_OK);
    IS(yz_hmac_verify(n, message, key_len, message, len, out, OUTPUT[n]), YZ_OK);
    IS(yz_hmac_key_verify(&key, message, len, out, OUTPUT[n] - 1), YZ_UNSPECIFIED);
    out[below(OUTPUT[n])] ^= (uint8_t)(1 << below(8));
    IS(yz_hmac_key_verify(&key, message, len, out, OUTPUT[n]), YZ_UNSPECIFIED);
    IS(yz_hmac_verify(n, message, key_len, message, len, out, OUTPUT[n]), YZ_UNSPECIFIED);
}

static void pieces(void) {
    uint8_t message[MOST_MESSAGE] = {0};
    for (int turn = 0; turn < PIECES_TURNS; turn++) {
        uint32_t n = 1 + (uint32_t)below(ALGORITHMS_COUNT);
        size_t len = below(below(MOST_MESSAGE) + 1);
        fill_at_random(message, len);
        digest_in_pieces(n, message, len);
        if (IS_KEYED(n)) tag_in_pieces(n, below(MOST_PIECE), message, len);
    }
}

/* Under a key of any words the tag that it signs verifies, and neither another one nor a random
 * one. */
static int signs_what_it_verifies(const yz_hmac_key *key, const uint8_t *message) {
    uint8_t tag[YZ_MAX_OUTPUT_LEN], other[YZ_MAX_OUTPUT_LEN];
    size_t len = below(400), size = OUTPUT[key->algorithm];
    int status = yz_hmac_key_sign(key, message, len, tag, size);
    fill_at_random(other, size);
    if (status != YZ_OK) {
        IS(yz_hmac_key_verify(key, message, len, other, size), status);
        return status;
    }
    IS(yz_hmac_key_verify(key, message, len, tag, size), YZ_OK);
    IS(yz_hmac_key_verify(key, message, len, other, size), YZ_UNSPECIFIED);
    tag[below(size)] ^= (uint8_t)(1u << below(8));
    IS(yz_hmac_key_verify(key, message, len, tag, size), YZ_UNSPECIFIED);
    return status;
}

/* Any bytes in the place of contexts and keys: the sanitizers see that nothing else is touched. */
static void garbage(void) {
    static const uint8_t message[4000];
    uint8_t out[32];
    yz_digest_context context;
    yz_hmac_key key;
    yz_hmac_context tag;
    int seen[YZ_UNSPECIFIED + 1] = {0};
    for (int turn = 0; turn < GARBAGE_TURNS; turn++) {
        fill_at_random(&context, sizeof context);
        fill_at_random(&key, sizeof key);
        fill_at_random(&tag, sizeof tag);
        context.algorithm = (uint32_t)below(7), context.num_pending = (uint32_t)below(200);
        key.algorithm = (uint32_t)below(7);
        tag.inner.algorithm = (uint32_t)below(7), tag.inner.num_pending = (uint32_t)below(200);
        seen[yz_digest_update(&context, message, below(4000))]++;
        seen[yz_digest_final(&context, out, 32)]++;
        seen[yz_hmac_key_sign(&key, message, below(400), out, 32)]++;
        seen[signs_what_it_verifies(&key, message)]++;
        seen[yz_hmac_update(&tag, message, below(400))]++;
        seen[yz_hmac_final(&tag, out, 32)]++;
    }
    int done = seen[YZ_OK], none = seen[YZ_UNKNOWN_CONTEXT], misfit = seen[YZ_WRONG_LENGTH];
    int past = seen[YZ_UNSPECIFIED];
    printf("%d calls on garbage: %d done, %d no context, %d wrong length, %d past a limit\n",
           6 * GARBAGE_TURNS, done, none, misfit, past);
    IS(done > 0 && none > 0 && misfit > 0 && past > 0, 1);
    IS(done + none + misfit + past, 6 * GARBAGE_TURNS);
}

static void equality_and_clearing(void) {
    uint8_t one[70], other[70];
    memset(one, 9, sizeof one), memset(other, 9, sizeof other);
    IS(yz_equal(NULL, 0, NULL, 0), 1);
    IS(yz_equal(one, 8, other, 8), 1);
    IS(yz_equal(one, 8, one, 7), 0);
    other[40] = 8;
    IS(yz_equal(one, sizeof one, other, sizeof other), 0);
    yz_clear(one, 69), yz_clear(NULL, 0);
    for (size_t i = 0; i < 69; i++) IS(one[i], 0);
    IS(one[69], 9);
}

/* Where several causes hold, the one with the least number is answered. An input of 2^61 bytes is
 * above the limit, so that no byte of it is read. */
static void first_causes(void) {
    static const char HASH[] = "pbkdf2_sha1$1000$salt$2U/l/68EaoUIrkh0GedCmjQYvmg=";
    static char longer[YZ_MAX_PASSWORD_HASH_LEN + 1], out[200];
    uint8_t few[33] = {0};
    const size_t past = (size_t)1 << 61;
    yz_digest_context context = {.algorithm = 0, .completed_low = past};
    yz_hmac_key key = {.algorithm = 0};
    size_t len = 0;
    IS(yz_digest(0, few, past, few, 33), YZ_UNKNOWN_ALGORITHM);
    IS(yz_digest(YZ_SHA256, few, past, few, 33), YZ_WRONG_LENGTH);
    IS(yz_digest_final(&context, few, 33), YZ_UNKNOWN_CONTEXT);
    IS(yz_hmac_sign(YZ_SHA256, few, past, few, past, few, 33), YZ_WRONG_LENGTH);
    IS(yz_hmac_key_sign(&key, few, past, few, 33), YZ_UNKNOWN_CONTEXT);
    IS(yz_hkdf(YZ_SHA256, few, past, few, past, few, past, few, 255 * 32 + 1), YZ_WRONG_LENGTH);
    IS(yz_pbkdf2_derive(0, 0, few, past, few, past, few, past), YZ_UNKNOWN_ALGORITHM);
    IS(yz_pbkdf2_derive(YZ_SHA256, 0, few, past, few, past, few, past), YZ_NO_ITERATIONS);
    IS(yz_pbkdf2_derive(YZ_SHA256, 1, few, past, few, past, few, past), YZ_WRONG_LENGTH);
    IS(yz_pbkdf2_verify(YZ_SHA256, 0, few, past, few, past, few, past), YZ_NO_ITERATIONS);
    IS(yz_password_hash_verify(longer, sizeof longer, few, past, 0), YZ_WRONG_LENGTH);
    IS(yz_password_hash_verify(longer, sizeof longer - 1, few, past, 0), YZ_BAD_FORMAT);
    IS(yz_password_hash_verify(HASH, sizeof HASH - 1, few, past, 999), YZ_TOO_MANY_ITERATIONS);
    IS(yz_password_hash_verify(HASH, sizeof HASH - 1, few, past, 1000), YZ_UNSPECIFIED);
    IS(yz_password_hash_new(0, 0, few, 0, few, past, out, 0, &len), YZ_UNKNOWN_ALGORITHM);
    IS(yz_password_hash_new(YZ_PHC_SHA256, 0, few, 0, few, past, out, 0, &len), YZ_NO_ITERATIONS);
    IS(yz_password_hash_new(YZ_PHC_SHA256, 1, few, 0, few, past, out, 0, &len), YZ_WRONG_LENGTH);
    IS(yz_password_hash_new(YZ_PHC_SHA256, 1, few, 0, few, past, out, 200, &len), YZ_BAD_SALT);
    IS(yz_password_hash_new(YZ_PHC_SHA256, 1, few, 1, few, past, out, 200, &len), YZ_UNSPECIFIED);
}

/* tools/lists.py writes the texts and the header's. */
static void texts_of_statuses(void) {
    const yz_status others[] = {-1, YZ_UNSPECIFIED + 1, 256, INT32_MIN, INT32_MAX};
    for (yz_status i = YZ_OK; i <= YZ_UNSPECIFIED; i++) {
        IS(strlen(yz_status_text(i)) > 0, true);
        IS(strcmp(yz_status_text(i), "unknown status") != 0, true);
        for (yz_status j = YZ_OK; j < i; j++)
            IS(strcmp(yz_status_text(i), yz_status_text(j)) != 0, true);
    }
    for (size_t i = 0; i < sizeof others / sizeof *others; i++)
        IS(strcmp(yz_status_text(others[i]), "unknown status"), 0);
    IS(strcmp(yz_status_text(YZ_OK), "success"), 0);
    IS(strcmp(yz_status_text(YZ_NO_ITERATIONS), "the number of iterations is 0"), 0);
}

int main(void) {
    IS(yz_supported(), true);
    IS(yz_version(), YZ_VERSION);
    IS(yz_features() & ~(uint32_t)(YZ_FEATURE_V3 | YZ_FEATURE_SHA), 0);
    texts_of_statuses();
    known_values(), statuses(), several_messages();
    longest_outputs(), past_the_longest_derived();
    labels(), refused_labels();
    contexts(), bytes_of_no_context(), past_the_limit();
    pieces(), garbage(), equality_and_clearing();
    first_causes();
    return end_of_checks();
}
