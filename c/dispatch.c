/* SPDX-License-Identifier: ISC
 * Copyright 2026 the Yezdopin authors.
 *
 * The library has two builds of one proved crate, for x86-64-v2 and for x86-64-v3, which has AVX2.
 * Where the processor has the latter, the calls below go to it; docs/DECISIONS.md says what that
 * gains and where it loses. All other calls are those of the build for x86-64-v2: they run no
 * block. Contexts and keys have the same bytes in both, so that one build goes on where the other
 * stopped.
 *
 * The build for x86-64-v2 takes the SHA instructions where processor.c finds them. They have SSE's
 * encodings alone, beside which code with AVX is slow on some processors. PLATFORMS.md has a table of
 * which call goes where, and `make builds` compares both. */
#include "processor.h"

/* Whether a call runs blocks one by one, or several side by side. Under SHA-1 eight lanes of AVX2
 * are then faster than the instructions. Under SHA-256 the instructions are faster than four lanes
 * and as fast as eight, and where they are the build for x86-64-v2 runs one block by itself. */
enum work { ALONE, TOGETHER };

/* The fewest messages or rounds of SHA-1 and SHA-256 that run side by side. */
enum { FEWEST = 4 };

/* Whether the build for x86-64-v3 answers. */
static bool takes_v3(enum work work, uint32_t algorithm) {
#ifdef FORCED
    /* In an archive for tests one build answers all calls on every processor: FORCED is 2 or 3. */
    (void)work, (void)algorithm;
    return FORCED == 3;
#else
    const uint8_t features = known_features();
    const bool has_instruction = algorithm == YZ_SHA256 || (algorithm == YZ_SHA1 && work == ALONE);
    if ((features & YZ_FEATURE_SHA) != 0 && has_instruction) return false;
    return (features & YZ_FEATURE_V3) != 0;
#endif
}

static enum work each_work(size_t count) { return count < FEWEST ? ALONE : TOGETHER; }

static enum work pbkdf2_work(uint32_t algorithm, size_t out_len) {
    return out_len <= (FEWEST - 1) * yz_output_len(algorithm) ? ALONE : TOGETHER;
}

/* CALL(NAME, WIDE, WORK, ALGORITHM, (PARAMETERS), (ARGUMENTS)) defines a call that hands its
 * arguments on. The builds have it by names with `v2_` and `v3_`, which no library shows. WIDE is
 * `_wide` where the one for x86-64-v3 runs as many messages or rounds side by side as is fastest
 * with its longer vectors. */
#define CALL(name, wide, work, algorithm, parameters, arguments)                                   \
    __attribute__((visibility("hidden"))) __typeof__(name) v2_##name, v3_##name##wide;             \
    yz_status name parameters {                                                                    \
        return takes_v3(work, algorithm) ? v3_##name##wide arguments : v2_##name arguments;        \
    }

/* Bytes that are read, bytes that are written, and either as an argument. */
#define IN(name) const uint8_t *name, size_t name##_len
#define OUT(name) uint8_t *name, size_t name##_len
#define BYTES(name) name, name##_len

CALL(yz_digest, , ALONE, algorithm,
     (uint32_t algorithm, IN(message), OUT(out)), (algorithm, BYTES(message), BYTES(out)))
CALL(yz_digest_each, _wide, each_work(count), algorithm,
     (uint32_t algorithm, const yz_message *messages, size_t count, OUT(out)),
     (algorithm, messages, count, BYTES(out)))
CALL(yz_digest_update, , ALONE, context->algorithm,
     (yz_digest_context *context, IN(input)), (context, BYTES(input)))
CALL(yz_digest_final, , ALONE, context->algorithm,
     (const yz_digest_context *context, OUT(out)), (context, BYTES(out)))

CALL(yz_hmac_sign, , ALONE, algorithm,
     (uint32_t algorithm, IN(key), IN(message), OUT(out)),
     (algorithm, BYTES(key), BYTES(message), BYTES(out)))
CALL(yz_hmac_verify, , ALONE, algorithm,
     (uint32_t algorithm, IN(key), IN(message), IN(tag)),
     (algorithm, BYTES(key), BYTES(message), BYTES(tag)))
CALL(yz_hmac_key_init, , ALONE, algorithm,
     (uint32_t algorithm, IN(value), yz_hmac_key *key), (algorithm, BYTES(value), key))
CALL(yz_hmac_key_sign, , ALONE, key->algorithm,
     (const yz_hmac_key *key, IN(message), OUT(out)), (key, BYTES(message), BYTES(out)))
CALL(yz_hmac_key_verify, , ALONE, key->algorithm,
     (const yz_hmac_key *key, IN(message), IN(tag)), (key, BYTES(message), BYTES(tag)))
CALL(yz_hmac_update, , ALONE, context->inner.algorithm,
     (yz_hmac_context *context, IN(input)), (context, BYTES(input)))
CALL(yz_hmac_final, , ALONE, context->inner.algorithm,
     (const yz_hmac_context *context, OUT(out)), (context, BYTES(out)))

/* Signed tokens and one-time passwords run tags. */
#define TEXT(name) const char *name, size_t name##_len
CALL(yz_jws_sign, , ALONE, algorithm,
     (uint32_t algorithm, IN(key), IN(payload), char *token, size_t room, size_t *token_len),
     (algorithm, BYTES(key), BYTES(payload), token, room, token_len))
CALL(yz_jws_verify, , ALONE, algorithm,
     (uint32_t algorithm, IN(key), TEXT(token), uint8_t *payload, size_t room, size_t *payload_len),
     (algorithm, BYTES(key), BYTES(token), payload, room, payload_len))
CALL(yz_hotp, , ALONE, algorithm,
     (uint32_t algorithm, IN(key), uint64_t counter, char *text, size_t digits),
     (algorithm, BYTES(key), counter, text, digits))
CALL(yz_totp, , ALONE, algorithm,
     (uint32_t algorithm, IN(key), uint64_t time, uint32_t step, char *text, size_t digits),
     (algorithm, BYTES(key), time, step, text, digits))
CALL(yz_hotp_find, , ALONE, algorithm,
     (uint32_t algorithm, IN(key), uint64_t first, uint64_t count, size_t digits, TEXT(text),
      uint64_t *counter),
     (algorithm, BYTES(key), first, count, digits, BYTES(text), counter))
CALL(yz_totp_find, , ALONE, algorithm,
     (uint32_t algorithm, IN(key), uint64_t time, uint32_t step, uint32_t back, uint32_t ahead,
      size_t digits, TEXT(text), uint64_t *counter),
     (algorithm, BYTES(key), time, step, back, ahead, digits, BYTES(text), counter))

/* So do webhooks, those of GitHub and Stripe under SHA-256. */
CALL(yz_webhook_verify_hex, , ALONE, algorithm,
     (uint32_t algorithm, IN(secret), TEXT(prefix), IN(body), TEXT(header)),
     (algorithm, BYTES(secret), BYTES(prefix), BYTES(body), BYTES(header)))
CALL(yz_webhook_verify_github, , ALONE, YZ_SHA256,
     (IN(secret), IN(body), TEXT(header)), (BYTES(secret), BYTES(body), BYTES(header)))
CALL(yz_webhook_verify_stripe, , ALONE, YZ_SHA256,
     (IN(secret), IN(body), TEXT(header), uint64_t now, uint64_t tolerance),
     (BYTES(secret), BYTES(body), BYTES(header), now, tolerance))

CALL(yz_hkdf_extract, , ALONE, algorithm,
     (uint32_t algorithm, IN(salt), IN(secret), OUT(out)),
     (algorithm, BYTES(salt), BYTES(secret), BYTES(out)))
CALL(yz_hkdf_expand, , ALONE, algorithm,
     (uint32_t algorithm, IN(prk), IN(info), OUT(out)),
     (algorithm, BYTES(prk), BYTES(info), BYTES(out)))
CALL(yz_hkdf_expand_label, , ALONE, algorithm,
     (uint32_t algorithm, IN(secret), IN(label), IN(context), OUT(out)),
     (algorithm, BYTES(secret), BYTES(label), BYTES(context), BYTES(out)))
CALL(yz_hkdf, , ALONE, algorithm,
     (uint32_t algorithm, IN(salt), IN(secret), IN(info), OUT(out)),
     (algorithm, BYTES(salt), BYTES(secret), BYTES(info), BYTES(out)))
CALL(yz_tls13_finished, , ALONE, algorithm,
     (uint32_t algorithm, IN(base_key), IN(transcript_hash), OUT(out)),
     (algorithm, BYTES(base_key), BYTES(transcript_hash), BYTES(out)))
CALL(yz_tls13_finished_verify, , ALONE, algorithm,
     (uint32_t algorithm, IN(base_key), IN(transcript_hash), IN(verify_data)),
     (algorithm, BYTES(base_key), BYTES(transcript_hash), BYTES(verify_data)))
CALL(yz_tls13_binder_key, , ALONE, algorithm,
     (uint32_t algorithm, IN(psk), bool is_external, OUT(out)),
     (algorithm, BYTES(psk), is_external, BYTES(out)))

CALL(yz_pbkdf2_derive, _wide, pbkdf2_work(algorithm, out_len), algorithm,
     (uint32_t algorithm, uint32_t iterations, IN(salt), IN(secret), OUT(out)),
     (algorithm, iterations, BYTES(salt), BYTES(secret), BYTES(out)))
CALL(yz_pbkdf2_verify, _wide, pbkdf2_work(algorithm, derived_len), algorithm,
     (uint32_t algorithm, uint32_t iterations, IN(salt), IN(secret), IN(derived)),
     (algorithm, iterations, BYTES(salt), BYTES(secret), BYTES(derived)))

/* Hashes of passwords: the text of one alone tells its algorithm, mostly SHA-256. */
CALL(yz_password_hash_new, , ALONE, YZ_SHA256,
     (uint32_t scheme, uint32_t iterations, IN(salt), IN(password), char *text, size_t room,
      size_t *text_len),
     (scheme, iterations, BYTES(salt), BYTES(password), text, room, text_len))
CALL(yz_password_hash_verify, , ALONE, YZ_SHA256,
     (TEXT(text), IN(password), uint32_t max_iterations),
     (BYTES(text), BYTES(password), max_iterations))

/* Trees run digests under SHA-256. */
#define HASHES(name) const yz_merkle_hash *name, size_t name##_count
#define LISTED(name) name, name##_count
#define PATH yz_merkle_hash *path, size_t room, size_t *path_count
CALL(yz_merkle_leaf, , ALONE, YZ_SHA256,
     (IN(entry), yz_merkle_hash *hash), (BYTES(entry), hash))
CALL(yz_merkle_verify_inclusion, , ALONE, YZ_SHA256,
     (const yz_merkle_hash *hash, uint64_t index, uint64_t size, HASHES(path),
      const yz_merkle_hash *root),
     (hash, index, size, LISTED(path), root))
CALL(yz_merkle_verify_consistency, , ALONE, YZ_SHA256,
     (uint64_t first_size, const yz_merkle_hash *first, uint64_t second_size,
      const yz_merkle_hash *second, HASHES(path)),
     (first_size, first, second_size, second, LISTED(path)))
CALL(yz_merkle_root, , ALONE, YZ_SHA256,
     (HASHES(leaves), yz_merkle_hash *root), (LISTED(leaves), root))
CALL(yz_merkle_inclusion_path, , ALONE, YZ_SHA256,
     (HASHES(leaves), size_t index, PATH), (LISTED(leaves), index, path, room, path_count))
CALL(yz_merkle_consistency_path, , ALONE, YZ_SHA256,
     (HASHES(leaves), size_t first_size, PATH),
     (LISTED(leaves), first_size, path, room, path_count))
