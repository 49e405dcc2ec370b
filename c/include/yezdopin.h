/* SPDX-License-Identifier: ISC
 * Copyright 2026 the Yezdopin authors.
 *
 * Digests (FIPS 180-4), tags (HMAC, RFC 2104), derived keys (HKDF, RFC 5869, also by the labels of
 * TLS 1.3, RFC 8446; PBKDF2, RFC 2898), Finished messages and binders of TLS 1.3, password hashes,
 * Merkle trees of transparency logs (RFC 9162), signed tokens (JWS, RFC 7515), one-time passwords
 * (HOTP, RFC 4226; TOTP, RFC 6238) and signatures of webhooks, each call proved to give the
 * standard's bytes. CALLS.md, installed as share/doc/yezdopin/CALLS.md, says what is proved and
 * what is not. All lengths are in bytes.
 *
 * Each call returns whatever it is given. Calls allocate nothing, set no errno, and keep no state
 * but two bytes that remember what the processor has: on one with x86-64-v3 (AVX2) or with SHA
 * instructions those that gain by it run code for it, unless the environment has
 * YEZDOPIN_INSTRUCTIONS=0 when the library is loaded, which leaves out the SHA instructions. They
 * may run in any threads at once: a key may be shared, a context may not. The library has no source
 * of random bytes: see getrandom(2).
 *
 * The caller must ensure, unchecked, that
 * - a pointer with a length behind it is that of so many bytes, which may be read, or written where
 *   it is no pointer to const; where the length is 0 it may be NULL, but for that in a yz_message;
 * - the same of a pointer to messages or to hashes with their number behind it;
 * - what a call writes overlaps nothing else that it is given;
 * - until a call returns, no other thread writes what it reads or writes. A call may read a byte more
 *   than once: yz_jws_verify reads a token for its tag and again for its payload, and may accept one
 *   text and return another. No call copies its inputs, which would need memory;
 * - a pointer to a context, a key, a single hash or a single number is aligned as its type, and not
 *   NULL;
 * - the thread has 8 KiB of stack left (Windows: 12), and for a call of password hashes 20 KiB.
 *
 * A call that can be refused answers YZ_OK, or the first cause that holds in the order of
 * yz_status, which is the one with the least number. Past YZ_OK it has written nothing. */
#ifndef YEZDOPIN_H
#define YEZDOPIN_H

#include <stdbool.h>
#include <stddef.h>
#include <stdint.h>
#if defined(_M_X64) && !defined(__x86_64__) /* Microsoft's compiler */
#include <intrin.h>
#endif

#if SIZE_MAX < UINT64_MAX
#error "yezdopin is for 64-bit processors"
#endif

/* The version of this header. The major number is that of the shared library's name, and rises
 * where a caller must be compiled again: with a call or the layout of a context or a key.
 * YZ_VERSION has all three in one number, 16 bits, 8 and 8, which `#if` can compare. */
#define YZ_VERSION_MAJOR 0
#define YZ_VERSION_MINOR 2
#define YZ_VERSION_PATCH 0
#define YZ_VERSION (YZ_VERSION_MAJOR * 0x10000u + YZ_VERSION_MINOR * 0x100u + YZ_VERSION_PATCH)

#if defined(__GNUC__) || defined(__clang__)
#define YZ_MUST_CHECK __attribute__((warn_unused_result))
#else
#define YZ_MUST_CHECK
#endif

#ifdef __cplusplus
#define YZ_AS_SIZE(n) static_cast<size_t>(n)
extern "C" {
#else
#define YZ_AS_SIZE(n) ((size_t)(n))
#endif

/* The algorithms, for `uint32_t algorithm`. */
enum {
    /* algorithms: made by tools/lists.py */
    YZ_SHA1 = 1, /* broken: for what must still read old data */
    YZ_SHA256 = 2,
    YZ_SHA384 = 3,
    YZ_SHA512 = 4,
    YZ_SHA512_256 = 5, /* digests alone */
    /* /algorithms */
};

/* What a call answers, in the words of yz_status_text. */
typedef int32_t yz_status;
enum {
    /* statuses: made by tools/lists.py */
    YZ_OK = 0,                  /* success */
    YZ_UNKNOWN_ALGORITHM = 1,   /* the number names no algorithm or scheme of this call */
    YZ_UNKNOWN_CONTEXT = 2,     /* the bytes can be no context or key */
    YZ_NO_ITERATIONS = 3,       /* the number of iterations is 0 */
    YZ_WRONG_LENGTH = 4,        /* the output or a text has a wrong length */
    YZ_BAD_FORMAT = 5,          /* no password hash has the text */
    YZ_TOO_MANY_ITERATIONS = 6, /* the text has more iterations than the caller takes */
    YZ_BAD_SALT = 7,            /* a new password hash can't have the salt */
    YZ_UNSPECIFIED = 8,         /* an input is out of its limits, or the verification failed */
    /* /statuses */
};

/* Bytes of a digest or a tag, and of a block. */
/* lengths: made by tools/lists.py */
#define YZ_SHA1_OUTPUT_LEN 20
#define YZ_SHA256_OUTPUT_LEN 32
#define YZ_SHA384_OUTPUT_LEN 48
#define YZ_SHA512_OUTPUT_LEN 64
#define YZ_SHA512_256_OUTPUT_LEN 32
#define YZ_MAX_OUTPUT_LEN 64
#define YZ_SHA1_BLOCK_LEN 64
#define YZ_SHA256_BLOCK_LEN 64
#define YZ_SHA384_BLOCK_LEN 128
#define YZ_SHA512_BLOCK_LEN 128
#define YZ_SHA512_256_BLOCK_LEN 128
#define YZ_MAX_BLOCK_LEN 128
/* /lengths */

/* The most bytes of an output of HKDF (RFC 5869, 2.3) and of PBKDF2 (RFC 2898, 5.2), over a digest
 * of `output_len` bytes. */
#define YZ_HKDF_MAX_OUT_LEN(output_len) (255u * (output_len))
#define YZ_PBKDF2_MAX_OUT_LEN(output_len) (UINT64_C(0xffffffff) * (output_len))

/* Contexts and keys. Their members are for these calls alone. They may be copied by assignment, and
 * a copy goes on by itself. Keys, and contexts of what is secret, are secret: yz_clear them.
 *
 * YZ_UNKNOWN_CONTEXT is no proof against wrong memory. It is answered exactly where the bytes name
 * no algorithm, as always after yz_clear, where a context has a whole block of pending bytes or
 * more, and where a tag's context counts less than the block of its key. Any other bytes are taken
 * for a context's or a key's, and the call answers as for one: it writes the digest or the tag that
 * follows from the words and the pending bytes that are there, and verifies exactly that tag. */
typedef struct {
    uint32_t algorithm;
    uint32_t num_pending;
    uint64_t completed_low;
    uint64_t completed_high;
    uint64_t words[8];
    uint8_t pending[YZ_MAX_BLOCK_LEN];
} yz_digest_context; /* 216 bytes */

typedef struct {
    uint32_t algorithm;
    uint32_t reserved;
    uint64_t inner[8];
    uint64_t outer[8];
} yz_hmac_key; /* 136 bytes */

typedef struct {
    yz_digest_context inner;
    uint64_t outer[8];
} yz_hmac_context; /* 280 bytes */

#if defined(__x86_64__) && (defined(__GNUC__) || defined(__clang__)) || defined(_M_X64)
/* Whether the processor can run the library, whose code is for x86-64-v2: Intel's processors from
 * 2009 on, AMD's from 2011 on. On an older one a call may end the program by SIGILL. This function
 * is compiled into the caller, since no code of the library is sure to run there. */
static inline bool yz_supported(void) {
    /* SSE3, SSSE3, CMPXCHG16B, SSE4.1, SSE4.2 and POPCNT, then LAHF. Every x86-64 processor has
     * both leaves. <cpuid.h> isn't included, since gcc before 11 fails where it is included
     * twice. */
    const unsigned wanted = 1u | 1u << 9 | 1u << 13 | 1u << 19 | 1u << 20 | 1u << 23, lahf = 1;
#ifdef __x86_64__
    unsigned a = 1, b, c, d, found;
    __asm__ volatile("cpuid" : "+a"(a), "=b"(b), "=c"(found), "=d"(d));
    a = 0x80000001;
    __asm__ volatile("cpuid" : "+a"(a), "=b"(b), "=c"(c), "=d"(d));
#else
    int registers[4]; /* a, b, c and d */
    __cpuid(registers, 1);
    const unsigned found = (unsigned)registers[2];
    __cpuid(registers, (int)0x80000001);
    const unsigned c = (unsigned)registers[2];
#endif
    return (found & wanted) == wanted && (c & lahf) != 0;
}
#elif defined(__aarch64__)
/* Whether the processor can run the library: each 64-bit ARM processor can. */
static inline bool yz_supported(void) { return true; }
#endif

/* The version that the library was built as: a caller compares its upper 16 bits with those of
 * YZ_VERSION where it loads the library by itself. */
uint32_t yz_version(void);

/* What the library runs here beside what each such processor has: a sum of these numbers. */
enum {
    YZ_FEATURE_V3 = 1, /* code for x86-64-v3 (AVX2) */
    YZ_FEATURE_SHA = 2, /* SHA instructions, for SHA-1 and SHA-256 */
};
uint32_t yz_features(void);

/* The text of a status, or "unknown status" for any other number. It is static: neither change it
 * nor free it. */
const char *yz_status_text(yz_status status);

/* The bytes of a digest or a tag, and of a block; 0 for a number that names no algorithm. */
size_t yz_output_len(uint32_t algorithm);
size_t yz_block_len(uint32_t algorithm);

/* The digest of a message. `out_len` is yz_output_len of the algorithm, or the call is refused. A
 * message has at most 2^61 - 1 bytes under YZ_SHA1 and YZ_SHA256, else at most 2^125 - 1. */
yz_status yz_digest(uint32_t algorithm, const uint8_t *message, size_t message_len,
                    uint8_t *out, size_t out_len) YZ_MUST_CHECK;

/* A message of several: `len` bytes from `bytes` on. */
typedef struct {
    const uint8_t *bytes; /* not NULL, even where `len` is 0 */
    size_t len;
} yz_message;

/* The digests of `count` messages, one after another in `out`: `out_len` is `count` times
 * yz_output_len of the algorithm, or the call is refused. It runs several messages side by side.
 * From four on that is faster than calls of yz_digest under YZ_SHA1 and YZ_SHA256, and on a
 * processor with AVX2 under all algorithms, most of all where the lengths are alike. With SHA
 * instructions YZ_SHA256 runs one after another, which is faster still, and long messages under
 * YZ_SHA1 gain from eight on. One short message is faster by yz_digest, since each call clears room
 * for sixteen digests first. */
yz_status yz_digest_each(uint32_t algorithm, const yz_message *messages, size_t count,
                         uint8_t *out, size_t out_len) YZ_MUST_CHECK;

/* The digest of a message in pieces. yz_digest_final leaves the context as it is, and more may
 * follow. */
yz_status yz_digest_init(uint32_t algorithm, yz_digest_context *context) YZ_MUST_CHECK;
yz_status yz_digest_update(yz_digest_context *context,
                           const uint8_t *input, size_t input_len) YZ_MUST_CHECK;
yz_status yz_digest_final(const yz_digest_context *context,
                          uint8_t *out, size_t out_len) YZ_MUST_CHECK;

/* The tag of a message under a key, and its verification. `out_len` is yz_output_len of the
 * algorithm. A verification answers YZ_OK exactly where `tag` is the whole tag, and reads all of it
 * before it answers. */
yz_status yz_hmac_sign(uint32_t algorithm, const uint8_t *key, size_t key_len,
                       const uint8_t *message, size_t message_len,
                       uint8_t *out, size_t out_len) YZ_MUST_CHECK;
yz_status yz_hmac_verify(uint32_t algorithm, const uint8_t *key, size_t key_len,
                         const uint8_t *message, size_t message_len,
                         const uint8_t *tag, size_t tag_len) YZ_MUST_CHECK;

/* The same under a key that yz_hmac_key_init makes once, for many messages. */
yz_status yz_hmac_key_init(uint32_t algorithm, const uint8_t *value, size_t value_len,
                           yz_hmac_key *key) YZ_MUST_CHECK;
yz_status yz_hmac_key_sign(const yz_hmac_key *key, const uint8_t *message, size_t message_len,
                           uint8_t *out, size_t out_len) YZ_MUST_CHECK;
yz_status yz_hmac_key_verify(const yz_hmac_key *key, const uint8_t *message, size_t message_len,
                             const uint8_t *tag, size_t tag_len) YZ_MUST_CHECK;

/* The tag of a message in pieces. yz_hmac_final leaves the context as it is, and more may
 * follow. */
yz_status yz_hmac_init(const yz_hmac_key *key, yz_hmac_context *context) YZ_MUST_CHECK;
yz_status yz_hmac_update(yz_hmac_context *context,
                         const uint8_t *input, size_t input_len) YZ_MUST_CHECK;
yz_status yz_hmac_final(const yz_hmac_context *context,
                        uint8_t *out, size_t out_len) YZ_MUST_CHECK;

/* HKDF: extract, expand, and both in one call. `out_len` is yz_output_len of the algorithm for
 * extract, and at most YZ_HKDF_MAX_OUT_LEN of that for the others, or the call answers
 * YZ_WRONG_LENGTH. The salt comes before the secret, as in the RFC; in the packages for Python and
 * JavaScript the secret comes first. */
yz_status yz_hkdf_extract(uint32_t algorithm, const uint8_t *salt, size_t salt_len,
                          const uint8_t *secret, size_t secret_len,
                          uint8_t *out, size_t out_len) YZ_MUST_CHECK;
yz_status yz_hkdf_expand(uint32_t algorithm, const uint8_t *prk, size_t prk_len,
                         const uint8_t *info, size_t info_len,
                         uint8_t *out, size_t out_len) YZ_MUST_CHECK;
yz_status yz_hkdf(uint32_t algorithm, const uint8_t *salt, size_t salt_len,
                  const uint8_t *secret, size_t secret_len,
                  const uint8_t *info, size_t info_len,
                  uint8_t *out, size_t out_len) YZ_MUST_CHECK;

/* HKDF-Expand-Label of TLS 1.3 and QUIC (RFC 8446, 7.1): expand, under the limit of its output, for
 * the info that is made of `out_len`, the label behind the prefix "tls13 ", which the caller leaves
 * out, and the context. A label has 1 to YZ_MAX_LABEL_LEN bytes and a context at most
 * YZ_MAX_CONTEXT_LEN, or the call answers YZ_UNSPECIFIED. */
#define YZ_MAX_LABEL_LEN 249
#define YZ_MAX_CONTEXT_LEN 255
yz_status yz_hkdf_expand_label(uint32_t algorithm, const uint8_t *secret, size_t secret_len,
                               const uint8_t *label, size_t label_len,
                               const uint8_t *context, size_t context_len,
                               uint8_t *out, size_t out_len) YZ_MUST_CHECK;

/* The verify_data of a Finished message of TLS 1.3 (RFC 8446, 4.4.4), and its verification. The
 * base key is a traffic secret of the handshake, and `transcript_hash` that of the messages before
 * the Finished. A binder (4.2.11.2) is made in the same way, of the key that yz_tls13_binder_key
 * writes and the hash of the ClientHello up to its binders. The algorithm is that of the cipher
 * suite: YZ_SHA256 or YZ_SHA384 in RFC 8446; the others of HKDF are taken as by
 * yz_hkdf_expand_label.
 *
 * `base_key_len`, `transcript_hash_len` and `out_len` are yz_output_len of the algorithm, or the
 * calls answer YZ_WRONG_LENGTH. A verification answers YZ_OK exactly where `verify_data` is what
 * yz_tls13_finished writes, and reads all of it before it answers. */
yz_status yz_tls13_finished(uint32_t algorithm, const uint8_t *base_key, size_t base_key_len,
                            const uint8_t *transcript_hash, size_t transcript_hash_len,
                            uint8_t *out, size_t out_len) YZ_MUST_CHECK;
yz_status yz_tls13_finished_verify(uint32_t algorithm, const uint8_t *base_key, size_t base_key_len,
                                   const uint8_t *transcript_hash, size_t transcript_hash_len,
                                   const uint8_t *verify_data,
                                   size_t verify_data_len) YZ_MUST_CHECK;

/* The base key of a binder (RFC 8446, 7.1): Derive-Secret(HKDF-Extract(0, PSK), "ext binder", "")
 * of a pre-shared key that was established out of band, with "res binder" of one from an earlier
 * session. `out_len` is yz_output_len of the algorithm, or the call answers YZ_WRONG_LENGTH. An
 * empty pre-shared key, as of a variable that nobody set, is answered by YZ_UNSPECIFIED. */
yz_status yz_tls13_binder_key(uint32_t algorithm, const uint8_t *psk, size_t psk_len,
                              bool is_external, uint8_t *out, size_t out_len) YZ_MUST_CHECK;

/* PBKDF2, and its verification. `out_len` is at most YZ_PBKDF2_MAX_OUT_LEN of the algorithm's
 * yz_output_len, or yz_pbkdf2_derive answers YZ_WRONG_LENGTH. A verification answers YZ_OK exactly
 * where `derived` isn't empty and is what yz_pbkdf2_derive gives for its length, and reads all of
 * it before it answers. It answers YZ_UNSPECIFIED where `derived` is longer than that, as for a
 * mismatch.
 *
 * The order is iterations, salt, secret; in the packages for Python and JavaScript, as in hashlib
 * and node:crypto, it is password, salt, iterations. */
yz_status yz_pbkdf2_derive(uint32_t algorithm, uint32_t iterations,
                           const uint8_t *salt, size_t salt_len,
                           const uint8_t *secret, size_t secret_len,
                           uint8_t *out, size_t out_len) YZ_MUST_CHECK;
yz_status yz_pbkdf2_verify(uint32_t algorithm, uint32_t iterations,
                           const uint8_t *salt, size_t salt_len,
                           const uint8_t *secret, size_t secret_len,
                           const uint8_t *derived, size_t derived_len) YZ_MUST_CHECK;

/* Password hashes by PBKDF2 as other systems keep them: Django, Werkzeug, RustCrypto's PHC strings,
 * Mosquitto, passlib, and PostgreSQL, whose text has the two keys of SCRAM. These are the schemes,
 * for `uint32_t scheme`. A text is no secret to these calls; the password is.
 *
 * Under YZ_POSTGRESQL the caller prepares a password that is not ASCII by SASLprep (RFC 4013), as
 * PostgreSQL does: no call does so here. */
#define YZ_MAX_PASSWORD_HASH_LEN 1024
enum {
    /* schemes: made by tools/lists.py */
    YZ_DJANGO_SHA256 = 1,
    YZ_DJANGO_SHA1 = 2,
    YZ_WERKZEUG_SHA256 = 3,
    YZ_WERKZEUG_SHA512 = 4,
    YZ_PHC_SHA256 = 5,
    YZ_PHC_SHA512 = 6,
    YZ_MOSQUITTO = 7,
    YZ_PASSLIB_SHA1 = 8,
    YZ_PASSLIB_SHA256 = 9,
    YZ_PASSLIB_SHA512 = 10,
    YZ_POSTGRESQL = 11,
    YZ_WERKZEUG_SHA1 = 12,
    /* /schemes */
};

/* Tests a password against the text of a hash, of whichever scheme. Answers YZ_OK exactly where the
 * hash is the password's.
 *
 * A text of more than YZ_MAX_PASSWORD_HASH_LEN bytes is answered by YZ_WRONG_LENGTH. One that is no
 * hash's is answered by YZ_BAD_FORMAT, and one that names more than `max_iterations` by
 * YZ_TOO_MANY_ITERATIONS, all before anything is derived: whoever wrote the text chose its
 * iterations, and 4294967295 of them take a quarter of an hour and more. Another password, and one
 * that is too long, is answered by YZ_UNSPECIFIED. */
yz_status yz_password_hash_verify(const char *text, size_t text_len,
                                  const uint8_t *password, size_t password_len,
                                  uint32_t max_iterations) YZ_MUST_CHECK;

/* Writes of which scheme a text is, and how many iterations it names, so that a password can be
 * hashed anew at a login where the caller wants another scheme or more iterations. It derives
 * nothing. A text is answered by YZ_WRONG_LENGTH and YZ_BAD_FORMAT as above. */
yz_status yz_password_hash_info(const char *text, size_t text_len,
                                uint32_t *scheme, uint32_t *iterations) YZ_MUST_CHECK;

/* Writes a salt for a new hash of a scheme to the start of `salt`, which has `salt_room` bytes, and
 * to `salt_len` how many bytes it has: 22 letters and digits for Django and Werkzeug, which write
 * it as it is, and else the random bytes themselves. The rest of `salt` is unchanged.
 *
 * `random` is YZ_SALT_RANDOM_LEN bytes of a generator of random numbers, or the call answers
 * YZ_UNSPECIFIED. A number that names no scheme is answered by YZ_UNKNOWN_ALGORITHM, and a salt
 * that is longer than `salt_room` by YZ_WRONG_LENGTH. */
#define YZ_SALT_RANDOM_LEN 16
#define YZ_MAX_SALT_LEN 22
yz_status yz_password_hash_salt(uint32_t scheme, const uint8_t *random, size_t random_len,
                                uint8_t *salt, size_t salt_room, size_t *salt_len) YZ_MUST_CHECK;

/* Writes the hash of a password to the start of `text`, which has `text_room` bytes, and to
 * `text_len` how many bytes it has. No zero follows it, and the rest of `text` is unchanged.
 *
 * The salt should be random, and of this hash alone: yz_password_hash_salt makes one. An empty one
 * is answered by YZ_BAD_SALT, and so is one with a dollar sign for Django and Werkzeug. A number
 * that names no scheme is answered by YZ_UNKNOWN_ALGORITHM, and a text that is longer than
 * `text_room` or than YZ_MAX_PASSWORD_HASH_LEN by YZ_WRONG_LENGTH. The order is iterations, salt,
 * password, as of PBKDF2; a test has the text and then the password. */
yz_status yz_password_hash_new(uint32_t scheme, uint32_t iterations,
                               const uint8_t *salt, size_t salt_len,
                               const uint8_t *password, size_t password_len,
                               char *text, size_t text_room, size_t *text_len) YZ_MUST_CHECK;

/* Merkle trees of transparency logs (RFC 9162, 2.1, the same as in RFC 6962) over YZ_SHA256: of
 * certificates, of signed software, of Go's modules. Nothing that these calls are given is secret,
 * and their time may tell all of it.
 *
 * A hash is that of a leaf, of a node, or of a whole tree, its root. It is plain bytes, so that any
 * bytes in a row are an array of hashes, 32 each. */
#define YZ_MERKLE_HASH_LEN 32
typedef struct {
    uint8_t bytes[YZ_MERKLE_HASH_LEN];
} yz_merkle_hash; /* 32 bytes */

/* The hash of an entry as a leaf, which is not its digest: a byte 0 stands before it. An entry of
 * more than 2^61 - 2 bytes is answered by YZ_UNSPECIFIED. */
yz_status yz_merkle_leaf(const uint8_t *entry, size_t entry_len,
                         yz_merkle_hash *hash) YZ_MUST_CHECK;

/* Whether a path proves that a leaf of this hash is at `index`, from 0 on, in the tree of `size`
 * leaves with this root (2.1.3.2). Answers YZ_OK exactly where it does, else YZ_UNSPECIFIED, also
 * where `index` is not below `size` or the path has a wrong length.
 *
 * Where the root is that of a list of `size` entries, YZ_OK means that the hash is that of the
 * list's entry at `index`, or that two different inputs with one SHA-256 digest are at hand. That
 * the root is the log's is for the caller to know: who signed it, and whether others see it too. */
yz_status yz_merkle_verify_inclusion(const yz_merkle_hash *hash, uint64_t index, uint64_t size,
                                     const yz_merkle_hash *path, size_t path_count,
                                     const yz_merkle_hash *root) YZ_MUST_CHECK;

/* Whether a path proves that the tree of `first_size` leaves with the root `first` is the beginning
 * of the tree of `second_size` leaves with the root `second` (2.1.4.2). Answers YZ_OK exactly where
 * it does, else YZ_UNSPECIFIED, also where `first_size` is 0 or not below `second_size`: there is
 * no proof for these, and a caller compares two roots of one size.
 *
 * Where `second` is the root of a list of `second_size` entries, YZ_OK means that `first` is that
 * of its first `first_size`, or that two such inputs are at hand. */
yz_status yz_merkle_verify_consistency(uint64_t first_size, const yz_merkle_hash *first,
                                       uint64_t second_size, const yz_merkle_hash *second,
                                       const yz_merkle_hash *path,
                                       size_t path_count) YZ_MUST_CHECK;

/* The root of the tree over `count` hashes of leaves (2.1.1); of none it is the digest of nothing.
 * Always answers YZ_OK. */
yz_status yz_merkle_root(const yz_merkle_hash *leaves, size_t count,
                         yz_merkle_hash *root) YZ_MUST_CHECK;

/* Writes the path that proves where a leaf is, or that the first leaves are the beginning, to the
 * start of `path`, which has room for `path_room` hashes, and to `path_count` how many it has
 * (2.1.3.1, 2.1.4.1), at most YZ_MERKLE_MAX_PATH. The rest of `path` is unchanged.
 *
 * A path of more hashes than `path_room` is answered by YZ_WRONG_LENGTH. YZ_UNSPECIFIED answers an
 * `index` that is not below `count`, and a `first_size` that is 0 or not below it. */
#define YZ_MERKLE_MAX_PATH 65
yz_status yz_merkle_inclusion_path(const yz_merkle_hash *leaves, size_t count, size_t index,
                                   yz_merkle_hash *path, size_t path_room,
                                   size_t *path_count) YZ_MUST_CHECK;
yz_status yz_merkle_consistency_path(const yz_merkle_hash *leaves, size_t count, size_t first_size,
                                     yz_merkle_hash *path, size_t path_room,
                                     size_t *path_count) YZ_MUST_CHECK;

/* Signed tokens: JSON Web Signatures in the compact form (RFC 7515), of which JSON Web Tokens are
 * made, under HMAC (RFC 7518, 3.2). YZ_SHA256 is for HS256, and so are the others for HS384 and
 * HS512; any other number is answered by YZ_UNKNOWN_ALGORITHM. A key is for one of them, and has at
 * least yz_output_len of the algorithm bytes, or the call answers YZ_UNSPECIFIED.
 *
 * A payload is any bytes. No call reads the claims in it: whether the token has expired is for the
 * caller to test, and for whom it was made. A token has YZ_JWS_TOKEN_LEN(n, m) bytes, where a
 * digest has n and the payload m. */
#define YZ_JWS_TOKEN_LEN(n, m) (38 + YZ_BASE64_LEN(n) + YZ_BASE64_LEN(m))
#define YZ_BASE64_LEN(n) (YZ_AS_SIZE(n) + (YZ_AS_SIZE(n) + 2) / 3)

/* Writes the token of a payload to the start of `token`, which has `token_room` bytes, and to
 * `token_len` how many bytes it has, which are YZ_JWS_TOKEN_LEN. No zero follows it, and the rest
 * of `token` is unchanged. The header is {"alg":"HS256","typ":"JWT"}, or that with the name of the
 * algorithm. A token that is longer than `token_room` is answered by YZ_WRONG_LENGTH. */
yz_status yz_jws_sign(uint32_t algorithm, const uint8_t *key, size_t key_len,
                      const uint8_t *payload, size_t payload_len,
                      char *token, size_t token_room, size_t *token_len) YZ_MUST_CHECK;

/* Writes the payload of a token that the key signed (RFC 7515, 5.2) to the start of `payload`,
 * which has `payload_room` bytes, and to `payload_len` how many bytes it has. The rest of `payload`
 * is unchanged. The header is one of these, letter by letter, with the name of the algorithm, as
 * most systems write it: {"alg":"HS256","typ":"JWT"}, {"typ":"JWT","alg":"HS256"} and
 * {"alg":"HS256"}. The whole tag is compared, and the header is read only where it is right.
 *
 * `payload_room` is at least `token_len`, or the call answers YZ_WRONG_LENGTH, though the payload
 * is shorter. Any other text is answered by YZ_UNSPECIFIED, whatever is wrong with it: the tag, the
 * header or the algorithm that it names, spare bits or padding in a part. */
yz_status yz_jws_verify(uint32_t algorithm, const uint8_t *key, size_t key_len,
                        const char *token, size_t token_len,
                        uint8_t *payload, size_t payload_room, size_t *payload_len) YZ_MUST_CHECK;

/* One-time passwords: HOTP (RFC 4226), and TOTP (RFC 6238), whose counter is the number of a time's
 * step. A time is in seconds since the beginning of 1970, and a step has `step` seconds, 30 for the
 * most part; 0 is answered by YZ_UNSPECIFIED. The algorithm is any of yz_hmac_sign. Most devices
 * have YZ_SHA1, whose faults don't reach HMAC; the RFC names YZ_SHA256 and YZ_SHA512 too.
 *
 * A password is `digits` decimal digits in ASCII, leading zeros among them, and no zero byte is
 * behind them. It has 6 to 8, or the call answers YZ_WRONG_LENGTH. An empty key, as of a variable
 * that nobody set, is answered by YZ_UNSPECIFIED; any other has a length that it has for
 * yz_hmac_sign. RFC 4226 (section 4) asks for 16 bytes and more. */
#define YZ_OTP_MIN_DIGITS 6
#define YZ_OTP_MAX_DIGITS 8

/* Writes the password of a counter, or of a time, to `text`, which has `digits` bytes. */
yz_status yz_hotp(uint32_t algorithm, const uint8_t *key, size_t key_len, uint64_t counter,
                  char *text, size_t digits) YZ_MUST_CHECK;
yz_status yz_totp(uint32_t algorithm, const uint8_t *key, size_t key_len,
                  uint64_t time, uint32_t step, char *text, size_t digits) YZ_MUST_CHECK;

/* Looks for a password that a user typed: among those of `count` counters from `first` on, none
 * above 2^64 - 1 (RFC 4226, 7.4), or of a time's step, `back` steps before it and `ahead` after it
 * (RFC 6238, 5.2). Writes to `counter` the first counter, or number of a step, whose password the
 * text is, with each of its `digits`. Where the text is the password of none, and where it has not
 * as many digits, the call answers YZ_UNSPECIFIED. It compares whole texts, and ends at the counter
 * that it finds: its time tells which.
 *
 * A password is for one use: keep the counter, and refuse one that is not above the last. */
yz_status yz_hotp_find(uint32_t algorithm, const uint8_t *key, size_t key_len,
                       uint64_t first, uint64_t count,
                       size_t digits, const char *text, size_t text_len,
                       uint64_t *counter) YZ_MUST_CHECK;
yz_status yz_totp_find(uint32_t algorithm, const uint8_t *key, size_t key_len,
                       uint64_t time, uint32_t step, uint32_t back, uint32_t ahead,
                       size_t digits, const char *text, size_t text_len,
                       uint64_t *counter) YZ_MUST_CHECK;

/* Signatures of webhooks: headers with a tag of the body, in hex, in lower case. Each of these
 * calls answers YZ_OK exactly where the header is right, and else YZ_UNSPECIFIED, also under an
 * empty secret, as of a variable that nobody set. The body is that of the request, byte by byte,
 * not one that was parsed and written again. The whole tag is compared, whatever the header is.
 *
 * Nothing here tells a request from one that was sent before: a sender's number for each, as
 * GitHub's `X-GitHub-Delivery`, does. */

/* The header is `prefix`, which may be empty, and the tag by an algorithm of yz_hmac_sign. */
yz_status yz_webhook_verify_hex(uint32_t algorithm, const uint8_t *secret, size_t secret_len,
                                const char *prefix, size_t prefix_len,
                                const uint8_t *body, size_t body_len,
                                const char *header, size_t header_len) YZ_MUST_CHECK;

/* GitHub's `X-Hub-Signature-256`: "sha256=" and the tag by YZ_SHA256. */
yz_status yz_webhook_verify_github(const uint8_t *secret, size_t secret_len,
                                   const uint8_t *body, size_t body_len,
                                   const char *header, size_t header_len) YZ_MUST_CHECK;

/* Stripe's `Stripe-Signature`: "t=" and a time first, in seconds since the beginning of 1970, and
 * among the items after it, between commas, "v1=" and the tag by YZ_SHA256 of the time as it stands
 * there, a full stop and the body. It is right where `now` is at most `tolerance` seconds after the
 * time: Stripe's libraries take 300. A time after `now` is right too. */
yz_status yz_webhook_verify_stripe(const uint8_t *secret, size_t secret_len,
                                   const uint8_t *body, size_t body_len,
                                   const char *header, size_t header_len,
                                   uint64_t now, uint64_t tolerance) YZ_MUST_CHECK;

/* Whether both are equal. Where the lengths agree it reads all of both. */
bool yz_equal(const uint8_t *a, size_t a_len, const uint8_t *b, size_t b_len) YZ_MUST_CHECK;

/* Writes zeros over the bytes: of a context or a key, yz_clear(&key, sizeof key). As a call into a
 * library it isn't left out by a compiler. */
void yz_clear(void *bytes, size_t bytes_len);

#ifdef __cplusplus
}
#endif

#endif
