/* SPDX-License-Identifier: ISC */
/* The work by libsodium, which has no SHA-1, no PBKDF2, and in 1.0.18 no HKDF. */
#include "speed.h"

#if __has_include(<sodium.h>)
#include <sodium.h>
#include <stdio.h>

static uint32_t bits;
static crypto_hash_sha256_state running_256;
static crypto_hash_sha512_state running_512;
static crypto_auth_hmacsha256_state ready_256;
static crypto_auth_hmacsha512_state ready_512;

static const char *name(void) {
    static char text[40];
    snprintf(text, sizeof text, "libsodium %s", sodium_version_string());
    return text;
}

static bool begin(const hash *wanted) {
    bits = 8 * (uint32_t)wanted->out_len;
    return sodium_init() >= 0 && (bits == 256 || bits == 512)
        && !crypto_hash_sha256_init(&running_256) && !crypto_hash_sha512_init(&running_512)
        && !crypto_auth_hmacsha256_init(&ready_256, key, KEY_LEN)
        && !crypto_auth_hmacsha512_init(&ready_512, key, KEY_LEN);
}

static bool digest_of(const uint8_t *bytes, size_t len, uint8_t *out) {
    return !(bits == 256 ? crypto_hash_sha256(out, bytes, len)
                         : crypto_hash_sha512(out, bytes, len));
}

static bool digest(const work *row, uint8_t *out) { return digest_of(messages, row->len, out); }

static bool each(const work *row, uint8_t *out) {
    for (size_t i = 0; i < row->count; i++)
        if (!digest_of(message_at(row, i), row->len, out + i * bits / 8)) return false;
    return true;
}

static bool pieces(const work *row, uint8_t *out) {
    if (bits == 256) {
        crypto_hash_sha256_state state;
        bool done = !crypto_hash_sha256_init(&state);
        for (size_t i = 0; i < row->count && done; i++)
            done = !crypto_hash_sha256_update(&state, messages + i * row->len, row->len);
        return done && !crypto_hash_sha256_final(&state, out);
    }
    crypto_hash_sha512_state state;
    bool done = !crypto_hash_sha512_init(&state);
    for (size_t i = 0; i < row->count && done; i++)
        done = !crypto_hash_sha512_update(&state, messages + i * row->len, row->len);
    return done && !crypto_hash_sha512_final(&state, out);
}

static bool update(const work *row, uint8_t *out) {
    (void)out;
    return !(bits == 256 ? crypto_hash_sha256_update(&running_256, messages, row->len)
                         : crypto_hash_sha512_update(&running_512, messages, row->len));
}

static bool tag(const work *row, uint8_t *out) {
    return !(bits == 256 ? crypto_auth_hmacsha256(out, messages, row->len, key)
                         : crypto_auth_hmacsha512(out, messages, row->len, key));
}

static bool tag_under_key(const work *row, uint8_t *out) {
    if (bits == 256) {
        crypto_auth_hmacsha256_state state = ready_256;
        return !crypto_auth_hmacsha256_update(&state, messages, row->len)
            && !crypto_auth_hmacsha256_final(&state, out);
    }
    crypto_auth_hmacsha512_state state = ready_512;
    return !crypto_auth_hmacsha512_update(&state, messages, row->len)
        && !crypto_auth_hmacsha512_final(&state, out);
}

const party libsodium = {name, begin, {digest, pieces, update, tag, tag_under_key, NULL, NULL,
                                       NULL, each}};
#else
const party libsodium = {0};
#endif
