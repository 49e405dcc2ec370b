/* SPDX-License-Identifier: ISC */
/* A digest of 64 KiB by each of three hash functions, between the marks of the plugin of
 * c/test/traces: by the library, or by OpenSSL where OPENSSL is defined. */
#include "yezdopin.h"
#ifdef OPENSSL
#include <openssl/evp.h>
#endif

#define LEN 65536
#define NOINLINE __attribute__((noinline))

NOINLINE void window_begin(void) { __asm__ volatile("" ::: "memory"); }
NOINLINE void window_end(void) { __asm__ volatile("" ::: "memory"); }

typedef struct {
    uint32_t number;
    size_t len;
    const char *name;
} hash;

static const hash HASHES[] = {
    {YZ_SHA1, YZ_SHA1_OUTPUT_LEN, "SHA1"},
    {YZ_SHA256, YZ_SHA256_OUTPUT_LEN, "SHA256"},
    {YZ_SHA512, YZ_SHA512_OUTPUT_LEN, "SHA512"},
};
static uint8_t message[LEN], out[YZ_MAX_OUTPUT_LEN];

#ifdef OPENSSL
/* The second digest counts: the first one finds out what the processor has. */
static int digest(const hash *it) {
    EVP_MD *found = EVP_MD_fetch(NULL, it->name, NULL);
    int done = EVP_Digest(message, LEN, out, NULL, found, NULL);
    window_begin();
    done &= EVP_Digest(message, LEN, out, NULL, found, NULL);
    window_end();
    return done;
}
#else
static int digest(const hash *it) {
    window_begin();
    yz_status status = yz_digest(it->number, message, LEN, out, it->len);
    window_end();
    return status == YZ_OK;
}
#endif

int main(void) {
    for (size_t i = 0; i < sizeof HASHES / sizeof *HASHES; i++)
        if (!digest(&HASHES[i])) return 1;
    return 0;
}
