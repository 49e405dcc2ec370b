/* SPDX-License-Identifier: ISC
 * A program with some calls, by NOTHING, EQUAL, DIGEST or CONTEXT, of which c/test/sizes measures
 * what they take of the archive. It ends with 0 where SHA-256 of "abc" is right (the example of
 * FIPS 180-4). */
#include <string.h>
#include <yezdopin.h>

static const uint8_t MESSAGE[] = {'a', 'b', 'c'};
static const uint8_t WANTED[YZ_SHA256_OUTPUT_LEN] = {
    0xba, 0x78, 0x16, 0xbf, 0x8f, 0x01, 0xcf, 0xea, 0x41, 0x41, 0x40, 0xde, 0x5d, 0xae, 0x22, 0x23,
    0xb0, 0x03, 0x61, 0xa3, 0x96, 0x17, 0x7a, 0x9c, 0xb4, 0x10, 0xff, 0x61, 0xf2, 0x00, 0x15, 0xad,
};

int main(void) {
    uint8_t digest[YZ_SHA256_OUTPUT_LEN];
#if defined(DIGEST)
    if (yz_digest(YZ_SHA256, MESSAGE, sizeof MESSAGE, digest, sizeof digest) != YZ_OK) return 2;
#elif defined(CONTEXT)
    yz_digest_context context;
    if (yz_digest_init(YZ_SHA256, &context) != YZ_OK) return 2;
    if (yz_digest_update(&context, MESSAGE, sizeof MESSAGE) != YZ_OK) return 2;
    if (yz_digest_final(&context, digest, sizeof digest) != YZ_OK) return 2;
#else
    memcpy(digest, WANTED, sizeof digest);
#endif
#if defined(EQUAL)
    return !yz_equal(digest, sizeof digest, WANTED, sizeof WANTED);
#else
    return memcmp(digest, WANTED, sizeof digest) != 0;
#endif
}
