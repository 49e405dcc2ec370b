/* SPDX-License-Identifier: ISC */
/* What the files of the random comparison share. Each case makes the same calls of both providers,
 * good and bad, and compares what each call returns and writes. */
#ifndef YEZDOPIN_AGREE_H
#define YEZDOPIN_AGREE_H

#include <openssl/core_names.h>
#include <openssl/evp.h>
#include <openssl/kdf.h>
#include <openssl/params.h>
#include <stdint.h>

#define SIDES 2
#define MOST_INPUT 4000
#define MOST_OUT 20000
#define NUM_NAMES 12
/* The names before this one are those of digests that HMAC, HKDF or PBKDF2 may be under. */
#define NUM_USUAL_NAMES 6

/* One row a side. */
typedef unsigned char outputs[SIDES][MOST_OUT];

typedef struct {
    uint64_t state;
} random_numbers;

extern OSSL_LIB_CTX *both;
extern const char *const sides[SIDES];
extern const char *const names[NUM_NAMES];

/* agree.c */
size_t below(random_numbers *numbers, size_t limit);
void fill(random_numbers *numbers, unsigned char *bytes, size_t len);
void compare(const char *call, uint64_t seed, const int *returned, const outputs *out,
             const size_t *lens);

/* The cases: all that a case does follows from its seed. */
void compare_digests(uint64_t seed);
void compare_tags(uint64_t seed);
void compare_derivations(uint64_t seed, const char *kdf);

#endif
