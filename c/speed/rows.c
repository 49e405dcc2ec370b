/* SPDX-License-Identifier: ISC */
/* The rows that are timed, and the ratios with their limits. */
#include "speed.h"
#include "yezdopin.h"

const hash HASH[HASHES] = {
    {"SHA1", YZ_SHA1, YZ_PASSLIB_SHA1, YZ_SHA1_OUTPUT_LEN},
    {"SHA256", YZ_SHA256, YZ_PASSLIB_SHA256, YZ_SHA256_OUTPUT_LEN},
    {"SHA512", YZ_SHA512, YZ_PASSLIB_SHA512, YZ_SHA512_OUTPUT_LEN},
};

work WORK[MAX_WORKS] = {
    [DIGEST_16] = {"digest of 16 bytes", DIGEST, 1, 16, 500, 0},
    [DIGEST_64] = {"digest of 64 bytes", DIGEST, 1, 64, 500, KIT_SHORT_DIGESTS},
    [DIGEST_1K] = {"digest of 1 KiB", DIGEST, 1, 1024, 50, 0},
    [DIGEST_64K] = {"digest of 64 KiB", DIGEST, 1, 65536, 10, KIT_LONG_DIGESTS},
    [CONTEXT_64] = {"context: begun, 64 bytes, ended", PIECES, 1, 64, 500, 0},
    [BY_16] = {"64 KiB by 16 bytes", PIECES, 4096, 16, 2, 0},
    [BY_1K] = {"64 KiB by 1 KiB", PIECES, 64, 1024, 2, 0},
    [UPDATE_16] = {"update by 16 bytes", UPDATE, 1, 16, 1000, 0},
    [TAG_64] = {"tag of 64 bytes", TAG, 1, 64, 200, 0},
    [READY_TAG_64] = {"tag of 64 bytes, key ready", TAG_UNDER_KEY, 1, 64, 500, 0},
    [HKDF_42] = {"HKDF, 42 bytes", HKDF, 1, 42, 100, 0},
    [PBKDF2_1] = {"PBKDF2, 1,000 iterations", PBKDF2, 1, 0, 1, 0},
    [PBKDF2_4] = {"PBKDF2, 4 rounds of output", PBKDF2, 4, 0, 1, 0},
    [PBKDF2_8] = {"PBKDF2, 8 rounds of output", PBKDF2, 8, 0, 1, 0},
    [PASSWORD] = {"password hash, 1,000 iterations", PASSWORD_HASH, 1, 0, 1, 0},
    [FOUR_64] = {"4 digests of 64 bytes", EACH, 4, 64, 100, 0},
    [EIGHT_64] = {"8 digests of 64 bytes", EACH, 8, 64, 50, 0},
    [MANY_64] = {"64 digests of 64 bytes", EACH, 64, 64, 10, 0},
    [EIGHT_1K] = {"8 digests of 1 KiB", EACH, 8, 1024, 10, 0},
    [FOUR_64K] = {"4 digests of 64 KiB", EACH, 4, 65536, 5, FOUR_CONTEXTS},
    [EIGHT_64K] = {"8 digests of 64 KiB", EACH, 8, 65536, 1, 0},
    [TWO_BLOCKS] = {"two blocks", BLOCKS, 0, 0, 1000, TWO_BLOCK_RUNS},
    [STORE_SET] = {"a name, set", STORE, 0, 0, 1, NO_NAME},
    [STORE_KNOWN] = {"a name with a record", STORE, 0, 0, 1, KNOWN_NAME},
    [STORE_UNKNOWN] = {"a name without one", STORE, 0, 0, 1, UNKNOWN_NAME},
    [LINE_64] = {"line of 64 bytes", DIGEST_LINE, 50000, 64, 0, 0},
    [LINE_64K] = {"line of 64 KiB", DIGEST_LINE, 100, 65536, 0, 0},
    [LINE_PBKDF2] = {"line of 1,000 iterations", PBKDF2_LINE, 100, 0, 0, 0},
};
int work_count = FIXED_WORKS;

#define ONE {1, 1, 1}
#define FOUR {4, 4, 4}
#define PAIRS_IN_64K {512.5, 512.5, 256.5} /* of blocks, with the padding's */
#define PAIRS_IN_TAG {1.5, 1.5, 1}

/* crates/ring_speed and ./bench are built for x86-64-v2, so the library's calls are those of that
 * build. A limit stands some per cent above what was measured. */
const ratio RATIO[RATIOS] = {
    {"digest of 64 bytes / the kit's", DIGEST_64, V2, DIGEST_64, RING_SPEED, ONE,
     {0.82, 0.78, 0.95}},
    {"digest of 64 KiB / the kit's", DIGEST_64K, V2, DIGEST_64K, RING_SPEED, ONE,
     {0.70, 0.73, 0.89}},
    {"digest of 64 KiB / its blocks", DIGEST_64K, V2, TWO_BLOCKS, RING_SPEED, PAIRS_IN_64K, {0}},
    {"64 KiB by 16 bytes / its blocks", BY_16, V2, TWO_BLOCKS, RING_SPEED, PAIRS_IN_64K,
     {1.53, 1.27, 1.31}},
    {"tag of 64 bytes, key ready / its blocks", READY_TAG_64, V2, TWO_BLOCKS, RING_SPEED,
     PAIRS_IN_TAG, {0}},
    {"PBKDF2, 1,000 iterations / its blocks", PBKDF2_1, V2, TWO_BLOCKS, RING_SPEED,
     {ITERATIONS, ITERATIONS, ITERATIONS}, {1.08, 1.05, 1.04}},
    {"PBKDF2, 4 rounds of output / one by one", PBKDF2_4, V2, PBKDF2_1, V2, FOUR,
     {0.57, 0.64, 0}},
    {"password hash / its derivation", PASSWORD, V2, PBKDF2_1, V2, ONE, {1.12, 1.08, 1.06}},
    {"4 digests of 64 bytes / one by one", FOUR_64, V2, DIGEST_64, V2, FOUR, {0.72, 0.72, 0}},
    {"4 digests of 64 KiB / one by one", FOUR_64K, V2, DIGEST_64K, V2, FOUR, {0.67, 0.70, 0}},
    {"4 contexts updated at once / one by one", FOUR_64K, RING_SPEED, DIGEST_64K, V2, FOUR,
     {0.67, 0.70, 0}},
    {"name without a record / with one", STORE_UNKNOWN, RING_SPEED, STORE_KNOWN, RING_SPEED, ONE,
     {0, 1.10, 0}},
    {"name with a record / without one", STORE_KNOWN, RING_SPEED, STORE_UNKNOWN, RING_SPEED, ONE,
     {0, 1.10, 0}},
    {"line of 64 bytes / its digest", LINE_64, PROGRAM, DIGEST_64, V2, ONE, {0}},
    {"line of 64 KiB / its digest", LINE_64K, PROGRAM, DIGEST_64K, V2, ONE, {2.85, 1.90, 2.15}},
    {"line of 1,000 iterations / its derivation", LINE_PBKDF2, PROGRAM, PBKDF2_1, V2, ONE, {0}},
};

const size_t COUNT[COUNTS] = {1, 2, 3, 4, 8, 16, MAX_COUNT}, LENGTH[LENGTHS] = {16, 64, 1024};

int row_of(size_t count, size_t len) {
    for (int i = 0; i < work_count; i++)
        if (WORK[i].kind == EACH && WORK[i].count == count && WORK[i].len == len) return i;
    return -1;
}

void add_counts(void) {
    for (size_t l = 0; l < LENGTHS; l++)
        for (size_t c = 0; c < COUNTS; c++) {
            uint32_t steps = (uint32_t)((LENGTH[l] < 1024 ? 256 : 64) / COUNT[c]);
            if (row_of(COUNT[c], LENGTH[l]) >= 0) continue;
            WORK[work_count++] = (work){"several digests", EACH, COUNT[c], LENGTH[l], steps, 0};
        }
}
