/* SPDX-License-Identifier: ISC */
/* That each instruction of the processor gives what its proved definition gives, on random words,
 * single bits and all ones, and the block functions the same words with the instructions as
 * without them: compare COUNT, of inputs to each instruction.
 *
 * The calls are those of probe.rattle in two builds: `probe_` as it is proved, and `taken_` with
 * the instructions in the place of their definitions, which generated/make/instructions.py puts there.
 * So no intrinsic of C is asked, and the order of its arguments is tried too. */
#include <inttypes.h>
#include <stdbool.h>
#include <stdio.h>
#include <stdlib.h>
#include <string.h>

#define MOST_BLOCKS 37
#define BLOCK_LEN 64
#define STATE_WORDS 8
#define ROUNDS 200

typedef uint32_t vector[4];
typedef void instruction(vector out, const vector a, const vector b, const vector c);
typedef void blocks(uint32_t *words, const uint8_t *data, size_t data_len);
typedef void one_block(uint32_t *words, const uint32_t *front, const uint32_t *rest);

#define BOTH(type, name) type probe_##name, taken_##name
#define ROW(name) {#name, probe_##name, taken_##name}
#if defined(__x86_64__)
BOTH(instruction, sha1msg1); BOTH(instruction, sha1msg2); BOTH(instruction, sha1nexte);
BOTH(instruction, sha1rnds4_0); BOTH(instruction, sha1rnds4_1); BOTH(instruction, sha1rnds4_2);
BOTH(instruction, sha1rnds4_3); BOTH(instruction, sha256msg1); BOTH(instruction, sha256msg2);
BOTH(instruction, sha256rnds2);
#define ROWS ROW(sha1msg1), ROW(sha1msg2), ROW(sha1nexte), ROW(sha1rnds4_0), ROW(sha1rnds4_1),     \
             ROW(sha1rnds4_2), ROW(sha1rnds4_3), ROW(sha256msg1), ROW(sha256msg2), ROW(sha256rnds2)
#else
BOTH(instruction, sha1c); BOTH(instruction, sha1h); BOTH(instruction, sha1m);
BOTH(instruction, sha1p); BOTH(instruction, sha1su0); BOTH(instruction, sha1su1);
BOTH(instruction, sha256h); BOTH(instruction, sha256h2); BOTH(instruction, sha256su0);
BOTH(instruction, sha256su1);
#define ROWS ROW(sha1c), ROW(sha1h), ROW(sha1m), ROW(sha1p), ROW(sha1su0), ROW(sha1su1),           \
             ROW(sha256h), ROW(sha256h2), ROW(sha256su0), ROW(sha256su1)
#endif
static const struct {
    const char *name;
    instruction *proved, *taken;
} INSTRUCTIONS[] = {ROWS};
enum { NUM = sizeof INSTRUCTIONS / sizeof *INSTRUCTIONS };

BOTH(blocks, sha1_blocks); BOTH(blocks, sha256_blocks);
BOTH(one_block, sha1_words); BOTH(one_block, sha256_words);
/* The byte of the build with instructions, under which it runs them. */
uint8_t yz_instructions;

static unsigned long compared, faults;

static void are_same(const char *name, const uint32_t *got, const uint32_t *want, size_t words) {
    compared++;
    if (memcmp(got, want, words * sizeof *got) == 0) return;
    if (faults++ == 0) fprintf(stderr, "FAILED: %s differs from its definition\n", name);
}

/* The next number of a sequence that is the same in each run (xorshift, with a sum). */
static uint32_t drawn(void) {
    static uint64_t first = 88172645463325252, second = 0x9E3779B97F4A7C15;
    uint64_t x = first, y = second;
    first = y;
    x ^= x << 23;
    second = x ^ y ^ (x >> 17) ^ (y >> 26);
    return (uint32_t)((second + y) >> 16);
}

/* A word of a kind: all ones or zero, one bit, all bits but one, else random. */
static uint32_t word(unsigned long kind) {
    switch (kind % 8) {
    case 0: return drawn() & 1 ? UINT32_MAX : 0;
    case 1: return (uint32_t)1 << (drawn() & 31);
    case 2: return ~((uint32_t)1 << (drawn() & 31));
    default: return drawn();
    }
}

static void draw(uint32_t *words, size_t count, unsigned long kind) {
    for (size_t i = 0; i < count; i++) words[i] = word(kind);
}

static void try_instructions(unsigned long count) {
    for (unsigned long turn = 0; turn < count; turn++) {
        vector a, b, c, got, want;
        draw(a, 4, turn), draw(b, 4, turn / 8), draw(c, 4, turn / 64);
        for (int i = 0; i < NUM; i++) {
            INSTRUCTIONS[i].proved(want, a, b, c);
            INSTRUCTIONS[i].taken(got, a, b, c);
            are_same(INSTRUCTIONS[i].name, got, want, 4);
        }
    }
}

static void try_blocks(blocks *proved, blocks *taken, const char *name) {
    static uint8_t data[MOST_BLOCKS * BLOCK_LEN];
    for (size_t count = 0; count <= MOST_BLOCKS; count++) {
        uint32_t want[STATE_WORDS], got[STATE_WORDS];
        for (size_t i = 0; i < sizeof data; i++) data[i] = (uint8_t)drawn();
        draw(want, STATE_WORDS, 7);
        memcpy(got, want, sizeof got);
        proved(want, data, count * BLOCK_LEN);
        taken(got, data, count * BLOCK_LEN);
        are_same(name, got, want, STATE_WORDS);
    }
}

static void try_words(one_block *proved, one_block *taken, const char *name, unsigned long kind) {
    uint32_t want[STATE_WORDS], got[STATE_WORDS], front[STATE_WORDS], rest[STATE_WORDS];
    draw(want, STATE_WORDS, kind);
    draw(front, STATE_WORDS, kind / 8), draw(rest, STATE_WORDS, kind / 64);
    memcpy(got, want, sizeof got);
    proved(want, front, rest);
    taken(got, front, rest);
    are_same(name, got, want, STATE_WORDS);
}

/* The digests of "abc", which are FIPS 180-4's examples, from the builds' own block functions. */
static void try_abc(blocks *sha1, blocks *sha256) {
    uint8_t block[BLOCK_LEN] = {'a', 'b', 'c', 0x80, [BLOCK_LEN - 1] = 24};
    uint32_t of_1[STATE_WORDS] = {0x67452301, 0xefcdab89, 0x98badcfe, 0x10325476, 0xc3d2e1f0};
    uint32_t of_256[STATE_WORDS] = {0x6a09e667, 0xbb67ae85, 0x3c6ef372, 0xa54ff53a,
                                    0x510e527f, 0x9b05688c, 0x1f83d9ab, 0x5be0cd19};
    static const uint32_t want_1[] = {0xa9993e36, 0x4706816a, 0xba3e2571, 0x7850c26c, 0x9cd0d89d};
    static const uint32_t want_256[] = {0xba7816bf, 0x8f01cfea, 0x414140de, 0x5dae2223,
                                        0xb00361a3, 0x96177a9c, 0xb410ff61, 0xf20015ad};
    sha1(of_1, block, sizeof block);
    sha256(of_256, block, sizeof block);
    are_same("SHA-1 of abc", of_1, want_1, sizeof want_1 / sizeof *want_1);
    are_same("SHA-256 of abc", of_256, want_256, STATE_WORDS);
}

int main(int count, char **words) {
    unsigned long inputs = count > 1 ? strtoul(words[1], NULL, 10) : 0;
    if (inputs == 0) {
        fprintf(stderr, "usage: compare COUNT\n");
        return 2;
    }
    try_instructions(inputs);
    for (yz_instructions = 0; yz_instructions < 2; yz_instructions++) {
        for (unsigned long turn = 0; turn < ROUNDS; turn++) {
            try_blocks(probe_sha1_blocks, taken_sha1_blocks, "SHA-1 of blocks");
            try_blocks(probe_sha256_blocks, taken_sha256_blocks, "SHA-256 of blocks");
        }
        for (unsigned long turn = 0; turn < ROUNDS * MOST_BLOCKS; turn++) {
            try_words(probe_sha1_words, taken_sha1_words, "SHA-1 of words", turn);
            try_words(probe_sha256_words, taken_sha256_words, "SHA-256 of words", turn);
        }
        try_abc(taken_sha1_blocks, taken_sha256_blocks);
    }
    printf("%d instructions, %lu inputs to each; %lu comparisons, %lu differ\n", NUM, inputs,
           compared, faults);
    return faults != 0;
}
