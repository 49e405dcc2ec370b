/* SPDX-License-Identifier: ISC */
/* What is timed, by whom, and which ratios of these times have limits. */
#ifndef SPEED_H
#define SPEED_H

#include <stdbool.h>
#include <stddef.h>
#include <stdint.h>

#define KEY_LEN 32
#define SALT_LEN 16
#define INFO_LEN 10
#define ITERATIONS 1000
#define MAX_COUNT 64             /* messages in one call */
#define MAX_DIGEST_LEN 64        /* bytes */
#define MAX_OUT_LEN (MAX_COUNT * MAX_DIGEST_LEN)
#define MAX_MESSAGES_LEN (8 * 65536)
#define MAX_WORKS 64

enum { OF_SHA1, OF_SHA256, OF_SHA512, HASHES };
typedef struct {
    const char *name; /* as OpenSSL has it */
    uint32_t number;  /* as yezdopin.h has it */
    uint32_t scheme;  /* of a password hash over it */
    size_t out_len;
} hash;
extern const hash HASH[HASHES];

/* The parties: the library, which chooses its build at run time; each build alone; an earlier
 * library, and its build for x86-64-v2 alone; OpenSSL and libsodium; the Rust crates `ring` and
 * RustCrypto's; crates/ring_speed; and the program behind ./bench. */
enum {
    OURS, V2, V3, EARLIER, EARLIER_V2, LIBRARIES,
    OPENSSL = LIBRARIES, SODIUM, RING, RUSTCRYPTO, RING_SPEED, PROGRAM, PARTIES,
    CRATES = RUSTCRYPTO - RING + 1,
};

/* What one step does. A library has calls for the kinds before KINDS, which speed/peers/peer.rs
 * has by their numbers. */
typedef enum {
    DIGEST,         /* in one call */
    PIECES,         /* by a context that is begun and ended */
    UPDATE,         /* of a running context; it has no result */
    TAG,            /* with making the key */
    TAG_UNDER_KEY,  /* under a key that was made before */
    HKDF,
    PBKDF2,         /* of ITERATIONS */
    PASSWORD_HASH,  /* the same, written as a text */
    EACH,           /* digests of several messages */
    KINDS,
    BLOCKS = KINDS, /* two runs of a block function */
    STORE,          /* sets a password in a store, and verifies a name */
    DIGEST_LINE,    /* a line of ./bench */
    PBKDF2_LINE,
} kind;

/* The numbers of work in crates/ring_speed, and of names in its store. */
enum { TWO_BLOCK_RUNS = 1, KIT_SHORT_DIGESTS, KIT_LONG_DIGESTS, FOUR_CONTEXTS };
enum { UNKNOWN_NAME, KNOWN_NAME, NO_NAME };

typedef struct {
    const char *name;
    kind kind;
    size_t count;    /* of messages, pieces, rounds of output, or lines */
    size_t len;      /* bytes of a message, a piece, or an output of HKDF */
    uint32_t steps;  /* in a turn */
    uint32_t number; /* in crates/ring_speed, where it takes part */
} work;

/* The rows of WORK. Those before SINGLE_WORKS are calls on one message, and those before
 * CALLED_WORKS have a row in the tables of libraries and builds. */
enum {
    DIGEST_16, DIGEST_64, DIGEST_1K, DIGEST_64K, CONTEXT_64, BY_16, BY_1K, UPDATE_16, TAG_64,
    READY_TAG_64, HKDF_42, PBKDF2_1, PBKDF2_4, PBKDF2_8, PASSWORD, SINGLE_WORKS,
    FOUR_64 = SINGLE_WORKS, EIGHT_64, MANY_64, EIGHT_1K, FOUR_64K, EIGHT_64K, CALLED_WORKS,
    TWO_BLOCKS = CALLED_WORKS, STORE_SET, STORE_KNOWN, STORE_UNKNOWN,
    LINE_64, LINE_64K, LINE_PBKDF2, FIXED_WORKS,
};
extern work WORK[MAX_WORKS];
extern int work_count;

/* The columns and the lengths of the table of several messages in one call. */
#define COUNTS 7
#define LENGTHS 3
extern const size_t COUNT[COUNTS], LENGTH[LENGTHS];

/* Adds the rest of that table to WORK. */
void add_counts(void);

/* The row that digests so many messages of this length in one call, or -1. */
int row_of(size_t count, size_t len);

/* The time of one row by one party, over that of a base. */
typedef struct {
    const char *name;
    int row, party, base_row, base_party;
    double factor[HASHES]; /* how many steps of the base it is compared with */
    double limit[HASHES];  /* 0 for none */
} ratio;
#define RATIOS 16
extern const ratio RATIO[RATIOS];

/* The inputs of all parties. */
extern uint8_t messages[MAX_MESSAGES_LEN], key[KEY_LEN], salt[SALT_LEN], info[INFO_LEN];

/* The i-th message, in a place that can also hold a digest. */
static inline uint8_t *message_at(const work *row, size_t i) {
    return messages + i * (row->len < MAX_DIGEST_LEN ? MAX_DIGEST_LEN : row->len);
}

/* Does one step and writes its result; false where a call failed. */
typedef bool call(const work *row, uint8_t *out);

/* A library. All members are NULL where its header wasn't found. */
typedef struct {
    const char *(*name)(void);   /* with its version */
    bool (*begin)(const hash *); /* makes contexts and keys; false where it lacks the hash */
    call *calls[KINDS];          /* NULL where it lacks the call */
} party;
extern const party yezdopin, openssl, libsodium, crates;

/* Loads a library of this project from a file, and selects it for the calls of `yezdopin`. */
void load_library(int library, const char *path);
/* What its yz_features tells; 0 of an earlier one that has none. */
unsigned library_features(int library);
void select_library(int library);

/* Loads a Rust crate from a file, and selects it for the calls of `crates`. */
void load_crate(int number, const char *path);
void select_crate(int number);

/* The processor time of the program for one line, in nanoseconds. */
double time_of_line(const char *program, const work *row, const hash *algorithm);

/* The least times of a step, in nanoseconds; 0 where a party doesn't do the work. */
extern double least[MAX_WORKS][HASHES][PARTIES];

/* Print the tables: libraries beside each other, several messages in one call, one build beside
 * the other, and the ratios. */
void print_libraries(void);
void print_counts(void);
void print_builds(void);
void print_ratios(void);

/* Prints the ratios that are above their limits, and gives how many. */
int check_limits(void);

/* Prints what went wrong, and exits with 2. */
_Noreturn void fail(const char *where, const char *what);

#endif
