/* SPDX-License-Identifier: ISC */
/* Times the rows of rows.c by each party that was found, and prints times and ratios.
 *
 *     speed [--check] [--earlier LIBRARY [--earlier V2]] [--ring CRATE] [--rustcrypto CRATE]
 *           [--lines PROGRAM] LIBRARY [V2 V3]
 *
 * LIBRARY is a shared library; V2 and V3 are the same with one build for all processors. The
 * parties take turns at all rows, on one processor, with the stack in changing places of its page,
 * and the least processor time of each counts. Each step works on the result of the step before: a
 * digest or a tag is copied over the front of its message. All parties must first give the same
 * bytes. */
#define _GNU_SOURCE
#include "speed.h"
#include "yezdopin.h"
#include <getopt.h>
#include <sched.h>
#include <stdio.h>
#include <stdlib.h>
#include <string.h>
#include <time.h>
#if defined(__x86_64__)
#include <cpuid.h>
#endif

#define TURNS 128
#define PLACES 16
#define PAGE 4096
#define COMPARED_STEPS 4

/* The calls of crates/ring_speed, NULL where it isn't linked. */
__attribute__((weak)) uint64_t ring_speed_run(uint32_t work, uint32_t hash, uint32_t steps);
__attribute__((weak)) uint64_t ring_speed_verify(uint32_t name, uint32_t steps);

uint8_t messages[MAX_MESSAGES_LEN], key[KEY_LEN], salt[SALT_LEN], info[INFO_LEN];
double least[MAX_WORKS][HASHES][PARTIES];

static const party *const PARTY[RING_SPEED] = {
    [OURS] = &yezdopin, [V2] = &yezdopin, [V3] = &yezdopin, [EARLIER] = &yezdopin,
    [EARLIER_V2] = &yezdopin, [OPENSSL] = &openssl, [SODIUM] = &libsodium, [RING] = &crates,
    [RUSTCRYPTO] = &crates,
};
static uint8_t out[MAX_OUT_LEN];
static bool is_there[PARTIES];
static bool is_ready[PARTIES]; /* for the hash function of this turn */
static const char *capabilities; /* that OpenSSL is limited to, or NULL */
static const char *program;      /* behind ./bench, or NULL */
static bool is_checked, lacks_v3;

void fail(const char *where, const char *what) {
    fprintf(stderr, "speed: %s: %s\n", where, what);
    exit(2);
}

static double now(void) {
    struct timespec time;
    clock_gettime(CLOCK_PROCESS_CPUTIME_ID, &time);
    return (double)time.tv_sec * 1e9 + (double)time.tv_nsec;
}

/* The first eight bytes as a number, the highest byte first. */
static uint64_t front(const uint8_t *bytes) {
    uint64_t number = 0;
    for (int i = 0; i < 8; i++) number = number << 8 | bytes[i];
    return number;
}

/* Selects what the calls of a party's kind are of. */
static void select_party(int p) {
    if (p < LIBRARIES) select_library(p);
    if (p >= RING && p < RING + CRATES) select_crate(p - RING);
}

static uint64_t run_ring_speed(const work *row, int h, uint32_t steps) {
    if (row->kind != STORE) return ring_speed_run(row->number, (uint32_t)h, steps);
    if (ring_speed_verify(row->number, ITERATIONS) != (row->number != UNKNOWN_NAME))
        fail(row->name, "no password was set, or a wrong name was verified");
    return 0;
}

/* Does so many steps, and gives the front of the first message. */
static uint64_t run(const work *row, int h, int p, uint32_t steps) {
    if (p == RING_SPEED) return run_ring_speed(row, h, steps);
    call *step = PARTY[p]->calls[row->kind];
    size_t results = row->kind == UPDATE ? 0 : row->kind == EACH ? row->count : 1;
    size_t len = HASH[h].out_len;
    select_party(p);
    for (uint32_t i = 0; i < steps; i++) {
        if (!step(row, out)) fail(row->name, "a call failed");
        for (size_t k = 0; k < results; k++) memcpy(message_at(row, k), out + k * len, len);
    }
    return front(messages);
}

static bool takes_part(int p, const work *row, int h) {
    if (!is_ready[p]) return false;
    if (p == RING_SPEED) return row->kind == STORE ? h == OF_SHA256 : row->number != 0;
    return row->kind < KINDS && PARTY[p]->calls[row->kind];
}

/* Fails unless all parties give the same after so many steps from messages of zeros. */
static void compare(const work *row, int h, uint32_t steps) {
    static uint8_t expected[MAX_OUT_LEN];
    uint64_t expected_front = 0;
    bool is_first = true;
    for (int p = 0; p < PARTIES; p++) {
        if (!takes_part(p, row, h)) continue;
        memset(messages, 0, sizeof messages), memset(out, 0, sizeof out);
        uint64_t result = run(row, h, p, steps);
        if (is_first) expected_front = result, memcpy(expected, out, sizeof out);
        else if (result != expected_front
                 || (p != RING_SPEED && memcmp(out, expected, sizeof out)))
            fail(row->name, "the results differ");
        is_first = false;
    }
}

/* The time of a step. Where the stack begins is up to chance and changes it by up to 6 per cent, so
 * each turn has it in another place. */
static double timed(const work *row, int h, int p, int turn) {
    uint8_t room[1 + (turn % PLACES) * (PAGE / PLACES)];
    __asm__ volatile("" : : "r"(room) : "memory"); /* keeps the room */
    double start = now();
    run(row, h, p, row->steps);
    return (now() - start) / row->steps;
}

static void take_turn(int w, int h, int turn) {
    for (int p = 0; p < PARTIES; p++) {
        if (!takes_part(p, &WORK[w], h)) continue;
        double time = timed(&WORK[w], h, p, turn);
        if (turn == 0 || time < least[w][h][p]) least[w][h][p] = time;
    }
}

/* Makes the contexts and keys of all parties for a hash function. */
static void begin(int h) {
    for (int p = 0; p < RING_SPEED; p++) {
        if (is_there[p]) select_party(p);
        is_ready[p] = is_there[p] && PARTY[p]->begin(&HASH[h]);
    }
    is_ready[RING_SPEED] = is_there[RING_SPEED];
}

/* Compares all parties, and then takes all turns. */
static void take_turns(void) {
    for (int turn = -1; turn < TURNS; turn++)
        for (int h = 0; h < HASHES; h++) {
            begin(h);
            for (int w = 0; w < work_count; w++) {
                if (turn >= 0) take_turn(w, h, turn);
                else for (uint32_t steps = 1; steps <= COMPARED_STEPS; steps++)
                    compare(&WORK[w], h, steps);
            }
        }
}

/* Takes the time of setting a name off that of setting and verifying it. */
static void subtract_setting(void) {
    double set = least[STORE_SET][OF_SHA256][RING_SPEED];
    least[STORE_KNOWN][OF_SHA256][RING_SPEED] -= set;
    least[STORE_UNKNOWN][OF_SHA256][RING_SPEED] -= set;
}

static void time_lines(void) {
    for (int w = LINE_64; w <= LINE_PBKDF2; w++)
        for (int h = 0; h < HASHES; h++)
            least[w][h][PROGRAM] = time_of_line(program, &WORK[w], &HASH[h]);
}

/* Stays on one processor. */
static void stay(void) {
    cpu_set_t one;
    CPU_ZERO(&one);
    CPU_SET((size_t)sched_getcpu(), &one);
    if (sched_setaffinity(0, sizeof one, &one)) fail("one processor", "can't stay there");
}

/* Which instructions the library runs, and what the processor has. */
static void print_processor(void) {
    unsigned features = library_features(OURS);
    printf("The library runs %sSHA instructions%s. ", features & YZ_FEATURE_SHA ? "" : "no ",
           features & YZ_FEATURE_V3 ? ", and code for x86-64-v3" : "");
#if defined(__x86_64__)
    unsigned name[13] = {0}, leaf[4] = {0};
    for (unsigned i = 0; i < 3; i++) {
        unsigned *four = name + 4 * i;
        __get_cpuid(0x80000002 + i, &four[0], &four[1], &four[2], &four[3]);
    }
    __get_cpuid_count(7, 0, &leaf[0], &leaf[1], &leaf[2], &leaf[3]);
    printf("%s, %s AVX2, %s SHA instructions.\n", (const char *)name,
           __builtin_cpu_supports("avx2") ? "with" : "without",
           leaf[1] & bit_SHA ? "with" : "without");
    if (lacks_v3) puts("left out: the build for x86-64-v3, without AVX2");
#else
    puts("");
#endif
}

/* Prints which libraries take part. Where OpenSSL is limited, it is the only other. */
static void print_parties(void) {
    if (capabilities) {
        printf("%s, OPENSSL_ia32cap=%s.\n", openssl.name(), capabilities);
        return;
    }
    if (openssl.name) printf("%s.\n", openssl.name());
    else puts("left out: OpenSSL 3, without its headers");
    if (libsodium.name) printf("%s.\n", libsodium.name());
    else puts("left out: libsodium, without its header");
}

static void add_library(int library, const char *path) {
#if defined(__x86_64__)
    if (library == V3 && !__builtin_cpu_supports("avx2")) {
        lacks_v3 = true;
        return;
    }
#endif
    load_library(library, path);
    is_there[library] = true;
}

static void add_crate(int p, const char *path) {
    load_crate(p - RING, path);
    is_there[p] = !capabilities;
}

static void read_arguments(int count, char **arguments) {
    static const struct option OPTIONS[] = {
        {"check", no_argument, NULL, 'c'},
        {"earlier", required_argument, NULL, 'e'},
        {"lines", required_argument, NULL, 'l'},
        {"ring", required_argument, NULL, RING},
        {"rustcrypto", required_argument, NULL, RUSTCRYPTO},
        {NULL, 0, NULL, 0},
    };
    for (int option; (option = getopt_long(count, arguments, "", OPTIONS, NULL)) != -1;) {
        if (option == 'c') is_checked = true;
        else if (option == 'e') add_library(is_there[EARLIER] ? EARLIER_V2 : EARLIER, optarg);
        else if (option == 'l') program = optarg;
        else if (option == RING || option == RUSTCRYPTO) add_crate(option, optarg);
        else exit(2);
    }
    int libraries = count - optind;
    if (libraries < 1 || libraries > EARLIER) fail("arguments", "one to three libraries");
    for (int i = 0; i < (capabilities ? 1 : libraries); i++)
        add_library(i, arguments[optind + i]);
}

int main(int count, char **arguments) {
    capabilities = getenv("OPENSSL_ia32cap");
    if (capabilities && !openssl.name) return 0;
    stay();
    read_arguments(count, arguments);
    print_processor();
    print_parties();
    is_there[OPENSSL] = openssl.name;
    is_there[SODIUM] = libsodium.name && !capabilities;
    is_there[RING_SPEED] = ring_speed_run && !capabilities;
    memset(key, 0x6b, KEY_LEN), memset(salt, 0x73, SALT_LEN), memset(info, 0x69, INFO_LEN);
    if (capabilities) work_count = SINGLE_WORKS;
    else add_counts();
    take_turns();
    print_libraries();
    if (capabilities) return 0;
    subtract_setting();
    if (program) time_lines();
    print_counts();
    if (is_there[V3]) print_builds();
    if (is_there[V2]) print_ratios();
    return is_checked && check_limits() > 0;
}
