/* SPDX-License-Identifier: ISC
 * Copyright 2026 the Yezdopin authors.
 *
 * What the library runs on this processor. It is C beside the proved crate, and no proof covers it.
 * After a wrong answer most instructions end the program by SIGILL. But a processor without LZCNT
 * or BMI runs `lzcnt` and `tzcnt` as `bsr` and `bsf`, which give other numbers: a call may then
 * read or write outside its buffers. So each set is asked for by its own bit (test/dispatch.c). */
#include "processor.h"
#ifndef FORCED /* what is forced asks neither a processor nor a system */
#if defined(__x86_64__)
#ifndef bit_AVX2 /* test/dispatch.c has included it, which gcc before 11 can't do twice */
#include <cpuid.h>
#endif
#elif !defined(__APPLE__)
#include <sys/auxv.h>
#endif
#ifndef _WIN32
#include <stdlib.h>
#endif
#endif

/* In an archive for tests, and in that of `make bare`, one build answers on every processor: FORCED
 * is 2 or 3, and INSTRUCTIONS is 1 where its kernels over the SHA instructions answer. */
#ifndef INSTRUCTIONS
#define INSTRUCTIONS 0
#endif

/* The byte that the proved code reads where it asks whether there are SHA instructions
 * (generated/instructions.py). */
HIDDEN _Atomic uint8_t yz_instructions = INSTRUCTIONS;

#ifdef FORCED
HIDDEN _Atomic uint8_t yz_known =
    ASKED | (FORCED == 3 ? YZ_FEATURE_V3 : 0) | (INSTRUCTIONS ? YZ_FEATURE_SHA : 0);
HIDDEN uint8_t yz_ask(void) { return yz_known; }
#else

HIDDEN _Atomic uint8_t yz_known;

#if defined(__x86_64__)
#ifndef saved_registers /* test/dispatch.c has its own */
/* The registers that the system saves, as XCR0 has them. Only a processor with OSXSAVE can tell. */
static unsigned saved_registers(void) {
    unsigned low, high;
    __asm__ volatile("xgetbv" : "=a"(low), "=d"(high) : "c"(0));
    return low;
}
#endif

/* Whether the system saves the registers of 256 bits. */
static bool saves_vectors(void) {
    const unsigned wanted = 1 << 1 | 1 << 2; /* the lower halves and the upper ones */
    return (saved_registers() & wanted) == wanted;
}

/* Whether the processor and the system have x86-64-v3, as the System V ABI lists it. */
static bool has_v3(void) {
    const unsigned of_1 = bit_OSXSAVE | bit_AVX | bit_F16C | bit_FMA | bit_MOVBE;
    const unsigned of_7 = bit_AVX2 | bit_BMI | bit_BMI2;
    unsigned a, b, c, d;
    if (!__get_cpuid(1, &a, &b, &c, &d) || (c & of_1) != of_1 || !saves_vectors()) return false;
    if (!__get_cpuid_count(7, 0, &a, &b, &c, &d) || (b & of_7) != of_7) return false;
    return __get_cpuid(0x80000001, &a, &b, &c, &d) && (c & bit_LZCNT) != 0;
}

/* Whether the processor has the SHA instructions, and what the code around them takes. */
static bool has_sha(void) {
    const unsigned of_1 = bit_SSSE3 | bit_SSE4_1;
    unsigned a, b, c, d;
    if (!__get_cpuid(1, &a, &b, &c, &d) || (c & of_1) != of_1) return false;
    return __get_cpuid_count(7, 0, &a, &b, &c, &d) && (b & bit_SHA) != 0;
}
#elif defined(__APPLE__)
static bool has_v3(void) { return false; }
/* All of Apple's processors have them. */
static bool has_sha(void) { return true; }
#else
static bool has_v3(void) { return false; }
/* Whether the system says so of the processor: HWCAP_SHA1 and HWCAP_SHA2 of <asm/hwcap.h>. */
static bool has_sha(void) {
    const unsigned long wanted = 1ul << 5 | 1ul << 6;
    return (getauxval(AT_HWCAP) & wanted) == wanted;
}
#endif

/* Whether the environment has YEZDOPIN_INSTRUCTIONS=0, by which a user compares. */
static bool is_refused(void) {
#ifndef _WIN32
    const char *wanted = getenv("YEZDOPIN_INSTRUCTIONS");
    return wanted != NULL && wanted[0] == '0' && wanted[1] == '\0';
#else
    return false;
#endif
}

HIDDEN uint8_t yz_ask(void) {
    const bool takes_sha = has_sha() && !is_refused();
    const int features = ASKED | (has_v3() ? YZ_FEATURE_V3 : 0) | (takes_sha ? YZ_FEATURE_SHA : 0);
    atomic_store_explicit(&yz_instructions, takes_sha, memory_order_relaxed);
    atomic_store_explicit(&yz_known, (uint8_t)features, memory_order_relaxed);
    return (uint8_t)features;
}

#ifndef _WIN32
/* When the library is loaded, since another thread may change the environment later. A call that
 * comes before this asks by itself, or, in the build for 64-bit ARM, runs without instructions. */
__attribute__((constructor)) static void ask_when_loaded(void) { yz_ask(); }
#endif
#endif

uint32_t yz_features(void) { return known_features() & ~(uint32_t)ASKED; }
