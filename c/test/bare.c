/* SPDX-License-Identifier: ISC
 * A whole program without a system's C library, by the archive of `make bare` alone: it compares
 * SHA-256 of "abc" (FIPS 180-4's example), and what the library says that it runs, and ends with 0
 * where both are right. What the library needs stands here: memcpy, memmove and memset. */
#include <yezdopin.h>

/* 1 where the archive has the SHA instructions. */
#ifndef INSTRUCTIONS
#define INSTRUCTIONS 0
#endif

void *memcpy(void *to, const void *from, size_t count);
void *memmove(void *to, const void *from, size_t count);
void *memset(void *to, int byte, size_t count);

void *memmove(void *to, const void *from, size_t count) {
    volatile uint8_t *out = to;
    const volatile uint8_t *in = from;
    if ((uintptr_t)to < (uintptr_t)from)
        for (size_t at = 0; at < count; at++) out[at] = in[at];
    else
        while (count-- > 0) out[count] = in[count];
    return to;
}

void *memcpy(void *to, const void *from, size_t count) { return memmove(to, from, count); }

void *memset(void *to, int byte, size_t count) {
    volatile uint8_t *out = to;
    for (size_t at = 0; at < count; at++) out[at] = (uint8_t)byte;
    return to;
}

/* Ends the program: of a board this would be a loop. */
static _Noreturn void end(long status) {
#if defined(__x86_64__)
    __asm__ volatile("syscall" : : "a"(60L), "D"(status));
#else
    register long number __asm__("x8") = 93;
    register long argument __asm__("x0") = status;
    __asm__ volatile("svc 0" : : "r"(number), "r"(argument));
#endif
    for (;;) {}
}

_Noreturn void begin(void);
_Noreturn void begin(void) {
    static const uint8_t message[] = {'a', 'b', 'c'};
    static const uint8_t wanted[YZ_SHA256_OUTPUT_LEN] = {
        0xba, 0x78, 0x16, 0xbf, 0x8f, 0x01, 0xcf, 0xea,
        0x41, 0x41, 0x40, 0xde, 0x5d, 0xae, 0x22, 0x23,
        0xb0, 0x03, 0x61, 0xa3, 0x96, 0x17, 0x7a, 0x9c,
        0xb4, 0x10, 0xff, 0x61, 0xf2, 0x00, 0x15, 0xad,
    };
    uint8_t digest[YZ_SHA256_OUTPUT_LEN];
    if (yz_digest(YZ_SHA256, message, sizeof message, digest, sizeof digest) != YZ_OK) end(1);
    if (!yz_equal(digest, sizeof digest, wanted, sizeof wanted)) end(2);
    end(yz_features() == (INSTRUCTIONS ? YZ_FEATURE_SHA : 0) ? 0 : 3);
}

/* The stack is aligned as at a program's entry, and a call wants it as behind a call. */
__asm__(".globl _start\n_start:\n"
#if defined(__x86_64__)
        "xor %ebp, %ebp\ncall begin\n"
#else
        "mov x29, #0\nbl begin\n"
#endif
);
