/* SPDX-License-Identifier: ISC */
/* Runs calls on Windows one instruction at a time. Each step is an exception: the system writes
 * below the stack pointer, and the stack is unwound to the caller by the library's tables. The
 * caller's place and stack and all registers that a call keeps must come out of each step, and the
 * call must answer and write what it does without steps. */
#include "../rows.h"
#include "yezdopin.h"
#include <stdio.h>
#include <string.h>
#include <windows.h>

#define TRAP 0x100u
#define MOST_FRAMES 64
#define MOST_SHOWN 5
#define ROOM 1024

/* The call that is run in steps: where it begins, and how its caller is to get back. */
static volatile enum { BEFORE, INSIDE, AFTER } place;
static volatile DWORD64 entry;
static CONTEXT caller;
static long steps, not_unwound, most_frames;
static long calls, differing;
static uint32_t n;

static bool is_caller(const CONTEXT *at) { return at->Rip == caller.Rip && at->Rsp == caller.Rsp; }

/* Whether the registers that a call keeps are the caller's. */
static bool has_kept(const CONTEXT *at) {
    return at->Rbx == caller.Rbx && at->Rbp == caller.Rbp && at->Rsi == caller.Rsi &&
           at->Rdi == caller.Rdi && at->R12 == caller.R12 && at->R13 == caller.R13 &&
           at->R14 == caller.R14 && at->R15 == caller.R15 &&
           !memcmp(at->FltSave.XmmRegisters + 6, caller.FltSave.XmmRegisters + 6,
                   10 * sizeof(M128A));
}

/* Goes one frame up, by the tables of the function. One without tables keeps nothing on the
 * stack. */
static void go_up(CONTEXT *at) {
    DWORD64 base, frame;
    void *data;
    RUNTIME_FUNCTION *of = RtlLookupFunctionEntry(at->Rip, &base, NULL);
    if (of) {
        RtlVirtualUnwind(UNW_FLAG_NHANDLER, base, at->Rip, of, at, &data, &frame, NULL);
    } else {
        at->Rip = *(DWORD64 *)at->Rsp;
        at->Rsp += sizeof(DWORD64);
    }
}

/* Whether a stack is unwound to the caller. */
static bool is_unwound(CONTEXT at) {
    long frames = 0;
    for (; frames < MOST_FRAMES && at.Rsp <= caller.Rsp && !is_caller(&at); frames++) go_up(&at);
    if (frames > most_frames) most_frames = frames;
    return is_caller(&at) && has_kept(&at);
}

static LONG CALLBACK step(EXCEPTION_POINTERS *it) {
    CONTEXT *at = it->ContextRecord;
    if (it->ExceptionRecord->ExceptionCode != EXCEPTION_SINGLE_STEP)
        return EXCEPTION_CONTINUE_SEARCH;
    if (place == BEFORE && at->Rip == entry) {
        caller = *at;
        caller.Rip = *(DWORD64 *)at->Rsp;
        caller.Rsp = at->Rsp + sizeof(DWORD64);
        place = INSIDE;
    }
    if (place == INSIDE && is_caller(at)) place = AFTER;
    if (place == INSIDE) {
        steps++;
        if (!is_unwound(*at) && not_unwound++ < MOST_SHOWN)
            printf("not unwound from %llx\n", (unsigned long long)at->Rip);
    }
    at->EFlags = place == AFTER ? at->EFlags & ~TRAP : at->EFlags | TRAP;
    return EXCEPTION_CONTINUE_EXECUTION;
}

/* Fills the vector registers that a call keeps, and begins the steps. */
#define FILL(i) "movq %0, %%xmm" #i "\npshufd $" #i ", %%xmm" #i ", %%xmm" #i "\n"
static inline void start(void) {
    const uint64_t value = 0x123456789abcdef0 + (uint64_t)calls;
    __asm__ volatile(FILL(6) FILL(7) FILL(8) FILL(9) FILL(10) FILL(11) FILL(12) FILL(13) FILL(14)
                     FILL(15) "pushfq\norl %1, (%%rsp)\npopfq\nnop"
                     :: "r"(value), "i"(TRAP)
                     : "memory", "cc", "xmm6", "xmm7", "xmm8", "xmm9", "xmm10", "xmm11", "xmm12",
                       "xmm13", "xmm14", "xmm15");
}

typedef yz_status run(uint8_t *out, size_t len);

/* A call without steps and with them. */
static void compare(const char *name, DWORD64 of, run *call) {
    static uint8_t plain[ROOM] __attribute__((aligned(16)));
    static uint8_t stepped[ROOM] __attribute__((aligned(16)));
    const size_t len = yz_output_len(n);
    memset(plain, 0, ROOM), memset(stepped, 0, ROOM);
    yz_status first = call(plain, len);
    entry = of, place = BEFORE;
    start();
    yz_status second = call(stepped, len);
    calls++;
    if (first || second || memcmp(plain, stepped, ROOM) || place != AFTER) {
        differing++;
        printf("%s of %u: %d, in steps %d\n", name, (unsigned)n, (int)first, (int)second);
    }
}

static uint8_t bytes[600];
static const yz_message messages[] = {{bytes, 70}, {bytes, 3}, {bytes, 200}, {bytes, 0}};
static const char hash[] = "$7$101$AAECAwQFBgcICQoL$cJ75j/0MokIxIQCU/t1k7JBGVfwD3W1st+OyLYF0EzgR"
                           "LNjRyexylNuHrNThmUCWBWt20yys3R1zS31q5smg/w==";
static const char password[] = "correct horse battery staple";

/* Contexts and keys, made in the room for what is written. */
static yz_digest_context *digest_in(uint8_t *out) {
    yz_digest_context *made = (void *)out;
    if (yz_digest_init(n, made) || yz_digest_update(made, bytes, 50)) puts("no context");
    return made;
}
static yz_hmac_key *key_in(uint8_t *out) {
    yz_hmac_key *made = (void *)out;
    if (yz_hmac_key_init(n, bytes, 20, made)) puts("no key");
    return made;
}
static yz_hmac_context *tag_in(uint8_t *out) {
    yz_hmac_context *made = (void *)out;
    yz_hmac_key key;
    if (yz_hmac_init(key_in((void *)&key), made) || yz_hmac_update(made, bytes, 50))
        puts("no context");
    return made;
}

/* X(NAME, THE LIBRARY'S FUNCTION, THE CALL) for each call, which is the last thing that is run. */
#define CALLS_OF_DIGESTS(X)                                                                        \
    X(digest, yz_digest, yz_digest(n, bytes, 3, out, len))                                         \
    X(digest_of_blocks, yz_digest, yz_digest(n, bytes, 300, out, len))                             \
    X(digest_each, yz_digest_each, yz_digest_each(n, messages, 4, out, 4 * len))                   \
    X(digest_init, yz_digest_init, yz_digest_init(n, (void *)out))                                 \
    X(digest_update, yz_digest_update, yz_digest_update(digest_in(out), bytes, 150))               \
    X(digest_final, yz_digest_final, yz_digest_final(digest_in(out + ROOM / 2), out, len))
#define CALLS_OF_TAGS(X)                                                                           \
    X(hmac_sign, yz_hmac_sign, yz_hmac_sign(n, bytes, 20, bytes, 50, out, len))                    \
    X(hmac_key_init, yz_hmac_key_init, yz_hmac_key_init(n, bytes, 200, (void *)out))               \
    X(hmac_key_sign, yz_hmac_key_sign,                                                             \
      yz_hmac_key_sign(key_in(out + ROOM / 2), bytes, 200, out, len))                              \
    X(hmac_update, yz_hmac_update, yz_hmac_update(tag_in(out), bytes, 150))                        \
    X(hmac_final, yz_hmac_final, yz_hmac_final(tag_in(out + ROOM / 2), out, len))                  \
    X(hkdf, yz_hkdf, yz_hkdf(n, bytes, 9, bytes, 8, bytes, 7, out, 100))                           \
    X(hkdf_expand_label, yz_hkdf_expand_label,                                                     \
      yz_hkdf_expand_label(n, bytes, 30, bytes, 9, bytes, 8, out, 100))                            \
    X(pbkdf2_round, yz_pbkdf2_derive, yz_pbkdf2_derive(n, 2, bytes, 20, bytes, 50, out, len))      \
    X(pbkdf2_rounds, yz_pbkdf2_derive, yz_pbkdf2_derive(n, 2, bytes, 20, bytes, 50, out, 4 * len))
#define CALLS_OF_HASHES(X)                                                                         \
    X(password_hash_new, yz_password_hash_new,                                                     \
      yz_password_hash_new(YZ_PHC_SHA512, 2, bytes + 10, 16, bytes, 9, (char *)out, ROOM / 2,      \
                           (size_t *)(void *)(out + ROOM / 2)))                                    \
    X(password_hash_verify, yz_password_hash_verify,                                               \
      yz_password_hash_verify(hash, sizeof hash - 1, (const uint8_t *)password,                    \
                              sizeof password - 1, 101))                                           \
    X(password_hash_info, yz_password_hash_info,                                                   \
      yz_password_hash_info(hash, sizeof hash - 1, (uint32_t *)(void *)out,                        \
                            (uint32_t *)(void *)(out + 4)))

#define X(name, of, call)                                                                          \
    static yz_status name(uint8_t *out, size_t len) {                                              \
        (void)out, (void)len;                                                                      \
        return call;                                                                               \
    }
CALLS_OF_DIGESTS(X)
CALLS_OF_TAGS(X)
CALLS_OF_HASHES(X)
#undef X
#define X(name, of, call) compare(#name, (DWORD64)(uintptr_t)of, name);

int main(void) {
    AddVectoredExceptionHandler(1, step);
    for (size_t i = 0; i < sizeof bytes; i++) bytes[i] = (uint8_t)(7 * i);
    for (n = 1; n <= ALGORITHMS_COUNT; n++) {
        CALLS_OF_DIGESTS(X)
        if (!IS_KEYED(n)) continue;
        CALLS_OF_TAGS(X)
    }
    CALLS_OF_HASHES(X)
    printf("%ld calls in %ld steps: %ld differ, %ld steps not unwound, %ld frames at most\n", calls,
           steps, differing, not_unwound, most_frames);
    return differing || not_unwound;
}
