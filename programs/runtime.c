// SPDX-License-Identifier: ISC
// What the programs' text calls beyond the C library: the functions that Rattle's crates `libc` and
// `os` declare in `extern "C"` blocks, with the contracts that proofs rest on. The kit links C of
// its own for them; no proof covers that or this.

#define _GNU_SOURCE
#include <errno.h>
#include <fcntl.h>
#include <stdint.h>
#include <stdlib.h>

#if !defined(__x86_64__) || !defined(__LP64__) || !defined(__GLIBC__)
#error "the programs' text is for Linux on x86-64 with glibc alone"
#endif

struct tried {
    uint64_t ok; // Rattle's bool: 0 or 1
    void *place;
};

// Where a pointer points that owns nothing, since none is null.
static char nothing[16];

static struct tried tried(void *place) {
    return (struct tried){place != NULL, place != NULL ? place : nothing};
}

// A block of no bytes has a place of its own too. malloc aligns by 16, as much as any caller asks.
struct tried rattle_alloc(size_t size, size_t align) {
    return tried(malloc(size != 0 ? size : align));
}

struct tried rattle_realloc(void *block, size_t kept, size_t size, size_t align) {
    (void)kept;
    return tried(realloc(block, size != 0 ? size : align));
}

void rattle_dealloc(void *block) {
    free(block);
}

int32_t rattle_errno(void) {
    return errno;
}

void rattle_set_errno(int32_t error) {
    errno = error;
}

int32_t rattle_open_dir_at(int32_t folder, const char *name) {
    return openat(folder, name, O_RDONLY | O_DIRECTORY | O_NOFOLLOW | O_CLOEXEC);
}

// The arguments, which glibc passes to constructors too.
static int argument_count;
static char **arguments;

__attribute__((constructor)) static void keep_arguments(int count, char **words) {
    argument_count = count;
    arguments = words;
}

// Puts an argument at the start of the buffer. The answer is its length, -1 where there is no such
// argument, or -2 where it does not fit, and then the buffer is full.
int64_t rattle_arg(size_t number, unsigned char *buffer, size_t room) {
    if (number >= (size_t)argument_count || arguments[number] == NULL) {
        return -1;
    }
    const char *word = arguments[number];
    size_t length = 0;
    for (; word[length] != 0; length++) {
        if (length == room) {
            return -2;
        }
        buffer[length] = (unsigned char)word[length];
    }
    return (int64_t)length;
}

#if !__GLIBC_PREREQ(2, 33)
#include <cpuid.h>

// glibc's call of this name, which is as old as 2.33, for the leaves that `main` asks for: which
// features the processor has, and which of them can be used.
struct leaf {
    uint32_t has[4], active[4];
};

enum { EAX, EBX, ECX, EDX };

// The bits of leaves 1 and 7 for what needs the wide registers: FMA, AVX and F16C; AVX2.
static const uint32_t WIDE_1 = 0x30001000, WIDE_7 = 0x20;

// Whether the system keeps the wide registers.
static int keeps_wide(void) {
    uint32_t a, b, c, d, kept = 0, high;
    if (__get_cpuid(1, &a, &b, &c, &d) && (c & bit_OSXSAVE) != 0) {
        __asm__("xgetbv" : "=a"(kept), "=d"(high) : "c"(0));
    }
    return (kept & 6) == 6;
}

const struct leaf *__x86_get_cpuid_feature_leaf(unsigned number) {
    static const unsigned numbers[] = {1, 7, 0x80000001};
    static struct leaf leaves[4]; // the last one is that of all other numbers
    if (number >= 3) {
        return &leaves[3];
    }
    struct leaf *it = &leaves[number];
    uint32_t *has = it->has;
    if (__get_cpuid_count(numbers[number], 0, &has[EAX], &has[EBX], &has[ECX], &has[EDX])) {
        for (int i = EAX; i <= EDX; i++) {
            it->active[i] = has[i];
        }
        if (!keeps_wide()) {
            it->active[ECX] &= number == 0 ? ~WIDE_1 : ~0U;
            it->active[EBX] &= number == 1 ? ~WIDE_7 : ~0U;
        }
    }
    return it;
}
#endif
