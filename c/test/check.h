/* SPDX-License-Identifier: ISC */
/* What the tests in C compare with: a difference is printed, and the program fails at its end. */
#ifndef YEZDOPIN_TEST_CHECK_H
#define YEZDOPIN_TEST_CHECK_H

#include "yezdopin.h"
#include <stdio.h>
#include <stdlib.h>

static int failures;

#define IS(got, want)                                                                     \
    do {                                                                                  \
        long is_ = (long)(got), wanted_ = (long)(want);                                   \
        if (is_ != wanted_) {                                                             \
            printf("%s:%d: %s is %ld and not %ld\n", __FILE__, __LINE__, #got, is_, wanted_);\
            failures++;                                                                   \
        }                                                                                 \
    } while (0)

/* What no call is to write over is filled with this byte. */
#define UNWRITTEN 7
#define IS_UNWRITTEN(memory, len) \
    for (size_t i_ = 0; i_ < (len); i_++) IS((memory)[i_], UNWRITTEN)

static inline size_t below(size_t limit) { return (size_t)rand() % limit; }

static inline void fill_at_random(void *memory, size_t len) {
    for (size_t i = 0; i < len; i++) ((uint8_t *)memory)[i] = (uint8_t)rand();
}

static inline const uint8_t *text(const char *words) { return (const uint8_t *)words; }

/* The status of a program whose checks are all made. */
static inline int end_of_checks(void) {
    if (failures) printf("%d failures\n", failures);
    return failures != 0;
}

#endif
