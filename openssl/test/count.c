/* SPDX-License-Identifier: ISC */
/* Counts the library's calls, for a build of the provider that is linked with `--wrap`, so that a
 * test sees which programs use it. When the module is unloaded or the program ends, the destructor
 * appends a line to the file that the variable YEZDOPIN_COUNTS names: the program, its process, and
 * each call that was made, with its number. */
#include "yezdopin.h"
#include <stdatomic.h>
#include <stdio.h>
#include <stdlib.h>
#include <unistd.h>

/* Name, parameters and arguments of each call that the provider makes. */
#define CALLS(X) \
    X(digest, (uint32_t a, const uint8_t *b, size_t c, uint8_t *d, size_t e), (a, b, c, d, e)) \
    X(digest_init, (uint32_t a, yz_digest_context *b), (a, b)) \
    X(digest_update, (yz_digest_context *a, const uint8_t *b, size_t c), (a, b, c)) \
    X(digest_final, (const yz_digest_context *a, uint8_t *b, size_t c), (a, b, c)) \
    X(hmac_key_init, (uint32_t a, const uint8_t *b, size_t c, yz_hmac_key *d), (a, b, c, d)) \
    X(hmac_init, (const yz_hmac_key *a, yz_hmac_context *b), (a, b)) \
    X(hmac_update, (yz_hmac_context *a, const uint8_t *b, size_t c), (a, b, c)) \
    X(hmac_final, (const yz_hmac_context *a, uint8_t *b, size_t c), (a, b, c)) \
    X(hkdf, (uint32_t a, const uint8_t *b, size_t c, const uint8_t *d, size_t e, \
             const uint8_t *f, size_t g, uint8_t *h, size_t i), (a, b, c, d, e, f, g, h, i)) \
    X(hkdf_extract, (uint32_t a, const uint8_t *b, size_t c, const uint8_t *d, size_t e, \
                     uint8_t *f, size_t g), (a, b, c, d, e, f, g)) \
    X(hkdf_expand, (uint32_t a, const uint8_t *b, size_t c, const uint8_t *d, size_t e, \
                    uint8_t *f, size_t g), (a, b, c, d, e, f, g)) \
    X(pbkdf2_derive, (uint32_t a, uint32_t b, const uint8_t *c, size_t d, const uint8_t *e, \
                      size_t f, uint8_t *g, size_t h), (a, b, c, d, e, f, g, h))

#define WRAPPED(name, parameters, arguments) \
    static atomic_ulong count_##name; \
    yz_status __real_yz_##name parameters; \
    yz_status __wrap_yz_##name parameters; \
    yz_status __wrap_yz_##name parameters \
    { \
        atomic_fetch_add_explicit(&count_##name, 1, memory_order_relaxed); \
        return __real_yz_##name arguments; \
    }
CALLS(WRAPPED)

#define PRINTED(name, parameters, arguments) \
    if (count_##name != 0) \
        at += snprintf(line + at, sizeof line - (size_t)at, " " #name "=%lu", count_##name);

__attribute__((destructor)) static void print_counts(void)
{
    const char *path = getenv("YEZDOPIN_COUNTS");
    FILE *file = path == NULL ? NULL : fopen(path, "a");
    char line[1024], program[256] = "?";
    ssize_t len = readlink("/proc/self/exe", program, sizeof program - 1);
    int at;
    if (file == NULL) return;
    program[len < 0 ? 0 : len] = 0;
    at = snprintf(line, sizeof line, "%s %d:", program, (int)getpid());
    CALLS(PRINTED)
    fprintf(file, "%s\n", line);
    fclose(file);
}
