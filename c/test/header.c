/* SPDX-License-Identifier: ISC */
/* The header alone, before <cpuid.h> and behind it. That has no include guard in gcc before 11, so
 * the header mustn't include it. `make header` compiles this as C99 and as C++11. */
#ifdef BEHIND
#include <cpuid.h>
#endif
#include "yezdopin.h"
#ifdef BEFORE
#ifdef bit_SSE3
#error "yezdopin.h includes <cpuid.h>"
#endif
#include <cpuid.h>
#endif

bool is_supported(void);

bool is_supported(void) { return yz_supported(); }

/* The macros, without a cast that C++ warns of. */
static inline size_t lengths(size_t len) {
    return YZ_JWS_TOKEN_LEN(len, 32) + YZ_HKDF_MAX_OUT_LEN(len) + YZ_PBKDF2_MAX_OUT_LEN(len);
}
