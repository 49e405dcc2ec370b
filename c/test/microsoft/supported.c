/* SPDX-License-Identifier: ISC */
/* Whether the header's function for Microsoft's compiler answers as that for the others does: both
 * are header.c's, by other names. */
#include <stdbool.h>

bool is_supported(void), is_supported_for_microsoft(void);

int main(void) { return is_supported() != is_supported_for_microsoft(); }
