/* SPDX-License-Identifier: ISC */
/* Prints what yz_features tells: its number. */
#include "yezdopin.h"
#include <stdio.h>

int main(void) {
    printf("%u\n", (unsigned)yz_features());
    return 0;
}
