/* SPDX-License-Identifier: ISC */
/* What yezdopin.h takes of Microsoft's header of this name, by which no other compiler has it. */
static inline void __cpuid(int registers[4], int leaf) {
    __asm__ volatile("cpuid"
                     : "=a"(registers[0]), "=b"(registers[1]), "=c"(registers[2]),
                       "=d"(registers[3])
                     : "a"(leaf), "c"(0));
}
