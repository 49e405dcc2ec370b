/* SPDX-License-Identifier: ISC
 * Copyright 2026 the Yezdopin authors.
 *
 * What processor.c and dispatch.c share. */
#ifndef YEZDOPIN_PROCESSOR_H
#define YEZDOPIN_PROCESSOR_H

#include "yezdopin.h"
#include <stdatomic.h>

#ifdef _WIN32
#define HIDDEN /* a DLL shows what its definition file names */
#else
#define HIDDEN __attribute__((visibility("hidden")))
#endif

/* What the library runs here, as yz_features says, and ASKED; 0 as long as nobody asked. */
enum { ASKED = 1 << 7 };
extern HIDDEN _Atomic uint8_t yz_known;

/* Asks the processor, and writes `yz_known`. Threads that ask at once all write the same. */
HIDDEN uint8_t yz_ask(void);

/* What is known. The processor is asked once, since `cpuid` takes microseconds on a virtual
 * machine, where each traps. */
static inline uint8_t known_features(void) {
    uint8_t features = atomic_load_explicit(&yz_known, memory_order_relaxed);
    return features != 0 ? features : yz_ask();
}

#endif
