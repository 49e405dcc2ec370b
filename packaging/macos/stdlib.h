/* SPDX-License-Identifier: ISC */
/* What processor.c takes of this header, where the library is built for macOS without Apple's. */
char *getenv(const char *name);
