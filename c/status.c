/* SPDX-License-Identifier: ISC
 * Copyright 2026 the Yezdopin authors.
 *
 * What statuses say. It is C beside the proved crate, and no proof covers it. */
#include "yezdopin.h"

/* The header's words for each status, which tools/lists.py writes. They are rows of bytes and
 * no pointers, which a loader would have to write to; and a row's length is a power of two, so that
 * its place needs no multiplication (`make exports`). */
static const char TEXTS[][64] = {
    /* statuses: made by tools/lists.py */
    [YZ_OK] = "success",
    [YZ_UNKNOWN_ALGORITHM] = "the number names no algorithm or scheme of this call",
    [YZ_UNKNOWN_CONTEXT] = "the bytes can be no context or key",
    [YZ_NO_ITERATIONS] = "the number of iterations is 0",
    [YZ_WRONG_LENGTH] = "the output or a text has a wrong length",
    [YZ_BAD_FORMAT] = "no password hash has the text",
    [YZ_TOO_MANY_ITERATIONS] = "the text has more iterations than the caller takes",
    [YZ_BAD_SALT] = "a new password hash can't have the salt",
    [YZ_UNSPECIFIED] = "an input is out of its limits, or the verification failed",
    /* /statuses */
};

const char *yz_status_text(yz_status status) {
    const yz_status count = sizeof TEXTS / sizeof *TEXTS;
    return status >= 0 && status < count ? TEXTS[status] : "unknown status";
}
