#!/usr/bin/env python3
# SPDX-License-Identifier: ISC
"""Times the package beside hashlib and hmac, both taking turns, as a table in Markdown.

    make python-bench

Each time is one call's, the least processor time of many turns. Below 1 ours is the faster.
"""

from __future__ import annotations

import hashlib
import hmac
import os
import pathlib
import re
import ssl
import sys
import time
from typing import Any, Callable

import yezdopin
from yezdopin import hmac as tags

TURNS = 300
TURN_SECONDS = 0.002

SHORT, BLOCK, PAGE, LONG = b"x" * 16, b"x" * 64, b"x" * 4096, b"x" * 2**16
ARRAY, READONLY = bytearray(LONG), memoryview(LONG)
EIGHT, PAGES = [bytes([it]) * 64 for it in range(8)], [bytes([it]) * 4096 for it in range(8)]
KEY, SECRET = tags.Key(b"key", "sha256"), b"key"
PASSWORD = ("sha256", b"password", b"salt", 1000)

Call = Callable[[], Any]
ROWS: list[tuple[str, Call, Call]] = [
    (
        "`sha256(16 bytes).digest()`",
        lambda: yezdopin.sha256(SHORT).digest(),
        lambda: hashlib.sha256(SHORT).digest(),
    ),
    (
        '`new("sha512", 16 bytes).digest()`',
        lambda: yezdopin.new("sha512", SHORT).digest(),
        lambda: hashlib.new("sha512", SHORT).digest(),
    ),
    (
        "`sha256(4 KiB).digest()`",
        lambda: yezdopin.sha256(PAGE).digest(),
        lambda: hashlib.sha256(PAGE).digest(),
    ),
    (
        "`sha256(64 KiB).digest()`",
        lambda: yezdopin.sha256(LONG).digest(),
        lambda: hashlib.sha256(LONG).digest(),
    ),
    (
        "the same of a `bytearray`",
        lambda: yezdopin.sha256(ARRAY).digest(),
        lambda: hashlib.sha256(ARRAY).digest(),
    ),
    (
        "the same of a read-only `memoryview`",
        lambda: yezdopin.sha256(READONLY).digest(),
        lambda: hashlib.sha256(READONLY).digest(),
    ),
    (
        "`digest_each` of 8 times 64 bytes, beside 8 calls",
        lambda: yezdopin.digest_each("sha256", EIGHT),
        lambda: [hashlib.sha256(it).digest() for it in EIGHT],
    ),
    (
        "`digest_each` of 8 times 4 KiB, beside 8 calls",
        lambda: yezdopin.digest_each("sha256", PAGES),
        lambda: [hashlib.sha256(it).digest() for it in PAGES],
    ),
    (
        '`hmac.digest(key, 64 bytes, "sha256")`',
        lambda: tags.digest(SECRET, BLOCK, "sha256"),
        lambda: hmac.digest(SECRET, BLOCK, "sha256"),
    ),
    (
        '`hmac.new(key, 64 bytes, "sha256").digest()`',
        lambda: tags.new(SECRET, BLOCK, "sha256").digest(),
        lambda: hmac.new(SECRET, BLOCK, "sha256").digest(),
    ),
    (
        "`Key.sign(64 bytes)`, beside `hmac.digest`",
        lambda: KEY.sign(BLOCK),
        lambda: hmac.digest(SECRET, BLOCK, "sha256"),
    ),
    (
        "`pbkdf2_hmac`, 1,000 iterations",
        lambda: yezdopin.pbkdf2_hmac(*PASSWORD),
        lambda: hashlib.pbkdf2_hmac(*PASSWORD),
    ),
]


def seconds(call: Call, times: int) -> float:
    """The processor time of some calls."""
    start = time.process_time()
    for _ in range(times):
        call()
    return time.process_time() - start


def times_of(call: Call) -> int:
    """How many calls a turn has."""
    times = 1
    while seconds(call, times) < TURN_SECONDS:
        times *= 2
    return times


def measured(ours: Call, theirs: Call) -> tuple[float, float]:
    """The least time of one call of each, with nothing between the calls but the loop."""
    calls = [(it, times_of(it)) for it in (ours, theirs)]
    least = [float("inf")] * 2
    for _ in range(TURNS):
        for which, (call, times) in enumerate(calls):
            least[which] = min(least[which], seconds(call, times) / times)
    return least[0], least[1]


def processor() -> str:
    """The processor's name."""
    said = re.search("^model name\t: (.*)$", pathlib.Path("/proc/cpuinfo").read_text(), re.M)
    return said.group(1) if said else "a processor without a name"


def formatted(length: float) -> str:
    """A time in microseconds, with as many digits as are worth showing."""
    return f"{length * 1e6:.2f} us" if length < 1e-4 else f"{length * 1e6:.0f} us"


def main() -> None:
    """Prints the table, where both give the same."""
    os.sched_setaffinity(0, {max(os.sched_getaffinity(0))})
    version = sys.version.split()[0]
    print(f"{processor()}; Python {version}, {ssl.OPENSSL_VERSION}.\n")
    print("| Call | ours | theirs | ours / theirs |\n|---|---|---|---|")
    for what, ours, theirs in ROWS:
        if ours() != theirs():
            raise SystemExit(f"{what} gives something else")
        mine, other = measured(ours, theirs)
        print(f"| {what} | {formatted(mine)} | {formatted(other)} | {mine / other:.2f} |")


if __name__ == "__main__":
    main()
