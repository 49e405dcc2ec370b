#!/usr/bin/env python3
# SPDX-License-Identifier: ISC
"""What ./sums writes, beside coreutils 9.1 and `hashlib`.

Generated cases run the program, with vectors of each width, and coreutils' `sha256sum` or one of
its kin in one folder, under one name and with the same words: files with all kinds of names, lists
that are whole and lists that are broken, and options in all orders. Standard output, standard error
and status are to be the same byte for byte, but that a check escapes names as coreutils 9.7 do.
Further tests have no second source but `hashlib`. preload.c is loaded into the program so that each system
call fails in turn, so that a file changes while it is read, and so that the clock goes on by equal
steps.

    python3 tests/sums [WORD..]     all tests, or those with one of these words in their names
    python3 tests/sums --speed      the table of docs/SUMS.md: seconds of processor

The last line is 'N passed, M failed', with ', K skipped' behind it where something is missing: a
tool, or AVX2 for the wider vectors. Each generated case counts as one.
"""

import pathlib
import sys

sys.dont_write_bytecode = True
sys.path.append(str(pathlib.Path(__file__).resolve().parents[1] / "lib"))
import alone
import counted
import failing
import generated
import launcher
import lists
import processors
import progress
import speed

CASES = [generated.BesideCoreutils, alone.Alone, failing.Failing, launcher.Launcher,
         processors.Processors, progress.Progress]


def main():
    asked = sys.argv[1:]
    if asked == ["--speed"]:
        speed.speed()
        return 0
    result = counted.run(counted.suite(CASES, asked), sys.stdout)
    passed, failed, skipped = result.counts()
    if not lists.WIDE:
        lacks = "its text" if lists.has_avx2() else "AVX2"
        print(f"left out: vectors of 256 bits, without {lacks}")
        skipped += 1
    return counted.report(passed + generated.BesideCoreutils.count, failed, skipped)


if __name__ == "__main__":
    sys.exit(main())
