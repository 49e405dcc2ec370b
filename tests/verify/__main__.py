#!/usr/bin/env python3
# SPDX-License-Identifier: ISC
"""Tries the checker of the library's machine code (docs/VERIFY.md), and the library by it.

    python3 tests/verify [--anew] [WORD..]     all tests, or those with one of these words

The definition stands beside hashlib, the vectors and the tables of crates/; the reader of
instructions beside objdump; their meanings beside the processor; the terms beside Python's numbers.
Then the library is checked, and so are the programs and copies with faults, which the check must
refuse; all that for x86-64, and for 64-bit ARM under qemu. The libraries are built by make first.
What takes minutes isn't tried again where neither a library nor the checker has changed since it
passed, for the user of this machine: --anew tries all. The last line is 'N passed, M failed', or 'N
passed, M failed, K skipped'.
"""

import hashlib
import os
import pathlib
import subprocess
import sys
import unittest

sys.dont_write_bytecode = True
ROOT = pathlib.Path(__file__).resolve().parent.parent.parent
sys.path += [str(ROOT / "tests/lib"), str(ROOT / "verify")]
import counted
import definition
import for_arm
import for_programs
import for_wasm
import for_windows
import machine_code
import refused
import shipped

KEPT = pathlib.Path(os.environ.get("XDG_CACHE_HOME") or "~/.cache").expanduser() / "yezdopin"


def digest():
    """The sum of all that a verdict depends on: the libraries, the checker, its tests, the
    processor."""
    found = hashlib.sha256()
    for library in (machine_code.LIBRARY, for_arm.LIBRARY)[:1 + bool(for_arm.HAS_COMPILER)]:
        found.update(library.read_bytes())
        found.update(library.with_name("libyezdopin.a").read_bytes())
    for path in (*for_wasm.TEXTS, *for_programs.TEXTS):
        found.update(path.read_bytes())
    for folder in (ROOT / "verify", ROOT / "tests/verify"):
        for path in sorted(folder.iterdir()):
            if path.is_file():
                found.update(path.name.encode() + b"\0" + path.read_bytes())
    found.update(pathlib.Path("/proc/cpuinfo").read_bytes().partition(b"\n\n")[0][-600:])
    return found.hexdigest()


def main():
    words = sys.argv[1:]
    is_anew = "--anew" in words
    names = [it for it in words if it != "--anew"]
    for words in ([], ["ARCH=aarch64"] if for_arm.HAS_COMPILER else []):
        made = subprocess.run(["make", "-C", ROOT, *words], stdin=subprocess.DEVNULL,
                              stdout=subprocess.DEVNULL, check=False)
        if made.returncode:
            print("the library could not be built\n0 passed, 1 failed")
            return 1
    kept = KEPT / f"verify-{digest()}"
    if kept.exists() and not is_anew and not names:
        print(kept.read_text(), end="")
        return 0
    cases = (*definition.CASES, *machine_code.CASES, *refused.CASES, *shipped.CASES,
             *for_programs.CASES, *for_arm.CASES, *for_windows.CASES, *for_wasm.CASES)
    counts = counted.run(counted.suite(cases, names), sys.stdout).counts()
    status = counted.report(*counts)
    if not status and not names and not counts[2]:
        KEPT.mkdir(parents=True, exist_ok=True)
        kept.write_text("neither the library nor the checker has changed since all tests passed\n"
                        f"{counts[0]} passed, 0 failed\n")
    return status


if __name__ == "__main__":
    sys.exit(main())
