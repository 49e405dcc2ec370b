#!/usr/bin/env python3
# SPDX-License-Identifier: ISC
"""The C that the programs call beyond the C library, `programs/runtime.c`: arguments in each room,
folders that are no links, and memory.

    tests/program_runtime.py [PROGRAMS]    the C of another folder

The last line is 'N passed, M failed', and ', K skipped' without what it is for.
"""

import os
import pathlib
import platform
import shlex
import shutil
import subprocess
import sys
import tempfile

ROOT = pathlib.Path(__file__).resolve().parent.parent
FLAGS = ["-O2", "-Wall", "-Wextra", "-Werror"]
WORDS = ["", "x", "a b", "é", "y" * 255, "z" * 256]


def main():
    folder = pathlib.Path(sys.argv[1]) if len(sys.argv) > 1 else ROOT / "programs"
    compiler = shlex.split(os.environ.get("CC", "cc"))
    is_theirs = platform.machine() == "x86_64" and platform.libc_ver()[0] == "glibc"
    lacking = None if shutil.which(compiler[0]) else "a C compiler"
    if lacking or not is_theirs:
        print(f"left out: the programs' C, without {lacking or 'glibc on x86-64'}")
        print("0 passed, 0 failed, 1 skipped")
        return 0
    with tempfile.TemporaryDirectory() as room:
        program, place = f"{room}/runtime", f"{room}/place"
        os.mkdir(place)
        sources = [folder / "runtime.c", folder / "test/runtime.c"]
        fails = subprocess.run([*compiler, *FLAGS, *sources, "-o", program]).returncode
        fails = fails or subprocess.run([program, place, *WORDS], timeout=60).returncode
    print("0 passed, 1 failed" if fails else "1 passed, 0 failed")
    return fails != 0


if __name__ == "__main__":
    sys.exit(main())
