#!/usr/bin/env python3
# SPDX-License-Identifier: ISC
"""What ./passwords does with its file, its arguments and its input: each status and each message.

Runs the built program in folders of its own: over broken files, with a full disk, in a folder that
can't be written, with several processes at once, and with some that are killed. preload.c is
loaded into it so that each system call that changes a file fails in turn, and is the last in turn.
The launcher is run on terminals, with a shell and without one. `encode` and `check` are held beside
hashlib, Django, Werkzeug, passlib and PostgreSQL.

    python3 tests/passwords [WORD..]      all tests, or those with one of these words in their names

The last line is 'N passed, M failed', with ', K skipped' behind it where a tool or a right is
missing.
"""

import pathlib
import sys

sys.dont_write_bytecode = True
TESTS = pathlib.Path(__file__).resolve().parents[1]
sys.path += [str(TESTS), str(TESTS / "lib")]
import counted
import failures
import files
import launcher
import locks
import other_systems
import statuses
import terminal
import texts

CASES = [
    statuses.Iterations, statuses.Salts, statuses.Words, statuses.Passwords, statuses.Names,
    files.Refused, files.Kept, failures.Room, failures.Calls, locks.Together, locks.Beside,
    terminal.Asked, terminal.Stopped, launcher.Launcher,
    texts.Written, texts.Checked, texts.Failing, texts.OnTerminal, other_systems.OtherSystems,
]
# Those that wait long, beside the others.
BESIDE = [locks.GivenUp, statuses.LongDerivation]


def main():
    asked = sys.argv[1:]
    beside, tests = (counted.suite(cases, asked) for cases in (BESIDE, CASES))
    return counted.report(*counted.run_beside(beside, tests))


if __name__ == "__main__":
    sys.exit(main())
