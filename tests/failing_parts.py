#!/usr/bin/env python3
# SPDX-License-Identifier: ISC
"""How ./bench ends where the system refuses it something, which no contract sees.

Loads preload.c into the built program. Over one text of all kinds of lines each request for memory
is refused in turn, until a run ends with none refused, and each read and each write fails in turn.
Over many short lines it counts the writes, and fails some calls in mid-stream. The last line is
'N passed, M failed', or 'N passed, M failed, K skipped' where there is no C compiler.
"""

import functools
import pathlib
import sys
import tempfile

sys.dont_write_bytecode = True
sys.path.append(str(pathlib.Path(__file__).resolve().parent / "lib"))
import counted
import run as programs

# Lines and their answers, as vectors/ has them with their sources; the last line has no line feed.
TAG = b"b0344c61d8db38535ca8afceaf0bf12b881dc200c9833da726e9376c2e32cff7"
KEY_AND_MESSAGE = b"SHA256 " + b"0b" * 20 + b" 4869205468657265"
ROWS = [
    (b"digest SHA256 -", b"e3b0c44298fc1c149afbf4c8996fb92427ae41e4649b934ca495991b7852b855 1"),
    (
        b"digest SHA256 " + b"00" * 64,
        b"f5a5fd42d16a20302798ef6ed309979b43003d2320d9f0e8ea9831a92759fb4b 2",
    ),
    (b"hmac " + KEY_AND_MESSAGE, TAG + b" 4"),
    (b"hmac-verify " + KEY_AND_MESSAGE + b" " + TAG, b"match 4"),
    (
        b"hkdf SHA256 000102030405060708090a0b0c " + b"0b" * 22 + b" f0f1f2f3f4f5f6f7f8f9 42",
        b"3cb25f25faacd57a90434f64d0362f2a2d2d0a90cf1a5a4c5db02d56ecc4c5bf34007208d5b887185865 10",
    ),
    (b"pbkdf2 SHA1 1 70617373776f7264 73616c74 20", b"0c60c80f961f0e71f3a9b524af6012062fe037a6 4"),
]
TEXT = b"\n".join(line for line, _ in ROWS)
ANSWERS = [answer + b"\n" for _, answer in ROWS]
ALL = b"".join(ANSWERS)

# Many short lines, so that several of them are read at once.
MANY = 20_000
MANY_TEXT = (ROWS[0][0] + b"\n") * MANY
# How many of these lines a read gives below, and in how many writes all answers go out at most.
LINES_A_READ = 100
STEP = LINES_A_READ * len(MANY_TEXT) // MANY
MOST_WRITES = MANY // 50

WELL = (0, b"")
MEMORY = (2, b"ring_bench: out of memory\n")
READ = (2, b"ring_bench: read failed\n")
WRITE = (2, b"ring_bench: write failed\n")
MOST_REQUESTS = 1000


class Run:
    """A run of the program with the library loaded: its end, its output and its calls' counts."""

    def __init__(self, preload, text, **failing):
        bench = programs.built("ring_bench_main")
        with tempfile.TemporaryFile() as file:  # of a pipe a read gives what has come
            file.write(text)
            file.seek(0)
            run = functools.partial(programs.ended, bench, stdin=file, timeout=60)
            (status, self.output, error), calls, self.requests = preload.watched(run, **failing)
        self.ending = (status, error)
        self.reads, self.writes = calls.count("read"), calls.count("write")


def first_answers(output):
    """How many whole answers the output is, the first ones; None where it is something else."""
    counts = [count for count in range(len(ANSWERS) + 1) if b"".join(ANSWERS[:count]) == output]
    return counts[0] if counts else None


def wants_memory(preload):
    """Each request refused in turn: whole answers of the first lines, of ever more lines."""
    seen = []
    for request in range(1, MOST_REQUESTS):
        run = Run(preload, TEXT, REFUSED_REQUEST=request)
        if run.requests < request:
            whole = (run.ending, run.output) == (WELL, ALL) and run.requests == request - 1
            return whole and sorted(set(seen)) == list(range(len(ROWS))) and seen == sorted(seen)
        if (run.ending, run.output) == (WELL, ALL):
            continue
        answered = first_answers(run.output)
        if run.ending != MEMORY or answered in (None, len(ROWS)):
            print(f"  request {request}: {run.ending}, {run.output}")
            return False
        seen.append(answered)
    return False


def fails_to_read(preload):
    """Each read of a byte failed in turn: the answers to the lines that were ended before it."""
    for given in range(len(TEXT) + 1):
        run = Run(preload, TEXT, STEP=1, COUNTED="read", FAILED_CALL=given + 1)
        ended = TEXT[:given].count(b"\n")
        if run.reads != given + 1 or run.ending != READ or run.output != b"".join(ANSWERS[:ended]):
            print(f"  read {given + 1}: {run.ending}, {run.output}")
            return False
    run = Run(preload, TEXT, STEP=1)
    return (run.reads, run.ending, run.output) == (len(TEXT) + 1, WELL, ALL)


def fails_to_write(preload):
    """Each write of a byte failed in turn, and then taking none: what was taken before it."""
    for way in ("FAILED_CALL", "EMPTY_WRITE"):
        for taken in range(len(ALL)):
            run = Run(preload, TEXT, STEP=1, COUNTED="write", **{way: taken + 1})
            if run.writes != taken + 1 or run.ending != WRITE or run.output != ALL[:taken]:
                print(f"  write {taken + 1}: {run.ending}, {run.output}")
                return False
    return True


def is_interrupted(preload):
    """Reads and writes that are interrupted are tried again."""
    run = Run(preload, TEXT, STEP=7, COUNTED="read write", INTERRUPTED_EVERY=3)
    return (run.ending, run.output) == (WELL, ALL)


def gathers_answers(preload):
    """Of 20,000 short lines many answers are one write."""
    run = Run(preload, MANY_TEXT)
    return (run.ending, run.output) == (WELL, ANSWERS[0] * MANY) and run.writes <= MOST_WRITES


def reads_fail_in_mid_stream(preload):
    """A read fails behind many lines: the answers to all that were ended before it."""
    for read in (2, 3, 100, MANY // LINES_A_READ + 1):
        run = Run(preload, MANY_TEXT, STEP=STEP, COUNTED="read", FAILED_CALL=read)
        answers = ANSWERS[0] * (LINES_A_READ * (read - 1))
        if (run.reads, run.ending, run.output) != (read, READ, answers):
            print(f"  read {read}: {run.ending}, {len(run.output)} bytes")
            return False
    return True


def writes_fail_in_mid_stream(preload):
    """A write fails behind many lines, or takes none: what was taken before it, and no more."""
    answers = ANSWERS[0] * LINES_A_READ
    takes = [len(answers[at : at + STEP]) for at in range(0, len(answers), STEP)]
    for way in ("FAILED_CALL", "EMPTY_WRITE"):
        for write in (1, 2, len(takes), len(takes) + 1, 100 * len(takes) + 3):
            run = Run(preload, MANY_TEXT, STEP=STEP, COUNTED="write", **{way: write})
            whole, rest = divmod(write - 1, len(takes))
            taken = whole * len(answers) + sum(takes[:rest])
            output = (ANSWERS[0] * MANY)[:taken]
            if (run.writes, run.ending, run.output) != (write, WRITE, output):
                print(f"  {way} {write}: {run.ending}, {len(run.output)} bytes of {taken}")
                return False
    return True


def wants_memory_in_mid_stream(preload):
    """Memory runs out after many lines: as many answers as where each line is read by itself."""
    half = Run(preload, MANY_TEXT).requests // 2
    run = Run(preload, MANY_TEXT, REFUSED_REQUEST=half)
    alone = Run(preload, MANY_TEXT, REFUSED_REQUEST=half, STEP=STEP // LINES_A_READ)
    answered = len(run.output) // len(ANSWERS[0])
    whole = run.output == ANSWERS[0] * answered and MANY // 3 < answered < MANY * 2 // 3
    return whole and run.ending == MEMORY and (alone.ending, alone.output) == (MEMORY, run.output)


def empty_text(preload):
    """The empty text takes no memory, and nothing is written."""
    run = Run(preload, b"", REFUSED_REQUEST=1)
    return (run.requests, run.writes, run.ending, run.output) == (0, 0, WELL, b"")


CASES = [
    wants_memory,
    fails_to_read,
    fails_to_write,
    is_interrupted,
    gathers_answers,
    reads_fail_in_mid_stream,
    writes_fail_in_mid_stream,
    wants_memory_in_mid_stream,
    empty_text,
]


def main():
    programs.built("ring_bench_main")
    passed = failed = 0
    with tempfile.TemporaryDirectory() as folder:
        preload = programs.COMPILER and programs.Preload(folder)
        if not preload:
            print("left out: each request, read and write that fails in turn, without a C compiler")
            return counted.report(0, 0, len(CASES))
        for case in CASES:
            holds = case(preload)
            print(f"{'ok' if holds else 'FAILED'}: {case.__doc__}")
            passed, failed = passed + holds, failed + (not holds)
    return counted.report(passed, failed, 0)


if __name__ == "__main__":
    sys.exit(main())
