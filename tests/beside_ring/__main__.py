#!/usr/bin/env python3
# SPDX-License-Identifier: ISC
"""Compares the answers of ./bench with those of Rust's `ring`, on lines made at random.

main.rs answers a line by the calls of `ring` that it is named for. It is built over Debian's
librust-ring-dev, 0.16.20 in Debian 12 and 0.17.14 in Debian 13. `ring` counts no blocks, so numbers
of blocks are left out. It also answers the lines of vectors/*.txt.

    python3 tests/beside_ring [TIMES]     TIMES times as many lines, each time others

REGISTRY is a folder of crates to take `ring` from. The last line is 'N passed, M failed', or
'0 passed, 0 failed, 1 skipped' without the package.
"""

import pathlib
import sys
import tempfile

sys.dont_write_bytecode = True
sys.path.append(str(pathlib.Path(__file__).resolve().parents[1] / "lib"))
import counted
import debian_crates
import run
from lines import Maker

HERE = pathlib.Path(__file__).resolve().parent
# By a kind of lines: how many are made, and which kinds of answers must be among them.
KINDS = {
    "digest": (8000, {"bytes"}),
    "hmac": (8000, {"bytes"}),
    "hmac_verify": (8000, {"match", "mismatch"}),
    "hkdf": (8000, {"bytes", "refused"}),
    "pbkdf2": (6000, {"bytes"}),
    "pbkdf2_verify": (6000, {"match", "mismatch", "refused"}),
    "broken": (16000, {"bytes", "match", "mismatch", "refused", "bad line"}),
}
WORDS = {"match", "mismatch", "refused", "bad line"}


def without_count(answer):
    """An answer without its number of blocks."""
    return answer if answer == "bad line" else answer.partition(" ")[0]


def answers(program, lines):
    """The answers of a program to lines."""
    text = "".join(f"{line}\n" for line in lines).encode("latin-1")
    return run.ended(program, given=text)[1].decode().split("\n")[:-1]


def differing(lines, ours, theirs):
    """The lines that two answer otherwise, with our answers."""
    if not lines or not len(lines) == len(ours) == len(theirs):
        return [("", f"{len(ours)} and {len(theirs)} answers to {len(lines)} lines")]
    return [(line, our) for line, our, their in zip(lines, ours, theirs) if our != their]


def compared(ring, lines):
    """The lines that ./bench and `ring` answer otherwise, and the answers of `ring`."""
    ours = [without_count(it) for it in answers(run.built("ring_bench_main"), lines)]
    theirs = answers(ring, lines)
    return differing(lines, ours, theirs), theirs


def made_at_random(ring, kind, times):
    """A case with lines of a kind."""
    count, wanted = KINDS[kind]

    def case():
        found, seen = [], set()
        for number in range(times):
            maker = Maker(f"{kind} {number}")
            faults, theirs = compared(ring, [getattr(maker, kind)() for _ in range(count)])
            found += faults
            seen |= {it if it in WORDS else "bytes" for it in theirs}
        return found + [("", f"the answers are {seen}")] * (seen != wanted)

    case.__doc__ = f"{kind}: {times * count} lines"
    return case


def of_vectors(ring):
    """A case with the lines of vectors/*.txt, whose answers stand there."""

    def case():
        files = sorted((run.ROOT / "vectors").glob("*.txt"))
        rows = [row for it in files for row in run.rows_of(it)]
        lines, wanted = [line for line, _ in rows], [without_count(it) for _, it in rows]
        return differing(lines, wanted, answers(ring, lines))

    case.__doc__ = "the lines of vectors/*.txt"
    return case


def planted():
    """planted: a wrong digit, a turned verdict and a lost answer are found"""
    lines, theirs = ["a", "b", "c"], ["00ff", "match", "-"]
    faults = (["00fe", "match", "-"], ["00ff", "mismatch", "-"], ["00ff", "match"])
    return [("", f"{it} is not found") for it in faults if not differing(lines, it, theirs)]


def main():
    times = int(sys.argv[1]) if len(sys.argv) > 1 else 1
    missing = debian_crates.lacking("ring")
    if missing:
        print(f"left out: ./bench beside `ring`, without {missing}")
        return counted.report(0, 0, 1)
    run.built("ring_bench_main")
    with tempfile.TemporaryDirectory(prefix="beside_ring.") as name:
        folder = pathlib.Path(name)
        made = debian_crates.build(folder, HERE / "Cargo.toml", HERE / "main.rs",
                                   HERE.parents[1] / "rust/src/rows.rs")
        ring = made / "beside_ring"
        print(f"ring {debian_crates.version(folder, 'ring')}", flush=True)
        cases = [planted, of_vectors(ring), *(made_at_random(ring, it, times) for it in KINDS)]
        return counted.report(*counted.run_answered([(it, "") for it in cases]))


if __name__ == "__main__":
    sys.exit(main())
